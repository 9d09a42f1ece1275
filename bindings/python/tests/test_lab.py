"""A lab in a program: who holds, who waits, and who is told what; by threads."""

from __future__ import annotations

import math
import os
import subprocess
import sys
import threading
import time
import unittest
from typing import Callable
from unittest import mock

import labrun
from labrun import _shell
from tests.labs import STATIONS, OnLab
from tests.benches import LIMIT, back, child, in_thread, until
from tests.test_runs import TOP


class Holding(OnLab):
    def test_hold(self) -> None:
        lab = self.lab()
        for number in (1, 2):
            held = lab.hold("supply", "scope", "scope")
            self.assertEqual((held.number, held.state, held.held, held.instruments), (0, "new", False, ("scope", "supply")))
            with held as entered:
                self.assertIs(entered, held)
                self.assertEqual((held.number, held.state, held.held, held.station), (number, "held", True, ""))
            self.assertEqual((held.state, held.held, held.instruments), ("finished", False, ("scope", "supply")))
        for again in (held.acquire, held.release):
            with self.assertRaises(labrun.NotHeld):
                again()
        self.is_empty(lab)

    def test_entered_twice(self) -> None:
        """The one who is within goes on to hold."""
        lab = self.lab()
        with lab.hold("scope") as held:
            with self.assertRaisesRegex(labrun.NotHeld, "session 1 of a guest is held: it is entered once"):
                held.acquire()
            with self.assertRaises(labrun.NotHeld), held:
                self.fail("it was entered")
            self.assertTrue(held.held)

    def test_station(self) -> None:
        lab = self.lab()
        board = lab.station("board")
        self.assertEqual((board.name, board.instruments, lab.stations), ("board", ("scope", "supply"), tuple(STATIONS)))
        with board.hold("scope") as held:
            self.assertEqual((held.station, held.called), ("board", "session 1 of board"))
            # (its place is taken, though the supply is free)
            thread_saw: list[BaseException] = []
            back(self.waits_in_vain(board.hold("supply", timeout=0.01), thread_saw))
            self.assertRegex(str(thread_saw[0]), r"the place of board has been held by session 1 of board for \d\.\d s")
            with lab.hold("supply", timeout=0):
                pass
        with self.assertRaises(ValueError):
            lab.station("kitchen")
        with self.assertRaises(ValueError):
            lab.station("")
        self.is_empty(lab)

    def waits_in_vain(self, held: labrun.Held, faults: list[BaseException]) -> threading.Thread:
        def wait() -> None:
            try:
                held.acquire()
            except BaseException as fault:
                faults.append(fault)

        return in_thread(wait)

    def test_nested(self) -> None:
        """Another session of the station by the same thread would wait for itself for ever; by another thread it waits."""
        lab = self.lab()
        board = lab.station("board")
        with board.hold("scope") as held:
            for more in ("supply", "scope"):
                with self.assertRaisesRegex(labrun.WouldBlock, "board is in a session of this thread"):
                    with board.hold(more):
                        pass
            self.assertTrue(held.held)
            thread = self.waits(board.hold("supply"))
        back(thread)
        with self.assertRaises(labrun.TakenAway), board.hold("scope") as held:
            lab.take_away(held.number)
            # (it is over: another may come)
            with board.hold("scope", timeout=0):
                pass
        self.is_empty(lab)

    def test_may_not_use(self) -> None:
        lab = self.lab(guests=["scope"])
        for hold, wrong, text in (
            (lab.hold, "supply", "a guest may not use supply: it may use scope"),
            (lab.station("host").hold, "scope", "host may not use scope: it may use load-1, load-2"),
        ):
            with self.assertRaises(labrun.MayNotUse) as fault:
                hold(wrong)
            self.assertEqual(str(fault.exception), text)
            with self.assertRaises(labrun.MayNotUse):
                hold(any_of=[wrong])

    def test_bad_arguments(self) -> None:
        lab = self.lab()
        bad: list[Callable[[], object]] = [
            lambda: lab.hold(),
            lambda: lab.hold("lamp"),
            lambda: lab.hold("scope", any_of=["supply"]),
            lambda: lab.hold(any_of=[()]),
            lambda: lab.hold("scope", timeout=-1),
            lambda: lab.hold("scope", timeout=math.nan),
            lambda: lab.hold("scope", limit=-0.1),
            lambda: labrun.Lab("scope"),
            lambda: labrun.Lab([""]),
            lambda: labrun.Lab(["a"], stations={"x": ["b"]}),
            lambda: labrun.Lab(["a"], stations={"": ["a"]}),
            lambda: labrun.Lab(["a"], guests=["b"]),
            lambda: labrun.Lab(["a"], places=0),
            lambda: labrun.Lab(["a"], overtakes=-1),
            lambda: labrun.Lab(["a"], sync="all"),
            lambda: labrun.Lab([f"i{at}" for at in range(65)]),
            lambda: labrun.Lab(["a"], stations={f"s{at}": ["a"] for at in range(32)}),
        ]
        for at, call in enumerate(bad):
            with self.subTest(at), self.assertRaises(ValueError):
                call()

    def test_a_text_for_any_of(self) -> None:
        """(Its letters are no names of instruments.)"""
        lab = labrun.Lab(["l", "o"])
        self.addCleanup(lab.close)
        for text in ("lo", "l-*"):
            with self.assertRaises(ValueError) as fault:
                lab.hold(any_of=text)
            self.assertEqual(str(fault.exception), f"any_of: a list of instruments, or of sets of them, is wanted, and not the text {text!r}")

    def test_largest(self) -> None:
        """64 instruments, each held; 31 stations and guests."""
        names = [f"i{at}" for at in range(64)]
        with labrun.Lab(names, stations={f"s{at}": names for at in range(31)}) as lab:
            sessions = [self.held(lab, f"s{at}" if at < 31 else "", names[at]) for at in range(64)]
            self.assertEqual([it.instruments for it in sessions], [(name,) for name in names])
            self.in_vain(lab.hold(*names, timeout=0), "i63 has been held by session 64 of a guest")
            for it in sessions:
                it.release()
            with lab.hold(*names, timeout=math.inf) as held:
                self.assertEqual(held.instruments, tuple(names))

    def test_places(self) -> None:
        lab = self.lab(places=2)
        first, second = self.held(lab, "", "scope"), self.held(lab, "", "supply")
        self.in_vain(lab.hold("load-1", timeout=0), "a guest's place has been held by session 1 of a guest")
        self.held(lab, "host", "load-1").release()
        thread = self.waits(lab.hold("load-1"))
        second.release()
        back(thread)
        first.release()
        self.is_empty(lab)

    def test_no_guests(self) -> None:
        lab = self.lab(guests=[])
        with self.assertRaisesRegex(labrun.MayNotUse, "a guest may not use scope: it may use nothing"):
            lab.hold("scope")
        with lab.station("radio").hold("scope"):
            pass

    def test_own_station(self) -> None:
        lab = self.lab(station="radio")
        with lab.hold("scope") as held:
            self.assertEqual(held.station, "radio")
        with self.assertRaises(ValueError):
            self.lab(station="kitchen")

    def test_timeout(self) -> None:
        """What is free is held with 0; what isn't, is given up, and who has it is told."""
        lab = self.lab()
        with lab.hold("scope", timeout=0), lab.hold("supply", note="calibration") as other:
            begun = time.monotonic()
            told = r"session 3 of a guest was given up when its time was over: scope has been held by session 1 of a guest for \d+\.\d s"
            self.in_vain(lab.hold("scope", timeout=0), told)
            self.assertLess(time.monotonic() - begun, LIMIT / 2)
            late = lab.hold("load-1", "supply", timeout=0.05)
            with self.assertRaises(labrun.TimeoutError) as fault:
                late.acquire()
            self.assertGreaterEqual(time.monotonic() - begun, 0.05)
            keeper = fault.exception.keepers[0]
            self.assertEqual((keeper.instrument, keeper.job, keeper.holds), ("supply", "session 2 of a guest (calibration)", True))
            assert keeper.seconds is not None
            self.assertGreaterEqual(keeper.seconds, 0.049)
            self.assertIsInstance(fault.exception, TimeoutError)
            self.assertIs(fault.exception.session, late)
            self.assertTrue(other.held)
        for again in (late.acquire, late.release):
            with self.assertRaises(labrun.NotHeld):
                again()
        self.is_empty(lab)

    def test_never_too_early(self) -> None:
        """The clock is read in whole milliseconds: one of 50 that begins at 10.9 isn't over at 60.5."""
        clock = mock.Mock(monotonic_ns=lambda: nanoseconds[0])
        nanoseconds = [10900000]
        with mock.patch.object(_shell, "time", clock), mock.patch.object(_shell, "starts", lambda *given: None):
            lab = self.lab()
            first, late = self.held(lab, "", "scope"), lab.hold("scope", timeout=0.05)
            faults: list[BaseException] = []
            thread = self.waits(late, faults)
            for now, state in ((60500000, "waiting"), (61000000, "given up")):
                nanoseconds[0] = now
                lab._shell.looks_once()
                self.assertEqual(late.state, state)
            back(thread)
            self.assertEqual([type(it) for it in faults], [labrun.TimeoutError])
            first.release()

    def test_others_are_told(self) -> None:
        """Whoever asks or lets go when another's time is over tells them, also if what it asks for is free."""
        clock = mock.Mock(monotonic_ns=lambda: nanoseconds[0])
        nanoseconds = [0]
        for is_asked in (True, False):
            with mock.patch.object(_shell, "time", clock), mock.patch.object(_shell, "starts", lambda *given: None):
                lab, faults = self.lab(), []  # type: ignore[var-annotated]
                first, other, late = self.held(lab, "", "scope"), self.held(lab, "", "supply"), lab.hold("scope", timeout=0.05)
                thread = self.waits(late, faults)
                nanoseconds[0] += 10**9
                held = self.held(lab, "", "load-1") if is_asked else other
                if not is_asked:
                    other.release()
                back(thread)
                self.assertEqual([type(it) for it in faults], [labrun.TimeoutError])
                self.assertEqual((first.held, held.held), (True, is_asked))

    def test_chain(self) -> None:
        """It says for whom it is kept, and who is at work at the end."""
        lab = self.lab(overtakes=0)
        radio = self.held(lab, "radio", "scope")
        board = lab.station("board").hold("scope", "supply")
        thread = self.waits(board)
        drive = lab.station("drive").hold("supply", timeout=0)
        self.in_vain(drive, "supply is kept for session 2 of board, which waits for scope, held by session 1 of radio for")
        self.assertEqual([(it.instrument, it.job, it.holds) for it in board.waits_for()], [("scope", "session 1 of radio", True)])
        radio.release()
        back(thread)
        self.assertEqual(board.waits_for(), ())

    def test_waits_and_is_woken(self) -> None:
        for overtakes in (0, 5):
            lab = self.lab(overtakes=overtakes)
            first = self.held(lab, "board", "scope")
            held = lab.station("radio").hold("scope")
            thread = self.waits(held)
            first.release()
            back(thread)
            self.assertEqual(held.state, "finished")
            self.is_empty(lab)

    def test_order_of_asking(self) -> None:
        lab, order = self.lab(), []
        first = self.held(lab, "", "scope")

        def one(at: int) -> None:
            with lab.hold("scope"):
                order.append(at)

        threads = []
        for at in range(5):
            threads.append(in_thread(lambda at=at: one(at)))
            until(lambda: len(lab.sessions()) == at + 2)
        first.release()
        for thread in threads:
            back(thread)
        self.assertEqual(order, [0, 1, 2, 3, 4])

    def test_tokens(self) -> None:
        """They rise as sessions come to hold, whoever asked first, and nobody has one before."""
        lab = self.lab()
        first = self.held(lab, "board", "scope")
        waits = lab.station("radio").hold("scope")
        thread = self.waits(waits)
        second = self.held(lab, "", "supply")
        self.assertEqual((first.token, waits.token, second.token, second.number), (1, 0, 2, 3))
        first.release()
        back(thread)
        self.assertEqual((first.token, waits.token, waits.number), (1, 3, 2))
        for token in range(4, 40):
            with lab.hold("load-1") as held:
                self.assertEqual(held.token, token)

    def test_overtakes(self) -> None:
        """So many that came later go before one that needs more; then it keeps what it needs."""
        for overtakes in (0, 3):
            with self.subTest(overtakes):
                lab = self.lab(overtakes=overtakes)
                scope = self.held(lab, "radio", "scope")
                large = lab.hold("scope", "supply")
                thread = self.waits(large)
                for _ in range(overtakes):
                    with lab.hold("supply", timeout=0):
                        pass
                self.in_vain(lab.hold("supply", timeout=0), "supply is kept for session 2 of a guest")
                scope.release()
                back(thread)
                self.is_empty(lab)

    def test_any_of(self) -> None:
        lab = self.lab()
        either = [("load-1",), "load-2"]
        for busy, wanted in ((["supply"], "load-1"), (["load-1"], "load-2"), (["load-2"], "load-1")):
            with lab.hold(*busy), lab.hold(any_of=either) as held:
                self.assertEqual((held.instruments, held.choices), ((wanted,), (("load-1",), ("load-2",))))
        with lab.hold(any_of=[("supply", "load-2"), "load-1"]) as held:
            self.assertEqual(held.instruments, ("supply", "load-2"))
        self.is_empty(lab)

    def test_chain_of_guests(self) -> None:
        """Whoever is kept from an instrument by one that waits itself is told to the end of the chain."""
        lab = self.lab(overtakes=0)
        holder, between = self.held(lab, "", "scope"), lab.hold("scope", "supply")
        thread = self.waits(between)
        with self.assertRaises(labrun.TimeoutError) as fault:
            lab.hold("supply", timeout=0).acquire()
        keeper, = fault.exception.keepers
        self.assertEqual((keeper.instrument, keeper.job, keeper.holds), ("supply", "session 2 of a guest", False))
        self.assertEqual((keeper.end.instrument, keeper.end.job, keeper.end.holds), ("scope", "session 1 of a guest", True))
        self.assertRegex(str(fault.exception), r"supply is kept for session 2 of a guest, which waits for scope, held by session 1 of a guest for 0\.\d s")
        holder.release()
        back(thread)
        self.is_empty(lab)

    def test_any_of_waits(self) -> None:
        for frees, wanted in ((0, "load-1"), (1, "load-2")):
            lab = self.lab()
            holders = [self.held(lab, "", "load-1"), self.held(lab, "drive", "load-2")]
            held = lab.station("host").hold(any_of=["load-1", "load-2"])
            thread = self.waits(held)
            self.assertEqual(held.instruments, ())
            keepers = [(it.instrument, it.job) for it in held.waits_for()]
            self.assertEqual(keepers, [("load-1", "session 1 of a guest"), ("load-2", "session 2 of drive")])
            holders[frees].release()
            back(thread)
            self.assertEqual(held.instruments, (wanted,))
            holders[1 - frees].release()
            self.is_empty(lab)

    def test_many_choices(self) -> None:
        lab = labrun.Lab([f"i{at}" for at in range(60)])
        self.addCleanup(lab.close)
        with lab.hold(*(f"i{at}" for at in range(59))):
            with lab.hold(any_of=[f"i{at}" for at in range(60)]) as held:
                self.assertEqual(held.instruments, ("i59",))

    def test_sessions(self) -> None:
        lab, begun = self.lab(), time.time()
        with lab.station("board").hold("scope", note="ripple") as held:
            held.note("3.3 V")
            thread = self.waits(lab.hold(any_of=["scope"], note="later"))
            first, second = lab.sessions()
            self.assertEqual(first[:4] + first[5:], (1, "board", ("scope",), True, ("ripple", "3.3 V")))
            self.assertEqual(second[:4] + second[5:], (2, "", ("scope",), False, ()))
            for it in (first, second):
                self.assertTrue(begun - 0.01 <= it.since <= time.time() + 0.01)
        back(thread)
        self.is_empty(lab)

    def test_notes(self) -> None:
        lab = self.lab()
        held = self.held(lab, "", "scope")
        held.note("x" * 500)
        for wrong in ("x" * 501, "a\nb", "a\rb"):
            with self.assertRaises(ValueError):
                held.note(wrong)
        self.assertEqual(held.notes, ("x" * 500,))
        held.release()
        for late in (held, lab.hold("scope")):
            with self.assertRaises(labrun.NotHeld):
                late.note("x")
        with self.assertRaises(ValueError), lab.hold("scope", note="a\nb"):
            self.fail("it holds")
        self.is_empty(lab)


class Guide(unittest.TestCase):
    def test_shelf(self) -> None:
        """The broker of docs/programs.md, as it stands there."""
        with open(os.path.join(TOP, "docs", "programs.md"), encoding="utf-8") as file:
            lines = file.read().split("\n")
        first, last = lines.index("    import queue"), lines.index("    $ python3 shelf.py")
        program = "\n".join(line[4:] for line in lines[first:last])
        ran = subprocess.run([sys.executable, "-c", program], env=child(), capture_output=True, text=True, timeout=LIMIT)
        self.assertEqual((ran.stdout, ran.stderr), (lines[last + 1][4:] + "\n", ""))


if __name__ == "__main__":
    unittest.main()
