"""How sessions of a lab end: limits, what is taken away, exceptions, stop, close, forks, interrupts; and loads."""

from __future__ import annotations

import _thread
import os
import random
import signal
import tempfile
import threading
import time
import unittest
import weakref
from typing import Any, Callable, Optional

import labrun
from labrun._quick import extension
from tests.labs import NAMES, Counting, OnLab, are_gone, threads_since
from tests.benches import LIMIT, back, in_thread, until


class Ends(OnLab):
    def test_limit(self) -> None:
        """Who waits takes it, at once if the limit is over by then, else when it is; where nobody waits it goes on."""
        for pause in (0.1, 0.0):
            lab = self.lab()
            first = self.held(lab, "drive", "load-1", limit=0.05)
            time.sleep(pause)
            self.assertTrue(first.held)
            with lab.hold("load-1", timeout=LIMIT):
                self.assertEqual(first.state, "taken")
            told = "session 1 of drive was taken away: somebody waited, and its limit was over: load-1"
            with self.assertRaisesRegex(labrun.TakenAway, told):
                first.release()
            self.is_empty(lab)

    def test_limit_where_others_choose(self) -> None:
        lab = self.lab()
        first = self.held(lab, "drive", "load-1", "load-2", limit=0.05)
        with lab.station("host").hold(any_of=["load-1", "load-2"], timeout=LIMIT) as held:
            self.assertEqual((held.instruments, first.state), (("load-1",), "taken"))
        with self.assertRaises(labrun.TakenAway):
            first.release()
        self.is_empty(lab)

    def test_limit_of_one_of_two(self) -> None:
        """Whoever wants both takes what is over its limit, and waits for the other."""
        lab = labrun.Lab(["w", "x"])
        self.addCleanup(lab.close)
        first, second = self.held(lab, "", "w", limit=0), self.held(lab, "", "x")
        held = lab.hold("w", "x")
        thread = self.waits(held)
        until(lambda: first.state == "taken")
        self.assertEqual((second.state, held.state), ("held", "waiting"))
        second.release()
        back(thread)

    def test_take_away(self) -> None:
        lab = self.lab()
        with self.assertRaisesRegex(labrun.TakenAway, "session 1 of board was taken away: scope"):
            with lab.station("board").hold("scope") as held:
                thread = self.waits(lab.hold("scope"))
                self.assertEqual(lab.take_away(held.number), ("scope",))
                back(thread)
                self.assertEqual((held.state, held.held), ("taken", False))
                with self.assertRaises(labrun.TakenAway):
                    held.note("x")
        with self.assertRaises(ZeroDivisionError):
            with lab.hold("scope") as held:
                self.assertEqual(lab.take_away(held), ("scope",))
                raise ZeroDivisionError
        for number in (held.number, 1000):
            with self.assertRaisesRegex(labrun.NotHeld, "is over, or never was"):
                lab.take_away(number)
        with lab.hold("scope") as held:
            waits = lab.hold("scope")
            thread = self.waits(waits)
            with self.assertRaisesRegex(labrun.NotHeld, f"session {waits.number} waits"):
                lab.take_away(waits)
        back(thread)
        self.is_empty(lab)

    def test_raises(self) -> None:
        lab = self.lab()
        with self.assertRaises(ZeroDivisionError), lab.hold("scope") as held:
            raise ZeroDivisionError
        self.assertEqual(held.state, "finished")
        self.is_empty(lab)

    def test_released_within(self) -> None:
        lab = self.lab()
        with lab.hold("scope") as held:
            held.release()
            with lab.hold("scope", timeout=0):
                pass
        self.is_empty(lab)

    def test_stop(self) -> None:
        lab, faults = self.lab(), []  # type: ignore[var-annotated]
        first = self.held(lab, "drive", "load-1", "load-2")
        threads = [self.waits(lab.hold("load-1"), faults), self.waits(lab.station("host").hold(any_of=["load-1", "load-2"]), faults)]
        lab.stop()
        for thread in threads:
            back(thread)
        self.assertEqual([type(it) for it in faults], [labrun.Stopped] * 2)
        with self.assertRaises(labrun.Stopped):
            lab.hold("scope").acquire()
        lab.stop()
        self.assertEqual([it.number for it in lab.sessions()], [1])
        first.release()
        self.assertEqual(lab.sessions(), ())

    def test_close(self) -> None:
        lab, faults = self.lab(), []  # type: ignore[var-annotated]
        first = self.held(lab, "drive", "load-1", "load-2")
        threads = [self.waits(lab.hold("load-1"), faults), self.waits(lab.station("host").hold(any_of=["load-1", "load-2"]), faults)]
        with self.assertRaises(labrun.Closed), lab.hold("scope"):
            lab.close()
        for thread in threads:
            back(thread)
        self.assertEqual([type(it) for it in faults], [labrun.Closed] * 2)
        calls: list[Callable[[], object]] = [lab.hold("scope").acquire, first.release, lab.sessions, lab.stop]
        calls += [lambda: first.note("x"), lambda: lab.take_away(1)]
        for call in calls:
            with self.assertRaises(labrun.Closed):
                call()
        with self.assertRaises(ZeroDivisionError), self.lab() as other:
            with other.hold("scope"):
                other.close()
                raise ZeroDivisionError
        lab.close()

    def test_full(self) -> None:
        lab, first = self.lab(), labrun._lab.LINE
        labrun._lab.LINE = 2
        try:
            small = self.lab()
        finally:
            labrun._lab.LINE = first
        held, waits = self.held(small, "", "scope"), small.hold(any_of=["scope", "scope"])
        thread = self.waits(waits)
        with self.assertRaisesRegex(labrun.Full, "no room for another session in line"):
            small.hold("scope").acquire()
        held.release()
        back(thread)
        self.is_empty(small)
        self.is_empty(lab)

    def test_fork(self) -> None:
        lab = self.lab()
        with lab.hold("scope") as held:
            child = os.fork()
            if not child:
                refused = 0
                for call in (lab.hold("supply").acquire, held.release, lab.sessions, lab.stop, lambda: lab.take_away(1)):
                    try:
                        call()  # type: ignore[operator]
                    except labrun.OtherProcess as fault:
                        refused += str(fault) == f"this lab belongs to process {os.getppid()}"
                lab.close()
                os._exit(refused)
            self.assertEqual(os.waitstatus_to_exitcode(os.waitpid(child, 0)[1]), 5)
        self.is_empty(lab)

    def test_interrupted_while_it_waits(self) -> None:
        lab, is_over = self.lab(), threading.Event()
        before = signal.signal(signal.SIGALRM, lambda *_: (_ for _ in ()).throw(KeyboardInterrupt()))
        self.addCleanup(signal.signal, signal.SIGALRM, before)

        def interrupts(held: labrun.Held) -> None:
            until(lambda: held.state == "waiting")
            # (one that comes just before the interpreter falls asleep is seen once it wakes: so another may be needed)
            while not is_over.wait(0.003):
                signal.pthread_kill(threading.main_thread().ident or 0, signal.SIGALRM)
                is_over.wait(10)

        with lab.hold("scope"):
            for at in range(20):
                held = lab.hold("scope", timeout=LIMIT if at % 2 else None)
                is_over.clear()
                thread = in_thread(lambda held=held: interrupts(held))
                with self.assertRaises(KeyboardInterrupt):
                    held.acquire() if at % 4 < 2 else held.__enter__()
                is_over.set()
                back(thread)
                self.assertEqual((held.state, len(lab.sessions())), ("given up", 1))
        self.is_empty(lab)

    def test_interrupted_as_it_ends(self) -> None:
        """Just as the end of `with` begins. With the extension it lets go; Python sees nothing of that, and shows that it holds on."""

        class Rings:
            """What nobody has any more interrupts, and no line of Python is between that and the end of the block."""

            __del__ = _thread.interrupt_main

        # (what a shell runs in the background ignores the signal)
        self.addCleanup(signal.signal, signal.SIGINT, signal.signal(signal.SIGINT, signal.default_int_handler))
        with tempfile.TemporaryDirectory() as folder:
            for journal in (None, f"{folder}/bay.journal"):
                lab = self.lab(journal=journal, sync="none")
                rings: Optional[Rings] = Rings()
                with self.assertRaises(KeyboardInterrupt):
                    with lab.hold("scope") as held:
                        rings = None
                self.assertIsNone(rings)
                self.assertEqual(([it.number for it in lab.sessions()], held.held), ([1], True) if extension() is None else ([], False))
                if held.held:
                    held.release()
                self.is_empty(lab)

    def test_it_waits_for_ever(self) -> None:
        """Without a limit, whatever the clock says; and so does whoever holds without one."""
        lab = self.lab()
        first, held = self.held(lab, "", "scope"), lab.hold("scope")
        thread, now = self.waits(held), lab._shell.now
        for years in (1, 1000):
            lab._shell.now = lambda years=years: now() + years * 365 * 86400000  # type: ignore[misc]
            lab._shell.looks_once()
            self.assertEqual((first.state, held.state), ("held", "waiting"))
        first.release()
        back(thread)
        self.is_empty(lab)

    def test_two_threads_let_go(self) -> None:
        """Of one session: it lets go once, and the other one is told."""
        for _ in range(30):
            lab, told, starts = self.lab(), [], threading.Barrier(2)  # type: ignore[var-annotated]
            held = self.held(lab, "", "scope")

            def lets_go() -> None:
                starts.wait()
                try:
                    held.release()
                    told.append("")
                except labrun.NotHeld as fault:
                    told.append(str(fault))

            for thread in [in_thread(lets_go), in_thread(lets_go)]:
                back(thread)
            self.assertEqual(sorted(told), ["", "session 1 of a guest is finished: it doesn't hold its instruments"])
            self.is_empty(lab)

    def test_stopped_by_a_signal(self) -> None:
        """A handler may come while the same thread is in a call."""
        lab = self.lab()
        before = signal.signal(signal.SIGALRM, lambda *_: lab.stop())
        self.addCleanup(signal.signal, signal.SIGALRM, before)
        signal.setitimer(signal.ITIMER_REAL, 0.02)
        with self.assertRaises(labrun.Stopped):
            while True:
                with lab.hold("scope", "supply"):
                    pass
        self.assertEqual(lab.sessions(), ())

    def test_left_behind(self) -> None:
        """A lab without a time limit has no thread, and goes when nobody has it; so does one with, and its thread."""
        before = set(threading.enumerate())
        for has_timer in (False, True):
            lab = labrun.Lab(["x"])
            with lab.hold("x"):
                if has_timer:
                    self.in_vain(lab.hold("x", timeout=0.001), "x has been held")
            self.assertEqual(len(threads_since(before)), has_timer)
            seen = weakref.ref(lab), weakref.ref(lab._shell)
            del lab
            until(lambda: are_gone(before))
            self.assertEqual([it() for it in seen], [None, None])


class Loads(OnLab):
    def loaded(self, lab: labrun.Lab, threads: int, each: int) -> None:
        counting, faults = Counting(), []

        def once(chance: random.Random, some: list[str]) -> None:
            more: dict[str, Any] = {"any_of": some} if chance.random() < 0.3 else {}
            more["timeout"] = chance.choice((None, None, LIMIT, 0.001, 0))
            try:
                with lab.hold(*(() if "any_of" in more else some), **more) as held:
                    counting.came(held.instruments)
                    counting.went(held.instruments)
                    if chance.random() < 0.05:
                        raise ZeroDivisionError
            except (labrun.TimeoutError, ZeroDivisionError):
                pass

        def work(seed: int) -> None:
            chance = random.Random(seed)
            try:
                for _ in range(each):
                    once(chance, chance.sample(NAMES, chance.randint(1, 3)))
            except BaseException as fault:
                faults.append(fault)

        them = [in_thread(lambda at=at: work(at)) for at in range(threads)]
        for thread in them:
            thread.join(4 * LIMIT)
        self.assertEqual((faults, counting.clashes, [it.is_alive() for it in them]), ([], 0, [False] * threads))
        self.is_empty(lab)

    def test_threads(self) -> None:
        """20000 sessions each, by 8 threads."""
        for overtakes in (0, 3, 64):
            with self.subTest(overtakes):
                self.loaded(self.lab(overtakes=overtakes), 8, int(os.environ.get("LABRUN_SESSIONS", "20000")) // 8)

    def test_many_threads(self) -> None:
        self.loaded(self.lab(places=3), 48, 40)


if __name__ == "__main__":
    unittest.main()
