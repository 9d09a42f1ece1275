"""A lab with a journal, at a disk that fails, hangs or is full."""

from __future__ import annotations

import asyncio
import contextlib
import os
import random
import threading
import time
import unittest
from typing import Callable
from unittest import mock

import labrun
from labrun import _lab, _shell
from tests.labs import NAMES, Counting, OnFile, full, tried
from tests.benches import LIMIT, back, in_thread, until


class Failing(OnFile):
    def fails(self, text: bytes, real: Callable[[bytes], None]) -> None:
        raise full()

    def test_hold(self) -> None:
        """Whoever waits for the disk is told once its time is over, and that of the disk; without a time it waits until there is room."""
        with mock.patch.object(_lab, "DISK", 500):
            lab = self.opened()
        with self.disk(lab, self.fails):
            with self.assertRaisesRegex(labrun.JournalError, "a write failed .No space left on device.") as fault:
                self.held(lab, "", "scope", timeout=0)
            self.assertIsInstance(fault.exception.__cause__, OSError)
            held = lab.hold("scope")
            thread = self.waits(held)
            time.sleep(0.1)
            self.assertEqual(held.state, "waiting")
        back(thread)
        self.is_empty(lab)

    def test_release(self) -> None:
        """Whoever can't let go is told, nobody else comes to hold, and it may be tried again."""
        lab = self.opened()
        with self.disk(lab, lambda text, real: real(text)):
            held = self.held(lab, "", "scope")
        with self.disk(lab, self.fails):
            with self.assertRaisesRegex(labrun.JournalError, "a write failed"):
                held.release()
            self.assertEqual((held.state, held.held), ("letting go", False))
            with self.assertRaises(labrun.JournalError):
                held.release()
            other = lab.hold("scope")
            thread = self.waits(other)
            time.sleep(0.05)
            self.assertEqual(other.state, "waiting")
        held.release()
        back(thread)
        with self.assertRaises(labrun.NotHeld):
            held.release()
        self.is_empty(lab)

    def test_with(self) -> None:
        """So is whoever leaves a `with`; and it lets go as soon as there is room, whether or not it is tried again."""
        lab = self.opened()
        with contextlib.ExitStack() as stack:
            with self.assertRaises(labrun.JournalError):
                with lab.hold("scope") as held:
                    stack.enter_context(self.disk(lab, self.fails))
        until(lambda: held.state == "finished")
        with lab.hold("scope", timeout=LIMIT):
            pass

    def test_note(self) -> None:
        """The line comes as soon as there is room, once."""
        lab = self.opened()
        held = self.held(lab, "", "scope")
        with self.disk(lab, self.fails), self.assertRaises(labrun.JournalError):
            held.note("x")
        held.release()
        self.assertEqual([it[2:] for it in self.words() if it[0] == "note"], [["x"]])

    def test_take_away(self) -> None:
        lab = self.opened()
        held = self.held(lab, "", "scope")
        with self.disk(lab, self.fails), self.assertRaises(labrun.JournalError):
            lab.take_away(held)
        self.assertEqual(held.state, "taken")
        with lab.hold("scope"):
            pass
        self.assertIn(["end", f"{held.number:016x}", "taken_away"], [it[:3] for it in self.words()])

    def test_take_away_async(self) -> None:
        lab = self.opened()
        held = self.held(lab, "", "scope")
        with self.disk(lab, self.fails), self.assertRaisesRegex(labrun.JournalError, "a write failed"):
            asyncio.run(lab.take_away_async(held))
        self.assertEqual(held.state, "taken")
        with lab.hold("scope"):
            pass

    def test_each_write(self) -> None:
        """Each write in turn fails, once: all come to their ends, and the file is whole."""
        bad, is_through = 1, False
        while not is_through:
            made = [0]

            def append(text: bytes, real: Callable[[bytes], None]) -> None:
                made[0] += 1
                if made[0] == bad:
                    raise full()
                real(text)

            lab = self.opened()
            with self.disk(lab, append):
                threads = [in_thread(lambda name=name: self.tried_session(lab, name)) for name in ("scope", "supply", "scope")]
                for thread in threads:
                    back(thread)
            is_through = made[0] < bad
            lab.close()
            self.assertEqual(self.opened().resumed, ())
            self.doCleanups()
            self.setUp()
            bad += 1
        self.assertGreater(bad, 4)

    def tried_session(self, lab: labrun.Lab, name: str) -> None:
        held = lab.hold(name)
        held.acquire()
        with contextlib.suppress(labrun.JournalError):
            held.note("x")
        tried(held.release)

    def test_half_a_write(self) -> None:
        """A disk that takes half of a text: nothing stands behind the half."""
        lab, bad = self.opened("data"), [True]
        real = os.pwrite

        def half(file: int, text: bytes, place: int) -> int:
            if bad[0]:
                bad[0] = False
                real(file, text[: len(text) // 2], place)
                raise full()
            return real(file, text, place)

        with mock.patch.object(os, "pwrite", half), mock.patch.object(_shell, "AGAIN", 0.002):
            self.held(lab, "", "scope").release()
        self.assertFalse(bad[0])
        lab.close()
        self.assertEqual(self.opened().resumed, ())

    def test_sync_that_fails(self) -> None:
        """What was written before a sync that failed is written again."""
        lab, bad, wrote = self.opened("data"), [True], []  # type: ignore[var-annotated]
        real, writes = os.fdatasync, os.pwrite

        def syncs(file: int) -> None:
            if bad[0]:
                bad[0] = False
                raise full()
            real(file)

        def write(file: int, text: bytes, place: int) -> int:
            wrote.append((text, place))
            return writes(file, text, place)

        with mock.patch.object(os, "fdatasync", syncs), mock.patch.object(os, "pwrite", write), mock.patch.object(_shell, "AGAIN", 0.002):
            held = self.held(lab, "", "scope")
        self.assertEqual(wrote[0][1], wrote[1][1])
        self.assertTrue(wrote[1][0].startswith(wrote[0][0]))
        held.release()

    def test_random(self) -> None:
        """Of eight threads' writes three of ten fail; each session is done once."""
        for seed in range(4):
            lab, chance, counting, faults = self.opened(), random.Random(seed), Counting(), []  # type: ignore[var-annotated]

            def append(text: bytes, real: Callable[[bytes], None]) -> None:
                if chance.random() < 0.3:
                    raise full()
                real(text)

            def work() -> None:
                try:
                    for _ in range(10):
                        held = lab.hold(*chance.sample(NAMES, 2))
                        held.acquire()
                        counting.came(held.instruments)
                        counting.went(held.instruments)
                        tried(held.release)
                except BaseException as fault:
                    faults.append(fault)

            with self.disk(lab, append):
                for thread in [in_thread(work) for _ in range(8)]:
                    back(thread)
            self.assertEqual((faults, counting.clashes, counting.done), ([], 0, 80))
            self.is_empty(lab)
            lab.close()
            os.remove(self.path)

    def test_disk_that_hangs(self) -> None:
        """Whoever has a time is told once it and the disk's are over, and holds nothing; others go on once it is back."""
        with mock.patch.object(_lab, "DISK", 50):
            lab = self.opened()
        goes_on = threading.Event()

        def append(text: bytes, real: Callable[[bytes], None]) -> None:
            goes_on.wait(LIMIT)
            real(text)

        with self.disk(lab, append):
            begun = time.monotonic()
            held = lab.hold("scope", timeout=0.01)
            with self.assertRaisesRegex(labrun.JournalError, "it wasn't on the disk in time"):
                held.acquire()
            self.assertTrue(0.05 <= time.monotonic() - begun < LIMIT / 2)
            self.assertEqual(held.state, "given up")
            other = lab.hold("scope")
            thread = self.waits(other)
            goes_on.set()
            back(thread)
        self.is_empty(lab)

    def test_closed_on_a_full_disk(self) -> None:
        """Close says that the file lacks something; what it lacks comes back."""
        lab = self.opened()
        held = self.held(lab, "", "scope")
        with self.disk(lab, self.fails):
            with self.assertRaises(labrun.JournalError):
                held.release()
            with self.assertRaises(labrun.JournalError):
                lab.close()
            lab.close()
        with self.assertRaises(labrun.Closed):
            held.release()
        self.assertEqual([it.number for it in self.opened().resumed], [held.number])

    def test_closed_while_others_wait_for_the_disk(self) -> None:
        lab, faults, goes_on = self.opened(), [], threading.Event()  # type: ignore[var-annotated]
        first, waits = self.held(lab, "", "scope"), lab.hold("supply")

        def append(text: bytes, real: Callable[[bytes], None]) -> None:
            goes_on.wait(LIMIT)
            raise full()

        with self.disk(lab, append):
            threads = [self.waits(waits, faults), in_thread(lambda: self.fault_of(first.release, faults))]
            until(lambda: first.state == "letting go")
            closes = in_thread(lambda: self.fault_of(lab.close, faults))
            until(lambda: lab._shell.stands == _shell.CLOSING)
            goes_on.set()
            for thread in (*threads, closes):
                back(thread)
        self.assertEqual(sorted(type(it).__name__ for it in faults), ["Closed", "JournalError", "JournalError"])

    def fault_of(self, call: Callable[[], None], faults: list[BaseException]) -> None:
        try:
            call()
        except labrun.LabrunError as fault:
            faults.append(fault)

    def test_open_that_fails(self) -> None:
        """And the next open is as if it hadn't been."""
        for name in ("pwrite", "fsync", "fdatasync", "ftruncate"):
            with mock.patch.object(os, name, side_effect=full()), self.assertRaisesRegex(labrun.JournalError, "a write failed"):
                self.opened("data")
            self.opened("data").close()
            os.remove(self.path)

    def test_writer_that_ends(self) -> None:
        """What no writer can go on after is told to everybody."""
        lab, faults = self.opened(), []  # type: ignore[var-annotated]
        held = self.held(lab, "", "scope")

        def append(text: bytes, real: Callable[[bytes], None]) -> None:
            raise ZeroDivisionError

        with self.disk(lab, append):
            thread = in_thread(lambda: self.fault_of(held.release, faults))
            back(thread)
            with self.assertRaisesRegex(labrun.LabrunError, "the lab can't go on: ZeroDivisionError"):
                lab.hold("supply").acquire()
        self.assertRegex(str(faults[0]), "the lab can't go on: ZeroDivisionError")
        lab.close()
        with self.assertRaises(labrun.Closed):
            lab.sessions()
        # (another may have the file)
        self.assertEqual([it.number for it in self.opened().resumed], [held.number])


if __name__ == "__main__":
    unittest.main()
