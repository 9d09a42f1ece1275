"""Who writes and syncs the journal of a lab: whoever waits for it, one for all that wait."""

from __future__ import annotations

import asyncio
import contextlib
import os
import threading
import time
import unittest
from typing import Any, Callable, Iterator
from unittest import mock

import labrun
from labrun import _disk, _shell
from tests.labs import NAMES, Counting, OnFile, full
from tests.benches import LIMIT, back, in_thread, until
from tests.test_lab_gates import RING, Gated, ShellGates, sometimes


class Syncs(OnFile):
    @contextlib.contextmanager
    def counted(self, slow: float = 0) -> Iterator[list[int]]:
        """The threads that sync, in their order."""
        syncs: list[int] = []
        real = os.fdatasync

        def fdatasync(file: int) -> None:
            syncs.append(threading.get_ident())
            time.sleep(slow)
            real(file)

        with mock.patch.object(os, "fdatasync", fdatasync):
            yield syncs

    def test_one_a_session(self) -> None:
        """Of one thread each session is one sync, by that thread: its let-go goes with the next one. The clock stands still, so nothing is
        due."""
        lab = self.opened("data")
        with mock.patch.object(lab._shell, "now", lambda: 5), self.counted() as syncs:
            for _ in range(20):
                self.held(lab, "", "scope").release()
        self.assertEqual(syncs, [threading.get_ident()] * 20)

    def test_shared(self) -> None:
        """Eight threads, each at its own instrument: several sessions share a sync."""
        names = [f"i-{at}" for at in range(8)]
        lab = labrun.Lab(names, journal=self.path)
        self.addCleanup(lab.close)

        def work(name: str) -> None:
            for _ in range(10):
                with lab.hold(name):
                    pass

        with self.counted(0.002) as syncs:
            for thread in [in_thread(lambda name=name: work(name)) for name in names]:
                back(thread)
            self.assertLess(len(syncs), 60)

    def test_no_sync_is_waited_for(self) -> None:
        """Whoever lets go while another's sync hangs is back at once, and so is whoever is the only one."""
        lab, goes_on = self.opened("data"), threading.Event()
        first = self.held(lab, "", "scope")
        real = os.fdatasync
        with mock.patch.object(os, "fdatasync", lambda file: goes_on.wait(LIMIT) and real(file)):
            other = lab.hold("supply")
            thread = self.waits(other)
            first.release()
            self.assertEqual((first.state, other.state), ("finished", "waiting"))
            self.assertEqual(self.words()[-1][:3], ["end", f"{first.number:016x}", "let_go"])
            goes_on.set()
            back(thread)

    def test_synced_though_nobody_calls(self) -> None:
        """What was let go of is on the disk within a fifth of a second. (The machine may be busy.)"""
        lab, took = self.opened("data"), list[float]()
        for _ in range(5):
            held = self.held(lab, "", "scope")
            with self.counted() as syncs:
                begun = time.monotonic()
                held.release()
                until(lambda: bool(syncs))
                took.append(time.monotonic() - begun)
                self.assertNotIn(threading.get_ident(), syncs)
                until(lambda: lab._shell._disk is not None and lab._shell._disk.is_idle)
                # (and then nothing more is done)
                time.sleep(0.15)
                self.assertEqual(len(syncs), 1)
        self.assertLess(min(took), 2)

    def test_synced_if_it_is_dropped(self) -> None:
        """So it is if nobody has the lab any more."""
        lab = labrun.Lab(NAMES, journal=self.path)
        held = self.held(lab, "", "scope")
        with self.counted() as syncs:
            held.release()
            del held, lab
            until(lambda: bool(syncs))

    def test_time_limit(self) -> None:
        """Whoever has a time doesn't write itself: it is told in time, whatever the disk does."""
        lab = self.opened("data")
        with self.counted() as syncs:
            self.held(lab, "", "scope", timeout=LIMIT)
            self.held(lab, "", "supply", timeout=0)
        self.assertNotIn(threading.get_ident(), syncs)

    def test_loop(self) -> None:
        """A loop's thread never writes, nor syncs."""
        lab, writes = self.opened("data"), set[int]()

        async def main() -> None:
            async with lab.hold("scope", note="x") as held:
                await held.note_async("y")
            with self.assertRaises(labrun.TakenAway):
                async with lab.hold("scope") as held:
                    await lab.take_away_async(held)

        def append(text: bytes, real: Callable[[bytes], None]) -> None:
            writes.add(threading.get_ident())
            real(text)

        with self.counted() as syncs, self.disk(lab, append):
            asyncio.run(main())
        self.assertTrue(syncs and writes)
        self.assertNotIn(threading.get_ident(), writes | set(syncs))


class HandedOn(OnFile):
    """Whoever is at it may stop at any moment: somebody else goes on."""

    def waits_by(self, lab: labrun.Lab, first: Callable[[], None], append: Callable[[bytes, Callable[[bytes], None]], None]) -> None:
        """While the first one writes, three others ask, and a task; then it is over, and all of them come through."""
        asked = threading.Event()

        async def main() -> None:
            async with lab.hold("load-2"):
                pass

        def slow(text: bytes, real: Callable[[bytes], None]) -> None:
            asked.wait(LIMIT)
            append(text, real)

        with self.disk(lab, slow):
            threads = [in_thread(first)]
            until(lambda: len(lab.sessions()) == 1)
            threads += [in_thread(lambda name=name: self.held(lab, "", name)) for name in NAMES[1:3]]
            threads.append(in_thread(lambda: asyncio.run(main())))
            until(lambda: len(lab.sessions()) == 4)
            asked.set()
            for thread in threads:
                back(thread)
        # (nothing is missing in the file)
        held = [it.number for it in lab.sessions()]
        lab.close()
        self.assertEqual([it.number for it in self.opened().resumed], held)
        self.assertEqual(len(held), 2)

    def test_interrupted(self) -> None:
        """In the write, and in the sync: nobody is told that a write failed."""
        for sync in ("none", "data"):
            lab, count = self.opened(sync), [0]

            def interrupts(*given: Any) -> None:
                count[0] += 1
                if count[0] == 1:
                    raise KeyboardInterrupt
                given[-1](*given[:-1])

            def first() -> None:
                with self.assertRaises(KeyboardInterrupt):
                    self.held(lab, "", "scope")

            if sync == "none":
                self.waits_by(lab, first, interrupts)
            else:
                real = os.fdatasync
                with mock.patch.object(os, "fdatasync", lambda file: interrupts(file, real)):
                    self.waits_by(lab, first, lambda text, write: write(text))
            self.assertGreater(count[0], 1)
            self.doCleanups()
            self.setUp()

    def test_fails(self) -> None:
        """A write that fails: nobody who waits to hold learns of it."""
        lab, count = self.opened(), [0]

        def fails(text: bytes, real: Callable[[bytes], None]) -> None:
            count[0] += 1
            if count[0] == 1:
                raise full()
            real(text)

        self.waits_by(lab, lambda: self.held(lab, "", "scope").release(), fails)
        self.assertGreater(count[0], 1)

    def test_cancelled(self) -> None:
        """A task that is cancelled while it waits for the disk holds nothing, and others come through."""
        lab = self.opened()

        async def main() -> None:
            async with lab.hold("scope"):
                pass

        def first() -> None:
            async def cancels() -> None:
                task = asyncio.ensure_future(main())
                await asyncio.sleep(0.05)
                task.cancel()
                with contextlib.suppress(asyncio.CancelledError):
                    await task

            asyncio.run(cancels())

        goes_on = threading.Event()
        with self.disk(lab, lambda text, real: goes_on.wait(LIMIT) and real(text)):
            threads = [in_thread(first), in_thread(lambda: self.held(lab, "", "supply").release())]
            back(threads[0])
            goes_on.set()
            back(threads[1])
        self.is_empty(lab)


class Gates(Gated):
    def test_writing(self) -> None:
        """With a gate at every line, an interrupt at each in turn, and writes and syncs that fail: all come through, and no two are at one
        instrument."""
        for at in range(0, 1200, 7):
            done = [0]

            def once(lab: labrun.Lab, name: str, counting: Counting) -> None:
                held = lab.station(name).hold(*lab.station(name).instruments)
                try:
                    held.acquire()
                    # (an interrupt in here would leave it counted there)
                    its = held.instruments
                    counting.came(its)
                    counting.went(its)
                    while True:
                        with contextlib.suppress(labrun.JournalError):
                            held.release()
                            break
                except KeyboardInterrupt:
                    held._leaves()
                done[0] += 1

            def writes(lab: labrun.Lab) -> None:
                while done[0] < 6 or lab._shell.writes_once():
                    lab._shell.writes_once()

            bad = [at % 5]

            def does(disk: _disk.Disk, job: _disk.Job) -> None:
                bad[0] -= 1
                if bad[0] == 0:
                    raise full()
                (disk.store.put if job.text else lambda *given: disk.store.sync())(job.text, job.place)

            gate = ShellGates(sometimes(at, 0.2), at)
            with self.subTest(at), OnFolder() as path, mock.patch.object(_shell, "AGAIN", 0), mock.patch.object(_disk.Disk, "does", does):
                self.gated(gate, RING, (0, 2, 64)[at % 3], once, writes, journal=path, sync=("none", "data")[at % 2])


class OnFolder(OnFile):
    def __enter__(self) -> str:
        self.setUp()
        return self.path

    def __exit__(self, *fault: object) -> None:
        self.doCleanups()


if __name__ == "__main__":
    unittest.main()
