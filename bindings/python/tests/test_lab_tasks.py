"""A lab in a program of asyncio: tasks wait, are cancelled at any await, and leave nothing behind."""

from __future__ import annotations

import asyncio
import random
import tempfile
import threading
import unittest
from typing import Any, Callable, Coroutine
from unittest import mock

import labrun
from tests.labs import Counting, OnLab
from tests.benches import LIMIT, back, in_thread


class Tasks(OnLab):
    def runs(self, main: Callable[[labrun.Lab], Coroutine[Any, Any, None]], **more: Any) -> None:
        """Without a journal, and with one."""
        with tempfile.TemporaryDirectory() as folder:
            for journal in (None, f"{folder}/bay.journal"):
                with self.subTest(journal=journal):
                    lab = self.lab(journal=journal, sync="none", **more)
                    asyncio.run(asyncio.wait_for(main(lab), LIMIT))
                    self.assertEqual(lab.sessions(), ())
                    self.is_empty(lab)
                    lab.close()

    async def once(self, lab: labrun.Lab, *names: str, **more: Any) -> tuple[str, ...]:
        async with lab.hold(*names, **more) as held:
            return held.instruments

    async def waiting(self, lab: labrun.Lab, count: int = 1) -> None:
        while sum(not it.holds for it in lab.sessions()) < count:
            await asyncio.sleep(0.001)

    def test_hold(self) -> None:
        async def main(lab: labrun.Lab) -> None:
            async with lab.hold("scope", note="ripple") as held:
                self.assertTrue(held.held)
                await held.note_async("3.3 V")
                self.assertEqual(held.notes, ("ripple", "3.3 V"))
                task = asyncio.ensure_future(self.once(lab, "scope"))
                await self.waiting(lab)
                with self.assertRaisesRegex(labrun.TimeoutError, r"scope has been held by session \d of a guest \(3.3 V\)"):
                    await self.once(lab, "scope", timeout=0.01)
                self.assertFalse(task.done())
            self.assertEqual(await task, ("scope",))
            self.assertEqual(await self.once(lab, any_of=["supply", "scope"]), ("supply",))

        self.runs(main)

    def test_loop_goes_on(self) -> None:
        """Also while a let-go is written."""

        async def main(lab: labrun.Lab) -> None:
            turns = 0

            async def turn() -> None:
                nonlocal turns
                while True:
                    turns += 1
                    await asyncio.sleep(0)

            turner = asyncio.ensure_future(turn())
            async with lab.hold("scope"):
                thread = in_thread(lambda: self.held(lab, "", "scope").release())
                await self.waiting(lab)
                before = turns
            while thread.is_alive():
                await asyncio.sleep(0)
            self.assertGreater(turns, before)
            turner.cancel()

        self.runs(main)

    def test_would_block(self) -> None:
        async def main(lab: labrun.Lab) -> None:
            async with lab.hold("scope"):
                with self.assertRaisesRegex(labrun.WouldBlock, "use `async with`"), lab.hold("scope"):
                    self.fail("it holds")

        self.runs(main)

    def test_would_block_at_the_disk(self) -> None:
        """With a journal each call waits; nothing is done then."""

        async def main(lab: labrun.Lab) -> None:
            async with lab.hold("scope") as held:
                for call in (held.release, lambda: held.note("x"), lambda: lab.take_away(held), lambda: lab.hold("supply").acquire()):
                    with self.assertRaises(labrun.WouldBlock):
                        call()
                self.assertEqual((held.held, held.notes), (True, ()))

        with tempfile.TemporaryDirectory() as folder:
            lab = self.lab(journal=f"{folder}/bay.journal", sync="none")
            asyncio.run(main(lab))
            self.assertEqual(lab.sessions(), ())

    def test_nested(self) -> None:
        """Of one task it would wait for itself; of another it waits."""

        async def main(lab: labrun.Lab) -> None:
            board = lab.station("board")

            async def other() -> None:
                async with board.hold("supply"):
                    pass

            async with board.hold("scope"):
                with self.assertRaisesRegex(labrun.WouldBlock, "board is in a session"):
                    await board.hold("supply").acquire_async()
                task = asyncio.ensure_future(other())
                await self.waiting(lab)
            await task

        self.runs(main)

    def test_cancelled_as_it_is_free(self) -> None:
        """In the same step of the loop, before the other lets go and after."""

        async def main(lab: labrun.Lab) -> None:
            for order in range(2):
                first = lab.hold("scope")
                await first.acquire_async()
                second = lab.hold("scope")
                task = asyncio.ensure_future(second.acquire_async())
                await self.waiting(lab)
                if order:
                    task.cancel()
                going = asyncio.ensure_future(first.release_async())
                await asyncio.sleep(0)
                task.cancel()
                with self.assertRaises(asyncio.CancelledError):
                    await task
                await going
                self.assertIn(second.state, ("given up", "finished"))
                self.assertEqual(lab.sessions(), ())

        self.runs(main)

    def test_timeouts_of_asyncio(self) -> None:
        async def main(lab: labrun.Lab) -> None:
            async with lab.hold("scope"):
                with self.assertRaises(asyncio.TimeoutError):
                    await asyncio.wait_for(self.once(lab, "scope"), 0.01)
                with self.assertRaises(TimeoutError):
                    async with asyncio.timeout(0.01):
                        await self.once(lab, "scope")
                self.assertEqual(len(lab.sessions()), 1)
            with self.assertRaises(TimeoutError):
                async with asyncio.timeout(0.01):
                    async with lab.hold("scope"):
                        await asyncio.sleep(LIMIT)

        self.runs(main)

    def test_task_group(self) -> None:
        """One that raises cancels the others: those that wait, and those that hold."""

        async def main(lab: labrun.Lab) -> None:
            async def holds() -> None:
                async with lab.hold("scope"):
                    await asyncio.sleep(LIMIT)

            async def raises() -> None:
                await self.waiting(lab, 2)
                raise ZeroDivisionError

            with self.assertRaises(ExceptionGroup):
                async with asyncio.TaskGroup() as group:
                    for work in (holds, holds, holds, raises):
                        group.create_task(work())
            self.assertEqual(lab.sessions(), ())

        self.runs(main)

    def test_taken_away(self) -> None:
        async def main(lab: labrun.Lab) -> None:
            with self.assertRaises(labrun.TakenAway):
                async with lab.hold("scope", limit=0) as held:
                    self.assertEqual(await self.once(lab, "scope", timeout=LIMIT), ("scope",))
                    self.assertEqual(held.state, "taken")

        self.runs(main)

    def test_take_away(self) -> None:
        """It waits for the disk as a task, and what isn't held is refused."""

        async def main(lab: labrun.Lab) -> None:
            with self.assertRaisesRegex(labrun.TakenAway, "was taken away: scope"):
                async with lab.hold("scope") as held:
                    task = asyncio.ensure_future(self.once(lab, "scope"))
                    await self.waiting(lab)
                    self.assertEqual(await lab.take_away_async(held.number), ("scope",))
                    self.assertEqual(held.state, "taken")
                    self.assertEqual(await task, ("scope",))
            with self.assertRaisesRegex(labrun.NotHeld, "is over, or never was"):
                await lab.take_away_async(held)

        self.runs(main)

    def test_take_away_cancelled(self) -> None:
        """The session is ended all the same."""
        goes_on = threading.Event()

        async def main(lab: labrun.Lab) -> None:
            held = lab.hold("scope")
            await held.acquire_async()
            store = lab._shell._store
            real = store.put
            with mock.patch.object(store, "put", lambda text, place: goes_on.wait(LIMIT) and real(text, place)):
                task = asyncio.ensure_future(lab.take_away_async(held))
                await asyncio.sleep(0.01)
                self.assertFalse(task.done())
                task.cancel()
                with self.assertRaises(asyncio.CancelledError):
                    await task
                goes_on.set()
            self.assertEqual((held.state, await self.once(lab, "scope")), ("taken", ("scope",)))

        with tempfile.TemporaryDirectory() as folder:
            lab = self.lab(journal=f"{folder}/bay.journal", sync="none")
            asyncio.run(main(lab))
            self.assertEqual(lab.sessions(), ())

    def test_stopped(self) -> None:
        async def main(lab: labrun.Lab) -> None:
            async with lab.hold("scope"):
                task = asyncio.ensure_future(self.once(lab, "scope"))
                await self.waiting(lab)
                lab.stop()
                with self.assertRaises(labrun.Stopped):
                    await task

        lab = self.lab()
        asyncio.run(main(lab))
        self.assertEqual(lab.sessions(), ())

    def test_loop_that_ends(self) -> None:
        """A task whose loop was closed while it waited: nobody is there any more, so it never comes to hold."""
        lab = self.lab()
        loop = asyncio.new_event_loop()
        with lab.hold("scope"):
            task = loop.create_task(self.once(lab, "scope"))
            loop.run_until_complete(asyncio.sleep(0.01))
            self.assertEqual(len(lab.sessions()), 2)
            loop.close()
            thread = self.waits(lab.hold("scope"))
        back(thread)
        self.is_empty(lab)
        task._log_destroy_pending = False  # type: ignore[attr-defined]

    def test_with_threads(self) -> None:
        """Threads and tasks of two loops at one lab."""
        lab, counting, faults = self.lab(), Counting(), []  # type: ignore[var-annotated]

        async def tasks() -> None:
            async def one() -> None:
                for _ in range(20):
                    async with lab.hold("scope", "supply") as held:
                        counting.came(held.instruments)
                        await asyncio.sleep(0)
                        counting.went(held.instruments)

            await asyncio.gather(*(one() for _ in range(5)))

        def loop() -> None:
            try:
                asyncio.run(tasks())
            except BaseException as fault:
                faults.append(fault)

        def plain() -> None:
            for _ in range(100):
                with lab.hold("supply", "load-1") as held:
                    counting.came(held.instruments)
                    counting.went(held.instruments)

        for thread in [in_thread(work) for work in (loop, loop, plain, plain)]:
            back(thread)
        self.assertEqual((counting.clashes, counting.done, faults), (0, 400, []))
        self.is_empty(lab)

    def test_cancelled_anywhere(self) -> None:
        """40 tasks, cancelled at random awaits."""

        async def cancels(lab: labrun.Lab, seed: int) -> None:
            chance, counting = random.Random(seed), Counting()

            async def one() -> None:
                more: dict[str, Any] = {"timeout": chance.choice((None, 0.001)), "note": chance.choice(("", "x"))}
                try:
                    async with lab.hold(*chance.sample(["scope", "supply", "load-1"], 2), **more) as held:
                        counting.came(held.instruments)
                        try:
                            await asyncio.sleep(0)
                        finally:
                            counting.went(held.instruments)
                except labrun.TimeoutError:
                    pass

            tasks = [asyncio.ensure_future(one()) for _ in range(40)]
            for _ in range(200):
                await asyncio.sleep(0 if chance.random() < 0.8 else 0.0005)
                if chance.random() < 0.3:
                    chance.choice(tasks).cancel()
            await asyncio.gather(*tasks, return_exceptions=True)
            self.assertEqual(counting.clashes, 0)

        for seed in range(8):
            self.runs(lambda lab, seed=seed: cancels(lab, seed), overtakes=(0, 3, 64)[seed % 3])  # type: ignore[misc]


if __name__ == "__main__":
    unittest.main()
