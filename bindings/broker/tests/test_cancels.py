"""Tasks that are cancelled, at any moment, and labs that are closed meanwhile: nothing stays held, or gone, that its program has left."""

from __future__ import annotations

import asyncio
import gc
import random
import threading
import time
import unittest
from typing import Any, Callable, Coroutine
from unittest import mock

import labrun_broker
from labrun_broker.held import Held
from labrun_broker.stream import Stream
from tests.brokers import LIMIT, OnBroker, stopped, until

# moments at which something is cancelled, within so many seconds; a session comes to hold, notes and lets go within SPAN
TIMES, MOST, SPAN = 300, 20.0, 0.006
# seconds; it is longer than whoever gives up waits for the broker
LATE = 1.0


class Cancels(OnBroker):
    def setUp(self) -> None:
        self.at = self.broker()
        self.looks = self.lab(self.at)
        self.looks.status()
        # what was written to the broker, and when it is
        self.written: list[str] = []
        writes, self.late = Stream._write, set[str]()

        async def written(stream: Stream, ask: Any) -> None:
            if (kind := ask.WhichOneof("ask")) in self.late:
                await asyncio.sleep(LATE)
            await writes(stream, ask)
            self.written.append(kind)

        self.enterContext(mock.patch.object(Stream, "_write", written))

    def is_free(self) -> None:
        def is_so() -> bool:
            status = self.looks.status()
            return all(it["state"] == "idle" for it in status["stations"]) and not status["in_line"]

        until(is_so, "nobody holds, waits or is gone")

    def is_written(self, kind: str) -> None:
        until(lambda: kind in self.written, f"{kind} is on its way")

    def leaves(self, held: Held) -> threading.Event:
        """It is set once somebody lets it go."""
        begun, lets_go = threading.Event(), held._let_go

        async def begins(failed: Any) -> None:
            begun.set()
            await lets_go(failed)

        self.enterContext(mock.patch.object(held, "_let_go", begins))
        return begun

    def closes(self, lab: labrun_broker.Lab) -> Callable[[], None]:
        """Closes it on a thread; what it gives waits for that, and raises what went wrong."""
        faults: list[BaseException] = []

        def runs() -> None:
            try:
                lab.close()
            except BaseException as fault:
                faults.append(fault)

        thread = threading.Thread(target=runs)
        thread.start()

        def ended() -> None:
            thread.join(LIMIT)
            self.assertFalse(thread.is_alive())
            self.assertEqual(faults, [])

        return ended

    def ends_cancelled(self, task: asyncio.Task[None]) -> Coroutine[Any, Any, None]:
        async def ends() -> None:
            task.cancel()
            with self.assertRaises(asyncio.CancelledError):
                await task

        return ends()

    def test_a_note(self) -> None:
        """Its session lets go behind it, and the broker's next answer is that to the let-go."""
        lab = self.lab(self.at)
        held = lab.hold("scope", timeout=LIMIT)
        begun = self.leaves(held)

        async def works(holds: asyncio.Event, goes: asyncio.Event) -> None:
            async with held:
                holds.set()
                await goes.wait()
                await held.note_async("V = 5.003")

        async def cancels() -> None:
            holds, goes = asyncio.Event(), asyncio.Event()
            task = asyncio.create_task(works(holds, goes))
            await holds.wait()
            with stopped(self.at):
                goes.set()
                await asyncio.to_thread(self.is_written, "note")
                task.cancel()
                await asyncio.to_thread(begun.wait, LIMIT)
            with self.assertRaises(asyncio.CancelledError):
                await task
            self.assertEqual(held.state, "finished")

        asyncio.run(cancels())
        self.is_free()

    def test_a_thread_notes_as_another_lets_go(self) -> None:
        lab = self.lab(self.at)
        held = lab.hold("scope")
        begun = self.leaves(held)
        with held:
            stops = stopped(self.at)
            stops.__enter__()
            notes = threading.Thread(target=held.note, args=("V = 5.003",))
            notes.start()
            self.is_written("note")
            goes_on = threading.Thread(target=lambda: (begun.wait(LIMIT), stops.__exit__(None, None, None)))
            goes_on.start()
        self.assertEqual(held.state, "finished")
        notes.join(LIMIT)
        goes_on.join(LIMIT)
        self.is_free()
        with self.assertRaises(labrun_broker.NotHeld):
            held.note("V = 5.003")

    def test_as_it_lets_go_and_the_lab_is_closed(self) -> None:
        lab = self.lab(self.at)

        async def works(holds: asyncio.Event, goes: asyncio.Event) -> None:
            async with lab.hold("scope"):
                holds.set()
                await goes.wait()

        async def cancels() -> Callable[[], None]:
            holds, goes = asyncio.Event(), asyncio.Event()
            task = asyncio.create_task(works(holds, goes))
            await holds.wait()
            with stopped(self.at):
                goes.set()
                await asyncio.to_thread(self.is_written, "let_go")
                await self.ends_cancelled(task)
                ended = self.closes(lab)
                await asyncio.sleep(LATE)
            return ended

        asyncio.run(cancels())()
        self.is_free()

    def test_another_thread_lets_go_as_the_lab_is_closed(self) -> None:
        """Nothing went wrong with that."""
        lab = self.lab(self.at)
        held = lab.hold("scope", timeout=LIMIT)
        held.acquire()
        self.late.add("let_go")
        thread = threading.Thread(target=held.release)
        thread.start()
        until(lambda: held._questions.let_go, "it is being let go")
        self.closes(lab)()
        thread.join(LIMIT)
        self.assertEqual(held.state, "finished")
        self.is_free()

    def test_as_it_lets_go_and_the_program_ends(self) -> None:
        self.late = {"let_go"}
        lab = self.lab(self.at)
        held = lab.hold("scope")
        begun = self.leaves(held)

        async def works() -> None:
            async with held:
                pass

        async def cancels() -> None:
            task = asyncio.create_task(works())
            await asyncio.to_thread(begun.wait, LIMIT)
            await self.ends_cancelled(task)

        asyncio.run(cancels())
        lab.close(lets_go=False)
        self.assertEqual(held.state, "finished")
        self.is_free()

    def test_as_it_asks_and_the_lab_is_closed(self) -> None:
        """The broker has said that it holds, and that isn't read yet."""
        self.late = {"let_go"}
        told = Stream._is_told

        def isnt_told(stream: Stream, kind: Any, what: Any) -> None:
            if kind != "held":
                told(stream, kind, what)

        self.enterContext(mock.patch.object(Stream, "_is_told", isnt_told))
        lab = labrun_broker.connect(self.at.address)

        async def cancels() -> None:
            task = asyncio.create_task(lab.hold("scope").acquire_async())
            await asyncio.to_thread(until, lambda: self.looks.status()["instruments"][0]["holder"], "it holds")
            task.cancel()
            await asyncio.sleep(0)
            lab.close()
            self.assertIn("let_go", self.written)
            with self.assertRaises(asyncio.CancelledError):
                await task

        asyncio.run(cancels())
        self.is_free()

    def test_just_as_it_came_to_hold(self) -> None:
        """Its task isn't told yet."""
        lab = self.lab(self.at)
        held = lab.hold("scope")

        async def cancels() -> None:
            task = asyncio.create_task(held.acquire_async())
            await asyncio.sleep(0)
            # (meanwhile the loop of this task stands still)
            until(lambda: held.state == "held", "it holds")
            await self.ends_cancelled(task)
            self.assertEqual(held.state, "finished")

        asyncio.run(cancels())
        self.is_free()

    def test_nothing_is_said_of_what_nobody_awaits(self) -> None:
        with self.looks.hold("scope"), self.assertNoLogs("asyncio"):
            lab = self.lab(self.at)

            async def waits() -> None:
                with lab:
                    task = asyncio.create_task(lab.hold("scope").acquire_async())
                    await asyncio.to_thread(self.is_written, "wish")
                    task.cancel()
                    await asyncio.sleep(0)
                with self.assertRaises(asyncio.CancelledError):
                    await task

            self.written.clear()
            asyncio.run(waits())
            gc.collect()

    def test_at_any_moment(self) -> None:
        """As it asks, comes to hold, notes or lets go; and then its lab is closed."""
        chance, end, said = random.Random(2), time.monotonic() + MOST, list[str]()

        async def works(lab: labrun_broker.Lab) -> None:
            while True:
                async with lab.hold("scope", timeout=LIMIT) as held:
                    await held.note_async("V = 5.003")

        async def cancels() -> None:
            asyncio.get_running_loop().set_exception_handler(lambda _, it: said.append(str(it)))
            with labrun_broker.connect(self.at.address) as lab:
                task = asyncio.create_task(works(lab))
                await asyncio.sleep(chance.uniform(0, SPAN))
                task.cancel()
                if chance.random() < 0.5:
                    await asyncio.wait({task})
            with self.assertRaises(asyncio.CancelledError):
                await task

        with self.assertNoLogs("asyncio"):
            for _ in range(TIMES):
                asyncio.run(cancels())
                self.is_free()
                if time.monotonic() > end:
                    break
            gc.collect()
        self.assertEqual(said, [])


if __name__ == "__main__":
    unittest.main()
