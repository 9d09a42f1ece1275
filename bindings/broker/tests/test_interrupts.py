"""Ctrl-C, at any moment: nothing stays held that its program has left."""

from __future__ import annotations

import asyncio
import random
import signal
import threading
import time
import unittest
from typing import Any
from unittest import mock

import labrun_broker
from labrun_broker.held import Held
from tests.brokers import LIMIT, OnBroker, until

TIMES, SPAN = 80, 0.004  # seconds, in which a session comes to hold and lets go a few times


class Interrupts(OnBroker):
    def setUp(self) -> None:
        # (a shell that runs this in the background has it ignore interrupts)
        self.addCleanup(signal.signal, signal.SIGINT, signal.signal(signal.SIGINT, signal.default_int_handler))
        self.lab_of_it = self.lab(self.broker())
        self.lab_of_it.status()

    def interrupts(self, moment: Any) -> threading.Thread:
        """A thread that interrupts this one, once `moment` is over."""
        main = threading.get_ident()
        return threading.Thread(target=lambda: (moment(), signal.pthread_kill(main, signal.SIGINT)))

    def is_free(self) -> None:
        until(lambda: self.lab_of_it.status()["instruments"][0]["holder"] is None, "nobody holds it")

    def test_at_any_moment(self) -> None:
        """As it asks, comes to hold, or lets go."""
        chance = random.Random(1)
        for _ in range(TIMES):
            begins = threading.Event()
            one = self.interrupts(lambda: (begins.wait(), time.sleep(chance.uniform(0, SPAN))))
            one.start()
            with self.assertRaises(KeyboardInterrupt):
                begins.set()
                while True:
                    with self.lab_of_it.hold("scope", timeout=LIMIT):
                        pass
            one.join()
            self.is_free()
            # (a broker takes so many requests a second)
            time.sleep(0.02)

    def slow(self, held: Held) -> threading.Event:
        """Its let-go takes a while before the broker hears of it; it has begun once this is set."""
        begun, lets_go = threading.Event(), held._let_go

        async def slowly(failed: Any) -> None:
            begun.set()
            await asyncio.sleep(0.3)
            await lets_go(failed)

        self.enterContext(mock.patch.object(held, "_let_go", slowly))
        return begun

    def test_as_it_lets_go(self) -> None:
        """The interrupt is raised, and it lets go all the same."""
        held = self.lab_of_it.hold("scope")
        begun = self.slow(held)
        one = self.interrupts(begun.wait)
        with self.assertRaises(KeyboardInterrupt):
            one.start()
            with held:
                pass
        one.join()
        self.assertEqual(held.state, "finished")
        self.is_free()

    def test_as_the_lab_is_closed(self) -> None:
        """What it lets go is let go all the same."""
        lab = labrun_broker.connect(self.lab_of_it.address)
        held = lab.hold("scope")
        begun = self.slow(held)
        held.acquire()
        one = self.interrupts(begun.wait)
        with self.assertRaises(KeyboardInterrupt):
            one.start()
            lab.close()
        one.join()
        self.assertEqual(held.state, "finished")
        self.is_free()

    def test_a_task_that_is_cancelled_as_it_lets_go(self) -> None:
        held = self.lab_of_it.hold("scope")
        begun = self.slow(held)

        async def works() -> None:
            async with held:
                pass

        async def cancels() -> None:
            task = asyncio.create_task(works())
            await asyncio.to_thread(begun.wait)
            task.cancel()
            with self.assertRaises(asyncio.CancelledError):
                await task

        asyncio.run(cancels())
        until(lambda: held.state == "finished", "it has let go")
        self.is_free()


if __name__ == "__main__":
    unittest.main()
