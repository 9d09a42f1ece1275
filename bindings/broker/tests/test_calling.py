"""What a program gives to be called may be slow, may ask the lab, and may fail."""

from __future__ import annotations

import threading
import time

import labrun
from tests.brokers import LIMIT, OnBroker, station, until


class Given(OnBroker):
    def test_waits_that_asks_the_lab(self) -> None:
        """Within the time limit all the same."""
        broker = self.broker()
        lab, said = self.lab(broker), list[str]()

        def waits(text: str) -> None:
            said.append(f"{text}: {lab.status()['instruments'][0]['holder']}")

        with self.lab(broker, "board").hold("scope"):
            begun = time.monotonic()
            with self.assertRaises(labrun.TimeoutError):
                lab.hold("scope", timeout=2, waits=waits).acquire()
            self.assertLess(time.monotonic() - begun, LIMIT)
        self.assertRegex(until(lambda: said)[0], "^scope has been held by board .*: board$")

    def test_waits_that_is_slow(self) -> None:
        """All else goes on, and it comes to hold meanwhile."""
        broker = self.broker()
        lab, begun, goes_on = self.lab(broker), threading.Event(), threading.Event()

        def waits(_: str) -> None:
            begun.set()
            goes_on.wait(LIMIT)

        self.addCleanup(goes_on.set)
        with self.lab(broker, "board").hold("scope"):
            held = lab.hold("scope", waits=waits)
            thread = threading.Thread(target=held.acquire)
            thread.start()
            self.assertTrue(begun.wait(LIMIT))
            self.assertEqual(lab.status()["instruments"][0]["holder"], "board")
        thread.join(LIMIT)
        self.assertEqual((thread.is_alive(), held.held, goes_on.is_set()), (False, True, False))
        held.release()

    def test_waits_that_fails(self) -> None:
        """So does the wait, with what it raised, and nobody is left in the line."""
        broker = self.broker()
        lab = self.lab(broker)

        def waits(_: str) -> None:
            raise ZeroDivisionError("of its own")

        with self.lab(broker, "board").hold("scope"):
            with self.assertRaisesRegex(ZeroDivisionError, "of its own"):
                lab.hold("scope", timeout=LIMIT, waits=waits).acquire()
            until(lambda: lab.status()["in_line"] == [])

    def test_whoever_is_told_that_a_session_is_taken_away_asks_the_lab(self) -> None:
        broker = self.broker()
        lab, told = self.lab(broker, "board"), list[str]()

        def taken(fault: Exception) -> None:
            told.append(f"{type(fault).__name__}: {lab.status()['instruments'][0]['holder']}")

        held = lab.hold("scope")
        held.on_taken = taken
        held.acquire()
        self.assertEqual(broker.ran("release", "board").returncode, 0)
        self.assertEqual(until(lambda: told), ["TakenAway: None"])
        self.assertEqual(station(lab, "board")["state"], "idle")
