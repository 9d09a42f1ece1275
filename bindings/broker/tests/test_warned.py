"""Clients by HTTP are warned before their limit is over, as all others are (test_lasting.py)."""

from __future__ import annotations

import re
import sys
import time
import unittest
from importlib.util import find_spec
from typing import Any

from tests.asking import Asking
from tests.brokers import BAY, LIMIT, Broker, OnBroker, until

# a broker that warns three seconds after a session came to hold, and tells nothing again unless it has changed
LONG = 60.0
SOONER = f"""
import sys
from labrun_broker import command, lasting
lasting.SHARE = {1 - 3 / LONG}
try:
    from labrun_broker import http_door
    http_door.BEAT = 3600
except ImportError:
    pass
sys.exit(command.main())
"""
THEN = "after that its session is taken away as soon as somebody waits for what it has"


@unittest.skipUnless(find_spec("aiohttp"), "there is no aiohttp")
class Warned(OnBroker):
    def http(self, bay: str = BAY) -> "tuple[Broker, Asking]":
        broker = self.broker(bay, "--state", "FOLDER/state", "--http", "unix:FOLDER/bay.sock.http")
        broker.end()
        broker.command = [sys.executable, "-c", SOONER]
        broker.begin()
        return broker, Asking(f"{broker.folder}/bay.sock.http")

    def left(self, told: Any, who: str = "guest-1") -> int:
        """How many seconds are left, by the warning of an answer that says that it holds."""
        self.assertEqual(told["state"], "holding")
        found = re.fullmatch(rf"{who} may hold scope for 1 min 0 s, which is over in ([0-9]+) s: {THEN}", told["warning"] or "")
        if found is None:
            raise AssertionError(told["warning"])
        return int(found[1])

    def test_in_each_answer(self) -> None:
        """The one that is waited for comes at once; and who was told by that waits on. It says how much is left by then."""
        _, one = self.http()
        ticket = one.holds("scope", limit=LONG)
        began = time.monotonic()
        status, told = one.of(ticket, wait=50, **{"while": "holding"})
        self.assertLess(time.monotonic() - began, 40)
        first = self.left(told)
        self.assertTrue(status == 200 and 10 < first <= 57, first)
        began = time.monotonic()
        self.left(one.of(ticket, wait=1, **{"while": "holding"})[1])
        self.assertGreaterEqual(time.monotonic() - began, 1)
        for what, body in (("/ping", None), ("/notes", {"text": "V = 5"})):
            self.assertLess(self.left(one.of(ticket, what, "POST", body)[1]), first)

    def test_not_before(self) -> None:
        _, one = self.http()
        ticket = one.holds("scope", limit=1e6)
        for what, method in (("", "GET"), ("/ping", "POST")):
            self.assertIsNone(one.of(ticket, what, method)[1]["warning"])

    def test_events(self) -> None:
        """By the limit of the bay, too."""
        _, one = self.http(f"limit = {LONG:g}\n{BAY}")
        told = one.events(one.holds("scope", station="board"))
        event, about = next(told)
        if about["warning"] is None:
            event, about = next(told)
        self.assertEqual(event, "holding")
        self.assertLessEqual(self.left(about, "board"), 57)

    def test_who_comes_back_to_another_broker(self) -> None:
        broker, one = self.http()
        ticket = one.holds("scope", limit=LONG)
        broker.kill()
        broker.begin()
        until(lambda: one.of(ticket, "/ping", "POST")[1]["warning"], "it is warned")

    def test_who_asked_by_http_and_waited(self) -> None:
        _, one = self.http()
        first = one.holds("scope")
        ticket = one.asks("scope", limit=LONG)[1]["ticket"]
        one.lets_go(first)
        until(lambda: one.of(ticket, wait=5)[1]["state"] == "holding", "it holds")
        began = time.monotonic()
        while (told := one.of(ticket, wait=5, **{"while": "holding"})[1])["warning"] is None and time.monotonic() < began + LIMIT:
            pass
        self.left(told, "guest-2")


if __name__ == "__main__":
    unittest.main()
