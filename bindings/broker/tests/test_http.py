"""HTTP and JSON beside gRPC: the same rules, by single requests."""

from __future__ import annotations

import asyncio
import contextlib
import gzip
import json
import os
import secrets
import shutil
import socket
import subprocess
import sys
import tempfile
import threading
import time
import unittest
import unittest.mock
from typing import Any

import labrun_broker

try:
    from labrun_broker import http_door, http_words
except ImportError as lacking:
    raise unittest.SkipTest(str(lacking)) from None

from labrun_broker.bay import bay_of
from labrun_broker.entrance import Caller, Entrance
from labrun_broker.keeping import Keeping
from labrun_broker.visits import WAITING, Visits
from labrun_broker.wishes import Ended, Wish, owner_of
from tests.asking import KINDS, OPENAPI, Asking, found
from tests.brokers import BAY, LIMIT, SOON, TOP, Broker, OnBroker, Turns, free_port, records, station, until

SOCKET = ("--http", "unix:FOLDER/bay.sock.http")
RELEASES = f'gone = "release"\n{BAY}'


class OnHttp(OnBroker):
    def http(self, bay: str = BAY, *words: str) -> "tuple[Broker, Asking]":
        broker = self.broker(bay, *SOCKET, *words)
        return broker, Asking(f"{broker.folder}/bay.sock.http")

    def quickly(self, quiet: float, bay: str = BAY, *words: str) -> "tuple[Broker, Asking]":
        """A broker that takes a client that asks nothing for gone sooner."""
        folder = self.enterContext(tempfile.TemporaryDirectory())
        text = f"import sys\nfrom labrun_broker import command, visits\nvisits.QUIET = {quiet}\nsys.exit(command.main())"
        every = tuple(it.replace("FOLDER", folder) for it in (*SOCKET, *words))
        broker = Broker(folder, bay, every, [sys.executable, "-c", text])
        self.addCleanup(broker.ends)
        return broker, Asking(f"{folder}/bay.sock.http")

    def told(self, expected: "tuple[int, str, str]", got: "tuple[int, Any]") -> None:
        """An error of this status and kind, in whose text this stands."""
        status, told = got
        self.assertEqual((status, told.get("kind")), expected[:2], told)
        self.assertIn(expected[2], told["text"])


class Races(unittest.IsolatedAsyncioTestCase):
    async def asyncSetUp(self) -> None:
        self.keeping = Keeping(bay_of(BAY), None)
        await self.keeping.open()
        self.addAsyncCleanup(self.keeping.close)

    async def test_one_that_gives_up_just_as_it_asks(self) -> None:
        """Before anything is done for its wish: both requests are answered, and it is forgotten."""
        visits, wish = Visits(self.keeping, Entrance(self.keeping)), Wish(("scope",), ticket=secrets.token_hex())

        async def gives_up() -> None:
            await visits._of[owner_of(wish.ticket)].lets_go(None)

        asks, leaves = asyncio.create_task(visits.asks(wish, Caller())), asyncio.create_task(gives_up())
        async with asyncio.timeout(LIMIT):
            await leaves
            visit = await asks
        with self.assertRaisesRegex(Ended, "waits no longer"):
            visit.raises()
        self.assertEqual((visits._of, visits.entrance.clients), ({}, 0))

    async def test_one_that_is_taken_away_just_as_it_lets_go(self) -> None:
        """It is told that it was taken away, and by whom."""
        keeping = self.keeping
        visits = Visits(keeping, Entrance(keeping))
        for asks in (lambda it: it.lets_go(None), lambda it: it.notes("5 V")):
            visit = await visits.asks(Wish(("scope",), ticket=secrets.token_hex()), Caller())
            await visit.outlasts(WAITING, LIMIT, lambda: True)
            goes_on = asyncio.Event()
            with unittest.mock.patch.object(keeping._shell.turns, "may_go_on", goes_on.wait):
                asking = asyncio.create_task(asks(visit))
                await asyncio.sleep(0.05)
            await keeping.release("guest-1", "ann", 0, "")
            goes_on.set()
            with self.assertRaisesRegex(Ended, "taken away by ann") as found:
                await asking
            self.assertEqual(found.exception.kind, "TakenAway")


class Unchanged(OnHttp):
    def test_it_is_answered_when_that_is_another(self) -> None:
        """With `while=unchanged` soon, also if that was between two requests; without it only once it holds, or the time is over."""
        broker, one = self.http()
        holds = self.enterContext(broker.started("hold", "scope", "--station", "board", "--", "sleep", "600"))
        self.addCleanup(holds.kill)
        until(lambda: one.status("board")["state"] == "holding")
        tickets, unchanged = [one.asks("scope")[1]["ticket"] for _ in range(3)], {"while": "unchanged"}
        spans = dict[str, tuple[float, Any]]()

        def asks(ticket: str, **query: Any) -> None:
            begun = time.monotonic()
            told = one.of(ticket, **query)
            spans[ticket] = time.monotonic() - begun, told

        asks(tickets[0], wait=2.5, **unchanged)
        self.assertGreaterEqual(spans[tickets[0]][0], 2.5)
        threads = [threading.Thread(target=asks, args=(it,), kwargs={"wait": 10, **more}) for it, more in zip(tickets, (unchanged, {}))]
        for it in threads:
            it.start()
        time.sleep(0.3)
        holds.kill()
        for it in threads:
            it.join(LIMIT)
        asks(tickets[2], wait=10, **unchanged)
        for ticket in tickets:
            status, told = spans[ticket][1]
            self.assertEqual((status, "gone for" in told["text"]), (202, True), told)
        self.assertLess(max(spans[tickets[0]][0], spans[tickets[2]][0]), 9)
        self.assertGreaterEqual(spans[tickets[1]][0], 10)
        # (it is told by now)
        asks(tickets[0], wait=1.5, **unchanged)
        self.assertGreaterEqual(spans[tickets[0]][0], 1.5)
        self.told((400, "BadWish", "while: waiting, holding or unchanged is wanted"), one.of(tickets[0], **{"while": "over"}))


class Sessions(OnHttp):
    def test_one_after_another(self) -> None:
        broker, one = self.http()
        status, told = one.asks("scope", "supply", station="board", by="ann")
        its = {"state": "holding", "station": "board", "session": 1, "instruments": ["scope", "supply"], "text": "", "waits_for": [], "token": 1, "warning": None}
        self.assertEqual((status, told), (200, {**its, "ticket": told["ticket"], "grace": None, "lease": None, "ping": 5.0}))
        self.assertGreaterEqual(len(told["ticket"]), 32)
        self.assertEqual(one.of(told["ticket"], "/notes", "POST", {"text": "V = 5"})[0], 200)
        row = one.status("board")
        self.assertEqual((row["state"], row["by"], row["note"], row["instruments"]), ("holding", "ann", "V = 5", ["scope", "supply"]))
        # who asks again gets the same answer, and by the same ticket nothing else
        again = {"station": "board", "ticket": told["ticket"]}
        self.assertEqual(one.asks("supply", "scope", **again)[1]["instruments"], ["scope", "supply"])
        self.told((400, "BadWish", "this ticket is that of a session that holds scope supply: ask with another one"), one.asks("scope", **again))
        # twice, as who got no answer asks again
        for _ in range(2):
            self.assertEqual(one.lets_go(told["ticket"]), (200, {"state": "over"}))
        self.assertEqual(one.status("board")["state"], "idle")
        self.told((410, "LetGo", "the session has let go"), one.of(told["ticket"]))
        self.told((410, "LetGo", "the session has let go"), one.of(told["ticket"], "/notes", "POST", {"text": "late"}))
        self.told((404, "NotHeld", "no session has this ticket"), one.of("a" * 43))

    def test_one_waits_until_the_other_lets_go(self) -> None:
        """Whether the other came by gRPC or not."""
        broker, one = self.http()
        lab = self.lab(broker, "board")
        with lab.hold("scope"):
            status, told = one.asks("scope", by="ben")
            self.assertEqual((status, told["state"], told["station"], told["instruments"]), (202, "waiting", "guest-1", ["scope"]))
            self.assertIn("scope has been held by board for", told["text"])
            self.assertEqual([(it["instrument"], it["station"], it["holds"]) for it in told["waits_for"]], [("scope", "board", True)])
            self.told((409, "NotHeld", "the session waits"), one.of(told["ticket"], "/notes", "POST", {"text": "early"}))
            began = time.monotonic()
            self.assertEqual(one.of(told["ticket"], wait=0.5)[0], 202)
            self.assertGreaterEqual(time.monotonic() - began, 0.5)
            answers = list[Any]()
            thread = threading.Thread(target=lambda: answers.append(one.of(told["ticket"], wait=LIMIT)))
            thread.start()
            time.sleep(0.3)
            self.assertEqual(answers, [])
        began = time.monotonic()
        thread.join(LIMIT)
        self.assertLess(time.monotonic() - began, SOON)
        self.assertEqual((answers[0][0], answers[0][1]["state"]), (200, "holding"))
        with self.assertRaisesRegex(labrun_broker.TimeoutError, r"scope has been held by guest-1 for .* \(ben\)"):
            lab.hold("scope", timeout=0.1).acquire()

    def test_choices(self) -> None:
        _, one = self.http()
        one.holds("load-1")
        status, told = one.ask("POST", "/v1/sessions", {"any_of": [["load-1"], ["scope", "load-2"]]})
        self.assertEqual((status, told["instruments"]), (200, ["scope", "load-2"]))

    def test_a_time_limit(self) -> None:
        """It is the broker's, and who asks later is told, too."""
        _, one = self.http()
        one.holds("scope", station="board", by="ann")
        began = time.monotonic()
        answer = one.asks("scope", timeout=0.4, ticket="t" * 20, wait=LIMIT)
        self.assertTrue(0.4 <= time.monotonic() - began < SOON)
        self.told((409, "TimeoutError", "scope has been held by board for"), answer)
        self.assertEqual(one.of("t" * 20), answer)
        self.told((409, "TimeoutError", "was refused, because it doesn't wait (hold -n, or a timeout of 0): scope has been held by board for"), one.asks("scope", timeout=0, wait=LIMIT))

    def test_one_that_waits_gives_up(self) -> None:
        _, one = self.http()
        first = one.holds("scope")
        ticket = one.asks("scope")[1]["ticket"]
        self.assertEqual(one.lets_go(ticket), (200, {"state": "over"}))
        self.assertEqual(one.status("guest-2")["state"], "idle")
        one.lets_go(first)
        one.holds("scope")

    def test_work_that_failed(self) -> None:
        broker, one = self.http(BAY, "--state", "FOLDER/state")
        one.lets_go(one.holds("scope", station="board"), failed="smoke")
        its = lambda: [(it["what"], it["text"]) for it in records(broker) if it["station"] == "board"]
        until(lambda: its()[-1] == ("failed", "smoke"), "that it failed")

    def test_who_asks_again_keeps_its_place(self) -> None:
        """It sends the same wish once more, because no answer came. Another wish with the ticket takes the place of the first
        while that waits, and is refused once it holds."""
        _, one = self.http()
        first, ticket = one.holds("scope"), "again-and-again-1"
        number = one.asks("scope", ticket=ticket)[1]["session"]
        later = one.asks("scope")[1]
        self.assertEqual(one.asks("scope", ticket=ticket)[1]["session"], number)
        one.lets_go(first)
        self.assertEqual((one.of(ticket)[0], one.of(later["ticket"])[0]), (200, 202))
        self.assertEqual(one.asks("scope", ticket=ticket)[1]["session"], number)
        # (a program that looks at `state` alone would work at what it doesn't hold)
        self.told((400, "BadWish", "holds scope: ask with another one"), one.asks("supply", ticket=ticket))
        other = one.asks("scope", ticket="one-and-another-1")[1]["session"]
        changed = one.asks("scope", "supply", ticket="one-and-another-1")[1]
        self.assertGreater(changed["session"], other)
        self.assertEqual(changed["instruments"], ["scope", "supply"])

    def test_an_operator_releases(self) -> None:
        """Who waits for that, by `while`, is told at once."""
        _, one = self.http()
        ticket, answers = one.holds("scope", "supply", station="board"), list[Any]()
        thread = threading.Thread(target=lambda: answers.append(one.of(ticket, wait=LIMIT, **{"while": "holding"})))
        thread.start()
        time.sleep(0.3)
        self.told((409, "NotHeld", "board is in session 1 now, and not in 7"), one.ask("POST", "/v1/release", {"station": "board", "session": 7}))
        self.assertEqual(one.ask("POST", "/v1/release", {"station": "board", "by": "ann"}), (200, {"instruments": ["scope", "supply"]}))
        thread.join(SOON)
        self.told((410, "TakenAway", "the session with scope, supply was taken away by ann"), answers[0])
        self.told((410, "TakenAway", "the session with scope, supply was taken away by ann"), one.of(ticket, "/ping", "POST"))
        self.told((409, "NotHeld", "board holds nothing"), one.ask("POST", "/v1/release", {"station": "board"}))
        self.told((400, "BadWish", "bord is no station"), one.ask("POST", "/v1/release", {"station": "bord"}))

    def test_another_connection_comes_for_it(self) -> None:
        broker, one = self.http()
        ticket = one.holds("scope")
        held = self.lab(broker).hold("scope")
        held._ticket = ticket
        held.acquire()
        self.assertEqual(held.number, 1)
        # (and it doesn't take it back by a question)
        for _ in range(2):
            self.told((410, "TakenAway", "another connection came for the session"), one.of(ticket))
        self.assertTrue(held.held)
        held.release()

    def test_events(self) -> None:
        _, one = self.http()
        first = one.holds("scope", station="board")
        ticket = one.asks("scope")[1]["ticket"]
        told = one.events(ticket)
        event, about = next(told)
        self.assertEqual((event, about["state"], [it["station"] for it in about["waits_for"]]), ("waiting", "waiting", ["board"]))
        # (nothing has changed, and it is told again all the same)
        self.assertEqual(next(told)[0], "waiting")
        one.lets_go(first)
        self.assertEqual([next(told)[0] for _ in range(1)], ["holding"])
        one.ask("POST", "/v1/release", {"station": "guest-1", "by": "ann"})
        rest = list(told)
        self.assertEqual((rest[-1][0], rest[-1][1]["kind"]), ("over", "TakenAway"))
        status, heads, _ = one.raw("GET", f"/v1/sessions/{ticket}/events")
        self.assertEqual((status, heads["Content-Type"]), (410, "application/json; charset=utf-8"))

    def test_events_of_the_next_session_of_a_station(self) -> None:
        """Also where the station is whom it waits to be. (Else it would be told again after a while.)"""
        folder = self.enterContext(tempfile.TemporaryDirectory())
        text = "import sys\nfrom labrun_broker import command, http_door\nhttp_door.BEAT = 1000\nsys.exit(command.main())"
        broker = Broker(folder, BAY, tuple(it.replace("FOLDER", folder) for it in SOCKET), [sys.executable, "-c", text])
        self.addCleanup(broker.ends)
        one = Asking(f"{folder}/bay.sock.http")
        turns = Turns(self, broker)
        its = [one.events(one.asks("scope", "load-1")[1]["ticket"])]
        told = [next(its[0])[1]]
        turns.bob_waits()
        its.append(one.events(one.asks("supply", station="board")[1]["ticket"]))
        told.append(next(its[1])[1])
        self.assertEqual(["(ann)" in about["text"] for about in told], [True, True])
        turns.ann_goes()
        texts = [next(events)[1]["text"] for events in its]
        self.assertRegex(texts[0], r"scope has been held by board for .* \(bob\)")
        self.assertRegex(texts[1], r"^board has been in session 4 for .* \(bob\)")
        self.assertEqual([(it["instrument"], it["session"]) for it in station(turns.lab, "guest-2")["waits_for"]], [("scope", 4), ("load-1", 1)])

    def test_events_when_the_broker_ends(self) -> None:
        """None says that the session is over: it holds on, and the next broker has it."""
        broker, one = self.http(BAY, "--state", "FOLDER/state")
        holds = one.holds("scope", station="board")
        its = [one.events(ticket) for ticket in (holds, one.asks("scope")[1]["ticket"])]
        self.assertEqual([next(it)[0] for it in its], ["holding", "waiting"])
        broker.end()
        for it in its:
            events = list(it)
            self.assertNotIn("over", [event for event, _ in events])
            self.assertEqual((events[-1][0], events[-1][1]), ("stopped", {"kind": "Stopped", "text": "the broker ends"}))
        broker.begin()
        self.assertEqual(one.of(holds)[1]["state"], "holding")


class Gone(OnHttp):
    def test_one_that_waits_and_asks_nothing_leaves_the_line(self) -> None:
        """Not while a request of its is open, and not if it asks now and then."""
        _, one = self.quickly(4.0)
        first = one.holds("scope", station="board")
        keeps = threading.Thread(target=lambda: one.of(first, wait=LIMIT, **{"while": "holding"}))
        keeps.start()
        ticket = one.asks("scope", wait=5)[1]["ticket"]
        for _ in range(5):
            time.sleep(1)
            asked = time.monotonic()
            self.assertEqual(one.of(ticket)[0], 202)
        until(lambda: one.status("guest-1")["state"] == "idle", "it left the line")
        self.assertTrue(3.9 < time.monotonic() - asked < SOON)
        self.told((404, "NotHeld", "left the line"), one.of(ticket))
        one.lets_go(first)
        keeps.join()

    def test_whose_connection_ends_while_it_waits(self) -> None:
        """That is seen at once, and it has a moment to come back. (The same of one that holds. Else either would be there for a minute.)"""
        _, one = self.quickly(LIMIT)
        first = one.holds("scope", station="board")
        talk, other = one.connects(), one.connects()
        talk.request("POST", "/v1/sessions?wait=60", json.dumps({"instruments": ["scope"]}), {"Host": "localhost"})
        other.request("GET", f"/v1/sessions/{first}?wait=60&while=holding", headers={"Host": "localhost"})
        until(lambda: one.status("guest-1")["state"] == "waiting")
        time.sleep(0.5)
        talk.close()
        other.close()
        began = time.monotonic()
        until(lambda: one.status("guest-1")["state"] == "idle" and one.status("board")["state"] == "gone", "it is seen")
        self.assertLess(time.monotonic() - began, SOON)

    def test_one_that_holds_is_kept_and_comes_back(self) -> None:
        _, one = self.quickly(4.0)
        ticket = one.holds("scope")
        until(lambda: one.status("guest-1")["state"] == "gone")
        self.told((409, "TimeoutError", "gone for"), one.asks("scope", timeout=0.3, wait=20))
        status, told = one.of(ticket, "/ping", "POST")
        self.assertEqual((status, told["state"], told["session"], told["instruments"]), (200, "holding", 1, ["scope"]))
        self.assertEqual(one.status("guest-1")["state"], "holding")
        until(lambda: one.status("guest-1")["state"] == "gone")
        self.assertEqual(one.lets_go(ticket), (200, {"state": "over"}))

    def test_with_a_grace_it_is_released(self) -> None:
        """It holds as long as it says that it is there, and is told for how long after its last word; nobody else holds before that."""
        _, one = self.http(RELEASES, "--grace", "4")
        ticket = one.holds("scope", station="board")
        told = one.of(ticket)[1]
        self.assertEqual((told["grace"], told["lease"], told["ping"]), (4.0, 3.0, 0.5))
        began = sent = time.monotonic()

        def is_there() -> bool:
            nonlocal sent
            sent = time.monotonic()
            self.assertEqual(one.of(ticket, "/ping", "POST")[0], 200)
            return bool(one.status("board")["state"] == "holding")

        while time.monotonic() < began + 7:
            until(is_there)
            time.sleep(0.5)
        other = one.asks("scope")[1]["ticket"]
        while (answer := one.of(other, wait=1))[0] == 202:
            self.assertLess(time.monotonic() - sent, LIMIT)
        # (the grace begins once it has been silent for a third of it)
        self.assertGreater(time.monotonic() - sent, 4.0)
        self.assertEqual(answer[0], 200)
        self.told((410, "TakenAway", "its client was gone for 4 s"), one.of(ticket))

    def test_who_waits_asks_as_often_as_one_that_holds(self) -> None:
        """Else it would be released before it has heard that it holds: six times in three quarters of the grace, and each five seconds in any case."""
        for grace, ping in (("1", 0.125), ("60", 5.0)):
            with self.subTest(grace):
                # (the board's is kept, however slow this is)
                _, one = self.http(f'{RELEASES}[station_gone]\nboard = "keep"\n', "--grace", grace)
                one.holds("scope", station="board")
                status, told = one.asks("scope")
                self.assertEqual((status, told["state"], told["ping"]), (202, "waiting", ping))

    def test_no_answer_is_older_than_a_part_of_the_lease(self) -> None:
        _, one = self.http(RELEASES, "--grace", "8")
        ticket, began = one.holds("scope"), time.monotonic()
        one.of(ticket, wait=30, **{"while": "holding"})
        self.assertTrue(2 <= time.monotonic() - began < 6)

    def test_the_broker_is_killed(self) -> None:
        """Who held comes back by its ticket, and who waited asks again."""
        broker, one = self.http(BAY, "--state", "FOLDER/state")
        ticket, waits = one.holds("scope", station="board"), one.asks("scope")[1]["ticket"]
        broker.kill()
        broker.begin()
        self.assertEqual(one.status("board")["state"], "gone")
        self.told((404, "NotHeld", "no session has this ticket"), one.of(waits))
        self.assertEqual(one.asks("scope", ticket=waits)[0], 202)
        status, told = one.of(ticket)
        self.assertEqual((status, told["session"], told["station"]), (200, 1, "board"))
        one.lets_go(ticket)
        self.assertEqual(one.of(waits, wait=LIMIT)[0], 200)

    def test_the_broker_ends(self) -> None:
        """Whoever waits for an answer gets one."""
        broker, one = self.http(BAY, "--state", "FOLDER/state")
        answers, ticket = list[Any](), one.holds("scope")
        threads = [
            threading.Thread(target=lambda: answers.append(one.asks("scope", wait=LIMIT))),
            threading.Thread(target=lambda: answers.append(one.of(ticket, wait=LIMIT, **{"while": "holding"}))),
        ]
        for it in threads:
            it.start()
        until(lambda: one.status("guest-2")["state"] == "waiting")
        time.sleep(0.3)
        broker.end()
        for it in threads:
            it.join(SOON)
        self.assertEqual([(it[0], it[1]["kind"]) for it in answers], [(503, "Stopped")] * 2)
        broker.begin()
        self.assertEqual(one.of(ticket)[0], 200)


class Sockets(OnHttp):
    def test_they_are_taken_away(self) -> None:
        """A broker that is ended leaves none behind; but one that somebody else made there meanwhile stays."""
        broker, one = self.http(BAY, "--page", "unix:FOLDER/page.sock")
        self.assertEqual(one.ask("GET", "/v1/status")[0], 200)
        its = {"bay.sock", "bay.sock.http", "page.sock"}
        self.assertEqual(set(os.listdir(broker.folder)) & its, its)
        self.assertEqual((broker.end(), set(os.listdir(broker.folder)) & its), (0, set()))
        broker.begin()
        os.unlink(f"{broker.folder}/bay.sock.http")
        with socket.socket(socket.AF_UNIX) as other:
            other.bind(f"{broker.folder}/bay.sock.http")
            broker.end()
            self.assertEqual(set(os.listdir(broker.folder)) & its, {"bay.sock.http"})

    def test_wherever_the_broker_is_there_is_http(self) -> None:
        """labrun-hold takes a broker's socket without that of HTTP for one of a broker that has none."""
        folder, is_over, seen = self.enterContext(tempfile.TemporaryDirectory()), threading.Event(), set[frozenset[str]]()

        def looks() -> None:
            while not is_over.wait(0.0002):
                seen.add(frozenset(os.listdir(folder)) & {"bay.sock", "bay.sock.http"})

        thread = threading.Thread(target=looks)
        thread.start()
        try:
            broker = Broker(folder, BAY, ("--http", f"unix:{folder}/bay.sock.http"))
            until(lambda: frozenset({"bay.sock", "bay.sock.http"}) in seen, "both are seen")
            broker.end()
        finally:
            is_over.set()
            thread.join()
        self.assertNotIn(frozenset({"bay.sock"}), seen)


class Refused(OnHttp):
    def test_what_cant_be(self) -> None:
        _, one = self.http()
        for wish, expected in (
            ({"instruments": ["scop"]}, (400, "NoInstrument", "did you mean scope?")),
            ({"instruments": ["supply"], "station": "radio"}, (403, "MayNotUse", "radio may not use supply")),
            ({"instruments": ["scope"], "station": "bord"}, (400, "BadWish", "bord is no station of this bay")),
            ({"instrument": ["scope"]}, (400, "BadWish", "there is no field 'instrument': there are instruments, any_of, station, by, timeout, limit, urgent, ticket (did you mean instruments?)")),
            ({"instruments": []}, (400, "BadWish", "say which instruments")),
            ({}, (400, "BadWish", "say which instruments")),
            ({"instruments": ["scope"], "any_of": [["scope"]]}, (400, "BadWish", "say either which instruments, or which sets of them to choose from (any_of), and not both")),
            ({"instruments": ["scope"], "timeout": -1}, (400, "BadWish", "it is 0 or more")),
            ({"instruments": ["scope"], "timeout": 10**400}, (400, "BadWish", "below 1000000000")),
            ({"instruments": ["scope"], "ticket": "short"}, (400, "BadWish", "16 characters or more")),
            ({"instruments": ["scope"], "by": "b" * 65}, (400, "BadWish", "64 are the most")),
        ):
            with self.subTest(wish):
                self.told(expected, one.ask("POST", "/v1/sessions", wish))
        ticket = one.holds("scope")
        self.told((400, "BadWish", "500 are the most"), one.of(ticket, "/notes", "POST", {"text": "n" * 501}))
        self.told((400, "BadWish", "16 characters or more"), one.of("short"))
        self.told((400, "BadWish", "while: waiting, holding or unchanged is wanted"), one.of(ticket, **{"while": "over"}))
        for wait in ("x", "-1", "nan", "inf", ""):
            why = "wait: a number of seconds is wanted, as wait=30; words that this request takes behind `?`: wait, while"
            self.told((400, "BadWish", why), one.of(ticket, wait=wait))
        self.told((400, "BadWish", "wait is there twice; words"), one.ask("GET", f"/v1/sessions/{ticket}?wait=1&wait=2"))
        for method, path, meant in (("GET", f"/v1/sessions/{ticket}?wiat=30", "wait"), ("GET", f"/v1/sessions/{ticket}?whlie=holding", "while"), ("DELETE", f"/v1/sessions/{ticket}?fail=it", "failed")):
            self.told((400, "BadWish", f"(did you mean {meant}?); words that"), one.ask(method, path))
        self.assertEqual(one.of(ticket)[0], 200)

    def test_bodies_that_are_none(self) -> None:
        """Each gets an answer at once (it would wait for a body for 20 s), and the broker goes on."""
        _, one = self.http()
        bodies = [b"", b"x", b"[]", b"7", b"null", b'{"instruments": NaN}', b"\xff", b"[" * 60000, b'{"instruments": ["\\ud800"]}', b"{" + b" " * 70000 + b"}"]
        bodies += [b'{"instruments": ["scope"], "any": 1}', b'{"timeout": ' + b"9" * 5000 + b"}", b'{"instruments": ["scope"]} more']
        for body in bodies:
            with self.subTest(body[:40]):
                began = time.monotonic()
                self.told((400, "BadWish", ""), one.ask("POST", "/v1/sessions", body))
                self.assertLess(time.monotonic() - began, 15)
        status, _, said = one.raw("POST", "/v1/sessions", b"no gzip", **{"Content-Encoding": "gzip"})
        self.assertEqual((status, json.loads(said)["kind"]), (400, "BadWish"))
        status, _, said = one.raw("POST", "/v1/sessions", gzip.compress(bytes(10**7)), **{"Content-Encoding": "gzip"})
        self.assertEqual((status, json.loads(said)["text"]), (400, "a body of more than 65536 bytes"))
        one.holds("scope")

    def test_a_body_that_never_ends(self) -> None:
        _, one = self.http()
        with socket.socket(socket.AF_UNIX) as talk:
            talk.settimeout(LIMIT)
            talk.connect(str(one.at))
            talk.sendall(b"POST /v1/sessions HTTP/1.1\r\nHost: localhost\r\nContent-Length: 100\r\n\r\n{")
            self.assertIn(b"HTTP/1.1 400 ", talk.recv(4096))

    def test_wrong_ways(self) -> None:
        _, one = self.http()
        for method, path, status in (("GET", "/", 404), ("GET", "/v2/status", 404), ("PUT", "/v1/status", 405), ("GET", "/v1/sessions", 405)):
            self.told((status, "BadWish", f"{method} {path}"), one.ask(method, path))

    def test_too_many(self) -> None:
        """Both kinds of clients count, and one that is over makes room."""
        broker, one = self.http(BAY + "[limits]\nclients = 3\n")
        lab = self.lab(broker)
        with lab.hold("supply"):
            first = one.holds("scope")
            one.asks("scope")
            self.told((429, "Unreachable", "3 clients are here"), one.asks("load-1"))
            one.lets_go(first)
            one.holds("load-1")
        broker.end()
        # (as of clients of the other kind)
        self.assertEqual(broker.said, "labrun-broker: a client of the Unix socket (HTTP) isn't let in, and is told: 3 clients are here, and no more may come\n")

    def test_more_may_come_once_the_bay_says_so(self) -> None:
        """Each with a connection of its own: as many as the bay had clients, and 64."""
        broker, _ = self.http(BAY + "[limits]\nclients = 1\n")
        self.lab(broker).apply(BAY + "[limits]\nclients = 9\n")
        for number in range(1 + 64 + 2):
            one = socket.socket(socket.AF_UNIX)
            self.addCleanup(one.close)
            one.settimeout(LIMIT)
            one.connect(f"{broker.folder}/bay.sock.http")
            one.sendall(b"GET /v1/openapi.json HTTP/1.1\r\nHost: localhost\r\n\r\n")
            self.assertEqual(one.recv(15), b"HTTP/1.1 200 OK", number)

    def test_too_fast(self) -> None:
        """What isn't of a session counts as twenty requests."""
        _, one = self.http(BAY + "[limits]\nrequests = 1\n")
        self.told((429, "Unreachable", "more than 1 requests a second"), one.ask("GET", "/v1/status"))
        one.holds("scope")


class Doors(OnHttp):
    """Who may come in."""

    @unittest.skipIf(shutil.which("curl") is None, "there is no curl")
    def test_by_the_network_with_token_and_certificate(self) -> None:
        folder, port = self.enterContext(tempfile.TemporaryDirectory()), free_port()
        words = ["openssl", "req", "-x509", "-newkey", "ec", "-pkeyopt", "ec_paramgen_curve:prime256v1", "-nodes", "-days", "2", "-subj", "/CN=localhost"]
        words += ["-addext", "subjectAltName=DNS:localhost", "-keyout", f"{folder}/key", "-out", f"{folder}/certificate"]
        subprocess.run(words, check=True, capture_output=True)
        with open(f"{folder}/token", "w", encoding="ascii") as file:
            os.fchmod(file.fileno(), 0o600)
            file.write("a token for the tests\n")
        tls = ("--tls-certificate", f"{folder}/certificate", "--tls-key", f"{folder}/key", "--token-file", f"{folder}/token")
        _, local = self.http(BAY, "--http", f"0.0.0.0:{port}", *tls)
        url, known = f"https://localhost:{port}/v1/sessions", ["--cacert", f"{folder}/certificate"]
        body = ["-d", '{"instruments": ["scope"]}']
        bearer = "`Authorization: Bearer TOKEN`"
        for heads, expected in (
            ([], f"this broker asks for its token: send it as {bearer}"),
            (["-H", "Authorization: Bearer a wrong one"], "this isn't its token"),
            (["-H", "Authorization: a token for the tests"], f"a token is sent as {bearer}"),
        ):
            status, told = self.curl(url, *known, *body, *heads)
            self.assertEqual((status, told), (401, {"kind": "Unreachable", "text": expected}))
        status, told = self.curl(url, *known, *body, "-H", "Authorization: Bearer a token for the tests")
        self.assertEqual((status, told["state"]), (200, "holding"))
        # whoever may open the socket needs none
        self.assertEqual(local.of(told["ticket"])[0], 200)
        one = Asking(port, "a token for the tests", f"{folder}/certificate")
        self.assertEqual(one.lets_go(told["ticket"])[0], 200)
        # without TLS nothing is said
        with self.assertRaises(OSError):
            Asking(port, "a token for the tests").ask("GET", "/v1/status")

    def curl(self, *words: str) -> "tuple[int, Any]":
        ran = subprocess.run(["curl", "-sS", "-w", "\n%{http_code}", *words], capture_output=True, text=True, timeout=LIMIT)
        self.assertEqual(ran.returncode, 0, ran.stderr)
        told, _, status = ran.stdout.rpartition("\n")
        return int(status), json.loads(told)

    def test_other_addresses_are_refused(self) -> None:
        for words, expected in (
            (["--http", "0.0.0.0:1"], "is seen by other machines: that takes a certificate and a token"),
            (["--http", "nowhere"], "unix:PATH or HOST:PORT is wanted"),
        ):
            with self.assertRaisesRegex(AssertionError, expected):
                self.broker(BAY, *words)

    def test_pages_of_elsewhere(self) -> None:
        """One may ask that was named; and none by a name that was turned to this address."""
        port, page = free_port(), "http://bench-3:8000"
        self.broker(BAY, "--http", f"127.0.0.1:{port}", "--http-origin", page)
        one = Asking(port)
        body = b'{"instruments": ["scope"]}'
        for origin, status in ((f"http://127.0.0.1:{port}", 200), (page, 202), ("http://evil.example", 403), ("null", 403), (f"{page}.evil", 403)):
            got, heads, _ = one.raw("POST", "/v1/sessions", body, Origin=origin)
            self.assertEqual((origin, got, heads.get("Access-Control-Allow-Origin")), (origin, status, page if origin == page else None))
        for origin, status in ((page, 204), ("http://evil.example", 403)):
            heads = {"Origin": origin, "Access-Control-Request-Method": "DELETE"}
            self.assertEqual(one.raw("OPTIONS", "/v1/sessions/x", **heads)[0], status)
        for host, status in ((f"localhost:{port}", 200), ("[::1]", 200), ("evil.example", 403), (f"evil.example:{port}", 403)):
            self.assertEqual((host, one.raw("GET", "/v1/status", Host=host)[0]), (host, status))

    @unittest.skipIf(shutil.which("curl") is None, "there is no curl")
    def test_as_the_guide_says(self) -> None:
        """Its lines of curl, as they stand there."""
        with open(f"{TOP}/docs/broker.md", encoding="utf-8") as file:
            lines = file.read().split("\n")
        script = [it.strip().removeprefix("$ ") for it in lines if it.startswith(("    $ curl ", "    $ B=", "    $ T="))]
        self.assertEqual(len(script), 6)
        broker, one = self.http()
        text = "\n".join(script).replace("/tmp/bay.sock", f"{broker.folder}/bay.sock")
        ran = subprocess.run(["sh", "-ec", text], capture_output=True, text=True, timeout=LIMIT)
        self.assertEqual((ran.returncode, ran.stderr), (0, ""))
        self.assertIn('"state": "over"', ran.stdout)
        records = self.lab(broker).status()
        self.assertEqual((records["sessions"], one.status("guest-1")["state"]), (1, "idle"))


class Described(OnHttp):
    """openapi.json is what the code does. (That each answer is as it says is looked at in all tests here: asking.py.)"""

    def test_each_route(self) -> None:
        app = http_door.HttpDoor(unittest.mock.MagicMock(), unittest.mock.MagicMock()).app()
        routes = {(it.method, it.resource.canonical) for it in app.router.routes()}
        self.assertEqual({(method.upper(), path) for path, its in OPENAPI["paths"].items() for method in its if method != "parameters"}, routes)

    def test_each_field_that_is_asked(self) -> None:
        for name, fields in (("Wish", http_words.WISH), ("Note", http_words.NOTE), ("Release", http_words.RELEASE)):
            self.assertEqual(list(OPENAPI["components"]["schemas"][name]["properties"]), list(fields))

    def test_each_type_that_is_asked(self) -> None:
        """What the file allows is read, and nothing else."""
        values: list[Any] = ["a", 1, 1.5, -1, True, [], ["a"], [["a"]], [1], [[1]], {}]
        for name, fields in (("Wish", http_words.WISH), ("Note", http_words.NOTE), ("Release", http_words.RELEASE)):
            for key, schema in OPENAPI["components"]["schemas"][name]["properties"].items():
                for value in values:
                    with self.subTest(f"{name}.{key}", value=value), self.refused_unless(is_like(schema, value)):
                        http_words.read(json.dumps({key: value}).encode(), fields)

    def refused_unless(self, is_right: bool) -> "contextlib.AbstractContextManager[Any]":
        return contextlib.nullcontext() if is_right else self.assertRaises(labrun_broker.BadWish)

    def test_each_kind_of_fault(self) -> None:
        kinds = set(OPENAPI["components"]["schemas"]["Fault"]["properties"]["kind"]["enum"])
        self.assertEqual(kinds, {*http_words.STATUSES, "Unreachable"})
        self.assertLessEqual(set(labrun_broker.errors.KINDS), kinds)

    def test_it_is_served(self) -> None:
        _, one = self.http()
        status, heads, said = one.raw("GET", "/v1/openapi.json")
        self.assertEqual((status, heads["Content-Type"], json.loads(said)), (200, "application/json", OPENAPI))

    def test_each_query(self) -> None:
        each = [one for its in OPENAPI["paths"].values() for one in its.values() if isinstance(one, dict)]
        named = {it["name"] for one in each for it in map(found, one.get("parameters", []))}
        self.assertEqual(named, {"wait", "while", "failed"})
        _, one = self.http()
        for path, its in OPENAPI["paths"].items():
            for method, operation in its.items():
                if method != "parameters":
                    words = [it["name"] for it in map(found, operation.get("parameters", []))]
                    why = f"there is no word 'other' behind `?` here; words that this request takes behind `?`: {', '.join(words) or 'none'}"
                    at = path.replace("{ticket}", "t" * 20)
                    self.assertEqual(one.ask(method.upper(), f"{at}?other=1"), (400, {"kind": "BadWish", "text": why}), at)


def is_like(schema: Any, value: Any) -> bool:
    is_another = isinstance(value, bool) != (schema["type"] == "boolean")
    if not isinstance(value, KINDS[schema["type"]]) or is_another or value == -1 and "minimum" in schema:
        return False
    return all(is_like(schema["items"], it) for it in value) if isinstance(value, list) else True


if __name__ == "__main__":
    unittest.main()
