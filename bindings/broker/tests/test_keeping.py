"""The keeping of the bay, on a loop and without a network."""

import asyncio
import json
import os
import random
import re
import tempfile
import threading
import time
import unittest
from typing import Any, Callable, Optional
from unittest import mock

import labrun
from labrun_broker import broker_pb2 as pb
from labrun_broker import leases, wishes
from labrun_broker.bay import bay_of
from labrun_broker.errors import BadWish, NoInstrument
from labrun_broker.errors import TimeoutError as TimedOut
from labrun_broker.keeping import Keeping
from labrun_broker.places import Places
from labrun_broker.sessions import Past, read_records
from labrun_broker.standing import Session, Standings
from labrun_broker.telling import lines_of
from labrun_broker.wishes import Ended, Wish
from tests.brokers import BAY, LIMIT, SOON

TICKET = "a ticket of a test"


class Owner:
    """It notes what it is told."""

    def __init__(self) -> None:
        self.told: list[str] = []

    def taken(self, why: str) -> None:
        self.told.append(why)


async def eventually(is_so: Callable[[], Any], what: str = "it") -> None:
    """Waits on the loop until something is so."""
    end = time.monotonic() + LIMIT
    while not is_so():
        if time.monotonic() > end:
            raise AssertionError(f"{what} isn't so after {LIMIT} s")
        await asyncio.sleep(0.005)


class OnKeeping(unittest.IsolatedAsyncioTestCase):
    async def keeping(self, bay: str = BAY, grace: float = 60.0) -> Keeping:
        keeping = Keeping(bay_of(bay), grace=grace)
        await keeping.open()
        self.addAsyncCleanup(keeping.close)
        return keeping

    async def asyncSetUp(self) -> None:
        self.owner = Owner()

    async def asks(self, keeping: Keeping, *instruments: str, **more: Any) -> "asyncio.Task[Session]":
        """Whoever asks, and is in the line by now."""
        task = asyncio.create_task(keeping.hold(Wish(instruments, **more), self.owner))
        await asyncio.sleep(0.01)
        return task

    async def holds(self, keeping: Keeping, *instruments: str, **more: Any) -> Session:
        return await keeping.hold(Wish(instruments, **more), self.owner)


class OnFolder(unittest.IsolatedAsyncioTestCase):
    async def keeping(self, folder: str, bay: str = BAY, grace: float = 60.0) -> Keeping:
        keeping = Keeping(bay_of(bay), folder, grace)
        await keeping.open()
        self.addAsyncCleanup(keeping.close)
        return keeping

    def folder(self) -> str:
        return self.enterContext(tempfile.TemporaryDirectory())


class OnQuiet(OnFolder):
    """For tests that change the bay: on a busy machine the disk may not be quiet within a second."""

    def setUp(self) -> None:
        self.enterContext(mock.patch("labrun_broker.turning.QUIET", SOON))


def whats(keeping: Keeping, station: Optional[str] = None) -> list[str]:
    return [it["what"] for it in keeping.history if station is None or it["station"] == station]


def how(keeping: Keeping, name: str) -> dict[str, Any]:
    status = keeping.status()
    return next(it for it in [*status["stations"], *status["instruments"]] if it["name"] == name)


class Sessions(OnKeeping):
    async def test_one_after_another(self) -> None:
        keeping = await self.keeping()
        board = await self.holds(keeping, "scope", "supply", station="board", by="ann")
        self.assertEqual((board.name, board.state, board.instruments), ("board", "holding", ("scope", "supply")))
        radio = await self.asks(keeping, "scope", station="radio")
        guest = await self.asks(keeping, "load-1")
        self.assertTrue(guest.done(), "load-1 is nobody's")
        self.assertFalse(radio.done())
        self.assertEqual([(it["station"], it["holds"], it["instrument"]) for it in how(keeping, "radio")["waits_for"]], [("board", True, "scope")])
        scope = how(keeping, "scope")
        self.assertEqual((scope["holder"], scope["waiting"]), ("board", ["radio"]))
        await keeping.let_go(board, self.owner)
        self.assertEqual((await radio).name, "radio")
        self.assertEqual(how(keeping, "supply")["holder"], None)
        self.assertEqual(whats(keeping, "board"), ["asked", "held", "let_go"])
        self.assertEqual(whats(keeping, "radio"), ["asked", "held"])

    async def test_chain(self) -> None:
        """The guest waits for the board, and that for the radio, which holds."""
        keeping = await self.keeping("overtakes = 0\n" + BAY)
        radio = await self.holds(keeping, "scope", station="radio")
        board = await self.asks(keeping, "scope", "supply", station="board")
        guest = await self.asks(keeping, "supply")
        text = how(keeping, "guest-1")["waits_for"][0]["text"]
        self.assertRegex(text, r"^supply is kept for board until it holds, since it asked first and it waits for scope, held by radio for \d+\.\d s$")
        await keeping.let_go(radio, self.owner)
        await keeping.let_go(await board, self.owner)
        await keeping.let_go(await guest, self.owner)

    async def test_for_whom_of_a_station_it_is_kept(self) -> None:
        """Several may wait as one station: the second of them isn't told just that it is kept for the board, as if for itself."""
        keeping = await self.keeping("overtakes = 0\n" + BAY)
        radio = await self.holds(keeping, "scope", station="radio")
        first = await self.asks(keeping, "scope", "supply", station="board", by="ann@bench-3 4711 sh")
        kept = r"supply is kept for board \(ann@bench-3 4711 sh\) until it holds, since it asked first and it waits for scope, held by radio for \d+\.\d s"
        with self.assertRaisesRegex(labrun.TimeoutError, f"of board was given up when its time was over: {kept}$"):
            await self.holds(keeping, "supply", station="board", by="bob@bench-4 815 sh", timeout=0.05)
        second, third = await self.asks(keeping, "supply", "load-1", by="cem@bench-5 16 sh"), await self.asks(keeping, "load-1")
        text = how(keeping, "guest-2")["waits_for"][0]["text"]
        whom = "guest-1 (cem@bench-5 16 sh) until it holds, since it asked first and it waits for supply, kept for board (ann@bench-3 4711 sh)"
        self.assertEqual(text, f"load-1 is kept for {whom}")
        await keeping.let_go(radio, self.owner)
        for one in (first, second, third):
            await keeping.let_go(await one, self.owner)

    async def test_whoever_was_passed_comes_first(self) -> None:
        """It is said how often that was, and why it waits, though what it waits for is only kept for another."""
        keeping = await self.keeping("overtakes = 2\n" + BAY)
        holds = await self.holds(keeping, "load-1")
        board = await self.asks(keeping, "load-1", "load-2", station="")
        for _ in range(2):
            await keeping.let_go(await self.holds(keeping, "load-2"), self.owner)
        last = await self.asks(keeping, "load-2")
        text = how(keeping, "guest-3")["waits_for"][0]["text"]
        self.assertRegex(text, r"^load-2 is kept for guest-2 until it holds, since 2 went before it and it waits for load-1, held by guest-1 for \d+\.\d s$")
        await keeping.let_go(holds, self.owner)
        for one in (board, last):
            await keeping.let_go(await one, self.owner)

    async def test_kept_for_one_for_whom_nothing_is_kept_yet(self) -> None:
        """Of one that waits for what only is kept for another, that one is said."""
        keeping = await self.keeping("overtakes = 0\n" + BAY)
        holds = await self.holds(keeping, "scope")
        asked = [await self.asks(keeping, *its) for its in (("scope", "supply"), ("supply", "load-1"), ("load-1",))]
        text = how(keeping, "guest-4")["waits_for"][0]["text"]
        self.assertEqual(text, "load-1 is kept for guest-3 until it holds, since it asked first and it waits for supply, kept for guest-2")
        await keeping.let_go(holds, self.owner)
        for one in asked:
            await keeping.let_go(await one, self.owner)

    async def test_a_chain_that_parts(self) -> None:
        """The two for whom one waits are told as one thing, so that nobody takes the second for one that keeps the guest itself."""
        keeping = await self.keeping("overtakes = 0\n" + BAY)
        radio, first = await self.holds(keeping, "scope", station="radio"), await self.holds(keeping, "load-1")
        second = await self.asks(keeping, "scope", "load-1", "supply")
        third = await self.asks(keeping, "supply")
        text = how(keeping, "guest-3")["waits_for"][0]["text"]
        held = r"held by (radio|guest-1) for \d+\.\d s"
        self.assertRegex(text, f"^supply is kept for guest-2 until it holds, since it asked first and it waits for scope, {held}, and load-1, {held}$")
        for it in (radio, first):
            await keeping.let_go(it, self.owner)
        for one in (second, third):
            await keeping.let_go(await one, self.owner)

    async def test_a_status_holds_up_nobody(self) -> None:
        """Of two hundred clients at as many instruments as may be: all of it is done on the loop, in some 4 ms of its time on a machine that
        does nothing else (where the bound is eight times as much as a plain loop takes, because machines differ)."""
        names, chance = [f"i-{at}" for at in range(64)], random.Random(1)
        keeping = await self.keeping(f"instruments = {json.dumps(names)}\n[guests]\ncount = 200\n")
        asks = [asyncio.create_task(self.holds(keeping, *chance.sample(names, chance.randint(1, 3)), by=f"ann@bench-{at} 471")) for at in range(200)]
        await asyncio.sleep(0.05)

        def cost() -> float:
            begun = time.thread_time()
            self.assertEqual(len(pb.Bay(**keeping.status()).SerializeToString()) > 40000, True)
            return time.thread_time() - begun

        def plain() -> float:
            begun = time.thread_time()
            self.assertEqual(len(",".join(str(it) for it in range(20000))), 108889)
            return time.thread_time() - begun

        most = 8 * min(plain() for _ in range(20))
        self.assertLess(min(cost() for _ in range(20)), most)
        self.assertLess(min(self.cost_of_a_line(keeping) for _ in range(20)), most / 8)
        for task in asks:
            task.cancel()
        await asyncio.gather(*asks, return_exceptions=True)

    def cost_of_a_line(self, keeping: Keeping) -> float:
        """What whoever waits is told."""
        session, begun = next(it for it in keeping.by_number.values() if it.state == "waiting"), time.thread_time()
        self.assertIn("has been held by", Standings(keeping).for_whom(session)[1])
        return time.thread_time() - begun

    async def test_timeout(self) -> None:
        keeping = await self.keeping()
        await self.holds(keeping, "scope", station="board")
        with self.assertRaisesRegex(labrun.TimeoutError, r"scope has been held by board for \d+\.\d s"):
            await self.holds(keeping, "scope", station="radio", timeout=0.05)
        self.assertEqual(whats(keeping, "radio"), ["asked", "gave_up"])
        self.assertEqual(how(keeping, "radio")["state"], "idle")

    async def test_who_doesnt_wait(self) -> None:
        """It is told so, and never that its time was over; and who keeps it, and since when."""
        keeping = await self.keeping()
        await self.holds(keeping, "scope", station="board", by="ann@bench-3 4711 sh")
        told = r"of radio was refused, because it doesn't wait \(hold -n, or a timeout of 0\): scope has been held by board for \d+\.\d s \(ann@bench-3 4711 sh\)$"
        with self.assertRaisesRegex(labrun.TimeoutError, told):
            await self.holds(keeping, "scope", station="radio", timeout=0)
        with self.assertRaisesRegex(labrun.TimeoutError, "of radio was given up when its time was over: scope has been held by board"):
            await self.holds(keeping, "scope", station="radio", timeout=0.001)

    async def test_who_is_cancelled_leaves_the_line(self) -> None:
        keeping = await self.keeping()
        board = await self.holds(keeping, "scope", station="board")
        radio = await self.asks(keeping, "scope", station="radio")
        radio.cancel()
        await asyncio.wait({radio})
        self.assertEqual(whats(keeping, "radio"), ["asked", "gave_up"])
        await keeping.let_go(board, self.owner)
        self.assertEqual(how(keeping, "scope")["holder"], None)

    async def test_who_waits_needs_no_place(self) -> None:
        """Seven wait for the oven, which one of eight guests holds; the next has the scope at once."""
        keeping = await self.keeping('instruments = ["oven", "scope"]\n[guests]\ncount = 8\n')
        holder = await self.holds(keeping, "oven")
        waiters = [await self.asks(keeping, "oven") for _ in range(7)]
        scopes = [await self.holds(keeping, "scope", timeout=0)]
        # (and so it is for as many as come)
        waiters += [await self.asks(keeping, "oven") for _ in range(20)]
        await keeping.let_go(scopes[0], self.owner)
        await self.holds(keeping, "scope", timeout=0)
        self.assertEqual((len(how(keeping, "oven")["waiting"]), [it.done() for it in waiters]), (27, [False] * 27))
        await keeping.let_go(holder, self.owner)
        self.assertEqual((await waiters[0]).state, "holding")
        for task in waiters[1:]:
            task.cancel()

    async def test_places(self) -> None:
        """Four guests hold; the fifth waits for the first that is through, in order."""
        names = ", ".join(f'"load-{at}"' for at in range(1, 8))
        keeping = await self.keeping(f"instruments = [{names}]\n[guests]\ncount = 4\n")
        first, *_ = [await self.holds(keeping, f"load-{at}") for at in range(1, 5)]
        fifth, sixth = await self.asks(keeping, "load-5"), await self.asks(keeping, "load-6")
        self.assertFalse(fifth.done() or sixth.done(), "each guest holds")
        self.assertEqual([(it["station"], it["instruments"]) for it in keeping.status()["in_line"]], [("", ["load-5"]), ("", ["load-6"])])
        with self.assertRaisesRegex(TimedOut, "all 4 places for guests are taken"):
            await self.holds(keeping, "load-7", timeout=0.02)
        # (the one to be seen to stands first, however many hold)
        last = next(it for it in keeping.by_number.values() if it.instruments == ("load-4",))
        keeping.gone(last, self.owner)
        told = rf"all 4 places for guests are taken: {last.name} by somebody \(gone for \d\.\d s: see to load-4, and then run labrun-broker release {last.name} --session {last.number}\), "
        with self.assertRaisesRegex(TimedOut, told):
            await self.holds(keeping, "load-7", timeout=0.02)
        await keeping.let_go(first, self.owner)
        self.assertEqual(((await fifth).state, sixth.done()), ("holding", False))
        await keeping.let_go(await fifth, self.owner)
        self.assertEqual((await sixth).state, "holding")

    async def test_where_one_stands_in_line(self) -> None:
        """In the order of asking; and who went first is counted, up to the number after which nobody does who came later."""
        keeping = await self.keeping("overtakes = 2\ninstruments = ['scope', 'supply']\n[guests]\ncount = 9\n")
        holder = await self.holds(keeping, "scope")
        first, second = await self.asks(keeping, "scope", "supply"), await self.asks(keeping, "scope")
        rows = lambda: [(it["place"], it["passed"]) for it in keeping.status()["stations"] if it["state"] == "waiting"]
        self.assertEqual((keeping.status()["overtakes"], rows()), (2, [(1, 0), (2, 0)]))
        for times in (1, 2):
            await keeping.let_go(await self.holds(keeping, "supply", timeout=0), self.owner)
            self.assertEqual(rows(), [(1, times), (2, 0)])
        with self.assertRaises(TimedOut):
            await self.holds(keeping, "supply", timeout=0)
        self.assertEqual([it["place"] for it in keeping.status()["stations"] if it["state"] == "holding"], [None])
        await keeping.let_go(holder, self.owner)
        self.assertEqual(((await first).state, rows()), ("holding", [(1, 1)]))
        # (the one that went before it had asked before)
        self.assertIn("number 1 in line; 1 went before it since it asked, and after 2 what it needs is kept for it", "\n".join(lines_of(keeping.status())))
        await keeping.let_go(await first, self.owner)
        self.assertEqual((await second).state, "holding")

    async def test_a_station_is_in_one_session(self) -> None:
        keeping = await self.keeping()
        seat = await self.holds(keeping, "supply", station="board", by="ann")
        with self.assertRaisesRegex(TimedOut, r"board has been in session 1 for \d\.\d s \(ann\), and a station is in one at a time"):
            await self.holds(keeping, "scope", station="board", timeout=0.02)
        waits = await self.asks(keeping, "scope", station="board")
        await keeping.let_go(seat, self.owner)
        self.assertEqual((await waits).instruments, ("scope",))

    async def test_several_for_one_station(self) -> None:
        """They wait in their order, and so they are shown."""
        keeping = await self.keeping()
        session = await self.holds(keeping, "supply", station="board")
        waits = [await self.asks(keeping, name, station="board", by=name) for name in ("scope", "supply")]
        self.assertEqual([(it["station"], it["by"]) for it in keeping.status()["in_line"]], [("board", "scope"), ("board", "supply")])
        self.assertEqual((how(keeping, "board")["state"], how(keeping, "board")["instruments"]), ("holding", ["supply"]))
        await keeping.let_go(session, self.owner)
        self.assertEqual([it.done() for it in waits], [False, False])
        await asyncio.sleep(0)
        self.assertEqual(((await waits[0]).instruments, waits[1].done()), (("scope",), False))
        await keeping.let_go(await waits[0], self.owner)
        self.assertEqual((await waits[1]).instruments, ("supply",))

    async def test_which_of_a_station_waits_for_which(self) -> None:
        """Before one of them holds, and after that: what each is told, and `status`."""
        keeping = await self.keeping()
        guest = await self.holds(keeping, "scope", by="ben@bench-1 7 sh")
        first = await self.asks(keeping, "scope", station="board", by="ann@bench-3 4711 sh")
        second = await self.asks(keeping, "scope", station="board", by="cem@bench-4 815 python")
        text = lambda number: re.sub(r"\d+(\.\d)? s\b", "N s", keeping.for_whom(keeping.by_number[number])[1])
        rows = lambda: [re.sub(r" \d+(\.\d)? s\b", " N s", it) for it in lines_of(keeping.status())[2:]]
        held = "scope has been held by guest-1 for N s (ben@bench-1 7 sh)"
        before = "session 2 of board (ann@bench-3 4711 sh) waits before this one"
        self.assertEqual((text(2), text(3)), (held, f"{held}; {before}: a station is in one session at a time"))
        self.assertEqual(
            [re.split("  +", it.strip()) for it in rows() if it],
            [
                ["INSTRUMENT", "HELD BY", "FOR", "WAITING"],
                ["scope", "guest-1", "N s", "board (2 sessions)"],
                ["supply", "-"], ["load-1", "-"], ["load-2", "-"],
                ["STATION", "FOR", "INSTRUMENTS", "BY"],
                ["board", "waiting", "N s", "scope", "ann@bench-3 4711 sh"],
                ["session 2, number 1 in line"],
                [held],
                ["guest-1", "holding", "N s", "scope", "ben@bench-1 7 sh"],
                ["board", "in line", "N s", "scope", "cem@bench-4 815 python"],
                ["session 3, number 2 in line"],
                [held],
                [f"{before}: a station is in one session at a time"],
            ],
        )  # fmt: skip
        (row,) = keeping.status()["in_line"]
        self.assertEqual((row["session"], [(it["instrument"], it["session"]) for it in row["waits_for"]]), (3, [("scope", 1)]))
        third = await self.asks(keeping, "supply", "load-1", station="", by="dee")
        await third
        fourth = await self.asks(keeping, "supply", station="board", by="eve")
        self.assertTrue(text(5).endswith("; session 2 of board (ann@bench-3 4711 sh) and 1 more wait before this one: a station is in one session at a time"), text(5))
        await keeping.let_go(guest, self.owner)
        board = await first
        taken = "board has been in session 2 for N s (ann@bench-3 4711 sh), and a station is in one at a time"
        behind = "session 3 of board (cem@bench-4 815 python) waits before this one"
        self.assertEqual((text(3), text(5)), (taken, f"{taken}; {behind}"))
        self.assertEqual(
            [re.split("  +", it.strip()) for it in rows()[-10:] if it],
            [
                ["STATION", "FOR", "INSTRUMENTS", "BY"],
                ["board", "holding", "N s", "scope", "ann@bench-3 4711 sh"],
                ["session 2"],
                ["guest-2", "holding", "N s", "supply load-1", "dee"],
                ["board", "in line", "N s", "scope", "cem@bench-4 815 python"],
                ["session 3, number 1 in line"],
                [taken],
                ["board", "in line", "N s", "supply", "eve"],
                ["session 5, number 2 in line"],
                [f"{taken}; {behind}"],
            ],
        )
        # (the next one of the station takes over, and that is told)
        told = keeping.for_whom(keeping.by_number[5])[2]
        self.assertEqual(keeping.for_whom(keeping.by_number[5])[2], told)
        await keeping.let_go(board, self.owner)
        await second
        self.assertNotEqual(keeping.for_whom(keeping.by_number[5])[2], told)
        fourth.cancel()

    async def test_for_which_session_it_is_kept(self) -> None:
        """Of a station that waits in several, for whoever waits as it and for others."""
        keeping = await self.keeping("overtakes = 0\n" + BAY)
        await self.holds(keeping, "scope", station="radio")
        its = [await self.asks(keeping, "scope", "supply", station="board", by="ann"), await self.asks(keeping, "supply", station="board", by="cem")]
        its.append(await self.asks(keeping, "supply"))
        texts = [keeping.for_whom(keeping.by_number[number])[1] for number in (3, 4)]
        kept = r"supply is kept for session 2 of board \(ann\) until it holds, since it asked first and it waits for scope, held by radio for \d+\.\d s"
        self.assertRegex(texts[0], rf"^{kept}; session 2 of board \(ann\) waits before this one: a station is in one session at a time$")
        self.assertRegex(texts[1], rf"^{kept}$")
        for task in its:
            task.cancel()

    async def test_any_of(self) -> None:
        keeping = await self.keeping()
        await self.holds(keeping, "load-1")
        seat = await self.holds(keeping, any_of=(("load-1",), ("load-2",)))
        self.assertEqual(seat.instruments, ("load-2",))

    async def test_one_of_many(self) -> None:
        """Who writes a name wrong in a large bay isn't told all 60."""
        names = [f"load-{at}" for at in range(1, 61)]
        keeping = await self.keeping(f"instruments = {json.dumps(names)}\n[guests]\ncount = 4\n")
        with self.assertRaises(NoInstrument) as caught:
            await keeping.hold(Wish(("lod-7",)), self.owner)
        told = "lod-7 is no instrument of this bay: there are load-1, load-2, load-3, load-4, load-5, load-6, load-7, load-8 and 52 more (did you mean load-7?)"
        self.assertEqual(str(caught.exception), told)

    async def test_refused(self) -> None:
        keeping = await self.keeping()
        rows: tuple[tuple[dict[str, Any], type[Exception], str], ...] = (
            ({"instruments": ("lamp",)}, NoInstrument, "lamp is no instrument of this bay: there are scope, supply"),
            ({"any_of": (("scope",), ("suply",)), "station": "radio"}, NoInstrument, r"suply is no instrument of this bay: .* \(did you mean supply\?\)"),
            ({"instruments": ("supply",), "station": "radio"}, labrun.MayNotUse, "radio may not use supply: it may use scope"),
            ({"instruments": ("scope",), "station": "lamp"}, BadWish, "lamp is no station of this bay: there are board, radio"),
            ({"instruments": ("scope",), "station": "guest-1"}, BadWish, "guest-1 is no station of this bay: there are board, radio; guests ask without one$"),
            ({"instruments": ("scope",), "station": "bord"}, BadWish, r"bord is no station of this bay: there are board, radio \(did you mean board\?\)$"),
            ({"instruments": ("tag:precise",)}, NoInstrument, "precise is no tag; there are none$"),
            ({}, BadWish, "say which instruments"),
            ({"any_of": ((),)}, BadWish, "say which instruments"),
            ({"instruments": ("scope",), "any_of": (("scope",),)}, BadWish, "say either which instruments, or which sets of them to choose from .any_of., and not both"),
            ({"instruments": ("",)}, NoInstrument, "^an empty name is no instrument of this bay: there are scope, "),
            ({"instruments": ("scope,supply",)}, NoInstrument, r"load-2 .each is a word of its own: scope supply.$"),
            ({"instruments": ("x" * 65,)}, BadWish, "^an instrument's name of 65 characters; 64 are the most$"),
            ({"instruments": ("scope",), "ticket": "short"}, BadWish, "a ticket has 16"),
            ({"ticket": TICKET, "comes_back": True}, Ended, "no session has this ticket"),
        )
        for more, kind, text in rows:
            with self.subTest(more), self.assertRaisesRegex(kind, text):
                await keeping.hold(Wish(**more), self.owner)
        self.assertEqual((keeping.refusals, whats(keeping)), (len(rows), ["opened"]))

    async def test_notes(self) -> None:
        keeping = await self.keeping()
        seat = await self.holds(keeping, "scope", by="ann")
        await keeping.note(seat, self.owner, "12.5 V")
        self.assertEqual(how(keeping, seat.name)["note"], "12.5 V")
        await keeping.let_go(seat, self.owner, failed="smoke")
        self.assertEqual([(it["what"], it["text"], it["by"]) for it in keeping.history[-2:]], [("note", "12.5 V", "ann"), ("failed", "smoke", "ann")])
        with self.assertRaises(labrun.NotHeld):
            await keeping.let_go(seat, self.owner)

    async def test_changes(self) -> None:
        keeping = await self.keeping()
        changes = keeping.changes()
        waits = asyncio.ensure_future(changes.__anext__())
        await asyncio.sleep(0.02)
        self.assertFalse(waits.done())
        await self.holds(keeping, "scope")
        await asyncio.wait_for(waits, LIMIT)
        await changes.aclose()


class Gone(OnKeeping):
    async def test_comes_back(self) -> None:
        keeping, other = await self.keeping(), Owner()
        seat = await self.holds(keeping, "scope", ticket=TICKET)
        keeping.gone(seat, self.owner)
        self.assertEqual(how(keeping, seat.name)["state"], "gone")
        self.assertIs(await keeping.hold(Wish(ticket=TICKET, comes_back=True), other), seat)
        self.assertEqual((seat.state, how(keeping, seat.name)["gone_since"]), ("holding", None))
        await keeping.let_go(seat, other)
        self.assertEqual(whats(keeping, seat.name), ["asked", "held", "gone", "back", "let_go"])
        with self.assertRaisesRegex(Ended, "the session has let go"):
            await keeping.hold(Wish(ticket=TICKET, comes_back=True), other)

    async def test_a_ticket_of_another(self) -> None:
        """It opens nothing, and the session's owner keeps it."""
        keeping, other = await self.keeping(), Owner()
        seat = await self.holds(keeping, "scope", ticket=TICKET)
        for ticket in ("a ticket of another test", "", wishes.digits_of(seat.key)):
            with self.subTest(ticket), self.assertRaisesRegex(Ended, "no session has this ticket"):
                await keeping.hold(Wish(ticket=ticket, comes_back=True), other)
        for call in (keeping.let_go(seat, other), keeping.note(seat, other, "5 V")):
            with self.assertRaises(labrun.NotHeld):
                await call
        self.assertEqual((seat.owner, self.owner.told, whats(keeping)[1:]), (self.owner, [], ["asked", "held"]))
        await keeping.let_go(seat, self.owner)

    async def test_the_newer_connection_counts(self) -> None:
        keeping, other = await self.keeping(), Owner()
        seat = await self.holds(keeping, "scope", ticket=TICKET)
        await keeping.hold(Wish(ticket=TICKET, comes_back=True), other)
        self.assertEqual(self.owner.told, ["another connection came for the session"])
        keeping.gone(seat, self.owner)
        self.assertEqual(seat.state, "holding", "the older one is gone, which is nothing")
        with self.assertRaises(labrun.NotHeld):
            await keeping.let_go(seat, self.owner)

    async def test_one_that_waits_asks_again(self) -> None:
        """As one whose connection was cut, which isn't seen yet: it waits once, behind the others, and its older connection is told."""
        keeping, other = await self.keeping(), Owner()
        board = await self.holds(keeping, "scope", station="board")
        first = await self.asks(keeping, "scope", ticket=TICKET)
        guest = await self.asks(keeping, "scope")
        again = asyncio.create_task(keeping.hold(Wish(("scope",), ticket=TICKET), other))
        with self.assertRaisesRegex(Ended, "another connection came for the session"):
            await first
        self.assertEqual(len(how(keeping, "scope")["waiting"]), 2)
        await keeping.let_go(board, self.owner)
        await keeping.let_go(await guest, self.owner)
        self.assertIs((await again).owner, other)

    async def test_kept(self) -> None:
        keeping = await self.keeping(grace=0.02)
        seat = await self.holds(keeping, "scope")
        keeping.gone(seat, self.owner)
        await asyncio.sleep(0.1)
        self.assertEqual(seat.state, "gone")

    async def test_released_after_the_grace(self) -> None:
        keeping = await self.keeping('gone = "release"\n' + BAY, grace=1.0)
        seat = await self.holds(keeping, "scope", ticket=TICKET)
        begun = keeping.now()
        keeping.gone(seat, self.owner)
        radio = await self.asks(keeping, "scope", station="radio")
        self.assertFalse(radio.done(), "the grace isn't over")
        self.assertEqual((await asyncio.wait_for(radio, LIMIT)).name, "radio")
        self.assertGreaterEqual(keeping.now(), begun + 1000)
        self.assertEqual(whats(keeping, "guest-1"), ["asked", "held", "gone", "taken"])
        with self.assertRaisesRegex(Ended, "taken away by the broker, because its client was gone for 1 s"):
            await keeping.hold(Wish(ticket=TICKET, comes_back=True), self.owner)

    async def test_when_a_client_is_gone(self) -> None:
        """Once it has been silent for a third of the grace, if it says that it is there: by a ping, and then by any word. Else once its stream ends."""
        keeping = await self.keeping('gone = "release"\n' + BAY, grace=3)
        for pings, words, gone in ((True, 0, 1.0), (True, 1, 1.5), (False, 1, None)):
            with self.subTest((pings, words)):
                session = await self.holds(keeping, "scope", pings=pings)
                begun = keeping.now() if session.heard_at is None else session.heard_at
                await asyncio.sleep(0.5)
                for _ in range(words):
                    self.assertTrue(keeping.heard(session, self.owner))
                # (a busy machine may be late)
                end = begun + (2000 if gone is None else 1000 * LIMIT)
                while session.state == "holding" and keeping.now() < end:
                    await asyncio.sleep(0.02)
                self.assertEqual(session.state, "holding" if gone is None else "gone")
                if gone is not None and session.gone_at is not None:
                    self.assertGreaterEqual((session.gone_at - begun) / 1000, gone - 0.01)
                    self.assertTrue(keeping.heard(session, self.owner), "a word, and it is there again")
                    self.assertEqual(session.state, "holding")
                await keeping.release(session.name, "eve")

    async def test_who_says_nothing_is_gone(self) -> None:
        """Though its connection is there. Who pings again and again stays, and so does one that never did."""
        keeping, other, third = await self.keeping('gone = "release"\n' + BAY, grace=1.0), Owner(), Owner()
        seat = await self.holds(keeping, "scope", ticket=TICKET, pings=True)
        pinging = await keeping.hold(Wish(("supply",), pings=True), other)
        old = await keeping.hold(Wish(("load-1",)), third)
        for _ in range(15):
            await asyncio.sleep(0.1)
            self.assertTrue(keeping.heard(pinging, other, True))
        self.assertEqual((how(keeping, seat.name)["state"], pinging.state, old.state), ("idle", "holding", "holding"))
        self.assertEqual(self.owner.told, [f"{seat.name}: the session was taken away by the broker, because its client was gone for 1 s"])
        self.assertEqual(whats(keeping, "guest-1"), ["asked", "held", "gone", "taken"])
        self.assertFalse(keeping.heard(seat, self.owner, True))
        with self.assertRaisesRegex(Ended, "taken away by the broker"):
            await keeping.hold(Wish(ticket=TICKET, comes_back=True), self.owner)

    async def test_who_comes_back_again_at_once_waits(self) -> None:
        keeping = await self.keeping()
        seat = await self.holds(keeping, "scope", ticket=TICKET)
        with mock.patch.object(leases, "BACK", 1.5):
            begun, owners = time.monotonic(), [Owner() for _ in range(4)]
            for owner in owners[:3]:
                keeping.gone(seat, seat.owner)
                await keeping.hold(Wish(ticket=TICKET, comes_back=True), owner)
            self.assertGreater(time.monotonic() - begun, 2.9)
            waits = asyncio.create_task(keeping.hold(Wish(ticket=TICKET, comes_back=True), owners[3]))
            await asyncio.sleep(0.01)
            await keeping.let_go(seat, owners[2])
            with self.assertRaisesRegex(Ended, "the session has let go"):
                await waits

    async def test_back_within_the_grace(self) -> None:
        keeping = await self.keeping('gone = "release"\n' + BAY, grace=1.0)
        seat = await self.holds(keeping, "scope", ticket=TICKET)
        keeping.gone(seat, self.owner)
        await keeping.hold(Wish(ticket=TICKET, comes_back=True), self.owner)
        await asyncio.sleep(1.3)
        self.assertEqual(seat.state, "holding")

    async def test_released_by_an_operator(self) -> None:
        keeping = await self.keeping()
        seat = await self.holds(keeping, "scope", "supply", station="board")
        self.assertEqual(await keeping.release("board", "eve"), ("scope", "supply"))
        self.assertEqual(self.owner.told, ["board: the session with scope, supply was taken away by eve"])
        self.assertEqual((seat.state, how(keeping, "board")["state"]), ("over", "idle"))
        again = await self.holds(keeping, "scope", station="board")
        self.assertGreater(again.number, seat.number)
        with self.assertRaisesRegex(labrun.NotHeld, f"board is in session {again.number} now, and not in {seat.number}"):
            await keeping.release("board", "eve", seat.number)
        self.assertEqual(await keeping.release("board", "eve", again.number), ("scope",))
        for name, kind, text in (
            ("radio", labrun.NotHeld, "^radio holds nothing$"),
            ("lamp", BadWish, "^lamp is no station of this bay: there are board, radio, and guests that hold or wait: none now$"),
            ("bord", BadWish, r": none now \(did you mean board\?\)$"),
            # (who isn't there isn't meant)
            ("gest-3", BadWish, "guests that hold or wait: none now$"),
            ("scope", BadWish, "^scope is an instrument of this bay, and no station: nobody holds it$"),
        ):
            with self.subTest(name), self.assertRaisesRegex(kind, text):
                await keeping.release(name, "eve")
        await self.holds(keeping, "scope", station="radio")
        await self.holds(keeping, "load-1")
        for name, text in (
            ("guest-9", r"there are board, radio, and guests that hold or wait: guest-1 \(did you mean guest-1\?\)$"),
            ("scope", "^scope is an instrument of this bay, and no station: radio holds it$"),
            ("load-1", "and no station: guest-1 holds it$"),
        ):
            with self.subTest(name), self.assertRaisesRegex(BadWish, text):
                await keeping.release(name, "eve")

    async def test_a_release_of_one_that_waits(self) -> None:
        """There is nothing to release: it is said that it waits, who that is, for what, and how that is ended; and it waits on."""
        keeping = await self.keeping()
        await self.holds(keeping, "scope", "load-1", station="", by="ben@bench-1 7 sh")
        waits = [await self.asks(keeping, "scope", station="radio", by="ann@bench-3 4711 sh")]
        why = r"radio holds nothing: it waits for scope \(ann@bench-3 4711 sh\): scope has been held by guest-1 for \d+\.\d s \(ben@bench-1 7 sh\)"
        ends = r"\. To end that, end its client, as by Ctrl-C there: it leaves the line$"
        with self.assertRaisesRegex(labrun.NotHeld, why + ends):
            await keeping.release("radio", "eve")
        waits.append(await self.asks(keeping, "scope", station="radio"))
        with self.assertRaisesRegex(labrun.NotHeld, why + r"; 1 more waits as radio" + ends):
            await keeping.release("radio", "eve")
        waits.append(await self.asks(keeping, any_of=(("scope",), ("load-1",))))
        with self.assertRaisesRegex(labrun.NotHeld, r"guest-2 holds nothing: it waits for scope load-1: scope has been held by guest-1 for .*, load-1 has been held by guest-1 for "):
            await keeping.release("guest-2", "eve")
        self.assertEqual([it.done() for it in waits], [False] * 3)
        for it in waits:
            it.cancel()
        await asyncio.gather(*waits, return_exceptions=True)

    async def test_released_before_its_client_is_told(self) -> None:
        folder, may = self.enterContext(tempfile.TemporaryDirectory()), threading.Event()
        keeping = Keeping(bay_of(BAY), folder)
        await keeping.open()
        self.addAsyncCleanup(keeping.close)
        self.addCleanup(may.set)
        real = os.fdatasync

        def fdatasync(file: int) -> None:
            may.wait(LIMIT)
            real(file)

        with mock.patch("os.fdatasync", fdatasync):
            waits = await self.asks(keeping, "scope", station="board")
            self.assertEqual((how(keeping, "board")["state"], waits.done()), ("holding", False))
            releases = asyncio.create_task(keeping.release("board", "eve"))
            with self.assertRaisesRegex(Ended, "taken away by eve, before its client was told that it holds"):
                await waits
            await asyncio.sleep(0.01)
            self.assertFalse(releases.done(), "it isn't on the disk yet")
            may.set()
            self.assertEqual(await releases, ("scope",))
        self.assertEqual(how(keeping, "scope")["holder"], None)
        self.assertEqual((await self.holds(keeping, "scope", station="board")).state, "holding")

    async def test_what_it_holds_before_its_client_is_told(self) -> None:
        """Of its choices the one that it holds is shown and released, and not all that it asked for."""
        folder, may = self.enterContext(tempfile.TemporaryDirectory()), threading.Event()
        keeping = Keeping(bay_of(BAY), folder)
        await keeping.open()
        self.addAsyncCleanup(keeping.close)
        self.addCleanup(may.set)
        with mock.patch("os.fdatasync", lambda file: may.wait(LIMIT)):
            waits = asyncio.create_task(keeping.hold(Wish(any_of=(("supply",), ("scope",)), station="board"), self.owner))
            await asyncio.sleep(0.02)
            self.assertEqual((how(keeping, "board")["state"], how(keeping, "board")["instruments"], waits.done()), ("holding", ["supply"], False))
            self.assertEqual([how(keeping, name)["holder"] for name in ("supply", "scope")], ["board", None])
            releases = asyncio.create_task(keeping.release("board", "eve"))
            with self.assertRaisesRegex(Ended, "taken away by eve, before its client was told that it holds"):
                await waits
            may.set()
            self.assertEqual(await releases, ("supply",))

    async def test_the_clock_jumps(self) -> None:
        """Spans are those of a clock that doesn't, and times are told by the wall clock as it is now."""
        keeping = await self.keeping()
        seat = await self.holds(keeping, "scope")
        keeping.gone(seat, self.owner)
        now = time.time()
        for jump in (-1e6, 1e6):
            with mock.patch("time.time", return_value=now + jump):
                status = keeping.status()
            self.assertEqual(status["at"], round(now + jump, 3))
            guest = next(it for it in status["stations"] if it["name"] == seat.name)
            self.assertTrue(0 <= status["at"] - guest["gone_since"] < 600 and 0 <= status["at"] - guest["since"] < 600)


class Jumps(OnFolder):
    async def test_spans_of_records(self) -> None:
        """They are right though the wall clock is set back meanwhile."""
        folder, owner, now = self.folder(), Owner(), time.time()
        keeping = await self.keeping(folder)
        board = await keeping.hold(Wish(("scope",), station="board"), owner)
        radio = asyncio.create_task(keeping.hold(Wish(("scope",), station="radio"), owner))
        await asyncio.sleep(0.2)
        with mock.patch("time.time", return_value=now - 7200):
            await keeping.let_go(board, owner)
            await keeping.let_go(await radio, owner)
        await keeping.close()
        past = Past()
        for record in read_records(folder)[0]:
            past.take(record)
        board_was, radio_was = past.ended
        self.assertTrue(0.19 < board_was.worked(now) < 600 and 0.19 < radio_was.waited(now) < 600, past.ended)


class Memory:
    """A bay's state that is no folder: all that another store has to be."""

    path, lets_wait, is_written, is_under_way, is_behind = "memory", False, True, False, False

    def __init__(self) -> None:
        self.store, self.records, self._text, self._places, self.told = self, self, b"", Places(), list[dict[str, Any]]()

    def opened(self, where: str, syncs: bool) -> "Memory":
        return self

    def text(self) -> bytes:
        return self._text

    def cut(self, length: int) -> None:
        self._text = self._text[:length]

    def write(self, text: Any = b"") -> None:  # (of the store with a text, of the records without)
        self._text += text

    def append(self, text: bytes) -> None:
        self._text += text

    def sync(self) -> None: ...

    def close(self) -> None: ...

    def brokers(self) -> tuple[str, tuple[str, ...]]:
        return "", ()

    def add(self, record: dict[str, Any]) -> None:
        self.told.append(record)

    def says_faults(self, says: Callable[[str], bool]) -> None: ...

    def follows(self, at: int, has: int) -> None: ...

    def ends(self, has: int) -> None: ...

    def has_file(self, bay: Any) -> None: ...

    def recent(self) -> list[dict[str, Any]]:
        return list(self.told)

    def places(self, is_needed: bool) -> Places:
        return self._places

    def lost(self, known: Any, recent: list[dict[str, Any]]) -> list[str]:
        return []

    def keeps(self, places: Places) -> None:
        self._places = places

    def mends(self, missing: Any, holds: Any) -> None: ...


class Seam(OnKeeping):
    async def test_another_store(self) -> None:
        """What is held comes back from wherever it was kept."""
        memory = Memory()
        for is_first in (True, False):
            keeping = Keeping(bay_of(BAY), "nowhere", opens=memory.opened)
            await keeping.open()
            if is_first:
                held = await keeping.hold(Wish(("scope",), station="board", ticket=TICKET, by="ann"), self.owner)
                await keeping.note(held, self.owner, "5 V")
            else:
                self.assertEqual((how(keeping, "board")["state"], how(keeping, "board")["note"]), ("gone", "5 V"))
                await keeping.let_go(await keeping.hold(Wish(ticket=TICKET, comes_back=True), self.owner), self.owner)
            await keeping.close()
        self.assertEqual([it["what"] for it in memory.told if it["station"] == "board"], ["asked", "held", "note", "gone", "back", "let_go"])


class Chance(OnKeeping):
    async def test_nobody_is_given_what_another_holds(self) -> None:
        """Clients by chance, with time limits and without, some of which go away."""
        for seed in range(8):
            keeping, chance, holders = await self.keeping(), random.Random(seed), dict[str, str]()

            async def client(name: str) -> None:
                for _ in range(12):
                    owner = Owner()
                    wanted = tuple(chance.sample(["scope", "supply", "load-1", "load-2"], chance.randint(1, 2)))
                    wish = Wish(any_of=tuple((it,) for it in wanted)) if chance.random() < 0.3 else Wish(wanted)
                    try:
                        async with asyncio.timeout(chance.choice([0.004, 5, 5])):
                            session = await keeping.hold(wish, owner)
                    except TimeoutError:
                        continue
                    clash = [it for it in session.instruments if it in holders]
                    self.assertEqual(clash, [], f"seed {seed}: {name} was given what {[holders[it] for it in clash]} holds")
                    holders.update(dict.fromkeys(session.instruments, name))
                    await asyncio.sleep(chance.choice([0, 0, 0.001, 0.01]))
                    for it in session.instruments:
                        del holders[it]
                    await keeping.let_go(session, owner)

            await asyncio.gather(*(client(f"client {at}") for at in range(6)))
            self.assertEqual({it["state"] for it in keeping.status()["stations"]}, {"idle"})
