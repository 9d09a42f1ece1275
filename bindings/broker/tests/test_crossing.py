"""Sessions over several bays, without a network; test_crossing_doors has them as clients see them, test_crossing_model all interleavings."""

from __future__ import annotations

import asyncio
import contextlib
import csv
import os
import re
import threading
import unittest
import unittest.mock
from typing import Any, Optional

import labrun
from labrun_broker import guarding, lasting
from labrun_broker.bays import Bays
from labrun_broker.crossing import Crossing
from labrun_broker.errors import BadWish, NoInstrument, OutOfOrder
from labrun_broker.errors import TimeoutError as TimedOut
from labrun_broker.journals import PART
from labrun_broker.outage import disable
from labrun_broker.standing import Session
from labrun_broker.wishes import Ended, Wish
from tests.brokers import LIMIT
from tests.test_bays import LAB, NORTH, SOUTH, TICKET, OnBays, Owner, written
from tests.test_past import ran

OTHER = "another ticket of it"


class OnCrossings(OnBays):
    def stands(self, bays: Bays) -> dict[str, Optional[str]]:
        """Who holds what."""
        return {it["name"]: it["holder"] for it in bays.status()["instruments"] if it["holder"]}

    async def eventually(self, is_so: Any, what: str = "it") -> None:
        for _ in range(int(LIMIT / 0.01)):
            if is_so():
                return
            await asyncio.sleep(0.01)
        raise AssertionError(f"{what} isn't so after {LIMIT} s")

    async def crosses(self, bays: Bays, *instruments: str, owner: Optional[Owner] = None, **more: Any) -> Crossing:
        it = await asyncio.wait_for(bays.hold(Wish(instruments, **more), owner or self.owner), LIMIT)
        assert isinstance(it, Crossing)
        return it

    async def waits(self, bays: Bays, where: str, *instruments: str, **more: Any) -> "tuple[asyncio.Task[Session], Session]":
        """One that waits in this bay for somebody, and the session that it asks for."""
        asks = list[Session]()
        task = asyncio.create_task(bays.hold(Wish(instruments, **more), self.owner, asks.append))
        self.addCleanup(task.cancel)
        await self.eventually(lambda: task.done() or asks and re.match(f"in the bay {where}: .* (has been held|is kept)", bays.for_whom(asks[0])[1]), "it waits")
        self.assertFalse(task.done())
        return task, asks[0]


class Holds(OnCrossings):
    async def test_all_at_once_and_let_go(self) -> None:
        bays = await self.bays()
        it = await self.crosses(bays, "oven", "scope", ticket=TICKET)
        self.assertEqual((it.instruments, it.name), (("oven", "scope"), "guest-1"))
        self.assertEqual(self.stands(bays), {"scope": "guest-1", "oven": "guest-1"})
        await bays.note(it, self.owner, "V = 5.003")
        await bays.let_go(it, self.owner)
        await self.eventually(lambda: not self.stands(bays))
        self.assertEqual(bays.crossings, {})
        for home in bays.peers:
            home._news.write()
        its = [(one["bay"], one["what"], one["instruments"]) for one in bays.recent() if one["what"] not in ("opened", "asked")]
        self.assertEqual(
            sorted(its),
            [("north", "held", ["scope"]), ("north", "let_go", ["scope"]), ("north", "note", ["scope"]), ("south", "held", ["oven"]), ("south", "let_go", ["oven"])],
        )
        with self.assertRaises(Ended) as raised:
            await self.crosses(bays, ticket=TICKET, comes_back=True)
        self.assertEqual(raised.exception.kind, "LetGo")

    async def test_what_is_only_to_be_written_is_not_waited_for_in_another_bay(self) -> None:
        """Whoever waits for it is told who has it, and not that this one waits, too: it waits for the disk of that bay."""
        bays, may = await self.bays(), threading.Event()
        self.addCleanup(may.set)
        await self.holds(bays, "oven", station="heat")
        real, asks = os.fdatasync, list[Session]()
        with unittest.mock.patch("os.fdatasync", lambda file: (may.wait(LIMIT), real(file))):
            first = await self.asks(bays, "scope", "oven")
            await self.eventually(lambda: self.stands(bays).get("scope"), "it has the scope")
            task = asyncio.create_task(bays.hold(Wish(("scope",)), self.owner, asks.append))
            await self.eventually(lambda: asks, "it asks")
            self.assertRegex(text := bays.for_whom(asks[0])[1], "^scope has been held by guest-1 for")
            self.assertNotIn("which waits", text)
            may.set()
            await self.eventually(lambda: "which waits in the bay south" in bays.for_whom(asks[0])[1], "it waits for the oven")
        for it in (first, task):
            it.cancel()
        await asyncio.gather(first, task, return_exceptions=True)

    async def test_who_waits_in_the_second_holds_in_the_first(self) -> None:
        bays = await self.bays()
        oven = await self.holds(bays, "oven")
        task, asked = await self.waits(bays, "south", "scope", "oven", "supply")
        self.assertEqual(self.stands(bays), {"scope": "guest-2", "supply": "guest-2", "oven": "guest-1"})
        keepers, text, _ = bays.for_whom(asked)
        self.assertRegex(text, r"^in the bay south: oven has been held by guest-1 for .*; it holds scope and supply already$")
        self.assertEqual([(it["instrument"], it["station"]) for it in keepers], [("oven", "guest-1")])
        rows = {(it["bay"], it["name"]): it for it in bays.status()["stations"]}
        self.assertEqual([rows[bay, "guest-2"]["state"] for bay in ("north", "south")], ["holding", "waiting"])
        # who waits for what it holds is told for whom in the end
        one, others = await self.waits_for(bays, "scope")
        with self.assertRaisesRegex(BadWish, "^scope is an instrument of this lab, and no station: guest-2 holds it$"):
            await bays.release("scope", "me")
        self.assertRegex(others[0].home.for_whom(others[0])[1], r"^scope has been held by guest-2 for .*which waits in the bay south, too: oven has been held by guest-1")  # type: ignore[union-attr]
        one.cancel()
        await bays.let_go(oven, self.owner)
        it = await asyncio.wait_for(task, LIMIT)
        self.assertEqual((it, it.instruments), (asked, ("scope", "oven", "supply")))
        self.assertEqual(bays.for_whom(it)[1], "")

    async def waits_for(self, bays: Bays, name: str) -> "tuple[asyncio.Task[Session], list[Session]]":
        asks = list[Session]()
        task = asyncio.create_task(bays.hold(Wish((name,)), self.owner, asks.append))
        await self.eventually(lambda: asks)
        return task, asks

    async def test_it_waits_in_the_first_and_holds_nothing(self) -> None:
        bays = await self.bays()
        scope = await self.holds(bays, "scope")
        task, _ = await self.waits(bays, "north", "scope", "oven")
        self.assertEqual(self.stands(bays), {"scope": "guest-1"})
        # (so the oven is free for everybody)
        await bays.let_go(await self.holds(bays, "oven"), self.owner)
        await bays.let_go(scope, self.owner)
        self.assertEqual((await asyncio.wait_for(task, LIMIT)).instruments, ("scope", "oven"))

    async def test_who_waits_for_nothing_has_nothing(self) -> None:
        bays = await self.bays()
        await self.holds(bays, "oven")
        with self.assertRaisesRegex(TimedOut, "can't have all that it asks for at once: oven has been held by guest-1"):
            await self.crosses(bays, "scope", "oven", timeout=0.0)
        self.assertEqual(self.stands(bays), {"oven": "guest-1"})

    async def test_a_try_is_no_end(self) -> None:
        """All places of the north are taken: what is tried in both bays at once can't be had, and it asks on until its time is over."""
        bays = await self.bays()
        for name in ("supply", "load-1"):
            await self.holds(bays, name)
        with self.assertRaisesRegex(TimedOut, "was given up when its time was over"):
            await self.crosses(bays, "scope", "oven", timeout=0.3)
        for home in bays.peers:
            home._news.write()
        ends = [(one["bay"], one["what"]) for one in bays.recent() if one["station"] == "guest-3" and one["what"] not in ("asked", "held")]
        self.assertEqual(sorted(ends), [("north", "gave_up"), ("north", "tried"), ("south", "tried")])
        rows = [(it[0], it[9]) for it in csv.reader(ran("table", self.state, "--csv")[1].splitlines()) if it[0] == "guest-3"]
        self.assertEqual(sorted(rows), [("guest-3", "gave up"), ("guest-3", "tried"), ("guest-3", "tried")])
        for bay, sessions, lines in (("north", 3, ["guest-3 0 1 0 0 0"]), ("south", 0, ["guest-3 0 0 0 0 0"])):
            said = ran("report", f"{self.state}/{bay}")[1]
            self.assertIn(f": {sessions} sessions\n", said)
            self.assertEqual([" ".join(it.split()[:6]) for it in said.splitlines() if it.startswith("guest-3 ")][:1], lines)
        self.assertNotIn("tried", ran("gantt", self.state)[1])

    async def test_a_try_that_is_the_end(self) -> None:
        """Of several choices without a time to wait, the last one's."""
        bays = await self.bays()
        await self.holds(bays, "scope")
        with self.assertRaises(TimedOut):
            await self.crosses(bays, any_of=(("scope", "oven"), ("scope", "load-2")), timeout=0.0)
        ends = [(one["bay"], one["what"]) for one in bays.history if one["station"] == "guest-2" and one["what"] not in ("asked", "held")]
        self.assertEqual(sorted(ends), [("north", "gave_up"), ("north", "tried"), ("south", "gave_up"), ("south", "tried")])

    async def test_a_time_limit_that_passes_in_the_second(self) -> None:
        bays = await self.bays()
        await self.holds(bays, "oven")
        with self.assertRaisesRegex(TimedOut, "was given up when its time was over: oven has been held by guest-1"):
            await self.crosses(bays, "scope", "oven", timeout=0.3)
        self.assertEqual((self.stands(bays), bays.crossings, self.owner.told), ({"oven": "guest-1"}, {}, []))
        for home in bays.peers:
            home._news.write()
        ends = {(one["bay"], one["what"]) for one in bays.recent() if one["station"] == "guest-2" and one["what"] not in ("asked", "held")}
        self.assertEqual(ends, {("north", "gave_up"), ("south", "gave_up")})

    async def test_who_gives_up_lets_go_of_the_last_first(self) -> None:
        lab, east = LAB + 'east = "east.toml"\n', 'instruments = ["laser"]\n[guests]\ncount = 2\n'
        with open(f"{self.folder}/east.toml", "w", encoding="utf-8") as file:
            file.write(east)
        bays = await self.bays(lab)
        await self.holds(bays, "laser")
        seen = list[dict[str, Optional[str]]]()
        task, _ = await self.waits(bays, "east", "laser", "oven", "scope")
        for home in bays.peers:
            home.machine.leave = lambda *given, does=home.machine.leave: (seen.append(self.stands(bays)), does(*given))  # type: ignore[method-assign,misc]
        task.cancel()
        await asyncio.wait({task})
        self.assertEqual([sorted(it) for it in seen], [["laser", "oven", "scope"], ["laser", "oven", "scope"], ["laser", "scope"]])
        self.assertEqual(self.stands(bays), {"laser": "guest-1"})

    async def test_parts_that_are_refused(self) -> None:
        bays = await self.bays(LAB, NORTH, SOUTH.replace("count = 2", 'count = 2\nmay_use = ["load-2", "load-3"]'))
        with self.assertRaises(labrun.MayNotUse):
            await self.crosses(bays, "scope", "oven")
        with self.assertRaises(labrun.MayNotUse):
            await self.crosses(bays, "scope", "oven", station="board")
        await disable(bays.with_instrument("load-2"), "load-2", "cold", "me")
        with self.assertRaisesRegex(OutOfOrder, "load-2 has been out of order"):
            await self.crosses(bays, "scope", "load-2")
        with self.assertRaisesRegex(NoInstrument, "oevn is no instrument of this lab"):
            await self.crosses(bays, "scope", "oevn")
        self.assertEqual((self.stands(bays), bays.refusals), ({}, 4))

    async def test_an_urgent_one_is_so_where_it_waits(self) -> None:
        bays = await self.bays()
        await self.holds(bays, "oven", station="heat")
        _, asked = await self.waits(bays, "south", "scope", "oven", urgent=True)
        self.assertEqual([it.urgent for it in bays.peers], [1, 1])
        self.assertTrue(asked._waiting()[1].wish.urgent)  # type: ignore[attr-defined]
        # (whoever only tries keeps nobody behind itself)
        with self.assertRaises(TimedOut):
            await self.crosses(bays, "scope", "load-2", timeout=0.0, urgent=True)
        self.assertEqual([it.urgent for it in bays.peers], [1, 1])

    async def test_an_instrument_that_is_put_out_of_order_meanwhile(self) -> None:
        bays = await self.bays()
        await self.holds(bays, "oven")
        task, _ = await self.waits(bays, "south", "scope", "oven")
        await disable(bays.with_instrument("oven"), "oven", "cold", "me")
        with self.assertRaises(OutOfOrder):
            await asyncio.wait_for(task, LIMIT)
        self.assertEqual(self.stands(bays), {"oven": "guest-1"})


class Choices(OnCrossings):
    async def test_the_first_that_can_be_had_at_once(self) -> None:
        bays = await self.bays()
        await self.holds(bays, "scope", station="board")
        it = await self.crosses(bays, any_of=(("scope", "oven"), ("supply", "load-2")))
        self.assertEqual(it.instruments, ("supply", "load-2"))
        self.assertEqual((await self.holds(bays, any_of=(("load-2",), ("load-1",)))).instruments, ("load-1",))

    async def test_else_it_waits_for_the_first_and_all_in_the_same_bays(self) -> None:
        bays = await self.bays()
        scope, supply = await self.holds(bays, "scope", station="board"), await self.holds(bays, "load-1", "load-2")
        task, _ = await self.waits(bays, "north", any_of=(("scope", "oven"), ("load-1", "oven"), ("load-1", "load-3")))
        await bays.let_go(supply, self.owner)
        it = await asyncio.wait_for(task, LIMIT)
        self.assertEqual(it.instruments, ("load-1", "oven"))
        await bays.let_go(it, self.owner)
        await bays.let_go(scope, self.owner)
        # (one bay's alone, too: then it is a session as ever)
        for name in ("load-1", "load-2"):
            await self.holds(bays, name)
        task = await self.asks(bays, any_of=(("load-1",), ("load-2",)))
        await bays.release("guest-1", "me")
        self.assertEqual((await asyncio.wait_for(task, LIMIT)).instruments, ("load-1",))

    async def test_which_of_the_second_bay_by_what_it_has_of_the_first(self) -> None:
        bays = await self.bays()
        await self.holds(bays, "load-3")
        task, asked = await self.waits(bays, "south", any_of=(("scope", "load-3"), ("supply", "load-2", "load-3"), ("scope", "load-2", "load-3")))
        self.assertEqual(asked._waiting()[1].wish.any_of, (("load-3",), ("load-2", "load-3")))  # type: ignore[attr-defined]
        await bays.release("guest-1", "me")
        self.assertEqual((await asyncio.wait_for(task, LIMIT)).instruments, ("scope", "load-3"))

    async def test_words_over_two_bays(self) -> None:
        bays = await self.bays()
        self.assertEqual((await self.crosses(bays, "3 of load-*")).instruments, ("load-1", "load-2", "load-3"))


if __name__ == "__main__":
    unittest.main()
