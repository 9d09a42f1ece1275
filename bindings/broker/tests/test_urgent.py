"""An urgent session: nobody who asks later goes before it while it waits, nor before anybody who waits with it; and it goes before none of them."""

from __future__ import annotations

import asyncio
import json
import os
import unittest
from typing import Any
from unittest import mock

from labrun_broker import people
from labrun_broker.bay import bay_of
from labrun_broker.errors import BadWish, NotAllowed
from labrun_broker.http_words import wish_of_body
from labrun_broker.labs import OF_THE_LAB
from labrun_broker.standing import Session
from labrun_broker.telling import lines_of
from labrun_broker.wishes import Wish, check
from tests.brokers import BAY, OnBroker, station, until
from tests.test_keeping import OnFolder, OnKeeping, how
from tests.test_people import PEOPLE
from tests.test_simulated import Simulated

FREE = 'urgent = ["bob"]'


class Order(OnKeeping):
    async def asks(self, *given: Any, **more: Any) -> asyncio.Task[Session]:
        """Whoever waits still at the end of the test leaves."""
        task = await super().asks(*given, **more)
        self.addAsyncCleanup(asyncio.wait, {task})
        self.addCleanup(task.cancel)
        return task

    async def test_who_waits_keeps_its_place(self) -> None:
        """One waits for scope and supply, of which supply is held; an urgent one, and then another, for scope, which is free."""
        keeping = await self.keeping()
        supply = await self.holds(keeping, "supply")
        first = await self.asks(keeping, "scope", "supply")
        urgent = await self.asks(keeping, "scope", urgent=True)
        last = await self.asks(keeping, "scope")
        self.assertEqual([it.done() for it in (first, urgent, last)], [False] * 3)
        self.assertEqual(how(keeping, "scope")["holder"], None)
        await keeping.let_go(supply, self.owner)
        self.assertEqual([it.done() for it in (urgent, last)], [False] * 2)
        await keeping.let_go(await first, self.owner)
        held = await urgent
        self.assertFalse(last.done())
        await keeping.let_go(held, self.owner)
        await keeping.let_go(await last, self.owner)

    async def test_the_usual_one_goes_before(self) -> None:
        """The same, with nobody who is urgent."""
        keeping = await self.keeping()
        await self.holds(keeping, "supply")
        first = await self.asks(keeping, "scope", "supply")
        await self.holds(keeping, "scope")
        self.assertFalse(first.done())

    async def test_it_takes_what_nobody_waits_for(self) -> None:
        keeping = await self.keeping()
        await self.holds(keeping, "supply")
        await self.asks(keeping, "scope", "supply")
        self.assertEqual((await self.holds(keeping, "load-1", urgent=True)).instruments, ("load-1",))
        self.assertEqual(keeping.urgent, 1)

    async def test_it_is_shown(self) -> None:
        """Who keeps its place is told so, and why; who asks later isn't."""
        keeping = await self.keeping()
        await self.holds(keeping, "supply")
        for more in ({}, {"urgent": True}, {}):
            await self.asks(keeping, *(["scope", "supply"] if not more else ["scope"]), **more)
        rows = {it["name"]: (it["place"], it["urgent"], it["keeps_place"]) for it in keeping.status()["stations"] if it["state"] == "waiting"}
        self.assertEqual(rows, {"guest-2": (1, False, True), "guest-3": (2, True, True), "guest-4": (3, False, False)})
        texts = [it["text"] for it in how(keeping, "guest-3")["waits_for"]]
        self.assertRegex(texts[0], "^scope is kept for guest-2 until it holds, since an urgent one asked after it and it waits for supply, held by guest-1")
        said = "\n".join(lines_of(keeping.status()))
        for text in ("number 1 in line, and an urgent one asked after it: nobody who asks later goes before it", "number 2 in line, urgent: nobody who", "number 3 in line\n"):
            self.assertIn(text, said)

    async def test_where_there_is_no_place(self) -> None:
        """Of one for which no place is free nobody says that none goes before it: nothing is kept for it."""
        keeping = await self.keeping(BAY.replace("count = 4", "count = 1"))
        await self.holds(keeping, "supply")
        await self.asks(keeping, "scope", urgent=True)
        said = "\n".join(lines_of(keeping.status()))
        self.assertIn("number 1 in line, urgent\n", said)
        self.assertNotIn("nobody who asks later", said)
        await self.holds(keeping, "scope", station="board")

    async def test_it_is_told_that_it_is_urgent(self) -> None:
        """Whoever waits behind an urgent one is told why it is kept waiting."""
        keeping = await self.keeping()
        await self.holds(keeping, "supply")
        await self.asks(keeping, "scope", "supply", urgent=True)
        await self.asks(keeping, "scope")
        self.assertIn("scope is kept for guest-2 until it holds, since it is urgent", how(keeping, "guest-3")["waits_for"][0]["text"])


class OrderSimulated(Simulated, Order): ...


class Rights(OnFolder):
    def test_who_may(self) -> None:
        """Operators, and whom the file names; without people everybody."""
        bay, wish = bay_of(f"{FREE}\n{PEOPLE}"), Wish(("load-1",), urgent=True)
        for person in ("ana", "bob"):
            check(Wish(("load-1",), urgent=True, person=person), bay)
        for person, why in (("cat", "cat may not ask urgently; operators: ana"), ("", "nobody may not ask urgently; operators: ana")):
            with self.assertRaises(NotAllowed) as caught:
                check(Wish(("scope",), urgent=True, person=person), bay)
            self.assertEqual(str(caught.exception), why)
        check(wish, bay_of(BAY))
        with self.assertRaises(NotAllowed):
            check(Wish(("load-1",), urgent=True, person="bob"), bay_of(PEOPLE))

    async def test_whoever_may_not_is_refused(self) -> None:
        keeping, owner = await self.keeping(self.folder(), PEOPLE), mock.Mock()
        with self.assertRaisesRegex(NotAllowed, "^bob may not ask urgently; operators: ana$"):
            await keeping.hold(Wish(("load-1",), urgent=True, person="bob"), owner)
        self.assertEqual((keeping.refusals, keeping.urgent), (1, 0))

    def test_the_file(self) -> None:
        before, after = bay_of(PEOPLE).people, bay_of(f"{FREE}\n{PEOPLE}").people
        self.assertEqual((before.urgent, after.urgent), ((), ("bob",)))
        self.assertEqual(list(people.changes(before, after)), ["urgent: bob, instead of nobody"])
        self.assertIn("urgent", OF_THE_LAB)
        with self.assertRaisesRegex(ValueError, "urgent: zoe is none of the people"):
            bay_of(f'urgent = ["zoe"]\n{PEOPLE}')


class Doors(OnBroker):
    def test_the_command_and_the_program(self) -> None:
        """Both ask urgently, and `status` says so; a usual one that asks later waits behind them."""
        broker = self.broker(BAY, "--state", "FOLDER/state")
        lab = self.lab(broker)
        with lab.hold("scope"):
            command = broker.started("hold", "scope", "--urgent", "--", "true")
            self.addCleanup(command.communicate)
            until(lambda: station(lab, "guest-2")["state"] == "waiting", "the command waits")
            self.assertEqual([station(lab, "guest-2")[it] for it in ("urgent", "keeps_place")], [True, True])
            with self.assertRaises(TimeoutError), lab.hold("scope", timeout=0.05, urgent=True):
                pass
            self.assertIn("number 1 in line, urgent: nobody who asks later goes before it", broker.ran("status").stdout)
        command.communicate()
        self.assertEqual(command.returncode, 0)
        with open(os.path.join(broker.folder, "state", "records.jsonl"), encoding="utf-8") as file:
            records = [json.loads(it) for it in file]
        self.assertEqual([it.get("urgent", False) for it in records if it["what"] == "asked"], [False, True, True])

    def test_by_http(self) -> None:
        self.assertEqual([wish_of_body(json.dumps({"instruments": ["scope"], **more}).encode()).urgent for more in ({}, {"urgent": True}, {"urgent": False})], [False, True, False])
        with self.assertRaisesRegex(BadWish, "^urgent: true or false is wanted$"):
            wish_of_body(b'{"instruments": ["scope"], "urgent": 1}')


if __name__ == "__main__":
    unittest.main()
