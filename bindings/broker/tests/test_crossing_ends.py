"""How sessions over several bays end: in all their bays, whoever ends them; and what a broker finds that begins again."""

from __future__ import annotations

import asyncio
import collections
import contextlib
import os
import random
import shutil
import unittest
from typing import Any

import labrun
from labrun.machine import HOLDS, WAITS
from labrun_broker import guarding, lab_applying
from labrun_broker.bays import Bays
from labrun_broker.crossing import Crossing
from labrun_broker.errors import BadWish
from labrun_broker.journals import PART
from labrun_broker.standing import Session
from labrun_broker.wishes import Ended, Wish
from tests.brokers import LIMIT
from tests.test_bays import LAB, NORTH, SOUTH, TICKET, Owner
from tests.test_crossing import OnCrossings

KEEPS, RELEASES = 'gone = "keep"\n', 'gone = "release"\n'


class Ends(OnCrossings):
    async def test_a_release_ends_it_in_all_bays(self) -> None:
        for by_number in (0, 1):
            bays = await self.bays(state=False)
            it = await self.crosses(bays, "scope", "oven", ticket=TICKET)
            number = it.parts["south"].number * by_number
            self.assertEqual(await bays.release(it.name, "ann", number), ("scope", "oven"))
            await self.eventually(lambda: not self.stands(bays))
            # (with all that it had, whichever bay ends first)
            self.assertEqual(self.owner.told, ["guest-1: the session with scope, oven was taken away by ann"])
            with self.assertRaisesRegex(Ended, "the session was taken away by ann"):
                await self.crosses(bays, ticket=TICKET, comes_back=True)
            with self.assertRaises(labrun.NotHeld):
                await bays.let_go(it, self.owner)
            self.owner.told.clear()

    async def test_a_release_by_a_number_that_it_has_nowhere(self) -> None:
        bays = await self.bays(state=False)
        it = await self.crosses(bays, "scope", "oven")
        north, south = (it.parts[name].number for name in ("north", "south"))
        with self.assertRaisesRegex(labrun.NotHeld, rf"^guest-1 is in session {north} \(north\), {south} \(south\) now, and not in 77777$"):
            await bays.release("guest-1", "ann", 77777)
        self.assertTrue(it.holds)

    async def test_a_release_while_it_waits(self) -> None:
        bays = await self.bays(state=False)
        await self.holds(bays, "oven", station="heat")
        task, asked = await self.waits(bays, "south", "scope", "oven")
        self.assertEqual(await bays.release(asked.name, "ann"), ("scope",))
        with self.assertRaisesRegex(Ended, "^the session was taken away by ann, before its client was told that it holds$"):
            await asyncio.wait_for(task, LIMIT)
        await self.eventually(lambda: self.stands(bays) == {"oven": "heat"})
        self.assertEqual((self.owner.told, bays.crossings), ([], {}))
        # (nothing of it stands in line)
        await bays.release("heat", "me")
        self.assertEqual(self.stands(bays), {})

    async def test_who_is_gone_comes_back_by_one_ticket(self) -> None:
        bays = await self.bays(state=False)
        it, other = await self.crosses(bays, "scope", "oven", ticket=TICKET), Owner()
        bays.gone(it, self.owner)
        rows = [one["state"] for one in bays.status()["stations"] if one["name"] == "guest-1"]
        self.assertEqual((rows, it.state), (["gone", "gone"], "gone"))
        self.assertIs(await self.crosses(bays, ticket=TICKET, comes_back=True, owner=other), it)
        self.assertEqual([one["state"] for one in bays.status()["stations"] if one["name"] == "guest-1"], ["holding", "holding"])
        # (another connection for it ends the first)
        third = Owner()
        await self.crosses(bays, "scope", "oven", ticket=TICKET, owner=third)
        self.assertEqual(other.told, ["another connection came for the session"])
        with self.assertRaises(labrun.NotHeld):
            await bays.let_go(it, other)
        with self.assertRaisesRegex(BadWish, "this ticket is that of a session that holds scope oven"):
            await self.crosses(bays, "scope", ticket=TICKET)
        await bays.let_go(it, third)
        await self.eventually(lambda: not self.stands(bays))

    async def test_who_asks_anew_with_its_ticket_leaves_the_line(self) -> None:
        bays = await self.bays(state=False)
        await self.holds(bays, "oven", station="heat")
        first, _ = await self.waits(bays, "south", "scope", "oven", ticket=TICKET)
        with self.assertRaisesRegex(Ended, "was never told that it holds"):
            await self.crosses(bays, ticket=TICKET, comes_back=True)
        second, _ = await self.waits(bays, "south", "scope", "oven", ticket=TICKET)
        with self.assertRaisesRegex(Ended, "another connection"):
            await asyncio.wait_for(first, LIMIT)
        await bays.release("heat", "me")
        self.assertEqual((await asyncio.wait_for(second, LIMIT)).instruments, ("scope", "oven"))

    async def test_a_client_that_dies_while_it_waits_in_the_second(self) -> None:
        bays = await self.bays(state=False)
        await self.holds(bays, "oven", station="heat")
        task, _ = await self.waits(bays, "south", "scope", "oven")
        task.cancel()
        await asyncio.wait({task})
        self.assertEqual((self.stands(bays), [len(it.by_number) for it in bays.peers], bays.crossings), ({"oven": "heat"}, [0, 1], {}))

    async def test_it_is_kept_if_one_of_its_bays_keeps_it(self) -> None:
        for north, south, is_kept in ((RELEASES, RELEASES, False), (KEEPS, RELEASES, True), (RELEASES, KEEPS, True)):
            bays = await self.bays(LAB, north + NORTH, south + SOUTH, state=False)
            for home in bays.peers:
                home.its_grace = 1.0
            it = await self.crosses(bays, "scope", "oven", pings=True)
            self.assertEqual(bays.lease_of(it), None if is_kept else 0.75)
            bays.gone(it, self.owner)
            if is_kept:
                await asyncio.sleep(1.5)
                self.assertEqual(sorted(self.stands(bays)), ["oven", "scope"])
            else:
                await self.eventually(lambda: not self.stands(bays), "both are released")

    async def test_a_limit_counts_from_when_it_is_told(self) -> None:
        bays = await self.bays(state=False)
        oven = await self.holds(bays, "oven", station="heat")
        task, _ = await self.waits(bays, "south", "scope", "oven", limit=1.0)
        await asyncio.sleep(1.2)
        scope = await self.asks(bays, "scope")
        await asyncio.sleep(0.3)
        self.assertFalse(scope.done() or task.done())
        await bays.let_go(oven, self.owner)
        told = await asyncio.wait_for(task, LIMIT)
        begun = asyncio.get_running_loop().time()
        # (whoever waits for a part of it ends all of it)
        self.assertEqual((await asyncio.wait_for(scope, LIMIT)).instruments, ("scope",))
        self.assertGreater(asyncio.get_running_loop().time() - begun, 0.9)
        await self.eventually(lambda: list(self.stands(bays)) == ["scope"])
        self.assertIn("because it held for longer than its limit of 1 s", self.owner.told[0])
        self.assertEqual((told.state, len(self.owner.told)), ("over", 1))

    async def test_a_guard_is_told_once_its_client_is(self) -> None:
        bays = await self.bays()
        oven = await self.holds(bays, "oven", station="heat")
        task, _ = await self.waits(bays, "south", "scope", "oven", ticket=TICKET)
        self.assertEqual(guarding.holders_now(bays, ("scope",))["scope"].token, 0)
        await bays.let_go(oven, self.owner)
        it = await asyncio.wait_for(task, LIMIT)
        assert isinstance(it, Crossing)
        told = guarding.holders_now(bays, ("scope", "oven"))
        self.assertEqual([told[name].token for name in ("scope", "oven")], [it.parts["north"].token, it.parts["south"].token])
        self.assertEqual({one.ticket_hash for one in told.values()}, {told["scope"].ticket_hash})

    async def test_a_command_makes_each_part_safe(self) -> None:
        command = f'[on_release]\noven = "sh -c \'echo $LABRUN_ENDED >> {self.folder}/said\'"\n'
        bays = await self.bays(LAB, NORTH, SOUTH + command, state=False)
        await bays.let_go(await self.crosses(bays, "scope", "oven"), self.owner)
        await self.eventually(lambda: not self.stands(bays))
        # (who never held it wasn't at it)
        await self.holds(bays, "load-2")
        with self.assertRaises(labrun.TimeoutError):
            await self.crosses(bays, "scope", "oven", "load-2", timeout=0.1)
        with open(f"{self.folder}/said", encoding="utf-8") as file:
            self.assertEqual(file.read(), "let_go\n")


class ByChance(OnCrossings):
    """Clients that ask for this and that, wait, give up, are gone and come back, while somebody releases and pages are turned."""

    async def test_nobody_holds_what_another_has_and_nothing_is_left(self) -> None:
        bays, dice = await self.bays(), random.Random(11)
        for home in bays.peers:
            home.most_bytes = home._shell.turns.most = 4096
        wishes: list[dict[str, Any]] = [{"instruments": it} for it in (("scope", "oven"), ("oven", "scope", "supply"), ("load-*",), ("oven",), ("scope",))]
        wishes += [{"any_of": (("scope", "oven"), ("supply", "load-2"))}, {"instruments": ("3 of load-*",)}]
        clients = [Client(bays, random.Random(number), wishes) for number in range(6)]
        tasks = [asyncio.create_task(it.works()) for it in clients]
        while not all(it.done() for it in tasks):
            await asyncio.sleep(dice.random() / 20)
            if (names := list(self.stands(bays).values())) and dice.random() < 0.3:
                with contextlib.suppress(labrun.LabrunError):
                    await bays.release(str(dice.choice(names)), "ann")
        for it in tasks:
            it.result()
        await self.eventually(lambda: not self.stands(bays), "nothing is held")
        left = [one.what for it in bays.peers for one in it.machine.standings() if one.what in (HOLDS, WAITS)]
        self.assertEqual((len(bays.crossings), [it.by_number for it in bays.peers], left), (0, [{}, {}], []))
        # (each kind of end was there)
        ends = collections.Counter(end for it in clients for end in it.ends)
        self.assertEqual({end for end, count in ends.items() if count}, {"let go", "gave up", "taken", "came back"}, ends)
        self.assertTrue(all(it._shell.turns.count for it in bays.peers), "each bay has turned a page")


class Client:
    """One after another; `users` has who is at each instrument, as far as clients know."""

    users: dict[str, "Client"] = {}

    def __init__(self, bays: Bays, dice: random.Random, wishes: list[dict[str, Any]]) -> None:
        self.bays, self.dice, self.wishes, self.ends, self.its = bays, dice, wishes, list[str](), tuple[str, ...]()

    def taken(self, why: str) -> None:
        self.leaves()

    def warned(self, text: str, seconds: float) -> None: ...

    def leaves(self) -> None:
        for name in self.its:
            assert self.users.pop(name) is self
        self.its = ()

    async def works(self) -> None:
        for _ in range(25):
            wish = Wish(**self.dice.choice(self.wishes), ticket=f"{self.dice.random()} of a client", timeout=self.dice.choice((None, None, 0.0, 0.05, 1.0)))
            task = asyncio.create_task(self.asks(wish))
            if self.dice.random() < 0.2:
                asyncio.get_running_loop().call_later(self.dice.random() / 20, task.cancel)
            try:
                session = await asyncio.wait_for(asyncio.shield(task), LIMIT)
            except (labrun.TimeoutError, asyncio.CancelledError):
                self.ends.append("gave up")
            except labrun.NotHeld:
                self.ends.append("taken")
            else:
                await self.holds(wish, session)

    async def asks(self, wish: Wish) -> Session:
        """(At once: it may be taken away before its task goes on.)"""
        session = await self.bays.hold(wish, self)
        self.its = session.instruments
        assert not set(self.its) & set(self.users), f"{self.its} of {self.users}"
        self.users.update(dict.fromkeys(self.its, self))
        return session

    async def holds(self, wish: Wish, session: Session) -> None:
        await asyncio.sleep(self.dice.random() / 50)
        try:
            if self.dice.random() < 0.2:
                self.bays.gone(session, self)
                await self.bays.hold(Wish(ticket=wish.ticket, comes_back=True), self)
                self.ends.append("came back")
            await self.bays.note(session, self, "at work")
            if self.its:
                self.leaves()
                await self.bays.let_go(session, self)
                self.ends.append("let go")
        except labrun.NotHeld:
            self.leaves()
            self.ends.append("taken")


class Changes(OnCrossings):
    async def test_a_new_page_of_one_bay_while_it_waits_in_the_other(self) -> None:
        bays = await self.bays()
        oven = await self.holds(bays, "oven", station="heat")
        task, _ = await self.waits(bays, "south", "scope", "oven", ticket=TICKET)
        for name, text in (("north", NORTH), ("south", SOUTH)):
            its = await lab_applying.apply_one(bays, name, text.replace("count = 2", "count = 3"), "me", False)
            self.assertEqual(its, ["guests: 3 hold at once, instead of 2"])
        await bays.let_go(oven, self.owner)
        it = await asyncio.wait_for(task, LIMIT)
        # (what a new page has of it says that it is a part, too)
        await lab_applying.apply_one(bays, "south", SOUTH.replace("count = 2", "count = 4"), "me", False)
        await bays.close()
        again = await self.bays()
        self.assertEqual(sorted(self.stands(again)), ["oven", "scope"])
        back = await self.crosses(again, ticket=TICKET, comes_back=True)
        self.assertEqual((back.instruments, back.name), (("scope", "oven"), it.name))

    async def test_what_it_holds_may_not_be_taken_out(self) -> None:
        bays = await self.bays(state=False)
        await self.crosses(bays, "load-1", "oven")
        with self.assertRaisesRegex(labrun.LabrunError, "load-1 is taken out, and guest-1 has held it for"):
            await lab_applying.apply_one(bays, "north", NORTH.replace(', "load-1"', ""), "me", False)


class Restarts(OnCrossings):
    async def test_who_was_told_is_back_in_all_bays(self) -> None:
        bays = await self.bays()
        it = await self.crosses(bays, "oven", "scope", ticket=TICKET, by="ann")
        await bays.close()
        again = await self.bays()
        rows = {one["bay"]: one for one in again.status()["stations"] if one["name"] == it.name}
        self.assertEqual([(rows[bay]["state"], rows[bay]["by"]) for bay in ("north", "south")], [("gone", "ann")] * 2)
        back = await self.crosses(again, ticket=TICKET, comes_back=True)
        self.assertEqual(sorted(back.instruments), ["oven", "scope"])
        await again.let_go(back, self.owner)
        await self.eventually(lambda: not self.stands(again))

    async def test_who_was_not_told_has_it_in_the_order_of_asking(self) -> None:
        bays = await self.bays()
        await self.crosses(bays, "oven", "scope", ticket=TICKET)
        await bays.close()
        self.assertEqual((await self.crosses(await self.bays(), "oven", "scope", ticket=TICKET)).instruments, ("oven", "scope"))

    async def test_a_release_of_one_that_is_back(self) -> None:
        bays = await self.bays()
        it = await self.crosses(bays, "oven", "scope", ticket=TICKET)
        await bays.close()
        again = await self.bays()
        self.assertEqual(sorted(await again.release(it.name, "ann")), ["oven", "scope"])
        await self.eventually(lambda: not self.stands(again))
        with self.assertRaisesRegex(Ended, "the session was taken away by ann"):
            await self.crosses(again, ticket=TICKET, comes_back=True)

    async def snapshot(self, bays: Bays, to: str) -> None:
        """The state as a kill would leave it now."""
        shutil.rmtree(to, ignore_errors=True)
        shutil.copytree(self.state, to)

    async def begins_with(self, state: str) -> Bays:
        shutil.rmtree(self.state)
        shutil.copytree(state, self.state)
        return await self.bays()

    async def test_each_cut_between_the_two_journals(self) -> None:
        """Of each journal any number of its lines may be there: the session is there as a whole, or not at all."""
        bays = await self.bays()
        it = await self.crosses(bays, "oven", "scope", ticket=TICKET)
        await bays.note(it, self.owner, "at work")
        await bays.let_go(it, self.owner)
        await bays.close()
        lines = dict[str, list[bytes]]()
        for name in bays.of:
            with open(f"{self.state}/{name}/bay.journal", "rb") as file:
                lines[name] = file.read().splitlines(keepends=True)
        told = list[tuple[int, int, list[str]]]()
        for first in range(1, len(lines["north"]) + 1):
            for second in range(1, len(lines["south"]) + 1):
                for name, count in (("north", first), ("south", second)):
                    with open(f"{self.state}/{name}/bay.journal", "wb") as file:
                        file.writelines(lines[name][:count])
                    os.unlink(f"{self.state}/{name}/records.jsonl")
                again = await self.bays()
                # (what ends does so once what it had is made safe)
                await asyncio.gather(*(one for home in again.peers for one in home.safing))
                told.append((first, second, sorted(self.stands(again))))
                await again.close()
        # (the second line of each is that it holds; an `over` or an `end` comes behind its notes)
        self.assertEqual({len(its) for *_, its in told}, {0, 2})
        holds = {(first, second) for first, second, its in told if its}
        over = {name: next(at for at, line in enumerate(lines[name], 1) if b" over " in line or b" end " in line) for name in lines}
        self.assertEqual(holds, {(a, b) for a in range(2, over["north"]) for b in range(2, over["south"])})

    async def test_one_that_waits_is_let_go_of_by_the_next_broker(self) -> None:
        bays = await self.bays()
        await self.holds(bays, "oven", station="heat", ticket=TICKET)
        task, _ = await self.waits(bays, "south", "scope", "oven", ticket="a ticket of one that waits")
        await self.snapshot(bays, f"{self.folder}/killed")
        task.cancel()
        await asyncio.wait({task})
        await bays.close()
        again = await self.begins_with(f"{self.folder}/killed")
        self.assertEqual((self.stands(again), again.crossings), ({"oven": "heat"}, {}))
        for home in again.peers:
            home._news.write()
        ends = [(one["what"], one["text"]) for one in again.recent() if one["instruments"] == ["scope"] and one["what"] not in ("asked", "held", "gone")]
        self.assertEqual(ends, [("gave_up", "the broker ended before it held in all its bays")])

    async def test_the_journal_says_of_how_many_it_is(self) -> None:
        bays = await self.bays()
        await self.crosses(bays, "oven", "scope")
        await bays.close()
        for name in ("north", "south"):
            with open(f"{self.state}/{name}/bay.journal", encoding="utf-8") as file:
                line = next(it for it in file if " hold " in it)
            self.assertEqual(int(line.split()[7], 16) - PART, 2)


if __name__ == "__main__":
    unittest.main()
