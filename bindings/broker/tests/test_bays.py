"""Several bays behind one broker: what they do together, without a network; test_labs has the lab's file."""

from __future__ import annotations

import asyncio
import json
import os
import tempfile
import unittest
from types import SimpleNamespace
from typing import Any, Optional
from unittest import mock

import labrun
from labrun_broker import aside, guarding, lab_applying
from labrun_broker.bays import Bays
from labrun_broker.entrance import Entrance, NotLetIn
from labrun_broker.errors import BadWish, CantChange, NoInstrument, NotAllowed
from labrun_broker.keeping import Keeping
from labrun_broker.labs import Lab, read_any
from labrun_broker.outage import disable, enable
from labrun_broker.people import digest_of
from labrun_broker.standing import Session
from labrun_broker.wishes import Ended, Wish
from tests import asking
from tests.brokers import LIMIT, SOON, TOP

NORTH = """
bay = "north"
instruments = ["scope", "supply", "load-1"]
[stations]
board = ["scope", "supply"]
[guests]
count = 2
[tags]
slow = ["scope"]
"""
SOUTH = """
instruments = ["oven", "load-2", "load-3"]
overtakes = 3
[stations]
heat = ["oven"]
[guests]
count = 2
[tags]
slow = ["oven"]
"""
LAB = """
lab = "physics"
[bays]
north = "north.toml"
south = "more/south.toml"
"""
TICKET = "a ticket of a test"


def written(folder: str, lab: str = LAB, north: str = NORTH, south: Optional[str] = SOUTH) -> str:
    os.makedirs(f"{folder}/more", exist_ok=True)
    for name, text in (("lab.toml", lab), ("north.toml", north), ("more/south.toml", south)):
        if text is not None:
            with open(f"{folder}/{name}", "w", encoding="utf-8") as file:
                file.write(text)
    return f"{folder}/lab.toml"


class Owner:
    def __init__(self) -> None:
        self.told: list[str] = []

    def taken(self, why: str) -> None:
        self.told.append(why)

    def warned(self, text: str, seconds: float) -> None:
        self.told.append(text)


class OnBays(unittest.IsolatedAsyncioTestCase):
    async def asyncSetUp(self) -> None:
        # (on a busy machine the disk may not be quiet within a second)
        self.enterContext(mock.patch("labrun_broker.turning.QUIET", SOON))
        # (for what takes longer than a moment the loop doesn't wait, and there any write may)
        self.enterContext(mock.patch.object(aside, "MOMENT", LIMIT))
        self.folder = self.enterContext(tempfile.TemporaryDirectory())
        self.state = f"{self.folder}/state"
        self.owner = Owner()

    async def bays(self, *texts: Any, state: bool = True) -> Bays:
        lab = read_any(written(self.folder, *texts))
        assert isinstance(lab, Lab)
        bays = Bays(lab, self.state if state else None)
        await bays.open()
        self.addAsyncCleanup(bays.close)
        return bays

    async def holds(self, bays: Bays, *instruments: str, **more: Any) -> Session:
        return await asyncio.wait_for(bays.hold(Wish(instruments, **more), self.owner), LIMIT)

    async def asks(self, bays: Bays, *instruments: str, **more: Any) -> "asyncio.Task[Session]":
        task = asyncio.create_task(bays.hold(Wish(instruments, **more), self.owner))
        await asyncio.sleep(0.05)
        return task


class Holds(OnBays):
    async def test_a_wish_goes_to_the_bay_that_has_it(self) -> None:
        bays = await self.bays()
        scope, oven = await self.holds(bays, "scope"), await self.holds(bays, "oven", station="heat")
        self.assertEqual((scope.home, oven.home), (bays.of["north"], bays.of["south"]))
        self.assertEqual((scope.name, oven.name), ("guest-1", "heat"))
        for name, word in (("north", "scope"), ("south", "oven")):
            with open(f"{self.state}/{name}/records.jsonl", encoding="utf-8") as file:
                bays.of[name]._news.write()
                self.assertEqual([it["instruments"] for it in map(json.loads, file) if it["what"] == "held"], [[word]])

    async def test_one_bay_does_not_wait_for_the_other(self) -> None:
        bays = await self.bays(state=False)
        await self.holds(bays, "scope")
        waits = await self.asks(bays, "scope")
        await self.holds(bays, "oven")
        self.assertFalse(waits.done())
        waits.cancel()

    async def test_words_of_one_bay(self) -> None:
        bays = await self.bays(state=False)
        self.assertEqual((await self.holds(bays, "2 of load-[23]")).instruments, ("load-2", "load-3"))
        self.assertEqual((await self.holds(bays, "tag:slow", station="heat")).instruments, ("oven",))

    async def test_what_is_of_two_bays_is_had_of_both(self) -> None:
        bays = await self.bays(state=False)
        for wish, held in ((Wish(("scope", "oven")), ("scope", "oven")), (Wish(("load-*",)), ("load-1",)), (Wish(any_of=(("supply",), ("oven",))), ("supply",))):
            session = await asyncio.wait_for(bays.hold(wish, self.owner), LIMIT)
            self.assertEqual(session.instruments, held)
            await bays.let_go(session, self.owner)

    async def test_what_no_bay_has(self) -> None:
        bays = await self.bays(state=False)
        with self.assertRaisesRegex(NoInstrument, r"oevn .* scope, supply, load-1, oven, load-2, load-3 \(did you mean oven\?\)"):
            await bays.hold(Wish(("oevn",)), self.owner)
        with self.assertRaises(labrun.MayNotUse):
            await bays.hold(Wish(("oven",), station="board"), self.owner)

    async def test_which_bay_has_no_place(self) -> None:
        """Others may have one."""
        bays = await self.bays(LAB, NORTH.replace("count = 2", "count = 1"), SOUTH, state=False)
        for name, whole, its in (
            ("north", "the only place for a guest in bay north is", ("scope", "supply")),
            ("south", "all 2 places for guests in bay south are", ("oven", "load-2", "load-3")),
        ):
            held = [await self.holds(bays, it) for it in its[:-1]]
            found: list[Session] = []
            task = asyncio.create_task(bays.hold(Wish((its[-1],)), self.owner, found.append))
            async with asyncio.timeout(LIMIT):
                while not found:
                    await asyncio.sleep(0)
            who = ", ".join(f"{it.name} by somebody" for it in held)
            self.assertEqual(bays.for_whom(found[0])[1], f"{whole} taken: {who} (guests.count says how many hold at once)", name)
            task.cancel()

    async def test_numbers_and_names_of_guests_are_of_the_whole_lab(self) -> None:
        bays = await self.bays(state=False)
        its = [await self.holds(bays, name) for name in ("scope", "oven", "load-1", "load-2")]
        self.assertEqual([it.name for it in its], ["guest-1", "guest-2", "guest-3", "guest-4"])
        self.assertEqual([it.number for it in its], [1, 2, 3, 4])

    async def test_a_ticket_leads_to_its_bay(self) -> None:
        bays = await self.bays(state=False)
        session = await self.holds(bays, "oven", ticket=TICKET)
        bays.gone(session, self.owner)
        self.assertEqual(session.state, "gone")
        back = await self.holds(bays, ticket=TICKET, comes_back=True)
        self.assertIs(back, session)
        with self.assertRaisesRegex(BadWish, "this ticket is that of a session that holds oven"):
            await self.holds(bays, "scope", ticket=TICKET)
        await bays.let_go(back, self.owner)
        with self.assertRaises(Ended) as raised:
            await self.holds(bays, ticket=TICKET, comes_back=True)
        self.assertEqual(raised.exception.kind, "LetGo")

    async def test_a_ticket_that_is_used_again_in_another_bay(self) -> None:
        bays = await self.bays(state=False)
        await bays.let_go(await self.holds(bays, "scope", ticket=TICKET), self.owner)
        oven = await self.holds(bays, "oven", ticket=TICKET)
        bays.gone(oven, self.owner)
        self.assertIs(await self.holds(bays, ticket=TICKET, comes_back=True), oven)

    async def test_who_asks_elsewhere_with_its_ticket_leaves_the_line(self) -> None:
        bays = await self.bays(state=False)
        await self.holds(bays, "scope")
        waits = await self.asks(bays, "scope", ticket=TICKET)
        await self.holds(bays, "oven", ticket=TICKET)
        with self.assertRaises(Ended):
            await asyncio.wait_for(waits, LIMIT)
        self.assertEqual(len(bays.of["north"].by_number), 1)


class Large(OnBays):
    async def test_eight_full_bays(self) -> None:
        """As many instruments as eight bays can have, and as many stations."""

        def text(bay: int) -> str:
            names = [f"i{bay}-{number}" for number in range(64)]
            stations = "".join(f's{bay}-{number} = {json.dumps(names)}\n' for number in range(31))
            return f"instruments = {json.dumps(names)}\n[guests]\ncount = 9\n[stations]\n{stations}"

        for bay in range(8):
            with open(f"{self.folder}/{bay}.toml", "w", encoding="utf-8") as file:
                file.write(text(bay))
        bays = await self.bays("[bays]\n" + "".join(f'b{bay} = "{bay}.toml"\n' for bay in range(8)))
        self.assertEqual(len(bays.status()["instruments"]), 512)
        for bay in range(8):
            its = await self.holds(bays, *(f"i{bay}-{number}" for number in range(64)), station=f"s{bay}-30")
            self.assertEqual((len(its.instruments), its.home), (64, bays.of[f"b{bay}"]))
        self.assertEqual(sum(it["holder"] is not None for it in bays.status()["instruments"]), 512)


class Restarts(OnBays):
    async def test_all_that_was_held_is_held(self) -> None:
        bays = await self.bays()
        await self.holds(bays, "scope", ticket=TICKET)
        oven = await self.holds(bays, "oven")
        await bays.close()
        again = await self.bays()
        stands = {it["name"]: it["holder"] for it in again.status()["instruments"]}
        self.assertEqual((stands["scope"], stands["oven"], stands["supply"]), ("guest-1", "guest-2", None))
        self.assertEqual((await self.holds(again, ticket=TICKET, comes_back=True)).instruments, ("scope",))
        # (numbers go on behind those of all bays)
        self.assertGreater((await self.holds(again, "supply")).number, oven.number)

    async def test_the_folder_of_one_bay_is_refused(self) -> None:
        os.makedirs(self.state)
        with open(f"{self.state}/bay.journal", "wb"):
            pass
        with self.assertRaisesRegex(labrun.LabrunError, "the journal of one bay is there"):
            await self.bays()

    async def test_a_bay_that_was_taken_out_while_two_hold(self) -> None:
        bays = await self.bays()
        await self.holds(bays, "oven", station="heat")
        await self.holds(bays, "load-2")
        await bays.close()
        with self.assertRaisesRegex(labrun.LabrunError, "south: heat, guest-1 still hold there, and the lab has no bay south"):
            await self.bays(LAB.replace('south = "more/south.toml"', ""))

    async def test_a_bay_that_was_taken_out_while_somebody_holds_is_missed(self) -> None:
        bays = await self.bays()
        oven = await self.holds(bays, "oven")
        await bays.close()
        only_north = LAB.replace('south = "more/south.toml"', "")
        with self.assertRaisesRegex(labrun.LabrunError, "south: guest-1 still holds there, and the lab has no bay south"):
            await self.bays(only_north, NORTH.replace('"load-1"', '"oven"'))
        again = await self.bays()
        await again.release("guest-1", "me", oven.number)
        await again.close()
        self.assertEqual(list((await self.bays(only_north)).of), ["north"])

    async def test_the_folder_of_a_bay_moves_into_the_labs(self) -> None:
        alone = Keeping(read_any(written(self.folder, NORTH)), f"{self.state}/north")  # type: ignore[arg-type]
        await alone.open()
        await alone.hold(Wish(("scope",), ticket=TICKET), self.owner)
        await alone.close()
        bays = await self.bays()
        self.assertEqual((await self.holds(bays, ticket=TICKET, comes_back=True)).instruments, ("scope",))

    async def test_one_that_cannot_open_closes_those_before(self) -> None:
        os.makedirs(f"{self.state}/south")
        with open(f"{self.state}/south/bay.journal", "w", encoding="utf-8") as file:
            file.write("this is no journal of a bay at all\n")
        with self.assertRaisesRegex(labrun.JournalError, "south/bay.journal: it is no journal of a bay"):
            await self.bays()
        os.unlink(f"{self.state}/south/bay.journal")
        await self.bays()


    async def test_a_journal_that_has_lost_its_lines(self) -> None:
        """The bay that has it is named, and the other one is no part of it: its folder is as it was."""
        bays = await self.bays()
        await self.holds(bays, "scope", ticket=TICKET)
        await self.holds(bays, "oven", station="heat")
        await bays.close()
        os.truncate(f"{self.state}/south/bay.journal", 0)
        with self.assertRaisesRegex(labrun.JournalError, f"^{self.state}/south/bay.journal: it has no whole line, and by the records somebody holds: heat oven "):
            await self.bays()
        os.unlink(f"{self.state}/south/bay.journal")
        bays = await self.bays()
        self.assertEqual((await self.holds(bays, ticket=TICKET, comes_back=True)).instruments, ("scope",))
        self.assertEqual((await self.holds(bays, "oven", station="heat")).instruments, ("oven",))


class LooksAfter(OnBays):
    async def test_release_finds_the_bay(self) -> None:
        bays = await self.bays(state=False)
        for name in ("scope", "oven", "load-2"):
            await self.holds(bays, name, **({"station": "heat"} if name == "oven" else {}))
        self.assertEqual(await bays.release("heat", "me"), ("oven",))
        self.assertEqual(await bays.release("guest-2", "me"), ("load-2",))
        with self.assertRaisesRegex(labrun.NotHeld, "board holds nothing"):
            await bays.release("board", "me")
        with self.assertRaisesRegex(BadWish, "nobody is no station"):
            await bays.release("nobody", "me")
        with self.assertRaisesRegex(labrun.NotHeld, "guest-3 holds nothing"):
            await bays.release("guest-3", "me")
        with self.assertRaisesRegex(BadWish, "east is no bay of this broker: there are north, south"):
            await bays.release("guest-1", "me", bay="east")
        self.assertEqual(await bays.release("guest-1", "me", bay="north"), ("scope",))

    async def test_guests_of_one_name_from_before_are_told_apart(self) -> None:
        bays = await self.bays(state=False)
        scope, oven = await self.holds(bays, "scope"), await self.holds(bays, "oven")
        oven.name = "guest-1"
        with self.assertRaisesRegex(BadWish, "guest-1 is in north and south: say in which bay"):
            await bays.release("guest-1", "me")
        self.assertEqual(await bays.release("guest-1", "me", oven.number), ("oven",))
        self.assertEqual(await bays.release("guest-1", "me", bay="north"), ("scope",))

    async def test_an_instrument_of_any_bay_is_out_of_order(self) -> None:
        bays = await self.bays()
        await disable(bays.with_instrument("oven"), "oven", "cold", "me")
        with self.assertRaisesRegex(labrun.LabrunError, "oven has been out of order"):
            await self.holds(bays, "oven")
        self.assertEqual([it["out"] for it in bays.status()["instruments"] if it["name"] == "oven"], ["cold"])
        await enable(bays.with_instrument("oven"), "oven", "me")
        await self.holds(bays, "oven")
        with self.assertRaises(NoInstrument):
            bays.with_instrument("oevn")

    async def test_status_names_the_bay_of_each_row(self) -> None:
        bays = await self.bays(state=False)
        await self.holds(bays, "oven")
        status = bays.status()
        self.assertEqual([(it["name"], it["bay"]) for it in status["instruments"]][2:4], [("load-1", "north"), ("oven", "south")])
        self.assertEqual([(it["bay"], it["sessions"], it["overtakes"]) for it in status["bays"]], [("north", 0, 3), ("south", 1, 3)])
        self.assertEqual((status["bay"], status["sessions"]), ("physics", 1))
        with open(f"{TOP}/docs/FORMATS.md", encoding="utf-8") as file:
            part = file.read().partition("A lab of several bays has one key more")[2].partition("\n## ")[0]
        self.assertEqual([key for key in status["bays"][0] if f"`{key}`" not in part], [])
        self.assertEqual(set(status) - set(bays.of["north"].status()), {"bays"})
        # (as openapi.json says, too)
        asking.check(asking.OPENAPI["components"]["schemas"]["Bay"], {**status, "notice": bays.notice})
        # (each name once, and of a guest that row that says where it is)
        names = [it["name"] for it in status["stations"]]
        self.assertEqual(sorted(names), ["board", "guest-1", "guest-2", "heat"])
        self.assertEqual([(it["bay"], it["instruments"]) for it in status["stations"] if it["name"] == "guest-1"], [("south", ["oven"])])

    async def test_records_of_all_bays(self) -> None:
        bays = await self.bays()
        changes = bays.changes()
        seen = asyncio.ensure_future(anext(changes))
        await asyncio.sleep(0)
        await self.holds(bays, "oven")
        await asyncio.wait_for(seen, LIMIT)
        self.assertEqual([(it["bay"], it["what"]) for it in bays.history if it["what"] != "opened"], [("south", "asked"), ("south", "held")])
        await bays.close()
        again = await self.bays()
        self.assertIn(("south", "held"), [(it["bay"], it["what"]) for it in again.recent()])

    async def test_a_guard_is_told_of_instruments_of_two_bays(self) -> None:
        bays = await self.bays()
        await self.holds(bays, "scope")
        oven = await self.holds(bays, "oven", station="heat")
        self.assertIsNone(guarding.why_not(bays, SimpleNamespace(instruments=["scope", "oven"])))
        self.assertIn("no instrument oevn", guarding.why_not(bays, SimpleNamespace(instruments=["oevn"])) or "")
        told = guarding.holders(bays, ("scope", "oven"))
        first = await asyncio.wait_for(anext(told), LIMIT)
        self.assertEqual([(it.instrument, it.station) for it in first.holders], [("scope", "guest-1"), ("oven", "heat")])
        await bays.let_go(oven, self.owner)
        after = await asyncio.wait_for(anext(told), LIMIT)
        self.assertEqual([(it.instrument, it.token) for it in after.holders], [("oven", 0)])
        await told.aclose()  # type: ignore[attr-defined]
        self.assertIs(bays.with_all(["oven", "load-2"]), bays.of["south"])

    async def test_a_guard_is_told_of_each_for_how_long_it_holds(self) -> None:
        """Each bay counts its own tokens, so those of two that hold may be the same."""
        bays = await self.bays()
        scope = await self.holds(bays, "scope")
        oven = await self.holds(bays, "oven", station="heat")
        self.assertEqual(scope.token, oven.token)
        scope.since -= 7000
        told = guarding.holders(bays, ("scope", "oven"))
        first = await asyncio.wait_for(anext(told), LIMIT)
        its = {it.instrument: it.held_us / 1e6 for it in first.holders}
        # (it came to hold before the other one did, by milliseconds that each bay rounds by itself)
        self.assertGreater(its["scope"] - its["oven"], 6.99)
        await told.aclose()  # type: ignore[attr-defined]


class Changes(OnBays):
    async def applies(self, bays: Bays, text: str, of: str = "", check: bool = False, **its: str) -> list[str]:
        return await lab_applying.applies(bays, SimpleNamespace(bay=text, of=of, bays=its, only_check=check), "me")

    async def test_one_bay(self) -> None:
        bays = await self.bays(LAB + "[limits]\nnote = 7\n")
        scope = await self.holds(bays, "scope")
        self.assertEqual(await self.applies(bays, NORTH.replace('"load-1"', '"load-1", "load-9"')), ["instrument load-9: new", "guests: may use load-9, too"])
        self.assertEqual((await self.holds(bays, "load-9")).home, bays.of["north"])
        self.assertEqual((bays.of["north"].bay.limits.note, scope.state), (7, "holding"))

    async def test_which_one_is_said_by_the_file_or_the_command(self) -> None:
        bays = await self.bays(state=False)
        with self.assertRaisesRegex(BadWish, "the file doesn't say which bay it is, of north, south"):
            await self.applies(bays, SOUTH)
        self.assertEqual(await self.applies(bays, SOUTH.replace("count = 2", "count = 3"), "south"), ["guests: 3 hold at once, instead of 2"])
        with self.assertRaisesRegex(BadWish, "calls this bay south, and not north"):
            await self.applies(bays, NORTH, "south")

    async def test_a_fault_names_the_bay(self) -> None:
        bays = await self.bays(state=False)
        for more, why in (("[people]\nana = {unix = 1}\n", "^the file of the bay north: people: this is of the whole lab"), ("=", "^the file: line .*: ")):
            with self.assertRaisesRegex(BadWish, why):
                await self.applies(bays, NORTH + more)

    async def test_the_labs_file_is_not_for_one_of_its_bays(self) -> None:
        bays = await self.bays(state=False)
        for check in (True, False):
            with self.assertRaisesRegex(BadWish, r"the file is that of a lab, with all of its bays: of the bay north alone \(--bay\) its own file is applied"):
                await self.applies(bays, LAB, "north", check, north=NORTH, south=SOUTH.replace("count = 2", "count = 3"))
        self.assertEqual(bays.of["south"].bay.guests, 2)

    async def test_a_name_that_another_bay_has(self) -> None:
        bays = await self.bays(state=False)
        with self.assertRaisesRegex(CantChange, "oven is an instrument of north and of south"):
            await self.applies(bays, NORTH.replace('"load-1"', '"oven"'))
        self.assertEqual(bays.of["north"].bay.instruments, ("scope", "supply", "load-1"))

    async def test_who_is_in_the_way_of_one_keeps_all(self) -> None:
        bays = await self.bays(state=False)
        await self.holds(bays, "oven")
        news = {"north": NORTH.replace("count = 2", "count = 1"), "south": SOUTH.replace('"oven", ', "").replace('heat = ["oven"]', "").replace('slow = ["oven"]', "")}
        with self.assertRaisesRegex(CantChange, "oven is taken out"):
            await self.applies(bays, LAB, **news)
        self.assertEqual([it.bay.guests for it in bays.peers], [2, 2])
        # (the bay that is changed last, too)
        await self.holds(bays, "load-2")
        with self.assertRaisesRegex(CantChange, "^nothing has changed:\n2 guests hold in bay south, and by the file only 1 may$"):
            await self.applies(bays, LAB, north=NORTH.replace("count = 2", "count = 1"), south=SOUTH.replace("count = 2", "count = 1"))
        self.assertEqual([it.bay.guests for it in bays.peers], [2, 2])

    async def test_an_instrument_moves_and_people_change_at_once(self) -> None:
        bays = await self.bays(LAB, NORTH, SOUTH)
        people = f'[people]\nana = {{token = "sha256:{digest_of("a")}"}}\n'
        news = {"north": NORTH.replace('"load-1"', '"load-1", "load-2"'), "south": SOUTH.replace('"load-2", ', "")}
        told = ["person ana: new", "north: instrument load-2: new", "north: guests: may use load-2, too"]
        told += ["south: instrument load-2: taken out", "south: guests: may no longer use load-2"]
        for texts in (news, dict(reversed(news.items()))):  # (in a message they come in any order)
            self.assertEqual(await self.applies(bays, LAB + people, **texts, check=texts is news), told)
        self.assertEqual([list(it.people.of) for it in (bays.bay, *(one.bay for one in bays.peers))], [["ana"]] * 3)
        self.assertEqual(bays.with_instrument("load-2"), bays.of["north"])

    async def test_who_is_taken_out_of_the_lab_is_let_in_no_more(self) -> None:
        ana, bob = (f'{name} = {{token = "sha256:{digest_of(name)}"}}\n' for name in ("ana", "bob"))
        bays = await self.bays(f"{LAB}[people]\n{ana}{bob}", state=False)
        entrance = Entrance(bays)
        self.assertEqual(entrance.caller("Bearer ana", False).person, "ana")
        self.assertEqual((await self.holds(bays, "oven", person="ana")).person, "ana")
        await self.applies(bays, f"{LAB}[people]\n{bob}", north=NORTH, south=SOUTH)
        with self.assertRaises(NotLetIn):
            entrance.caller("Bearer ana", False)
        with self.assertRaises(labrun.LabrunError):
            await self.holds(bays, "load-2", person="ana")
        self.assertEqual(entrance.caller("Bearer bob", False).person, "bob")
        # (nor does one who isn't an operator end what another holds)
        with self.assertRaises(NotAllowed):
            await bays.release("guest-1", "bob", person="bob")

    async def test_bays_come_and_go_with_a_restart(self) -> None:
        bays = await self.bays(state=False)
        with self.assertRaisesRegex(CantChange, "the lab has the bays north, south, and the file north: .* with the next start"):
            await self.applies(bays, LAB.replace('south = "more/south.toml"', ""), north=NORTH)
        alone = bays.of["north"]
        with self.assertRaisesRegex(BadWish, "this broker keeps one"):
            await lab_applying.applies(alone, SimpleNamespace(bay=LAB, of="", bays={"north": NORTH}, only_check=False), "me")
