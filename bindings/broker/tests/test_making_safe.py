"""Commands that are run after a session, before the next one gets its instruments."""

import asyncio
import os
import random
import shlex
import subprocess
import tempfile
import time
import unittest
from pathlib import Path
from typing import Any, Optional
from unittest import mock

from labrun import JournalError, NotHeld
from labrun_broker import making_safe
from labrun_broker.applying import apply
from labrun_broker.bay import BayFault, bay_of
from labrun_broker.errors import CantChange, OutOfOrder
from labrun_broker.errors import TimeoutError as TimedOut
from labrun_broker.keeping import Keeping
from labrun_broker.outage import disable, enable
from labrun_broker.standing import Standings
from labrun_broker.telling import lines_of
from labrun_broker.wishes import Ended, Wish
from tests.brokers import BAY, COMMAND, LIMIT, SOON, OnBroker, until
from tests.test_keeping import TICKET, OnQuiet, Owner, eventually, how, whats

OTHER = "the ticket of another one"
# it notes that it began, and ends once there is a file `ended`, with the status that stands in that
SCRIPT = """#!/bin/sh
echo "$$ $LABRUN_INSTRUMENT $LABRUN_STATION $LABRUN_SESSION $LABRUN_BY $LABRUN_TOKEN $LABRUN_ENDED $LABRUN_SCOPE" >> {folder}/begun
echo {folder} says: $1
while [ ! -e {folder}/ended ]; do sleep 0.01; done
exit $(cat {folder}/ended)
"""


class Files(unittest.TestCase):
    def test_read(self) -> None:
        bay = bay_of('on_release_limit = "2min"\n' + BAY + "[on_release]\nscope = \"safe-state 'the scope'\"\n")
        self.assertEqual((bay.on_release, bay.on_release_limit), ({"scope": "safe-state 'the scope'"}, 120.0))
        self.assertEqual((bay_of(BAY).on_release, bay_of(BAY).on_release_limit), ({}, 30.0))

    def test_faults(self) -> None:
        for text, why in (
            (BAY + "[on_release]\nscop = \"true\"\n", "on_release.scop: scop is none of the bay's instruments"),
            (BAY + "[on_release]\nscope = 5\n", "on_release.scope: a command in one line is wanted, as"),
            (BAY + "[on_release]\nscope = [\"true\"]\n", "on_release.scope: a command in one line is wanted, as"),
            (BAY + '[on_release]\nscope = "true\\nfalse"\n', "on_release.scope: a command in one line is wanted, as"),
            (BAY + "[on_release]\nscope = \"\"\n", "on_release.scope: it is empty"),
            (BAY + "[on_release]\nscope = \"  \"\n", "on_release.scope: it is empty"),
            (BAY + "[on_release]\nscope = \"'' off\"\n", "on_release.scope: it is empty"),
            (BAY + "[on_release]\nscope = \"say 'off\"\n", "on_release.scope: .* is no command: no closing quotation"),
            ("on_release = \"true\"\n" + BAY, r"on_release: a table is wanted: \[on_release\]"),
            ("on_release_limit = 0\n" + BAY, "on_release_limit: a span is wanted"),
            ("on_release_limit = -1\n" + BAY, "on_release_limit: a span is wanted"),
            ("on_release_limit = \"soon\"\n" + BAY, "on_release_limit: a span is wanted"),
        ):
            with self.subTest(text), self.assertRaisesRegex(BayFault, why):
                bay_of(text)


class OnScript(OnQuiet):
    """The scope has a command that ends when a test says so."""

    async def asyncSetUp(self) -> None:
        self.at, self.owner = self.folder(), Owner()
        with open(f"{self.at}/safe", "w", encoding="utf-8") as file:
            file.write(SCRIPT.format(folder=self.at))
        os.chmod(f"{self.at}/safe", 0o755)
        self.state = f"{self.at}/state"
        self.said: list[str] = []

    def bay(self, more: str = "", first: str = "") -> str:
        return f'{first}{BAY}[on_release]\nscope = "{self.at}/safe 5"\n{more}'

    async def opened(self, bay: Optional[str] = None, grace: float = 60.0, state: Optional[str] = "") -> Keeping:
        keeping = Keeping(bay_of(self.bay() if bay is None else bay), self.state if state == "" else state, grace)
        keeping.says = self.said.append
        await keeping.open()
        self.addAsyncCleanup(keeping.close)
        return keeping

    def begun(self) -> list[list[str]]:
        """What each command had, that has begun."""
        try:
            with open(f"{self.at}/begun", encoding="utf-8") as file:
                return [line.split() for line in file]
        except FileNotFoundError:
            return []

    def ends(self, status: int = 0) -> None:
        with open(f"{self.at}/ended.new", "w", encoding="utf-8") as file:
            file.write(str(status))
        os.replace(f"{self.at}/ended.new", f"{self.at}/ended")

    async def asks(self, keeping: Keeping, *instruments: str, **more: Any) -> "asyncio.Task[Any]":
        task = asyncio.create_task(keeping.hold(Wish(instruments, **more), self.owner))
        await asyncio.sleep(0.02)
        return task


class AfterASession(OnScript):
    async def test_kept_for_one_that_waits_for_it(self) -> None:
        """Who waits behind one that waits for what is being made safe isn't told that somebody holds that."""
        keeping = await self.opened(self.bay(first="overtakes = 0\n"))
        held = await keeping.hold(Wish(("scope",), station="board", by="ann"), self.owner)
        both, supply = await self.asks(keeping, "scope", "supply"), await self.asks(keeping, "supply")
        await keeping.let_go(held, self.owner)
        await eventually(self.begun)
        text = how(keeping, "guest-2")["waits_for"][0]["text"]
        made_safe = rf"scope, being made safe for \d\.\d s after session {held.number} of board \(ann\)"
        self.assertRegex(text, f"^supply is kept for guest-1 until it holds, since it asked first and it waits for {made_safe}$")
        self.ends()
        await keeping.let_go(await both, self.owner)
        await eventually(supply.done)
        await keeping.let_go(await supply, self.owner)

    async def test_the_next_one_waits(self) -> None:
        """Who lets go is answered at once; the next one holds once the command has ended; and all see that the scope is being made safe."""
        for state in (None, ""):
            with self.subTest(state):
                keeping = await self.opened(state=state)
                held = await keeping.hold(Wish(("scope", "supply"), station="board", by="ann smith"), self.owner)
                number, token = str(held.number), str(held.token)
                await asyncio.wait_for(keeping.let_go(held, self.owner), SOON)
                scope, supply = await self.asks(keeping, "scope", by="bob"), await self.asks(keeping, "supply")
                await eventually(self.begun)
                self.assertFalse(scope.done() or supply.done())
                self.assertEqual(self.begun()[-1][1:], ["scope", "board", number, "ann", "smith", token, "let_go"])
                self.assertIsNotNone(how(keeping, "scope")["being_made_safe"])
                self.assertEqual((how(keeping, "supply")["being_made_safe"], how(keeping, "board")["state"]), (None, "ending"))
                texts = [how(keeping, name)["waits_for"][0]["text"] for name in ("guest-1", "guest-2")]
                self.assertRegex(texts[0], rf"^scope is being made safe for \d\.\d s after session {number} of board \(ann smith\)$")
                self.assertRegex(texts[1], rf"^supply is free once scope is made safe after session {number} of board \(ann smith\)$")
                rows = "\n".join(lines_of(keeping.status()))
                self.assertRegex(rows, r"(?m)^scope +\(being made safe\) +\d\.?\d* s .*\nsupply +\(free soon, after board\) +\d\.?\d* s ")
                with self.assertRaisesRegex(NotHeld, "board holds nothing: what it had is being made safe"):
                    await keeping.release("board", "eve")
                self.ends()
                self.assertEqual(((await scope).instruments, (await supply).instruments), (("scope",), ("supply",)))
                self.assertEqual(whats(keeping, "board"), ["asked", "held", "let_go", "made_safe"])
                [text] = [it["text"] for it in keeping.history if it["what"] == "made_safe"]
                self.assertRegex(text, rf"^{self.at}/safe 5 ended well after .* s: {self.at} says: 5$")
                self.assertEqual((how(keeping, "board")["state"], self.said), ("idle", []))
                await keeping.close()
                os.unlink(f"{self.at}/begun"), os.unlink(f"{self.at}/ended")

    async def test_what_is_told_of_several(self) -> None:
        """Of two commands, and of the place; and of the moment in which both have ended, and that is only to be written."""
        whole = f'{BAY}[on_release]\nscope = "{self.at}/safe 5"\nsupply = "{self.at}/safe 6"\n'
        for guests, begins, ends in (
            (4, "load-1 is free once {} after session 1 of guest-1 (ann)", ""),
            (1, "the only place for a guest is taken: guest-1 by ann (until {})", " (guests.count says how many hold at once)"),
        ):
            with self.subTest(guests):
                keeping = await self.opened(whole.replace("count = 4", f"count = {guests}"), state=None)
                held = await keeping.hold(Wish(("scope", "supply", "load-1"), by="ann"), self.owner)
                await keeping.let_go(held, self.owner)
                await eventually(lambda: len(self.begun()) == 2)
                waits = await self.asks(keeping, "load-1")
                (waiter,) = [it for it in keeping.by_number.values() if it.state == "waiting"]
                self.assertEqual(Standings(keeping).why(waiter), begins.format("scope and supply are made safe") + ends)
                held.unsafe, unsafe = {}, held.unsafe
                self.assertEqual(Standings(keeping).why(waiter), begins.format("that is written") + ends)
                held.unsafe = unsafe
                self.ends()
                self.assertEqual((await waits).instruments, ("load-1",))
                await keeping.close()
                os.unlink(f"{self.at}/begun"), os.unlink(f"{self.at}/ended")

    async def test_each_way_to_end(self) -> None:
        """Taken away by somebody, by its limit, or because its client is gone: its client is told at once, and the next one waits."""
        for way, why in (("taken_away", "by eve"), ("limit", "longer than its limit of 0.1 s"), ("gone", "its client was gone for 0.2 s")):
            with self.subTest(way):
                first = 'gone = "release"\n' + ('limit = "0.1s"\n' if way == "limit" else "")
                keeping, owner = await self.opened(self.bay(first=first), 0.2, None), Owner()
                held = await keeping.hold(Wish(("scope",), ticket=TICKET), owner)
                if way == "gone":
                    keeping.gone(held, owner)
                elif way == "taken_away":
                    self.assertEqual(await keeping.release("guest-1", "eve"), ("scope",))
                else:
                    await asyncio.sleep(0.3)
                    self.assertTrue(held.holds, "nobody waits")
                waits = await self.asks(keeping, "scope", station="board", limit=60.0)
                await eventually(lambda: len(self.begun()) > 0)
                self.assertEqual((self.begun()[0][-1], waits.done(), how(keeping, "guest-1")["state"]), (way, False, "ending"))
                self.assertEqual(len(owner.told), way != "gone")
                with self.assertRaisesRegex(Ended, f"the session was taken away .*{why}"):
                    await keeping.hold(Wish(ticket=TICKET, comes_back=True), owner)
                self.ends()
                self.assertEqual((await waits).name, "board")
                self.assertRegex([it["text"] for it in keeping.history if it["what"] == "taken"][0], why)
                await keeping.close()
                os.unlink(f"{self.at}/begun"), os.unlink(f"{self.at}/ended")

    async def test_back_before_the_grace_is_over(self) -> None:
        """Then nothing is run, and it goes on to hold."""
        keeping = await self.opened(self.bay(first='gone = "release"\n'), 1.5)
        held = await keeping.hold(Wish(("scope",), ticket=TICKET), self.owner)
        keeping.gone(held, self.owner)
        await asyncio.sleep(0.1)
        await keeping.hold(Wish(ticket=TICKET, comes_back=True), self.owner)
        await asyncio.sleep(1.8)
        self.assertEqual((held.state, self.begun()), ("holding", []))

    async def test_failures(self) -> None:
        """Whatever goes wrong, the scope is out of order, which is said; nobody gets it until it is in order again, and others go round it."""
        for line, why, limit in (
            (f"{self.at}/safe 5", rf"{self.at}/safe 5 failed with status 3: {self.at} says: 5", 30),
            ("sleep 60", r"sleep 60 hadn't ended after 0\.2 s, and was killed", 0.2),
            (f"{self.at}/nothing there", "nothing there can't be run: it isn't there, or is no program", 30),
            ("sh -c 'kill -9 $$'", "was ended by signal 9", 30),
        ):
            with self.subTest(line):
                self.ends(3)
                bay = BAY + f"[on_release]\nscope = \"{line}\"\n"
                keeping = await self.opened(f'on_release_limit = "{limit}s"\n' + bay, state=None)
                held = await keeping.hold(Wish(("scope",), station="board"), self.owner)
                waits = await self.asks(keeping, "scope")
                chooses = asyncio.create_task(keeping.hold(Wish(any_of=(("scope", "load-1"), ("load-1",))), self.owner))
                load = await keeping.hold(Wish(("load-2",)), self.owner)
                await keeping.let_go(held, self.owner)
                with self.assertRaisesRegex(OutOfOrder, f"^scope has been out of order for .*: it wasn't made safe after session 1 of board: .*{why}.* .says the broker; once it is mended: labrun-broker enable scope.$"):
                    await asyncio.wait_for(waits, LIMIT)
                self.assertEqual(((await chooses).instruments, load.instruments), (("load-1",), ("load-2",)))
                self.assertRegex(self.said.pop(), f"^scope is out of order: it wasn't made safe after .*{why}.* .says the broker.$")
                self.assertRegex(how(keeping, "scope")["out"], why)
                with self.assertRaisesRegex(OutOfOrder, "it wasn't made safe"):
                    await keeping.hold(Wish(("scope",)), self.owner)
                await enable(keeping, "scope", "eve")
                await keeping.hold(Wish(("scope",), station="radio"), self.owner)
                await keeping.close()
                self.said.clear()

    async def test_no_thread_to_wait_with(self) -> None:
        """Then it may have begun, and nobody knows how it ended."""
        keeping = await self.opened(BAY + "[on_release]\nscope = \"true\"\n")
        held = await keeping.hold(Wish(("scope",)), self.owner)
        with mock.patch.object(asyncio, "create_subprocess_exec", side_effect=RuntimeError("can't start new thread")):
            await keeping.let_go(held, self.owner)
            await eventually(lambda: how(keeping, "scope")["holder"] is None)
        self.assertRegex(how(keeping, "scope")["out"], "^it wasn't made safe after .*: true can't be waited for: can't start new thread$")

    async def test_a_broker_that_was_stopped_for_longer_than_the_limit(self) -> None:
        """It looks only then. What had ended well by that moment isn't said to have been killed."""
        process = await asyncio.create_subprocess_exec("true")
        ends = asyncio.create_task(making_safe._ends(process, 0.2))
        await asyncio.sleep(0)
        # (the loop stands, as in a process that is stopped)
        time.sleep(1)
        self.assertEqual(await ends, "")
        with subprocess.Popen(["true"]) as unheard:
            until(lambda: making_safe._has_ended(unheard))  # type: ignore[arg-type]
            self.assertIsNone(unheard.returncode)
        with subprocess.Popen(["sleep", "60"]) as goes_on:
            self.assertFalse(making_safe._has_ended(goes_on))  # type: ignore[arg-type]
            goes_on.kill()

    async def test_what_was_said_of_it_before(self) -> None:
        keeping = await self.opened(BAY + "[on_release]\nscope = \"false\"\n")
        held = await keeping.hold(Wish(("scope",)), self.owner)
        await disable(keeping, "scope", "calibration until Friday", "ann")
        await keeping.let_go(held, self.owner)
        await eventually(lambda: how(keeping, "scope")["holder"] is None)
        self.assertRegex(how(keeping, "scope")["out"], "^it wasn't made safe .*: false failed with status 1; before: calibration until Friday$")

    async def test_side_by_side(self) -> None:
        """Each has its own command; all together take no longer than one."""
        line = "sh -c 'sleep 3; echo $LABRUN_INSTRUMENT'"
        keeping = await self.opened(BAY + "[on_release]\n" + "".join(f"{it} = \"{line}\"\n" for it in ("scope", "supply", "load-1")))
        begun, held = time.monotonic(), await keeping.hold(Wish(("scope", "supply", "load-1", "load-2")), self.owner)
        await keeping.let_go(held, self.owner)
        await keeping.hold(Wish(("load-2",), timeout=LIMIT), self.owner)
        self.assertTrue(3 <= time.monotonic() - begun < 8.5)
        its = [(it["instruments"], it["text"].rpartition(" ")[2]) for it in keeping.history if it["what"] == "made_safe"]
        self.assertCountEqual(its, [(["scope"], "scope"), (["supply"], "supply"), (["load-1"], "load-1")])

    async def test_what_a_command_leaves_behind(self) -> None:
        """Nobody waits for what it has started and left, whatever that says; and of much that it says the end is kept."""
        keeping = await self.opened(BAY + "[on_release]\nscope = \"sh -c 'sleep 30 & yes | head -c 3000000; echo the end'\"\n", state=None)
        begun = time.monotonic()
        await keeping.let_go(await keeping.hold(Wish(("scope",)), self.owner), self.owner)
        await keeping.hold(Wish(("scope",), timeout=LIMIT), self.owner)
        self.assertLess(time.monotonic() - begun, 25)
        [text] = [it["text"] for it in keeping.history if it["what"] == "made_safe"]
        self.assertRegex(text, " y y the end$")
        self.assertLess(len(text), 450)

    async def test_the_same_ticket(self) -> None:
        """Who asks anew with it waits until the last session is over, no longer than it wants."""
        keeping = await self.opened()
        held = await keeping.hold(Wish(("scope",), ticket=TICKET), self.owner)
        await keeping.let_go(held, self.owner)
        with self.assertRaisesRegex(TimedOut, "the last session with this ticket isn't over until scope is made safe$"):
            await keeping.hold(Wish(("load-1",), ticket=TICKET, timeout=0.05), self.owner)
        with self.assertRaisesRegex(TimedOut, "scope is being made safe"):
            await keeping.hold(Wish(("scope",), ticket=OTHER, timeout=0.0), self.owner)
        waits = await self.asks(keeping, "load-1", ticket=TICKET, timeout=LIMIT)
        self.assertFalse(waits.done())
        self.ends()
        self.assertEqual((await waits).instruments, ("load-1",))

    async def test_who_was_never_told(self) -> None:
        """It was at no instrument, and nothing is run."""
        keeping = await self.opened()
        held = await keeping.hold(Wish(("scope",)), self.owner)
        waits = await self.asks(keeping, "scope")
        waits.cancel()
        await asyncio.gather(waits, return_exceptions=True)
        self.assertEqual((held.state, self.begun()), ("holding", []))


class WhenTheBayChanges(OnScript):
    async def test_while_it_runs(self) -> None:
        """The command goes on, and what is being made safe isn't taken out; another command counts from the next session on."""
        keeping = await self.opened()
        held = await keeping.hold(Wish(("scope",), station="radio"), self.owner)
        await keeping.let_go(held, self.owner)
        await eventually(self.begun)
        for what, bay in (
            ("radio may no longer use scope", self.bay().replace('radio = ["scope"]', 'radio = ["load-1"]')),
            ("radio is taken out", self.bay().replace('radio = ["scope"]', "")),
        ):
            with self.assertRaisesRegex(CantChange, f"\n{what}, and what session 1 of radio had is being made safe$"):
                await apply(keeping, bay, "eve", False)
        with self.assertRaisesRegex(CantChange, "scope is taken out, and what session 1 of radio had is being made safe"):
            await apply(keeping, self.bay().replace('"scope", ', "").replace('radio = ["scope"]', 'radio = ["load-1"]').split("[on_release]")[0], "eve", False)
        other = BAY + "[on_release]\nscope = \"false\"\nsupply = \"true\"\n"
        told = await apply(keeping, "on_release_limit = 5\n" + other, "eve", False)
        self.assertEqual(
            told,
            [
                f"on_release.scope (for sessions that end from now on): false, instead of {self.at}/safe 5",
                "on_release.supply (for whoever asks from now on): true, instead of no command",
                "on_release_limit: 5 s, instead of 30 s",
            ],
        )
        waits = await self.asks(keeping, "scope")
        self.assertFalse(waits.done())
        self.ends()
        await keeping.let_go(await waits, self.owner)
        with self.assertRaisesRegex(OutOfOrder, "false failed with status 1"):
            await keeping.hold(Wish(("scope",), timeout=LIMIT), self.owner)

    async def test_another_command(self) -> None:
        """It is run of who holds, too, and that is said."""
        keeping = await self.opened()
        held = await keeping.hold(Wish(("scope",), station="radio"), self.owner)
        told = await apply(keeping, BAY + '[on_release]\nscope = "false"\n', "eve", False)
        self.assertEqual(told, [f"on_release.scope (for sessions that end from now on): false, instead of {self.at}/safe 5"])
        await keeping.let_go(held, self.owner)
        with self.assertRaisesRegex(OutOfOrder, "false failed with status 1"):
            await keeping.hold(Wish(("scope",), timeout=LIMIT), self.owner)
        self.assertEqual(self.begun(), [])

    async def test_a_command_less(self) -> None:
        """Who holds what has none any more lets go as ever; and its limit counts all the same."""
        keeping = await self.opened(self.bay(first='limit = "0.2s"\n'), state=None)
        held = await keeping.hold(Wish(("scope",), station="board"), self.owner)
        await apply(keeping, 'limit = "0.2s"\n' + BAY, "eve", False)
        other = await keeping.hold(Wish(("scope",), timeout=LIMIT, limit=0.1), self.owner)
        self.assertEqual((held.state, self.begun()), ("over", []))
        await keeping.hold(Wish(("scope",), timeout=LIMIT), self.owner)
        self.assertEqual(other.state, "over")


class OverRestarts(OnScript):
    async def test_ended_while_it_runs(self) -> None:
        """The next broker runs it again before anybody gets the scope; a third knows that it is done. The client's end stays as it was."""
        for way, kind in (("let_go", "LetGo"), ("taken", "TakenAway")):
            with self.subTest(way):
                keeping = await self.opened()
                held = await keeping.hold(Wish(("scope",), station="radio", ticket=TICKET, by="ann"), self.owner)
                await (keeping.let_go(held, self.owner) if way == "let_go" else keeping.release("radio", "eve"))
                await eventually(self.begun)
                await keeping.close()
                [[pid, *_]] = self.begun()
                await eventually(lambda: not os.path.exists(f"/proc/{pid}"))
                again = await self.opened()
                waits = await self.asks(again, "scope", timeout=LIMIT)
                await eventually(lambda: len(self.begun()) == 2)
                self.assertEqual((waits.done(), how(again, "radio")["state"], how(again, "radio")["by"]), (False, "ending", "ann"))
                self.assertEqual(self.begun()[0][1:], self.begun()[1][1:], "it has the same words")
                with self.assertRaises(Ended) as raised:
                    await again.hold(Wish(ticket=TICKET, comes_back=True), self.owner)
                self.assertEqual(raised.exception.kind, kind)
                self.ends()
                await again.let_go(await waits, self.owner)
                await eventually(lambda: how(again, "scope")["holder"] is None)
                await again.close()
                third = await self.opened()
                self.assertEqual((len(self.begun()), how(third, "scope")["holder"]), (3, None))
                whats_of = [it["what"] for it in third.recent() if it["session"] == held.number]
                self.assertEqual(whats_of, ["asked", "held", way, "made_safe"])
                await third.close()
                os.unlink(f"{self.at}/begun"), os.unlink(f"{self.at}/ended")
                self.state += "-2"

    async def test_in_a_new_file(self) -> None:
        """A journal that begins anew meanwhile says that the session is over, too."""
        keeping = await self.opened()
        held = await keeping.hold(Wish(("scope",), station="radio", ticket=TICKET), self.owner)
        await keeping.let_go(held, self.owner)
        await apply(keeping, self.bay().replace("count = 4", "count = 5"), "eve", False)
        self.assertEqual(keeping._shell.turns.count, 1)
        await keeping.close()
        again = await self.opened()
        self.assertEqual(how(again, "radio")["state"], "ending")

    async def test_who_holds(self) -> None:
        """It holds on, with its limit; the command is run once it ends."""
        bay = self.bay(first='limit = "1.5s"\n')
        keeping = await self.opened(bay)
        await keeping.hold(Wish(("scope",), station="radio", ticket=TICKET), self.owner)
        await keeping.close()
        again, owner = await self.opened(bay), Owner()
        held = await again.hold(Wish(ticket=TICKET, comes_back=True), owner)
        self.assertEqual((held.limit, held.state, self.begun()), (1.5, "holding", []))
        waits = await self.asks(again, "scope")
        await eventually(self.begun)
        self.assertEqual((self.begun()[0][-1], waits.done()), ("limit", False))
        self.assertRegex(owner.told[0], "longer than its limit of 1.5 s")
        self.ends()
        await waits

    async def test_who_is_gone(self) -> None:
        """Its session ends by the grace, from when the next broker began, and no sooner than its command has ended."""
        bay = self.bay(first='gone = "release"\n')
        keeping = await self.opened(bay, 1.5)
        await keeping.hold(Wish(("scope",), station="radio", ticket=TICKET), self.owner)
        await keeping.close()
        again = await self.opened(bay, 1.5)
        waits = await self.asks(again, "scope")
        self.assertEqual((how(again, "radio")["state"], self.begun()), ("gone", []))
        await eventually(self.begun)
        await asyncio.sleep(0.5)
        self.assertEqual((self.begun()[0][-1], waits.done(), how(again, "radio")["state"]), ("gone", False, "ending"))
        self.ends()
        await waits

    async def test_that_it_is_out_of_order_is_written_first(self) -> None:
        """A disk that doesn't take it keeps the scope, until it does."""
        keeping = await self.opened()
        held = await keeping.hold(Wish(("scope",), station="radio"), self.owner)
        state, fails, tries = keeping._opened.state, [True], list[int]()
        assert state is not None
        keeps = state.keeps

        def may_fail(places: Any) -> None:
            tries.append(1)
            if fails[0]:
                raise OSError(28, "No space left on device")
            keeps(places)

        state.keeps = may_fail  # type: ignore[method-assign]
        self.enterContext(mock.patch.object(making_safe, "AGAIN", 0.05))
        self.ends(3)
        await keeping.let_go(held, self.owner)
        await eventually(lambda: len(tries) > 3)
        self.assertEqual((how(keeping, "scope")["holder"], how(keeping, "scope")["out"]), ("radio", None))
        fails[0] = False
        await eventually(lambda: how(keeping, "scope")["holder"] is None)
        self.assertRegex(how(keeping, "scope")["out"], "failed with status 3")


class Brokers(OnBroker):
    def test_killed_while_it_runs(self) -> None:
        """The command dies with its broker; the next broker runs it once more, and until it has ended well nobody gets the scope."""
        folder = self.enterContext(tempfile.TemporaryDirectory())
        with open(f"{folder}/safe", "w", encoding="utf-8") as file:
            file.write(SCRIPT.format(folder=folder))
        os.chmod(f"{folder}/safe", 0o755)
        begun = lambda: Path(f"{folder}/begun").read_text("utf-8").split("\n")[:-1] if os.path.exists(f"{folder}/begun") else []
        broker = self.broker(f'{BAY}[on_release]\nscope = "{folder}/safe 5"\n[guards]\nscope = "bench-1:5025 by-host"\n', "--state", "FOLDER/state")
        done = broker.ran("hold", "scope", "supply", "--station", "board", "--", "true")
        self.assertEqual(done.returncode, 0)
        self.assertRegex(until(begun)[0], r"^\d+ scope board 1 .* \d+ let_go bench-1:5025$")
        waits = broker.started("hold", "scope", "--", "sh", "-c", f"cat {folder}/ended")
        # (from when it is known to the broker it tries again for longer)
        until(lambda: "guest-1" in broker.ran("status").stdout)
        for count in range(1, 4):
            broker.kill()
            until(lambda: not os.path.exists(f"/proc/{begun()[-1].split()[0]}"))
            broker.begin()
            until(lambda: len(begun()) == count + 1)
            self.assertIsNone(waits.poll())
            said = broker.ran("status").stdout
            self.assertRegex(said, r"\nscope +\(being made safe\) +\d+ (s|min)")
            self.assertRegex(said, r"\nboard +ending +\d+ (s|min \d+ s) +scope supply ")
        with open(f"{folder}/ended.new", "w", encoding="utf-8") as file:
            file.write("0")
        os.replace(f"{folder}/ended.new", f"{folder}/ended")
        # (behind the one that waited it is run once more)
        of_board = lambda: sum(" board 1 " in it for it in begun())
        self.assertEqual((waits.communicate(timeout=LIMIT)[0], waits.returncode, of_board()), ("0", 0, 4))

    def test_killed_at_any_moment(self) -> None:
        """Between two sessions of the scope its command ends well, wherever the broker is killed."""
        folder, dice = self.enterContext(tempfile.TemporaryDirectory()), random.Random(1)
        with open(f"{folder}/safe", "w", encoding="utf-8") as file:
            file.write(f"#!/bin/sh\nsleep 0.1\necho safe >> {folder}/log\n")
        os.chmod(f"{folder}/safe", 0o755)
        bay = f'gone = "release"\n{BAY}[on_release]\nscope = "{folder}/safe"\n'
        broker = self.broker(bay, "--state", "FOLDER/state", "--sync", "none", "--grace", "20")
        hold = f"{shlex.join(COMMAND)} hold scope --quiet -- sh -c 'echo at >> {folder}/log; sleep 0.05'"
        environment = {**os.environ, "LABRUN_BROKER": broker.address}
        # (one that begins while the broker takes long to begin tries again)
        clients = [subprocess.Popen(["sh", "-c", f"{hold}; while [ $? = 69 ]; do {hold}; done"], env=environment) for _ in range(6)]
        for _ in range(6):
            time.sleep(dice.uniform(0, 0.6))
            broker.kill()
            broker.begin()
        self.assertEqual([client.wait(LIMIT * 5) for client in clients], [0] * 6)
        with open(f"{folder}/log", encoding="utf-8") as file:
            log = file.read().split()
        self.assertFalse([at for at, (one, two) in enumerate(zip(log, log[1:])) if one == two == "at"], log)

    def test_said(self) -> None:
        """A command that fails is told of on standard error, in `status`, and to who asks; `enable` brings the scope back."""
        broker = self.broker(BAY + "[on_release]\nscope = \"ls /nowhere\"\n", "--state", "FOLDER/state")
        self.assertEqual(broker.ran("hold", "scope", "--", "true").returncode, 0)
        why = r"it wasn't made safe after session 1 of guest-1: ls /nowhere failed with status 2: ls: cannot access '/nowhere': No such file or directory"
        until(lambda: "out of order" in broker.ran("status").stdout)
        self.assertRegex(broker.ran("status").stdout, rf"\nscope has been out of order for .* s: {why} \(says the broker; once it is mended: labrun-broker enable scope\)\n")
        done = broker.ran("hold", "scope", "--", "true")
        self.assertEqual(done.returncode, 1)
        self.assertRegex(done.stderr, why)
        broker.kill()
        self.assertRegex(broker.said, rf"labrun-broker: scope is out of order: {why} \(says the broker\)\n")
        broker.begin()
        self.assertRegex(broker.ran("status").stdout, why)
        self.assertEqual(broker.ran("enable", "scope").returncode, 0)
        self.assertEqual(broker.ran("hold", "scope", "--", "true").returncode, 0)


if __name__ == "__main__":
    unittest.main()
