"""A bay that changes while sessions hold and wait."""

import asyncio
import json
import os
import signal
import subprocess
import sys
import tempfile
import threading
import time
import unittest
from types import SimpleNamespace
from typing import Any, Optional
from unittest import mock

from labrun import JournalError
from labrun.store import FileStore
from labrun_broker import places, serve
from labrun_broker.aside import Aside
from labrun_broker.applying import apply, changes
from labrun_broker.bay import BayFault, bay_of
from labrun_broker.errors import BadWish, CantChange, NoInstrument
from labrun_broker.folder import Folder
from labrun_broker.keeping import Keeping
from labrun_broker.outage import disable, enable
from labrun_broker.places import Places
from labrun_broker.wishes import Wish
from tests.brokers import BAY, LIMIT, SOON, TOP, Broker, OnBroker, station, until
from tests.test_keeping import TICKET, OnFolder, Owner, how

MORE = """
bay = "north"
instruments = ["scope", "supply", "load-1", "load-2", "laser"]
gone = "release"
[stations]
board = ["scope", "supply"]
radio = ["scope", "laser"]
oven = ["laser"]
[guests]
count = 6
[limits]
note = 100
"""
LESS = """
bay = "north"
instruments = ["supply", "load-1", "load-2"]
[stations]
board = ["supply"]
[guests]
count = 4
"""


class OfAWholeLife(unittest.TestCase):
    def test_names(self) -> None:
        """Who wants one too many is told which names may be had again."""

        def bay(*names: str) -> str:
            return "bay = 'north'\ninstruments = [" + ", ".join(f"'{it}'" for it in names) + "]\n[guests]\ncount = 1\n"

        most = [f"load-{it}" for it in range(64)]
        full = Places().with_bay(bay_of(bay(*most)))
        with self.assertRaisesRegex(BayFault, r"^instruments: 64 in the file and 1 no longer in it; a state folder, or etcd, has places for 64 of both in all its life: use the name of one that is no longer in it \(load-0\), or begin anew"):
            full.with_bay(bay_of(bay(*most[1:], "oven")))
        again = full.with_bay(bay_of(bay(*most[2:]))).with_bay(bay_of(bay(*most[1:])))
        self.assertEqual((again.instruments, again.stations), (full.instruments, full.stations))


class TakenOut(OnFolder):
    """Whoever asks for an instrument that was taken out is told so, and not that another one may be meant."""

    async def why(self, keeping: Keeping, name: str) -> str:
        with self.assertRaises(NoInstrument) as caught:
            await keeping.hold(Wish((name,)), Owner())
        for does in (disable(keeping, name, "", "ann"), enable(keeping, name, "ann")):
            with self.assertRaises(NoInstrument) as other:
                await does
            self.assertEqual(str(other.exception), str(caught.exception))
        return str(caught.exception)

    async def test_by_whom_and_when(self) -> None:
        """Also after a restart; by another file with which the broker began, nobody is named; and one that is back is as any."""
        folder, there = self.folder(), "There are supply, load-1, load-2"
        keeping = await self.keeping(folder)
        await apply(keeping, LESS, "ana: ana@bench-3 4711 labrun-broker", False)
        told = rf"^scope is no instrument of this bay any more: it was taken out \d\d? s ago by ana: ana@bench-3 4711 labrun-broker\. {there}$"
        with mock.patch.object(places.time, "time", lambda now=time.time: now() + 2 * 3600):
            self.assertRegex(await self.why(keeping, "scope"), r"^scope is .* taken out 2 h 0 min ago by ana: ana@")
        self.assertRegex(await self.why(keeping, "scope"), told)
        # (another change doesn't take it out once more)
        await apply(keeping, LESS.replace("count = 4", "count = 5"), "eve", False)
        await keeping.close()
        again = await self.keeping(folder, LESS)
        self.assertRegex(await self.why(again, "scope"), told)
        await again.close()
        fewer = await self.keeping(folder, LESS.replace(', "load-2"', ""))
        self.assertRegex(
            await self.why(fewer, "load-2"),
            r"^load-2 is no instrument of this bay any more: it was taken out \d\d? s ago by the file with which the broker began\. There are supply, load-1$",
        )
        await apply(fewer, BAY, "ana", False)
        await fewer.hold(Wish(("scope",)), Owner())

    async def test_of_an_older_broker_s_folder(self) -> None:
        """It doesn't say when, nor who did it; and goes on as it is, also where nothing can be written."""
        folder = self.folder()
        await (await self.keeping(folder)).close()
        with open(path := f"{folder}/bay.json", encoding="utf-8") as file:
            its = json.load(file)
        self.assertEqual(its.pop("former"), {})
        with open(path, "w", encoding="utf-8") as file:
            json.dump(its, file)
        with mock.patch.object(Folder, "keeps", side_effect=OSError(28, "No space left on device")):
            await (await self.keeping(folder)).close()
        less = await self.keeping(folder, LESS)
        self.assertEqual(await self.why(less, "scope"), "scope is no instrument of this bay any more: it was taken out. There are supply, load-1, load-2")
        await less.close()

    async def test_what_its_records_know(self) -> None:
        folder, by = self.folder(), "ana: ana@bench-3 4711 labrun-broker"
        keeping = await self.keeping(folder, MORE)
        await apply(keeping, LESS.replace('"load-2"]', '"load-2", "lamp"]'), by, False)
        await keeping.close()
        with open(path := f"{folder}/bay.json", encoding="utf-8") as file:
            its = json.load(file)
        with open(path, "w", encoding="utf-8") as file:
            json.dump({key: it for key, it in its.items() if key != "former"}, file)
        again = await self.keeping(folder, LESS)
        for name in ("scope", "laser"):
            self.assertRegex(await self.why(again, name), rf"^{name} is .* it was taken out \d+ s ago by {by}\. There are ")
        self.assertEqual(await self.why(again, "lamp"), "lamp is no instrument of this bay any more: it was taken out. There are supply, load-1, load-2")

    async def test_without_a_folder(self) -> None:
        keeping = Keeping(bay_of(BAY))
        await keeping.open()
        self.addAsyncCleanup(keeping.close)
        await apply(keeping, LESS, "ana", False)
        self.assertRegex(await self.why(keeping, "scope"), r"any more: it was taken out \d\d? s ago by ana\. There are ")

    async def test_no_other_number_is_meant(self) -> None:
        """`load-3` was never there, and is no slip of the hand for `load-1`."""
        keeping = await self.keeping(self.folder())
        there = "there are scope, supply, load-1, load-2"
        for name, hint in (("load-3", ""), ("laod-3", ""), ("laod-2", " (did you mean load-2?)"), ("scop3", " (did you mean scope?)"), ("load", " (did you mean load-2?)")):
            with self.subTest(name):
                self.assertEqual(await self.why(keeping, name), f"{name} is no instrument of this bay: {there}{hint}")


class OnApplied(OnFolder):
    async def asyncSetUp(self) -> None:
        # (on a busy machine the disk may not be quiet within a second)
        self.enterContext(mock.patch("labrun_broker.turning.QUIET", SOON))

    async def opened(self, folder: Optional[str], bay: str = BAY) -> Keeping:
        keeping = Keeping(bay_of(bay), folder)
        await keeping.open()
        self.addAsyncCleanup(keeping.close)
        return keeping


class Applied(OnApplied):
    async def test_words_alone(self) -> None:
        """A file in which only tags, labels or guards are other is taken, too."""
        keeping = await self.opened(None)
        more = BAY + '\n[tags]\nprecise = ["scope"]\n[labels]\nscope = "by the window"\n[guards]\nsupply = "bench-2:5025"\n'
        its = ["label scope: by the window, instead of none", "guard supply: bench-2:5025, instead of none", "tag precise: scope, instead of none"]
        self.assertEqual(await apply(keeping, more, "eve", False), its)
        self.assertEqual((keeping.bay.tags, keeping.bay.labels, keeping.bay.guards), ({"precise": ("scope",)}, {"scope": "by the window"}, {"supply": "bench-2:5025"}))
        self.assertEqual((await keeping.hold(Wish(("tag:precise",)), Owner())).instruments, ("scope",))
        self.assertEqual(await apply(keeping, more, "eve", False), [])

    async def test_while_some_hold_and_wait(self) -> None:
        """Who holds goes on, who waits goes on waiting in the old order, and what is new is there; also after a restart."""
        for folder in (None, self.folder()):
            with self.subTest(folder):
                owner = Owner()
                keeping = await self.opened(folder)
                held = await keeping.hold(Wish(("scope",), station="board", ticket=TICKET, by="ann"), owner)
                waits = [asyncio.create_task(keeping.hold(Wish(("scope",), by=f"guest {at}", ticket=f"{TICKET} {at}"), owner)) for at in range(2)]
                await asyncio.sleep(0.02)
                said = list[str]()
                keeping.says = said.append
                told = await apply(keeping, MORE, "eve", False)
                self.assertEqual(
                    told,
                    [
                        "instrument laser: new",
                        "station oven: new",
                        "station radio: may use laser, too",
                        "guests: may use laser, too",
                        "guests: 6 hold at once, instead of 4",
                        "limits.note: 100, instead of 500",
                        "gone (with the next start of the broker): release, instead of keep",
                    ],
                )
                self.assertEqual(said, [f"the bay was changed by eve: {'; '.join(told)}"])
                self.assertEqual((how(keeping, "board")["state"], how(keeping, "scope")["waiting"]), ("holding", ["guest-1", "guest-2"]))
                oven = await keeping.hold(Wish(("laser",), station="oven"), owner)
                with self.assertRaisesRegex(BadWish, "a note of 101 characters; 100 are the most"):
                    await keeping.note(held, owner, "x" * 101)
                await keeping.note(held, owner, "5 V")
                await keeping.let_go(held, owner)
                first = await waits[0]
                self.assertFalse(waits[1].done())
                await keeping.let_go(first, owner)
                second = await waits[1]
                self.assertEqual((first.by, second.by, keeping.lease), ("guest 0", "guest 1", None))
                if folder is None:
                    continue
                await keeping.close()
                again = await self.opened(folder, MORE.replace("release", "keep"))
                self.assertEqual((how(again, "oven")["session"], how(again, "laser")["holder"]), (oven.number, "oven"))
                self.assertEqual(how(again, "scope")["holder"], "guest-2")

    async def test_taken_out(self) -> None:
        """What nobody has goes; who asks for it then is told that there is none. It may come back."""
        keeping, owner = await self.opened(self.folder()), Owner()
        held = await keeping.hold(Wish(("supply",), station="board"), owner)
        self.assertEqual(await apply(keeping, LESS, "eve", False), ["instrument scope: taken out", "station radio: taken out", "station board: may no longer use scope", "guests: may no longer use scope"])
        with self.assertRaisesRegex(NoInstrument, "scope is no instrument of this bay"):
            await keeping.hold(Wish(("scope",)), owner)
        with self.assertRaisesRegex(BadWish, "radio is no station of this bay"):
            await keeping.hold(Wish(("supply",), station="radio"), owner)
        self.assertEqual([it["name"] for it in keeping.status()["instruments"]], ["supply", "load-1", "load-2"])
        await apply(keeping, BAY, "eve", False)
        await keeping.hold(Wish(("scope",), station="radio"), owner)
        await keeping.let_go(held, owner)

    async def test_who_is_in_the_way(self) -> None:
        """All of them are named, with what and since when; and nothing has changed, in the broker and in its folder."""
        folder, owner = self.folder(), Owner()
        keeping = await self.opened(folder)
        await keeping.hold(Wish(("scope", "supply"), station="board", by="ann"), owner)
        waits = asyncio.create_task(keeping.hold(Wish(any_of=(("scope",), ("supply",)), by="bob"), owner))
        radio = asyncio.create_task(keeping.hold(Wish(("scope",), station="radio", timeout=60), owner))
        await asyncio.sleep(0.02)
        before = os.listdir(folder), keeping.places, keeping.bay
        for is_check in (True, False):
            with self.assertRaises(CantChange) as caught:
                await apply(keeping, LESS, "eve", is_check)
            first, *lines = str(caught.exception).split("\n")
            self.assertEqual((first, len(lines)), ("nothing has changed:", 3))
            self.assertRegex(lines[0], r"^scope is taken out, and board \(ann\) has held it for \d\.\d s$")
            self.assertRegex(lines[1], r"^scope is taken out, and guest-1 \(bob\) has waited for it for \d\.\d s$")
            self.assertRegex(lines[2], r"^radio is taken out, and has waited for scope for \d\.\d s$")
        self.assertEqual((os.listdir(folder), keeping.places, keeping.bay), before)
        for text, why in (
            (BAY.replace('board = ["scope", "supply"]', 'board = ["supply"]'), r"board may no longer use scope, and board \(ann\) has held it"),
            (BAY.replace('board = ["scope", "supply"]\n', ""), r"board \(ann\) is taken out, and has held scope and supply for"),
            (BAY.replace('"north"', '"south"'), "the file is of the bay south, and this one is north"),
        ):
            with self.subTest(why), self.assertRaisesRegex(CantChange, why):
                await apply(keeping, text, "eve", False)
        with self.assertRaisesRegex(BadWish, "guests.count: a number from 0 to 1000 is wanted"):
            await apply(keeping, BAY.replace("count = 4", "count = -1"), "eve", False)
        for it in (waits, radio):
            it.cancel()

    async def test_fewer_guests(self) -> None:
        keeping, owner = await self.opened(None), Owner()
        for name in ("scope", "supply"):
            await keeping.hold(Wish((name,)), owner)
        with self.assertRaisesRegex(CantChange, "2 guests hold, and by the file only 1 may"):
            await apply(keeping, BAY.replace("count = 4", "count = 1"), "eve", False)
        with self.assertRaisesRegex(CantChange, "guests are taken out, and guest-1 has held scope"):
            await apply(keeping, BAY.replace("count = 4", "count = 0").replace('"supply"]\nradio', '"supply", "load-1", "load-2"]\nradio'), "eve", False)
        await apply(keeping, BAY.replace("count = 4", "count = 2"), "eve", False)
        third = asyncio.create_task(keeping.hold(Wish(("load-1",)), owner))
        await asyncio.sleep(0.02)
        self.assertFalse(third.done())
        await apply(keeping, BAY.replace("count = 4", "count = 3"), "eve", False)
        await third

    async def test_checked(self) -> None:
        keeping = await self.opened(None)
        before = keeping.bay
        self.assertIn("instrument laser: new", await apply(keeping, MORE, "eve", True))
        self.assertIs(keeping.bay, before)
        self.assertEqual(await apply(keeping, BAY, "eve", False), [])

    async def test_a_command_that_is_not_there(self) -> None:
        """The first session would leave its instrument out of order. It is said once, and is no part of what has changed."""
        keeping = await self.opened(None)
        text = BAY + '[on_release]\nscope = "/nothere/safe 5"\nsupply = "true"\n'
        said = "on_release.scope: the broker's machine has no command /nothere/safe"
        self.assertEqual((await apply(keeping, text, "eve", True))[-1], said)
        self.assertEqual((await apply(keeping, text, "eve", False)).count(said), 1)
        self.assertNotIn("has no command", keeping.history[-1]["text"])
        self.assertEqual(await apply(keeping, text, "eve", False), [])

    async def test_two_at_once(self) -> None:
        """One after another, each as a whole."""
        keeping = await self.opened(self.folder())
        texts = [BAY.replace("count = 4", f"count = {count}") for count in (5, 6, 7)]
        await asyncio.gather(*(apply(keeping, it, "eve", False) for it in texts))
        self.assertEqual((keeping.bay.guests, keeping._shell.turns.count), (7, 3))

    async def test_a_disk_that_hangs(self) -> None:
        """It isn't quiet in time: nothing has changed, and who asks meanwhile has to wait no longer."""
        folder, owner, may = self.folder(), Owner(), threading.Event()
        self.addCleanup(may.set)
        keeping = await self.opened(folder)
        with mock.patch("os.fdatasync", lambda file: may.wait(SOON)), mock.patch("labrun_broker.turning.QUIET", 0.1):
            holds = asyncio.create_task(keeping.hold(Wish(("scope",)), owner))
            await asyncio.sleep(0.05)
            with self.assertRaisesRegex(JournalError, "there was always something to be written, or the disk doesn't answer: nothing has changed; try again"):
                await apply(keeping, BAY.replace("count = 4", "count = 5"), "eve", False)
            with mock.patch("labrun_broker.applying.STANDS", 0.1), self.assertRaisesRegex(JournalError, "the disk doesn't answer for 0.1 s"):
                await apply(keeping, MORE, "eve", False)
            self.assertEqual(keeping.bay.guests, 4)
            may.set()
            await holds
        await apply(keeping, MORE, "eve", False)
        self.assertEqual(keeping.bay.guests, 6)


    async def test_while_a_new_file_fails(self) -> None:
        """Nothing more changes before it stands, and that is said at once."""
        keeping, is_bad = await self.opened(self.folder()), True
        real = FileStore.anew

        def fails(store: FileStore, text: bytes) -> None:
            if is_bad:
                raise OSError(28, "No space left on device")
            real(store, text)

        with mock.patch.object(FileStore, "anew", fails):
            await apply(keeping, BAY.replace("count = 4", "count = 5"), "eve", False)
            self.assertEqual(keeping.bay.guests, 5)
            # (the new file is awaited for ten seconds otherwise)
            async with asyncio.timeout(8):
                with self.assertRaisesRegex(JournalError, "a write failed .No space left on device.: nothing has changed"):
                    await apply(keeping, MORE, "eve", False)
            self.assertEqual(keeping.bay.guests, 5)
            is_bad = False
            while keeping._shell.turns.is_under_way:
                await asyncio.sleep(0.01)
        await apply(keeping, MORE, "eve", False)
        self.assertEqual(keeping.bay.guests, 6)


class Texts(unittest.TestCase):
    def test_what_the_rest_is(self) -> None:
        before, after = bay_of(BAY), bay_of("overtakes = 3\n" + BAY + "may_use = [\"load-1\", \"load-2\"]\n")
        self.assertEqual(changes(before, after), ["guests: may no longer use scope supply", "overtakes (with the next start of the broker): 3, instead of what it is without a line"])
        self.assertEqual(changes(after, after), [])
        for count, told in ((1, "1 holds"), (2, "2 hold")):
            self.assertEqual(changes(before, bay_of(BAY.replace("count = 4", f"count = {count}"))), [f"guests: {told} at once, instead of 4"])


class Commands(OnBroker):
    """`bay apply`, and the signal, at a broker of its own."""

    def unless_busy(self, done: "subprocess.CompletedProcess[str]") -> "Optional[subprocess.CompletedProcess[str]]":
        """None: the disk wasn't quiet within a second, as it may be on a busy machine, and nothing has changed."""
        return None if "nothing has changed; try again" in done.stderr else done

    def test_applied(self) -> None:
        folder = self.enterContext(tempfile.TemporaryDirectory())
        broker = Broker(folder, BAY, ("--state", f"{folder}/state"), COMMAND)
        self.addCleanup(broker.ends)
        lab = self.lab(broker, "board")
        with lab.hold("scope"):
            with open(f"{folder}/bay.toml", "w", encoding="utf-8") as file:
                file.write(MORE)
            checked = broker.ran("bay", "apply", f"{folder}/bay.toml", "--check")
            self.assertEqual((checked.returncode, checked.stderr), (0, ""))
            self.assertIn("instrument laser: new\n", checked.stdout)
            self.assertEqual(len(lab.status()["instruments"]), 4)
            done = until(lambda: self.unless_busy(broker.ran("bay", "apply", f"{folder}/bay.toml")))
            self.assertEqual((done.returncode, done.stdout, done.stderr), (0, checked.stdout, ""))
            self.assertEqual((len(lab.status()["instruments"]), station(lab, "board")["state"]), (5, "holding"))
            with open(f"{folder}/bay.toml", "w", encoding="utf-8") as file:
                file.write(LESS)
            refused = broker.ran("bay", "apply", f"{folder}/bay.toml")
            self.assertEqual((refused.returncode, refused.stdout), (1, ""))
            self.assertRegex(refused.stderr, r"labrun-broker: nothing has changed:\nlabrun-broker: scope is taken out, and board \(tester\) has held it for")
        # (more than a message may have: what is said then to do is done below)
        with open(f"{folder}/bay.toml", "w", encoding="utf-8") as file:
            file.write(f"#{'-' * 70000}\n{LESS}")
        refused = broker.ran("bay", "apply", f"{folder}/bay.toml")
        why = r"doesn't take so much at once \(Received message larger than max \(\d+ vs\. 65536\)\): a bay's file that is so long it reads by SIGHUP\n$"
        self.assertEqual((refused.returncode, refused.stdout), (1, ""))
        self.assertRegex(refused.stderr, rf"^labrun-broker: the broker at \S+ {why}")
        assert broker.process is not None
        process = broker.process.pid
        until(lambda: os.kill(process, signal.SIGHUP) or len(lab.status()["instruments"]) == 3)
        with open(f"{folder}/bay.toml", "w", encoding="utf-8") as file:
            file.write("instruments = 5")
        bad = broker.ran("bay", "apply", f"{folder}/bay.toml")
        self.assertEqual(bad.returncode, 1)
        lab.close()
        self.assertEqual(broker.end(), 0)
        self.assertRegex(broker.said, "the bay was changed by a signal: instrument scope: taken out")

    def test_a_pipe_in_the_place_of_the_file(self) -> None:
        """The broker waits for nobody who might write into it."""
        broker = self.broker()
        path = f"{broker.folder}/bay.toml"
        os.unlink(path)
        os.mkfifo(path)
        assert broker.process is not None
        broker.process.send_signal(signal.SIGHUP)
        with broker.lab() as lab:
            lab.status()
        self.assertEqual(broker.end(), 0)
        self.assertIn(f"labrun-broker: {path}: it is no file\n", broker.said)

    def test_a_file_that_is_gone(self) -> None:
        broker = self.broker()
        path = f"{broker.folder}/bay.toml"
        os.unlink(path)
        assert broker.process is not None
        broker.process.send_signal(signal.SIGHUP)
        with broker.lab() as lab:
            lab.status()
        self.assertEqual(broker.end(), 0)
        self.assertIn(f"labrun-broker: {path}: No such file or directory\n", broker.said)

    def test_a_disk_that_hangs(self) -> None:
        """The broker goes on meanwhile, and what it read is applied in the order of the signals."""
        goes_on, read, applied = threading.Event(), list[str](), list[str]()

        def reads(path: str, _: bool) -> "tuple[str, dict[str, str]]":
            read.append(path)
            self.assertTrue(path == "second" or goes_on.wait(LIMIT))
            return path, {}

        async def applies(_: Any, text: str, *__: Any) -> "list[str]":
            applied.append(text)
            return ["a change"]

        async def signals() -> None:
            keeping: Any = SimpleNamespace(tasks=set(), says=applied.append)
            files = Aside("files")
            for path in ("first", "second"):
                serve.hears(keeping, path, files)
            await asyncio.sleep(0.3)
            self.assertEqual((read, applied), (["first"], []))
            goes_on.set()
            await asyncio.gather(*keeping.tasks)

        with mock.patch.object(serve, "its_texts", reads), mock.patch("labrun_broker.applying.apply", applies):
            asyncio.run(asyncio.wait_for(signals(), LIMIT))
        self.assertEqual(applied, ["first", "second"])


COMMAND = [sys.executable, f"{TOP}/checks/bay/simulated.py"]


if __name__ == "__main__":
    unittest.main()
