"""What stands in the state folder and when: records, and a broker that is killed in each write, and a disk that is slow, full, or fails."""

import asyncio
import contextlib
import json
import os
import re
import resource
import signal
import sys
import tempfile
import threading
import time
import unittest
from typing import Any
from unittest import mock

import labrun
import labrun_broker
from labrun_broker import aside, records, shell
from labrun_broker.applying import apply
from labrun_broker.keeping import Keeping
from labrun_broker.past import read_past
from labrun_broker.sessions import read_records
from labrun_broker.standing import Session, Standings
from labrun_broker.telling import lines_of
from labrun_broker.wishes import Wish
from tests.brokers import BAY, COMMAND, LIMIT, SOON, Broker, OnBroker, station
from tests.test_keeping import TICKET, OnFolder, Owner, eventually, how, whats


class Records(OnBroker):
    def begun(self, command: list[str]) -> Broker:
        folder = self.enterContext(tempfile.TemporaryDirectory())
        broker = Broker(folder, BAY, ("--state", f"{folder}/state"), command)
        self.addCleanup(broker.ends)
        return broker

    def records(self, broker: Broker, station: str) -> list[dict[str, Any]]:
        with open(f"{broker.folder}/state/records.jsonl", encoding="utf-8") as file:
            return [it for it in map(json.loads, file) if it["station"] == station]

    def test_killed_behind_the_journals_line(self) -> None:
        """Its end is in the journal, and in no record yet. The next broker writes that."""
        for ends, what, text in (
            (lambda lab, held: held.release(), "let_go", "as the journal has it"),
            (lambda lab, held: held.release("smoke"), "failed", "smoke, as the journal has it"),
            (lambda lab, held: lab.release("board"), "taken", "by tester, as the journal has it"),
        ):
            with self.subTest(what):
                broker = self.begun(killed_at(what))
                board, other = broker.lab("board"), broker.lab()
                held = board.hold("scope", "supply")
                held.acquire()
                thread = threading.Thread(target=quietly, args=(ends, other, held))
                thread.start()
                self.begins_again(broker)
                with broker.lab() as lab, lab.hold("scope", "supply", timeout=LIMIT):
                    pass
                thread.join(LIMIT)
                for lab in (other, board):
                    with contextlib.suppress(labrun.LabrunError):  # (its session was taken away)
                        lab.close()
                broker.end()
                for _ in range(2):  # (once: not at each start)
                    broker.begin()
                    broker.end()
                records = self.records(broker, "board")
                self.assertEqual([it["what"] for it in records], ["asked", "held", what])
                self.assertEqual((records[-1]["text"], records[-1]["session"], records[-1]["by"]), (text, records[1]["session"], "tester"))
                self.assertEqual(records[-1]["instruments"], ["scope", "supply"])
                # (how long the disk took may be told of one and not of the other)
                self.assertLess(records[1]["t"] - SOON, records[-1]["t"])

    def begins_again(self, broker: Broker) -> None:
        assert broker.process is not None
        self.assertEqual(broker.process.wait(LIMIT), -signal.SIGKILL)
        broker.command = COMMAND
        broker.begin()

    def test_killed_before_it_is_told(self) -> None:
        """The hold is in the journal, and in no record. Its client, which was told nothing, has it all the same."""
        broker = self.begun(killed_at("held"))
        board = self.lab(broker, "board")
        held: list[labrun_broker.Held] = []

        def holds() -> None:
            with board.hold("scope", timeout=LIMIT) as it:
                held.append(it)

        thread = threading.Thread(target=holds)
        thread.start()
        self.begins_again(broker)
        thread.join(LIMIT)
        records = self.records(broker, "board")
        self.assertEqual([it["what"] for it in records if it["what"] != "asked"], ["held", "gone", "back", "let_go"])
        self.assertEqual({it["session"] for it in records}, {held[0].number})
        self.assertEqual(records[-4]["text"], "as the journal has it")

    def test_who_may_read(self) -> None:
        broker = self.broker(BAY, "--state", "FOLDER/state")
        with self.lab(broker) as lab, lab.hold("scope"):
            pass
        for name in ("bay.journal", "records.jsonl", "bay.json"):
            self.assertEqual(os.stat(f"{broker.folder}/state/{name}").st_mode & 0o777, 0o640, name)


def quietly(ends: Any, lab: labrun_broker.Lab, held: labrun_broker.Held) -> None:
    with contextlib.suppress(labrun.LabrunError):
        ends(lab, held)


def killed_at(what: str) -> list[str]:
    """The command of a broker that is killed as it is to write this record; its journal's line is written by then."""
    text = f"""
import os, signal, sys
from labrun_broker import command, records
write = records.Records.write
def killed(self):
    if b'"what":"{what}"' in self._waiting:
        os.kill(os.getpid(), signal.SIGKILL)
    write(self)
records.Records.write = killed
sys.exit(command.main())"""
    return [sys.executable, "-c", text]


def killed_in_write(number: int, share: float) -> list[str]:
    """The command of a broker that is killed in its so-many-eth write to the journal, when so much of that is done."""
    text = f"""
import os, signal, sys
from labrun import store
from labrun_broker import command
write, left = store.FileStore.write, {number}
def killed(self, text):
    global left
    left -= 1
    if not left:
        write(self, text[: int({share} * len(text))])
        os.kill(os.getpid(), signal.SIGKILL)
    write(self, text)
store.FileStore.write = killed
sys.exit(command.main())"""
    return [sys.executable, "-c", text]


class EachWrite(OnBroker):
    def test_killed_in_it(self) -> None:
        """A session that was told that it holds goes on to hold, and has its records, each once: whichever write the broker is killed in."""
        # (the first write is the journal's first line, as the broker begins)
        for number, share in enumerate((0.5, 1.0, 0.5, 0.0, 0.9, 1.0, 0.5), 2):
            with self.subTest((number, share)):
                folder = self.enterContext(tempfile.TemporaryDirectory())
                broker = Broker(folder, BAY, ("--state", f"{folder}/state"), killed_in_write(number, share))
                self.addCleanup(broker.ends)
                with broker.lab("board") as lab:
                    told: list[int] = []
                    thread = threading.Thread(target=self.works, args=(lab, told))
                    thread.start()
                    assert broker.process is not None
                    self.assertEqual(broker.process.wait(LIMIT), -signal.SIGKILL)
                    broker.command = COMMAND
                    broker.begin()
                    thread.join(2 * LIMIT)
                    self.assertEqual(len(told), 3)
                broker.end()
                with open(f"{folder}/state/records.jsonl", encoding="utf-8") as file:
                    records = [it for it in map(json.loads, file) if it["station"] == "board"]
                for what in ("held", "let_go"):
                    self.assertEqual([it["session"] for it in records if it["what"] == what], told, what)

    def test_killed_in_the_first(self) -> None:
        for share in (0.0, 0.5, 1.0):
            folder = self.enterContext(tempfile.TemporaryDirectory())
            with self.assertRaises(AssertionError):
                Broker(folder, BAY, ("--state", f"{folder}/state"), killed_in_write(1, share))
            broker = Broker(folder, BAY, ("--state", f"{folder}/state"))
            self.addCleanup(broker.ends)
            with broker.lab() as lab, lab.hold("scope", timeout=LIMIT):
                pass

    def works(self, lab: labrun_broker.Lab, told: list[int]) -> None:
        for _ in range(3):
            with lab.hold("scope", timeout=LIMIT) as held:
                number = held.number
                held.note("5 V")
                self.assertEqual((held.number, held.held), (number, True))
            told.append(number)


class OnDisk(OnFolder):
    async def test_a_note_is_there_before_it_is_answered(self) -> None:
        """In the journal and in the records, on a quick disk and on a slow one."""
        for slow in (False, True):
            with self.subTest(slow):
                folder, owner = self.folder(), Owner()
                on_disk: dict[str, bytes] = {}
                real = os.fdatasync

                def fdatasync(file: int) -> None:
                    size = os.fstat(file).st_size
                    if slow:
                        time.sleep(0.05)
                    real(file)
                    name = os.path.basename(os.readlink(f"/proc/self/fd/{file}"))
                    on_disk[name] = os.pread(file, size, 0)

                with mock.patch("os.fdatasync", fdatasync):
                    keeping = await self.keeping(folder)
                    session = await keeping.hold(Wish(("scope",), station="radio", ticket=TICKET), owner)
                    self.assertIn(b" hold ", on_disk["bay.journal"])
                    await keeping.note(session, owner, "12.5 V")
                    self.assertIn(b" note 12.5 V\n", on_disk["bay.journal"])
                    self.assertIn(b'"text":"12.5 V"', on_disk["records.jsonl"])
                    await keeping.let_go(session, owner)
                    await eventually(lambda: b" let_go " in on_disk["bay.journal"], "it is on the disk, though nobody waits for it")
                    await keeping.close()

    async def test_a_let_go_is_written_before_it_is_answered(self) -> None:
        """Whoever is told that it let go has let go, also if the broker is killed right then."""
        folder, owner = self.folder(), Owner()
        keeping = await self.keeping(folder)
        session = await keeping.hold(Wish(("scope",), station="radio", ticket=TICKET), owner)
        await keeping.let_go(session, owner)
        with open(f"{folder}/bay.journal", "rb") as file:
            self.assertEqual(file.read().count(b" let_go "), 1)

    async def test_who_comes_during_a_sync_shares_the_next(self) -> None:
        folder, owner, may, syncs = self.folder(), Owner(), threading.Event(), list[int]()
        self.addCleanup(may.set)
        keeping = await self.keeping(folder)

        def fdatasync(file: int) -> None:
            syncs.append(file)
            may.wait(LIMIT)

        with mock.patch("os.fdatasync", fdatasync):
            asks = [asyncio.create_task(keeping.hold(Wish(("scope",)), owner))]
            await eventually(lambda: syncs)
            asks += [asyncio.create_task(keeping.hold(Wish((name,)), owner)) for name in ("supply", "load-1", "load-2")]
            await asyncio.sleep(0.05)
            self.assertEqual(([it.done() for it in asks], len(syncs)), ([False] * 4, 1))
            may.set()
            await asyncio.gather(*asks)
        # (one more may be for those lines that nobody waits for)
        self.assertLessEqual(len(set(syncs)), 2)
        self.assertLessEqual(syncs.count(syncs[0]), 3)


class Soon(OnFolder):
    """A record is in the file with the next turn of the loop."""

    def setUp(self) -> None:
        # (for whatever takes longer than a moment the loop doesn't wait, and on a busy machine any write may)
        self.enterContext(mock.patch.object(aside, "MOMENT", LIMIT))

    def whats(self, folder: str) -> list[str]:
        with open(f"{folder}/records.jsonl", encoding="utf-8") as file:
            return [json.loads(line)["what"] for line in file if line.endswith("}\n")]

    async def test_behind_a_line_that_lost_its_end(self) -> None:
        folder = self.folder()
        with open(f"{folder}/records.jsonl", "w", encoding="utf-8") as file:
            file.write('{"t":1,"what":"as')
        keeping = await self.keeping(folder)
        await keeping.hold(Wish(("scope",), station="radio"), Owner())
        await asyncio.sleep(0.01)
        self.assertEqual(self.whats(folder), ["opened", "asked", "held"])

    async def test_once_the_disk_is_sound_again(self) -> None:
        folder = self.folder()
        keeping, owner = await self.keeping(folder), Owner()
        with mock.patch("os.write", side_effect=OSError(28, "No space left on device")):
            radio = await keeping.hold(Wish(("scope",), station="radio"), owner)
            await asyncio.sleep(0.01)
        keeping.gone(radio, owner)
        await asyncio.sleep(0.01)
        self.assertEqual(self.whats(folder), ["opened", "asked", "held", "gone"])

    async def test_as_soon_as_there_is_room(self) -> None:
        """Nothing more happens, and they are written all the same."""
        folder = self.folder()
        self.enterContext(mock.patch.object(records, "AGAIN", 0.05))
        keeping = await self.keeping(folder)
        with mock.patch("os.write", side_effect=OSError(28, "No space left on device")) as write:
            await keeping.hold(Wish(("scope",), station="radio"), Owner())
            await eventually(lambda: write.call_count >= 3)
        self.assertEqual(self.whats(folder), [])
        await eventually(lambda: self.whats(folder) == ["opened", "asked", "held"])


class Hanging(OnFolder):
    async def test_who_asks(self) -> None:
        """A disk that doesn't answer: who waits for it is told so, and given up after some seconds if its time is over; whoever looks after the
        broker is told, too. Once it answers, all goes on."""
        self.enterContext(mock.patch.multiple(shell, SLOW=0.1, DISK=0.5))
        keeping, owner, said, may = await self.keeping(self.folder()), Owner(), list[str](), threading.Event()
        self.addCleanup(may.set)
        keeping.says = said.append
        real = os.fdatasync

        def fdatasync(file: int) -> None:
            may.wait(LIMIT)
            real(file)

        with mock.patch("os.fdatasync", fdatasync):
            asks = list[Session]()
            waits = asyncio.create_task(keeping.hold(Wish(("scope",), station="board"), owner, asks.append))
            began = time.time()
            with self.assertRaisesRegex(labrun.JournalError, "it isn't on the disk after 0.5 s: the disk doesn't answer"):
                await keeping.hold(Wish(("supply",), timeout=0), owner)
            given_up = time.time()
            self.assertLess(given_up - began, SOON)
            self.assertEqual(Standings(keeping).why(asks[0]), "it is this session's turn, and it holds once that is on the disk (the disk doesn't answer)")
            status = keeping.status()
            self.assertEqual(status["disk"], "the disk doesn't answer")
            # (since when it is at fault, and not when that was told)
            self.assertTrue(began - 0.1 < status["disk_since"] < given_up)
            self.assertRegex(said[0], "bay.journal: the disk doesn't answer: nobody is told that it holds until it does$")
            with mock.patch.object(shell, "SLOW", LIMIT):
                may.set()
                self.assertEqual((await asyncio.wait_for(waits, LIMIT)).name, "board")
                await keeping.close()
        self.assertRegex(said[1], "bay.journal: all is written$")
        self.assertEqual(len(said), 2)

    async def test_an_end_that_hangs(self) -> None:
        """It is in the records once it is in the journal, for a broker that is killed meanwhile has the session again."""
        self.enterContext(mock.patch.object(shell, "SLOW", 0.1))
        folder, owner, may, real = self.folder(), Owner(), threading.Event(), os.pwrite
        self.addCleanup(may.set)
        keeping = await self.keeping(folder)
        its = lambda: [it["what"] for it in read_records(folder)[0]]
        session = await keeping.hold(Wish(("scope",), station="board"), owner)
        await eventually(lambda: its() == ["opened", "asked", "held"])
        with mock.patch("os.pwrite", lambda *given: may.wait(LIMIT) and real(*given)):
            await keeping.let_go(session, owner)
            keeping._record("changed", text="behind it")
            keeping._news.settles()
            await asyncio.sleep(0.1)
            self.assertEqual(its(), ["opened", "asked", "held"])
            may.set()
            await eventually(lambda: its() == ["opened", "asked", "held", "let_go", "changed"])
            await keeping.close()
        self.assertEqual((keeping.lost, its()[-1]), ([], "closed"))

    async def test_records_that_hang(self) -> None:
        """Who holds is told without them."""
        keeping, owner, may = await self.keeping(self.folder()), Owner(), threading.Event()
        self.addCleanup(may.set)
        with mock.patch.object(shell, "NOW_AND_THEN", -1.0), mock.patch("labrun_broker.records.Records.sync", lambda self: may.wait(LIMIT)):
            held = await asyncio.wait_for(keeping.hold(Wish(("scope",), station="board"), owner), SOON)
            note = asyncio.create_task(keeping.note(held, owner, "5 V"))
            await asyncio.sleep(0.1)
            self.assertFalse(note.done(), "a note is in the records before it is answered")
            may.set()
            await asyncio.wait_for(note, LIMIT)


class Since(OnFolder):
    def setUp(self) -> None:
        # (how long the disk takes would count)
        self.enterContext(mock.patch("os.fdatasync", lambda file: None))

    async def test_gone_since_before_a_restart(self) -> None:
        """Also if the broker begins again and again; and not if the client came back meanwhile."""
        folder, owner = self.folder(), Owner()
        keeping = await self.keeping(folder)
        board = await keeping.hold(Wish(("scope",), station="board", ticket=TICKET), owner)
        radio = await keeping.hold(Wish(("supply",), ticket="a ticket of another test"), owner)
        keeping.gone(board, owner)
        keeping.gone(radio, owner)
        since = how(keeping, "board")["gone_since"]
        await keeping.hold(Wish(ticket="a ticket of another test", comes_back=True), owner)
        for _ in range(2):
            await asyncio.sleep(1.2)
            await keeping.close()
            keeping = await self.keeping(folder)
        self.assertAlmostEqual(how(keeping, "board")["gone_since"], since, delta=0.6)
        self.assertGreater(how(keeping, "guest-1")["gone_since"], since + 0.8)
        with self.assertRaisesRegex(labrun.TimeoutError, r"gone for ([2-9]\.\d|\d\d+(\.\d)?) s: see to "):
            await keeping.hold(Wish(("scope",), timeout=0), owner)

    async def test_spans_after_a_restart(self) -> None:
        """Who holds has held since before it."""
        folder, owner = self.folder(), Owner()
        keeping = await self.keeping(folder)
        await keeping.hold(Wish(("scope",), station="board", ticket=TICKET, by="ann"), owner)
        since = how(keeping, "board")["since"]
        await asyncio.sleep(1.2)
        await keeping.close()
        keeping = await self.keeping(folder)
        self.assertAlmostEqual(how(keeping, "board")["since"], since, delta=0.6)
        self.assertAlmostEqual(how(keeping, "scope")["since"], since, delta=0.6)
        with self.assertRaises(labrun.TimeoutError) as caught:
            await keeping.hold(Wish(("scope",), timeout=0), owner)
        told = re.search(r"scope has been held by board for ([\d.]+) s \(ann, gone for ([\d.]+) s: see to ", str(caught.exception))
        assert told is not None
        # (it is gone since the broker began again)
        self.assertGreater(float(told[1]) - float(told[2]), 1.0)


class EndsOnAFullDisk(OnBroker):
    def test_what_is_lost_is_told(self) -> None:
        """By the command, with another status than that of an end by which all is written. (Its files may not become longer.)"""
        broker = self.broker(BAY, "--state", "FOLDER/state")
        lab = self.lab(broker, "board")
        held = lab.hold("scope")
        held.acquire()
        assert broker.process is not None
        state = f"{broker.folder}/state"
        most = min(os.path.getsize(f"{state}/{name}") for name in ("bay.journal", "records.jsonl"))
        resource.prlimit(broker.process.pid, resource.RLIMIT_FSIZE, (most, resource.RLIM_INFINITY))
        with self.assertRaises(labrun.JournalError):
            held.note("5 V")
        held.release()
        self.assertEqual(broker.end(), 74)
        ended = f"labrun-broker: {state}/bay.journal: as the broker ended a write failed (File too large). "
        self.assertIn(f"{ended}These have ended, and may be shown as gone once a broker begins there: session 1 of board\n", broker.said)
        self.assertIn(f"{ended}1 note may be lost, of session 1 of board\n", broker.said)
        self.assertIn(f"labrun-broker: {state}/records.jsonl: not all records are written\n", broker.said)
        broker.begin()
        self.assertEqual((station(self.lab(broker), "board")["state"], station(self.lab(broker), "board")["note"]), ("gone", None))
        self.assertEqual(broker.end(), 0)


class FullDisk(OnFolder):
    """A disk that is full, or fails, as long as the test says."""

    async def asyncSetUp(self) -> None:
        self.is_full = self.fails = False
        self.owner, self.said = Owner(), list[str]()
        pwrite = os.pwrite

        def writes(file: int, text: bytes, place: int) -> int:
            if self.is_full:
                # (a part of it fits)
                if len(text) > 40:
                    return pwrite(file, text[:40], place)
                raise OSError(28, "No space left on device")
            return pwrite(file, text, place)

        def syncs(file: int) -> None:
            # (the real one may take longer than there is time for here)
            if self.fails:
                raise OSError(5, "Input/output error")

        self.enterContext(mock.patch("os.pwrite", writes))
        self.enterContext(mock.patch("os.fdatasync", syncs))
        self.enterContext(mock.patch("os.fsync", lambda file: None))
        self.enterContext(mock.patch.multiple(shell, AGAIN=0.005, LATEST=0.02, DISK=1.0))

    async def on_disk(self, bay: str = BAY, grace: float = 60.0) -> Keeping:
        self.its_folder = self.folder()
        keeping = await self.keeping(self.its_folder, bay, grace)
        keeping.says = self.said.append
        return keeping

    def breaks(self, how: str) -> None:
        self.is_full, self.fails = how == "full", how == "fails"

    async def test_who_asks(self) -> None:
        """It is told so when its time is over, and some seconds for the disk; then it doesn't hold. Who comes when there is room does."""
        for how_it_breaks, why in (("full", "No space left on device"), ("fails", "Input/output error")):
            with self.subTest(how_it_breaks):
                keeping = await self.on_disk()
                self.breaks(how_it_breaks)
                begun = time.monotonic()
                with self.assertRaisesRegex(labrun.JournalError, why):
                    await keeping.hold(Wish(("scope",), station="board", ticket=TICKET, timeout=0), self.owner)
                self.assertGreater(time.monotonic() - begun, 0.9)
                self.assertEqual((how(keeping, "board")["state"], whats(keeping, "board")), ("idle", ["asked", "failed"]))
                self.assertIn(why, self.said[-1])
                await eventually(lambda: keeping.write_failures > 1, "it is tried again")
                self.breaks("")
                held = await keeping.hold(Wish(("scope",), station="radio", timeout=LIMIT), self.owner)
                self.assertEqual(held.name, "radio")
                await keeping.close()
                self.assertRegex(self.said[-1], "bay.journal: all is written$")
                again = await self.keeping(self.its_folder)
                self.assertEqual([it["name"] for it in again.status()["stations"] if it["state"] != "idle"], ["radio"])

    async def test_who_asks_without_a_time(self) -> None:
        """It waits for the disk as long as for an instrument."""
        keeping = await self.on_disk()
        self.breaks("full")
        asks = list[Session]()
        waits = asyncio.create_task(keeping.hold(Wish(("scope",), station="board"), self.owner, asks.append))
        await asyncio.sleep(1)
        self.assertFalse(waits.done())
        why = "it is this session's turn, and it holds once that is on the disk (a write failed (No space left on device))"
        self.assertEqual(Standings(keeping).for_whom(asks[0])[:2], ([], why))
        self.breaks("")
        self.assertEqual((await waits).name, "board")

    async def test_who_waits_for_the_disk(self) -> None:
        """It waits, for whoever looks, and doesn't hold; the others are told so, and again when it holds."""
        keeping = await self.on_disk()
        self.breaks("full")
        asks, begun = list[Session](), time.time()
        first = asyncio.create_task(keeping.hold(Wish(("scope",), station="board"), self.owner, asks.append))
        second = asyncio.create_task(keeping.hold(Wish(("scope",), station="radio"), self.owner, asks.append))
        self.addCleanup(second.cancel)
        await eventually(lambda: len(asks) == 2)
        asked = time.time()
        await asyncio.sleep(1)
        row = how(keeping, "board")
        self.assertEqual((row["state"], row["instruments"], row["waits_for"], how(keeping, "radio")["state"]), ("waiting", ["scope"], [], "waiting"))
        self.assertTrue(begun - 0.4 < row["since"] < asked + 0.4)
        self.assertRegex("\n".join(lines_of(keeping.status())), r"(?m)^scope +\(board, once that is written\) +radio$")
        _, why, told = Standings(keeping).for_whom(asks[1])
        once = "once that is on the disk (a write failed (No space left on device))"
        self.assertEqual(why, f"scope is board's {once}")
        # (of the station of one that isn't told nobody says that it has been in that session since it asked)
        third = asyncio.create_task(keeping.hold(Wish(("supply",), station="board"), self.owner, asks.append))
        self.addCleanup(third.cancel)
        await eventually(lambda: len(asks) == 3)
        self.assertEqual(Standings(keeping).why(asks[2]), f"board is in one session at a time, and session {asks[0].number} holds {once}")
        self.breaks("")
        await keeping.note(await first, self.owner, "5 V")
        self.assertEqual(how(keeping, "board")["state"], "holding")
        _, why, again = Standings(keeping).for_whom(asks[1])
        self.assertRegex(why, "^scope has been held by board for ")
        self.assertNotEqual(told, again)

    async def test_who_changes_the_bay(self) -> None:
        """It is told what is wrong with the disk."""
        keeping = await self.on_disk()
        self.breaks("full")
        waits = asyncio.create_task(keeping.hold(Wish(("scope",)), self.owner))
        await eventually(keeping._shell.is_wrong)
        with self.assertRaisesRegex(labrun.JournalError, r"bay\.journal: a write failed \(No space left on device\): nothing has changed; try again$"):
            await apply(keeping, BAY.replace("count = 4", "count = 5"), "eve", False)
        self.breaks("")
        self.assertEqual(((await waits).name, keeping.bay.guests), ("guest-1", 4))

    async def test_records(self) -> None:
        """Once it is said that all is written, they are, too: whoever looks then sees that nobody holds."""
        keeping, seen = await self.on_disk(), list[Any]()
        self.enterContext(mock.patch.object(records, "AGAIN", 60))
        session = await keeping.hold(Wish(("scope",), station="board"), self.owner)
        await keeping._shell.durable(takes_all=True)
        keeping.says = lambda text: seen.append((text, read_past(self.its_folder)[0].sessions()))
        self.breaks("full")
        with mock.patch("os.write", side_effect=OSError(28, "No space left on device")):
            await keeping.let_go(session, self.owner)
            await asyncio.sleep(0.1)
        self.assertEqual([it.how for it in seen[-1][1]], ["holds"])
        self.breaks("")
        await eventually(lambda: seen[-1][0].endswith("bay.journal: all is written"))
        self.assertEqual([it.how for it in seen[-1][1]], ["done"])

    async def test_how_the_bay_stands(self) -> None:
        """It says what is wrong with the disk, and since when, until that is mended."""
        keeping = await self.on_disk()
        told = lambda: (keeping.status()["disk"], keeping.status()["disk_since"])
        self.assertEqual(told(), ("", None))
        for how_it_breaks, why in (("full", "No space left on device"), ("fails", "Input/output error")):
            self.breaks(how_it_breaks)
            begun = time.time()
            waits = asyncio.create_task(keeping.hold(Wish(("scope",), station="board"), self.owner))
            await eventually(lambda: told()[0])
            seen = time.time()
            await asyncio.sleep(1)
            wrong, since = told()
            self.assertEqual(wrong, f"a write failed ({why})")
            self.assertTrue(begun - 0.4 < since < seen + 0.4)
            self.breaks("")
            session = await waits
            await keeping.let_go(session, self.owner)
            self.assertEqual(told(), ("", None))

    async def test_who_lets_go(self) -> None:
        """It is answered at once, and who waits comes to hold once there is room."""
        keeping = await self.on_disk()
        session = await keeping.hold(Wish(("scope",), station="board"), self.owner)
        waits = asyncio.create_task(keeping.hold(Wish(("scope",), station="radio", timeout=LIMIT), self.owner))
        await asyncio.sleep(0.01)
        self.breaks("full")
        await asyncio.wait_for(keeping.let_go(session, self.owner), SOON)
        await asyncio.sleep(0.1)
        self.assertFalse(waits.done())
        self.breaks("")
        self.assertEqual((await waits).name, "radio")
        self.assertEqual(whats(keeping, "board"), ["asked", "held", "let_go"])

    async def test_who_notes(self) -> None:
        """It is told after a while that the note isn't there yet; once there is room it is."""
        keeping = await self.on_disk()
        session = await keeping.hold(Wish(("scope",), station="board"), self.owner)
        self.breaks("full")
        with self.assertRaisesRegex(labrun.JournalError, "No space left on device"):
            await keeping.note(session, self.owner, "5 V")
        ended = "^board's session is ended, but until that is written a broker that begins anew has it again, and nobody else comes to hold what it held: .*No space left on device"
        with self.assertRaisesRegex(labrun.JournalError, ended):
            await keeping.release("board", "eve")
        self.breaks("")
        await keeping.let_go(await keeping.hold(Wish(("supply",), station="board", timeout=LIMIT), self.owner), self.owner)
        with open(f"{self.its_folder}/bay.journal", "rb") as file:
            text = file.read()
        self.assertEqual([text.count(it) for it in (b" note 5 V\n", b" taken eve\n", b" taken_away ")], [1, 1, 1])

    async def test_who_notes_again(self) -> None:
        """Whoever sends a note again while it is being written, by its number, waits for the same line."""
        self.enterContext(mock.patch.object(shell, "DISK", LIMIT))
        keeping = await self.on_disk()
        session = await keeping.hold(Wish(("scope",), station="board"), self.owner)
        self.breaks("full")
        first, again = (asyncio.create_task(keeping.note(session, self.owner, "5 V", 7)) for _ in range(2))
        await asyncio.sleep(0.1)
        self.assertEqual([first.done(), again.done()], [False, False])
        # (its connection has ended)
        first.cancel()
        self.breaks("")
        await asyncio.wait_for(again, LIMIT)
        await keeping.note(session, self.owner, "5 V", 7)
        with open(f"{self.its_folder}/bay.journal", "rb") as file:
            self.assertEqual(file.read().count(b" note 5 V\n"), 1)
        self.assertEqual(whats(keeping, "board"), ["asked", "held", "note"])

    async def test_an_end(self) -> None:
        """It says what isn't written: who has ended and is shown as gone then, and how many notes are lost. What is written nobody needs to hear."""
        for how_it_breaks, why in (("full", "No space left on device"), ("fails", "Input/output error")):
            with self.subTest(how_it_breaks):
                self.enterContext(mock.patch.object(shell, "CLOSING", 0.5))
                self.breaks("")
                keeping = await self.on_disk()
                board, guest, other = [await keeping.hold(Wish((one,), station=its), self.owner) for one, its in (("scope", "board"), ("load-1", ""), ("supply", ""))]
                await keeping.note(board, self.owner, "4 V")
                self.breaks(how_it_breaks)
                with mock.patch("os.write", side_effect=OSError(28, "No space left on device")):
                    for text in ("5 V", "\u00fc" * 400):
                        with self.assertRaises(labrun.JournalError):
                            await keeping.note(board, self.owner, text)
                    await keeping.let_go(board, self.owner)
                    with self.assertRaises(labrun.JournalError):
                        await keeping.release(guest.name, "eve")
                    waits = asyncio.create_task(keeping.hold(Wish(("scope",), station="radio"), self.owner))
                    await asyncio.sleep(0.02)
                    waits.cancel()
                    await asyncio.wait({waits})
                    await keeping.close()
                its = "session 1 of board, session 2 of guest-1"
                ended, lost, missing = keeping.lost
                begins = f"{self.its_folder}/bay.journal: as the broker ended a write failed ({why}). "
                self.assertEqual(ended, f"{begins}These have ended, and may be shown as gone once a broker begins there: {its}")
                self.assertEqual(lost, f"{begins}2 notes may be lost, of session 1 of board")
                self.assertEqual(missing, f"{self.its_folder}/records.jsonl: not all records are written")
                self.breaks("")
                # (whole lines of what failed may be there)
                again = await self.keeping(self.its_folder)
                self.assertEqual(how(again, other.name)["state"], "gone")
                await again.close()
                self.assertEqual(again.lost, [])

    async def test_records_alone(self) -> None:
        """There is room for the journal, and none for them: sessions go on, and that is told, once; and then, that all is written."""
        self.enterContext(mock.patch.object(records, "LONG", 0.3))
        keeping = await self.on_disk()
        await eventually(lambda: keeping._opened.state.records.is_written)
        with mock.patch("os.write", side_effect=OSError(28, "No space left on device")):
            for _ in range(3):
                await keeping.let_go(await keeping.hold(Wish(("scope",)), self.owner), self.owner)
                await asyncio.sleep(0.3)
            await eventually(lambda: self.said)
            self.assertEqual(keeping.status()["disk"], "")
        await eventually(lambda: len(self.said) > 1)
        its = f"{self.its_folder}/records.jsonl"
        fails = f"{its}: a write failed (No space left on device), and is tried again: records are missing there until then"
        self.assertEqual(self.said, [fails, f"{its}: all records are written"])
        whole = [it["what"] for it in read_records(self.its_folder)[0]]
        self.assertEqual([whole.count(what) for what in ("asked", "held", "let_go")], [3, 3, 3])

    async def test_a_write_that_fails_behind_the_end(self) -> None:
        """It hung until then: nobody is told that all is written."""
        keeping = await self.on_disk()
        its = keeping._opened.state.records
        await keeping.close()
        its._is_told = True
        its._has_put(OSError(5, "Input/output error"))
        self.assertEqual(self.said, [])

    async def test_an_end_with_records_alone(self) -> None:
        """They are tried for as long as the journal would be."""
        full, write = True, os.write

        def writes(file: int, text: bytes) -> int:
            if full:
                raise OSError(28, "No space left on device")
            return write(file, text)

        for has_room in (True, False):
            with self.subTest(has_room=has_room), mock.patch.object(shell, "CLOSING", LIMIT if has_room else 1.0):
                keeping = await self.on_disk()
                await eventually(lambda: keeping._opened.state.records.is_written)
                full = True
                with mock.patch("os.write", writes):
                    await keeping.let_go(await keeping.hold(Wish(("scope",)), self.owner), self.owner)
                    closes = asyncio.create_task(keeping.close())
                    await asyncio.wait({closes}, timeout=0.5)
                    self.assertFalse(closes.done())
                    full = not has_room
                    await asyncio.wait_for(closes, LIMIT)
                self.assertEqual(keeping.lost, [] if has_room else [f"{self.its_folder}/records.jsonl: not all records are written"])
                whole = [it["what"] for it in read_records(self.its_folder)[0]]
                self.assertEqual(whole[-4:] if has_room else whole, ["asked", "held", "let_go", "closed"] if has_room else ["opened"])

    async def test_no_end_is_recorded_that_the_journal_hasnt(self) -> None:
        """There is room for records, and none for the journal: they have the end once that has it, or never; and each session ends once."""
        self.enterContext(mock.patch.object(shell, "CLOSING", 0.5))
        keeping, tickets = await self.on_disk(), [f"{TICKET} of {name}" for name in ("scope", "supply")]
        its = lambda: [(it["session"], it["what"]) for it in read_records(self.its_folder)[0] if it["what"] not in ("asked", "opened")]
        one, other = [await keeping.hold(Wish((ticket.split()[-1],), ticket=ticket), self.owner) for ticket in tickets]
        expected = [(one.number, "held"), (other.number, "held")]
        self.breaks("full")
        await keeping.let_go(one, self.owner)
        keeping.gone(other, self.owner)
        await eventually(lambda: keeping._shell.failures > 1)
        self.assertEqual(its(), expected)
        self.breaks("")
        expected += [(one.number, "let_go"), (other.number, "gone")]
        await eventually(lambda: its() == expected)
        await eventually(lambda: not keeping._shell.is_wrong())
        self.breaks("full")
        back = await keeping.hold(Wish(ticket=tickets[1], comes_back=True), self.owner)
        await keeping.let_go(back, self.owner)
        # (that it closed is written, though it comes behind an end)
        await keeping.close()
        expected += [(other.number, "back"), (None, "closed")]
        self.assertEqual(its(), expected)
        told, *more = keeping.lost
        self.assertRegex(told, f"may be shown as gone once a broker begins there: session {other.number} of {other.name}$")
        self.assertEqual(more, [])
        self.breaks("")
        again = await self.keeping(self.its_folder)
        back = await again.hold(Wish(ticket=tickets[1], comes_back=True), self.owner)
        await again.let_go(back, self.owner)
        await again.close()
        expected += [(other.number, it) for it in ("gone", "back", "let_go")]
        self.assertEqual(its(), [*expected, (None, "closed")])

    async def test_an_end_by_which_nothing_is_lost(self) -> None:
        """Nobody has ended or noted since the disk is full: only the records of that are missing, and a hold of which nobody was told never was."""
        self.enterContext(mock.patch.object(shell, "CLOSING", 0.5))
        keeping = await self.on_disk()
        await keeping.hold(Wish(("scope",), station="board"), self.owner)
        self.breaks("full")
        waits = asyncio.create_task(keeping.hold(Wish(("supply",)), self.owner))
        await asyncio.sleep(0.05)
        waits.cancel()
        await asyncio.wait({waits})
        await keeping.close()
        self.assertEqual(keeping.lost, [])

    async def test_an_end_with_room_again(self) -> None:
        """It is written yet, as the broker waits a while for that."""
        self.enterContext(mock.patch.multiple(shell, DISK=LIMIT, CLOSING=LIMIT))
        keeping = await self.on_disk()
        board = await keeping.hold(Wish(("scope",), station="board"), self.owner)
        self.breaks("full")
        await keeping.let_go(board, self.owner)
        ends = asyncio.create_task(keeping.close())
        await asyncio.sleep(0.1)
        self.assertFalse(ends.done())
        self.breaks("")
        await ends
        self.assertEqual((keeping.lost, how(await self.keeping(self.its_folder), "board")["state"]), ([], "idle"))

    async def test_a_broker_begins(self) -> None:
        """What was held is held; who asks waits for room."""
        keeping = await self.on_disk()
        await keeping.hold(Wish(("scope",), station="board", ticket=TICKET), self.owner)
        await keeping.close()
        self.breaks("full")
        with mock.patch("labrun_broker.folder.Folder.keeps", side_effect=OSError(28, "No space left on device")):
            keeping = await self.keeping(self.its_folder)
        back = await keeping.hold(Wish(ticket=TICKET, comes_back=True), self.owner)
        waits = asyncio.create_task(keeping.hold(Wish(("scope",), station="radio"), self.owner))
        await keeping.let_go(back, self.owner)
        await asyncio.sleep(0.1)
        self.assertFalse(waits.done())
        self.breaks("")
        self.assertEqual((await waits).name, "radio")

    async def test_grace_that_ends_meanwhile(self) -> None:
        """Who waits goes on to wait, and comes to hold once there is room."""
        keeping = await self.on_disk('gone = "release"\n' + BAY, 0.1)
        session = await keeping.hold(Wish(("scope",), station="board"), self.owner)
        waits = asyncio.create_task(keeping.hold(Wish(("scope",), station="radio", timeout=LIMIT), self.owner))
        await asyncio.sleep(0.01)
        self.breaks("full")
        keeping.gone(session, self.owner)
        await asyncio.sleep(0.3)
        self.assertFalse(waits.done())
        self.breaks("")
        self.assertEqual((await asyncio.wait_for(waits, LIMIT)).name, "radio")
        self.assertEqual(whats(keeping, "board"), ["asked", "held", "gone", "taken"])


if __name__ == "__main__":
    unittest.main()
