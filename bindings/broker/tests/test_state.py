"""A broker with a state folder, which is killed or ended, and goes on where it was."""

import asyncio
import hashlib
import http.client
import json
import math
import os
import shutil
import socket
import subprocess
import tempfile
import threading
import unittest
from unittest import mock

import labrun
import labrun_broker
from labrun_broker import aside
from labrun_broker.bay import bay_of
from labrun_broker.keeping import Keeping
from labrun_broker.past import read_past
from labrun_broker.service import fault_of
from labrun_broker.wishes import Ended, Wish
from tests.brokers import BAY, COMMAND, LIMIT, Broker, OnBroker, records, station, until
from tests.test_keeping import TICKET, OnFolder, Owner, how


class State(OnBroker):
    def test_killed(self) -> None:
        """What was held is held, its client comes back by itself, and so does the one who waits."""
        broker = self.broker(BAY, "--state", "FOLDER/state")
        board, radio = self.lab(broker, "board"), self.lab(broker, "radio")
        with board.hold("supply"):
            pass
        held = board.hold("scope", "supply")
        held.acquire()
        held.note("12.5 V")
        order: list[str] = []

        def waits() -> None:
            with radio.hold("scope", timeout=LIMIT):
                order.append("radio")

        thread = threading.Thread(target=waits)
        thread.start()
        until(lambda: station(board, "radio")["state"] == "waiting")
        broker.kill()
        broker.begin()
        other = self.lab(broker)
        until(lambda: station(other, "board")["state"] == "holding", "it has come back")
        self.assertEqual((station(other, "board")["note"], station(other, "board")["by"]), ("12.5 V", "tester"))
        with self.assertRaisesRegex(labrun.TimeoutError, "supply has been held by board"):
            other.hold("supply", timeout=0.1).acquire()
        order.append("board")
        held.note("13 V")
        held.release()
        thread.join(LIMIT)
        self.assertEqual(order, ["board", "radio"])
        whats = ["asked", "held", "let_go", "asked", "held", "note", "gone", "back", "note", "let_go"]
        until(lambda: [it["what"] for it in records(broker) if it["station"] == "board"] == whats, f"{whats}")

    def test_a_client_that_is_back_has_its_instruments_in_its_own_order(self) -> None:
        broker = self.broker(BAY, "--state", "FOLDER/state")
        with self.lab(broker, "board").hold("supply", "scope") as held:
            broker.kill()
            broker.begin()
            with broker.lab() as other:
                until(lambda: station(other, "board")["state"] == "holding", "it has come back")
            until(lambda: held._returns is None, "it knows so")
            self.assertEqual(held.instruments, ("supply", "scope"))

    def test_a_power_cut(self) -> None:
        """The journal alone is there, and that is enough: whoever was told that it holds does."""
        broker = self.broker(BAY, "--state", "FOLDER/state")
        board, other = self.lab(broker, "board"), self.lab(broker)
        over = other.hold("load-1")
        over.acquire()
        held = board.hold("scope", "supply")
        held.acquire()
        held.note("12.5 V")
        broker.kill()
        os.truncate(f"{broker.folder}/state/records.jsonl", 0)
        broker.begin()
        again = self.lab(broker)
        until(lambda: station(again, "board")["state"] == "holding", "it has come back")
        self.assertEqual((station(again, "board")["note"], station(again, "board")["by"]), ("12.5 V", "tester"))
        over.release()
        held.release()
        with again.hold("scope", "load-1", timeout=LIMIT):
            pass

    def test_ended_while_one_holds(self) -> None:
        """As by a restart of the service: it holds on, and the others can hold what is free."""
        broker = self.broker(BAY, "--state", "FOLDER/state")
        board = self.lab(broker, "board")
        held = board.hold("scope")
        held.acquire()
        self.assertEqual(broker.end(), 0)
        broker.begin()
        other = self.lab(broker)
        with other.hold("supply", "load-1", timeout=LIMIT):
            until(lambda: station(other, "board")["state"] == "holding", "it has come back")
        held.release()
        with self.lab(broker, "radio").hold("scope", timeout=LIMIT):
            pass

    def test_tokens_rise_over_a_restart(self) -> None:
        """Whoever comes to hold has a larger token than all before, and who comes back has its own."""
        broker = self.broker(BAY, "--state", "FOLDER/state")
        board = self.lab(broker, "board")
        with self.lab(broker).hold("supply") as first:
            self.assertEqual(first.token, 1)
        held = board.hold("scope")
        held.acquire()
        self.assertEqual(held.token, 2)
        self.assertEqual(broker.end(), 0)
        broker.begin()
        other = self.lab(broker)
        with other.hold("supply", "load-1", timeout=LIMIT) as later:
            until(lambda: station(other, "board")["state"] == "holding", "it has come back")
            self.assertEqual((later.token, held.token, station(other, "board")["token"]), (3, 2, 2))
        held.release()

    def test_who_waits_as_it_ends(self) -> None:
        """The records say that the broker ended, and not that these are gone, for they are there: by gRPC, and by HTTP."""
        broker = self.broker(BAY, "--state", "FOLDER/state", "--http", "unix:FOLDER/http.sock")
        lab, started = self.lab(broker), list[subprocess.Popen[str]]()
        waiting = lambda: next(it for it in lab.status()["instruments"] if it["name"] == "scope")
        # (the first has been told that it holds once its command runs)
        runs = lambda: started[0].stdout and started[0].stdout.readline()
        for words, is_so in ((("sh", "-c", "echo runs; exec sleep 60"), runs), (("true",), lambda: waiting()["waiting"])):
            started.append(broker.started("hold", "scope", "--", *words))
            self.addCleanup(started[-1].communicate)
            self.addCleanup(started[-1].kill)
            until(is_so)
        asks = http.client.HTTPConnection("localhost", timeout=LIMIT)
        self.addCleanup(asks.close)
        asks.sock = socket.socket(socket.AF_UNIX)
        asks.sock.connect(f"{broker.folder}/http.sock")
        asks.request("POST", "/v1/sessions", json.dumps({"ticket": TICKET, "instruments": ["scope"]}), {"Content-Type": "application/json"})
        self.assertLess(asks.getresponse().status, 300)
        until(lambda: len(waiting()["waiting"]) == 2, "both wait")
        self.assertEqual(broker.end(), 0)
        past, _ = read_past(f"{broker.folder}/state")
        ends = [(it.how, it.why) for it in past.sessions()]
        self.assertEqual(ends, [("holds", ""), *[("gave up", "the broker ended")] * 2])

    def test_gone_while_the_broker_was(self) -> None:
        """Nobody comes back for it: an operator releases it."""
        broker = self.broker(BAY, "--state", "FOLDER/state")
        other = self.lab(broker)
        holds = broker.started("hold", "scope", "--station", "board", "--", "sh", "-c", "echo runs; exec sleep 30")
        # (it has been told so)
        assert holds.stdout is not None
        self.assertEqual(holds.stdout.readline(), "runs\n")
        self.assertEqual(station(other, "board")["state"], "holding")
        broker.kill()
        holds.kill()
        holds.communicate()
        broker.begin()
        with self.lab(broker) as again:
            self.assertEqual(station(again, "board")["state"], "gone")
            with self.assertRaisesRegex(labrun.TimeoutError, "scope has been held by board"):
                again.hold("scope", timeout=0.1).acquire()
            self.assertEqual(again.release("board"), ("scope",))
            with again.hold("scope", timeout=LIMIT):
                pass

    def test_what_is_there(self) -> None:
        broker = self.broker(BAY, "--state", "FOLDER/state")
        with self.lab(broker, "board").hold("scope"):
            pass
        self.assertEqual(sorted(os.listdir(f"{broker.folder}/state")), ["bay.journal", "bay.json", "records.jsonl"])

    def test_what_is_there_cant_be_read(self) -> None:
        """Each is named, and the status says that it is the broker's own."""
        for name in ("bay.journal", "bay.json", "records.jsonl"):
            with self.subTest(name):
                folder = self.enterContext(tempfile.TemporaryDirectory())
                with open(f"{folder}/bay.toml", "w", encoding="utf-8") as file:
                    file.write(BAY)
                os.makedirs(f"{folder}/state/{name}")
                words = [*COMMAND, "serve", f"{folder}/bay.toml", "--listen", f"unix:{folder}/s", "--state", f"{folder}/state"]
                done = subprocess.run(words, capture_output=True, text=True, timeout=LIMIT)
                self.assertEqual((done.returncode, done.stderr), (74, f"labrun-broker: {folder}/state/{name}: Is a directory\n"))

    def test_two_brokers(self) -> None:
        broker = self.broker(BAY, "--state", "FOLDER/state")
        done = broker.ran("serve", f"{broker.folder}/bay.toml", "--listen", f"unix:{broker.folder}/b.sock", "--state", f"{broker.folder}/state")
        self.assertEqual(done.returncode, 1)
        self.assertIn("another broker keeps its state there", done.stderr)

    def served(self, broker: Broker, bay: str) -> "subprocess.CompletedProcess[str]":
        """What a broker of another bay says that doesn't begin."""
        with open(f"{broker.folder}/bay.toml", "w", encoding="utf-8") as file:
            file.write(bay)
        return broker.ran("serve", f"{broker.folder}/bay.toml", "--listen", broker.address, "--state", f"{broker.folder}/state")

    def test_another_bay(self) -> None:
        broker = self.broker(BAY, "--state", "FOLDER/state")
        with self.lab(broker).hold("scope"):
            pass
        broker.end()
        done = self.served(broker, BAY.replace("north", "south"))
        self.assertEqual(done.returncode, 74)
        self.assertIn("bay.journal: it is of another bay", done.stderr)

    def test_the_bay_changes(self) -> None:
        """It gets and loses instruments, stations and guests while somebody holds, who goes on to hold the same."""
        broker = self.broker(BAY, "--state", "FOLDER/state")
        board, guest = self.lab(broker, "board"), self.lab(broker)
        held, other = board.hold("supply"), guest.hold("load-2")
        held.acquire()
        other.acquire()
        broker.end()
        changed = """
            bay = "north"
            instruments = ["meter", "load-2", "supply", "lamp"]
            [stations]
            drive = ["meter", "lamp"]
            board = ["supply"]
            [guests]
            count = 1
            """
        with open(f"{broker.folder}/bay.toml", "w", encoding="utf-8") as file:
            file.write(changed)
        broker.begin()
        with self.lab(broker, "drive").hold("meter", "lamp", timeout=LIMIT):
            until(lambda: {station(board, name)["state"] for name in ("board", other.station)} == {"holding"}, "they are back")
            holders = {it["name"]: it["holder"] for it in board.status()["instruments"]}
            self.assertEqual(holders, {"meter": "drive", "load-2": other.station, "supply": "board", "lamp": "drive"})
        self.assertEqual((held.instruments, other.instruments), (("supply",), ("load-2",)))
        broker.end()
        for bay, text in ((changed.replace('board = ["supply"]', 'board = ["lamp"]'), "board holds supply, which by the bay it may not use"),):
            done = self.served(broker, bay)
            # (nothing failed to be written)
            self.assertEqual(done.returncode, 78)
            self.assertIn(text, done.stderr)
        with open(f"{broker.folder}/bay.toml", "w", encoding="utf-8") as file:
            file.write(changed)
        broker.begin()
        held.release()
        other.release()

    def test_an_older_broker_wrote_it(self) -> None:
        """It is refused, with what to do; and then that helps."""
        folder = self.enterContext(tempfile.TemporaryDirectory())
        os.mkdir(f"{folder}/state")
        for name, text in (("bay.journal", "lab 2\njob board\nsession patience 0\nscope read\nend\nsteps\n"), ("records-1.jsonl", ""), ("lock", "")):
            with open(f"{folder}/state/{name}", "w", encoding="utf-8") as file:
                file.write(text)
        with open(f"{folder}/bay.toml", "w", encoding="utf-8") as file:
            file.write(BAY)
        words = [*COMMAND, "serve", f"{folder}/bay.toml", "--listen", f"unix:{folder}/s", "--state", f"{folder}/state"]
        done = subprocess.run(words, capture_output=True, text=True, timeout=LIMIT)
        self.assertEqual(done.returncode, 74)
        self.assertIn("bay.journal: an older labrun-broker wrote it, and this one can't go on with it. With the older one let all sessions end", done.stderr)
        os.rename(f"{folder}/state/bay.journal", f"{folder}/bay.journal")
        broker = Broker(folder, BAY, ("--state", f"{folder}/state"))
        self.addCleanup(broker.ends)
        with broker.lab() as lab, lab.hold("scope", timeout=LIMIT):
            pass

    def test_a_broker_without_tokens_wrote_it(self) -> None:
        """So it is of a journal whose first line doesn't say which tokens were given."""
        folder = self.enterContext(tempfile.TemporaryDirectory())
        os.mkdir(f"{folder}/state")
        head = f"bay {'ab' * 32} {0:016x} {1:016x}"
        with open(f"{folder}/state/bay.journal", "w", encoding="utf-8") as file:
            file.write(f"{hashlib.sha256(bytes(8) + head.encode()).hexdigest()[:16]} {head}\n")
        with open(f"{folder}/bay.toml", "w", encoding="utf-8") as file:
            file.write(BAY)
        words = [*COMMAND, "serve", f"{folder}/bay.toml", "--listen", f"unix:{folder}/s", "--state", f"{folder}/state"]
        done = subprocess.run(words, capture_output=True, text=True, timeout=LIMIT)
        self.assertEqual(done.returncode, 74)
        self.assertIn("bay.journal: an older labrun-broker wrote it, and this one can't go on with it. With the older one let all sessions end", done.stderr)

    def test_tickets_arent_in_the_files(self) -> None:
        broker = self.broker(BAY, "--state", "FOLDER/state")
        held = self.lab(broker).hold("scope")
        held.acquire()
        for name in os.listdir(f"{broker.folder}/state"):
            with open(f"{broker.folder}/state/{name}", encoding="utf-8") as file:
                self.assertNotIn(held._wish.ticket, file.read())
        held.release()


class Emptied(OnFolder):
    """A journal without a whole line, beside records of sessions that hold."""

    async def left(self) -> str:
        """The folder of a broker that ended while board and a guest held; another guest had let go, and one only waited."""
        folder, owner = self.folder(), Owner()
        keeping = await self.keeping(folder)
        over = await keeping.hold(Wish(("load-1",)), owner)
        await keeping.hold(Wish(("scope", "supply"), station="board", by="ann"), owner)
        await keeping.hold(Wish(("load-2",)), owner)
        await keeping.let_go(over, owner)
        waits = asyncio.create_task(keeping.hold(Wish(("scope",), station="radio"), owner))
        await asyncio.sleep(0.02)
        waits.cancel()
        await keeping.close()
        return folder

    async def refused(self, folder: str) -> str:
        with self.assertRaises(labrun.JournalError) as caught:
            await self.keeping(folder)
        return str(caught.exception)

    async def test_it_is_refused(self) -> None:
        """Each that holds is named, and what to do; as often as somebody tries; and what is advised helps."""
        for length in (0, 10):
            with self.subTest(length):
                folder = await self.left()
                os.truncate(f"{folder}/bay.journal", length)
                for _ in range(2):
                    why = await self.refused(folder)
                    self.assertTrue(why.startswith(f"{folder}/bay.journal: it has no whole line, and by the records somebody holds: "), why)
                    self.assertIn(": board (ann) scope supply (session 2), guest-2 load-2 (session 3). ", why)
                    self.assertIn("Put back the one that belongs to bay.json; or see that nobody is at the instruments, move bay.journal, its numbered", why)
                    self.assertIn(f"out of {folder} (bay.json and the records may stay), and begin again", why)
                self.assertEqual(os.path.getsize(f"{folder}/bay.journal"), length, "it stays as it was found")
                os.unlink(f"{folder}/bay.journal")
                keeping = await self.keeping(folder)
                self.assertEqual({it["state"] for it in keeping.status()["stations"]}, {"idle"})
                self.assertRegex("\n".join(keeping.complaints), "bay.journal isn't there: it begins as if nobody held; by the records board .ann. scope supply .session 2., guest-2 load-2")
                await keeping.close()
                # (from here on nobody holds by the records, either)
                os.truncate(f"{folder}/bay.journal", length)
                self.assertEqual((await self.keeping(folder)).complaints, [])

    async def test_it_was_carried_over(self) -> None:
        """Its hold is told before the last broker began."""
        folder = await self.left()
        await (await self.keeping(folder)).close()
        os.truncate(f"{folder}/bay.journal", 0)
        self.assertIn("board (ann) scope supply (session 2), guest-2 load-2 (session 3)", await self.refused(folder))

    async def test_its_hold_is_told_in_an_older_file(self) -> None:
        """Records that were put aside count, and those of long ago, which no broker reads otherwise."""
        folder = await self.left()
        os.rename(f"{folder}/records.jsonl", f"{folder}/records-1.jsonl")
        keeping, owner = await self.keeping(folder), Owner()
        await keeping.note(await keeping.hold(Wish(("load-1",)), owner), owner, "5 V")
        await keeping.close()
        with open(f"{folder}/records.jsonl", encoding="utf-8") as file:
            note = next(line for line in file if '"what":"note"' in line)
        with open(f"{folder}/records.jsonl", "a", encoding="utf-8") as file:
            file.write(note * (1 + (1 << 23) // len(note)))
        os.truncate(f"{folder}/bay.journal", 0)
        self.assertIn("board (ann) scope supply (session 2), guest-2 load-2 (session 3), guest-1 load-1 (session 5)", await self.refused(folder))

    async def test_many(self) -> None:
        folder, owner = self.folder(), Owner()
        bay = 'bay = "north"\ninstruments = [%s]\n[guests]\ncount = 17\n' % ", ".join(f'"i{at}"' for at in range(17))
        keeping = await self.keeping(folder, bay)
        for at in range(17):
            await keeping.hold(Wish((f"i{at}",)), owner)
        await keeping.close()
        os.truncate(f"{folder}/bay.journal", 0)
        with self.assertRaisesRegex(labrun.JournalError, r"guest-8 i7 \(session 8\) and 9 more\. "):
            await self.keeping(folder, bay)

    async def test_the_names_were_moved_out_too(self) -> None:
        """As the other refusals advise. Numbers begin at 1 again, and what the records say of larger ones is over."""
        folder = await self.left()
        for name in ("bay.journal", "bay.json"):
            os.unlink(f"{folder}/{name}")
        for _ in range(2):
            keeping = await self.keeping(folder)
            self.assertEqual(({it["state"] for it in keeping.status()["stations"]}, keeping.complaints), ({"idle"}, []))
            await keeping.close()

    async def test_it_lacks_its_last_lines(self) -> None:
        """Cut behind each of its lines: it is refused if the records say of one that holds what no line says any more."""
        folder = await self.left()
        with open(f"{folder}/bay.journal", "rb") as file:
            lines = file.read().splitlines(keepends=True)
        by_record = {2: "board (ann) scope supply (session 2)", 3: "guest-2 load-2 (session 3)"}
        refused = list[tuple[int, ...]]()
        for count in range(1, len(lines) + 1):
            copy = self.folder()
            shutil.copytree(folder, copy, dirs_exist_ok=True)
            with open(f"{copy}/bay.journal", "wb") as file:
                file.write(b"".join(lines[:count]))
            held = {int(words[2], 16) for words in map(bytes.split, lines[:count]) if words[1] == b"hold"}
            lacks = tuple(it for it in by_record if it not in held)
            if lacks:
                told = f"{copy}/bay.journal: it lacks its last lines, and by the records somebody holds: {', '.join(by_record[it] for it in lacks)}. Put back the one"
                self.assertTrue((await self.refused(copy)).startswith(told))
                refused.append(lacks)
            else:
                keeping = await self.keeping(copy)
                self.assertEqual([(it["holder"], keeping.complaints) for it in keeping.status()["instruments"][:2]], [("board", [])] * 2)
                await keeping.close()
        self.assertEqual(sorted(set(refused)), [(2, 3), (3,)])

    async def test_it_lacks_them_where_a_power_cut_may(self) -> None:
        """Without syncs the system may have lost them: that is told, and it begins."""
        folder = await self.left()
        with open(f"{folder}/bay.journal", "rb") as file:
            head = file.readline()
        os.truncate(f"{folder}/bay.journal", len(head))
        keeping = Keeping(bay_of(BAY), folder, 60.0, False)
        await keeping.open()
        self.addAsyncCleanup(keeping.close)
        [told] = keeping.complaints
        its = "board (ann) scope supply (session 2), guest-2 load-2 (session 3)"
        self.assertEqual(told, f"{folder}/bay.journal lacks its last lines: it begins as if they had never been; by the records somebody holds: {its}")

    async def test_nobody_held(self) -> None:
        """A broker that was killed in its very first write, or after all had let go."""
        folder, owner = self.folder(), Owner()
        keeping = await self.keeping(folder)
        await keeping.let_go(await keeping.hold(Wish(("scope",)), owner), owner)
        await keeping.close()
        for length in (10, 0):
            os.truncate(f"{folder}/bay.journal", length)
            keeping = await self.keeping(folder)
            self.assertEqual(keeping.complaints, [])
            await keeping.close()


class TakenUp(OnFolder):
    def setUp(self) -> None:
        # (for what takes longer than a moment the loop doesn't wait, and on a busy machine any write may)
        self.enterContext(mock.patch.object(aside, "MOMENT", LIMIT))

    async def test_what_was_told_and_what_was_not(self) -> None:
        """Two sessions hold when the broker ends. Of one nobody was told, and its client asks again; the other one's client comes back."""
        folder, copy, may = self.folder(), self.folder(), threading.Event()
        self.addCleanup(may.set)
        keeping, owner = await self.keeping(folder), Owner()
        seat = await keeping.hold(Wish(("scope",), station="radio", by="ann", ticket="a ticket of a test"), owner)
        await keeping.note(seat, owner, "5 V")
        over = await keeping.hold(Wish(("load-1",), ticket="another ticket of it"), owner)
        await keeping.let_go(over, owner)
        gone = await keeping.hold(Wish(("load-2",), ticket="the ticket of a third"), owner)
        await keeping.release(gone.name, "eve")
        with mock.patch("os.fdatasync", lambda file: may.wait(LIMIT)):
            untold = asyncio.create_task(keeping.hold(Wish(("supply",), station="board", by="bob", ticket="the ticket of one untold"), owner))
            await asyncio.sleep(0.1)
            self.assertFalse(untold.done())
            subprocess.run(["cp", "-a", f"{folder}/.", copy], check=True)
            may.set()
            await untold
        keeping = await self.keeping(copy)
        status = {it["name"]: it for it in keeping.status()["stations"]}
        told = [(it["name"], it["by"], it["note"]) for it in status.values() if it["state"] != "idle"]
        self.assertEqual(told, [("board", "bob", None), ("radio", "ann", "5 V")])
        back = await keeping.hold(Wish(ticket="a ticket of a test", comes_back=True), owner)
        self.assertEqual((back.name, back.instruments), ("radio", ("scope",)))
        again = await keeping.hold(Wish(("supply",), station="board", ticket="the ticket of one untold"), owner)
        self.assertEqual((again.name, again.instruments), ("board", ("supply",)))
        for ticket, ended, text in (
            ("another ticket of it", "LetGo", "has let go"), ("the ticket of a third", "TakenAway", "taken away by eve"), ("a ticket of nobody", "NotHeld", "no session"),
        ):  # fmt: skip
            with self.assertRaisesRegex(Ended, text) as caught:
                await keeping.hold(Wish(ticket=ticket, comes_back=True), owner)
            self.assertEqual(fault_of(caught.exception).kind, ended)

    async def test_who_asks_again_has_it_in_the_order_of_asking(self) -> None:
        """Though the journal knows none."""
        folder, owner = self.folder(), Owner()
        for words in (("load-1", "scope"), ("scope", "load-1"), ("load-*", "supply")):
            keeping = await self.keeping(folder)
            first = await keeping.hold(Wish(words, ticket=TICKET), owner)
            await keeping.close()
            keeping = await self.keeping(folder)
            again = await keeping.hold(Wish(words, ticket=TICKET), owner)
            self.assertEqual((again.number, again.instruments), (first.number, first.instruments))
            await keeping.let_go(again, owner)
            await keeping.close()

    async def test_a_guest_is_the_same(self) -> None:
        """It has the name that it had, and nobody else gets that meanwhile."""
        folder, owner = self.folder(), Owner()
        keeping = await self.keeping(folder)
        first = await keeping.hold(Wish(("scope",)), owner)
        second = await keeping.hold(Wish(("supply",), ticket=TICKET), owner)
        await keeping.let_go(first, owner)
        await keeping.close()
        keeping = await self.keeping(folder)
        self.assertEqual([it["name"] for it in keeping.status()["stations"] if it["state"] == "gone"], ["guest-2"])
        others = [await keeping.hold(Wish((name,)), owner) for name in ("scope", "load-1")]
        self.assertEqual([it.name for it in others], ["guest-1", "guest-3"])
        back = await keeping.hold(Wish(ticket=TICKET, comes_back=True), owner)
        self.assertEqual((back.name, back.number), ("guest-2", second.number))

    async def test_who_gave_up_before_it_was_told(self) -> None:
        """Its client gave up while the line that says that it holds wasn't on the disk yet: it never held, also for a broker that begins again."""
        folder, may = self.folder(), threading.Event()
        self.addCleanup(may.set)
        keeping = await self.keeping(folder)
        with mock.patch("os.fdatasync", lambda file: may.wait(LIMIT)):
            untold = asyncio.create_task(keeping.hold(Wish(("scope",), station="radio"), Owner()))
            await asyncio.sleep(0.02)
            untold.cancel()
            await asyncio.wait({untold})
            may.set()
        await keeping.close()
        for _ in range(2):
            keeping = await self.keeping(folder)
            self.assertEqual(how(keeping, "radio")["state"], "idle")
            await keeping.close()
        past, _ = read_past(folder)
        self.assertEqual([(it.station, it.held, it.how) for it in past.sessions()], [("radio", None, "gave up")])

    async def test_two_guests_of_whom_nobody_was_told(self) -> None:
        """They hold, and their records are lost, as by a power cut: each has a name of its own, and keeps it."""
        folder, copy, may = self.folder(), self.folder(), threading.Event()
        self.addCleanup(may.set)
        keeping = await self.keeping(folder)
        with mock.patch("os.fdatasync", lambda file: may.wait(LIMIT)):
            untold = [asyncio.create_task(keeping.hold(Wish((name,)), Owner())) for name in ("scope", "supply")]
            await asyncio.sleep(0.02)
            subprocess.run(["cp", f"{folder}/bay.journal", f"{folder}/bay.json", copy], check=True)
            may.set()
            await asyncio.gather(*untold)
        for _ in range(3):
            keeping = await self.keeping(copy)
            rows = [(it["name"], it["instruments"]) for it in keeping.status()["stations"] if it["state"] == "gone"]
            self.assertEqual(rows, [("guest-1", ["scope"]), ("guest-2", ["supply"])])
            await keeping.close()
            # (the power is cut again, behind the first two records)
            with open(f"{copy}/records.jsonl", "r+b") as file:
                file.truncate(sum(len(file.readline()) for _ in range(2)))
        self.assertEqual(await (await self.keeping(copy)).release("guest-2", "eve"), ("supply",))

    async def test_a_bay_that_has_no_room_for_them(self) -> None:
        """Fewer guests than hold, or a station less, or an instrument less: it says who holds, and nothing is lost by it."""
        folder, owner = self.folder(), Owner()
        keeping = await self.keeping(folder)
        for wish in (Wish(("scope",), station="radio"), Wish(("load-1",)), Wish(("load-2",))):
            await keeping.hold(wish, owner)
        await keeping.close()
        for before, after, why in (
            ("count = 4", "count = 1", "guest-1, guest-2 hold, and by the bay only 1 guest may: begin with the bay as it was until that is over$"),
            ('radio = ["scope"]', "", "bay.journal: radio holds scope, which by the bay it may not use: begin"),
            (', "load-2"', "", "bay.journal: guest-2 holds load-2, which by the bay it may not use: begin"),
            ('radio = ["scope"]', 'radio = ["supply"]\nbench = ["load-1"]', "radio holds scope, which by the bay it may not use: begin"),
        ):
            with self.assertRaisesRegex(labrun.JournalError, why):
                await self.keeping(folder, BAY.replace(before, after))
        keeping = await self.keeping(folder)
        self.assertEqual([it["name"] for it in keeping.status()["stations"] if it["state"] == "gone"], ["radio", "guest-1", "guest-2"])

    async def test_numbers_go_on(self) -> None:
        """Of sessions that ask later each is larger, whatever became of the broker."""
        folder, owner, last = self.folder(), Owner(), 0
        for _ in range(3):
            keeping = await self.keeping(folder)
            for _ in range(3):
                session = await keeping.hold(Wish(("scope",)), owner)
                self.assertGreater(session.number, last)
                last = session.number
                await keeping.let_go(session, owner)
            await keeping.close()


class Damaged(OnFolder):
    """The journal isn't as the broker wrote it. Nobody gets the instruments of who holds by that."""

    async def left(self, folder: str) -> bytes:
        """What a broker leaves whose one session holds."""
        keeping = await self.keeping(folder)
        await keeping.hold(Wish(("scope",), station="radio", by="ann", ticket=TICKET), Owner())
        await keeping.close()
        with open(f"{folder}/bay.journal", "rb") as file:
            return file.read()

    def copy(self, folder: str, text: bytes) -> str:
        copy = self.folder()
        subprocess.run(["cp", "-a", f"{folder}/.", copy], check=True)
        with open(f"{copy}/bay.journal", "wb") as file:
            file.write(text)
        return copy

    async def test_each_byte(self) -> None:
        folder = self.folder()
        text = await self.left(folder)
        for at in range(0, len(text) - 1, 7):
            with self.subTest(at):
                copy = self.copy(folder, text[:at] + bytes([text[at] ^ 1]) + text[at + 1 :])
                with self.assertRaisesRegex(labrun.JournalError, "isn't as the broker wrote it|no journal of a bay|another bay"):
                    await self.keeping(copy)

    async def test_the_end_is_cut(self) -> None:
        """As by a kill in the midst of a write: the whole lines count."""
        folder = self.folder()
        text = await self.left(folder)
        told = text.index(b"\n", text.index(b" hold ")) + 1
        for at in {0, 1, 20, told - 1, told, told + 1, len(text) - 1, len(text)}:
            with self.subTest(at):
                copy = self.copy(folder, text[:at])
                if at < told:
                    # (a hold gets its record once the journal has it)
                    os.truncate(f"{copy}/records.jsonl", 0)
                keeping = await self.keeping(copy)
                self.assertEqual(how(keeping, "radio")["state"], "gone" if at >= told else "idle")
                await keeping.close()

    async def test_what_its_numbers_mean_is_gone(self) -> None:
        folder = self.folder()
        await self.left(folder)
        for text in ("", "{}", "[]", '{"instruments": [1], "stations": [], "grace": 0}', '{"instruments": [], "stations": [], "grace": -1}'):
            with open(f"{folder}/bay.json", "w", encoding="utf-8") as file:
                file.write(text)
            with self.assertRaisesRegex(labrun.JournalError, "bay.json: it isn't as the broker wrote it"):
                await self.keeping(folder)
        os.unlink(f"{folder}/bay.json")
        with self.assertRaisesRegex(labrun.JournalError, "bay.json: it isn't there, and the journal can't be read without it. Put back the one that belongs to it; or see that nobody is at the instruments, move "):
            await self.keeping(folder)

    async def test_any_note(self) -> None:
        """It comes back as it was, however long, and none is taken for a line that the broker writes itself."""
        folder, owner = self.folder(), Owner()
        keeping = await self.keeping(folder, BAY + "[limits]\nnote = 5000\n")
        session = await keeping.hold(Wish(("scope",), station="radio", by="ann", ticket=TICKET), owner)
        texts = ["taken eve", "by board eve", "failed 5", "more", "", " ", "\x1b\r\n# hold radio 7", "\\n\\\\r\\", "\\" * 3001, "\n" * 1000, "\u00fc\U0001f600" * 700, "a" * 5000]
        for count, text in enumerate(texts, 1):
            await keeping.note(session, owner, text)
            copy = self.copy(folder, self.text(folder))
            os.unlink(f"{copy}/records.jsonl")
            other = await self.keeping(copy)
            self.assertEqual((how(other, "radio")["note"], how(other, "radio")["by"]), (text, "ann"))
            self.assertEqual([it["text"] for it in other.history if it["what"] == "note"], texts[:count])
            self.assertEqual([it["what"] for it in other.history], ["held", *["note"] * count, "opened", "gone"])
            await other.close()

    def text(self, folder: str) -> bytes:
        with open(f"{folder}/bay.journal", "rb") as file:
            return file.read()


class Terms(OnFolder):
    """A session is never kept for a shorter time than its client was told, whatever the broker that goes on has."""

    async def begun(self, folder: str, gone: str, grace: float) -> Keeping:
        return await self.keeping(folder, f'gone = "{gone}"\n' + BAY, grace)

    async def test_a_shorter_one(self) -> None:
        for told, now, kept in (("release", "release", 60.0), ("release", "keep", math.inf), ("keep", "release", 0.02)):
            folder, owner = self.folder(), Owner()
            keeping = await self.begun(folder, told, 60.0)
            await keeping.hold(Wish(("scope",), station="radio", ticket=TICKET), owner)
            await keeping.close()
            for _ in range(2):  # (and however often it begins again)
                keeping = await self.begun(folder, now, 0.02)
                await asyncio.sleep(0.1)
                self.assertEqual(how(keeping, "radio")["state"], "gone", "it isn't released after 0.02 s")
                span, rest = "for 60 s", "all sessions until those have ended and the broker is started again"
                if told == "keep":
                    span, rest = "until somebody releases it", "those sessions until they have ended"
                why = f"who holds now may have been told that a session whose client is gone is kept {span}. That goes for {rest}"
                complaints = [why] if now == "release" else []
                self.assertEqual((keeping.grace, keeping.complaints), (kept, complaints))
                await keeping.close()
            keeping = await self.begun(folder, now, 0.02)
            await keeping.let_go(await keeping.hold(Wish(ticket=TICKET, comes_back=True), owner), owner)
            await keeping.close()
            keeping = await self.begun(folder, now, 0.02)
            self.assertEqual((keeping.grace, keeping.complaints), (0.02 if now == "release" else math.inf, []), "nobody holds who was told otherwise")
            await keeping.close()

    async def test_a_longer_one(self) -> None:
        """It counts at once."""
        folder, owner = self.folder(), Owner()
        keeping = await self.begun(folder, "release", 0.02)
        await keeping.hold(Wish(("scope",), station="radio", ticket=TICKET), owner)
        await keeping.close()
        keeping = await self.begun(folder, "release", 60.0)
        await asyncio.sleep(0.1)
        self.assertEqual((how(keeping, "radio")["state"], keeping.grace, keeping.complaints), ("gone", 60.0, []))


class WithoutState(OnBroker):
    def test_killed(self) -> None:
        """All is forgotten, and who held is told."""
        broker = self.broker()
        lab = self.lab(broker)
        held = lab.hold("scope")
        held.acquire()
        told: list[Exception] = []
        held.on_taken = told.append
        broker.kill()
        broker.begin()
        until(lambda: told)
        with self.assertRaisesRegex(labrun_broker.NotHeld, "no session has this ticket"):
            held.release()


if __name__ == "__main__":
    unittest.main()
