"""The bay's journal begins anew: whatever the broker is at when it is killed, who holds comes back, with names and notes; and the past is in the
records."""

import asyncio
import os
import shutil
import tempfile
import threading
import unittest
from typing import Any, Callable
from unittest import mock

import labrun.store
from labrun import JournalError
from labrun.store import FileStore
from labrun_broker import records, shell, turning
from labrun_broker.bay import bay_of
from labrun_broker.keeping import Keeping
from labrun_broker.sessions import read_records
from labrun_broker.wishes import Ended, Wish
from tests.brokers import BAY, LIMIT, SOON
from tests.test_keeping import TICKET, OnFolder, Owner, eventually, how

SIZE = 1500  # bytes: some four sessions


def journal_of(folder: str) -> bytes:
    with open(f"{folder}/bay.journal", "rb") as file:
        return file.read()


class Between:
    """Stands for the module `os` in labrun.store: before and behind each call that changes something, `looks` is called with its name."""

    def __init__(self, looks: Callable[[str], None]) -> None:
        self._looks = looks

    def __getattr__(self, name: str) -> Any:
        real = getattr(os, name)
        if name not in ("open", "pwrite", "ftruncate", "fsync", "fdatasync", "replace", "close"):
            return real

        def call(*given: Any) -> Any:
            self._looks(f"before {name}")
            try:
                return real(*given)
            finally:
                self._looks(f"behind {name}")

        return call


class OnSmall(OnFolder):
    async def small(self, folder: str, size: int = SIZE) -> Keeping:
        """A bay whose journal begins anew early."""
        keeping = Keeping(bay_of(BAY), folder)
        keeping.most_bytes = size
        await keeping.open()
        self.addAsyncCleanup(keeping.close)
        return keeping

    async def works(self, keeping: Keeping, *instruments: str, times: int = 1, ticket: str = "", **more: Any) -> None:
        for _ in range(times):
            owner = Owner()
            session = await keeping.hold(Wish(instruments, ticket=ticket, by="bob", **more), owner)
            await keeping.let_go(session, owner)


class Anew(OnSmall):
    async def test_who_holds_goes_on(self) -> None:
        """Its number, name, note and ticket stay, in a file that has little else; and who let go before is told so after a restart."""
        folder, owner = self.folder(), Owner()
        keeping = await self.small(folder)
        held = await keeping.hold(Wish(("scope",), station="board", ticket=TICKET, by="ann: a b"), owner)
        guest = await keeping.hold(Wish(("supply",), ticket="the ticket of a guest"), owner)
        await keeping.note(held, owner, "5 V")
        await keeping.note(held, owner, "6 V\nof \\n")
        turns, times = keeping._shell.turns, 0
        # (one that is slow is quiet for it less often)
        while times < 20 or turns.count < 2 or turns.is_under_way or len(journal_of(folder)) > SIZE:
            await self.works(keeping, "load-1", ticket="one that lets go")
            times += 1
        await self.works(keeping, "load-2", times=1)
        await keeping.close()
        self.assertLess(len(journal_of(folder)), 2 * SIZE)
        again = await self.small(folder)
        board = how(again, "board")
        self.assertEqual((board["state"], board["by"], board["note"], board["session"]), ("gone", "ann: a b", "6 V\nof \\n", held.number))
        self.assertEqual((how(again, "guest-1")["session"], how(again, "supply")["holder"]), (guest.number, "guest-1"))
        back = await again.hold(Wish(ticket=TICKET, comes_back=True), owner)
        self.assertEqual((back.number, back.instruments), (held.number, ("scope",)))
        with self.assertRaises(Ended) as caught:
            await again.hold(Wish(ticket="one that lets go", comes_back=True), owner)
        self.assertEqual(caught.exception.kind, "LetGo")
        await again.let_go(back, owner)
        new = await again.hold(Wish(("scope",), ticket="one more ticket, a new one"), owner)
        self.assertEqual(new.number, 2 + times + 1 + 1, "no number is given twice")

    async def test_the_records_have_the_past(self) -> None:
        """Each session once, with its notes, though the file that had them is gone."""
        folder, owner = self.folder(), Owner()
        keeping = await self.small(folder)
        held = await keeping.hold(Wish(("scope",), ticket=TICKET), owner)
        for at in range(60):
            await keeping.note(held, owner, f"note {at}")
        times = 0
        while times < 20 or keeping._shell.turns.count < 3:
            await self.works(keeping, "load-1")
            times += 1
        for _ in range(2):
            await keeping.close()
            keeping = await self.small(folder)
        records, faults = read_records(folder)
        of = lambda what: [it for it in records if it["what"] == what]
        self.assertEqual(([it["text"] for it in of("note")], faults), ([f"note {at}" for at in range(60)], []))
        self.assertEqual(sorted(it["session"] for it in of("held")), list(range(1, times + 2)))
        self.assertEqual(sorted(it["session"] for it in of("let_go")), list(range(2, times + 2)))

    async def test_a_busy_bay(self) -> None:
        """One that is never quiet by itself is made so, and all go on."""
        folder, done = self.folder(), 0
        keeping = await self.small(folder)

        async def works(name: str) -> None:
            nonlocal done
            while keeping._shell.turns.count < 3:
                await self.works(keeping, name)
                done += 1

        # (a let-go is followed by the next wish at once, and the disk takes its time)
        real = os.fdatasync
        # (on a busy machine it takes longer to become quiet)
        with mock.patch.object(turning, "QUIET", SOON), mock.patch("os.fdatasync", lambda file: (threading.Event().wait(0.002), real(file))[1]):
            async with asyncio.timeout(LIMIT):
                await asyncio.gather(*(works(name) for name in ("scope", "supply", "load-1", "load-2")))
        self.assertGreater(done, 10)
        self.assertLess(len(journal_of(folder)), 4 * SIZE)


class Killed(OnSmall):
    async def test_at_each_call(self) -> None:
        """Before and behind each call by which a new file is made: what is in the folder then is enough, for whoever was told that it holds,
        and for whoever let go."""
        folder, copies = self.folder(), self.folder()
        keeping = await self.small(folder, 1 << 20)
        held = await keeping.hold(Wish(("scope",), station="board", ticket=TICKET, by="ann"), Owner())
        await keeping.note(held, (owner := held.owner), "5 V")
        await self.works(keeping, "load-1", times=3, ticket="one that lets go")
        await keeping._shell.durable(takes_all=True)
        names = list[str]()

        def copied(name: str) -> None:
            # (what is written to a file by the broker is seen by whoever comes next, whether it was synced or not)
            shutil.copytree(folder, f"{copies}/{len(names)}")
            names.append(name)

        with mock.patch.object(labrun.store, "os", Between(copied)):
            keeping._shell.turns.most = 100
            keeping._shell.pump()
            await eventually(lambda: keeping._shell.turns.count)
        self.assertEqual([it for it in names if it.startswith("before")], [f"before {it}" for it in ("open", "pwrite", "fsync", "replace", "close", "open", "fsync", "close")])
        self.assertIs(held.owner, owner)
        for at, name in enumerate(names):
            with self.subTest(f"{at}: {name}"):
                again = await self.small(f"{copies}/{at}")
                board = how(again, "board")
                self.assertEqual((board["state"], board["by"], board["note"], board["session"]), ("gone", "ann", "5 V", held.number))
                self.assertEqual([it["holder"] for it in again.status()["instruments"]], ["board", None, None, None])
                with self.assertRaises(Ended) as caught:
                    await again.hold(Wish(ticket="one that lets go", comes_back=True), Owner())
                self.assertEqual(caught.exception.kind, "LetGo")
                self.assertEqual(again._next, 5)
                await again.close()


class Fails(OnSmall):
    async def asyncSetUp(self) -> None:
        self.enterContext(mock.patch.multiple(shell, AGAIN=0.005, LATEST=0.01))

    async def test_each_call(self) -> None:
        """It is tried again, whichever call fails, and said; nobody is told that it holds before the new file stands."""
        for call in ("open", "pwrite", "fsync", "replace"):
            with self.subTest(call):
                folder, owner, said = self.folder(), Owner(), list[str]()
                keeping = await self.small(folder, 1 << 20)
                keeping.says = said.append
                held = await keeping.hold(Wish(("scope",), ticket=TICKET), owner)
                await self.works(keeping, "load-1", times=3)
                await keeping._shell.durable(takes_all=True)
                before, is_bad = journal_of(folder), True

                def fails(name: str) -> None:
                    if is_bad and name == f"before {call}":
                        raise OSError(28, "No space left on device")

                with mock.patch.object(labrun.store, "os", Between(fails)):
                    keeping._shell.turns.most = 100
                    keeping._shell.pump()
                    await eventually(lambda: said)
                    waits = asyncio.create_task(keeping.hold(Wish(("supply",)), owner))
                    lets_go = asyncio.create_task(keeping.let_go(held, owner))
                    await eventually(lets_go.done)
                    await asyncio.sleep(0.05)
                    self.assertEqual((waits.done(), journal_of(folder)), (False, before))
                    is_bad = False
                    supply = await waits
                self.assertRegex(said[0], "bay.journal: a write failed .No space left on device., and is tried again")
                self.assertRegex(said[-1], "bay.journal: all is written$")
                await keeping.close()
                again = await self.small(folder)
                self.assertEqual([it["holder"] for it in again.status()["instruments"]], [None, supply.name, None, None])
                await again.close()

    async def test_the_folders_sync(self) -> None:
        """The new file is there, and nobody knows whether it is after a power cut: it is made once more."""
        folder, owner, fails = self.folder(), Owner(), 2
        keeping = await self.small(folder, 1 << 20)
        await keeping.hold(Wish(("scope",), ticket=TICKET), owner)
        real = FileStore._syncs_folder

        def syncs(store: FileStore) -> None:
            nonlocal fails
            fails -= 1
            if fails >= 0:
                raise OSError(5, "Input/output error")
            real(store)

        with mock.patch.object(FileStore, "_syncs_folder", syncs):
            keeping._shell.turns.most = 100
            keeping._shell.pump()
            waits = asyncio.create_task(keeping.hold(Wish(("supply",)), owner))
            await waits
            # (it is made once the disk is quiet)
            await eventually(lambda: fails < 0)
        with self.assertRaisesRegex(JournalError, "another process has it open"):
            FileStore(f"{folder}/bay.journal")
        await keeping.close()

    async def test_records_that_are_lost(self) -> None:
        """They alone would have the past: so as long as they can't be kept, the journal keeps it."""
        folder, owner = self.folder(), Owner()
        keeping = await self.small(folder)
        assert keeping._news.file is not None
        keeping._news.file.is_whole = False
        await self.works(keeping, "load-1", times=20)
        await asyncio.sleep(0.1)
        self.assertEqual((keeping._shell.turns.count, journal_of(folder).count(b" hold ")), (0, 20))
        del owner

    async def test_a_disk_that_hangs(self) -> None:
        """Who lets go is answered once that is written, or told that it isn't known to be."""
        folder, owner, may = self.folder(), Owner(), threading.Event()
        self.addCleanup(may.set)
        keeping = await self.small(folder, 1 << 20)
        held = [await keeping.hold(Wish((name,), ticket=f"{TICKET} {name}"), owner) for name in ("scope", "supply")]
        await keeping._shell.durable(takes_all=True)
        real = FileStore.anew
        with mock.patch.object(FileStore, "anew", lambda store, text: (may.wait(LIMIT), real(store, text))[1]):
            keeping._shell.turns.most = 100
            keeping._shell.pump()
            await eventually(lambda: keeping._shell.turns.is_under_way)
            with mock.patch.object(turning, "STANDS", 0.1), self.assertRaisesRegex(JournalError, "the disk doesn't answer"):
                await keeping.let_go(held[0], owner)
            lets_go = asyncio.create_task(keeping.let_go(held[1], owner))
            await asyncio.sleep(0.05)
            self.assertFalse(lets_go.done())
            may.set()
            await lets_go
        self.assertEqual(journal_of(folder).count(b" let_go "), 2)


class Ends(OnSmall):
    """A broker that ends just as the journal is about to begin anew: whoever opens the folder next meets no write of it."""

    async def grown(self) -> str:
        """A folder whose journal has more than some hundred bytes."""
        folder = self.folder()
        keeping = await self.small(folder, 1 << 20)
        await self.works(keeping, "load-1", times=3)
        await keeping.close()
        return folder

    async def test_nothing_is_written_once_it_has_ended(self) -> None:
        folder, made, real = await self.grown(), list[str](), FileStore.anew

        def anew(store: FileStore, text: bytes) -> None:
            made.append("begun")
            threading.Event().wait(0.3)
            real(store, text)
            made.append("ended")

        with mock.patch.object(FileStore, "anew", anew):
            # (the end's own sync finds the bay quiet)
            await (await self.small(folder, 100)).close()
            self.assertEqual(made, ["begun", "ended"])
        self.assertEqual(sorted(os.listdir(folder)), ["bay.journal", "bay.json", "records.jsonl"])
        again = await self.small(folder, 1 << 20)
        self.assertEqual(again._next, 4)

    async def test_a_disk_that_hangs(self) -> None:
        """Nobody waits for ever for its end; and nobody else has the folder before the disk has answered."""
        folder, real = await self.grown(), FileStore.anew
        begun, may, ended = (threading.Event() for _ in range(3))
        self.addCleanup(may.set)

        def anew(store: FileStore, text: bytes) -> None:
            begun.set()
            may.wait(LIMIT)
            real(store, text)
            ended.set()

        with mock.patch.object(FileStore, "anew", anew), mock.patch.object(shell, "CLOSING", 0.5):
            keeping = await self.small(folder, 100)
            keeping._shell.pump()
            await eventually(begun.is_set)
            async with asyncio.timeout(LIMIT / 2):
                await keeping.close()
            with self.assertRaisesRegex(JournalError, "another process has it open"):
                FileStore(f"{folder}/bay.journal")
            may.set()
            await eventually(ended.is_set)
        assert keeping._opened.state is not None
        keeping._opened.state.close()
        self.assertEqual((await self.small(folder, 1 << 20))._next, 4)

    async def test_records_that_could_not_be_written(self) -> None:
        """By then the number of their file may be another's."""
        folder = self.folder()
        kept, real = records.Records(f"{folder}/records.jsonl"), os.write

        def write(file: int, text: bytes) -> int:
            if file == kept.file:
                raise OSError(28, "No space left on device")
            return real(file, text)

        kept.add({"what": "note"})
        with mock.patch("os.write", write):
            kept.close()
        with open(f"{folder}/other", "xb", buffering=0) as other:
            self.assertEqual(other.fileno(), kept.file)
            await asyncio.sleep(2 * records.AGAIN)
        self.assertEqual(os.path.getsize(f"{folder}/other"), 0)


class Files(unittest.TestCase):
    def test_a_lock_that_was_handed_on(self) -> None:
        """Whoever opened the file right before it was replaced doesn't take the old one for its own."""
        path = f"{self.enterContext(tempfile.TemporaryDirectory())}/journal"
        first = FileStore(path)
        first.write(b"one\n")

        real, is_first = os.open, True

        def opens(*given: Any) -> int:
            nonlocal is_first
            was_first, is_first = is_first, False
            file = real(*given)
            if was_first:
                first.anew(b"two\n")
            return file

        with mock.patch("os.open", opens), self.assertRaisesRegex(JournalError, "another process has it open"):
            FileStore(path)
        with open(path, "rb") as file:
            self.assertEqual(file.read(), b"two\n")
        first.write(b"three\n")
        first.cut(6)
        first.close()
        second = FileStore(path)
        self.assertEqual(second.text(), b"two\nth")
        second.close()


if __name__ == "__main__":
    unittest.main()
