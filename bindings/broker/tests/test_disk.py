"""When what was written is on the disk: how many syncs, who waits for them, and what becomes of a write that fails."""

import asyncio
import os
import random
import tempfile
import threading
import time
import unittest
import unittest.mock
from typing import Any, Callable, Optional

from labrun import JournalError
from labrun.machine import HOLDS, LET_GO, NEVER, Machine, Terms, Told
from labrun.store import FileStore
from labrun_broker import shell
from labrun_broker.journals import Left, notes_of, sessions_of
from labrun_broker.shell import SOON, Shell
from tests.brokers import LIMIT


TERMS = Terms(b"x" * 32, 1000, NEVER, NEVER, 4, True)


class Store:
    """Has what was written in memory. It waits with a sync, or fails, as a test says."""

    path = "a store"

    def __init__(self) -> None:
        self.written, self.cuts, self.syncs, self.begun = b"", list[int](), list[bytes](), 0
        self.may = threading.Event()
        self.may.set()
        self.fault: Optional[OSError] = None
        self.fails_at: tuple[str, ...] = ()

    def _does(self, what: str) -> None:
        if self.fault is not None and what in self.fails_at:
            raise self.fault

    def text(self) -> bytes:
        return self.written

    def cut(self, length: int) -> None:
        self._does("cut")
        self.cuts.append(length)
        self.written = self.written[:length]

    def write(self, text: bytes) -> None:
        if "write" in self.fails_at and self.fault is not None:
            self.written += text[: len(text) // 2]
        self._does("write")
        self.written += text

    def append(self, text: bytes) -> None:
        raise AssertionError("nobody calls it")

    def sync(self) -> None:
        length = len(self.written)
        self.begun += 1
        self.may.wait(LIMIT)
        self._does("sync")
        self.syncs.append(self.written[:length])

    def close(self) -> None: ...


class OnShell(unittest.IsolatedAsyncioTestCase):
    async def asyncSetUp(self) -> None:
        self.store, self.told, self.said, self.beside = Store(), list[Told](), list[str](), 0
        self.addCleanup(self.store.may.set)
        machine = Machine([(15, 4)], TERMS)
        self.shell = Shell(machine, self.store, 5000, self.told.append, self.synced_beside, self.said.append)
        self.addAsyncCleanup(self.shell.close)

    def synced_beside(self) -> None:
        self.beside += 1

    def asks(self, number: int, bits: int = 0) -> None:
        self.shell.machine.ask(number, (1, number), 0, [bits or 1 << number % 4], NEVER, NEVER, self.shell.now())
        self.shell.pump()

    def lets_go(self, number: int) -> None:
        self.shell.machine.let_go(number, self.shell.now())
        self.shell.pump()

    def holders(self) -> list[int]:
        return [it.number for it in self.told if it.what == HOLDS]

    async def until(self, count: int) -> None:
        await self.until_so(lambda: len(self.told) >= count)

    async def until_so(self, is_so: Callable[[], Any]) -> None:
        async with asyncio.timeout(LIMIT):
            while not is_so():
                await asyncio.sleep(0.001)


class Disks(OnShell):
    async def test_one_sync_for_all_of_a_round(self) -> None:
        for number in range(1, 5):
            self.asks(number)
        self.assertEqual((self.told, self.store.written.count(b" hold ")), ([], 4), "it is written at once")
        await self.until(4)
        self.assertEqual((sorted(self.holders()), len(self.store.syncs)), ([1, 2, 3, 4], 1))

    async def test_a_slow_disk(self) -> None:
        """The loop goes on, and who comes during a sync waits for the next one, all for the same."""
        self.store.may.clear()
        self.asks(1)
        await self.until_so(lambda: self.store.begun)
        for number in (2, 3, 4):
            self.asks(number)
            await asyncio.sleep(0.01)
        self.assertEqual(self.told, [])
        self.store.may.set()
        await self.until(4)
        self.assertEqual((self.holders()[0], [it.count(b" hold ") for it in self.store.syncs]), (1, [1, 4]))

    async def test_nobody_is_told_before_it_is_durable(self) -> None:
        """Whatever is told, at that moment its line is in what was synced."""
        told = self.told.append

        def tells(it: Told) -> None:
            line = f" hold {it.number:016x} " if it.what == HOLDS else f" end {it.number:016x} let_go "
            self.assertIn(line.encode(), self.store.syncs[-1])
            told(it)

        self.shell._tells = tells
        for number in range(1, 40):
            self.asks(number, 1)
            await self.until(2 * number - 1)
            self.lets_go(number)
        await self.until(78)
        self.assertEqual([it.what for it in self.told], [HOLDS, LET_GO] * 39)

    async def test_soon(self) -> None:
        """A let-go is written at once, and synced soon though nobody waits for it; and so is what is beside."""
        self.asks(1)
        await self.until(1)
        self.lets_go(1)
        self.assertIn(b" let_go ", self.store.written)
        self.assertEqual((len(self.store.syncs), self.beside), (1, 0))
        begun = self.shell._loop.time()
        await self.until_so(lambda: self.beside)
        self.assertEqual((len(self.store.syncs), self.beside), (2, 1))
        self.assertLess(self.shell._loop.time() - begun, LIMIT / 3)

    async def test_who_waits_for_a_position(self) -> None:
        self.store.may.clear()
        self.asks(1)
        waits = [asyncio.create_task(self.shell.durable()) for _ in range(3)]
        await asyncio.sleep(0.02)
        waits[0].cancel()
        self.assertFalse(any(it.done() for it in waits[1:]))
        self.store.may.set()
        await asyncio.gather(*waits[1:])
        await self.shell.durable()
        self.assertTrue(waits[0].cancelled())

    async def test_closed(self) -> None:
        self.asks(1)
        await self.until(1)
        self.lets_go(1)
        await self.shell.close()
        self.assertEqual((self.store.syncs[-1], self.beside), (self.store.written, 1))

    async def test_moments(self) -> None:
        """They go on from where they were to begin, and never fall."""
        last, begun = 5000, self.shell._loop.time()
        for _ in range(200):
            now = self.shell.now()
            # (from when it began, which was a moment before this)
            self.assertTrue(last <= now <= 5000 + 2000 + 1000 * (self.shell._loop.time() - begun))
            last = now
            await asyncio.sleep(0)

    async def test_a_deadline(self) -> None:
        """The timer tells it, and nobody has to call."""
        self.asks(1, 1)
        await self.until(1)
        for number in range(2, 7):
            now = self.shell.now()
            self.shell.machine.ask(number, (1, number), 0, [1], now + 100, NEVER, now)
            self.shell.pump()
            await self.until(number)
            self.assertEqual(self.told[-1].number, number)
            self.assertLessEqual(now + 100, self.shell.now())
            # (a busy machine may be late once)
            if self.shell.now() < now + 1000:
                break
        else:
            self.fail("it is told a second too late each time")


class Faults(OnShell):
    async def asyncSetUp(self) -> None:
        await super().asyncSetUp()
        self.enterContext(unittest.mock.patch.multiple(shell, AGAIN=0.005, LATEST=0.01))
        self.shell._pause = 0.005

    async def test_it_is_cut_back_and_written_again(self) -> None:
        """As often as it takes, and nobody is told meanwhile. At all times it is a beginning of one text."""
        self.asks(1)
        await self.until(1)
        before = self.store.written
        for at in ("write", "sync"):
            with self.subTest(at):
                self.store.fault, self.store.fails_at, count = OSError(28, "No space left on device"), (at,), len(self.told)
                self.lets_go(self.holders()[-1])
                self.asks(self.holders()[-1] + 1)
                await self.until_so(lambda: self.store.cuts)
                failed = "a store: it isn't on the disk after 0.1 s: a write failed .No space left on device"
                with unittest.mock.patch.object(shell, "DISK", 0.1), self.assertRaisesRegex(JournalError, failed):
                    await self.shell.durable()
                self.assertEqual((len(self.told), set(self.store.cuts)), (count, {len(before)}))
                self.store.fails_at = at, "cut"
                await asyncio.sleep(0.05)
                self.assertEqual(len(self.told), count)
                self.store.fault = None
                await self.until(count + 2)
                await self.shell.durable()
                self.assertTrue(self.store.written.startswith(before))
                self.assertEqual(self.store.syncs[-1], self.store.written)
                before = self.store.written
                self.store.cuts.clear()
        holds = sessions_of(self.store.written)
        self.assertEqual([(it.number, it.how) for it in holds.values()], [(1, "let_go"), (2, "let_go"), (3, "")])
        self.assertEqual(len(self.said), 4)
        self.assertRegex(self.said[0], "^a store: a write failed .No space left on device., and is tried again: nobody is told that it holds until then$")
        self.assertEqual(self.said[1], "a store: all is written")

    async def test_a_sync_that_was_due(self) -> None:
        """A let-go is to be synced soon, and the next write fails before that: what is cut off doesn't count as synced."""
        cut = self.store.cut

        def slowly(length: int) -> None:
            cut(length)
            time.sleep(3 * SOON)

        self.asks(1)
        await self.until(1)
        self.lets_go(1)
        self.store.cut, self.store.fault, self.store.fails_at = slowly, OSError(28, "No space left on device"), ("write",)  # type: ignore[method-assign]
        self.asks(2)
        self.store.fault = None
        await self.until(3)
        await self.shell.durable()
        self.assertEqual([it.how for it in sessions_of(self.store.written).values()], ["let_go", ""])
        self.assertEqual(Machine([(15, 4)], TERMS, self.store.written).used, len(self.store.written))

    async def test_closed_meanwhile(self) -> None:
        self.store.fault, self.store.fails_at = OSError(28, "No space left on device"), ("write",)
        self.asks(1)
        with unittest.mock.patch.object(shell, "CLOSING", 0.05):
            await self.shell.close()
        await asyncio.sleep(0.05)
        self.assertEqual(self.told, [])


class Chance(OnShell):
    """A store that fails by chance, in whatever it does, while some ask and let go."""

    async def test_what_was_told_comes_back(self) -> None:
        """At each moment, from what is synced, as after a power cut, and from what is written, as after a kill."""
        self.enterContext(unittest.mock.patch.multiple(shell, AGAIN=0.001, LATEST=0.004, SOON=0.004))
        self.shell._pause, chance, does = 0.001, random.Random(1), self.store._does
        fails = 0

        def by_chance(what: str) -> None:
            nonlocal fails
            if chance.random() < 0.25:
                fails += 1
                raise OSError(28, "No space left on device")
            does(what)

        self.store._does = by_chance  # type: ignore[method-assign]
        let_go = set[int]()
        for number in range(1, 4000):
            # (the slower the machine, the more it writes at once)
            if number >= 400 and fails > 50:
                break
            if chance.random() < 0.6 or not (holding := [it for it in self.holders() if it not in let_go]):
                self.asks(number)
            else:
                let_go.add(holding[0])
                self.lets_go(holding[0])
            await asyncio.sleep(chance.choice([0, 0, 0.001, 0.003]))
            for text in (self.store.syncs[-1] if self.store.syncs else b"", self.store.written):
                self.is_as_told(text, let_go)
        self.assertGreater(fails, 50)
        self.store._does = does  # type: ignore[method-assign]
        await self.shell.durable()
        self.is_as_told(self.store.written, let_go)

    def is_as_told(self, text: bytes, let_go: set[int]) -> None:
        whole = text[: text.rfind(b"\n") + 1]
        back = {it.number for it in Machine([(15, 4)], TERMS, whole).standings() if it.what == HOLDS} if whole else set()
        over = {it.number for it in self.told if it.what == LET_GO}
        self.assertLessEqual(set(self.holders()) - let_go, back)
        self.assertFalse(over & back)


class Files(unittest.TestCase):
    """A file as a store."""

    def store(self) -> FileStore:
        store = FileStore(self.path)
        self.addCleanup(store.close)
        return store

    def setUp(self) -> None:
        self.path = f"{self.enterContext(tempfile.TemporaryDirectory())}/journal"

    def text(self) -> bytes:
        with open(self.path, "rb") as file:
            return file.read()

    def test_it_stands_behind_what_there_is(self) -> None:
        store = self.store()
        for text in (b"one\n", b"two\n"):
            store.write(text)
        store.sync()
        store.cut(4)
        store.write(b"three\n")
        self.assertEqual(self.text(), b"one\nthree\n")
        with self.assertRaisesRegex(JournalError, "another process has it open"):
            FileStore(self.path)
        store.close()
        self.assertEqual(self.store().text(), b"one\nthree\n")

    def test_a_write_that_fails(self) -> None:
        """A part of it may be there, until it is cut off."""
        store, pwrite = self.store(), os.pwrite
        store.write(b"one\n")

        def fails(file: int, text: bytes, place: int) -> int:
            if len(text) < 4:
                raise OSError(28, "No space left on device")
            return pwrite(file, text[:3], place)

        with unittest.mock.patch("os.pwrite", fails), self.assertRaises(OSError):
            store.write(b"two and more\n")
        self.assertTrue(b"one\n" < self.text() < b"one\ntwo and more\n")
        store.cut(4)
        store.write(b"three\n")
        self.assertEqual(self.text(), b"one\nthree\n")


JOURNAL = """\
0123456789abcdef bay 00
0123456789abcdef hold 0000000000000007 00000001 0000000000000003 000000000000000100000000000000ff 00000000000003e8 ---------------- 0000000000000320 0000000000000001
0123456789abcdef note 0000000000000007 by board ann@bench-3: a: b
0123456789abcdef note 0000000000000007 note 5 V\\n of 
0123456789abcdef note 0000000000000007 more \\\\n6
0123456789abcdef note 0000000000000007 note again
0123456789abcdef note 0000000000000007 failed smoke
0123456789abcdef end 0000000000000007 let_go 00000000000005dc
0123456789abcdef hold 0000000000000005 00000000 0000000000000001 00000000000000020000000000000002 00000000000007d0 ---------------- 00000000000007d0 0000000000000003
0123456789abcdef note 0000000000000005 by guest-2 
0123456789abcdef note 0000000000000005 taken eve
0123456789abcdef end 0000000000000005 taken_away 00000000000009c4
0123456789abcdef hold 0000000000000009 00000000 0000000000000001 00000000000000030000000000000003 0000000000000bb8 ---------------- 0000000000000bb8 0000000000000004
"""


class Lines(unittest.TestCase):
    def test_sessions(self) -> None:
        first, second, third = sessions_of(JOURNAL.encode()).values()
        self.assertEqual((first.number, first.kind, first.needs, first.owner, first.asked, first.since), (7, 1, 3, (1, 255), 800, 1000))
        self.assertEqual([it.token for it in (first, second, third)], [1, 3, 4])
        self.assertEqual((first.station, first.by, first.notes, first.failed), ("board", "ann@bench-3: a: b", ["5 V\n of \\n6", "again"], "smoke"))
        self.assertEqual((first.how, first.what, first.until), ("let_go", "failed", 1500))
        self.assertEqual((second.station, second.by, second.taken, second.what, second.until), ("guest-2", "", "eve", "taken", 2500))
        self.assertEqual((third.how, third.station, third.until), ("", "", None))

    def test_each_end(self) -> None:
        whats = {"let_go": "let_go", "left": "gave_up", "lapsed": "gave_up", "stopped": "gave_up", "not_written": "failed", "limit": "taken", "grace": "taken"}
        for how, what in {**whats, "taken_away": "taken", "replaced": "taken"}.items():
            self.assertEqual(Left(1, 0, 1, (0, 1), 0, 0, 1, how=how).what, what, how)

    def test_texts(self) -> None:
        """Each line fits, has no end of a line within, and all together are the text again."""
        for text in ("", "5 V", "\\", "\\n", "\n\r\\" * 400, "\\" * 961, "a" * 479 + "\n" * 9, "\u00fc\U0001f600" * 300):
            lines = notes_of("note", text)
            for it in lines:
                self.assertLessEqual(len(it), 500)
                self.assertNotRegex(it, b"[\r\n]")
            of = "".join(f"{'0' * 16} note {1:016x} {it.decode()}\n" for it in lines)
            hold = f"{'0' * 16} hold {1:016x} {0:08x} {1:016x} {1:032x} {0:016x} {'-' * 16} {0:016x} {1:016x}\n"
            self.assertEqual(sessions_of((hold + of).encode())[1].notes, [text])


if __name__ == "__main__":
    unittest.main()
