"""A guard that lets clients in by their host, and accepts them late, or hears late who holds: whose a connection is."""

from __future__ import annotations

import asyncio
import contextlib
import signal
import socket
import time
import unittest
from typing import Any, Iterator, Optional

from labrun_broker import whose
from labrun_broker.whose import Answer, Asked, came
from tests.brokers import LIMIT, is_stopped, until
from tests.guards import REFUSED, BeforeInstruments, talk
from tests.test_guard_inside import Client, Inside, holder

# seconds, which tell two sessions apart even by a broker that answers late
APART = 1.0


def lines(one: socket.socket) -> list[str]:
    """All that comes, and whether it was reset."""
    one.settimeout(LIMIT)
    found, ends = b"", []
    with one:
        try:
            while data := one.recv(4096):
                found += data
        except ConnectionError:
            ends = ["reset"]
    return [*found.decode().splitlines(), *ends]


class Stopped(BeforeInstruments):
    """Sessions end and begin while it stands still, each with a client on this machine."""

    words = ("--by-host",)
    how = "by-host"

    @contextlib.contextmanager
    def stands_still(self) -> Iterator[None]:
        process = self.at.process
        assert process is not None
        process.send_signal(signal.SIGSTOP)
        try:
            until(lambda: is_stopped(process.pid), "that it is stopped")
            yield
        finally:
            process.send_signal(signal.SIGCONT)

    def connects(self, line: bytes = b"") -> socket.socket:
        one = socket.create_connection(("127.0.0.1", self.at.ports["scope"]), LIMIT)
        self.addCleanup(one.close)
        one.sendall(line)
        return one

    def test_a_client_of_the_session_before(self) -> None:
        """It is gone, or lives on; or it is of the session that the guard had heard of, or of one that it hadn't. Nothing of it reaches the
        instrument, and the one of the session that holds is never cut."""
        lab, turn = self.lab(), 0
        for is_gone in (True, False, True):
            for is_known in (True, False):
                with self.subTest(is_gone=is_gone, is_known=is_known), contextlib.ExitStack() as first:
                    turn += 1
                    if is_known:
                        first.enter_context(lab.hold("scope"))
                        # (so the guard has heard of it)
                        talk(("127.0.0.1", self.at.ports["scope"])).__exit__()
                    with self.stands_still():
                        if not is_known:
                            first.enter_context(lab.hold("scope"))
                        old = self.connects(b"ADD 1000\n")
                        if is_gone:
                            old.close()
                        first.close()
                        time.sleep(APART)
                        held = self.enterContext(contextlib.ExitStack())
                        held.enter_context(lab.hold("scope"))
                        new = self.connects()
                    with held, new, new.makefile("rb") as it:
                        if not is_gone:
                            self.assertEqual(lines(old), ["reset"])
                        self.assertEqual(it.readline(), b"READY\n")
                        for _ in range(50):
                            new.sendall(b"ADD 1\n")
                            self.assertEqual(it.readline(), b"OK\n")
                        new.sendall(b"READ?\nBYE\n")
                        self.assertEqual([it.readline() for _ in range(2)], [b"%d\n" % (50 * turn), b"OK\n"])
        self.assertEqual(self.refused(), 0)
        self.assertEqual(self.instruments.counts["scope"][0], 6 + 3)
        process = self.at.process
        assert process is not None and process.stderr is not None
        process.kill()
        self.assertIn("scope: a connection from 127.0.0.1 came before the session of guest-", process.stderr.read())

    def test_a_client_that_says_all_at_once(self) -> None:
        """`echo | nc`, at a guard that runs, and at one that stands still."""
        lab = self.lab()
        for stops in (False, True):
            with lab.hold("scope"):
                with self.stands_still() if stops else contextlib.nullcontext():
                    time.sleep(APART)
                    one = self.connects(b"*IDN?\nREAD?\n")
                    one.shutdown(socket.SHUT_WR)
                self.assertEqual(lines(one), ["READY", "scope", "0"])
        self.assertEqual(self.refused(), 0)

    def test_one_after_another(self) -> None:
        """Each begins, and its client comes, at once."""
        lab = self.lab()
        for _ in range(30):
            with lab.hold("scope"):
                one = self.connects(b"*IDN?\n")
                one.shutdown(socket.SHUT_WR)
                self.assertEqual(lines(one), ["READY", "scope"])
        self.assertEqual(self.refused(), 0)

    def test_the_broker_is_away(self) -> None:
        """Who holds may come anew; but not to a guard that stood still meanwhile, until the broker is back."""
        lab, at = self.lab(), ("127.0.0.1", self.at.ports["scope"])
        with lab.hold("scope"):
            talk(at).__exit__()
            self.at.broker.kill()
            talk(at).__exit__()
            with self.stands_still():
                one = self.connects(b"*IDN?\n")
                time.sleep(whose.LATE + APART)
            self.assertEqual(lines(one), ["reset"])
            with self.assertRaises(REFUSED):
                talk(at)
            self.at.broker.begin()
            until(lambda: self.answers(at), "it is let in again")

    def answers(self, at: tuple[str, int]) -> bool:
        try:
            with talk(at) as it:
                return it.ask("*IDN?") == "scope"
        except REFUSED:
            return False


class HearsLate(Inside):
    """What it is told comes after what the broker knows."""

    async def begins(self, *answers: tuple[int, Optional[float]]) -> None:
        """The broker gives these answers: a token, and for how long its session has held; the last one again and again."""
        self.answers, self.asked = list(answers), 0
        guard = await self.guard(by_host=True)
        guard._asks, guard._says = self.asks, self.said_of
        self.said = list[str]()

    def said_of(self, text: str) -> None:
        self.said.append(text)

    async def asks(self) -> Answer:
        self.asked += 1
        now = time.monotonic()
        return Answer(now, now, {"scope": self.answers.pop(0) if len(self.answers) > 1 else self.answers[0]})

    def told(self, token: int) -> None:
        self.its.told(None if not token else holder(token)._replace(host="here"))

    async def asking(self, client: Client) -> Any:
        task = asyncio.create_task(client.asks("*IDN?"))
        self.addCleanup(task.cancel)
        return task

    async def test_the_session_has_ended(self) -> None:
        """The guard hasn't heard that, nor of the next, whose client comes: that one waits, and isn't cut once it has."""
        await self.begins((2, LIMIT))
        self.told(1)
        answer = await self.asking(client := await self.client())
        await asyncio.sleep(0.5)
        self.assertEqual((self.instrument.count, answer.done()), (0, False))
        for token in (0, 2):
            self.told(token)
        self.assertEqual(await answer, "1")
        self.assertEqual(await client.asks("*IDN?"), "1")
        self.assertEqual((self.its.cuts, self.its.refusals, self.said), (0, 0, []))

    async def test_it_came_before_the_session(self) -> None:
        await self.begins((2, 0.1))
        answer = await self.asking(await self.client())
        await asyncio.sleep(APART)
        self.told(2)
        self.assertEqual(await answer, "")
        self.assertEqual((self.instrument.count, self.its.refusals), (0, 1))
        self.assertEqual(self.said, ["scope: a connection from 127.0.0.1 came before the session of guest-2 began, and isn't let through"])

    async def test_it_came_before_the_guard_had_heard(self) -> None:
        await self.begins((2, LIMIT))
        answer = await self.asking(await self.client())
        await asyncio.sleep(APART)
        self.told(2)
        self.assertEqual(await answer, "1")

    async def test_a_broker_that_began_again(self) -> None:
        """The wall clock was put back: for how long it says is too short. Whoever came since the guard was told is of this session all the same."""
        await self.begins((2, 0.0))
        self.told(2)
        # (the kernel's ticks)
        await asyncio.sleep(0.1)
        client = await self.client()
        self.assertEqual(await client.asks("*IDN?"), "1")
        client.writer.write(b"*IDN?\n")
        client.writer.write_eof()
        self.assertEqual(await client.reader.read(), b"1\n")
        late = await self.client()
        late.writer.write(b"*IDN?\n")
        late.writer.write_eof()
        self.assertEqual(await late.reader.read(), b"2\n")

    async def test_a_broker_that_says_no_spans(self) -> None:
        """An older one: whose client is gone isn't let through, if it came before the guard had heard of the session."""
        await self.begins((2, None))
        gone, there = await self.client(), await self.client()
        gone.writer.write(b"*IDN?\n")
        gone.writer.close()
        answer = await self.asking(there)
        await asyncio.sleep(APART)
        self.told(2)
        self.assertEqual(await answer, "1")
        self.assertEqual((self.instrument.count, self.its.refusals), (1, 1))

    async def test_a_broker_that_is_away(self) -> None:
        await self.begins((0, None))
        self.its._asks = whose.nobody
        early = await self.asking(await self.client())
        await asyncio.sleep(APART)
        self.told(2)
        self.assertEqual(await early, "")
        self.assertEqual(await (await self.client()).asks("*IDN?"), "1")
        self.its.is_sure = False
        self.assertEqual(await (await self.client()).asks("*IDN?"), "")
        self.assertEqual(len(self.said), 2, self.said)


class Moments(unittest.IsolatedAsyncioTestCase):
    def test_when_it_came(self) -> None:
        """Though it is accepted late, and has said something since."""
        with socket.create_server(("127.0.0.1", 0)) as listening:
            whose.notes_moments(listening)
            before = time.monotonic()
            with socket.create_connection(listening.getsockname()) as client:
                after = time.monotonic()
                time.sleep(APART)
                spoke = time.monotonic()
                client.sendall(b"*IDN?\n")
                had = time.monotonic()
                time.sleep(APART)
                with listening.accept()[0] as one:
                    at, words_at = came(one), whose.spoke(one)
                    assert words_at is not None
                    # (the wall clock may be adjusted a little meanwhile)
                    self.assertTrue(spoke - 0.1 <= words_at <= had + 0.1, (spoke, words_at, had))
                    self.assertFalse(whose.has_left(one))
                    client.shutdown(socket.SHUT_WR)
                    until(lambda: whose.has_left(one), "that it has said all")
        self.assertLessEqual(at.first, after)
        self.assertGreaterEqual(at.last, before)
        self.assertLess(at.last, spoke)

    async def test_a_question_is_put_after_it_is_wanted(self) -> None:
        """Those who want one while one is out share the next."""
        begun, may = list[float](), asyncio.Event()

        async def puts() -> Answer:
            begun.append(time.monotonic())
            await may.wait()
            return Answer(begun[-1], time.monotonic(), {})

        asked = Asked(puts)
        first = asyncio.create_task(asked.answer())
        while not begun:
            await asyncio.sleep(0.01)
        wanted_at, more = time.monotonic(), [asyncio.create_task(asked.answer()) for _ in range(5)]
        await asyncio.sleep(0.1)
        self.assertEqual(len(begun), 1)
        may.set()
        found = [await it for it in more]
        self.assertEqual(len(begun), 2)
        for it in found:
            assert it is not None
            self.assertGreaterEqual(it.asked_at, wanted_at)
        await first


if __name__ == "__main__":
    unittest.main()
