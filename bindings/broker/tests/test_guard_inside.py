"""A guard on a loop of its own, before an instrument that counts its connections; and what a broker tells it."""

from __future__ import annotations

import asyncio
import asyncio.selector_events
import contextlib
import hashlib
import os
import socket
import ssl
import subprocess
import tempfile
import threading
import unittest
from typing import Any, Optional
from unittest import mock

from labrun.machine import HOLDS
from labrun_broker import guard as guards
from labrun_broker.forward import Ways
from labrun_broker.guard import Caller, Guard, Holder, Way
from labrun_broker.guarding import holders
from labrun_broker.wishes import Wish, digits_of, owner_of
from tests.brokers import LIMIT
from tests.test_keeping import TICKET, OnFolder, Owner, eventually

TICKETS = [letter * 20 for letter in "abcdefgh"]


def holder(token: int, ticket: Optional[str] = None) -> Holder:
    """Who holds with this token. (The ticket is that of this number, unless said.)"""
    return Holder(token, hashlib.sha256((ticket or TICKETS[token]).encode()).hexdigest()[:32], f"guest-{token}")


class Instrument:
    """It answers each line by the number of its connection, and counts how many are open at once."""

    def __init__(self) -> None:
        self.open = self.most = self.count = 0
        self.lines: list[tuple[int, bytes]] = []

    async def begins(self) -> int:
        self.server = await asyncio.start_server(self.comes, "127.0.0.1", 0)
        port: int = self.server.sockets[0].getsockname()[1]
        return port

    async def comes(self, reader: asyncio.StreamReader, writer: asyncio.StreamWriter) -> None:
        self.count, self.open = self.count + 1, self.open + 1
        self.most, number = max(self.most, self.open), self.count
        with contextlib.suppress(OSError):
            while line := await reader.readline():
                self.lines.append((number, line))
                writer.write(b"%d\n" % number)
                await writer.drain()
        self.open -= 1
        writer.close()


class Client:
    def __init__(self, reader: asyncio.StreamReader, writer: asyncio.StreamWriter) -> None:
        self.reader, self.writer = reader, writer

    async def asks(self, line: str) -> str:
        """An empty answer: the connection has ended."""
        try:
            self.writer.write(line.encode() + b"\n")
            async with asyncio.timeout(LIMIT):
                return (await self.reader.readline()).decode().rstrip("\n")
        except ConnectionError:
            return ""


class Inside(unittest.IsolatedAsyncioTestCase):
    async def asyncSetUp(self) -> None:
        self.instrument = Instrument()
        self.port = await self.instrument.begins()
        self.addCleanup(self.instrument.server.close)

    async def guard(self, **more: Any) -> Guard:
        self.its = Guard(Way("scope", "127.0.0.1", self.port, **more))
        self.server = await asyncio.get_running_loop().create_server(lambda: Caller(self.its), "127.0.0.1", 0)
        self.addCleanup(self.server.close)
        self.addCleanup(self.its.told, None)
        return self.its

    async def client(self) -> Client:
        client = Client(*await asyncio.open_connection(*self.server.sockets[0].getsockname()))
        self.addCleanup(client.writer.close)
        return client

    async def through(self, token: int) -> Client:
        client = await self.client()
        self.assertEqual(await client.asks(f"labrun {TICKETS[token]}"), "ok")
        return client


class Exclusion(Inside):
    async def test_the_old_one_is_closed_before_the_next_is_opened(self) -> None:
        """Though the close of the old one takes a while."""
        real = asyncio.selector_events._SelectorTransport.abort  # type: ignore[attr-defined]

        def slow(transport: Any) -> None:
            asyncio.get_running_loop().call_later(0.3, real, transport)

        guard = await self.guard()
        guard.told(holder(1))
        old = await self.through(1)
        self.assertEqual(await old.asks("*IDN?"), "1")
        begun = asyncio.get_running_loop().time()
        with mock.patch.object(asyncio.selector_events._SelectorTransport, "abort", slow):  # type: ignore[attr-defined]
            guard.told(holder(2))
            next_one = await self.through(2)
        self.assertEqual(await next_one.asks("*IDN?"), "2")
        self.assertGreater(asyncio.get_running_loop().time(), begun + 0.29)
        self.assertEqual((self.instrument.most, self.instrument.count), (1, 2))
        self.assertEqual(await old.asks("*IDN?"), "")

    async def test_many_times_over(self) -> None:
        guard = await self.guard()
        for token in range(1, 101):
            guard.told(holder(token, "t" * 16 + str(token)))
            clients = []
            for _ in range(1 + token % 3):
                client = await self.client()
                self.assertEqual(await client.asks("labrun " + "t" * 16 + str(token)), "ok")
                clients.append(client)
            self.instrument.most = self.instrument.open
            self.assertEqual([bool(await it.asks("*IDN?")) for it in clients], [True] * len(clients))
            self.assertEqual(self.instrument.open, len(clients))
        self.assertEqual(guard.cuts, sum(1 + token % 3 for token in range(1, 100)))
        self.assertEqual(guard.refusals, 0)

    async def test_an_older_one_is_ignored(self) -> None:
        guard = await self.guard()
        guard.told(holder(5))
        client = await self.through(5)
        guard.told(holder(4))
        self.assertEqual(await client.asks("*IDN?"), "1")
        guard.told(None)
        self.assertEqual(await client.asks("*IDN?"), "")
        guard.told(holder(4))
        with mock.patch.object(guards, "PATIENCE", 0.1):
            self.assertEqual(await (await self.client()).asks(f"labrun {TICKETS[4]}"), "no: the broker can't be reached, and when it last was, scope was held by nobody")
        # (what wasn't written down when the broker was killed holds again)
        guard.told(holder(5))
        await self.through(5)

    async def test_who_comes_before_the_guard_has_heard(self) -> None:
        guard = await self.guard()
        guard.told(holder(1))
        old = await self.through(1)
        client = await self.client()
        answer = asyncio.create_task(client.asks(f"labrun {TICKETS[2]}"))
        await asyncio.sleep(0.2)
        self.assertFalse(answer.done())
        self.assertEqual(await old.asks("*IDN?"), "1")
        guard.told(holder(2))
        self.assertEqual(await answer, "ok")
        self.assertEqual(await client.asks("*IDN?"), "2")

    async def test_one_that_is_being_opened(self) -> None:
        """Its session ends meanwhile: it isn't opened, and holds up nobody."""
        begun, may, real = asyncio.Event(), asyncio.Event(), guards.connected

        async def slow(host: str, port: int) -> Any:
            begun.set()
            await may.wait()
            return await real(host, port)

        guard = await self.guard()
        guard.told(holder(1))
        old = await self.client()
        with mock.patch.object(guards, "connected", slow):
            answer = asyncio.create_task(old.asks(f"labrun {TICKETS[1]}"))
            await asyncio.wait_for(begun.wait(), LIMIT)
        guard.told(holder(2))
        may.set()
        self.assertEqual(await answer, "")
        self.assertEqual(await (await self.through(2)).asks("*IDN?"), "1")

    async def test_one_that_leaves_while_it_waits(self) -> None:
        guard, real, came = await self.guard(), Guard._token_of, list[int]()

        async def counted(guard: Guard, is_its: Any) -> int:
            came.append(1)
            return await real(guard, is_its)

        with mock.patch.object(Guard, "_token_of", counted):
            for _ in range(guards.MOST_WAITING + 10):
                client = await self.client()
                client.writer.write(b"labrun nobody\n")
                client.writer.close()
            await eventually(lambda: len(came) == guards.MOST_WAITING + 10 and not guard._waiting)
        guard.told(holder(1))
        await self.through(1)

    async def test_an_instrument_that_is_away(self) -> None:
        guard = await self.guard()
        self.instrument.server.close()
        await self.instrument.server.wait_closed()
        guard.told(holder(1))
        client = await self.client()
        self.assertRegex(await client.asks(f"labrun {TICKETS[1]}"), "no: scope doesn't answer: connection refused$")


class Between(Inside):
    async def test_settle(self) -> None:
        guard, loop = await self.guard(settle=2.0), asyncio.get_running_loop()
        guard.told(holder(1))
        await self.through(1)
        begun = loop.time()
        await self.through(1)
        self.assertLess(loop.time(), begun + 1.9, "of one session the next needn't wait")
        begun = loop.time()
        guard.told(holder(2))
        await self.through(2)
        self.assertGreaterEqual(loop.time(), begun + 1.95)

    async def test_clear(self) -> None:
        guard = await self.guard(clear="*CLS")
        for token in (1, 2):
            guard.told(holder(token))
            client = await self.through(token)
            self.assertEqual(await client.reader.readline(), b"%d\n" % (2 * token - 1))
            self.assertEqual(await client.asks("*IDN?"), str(2 * token - 1))
            self.assertEqual(await (await self.through(token)).asks("*IDN?"), str(2 * token))
        self.assertEqual([line for _, line in self.instrument.lines], [b"*CLS\n", b"*IDN?\n", b"*IDN?\n"] * 2)

    async def test_halves(self) -> None:
        """A client that has said all gets what is answered."""
        guard = await self.guard()
        guard.told(holder(1))
        client = await self.through(1)
        client.writer.write(b"a\nb\n")
        client.writer.write_eof()
        self.assertEqual(await client.reader.read(), b"1\n1\n")
        await eventually(lambda: (self.instrument.open, len(guard.through)) == (0, 0))

    async def test_a_long_answer_is_whole(self) -> None:
        """Though its connection is one that would be reset if the guard died: whoever says first that it is all, and however late it is read."""
        length = 1 << 24

        async def answers(reader: asyncio.StreamReader, writer: asyncio.StreamWriter) -> None:
            line = await reader.readline()
            if line == b"all\n":
                self.assertEqual(await reader.read(), b"")
            writer.write(bytes(length))
            writer.close()

        self.instrument.server.close()
        server = await asyncio.start_server(answers, "127.0.0.1", 0)
        self.addCleanup(server.close)
        self.port = server.sockets[0].getsockname()[1]
        guard = await self.guard()
        guard.told(holder(1))
        for line in (b"all\n", b"more\n"):
            with self.subTest(line), mock.patch.object(guards, "PATIENCE", 2 * LIMIT):
                client = await self.through(1)
                client.writer.write(line)
                if line == b"all\n":
                    client.writer.write_eof()
                [one] = guard.through
                await eventually(lambda: one.caller.transport.get_write_buffer_size())
                async with asyncio.timeout(LIMIT):
                    self.assertEqual(len(await client.reader.read()), length)
                client.writer.close()
                await eventually(lambda: not guard.through)

    async def test_bytes_that_another_guard_had(self) -> None:
        """One that was started again waits for them only as long as a connection of the session is open."""
        guard = await self.guard()
        guard.told(holder(1))
        client, ends = await self.through(1), await self.client()
        self.assertEqual(await client.asks("abc"), "1")
        with mock.patch.object(guards, "PATIENCE", 2 * LIMIT):
            answer = asyncio.create_task(ends.asks(f"labrun {TICKETS[1]} ends 1000"))
            self.assertFalse((await asyncio.wait({answer}, timeout=0.5))[0])
            client.writer.close()
            self.assertEqual(await answer, "ok")

    async def test_numbers(self) -> None:
        try:
            from labrun_broker.guard_metrics import serve_metrics
        except ImportError as lacking:
            raise unittest.SkipTest(str(lacking)) from None
        guard = await self.guard()
        guard.is_told = True
        guard.told(holder(1))
        client = await self.through(1)
        self.assertEqual(await client.asks("abc"), "1")
        guard.told(holder(2))
        self.assertEqual(await client.asks("abc"), "")
        with mock.patch.object(guards, "PATIENCE", 0.1):
            self.assertEqual((await (await self.client()).asks(f"labrun {TICKETS[1]}"))[:3], "no:")
        client = await self.through(2)
        self.assertEqual(await client.asks("abcdef"), "2")
        served = await serve_metrics([guard], "127.0.0.1:0")
        reader, writer = await asyncio.open_connection(*served.sockets[0].getsockname())
        writer.write(b"GET /metrics HTTP/1.0\r\nHost: 127.0.0.1\r\n\r\n")
        text = (await reader.read()).decode()
        writer.close()
        await served.cleanup()
        lines = [it.rsplit(" ", 1) for it in text.splitlines() if it.startswith("labrun_") and "_created" not in it]
        # `abc`, `abcdef` and their two line ends; two answers of two bytes each
        counts = {"connections_total": 2, "cuts_total": 1, "refusals_total": 1, "sent_bytes_total": 11, "received_bytes_total": 4, "open": 1}
        wanted = {f'labrun_guard_{name}{{instrument="scope"}}': float(it) for name, it in counts.items()}
        self.assertEqual({name: float(value) for name, value in lines}, {**wanted, "labrun_guard_broker": 1.0})


class ByHost(Inside):
    async def test_whose_machine(self) -> None:
        """The client comes from 127.0.0.1; the holder from there, from elsewhere, from the broker's machine, or it is gone."""
        guard = await self.guard(by_host=True)
        for token, (host, is_let) in enumerate((("127.0.0.1", True), ("10.1.2.3", False), ("::ffff:127.0.0.1", True), (None, False), ("here", True)), 1):
            with self.subTest(host), mock.patch.object(guards, "PATIENCE", LIMIT if is_let else 0.1):
                guard.told(holder(token)._replace(host=host))
                self.assertEqual(bool(await (await self.client()).asks("*IDN?")), is_let)
        # its client is gone, and was here
        guard.told(holder(5))
        self.assertNotEqual(await (await self.client()).asks("*IDN?"), "")

    async def test_a_broker_elsewhere(self) -> None:
        guard = await self.guard(by_host=True)
        for where, is_let in ((frozenset({"10.1.2.3"}), False), (frozenset({"127.0.0.1"}), True)):
            guard._where = lambda: where
            with mock.patch.object(guards, "PATIENCE", LIMIT if is_let else 0.1):
                guard.told(holder(1)._replace(host="here"))
                self.assertEqual(bool(await (await self.client()).asks("*IDN?")), is_let)


    async def test_why_not(self) -> None:
        """A client that says nothing can't be told why it isn't let through: the guard says it."""
        guard, said = await self.guard(by_host=True), list[str]()
        guard._says = said.append
        with mock.patch.object(guards, "PATIENCE", 0.1):
            self.assertEqual(await (await self.client()).asks("*IDN?"), "")
            guard.told(holder(2)._replace(host="10.1.2.3"))
            self.assertEqual(await (await self.client()).asks("*IDN?"), "")
            guard.is_told = True
            guard.told(None)
            self.assertEqual(await (await self.client()).asks("*IDN?"), "")
            guard.told(holder(3)._replace(host="10.1.2.3"))
            self.assertEqual(await (await self.client()).asks("*IDN?"), "")
        because = "scope: a connection from 127.0.0.1 isn't let through, because"
        away = "the broker can't be reached, and"
        whys = [f"{away} hasn't been since this guard began", f"{away} when it last was, scope was held by guest-2", "scope is held by nobody", "scope is held by guest-3"]
        self.assertEqual(said, [f"{because} {why}" for why in whys])


class WithTls(Inside):
    def context(self, folder: str) -> ssl.SSLContext:
        for name in ("one", "other"):
            words = ["openssl", "req", "-x509", "-newkey", "ec", "-pkeyopt", "ec_paramgen_curve:prime256v1", "-nodes", "-days", "2", "-subj", "/CN=it"]
            words += ["-addext", "subjectAltName=IP:127.0.0.1", "-keyout", f"{folder}/{name}.key", "-out", f"{folder}/{name}"]
            subprocess.run(words, check=True, capture_output=True)
        context = ssl.SSLContext(ssl.PROTOCOL_TLS_SERVER)
        context.load_cert_chain(f"{folder}/one", f"{folder}/one.key")
        return context

    async def test_an_end_that_tls_does_not_say(self) -> None:
        """What a guard that is cut off, or dead, has begun to answer doesn't look whole."""
        folder, is_orderly = self.enterContext(tempfile.TemporaryDirectory()), False

        async def answers(reader: asyncio.StreamReader, writer: asyncio.StreamWriter) -> None:
            await reader.readline()
            writer.write(b"ok\nhal")
            if is_orderly:
                writer.close()
            else:
                with socket.socket(fileno=os.dup(writer.get_extra_info("socket").fileno())) as one:
                    one.shutdown(socket.SHUT_WR)

        server = await asyncio.start_server(answers, "127.0.0.1", 0, ssl=self.context(folder))
        self.addCleanup(server.close)
        at = "{}:{}".format(*server.sockets[0].getsockname())
        with open(f"{folder}/one", "rb") as file:
            known = file.read()
        with mock.patch("labrun_broker.forward.is_here", return_value=False):
            for is_orderly in (True, False):
                ways = Ways({"scope": at}, TICKETS[1], known)
                reader, writer = await asyncio.open_connection(*await ways.address("scope"))
                self.addCleanup(writer.close)
                async with asyncio.timeout(LIMIT):
                    if is_orderly:
                        self.assertEqual(await reader.read(), b"hal")
                    else:
                        with self.assertRaises(ConnectionResetError):
                            await reader.read()
                ways.close()

    async def test_by_its_certificate(self) -> None:
        folder = self.enterContext(tempfile.TemporaryDirectory())
        context = self.context(folder)
        guard = self.its = Guard(Way("scope", "127.0.0.1", self.port))
        self.server = await asyncio.get_running_loop().create_server(lambda: Caller(guard), "127.0.0.1", 0, ssl=context)
        self.addCleanup(self.server.close)
        self.addCleanup(guard.told, None)
        guard.told(holder(1))
        at = "{}:{}".format(*self.server.sockets[0].getsockname())
        said = list[str]()
        with mock.patch("labrun_broker.forward.is_here", return_value=False):
            for name, is_known in (("one", True), ("other", False)):
                with open(f"{folder}/{name}", "rb") as file:
                    ways = Ways({"scope": at}, TICKETS[1], file.read(), said.append)
                client = Client(*await asyncio.open_connection(*await ways.address("scope")))
                self.addCleanup(client.writer.close)
                self.assertEqual(bool(await client.asks("*IDN?")), is_known)
                if is_known:
                    client.writer.write(b"last\n")
                    await client.writer.drain()
                    await ways.lets_go()
                    self.assertEqual(self.instrument.lines[-1][1], b"last\n")
                    self.assertEqual(await client.reader.read(), b"1\n")
                    guard.told(holder(2, TICKETS[1]))
                ways.close()
        self.assertEqual(len(said), 1, said)
        self.assertIn("no certificate that is known here", said[0])


async def news(told: Any) -> list[Any]:
    async with asyncio.timeout(LIMIT):
        return list((await anext(told)).holders)


class Told(OnFolder):
    """What the broker tells."""

    async def test_no_holder_that_is_not_on_the_disk(self) -> None:
        keeping = await self.keeping(self.folder())
        told = holders(keeping, ("scope", "supply"))
        first = (await news(told))
        self.assertEqual([(it.instrument, it.token) for it in first], [("scope", 0), ("supply", 0)])
        may, real = threading.Event(), os.fdatasync
        self.addCleanup(may.set)

        def fdatasync(file: int) -> None:
            may.wait(LIMIT)
            real(file)

        with mock.patch("os.fdatasync", fdatasync):
            holds = asyncio.create_task(keeping.hold(Wish(("scope",), station="radio", ticket=TICKET, by="ann"), Owner()))
            tells = asyncio.ensure_future(anext(told))
            await asyncio.sleep(0.5)
            self.assertEqual([it.what for it in keeping.machine.standings()], [HOLDS])
            self.assertFalse(holds.done() or tells.done())
            may.set()
            session = await holds
            [one] = (await tells).holders
        self.assertEqual((one.instrument, one.ticket_hash, one.station, one.by), ("scope", digits_of(owner_of(TICKET)), "radio", "ann"))
        self.assertGreater(one.token, 0)
        await told.aclose()
        await eventually(lambda: not keeping._news._watchers, "nobody looks any more")
        assert session.owner is not None
        await keeping.let_go(session, session.owner)
        await keeping.close()

    async def test_tokens_grow(self) -> None:
        """From session to session, and from broker to broker; one that goes on to hold keeps its own."""
        folder, tokens, owner = self.folder(), list[int](), Owner()
        for _ in range(3):
            keeping = await self.keeping(folder)
            told = holders(keeping, ("scope",))
            [one] = (await news(told))
            self.assertEqual([one.token], tokens[-1:] or [0])
            for session in list(keeping.by_number.values()):
                await keeping.release(session.name, "tester")
            if one.token:
                [one] = (await news(told))
                self.assertEqual(one.token, 0)
            for turn in range(5):
                session = await keeping.hold(Wish(("scope",), ticket=TICKET + str(turn)), owner)
                [one] = (await news(told))
                self.assertGreater(one.token, max(tokens, default=0))
                tokens.append(one.token)
                if turn < 4:
                    await keeping.let_go(session, owner)
                    [one] = (await news(told))
                    self.assertEqual(one.token, 0)
            await told.aclose()
            await keeping.close()

    async def test_of_two_it_is_told_of_the_end_first(self) -> None:
        keeping, owner = await self.keeping(self.folder()), Owner()
        told = holders(keeping, ("scope",))
        await news(told)
        first = await keeping.hold(Wish(("scope",), station="radio", ticket=TICKET), owner)
        next_one = asyncio.create_task(keeping.hold(Wish(("scope",), station="board", ticket=TICKET + "2"), owner))
        [one] = (await news(told))
        await asyncio.sleep(0.1)
        await keeping.let_go(first, owner)
        await next_one
        found = [(await news(told))[0].station for _ in range(2)]
        self.assertEqual((one.station, found), ("radio", ["", "board"]))
        await told.aclose()
        await keeping.close()


if __name__ == "__main__":
    unittest.main()
