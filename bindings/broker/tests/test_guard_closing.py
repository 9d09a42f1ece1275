"""A guard that ends the connection without an answer: it is said at once, and what it may want."""

from __future__ import annotations

import asyncio
import contextlib
import re
import shutil
import socket
import ssl
import subprocess
import sys
import tempfile
import unittest
from typing import Any, Optional
from unittest import mock

from labrun_broker import forward
from labrun_broker.forward import Ways
from tests.brokers import LIMIT, UNHEARD, certificate
from tests.guards import Guarded
from tests.test_guard_inside import TICKETS

CLOSED = "doesn't let this through: it closed the connection"
OTHER_ADDRESS = "(a guard with TLS wants another address in [guards] than a loopback one)"
WITH_TLS = "(a guard with TLS wants no `without-tls` in [guards])"
# nothing that takes its time is waited for
PATIENT = {"ANSWER": 10 * LIMIT, "LAST": 10 * LIMIT}


async def at_once(_: asyncio.StreamReader, writer: asyncio.StreamWriter) -> None:
    writer.close()


async def by_reset(_: asyncio.StreamReader, writer: asyncio.StreamWriter) -> None:
    writer.transport.abort()


async def once_all_is_read(reader: asyncio.StreamReader, writer: asyncio.StreamWriter) -> None:
    await reader.read(1 << 16)
    writer.close()


async def by_halves(reader: asyncio.StreamReader, writer: asyncio.StreamWriter) -> None:
    """It says no more, and doesn't close."""
    await reader.read(1 << 16)
    writer.write_eof()
    with contextlib.suppress(ConnectionError):
        await reader.read()
    writer.close()


async def midway(reader: asyncio.StreamReader, writer: asyncio.StreamWriter) -> None:
    await reader.read(1 << 16)
    writer.write(b"ok")
    writer.close()


async def says_no(reader: asyncio.StreamReader, writer: asyncio.StreamWriter) -> None:
    await reader.read(1 << 16)
    writer.write(b"no: that is no ticket\n")
    writer.close()


async def lets_through_once(reader: asyncio.StreamReader, writer: asyncio.StreamWriter) -> None:
    if not (await reader.readline()).endswith(b" ends 3\n"):
        writer.write(b"ok\n")
        await reader.read(1 << 16)
    writer.close()


class WithoutAnAnswer(unittest.IsolatedAsyncioTestCase):
    def setUp(self) -> None:
        self.enterContext(mock.patch.multiple(forward, **PATIENT))

    async def said(self, guard: Any, context: Optional[ssl.SSLContext] = None, how: str = "", known: Optional[bytes] = None) -> str:
        """Of a guard at this address, to a client that is led there, and lets go."""
        server = await asyncio.start_server(guard, "127.0.0.1", 0, ssl=context)
        self.addCleanup(server.close)
        host, port = server.sockets[0].getsockname()
        told = list[str]()
        ways = Ways({"scope": f"{host}:{port} {how}"}, TICKETS[1], known, told.append)
        self.addCleanup(ways.close)
        async with asyncio.timeout(LIMIT):
            reader, writer = await asyncio.open_connection(*await ways.address("scope"))
            self.addCleanup(writer.close)
            with self.assertRaises(ConnectionResetError):
                writer.write(b"x?\n")
                if not await reader.read():
                    raise AssertionError("it looks as if all were said")
            await ways.lets_go()
        [line] = told
        self.assertTrue(line.startswith(f"the guard at {host}:{port} "), line)
        return line.removeprefix(f"the guard at {host}:{port} ")

    async def test_by_which_it_is_spoken_to_without_tls(self) -> None:
        """It may have it. Whatever way it ends, that is said."""
        for guard in (at_once, by_reset, once_all_is_read, by_halves, midway):
            with self.subTest(guard.__name__):
                self.assertEqual(await self.said(guard), f"{CLOSED} {OTHER_ADDRESS}")
        self.assertEqual(await self.said(once_all_is_read, how="without-tls"), f"{CLOSED} {WITH_TLS}")

    @unittest.skipUnless(shutil.which("openssl"), "there is no openssl")
    async def test_tls(self) -> None:
        folder = self.enterContext(tempfile.TemporaryDirectory())
        file, key = certificate(folder, of="IP:127.0.0.1")
        context = ssl.SSLContext(ssl.PROTOCOL_TLS_SERVER)
        context.load_cert_chain(file, key)
        with open(file, "rb") as of:
            known = of.read()
        # (that somebody spoke otherwise is no fault of the test)
        asyncio.get_running_loop().set_exception_handler(lambda *_: None)
        self.assertEqual(await self.said(once_all_is_read, context), f"{CLOSED} {OTHER_ADDRESS}")
        with mock.patch("labrun_broker.forward.is_here", return_value=False):
            for guard, its in ((at_once, context), (once_all_is_read, context), (at_once, None), (by_reset, None), (once_all_is_read, None)):
                with self.subTest(guard.__name__, has_tls=its is not None):
                    self.assertEqual(await self.said(guard, its, known=known), CLOSED)

    async def test_one_that_has_no_tls(self) -> None:
        """It is spoken to by TLS, takes that for a line, and says in the clear why not."""
        with mock.patch("labrun_broker.forward.is_here", return_value=False):
            self.assertEqual(await self.said(says_no), "has no TLS, and so wants `without-tls` in [guards]")

    async def test_one_that_let_through_before(self) -> None:
        """So it has no TLS."""
        server = await asyncio.start_server(lets_through_once, "127.0.0.1", 0)
        self.addCleanup(server.close)
        told = list[str]()
        ways = Ways({"scope": "{}:{}".format(*server.sockets[0].getsockname())}, TICKETS[1], None, told.append)
        self.addCleanup(ways.close)
        async with asyncio.timeout(LIMIT):
            reader, writer = await asyncio.open_connection(*await ways.address("scope"))
            writer.write(b"x?\n")
            self.assertEqual(await reader.read(), b"")
            writer.close()
            with self.assertRaises(OSError) as fault:
                await ways._forwards["scope"][0]._through(f"labrun {TICKETS[1]} ends 3")
            self.assertRegex(str(fault.exception), f"{CLOSED}$")
            await ways.lets_go()
        self.assertEqual(told, [])


# a `hold` that waits for nothing that takes its time
HOLD = f"import sys; from labrun_broker import command, forward; forward.ANSWER = forward.LAST = {PATIENT['LAST']}; sys.exit(command.main())"
ASKS = "import os, socket; host, port = os.environ['LABRUN_SCOPE'].split(':'); one = socket.create_connection((host, int(port))); one.sendall(b'x?\\n'); print(one.recv(9))"


@unittest.skipUnless(shutil.which("openssl"), "there is no openssl")
class AtALoopbackAddress(unittest.TestCase):
    def test_a_guard_that_has_tls_for_others(self) -> None:
        folder = self.enterContext(tempfile.TemporaryDirectory())
        file, key = certificate(folder, "guard.crt", "guard.key")
        with socket.create_server(("127.0.0.1", 0)) as instrument:
            at = Guarded(folder, {"scope": instrument.getsockname()[1]}, ("--tls-certificate", file, "--tls-key", key), listen="0.0.0.0")
            self.addCleanup(at.ends)
            words = ["hold", "scope", "--broker", at.broker.address, "--certificate", file, "--", sys.executable, "-c", ASKS]
            done = subprocess.run([sys.executable, "-c", HOLD, *words], capture_output=True, text=True, timeout=LIMIT)
        told = f"labrun-broker: the guard at 127.0.0.1:{at.ports['scope']} {CLOSED} {OTHER_ADDRESS}\n"
        self.assertRegex(UNHEARD.sub("", done.stderr), f"^{re.escape(told)}(?s:.*)ConnectionResetError")
        self.assertEqual((done.stdout, done.returncode), ("", 1))


if __name__ == "__main__":
    unittest.main()
