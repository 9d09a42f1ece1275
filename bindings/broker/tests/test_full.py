"""Brokers at an etcd that is full: what those are told who hold, and let go, note, or are released."""

from __future__ import annotations

import asyncio
import os
import shutil
import subprocess
import tempfile
import time
import unittest
from importlib.util import find_spec
from typing import Any
from unittest import mock

from labrun import JournalError
from labrun_broker import shell
from labrun_broker.entrance import Caller, Entrance
from labrun_broker.etcd import EtcdError, put
from labrun_broker.visits import OVER, WAITING, Visits
from labrun_broker.wishes import Ended, Wish
from tests.brokers import BAY, COMMAND, LIMIT, TOP, UNHEARD, free_port, until
from tests.etcds import Member, OnEtcd
from tests.test_keeping import TICKET, Owner
from tests.test_replica import Brokers
from tests.test_standby import Serving

COMPILER = next((it for it in ("cc", "gcc", "clang") if shutil.which(it)), None)
DISK = 4.0  # seconds, for which one waits for etcd; the margin is as much again


@unittest.skipUnless(find_spec("aiohttp"), "there is no aiohttp")
@unittest.skipIf(COMPILER is None, "there is no compiler of C")
class Full(OnEtcd):
    gone = ""
    words: tuple[str, ...] = ()

    @classmethod
    def setUpClass(cls) -> None:
        folder = cls.enterClassContext(tempfile.TemporaryDirectory())
        cls.member = Member(folder, "--quota-backend-bytes", str(4 << 20))
        cls.addClassCleanup(cls.member.ends)
        cls.program = f"{folder}/labrun-hold"
        subprocess.run([str(COMPILER), "-std=gnu11", f"{TOP}/bindings/hold/labrun-hold.c", "-lm", "-o", cls.program], check=True)

    def setUp(self) -> None:
        super().setUp()
        self.folder = self.enterContext(tempfile.TemporaryDirectory())
        port = free_port()
        self.unix = f"unix:{self.folder}/s"
        self.broker = Serving(self, port, "--listen", self.unix, "--http", f"{self.unix}.http", *self.words, bay=self.gone + BAY, lease=10)
        self.broker.says("4 instruments, at ")

    def fills(self) -> None:
        count = 0
        with self.assertRaisesRegex(EtcdError, "etcd is full"):
            while count < 100:
                count += 1
                self.etcd.txn([], [put(b"/filled/%d" % count, bytes(1 << 18))], timeout=LIMIT)

    def started(self, name: str, *words: str) -> subprocess.Popen[str]:
        begun, over = f"{self.folder}/{name}", f"{self.folder}/over"
        line = [*words, "--", "sh", "-c", f"echo > {begun}; until [ -e {over} ]; do sleep 0.05; done"]
        environment = {**{name: it for name, it in os.environ.items() if name != "LABRUN_AROUND"}, "LABRUN_BROKER": self.unix}
        one = subprocess.Popen(line, env=environment, stderr=subprocess.PIPE, text=True)
        self.addCleanup(one.communicate)
        self.addCleanup(one.kill)
        until(lambda: os.path.exists(begun), "the command runs")
        return one

    def test_who_lets_go(self) -> None:
        """By both programs it ends with one status, and with what the broker has said."""
        programs = {"labrun-hold": [self.program], "labrun-broker": [*COMMAND, "hold"]}
        its = {name: self.started(name, *line, instrument) for (name, line), instrument in zip(programs.items(), ("scope", "supply"))}
        self.fills()
        with open(f"{self.folder}/over", "w", encoding="ascii"):
            pass
        for name, one in its.items():
            said = UNHEARD.sub("", one.communicate(timeout=2 * LIMIT)[1])
            self.assertEqual(one.returncode, 74, said)
            hold = "hold" if name == "labrun-broker" else name
            waits = f"{name}: the command has ended with status 0; the broker hasn't answered yet; {hold} keeps trying to tell it, and Ctrl-C ends that\n"
            ran = f"{name}: the command ran, and ended with status 0, but:\n"
            why = f"{name}: etcd, /labrun/{self.bay}/journal/: it isn't in etcd after 10 s: a write failed (etcd is full)\n"
            self.assertTrue(said.startswith(waits + ran + why), said)


class FullAndReleased(Full):
    """Each client is to be heard every few seconds, and it is while it waits until it has let go: its session isn't over before that."""

    gone, words = 'gone = "release"\n', ("--grace", "8")


class Again(Brokers):
    async def test_who_lets_go_and_asks_again(self) -> None:
        """Because no answer came: whoever asks waits for the same end, and once etcd has room that is told."""
        self.enterContext(mock.patch.object(shell, "DISK", DISK))
        first = await self.broker("first")
        entrance = Entrance(first.keeping, ())
        visits, caller, txn = Visits(first.keeping, entrance), Caller(), first.leading.etcd.txn
        visit = await visits.asks(Wish(("scope",), ticket=TICKET), caller)
        await visit.outlasts(WAITING, LIMIT, lambda: True)

        def full(compare: Any, what: Any, *given: Any, **more: Any) -> Any:
            if any(it.HasField("request_put") for it in what):
                raise EtcdError(28, "etcd is full")
            return txn(compare, what, *given, **more)

        with mock.patch.object(first.leading.etcd, "txn", full):
            begun = time.monotonic()
            one = asyncio.create_task(visit.lets_go(None))
            await asyncio.sleep(DISK / 2)
            told = await asyncio.gather(one, visit.lets_go(None), return_exceptions=True)
            self.assertLess(time.monotonic() - begun, 2 * DISK)
            back = first.keeping.hold(Wish(ticket=TICKET, comes_back=True), Owner())
            for fault in (*told, *await asyncio.gather(visit.lets_go(None), back, return_exceptions=True)):
                self.assertIsInstance(fault, JournalError)
                self.assertIn(f"it isn't in etcd after {DISK:g} s: a write failed (etcd is full)", str(fault))
        await asyncio.wait_for(visit.lets_go(None), LIMIT)
        self.assertEqual((visit.state, self.ends()), (OVER, 1))
        with self.assertRaises(Ended) as found:
            await visits.of(TICKET, caller)
        self.assertEqual(found.exception.kind, "LetGo")
        await visits.close()

    def ends(self) -> int:
        return b"".join(self.values("journal/").values()).count(b" let_go ")

    async def test_who_notes_releases_and_asks(self) -> None:
        """It is told after as long as that says."""
        self.enterContext(mock.patch.object(shell, "DISK", DISK))
        first, owner = await self.broker("first"), Owner()
        session, txn = await first.keeping.hold(Wish(("scope",), station="board"), owner), first.leading.etcd.txn

        def full(compare: Any, what: Any, *given: Any, **more: Any) -> Any:
            if any(it.HasField("request_put") for it in what):
                raise EtcdError(28, "etcd is full")
            return txn(compare, what, *given, **more)

        with mock.patch.object(first.leading.etcd, "txn", full):
            for work in (
                lambda: first.keeping.note(session, owner, "12.5 V"),
                lambda: first.keeping.release("board", "an operator"),
                lambda: first.keeping.hold(Wish(("supply",), timeout=0.0), Owner()),
            ):
                begun = time.monotonic()
                with self.assertRaisesRegex(JournalError, f"it isn't in etcd after {DISK:g} s: a write failed"):
                    await work()
                self.assertLess(time.monotonic() - begun, 2 * DISK)
