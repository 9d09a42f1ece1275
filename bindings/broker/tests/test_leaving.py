"""A signal to a `hold` that waits: it ends at once where nobody need be told, and else leaves no session behind that nobody knows of."""

from __future__ import annotations

import contextlib
import os
import signal
import socket
import subprocess
import sys
import tempfile
import time
import unittest
from typing import Iterator

from tests.brokers import BAY, COMMAND, LIMIT, Broker, OnBroker, free_port, station, stopped, until

TOLD = "labrun-broker: the broker doesn't answer, and is told for some seconds that this waits no longer, unless another signal comes\n"
MAY_HOLD = "labrun-broker: the broker wasn't told, as far as is known here; the session may hold all the same: if `labrun-broker status --broker {0}` shows it as gone, end it by `labrun-broker release NAME --broker {0}`, with the name that stands there\n"
# it tells for so long; and says so soon
PROGRAM = "import sys; from labrun_broker import command, leaving; leaving.GIVING_UP, leaving.UNTOLD = MOST, SOON; sys.exit(command.main())"
# a broker that writes that `late` holds, and never tells
WRITES = """
import asyncio, sys
from labrun_broker import command, keeping
hold = keeping.Keeping.hold
async def holds(its, wish, *more):
    session = await hold(its, wish, *more)
    await asyncio.sleep(3600 if wish.by == "late" else 0)
    return session
keeping.Keeping.hold = holds
sys.exit(command.main())
"""


class Leaves(OnBroker):
    @contextlib.contextmanager
    def waits(self, at: str, *words: str, soon: float = 10 * LIMIT, most: float = 10 * LIMIT) -> Iterator[subprocess.Popen[str]]:
        program = PROGRAM.replace("SOON", str(soon)).replace("MOST", str(most))
        line = [sys.executable, "-c", program, "hold", "scope", "--quiet", "--broker", at, *words, "--", "true"]
        with subprocess.Popen(line, stderr=subprocess.PIPE, text=True) as one:
            try:
                yield one
            finally:
                one.kill()

    def ends(self, one: subprocess.Popen[str], said: str, number: int = signal.SIGINT) -> None:
        one.send_signal(number)
        self.assertEqual((one.communicate(timeout=LIMIT)[1], one.returncode), (said, 130 if number == signal.SIGINT else 128 + number))

    def test_a_broker_that_has_said_nothing(self) -> None:
        """It isn't asked, so nobody need be told."""
        folder = self.enterContext(tempfile.TemporaryDirectory())
        for at, words in ((f"unix:{folder}/sock", ()), (f"unix:{folder}/sock", ("--timeout", "900")), (f"127.0.0.1:{free_port()}", ())):
            with self.subTest(at, words=words), socket.socket(socket.AF_UNIX if at.startswith("unix") else socket.AF_INET) as silent:
                silent.bind(f"{folder}/sock" if at.startswith("unix") else ("127.0.0.1", int(at.rpartition(":")[2])))
                silent.listen()
                silent.settimeout(LIMIT)
                with self.waits(at, *words) as one:
                    came, _ = silent.accept()
                    came.settimeout(LIMIT)
                    heard = came.recv(1 << 16)
                    self.assertTrue(heard.startswith(b"PRI * HTTP/2.0"))
                    # (a moment in which it would ask)
                    came.settimeout(2)
                    with contextlib.suppress(TimeoutError):
                        while some := came.recv(1 << 16):
                            heard += some
                    came.settimeout(LIMIT)
                    self.ends(one, "")
                    while some := came.recv(1 << 16):
                        heard += some
                    self.assertNotIn(b"scope", heard)
                    came.close()
                if at.startswith("unix"):
                    os.unlink(f"{folder}/sock")

    def at(self, *words: str) -> tuple[Broker, tuple[str, str]]:
        port = free_port()
        broker = self.broker(BAY, "--listen", f"127.0.0.1:{port}", *words)
        return broker, (broker.address, f"127.0.0.1:{port}")

    def test_one_that_is_stopped_is_told_until_it_goes_on(self) -> None:
        broker, addresses = self.at()
        lab = self.lab(broker)
        with lab.hold("scope"):
            for at in addresses:
                with self.subTest(at), self.waits(at, soon=0.1) as one:
                    until(lambda: station(lab, "guest-2")["state"] == "waiting", "it waits")
                    assert one.stderr is not None
                    with stopped(broker):
                        one.send_signal(signal.SIGINT)
                        self.assertEqual(one.stderr.readline(), TOLD)
                    self.assertEqual((one.communicate(timeout=LIMIT)[1], one.returncode), ("", 130))
                    # (it has the broker's word that it has left)
                    self.assertEqual(station(lab, "guest-2")["state"], "idle")

    def test_another_signal_ends_it(self) -> None:
        """And it says what may come of it."""
        broker, addresses = self.at()
        lab = self.lab(broker)
        with lab.hold("scope"):
            for at in addresses:
                with self.subTest(at), self.waits(at, soon=0.1) as one:
                    until(lambda: station(lab, "guest-2")["state"] == "waiting", "it waits")
                    assert one.stderr is not None
                    with stopped(broker):
                        one.send_signal(signal.SIGINT)
                        self.assertEqual(one.stderr.readline(), TOLD)
                        self.ends(one, MAY_HOLD.format(at), signal.SIGTERM)
                until(lambda: station(lab, "guest-2")["state"] == "idle", "it has left")

    def state(self, broker: Broker) -> str:
        """Of the one that waits."""
        with broker.lab() as lab:
            return str(station(lab, "guest-2")["state"])

    def test_one_that_was_killed(self) -> None:
        """Nobody comes in its place: it is said what may come of that, and there the session is, which it had written."""
        for moment, which, number in ((0.0, 0, signal.SIGINT), (1.5, 0, signal.SIGTERM), (0.0, 1, signal.SIGTERM), (1.5, 1, signal.SIGINT)):
            broker, addresses = self.at("--state", "FOLDER/state")
            with self.subTest(addresses[which], moment=moment), self.written(broker, addresses[which], soon=0.1, most=1.0) as one:
                broker.kill()
                time.sleep(moment)
                self.ends(one, TOLD + MAY_HOLD.format(addresses[which]), number)
                broker.begin()
                self.assertEqual(self.state(broker), "gone")

    def test_one_that_was_killed_and_comes_back(self) -> None:
        """It is told, and lets go what it had written."""
        for moment, which in ((0.0, 0), (1.5, 0), (0.0, 1), (1.5, 1)):
            broker, addresses = self.at("--state", "FOLDER/state")
            with self.subTest(addresses[which], moment=moment), self.written(broker, addresses[which]) as one:
                broker.kill()
                time.sleep(moment)
                one.send_signal(signal.SIGINT)
                time.sleep(moment)
                broker.begin()
                self.assertEqual((one.communicate(timeout=LIMIT)[1], one.returncode), ("", 130))
                self.assertEqual(self.state(broker), "idle")

    @contextlib.contextmanager
    def written(self, broker: Broker, at: str, **more: float) -> Iterator[subprocess.Popen[str]]:
        """One that waits still, although the broker has written that it holds. That goes on as any other once it begins again."""
        broker.end()
        broker.command = [sys.executable, "-c", WRITES]
        broker.begin()
        broker.command = COMMAND
        with contextlib.ExitStack() as ends:
            with broker.lab() as lab, lab.hold("scope", timeout=LIMIT):
                one = ends.enter_context(self.waits(at, "--by", "late", **more))
                until(lambda: station(lab, "guest-2")["state"] == "waiting", "it waits")
            until(lambda: self.state(broker) == "holding", "it is written")
            yield one

    def test_one_that_is_killed_while_it_is_told(self) -> None:
        """Whoever comes in its place is told, too."""
        for which in (0, 1):
            broker, addresses = self.at("--state", "FOLDER/state")
            with self.subTest(addresses[which]), self.written(broker, addresses[which], soon=0.1) as one, stopped(broker):
                assert one.stderr is not None
                one.send_signal(signal.SIGINT)
                self.assertEqual(one.stderr.readline(), TOLD)
                broker.kill()
                broker.begin()
                self.assertEqual((one.communicate(timeout=LIMIT)[1], one.returncode), ("", 130))
                self.assertEqual(self.state(broker), "idle")

    def test_one_that_answers(self) -> None:
        broker, addresses = self.at()
        lab = self.lab(broker)
        with lab.hold("scope"):
            for at in addresses:
                with self.subTest(at), self.waits(at) as one:
                    until(lambda: station(lab, "guest-2")["state"] == "waiting", "it waits")
                    self.ends(one, "")
                    self.assertEqual(station(lab, "guest-2")["state"], "idle")


if __name__ == "__main__":
    unittest.main()
