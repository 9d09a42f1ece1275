"""A signal that another thread than the main one takes, as the kernel may choose after a stop: it is heard all the same, whenever it comes."""

from __future__ import annotations

import signal
import socket
import subprocess
import sys
import unittest

from tests.brokers import BAY, LIMIT, OnBroker, free_port, stopped, until
from tests.guards import BeforeInstruments, talk

# the first thread alone takes signals: the main one, and those that it begins, never do
ELSEWHERE = """
import signal, sys, threading
threading.Thread(target=threading.Event().wait, daemon=True).start()
signal.pthread_sigmask(signal.SIG_BLOCK, {signal.SIGTERM, signal.SIGINT})
from labrun_broker import command
"""
MAIN = "sys.exit(command.main())\n"
# one comes as soon as it is taken care of: long before anything else is there
AT_ONCE = """
import os
from labrun_broker import guard_command
lab_of = guard_command.lab_of
def early(*given, **more):
    os.kill(os.getpid(), signal.SIGTERM)
    return lab_of(*given, **more)
guard_command.lab_of = early
"""
# whatever ends its work is swallowed
SWALLOWED = """
import asyncio
from labrun_broker import guard_command
async def hears(*_):
    while True:
        try:
            await asyncio.sleep(1)
        except asyncio.CancelledError:
            pass
guard_command.hears = hears
"""


class Guards(BeforeInstruments):
    maxDiff = None
    def begins(self, code: str = "") -> subprocess.Popen[str]:
        self.at.end()
        words = [sys.executable, "-c", ELSEWHERE + code + MAIN, "guard", f"{self.folder}/guards.toml", "--broker", self.at.broker.address]
        one = self.at.process = subprocess.Popen(words, stderr=subprocess.PIPE, text=True)
        return one

    def guards(self, code: str = "") -> subprocess.Popen[str]:
        one = self.begins(code)
        assert one.stderr is not None
        for _ in self.at.ports:
            self.assertIn(": guards ", one.stderr.readline())
        return one

    def ends(self, one: subprocess.Popen[str], number: int = signal.SIGTERM) -> None:
        one.send_signal(number)
        self.assertEqual(one.wait(LIMIT), 0)

    def test_one_that_has_nothing_to_do(self) -> None:
        for number in (signal.SIGTERM, signal.SIGINT):
            with self.subTest(number):
                self.ends(self.guards(), number)

    def test_one_that_just_begins(self) -> None:
        one = self.begins(AT_ONCE)
        self.assertEqual((one.wait(LIMIT), one.stderr and one.stderr.read()), (0, ""))

    def test_one_whose_work_doesnt_end(self) -> None:
        self.ends(self.guards(SWALLOWED))

    def test_one_that_just_gets_a_client(self) -> None:
        """And one that says nothing yet."""
        one = self.guards()
        with socket.create_connection(("127.0.0.1", self.at.ports["scope"])), socket.socket() as other:
            one.send_signal(signal.SIGSTOP)
            other.connect(("127.0.0.1", self.at.ports["scope"]))
            other.sendall(b"labrun x\n")
            one.send_signal(signal.SIGTERM)
            self.ends(one, signal.SIGCONT)

    def test_one_that_has_a_client(self) -> None:
        one = self.guards()
        with self.lab().hold("scope") as held:
            it = talk(held.address("scope"))
            self.assertEqual(it.ask("*IDN?"), "scope")
            self.ends(one)
            it.socket.close()

    def test_one_whose_broker_is_away(self) -> None:
        one = self.guards()
        with stopped(self.at.broker):
            self.ends(one)
        one = self.guards()
        self.at.broker.ends()
        self.ends(one)


class Holds(OnBroker):
    def hold(self, at: str, *command: str) -> subprocess.Popen[str]:
        words = [sys.executable, "-c", ELSEWHERE + MAIN, "hold", "scope", "--broker", at, "--quiet", "--", *command]
        one = subprocess.Popen(words, stdout=subprocess.PIPE, stderr=subprocess.PIPE, text=True)
        self.addCleanup(one.communicate)
        self.addCleanup(one.kill)
        return one

    def test_one_that_waits_and_one_that_runs(self) -> None:
        port = free_port()
        broker = self.broker(BAY, "--listen", f"127.0.0.1:{port}")
        lab = self.lab(broker)
        for at in (broker.address, f"127.0.0.1:{port}"):
            with self.subTest(at):
                # (the signals that this process has blocked the command has, too)
                code = "import signal; signal.pthread_sigmask(signal.SIG_UNBLOCK, {15}); print('runs', flush=True); signal.pause()"
                runs = self.hold(at, sys.executable, "-c", code)
                assert runs.stdout is not None
                self.assertEqual(runs.stdout.readline(), "runs\n")
                waits = self.hold(at, "true")
                until(lambda: any(it["state"] == "waiting" for it in lab.status()["stations"]), "it waits")
                waits.send_signal(signal.SIGTERM)
                self.assertEqual(waits.wait(LIMIT), 128 + signal.SIGTERM)
                runs.send_signal(signal.SIGTERM)
                self.assertEqual(runs.wait(LIMIT), 128 + signal.SIGTERM)


if __name__ == "__main__":
    unittest.main()
