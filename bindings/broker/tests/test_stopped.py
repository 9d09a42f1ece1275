"""A broker that is stopped, as it were by SIGSTOP: what its clients in Python are told, when, and that nothing is held once it goes on."""

import asyncio
import contextlib
import os
import signal
import subprocess
import sys
import threading
import unittest
from concurrent.futures import ThreadPoolExecutor
from unittest import mock

import labrun_broker
from labrun_broker import client, coming, finding, stream
from tests.brokers import BAY, LIMIT, Broker, OnBroker, free_port, heard, stopped, until
from tests.proxies import Proxy, Ways

RELEASES = 'gone = "release"\n' + BAY
TOLD = r"the broker at .* doesn't answer \(it is stopped, or the network is cut\)"
MAY_HOLD = "the session may hold all the same: if `labrun-broker status --broker {0}` shows it as gone, end it by `labrun-broker release NAME --broker {0}`, with the name that stands there"
BOARD_MAY_HOLD = "the session may hold all the same: if `labrun-broker status --broker {0}` shows board as gone, end it by `labrun-broker release board --broker {0}`"
# it asks, and ends while the broker is stopped
PROGRAM = """
import os, signal, sys, labrun_broker
from tests.brokers import is_stopped
with labrun_broker.connect(sys.argv[1]) as lab:
    with lab.hold("supply"):
        pass
    os.kill(int(sys.argv[2]), signal.SIGSTOP)
    while not is_stopped(int(sys.argv[2])):
        pass
    try:
        lab.hold("scope", timeout=0).acquire()
    except labrun_broker.Unreachable as fault:
        print(fault)
"""
# each wish is answered ten seconds late, and whatever else at once
LATE = """
import asyncio, sys
from labrun_broker import command, service
holds = service.Client._holds
async def late(it, *wish):
    await asyncio.sleep(10)
    await holds(it, *wish)
service.Client._holds = late
sys.exit(command.main())
"""


class Stopped(OnBroker):
    def setUp(self) -> None:
        # (gRPC itself finds out nothing)
        long = [(name, value if "ms" not in name else int(LIMIT * 10000)) for name, value in client.OPTIONS]
        self.enterContext(mock.patch.object(client, "OPTIONS", long))

    def ends(self, lab: labrun_broker.Lab, timeout: float) -> str:
        """How an ask does."""
        ends = list[str]()

        def asks() -> None:
            try:
                lab.hold("scope", timeout=timeout).acquire()
                ends.append("it holds")
            except labrun_broker.Unreachable as fault:
                ends.append(str(fault))

        thread = threading.Thread(target=asks, daemon=True)
        thread.start()
        thread.join(LIMIT)
        self.assertEqual(len(ends), 1, "it ends")
        return ends[0]

    def left(self, broker: Broker) -> set[str]:
        """The sessions that asked and didn't end, by the records."""
        with open(f"{broker.folder}/state/records.jsonl", encoding="utf-8") as file:
            told = [(line.partition('"what":"')[2].partition('"')[0], line.partition('"session":')[2].partition(",")[0]) for line in file]
        self.assertNotIn("gone", [what for what, _ in told])
        return {of for what, of in told if what == "asked"} - {of for what, of in told if what in ("let_go", "gave_up")}

    def test_a_time_limit_is_kept(self) -> None:
        """Also by a program that has held before; and nothing is held once the broker goes on."""
        for bay in (BAY, RELEASES):
            for has_held, timeout in ((True, 0), (True, 0.5), (False, 0.5)):
                with self.subTest(bay, has_held=has_held, timeout=timeout):
                    broker = self.broker(bay, "--state", "FOLDER/state")
                    lab = self.lab(broker)
                    if has_held:
                        with lab.hold("scope", timeout=LIMIT):
                            pass
                    with stopped(broker), mock.patch.object(stream.Stream, "asks", autospec=True, side_effect=stream.Stream.asks) as asks:
                        self.assertRegex(self.ends(lab, timeout), f"{TOLD}$")
                    # (of one that is stopped nothing is wished that it could read later)
                    self.assertEqual([it.kwargs for it in asks.call_args_list if "wish" in it.kwargs], [])
                    with lab.hold("scope", timeout=LIMIT):
                        pass
                    until(lambda: not self.left(broker), "that nothing is left")

    def test_stopped_as_it_is_asked(self) -> None:
        """The ask is withdrawn."""
        for words in ((), ("--grace", "1")):
            with self.subTest(words), contextlib.ExitStack() as ends:
                broker = self.broker(RELEASES if words else BAY, "--state", "FOLDER/state", *words)
                lab, asks = self.lab(broker), stream.Stream.asks

                async def stops(it: stream.Stream, **what: object) -> object:
                    if "wish" in what:
                        ends.enter_context(stopped(broker))
                    return await asks(it, **what)

                with mock.patch.object(stream.Stream, "asks", stops):
                    self.assertRegex(self.ends(lab, 0.2), rf"{TOLD}\. Nothing is held: the wish is withdrawn")
                ends.close()
                until(lambda: not lab._leaving, "that it has left")
                with lab.hold("scope", timeout=LIMIT):
                    pass
                until(lambda: not self.left(broker), "that nothing is left")

    def test_a_program_that_ends_meanwhile(self) -> None:
        for words in ((), ("--state", "FOLDER/state")):
            with self.subTest(words):
                broker = self.broker(BAY, *words)
                assert broker.process is not None
                try:
                    done = subprocess.run([sys.executable, "-c", PROGRAM, broker.address, str(broker.process.pid)], capture_output=True, text=True, timeout=LIMIT)
                finally:
                    os.kill(broker.process.pid, signal.SIGCONT)
                self.assertRegex(done.stdout, TOLD)
                lab = self.lab(broker)
                with lab.hold("scope", timeout=LIMIT):
                    pass
                until(lambda: all(it["state"] == "idle" for it in lab.status()["stations"]), "that all are idle")

    def test_a_short_limit_leaves_a_try(self) -> None:
        """Where looking for the broker took nearly all of the time, the broker that is found then is asked all the same, and its answer awaited."""
        self.enterContext(mock.patch.object(coming, "LATE", 5.0))
        port = free_port()
        self.broker(BAY, "--listen", f"127.0.0.1:{port}")
        with Ways() as ways, contextlib.closing(Proxy(ways, port)) as way:
            way.cut("neither")

            async def looks(*_: object) -> None:
                await asyncio.sleep(10.1)
                ways.loop.call_soon_threadsafe(ways.loop.call_later, 0.5, way._open.set)

            with mock.patch.object(finding.Brokers, "looks", looks), labrun_broker.connect(way.address) as lab:
                self.assertEqual(self.ends(lab, 0.2), "it holds")

    def test_one_that_answers_late(self) -> None:
        """While it says that it is there, its own answer is awaited."""
        self.enterContext(mock.patch.object(stream, "LATE", 4.0))
        broker = self.broker()
        broker.end()
        broker.command = [sys.executable, "-c", LATE]
        broker.begin()
        self.assertEqual(self.ends(self.lab(broker), 0), "it holds")


class Killed(OnBroker):
    def test_while_somebody_asks(self) -> None:
        """Nobody knows whether the session holds, and whoever asked is told so. (It isn't tried again here.)"""
        broker = self.broker(BAY)
        lab, waits = self.lab(broker), list[str]()
        self.lab(broker).hold("scope").acquire()
        with mock.patch.object(coming, "AGAIN", ()), ThreadPoolExecutor() as threads:
            asked = threads.submit(lab.hold("scope", waits=waits.append).acquire)
            until(lambda: waits, "it waits")
            broker.kill()
            with self.assertRaisesRegex(labrun_broker.AnswerLost, f"it closed the connection; {MAY_HOLD.format(broker.address)}$"):
                asked.result(LIMIT)

    def test_one_that_does_not_come_back(self) -> None:
        """Who waited may hold: the broker may have written that down before it was killed, and the next one has it then. Who only comes now doesn't."""
        self.enterContext(mock.patch.object(coming, "GRACE", 0.5))
        broker = self.broker(BAY, "--state", "FOLDER/state")
        self.lab(broker).hold("scope").acquire()
        for timeout, of, may_hold in ((None, "", MAY_HOLD), (LIMIT, "", MAY_HOLD), (None, "board", BOARD_MAY_HOLD)):
            with self.subTest(timeout, of=of), ThreadPoolExecutor() as threads:
                # (a new one each time: gRPC tries one that was away again only after a while)
                lab, waits = self.lab(broker, of), list[str]()
                asked = threads.submit(lab.hold("scope", waits=waits.append, timeout=timeout).acquire)
                until(lambda: waits, "it waits")
                broker.kill()
                with self.assertRaisesRegex(labrun_broker.AnswerLost, f"^the broker at unix:.* can't be reached: .*; {may_hold.format(broker.address)}$"):
                    asked.result(LIMIT)
                with self.assertRaises(labrun_broker.Unreachable) as fault:
                    lab.hold("scope").acquire()
                self.assertNotIn("may hold", str(fault.exception))
                broker.begin()

    def test_a_command_that_waits(self) -> None:
        broker = self.broker(BAY, "--state", "FOLDER/state")
        self.lab(broker).hold("scope").acquire()
        program = "import sys; from labrun_broker import coming, command; coming.GRACE = 0.5; sys.exit(command.main())"
        with subprocess.Popen([sys.executable, "-c", program, "hold", "scope", "--broker", broker.address, "--", "true"], stderr=subprocess.PIPE, text=True) as one:
            assert one.stderr is not None
            self.assertIn("waits: scope has been held by guest-1", heard(one.stderr))
            broker.kill()
            self.assertRegex(one.communicate(timeout=LIMIT)[1], f"labrun-broker: the broker at unix:.* can't be reached: .*; {MAY_HOLD.format(broker.address)}\n$")
        self.assertEqual(one.returncode, 69)
        broker.begin()

    def test_a_lab_is_closed_meanwhile(self) -> None:
        """Nobody looks any more for what it held, though the broker never said that it let go."""
        broker = self.broker()
        lab = self.lab(broker)
        held = lab.hold("scope")
        held.acquire()
        broker.kill()
        returns = until(lambda: held._returns, "that it looks for a broker")
        with mock.patch.object(client, "ANSWER", 0.2):
            lab.close()
        until(returns.done, "that it doesn't any more")
        why = None if returns.cancelled() else returns.exception()
        self.assertTrue(returns.cancelled(), why)


if __name__ == "__main__":
    unittest.main()
