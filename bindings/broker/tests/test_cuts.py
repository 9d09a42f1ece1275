"""Where the broker releases the session of a client that is gone: no two programs think that they hold, whatever is cut (the short form of
tests.cuts); and when a program is told."""

from __future__ import annotations

import asyncio
import os
import signal
import subprocess
import sys
import threading
import time
import unittest
from types import SimpleNamespace
from typing import Any

import grpc
import labrun
import labrun_broker
from labrun_broker import broker_pb2 as pb
from labrun_broker.bay import bay_of
from labrun_broker.held import Held
from labrun_broker.keeping import Keeping
from labrun_broker.stream import Lost, Stream
from labrun_broker.work import clock
from tests.brokers import BAY, LIMIT, SOON, Broker, OnBroker, free_port, station, until
from tests.cuts import cuts
from tests.proxies import Proxy, Ways
from tests.test_service import HOLDS

RELEASES = 'gone = "release"\n' + BAY


class Cuts(unittest.TestCase):
    def test_thirty(self) -> None:
        came = cuts(30, 1, at_once=10, seconds=2.5)
        self.assertEqual(came["wrong"], [])
        counts = came["counts"]
        self.assertGreater(counts["held"], 30)
        self.assertGreater(counts.get("TakenAway", 0) + counts.get("told", 0), 0)


class Deadlines(unittest.TestCase):
    def test_from_what_was_sent(self) -> None:
        """It is never later than the last word that was answered allows, however late that was."""
        held = Held(None, pb.Wish(), None, None)  # type: ignore[arg-type]
        now = clock()
        held._holds(None, pb.Told(held=pb.Held(lease=3)).held, now - 2)  # type: ignore[arg-type]
        self.assertEqual(held._until, now + 1)
        held._is_sure(now - 1)
        self.assertEqual(held._until, now + 2)
        held._is_sure(now - 9)
        self.assertEqual(held._until, now + 2)

    def test_the_grace_ends_later(self) -> None:
        """By a quarter of it, wherever the client's last word was when the broker heard it."""
        for grace in (1.0, 60.0):
            keeping = Keeping(bay_of(RELEASES), grace=grace)
            self.assertEqual((keeping.lease, keeping.grace), (0.75 * grace, grace))
        self.assertIsNone(Keeping(bay_of(BAY)).lease)


class OnAWay(OnBroker):
    def cut_broker(self, grace: float, bay: str = RELEASES) -> tuple[Broker, Proxy]:
        port = free_port()
        broker = self.broker(bay, "--grace", str(grace), "--listen", f"127.0.0.1:{port}", "--state", "FOLDER/state")
        proxy = Proxy(self.enterContext(Ways()), port)
        self.addCleanup(proxy.close)
        self.addCleanup(proxy.mend)
        return broker, proxy

    def far(self, proxy: Proxy) -> labrun_broker.Lab:
        lab = labrun_broker.connect(proxy.address, by="far")
        self.addCleanup(lab.close)
        return lab


class Programs(OnAWay):
    def test_its_program_is_told_before_another_holds(self) -> None:
        """However the way is cut: at the deadline, and not once it is known that the connection is dead."""
        for how in ("neither", "broker", "client", "both"):
            with self.subTest(how):
                broker, proxy = self.cut_broker(6)
                near, held = self.lab(broker), self.far(proxy).hold("scope")
                told: list[tuple[float, Exception, bool]] = []
                held.on_taken = lambda fault: told.append((clock(), fault, held.held))
                held.acquire()
                proxy.cut(how)
                begun = clock()
                with near.hold("scope", timeout=LIMIT):
                    holds = clock()
                    self.assertFalse(held.held)
                # (the lease is 4.5 s of the 6 s, from the last word that was answered)
                self.assertGreater(holds - held._until, 1.4)
                self.assertLess(holds - begun, SOON)
                (at, fault, thinks), = told
                self.assertTrue(held._until - 0.01 < at < holds)
                self.assertFalse(thinks)
                self.assertRegex(str(fault), "^guest-1: nothing was heard from the broker for more than 4.5 s, so the session is over, and others may hold these by now: scope$")
                proxy.mend()
                with self.assertRaises(labrun.TakenAway):
                    held.release()
                with self.assertRaises(labrun.NotHeld):
                    held.release()

    def test_who_asks_meanwhile_is_told(self) -> None:
        """A note that is on its way ends with the session."""
        _, proxy = self.cut_broker(6)
        for how in ("neither", "both"):
            with self.subTest(how):
                held = self.far(proxy).hold("scope", timeout=LIMIT)
                held.acquire()
                held.on_taken = lambda fault: self.fail("whoever asks is told by that")
                proxy.cut(how)
                begun = time.monotonic()
                with self.assertRaisesRegex(labrun.TakenAway, "nothing was heard from the broker for more than 4.5 s"):
                    held.note("5 V")
                self.assertLess(time.monotonic() - begun, SOON)
                self.assertFalse(held.held)
                proxy.mend()

    def test_it_comes_back_in_time(self) -> None:
        broker, proxy = self.cut_broker(30)
        near = self.lab(broker)
        held = self.far(proxy).hold("scope")
        held.acquire()
        held.on_taken = lambda fault: self.fail(str(fault))
        for how in ("both", "client", "neither"):
            proxy.cut(how)
            time.sleep(0.3)
            proxy.mend()
            held.note(how)
            self.assertTrue(held.held)
            self.assertEqual(station(near, held.station)["note"], how)
        held.release()

    def test_it_stays_as_long_as_it_wants(self) -> None:
        """It says that it is there, with no word from its program, while it holds and after it has waited."""
        broker, proxy = self.cut_broker(4)
        near, far = self.lab(broker), self.far(proxy)
        with near.hold("scope"):
            waits = far.hold("scope", timeout=LIMIT)
            thread = threading.Thread(target=waits.acquire)
            thread.start()
            time.sleep(6)
        thread.join(LIMIT)
        begun = time.monotonic()
        while time.monotonic() < begun + 6:
            self.assertTrue(waits.held)
            time.sleep(0.01)
        waits.release()

    def test_who_stops_is_released(self) -> None:
        """Its connection is whole, but it says nothing. It is told once it goes on."""
        broker = self.broker(RELEASES, "--grace", "6")
        text = HOLDS.replace("print(held.station", "held.on_taken = lambda fault: print(f'told: {fault}', flush=True)\nprint(held.station")
        one = subprocess.Popen([sys.executable, "-c", text, broker.address, "scope"], stdin=subprocess.PIPE, stdout=subprocess.PIPE, text=True)
        self.addCleanup(one.communicate)
        self.addCleanup(one.kill)
        assert one.stdout is not None
        one.stdout.readline()
        time.sleep(0.5)
        one.send_signal(signal.SIGSTOP)
        begun = time.monotonic()
        lab = self.lab(broker)
        with lab.hold("scope", timeout=LIMIT):
            self.assertGreater(time.monotonic() - begun, 3)
            self.assertLess(time.monotonic() - begun, SOON)
        one.send_signal(signal.SIGCONT)
        self.assertRegex(one.stdout.readline(), "^told: guest-1: ")

    def test_short_graces_are_refused(self) -> None:
        broker = self.broker()
        with open(f"{broker.folder}/releases.toml", "w", encoding="utf-8") as file:
            file.write(RELEASES)
        done = broker.ran("serve", f"{broker.folder}/releases.toml", "--listen", "127.0.0.1:0", "--grace", "0.5")
        self.assertEqual(done.returncode, 2)
        self.assertIn('--grace 0.5: where gone = "release" it is 1 s at least', done.stderr)


class Commands(OnAWay):
    def started_far(self, proxy: Proxy, *command: str) -> "subprocess.Popen[str]":
        words = [sys.executable, "-m", "labrun_broker", "hold", "scope", "--broker", proxy.address, "--", *command]
        one = subprocess.Popen(words, stdout=subprocess.PIPE, stderr=subprocess.PIPE, text=True)
        self.addCleanup(one.communicate)
        self.addCleanup(one.kill)
        return one

    def test_its_command_is_ended(self) -> None:
        broker, proxy = self.cut_broker(8)
        one = self.started_far(proxy, "sh", "-c", "trap 'echo ended; kill $!; exit 9' TERM; echo begun; sleep 60 & wait")
        assert one.stdout is not None
        self.assertEqual(one.stdout.readline(), "begun\n")
        proxy.cut("neither")
        with self.lab(broker).hold("scope", timeout=LIMIT):
            ended = time.monotonic()
        self.assertEqual(one.stdout.readline(), "ended\n")
        self.assertLess(time.monotonic() - ended, SOON)
        proxy.mend()
        _, said = one.communicate(timeout=LIMIT)
        self.assertEqual(one.returncode, 76)
        self.assertIn("nothing was heard from the broker for more than 6 s, so the session is over, and others may hold these by now: scope; the command is being ended", said)

    def test_hold_is_killed(self) -> None:
        """Its command ends if others may have the instruments, and else goes on."""
        for bay, ends in ((RELEASES, True), (BAY, False)):
            with self.subTest(ends):
                broker, proxy = self.cut_broker(4, bay)
                one = self.started_far(proxy, "sh", "-c", "echo $$; exec sleep 60")
                assert one.stdout is not None
                number = int(one.stdout.readline())
                one.kill()
                if ends:
                    until(lambda: not is_there(number))
                    with self.lab(broker).hold("scope", timeout=LIMIT):
                        pass
                else:
                    time.sleep(1)
                    self.assertTrue(is_there(number))
                    os.kill(number, signal.SIGTERM)


def is_there(number: int) -> bool:
    try:
        with open(f"/proc/{number}/stat", encoding="ascii") as file:
            return file.read().rsplit(")", 1)[1].split()[0] != "Z"
    except FileNotFoundError:
        return False


class Writes(unittest.IsolatedAsyncioTestCase):
    """Whoever asks hears that the stream is lost, wherever its write is by then. (On a connection that was cut gRPC may never end one.)"""

    async def asyncSetUp(self) -> None:
        over = self.over = asyncio.Event()

        class Call:
            async def write(self, _: object) -> None:
                await asyncio.Event().wait()

            async def read(self) -> object:
                await over.wait()
                return grpc.aio.EOF

            async def code(self) -> grpc.StatusCode:
                return grpc.StatusCode.UNAVAILABLE

            async def details(self) -> str:
                return "cut"

            def cancel(self) -> None: ...

        lab: Any = SimpleNamespace(_methods={"Hold": lambda metadata: Call()}, _metadata=(), _idle=[])
        self.stream = Stream(lab)
        # (it reads from now on)
        await asyncio.sleep(0.01)

    async def are_lost(self, pause: float) -> None:
        asks = [asyncio.create_task(self.stream.asks(ping=pb.Ping(at=at))) for at in (1.0, 2.0)]
        if pause:
            await asyncio.sleep(pause)
        self.over.set()
        for it in asks:
            with self.assertRaisesRegex(Lost, "cut"):
                await asyncio.wait_for(it, LIMIT)

    async def test_one_that_never_ends(self) -> None:
        await self.are_lost(0.01)

    async def test_one_that_had_not_begun(self) -> None:
        """The stream ends between the moment at which it is asked and that at which it is written."""
        await self.are_lost(0.0)


if __name__ == "__main__":
    unittest.main()
