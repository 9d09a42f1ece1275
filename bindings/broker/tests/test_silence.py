"""Whoever waits in the line is told soon of a broker that says nothing any more, and when it answers again. (Without that it would be said after a
minute and more, which is longer than anything is waited for here.)"""

from __future__ import annotations

import queue
import signal
import subprocess
import sys
import threading
import time
import unittest
from concurrent.futures import ThreadPoolExecutor
from unittest import mock

import labrun
from labrun_broker import client, silence
from labrun_broker.silence import ASKS, SAYS, TICK, Silence, first_while
from tests.brokers import BAY, LIMIT, Broker, OnBroker, free_port, is_stopped, station, stopped, until

# the connection lasts however long the broker is stopped
OF_GRPC = [(name, value if "keepalive" not in name else int(LIMIT * 10000)) for name, value in client.OPTIONS]
LASTS = "import sys; from labrun_broker import client, command, silence, wire; client.OPTIONS, wire.SILENT, silence.TICK = OPTIONS, 1e6, TICK; sys.exit(command.main())"


def no_word(at: str) -> str:
    return f"there is no word from the broker at {at}; "


def again(at: str, how: str) -> str:
    return f"the broker at {at} answers again{how}"


KEPT, LOST = ", and the place in line is kept", "; the place in line is lost, and this waits at its end"


class Waits:
    """A hold, and the lines that it says."""

    def __init__(self, words: "list[str]") -> None:
        self.process = subprocess.Popen(words, stdout=subprocess.PIPE, stderr=subprocess.PIPE, text=True)
        self._said = queue.SimpleQueue[str]()
        self._reader = threading.Thread(target=self._reads, daemon=True)
        self._reader.start()

    def _reads(self) -> None:
        assert self.process.stderr is not None
        for line in self.process.stderr:
            self._said.put(line)
        self._said.put("")

    def line(self, span: float = LIMIT) -> str:
        """The next one; nothing, once it has ended."""
        try:
            return self._said.get(timeout=span)
        except queue.Empty:
            raise AssertionError(f"it says nothing within {span} s") from None

    def close(self) -> None:
        assert self.process.stdout is not None and self.process.stderr is not None
        self.process.kill()
        self.process.wait(LIMIT)
        self._reader.join(LIMIT)
        self.process.stdout.close()
        self.process.stderr.close()


class Commands(OnBroker):
    def waits(self, broker: Broker, at: str, program: str = "", tick: float = TICK) -> Waits:
        """One that waits behind `guest-1`."""
        how = ["-c", LASTS.replace("OPTIONS, 1e6, TICK;", f"{OF_GRPC}, 1e6, {tick};")] if program == "lasts" else ["-m", "labrun_broker"]
        words = [sys.executable, *how, "hold", "scope", "--broker", at, "--", "echo", "ran"]
        one = Waits(words)
        self.addCleanup(one.close)
        self.assertRegex(one.line(), "^labrun-broker: waits: scope has been held by guest-1")
        return one

    def ends(self, one: Waits) -> None:
        """It has run its command, and says nothing more, but perhaps that the disk is slow."""
        said = iter(one.line, "")
        self.assertEqual([it for it in said if "it is this session's turn, and it holds once that is on the disk" not in it], [])
        self.assertEqual(one.process.wait(LIMIT), 0)

    def at(self) -> "tuple[Broker, tuple[str, str]]":
        port = free_port()
        broker = self.broker(BAY, "--state", "FOLDER/state", "--listen", f"127.0.0.1:{port}")
        return broker, (broker.address, f"127.0.0.1:{port}")

    def test_a_stopped_broker(self) -> None:
        """It is told of soon, by each way; and once it goes on, the first in line is still the first."""
        broker, addresses = self.at()
        for at in addresses:
            with self.subTest(at), self.lab(broker) as lab:
                held = lab.hold("scope")
                held.acquire()
                one = self.waits(broker, at, "lasts")
                behind = self.waits(broker, broker.address, "lasts")
                with stopped(broker):
                    self.assertEqual(one.line(), f"labrun-broker: {no_word(at)}hold keeps trying for a while, and Ctrl-C ends that\n")
                self.assertEqual(one.line(), f"labrun-broker: {again(at, KEPT)}\n")
                self.assertEqual([station(lab, it).get("place") for it in ("guest-2", "guest-3")], [1, 2])
                held.release()
                self.ends(one)
                behind.process.wait(LIMIT)

    def test_a_broker_that_is_killed(self) -> None:
        """Its line is gone with it: who waited is told that, too."""
        broker, addresses = self.at()
        for at in addresses:
            with self.subTest(at), self.lab(broker) as lab:
                held = lab.hold("scope")
                held.acquire()
                one = self.waits(broker, at)
                broker.kill()
                self.assertEqual(one.line(), f"labrun-broker: {no_word(at)}hold keeps trying for a while, and Ctrl-C ends that\n")
                broker.begin()
                self.assertEqual(one.line(), f"labrun-broker: {again(at, LOST)}\n")
                self.assertRegex(one.line(), "^labrun-broker: waits: scope has been held by guest-1")
                held.release()
                self.ends(one)

    def test_a_hold_that_was_stopped_itself(self) -> None:
        """It says nothing of the broker, which answered all the while."""
        broker, addresses = self.at()
        for at in addresses:
            with self.subTest(at), self.lab(broker) as lab:
                held = lab.hold("scope")
                held.acquire()
                one = self.waits(broker, at, "lasts", 0.5)
                one.process.send_signal(signal.SIGSTOP)
                until(lambda: is_stopped(one.process.pid), "that it is stopped")
                # (by the clock it has heard nothing for twice as long as it takes to say so)
                time.sleep(2 * 0.5 * SAYS)
                one.process.send_signal(signal.SIGCONT)
                time.sleep(1)
                held.release()
                self.ends(one)


class Programs(OnBroker):
    def setUp(self) -> None:
        self.enterContext(mock.patch.object(client, "OPTIONS", OF_GRPC))

    def test_what_waits_is_called_with(self) -> None:
        broker = self.broker(BAY, "--state", "FOLDER/state")
        told = list[str]()
        first, lab = self.lab(broker), self.lab(broker)
        held = first.hold("scope")
        held.acquire()
        with ThreadPoolExecutor() as threads:
            waits = lab.hold("scope", waits=told.append)
            asked = threads.submit(waits.acquire)
            until(lambda: told, "that it waits")
            with stopped(broker):
                until(lambda: len(told) > 1, "that it is told")
            until(lambda: len(told) > 2, "that it is told again")
            self.assertEqual(told[1:3], [f"{no_word(broker.address)}this keeps trying for a while", again(broker.address, KEPT)])
            broker.kill()
            until(lambda: len(told) > 3, "that it is told of that, too")
            broker.begin()
            until(lambda: len(told) > 4, "that it is told again")
            self.assertEqual(told[3:5], [f"{no_word(broker.address)}this keeps trying for a while", again(broker.address, LOST)])
            held.release()
            asked.result(LIMIT)
            waits.release()

    def test_what_it_raises(self) -> None:
        """The wait ends by that, and nothing is held."""
        broker = self.broker()
        first, lab, told = self.lab(broker), self.lab(broker), list[str]()

        def tells(text: str) -> None:
            told.append(text)
            if "no word" in text:
                raise ZeroDivisionError(text)

        with first.hold("scope"), ThreadPoolExecutor() as threads:
            asked = threads.submit(lab.hold("scope", waits=tells).acquire)
            until(lambda: told, "that it waits")
            with stopped(broker), self.assertRaisesRegex(ZeroDivisionError, "no word"):
                asked.result(LIMIT)
            until(lambda: station(first, "guest-2")["state"] == "idle", "that it has left the line")

    def test_who_asks_for_no_such_word(self) -> None:
        """Without `waits=` nothing more is sent while it waits."""
        broker = self.broker()
        first, lab = self.lab(broker), self.lab(broker)
        self.enterContext(mock.patch.object(silence, "TICK", 0.01))
        with first.hold("scope"), ThreadPoolExecutor() as threads, mock.patch("labrun_broker.stream.Stream.pings") as pings:
            asked = threads.submit(lab.hold("scope", timeout=1).acquire)
            with self.assertRaises(labrun.TimeoutError):
                asked.result(LIMIT)
            pings.assert_not_called()


class Counts(unittest.TestCase):
    def setUp(self) -> None:
        self.told = list[str]()
        self.it = Silence("unix:/a", self.told.append, "for 30 s in all", "hold", ", and Ctrl-C ends that")

    def ticks(self, count: int) -> int:
        """How often it is asked whether the broker is there."""
        return sum(self.it.ticks() for _ in range(count))

    def test_the_first_word(self) -> None:
        """Of a broker that has said nothing yet it is told for how long it is tried; and nothing of a place in its line."""
        self.ticks(SAYS - 1)
        self.assertEqual(self.told, [])
        self.ticks(3 * SAYS)
        self.assertEqual(self.told, ["there is no word from the broker at unix:/a; hold keeps trying for 30 s in all, and Ctrl-C ends that"])
        self.it.hears(is_in_line=False)
        self.it.hears()
        self.assertEqual(len(self.told), 1)

    def test_words_in_time(self) -> None:
        """It is asked for, and so comes before it is missed."""
        self.it.hears()
        for _ in range(10):
            self.assertEqual(self.ticks(ASKS), 1)
            self.it.hears()
        self.assertEqual(self.told, [])

    def test_a_cut_is_no_silence(self) -> None:
        """Who soon waits again isn't told; but who was told, and then asked again, that the place is lost."""
        self.it.hears()
        self.it.is_cut()
        self.it.hears()
        self.assertEqual(self.told, [])
        self.ticks(SAYS)
        self.it.is_cut()
        self.it.hears(is_in_line=False)
        self.ticks(1)
        self.it.hears()
        self.it.hears()
        self.assertEqual(self.told[1:], [f"the broker at unix:/a answers again{LOST}"])
        self.ticks(SAYS)
        self.it.hears()
        self.assertEqual(self.told[2:], ["there is no word from the broker at unix:/a; hold keeps trying for a while, and Ctrl-C ends that", f"the broker at unix:/a answers again{KEPT}"])

    def test_who_leaves(self) -> None:
        self.it.hears()
        self.it.ends()
        self.ticks(3 * SAYS)
        self.assertEqual(self.told, [])

    def test_what_was_said_otherwise(self) -> None:
        """As that none of a list answers."""
        self.it.hears()
        self.it.is_cut()
        self.it.is_told()
        self.ticks(3 * SAYS)
        self.assertEqual(self.told, [])
        self.it.hears()
        self.assertEqual(self.told, [f"the broker at unix:/a answers again{LOST}"])

    def test_for_how_long_a_new_one_tries(self) -> None:
        for address, timeout, told in (("unix:/a", None, "for 30 s in all"), ("unix:/a", 2.5, "for 2.5 s in all"), ("a:1", 900.0, "for 30 s in all"), ("a:1,b:2", None, "for a while")):
            self.assertEqual(first_while(address, timeout), told)


if __name__ == "__main__":
    unittest.main()
