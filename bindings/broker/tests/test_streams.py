"""Standard error that takes nothing: the command does the same, with the same status, and a session that is taken away still ends what runs."""

from __future__ import annotations

import contextlib
import os
import signal
import subprocess
import tempfile
import unittest
from typing import Iterator, Optional

from tests.brokers import BAY, COMMAND, LIMIT, Broker, OnBroker, station, until

# what says when it runs and that it got SIGTERM, each in a file (a shell says on standard error that a signal ended what it waits for)
MINDS = "exec 2> /dev/null; trap 'echo > FOLDER/ended; exit 3' TERM; echo > FOLDER/begun; n=0; while [ $((n += 1)) -lt 1200 ]; do sleep 0.05; done"
CLOSED = ["sh", "-c", 'exec "$@" 2>&-', "sh"]


@contextlib.contextmanager
def broken() -> Iterator[int]:
    """A pipe that nobody reads any more."""
    reads, writes = os.pipe()
    os.close(reads)
    try:
        yield writes
    finally:
        os.close(writes)


@contextlib.contextmanager
def full() -> Iterator[int]:
    """A pipe that takes no more, and whose reader sleeps."""
    reads, writes = os.pipe()
    os.set_blocking(writes, False)
    with contextlib.suppress(BlockingIOError):
        while True:
            os.write(writes, b"x" * 4096)
    os.set_blocking(writes, True)
    try:
        yield writes
    finally:
        os.close(reads)
        os.close(writes)


@contextlib.contextmanager
def no_room() -> Iterator[int]:
    with open("/dev/full", "wb", buffering=0) as file:
        yield file.fileno()


@contextlib.contextmanager
def closed() -> Iterator[None]:
    yield None


TAKES_NOTHING = (broken, full, no_room, closed)


class Errors(OnBroker):
    def started(self, to: Optional[int], broker: Broker, *words: str) -> "subprocess.Popen[str]":
        before = CLOSED if to is None else []
        words = tuple(it.replace("FOLDER", broker.folder) for it in words)
        environment = {**os.environ, "LABRUN_BROKER": broker.address}
        one = subprocess.Popen([*before, *COMMAND, *words], env=environment, stdout=subprocess.PIPE, stderr=to, text=True)
        self.addCleanup(one.communicate)
        self.addCleanup(one.kill)
        return one

    def begins(self, to: Optional[int], broker: Broker, *words: str) -> "subprocess.Popen[str]":
        for it in ("begun", "ended"):
            with contextlib.suppress(FileNotFoundError):
                os.unlink(f"{broker.folder}/{it}")
        one = self.started(to, broker, "hold", "scope", *words, "--", "sh", "-c", MINDS)
        until(lambda: os.path.exists(f"{broker.folder}/begun"), "the command runs")
        return one

    def is_ended(self, broker: Broker, one: "subprocess.Popen[str]", status: int) -> None:
        self.assertEqual((one.communicate(timeout=LIMIT)[0], one.returncode), ("", status))
        self.assertTrue(os.path.exists(f"{broker.folder}/ended"), "it got SIGTERM")

    def test_a_session_that_is_taken_away(self) -> None:
        broker = self.broker()
        for errors in TAKES_NOTHING:
            with self.subTest(errors.__name__), errors() as to:
                one = self.begins(to, broker, "--station", "board")
                self.assertEqual(broker.ran("release", "board").returncode, 0)
                self.is_ended(broker, one, 76)

    def test_a_limit(self) -> None:
        """A line is said before it, and that isn't taken either."""
        broker = self.broker()
        for errors in (broken, full):
            with self.subTest(errors.__name__), errors() as to:
                one = self.begins(to, broker, "--station", "board", "--limit", "3")
                self.assertEqual(broker.ran("hold", "scope", "--", "true").returncode, 0)
                self.is_ended(broker, one, 76)

    def test_it_waits_and_then_runs(self) -> None:
        broker = self.broker()
        lab = self.lab(broker)
        for errors in TAKES_NOTHING:
            with self.subTest(errors.__name__), errors() as to:
                with lab.hold("scope"):
                    one = self.started(to, broker, "hold", "scope", "--station", "board", "--", "sh", "-c", "echo 5.003; exit 4")
                    until(lambda: station(lab, "board")["state"] == "waiting")
                # (of what is said nothing is in its output)
                self.assertEqual((one.communicate(timeout=LIMIT)[0], one.returncode), ("5.003\n", 4))

    def test_a_signal_and_what_goes_on(self) -> None:
        """It lets go only once all of it has ended."""
        broker = self.broker()
        goes_on = "exec 2> /dev/null; (trap '' TERM; n=0; while ! [ -e FOLDER/go ] && [ $((n += 1)) -lt 900 ]; do sleep 0.05; done) & echo > FOLDER/begun; wait"
        for errors in (broken, full):
            with self.subTest(errors.__name__), errors() as to:
                for it in ("begun", "go"):
                    with contextlib.suppress(FileNotFoundError):
                        os.unlink(f"{broker.folder}/{it}")
                one = self.started(to, broker, "hold", "scope", "--", "sh", "-c", goes_on)
                until(lambda: os.path.exists(f"{broker.folder}/begun"))
                one.send_signal(signal.SIGTERM)
                self.assertEqual(broker.ran("hold", "scope", "--timeout", "3", "--", "true").returncode, 75)
                with open(f"{broker.folder}/go", "w", encoding="utf-8"):
                    pass
                self.assertEqual((one.communicate(timeout=LIMIT)[0], one.returncode), ("", 143))

    def test_statuses(self) -> None:
        broker = self.broker()
        lab = self.lab(broker)
        rows = ((["hold", "scope", "--timeout", "x", "--", "true"], 2), (["hold", "nosuch", "--", "true"], 2), (["hold", "load-1", "-n", "--", "true"], 75))
        for errors in TAKES_NOTHING:
            with self.subTest(errors.__name__), errors() as to, lab.hold("load-1"):
                for words, status in (*rows, (["hold", "scope", "--", "/nowhere/it"], 127)):
                    one = self.started(to, broker, *words)
                    self.assertEqual((one.communicate(timeout=LIMIT)[0], one.returncode), ("", status), words)

    def test_a_broker(self) -> None:
        """Who is released hears it from one that was begun with standard error closed."""
        folder = self.enterContext(tempfile.TemporaryDirectory())
        with open(f"{folder}/bay.toml", "w", encoding="utf-8") as file:
            file.write(BAY)
        at = f"unix:{folder}/sock"
        serves = subprocess.Popen([*CLOSED, *COMMAND, "serve", f"{folder}/bay.toml", "--listen", at, "--state", f"{folder}/state"])
        self.addCleanup(serves.wait)
        self.addCleanup(serves.kill)
        words = [it.replace("FOLDER", folder) for it in ("hold", "scope", "--station", "board", "--broker", at, "--", "sh", "-c", MINDS)]
        with subprocess.Popen([*COMMAND, *words], stderr=subprocess.PIPE, text=True) as one:
            until(lambda: os.path.exists(f"{folder}/begun"))
            done = subprocess.run([*COMMAND, "release", "board", "--broker", at], capture_output=True, text=True, timeout=LIMIT)
            self.assertEqual((done.returncode, done.stderr), (0, ""))
            self.assertEqual(one.wait(LIMIT), 76)
        self.assertTrue(os.path.exists(f"{folder}/ended"))


class Output(unittest.TestCase):
    """What the command prints itself."""

    LINES = (["--help"], ["hold", "--help"])

    def ran(self, to: int, *words: str) -> "tuple[int, str]":
        done = subprocess.run([*COMMAND, *words], stdout=to, stderr=subprocess.PIPE, text=True, timeout=LIMIT)
        return done.returncode, done.stderr

    def test_nobody_reads_it(self) -> None:
        for words in self.LINES:
            with self.subTest(words), broken() as to:
                self.assertEqual(self.ran(to, *words), (0, ""))

    def test_there_is_no_room(self) -> None:
        for words in self.LINES:
            with self.subTest(words), no_room() as to:
                status, said = self.ran(to, *words)
                self.assertEqual((status, said.replace("standard output: ", "")), (1, "labrun-broker: No space left on device\n"))

    def test_it_is_closed(self) -> None:
        with tempfile.TemporaryDirectory() as folder:
            with open(f"{folder}/records.jsonl", "w", encoding="utf-8") as file:
                file.write('{"t": 1700000000.0, "what": "opened", "station": null, "session": null, "instruments": [], "by": null, "text": "page 1"}\n')
            for words in (["--help"], ["token", "ann"], ["table", folder], ["report", folder], ["gantt", folder]):
                with self.subTest(words):
                    done = subprocess.run(["sh", "-c", 'exec "$@" >&-', "sh", *COMMAND, *words], stderr=subprocess.PIPE, text=True, timeout=LIMIT)
                    self.assertEqual(done.returncode, 1)
                    self.assertRegex(done.stderr, r"(^|\n)labrun-broker: (standard output: )?Bad file descriptor\n$")
