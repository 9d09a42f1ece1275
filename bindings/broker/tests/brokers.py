"""A broker to test: a process of its own, with its bay, its socket and its state in a folder that is thrown away."""

from __future__ import annotations

import contextlib
import glob
import json
import os
import random
import re
import signal
import socket
import subprocess
import sys
import tempfile
import threading
import time
import unittest
from typing import IO, Any, Callable, Iterator, Optional

import labrun_broker

TOP = os.path.realpath(os.path.join(os.path.dirname(__file__), "..", "..", ".."))
LIMIT = 45.0  # seconds, for what takes a fraction of one on a quiet machine
# seconds, for what is done at once, where a fault would take LIMIT
SOON = LIMIT / 3

BAY = """
bay = "north"
instruments = ["scope", "supply", "load-1", "load-2"]
[stations]
board = ["scope", "supply"]
radio = ["scope"]
[guests]
count = 4
"""

COMMAND = [sys.executable, "-m", "labrun_broker"]

# what is behind it is started to ignore these, as by nohup
IGNORED = (signal.SIGHUP, signal.SIGINT, signal.SIGQUIT)
IGNORES = ["sh", "-c", "trap '' HUP INT QUIT; exec \"$@\"", "sh"]


def until(is_so: Callable[[], Any], what: str = "it") -> Any:
    """Waits until something is so, and gives it."""
    end = time.monotonic() + LIMIT
    while not (found := is_so()):
        if time.monotonic() > end:
            raise AssertionError(f"{what} isn't so after {LIMIT} s")
        time.sleep(0.01)
    return found


_dice = random.Random()


def free_port() -> int:
    """One that nobody has. It is below those that the kernel gives to whoever connects, and no other process of these tests picks it as long as
    this one lives: so it is still free when it is bound."""
    while True:
        port, mark = _dice.randrange(10000, 32768), socket.socket(socket.AF_UNIX)
        with socket.socket() as one:
            try:
                one.bind(("127.0.0.1", port))
                mark.bind(f"\0labrun-tests-port-{port}")
            except OSError:
                mark.close()
                continue
        # (it stays open)
        mark.detach()
        return port


def certificate(folder: str, name: str = "certificate", key: str = "key", of: str = "DNS:localhost") -> tuple[str, str]:
    """A certificate and its key, made anew: their files."""
    words = ["openssl", "req", "-x509", "-newkey", "ec", "-pkeyopt", "ec_paramgen_curve:prime256v1", "-nodes", "-days", "2", "-subj", "/CN=it"]
    words += ["-addext", f"subjectAltName={of}", "-keyout", f"{folder}/{key}", "-out", f"{folder}/{name}"]
    subprocess.run(words, check=True, capture_output=True)
    return f"{folder}/{name}", f"{folder}/{key}"


def expires(certificate: str, key: str) -> None:
    """It was good until yesterday."""
    subprocess.run(["openssl", "x509", "-in", certificate, "-signkey", key, "-days", "-1", "-out", certificate], check=True, capture_output=True)


# the lines of a `hold` that has waited for its first word for some seconds, and of one whose turn isn't on the disk a moment later: on a busy
# machine any may have to
_NO_WORD = r"there is no word from the broker at \S+; (?:labrun-)?hold keeps trying for (?:a while|\S+ s in all), and Ctrl-C ends that"
UNHEARD = re.compile(rf"^labrun-(?:broker|hold): (?:{_NO_WORD}|waits: (?:in the bay \S+: )?it is this session's turn, and it holds once that is .*)\n", re.M)


def heard(lines: Optional[IO[str]]) -> str:
    """The next line that is none of those."""
    assert lines is not None
    while UNHEARD.match(line := lines.readline()):
        pass
    return line


class Broker:
    """`labrun-broker serve`, begun anew as often as wanted."""

    # the first line that it says. (A fault of its file may begin with `bay`, too)
    opens = r"labrun-broker: bay( [\w.-]+)?: \d+ instruments?, at "

    def __init__(self, folder: str, bay: str = BAY, words: tuple[str, ...] = (), command: list[str] = COMMAND) -> None:
        self.folder, self.words, self.command = folder, words, command
        self.address = f"unix:{folder}/bay.sock"
        with open(f"{folder}/bay.toml", "w", encoding="utf-8") as file:
            file.write(bay)
        self.process: Optional[subprocess.Popen[str]] = None
        self.begin()

    def begin(self) -> None:
        words = [*self.command, "serve", f"{self.folder}/bay.toml", "--listen", self.address, *self.words]
        if self.process is not None and self.process.stderr is not None:
            self.process.stderr.close()
        self.process = subprocess.Popen(words, stderr=subprocess.PIPE, text=True)
        assert self.process.stderr is not None
        self.first = self.process.stderr.readline()
        if re.match(self.opens, self.first) is None and "isn't open after" in self.first:
            # (on a busy machine it may take that long)
            self.first = self.process.stderr.readline()
        if re.match(self.opens, self.first) is None:
            # (else it may go on, and say nothing more)
            self.process.kill()
            raise AssertionError(self.first + self.process.stderr.read())

    def kill(self) -> None:
        self.end(signal.SIGKILL)

    def end(self, number: int = signal.SIGTERM) -> int:
        assert self.process is not None and self.process.stderr is not None
        self.process.send_signal(number)
        status = self.process.wait(LIMIT)
        self.said = self.process.stderr.read()
        self.process.stderr.close()
        return status

    def ends(self) -> None:
        """However a test went: nothing of it is left behind."""
        if self.process is not None and self.process.poll() is None:
            try:
                self.end()
            except subprocess.TimeoutExpired:
                self.kill()
                raise

    def lab(self, station: str = "") -> labrun_broker.Lab:
        return labrun_broker.connect(self.address, station=station, by="tester")

    def ran(self, *words: str, **more: Any) -> subprocess.CompletedProcess[str]:
        """What a command says, and its status."""
        environment = {**os.environ, "LABRUN_BROKER": self.address}
        done = subprocess.run([*COMMAND, *words], env=environment, capture_output=True, text=True, timeout=LIMIT, **more)
        done.stderr = UNHEARD.sub("", done.stderr)
        return done

    def started(self, *words: str) -> subprocess.Popen[str]:
        environment = {**os.environ, "LABRUN_BROKER": self.address}
        return subprocess.Popen([*COMMAND, *words], env=environment, stdout=subprocess.PIPE, stderr=subprocess.PIPE, text=True)


def records(broker: Broker) -> list[dict[str, Any]]:
    """Those that it has written by now. (Where the disk is slow an end is told before its record is written.)"""
    with open(f"{broker.folder}/state/records.jsonl", encoding="utf-8") as file:
        return [json.loads(line) for line in file if line.endswith("\n")]


def is_stopped(process: int) -> bool:
    """Each of its threads is: on a busy machine that takes a while."""
    states = set[str]()
    for path in glob.glob(f"/proc/{process}/task/*/stat"):
        with open(path, encoding="ascii") as file:
            states.add(file.read().rsplit(")", 1)[1].split()[0])
    return states == {"T"}


@contextlib.contextmanager
def stopped(broker: Broker) -> Iterator[None]:
    assert (process := broker.process) is not None
    process.send_signal(signal.SIGSTOP)
    try:
        until(lambda: is_stopped(process.pid), "that it is stopped")
        yield
    finally:
        process.send_signal(signal.SIGCONT)


@contextlib.contextmanager
def broker(bay: str = BAY, *words: str) -> Iterator[Broker]:
    with tempfile.TemporaryDirectory() as folder:
        one = Broker(folder, bay, tuple(it.replace("FOLDER", folder) for it in words))
        try:
            yield one
        finally:
            one.ends()


class OnBroker(unittest.TestCase):
    def broker(self, bay: str = BAY, *words: str) -> Broker:
        return self.enterContext(broker(bay, *words))

    def lab(self, at: Broker, station: str = "") -> labrun_broker.Lab:
        return self.enterContext(at.lab(station))


class Turns:
    """The board holds the scope, for ann; then bob waits as the board, too; then he has it, although somebody waits for the scope and load-1, which
    a guest keeps."""

    def __init__(self, test: OnBroker, at: Broker) -> None:
        of = lambda name, by: test.enterContext(labrun_broker.connect(at.address, station=name, by=by))
        self.lab, self._bob = of("board", "ann"), of("board", "bob")
        self._held, self._load = self.lab.hold("scope"), of("", "cem").hold("load-1")
        self._load.acquire()
        self._held.acquire()
        self._waits = threading.Thread(target=lambda: self._bob.hold("scope", timeout=2 * LIMIT).acquire())
        test.addCleanup(self._ends)

    def bob_waits(self) -> None:
        self._waits.start()
        until(lambda: any(it["by"] == "bob" for it in self.lab.status()["in_line"]), "bob waits")

    def ann_goes(self) -> None:
        self._held.release()
        self._waits.join(LIMIT)

    def _ends(self) -> None:
        if self._waits.is_alive():
            self.ann_goes()


def station(lab: labrun_broker.Lab, name: str) -> dict[str, Any]:
    return next(it for it in lab.status()["stations"] if it["name"] == name)
