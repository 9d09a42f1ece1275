"""A guard to test: a process of its own, before the instruments of `examples/broker/instruments.py`."""

from __future__ import annotations

import os
import subprocess
import sys
import unittest
from typing import Optional

from tests.brokers import BAY, COMMAND, LIMIT, TOP, Broker, free_port

sys.path.insert(0, f"{TOP}/examples/broker")
from instruments import Bay, Busy, Talk  # noqa: E402

# what a client may get that isn't let through
REFUSED = (Busy, ConnectionError)


class Guarded:
    """A broker whose instruments have a guard each, and the guards' process."""

    def __init__(self, folder: str, to: dict[str, int], words: tuple[str, ...] = (), how: str = "", bay: str = f"{BAY}[guards]\n", listen: str = "127.0.0.1") -> None:
        self.folder, self.words = folder, words
        self.ports = {name: free_port() for name in to}
        rows = "".join(f'{name} = "127.0.0.1:{port} {how}"\n' for name, port in self.ports.items())
        self.broker = Broker(folder, f"{bay}{rows}", ("--state", f"{folder}/state"))
        with open(f"{folder}/guards.toml", "w", encoding="utf-8") as file:
            for name, port in to.items():
                file.write(f'[{name}]\nlisten = "{listen}:{self.ports[name]}"\ninstrument = "127.0.0.1:{port}"\n')
        self.process: Optional[subprocess.Popen[str]] = None
        self.begin()

    def begin(self, before: str = "") -> None:
        words = [*COMMAND, "guard", f"{self.folder}/guards.toml", "--broker", before + self.broker.address, *self.words]
        self.process = subprocess.Popen(words, stderr=subprocess.PIPE, text=True)
        assert self.process.stderr is not None
        self.said = [self.process.stderr.readline() for _ in self.ports]
        if not all(": guards " in line for line in self.said):
            raise AssertionError("".join(self.said) + self.process.stderr.read())

    def end(self) -> None:
        if self.process is not None and self.process.stderr is not None:
            self.process.kill()
            self.process.wait(LIMIT)
            self.process.stderr.close()
            self.process = None

    def ends(self) -> None:
        self.end()
        self.broker.ends()


class BeforeInstruments(unittest.TestCase):
    """`scope` and `supply` of the usual bay have guards."""

    words: tuple[str, ...] = ()
    how = ""

    def setUp(self) -> None:
        self.instruments = Bay(["scope", "supply"])
        self.addCleanup(self.closes)
        self.folder = self.enterContext(Folder())
        self.at = Guarded(self.folder, self.instruments.ports, self.words, self.how)
        self.addCleanup(self.at.ends)

    def closes(self) -> None:
        if not self.instruments.counts:
            self.instruments.close()

    def lab(self):  # type: ignore[no-untyped-def]
        return self.enterContext(self.at.broker.lab())

    def refused(self) -> int:
        """How many clients the instruments saw while they talked with another."""
        self.closes()
        return self.instruments.refused


class Folder:
    """A folder that is thrown away."""

    def __enter__(self) -> str:
        import tempfile

        self._it = tempfile.TemporaryDirectory()
        return self._it.name

    def __exit__(self, *fault: object) -> None:
        self._it.cleanup()


def talk(address: tuple[str, int]) -> Talk:
    assert address[0] == "127.0.0.1"
    return Talk(address[1])


# holds an instrument and talks with it until that ends; says so, and when it is over
PROGRAM = """
import os, sys
sys.path[:0] = sys.argv[1:2]
import labrun_broker
from instruments import Talk
with labrun_broker.connect(sys.argv[2], by="first") as lab:
    held = lab.hold("scope")
    held.acquire()
    talk = Talk(held.address("scope")[1])
    print("talks", held.station, flush=True)
    try:
        while talk.ask("ADD 1") == "OK":
            pass
    except OSError:
        pass
    print("over", flush=True)
    os._exit(0)
"""


def program(at: Broker) -> subprocess.Popen[str]:
    words = [sys.executable, "-c", PROGRAM, f"{TOP}/examples/broker", at.address]
    return subprocess.Popen(words, stdout=subprocess.PIPE, stderr=subprocess.PIPE, text=True, env={**os.environ})
