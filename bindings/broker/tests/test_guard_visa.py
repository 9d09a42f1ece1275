"""PyVISA and labgrid by a guard, at an instrument that speaks SCPI and has a large waveform; and the two connections of HiSLIP."""

from __future__ import annotations

import contextlib
import importlib.util
import itertools
import re
import socket
import struct
import subprocess
import sys
import textwrap
import threading
import unittest
import warnings
from typing import Any

from tests.brokers import LIMIT, TOP
from tests.guards import Folder, Guarded

POINTS = 8 << 20


class Scope:
    """SCPI by a socket, for one client at a time; the next waits until that one is gone."""

    def __init__(self) -> None:
        self.listening = socket.create_server(("127.0.0.1", 0))
        self.port = self.listening.getsockname()[1]
        self.waveform = bytes(range(256)) * (POINTS // 256)
        self.thread = threading.Thread(target=self.serves, daemon=True)
        self.thread.start()

    def serves(self) -> None:
        while True:
            try:
                one, _ = self.listening.accept()
            except OSError:
                return
            try:
                with one, one.makefile("rb") as lines:
                    for line in lines:
                        one.sendall(self.answer(line.strip()))
            except OSError:
                pass

    def answer(self, line: bytes) -> bytes:
        if line == b"CURVE?":
            digits = b"%d" % len(self.waveform)
            return b"#%d%s%s\n" % (len(digits), digits, self.waveform)
        return b"labrun,scope,1,0\n" if line == b"*IDN?" else b""

    def close(self) -> None:
        self.listening.close()


class ByVisa(unittest.TestCase):
    def setUp(self) -> None:
        try:
            import pyvisa

            importlib.import_module("pyvisa_py")
        except ImportError as lacking:
            raise unittest.SkipTest(str(lacking)) from None
        warnings.simplefilter("ignore", ResourceWarning)
        self.scope = Scope()
        self.addCleanup(self.scope.close)
        self.visa: Any = pyvisa.ResourceManager("@py")
        self.addCleanup(self.visa.close)

    def reads(self, address: tuple[str, int]) -> None:
        it = self.visa.open_resource("TCPIP::{}::{}::SOCKET".format(*address), read_termination="\n", write_termination="\n", timeout=1000 * LIMIT)
        try:
            self.assertEqual(it.query("*IDN?"), "labrun,scope,1,0")
            it.chunk_size = 1 << 20
            self.assertEqual(it.query_binary_values("CURVE?", datatype="B", container=bytes), self.scope.waveform)
            self.assertEqual(it.query("*IDN?"), "labrun,scope,1,0")
        finally:
            it.close()

    def test_a_large_waveform(self) -> None:
        for words, how in (((), ""), (("--by-host",), "by-host")):
            with self.subTest(how):
                with Folder() as folder:
                    at = Guarded(folder, {"scope": self.scope.port}, words, how)
                    try:
                        with at.broker.lab() as lab:
                            for _ in range(2):
                                with lab.hold("scope") as held:
                                    self.reads(held.address("scope"))
                    finally:
                        at.ends()


class AsThePageHasIt(unittest.TestCase):
    """The programs of docs/broker.md, with the broker's address in place of the page's."""

    def prints(self, begins: str) -> str:
        with open(f"{TOP}/docs/broker.md", encoding="utf-8") as page:
            [program] = [textwrap.dedent(it) for it in re.findall(r"(?m)(?:^    .*\n|^\n(?=    ))+", page.read()) if begins in it]
        scope = Scope()
        self.addCleanup(scope.close)
        at = Guarded(self.enterContext(Folder()), {"scope": scope.port})
        self.addCleanup(at.ends)
        program, count = re.subn(r"connect\([^)]*\)", f"connect({at.broker.address!r})", program)
        self.assertEqual(count, 1)
        ran = subprocess.run([sys.executable, "-W", "ignore", "-c", program], capture_output=True, text=True, timeout=LIMIT)
        self.assertEqual((ran.returncode, ran.stderr), (0, ""))
        return ran.stdout

    def test_pyvisa(self) -> None:
        if not importlib.util.find_spec("pyvisa_py"):
            self.skipTest("there is no pyvisa-py")
        self.assertEqual(self.prints("import labrun_broker, pyvisa"), "labrun,scope,1,0\n")

    def test_labgrid(self) -> None:
        if not importlib.util.find_spec("labgrid"):
            self.skipTest("there is no labgrid")
        self.assertEqual(self.prints("from labgrid import Target"), "labrun,scope,1,0\n")


class Hislip:
    """As much of it as shows that a session needs two connections: the second says the number that the first was told."""

    def __init__(self) -> None:
        self.listening = socket.create_server(("127.0.0.1", 0))
        self.port = self.listening.getsockname()[1]
        self.sessions: dict[int, socket.socket] = {}
        threading.Thread(target=self.serves, daemon=True).start()

    def serves(self) -> None:
        with contextlib.suppress(OSError):
            for number in itertools.count(1):
                one, _ = self.listening.accept()
                # (each by itself: a guard may bring a client's second connection first)
                threading.Thread(target=self.begins, args=(one, number), daemon=True).start()

    def begins(self, one: socket.socket, number: int) -> None:
        kind, given = hislip_of(one)
        if kind == 0:  # Initialize
            self.sessions[number] = one
            one.sendall(hislip(1, 0x01000000 | number))
        elif kind == 17 and given in self.sessions:  # AsyncInitialize
            one.sendall(hislip(18, 0))
            self.sessions[given].sendall(hislip(7, 0, b"labrun,scope\n"))
        else:
            one.close()


def hislip(kind: int, given: int, data: bytes = b"") -> bytes:
    return struct.pack(">2sBBIQ", b"HS", kind, 0, given, len(data)) + data


def hislip_of(one: socket.socket) -> tuple[int, int]:
    head = one.recv(16, socket.MSG_WAITALL)
    _, kind, _, given, size = struct.unpack(">2sBBIQ", head)
    one.recv(size, socket.MSG_WAITALL) if size else b""
    return kind, given


class ByHislip(unittest.TestCase):
    def test_two_connections(self) -> None:
        its = Hislip()
        self.addCleanup(its.listening.close)
        folder = self.enterContext(Folder())
        at = Guarded(folder, {"scope": its.port})
        self.addCleanup(at.ends)
        with at.broker.lab() as lab, lab.hold("scope") as held:
            with socket.create_connection(held.address("scope"), LIMIT) as one, socket.create_connection(held.address("scope"), LIMIT) as two:
                one.sendall(hislip(0, 0x01000000, b"hislip0"))
                kind, given = hislip_of(one)
                two.sendall(hislip(17, given & 0xFFFF))
                self.assertEqual((kind, hislip_of(two)[0], hislip_of(one)[0]), (1, 18, 7))


if __name__ == "__main__":
    unittest.main()
