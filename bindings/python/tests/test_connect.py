"""One line for a lab in this process, and for a broker's."""

from __future__ import annotations

import os
import sys
import tempfile
import types
import unittest
from pathlib import Path
from typing import Any
from unittest import mock

import labrun
from labrun._connect import is_address
from tests.benches import back, in_thread, until

BAY = """
bay = "north"
instruments = ["scope", "supply", "load-1"]
gone = "keep"
overtakes = 3
[stations]
board = ["scope", "supply"]
[guests]
count = 2
may_use = ["scope", "load-1"]
[limits]
clients = 7
"""


class Connect(unittest.TestCase):
    def bay(self, text: str) -> str:
        folder = tempfile.TemporaryDirectory()
        self.addCleanup(folder.cleanup)
        path = os.path.join(folder.name, "bay.toml")
        with open(path, "w", encoding="utf-8") as file:
            file.write(text)
        return path

    def test_file(self) -> None:
        path = self.bay(BAY)
        for where in (path, Path(path)):
            with labrun.connect(where) as lab:
                self.assertEqual((lab.instruments, lab.stations), (("scope", "supply", "load-1"), ("board",)))
                with self.assertRaises(labrun.MayNotUse):
                    lab.hold("supply")
                with lab.hold("scope"), lab.hold("load-1"), lab.station("board").hold("supply"):
                    # (its two places are taken)
                    with self.assertRaises(labrun.TimeoutError):
                        lab.hold("scope", timeout=0).acquire()

    def test_station(self) -> None:
        with labrun.connect(self.bay(BAY), station="board") as lab, lab.hold("supply", note="x", timeout=1) as held:
            self.assertEqual(held.station, "board")
        with self.assertRaisesRegex(ValueError, "'kitchen' is none of the stations"):
            labrun.connect(self.bay(BAY), "kitchen")

    def test_overtakes(self) -> None:
        """As the file says: three go before the one that needs both, and no more."""
        with labrun.connect(self.bay(BAY.replace("count = 2", "count = 9"))) as lab:
            first = lab.hold("scope")
            first.acquire()
            large = lab.hold("scope", "load-1")
            thread = in_thread(large.acquire)
            until(lambda: large.state == "waiting")
            for _ in range(3):
                with lab.hold("load-1", timeout=0):
                    pass
            self.assertRaises(labrun.TimeoutError, lab.hold("load-1", timeout=0).acquire)
            first.release()
            back(thread)
            large.release()

    def test_no_guests(self) -> None:
        with labrun.connect(self.bay('instruments = ["scope"]\n[stations]\nboard = ["scope"]\n')) as lab:
            with self.assertRaises(labrun.MayNotUse):
                lab.hold("scope")

    def test_no_bay(self) -> None:
        one = 'instruments = ["a"]\n'
        for text in ("", "instruments = 5", "instruments = [", one + "guests = 3", one + '[stations]\nb = ["c"]'):
            path = self.bay(text)
            with self.subTest(text), self.assertRaisesRegex(ValueError, path):
                labrun.connect(path)
        with self.assertRaises(FileNotFoundError):
            labrun.connect("none.toml")

    def test_address(self) -> None:
        """It is the broker's client that is asked."""
        broker: Any = types.ModuleType("labrun_broker")
        broker.connect = lambda address, station: (address, station)
        with mock.patch.dict(sys.modules, labrun_broker=broker):
            for where in ("unix:/run/labrun/bay.sock", "bay-3:4711", "[::1]:4711", "127.0.0.1:4711"):
                self.assertEqual(labrun.connect(where, "board"), (where, "board"))
        broker.connect = lambda address, station, token_file, certificate_file: (address, station, token_file, certificate_file)
        with mock.patch.dict(sys.modules, labrun_broker=broker):
            self.assertEqual(labrun.connect("bay-3:4711", token_file="t", certificate_file="c"), ("bay-3:4711", "", "t", "c"))
        with self.assertRaisesRegex(TypeError, "bay.toml is a file: only a broker has token_file"):
            labrun.connect("bay.toml", token_file="t")
        for path in ("bay.toml", "/etc/labrun/bay.toml", "./bay:1", "C:bay.toml"):
            self.assertFalse(is_address(path))


if __name__ == "__main__":
    unittest.main()
