"""What the tests of a lab have in common: a lab that is closed behind the test, sessions of it, and who counts their holders."""

from __future__ import annotations

import contextlib
import gc
import os
import tempfile
import threading
import unittest
from typing import Any, Callable, Iterator, Optional
from unittest import mock

import labrun
from labrun import _shell
from tests.benches import in_thread, until

NAMES = ["scope", "supply", "load-1", "load-2"]
STATIONS = {"board": ["scope", "supply"], "radio": ["scope"], "drive": ["supply", "load-1", "load-2"], "host": ["load-1", "load-2"]}


class Counting:
    """Sees two holders of an instrument. One operation of Python on a list each: whoever comes second is seen by its append."""

    def __init__(self) -> None:
        self.holders: dict[str, list[int]] = {}
        self.lock = threading.Lock()
        self.clashes = self.done = 0

    def came(self, names: tuple[str, ...]) -> None:
        clashes = 0
        for name in names:
            of = self.holders.setdefault(name, [])
            of.append(1)
            clashes += len(of) != 1
        with self.lock:
            self.clashes += clashes

    def went(self, names: tuple[str, ...]) -> None:
        clashes = 0
        for name in names:
            clashes += len(self.holders[name]) != 1
            self.holders[name].pop()
        with self.lock:
            self.clashes, self.done = self.clashes + clashes, self.done + 1


class OnLab(unittest.TestCase):
    def lab(self, **more: Any) -> labrun.Lab:
        lab = labrun.Lab(NAMES, stations=STATIONS, **more)
        self.addCleanup(lab.close)
        return lab

    def held(self, lab: labrun.Lab, station: str, *names: str, **more: Any) -> labrun.Held:
        held = (lab.station(station).hold if station else lab.hold)(*names, **more)
        held.acquire()
        return held

    def waits(self, held: labrun.Held, faults: Optional[list[BaseException]] = None) -> threading.Thread:
        """A thread that enters it, and leaves it; here it waits."""

        def wait() -> None:
            try:
                with held:
                    pass
            except BaseException as fault:
                if faults is None:
                    raise
                faults.append(fault)

        thread = in_thread(wait)
        until(lambda: held.state != "new")
        self.assertEqual(held.state, "waiting")
        return thread

    def in_vain(self, held: labrun.Held, text: str) -> None:
        with self.assertRaisesRegex(labrun.TimeoutError, text):
            held.acquire()
        self.assertEqual(held.state, "given up")

    def is_empty(self, lab: labrun.Lab) -> None:
        self.assertEqual(lab.sessions(), ())
        for name in lab.instruments:
            with lab.hold(name, timeout=0) as held:
                self.assertEqual(held.instruments, (name,))


class OnFile(OnLab):
    def setUp(self) -> None:
        folder = tempfile.TemporaryDirectory(dir="/dev/shm" if os.access("/dev/shm", os.W_OK) else None)
        self.addCleanup(folder.cleanup)
        self.folder, self.path = folder.name, os.path.join(folder.name, "bay.journal")

    def opened(self, sync: str = "none", **more: Any) -> labrun.Lab:
        lab = labrun.Lab(NAMES, stations=STATIONS, journal=self.path, sync=sync, **more)
        self.addCleanup(self.dropped, lab)
        return lab

    def dropped(self, lab: labrun.Lab) -> None:
        with contextlib.suppress(labrun.JournalError):
            lab.close()

    def text(self) -> bytes:
        with open(self.path, "rb") as file:
            return file.read()

    def words(self) -> list[list[str]]:
        """The words of each line behind the sums."""
        return [line[17:].split(" ") for line in self.text().decode().splitlines()]

    def written(self, text: bytes) -> None:
        with open(self.path, "wb") as file:
            file.write(text)

    @contextlib.contextmanager
    def disk(self, lab: labrun.Lab, append: Callable[[bytes, Callable[[bytes], None]], None]) -> Iterator[None]:
        store: Any = lab._shell._store
        real = store.put
        put = lambda text, place: append(text, lambda it: real(it, place))  # noqa: E731
        with mock.patch.object(store, "put", put), mock.patch.object(_shell, "AGAIN", 0.002):
            yield


def threads_since(before: set[threading.Thread]) -> set[threading.Thread]:
    """(Some of those before may end meanwhile.)"""
    return set(threading.enumerate()) - before


def are_gone(before: set[threading.Thread]) -> bool:
    """(A thread that was at work just now had the lab: so the collector has to come again.)"""
    gc.collect()
    return not threads_since(before)


def full() -> OSError:
    return OSError(28, "No space left on device")


def tried(call: Callable[[], None]) -> Optional[int]:
    """Again and again, until there is room."""
    for count in range(10000):
        try:
            call()
            return count
        except labrun.JournalError:
            pass
    raise AssertionError("it never comes through")
