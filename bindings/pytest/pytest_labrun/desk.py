"""A worker's end: where the process that runs tests asks for instruments."""

from __future__ import annotations

import importlib
import itertools
import json
import os
import socket
import threading
from typing import Any, Optional, Protocol, Sequence

from .past import ALONE, Held, Past

Way = tuple[str, ...]

# why a note is kept nowhere
NOTHING, A_FORK = "no instrument is held", "this is the child of a fork: instruments are held by its parent"
GONE = "the run's controller is gone"
PATIENCE = 5.0  # seconds, for which a run that is interrupted waits for a broker that doesn't answer


class NotHeld(Exception):
    """The instruments aren't held: the time limit passed, or the lab is gone. The text says why."""


class Desk(Protocol):
    def collected(self, units: Sequence[tuple[Sequence[int], Sequence[Way]]]) -> None:
        """Tells which instruments the tests need, unit by unit."""

    def hold(self, test: str, ways: Sequence[Way], timeout: Optional[float]) -> tuple[Way, float]:
        """Sleeps until all instruments of one of the ways are held: that way, and for how long it waited."""

    def let_go(self, within: Optional[float] = None) -> Optional[str]:
        """What went wrong, if something did: the instruments were taken away meanwhile, or nothing was heard in so many seconds."""

    def note(self, text: str) -> Optional[str]:
        """Why it is kept nowhere, if so. It raises what the lab says that doesn't take it."""


class AloneDesk:
    """Of a process that runs all tests itself: nothing waits."""

    def __init__(self, past: Past) -> None:
        self.past = past
        self._held: Optional[Held] = None
        self._process = os.getpid()

    def collected(self, units: Sequence[tuple[Sequence[int], Sequence[Way]]]) -> None:
        pass

    def hold(self, test: str, ways: Sequence[Way], timeout: Optional[float]) -> tuple[Way, float]:
        self._held = self.past.asks(test, ALONE, ways[0])
        self._held.held = self._held.asked
        return ways[0], 0.0

    def let_go(self, within: Optional[float] = None) -> Optional[str]:
        if self._held is not None:
            self._held.let_go, self._held.end = self.past.now(), "done"
            self._held = None
        return None

    def note(self, text: str) -> Optional[str]:
        if os.getpid() != self._process:
            return A_FORK
        if self._held is None:
            return NOTHING
        self._held.notes.append(text)
        return None


class SocketDesk:
    """Of a process that asks a server. What is held is that process's: a child of a fork has no connection, so that one that is left over when
    its parent crashes keeps nothing."""

    def __init__(self, path: str, name: str) -> None:
        self._process = os.getpid()
        self._socket = socket.socket(socket.AF_UNIX, socket.SOCK_STREAM)
        self._socket.connect(path)
        self._read = b""
        # who asks: threads of a test may note something, too
        self._asks = threading.Lock()
        self._numbers, self._holds = itertools.count(1), False
        os.register_at_fork(after_in_child=self._close)
        self._ask(do="hello", name=name)

    def _close(self) -> None:
        self._socket.close()

    def _line(self) -> bytes:
        while b"\n" not in self._read:
            if not (some := self._socket.recv(1 << 16)):
                raise ConnectionError
            self._read += some
        line, _, self._read = self._read.partition(b"\n")
        return line

    def _ask(self, **words: Any) -> dict[str, Any]:
        if os.getpid() != self._process:
            raise NotHeld(A_FORK)
        if self._socket.fileno() < 0:
            raise NotHeld(GONE)
        with self._asks:
            try:
                self._socket.sendall(json.dumps(words).encode() + b"\n")
                while True:
                    told: dict[str, Any] = json.loads(self._line())
                    # (whoever wrote a note may have been interrupted, by a time limit of its test: that answer comes now)
                    if told.get("note") == words.get("note"):
                        return told
            except ConnectionError:
                raise NotHeld(GONE) from None

    def collected(self, units: Sequence[tuple[Sequence[int], Sequence[Way]]]) -> None:
        self._ask(do="collected", units=units)

    def hold(self, test: str, ways: Sequence[Way], timeout: Optional[float]) -> tuple[Way, float]:
        try:
            told = self._ask(do="hold", test=test, ways=ways, timeout=timeout)
        except BaseException:
            # (by then it may be held: without a connection it isn't)
            self._close()
            raise
        if "held" not in told:
            raise NotHeld(told.get("late") or told.get("fault"))
        self._holds = True
        return tuple(told["held"]), told["waited"]

    def let_go(self, within: Optional[float] = None) -> Optional[str]:
        self._holds = False
        try:
            return self._ask(do="let_go", within=within).get("fault")
        except NotHeld as gone:
            return str(gone)

    def note(self, text: str) -> Optional[str]:
        __tracebackhide__ = True
        if not self._holds:
            return NOTHING
        try:
            told = self._ask(do="note", note=next(self._numbers), text=text)
        except NotHeld as why:
            return str(why)
        if "fault" in told:
            errors = importlib.import_module("labrun_broker.errors")
            raise getattr(errors, told["kind"], errors.BrokerError)(told["fault"])
        return told.get("why")
