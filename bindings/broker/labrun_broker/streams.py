"""The standard streams of a command. Whatever becomes of standard error changes nothing of what is done: it may be closed, on a full disk or on
one that hangs, or a pipe that nobody reads any more. A line that it doesn't take is lost."""

from __future__ import annotations

import contextlib
import io
import os
import sys
import threading
from queue import SimpleQueue
from typing import Iterator, TextIO, cast

# seconds for which each line is waited for, and all of them at the end
MOMENT, LONG = 0.1, 1.0
OUTPUT = "standard output"


class StandardError(io.TextIOBase):
    """Lines are written by a thread of their own, in their order; no call fails, and none takes longer than a moment."""

    def __init__(self, encoding: str = "utf-8", number: int = 2) -> None:
        self._encoding, self._number = encoding, number
        self._lines = SimpleQueue[tuple[bytes, threading.Lock]]()
        self._writes, self._is_late = False, False

    @property
    def encoding(self) -> str:  # type: ignore[override]
        return self._encoding

    def fileno(self) -> int:
        return self._number

    def isatty(self) -> bool:
        return os.isatty(self._number)

    def writable(self) -> bool:
        return True

    def write(self, text: str) -> int:
        # (after one that is late the next ones aren't waited for)
        self._is_late = not self._puts(text.encode(self._encoding, "backslashreplace"), 0.0 if self._is_late else MOMENT)
        return len(text)

    def is_written(self, seconds: float) -> bool:
        """Whether all lines are by then."""
        return not self._writes or self._puts(b"", seconds)

    def _puts(self, data: bytes, seconds: float) -> bool:
        # (no lock is held here: a signal's handler may say something in the midst of another line)
        ended = threading.Lock()
        ended.acquire()
        if not self._writes:
            self._writes = True
            threading.Thread(target=self._runs, name="standard error", daemon=True).start()
        self._lines.put((data, ended))
        return ended.acquire(timeout=seconds)

    def _runs(self) -> None:
        while True:
            data, ended = self._lines.get()
            with contextlib.suppress(OSError):
                while data:
                    data = data[os.write(self._number, data) :]
            ended.release()


def opens_all() -> None:
    """A closed one is nothing from now on: else what is opened next, as a connection, would have its number, and be sent what is said. (To standard
    output nothing can be written then, either: who asked for that is told.)"""
    for number in (0, 1, 2):
        try:
            os.fstat(number)
        except OSError:
            os.set_inheritable(os.open(os.devnull, os.O_RDONLY if number == 1 else os.O_RDWR), True)
    if sys.stdin is None:
        sys.stdin = open(0, closefd=False)
    if sys.stdout is None:
        sys.stdout = open(1, "w", closefd=False)


@contextlib.contextmanager
def standing() -> Iterator[None]:
    opens_all()
    error = StandardError(getattr(sys.stderr, "encoding", "utf-8"))
    sys.stderr = cast(TextIO, error)
    try:
        yield
    finally:
        error.is_written(LONG)


@contextlib.contextmanager
def written() -> Iterator[None]:
    """What can't be written to standard output is told here, and not by the interpreter as it ends."""
    try:
        yield
    except SystemExit:
        _flushes()
        raise
    _flushes()


def _flushes() -> None:
    try:
        sys.stdout.flush()
    except BrokenPipeError:
        raise
    except OSError as fault:
        raise OSError(fault.errno, fault.strerror, OUTPUT) from None


def gives_up_output() -> None:
    """What can't be written there is dropped."""
    try:
        sys.stdout.flush()
    except OSError:
        with contextlib.suppress(OSError, ValueError):
            os.dup2(os.open(os.devnull, os.O_WRONLY), sys.stdout.fileno())
