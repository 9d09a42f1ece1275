"""The command of a `hold`, and all processes that come of it."""

from __future__ import annotations

import contextlib
import importlib
import os
import signal
import subprocess
import time
from typing import Any, Callable, Iterator, NamedTuple

PR_SET_CHILD_SUBREAPER = 36
TELLING = 1.0  # seconds, after which it is said for whom it waits
PAUSE = 0.02


class Process(NamedTuple):
    number: int
    name: str
    state: str
    parent: int
    begun: int

    @property
    def has_ended(self) -> bool:
        return self.state in "ZX"


def process(number: int) -> Process:
    """By /proc. OSError: there is none."""
    with open(f"/proc/{number}/stat", encoding="utf-8", errors="replace") as file:
        before, _, after = file.read().rpartition(")")
    state, parent, *more = after.split()
    return Process(number, before.partition("(")[2], state, int(parent), int(more[17]))


def processes() -> Iterator[Process]:
    for name in os.listdir("/proc"):
        if name.isdigit():
            with contextlib.suppress(OSError):
                yield process(int(name))


@contextlib.contextmanager
def adopting() -> Iterator[None]:
    """What the command leaves behind becomes a child of this process, and so is still found."""
    # (ctypes itself takes four times as long to import)
    library: Any = importlib.import_module("_ctypes")
    prctl = library.dlsym(library.dlopen(None, os.RTLD_NOW), "prctl")
    library.call_function(prctl, (PR_SET_CHILD_SUBREAPER, 1, 0, 0, 0))
    try:
        yield
    finally:
        library.call_function(prctl, (PR_SET_CHILD_SUBREAPER, 0, 0, 0, 0))


class Family:
    """A command that was started, with its descendants."""

    def __init__(self, command: subprocess.Popen[bytes]) -> None:
        self.command = command
        # (this process may have other children: what became it began them, as a shell that says `exec`)
        self._since = process(command.pid).begun

    def members(self) -> list[Process]:
        """Those that go on, parents first."""
        children: dict[int, list[Process]] = {}
        for one in processes():
            children.setdefault(one.parent, []).append(one)
        found = [one for one in children.get(os.getpid(), []) if one.begun >= self._since]
        for one in found:
            found += children.get(one.number, [])
        return [one for one in found if not one.has_ended]

    def named(self) -> str:
        return ", ".join(f"{one.number} {one.name}" for one in self.members())

    def send(self, number: int) -> None:
        """Once to each: what one of them starts then, as to leave its instruments, is let be."""
        for one in self.members():
            with contextlib.suppress(OSError):
                os.kill(one.number, number)

    def wait(self) -> int:
        """Until the command has ended; its status."""
        while self.command.returncode is None:
            self._reap(0)
        return self.command.returncode

    def wait_for_all(self, tells: Callable[[str], None]) -> None:
        """Until its descendants have ended, too. `tells` is called once if that takes long."""
        until, is_told = time.monotonic() + TELLING, False
        while self.members():
            is_same = True
            while is_same:
                time.sleep(PAUSE)
                is_same = not self._reap(os.WNOHANG)
                if not is_told and time.monotonic() > until and (goes_on := self.named()):
                    is_told = True
                    tells(goes_on)

    def _reap(self, how: int) -> bool:
        """Whether a child has ended."""
        try:
            number, status = os.waitpid(-1, how)
        except ChildProcessError:  # (SIGCHLD is ignored: nobody knows its status)
            number, status = self.command.pid, 0
        if number == self.command.pid and self.command.returncode is None:
            self.command.returncode = os.waitstatus_to_exitcode(status)
        return number != 0


def ends(number: int) -> int:
    """What makes those end that Ctrl-C doesn't: a shell lets what it starts in the background ignore that."""
    return signal.SIGTERM if number in (signal.SIGINT, signal.SIGQUIT) else number
