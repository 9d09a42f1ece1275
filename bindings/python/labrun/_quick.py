"""A session that nobody else has to be told of: without a journal, and where nobody waits."""

from __future__ import annotations

import collections
import importlib
import os
from typing import Any, Callable

from ._sleep import Waiter
from .machine import HOLDS, LET_GO, NEVER, WAITS, Machine, Refusal

# beside what the bay tells
NEW, LETS_GO = 11, 12


class Asker(Waiter):
    """Whoever asks for one of these sets, and waits for so many milliseconds at most: `number` is that of the ask, 0 before. `what` it was
    told last, or NEW, WAITS, or LETS_GO until it is told that it let go; `needs` is what it holds, or held, and `token` its token then."""

    what, needs, token = NEW, 0, 0
    kind: int
    sets: tuple[int, ...]
    timeout: int
    limit: int

    @property
    def is_told(self) -> bool:
        return self.what != WAITS


class Quick:
    """`next` is the number of the next ask, `done` the serial number of what was handed on last. It does nothing unless it `is_open`."""

    def __init__(
        self, machine: Machine, mutex: Any, now: Callable[[], int], askers: dict[int, Any], busy: set[int], left: collections.deque[Any]
    ) -> None:
        self.next, self.done, self.is_open = max(1, machine.next_number()), 0, False
        self._machine, self.mutex, self._now, self._askers, self._busy, self._left = machine, mutex, now, askers, busy, left

    def holds(self, it: Asker) -> bool:
        """It asks, and holds. False: it doesn't, and the shell goes on from there; it may have asked."""
        if not self.is_open or it.limit != NEVER:
            return False
        with self.mutex:
            number, now, timeout = self.next, self._now(), it.timeout
            # (what is over stays in the bay's book until there is nothing to tell: so all is told now and then)
            if self._busy or self._left or not self.is_open or not number & 15:
                return False
            # (the number comes first: an interrupt behind the call finds it)
            self.next, it.number = number + 1, number
            self._askers[number], it.what = it, WAITS
            try:
                deadline = NEVER if timeout == NEVER else min(now + timeout, NEVER)
                told = self._machine.holds(number, it.kind, it.sets, deadline, now, self.done)
            except Refusal:
                # (the shell asks again, and says why)
                del self._askers[number]
                it.number, it.what = 0, NEW
                return False
            if told is None:
                self._busy.add(number)
                return False
            it.needs, it.token, it.what, self.done = told[1], told[2], HOLDS, told[0]
            return True

    def lets_go(self, it: Asker) -> bool:
        """One that holds. False: it doesn't, or somebody may have to be told; nothing was done."""
        with self.mutex:
            if self._busy or self._left or not self.is_open or it.what != HOLDS:
                return False
            self._machine.leave(it.number, self._now())
            it.what = LET_GO
            del self._askers[it.number]
            return True


def extension() -> Any:
    """`_fast.c`, if it is built. With LABRUN_FAST=0 in the environment all is Python's."""
    try:
        return importlib.import_module("._fast", __package__) if os.environ.get("LABRUN_FAST") != "0" else None
    except ImportError:
        return None


def fastest() -> Callable[..., Quick]:
    fast = extension()
    made: Callable[..., Quick] = Quick if fast is None else fast.Quick
    return made
