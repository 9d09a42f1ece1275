"""Threads of which one runs at a time, with a gate at every line of the package: who goes on behind a gate is picked by the test. Their
locks are made here, so that it is known who can't go on; if nobody can, a wake-up was lost."""

from __future__ import annotations

import _thread
import linecache
import sys
import threading
from types import FrameType
from typing import Any, Callable, Optional

from labrun import _bench, _core, _session

FILES = tuple(it.__file__ for it in (_bench, _core, _session))


class Stuck(BaseException):
    """Nobody can go on."""


class _Thread:
    def __init__(self, number: int) -> None:
        self.number = number
        self.turn = _thread.allocate_lock()
        self.turn.acquire()
        self.waits_for: Optional[Lock] = None
        self.has_limit = self.is_late = self.is_done = False


class Lock:
    """In place of `threading.Lock`."""

    def __init__(self, gates: Gates) -> None:
        self.gates = gates
        self.owner: Optional[_Thread] = None
        self.is_locked = False

    def acquire(self, blocking: bool = True, timeout: float = -1) -> bool:
        me = self.gates.now
        while self.is_locked:
            if not blocking or timeout == 0 or me is None:
                return False
            if not self.gates.wait(me, self, timeout >= 0):
                return False
        self.is_locked, self.owner = True, me
        return True

    def release(self) -> None:
        if not self.is_locked:
            raise RuntimeError("release unlocked lock")
        self.is_locked, self.owner = False, None

    def locked(self) -> bool:
        return self.is_locked

    def __enter__(self) -> bool:
        return self.acquire()

    def __exit__(self, *fault: object) -> None:
        self.release()


class Gates:
    """`pick` says who goes on at a gate: it is given the number of the gate, the one that is there, and those that can go on. At gate
    `interrupt` of thread 0 there comes a KeyboardInterrupt."""

    def __init__(self, pick: Callable[[int, int, list[int]], int], interrupt: int = -1) -> None:
        self.pick = pick
        self.now: Optional[_Thread] = None
        self.threads: list[_Thread] = []
        self.gates = self.mine = 0
        self.interrupt = interrupt
        self.is_stuck = False
        self.where = "nowhere"  # the interrupt came
        self.over = threading.Event()
        self.faults: list[BaseException] = []

    def lock(self) -> Lock:
        return Lock(self)

    def run(self, works: list[Callable[[], None]], limit: float) -> None:
        """Runs these to their ends. Stuck if they don't come there."""
        self.threads = [_Thread(at) for at in range(len(works))]
        for thread, work in zip(self.threads, works):
            threading.Thread(target=self._body, args=(thread, work), daemon=True).start()
        self._go_on(self.threads[0])
        if not self.over.wait(limit):
            raise Stuck("not at an end in time")
        if self.faults:
            raise self.faults[0]

    def _body(self, me: _Thread, work: Callable[[], None]) -> None:
        me.turn.acquire()
        sys.settrace(self._trace)
        try:
            work()
        except BaseException as fault:
            self.faults.append(fault)
        finally:
            sys.settrace(None)
            me.is_done = True
            self._leave()

    def _trace(self, frame: FrameType, event: str, given: Any) -> Any:
        return self._at_line if frame.f_code.co_filename in FILES else None

    def _at_line(self, frame: FrameType, event: str, given: Any) -> Any:
        me = self.now
        if event == "line" and me is not None:
            self.gates += 1
            if me.number == 0:
                self.mine += 1
                if 0 <= self.interrupt < self.mine and not (_has_no_signal(frame) and self._has_a_lock(frame, me)):
                    self.interrupt, self.where = -1, f"{frame.f_code.co_name}:{frame.f_lineno}"
                    raise KeyboardInterrupt
            can = self._can_go_on()
            if len(can) > 1:
                self._hand_over(me, self.threads[self.pick(self.gates, me.number, can)])
        return self._at_line

    def _has_a_lock(self, frame: FrameType, me: _Thread) -> bool:
        core = frame.f_locals.get("core", frame.f_locals.get("self"))
        core = getattr(core, "_core", core)
        return getattr(getattr(core, "mutex", None), "owner", None) is me

    def _can_go_on(self) -> list[int]:
        return [it.number for it in self.threads if not it.is_done and (it.waits_for is None or not it.waits_for.is_locked)]

    def wait(self, me: _Thread, lock: Lock, has_limit: bool) -> bool:
        """Waits until the lock is free, or everybody waits and this one's time is over."""
        me.waits_for, me.has_limit, me.is_late = lock, has_limit, False
        self._leave(me)
        me.waits_for = None
        if self.is_stuck:
            raise Stuck("everybody waits, and nobody will wake them")
        return not me.is_late

    def _leave(self, me: Optional[_Thread] = None) -> None:
        """Another goes on; if nobody can, one whose time is over."""
        can = self._can_go_on()
        if can:
            to = self.threads[can[0] if len(can) == 1 else self.pick(self.gates, -1, can)]
        else:
            late = [it for it in self.threads if not it.is_done and it.has_limit and it.waits_for is not None]
            left = [it for it in self.threads if not it.is_done]
            if not left:
                self.over.set()
                return
            if late:
                to = late[0]
                to.is_late = True
            else:
                self.is_stuck = True
                to = left[0]
        if me is None:
            self._go_on(to)
        else:
            self._hand_over(me, to)

    def _hand_over(self, me: _Thread, to: _Thread) -> None:
        if me is not to:
            self._go_on(to)
            me.turn.acquire()
            self.now = me

    def _go_on(self, to: _Thread) -> None:
        self.now = to
        to.turn.release()


def _has_no_signal(frame: FrameType) -> bool:
    """At these lines the interpreter sees no signal while a mutex is held: between the last of a block and the end of its `with`, whose line
    comes again then, and at a mere `try`."""
    return linecache.getline(frame.f_code.co_filename, frame.f_lineno).lstrip().startswith(("with ", "try:"))
