"""A bay with the threads of a process around it: one mutex, who waits for what is told, who writes (_disk.py), one thread that looks at the
clock, and with a journal one that writes for those who can't. It decides nothing: the bay does (machine.py).

Nobody calls the bay but with the mutex held, and whoever called it hands on what is told. The numbers are given here, before the call, and
what is told is given back only once it was handed on. So after an exception anywhere, an interrupt too, `leave` makes all good: nothing is
held by that number, and what wasn't handed on yet is."""

from __future__ import annotations

import collections
import contextlib
import os
import threading
import time
import weakref
from typing import Any, Callable, Optional

from ._disk import Disk
from ._faults import Closed, Full, LabrunError, OtherProcess, Stopped
from ._quick import LETS_GO, Asker, Quick, fastest
from ._sleep import Bolt, Waiter, starts, steps
from ._writing import BROKEN, CLOSED, CLOSING, ELSEWHERE, OPEN, SOON, STANDS_STILL, Writing
from .machine import HOLDS, LET_GO, LINE_FULL, NEVER, STOPPED, WAITS, Machine, Refusal, Standing, Told
from .store import FileStore

# the same thread may come again, if it is interrupted to end somebody whose loop is gone
_new_mutex: Callable[[], Any] = threading.RLock
_new_quick: Callable[..., Quick] = fastest()
AGAIN = 0.03  # seconds, after a write that failed


class Shell(Writing):
    """`base` is what is added to the clock of this machine, in milliseconds. With a store its text is written there."""

    def __init__(self, machine: Machine, store: Optional[FileStore], base: int = 0) -> None:
        self.mutex, self.machine, self._store = _new_mutex(), machine, store
        self.keeps, self.stands = store is not None, OPEN
        self.now: Callable[[], int] = lambda: time.monotonic_ns() // 1000000 + base
        self.askers: dict[int, Any] = {}
        # those of whom somebody else's call may tell something: who waits, and who holds with a limit
        self._busy: set[int] = set()
        # who left, and isn't taken out yet; the mutex needn't be held to add one
        self._left: collections.deque[Optional[Waiter]] = collections.deque()
        self.quick = _new_quick(machine, self.mutex, self.now, self.askers, self._busy, self._left)
        self._disk = None if store is None else Disk(machine, store, self.askers)
        self._fault: Optional[BaseException] = None
        self._process = os.getpid()
        self._work, self._tick, self._until = Bolt(), Bolt(), NEVER
        self._writer: Optional[threading.Thread] = None
        # anybody had a time limit, or a limit on holding; and there is a thread for that
        self._is_timed = self._has_timer = False
        _shells.add(self)
        # a lab that nobody has any more goes: its threads end, and another may have the file
        weakref.finalize(self, _goes, self._work, self._tick, store).atexit = False

    def begins(self) -> None:
        """From now on it writes."""
        self.quick.is_open = not self.keeps
        if self._disk is not None:
            self._disk.last.wake = self._work.opens
            self._writer = starts(steps, weakref.ref(self), Shell.writes, self._work)

    # with the mutex held

    def may_go_on(self) -> None:
        """Before each call. What was left is taken out by now."""
        if self._left:
            self._takes_out()
        if self.stands == ELSEWHERE:
            raise OtherProcess(self._process, "lab")
        if self.stands == BROKEN:
            raise LabrunError(f"the lab can't go on: {self._fault!r}") from self._fault
        if self.stands > STANDS_STILL:
            raise Closed("the lab is closed")

    def asks(self, it: Asker) -> None:
        """What is told at once it hears before this returns. What it says to the disk is written by whoever `waits` then."""
        self.may_go_on()
        now, self._is_timed = self.now(), self._is_timed or it.timeout != NEVER or it.limit != NEVER
        # (it may have asked just now: `Quick.holds`)
        if not it.number:
            # (the number comes first: an interrupt behind the call finds it)
            number = it.number = self.quick.next
            self.quick.next = number + 1
            self.askers[number], it.what = it, WAITS
            self._busy.add(number)
            try:
                self.machine.ask(number, (1, number), it.kind, it.sets, min(now + it.timeout, NEVER), it.limit, now)
            except Refusal as fault:
                raise self._refused(fault) from None
        self._has_changed(now)

    def _refused(self, fault: Refusal) -> LabrunError:
        if fault.status == STOPPED:
            return self.stopped()
        if fault.status == LINE_FULL:
            return Full("no room for another session in line")
        return LabrunError(f"lab_bay_ask: status {fault.status}")

    def stopped(self) -> LabrunError:
        """What is told of it to whoever isn't let in."""
        return Closed("the lab is closed") if self.stands > STANDS_STILL else Stopped("the lab was stopped: nobody is let in any more")

    def lets_go(self, it: Asker) -> None:
        """One that holds. With a store it does once that is written, by whoever `waits` then."""
        now, number = self.now(), it.number
        if not self.keeps:
            # (the same without a word: nobody has to be told)
            self.machine.leave(number, now)
            it.what = LET_GO
            self._is_over(it)
        else:
            try:
                self.machine.let_go(number, now)
            except Refusal as fault:
                raise LabrunError(f"lab_bay_let_go: status {fault.status}") from None
            it.what = LETS_GO
        self._has_changed(now)

    def has_let_go(self, it: Asker) -> None:
        """(That it did so is written. Once it is durable the bay tells it, too, to nobody.)"""
        if it.what == LETS_GO:
            it.what = LET_GO
            self._is_over(it)

    def notes(self, number: int, text: bytes) -> None:
        """Refusal: NOT_NOW, MAY_NOT."""
        self.machine.note(number, text)
        if self._disk is not None:
            self._disk.has_more = True
        else:
            # (nobody wants it, but the bay has looked at it)
            self.machine.durable(self.machine.journal()[1])

    def takes_away(self, number: int) -> None:
        """Refusal: NOT_NOW, OVER."""
        now = self.now()
        self.machine.take_away(number, now)
        self.pump(now)

    def stops(self) -> None:
        self._comes_to(max(self.stands, STANDS_STILL))
        now = self.now()
        self.machine.stop(now)
        self.pump(now)

    def _comes_to(self, stands: int) -> None:
        self.stands, self.quick.is_open = stands, False

    def goes_on(self, it: Asker, standing: Standing) -> None:
        """One that held when the process before ended."""
        it.number = standing.number
        self.askers[it.number] = it
        # (whether it has a limit isn't told)
        it.limit, self._is_timed = 0, True
        self._busy.add(it.number)
        it.needs, it.token = self.machine.back(it.number, standing.owner, self.now()), standing.token
        it.what = HOLDS

    def pump(self, now: int) -> None:
        """Hands on what is told, and has the rest written."""
        self._has_changed(now)
        self._calls()

    def _has_changed(self, now: int) -> None:
        if self._disk is not None:
            self._disk.has_more = True
        self._hands_on(now)

    def _hands_on(self, now: int) -> None:
        if self._busy and self._is_timed:
            self._looks_ahead(self.machine.time(now))
        self._tells(now)

    def _tells(self, now: int) -> None:
        while (told := self.machine.tell(self.quick.done)) is not None:
            it = self.askers.get(told.number)
            if self._disk is not None and told.what not in (HOLDS, LET_GO):
                # (its line comes, and those of others that are let in)
                self._disk.has_more = True
            # (an interrupt may have come between: then it was told, and more)
            if it is not None and told.serial > self.quick.done:
                self._is_told(it, told, now)
            self.quick.done = told.serial

    def _is_told(self, it: Asker, told: Told, now: int) -> None:
        if told.what != HOLDS:
            self._is_over(it)
        else:
            it.needs, it.token = told.needs, told.token
            if it.limit == NEVER:
                self._busy.discard(it.number)
        it.what = told.what
        if not self.wakes(it):
            self.machine.leave(it.number, now)
            self._is_over(it)

    def _is_over(self, it: Asker) -> None:
        """Nothing more is told of it."""
        self._busy.discard(it.number)
        self.askers.pop(it.number, None)

    def wakes(self, it: Waiter) -> bool:
        """False: nobody is there any more."""
        return it.wakes()

    def _takes_out(self) -> None:
        """Those who left."""
        left, is_there = tuple(self._left), self.stands <= CLOSING
        now = self.now()
        for it in left:
            if it is None:
                continue
            if self._disk is not None:
                self._disk.forgets(it)
            if is_there and isinstance(it, Asker) and it.number:
                self.machine.leave(it.number, now)
                self._is_over(it)
        if is_there:
            self.pump(now)
        for it in left:
            # (the same thread may have come between)
            if self._left and self._left[0] is it:
                self._left.popleft()

    # without it

    def leave(self, it: Optional[Waiter] = None) -> None:
        """Nobody is there for it any more, whatever it is at. None: what wasn't handed on, because an interrupt came, is."""
        self._left.append(it)
        with self.mutex:
            self._takes_out()

    def close(self) -> None:
        """What the bay has given is written, and the store is closed. JournalError: it could not be written."""
        with self.mutex:
            if self.stands in (CLOSED, ELSEWHERE):
                return
            if self.stands < CLOSING:
                self._comes_to(CLOSING)
                self.stops()
            self._work.opens()
            self._tick.opens()
        if self._writer is not None and self._writer is not threading.current_thread():
            self._writer.join()
        with self.mutex:
            if self.stands in (CLOSED, ELSEWHERE):
                return
            fault = self._disk.fault if self._disk is not None and self.stands != BROKEN else None
            self._comes_to(CLOSED)
            self._rouses_all()
            self.machine.free()
            if self._store is not None:
                self._store.close()
            if fault is not None:
                raise self.failed(fault)

    def _rouses_all(self) -> None:
        for it in (*self.askers.values(), *(self._disk.lines if self._disk is not None else ())):
            self.wakes(it)

    def breaks(self, fault: BaseException) -> None:
        """A thread of its own can't go on: everybody is told."""
        with self.mutex:
            if self.stands <= CLOSING:
                self._fault = fault
                self._comes_to(BROKEN)
                self._rouses_all()

    def after_fork(self) -> None:
        """In the child: what it has is a copy. (Its end of the file's lock would outlive the parent.)"""
        self.mutex = _new_mutex()
        if self.stands != CLOSED:
            self._comes_to(ELSEWHERE)
            if self._store is not None:
                self._store.close()

    # on threads of their own

    def writes(self) -> Optional[float]:
        """What nobody else does. (As long as there is something, the thread has the shell: it is written, though nobody else may have it.)"""
        try:
            while again := self.writes_once():
                pass
            return None if again is None else self._until_synced()
        except BaseException as fault:
            self.breaks(fault)
            return None

    def writes_once(self) -> Optional[bool]:
        """Whether it is worth to look again at once; None: it never is."""
        disk = self._disk
        assert disk is not None
        if disk.fault is not None and self.stands <= STANDS_STILL:
            time.sleep(AGAIN)
        with self.mutex:
            if self.stands > CLOSING:
                return None
            is_last = self.stands == CLOSING
            job = disk.takes(disk.last, is_last or self._is_due())
            if job is None and disk.fault is None:
                return None if is_last and disk.is_idle else False
        if job is not None:
            self._does(disk.last, job, False)
        return None if is_last and disk.fault is not None else True

    def _is_due(self) -> bool:
        """What nobody waits for has waited for long enough."""
        disk, seen = self._disk, self._unsynced
        return disk is not None and seen is not None and disk.durable < seen[0] and self.now() >= seen[1]

    def _until_synced(self) -> float:
        """In how many seconds to look again; -1: when it is woken."""
        with self.mutex:
            now, disk = self.now(), self._disk
            if disk is None or not disk.is_unsynced:
                self._unsynced = None
                return -1
            if self._unsynced is None or disk.durable >= self._unsynced[0]:
                self._unsynced = disk.written, now + SOON
            # (if it is due, somebody else is just at it)
            return ((self._unsynced[1] - now) if self._unsynced[1] > now else SOON) / 1000

    def _looks_ahead(self, due: int) -> None:
        """The timer is woken only for a moment that comes before the one until which it sleeps."""
        if due < self._until:
            self._until = due
            if self._has_timer:
                self._tick.opens()
            else:
                starts(steps, weakref.ref(self), Shell.looks_once, self._tick)
                self._has_timer = True

    def looks_once(self) -> Optional[float]:
        """In how many seconds to look again; None: never."""
        try:
            with self.mutex:
                if self.stands > STANDS_STILL:
                    return None
                now = self.now()
                self._until = NEVER
                # (those who have no time any more have none that is told)
                self._until = self.machine.time(now)
                self.pump(now)
                return min(max(0.001, (self._until - now) / 1000), threading.TIMEOUT_MAX)
        except BaseException as fault:
            self.breaks(fault)
            return None


def _goes(work: Bolt, tick: Bolt, store: Optional[FileStore]) -> None:
    work.opens()
    tick.opens()
    if store is not None:
        with contextlib.suppress(OSError):
            # (somebody may have let go just now)
            store.sync()
        store.close()


_shells: weakref.WeakSet[Shell] = weakref.WeakSet()


def _after_fork() -> None:
    for shell in list(_shells):
        shell.after_fork()


os.register_at_fork(after_in_child=_after_fork)
