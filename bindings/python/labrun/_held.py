"""A session of a lab: what `Lab.hold` gives."""

from __future__ import annotations

import asyncio
import functools
import math
import threading
from types import TracebackType
from typing import Any, Optional

from ._faults import Closed, LabrunError, NotHeld, OtherProcess, TakenAway, TimeoutError, WouldBlock
from ._keepers import Keeper
from ._quick import LETS_GO, NEW, Asker, extension
from ._room import Kind, Room
from ._shell import Shell
from ._sleep import Line, at_once, in_loop, may_sleep
from .machine import GRACE, HOLDS, LAPSED, LEFT, LET_GO, LIMIT, MAY_NOT, NEVER, NOT_WRITTEN, REPLACED, TAKEN, WAITS, WAS_STOPPED, Refusal

_TAKEN = (LIMIT, GRACE, TAKEN, REPLACED)
_STATES = {NEW: "new", WAITS: "waiting", HOLDS: "held", LETS_GO: "letting go", LET_GO: "finished", **dict.fromkeys(_TAKEN, "taken")}
_WHY = {LIMIT: ": somebody waited, and its limit was over", GRACE: ": its owner was gone for too long"}


class Held(Asker):
    """A session: `with lab.hold("scope", "supply") as held:`, or `async with`. Entered, it holds all its `instruments`, and nobody else has
    one of them until it is left. It is entered once.

    `number` is its own in this lab, also after a restart; 0 before it is entered. `token` is larger than that of each session that was told
    before that it holds, with a journal also after a restart: so a server before an instrument can refuse whoever comes with a smaller one
    than it has seen, and was taken away, and doesn't know it yet; 0 before it holds. `station` is "" for a guest. `state` is new, waiting,
    held, letting go, finished, given up or taken. `resumed`: it held when the process before this one ended, and holds still. `notes` is
    what it noted by now; of one that was resumed, what the journal has of it."""

    resumed = False
    notes: tuple[str, ...] = ()
    _owes = False

    def __init__(
        self, room: Room, kind: Kind, sets: tuple[int, ...], timeout: Optional[float] = None, limit: Optional[float] = None, note: str = ""
    ) -> None:
        if not isinstance(note, str):
            raise ValueError(f"a note is a text, and not {note!r}")
        self._room, self._kind, self.kind, self.sets, self._note = room, kind, kind.number, sets, note
        self._shell, self._quick, self._entries = room.shell, room.shell.quick, [None]
        self.timeout = NEVER if timeout is None else _milliseconds("timeout", timeout)
        self.limit = NEVER if limit is None else _milliseconds("limit", limit)

    def __repr__(self) -> str:
        return f"<{self.called}, {self.state}: {', '.join(self.instruments)}>"

    @property
    def state(self) -> str:
        return _STATES.get(self.what, "given up")

    @property
    def held(self) -> bool:
        return self.what == HOLDS

    @property
    def station(self) -> str:
        return self._kind.name

    @property
    def instruments(self) -> tuple[str, ...]:
        """What it holds, or held, in the order of the lab; before, what it asks for, and nothing if it has a choice."""
        return self._room.names(self.needs or (self.sets[0] if len(self.sets) == 1 else 0))

    @property
    def choices(self) -> tuple[tuple[str, ...], ...]:
        """The sets of instruments of which it asked for one."""
        return tuple(self._room.names(it) for it in self.sets)

    @property
    def called(self) -> str:
        """As in a sentence: session 4 of board (ripple)."""
        note = self.notes[-1] if self.notes else self._note
        return (f"session {self.number}" if self.number else "a session") + f" of {self._kind.called}" + (f" ({note})" if note else "")

    # what may sleep is written once, for threads and tasks (`at_once`)

    def acquire(self) -> None:
        """Sleeps until it holds. It is given up if it doesn't come to that: TimeoutError, Stopped, Closed, JournalError."""
        self._enters(NEW)
        try:
            if not self._holds_at_once():
                at_once(self._acquire, False)
        except BaseException:
            self._leaves()
            raise

    async def acquire_async(self) -> None:
        """The same for a task; others go on meanwhile."""
        self._enters(NEW)
        try:
            if not self._holds_at_once():
                await self._acquire(True)
        except BaseException:
            self._leaves()
            raise

    def release(self) -> None:
        """It lets go. With a journal it returns once that is in the file; on the disk it is a tenth of a second later, or before anybody else
        comes to hold what it had. JournalError: the write failed; nobody else comes to hold it before it is written, which is tried again
        and again. Call it again to wait for that."""
        at_once(self._release, False)

    async def release_async(self) -> None:
        """The same for a task; others go on meanwhile. If it is cancelled it lets go all the same."""
        await self._release(True)

    def note(self, text: str) -> None:
        """Says what it does: `lab.sessions()` shows it, and whoever waits for it in vain. With a journal it is a line of that, and on the
        disk when this returns; JournalError: the write failed, and the line comes as soon as one doesn't. ValueError: a note has at most
        500 bytes and no line feed."""
        at_once(self._notes, text, False)

    async def note_async(self, text: str) -> None:
        """The same for a task."""
        await self._notes(text, True)

    # with

    def __enter__(self) -> Held:
        try:
            if self.resumed:
                self._goes_on()
            else:
                self.acquire()
            if self._kind.name:
                self._kind.within = _me(), self
            return self
        except BaseException as fault:
            self._leaves_by(fault)
            raise

    async def __aenter__(self) -> Held:
        try:
            if self.resumed:
                self._goes_on()
            else:
                await self.acquire_async()
            if self._kind.name:
                self._kind.within = _me(), self
            return self
        except BaseException as fault:
            self._leaves_by(fault)
            raise

    def _ends(self, kind: Optional[type[BaseException]], fault: Optional[BaseException], at: Optional[TracebackType]) -> None:
        try:
            if not self._quick.lets_go(self) and self._is_to_let_go(kind):
                at_once(self._release, False)
        except BaseException as why:
            if self._is_to_be_told(why, kind):
                raise

    __exit__ = _ends

    async def __aexit__(self, kind: Optional[type[BaseException]], fault: Optional[BaseException], at: Optional[TracebackType]) -> None:
        try:
            if not self._quick.lets_go(self) and self._is_to_let_go(kind):
                await self._release(True)
        except BaseException as why:
            if self._is_to_be_told(why, kind):
                raise

    def _is_to_let_go(self, kind: Optional[type[BaseException]]) -> bool:
        """It may have done so within."""
        return self.what == HOLDS or (kind is None and self.what in _TAKEN)

    def _is_to_be_told(self, why: BaseException, kind: Optional[type[BaseException]]) -> bool:
        """Whoever was in it is told what became of it, unless what comes from within says more."""
        self._leaves_by(why)
        return kind is None or not isinstance(why, (TakenAway, Closed, OtherProcess))

    # holding

    def _enters(self, what: int) -> None:
        """It is entered once. (Of two threads that come at once, one pops.)"""
        try:
            if self.what == what:
                return self._entries.pop()
        except IndexError:
            pass
        raise NotHeld(f"{self.called} is {self.state}: it is entered once")

    def _goes_on(self) -> None:
        """One that was resumed."""
        with self._shell.mutex:
            self._is_held(self._shell)
        self._enters(HOLDS)

    def _holds_at_once(self) -> bool:
        within = self._kind.within
        return not self._note and (within is None or within[1].what != HOLDS) and self._quick.holds(self)

    async def _acquire(self, is_task: bool) -> None:
        shell, within, job, waits = self._shell, self._kind.within, None, False
        if shell.keeps:
            self._may_sleep(is_task)
        if within is not None and within[1].what == HOLDS and within[0] == _me():
            raise WouldBlock(self, f"{self._kind.called} is in a session of this thread, or task: another would wait for it for ever")
        with shell.mutex:
            shell.asks(self)
            if waits := self.what == WAITS:
                self._may_sleep(is_task)
                # (whoever has a time is told in time, also by a disk that hangs: so somebody else writes)
                job = shell.waits(self, is_task, self.timeout == NEVER)
        if waits:
            await shell.sleeps(self, job)
        if self.what != HOLDS:
            self._has_not_come(shell)
        if self._note:
            await self._notes(self._note, is_task)

    def _may_sleep(self, is_task: bool) -> None:
        if not is_task:
            may_sleep(self, self.called)

    def _has_not_come(self, shell: Shell) -> None:
        if self.what == LAPSED:
            with shell.mutex:
                shell.may_go_on()
                keepers = self._keepers()
            because = ", ".join(str(it) for it in keepers) or "by now nobody has what it wanted"
            raise TimeoutError(self, keepers, f"{self.called} was given up when its time was over: {because}")
        if self.what == NOT_WRITTEN:
            raise shell.too_late()
        if self.what == WAS_STOPPED:
            raise shell.stopped()
        with shell.mutex:
            self._is_held(shell)

    def _is_held(self, shell: Shell) -> None:
        """(With the mutex held.)"""
        shell.may_go_on()
        if self.what in _TAKEN:
            raise TakenAway(self, f"{self.called} was taken away{_WHY.get(self.what, '')}: {', '.join(self.instruments)}")
        if self.what != HOLDS:
            raise NotHeld(f"{self.called} is {self.state}: it doesn't hold its instruments")

    def _leaves(self) -> None:
        self._shell.leave(self)
        self.wake = None
        if self.what in (NEW, WAITS, HOLDS, LETS_GO):
            self.what = LET_GO if self.needs else LEFT

    def _leaves_by(self, fault: BaseException) -> None:
        """(By one of the package's own it left before; or it was entered before, by whoever is still in it.)"""
        if not isinstance(fault, LabrunError):
            self._leaves()

    # letting go

    async def _release(self, is_task: bool) -> None:
        shell, line, job = self._shell, None, None
        try:
            with shell.mutex:
                if self._lets_go(shell, is_task):
                    line = shell.line(False)
                    job = shell.waits(line, is_task)
            if line is not None:
                await shell.sleeps(line, job)
                with shell.mutex:
                    self._has_let_go(shell, line)
        except LabrunError:
            shell.leave(line)
            raise
        except BaseException:
            shell.leave(line)
            self._leaves()
            raise

    def _lets_go(self, shell: Shell, is_task: bool) -> bool:
        """Whether there is something to wait for: then it has heard nothing yet."""
        if self.what == LET_GO and self._owes:
            self._owes = False
            return False
        if self.what != LETS_GO:
            self._is_held(shell)
            if shell.keeps:
                self._may_sleep(is_task)
            self.wake = None
            shell.lets_go(self)
        else:
            shell.may_go_on()
        return self.what == LETS_GO

    def _has_let_go(self, shell: Shell, line: Line) -> None:
        self._owes = self.what == LETS_GO and line.fault is not None
        if self._owes:
            raise shell.failed(line.fault)
        if self.what == LETS_GO:
            if line.within:
                shell.may_go_on()
            shell.has_let_go(self)

    # within a session

    async def _notes(self, text: str, is_task: bool) -> None:
        await self._shell.until_written(functools.partial(self._says, text, is_task), is_task)

    def _says(self, text: str, is_task: bool) -> None:
        shell = self._shell
        if not isinstance(text, str):
            raise ValueError(f"a note is a text, and not {text!r}")
        self._is_held(shell)
        if shell.keeps:
            self._may_sleep(is_task)
        try:
            shell.notes(self.number, text.encode())
        except Refusal as fault:
            if fault.status == MAY_NOT:
                raise ValueError("a note has at most 500 bytes, and no line feed or carriage return") from None
            raise NotHeld(f"{self.called} doesn't hold its instruments") from None
        self.notes += (text,)

    def waits_for(self) -> tuple[Keeper, ...]:
        """Who keeps it waiting, for each instrument that it lacks. Any thread may ask."""
        shell = self._shell
        with shell.mutex:
            shell.may_go_on()
            return self._keepers() if self.what == WAITS else ()

    def _keepers(self) -> tuple[Keeper, ...]:
        return self._room.keepers(self.number, self.sets) or self._room.place(self._kind)


def _me() -> Any:
    """The task, or the thread, that this is."""
    return (asyncio.current_task() if in_loop() else None) or threading.get_ident()


def _milliseconds(name: str, seconds: float) -> int:
    try:
        is_right = bool(seconds >= 0)
    except TypeError:
        is_right = False
    if not is_right:
        raise ValueError(f"{name}: {seconds!r} is no number of seconds from 0 on")
    # (by one more it isn't over too early, though the clock is read in whole milliseconds)
    return math.ceil(seconds * 1000) + (seconds > 0) if seconds < 1e12 else NEVER


# (an interrupt that comes just as the end of `with` begins is seen by no line of Python)
if (_fast := extension()) is not None:
    setattr(Held, "__exit__", _fast.ends)
