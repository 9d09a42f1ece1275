"""The jobs of a bench, and their sessions one after another, as the threads or tasks see them whose they are."""

from __future__ import annotations

import asyncio
import contextlib
import threading
from ctypes import byref
from types import TracebackType
from typing import TYPE_CHECKING, Any, Callable, Iterator, NamedTuple, Optional

from ._core import HOLDS, RETIRED, THIRSTY, TICK, Core
from ._faults import Closed, LabrunError, NotHeld, OtherProcess, Withdrawn, WouldBlock
from ._library import NOT_NOW, Entered
from ._plan import VERBS, Plan
from ._report import Entry

if TYPE_CHECKING:
    from ._bench import Bench

OVER = ("finished", "withdrawn", "lapsed")
# as a patience in turns: the largest that a script may have, which nobody counts to
FOREVER = 999999


class Session:
    """One session of a job. `with session:` (or `async with`) blocks until it holds all its instruments, and on leaving logs the commands
    that are left and lets go, also when the body raised. Acquired, it holds them; nobody else does meanwhile.

    `number` counts the job's sessions from 1, `instruments` are the names of those that it needs, in the order in which the script first
    names them, `commands` what it does with them, `patience` is the script's, in turns, None if it has none. `state` is `new`; `waiting`,
    for its instruments; `held`; `finished`, with its commands logged; `withdrawn`, with none; `left`: it was given up, but may not be
    withdrawn; `lapsed`: it was given up, but held by then or came to hold later, and so it let go, and its commands were logged though
    nobody did its work."""

    def __init__(self, job: Job, core: Core, plan: Plan, number: int) -> None:
        self.job, self.number, self.state, self._core = job, number, "new", core
        self.instruments, self.commands, self.patience = plan
        # for the core: its job; what it is once the library says that it is over; who waits for it, or has it; and what wakes that one
        self.bit: int = 1 << job.index
        self.fate, self.owner = "withdrawn", None  # type: str, object
        self.wake: Optional[Callable[[], object]] = None
        self._tick = -1 if self.patience is None or self.patience >= FOREVER else TICK

    def __repr__(self) -> str:
        return f"<Session {self.number} of {self.job.name}: {self.state}>"

    def __str__(self) -> str:
        return f"session {self.number} of {self.job.name}"

    @property
    def held(self) -> bool:
        """Whether it holds its instruments."""
        return self.state == "held"

    # ---- it is waited for

    def acquire(self) -> Session:
        """Blocks until the session holds all its instruments; at once if it does. LabrunError: another thread, or task, waits for it or holds
        it. WouldBlock: a loop of asyncio runs on this thread.

        Withdrawn: its patience ran out, or it was withdrawn. NotHeld: it was given up, or is over. Any other exception that comes before
        this returns, KeyboardInterrupt among them, gives it up, as `give_up` does; if it came to hold just then, it lapses. (One that held
        before the call goes on to hold.)"""
        if asyncio._get_running_loop() is not None:
            raise WouldBlock(self, f"{self} may have to wait, and a loop runs on this thread: use `async with`")
        me, was_held, bell = whoever(), self.held, self._core.new_lock()
        try:
            bell.acquire()
            # (it may be awake already)
            holds = self._asks(me, lambda: not bell.locked() or bell.release())
            while not holds:
                bell.acquire(True, self._tick)
                holds = self._has_come()
            return self
        except BaseException:
            self._not_come(me, was_held)
            raise

    async def acquire_async(self) -> Session:
        """As `acquire`, for a task of asyncio: other tasks go on meanwhile. A task that is cancelled while it waits leaves the session as
        KeyboardInterrupt does."""
        me, was_held, loop, event = whoever(), self.held, asyncio.get_running_loop(), asyncio.Event()
        try:
            holds = self._asks(me, lambda: loop.call_soon_threadsafe(event.set))
            while not holds:
                # (not wait_for: before Python 3.12 it loses a cancellation that comes together with the event)
                if self._tick > 0:
                    loop.call_later(self._tick, event.set)
                await event.wait()
                event.clear()
                holds = self._has_come()
            return self
        except BaseException:
            self._not_come(me, was_held)
            raise

    def _asks(self, me: object, wake: Callable[[], object]) -> bool:
        with self._core.lock(), self._core as core:
            self.is_of_one()
            if not self.held and self.state not in OVER:
                core.may_go_on()
                self.owner, self.wake = me, None
                core.settle(self)
                self.wake = wake if self.state == "waiting" else None
            return self._holds()

    def _has_come(self) -> bool:
        with self._core.lock(), self._core as core:
            if self.state == "waiting":
                core.may_go_on()
                if self._tick > 0:
                    core.tick()
            return self._holds()

    def _holds(self) -> bool:
        """Whether it does, or waits still; it raises what else became of it."""
        if self.state == "withdrawn":
            raise Withdrawn(self, f"{self} was withdrawn")
        if self.state not in ("waiting", "held"):
            raise NotHeld(f"{self} {'is over' if self.state == 'finished' else 'was given up'}")
        return self.held

    def is_of_one(self) -> None:
        """LabrunError if another thread, or task, waits for it or holds it: one acts for a job at a time."""
        if self.owner not in (None, whoever()):
            raise LabrunError(f"another thread, or task, is at {self}")

    def give_up(self) -> None:
        """Gives the session up, if it asked and isn't held or over. By that it never comes to hold. It is withdrawn if it has a patience:
        it logs nothing. Without one it can't leave the line. It is `left` then: nobody comes for it, and once its turn comes, it lapses. It
        lets go, its commands are logged, though nobody did its work, and `Bench.lapsed` names it."""
        self._gives_up(False)

    def _gives_up(self, also_held: bool) -> None:
        with contextlib.suppress(Closed, OtherProcess), self._core.lock(), self._core as core:
            if self.state not in OVER and (also_held or not self.held):
                core.leave(self)

    def _not_come(self, me: object, was_held: bool) -> None:
        if self.owner in (None, me) and not was_held:
            self._gives_up(True)

    def withdraw(self) -> None:
        """Gives the session up while it waits, and wakes who waits for it; only if it has a patience. By that it never comes to hold.
        NotHeld says that it may not be: it holds, it never asked, or it has no patience (`give_up` is for that)."""
        with self._core.lock(), self._core as core:
            if self.state != "waiting" or self.patience is None:
                raise NotHeld(f"{self} is {self.state}: it can't be withdrawn")
            core.leave(self)

    # ---- it holds

    def command(self) -> Optional[Entry]:
        """Does the session's next command and gives its line of the log; None if none is left. NotHeld if it doesn't hold."""
        entry = Entered()
        with self._core.lock(), self._core as core:
            self._must_hold()
            if not core.call("lab_command", self.job.index, byref(entry), no=(NOT_NOW,)):
                return None
        verb = VERBS[entry.verb]
        number = None if verb == "read" else entry.number
        return Entry(self.job.name, entry.session, entry.place, entry.length, verb, number, entry.value)

    def release(self) -> None:
        """Logs the session's commands that are left, and lets its instruments go. NotHeld if it doesn't hold them."""
        try:
            with self._core.lock(), self._core as core:
                self._must_hold()
                core.end(self, "finished")
                core.settle()
        except KeyboardInterrupt:
            if self.held:
                self.release()
            raise

    def _must_hold(self) -> None:
        if not self.held:
            raise NotHeld(f"{self} is {self.state}: it doesn't hold its instruments")

    # ---- as a block

    __enter__, __aenter__ = acquire, acquire_async

    def __exit__(self, kind: Optional[type[BaseException]], fault: Optional[BaseException], at: Optional[TracebackType]) -> None:
        if self.held:
            # (an exception of the body is told rather than that nobody can let go any more)
            with contextlib.suppress(*((Closed, OtherProcess) if kind else ())):
                if kind is not None:
                    self._core.raised[self.job.name, self.number] = None
                self.release()

    async def __aexit__(self, kind: Optional[type[BaseException]], fault: Optional[BaseException], at: Optional[TracebackType]) -> None:
        self.__exit__(kind, fault, at)


def whoever() -> object:
    """The task, or else the thread, that calls."""
    loop = asyncio._get_running_loop()
    return loop and asyncio.current_task(loop) or threading.current_thread()


class JobState(NamedTuple):
    """How far a job is: `session` is its current or last session, from 1, of `sessions`; `waited` is how many turns it waited for it."""

    session: int
    sessions: int
    done: int
    withdrawn: int
    waits: bool
    holds: bool
    retired: bool
    waited: int
    meals: int
    turns: int


class Job:
    """A job of the script. One thread, or task, acts for it at a time; which one doesn't matter."""

    def __init__(self, bench: Bench, core: Core, index: int, name: str, plan: list[Plan]) -> None:
        self.bench, self.index, self.name, self._core, self._plan = bench, index, name, core, plan

    def __repr__(self) -> str:
        return f"<Job {self.name}>"

    @property
    def state(self) -> JobState:
        """How far the job is now."""
        with self._core.lock(), self._core as core:
            it = core.state_of(self.index)
        how = it.drinking == THIRSTY, it.drinking in HOLDS, it.drinking == RETIRED
        return JobState(it.session, it.sessions, it.sessions_done, it.withdrawn, *how, it.waited, it.meals, it.turns)

    def next_session(self) -> Optional[Session]:
        """The session that comes next, not yet acquired; the same one again if it isn't over. None if none is left. LabrunError: another thread,
        or task, waits for it or holds it."""
        with self._core.lock(), self._core as core:
            core.may_go_on()
            last = core.sessions.get(self.index)
            if last is not None and last.state not in OVER:
                last.is_of_one()
                return last
            number = 0 if last is None else last.number
            if number == len(self._plan):
                return None
            session = core.sessions[self.index] = Session(self, core, self._plan[number], number + 1)
            return session

    def sessions(self) -> Iterator[Session]:
        """The job's sessions, one after another. Each is yet to be entered: `with session:` blocks until it holds its instruments. One that was
        neither held nor withdrawn comes again. One that is still held when the next is asked for, or the loop is left, is finished."""
        me = whoever()
        while session := self.next_session():
            try:
                yield session
            finally:
                if session.held and session.owner is me:
                    with contextlib.suppress(Closed, OtherProcess):
                        session.release()


class Jobs(tuple[Job, ...]):
    """The jobs in the order of the script, each by its number or by its name."""

    def __getitem__(self, which: Any) -> Any:
        return {job.name: job for job in self}[which] if isinstance(which, str) else super().__getitem__(which)
