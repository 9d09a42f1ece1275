"""The handle of a bench behind one mutex: who holds, who waits, and who is woken.

The library takes one call at a time. The mutex is held for the microseconds of the calls, never while somebody works. A session costs two
of them if nobody waits: `lab_settle` begins it, and tells that it holds; `lab_end` ends it. If others wait, another `lab_settle` tells
which of them hold now, and those are woken. So a thread that waits sleeps until its instruments are its own: after `lab_settle` whoever
waits, waits in the end for somebody who holds. That is proved, so nobody looks from time to time.

An exception may come between any two lines, also between a call and the note of what it told: then each session is looked at anew."""

from __future__ import annotations

import contextlib
import os
import time
import weakref
from ctypes import byref
from types import TracebackType
from typing import TYPE_CHECKING, Any, Callable, Optional

from ._faults import Closed, NotHeld, OtherProcess, Stopped, Withdrawn
from ._library import NOT_NOW, NOT_OPEN, SESSIONS_LEFT, Came, Handle, Library, State, Turned, called
from ._report import told_text

if TYPE_CHECKING:
    from ._session import Session

# how drinking stands, in `struct lab_state`
TRANQUIL, THIRSTY, DRINKING, REACHING, RETIRED = range(5)
HOLDS = (DRINKING, REACHING)

# While a session with a patience waits, its thread settles the bench after so many seconds, so that it does run out. Patience is in these,
# and those of all who begin or let go: it is no measure of time.
TICK = 0.1


class Core:
    """All that isn't said to be otherwise is called in `with core.lock(), core:`."""

    def __init__(self, calls: Library, handle: Handle, new_lock: Callable[[], Any]) -> None:
        self._process, self._calls, self._at = os.getpid(), calls, byref(handle)
        self.free = weakref.finalize(self, _freed, calls, handle, self._process)
        self.new_lock, self.mutex, self._ticked = new_lock, new_lock(), 0.0
        self.is_stopped = self.is_closed = False
        # by the number of a job, the session that it is in, or that comes next, or was the last
        self.sessions: dict[int, Session] = {}
        # sessions that are over in a way that their owners have to know, each as (job, number), in order
        self.lapsed: dict[tuple[str, int], None] = {}
        self.raised: dict[tuple[str, int], None] = {}

    def lock(self) -> Any:
        """The mutex. (In the child of a fork nobody may be there to let it go.)"""
        if os.getpid() != self._process:
            raise OtherProcess(self._process)
        return self.mutex

    def __enter__(self) -> Core:
        if self.is_closed:
            raise Closed("the bench is closed")
        return self

    def __exit__(self, kind: Optional[type[BaseException]], fault: Optional[BaseException], at: Optional[TracebackType]) -> None:
        if kind not in (None, NotHeld, Stopped, Withdrawn):
            for it in self.sessions.values():
                self._look(it)
            self.settle()

    def call(self, name: str, *given: Any, no: tuple[int, ...] = ()) -> bool:
        """A call that is to be done; whether it was. Another status than those that say `no` is an exception."""
        return called(self._calls, name, self._at, *given, no=no)

    def state_of(self, job: int) -> State:
        state = State()
        self.call("lab_state", job, byref(state))
        return state

    def may_go_on(self) -> None:
        """A further session may be begun."""
        if self.is_stopped:
            raise Stopped("the bench is stopped")

    def settle(self, asking: Optional[Session] = None) -> None:
        """All that can be done is done, and those are woken whose sessions come to hold by it. One that was left lets go at once. `asking` holds
        then, or waits."""
        its, came = self.sessions.values(), Came()
        waiting = sum(it.bit for it in its if it.state == "waiting" or it is asking)
        if not waiting and all(it.state != "left" for it in its):
            return
        self.call("lab_settle", waiting, byref(came))
        if asking is not None:
            asking.state = "waiting"
        for it in its:
            if came.given_up & it.bit:
                self._tell(it, "withdrawn")
            elif came.holds & it.bit and it.state == "waiting":
                self._tell(it, "held")
        if left := [it for it in its if came.holds & it.bit and it.state == "left"]:
            for it in left:
                self.end(it, "lapsed")
            self.settle()

    def tick(self) -> None:
        """Settles, if that wasn't done just now."""
        if time.monotonic() - self._ticked >= TICK / 2:
            self._ticked = time.monotonic()
            self.settle()

    def end(self, session: Session, how: str) -> None:
        """It lets go, and its commands that are left are logged. `settle` comes next."""
        session.fate = how
        self.call("lab_end", session.job.index, byref(Turned()))
        self._tell(session, how)

    def leave(self, session: Session) -> None:
        """It is given up: whatever is to come of it, nobody comes for it."""
        session.state = "left"
        self._look(session)
        self.settle()

    def _look(self, session: Session) -> None:
        """What the library says of a session is told. One that was left, or whose owner was interrupted as it asked, is withdrawn if it can be."""
        state, is_left = self.state_of(session.job.index), session.state in ("new", "left")
        if state.session != session.number:
            self._tell(session, "new" if is_left else session.state)
        elif state.drinking in HOLDS:
            self._tell(session, "left" if is_left else "held")
        elif state.drinking == THIRSTY and not is_left:
            self._tell(session, "waiting")
        elif state.drinking == THIRSTY and session.patience is None:
            self._tell(session, "left")
        else:
            if state.drinking == THIRSTY:
                self.call("lab_withdraw", session.job.index)
            self._tell(session, session.fate)

    def _tell(self, session: Session, state: str) -> None:
        """What has become of a session, to whoever waits for it. (It is told again if an exception comes before its state is noted.)"""
        if state == "lapsed":
            self.lapsed[session.job.name, session.number] = None
        if not self.rouse(session) and session.state == "waiting" and state == "held":
            state = "left"
        if state not in ("waiting", "held"):
            session.owner = None
        session.state = state

    def rouse(self, session: Session) -> bool:
        """Wakes who waits for it, who may sleep again. No if nobody is there any more, since the loop of its task is closed."""
        try:
            return session.wake is None or session.wake() is not False
        except RuntimeError:
            return False

    def stop(self) -> None:
        """Whoever waits is woken, and gets Stopped. (With nothing held. A bench that is closed stays so.)"""
        with self.lock(), contextlib.suppress(Closed), self:
            self.is_stopped = True
            for it in self.sessions.values():
                self.rouse(it)

    def close(self, jobs: int) -> str:
        """The report's text. Each job that can retires: one may owe a meal, for which it needs forks that others give once they have let go.
        (With the mutex alone, and a second time if an exception came.)"""
        if not self.is_closed:
            with self:
                self.settle()
                left = set(range(jobs))
                while done := {it for it in left if self.call("lab_retire", it, 1, byref(Turned()), no=(NOT_NOW, SESSIONS_LEFT))}:
                    left -= done
            self.is_closed = True
        for session in self.sessions.values():
            self.rouse(session)
        return told_text(self._calls, "lab_bench_close", self._at)


def _freed(calls: Library, handle: Handle, process: int) -> None:
    if os.getpid() == process:
        called(calls, "lab_bench_free", byref(handle), no=(NOT_OPEN,))
