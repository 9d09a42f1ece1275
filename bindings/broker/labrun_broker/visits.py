"""Clients that come by single requests, each by its ticket: they have no connection whose end would tell that they are gone.

- A client is there as long as a request of its is open, and for QUIET after the last one, or CUT if it didn't wait for the answer. One that
  isn't leaves the line if it waits, as one whose stream has ended; so does one that came to hold and was never answered so. One that holds
  is gone, and its session is kept; by any request it comes back.
- Where `gone = "release"` it is a client that says again and again that it is there (leases.py): each request is such a word, when it comes
  and when it is answered."""

from __future__ import annotations

import asyncio
import contextlib
from typing import TYPE_CHECKING, Any, Callable, Iterator, Optional

from labrun import JournalError, LabrunError, NotHeld, Stopped

from . import lasting
from .bays import Kept
from .ending import has_let_go
from .entrance import UNKNOWN, Caller, Entrance, NotLetIn
from .rights import check_same
from .standing import Session
from .wishes import Ended, Wish, asked_again, owner_of

if TYPE_CHECKING:
    from .keeping import Keeping

QUIET, CUT = 15.0, 2.0  # seconds
# how often a client is to say that it is there: so often in that time, and so often in its lease
BEATS_OF_QUIET, BEATS_OF_LEASE = 3, 6
# so many seconds a request is open at most, and no longer than a part of the lease: what is answered is never old
MOST_WAIT, PART_OF_LEASE = 60.0, 3
LOOK = 0.5  # seconds between two looks whether whoever asks is still there
KEPT = 1000  # ends

TOO_MANY = 429

Key = tuple[int, int]
WAITING, HOLDING, OVER = "waiting", "holding", "over"
# it waits, and for the same ones as was answered last; that is looked at so often, in seconds
UNCHANGED, CHANGES = "unchanged", 1.0


class Visit:
    """One client, until its session is over or it is gone. It is the owner of the session that it holds."""

    def __init__(self, visits: Visits, key: Key, wish: Wish, caller: Caller) -> None:
        self.wish, self.state, self.key = wish, WAITING, key
        # whose the last request was
        self.caller = caller
        # once it is in the line; and why it is over
        self.session: Optional[Session] = None
        self.fault: Optional[LabrunError] = None
        # whether it came to hold for this client first of all, and no answer has said so yet
        self._is_untold = False
        # where its last request came from; `here`: from this machine
        self.host = "here"
        # whether its limit is over soon, and an answer has said so
        self._is_warned = self._is_told_so = False
        # for whom it waited as that was answered last
        self._told_of = ""
        self._visits, self._keeping, self._open = visits, visits.keeping, 0
        self._quiet: Optional[asyncio.TimerHandle] = None
        self._changed = asyncio.Event()
        self._letting_go: Optional[asyncio.Task[None]] = None
        # the bay in which it let go, while that isn't written
        self._unkept: Optional[Keeping] = None
        self._holding = asyncio.create_task(self._holds())
        # (one that is cancelled may not have begun)
        self._holding.add_done_callback(lambda _: self._ends_if_it_waits(Ended("NotHeld", "the client waits no longer")))

    async def _holds(self) -> None:
        try:
            self.session = await self._keeping.hold(self.wish, self, self._is_in_line)
            if self.state == WAITING:
                self._is(HOLDING)
        except LabrunError as fault:
            self._ends(fault)

    def _is_in_line(self, session: Session) -> None:
        self.session, self._is_untold = session, True
        self._is(WAITING)

    def _is(self, state: str) -> None:
        self.state = state
        self._wakes()

    def _wakes(self) -> None:
        self._changed.set()
        self._changed = asyncio.Event()

    def _ends(self, fault: LabrunError) -> None:
        if self.state != OVER:
            self.fault = fault
            self._is(OVER)
            if self._quiet is not None:
                self._quiet.cancel()
            self._visits.forgets(self)

    def _ends_if_it_waits(self, fault: LabrunError) -> None:
        if self.state == WAITING:
            self._ends(fault)

    def taken(self, why: str) -> None:
        self._ends(Ended("TakenAway", why))

    def warned(self, text: str, seconds: float) -> None:
        self._is_warned = True
        self._wakes()

    # ---- whether it is there

    @contextlib.contextmanager
    def asking(self, is_there: Callable[[], bool] = lambda: True) -> Iterator[None]:
        """While a request of its is open, for whose answer somebody waits."""
        self._open += 1
        self._is_heard()
        try:
            yield
        finally:
            self._open -= 1
            if is_there():
                self._is_heard()
            else:
                self._is_quiet_from_now(CUT)

    def _is_heard(self) -> None:
        if self.state == HOLDING and self.session is not None:
            self._keeping.heard(self.session, self, True)
        self._is_quiet_from_now(QUIET)

    def _is_quiet_from_now(self, span: float) -> None:
        if self._quiet is not None:
            self._quiet.cancel()
        is_open = self._open > 0 or self.state == OVER
        self._quiet = None if is_open else asyncio.get_running_loop().call_later(span, self._is_quiet)

    def _is_quiet(self) -> None:
        if self.state == WAITING:
            self._holding.cancel()
            self._ends(Ended("NotHeld", "its client wasn't heard while it waited, and so it left the line"))
        elif self._is_untold and self.session is not None:
            # (so nobody is at its instruments)
            why = Ended("NotHeld", "its client wasn't heard before it was told that it holds, and so it left")
            self.session.withdraws(self, why)
            self._ends(why)
        elif self.session is None or self._keeping.lease_of(self.session) is None:
            self._is_gone(Ended("NotHeld", "its client is gone"))

    def _is_gone(self, why: LabrunError) -> None:
        """From here on nobody knows it. If it holds, it comes back by its ticket."""
        if self.state == HOLDING and self.session is not None:
            self._keeping.gone(self.session, self)
        self.session = None
        self._ends(why)

    async def closes(self) -> None:
        """The broker ends."""
        self.is_cut_off(Stopped("the broker ends"))
        await asyncio.wait({self._holding})

    def is_cut_off(self, why: LabrunError) -> None:
        self._is_gone(why)
        self._holding.cancel()

    # ---- what it asks

    async def begins(self) -> None:
        """Returns once it is in the line, holds, or is over."""
        while self.session is None and self.state == WAITING:
            await self._changed.wait()

    async def outlasts(self, state: str, span: float, is_there: Callable[[], bool]) -> None:
        """Returns once it isn't in this state any more, it is warned and no answer has said so, the time is over, or whoever asks isn't
        there."""
        loop, was_told, looks = asyncio.get_running_loop(), self._is_told_so, state == UNCHANGED
        until, looks_at, state = loop.time() + min(span, self.most_wait()), loop.time() + CHANGES, WAITING if looks else state
        while self.state == state and self._is_warned == was_told and is_there() and (left := until - loop.time()) > 0:
            if looks and loop.time() >= looks_at:
                looks_at = loop.time() + CHANGES
                if self.for_whom() != self._told_of:
                    return
            with contextlib.suppress(TimeoutError):
                async with asyncio.timeout(min(left, LOOK)):
                    await self._changed.wait()

    def most_wait(self) -> float:
        lease = self._keeping.lease
        return MOST_WAIT if lease is None else min(MOST_WAIT, lease / PART_OF_LEASE)

    async def notes(self, text: str, number: int = 0) -> None:
        with self._as_it_ended():
            await self._keeping.note(self._held(), self, text, number)

    @contextlib.contextmanager
    def _as_it_ended(self) -> Iterator[None]:
        """Whose session is taken away while it asks is told that."""
        try:
            yield
        except NotHeld:
            self.raises()
            raise

    def _held(self) -> Session:
        self.raises()
        if self.session is None or self.state != HOLDING:
            raise NotHeld("the session waits, and doesn't hold yet")
        return self.session

    async def lets_go(self, failed: Optional[str]) -> None:
        """One that waits gives up. Whoever asks again, because no answer came, waits for the same."""
        if self.state == WAITING:
            self._holding.cancel()
            await asyncio.wait({self._holding})
        if self.state == HOLDING:
            if self._letting_go is None or self._letting_go.done():
                self._letting_go = asyncio.create_task(self._lets_go(failed))
                # (if nobody waits any more, nobody is told why it couldn't be written)
                self._letting_go.add_done_callback(lambda it: it.cancelled() or it.exception())
            await asyncio.shield(self._letting_go)

    async def _lets_go(self, failed: Optional[str]) -> None:
        session = self._held()
        with self._as_it_ended():
            if self._unkept is not None:
                await has_let_go(self._unkept)
            else:
                await self._lets_go_first(session, failed)
        self._ends(Ended("LetGo", "the session has let go"))

    async def _lets_go_first(self, session: Session, failed: Optional[str]) -> None:
        limit = self._keeping.bay.limits.note
        try:
            await self._keeping.let_go(session, self, None if failed is None else failed[:limit])
        except JournalError:
            # (it is over all the same)
            self._unkept = session.home
            raise

    def raises(self) -> None:
        if self.fault is not None:
            raise self.fault.with_traceback(None)

    def _warning(self) -> Optional[str]:
        """As it is by now."""
        if not self._is_warned or self.session is None:
            return None
        self._is_told_so = True
        part = self.session.limited
        return lasting.told(part.home or self._keeping.peers[0], part)[0]

    def for_whom(self) -> str:
        """Another text whenever it waits for somebody else."""
        return repr(self._keeping.for_whom(self.session)[2]) if self.state == WAITING and self.session is not None else ""

    def shown(self) -> dict[str, Any]:
        """As it is told: always with the same keys."""
        it, waits, lease = self.session, self.state == WAITING, None
        if self.state == HOLDING and it is not None:
            lease, self._is_untold = self._keeping.lease_of(it), False
        keepers, why, who = self._keeping.for_whom(it) if waits and it is not None else ([], "", None)
        self._told_of = "" if who is None else repr(who)
        about: dict[str, Any] = {"state": self.state, "ticket": self.wish.ticket, "station": it and it.name, "session": it and it.number}
        about |= {"token": it.token if it is not None and self.state == HOLDING else None, "warning": self._warning()}
        about |= {"instruments": list(it.instruments) if it else [], "text": why, "waits_for": keepers}
        beat = QUIET / BEATS_OF_QUIET if lease is None else lease / BEATS_OF_LEASE
        if waits and (shortest := self._keeping.lease) is not None:
            # (it may come to hold, and be released, before it asks again)
            beat = min(beat, shortest / BEATS_OF_LEASE)
        return {**about, "grace": None if lease is None or it is None else self._keeping.grace_of(it), "lease": lease, "ping": round(beat, 3)}


class Visits:
    """All of them, by their tickets' hashes."""

    def __init__(self, keeping: Kept, entrance: Entrance) -> None:
        self.keeping, self.entrance = keeping, entrance
        self._of: dict[Key, Visit] = {}
        # what became of the last ones that asked here, so that they can be told (of those that held, Keeping knows more)
        self._ends: dict[Key, LabrunError] = {}
        entrance.looks_again.append(self._looks_again)

    def _looks_again(self) -> None:
        """Who isn't let in any more."""
        for visit in list(self._of.values()):
            if (why := self.entrance.why_not(visit.caller)) is not None:
                visit.is_cut_off(NotLetIn(UNKNOWN, why))

    async def asks(self, wish: Wish, caller: Caller) -> Visit:
        """Whoever sends its wish once more, because no answer came, has still its place in the line."""
        key = owner_of(wish.ticket)
        visit = self._visit(key, caller)
        if visit is not None and visit.state == HOLDING and visit.session is not None:
            asked_again(wish, visit.session.instruments, self.keeping.bay)
        if visit is None or visit.state == WAITING and visit.wish != wish:
            visit = self._comes(key, wish, caller)
        await visit.begins()
        return visit

    def _visit(self, key: Key, caller: Caller) -> Optional[Visit]:
        """NotAllowed: it is of somebody else."""
        visit = self._of.get(key)
        if visit is not None:
            check_same(self.keeping.bay, caller.person, visit.wish.person)
            visit.caller = caller
        return visit

    async def of(self, ticket: str, caller: Caller) -> Visit:
        """That of a ticket; one that nobody knows here may have held before."""
        key = owner_of(ticket)
        visit = self._visit(key, caller)
        if visit is None:
            if (fault := self._ends.get(key)) is not None:
                raise fault.with_traceback(None)
            visit = self._comes(key, Wish(ticket=ticket, comes_back=True, pings=True, wants_warning=True, person=caller.person), caller)
        await visit.begins()
        visit.raises()
        return visit

    def _comes(self, key: Key, wish: Wish, caller: Caller) -> Visit:
        if (why := self.entrance.is_full()) is not None:
            raise NotLetIn(TOO_MANY, why)
        self.entrance.clients += 1
        self._ends.pop(key, None)
        visit = self._of[key] = Visit(self, key, wish, caller)
        return visit

    def forgets(self, visit: Visit) -> None:
        self.entrance.clients -= 1
        if self._of.get(visit.key) is not visit:
            return
        del self._of[visit.key]
        if visit.session is not None and visit.fault is not None:
            self._ends[visit.key] = visit.fault
            if len(self._ends) > 2 * KEPT:
                self._ends = dict(list(self._ends.items())[KEPT:])

    async def close(self) -> None:
        for visit in list(self._of.values()):
            await visit.closes()
