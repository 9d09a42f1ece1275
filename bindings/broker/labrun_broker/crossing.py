"""One session over several bays, as its client has it: in each of them it has a *part*, which is a session of that bay like any other, and by
the same ticket. Which bay gives what is for that bay to say, and in which order they are asked is said elsewhere (over.py). Here stands what
the parts have in common: the client is told that it holds only once all of them do, and when one ends, all do.

To a bay it is the owner of its part; to the doors it is a session, and the keeper of it."""

from __future__ import annotations

import asyncio
import math
from dataclasses import replace
from typing import TYPE_CHECKING, Any, Callable, Iterator, Optional

import labrun
from labrun import NotHeld
from labrun.machine import TAKEN

from . import lasting, making_safe
from .keeping import Keeping
from .leases import ANOTHER
from .standing import Owner, Session
from .together import all_of
from .wishes import Ended, Wish

if TYPE_CHECKING:
    from .bays import Bays


class Crossing(Session):
    """`homes` are its bays, in the order of the lab's file; `parts` those sessions that have been asked for."""

    def __init__(self, bays: Bays, homes: tuple[Keeping, ...], key: tuple[int, int], wish: Wish, owner: Optional[Owner]) -> None:
        super().__init__(0, "", 0, key, asyncio.get_running_loop().create_future(), wish, instruments=wish.names, of=len(homes))
        self.owner, self.person = owner, wish.person
        self.homes, self.parts = homes, dict[str, Session]()
        self.fault: Optional[BaseException] = None
        # once each part has let go
        self.is_through = asyncio.Event()
        self._bays = bays
        bays.crossings[key] = self

    def its(self) -> Iterator[tuple[Keeping, Session]]:
        """Its parts, the first one first."""
        return ((it, self.parts[it.bay.name]) for it in self.homes if it.bay.name in self.parts)

    def label(self) -> str:
        """The guest's name, which is the same in all bays."""
        return next((it.name for _, it in self.its() if it.state != "over"), self._bays.peers[0].free_label())

    # ---- until its client is told that it holds

    async def asks(self, home: Keeping, choices: tuple[tuple[str, ...], ...], timeout: Optional[float]) -> Session:
        """Returns the part in this bay once it holds. Whatever is raised, nothing is held any more."""
        # (whoever only tries keeps nobody behind itself)
        is_urgent = self.wish.urgent and timeout != 0
        part = replace(self.wish, instruments=(), any_of=choices, timeout=timeout, pings=False, wants_warning=False, urgent=is_urgent, crossing=self)
        try:
            session = await home.hold(part, self, lambda it: self._is_asked(home, it))
            if self.fault is not None:
                raise self.fault
            return session
        except BaseException as fault:
            self.gives_up(fault)
            raise

    def _is_asked(self, home: Keeping, part: Session) -> None:
        self.parts[home.bay.name] = part
        self.name, self.number = part.name, self.number or part.number
        if self.fault is not None:
            home._leaves(part, self.fault)

    def gives_up(self, fault: BaseException) -> None:
        """Nobody was told that it holds. It lets go of what it has, the last one first."""
        if self.state == "waiting":
            self._withdraws(fault)

    def withdraws(self, owner: Owner, fault: BaseException) -> None:
        if self.owner is owner and self.holds:
            self._withdraws(fault)

    def _withdraws(self, fault: BaseException) -> None:
        self.fault = fault
        self._is_over()
        self._is_forgotten()
        for home, part in reversed(list(self.its())):
            # (what is held in the journal of a bay that is closed is let go of when that one begins again)
            if not home._is_closed:
                home._leaves(part, fault)

    def is_whole(self, ago: int = 0) -> Session:
        """All of its parts hold, and that is on the disk: its client is told now, or was so many milliseconds ago."""
        its, held = list(self.its()), {name for _, it in self.its() for name in it.instruments}
        # (in the order in which its client named them)
        self.instruments = next(tuple(dict.fromkeys(it)) for it in self.wish.choices if set(it) == held)
        self.state, self.number = "holding", its[0][1].number
        self.is_kept = any(home.keeps(part) for home, part in its)
        # (the shortest of all its bays' is that of each part: whoever waits for it may do so in any of them)
        self.limit = min((part.limit for _, part in its if part.limit is not None), default=None)
        for home, part in its:
            part.is_kept, part.limit, part.told_at = self.is_kept, self.limit, home.now() - ago
            lasting.watches(home, part)
            home._news.changed()
        if self.owner is not None:
            self.heard(self, self.owner, self.wish.pings)
            self._warns(self.wish.wants_warning)
        return self

    def _warns(self, wants_warning: bool) -> None:
        for home, part in self.its():
            lasting.begins(home, part, wants_warning and part is self.limited)

    @property
    def limited(self) -> Session:
        """The part whose limit is over first."""
        return min((part for _, part in self.its()), key=lambda it: math.inf if it.limit is None else it.limit)

    # ---- while it holds: each part is asked

    async def hold(self, wish: Wish, owner: Owner, waits: Optional[Callable[[Session], None]] = None) -> Session:
        """Its client comes back."""
        part = replace(wish, instruments=(), any_of=(), comes_back=True, wants_warning=False)
        try:
            for home in self.homes:
                await home.hold(part, self)
        except BaseException:
            if self.owner is None:
                for home, one in self.its():
                    home.gone(one, self)
            raise
        if self.owner is not None and self.owner is not owner:
            self.owner.taken(ANOTHER)
        self.owner, self.state, self.person = owner, "holding", self.person or wish.person
        self._warns(wish.wants_warning)
        return self

    def _is_of(self, owner: Owner) -> None:
        if self.owner is not owner or not self.holds:
            raise NotHeld("the session is over, or another connection came for it")

    async def let_go(self, _: Session, owner: Owner, failed: Optional[str] = None) -> None:
        """The last part first. (Whoever is cancelled meanwhile has let go all the same.)"""
        self._is_of(owner)
        self._is_over()
        task = asyncio.ensure_future(self._lets_go(failed))
        self._bays.tasks.add(task)
        task.add_done_callback(self._bays.tasks.discard)
        # (if nobody waits any more, nobody is told why it couldn't be written)
        task.add_done_callback(lambda it: it.cancelled() or it.exception())
        await asyncio.shield(task)

    async def _lets_go(self, failed: Optional[str]) -> None:
        its = await asyncio.gather(*(home.let_go(part, self, failed) for home, part in reversed(list(self.its()))), return_exceptions=True)
        self._is_forgotten()
        faults = [it for it in its if it is not None]
        for fault in sorted(faults, key=lambda it: not isinstance(it, labrun.JournalError)):
            raise fault

    async def notes(self, owner: Owner, text: str, number: int) -> None:
        """It stands in the first bay alone, so that it is read once."""
        self._is_of(owner)
        home, part = next(self.its())
        await home.note(part, self, text, number)

    def heard(self, _: Session, owner: Owner, says_so: bool = False) -> bool:
        return self.owner is owner and self.holds and all([home.heard(part, self, says_so) for home, part in self.its()])

    def gone(self, _: Session, owner: Owner) -> None:
        if self.owner is owner and self.holds:
            self.owner, self.state = None, "gone"
            for home, part in self.its():
                home.gone(part, self)

    def lease_of(self, _: Session) -> Optional[float]:
        return min((it for home, part in self.its() if (it := home.lease_of(part)) is not None), default=None)

    def grace_of(self, _: Session) -> float:
        return min(home.grace_of(part) for home, part in self.its())

    # ---- its end

    def _is_over(self) -> None:
        self.state = "over"

    def _is_forgotten(self) -> None:
        self.is_through.set()
        if self._bays.crossings.get(self.key) is self:
            del self._bays.crossings[self.key]

    def is_lost(self, of: Session, how: int, untold: Ended) -> None:
        """One of its parts was taken away: so are the others. `untold` is what its client hears that was never told that it holds."""
        if not self.holds:
            return self.gives_up(untold)
        self._is_over()
        self._is_forgotten()
        for home, part in reversed(list(self.its())):
            if part is not of and part.holds:
                part.taken_by = of.taken_by
                if how == TAKEN:
                    home._notes(part, "taken", part.taken_by)
                making_safe.takes(home, part, how)

    async def release(self, by: str, person: str = "") -> tuple[str, ...]:
        """Somebody ends it, perhaps before its client is told that it holds; what it held."""
        (home, part), *others = [(home, part) for home, part in self.its() if part.holds]
        held = {name for _, it in self.its() if it.holds for name in it.instruments}
        names = tuple(name for name in self.instruments if name in held)
        await home.release(part.name, by, part.number, person)
        await asyncio.gather(*(it._shell.durable(takes_all=True) for it, _ in others))
        return names

    # what a bay tells the owner of its part

    def taken(self, why: str) -> None:
        if self.holds and self.owner is not None:
            owner, self.owner = self.owner, None
            owner.taken(why)

    def warned(self, text: str, seconds: float) -> None:
        if self.owner is not None:
            self.owner.warned(text, seconds)

    @property
    def host(self) -> Optional[str]:
        return getattr(self.owner, "host", None)

    @property
    def context(self) -> Any:
        """(By which a guard knows the client's machine.)"""
        return getattr(self.owner, "context", None)

    # ---- what is told of one that waits

    def _waiting(self) -> Optional[tuple[Keeping, Session]]:
        return next(((home, part) for home, part in self.its() if part.state == "waiting"), None) if self.state == "waiting" else None

    def for_whom(self, _: Session) -> tuple[list[dict[str, Any]], str, tuple[Any, ...]]:
        """Whom it waits for, in which bay, and what it holds already."""
        if (it := self._waiting()) is None:
            return [], "it is about to ask the next of its bays" if self.state == "waiting" else "", ()
        home, part = it
        keepers, why, changes = home.for_whom(part)
        held = [name for _, one in self.its() if one.holds for name in one.instruments]
        text = f"in the bay {home.bay.name}: {why}" + (f"; it holds {all_of(held)} already" if held else "")
        return keepers, text, (home.bay.name, changes)

    def waits_where(self, of: Session) -> str:
        """For whoever waits for what this part of it holds already. Nothing: it waits for nobody elsewhere."""
        # (what is only to be written is told as of each session)
        if (it := self._waiting()) is None or it[1] is of:
            return ""
        home, part = it
        return f"which waits in the bay {home.bay.name}, too: {home.for_whom(part)[1]}"
