"""Several bays behind one door: each is kept as one alone is (keeping.py), with a machine, a journal and records of its own, and whoever asks
needn't know in which one an instrument is. Here stands only what is of all of them; of who goes first nothing is decided here.

It has what a Keeping has for the doors, the page and the numbers."""

from __future__ import annotations

import asyncio
import contextlib
import os
from typing import TYPE_CHECKING, Any, AsyncIterator, Callable, Iterable, Optional, Sequence, Union

import labrun
from labrun import LabrunError

from . import outage, over, turning, wishes
from .bay import Bay
from .crossing import Crossing
from .errors import BadWish, StillHeld
from .folder import JOURNAL
from .journals import sessions_of
from .keeping import Keeping
from .labs import Lab, whole
from .leases import ANOTHER
from .records import News, Record
from .standing import Owner, Session
from .together import all_of, no_bay, status_of
from .wishes import Ended, Wish

if TYPE_CHECKING:
    from .entrance import Entrance


class Bays:
    """The bays of a lab, by their names. All calls are made on one loop."""

    def __init__(self, lab: Lab, state: Optional[str] = None, grace: float = 60.0, syncs: bool = True) -> None:
        self.lab, self.state = lab, state
        self.of = {name: Keeping(bay, None if state is None else f"{state}/{name}", grace, syncs) for name, bay in lab.bays.items()}
        self.peers, self._news, self._refused = tuple(self.of.values()), News(), 0
        self.history, self._whole = self._news.history, (lab.whole, tuple(lab.bays.values()))
        self.settling, self.changing = _Settling(self.peers), asyncio.Lock()
        self.entrances: list[Entrance] = []
        self.tasks = set[asyncio.Future[Any]]()
        # sessions over several bays, by their tickets
        self.crossings = dict[tuple[int, int], Crossing]()
        self._says: Callable[[str], None] = lambda text: None
        for name, it in self.of.items():
            it.peers, it._news.tells = self.peers, self._notes_of(name)

    def _notes_of(self, name: str) -> Callable[[Optional[Record]], None]:
        return lambda record: self._news.changed() if record is None else self._news.add({**record, "bay": name})

    @property
    def bay(self) -> Bay:
        """All of them, as they are now, as if they were one."""
        its = tuple(it.bay for it in self.peers)
        if any(one is not other for one, other in zip(its, self._whole[1])):
            self._whole = whole(self.lab.name, {name: it.bay for name, it in self.of.items()}, self.lab.people, self.lab.limits), its
        return self._whole[0]

    def goes_by(self, lab: Lab) -> None:
        """Another file of the lab, which each bay goes by already."""
        its = tuple(it.bay for it in self.peers)
        self.lab, self._whole = lab, (lab.whole, its)

    # ---- from the start to the end

    @property
    def says(self) -> Callable[[str], None]:
        return self._says

    @says.setter
    def says(self, says: Callable[[str], None]) -> None:
        self._says = says
        for name, it in self.of.items():
            it.says = _of_one(name, says)

    @property
    def most_bytes(self) -> int:
        return max((it.most_bytes for it in self.peers), default=turning.MOST_BYTES)

    @most_bytes.setter
    def most_bytes(self, most: int) -> None:
        for it in self.peers:
            it.most_bytes = most

    @property
    def complaints(self) -> list[str]:
        return [f"{name}: {text}" for name, it in self.of.items() for text in it.complaints]

    @property
    def lost(self) -> list[str]:
        return [text for it in self.peers for text in it.lost]

    async def open(self) -> None:
        """Opens each of them. LabrunError and OSError say why one can't be."""
        if self.state is not None:
            _looks_at(self.state, self.of)
        async with contextlib.AsyncExitStack() as ends:
            for name, it in self.of.items():
                try:
                    await it.open()
                except LabrunError as fault:
                    raise fault if isinstance(fault, labrun.JournalError) else LabrunError(f"{name}: {fault}") from None
                ends.push_async_callback(it.close)
            over.takes_up(self)
            ends.pop_all()

    def begins_to_end(self) -> None:
        for it in self.peers:
            it.begins_to_end()

    async def close(self) -> None:
        await asyncio.gather(*(it.close() for it in self.peers))

    # ---- sessions

    async def hold(self, wish: Wish, owner: Owner, waits: Optional[Callable[[Session], None]] = None) -> Session:
        """As at one bay, in that which has what the client wishes; or over several."""
        try:
            wishes.check_form(wish, self.bay)
            while (it := self.crossings.get(wishes.owner_of(wish.ticket))) is not None and it.state == "over":
                await it.is_through.wait()
            home = self._home(wish)
        except LabrunError:
            self._refused += 1
            raise
        return await home.hold(wish, owner, waits)

    def _home(self, wish: Wish) -> Union[Keeping, Crossing, over.Over]:
        key = wishes.owner_of(wish.ticket)
        if (crossing := self.crossings.get(key)) is not None:
            if crossing.holds:
                crossing.instruments = wishes.asked_again(wish, crossing.instruments, self.bay)
                return crossing
            if wish.comes_back:
                raise Ended("NotHeld", "the session of this ticket waits, and was never told that it holds")
            crossing.gives_up(Ended("TakenAway", ANOTHER))
        before = next((it for it in self.peers if it.has(key)), None)
        if wish.comes_back:
            return before if before is not None else next((it for it in self.peers if it.had(key)), self.peers[0])
        if before is not None and (held := before.told(key)) is not None:
            wishes.asked_again(wish, held.instruments, self.bay)
            return before
        home = self._of_wish(wish)
        if before is not None and before is not home:
            before.leaves_line(key)
        return home

    def _of_wish(self, wish: Wish) -> Union[Keeping, over.Over]:
        """BadWish, NoInstrument, MayNotUse: no bay has it for this client. OutOfOrder."""
        wishes.check(wish, self.bay, self._taken_out)
        resolved, out = wishes.resolved(wish, self.bay), {name: it for home in self.peers for name, it in home.places.out.items()}
        homes = {home for way in over.ways_of(self, resolved) for home in way}
        return homes.pop() if len(homes) == 1 else over.Over(self, outage.going_round(resolved, out, self.bay))

    def _of_session(self, session: Session) -> Union[Keeping, Crossing]:
        return session if isinstance(session, Crossing) else session.home or self.peers[0]

    async def let_go(self, session: Session, owner: Owner, failed: Optional[str] = None) -> None:
        await self._of_session(session).let_go(session, owner, failed)

    async def note(self, session: Session, owner: Owner, text: str, number: int = 0) -> None:
        if isinstance(session, Crossing):
            return await session.notes(owner, text, number)
        await (session.home or self.peers[0]).note(session, owner, text, number)

    def heard(self, session: Session, owner: Owner, says_so: bool = False) -> bool:
        return self._of_session(session).heard(session, owner, says_so)

    def gone(self, session: Session, owner: Owner) -> None:
        self._of_session(session).gone(session, owner)

    @property
    def lease(self) -> Optional[float]:
        """The shortest of theirs."""
        return min((it.lease for it in self.peers if it.lease is not None), default=None)

    def lease_of(self, session: Session) -> Optional[float]:
        return self._of_session(session).lease_of(session)

    def grace_of(self, session: Session) -> float:
        return self._of_session(session).grace_of(session)

    def for_whom(self, session: Session) -> tuple[list[dict[str, Any]], str, tuple[Any, ...]]:
        return self._of_session(session).for_whom(session)

    # ---- for who looks after the bays

    def in_bay(self, name: str) -> Keeping:
        if (it := self.of.get(name)) is None:
            raise no_bay(name, tuple(self.of))
        return it

    def _taken_out(self, name: str) -> str:
        return next(filter(None, (it.places.taken_out(name) for it in self.peers)), "")

    def with_instrument(self, name: str) -> Keeping:
        wishes.check_instrument(name, self.bay, self._taken_out)
        return next(it for it in self.peers if name in it.bay.instruments)

    def with_all(self, names: Sequence[str]) -> Kept:
        """(A disk that fails in one bay is nothing to the others.)"""
        return next((it for it in self.peers if all(name in it.bay.instruments for name in names)), self)

    async def release(self, station: str, by: str, number: int = 0, person: str = "", bay: str = "") -> tuple[str, ...]:
        for it in self.crossings.values():
            if any(part.name == station and part.holds and number in (0, part.number) and bay in ("", home.bay.name) for home, part in it.its()):
                return await it.release(by, person)
        home = self.in_bay(bay) if bay else self._with_station(station, number)
        return await home.release(station, by, number, person)

    def _with_station(self, station: str, number: int) -> Keeping:
        """The bay that has it; of guests, that in which one of this name is in a session."""
        its = [it for it in self.peers if station in it.bay.stations or any(one.name == station for one in it.by_number.values())]
        if not its and station in self.bay.guest_names:
            raise labrun.NotHeld(f"{station} holds nothing")
        if not its:
            raise wishes.no_station(station, self.bay, (one for it in self.peers for one in it.by_number.values()))
        if len(its) > 1:
            # (before they were bays of one lab, each named its own guests)
            its = [it for it in its if number in it.by_number] or its
        if len(its) > 1 and number:
            parts = ((it.number, home.bay.name) for home in its for it in home.by_number.values() if it.name == station)
            where = ", ".join(f"{its_number} ({name})" for its_number, name in parts)
            raise labrun.NotHeld(f"{station} is in session {where} now, and not in {number}")
        if len(its) > 1:
            raise BadWish(f"{station} is in {all_of([it.bay.name for it in its])}: say in which bay (--bay), or the session's number")
        return its[0]

    # ---- what is told

    def changes(self) -> AsyncIterator[None]:
        return self._news.changes()

    async def confirmed(self) -> None:
        await asyncio.gather(*(it.confirmed() for it in self.peers))

    def recent(self) -> list[Record]:
        its = [{**record, "bay": name} for name, it in self.of.items() for record in it.recent()]
        return sorted(its, key=lambda record: float(record["t"]))

    def status(self, person: str = "") -> dict[str, Any]:
        return status_of(self.lab.name, self.refusals, {name: it.status(person) for name, it in self.of.items()})

    @property
    def refusals(self) -> int:
        return self._refused + sum(it.refusals for it in self.peers)

    @property
    def write_failures(self) -> int:
        return sum(it.write_failures for it in self.peers)

    @property
    def notice(self) -> str:
        return next((it.notice for it in self.peers if it.notice), "")


# what keeps the bay that the doors lead to, or the bays
Kept = Union[Keeping, Bays]


class _Settling:
    """That of each (settling.py)."""

    def __init__(self, peers: tuple[Keeping, ...]) -> None:
        self._peers = peers

    async def leads(self) -> None:
        for it in self._peers:
            await it.settling.leads()

    async def kept(self) -> None:
        for it in self._peers:
            await it.settling.kept()


def _of_one(name: str, says: Callable[[str], None]) -> Callable[[str], None]:
    return lambda text: says(f"{name}: {text}")


def _looks_at(state: str, bays: Iterable[str]) -> None:
    """LabrunError, or StillHeld: somebody may still hold in a journal that nobody opens, what is free by all that are opened."""
    if os.path.exists(f"{state}/{JOURNAL}"):
        raise LabrunError(f"{state}: the journal of one bay is there ({JOURNAL}): move all that is in the folder to a folder below it, called as the bay is")
    its = set(bays)
    for name in sorted(os.listdir(state)) if os.path.isdir(state) else ():
        if name in its or not os.path.exists(path := f"{state}/{name}/{JOURNAL}"):
            continue
        if held := _still_holds(path):
            raise StillHeld(f"{state}/{name}", f"{held} there, and the lab has no bay {name}: begin with it once more, until that is over")


def _still_holds(path: str) -> str:
    with open(path, "rb") as file:
        text = file.read()
    try:
        its = sessions_of(text[: text.rfind(b"\n") + 1])
    except ValueError:
        return "sessions that can't be read still hold"
    held = [it.station or "a guest" for it in its.values() if not it.end]
    return f"{', '.join(held)} still hold{'s' if len(held) == 1 else ''}" if held else ""
