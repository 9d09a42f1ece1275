"""The bay behind the service: who asks, holds, notes, lets go, and is gone. Nothing here knows of the network, and nothing of files.

It is a shell of the bay's machine (docs/BAY.md), and has no rule of who goes first, of what is told when, or of how long something is kept:
it has names, notes, connections, and the records."""

from __future__ import annotations

import asyncio
import math
import time
from typing import TYPE_CHECKING, Any, AsyncIterator, Callable, Optional, Sequence

import labrun
from labrun import LabrunError
from labrun.machine import GRACE, HOLDS, LAPSED, NEVER, NOT_WRITTEN, WAS_STOPPED, Machine, Refusal, Told

from . import closing, ending, lasting, leases, making_safe, outage, people, rights, turning, wishes
from .bay import Bay
from .errors import TimeoutError as TimedOut
from .folder import Folder, State
from .journals import PART, notes_of
from .labels import free_label
from .opening import Opened
from .records import News, Record
from .settling import Settling, settled
from .shell import Shell
from .standing import ENDING, Owner, Session, Standings
from .taking_up import carries, takes_up
from .together import no_bay
from .wishes import Ended, Ends, Wish

if TYPE_CHECKING:
    from .entrance import Entrance

UNTOLD = "before its client was told that it holds"
NO_WAIT = "was refused, because it doesn't wait (hold -n, or a timeout of 0)"
NOT_AT_ONCE = "can't have all that it asks for at once"
ENDED = "the broker ended"


class Keeping:
    """The bay. All calls are made on one loop. `history` has the last records."""

    def __init__(
        self, bay: Bay, state: Optional[str] = None, grace: float = 60.0, syncs: bool = True, opens: Callable[[str, bool], State] = Folder
    ) -> None:
        # `grace` is infinite if nobody is released; the other one is of those that are
        self.bay, self.grace, self.state = bay, grace if bay.its_gone.may_release else math.inf, state
        self.its_grace = grace
        self._news = News()
        self.history = self._news.history
        self.refusals = self.sessions = self.opened_at = 0
        # of urgent ones: how many, and the number of the last
        self.urgent = self.last_urgent = 0
        # what is to be told to whoever looks after the broker: as it begins, and ends; and meanwhile
        self.complaints, self.lost = list[str](), list[str]()
        self.says: Callable[[str], None] = lambda text: None
        # from which size on the journal begins anew
        self.most_bytes = turning.MOST_BYTES
        self.by_number: dict[int, Session] = {}
        self.idle_since: dict[str, int] = {}
        self._opens, self._syncs = opens, syncs
        self._by_key: dict[tuple[int, int], Session] = {}
        # (before it is closed, its doors are: whoever waits there doesn't leave by itself then)
        self._ends, self.is_ending, self._is_closed = Ends(), False, False
        # one after another (applying.py), and who looks after the doors meanwhile
        self.changing = asyncio.Lock()
        self.entrances: list[Entrance] = []
        self.tasks = set[asyncio.Future[Any]]()
        # all bays of the lab, whose numbers and guests' names are those of one sequence (bays.py)
        self.peers: tuple[Keeping, ...] = (self,)
        self._next = 1
        # commands that make something safe, and sessions whose limit is over (lasting.py)
        self.safing, self.late = set[asyncio.Future[None]](), list[Session]()

    # ---- from the start to the end

    async def open(self) -> None:
        """Opens the bay, or goes on where the state says. LabrunError and OSError say why it can't."""
        it = self._opened = Opened(self.bay, self.state, self.grace, self._syncs, self._opens)
        self.grace, self.places, self.complaints = it.grace, it.places, it.complaints
        self.its_grace = self.its_grace if math.isinf(it.grace) else it.grace
        self._news.file = None if it.state is None else it.state.records
        store = None if it.state is None else it.state.store
        self._shell = Shell(it.machine, store, it.first, self._is_told, self._news.sync, self._says_of_the_disk)
        self._news.says_faults(lambda text: self.says(text), self._shell.is_wrong)
        self.settling = Settling(it.state, self._shell)
        # (who only waited is in the records alone)
        asked = (record["session"] for record in it.recent if record.get("session"))
        self._next, self.opened_at = max(1, it.machine.next_number(), 1 + max(asked, default=0)), self._shell.now()
        takes_up(self, it)
        carries(self)
        self._shell.pump()

    def begins_to_end(self) -> None:
        self.is_ending = True

    async def close(self) -> None:
        """Nobody comes to hold any more; what is held stays held, in the journal. What isn't written then is in `lost`."""
        if not self._is_closed:
            self._is_closed = True
            self.lost = await closing.closes(self)

    def now(self) -> int:
        return self._shell.now()

    def _says_of_the_disk(self, text: str) -> None:
        # (whoever reads that all is written may look at the records at once)
        self._news.settles()
        self.says(text)

    def recent(self) -> list[Record]:
        """The last records that are kept, those of brokers before this one, too."""
        return [] if self._opened.state is None else self._opened.state.recent()

    @property
    def machine(self) -> Machine:
        return self._shell.machine

    # ---- sessions

    @settled
    async def hold(self, wish: Wish, owner: Owner, waits: Optional[Callable[[Session], None]] = None) -> Session:
        """Returns the session once it holds what the client wishes, and that is on the disk. Whoever is cancelled meanwhile leaves. `waits`
        is called with the session once there is one."""
        try:
            wishes.check_form(wish, self.bay)
            key = wishes.owner_of(wish.ticket)
            await self._shell.turns.may_go_on()
            if wish.comes_back or key in self._by_key:
                await self.settling.leads()
            if not wish.comes_back:
                wish = await making_safe.is_over(self, key, wish)
            await leases.pauses(self, key)
            held = self._by_key.get(key)
            rights.check_ticket(self.bay, wish.person, held)
            if held is not None and held.holds:
                held.instruments = wishes.asked_again(wish, held.instruments, self.bay)
                return leases.comes_back(self, held, wish, owner)
            if wish.comes_back:
                why = self._ends.why(key)
                if why.kind == "LetGo":
                    await self.settling.kept()
                raise why
            wishes.check(wish, self.bay, self.places.taken_out)
            wish = outage.going_round(wishes.resolved(wish, self.bay), self.places.out, self.bay)
            session = self._asks(wish, key, owner, held)
        except LabrunError:
            self.refusals += 1
            raise
        if waits is not None:
            waits(session)
        try:
            await session.told
        except BaseException as fault:
            if session.owner is owner:
                self._leaves(session, fault)
            raise
        if session.owner is not owner:
            raise Ended("TakenAway", f"the session was taken away {UNTOLD}")
        return session

    def has(self, key: tuple[int, int]) -> bool:
        """Whether a session has this ticket."""
        return key in self._by_key

    def had(self, key: tuple[int, int]) -> bool:
        """Whether one had it, of which it is known how it ended."""
        return key in self._ends

    def told(self, key: tuple[int, int]) -> Optional[Session]:
        """The session that has it, if its client was told that it holds."""
        return session if (session := self._by_key.get(key)) is not None and session.holds else None

    def leaves_line(self, key: tuple[int, int]) -> None:
        """Whoever waits with this ticket asks for something else, and not here."""
        if (session := self._by_key.get(key)) is not None:
            self._is_another(session)

    def _asks(self, wish: Wish, key: tuple[int, int], owner: Owner, before: Optional[Session]) -> Session:
        if self._is_closed:
            raise labrun.Stopped("the broker ends")
        if before is not None:
            self._is_another(before)
        name = wish.station or self.free_label() if wish.crossing is None else wish.crossing.label()
        told: asyncio.Future[None] = asyncio.get_running_loop().create_future()
        session = Session(0, name, self.places.kind(wish.station), key, told, since=self.now(), home=self)
        session.owner, session.by, session.limit = owner, people.told(wish.person, wish.by) or None, lasting.limit_of(self.bay, wish)
        session.person = wish.person
        if wish.crossing is not None:
            session.crossing, session.of = wish.crossing, wish.crossing.of
        self._asks_for(session, wish)
        return session

    def _is_another(self, before: Session) -> None:
        """Whoever waits has come once more, and that its stream has ended isn't seen here yet."""
        before.owner = None
        self._leaves(before, Ended("TakenAway", leases.ANOTHER))

    def free_label(self) -> str:
        """The name of the next guest."""
        return free_label(session for it in self.peers for session in it.by_number.values())

    def _asks_for(self, session: Session, wish: Wish) -> None:
        number, sets = max(it._next for it in self.peers), tuple(self.places.bits(choice) for choice in wish.choices)
        self._next = number + 1
        deadline = NEVER if wish.timeout is None else session.since + wishes.milliseconds(wish.timeout)
        # (of a part, too, the broker sees to the end)
        session.is_followed = session.of > 0 or making_safe.is_followed(self.bay, wish.names)
        limit = NEVER if session.limit is None or session.is_followed else wishes.milliseconds(session.limit)
        limit = PART + session.of if session.of else limit
        try:
            self._shell.machine.ask(number, session.key, session.kind, sets, deadline, limit, self.now(), wish.urgent)
        except Refusal as it:
            raise LabrunError(f"the bay doesn't take it: {it}") from None
        session.number, session.wish, session.sets, session.instruments = number, wish, sets, wish.names
        self.by_number[number] = self._by_key[session.key] = session
        more = dict[str, Any](urgent=True) if wish.urgent else {}
        if wish.urgent:
            self.urgent, self.last_urgent = self.urgent + 1, number
        self._record("asked", session, **more)
        self._shell.pump()
        lasting.looks(self)

    def _is_told(self, told: Told) -> None:
        """The machine says what became of an ask. (Of one that let go, or left, that is known here.)"""
        session = self.by_number.get(told.number)
        if session is None or session.state == ENDING:
            return
        if told.what == HOLDS:
            self._holds(session, told)
        elif told.what == LAPSED:
            what = "was given up when its time was over" if session.wish.timeout else NOT_AT_ONCE if session.of or session.wish.tries else NO_WAIT
            why = f"session {session.number} of {session.name} {what}: {Standings(self).why(session)}"
            self._fails(session, "tried" if session.wish.tries else "gave_up", TimedOut(why))
        elif told.what == NOT_WRITTEN:
            self._fails(session, "failed", self._shell.why())
        elif told.what == WAS_STOPPED:
            self._fails(session, "gave_up", labrun.Stopped(ENDED))
        else:
            self._is_taken(session, told.what)

    def _holds(self, session: Session, told: Told) -> None:
        session.instruments, session.token = session.chosen(told.needs), told.token
        session.state, session.is_kept = "holding", self.keeps(session)
        self.sessions += 1
        for word, text in session.about():
            self._notes(session, word, text)
        self._record("held", session, ticket=wishes.digits_of(session.key) if session.wish.ticket else "", after=self._span(session))
        session.since = self.now()
        lasting.watches(self, session)
        if not session.told.done():
            session.told.set_result(None)
        if session.owner is not None:
            self.heard(session, session.owner, session.wish.pings)
            lasting.begins(self, session, session.wish.wants_warning)

    def _fails(self, session: Session, what: str, fault: LabrunError) -> None:
        self._over(session, what, str(fault))
        if not session.told.done():
            session.told.set_exception(fault)

    def _is_taken(self, session: Session, how: int) -> None:
        what = f"by {session.taken_by or 'the broker'}{lasting.because(self, session, how)}"
        owner, untold = session.owner, Ended("TakenAway", f"the session was taken away {what}, {UNTOLD}")
        held = ", ".join((session.crossing or session).instruments)
        self.says(f"session {session.number} of {session.name} with {', '.join(session.instruments)} was taken away {what}")
        self._over(session, "taken", what)
        self._ends.add(session.key, what)
        if not session.told.done():
            session.told.set_exception(untold)
        elif owner is not None:
            text = f"{session.name}: the session{'' if how == GRACE else f' with {held}'} was taken away {what}"
            self.settling.tells(owner.taken, text)
        if session.crossing is not None:
            session.crossing.is_lost(session, how, untold)

    def _leaves(self, session: Session, fault: BaseException) -> None:
        """The client waits no longer, or can't be told any more that it holds."""
        if session.state == "over":
            return
        self._shell.machine.leave(session.number, self.now())
        text = (ENDED if self.is_ending else "its client waits no longer") if isinstance(fault, asyncio.CancelledError) else str(fault)
        self._over(session, "tried" if session.wish.tries and isinstance(fault, TimedOut) else "gave_up", text)
        if not session.told.done():
            session.told.set_exception(fault)
        self._shell.pump()

    def _over(self, session: Session, what: str, text: str) -> None:
        session.stops_looking()
        lasting.stops(session)
        session.state = "over"
        self.by_number.pop(session.number, None)
        if self._by_key.get(session.key) is session:
            del self._by_key[session.key]
        self.idle_since[session.name] = self.now()
        self._record(what, session, text=text, after=self._span(session))
        session.owner = session.gone_at = None

    async def let_go(self, session: Session, owner: Owner, failed: Optional[str] = None) -> None:
        """Who waits comes to hold, and is told once both are on the disk. `failed` is what the client says of work that failed."""
        await ending.lets_go(self, session, owner, failed)

    async def note(self, session: Session, owner: Owner, text: str, number: int = 0) -> None:
        """It is on the disk then, once, however often it comes by this number of its client's."""
        await ending.notes(self, session, owner, text, number)

    async def release(self, station: str, by: str, number: int = 0, person: str = "", bay: str = "") -> tuple[str, ...]:
        """Ends the session that a station holds, for its owner; its instruments. With its number, no other session of the station. Where the bay
        names people, its own person may, and operators."""
        return await ending.releases(self, station, by, number, person, bay)

    def _notes(self, session: Session, word: str, text: str) -> int:
        """A text in the journal, and how far that has to be durable."""
        position = 0
        for it in notes_of(word, text) if self._opened.state is not None else ():
            position = self._shell.machine.note(session.number, it)
        return position

    # ---- clients that are gone

    def keeps(self, session: Session) -> bool:
        """Whether it is kept when its client is gone: that counts from when it comes to hold on."""
        was_told_so = session.number in self._opened.kept
        return was_told_so or self.bay.its_gone.keeps(self.places.station(session.kind), session.instruments)

    @property
    def lease(self) -> Optional[float]:
        """Of those that aren't kept; None: all are."""
        return leases.lease_of(self.its_grace) if self.bay.its_gone.may_release else None

    def lease_of(self, session: Session) -> Optional[float]:
        return None if session.is_kept else leases.lease_of(self.its_grace)

    def grace_of(self, session: Session) -> float:
        return self.its_grace

    def heard(self, session: Session, owner: Owner, says_so: bool = False) -> bool:
        """A word of a client came now. Whether the session is its own, and holds. `says_so`: that it is there, as it will again and
        again."""
        return leases.heard(self, session, owner, says_so)

    def gone(self, session: Session, owner: Owner) -> None:
        """The stream of a client that holds has ended. It goes on to hold."""
        leases.gone(self, session, owner)

    def for_whom(self, session: Session) -> tuple[list[dict[str, Any]], str, tuple[Any, ...]]:
        """Whom one waits for (standing.py)."""
        return Standings(self).for_whom(session)

    # which bay has it, if any has; what has them all; and which is called so

    def with_instrument(self, name: str) -> Keeping:
        return self

    def with_all(self, names: Sequence[str]) -> Keeping:
        return self

    def in_bay(self, name: str) -> Keeping:
        if name in ("", self.bay.name):
            return self
        raise no_bay(name, (self.bay.name,))

    # ---- what is told

    def _span(self, session: Session) -> float:
        """For how many seconds it has waited, or held, by a clock that doesn't jump."""
        return (self.now() - session.since) / 1000

    def _record(self, what: str, session: Optional[Session] = None, text: str = "", its: tuple[str, ...] = (), **more: Any) -> None:
        name, number, by = (None, None, None) if session is None else (session.name, session.number, session.by)
        its = its if session is None else its or session.instruments
        about = {"station": name, "session": number, "instruments": list(its), "by": by, "text": text}
        self._news.add({"t": round(time.time(), 6), "what": what, **about}, **more)

    def changes(self) -> AsyncIterator[None]:
        return self._news.changes()

    async def confirmed(self) -> None:
        """Returns once all that was told is known to go on to be so."""
        await self._shell.durable()
        await self.settling.leads()

    def status(self, person: str = "") -> dict[str, Any]:
        leads, stands_by = ("", ()) if self._opened.state is None else self._opened.state.brokers()
        return {**Standings(self).status(person), "leads": leads, "stands_by": list(stands_by)}

    @property
    def write_failures(self) -> int:
        return self._shell.failures

    @property
    def notice(self) -> str:
        """What whoever looks has to know: that the machine isn't the proved one."""
        return str(getattr(self.machine, "notice", ""))
