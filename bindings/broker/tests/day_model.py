"""What the broker promises, by hand: the line is that of the bay's model (checks/bay/model.py), and the rest is written from the guide. It is told
what clients, operators, the clock and the disk do, one after another, and says what each client may have been told, who holds, who waits, and
what status and records show."""

from __future__ import annotations

import math
import os
import sys
from dataclasses import dataclass, field, replace
from typing import Any, NamedTuple, Optional

from tests.day_bays import INSTRUMENTS, STATIONS, File, bits, names_of, owner_of

sys.path.insert(0, os.path.realpath(os.path.join(os.path.dirname(__file__), "..", "..", "..", "checks", "bay")))
import model  # type: ignore[import]  # noqa: E402

KINDS = ("", *STATIONS)
DISK, BACK = 10000, 1000  # milliseconds
LETS_GO, TAKES = "let_go", "taken"


class Line(model.Bay):  # type: ignore[misc]
    """The bay's model; how far its lines are is read off the disk. `over` has how each ended."""

    def __init__(self, its: Any) -> None:
        self.over: dict[int, str] = {}
        super().__init__(its)

    def _ends(self, it: Any, how: str, now: int) -> None:
        self.over[it.number] = how
        super()._ends(it, how, now)

    def _is_durable(self, line: object) -> bool:
        return line in (model.NONE, "durable")

    def reads(self, tried: set[tuple[bytes, int]], durable: set[tuple[bytes, int]]) -> None:
        for it in self.asks:
            for word, key in ((b"hold", "hold_line"), (b"end", "end_line")):
                if getattr(it, key) == model.DUE and (word, it.number) in tried:
                    setattr(it, key, "taken")
                if getattr(it, key) == "taken" and (word, it.number) in durable:
                    setattr(it, key, "durable")


@dataclass(eq=False)
class Session:
    number: int
    name: str
    kind: int
    ticket: str
    by: str
    choices: tuple[tuple[str, ...], ...]
    pings: bool = False
    stream: Optional[Stream] = None
    state: str = "waiting"
    instruments: tuple[str, ...] = ()
    note: Optional[str] = None
    gone_at: Optional[int] = None
    heard_at: Optional[int] = None
    back_at: int = -DISK

    @property
    def holds(self) -> bool:
        return self.state in ("holding", "gone")


@dataclass(eq=False)
class Stream:
    """One of a client's. `told` is what it has to be told, in this order; `note` is the text that it waits for."""

    ticket: str
    told: list[tuple[Any, ...]] = field(default_factory=list)
    session: Optional[Session] = None
    waits: bool = False
    note: Optional[tuple[int, str, int]] = None
    # the session of which it let go, and until when it is told so
    leaving: Optional[tuple[int, int]] = None
    is_open: bool = True

    @property
    def is_busy(self) -> bool:
        return self.note is not None or self.leaving is not None


@dataclass(frozen=True)
class Wish:
    choices: tuple[tuple[str, ...], ...]
    station: str = ""
    timeout: Optional[int] = None
    ticket: str = ""
    comes_back: bool = False
    pings: bool = False
    by: str = ""


class Released(NamedTuple):
    number: int
    held: tuple[str, ...]


class Rules:
    def __init__(self, file: File, now: int, grace: Optional[int], kept: frozenset[int] = frozenset()) -> None:
        """`grace`: that of the file, or a longer one that somebody was told; `kept` are the sessions that go on without an end, because their
        clients were told so."""
        self.file, self.now, self.grace, self.kept = file, now, grace, kept
        self.line = Line(model.Rules(file.classes(), file.passes(), 10000, grace, DISK))
        self.sessions: dict[int, Session] = {}
        self.ends: dict[str, str] = {}
        self.records: list[tuple[Any, ...]] = []
        self.later: list[tuple[int, Stream, Wish]] = []  # who came back just now, and comes again
        self.next, self.serial = 1, 0

    # ---- the clock, and the disk

    def moment(self) -> Optional[int]:
        """When something is due."""
        silent = [self._silent_at(it) for it in self.sessions.values() if it.heard_at is not None and it.state == "holding"]
        return min([it for it in (self.line.due(), *silent, *(it[0] for it in self.later)) if it is not None], default=None)

    def _silent_at(self, it: Session) -> int:
        grace = self.grace_of(it.number)
        return math.inf if grace is None else math.ceil((it.heard_at or 0) + grace / 3)  # type: ignore[return-value]

    def grace_of(self, number: int) -> Optional[int]:
        return None if number in self.kept else self.grace

    def passes(self, now: int) -> None:
        self.now = now
        for it in list(self.sessions.values()):
            if it.heard_at is not None and it.state == "holding" and self._silent_at(it) <= now:
                self._is_gone(it)
        self.follows()
        for row in [it for it in self.later if it[0] <= now]:
            self.later.remove(row)
            self._asks(row[1], row[2])

    def follows(self) -> None:
        self.line.time(self.now)
        while (it := self.line.tell(self.serial)) is not None:
            self.serial = it[0]
            session = self.sessions.get(it[1])
            if session is not None:
                self._is_told(session, it[2])

    # ---- another file

    def is_in_the_way(self, file: File) -> bool:
        """Whether somebody holds or waits for what isn't for him in this bay."""
        classes, asks = file.classes(), [it for it in self.line.asks if it.stage in (model.HOLDS, model.WAITS)]
        wanted = lambda it: it.needs if it.stage == model.HOLDS else model.union(one.needs for one in self.line.line if one.ask == it.number)
        if not file.guests and any(not it.kind for it in asks):
            return True
        holders = [it.kind for it in asks if it.stage == model.HOLDS]
        return any(wanted(it) & ~classes[it.kind][0] for it in asks) or any(holders.count(kind) > places for kind, (_, places) in enumerate(classes))

    def applies(self, file: File) -> None:
        """(How many may overtake, and for how long somebody is kept, stays as it was.)"""
        self.file = replace(file, grace=self.file.grace, overtakes=self.file.overtakes)
        self.line.rules.classes = file.classes()
        self.follows()

    # ---- what clients do

    def wishes(self, asked: list[tuple[Stream, Wish]]) -> None:
        """Some come at once, in this order. What is wrong with a word as such is said first."""
        good = [(stream, wish) for stream, wish in asked if self._reads(stream, wish)]
        for stream, wish in good:
            self._asks(stream, wish)

    def _reads(self, stream: Stream, wish: Wish) -> bool:
        self.heard(stream)
        is_bad = stream.session is not None or stream.waits or wish.timeout is not None and wish.timeout < 0
        if is_bad:
            stream.told.append(("fault", "BadWish"))
        else:
            stream.waits = True
        return not is_bad

    def _asks(self, stream: Stream, wish: Wish) -> None:
        held = next((it for it in self.sessions.values() if it.ticket == wish.ticket), None)
        grace = None if held is None else self.grace_of(held.number)
        wait = min(BACK, math.inf if grace is None else math.ceil(grace / 8))
        if held is not None and held.back_at + wait > self.now:
            self.later.append((held.back_at + wait, stream, wish))
        elif held is not None and held.holds and self._is_anothers(held, wish):
            stream.waits = False
            stream.told.append(("fault", "BadWish"))
        elif held is not None and held.holds:
            if not wish.comes_back and self._fault(wish) is None:
                # (whoever asks again has them in the order in which it asks)
                held.instruments = next(it for it in wish.choices if set(it) == set(held.instruments))
            self._comes_back(stream, held, wish)
        elif (fault := self._fault(wish)) is not None:
            stream.waits = False
            stream.told.append(("fault", fault))
        else:
            if held is not None:
                self._leaves(held, "another connection came for the session", ("fault", "TakenAway"))
            self._is_new(stream, wish)

    def _is_anothers(self, held: Session, wish: Wish) -> bool:
        """Whether it asks with the ticket of a session for what that doesn't hold."""
        return not wish.comes_back and self._fault(wish) is None and all(set(it) != set(held.instruments) for it in wish.choices)

    def _fault(self, wish: Wish) -> Optional[str]:
        uses = dict(self.file.uses).get(wish.station) if wish.station else self.file.guests_use if self.file.guests else None
        if wish.comes_back:
            return {"": "NotHeld", LETS_GO: "LetGo", TAKES: "TakenAway"}[self.ends.get(wish.ticket, "")]
        if uses is None or not all(wish.choices):
            return "BadWish"
        first = next((it for choice in wish.choices for it in choice if it not in uses), None)
        return None if first is None else "MayNotUse" if self.file.may(first) else "NoInstrument"

    def _is_new(self, stream: Stream, wish: Wish) -> None:
        number, kind = self.next, KINDS.index(wish.station)
        self.next += 1
        name = wish.station or self.free_name()
        self.line.ask(number, map(bits, wish.choices), kind, owner_of(wish.ticket), None if wish.timeout is None else self.now + wish.timeout, None, self.now)
        session = Session(number, name, kind, wish.ticket, wish.by, wish.choices, wish.pings, stream)
        session.instruments = tuple(dict.fromkeys(it for choice in wish.choices for it in choice))
        self.sessions[number] = session
        self._record("asked", session)
        self.follows()

    def free_name(self) -> str:
        taken = {it.name for it in self.sessions.values()}
        return next(name for at in range(1, 100) if (name := f"guest-{at}") not in taken)

    def _comes_back(self, stream: Stream, session: Session, wish: Wish) -> None:
        before = session.stream
        self._is_there(session, True)
        if before is not None and before is not stream:
            before.session = None
            before.told.append(("taken", "TakenAway"))
        session.stream, session.back_at, session.pings = stream, self.now, wish.pings
        session.heard_at = self.now if wish.pings else None
        stream.session, stream.waits = session, False
        stream.told.append(self._held(session))

    def _held(self, it: Session) -> tuple[Any, ...]:
        return ("held", it.name, it.number, it.instruments, it.ticket, self.grace_of(it.number))

    def heard(self, stream: Stream, says_so: bool = False) -> bool:
        session = stream.session
        if session is None or session.stream is not stream or not session.holds:
            return False
        self._is_there(session)
        if says_so or session.heard_at is not None:
            session.heard_at = self.now
        return True

    def _is_there(self, session: Session, is_new: bool = False) -> None:
        was_gone = session.state == "gone"
        if was_gone or is_new:
            self.line.back(session.number, owner_of(session.ticket), self.now)
            session.state, session.gone_at = "holding", None
            # (a second connection may come before it is seen that the first one ended: nobody was gone)
            if was_gone:
                self._record("back", session)
            self.follows()

    def ping(self, stream: Stream, at: float) -> None:
        stream.told.append(("pong", at, self.heard(stream, True)))

    def lets_go(self, stream: Stream, failed: Optional[str] = None) -> None:
        self.heard(stream)
        if stream.waits:
            self._gives_up(stream, "its client waits no longer")
            stream.told.append(("gone",))
        elif stream.session is None:
            stream.told.append(("fault", "NotHeld"))
        else:
            session, stream.session = stream.session, None
            self.line.let_go(session.number, self.now)
            self._over(session, LETS_GO if failed is None else "failed", failed or "", LETS_GO)
            stream.leaving = session.number, self.now + DISK
            self.follows()

    def _gives_up(self, stream: Stream, text: str) -> None:
        stream.waits = False
        self.later = [it for it in self.later if it[1] is not stream]
        session = next((it for it in self.sessions.values() if it.stream is stream), None)
        if session is not None:
            self._leaves(session, text)

    def _leaves(self, session: Session, text: str, told: Optional[tuple[str, str]] = None) -> None:
        stream = session.stream
        self.line.leave(session.number, self.now)
        self._over(session, "gave_up", text)
        if told is not None and stream is not None:
            stream.waits = False
            stream.told.append(told)
        self.follows()

    def notes(self, stream: Stream, text: str) -> None:
        self.heard(stream)
        if stream.waits or len(text) > 30 and stream.session is not None:
            stream.told.append(("fault", "BadWish"))
        elif stream.session is None:
            stream.told.append(("fault", "NotHeld"))
        else:
            session = stream.session
            session.note = text
            self._record("note", session, text)
            stream.note = session.number, text, self.now + DISK

    def is_cut(self, stream: Stream, says_so: bool = False) -> None:
        """Its stream is gone; `says_so`: it has ended it."""
        stream.is_open, stream.note, stream.leaving = False, None, None
        if stream.waits:
            self._gives_up(stream, "its client waits no longer")
            if says_so:
                stream.told.append(("gone",))
        session, stream.session = stream.session, None
        if session is not None and session.stream is stream:
            session.stream = None
            session.heard_at = None
            self._is_gone(session)

    def _is_gone(self, session: Session) -> None:
        if session.state == "holding":
            session.state, session.gone_at = "gone", self.now
            if session.number not in self.kept:
                self.line.gone(session.number, self.now)
            self._record("gone", session)
            self.follows()

    def releases(self, name: str) -> Optional[Released]:
        """The session that an operator ends, and what it held. None: there is none."""
        for it in self.sessions.values():
            if it.name == name and self._stands(it).stage == model.HOLDS:
                held = names_of(self._stands(it).needs)
                self.line.take_away(it.number, self.now)
                self.follows()
                return Released(it.number, held)
        return None

    # ---- what comes of it

    def _is_told(self, session: Session, what: str) -> None:
        stream = session.stream
        if what == model.HOLDS:
            self._holds(session)
        elif what in (model.LAPSED, model.NOT_WRITTEN):
            self._over(session, "gave_up" if what == model.LAPSED else "failed", None)
            self._answers(stream, ("fault", "TimeoutError" if what == model.LAPSED else "JournalError"))
        else:
            was_told = session.state != "waiting"
            self._over(session, "taken", None, TAKES)
            if stream is not None and was_told:
                stream.session = None
                stream.told.append(("taken", "TakenAway"))
            elif stream is not None:
                self._answers(stream, ("fault", "TakenAway"))

    def _answers(self, stream: Optional[Stream], told: tuple[Any, ...]) -> None:
        assert stream is not None
        stream.waits = False
        stream.told.append(told)

    def _holds(self, session: Session) -> None:
        needs = self._stands(session).needs
        session.instruments = next(it for it in session.choices if bits(it) == needs)
        session.state = "holding"
        self._record("held", session)
        if session.stream is not None:
            session.stream.session = session
            session.heard_at = self.now if session.pings else None
            self._answers(session.stream, self._held(session))

    def _over(self, session: Session, what: str, text: Optional[str], how: str = "") -> None:
        session.state = "over"
        del self.sessions[session.number]
        if how:
            self.ends[session.ticket] = how
        self._record(what, session, text)
        session.stream = None

    def _record(self, what: str, it: Session, text: Optional[str] = None) -> None:
        self.records.append((what, it.number, it.name, it.instruments, it.by))

    # ---- how it stands

    def _stands(self, session: Session) -> Any:
        return self.line._find(session.number)

    def status(self, is_wrong: bool) -> dict[str, Any]:
        """The instruments with their holders and who waits for them, the stations, and who waits for a place. `is_wrong`: the disk, so that who
        holds, and can't be told so, is one that waits."""
        at = {it.number: self._stands(it) for it in self.sessions.values()}
        holders = [it for it in self.sessions.values() if at[it.number].stage == model.HOLDS]
        waiters = [it for it in self.sessions.values() if at[it.number].stage == model.WAITS]
        has = lambda it, name: at[it.number].needs & bits((name,))
        wants = lambda it, name: any(name in choice for choice in it.choices)
        instruments = {
            name: (next((it.name for it in holders if has(it, name)), None), [it.name for it in waiters if wants(it, name)])
            for name in INSTRUMENTS if self.file.may(name)
        }  # fmt: skip
        free, rows, in_line = self.line._free(), {it.name: self._row(it, at[it.number], is_wrong) for it in holders}, []
        for it in waiters:
            if it.name in rows or it.kind not in free:
                in_line.append((KINDS[it.kind], list(it.instruments), it.by))
            else:
                rows[it.name] = self._row(it, at[it.number], is_wrong)
        return {"instruments": instruments, "stations": rows, "in_line": in_line}

    def _row(self, it: Session, at: Any, is_wrong: bool) -> dict[str, Any]:
        is_waiting = at.stage == model.WAITS
        state = "waiting" if is_waiting else "holding" if it.state == "waiting" and not is_wrong else it.state
        its = it.instruments if is_waiting or it.holds else tuple(next(one for one in it.choices if bits(one) == at.needs))
        keepers = {(name, *self._keeper(it, name)) for name in it.instruments if self._keeper(it, name)} if is_waiting else set()
        row = {"state": state, "instruments": list(its), "by": it.by, "note": it.note, "session": it.number, "since": at.since}
        return {**row, "token": None if it.state == "waiting" else at.token, "gone_since": it.gone_at, "waits_for": keepers}

    def _keeper(self, it: Session, name: str) -> tuple[Any, ...]:
        ask = self.line.keeper(it.number, INSTRUMENTS.index(name))
        other = None if ask is None else self.sessions.get(ask.number)
        return () if ask is None or other is None else (other.name, ask.stage == model.HOLDS)
