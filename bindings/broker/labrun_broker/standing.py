"""How the bay stands, for people: who holds what since when, who waits, and for whom. All of it is read off the machine; what the machine
doesn't know are names, notes, and who is gone."""

from __future__ import annotations

import collections
import functools
import math
import operator
import re
import time
from dataclasses import dataclass, field
from typing import TYPE_CHECKING, Any, Optional, Protocol

from labrun.machine import HOLDS, WAITS
from labrun.picks import some

from .journals import notes_of
from .labels import number_last
from .places import bits_of
from .rights import to_enable
from .texts import counted, once_safe, span
from .together import in_which
from .wishes import Wish

if TYPE_CHECKING:
    import asyncio

    from .crossing import Crossing
    from .keeping import Keeping

GONE, ONCE = "gone for", "once that is"
# the state of a session that is over for its client, while what it had is made safe (making_safe.py)
ENDING = "ending"


class Owner(Protocol):
    """Whoever acts for a session."""

    def taken(self, why: str) -> None:
        """The session was ended for its owner, or is another's now."""

    def warned(self, text: str, seconds: float) -> None:
        """Its limit is over in so many seconds."""


@dataclass(eq=False)
class Session:
    """What a client asked for, until it is over. `state` is waiting, holding, gone (it holds, and its client isn't there), ending or over;
    moments are the bay's. `told` is done once the client may be told that it holds."""

    number: int
    name: str
    kind: int
    key: tuple[int, int]
    told: asyncio.Future[None]
    wish: Wish = Wish()
    sets: tuple[int, ...] = ()
    state: str = "waiting"
    instruments: tuple[str, ...] = ()
    owner: Optional[Owner] = None
    by: Optional[str] = None
    note: Optional[str] = None
    noted: tuple[int, int] = 0, 0  # of the last note: its number by its client, and how far the journal has to be durable for it
    taken_by: str = ""
    # whose it is, where the bay names people
    person: str = ""
    gone_at: Optional[int] = None
    # since when it waits, or holds; and its token, once it holds
    since: int = 0
    token: int = 0
    # when its client was last heard, if it says again and again that it is there; and when it came back
    heard_at: Optional[int] = None
    back_at: float = -math.inf
    timer: Optional[asyncio.TimerHandle] = None
    # for how long it may hold while others wait for what it has, in seconds; and when its client is warned of the end
    limit: Optional[float] = None
    warning: Optional[asyncio.TimerHandle] = None
    # whether one of its instruments had a command as it asked: then the broker ends it, and not the machine
    is_followed: bool = False
    # whether it is kept when its client is gone, as its client was told
    is_kept: bool = False
    # how it ended, which commands still run, since when, and what ends with them
    ended: str = ""
    unsafe: dict[str, int] = field(default_factory=dict)
    safe: Optional[asyncio.Future[None]] = None
    # the bay that it is in
    home: Optional[Keeping] = None
    # if it is a part of a session over several bays: of how many, which one that is, and when its client was told that it holds them all
    of: int = 0
    crossing: Optional[Crossing] = None
    told_at: Optional[int] = None

    @property
    def holds(self) -> bool:
        """And its client was told so."""
        return self.state in ("holding", "gone")

    @property
    def is_at_work(self) -> bool:
        """It holds, and so does all that it is a part of."""
        return self.holds and (self.crossing is None or self.crossing.holds)

    @property
    def limit_since(self) -> int:
        """From when on its limit counts."""
        return self.since if self.told_at is None else self.told_at

    @property
    def limited(self) -> Session:
        """That whose limit its client is warned of."""
        return self

    def chosen(self, needs: int) -> tuple[str, ...]:
        """Of the sets that it asked for, the one that it holds."""
        return next((tuple(dict.fromkeys(it)) for it, bits in zip(self.wish.choices, self.sets) if bits == needs), self.instruments)

    def in_a_new_file(self) -> list[bytes]:
        """What the journal's next file has to say of it, for it holds."""
        return [note for word, text in (*self.about(), ("note", self.note), ("over", self.ended or None)) if text is not None for note in notes_of(word, text)]

    def about(self) -> list[tuple[str, str]]:
        """What the journal's notes say of it once it holds: words and texts."""
        its = [("by", f"{self.name} {self.by or ''}"), ("person", self.person or None), ("limit", self.own_limit)]
        return [(word, text) for word, text in its if text is not None]

    @property
    def own_limit(self) -> Optional[str]:
        """In milliseconds, if the machine doesn't know it."""
        return str(math.ceil(self.limit * 1000)) if self.is_followed and self.limit is not None else None

    def withdraws(self, owner: Owner, fault: BaseException) -> None:
        """It came to hold, its client was never told so, and isn't there."""
        if self.owner is owner and self.home is not None:
            self.home._leaves(self, fault)

    def stops_looking(self) -> None:
        """Whether its client is silent doesn't matter any more."""
        if self.timer is not None:
            self.timer.cancel()
            self.timer = None

    @property
    def wanted(self) -> int:
        """All instruments that it might hold."""
        return functools.reduce(operator.or_, self.sets, 0)


class Standings:
    """All asks at one moment."""

    def __init__(self, keeping: Keeping) -> None:
        self._keeping, self._now, self._at = keeping, keeping.now(), time.time()
        # what is wrong with the disk, mostly nothing
        self._wrong, self._shell = keeping._shell.is_wrong(), keeping._shell
        self.holders, self.waiters = list[tuple[Session, int, int]](), list[tuple[Session, int]]()
        for it in keeping.machine.standings():
            if (session := keeping.by_number.get(it.number)) is None:
                continue
            if it.what == HOLDS:
                self.holders.append((session, it.needs, it.since))
            elif it.what == WAITS:
                self.waiters.append((session, it.since))
        # of each station those that wait
        self._as = collections.defaultdict[int, list[Session]](list)
        for session, _ in self.waiters:
            if session.kind:
                self._as[session.kind].append(session)
        self._places = {session.number: place for place, (session, _) in enumerate(self.waiters, 1)}
        # for each instrument, by its bit: who holds it, and since when
        self._held = {bit: (session, since) for session, needs, since in self.holders for bit in bits_of(needs)}
        self._holding = {session.number: needs for session, needs, _ in self.holders}
        kinds = collections.Counter(session.kind for session, _, _ in self.holders)
        # what is told of who keeps an instrument: the same to all who wait for it
        self._told: dict[tuple[int, int], dict[str, Any]] = {}
        self._full = {kind for kind, count in kinds.items() if count >= (1 if kind else keeping.bay.guests)}

    def when(self, moment: Optional[int]) -> Optional[float]:
        """A moment of the bay as the clock on the wall has it now, so that spans stay right when that jumps."""
        return None if moment is None else round(self._at - (self._now - moment) / 1000, 3)

    def is_full(self, kind: int) -> bool:
        """Whether each place of a class is taken."""
        return kind in self._full

    # whom one waits for

    def keepers(self, session: Session) -> list[dict[str, Any]]:
        """Who keeps each of its instruments from one that waits, or waited until now; the text says it to the end of the chain."""
        if self._holds(session) or self.is_full(session.kind):
            return []
        return [told for bit in bits_of(session.wanted) if (told := self._keeper(session, bit)) is not None]

    def _keeper(self, session: Session, bit: int) -> Optional[dict[str, Any]]:
        it = self._keeping.machine.keeper(session.number, bit)
        other = None if it is None else self._keeping.by_number.get(it.number)
        if it is None or other is None:
            return None
        key = bit, it.number
        if key not in self._told:
            text = self._is_held(bit, other, it.since) if it.what == HOLDS else self._is_kept(bit, other)
            about = {"instrument": self._name(bit), "station": other.name, "session": it.number, "holds": it.what == HOLDS}
            self._told[key] = {**about, "since": self.when(it.since), "text": text}
        return self._told[key]

    def why(self, session: Session) -> str:
        """The same as a text; also if there is no place, or the disk keeps it waiting."""
        if self._holds(session):
            return f"it is this session's turn, and it holds {self._once_written()}"
        if self.is_full(session.kind):
            return self._is_taken(session)
        return ", ".join(it["text"] for it in self.keepers(session)) or "by now nobody holds what it wants"

    def instead(self, name: str) -> str:
        """What a station, or a guest, does that holds nothing: it may wait, and no release ends that."""
        its = [it for it, _ in self.waiters if it.name == name]
        if not its:
            return ""
        one, others = its[0], len(its) - 1
        more = f"; {others} more {'wait' if others > 1 else 'waits'} as {name}" if others else ""
        text = f": it waits for {' '.join(one.instruments)}{f' ({one.by})' if one.by else ''}: {self.why(one)}{more}"
        return f"{text}. To end that, end its client, as by Ctrl-C there: it leaves the line"

    def for_whom(self, session: Session) -> tuple[list[dict[str, Any]], str, tuple[Any, ...]]:
        """Whom a session waits for, as a text, too; and what of that has to change before it is told again."""
        keepers, why = self.keepers(session), self.why(session)
        who = tuple((it["instrument"], it["session"], it["holds"]) for it in keepers)
        # (of guests, so many of which come and go, only whether there is a place)
        place = tuple(it.number for it, _, _ in self.holders if it.kind == session.kind) if session.kind else self.is_full(session.kind)
        text = "; ".join(filter(None, (why, self._before(session))))
        return keepers, text, (who, place, self._holds(session) and why, why.count(GONE), why.count(ONCE))

    def _before(self, session: Session) -> str:
        """Who else waits as the same station, and asked before."""
        its = [it for it in self._as.get(session.kind, ()) if it.number < session.number]
        if not its or self._holds(session):
            return ""
        first = f"session {its[0].number} of {its[0].name}" + (f" ({its[0].by})" if its[0].by else "")
        text = f"{first} waits before this one" if len(its) == 1 else f"{first} and {len(its) - 1} more wait before this one"
        return text if self.is_full(session.kind) else f"{text}: a station is in one session at a time"

    def _name(self, bit: int) -> str:
        return self._keeping.places.instruments[bit]

    def _is_held(self, bit: int, holder: Session, since: int) -> str:
        if holder.state == ENDING:
            return self._is_made_safe(self._name(bit), holder)
        if self._wrong and self._is_untold(holder):
            return f"{self._name(bit)} is {holder.name}'s {self._once_written()}"
        return f"{self._name(bit)} has been held by {holder.name} for {self.span_since(since)}{self._about(holder)}"

    def _is_made_safe(self, name: str, of: Session) -> str:
        after = f"after session {of.number} of {of.name}" + (f" ({of.by})" if of.by else "")
        if name in of.unsafe:
            return f"{name} is being made safe for {self.span_since(of.unsafe[name])} {after}"
        return f"{name} is free once {once_safe(of.unsafe)} {after}"

    def _once_written(self) -> str:
        return f"{ONCE} {self._shell.where}" + (f" ({self._wrong})" if self._wrong else "")

    def _is_kept(self, bit: int, other: Session) -> str:
        """Also why, and until when: and for what that one waits, down to the one that holds it."""
        its = self._line(other)
        first = f"{its['passed']} went before it" if its["passed"] else "it asked first"
        if its["keeps_place"]:
            first = "it is urgent" if its["urgent"] else "an urgent one asked after it"
        text = f"{self._name(bit)} is kept for {self._who(other)} until it holds, since {first}"
        return text + (f" and it waits for {', and '.join(ends)}" if (ends := self._ends(other)) else "")

    def _ends(self, other: Session) -> list[str]:
        """What keeps one waiting, told of each instrument: who holds it; or, if nobody holds any, for whom it is kept."""
        held = [self._is_held(it, *self._held[it]) for it in bits_of(other.wanted) if it in self._held]
        if not held:
            by = [(it, self._keeping.machine.keeper(other.number, it)) for it in bits_of(other.wanted)]
            kept = [(it, self._keeping.by_number.get(who.number)) for it, who in by if who is not None]
            held = [f"{self._name(it)} is kept for {self._who(who)}" for it, who in kept if who is not None]
        return [re.sub(" (is|has been) ", ", ", it, count=1) for it in held]

    def _who(self, waits: Session) -> str:
        # (of a station others may wait at once, who are told this)
        name = f"session {waits.number} of {waits.name}" if len(self._as.get(waits.kind, ())) > 1 else waits.name
        return name + (f" ({waits.by})" if waits.by else "")

    def _is_taken(self, session: Session) -> str:
        of = [other for other, _, _ in self.holders if other.kind == session.kind]
        if session.kind and (of[0].state == ENDING or self._wrong and self._is_untold(of[0])):
            until = self._is_made_safe(of[0].instruments[0], of[0]) if of[0].state == ENDING else f"session {of[0].number} holds {self._once_written()}"
            return f"{session.name} is in one session at a time, and {until}"
        if session.kind:
            return f"{session.name} has been in session {of[0].number} for {self.span_since(of[0].since)}{self._about(of[0])}, and a station is in one at a time"
        # (who has to be seen to stands first)
        of.sort(key=lambda it: it.gone_at is None)
        its = [f"{it.name} by {it.by or 'somebody'}{self._about(it, is_named=True)}" for it in of]
        where = in_which(self._keeping)
        all_of = f"all {len(of)} places for guests{where} are" if len(of) > 1 else f"the only place for a guest{where} is"
        return f"{all_of} taken: {some(its)} (guests.count says how many hold at once)"

    def _about(self, holder: Session, is_named: bool = False) -> str:
        """Who that is, and what somebody has to do if its client is gone."""
        parts = [f"until {once_safe(holder.unsafe)}"] if holder.state == ENDING else [] if is_named or not holder.by else [holder.by]
        if holder.crossing is not None and (waits := holder.crossing.waits_where(holder)):
            parts.append(waits)
        if holder.gone_at is not None:
            does = self._to_do(holder) if holder.is_kept else f"its session is released once that is {self._keeping.its_grace:g} s"
            parts.append(f"{GONE} {self.span_since(holder.gone_at)}: {does}")
        return f" ({', '.join(parts)})" if parts else ""

    def _to_do(self, gone: Session) -> str:
        # (the release lets go of all that it has)
        its = [name for _, it in gone.crossing.its() for name in it.instruments] if gone.crossing else list(gone.instruments)
        people = self._keeping.bay.people
        who = f"; {people.to_ask()}" if people else ""
        return f"see to {some(its)}, and then run labrun-broker release {gone.name} --session {gone.number}{who}"

    def span_since(self, moment: int) -> str:
        return span((self._now - moment) / 1000, 1)

    # the whole

    def status(self, person: str = "") -> dict[str, Any]:
        keeping = self._keeping
        rows, in_line = self._rows()
        waiting = collections.defaultdict[int, list[str]](list)
        for session, _ in self.waiters:
            for bit in bits_of(session.wanted):
                waiting[bit].append(session.name)
        return {
            "bay": keeping.bay.name,
            "at": round(self._at, 3),
            "since": self.when(keeping.opened_at),
            "instruments": [self._instrument(name, waiting, person) for name in keeping.bay.instruments],
            "stations": rows,
            "in_line": in_line,
            "sessions": keeping.sessions,
            "refusals": keeping.refusals,
            "version": 2,
            "disk": self._wrong,
            "disk_since": self.when(self._shell.wrong_since),
            "overtakes": keeping._opened.overtakes,
        }

    def _instrument(self, name: str, waiting: dict[int, list[str]], person: str) -> dict[str, Any]:
        bit = self._keeping.places.instruments.index(name)
        holder, since = self._held.get(bit, (None, None))
        bay, out = self._keeping.bay, self._keeping.places.out.get(name)
        row: dict[str, Any] = {"name": name, "label": bay.labels.get(name, ""), "tags": [tag for tag, its in bay.tags.items() if name in its]}
        row |= {"holder": None if holder is None else holder.name, "since": self.when(since), "waiting": waiting.get(bit, [])}
        row["being_made_safe"] = self.when(holder.unsafe.get(name)) if holder is not None else None
        row["to_enable"] = "" if out is None else to_enable(bay, person, name)
        return {**row, "out": out and out.why, "out_since": out and round(self._at - out.span, 3), "out_by": out and out.by}

    def _rows(self) -> tuple[list[dict[str, Any]], list[dict[str, Any]]]:
        """A row for each station and guest; and those that wait for a place first."""
        of: dict[str, tuple[Session, int]] = {session.name: (session, since) for session, _, since in self.holders}
        in_line = []
        for session, since in self.waiters:
            if session.name in of or self.is_full(session.kind):
                in_line.append(self._row_in_line(session, since))
            else:
                of[session.name] = session, since
        usual = (*self._keeping.bay.stations, *self._keeping.bay.guest_names)
        return [self._row(name, of.get(name)) for name in dict.fromkeys((*usual, *sorted(of, key=number_last)))], in_line

    def _row_in_line(self, session: Session, since: int) -> dict[str, Any]:
        # (of guests it would be the same in each row)
        taken = self._is_taken(session) if session.kind and self.is_full(session.kind) else ""
        text = "; ".join(filter(None, (taken, self._before(session))))
        row = {"station": session.name if session.kind else "", "session": session.number, "instruments": list(session.instruments), "by": session.by}
        return {**row, "since": self.when(since), **self._line(session), "waits_for": self.keepers(session), "text": text}

    def _row(self, name: str, of: Optional[tuple[Session, int]]) -> dict[str, Any]:
        session, since = of or (None, self._keeping.idle_since.get(name, self._keeping.opened_at))
        since = session.since if session is not None and session.state == ENDING else since
        row = {"name": name, "state": "idle", "instruments": [], "since": self.when(since), "by": None, "note": None, "gone_since": None}
        if session is None:
            return {**row, "session": None, "token": None, **self._line(None), "waits_for": []}
        state = session.state
        if self._is_untold(session):
            # (it is at its instruments as good as ever, unless the disk keeps it from them)
            state = "waiting" if self._wrong else "holding"
        row |= {"state": state, "instruments": list(session.chosen(self._holding.get(session.number, 0))), "by": session.by, "note": session.note}
        row |= {"gone_since": self.when(session.gone_at), "session": session.number, "token": session.token or None, **self._line(session)}
        return {**row, "waits_for": self.keepers(session) if state == "waiting" else []}

    def _line(self, session: Optional[Session]) -> dict[str, Any]:
        """Its place among all that wait; how many were let in since it asked that need what it does, at the set where these are most; and whether
        nobody who asks later goes before it, since it or one that asked after it is urgent."""
        place = None if session is None else self._places.get(session.number)
        if session is None or place is None:
            return {"place": None, "passed": None, "urgent": False, "keeps_place": False}
        waits = (self._keeping.machine.waits(session.number, at) for at in range(len(session.sets)))
        passed = max((it[1] for it in waits if it is not None), default=0)
        return {"place": place, "passed": passed, "urgent": session.wish.urgent, "keeps_place": session.number <= self._keeping.last_urgent}

    def _holds(self, session: Session) -> bool:
        return session.number in self._holding

    def _is_untold(self, session: Session) -> bool:
        """It holds, and its client isn't told so before that is on the disk."""
        return session.state == "waiting" and self._holds(session)
