"""Which bit of the bay's machine each instrument is, and which class each station. The guests are class 0, of so many places as the bay
says; a station is a class of one place.

A name keeps its place for as long as the state is kept. So a bay may get and lose instruments and stations, and the journal means the
same."""

from __future__ import annotations

import hashlib
import json
import time
from dataclasses import dataclass, field, replace
from typing import Any, Iterable, Mapping, Optional, Sequence

from labrun.picks import some

from .bay import MOST_INSTRUMENTS, MOST_STATIONS, Bay, BayFault
from .kept import KEEP, RELEASE, Gone, Told, told_of
from .texts import span


GUESTS = 0


@dataclass(frozen=True)
class Out:
    """Why an instrument is out of order, who says so, and since when, in seconds of Unix; that is written. `at` is the same moment by a clock
    that doesn't jump, as far as a broker that begins can know it."""

    why: str
    by: str
    since: float
    at: float = field(default_factory=time.monotonic, compare=False)

    @property
    def span(self) -> float:
        return time.monotonic() - self.at


@dataclass(frozen=True)
class Former:
    """By whom an instrument was taken out of the bay, and when, in seconds of Unix. Nobody: by another file, with which a broker began. 0: that
    isn't known."""

    by: str = ""
    at: float = 0.0


@dataclass(frozen=True)
class Places:
    """`out` has what is out of order. `grace` is the longest that a client may have been told of a session that holds and isn't kept, in milliseconds;
    None: each is. `gone` has the words by which it may have been told; without any, the grace says it of all. `former` has the instruments that were
    taken out; None: a broker kept it that didn't write them down."""

    instruments: tuple[str, ...] = ()
    stations: tuple[str, ...] = ()
    grace: Optional[int] = 0
    out: dict[str, Out] = field(default_factory=dict)
    gone: tuple[Told, ...] = ()
    former: Optional[dict[str, Former]] = None

    @property
    def words(self) -> tuple[Told, ...]:
        """By which clients may have been told."""
        return (Told(Gone(KEEP)), *self.gone) if self.grace is None else self.gone or (Told(Gone(RELEASE)),)

    def told(self, station: str, instruments: Sequence[str], token: Optional[int]) -> set[bool]:
        """What the client of a session may have been told: that it is kept, or that it isn't, or either. Without a token it may have been told so by any
        words."""
        its = [it for it in self.words if token is None or it.is_of(token)]
        return {it.gone.keeps(station, instruments) for it in its or self.words}

    def with_words(self, gone: Gone, before: Sequence[Told], holders: Mapping[int, bool], is_for_all: bool) -> Places:
        """Whoever comes to hold from now on is told by these words, and with `is_for_all` also those that hold, as they come back. These are their tokens,
        and of each whether any words count that there were (which is so of a part of a session over several bays)."""
        now, its = 1 + max(holders, default=0), [it for it in before if not is_for_all or it.gone != gone]
        its = [it for it in its if any(is_any or it.is_of(token) for token, is_any in holders.items())]
        if not its and gone.is_of_all and (gone.bay == KEEP) == (self.grace is None):
            return replace(self, gone=())
        first = 0 if is_for_all or not its else now
        return replace(self, gone=(*(it.below(now) for it in its), Told(gone, first)))

    def with_bay(self, bay: Bay, by: str = "", before: Sequence[str] = ()) -> Places:
        """The same, and places for what is new in the bay. BayFault: there are none left. `by` changes it, and these are the instruments that it
        had before."""
        instruments = tuple(dict.fromkeys((*self.instruments, *bay.instruments)))
        stations = tuple(dict.fromkeys((*self.stations, *bay.stations)))
        for what, names, most, its in (("instruments", instruments, MOST_INSTRUMENTS, bay.instruments), ("stations", stations, MOST_STATIONS, bay.stations)):
            if len(names) > most:
                out = [it for it in names if it not in its]
                why = f"{len(its)} in the file and {len(out)} no longer in it; a state folder, or etcd, has places for {most} of both in all its life"
                raise BayFault(what, [f"{why}: use the name of one that is no longer in it ({some(out)}), or begin anew"])
        new, known = Former() if self.former is None and not before else Former(by, round(time.time(), 3)), self.former or {}
        former = {name: new if name in before else known.get(name, new) for name in self.instruments if name not in bay.instruments}
        return replace(self, instruments=instruments, stations=stations, former=former)

    def taken_out(self, name: str) -> str:
        """Of an instrument that isn't in the bay any more: when it was taken out, and by whom. Nothing of one that never was in it."""
        if name not in self.instruments:
            return ""
        it = (self.former or {}).get(name, Former())
        ago = f" {span(time.time() - it.at)} ago" if it.at else ""
        return f"it was taken out{ago}" + (f" by {it.by}" if it.by else " by the file with which the broker began" if it.at else "")

    def classes(self, bay: Bay) -> list[tuple[int, int]]:
        """The classes of the machine. Of a station that isn't in the bay any more nobody may use anything."""
        return [(self.bits(bay.guests_use), max(1, bay.guests)), *((self.bits(bay.stations.get(name, ())), 1) for name in self.stations)]

    def bits(self, names: Iterable[str]) -> int:
        return sum(1 << self.instruments.index(name) for name in set(names))

    def names(self, bits: int) -> tuple[str, ...]:
        return tuple(self.instruments[at] for at in bits_of(bits))

    def kind(self, station: str) -> int:
        return 1 + self.stations.index(station) if station else GUESTS

    def station(self, kind: int) -> str:
        """Its name; nothing for a guest."""
        return self.stations[kind - 1] if 0 < kind <= len(self.stations) else ""

    def text(self) -> str:
        out = {"out": {name: {"why": it.why, "by": it.by, "since": it.since} for name, it in self.out.items()}} if self.out else {}
        gone = {"gone": [it.fields() for it in self.gone]} if self.gone else {}
        former = {} if self.former is None else {"former": {name: vars(it) for name, it in self.former.items()}}
        return json.dumps({"instruments": self.instruments, "stations": self.stations, "grace": self.grace, **out, **gone, **former}) + "\n"


def bits_of(bits: int) -> list[int]:
    """Which bits are set, counted from 0."""
    found = []
    while bits:
        found.append((bits & -bits).bit_length() - 1)
        bits &= bits - 1
    return found


def places_of(text: str) -> Places:
    """ValueError: it is none."""
    try:
        given = json.loads(text)
    except RecursionError:
        raise ValueError("it is nested too deeply") from None
    if not isinstance(given, dict) or not all(_are_names(given.get(key)) for key in ("instruments", "stations")):
        raise ValueError("names of instruments and stations are wanted")
    grace = given.get("grace")
    if grace is not None and (not isinstance(grace, int) or grace < 0):
        raise ValueError("a grace is a number of milliseconds, or null")
    words = given.get("gone", [])
    if not isinstance(words, list):
        raise ValueError("what becomes of whoever is gone is a list")
    former = _former_of(given["former"]) if "former" in given else None
    return Places(tuple(given["instruments"]), tuple(given["stations"]), grace, _out_of(given.get("out", {})), tuple(map(told_of, words)), former)


def _out_of(given: Any) -> dict[str, Out]:
    now, steady = time.time(), time.monotonic()
    try:
        its = ((str(name), str(it["why"]), str(it["by"]), float(it["since"])) for name, it in given.items())
        return {name: Out(why, by, since, steady - max(0.0, now - since)) for name, why, by, since in its}
    except (AttributeError, KeyError, TypeError) as fault:
        raise ValueError(f"what is out of order: {fault!r}") from None


def _former_of(given: Any) -> dict[str, Former]:
    try:
        return {str(name): Former(str(it["by"]), float(it["at"])) for name, it in given.items()}
    except (AttributeError, KeyError, TypeError) as fault:
        raise ValueError(f"what was taken out: {fault!r}") from None


def _are_names(given: Any) -> bool:
    return isinstance(given, list) and all(isinstance(it, str) for it in given) and len(set(given)) == len(given)


def mark_of(bay: Bay) -> bytes:
    """By which the machine knows the journal of this bay: by its name, for all else of it may change."""
    return hashlib.sha256(f"bay {bay.name}".encode()).digest()
