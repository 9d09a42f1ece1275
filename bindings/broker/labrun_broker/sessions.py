"""What was, by the records of a broker: each session with its times, how it ended, and its notes."""

from __future__ import annotations

import asyncio
import json
import os
import re
from dataclasses import dataclass, field
from typing import Any, AsyncIterator, Callable, Iterable, Iterator, Optional, Reversible

from .words import reading

Record = dict[str, Any]

# how a session ends, by the record that ends it
ENDS = {"let_go": "done", "gave_up": "gave up", "taken": "taken away", "failed": "failed", "tried": "tried"}
# what a session over several bays couldn't have at once: it asked on, so this isn't its end
TRIED = ENDS["tried"]
# a session that isn't over, and one whose end no record tells
WAITS, HOLDS, UNKNOWN = "waits", "holds", "end unknown"
# ..or of which a record says that (own.py), for the journal knows no more of it
OVER = {**ENDS, "unknown": UNKNOWN}


@dataclass
class Session:
    station: str
    number: Optional[int]
    by: str
    instruments: tuple[str, ...]
    asked: float
    held: Optional[float] = None
    ended: Optional[float] = None
    how: str = WAITS
    why: str = ""  # what is told of its end
    notes: list[tuple[float, str]] = field(default_factory=list)
    gone: list[tuple[float, Optional[float]]] = field(default_factory=list)  # while its client was away; the last may not be over
    # for how long it waited and held by a clock that doesn't jump, if the records say so
    wait: Optional[float] = None
    work: Optional[float] = None

    def waited(self, until: float) -> float:
        return max(0.0, first(self.wait, first(self.held, self.ended, until) - self.asked))

    def worked(self, until: float, since: float = 0.0) -> float:
        """For how long it held, between the two times."""
        if self.work is not None and since <= first(self.held, 0.0):
            return self.work
        return 0.0 if self.held is None else max(0.0, min(first(self.ended, until), until) - max(self.held, since))


def first(*times: Optional[float]) -> float:
    """The first that isn't None; the last one never is."""
    for it in times:
        if it is not None:
            return it
    raise ValueError("none of the times is there")


Key = tuple[str, Optional[int]]


class Past:
    """Takes records one by one, in their order. `ended` are the sessions that are over; `now` has those that aren't, by their station and number.
    (Older records have no number of one that asks.)"""

    def __init__(self) -> None:
        self.now: dict[Key, Session] = {}
        self.ended: list[Session] = []
        # notes of sessions that aren't known, if somebody keeps them (past.py)
        self.lone: list[Record] = []
        self.instruments: dict[str, None] = {}
        self.stations: dict[str, None] = {}
        self.begun: Optional[float] = None
        self.until = 0.0

    def take(self, record: Record) -> Optional[Session]:
        """The session that the record ends, if it ends one."""
        t, what, station = record["t"], record["what"], record.get("station")
        self.begun = t if self.begun is None else min(self.begun, t)
        self.until = max(self.until, t)
        self.instruments.update(dict.fromkeys(record.get("instruments") or ()))
        if what == "opened":
            self._begin_again(t)
        if not station:
            return None
        self.stations[station] = None
        if what == "asked":
            return self._asks(station, record)
        if what == "held":
            return self._holds(station, record)
        key = self.key_of(record)
        session = self.now.get(key)
        if session is None:
            return None
        if what in OVER:
            if session.held is None:
                session.wait = record.get("after")
            else:
                session.work = record.get("after")
            return self._end(key, t, OVER[what], record.get("text") or "")
        if what == "note":
            session.notes.append((t, record.get("text") or ""))
        elif what in ("gone", "back"):
            self._back(session, t)
            if what == "gone":
                session.gone.append((t, None))
        return None

    def key_of(self, record: Record) -> Key:
        """By which the session of a record is in `now`, if it is there."""
        station, number = record.get("station") or "", record.get("session")
        if (station, number) in self.now or (station, None) in self.now:
            return (station, number) if (station, number) in self.now else (station, None)
        return next((key for key in reversed(self.now) if key[0] == station and number is None), (station, number))

    def sessions(self) -> list[Session]:
        return sorted([*self.ended, *self.now.values()], key=lambda it: it.asked)

    def _asks(self, station: str, record: Record) -> Optional[Session]:
        number = record.get("session")
        # (without a number a station is in one session at a time)
        over = self._ends_others(station, record["t"], lambda it: number is None)
        self.now[station, number] = Session(station, number, record.get("by") or "", tuple(record.get("instruments") or ()), record["t"])
        return over

    def _holds(self, station: str, record: Record) -> Optional[Session]:
        t, number, key = record["t"], record.get("session"), self.key_of(record)
        session, over = self.now.get(key), None
        if session is None or session.held is not None:
            over = self._ends_others(station, t, lambda it: it.held is not None)
            session = Session(station, number, record.get("by") or "", (), t)
            key = station, number
        session.held, session.how, session.number, session.wait = t, HOLDS, number, record.get("after")
        session.instruments = tuple(record.get("instruments") or ()) or session.instruments
        self.now.pop(key, None)
        self.now[station, number] = session
        return over

    def _ends_others(self, station: str, t: float, is_over: Callable[[Session], bool]) -> Optional[Session]:
        over = None
        for key in [key for key, it in self.now.items() if key[0] == station and is_over(it)]:
            over = self._end(key, t, UNKNOWN)
        return over

    def _begin_again(self, t: float) -> None:
        """The broker begins. Nobody waits yet, if anybody waited when it ended; what is held is still held, or nobody knows."""
        for key in [key for key, it in self.now.items() if it.held is None]:
            self._end(key, t, UNKNOWN)

    def _end(self, key: Key, t: float, how: str, why: str = "") -> Session:
        session = self.now.pop(key)
        self._back(session, t)
        session.ended, session.how, session.why = t, how, why
        self.ended.append(session)
        return session

    def _back(self, session: Session, t: float) -> None:
        if session.gone and session.gone[-1][1] is None:
            session.gone[-1] = (session.gone[-1][0], t)


class Fault(ValueError):
    """What a command can't do, in a line for a person."""


def is_record(it: object) -> bool:
    """Whether a line of a file is a record, whoever wrote it."""
    if not isinstance(it, dict) or not isinstance(it.get("what"), str):
        return False
    t, instruments, number = it.get("t"), it.get("instruments"), it.get("session")
    return (
        isinstance(t, (int, float)) and not isinstance(t, bool) and 0 <= t < 1e11
        and (number is None or isinstance(number, int)) and isinstance(it.get("after", 0.0), (int, float))
        and all(it.get(key) is None or isinstance(it[key], str) for key in ("station", "by", "text"))
        and (instruments is None or isinstance(instruments, list) and all(isinstance(one, str) for one in instruments))
    )  # fmt: skip


def files_in(folder: str) -> list[str]:
    """The files of records of a state folder: those that somebody put aside, with numbers, and that of now."""
    names = os.listdir(folder)
    found = sorted((int(it[1]), it[0]) for it in map(re.compile(r"records-(\d{1,9})\.jsonl").fullmatch, names) if it)
    return [os.path.join(folder, name) for name in (*(name for _, name in found), *(["records.jsonl"] if "records.jsonl" in names else []))]


def bays_in(folder: str) -> list[str]:
    """The names of the bays of a lab whose folders are in this one, if it is that of a lab."""
    if files_in(folder):
        return []
    return sorted(name for name in os.listdir(folder) if os.path.isdir(f"{folder}/{name}") and files_in(f"{folder}/{name}"))


def read_records(folder: str) -> tuple[list[Record], list[str]]:
    """All records of a state folder, and a line for each file in which some aren't whole."""
    records: list[Record] = []
    faults = []
    paths = files_in(folder)
    if not paths:
        raise Fault(f"{folder}: there are no records (labrun-broker serve --state {folder} writes records.jsonl)")
    for path in paths:
        with reading(path), open(path, "rb") as file:
            found = [parsed(line) for line in file if line.strip()]
        whole = [it for it in found if it is not None]
        if lost := len(found) - len(whole):
            faults.append(f"{path}: {lost} of {len(found)} lines {'is no whole record' if lost == 1 else 'are no whole records'}, and left out")
        records += whole
    return records, faults


def recent_records(folder: str, most: int = 1 << 23) -> list[Record]:
    """The last records of a state folder: as many as are in so many bytes."""
    found: list[bytes] = []
    for path in reversed(files_in(folder)):
        with open(path, "rb") as file:
            size = os.fstat(file.fileno()).st_size
            file.seek(max(0, size - most))
            lines = file.read(most).split(b"\n")
        most -= size
        found = lines + found
        if most <= 0:
            break
    return [it for it in map(parsed, found) if it is not None]


def each_record(folder: str) -> Iterator[Record]:
    """All of a state folder, one by one, for there may be many."""
    for path in files_in(folder):
        with open(path, "rb") as file:
            yield from (it for it in map(parsed, file) if it is not None)


def held_by(records: Iterable[Record]) -> list[Record]:
    """Of each session that holds by the records, that of its hold."""
    found: dict[Key, Record] = {}
    for it in records:
        key = it.get("station") or "", it.get("session")
        if it["what"] == "held":
            found[key] = it
        elif it["what"] in OVER:
            found.pop(key, None)
        elif it["what"] == "opened" and not it.get("text"):
            # (that broker found nobody who held)
            found.clear()
    return list(found.values())


def parsed(line: bytes) -> Optional[Record]:
    try:
        record = json.loads(line)
    except (ValueError, RecursionError):
        return None
    return record if is_record(record) else None


def spans_waited_for(sessions: list[Session], instrument: str, until: float) -> list[tuple[float, float]]:
    """When nobody held an instrument though a session that had asked for it waited."""
    changes: list[tuple[float, int, int]] = []  # when; by how much the holders change, and those who wait
    for it in sessions:
        if instrument in it.instruments:
            changes += [(it.asked, 0, 1), (first(it.held, it.ended, until), 0, -1)]
            if it.held is not None:
                changes += [(it.held, 1, 0), (first(it.ended, until), -1, 0)]
    changes.sort()
    found: list[tuple[float, float]] = []
    holders = waiting = 0
    for (t, held, waits), (after, *_) in zip(changes, changes[1:]):
        holders, waiting = holders + held, waiting + waits
        if holders or not waiting or after <= t:
            continue
        if found and found[-1][1] == t:
            found[-1] = (found[-1][0], after)
        else:
            found.append((t, after))
    return found


REST = 0.1  # seconds


async def batches(keeping: Any) -> AsyncIterator[list[Record]]:
    """What a broker's keeping has noted until now, and then what comes, all of some tenths of a second at once: a busy bay has thousands a
    second. A batch is empty if something has changed of which there is no record."""
    last: Optional[Record] = None
    changes = keeping.changes()
    while True:
        found = list(new_records(keeping.history, last))
        last = found[-1] if found else last
        yield found
        await anext(changes)
        await asyncio.sleep(REST)


def new_records(history: Reversible[Record], last: Optional[Record]) -> Iterator[Record]:
    """The records behind `last` in a list to whose end they are added; all, if that one isn't there any more."""
    behind: list[Record] = []
    for record in reversed(history):
        if record is last:
            break
        behind.append(record)
    return reversed(behind)
