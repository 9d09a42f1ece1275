"""A report as objects, and the runs on one thread."""

from __future__ import annotations

import ctypes
import re
from dataclasses import dataclass, field
from typing import Any, Mapping, Union

from ._library import NO_ROOM, WAITS, Library, Told, called, library

Text = Union[str, bytes]


def as_bytes(script: Text) -> bytes:
    return script.encode() if isinstance(script, str) else bytes(script)


@dataclass(frozen=True)
class Entry:
    """A line of an instrument's log: `job`'s session `session` (from 1) did its command `place` of `length` on this instrument, and
    the dial then stood at `value`. `verb` is `set`, `add` or `read`; `number` is what was set or added, None for a read."""

    job: str
    session: int
    place: int
    length: int
    verb: str
    number: Union[int, None]
    value: int

    def __str__(self) -> str:
        verb = self.verb if self.number is None else f"{self.verb} {self.number}"
        return f"{self.job} {self.session} {self.place}/{self.length} {verb} = {self.value}"


@dataclass(frozen=True)
class JobReport:
    """A job's line: of `sessions` sessions, `done` are done and `withdrawn` given up; it began `meals` meals."""

    name: str
    done: int
    sessions: int
    withdrawn: int
    meals: int
    retired: bool


_ENTRY = re.compile(r"(\S+) (\d+) (\d+)/(\d+) (?:(set|add) (\d+)|read) = (\d+)")
_JOB = re.compile(r"job (\S+) sessions (\d+) of (\d+)(?: withdrawn (\d+))? meals (\d+) (retired|waiting)")


@dataclass(frozen=True)
class Report:
    """A report. `finished` says whether every job is retired, `logs` has each instrument's log by its name, in the order in which the
    script first names them, `jobs` the jobs in the order of the script, and `text` is the report as it was printed."""

    version: int
    finished: bool
    logs: Mapping[str, tuple[Entry, ...]]
    jobs: tuple[JobReport, ...]
    text: str = field(repr=False)

    @classmethod
    def from_text(cls, text: str) -> Report:
        """Reads a report, as `labrun` prints it. ValueError says which line isn't one of a report."""
        logs: dict[str, list[Entry]] = {}
        jobs: list[JobReport] = []
        log: list[Entry] = []
        lines = text.split("\n")
        if lines[0] not in ("lab 1", "lab 2") or lines[-2:] not in (["finished", ""], ["unfinished", ""]):
            raise ValueError("not a whole report")
        for number, line in enumerate(lines[1:-2], 2):
            entry = _ENTRY.fullmatch(line)
            job = None if entry else _JOB.fullmatch(line)
            words = line.split(" ")
            if entry:
                name, session, place, length, verb, value, shown = entry.groups()
                asked = None if value is None else int(value)
                log.append(Entry(name, int(session), int(place), int(length), verb or "read", asked, int(shown)))
            elif job:
                name, done, sessions, withdrawn, meals, state = job.groups()
                jobs.append(JobReport(name, int(done), int(sessions), int(withdrawn or 0), int(meals), state == "retired"))
            elif words[0] == "instrument" and len(words) == 3:
                log = logs.setdefault(words[1], [])
            else:
                raise ValueError(f"line {number} is none of a report: {line!r}")
        return cls(int(lines[0][4:]), lines[-2] == "finished", {name: tuple(it) for name, it in logs.items()}, tuple(jobs), text)

    @property
    def instruments(self) -> tuple[str, ...]:
        """The instruments' names."""
        return tuple(self.logs)

    def log(self, instrument: str) -> tuple[Entry, ...]:
        """The log of an instrument, in the order in which it took the commands. KeyError if there is none of this name."""
        return self.logs[instrument]

    def job(self, name: str) -> JobReport:
        """The line of a job. KeyError if there is none of this name."""
        return {job.name: job for job in self.jobs}[name]

    def to_rows(self) -> list[dict[str, Any]]:
        """All logs as one table, a dictionary a row, for `pandas.DataFrame(report.to_rows())`. `entry` counts from 1 in each log."""
        entries = ((name, number, entry) for name, log in self.logs.items() for number, entry in enumerate(log, 1))
        return [{"instrument": name, "entry": number, **vars(entry)} for name, number, entry in entries]

    def __str__(self) -> str:
        return self.text


@dataclass(frozen=True)
class Counts:
    """What `check` counts in a script: an edge joins two jobs that both name some instrument."""

    jobs: int
    instruments: int
    edges: int
    sessions: int
    commands: int


def told_text(calls: Library, name: str, *given: Any) -> str:
    """Calls with ever more room, until the text fits."""
    told, room = Told(), 16384
    while True:
        text = ctypes.create_string_buffer(room)
        called(calls, name, *given, text, room, ctypes.byref(told), no=(WAITS, NO_ROOM), told=told)
        if told.written <= room:
            return text.raw[: told.written].decode("ascii")
        room = told.written


def _called(name: str, script: Text, *limit: int) -> str:
    given = as_bytes(script)
    return told_text(library(), name, given, len(given), *limit)


def run(script: Text, limit: int = 10000) -> Report:
    """Runs a script on one thread, at most `limit` rounds, as `labrun rounds LIMIT`."""
    if not 0 <= limit <= 1000000000:
        raise ValueError("limit is 0 to 1000000000")
    return Report.from_text(_called("lab_rounds", script, limit))


def replay(script: Text) -> Report:
    """Takes the steps that follow the script after its line `steps`, as `labrun replay`. Refused if one isn't legal where it comes."""
    return Report.from_text(_called("lab_replay", script))


def check(script: Text) -> Counts:
    """Counts what a script has, as `labrun check`. Refused if it isn't sound."""
    return Counts(*(int(word) for word in _called("lab_check", script).split()[2::2]))


def upgrade(script: Text) -> str:
    """The script in version 2, as `labrun upgrade`."""
    return _called("lab_upgrade", script)
