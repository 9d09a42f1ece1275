"""The bay: a TOML file that says which instruments there are, which stations share them, and how many guests may come.

    bay = "north"
    instruments = ["scope", "supply", "load-1", "load-2"]
    gone = "keep"                       # or "release": what becomes of a session whose client is gone for longer than the grace
    on_release_limit = "30s"            # for how long a command of [on_release] may run
    limit = "8h"                        # for how long a session may hold before whoever waits for what it has gets it; without, for ever
    overtakes = 16                      # so many sessions may go before one that asks; without, as many as there are stations and guests

    [stations]
    board = ["scope", "supply"]
    radio = ["scope"]

    [guests]
    count = 8                           # so many hold at once; more may wait
    may_use = ["scope", "supply"]       # without this line: all
    limit = "30min"                     # of guests; without, the bay's

    [station_limits]
    radio = "3d"                        # of this station; without, the bay's

    [station_gone]                      # `gone` of stations, and `gone` in [guests] of guests; [instrument_gone] of instruments (kept.py)
    radio = "release"

    [tags]                              # `tag:precise` is one of these, `2 of tag:precise` two
    precise = ["scope", "load-1"]

    [labels]                            # what people know it by, in `status` and on the page
    scope = "DSO-X 3034, by the window"

    [guards]                            # where clients find the guard before an instrument, if one is there
    scope = "bench-1:5025"

    [on_release]                        # what is run after a session that had it, and before the next one gets it (making_safe.py)
    supply = "/usr/local/bin/safe-state supply"

    [people]                            # who people are, what each may ask for, and (`operators`) who looks after the bay: people.py
    ana = {token = "sha256:.."}

    [limits]                            # (each as it is without a line)
    clients = 200                       # streams at once, idle ones too
    requests = 2000                     # messages a second in a stream
    name = 64                           # characters of `--by` and of a ticket, which has 43
    note = 500"""

from __future__ import annotations

import ipaddress
import os
import re
import shlex
import tomllib
from dataclasses import dataclass, field
from typing import Any, ClassVar, Optional, Union

from labrun import picks
from labrun.machine import MOST_CLASSES, MOST_INSTRUMENTS as MOST_INSTRUMENTS

from .kept import KEEP, RELEASE, Gone
from .people import People, people_of
from .texts import span_of
from .ways import variable_of, way_of

MOST_STATIONS = MOST_CLASSES - 1
MOST_GUESTS = 1000  # as many as a status can show
MOST_NUMBER = 1000000
LABEL_LENGTH = 200
MOST_SECONDS = 1e9

SETTINGS = ("bay", "instruments", "gone", "limit", "overtakes", "on_release_limit")
TABLES = (
    "stations", "guests", "station_limits", "station_gone", "instrument_gone", "limits", "tags", "labels", "guards", "on_release",
)  # fmt: skip
KEYS = (*SETTINGS, *TABLES, "people", "groups", "operators", "urgent")
# what a command of `hold`, or one of [on_release], has in these names is something else
VARIABLES = (
    "LABRUN_HELD", "LABRUN_STATION", "LABRUN_BROKER", "LABRUN_AROUND", "LABRUN_TOKEN", "LABRUN_LIBRARY", "LABRUN_BROKER_TOKEN_FILE",
    "LABRUN_BROKER_CERTIFICATE_FILE", "LABRUN_INSTRUMENT", "LABRUN_SESSION", "LABRUN_BY", "LABRUN_ENDED",
)  # fmt: skip

Path = Union[str, "os.PathLike[str]"]


@dataclass(frozen=True)
class Limits:
    """What one client may ask of the broker, and how many there may be. `requests` are a second, of one client; no bay has a smaller `name`, because tickets are as long."""

    clients: int = 200
    name: int = 64
    note: int = 500
    requests: int = 2000


@dataclass(frozen=True)
class Bay:
    # as texts call what has this name
    what: ClassVar[str] = "bay"
    name: str
    instruments: tuple[str, ...]
    stations: dict[str, tuple[str, ...]] = field(default_factory=dict)
    guests: int = 0
    guests_use: tuple[str, ...] = ()
    gone: str = "keep"
    limits: Limits = Limits()
    # so many sessions at most may go before one that asks; if nothing is said, as if each of the others went once
    overtakes: Optional[int] = None
    tags: dict[str, tuple[str, ...]] = field(default_factory=dict)
    labels: dict[str, str] = field(default_factory=dict)
    # for how many seconds a session may hold while others wait for what it has: the bay's, and those of whom it isn't for
    limit: Optional[float] = None
    guests_limit: Optional[float] = None
    station_limits: dict[str, float] = field(default_factory=dict)
    # where clients find the guard of an instrument (ways.py)
    guards: dict[str, str] = field(default_factory=dict)
    # what is run after a session that had an instrument (making_safe.py), and for how many seconds it may
    on_release: dict[str, str] = field(default_factory=dict)
    on_release_limit: float = 30.0
    # own words for what becomes of whoever is gone, those of the guests as of a station without a name
    station_gone: dict[str, str] = field(default_factory=dict)
    instrument_gone: dict[str, str] = field(default_factory=dict)
    people: People = People()

    @property
    def its_gone(self) -> Gone:
        return Gone(self.gone, self.station_gone, self.instrument_gone)

    @property
    def guest_names(self) -> tuple[str, ...]:
        return tuple(f"guest-{number}" for number in range(1, self.guests + 1))

    @property
    def jobs(self) -> dict[str, tuple[str, ...]]:
        """The stations and the guests, each with the instruments that it may use."""
        return {**self.stations, **{name: self.guests_use for name in self.guest_names}}


class BayFault(ValueError):
    """The file is no bay; `faults` has a line for each fault."""

    def __init__(self, path: str, faults: list[str]) -> None:
        super().__init__("\n".join(f"{path}: {fault}" for fault in faults))
        self.path, self.faults = path, faults


class BadAddress(ValueError):
    """The broker doesn't listen there."""


def is_here(host: str) -> bool:
    """Whether it is seen by this machine alone."""
    try:
        return host == "localhost" or ipaddress.ip_address(host).is_loopback
    except ValueError:
        return False


def read_bay(path: Path) -> Bay:
    """The bay of a file. BayFault names every fault; OSError says why the file can't be read."""
    return bay_of(text_in(path), os.fspath(path))


def text_in(path: Path) -> str:
    """What a file has. BayFault: it is no text."""
    with open(path, "rb") as file:
        given = file.read()
    try:
        return given.decode("utf-8")
    except UnicodeDecodeError as fault:
        line = given.count(b"\n", 0, fault.start) + 1
        raise BayFault(os.fspath(path), [f"line {line}: this is not UTF-8"]) from None


def table_in(text: str, path: str) -> dict[str, Any]:
    """A TOML file's table."""
    try:
        return tomllib.loads(text)
    except (ValueError, RecursionError) as fault:  # (that a number is too long isn't tomllib's own)
        raise BayFault(path, ["it is nested too deeply" if isinstance(fault, RecursionError) else _with_line_first(str(fault))]) from None


def bay_of(text: str, path: str = "bay") -> Bay:
    reader = Reader(table_in(text, path))
    bay = reader.bay()
    if reader.faults:
        raise BayFault(path, reader.faults)
    return bay


def _why_no_command(line: str) -> Optional[str]:
    try:
        words = shlex.split(line)
    except ValueError as why:
        return f"{line!r} is no command: {str(why).lower()}"
    return None if words and words[0] else "it is empty, and a command is wanted: without one, leave the line out"


def _with_line_first(fault: str) -> str:
    if fault.endswith(" (at end of document)"):
        return f"the last line: {fault.removesuffix(' (at end of document)')}"
    at = re.search(r" \(at (line \d+), column (\d+)\)$", fault)
    return f"{at[1]}, column {at[2]}: {fault[: at.start()]}" if at else fault


class Reader:
    """Reads a table, and notes every fault with its key."""

    def __init__(self, given: dict[str, Any]) -> None:
        self.given, self.faults = given, list[str]()

    def bay(self) -> Bay:
        self.knows("", self.given, KEYS)
        name = self.given.get("bay", "bay")
        if not isinstance(name, str) or not re.fullmatch(r"[\w.-]{1,64}", name):
            self.fault("bay", "a name of up to 64 letters, digits, `-`, `_` or `.` is wanted")
        instruments = self.names("instruments", self.given.get("instruments"))
        if len(instruments) > MOST_INSTRUMENTS:
            self.fault("instruments", f"{len(instruments)} instruments; a bay has {MOST_INSTRUMENTS} at most")
        stations = self.stations(instruments)
        guests, guests_use = self.guests(instruments)
        gone = self.given.get("gone", "keep")
        self.is_gone_word("gone", gone)
        overtakes = self.number("overtakes", self.given["overtakes"], 0) if "overtakes" in self.given else None
        tags, labels = self.tags(instruments), self.labels(instruments)
        its = name, instruments, stations, guests, guests_use, gone, self.limits(), overtakes, tags, labels
        its_limit = self.span("on_release_limit", self.given.get("on_release_limit"))
        runs = self.on_release(instruments), its_limit or Bay.on_release_limit
        kept, whose = self.words_of_gone(stations, instruments), people_of(self, instruments, tags)
        bay = Bay(*its, *self.spans(stations), self.guards(instruments), *runs, *kept, people=whose)
        self.fits(bay)
        return bay

    def fault(self, key: str, text: str) -> None:
        self.faults.append(f"{key}: {text}")

    def knows(self, where: str, table: dict[str, Any], keys: tuple[str, ...]) -> None:
        for key in table:
            if key not in keys:
                self.fault(f"{where}{key}", f"there is no such key; there are {', '.join(keys)}{picks.near(key, keys)}")

    def is_name(self, key: str, name: object) -> bool:
        if picks.is_name(name):
            return True
        self.fault(key, f"{name!r} is no name: {picks.A_NAME}")
        return False

    def names(self, key: str, given: object) -> tuple[str, ...]:
        if not isinstance(given, list) or not given:
            self.fault(key, 'a list of names is wanted, as ["scope", "supply"]')
            return ()
        found: list[str] = []
        for name in given:
            if self.is_name(key, name):
                if name in found:
                    self.fault(key, f"{name} is there twice")
                found.append(name)
        return tuple(dict.fromkeys(found))

    def uses(self, key: str, given: object, instruments: tuple[str, ...]) -> tuple[str, ...]:
        found = self.names(key, given)
        for name in found:
            self.is_there(key, name, instruments)
        return found

    def is_there(self, key: str, name: str, instruments: tuple[str, ...]) -> bool:
        """(Without any instruments another fault is named.)"""
        if not instruments or name in instruments:
            return True
        self.fault(key, f"{name} is none of the bay's instruments{picks.near(name, instruments)}")
        return False

    def table(self, key: str) -> dict[str, Any]:
        given = self.given.get(key, {})
        if isinstance(given, dict):
            return given
        self.fault(key, f"a table is wanted: [{key}]")
        return {}

    def stations(self, instruments: tuple[str, ...]) -> dict[str, tuple[str, ...]]:
        found = {}
        for name, uses in self.table("stations").items():
            if self.is_name(f"stations.{name}", name):
                found[name] = self.uses(f"stations.{name}", uses, instruments)
        return found

    def guests(self, instruments: tuple[str, ...]) -> tuple[int, tuple[str, ...]]:
        table = self.table("guests")
        self.knows("guests.", table, ("count", "may_use", "limit", "gone"))
        count = self.number("guests.count", table.get("count", 0), 0, MOST_GUESTS)
        uses = self.uses("guests.may_use", table["may_use"], instruments) if "may_use" in table else instruments
        return count, uses

    def tags(self, instruments: tuple[str, ...]) -> dict[str, tuple[str, ...]]:
        return {tag: self.uses(f"tags.{tag}", its, instruments) for tag, its in self.table("tags").items() if self.is_name(f"tags.{tag}", tag)}

    def labels(self, instruments: tuple[str, ...]) -> dict[str, str]:
        found = {}
        for name, label in self.table("labels").items():
            if not self.is_there(f"labels.{name}", name, instruments):
                continue
            if not isinstance(label, str) or not label.isprintable() or len(label) > LABEL_LENGTH:
                self.fault(f"labels.{name}", f"a text in one line, of up to {LABEL_LENGTH} characters, is wanted")
            else:
                found[name] = label
        return found

    def spans(self, stations: dict[str, tuple[str, ...]]) -> tuple[Optional[float], Optional[float], dict[str, float]]:
        """The bay's limit, the guests', and the stations'."""
        of = self.table("station_limits")
        for name in of:
            if name not in stations:
                self.fault(f"station_limits.{name}", f"there is no such station{picks.near(name, stations)}")
        its = {name: span for name, given in of.items() if (span := self.span(f"station_limits.{name}", given)) is not None}
        return self.span("limit", self.given.get("limit")), self.span("guests.limit", self.table("guests").get("limit")), its

    def span(self, key: str, given: object) -> Optional[float]:
        if given is None:
            return None
        if isinstance(given, bool) or not isinstance(given, (int, str)) or not 0 < (span := span_of(str(given)) or 0) <= MOST_SECONDS:
            self.fault(key, 'a span is wanted, as "30min", "2h" or "3d", or so many seconds')
            return None
        return span

    def guards(self, instruments: tuple[str, ...]) -> dict[str, str]:
        found = {}
        for name, at in self.table("guards").items():
            key = f"guards.{name}"
            if not self.is_there(key, name, instruments):
                continue
            if variable_of(name) in VARIABLES:
                self.fault(key, f"an instrument that has a guard isn't called {name}: ${variable_of(name)} is something else")
            elif not isinstance(at, str):
                self.fault(key, 'where its guard listens is wanted, as "bench-1:5025"')
            else:
                try:
                    way_of(at)
                    found[name] = at
                except ValueError as why:
                    self.fault(key, str(why))
        return found

    def words_of_gone(self, stations: dict[str, tuple[str, ...]], instruments: tuple[str, ...]) -> tuple[dict[str, str], dict[str, str]]:
        """Of the stations, and the guests; and of the instruments."""
        of_stations, of_instruments = self.table("station_gone"), self.table("instrument_gone")
        for name in of_stations:
            if name not in stations:
                self.fault(f"station_gone.{name}", f"there is no such station{picks.near(name, stations)}")
        for name in of_instruments:
            self.is_there(f"instrument_gone.{name}", name, instruments)
        guests = {"": self.table("guests")["gone"]} if "gone" in self.table("guests") else {}
        keys = [("station_gone.", of_stations), ("guests.gone", guests), ("instrument_gone.", of_instruments)]
        good = [{name: word for name, word in its.items() if self.is_gone_word(f"{key}{name}", word)} for key, its in keys]
        return {**good[0], **good[1]}, good[2]

    def is_gone_word(self, key: str, word: object) -> bool:
        if word in (KEEP, RELEASE):
            return True
        self.fault(key, '"keep" or "release" is wanted')
        return False

    def on_release(self, instruments: tuple[str, ...]) -> dict[str, str]:
        found = {}
        for name, line in self.table("on_release").items():
            key = f"on_release.{name}"
            if not self.is_there(key, name, instruments):
                continue
            if not isinstance(line, str) or not line.isprintable():
                self.fault(key, 'a command in one line is wanted, as "/usr/local/bin/safe-state scope"')
            elif (why := _why_no_command(line)) is not None:
                self.fault(key, why)
            else:
                found[name] = line
        return found

    def number(self, key: str, given: object, least: int, most: int = MOST_NUMBER) -> int:
        # (of one that is too large for the library `fits` says more)
        if isinstance(given, int) and not isinstance(given, bool) and least <= given <= MOST_NUMBER:
            return given
        self.fault(key, f"a number from {least} to {most} is wanted")
        return least

    def limits(self) -> Limits:
        table, known = self.table("limits"), Limits()
        self.knows("limits.", table, tuple(vars(known)))
        return Limits(**{key: self.number(f"limits.{key}", table.get(key, it), it if key == "name" else 1) for key, it in vars(known).items()})

    def fits(self, bay: Bay) -> None:
        """Whether the library can take it."""
        if not bay.stations and not bay.guests:
            return self.fault("stations", "there is neither a station nor a guest, so nobody could ask: write [guests] and count = 8")
        if len(bay.stations) > MOST_STATIONS:
            self.fault("stations", f"{len(bay.stations)} stations; a bay has {MOST_STATIONS} at most")
        if bay.guests > MOST_GUESTS:
            self.fault("guests.count", f"{bay.guests} guests; a bay has {MOST_GUESTS} at most")
        for name in bay.stations if bay.guests else ():
            if re.fullmatch(r"guest-\d+", name):
                self.fault(f"stations.{name}", "this is the name of a guest")
        users = [*bay.stations.items(), *([("the guests", bay.guests_use)] if bay.guests else [])]
        for name in bay.instruments:
            if not any(name in uses for _, uses in users):
                self.fault("instruments", f"nobody may use {name}")
