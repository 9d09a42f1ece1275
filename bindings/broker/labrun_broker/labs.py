"""A lab of several bays behind one broker: a TOML file that says where the bays' own files are, and what is of all of them.

    lab = "physics"
    operators = ["ana"]

    [bays]
    north = "north.toml"                # from the folder of this file
    south = "south.toml"

    [people]                            # and [groups]: as in a bay's file, with the instruments of all bays
    ana = {token = "sha256:.."}

    [limits]                            # as in a bay's file

Each bay has its own instruments, stations and guests. A name of an instrument or of a station is that of one thing in the whole lab, so nobody
who asks for it has to know in which bay it is. Who comes in, and how much they may ask, is the same at all bays, so people and limits stand
here and not in the bays' files."""

from __future__ import annotations

import os
import re
from dataclasses import dataclass, field, replace
from typing import Any, Callable, Iterator, Mapping, Sequence, Union

from .bay import Bay, BayFault, Limits, Path, Reader, bay_of, table_in, text_in
from .people import People, people_of

LAB_KEYS = ("lab", "bays", "people", "groups", "operators", "urgent", "limits")
# what a bay of a lab leaves to the lab
OF_THE_LAB = ("people", "groups", "operators", "urgent", "limits")
MOST_BAYS = 64


class LabFault(BayFault):
    """Faults of several files."""

    def __init__(self, path: str, lines: list[str]) -> None:
        super().__init__(path, lines)
        self.args = ("\n".join(lines),)


class NoBayFile(LabFault):
    """One of these files can't be read."""


@dataclass(frozen=True)
class Lab:
    """The bays by their names, in the order of the file, each with the people and the limits of the lab; `paths` are their files."""

    name: str
    bays: dict[str, Bay]
    paths: dict[str, str] = field(default_factory=dict)
    people: People = People()
    limits: Limits = Limits()

    @property
    def whole(self) -> Bay:
        return whole(self.name, self.bays, self.people, self.limits)

    def as_its(self, name: str, bay: Bay) -> Bay:
        """A bay with what is of the lab."""
        return replace(bay, name=name, people=self.people, limits=self.limits)


class Whole(Bay):
    what = "lab"


def whole(name: str, bays: Mapping[str, Bay], people: People, limits: Limits) -> Bay:
    """All that there is in the bays, as if it were one. (No machine is opened with it: it may be larger than one can be.)"""
    each, tags = list(bays.values()), dict[str, tuple[str, ...]]()
    for bay in each:
        for tag, its in bay.tags.items():
            tags[tag] = (*tags.get(tag, ()), *its)
    return Whole(
        name,
        tuple(it for bay in each for it in bay.instruments),
        {station: uses for bay in each for station, uses in bay.stations.items()},
        sum(bay.guests for bay in each),
        tuple(it for bay in each if bay.guests for it in bay.guests_use),
        limits=limits,
        tags=tags,
        labels={it: label for bay in each for it, label in bay.labels.items()},
        guards={it: at for bay in each for it, at in bay.guards.items()},
        people=people,
    )


def twice(bays: Mapping[str, Bay], told: Callable[[str], str] = lambda name: name) -> Iterator[str]:
    """What two bays have, a line for each name. `told` says which bay that is."""
    for what, its in (("an instrument", _instruments), ("a station", _stations)):
        first = dict[str, str]()
        for name, bay in bays.items():
            for one in its(bay):
                if (other := first.setdefault(one, name)) != name:
                    yield f"{one} is {what} of {told(other)} and of {told(name)}: in a lab a name is that of one thing"


def _instruments(bay: Bay) -> Sequence[str]:
    return bay.instruments


def _stations(bay: Bay) -> Sequence[str]:
    return tuple(bay.stations)


def read_any(path: Path) -> Union[Bay, Lab]:
    """What a file has: a bay, or a lab of several. BayFault names every fault; OSError says why the file can't be read."""
    text, at = text_in(path), os.fspath(path)
    return lab_at(text, at) if is_lab(text, at) else bay_of(text, at)


def is_lab(text: str, path: str) -> bool:
    return "bays" in table_in(text, path)


def paths_of(given: object, folder: str) -> dict[str, str]:
    """Where the bays' files are."""
    its = given if isinstance(given, dict) else {}
    return {name: os.path.join(folder, at) for name, at in its.items() if isinstance(at, str)}


def texts_of(path: str) -> tuple[str, dict[str, str]]:
    """The file of a lab, and those of its bays, by their names."""
    text = text_in(path)
    its = table_in(text, path).get("bays", {})
    return text, {name: text_in(at) for name, at in paths_of(its, os.path.dirname(path)).items()}


def lab_at(text: str, path: str) -> Lab:
    """That of a file, with the files of its bays."""
    table, folder = table_in(text, path), os.path.dirname(path)
    texts, faults, unread = dict[str, str](), list[str](), list[str]()
    paths = paths_of(table["bays"], folder)
    for name, at in paths.items():
        try:
            texts[name] = text_in(at)
        except OSError as fault:
            unread.append(f"{path}: bays.{name}: {at}: {fault.strerror}")
        except BayFault as fault:
            faults.append(str(fault))
    try:
        return lab_of_texts(text, texts, path, paths, unread + faults)
    except LabFault as fault:
        raise NoBayFile(path, fault.faults) if unread else fault from None


def lab_of_texts(text: str, texts: Mapping[str, str], path: str = "lab", paths: Mapping[str, str] = {}, faults: Sequence[str] = ()) -> Lab:
    """That of the lab's file and of its bays', by their names. BayFault names every fault; `faults` are some that are known already."""
    found, bays = list(faults), dict[str, Bay]()
    # (in a message they come in any order)
    for name, its in sorted(texts.items(), key=lambda it: in_order(text, path).get(it[0], MOST_BAYS)):
        try:
            bays[name] = bay_of_lab(name, its, paths.get(name, name))
        except BayFault as fault:
            found.append(str(fault))
    reader = _Reading(table_in(text, path))
    lab = reader.lab(bays, dict(paths), is_all=not found)
    found += [f"{path}: {it}" for it in (*reader.faults, *_twice(bays, paths))]
    if found:
        raise LabFault(path, found)
    return lab


def in_order(text: str, path: str) -> dict[str, int]:
    """The names of the bays, each with its place in the lab's file."""
    table = table_in(text, path).get("bays")
    return {name: at for at, name in enumerate(table)} if isinstance(table, dict) else {}


def _twice(bays: Mapping[str, Bay], paths: Mapping[str, str]) -> Iterator[str]:
    return (f"bays: {it}" for it in twice(bays, lambda name: f"{name} ({paths[name]})" if name in paths else name))


def bay_of_lab(name: str, text: str, path: str) -> Bay:
    """One bay, from its file. (The people and the limits aren't there yet.)"""
    table, faults = table_in(text, path), list[str]()
    for key in OF_THE_LAB:
        if key in table:
            faults.append(f"{key}: this is of the whole lab: write it into the lab's file, beside [bays]")
    if isinstance(own := table.get("bay", name), str) and own != name:
        faults.append(f"bay: the lab's file calls this bay {name}, and not {own}")
    try:
        bay = bay_of(text, path)
    except BayFault as fault:
        raise BayFault(path, [*faults, *fault.faults]) from None
    if faults:
        raise BayFault(path, faults)
    return replace(bay, name=name)


class _Reading(Reader):
    """Reads the lab's own file."""

    def lab(self, bays: dict[str, Bay], paths: dict[str, str], is_all: bool) -> Lab:
        """`is_all`: the bays are sound, so that what names an instrument that none has is a fault."""
        self.knows("", self.given, LAB_KEYS)
        name = self.given.get("lab", "lab")
        if not isinstance(name, str) or not re.fullmatch(r"[\w.-]{1,64}", name):
            self.fault("lab", "a name of up to 64 letters, digits, `-`, `_` or `.` is wanted")
        self.names_of_bays(self.table("bays"))
        its = whole("lab", bays, People(), Limits())
        limits, faults = self.limits(), list(self.faults)
        people = people_of(self, its.instruments, its.tags)
        if not is_all:
            self.faults = faults
        lab = Lab(str(name), {}, paths, people, limits)
        return replace(lab, bays={name: lab.as_its(name, bay) for name, bay in bays.items()})

    def names_of_bays(self, table: dict[str, Any]) -> None:
        if not table and isinstance(self.given.get("bays"), dict):
            self.fault("bays", 'where the bays\' files are is wanted, as north = "north.toml"')
        if len(table) > MOST_BAYS:
            self.fault("bays", f"{len(table)} bays; a lab has {MOST_BAYS} at most")
        for name, at in table.items():
            if self.is_name(f"bays.{name}", name) and not isinstance(at, str):
                self.fault(f"bays.{name}", 'the file of this bay is wanted, as "north.toml"')
