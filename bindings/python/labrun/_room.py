"""What the sessions of a lab have in common: its names, its stations, and who waits for whom, as the bay says it."""

from __future__ import annotations

import itertools
from dataclasses import dataclass, field
from typing import Any, Iterable, Iterator, Mapping, Optional, Sequence, Union

from ._faults import MayNotUse
from ._keepers import Keeper
from .picks import NoSuch, choices_of, is_plain, named, sets_of
from ._shell import Shell
from .machine import HOLDS

AnyOf = Iterable[Union[str, Iterable[str]]]


@dataclass(eq=False)
class Kind:
    """A station, or the guests: where it stands among the bay's classes, and the bits of what it may use, and of all there is."""

    name: str
    number: int
    may: dict[str, int]
    bits: dict[str, int]
    tags: Mapping[str, tuple[str, ...]]
    # what was asked for before, and was right
    known: dict[tuple[str, ...], tuple[int, ...]] = field(default_factory=dict)
    # of a station: the thread or the task that is within its session
    within: Optional[tuple[object, Any]] = None

    @property
    def called(self) -> str:
        return self.name or "a guest"

    def sets(self, instruments: tuple[str, ...], any_of: AnyOf) -> tuple[int, ...]:
        instruments, choices = named(instruments), choices_of(any_of)
        if bool(choices) == bool(instruments) or not all(choices):
            raise ValueError("say which instruments, or of which sets of them it is to be one (any_of)")
        sets = tuple(bits for words in choices or (instruments,) for bits in self._sets(words))
        if instruments and len(self.known) < 1000:
            self.known[instruments] = sets
        return sets

    def _sets(self, words: tuple[str, ...]) -> tuple[int, ...]:
        """The sets that do for these words."""
        if all(word in self.bits for word in words):
            return (all_of(self._bit(word) for word in words),)
        for word in words:
            if is_plain(word):
                self._bit(word)
        try:
            return tuple(all_of(self._bit(name) for name in names) for names in sets_of(words, tuple(self.may), self.tags))
        except NoSuch as fault:
            raise ValueError(f"{self.called} may use no such instrument: {fault}" if len(self.may) < len(self.bits) else str(fault)) from None

    def _bit(self, name: str) -> int:
        if name not in self.bits:
            raise ValueError(f"{name!r} is none of the lab's instruments: {', '.join(self.bits)}")
        if name not in self.may:
            raise MayNotUse(self.called, name, tuple(self.may))
        return self.may[name]


class Room:
    """Its methods but `names` are called with the shell's mutex held."""

    def __init__(self, instruments: tuple[str, ...], shell: Shell) -> None:
        self.instruments, self.shell = instruments, shell

    def names(self, bits: int) -> tuple[str, ...]:
        """In the order of the lab."""
        return tuple(name for at, name in enumerate(self.instruments) if bits >> at & 1)

    def keepers(self, number: int, sets: Sequence[int]) -> tuple[Keeper, ...]:
        """Who keeps each instrument of these sets from the ask with this number, which may just have lapsed."""
        return tuple(it for at in self._wanted(sets) if (it := self._keeper(number, at)) is not None)

    def place(self, kind: Kind) -> tuple[Keeper, ...]:
        """Whoever has held a place of this class longest: of one whose instruments are free it is the place that is taken."""
        its = [it for it in self.shell.machine.standings() if it.what == HOLDS and it.kind == kind.number]
        called = f"the place of {kind.name}" if kind.name else "a guest's place"
        return tuple(self._holder(called, it.number, it.since) for it in sorted(its, key=lambda it: it.since)[:1])

    def _wanted(self, sets: Iterable[int]) -> Iterator[int]:
        """The instruments of these sets, in the order of the lab."""
        wanted = all_of(sets)
        return (at for at in range(len(self.instruments)) if wanted >> at & 1)

    def _keeper(self, number: int, at: int) -> Optional[Keeper]:
        it = self.shell.machine.keeper(number, at)
        if it is None:
            return None
        if it.what == HOLDS:
            return self._holder(self.instruments[at], it.number, it.since)
        return Keeper(self.instruments[at], self._called(it.number), False, self._behind(it.number))

    def _holder(self, instrument: str, number: int, since: int) -> Keeper:
        return Keeper(instrument, self._called(number), True, None, (self.shell.now() - since) / 1000)

    def _called(self, number: int) -> str:
        session = self.shell.askers.get(number)
        return f"session {number}" if session is None else str(session.called)

    def _behind(self, number: int) -> Optional[Keeper]:
        """Whom one waits for itself. (Two with several sets may keep instruments from each other, so from here on a chain goes to those alone that
        hold, or asked before: it ends.)"""
        sets = itertools.takewhile(bool, (self.shell.machine.waits(number, place) for place in itertools.count()))
        for at in self._wanted(it[0] for it in sets if it):
            it = self.shell.machine.keeper(number, at)
            if it is not None and (it.what == HOLDS or it.number < number):
                return self._keeper(number, at)
        return None


def all_of(sets: Iterable[int]) -> int:
    bits = 0
    for it in sets:
        bits |= it
    return bits
