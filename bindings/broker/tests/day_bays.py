"""The bay files of a day: four instruments, two stations, and some guests."""

from __future__ import annotations

import hashlib
from dataclasses import dataclass
from typing import Any, Optional

INSTRUMENTS = ("scope", "supply", "load-1", "load-2")
STATIONS = ("board", "radio")


@dataclass(frozen=True)
class File:
    """A bay file."""

    uses: tuple[tuple[str, tuple[str, ...]], ...]  # of each station
    guests: int
    guests_use: tuple[str, ...]
    grace: Optional[int]  # in milliseconds; None: what is held is kept
    overtakes: Optional[int]

    def text(self) -> str:
        names = lambda its: "[" + ", ".join(f'"{it}"' for it in its) + "]"
        lines = ['bay = "days"', f"instruments = {names(it for it in INSTRUMENTS if self.may(it))}", f'gone = "{"keep" if self.grace is None else "release"}"']
        lines += [] if self.overtakes is None else [f"overtakes = {self.overtakes}"]
        lines += ["[stations]", *(f"{name} = {names(its)}" for name, its in self.uses)]
        lines += ["[guests]", f"count = {self.guests}", *([f"may_use = {names(self.guests_use)}"] if self.guests else [])]
        return "\n".join([*lines, "[limits]", "note = 30", ""])

    def may(self, instrument: str) -> bool:
        return self.guests > 0 and instrument in self.guests_use or any(instrument in its for _, its in self.uses)

    def classes(self) -> list[tuple[int, int]]:
        guests_use = self.guests_use if self.guests else tuple(it for it in INSTRUMENTS if self.may(it))
        return [(bits(guests_use), max(1, self.guests)), *((bits(dict(self.uses).get(name, ())), 1) for name in STATIONS)]

    def passes(self) -> int:
        return len(self.uses) + self.guests if self.overtakes is None else self.overtakes


def bits(names: Any) -> int:
    return sum(1 << INSTRUMENTS.index(it) for it in set(names))


def names_of(needs: int) -> tuple[str, ...]:
    return tuple(it for at, it in enumerate(INSTRUMENTS) if needs >> at & 1)


def owner_of(ticket: str) -> int:
    return int.from_bytes(hashlib.sha256(ticket.encode()).digest()[:16], "big")
