"""Which instruments to put into one bay, by what was: of the sessions in the records as few as can be found are to need two bays.

That is a search, and no proof that there is nothing better: instruments are put one after the other where the fewest sessions are cut, in many
orders, and then moved for as long as that helps."""

from __future__ import annotations

import random
import re
from collections import Counter
from typing import Iterable, Mapping, Optional, Sequence

from .sessions import Fault, Record, bays_in, read_records
from .texts import counted, plain
from .words import USAGE, reading, say

MOST, ORDERS, SHOWN = 64, 40, 8
Names = frozenset[str]


def sessions_in(records: Iterable[Record]) -> tuple[Counter[Names], list[Names]]:
    """How often each set of instruments was held in one session, in whichever bays; and what each station used, which is in one bay."""
    held, used = dict[object, Names](), dict[str, Names]()
    for at, it in enumerate(records):
        if it["what"] == "held" and it.get("station") and it.get("instruments"):
            names, key = frozenset(it["instruments"]), it.get("ticket") or at
            held[key] = held.get(key, frozenset()) | names
            if not re.fullmatch(r"guest-\d+", it["station"]):
                used[it["station"]] = used.get(it["station"], frozenset()) | names
    return Counter(held.values()), list(used.values())


def units_of(names: Iterable[str], together: Iterable[Names]) -> list[Names]:
    """What stays together, each name in one of them."""
    units = [frozenset([name]) for name in sorted(names)]
    for its in together:
        units = [it for it in units if not it & its] + [frozenset().union(*(it for it in units if it & its))]
    return units


class Split:
    """`bays` are sets of instruments; `at` says in which one each is."""

    def __init__(self, sessions: Mapping[Names, int], most: int) -> None:
        self._sessions, self._most = sessions, most
        self._with = {name: [it for it in sessions if name in it] for name in frozenset().union(*sessions)}
        self.at, self.sizes = dict[str, int](), Counter[int]()

    def cut(self, its: Iterable[Names]) -> int:
        """How many of these sessions need two bays, as far as their instruments are in one by now."""
        return sum(self._sessions[it] for it in its if len({self.at[name] for name in it if name in self.at}) > 1)

    def puts(self, unit: Names) -> bool:
        """Where it cuts the fewest; whether that isn't where it was."""
        before, its = self.at.get(next(iter(unit))), {it for name in unit for it in self._with[name]}
        if before is not None:
            self.sizes[before] -= len(unit)
        bays = [bay for bay in range(1 + max(self.sizes, default=-1) + (before is None)) if self.sizes[bay] + len(unit) <= self._most]
        cuts = dict[int, int]()
        for bay in bays:
            self.at.update(dict.fromkeys(unit, bay))
            cuts[bay] = self.cut(its)
        best = min(bays, key=lambda bay: (cuts[bay], bay != before, self.sizes[bay] == 0, -self.sizes[bay], bay))
        self.at.update(dict.fromkeys(unit, best))
        self.sizes[best] += len(unit)
        return best != before

    def bays(self) -> list[Names]:
        its = [frozenset(name for name, at in self.at.items() if at == bay) for bay in set(self.at.values())]
        return sorted(its, key=lambda it: (-len(it), sorted(it)))


def split(sessions: Mapping[Names, int], together: Iterable[Names] = (), most: int = MOST) -> tuple[int, list[Names]]:
    """How many sessions need two bays, and the bays, of so many instruments at most. Fault: a station uses more."""
    units = units_of(frozenset().union(*sessions), together)
    if (largest := max(units, key=len)) and len(largest) > most:
        raise Fault(f"{' '.join(sorted(largest))} belong in one bay, because stations use them together: {len(largest)}, and --most is {most}")
    found: Optional[tuple[int, int, list[Names]]] = None
    for order in range(ORDERS):
        one, its = Split(sessions, most), sorted(units, key=len, reverse=True)
        if order:
            random.Random(order).shuffle(its)
        for unit in its:
            one.puts(unit)
        while sum([one.puts(unit) for unit in its]):
            pass
        new = one.cut(sessions), len(bays := one.bays()), bays
        found = new if found is None or new[:2] < found[:2] else found
    assert found is not None
    return found[0], found[2]


def told(folder: str, most: int) -> list[str]:
    """The lines for people."""
    with reading(folder, "folder"):
        paths = [f"{folder}/{name}" for name in bays_in(folder)] or [folder]
        sessions, together = sessions_in(record for path in paths for record in read_records(path)[0])
    if not sessions:
        raise Fault(f"{folder}: nobody held anything yet")
    cut, bays = split(sessions, together, most)
    lines = [f"{counted(len(bays), 'bay')}: {cut} of {counted(sum(sessions.values()), 'session')} need{'s' if cut == 1 else ''} more than one"]
    lines += [f"bay {at}: {plain(' '.join(sorted(it)))}" for at, it in enumerate(bays, 1)]
    crossing = sorted(((count, sorted(it)) for it, count in sessions.items() if not any(it <= bay for bay in bays)), key=lambda it: (-it[0], it[1]))
    lines += [f"{count} of them: {plain(' '.join(names))}" for count, names in crossing[:SHOWN]]
    return lines + ([f"{counted(len(crossing) - SHOWN, 'other set')} of instruments, too"] if len(crossing) > SHOWN else [])


def prints(folder: str, most: int) -> int:
    """The command; its status."""
    if not 1 <= most <= MOST:
        say(f"--most is from 1 to {MOST}, which a bay may have")
        return USAGE
    print("\n".join(told(folder, most)))
    return 0
