"""What becomes of the session of a client that is gone: it is kept until somebody releases it, or released after the grace. An instrument, a
station and the guests may have a word of their own; the bay's is for what has none."""

from __future__ import annotations

from dataclasses import dataclass, field
from typing import Any, Iterable, Optional

KEEP, RELEASE = "keep", "release"


@dataclass(frozen=True)
class Gone:
    """The words of a bay. `stations` has that of the guests as of a station without a name."""

    bay: str = KEEP
    stations: dict[str, str] = field(default_factory=dict)
    instruments: dict[str, str] = field(default_factory=dict)

    def keeps(self, station: str, instruments: Iterable[str]) -> bool:
        """Whether a session of this station (nothing: a guest) at these instruments is kept. Of its own words the careful one counts: one that
        says `keep` is enough. An instrument without a word has the station's, and if that has none, the bay's."""
        own = self.stations.get(station)
        return own == KEEP or any(self.instruments.get(it, own or self.bay) == KEEP for it in instruments)

    @property
    def may_release(self) -> bool:
        return RELEASE in self._all()

    @property
    def is_of_all(self) -> bool:
        """Whether it is one word for all."""
        return set(self._all()) == {self.bay}

    def _all(self) -> list[str]:
        return [self.bay, *self.stations.values(), *self.instruments.values()]

    def told(self) -> str:
        """For people: `keep (release: load-1, station board, guests)`."""
        names = [*self.instruments, *(f"station {it}" if it else "guests" for it in self.stations)]
        its = [name for name, word in zip(names, [*self.instruments.values(), *self.stations.values()]) if word != self.bay]
        return f"{self.bay} ({KEEP if self.bay == RELEASE else RELEASE}: {', '.join(its)})" if its else self.bay


@dataclass(frozen=True)
class Told:
    """Words by which clients may have been told: those of the sessions whose token is `first` or larger, and below `last`; of all, where that wasn't
    written."""

    gone: Gone
    first: int = 0
    last: Optional[int] = None

    def is_of(self, token: int) -> bool:
        return self.first <= token and (self.last is None or token < self.last)

    def below(self, token: int) -> Told:
        """Of none that comes to hold later."""
        return Told(self.gone, self.first, token) if self.last is None else self

    def fields(self) -> dict[str, Any]:
        its = {**vars(self.gone), "from": self.first, "until": self.last}
        return {key: it for key, it in its.items() if key in vars(self.gone) or it}


def told_of(given: Any) -> Told:
    """One that `fields` gave. ValueError."""
    gone, first, last = gone_of(given), given.get("from", 0), given.get("until")
    if type(first) is not int or type(last) not in (int, type(None)):
        raise ValueError(f"of which tokens somebody was told: {first!r} and {last!r}")
    return Told(gone, first, last)


def gone_of(given: Any) -> Gone:
    """Those that `vars` gave. ValueError."""
    try:
        tables = [{str(key): str(it) for key, it in given[name].items()} for name in ("stations", "instruments")]
        return Gone(str(given["bay"]), *tables)
    except (AttributeError, KeyError, TypeError) as fault:
        raise ValueError(f"what becomes of whoever is gone: {fault!r}") from None
