"""Who keeps a session waiting."""

from __future__ import annotations

from dataclasses import dataclass, field
from typing import Optional


@dataclass(frozen=True)
class Keeper:
    """Who keeps an instrument from a waiting session of a `Lab`: it needs it, too, and holds it (`holds`, for `seconds` by now), or is in line
    for it and waits itself. Then `behind` is why: the keeper that it waits for, whose own is the next, and the last of them, the `end`,
    holds. `why` is `held` or `in line before you`."""

    instrument: str
    job: str
    holds: bool
    behind: Optional[Keeper] = field(default=None, compare=False)
    seconds: Optional[float] = field(default=None, compare=False)

    @property
    def why(self) -> str:
        return "held" if self.holds else "in line before you"

    @property
    def end(self) -> Keeper:
        return self if self.behind is None else self.behind.end

    @property
    def for_long(self) -> str:
        """As ` for 125 s`, of one that holds."""
        return "" if self.seconds is None else f" for {self.seconds:.{0 if self.seconds >= 10 else 1}f} s"

    def __str__(self) -> str:
        text = f"{self.instrument} {'is' if self.seconds is None else 'has been'} {self._by}"
        one = self.behind
        while one is not None:
            text, one = f"{text}, which waits for {one.instrument}, {one._by}", one.behind
        return text

    @property
    def _by(self) -> str:
        return f"{'held by' if self.holds else 'kept for'} {self.job}{self.for_long}"
