"""What became of each session: when it asked, held and let go, and who kept it waiting."""

from __future__ import annotations

import time
from dataclasses import dataclass, field
from typing import Mapping, Optional

# in place of a worker's name
ALONE = "alone"


def told(test: str, worker: str) -> str:
    """Whose session it is, for people."""
    return f"{test} ({'pytest without workers' if worker == ALONE else worker})"


@dataclass
class Held:
    """One session, of one test or of several that hold as one. Times are seconds since the run began; `held` and `let_go` are None if it
    never came to that. `kept` says which of its instruments kept it waiting, each with who had it, the last of several; `end` is `done`,
    `late` (it never held), `gone` (its worker crashed or was interrupted) or `taken` (it was taken away)."""

    test: str
    worker: str
    instruments: tuple[str, ...]
    asked: float
    held: Optional[float] = None
    let_go: Optional[float] = None
    kept: dict[str, str] = field(default_factory=dict)
    end: str = ""
    notes: list[str] = field(default_factory=list)

    @property
    def waited(self) -> float:
        until = self.held if self.held is not None else self.let_go
        return 0.0 if until is None else until - self.asked

    @property
    def took(self) -> float:
        return 0.0 if self.held is None or self.let_go is None else self.let_go - self.held


class Times:
    """How long sessions take, by their tests' names: as in an earlier run, else as those of this run do in the mean."""

    def __init__(self, known: Mapping[str, float] = {}) -> None:
        self.known = dict(known)
        self._took, self._count = 0.0, 0

    def note(self, session: Held) -> None:
        self.known[session.test] = round(session.took, 3)
        self._took, self._count = self._took + session.took, self._count + 1

    def of(self, test: str) -> Optional[float]:
        mean = self._took / self._count if self._count else None
        return self.known.get(test, mean)


class Past:
    """All sessions of a run, in the order of asking."""

    def __init__(self, known: Mapping[str, float] = {}) -> None:
        self._begun = time.monotonic()
        self.sessions: list[Held] = []
        self.times = Times(known)
        # which files couldn't be written at the end, a line for each
        self.unwritten: list[str] = []

    def now(self) -> float:
        return time.monotonic() - self._begun

    def asks(self, test: str, worker: str, instruments: tuple[str, ...]) -> Held:
        session = Held(test, worker, instruments, self.now())
        self.sessions.append(session)
        return session
