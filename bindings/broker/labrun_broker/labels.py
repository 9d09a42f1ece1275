"""The names of guests: guest-1 and so on."""

from __future__ import annotations

import itertools
from typing import TYPE_CHECKING, Iterable

if TYPE_CHECKING:
    from .standing import Session


def number_last(name: str) -> tuple[str, int]:
    """The order of guest-2 and guest-10."""
    word, _, number = name.rpartition("-")
    return (word, int(number)) if number.isdigit() else (name, 0)


def free_label(sessions: Iterable[Session]) -> str:
    """The name of the next guest: that with the least number that nobody has."""
    taken = {it.name for it in sessions}
    return next(name for number in itertools.count(1) if (name := f"guest-{number}") not in taken)
