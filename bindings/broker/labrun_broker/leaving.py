"""A `hold` that waits no longer, because a signal came, tells the broker so.

A broker that is stopped may read it late, and then the session may have come to hold, for nobody."""

from __future__ import annotations

from typing import Callable

from .texts import may_hold
from .words import say

# seconds, for which the broker is told; and after which that is said
GIVING_UP, UNTOLD = 10.0, 1.5


class GivenUp(Exception):
    """Whoever has held doesn't want to wait until the broker has heard that."""


def leaves(has_left: Callable[[float], bool], address: str, station: str) -> None:
    """Until the broker says that it has left, or another signal comes. `has_left` waits for that word for so many seconds, and gives whether it came."""
    is_told = False
    try:
        if not (is_told := has_left(UNTOLD)):
            say("the broker doesn't answer, and is told for some seconds that this waits no longer, unless another signal comes")
            is_told = has_left(GIVING_UP - UNTOLD)
    finally:
        if not is_told:
            say(f"the broker wasn't told, as far as is known here; {may_hold(address, station)}")
