"""Whoever waits is told if no word of the broker comes, as of one that is stopped or killed, and when one comes again."""

from __future__ import annotations

import contextlib
import threading
from typing import Callable, Iterator, Optional

from .texts import addresses_of, answers_again, no_word
from .wire import FIRST

TICK = 1.0  # seconds
# so many of them without a word, after which the broker is asked whether it is there; and after which it is said that none comes
ASKS, SAYS = 3, 6
A_WHILE = "for a while"


class Silence:
    """It counts while this process runs, and goes by no clock: so one that was stopped itself, or slept with its machine, blames nobody. `first`
    is for how long a broker is tried that has said nothing yet."""

    def __init__(self, address: str, tells: Callable[[str], None], first: str, who: str = "this", more: str = "") -> None:
        self._address, self._tells, self._for, self._who, self._more = address, tells, first, who, more
        self._count = 0
        self._is_missed = self._has_place = self._is_lost = self._is_over = False

    def ticks(self) -> bool:
        """Another TICK. Whether the broker is to be asked if it is there."""
        self._count += 1
        if self._count >= SAYS and not self._is_missed and not self._is_over:
            self._is_missed = True
            self._tells(no_word(self._address, f"{self._who} keeps trying {self._for}{self._more}"))
        return self._count % ASKS == 0

    def hears(self, is_in_line: bool = True) -> None:
        """There is a word; whether of a broker in whose line it waits."""
        self._count, self._for = 0, A_WHILE
        if not is_in_line:
            return
        was_missed, was_lost = self._is_missed and self._has_place, self._is_lost
        self._has_place, self._is_missed, self._is_lost = True, False, False
        if was_missed:
            self._tells(answers_again(self._address, not was_lost))

    def is_cut(self) -> None:
        """The connection has ended on which it waited: if it asks again, that is behind all who wait."""
        self._is_lost = self._has_place

    def is_told(self) -> None:
        """It was said in other words that no broker answers."""
        self._is_missed = True

    def ends(self) -> None:
        """It waits no longer."""
        self._is_over = True

    @contextlib.contextmanager
    def ticking(self, asks: Callable[[], None]) -> Iterator[None]:
        """On a thread of its own."""
        is_over = threading.Event()

        def goes_on() -> None:
            while not is_over.wait(TICK):
                if self.ticks():
                    asks()

        threading.Thread(target=goes_on, daemon=True).start()
        try:
            yield
        finally:
            is_over.set()


def first_while(address: str, timeout: Optional[float]) -> str:
    """For how long a new client tries one that says nothing. (Of a list the one that answers is looked for.)"""
    return f"for {FIRST if timeout is None else min(FIRST, timeout):g} s in all" if len(addresses_of(address)) == 1 else A_WHILE
