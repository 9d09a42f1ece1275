"""labrun-broker top: how it stands, again whenever it has changed. While the broker is away, or says nothing, the last picture stays, with its age,
until another is there: so it may hang on a wall."""

from __future__ import annotations

import argparse
import contextlib
import json
import queue
import select
import sys
import threading
import time
from typing import TYPE_CHECKING, Any, Optional, Union

import labrun

from .errors import Unreachable
from .telling import lines_of
from .texts import plain, span
from .together import only
from .words import lab_of, say

if TYPE_CHECKING:
    from .client import Lab

# seconds between two tries, and between two pictures that are old
AGAIN, TICK = 0.5, 1.0
CLEARS = "\x1b[H\x1b[2J"

News = Union[dict[str, Any], Exception]


def run_top(args: argparse.Namespace) -> int:
    news: queue.SimpleQueue[News] = queue.SimpleQueue()
    shows: Union[Screen, Lines] = Screen() if sys.stdout.isatty() and not args.json else Lines(args.json)
    with contextlib.suppress(BrokenPipeError), lab_of(args) as lab:
        threading.Thread(target=watches, args=(lab, news), daemon=True).start()
        while True:
            it: Optional[News] = None
            with contextlib.suppress(queue.Empty):
                it = news.get(timeout=TICK)
            if isinstance(it, dict):
                # (from now on it is said here)
                lab._on_wait = None
                shows.status(only(it, args.bay))
            elif isinstance(it, Exception) and (shows.has_none or not isinstance(it, Unreachable)):
                raise it
            elif it is not None:
                shows.is_lost(str(it))
            else:
                shows.ticks()
    return 0


def watches(lab: Lab, news: queue.SimpleQueue[News]) -> None:
    """On a thread: what comes, and each time that nothing does any more, why. It is tried again as long as the lab is open."""
    while True:
        try:
            for each in lab.watch():
                news.put(each)
            news.put(Unreachable(f"the broker at {lab.address} doesn't answer any more"))
        except labrun.Closed:
            return
        except Exception as fault:
            news.put(fault)
        time.sleep(AGAIN)


class Lines:
    """One picture behind the other."""

    def __init__(self, is_json: bool) -> None:
        self._is_json = is_json
        self.has_none, self._why = True, ""

    def status(self, status: dict[str, Any]) -> None:
        if self._why:
            say("the broker answers again")
        self.has_none, self._why = False, ""
        print(json.dumps(status) if self._is_json else "\n".join([*lines_of(status), ""]), flush=True)

    def is_lost(self, why: str) -> None:
        if not self._why:
            say(f"{plain(why)}; trying again until Ctrl-C")
        self._why = why

    def ticks(self) -> None:
        """A moment without news. Whoever read them may be gone by now, as `head` is, and nothing is written that would tell."""
        poll = select.poll()
        poll.register(1, 0)
        if any(how & select.POLLERR for _, how in poll.poll(0)):
            raise BrokenPipeError


class Screen:
    """One picture in the place of the other."""

    def __init__(self) -> None:
        self.has_none, self._why, self._text, self._at = True, "", "", 0.0

    def status(self, status: dict[str, Any]) -> None:
        self.has_none, self._why, self._text, self._at = False, "", "\n".join(lines_of(status)), time.monotonic()
        self._shows()

    def is_lost(self, why: str) -> None:
        self._why = why
        self._shows()

    def ticks(self) -> None:
        if self._why:
            self._shows()

    def _shows(self) -> None:
        old = f"{plain(self._why)}; trying again until Ctrl-C\nwhat follows is {span(time.monotonic() - self._at)} old\n\n" if self._why else ""
        print(f"{CLEARS}{old}{self._text}\n", flush=True)
