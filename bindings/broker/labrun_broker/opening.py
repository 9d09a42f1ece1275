"""How a bay begins, or goes on where a broker left it."""

from __future__ import annotations

import math
import re
import time
from dataclasses import replace
from typing import Callable, Optional

import labrun
from labrun.machine import ANOTHER, MAY_NOT, NEVER, UNSOUND, Machine, Refusal, Terms
from labrun.picks import some

from . import shell
from .bay import Bay
from .errors import StillHeld
from .folder import State
from .journals import Left, known_to, sessions_of
from .places import Former, Places, mark_of
from .records import Record
from .texts import counted
from .wishes import MOST_CHOICES, milliseconds


class Opened:
    """The machine, and what it doesn't know of those who held. `grace` is that of the bay: where sessions hold whose clients were told of a
    longer one, it is that, for all; infinite if each is kept. `kept` has the numbers of those that are kept because their clients were told so."""

    def __init__(self, bay: Bay, state: Optional[str], grace: float, syncs: bool, opens: Callable[[str, bool], State]) -> None:
        self.bay, self.complaints, self.kept = bay, list[str](), set[int]()
        self.overtakes = len(bay.jobs) if bay.overtakes is None else bay.overtakes
        self.state = None if state is None else opens(state, syncs)
        try:
            self._reads(None if math.isinf(grace) else milliseconds(grace))
        except BaseException:
            if self.state is not None:
                self.state.close()
            raise

    def _reads(self, grace: Optional[int]) -> None:
        text, before, self.recent = b"", Places(), list[Record]()
        if self.state is not None:
            text, self.recent = self.state.store.text(), self.state.recent()
            # (whoever was killed in the first write left no whole line, in which nobody was told anything)
            text = text[: text.rfind(b"\n") + 1]
            before = self.state.places(bool(text))
        try:
            self.left = sessions_of(text)
        except ValueError:
            self.left = {}  # (the machine says which line isn't sound)
        holds = [it for it in self.left.values() if not it.end]
        grace = self._keeps_longer(grace, before, holds)
        self.grace = math.inf if grace is None else grace / 1000
        holders = {it.token: it.of > 0 for it in holds}
        self.places = replace(before, grace=grace).with_bay(self.bay).with_words(self.bay.its_gone, before.words, holders, True)
        if before.former is None and self.places.former:
            its = taken_out_by(self.recent)
            self.places = replace(self.places, former={name: its.get(name, it) for name, it in self.places.former.items()})
        # (moments go on where the journal's end, wherever the clock on the wall is by now)
        self.first = max([int(time.time() * 1000), *(1 + it.since for it in self.left.values())])
        self.machine = self._machine(text, grace)
        if self.state is not None:
            self.complaints += self.state.lost(known_to(text), self.recent)
            self.state.store.cut(self.machine.used)
            # (before anybody is told of the grace; and a broker begins on a full disk, too)
            if self.places != replace(before, former=before.former or {}):
                self.state.keeps(self.places)

    def _keeps_longer(self, grace: Optional[int], before: Places, holds: list[Left]) -> Optional[int]:
        """The grace with which it goes on. Nobody is released who was told otherwise, nor sooner than he was told."""
        why, was_released = "who holds now may have been told that a session whose client is gone is kept", False
        for it in holds:
            # (a line that isn't sound may name what nobody knows: the machine says so)
            whose = before.station(it.kind), before.names(it.needs & ((1 << len(before.instruments)) - 1))
            told = before.told(*whose, None if it.of else it.token)
            was_released = was_released or False in told
            if True in told and not self.bay.its_gone.keeps(*whose):
                self.kept.add(it.number)
        if self.kept:
            self.complaints.append(f"{why} until somebody releases it. That goes for those sessions until they have ended")
        if grace is None or before.grace is None or not was_released or before.grace <= grace:
            return grace
        goes_on = "That goes for all sessions until those have ended and the broker is started again"
        self.complaints.append(f"{why} for {before.grace / 1000:g} s. {goes_on}")
        return before.grace

    def _machine(self, text: bytes, grace: Optional[int]) -> Machine:
        line, grace = MOST_CHOICES * self.bay.limits.clients, NEVER if grace is None else grace
        terms = Terms(mark_of(self.bay), line, grace, milliseconds(shell.DISK), self.overtakes, self.state is not None)
        try:
            return Machine(self.places.classes(self.bay), terms, text, self.first)
        except Refusal as it:
            path = "" if self.state is None else self.state.store.path
            raise (StillHeld if it.status == MAY_NOT else labrun.JournalError)(path, self._why(it)) from None

    def _why(self, it: Refusal) -> str:
        if it.status == UNSOUND:
            # (without a state there is no line)
            return f"line {it.fault} isn't as the broker wrote it" + ("" if self.state is None else f": {self.state.instead()}")
        if it.status == ANOTHER:
            return "it is of another bay: give this one a folder of its own"
        if it.status == MAY_NOT and (of := self.left.get(it.fault)):
            return f"{self._may_not(of)}: begin with the bay as it was until that is over"
        return f"the bay doesn't open: {it}"

    def _may_not(self, of: Left) -> str:
        """Either its instruments aren't for it, or there are more guests than may hold."""
        station = self.places.station(of.kind)
        allowed = self.bay.stations.get(station, ()) if station else self.bay.guests_use
        if lacks := [name for name in self.places.names(of.needs) if name not in allowed]:
            return f"{station or of.station or 'a guest'} holds {' '.join(lacks)}, which by the bay it may not use"
        guests = [it.station or "a guest" for it in self.left.values() if not it.how and not self.places.station(it.kind)]
        return f"{some(guests)} hold, and by the bay only {counted(self.bay.guests, 'guest')} may"


def taken_out_by(records: list[Record]) -> dict[str, Former]:
    """What was taken out, as the records of changes say it (applying.py): instruments are named first there."""
    found = dict[str, Former]()
    for record in records:
        if record["what"] == "changed" and (it := re.match("by (.+?): (instrument .*)", record["text"], re.S)):
            found |= {name: Former(it[1], float(record["t"])) for name in re.findall(r"(?:^|; )instrument (\S+): taken out", it[2])}
    return found
