"""A bay's machine that isn't proved: the model's rules (model.py) behind the calls of `labrun.machine.Machine`. With it the whole broker runs
without a library, as `./preview broker` has it. It is slow where many wait, and keeps each line of its journal in memory."""

from __future__ import annotations

import hashlib
from dataclasses import replace
from typing import Any, Callable, Optional, Sequence

from labrun import machine
from labrun.machine import ANOTHER, MAY_NOT, NEVER, UNSOUND, Refusal, Standing, Terms, Told
from model import DUE, HOLDS, NONE, OVER, Ask, Bay, Refused, Rules

STATUS = {
    "number": machine.NUMBER,
    "stopped": machine.STOPPED,
    "no_class": machine.NO_CLASS,
    "empty": machine.EMPTY,
    "may_not_use": MAY_NOT,
    "line_full": machine.LINE_FULL,
    "over": machine.OVER,
    "owner": machine.OWNER,
    "not_now": machine.NOT_NOW,
}
# in the order of their numbers
WHAT = ["holds", "let_go", "left", "lapsed", "not_written", "limit", "grace", "taken_away", "replaced", "stopped", "waits"]
MOST_BYTES, MOST_CLASSES = 500, 32  # of a note
_NEXT = slice(103, 119)  # of a head


class Machine:
    """As that of `labrun.machine`, call by call."""

    notice = "Simulated: the machine behind this broker isn't the proved one, but a model of its rules."

    def __init__(self, classes: Sequence[tuple[int, int]], terms: Terms, journal: bytes = b"", now: int = 0) -> None:
        rules = Rules(list(classes), terms.overtakes, terms.line, _moment(terms.grace), _moment(terms.disk), terms.keeps, terms.bay)
        self.used, self.base = journal.rfind(b"\n") + 1, machine.base_of(journal)
        if journal:
            _is_sound(journal[: self.used], rules)
        self._bay = Bay.resumed(rules, journal, now) if journal else Bay(rules)
        if journal:
            self._bay.next = max(self._bay.next, int(journal[_NEXT], 16))
        self._allows(rules)

    def _allows(self, rules: Rules) -> None:
        """Those that hold, and those that wait."""
        held = [it for it in self._bay.asks if it.stage == HOLDS]
        for it in self._bay.asks:
            uses, places = rules.classes[it.kind] if it.kind < len(rules.classes) else (0, 0)
            wanted = [it.needs] if it.stage == HOLDS else [one.needs for one in self._bay.line if one.ask == it.number]
            if any(needs & ~uses for needs in wanted):
                raise Refusal(MAY_NOT, it.number)
            if it.stage == HOLDS and sum(one.kind == it.kind and one.number <= it.number for one in held) > places:
                raise Refusal(MAY_NOT, it.number)

    def turn(self, classes: Sequence[tuple[int, int]], now: int) -> bytes:
        bay, rules = self._bay, replace(self._bay.rules, classes=list(classes))
        if len(classes) > MOST_CLASSES:
            raise Refusal(machine.NO_CLASS)
        if rules.keeps and (bay.durable_to < len(bay.text) or any(DUE in (it.hold_line, it.end_line) for it in bay.asks)):
            raise Refusal(machine.NOT_NOW)
        self._allows(rules)
        bay.rules = rules
        if rules.keeps:
            self._turns(bay)
        bay.time(now)
        return bay.text if rules.keeps else b""

    def _turns(self, bay: Bay) -> None:
        self.base += len(bay.text)
        bay.text, bay.sum = b"", bytes(8)
        bay._line(f"bay {bay.rules.head.hex()} {self.base:016x} {bay.next:016x} {bay.granted:016x}")
        for it in bay.asks:
            if it.stage == HOLDS:
                bay.writes_hold(it)
            # (what was durable is, wherever it stood)
            it.hold_line, it.end_line = (NONE if one == NONE else 0 for one in (it.hold_line, it.end_line))
        bay.sent = bay.durable_to = len(bay.text)

    def free(self) -> None:
        pass

    # whoever asks

    def ask(
        self, number: int, owner: tuple[int, int], kind: int, sets: Sequence[int], deadline: int, limit: int, now: int, urgent: bool = False
    ) -> None:
        self._calls(self._bay.ask, number, sets, kind, _of_pair(owner), _moment(deadline), _moment(limit), now, urgent)

    def holds(self, number: int, kind: int, sets: Sequence[int], deadline: int, now: int, done: int) -> Optional[tuple[int, int, int]]:
        self.ask(number, (1, number), kind, sets, deadline, NEVER, now)
        it = self.tell(done)
        return (it.serial, it.needs, it.token) if it and it.number == number and it.what == machine.HOLDS else None

    def let_go(self, number: int, now: int) -> None:
        self._calls(self._bay.let_go, number, now)

    def leave(self, number: int, now: int) -> None:
        self._bay.leave(number, now)

    def take_away(self, number: int, now: int) -> None:
        self._calls(self._bay.take_away, number, now)

    def gone(self, number: int, now: int) -> None:
        self._bay.gone(number, now)

    def back(self, number: int, owner: tuple[int, int], now: int) -> int:
        return int(self._calls(self._bay.back, number, _of_pair(owner), now))

    def note(self, number: int, text: bytes) -> int:
        if len(text) > MOST_BYTES or b"\n" in text or b"\r" in text:
            raise Refusal(MAY_NOT)
        return self.base + int(self._calls(self._bay.note, number, text))

    def _calls(self, call: Callable[..., Any], *given: Any) -> Any:
        try:
            return call(*given)
        except Refused as it:
            raise Refusal(STATUS[it.why]) from None

    # the world outside

    def time(self, now: int) -> int:
        moment = self._bay.time(now)
        return NEVER if moment is None else moment

    def stop(self, now: int) -> None:
        self._bay.stop(now)

    def journal(self) -> tuple[bytes, int]:
        text, position = self._bay.journal()
        return text, self.base + position

    def durable(self, position: int) -> None:
        self._bay.durable(max(0, position - self.base))

    def failed(self) -> None:
        self._bay.failed()

    def tell(self, done: int) -> Optional[Told]:
        it = self._bay.tell(done)
        if it is None:
            return None
        serial, number, what, token = it
        needs = next((one.needs for one in self._bay.asks if one.number == number), 0)
        return Told(serial, number, needs, token, WHAT.index(what))

    # who looks on

    def keeper(self, number: int, instrument: int) -> Optional[Standing]:
        it = self._bay.keeper(number, instrument)
        return None if it is None else _stands(it)

    def waits(self, number: int, place: int) -> Optional[tuple[int, int]]:
        return (self._bay.waits(number)[place : place + 1] or [None])[0]

    def standings(self) -> list[Standing]:
        return [_stands(it) for it in self._bay.asks]

    def next_number(self) -> int:
        return self._bay.next


def _stands(it: Ask) -> Standing:
    needs = it.needs if it.stage == HOLDS else 0
    what = WHAT.index(it.how if it.stage == OVER else it.stage)
    return Standing(it.number, divmod(it.owner, 1 << 64), needs, it.since, it.token, it.kind, what)


def _of_pair(owner: tuple[int, int]) -> int:
    return owner[0] << 64 | owner[1]


def _moment(it: int) -> Optional[int]:
    return None if it == NEVER else it


def _is_sound(text: bytes, rules: Rules) -> None:
    """Whether each line has its sum, and the first one is that of this bay. (The model believes what it reads.)"""
    last = bytes(8)
    for at, line in enumerate(text.split(b"\n")[:-1], 1):
        last = hashlib.sha256(last + line[17:]).digest()[:8]
        if line[:17] != last.hex().encode() + b" ":
            raise Refusal(UNSOUND, at)
        if at == 1 and line[17:85] != b"bay " + rules.head.hex().encode():
            raise Refusal(ANOTHER)


if __name__ == "__main__":
    # labrun-broker, over this machine
    import sys

    machine.Machine = Machine  # type: ignore[misc, assignment]
    from labrun_broker.command import main

    sys.exit(main())
