"""The bay as sets and lists: a second, independent form of the machine, written from its laws, to test the real one against. It is slow, and
meant to be read.

An *ask* wants one of several sets of instruments and a place of a class. It waits in the one line, then holds, then it is over. The laws:

1. One owner: the sets of those that hold have nothing in common, and each is one that its ask asked for.
2. Told is kept: HOLDS and LET_GO are told once their line in the journal is durable; an ask is told HOLDS once at most, and then one end at
   most, and then nothing. From each beginning of the journal that has what was durable, whoever was told and isn't over holds.
3. In time: after a call at `now` nobody waits whose deadline is over; and whoever holds, and whose deadline and time for the disk are over,
   has a durable line, or needs none.
4. Nobody waits for nothing: each that waits has no place, or for each of its sets an instrument of it is in use, or kept from it. And for
   nobody: it has no place, or somebody else holds an instrument of one of its sets, or has it kept. An ask keeps nothing from itself; but it
   doesn't go before somebody else that asked before and wants no more.
5. In order: while a place is free for it, an ask is passed at a set by `most` that came later at the most; of those that want the same, who
   asked first is served first. From an urgent ask on, nobody that asks later goes before it, nor before anybody that stands in line with it.
6. Tokens rise: whoever is let in gets a number larger than everybody that was let in before; and after a crash a larger one than everybody whose
   hold is in the journal.
"""

from __future__ import annotations

import hashlib
from dataclasses import dataclass
from typing import Iterable, Optional

LET_GO, LEFT, LAPSED, NOT_WRITTEN, LIMIT, GRACE, TAKEN_AWAY, REPLACED, STOPPED = (
    "let_go left lapsed not_written limit grace taken_away replaced stopped".split()
)
WAITS, HOLDS, OVER = "waits holds over".split()
NONE, DUE = "none", "due"  # a line of the journal: none is owed; it is owed; or the place behind it


class Refused(Exception):
    """A call changed nothing. `why` is one word."""

    def __init__(self, why: str) -> None:
        super().__init__(why)
        self.why = why


@dataclass(eq=False)
class Ask:
    number: int
    kind: int  # the class of its place
    owner: int
    deadline: Optional[int]
    limit: Optional[int]
    asked: int
    since: int  # when it asked, then when it came to hold, then when it was over
    needs: int = 0
    gone: Optional[int] = None
    stage: str = WAITS
    how: str = ""
    heard: str = ""  # "", "holds", "end"
    hold_line: object = NONE
    end_line: object = NONE
    token: int = 0  # from when it was let in on
    back_of: Optional[int] = None  # a line `back` is owed, or was given, for the number that it had


@dataclass(eq=False)
class Wish:
    ask: int
    needs: int
    kind: int
    deadline: Optional[int]
    passed: int = 0
    overtaken: int = 0  # by how many that came later
    is_closed: bool = False  # an urgent one stands in line with it


@dataclass
class Rules:
    classes: list[tuple[int, int]]  # which instruments may be used, and how many places there are
    most: int = 64
    limit: int = 1000
    grace: Optional[int] = None
    disk: Optional[int] = None
    keeps: bool = True
    head: bytes = b"\0" * 32


def at_most(moment: Optional[int], now: int) -> bool:
    return moment is not None and moment <= now


class Bay:
    def __init__(self, rules: Rules) -> None:
        self.rules = rules
        self.asks: list[Ask] = []  # in the order of asking; who is over stays until it was told so and its lines were given
        self.line: list[Wish] = []
        self.next = 0  # every number below was given
        self.granted = 0  # the largest token so far
        self.now = 0
        self.is_stopped = False
        self.durable_to = 0
        self.telling: Optional[tuple[int, int, str, int]] = None
        self.serial = 0
        # the journal: all of its text so far, and how much of it was handed out
        self.text = b""
        self.sum = bytes(8)
        self.sent = 0
        self._line(f"bay {rules.head.hex()} {0:016x} {0:016x} {0:016x}")

    # ---- owners

    def ask(
        self, number: int, sets: Iterable[int], kind: int, owner: int, deadline: Optional[int], limit: Optional[int], now: int, urgent: bool = False
    ) -> None:
        sets = list(sets)
        if self.is_stopped:
            raise Refused("stopped")
        if number < self.next or number == 2**64 - 1:
            raise Refused("number")
        if kind >= len(self.rules.classes):
            raise Refused("no_class")
        if not sets or 0 in sets:
            raise Refused("empty")
        if any(it & ~self.rules.classes[kind][0] for it in sets):
            raise Refused("may_not_use")
        if owner and any(it.owner == owner for it in self.asks if it.stage != OVER):
            raise Refused("owner")
        if len(self.line) + len(sets) > self.rules.limit:
            raise Refused("line_full")
        self.asks.append(Ask(number, kind, owner, deadline, limit, max(now, self.now), max(now, self.now)))
        self.line += [Wish(number, it, kind, deadline) for it in sets]
        for it in self.line if urgent else []:
            it.is_closed, it.passed = True, self.rules.most
        self.next = number + 1
        self._follow(now)

    def let_go(self, number: int, now: int) -> None:
        self._ends(self._held(number), LET_GO, now)
        self._follow(now)

    def take_away(self, number: int, now: int) -> None:
        self._ends(self._held(number), TAKEN_AWAY, now)
        self._follow(now)

    def leave(self, number: int, now: int) -> None:
        it = self._find(number)
        if it is not None and it.stage != OVER:
            self._ends(it, LEFT, now)
        self._follow(now)

    def gone(self, number: int, now: int) -> None:
        it = self._find(number)
        if it is not None:
            it.gone = max(now, self.now)
        self._follow(now)

    def back(self, number: int, owner: int, now: int) -> int:
        """What it holds."""
        it = self._find(number)
        if it is None or it.stage == OVER or it.owner != owner or not owner:
            raise Refused("over")
        it.gone, needs = None, it.needs
        self._follow(now)
        return needs

    # ---- who looks on

    def keeper(self, number: int, instrument: int) -> Optional[Ask]:
        """Who keeps the instrument from the ask with this number, whether it is in the bay or not."""
        has = lambda it: bool(it.needs >> instrument & 1)
        holder = next((it for it in self.asks if it.stage == HOLDS and has(it)), None)
        if holder is not None:
            return holder
        its = [it for it in self.line if it.ask == number and has(it)]
        if all(self._is_kept(it) for it in its):
            others = [it for it in self.line if it.ask < number]
        else:
            others = [it for it in self.line if it.ask != number]
        return next((self._find(it.ask) for it in others if self._is_kept(it) and has(it)), None)

    def waits(self, number: int) -> list[tuple[int, int]]:
        """The sets that the ask waits for, and how often it was passed at each."""
        return [(it.needs, it.passed) for it in self.line if it.ask == number]

    # ---- the world outside

    def time(self, now: int) -> Optional[int]:
        """The next moment at which something is due."""
        self._follow(now)
        return self.due()

    def due(self) -> Optional[int]:
        return min([it for one in self.asks for it in self._moments(one)], default=None)

    def stop(self, now: int) -> None:
        self.is_stopped = True
        for it in [it for it in self.asks if it.stage == WAITS]:
            self._ends(it, STOPPED, now)
        self._follow(now)

    def note(self, number: int, text: bytes) -> int:
        it = self._find(number)
        if it is None or it.stage != HOLDS or it.heard != "holds":
            raise Refused("not_now")
        self._line(f"note {number:016x} ".encode() + text)
        return len(self.text)

    def journal(self) -> tuple[bytes, int]:
        """What is to be written and wasn't handed out yet, and the place behind it. Who is over comes first: so each beginning is sound."""
        for it in [it for it in self.asks if it.end_line == DUE]:
            self._line(f"end {it.number:016x} {it.how} {it.since:016x}")
            it.end_line = len(self.text)
        for it in [it for it in self.asks if it.hold_line == DUE]:
            self.writes_hold(it)
            it.hold_line = len(self.text)
        text, self.sent = self.text[self.sent :], len(self.text)
        return text, len(self.text)

    def writes_hold(self, it: Ask) -> None:
        limit = "-" * 16 if it.limit is None else f"{it.limit:016x}"
        its = f"{it.owner:032x} {it.since:016x} {limit} {it.asked:016x} {it.token:016x}"
        self._line(f"hold {it.number:016x} {it.kind:08x} {it.needs:016x} {its}")

    def durable(self, position: int) -> None:
        self.durable_to = max(self.durable_to, min(position, self.sent))

    def failed(self) -> None:
        """What isn't durable is handed out once more: nothing is undone."""
        self.sent = self.durable_to

    def tell(self, done: int = 0) -> Optional[tuple[int, int, str, int]]:
        """What is told next, with a serial number and the ask's token: the same again, until that number is given back."""
        if self.telling is not None and self.telling[0] != done:
            return self.telling
        self.telling = None
        over = [it for it in self.asks if it.stage == OVER and it.heard != "end" and it.how != LEFT]
        over = [it for it in over if it.how != LET_GO or self._is_durable(it.end_line)]
        held = [it for it in self.asks if it.stage == HOLDS and it.heard == "" and self._is_durable(it.hold_line)]
        for it in (over + held)[:1]:
            it.heard = "end" if it.stage == OVER else "holds"
            self.serial += 1
            self.telling = (self.serial, it.number, it.how if it.stage == OVER else HOLDS, it.token)
        if self.telling is None:
            self._purge()
        return self.telling

    # ---- the one rule: all are let in that may be; what is over its time is taken away; and those lapse whose time is over

    def _follow(self, now: int) -> None:
        self.now = max(self.now, now)
        while self._lets_in() or self._takes() or self._lapses():
            pass

    def _free(self) -> set[int]:
        held = [it.kind for it in self.asks if it.stage == HOLDS]
        return {kind for kind, (_, places) in enumerate(self.rules.classes) if held.count(kind) < places}

    def _is_kept(self, it: Wish) -> bool:
        """Whether its instruments are kept for it."""
        return it.kind in self._free() and it.passed >= self.rules.most

    def _kept_from(self, it: Wish) -> int:
        """What is kept from it: by all whose instruments are kept, but those behind it if its own are, too. Its own ask keeps nothing from it,
        unless somebody else before it wants no more, and has its instruments kept if it has."""
        its = self._is_kept(it)
        keepers = [one for one in (self.line[: self.line.index(it)] if its else self.line) if self._is_kept(one)]
        before = [one for one in self.line if one.ask < it.ask and one.kind == it.kind and not one.needs & ~it.needs]
        if not any(self._is_kept(one) or not its for one in before):
            keepers = [one for one in keepers if one.ask != it.ask]
        return union(one.needs for one in keepers)

    def _in_use(self) -> int:
        return union(it.needs for it in self.asks if it.stage == HOLDS)

    def _lets_in(self) -> bool:
        free, used = self._free(), self._in_use()
        ready = [it for it in self.line if it.kind in free]
        kept = [it for it in ready if it.passed >= self.rules.most]
        others = [it for it in ready if it.passed < self.rules.most]
        first = next((it for it in kept + others if not it.needs & (used | self._kept_from(it))), None)
        if first is None:
            return False
        alike = [it for it in self.line if (it.needs, it.kind) == (first.needs, first.kind)]
        assert alike[0].ask == first.ask, "first come, first served"
        for it in ready:
            it.overtaken += bool(it.needs & first.needs) and first.ask > it.ask
            assert it.overtaken <= self.rules.most, "overtaken"
            assert not (it.is_closed and it.needs & first.needs and first.ask > it.ask), "nobody goes before whom an urgent one stands in line with"
            if it.needs & first.needs and it.passed < self.rules.most:
                it.passed += 1
        self.line = [it for it in self.line if it.ask != first.ask]
        ask = self._find(first.ask)
        assert self.granted < self.next, "there is a token for each number"
        self.granted += 1
        ask.stage, ask.needs, ask.since, ask.token = HOLDS, first.needs, self.now, self.granted
        ask.hold_line = DUE if self.rules.keeps else NONE
        return True

    def _is_wanted(self, it: Ask) -> bool:
        """Whether somebody waits for what it has: an instrument, or its place, if none of its class is free."""
        full = {one.kind for one in self.line} - self._free()
        return bool(it.needs & union(one.needs for one in self.line)) or it.kind in full

    def _takes(self) -> bool:
        for it in self.asks:
            if it.stage == HOLDS and it.gone is not None and self.rules.grace is not None and it.gone + self.rules.grace <= self.now:
                self._ends(it, GRACE, self.now)
                return True
        for it in self.asks:
            over = it.stage == HOLDS and it.limit is not None and it.since + it.limit <= self.now
            if over and self._is_wanted(it):
                self._ends(it, LIMIT, self.now)
                return True
        return False

    def _lapses(self) -> bool:
        for it in self.asks:
            if it.stage == WAITS and at_most(it.deadline, self.now):
                self._ends(it, LAPSED, self.now)
                return True
            if it.stage == HOLDS and at_most(self._to_be_written(it), self.now):
                self._ends(it, NOT_WRITTEN, self.now)
                return True
        return False

    def _to_be_written(self, it: Ask) -> Optional[int]:
        """Until when the line of one that holds is to be durable."""
        if self._is_durable(it.hold_line) or it.deadline is None or self.rules.disk is None:
            return None
        return max(it.deadline, it.since + self.rules.disk)

    def _moments(self, it: Ask) -> list[int]:
        """The moments at which something is due of it."""
        found = [it.deadline] if it.stage == WAITS else []
        if it.stage == HOLDS:
            found.append(self._to_be_written(it))
        if it.stage == HOLDS and it.gone is not None and self.rules.grace is not None:
            found.append(it.gone + self.rules.grace)
        if it.stage == HOLDS and it.limit is not None and self._is_wanted(it):
            found.append(it.since + it.limit)
        return [one for one in found if one is not None and one > self.now]

    def _ends(self, it: Ask, how: str, now: int) -> None:
        if it.stage == WAITS:
            self.line = [one for one in self.line if one.ask != it.number]
        it.stage, it.how, it.since = OVER, how, max(now, self.now)
        if it.hold_line == DUE:
            it.hold_line = NONE
        elif it.hold_line != NONE:
            it.end_line = DUE

    def _purge(self) -> None:
        """Who is over, and knows it, or is told nothing more, and owes no line, is forgotten."""
        knows = lambda it: it.heard == "end" or it.how == LEFT or it.gone is not None
        self.asks = [it for it in self.asks if not (it.stage == OVER and knows(it) and it.end_line != DUE)]

    def _find(self, number: int) -> Optional[Ask]:
        return next((it for it in self.asks if it.number == number), None)

    def _held(self, number: int) -> Ask:
        it = self._find(number)
        if it is None or it.stage == OVER:
            raise Refused("over")
        if it.stage != HOLDS:
            raise Refused("not_now")
        return it

    # ---- the journal

    def _is_durable(self, line: object) -> bool:
        return line == NONE or line != DUE and line <= self.durable_to

    def _line(self, body: str | bytes) -> None:
        body = body.encode() if isinstance(body, str) else body
        self.sum = hashlib.sha256(self.sum + body).digest()[:8]
        self.text += self.sum.hex().encode() + b" " + body + b"\n"

    @classmethod
    def resumed(cls, rules: Rules, file: bytes, now: int) -> Bay:
        """The bay that comes back from what is left of its file: the clients of those that hold are gone. What stands behind the last line feed
        is torn."""
        it = cls(rules)
        it.text = file[: file.rfind(b"\n") + 1]
        it.sent = it.durable_to = len(it.text)
        held: dict[int, Ask] = {}
        for line in it.text.splitlines():
            word, *more = line[17:].split(b" ")
            it.sum = bytes.fromhex(line[:16].decode())
            if word == b"hold":
                number, kind, needs, owner, since = (int(one, 16) for one in more[:5])
                limit = None if more[5] == b"-" * 16 else int(more[5], 16)
                asked, token = int(more[6], 16), int(more[7], 16)
                held[number] = Ask(number, kind, owner, None, limit, asked, since, needs, now, HOLDS, "", "holds", it.durable_to, token=token)
                it.granted = max(it.granted, token)
            elif word == b"bay":
                it.next, it.granted = max(it.next, int(more[2], 16)), max(it.granted, int(more[3], 16))
            elif word == b"end":
                held.pop(int(more[0], 16), None)
            it.next = max([it.next, *(int(one, 16) + 1 for one in more[:1] if word != b"bay")])
        # (there are no more tokens than numbers)
        it.next = max(it.next, it.granted)
        it.asks, it.now = [held[number] for number in sorted(held)], now
        it._follow(now)
        return it

    # ---- what holds after each call

    def check(self) -> None:
        held = [it for it in self.asks if it.stage == HOLDS]
        tokens = [it.token for it in self.asks if it.token]
        assert len(set(tokens)) == len(tokens) and max(tokens, default=0) <= self.granted, "tokens differ"
        assert all(it.token > 0 for it in held), "whoever holds has a token"
        assert sum(bin(it.needs).count("1") for it in held) == bin(self._in_use()).count("1"), "one owner"
        assert all(it.needs & ~self.rules.classes[it.kind][0] == 0 for it in held), "may use"
        assert all([one.kind for one in held].count(kind) <= places for kind, (_, places) in enumerate(self.rules.classes)), "places"
        assert {it.ask for it in self.line} == {it.number for it in self.asks if it.stage == WAITS}, "who waits is in line"
        for it in self.asks:
            assert not (it.stage == WAITS and at_most(it.deadline, self.now)), "in time"
            assert not (it.stage == HOLDS and at_most(self._to_be_written(it), self.now)), "written in time"
        free, used = self._free(), self._in_use()
        for it in self.line:
            assert it.kind not in free or it.needs & (used | self._kept_from(it)), "nobody waits for nothing"
            assert it.passed <= self.rules.most, "passed"
        for number in {it.ask for it in self.line if it.kind in free}:
            wanted = [at for at in range(64) if any(needs >> at & 1 for needs, _ in self.waits(number))]
            assert any(self.keeper(number, at) for at in wanted), "nobody waits for nobody"


def union(sets: Iterable[int]) -> int:
    found = 0
    for it in sets:
        found |= it
    return found
