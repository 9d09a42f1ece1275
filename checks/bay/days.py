#!/usr/bin/env python3
"""Random days of a bay, by the library and by its second form in Python (model.py): each call's answer, what is told, and each byte of the
journal have to be the same.

usage: checks/bay/days.py LIBRARY [DAYS [SEED]]      LIBRARY: liblabrun.so, as checks/door/build makes it; 300 days if none is said

A day is up to some hundred calls by a few classes of clients at a few instruments: urgent asks and others, with one set or several, with deadlines and
limits, let-goes, leaves, clients that are gone, what is taken away, notes, a disk that is slow, that fails, new files with other classes, a stop. At a
random moment the journal is cut at a random byte at or behind what is durable, and the bay that comes back from it has to hold what was told.
The last line is `N passed, M failed`."""

import ctypes
import dataclasses
import os
import random
import sys

sys.dont_write_bytecode = True
sys.path.insert(0, os.path.dirname(os.path.realpath(__file__)))
import model  # noqa: E402

NEVER = 2**64 - 1
DONE, NO_ROOM, NOT_YET, OVER = 0, 6, 8, 26
WHY = {"number": 20, "stopped": 21, "no_class": 22, "empty": 23, "may_not_use": 24, "line_full": 25, "over": OVER, "owner": 29, "not_now": NOT_YET}
WHAT = ["holds", "let_go", "left", "lapsed", "not_written", "limit", "grace", "taken_away", "replaced", "stopped", "waits"]


class Handle(ctypes.Structure):
    _fields_ = [("at", ctypes.c_void_p), ("live", ctypes.c_uint64)]


class Class(ctypes.Structure):
    _fields_ = [("uses", ctypes.c_uint64), ("places", ctypes.c_uint32), ("unused", ctypes.c_uint32)]


class Terms(ctypes.Structure):
    _fields_ = [("bay", ctypes.c_uint8 * 32), ("line", ctypes.c_uint64), ("grace", ctypes.c_uint64), ("disk", ctypes.c_uint64)]
    _fields_ += [("overtakes", ctypes.c_uint32), ("keeps", ctypes.c_uint32)]


class Asked(ctypes.Structure):
    _fields_ = [("number", ctypes.c_uint64), ("owner", ctypes.c_uint64 * 2), ("deadline", ctypes.c_uint64), ("limit", ctypes.c_uint64)]
    _fields_ += [("kind", ctypes.c_uint32), ("urgent", ctypes.c_uint32)]


class Outcome(ctypes.Structure):
    _fields_ = [("serial", ctypes.c_uint64), ("number", ctypes.c_uint64), ("needs", ctypes.c_uint64), ("token", ctypes.c_uint64)]
    _fields_ += [("what", ctypes.c_uint32), ("unused", ctypes.c_uint32)]


class Standing(ctypes.Structure):
    _fields_ = [("number", ctypes.c_uint64), ("owner", ctypes.c_uint64 * 2), ("needs", ctypes.c_uint64), ("since", ctypes.c_uint64)]
    _fields_ += [("token", ctypes.c_uint64), ("kind", ctypes.c_uint32), ("what", ctypes.c_uint32)]


def moment(it):
    return NEVER if it is None else it


class MayNot(model.Refused):
    def __init__(self, number):
        super().__init__("may_not_use")
        self.number = number


class Bay(model.Bay):
    """The model, of which each file counts from its own start, with the places of all files; and it goes on in a new one."""

    base = 0

    @classmethod
    def resumed(cls, rules, file, now):
        it = super().resumed(rules, file, now)
        it.base, least = (int(one, 16) for one in file.split(b"\n")[0].split(b" ")[3:5])
        it.next = max(it.next, least)
        return it

    def note(self, number, text):
        return self.base + super().note(number, text)

    def journal(self):
        text, place = super().journal()
        return text, self.base + place

    def durable(self, position):
        super().durable(max(0, position - self.base))

    def turn(self, classes, now):
        for it in self.asks:
            if not self.may_go_on(it, classes):
                raise MayNot(it.number)
        if self.rules.keeps and (self.durable_to < len(self.text) or any(model.DUE in (it.hold_line, it.end_line) for it in self.asks)):
            raise model.Refused("not_now")
        self.rules = dataclasses.replace(self.rules, classes=classes)
        begins = self.begins() if self.rules.keeps else b""
        self.time(now)
        return begins

    def begins(self):
        """How the new file begins. What was durable stays so, wherever it stood."""
        self.base += len(self.text)
        self.text, self.sum, self.sent = b"", bytes(8), 0
        self._line(f"bay {self.rules.head.hex()} {self.base:016x} {self.next:016x} {self.granted:016x}")
        for it in self.asks:
            it.hold_line = model.DUE if it.stage == model.HOLDS else model.NONE if it.hold_line == model.NONE else 0
            it.end_line = model.NONE if it.end_line == model.NONE else 0
        super().journal()
        self.durable_to = self.sent
        return self.text

    def may_go_on(self, it, classes):
        if it.stage == model.OVER:
            return True
        uses, places = classes[it.kind] if it.kind < len(classes) else (0, 0)
        if it.stage == model.WAITS:
            return not any(needs & ~uses for needs, _ in self.waits(it.number))
        return not it.needs & ~uses and sum(one.stage == model.HOLDS and one.kind == it.kind for one in self.asks) <= places


class Machine:
    """The library's bay, with the calls of the model."""

    def __init__(self, library, rules):
        self.library, self.handle = library, Handle()
        self.classes = (Class * len(rules.classes))(*((uses, places, 0) for uses, places in rules.classes))
        self.terms = Terms((ctypes.c_uint8 * 32)(*rules.head), rules.limit, moment(rules.grace), moment(rules.disk), rules.most, rules.keeps)

    def call(self, name, *given):
        return getattr(self.library, f"lab_bay_{name}")(ctypes.byref(self.handle), *given)

    def open(self):
        return self.library.lab_bay_open(self.classes, ctypes.c_size_t(len(self.classes)), ctypes.byref(self.terms), ctypes.byref(self.handle))

    def resume(self, text, now):
        used, fault = ctypes.c_size_t(), ctypes.c_uint64()
        status = self.library.lab_bay_resume(
            self.classes, ctypes.c_size_t(len(self.classes)), ctypes.byref(self.terms), text, ctypes.c_size_t(len(text)), ctypes.c_uint64(now),
            ctypes.byref(self.handle), ctypes.byref(used), ctypes.byref(fault))  # fmt: skip
        return status, used.value, fault.value

    def ask(self, number, sets, kind, owner, deadline, limit, now, urgent):
        asked = Asked(number, (ctypes.c_uint64 * 2)(owner >> 64, owner & NEVER), moment(deadline), moment(limit), kind, urgent)
        return self.call("ask", ctypes.byref(asked), (ctypes.c_uint64 * len(sets))(*sets), ctypes.c_size_t(len(sets)), ctypes.c_uint64(now))

    def act(self, name, number, now):
        return self.call(name, ctypes.c_uint64(number), ctypes.c_uint64(now))

    def back(self, number, owner, now):
        needs = ctypes.c_uint64()
        status = self.call("back", *map(ctypes.c_uint64, (number, owner >> 64, owner & NEVER, now)), ctypes.byref(needs))
        return status, needs.value if status == DONE else None

    def time(self, now):
        following = ctypes.c_uint64()
        status = self.call("time", ctypes.c_uint64(now), ctypes.byref(following))
        return status, following.value

    def note(self, number, text):
        position = ctypes.c_uint64()
        status = self.call("note", ctypes.c_uint64(number), text, ctypes.c_size_t(len(text)), ctypes.byref(position))
        return status, position.value

    def looks(self):
        """The asks in its book, and the least number of the next."""
        asks, least, it = [], ctypes.c_uint64(), Standing()
        while self.call("look", ctypes.c_size_t(len(asks)), ctypes.byref(it), ctypes.byref(least)) == DONE:
            asks.append(stands(it))
        return asks, least.value

    def keeper(self, number, instrument):
        it = Standing()
        status = self.call("keeper", ctypes.c_uint64(number), ctypes.c_uint32(instrument), ctypes.byref(it))
        return status, stands(it) if status == DONE else None

    def waits(self, number):
        found, needs, passed = [], ctypes.c_uint64(), ctypes.c_uint32()
        while self.call("waits", ctypes.c_uint64(number), ctypes.c_size_t(len(found)), ctypes.byref(needs), ctypes.byref(passed)) == DONE:
            found.append((needs.value, passed.value))
        return found

    def journal(self):
        room, written, position = 1 << 16, ctypes.c_size_t(), ctypes.c_uint64()
        text = ctypes.create_string_buffer(room)
        status = self.call("journal", text, ctypes.c_size_t(room), ctypes.byref(written), ctypes.byref(position))
        return status, text.raw[: written.value], position.value

    def turn(self, classes, now, room=1 << 16):
        made, text, written, fault = (Class * len(classes))(*((uses, places, 0) for uses, places in classes)), ctypes.create_string_buffer(room), ctypes.c_size_t(), ctypes.c_uint64()
        status = self.call(
            "turn", made, ctypes.c_size_t(len(classes)), ctypes.c_uint64(now), text, ctypes.c_size_t(room), ctypes.byref(written), ctypes.byref(fault))  # fmt: skip
        if status == DONE:
            self.classes = made
        return status, text.raw[: written.value] if status == DONE else written.value, fault.value

    def tell(self, done):
        told = Outcome()
        status = self.call("tell", ctypes.c_uint64(done), ctypes.byref(told))
        return (told.serial, told.number, WHAT[told.what], told.token) if status == DONE else (status, None, None, None)


def standing(it):
    """How an ask stands, by the model."""
    return it.number, it.owner, it.needs, it.since, it.token, it.kind, it.stage


def stands(it):
    """How an ask stands, by the library."""
    return it.number, it.owner[0] << 64 | it.owner[1], it.needs, it.since, it.token, it.kind, WHAT[it.what]


class Differs(Exception):
    pass


def same(what, wanted, found):
    if wanted != found:
        raise Differs(f"{what}: by the model {wanted!r}, by the library {found!r}")


def answered(call, *given):
    """The status that the library should give, by the model, and what the model answers."""
    try:
        return DONE, call(*given)
    except model.Refused as why:
        return WHY[why.why], None


class Day:
    """One day: a bay in both forms."""

    def __init__(self, library, dice):
        self.dice, self.now, self.number, self.done, self.told = dice, 0, 0, 0, {}
        kinds = [(dice.getrandbits(6) | 1, dice.choice([1, 1, 2])) for _ in range(dice.randint(0, 3))] + [(0b111111, dice.choice([2, 4, 9]))]
        self.rules = model.Rules(
            kinds, most=dice.choice([0, 1, 2, 64]), limit=dice.choice([3, 20]), grace=dice.choice([None, 5]), disk=dice.choice([None, 3]),
            keeps=dice.random() < 0.7, head=dice.randbytes(32))  # fmt: skip
        self.model, self.machine = Bay(self.rules), Machine(library, self.rules)
        self.durable = 0
        same("open", DONE, self.machine.open())

    def close(self):
        same("free", DONE, self.machine.call("free"))

    def somebody(self):
        known = [it.number for it in self.model.asks]
        return self.dice.choice(known) if known and self.dice.random() < 0.95 else self.dice.randint(0, self.number + 1)

    def asks(self):
        dice = self.dice
        self.number += dice.choice([1, 1, 1, 5]) if dice.random() < 0.97 else 0
        kind = dice.randrange(len(self.rules.classes) + (dice.random() < 0.02))
        uses = self.rules.classes[kind][0] if kind < len(self.rules.classes) else 1
        sets = [dice.getrandbits(6) & (uses if dice.random() < 0.97 else 63) or dice.choice([uses & -uses, uses, 0]) for _ in range(dice.choice([1, 1, 1, 2, 3]))]
        sets = [] if dice.random() < 0.01 else sets
        owner, deadline = dice.choice([0, dice.getrandbits(128), 7 << 64]), dice.choice([None, self.now, self.now + dice.randint(0, 9)])
        given = (self.number, sets, kind, owner, deadline, dice.choice([None, dice.randint(0, 6)]), self.now, dice.random() < 0.1)
        wanted, _ = answered(self.model.ask, *given)
        same(f"ask {given}", wanted, self.machine.ask(*given))

    def acts(self):
        name, number = self.dice.choice(["let_go", "let_go", "let_go", "leave", "take_away", "gone"]), self.somebody()
        wanted, _ = answered(getattr(self.model, name), number, self.now)
        same(f"{name} {number}", wanted, self.machine.act(name, number, self.now))

    def returns(self):
        number = self.somebody()
        owners = [it.owner for it in self.model.asks if it.number == number] + [0, 1]
        given = (number, self.dice.choice(owners), self.now)
        same(f"back {given}", answered(self.model.back, *given), self.machine.back(*given))

    def crashes(self):
        """The file is cut at or behind what is durable, or a byte of it changed; and the bay comes back, or doesn't."""
        if self.dice.random() < 0.9:
            return
        told = {it.number for it in self.model.asks if it.stage == model.HOLDS and it.heard == "holds" and it.hold_line != model.NONE}
        self.model.journal()
        same("the last journal", DONE, self.machine.journal()[0])
        file = self.model.text[: self.dice.randint(self.model.durable_to, len(self.model.text))]
        same("free", DONE, self.machine.call("free"))
        whole = file[: file.rfind(b"\n") + 1]
        if whole:
            at, bit = self.dice.randrange(len(whole) - 1), 1 << self.dice.randrange(8)
            status, _, line = self.machine.resume(whole[:at] + bytes([whole[at] ^ bit]) + whole[at + 1 :], self.now)
            same("a changed byte", (28, 1 + whole[:at].count(b"\n")), (status, line if bit != 10 ^ whole[at] else 1 + whole[:at].count(b"\n")))
            other = Terms.from_buffer_copy(self.machine.terms)
            self.machine.terms.bay[0] ^= 1
            same("another bay", 27, self.machine.resume(whole, self.now)[0])
            self.machine.terms = other
        if not whole:
            same("no head", 27, self.machine.resume(file, self.now)[0])
            same("open", DONE, self.machine.open())
            self.model = Bay(self.rules)
        else:
            same("resume", (DONE, len(whole), 0), self.machine.resume(file, self.now))
            self.model = Bay.resumed(self.rules, file, self.now)
        lost = told - {it.number for it in self.model.asks}
        if lost:
            raise Differs(f"told that they hold, and not there any more: {lost}")
        self.number, self.done, self.durable = max(self.number, self.model.next), 0, self.model.durable_to

    def turns(self):
        """The bay goes on in a new file, and with classes that are wider or narrower; often nothing is owed."""
        if self.dice.random() < 0.7:
            _, position = self.model.journal()
            same("journal", (DONE, position), self.machine.journal()[::2])
            self.reaches(position)
        change = lambda uses, places: (uses ^ self.dice.choice([0, 0, 1, 2, 32]), max(0, places + self.dice.choice([0, 0, 1, -1])))
        classes = [change(*it) for it in self.model.rules.classes][: self.dice.choice([99, 99, 99, 1])] + [(63, 1)] * (self.dice.random() < 0.1)
        try:
            wanted = DONE, self.model.turn(classes, self.now), 0
        except model.Refused as why:
            wanted = WHY[why.why], 0, getattr(why, "number", 0)
        else:
            self.rules = self.model.rules
        same(f"turn {classes}", wanted, self.machine.turn(classes, self.now))

    def notes(self):
        number, text = self.somebody(), bytes(self.dice.choice(b"abc 123") for _ in range(self.dice.randint(0, 9)))
        wanted, position = answered(self.model.note, number, text)
        status, found = self.machine.note(number, text)
        same(f"note {number}", wanted, status)
        if wanted == DONE:
            same("the note's place", position, found)

    def writes(self):
        text, position = self.model.journal()
        same("journal", (DONE, text, position if self.rules.keeps else position), self.machine.journal())
        if self.dice.random() < 0.2:
            self.model.failed()
            same("failed", DONE, self.machine.call("failed"))
        elif self.dice.random() < 0.8:
            self.reaches(position)

    def reaches(self, position):
        self.durable = max(self.durable, position)
        self.model.durable(position)
        same("durable", DONE, self.machine.call("durable", ctypes.c_uint64(position)))

    def tells(self):
        for _ in range(self.dice.randint(1, 4)):
            wanted = self.model.tell(self.done)
            found = self.machine.tell(self.done)
            same("tell", wanted or (NOT_YET, None, None, None), found)
            if wanted is None:
                return
            if self.dice.random() < 0.8:
                self.done = wanted[0]
                self.told.setdefault(wanted[1], []).append(wanted[2])

    def passes(self):
        self.now += self.dice.choice([0, 1, 1, 2, 5])
        wanted = self.model.time(self.now)
        same(f"time {self.now}", (DONE, moment(wanted)), self.machine.time(self.now))

    def stops(self):
        if self.dice.random() < 0.03:
            self.model.stop(self.now)
            same("stop", DONE, self.machine.call("stop", ctypes.c_uint64(self.now)))

    def looks(self):
        """Each ask that isn't over is in the book, and stands there as by the model."""
        asks, least = self.machine.looks()
        standings = [standing(it) for it in self.model.asks if it.stage != model.OVER]
        same("who asks and who holds", sorted(standings), sorted(it for it in asks if it[-1] in (model.WAITS, model.HOLDS)))
        same("the next number", self.model.next, least)

    def keepers(self):
        """Who keeps which instrument from somebody, who may have lapsed; and what it waits for."""
        number = self.somebody()
        for instrument in [*range(6), self.dice.choice([6, 63, 64, 70, 2**32 - 1])]:
            it = self.model.keeper(number, instrument)
            wanted = (NOT_YET, None) if it is None else (DONE, standing(it))
            same(f"who keeps {instrument} from {number}", wanted, self.machine.keeper(number, instrument))
        same(f"what {number} waits for", self.model.waits(number), self.machine.waits(number))

    def goes(self, calls):
        ways = [self.asks] * 4 + [self.acts] * 4 + [self.returns, self.crashes, self.notes, self.writes, self.writes, self.tells, self.tells, self.tells, self.passes, self.stops, self.turns]
        for _ in range(calls):
            self.dice.choice(ways)()
            self.model.check()
            self.looks()
            self.keepers()


def main(words):
    if not words or len(words) > 3:
        print(__doc__)
        return 2
    library, days, seed = ctypes.CDLL(os.path.realpath(words[0])), int((words[1:2] or ["300"])[0]), int((words[2:3] or ["1"])[0])
    failed = 0
    for at in range(days):
        try:
            day = Day(library, random.Random(f"{seed} {at}"))
            day.goes(day.dice.choice([30, 100, 300]))
            day.close()
        except (Differs, AssertionError) as why:
            failed += 1
            print(f"day {at} of seed {seed}: {why}", flush=True)
    print(f"{days - failed} passed, {failed} failed")
    return int(failed > 0)


if __name__ == "__main__":
    sys.exit(main(sys.argv[1:]))
