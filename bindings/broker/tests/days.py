"""Days of one broker, by chance: the real broker on a loop and a disk in memory, beside the rules that the guide states (day_model.py).

usage: python3 -m tests.days [DAYS] [--seed N] [--first-wrong]
       so many days (1000), run in bindings/broker; a day that fails is told by its number and seed, and its shortest form, or only the first

What clients, operators, the disk and the clock do is drawn beforehand, and so are kills: behind any callback of the loop, which is at each
`await`, and before, in the middle of or behind any call to the disk. What holds, whatever they do:

 1. No two clients are ever told that they hold one instrument.
 2. Whoever was told that it holds comes back with that after any crash, with its number, its name and its notes.
 3. A let-go that was answered stays, unless the power is cut or the disk fails; a release and a note stay in any case.
 4. No ask is answered twice, and none that is answered otherwise than the rules say.
 5. No record is without its end, and none is there twice.
 6. Whoever waits isn't passed more often than the bay says, and of those that want the same who asked first is served first.
 7. Nothing hangs: each ask is answered once the instruments are free and the broker is up.
 8. Status shows who holds, who waits for whom, and who is gone since when, as it is.
 9. A bay that changes while it runs does so as a whole, or not at all, and only if nobody is in the way."""

from __future__ import annotations

import argparse
import contextlib
import random
import re
import sys
import time
import traceback
from collections import Counter
from dataclasses import replace
from typing import Any, Optional

import grpc  # noqa: F401
from labrun_broker import broker_pb2 as pb
from tests import day_model as rules
from tests.day_checks import Wrong
from tests.day_journal import TICKETS
from tests.day_life import Stream
from tests.day_lives import Day
from tests.day_model import INSTRUMENTS, STATIONS, Wish

Step = tuple[Any, ...]
CLIENTS = 6
GRACES = (None, 1600, 4000)  # milliseconds
MODES = ("sound", "sound", "sound", "hangs", "writes fail", "syncs fail", "all fails", "full")


def file_by(dice: random.Random) -> rules.File:
    some = lambda: tuple(dice.sample(INSTRUMENTS, dice.choice([2, 3, 4, 4])))
    uses = tuple((name, some()) for name in STATIONS if dice.random() < 0.9)
    return rules.File(uses, dice.choice([0, 1, 2, 2, 3, 3]) if uses else 2, some(), dice.choice(GRACES), dice.choice([None, 0, 1, 2]))


def wish_by(dice: random.Random, client: int) -> Step:
    some = lambda: tuple(dice.sample(INSTRUMENTS, dice.choice([1, 1, 1, 2, 2, 3])))
    choices = (some(),) if dice.random() < 0.7 else tuple(some() for _ in range(dice.choice([2, 2, 3])))
    timeout = dice.choice([None, None, None, 0, 40, 1500, 11000])
    station = dice.choice(["", "", "", *STATIONS])
    manner = dice.choice(["own"] * 7 + ["again", "fresh", "another's", "nobody's"])
    return client, station, choices, timeout, dice.random() < 0.6, manner


def step_by(dice: random.Random) -> Step:
    client = dice.randrange(CLIENTS)
    kind = dice.choices(
        ["wish", "burst", "note", "let_go", "ping", "cut", "ends", "release", "race", "passes", "disk", "kill", "stops", "wall", "applies"],
        [14, 3, 5, 12, 4, 6, 2, 3, 8, 14, 5, 5, 1.5, 0.5, 2],
    )[0]  # fmt: skip
    if kind == "race":
        first, second = dice.sample(range(CLIENTS), 2)
        return kind, dice.randrange(8), one_by(dice, first), one_by(dice, second)
    if kind in ("wish", "note", "let_go", "ping", "cut", "ends", "release"):
        return of_kind(dice, kind, client)
    if kind == "burst":
        return kind, *(wish_by(dice, it) for it in dice.sample(range(CLIENTS), dice.choice([2, 3, 4])))
    if kind == "passes":
        return kind, dice.choice([0, 1, 2, 5, 20, 60, 300, 1000, 1500, 4500])
    if kind == "disk":
        return kind, dice.choice(MODES), dice.choice([0, 0, 1, 3, 30, 700]), dice.random() < 0.7
    if kind == "kill":
        how = dice.choice(["callbacks", "callbacks", "before", "middle", "behind"])
        return kind, how, dice.choice([0, 1, 2, 3, 4, 5, 7, 10, 20]), dice.random() < 0.6, dice.random(), dice.random() < 0.3
    if kind in ("stops", "applies"):
        return kind, dice.random() < 0.5
    return kind, dice.choice([-10**9, -5000, 5000, 10**9])


def one_by(dice: random.Random, client: int) -> Step:
    return of_kind(dice, dice.choice(["wish", "wish", "note", "let_go", "let_go", "ping", "cut", "release"]), client)


def of_kind(dice: random.Random, kind: str, client: int) -> Step:
    """What one client does, or an operator."""
    if kind == "wish":
        return kind, *wish_by(dice, client)
    if kind == "note":
        return kind, client, f"{dice.randrange(10**6)} V" + ("x" * 30 if dice.random() < 0.1 else "")
    if kind == "let_go":
        return kind, client, dice.choice([None, None, None, "smoke"])
    if kind == "release":
        return kind, dice.choice([*STATIONS, "guest-1", "guest-2", "guest-3", "nobody"])
    return kind, client


def steps_of(seed: str) -> list[Step]:
    """A day: its bay files, and what is done in it."""
    dice = random.Random(seed)
    first = file_by(dice)
    # (of some only the grace is another)
    others = (replace(first, grace=dice.choice(GRACES)) if dice.random() < 0.3 else file_by(dice) for _ in range(2))
    return [("files", first, *others), *(step_by(dice) for _ in range(dice.choice([15, 40, 80])))]


class Doing:
    """What the steps of a day mean, as it stands."""

    def __init__(self, files: Step) -> None:
        self.files, self.at = files, 0
        self.day = Day(files[0])
        self.other_file = False

    def does(self, step: Step) -> None:
        getattr(self, step[0])(*step[1:])
        while self.day.disk.is_dead:
            self.day._dies()
            self.day.begins(self.next_file(self.other_file))

    def next_file(self, is_other: bool) -> rules.File:
        self.at += is_other
        return self.files[self.at % len(self.files)] if is_other else self.day.file

    # whose stream

    def stream(self, client: int, is_new: bool = False) -> Optional[Stream]:
        """The newest one of a client that is there, or one more."""
        life, ticket = self.day.life, TICKETS[client]
        if not is_new:
            return next((it for it in reversed(life.streams) if it.client == client and it.rules.is_open), None)
        life.streams.append(life.opens(client, ticket))
        return life.streams[-1]

    def free(self, client: int) -> Optional[Stream]:
        """The same, if it doesn't wait for an answer."""
        it = self.stream(client)
        return None if it is None or it.rules.is_busy else it

    # the steps

    def wish(self, *given: Any) -> None:
        self.burst(given)

    def burst(self, *wishes: Step) -> None:
        asked: list[tuple[Stream, Wish]] = []

        def does() -> None:
            for given in wishes:
                if (it := self._wished({wish.ticket for _, wish in asked}, *given)) is not None:
                    asked.append(it)
                    self.day.wish(*it)

        # (what is wrong with a word as such is said before anybody's wish is looked at)
        self.day.goes(does, lambda: self.day.rules.wishes([(stream.rules, wish) for stream, wish in asked]))

    def _wished(
        self, tickets: set[str], client: int, station: str, choices: Any, timeout: Optional[int], pings: bool, manner: str
    ) -> Optional[tuple[Stream, Wish]]:
        """The stream and its wish, beside others with these tickets."""
        stream, day = self.stream(client), self.day
        ticket = {"another's": TICKETS[(client + 1) % CLIENTS], "nobody's": TICKETS[-1]}.get(manner, TICKETS[client])
        held = next((it for it in day.rules.sessions.values() if it.ticket == ticket and it.holds), None)
        # (of two that wait until they may come back with one ticket, the clock's last digits say who is first)
        is_toss = any(it[2].ticket == ticket for it in day.rules.later) or held is not None and held.back_at > day.rules.now - rules.BACK and ticket in tickets
        if stream is not None and stream.rules.is_busy or is_toss:
            return None
        if stream is None or manner == "again":
            stream = self.stream(client, True)
        assert stream is not None
        comes_back = held is not None and manner != "fresh" or manner == "nobody's" or manner == "another's" and station != ""
        return stream, Wish(choices, station, timeout, ticket, comes_back, pings, f"client {client}")

    def note(self, client: int, text: str) -> None:
        if (it := self.free(client)) is not None:
            session = it.rules.session
            if session is not None and len(text) <= 30:
                self.day.notes[session.number].append((text, False))
            it.sent["noted"] = self.day.halves // 2
            self.day.goes(lambda: it.sends(pb.Ask(note=pb.Note(text=text))), lambda: self.day.rules.notes(it.rules, text))

    def let_go(self, client: int, failed: Optional[str]) -> None:
        if (it := self.free(client)) is not None:
            if (session := it.rules.session) is not None:
                self.day.may_be_over.add(session.number)
                self.day.believes.pop(session.number, None)
            self.day.goes(lambda: it.sends(pb.Ask(let_go=pb.LetGo(failed=failed))), lambda: self.day.rules.lets_go(it.rules, failed))

    def ping(self, client: int) -> None:
        if (it := self.free(client)) is not None:
            it.sent["pong"] = self.day.halves // 2
            self.day.goes(lambda: it.sends(pb.Ask(ping=pb.Ping(at=1.5))), lambda: self.day.rules.ping(it.rules, 1.5))

    def cut(self, client: int) -> None:
        if (it := self.stream(client)) is not None:
            self.day.cut(it)

    def ends(self, client: int) -> None:
        if (it := self.free(client)) is not None:
            self.day.cut(it, True)

    def release(self, name: str) -> None:
        self.day.release(name)

    def race(self, count: int, *steps: Step) -> None:
        # (whoever gives up while it is released before it was told is at both at once: that is no order of two)
        released = {step[1] for step in steps if step[0] == "release"}
        is_one = any(it.name in released and it.state == "waiting" for it in self.day.rules.sessions.values())
        self.day.collects = both = []
        for step in steps:
            getattr(self, step[0])(*step[1:])
        self.day.collects = None
        if len(both) == 2 and not is_one:
            return self.day.races(count, *both)
        for it in both:
            if not self.day.disk.is_dead:
                self.day.goes(*it)

    def passes(self, milliseconds: int) -> None:
        self.day.passes(milliseconds)

    def disk(self, mode: str, latency: int, is_early: bool) -> None:
        disk = self.day.disk
        self.day.has_bad_disk = self.day.has_bad_disk or mode not in ("sound", "hangs")
        disk.latency, disk.is_early = latency, is_early
        self.day.goes(lambda: disk.becomes(mode), lambda: None)

    def kill(self, how: str, count: int, has_power: bool, share: float, is_other: bool) -> None:
        disk, self.day.power, self.other_file = self.day.disk, (has_power, share), is_other
        if how == "callbacks":
            disk.kill_in_callbacks = count
        else:
            disk.kill_in_calls = count, how

    def stops(self, is_other: bool) -> None:
        self.day.stops(self.next_file(is_other))

    def applies(self, is_last: bool) -> None:
        """The bay gets another of the day's files, while it runs."""
        self.day.applies(self.files[-1 if is_last else (self.at + 1) % len(self.files)])

    def wall(self, jump: int) -> None:
        self.day.wall += jump

    # the end: everybody is served

    def ends_all(self) -> None:
        day, disk = self.day, self.day.disk
        disk.kill_in_callbacks = disk.kill_in_calls = None
        self.disk("sound", 1, True)
        day.passes(2 * rules.DISK)
        for _ in range(60):
            if not day.rules.sessions and not day.rules.later:
                break
            for it in [it for it in day.life.streams if it.rules.is_open and it.rules.session is not None]:
                day.may_be_over.add(it.rules.session.number)
                day.believes.pop(it.rules.session.number, None)
                day.goes(lambda: it.sends(pb.Ask(let_go=pb.LetGo())), lambda: day.rules.lets_go(it.rules))
            for session in [it for it in day.rules.sessions.values() if it.state == "gone"]:
                day.release(session.name)
            day.passes(1100)
        else:
            raise Wrong(7, f"it hangs: {day.life.keeping.status()}")
        if day.releases or any(it.rules.is_busy for it in day.life.streams if it.rules.is_open):
            raise Wrong(7, "somebody is never answered")
        day.stops(day.file)
        day.life.ends()


def run(steps: list[Step]) -> tuple[Optional[str], Counter[str]]:
    """Why a day isn't as it should be, if it isn't; and what was in it."""
    doing = Doing(steps[0][1:])
    day = doing.day
    with day.stands_in():
        try:
            day.begins(steps[0][1])
            for step in steps[1:]:
                doing.does(step)
            doing.ends_all()
        except Exception as fault:
            day.life.ends()
            at = traceback.extract_tb(fault.__traceback__)[-1]
            return str(fault) if isinstance(fault, Wrong) else f"{fault!r} in {at.name}, line {at.lineno}", day.counts
    return None, day.counts


def shortest(steps: list[Step], why: str) -> list[Step]:
    """The same day without all steps that it takes not to fail in the same way."""
    kind = lambda text: re.sub(r"\d+|guest|board|radio", "", (text or "").partition(":")[0])
    size = max(1, len(steps) // 2)
    while size:
        at = 1
        while at < len(steps):
            fewer = steps[:at] + steps[at + size :]
            if kind(run(fewer)[0]) == kind(why):
                steps = fewer
            else:
                at += size
        size //= 2
    return steps


def days(count: int, seed: int, stops_at_first: bool = False, first: int = 0) -> tuple[list[str], Counter[str]]:
    """What went wrong in so many days, a text for each; and what was in them."""
    wrong, counts = list[str](), Counter[str]()
    for at in range(first, first + count):
        steps = steps_of(f"{seed} {at}")
        why, its = run(steps)
        counts += its
        if why is None:
            continue
        about = f"day {at} of seed {seed}: {why}"
        if stops_at_first:
            return [about], counts
        short = shortest(steps, why)
        wrong.append("\n".join([about, f"  in short: {run(short)[0]}", *(f"    {it}" for it in short)]))
    return wrong, counts


def main() -> int:
    words = argparse.ArgumentParser(usage=__doc__)
    words.add_argument("days", type=int, nargs="?", default=1000)
    words.add_argument("--seed", type=int, default=1)
    words.add_argument("--first-wrong", action="store_true")
    given = words.parse_args()
    begun, done, failed, counts = time.process_time(), 0, 0, Counter[str]()
    # (whoever interrupts it is told how many there were)
    with contextlib.suppress(KeyboardInterrupt):
        while done < given.days and not (failed and given.first_wrong):
            wrong, its = days(some := min(100, given.days - done), given.seed, given.first_wrong, done)
            done, failed, counts = done + some, failed + len(wrong), counts + its
            for it in wrong:
                print(it, flush=True)
    print(f"{done} days of seed {given.seed}, {dict(counts)}, {time.process_time() - begun:.0f} s of the processor, {failed} wrong")
    return bool(failed)


if __name__ == "__main__":
    sys.exit(main())
