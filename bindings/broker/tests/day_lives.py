"""One day: the lives of a broker, from kill to kill, beside what the rules say of it. After each thing that somebody does, and after each moment,
both are compared; and at each word of the broker it is looked whether that would outlive a kill right then."""

from __future__ import annotations

import asyncio
import contextlib
import copy
import math
from collections import Counter, defaultdict
from typing import Any, Callable, Iterator, Optional
from unittest import mock

import grpc
import labrun
from labrun_broker import broker_pb2 as pb
from labrun_broker.applying import apply
from labrun_broker.errors import CantChange
from tests import day_checks as checks
from tests import day_model as rules
from tests.day_checks import Wrong
from tests.day_journal import ENDS, Left, ends_in, given_in, left_in, notes_in, records_in, wrong_records
from tests.day_life import Life, Stream
from tests.day_model import Rules, Wish, model
from tests.day_world import Disk, Killed, lines_of

LEASE = 0.75  # of the grace


def at_once(_: object, does: Callable[[], None], then: Callable[[Optional[Exception]], None]) -> None:
    """(A kill isn't caught.)"""
    fault: Optional[Exception] = None
    try:
        does()
    except OSError as it:
        fault = it
    then(fault)


class Day:
    def __init__(self, file: rules.File) -> None:
        self.life: Life
        self.disk, self.halves, self.wall = Disk(), 2000, 1_700_000_000_000
        self.file = file
        self.told_holds: dict[int, tuple[tuple[str, ...], Optional[int]]] = {}  # the grace that it was told last, too
        self.may_be_over, self.is_over, self.undone = set[int](), set[int](), set[int]()
        self.believes: dict[int, float] = {}
        self.seen_to = set[int]()  # by an operator who releases
        self.notes: dict[int, list[tuple[str, bool]]] = defaultdict(list)  # those that were sent, and whether that was answered
        self.releases: list[tuple[int, str, tuple[str, ...], int, asyncio.Task[Any]]] = []
        self.collects: Optional[list[tuple[Callable[[], None], ...]]] = None
        self.has_failed = False
        self.has_bad_disk = False
        self.wrong: Optional[Wrong] = None
        self.before: list[dict[str, Any]] = []
        # the graces of the brokers under which each session held, as far as the disk had it
        self.words: dict[int, set[Optional[int]]] = defaultdict(set)
        self.read_to, self.read_of = 0, b""
        self.applying: Optional[tuple[Any, rules.File]] = None
        self.counts: Counter[str] = Counter()
        self.power = True, 0.5
        self.rules: Optional[Rules] = None

    # ---- beginning, being killed, ending

    def clock(self) -> float:
        return (self.wall + self.halves / 2) / 1000

    @contextlib.contextmanager
    def stands_in(self) -> Iterator[None]:
        """For the clock, the disk and the thread of every broker."""
        with self.disk.stands_in(), mock.patch.multiple("time", time=self.clock, monotonic=lambda: self.halves / 2000):
            # (nobody is made to wait so that the journal can begin anew: the rules have no word of that)
            threads = mock.patch("labrun_broker.shell.ThreadPoolExecutor", lambda *_: self.life.loop), mock.patch("labrun_broker.aside.Aside.does", at_once)
            with threads[0], threads[1], mock.patch("labrun_broker.turning.HUSHES", 10**9):
                yield

    def begins(self, file: rules.File) -> None:
        """A broker goes on with this bay file; if by that somebody may not hold what he does, with the one before."""
        # (whatever somebody does, is done at a whole millisecond)
        self.halves += self.halves % 2
        while True:
            left = self.left()
            because = checks.is_refused(file, left)
            self.life = Life(self, file)
            opens = self.life.loop.create_task(self.life.keeping.open())
            self._runs_until(opens)
            if self.disk.is_dead:
                self._dies()
                continue
            fault = opens.exception()
            if (fault is not None) != because or fault is not None and not isinstance(fault, labrun.JournalError):
                raise Wrong(2, f"it begins: {fault!r}; by the rules it {'may not' if because else 'may'}")
            if fault is None:
                break
            self.counts["bay files refused"] += 1
            self.life.ends()
            self.disk.begins_again(True, 0)
            file = self.file
        self.file = file
        self.life.keeping.says = self.is_said
        self._takes_up(left)

    def left(self) -> dict[int, Left]:
        try:
            return left_in(self.disk)
        except (LookupError, ValueError) as fault:
            raise Wrong(2, f"the files can't be read: {fault!r}") from None

    def _runs_until(self, task: asyncio.Task[Any]) -> None:
        self.life.settles()
        for _ in range(2000):
            if task.done() or self.disk.is_dead:
                return
            self.halves = self.life.loop.halves = max(self.life.loop.next_moment(), self.halves + 1)
            self.life.settles()
        raise Wrong(7, f"it hangs: {task}")

    def _takes_up(self, left: dict[int, Left]) -> None:
        now, stands = self.life.keeping.now(), [it for it in left.values() if not it.how]
        it = self.rules = Rules(self.file, now, *self._keeps({it.number for it in stands}))
        self.began_at = now, self.halves
        it.ends |= ends_in(self.before)
        for one in left.values():
            if now <= one.since:
                raise Wrong(2, f"it is {now}, and {one.number} holds since {one.since}")
            if one.how == "let_go" or one.what == "taken":
                it.ends[one.ticket] = "let_go" if one.how == "let_go" else "taken"
        for one in sorted(stands, key=lambda one: one.number):
            it.sessions[one.number] = self._taken_up(one, now)
            gone = None if one.number in it.kept else now
            its = one.number, one.kind, rules.owner_of(one.ticket), None, None, one.asked, one.since, one.needs, gone, model.HOLDS, "", "holds", "durable"
            it.line.asks.append(model.Ask(*its, token=one.token))
        number, token = given_in(self.disk)
        it.line.granted = max([token, *(one.token for one in left.values())])
        it.line.next = it.next = max(it.line.granted, 1 + max([0, *left, *(one["session"] or 0 for one in self.before)]), number)
        it.line.now = now
        checks.takes_up(self)
        it.follows()
        self.same()
        self._checks_records(left)

    def _keeps(self, stands: set[int]) -> tuple[Optional[int], frozenset[int]]:
        """For how long it keeps those that hold, and which of them without an end. Nobody is released who was told otherwise, nor sooner than was
        told. Whoever wasn't told, as far as is known here, may have been told by any broker since the hold stands on the disk."""
        grace, kept = self.file.grace, frozenset(self.life.keeping._opened.kept)
        for number in stands:
            self.words[number].add(grace)
        if grace is not None:
            if wrong := {it for it in stands if self.told_holds.get(it, ((), 0))[1] is None} - kept:
                raise Wrong(1, f"{wrong} were told that they are kept, and aren't")
            if wrong := {it for it in kept if None not in self.words[it]}:
                raise Wrong(1, f"{wrong} are kept, and nobody can have been told so")
            told = [self.told_holds[it][1] for it in stands - kept if it in self.told_holds]
            wanted = max([grace, *(it for it in told if it is not None)])
            most = max([wanted, *(it for number in stands for it in self.words[number] if it is not None)])
            grace = round(1000 * self.life.keeping.grace) if not math.isinf(self.life.keeping.grace) else None
            if grace is None or not wanted <= grace <= most:
                raise Wrong(1, f"it keeps for {self.life.keeping.grace} s; by the rules for {wanted} ms, or {most} at most")
        elif not math.isinf(self.life.keeping.grace) or kept:
            raise Wrong(1, f"it keeps for {self.life.keeping.grace} s, and {set(kept)} for ever; by the rules all")
        return grace, kept

    def _taken_up(self, one: Left, now: int) -> rules.Session:
        """A session as it has to come back; its name is known if its client was told so, or a record is left."""
        named = {it["session"]: it["station"] for it in self.before if it["session"]}
        by = next((it["by"] for it in self.before if it["session"] == one.number), None) if not one.station else one.by
        session = rules.Session(one.number, rules.KINDS[one.kind] or one.station or named.get(one.number, ""), one.kind, one.ticket, one.by or by or "", ())
        session.by = one.by or None  # type: ignore[assignment]
        session.instruments, session.state, session.gone_at = one.names, "gone", now
        session.note = one.notes[-1] if one.notes else None
        session.choices = (session.instruments,)
        return session

    def _dies(self) -> None:
        """The broker is dead: of what was told nothing may be lost."""
        self.life.ends()
        if (it := self.rules) is not None:
            now = self.began_at[0] + self.halves // 2 - self.began_at[1] // 2
            graces = {number: grace for number in it.sessions if (grace := it.grace_of(number)) is not None}
            late = {one.number for one in it.sessions.values() if one.number in graces and one.gone_at is not None and one.gone_at + graces[one.number] <= now}
            self.may_be_over |= late | (set(self.told_holds) - set(it.sessions))
        has_power, share = self.power
        durable = self.disk.durable | lines_of(self.disk.acked)
        self.counts["turns"] += self.disk.turns
        self.disk.begins_again(has_power, share)
        self.counts["kills" if has_power else "power cuts"] += 1
        self._keeps_what_was_told(durable, has_power)
        self.counts["sessions that came back"] += sum(not it.how for it in self.left().values())

    def _keeps_what_was_told(self, durable: set[tuple[bytes, int]], has_power: bool) -> None:
        left = self.left()
        self.before = records_in(self.disk)
        over = {it["session"] for it in self.before if it["what"] in ENDS} & (self.may_be_over | self.is_over)
        for number, (instruments, _) in self.told_holds.items():
            it = left.get(number)
            if it is None and number in over:
                # (the journal began anew behind its end, which is in the records)
                self.is_over.add(number)
                self._keeps_notes(Left(number, 0, instruments, "", 0, 0, 0))
                continue
            if it is None or set(it.names) != set(instruments):
                raise Wrong(2, f"{number} was told that it holds {instruments}, and is lost by the {'kill' if has_power else 'power cut'}")
            if it.how and number not in self.may_be_over | self.is_over:
                raise Wrong(2, f"{number} was told that it holds {instruments}, and is over: {it.how}")
            if not it.how and number in self.is_over:
                if (b"end", number) in durable or has_power and not self.has_failed:
                    raise Wrong(3, f"{number} has let go, or was released, and was told so; and holds again")
                self.undone.add(number)
                self.is_over.discard(number)
            self._keeps_notes(it)
        if not has_power or self.has_failed:
            ended = {it["session"] for it in self.before if it["what"] in ENDS}
            self.undone |= {it.number for it in left.values() if not it.how and it.number in ended}
        self.may_be_over = {it.number for it in left.values() if it.how} - self.is_over
        self.is_over |= self.may_be_over
        for number in self.is_over:
            self.believes.pop(number, None)
        for number in left:
            if self.rules is not None:
                self.words[number].add(self.rules.grace)
        self.has_failed, self.releases = False, []

    def _keeps_notes(self, it: Left) -> None:
        sent = self.notes[it.number]
        wanted, at = [text for text, was_answered in sent if was_answered], 0
        for text in notes_in(self.before, it):
            at += at < len(wanted) and text == wanted[at]
        if at < len(wanted) or not set(it.notes) <= {text for text, _ in sent}:
            raise Wrong(3, f"notes of {it.number} that were answered: {wanted}; and there are {it.notes}")

    def _checks_records(self, left: dict[int, Left]) -> None:
        self.life.settles()
        if not self.disk.is_dead and (wrong := wrong_records(records_in(self.disk), left, set(self.told_holds), self.undone)):
            raise Wrong(5, f"the records: {wrong}")

    def stops(self, file: rules.File) -> None:
        """As an operator stops it, and begins it again."""
        for it in self.life.streams:
            if it.rules.is_open:
                self.cut(it)
        if self.disk.is_dead:
            return
        closes = self.life.loop.create_task(self.life.keeping.close())
        self._runs_until(closes)
        if not self.disk.is_dead:
            self.power = True, 0.5
            self.counts["stops"] += 1
            self.counts["kills"] -= 1
        self._dies()
        self.begins(file)

    # ---- what happens

    def same(self) -> None:
        if self.applying is not None and self.life.keeping.bay is not self.applying[0]:
            self.file, self.applying = self.applying[1], None
            self.rules.applies(self.file)
        checks.same(self)

    def applies(self, file: rules.File) -> None:
        """An operator changes the bay; nobody asks anything before that is answered."""
        # (where a sync takes most of a second, no moment may be quiet in time)
        is_slow = self.disk.latency > 100 or any(end > self.halves + 200 for end, _ in self.life.loop._ends)
        before, is_sound, task = self.life.keeping.bay, self.disk.mode == "sound" and not is_slow and not self.has_bad_disk, None
        was_in_the_way = self.rules.is_in_the_way(file)
        self.applying = before, file
        with contextlib.suppress(Killed):
            task = self.life.loop.create_task(apply(self.life.keeping, file.text(), "eve", False))
        end = self.halves + 4 * rules.DISK
        self._comes(self.halves)
        while not self.disk.is_dead and task is not None and not task.done():
            if self.halves > end:
                raise Wrong(7, f"a bay isn't changed: {task}")
            self._comes(max(self.life.loop.next_moment(), self.halves + 1))
        if not self.disk.is_dead and self.halves % 2:
            self._comes(self.halves + 1)
        self.applying = None
        if self.disk.is_dead or task is None:
            return
        fault, has_changed = task.exception(), self.life.keeping.bay is not before
        self.counts["changes" if has_changed else "changes refused"] += 1
        if isinstance(fault, CantChange):
            if has_changed or not (was_in_the_way or self.rules.is_in_the_way(file)):
                raise Wrong(9, f"nobody is in the way, and it is refused: {fault}")
        elif fault is not None and (is_sound and self.disk.mode == "sound" or not isinstance(fault, labrun.JournalError)):
            raise Wrong(9, f"it isn't changed: {fault!r}")
        elif fault is None and was_in_the_way and self.rules.is_in_the_way(file):
            raise Wrong(9, "somebody is in the way, and it has changed")

    def goes(self, does: Callable[[], None], says: Callable[[], None]) -> None:
        """Somebody does something; what the rules say of it; and whether it is the same."""
        if self.collects is not None:
            return self.collects.append((does, says))
        with contextlib.suppress(Killed):
            does()
        self.life.settles()
        if not self.disk.is_dead:
            self.rules.now = self.now()
            says()
            self.same()

    def races(self, count: int, first: tuple[Callable[[], None], ...], second: tuple[Callable[[], None], ...]) -> None:
        """The second comes while the broker is at the first, so many callbacks later. It may have seen them in any order."""
        with contextlib.suppress(Killed):
            first[0]()
            for _ in range(count):
                self.life.steps()
            second[0]()
        self.life.settles()
        if self.disk.is_dead:
            return
        self.rules.now = self.now()
        before, faults, after = self._now(), list[Wrong](), list[Any]()
        for says in ((first[1], second[1]), (second[1], first[1])):
            self._is_as(before)
            try:
                self._saw(*says)
            except Wrong as fault:
                faults.append(fault)
                continue
            after.append(self._now())
            # (who gave up may have been let in just before, or not: that isn't told anybody, but takes a token)
            if self.rules.line.granted == self._granted():
                return
        if not after:
            raise faults[0]
        self._is_as(after[0])

    def _now(self) -> Any:
        """What the rules say by now, and what was compared."""
        return (self.rules, [it.rules for it in self.life.streams]), self.releases, (self.read_to, self.read_of)

    def _is_as(self, now: Any) -> None:
        """(Of a copy, so that it can be so once more.)"""
        (self.rules, streams), self.releases, (self.read_to, self.read_of) = copy.deepcopy(now[0]), list(now[1]), now[2]
        for it, its in zip(self.life.streams, streams):
            it.rules = its

    def _granted(self) -> int:
        """The largest token that the journal has."""
        holds = [line.split(b" ") for line in self.disk.journal().split(b"\n")[:-1] if line[17:22] == b"hold "]
        return max([given_in(self.disk)[1], *(int(it[-1], 16) for it in holds)])

    def _saw(self, *says: Callable[[], None]) -> None:
        for it in says:
            it()
        self.same()

    def now(self) -> int:
        """By the broker's clock, which has to go as ours does."""
        now, (moment, halves) = self.life.keeping.now(), self.began_at
        if now - moment != self.halves // 2 - halves // 2:
            raise Wrong(8, f"the broker's clock went by {now - moment} ms in {self.halves // 2 - halves // 2}")
        return now

    def passes(self, milliseconds: int) -> None:
        end = self.halves // 2 * 2 + 2 * milliseconds
        while not self.disk.is_dead:
            moment = self.rules.moment()
            its = self.life.loop.next_moment() if moment is None else min(self.life.loop.next_moment(), 2 * (moment - self.began_at[0]) + self.began_at[1] // 2 * 2)
            if max(its, self.halves + 1) > end:
                break
            self._comes(max(its, self.halves + 1))
        if not self.disk.is_dead:
            self._comes(end)

    def _comes(self, halves: int) -> None:
        self.halves = self.life.loop.halves = halves
        self.life.settles()
        if not self.disk.is_dead:
            self.rules.passes(self.now())
            self.same()

    def cut(self, stream: Stream, says_so: bool = False) -> None:
        def does() -> None:
            stream.is_cut = True
            stream.sends(grpc.aio.EOF) if says_so else stream.task.cancel()
            # (a client that never said that it is there holds for the grace from when its stream ended; whoever pings once has a lease)
            it = stream.rules.session
            if it is not None and (grace := self.rules.grace_of(it.number)) is not None and not it.pings and it.heard_at is None:
                self.believes[it.number] = self.halves / 2 + grace

        self.goes(does, lambda: self.rules.is_cut(stream.rules, says_so))

    def wish(self, stream: Stream, wish: Wish) -> None:
        given = pb.Wish(station=wish.station, by=wish.by, ticket=wish.ticket, comes_back=wish.comes_back, pings=wish.pings, wants_waits=True)
        if len(wish.choices) == 1:
            given.instruments.extend(wish.choices[0])
        else:
            given.any_of.extend(pb.Instruments(names=it) for it in wish.choices)
        if wish.timeout is not None:
            given.timeout = wish.timeout / 1000
        if not stream.rules.waits:
            stream.sent["wish"] = self.halves // 2
        stream.sends(pb.Ask(wish=given))

    def release(self, name: str) -> None:
        tasks: list[asyncio.Task[Any]] = []

        def does() -> None:
            self.seen_to |= (its := {it.number for it in self.rules.sessions.values() if it.name == name})
            self.may_be_over |= its
            tasks.append(self.life.loop.create_task(self.life.keeping.release(name, "eve")))

        def says() -> None:
            it = self.rules.releases(name)
            if it is not None:
                self.releases.append((it.number, name, it.held, self.rules.now, tasks[0]))
            elif not tasks[0].done() or not isinstance(tasks[0].exception(), labrun.LabrunError):
                raise Wrong(4, f"released, and there was nothing: {tasks[0]}")

        self.goes(does, says)

    # ---- what is told, at once

    def is_said(self, text: str) -> None:
        """To whoever looks after the broker. While it says that a write fails, whoever lets go may hold again after a kill. (Not so of the records,
        which are for people.)"""
        if "records" in text:
            if "is tried again" in text and not self.has_bad_disk:
                self.wrong = Wrong(7, f"the disk is sound, and it says {text}")
            return
        self.has_failed = "is tried again" in text or self.has_failed and "all is written" not in text
        if self.has_failed and not self.has_bad_disk:
            self.wrong = Wrong(7, f"the disk is sound, and it says {text}")

    def is_told(self, stream: Stream, told: Any) -> None:
        kind = told.WhichOneof("told")
        if kind == "waits":
            if not told.waits.text:
                raise Wrong(8, "for whom it waits: nothing is said")
            return
        its = getattr(told, kind)
        if kind == "held":
            grace = round(its.grace * 1000) if its.HasField("grace") else None
            stream.got.append((kind, its.station, its.session, tuple(its.instruments), its.ticket, grace))
            self._is_told_that_it_holds(its, grace, stream.sent["wish"])
        elif kind in ("fault", "taken"):
            stream.got.append((kind, its.kind))
        else:
            stream.got.append((kind, its.at, its.holds) if kind == "pong" else (kind,))
        session = stream.rules.session
        if session is not None and kind == "taken":
            self.believes.pop(session.number, None)
        elif session is not None and kind == "gone":
            self._has_let_go(session.number)
        elif session is not None and (kind == "noted" or kind == "pong" and its.holds) and (session.pings or session.heard_at is not None):
            self.believes[session.number] = stream.sent[kind] + LEASE * (self.rules.grace_of(session.number) or math.inf)
        elif kind == "gone" and stream.rules.leaving is not None:
            self._has_let_go(stream.rules.leaving[0])
        if kind == "noted":
            self._is_noted(stream)

    def _is_told_that_it_holds(self, its: Any, grace: Optional[int], sent_at: int) -> None:
        number, until = its.session, math.inf if grace is None else sent_at + LEASE * grace
        if (b"hold", number) not in lines_of(self.disk.acked):
            raise Wrong(2, f"{number} is told that it holds, and that isn't on the disk")
        for other, end in self.believes.items():
            if other != number and end > self.halves / 2 and not self.is_seen_to(other) and set(self.told_holds[other][0]) & set(its.instruments):
                raise Wrong(1, f"{number} is told that it holds what {other} holds: {list(its.instruments)}")
        if grace is not None and not math.isclose(its.lease, LEASE * grace / 1000):
            raise Wrong(1, f"a lease of {its.lease} s in a grace of {grace} ms")
        self.told_holds[number] = tuple(its.instruments), grace
        self.believes[number] = until

    def is_seen_to(self, number: int) -> bool:
        """Its client is gone, and an operator has seen to that."""
        return number in self.seen_to and all(it.is_cut or it.rules.session is None or it.rules.session.number != number for it in self.life.streams)

    def _has_let_go(self, number: int) -> None:
        self.is_over.add(number)
        if not self.has_failed and (b"end", number) not in lines_of(self.disk.journal()):
            raise Wrong(3, f"{number} has let go and is told so, and that isn't written")

    def _is_noted(self, stream: Stream) -> None:
        if stream.rules.note is None:
            raise Wrong(3, "a note is answered before the disk had time for it")
        number, text, _ = stream.rules.note
        notes = self.notes[number]
        if f"note {number:016x} note {text}\n".encode() not in self.disk.acked:
            raise Wrong(3, f"a note of {number} is answered, and isn't on the disk: {text}")
        notes[notes.index((text, False))] = text, True
