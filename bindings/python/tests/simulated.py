"""The calls of the library by checks/simulate.py, which works the definitions out and shares no code with the program. So what waits and who
wakes it is tested on what the definitions say, one call at a time, without a built library."""

from __future__ import annotations

import ctypes
import os
import re
import sys
from typing import Any, Callable, Iterable

from tests.test_runs import TOP

sys.path.insert(0, os.path.join(TOP, "checks"))
import simulate  # type: ignore[import]  # noqa: E402

DINING = (simulate.THINKING, simulate.HUNGRY, simulate.EATING)
DRINKING = (simulate.TRANQUIL, simulate.THIRSTY, simulate.DRINKING, simulate.REACHING, simulate.RETIRED)
VERBS = ("set", "add", "read")


def at(pointer: Any) -> Any:
    """What a pointer of ctypes points to, from `byref` or `pointer`."""
    return pointer._obj if hasattr(pointer, "_obj") else pointer.contents


def bits(jobs: Iterable[Any]) -> int:
    return sum(1 << one.number for one in jobs)


class Simulated:
    """In place of `labrun._library.Library`. It counts how often a job is attended to."""

    path = "checks/simulate.py"

    def __init__(self) -> None:
        self.runs: list[Any] = [None]
        self.calls = 0

    def __getitem__(self, name: str) -> Callable[..., Any]:
        call: Callable[..., Any] = getattr(self, name)
        return call

    def run(self, handle: Any) -> Any:
        return self.runs[at(handle).at]

    def lab_bench_open(self, script: bytes, length: int, handle: Any, told: Any) -> int:
        plan = self.plan_of(script, told)
        if plan is None:
            return 1
        self.runs.append(simulate.Run(plan))
        # who is outside, in the order of asking, each as its job, its needs, and how often it was passed by
        self.runs[-1].line, self.runs[-1].overtakes = [], 0
        at(handle).at, at(handle).live = len(self.runs) - 1, 1
        return 0

    def plan_of(self, script: bytes, told: Any) -> Any:
        """None if the script is refused, which is told."""
        try:
            return simulate.read_script(script)
        except simulate.Fault as fault:
            at(told).line, at(told).cause = map(int, re.findall(r"\d+", str(fault))[:2])
            return None

    def lab_check(self, script: bytes, length: int, report: Any, room: int, told: Any) -> int:
        plan = self.plan_of(script, told)
        if plan is None:
            return 1
        counts = len(plan.job_names), len(plan.instrument_names), len(plan.edges), sum(map(len, plan.sessions))
        commands = sum(len(one.commands) for sessions in plan.sessions for one in sessions)
        text = b"ok jobs %d instruments %d edges %d sessions %d commands %d\n" % (*counts, commands)
        ctypes.memmove(report, text, len(text))
        at(told).written = len(text)
        return 0

    def lab_bench_free(self, handle: Any) -> int:
        if at(handle).at is None:
            return 7
        self.runs[at(handle).at] = None
        return 0

    def lab_bench_size(self, handle: Any, size: Any) -> int:
        run = self.run(handle)
        at(size).jobs, at(size).instruments = len(run.jobs), len(run.dials)
        return 0

    def lab_job_name(self, handle: Any, job: int, name: Any, room: int, written: Any) -> int:
        return self.named(self.run(handle).plan.job_names[job], name, written)

    def lab_instrument_name(self, handle: Any, instrument: int, name: Any, room: int, written: Any) -> int:
        return self.named(self.run(handle).plan.instrument_names[instrument], name, written)

    def named(self, text: str, name: Any, written: Any) -> int:
        ctypes.memmove(name, text.encode(), len(text))
        at(written).value = len(text)
        return 0

    def lab_session_of(self, handle: Any, job: int, number: int, what: Any) -> int:
        plan, it = self.run(handle).plan, at(what)
        session = plan.sessions[job][number - 1]
        it.needs, it.commands = plan.needs(job, number), len(session.commands)
        it.has_patience, it.patience = int(session.patience is not None), session.patience or 0
        return 0

    def lab_planned(self, handle: Any, job: int, number: int, place: int, planned: Any) -> int:
        it = at(planned)
        it.instrument, verb, number = self.run(handle).plan.sessions[job][number - 1].commands[place]
        it.verb, it.number = VERBS.index(verb), number or 0
        return 0

    def lab_state(self, handle: Any, job: int, state: Any) -> int:
        one, it = self.run(handle).jobs[job], at(state)
        it.turns, it.dining, it.drinking = one.turns, DINING.index(one.dining), DRINKING.index(one.drinking)
        it.session, it.sessions, it.position = one.session, one.total, one.position
        it.sessions_done, it.withdrawn, it.meals, it.waited = one.done, one.withdrawn, one.meals, one.waited
        return 0

    def told(self, turned: Any, done: list[Any]) -> int:
        at(turned).what, at(turned).count = 2 if done else 0, len(done)
        return 0

    # what is done without a word from an owner, by the definitions

    def attended(self, run: Any, one: Any) -> list[Any]:
        """Each edge is looked at, and what is due there is done; then the first of drink, leave, sit and hunger that is legal."""
        self.calls += 1
        done: list[Any] = []
        for edge in one.edges:
            seen = run.look(one, edge)
            events, after = run.due(one, edge, seen)
            if events:
                run.exchange(one, edge, events, after)
                done += events
        has_forks = len(one.fork_marks) == len(one.edges)
        is_thirsty = one.drinking == simulate.THIRSTY
        acts = [
            ("drink", is_thirsty and run.may_drink(one)),
            ("leave", not is_thirsty and one.dining == simulate.EATING and has_forks),
            ("sit", one.dining == simulate.HUNGRY and has_forks),
            ("hunger", is_thirsty and one.dining == simulate.THINKING),
        ]
        for act, is_legal in acts:
            if is_legal:
                run.store(one, act)
                done.append(act)
                break
        return done

    def rest(self, run: Any) -> list[Any]:
        """Until nobody has anything to do."""
        done: list[Any] = []
        while True:
            more = [it for one in run.jobs for it in self.attended(run, one)]
            if not more:
                return done
            done += more

    def patience(self, run: Any, one: Any) -> Any:
        return run.plan.sessions[one.number][one.session - 1].patience

    def lab_overtakes(self, handle: Any, most: int) -> int:
        self.run(handle).overtakes = most
        return 0

    def may_begin(self, one: Any) -> bool:
        return one.drinking == simulate.TRANQUIL and one.dining != simulate.EATING and one.session < one.total

    def let_in(self, run: Any, waiting: int) -> list[Any]:
        """First whoever was passed by often enough; then one that needs nothing that one in a session needs, and all that is due by that."""
        done: list[Any] = []
        while True:
            named = [it for it in run.line if waiting >> it[0].number & 1 and self.may_begin(it[0])]
            used = 0
            for one in run.jobs:
                if one.drinking in (simulate.THIRSTY, simulate.DRINKING, simulate.REACHING):
                    used |= run.needed(one)
            often = [it for it in named if it[2] >= run.overtakes]
            due = often or [it for it in named if not it[1] & used]
            if not due:
                return done
            one, needs, _ = due[0]
            run.line.remove(due[0])
            run.store(one, "thirst")
            done.append("thirst")
            for it in run.line:
                it[2] += it in named and bool(it[1] & needs)
            if not often:
                done += self.rest(run)

    def lab_settle(self, handle: Any, waiting: int, came: Any) -> int:
        run, told = self.run(handle), at(came)
        begun = [one.session if one.drinking == simulate.THIRSTY else 0 for one in run.jobs]
        done = self.rest(run)
        run.line = [it for it in run.line if it[0].drinking == simulate.TRANQUIL and it[0].session < it[0].total]
        there = [it[0] for it in run.line]
        for one in run.jobs:
            if waiting >> one.number & 1 and self.may_begin(one) and one not in there:
                run.line.append([one, run.plan.needs(one.number, one.session + 1), 0])
        done += self.let_in(run, waiting)
        done += self.rest(run)
        thirsty = [one for one in run.jobs if one.drinking == simulate.THIRSTY]
        given_up = [one for one in thirsty if self.patience(run, one) is not None and one.waited >= self.patience(run, one)]
        for one in given_up:
            run.store(one, "withdraw")
            done.append("withdraw")
        done += self.rest(run)
        done += self.let_in(run, waiting & ~bits(given_up))
        done += self.rest(run)
        for one, session in zip(run.jobs, begun):
            one.turns += bool(waiting >> one.number & 1 or session)
            if session and one.session == session and one.drinking == simulate.THIRSTY:
                one.waited += 1
        told.holds = bits(one for one in run.jobs if one.drinking == simulate.DRINKING)
        told.given_up = bits(given_up)
        told.none_left = bits(
            one
            for one in run.jobs
            if waiting >> one.number & 1 and one.drinking in (simulate.TRANQUIL, simulate.RETIRED) and one.session == one.total
        )
        told.deeds = len(done)
        return 0

    def lab_command(self, handle: Any, job: int, entry: Any) -> int:
        run, it = self.run(handle), at(entry)
        one = run.jobs[job]
        if one.drinking != simulate.DRINKING or run.phase_act(one, 0) != "command":
            return 8
        instrument = run.plan.sessions[job][one.session - 1].commands[one.position][0]
        run.store(one, "reach")
        run.store(one, "act")
        _, it.session, it.place, it.length, verb, it.number, it.value = run.logs[instrument][-1]
        it.verb = VERBS.index(verb)
        return 0

    def lab_end(self, handle: Any, job: int, turned: Any) -> int:
        run = self.run(handle)
        one, done = run.jobs[job], []
        if one.drinking != simulate.DRINKING:
            return 8
        while one.drinking == simulate.DRINKING:
            act = run.phase_act(one, 0)
            for store in ("reach", "act") if act == "command" else (act,):
                run.store(one, store)
            done.append(act)
        return self.told(turned, done + self.rest(run))

    def lab_withdraw(self, handle: Any, job: int) -> int:
        run = self.run(handle)
        one = run.jobs[job]
        if any(it[0] is one for it in run.line):
            run.line = [it for it in run.line if it[0] is not one]
            return 0
        if one.drinking != simulate.THIRSTY or run.plan.sessions[job][one.session - 1].patience is None:
            return 8
        run.store(one, "withdraw")
        return 0

    def lab_retire(self, handle: Any, job: int, turns: int, turned: Any) -> int:
        run = self.run(handle)
        one = run.jobs[job]
        if one.is_retired():
            return self.told(turned, [])
        if one.session < one.total or one.drinking != simulate.TRANQUIL:
            return 10
        done = self.rest(run) if turns else []
        if turns and one.dining == simulate.THINKING:
            run.store(one, "retire")
            done.append("retire")
        self.told(turned, done)
        return 0 if one.is_retired() else 8

    def lab_bench_close(self, handle: Any, report: Any, room: int, told: Any) -> int:
        text = self.run(handle).report().encode()
        at(told).written = len(text)
        if len(text) > room:
            return 6
        ctypes.memmove(report, text, len(text))
        status: int = self.run(handle).status()
        return status
