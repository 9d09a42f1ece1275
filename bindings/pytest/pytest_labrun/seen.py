"""What is seen of a run: a table at its end, a picture, and a table of all sessions."""

from __future__ import annotations

import contextlib
import csv
from collections import Counter
from typing import Any, Iterator, Sequence

import pytest

from .past import Held, Past
from .picture import gantt

_LEAST = 0.01  # seconds; a shorter wait is none


def tell(terminal: Any, past: Past) -> None:
    """The table, and behind `--durations` the longest waits."""
    tell_unwritten(terminal, past)
    sessions = [it for it in past.sessions if it.instruments or it.waited]
    if not sessions:
        if terminal.config.getoption("lab_report"):
            terminal.write_line("no test held an instrument")
        return
    terminal.write_sep("=", "instruments")
    for line in table(sessions):
        terminal.write_line(line)
    most = terminal.config.getoption("durations")
    if most is not None:
        for held in sorted(_waiters(sessions), key=lambda it: -it.waited)[: most or None]:
            terminal.write_line(f"{held.waited:.2f}s wait     {held.test}")


def tell_unwritten(terminal: Any, past: Past) -> None:
    for line in past.unwritten:
        terminal.write_line(line)


def _waiters(sessions: Sequence[Held]) -> list[Held]:
    return [it for it in sessions if it.waited >= _LEAST]


def table(sessions: Sequence[Held]) -> list[str]:
    """An instrument a line, the one that was waited for most first, and the waits in all."""
    waited: Counter[str] = Counter()
    for held in _waiters(sessions):
        for name in held.kept or held.instruments:
            waited[name] += held.waited  # type: ignore[assignment]
    used = {name: [it for it in sessions if name in it.instruments] for name in sorted({name for it in sessions for name in it.instruments})}
    ends = [it.let_go for it in sessions if it.let_go is not None]
    span = max(ends, default=0.0) - min((it.asked for it in sessions), default=0.0)
    wide = max((len(name) for name in used), default=0)
    lines = []
    for name in sorted(used, key=lambda name: (-waited[name], -sum(it.took for it in used[name]), name)):
        took = sum(it.took for it in used[name])
        share = f"{100 * took / span:.0f} %" if span else "-"
        lines.append(f"{name:{wide}}  in use {took:.1f} s of {span:.1f} s ({share}), {_sessions(used[name])}, waited for {waited[name]:.1f} s")
    return [*lines, _in_all(sessions)]


def _sessions(of: Sequence[Held]) -> str:
    return f"{len(of)} session{'' if len(of) == 1 else 's'}"


def _in_all(sessions: Sequence[Held]) -> str:
    waiters = _waiters(sessions)
    total = sum(it.waited for it in waiters)
    # (a broker of another machine takes a moment to answer, also where nobody keeps anybody waiting)
    if total < 0.05 and not any(it.kept for it in waiters):
        return "nobody waited"
    longest = max(waiters, key=lambda it: it.waited)
    # (of a choice that it never got it isn't known)
    whom = ", ".join(f"{name} ({by})" for name, by in longest.kept.items()) or ", ".join(longest.instruments) or "one of several"
    return f"waited {total:.1f} s in all, in {len(waiters)} of {_sessions(sessions)}; the longest {longest.waited:.1f} s: {longest.test}, for {whom}"


@contextlib.contextmanager
def writes(past: Past, what: str) -> Iterator[None]:
    """Around the writing of a file: whatever becomes of that, the run goes on to its end, which says what is wrong."""
    try:
        yield
    except (OSError, ValueError) as fault:
        past.unwritten.append(f"{what} can't be written: {getattr(fault, 'strerror', None) or fault}")


def write(config: pytest.Config, past: Past) -> None:
    """The files that were asked for. What can't be written in one, as half of a character, is written by its number."""
    folder = config.invocation_params.dir
    picture, report = config.getoption("lab_gantt"), config.getoption("lab_report")
    if picture:
        with writes(past, f"--lab-gantt {picture}"):
            (folder / picture).write_text(gantt(past.sessions), encoding="utf-8", errors="backslashreplace")
    if report:
        with writes(past, f"--lab-report {report}"), open(folder / report, "w", encoding="utf-8", errors="backslashreplace", newline="") as file:
            csv.writer(file).writerows(rows(past.sessions))


FIELDS = ("test", "worker", "instruments", "asked", "waited", "held", "end", "kept_by", "notes")


def rows(sessions: Sequence[Held]) -> list[Sequence[object]]:
    found: list[Sequence[object]] = [FIELDS]
    for it in sorted(sessions, key=lambda it: it.asked):
        kept = "; ".join(f"{name}: {by}" for name, by in it.kept.items())
        times = [f"{seconds:.3f}" for seconds in (it.asked, it.waited, it.took)]
        found.append([it.test, it.worker, " ".join(it.instruments), *times, it.end, kept, "; ".join(it.notes)])
    return found
