"""The commands that show what was, from a state folder: gantt, table and report."""

from __future__ import annotations

import argparse
import csv
import os
import statistics
import sys
import time
from datetime import datetime, timezone
from typing import Optional, TextIO

from .benches import records_of_journal
from .sessions import ENDS, TRIED, UNKNOWN, Fault, Past, Record, Session, bays_in, files_in, first, read_records, spans_waited_for
from .texts import aligned, called, counted, plain, span
from .words import reading


def local(t: Optional[float]) -> str:
    return "" if t is None else time.strftime("%Y-%m-%d %H:%M:%S", time.localtime(t))


def iso(t: Optional[float]) -> str:
    return "" if t is None else datetime.fromtimestamp(t, timezone.utc).isoformat(timespec="milliseconds")


WIDEST = 40  # letters of a column


def table_of(rows: list[list[str]]) -> str:
    return "\n".join([*aligned(rows, WIDEST), ""])


HEAD = ["station", "session", "by", "instruments", "asked", "held", "ended", "waited_s", "held_s", "end", "why", "notes"]


def write_csv(sessions: list[Session], until: float, out: TextIO) -> None:
    """A row for each session; its notes as they were written, a line each."""
    to = csv.writer(out, lineterminator="\n")
    to.writerow(HEAD)
    for it in sessions:
        notes = "\n".join(text for _, text in it.notes)
        spans = [f"{it.waited(until):.3f}", "" if it.held is None else f"{it.worked(until):.3f}"]
        number = "" if it.number is None else it.number
        to.writerow([it.station, number, it.by, " ".join(it.instruments), iso(it.asked), iso(it.held), iso(it.ended), *spans, it.how, it.why, notes])


def write_notes_csv(sessions: list[Session], lone: list[Record], out: TextIO) -> None:
    """A row for each note, with its own time; of those whose session isn't known, too."""
    to = csv.writer(out, lineterminator="\n")
    to.writerow(["time", "station", "session", "instruments", "note"])
    rows = [(t, it.station, it.number, it.instruments, text) for it in sessions for t, text in it.notes]
    rows += [(it["t"], it.get("station") or "", it.get("session"), tuple(it.get("instruments") or ()), it.get("text") or "") for it in lone]
    # (those of one moment stand as they were written)
    rows.sort(key=lambda row: (row[0], row[1], row[2] or 0))
    to.writerows([iso(t), station, number or "", " ".join(instruments), text] for t, station, number, instruments, text in rows)


OF_SESSION = ["station", "session", "asked", "waited", "held", "end", "instruments", "by", "notes"]


def write_table(sessions: list[Session], until: float, out: TextIO) -> None:
    rows = [OF_SESSION]
    for it in sessions:
        number = "" if it.number is None else str(it.number)
        spans = [span(it.waited(until), 2), "" if it.held is None else span(it.worked(until), 2)]
        notes = " | ".join(plain(text) for _, text in it.notes)
        end = f"{it.how}: {it.why}" if it.why else it.how
        rows.append([plain(it.station), number, local(it.asked), *spans, plain(end), plain(" ".join(it.instruments)), plain(it.by), notes])
    out.write(table_of(rows))


COUNTED = [*(it for it in ENDS.values() if it != TRIED), UNKNOWN]
OF_STATION = ["station", *COUNTED, "at work", "of the time", "waited", "longest wait"]
OF_INSTRUMENT = ["instrument", "sessions", "in use", "of the time", "waited for, unused", "median wait", "longest wait"]


def without_tries(sessions: list[Session]) -> list[Session]:
    return [it for it in sessions if it.how != TRIED]


def write_report(past: Past, its: list[Session], since: float, until: float, out: TextIO) -> None:
    sessions = without_tries(its)
    out.write(f"from {local(since)} to {local(until)}, {span(until - since, 2)}: {counted(len(sessions), 'session')}\n\n")
    out.write(table_of([OF_STATION, *(of_station(name, sessions, since, until) for name in past.stations)]))
    out.write("\n")
    out.write(table_of([OF_INSTRUMENT, *(of_instrument(name, sessions, since, until) for name in past.instruments)]))
    out.write("\n" if past.now else "")
    for it in past.now.values():
        is_gone = bool(it.gone) and it.gone[-1][1] is None
        about = f"has been gone since {local(it.gone[-1][0])}" if is_gone else f"{it.how} since {local(first(it.held, it.asked))}"
        out.write(f"{plain(it.station)} {about}: {plain(' '.join(it.instruments))}\n")


def of_station(name: str, sessions: list[Session], since: float, until: float) -> list[str]:
    own = [it for it in sessions if it.station == name]
    waits = [it.waited(until) for it in own]
    counts = [str(sum(it.how == end for it in own)) for end in COUNTED]
    return [plain(name), *counts, *used(own, since, until), span(sum(waits), 2), span(max(waits, default=0), 2)]


def of_instrument(name: str, sessions: list[Session], since: float, until: float) -> list[str]:
    own = [it for it in sessions if name in it.instruments]
    waits = [it.waited(until) for it in own]
    unused = sum(max(0.0, after - max(t, since)) for t, after in spans_waited_for(own, name, until))
    return [plain(name), str(len(own)), *used(own, since, until), span(unused, 2), span(statistics.median(waits or [0]), 2), span(max(waits, default=0), 2)]


def used(sessions: list[Session], since: float, until: float) -> list[str]:
    work = sum(it.worked(until, since) for it in sessions)
    return [span(work, 2), f"{100 * work / max(until - since, 1e-9):.0f} %"]


# the commands


def pasts_of(path: str, bay: Optional[str]) -> dict[str, tuple[Past, list[str]]]:
    """Of each bay of a lab by its name, or of the one that is wanted; of one bay alone, without a name."""
    bays = bays_in(path) if os.path.isdir(path) else []
    if bay is not None and not bays and os.path.isdir(path) and files_in(path):
        raise Fault(f"{path}: it is the folder of one bay, whose name isn't in it: leave --bay out")
    if bay is not None and bay not in bays:
        raise Fault(f"{path}: there is no bay {bay} in it: there {'is' if len(bays) == 1 else 'are'} {', '.join(bays) or 'none'}")
    return {name: read_past(f"{path}/{name}") for name in bays if bay in (None, name)} or {"": read_past(path)}


def read_past(path: str) -> tuple[Past, list[str]]:
    """Of a state folder or a journal; and a line for each file that isn't whole."""
    past = Past()
    if os.path.isdir(path):
        records, faults = read_records(path)
    else:
        with open(path, encoding="utf-8", errors="replace") as file:
            lines = list(file)
        if "steps\n" not in lines:
            raise Fault(f"{path}: it is no journal of a bench, which has a line `steps` (of a bay, name the folder)")
        try:
            records, faults = list(records_of_journal(lines)), []
        except Fault as fault:
            raise Fault(f"{path}: {fault}") from None
    for record in records:
        if record["what"] == "note" and past.key_of(record) not in past.now:
            past.lone.append(record)
        past.take(record)
    return past, faults


Chosen = tuple[Past, list[Session], float, float]


def chosen(args: argparse.Namespace) -> dict[str, Chosen]:
    """Of each bay the past, those of its sessions that reach into the span that was asked for, and the span: the same for all bays."""
    with reading(args.folder, "folder or file"):
        its = pasts_of(args.folder, args.bay)
    for _, faults in its.values():
        for it in faults:
            print(f"labrun-broker: {plain(it)}", file=sys.stderr)
    until = max(past.until for past, _ in its.values()) or time.time()
    since = min(first(past.begun, until) for past, _ in its.values())
    if args.last is not None:
        since = max(since, until - args.last)
    return {name: (past, [it for it in past.sessions() if first(it.ended, until) >= since], since, until) for name, (past, _) in its.items()}


def of_all(args: argparse.Namespace) -> tuple[list[Past], list[Session], float, float]:
    """The same of all bays together, in the order of asking."""
    its = list(chosen(args).values())
    return [it[0] for it in its], sorted((one for it in its for one in it[1]), key=lambda one: one.asked), *its[0][2:]


def run_table(args: argparse.Namespace) -> int:
    pasts, sessions, since, until = of_all(args)
    if args.notes:
        write_notes_csv(sessions, [it for past in pasts for it in past.lone if it["t"] >= since], sys.stdout)
    elif args.csv:
        write_csv(sessions, until, sys.stdout)
    else:
        write_table(sessions, until, sys.stdout)
    return 0


def run_report(args: argparse.Namespace) -> int:
    for at, (name, its) in enumerate(chosen(args).items()):
        if name:
            sys.stdout.write(f"{'' if at == 0 else chr(10)}{called('bay', name)}, ")
        write_report(*its, sys.stdout)
    return 0


def run_gantt(args: argparse.Namespace) -> int:
    from .picture import gantt

    pasts, sessions, since, until = of_all(args)
    instruments, stations = (list({name: None for past in pasts for name in getattr(past, its)}) for its in ("instruments", "stations"))
    text = gantt(without_tries(sessions), instruments, stations, since, until)
    if args.to is None:
        sys.stdout.write(text)
        return 0
    with open(args.to, "w", encoding="utf-8") as file:
        file.write(text)
    return 0
