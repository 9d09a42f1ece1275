#!/usr/bin/env python3
"""Sessions a second with a journal: without one, in memory, on a disk, and beside SQLite, in one run.

usage: checks/journal/speed.py [--best N] [--folder FOLDER] [--back]      FOLDER is on the disk to be measured (the current one)

Stations of a `labrun.Lab` on 1 and 8 threads do empty sessions: each on an instrument of its own (`disjoint`), on its own and the next one's (`ring`), or all on
the same one (`all one`), as in checks/broker/speed.py. The columns:

  without            no journal
  memory none, data  a journal in /dev/shm, with sync="none" and sync="data"
  disk               a journal in FOLDER, with sync="data"
  SQLite             no lab at all: a row a session, WAL, synchronous=FULL, one connection behind a lock; `two`: a row as the session begins,
                     and a change of it as it ends, which promises what a journal does: that who holds is on the disk before it begins

Each number is the best of N runs (5). With --back, how long the way back takes from a long journal. The package is found by
PYTHONPATH, the library by LABRUN_LIBRARY."""

import argparse
import os
import sqlite3
import sys
import tempfile
import threading
import time

import labrun

sys.path.insert(0, os.path.join(os.path.dirname(os.path.realpath(__file__)), "..", "broker"))
from speed import needs  # noqa: E402


def by_labrun(shape, threads, sessions, **journal):
    """A `labrun.Lab` with a station for each thread."""
    uses = [[f"i-{it}" for it in needs(shape, threads, at)] for at in range(threads)]
    names = list(dict.fromkeys(name for each in uses for name in each))
    lab = labrun.Lab(names, stations={f"station-{at}": each for at, each in enumerate(uses)}, **journal)

    def station(at):
        mine = lab.station(f"station-{at}")
        for _ in range(sessions):
            with mine.hold(*uses[at]):
                pass

    return station, lab.close


def by_sqlite(path, threads, sessions, two):
    rows, lock = sqlite3.connect(path, isolation_level=None, check_same_thread=False), threading.Lock()
    rows.execute("pragma journal_mode=wal")
    rows.execute("pragma synchronous=full")
    rows.execute("create table sessions (job integer, number integer, state text)")

    def station(at):
        for number in range(sessions):
            if two:
                with lock:
                    it = rows.execute("insert into sessions values (?, ?, 'held')", (at, number)).lastrowid
                with lock:
                    rows.execute("update sessions set state = 'done' where rowid = ?", (it,))
            else:
                with lock:
                    rows.execute("insert into sessions values (?, ?, 'done')", (at, number))

    return station, rows.close


def timed(station, close, threads):
    start, ends = threading.Barrier(threads), []

    def go(at):
        start.wait()
        begun = time.perf_counter()
        station(at)
        ends.append((begun, time.perf_counter()))

    each = [threading.Thread(target=go, args=(at,)) for at in range(threads)]
    for thread in each:
        thread.start()
    for thread in each:
        thread.join()
    close()
    return max(end for _, end in ends) - min(begun for begun, _ in ends)


def columns(shape, threads, memory, disk):
    """Each column's name, how many sessions of a thread it does, and what does them."""
    many, few = 1000 // threads * 2 if threads > 1 else 1000, 160 // threads

    def journal(folder, sync):
        return {"journal": os.path.join(folder, "bay.journal"), "sync": sync}

    return [
        ("without", many, lambda: by_labrun(shape, threads, many)),
        ("memory none", many, lambda: by_labrun(shape, threads, many, **journal(memory, "none"))),
        ("memory data", many, lambda: by_labrun(shape, threads, many, **journal(memory, "data"))),
        ("disk", few, lambda: by_labrun(shape, threads, few, **journal(disk, "data"))),
        ("SQLite", few, lambda: by_sqlite(os.path.join(disk, "rows"), threads, few, False)),
        ("SQLite two", few, lambda: by_sqlite(os.path.join(disk, "rows"), threads, few, True)),
    ]


def way_back(memory):
    path, threads, sessions = os.path.join(memory, "large.journal"), 16, 1000
    took = timed(*by_labrun("ring", threads, sessions, journal=path, sync="none"), threads)
    with open(path, "rb") as file:
        text = file.read()
    begun = time.perf_counter()
    _, close = by_labrun("ring", threads, 0, journal=path)
    back = time.perf_counter() - begun
    close()
    lines = text.count(b"\n")
    print(f"the way back: {threads * sessions} sessions took {took:.1f} s; their journal, {lines} lines, {len(text)} bytes, is read again in {back:.2f} s")


def main():
    words = argparse.ArgumentParser(usage=__doc__)
    words.add_argument("--best", type=int, default=5)
    words.add_argument("--folder", default=".")
    words.add_argument("--back", action="store_true")
    given = words.parse_args()
    rows = [("disjoint", 1), ("disjoint", 8), ("ring", 8), ("all one", 8)]
    names = [name for name, _, _ in columns("disjoint", 1, "", "")]
    print("| shape | threads | " + " | ".join(names) + " | memory none / without | memory data / without | disk / SQLite |")
    print("|" + "---|" * (len(names) + 5))
    for shape, threads in rows:
        best = dict.fromkeys(names, 0.0)
        for _ in range(given.best):
            with tempfile.TemporaryDirectory(dir="/dev/shm") as memory, tempfile.TemporaryDirectory(dir=given.folder) as disk:
                for name, sessions, make in columns(shape, threads, memory, disk):
                    for folder in (memory, disk):
                        for file in os.listdir(folder):
                            os.unlink(os.path.join(folder, file))
                    best[name] = max(best[name], threads * sessions / timed(*make(), threads))
        times = [f"{best['without'] / best[name]:.2f}" for name in ("memory none", "memory data")]
        shown = [shape, str(threads), *(f"{best[name]:.0f}" for name in names), *times, f"{best['disk'] / best['SQLite']:.2f}"]
        print("| " + " | ".join(shown) + " |")
    if given.back:
        with tempfile.TemporaryDirectory(dir="/dev/shm") as memory:
            way_back(memory)


if __name__ == "__main__":
    main()
