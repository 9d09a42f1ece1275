#!/usr/bin/env python3
"""Sessions a second: labrun's package for Python beside what one writes by hand, in one run.

usage: checks/broker/speed.py [--best N] [--work MICROSECONDS] [--sessions N] [--benches N] [--only THREADS,..]

Stations on 2, 8 and 32 threads do sessions without a pause (or with so many microseconds of work, asleep): each on an instrument of its own
(`disjoint`); each on its own and the next one's (`ring`); all on the same one (`all one`). They do them by

  labrun       one `labrun.Lab`: `with lab.hold(..): ..`; with LABRUN_FAST=0 without its extension in C, if that is built
  Condition    one `threading.Condition` over a set of the instruments that are taken: who waits is woken by each that lets go
  locks        a `threading.Lock` for each instrument, all taken in one order

Each number is the best of N runs (5), which are taken in turn; a run is so many labs (4), one after another; what is timed are the sessions
alone. Beside them stands labrun beside Condition, and below the geometric mean and the worst of these. The last columns are of one lab more,
which isn't timed: how long a session waits from asking to holding, in milliseconds, 99 of 100 and the longest. The package is found by PYTHONPATH, the library by LABRUN_LIBRARY. Nothing else should run on the machine: a session
that is handed over waits until the next thread gets a processor."""

import argparse
import math
import threading
import time
from time import perf_counter

import labrun

SHAPES = ("disjoint", "ring", "all one")
WAYS = ("labrun", "Condition", "locks")


def needs(shape, threads, at):
    """The instruments of a station, by their numbers."""
    return {"disjoint": [at], "ring": sorted({at, (at + 1) % threads}), "all one": [0]}[shape]


def by_labrun(shape, threads, sessions, work, waits):
    lab = labrun.Lab(f"i-{it}" for it in range(threads))

    def station(at):
        mine = [f"i-{it}" for it in needs(shape, threads, at)]
        for _ in range(sessions):
            asked = perf_counter() if waits is not None else 0
            with lab.hold(*mine):
                if waits is not None:
                    waits.append(perf_counter() - asked)
                if work:
                    time.sleep(work)

    return station, lab.close


def by_condition(shape, threads, sessions, work, waits):
    condition, taken = threading.Condition(), set()

    def station(at):
        mine = needs(shape, threads, at)
        for _ in range(sessions):
            asked = perf_counter() if waits is not None else 0
            with condition:
                while not taken.isdisjoint(mine):
                    condition.wait()
                taken.update(mine)
            if waits is not None:
                waits.append(perf_counter() - asked)
            if work:
                time.sleep(work)
            with condition:
                taken.difference_update(mine)
                condition.notify_all()

    return station, lambda: None


def by_locks(shape, threads, sessions, work, waits):
    locks = [threading.Lock() for _ in range(threads)]

    def station(at):
        mine = [locks[it] for it in needs(shape, threads, at)]
        for _ in range(sessions):
            asked = perf_counter() if waits is not None else 0
            for lock in mine:
                lock.acquire()
            if waits is not None:
                waits.append(perf_counter() - asked)
            if work:
                time.sleep(work)
            for lock in mine:
                lock.release()

    return station, lambda: None


def timed(way, shape, threads, sessions, work, waits=None):
    """The seconds that all sessions take; how long each waited is noted, if a list is given."""
    station, close = {"labrun": by_labrun, "Condition": by_condition, "locks": by_locks}[way](shape, threads, sessions, work, waits)
    start = threading.Barrier(threads)
    begun, ended = [0.0] * threads, [0.0] * threads

    def go(at):
        start.wait()
        begun[at] = time.perf_counter()
        station(at)
        ended[at] = time.perf_counter()

    each = [threading.Thread(target=go, args=(at,)) for at in range(threads)]
    for thread in each:
        thread.start()
    for thread in each:
        thread.join()
    close()
    return max(ended) - min(begun)


def waited(way, shape, threads, sessions, work):
    """The waits of the sessions of one bench, in milliseconds: 99 of 100, and the longest."""
    waits = []
    timed(way, shape, threads, sessions, work, waits)
    waits.sort()
    return f"{waits[len(waits) * 99 // 100] * 1e3:.2g}; {waits[-1] * 1e3:.2g}"


def main():
    words = argparse.ArgumentParser(usage=__doc__)
    words.add_argument("--best", type=int, default=5)
    words.add_argument("--work", type=float, default=0)
    words.add_argument("--sessions", type=int, default=1000)
    words.add_argument("--benches", type=int, default=4)
    words.add_argument("--only", default="2,8,32")
    given = words.parse_args()
    print(f"sessions a second, best of {given.best}" + (f", {given.work:g} us of work each" if given.work else ", empty sessions"))
    print("| shape | threads | " + " | ".join(WAYS) + " | labrun / Condition | " + " | ".join(f"{it}: waits" for it in WAYS) + " |")
    print("|" + "---|" * (2 * len(WAYS) + 3))
    beside = []
    for shape in SHAPES:
        for threads in map(int, given.only.split(",")):
            best = {way: 0.0 for way in WAYS}
            for _ in range(given.best):
                for way in WAYS:
                    took = sum(timed(way, shape, threads, given.sessions, given.work / 1e6) for _ in range(given.benches))
                    best[way] = max(best[way], given.benches * threads * given.sessions / took)
            beside.append(best["labrun"] / best["Condition"])
            speeds = " | ".join(f"{best[way]:.0f}" for way in WAYS)
            waits = " | ".join(waited(way, shape, threads, given.sessions, given.work / 1e6) for way in WAYS)
            print(f"| {shape} | {threads} | {speeds} | {beside[-1]:.3f} | {waits} |", flush=True)
    mean = math.exp(sum(map(math.log, beside)) / len(beside))
    print(f"labrun beside Condition: geometric mean {mean:.3f}, worst {min(beside):.3f}")


if __name__ == "__main__":
    main()
