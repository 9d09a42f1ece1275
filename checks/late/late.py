#!/usr/bin/env python3
"""Late thirst, measured: labrun's package with bounds on overtaking, beside what one writes by hand, in one run.

usage: checks/late/late.py [--seconds S] [--best N] [--bays NAME,..] [--ways NAME,..] [--json FILE]

Stations without a pause ask for a session, sleep for its work, and let go, for S seconds (1: in more, a station that is always served would do
more than its thousand sessions; `mixed` takes four times as long). The bays (work of 1 ms, but in `mixed`):

  six        6 stations at 5 instruments; each session needs one to three of them by chance
  thirty-two 32 stations at 20 instruments, likewise
  greedy     12 stations at 6 instruments: eleven need one of them, by chance; the last needs all six
  ring       12 stations; each needs its own instrument and the next one's
  one        8 stations, all at the same instrument
  mixed      12 stations at 8 instruments, one to three by chance; work of 1 to 100 ms, as many short as long by their logarithms

The ways:

  labrun N   the package's `Lab`, with `overtakes=N`; 999999 is without bound
  Condition  one `threading.Condition` over the set of taken instruments: all at once, and who runs first takes them
  locks      a `threading.Lock` for each instrument, taken in one order
  FIFO       all at once, strictly in the order of asking

Sessions are the same ones, by chance with one seed, in all ways. The ways are taken in turn, N times (3), and each row is of the run in the
middle, by its sessions a second. Waits are from asking to holding, in milliseconds; one that still waits when the time is over counts
as long as it waited by then. `free` is the share of time in which an instrument stood free though somebody waited who needs it, the mean over
the instruments; `idle` the share in which somebody waited all of whose instruments were free. After the rows of each bay come the same numbers
as tables. The package is found by PYTHONPATH, the library by LABRUN_LIBRARY. Beside other work call it by `nice -n -15`: threads that are woken
then get a processor soon. (Not by a real-time priority: who lets go of a Condition would nearly always take it again before others come.)"""

import argparse
import collections
import json
import math
import os
import random
import statistics
import threading
import time

import labrun

MOST = 1000  # sessions of a station
BOUNDS = (0, 4, 16, 64, 999999)
WAYS = (*(f"labrun {it}" for it in BOUNDS), "Condition", "locks", "FIFO")
NAMES = {
    "six": "6 stations, 5 instruments",
    "thirty-two": "32 stations, 20 instruments",
    "greedy": "greedy: 11 need one of 6, one all",
    "ring": "ring of 12",
    "one": "8 at the same one",
    "mixed": "12 at 8, 1 to 100 ms",
}
BAYS = {"six": (6, 5), "thirty-two": (32, 20), "greedy": (12, 6), "ring": (12, 12), "one": (8, 1), "mixed": (12, 8)}


def sessions_of(bay):
    """Each station's sessions, as their instruments and the seconds of work."""
    stations, instruments = BAYS[bay]
    chance = random.Random(bay)

    def one(at):
        work = math.exp(chance.uniform(math.log(0.001), math.log(0.1))) if bay == "mixed" else 0.001
        if bay == "ring":
            return tuple(sorted((at, (at + 1) % stations))), work
        if bay == "one":
            return (0,), work
        if bay == "greedy":
            return tuple(range(6)) if at == 0 else (chance.randrange(6),), work
        return tuple(sorted(chance.sample(range(instruments), chance.randint(1, min(3, instruments))))), work

    return [[one(at) for _ in range(MOST)] for at in range(stations)]


def by_labrun(instruments, overtakes):
    names = [f"i-{it}" for it in range(instruments)]
    lab, held = labrun.Lab(names, overtakes=overtakes), threading.local()

    def acquire(needs):
        held.it = lab.hold(*(names[it] for it in needs))
        held.it.acquire()

    return by_calls(acquire, lambda needs: held.it.release()), lab.close


def by_calls(acquire, release):
    """Stations by two functions."""

    def with_plan(plan):
        def station(at, is_over, told, now=time.perf_counter, sleep=time.sleep):
            for needs, work in plan[at]:
                if is_over():
                    break
                asked = told[at] = now()
                acquire(needs)
                begun = now()
                sleep(work)
                ended = now()
                release(needs)
                told.append((at, asked, begun, ended, needs))

        return station

    return with_plan


def by_condition(instruments):
    condition, taken = threading.Condition(), set()

    def acquire(needs):
        with condition:
            while not taken.isdisjoint(needs):
                condition.wait()
            taken.update(needs)

    def release(needs):
        with condition:
            taken.difference_update(needs)
            condition.notify_all()

    return by_calls(acquire, release)


def by_locks(instruments):
    locks = [threading.Lock() for _ in range(instruments)]

    def acquire(needs):
        for it in needs:
            locks[it].acquire()

    def release(needs):
        for it in needs:
            locks[it].release()

    return by_calls(acquire, release)


def by_fifo(instruments):
    mutex, taken, line = threading.Lock(), set(), collections.deque()

    def acquire(needs):
        with mutex:
            if taken.isdisjoint(needs) and all(ahead.isdisjoint(needs) for ahead, _ in line):
                taken.update(needs)
                return
            turn = threading.Lock()
            turn.acquire()
            line.append((frozenset(needs), turn))
        turn.acquire()

    def release(needs):
        with mutex:
            taken.difference_update(needs)
            before = set(taken)
            for one in list(line):
                if before.isdisjoint(one[0]):
                    line.remove(one)
                    taken.update(one[0])
                    one[1].release()
                before.update(one[0])

    return by_calls(acquire, release)


def stations_of(way, bay, plan):
    """What a station does, and what to call at the end."""
    if way.startswith("labrun"):
        with_plan, close = by_labrun(BAYS[bay][1], int(way.split()[1]))
        return with_plan(plan), close
    return {"Condition": by_condition, "locks": by_locks, "FIFO": by_fifo}[way](BAYS[bay][1])(plan), lambda: None


class Told(list):
    """The sessions that were done, each as its station, when it asked, began and ended, and its instruments; and when each station asked last."""

    def __init__(self, stations):
        super().__init__()
        self.asked = [None] * stations

    def __setitem__(self, at, when):
        self.asked[at] = when


def one_run(way, bay, seconds):
    plan = sessions_of(bay)
    station, close = stations_of(way, bay, plan)
    told, ends = Told(len(plan)), [math.inf]
    start = threading.Barrier(len(plan) + 1)

    def go(at):
        start.wait()
        station(at, lambda: time.perf_counter() >= ends[0], told)

    threads = [threading.Thread(target=go, args=(at,)) for at in range(len(plan))]
    for thread in threads:
        thread.start()
    start.wait()
    begun = time.perf_counter()
    ends[0] = begun + seconds
    for thread in threads:
        thread.join()
    close()
    return reckoned(list(told), begun, ends[0], BAYS[bay][1])


def reckoned(told, begun, end, instruments):
    """What a run comes to, between its begin and its end."""
    told = [one for one in told if one[1] < end]
    waits = sorted(min(began, end) - asked for _, asked, began, _, _ in told)
    free, idle = shares(told, begun, end, instruments)
    last = max(one[3] for one in told)
    if last < end:  # a script was used up before
        end = last
    return {
        "rate": sum(ended <= end for *_, ended, _ in told) / (end - begun),
        "median": statistics.median(waits) * 1000,
        "p99": waits[min(len(waits) - 1, math.ceil(len(waits) * 0.99) - 1)] * 1000,
        "longest": waits[-1] * 1000,
        "free": free,
        "idle": idle,
        "told": [(at, asked - begun, began - begun, ended - begun, needs) for at, asked, began, ended, needs in told],
    }


def shares(told, begun, end, instruments):
    """The shares of time: an instrument free though wanted, by the mean; and somebody waiting whose instruments are all free."""
    events = []
    for number, (_, asked, began, ended, needs) in enumerate(told):
        events += [(asked, 0, number), (began, 1, number), (ended, 2, number)]
    events.sort()
    wanted, held = [0] * instruments, [0] * instruments
    waiting = set()
    free = idle = 0.0
    before = begun
    for when, what, number in events:
        span = min(when, end) - before
        if span > 0:
            free += span * sum(bool(w and not h) for w, h in zip(wanted, held))
            idle += span * any(not any(held[it] for it in told[one][4]) for one in waiting)
            before = min(when, end)
        needs = told[number][4]
        (waiting.add, waiting.discard, waiting.discard)[what](number)
        for it in needs:
            wanted[it] += (1, -1, 0)[what]
            held[it] += (0, 1, -1)[what]
    return free / (end - begun) / instruments, idle / (end - begun)


def main():
    words = argparse.ArgumentParser(usage=__doc__)
    words.add_argument("--seconds", type=float, default=1)
    words.add_argument("--best", type=int, default=3)
    words.add_argument("--bays", default=",".join(BAYS))
    words.add_argument("--ways", default=",".join(WAYS))
    words.add_argument("--json")
    given = words.parse_args()
    ways, kept = given.ways.split(","), {}
    for bay in given.bays.split(","):
        runs = {way: [] for way in ways}
        for _ in range(given.best):
            for way in ways:
                runs[way].append(one_run(way, bay, given.seconds * (4 if bay == "mixed" else 1)))
        found = {way: sorted(runs[way], key=lambda it: it["rate"])[len(runs[way]) // 2] for way in ways}
        kept[bay] = found
        tell(bay, found)
    tables(kept)
    if given.json:
        with open(given.json, "w", encoding="ascii") as file:
            json.dump({"bays": kept, "load": os.getloadavg()}, file)


def tables(kept):
    table("sessions a second", kept, lambda one: f"{one['rate']:.0f}")
    table("wait in ms: median; 99 of 100; longest", kept, lambda one: "; ".join(short(one[it]) for it in ("median", "p99", "longest")))
    table("% of the time: free though wanted; somebody could work", kept, lambda one: f"{100 * one['free']:.0f}; {100 * one['idle']:.0f}")
    if all("Condition" in found for found in kept.values()):
        beside = {bay: {way: {it: one[it] / found["Condition"][it] for it in ("rate", "longest")} for way, one in found.items()} for bay, found in kept.items()}
        table("beside Condition: sessions; longest wait", beside, lambda one: f"{one['rate']:.2f}; {one['longest']:.2f}")


def short(milliseconds):
    return f"{milliseconds:.{0 if milliseconds >= 9.95 else 1}f}"


def table(head, kept, cell):
    ways = list(next(iter(kept.values())))
    heads = [way.replace("labrun 999999", "without bound").replace("labrun", "overtakes") for way in ways]
    print(f"\n| {head} | " + " | ".join(heads) + " |\n" + "|---" * (len(ways) + 1) + "|")
    for bay, found in kept.items():
        print(f"| {NAMES[bay]} | " + " | ".join(cell(found[way]) for way in ways) + " |", flush=True)


def tell(bay, found):
    print(f"\n| {bay} | sessions a second | beside Condition | median wait, ms | 99 of 100 | longest | free | idle |\n" + "|---" * 8 + "|")
    for way, one in found.items():
        beside = f"{one['rate'] / found['Condition']['rate']:.2f}" if "Condition" in found else ""
        numbers = (f"{one['rate']:.0f}", beside, f"{one['median']:.2f}", f"{one['p99']:.1f}", f"{one['longest']:.1f}")
        print(f"| {way} | {' | '.join(numbers)} | {one['free']:.3f} | {one['idle']:.3f} |", flush=True)


if __name__ == "__main__":
    main()
