#!/usr/bin/env python3
"""What bounds on overtaking come to by the definitions: the bays of `late.py` in a time of its own, in which no call takes any.

usage: checks/late/reckon.py [--seconds S] [--bays NAME,..] [--json FILE]

A session begins its work 80 microseconds after it came to hold, as a thread that is woken, and asks again 40 after its end. The bench's calls are done
by `checks/simulate.py` (as the package's tests call it, `bindings/python/tests/simulated.py`), so nothing depends on the library or the
machine, and each call of this prints the same. Beside them `at once`: all at once, who asked first before others, and `FIFO`, as in `late.py`.
It reckons S seconds of each bay (0.5; of `mixed` 8 times as long, of `thirty-two` a third), in some minutes."""

import argparse
import ctypes
import heapq
import json
import os
import sys

HERE = os.path.dirname(os.path.realpath(__file__))
sys.path[:0] = [os.path.join(HERE, "..", "..", "bindings", "python")]

import late  # noqa: E402
from labrun._library import Came, Handle, Told, Turned  # noqa: E402
from tests.simulated import Simulated  # noqa: E402

WOKEN, AGAIN = 80e-6, 40e-6
WAYS = (*(f"labrun {it}" for it in late.BOUNDS), "at once", "FIFO")


class Labrun:
    """The bench, by the definitions."""

    def __init__(self, plan, overtakes):
        text = ["lab 1"]
        for at, sessions in enumerate(plan):
            text.append(f"job station-{at}")
            for needs, _ in sessions:
                text += ["session", *(f"i-{it} add 1" for it in needs), "end"]
        script = ("\n".join(text) + "\n").encode()
        self.calls, self.handle, self.came, self.turned = Simulated(), ctypes.byref(Handle()), Came(), Turned()
        assert self.calls.lab_bench_open(script, len(script), self.handle, ctypes.byref(Told())) == 0
        self.calls.lab_overtakes(self.handle, overtakes)
        self.waiting = 0

    def ask(self, at, needs):
        self.waiting |= 1 << at

    def end(self, at, needs):
        self.calls.lab_end(self.handle, at, ctypes.byref(self.turned))

    def came_to_hold(self):
        self.calls.lab_settle(self.handle, self.waiting, ctypes.byref(self.came))
        held = self.came.holds & self.waiting
        self.waiting &= ~held
        return [at for at in range(32) if held >> at & 1]


class Line:
    """All at once, in the order of asking; strictly so, if nobody may pass one who waits for the same instrument."""

    def __init__(self, is_strict):
        self.is_strict, self.line, self.taken = is_strict, [], set()

    def ask(self, at, needs):
        self.line.append((at, needs))

    def end(self, at, needs):
        self.taken.difference_update(needs)

    def came_to_hold(self):
        before, found = set(self.taken), []
        for at, needs in self.line:
            if before.isdisjoint(needs):
                found.append((at, needs))
                self.taken.update(needs)
                before.update(needs)
            elif self.is_strict:
                before.update(needs)
        self.line = [it for it in self.line if it not in found]
        return [at for at, _ in found]


def one_run(way, bay, seconds):
    plan = late.sessions_of(bay)
    bench = Labrun(plan, int(way.split()[1])) if way.startswith("labrun") else Line(way == "FIFO")
    events, told = [(0.0, at, at, True) for at in range(len(plan))], []
    heapq.heapify(events)
    asked, began, done = [None] * len(plan), [None] * len(plan), [0] * len(plan)
    count = len(plan)
    while events and events[0][0] < seconds:
        now, _, at, asks = heapq.heappop(events)
        needs, work = plan[at][done[at]]
        count += 1
        if asks:
            asked[at], began[at] = now, None
            bench.ask(at, needs)
        else:
            told.append((at, asked[at], began[at], now, needs))
            asked[at] = None
            done[at] += 1
            bench.end(at, needs)
            if done[at] < len(plan[at]):
                heapq.heappush(events, (now + AGAIN, count, at, True))
        for one in bench.came_to_hold():
            began[one] = now
            heapq.heappush(events, (now + WOKEN + plan[one][done[one]][1], count, one, False))
    for at, since in enumerate(asked):
        if since is not None:
            told.append((at, since, seconds if began[at] is None else began[at], seconds + 1e-9, plan[at][done[at]][0]))
    return late.reckoned(told, 0.0, seconds, late.BAYS[bay][1])


def main():
    words = argparse.ArgumentParser(usage=__doc__)
    words.add_argument("--seconds", type=float, default=0.5)
    words.add_argument("--bays", default=",".join(late.BAYS))
    words.add_argument("--json")
    given = words.parse_args()
    kept = {}
    for bay in given.bays.split(","):
        seconds = given.seconds * {"mixed": 8, "thirty-two": 1 / 3}.get(bay, 1)
        kept[bay] = {way: one_run(way, bay, seconds) for way in WAYS}
        print(bay, *(f"{way}: {one['rate']:.0f}" for way, one in kept[bay].items()), sep="  ", file=sys.stderr, flush=True)
    late.tables(kept)
    if given.json:
        with open(given.json, "w", encoding="ascii") as file:
            json.dump({"bays": kept}, file)


if __name__ == "__main__":
    main()
