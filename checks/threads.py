#!/usr/bin/env python3
"""Measures whether threads are slower than one: whole programs, by rounds and by two, three and four threads.

Usage: checks/threads.py [rounds=N] [program=PATH[,PATH..]] [only=NAME,..] [busy=N] [apart=yes] [awake=yes] [limit=SECONDS]
       (from anywhere, after ./labrun was built; Linux)

The workloads are the sixteen of `speed.py kit=wide`. Each run is made N times (9 unless said), one after another with all others of its
workload, of all programs: so what else the machine does meets all alike. A program is labrun, or any that takes the same words, as the
port of checks/peers. Told are, in milliseconds from a program's start to its end, the time in the middle and, in brackets, the worst. A
run takes `limit` seconds at most (2 unless said), and is then ended and counted as so long, with a plus sign. Once the runs of one kind
have taken twice as long together, the others of that kind are left out; so one program takes about seven minutes at worst.

With busy=4 as many processes that compute are there meanwhile. Linux divides the processors among sessions first, if it does so (see
/proc/sys/kernel/sched_autogroup_enabled), and then among the processes of each. The busy ones are of this program's session, as those
are that one starts beside it in a terminal; with apart=yes each is of a session of its own. For a thread that yields this is all the
difference: it gives way to those of its own session, for milliseconds, and hardly to others. With awake=yes loops of the lowest
priority keep the processors from being halted (see alone.py).

The last two columns are the goals: the slowest of the threads, in the middle, beside the faster of `rounds` and `threads 2` (at most
1.2), and the worst run of any beside the one in the middle of its kind (at most 3). The status is 1 if one of them is missed, or if a
run was ended by its limit."""
import contextlib
import os
import random
import signal
import statistics
import subprocess
import sys
import tempfile
import threading
import time

import alone
import make_scripts
import speed

MODES = ("rounds", "threads 2", "threads 3", "threads 4")
SLOWER_GOAL, WORST_GOAL = 1.2, 3.0
BUSY = "while True: pass"


@contextlib.contextmanager
def busy(count, apart):
    """So many processes that compute."""
    loops = [subprocess.Popen([sys.executable, "-c", BUSY], start_new_session=apart) for _ in range(count)]
    try:
        yield
    finally:
        for it in loops:
            it.kill()
            it.wait()


def milliseconds(program, mode, data, limit):
    """How long one run took, and whether it came to its end."""
    begun = time.perf_counter()
    with open(data, "rb") as source:
        how = {"stdin": source, "stdout": subprocess.PIPE, "stderr": subprocess.DEVNULL, "bufsize": 0}
        run = subprocess.Popen([program, *mode.split(), speed.TURNS], **how)
    end = threading.Timer(limit, run.kill)
    end.start()
    while run.stdout.read(1 << 16):
        pass
    status, took = run.wait(), time.perf_counter() - begun
    end.cancel()
    run.stdout.close()
    if status not in (0, -signal.SIGKILL):
        sys.exit("%s %s: status %d" % (program, mode, status))
    return took * 1e3, status == 0


class Kind:
    """The runs of one program in one mode."""

    def __init__(self):
        self.times, self.all_ended = [], True

    def is_done(self, limit):
        return len(self.times) >= 3 and sum(self.times) > 2e3 * limit

    def add(self, took, ended):
        self.times.append(took)
        self.all_ended = self.all_ended and ended

    def middle(self):
        return statistics.median(self.times)

    def worst(self):
        return max(self.times)

    def told(self):
        return "%.1f (%.1f%s)" % (self.middle(), self.worst(), "" if self.all_ended else "+")


def measured(programs, data, rounds, limit):
    """The kinds of runs of one workload, by program and mode."""
    kinds = {(program, mode): Kind() for program in programs for mode in MODES}
    for _ in range(rounds):
        for (program, mode), kind in kinds.items():
            if not kind.is_done(limit):
                kind.add(*milliseconds(program, mode, data, limit))
    return kinds


def goals(kinds, program):
    """How much slower threads are than the better of the first two modes, and how much the worst run is than its middle one."""
    own = {mode: kinds[program, mode] for mode in MODES}
    better = min(own[mode].middle() for mode in MODES[:2])
    return max(own[mode].middle() for mode in MODES[1:]) / better, max(it.worst() / it.middle() for it in own.values())


def row(name, programs, kinds):
    """A line of the table, and whether all its goals are met."""
    told, met = [name], True
    for program in programs:
        slower, worst = goals(kinds, program)
        told += [kinds[program, mode].told() for mode in MODES] + ["%.2f" % slower, "%.1f" % worst]
        ended = all(kinds[program, mode].all_ended for mode in MODES)
        met = met and ended and slower <= SLOWER_GOAL and worst <= WORST_GOAL
    return told, met


def heads(programs):
    found = ["ms, in the middle (worst)"]
    for program in programs:
        mark = "" if len(programs) == 1 else " %d" % (programs.index(program) + 1)
        found += [mode + mark for mode in MODES] + ["slower than the better" + mark, "worst / middle" + mark]
    return found


def main(words):
    if words and words[0] == "--help":
        print(__doc__)
        return 0
    keys = dict(word.split("=") for word in words)
    programs = [os.path.abspath(it) for it in keys.get("program", speed.LABRUN).split(",")]
    rounds, limit, only = int(keys.get("rounds", "9")), float(keys.get("limit", "2")), keys.get("only", "").split(",")
    rows, all_met, begun = [], True, time.monotonic()
    with tempfile.TemporaryDirectory() as folder, alone.awake(keys.get("awake") == "yes"), \
            busy(int(keys.get("busy", "0")), keys.get("apart") == "yes"):
        for name, shape, named in speed.WORKLOADS + speed.WIDE:
            if only != [""] and name not in only:
                continue
            data = os.path.join(folder, "script")
            with open(data, "w") as out:
                out.write(make_scripts.make(shape, random.Random(7), **named))
            told, met = row(name, programs, measured(programs, data, rounds, limit))
            rows, all_met = rows + [told], all_met and met
            print("%s: %.0f s so far" % (name, time.monotonic() - begun), file=sys.stderr)
    for number, program in enumerate(programs if len(programs) > 1 else [], 1):
        print("%d is %s" % (number, program))
    speed.table(heads(programs), rows)
    goals_told = (SLOWER_GOAL, WORST_GOAL, "met" if all_met else "missed")
    print("goals, at most: %.1f times the better of rounds and threads 2; no run above %.0f times the one in the middle: %s" % goals_told)
    print("load now: %.0f; %d processors" % (os.getloadavg()[0], len(os.sched_getaffinity(0))))
    return 0 if all_met else 1


if __name__ == "__main__":
    sys.exit(main(sys.argv[1:]))
