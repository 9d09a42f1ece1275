#!/usr/bin/env python3
"""Measures the run of labrun alone, by one, two and four threads.

Usage: checks/alone.py [rounds=N] [program=PATH] [only=NAME,..] [ahead=yes] [awake=yes]     (from anywhere, after ./labrun was built; Linux, with cc)

The workloads are those of speed.py, and `most`: 12 jobs with 100000 commands, as many as a script may have, each on instruments of its
own. What is measured is told in alone.c, which is preloaded. Each run is made N times (20 unless said), one after another with the others.
With ahead=yes, as root, they have real-time priority, so that a machine with other work can measure; what else runs waits meanwhile.
With awake=yes too, a loop of the lowest priority runs on each processor meanwhile. A virtual processor with nothing to do is halted, and
its host may take a millisecond to wake it when a thread starts there; a machine of one's own takes a few microseconds.

Told are the best times in milliseconds, how many times as fast as one thread two and four are, by the best times and by those in the
middle, and what starting four threads takes.
"""
import contextlib
import os
import random
import subprocess
import sys
import tempfile

import make_scripts
import speed

MOST = ("most", "disjoint", dict(jobs=12, instruments=56, sessions=795, commands=20))


def measured(words, data, preload):
    """The four numbers of a run."""
    with open(data, "rb") as source:
        told = subprocess.run(words, stdin=source, stdout=subprocess.DEVNULL, stderr=subprocess.PIPE, env=dict(os.environ, LD_PRELOAD=preload), **speed.START)
    return [int(number) for number in told.stderr.split()]


@contextlib.contextmanager
def awake(wanted):
    """Keeps all processors busy, by loops that give way to whatever else runs."""
    loop = "import os; os.sched_setaffinity(0, {%d}); os.sched_setscheduler(0, os.SCHED_IDLE, os.sched_param(0))\nwhile True: pass"
    loops = [subprocess.Popen([sys.executable, "-c", loop % it]) for it in os.sched_getaffinity(0)] if wanted else []
    try:
        yield
    finally:
        for it in loops:
            it.kill()


def middle(numbers):
    return sorted(numbers)[len(numbers) // 2]


def main(words):
    if words and words[0] == "--help":
        print(__doc__, end="")
        return 0
    keys = dict(word.split("=") for word in words)
    rounds, program = int(keys.get("rounds", "20")), os.path.abspath(keys.get("program", speed.LABRUN))
    if keys.get("ahead") == "yes":
        speed.START["preexec_fn"] = speed.goes_ahead
    rows, starts = [], []
    with tempfile.TemporaryDirectory() as folder, awake(keys.get("awake") == "yes"):
        preload, data = os.path.join(folder, "alone.so"), os.path.join(folder, "script")
        subprocess.run(["cc", "-O2", "-shared", "-fPIC", "-o", preload, os.path.join(speed.HERE, "alone.c"), "-ldl"], check=True)
        for name, shape, named in (MOST, *speed.WORKLOADS):
            if "only" in keys and name not in keys["only"].split(","):
                continue
            with open(data, "w") as out:
                out.write(make_scripts.make(shape, random.Random(7), **named))
            found = {workers: [] for workers in speed.WORKERS}
            for _ in range(rounds):
                for workers, runs in found.items():
                    runs.append(measured([program, "threads", str(workers), speed.TURNS], data, preload))
            best, usual = ({workers: how(run[0] for run in runs) / 1e3 for workers, runs in found.items()} for how in (min, lambda it: middle(list(it))))
            times = ["%.2f (%.2f)" % (best[1] / best[workers], usual[1] / usual[workers]) for workers in speed.WORKERS[1:]]
            rows.append([name] + ["%.2f" % best[workers] for workers in speed.WORKERS] + times)
            # (jobs that share much have no threads)
            starts += [run[1:] for run in found[4] if run[1]]
    speed.table(["run alone, ms", "one thread", "two", "four", "two, times as fast", "four, times as fast"], rows)
    if starts:
        print("starting three threads takes %d us, the last begins after %d, and they are joined %d after its end (in the middle)" % tuple(map(middle, zip(*starts))))
    return 0


if __name__ == "__main__":
    sys.exit(main(sys.argv[1:]))
