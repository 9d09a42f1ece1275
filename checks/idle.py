#!/usr/bin/env python3
"""What a waiting thread costs, and how soon it is woken.

    checks/idle.py PROGRAM [how=sleep] [seconds=4] [threads=2,4,8,32]

PROGRAM is built by `checks/idle/build FOLDER`. All jobs need one instrument, each has a thread of its own, and whoever holds it works for
100 ms (it sleeps), while all others wait. So processor time beside wall time tells what a waiting thread costs. The program says for each
session how long after the last holder let go the next one held. The last line is of all numbers of threads: the worst share, and the
times together."""
import os, resource, subprocess, sys, time

HOLD_MS = 100


def run(program, threads, how, seconds):
    sessions = max(1, round(seconds * 1000 / HOLD_MS / threads))
    before, begun = resource.getrusage(resource.RUSAGE_CHILDREN), time.monotonic()
    got = subprocess.run([program, str(threads), str(sessions), str(HOLD_MS), how, "0"], stdin=subprocess.DEVNULL, capture_output=True, text=True,
                         timeout=60 + 20 * seconds)
    wall = time.monotonic() - begun
    after = resource.getrusage(resource.RUSAGE_CHILDREN)
    if got.returncode:
        sys.exit("%d threads: status %d, %s" % (threads, got.returncode, got.stderr[:200]))
    used = after.ru_utime + after.ru_stime - before.ru_utime - before.ru_stime
    # (at any time one holds, and does nothing, and all others wait)
    return used / wall / max(1, threads - 1), sorted(int(line) for line in got.stdout.split()), wall


def at(times, part):
    return "%d us" % times[min(len(times) - 1, int(part * len(times)))] if times else "?"


def main(words):
    if not words or words[0] == "--help":
        print(__doc__)
        return 0 if words else 2
    keys = dict(word.split("=") for word in words[1:])
    worst, together = 0, []
    for threads in (int(word) for word in keys.get("threads", "2,4,8,32").split(",")):
        share, woken, wall = run(os.path.abspath(words[0]), threads, keys.get("how", "sleep"), float(keys.get("seconds", "4")))
        worst = max(worst, share)
        together += woken
        print("%d threads, %.1f s: a waiting thread takes %.3f of a core; woken after %s, 99 of 100 after %s" % (
            threads, wall, share, at(woken, 0.5), at(woken, 0.99)), flush=True)
    together.sort()
    print("a waiting thread takes %.3f of a core; woken after %s, 99 of 100 after %s" % (worst, at(together, 0.5), at(together, 0.99)))
    return 0


if __name__ == "__main__":
    sys.exit(main(sys.argv[1:]))
