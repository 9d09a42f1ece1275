#!/usr/bin/env python3
"""Measures the built program beside awk on large inputs, and prints a table.

Usage: checks/measure.py [ROUNDS]     (from the repository's root, after ./labrun was built; 5 rounds unless said)

Each round runs awk and labrun one after the other on the same file; of all rounds the best time counts. awk cuts the
same fields and counts them: awk '{ a[$1]++; b[$2]++; c[$3]++ } END { print NR }', with mawk where it is there.
"""
import os
import shutil
import subprocess
import sys
import tempfile
import time

ROOT = os.path.dirname(os.path.dirname(os.path.abspath(__file__)))
LABRUN = os.path.join(ROOT, "crates", "labrun", "out", "labrun")
AWK = [shutil.which("mawk") or "awk", "{ a[$1]++; b[$2]++; c[$3]++ } END { print NR }"]

# the word, the input, the wanted status, and how many times awk's time it may take
RUNS = [
    ("check", "sessions", 0, 1.5),
    ("check", "script", 0, 1.5),
    ("upgrade", "script", 0, 2.0),
    ("replay", "acts", 0, 3.0),
    ("replay", "long", 3, 3.0),
    ("replay", "glances", 3, 3.0),
    ("replay", "short", 3, 3.0),
]


def run(words, path, wanted):
    """The seconds that a program takes on an input, and its peak memory in bytes."""
    with open(path, "rb") as source:
        begun = time.perf_counter()
        child = subprocess.Popen(words, stdin=source, stdout=subprocess.DEVNULL)
        _, status, usage = os.wait4(child.pid, 0)
        seconds = time.perf_counter() - begun
    child.returncode = os.waitstatus_to_exitcode(status)
    if child.returncode != wanted:
        sys.exit("%s on %s ended with status %d" % (" ".join(words[:2]), path, child.returncode))
    return seconds, usage.ru_maxrss * 1024


def main():
    if sys.argv[1:] == ["--help"]:
        print(__doc__, end="")
        return
    rounds = int(sys.argv[1]) if len(sys.argv) > 1 else 5
    if not os.path.exists(LABRUN):
        sys.exit("labrun isn't built yet: run ./labrun --help once")
    with tempfile.TemporaryDirectory() as folder:
        subprocess.run([sys.executable, os.path.join(ROOT, "checks", "make_inputs.py"), folder], check=True)
        print("| run | input | bytes | awk | labrun | ratio | goal | peak memory | goal |")
        print("|---|---|---|---|---|---|---|---|---|")
        for word, name, status, goal in RUNS:
            path = os.path.join(folder, name + ".lab")
            size = os.path.getsize(path)
            awk = best = None
            peak = 0
            for _ in range(rounds):
                seconds, _ = run(AWK, path, 0)
                awk = seconds if awk is None else min(awk, seconds)
                seconds, memory = run([LABRUN, word], path, status)
                best = seconds if best is None else min(best, seconds)
                peak = max(peak, memory)
            most = 6 * size + 16 * 1024 * 1024
            print("| %s | %s | %d | %.3f s | %.3f s | %.2f | %.1f | %.1f MiB | %.1f MiB |" % (
                word, name, size, awk, best, best / awk, goal, peak / 2**20, most / 2**20), flush=True)


main()
