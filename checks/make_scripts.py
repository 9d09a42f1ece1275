#!/usr/bin/env python3
"""Writes scripts of several shapes, all within the limits of labrun.

Usage:
  checks/make_scripts.py SHAPE [KEY=NUMBER ..]        one script, on standard output
  checks/make_scripts.py --all FOLDER COUNT [SEED]    COUNT small ones of all shapes, into a folder

SHAPE is one of
  ring      job k shares an instrument with each of its two neighbours
  clique    all jobs share all instruments, at most 28
  star      the first job shares an instrument with each of the others
  pairs     two jobs each share all their instruments, and nothing with the others
  disjoint  each job has instruments of its own
  random    each session picks any instruments
and the keys, with what they are if not said, are jobs=8 (1 to 32), instruments=8 (1 to 56), sessions=3 (of each job, 0 to
1000), commands=4 (the most in a session, 1 to 20), version=1, patience=10 (the greatest; version 2 alone),
patient=50 (how many of a hundred sessions have one), own=0 (instruments of each job's own besides, where there is room),
seed=1.
"""
import os
import random
import sys

SHAPES = ("ring", "clique", "star", "pairs", "disjoint", "random")
MOST_INSTRUMENTS, MOST_IN_COMMON, MOST_COMMANDS = 56, 28, 100000


def pools(shape, jobs, instruments, own):
    """For each job the numbers of the instruments that it may name."""
    if shape == "ring":
        count = min(max(instruments, 1), MOST_INSTRUMENTS, jobs)
        found = [sorted({k % count, (k + 1) % count}) for k in range(jobs)]
    elif shape == "clique":
        count = min(instruments, MOST_IN_COMMON)
        found = [list(range(count)) for _ in range(jobs)]
    elif shape == "star":
        count = min(max(instruments, 1), MOST_IN_COMMON, max(jobs - 1, 1))
        found = [list(range(count))] + [[k % count] for k in range(jobs - 1)]
    elif shape == "pairs":
        groups = (jobs + 1) // 2
        each = max(1, min(instruments, MOST_INSTRUMENTS) // groups)
        each, count = min(each, MOST_IN_COMMON), groups * min(each, MOST_IN_COMMON)
        found = [list(range(k // 2 * each, k // 2 * each + each)) for k in range(jobs)]
    elif shape == "disjoint":
        each = max(1, min(instruments, MOST_INSTRUMENTS) // jobs)
        count = each * jobs
        found = [list(range(k * each, k * each + each)) for k in range(jobs)]
    else:
        count = min(instruments, MOST_INSTRUMENTS)
        found = [list(range(count)) for _ in range(jobs)]
    for pool in found:
        for _ in range(own):
            if count < MOST_INSTRUMENTS:
                pool.append(count)
                count += 1
    return found


def command(instrument, chance):
    verb = chance.choice(("set %d" % chance.choice((0, 7, 999999)), "add %d" % chance.choice((1, 3, 500000)), "read"))
    return "i%d %s" % (instrument, verb)


def make(shape, chance, jobs=8, instruments=8, sessions=3, commands=4, version=1, patience=10, patient=50, own=0):
    """The text of a script."""
    lines, left = ["lab %d" % version], MOST_COMMANDS
    named = [set() for _ in range(jobs)]
    for job, pool in enumerate(pools(shape, jobs, instruments, own)):
        if shape == "random" and len(pool) > MOST_IN_COMMON:
            pool = chance.sample(pool, MOST_IN_COMMON)
        lines.append("job j%d" % job)
        for _ in range(sessions):
            if left == 0:
                break
            count = min(chance.randint(1, commands), left)
            left -= count
            # of few instruments, so that a session often comes back to one of them
            few = chance.sample(pool, min(len(pool), chance.randint(1, count)))
            chosen = [chance.choice(few) for _ in range(count)]
            named[job].update(chosen)
            plain = version == 1 or chance.randrange(100) >= patient
            lines.append("session" if plain else "session patience %d" % chance.randint(0, patience))
            lines += [command(instrument, chance) for instrument in chosen]
            lines.append("end")
    for job, own_names in enumerate(named):
        assert all(len(own_names & other) <= MOST_IN_COMMON for other in named[:job])
    return "".join(line + "\n" for line in lines)


def small(chance):
    """A small script of a shape, a size and a version that are picked by chance."""
    shape = chance.choice(SHAPES)
    jobs = chance.choice((0, 1, 2, 2, 3, 3, 4, 5, 8)) if shape == "random" else chance.choice((1, 2, 2, 3, 3, 4, 6, 8))
    return make(
        shape, chance, jobs=jobs, instruments=chance.choice((1, 2, 3, 5, 12, 40)), sessions=chance.choice((0, 1, 1, 2, 3, 4)),
        commands=chance.choice((1, 2, 4)), version=chance.choice((1, 2)), patience=chance.choice((0, 1, 3, 30)),
        patient=chance.choice((20, 50, 100)), own=chance.choice((0, 0, 1)))


def large(chance):
    """One of any size: up to 32 jobs and 56 instruments, up to 20 commands a session."""
    shape = chance.choice(SHAPES)
    return make(
        shape, chance, jobs=chance.choice((4, 8, 12, 16, 24, 32)), instruments=chance.choice((1, 4, 12, 28, 56)),
        sessions=chance.choice((1, 3, 10, 30)), commands=chance.choice((1, 4, 10, 20)), version=chance.choice((1, 2)),
        patience=chance.choice((0, 2, 20, 1000)), patient=chance.choice((10, 50, 100)), own=chance.choice((0, 0, 1)))


def contended(chance):
    """Few jobs with many short sessions on few instruments: where threads meet most."""
    return make(
        chance.choice(("ring", "clique", "clique", "star", "pairs")), chance, jobs=chance.choice((2, 2, 3, 4, 6)),
        instruments=chance.choice((1, 2, 3)), sessions=chance.choice((20, 60, 200)), commands=chance.choice((1, 2)),
        version=chance.choice((1, 2)), patience=chance.choice((1, 30, 1000)), patient=chance.choice((10, 50)))


def main(words):
    if not words or words[0] == "--help":
        print(__doc__, end="")
        return 0
    if words[0] == "--all":
        folder, count = words[1], int(words[2])
        chance = random.Random(int(words[3]) if len(words) > 3 else 1)
        os.makedirs(folder, exist_ok=True)
        for number in range(count):
            with open(os.path.join(folder, "script-%05d.lab" % number), "w") as out:
                out.write(small(chance) if number % 4 else large(chance))
        return 0
    if words[0] not in SHAPES:
        sys.exit("no such shape: %s" % words[0])
    keys = dict(word.split("=") for word in words[1:])
    seed = int(keys.pop("seed", "1"))
    sys.stdout.write(make(words[0], random.Random(seed), **{key: int(value) for key, value in keys.items()}))
    return 0


if __name__ == "__main__":
    sys.exit(main(sys.argv[1:]))
