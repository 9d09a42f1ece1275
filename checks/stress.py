#!/usr/bin/env python3
"""Many runs of labrun over generated scripts, each report checked whole.

Usage: checks/stress.py PROGRAM [runs=N] [seed=S] [minutes=M] [keep=FOLDER] [faults=no] [gates=yes]
       checks/stress.py PROGRAM stops [keep=FOLDER] [gates=yes]
       checks/stress.py PROGRAM sleeps [runs=N] [seed=S]

PROGRAM is the built program (crates/labrun/out/labrun), or whatever takes the same words: checks/simulate.py, a peer of
checks/peers. It makes N runs (1000 unless said), or as many as M minutes allow. Each script is of one of six shapes and of
either version, with 0 to 32 jobs and up to 56 instruments (checks/make_scripts.py), and is run some times:

- `rounds N`, and without words: the output and the status are those of checks/simulate.py, byte for byte.
- `threads W N` with 1 to 8 workers (now and then up to 32) and turns from 0 up: the report passes every check of
  checks/check_report.py. Besides, jobs that share instruments only with jobs of the same worker do just what they do by
  rounds, whatever the other workers do; so with one worker the whole report is that of the rounds.
- A script that is spoilt in one line: output, line of the fault and status are those of the simulator (not with faults=no,
  for a peer that knows no faults).

A run by threads that hasn't finished although each desk had a million turns and a thousand times what rounds take is told
as a suspect, and kept too: nothing promises that it ends, but a request that was lost looks like that.

A third of the runs by threads is kept on one core, and a third on two, so that workers are also stopped in the midst of a
turn and others go on for a whole slice of time (where the system has `taskset`).

With `stops` a few plans are stopped everywhere: a second session, a ring, a clique, two edges with 28 bottles each, patience,
and the examples. With each limit from 0 to past the end, `rounds` and `threads` with one worker print what the simulator does;
with two and three workers and each number of turns from 0 to 20, some times each, every report is checked.

With gates=yes PROGRAM is the program with a gate, which checks/gated/build builds. It is the one for races: labrun itself starts threads only
for jobs that share little. Nine of ten runs by threads then go through one
(`threads W N KIND SEED`), which holds workers up before turns that the seed chooses: they yield, are delayed, so long that
others fall asleep now and then, or wait until another job has begun some more turns. The checks are the same.

With `sleeps` PROGRAM is the one that checks/idle/build builds. Two or five threads need one instrument by turns, and whoever holds it
works for a millisecond, so all others fall asleep in each session. Each thread is held up at moments that the seed chooses: after
what it did, before it wakes the others, and after its last idle look, before it sleeps. Each run has to come to its end.

Nothing may stand on standard error but the line of a fault, and no run may take longer than 120 seconds. At the end it
prints how many runs there were and how many problems; the script of each problem is kept, with the words and what the
program wrote, in FOLDER (a new one under the system's place for temporary files unless said). The status is 1 where there
was a problem.
"""
import collections
import os
import random
import shutil
import subprocess
import sys
import tempfile
import time

sys.path.insert(0, os.path.dirname(os.path.abspath(__file__)))
import check_report
import make_scripts
import simulate

LOOKS = 300_000   # about how many looks of one script the simulator takes
SECONDS = 120


class Reckoned:
    """A script with what the simulator says of it, as far as it is quick enough to say it."""

    def __init__(self, text):
        self.text = text
        self.plan = simulate.read_script(text.encode())
        turns = len(self.plan.job_names)
        self.most = max(5, LOOKS // (2 * len(self.plan.edges) + turns + 1))
        run = simulate.Run(self.plan)
        run.drive_rounds(self.most)
        self.whole, self.finished = run.rounds, run.all_retired()
        self.known = {}

    def has(self, limit):
        return self.finished or limit <= self.most

    def prepare(self, limits):
        """Reckons the reports of all these limits, in one go."""
        run = simulate.Run(self.plan)
        for limit in sorted({min(limit, self.whole) for limit in limits}):
            run.drive_rounds(limit)
            self.known[limit] = (run.report(), run.status())

    def after(self, limit):
        """The report and the status after this many rounds, of the limits that were prepared."""
        return self.known[min(limit, self.whole)]

    def groups(self):
        """The jobs, in groups: two are in one where a chain of edges leads from one to the other."""
        group = list(range(len(self.plan.job_names)))
        for a, b, _ in self.plan.edges:
            group = [group[a] if g == group[b] else g for g in group]
        found = collections.defaultdict(list)
        for job, number in enumerate(group):
            found[number].append(job)
        return list(found.values())


class Stress:
    def __init__(self, program, keep, gates=False):
        self.program, self.keep, self.gates, self.chance = program, keep, gates, random.Random(3)
        self.cores = sorted(os.sched_getaffinity(0)) if shutil.which("taskset") else []
        self.counts = collections.Counter()
        self.problems = self.suspects = 0

    def run(self, words, text):
        """What the program writes, and its status."""
        self.counts["runs"] += 1
        cores = self.chance.randrange(3)
        kept = []
        if words[:1] == ["threads"] and 0 < cores <= len(self.cores):
            kept = ["taskset", "-c", ",".join(map(str, self.chance.sample(self.cores, cores)))]
        try:
            done = subprocess.run(kept + [self.program] + words, input=text.encode(), capture_output=True, timeout=SECONDS)
        except subprocess.TimeoutExpired:
            return None
        return done.stdout.decode(errors="replace"), done.stderr.decode(errors="replace"), done.returncode

    def problem(self, words, text, got, what, kind="problem"):
        self.problems += kind == "problem"
        self.suspects += kind == "suspect"
        self.keep = self.keep or tempfile.mkdtemp(prefix="labrun-problems-")
        os.makedirs(self.keep, exist_ok=True)
        name = os.path.join(self.keep, "%s-%04d" % (kind, self.problems if kind == "problem" else self.suspects))
        with open(name + ".lab", "w", newline="") as out:
            out.write(text)
        with open(name + ".txt", "w") as out:
            out.write("labrun %s\n%s\n" % (" ".join(words), "\n".join(what)))
            if got:
                out.write("status %d\n-- standard error\n%s-- standard output\n%s" % (got[2], got[1], got[0]))
        print("%s: labrun %s < %s.lab: %s" % (kind, " ".join(words), name, what[0]), flush=True)

    def rounds(self, reckoned, limit):
        words = ["rounds", str(limit)]
        if limit == 10000:
            words = []
        report, status = reckoned.after(limit)
        got = self.run(words, reckoned.text)
        self.counts["rounds"] += 1
        if got != (report, "", status):
            self.problem(words, reckoned.text, got, ["not the report of the simulator"] if got else ["no end"])

    def threads(self, reckoned, workers, turns):
        words = ["threads", str(workers), str(turns)]
        if self.gates and self.chance.randrange(10):
            words += [self.chance.choice(("yields", "delays", "pins", "holds", "mixed")), str(self.chance.randrange(10**9))]
            self.counts["threads through a gate"] += 1
        got = self.run(words, reckoned.text)
        self.counts["threads"] += 1
        if not got:
            return self.problem(words, reckoned.text, got, ["no end"])
        report, errors, status = got
        what = check_report.problems_of(reckoned.text, report, status, turns)
        if errors:
            what.append("standard error isn't empty")
        if not what and reckoned.has(turns):
            what = self.apart(reckoned, workers, turns, report)
            self.counts["threads that went as rounds do"] += report == reckoned.after(turns)[0]
        if what:
            self.problem(words, reckoned.text, got, what)
        elif status == 3 and reckoned.finished and turns >= max(1000000, 1000 * reckoned.whole):
            self.problem(words, reckoned.text, got, ["not finished"], "suspect")
        self.counts["threads finished"] += status == 0

    def apart(self, reckoned, workers, turns, report):
        """Jobs that share instruments with jobs of the same worker alone do what they do by rounds."""
        what, plan, lines = [], reckoned.plan, report.split("\n")
        wanted = reckoned.after(turns)[0].split("\n")
        for group in reckoned.groups():
            if len({job % workers for job in group}) > 1:
                continue
            self.counts["groups of one worker"] += 1
            names = {plan.job_names[job] for job in group}
            for shown in (lines, wanted):
                own = [line for line in shown if line.split(" ")[0] in names or line.split(" ")[:1] == ["job"] and line.split(" ")[1] in names]
                if shown is lines:
                    found = own
            if found != own:
                what.append("%s: not what they do by rounds" % ", ".join(sorted(names)))
        return what

    def spoilt(self, text, chance):
        """A line left out, put in twice, or changed."""
        lines = text.split("\n")
        at = chance.randrange(len(lines))
        spoil = chance.choice(("out", "twice", "007", "patience", "steps", "blank"))
        if spoil == "out":
            del lines[at]
        elif spoil == "twice":
            lines.insert(at, lines[at])
        elif spoil == "007":
            lines[at] += " 007"
        elif spoil == "patience":
            lines[at] = "session patience 0" + chance.choice(("", "1"))
        else:
            lines.insert(at, "steps" if spoil == "steps" else " \t# nothing")
        text = "\n".join(lines)
        words = ["rounds", "3"]
        try:
            wanted = simulate.simulate(text.encode(), 3)
            wanted = (wanted[0], "", wanted[1])
        except simulate.Fault as fault:
            wanted = ("", "labrun: %s\n" % fault, 1)
            self.counts["faults"] += 1
        got = self.run(words, text)
        if got != wanted:
            self.problem(words, text, got, ["not what the simulator says: %s" % wanted[1].strip()])


def pick_turns(reckoned, chance):
    whole = reckoned.whole
    return chance.choice((
        chance.randint(0, 20), chance.randint(0, 20), chance.randint(0, whole + 3), max(0, whole - chance.randint(0, 3)),
        whole * 2, whole * 50, 1000, 100000, 1000000, max(1000000, 1000 * whole)))


def two_wide_edges():
    """Two jobs each share 28 instruments with a third."""
    names = ["i%d" % k for k in range(56)]
    lines = ["lab 1"]
    for job, own in (("left", names[:28]), ("middle", names), ("right", names[28:])):
        lines.append("job " + job)
        for part in (own[:2], own, own[-3:]):
            lines += ["session"] + ["%s add %d" % (name, len(part)) for name in part] + ["end"]
    return "".join(line + "\n" for line in lines)


def plans_to_stop():
    chance = random.Random(5)
    again = simulate.text(simulate.AGAIN).decode()
    yield "a second session", again
    yield "a second session with patience", again.replace("lab 1", "lab 2").replace("job b\nsession", "job b\nsession patience 2")
    yield "ring", make_scripts.make("ring", chance, jobs=5, instruments=5, sessions=2, commands=3)
    yield "clique", make_scripts.make("clique", chance, jobs=4, instruments=3, sessions=2, commands=2)
    yield "two wide edges", two_wide_edges()
    yield "patience", make_scripts.make("clique", chance, jobs=4, instruments=2, sessions=3, commands=2, version=2, patience=6, patient=80)
    folder = os.path.join(os.path.dirname(os.path.dirname(os.path.abspath(__file__))), "examples")
    for name in sorted(os.listdir(folder)):
        with open(os.path.join(folder, name)) as script:
            text = script.read() if name.endswith(".lab") else ""
        if "# labrun rounds" in text:
            yield name, text


def stop_everywhere(stress):
    for name, text in plans_to_stop():
        reckoned = Reckoned(text)
        limits = [limit for limit in range(reckoned.whole + 2) if reckoned.has(limit)]
        reckoned.prepare(set(limits) | set(range(21)))
        for limit in limits:
            stress.rounds(reckoned, limit)
            stress.threads(reckoned, 1, limit)
        for workers in (2, 3):
            for turns in range(21):
                for _ in range(5):
                    stress.threads(reckoned, workers, turns)
        print("%s: stopped after each of 0 to %d rounds" % (name, limits[-1]), flush=True)


def all_sleep(program, runs, seed):
    """Runs in which every thread sleeps in each session; how many didn't come to their end."""
    chance, problems, late, handed = random.Random(seed), 0, 0, 0
    for _ in range(runs):
        words = [program, str(chance.choice((2, 5))), str(chance.randint(1, 4)), str(chance.randint(1, 2)), "sleep", str(chance.randint(1, 10**9))]
        try:
            got = subprocess.run(words, stdin=subprocess.DEVNULL, capture_output=True, text=True, timeout=SECONDS)
            fine, times = got.returncode == 0 and not got.stderr, [int(line) for line in got.stdout.split()]
        except subprocess.TimeoutExpired:
            fine, times = False, []
        handed += len(times)
        late += sum(time >= 5000 for time in times)
        if not fine:
            problems += 1
            print("no end: %s" % " ".join(words), flush=True)
    print("%d runs in which all sleep, %d problems; of %d times that an instrument was handed on, %d took 5 ms or more" % (
        runs, problems, handed, late))
    return 1 if problems else 0


def main(words):
    if not words or words[0] == "--help":
        print(__doc__, end="")
        return 0 if words else 2
    stops, sleeps = words[1:2] == ["stops"], words[1:2] == ["sleeps"]
    keys = dict(word.split("=") for word in words[1 + (stops or sleeps):])
    if sleeps:
        return all_sleep(os.path.abspath(words[0]), int(keys.get("runs", "1000")), int(keys.get("seed", "1")))
    most = int(keys["runs"]) if "runs" in keys else 10**9 if "minutes" in keys else 1000
    end = time.monotonic() + 60 * float(keys["minutes"]) if "minutes" in keys else None
    chance = random.Random(int(keys.get("seed", "1")))
    stress, scripts, begun = Stress(os.path.abspath(words[0]), keys.get("keep"), keys.get("gates") == "yes"), 0, time.monotonic()
    if stops:
        stop_everywhere(stress)
        most = 0
    while stress.counts["runs"] < most and (end is None or time.monotonic() < end):
        sort = make_scripts.large if scripts % 20 == 19 else make_scripts.contended if scripts % 4 == 3 else make_scripts.small
        text = sort(chance)
        scripts += 1
        reckoned = Reckoned(text)
        limits = [limit for limit in (chance.randint(0, 20), chance.randint(0, reckoned.whole + 2), 10000) if reckoned.has(limit)]
        turns = [pick_turns(reckoned, chance) for _ in range(9)]
        reckoned.prepare(limits + [limit for limit in turns if reckoned.has(limit)])
        for limit in limits:
            stress.rounds(reckoned, limit)
        for own in turns:
            workers = chance.randint(1, 32) if chance.randrange(10) == 0 else chance.randint(1, 8)
            stress.threads(reckoned, workers, own)
        if scripts % 5 == 0 and keys.get("faults") != "no":
            stress.spoilt(text, chance)
    print("%d scripts in %.0f seconds: %s" % (
        scripts, time.monotonic() - begun, ", ".join("%d %s" % (count, name) for name, count in stress.counts.items())))
    print("%d runs, %d problems, %d suspects%s" % (
        stress.counts["runs"], stress.problems, stress.suspects, ", kept in %s" % stress.keep if stress.keep else ""))
    return 1 if stress.problems else 0


if __name__ == "__main__":
    sys.exit(main(sys.argv[1:]))
