#!/usr/bin/env python3
"""Measures how fast labrun runs, beside plain Rust programs that do the same without proofs.

Usage: checks/speed.py [rounds=N] [program=PATH] [kit=wide] [only=NAME,..] [ahead=yes]     (from anywhere, after ./labrun was built)
       checks/speed.py growth [rounds=N] [program=PATH]
       checks/speed.py instructions [program=PATH] [kit=wide] [only=NAME,..]
       checks/speed.py instructions growth [program=PATH]            (both with valgrind)

Builds the peers of checks/peers with `rustc -O` into a temporary folder, generates workloads, and runs all programs on each
of them, one after the other, N times over (9 unless said); of all times of a program on a workload the best counts.

  blocking   a thread a job, a lock an instrument, taken in ascending order
  condvar    a thread a job, one broker that gives a session all its instruments at once
  port       labrun's algorithm without proofs: `rounds`, and `threads` with 1, 2 and 4 workers
  labrun     the same words

What is compared is the run itself: the time from a program's start to the first byte of its report, less the same time on
the same script with no turns. So starting, reading, opening and printing are left out. A table of its own has whole
programs, from start to end. Every report is checked by checks/check_report.py once before the measuring. On a machine with
other work, ahead=yes runs the programs under real-time priority, as root; what else runs waits meanwhile. With kit=wide eight more workloads
are measured, of two jobs to 32, from jobs that share nothing to one clique of all.

With `growth` it measures instead how the time of `rounds` grows, of labrun and of the port, where one thing is doubled again
and again: the exponent that fits best is told, 1.00 where the time grows as the number of commands does (where instruments are
doubled, which leaves that number as it is, 0.00 where it doesn't grow).

With `instructions` it counts instead the instructions of `rounds`, of labrun and of the port, with valgrind's callgrind: of all
turns, of the report, and of reading the script; and of whole runs by one thread and by rounds. They are the same at each run, whatever else
the machine does. A second table has what one look at an edge takes where nothing has changed, and what one turn of a job without edges takes in
which it does a command: differences of scripts that differ in the number of these alone. A third has the page faults of whole runs. With
`instructions growth` it tells how those of the turns grow.

Printed are ratios of runs, a line a workload, and their geometric means, with the goals; absolute times only at the end,
as an aside. Where labrun hasn't the words yet, its columns are left out, and the port stands in for it.
"""
import math
import os
import random
import subprocess
import sys
import tempfile
import time

HERE = os.path.dirname(os.path.abspath(__file__))
sys.path.insert(0, HERE)
import check_report
import make_scripts

# how the programs that are timed are started
START = {}
LABRUN = os.path.join(os.path.dirname(HERE), "crates", "labrun", "out", "labrun")
TURNS = "1000000000"
WORKERS = (1, 2, 4)

# name, shape, keys: as many commands as keep the run long beside the start of a program
WORKLOADS = (
    ("disjoint", "disjoint", dict(jobs=8, instruments=56, sessions=1000, commands=20)),
    ("ring", "ring", dict(jobs=8, instruments=8, sessions=1000, commands=10)),
    ("star", "star", dict(jobs=8, instruments=7, sessions=1000, commands=10)),
    ("pairs", "pairs", dict(jobs=8, instruments=16, sessions=1000, commands=10)),
    ("clique", "clique", dict(jobs=8, instruments=8, sessions=600, commands=10)),
    ("long", "pairs", dict(jobs=16, instruments=48, sessions=400, commands=20)),
    ("short", "ring", dict(jobs=16, instruments=16, sessions=1000, commands=1)),
    ("random", "random", dict(jobs=32, instruments=56, sessions=60, commands=20)),
)
# eight more, with two jobs or many
WIDE = (
    ("two", "pairs", dict(jobs=2, instruments=8, sessions=1000, commands=20)),
    ("apart 32", "disjoint", dict(jobs=32, instruments=56, sessions=300, commands=20)),
    ("pairs 32", "pairs", dict(jobs=32, instruments=48, sessions=300, commands=20)),
    ("own 8", "ring", dict(jobs=8, instruments=8, own=5, sessions=1000, commands=20)),
    ("ring 32", "ring", dict(jobs=32, instruments=32, sessions=300, commands=10)),
    ("star 29", "star", dict(jobs=29, instruments=28, sessions=300, commands=10)),
    ("one 8", "clique", dict(jobs=8, instruments=1, sessions=1000, commands=10)),
    ("clique 32", "clique", dict(jobs=32, instruments=28, sessions=60, commands=20)),
)
# what is doubled: heading, shape, the keys that stay, the key that grows, its values
GROWTHS = (
    ("sessions of 8 jobs in pairs", "pairs", dict(jobs=8, instruments=16, commands=10), "sessions", (125, 250, 500, 1000)),
    ("jobs, each on its own", "disjoint", dict(instruments=56, sessions=400, commands=10), "jobs", (4, 8, 16, 32)),
    ("jobs in pairs", "pairs", dict(instruments=32, sessions=400, commands=10), "jobs", (4, 8, 16, 32)),
    ("jobs in a ring", "ring", dict(instruments=32, sessions=400, commands=10), "jobs", (4, 8, 16, 32)),
    ("instruments of 8 jobs in pairs", "pairs", dict(jobs=8, sessions=1000, commands=10), "instruments", (4, 8, 16, 32)),
    ("commands of a session", "pairs", dict(jobs=8, instruments=16, sessions=500), "commands", (5, 10, 20, 40)),
)
# how many times as fast as one this many workers are to be, where no two jobs share anything
SPEED_UP = {2: 1.7, 4: 2.5}
# a run by one thread, beside one by rounds; and the goal (at most)
ONE_THREAD, ONE_THREAD_GOAL = ("labrun threads 1", "labrun rounds"), 1.05
# what is compared: heading, over, under, goal (at most; None: told as it is)
RATIOS = (
    ("labrun rounds / port rounds", "labrun rounds", "port rounds", 1.15),
    ("labrun threads 1 / port threads 1", "labrun threads 1", "port threads 1", 1.15),
    ("labrun threads 2 / port threads 2", "labrun threads 2", "port threads 2", 1.15),
    ("labrun threads 4 / port threads 4", "labrun threads 4", "port threads 4", 1.15),
    (" / ".join(ONE_THREAD), *ONE_THREAD, ONE_THREAD_GOAL),
    ("labrun threads 4 / blocking", "labrun threads 4", "blocking", 2.0),
    ("labrun threads 4 / condvar", "labrun threads 4", "condvar", 1.0),
    ("port threads 4 / blocking", "port threads 4", "blocking", None),
    ("port threads 4 / condvar", "port threads 4", "condvar", None),
)

# the whole program, from its start to its end: the best of these, beside blocking, which shares the port's reader and printer; and the goal (at most)
WHOLE, WHOLE_GOAL = ("labrun rounds", "labrun threads 2", "labrun threads 4"), 1.0

# the function that is one turn
TURN = {"labrun rounds": "turning::turn", "port rounds": "Desk::turn"}
# (where there are several functions, one in another, the first that the compiler hasn't inlined counts)
# whose instructions are counted: heading, the function in each program, by what it is told, and the goals (at most): of the mean, of the worst
COUNTED = (
    ("turns", TURN, "command", 1.10, 1.20),
    ("report", {"labrun rounds": ("run_report::send_report", "run_report::show_run"), "port rounds": "shared::write_report"}, "entry", 0.90, None),
    ("reading", {"labrun rounds": "plan::read_plan", "port rounds": "shared::read_plan"}, "line", 1.15, None),
)
# the scripts by which single steps are counted: so many jobs, and as many commands of each in its last session
STEP_JOBS, STEP_COMMANDS = 16, (200, 600)
# the goal of one look where nothing has changed (at most)
LOOK_GOAL = 9


def build(folder):
    """The peers, by name."""
    found = {}
    for name in ("blocking", "condvar", "port"):
        found[name] = os.path.join(folder, name)
        subprocess.run(["rustc", "-O", "-o", found[name], os.path.join(HERE, "peers", name + ".rs")], check=True)
    return found


def programs(peers, labrun):
    """For each name the words of a whole run, and those of a run without turns."""
    found = {}
    for name in ("blocking", "condvar"):
        found[name] = ([peers[name], "threads", "1", TURNS], [peers[name], "threads", "1", "0"])
    for name, path in (("port", peers["port"]), ("labrun", labrun)):
        if path:
            found[name + " rounds"] = ([path, "rounds", TURNS], [path, "rounds", "0"])
            for workers in WORKERS:
                words = [path, "threads", str(workers)]
                found["%s threads %d" % (name, workers)] = (words + [TURNS], words + ["0"])
    return found


def seconds(words, data):
    """The seconds to the first byte of the report, and to the end of the program."""
    with open(data, "rb") as source:
        begun = time.perf_counter()
        child = subprocess.Popen(words, stdin=source, stdout=subprocess.PIPE, stderr=subprocess.DEVNULL, bufsize=0, **START)
        child.stdout.read(1)
        first = time.perf_counter() - begun
        while child.stdout.read(1 << 16):
            pass
        child.wait()
        return first, time.perf_counter() - begun


def goes_ahead():
    os.sched_setscheduler(0, os.SCHED_FIFO, os.sched_param(20))


def own_clock(words, data):
    """What a peer says by its own clock of the seconds of its run."""
    with open(data, "rb") as source:
        told = subprocess.run(words, stdin=source, capture_output=True, env=dict(os.environ, PEER_TIMES="1"))
    told = told.stderr.decode().split()
    return int(told[told.index("run") + 1]) / 1e9


def checked(name, words, data, text):
    """Once, before the measuring: the report passes its check."""
    with open(data, "rb") as source:
        done = subprocess.run(words, stdin=source, capture_output=True)
    problems = check_report.problems_of(text, done.stdout.decode(), done.returncode)
    if problems or done.returncode:
        sys.exit("%s on %s: %s" % (name, data, "; ".join(problems[:3]) or "status %d" % done.returncode))


def measure(runs, data, rounds):
    """The seconds of each program's run itself; what the port says of its rounds by its own clock; the seconds from a program's start to its end."""
    full, empty, whole, clock = {}, {}, {}, math.inf
    for _ in range(rounds):
        for name, (with_turns, without) in runs.items():
            first, last = seconds(with_turns, data)
            full[name], whole[name] = min(full.get(name, math.inf), first), min(whole.get(name, math.inf), last)
            empty[name] = min(empty.get(name, math.inf), seconds(without, data)[0])
        clock = min(clock, own_clock(runs["port rounds"][0], data))
    # a run can't take no time at all: what lies below the noise counts as a tenth of a millisecond
    return {name: max(full[name] - empty[name], 1e-4) for name in runs}, clock, whole


def has_words(labrun):
    done = subprocess.run([labrun, "threads", "2", "3"], input=b"lab 1\n", capture_output=True) if os.path.exists(labrun) else None
    return done is not None and done.returncode == 0


def mean(numbers):
    return math.exp(sum(math.log(number) for number in numbers) / len(numbers))


def table(heads, rows):
    print("| " + " | ".join(heads) + " |")
    print("|" + "---|" * len(heads))
    for row in rows:
        print("| " + " | ".join(row) + " |")
    print(flush=True)


def scripts(folder, only, kit=WORKLOADS):
    found = []
    for name, shape, keys in kit:
        if only and name not in only:
            continue
        text = make_scripts.make(shape, random.Random(7), **keys)
        path = os.path.join(folder, name + ".lab")
        with open(path, "w") as out:
            out.write(text)
        found.append((name, path, text))
    return found


def ratios(times):
    """The table of ratios, for those programs that ran."""
    names = list(times)
    rows = []
    for heading, over, under, goal in RATIOS:
        if over not in times[names[0]] or under not in times[names[0]]:
            continue
        each = [times[name][over] / times[name][under] for name in names]
        rows.append([heading] + ["%.2f" % ratio for ratio in each] + ["%.2f" % mean(each), "%.2f" % goal if goal else ""])
    table(["run"] + names + ["mean", "goal, at most"], rows)


def speed_up(times):
    """How much faster more workers are than one."""
    rows = []
    for program in ("labrun", "port"):
        for workers in WORKERS[1:]:
            many, one = "%s threads %d" % (program, workers), "%s threads 1" % program
            if all(many in own for own in times.values()):
                goal = "%.2f on disjoint" % SPEED_UP[workers] if program == "labrun" else ""
                each = ["%.2f" % (own[one] / own[many]) for own in times.values()]
                rows.append(["%s threads 1 / threads %d" % (program, workers)] + each + [goal])
    table(["times as fast"] + list(times) + ["goal, at least"], rows)


def whole_programs(wholes):
    """How long whole programs take, reading and printing included, in milliseconds and beside blocking."""
    rows = [[name] + ["%.1f" % (own[name] * 1e3) for own in wholes.values()] + ["", ""] for name in (*WHOLE, "port rounds", "blocking")]
    best = [min(own[name] for name in WHOLE) / own["blocking"] for own in wholes.values()]
    rows.append(["best of labrun / blocking"] + ["%.2f" % ratio for ratio in best] + ["%.2f" % mean(best), "%.2f" % WHOLE_GOAL])
    table(["from start to end, ms"] + list(wholes) + ["mean", "goal, at most"], rows)


def exponent(sizes, times):
    """The slope of the line that fits best, both scales logarithmic."""
    xs, ys = [math.log(size) for size in sizes], [math.log(spent) for spent in times]
    x, y = sum(xs) / len(xs), sum(ys) / len(ys)
    return sum((a - x) * (b - y) for a, b in zip(xs, ys)) / sum((a - x) ** 2 for a in xs)


def growth(folder, names, unit, spent_on):
    """For each thing that is doubled, what a command takes, in this unit, and the exponent."""
    rows = []
    for heading, shape, keys, growing, values in GROWTHS:
        sizes, spent = [], {name: [] for name in names}
        for value in values:
            text = make_scripts.make(shape, random.Random(7), **dict(keys, **{growing: value}))
            path = os.path.join(folder, "growth.lab")
            with open(path, "w") as out:
                out.write(text)
            sizes.append(sum(line.startswith("i") for line in text.split("\n")))
            found = spent_on(path)
            for name in names:
                spent[name].append(found[name])
        for name in names:
            each = ["%.0f" % (whole / size) for size, whole in zip(sizes, spent[name])]
            # instruments alone leave the number of commands as it is
            exact = exponent(values if growing == "instruments" else sizes, spent[name])
            rows.append([heading, name, " ".join(str(value) for value in values), " ".join(each), "%.2f" % exact])
    table(["doubled", "run", "values", unit + " a command", "exponent"], rows)


def counted(words, function, data):
    """The instructions of a function of a program, with all that it calls; of the whole program where none is named."""
    if isinstance(function, tuple):
        return next(filter(None, (counted(words, each, data) for each in function)), 0)
    toggle = ["--toggle-collect=*%s*" % function] if function else []
    words = ["valgrind", "--tool=callgrind", "--callgrind-out-file=/dev/null", *toggle] + words
    with open(data, "rb") as source:
        told = subprocess.run(words, stdin=source, capture_output=True).stderr.decode().split()
    return int(told[told.index("Collected") + 2])


def sizes_of(text):
    """How many commands a script has, how many entries the report of a whole run, and how many lines the script."""
    commands = sum(line.startswith("i") for line in text.split("\n"))
    return {"command": commands, "entry": commands, "line": text.count("\n")}


def step_script(shares, commands):
    """Each job does one command on an instrument, in a session of its own, and then so many on an instrument of its own. If they share the first
    instrument, each two of them have an edge, and nothing changes on it while the last sessions go on."""
    lines = ["lab 1"]
    for job in range(STEP_JOBS):
        first = "shared" if shares else "own%d" % job
        lines += ["job j%d" % job, "session", first + " add 1", "end", "session", *["own%d add 1" % job] * commands, "end"]
    return "\n".join(lines) + "\n"


def of_steps(folder, runs):
    """The instructions of one turn with a command, of a job without edges, and of one look where nothing has changed."""
    path, more = os.path.join(folder, "steps.lab"), STEP_COMMANDS[1] - STEP_COMMANDS[0]
    turn, look = {}, {}
    for run, function in TURN.items():
        added = {}
        for shares in (False, True):
            spent = []
            for commands in STEP_COMMANDS:
                with open(path, "w") as out:
                    out.write(step_script(shares, commands))
                spent.append(counted(runs[run][0], function, path))
            added[shares] = spent[1] - spent[0]
        turn[run] = added[False] / (STEP_JOBS * more)
        look[run] = (added[True] - added[False]) / (STEP_JOBS * (STEP_JOBS - 1) * more)
    rows = [
        ["a look where nothing has changed", *["%.1f" % look[run] for run in TURN], "%d" % LOOK_GOAL],
        ["a turn with a command, of a job without edges", *["%.1f" % turn[run] for run in TURN], ""],
    ]
    table(["instructions of one step", *TURN, "goal, at most"], rows)


def faults(words, data):
    """The page faults of a whole run: the fewest of three."""
    found = []
    for _ in range(3):
        with open(data, "rb") as source:
            child = subprocess.Popen(words, stdin=source, stdout=subprocess.DEVNULL, stderr=subprocess.DEVNULL)
            found.append(os.wait4(child.pid, 0)[2].ru_minflt)
            child.returncode = 0
    return min(found)


def page_faults(made, runs):
    names = ("labrun rounds", "port rounds", "blocking")
    rows = [[name] + ["%d" % faults(runs[name][0], path) for _, path, _ in made] for name in names]
    table(["page faults of a whole run"] + [name for name, _, _ in made], rows)


def instructions(folder, runs, only, kit):
    """What the turns, the report and the reading of each run by rounds take: labrun's as multiples of the port's, and of each by size."""
    made = scripts(folder, only, kit)
    spent, by_one = {}, {}
    for name, path, text in made:
        spent[name] = {heading: {run: counted(runs[run][0], each[run], path) for run in each} for heading, each, _, _, _ in COUNTED}
        # (a run is the whole program less the same without turns)
        whole = {run: counted(runs[run][0], None, path) - counted(runs[run][1], None, path) for run in ONE_THREAD}
        by_one[name] = whole[ONE_THREAD[0]] / whole[ONE_THREAD[1]]
        print("%s: counted" % name, file=sys.stderr, flush=True)
    rows = []
    for heading, each, unit, of_mean, of_worst in COUNTED:
        if not all(all(own[heading].values()) for own in spent.values()):
            print("%s: left out, since the function to count was inlined or has another name" % heading, file=sys.stderr)
            continue
        found = [own[heading]["labrun rounds"] / own[heading]["port rounds"] for own in spent.values()]
        goal = "%.2f" % of_mean + (", each %.2f" % of_worst if of_worst else "")
        rows.append([heading + ", labrun / port"] + ["%.2f" % ratio for ratio in found] + ["%.2f" % mean(found), goal])
        for run in each:
            told = ["%.0f" % (spent[name][heading][run] / sizes_of(text)[unit]) for name, _, text in made]
            rows.append(["%s, %s, by %s" % (heading, run.split()[0], unit)] + told + ["", ""])
    rows.append([" / ".join(ONE_THREAD)] + ["%.2f" % ratio for ratio in by_one.values()] + ["%.2f" % mean(by_one.values()), "%.2f" % ONE_THREAD_GOAL])
    table(["instructions"] + list(spent) + ["mean", "goal, at most"], rows)
    of_steps(folder, runs)
    page_faults(made, runs)


def main(words):
    if words and words[0] == "--help":
        print(__doc__, end="")
        return 0
    kinds = [word for word in words if word in ("growth", "instructions")]
    words = [word for word in words if word not in kinds]
    keys = dict(word.split("=") for word in words)
    rounds, labrun = int(keys.get("rounds", "9")), os.path.abspath(keys.get("program", LABRUN))
    only = keys["only"].split(",") if "only" in keys else None
    kit = WORKLOADS + WIDE if keys.get("kit") == "wide" else WORKLOADS
    if keys.get("ahead") == "yes":
        START["preexec_fn"] = goes_ahead
    with tempfile.TemporaryDirectory() as folder:
        peers = build(folder)
        runs = programs(peers, labrun if has_words(labrun) else None)
        by_rounds = {name: run for name, run in runs.items() if name in TURN}
        if kinds == ["instructions"]:
            instructions(folder, runs, only, kit)
            return 0
        if kinds == ["growth"]:
            growth(folder, TURN, "nanoseconds", lambda path: {name: spent * 1e9 for name, spent in measure(by_rounds, path, rounds)[0].items()})
            return 0
        if kinds:
            growth(folder, TURN, "instructions", lambda path: {name: counted(run[0], TURN[name], path) for name, run in by_rounds.items()})
            return 0
        times, clocks, wholes, counts = {}, {}, {}, {}
        for name, path, text in scripts(folder, only, kit):
            for program, (full, _) in runs.items():
                checked(program, full, path, text)
            times[name], clocks[name], wholes[name] = measure(runs, path, rounds)
            counts[name] = sum(line.startswith("i") for line in text.split("\n"))
            print("%s: %d commands measured" % (name, counts[name]), file=sys.stderr, flush=True)
    ratios(times)
    speed_up(times)
    if all(name in own for own in wholes.values() for name in WHOLE):
        whole_programs(wholes)
    print("As an aside, the best times on this machine, in nanoseconds a command:\n")
    rows = [[program] + ["%.0f" % (times[name][program] / counts[name] * 1e9) for name in times] for program in runs]
    rows.append(["port rounds, by its own clock"] + ["%.0f" % (clocks[name] / counts[name] * 1e9) for name in times])
    table(["program"] + list(times), rows)
    return 0


if __name__ == "__main__":
    sys.exit(main(sys.argv[1:]))
