"""After how many rounds a run ends, and what each job did by then. All was reckoned by hand."""

import re

from case import Case

JOB = re.compile(r"job \S+ sessions (\d+) of \d+(?: withdrawn (\d+))? meals (\d+) (?:retired|waiting)")


def session(*commands, patience=None):
    return ["session" if patience is None else f"session patience {patience}", *commands, "end"]


def script(jobs, version=1):
    """A script of these jobs, each with the lines of its sessions."""
    lines = [f"lab {version}"]
    for name, sessions in jobs.items():
        lines += [f"job {name}", *(line for it in sessions for line in it)]
    return "".join(f"{it}\n" for it in lines)


ADD = session("scale add 1")
NOBODY = script({})
ALONE = script({"a": [session("scale set 5", "scale read")]})
# Job a has no session.
IDLER = script({"a": [], "b": [ADD]})
TWO = script({"a": [ADD], "b": [ADD]})
TWICE = script({"a": [ADD, ADD], "b": [ADD]})
PATIENT = {it: script({"a": [ADD], "b": [session("scale add 1", patience=it)]}, version=2) for it in (0, 1, 3)}
# Jobs a and b have the lamp in common, a and c the scale, b and c the pump.
RING = script(
    {
        "a": [session("lamp add 1", "scale add 1")],
        "b": [session("lamp add 1", "pump add 1")],
        "c": [session("pump add 1", "scale add 1")],
    }
)
# The last of 32 jobs, the hub, has an instrument in common with each other.
SPOKES = {f"j{it}": [session(f"i{it} add 1")] for it in range(31)}
STAR = script({**SPOKES, "hub": [session(*(f"i{it} add 1" for it in range(31)))]})


def shows(ended, counts, values):
    """Each job's sessions done, sessions given up and meals, and the values in the first log."""

    def wrong(report):
        lines = report.decode().splitlines()
        jobs = [tuple(int(it or 0) for it in found.groups()) for found in map(JOB.fullmatch, lines) if found]
        log = [line for line in lines[2:] if " = " in line]
        first = next((at for at, line in enumerate(lines[2:]) if " = " not in line), 0)
        came = lines[-1], jobs, [int(line.rsplit(" ", 1)[1]) for line in log[:first]]
        wanted = "finished" if ended else "unfinished", counts, values
        return None if came == wanted else f"{wanted} was wanted, not {came}"

    return wrong


def ends(name, script, limit, ended, counts, values):
    return Case(f"{name}_{limit}", f"rounds {limit}", script, shows(ended, counts, values), status=0 if ended else 3)


# A script, a limit, whether all jobs are retired then; each job's sessions done, sessions given up and meals; the first log's values.
RUNS = [
    ("nobody", NOBODY, 0, True, [], []),
    ("nobody", NOBODY, 5, True, [], []),
    ("alone", ALONE, 5, False, [(1, 0, 0)], [5, 5]),
    ("alone", ALONE, 6, True, [(1, 0, 0)], [5, 5]),
    ("alone", ALONE, 100, True, [(1, 0, 0)], [5, 5]),
    ("idler", IDLER, 1, False, [(0, 0, 0), (0, 0, 0)], []),
    ("idler", IDLER, 4, False, [(0, 0, 0), (1, 0, 0)], [1]),
    ("idler", IDLER, 5, True, [(0, 0, 0), (1, 0, 0)], [1]),
    ("idler", IDLER, 100, True, [(0, 0, 0), (1, 0, 0)], [1]),
    ("two", TWO, 0, False, [(0, 0, 0), (0, 0, 0)], []),
    ("two", TWO, 8, False, [(1, 0, 0), (1, 0, 1)], [1, 2]),
    ("two", TWO, 9, True, [(1, 0, 0), (1, 0, 1)], [1, 2]),
    ("two", TWO, 10000, True, [(1, 0, 0), (1, 0, 1)], [1, 2]),
    ("twice", TWICE, 2, False, [(0, 0, 0), (0, 0, 0)], []),
    ("twice", TWICE, 3, False, [(0, 0, 0), (0, 0, 0)], [1]),
    ("twice", TWICE, 5, False, [(1, 0, 0), (0, 0, 1)], [1]),
    ("twice", TWICE, 6, False, [(1, 0, 0), (0, 0, 1)], [1, 2]),
    ("twice", TWICE, 9, False, [(1, 0, 0), (1, 0, 1)], [1, 2]),
    ("twice", TWICE, 10, False, [(1, 0, 0), (1, 0, 1)], [1, 2, 3]),
    ("twice", TWICE, 11, False, [(2, 0, 0), (1, 0, 1)], [1, 2, 3]),
    ("twice", TWICE, 13, False, [(2, 0, 1), (1, 0, 1)], [1, 2, 3]),
    ("twice", TWICE, 14, True, [(2, 0, 1), (1, 0, 1)], [1, 2, 3]),
    ("patience_0", PATIENT[0], 4, False, [(1, 0, 0), (0, 1, 0)], [1]),
    ("patience_0", PATIENT[0], 100, True, [(1, 0, 0), (0, 1, 0)], [1]),
    ("patience_1", PATIENT[1], 5, False, [(1, 0, 0), (0, 1, 1)], [1]),
    ("patience_1", PATIENT[1], 100, True, [(1, 0, 0), (0, 1, 1)], [1]),
    ("patience_3", PATIENT[3], 8, False, [(1, 0, 0), (1, 0, 1)], [1, 2]),
    ("patience_3", PATIENT[3], 100, True, [(1, 0, 0), (1, 0, 1)], [1, 2]),
    ("ring", RING, 16, False, [(1, 0, 0), (1, 0, 1), (1, 0, 1)], [1, 2]),
    ("ring", RING, 17, True, [(1, 0, 0), (1, 0, 1), (1, 0, 1)], [1, 2]),
    ("ring", RING, 100, True, [(1, 0, 0), (1, 0, 1), (1, 0, 1)], [1, 2]),
]

# Each other job drinks before the hub, and the hub has one meal.
ALL_OF_STAR = [(1, 0, 0)] * 31 + [(1, 0, 1)]

CASES = [
    *(ends(*it) for it in RUNS),
    ends("hub_of_31_edges", STAR, 38, False, ALL_OF_STAR, [1, 2]),
    ends("hub_of_31_edges", STAR, 39, True, ALL_OF_STAR, [1, 2]),
    # One worker takes the turns that one thread does.
    Case("one_worker_8", "threads 1 8", TWO, shows(False, [(1, 0, 0), (1, 0, 1)], [1, 2]), status=3),
    Case("one_worker_9", "threads 1 9", TWO, shows(True, [(1, 0, 0), (1, 0, 1)], [1, 2])),
    Case("one_worker_10000", "threads 1 10000", TWO, shows(True, [(1, 0, 0), (1, 0, 1)], [1, 2])),
]
