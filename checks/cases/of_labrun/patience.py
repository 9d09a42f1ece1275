"""Sessions that may be given up: whole runs in turns by the patience of job b, and when giving up isn't legal."""

from case import Case
from of_labrun.reports import stops
from of_labrun.upgrades import TWO


def script(patience):
    return f"lab 2\njob a\nsession\nscale add 1\nend\njob b\nsession patience {patience}\nscale add 1\nend\n"


# The rounds of a run in which b gives up in its second turn.
AT_ONCE = """\
look a b\nthirst a\nlook b a\nthirst b
look a b\ndrink a\nlook b a\naskbottles b a scale\nwithdraw b
look a b\nreach a\nact a\nlook b a\nretire b
look a b\nquit a\nlook b a
look a b\ngivebottles a b scale\nretire a
"""

# The rounds of a run in which b gives up in its third turn, and has the meal that it asked for.
LATER = """\
look a b\nthirst a\nlook b a\nthirst b
look a b\ndrink a\nlook b a\naskbottles b a scale\nhunger b
look a b\nreach a\nact a\nlook b a\naskfork b a\nwithdraw b
look a b\ngivefork a b\nquit a\nlook b a\nsit b
look a b\ngivebottles a b scale\nretire a\nlook b a\nsoil b a\nleave b
look a b\nlook b a\nretire b
"""

# The rounds of a run in which b has what it needs before its patience runs out.
NEVER = """\
look a b\nthirst a\nlook b a\nthirst b
look a b\ndrink a\nlook b a\naskbottles b a scale\nhunger b
look a b\nreach a\nact a\nlook b a\naskfork b a
look a b\ngivefork a b\nquit a\nlook b a\nsit b
look a b\ngivebottles a b scale\nretire a\nlook b a\nsoil b a\ndrink b
look a b\nlook b a\nreach b\nact b
look a b\nlook b a\nquit b
look a b\nlook b a\nleave b
look a b\nlook b a\nretire b
"""


def report(logged, job_b):
    logged = "".join(f"{job} 1 1/1 add 1 = {value}\n" for value, job in enumerate(logged, 1))
    count = logged.count("\n")
    job_a = "job a sessions 1 of 1 withdrawn 0 meals 0 retired"
    return f"lab 2\ninstrument scale {count}\n{logged}{job_a}\njob b {job_b} retired\nfinished\n"


# The run of these rounds, for this patience, has this report.
RUNS = [
    ("runs_out", 0, AT_ONCE, report("a", "sessions 0 of 1 withdrawn 1 meals 0")),
    ("runs_out_later", 1, LATER, report("a", "sessions 0 of 1 withdrawn 1 meals 1")),
    ("lasts", 3, NEVER, report("ab", "sessions 1 of 1 withdrawn 0 meals 1")),
]

# No session is given up once its job drinks, nor one without patience, nor any of a version 1 script.
DRINKS = "thirst b\naskbottles b a scale\ngivebottles a b scale\nlook b a\ndrink b\nwithdraw b\n"

CASES = [
    *(Case(name, "replay", f"{script(patience)}steps\n{steps}", out) for name, patience, steps, out in RUNS),
    stops("not_once_it_drinks", f"{script(0)}steps\n{DRINKS}", 16),
    stops("not_without_patience", f"{script(0)}steps\nthirst a\nwithdraw a\n", 12),
    stops("not_in_version_1", f"{TWO}steps\nthirst b\nwithdraw b\n", 12),
]
