"""Scripts by threads: what must be true of a report on every schedule (`checks/check_report.py`)."""

from case import Case
from check_report import problems_of
from of_labrun.rounds import SECOND_SESSION, TWO_ADD
from simulate import simulate

# Four jobs in a ring: each shares an instrument with the one before it and one with the next.
RING = """\
lab 1
job a
session
w add 1
x add 1
w read
end
session
x add 2
end
job b
session
x add 3
y set 5
end
session
y read
x read
end
job c
session
y add 7
z add 1
y add 1
end
job d
session
z set 9
end
session
w add 4
z add 4
end
"""

# Three jobs that all share two instruments.
CLIQUE = """\
lab 1
job a
session
x add 1
y add 1
x read
end
session
y add 2
end
job b
session
y set 8
x set 4
end
session
x read
y read
end
job c
session
x add 3
y add 3
end
session
y add 1
x add 1
end
"""

# Three jobs of which two give their sessions up when they waited too long.
PATIENT = """\
lab 2
job a
session
x add 1
y add 1
x read
end
session
y add 2
end
job b
session patience 0
y set 8
x set 4
end
session patience 3
x read
y read
end
job c
session patience 2
x add 3
y add 3
end
session
y add 1
x add 1
end
"""

LEFT = "".join(f"l{number} add 1\n" for number in range(28))
RIGHT = "".join(f"r{number} add 2\n" for number in range(28))

# A job shares 28 instruments with each of two others, which share none: first a few of them are used, and then all.
WIDE = f"""\
lab 1
job left
session
l3 set 7
l0 add 5
end
session
{LEFT}end
job middle
session
l3 read
r0 add 1
end
session
{LEFT}{RIGHT}end
job right
session
r0 set 9
end
session
{RIGHT}end
"""

SCRIPTS = {"second_session": SECOND_SESSION, "ring": RING, "clique": CLIQUE, "patient": PATIENT, "wide": WIDE}

# Whichever job is first, each has its one line, and the second finds what the first left.
A_FIRST = "lab 1\ninstrument scale 2\na 1 1/1 add 1 = 1\nb 1 1/1 add 1 = 2\njob a sessions 1 of 1 "
B_FIRST = "lab 1\ninstrument scale 2\nb 1 1/1 add 1 = 1\na 1 1/1 add 1 = 2\njob a sessions 1 of 1 "


def is_finished(out):
    return out.endswith(b"\nfinished\n")


def by_threads(name, workers, turns, script, more=lambda text: []):
    """A run whose report must be one of the script by some schedule, and whose status says whether it finished."""

    def wrong(out):
        text = out.decode(errors="replace")
        return "; ".join([*problems_of(script, text, turns=turns), *more(text)])

    return Case(name, f"threads {workers} {turns}", script, wrong, status=lambda out: 0 if is_finished(out) else 3)


def by_rounds(name, turns, script, status=None):
    """A run whose report is reckoned by `checks/simulate.py`, and its status, unless said."""
    report, reckoned = simulate(script.encode(), turns)
    return Case(name, f"rounds {turns}", script, report, status=reckoned if status is None else status)


def begins_with_either(text):
    return [] if not text.endswith("\nfinished\n") or text.startswith((A_FIRST, B_FIRST)) else ["it finished otherwise"]


CASES = [by_threads("long_run", 2, 1_000_000, TWO_ADD, begins_with_either)]
for name, script in SCRIPTS.items():
    for turns in range(21):
        CASES.append(by_rounds(f"{name}_rounds_{turns}", turns, script))
        CASES += [by_threads(f"{name}_threads_{workers}_{turns}", workers, turns, script) for workers in (2, 3)]
    # many turns finish each of the scripts
    CASES.append(by_rounds(f"{name}_rounds_200", 200, script, status=0))
