"""What `labview trace` writes. That a replay of it has the report of rounds: `of_labrun/traces.py`."""

import simulated
from case import Case

# Two jobs that share a scale. The last line has no end.
SHARED = """\
# a shared scale
lab 1
job a
session
scale add 1
end
job b
session
scale add 1
end"""

# Its steps by the definition of turns, a round a text: the fork and the bottle start at a, their tokens at b.
ROUNDS = [
    "look a b\nthirst a\nlook b a\nthirst b\n",
    "look a b\ndrink a\nlook b a\naskbottles b a scale\nhunger b\n",
    "look a b\nreach a\nact a\nlook b a\naskfork b a\n",
    "look a b\ngivefork a b\nquit a\nlook b a\nsit b\n",
    "look a b\ngivebottles a b scale\nretire a\nlook b a\nsoil b a\ndrink b\n",
    "look a b\nlook b a\nreach b\nact b\n",
    "look a b\nlook b a\nquit b\n",
    "look a b\nlook b a\nleave b\n",
    "look a b\nlook b a\nretire b\n",
]


def after(rounds):
    """The script with the steps of so many rounds."""
    return f"{SHARED}\nsteps\n{''.join(ROUNDS[:rounds])}"


# In the middle of a command and of a line: the act comes first, and each job then takes a turn.
REACHED = f"{SHARED}\nsteps\nthirst a\nlook a b\ndrink a\nreach a"

ACTED = f"{REACHED}\nact a\nlook a b\nquit a\nlook b a\nthirst b\n"

# Three jobs, each of which shares an instrument with each other, and one that gives a session up.
TRIANGLE = """\
lab 2
job a
session
x add 1
y add 2
x read
end
session patience 1
x set 5
end
job b
session patience 1
y add 3
z add 4
y read
end
session
z read
end
job c
session patience 0
z set 7
x add 1
end
session
x read
end
"""

# A text, and its fault.
FAULTS = {
    "name": ("lab 1\njob A\nsteps\n", "line 2: S3 bad name"),
    "word": ("lab 1\njob a b\nsteps\n", "line 2: S2 unknown word"),
    "session_not_closed": ("lab 1\njob a\nsession\nsteps\n", "line 4: S9 session not closed"),
    "step": ("lab 1\njob a\nsteps\nlook a a\n", "line 4: S13 bad step"),
    "not_legal": (f"{SHARED}\nsteps\nthirst a\nthirst a\n", "line 13: step is not legal"),
}

CASES = [
    Case("no_jobs", "trace 7", "lab 1\n", "lab 1\nsteps\n"),
    Case("no_rounds", "trace 0", "lab 1\njob a\n", "lab 1\njob a\nsteps\n"),
    Case("two_jobs", "trace 1000000000", SHARED, after(9)),
    *(Case(f"begun_{rounds}", f"trace {rounds}", SHARED, after(rounds)) for rounds in range(13)),
    *(Case(f"goes_on_{rounds}", "trace 1000000000", after(rounds), after(9)) for rounds in range(10)),
    Case("command_in_hand", "trace 1", REACHED, ACTED),
    *(Case(f"triangle_{rounds}", f"trace {rounds}", TRIANGLE, simulated.trace(TRIANGLE, rounds)) for rounds in range(24)),
    *(Case(f"fault_{name}", "trace 1", text, err=f"labview: {fault}\n", status=1) for name, (text, fault) in FAULTS.items()),
]
