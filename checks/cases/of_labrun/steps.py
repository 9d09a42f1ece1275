"""Lists of steps: each word of a step, their layout, and their limit.

That each word is read as its own step is shown by the runs of `patience`, which have each word but `glance`: with another step in a
step's place they would stop. `faults` has the steps that are refused."""

import dataclasses

from case import Case
from of_labrun.faults import SHARED, refused
from of_labrun.reports import stops

# Whether each is legal as the first step of all.
WORDS = [
    ("look a b", True),
    ("askfork a b", False),
    ("givefork a b", False),
    ("soil a b", False),
    ("askbottles a b x", False),
    ("givebottles a b x", False),
    ("thirst a", True),
    ("hunger a", False),
    ("sit a", False),
    ("leave a", False),
    ("drink a", False),
    ("reach a", False),
    ("act a", False),
    ("quit a", False),
    ("retire a", False),
    ("glance a b", True),
    ("withdraw a", False),
    # job c has no session, so that it may retire at once, and has nothing to give up
    ("retire c", True),
    ("withdraw c", False),
]


def report(logged, a, b, c):
    """What stands in each of both logs, of how many sessions each job has done how many, and whether it is retired."""
    logs = "".join(f"instrument {it} {len(logged)}\n" + "".join(f"{job} 1 1/1 read = 0\n" for job in logged) for it in "xy")
    jobs = "".join(f"job {name} sessions {done} meals 0 {state}\n" for name, done, state in zip("abc", *zip(a, b, c)))
    end = "unfinished" if "waiting" in jobs else "finished"
    return f"lab 1\n{logs}{jobs}{end}\n"


WAITS, IDLE = ("0 of 1", "waiting"), ("0 of 0", "waiting")
DONE, GONE = ("1 of 1", "retired"), ("0 of 0", "retired")


def first_word(word, legal):
    name, text = f"first {word}", f"{SHARED}steps\n{word}"
    out = report("", WAITS, WAITS, GONE if word == "retire c" else IDLE)
    return Case(name, "replay", text, out, status=3) if legal else stops(name, text, 14)


# Blank lines, comments, spaces, a CR LF and instruments in any order; the script's last line is the twelfth. The first isn't legal,
# because b isn't thirsty.
LAID_OUT = "steps\n\nlook a b\n# c\n askbottles b a y x\ngivebottles a b y\r\nglance c a\nwithdraw c\nthirst b"

# Job b asks for both bottles.
ASKED = "steps\n\nthirst b\n# c\n askbottles b a y x\n"
GIVES_Y = "givebottles a b y\r\n\tglance  c a\n"
GIVES_X = "givebottles\ta b x\nlook b a\n"
GIVES_BOTH = "givebottles a b x y\nlook b a\n"

# Then b does its session, and a does after it has asked for both; c looks how far b is, and retires.
REST = """\
drink b
reach b
act b
glance c b
reach b
act b
quit b
retire b
retire c
thirst a
askbottles a b x y
givebottles b a y x
look a b
drink a
reach a
act a
reach a
act a
quit a
retire a"""

ALL_DONE = report("ba", DONE, DONE, GONE)

TWO = "lab 1\njob a\nsession\nx read\nend\njob b\nsession\nx read\nend\nsteps\n"
TWO_WAIT = """\
lab 1
instrument x 0
job a sessions 0 of 1 meals 0 waiting
job b sessions 0 of 1 meals 0 waiting
unfinished
"""
LOOKS = TWO + "look a b\n" * 1_000_000
SITS = "lab 1\njob a\nsteps\n" + "sit a\n" * 1_000_000

# All are done, or the first of them isn't legal; one more is past the limit, if it is a step.
A_MILLION = [
    dataclasses.replace(it, slow=True)
    for it in (
        Case("a_million", "replay", LOOKS, TWO_WAIT, status=3),
        stops("a_million_of_which_none_is_legal", SITS, 4),
        refused("a_million_and_one", "replay", f"{SITS}#\n\nsit a", 1_000_006, "S10"),
        refused("bad_step_past_a_million", "replay", f"{SITS}sit", 1_000_004, "S13"),
    )
]

CASES = [
    *(first_word(word, legal) for word, legal in WORDS),
    stops("layout", SHARED + LAID_OUT, 17),
    Case("each_bottle_by_itself", "replay", SHARED + ASKED + GIVES_Y + GIVES_X + REST, ALL_DONE),
    Case("both_bottles", "replay", SHARED + ASKED + GIVES_BOTH + REST, ALL_DONE),
    stops("one_bottle_of_two", f"{SHARED}{ASKED}{GIVES_Y}look b a\ndrink b", 21),
    stops("other_bottle_of_two", f"{SHARED}{ASKED}{GIVES_X}drink b", 20),
    stops("bottle_that_was_given", f"{SHARED}{ASKED}{GIVES_BOTH}{GIVES_Y}", 20),
    *A_MILLION,
]
