"""States that runs of the stale mark and others lead to, in full, and the marks of both jobs at stages: all was worked out by hand. What is
counted and logged there: `of_labrun/states.py`."""

from case import Case
from explained import things_of
from stale_mark import (
    A_HAS_A_STALE_MARK,
    A_LEAVES,
    A_LOOKS,
    A_LOOKS_AGAIN,
    A_LOOKS_IN_ITS_MEAL,
    A_SITS,
    B_ASKS,
    B_SOILS,
    IMPATIENT,
    OPENING,
    STEPS,
    TWICE,
    TWO,
    text_of,
)

# A thirsty job eats before it drinks.
TO_MEAL = ["thirst a", "hunger a", "look a b", "sit a"]

# The job sits before it has seen that the fork is here.
HASTY = ["thirst a", "hunger a", "sit a"]

B_AT_FIRST = """\
b: thinking, in no session, session 0 of 1, commands done: 0
  fork with a: dirty, there, token here, not marked
  bottle of scale with a: there, token here, not marked
"""

# It has seen the bottle, and its fork mark is gone with the meal's start.
EATS = f"""\
legal steps: 4, all
a: eating, thirsty, session 1 of 1, commands done: 0
  fork with b: dirty, here, token there, not marked
  bottle of scale with b: here, token there, marked
{B_AT_FIRST}\
legal now, besides looks and glances:
  drink a
  thirst b
"""

A_HUNGRY = """\
a: hungry, thirsty, session 1 of 1, commands done: 0
  fork with b: dirty, here, token there, not marked
  bottle of scale with b: here, token there, not marked
"""

THIRST_OF_B = """\
legal now, besides looks and glances:
  thirst b
"""

HUNGERS = f"legal steps: 2, all\n{A_HUNGRY}{B_AT_FIRST}{THIRST_OF_B}"

TOO_HASTY = f"line 13: `sit a` is not legal: no mark for the fork with b: the fork is here; look\n{A_HUNGRY}{THIRST_OF_B}"

# Before the fork is given.
A_ASKED = """\
a: hungry, thirsty, session 2 of 2, commands done: 0
  fork with b: dirty, here, token here, not marked
  bottle of scale with b: here, token there, marked
"""

LEGAL_THERE = """\
legal now, besides looks and glances:
  drink a
  givefork a b
  askbottles b a scale
"""

ASKED = f"""\
legal steps: 16, all
{A_ASKED}\
b: hungry, thirsty, session 1 of 1, commands done: 0
  fork with a: dirty, there, token there, not marked
  bottle of scale with a: there, token here, not marked
{LEGAL_THERE}"""

STALE = f"""\
line 30: `sit a` is not legal: no mark for the fork with b: the fork is here but dirty, and its token is here too; look again after the other has had it
{A_ASKED}{LEGAL_THERE}"""

# Once a has sat twice: the fork is back at a, and the bottle at b, which drinks.
SAT_TWICE = """\
legal steps: 29, all
a: eating, thirsty, session 2 of 2, commands done: 0
  fork with b: clean, here, token there, not marked
  bottle of scale with b: there, token here, not marked
b: thinking, drinking, session 1 of 1, commands done: 0
  fork with a: clean, there, token here, not marked
  bottle of scale with a: here, token there, marked
legal now, besides looks and glances:
  soil a b
  askbottles a b scale
  reach b
"""

A_AT_FIRST = """\
a: thinking, in no session, session 0 of 1, commands done: 0
  fork with b: dirty, here, token there, not marked
  bottle of scale with b: here, token there, not marked
"""

# Job b gave its session up.
GIVEN_UP = f"""\
legal steps: 2, all
{A_AT_FIRST}\
{B_AT_FIRST.replace("session 0", "session 1")}\
legal now, besides looks and glances:
  thirst a
  retire b
"""

# All is at a at first: it has its bottle, and its fork, which nobody asked for. A look changes nothing else.
LOOKED = f"""\
legal steps: 2, all
{A_AT_FIRST.replace("not marked", "marked")}\
{B_AT_FIRST}\
legal now, besides looks and glances:
  thirst a
  thirst b
"""

# The marks of a and of b for the fork and for the bottle.
NONE, BOTTLE, FORK, BOTH = (False, False), (False, True), (True, False), (True, True)
MARKS = [
    (OPENING, NONE, NONE),
    # a look of the thirsty job, which the request doesn't undo
    (A_LOOKS, BOTH, NONE),
    (B_ASKS, BOTH, NONE),
    # the meal starts without fork marks, and a look in it sees a dirty fork
    (A_SITS, BOTTLE, NONE),
    (A_LOOKS_IN_ITS_MEAL, BOTH, NONE),
    # it ends without fork marks, and the fork that was asked for gets none
    (A_LEAVES, BOTTLE, NONE),
    (A_HAS_A_STALE_MARK, BOTTLE, NONE),
    # bottle and fork are at b, which soils the fork
    (B_SOILS, NONE, BOTH),
    # the fork is back at a, clean
    (A_LOOKS_AGAIN, FORK, BOTTLE),
]

# Three jobs that read the same three instruments. Each fork is at first at the job that comes first here.
SESSION = "session\nlamp read\npump read\nscale read\nend\n"
THREE = f"lab 1\njob c\n{SESSION}job b\n{SESSION}job a\n{SESSION}steps\n"

# Job a gets both its forks, eats and soils one of them.
MEAL_OF_THREE = [
    "thirst a",
    "hunger a",
    "askfork a b",
    "askfork a c",
    "givefork b a",
    "givefork c a",
    "look a b",
    "look a c",
    "sit a",
    "soil a c",
]

# If the job with a clean fork came first, and the job without a dirty one, then a would come before b, b before c, and c before a.
DURING_THE_MEAL = {
    "a": {"fork with b": "clean, here", "fork with c": "dirty, here"},
    "b": {"fork with a": "clean, there", "fork with c": "dirty, there"},
    "c": {"fork with a": "dirty, there", "fork with b": "dirty, here"},
}


def marks_of(out, job, other):
    told = things_of(out, job)
    return tuple(told.get(it, "").split(", ")[-1:] == ["marked"] for it in (f"fork with {other}", f"bottle of scale with {other}"))


def marked(*wanted):
    """Whether a and b have these marks."""

    def judge(out):
        came = marks_of(out, "a", "b"), marks_of(out, "b", "a")
        return None if len(things_of(out, "a")) == len(things_of(out, "b")) == 2 and came == wanted else f"the marks should be {wanted}"

    return judge


def forks(out):
    """Where the forks are during the meal."""
    came = {job: {it: ", ".join(told.split(", ")[:2]) for it, told in things_of(out, job).items() if "fork" in it} for job in "abc"}
    return None if came == DURING_THE_MEAL else f"the forks should be so: {DURING_THE_MEAL}"


CASES = [
    Case("eats_before_drinking", "explain", text_of(TWO, TO_MEAL), EATS),
    Case("hungers", "explain", text_of(TWO, HASTY[:2]), HUNGERS),
    Case("illegal_step", "explain", text_of(TWO, HASTY), TOO_HASTY),
    Case("before_the_fork_is_given", "explain", text_of(TWICE, STEPS[:A_HAS_A_STALE_MARK]), ASKED),
    Case("stale_mark", "explain", text_of(TWICE, [*STEPS[:A_HAS_A_STALE_MARK], "sit a"]), STALE),
    Case("sat_twice", "explain", text_of(TWICE, STEPS), SAT_TWICE),
    Case("given_up", "explain", text_of(IMPATIENT, ["thirst b", "withdraw b"]), GIVEN_UP),
    Case("looked", "explain", text_of(TWO, ["look a b", "look b a"]), LOOKED),
    *(Case(f"marks_{place}", "explain", text_of(TWICE, STEPS[:place]), marked(*marks)) for place, *marks in MARKS),
    Case("forks_of_three", "explain", text_of(THREE, MEAL_OF_THREE), forks),
]
