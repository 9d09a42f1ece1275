"""A run of two jobs that share a scale, in which job a has a mark that is out of date: b asked since then. So a may not sit down once more;
it gives what it was asked for, b eats, and a sits once more. And scripts of two jobs beside it."""

from of_labrun.patience import script
from of_labrun.replays import STALE_MARK, TWO_SESSIONS
from of_labrun.rounds import TWO_ADD

# Scripts up to their line `steps`: job a has two sessions; both have one; b's may be given up at once.
TWICE = TWO_SESSIONS
TWO = f"{TWO_ADD}steps\n"
IMPATIENT = f"{script(0)}steps\n"

STEPS = [
    *(it.removesuffix("\n") for it in STALE_MARK),
    "givefork a b",
    "look b a",
    "sit b",
    "askbottles b a scale",
    "givebottles a b scale",
    "look b a",
    "drink b",
    "askfork a b",
    "soil b a",
    "leave b",
    "givefork b a",
    "look a b",
    "sit a",
]

# How many of the steps are done once this was.
OPENING = 0
A_THIRSTS = 1
A_HUNGERS = 2
B_THIRSTS = 3
B_HUNGERS = 4
A_LOOKS = 5
B_ASKS = 6
A_SITS = 7
A_DRINKS = 8
A_LOOKS_IN_ITS_MEAL = 9
A_REACHES = 10
A_ACTS = 11
A_QUITS = 12
A_LEAVES = 13
A_HAS_A_STALE_MARK = 16
B_SOILS = 25
A_LOOKS_AGAIN = 28


def text_of(script, steps):
    """The script with these steps."""
    return script + "".join(f"{it}\n" for it in steps)
