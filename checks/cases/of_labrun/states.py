"""What is counted and logged where runs of the stale mark and others lead to, worked out by hand. How the jobs and their edge are there:
`of_labview/states.py`. (Where a has its stale mark: `replays.py`.)"""

from case import Case
from of_labrun.rounds import WAITING
from of_labview.states import HASTY, TO_MEAL
from stale_mark import IMPATIENT, STEPS, TWICE, TWO, text_of

ONE_MEAL = """\
lab 1
instrument scale 0
job a sessions 0 of 1 meals 1 waiting
job b sessions 0 of 1 meals 0 waiting
unfinished
"""

SAT_TWICE = """\
lab 1
instrument scale 1
a 1 1/1 add 1 = 1
job a sessions 1 of 2 meals 2 waiting
job b sessions 0 of 1 meals 1 waiting
unfinished
"""

GIVEN_UP = """\
lab 2
instrument scale 0
job a sessions 0 of 1 withdrawn 0 meals 0 waiting
job b sessions 0 of 1 withdrawn 1 meals 0 waiting
unfinished
"""


def replayed(name, script, steps, out):
    return Case(name, "replay", text_of(script, steps), out, status=3)


CASES = [
    replayed("eats_before_drinking", TWO, TO_MEAL, ONE_MEAL),
    replayed("hungers", TWO, HASTY[:2], WAITING),
    replayed("sat_twice", TWICE, STEPS, SAT_TWICE),
    replayed("given_up", IMPATIENT, ["thirst b", "withdraw b"], GIVEN_UP),
    replayed("looked", TWO, ["look a b", "look b a"], WAITING),
    # With the patience 0 job b, which thirsts in its first turn, gives up in its second, and a, without a patience, drinks.
    Case("gives_up_at_once", "rounds 2", IMPATIENT.removesuffix("steps\n"), GIVEN_UP, status=3),
]
