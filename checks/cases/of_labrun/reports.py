"""The report of what a list of steps leads to."""

from case import Case
from of_labrun.upgrades import TWO


def stops(name, text, line):
    """A replay whose step in this line isn't legal."""
    return Case(name, "replay", text, err=f"labrun: line {line}: step is not legal\n", status=1)


NOTHING_DONE = """\
lab 1
instrument scale 0
job a sessions 0 of 1 meals 0 waiting
job b sessions 0 of 1 meals 0 waiting
unfinished
"""

MEAL = """\
steps
thirst a
hunger a
look a b
sit a
"""

AFTER_MEAL = """\
lab 1
instrument scale 0
job a sessions 0 of 1 meals 1 waiting
job b sessions 0 of 1 meals 0 waiting
unfinished
"""

# Job a has two sessions here, and is about to sit on a mark that is out of date.
STALE_MARK = """\
lab 1
job a
session
scale add 1
end
session
scale add 1
end
job b
session
scale add 1
end
steps
thirst a
hunger a
thirst b
hunger b
look a b
askfork b a
sit a
drink a
look a b
reach a
act a
quit a
leave a
thirst a
hunger a
look a b
"""

AFTER_STALE_MARK = """\
lab 1
instrument scale 1
a 1 1/1 add 1 = 1
job a sessions 1 of 2 meals 1 waiting
job b sessions 0 of 1 meals 0 waiting
unfinished
"""

# Adding past the dial's last number begins again at 0.
WRAPS = """\
lab 1
job a
session
scale set 999999
scale add 1
end
steps
thirst a
drink a
reach a
act a
reach a
act a
quit a
retire a
"""

AFTER_WRAPS = """\
lab 1
instrument scale 2
a 1 1/2 set 999999 = 999999
a 1 2/2 add 1 = 0
job a sessions 1 of 1 meals 0 retired
finished
"""

# Each verb stands in a log, and a second instrument comes second; b gives up its session.
VERBS = """\
lab 2
job a
session
scale set 5
lamp add 999999
scale read
end
job b
session patience 0
scale add 1
end
steps
thirst b
withdraw b
retire b
thirst a
look a b
drink a
reach a
act a
reach a
act a
reach a
act a
quit a
retire a
"""

AFTER_VERBS = """\
lab 2
instrument scale 2
a 1 1/2 set 5 = 5
a 1 2/2 read = 5
instrument lamp 1
a 1 1/1 add 999999 = 999999
job a sessions 1 of 1 withdrawn 0 meals 0 retired
job b sessions 0 of 1 withdrawn 1 meals 0 retired
finished
"""

CASES = [
    Case("header_alone", "replay", "lab 1\n", "lab 1\nfinished\n"),
    Case("no_rounds", "replay", TWO, NOTHING_DONE, status=3),
    Case("eats_before_drinking", "replay", TWO + MEAL, AFTER_MEAL, status=3),
    # job a sits before it has seen that the fork is here
    stops("sits_without_a_look", f"{TWO}steps\nthirst a\nhunger a\nsit a\n", 13),
    Case("stale_mark", "replay", STALE_MARK, AFTER_STALE_MARK, status=3),
    Case("dial_wraps", "replay", WRAPS, AFTER_WRAPS),
    Case("dial_wraps_by_rounds", "rounds 10", WRAPS.partition("steps\n")[0], AFTER_WRAPS),
    Case("verbs_in_logs", "replay", VERBS, AFTER_VERBS),
]
