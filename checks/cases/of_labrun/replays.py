"""Replays of worked scripts."""

from case import Case
from of_labrun.rounds import SECOND_SESSION, TWO_ADD

# The script of two jobs of which the first has a second session: twelve lines, and `steps`.
TWO_SESSIONS = SECOND_SESSION + "steps\n"

# The first job looks, the second asks for the fork, and the first starts its meal by the mark that it has.
STALE_MARK = [
    "thirst a\n",
    "hunger a\n",
    "thirst b\n",
    "hunger b\n",
    "look a b\n",
    "askfork b a\n",
    "sit a\n",
    "drink a\n",
    "look a b\n",
    "reach a\n",
    "act a\n",
    "quit a\n",
    "leave a\n",
    "thirst a\n",
    "hunger a\n",
    "look a b\n",
]

STALE_MARK_REPORT = """\
lab 1
instrument scale 1
a 1 1/1 add 1 = 1
job a sessions 1 of 2 meals 1 waiting
job b sessions 0 of 1 meals 0 waiting
unfinished
"""


def not_legal(line):
    return f"labrun: line {line}: step is not legal\n"


def replayed(name, script, steps, **ends):
    return Case(name, "replay", script + "".join(steps), **ends)


CASES = [
    replayed("illegal_step", TWO_ADD + "steps\n", ["thirst a\n", "hunger a\n", "sit a\n"], err=not_legal(13), status=1),
    replayed("stale_mark", TWO_SESSIONS, STALE_MARK, out=STALE_MARK_REPORT, status=3),
    # The second meal has to wait for the look that sees the request.
    replayed("stale_mark_and_a_meal", TWO_SESSIONS, [*STALE_MARK, "sit a\n"], err=not_legal(30), status=1),
]
# A step that is never legal there is named by its line, wherever it stands.
for place in range(17):
    steps = [*STALE_MARK[:place], "act b\n", *STALE_MARK[place:]]
    CASES.append(replayed(f"stale_mark_with_a_step_put_in_at_{place}", TWO_SESSIONS, steps, err=not_legal(14 + place), status=1))
