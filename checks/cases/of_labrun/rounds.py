"""Scripts by rounds: what stands in the report after how many."""

from case import Case
from simulate import simulate

# Two jobs, each of which adds 1 on the scale in its one session.
TWO_ADD = """\
lab 1
job a
session
scale add 1
end
job b
session
scale add 1
end
"""

BOTH_ADDED = """\
lab 1
instrument scale 2
a 1 1/1 add 1 = 1
b 1 1/1 add 1 = 2
job a sessions 1 of 1 meals 0 retired
job b sessions 1 of 1 meals 1 retired
finished
"""

# The report of two jobs before their first event.
WAITING = """\
lab 1
instrument scale 0
job a sessions 0 of 1 meals 0 waiting
job b sessions 0 of 1 meals 0 waiting
unfinished
"""

NO_HEADER = "labrun: line 1: S1 no lab header\n"

# One job alone: Thirst, Drink, two commands, Quit and Retire, one a round.
ONE = """\
lab 1
job a
session
scale set 5
scale read
end
"""

ONE_REPORT = """\
lab 1
instrument scale 2
a 1 1/2 set 5 = 5
a 1 2/2 read = 5
job a sessions 1 of 1 meals 0 retired
finished
"""

SET_THEN_READ = """\
lab 1
job a
session
scale set 7
end
job b
session
scale read
end
"""

SEVEN_READ = """\
lab 1
instrument scale 2
a 1 1/1 set 7 = 7
b 1 1/1 read = 7
job a sessions 1 of 1 meals 0 retired
job b sessions 1 of 1 meals 1 retired
finished
"""

# A session that is open shows as the beginning of a part.
TWICE = """\
lab 1
job a
session
scale add 1
scale add 1
end
job b
session
scale add 1
scale add 1
end
"""

IN_A_SESSION = """\
lab 1
instrument scale 1
a 1 1/2 add 1 = 1
job a sessions 0 of 1 meals 0 waiting
job b sessions 0 of 1 meals 0 waiting
unfinished
"""

# With line ends of another system, an empty line, a comment, and no end of the last line.
COMMENTED = TWO_ADD.replace("lab 1\n", "lab 1\n\n# bench\n").replace("\n", "\r\n").removesuffix("\r\n")


def not_yet(report):
    """The report of a run in which the last job hasn't retired."""
    return report.replace("retired\nfinished\n", "waiting\nunfinished\n")


# The second job of these waits in rounds 2 to 4, and would drink in round 5.
def with_patience(patience):
    """The script of two jobs whose second session has this patience."""
    return TWO_ADD.replace("lab 1", "lab 2").replace("job b\nsession", f"job b\nsession patience {patience}")


# Job b gives up before it is hungry; after its meal; not at all.
AT_ONCE = """\
lab 2
instrument scale 1
a 1 1/1 add 1 = 1
job a sessions 1 of 1 withdrawn 0 meals 0 retired
job b sessions 0 of 1 withdrawn 1 meals 0 retired
finished
"""

LATER = """\
lab 2
instrument scale 1
a 1 1/1 add 1 = 1
job a sessions 1 of 1 withdrawn 0 meals 0 retired
job b sessions 0 of 1 withdrawn 1 meals 1 retired
finished
"""

NEVER = """\
lab 2
instrument scale 2
a 1 1/1 add 1 = 1
b 1 1/1 add 1 = 2
job a sessions 1 of 1 withdrawn 0 meals 0 retired
job b sessions 1 of 1 withdrawn 0 meals 1 retired
finished
"""

# With no patience it withdraws in round 2, before it is hungry; with a patience of 1 in round 3, after it asked for the fork, so that it eats
# first; a patience of 3 is enough. The run finishes after so many rounds, and not before.
PATIENCES = [(0, 5, AT_ONCE), (1, 6, LATER), (3, 9, NEVER)]

# The first job has a second session.
SECOND_SESSION = """\
lab 1
job a
session
scale add 1
end
session
scale add 1
end
job b
session
scale add 1
end
"""

ENTRIES = ["a 1 1/1 add 1 = 1\n", "b 1 1/1 add 1 = 2\n", "a 2 1/1 add 1 = 3\n"]

# Of each limit from 0 on: the entries of the log, and the sessions and meals of both jobs. The second job retires in round 9, the first in
# round 14.
STOPS = [
    (0, (0, 0), (0, 0)),
    (0, (0, 0), (0, 0)),
    (0, (0, 0), (0, 0)),
    (1, (0, 0), (0, 0)),
    (1, (1, 0), (0, 1)),
    (1, (1, 0), (0, 1)),
    (2, (1, 0), (0, 1)),
    (2, (1, 0), (1, 1)),
    (2, (1, 0), (1, 1)),
    (2, (1, 0), (1, 1)),
    (3, (1, 0), (1, 1)),
    (3, (2, 0), (1, 1)),
    (3, (2, 1), (1, 1)),
    (3, (2, 1), (1, 1)),
    (3, (2, 1), (1, 1)),
]


def stopped(limit):
    """The report of SECOND_SESSION after this many rounds."""
    entries, (a_sessions, a_meals), (b_sessions, b_meals) = STOPS[limit]
    a, end = ("waiting", "unfinished") if limit < 14 else ("retired", "finished")
    b = "waiting" if limit < 9 else "retired"
    log = f"lab 1\ninstrument scale {entries}\n" + "".join(ENTRIES[:entries])
    jobs = f"job a sessions {a_sessions} of 2 meals {a_meals} {a}\njob b sessions {b_sessions} of 1 meals {b_meals} {b}\n"
    return f"{log}{jobs}{end}\n"


def joined(words):
    """The words of a command line as a part of a name."""
    return words.replace(" ", "_")


# Each task reads a script; steps are for a replay alone; of nobody there is nobody to wait for.
CASES = [Case(f"empty_input_{joined(it)}", it, "", err=NO_HEADER, status=1)
         for it in ("rounds 10", "threads 2 10", "replay", "check", "upgrade")]
CASES += [Case(f"steps_are_refused_{joined(it)}", it, "lab 1\nsteps\n", err="labrun: line 2: S2 unknown word\n", status=1)
          for it in ("rounds 10", "threads 2 10", "upgrade", "check")]
CASES += [Case(f"header_alone_{joined(it)}", it, "lab 1", "lab 1\nfinished\n")
          for it in ("rounds 10", "rounds 0", "replay", "threads 1 0", "threads 2 0", "threads 32 0")]
CASES += [
    Case("header_alone_version_2", "replay", "lab 2\n", "lab 2\nfinished\n"),
    Case("one_job_alone_6", "rounds 6", ONE, ONE_REPORT),
    Case("one_job_alone_5", "rounds 5", ONE, not_yet(ONE_REPORT), status=3),
]
# The second job begins its meal in the fourth round, and retires in the ninth.
CASES += [Case(f"two_jobs_take_turns_{limit}", f"rounds {limit}", TWO_ADD, BOTH_ADDED) for limit in (9, 10, 10_000, 1_000_000_000)]
CASES += [
    Case("two_jobs_take_turns_8", "rounds 8", TWO_ADD, not_yet(BOTH_ADDED), status=3),
    Case("no_rounds", "rounds 0", TWO_ADD, WAITING, status=3),
    Case("set_then_read_9", "rounds 9", SET_THEN_READ, SEVEN_READ),
    Case("set_then_read_8", "rounds 8", SET_THEN_READ, not_yet(SEVEN_READ), status=3),
    Case("stopped_in_a_session", "rounds 3", TWICE, IN_A_SESSION, status=3),
    Case("line_ends_and_comments", "rounds 9", COMMENTED, BOTH_ADDED),
]
for patience, limit, report in PATIENCES:
    script = with_patience(patience)
    CASES.append(Case(f"patience_{patience}_runs_out", f"rounds {limit}", script, report))
    CASES.append(Case(f"patience_{patience}_one_round_less", f"rounds {limit - 1}", script, simulate(script.encode(), limit - 1)[0], status=3))
# What an upgrade of it writes (`scripts`) runs as it does, but for the version.
CASES.append(Case("upgraded_script", "rounds 9", TWO_ADD.replace("lab 1", "lab 2"), NEVER))
# A stop after each round; one worker takes the same turns in the same order.
for limit in range(15):
    for words in (f"rounds {limit}", f"threads 1 {limit}"):
        CASES.append(Case(f"stops_at_each_turn_{joined(words)}", words, SECOND_SESSION, stopped(limit), status=0 if limit == 14 else 3))
