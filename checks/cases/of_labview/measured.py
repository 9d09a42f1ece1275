"""What `labview arrange N` writes, and tells of the best order that it measured."""

from case import Case
from of_labview.orders import RING_OF_EIGHT, jobs

# Two jobs that share a scale, and are alike, so no order is better; the last line has no end.
ALIKE = "lab 1\njob a\nsession\ns add 1\nend\njob b\nsession\ns add 1\nend"

# b comes first, so it doesn't wait: both drink, b from round 2 to 4 and a from round 5 to 7, and a retires in round 9.
PATIENT = """\
lab 2
# of b
job b
session patience 0
scale add 1
end
# of a
job a
session
scale add 1
end
"""

# a comes first, and b gives up in round 2; a drinks from round 2 to 4 and retires in round 5.
GIVES_UP = """\
lab 2
# of a
job a
session
scale add 1
end
# of b
job b
session patience 0
scale add 1
end
"""

# By checks/simulate.py it takes 29 rounds, with 50 of waiting; in the order by colours, c d a b, 25 with 35; and in the best of the 24 orders,
# which is one alone, 24 with 34.
FOUR = """\
lab 1
job a
session
z read
end
session
z read
end
job b
session
x read
end
session
y read
end
job c
session
y read
z read
end
session
x read
y read
end
job d
session
x read
y read
end
session
x read
z read
end
"""

FOUR_BEST = """\
lab 1
job a
session
z read
end
session
z read
end
job d
session
x read
y read
end
session
x read
z read
end
job b
session
x read
end
session
y read
end
job c
session
y read
z read
end
session
x read
y read
end
"""

# As it comes, a job of the ring drinks five rounds after the job behind it. With every second job first, four drink in round 2, having waited
# one round, and the other four in round 6, having waited five; and all are retired in round 11.
RING, RING_BEST = jobs("abcdefgh", RING_OF_EIGHT), jobs("acegbdfh", RING_OF_EIGHT)


def best(name, limit, script, wanted, told):
    return Case(name, f"arrange {limit}", script, wanted, f"labview: {told}\n")


CASES = [
    best("alike", 100, ALIKE, ALIKE, "rounds 9, now 9; waited 5, now 5"),
    best("patient", 100, PATIENT, GIVES_UP, "rounds 9, now 5; waited 5, now 2"),
    best("patient_unfinished", 4, PATIENT, GIVES_UP, "rounds 4 unfinished, now 4 unfinished; waited 4, now 2"),
    best("no_rounds", 0, PATIENT, PATIENT, "rounds 0 unfinished, now 0 unfinished; waited 0, now 0"),
    best("gives_up", 100, GIVES_UP, GIVES_UP, "rounds 5, now 5; waited 2, now 2"),
    best("four", 1000, FOUR, FOUR_BEST, "rounds 29, now 24; waited 50, now 34"),
    best("no_jobs", 5, "lab 1\n", "lab 1\n", "rounds 0, now 0; waited 0, now 0"),
    best("ring_of_eight", 1000, RING, RING_BEST, "rounds 42, now 11; waited 141, now 24"),
]
