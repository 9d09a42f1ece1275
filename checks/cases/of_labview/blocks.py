"""What `labview blocks` tells, worked out by hand."""

from case import Case
from of_labview.waits import IMPATIENT, SHARED

# In round 1 both are thirsty, and b sees the bottle at a, as it does up to round 4; a drinks in rounds 2 and 3, and has ended its session in
# round 4 before b's turn; b drinks in round 5. So a never waits for b.
ALL_ROUNDS = """\
rounds 9 finished
blocked b by a on scale rounds 4 held 2
instrument scale blocked 4 held 2
"""

THREE_ROUNDS = """\
rounds 3 unfinished
blocked b by a on scale rounds 3 held 2
instrument scale blocked 3 held 2
"""

# b gives up in round 2, and in round 1 the other is thirsty too.
GIVEN_UP = """\
rounds 5 finished
blocked b by a on scale rounds 1 held 0
instrument scale blocked 1 held 0
"""

CASES = [
    Case("all_rounds", "blocks 1000000000", SHARED, ALL_ROUNDS),
    Case("three_rounds", "blocks 3", SHARED, THREE_ROUNDS),
    Case("no_rounds", "blocks 0", SHARED, "rounds 0 unfinished\n"),
    Case("given_up", "blocks 20", IMPATIENT, GIVEN_UP),
    Case("no_jobs", "blocks 7", "lab 1\n", "rounds 0 finished\n"),
    Case("no_script", "blocks 7", "lab 1\nsession\n", err="labview: line 2: S7 not in a job\n", status=1),
]
