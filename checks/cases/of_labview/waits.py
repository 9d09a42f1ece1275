"""What `labview waits` tells, worked out by hand."""

from case import Case

# Two jobs that share a scale. The fork and the bottle start at a, so b precedes a.
SHARED = """\
lab 1
job a
session
scale add 1
end
job b
session
scale add 1
end
"""

# In round 1 both are thirsty; a drinks in round 2, acts, and is done in round 4, in which b sits down; in round 5 a gives the bottle and b
# drinks; b acts, is done in round 7, leaves, and retires in round 9.
ALL_ROUNDS = """\
rounds 9 finished
session a 1 thirsty 1 drinks 2 done 4 waited 1
session b 1 thirsty 1 drinks 5 done 7 waited 4
job a waited 1 longest 1
job b waited 4 longest 4
longest wait 4 b 1
chain 2 b a
"""

# After three rounds a has the scale still, and b waits.
THREE_ROUNDS = """\
rounds 3 unfinished
session a 1 thirsty 1 drinks 2 waited 1
session b 1 thirsty 1 waits
job a waited 1 longest 1
job b waited 2 longest 2
longest wait 2 b 1
chain 2 b a
"""

# Before the first round nobody has begun anything.
NO_ROUNDS = """\
rounds 0 unfinished
job a waited 0 longest 0
job b waited 0 longest 0
longest wait 0
chain 2 b a
"""

# b gives up in its first turn in which it is thirsty at the start.
IMPATIENT = """\
lab 2
job a
session
scale add 1
end
job b
session patience 0
scale add 1
end
"""

GIVEN_UP = """\
rounds 5 finished
session a 1 thirsty 1 drinks 2 done 4 waited 1
session b 1 thirsty 1 given up 2
job a waited 1 longest 1
job b waited 1 longest 1
longest wait 1 a 1
chain 2 b a
"""

CASES = [
    Case("all_rounds", "waits 1000000000", SHARED, ALL_ROUNDS),
    Case("three_rounds", "waits 3", SHARED, THREE_ROUNDS),
    Case("no_rounds", "waits 0", SHARED, NO_ROUNDS),
    Case("given_up", "waits 20", IMPATIENT, GIVEN_UP),
    Case("no_jobs", "waits 7", "lab 1\n", "rounds 0 finished\nlongest wait 0\nchain 0\n"),
    Case("no_script", "waits 7", "lab 1\nsession\n", err="labview: line 2: S7 not in a job\n", status=1),
]
