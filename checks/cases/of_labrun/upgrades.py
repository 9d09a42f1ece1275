"""Scripts as they are read: their counts, and what they are in version 2."""

from case import Case
from of_labrun.faults import BENCH, counted

TWO = "lab 1\njob a\nsession\nscale add 1\nend\njob b\nsession\nscale add 1\nend\n"
TWO_IN_2 = TWO.replace("lab 1", "lab 2")

# A job without sessions, two sessions of one job, each verb, and a patience that stays.
LAID_OUT = """\
lab 2
# c
job idle

 job\twash
session \t patience 30
lamp set 7
sixteen-bytes-it add 999999
lamp  read
end
session\r
pump set 0
end"""

LAID_OUT_PLAIN = """\
lab 2
job idle
job wash
session patience 30
lamp set 7
sixteen-bytes-it add 999999
lamp read
end
session
pump set 0
end
"""

# Instruments that are called as verbs are, two sessions with patience and without, and a job without a session.
VERBS = (
    "lab 2\n# c\njob a\nsession patience 0\nset set 999999\n\tread read \r\nend\nsession\nset add 0\nend\njob set"
)

VERBS_PLAIN = """\
lab 2
job a
session patience 0
set set 999999
read read
end
session
set add 0
end
job set
"""

# The longest patience, and none in the session behind it.
LONGEST = "lab 2\njob one\nsession patience 999999\nlamp read\nend\nsession\nlamp read\nend\n"

CASES = [
    Case("version_1", "upgrade", TWO, TWO_IN_2),
    Case("line_ends_and_comments", "upgrade", BENCH, TWO_IN_2),
    Case("keeps_version_2", "upgrade", LAID_OUT, LAID_OUT_PLAIN),
    Case("version_2_again", "upgrade", LAID_OUT_PLAIN, LAID_OUT_PLAIN),
    Case("names_that_are_verbs", "upgrade", VERBS, VERBS_PLAIN),
    Case("longest_patience", "upgrade", LONGEST, LONGEST),
    Case("header_alone", "upgrade", "lab 1", "lab 2\n"),
    counted("counts_of_version_1", TWO, 2, 1, 1, 2, 2),
    counted("counts_of_a_layout", LAID_OUT, 2, 3, 0, 2, 4),
    counted("counts_of_names_that_are_verbs", VERBS, 2, 2, 0, 2, 3),
    counted("counts_of_two_sessions", LONGEST, 1, 1, 0, 2, 2),
    counted("counts_of_nothing", "lab 1\n", 0, 0, 0, 0, 0),
]
