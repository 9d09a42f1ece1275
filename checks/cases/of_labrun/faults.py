"""Scripts that are refused, each with the line and the cause of its first fault; and those just beside them that are read.

Scripts alone are read by `check`, scripts with steps by `replay`."""

from case import Case, as_bytes

CAUSES = {
    it.split()[0]: it
    for it in (
        "S1 no lab header",
        "S2 unknown word",
        "S3 bad name",
        "S4 bad number",
        "S5 job twice",
        "S6 not in a session",
        "S7 not in a job",
        "S8 empty session",
        "S9 session not closed",
        "S10 limit passed",
        "S11 more than 28 instruments in common",
        "S13 bad step",
    )
}


def refused(name, word, text, line, cause):
    """A run that tells this fault alone."""
    return Case(name, word, text, err=f"labrun: line {line}: {CAUSES[cause]}\n", status=1)


def counted(name, text, jobs, instruments, edges, sessions, commands):
    """A check that prints these counts."""
    counts = f"ok jobs {jobs} instruments {instruments} edges {edges} sessions {sessions} commands {commands}\n"
    return Case(name, "check", text, counts)


FAULTS = [
    ("", 1, "S1"),
    ("\n# x\n\n", 4, "S1"),
    ("lab 1\r", 1, "S1"),
    ("lab 3", 1, "S1"),
    ("lab 1 2", 1, "S1"),
    ("job a\n", 1, "S1"),
    ("steps", 1, "S1"),
    ("lab 1\nlab 1\n", 2, "S2"),
    ("lab 1\nsteps", 2, "S2"),
    ("lab 1\njob a b", 2, "S2"),
    ("lab 1\njob", 2, "S2"),
    ("lab 1\njob a\nsession\nscale sub 1", 4, "S2"),
    ("lab 1\njob a\nsession\nscale read 1", 4, "S2"),
    ("lab 1\njob a\nsession\nsteps read", 4, "S2"),
    ("lab 1\njob a\nsession\npatience read", 4, "S2"),
    ("lab 1\njob a\nsession\nx read\nend\r", 5, "S2"),
    ("lab 1\njob a\nsession patience 3", 3, "S2"),
    ("lab 2\njob a\nsession patience", 3, "S2"),
    ("lab 2\njob a\nsession patient 3", 3, "S2"),
    ("lab 1\njob A", 2, "S3"),
    ("lab 1\njob abcdefghijklmnopq", 2, "S3"),
    ("lab 1\njob steps", 2, "S3"),
    ("lab 1\njob a\nsession\nx\vy read", 4, "S3"),
    ("lab 1\njob a\nsession\nx set 007", 4, "S4"),
    ("lab 1\njob a\nsession\nx add 1000000", 4, "S4"),
    ("lab 1\njob a\nsession\nx set 1000000\nend\n", 4, "S4"),
    ("lab 1\njob a\nsession\nscale set 007\nend\n", 4, "S4"),
    ("lab 2\njob a\nsession patience 1000000", 3, "S4"),
    ("lab 1\njob a\njob a", 3, "S5"),
    ("lab 1\njob a\nScale read", 3, "S6"),
    ("lab 1\nsession", 2, "S7"),
    ("lab 1\njob a\nsession\n \t end", 4, "S8"),
    ("lab 1\njob a\nsession\nend\n", 4, "S8"),
    ("lab 1\njob a\nsession\nscale read", 5, "S9"),
]

# Lines that meet two causes: the first in the order of a line's causes is reported.
FIRST_CAUSES = [
    ("job a b", 1, "S1"),
    ("session", 1, "S1"),
    ("session patience 007", 1, "S1"),
    ("x read", 1, "S1"),
    ("end", 1, "S1"),
    ("Q set 007", 1, "S1"),
    ("lab 1\njob a\nsession\njob b c", 4, "S2"),
    ("lab 1\nsession patience 007", 2, "S2"),
    ("lab 1\njob a\nsession patience 007", 3, "S2"),
    ("lab 1\njob a\nsession\nsession patience 3", 4, "S2"),
    ("lab 1\njob a\nsession\njob Q", 4, "S9"),
    ("lab 1\njob a\nsession\njob a", 4, "S9"),
    ("lab 2\njob a\nsession\nsession patience 007", 4, "S9"),
    ("lab 1\njob a\nsession\nsession", 4, "S9"),
    ("lab 2\nsession patience 007", 2, "S7"),
    ("lab 1\nQ set 007", 2, "S6"),
    ("lab 1\njob a\nx set 007", 3, "S6"),
    ("lab 1\nend", 2, "S6"),
    ("lab 1\njob a\nsession\nScale set 007", 4, "S3"),
    ("lab 1\njob a\nsession\nx set 007", 4, "S4"),
]

# Two jobs with a scale, with CRLF ends, a blank line, a comment and no end of the last line.
BENCH = (
    "lab 1\r\n\r\n# bench\r\njob a\r\nsession\r\nscale add 1\r\nend\r\njob b\r\nsession\r\nscale add 1\r\nend"
)

# What comes of its beginnings, by their lengths from this one on: a line and a cause, or the counts.
BEGINNINGS = [
    (0, 1, "S1"),
    (5, 0, 0, 0, 0, 0),
    (6, 1, "S1"),
    (7, 0, 0, 0, 0, 0),
    (8, 2, "S2"),
    (9, 0, 0, 0, 0, 0),
    (19, 4, "S2"),
    (23, 1, 0, 0, 0, 0),
    (24, 4, "S3"),
    (25, 1, 0, 0, 0, 0),
    (26, 5, "S2"),
    (32, 6, "S9"),
    (33, 5, "S2"),
    (34, 6, "S9"),
    (35, 6, "S2"),
    (45, 7, "S9"),
    (46, 6, "S4"),
    (47, 7, "S9"),
    (48, 7, "S2"),
    (50, 1, 1, 0, 1, 1),
    (51, 7, "S2"),
    (52, 1, 1, 0, 1, 1),
    (53, 8, "S2"),
    (57, 2, 1, 0, 1, 1),
    (58, 8, "S3"),
    (59, 2, 1, 0, 1, 1),
    (60, 9, "S2"),
    (66, 10, "S9"),
    (67, 9, "S2"),
    (68, 10, "S9"),
    (69, 10, "S2"),
    (79, 11, "S9"),
    (80, 10, "S4"),
    (81, 11, "S9"),
    (82, 11, "S2"),
    (84, 2, 1, 1, 2, 2),
]


def beginning(length):
    wanted = [it[1:] for it in BEGINNINGS if it[0] <= length][-1]
    name, text = f"first_{length}_bytes", BENCH[:length]
    return refused(name, "check", text, *wanted) if len(wanted) == 2 else counted(name, text, *wanted)


NAMES = ["a", "z9-", "a-b-c", "balance", "abcdefghijklmnop", "labs", "jo", "a1"]

# Each of them is a job's name and an instrument's.
NAMED = "lab 2\n" + "".join(f"job {it}\nsession\n{it} read\nend\n" for it in NAMES)

NO_NAMES = [b"1a", b"-a", b"A", b"aB", b"a_b", b"{", b"`", b"a/", b"a:", b"\xff", b"abcdefghijklmnopq"]

WORDS = [b"lab", b"job", b"session", b"end", b"steps", b"patience"]

# The script's faults come first, and a line `steps` ends the script as the end of the text does.
BEFORE_STEPS = [
    ("", 1, "S1"),
    ("steps", 1, "S1"),
    ("lab 1\nsteps x", 2, "S2"),
    ("lab 1\njob a\nsession\nsteps\nbad", 4, "S9"),
    ("lab 1\njob a\nsession\nx read", 5, "S9"),
    ("lab 1\njob A\nsteps\nbad", 2, "S3"),
    ("lab 1\njob a\nsteps\nlook a a", 4, "S13"),
]

# Jobs a and b with x and y in common, and job c alone.
SHARED = "lab 1\njob a\nsession\nx read\ny read\nend\njob b\nsession\ny read\nx read\nend\njob c\n"

BAD_STEPS = [
    "look a a",
    "look a c",
    "look a d",
    "look a",
    "look a b x",
    "glance a a",
    "glance a d",
    "thirst d",
    "thirst",
    "thirst a b",
    "askbottles a b",
    "askbottles a b z",
    "askbottles a b x x",
    "givebottles a c x",
    "steps",
    "end",
    "job d",
    "LOOK a b",
    "sit A",
]


def shown(text):
    """A text as a part of a name."""
    return repr(as_bytes(text))[2:-1] or "nothing"


CASES = [
    *(refused(f"fault {shown(text)}", "check", text, line, cause) for text, line, cause in FAULTS),
    *(refused(f"first_cause {shown(text)}", "check", text, line, cause) for text, line, cause in FIRST_CAUSES),
    *(beginning(length) for length in range(len(BENCH) + 1)),
    Case("names", "upgrade", NAMED, NAMED),
    # (a CR that no line feed follows belongs to the name)
    *(refused(f"job {shown(it)}", "check", b"lab 1\njob " + it, 2, "S3") for it in [*NO_NAMES, *WORDS, b"a\r"]),
    *(
        refused(f"instrument {shown(it)}", "check", b"lab 1\njob a\nsession\n" + it + b" read\nend", 4, "S3")
        for it in NO_NAMES
    ),
    *(refused(f"before_steps {shown(text)}", "replay", text, line, cause) for text, line, cause in BEFORE_STEPS),
    Case("without_steps", "replay", "lab 1", "lab 1\nfinished\n"),
    Case("no_step", "replay", "lab 1\nsteps", "lab 1\nfinished\n"),
    *(refused(f"bad_step {it}", "replay", f"{SHARED}steps\nthirst a\n{it}\n", 15, "S13") for it in BAD_STEPS),
]
