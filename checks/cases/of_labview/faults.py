"""Inputs that labview refuses: reports by hand, reports without a timeline, and an input of the other kind."""

from case import Case
from of_labrun.rounds import BOTH_ADDED, TWO_ADD

UNKNOWN_LINE = "not a line of a report"
OUT_OF_PLACE = "line out of place"
OTHER_VERSION = "job line of another version"
WRONG_END = "last line doesn't fit the jobs"
NOT_WHOLE = "report not whole"

RETIRED = "sessions 0 of 0 meals 0 retired"

# A text, the line of its fault, and its fault.
NO_REPORTS = [
    ("", 1, NOT_WHOLE),
    ("\n", 1, UNKNOWN_LINE),
    ("lab 1\nfinished", 2, NOT_WHOLE),
    ("lab 1\nscale\n", 2, UNKNOWN_LINE),
    ("lab 1\nfinished\n\n", 3, UNKNOWN_LINE),
    ("lab 3\nfinished\n", 1, UNKNOWN_LINE),
    ("lab 1\r\nfinished\r\n", 1, UNKNOWN_LINE),
    ("lab  1\nfinished\n", 1, UNKNOWN_LINE),
    ("lab 1 \nfinished\n", 1, UNKNOWN_LINE),
    ("finished\n", 1, OUT_OF_PLACE),
    ("lab 1\nlab 1\nfinished\n", 2, OUT_OF_PLACE),
    ("lab 1\nfinished\nfinished\n", 3, OUT_OF_PLACE),
    ("lab 1\ninstrument x 0\n", 3, NOT_WHOLE),
    ("lab 1\ninstrument a 1\nfinished\n", 3, OUT_OF_PLACE),
    ("lab 1\na 1 1/1 read = 0\nfinished\n", 2, OUT_OF_PLACE),
    ("lab 1\ninstrument a 1\na 1 1/1 read = 0\na 1 1/1 read = 0\n", 4, OUT_OF_PLACE),
    ("lab 1\ninstrument a 01\n", 2, UNKNOWN_LINE),
    ("lab 1\ninstrument A 1\n", 2, UNKNOWN_LINE),
    ("lab 1\ninstrument a 4294967296\n", 2, UNKNOWN_LINE),
    ("lab 1\ninstrument a 1\na 1 1-1 read = 0\n", 3, UNKNOWN_LINE),
    (f"lab 1\njob a {RETIRED}\ninstrument a 0\n", 3, OUT_OF_PLACE),
    (f"lab 2\njob a {RETIRED}\nfinished\n", 2, OTHER_VERSION),
    ("lab 1\njob a sessions 0 of 0 withdrawn 0 meals 0 retired\n", 2, OTHER_VERSION),
    ("lab 1\njob a sessions 0 of 1 meals 0 waiting\nfinished\n", 3, WRONG_END),
]

CONTRADICT = "the logs contradict each other: no order of the sessions agrees with all of them"

JOB_A = f"job a {RETIRED}\nfinished\n"

# A report, and why it has no picture.
NO_TIMELINES = {
    "no_job_line": (
        "lab 1\ninstrument x 1\na 1 1/1 read = 0\nfinished\n",
        "instrument 1, entry 1: its job has no job line",
    ),
    "job_twice": (
        f"lab 1\njob a {RETIRED}\n{JOB_A}",
        "job line 2: a job of this name stands before it",
    ),
    "too_many": (
        f"lab 1\ninstrument x 1\na 1001 1/1 read = 0\n{JOB_A}",
        "instrument 1, entry 1: more sessions or commands than a lab has",
    ),
    "no_such_place": (
        f"lab 1\ninstrument x 1\na 1 2/1 read = 0\n{JOB_A}",
        "instrument 1, entry 1: no such session or place",
    ),
    "does_not_follow": (
        f"lab 1\ninstrument x 2\na 1 1/2 read = 0\na 1 1/2 read = 0\n{JOB_A}",
        "instrument 1, entry 2: it doesn't follow the entry before it",
    ),
    "in_two_places": (
        f"lab 1\ninstrument x 3\na 1 1/2 read = 0\na 2 1/1 read = 0\na 1 2/2 read = 0\n{JOB_A}",
        "instrument 1, entry 3: its session stands in two places of the log",
    ),
    "one_job_contradicts": (
        f"lab 1\ninstrument x 2\na 1 1/1 read = 0\na 2 1/1 read = 0\ninstrument y 2\na 2 1/1 read = 0\na 1 1/1 read = 0\n{JOB_A}",
        CONTRADICT,
    ),
    "two_jobs_contradict": (
        "lab 1\ninstrument x 2\na 2 1/1 read = 0\nb 1 1/1 read = 0\ninstrument y 2\nb 1 1/1 read = 0\na 1 1/1 read = 0\n"
        f"job a {RETIRED}\njob b {RETIRED}\nfinished\n",
        CONTRADICT,
    ),
}


def refused(name, words, given, fault):
    return Case(name, words, given, err=f"labview: {fault}\n", status=1)


def script_for(word, script, line):
    """What is told of a script if the word reads a report."""
    told = f"line {line}: this is a script; {word} reads a report: labrun < script | labview {word}"
    return refused(f"script_for_{word}_{len(script)}", word, script, told)


def report_for(words):
    """What is told of a report if the word reads a script."""
    word = words.split()[0]
    return refused(f"report_for_{'_'.join(words.split())}", words, BOTH_ADDED, f"line 2: this is a report; {word} reads a script")


CASES = [
    *(refused(f"no_report_{at}", "picture", text, f"line {line}: {fault}") for at, (text, line, fault) in enumerate(NO_REPORTS)),
    *(refused(name, "picture", report, fault) for name, (report, fault) in NO_TIMELINES.items()),
    script_for("picture", TWO_ADD, 2),
    script_for("table", TWO_ADD, 2),
    script_for("table", "lab 1\njob a\n", 2),
    # (what the reader of reports says of these stands in crates/run_tests/src/views/faults.rt)
    script_for("picture", "lab 1", 1),
    script_for("picture", "lab 1\n", 2),
    report_for("gantt 9"),
    report_for("explain"),
    report_for("arrange 9"),
    refused("nothing", "waits 9", "", "line 1: S1 no lab header"),
]
