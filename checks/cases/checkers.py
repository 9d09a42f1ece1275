"""Tests of what checks the cases: a wrong report has to be found, and what is reckoned has to be what was worked out by hand."""

import os
import subprocess
import sys

from check_report import problems_of

BENCH = os.path.dirname(os.path.dirname(os.path.realpath(__file__)))

SCRIPT = """\
lab 1
job a
session
scale add 1
end
job b
session
scale add 1
lamp read
end
"""

GOOD = """\
lab 1
instrument scale 2
a 1 1/1 add 1 = 1
b 1 1/1 add 1 = 2
instrument lamp 1
b 1 1/1 read = 0
job a sessions 1 of 1 meals 0 retired
job b sessions 1 of 1 meals 1 retired
finished
"""

# What a wrong report has in place of the first such text of the good one.
WRONG = [
    ("lab 1", "lab 2"),
    ("b 1 1/1 add 1 = 2", "b 1 1/1 add 1 = 3"),
    ("b 1 1/1 add 1 = 2", "b 1 1/2 add 1 = 2"),
    ("b 1 1/1 add 1 = 2", "b 1 1/1 add 2 = 3"),
    ("b 1 1/1 add 1 = 2", "a 1 1/1 add 1 = 2"),
    ("scale 2", "scale 3"),
    ("b sessions 1", "b sessions 0"),
    ("b sessions 1 of 1", "b sessions 1 of 2"),
    ("meals 1", "meals 2"),
    ("retired\nfinished", "waiting\nfinished"),
    ("finished", "unfinished"),
    ("lamp 1\nb 1 1/1 read = 0", "lamp 0"),
]


def wrong_is_found(right, wrong):
    report = GOOD.replace(right, wrong, 1)
    return None if report != GOOD and problems_of(SCRIPT, report) else f"this report has no problem:\n{report}"


def checks_itself(name, runs):
    """What a tool of checks/ says of itself, if it isn't well."""
    run = subprocess.run([sys.executable, f"{BENCH}/{name}", "--check", str(runs)], stdin=subprocess.DEVNULL, capture_output=True, text=True)
    return run.stdout + run.stderr if run.returncode else None


def tests():
    """What each test found wrong, if anything, by its name."""
    yield "good_report", "; ".join(problems_of(SCRIPT, GOOD))
    for right, wrong in WRONG:
        yield f"wrong_report: {wrong!r}", wrong_is_found(right, wrong)
    yield "check_report.py --check 100", checks_itself("check_report.py", 100)
    yield "simulate.py --check 60", checks_itself("simulate.py", 60)
