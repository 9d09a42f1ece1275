"""Inputs that are refused: the fault in one line, and the status. Those of runs that can't be had so, as of a read that fails, are tested
in `run_tests` (`runs/faults`)."""

from case import Case

# A script of five lines, and `steps`.
STEPS = """\
lab 1
job a
session
scale add 1
end
steps
"""

MOST_BYTES = 16_777_216
HEADER = "lab 1\n"

CASES = [
    Case("script", "rounds 9", "job a\n", err="labrun: line 1: S1 no lab header\n", status=1),
    Case("bad_step", "replay", STEPS + "thirst a\ndrink a\nsit\n", err="labrun: line 9: S13 bad step\n", status=1),
    Case("step", "replay", STEPS + "thirst a\nact a\n", err="labrun: line 8: step is not legal\n", status=1),
    Case("too_long", "rounds 9", "#" * (MOST_BYTES + 1), err=f"labrun: input longer than {MOST_BYTES} bytes\n", status=4),
    Case("as_long_as_may_be", "check", HEADER + "#" * (MOST_BYTES - len(HEADER)), "ok jobs 0 instruments 0 edges 0 sessions 0 commands 0\n"),
]
