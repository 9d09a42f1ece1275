"""Checks and upgrades of worked scripts."""

from case import Case
from of_labrun.rounds import COMMENTED, TWO_ADD


def in_common(instruments):
    """Two jobs, each with one session that reads the same instruments."""
    reads = "".join(f"i{it} read\n" for it in range(instruments))
    return "lab 1\n" + "".join(f"job {job}\nsession\n{reads}end\n" for job in "ab")


# Jobs with no session, with one, and with two.
THREE_JOBS = """\
lab 2
job a
job b
session patience 5
lamp set 1
lamp read
end
job c
session
pump add 2
end
session
lamp read
pump read
bell read
end
"""

PATIENT = "lab 2\njob a\nsession patience 40\nscale add 1\nend\n"

# What stands in version 2, and scripts of which each is upgraded to it: line ends, comments and empty lines go, a patience stays, and
# upgrading again changes nothing.
UPGRADES = [
    (TWO_ADD.replace("lab 1", "lab 2"), [("version_1", TWO_ADD), ("comments", COMMENTED)]),
    (PATIENT, [("patience", PATIENT.replace(" patience ", "\t\tpatience\t"))]),
]

CASES = [
    Case("28_in_common", "check", in_common(28), "ok jobs 2 instruments 28 edges 1 sessions 2 commands 56\n"),
    Case("29_in_common", "check", in_common(29), err="labrun: line 66: S11 more than 28 instruments in common\n", status=1),
    Case("counts_of_three_jobs", "check", THREE_JOBS, "ok jobs 3 instruments 3 edges 1 sessions 3 commands 6\n"),
]
for text, scripts in UPGRADES:
    for name, script in scripts:
        CASES.append(Case(f"upgrade_of_{name}", "upgrade", script, text))
        CASES.append(Case(f"upgrade_of_{name}_again", "upgrade", text, text))
