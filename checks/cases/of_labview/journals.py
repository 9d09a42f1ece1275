"""What `labview script` and `labview steps` write of journals, worked out by hand."""

from case import Case

# A session came to a, which holds its first one. (The sums are those that `sha256sum` gives of the lines between.)
JOURNAL = """\
lab 2
job a
session
scale add 1
end
steps
#steps
thirst a
drink a
#sum 1dc86b828c53d354
# a asks for one more
#steps
#more a
#+session patience 3
#+scale read
#+end
#sum a824865b1d7c061a
"""

# The same, behind a step that lost its line end.
CUT = f"{JOURNAL}#steps\nreach"

SCRIPT = """\
lab 2
job a
session
scale add 1
end
session patience 3
scale read
end
"""

STEPS = f"{SCRIPT}steps\nthirst a\ndrink a\n"

# A journal, one that was cut, a script without steps, and one of version 1; the script of each, and its steps.
WRITTEN = {
    "journal": (JOURNAL, SCRIPT, STEPS),
    "cut": (CUT, SCRIPT, STEPS),
    "no_steps": ("lab 2\n", "lab 2\n", "lab 2\nsteps\n"),
    "version_one": ("lab 1\njob a\nsteps\nretire a\n", "lab 2\njob a\n", "lab 2\njob a\nsteps\nretire a\n"),
}

# What is no script with steps, a wrong sum, a session of no job and one that its job can't take.
FAULTS = {
    "no_script": ("lab 1\njob\n", "line 2: S2 unknown word"),
    "no_step": ("lab 1\njob a\nsteps\nsit b\n", "line 4: S13 bad step"),
    "wrong_sum": ("lab 1\njob a\nsteps\n#steps\nretire a\n#sum 0000000000000000\n", "line 6: S13 bad step"),
    "no_job": ("lab 1\njob a\nsteps\n#more b\n#+session\n#+scale read\n#+end\n", "line 4: S7 not in a job"),
    "not_its_own": ("lab 1\njob a\nsteps\n#more a\n#+session\n#+scale read\n#+end\n", "line 4: S14 not an instrument of the job"),
}

TWICE = "lab 1\njob a\nsteps\nretire a\nretire a\n"

CASES = [
    *(Case(f"script_of_{name}", "script", journal, script) for name, (journal, script, _) in WRITTEN.items()),
    *(Case(f"steps_of_{name}", "steps", journal, steps) for name, (journal, _, steps) in WRITTEN.items()),
    *(Case(name, "script", journal, err=f"labview: {fault}\n", status=1) for name, (journal, fault) in FAULTS.items()),
    Case("not_legal", "steps", TWICE, err="labview: line 5: step is not legal\n", status=1),
]
