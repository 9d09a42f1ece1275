"""What `labview picture` draws: one picture by its bytes, the columns of sessions by hand, and what it shows of jobs."""

import re

from case import Case

REPORT = """\
lab 1
instrument scale 2
a 1 1/1 add 1 = 1
b 1 1/2 read = 1
instrument lamp 0
job a sessions 1 of 1 meals 1 retired
job b sessions 0 of 1 meals 2 waiting
unfinished
"""

# The session of b is open at its right.
PICTURE = """\
<?xml version="1.0" encoding="UTF-8"?>
<svg xmlns="http://www.w3.org/2000/svg" version="1.1" width="700" height="310" viewBox="0 0 700 310" font-family="monospace" font-size="10">
<title>Timeline of a laboratory run</title>
<desc>Instruments, a row each: 2. Jobs, a line each in the table below: 2. Columns: 3. A box is a session on an instrument, and a tick is a command; a session has the same columns on each of its instruments.</desc>
<rect width="100%" height="100%" fill="#fff"/>
<g transform="translate(160 30)"><path d="M-150 66H300" stroke="#ccc"/><text x="-150" y="38" font-size="13">scale</text>
<path d="M100 4H0v58H100z" fill="#e69f00" fill-opacity="0.5" stroke="#222"/><text x="4" y="17" font-weight="bold">a</text><text x="4" y="29">session 1</text>
<path d="M0 35v27" stroke="#222"/><text x="4" y="44">add 1</text><text x="4" y="56">= 1</text>
<path d="M300 4H100v58H300" fill="#56b4e9" fill-opacity="0.5" stroke="#222"/><text x="104" y="17" font-weight="bold">b</text><text x="104" y="29">session 1</text>
<path d="M100 35v27" stroke="#222"/><text x="104" y="44">read</text><text x="104" y="56">= 1</text>
</g>
<g transform="translate(160 100)"><path d="M-150 66H300" stroke="#ccc"/><text x="-150" y="38" font-size="13">lamp</text>
</g>
<g transform="translate(10 190)"><path d="M0 0h24v12H0z" fill="#e69f00" fill-opacity="0.5" stroke="#222"/><text x="34" y="10">a</text><text x="150" y="10">sessions 1 of 1</text><text x="460" y="10">meals 1</text><text x="590" y="10">retired</text></g>
<g transform="translate(10 210)"><path d="M0 0h24v12H0z" fill="#56b4e9" fill-opacity="0.5" stroke="#222"/><text x="34" y="10">b</text><text x="150" y="10">sessions 0 of 1</text><text x="460" y="10">meals 2</text><text x="590" y="10">waiting</text></g>
<text x="10" y="260" font-size="13">unfinished</text>
<text x="10" y="280" fill="#555">box: a session holds the instrument; tick: a command; withdrawn: it waited and gave up; meals: it had right of way</text>
</svg>
"""

# b stands right of a by the scale, and c right of b by the lamp; b has three columns by the lamp. The second session of a stands right of its
# first, which has two columns, though no log has both.
THREE = """\
lab 1
instrument scale 3
a 1 1/2 add 1 = 1
a 1 2/2 read = 1
b 1 1/1 read = 1
instrument lamp 4
b 1 1/3 set 1 = 1
b 1 2/3 set 2 = 2
b 1 3/3 set 3 = 3
c 1 1/1 read = 3
instrument oven 2
d 1 1/1 read = 0
a 2 1/1 read = 0
job a sessions 2 of 2 meals 1 retired
job b sessions 1 of 1 meals 1 retired
job c sessions 1 of 1 meals 1 retired
job d sessions 1 of 1 meals 1 retired
finished
"""

# Of each session on an instrument where its columns start, and how many they are.
COLUMNS = {"scale": [(0, 2), (2, 3)], "lamp": [(2, 3), (5, 1)], "oven": [(0, 1), (2, 1)]}

# What can stand in reports of both versions.
ONE = """\
lab 1
instrument scale 2
a 1 1/1 add 1 = 1
b-2 1 1/2 set 999999 = 999999
instrument lamp 0
instrument instrument 1
a 1 1/1 read = 0
job a sessions 1 of 1 meals 0 retired
job b-2 sessions 0 of 1 meals 4294967295 waiting
unfinished
"""

TWO = """\
lab 2
instrument scale 1
a 1 1/1 add 1 = 1
job a sessions 1 of 1 withdrawn 0 meals 0 retired
job b sessions 0 of 1 withdrawn 1 meals 0 retired
finished
"""

JOBS_OF_ONE = [("a", "sessions 1 of 1", "meals 0", "retired"), ("b-2", "sessions 0 of 1", "meals 4294967295", "waiting")]

JOBS_OF_TWO = [("a", "sessions 1 of 1", "withdrawn 0", "meals 0", "retired"), ("b", "sessions 0 of 1", "withdrawn 1", "meals 0", "retired")]


def has_columns(out):
    """Whether the picture has these sessions in these columns, 100 units each, and 6 in all."""
    found = {}
    for row in out.decode().split('<g transform="translate(160 ')[1:]:
        boxes = [tuple(map(int, it)) for it in re.findall(r'<path d="M(\d+) 4H(\d+)v58H(\d+)z"', row)]
        if any(right != again for right, _, again in boxes):
            return "a box isn't closed"
        found[re.search('font-size="13">([^<]*)<', row)[1]] = [(left // 100, (right - left) // 100) for right, left, _ in boxes]
    return None if found == COLUMNS and b" Columns: 6. " in out else f"it has {found}, in place of {COLUMNS}"


def has_jobs(jobs, end):
    """Whether the picture has these jobs in the table below, and this end."""

    def judge(out):
        rows = re.findall(r'(?m)^<g transform="translate\(10 .*</g>$', out.decode())
        found = [tuple(re.findall(">([^<>]+)</text>", row)) for row in rows]
        told = f' font-size="13">{end}</text>\n'.encode()
        return None if found == jobs and told in out else f"it has {found}, in place of {jobs}, or isn't {end}"

    return judge


CASES = [
    Case("by_its_bytes", "picture", REPORT, PICTURE),
    Case("columns", "picture", THREE, has_columns),
    Case("jobs_of_version_one", "picture", ONE, has_jobs(JOBS_OF_ONE, "unfinished")),
    Case("jobs_of_version_two", "picture", TWO, has_jobs(JOBS_OF_TWO, "finished")),
]
