"""What `labview gantt` draws, worked out by hand, and who is said there to have kept a session waiting."""

import pathlib

from case import Case
from of_labview.waits import IMPATIENT, SHARED

# The head of a picture of two jobs and few rounds.
HEAD = """\
<?xml version="1.0" encoding="UTF-8"?>
<svg xmlns="http://www.w3.org/2000/svg" version="1.1" width="720" height="180" viewBox="0 0 720 180" font-family="monospace" font-size="10">
<title>A run by rounds</title>
<rect width="100%" height="100%" fill="#fff"/>
<g transform="translate(10 10)"><rect width="30" height="16" fill="#fff4d9" stroke="#c77f00" stroke-dasharray="3 2"/><text x="36" y="12">thirsty</text><rect x="100" width="30" height="16" fill="#56b4e9" stroke="#222"/><text x="136" y="12">session S holds its instruments</text><text x="103" y="12">S</text><path d="M350 8m-5-5l10 10m0-10l-10 10" fill="none" stroke="#d00000" stroke-width="2"/><text x="362" y="12">given up</text><path d="M440 8h30" stroke="#777" stroke-width="2" stroke-dasharray="2 3"/><text x="476" y="12">hungry</text><path d="M540 8h30" stroke="#222" stroke-width="5"/><text x="576" y="12">eats</text></g>
<text x="10" y="36" fill="#555">thirsty: waits for its instruments; hungry: waits for its forks, which settle who gives way; eats: has all of them</text>
<text x="10" y="84" fill="#555">round</text>
"""

# 24 units a round: a is thirsty in round 1, drinks in 2 and is done in 4; b is thirsty in 1, drinks in 5 and is done in 7; it is hungry from
# 2, sits in 4 and leaves in 8. In rounds 1 to 4 it knows the scale's bottle to be at a, which drinks in 2 and 3 when b's turn is over.
ALL_ROUNDS = """\
<text x="10" y="50" font-size="13">rounds 9 finished
</text>
<g transform="translate(150 90)">
<path d="M0 0V80" stroke="#ddd"/><text x="0" y="-6" text-anchor="middle" fill="#555">0</text>
<path d="M24 0V80" stroke="#ddd"/><text x="24" y="-6" text-anchor="middle" fill="#555">1</text>
<path d="M48 0V80" stroke="#ddd"/><text x="48" y="-6" text-anchor="middle" fill="#555">2</text>
<path d="M72 0V80" stroke="#ddd"/><text x="72" y="-6" text-anchor="middle" fill="#555">3</text>
<path d="M96 0V80" stroke="#ddd"/><text x="96" y="-6" text-anchor="middle" fill="#555">4</text>
<path d="M120 0V80" stroke="#ddd"/><text x="120" y="-6" text-anchor="middle" fill="#555">5</text>
<path d="M144 0V80" stroke="#ddd"/><text x="144" y="-6" text-anchor="middle" fill="#555">6</text>
<path d="M168 0V80" stroke="#ddd"/><text x="168" y="-6" text-anchor="middle" fill="#555">7</text>
<path d="M192 0V80" stroke="#ddd"/><text x="192" y="-6" text-anchor="middle" fill="#555">8</text>
<path d="M216 0V80" stroke="#ddd"/><text x="216" y="-6" text-anchor="middle" fill="#555">9</text>
<g transform="translate(0 0)"><path d="M-140 38H216" stroke="#bbb"/><text x="-140" y="18" font-size="12">a</text>
<g><title>a session 1: scale; thirsty 1 drinks 2 done 4 waited 1</title><rect x="24" y="4" width="24" height="16" fill="#fff4d9" stroke="#c77f00" stroke-dasharray="3 2"/><rect x="48" y="4" width="48" height="16" fill="#56b4e9" stroke="#222"/><text x="51" y="16">1</text></g>
</g>
<g transform="translate(0 40)"><path d="M-140 38H216" stroke="#bbb"/><text x="-140" y="18" font-size="12">b</text>
<g><title>b session 1: scale; thirsty 1 drinks 5 done 7 waited 4; kept waiting by a (scale) 4 rounds, used 2</title><rect x="24" y="4" width="96" height="16" fill="#fff4d9" stroke="#c77f00" stroke-dasharray="3 2"/><rect x="120" y="4" width="48" height="16" fill="#56b4e9" stroke="#222"/><text x="123" y="16">1</text></g>
<path d="M48 28h48" stroke="#777" stroke-width="2" stroke-dasharray="2 3"/><path d="M96 28h96" stroke="#222" stroke-width="5"/>
</g>
</g>
</svg>
"""

# After three rounds a has the scale still, and b is thirsty and hungry.
THREE_ROUNDS = """\
<text x="10" y="50" font-size="13">rounds 3 unfinished
</text>
<g transform="translate(150 90)">
<path d="M0 0V80" stroke="#ddd"/><text x="0" y="-6" text-anchor="middle" fill="#555">0</text>
<path d="M24 0V80" stroke="#ddd"/><text x="24" y="-6" text-anchor="middle" fill="#555">1</text>
<path d="M48 0V80" stroke="#ddd"/><text x="48" y="-6" text-anchor="middle" fill="#555">2</text>
<path d="M72 0V80" stroke="#ddd"/><text x="72" y="-6" text-anchor="middle" fill="#555">3</text>
<g transform="translate(0 0)"><path d="M-140 38H72" stroke="#bbb"/><text x="-140" y="18" font-size="12">a</text>
<g><title>a session 1: scale; thirsty 1 drinks 2 waited 1</title><rect x="24" y="4" width="24" height="16" fill="#fff4d9" stroke="#c77f00" stroke-dasharray="3 2"/><rect x="48" y="4" width="24" height="16" fill="#56b4e9" stroke="#222"/><text x="51" y="16">1</text></g>
</g>
<g transform="translate(0 40)"><path d="M-140 38H72" stroke="#bbb"/><text x="-140" y="18" font-size="12">b</text>
<g><title>b session 1: scale; thirsty 1 waits; kept waiting by a (scale) 3 rounds, used 2</title><rect x="24" y="4" width="48" height="16" fill="#fff4d9" stroke="#c77f00" stroke-dasharray="3 2"/><text x="27" y="16">1</text></g>
<path d="M48 28h24" stroke="#777" stroke-width="2" stroke-dasharray="2 3"/>
</g>
</g>
</svg>
"""

# Before the first round there is nothing but the scale's 0.
NO_ROUNDS = """\
<text x="10" y="50" font-size="13">rounds 0 unfinished
</text>
<g transform="translate(150 90)">
<path d="M0 0V80" stroke="#ddd"/><text x="0" y="-6" text-anchor="middle" fill="#555">0</text>
<g transform="translate(0 0)"><path d="M-140 38H0" stroke="#bbb"/><text x="-140" y="18" font-size="12">a</text>
</g>
<g transform="translate(0 40)"><path d="M-140 38H0" stroke="#bbb"/><text x="-140" y="18" font-size="12">b</text>
</g>
</g>
</svg>
"""

# b gives up in its first turn in which it is thirsty at the start.
GIVEN_UP = """\
<text x="10" y="50" font-size="13">rounds 5 finished
</text>
<g transform="translate(150 90)">
<path d="M0 0V80" stroke="#ddd"/><text x="0" y="-6" text-anchor="middle" fill="#555">0</text>
<path d="M24 0V80" stroke="#ddd"/><text x="24" y="-6" text-anchor="middle" fill="#555">1</text>
<path d="M48 0V80" stroke="#ddd"/><text x="48" y="-6" text-anchor="middle" fill="#555">2</text>
<path d="M72 0V80" stroke="#ddd"/><text x="72" y="-6" text-anchor="middle" fill="#555">3</text>
<path d="M96 0V80" stroke="#ddd"/><text x="96" y="-6" text-anchor="middle" fill="#555">4</text>
<path d="M120 0V80" stroke="#ddd"/><text x="120" y="-6" text-anchor="middle" fill="#555">5</text>
<g transform="translate(0 0)"><path d="M-140 38H120" stroke="#bbb"/><text x="-140" y="18" font-size="12">a</text>
<g><title>a session 1: scale; thirsty 1 drinks 2 done 4 waited 1</title><rect x="24" y="4" width="24" height="16" fill="#fff4d9" stroke="#c77f00" stroke-dasharray="3 2"/><rect x="48" y="4" width="48" height="16" fill="#56b4e9" stroke="#222"/><text x="51" y="16">1</text></g>
</g>
<g transform="translate(0 40)"><path d="M-140 38H120" stroke="#bbb"/><text x="-140" y="18" font-size="12">b</text>
<g><title>b session 1: scale; thirsty 1 given up 2; kept waiting by a (scale) 1 round, used 0</title><rect x="24" y="4" width="24" height="16" fill="#fff4d9" stroke="#c77f00" stroke-dasharray="3 2"/><text x="27" y="16">1</text><path d="M48 12m-5-5l10 10m0-10l-10 10" fill="none" stroke="#d00000" stroke-width="2"/></g>
</g>
</g>
</svg>
"""

# Five jobs that share a scale: each of b to e waits for all that have it before, and e for four.
FIVE = "lab 1\n" + "".join(f"job {name}\nsession\nscale add 1\nend\n" for name in "abcde")

# a drinks in rounds 2 and 3, and then nobody until e does in 5. In round 4 e gets the bottles of b, c and d, which are thirsty.
FOUR_KEEP_E = """\
<title>e session 1: scale; thirsty 1 drinks 5 done 7 waited 4; kept waiting by a (scale) 4 rounds, used 2; by b (scale) 3 rounds, used 0; by c (scale) 3 rounds, used 0</title>
"""

# The longest first: c, which has the scale last of all before b.
C_KEEPS_B = """\
<title>b session 1: scale; thirsty 1 drinks 17 done 19 waited 16; kept waiting by c (scale) 13 rounds, used 2; by d (scale) 9 rounds, used 2; by e (scale) 5 rounds, used 2</title>
"""

# Eight benches in a ring, each with a supply and a scope that it shares with a neighbour.
RING = pathlib.Path(__file__).parents[3].joinpath("examples/ring_of_benches.lab").read_text()

# By a reckoning of its own: the two sessions in which bench-2 waits for bench-3 have together what `blocks` tells, 41 and 5.
FIRST_OF_RING = """\
<title>bench-2 session 1: scope-1 supply-2; thirsty 1 drinks 43 done 47 waited 42; kept waiting by bench-3 (supply-2) 39 rounds, used 4; by bench-1 (scope-1) 6 rounds, used 4</title>
"""

SECOND_OF_RING = """\
<title>bench-2 session 2: supply-2; thirsty 50 drinks 52 done 54 waited 2; kept waiting by bench-3 (supply-2) 2 rounds, used 1</title>
"""


def has_title(title):
    """Whether a picture has this title of a session."""
    title = title.strip().encode()
    return lambda out: None if title in out else f"no session has the title {title.decode()}"


CASES = [
    Case("all_rounds", "gantt 1000000000", SHARED, HEAD + ALL_ROUNDS),
    Case("three_rounds", "gantt 3", SHARED, HEAD + THREE_ROUNDS),
    Case("no_rounds", "gantt 0", SHARED, HEAD + NO_ROUNDS),
    Case("given_up", "gantt 20", IMPATIENT, HEAD + GIVEN_UP),
    Case("four_keep_e", "gantt 10000", FIVE, has_title(FOUR_KEEP_E)),
    Case("c_keeps_b", "gantt 10000", FIVE, has_title(C_KEEPS_B)),
    Case("first_of_ring", "gantt 10000", RING, has_title(FIRST_OF_RING)),
    Case("second_of_ring", "gantt 10000", RING, has_title(SECOND_OF_RING)),
    Case("no_script", "gantt 7", "lab 1\nsession\n", err="labview: line 2: S7 not in a job\n", status=1),
]
