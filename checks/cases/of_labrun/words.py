"""Command lines: which words ask for what, and which are refused."""

from case import Case
from of_labrun.rounds import BOTH_ADDED, NO_HEADER, TWO_ADD, WAITING

REFUSED = "labrun: command line refused\n"

COMMANDS = 9997


def alone(version):
    """A job alone, whose one session has so many commands that it retires in turn 10001: one more than a run without words takes."""
    return f"lab {version}\njob a\nsession\n" + "x add 1\n" * COMMANDS + "end\n"


SCRIPT = alone(1)


def after(turns):
    """The report after so many turns, of which the first two are Thirst and Drink, and the last two Quit and Retire."""
    done = min(max(turns - 2, 0), COMMANDS)
    is_over, is_retired = turns >= COMMANDS + 3, turns >= COMMANDS + 4
    entries = "".join(f"a 1 {it}/{COMMANDS} add 1 = {it}\n" for it in range(1, done + 1))
    state, end = ("retired", "finished") if is_retired else ("waiting", "unfinished")
    report = f"lab 1\ninstrument x {done}\n{entries}job a sessions {int(is_over)} of 1 meals 0 {state}\n{end}\n"
    return report, 0 if is_retired else 3


# The same text with steps, which are for a replay alone. Reach and Act are one command.
STEPS = SCRIPT + "steps\nthirst a\ndrink a\nreach a\nact a\n"
NO_STEPS = f"labrun: line {COMMANDS + 5}: S2 unknown word\n"

# What the canonical words of each task give.
CHECK = f"ok jobs 1 instruments 1 edges 0 sessions 1 commands {COMMANDS}\n", 0
UPGRADE = alone(2), 0
REPLAY = after(0)


def rounds(limit):
    return after(limit)


def threads(workers, turns):
    """A report doesn't say how many workers there were: `run_tests` (`runs/words`) does."""
    return after(turns)


# The words behind the program's name, and what they give.
TAKEN = [
    (["replay"], REPLAY),
    (["check"], CHECK),
    (["upgrade"], UPGRADE),
    ([], rounds(10_000)),
    (["--"], rounds(10_000)),
    (["rounds", "0"], rounds(0)),
    (["rounds", "7"], rounds(7)),
    (["rounds", "007"], rounds(7)),
    (["rounds", "1000000000"], rounds(1_000_000_000)),
    (["rounds", "00000000001000000000"], rounds(1_000_000_000)),
    (["threads", "1", "0"], threads(1, 0)),
    (["threads", "32", "1000000000"], threads(32, 1_000_000_000)),
    (["threads", "0000000000000000000032", "010"], threads(32, 10)),
    (["rounds", "+7"], rounds(7)),
    (["rounds", "+007"], rounds(7)),
    (["rounds", "--", "7"], rounds(7)),
    (["rounds", "7", "--"], rounds(7)),
    (["threads", "--", "2", "7"], threads(2, 7)),
    (["threads", "2", "--", "7"], threads(2, 7)),
    (["threads", "2", "7", "--"], threads(2, 7)),
    (["threads", "+2", "7"], threads(2, 7)),
    (["replay", "--"], REPLAY),
    (["check", "--"], CHECK),
]

NOT_TAKEN = [
    ["rounds"],
    ["rounds", ""],
    ["rounds", "++7"],
    ["rounds", "+"],
    ["rounds", "+-7"],
    ["rounds", "-"],
    ["rounds", "--"],
    ["rounds", "--", "--", "7"],
    ["rounds", "--", "-7"],
    ["rounds", "7", "--", "7"],
    ["rounds", "--", "7", "--"],
    ["threads", "2", "--"],
    ["replay", "--", "x"],
    ["replay", "--", "--"],
    ["--", "rounds", "7"],
    ["--", "--"],
    ["rounds", "-x"],
    ["rounds", "--rounds", "7"],
    ["rounds", "-0"],
    ["rounds", "7 "],
    ["rounds", " 7"],
    ["rounds", "1_0"],
    ["rounds", "0x7"],
    ["rounds", "7.0"],
    ["rounds", "seven"],
    ["rounds", "1000000001"],
    ["rounds", "4294967296"],
    ["rounds", "18446744073709551616"],
    ["rounds", "99999999999999999999999999"],
    ["Rounds", "7"],
    ["round", "7"],
    ["rounds", "7", "7"],
    ["rounds=7"],
    ["7"],
    ["threads"],
    ["threads", "2"],
    ["threads", "0", "7"],
    ["threads", "33", "7"],
    ["threads", "2", "1000000001"],
    ["threads", "2", "-7"],
    ["threads", "2", "7", "7"],
    ["thread", "2", "7"],
    [""],
    ["repla"],
    ["Replay"],
    ["replay", "x"],
    ["--", "replay"],
    ["check", "upgrade"],
    ["--hel"],
    ["--help=x"],
    ["rounds", "x", "--help"],
    ["rounds", "--", "--help"],
    ["x", "--help"],
    ["replay", "--version"],
    ["-V"],
    ["--version"],
    ["help"],
]


def spelled(words):
    """The words as a part of a name, each in brackets."""
    return "".join(f"<{it}>" for it in words)


CASES = []
for words, (out, status) in TAKEN:
    CASES.append(Case(f"taken{spelled(words)}", words, SCRIPT, out, status=status))
    steps = dict(zip(("out", "status"), after(3))) if words[:1] == ["replay"] else {"err": NO_STEPS, "status": 1}
    CASES.append(Case(f"taken{spelled(words)}_with_steps", words, STEPS, **steps))
CASES += [Case(f"refused{spelled(it)}", it, TWO_ADD, err=REFUSED, status=2) for it in NOT_TAKEN]

# Whole command lines over the script of two jobs.
CASES += [
    Case("no_words", "", TWO_ADD, BOTH_ADDED),
    Case("rounds_9", "rounds 9", TWO_ADD, BOTH_ADDED),
    Case("threads_2_0", "threads 2 0", TWO_ADD, WAITING, status=3),
    Case("check", "check", TWO_ADD, "ok jobs 2 instruments 1 edges 1 sessions 2 commands 2\n"),
    Case("upgrade_of_nothing", "upgrade", "", err=NO_HEADER, status=1),
    Case("walk", "walk", TWO_ADD, err=REFUSED, status=2),
    # (a byte that is no text)
    Case("no_text", ["rounds", "\udcff"], TWO_ADD, err=REFUSED, status=2),
]
