"""The words of labview: what each asks for, and which are refused."""

from case import Case
from of_labview.explanations import NO_JOB
from of_labview.journals import JOURNAL, SCRIPT, STEPS
from of_labview.measured import GIVES_UP, PATIENT
from of_labview.pictures import PICTURE, REPORT
from of_labview.tables import HEAD
from of_labview.waits import SHARED

NO_LOGS = "lab 1\nfinished\n"

# One job, which does a command in each round from its third on, and ends in its 84th.
ALONE = "lab 1\njob a\nsession\n" + "s read\n" * 80 + "end\n"


def traced(rounds):
    return f"{ALONE}steps\nthirst a\ndrink a\n" + "reach a\nact a\n" * (rounds - 2)


def waited(rounds):
    return f"rounds {rounds} unfinished\nsession a 1 thirsty 1 drinks 2 waited 1\njob a waited 1 longest 1\nlongest wait 1 a 1\nchain 1 a\n"


def draws(rounds):
    """Whether this many rounds of it are drawn."""
    told = f">rounds {rounds} unfinished\n".encode()
    return lambda out: None if out.startswith(b"<?xml ") and told in out else f"{rounds} rounds should be drawn"


# Words, an input for them, and what they ask for.
TAKEN = [
    ("explain", "lab 1\n", NO_JOB),
    ("explain --", "lab 1\n", NO_JOB),
    ("picture", REPORT, PICTURE),
    ("table", NO_LOGS, HEAD),
    ("trace 007", ALONE, traced(7)),
    ("trace +7", ALONE, traced(7)),
    ("gantt -- 7", ALONE, draws(7)),
    ("gantt 74", ALONE, draws(74)),
    ("blocks 7 --", ALONE, "rounds 7 unfinished\n"),
    ("blocks 74", ALONE, "rounds 74 unfinished\n"),
    ("waits 74", ALONE, waited(74)),
    ("arrange", PATIENT, PATIENT),
    ("script", JOURNAL, SCRIPT),
    ("steps --", JOURNAL, STEPS),
]

MISSING = "a word is missing"

NO_NUMBER = "the following required arguments were not provided: <N>"


def unknown(word):
    return f"unrecognized subcommand '{word}'"


def unexpected(word):
    return f"unexpected argument '{word}' found"


# Words, and why they are refused, as `clap` says it.
REFUSED = [
    ([], MISSING),
    ([""], unknown("")),
    (["Explain"], unknown("Explain")),
    (["explai"], unknown("explai")),
    (["explain", "explain"], unexpected("explain")),
    (["explain", "--version"], unexpected("--version")),
    (["explain", "7"], unexpected("7")),
    (["--hel"], unexpected("--hel")),
    (["--"], MISSING),
    (["--", "explain"], unexpected("explain")),
    (["explain", "--", "--"], unexpected("--")),
    (["help"], unknown("help")),
    (["replay"], unknown("replay")),
    (["picture", "1"], unexpected("1")),
    (["table", "1"], unexpected("1")),
    (["steps", "9"], unexpected("9")),
    (["script", "steps"], unexpected("steps")),
    (["trace"], NO_NUMBER),
    (["waits"], NO_NUMBER),
    (["blocks"], NO_NUMBER),
    (["gantt"], NO_NUMBER),
    (["wait", "9"], unknown("wait")),
    (["wait", "74"], unknown("wait")),
    (["waits", "-7"], unexpected("-7")),
    (["waits", "7", "7"], unexpected("7")),
    # (a byte that is no text)
    (["waits", "\udcff"], "a word isn't text"),
    (["trace", "1000000001"], "invalid value '1000000001' for '<N>': 1000000001 is not in 0..=1000000000"),
]

CASES = [
    *(Case(words, words, given, out) for words, given, out in TAKEN),
    # (after seven rounds the one as it came isn't finished)
    Case("arrange 7", "arrange 7", PATIENT, GIVES_UP, "labview: rounds 7 unfinished, now 5; waited 5, now 2\n"),
    *(
        Case(f"refused: {words}", words, SHARED, err=f"labview: command line refused: {why}; see labview --help\n", status=2)
        for words, why in REFUSED
    ),
]
