"""Where steps are legal, also where no law of runs would tell: each row was worked out by hand. The step is taken there, and it is asked
whether it is among those that `explain` names there."""

from case import Case
from explained import first_line, legal_now
from stale_mark import (
    A_ACTS,
    A_DRINKS,
    A_HUNGERS,
    A_LEAVES,
    A_LOOKS,
    A_LOOKS_IN_ITS_MEAL,
    A_QUITS,
    A_REACHES,
    A_SITS,
    A_THIRSTS,
    B_HUNGERS,
    IMPATIENT,
    OPENING,
    STEPS,
    TWICE,
    TWO,
    text_of,
)

# Of the stale mark: how many of the steps are done, a step, and whether it is legal then.
OF_SESSIONS = [
    # no second thirst in a session, nor before the meal ends
    (A_THIRSTS, "thirst a", False),
    (A_QUITS, "thirst a", False),
    (A_LEAVES, "thirst a", True),
    # hunger only of a thinking, thirsty job
    (OPENING, "hunger a", False),
    (A_HUNGERS, "hunger a", False),
    (A_SITS, "hunger a", False),
    # a job drinks once in a session, and not before it holds the bottle
    (A_DRINKS, "drink a", False),
    (B_HUNGERS, "drink b", False),
    # only a drinking job with a command left reaches, and with none left it quits
    (A_DRINKS, "reach a", True),
    (A_ACTS, "reach a", False),
    (A_DRINKS, "quit a", False),
    (A_ACTS, "quit a", True),
]

OF_MEALS = [
    # a meal only of a hungry job, and not without a mark
    (A_LEAVES, "sit a", False),
    (B_HUNGERS, "sit b", False),
    # no end of a meal while the job is thirsty, or without marks
    (A_SITS, "leave a", False),
    (A_DRINKS, "leave a", False),
    (A_LOOKS_IN_ITS_MEAL, "leave a", True),
    (A_LOOKS, "leave a", False),
    # no fork is given during a meal, none is asked for by a job that has it
    (A_LOOKS_IN_ITS_MEAL, "givefork a b", False),
    (A_LEAVES, "givefork a b", True),
    (A_LOOKS, "askfork a b", False),
    # a fork that is dirty isn't soiled
    (A_DRINKS, "soil a b", False),
    # no bottle is asked for by a job that has it, or that isn't thirsty
    (A_LOOKS, "askbottles a b scale", False),
    (A_HUNGERS, "askbottles b a scale", False),
]

# An entry is made where the job reaches, and nowhere else; b never reaches in these steps.
OF_ACTS = [
    *((place, "act a", place == A_REACHES) for place in range(17)),
    *((place, "act b", False) for place in range(17)),
]

# The bottle is asked for, and then its job drinks and quits.
ASKED_FOR = ["thirst a", "thirst b", "askbottles b a scale", "look a b", "drink a", "reach a", "act a", "quit a"]

# None is given without its token, by a thirsty job with the fork, or by a job that drinks.
OF_BOTTLES = [
    (2, "givebottles a b scale", False),
    (3, "givebottles a b scale", False),
    (5, "givebottles a b scale", False),
    (8, "givebottles a b scale", True),
]

# The job drinks before its meal, and gives its fork; it keeps the bottle.
WITHOUT_FORK = [
    "thirst a",
    "thirst b",
    "look a b",
    "drink a",
    "hunger b",
    "askfork b a",
    "givefork a b",
    "askbottles b a scale",
]
KEEPS = [(8, "givebottles a b scale", False)]

ONE_SESSION = ["thirst a", "look a b", "drink a", "reach a", "act a", "quit a"]

# After none, the first, and all of these steps.
OF_THE_LAST = [
    (0, "retire a", False),
    (1, "retire a", False),
    (6, "thirst a", False),
    (6, "retire a", True),
]

# Job b, whose session has a patience, gets its bottle and drinks.
PATIENT = ["thirst b", "askbottles b a scale", "givebottles a b scale", "look b a", "drink b", "thirst a"]

# A session is given up while the job is thirsty in it, and only if it has a patience.
OF_PATIENCE = [
    (0, "withdraw b", False),
    (1, "withdraw b", True),
    (4, "withdraw b", True),
    (5, "withdraw b", False),
    (6, "withdraw a", False),
]

# A script, steps that are taken of it, and rows.
TABLES = {
    "sessions": (TWICE, STEPS, OF_SESSIONS),
    "meals": (TWICE, STEPS, OF_MEALS),
    "acts": (TWICE, STEPS, OF_ACTS),
    "bottles": (TWO, ASKED_FOR, OF_BOTTLES),
    "keeps": (TWO, WITHOUT_FORK, KEEPS),
    "last": (TWO, ONE_SESSION, OF_THE_LAST),
    "patience": (IMPATIENT, PATIENT, OF_PATIENCE),
}

# What the phase of a job allows by itself, of these acts.
ACTS = ("thirst", "hunger", "leave", "reach", "quit", "retire", "withdraw")

# A script, the steps that are taken of it, and what the phase of the job allows then.
PHASES = [
    (TWICE, STEPS[:OPENING], "a", ["thirst"]),
    (TWICE, STEPS[:A_THIRSTS], "a", ["hunger"]),
    (TWICE, STEPS[:A_SITS], "a", []),
    (TWICE, STEPS[:A_DRINKS], "a", ["leave", "reach"]),
    (TWICE, STEPS[:A_REACHES], "a", ["leave"]),
    (TWICE, STEPS[:A_ACTS], "a", ["leave", "quit"]),
    (TWICE, STEPS[:A_QUITS], "a", ["leave"]),
    (TWICE, STEPS[:A_LEAVES], "a", ["thirst"]),
    (TWO, ONE_SESSION, "a", ["retire"]),
    # b thirsts in a session with the patience 0
    (IMPATIENT, PATIENT[:1], "b", ["hunger", "withdraw"]),
]


def names(step, legal):
    """Whether the step is named as legal, or isn't."""
    return lambda out: None if (step in legal_now(out)) == legal else f"it should {'' if legal else 'not '}name `{step}` as legal"


def takes(count, line, step, legal):
    """Whether the step, the last of so many, is taken, or refused by its line and not named as legal."""

    def judge(out):
        if legal:
            return None if first_line(out) == f"legal steps: {count}, all" else "all should be legal"
        refused = first_line(out).startswith(f"line {line}: `{step}` is not legal: ")
        return names(step, False)(out) if refused else f"it should refuse `{step}` in line {line}"

    return judge


def rows():
    """For each row the list of what is legal, and the step itself."""
    for table, (script, steps, cases) in TABLES.items():
        for place, step, legal in cases:
            name = f"{table}_{place}_{step.replace(' ', '_')}"
            before, text = text_of(script, steps[:place]), text_of(script, [*steps[:place], step])
            yield Case(f"{name}_in_list", "explain", before, names(step, legal))
            yield Case(name, "explain", text, takes(place + 1, text.count("\n"), step, legal))


def allows(job, act, allowed):
    """Whether the act is legal, or not. To leave, a job needs marks too: if it lacks these alone, its phase allows it."""

    def judge(out):
        first = first_line(out)
        lacks_marks = act == "leave" and "` is not legal: no mark for the fork with " in first
        came = first.endswith(", all") or lacks_marks
        return None if came == allowed else f"the phase of {job} should {'' if allowed else 'not '}allow to {act}"

    return judge


def lists(job, wanted):
    """Whether just these acts of the job are named as legal; not asked of `leave`."""

    def judge(out):
        came = [act for act in ACTS if f"{act} {job}" in legal_now(out) and act != "leave"]
        return None if came == [it for it in wanted if it != "leave"] else f"just these acts of {job} should be legal: {wanted}"

    return judge


def phases():
    """For each phase the list of what is legal, and each act."""
    for number, (script, steps, job, wanted) in enumerate(PHASES):
        yield Case(f"phase_{number}", "explain", text_of(script, steps), lists(job, wanted))
        for act in ACTS:
            text = text_of(script, [*steps, f"{act} {job}"])
            yield Case(f"phase_{number}_{act}", "explain", text, allows(job, act, act in wanted))


CASES = [*rows(), *phases()]
