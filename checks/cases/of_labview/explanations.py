"""What `labview explain` tells: whole explanations, and of a step that isn't legal the cause, at each of eight stages of one run. All was
reckoned by hand from the table of guards. (Causes that no step of a text has: `crates/run_tests/src/views/stages.rt`.)"""

from case import Case

# Job a needs the scale first and then the lamp, b both at once: 14 lines.
TOOLS = """\
lab 2
job a
session
scale add 1
end
session
lamp add 1
end
job b
session patience 5
scale add 1
lamp add 1
end
steps
"""

# The steps from each stage to the next.
STEPS = [
    # b asks a for the scale's bottle and for the fork
    "thirst a\nhunger a\nthirst b\nhunger b\naskbottles b a scale\naskfork b a\n",
    # a gives the fork, and drinks
    "givefork a b\nlook a b\ndrink a\n",
    # b eats, and a has done its command
    "look b a\nsit b\nreach a\nact a\n",
    # b has both bottles and drinks
    "quit a\ngivebottles a b scale\naskbottles b a lamp\ngivebottles a b lamp\nlook b a\ndrink b\n",
    "soil b a\n",
    # b has ended its session, and then its meal
    "reach b\nact b\nreach b\nact b\nquit b\n",
    "leave b\n",
]

# All that is legal at four of the stages, besides looks and glances.
LEGAL = {
    0: ["thirst a", "thirst b"],
    1: ["givefork a b", "withdraw b", "askbottles b a lamp"],
    3: ["quit a", "askfork a b", "withdraw b", "soil b a", "askbottles b a lamp"],
    4: ["thirst a", "askfork a b", "reach b", "soil b a"],
}

# At each stage steps that aren't legal there, and why.
REFUSED = [
    {
        "sit a": "the job is not hungry",
        "leave a": "the job does not eat",
        "hunger a": "the job is not thirsty",
        "drink b": "the job is not thirsty",
        "withdraw b": "the job is not thirsty",
        "reach a": "the job does not drink, or has reached already",
        "quit b": "the job does not drink, or has reached already",
        "act a": "the job has not reached",
        "retire a": "the job has a session left",
        "askfork b a": "the job is not hungry",
        "soil a b": "the job does not eat",
        "askbottles a b scale": "the job is not thirsty",
        "givefork a b": "the job does not have the fork's request token",
        "givefork b a": "the job does not have the fork",
        "givebottles b a scale": "the bottle of scale: it is not here",
        "givebottles a b lamp": "the bottle of lamp: its request token is not here",
    },
    {
        "thirst a": "the job is in a session, or retired",
        "hunger a": "the job is hungry or eats",
        "retire a": "the job is hungry or eats",
        "sit a": "no mark for the fork with b: the fork is here but dirty, and its token is here too; look again after the other has had it",
        "sit b": "no mark for the fork with a: the fork is not here; ask for it, and look once it was given",
        "drink a": "no mark for the bottle of scale with b: it is here; look",
        "drink b": "no mark for the bottle of scale with a: it is not here; ask for it, and look once it was given",
        "withdraw a": "the session has no patience",
        "askfork a b": "the job has the fork",
        "askfork b a": "the job does not have the fork's request token",
        "askbottles a b scale": "the bottle of scale: it is here already",
        "askbottles a b lamp": "the bottle of lamp: the job's session does not need it",
        "askbottles b a scale lamp": "the bottle of scale: its request token is not here",
        "givebottles a b scale": "the bottle of scale: the job needs it and has the fork, so it keeps it",
    },
    {
        "givebottles a b scale": "the bottle of scale: the job's session holds it; it is given once the session has ended",
        "givefork b a": "the fork is clean; it is given once it was soiled in a meal",
        "quit a": "the session has a command left",
        "sit b": "no mark for the fork with a: the fork is here; look",
    },
    {
        "leave b": "the job is thirsty; it has to drink first",
        "givefork b a": "the job eats; it has to leave first",
        "reach a": "the session has no command left",
    },
    {
        "leave b": "no mark for the fork with a: the fork is here but clean; soil it",
        "drink b": "the job is not thirsty",
    },
    {"soil b a": "the fork is dirty already"},
    {"thirst b": "the job eats; it has to leave first", "retire b": "the job is hungry or eats"},
    {"thirst b": "the job has no session left"},
]

# At each stage steps that are legal there.
TAKEN = [
    ["look a b", "glance a b", "thirst a"],
    ["withdraw b", "givefork a b", "askbottles b a lamp"],
    ["reach a", "askfork a b"],
    ["soil b a"],
    ["thirst a"],
    ["leave b"],
    [],
    ["retire b"],
]

# At the first stage a's fork is asked for, and so is the scale's bottle.
SIT_REFUSED = """\
line 21: `sit a` is not legal: no mark for the fork with b: the fork is here but dirty, and its token is here too; look again after the other has had it
a: hungry, thirsty, session 1 of 2, commands done: 0
  fork with b: dirty, here, token here, not marked
  bottle of scale with b: here, token here, not marked
  bottle of lamp with b: here, token there, not marked
legal now, besides looks and glances:
  givefork a b
  withdraw b
  askbottles b a lamp
"""

# There its token is at a.
BOTTLES_REFUSED = """\
line 21: `askbottles b a scale lamp` is not legal: the bottle of scale: its request token is not here
b: hungry, thirsty, session 1 of 1, commands done: 0
  fork with a: dirty, there, token there, not marked
  bottle of scale with a: there, token there, not marked
  bottle of lamp with a: there, token here, not marked
legal now, besides looks and glances:
  givefork a b
  withdraw b
  askbottles b a lamp
"""

# At the fourth b eats and drinks, and a is hungry for its next meal.
ALL_LEGAL = """\
legal steps: 19, all
a: hungry, in no session, session 1 of 2, commands done: 0
  fork with b: clean, there, token here, not marked
  bottle of scale with b: there, token here, not marked
  bottle of lamp with b: there, token here, not marked
b: eating, drinking, session 1 of 1, commands done: 0
  fork with a: clean, here, token there, not marked
  bottle of scale with a: here, token there, marked
  bottle of lamp with a: here, token there, marked
legal now, besides looks and glances:
  thirst a
  askfork a b
  reach b
  soil b a
"""

NO_JOB = "legal steps: 0, all\nlegal now, besides looks and glances:\n"


def at(stage, *steps):
    """The input up to a stage, and these steps."""
    return TOOLS + "".join(STEPS[:stage]) + "".join(f"{it}\n" for it in steps)


def begins(line, legal=None):
    """Whether an explanation begins with this line, and just these steps are legal in the end; some, if none are named."""

    def judge(out):
        first, _, rest = out.decode().partition("\n")
        told = [it.removeprefix("  ") for it in rest.partition("legal now, besides looks and glances:\n")[2].splitlines()]
        is_so = first == line and (told == legal if legal else told)
        return None if is_so else f"it should begin with\n{line}\nand tell that just these are legal: {legal or 'some'}"

    return judge


def named(stage, step):
    return f"stage_{stage}_{step.replace(' ', '_')}"


def refusals():
    """A case for each step that isn't legal."""
    for stage, steps in enumerate(REFUSED):
        for step, why in steps.items():
            line = at(stage, step).count("\n")
            yield Case(named(stage, step), "explain", at(stage, step), begins(f"line {line}: `{step}` is not legal: {why}", LEGAL.get(stage)))


def legal_steps():
    """A case for each stage, and for each step that is legal there."""
    for stage, steps in enumerate(TAKEN):
        count = at(stage).count("\n") - 14
        yield Case(named(stage, "legal"), "explain", at(stage), begins(f"legal steps: {count}, all", LEGAL.get(stage)))
        for step in steps:
            yield Case(named(stage, step), "explain", at(stage, step), begins(f"legal steps: {count + 1}, all"))


CASES = [
    *refusals(),
    *legal_steps(),
    Case("sit_refused", "explain", at(1, "sit a", "retire b"), SIT_REFUSED),
    Case("bottles_refused", "explain", at(1, "askbottles b a scale lamp"), BOTTLES_REFUSED),
    Case("all_legal", "explain", at(4), ALL_LEGAL),
    Case("no_job", "explain", "lab 1\n", NO_JOB),
    Case("no_line_end", "explain", "lab 1", NO_JOB),
    Case("bad_step", "explain", "lab 1\nsteps\nsit a\n", err="labview: line 3: S13 bad step\n", status=1),
]
