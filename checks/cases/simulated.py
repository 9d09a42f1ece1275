"""Runs as `checks/simulate.py` reckons them, by the definitions alone: their reports, and the steps that they consist of."""

import random

import simulate


def line_of(plan, event):
    """A step as a line of a list of steps."""
    kind, job, *rest = event
    words = [kind, plan.job_names[job]]
    if kind == "glance":
        words.append(plan.job_names[rest[0]])
    elif rest:
        low, high, _ = plan.edges[rest[0]]
        words.append(plan.job_names[low + high - job])
        for bottles in rest[1:]:
            words += [name for at, name in enumerate(plan.instrument_names) if bottles >> at & 1]
    return " ".join(words) + "\n"


def run_of(script, limit):
    run = simulate.Run(simulate.read_script(script.encode()), recording=True)
    run.drive_rounds(limit)
    return run


def report(script, limit):
    """The report of a run by at most so many rounds, and its status."""
    run = run_of(script, limit)
    return run.report(), run.status()


def trace(script, limit):
    """The script with the steps of this run. The script's last line has its end."""
    run = run_of(script, limit)
    return f"{script}steps\n{''.join(line_of(run.plan, it) for it in run.events)}"


def threads(script, workers, turns, seed):
    """The report of a run by threads, whose steps come in an order that is picked by chance."""
    run = simulate.Run(simulate.read_script(script.encode()))
    run.drive_threads(workers, turns, random.Random(seed))
    return run.report()


class Chance:
    """Numbers of a row that begins anywhere, the same in each run."""

    def __init__(self, seed):
        self.seed = seed

    def below(self, most):
        self.seed = (self.seed * 1_664_525 + 1_013_904_223) % 2**32
        return (self.seed >> 16) % most

    def one_of(self, words):
        return words[self.below(len(words))]


def script_of(chance):
    """A script of four jobs with up to three sessions each, of one to three commands on one of three instruments."""
    lines = ["lab 1"]
    for name in "abcd":
        lines.append(f"job {name}")
        for _ in range(chance.below(4)):
            lines.append("session")
            for _ in range(chance.below(3) + 1):
                instrument = chance.one_of(("scale", "lamp", "oven"))
                lines.append(f"{instrument} {chance.one_of(('set 7', 'add 1', 'read'))}")
            lines.append("end")
    return "".join(f"{it}\n" for it in lines)


def scripts(count):
    """Scripts made by chance, each with the most rounds of a run."""
    chance = Chance(20_261_123)
    return [(script_of(chance), chance.below(60)) for _ in range(count)]
