"""What `labview explain` tells: taken apart, and what it has to tell of a state by the rules as `Table` of `checks/simulate.py` has them."""

import re

import simulate
import simulated

LEGAL_NOW = "legal now, besides looks and glances:\n"
ACTS = ("thirst", "hunger", "sit", "leave", "drink", "reach", "act", "quit", "retire", "withdraw")


def first_line(out):
    return out.decode().partition("\n")[0]


def legal_now(out):
    """The steps that an explanation names as legal."""
    return [it.removeprefix("  ") for it in out.decode().partition(LEGAL_NOW)[2].splitlines()]


def things_of(out, job):
    """What is told of each fork and bottle of a job, by its name there."""
    part = re.search(rf"(?m)^{job}: .*\n((?:  .*\n)*)", out.decode().partition(LEGAL_NOW)[0])
    return dict(it.strip().split(": ", 1) for it in part[1].splitlines()) if part else {}


def place(table, thing, job):
    return "here" if table.stand[thing] == job else "there"


def edge_lines(table, job, edge):
    """A job's fork on an edge, and its bottles."""
    plan, other = table.plan, table.plan.job_names[table.other(job, edge)]
    dirt = "dirty" if edge in table.dirty else "clean"
    mark = "marked" if (job, edge) in table.fork_marks else "not marked"
    yield f"  fork with {other}: {dirt}, {place(table, (edge, 'fork'), job)}, token {place(table, (edge, 'token'), job)}, {mark}\n"
    for it in table.members(plan.edges[edge][2]):
        mark = "marked" if (job, edge, it) in table.bottle_marks else "not marked"
        here, token = (place(table, (edge, (thing, it)), job) for thing in ("bottle", "token"))
        yield f"  bottle of {plan.instrument_names[it]} with {other}: {here}, token {token}, {mark}\n"


def job_of(table, job):
    """All that is told of a job."""
    plan = table.plan
    drink = {simulate.TRANQUIL: "in no session"}.get(table.drinking[job], table.drinking[job])
    head = f"{plan.job_names[job]}: {table.dining[job]}, {drink}, session {table.session[job]} of {len(plan.sessions[job])}"
    edges = "".join(line for edge in plan.edges_of[job] for line in edge_lines(table, job, edge))
    return f"{head}, commands done: {table.position[job]}\n{edges}"


def events_of(plan, job):
    """Each step of a job besides looks and glances, in the order in which the legal ones are told."""
    yield from ((act, job) for act in ACTS)
    for edge in plan.edges_of[job]:
        yield from ((move, job, edge) for move in ("askfork", "givefork", "soil"))
        for it in simulate.Table.members(plan.edges[edge][2]):
            yield from ((move, job, edge, 1 << it) for move in ("askbottles", "givebottles"))


def sights_of(plan, job):
    """Each look and glance of a job."""
    yield from (("look", job, edge) for edge in plan.edges_of[job])
    yield from (("glance", job, other) for other in range(len(plan.job_names)) if other != job)


def legal_part(table):
    plan = table.plan
    events = [it for job in range(len(plan.job_names)) for it in events_of(plan, job) if table.may(it)]
    return LEGAL_NOW + "".join(f"  {simulated.line_of(plan, it)}" for it in events)


def of_state(table, steps):
    """The explanation if so many steps, all legal, led to this state."""
    jobs = "".join(job_of(table, job) for job in range(len(table.plan.job_names)))
    return f"legal steps: {steps}, all\n{jobs}{legal_part(table)}"
