"""Scripts made by chance: a report of a run of each has a picture with all its sessions, and its trace has the steps of the run by rounds.
That labrun prints these reports, and replays these traces: `of_labrun/traces.py`."""

import simulated
from case import Case


def has_all_boxes(report):
    """Whether a picture has a box for each session on each instrument (as many as there are entries with place 1) and one for each job in
    the table below."""
    wanted = report.count(" 1/") + report.count("\njob ")

    def judge(out):
        found = out.count(b'fill-opacity="0.5"')
        return None if found == wanted else f"it should have {wanted} boxes, not {found}"

    return judge


def drawn(name, report):
    return Case(name, "picture", report, has_all_boxes(report))


CASES = [
    case
    for number, (script, limit) in enumerate(simulated.scripts(40))
    for case in (
        drawn(f"rounds_{number}", simulated.report(script, limit)[0]),
        drawn(f"threads_{number}", simulated.threads(script, 3, limit, number)),
        Case(f"trace_{number}", f"trace {limit}", script, simulated.trace(script, limit)),
    )
]
