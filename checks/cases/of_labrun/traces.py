"""Replays of the traces that labview writes (`of_labview/traces.py` and `of_labview/printed.py`): each has the report of the run by rounds."""

import simulated
from case import Case
from of_labview.traces import TRIANGLE


def replayed(name, script, limit):
    """A run by rounds, and a replay of its trace."""
    report, status = simulated.report(script, limit)
    yield Case(f"rounds_of_{name}", f"rounds {limit}", script, report, status=status)
    yield Case(f"replay_of_{name}", "replay", simulated.trace(script, limit), report, status=status)


CASES = [
    *(case for limit in range(24) for case in replayed(f"triangle_{limit}", TRIANGLE, limit)),
    *(case for number, (script, limit) in enumerate(simulated.scripts(40)) for case in replayed(f"script_{number}", script, limit)),
]
