"""Who kept a session waiting, as the report says it: a test that had one of its instruments while it waited."""

from __future__ import annotations

import pytest

from .conftest import Run
from .test_workers import read

pytest.importorskip("xdist")

_ROUNDED = 0.005  # seconds, by which times of the report may differ from each other

# the hottest instrument is the scope; of the workers one is idle from the start, and gets the second test of the supply first
SUITE = """
    import time
    import pytest

    @pytest.mark.parametrize("number", range(4))
    @pytest.mark.instruments("scope")
    def test_scope(number):
        time.sleep(2)

    @pytest.mark.parametrize("number", range(2))
    @pytest.mark.instruments("supply")
    def test_supply(number):
        time.sleep(0.5)

    @pytest.mark.instruments("scope", any_of=["load-1", "load-2"])
    def test_both(instruments):
        time.sleep(0.5)
"""


def test_the_report_names_who_had_it(pytester: pytest.Pytester, run: Run) -> None:
    pytester.makepyfile(SUITE)
    run("-n", "3", "--lab-report", "it.csv").assert_outcomes(passed=7)
    sessions = {it["test"]: it for it in read(pytester.path / "it.csv")}
    named = 0
    for it in sessions.values():
        asked, waited = float(it["asked"]), float(it["waited"])
        for name, by in (kept.split(": ", 1) for kept in it["kept_by"].split("; ") if kept):
            its = sessions[by]
            held = float(its["asked"]) + float(its["waited"])
            let_go = held + float(its["held"])
            assert name in it["instruments"].split() and name in its["instruments"].split(), it
            assert held < asked + waited and asked - _ROUNDED < let_go < asked + waited + _ROUNDED, (it, its)
            named += 1
    # at least the last of the scope's five was waited for, by a worker with nothing else to do
    assert named >= 2
    # (whether the two of the supply meet is up to the workers)
    supply = [f"test_the_report_names_who_had_it.py::test_supply[{number}]" for number in range(2)]
    for one, other in (supply, supply[::-1]):
        if float(sessions[other]["waited"]) > 0.05:
            assert sessions[other]["kept_by"] == f"supply: {one}"
