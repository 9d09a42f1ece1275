"""Suites made by chance: markers, fixtures that hold for several tests, workers that are killed. LABRUN_SUITES=N makes N of them."""

from __future__ import annotations

import os
import random

import pytest

from .conftest import NAMES, Run

pytest.importorskip("xdist")

FIXTURE = '''
@pytest.fixture(scope="{scope}")
@pytest_labrun.holds({wish})
def fixture_{number}(lab):
    assert len(lab.held) >= {least}
    yield
    assert len(lab.held) >= {least}
'''

TEST = '''
@pytest.mark.parametrize("time_", {times})
{marker}def test_{number}({fixtures}talk, time_):
    assert len(talk) >= {least}
    for one in talk.values():
        assert one.ask("ADD 1") == "OK"
    time.sleep(time_)
    if {kills} and time_ == {times}[0]:
        os.kill(os.getpid(), signal.SIGKILL)
    for one in talk.values():
        assert one.ask("READ?").isdigit()
'''


class Suites:
    """Files of tests; how many tests there are, and how many of them kill their worker."""

    def __init__(self, seed: int) -> None:
        self.chance = random.Random(seed)
        self.tests = self.killed = 0
        # (one load at most is named: two choices of a load always find one each)
        self.files = {f"test_{name}": self.file() for name in "abc"}

    def wish(self) -> tuple[str, int]:
        names = self.chance.sample(NAMES[:3], self.chance.randint(0, 2))
        any_of = "" if names and (self.chance.random() < 0.6 or "load-1" in names) else "any_of='load-*'"
        words = [*(repr(name) for name in names), *filter(None, [any_of])]
        return ", ".join(words), len(words)

    def file(self) -> str:
        text = "import os, signal, time\nimport pytest\nimport pytest_labrun\n"
        fixtures = []
        for number in range(self.chance.randint(0, 2)):
            name, scope = self.chance.choice(NAMES[:2]), self.chance.choice(["function", "module"])
            text += FIXTURE.format(scope=scope, wish=repr(name), number=number, least=1)
            fixtures.append(f"fixture_{number}")
        for number in range(self.chance.randint(2, 5)):
            text += self.test(number, fixtures)
        return text

    def test(self, number: int, fixtures: list[str]) -> str:
        wish, least = self.wish()
        marked = self.chance.random() < 0.9
        uses = [it + ", " for it in fixtures if self.chance.random() < 0.4]
        times = [round(self.chance.uniform(0, 0.03), 4) for _ in range(self.chance.randint(1, 4))]
        kills = self.chance.random() < 0.15
        self.tests, self.killed = self.tests + len(times), self.killed + kills
        marker = f"@pytest.mark.instruments({wish})\n" if marked else ""
        return TEST.format(marker=marker, number=number, fixtures="".join(uses), times=times, kills=kills, least=least if marked else 0)


@pytest.mark.parametrize("seed", range(int(os.environ.get("LABRUN_SUITES", "2"))))
def test_a_suite_by_chance(pytester: pytest.Pytester, run: Run, seed: int) -> None:
    suites = Suites(seed)
    pytester.makefile(".toml", bay=f"instruments = {NAMES}")
    pytester.makepyfile(**suites.files)
    order = ["--dist", "loadfile"] if seed % 4 == 3 and not suites.killed else []
    done = run("-n", str(2 + seed % 5), *order, "--lab", "bay.toml", "--lab-timeout", "40")
    done.assert_outcomes(passed=suites.tests - suites.killed, failed=suites.killed)
