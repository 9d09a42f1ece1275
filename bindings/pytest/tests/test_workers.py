"""With workers of pytest-xdist. What every test here also shows, by its fixtures: no instrument had to refuse a client, and no run left a
folder behind."""

from __future__ import annotations

import csv
import json
import os
import re
import signal
import subprocess
import sys
import time
import xml.etree.ElementTree as ElementTree
from pathlib import Path

import pytest

from .conftest import NAMES, Run

pytest.importorskip("xdist")

SHARED = f"""
    import random, time
    import pytest

    CHANCE = random.Random(7)
    NEEDS = [CHANCE.sample({NAMES!r}, CHANCE.randint(1, 3)) for _ in range(24)]

    @pytest.mark.parametrize("number", [pytest.param(at, marks=pytest.mark.instruments(*need)) for at, need in enumerate(NEEDS)])
    def test_shared(number, talk, instruments):
        assert list(instruments) == NEEDS[number]
        for name in instruments:
            assert talk[name].ask("ADD 1") == "OK"
        time.sleep(0.02)

    @pytest.mark.parametrize("number", range(8))
    @pytest.mark.instruments("scope", any_of="load-*")
    def test_any_load(number, talk, instruments):
        scope, load = instruments
        assert scope == "scope" and load.startswith("load-") and talk[load].ask("ADD 1") == "OK"

    def test_without():
        pass
"""


def read(path: Path) -> list[dict[str, str]]:
    with open(path, encoding="utf-8", newline="") as file:
        return list(csv.DictReader(file))


@pytest.mark.parametrize("words", [(), ("--dist", "loadfile"), ("--dist", "each")], ids=" ".join)
def test_tests_share_instruments(pytester: pytest.Pytester, run: Run, words: tuple[str, ...]) -> None:
    pytester.makepyfile(test_one=SHARED, test_two=SHARED)
    workers = {"each": 2, "loadfile": 2}.get(words[-1] if words else "", 6)
    done = run("-n", str(workers), *words, "--lab-report", "it.csv", "--lab-gantt", "it.svg")
    times = 2 if "each" in words else 1
    done.assert_outcomes(passed=66 * times)
    sessions = read(pytester.path / "it.csv")
    assert len(sessions) == 64 * times and {it["end"] for it in sessions} == {"done"}
    done.stdout.fnmatch_lines(["*= instruments =*", "scope * in use * sessions, waited for *"])
    ElementTree.parse(pytester.path / "it.svg")


def test_no_marker_at_all(pytester: pytest.Pytester, run: Run) -> None:
    pytester.makepyfile("import pytest\n@pytest.mark.parametrize('it', range(20))\ndef test_it(it): pass\n")
    done = run("-n", "2", "--lab-report", "it.csv")
    done.assert_outcomes(passed=20)
    done.stdout.fnmatch_lines(["no test held an instrument"])
    done.stdout.no_fnmatch_line("*= instruments =*")


def test_how_long_tests_took_is_kept_for_the_next_run(pytester: pytest.Pytester, run: Run) -> None:
    pytester.makepyfile(test_it="import time\nimport pytest\n@pytest.mark.instruments('scope')\ndef test_it(): time.sleep(0.2)\n")
    kept = pytester.path / ".pytest_cache" / "v" / "labrun" / "times"
    kept.parent.mkdir(parents=True)
    kept.write_text("[1, 2]")
    run("-n", "1").assert_outcomes(passed=1)
    times = json.loads(kept.read_text())
    assert list(times) == ["test_it.py::test_it"] and 0.2 <= times["test_it.py::test_it"] < 2


def test_a_killed_worker_lets_go(pytester: pytest.Pytester, run: Run) -> None:
    pytester.makepyfile(
        """
        import os, signal
        import pytest
        pytestmark = pytest.mark.instruments("scope")

        @pytest.mark.parametrize("number", range(9))
        def test_it(number, talk):
            assert talk["scope"].ask("ADD 1") == "OK"
            if number in (2, 5):
                os.kill(os.getpid(), signal.SIGKILL)
        """
    )
    done = run("-n", "2", "--lab-report", "it.csv", "--lab-timeout", "30")
    done.assert_outcomes(passed=7, failed=2)
    done.stdout.fnmatch_lines(["*crashed while running*test_it?2?*"])
    assert sorted(it["end"] for it in read(pytester.path / "it.csv")) == ["done"] * 7 + ["gone"] * 2


def test_a_worker_is_killed_while_it_waits(pytester: pytest.Pytester, run: Run) -> None:
    """(By an order of xdist's, in which workers wait; it runs a test again that crashed.)"""
    holds = """
        import os, pathlib, signal, time
        import pytest

        @pytest.mark.instruments("scope")
        def test_it(talk):
            for _ in range(6000):
                others = [it for it in pathlib.Path(__file__).parent.glob("*.pid") if it.read_text() != str(os.getpid())]
                if others:
                    break
                time.sleep(0.01)
            time.sleep(0.3)
            os.kill(int(others[0].read_text()), signal.SIGKILL)
            time.sleep(0.3)
    """
    waits = """
        import os, pathlib, time
        import pytest

        def test_before():
            time.sleep(0.3)
            (pathlib.Path(__file__).parent / f"{os.getpid()}.pid").write_text(str(os.getpid()))

        @pytest.mark.instruments("scope", "supply")
        def test_waits(talk):
            pass

        @pytest.mark.instruments("scope")
        def test_behind(talk):
            pass
    """
    pytester.makepyfile(test_a=holds, test_b=waits)
    done = run("-n", "2", "--dist", "loadfile", "--lab-report", "it.csv")
    done.assert_outcomes(passed=4, failed=1)
    done.stdout.fnmatch_lines(["*crashed while running*test_waits*"])
    ends = [(it["test"].split("::")[1], it["end"]) for it in read(pytester.path / "it.csv")]
    assert ends == [("test_it", "done"), ("test_waits", "gone"), ("test_waits", "done"), ("test_behind", "done")]


def test_stop_at_the_first_failure(pytester: pytest.Pytester, run: Run) -> None:
    pytester.makepyfile(SHARED + "\n        assert number != 3\n")
    done = run("-n", "3", "-x")
    assert done.parseoutcomes()["failed"] >= 1 and done.ret == pytest.ExitCode.INTERRUPTED


def test_last_failed_and_a_set_up_that_fails(pytester: pytest.Pytester, run: Run) -> None:
    pytester.makepyfile(
        """
        import os, time
        import pytest
        pytestmark = pytest.mark.instruments("scope")

        @pytest.fixture
        def broken(talk):
            assert "MENDED" in os.environ
            yield
            assert "MENDED" in os.environ

        def test_broken(broken): pass
        def test_broken_too(broken): pass
        @pytest.mark.parametrize("number", range(6))
        def test_it(number, talk):
            assert number != 4 or "MENDED" in os.environ
        """
    )
    run("-n", "2").assert_outcomes(passed=5, failed=1, errors=2)
    pytester._monkeypatch.setenv("MENDED", "yes")
    run("-n", "2", "--lf").assert_outcomes(passed=3)


WIDE = """
    import time
    import pytest
    import pytest_labrun

    @pytest.fixture(scope="{scope}")
    @pytest_labrun.holds("supply")
    def powered(lab, tmp_path_factory):
        assert "supply" in lab.held
        mark = tmp_path_factory.getbasetemp().parent / "powered"
        mark.mkdir()               # nobody else has it on meanwhile
        yield
        mark.rmdir()

    class TestIt:
        @pytest.mark.instruments("supply", "scope")
        def test_both(self, powered, talk):
            assert set(talk) == {{"supply", "scope"}}
            time.sleep(0.05)

        @pytest.mark.instruments(any_of="load-*")
        def test_a_load(self, powered, talk):
            assert list(talk)[0] == "supply" and len(talk) == 2
            time.sleep(0.05)

    @pytest.mark.instruments("scope", "load-1")
    def test_other(talk):
        time.sleep(0.05)

    @pytest.mark.instruments("supply")
    def test_supply_alone(talk):
        time.sleep(0.05)
"""


@pytest.mark.parametrize("scope, sessions", [("class", 12), ("module", 12), ("session", 9)])
def test_a_fixture_holds_for_several_tests(pytester: pytest.Pytester, run: Run, scope: str, sessions: int) -> None:
    """In each of four files two tests are one session, and two are one each; with the session's scope the eight of them are one."""
    if scope == "session":
        fixture, tests = WIDE.format(scope=scope).split("    class TestIt:")
        pytester.makeconftest((pytester.path / "conftest.py").read_text() + "\n" + _dedent(fixture))
        suites = {f"test_{at}": "    import time\n    import pytest\n\n    class TestIt:" + tests for at in "abcd"}
    else:
        suites = {f"test_{at}": WIDE.format(scope=scope) for at in "abcd"}
    pytester.makepyfile(**suites)
    done = run("-n", "3", "--lab-report", "it.csv", "--lab-timeout", "30")
    done.assert_outcomes(passed=16)
    assert len(read(pytester.path / "it.csv")) == sessions


def test_a_worker_crashes_among_tests_that_hold_as_one(pytester: pytest.Pytester, run: Run) -> None:
    """The rest of them go to another worker, where the fixture is set up anew."""
    pytester.makepyfile(
        """
        import os, signal
        import pytest
        import pytest_labrun

        @pytest.fixture(scope="module")
        @pytest_labrun.holds("supply")
        def powered(lab):
            assert lab.held == ("scope", "supply")

        @pytest.mark.instruments("scope")
        @pytest.mark.parametrize("number", range(4))
        def test_it(powered, number, talk):
            if number == 1:
                os.kill(os.getpid(), signal.SIGKILL)

        @pytest.mark.instruments("supply")
        def test_other(talk):
            pass
        """
    )
    done = run("-n", "2", "--lab-report", "it.csv", "--lab-timeout", "30")
    done.assert_outcomes(passed=4, failed=1)
    ends = [(it["test"].split("::")[1], it["end"]) for it in read(pytester.path / "it.csv")]
    assert sorted(ends) == [("test_it[0]", "gone"), ("test_it[2]", "done"), ("test_other", "done")]


def _dedent(text: str) -> str:
    return re.sub(r"(?m)^    ", "", text)


def test_a_module_is_set_up_once_and_what_fails_in_its_tear_down_is_told(pytester: pytest.Pytester, run: Run) -> None:
    """A worker doesn't know its next test; what belongs to a module stays until that is another module's."""
    suite = """
        import pytest
        pytestmark = pytest.mark.instruments("scope")
        ups = []

        @pytest.fixture(scope="module", autouse=True)
        def whole():
            ups.append(1)
            yield
            assert {good}, "this module's tear-down"

        @pytest.mark.parametrize("number", range(3))
        def test_it(number):
            assert ups == [1]
    """
    pytester.makepyfile(test_a=suite.format(good=False), test_b=suite.format(good=True), test_c=suite.format(good=False))
    done = run("-n", "1")
    done.assert_outcomes(passed=9, errors=2)
    done.stdout.fnmatch_lines(["*ERROR at teardown of test_it?2?*", "ERROR test_a.py::test_it?2? - AssertionError: this module's tear-down"])
    done.stdout.fnmatch_lines(["ERROR test_c.py::test_it?2? - AssertionError: this module's tear-down"])


def test_who_waits_too_long_fails_and_says_for_whom(pytester: pytest.Pytester, run: Run) -> None:
    pytester.makepyfile(
        """
        import time
        import pytest

        @pytest.mark.instruments("scope", "supply")
        def test_hangs(talk):
            time.sleep(6)

        @pytest.mark.instruments("scope")
        def test_waits(talk): pass
        @pytest.mark.instruments("load-1")
        def test_free(talk): pass
        """
    )
    done = run("-n", "2", "-o", "lab_timeout=1.6", "-vv")
    done.assert_outcomes(passed=2, errors=1)
    done.stdout.fnmatch_lines(["*ERROR at setup of test_waits*", "waited ?.? s for scope: scope has been held by *.py::test_hangs (gw?) for ?.? s"])
    done.stdout.fnmatch_lines(["waited ?.? s in all, in 1 of 3 sessions; the longest ?.? s: *::test_waits, for scope (*::test_hangs)"])


def test_waiting_isnt_the_tests_own_time(pytester: pytest.Pytester, run: Run) -> None:
    pytester.makepyfile(
        """
        import time
        import pytest
        @pytest.mark.instruments("scope")
        @pytest.mark.parametrize("number", range(4))
        def test_it(number, talk):
            time.sleep(2)
        """
    )
    told = run("-n", "4", "--durations", "20", "--durations-min", "1.8").stdout.str()
    durations = [float(it) for it in re.findall(r"(?m)^([\d.]+)s (?:setup|call|teardown) ", told)]
    waits = sorted(float(it) for it in re.findall(r"(?m)^([\d.]+)s wait ", told))
    # each is 2 s at work; the second, third and fourth wait for one, two and three of these
    assert len(durations) == 4 and all(2 <= it < 3.8 for it in durations)
    assert len(waits) == 3 and all(wait >= 1.9 * number for number, wait in enumerate(waits, 1))


def test_control_c(pytester: pytest.Pytester, run: Run) -> None:
    pytester.makepyfile(
        """
        import time
        import pytest
        def test_short():
            pass
        @pytest.mark.instruments("scope")
        @pytest.mark.parametrize("number", range(3))
        def test_long(number):
            time.sleep(60)
        """
    )
    words = [sys.executable, "-u", "-m", "pytest", "-p", "pytest_labrun.plugin", "-n", "3", "-v"]
    process = subprocess.Popen(words, cwd=pytester.path, stdout=subprocess.PIPE, text=True, start_new_session=True)
    assert process.stdout is not None
    for line in process.stdout:
        if "PASSED" in line:
            break
    begun = time.monotonic()
    os.killpg(process.pid, signal.SIGINT)
    told = process.communicate(timeout=120)[0]
    assert process.returncode == pytest.ExitCode.INTERRUPTED and "KeyboardInterrupt" in told
    # (xdist gives a worker that misses the interrupt ten seconds to come down, and then ten more until it is killed)
    assert time.monotonic() - begun < 50


def those_in(folder: Path) -> set[str]:
    """The processes that work in a folder, by their numbers."""
    return {it.name for it in Path("/proc").glob("[0-9]*") if is_in(it, folder)}


def ended(folder: Path, before: set[str]) -> None:
    """Returns once no processes work in a folder but those from before."""
    for _ in range(1200):
        if not (others := those_in(folder) - before):
            return
        time.sleep(0.05)
    raise AssertionError(others)


def is_in(process: Path, folder: Path) -> bool:
    try:
        return (process / "cwd").resolve(strict=True) == folder.resolve()
    except OSError:
        return False


def test_a_killed_controller_leaves_nothing_held(pytester: pytest.Pytester, run: Run, bay: object) -> None:
    """Its folder stays, and its workers end by themselves."""
    pytester.makepyfile(SHARED.replace("0.02", "0.5"))
    words = [sys.executable, "-m", "pytest", "-p", "pytest_labrun.plugin", "-n", "3", "-v"]
    before = those_in(pytester.path)
    process = subprocess.Popen(words, cwd=pytester.path, stdout=subprocess.PIPE, text=True)
    assert process.stdout is not None
    for line in process.stdout:
        if "PASSED" in line:
            break
    process.kill()
    process.communicate()
    room = Path(os.environ["TMPDIR"])
    for folder in room.glob("labrun-*"):
        (folder / "lab.sock").unlink()
        folder.rmdir()
    ended(pytester.path, before)
    run("-n", "2", "-k", "test_any_load").assert_outcomes(passed=8)


def test_nobody_else_may_come_in(pytester: pytest.Pytester, run: Run) -> None:
    pytester.makepyfile(
        """
        import os, pathlib, stat
        def test_it():
            folder, = pathlib.Path(os.environ["TMPDIR"]).glob("labrun-*")
            assert stat.S_IMODE(folder.stat().st_mode) == 0o700
            assert stat.S_IMODE((folder / "lab.sock").stat().st_mode) == 0o600
        """
    )
    run("-n", "1").assert_outcomes(passed=1)


def test_limits(pytester: pytest.Pytester, run: Run) -> None:
    pytester.makepyfile(
        """
        import pytest
        @pytest.mark.parametrize("number", [pytest.param(it, marks=pytest.mark.instruments(f"dut-{it}")) for it in range(65)])
        def test_it(number):
            pass
        """
    )
    done = run("-n", "1")
    assert done.ret == pytest.ExitCode.USAGE_ERROR
    done.stderr.fnmatch_lines(["ERROR: the tests use 65 instruments; workers may share 64"])
