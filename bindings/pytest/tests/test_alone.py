"""One process that runs all tests: markers are checked, and nothing waits."""

from __future__ import annotations

import csv
from textwrap import dedent
from xml.etree import ElementTree

import pytest

from .conftest import Run

FIXTURES = """
    import pytest
    import pytest_labrun

    told = []

    @pytest.fixture(scope="module")
    @pytest_labrun.holds("supply", any_of="load-*")
    def powered(lab):
        told.append(("on", sorted(lab.held)))
        yield
        told.append(("off", sorted(lab.held)))

    @pytest.mark.instruments("scope", "load-1", "load-2")
    def test_before():
        assert told == []

    @pytest.mark.instruments("supply")
    def test_one(powered, instruments):
        assert instruments.names == ("supply", "load-1")

    @pytest.mark.instruments("scope", any_of="load-*")
    def test_two(powered, instruments):
        assert instruments.names == ("scope", "supply", "load-1", "load-2")

    def test_behind(instruments):
        "It is torn down with the last of its tests, and held by then."
        assert told == [("on", ["load-1", "load-2", "scope", "supply"]), ("off", ["load-1", "load-2", "scope", "supply"])]
        assert instruments.names == ()
"""


def test_a_fixture_holds_for_several_tests(pytester: pytest.Pytester, run: Run) -> None:
    pytester.makepyfile(FIXTURES)
    run("-q").assert_outcomes(passed=4)


def test_nothing_waits_and_no_table_is_printed(pytester: pytest.Pytester, run: Run) -> None:
    pytester.makepyfile(
        """
        import pytest
        @pytest.mark.instruments("scope", "supply")
        def test_it(talk, instruments, record_property):
            assert talk["scope"].ask("ADD 2") == "OK" and instruments.waited == 0
            instruments.note("two")
        """
    )
    done = run("--lab-report", "it.csv", "--lab-gantt", "it.svg", "--junitxml", "it.xml")
    done.assert_outcomes(passed=1)
    done.stdout.no_fnmatch_line("*= instruments =*")
    lines = (pytester.path / "it.csv").read_text().splitlines()
    assert lines[0] == "test,worker,instruments,asked,waited,held,end,kept_by,notes" and len(lines) == 2
    assert lines[1].startswith("test_nothing_waits_and_no_table_is_printed.py::test_it,alone,scope supply,") and lines[1].endswith(",done,,two")
    assert '<property name="lab_waited" value="0.0"' in (pytester.path / "it.xml").read_text()
    assert "test_it (pytest without workers): scope supply" in (pytester.path / "it.svg").read_text()


NOWHERE = """
    import os
    import pytest

    @pytest.mark.instruments("scope")
    def test_before(instruments):
        instruments.note("kept")

    def test_it(instruments):
        instruments.note("lost")

    @pytest.mark.instruments("scope")
    def test_fork(instruments):
        if (child := os.fork()) == 0:
            try:
                with pytest.warns(pytest.PytestWarning, match="^this note is in no report, because this is the child of a fork: "):
                    instruments.note("of the child")
                os._exit(17)
            finally:
                os._exit(1)
        assert os.waitstatus_to_exitcode(os.waitpid(child, 0)[1]) == 17
"""


@pytest.mark.parametrize("words", [(), ("-n", "1")], ids=["alone", "workers"])
def test_a_note_that_is_kept_nowhere(pytester: pytest.Pytester, run: Run, words: tuple[str, ...]) -> None:
    """Whoever writes it is told, and the session of another test doesn't get it."""
    if words:
        pytest.importorskip("xdist")
    file = pytester.makepyfile(NOWHERE)
    done = run(*words, "--lab-report", "it.csv")
    done.assert_outcomes(passed=3, warnings=1)
    done.stdout.fnmatch_lines(["*.py:9: PytestWarning: this note is in no report, because no instrument is held: 'lost'", '    instruments.note("lost")'])
    rows = (pytester.path / "it.csv").read_text().splitlines()[1:]
    assert sorted((row.split(",")[0], row.rpartition(",")[2]) for row in rows) == [(f"{file.name}::test_before", "kept"), (f"{file.name}::test_fork", "")]


ODD = """
    import pytest

    @pytest.mark.instruments("scope")
    @pytest.mark.parametrize("note", ["caf\\udce9 & \\x1b[31m", "next"], ids=["odd", "next"])
    def test_it(instruments, note):
        instruments.note(note)
"""


@pytest.mark.parametrize("words", [(), ("-n", "1")], ids=["alone", "workers"])
def test_odd_notes(pytester: pytest.Pytester, run: Run, words: tuple[str, ...]) -> None:
    """What a file can't have is written by its number, and all else is there."""
    if words:
        pytest.importorskip("xdist")
    pytester.makepyfile(ODD)
    done = run(*words, "--lab-report", "it.csv", "--lab-gantt", "it.svg")
    done.assert_outcomes(passed=2)
    assert done.ret == 0
    with open(pytester.path / "it.csv", encoding="utf-8", newline="") as file:
        assert [row["notes"] for row in csv.DictReader(file)] == ["caf\\udce9 & \x1b[31m", "next"]
    titles = [it.text or "" for it in ElementTree.parse(pytester.path / "it.svg").iter("{http://www.w3.org/2000/svg}title")]
    assert {title.splitlines()[-1] for title in titles} == {"caf\\udce9 & \\x1b[31m", "next"}


FULL = """
    import os, shutil
    import pytest

    @pytest.mark.instruments("scope")
    def test_it():
        shutil.rmtree("out")
        os.makedirs(".pytest_cache/v/labrun", exist_ok=True)
        os.symlink("/dev/full", ".pytest_cache/v/labrun/times")
"""


@pytest.mark.parametrize("words", [(), ("-n", "1")], ids=["alone", "workers"])
def test_files_that_cant_be_written_by_then(pytester: pytest.Pytester, run: Run, words: tuple[str, ...]) -> None:
    """The summary says so; the run's result is told all the same."""
    if words:
        pytest.importorskip("xdist")
    pytester.makepyfile(FULL)
    pytester.mkdir("out")
    (pytester.path / "it.svg").symlink_to("/dev/full")
    done = run(*words, "--lab-report", "out/it.csv", "--lab-gantt", "it.svg")
    done.assert_outcomes(passed=1)
    assert done.ret == 0
    said = ["--lab-gantt it.svg can't be written: No space left on device", "--lab-report out/it.csv can't be written: No such file or directory"]
    if words:
        said.insert(0, "labrun/times in pytest's cache can't be written: No space left on device")
    assert [line for line in done.outlines if "can't be written" in line] == said


@pytest.mark.parametrize(
    "words, told",
    [
        (["--lab-gantt", "none/it.svg"], "ERROR: --lab-gantt none/it.svg: it can't be written there"),
        (["--lab-report", "it.txt"], "ERROR: --lab-report it.txt: a name that ends in .csv is wanted"),
        (["--lab-report", "/nothere/it.csv"], "ERROR: --lab-report /nothere/it.csv: it can't be written there"),
        (["--lab-report", "."], "ERROR: --lab-report .: it can't be written there"),
        (["--lab-timeout", "-1"], "ERROR: lab_timeout: -1.0 is no number of seconds from 0 on"),
        (["--lab-timeout", "nan"], "ERROR: lab_timeout: nan is no number of seconds from 0 on"),
    ],
)
def test_wrong_words(pytester: pytest.Pytester, run: Run, words: list[str], told: str) -> None:
    pytester.makepyfile("def test_it(): pass")
    done = run(*words)
    assert done.ret == pytest.ExitCode.USAGE_ERROR
    done.stderr.fnmatch_lines([told])


def test_a_fixture_that_isnt_named_beforehand(pytester: pytest.Pytester, run: Run) -> None:
    pytester.makepyfile(
        """
        import pytest, pytest_labrun

        @pytest.fixture
        @pytest_labrun.holds("supply")
        def powered(): pass

        def test_late(request):
            request.getfixturevalue("powered")
        def test_named(powered, instruments):
            assert instruments.names == ("supply",)
        """
    )
    done = run()
    done.assert_outcomes(passed=1, failed=1)
    done.stdout.fnmatch_lines(["*the fixture powered holds supply: a test that uses it has to name it as an argument, or by usefixtures"])


def test_a_choice_of_a_fixture_that_isnt_named_beforehand(pytester: pytest.Pytester, run: Run) -> None:
    pytester.makepyfile(
        """
        import pytest, pytest_labrun

        @pytest.fixture
        @pytest_labrun.holds("scope", any_of="load-*")
        def loaded(): pass
        @pytest.fixture
        @pytest_labrun.holds("2 of load-*")
        def two(): pass

        @pytest.mark.parametrize("name", ["loaded", "two"])
        @pytest.mark.instruments("scope", "load-1", "load-2")
        def test_late(request, name):
            request.getfixturevalue(name)
        @pytest.mark.usefixtures("two")
        def test_named(loaded, instruments):
            assert instruments.names[0] == "scope" and len(instruments) == 4
        """
    )
    (pytester.path / "bay.toml").write_text('instruments = ["scope", "load-1", "load-2", "load-3"]')
    done = run("--lab", "bay.toml")
    done.assert_outcomes(passed=1, failed=2)
    told = "a test that uses it has to name it as an argument, or by usefixtures"
    done.stdout.fnmatch_lines([f"*: the fixture loaded holds scope, one of load-[*]: {told}", f"*: the fixture two holds 2 of load-[*]: {told}"])


@pytest.mark.parametrize("words", [(), ("-n", "2")], ids=["alone", "workers"])
def test_a_fixture_that_extends_another_of_its_name(pytester: pytest.Pytester, run: Run, words: tuple[str, ...]) -> None:
    """What the one further out holds is held, and in the other's place if that doesn't take it, not."""
    conftest = """
    import pytest_labrun

    @pytest.fixture(scope="module")
    @pytest_labrun.holds("scope")
    def tool(lab):
        assert "scope" in lab.held
        return ["scope"]
    """
    pytester.makeconftest(dedent((pytester.path / "conftest.py").read_text()) + dedent(conftest))
    extends = """
        import pytest, pytest_labrun

        @pytest.fixture(scope="module")
        @pytest_labrun.holds("supply")
        def tool(tool):
            return [*tool, "supply"]

        def test_one(tool, instruments):
            assert sorted(instruments) == sorted(tool) == ["scope", "supply"]
        def test_other(tool, instruments):
            assert sorted(instruments) == sorted(tool) == ["scope", "supply"]
    """
    instead = """
        import pytest

        @pytest.fixture
        def tool():
            return []

        def test_it(tool, instruments):
            assert instruments.names == ()
    """
    as_it_is = """
        def test_it(tool, instruments):
            assert instruments.names == ("scope",)
    """
    pytester.makepyfile(test_extends=extends, test_instead=instead, test_as_it_is=as_it_is)
    done = run(*words, "--lab-report", "it.csv")
    done.assert_outcomes(passed=4)
    with open(pytester.path / "it.csv", encoding="utf-8") as file:
        held = sorted((it["test"], sorted(it["instruments"].split())) for it in csv.DictReader(file))
    assert held == [("test_as_it_is.py::test_it", ["scope"]), ("test_extends.py::test_one", ["scope", "supply"])]


@pytest.mark.parametrize("words", [(), ("-n", "2")], ids=["alone", "workers"])
def test_what_is_skipped_holds_nothing(pytester: pytest.Pytester, run: Run, words: tuple[str, ...]) -> None:
    """By its markers, those of its module and class too, and those that a hook gives it; also where a fixture holds for several."""
    pytester.makeconftest(
        dedent((pytester.path / "conftest.py").read_text())
        + dedent(
            """
            def pytest_collection_modifyitems(items):
                for item in items:
                    if "slow" in item.name:
                        item.add_marker(pytest.mark.skip(reason="slow"))
            """
        )
    )
    pytester.makepyfile(
        test_all="import pytest\npytestmark = [pytest.mark.skip, pytest.mark.instruments('scope')]\ndef test_it(): pass\n",
        test_some="""
        import pytest, pytest_labrun

        @pytest.fixture(scope="module")
        @pytest_labrun.holds("supply")
        def powered(): pass

        @pytest.mark.skip(reason="not now")
        @pytest.mark.instruments("scope")
        def test_one(powered): pass
        def test_other(powered, instruments):
            assert instruments.names == ("supply",)
        @pytest.mark.instruments("scope")
        def test_slow(powered): pass

        @pytest.mark.instruments("load-1")
        class TestIt:
            @pytest.mark.skipif(condition=True, reason="never")
            def test_it(self): pass
            @pytest.mark.skipif(False, reason="not so")
            @pytest.mark.skipif("False", reason="not so either")
            def test_runs(self, instruments):
                assert instruments.names == ("load-1",)
        """,
    )
    done = run(*words, "--lab-report", "it.csv")
    done.assert_outcomes(passed=2, skipped=4)
    with open(pytester.path / "it.csv", encoding="utf-8") as file:
        held = sorted((it["test"].rsplit("::")[-1], it["instruments"], it["end"]) for it in csv.DictReader(file))
    assert held == [("test_other", "supply", "done"), ("test_runs", "load-1", "done")]


def test_holds_above_the_fixture_is_refused(pytester: pytest.Pytester, run: Run) -> None:
    pytester.makepyfile("import pytest, pytest_labrun\n@pytest_labrun.holds('supply')\n@pytest.fixture\ndef powered(): pass\n")
    run().stdout.fnmatch_lines(["*TypeError: pytest_labrun.holds(..) stands below pytest.fixture, next to the function"])


def test_collect_only(pytester: pytest.Pytester, run: Run) -> None:
    pytester.makepyfile(FIXTURES)
    run("--collect-only", "-q", "-n", "2").stdout.fnmatch_lines(["4 tests collected*"])
