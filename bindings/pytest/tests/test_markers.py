"""What markers say, and where they are wrong."""

from __future__ import annotations

import pytest

from .conftest import Run


def test_markers_of_module_class_and_test_add_up(pytester: pytest.Pytester, run: Run) -> None:
    pytester.makepyfile(
        """
        import pytest
        pytestmark = pytest.mark.instruments("scope")

        @pytest.mark.instruments("supply")
        class TestIt:
            @pytest.mark.instruments(any_of="load-*")
            def test_all(self, instruments):
                assert set(instruments.names) == {"scope", "supply", "load-1"}
                assert instruments.names[-1] == "load-1"

            @pytest.mark.instruments("scope", any_of="load-*")
            @pytest.mark.instruments(any_of=["load-2", "load-1"])
            def test_two_loads(self, instruments):
                assert sorted(instruments) == ["load-1", "load-2", "scope", "supply"]

        @pytest.mark.instruments("load-1", "load-2", any_of="load-1")
        def test_none_left():
            pass

        def test_module_only(instruments):
            assert instruments.names == ("scope",) and len(instruments) == 1 and "scope" in instruments
        """
    )
    done = run("-q")
    done.assert_outcomes(passed=3, errors=1)
    done.stdout.fnmatch_lines(["test_markers_of_module_class_and_test_add_up.py:16: no instrument is left for any_of*"])


def test_words_for_several(pytester: pytest.Pytester, run: Run) -> None:
    pytester.makefile(".toml", bay='instruments = ["scope", "load-1", "load-2"]\n[tags]\nprecise = ["scope", "load-2"]')
    pytester.makepyfile(
        """
        import pytest

        @pytest.mark.instruments("2 of load-*", "scope")
        def test_two_of(instruments):
            assert instruments.names == ("scope", "load-1", "load-2")

        @pytest.mark.instruments("load-*")
        def test_like(instruments):
            # (another worker may be at the other one)
            assert instruments.names in (("load-1",), ("load-2",))

        @pytest.mark.instruments("tag:precise", "scope")
        def test_a_tag(instruments):
            assert instruments.names == ("scope", "load-2")

        @pytest.mark.instruments(any_of=["tag:precise", "load-1"])
        def test_any_of(instruments):
            assert len(instruments.names) == 1 and instruments.names[0] in ("scope", "load-1", "load-2")
        """
    )
    for words in ((), ("-n", "2")):
        run("-q", "--lab", "bay.toml", *words).assert_outcomes(passed=4)


WRONG = '''
import pytest

def test_right():
    pass

@pytest.mark.skipif(False, reason="")
@pytest.mark.instruments("scope",
                         "scop")
def test_wrong():
    "scop"
'''


@pytest.mark.parametrize("workers", [(), ("-n", "2")], ids=["alone", "workers"])
def test_an_unknown_instrument_is_an_error_at_its_place(pytester: pytest.Pytester, run: Run, workers: tuple[str, ...]) -> None:
    pytester.makefile(".toml", bay='instruments = ["scope", "supply"]')
    pytester.makepyfile(test_it=WRONG)
    done = run("--lab", "bay.toml", *workers)
    done.stdout.fnmatch_lines(["*ERROR collecting test_it.py*", "test_it.py:8: unknown instrument 'scop': there are scope, supply (did you mean 'scope'?)"])
    assert done.ret == pytest.ExitCode.INTERRUPTED or workers


def test_a_misspelt_marker_is_an_error(pytester: pytest.Pytester, run: Run) -> None:
    pytester.makepyfile(test_it='import pytest\n\n@pytest.mark.instrument("scope")\ndef test_it():\n    pass\n')
    told = "test_it.py:3: the marker is called instruments, and not instrument: this one would hold nothing"
    run().stdout.fnmatch_lines(["*ERROR collecting test_it.py*", told])


@pytest.mark.parametrize(
    "marker, told",
    [
        ('"a scope"', "test_it.py:3: 'a scope' can't be an instrument's name: at most 64 letters, digits, `-`, `_` and `.`, a letter first"),
        ('"Scope"', "test_it.py:3: unknown instrument 'Scope': there are scope, supply (did you mean 'scope'?)"),
        ('"3 of s*"', "test_it.py:3: 3 of s[*] are wanted; there are 2: scope, supply"),
        ('"tag:precise"', "test_it.py:3: precise is no tag; there are none"),
        ('any_of="2 of s*"', "test_it.py:3: any_of is one of several: write instruments('2 of s[*]')"),
        ("", 'test_it.py:3: instruments() names none: write instruments("scope") or instruments(any_of="load-[*]")'),
        ("3", "test_it.py:3: an instrument is named by a text, not by 3"),
        ('"scope", anyof="load-*"', "test_it.py:3: instruments() takes names and any_of=, not anyof="),
        ('any_of="oven-*"', "test_it.py:3: unknown instrument 'oven-[*]': there are scope, supply"),
    ],
)
def test_a_wrong_marker_is_an_error_at_its_place(pytester: pytest.Pytester, run: Run, marker: str, told: str) -> None:
    pytester.makefile(".toml", bay='instruments = ["scope", "supply"]')
    pytester.makepyfile(test_it=f"import pytest\n\n@pytest.mark.instruments({marker})\ndef test_it():\n    pass\n")
    run("--lab", "bay.toml").stdout.fnmatch_lines(["*ERROR collecting test_it.py*", told])


def test_none_is_left_for_a_pattern(pytester: pytest.Pytester, run: Run) -> None:
    pytester.makefile(".toml", bay='instruments = ["scope", "supply"]')
    pytester.makepyfile(test_it='import pytest\n\n@pytest.mark.instruments("scope", "supply", "s*")\ndef test_it():\n    pass\n')
    run("--lab", "bay.toml").stdout.fnmatch_lines(["test_it.py:3: no instrument is left for s[*]: there are scope, supply"])


@pytest.mark.parametrize(
    "given, told",
    [
        ("", 'test_it.py:3: holds() names none: write holds("scope") or holds(any_of="load-[*]")'),
        ('any_of="2 of s*"', "test_it.py:3: any_of is one of several: write holds('2 of s[*]')"),
    ],
)
def test_a_fixture_that_holds_in_a_wrong_way(pytester: pytest.Pytester, run: Run, given: str, told: str) -> None:
    fixture = f"import pytest, pytest_labrun\n\n@pytest.fixture\n@pytest_labrun.holds({given})\ndef powered(): pass\n"
    pytester.makepyfile(test_it=f"{fixture}def test_it(powered): pass\n")
    run().stdout.fnmatch_lines(["*ERROR collecting test_it.py*", told])


@pytest.mark.parametrize(
    "text, told",
    [
        (None, "ERROR: *bay.toml: No such file or directory"),
        ("instruments = [1 2]", "ERROR: *bay.toml: *line 1*"),
        ("bay = 1", 'ERROR: *bay.toml: a line `instruments = [[]"scope", "supply"[]]` is wanted'),
        ('instruments = [\n"scope",\n"an oven"]', "ERROR: *bay.toml:3: 'an oven' can't be an instrument's name*"),
        ('instruments = ["scope", "scope"]', "ERROR: *bay.toml:1: scope is there twice"),
        ('instruments = ["scope"]\ntags = 3', 'ERROR: *bay.toml: tags: a table of lists is wanted*'),
        ('instruments = ["scope"]\n[tags]\nx = ["lamp"]', "ERROR: *bay.toml: tags.x: lamp is none of the instruments"),
    ],
)
def test_a_wrong_bay(pytester: pytest.Pytester, run: Run, text: str, told: str) -> None:
    if text is not None:
        pytester.makefile(".toml", bay=text)
    pytester.makepyfile("def test_it(): pass")
    done = run("--lab", "bay.toml")
    assert done.ret == pytest.ExitCode.USAGE_ERROR
    done.stderr.fnmatch_lines([told])


def test_the_bay_of_the_ini_file_stands_beside_it(pytester: pytest.Pytester, run: Run) -> None:
    pytester.makeini("[pytest]\nlab_bay = bay.toml\nlab_timeout = soon\n")
    pytester.makefile(".toml", bay='instruments = ["scope"]\n[guests]\ncount = 3')
    pytester.makepyfile("import pytest\n@pytest.mark.instruments('supply')\ndef test_it(): pass")
    run("-o", "lab_timeout=5").stdout.fnmatch_lines(["*unknown instrument 'supply': there are scope"])
    run().stderr.fnmatch_lines(["ERROR: lab_timeout: 'soon' is no number of seconds"])


def test_strict_markers_know_it(pytester: pytest.Pytester, run: Run) -> None:
    pytester.makepyfile("import pytest\n@pytest.mark.instruments('supply')\ndef test_it(): pass")
    run("--strict-markers").assert_outcomes(passed=1)
    run("--markers").stdout.fnmatch_lines(["@pytest.mark.instruments(*"])
