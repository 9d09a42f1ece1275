"""The plugin that pytest finds by itself, and that somebody names besides."""

import os
import sys
from pathlib import Path

import pytest

from .conftest import BINDINGS


@pytest.mark.parametrize("words", [(), ("-p", "pytest_labrun.plugin"), ("-p", "no:labrun", "-p", "pytest_labrun.plugin")])
def test_named_twice(pytester: pytest.Pytester, tmp_path: Path, monkeypatch: pytest.MonkeyPatch, words: tuple[str, ...]) -> None:
    info = tmp_path / "site" / "pytest_labrun-1.0.0.dist-info"
    info.mkdir(parents=True)
    (info / "METADATA").write_text("Metadata-Version: 2.1\nName: pytest-labrun\nVersion: 1.0.0\n")
    text = (BINDINGS / "pytest" / "pyproject.toml").read_text()
    entry = text.partition('labrun = "')[2].partition('"')[0]
    (info / "entry_points.txt").write_text(f"[pytest11]\nlabrun = {entry}\n")
    its = [str(info.parent), str(BINDINGS / "pytest"), str(BINDINGS / "python"), os.environ.get("PYTHONPATH", "")]
    monkeypatch.setenv("PYTHONPATH", os.pathsep.join(its))
    monkeypatch.delenv("PYTEST_DISABLE_PLUGIN_AUTOLOAD", raising=False)
    pytester.makepyfile("import pytest\n@pytest.mark.instruments('scope')\ndef test_it(instruments):\n    assert instruments.names == ('scope',)\n")
    ran = pytester.run(sys.executable, "-m", "pytest", "--strict-markers", *words, timeout=300)
    ran.assert_outcomes(passed=1)
