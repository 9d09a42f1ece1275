"""Suites that are run by pytest with the plugin, in processes of their own, with instruments that refuse a second client."""

from __future__ import annotations

import json
import os
import signal
import sys
import tempfile
from pathlib import Path
from typing import Any, Callable, Iterator

import pytest

pytest_plugins = "pytester"

HERE = Path(__file__).resolve().parent
BINDINGS = HERE.parent.parent
BROKER = BINDINGS.parent / "examples" / "broker"
# (a shell that runs this in the background has it ignore interrupts, and so would what it starts)
signal.signal(signal.SIGINT, signal.default_int_handler)
sys.path[:0] = [str(BROKER), str(BINDINGS / "python")]

from instruments import Bay  # type: ignore[import]  # noqa: E402

NAMES = ["scope", "supply", "load-1", "load-2"]

# what each of these suites has: `talk`, a talk with each of the test's instruments
CONFTEST = f"""
    import contextlib, json, os, sys
    import pytest
    sys.path.insert(0, {str(BROKER)!r})
    from instruments import Talk
    PORTS = json.loads(os.environ["BAY_PORTS"])

    @pytest.fixture
    def talk(instruments):
        with contextlib.ExitStack() as stack:
            yield {{name: stack.enter_context(Talk(PORTS[name])) for name in instruments}}
"""

Run = Callable[..., pytest.RunResult]


@pytest.fixture
def bay(monkeypatch: pytest.MonkeyPatch) -> Iterator[Bay]:
    """The instruments. Behind the test: none of them had to refuse a client."""
    with Bay(NAMES) as bay:
        monkeypatch.setenv("BAY_PORTS", json.dumps(bay.ports))
        yield bay
    assert bay.refused == 0


@pytest.fixture
def run(pytester: pytest.Pytester, bay: Bay, monkeypatch: pytest.MonkeyPatch, tmp_path: Path) -> Iterator[Run]:
    """Runs pytest with the plugin in the folder of `pytester`. Behind the test: no run left a socket's folder."""
    monkeypatch.setenv("PYTHONPATH", os.pathsep.join([str(BINDINGS / "pytest"), str(BINDINGS / "python"), os.environ.get("PYTHONPATH", "")]))
    monkeypatch.delenv("PYTEST_XDIST_WORKER", raising=False)
    rooms = tempfile.TemporaryDirectory(prefix="t-")
    monkeypatch.setenv("TMPDIR", rooms.name)
    pytester.makeconftest(CONFTEST)

    def run(*words: Any) -> pytest.RunResult:
        return pytester.runpytest_subprocess("-p", "no:labrun", "-p", "pytest_labrun.plugin", "-p", "no:randomly", *words, timeout=300)

    with rooms:
        yield run
        assert [it for it in os.listdir(rooms.name) if it.startswith("labrun-")] == []
