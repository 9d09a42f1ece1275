"""Starts the bay, once for all workers, and gives each test a talk with each of its instruments."""

from __future__ import annotations

import contextlib
import json
import os
import sys
import threading
from pathlib import Path
from typing import Any, Iterator

import pytest

sys.path.insert(0, str(Path(__file__).parent))
from simulated import Bay  # noqa: E402
from talks import talk  # noqa: E402

PORTS = "PYTEST_BAY_PORTS"


def pytest_configure(config: pytest.Config) -> None:
    """(In the process that starts the workers, or runs all tests. A lab's real instruments are there already.)"""
    if not hasattr(config, "workerinput"):
        config.pluginmanager.register(Simulation(), "bay")


class Simulation:
    def __init__(self) -> None:
        self.bay = Bay(["scope", "supply", "meter", "load-1", "load-2"])
        os.environ[PORTS] = json.dumps({it.name: it.port for it in self.bay.instruments})
        self.is_over = threading.Event()
        self.thread = threading.Thread(target=self.bay.serve, args=(self.is_over.is_set,), daemon=True)
        self.thread.start()

    def pytest_sessionfinish(self, session: pytest.Session) -> None:
        if any(it.refused for it in self.bay.instruments):
            session.exitstatus = pytest.ExitCode.TESTS_FAILED

    def pytest_terminal_summary(self, terminalreporter: Any) -> None:
        talks, refused = (sum(getattr(it, what) for it in self.bay.instruments) for what in ("talks", "refused"))
        terminalreporter.write_line(f"the instruments talked {talks} times, and refused {refused} clients")

    def pytest_unconfigure(self) -> None:
        self.is_over.set()


@pytest.fixture
def bench(instruments: Any) -> Iterator[Any]:
    """`bench["scope"]` is a talk with the scope, if the test names it. Each begins reset."""
    ports = json.loads(os.environ[PORTS])
    with contextlib.ExitStack() as stack:
        talks = {name: stack.enter_context(contextlib.closing(talk(ports[name]))) for name in instruments}
        for name, one in talks.items():
            one.write("*RST")
            assert one.query("*IDN?") == f"LABRUN,{name},0,1"
        yield talks
