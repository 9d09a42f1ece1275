"""The process that has the lab: the controller of xdist's workers, or one that runs tests alone and holds at a broker."""

from __future__ import annotations

from typing import Any, Optional, Sequence

import pytest

from . import seen
from .desk import SocketDesk
from .labs import BrokerLab, Lab, LabFault, OwnLab
from .needs import Bay
from .past import ALONE, Past
from .plugin import Runner, broker_of, timeout_of
from .server import Server

# where pytest's cache has them
_TIMES = "labrun/times"


def _server(config: pytest.Config, past: Past) -> Server:
    address = broker_of(config)

    def make() -> Lab:
        if address is None:
            return OwnLab()
        return BrokerLab(address)

    return Server(make, past)


def _started(server: Server) -> None:
    try:
        server.start()
    except (LabFault, OSError) as fault:
        raise pytest.UsageError(str(fault)) from None


def _times_of(config: pytest.Config) -> dict[str, float]:
    """How long sessions took in earlier runs, as pytest's cache has it."""
    cache = getattr(config, "cache", None)
    found = cache.get(_TIMES, {}) if cache is not None else {}
    return {test: took for test, took in found.items() if isinstance(took, float)} if isinstance(found, dict) else {}


class Controller:
    """Of a run by xdist."""

    def __init__(self, config: pytest.Config, bay: Optional[Bay]) -> None:
        self.config, self.bay = config, bay
        self.past = Past(_times_of(config))
        self.server = _server(config, self.past)

    @pytest.hookimpl(tryfirst=True)
    def pytest_sessionstart(self) -> None:
        _started(self.server)
        if self.bay is None and isinstance(self.server.lab, BrokerLab):
            self.bay = self.server.lab.bay

    @pytest.hookimpl(optionalhook=True)
    def pytest_configure_node(self, node: Any) -> None:
        if not node.gateway.spec.popen:
            raise pytest.UsageError(f"{node.gateway.spec}: workers on other machines share instruments by --lab-broker, run there")
        deals = self.config.getoption("dist") == "load"
        node.workerinput["labrun"] = {"path": self.server.path, "name": node.gateway.id, "bay": self.bay, "deals": deals}

    @pytest.hookimpl(optionalhook=True)
    def pytest_xdist_make_scheduler(self, config: pytest.Config, log: Any) -> Any:
        if config.getoption("dist") != "load":
            return None
        from .dealing import LabScheduling

        return LabScheduling(config, log, self.server, timeout_of(config))

    @pytest.hookimpl(optionalhook=True)
    def pytest_xdist_node_collection_finished(self, node: Any, ids: Sequence[str]) -> None:
        if self.server.fault is not None:
            raise pytest.UsageError(self.server.fault)

    @pytest.hookimpl(trylast=True)
    def pytest_sessionfinish(self) -> None:
        self.server.stop()
        cache = getattr(self.config, "cache", None)
        if cache is not None and self.past.times.known:
            with seen.writes(self.past, f"{_TIMES} in pytest's cache"):
                cache.set(_TIMES, self.past.times.known)
        seen.write(self.config, self.past)

    def pytest_terminal_summary(self, terminalreporter: Any) -> None:
        seen.tell(terminalreporter, self.past)
        # (a worker's warning isn't told once the run is interrupted)
        for why in dict.fromkeys(self.server.unheard.values()):
            terminalreporter.write_line(f"instruments of an interrupted test: {why}")

    def pytest_unconfigure(self) -> None:
        self.server.stop()


class Alone(Runner):
    """One process that runs all tests, and holds at a broker."""

    def __init__(self, config: pytest.Config, bay: Optional[Bay], timeout: Optional[float]) -> None:
        self.config, self.past = config, Past()
        self.server = _server(config, self.past)
        _started(self.server)
        assert isinstance(self.server.lab, BrokerLab)
        super().__init__(SocketDesk(self.server.path, ALONE), self.server.lab.bay if bay is None else bay, timeout)

    @pytest.hookimpl(trylast=True)
    def pytest_sessionfinish(self) -> None:
        super().pytest_sessionfinish()
        self.server.stop()
        seen.write(self.config, self.past)

    def pytest_terminal_summary(self, terminalreporter: Any) -> None:
        seen.tell(terminalreporter, self.past)

    def pytest_unconfigure(self) -> None:
        self.server.stop()
