"""What pytest calls."""

from __future__ import annotations

import math
import os
from typing import Any, Generator, Iterator, Optional

import pytest

from . import seen
from .bay import BayFault, read_bay
from .desk import AloneDesk, Desk, SocketDesk
from .holding import Holding, Instruments, Lab
from .needs import Bay, Fault, named_by, wishes_of
from .past import Past

# the plugin that holds, by its name
HOLDING = "labrun-holding"

MARKER = "instruments(*names, any_of=()): the test holds these instruments while it runs, and one of any_of (names or patterns)"


def pytest_addoption(parser: pytest.Parser) -> None:
    group = parser.getgroup("labrun", "tests that share instruments")
    group.addoption("--lab", metavar="BAY", help="the bay's file (TOML), which says which instruments there are")
    group.addoption("--lab-broker", metavar="ADDRESS", help="hold instruments at this labrun-broker, which others use, too")
    group.addoption("--lab-timeout", metavar="SECONDS", type=float, help="a test that waits longer for its instruments fails, and says who holds them")
    group.addoption("--lab-gantt", metavar="FILE", help="draw who held what, as SVG")
    group.addoption("--lab-report", metavar="FILE.csv", help="write who held what, as a table (CSV)")
    parser.addini("lab_bay", "as --lab", default="")
    parser.addini("lab_broker", "as --lab-broker", default="")
    parser.addini("lab_timeout", "as --lab-timeout", default="")


def timeout_of(config: pytest.Config) -> Optional[float]:
    given: Optional[float] = config.getoption("lab_timeout")
    if given is None and config.getini("lab_timeout"):
        try:
            given = float(config.getini("lab_timeout"))
        except ValueError:
            raise pytest.UsageError(f"lab_timeout: {config.getini('lab_timeout')!r} is no number of seconds") from None
    if given is not None and not 0 <= given < math.inf:
        raise pytest.UsageError(f"lab_timeout: {given} is no number of seconds from 0 on")
    return given


def check_files(config: pytest.Config) -> None:
    """Whether the files can be written that are asked for."""
    for option in ("lab_gantt", "lab_report"):
        name = config.getoption(option)
        path = config.invocation_params.dir / (name or "")
        if name and (path.is_dir() or not os.access(path.parent, os.W_OK)):
            raise pytest.UsageError(f"--{option.replace('_', '-')} {name}: it can't be written there")
    report = config.getoption("lab_report")
    if report and not report.endswith(".csv"):
        raise pytest.UsageError(f"--lab-report {report}: a name that ends in .csv is wanted")


def broker_of(config: pytest.Config) -> Optional[str]:
    return config.getoption("lab_broker") or config.getini("lab_broker") or None


def bay_of(config: pytest.Config) -> Optional[Bay]:
    """The instruments that there are; None if nobody says: then those that markers name."""
    given, of_ini = config.getoption("lab"), config.getini("lab_bay")
    try:
        if given:
            return read_bay(config.invocation_params.dir / given)
        if of_ini:
            return read_bay((config.inipath.parent if config.inipath else config.rootpath) / of_ini)
    except BayFault as fault:
        raise pytest.UsageError(str(fault)) from None
    return None


def pytest_configure(config: pytest.Config) -> None:
    config.addinivalue_line("markers", MARKER)
    told: Optional[dict[str, Any]] = getattr(config, "workerinput", {}).get("labrun")
    timeout = timeout_of(config)
    if told is not None:
        config.pluginmanager.register(Runner(SocketDesk(told["path"], told["name"]), told["bay"], timeout), HOLDING)
        if told["deals"]:
            from .pauses import Pauses

            config.pluginmanager.register(Pauses(), "labrun-pauses")
        return
    bay = bay_of(config)
    has_workers = config.getoption("dist", "no") != "no" and not config.getoption("collectonly")
    check_files(config)
    if has_workers:
        from .controller import Controller

        config.pluginmanager.register(Controller(config, bay), "labrun-controller")
    elif broker_of(config) is not None and not config.getoption("collectonly"):
        from .controller import Alone

        config.pluginmanager.register(Alone(config, bay, timeout), HOLDING)
    else:
        config.pluginmanager.register(Single(config, bay, timeout), HOLDING)


class Runner:
    """In each process that runs tests."""

    def __init__(self, desk: Desk, bay: Optional[Bay], timeout: Optional[float]) -> None:
        self.bay = bay
        self.named: Bay = {}
        self.holding = Holding(desk, timeout)

    @pytest.hookimpl(hookwrapper=True)
    def pytest_make_collect_report(self, collector: pytest.Collector) -> Generator[None, Any, None]:
        """A wrong marker is an error of the file that it stands in."""
        outcome = yield
        report = outcome.get_result()
        for item in report.result:
            if isinstance(item, pytest.Item):
                try:
                    for wish in wishes_of(item):
                        wish.check(self.bay)
                except Fault as fault:
                    report.outcome, report.longrepr, report.result = "failed", str(fault), []
                    return

    @pytest.hookimpl(tryfirst=True)
    def pytest_collection_modifyitems(self, items: list[pytest.Item]) -> None:
        # (before any of them is left out)
        self.named = named_by(items)

    @pytest.hookimpl(tryfirst=True)
    def pytest_collection_finish(self, session: pytest.Session) -> None:
        self.holding.collected(session.items, self.named if self.bay is None else self.bay)

    @pytest.hookimpl(hookwrapper=True, tryfirst=True)
    def pytest_runtest_protocol(self, item: pytest.Item, nextitem: Optional[pytest.Item]) -> Generator[None, Any, None]:
        if not self.holding.knows(item):
            yield
            return
        self.holding.begins(item)
        outcome: Any = None
        try:
            outcome = yield
        finally:
            self.holding.ends(item, nextitem, outcome is None or outcome.excinfo is not None)

    @pytest.hookimpl(trylast=True)
    def pytest_sessionfinish(self) -> None:
        # (pytest tears down an interrupted test only here)
        self.holding.finishes()

    @pytest.hookimpl(tryfirst=True)
    def pytest_runtest_setup(self, item: pytest.Item) -> None:
        if self.holding.fault is not None:
            pytest.fail(self.holding.fault, pytrace=False)

    @pytest.hookimpl(trylast=True)
    def pytest_runtest_teardown(self, item: pytest.Item, nextitem: Optional[pytest.Item]) -> None:
        self.holding.tears_down(nextitem)

    @pytest.hookimpl(hookwrapper=True)
    def pytest_fixture_setup(self, fixturedef: Any, request: Any) -> Iterator[None]:
        self.holding.sets_up(fixturedef, request)
        yield

    def pytest_fixture_post_finalizer(self, fixturedef: Any) -> None:
        self.holding.is_torn_down(fixturedef)


class Single(Runner):
    """One process that runs all tests: nothing waits."""

    def __init__(self, config: pytest.Config, bay: Optional[Bay], timeout: Optional[float]) -> None:
        self.config, self.past = config, Past()
        super().__init__(AloneDesk(self.past), bay, timeout)

    @pytest.hookimpl(trylast=True)
    def pytest_sessionfinish(self) -> None:
        super().pytest_sessionfinish()
        seen.write(self.config, self.past)

    def pytest_terminal_summary(self, terminalreporter: Any) -> None:
        seen.tell_unwritten(terminalreporter, self.past)


# ---- fixtures


@pytest.fixture
def instruments(request: pytest.FixtureRequest) -> Instruments:
    """What the test holds: `names`, and for how many seconds it `waited`; `note(text)` writes a line to the report."""
    holding: Holding = request.config.pluginmanager.get_plugin(HOLDING).holding
    return Instruments(holding.desk, holding.names_of(request.node), holding.waited)


@pytest.fixture(scope="session")
def lab(request: pytest.FixtureRequest) -> Lab:
    """For fixtures of a wider scope: `lab.held` are the names of all that is held now."""
    return Lab(request.config.pluginmanager.get_plugin(HOLDING).holding)
