"""Where a worker of pytest-xdist stops between two tests.

A worker runs a test only once it knows the one after it. So that this needn't be settled too early, each test that is sent is followed by a
pause, an item behind all tests of each worker: the worker stops there until it is told more."""

from __future__ import annotations

from typing import Any, Optional

import pytest
from _pytest.runner import CallInfo


class Pause(pytest.Item):
    """Where a worker waits for what it is told next. Until then the fixtures of the last test's class and module stay, since the next may
    use them."""

    last: Optional[pytest.Item] = None

    def runtest(self) -> None:
        pass

    def reportinfo(self) -> tuple[Any, Optional[int], str]:
        return self.path, None, "pause"

    def listchain(self) -> list[Any]:
        return self.last.listchain()[:-1] if self.last is not None else super().listchain()

    def after(self, item: pytest.Item) -> None:
        # (its name, too: what goes wrong in the tear-down of its module is told as an error of that test)
        self.last, self._nodeid = item, item.nodeid

    def tear_down(self, nextitem: Optional[pytest.Item]) -> None:
        """Tears down what the next test doesn't use."""
        state, ends = self.session._setupstate, (KeyboardInterrupt, pytest.exit.Exception)
        call = CallInfo.from_call(lambda: state.teardown_exact(nextitem), when="teardown", reraise=ends)
        if call.excinfo is not None and self.last is not None:
            report = pytest.TestReport.from_item_and_call(self.last, call)
            self.ihook.pytest_runtest_logreport(report=report)


class Pauses:
    """The plugin of a worker that is dealt its tests: it has one pause, whose number is the one behind all tests."""

    @pytest.hookimpl(tryfirst=True)
    def pytest_runtestloop(self, session: pytest.Session) -> None:
        self.pause: Pause = Pause.from_parent(session, name="pause")
        session.items.append(self.pause)

    @pytest.hookimpl(tryfirst=True)
    def pytest_runtest_protocol(self, item: pytest.Item, nextitem: Optional[pytest.Item]) -> Optional[bool]:
        if item is not self.pause:
            self.pause.after(item)
            return None
        self.pause.tear_down(nextitem)
        return True
