"""In a process that runs tests: each holds its instruments before its set-up, and lets go behind its tear-down."""

from __future__ import annotations

import warnings
from typing import Any, Optional, Sequence

import pytest

from .desk import PATIENCE, Desk, NotHeld
from .needs import Bay, Need, Unit, chosen_for, held_by, units_of, uses


class Instruments:
    """What the fixture `instruments` gives: `names` of those that the test holds, in the order of its markers, those that it got by any_of
    last; and for how many seconds it `waited` for them."""

    def __init__(self, desk: Desk, names: tuple[str, ...], waited: float) -> None:
        self.names, self.waited, self._desk = names, waited, desk

    def note(self, text: object) -> None:
        """A line for the report, at this test's session, and for the records of a broker. It raises what that says if it doesn't take it, as
        labrun_broker.BadWish of one that is too long."""
        __tracebackhide__ = True
        why = self._desk.note(str(text))
        if why is not None:
            warnings.warn(pytest.PytestWarning(f"this note is in no report, because {why}: {str(text)!r}"), stacklevel=2)

    def __iter__(self) -> Any:
        return iter(self.names)

    def __len__(self) -> int:
        return len(self.names)

    def __getitem__(self, at: int) -> str:
        return self.names[at]

    def __contains__(self, name: object) -> bool:
        return name in self.names


class Lab:
    """What the fixture `lab` gives, for fixtures of a wider scope: the names of all that is `held` now."""

    def __init__(self, holding: Holding) -> None:
        self._holding = holding

    @property
    def held(self) -> tuple[str, ...]:
        return self._holding.way


class Holding:
    """The session of a process: of the unit that its test belongs to."""

    def __init__(self, desk: Desk, timeout: Optional[float]) -> None:
        self.desk, self.timeout = desk, timeout
        self.way: tuple[str, ...] = ()
        self.waited = 0.0
        self.fault: Optional[str] = None
        self._units: dict[pytest.Item, tuple[Unit, Need]] = {}
        self._unit: Optional[Unit] = None
        self._interrupted: Optional[pytest.Item] = None
        # fixtures that hold for several tests, and are set up: each with the request by which it was
        self._wide: dict[Any, Any] = {}

    def collected(self, items: Sequence[pytest.Item], bay: Bay) -> None:
        units = units_of(items, bay)
        for unit in units:
            for test, need in zip(unit.tests, unit.needs):
                self._units[items[test]] = unit, need
        self.desk.collected([(unit.tests, unit.ways) for unit in units])

    def knows(self, item: pytest.Item) -> bool:
        """(A pause of the dealing is no test.)"""
        return item in self._units

    def begins(self, item: pytest.Item) -> None:
        """Waits until the test's unit holds. If it can't, the test's set-up says why."""
        (unit, need), self.fault, self.waited = self._units[item], None, 0.0
        if self._unit is not unit:
            self.lets_go(item)
        if unit.fault is not None:
            self.fault = unit.fault
        elif need and self._unit is None:
            try:
                self.way, self.waited = self.desk.hold(item.nodeid, unit.ways, self.timeout)
                self._unit = unit
            except NotHeld as why:
                self.fault = str(why)
        if need:
            item.user_properties.append(("lab_waited", round(self.waited, 3)))

    def ends(self, item: pytest.Item, nextitem: Optional[pytest.Item], is_interrupted: bool) -> None:
        """Behind all of the test's reports: lets go, unless the next test is of its unit, or the tear-down is still to come."""
        if is_interrupted:
            self._interrupted = item
        elif self._is_over(nextitem):
            self.lets_go(item)

    def finishes(self) -> None:
        """Behind all tear-downs of the run: lets go what a test held that was interrupted. Nobody is to wait long for that."""
        if self._interrupted is not None:
            self.lets_go(self._interrupted, PATIENCE)

    def tears_down(self, nextitem: Optional[pytest.Item]) -> None:
        """The end of the test's tear-down: fixtures that hold are torn down with the last test of their unit, not with its module."""
        if self._is_over(nextitem):
            self._finish_wide()

    def lets_go(self, item: pytest.Item, within: Optional[float] = None) -> None:
        if self._unit is None:
            return
        try:
            # (they are torn down already, but for a fault in another's tear-down)
            self._finish_wide()
        except Exception as fault:
            item.warn(pytest.PytestWarning(f"in the tear-down of a fixture that holds instruments: {fault!r}"))
        self._unit, self.way = None, ()
        wrong = self.desk.let_go(within)
        if wrong is not None:
            item.warn(pytest.PytestWarning(f"its instruments were no longer held at its end: {wrong}"))

    def names_of(self, item: pytest.Item) -> tuple[str, ...]:
        unit, need = self._units.get(item, (Unit([]), Need()))
        return chosen_for(need, self.way) if self._unit is unit else ()

    def sets_up(self, fixture: Any, request: Any) -> None:
        """A fixture that holds is set up: what it holds has to be held by then."""
        wish = held_by(fixture)
        if wish is None:
            return
        has_choice = bool(wish.picks or wish.any_of)
        if not set(wish.names) <= set(self.way) or has_choice and not uses(request._pyfuncitem, fixture):
            told = f"the fixture {fixture.argname} holds {wish}: a test that uses it has to name it as an argument, or by usefixtures"
            pytest.fail(f"{wish.where(None)}: {told}", pytrace=False)
        if fixture.scope != "function":
            self._wide[fixture] = request

    def is_torn_down(self, fixture: Any) -> None:
        self._wide.pop(fixture, None)

    def _is_over(self, nextitem: Optional[pytest.Item]) -> bool:
        return nextitem is None or nextitem not in self._units or self._units[nextitem][0] is not self._unit

    def _finish_wide(self) -> None:
        while self._wide:
            fixture, request = self._wide.popitem()
            fixture.finish(request)
