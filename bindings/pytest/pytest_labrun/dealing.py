"""Which worker runs which test, under pytest-xdist: a worker that is idle gets a test whose instruments are free. Each test that is sent is
followed by a pause (pauses.py)."""

from __future__ import annotations

import threading
from collections import defaultdict, deque
from typing import Any, Callable, Iterable, Optional

import pytest
from xdist.scheduler import LoadScheduling  # type: ignore[import]

from .labs import Way
from .server import Dealt, Server, UnitTold

Ways = tuple[Way, ...]

# of tests that need no instrument
PLAIN: Ways = ((),)
_MOST_PLAIN = 50

# what part of a test's time its end may be away, and is waited for
_SOON = 0.15


class Undealt:
    """The units that no worker has yet, by what they need. Of those that need the same the longest goes first."""

    def __init__(self, units: Iterable[UnitTold] = (), weight: Callable[[UnitTold], float] = lambda unit: len(unit.tests)) -> None:
        self._weight = weight
        self._units: dict[Ways, deque[UnitTold]] = {}
        self._weights: defaultdict[Ways, float] = defaultdict(float)
        for unit in sorted(reversed(list(units)), key=weight):
            self.put_back(unit)

    def __bool__(self) -> bool:
        return bool(self._units)

    def put_back(self, unit: UnitTold) -> None:
        self._units.setdefault(unit.ways, deque()).appendleft(unit)
        self._weights[unit.ways] += self._weight(unit)

    def take(self, ways: Ways) -> UnitTold:
        units = self._units[ways]
        unit = units.popleft()
        self._weights[ways] -= self._weight(unit)
        if not units:
            del self._units[ways]
        return unit

    def take_plain(self, nodes: int) -> list[int]:
        """The tests that need no instrument go several at a time, fewer towards the end."""
        units = self._units.get(PLAIN, ())
        return [test for _ in range(max(1, min(_MOST_PLAIN, len(units) // (4 * nodes)))) for test in self.take(PLAIN).tests]

    def by_need(self) -> list[Ways]:
        """What they need; first what has the instruments that most of the others need."""
        load: defaultdict[str, float] = defaultdict(float)
        for ways in self._units:
            for name in (name for way in ways for name in way):
                load[name] += self._weights[ways] / len(ways)
        return sorted(self._units, key=lambda ways: -max((sum(load[name] for name in way) for way in ways), default=0))

    def first(self, used: set[str], soon: frozenset[str] = frozenset()) -> tuple[Optional[tuple[Ways, Way]], bool]:
        """What can be had while these instruments are in use, and the way in which it can. What comes before it, and lacks only what is free
        soon, keeps its instruments; and whether something does."""
        kept: set[str] = set()
        for ways in self.by_need():
            for way in ways:
                if used.isdisjoint(way) and kept.isdisjoint(way):
                    return (ways, way), bool(kept)
            kept.update(*(way for way in ways if soon.issuperset(used.intersection(way)) and kept.isdisjoint(way)))
        return None, bool(kept)


class LabScheduling(LoadScheduling):  # type: ignore[misc]
    """Where no test needs an instrument it is xdist's own `load`."""

    def __init__(self, config: pytest.Config, log: Any, server: Server, timeout: Optional[float]) -> None:
        super().__init__(config, log)
        self.server, self.timeout = server, timeout
        self._lock = threading.RLock()
        self.collection: Any = self.collection
        self._deals = False
        self._undealt = Undealt()
        # what each worker is at, and since when
        self._at: dict[Any, tuple[UnitTold, Way, float]] = {}
        # since when each idle worker is so
        self._idle: dict[Any, float] = {}

    # what xdist calls

    @property
    def tests_finished(self) -> bool:
        if not self._deals:
            return bool(super().tests_finished)
        with self._lock:
            return not self._undealt and not self._at

    def schedule(self) -> None:
        units = self.server.units or ()
        if self.collection is None and any(unit.ways != PLAIN for unit in units):
            if not self._check_nodes_have_same_collection():
                return
            self.collection = next(iter(self.node2collection.values()))
            self._deals, self._undealt = True, Undealt(units, self._weight)
            self.server.ticks.append(self.tick)
        if not self._deals:
            super().schedule()
            return
        with self._lock:
            for node in self.nodes:
                if node in self.node2collection and node not in self._at and node not in self._idle:
                    self._is_idle(node)
            self._deal()

    def mark_test_complete(self, node: Any, item_index: int, duration: float = 0) -> None:
        if not self._deals:
            super().mark_test_complete(node, item_index, duration)
            return
        with self._lock:
            # (a pause is none)
            if item_index in self.node2pending[node]:
                self.node2pending[node].remove(item_index)
                if not self.node2pending[node]:
                    del self._at[node]
                    self._is_idle(node)
                    self._deal()

    def mark_test_pending(self, item: str) -> None:
        if not self._deals:
            super().mark_test_pending(item)
            return
        with self._lock:
            test = self.collection.index(item)
            unit = next(unit for unit in self.server.units or () if test in unit.tests)
            self._undealt.put_back(UnitTold((test,), unit.ways))
            self._deal()

    def remove_node(self, node: Any) -> Optional[str]:
        if not self._deals:
            crashed: Optional[str] = super().remove_node(node)
            return crashed
        with self._lock:
            pending = self.node2pending.pop(node)
            self._idle.pop(node, None)
            if node not in self._at:
                return None
            unit, _, _ = self._at.pop(node)
            if pending[1:]:
                self._undealt.put_back(UnitTold(tuple(pending[1:]), unit.ways))
            self._deal()
            return str(self.collection[pending[0]])

    def check_schedule(self, node: Any, duration: float = 0) -> None:
        if not self._deals:
            super().check_schedule(node, duration)

    # its own

    def tick(self) -> None:
        """From time to time. A worker that has been idle for as long as a test may wait is sent one, and told there for whom it waits. The same
        at once where others than this run are at its instruments."""
        with self._lock:
            for node in list(self._idle):
                is_late = self.timeout is not None and self.server.past.now() - self._idle[node] >= self.timeout
                if is_late or self.server.lab.in_use():
                    found, _ = self._undealt.first(set() if is_late else self._used())
                    if found is not None:
                        self._send(node, *found)
            self._deal()

    def deal(self) -> None:
        with self._lock:
            self._deal()

    def _weight(self, unit: UnitTold) -> float:
        """How long it took in an earlier run, or as if each test took a second."""
        return self.server.past.times.known.get(self.collection[unit.tests[0]], float(len(unit.tests)))

    def _used(self) -> set[str]:
        return {name for _, way, _ in self._at.values() for name in way}

    def _soon(self) -> dict[str, float]:
        """The instruments of this run's tests that are likely to be free soon, each with in how many seconds that will be seen to be wrong."""
        past, found = self.server.past, dict[str, float]()
        for unit, way, since in self._at.values():
            took = past.times.of(self.collection[unit.tests[0]])
            left = None if took is None else took - (past.now() - since)
            if took is not None and left is not None and abs(left) <= _SOON * took:
                found.update(dict.fromkeys(way, left + _SOON * took))
        return found

    def _is_idle(self, node: Any) -> None:
        self._idle[node] = self.server.past.now()

    def _deal(self) -> None:
        """As many tests as can run now, but for those that would take what another gets soon that goes before them."""
        while self._idle and self._undealt:
            used, soon = self._used().union(self.server.lab.in_use()), self._soon()
            found, is_kept = self._undealt.first(used, frozenset(soon))
            if found is None:
                self.server.sees_others()
                if is_kept:
                    self.server.later(min(soon.values()) + 0.001, self.deal)
                return
            self._send(next(iter(self._idle)), *found)

    def _send(self, node: Any, ways: Ways, way: Way) -> None:
        since = self._idle.pop(node)
        if node.shutting_down:
            return
        unit = self._undealt.take(ways) if way else UnitTold(tuple(self._undealt.take_plain(len(self.nodes))), PLAIN)
        if way:
            self.server.dealt[node.gateway.id] = Dealt(since, way)
        try:
            node.send_runtest_some([*unit.tests, len(self.collection)])
        except OSError:  # it is down, and xdist doesn't know yet
            self._undealt.put_back(unit)
            return
        self._at[node] = unit, way, self.server.past.now()
        self.node2pending[node] = list(unit.tests)
