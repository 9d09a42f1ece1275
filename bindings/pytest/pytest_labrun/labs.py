"""What the tests' sessions are held at: a lab of the run's own, or a broker that others use, too."""

from __future__ import annotations

import contextlib
import importlib
import math
import os
import re
import threading
import time
from typing import Any, AsyncContextManager, AsyncIterator, Callable, Optional, Protocol, Sequence

import labrun
from labrun.machine import MOST_INSTRUMENTS

_LAG = 0.5  # seconds, by which what the broker tells may be late
_AGAIN = 0.5  # seconds, after which a broker that is gone is looked for
_NOTE = 500  # characters that it takes, if the bay says nothing else

Way = tuple[str, ...]
Taken = Callable[[Exception], None]


class LabFault(Exception):
    """There can be no such lab."""


class Lab(Protocol):
    """What the server asks of it, on its loop."""

    def open(self, instruments: Sequence[str]) -> None:
        """For workers of which each may use these."""

    def hold(self, test: str, ways: Sequence[Way], timeout: Optional[float], taken: Taken) -> AsyncContextManager[Any]:
        """Entered, it holds all instruments of one of the ways, which its `instruments` say. TimeoutError says who is at them. `taken` is called,
        on any thread, if the session is over before its end, but not by what a `note` or the end raises."""

    async def note(self, session: Any, text: str) -> None:
        """A line from the test, where the lab keeps such. What it raises is raised no more at the session's end."""

    def who(self, text: str) -> str:
        """A text of the lab with the tests' names, where it has none."""

    def in_use(self) -> dict[str, str]:
        """The instruments that others than this run hold, each with who. Any thread may ask."""

    def close(self, patience: float) -> None:
        """Nobody holds any more. A broker that doesn't answer is waited for so many seconds; what is held then is that of interrupted tests."""


def _asked(ways: Sequence[Way]) -> tuple[Way, dict[str, Any]]:
    return (ways[0], {}) if len(ways) == 1 else ((), {"any_of": list(ways)})


class OwnLab:
    """A lab of the run's own, at which each worker is a guest."""

    def __init__(self) -> None:
        self.lab: Optional[labrun.Lab] = None
        # whose each session is, from its asking on
        self._tests: dict[labrun.Held, str] = {}

    def open(self, instruments: Sequence[str]) -> None:
        if len(instruments) > MOST_INSTRUMENTS:
            raise LabFault(f"the tests use {len(instruments)} instruments; workers may share {MOST_INSTRUMENTS}")
        self.lab = labrun.Lab(instruments)

    @contextlib.asynccontextmanager
    async def hold(self, test: str, ways: Sequence[Way], timeout: Optional[float], taken: Taken) -> AsyncIterator[Any]:
        assert self.lab is not None
        names, more = _asked(ways)
        session = self.lab.hold(*names, timeout=timeout, **more)
        self._tests[session] = test
        try:
            async with session:
                yield session
        finally:
            del self._tests[session]

    async def note(self, session: Any, text: str) -> None:
        pass

    def who(self, text: str) -> str:
        tests = {session.number: test for session, test in self._tests.items()}
        return re.sub(r"\bsession (\d+) of a guest\b", lambda it: tests.get(int(it[1]), "a worker"), text)

    def in_use(self) -> dict[str, str]:
        return {}

    def close(self, patience: float) -> None:
        if self.lab is not None:
            self.lab.close()


class BrokerLab:
    """A labrun-broker at an address. It is the controller that holds there, for each worker."""

    def __init__(self, address: str) -> None:
        self.address = address
        try:
            self.client = importlib.import_module("labrun_broker").connect(address)
            # (which of somebody's runs it is)
            self.client.by = f"{self.client.by} in {os.path.basename(os.getcwd())}"[:64]
            self.bay = {it["name"]: tuple(it["tags"]) for it in self.client.status()["instruments"]}
        except ImportError as fault:
            raise LabFault(f"--lab-broker needs the package labrun_broker: {fault}") from None
        except (labrun.LabrunError, ValueError, OSError) as fault:
            raise LabFault(f"--lab-broker {address}: {fault}") from fault
        # the broker's stations by which this run holds, each with until when what is told of it is of this run
        self._own: dict[str, float] = {}
        self._holders: dict[str, str] = {}
        threading.Thread(target=self._watch, name="labrun-watch", daemon=True).start()

    def open(self, instruments: Sequence[str]) -> None:
        pass

    @contextlib.asynccontextmanager
    async def hold(self, test: str, ways: Sequence[Way], timeout: Optional[float], taken: Taken) -> AsyncIterator[Any]:
        names, more = _asked(ways)
        session = self.client.hold(*names, timeout=timeout, **more)
        session.on_taken = taken
        async with session:
            self._own[session.station] = math.inf
            try:
                await self._names(session, test)
                yield session
            finally:
                self._own[session.station] = time.monotonic() + _LAG

    async def note(self, session: Any, text: str) -> None:
        await session.note_async(text)

    def who(self, text: str) -> str:
        return text

    @staticmethod
    async def _names(session: Any, test: str) -> None:
        """A note of whose session it is. Of a name that is too long for a note its beginning and its end, which says which worker it is."""
        most = _NOTE
        while most > 4:
            try:
                await session.note_async(test if len(test) <= most else f"{test[: most // 2 - 1]}..{test[1 - (most - most // 2) :]}")
                return
            except ValueError:  # (the bay takes shorter ones, or none like this)
                most //= 2

    def in_use(self) -> dict[str, str]:
        now = time.monotonic()
        return {name: station for name, station in self._holders.items() if self._own.get(station, 0.0) < now}

    def close(self, patience: float) -> None:
        with contextlib.suppress(labrun.LabrunError, OSError):
            self.client.close(patience=patience)

    def _watch(self) -> None:
        """Looks who holds what, until this is closed."""
        while True:
            try:
                for bay in self.client.watch():
                    self._holders = {it["name"]: it["holder"] for it in bay["instruments"] if it["holder"] is not None}
            except labrun.Closed:
                return
            except Exception:  # the broker is gone, and may come back; each session notices that by itself
                pass
            self._holders = {}
            time.sleep(_AGAIN)
