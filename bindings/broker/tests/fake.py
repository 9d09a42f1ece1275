"""A bay that does as it is told: what the page and the numbers stand on, without a bench."""

from __future__ import annotations

import asyncio
import time
from collections import deque
from typing import Any, AsyncIterator, Optional

from labrun_broker.sessions import recent_records

Record = dict[str, Any]


class Keeping:
    """Has what labrun_broker.keeping.Keeping shows to others. Who holds and who waits is said by the test, and no rule is kept."""

    def __init__(self, bay: dict[str, list[str]], name: str = "bay-3", now: Optional[float] = None, most: int = 1000) -> None:
        self.bay, self.name, self.now = bay, name, now
        self.history: deque[Record] = deque(maxlen=most)
        self.refusals = self.write_failures = self.urgent = 0
        self.disk, self.notice = "", ""
        self.state: Optional[str] = None
        self.since = self._t()
        self.instruments = list(dict.fromkeys(it for uses in bay.values() for it in uses))
        self.stations = {it: self._idle(it) for it in bay}
        self.numbers = dict.fromkeys(bay, 1)
        self.wakes: list[asyncio.Event] = []
        self.tell("opened", None, self.instruments)

    def _t(self) -> float:
        return time.time() if self.now is None else self.now

    def _idle(self, name: str) -> Record:
        state: Record = {"name": name, "state": "idle", "instruments": [], "since": self._t(), "by": None, "note": None}
        return {**state, "gone_since": None, "token": None, "waits_for": []}

    def tell(self, what: str, station: Optional[str], instruments: Any = (), text: str = "") -> None:
        of = self.stations[station] if station else {}
        number = self.numbers[station] if station else None
        record = {"t": self._t(), "what": what, "station": station, "session": number, "instruments": list(instruments)}
        self.history.append({**record, "by": of.get("by"), "text": text})
        for it in self.wakes:
            it.set()

    def ask(self, station: str, *instruments: str, by: Optional[str] = None) -> None:
        self.numbers[station] += 1
        self.stations[station] = {**self._idle(station), "state": "waiting", "instruments": list(instruments), "by": by}
        self.tell("asked", station, instruments)

    def hold(self, station: str, *instruments: str, by: Optional[str] = None) -> None:
        if self.stations[station]["state"] != "waiting":
            self.ask(station, *instruments, by=by)
        it = self.stations[station]
        it.update(state="holding", since=self._t(), waits_for=[])
        self.tell("held", station, it["instruments"])

    def untold(self, station: str) -> None:
        """It has its instruments, and the disk keeps it from them."""
        self.stations[station].update(state="waiting", untold=True)

    def note(self, station: str, text: str) -> None:
        self.stations[station]["note"] = text
        self.tell("note", station, text=text)

    def gone(self, station: str) -> None:
        self.stations[station].update(state="gone", gone_since=self._t())
        self.tell("gone", station, self.stations[station]["instruments"])

    def back(self, station: str) -> None:
        self.stations[station].update(state="holding", gone_since=None)
        self.tell("back", station, self.stations[station]["instruments"])

    def end(self, station: str, what: str = "let_go", text: str = "") -> None:
        self.tell(what, station, self.stations[station]["instruments"], text)
        self.stations[station] = self._idle(station)

    def _waits_for(self, it: Record) -> list[Record]:
        found = []
        for instrument in it["instruments"] if it["state"] == "waiting" and "untold" not in it else []:
            for other in self.stations.values():
                if other is not it and instrument in other["instruments"] and (other["state"] != "waiting" or other["since"] < it["since"]):
                    holds = other["state"] != "waiting" or "untold" in other
                    text = f"{instrument} is {'held by' if holds else 'kept for'} {other['name']}"
                    found.append({"instrument": instrument, "station": other["name"], "holds": holds, "since": other["since"], "text": text})
                    break
        return found

    def recent(self) -> list[Record]:
        return recent_records(self.state) if self.state else []

    def status(self) -> Record:
        stations = [{**it, "waits_for": self._waits_for(it)} for it in self.stations.values()]
        rows = []
        for name in self.instruments:
            holder = next((it for it in stations if name in it["instruments"] and (it["state"] in ("holding", "gone") or "untold" in it)), None)
            waiting = [it["name"] for it in stations if name in it["instruments"] and it["state"] == "waiting" and "untold" not in it]
            rows.append({"name": name, "holder": holder and holder["name"], "since": holder and holder["since"], "waiting": waiting})
        about: Record = {"bay": self.name, "at": self._t(), "since": self.since}
        return {**about, "instruments": rows, "stations": stations, "disk": self.disk}

    async def changes(self) -> AsyncIterator[None]:
        wake = asyncio.Event()
        self.wakes.append(wake)
        try:
            while True:
                await wake.wait()
                wake.clear()
                yield
        finally:
            self.wakes.remove(wake)
