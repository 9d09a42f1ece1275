"""Numbers for Prometheus: sessions, waits, who holds and who is gone."""

from __future__ import annotations

from collections import defaultdict
from typing import Any, Iterator, Optional

from .serving import HEADERS, Lacking, Served, runs_beside, serve, web
from .sessions import TRIED, Past, Record, batches, first

try:
    from prometheus_client import CollectorRegistry, Counter, Histogram, generate_latest
    from prometheus_client.core import CounterMetricFamily, GaugeMetricFamily, Metric
    from prometheus_client.exposition import CONTENT_TYPE_LATEST
    from prometheus_client.registry import Collector
except ImportError:
    raise Lacking("the numbers need prometheus_client (Debian: python3-prometheus-client)") from None

BUCKETS = (0.001, 0.005, 0.02, 0.1, 0.5, 2, 10, 60, 300, 1800, 7200)
COUNTS = {
    "refusals": "Wishes that were refused: a wrong name, an instrument that the client may not use, a ticket that no session has",
    "urgent": "Sessions that were asked for as urgent",
    "write_failures": "Writes to the journal that failed: the disk is full, or broken",
}
STATES = {"holding": "Stations that hold instruments", "waiting": "Stations that wait", "gone": "Stations that hold, but whose client is gone"}


def bays_of(keeping: Any) -> dict[str, Any]:
    """Each of several bays by its name, which is a label then; one that is alone by none."""
    return dict(getattr(keeping, "of", None) or {"": keeping})


class Now(Collector):
    """What is now, when it is asked for."""

    def __init__(self, keeping: Any) -> None:
        self._keeping = keeping

    def collect(self) -> Iterator[Metric]:
        its = bays_of(self._keeping)
        names = ["bay"] if any(its) else []
        for name, text in COUNTS.items():
            family = CounterMetricFamily(f"labrun_{name}", text, labels=names)
            for bay, keeping in its.items():
                family.add_metric([bay] if names else [], getattr(keeping, name))
            if names and name == "refusals":
                # (of wishes that no bay has)
                family.add_metric([""], self._keeping.refusals - sum(it.refusals for it in its.values()))
            yield family
        states = {bay: [it["state"] for it in keeping.status()["stations"]] for bay, keeping in its.items()}
        for state, text in STATES.items():
            gauge = GaugeMetricFamily(f"labrun_stations_{state}", text, labels=names)
            for bay, of in states.items():
                gauge.add_metric([bay] if names else [], of.count(state))
            yield gauge


class Metrics:
    def __init__(self, keeping: Any) -> None:
        self._keeping, self._pasts = keeping, defaultdict[str, Past](Past)
        self._more = ["bay"] if any(bays_of(keeping)) else []
        self._registry = of = CollectorRegistry()
        self._sessions = Counter("labrun_sessions", "Sessions that are over, by how they ended", [*self._more, "station", "end"], registry=of)
        self._waits = Histogram("labrun_wait_seconds", "How long sessions waited until they held", [*self._more, "instrument"], buckets=BUCKETS, registry=of)
        of.register(Now(keeping))

    def add_to(self, app: web.Application) -> None:
        app.router.add_get("/metrics", self._answer)
        runs_beside(app, self._count)

    async def _count(self) -> None:
        for record in self._keeping.recent():
            # (sessions that were held before the broker began: they end now)
            self._pasts[record.get("bay", "")].take(record)
        for past in self._pasts.values():
            past.ended.clear()
        async for batch in batches(self._keeping):
            for record in batch:
                self._take(record)

    def _take(self, record: Record) -> None:
        past = self._pasts[record.get("bay", "")]
        over = past.take(record)
        session, bay = past.now.get(past.key_of(record)), [record.get("bay", "")] if self._more else []
        if over is not None and over.how != TRIED:
            self._sessions.labels(*bay, over.station, over.how).inc()
        if record["what"] == "held" and session is not None and session.held == record["t"]:
            for it in session.instruments:
                self._waits.labels(*bay, it).observe(session.waited(first(session.held, 0.0)))
        past.ended.clear()

    async def _answer(self, _: web.Request) -> web.Response:
        return web.Response(body=generate_latest(self._registry), headers={**HEADERS, "Content-Type": CONTENT_TYPE_LATEST})


async def serve_metrics(keeping: Any, address: str, group: Optional[str] = None) -> Served:
    """The numbers alone, at an address of their own."""
    app = web.Application()
    Metrics(keeping).add_to(app)
    return await serve(app, address, group)
