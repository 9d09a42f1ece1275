"""Numbers of guards for Prometheus."""

from __future__ import annotations

from typing import TYPE_CHECKING, Callable, Iterator, Sequence

from .serving import HEADERS, Lacking, Served, serve, web

try:
    from prometheus_client import CollectorRegistry, generate_latest
    from prometheus_client.core import CounterMetricFamily, GaugeMetricFamily, Metric
    from prometheus_client.exposition import CONTENT_TYPE_LATEST
    from prometheus_client.registry import Collector
except ImportError:
    raise Lacking("the numbers need prometheus_client (Debian: python3-prometheus-client)") from None

if TYPE_CHECKING:
    from .guard import Guard

COUNTS: dict[str, tuple[str, Callable[[Guard], int]]] = {
    "connections": ("Connections that were let through to the instrument", lambda it: it.opened),
    "cuts": ("Connections that were cut because their session had ended", lambda it: it.cuts),
    "refusals": ("Connections that weren't let through", lambda it: it.refusals),
    "sent_bytes": ("Bytes from clients to the instrument", lambda it: it.sent + sum(one.caller.came for one in it.through)),
    "received_bytes": ("Bytes from the instrument to clients", lambda it: it.received + sum(one.there.came for one in it.through)),
}


class Now(Collector):
    """What is now, when it is asked for."""

    def __init__(self, guards: Sequence[Guard]) -> None:
        self._guards = guards

    def collect(self) -> Iterator[Metric]:
        for name, (text, count) in COUNTS.items():
            counter = CounterMetricFamily(f"labrun_guard_{name}", text, labels=["instrument"])
            for it in self._guards:
                counter.add_metric([it.way.instrument], count(it))
            yield counter
        now = GaugeMetricFamily("labrun_guard_open", "Connections that are open", labels=["instrument"])
        for it in self._guards:
            now.add_metric([it.way.instrument], len(it.through))
        yield now
        yield GaugeMetricFamily("labrun_guard_broker", "Whether the broker is there: 1 or 0", value=int(all(it.is_told for it in self._guards)))


async def serve_metrics(guards: Sequence[Guard], address: str) -> Served:
    registry = CollectorRegistry()
    registry.register(Now(guards))

    async def answer(_: web.Request) -> web.Response:
        return web.Response(body=generate_latest(registry), headers={**HEADERS, "Content-Type": CONTENT_TYPE_LATEST})

    app = web.Application()
    app.router.add_get("/metrics", answer)
    return await serve(app, address)
