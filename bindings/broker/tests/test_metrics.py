"""Numbers for Prometheus, beside sums that are reckoned here."""

from __future__ import annotations

import json
import tempfile
import time
import unittest
from types import SimpleNamespace
from typing import Any

from .brokers import until
from .fake import Keeping
from .webs import Web

try:
    from labrun_broker.metrics import Now, serve_metrics
    from labrun_broker.page import serve_page
except ImportError as lacking:
    raise unittest.SkipTest(str(lacking)) from None

BAY = {"board": ["scope", "supply"], "radio": ["scope"]}


def day(it: Keeping) -> None:
    """board: two done, after waits of 0 and 3 s; one that failed after 30 s. radio: gave up, and one that holds and is gone; board waits."""
    for wait, end in ((0, "let_go"), (3, "let_go"), (30, "failed")):
        it.ask("board", "scope", "supply")
        it.now += wait
        it.hold("board")
        it.end("board", end)
    it.ask("radio", "scope")
    it.end("radio", "gave_up")
    it.hold("radio", "scope")
    it.gone("radio")
    it.ask("board", "scope")
    it.refusals, it.write_failures, it.urgent = 4, 3, 2


class Numbers(unittest.TestCase):
    def read(self, serve: Any) -> dict[str, float]:
        web = Web(serve, lambda: Keeping(BAY, now=time.time()))
        try:
            web.do(day, web.keeping)
            until(lambda: 'end="gave up"' in web.get("/metrics")[2], "all is counted")
            status, heads, text = web.get("/metrics")
            self.assertEqual((status, heads["Content-Type"].split(";")[0]), (200, "text/plain"))
            self.assertEqual(web.get("/metrics")[2].count("labrun_refusals_total 4.0"), 1)
        finally:
            web.close()
        lines = [it.rsplit(" ", 1) for it in text.splitlines() if not it.startswith("#") and "_created" not in it]
        return {name: float(value) for name, value in lines}

    def test_alone_and_beside_the_page(self) -> None:
        for serve in (serve_metrics, serve_page):
            numbers = self.read(serve)
            waits = {name: value for name, value in numbers.items() if name.startswith("labrun_wait") and 'instrument="supply"' in name}
            rest = {name: value for name, value in numbers.items() if not name.startswith("labrun_wait")}
            expected = {
                'labrun_sessions_total{end="done",station="board"}': 2, 'labrun_sessions_total{end="failed",station="board"}': 1,
                'labrun_sessions_total{end="gave up",station="radio"}': 1, "labrun_refusals_total": 4, "labrun_write_failures_total": 3, "labrun_urgent_total": 2,
                "labrun_stations_holding": 0, "labrun_stations_waiting": 1, "labrun_stations_gone": 1,
            }  # fmt: skip
            self.assertEqual(rest, expected)
            bounds = {"0.001": 1, "2.0": 1, "10.0": 2, "60.0": 3, "+Inf": 3}
            self.assertEqual({it: waits[f'labrun_wait_seconds_bucket{{instrument="supply",le="{it}"}}'] for it in bounds}, bounds)
            self.assertEqual(waits['labrun_wait_seconds_count{instrument="supply"}'], 3)
            self.assertAlmostEqual(waits['labrun_wait_seconds_sum{instrument="supply"}'], 33, places=3)
            self.assertEqual(numbers['labrun_wait_seconds_count{instrument="scope"}'], 4)

    def test_what_no_bay_has_is_counted(self) -> None:
        """Of several bays, by a label that is empty, so that their sum is that of the lab."""
        its = {"north": Keeping(BAY), "south": Keeping({"heat": ["oven"]})}
        its["north"].refusals, its["south"].refusals = 2, 1
        found = next(it for it in Now(SimpleNamespace(of=its, refusals=7)).collect() if it.name == "labrun_refusals")
        self.assertEqual({it.labels["bay"]: it.value for it in found.samples}, {"north": 2, "south": 1, "": 4})

    def test_a_session_that_began_before_the_broker_is_counted(self) -> None:
        held = {"t": time.time() - 9, "what": "held", "station": "board", "session": 1, "instruments": ["scope"], "by": None, "text": ""}
        with tempfile.TemporaryDirectory() as folder:
            with open(f"{folder}/records-1.jsonl", "w", encoding="utf-8") as file:
                file.write(json.dumps({**held, "station": "radio"}) + "\n" + json.dumps({**held, "what": "let_go", "station": "radio"}) + "\n")
                file.write(json.dumps(held) + "\n")

            def new() -> Keeping:
                it = Keeping(BAY)
                it.state = folder
                return it

            web = Web(serve_metrics, new)
            try:
                web.do(web.keeping.end, "board", "taken")
                until(lambda: "labrun_sessions_total{" in web.get("/metrics")[2], "it is counted")
                lines = [it for it in web.get("/metrics")[2].splitlines() if it.startswith("labrun_sessions_total")]
            finally:
                web.close()
        self.assertEqual(lines, ['labrun_sessions_total{end="taken away",station="board"} 1.0'])


if __name__ == "__main__":
    unittest.main()
