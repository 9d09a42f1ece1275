"""The page on the wall: who holds what and who waits, live. It only shows; nothing can be changed by it.

One task reads the records, however many look. Each browser is told by server-sent events, a few times a second at most."""

from __future__ import annotations

import asyncio
import base64
import contextlib
import hashlib
import json
import re
import time
from collections import defaultdict, deque
from pathlib import Path
from typing import Any, Optional

from .serving import HEADERS, SLOW, Served, runs_beside, serve, web
from .sessions import TRIED, Past, Record, Session, batches

PACE = 0.25  # seconds between two messages to a browser, at least
BEAT = 5.0  # and at most, so that it sees when the broker is gone
HOURS = 12  # of the picture
MOST_ENDED, MOST_RECORDS, MOST_NOTES = 4000, 60, 4  # (one that notes each second drives nothing else out)


class Watch:
    """What a browser is told: the sessions that ended, the last records, and the status. Each has a number, so that it is told once."""

    def __init__(self, keeping: Any) -> None:
        self._keeping, self._pasts = keeping, defaultdict[str, Past](Past)
        self._ended: deque[tuple[int, Record]] = deque(maxlen=MOST_ENDED)
        self._records: deque[tuple[int, Record]] = deque(maxlen=MOST_RECORDS)
        self._notes: deque[tuple[int, Record]] = deque(maxlen=MOST_NOTES)
        self._status: tuple[int, float, Record] = (-1, 0.0, {})
        self.number = 0
        self._changed = asyncio.Event()

    async def run(self) -> None:
        read = defaultdict[str, float](float)
        for record in self._keeping.recent():
            self._add(record)
            read[record.get("bay", "")] = record["t"]
        async for batch in batches(self._keeping):
            # (what was read back stands among the first, too)
            for record in batch:
                if record["t"] > read[record.get("bay", "")]:
                    self._add(record)
            read.clear()
            self.number += 1
            self._changed.set()
            self._changed = asyncio.Event()

    def _add(self, record: Record) -> None:
        self.number += 1
        (self._notes if record["what"] == "note" else self._records).append((self.number, record))
        past = self._pasts[record.get("bay", "")]
        over = past.take(record)
        if over is not None and over.how != TRIED:
            self._ended.append((self.number, shown(over)))
        past.ended.clear()

    async def newer_than(self, seen: int) -> None:
        """Waits for a change, but not for longer than a beat."""
        if self.number > seen:
            return
        with contextlib.suppress(TimeoutError):
            async with asyncio.timeout(BEAT):
                await self._changed.wait()

    def news(self, seen: int) -> Record:
        """What is new since a number: all, if it is 0."""
        oldest = time.time() - HOURS * 3600
        ended = [it for number, it in behind(self._ended, seen) if it["ended"] >= oldest]
        records = [it for _, it in sorted(behind(self._records, seen) + behind(self._notes, seen), key=lambda it: it[0])]
        return {"status": self._status_now(), "ended": ended, "records": records, "all": not seen}

    def _status_now(self) -> Record:
        number, at, status = self._status
        now = time.monotonic()
        if number != self.number or now > at + 1:
            status = {**self._keeping.status(), "notice": self._keeping.notice}
            self._status = (self.number, now, status)
        return status


def behind(numbered: deque[tuple[int, Record]], seen: int) -> list[tuple[int, Record]]:
    found = []
    for it in reversed(numbered):
        if it[0] <= seen:
            break
        found.append(it)
    return found[::-1]


def shown(it: Session) -> Record:
    """A session that is over, as the picture draws it."""
    about = {"station": it.station, "instruments": it.instruments, "how": it.how}
    return {**about, "asked": it.asked, "held": it.held, "ended": it.ended, "gone": [t for t, _ in it.gone]}


def policy(text: str) -> str:
    """Only the style and the script that stand in the page, by their sums, and only this server."""
    sums = {}
    for part in ("style", "script"):
        found = re.search(f"<{part}>(.*?)</{part}>", text, re.S)
        digest = hashlib.sha256(found[1].encode() if found else b"").digest()
        sums[part] = f"{part}-src 'sha256-{base64.b64encode(digest).decode()}'"
    rest = "connect-src 'self'; img-src data:; base-uri 'none'; form-action 'none'; frame-ancestors 'none'"
    return f"default-src 'none'; {sums['style']}; {sums['script']}; {rest}"


class Page:
    """Answers / with the page, /events with what it shows, and /status with the same once."""

    def __init__(self, keeping: Any) -> None:
        self._watch = Watch(keeping)
        text, style, script = (Path(__file__).with_name(f"page.{it}").read_text(encoding="utf-8") for it in ("html", "css", "js"))
        self._text = text.replace("<style>", f"<style>\n{style}").replace("<script>", f"<script>\n{script}")
        self._headers = {**HEADERS, "Content-Security-Policy": policy(self._text)}
        self._listeners: set[asyncio.Task[Any]] = set()

    def add_to(self, app: web.Application) -> None:
        app.router.add_get("/", self._page)
        app.router.add_get("/status", self._now)
        app.router.add_get("/events", self._events)
        runs_beside(app, self._watch.run)
        app.on_shutdown.append(self._end)

    async def _end(self, _: web.Application) -> None:
        for it in self._listeners:
            it.cancel()
        await asyncio.gather(*self._listeners, return_exceptions=True)

    async def _page(self, _: web.Request) -> web.Response:
        return web.Response(text=self._text, content_type="text/html", headers=self._headers)

    async def _now(self, _: web.Request) -> web.Response:
        return web.json_response(self._watch.news(0)["status"], headers=HEADERS)

    async def _events(self, request: web.Request) -> web.StreamResponse:
        response = web.StreamResponse(headers={**HEADERS, "Content-Type": "text/event-stream"})
        await response.prepare(request)
        listener = asyncio.ensure_future(self._tell(response))
        self._listeners.add(listener)
        listener.add_done_callback(self._listeners.discard)
        await asyncio.wait([listener])
        return response

    async def _tell(self, response: web.StreamResponse) -> None:
        seen = 0
        while True:
            number, news = self._watch.number, self._watch.news(seen)
            try:
                async with asyncio.timeout(SLOW):
                    await response.write(b"data: " + json.dumps(news).encode() + b"\n\n")
            except (ConnectionError, TimeoutError):
                return  # the browser is gone, or takes nothing
            seen = number
            await asyncio.sleep(PACE)
            await self._watch.newer_than(seen)


async def serve_page(keeping: Any, address: str, group: Optional[str] = None) -> Served:
    """Shows the page at an address, and the numbers for Prometheus at /metrics if its package is there."""
    app = web.Application()
    Page(keeping).add_to(app)
    try:
        from .metrics import Metrics
    except ImportError:
        pass
    else:
        Metrics(keeping).add_to(app)
    return await serve(app, address, group)
