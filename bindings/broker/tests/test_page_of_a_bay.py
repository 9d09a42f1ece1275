"""The page and the numbers of a real bay: that they and the keeping mean the same."""

from __future__ import annotations

import asyncio
import json
import os
import re
import tempfile
import unittest
from typing import Any

from labrun_broker.bay import bay_of
from labrun_broker.keeping import Keeping
from labrun_broker.past import read_past
from labrun_broker.wishes import Wish

from . import test_written
from .brokers import BAY, TOP

try:
    from aiohttp import ClientSession

    from labrun_broker.page import Watch, serve_page
except ImportError as lacking:
    raise unittest.SkipTest(str(lacking)) from None


class Owner:
    def taken(self, why: str) -> None: ...


class OfABay(unittest.IsolatedAsyncioTestCase):
    async def asyncSetUp(self) -> None:
        self.keeping = Keeping(bay_of(BAY))
        await self.keeping.open()
        self.addAsyncCleanup(self.keeping.close)
        served = await serve_page(self.keeping, "127.0.0.1:0")
        self.addAsyncCleanup(served.cleanup)
        self.at = f"http://127.0.0.1:{served.sockets[0].getsockname()[1]}"
        self.web = ClientSession()
        self.addAsyncCleanup(self.web.close)

    async def get(self, path: str) -> str:
        async with self.web.get(self.at + path) as answer:
            return await answer.text()

    async def test_a_session_from_its_ask_to_its_end(self) -> None:
        owner = Owner()
        async with self.web.get(f"{self.at}/events") as events:
            first = await self.told(events)
            self.assertEqual([it["what"] for it in first["records"]], ["opened"])
            board = await self.keeping.hold(Wish(("scope",), station="board", by="ann"), owner)
            await self.keeping.note(board, owner, "V = 5")
            second = await self.told(events, 3)
            self.assertEqual([it["what"] for it in second["records"]], ["asked", "held", "note"])
            held = {it["name"]: it["holder"] for it in second["status"]["instruments"] if it["holder"]}
            self.assertEqual(held, {"scope": "board"})
            await self.keeping.let_go(board, owner)
            third = await self.told(events, 1)
            self.assertEqual([(it["station"], it["instruments"], it["how"]) for it in third["ended"]], [("board", ["scope"], "done")])
        self.assertIn('labrun_sessions_total{end="done",station="board"} 1.0', await self.get("/metrics"))
        self.assertIn('labrun_wait_seconds_count{instrument="scope"} 1.0', await self.get("/metrics"))

    async def test_formats_has_each_key(self) -> None:
        with open(f"{TOP}/docs/FORMATS.md", encoding="utf-8") as file:
            text = file.read()
        tables = {head: text.partition(f"## {head}")[2].partition("\n## ")[0] for head in ("How a bay stands", "The broker's records")}
        rows = {name: set(re.findall(r"`(\w+)`", names)) for name, names in ((it, "".join(re.findall(r"(?m)^\| ([^|]*) \|", part))) for it, part in tables.items())}
        await self.keeping.hold(Wish(("scope",), station="board"), Owner())
        waits = asyncio.create_task(self.keeping.hold(Wish(("scope",), station="radio"), Owner()))
        await asyncio.sleep(0.1)
        status = json.loads(await self.get("/status"))
        self.assertEqual({*status, "waits_for"}, rows["How a bay stands"])
        parts = [status["instruments"][0], status["stations"][0], next(it["waits_for"][0] for it in status["stations"] if it["waits_for"])]
        for it in (name for part in parts for name in part):
            self.assertIn(f"`{it}`", tables["How a bay stands"])
        self.assertEqual({*self.keeping._news.history[-1], "ticket", "urgent", "after"}, rows["The broker's records"])
        waits.cancel()

    async def told(self, events: Any, count: int = 1) -> Any:
        """What is told until there are so many records, in one."""
        news: dict[str, Any] = {"records": [], "ended": []}
        async for line in events.content:
            if line.startswith(b"data: "):
                more = json.loads(line[6:])
                news = {"status": more["status"], **{it: news[it] + more[it] for it in ("records", "ended")}}
                if len(news["records"]) >= count:
                    return news


class OfAFullDisk(test_written.FullDisk):
    async def test_the_page_says_so(self) -> None:
        keeping = await self.on_disk()
        watch = Watch(keeping)
        disk = lambda: watch.news(0)["status"]["disk"]
        self.assertEqual(disk(), "")
        self.breaks("full")
        waits = asyncio.create_task(keeping.hold(Wish(("scope",), station="board"), self.owner))
        await asyncio.sleep(1.1)
        self.assertEqual(disk(), "a write failed (No space left on device)")
        self.breaks("")
        await waits
        await asyncio.sleep(1.1)
        self.assertEqual(disk(), "")

    # (those of the disk are run where they stand)
    test_who_asks = test_who_asks_without_a_time = test_how_the_bay_stands = test_records = test_who_waits_for_the_disk = test_who_lets_go = test_who_notes = test_a_broker_begins = test_grace_that_ends_meanwhile = None


class WhatWas(unittest.IsolatedAsyncioTestCase):
    async def test_a_state_folder_is_read(self) -> None:
        expected = [("board", "ann", ("scope",), "done", "", ["V = 1"]), ("board", "ann", ("scope",), "failed", "it broke", ["V = 2"])]
        with tempfile.TemporaryDirectory() as folder:
            owner, keeping = Owner(), Keeping(bay_of(BAY), folder)
            await keeping.open()
            for number in (1, 2):
                board = await keeping.hold(Wish(("scope",), station="board", by="ann"), owner)
                await keeping.note(board, owner, f"V = {number}")
                await keeping.let_go(board, owner, "it broke" if number == 2 else None)
            await keeping.close()
            self.assertEqual(self.told(folder), expected)
            # the journal has the same sessions: if the records are lost, they come from there
            os.unlink(f"{folder}/records.jsonl")
            keeping = Keeping(bay_of(BAY), folder)
            await keeping.open()
            await keeping.close()
            of_journal = [(*one[:4], f"{one[4]}, as the journal has it".removeprefix(", "), one[5]) for one in expected]
            self.assertEqual(self.told(folder), of_journal)

    def told(self, folder: str) -> list[tuple[Any, ...]]:
        past, faults = read_past(folder)
        self.assertEqual(faults, [])
        return [(it.station, it.by, it.instruments, it.how, it.why, [text for _, text in it.notes]) for it in past.sessions()]


if __name__ == "__main__":
    unittest.main()
