"""How a bay stands, as text."""

from __future__ import annotations

import time
from collections import Counter
from typing import Any

from .texts import aligned, called, counted, plain, span
from .together import parts


def lines_of(status: dict[str, Any]) -> list[str]:
    """How the bay stands, or each of several, for people."""
    if len(its := parts(status)) == 1:
        return lines_of_bay(its[0][1])
    lines = [f"{called('lab', status['bay'])}: {counted(len(its), 'bay')}"]
    return [*lines, *(line for _, one in its for line in ("", *lines_of_bay(one)))]


def lines_of_bay(status: dict[str, Any]) -> list[str]:
    at, since = status["at"], time.strftime("%Y-%m-%d %H:%M", time.localtime(status["since"]))
    rows = [["INSTRUMENT", "HELD BY", "FOR", "WAITING", "LABEL" if any(one.get("label") for one in status["instruments"]) else ""]]
    for one in status["instruments"]:
        holder, held_for = holder_of(one, status)
        rows.append([one["name"], holder, held_for, each_once(one["waiting"]), plain(one.get("label", ""))])
    outs = [out_of(it, at) for it in status["instruments"] if it.get("out") is not None]
    lines = [f"{called('bay', status['bay'])}, {counted(status['sessions'], 'session')} since {since}", *brokers_of(status), *disk_of(status), *outs, "", *aligned(rows), ""]
    rows = [["STATION", "", "FOR", "INSTRUMENTS", "BY"]]
    for one in status["stations"]:
        if one["state"] != "idle":
            by = plain(one["by"] or "") + (f" | {plain(one['note'])}" if one["note"] else "")
            rows.append([one["name"], one["state"], span(at - (one["gone_since"] or one["since"])), " ".join(one["instruments"]), by])
            rows += [["", "", "", text] for text in (*line_of(one, status), *(plain(keeper["text"]) for keeper in one["waits_for"]))]
    for one in status["in_line"]:
        rows.append([one["station"] or "a guest", "in line", span(at - one["since"]), " ".join(one["instruments"]), plain(one["by"] or "")])
        rows += [["", "", "", text] for text in lines_in_line(one, status)]
    return [*lines, *(aligned(rows) if len(rows) > 1 else ["nobody holds or waits"])]


def holder_of(one: dict[str, Any], status: dict[str, Any]) -> tuple[str, str]:
    """Who holds an instrument, and for how long."""
    if not one["holder"]:
        return "-" if one.get("out") is None else "(out of order)", ""
    if any(it["name"] == one["holder"] and it["state"] == "waiting" for it in status["stations"]):
        return f"({one['holder']}, once that is written)", ""
    if safe_since := one.get("being_made_safe"):
        return "(being made safe)", span(status["at"] - safe_since)
    ends = next((it for it in status["stations"] if it["name"] == one["holder"] and it["state"] == "ending"), None)
    return (f"(free soon, after {one['holder']})", span(status["at"] - ends["since"])) if ends else (one["holder"], span(status["at"] - one["since"]))


def each_once(names: list[str]) -> str:
    """Of a station several may wait."""
    return " ".join(f"{name} ({count} sessions)" if count > 1 else name for name, count in Counter(names).items())


def lines_in_line(one: dict[str, Any], status: dict[str, Any]) -> list[str]:
    """Where one stands whose station, or place, may be taken; and for whom it waits."""
    keepers = [plain(it["text"]) for it in one.get("waits_for", ())]
    place = "" if one["station"] else "all places for guests are taken (guests.count says how many hold at once)"
    place = plain(one.get("text", "")) or place or f"{one['station']} is in one session at a time"
    # (who goes first counts only while there is a place)
    return [*line_of(one if keepers else {**one, "passed": 0, "keeps_place": False}, status), *keepers, place]


def line_of(it: dict[str, Any], status: dict[str, Any]) -> list[str]:
    """Where somebody who waits stands, and how often others went before; of a station that waits in several sessions, in which one."""
    name = it.get("name") or it.get("station")
    number = f"session {it['session']}" if name and it.get("session") and any(one["station"] == name for one in status["in_line"]) else ""
    if not it.get("place"):
        return [number] if number else []
    said = f"{number and f'{number}, '}number {it['place']} in line{', urgent' if it.get('urgent') else ''}"
    if it.get("keeps_place"):
        return [f"{said}{'' if it['urgent'] else ', and an urgent one asked after it'}: nobody who asks later goes before it"]
    return [said + (f"; {it['passed']} went before it since it asked, and after {status['overtakes']} what it needs is kept for it" if it["passed"] else "")]


def out_of(it: dict[str, Any], at: float) -> str:
    why = f": {plain(it['out'])}" if it["out"] else ""
    return f"{it['name']} has been out of order for {span(at - it['out_since'])}{why} (says {plain(it['out_by'])}{'; ' + plain(it['to_enable']) if it.get('to_enable') else ''})"


def brokers_of(status: dict[str, Any]) -> list[str]:
    """Who leads, of brokers that stand by for one another."""
    if not status.get("leads"):
        return []
    others = status["stands_by"]
    return [plain(f"{status['leads']} leads, and {', '.join(others) or 'no other'} {'stand' if len(others) > 1 else 'stands'} by")]


def disk_of(status: dict[str, Any]) -> list[str]:
    if not status["disk"]:
        return []
    return [f"the broker hasn't been able to write for {span(status['at'] - status['disk_since'])}: {plain(status['disk'])}. Nobody comes to hold until it can"]
