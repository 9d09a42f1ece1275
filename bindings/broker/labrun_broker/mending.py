"""What the records lost, as the bay's journal has it: of a broker that was killed, or whose machine was, right between the two."""

from __future__ import annotations

import re
from collections import Counter
from typing import Iterable, Iterator, Optional

from .journals import Left
from .places import Places
from .records import Record
from .sessions import ENDS
from .wishes import digits_of

AS_IT_IS = "as the journal has it"
MANY = 1000  # records


def names_them(left: dict[int, Left], records: Iterable[Record]) -> None:
    """Which station each session was of, and who asked, by the records: of one whose client wasn't told yet the journal doesn't say so."""
    for it in records:
        if (of := left.get(it.get("session") or 0)) is not None:
            of.station, of.by = of.station or it.get("station") or "", of.by or it.get("by") or ""


def gone_since(records: Iterable[Record]) -> dict[int, float]:
    """Since when the client of each session is gone, of those whose client was when the last broker ended."""
    found: dict[int, float] = {}
    for it in records:
        if it["what"] == "gone" and it.get("session"):
            found.setdefault(it["session"], it["t"])
        elif it["what"] == "back":
            found.pop(it.get("session") or 0, None)
    return found


def ends_of(records: Iterable[Record]) -> Iterator[tuple[tuple[int, int], str]]:
    """The owners of those that let go, or whose sessions were taken away, and how that was."""
    owners: dict[Optional[int], tuple[int, int]] = {}
    for it in records:
        number, digits = it.get("session"), str(it.get("ticket") or "")
        if it["what"] == "held" and re.fullmatch("[0-9a-f]{32}", digits):
            owners[number] = int(digits[:16], 16), int(digits[16:], 16)
        elif it["what"] in ("let_go", "failed", "taken") and number in owners:
            yield owners[number], (it.get("text") or "by the broker") if it["what"] == "taken" else ""


def missing(left: dict[int, Left], records: list[Record], places: Places) -> list[Record]:
    """The records that aren't there, of sessions that held; `left` has them as they came to hold."""
    held = {it["session"] for it in records if it["what"] == "held"}
    over = {it["session"] for it in records if it["what"] in ENDS}
    # (of some notes the text is the same)
    noted = Counter((it["session"], it.get("text")) for it in records if it["what"] == "note")
    last = {it.get("session"): it["t"] for it in records if it["what"] not in ENDS}
    found: list[Record] = []
    for it in _since_the_first(list(left.values()), held, len(records)):
        about = _About(it, places)
        # (one that is over, and never held by the records, gave up before its client was told)
        if it.number not in held and not (it.end and it.number in over):
            found.append({**about.record("held", it.since / 1000), "ticket": digits_of(it.owner)})
        since = max(it.since / 1000, last.get(it.number, 0.0))
        for text in it.notes:
            if noted[it.number, text] > 0:
                noted[it.number, text] -= 1
            else:
                found.append(about.record("note", since, text))
        if it.end and it.number not in over:
            found.append(about.record(it.what, (it.until or it.since) / 1000))
    return found


def holds(left: dict[int, Left], places: Places) -> list[Record]:
    """The record of its hold, of each session that goes on."""
    return [{**_About(it, places).record("held", it.since / 1000), "ticket": digits_of(it.owner)} for it in left.values() if not it.end]


def _since_the_first(left: list[Left], held: set[Optional[int]], count: int) -> list[Left]:
    """Those that came to hold since the first of the records, of which only the last were read. (If so many say of none that it holds,
    those of the others were before. Of a journal that began anew all may have come later than the last record of a hold.)"""
    if not held:
        return left if count < MANY else []
    first = next((at for at, it in enumerate(left) if it.number in held), None)
    last = max(it or 0 for it in held)
    return left[first:] if first is not None else [it for it in left if it.number > last]


class _About:
    """What all records of a session have."""

    def __init__(self, it: Left, places: Places) -> None:
        self._station = places.station(it.kind) or it.station or "a guest"
        self._it, self._instruments = it, list(places.names(it.needs))

    def record(self, what: str, t: float, text: Optional[str] = None) -> Record:
        """(When a note was written isn't in the journal: not before its session held, nor before the last of its records.)"""
        of = {"station": self._station, "session": self._it.number, "instruments": self._instruments, "by": self._it.by or None}
        return {"t": round(t, 6), "what": what, **of, "text": self._why(what) if text is None else text}

    def _why(self, what: str) -> str:
        why: Optional[str] = self._it.failed if what == "failed" else f"by {self._it.taken}" if what == "taken" and self._it.taken else None
        return f"{why}, {AS_IT_IS}" if why else AS_IT_IS
