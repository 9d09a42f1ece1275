"""What a day's files say, read by nothing but their words."""

from __future__ import annotations

import json
from collections import Counter
from dataclasses import dataclass, field
from typing import Any, Optional

from tests import day_model as rules
from tests.day_world import PLACES, RECORDS, Disk

ENDS = ("let_go", "gave_up", "taken", "failed")
TICKETS = tuple(f"the ticket of client {at}" for at in range(6)) + ("a ticket of nobody",)
TICKET_OF = {rules.owner_of(it): it for it in TICKETS}


@dataclass
class Left:
    """A session that came to hold, by the journal; its kind and needs are those of the rules."""

    number: int
    kind: int
    names: tuple[str, ...]
    ticket: str
    since: int
    asked: int
    token: int
    station: str = ""
    by: str = ""
    notes: list[str] = field(default_factory=list)
    failed: Optional[str] = None
    how: str = ""

    @property
    def needs(self) -> int:
        return rules.bits(self.names)

    @property
    def what(self) -> str:
        if self.how == "let_go":
            return "let_go" if self.failed is None else "failed"
        return {"left": "gave_up", "lapsed": "gave_up", "stopped": "gave_up", "not_written": "failed"}.get(self.how, "taken")


def left_in(disk: Disk) -> dict[int, Left]:
    text, found = disk.journal(), dict[int, Left]()
    places = json.loads(disk.names[PLACES].cache) if PLACES in disk.names and disk.names[PLACES].cache else {}
    for line in text.decode().split("\n")[:-1]:
        word, *its = line[17:].split(" ")
        if word == "hold":
            kind = rules.KINDS.index("" if its[1] == "0" * 8 else places["stations"][int(its[1], 16) - 1])
            names = tuple(name for at, name in enumerate(places["instruments"]) if int(its[2], 16) >> at & 1)
            number = int(its[0], 16)
            found[number] = Left(number, kind, names, TICKET_OF.get(int(its[3], 16), "?"), int(its[4], 16), int(its[6], 16), int(its[7], 16))
        elif word == "end":
            found[int(its[0], 16)].how = its[1]
        elif word == "note":
            _takes(found[int(its[0], 16)], its[1], its[2:])
    return found


def given_in(disk: Disk) -> tuple[int, int]:
    """The number below which all were given when the file began, and the largest token that was; none, if it hasn't begun."""
    head, end, _ = disk.journal().partition(b"\n")
    if not end:
        return 0, 0
    _, _, _, _, number, token = head.split(b" ")
    return int(number, 16), int(token, 16)


def _takes(it: Left, word: str, words: list[str]) -> None:
    text = " ".join(words)
    if word == "by":
        it.station, _, it.by = text.partition(" ")
    elif word == "note":
        it.notes.append(text)
    elif word == "failed":
        it.failed = text


def records_in(disk: Disk) -> list[dict[str, Any]]:
    found = []
    for line in (disk.names[RECORDS].cache if RECORDS in disk.names else b"").split(b"\n"):
        try:
            found.append(json.loads(line))
        except ValueError:
            continue  # (a line that lost its end)
    return found


def ends_in(records: list[dict[str, Any]]) -> dict[str, str]:
    """What became of the last session of each ticket, if it let go or was taken away."""
    tickets: dict[Optional[int], str] = {}
    found = dict[str, str]()
    for it in records:
        if it["what"] == "held" and it.get("ticket"):
            tickets[it["session"]] = TICKET_OF.get(int(it["ticket"], 16), "?")
        elif it["what"] in ("let_go", "failed", "taken") and it["session"] in tickets:
            found[tickets[it["session"]]] = "taken" if it["what"] == "taken" else "let_go"
    return found


def notes_in(records: list[dict[str, Any]], it: Left) -> list[str]:
    """Those of a session: of the last ones, which the journal has, not all may be in the records."""
    noted = [one["text"] for one in records if one["what"] == "note" and one["session"] == it.number]
    return noted[: noted.index(it.notes[0])] + it.notes if it.notes and it.notes[0] in noted else noted + it.notes


def wrong_records(records: list[dict[str, Any]], left: dict[int, Left], told: set[int], undone: set[int]) -> list[str]:
    """Each session whose client was told that it holds is there, once, and each end behind it, and no other; `undone` are those whose let-go was
    lost by a power cut, or by a disk that failed."""
    count = Counter((it["session"], it["what"]) for it in records)
    ends = Counter(it["session"] for it in records if it["what"] in ENDS)
    notes = Counter((it["session"], it["text"]) for it in records if it["what"] == "note")
    wrong = [f"{number} {what} {times} times" for (number, what), times in count.items() if what in ("asked", "held") and times > 1]
    wrong += [f"{number} ended {times} times" for number, times in ends.items() if times > 1 and number not in undone]
    over = set[int]()
    for it in records:
        if it["what"] == "held" and it["session"] in over - undone:
            wrong.append(f"{it['session']} is over, and holds behind that")
        over |= {it["session"]} if it["what"] in ENDS else set()
    for number in told - undone - set(left):
        # (its lines were in a file before this one)
        if count[number, "held"] != 1 or not ends[number]:
            wrong.append(f"{number} isn't in the journal any more; it held {count[number, 'held']} times, and ended {ends[number]} times")
    for one in left.values():
        if one.number in told - undone and count[one.number, "held"] != 1:
            wrong.append(f"{one.number} held {count[one.number, 'held']} times")
        if one.how and not (ends[one.number] or one.number in undone):
            wrong.append(f"{one.number} is over ({one.what}), and no record says so")
        if not one.how and ends[one.number] and one.number not in undone:
            wrong.append(f"{one.number} holds, and is over by the records")
        wrong += [f"the note {text} of {one.number} {notes[one.number, text]} times" for text in one.notes if notes[one.number, text] != 1]
    return wrong
