"""What a broker that begins takes up: what was held is held, and its clients are awaited."""

from __future__ import annotations

import asyncio
import time
from typing import TYPE_CHECKING, Optional

from labrun.machine import HOLDS, Standing

from . import lasting, making_safe, mending
from .journals import Left
from .standing import ENDING, Session
from .wishes import milliseconds

if TYPE_CHECKING:
    from .keeping import Keeping
    from .opening import Opened


def takes_up(keeping: Keeping, it: Opened) -> None:
    mending.names_them(it.left, it.recent)
    # (those whose lines were in a file before this one are in the records alone)
    for owner, taken in mending.ends_of(it.recent):
        keeping._ends.add(owner, taken)
    for one in it.left.values():
        if one.end and (one.end == "let_go" or one.what == "taken"):
            keeping._ends.add(one.owner, "" if one.end == "let_go" else f"by {one.taken or 'the broker'}")
    rows = {row.number: row for row in keeping.machine.standings() if row.what == HOLDS}
    names = {number: keeping.places.station(row.kind) or it.left[number].station for number, row in rows.items()}
    gone = mending.gone_since(it.recent)
    # (those whose names are known come first, so that no other gets one of them)
    for number in sorted(rows, key=lambda number: (not names[number], number)):
        of = it.left[number]
        of.station = names[number] or keeping.free_label()
        _takes_up_one(keeping, rows[number], of, gone.get(number))
    missing = mending.missing(it.left, it.recent, keeping.places)
    for record in missing:
        # (whoever watches isn't told of tickets)
        more = {"ticket": record["ticket"]} if "ticket" in record else {}
        keeping._news.add({key: value for key, value in record.items() if key not in more}, **more)
    if it.state is not None:
        it.state.mends(missing, mending.holds(it.left, keeping.places))
    keeping._record("opened", text="as it was left" if it.left else "")
    for number, session in list(keeping.by_number.items()):
        if session.state == ENDING:
            making_safe.goes_on(keeping, session)
            continue
        if number not in gone or not session.is_kept:
            keeping._record("gone", session)
        if session.is_followed:
            making_safe.is_gone(keeping, session)
            lasting.watches(keeping, session)


def _takes_up_one(keeping: Keeping, row: Standing, it: Left, gone: Optional[float]) -> None:
    told: asyncio.Future[None] = asyncio.get_running_loop().create_future()
    told.set_result(None)
    session = Session(row.number, it.station, row.kind, row.owner, told, state="gone", since=row.since, token=row.token, by=it.by or None, home=keeping)
    session.person = it.person
    session.limit, session.of = None if it.limit is None else it.limit / 1000, it.of
    session.instruments, session.note = keeping.places.names(row.needs), it.notes[-1] if it.notes else None
    making_safe.takes_up(keeping, session, row, it)
    if session.state == "gone":
        # (where a grace ends it is gone from now on: it begins anew)
        session.gone_at = keeping.now() - (0 if gone is None or not session.is_kept else max(0, milliseconds(time.time() - gone)))
    keeping.by_number[row.number] = session
    if session.state != ENDING:
        keeping._by_key[row.owner] = session


def carries(keeping: Keeping) -> None:
    """What goes on in a new file of the journal: whose each session is, and its last note; the records have the others."""
    turns = keeping._shell.turns
    turns.most, turns.records = keeping.most_bytes, keeping._news.file
    keeping._news.may_write, turns.stood = lambda: not turns.is_under_way, lambda: _has_stood(keeping)
    turns.classes = lambda: keeping.places.classes(keeping.bay)
    turns.notes = lambda: [(it.number, note) for it in keeping.by_number.values() if it.holds or it.state == ENDING for note in it.in_a_new_file()]


def _has_stood(keeping: Keeping) -> None:
    keeping._news.write()
    # (with which the records are as far as the journal)
    keeping._shell.pump()
