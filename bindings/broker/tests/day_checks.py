"""Whether the broker says and shows what the rules do, when nothing is left to be done at a moment."""

from __future__ import annotations

from collections import defaultdict
from typing import TYPE_CHECKING, Any, Optional

import labrun
from tests import day_model as rules
from tests.day_journal import Left
from tests.day_world import Killed

if TYPE_CHECKING:
    from tests.day_life import Stream
    from tests.day_lives import Day


class Wrong(Exception):
    """The broker didn't do what the rules say; `of` is the property by its number (days.py)."""

    def __init__(self, of: int, text: str) -> None:
        super().__init__(f"property {of}: {text}")


def is_refused(file: rules.File, left: dict[int, Left]) -> bool:
    """Whether by this bay somebody may not hold what he does."""
    stands, classes = [it for it in left.values() if not it.how], file.classes()
    counts = [sum(it.kind == kind for it in stands) for kind in range(len(classes))]
    return any(it.needs & ~classes[it.kind][0] for it in stands) or any(count > places for count, (_, places) in zip(counts, classes))


def takes_up(day: Day) -> None:
    """Those that came back have names, and are gone since the broker began, or, where that is without an end, since they were gone by the records."""
    it, status = day.rules, day.life.keeping.status()
    rows = {row["session"]: row for row in status["stations"] if row["session"] is not None}
    if set(rows) != set(it.sessions):
        raise Wrong(8, f"who is shown as gone: by the rules {set(it.sessions)}; by the broker {rows}")
    recorded = {one["session"] for one in day.life.keeping.history if one["what"] == "gone"}
    for session in it.sessions.values():
        row = rows[session.number]
        session.name = session.name or row["name"]
        if session.by is None and row["by"] in {one["by"] for one in day.before if one["session"] == session.number}:
            # (whose client wasn't told yet is in the records alone)
            session.by = row["by"]
        moment, before = it.now - round(1000 * (status["at"] - row["gone_since"])), gone_before(day.before, session.number)
        if before is not None and it.grace_of(session.number) is None and abs(moment - it.now + max(0, 1000 * (day.clock() - before))) < 3:
            session.gone_at = moment
        if session.number in recorded:
            it.records.append(("gone", session.number, None, None, None))
        elif before is None or it.grace_of(session.number) is not None:
            raise Wrong(5, f"{session.number} is gone, and no record says so")


def gone_before(records: list[dict[str, Any]], number: int) -> Optional[float]:
    """Since when it is gone by the records; None if it isn't."""
    since = None
    for it in records:
        if it["session"] == number and it["what"] in ("gone", "back"):
            since = None if it["what"] == "back" else it["t"] if since is None else since
    return since


def same(day: Day) -> None:
    disk = day.disk
    durable = disk.durable
    day.rules.line.reads(disk.tried, durable)
    day.rules.follows()
    for stream in day.life.streams:
        if stream.rules.is_open:
            same_words(day, stream)
    same_releases(day, durable)
    status = day.life.keeping.status()
    if day.has_failed and not status["disk"]:
        raise Wrong(8, "the disk is at fault, and that isn't shown")
    if bool(status["disk"]) != (status["disk_since"] is not None):
        raise Wrong(8, f"the disk is {status['disk'] or 'sound'} since {status['disk_since']}")
    same_status(day.rules, status)
    same_records(day.rules, day.life.keeping.history)
    same_lines(day)
    for it in day.life.loop.faults:
        if not isinstance(it.get("exception"), Killed):
            raise Wrong(7, f"it fails: {it}")


def differ(of: int, what: str, wanted: Any, found: Any) -> None:
    if wanted != found:
        raise Wrong(of, f"{what}: by the rules {wanted}; by the broker {found}")


def same_words(day: Day, stream: Stream) -> None:
    it, now = stream.rules, day.rules.now
    if it.note is not None:
        number, text, until = it.note
        at = next((at for at, word in enumerate(stream.got) if at >= len(it.told) or it.told[at] != word), None)
        if at is not None and stream.got[at] in (("noted",), ("fault", "JournalError")):
            if stream.got[at] != ("noted",) and now < until:
                raise Wrong(3, f"a note isn't on the disk, and that is said after {now - until + rules.DISK} ms")
            it.told.insert(at, stream.got[at])
            it.note = None
            day.rules.heard(it)
        elif now > until:
            raise Wrong(7, f"a note isn't answered: {text}")
    if it.leaving is not None:
        same_let_go(day, stream, it.leaving[1])
    if sorted(map(repr, it.told)) == sorted(map(repr, stream.got)) and [one for one in it.told if one[0] != "taken"] == [one for one in stream.got if one[0] != "taken"]:
        # (that it was taken away is told by a task of its own, and so may be behind the answer to what came just then)
        it.told = list(stream.got)
    differ(4, f"words to {it.ticket}", it.told, stream.got)
    if stream.task.done():
        raise Wrong(7, f"the stream of {it.ticket} ended: {stream.task}")


def same_let_go(day: Day, stream: Stream, until: int) -> None:
    """It is answered at once, but while a new file is made: then once that stands, or when it isn't in time."""
    it = stream.rules
    word = next((word for at, word in enumerate(stream.got) if at >= len(it.told) or it.told[at] != word), None)
    if word == ("gone",) or word == ("fault", "JournalError") and day.rules.now >= until:
        it.told.insert(next(at for at, one in enumerate(stream.got) if at >= len(it.told) or it.told[at] != one), word)
        it.leaving = None
    elif day.rules.now > until or not day.life.keeping._shell.turns.is_under_way:
        raise Wrong(7, f"a let-go of {it.ticket} isn't answered")


def same_releases(day: Day, durable: set[tuple[bytes, int]]) -> None:
    for row in list(day.releases):
        number, name, held, since, task = row
        if not task.done():
            if day.rules.now > since + rules.DISK:
                raise Wrong(7, f"a release of {name} isn't answered")
            continue
        day.releases.remove(row)
        if task.exception() is None:
            differ(4, f"what {name} held", set(held), set(task.result()))
            if (b"hold", number) in day.disk.tried and (b"end", number) not in durable:
                raise Wrong(3, f"{number} is released, and that isn't on the disk")
            day.is_over.add(number)
        elif not isinstance(task.exception(), labrun.JournalError) or day.rules.now < since + rules.DISK:
            raise Wrong(4, f"a release of {name}: {task.exception()!r}")


def same_status(it: rules.Rules, status: dict[str, Any]) -> None:
    wanted = it.status(bool(status["disk"]))
    differ(6, "instruments", wanted["instruments"], {one["name"]: (one["holder"], one["waiting"]) for one in status["instruments"]})
    stations = {one["name"]: one for one in status["stations"]}
    differ(8, "who isn't idle", set(wanted["stations"]), {name for name, one in stations.items() if one["state"] != "idle"})
    for name, row in wanted["stations"].items():
        found = stations[name]
        for key in ("state", "instruments", "by", "note", "session", "token"):
            differ(8, f"{key} of {name}", row[key] or None, found[key] or None)
        for key in ("since", "gone_since"):
            moment = None if found[key] is None else it.now - round(1000 * (status["at"] - found[key]))
            if (moment is None) != (row[key] is None) or moment is not None and abs(moment - row[key]) > 1:
                raise Wrong(8, f"{key} of {name}: by the rules {row[key]}; by the broker {moment}")
        differ(8, f"for whom {name} waits", row["waits_for"], {(one["instrument"], one["station"], one["holds"]) for one in found["waits_for"]})
    differ(6, "in line", wanted["in_line"], [(one["station"], one["instruments"], one["by"] or "") for one in status["in_line"]])


def same_records(it: rules.Rules, history: list[dict[str, Any]]) -> None:
    wanted, found = defaultdict[int, list[Any]](list), defaultdict[int, list[Any]](list)
    for what, number, *more in it.records:
        wanted[number].append((what, *more))
    opened = next(at for at, one in enumerate(history) if one["what"] == "opened")
    for one in history[opened + 1 :]:
        if one["session"] is not None:
            found[one["session"]].append((one["what"], one["station"], tuple(one["instruments"]), one["by"]))
    differ(5, "whose records there are", set(wanted), set(found))
    for number, rows in wanted.items():
        differ(5, f"records of {number}", [row[0] for row in rows], [row[0] for row in found[number]])
        for row, other in zip(rows, found[number]):
            if row[1] is not None:
                differ(5, f"a record of {number}", (row[0], row[1], set(row[2]), row[3] or None), (other[0], other[1], set(other[2]), other[3]))


def same_lines(day: Day) -> None:
    """The journal says of each session what the rules do."""
    text = day.disk.journal()
    if not text.startswith(day.read_of):
        day.read_to = 0
    for line in text[day.read_to : text.rfind(b"\n") + 1].split(b"\n")[:-1]:
        word, *its = line[17:].decode().split(" ")
        number = int(its[0], 16)
        if word == "end":
            differ(2, f"how {number} ended", day.rules.line.over.get(number, its[1]), its[1])
        elif word == "hold" and (it := day.rules.sessions.get(number)) is not None:
            differ(2, f"whose {number} is", f"{rules.owner_of(it.ticket):032x}", its[3])
            differ(2, f"since when {number} holds, and asked", [day.rules.line._find(number).since, day.rules.line._find(number).asked], [int(its[4], 16), int(its[6], 16)])
    day.read_to = text.rfind(b"\n") + 1
    day.read_of = text[: day.read_to]
