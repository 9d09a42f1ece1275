"""A bay that changes while it runs: another file of it is looked at, and taken as a whole, or not at all. Who holds goes on to hold, and who waits
to wait, in the same order; what can't be, because somebody holds or waits for what is gone, is refused, with who that is.

Whether it can be is for the bay's machine to say; here stands only why not."""

from __future__ import annotations

import asyncio
import builtins
import contextlib
import functools
import math
from dataclasses import replace
from typing import TYPE_CHECKING, Iterator, Optional, Sequence

from labrun import JournalError
from labrun.machine import HOLDS, MAY_NOT, WAITS, Refusal

from . import people
from .bay import Bay, BayFault, bay_of
from .errors import BadWish, CantChange
from .here import commands
from .kept import Told
from .places import Places
from .standing import ENDING, Standings
from .texts import span
from .together import in_which
from .turning import STANDS
from .wishes import milliseconds

if TYPE_CHECKING:
    from .keeping import Keeping

LATER = "with the next start of the broker"
THERE = "the broker's machine"


def changes(before: Bay, after: Bay) -> list[str]:
    """What is other in the second one, a line each."""
    return [
        *_of_names("instrument", before.instruments, after.instruments),
        *_of_names("station", tuple(before.stations), tuple(after.stations)),
        *_of_uses(before, after),
        *([f"guests: {after.guests} hold{'s' if after.guests == 1 else ''} at once, instead of {before.guests}"] if before.guests != after.guests else []),
        *(f"{name}: {_told(value)}, instead of {_told(old)}" for name, value, old in _of_numbers(before, after)),
        *_of_words(before, after),
        *people.changes(before.people, after.people),
    ]


def _of_names(what: str, before: tuple[str, ...], after: tuple[str, ...]) -> Iterator[str]:
    yield from (f"{what} {name}: new" for name in after if name not in before)
    yield from (f"{what} {name}: taken out" for name in before if name not in after)


def _of_words(before: Bay, after: Bay) -> Iterator[str]:
    for what, old, new in (("label", before.labels, after.labels), ("guard", before.guards, after.guards)):
        yield from (f"{what} {name}: {new.get(name, 'none')}, instead of {old.get(name, 'none')}" for name in {**old, **new} if new.get(name) != old.get(name))
    for tag in {**before.tags, **after.tags}:
        was, its = (" ".join(of.get(tag, ())) or "none" for of in (before.tags, after.tags))
        if its != was:
            yield f"tag {tag}: {its}, instead of {was}"


def _of_uses(before: Bay, after: Bay) -> Iterator[str]:
    both = [(f"station {name}", before.stations[name], uses) for name, uses in after.stations.items() if name in before.stations]
    if before.guests and after.guests:
        both.append(("guests", before.guests_use, after.guests_use))
    for name, old, new in both:
        for verb, its, too in (("may use", set(new) - set(old), ", too"), ("may no longer use", set(old) - set(new), "")):
            if its:
                yield f"{name}: {verb} {' '.join(sorted(its))}{too}"


def _of_numbers(before: Bay, after: Bay) -> Iterator[tuple[str, object, object]]:
    for key, value in vars(after.limits).items():
        if value != (old := getattr(before.limits, key)):
            yield f"limits.{key}", value, old
    limits = [("limit", after.limit, before.limit), ("guests.limit", after.guests_limit, before.guests_limit)]
    names = dict.fromkeys((*before.station_limits, *after.station_limits))
    limits += [(f"station_limits.{name}", after.station_limits.get(name), before.station_limits.get(name)) for name in names]
    for name, new, was in limits:
        if new != was:
            yield f"{name} (for whoever asks from now on)", _span(new), _span(was)
    for name, word, other in _of_gone(before, after):
        yield f"{name} (for whoever comes to hold from now on)", word, other
    for name in dict.fromkeys((*before.on_release, *after.on_release)):
        new_one, old_one = (of.on_release.get(name, "no command") for of in (after, before))
        if new_one != old_one:
            whom = "sessions that end" if name in before.on_release else "whoever asks"
            yield f"on_release.{name} (for {whom} from now on)", new_one, old_one
    if after.on_release_limit != before.on_release_limit:
        yield "on_release_limit", _span(after.on_release_limit), _span(before.on_release_limit)
    for key in LATER_KEYS:
        if (value := getattr(after, key)) != (old := getattr(before, key)):
            yield f"{key} ({LATER})", value, old


def _of_gone(before: Bay, after: Bay) -> Iterator[tuple[str, Optional[str], Optional[str]]]:
    for key, its, others in (("station_gone", after.station_gone, before.station_gone), ("instrument_gone", after.instrument_gone, before.instrument_gone)):
        for name in dict.fromkeys((*others, *its)):
            if its.get(name) != others.get(name):
                yield f"{key}.{name}" if name else "guests.gone", its.get(name), others.get(name)


# what the machine has for as long as it is open
LATER_KEYS = ("gone", "overtakes")


def _span(value: Optional[float]) -> Optional[str]:
    return None if value is None else span(value)


def _told(value: object) -> str:
    return "what it is without a line" if value is None else str(value)


async def apply(keeping: Keeping, text: str, by: str, is_check: bool) -> list[str]:
    """What has changed, or would. BadWish: the file is no bay. CantChange says who would be in the way. JournalError: it couldn't be written."""
    try:
        after = bay_of(text)
    except BayFault as fault:
        raise BadWish(str(fault)) from None
    return await becomes(keeping, text, after, by, is_check)


async def becomes(keeping: Keeping, text: str, after: Bay, by: str, is_check: bool) -> list[str]:
    """The same, of a bay that was read."""
    async with keeping.changing:
        return await _apply(keeping, text, after, by, is_check)


async def _apply(keeping: Keeping, text: str, after: Bay, by: str, is_check: bool) -> list[str]:
    before = keeping.bay
    if after.name != before.name:
        raise CantChange(f"the file is of the bay {after.name}, and this one is {before.name}: give it a broker and a folder of its own")
    try:
        places = keeping.places.with_bay(after, by, before.instruments)
    except BayFault as fault:
        raise CantChange(str(fault)) from None
    for entrance in keeping.entrances:
        entrance.may_be(after)
    _may(keeping, places, after)
    its, state = changes(before, after), keeping._opened.state
    # (told beside what has changed, and no part of it)
    lacking = [it for it in commands(after, THERE) if it not in commands(before, THERE)]
    lacks = state is not None and state.lacks(text, after)
    if is_check or not its and not lacks:
        return [*its, *lacking]
    bay = replace(after, **{key: getattr(before, key) for key in LATER_KEYS})
    words = Words(keeping, bay)
    places = words.either(places)
    if places != keeping.places:
        await keeps(keeping, places)

    def then() -> None:
        keeping.bay = bay
        words.turn()
        if state is not None:
            state.goes_by(text, after, by)
        if its:
            keeping._record("changed", text=f"by {by}: {'; '.join(its)}")

    try:
        await keeping._shell.turns.turn(places.classes(bay), then)
    except (JournalError, Refusal) as it:
        await words.fail()
        if isinstance(it, JournalError):
            raise
        if it.status == MAY_NOT:
            _may(keeping, places, after)
        raise CantChange(f"the bay can't be so: {it}") from None
    finally:
        # (whoever asked may be gone by now, and the disk not answer)
        if keeping.bay is bay:
            _has_changed(keeping, its, by)
    try:
        await keeping.settling.kept()
    except JournalError as fault:
        raise JournalError(fault.path, f"the bay has changed, but the next broker may not know it: {fault.why}") from None
    await words.end()
    return [*its, *lacking]


def _has_changed(keeping: Keeping, its: list[str], by: str) -> None:
    if its:
        keeping.says(f"the bay was changed by {by}: {'; '.join(its)}")
    for entrance in keeping.entrances:
        entrance.has_changed()


class Words:
    """Those that say what becomes of whoever is gone, as they change. Whoever comes to hold from then on is told by the new ones; the next broker knows
    by the tokens who that is. As long as that isn't written, of either word the careful one counts for it."""

    def __init__(self, keeping: Keeping, bay: Bay) -> None:
        self._keeping, self._gone, self._before = keeping, bay.its_gone, keeping.places
        self._are_others = bay.its_gone != keeping.bay.its_gone
        # the tokens of those that hold as the bay changes
        self._holders: Optional[dict[int, bool]] = None

    def either(self, places: Places) -> Places:
        """Until the bay is the new one, somebody may be told by either."""
        if not self._are_others:
            return places
        has_grace = self._gone.may_release and not math.isinf(self._keeping.its_grace)
        grace = milliseconds(self._keeping.its_grace) if has_grace else places.grace
        return replace(places, grace=grace, gone=(*self._before.words, Told(self._gone)))

    def turn(self) -> None:
        """It is the new one. (A part of a session over several bays goes by the words of those, too: of it nothing is known here.)"""
        rows, its = [row for row in self._keeping.machine.standings() if row.what == HOLDS], self._keeping.by_number
        self._holders = {row.token: row.number not in its or its[row.number].of > 0 for row in rows}

    async def end(self) -> None:
        if self._are_others and self._holders is not None:
            await self._keeps(self._keeping.places.with_words(self._gone, self._before.words, self._holders, False))

    async def fail(self) -> None:
        # (where the disk is at fault, somebody has waited long enough)
        if self._are_others and self._holders is None and not self._keeping._shell.is_wrong():
            await self._keeps(replace(self._keeping.places, grace=self._before.grace, gone=self._before.gone))

    async def _keeps(self, places: Places) -> None:
        with contextlib.suppress(JournalError):
            await keeps(self._keeping, places)


def _may(keeping: Keeping, places: Places, after: Bay) -> None:
    """CantChange: not everybody may go on with what he holds or waits for."""
    if whys := list(_in_the_way(keeping, places, after)):
        raise CantChange("\n".join(["nothing has changed:", *whys]))


def _in_the_way(keeping: Keeping, places: Places, after: Bay) -> Iterator[str]:
    classes, stands, guests = places.classes(after), Standings(keeping), 0
    for row in keeping.machine.standings():
        session = keeping.by_number.get(row.number)
        if session is None or row.what not in (HOLDS, WAITS):
            continue
        its = row.needs if row.what == HOLDS else session.wanted
        guests += row.what == HOLDS and not row.kind
        who = f"{session.name} ({session.by})" if session.by else session.name
        since = stands.span_since(row.since)
        lacks = places.names(its & ~classes[row.kind][0])
        gone = [name for name in lacks if name not in after.instruments]
        is_out = places.station(row.kind) not in after.stations if row.kind else not after.guests
        what = f"{_all(gone)} {'is' if len(gone) == 1 else 'are'} taken out" if gone else f"{session.name} may no longer use {_all(lacks)}"
        if session.state == ENDING and (is_out or lacks):
            what = f"{session.name if row.kind else 'guests'} {'is' if row.kind else 'are'} taken out" if is_out else what
            yield f"{what}, and what session {row.number} of {session.name} had is being made safe"
        elif is_out:
            does = f"has held {_all(places.names(its))}" if row.what == HOLDS else f"has waited for {_all(places.names(its))}"
            yield f"{who if row.kind else 'guests are'} {'is ' if row.kind else ''}taken out, and {'' if row.kind else f'{who} '}{does} for {since}"
        elif lacks:
            does = "has held" if row.what == HOLDS else "has waited for"
            yield f"{what}, and {who} {does} {'it' if len(gone or lacks) == 1 else 'them'} for {since}"
    if guests > after.guests > 0:
        yield f"{guests} guests hold{in_which(keeping)}, and by the file only {after.guests} may"


def _all(names: Sequence[str]) -> str:
    return " and ".join([", ".join(names[:-1]), names[-1]] if len(names) > 1 else names)


async def keeps(keeping: Keeping, places: Places) -> None:
    """The journal's lines are read by them. (Names that nobody has do no harm.)"""
    state = keeping._opened.state
    if state is not None:
        try:
            async with asyncio.timeout(STANDS):
                await keeping._shell.runs(functools.partial(state.keeps, places))
        except builtins.TimeoutError:
            raise JournalError(state.store.path, f"{keeping._shell.what} doesn't answer for {STANDS:g} s, and what was to be written may be there later") from None
        except OSError as fault:
            path = str(fault.filename or state.store.path)
            raise JournalError(path, f"the bay's names, and what is out of order, couldn't be written, so this isn't done: {fault.strerror or fault}") from None
    keeping.places = places
