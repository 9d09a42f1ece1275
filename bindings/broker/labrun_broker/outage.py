"""Instruments that are out of order. Nobody comes to hold one; whoever holds it goes on.

A wish goes round it: of its sets only those count that don't need it. If none is left it is refused at once, and whoever waits is told the same:
in line it would keep its other instruments from everybody else until the instrument is mended. What is out of order stands in the state
(places.py), so it stays so when the broker begins again."""

from __future__ import annotations

import asyncio
import time
from dataclasses import replace
from typing import TYPE_CHECKING, Any, Coroutine, Iterable, TypeVar

from labrun.machine import WAITS

from .applying import keeps
from .errors import OutOfOrder
from .places import Out
from .rights import to_enable
from .texts import span
from .wishes import Wish, check_instrument, check_note

if TYPE_CHECKING:
    from .bay import Bay
    from .bays import Kept
    from .keeping import Keeping
    from .standing import Session

Result = TypeVar("Result")


def going_round(wish: Wish, out: dict[str, Out], bay: Bay) -> Wish:
    """The wish without the sets that can't be had. OutOfOrder: there is no other."""
    left = tuple(it for it in wish.choices if not out.keys() & set(it))
    if not left:
        raise OutOfOrder(", ".join(told(name, out[name], bay, wish.person) for name in wish.names if name in out))
    return wish if left == wish.choices else replace(wish, any_of=left)


def told(name: str, it: Out, bay: Bay, person: str) -> str:
    why = f": {it.why}" if it.why else ""
    return f"{name} has been out of order for {span(it.span)}{why} (says {it.by}; {to_enable(bay, person, name)})"


async def to_its_end(kept: Kept, work: Coroutine[Any, Any, Result]) -> Result:
    """Whoever asked for it may be gone before that, and what is half done isn't to stay so."""
    task = asyncio.ensure_future(work)
    kept.tasks.add(task)
    task.add_done_callback(kept.tasks.discard)
    # (if nobody waits any more, nobody is told why it couldn't be done)
    task.add_done_callback(lambda it: it.cancelled() or it.exception())
    return await asyncio.shield(task)


async def disable(keeping: Keeping, name: str, why: str, by: str) -> None:
    """JournalError: it couldn't be written, and so isn't so. NoInstrument, BadWish."""
    check_instrument(name, keeping.bay, keeping.places.taken_out)
    check_note(why, keeping.bay)
    before = keeping.places.out.get(name)
    await puts_out(keeping, name, why, by, "" if before is None else f"; it was so already{before.why and f': {before.why}'} (said {before.by})")


async def puts_out(keeping: Keeping, name: str, why: str, by: str, was: str = "") -> None:
    async with keeping.changing:
        before = keeping.places.out.get(name)
        out = Out(why, by, round(time.time(), 3)) if before is None else replace(before, why=why, by=by)
        await keeps(keeping, replace(keeping.places, out={**keeping.places.out, name: out}))
        keeping._record("disabled", text=f"{name}{why and f': {why}'}, by {by}{was}", its=(name,))
        keeping.says(f"{name} is out of order{why and f': {why}'} (says {by}){was}")
        _tells(keeping, name)


async def enable(keeping: Keeping, name: str, by: str) -> None:
    check_instrument(name, keeping.bay, keeping.places.taken_out)
    async with keeping.changing:
        if name not in keeping.places.out:
            raise OutOfOrder(f"{name} isn't out of order")
        await keeps(keeping, replace(keeping.places, out={key: it for key, it in keeping.places.out.items() if key != name}))
        keeping._record("enabled", text=f"{name}, by {by}", its=(name,))
        keeping.says(f"{name} is in order again (says {by})")


def _tells(keeping: Keeping, name: str) -> None:
    """Whoever waits for it waits for another one, or not at all."""
    waiting = {it.number for it in keeping.machine.standings() if it.what == WAITS}
    for session in _of(keeping, waiting):
        if name in session.wish.names:
            try:
                _asks_again(keeping, session, going_round(session.wish, keeping.places.out, keeping.bay))
            except OutOfOrder as fault:
                keeping._leaves(session, fault)


def _asks_again(keeping: Keeping, session: Session, wish: Wish) -> None:
    """With another number, behind those that have asked."""
    keeping.machine.leave(session.number, keeping.now())
    del keeping.by_number[session.number]
    keeping._record("gave_up", session, text="it asks for other instruments", after=keeping._span(session))
    keeping._asks_for(session, wish)


def _of(keeping: Keeping, numbers: Iterable[int]) -> list[Session]:
    return [keeping.by_number[number] for number in sorted(numbers) if number in keeping.by_number]
