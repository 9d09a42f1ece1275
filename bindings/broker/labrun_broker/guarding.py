"""What guards are told: who holds the instruments that they stand before. A guard that is told late, or not at all, keeps somebody waiting; so
it is told of an end at once, and of a holder only what is confirmed."""

from __future__ import annotations

import asyncio
from typing import TYPE_CHECKING, Any, AsyncIterator, Iterable, Optional
from urllib.parse import unquote

from labrun import JournalError
from labrun.picks import near, some

from . import broker_pb2 as pb
from .whose import boot
from .wishes import digits_of

if TYPE_CHECKING:
    from .bays import Kept
    from .standing import Session


def host_of(session: Session) -> Optional[str]:
    """The address that its client comes from; `here`: from the broker's machine; None: its client is gone."""
    if session.owner is None:
        return None
    if (host := getattr(session.owner, "host", None)) is not None:
        return str(host)
    context = getattr(session.owner, "context", None)
    kind, _, rest = unquote(context.peer() if context is not None else "").partition(":")
    return rest.rpartition(":")[0].strip("[]") if kind in ("ipv4", "ipv6") else "here"


def holder_of(instrument: str, session: Optional[Session]) -> Any:
    if session is None:
        return pb.Holder(instrument=instrument)
    told = pb.Holder(instrument=instrument, token=session.token, ticket_hash=digits_of(session.key), station=session.name, by=session.by or "")
    if (host := host_of(session)) is not None:
        told.host = host
    return told


def holders_now(keeping: Kept, names: tuple[str, ...]) -> dict[str, Any]:
    """Of each instrument. (A session that holds, and isn't told so, may be another's after all, if its line doesn't reach the disk.)"""
    of = {name: session for it in keeping.peers for session in it.by_number.values() if session.is_at_work for name in session.instruments}
    return {name: holder_of(name, of.get(name)) for name in names}


def spans_now(keeping: Kept) -> dict[tuple[str, int], int]:
    """Of each instrument, and the token of its session, for how many microseconds that has held. (Each of several bays counts its own tokens. The
    beginning is noted in whole milliseconds.)"""
    its = [session for it in keeping.peers for session in it.by_number.values() if session.is_at_work]
    part = int(asyncio.get_running_loop().time() * 1e6) % 1000
    return {(name, it.token): (it.home.now() - it.limit_since) * 1000 + part for it in its if it.home is not None for name in it.instruments}


def with_spans(keeping: Kept, its: Iterable[Any]) -> Any:
    """All that is told at once. (For how long changes all the time, and is no news.)"""
    told, spans = pb.Holders(holders=its, at_us=int(asyncio.get_running_loop().time() * 1e6), boot=boot()), spans_now(keeping)
    for it in told.holders:
        if (key := (it.instrument, it.token)) in spans:
            it.held_us = max(0, spans[key])
    return told


def why_not(keeping: Kept, wish: Any) -> Optional[str]:
    """Why a guard can't be told."""
    if keeping.state is None:
        return "a guard wants a broker with --state: one that forgets who held can't say who came later"
    unknown = [name for name in wish.instruments if name not in keeping.bay.instruments]
    if not unknown:
        return None
    return f"the bay has no instrument {', '.join(unknown)}: there are {some(keeping.bay.instruments)}{near(unknown[0], keeping.bay.instruments)}"


async def holders(keeping: Kept, names: tuple[str, ...]) -> AsyncIterator[Any]:
    """Who holds them now, and whenever that has changed."""
    said = dict[str, Any]()
    changes = keeping.changes()
    waits: asyncio.Future[None] = asyncio.ensure_future(anext(changes))
    try:
        # (it has begun to look before anything is looked at)
        await asyncio.sleep(0)
        while True:
            now = holders_now(keeping, names)
            if ends := [pb.Holder(instrument=name) for name, it in said.items() if it.token and it.token != now[name].token]:
                said |= {it.instrument: it for it in ends}
                yield pb.Holders(holders=ends)
            try:
                await keeping.confirmed()
            except JournalError:
                continue
            now = holders_now(keeping, names)
            if not said or (news := [it for name, it in now.items() if it != said[name]]):
                yield with_spans(keeping, news if said else now.values())
                said = now
            await waits
            waits = asyncio.ensure_future(anext(changes))
    finally:
        waits.cancel()
