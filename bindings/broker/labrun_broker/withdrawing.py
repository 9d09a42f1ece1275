"""A session that waits no longer leaves the line: the broker is told so, until it has heard that.

One that is stopped hears it once it goes on. One that was killed may have written that the session holds: whoever comes in its place is asked for
it, by its ticket, and told that it is let go."""

from __future__ import annotations

import asyncio
import builtins
import contextlib
from typing import TYPE_CHECKING, Optional

from . import broker_pb2 as pb
from .stream import NOBODY, Lost, Stream

if TYPE_CHECKING:
    from .client import Lab

# seconds: for so long whoever gives up waits for that; for so long it is tried at most; and between two tries
MOMENT, TELLING, PAUSE = 0.5, 60.0, 0.1
# what a broker answers that knows of no such session
OVER = ("NotHeld", "LetGo", "TakenAway")


async def gives_up(lab: Lab, ticket: str, stream: Optional[Stream], span: float = MOMENT) -> None:
    """It has asked on this stream, or on one that is lost."""
    if stream is not None:
        stream.session = None
    leaves = asyncio.create_task(_leaves(lab, ticket, stream))
    lab._leaving.add(leaves)
    leaves.add_done_callback(lab._leaving.discard)
    await asyncio.wait({leaves}, timeout=span)


async def _leaves(lab: Lab, ticket: str, stream: Optional[Stream]) -> None:
    if stream is not None and await _is_told(stream):
        return
    with contextlib.suppress(builtins.TimeoutError):
        async with asyncio.timeout(TELLING):
            while not await _is_told_by_ticket(lab, ticket):
                await asyncio.sleep(PAUSE)


async def _is_told(stream: Stream) -> bool:
    """On the stream on which it asked."""
    try:
        kind, _ = await stream.asks(let_go=pb.LetGo())
        while kind not in ("gone", "fault"):
            kind, _ = await stream._answer()
    except Lost as lost:
        stream.cancel()
        # (whoever isn't let in any more has left by that)
        return lost.code is NOBODY
    if kind == "gone":
        stream.is_idle()
    else:
        stream.cancel()
    return True


async def _is_told_by_ticket(lab: Lab, ticket: str) -> bool:
    """A broker that knows nothing of such a session that holds says so, and that is all that it need hear."""
    await lab._brokers.looks()
    stream = Stream(lab)
    try:
        kind, told = await stream.asks(wish=pb.Wish(ticket=ticket, by=lab.by, comes_back=True))
        return await _is_told(stream) if kind == "held" else kind != "fault" or told.kind in OVER
    except Lost:
        return False
    finally:
        if stream not in lab._idle:
            stream.cancel()
