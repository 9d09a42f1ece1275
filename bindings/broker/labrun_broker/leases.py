"""For how long a session is a client's that can't be heard. Where `gone = "release"`, two clients are never told that they hold one
instrument:

- A client is gone once its stream has ended, or it has been silent for SILENT of the grace, if it says again and again that it is there (by
  a ping). From then on the bay keeps its session for the grace.
- The client holds for LEASE of the grace, from when it *sent* the last word that the broker answered, which is before the broker heard it.
  Its program is told at that moment, whatever is known of the connection; the rest of the grace is the margin, in which it leaves the
  instruments.
- The grace is never shorter than a client was told whose session holds: it stands beside the journal, for a broker that begins again."""

from __future__ import annotations

import asyncio
import math
from typing import TYPE_CHECKING, Optional

from labrun.machine import Refusal

from . import lasting, making_safe, people

if TYPE_CHECKING:
    from .keeping import Keeping
    from .standing import Owner, Session
    from .wishes import Wish

LEASE, SILENT = 0.75, 1 / 3
# who comes back for a session again within so many seconds waits until they are over
BACK = 1.0
ANOTHER = "another connection came for the session"


def lease_of(grace: float) -> Optional[float]:
    """For how many seconds a client holds from a word on that was answered; None: without an end."""
    return None if math.isinf(grace) else LEASE * grace


def patience_of(grace: float, heard_at: int, now: int) -> float:
    """How many seconds more a client may be silent that was heard last then; the moments are the bay's."""
    return SILENT * grace - (now - heard_at) / 1000


def pause_of(grace: float) -> float:
    """How many seconds lie between two times that a client comes back."""
    return min(BACK, grace / 8)


async def pauses(keeping: Keeping, key: tuple[int, int]) -> None:
    """Whoever came back for the session of this ticket just now waits here."""
    while (session := keeping._by_key.get(key)) is not None:
        pause = pause_of(math.inf if keeping.keeps(session) else keeping.its_grace)
        span = session.back_at + pause - asyncio.get_running_loop().time()
        if span <= 0:
            return
        await asyncio.sleep(span)


# ---- who is there


def heard(keeping: Keeping, session: Session, owner: Owner, says_so: bool = False) -> bool:
    """As Keeping says it."""
    if session.owner is not owner or not session.holds:
        return False
    if session.state == "gone" and not _is_back(keeping, session):
        return False
    if says_so or session.heard_at is not None:
        session.heard_at = keeping.now()
        if session.timer is None:
            _looks_at(keeping, session)
    return True


def _is_back(keeping: Keeping, session: Session) -> bool:
    try:
        keeping._shell.machine.back(session.number, session.key, keeping.now())
    except Refusal:
        return False  # (its time is over, and that is told just now)
    # (another connection may come before the broker has seen that the first one ended)
    was_gone, session.state, session.gone_at = session.state == "gone", "holding", None
    if was_gone:
        session.stops_looking()
        keeping._record("back", session)
    keeping._shell.pump()
    return session.holds


def gone(keeping: Keeping, session: Session, owner: Owner) -> None:
    if session.owner is not owner or not session.holds or keeping._is_closed:
        return
    session.owner = None
    session.stops_looking()
    _is_gone(keeping, session)


def _is_gone(keeping: Keeping, session: Session) -> None:
    if session.state == "gone":
        return
    session.state, session.gone_at = "gone", keeping.now()
    # (of one that is kept the machine isn't told; and if it began without a grace, it has none)
    if session.is_followed or math.isinf(keeping.grace):
        making_safe.is_gone(keeping, session)
    elif not session.is_kept:
        keeping._shell.machine.gone(session.number, keeping.now())
    keeping._record("gone", session)
    keeping._shell.pump()


def _looks_at(keeping: Keeping, session: Session) -> None:
    """Whether the client has been silent for long, now or later."""
    session.timer = None
    if session.heard_at is None or session.is_kept or session.state != "holding":
        return
    if (span := patience_of(keeping.its_grace, session.heard_at, keeping.now())) > 0:
        session.timer = asyncio.get_running_loop().call_later(span, _looks_at, keeping, session)
    else:
        _is_gone(keeping, session)


def comes_back(keeping: Keeping, session: Session, wish: Wish, owner: Owner) -> Session:
    if not _is_back(keeping, session):
        raise keeping._ends.why(session.key)
    if session.owner is not None and session.owner is not owner:
        session.owner.taken(ANOTHER)
    if wish.person and not session.person:
        # (the bay names people only since then)
        session.person, session.by = wish.person, people.told(wish.person, session.by or "")
        keeping._notes(session, "person", session.person)
    session.stops_looking()
    session.owner, session.heard_at, session.back_at = owner, None, asyncio.get_running_loop().time()
    heard(keeping, session, owner, wish.pings)
    lasting.begins(keeping, session, wish.wants_warning)
    return session
