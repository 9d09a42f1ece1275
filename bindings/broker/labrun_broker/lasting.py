"""For how long a session may hold while others wait for what it has. Whether it is taken away, and when, is for the bay's machine to say; here
stands what its limit is, and its client is warned before. (Of a session whose instruments are made safe afterwards it is said here.)"""

from __future__ import annotations

import asyncio
from collections import Counter
from typing import TYPE_CHECKING, Optional

from labrun.machine import GRACE, HOLDS, LIMIT, WAITS

from . import making_safe
from .bay import Bay
from .texts import span

if TYPE_CHECKING:
    from .keeping import Keeping
    from .standing import Session
    from .wishes import Wish

THEN = "its session is taken away as soon as somebody waits for what it has"

# a client is warned when so much of the limit is left, and no sooner than so many seconds before its end
SHARE, SOONEST = 0.1, 300.0


def limit_of(bay: Bay, wish: Wish) -> Optional[float]:
    """In seconds: the station's, or the guests', or else the bay's; or what the client wishes, if that is less. None: there is none."""
    of_whom = bay.station_limits.get(wish.station) if wish.station else bay.guests_limit
    of_bay = bay.limit if of_whom is None else of_whom
    return min((it for it in (of_bay, wish.limit) if it is not None), default=None)


def begins(keeping: Keeping, session: Session, wants_warning: bool) -> None:
    """Its client, which is there, is warned in time; or at once, if that is over."""
    stops(session)
    if session.limit is None or not wants_warning:
        return
    left = session.limit - min(SHARE * session.limit, SOONEST) - (keeping.now() - session.limit_since) / 1000
    # (more than some weeks a loop doesn't take)
    if left < 1e6:
        session.warning = asyncio.get_running_loop().call_later(max(0.0, left), _warns, keeping, session)


def stops(session: Session) -> None:
    if session.warning is not None:
        session.warning.cancel()
        session.warning = None


def _warns(keeping: Keeping, session: Session) -> None:
    session.warning = None
    if session.owner is not None:
        session.owner.warned(*told(keeping, session))


def told(keeping: Keeping, session: Session) -> tuple[str, float]:
    """With what its client is warned by now, and how many seconds are left."""
    limit = session.limit or 0.0
    left = max(0.0, limit - (keeping.now() - session.limit_since) / 1000)
    its = session.instruments if session.crossing is None else session.crossing.instruments
    then = f"over in {span(left, 1)}: after that {THEN}" if left else f"over: {THEN}"
    return f"{session.name} may hold {', '.join(its)} for {_span(limit)}, which is {then}", left


def because(keeping: Keeping, session: Session, how: int) -> str:
    """Why it was taken away, if nobody did."""
    if how == GRACE:
        return f", because its client was gone for {keeping.its_grace:g} s"
    if how != LIMIT or session.limit is None:
        return ""
    return f", because it held for longer than its limit of {_span(session.limit)}, and somebody waits for what it had"


# ---- of sessions that are made safe afterwards: the machine would give what one had to the next one at once


def watches(keeping: Keeping, session: Session) -> None:
    """It is taken away once its limit is over and somebody waits for what it has."""
    if session.is_followed and session.limit is not None and session.is_at_work and not keeping._is_closed:
        left = session.limit - (keeping.now() - session.limit_since) / 1000
        if left > 0:
            asyncio.get_running_loop().call_later(min(left, 1e6), watches, keeping, session)
        else:
            keeping.late.append(session)
            looks(keeping)


def looks(keeping: Keeping) -> None:
    """After somebody has asked, or the limit of one is over."""
    keeping.late = [it for it in keeping.late if it.holds]
    if not keeping.late:
        return
    standings = keeping.machine.standings()
    waiting = [keeping.by_number[it.number] for it in standings if it.what == WAITS and it.number in keeping.by_number]
    holding, classes = Counter(it.kind for it in standings if it.what == HOLDS), keeping.places.classes(keeping.bay)
    for session in list(keeping.late):
        has, is_last = keeping.places.bits(session.instruments), holding[session.kind] >= classes[session.kind][1]
        # (its place is among what it has, if there is no other)
        if any(it.wanted & has or is_last and it.kind == session.kind for it in waiting):
            making_safe.takes(keeping, session, LIMIT)


def _span(seconds: float) -> str:
    return span(seconds, int(seconds % 1 > 0))
