"""A wish whose instruments lie in several bays: in which order these are asked. (crossing.py has the session that comes of it; docs/broker.md says
why nobody waits for ever.)

First all bays are asked at once, and none is waited for: so who could hold at once does. Else what was given goes back, and the bays are asked
*in the order of the lab's file*, each only once it holds in those before. Never does it wait in an earlier bay while it holds in a later one."""

from __future__ import annotations

import asyncio
import secrets
from collections import defaultdict
from dataclasses import replace
from typing import TYPE_CHECKING, Callable, Optional

from . import making_safe
from .crossing import Crossing
from .errors import TimeoutError as TimedOut
from .standing import ENDING, Owner, Session
from .wishes import Ended, Wish, owner_of

if TYPE_CHECKING:
    from .bays import Bays
    from .keeping import Keeping

# what one choice of a wish needs of each bay, in the order of the lab's file
Way = dict["Keeping", tuple[str, ...]]

MOMENT = 0.001  # what is left of a time limit that is over
UNFINISHED = "the broker ended before it held in all its bays"
HALF_OVER = "it ended in another bay, as the broker ended"


def ways_of(bays: Bays, wish: Wish) -> list[Way]:
    """Of each choice of a wish whose words are resolved."""
    of = {name: home for home in bays.peers for name in home.bay.instruments}
    homes = {home: at for at, home in enumerate(bays.peers)}
    found = list[Way]()
    for choice in wish.choices:
        its = defaultdict["Keeping", list[str]](list)
        for name in dict.fromkeys(choice):
            its[of[name]].append(name)
        found.append({home: tuple(its[home]) for home in sorted(its, key=lambda it: homes[it])})
    return found


class Over:
    """A wish that isn't for one bay alone. Its words are resolved."""

    def __init__(self, bays: Bays, wish: Wish) -> None:
        # (its parts are known by one ticket)
        self._bays, self._wish, self._ways = bays, wish if wish.ticket else replace(wish, ticket=secrets.token_urlsafe()), ways_of(bays, wish)

    async def hold(self, _: Wish, owner: Owner, waits: Optional[Callable[[Session], None]] = None) -> Session:
        """Each choice is tried, and then the first one waited for, with all others that lie in the same bays."""
        # (a try that fails keeps nobody's order)
        wish = self._wish
        until = None if wish.timeout is None else asyncio.get_running_loop().time() + wish.timeout
        fault: Optional[TimedOut] = None
        for way in self._ways:
            if wish.timeout == 0 or not any(_is_held(home, names) for home, names in way.items()):
                # (without a time to wait, the last try is the end)
                is_last = wish.timeout == 0 and way is self._ways[-1]
                try:
                    return await self._tries(way, replace(wish, urgent=False, tries=not is_last), owner)
                except TimedOut as it:
                    fault = fault or it
        if wish.timeout == 0 and fault is not None:
            raise fault
        its = [way for way in self._ways if list(way) == list(self._ways[0])]
        if len(its[0]) == 1:
            (home,) = its[0]
            return await home.hold(replace(wish, instruments=(), any_of=_sets(its, home), timeout=_left(until)), owner, waits)
        return await self._waits(its, wish, owner, until, waits)

    async def _tries(self, way: Way, wish: Wish, owner: Owner) -> Session:
        """Without waiting for anybody."""
        if len(way) == 1:
            ((home, names),) = way.items()
            return await home.hold(replace(wish, instruments=names, any_of=(), timeout=0.0, urgent=False), owner)
        it = Crossing(self._bays, tuple(way), owner_of(wish.ticket), wish, owner)
        try:
            await asyncio.gather(*(it.asks(home, (names,), 0.0) for home, names in way.items()), return_exceptions=True)
        except BaseException as fault:
            it.gives_up(fault)
            raise
        if it.fault is not None:
            raise it.fault
        return it.is_whole()

    async def _waits(self, ways: list[Way], wish: Wish, owner: Owner, until: Optional[float], waits: Optional[Callable[[Session], None]]) -> Session:
        """In one bay after the other; of the choices are left those that fit what it has."""
        it = Crossing(self._bays, tuple(ways[0]), owner_of(wish.ticket), wish, owner)
        if waits is not None:
            waits(it)
        for home in it.homes:
            part = await it.asks(home, _sets(ways, home), _left(until))
            ways = [way for way in ways if set(way[home]) == set(part.instruments)]
        return it.is_whole()


def _sets(ways: list[Way], home: Keeping) -> tuple[tuple[str, ...], ...]:
    return tuple(dict.fromkeys(way[home] for way in ways))


def _left(until: Optional[float]) -> Optional[float]:
    return None if until is None else max(MOMENT, until - asyncio.get_running_loop().time())


def _is_held(home: Keeping, names: tuple[str, ...]) -> bool:
    """Whether it is of no use to try. (Only a look: whether it can be had is for the bay to say.)"""
    return any(it.state != "waiting" and not set(names).isdisjoint(it.instruments) for it in home.by_number.values())


# ---- a broker that begins again


def takes_up(bays: Bays) -> None:
    """Of a session over several bays it finds all parts, and then that may have been told that it holds: its client is awaited. Or it finds some:
    nobody was told, or it was about to end. Then it ends."""
    parts = defaultdict[tuple[int, int], dict["Keeping", Session]](dict)
    for home in bays.peers:
        for session in home.by_number.values():
            if session.of and session.state != ENDING:
                parts[session.key][home] = session
    for key, its in parts.items():
        if all(it.of == len(its) for it in its.values()):
            _is_back(bays, key, its)
        else:
            for home, part in reversed(list(its.items())):
                _ends(bays, home, part)


def _is_back(bays: Bays, key: tuple[int, int], its: dict[Keeping, Session]) -> None:
    names = tuple(name for it in its.values() for name in it.instruments)
    first = next(iter(its.values()))
    it = Crossing(bays, tuple(its), key, Wish(names, person=first.person), None)
    for home, part in its.items():
        it.parts[home.bay.name], part.crossing = part, it
        # (whose limit seemed to be over, for it counted from when this bay gave its part)
        home.late = [one for one in home.late if one is not part]
    it.name, it.by = first.name, first.by
    # (it was told once the last of them held)
    it.is_whole(min(home.now() - part.since for home, part in its.items()))
    it.state = "gone"
    for home, part in its.items():
        part.stops_looking()
        making_safe.is_gone(home, part)


def _ends(bays: Bays, home: Keeping, part: Session) -> None:
    """What was told that it holds, and has ended in another bay, is made safe in this one, too."""
    taken = next((it._ends.why(part.key) for it in bays.peers if it.had(part.key)), None)
    if taken is None:
        return home._leaves(part, Ended("NotHeld", UNFINISHED))
    home._over(part, "let_go" if taken.kind == "LetGo" else "taken", HALF_OVER)
    making_safe.begins(home, part, making_safe.LET_GO if taken.kind == "LetGo" else making_safe.TAKEN_AWAY)
    home._shell.pump()
