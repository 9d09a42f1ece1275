"""What a client may ask for: all that is looked at before the bay is asked."""

from __future__ import annotations

import hashlib
import math
import secrets
from dataclasses import dataclass, replace
from typing import TYPE_CHECKING, Any, Callable, Iterable, Optional, Sequence

from labrun import LabrunError, MayNotUse, NotHeld
from labrun.picks import NoSuch, TooFew, TooMany, counted, is_plain, near, sets_of, some

from . import rights
from .bay import MOST_SECONDS, Bay
from .errors import BadWish, NoInstrument

if TYPE_CHECKING:
    from .crossing import Crossing
    from .standing import Session

MOST_CHOICES, LEAST_TICKET, MOST_NEAR = 100, 16, 32
KEPT_IN_MEMORY = 1000  # ends


class Ended(NotHeld):
    """No session has this ticket any more; `kind` is what its client is told: LetGo, TakenAway, or, if nobody knows how it ended, NotHeld."""

    def __init__(self, kind: str, text: str) -> None:
        super().__init__(text)
        self.kind = kind


class Ends:
    """What became of the last sessions that are over, by their owners: each let go, or was taken away, as the text says."""

    def __init__(self) -> None:
        self._of: dict[tuple[int, int], str] = {}

    def add(self, owner: tuple[int, int], taken: str = "") -> None:
        self._of[owner] = taken
        if len(self._of) > 2 * KEPT_IN_MEMORY:
            self._of = dict(list(self._of.items())[KEPT_IN_MEMORY:])

    def __contains__(self, owner: tuple[int, int]) -> bool:
        return owner in self._of

    def why(self, owner: tuple[int, int]) -> Ended:
        """Why nobody can come back for it."""
        if (taken := self._of.get(owner)) is None:
            return Ended("NotHeld", "no session has this ticket: it is over, or was never told that it holds")
        return Ended("TakenAway", f"the session was taken away {taken}") if taken else Ended("LetGo", "the session has let go")


@dataclass(frozen=True)
class Wish:
    """What a client asks for. With `comes_back` it held before, and wants no other session than that of its ticket. With `pings` it says
    again and again that it is there, while it holds."""

    instruments: tuple[str, ...] = ()
    any_of: tuple[tuple[str, ...], ...] = ()
    station: str = ""
    by: str = ""
    timeout: Optional[float] = None
    ticket: str = ""
    comes_back: bool = False
    pings: bool = False
    # in seconds; and whether its client wants to be warned before that
    limit: Optional[float] = None
    wants_warning: bool = False
    urgent: bool = False
    # no client says these of itself: whether it is only tried, and asked on if it can't be had at once (over.py); who asks, where the bay
    # names people; and of what it is a part, in one of several bays
    tries: bool = False
    person: str = ""
    crossing: Optional[Crossing] = None

    @property
    def choices(self) -> tuple[tuple[str, ...], ...]:
        return self.any_of or (self.instruments,)

    @property
    def names(self) -> tuple[str, ...]:
        """All that it might hold, each once."""
        return tuple(dict.fromkeys(name for choice in self.choices for name in choice))


def wish_of(asked: Any) -> Wish:
    """That of a message."""
    any_of = tuple(tuple(it.names) for it in asked.any_of)
    timeout = float(asked.timeout) if asked.HasField("timeout") else None
    ticket = asked.ticket or secrets.token_urlsafe()
    limit = float(asked.limit) if asked.HasField("limit") else None
    its = timeout, ticket, asked.comes_back, asked.pings, limit, asked.wants_warning, asked.urgent
    return Wish(tuple(asked.instruments), any_of, asked.station, asked.by, *its)


def check_form(wish: Wish, bay: Bay) -> None:
    """Lengths and numbers. BadWish says what is wrong."""
    names = (("an instrument's name", name) for name in (*wish.instruments, *(name for choice in wish.any_of for name in choice)))
    for what, text in (("a `by`", wish.by), ("a station's name", wish.station), ("a ticket", wish.ticket), *names):
        if len(text) > bay.limits.name:
            raise BadWish(f"{what} of {len(text)} characters; {bay.limits.name} are the most")
    if len(wish.any_of) > MOST_CHOICES:
        raise BadWish(f"{len(wish.any_of)} choices; {MOST_CHOICES} are the most")
    if wish.timeout is not None and not 0 <= wish.timeout < MOST_SECONDS:
        raise BadWish(f"a timeout of {wish.timeout:g} s; it is 0 or more, and below 1000000000")
    if wish.limit is not None and not 0 < wish.limit < MOST_SECONDS:
        raise BadWish(f"a limit of {wish.limit:g} s; it is more than 0, and below 1000000000")
    if wish.ticket and len(wish.ticket) < LEAST_TICKET:
        raise BadWish(f"a ticket has {LEAST_TICKET} characters or more")


def check(wish: Wish, bay: Bay, taken_out: Callable[[str], str] = lambda name: "") -> None:
    """Whether the bay has it for this client. BadWish, NoInstrument, MayNotUse or NotAllowed says what is wrong. `taken_out` says of an instrument
    that the bay had before what became of it."""
    if wish.station and wish.station not in bay.stations:
        hint = "; guests ask without one" if wish.station in bay.guest_names else near(wish.station, bay.stations)
        raise BadWish(f"{wish.station} is no station of this {bay.what}: there are {some(tuple(bay.stations)) or 'none'}{hint}")
    if not wish.station and not bay.guests:
        raise BadWish(f"this {bay.what} has no guests: say which station you are, of {some(tuple(bay.stations))}")
    if wish.any_of and wish.instruments:
        raise BadWish("say either which instruments, or which sets of them to choose from (any_of), and not both")
    if not all(wish.choices):
        raise BadWish("say which instruments, or which sets of them to choose from (any_of)")
    if wish.urgent:
        rights.check_urgent(bay, wish.person)
    may = _may_use(wish, bay)
    for name in filter(is_plain, wish.names):
        if name not in bay.instruments:
            raise _no_such(name, bay, taken_out(name))
        if name not in may:
            raise _may_not_use(wish, (name,), bay)


def check_instrument(name: str, bay: Bay, taken_out: Callable[[str], str]) -> None:
    if name not in bay.instruments:
        raise _no_such(name, bay, taken_out(name))


def _may_use(wish: Wish, bay: Bay) -> tuple[str, ...]:
    return rights.allowed(bay, wish.person, _places_use(wish, bay))


def _places_use(wish: Wish, bay: Bay) -> tuple[str, ...]:
    return bay.stations[wish.station] if wish.station else bay.guests_use


def _may_not_use(wish: Wish, words: Sequence[str], bay: Bay) -> MayNotUse:
    """Because it isn't for the station, or a guest; else because it isn't for the person."""
    its, what = _places_use(wish, bay), " ".join(words)
    if bay.people and _is_there(words, its, bay):
        may = [name for name in _may_use(wish, bay) if any(_is_there((counted(word)[1],), (name,), bay) for word in words if not is_plain(word))]
        return rights.may_not_have(bay, wish.person, what + (f", but only {some(may)}" if may else ""))
    return MayNotUse(wish.station or "a guest", what, its)


def resolved(wish: Wish, bay: Bay) -> Wish:
    """A wish that was checked, with the sets of instruments that its words stand for, as `load-*`, `tag:precise` or `2 of load-*`, of what
    its client may use. BadWish, NoInstrument."""
    if all(map(is_plain, wish.names)):
        return wish
    choices: dict[tuple[str, ...], None] = {}
    for words in wish.choices:
        choices.update(dict.fromkeys(_sets(words, wish, bay)))
    if len(choices) > MOST_CHOICES:
        raise BadWish(f"these words stand for {len(choices)} choices; {MOST_CHOICES} are the most")
    return replace(wish, instruments=(), any_of=tuple(choices))


def asked_again(wish: Wish, held: tuple[str, ...], bay: Bay) -> tuple[str, ...]:
    """What a session holds, in the order in which who comes again with its ticket asks for it. BadWish: it wouldn't get what it asks for."""
    if wish.comes_back or not wish.names:
        return held
    try:
        check(wish, bay)
        choices = resolved(wish, bay).choices
    except LabrunError:
        return held  # (the bay isn't as it was when that was asked for)
    if (found := next((it for it in choices if set(it) == set(held)), None)) is None:
        raise BadWish(f"this ticket is that of a session that holds {' '.join(held)}: ask with another one")
    return tuple(dict.fromkeys(found))


def _sets(words: Sequence[str], wish: Wish, bay: Bay) -> tuple[tuple[str, ...], ...]:
    may = _may_use(wish, bay)
    try:
        return sets_of(words, may, bay.tags)
    except (NoSuch, TooFew) as fault:
        if _is_there(words, bay.instruments, bay):
            raise _may_not_use(wish, words, bay) from None
        # (there are all the bay's, and not only those that this client may use)
        raise NoInstrument(_lacking(words, bay) or str(fault)) from None
    except TooMany as fault:
        raise BadWish(str(fault)) from None


def _lacking(words: Sequence[str], bay: Bay) -> str:
    """Why the whole bay has no such instruments."""
    try:
        sets_of(words, bay.instruments, bay.tags)
    except ValueError as fault:
        return str(fault)
    return ""


def _is_there(words: Sequence[str], its: Sequence[str], bay: Bay) -> bool:
    """Whether it can be had of these instruments."""
    try:
        return bool(sets_of(words, its, bay.tags))
    except TooMany:
        return True
    except ValueError:
        return False


def _no_such(name: str, bay: Bay, out: str) -> NoInstrument:
    if out:
        return NoInstrument(f"{name} is no instrument of this {bay.what} any more: {out}. There are {some(bay.instruments)}")
    its = name.split(",")
    hint = f" (each is a word of its own: {' '.join(its)})" if len(its) > 1 and set(its) <= set(bay.instruments) else near_instrument(name, bay)
    return NoInstrument(f"{name or 'an empty name'} is no instrument of this {bay.what}: there are {some(bay.instruments)}{hint}")


def near_instrument(name: str, bay: Bay) -> str:
    """Which was meant, if one is nearly called so. (`load-2` isn't nearly `load-1`, but another one.)"""
    number = _digits_of(name)
    return near(name, [it for it in bay.instruments if not number or _digits_of(it) in (number, "")])


def _digits_of(name: str) -> str:
    return "".join(it for it in name if it.isdigit())


def no_station(name: str, bay: Bay, sessions: Iterable[Session]) -> BadWish:
    """Of those that hold, guests too. The sessions are all that there are."""
    its = list(sessions)
    if name in bay.instruments:
        holder = next((it.name for it in its if it.holds and name in it.instruments), None)
        held = f": {holder} holds it" if holder else ": nobody holds it"
        return BadWish(f"{name} is an instrument of this {bay.what}, and no station{held}")
    # (who waits has a name, too)
    there = tuple(dict.fromkeys(it.name for it in its if it.name and it.name not in bay.stations))
    guests = (f"{'and ' if bay.stations else ''}guests that hold or wait: {some(there) or 'none now'}",) if bay.guests else ()
    stations = (some(tuple(bay.stations)),) if bay.stations else ()
    # (of a thousand guests the loop would look for long)
    known = (*bay.stations, *there[:MOST_NEAR])
    return BadWish(f"{name[:bay.limits.name]} is no station of this {bay.what}: there are {', '.join((*stations, *guests))}{near(name, known)}")


def check_note(text: str, bay: Bay) -> None:
    if len(text) > bay.limits.note:
        raise BadWish(f"a note of {len(text)} characters; {bay.limits.note} are the most")


def milliseconds(seconds: float) -> int:
    return math.ceil(seconds * 1000)


def owner_of(ticket: str) -> tuple[int, int]:
    """By which the bay knows who may come back: the first 128 bits of the ticket's hash, so that whoever reads the files can't come in
    place of its owner; without a ticket, bits by chance."""
    bits = hashlib.sha256(ticket.encode()).digest() if ticket else secrets.token_bytes(16)
    return int.from_bytes(bits[:8], "big"), int.from_bytes(bits[8:16], "big")


def digits_of(owner: tuple[int, int]) -> str:
    """As the journal has it."""
    return f"{owner[0]:016x}{owner[1]:016x}"
