"""What comes and goes by HTTP, as JSON: bodies, and how faults are told. What may be asked for is looked at elsewhere (wishes.py)."""

from __future__ import annotations

import json
import math
import secrets
from typing import Any, Callable, Iterable, Sequence

from labrun import LabrunError
from labrun.picks import near

from .entrance import NotLetIn
from .errors import KINDS, BadWish
from .visits import HOLDING, UNCHANGED, WAITING
from .wishes import Ended, Wish

MOST_BYTES = 1 << 16  # of a body
STATUSES = {
    "BadWish": 400,
    "NoInstrument": 400,
    "MayNotUse": 403,
    "NotAllowed": 403,
    "OutOfOrder": 409,
    "TimeoutError": 409,
    "NotHeld": 409,
    "TakenAway": 410,
    "LetGo": 410,
    "LabrunError": 500,
    "Stopped": 503,
    "JournalError": 507,
}
Fields = dict[str, Callable[[str, Any], Any]]


def told(fault: LabrunError) -> tuple[int, dict[str, str]]:
    """The status of a fault, and what is told of it. It is called as its class is, or as the first that a client knows of those that it
    comes from."""
    if isinstance(fault, NotLetIn):
        return fault.status, {"kind": "Unreachable", "text": str(fault)}
    kind = kind_of(fault)
    # (of a ticket of which nobody knows anything)
    is_unknown = kind == "NotHeld" and isinstance(fault, Ended)
    return 404 if is_unknown else STATUSES[kind], {"kind": kind, "text": str(fault)}


def kind_of(fault: LabrunError) -> str:
    its = [fault.kind] if isinstance(fault, Ended) else [it.__name__ for it in type(fault).__mro__]
    return next((it for it in its if it in KINDS), "LabrunError")


# ---- what comes


def text(key: str, given: Any) -> str:
    if not isinstance(given, str):
        raise BadWish(f"{key}: a text is wanted")
    try:
        given.encode()
    except UnicodeEncodeError:
        raise BadWish(f"{key}: this text has half of a character, which can't be written") from None
    return given


def names(key: str, given: Any) -> tuple[str, ...]:
    if not isinstance(given, list):
        raise BadWish(f'{key}: a list of names is wanted, as ["scope", "supply"]')
    return tuple(text(key, it) for it in given)


def choices(key: str, given: Any) -> tuple[tuple[str, ...], ...]:
    if not isinstance(given, list) or not all(isinstance(it, list) for it in given):
        raise BadWish(f'{key}: a list of lists is wanted, as [["scope", "load-1"], ["scope", "load-2"]]')
    return tuple(names(key, it) for it in given)


def number(key: str, given: Any) -> float:
    if isinstance(given, bool) or not isinstance(given, (int, float)):
        raise BadWish(f"{key}: a number is wanted")
    try:
        return float(given)
    except OverflowError:
        return math.inf


def yes_or_no(key: str, given: Any) -> bool:
    if not isinstance(given, bool):
        raise BadWish(f"{key}: true or false is wanted")
    return given


def whole(key: str, given: Any) -> int:
    if isinstance(given, bool) or not isinstance(given, int) or not 0 <= given < 1 << 64:
        raise BadWish(f"{key}: a whole number is wanted")
    return given


WISH: Fields = {"instruments": names, "any_of": choices, "station": text, "by": text, "timeout": number, "limit": number, "urgent": yes_or_no, "ticket": text}
NOTE: Fields = {"text": text, "number": whole}
RELEASE: Fields = {"station": text, "session": whole, "by": text, "bay": text}


def read(body: bytes, fields: Fields, *needed: str) -> dict[str, Any]:
    """What a body says. BadWish: it isn't an object of JSON with these fields, each of its own type. (null is as if it weren't there.)"""
    try:
        given = json.loads(body.decode(), parse_constant=_is_no_number)
    except (ValueError, RecursionError) as fault:
        raise BadWish(f"the body is no JSON: {fault}") from None
    if not isinstance(given, dict):
        raise BadWish(f"the body is no object: {{..}} is wanted, with {', '.join(fields)}")
    for key in given:
        if key not in fields:
            raise BadWish(f"there is no field {key[:64]!r}: there are {', '.join(fields)}{near(key[:64], fields)}")
    found = {key: fields[key](key, value) for key, value in given.items() if value is not None}
    for key in needed:
        if key not in found:
            raise BadWish(f"{key} is wanted")
    return found


def _is_no_number(it: str) -> None:
    raise ValueError(f"{it} is no number of JSON")


def wish_of_body(body: bytes) -> Wish:
    """Whoever comes by requests says again and again that it is there, and is warned of its limit by the answers."""
    given = read(body, WISH)
    given["ticket"] = given.get("ticket") or secrets.token_urlsafe()
    return Wish(**given, pings=True, wants_warning=True)


# ---- what stands behind the `?`, as ?wait=30


def seconds(key: str, given: str) -> float:
    try:
        found = float(given)
    except ValueError:
        found = math.nan
    if not 0 <= found < math.inf:
        raise BadWish(f"{key}: a number of seconds is wanted, as {key}=30")
    return found


def state(key: str, given: str) -> str:
    if given not in (WAITING, HOLDING, UNCHANGED):
        raise BadWish(f"{key}: {WAITING}, {HOLDING} or {UNCHANGED} is wanted")
    return given


QUERY: Fields = {"wait": seconds, "while": state, "failed": text}


def query(given: Iterable[tuple[str, str]], words: Sequence[str]) -> dict[str, Any]:
    """Of a request that takes these words. BadWish: there is another one, or it isn't as it is to be."""
    found = dict[str, Any]()
    try:
        for key, value in given:
            if key not in words:
                raise BadWish(f"there is no word {key[:64]!r} behind `?` here{near(key[:64], words)}")
            if key in found:
                raise BadWish(f"{key} is there twice")
            found[key] = QUERY[key](key, value)
    except BadWish as fault:
        raise BadWish(f"{fault}; words that this request takes behind `?`: {', '.join(words) or 'none'}") from None
    return found
