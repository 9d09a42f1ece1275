"""What a client may be told, as exceptions: the package's, with the broker's text."""

from __future__ import annotations

import grp
import os
import re
from typing import Any, Callable, Optional

import grpc
import labrun

from .texts import HTTP_THERE, SILENT, typed, unreached


class BrokerError(labrun.LabrunError):
    """The broker said no."""


class Unreachable(labrun.LabrunError, ConnectionError):
    """The broker can't be reached, or doesn't let this client in."""


class AnswerLost(Unreachable):
    """The broker may have heard what was asked, and done it; only its answer didn't come."""


class _Told(Exception):
    """One of the package's errors, with the broker's text."""

    def __init__(self, text: str) -> None:
        Exception.__init__(self, text)

    def __reduce__(self) -> Any:
        return type(self), (str(self),)


class TimeoutError(_Told, labrun.TimeoutError):  # noqa: A001
    """The time limit passed, and the session was given up. The text says who kept it waiting."""


class NotHeld(_Told, labrun.NotHeld):
    """The session doesn't hold its instruments."""


class TakenAway(_Told, labrun.TakenAway):
    """The session was ended for its owner, or the broker hasn't answered for so long that it may be. Others may be at its instruments soon."""


class MayNotUse(_Told, labrun.MayNotUse):
    """The station, or a guest, may not use one of the instruments."""


class JournalError(_Told, labrun.JournalError):
    """The broker couldn't write it down, so it isn't done."""


class Stopped(_Told, labrun.Stopped):
    """The broker ends, and nobody comes to hold any more."""


class BadWish(_Told, labrun.LabrunError, ValueError):
    """What was asked for can't be."""


class NoInstrument(BadWish):
    """The bay has no instrument of this name."""


class CantChange(labrun.LabrunError):
    """The bay can't be as the file has it: somebody is in the way."""


class StillHeld(labrun.JournalError):
    """The bay doesn't open, because somebody holds what its file no longer has."""


class NotAllowed(BrokerError):
    """Only the bay's operators may do that, or only whose session it is."""


class OutOfOrder(_Told, labrun.LabrunError):
    """The instrument is out of order, as somebody says who looks after the bay."""


KINDS: dict[str, Callable[[str], Exception]] = {
    "TimeoutError": TimeoutError,
    "TakenAway": TakenAway,
    "NotHeld": NotHeld,
    "LetGo": NotHeld,
    "MayNotUse": MayNotUse,
    "JournalError": JournalError,
    "Stopped": Stopped,
    "BadWish": BadWish,
    "NoInstrument": NoInstrument,
    "OutOfOrder": OutOfOrder,
    "NotAllowed": NotAllowed,
}


def raised(fault: Any) -> Exception:
    return KINDS.get(fault.kind, BrokerError)(fault.text)


CLOSED, ENDED, ANOTHER = "it closed the connection", "it has ended", "it has another certificate than --certificate says"
# what gRPC says where it can't connect, and what that means; first what is so however often it is tried, then where somebody listens
FOR_GOOD = {
    "wrong version number": "it has no TLS: come without --certificate",
    "not in peer certificate": "its certificate is for another name: call it by that",
    "certificate verify failed": ANOTHER,
    "http1.x server": HTTP_THERE,
    "Failed parsing HTTP/2": "somebody else than a broker is there",
    # (that by which TLS says what is spoken: of those that a client of a broker meets, HTTP's ports alone say nothing)
    "missing selected ALPN": HTTP_THERE,
}
IS_THERE = {"Socket closed": CLOSED, "Connection reset by peer": CLOSED, **FOR_GOOD}
HINTS = IS_THERE | {
    "Broken pipe": CLOSED,
    "Cancelling all calls": ENDED,
    "Permission denied": "permission denied",
    **dict.fromkeys(("before receiving SETTINGS frame", "Handshake read failed", "keepalive watchdog timeout", "ping timeout"), f"it doesn't answer {SILENT}"),
    "C-ares status is not ARES_SUCCESS": "no machine of that name is known here",
}


def is_for_good(text: str) -> bool:
    """Whether what gRPC says is so however often it is tried."""
    return any(it in text for it in FOR_GOOD)


def plainly(address: str, text: str, may_want_tls: bool) -> str:
    """Why nobody can connect there."""
    if ":" not in address or address.startswith(("/", ".")):
        return f"a socket's path is written unix:{address}" if "/" in address else "unix:PATH or HOST:PORT is wanted"
    if not re.fullmatch(r"unix:.+|dns:.+|[^/]+:\d+", address) or int((re.search(r":(\d+)$", address) or ["", "0"])[1]) > 65535:
        return "unix:PATH or HOST:PORT is wanted, with a port of up to 65535"
    text = re.sub(r"^failed to connect to all addresses; last error: \w+: (?:ipv[46]|unix):\S+: (?:Failed to connect to remote host: )?", "", text)
    text = next((hint for told, hint in HINTS.items() if told in text), text)
    if text.startswith("recvmsg:"):
        # (there was a connection)
        return NO_MORE
    if text == CLOSED and may_want_tls and not address.startswith("unix:"):
        return f"{text} (a broker with TLS wants --certificate FILE, or LABRUN_BROKER_CERTIFICATE_FILE)"
    if text == "Connection refused" and re.fullmatch(r"[^/,]+:\d+", address) and not address.startswith("unix:"):
        return f"{text} (no broker runs there, or it stands by for another one: name all of them, with commas between)"
    if text == "permission denied" and address.startswith("unix:"):
        try:
            group = grp.getgrgid(os.stat(address.removeprefix("unix:")).st_gid).gr_name
        except (OSError, KeyError):
            return text
        return f"{text} (who may use it is in the group {group})"
    return text


NO_MORE = "it doesn't answer any more"


def _another(certificate: bytes) -> str:
    """(gRPC says of one that has expired no more than of any other.)"""
    from .validity import outdated

    if (its := outdated(certificate)) is None:
        return ANOTHER
    new = "make another one for the broker, and give it to its clients"
    return f"the certificate in --certificate {its.why}: {new}" if its.are_all else f"{ANOTHER}, or the one there that {its.why}"


def why_lost(address: str, code: Any, text: str, may_want_tls: bool = False, certificate: Optional[bytes] = None) -> Exception:
    """`may_want_tls`: it was never reached, and without a certificate. `certificate` is by what the broker is known."""
    if code is grpc.StatusCode.DEADLINE_EXCEEDED:
        return AnswerLost(f"the broker at {address} doesn't answer {SILENT}")
    if code in (grpc.StatusCode.UNAVAILABLE, grpc.StatusCode.UNKNOWN, grpc.StatusCode.CANCELLED):
        why = plainly(address, text, may_want_tls)
        why = _another(certificate) if why == ANOTHER and certificate is not None else why
        return (AnswerLost if why in (CLOSED, NO_MORE, ENDED) else Unreachable)(unreached(address, why))
    if code is grpc.StatusCode.RESOURCE_EXHAUSTED and "message larger than max" in text:
        return BadWish(f"the broker at {address} doesn't take so much at once ({text}): a bay's file that is so long it reads by SIGHUP")
    if code in (grpc.StatusCode.UNAUTHENTICATED, grpc.StatusCode.RESOURCE_EXHAUSTED):
        return Unreachable(f"the broker at {address} doesn't let this client in: {text}")
    if code is grpc.StatusCode.PERMISSION_DENIED:
        return NotAllowed(text)
    if code is grpc.StatusCode.INVALID_ARGUMENT:
        return NoInstrument(text)
    if code is grpc.StatusCode.DATA_LOSS:
        return JournalError(text)
    return NotHeld(text) if code is grpc.StatusCode.FAILED_PRECONDITION else BrokerError(text)


def maybe_done(address: str, why: Exception, is_same_again: bool) -> str:
    """What is said of a change whose answer didn't come. `is_same_again`: a second try would do no more than the first."""
    again = "try again" if is_same_again else "try again with the session's number, because another may have begun"
    return f"{why}; it may have been done, or not: see {typed(address, 'status')}, and {again}"


def whole(given: str) -> str:
    """BadWish: it can't be written."""
    try:
        given.encode()
    except UnicodeEncodeError:
        raise BadWish(f"{given!r} has half of a character, which can't be sent") from None
    return given
