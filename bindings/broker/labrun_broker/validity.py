"""Until when a certificate is good, by its own dates. (Python's `ssl` tells it of those of an authority alone.)"""

from __future__ import annotations

import re
import ssl
from datetime import datetime, timezone
from typing import Iterator, NamedTuple, Optional

VERSION, UTC_TIME = 0xA0, 0x17


class Outdated(NamedTuple):
    """What is wrong with the first of those in a file that aren't good now; and whether none there is."""

    why: str
    are_all: bool


def outdated(pem: bytes, now: Optional[datetime] = None) -> Optional[Outdated]:
    """None: all are good, or can't be read here."""
    now = now or datetime.now(timezone.utc)
    try:
        its = [_dates(ssl.PEM_cert_to_DER_cert(it)) for it in re.findall(r"-----BEGIN CERTIFICATE-----.+?-----END CERTIFICATE-----", pem.decode("ascii", "ignore"), re.S)]
    except (ValueError, IndexError):
        return None
    bad = [f"expired on {_told(last)}" if last < now else f"is good only from {_told(first)} on" for first, last in its if not first <= now <= last]
    return Outdated(bad[0], len(bad) == len(its)) if bad else None


def _told(at: datetime) -> str:
    return at.astimezone().strftime("%Y-%m-%d %H:%M")


def _dates(der: bytes) -> tuple[datetime, datetime]:
    """The first moment and the last: those of `validity`, behind version, number, algorithm and issuer."""
    [(_, whole)] = _parts(der)
    its = [it for kind, it in _parts(next(_parts(whole))[1]) if kind != VERSION]
    first, last = (_moment(kind, it.decode("ascii")) for kind, it in _parts(its[3]))
    return first, last


def _moment(kind: int, text: str) -> datetime:
    century = "" if kind != UTC_TIME else "20" if int(text[:2]) < 50 else "19"
    return datetime.strptime(century + text, "%Y%m%d%H%M%SZ").replace(tzinfo=timezone.utc)


def _parts(der: bytes) -> Iterator[tuple[int, bytes]]:
    """Of what DER wrote each part: of what kind it is, and what it has."""
    while der:
        kind, length, at = der[0], der[1], 2
        if length > 127:
            at += length & 127
            length = int.from_bytes(der[2:at], "big")
        yield kind, der[at : at + length]
        der = der[at + length :]
