"""Where an instrument's guard is, as the bay's file says it: `HOST:PORT`, and behind it what the guard was told in the same words."""

from __future__ import annotations

import re
from typing import NamedTuple

BY_HOST, WITHOUT_TLS = "by-host", "without-tls"


class Way(NamedTuple):
    """With `by_host` clients go there themselves, and say nothing. Without TLS the ticket is read by whoever reads the network."""

    host: str
    port: int
    by_host: bool = False
    without_tls: bool = False


def way_of(text: str) -> Way:
    """ValueError says what is wrong."""
    at, *words = text.split() or [""]
    host, _, port = at.rpartition(":")
    if not host or not port.isascii() or not port.isdigit() or not 0 < int(port) < 65536:
        raise ValueError(f"{text!r}: HOST:PORT is wanted")
    for word in words:
        if word not in (BY_HOST, WITHOUT_TLS):
            raise ValueError(f"{text!r}: behind the address {BY_HOST} and {WITHOUT_TLS} may stand")
    return Way(host.strip("[]"), int(port), BY_HOST in words, WITHOUT_TLS in words)


def variable_of(instrument: str) -> str:
    """The one that a command of `hold` has its address in."""
    return "LABRUN_" + re.sub(r"\W|[.]", "_", instrument.upper())
