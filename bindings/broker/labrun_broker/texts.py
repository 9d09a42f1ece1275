"""Texts for a terminal: spans, tables, and what others wrote."""

from __future__ import annotations

import argparse
import math
import os
import re
from typing import Iterable, Optional

from .credentials import Address, usual_address


def plain(text: object) -> str:
    """A text of somebody else: nothing in it moves the cursor. What isn't printable is shown by its number."""
    return "".join(it if it.isprintable() else it.encode("unicode_escape").decode() for it in str(text))


def span(seconds: float, places: int = 0) -> str:
    """A span as people say it: 12 s, 4 min 5 s, 2 h 13 min, 3 d 4 h; below ten seconds with so many places."""
    if seconds < 10:
        return f"{max(0.0, seconds):.{places}f} s"
    whole = round(seconds)
    for size, name, below, lower in ((86400, "d", 3600, "h"), (3600, "h", 60, "min"), (60, "min", 1, "s")):
        if whole >= size:
            return f"{whole // size} {name} {whole % size // below} {lower}"
    return f"{whole} s"


def counted(number: int, what: str) -> str:
    return f"{number} {what}" if number == 1 else f"{number} {what}s"


def once_safe(names: Iterable[str]) -> str:
    """Once what is so the instruments of a session that is over are free: those whose commands still run."""
    its = list(names)
    return f"{' and '.join(its)} {'is' if len(its) == 1 else 'are'} made safe" if its else "that is written"


def called(what: str, name: str) -> str:
    """As `bay north`. One whose file says no name is called by what it is, and so it is said once."""
    return what if name == what else f"{what} {plain(name)}"


def aligned(rows: list[list[str]], widest: int = 1 << 16) -> list[str]:
    """The lines of a table. (A row with fewer columns has a text as its last one, as wide as it is.) What is wider than `widest` moves the
    rest of its own line alone."""
    most = max(map(len, rows))
    widths = [max((len(row[at]) for row in rows if len(row) == most and len(row[at]) <= widest), default=0) for at in range(most - 1)]
    return ["  ".join([*(cell.ljust(width) for cell, width in zip(row[:-1], widths)), row[-1]]).rstrip() for row in rows]


# how arguments are typed


BELOW = "below 1000000000"


def seconds(text: str) -> float:
    value = _number(text)
    if not 0 <= value < 1e9:
        raise argparse.ArgumentTypeError(f"{text!r} is no number of seconds, 0 or more and {BELOW}")
    return value


def whole_name(text: str) -> str:
    """As the shell gives it: a byte that is no UTF-8 would stand for something else on its way."""
    try:
        text.encode()
    except UnicodeEncodeError:
        raise argparse.ArgumentTypeError(f"{os.fsencode(text).decode(errors='backslashreplace')} isn't UTF-8") from None
    return text


def station_name(text: str) -> str:
    if not text:
        raise argparse.ArgumentTypeError("an empty name is no station; a guest says none")
    return whole_name(text)


def mebibytes(text: str) -> int:
    """So many MiB, in bytes."""
    value = _number(text)
    if not 0.001 <= value <= 1 << 20:
        raise argparse.ArgumentTypeError(f"{text!r} is no number of MiB from 0.001 to {1 << 20}")
    return int(value * (1 << 20))


def last(text: str) -> float:
    """A span: 90, 30s, 15min, 4h, 2d."""
    found = span_of(text)
    if found is None or not 0 < found < 1e9:
        raise argparse.ArgumentTypeError(f"{text!r} is no span of more than 0 and {BELOW} s: write 90, 30s, 15min, 4h or 2d")
    return found


def session(text: str) -> int:
    """The number of one."""
    if not text.isascii() or not text.isdigit() or not 0 < int(text) < 1 << 64:
        raise argparse.ArgumentTypeError(f"{text!r} is no number of a session, 1 or more")
    return int(text)


def address(text: str) -> str:
    """(What is wrong with another one is said when it is asked.)"""
    if not text:
        raise argparse.ArgumentTypeError("an address is wanted, as unix:PATH or HOST:PORT")
    return text


def _number(text: str) -> float:
    try:
        return float(text)
    except ValueError:
        return math.nan


def span_of(text: str) -> Optional[float]:
    """In seconds; None: it is none."""
    found = re.fullmatch(r"(\d{1,9}(?:\.\d{1,3})?)\s*(s|m|min|h|d)?", text)
    return float(found[1]) * {None: 1, "s": 1, "m": 60, "min": 60, "h": 3600, "d": 86400}[found[2]] if found else None


SILENT = "(it is stopped, or the network is cut)"


def why_none(fault: BaseException) -> str:
    """Why there is no connection, in the system's words: asyncio says it otherwise, of a span that is over nothing, and of a name with several
    addresses what each said."""
    if isinstance(fault, TimeoutError) and not getattr(fault, "errno", None):
        return f"nothing came {SILENT}"
    if numbers := re.findall(r"\[Errno (\d+)\]", str(fault)):
        return ", ".join(dict.fromkeys(os.strerror(int(it)).lower() for it in numbers))
    return str(getattr(fault, "strerror", None) or fault).lower() or type(fault).__name__


HTTP_THERE = "somebody speaks HTTP there, and not as the clients of a broker do"


def unreached(address: str, why: str) -> str:
    """That nobody can be asked at an address."""
    more = ": leave out `.http`, which is for curl and the like" if why == HTTP_THERE and address.endswith(".http") else ""
    return f"the broker at {address} can't be reached: {why}{more}"


def typed(address: str, *words: str) -> str:
    """A command that asks the broker at this address: it names that, unless it asks there anyway, and the files that whoever asks was given."""
    import shlex

    at = () if address == usual_address() else ("--broker", address)
    files = address.files if isinstance(address, Address) else ()
    return f"`{shlex.join(('labrun-broker', *words, *at, *files))}`"


def may_hold(address: str, station: str) -> str:
    """Of a session whose client waited, and gave up without the broker's word: it may have come to hold just before, or do so later. A guest's name
    isn't known."""
    what, name, more = (station, station, "") if station else ("it", "NAME", ", with the name that stands there")
    return f"the session may hold all the same: if {typed(address, 'status')} shows {what} as gone, end it by {typed(address, 'release', name)}{more}"


def may_go_on(address: str, station: str, number: int, is_released_if_gone: bool) -> str:
    """Of a session whose client held, and couldn't tell the broker that it lets go."""
    release = typed(address, "release", station, "--session", str(number))
    until = f'the broker releases it (gone = "release"), or {release} does' if is_released_if_gone else f"it is released by {release}"
    return f"the session may go on holding, as {typed(address, 'status')} says, until {until}"


def no_word(address: str, tries: str) -> str:
    return f"there is no word from the broker at {address}; {tries}"


def answers_again(address: str, is_kept: bool) -> str:
    """To whoever waits for it."""
    return f"the broker at {address} answers again{', and the place in line is kept' if is_kept else '; the place in line is lost, and this waits at its end'}"


def none_answers(addresses: str, left: float) -> str:
    return f"none of the brokers {addresses} answers; trying again for {span(left)}"


def addresses_of(text: str) -> tuple[str, ...]:
    """Of one broker, or of several: those of `a:7443,b:7443`."""
    parts = tuple(it.strip() for it in text.split(","))
    return parts if all(re.fullmatch(r"unix:.+|[^/]+:\d+", it) for it in parts) else (text,)
