"""What a program gives the client, which may be of any type: it is looked at before anything is sent. BadWish: it isn't what is wanted."""

from __future__ import annotations

import numbers
import os
from typing import Any, Optional

from .errors import BadWish, whole

AN_ADDRESS = "as unix:PATH or HOST:PORT"


def text_of(what: str, given: Any) -> str:
    if not isinstance(given, str):
        raise BadWish(f"{what}: a text is wanted, and not {given!r}")
    return whole(given)


def name_of(of: str, given: Any) -> str:
    if not isinstance(given, str):
        raise BadWish(f"{of} is named by a text, and not by {given!r}")
    return whole(given)


def file_of(what: str, given: Any) -> Any:
    if given is not None and not isinstance(given, (str, bytes, os.PathLike)):
        raise BadWish(f"{what}: the name of a file is wanted, and not {given!r}")
    return given


def address_of(given: Any) -> Optional[str]:
    if given is not None and not isinstance(given, str):
        raise BadWish(f"an address is a text, {AN_ADDRESS}, and not {given!r}")
    if given == "":
        raise BadWish(f"an address is wanted, {AN_ADDRESS}")
    return given


def seconds(name: str, given: Any) -> Optional[float]:
    if given is None:
        return None
    try:
        if isinstance(given, numbers.Real):
            return float(given)
    except OverflowError:
        pass
    raise BadWish(f"{name}: {given!r} is no number of seconds")
