"""One line for a lab in this process, and for one that a broker keeps."""

from __future__ import annotations

import importlib
import os
import re
from typing import Any, Optional, Union

from ._lab import OVERTAKES, Lab


def connect(where: Union[str, os.PathLike[str]], station: str = "", **of_broker: Optional[str]) -> Any:
    """The lab of a bay's file (`bay.toml`, as labrun-broker reads it), in this process; or the one that a broker keeps at an address,
    `unix:PATH` or `HOST:PORT`, which may have its `token_file=`, `certificate_file=` and `by=`. Both have `hold(.., any_of=, timeout=)` and
    `close()`, and raise the same errors. `station` is whom the program is; without it each session is a guest's. ValueError: the file is no bay;
    ImportError: there is no package labrun_broker."""
    given = os.fspath(where)
    if is_address(given):
        return importlib.import_module("labrun_broker").connect(given, station, **of_broker)
    if of_broker:
        raise TypeError(f"{given} is a file: only a broker has {', '.join(of_broker)}")
    bay = _bay(given)
    guests = bay.get("guests", {})
    try:
        if guests.get("count", 0) == 0:
            uses, places = [], None
        else:
            uses, places = guests.get("may_use", bay["instruments"]), guests["count"]
        overtakes, tags = bay.get("overtakes", OVERTAKES), bay.get("tags", {})
        return Lab(bay["instruments"], bay.get("stations", {}), uses, places, overtakes, station=station, tags=tags)
    except (ValueError, TypeError, AttributeError, KeyError) as fault:
        raise ValueError(f"{given}: {fault}") from fault


def is_address(where: str) -> bool:
    """A broker's: a path has a slash before its colon, or no colon."""
    return where.startswith("unix:") or re.fullmatch(r"(\[[^\]/]*\]|[^:/]+):[0-9]+", where) is not None


def _bay(path: str) -> dict[str, Any]:
    import tomllib  # (a Python that has it is wanted only here)

    with open(path, "rb") as file:
        try:
            return tomllib.load(file)
        except ValueError as fault:
            raise ValueError(f"{path}: {fault}") from None
        except RecursionError:
            raise ValueError(f"{path}: it is nested too deeply") from None
