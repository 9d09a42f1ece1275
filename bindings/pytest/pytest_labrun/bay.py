"""The bay's file: which instruments there are. It is the broker's, too, which knows more keys than the plugin looks at."""

from __future__ import annotations

import re
import tomllib
from pathlib import Path

from labrun.picks import A_NAME, is_name

from .needs import Bay


class BayFault(Exception):
    """The file is no bay; the text names it, and what is wrong."""


def read_bay(path: Path) -> Bay:
    """The instruments of a file that has `instruments = ["scope", "supply"]`, each with its tags, if the file has a table of these."""
    try:
        given = tomllib.loads(path.read_text(encoding="utf-8"))
    except OSError as fault:
        raise BayFault(f"{path}: {fault.strerror}") from None
    except (tomllib.TOMLDecodeError, UnicodeDecodeError) as fault:
        raise BayFault(f"{path}: {fault}") from None
    names = given.get("instruments")
    if not isinstance(names, list) or not names:
        raise BayFault(f'{path}: a line `instruments = ["scope", "supply"]` is wanted')
    for at, name in enumerate(names):
        if not is_name(name):
            raise BayFault(f"{path}{_line_of(path, name)}: {name!r} can't be an instrument's name: {A_NAME}")
        if name in names[:at]:
            raise BayFault(f"{path}{_line_of(path, name)}: {name} is there twice")
    tags = given.get("tags", {})
    if not isinstance(tags, dict) or not all(isinstance(its, list) for its in tags.values()):
        raise BayFault(f'{path}: tags: a table of lists is wanted, as precise = ["scope"]')
    for tag, its in tags.items():
        for name in its:
            if name not in names:
                raise BayFault(f"{path}: tags.{tag}: {name} is none of the instruments")
    return {name: tuple(tag for tag, its in tags.items() if name in its) for name in names}


def _line_of(path: Path, name: object) -> str:
    for at, line in enumerate(path.read_text(encoding="utf-8").splitlines(), 1):
        if re.search(rf"""["']{re.escape(str(name))}["']""", line):
            return f":{at}"
    return ""
