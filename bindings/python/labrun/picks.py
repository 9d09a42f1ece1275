"""The words by which instruments are asked for, the same in a program, in a shell, at a broker and in a test:

    scope           this one
    load-*          one whose name is like that (`*`, `?`, `[..]`)
    tag:precise     one that has this tag
    2 of load-*     two of these, each another; so with a tag, too

Each word is for instruments of its own: `scope load-* load-*` are the scope and two loads."""

from __future__ import annotations

import collections
import difflib
import fnmatch
import itertools
import math
import re
from typing import Any, Iterable, Mapping, Sequence

NAME = re.compile(r"[A-Za-z][A-Za-z0-9._-]{0,63}")
A_NAME = "at most 64 letters, digits, `-`, `_` and `.`, a letter first"
MOST_SETS = 100
MOST_WAYS = 10000  # with those in which an instrument is named twice
MOST_SHOWN, SHOWN = 16, 8
TAG = "tag:"
_SIGNS = frozenset("*?[")
_COUNTED = re.compile(r"(\d{1,3}) +of +(.+)")

Names = tuple[str, ...]


class NoSuch(ValueError):
    """No instrument, or no tag, has this name, or none is like it."""


class TooFew(ValueError):
    """There are fewer such instruments than are wanted."""


class TooMany(ValueError):
    """There are more ways to choose than can be asked for."""


def is_name(name: object) -> bool:
    """Whether an instrument, a station, a tag or a person of a bay may be called so (`A_NAME`)."""
    return isinstance(name, str) and NAME.fullmatch(name) is not None


def named(words: Iterable[Any]) -> Names:
    """The words of one choice, as they are given. ValueError: one is no text."""
    found = tuple(words)
    for it in found:
        if not isinstance(it, str):
            several = ": each is given by itself, as by hold(*names)" if isinstance(it, (list, tuple, set, frozenset)) else ""
            raise ValueError(f"an instrument is named by a text, and not by {it!r}{several}")
    return found


def choices_of(any_of: Any) -> tuple[Names, ...]:
    """The choices of `any_of`, as they are given: each is one word, or several. ValueError: it is no list of such."""
    if not any_of:
        return ()
    if isinstance(any_of, str) or not isinstance(any_of, Iterable):
        what = "the text " if isinstance(any_of, str) else ""
        raise ValueError(f"any_of: a list of instruments, or of sets of them, is wanted, and not {what}{any_of!r}")
    return tuple(named((it,) if isinstance(it, str) or not isinstance(it, Iterable) else it) for it in any_of)


def is_plain(word: str) -> bool:
    """Whether it is a name, and no other word."""
    return not (_SIGNS & set(word) or word.startswith(TAG) or _COUNTED.fullmatch(word))


def sets_of(words: Sequence[str], names: Sequence[str], tags: Mapping[str, Sequence[str]]) -> tuple[Names, ...]:
    """The sets of instruments, any of which does for these words, in the order of `names`, the first word's first one first; plain names
    come first in each. ValueError says what isn't there, or that there are more than MOST_SETS."""
    plain = tuple(dict.fromkeys(word for word in words if is_plain(word)))
    for name in plain:
        if name not in names:
            raise _unknown(name, names)
    times_of = collections.Counter(counted(word) for word in words if not is_plain(word))
    wanted = collections.Counter[str]()
    for (count, what), times in times_of.items():
        wanted[what] += count * times
    parts = [_parts(count, what, names, tags) for what, count in wanted.items()]
    if math.prod(len(it) for it in parts) > MOST_WAYS:
        raise TooMany(f"{' '.join(words)}: there are more than {MOST_SETS} ways to choose these: name some of them, or ask for fewer")
    found: dict[frozenset[str], Names] = {}
    for chosen in itertools.product(*parts):
        way = (*plain, *itertools.chain.from_iterable(chosen))
        if len(set(way)) == len(way):
            found.setdefault(frozenset(way), way)
    if not found:
        raise TooFew(f"{' '.join(words)}: each is another instrument, and there aren't so many")
    if len(found) > MOST_SETS:
        raise TooMany(f"{' '.join(words)}: there are {len(found)} ways to choose these; {MOST_SETS} are the most: name some of them, or ask for fewer")
    return tuple(found.values())


def counted(word: str) -> tuple[int, str]:
    """How many, and of what."""
    it = _COUNTED.fullmatch(word)
    return (int(it[1]), it[2]) if it else (1, word)


def _parts(count: int, what: str, names: Sequence[str], tags: Mapping[str, Sequence[str]]) -> list[Names]:
    """So many of these: each way once."""
    its = matching(what, names, tags)
    there = f"there {'is' if len(its) == 1 else 'are'} {len(its)}: {some(its)}"
    if count < 1:
        raise TooFew(f"{count} of {what}: ask for 1 or more; {there}")
    if count > len(its):
        raise TooFew(f"{count} of {what} are wanted; {there}")
    return list(itertools.islice(itertools.combinations(its, count), MOST_WAYS + 1))


def matching(word: str, names: Sequence[str], tags: Mapping[str, Sequence[str]]) -> Names:
    """The instruments that a name, a pattern or a tag stands for, in the order of `names`. NoSuch: there are none."""
    if word.startswith(TAG):
        tag = word.removeprefix(TAG)
        if tag not in tags:
            raise NoSuch(f"{tag or word} is no tag; {'the tags are ' + ', '.join(tags) if tags else 'there are none'}{near(tag, tags)}")
        its = tuple(name for name in names if name in tags[tag])
    else:
        its = tuple(name for name in names if fnmatch.fnmatchcase(name, word))
    if not its:
        raise _unknown(word, names)
    return its


def _unknown(word: str, names: Sequence[str]) -> NoSuch:
    what = f"{word} is none of the instruments: " if is_plain(word) else f"no instrument is like {word}: {'there are ' if names else ''}"
    return NoSuch(f"{what}{some(names) or 'there are none'}{near(word, names)}")


def some(names: Sequence[str]) -> str:
    """For a text: all of these, or of many the first ones, and how many more there are."""
    return ", ".join(names) if len(names) <= MOST_SHOWN else f"{', '.join(names[:SHOWN])} and {len(names) - SHOWN} more"


def near(word: str, known: Iterable[str]) -> str:
    """For a text that says that a word isn't known: which of these is nearly that, if one is."""
    found = difflib.get_close_matches(word, list(known), 1)
    return f" (did you mean {found[0]}?)" if found else ""
