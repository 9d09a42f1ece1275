"""What a test needs: its markers and fixtures read, each with its place; the instruments of them; and units, tests that hold as one."""

from __future__ import annotations

import difflib
import functools
import inspect
import itertools
import os
import re
from dataclasses import dataclass, field
from typing import Any, Callable, Iterable, Mapping, Optional, Sequence, TypeVar, Union

import pytest
from labrun.picks import A_NAME, NoSuch, counted, is_name, is_plain, matching, some

MARK, MISSPELT = "instruments", "instrument"
MOST_WAYS = 1000

_HOLDS = "_labrun_holds"
Function = TypeVar("Function", bound=Callable[..., Any])

Way = tuple[str, ...]
# the instruments that there are, each with its tags
Bay = Mapping[str, Sequence[str]]

# the place of a word of a marker, or of the marker
Where = Callable[[Optional[str]], str]


class Fault(Exception):
    """A marker is wrong; the text begins with its place."""


@dataclass(frozen=True)
class Wish:
    """One marker, or what one fixture holds: each of `names`, for each of `picks` as many as it says, as `2 of load-*` or `tag:precise`, and
    one of the instruments that `any_of` names, by patterns and tags too."""

    names: tuple[str, ...]
    picks: tuple[str, ...]
    any_of: tuple[str, ...]
    where: Where = field(compare=False)

    def __str__(self) -> str:
        return ", ".join([*self.names, *self.picks, *([f"one of {', '.join(self.any_of)}"] if self.any_of else [])])

    def check(self, bay: Optional[Bay]) -> None:
        """Fault says what the bay lacks. Without a bay only the names are looked at."""
        for name in self.names:
            if not is_name(name):
                raise Fault(f"{self.where(name)}: {name!r} can't be an instrument's name: {A_NAME}")
            if bay is not None and name not in bay:
                raise Fault(f"{self.where(name)}: {_unknown(name, bay)}")
        if bay is not None:
            self.choices(bay)

    def choices(self, bay: Bay) -> list[tuple[str, ...]]:
        """For each further instrument that it wants, those of which that is to be one, in the order in which they are named."""
        found = [its for word in self.picks for its in self._picked(word, bay)]
        if self.any_of:
            found.append(tuple(dict.fromkeys(name for word in self.any_of for name in self._like(word, word, bay))))
        return found

    def _picked(self, word: str, bay: Bay) -> list[tuple[str, ...]]:
        count, what = counted(word)
        its = self._like(word, what, bay)
        if not 0 < count <= len(its):
            raise Fault(f"{self.where(word)}: {count} of {what} are wanted; there {'is' if len(its) == 1 else 'are'} {len(its)}: {some(its)}")
        return [its] * count

    def _like(self, word: str, what: str, bay: Bay) -> tuple[str, ...]:
        tags: dict[str, list[str]] = {}
        for name, its in bay.items():
            for tag in its:
                tags.setdefault(tag, []).append(name)
        try:
            return matching(what, tuple(bay), tags)
        except NoSuch as fault:
            raise Fault(f"{self.where(word)}: {fault if what.startswith('tag:') else _unknown(what, bay)}") from None


def _unknown(name: str, bay: Iterable[str]) -> str:
    near = difflib.get_close_matches(name, bay, 1)
    return f"unknown instrument {name!r}: there are {some(tuple(bay)) or 'none'}" + (f" (did you mean {near[0]!r}?)" if near else "")


def read_wish(args: tuple[Any, ...], kwargs: Mapping[str, Any], where: Where, what: str = MARK) -> Wish:
    """The wish that the arguments of a marker are, or of `holds`."""
    more = [it for it in kwargs if it != "any_of"]
    if more:
        raise Fault(f"{where(None)}: {what}() takes names and any_of=, not {more[0]}=")
    any_of = kwargs.get("any_of", ())
    any_of = tuple(any_of) if isinstance(any_of, (list, tuple)) else (any_of,)
    wrong = [it for it in (*args, *any_of) if not isinstance(it, str)]
    if wrong:
        raise Fault(f"{where(None)}: an instrument is named by a text, not by {wrong[0]!r}")
    if not args and not any_of:
        raise Fault(f'{where(None)}: {what}() names none: write {what}("scope") or {what}(any_of="load-*")')
    counts = [it for it in any_of if counted(it)[1] != it]
    if counts:
        raise Fault(f"{where(counts[0])}: any_of is one of several: write {what}({counts[0]!r})")
    return Wish(tuple(filter(is_plain, args)), tuple(it for it in args if not is_plain(it)), any_of, where)


def holds(*names: str, any_of: Union[str, Sequence[str]] = ()) -> Callable[[Function], Function]:
    """Says of a fixture that it holds instruments for as long as tests use it. Written below `pytest.fixture`:

        @pytest.fixture(scope="module")
        @pytest_labrun.holds("supply")
        def powered(): ..."""

    def mark(function: Function) -> Function:
        if not callable(function) or hasattr(function, "__pytest_wrapped__") or type(function).__name__ == "FixtureFunctionDefinition":
            raise TypeError("pytest_labrun.holds(..) stands below pytest.fixture, next to the function")
        setattr(function, _HOLDS, (names, {"any_of": any_of} if any_of else {}))
        return function

    return mark


def held_by(fixture: Any) -> Optional[Wish]:
    """What a fixture holds, if it was said of it."""
    function = inspect.unwrap(getattr(fixture, "func", None) or fixture)
    given = getattr(function, _HOLDS, None)
    if given is None:
        return None
    code = getattr(function, "__code__", None)
    place = f"{os.path.relpath(code.co_filename)}:{code.co_firstlineno}" if code else "?"
    return read_wish(given[0], given[1], lambda word: place, holds.__name__)


# ---- places


def place_of(node: Any, word: Optional[str]) -> str:
    """Where a marker stands, as file:line: the line of a test's or class's decorators that has the word in quotes, else the first of them. Of a
    module the first line with it, or with `pytestmark`."""
    path = os.path.relpath(str(node.path))
    try:
        lines, first = inspect.getsourcelines(node.obj)
    except (OSError, TypeError, AttributeError):
        return path
    first = max(first, 1)
    if not isinstance(node, pytest.Module):
        lines = list(itertools.takewhile(lambda line: not re.match(r"\s*(async\s+def|def|class)\b", line), lines))
    wanted = [rf"""["']{re.escape(word)}["']"""] if word else []
    for pattern in [*wanted, "pytestmark"]:
        for at, line in enumerate(lines, first):
            if re.search(pattern, line):
                return f"{path}:{at}"
    return f"{path}:{first}"


# ---- what tests wish


def wishes_of(item: pytest.Item) -> list[Wish]:
    """Of its markers, those of its class and module too, and of the fixtures that it uses."""
    for node, _ in item.iter_markers_with_node(MISSPELT):
        raise Fault(f"{place_of(node, None)}: the marker is called {MARK}, and not {MISSPELT}: this one would hold nothing")
    marks = item.iter_markers_with_node(MARK)
    found = [read_wish(mark.args, mark.kwargs, functools.partial(place_of, node)) for node, mark in marks]
    return found + [wish for _, wish in _fixtures(item)]


def _fixtures(item: pytest.Item) -> list[tuple[Any, Wish]]:
    """The fixtures that it uses and that hold something; of one that takes the fixture of its own name from further out that, too."""
    info: Any = getattr(item, "_fixtureinfo", None)
    found = []
    for name in info.names_closure if info else ():
        fixtures = list(info.name2fixturedefs.get(name) or ())
        while fixtures:
            fixture = fixtures.pop()
            if (wish := held_by(fixture)) is not None:
                found.append((fixture, wish))
            if name not in fixture.argnames:
                break
    return found


def uses(item: pytest.Item, fixture: Any) -> bool:
    """Whether it was known before the test that it uses this one, which holds something."""
    return any(it is fixture for it, _ in _fixtures(item))


def is_skipped(item: pytest.Item) -> bool:
    """Whether its markers say by now that it isn't run. (A condition that is a text is looked at as it is set up.)"""
    by = [mark.args or (mark.kwargs.get("condition"),) for mark in item.iter_markers("skipif")]
    return any(True for _ in item.iter_markers("skip")) or any(condition is True for conditions in by for condition in conditions)


_LEVELS: dict[str, Any] = {"class": pytest.Class, "module": pytest.Module, "package": pytest.Package, "session": pytest.Session}


def _wide_keys(item: pytest.Item) -> list[tuple[Any, ...]]:
    """The fixtures that hold for it and for others, each with what makes it one and the same for them."""
    keys: list[tuple[Any, ...]] = []
    for fixture, _ in _fixtures(item):
        if fixture.scope in _LEVELS:
            node = item.getparent(_LEVELS[fixture.scope]) or item.getparent(pytest.Module)
            indices = getattr(getattr(item, "callspec", None), "indices", {})
            keys.append((fixture, node, indices.get(fixture.argname)))
    return keys


# ---- what they need


@dataclass(frozen=True)
class Need:
    """Each of `names`, and one of each of `choices`, all of them different."""

    names: tuple[str, ...] = ()
    choices: tuple[tuple[str, ...], ...] = ()

    def __bool__(self) -> bool:
        return bool(self.names or self.choices)

    def ways(self) -> tuple[Way, ...]:
        """Every set of instruments that would do, the first wish first. Each has the names first, then one for each choice."""
        count = 1
        for choice in self.choices:
            count *= len(choice)
        if count > MOST_WAYS:
            raise ValueError(f"{count} ways to choose; {MOST_WAYS} is the most")
        found: dict[frozenset[str], tuple[str, ...]] = {}
        for chosen in itertools.product(*self.choices):
            way = (*self.names, *chosen)
            if len(set(way)) == len(way):
                found.setdefault(frozenset(way), way)
        return tuple(found.values())


def need_of(wishes: Iterable[Wish], bay: Bay) -> Need:
    """They add up: every name once, every choice one more instrument."""
    wishes = list(wishes)
    names = tuple(dict.fromkeys(name for wish in wishes for name in wish.names))
    choices = tuple(choice for wish in wishes for choice in wish.choices(bay))
    need = Need(names, choices)
    if wishes and not need.ways():
        what = "any_of" if any(wish.any_of for wish in wishes) else [word for wish in wishes for word in wish.picks][-1]
        raise Fault(f"{wishes[0].where(None)}: no instrument is left for {what}: there are {some(tuple(bay))}")
    return need


@functools.lru_cache(maxsize=None)
def ways_of(needs: tuple[Need, ...]) -> tuple[Way, ...]:
    """Every set of instruments that does for each of these needs, one after another, and of which no part would; small ones first."""
    if len(needs) == 1:
        return needs[0].ways()
    found: list[Way] = [()]
    for need in needs:
        grown: dict[frozenset[str], Way] = {}
        for some in found:
            for way in need.ways():
                more = tuple(dict.fromkeys((*some, *way)))
                grown.setdefault(frozenset(more), more)
        least = [way for names, way in grown.items() if not any(other < names for other in grown)]
        found = sorted(least, key=len)[:MOST_WAYS]
    return tuple(found)


@dataclass
class Unit:
    """Tests that hold as one, from the first to the last of them: one test, or those that share a fixture that holds. `tests` are their
    numbers in the collection, `needs` what each needs. `fault` says why they can't run."""

    tests: list[int]
    needs: list[Need] = field(default_factory=list)
    fault: Optional[str] = None

    @property
    def ways(self) -> tuple[Way, ...]:
        return ways_of(tuple(dict.fromkeys(self.needs)))


def named_by(items: Iterable[pytest.Item]) -> Bay:
    """All instruments that markers name: the bay, if nobody says what is in it."""
    wishes = [wish for item in items for wish in wishes_of(item)]
    names = {name for wish in wishes for name in (*wish.names, *filter(is_name, wish.any_of))}
    return {name: () for name in sorted(names)}


def units_of(items: Sequence[pytest.Item], bay: Bay) -> list[Unit]:
    """The units of a collection, in its order."""
    found: list[Unit] = []
    for tests in _together(items):
        unit = Unit(tests)
        try:
            unit.needs = [Need() if is_skipped(items[test]) else need_of(wishes_of(items[test]), bay) for test in tests]
        except (Fault, ValueError) as fault:
            unit.fault, unit.needs = str(fault), [Need() for _ in tests]
        found.append(unit)
    return found


def _together(items: Sequence[pytest.Item]) -> list[list[int]]:
    """Tests that share a fixture that holds, by each other too, each group in the collection's order."""
    group_of: dict[Any, list[int]] = {}
    groups: list[list[int]] = []
    for number, item in enumerate(items):
        keys = _wide_keys(item)
        shared = {id(group): group for group in (group_of.get(key) for key in keys) if group is not None}
        others = list(shared.values())
        if not others:
            groups.append([])
        mine = others.pop(0) if others else groups[-1]
        for other in others:
            mine.extend(other)
            groups[:] = [it for it in groups if it is not other]
            group_of.update({key: mine for key, group in group_of.items() if group is other})
        mine.append(number)
        group_of.update(dict.fromkeys(keys, mine))
    for group in groups:
        group.sort()
    return groups


def chosen_for(need: Need, held: Sequence[str]) -> Way:
    """Of the instruments that its unit holds, those that are the test's: its names, and one for each of its choices."""
    return next(way for way in need.ways() if set(way) <= set(held))
