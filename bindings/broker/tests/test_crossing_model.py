"""Sessions over two bays as a model: every interleaving of small labs, in pure Python. It has the rule of a bay (docs/BAY.md, *Who is let in*)
and the order in which a session asks its bays (docs/broker.md), each written anew here, and nothing of the broker.

Between any two steps of one session the others may do any of theirs: try a bay, ask, be let in, be told, let go of one bay, run out of time."""

from __future__ import annotations

import itertools
import unittest
from dataclasses import dataclass, replace
from typing import Iterator, NamedTuple

BAYS = {"a": 0, "b": 0, "c": 1, "d": 1}  # which bay has each instrument
WISHES = ("ac", "bc", "abcd", "a", "c")
LABS = (*itertools.combinations_with_replacement(WISHES, 3), ("ac", "bd", "ad"), ("ad", "bc", "bd"))


@dataclass(frozen=True)
class Rules:
    """`places` are those for guests in each bay. What is wrong: `reversed` are sessions that take the bays from the last; `keeps` is whether one
    that couldn't have all at once keeps what it got by trying, and waits for the rest."""

    overtakes: int = 2
    places: int = 3
    may_lapse: bool = False
    reversed: frozenset[int] = frozenset()
    keeps: bool = False


class Session(NamedTuple):
    """`what` is trying (or not there yet), taking, told, ending or over; `tried` are the bays that were tried, `at` which of its bays it takes
    next. What doesn't count any more is forgotten, so that fewer worlds differ."""

    what: str = "trying"
    tried: frozenset[int] = frozenset()
    is_refused: bool = False
    at: int = 0
    was_told: bool = False


class World(NamedTuple):
    sessions: tuple[Session, ...]
    # of each bay: who holds there, and who waits, each with how often it was passed
    held: tuple[frozenset[int], ...]
    lines: tuple[tuple[tuple[int, int], ...], ...]


class Lab:
    def __init__(self, wishes: tuple[str, ...], rules: Rules) -> None:
        self.rules = rules
        self.needs = [{bay: frozenset(it for it in wish if BAYS[it] == bay) for bay in (0, 1)} for wish in wishes]
        self.bays = [[bay for bay in (0, 1) if its[bay]][:: -1 if at in rules.reversed else 1] for at, its in enumerate(self.needs)]

    def first(self) -> World:
        return World(tuple(Session() for _ in self.needs), (frozenset(), frozenset()), ((), ()))

    # ---- one bay

    def may_be_let_in(self, world: World, bay: int, who: int, before: list[int]) -> bool:
        """`before` are those in line that were passed as often as may be, and go before it: what they need is kept for them."""
        if len(world.held[bay]) >= self.rules.places:
            return False
        taken = [self.needs[it][bay] for it in (*world.held[bay], *before)]
        return all(self.needs[who][bay].isdisjoint(it) for it in taken)

    def let_in(self, world: World, bay: int, who: int) -> World:
        """Whoever is passed by it, counts that. (While there is no place it isn't passed.)"""
        is_place = len(world.held[bay]) < self.rules.places
        line = [(it, passed) for it, passed in world.lines[bay] if it != who]
        counts = [min(self.rules.overtakes, passed + (is_place and not self.needs[it][bay].isdisjoint(self.needs[who][bay]))) for it, passed in line]
        after = tuple((it, count) for (it, _), count in zip(line, counts))
        return self._with(world, bay, world.held[bay] | {who}, after)

    def follows(self, world: World, bay: int) -> World:
        """All are let in that may be."""
        while True:
            line = world.lines[bay]
            late = [it for it, passed in line if passed >= self.rules.overtakes]
            order = [*late, *(it for it, passed in line if passed < self.rules.overtakes)]
            found = next((it for at, it in enumerate(order) if self.may_be_let_in(world, bay, it, late[:at])), None)
            if found is None:
                return world
            world = self.let_in(world, bay, found)

    def lets_go(self, world: World, bay: int, who: int) -> World:
        line = tuple(it for it in world.lines[bay] if it[0] != who)
        return self.follows(self._with(world, bay, world.held[bay] - {who}, line), bay)

    @staticmethod
    def _with(world: World, bay: int, held: frozenset[int], line: tuple[tuple[int, int], ...]) -> World:
        helds, lines = list(world.held), list(world.lines)
        helds[bay], lines[bay] = held, line
        return world._replace(held=tuple(helds), lines=tuple(lines))

    # ---- one session: what it may do next

    def steps(self, world: World) -> Iterator[World]:
        for who, it in enumerate(world.sessions):
            yield from getattr(self, f"_{it.what}")(world, who, it)

    @staticmethod
    def _is(world: World, who: int, session: Session) -> World:
        return world._replace(sessions=(*world.sessions[:who], session, *world.sessions[who + 1 :]))

    def _trying(self, world: World, who: int, it: Session) -> Iterator[World]:
        """In any order, and without waiting. As soon as one bay can't, what it has goes back."""
        for bay in set(self.bays[who]) - it.tried:
            late = [one for one, passed in world.lines[bay] if passed >= self.rules.overtakes]
            may = self.may_be_let_in(world, bay, who, late)
            after = self.let_in(world, bay, who) if may else world
            yield self._is(after, who, it._replace(tried=it.tried | {bay}, is_refused=it.is_refused or not may))
        if it.is_refused:
            last = None if self.rules.keeps else self._last(world, who)
            yield self._is(world, who, Session("taking")) if last is None else self.lets_go(world, last, who)
        elif it.tried == set(self.bays[who]):
            yield self._is(world, who, Session("told", was_told=True))

    def _taking(self, world: World, who: int, it: Session) -> Iterator[World]:
        """In its order, the next bay only once it holds in the one before."""
        if it.at == len(self.bays[who]):
            yield self._is(world, who, Session("told", was_told=True))
            return
        bay = self.bays[who][it.at]
        if who in world.held[bay]:
            yield self._is(world, who, it._replace(at=it.at + 1))
        elif all(one != who for one, _ in world.lines[bay]):
            yield self.follows(self._with(world, bay, world.held[bay], (*world.lines[bay], (who, 0))), bay)
        elif self.rules.may_lapse:
            yield self._is(world, who, Session("ending"))

    def _told(self, world: World, who: int, it: Session) -> Iterator[World]:
        yield self._is(world, who, it._replace(what="ending"))

    def _ending(self, world: World, who: int, it: Session) -> Iterator[World]:
        """The last bay first; in one where it waits it leaves the line."""
        bay = next((bay for bay in reversed(self.bays[who]) if any(one == who for one, _ in world.lines[bay])), self._last(world, who))
        yield self._is(world, who, it._replace(what="over")) if bay is None else self.lets_go(world, bay, who)

    def _over(self, world: World, who: int, it: Session) -> Iterator[World]:
        yield from ()

    def _last(self, world: World, who: int) -> "int | None":
        return next((bay for bay in reversed(self.bays[who]) if who in world.held[bay]), None)


class Found(Exception):
    """What isn't to be."""


def looks(lab: Lab, world: World) -> None:
    """At each moment."""
    for bay in (0, 1):
        its = [lab.needs[who][bay] for who in world.held[bay]]
        if sum(map(len, its)) != len(frozenset[str]().union(*its)) or len(its) > lab.rules.places:
            raise Found("two hold one thing")
    for who, it in enumerate(world.sessions):
        if it.what == "told" and any(who not in world.held[bay] for bay in lab.bays[who]):
            raise Found("it was told, and doesn't hold all")


def ends_of(lab: Lab) -> "tuple[int, list[World]]":
    """How many worlds there are, and those in which nobody can do anything any more. (No step is ever undone, so each way comes to such an end.)"""
    seen, todo, ends = {lab.first()}, [lab.first()], list[World]()
    while todo:
        world = todo.pop()
        looks(lab, world)
        nexts = list(lab.steps(world))
        if not nexts:
            ends.append(world)
        new = set(nexts) - seen
        seen |= new
        todo += new
    return len(seen), ends


def stuck(lab: Lab) -> list[World]:
    return [it for it in ends_of(lab)[1] if any(one.what != "over" for one in it.sessions)]


class AllInterleavings(unittest.TestCase):
    def test_everyone_comes_to_hold(self) -> None:
        worlds = 0
        for wishes in LABS:
            for rules in (Rules(1, 3), Rules(0, 1)):
                count, ends = ends_of(Lab(wishes, rules))
                worlds += count
                self.assertEqual({(one.what, one.was_told) for it in ends for one in it.sessions}, {("over", True)}, f"{wishes}, {rules}")
                self.assertTrue(all(it.held == (frozenset(), frozenset()) and it.lines == ((), ()) for it in ends))
        self.assertGreater(worlds, 50000)

    def test_with_time_limits_nobody_is_stuck_either(self) -> None:
        for wishes in LABS[::4]:
            count, ends = ends_of(Lab(wishes, Rules(1, 3, may_lapse=True)))
            self.assertEqual({one.what for it in ends for one in it.sessions}, {"over"}, str(wishes))
            self.assertTrue(all(it.held == (frozenset(), frozenset()) and it.lines == ((), ()) for it in ends))
            # (some end gives each what it wants, and some time limit passes in a lab where two want one thing)
            self.assertTrue(any(all(one.was_told for one in it.sessions) for it in ends))
            shares = any(set(one) & set(other) for one, other in itertools.combinations(wishes, 2))
            self.assertEqual(any(not one.was_told for it in ends for one in it.sessions), shares, str(wishes))

    def test_nobody_waits_in_an_earlier_bay_who_holds_in_a_later_one(self) -> None:
        lab = Lab(("ac", "ac", "abcd"), Rules())
        seen, todo = {lab.first()}, [lab.first()]
        while todo:
            world = todo.pop()
            for who, _ in world.lines[0]:
                self.assertNotIn(who, world.held[1])
            new = set(lab.steps(world)) - seen
            seen |= new
            todo += new
        self.assertTrue(any(world.lines[1] and world.held[0] for world in seen), "somebody waits in the second and holds in the first")

    def test_wrong_orders_are_stuck(self) -> None:
        one_goes_back = Rules(reversed=frozenset({1}))
        self.assertTrue(stuck(Lab(("ac", "ac"), one_goes_back)))
        self.assertTrue(stuck(Lab(("ac", "ac", "b"), one_goes_back)))
        # (no order is wrong by itself: all the other way round is one order, too)
        self.assertEqual(stuck(Lab(("ac", "ac", "bd"), Rules(reversed=frozenset({0, 1, 2})))), [])
        self.assertTrue(stuck(Lab(("ac", "ac"), Rules(keeps=True))), "who keeps what it got by trying")
        # each has what the other waits for
        world = stuck(Lab(("ac", "ac"), one_goes_back))[0]
        self.assertEqual((world.held, world.lines), ((frozenset({0}), frozenset({1})), (((1, 0),), ((0, 0),))))
        self.assertEqual(replace(one_goes_back, reversed=frozenset()), Rules())

    def test_a_wrong_bay_is_seen(self) -> None:
        class Gives(Lab):
            def may_be_let_in(self, world: World, bay: int, who: int, before: list[int]) -> bool:
                return True

        with self.assertRaises(Found):
            ends_of(Gives(("a", "a"), Rules()))


if __name__ == "__main__":
    unittest.main()
