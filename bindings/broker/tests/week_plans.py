"""What somebody asks for in the lab's week (week.py), by chance: the instruments, for how long, by which kind of program, and what becomes of it."""

from __future__ import annotations

import random
from typing import Any

from tests.week_world import STATIONS, Model

Plan = dict[str, Any]
KINDS = {"python": 53, "http": 22, "hold": 8, "labrun-hold": 15, "pytest": 2}
FATES = {"": 91, "kill": 2, "kill in line": 1, "stop": 2, "cut": 1.3, "overstays": 1.5, "released": 0.8}
PLAIN = range(6)  # the ways of `_what` that a test's marker can ask in, too


def is_loads(plan: Plan) -> bool:
    return any(it.startswith(("load", "2 of load", "tag")) for it in plan["names"])


def planned(chance: random.Random, model: Model, person: str, number: int) -> Plan:
    its, kind = model.allowed(person), chance.choices(list(KINDS), list(KINDS.values()))[0]
    plan: Plan = {"id": number, "kind": kind, "words": [], "any_of": [], "station": "", "timeout": None, "limit": None, "work": chance.random() ** 3 * 1.5}
    plan |= {"is_away": False, "idle": 0.0, "note": "V = 5.003" if chance.random() < 0.3 else None, "fails": chance.random() < 0.01, "expected": {"done"}}
    _what(chance, model, plan, its)
    if chance.random() < 0.15:
        plan["timeout"] = chance.choice([0.0, 0.3, 1.0, 3.0])
        plan["expected"].add("TimeoutError")
    fate = chance.choices(list(FATES), list(FATES.values()))[0]
    # (labrun-hold asks at a Unix socket; a test is told that its session is over, and goes on)
    fate = "" if (fate, kind) in (("cut", "labrun-hold"), ("released", "pytest")) else fate
    if fate == "overstays" and kind not in ("labrun-hold", "pytest"):
        # (it isn't at its instruments at all: on a machine that is busy it would be, when it is taken away, and the next one is told to hold)
        plan |= {"is_away": True, "limit": chance.choice([4.0, 5.0]), "idle": 10.0, "work": 0.0}
        plan["expected"].add("TakenAway")
    elif fate == "overstays":
        plan["idle"] = 3.0
    if fate == "released":
        plan["idle"], plan["expected"] = 90.0, {"TakenAway", *plan["expected"] - {"done"}}
    plan["fate"], plan["span"] = fate, chance.choices([1.0, 2.0, 4.0, 8.0, 16.0], [5, 4, 3, 2, 1])[0]
    if fate == "cut" and is_loads(plan):
        plan["expected"].add("TakenAway")
    if plan["fails"]:
        plan["expected"].add("failed")
    return plan


def _what(chance: random.Random, model: Model, plan: Plan, its: list[str]) -> None:
    hot = [it for it in its if it.endswith(("-1", "-2"))] or its

    def some(most: int) -> list[str]:
        of = hot if chance.random() < 0.5 else its
        return chance.sample(of, min(len(of), chance.randint(1, most)))

    way = chance.choices(range(9), [45, 14, 8, 10, 6, 5, 6, 1, 1])[0]
    way = way if plan["kind"] != "pytest" or way in PLAIN else 0
    families = sorted({it.rpartition("-")[0] for it in its})
    if way == 1:
        plan["any_of"] = [[it] for it in some(3)]
    elif way == 2:
        plan["any_of"] = [some(2), some(2)] if plan["kind"] != "pytest" else [[it] for it in some(2)]
    elif way == 3:
        plan["words"] = [f"{chance.choice(families)}-*"]
    elif way == 4 and sum(it.startswith("load-") for it in its) > 1:
        plan["words"] = ["2 of load-*", *(it for it in some(1) if not it.startswith("load-"))]
    elif way == 5 and set(model.tags["precise"]) <= set(its):
        plan["words"] = ["tag:precise"]
    elif way == 6:
        plan["station"] = chance.choice(list(STATIONS))
        plan["words"] = [it for it in STATIONS[plan["station"]] if it in its][: chance.randint(1, 3)]
        if not plan["words"]:
            plan["words"], plan["station"] = some(2), ""
    elif way == 7:
        _wrong(chance, plan)
    elif way == 8 and len(its) < len(model.instruments):
        plan["words"], plan["expected"] = [chance.choice([it for it in model.instruments if it not in its])], {"MayNotUse"}
    plan["words"] = plan["words"] or ([] if plan["any_of"] else some(3))
    plan["names"] = [*plan["words"], *(it for one in plan["any_of"] for it in one)]
    # (a test's pattern is each that is like that, and not only what somebody may have)
    like = model.matching([it.removeprefix("2 of ") for it in plan["words"]])
    if plan["kind"] == "pytest" and not set(like) <= set(its):
        plan["expected"].add("MayNotUse")


def _wrong(chance: random.Random, plan: Plan) -> None:
    words, station, outcome = chance.choice(
        [(["scop-1"], "", "NoInstrument"), (["frobnicator"], "", "NoInstrument"), (["4 of meter-*"], "", "BadWish"), (["scope-1"], "lathe", "BadWish"),
         (["laser-*", "99 of load-*"], "", "NoInstrument"), (["scope-2"], "board", "MayNotUse")]
    )  # fmt: skip
    plan |= {"words": words, "station": station, "expected": {outcome, "MayNotUse", "NoInstrument"}}
