"""Bays of a lab that change while it runs: each is taken as a whole, or not at all (applying.py). Here stands what is of several: no name is that
of two things, and people and limits are the lab's."""

from __future__ import annotations

from dataclasses import replace
from typing import Any, Mapping

import labrun

from . import applying
from .bay import Bay, BayFault, table_in
from .bays import Bays, Kept
from .errors import BadWish, CantChange
from .labs import Lab, bay_of_lab, is_lab, lab_of_texts, twice

BAYS_LATER = f"bays are put in and taken out {applying.LATER}"


async def applies(kept: Kept, wish: Any, by: str) -> list[str]:
    """What a message asks for; what has changed, or would."""
    if isinstance(kept, Bays):
        if wish.bays and wish.of:
            raise BadWish(f"the file is that of a lab, with all of its bays: of the bay {wish.of[:64]} alone (--bay) its own file is applied")
        if wish.bays:
            return await apply_lab(kept, wish.bay, dict(wish.bays), by, wish.only_check)
        return await apply_one(kept, wish.of, wish.bay, by, wish.only_check)
    kept.in_bay(wish.of)
    if wish.bays:
        raise BadWish("the file is that of a lab of several bays, and this broker keeps one")
    return await applying.apply(kept, wish.bay, by, wish.only_check)


async def apply_one(bays: Bays, name: str, text: str, by: str, is_check: bool) -> list[str]:
    """One bay goes on as its file has it by now."""
    try:
        given = table_in(text, "the file")
        name = name or str(given.get("bay", ""))
        if not name:
            raise BadWish(f"the file doesn't say which bay it is, of {', '.join(bays.of)}: say so (--bay), or in the file (bay = \"..\")")
        home = bays.in_bay(name)
        after = bays.lab.as_its(name, bay_of_lab(name, text, f"the file of the bay {name}"))
    except BayFault as fault:
        raise BadWish(str(fault)) from None
    async with bays.changing:
        _may(bays, {name: after})
        return await applying.becomes(home, text, after, by, is_check)


async def apply_lab(bays: Bays, text: str, texts: Mapping[str, str], by: str, is_check: bool) -> list[str]:
    """All of them, and people and limits: first all is looked at, and if somebody is in the way of one, nothing changes."""
    try:
        if not is_lab(text, "lab"):
            raise BadWish("the file has no [bays]: it isn't that of a lab")
        lab = lab_of_texts(text, texts, "lab")
    except BayFault as fault:
        raise BadWish(str(fault)) from None
    if lab.name != bays.lab.name:
        raise CantChange(f"the file is of the lab {lab.name}, and this one is {bays.lab.name}: give it a broker and a folder of its own")
    if set(lab.bays) != set(bays.of):
        raise CantChange(f"the lab has the bays {', '.join(bays.of)}, and the file {', '.join(lab.bays)}: {BAYS_LATER}")
    async with bays.changing:
        for entrance in bays.entrances:
            entrance.may_be(lab.whole)
        its = {name: await applying.becomes(it, texts[name], lab.bays[name], by, True) for name, it in bays.of.items()}
        return _told(its) if is_check else await _becomes(bays, lab, texts, by)


async def _becomes(bays: Bays, lab: Lab, texts: Mapping[str, str], by: str) -> list[str]:
    """(First those that lose instruments: none is ever in two bays.)"""
    its, before = dict[str, list[str]](), bays.lab
    order = sorted(bays.of, key=lambda name: set(bays.of[name].bay.instruments) <= set(lab.bays[name].instruments))
    try:
        for name in order:
            _may(bays, {name: lab.bays[name]})
            its[name] = await applying.becomes(bays.of[name], texts[name], lab.bays[name], by, False)
    except labrun.LabrunError as fault:
        done = [name for name in bays.of if its.get(name)]
        raise fault if not done else CantChange(f"{fault}\nof the lab, this is changed all the same: {', '.join(done)}") from None
    bays.goes_by(replace(lab, paths=before.paths))
    for entrance in bays.entrances:
        entrance.has_changed()
    return _told({name: its[name] for name in bays.of})


def _told(its: Mapping[str, list[str]]) -> list[str]:
    """What has changed in each; what has in all of them, once."""
    of_all = [line for line in next(iter(its.values())) if all(line in lines for lines in its.values())] if len(its) > 1 else []
    return [*of_all, *(f"{name}: {line}" for name, lines in its.items() for line in lines if line not in of_all)]


def _may(bays: Bays, after: Mapping[str, Bay]) -> None:
    """CantChange: a name would be that of two things."""
    if faults := list(twice({name: after.get(name, it.bay) for name, it in bays.of.items()})):
        raise CantChange("\n".join(["nothing has changed:", *faults]))
