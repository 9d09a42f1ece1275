"""How several bays stand, in one status: the rows of all, each with the name of its bay, and what there is to say of each bay."""

from __future__ import annotations

from typing import TYPE_CHECKING, Any, Iterable, Mapping, Optional, Sequence

from labrun.picks import near

from .errors import BadWish
from .texts import called

if TYPE_CHECKING:
    from .keeping import Keeping

ROWS = ("instruments", "stations", "in_line")
OF_EACH = ("since", "sessions", "refusals", "disk", "disk_since", "overtakes")

Status = dict[str, Any]


def all_of(names: Sequence[str]) -> str:
    return " and ".join([", ".join(names[:-1]), names[-1]] if len(names) > 1 else names)


def in_which(keeping: Keeping) -> str:
    """As ` in bay north`, where it is one of several."""
    return f" in {called('bay', keeping.bay.name)}" if len(keeping.peers) > 1 else ""


def no_bay(name: str, bays: Sequence[str]) -> BadWish:
    return BadWish(f"{name[:64]} is no bay of this broker: there {'is' if len(bays) == 1 else 'are'} {', '.join(bays)}{near(name, bays)}")


def only(status: Status, bay: Optional[str]) -> Status:
    """The bay of this name, if one is wanted."""
    its = {name or str(one["bay"]): one for name, one in parts(status)}
    if bay is not None and bay not in its:
        raise no_bay(bay, tuple(its))
    if bay is None or not status.get("bays"):
        return status
    return {**its[bay], "bays": [one for one in status["bays"] if one["bay"] == bay]}


def status_of(name: str, refusals: int, its: Mapping[str, Status]) -> Status:
    """`its` are those of the bays, by their names. (A wish that no bay has is a refusal of none.)"""
    each = list(its.values())
    wrong = [(bay, it) for bay, it in its.items() if it["disk"]]
    rows = {key: [{**row, "bay": bay} for bay, it in its.items() for row in it[key]] for key in ROWS}
    rows["stations"] = _each_once(rows["stations"])
    return {
        **each[0], **rows, "bay": name, "refusals": refusals,
        "since": min(it["since"] for it in each), "sessions": sum(it["sessions"] for it in each),
        "overtakes": max(it["overtakes"] for it in each),
        "disk": "; ".join(f"{bay}: {it['disk']}" for bay, it in wrong), "disk_since": min((it["disk_since"] for _, it in wrong), default=None),
        "bays": [{"bay": bay, **{key: it[key] for key in OF_EACH}} for bay, it in its.items()],
    }  # fmt: skip


def _each_once(rows: Iterable[Status]) -> list[Status]:
    """Guests have their names from the whole lab, and each bay shows as many as it may have: of those of one name, the one that is in a session."""
    found = dict[str, list[Status]]()
    for row in rows:
        found.setdefault(row["name"], []).append(row)
    return [it for its in found.values() for it in [one for one in its if one["state"] != "idle"] or its[:1]]


def parts(status: Status) -> list[tuple[str, Status]]:
    """Each bay's own status again, with its name; of one bay that is alone, its own, without."""
    if not status.get("bays"):
        return [("", status)]
    return [(one["bay"], {**status, **one, **{key: [row for row in status[key] if row["bay"] == one["bay"]] for key in ROWS}}) for one in status["bays"]]
