"""A `hold` in the command of another one: it is told of those around it by LABRUN_AROUND, and is refused if it would wait for itself."""

from __future__ import annotations

import os
from typing import TYPE_CHECKING, Union

from .words import say

if TYPE_CHECKING:
    from .held import Held
    from .quick import Quick


def around(address: str, held: Union[Quick, Held]) -> str:
    """The holds around a command, for those within: a line for each, with its process, broker, station and instruments."""
    its = "\t".join([str(os.getpid()), address, held.station, *held.instruments])
    return "\n".join([*filter(None, [os.environ.get("LABRUN_AROUND")]), its])


class Itself(Exception):
    """It would wait for a hold that waits for it."""


class Within:
    """The holds around this one, at its broker."""

    def __init__(self, at: str, warns: bool) -> None:
        self.stations: list[str] = []
        self.instruments: list[str] = []
        self._warns = warns
        for line in os.environ.get("LABRUN_AROUND", "").split("\n"):
            process, address, station, *its = *line.split("\t"), *[""] * 3
            if its[:-3] and address == at and os.path.exists(f"/proc/{process}"):
                self.stations.append(station)
                self.instruments += its[:-3]

    def checks(self, station: str, wanted: tuple[tuple[str, ...], ...]) -> None:
        """By the names alone."""
        if station in self.stations or all(set(self.instruments) & set(one) for one in wanted):
            self._is_itself()

    def lacks(self, names: list[str]) -> None:
        """It has to wait, for these instruments: only the broker knows what a pattern or a tag stands for."""
        others = [it for it in names if it not in self.instruments]
        if self.stations and names and not others:
            self._is_itself()
        if self.stations and self._warns:
            self._warns, its = False, " ".join(self.instruments)
            has = " or ".join(others) or "what this wants"
            say(f"this hold is within one of {its}: if another hold has {has} and waits for {its}, both wait for ever; name all in one hold")

    def _is_itself(self) -> None:
        its, who = " ".join(self.instruments), " and ".join(self.stations)
        raise Itself(f"within a hold of {its} by {who}, which waits for this command: it would wait for itself. Name all in one hold")
