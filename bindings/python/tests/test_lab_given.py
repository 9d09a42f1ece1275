"""What is given to a lab and isn't of the right type: a ValueError says what is wanted."""

from __future__ import annotations

import datetime
import decimal
import fractions
import re
import unittest
from typing import Any, Callable

import labrun
from tests.labs import OnLab


class Given(OnLab):
    def refused(self, rows: list[tuple[Callable[[], object], str]]) -> None:
        for at, (call, text) in enumerate(rows):
            with self.subTest(at, text=text), self.assertRaisesRegex(ValueError, f"^{re.escape(text)}"):
                call()

    def test_hold(self) -> None:
        lab: Any = self.lab()
        by_text = "an instrument is named by a text, and not by"
        self.refused(
            [
                (lambda: lab.hold(["scope", "supply"]), f"{by_text} ['scope', 'supply']: each is given by itself, as by hold(*names)"),
                (lambda: lab.hold(("scope",)), f"{by_text} ('scope',): each is given by itself"),
                (lambda: lab.hold({"scope"}), f"{by_text} {{'scope'}}: each is given by itself"),
                (lambda: lab.hold("scope", 5), f"{by_text} 5"),
                (lambda: lab.hold(None), f"{by_text} None"),
                (lambda: lab.hold(any_of=[5]), f"{by_text} 5"),
                (lambda: lab.hold(any_of=[["scope", None]]), f"{by_text} None"),
                (lambda: lab.hold(any_of=[[["scope"]]]), f"{by_text} ['scope']: each is given by itself"),
                (lambda: lab.hold(any_of=5), "any_of: a list of instruments, or of sets of them, is wanted, and not 5"),
                (lambda: lab.hold("scope", timeout="x"), "timeout: 'x' is no number of seconds from 0 on"),
                (lambda: lab.hold("scope", timeout="5"), "timeout: '5' is no number of seconds from 0 on"),
                (lambda: lab.hold("scope", timeout=[5]), "timeout: [5] is no number of seconds from 0 on"),
                (lambda: lab.hold("scope", limit="2h"), "limit: '2h' is no number of seconds from 0 on"),
                (lambda: lab.hold("scope", limit=datetime.timedelta(hours=2)), "limit: datetime.timedelta(seconds=7200) is no number"),
                (lambda: lab.hold("scope", note=5), "a note is a text, and not 5"),
                (lambda: lab.station("board").hold(["scope"]), f"{by_text} ['scope']"),
            ]
        )
        self.is_empty(lab)

    def test_it_holds_all_the_same(self) -> None:
        """Numbers of other kinds, and names from anywhere."""
        lab = self.lab()
        for seconds in (5, 0.5, True, fractions.Fraction(1, 2), decimal.Decimal("0.5")):
            with lab.hold("scope", timeout=seconds, limit=seconds):  # type: ignore[arg-type]
                pass
        for any_of in (["scope", ["scope", "supply"]], iter(("scope",)), {"scope": 1}, (it for it in [("scope", "supply")])):
            with lab.hold(any_of=any_of) as held:
                self.assertIn("scope", held.instruments)
        self.is_empty(lab)

    def test_within(self) -> None:
        """The session goes on."""
        lab: Any = self.lab()
        with lab.hold("scope") as held:
            self.refused([(lambda: held.note(5), "a note is a text, and not 5")])
            self.refused([(lambda: lab.take_away("board"), "'board' is neither a session nor the number of one")])
            self.assertTrue(held.held)
        self.refused([(lambda: lab.station(["board"]), "['board'] is none of the stations"), (lambda: lab.station(5), "5 is none of")])
        self.is_empty(lab)

    def test_lab(self) -> None:
        of: Any = labrun.Lab
        self.refused(
            [
                (lambda: of(5), "instruments: names are wanted, and not 5"),
                (lambda: of(["a", 5]), "instruments: names are wanted, and not ['a', 5]"),
                (lambda: of(["a"], stations=["x"]), "stations: a mapping from names to instruments is wanted, and not ['x']"),
                (lambda: of(["a"], stations={"x": 5}), "stations: x: names are wanted, and not 5"),
                (lambda: of(["a"], tags=["x"]), "tags: a mapping from names to instruments is wanted, and not ['x']"),
                (lambda: of(["a"], guests="a"), "guests: names are wanted, and not 'a'"),
                (lambda: of(["a"], places="2"), "places: '2' is no number from 1 on"),
                (lambda: of(["a"], overtakes=2.5), "overtakes: 2.5 is no number from 0 on"),
                (lambda: of(["a"], station=["x"]), "['x'] is none of the stations"),
            ]
        )


if __name__ == "__main__":
    unittest.main()
