"""The records of one machine, of several that lead one after the other: what its file lacks as it begins to lead again, from hand-made records."""

from __future__ import annotations

import csv
import io
import json
import os
import tempfile
import unittest
from typing import Any
from unittest import mock

from labrun_broker import aside
from labrun_broker.own import Known, Own
from labrun_broker.sessions import HOLDS, UNKNOWN, Past
from tests.brokers import LIMIT
from tests.test_past import START, past_of, ran, record

Records = list[dict[str, Any]]
BOARD, OTHER = "b" * 32, "c" * 32


def held(t: float, number: int, *instruments: str, station: str = "board", ticket: str = "") -> dict[str, Any]:
    return {**record(t, "held", station, *instruments, session=number), "ticket": ticket or f"{number:032x}"}


def of(t: float, what: str, number: int, *instruments: str, station: str = "board", text: str = "") -> dict[str, Any]:
    return record(t, what, station, *instruments, session=number, text=text)


class Lacks(unittest.TestCase):
    def mended(self, own: Records, recent: Records, holds: Records = [], missing: Records = []) -> Past:
        """By the file once it has what it lacks, and the broker begins."""
        known = Known()
        for it in own:
            known.take(it)
        self.lacks = known.lacks([*recent, *missing], missing, holds)
        return past_of([*own, *self.lacks, record(100, "opened")])

    def told(self, it: Past) -> list[tuple[Any, ...]]:
        at = lambda t: None if t is None else t - START
        return [(one.number, one.how, at(one.held), at(one.ended)) for one in it.sessions()]

    def test_an_end_that_etcd_has(self) -> None:
        """With when its client was away; notes that the other machine has stay there, and its end isn't that of another session."""
        own = [held(10, 1, "scope"), of(11, "note", 1, text="5 V"), held(12, 2, "oven", station="guest-1")]
        more = [of(20, "gone", 1), of(25, "back", 1), of(27, "note", 1, text="6 V"), {**of(30, "let_go", 1, "scope"), "after": 20.0}]
        its = self.mended(own, [*own, *more, of(31, "failed", 3, station="guest-1")], [held(12, 2, "oven", station="guest-1")])
        self.assertEqual(self.told(its), [(1, "done", 10, 30), (2, HOLDS, 12, None)])
        self.assertEqual((its.ended[0].gone, its.ended[0].notes, its.ended[0].work), ([(START + 20, START + 25)], [(START + 11, "5 V")], 20.0))

    def test_an_end_that_nobody_knows(self) -> None:
        """It was open when this machine's last record was written, or when etcd says something of it."""
        own = [held(10, 1, "scope"), held(11, 2, "oven", station="guest-1"), of(12, "asked", 3, "scope", station="guest-2"), of(13, "note", 1)]
        its = self.mended(own, [of(40, "gone", 2, station="guest-1"), held(50, 9, "scope")])
        self.assertEqual(self.told(its), [(1, UNKNOWN, 10, 13), (2, UNKNOWN, 11, 40), (3, UNKNOWN, None, 13)])
        self.assertEqual({it["what"] for it in self.lacks}, {"unknown", "gone"})

    def test_one_that_waited_and_held_elsewhere(self) -> None:
        """Its client was told by the other machine. One that goes on holds here, too, from when it did."""
        own = [of(10, "asked", 1, "scope"), of(10, "asked", 2, "oven", station="guest-1")]
        its = self.mended(own, [*own, held(20, 1, "scope"), of(30, "failed", 1, "scope", text="smoke")], [held(25, 2, "oven", station="guest-1")])
        self.assertEqual(self.told(its), [(1, "failed", 20, 30), (2, HOLDS, 25, None)])
        self.assertEqual([it.asked - START for it in its.sessions()], [10, 10])

    def test_one_that_goes_on(self) -> None:
        """It is there once, gone since its client is."""
        own, holds = [held(10, 1, "scope"), of(12, "gone", 1)], [held(10, 1, "scope"), held(20, 2, "oven", station="guest-1")]
        gone = [of(12, "gone", 1), of(21, "back", 1), of(30, "gone", 1), of(31, "gone", 2, station="guest-1")]
        its = self.mended(own, [*holds, *gone], holds)
        self.assertEqual(self.told(its), [(1, HOLDS, 10, None), (2, HOLDS, 20, None)])
        self.assertEqual([it.gone for it in its.sessions()], [[(START + 12, START + 21), (START + 30, None)], [(START + 31, None)]])

    def test_nothing_is_held_twice(self) -> None:
        """Whatever the clocks of the two said, and what a broker that didn't mend it has left in the file."""
        own = [held(10, 1, "scope"), held(20, 2, "scope", "oven", station="guest-1"), held(30, 3, "scope", station="guest-2"), of(50, "note", 3, station="guest-2")]
        its = self.mended(own, [], [held(45, 4, "scope", station="guest-3"), held(45, 5, "supply", station="guest-4")])
        self.assertEqual(self.told(its), [(1, UNKNOWN, 10, 20), (2, UNKNOWN, 20, 30), (3, UNKNOWN, 30, 50), (5, HOLDS, 45, None), (4, HOLDS, 50, None)])

    def test_an_etcd_that_was_wiped(self) -> None:
        """Another session has the number, and the station: its end isn't that of the one here."""
        own = [held(10, 1, "scope", ticket=BOARD), of(11, "asked", 2, "oven", station="guest-1")]
        other, asked = held(60, 1, "scope", ticket=OTHER), of(61, "asked", 2, "oven", station="guest-1")
        its = self.mended(own, [other, asked, of(70, "let_go", 1, "scope"), of(71, "gave_up", 2, "oven", station="guest-1")])
        self.assertEqual(self.told(its), [(1, UNKNOWN, 10, 11), (2, UNKNOWN, None, 11)])
        its = self.mended(own, [other], [other])
        self.assertEqual(self.told(its), [(1, UNKNOWN, 10, 11), (2, UNKNOWN, None, 11), (1, HOLDS, 60, None)])

    def test_what_etcd_lacked_too(self) -> None:
        """Of 1 the file has all but the end, of 2 all but a note, of 3 nothing, and of 4, of another machine, it needs nothing."""
        own = [held(10, 1, "scope"), of(11, "note", 1, text="5 V"), held(12, 2, "oven", station="guest-1")]
        missing = [held(10, 1, "scope"), of(10, "note", 1, text="5 V"), of(13, "let_go", 1, "scope"), of(12, "note", 2, station="guest-1", text="6 V")]
        missing += [held(14, 3, "scope"), of(14, "note", 3, text="7 V"), of(15, "let_go", 3, "scope"), of(16, "let_go", 4, "supply")]
        its = self.mended(own, [], [held(12, 2, "oven", station="guest-1")], missing)
        self.assertEqual(self.told(its), [(1, "done", 10, 13), (2, HOLDS, 12, None), (3, "done", 14, 15)])
        self.assertEqual([[text for _, text in it.notes] for it in its.sessions()], [["5 V"], ["6 V"], ["7 V"]])
        self.assertEqual(len(self.lacks), 1 + 1 + 3)
        its = self.mended([*own, of(14.5, "let_go", 1, "scope")], [], [], missing[4:])
        self.assertEqual(self.told(its)[-1], (3, "done", 14.5, 15))

    def test_notes_with_one_text(self) -> None:
        """Of three, etcd lacked the last two, and the file has the first two."""
        own = [held(10, 1, "scope"), of(11, "note", 1, text="5 V"), of(12, "note", 1, text="5 V")]
        missing = [of(13, "note", 1, text="5 V"), of(14, "note", 1, text="5 V"), of(15, "note", 1, text="6 V")]
        its = self.mended(own, own[:2], [held(10, 1, "scope")], missing)
        self.assertEqual([(t - START, text) for t, text in its.sessions()[0].notes], [(11, "5 V"), (12, "5 V"), (14, "5 V"), (15, "6 V")])


class Files(unittest.IsolatedAsyncioTestCase):
    def setUp(self) -> None:
        # (for what takes longer than a moment the loop doesn't wait, and on a busy machine any write may)
        self.enterContext(mock.patch.object(aside, "MOMENT", LIMIT))
        self.folder = self.enterContext(tempfile.TemporaryDirectory())

    def lines(self) -> list[tuple[Any, Any]]:
        with open(f"{self.folder}/records.jsonl", encoding="utf-8") as file:
            return [(it["what"], it["session"]) for it in map(json.loads, file)]

    async def test_what_is_added_before_it_is_known_what_it_lacks(self) -> None:
        """That isn't written; and what it lacks doesn't wait for the journal."""
        with open(f"{self.folder}/records-1.jsonl", "w", encoding="utf-8") as file:
            file.write(json.dumps(held(10, 1, "scope")) + "\n")
        # (one that can't be read)
        os.mkdir(f"{self.folder}/records-2.jsonl")
        one = Own(self.folder, f"{self.folder}/records.jsonl", True)
        self.addCleanup(one.close)
        one.add(of(10, "let_go", 1))
        one.mends([of(10, "let_go", 1)], [], [held(20, 2, "scope")])
        one.add(record(30, "opened"))
        one.write()
        self.assertEqual(self.lines(), [("let_go", 1), ("held", 2), ("opened", None)])


class Shown(unittest.TestCase):
    """By the commands."""

    def state(self, records: Records) -> str:
        folder = self.enterContext(tempfile.TemporaryDirectory())
        with open(os.path.join(folder, "records.jsonl"), "w", encoding="utf-8") as file:
            file.write("".join(json.dumps(it) + "\n" for it in records))
        return folder

    def test_a_note_whose_session_isnt_known(self) -> None:
        """It has what it has, in its place; of the last seconds alone, only if it is of those."""
        lone = of(15, "note", 7, "scope", station="guest-1", text="5 V")
        folder = self.state([held(10, 1, "oven"), lone, of(20, "note", 1, "oven", text="6 V"), {"t": START + 25, "what": "note", "text": "7 V"}])
        rows = [*csv.reader(io.StringIO(ran("table", folder, "--notes")[1]))]
        at = lambda s: f"2023-11-14T22:13:{20 + s}.000+00:00"
        expected = [[at(15), "guest-1", "7", "scope", "5 V"], [at(20), "board", "1", "oven", "6 V"], [at(25), "", "", "", "7 V"]]
        self.assertEqual(rows[1:], expected)
        self.assertEqual([*csv.reader(io.StringIO(ran("table", folder, "--notes", "--last", "6s")[1]))][1:], expected[1:])
        self.assertEqual(len(ran("table", folder)[1].splitlines()), 2)

    def test_an_end_that_is_unknown(self) -> None:
        """It counts once, and to its moment."""
        folder = self.state([record(0, "opened"), held(0, 1, "scope"), of(25, "unknown", 1, "scope"), held(50, 2, "scope"), record(100, "closed")])
        lines = [" ".join(it.split()) for it in ran("report", folder)[1].splitlines()]
        self.assertIn("station done gave up taken away failed end unknown at work of the time waited longest wait", lines)
        self.assertIn("board 0 0 0 0 1 1 min 15 s 75 % 0.00 s 0.00 s", lines)
        self.assertIn("scope 2 1 min 15 s 75 % 0.00 s 0.00 s 0.00 s", lines)
        self.assertIn(f" {UNKNOWN} ", ran("table", folder)[1])
        # 100 s are 1050 wide
        self.assertEqual(ran("gantt", folder)[1].count('<rect x="0.0" width="262.5" y="1" height="16" fill="#ddd"'), 2)


if __name__ == "__main__":
    unittest.main()
