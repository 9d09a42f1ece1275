"""Which instruments to put into one bay: the expectations are reckoned here by hand."""

from __future__ import annotations

import contextlib
import io
import itertools
import json
import os
import random
import tempfile
import unittest
from typing import Any

from labrun_broker.command import main
from labrun_broker.sessions import Fault
from labrun_broker.splitting import sessions_in, split, told, units_of


def sets(**counts: int) -> dict[frozenset[str], int]:
    """Each letter is an instrument."""
    return {frozenset(names): count for names, count in counts.items()}


class Splits(unittest.TestCase):
    def split(self, most: int, *together: str, **counts: int) -> tuple[int, list[str]]:
        cut, bays = split(sets(**counts), map(frozenset, together), most)
        return cut, sorted("".join(sorted(it)) for it in bays)

    def test_two_of_four(self) -> None:
        # ab|cd cuts bc and ad: 1 + 2; ad|bc cuts ab and cd: 5 + 4; ac|bd cuts all: 12
        self.assertEqual(self.split(2, ab=5, bc=1, cd=4, ad=2), (3, ["ab", "cd"]))

    def test_the_most_frequent_pair_is_cut(self) -> None:
        # whoever begins with bc (5) cuts ab and cd (8); ab|cd cuts bc alone
        self.assertEqual(self.split(2, bc=5, ab=4, cd=4), (5, ["ab", "cd"]))

    def test_larger_sessions(self) -> None:
        # abc|de cuts cd: 2; abd|ce cuts abc, cd, de: 3 + 2 + 3; with e alone, abcd cuts de: 3, and has four instruments
        self.assertEqual(self.split(3, abc=3, cd=2, de=3), (2, ["abc", "de"]))

    def test_nothing_is_cut_if_there_is_room(self) -> None:
        self.assertEqual(self.split(5, abc=3, cd=2, de=3), (0, ["abcde"]))
        # (and no more bays than are needed: a, b and c are used alone)
        self.assertEqual(self.split(2, a=1, b=1, c=1)[0], 0)
        self.assertEqual(sorted(map(len, self.split(2, a=1, b=1, c=1)[1])), [1, 2])

    def test_what_a_station_uses_stays_together(self) -> None:
        # b and c are a station's: so ab and cd are cut, 8, and a and d may share a bay
        self.assertEqual(self.split(2, "bc", ab=4, cd=4, bc=1), (8, ["ad", "bc"]))
        with self.assertRaisesRegex(Fault, "^a b c belong in one bay, because stations use them together: 3, and --most is 2$"):
            self.split(2, "ab", "bc", ab=1, bc=1)
        self.assertEqual(units_of("abcd", [frozenset("bc"), frozenset("cd")]), [frozenset("a"), frozenset("bcd")])

    def test_as_good_as_trying_all(self) -> None:
        """Of six instruments in bays of three."""
        dice = random.Random(3)
        pairs = ["".join(it) for it in itertools.combinations("abcdef", 2)]
        for _ in range(20):
            counts = {pair: dice.randrange(1, 9) for pair in dice.sample(pairs, 9)}
            names = "".join(sorted(set("".join(counts))))
            halves = [set(it) for count in range(len(names) - 3, 4) for it in itertools.combinations(names, count)]
            best = min(sum(count for pair, count in counts.items() if len(half & set(pair)) == 1) for half in halves)
            self.assertLessEqual(self.split(3, **counts)[0], best, counts)


def held(station: str, *instruments: str, ticket: str = "") -> dict[str, Any]:
    its = {"t": 1.0, "what": "held", "station": station, "session": 1, "instruments": list(instruments), "by": None, "text": ""}
    return {**its, "ticket": ticket} if ticket else its


class Told(unittest.TestCase):
    def test_parts_of_one_session_count_once(self) -> None:
        records = [held("guest-1", "a", ticket="1"), held("guest-1", "b", ticket="1"), held("board", "a", "b"), {**held("guest-2", "c"), "what": "asked"}]
        self.assertEqual(sessions_in(records), (sets(ab=2), [frozenset("ab")]))

    def test_the_command(self) -> None:
        folder = self.enterContext(tempfile.TemporaryDirectory())
        its = {"north": [held("guest-1", "a", "b")] * 5 + [held("guest-2", "b", ticket="1")], "south": [held("guest-2", "c", ticket="1"), held("guest-1", "c", "d")]}
        for name, records in its.items():
            os.makedirs(f"{folder}/{name}")
            with open(f"{folder}/{name}/records.jsonl", "w", encoding="utf-8") as file:
                file.writelines(json.dumps(it) + "\n" for it in records)
        said = io.StringIO()
        with contextlib.redirect_stdout(said):
            self.assertEqual(main(["bay", "split", folder, "--most", "2"]), 0)
        # (ab and cd in a bay each: b c alone needs both)
        self.assertEqual(said.getvalue(), "2 bays: 1 of 7 sessions needs more than one\nbay 1: a b\nbay 2: c d\n1 of them: b c\n")

    def test_what_is_left_out(self) -> None:
        """Of nine sets that need two bays the eight most frequent are named."""
        folder = self.enterContext(tempfile.TemporaryDirectory())
        pairs = [*itertools.combinations("abcde", 2)][:9]
        with open(f"{folder}/records.jsonl", "w", encoding="utf-8") as file:
            file.writelines(json.dumps(held("guest-1", *it)) + "\n" for it in pairs)
        lines = told(folder, 1)
        self.assertEqual((lines[0], len(lines), lines[-1]), ("5 bays: 9 of 9 sessions need more than one", 1 + 5 + 8 + 1, "1 other set of instruments, too"))

    def test_no_room(self) -> None:
        for most in ("0", "-1", "65"):
            said = io.StringIO()
            with self.subTest(most), contextlib.redirect_stderr(said):
                self.assertEqual(main(["bay", "split", "nowhere", "--most", most]), 2)
                self.assertEqual(said.getvalue(), "labrun-broker: --most is from 1 to 64, which a bay may have\n")


if __name__ == "__main__":
    unittest.main()
