"""The file of a lab of several bays, and each fault of it."""

from __future__ import annotations

import tempfile
import unittest
from typing import Any

from labrun_broker.bay import Bay, BayFault
from labrun_broker.labs import Lab, lab_of_texts, read_any
from labrun_broker.people import digest_of
from tests.test_bays import LAB, NORTH, SOUTH, written


class Files(unittest.TestCase):
    def setUp(self) -> None:
        self.folder = self.enterContext(tempfile.TemporaryDirectory())

    def faults(self, *texts: Any) -> list[str]:
        with self.assertRaises(BayFault) as raised:
            read_any(written(self.folder, *texts))
        return [line.replace(f"{self.folder}/", "") for line in str(raised.exception).split("\n")]

    def lab(self, *texts: Any) -> Lab:
        lab = read_any(written(self.folder, *texts))
        assert isinstance(lab, Lab)
        return lab

    def test_the_bays_in_their_order(self) -> None:
        lab = self.lab()
        self.assertEqual((lab.name, list(lab.bays), [it.name for it in lab.bays.values()]), ("physics", ["north", "south"], ["north", "south"]))
        self.assertEqual(lab.whole.instruments, ("scope", "supply", "load-1", "oven", "load-2", "load-3"))
        self.assertEqual((lab.whole.guests, lab.whole.tags), (4, {"slow": ("scope", "oven")}))

        self.assertEqual(list(lab_of_texts(LAB, {"south": SOUTH, "north": NORTH}).bays), ["north", "south"])

    def test_a_file_without_bays_is_a_bay(self) -> None:
        bay = read_any(written(self.folder, NORTH))
        self.assertIsInstance(bay, Bay)

    def test_an_instrument_twice_names_both_files(self) -> None:
        faults = self.faults(LAB, NORTH, SOUTH.replace('"load-2"', '"scope"'))
        self.assertEqual(
            faults, ["lab.toml: bays: scope is an instrument of north (north.toml) and of south (more/south.toml): in a lab a name is that of one thing"]
        )

    def test_a_station_twice_names_both_files(self) -> None:
        faults = self.faults(LAB, NORTH, SOUTH.replace("heat", "board"))
        self.assertEqual(
            faults, ["lab.toml: bays: board is a station of north (north.toml) and of south (more/south.toml): in a lab a name is that of one thing"]
        )

    def test_a_file_that_lacks(self) -> None:
        self.assertEqual(self.faults(LAB, NORTH, None), ["lab.toml: bays.south: more/south.toml: No such file or directory"])

    def test_each_fault_of_each_file(self) -> None:
        faults = self.faults(LAB + "[limits]\nnote = 0\n", NORTH + "[limits]\nnote = 5\n", SOUTH.replace("count = 2", "cuont = 2"))
        self.assertEqual(faults[0], "north.toml: limits: this is of the whole lab: write it into the lab's file, beside [bays]")
        self.assertTrue(faults[1].startswith("more/south.toml: guests.cuont: there is no such key"), faults)
        self.assertEqual(faults[-1], "lab.toml: limits.note: a number from 1 to 1000000 is wanted")

    def test_a_bay_of_another_name(self) -> None:
        faults = self.faults(LAB.replace("north =", "east ="))
        self.assertEqual(faults, ["north.toml: bay: the lab's file calls this bay east, and not north"])

    def test_people_are_of_the_lab_and_may_have_what_any_bay_has(self) -> None:
        people = f'[people]\nana = {{token = "sha256:{digest_of("a")}", may = ["scope", "oven"]}}\n'
        lab = self.lab(LAB + people)
        self.assertEqual([it.people.of["ana"].may for it in lab.bays.values()], [("scope", "oven")] * 2)
        self.assertEqual(self.faults(LAB, NORTH + people)[0], "north.toml: people: this is of the whole lab: write it into the lab's file, beside [bays]")
        self.assertIn("people.ana.may: oevn is none of the instruments", self.faults(LAB + people.replace("oven", "oevn"))[0])

    def test_what_is_of_a_bay_does_not_stand_in_the_labs_file(self) -> None:
        self.assertIn("lab.toml: gone: there is no such key", self.faults('gone = "keep"\n' + LAB)[0])
