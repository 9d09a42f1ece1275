"""The bay's file: what it says, and each fault with its key or line."""

import hashlib
import re
import tomllib
import unittest
from dataclasses import replace
from typing import Any

from labrun_broker.bay import Bay, BayFault, Limits, bay_of
from labrun_broker.people import People, Person
from labrun_broker.ways import Way, way_of
from tests.brokers import BAY, TOP

ONE = 'instruments = ["scope"]\n[guests]\ncount = 1\n'

# a text, and the faults that it has, in order
FAULTY = (
    ("", ["instruments: a list of names", "stations: there is neither a station nor a guest"]),
    (
        'instruments = ["scope", "supply"]\n[people]\nana = {unix = "ana"}\n',
        ["stations: there is neither a station nor a guest, so nobody could ask: write [guests] and count = 8"],
    ),
    ("instruments = [\n1,\n", ["the last line: "]),
    ('bay = 5\nbay = 6\n', ["line 2, column 8: "]),
    (ONE + f"x = {4000 * '['}", ["it is nested too deeply"]),
    (ONE + f"x = {5000 * '9'}\n", ["Exceeds the limit (4300 digits)"]),
    (ONE + "colour = 3\n", ["guests.colour: there is no such key; there are count, may_use"]),
    ("colour = 3\n" + ONE, ["colour: there is no such key"]),
    ("bay = 7\n" + ONE, ["bay: a name of up to 64"]),
    ('bay = "a b"\n' + ONE, ["bay: a name of up to 64"]),
    ('gone = "away"\n' + ONE, ['gone: "keep" or "release" is wanted']),
    ('instruments = "scope"\n[guests]\ncount = 1\n', ["instruments: a list of names"]),
    ('instruments = ["scope", "scope"]\n[guests]\ncount = 1\n', ["instruments: scope is there twice"]),
    ('instruments = ["scope", "2scope"]\n[guests]\ncount = 1\n', ["instruments: '2scope' is no name"]),
    ('instruments = ["scope", "a scope"]\n[guests]\ncount = 1\n', ["instruments: 'a scope' is no name"]),
    ('instruments = ["scope", "load-*"]\n[guests]\ncount = 1\n', ["instruments: 'load-*' is no name"]),
    ('instruments = ["scope", "tag:x"]\n[guests]\ncount = 1\n', ["instruments: 'tag:x' is no name"]),
    ('instruments = ["scope", "a,b"]\n[guests]\ncount = 1\n', ["instruments: 'a,b' is no name"]),
    (f'instruments = ["{65 * "a"}"]\n[guests]\ncount = 1\n', [f"instruments: '{65 * 'a'}' is no name"]),
    ('instruments = ["scope"]\n[stations]\nboard = ["scope", "lamp"]\n', ["stations.board: lamp is none of the bay's instruments"]),
    ('instruments = ["scope"]\n[stations]\nboard = []\n', ["stations.board: a list of names", "instruments: nobody may use scope"]),
    ('instruments = ["scope", "lamp"]\n[stations]\nboard = ["scope"]\n', ["instruments: nobody may use lamp"]),
    ('instruments = ["scope"]\n[stations]\n"b b" = ["scope"]\n', ["stations.b b: 'b b' is no name", "stations: there is neither"]),
    ('instruments = ["scope"]\nstations = 5\n', ["stations: a table is wanted", "stations: there is neither"]),
    ('instruments = ["scope"]\n[guests]\ncount = 1001\n', ["guests.count: 1001 guests; a bay has 1000 at most"]),
    ('instruments = ["scope"]\n[guests]\ncount = -1\n', ["guests.count: a number from 0 to 1000 is wanted", "stations: there is neither"]),
    ('instruments = ["scope"]\n[guests]\ncount = true\n', ["guests.count: a number from 0 to 1000 is wanted", "stations: there is neither"]),
    ('instruments = ["scope"]\n[stations]\nguest-1 = ["scope"]\n[guests]\ncount = 1\n', ["stations.guest-1: this is the name of a guest"]),
    (ONE + '[tags]\nx = ["lamp"]\n', ["tags.x: lamp is none of the bay's instruments"]),
    (ONE + '[tags]\n"x y" = ["scope"]\n', ["tags.x y: 'x y' is no name"]),
    (ONE + '[tags]\nx = "scope"\n', ["tags.x: a list of names"]),
    (ONE + '[labels]\nlamp = "a lamp"\n', ["labels.lamp: lamp is none of the bay's instruments"]),
    (ONE + '[labels]\nscope = "two\\nlines"\n', ["labels.scope: a text in one line, of up to 200 characters, is wanted"]),
    (ONE + f'[labels]\nscope = "{201 * "a"}"\n', ["labels.scope: a text in one line, of up to 200"]),
    (ONE + "[guards]\nlamp = \"a:1\"\n", ["guards.lamp: lamp is none of the bay's instruments"]),
    (ONE + "[guards]\nscope = 5\n", ["guards.scope: where its guard listens is wanted"]),
    (ONE + "[guards]\nscope = \"bench-1\"\n", ["guards.scope: 'bench-1': HOST:PORT is wanted"]),
    (ONE + "[guards]\nscope = \"bench-1:70000\"\n", ["guards.scope: 'bench-1:70000': HOST:PORT is wanted"]),
    (ONE + "[guards]\nscope = \"a:1 by-name\"\n", ["guards.scope: 'a:1 by-name': behind the address by-host and without-tls may stand"]),
    ('instruments = ["held"]\n[guests]\ncount = 1\n[guards]\nheld = "a:1"\n', ["guards.held: an instrument that has a guard isn't called held"]),
    (ONE + "[limits]\nnote = 0\n", ["limits.note: a number from 1"]),
    (ONE + "[limits]\nname = 63\n", ["limits.name: a number from 64"]),
    (ONE + "[limits]\nnotes = 5\n", ["limits.notes: there is no such key; there are clients, name, note, requests"]),
    ('instruments = ["scope"]\n[stations]\nguest-99 = ["scope"]\n[guests]\ncount = 1\n', ["stations.guest-99: this is the name of a guest"]),
    (f"instruments = [{', '.join(chr(34) + f'i{it}' + chr(34) for it in range(65))}]\n[guests]\ncount = 1\n", ["instruments: 65 instruments; a bay has 64 at most"]),
    ('instruments = ["scope"]\n[stations]\n' + "".join(f's{it} = ["scope"]\n' for it in range(32)), ["stations: 32 stations; a bay has 31 at most"]),
)

# what is nearly there, and what was meant
NEARLY = (
    ("instrument = 5\n" + ONE, "instruments"),
    ("stations.bord = [\"scop\"]\n" + ONE, "scope"),
    (ONE + "may_us = 5\n", "may_use"),
    (ONE + "[limits]\nnotes = 5\n", "note"),
    (ONE + '[tags]\nx = ["scop"]\n', "scope"),
    (ONE + '[labels]\nscop = "a scope"\n', "scope"),
    (ONE + '[guards]\nscop = "a:1"\n', "scope"),
    (ONE + '[on_release]\nscop = "true"\n', "scope"),
    (ONE + '[instrument_gone]\nscop = "keep"\n', "scope"),
    (ONE + '[stations]\nboard = ["scope"]\n[station_gone]\nbord = "keep"\n', "board"),
    (ONE + '[stations]\nboard = ["scope"]\n[station_limits]\nbord = 5\n', "board"),
    (ONE + '[people]\nana = {unix = "ana", my = ["scope"]}\n', "may"),
    (ONE + '[tags]\nprecise = ["scope"]\n[people]\nana = {unix = "ana", may = ["tag:precis"]}\n', "precise"),
    ('operators = ["anna"]\n' + ONE + '[people]\nana = {unix = "ana"}\n', "ana"),
)


class Bays(unittest.TestCase):
    def test_it_says(self) -> None:
        wanted = Bay("north", ("scope", "supply", "load-1", "load-2"), {"board": ("scope", "supply"), "radio": ("scope",)}, 4, ("scope", "supply", "load-1", "load-2"))
        self.assertEqual(bay_of(BAY), wanted)
        self.assertEqual(wanted.jobs["guest-4"], ("scope", "supply", "load-1", "load-2"))
        self.assertEqual(list(wanted.jobs), ["board", "radio", "guest-1", "guest-2", "guest-3", "guest-4"])

    def test_the_rest_of_it(self) -> None:
        bay = bay_of('instruments = ["a", "b"]\ngone = "release"\n[guests]\ncount = 1\nmay_use = ["b"]\n[stations]\nx = ["a"]\n[limits]\nnote = 9\n')
        self.assertEqual((bay.gone, bay.guests_use, bay.limits, bay.overtakes), ("release", ("b",), Limits(note=9), None))
        self.assertEqual(bay_of("overtakes = 0\n" + ONE).overtakes, 0)
        self.assertEqual(bay_of(ONE + '[guards]\nscope = "bench-1:5025 by-host"\n').guards, {"scope": "bench-1:5025 by-host"})
        self.assertEqual(way_of("[::1]:5025 without-tls"), Way("::1", 5025, False, True))

    def test_names_as_people_have_them(self) -> None:
        """Also words that a script has for something else."""
        names = ("Keysight_34465A", "load-1.b", "session", 64 * "a")
        listed = ", ".join(f'"{it}"' for it in names)
        bay = bay_of(f'instruments = [{listed}]\n[guests]\ncount = 1\n[tags]\nHV = ["session"]\n[labels]\nsession = "it, by the \\"door\\""\n')
        self.assertEqual((bay.instruments, bay.tags, bay.labels), (names, {"HV": ("session",)}, {"session": 'it, by the "door"'}))

    def test_faults(self) -> None:
        for text, wanted in FAULTY:
            with self.subTest(text):
                with self.assertRaises(BayFault) as caught:
                    bay_of(text, "it")
                found = caught.exception.faults
                self.assertEqual(len(found), len(wanted), found)
                for one, start in zip(found, wanted):
                    self.assertTrue(one.startswith(start), (one, start))
                self.assertEqual(str(caught.exception), "\n".join(f"it: {one}" for one in found))

    def test_what_was_meant(self) -> None:
        for text, meant in NEARLY:
            with self.subTest(text):
                with self.assertRaises(BayFault) as caught:
                    bay_of(text, "it")
                self.assertEqual(len(caught.exception.faults), 1, caught.exception)
                self.assertTrue(caught.exception.faults[0].endswith(f" (did you mean {meant}?)"), caught.exception)

    def test_most(self) -> None:
        """As much as the library takes is no fault."""
        names = ", ".join(f'"i{it}"' for it in range(64))
        stations = "".join(f's{it} = ["i{it}", "i63"]\n' for it in range(31))
        bay = bay_of(f"instruments = [{names}]\n[stations]\n{stations}[guests]\ncount = 1000\n")
        self.assertEqual((len(bay.instruments), len(bay.stations), bay.guests), (64, 31, 1000))


PEOPLE = {it: hashlib.sha256(f"an example for {it}".encode()).hexdigest() for it in ("ana", "runner-1")}


class Example(unittest.TestCase):
    def test_the_bay_to_begin_with(self) -> None:
        """It is sound, has every key, and a limit that stands in a comment is as it is without the line."""
        with open(f"{TOP}/examples/bay.toml", encoding="utf-8") as file:
            text = file.read()
        bay = bay_of(text)
        self.assertEqual((bay.name, bay.gone, bay.guests, bay.overtakes, bay.limits), ("north", "keep", 8, None, Limits()))
        self.assertEqual((len(bay.instruments), list(bay.stations)), (6, ["board", "burn-in"]))
        whole = re.sub(r"(?m)^# (?=[\w-]+ = |\[)", "", text)
        more: dict[str, Any] = {"tags": {"precise": ("scope", "meter")}, "labels": {"scope": "DSO-X 3034, by the window"}, "guards": {"scope": "bench-1:5025"}}
        more |= {"limit": 12 * 3600.0, "guests_limit": 2 * 3600.0, "station_limits": {"burn-in": 3 * 86400.0}}
        more |= {"on_release": {"supply": "/usr/local/bin/safe-state supply"}}
        more |= {"station_gone": {"burn-in": "keep", "": "release"}, "instrument_gone": {"load-1": "release"}}
        people = People({"ana": Person((PEOPLE["ana"],), ("ana",)), "bob": Person((), ("bob",), ("scope", "load-*")), "runner-1": Person((PEOPLE["runner-1"],), (), ("scope", "tag:precise"))}, ("ana",), ("bob",))
        self.assertEqual(bay_of(whole), replace(bay, overtakes=16, people=people, **more))
        given = tomllib.loads(whole)
        self.assertEqual(set(given), {"bay", "instruments", "gone", "overtakes", "stations", "guests", "limits", "tags", "labels", "guards", "limit", "station_limits", "on_release", "on_release_limit", "station_gone", "instrument_gone", "people", "groups", "operators", "urgent"})
        self.assertEqual((set(given["guests"]), set(given["limits"])), ({"count", "may_use", "limit", "gone"}, {"clients", "requests", "name", "note"}))

    def test_each_key_is_in_formats(self) -> None:
        with open(f"{TOP}/docs/FORMATS.md", encoding="utf-8") as file:
            part = file.read().partition("## A bay's file")[2].partition("\n## ")[0]
        rows = set(re.findall(r"(?m)^\| `([\w.]+)` \|", part))
        limits = {f"limits.{it}" for it in vars(Limits())}
        wanted = {"bay", "instruments", "gone", "overtakes", "stations.NAME", "guests.count", "guests.may_use", "tags.NAME", "labels.NAME", "guards.NAME"}
        wanted |= {"people.NAME.token", "people.NAME.unix", "people.NAME.may", "groups.NAME", "operators", "urgent"}
        wanted |= {"limit", "guests.limit", "station_limits.NAME", "on_release_limit", "on_release.NAME", "guests.gone", "station_gone.NAME", "instrument_gone.NAME"}
        self.assertEqual(rows, {*wanted, *limits})
