"""What was: from hand-made records, whose sums are reckoned here."""

from __future__ import annotations

import contextlib
import csv
import io
import json
import os
import tempfile
import unittest
import xml.etree.ElementTree as ElementTree
from typing import Any, Iterator

from labrun_broker import past
from labrun_broker.command import main
from labrun_broker.benches import records_of_journal
from labrun_broker.journals import Left
from labrun_broker.mending import missing
from labrun_broker.picture import gantt
from labrun_broker.places import Places
from labrun_broker.sessions import ENDS, HOLDS, UNKNOWN, WAITS, Past, Session, read_records, recent_records, spans_waited_for

START = 1700000000.0
SVG = "{http://www.w3.org/2000/svg}"


def record(t: float, what: str, station: Any = None, *instruments: str, session: Any = None, by: Any = None, text: str = "") -> dict[str, Any]:
    return {"t": START + t, "what": what, "station": station, "session": session, "instruments": list(instruments), "by": by, "text": text}


# board works from 10 to 40; radio waits for it from 20, works to 60 and fails; drive waits from 50 to 55 and gives up; board's second is taken away
# at 100, gone from 80; kiosk still holds, and radio waits for it
DAY = [
    record(0, "opened", text="page 1"),
    record(10, "asked", "board", "scope", "supply", by="ana"),
    record(10, "held", "board", "scope", "supply", session=2, by="ana"),
    record(20, "asked", "radio", "scope", by="ben"),
    record(30, "note", "board", session=2, text="V = 5.0, \"ok\"\nsecond line"),
    record(40, "let_go", "board", "scope", "supply", session=2, by="ana"),
    record(40, "held", "radio", "scope", session=2, by="ben"),
    record(50, "asked", "drive", "scope", "oven"),
    record(55, "gave_up", "drive", "scope", "oven", text="the client is gone"),
    record(60, "failed", "radio", "scope", session=2, text="status 3"),
    record(70, "asked", "board", "supply", by="ana"),
    record(70, "held", "board", "supply", session=3, by="ana"),
    record(80, "gone", "board", "supply", session=3),
    record(100, "taken", "board", "supply", session=3, text="by root"),
    record(110, "held", "kiosk", "oven", session=2),
    record(115, "asked", "radio", "oven"),
    record(120, "page", text="page 2"),
]


def past_of(records: list[dict[str, Any]]) -> Past:
    it = Past()
    for one in records:
        it.take(one)
    return it


@contextlib.contextmanager
def state(records: list[dict[str, Any]], end: str = "") -> Iterator[str]:
    """A state folder of two pages, the second of which has the last record alone."""
    with tempfile.TemporaryDirectory() as folder:
        for number, part in ((9, records[:-1]), (10, records[-1:])):
            with open(f"{folder}/records-{number}.jsonl", "w", encoding="utf-8") as file:
                file.write("".join(json.dumps(it) + "\n" for it in part) + (end if number == 10 else ""))
        yield folder


def ran(*words: str) -> tuple[int, str, str]:
    out, err = io.StringIO(), io.StringIO()
    with contextlib.redirect_stdout(out), contextlib.redirect_stderr(err):
        status = main(words)
    return status, out.getvalue(), err.getvalue()


class Sessions(unittest.TestCase):
    def test_each_end(self) -> None:
        it = past_of(DAY)
        told = [(one.station, one.number, one.how, one.asked - START, one.held and one.held - START, one.ended and one.ended - START) for one in it.sessions()]
        expected = [
            ("board", 2, "done", 10, 10, 40),
            ("radio", 2, "failed", 20, 40, 60),
            ("drive", None, "gave up", 50, None, 55),
            ("board", 3, "taken away", 70, 70, 100),
            ("kiosk", 2, HOLDS, 110, 110, None),
            ("radio", None, WAITS, 115, None, None),
        ]
        self.assertEqual(told, expected)
        self.assertEqual(it.ended[0].notes, [(START + 30, "V = 5.0, \"ok\"\nsecond line")])
        self.assertEqual(it.ended[3].gone, [(START + 80, START + 100)])
        self.assertEqual([one.why for one in it.ended], ["", "the client is gone", "status 3", "by root"])

    def test_a_broker_that_was_killed(self) -> None:
        records = [
            record(0, "held", "board", "scope", session=2),
            record(1, "asked", "radio", "scope"),
            record(9, "opened", text="page 1, as it was left"),
            record(9, "gone", "board", "scope", session=2),
            record(12, "back", "board", "scope", session=2),
            record(15, "let_go", "board", "scope", session=2),
            record(16, "held", "radio", "scope", session=3),
            record(20, "held", "radio", "scope", session=4),
        ]
        it = past_of(records)
        told = [(one.station, one.how, one.ended and one.ended - START) for one in it.sessions()]
        self.assertEqual(told, [("board", "done", 15), ("radio", UNKNOWN, 9), ("radio", UNKNOWN, 20), ("radio", HOLDS, None)])
        self.assertEqual(it.ended[1].gone, [(START + 9, START + 12)])

    def test_several_of_one_station(self) -> None:
        """One holds, and two wait for the station: sessions are known by their numbers."""
        records = [
            record(0, "asked", "board", "scope", session=7),
            record(0, "held", "board", "scope", session=7),
            record(1, "asked", "board", "scope", session=8),
            record(2, "asked", "board", "supply", session=9),
            record(3, "note", "board", session=7, text="5 V"),
            record(4, "gave_up", "board", "scope", session=8),
            record(5, "let_go", "board", "scope", session=7),
            record(5, "held", "board", "supply", session=9),
        ]
        it = past_of(records)
        told = [(one.number, one.how, one.held and one.held - START, one.ended and one.ended - START, len(one.notes)) for one in it.sessions()]
        self.assertEqual(told, [(7, "done", 0, 5, 1), (8, "gave up", None, 4, 0), (9, HOLDS, 5, None, 0)])

    def test_waited_for_and_unused(self) -> None:
        def session(asked: float, held: Any, ended: Any) -> Session:
            return Session("a", 1, "", ("scope",), asked, held, ended)

        # held 0 to 10; waited for from 5 to 20, by one that works to 25; two wait from 30, one gives up at 40
        sessions = [session(0, 0, 10), session(5, 20, 25), session(30, None, 40), session(30, None, None)]
        self.assertEqual(spans_waited_for(sessions, "scope", 50), [(10, 20), (30, 50)])
        self.assertEqual(spans_waited_for(sessions, "oven", 50), [])

    def test_files_that_are_not_whole(self) -> None:
        bad = ['{"t": 1, "what"', "[]", '{"t": "1", "what": "held"}', '{"t": NaN, "what": "held"}', "[" * 100000, "\x00\u00e9"]
        bad += ['{"t": 1, "what": "held", "station": 7}', '{"t": 1, "what": "held", "instruments": [1]}']
        with state(DAY, "\n".join(bad)) as folder:
            records, faults = read_records(folder)
            self.assertEqual(records, DAY)
            self.assertEqual(faults, [f"{folder}/records-10.jsonl: 8 of 9 lines are no whole records, and left out"])
            self.assertEqual(recent_records(folder), DAY)
            size = os.path.getsize(f"{folder}/records-10.jsonl")
            self.assertEqual(recent_records(folder, size + 20), DAY[-1:])


JOURNAL = """lab 2
job board
session patience 0
scope read
supply read
end
session
scope set 500
supply add 1
scope read
end
job radio
session patience 5
scope set 100
end
steps
# 2023-11-14T22:13:20.000Z
#steps
thirst board
withdraw board
thirst board
drink board
thirst radio
#sum 0123456789abcdef
# note board 2: V = 5: ok
# 2023-11-14T22:13:30.500Z
#steps
act board
quit board
withdraw radio
#sum 0123456789abcdef
#steps
#more radio
#+session
#+supply read
#+end
#sum 0123456789abcdef
# 2023-11-14T22:13:40Z
#steps
thirst radio
drink radio
"""


class Journals(unittest.TestCase):
    def told(self, text: str) -> list[tuple[Any, ...]]:
        it = past_of(list(records_of_journal(text.splitlines(keepends=True))))
        return [
            (one.station, one.number, one.instruments, one.how, *(t and t - START for t in (one.asked, one.held, one.ended)), one.notes)
            for one in it.sessions()
        ]

    def test_sessions_of_the_script_and_others(self) -> None:
        expected = [
            ("board", 2, ("scope", "supply"), "done", 0, 0, 10.5, [(START, "V = 5: ok")]),
            ("radio", 1, ("scope",), "gave up", 0, None, 10.5, []),
            ("radio", 2, ("supply",), HOLDS, 20, 20, None, []),
        ]
        self.assertEqual(self.told(JOURNAL), expected)

    def test_what_lost_its_end_or_is_something_else(self) -> None:
        whole = JOURNAL.encode()
        for end in range(len(whole)):
            self.told(whole[:end].decode())
        self.assertEqual(self.told(JOURNAL[:-12])[-1][3], WAITS)
        noise = "steps\n# note\n# note x\n# note a b: c\n#more\n#+\n#+session\nquit nobody\nthirst\n# 2023-99-99T00:00:00Z\nact a b c\n"
        self.assertEqual(self.told(noise), [])

    def test_without_times(self) -> None:
        with tempfile.TemporaryDirectory() as folder:
            with open(f"{folder}/bay.journal", "w", encoding="utf-8") as file:
                file.write("\n".join(it for it in JOURNAL.splitlines() if not it.startswith("# 2023")))
            self.assertEqual(ran("table", f"{folder}/bay.journal")[::2], (1, f"labrun-broker: {folder}/bay.journal: it doesn't say when its steps were\n"))
            with open(f"{folder}/bay.journal", "w", encoding="utf-8") as file:
                file.write(JOURNAL)
            with open(f"{folder}/other.journal", "w", encoding="utf-8") as file:
                file.write("lab 1\n")
            self.assertIn("it is no journal", ran("table", f"{folder}/other.journal")[2])
            with open(f"{folder}/other.journal", "a", encoding="utf-8") as file:
                file.write("steps\n")
            self.assertEqual(ran("table", f"{folder}/other.journal")[1].split(), past.OF_SESSION)
            self.assertRegex(ran("table", f"{folder}/bay.journal")[1], r"\nboard +2 .* 10 s +done +scope supply +V = 5: ok\n")


class Mended(unittest.TestCase):
    """What the records lost, by the journal."""

    def left(self, *numbers: int) -> dict[int, Left]:
        """Sessions that came to hold in this order, a second each; the last still holds."""
        found = {it: Left(it, 0, 1, (0, it), 1000 * at, 1000 * at, at + 1, "guest-1", "ann", ["5 V"], how="let_go") for at, it in enumerate(numbers)}
        found[numbers[-1]].how = ""
        return found

    def told(self, numbers: tuple[int, ...], records: list[dict[str, Any]]) -> list[tuple[Any, ...]]:
        return [(it["session"], it["what"]) for it in missing(self.left(*numbers), records, Places(("scope",)))]

    def of(self, what: str, *sessions: int) -> list[dict[str, Any]]:
        return [record(0, what, "guest-1", "scope", session=it, text="5 V" if what == "note" else "") for it in sessions]

    def test_of_each(self) -> None:
        self.assertEqual(self.told((7,), []), [(7, "held"), (7, "note")])
        self.assertEqual(self.told((6, 7), [*self.of("held", 6, 7), *self.of("note", 7)]), [(6, "note"), (6, "let_go")])
        self.assertEqual(self.told((6, 7), [*self.of("held", 6), *self.of("note", 6), *self.of("let_go", 6)]), [(7, "held"), (7, "note")])

    def test_only_the_last_records_are_read(self) -> None:
        """The 5 waited for long, and held behind 9: of those before it nothing is missing."""
        records = [*self.of("note", 9), *self.of("let_go", 9), *self.of("held", 5), *self.of("note", 5)]
        self.assertEqual(self.told((7, 8, 9, 5, 10), records), [(5, "let_go"), (10, "held"), (10, "note")])
        self.assertEqual(self.told((7, 8), self.of("note", 7) * 1000), [])

    def test_what_it_says(self) -> None:
        it = Left(3, 1, 2, (0, 3), 5000, 5000, 3, "board", "ann", failed="smoke", how="let_go", until=6000)
        of = {"station": "board", "session": 3, "instruments": ["supply"], "by": "ann"}
        expected = [{"t": 5.0, "what": "held", **of, "text": "as the journal has it", "ticket": f"{3:032x}"}, {"t": 6.0, "what": "failed", **of, "text": "smoke, as the journal has it"}]
        self.assertEqual(missing({3: it}, [], Places(("scope", "supply"), ("board",))), expected)


    def test_notes_with_one_text(self) -> None:
        """The journal has each as often as it was noted; those that the records lack come behind what they have of the session."""
        it = Left(3, 1, 1, (0, 3), 5000, 5000, 3, "board", notes=["5 V", "6 V", "5 V", "5 V", "4 V"])
        # (what older brokers wrote may have no number)
        its = [{"t": START, "what": "opened"}, record(6, "held", "board", "scope", session=3), record(7, "note", "board", session=3, text="5 V"), record(8, "note", "board", session=3, text="6 V")]
        found = missing({3: it}, its, Places(("scope", "supply"), ("board",)))
        self.assertEqual([(one["what"], one["t"] - START, one["text"]) for one in found], [("note", 8, "5 V"), ("note", 8, "5 V"), ("note", 8, "4 V")])


class Words(unittest.TestCase):
    def test_csv(self) -> None:
        with state(DAY) as folder:
            status, out, err = ran("table", folder, "--csv")
        rows = list(csv.reader(io.StringIO(out)))
        self.assertEqual((status, err, len(rows)), (0, "", 7))
        begun, ended = "2023-11-14T22:13:30.000+00:00", "2023-11-14T22:14:00.000+00:00"
        first = ["board", "2", "ana", "scope supply", begun, begun, ended]
        self.assertEqual(rows[1], [*first, "0.000", "30.000", "done", "", "V = 5.0, \"ok\"\nsecond line"])
        self.assertEqual(rows[3][5:], ["", "2023-11-14T22:14:15.000+00:00", "5.000", "", "gave up", "the client is gone", ""])
        self.assertEqual(rows[5][6:10], ["", "0.000", "10.000", HOLDS])

    def test_notes(self) -> None:
        with state(DAY) as folder:
            status, out, _ = ran("table", folder, "--notes")
        rows = list(csv.reader(io.StringIO(out)))
        self.assertEqual((status, rows[1:]), (0, [["2023-11-14T22:13:50.000+00:00", "board", "2", "scope supply", "V = 5.0, \"ok\"\nsecond line"]]))

    def test_notes_of_one_moment(self) -> None:
        """They stand as they were written."""
        its = [record(1, "held", "board", "scope", session=3), *(record(2, "note", "board", session=3, text=text) for text in ("6 V", "5 V", "6 V"))]
        with state(its) as folder:
            rows = list(csv.reader(io.StringIO(ran("table", folder, "--notes")[1])))
        self.assertEqual([row[4] for row in rows[1:]], ["6 V", "5 V", "6 V"])

    def test_table_of_the_last_minute(self) -> None:
        with state(DAY) as folder:
            status, out, _ = ran("table", folder, "--last", "60s")
        lines = out.splitlines()
        self.assertEqual((status, [it.split()[0] for it in lines[1:]]), (0, ["radio", "board", "kiosk", "radio"]))
        self.assertIn("failed: status 3", lines[1])

    def test_one_of_each(self) -> None:
        """A report of one session, of a file of which one line isn't whole."""
        with state(DAY[:3], "{") as folder:
            status, out, said = ran("report", folder)
        self.assertEqual((status, out.splitlines()[0][-9:]), (0, "1 session"))
        self.assertEqual(said, f"labrun-broker: {folder}/records-10.jsonl: 1 of 2 lines is no whole record, and left out\n")

    def test_report(self) -> None:
        with state(DAY) as folder:
            status, out, _ = ran("report", folder)
            of_last = ran("report", folder, "--last", "60s")[1]
        lines = [" ".join(it.split()) for it in out.splitlines()]
        self.assertEqual(status, 0)
        self.assertTrue(lines[0].endswith("2 min 0 s: 6 sessions"), lines[0])
        self.assertIn("board 1 0 1 0 0 1 min 0 s 50 % 0.00 s 0.00 s", lines)
        self.assertIn("radio 0 0 0 1 0 20 s 17 % 25 s 20 s", lines)
        self.assertIn("drive 0 1 0 0 0 0.00 s 0 % 5.00 s 5.00 s", lines)
        # scope is held from 10 to 40 and from 40 to 60; oven is waited for, and unused, from 50 to 55
        self.assertIn("scope 3 50 s 42 % 0.00 s 5.00 s 20 s", lines)
        self.assertIn("oven 3 10 s 8 % 5.00 s 5.00 s 5.00 s", lines)
        # of the last minute: board worked from 70 to 100
        self.assertIn("board 0 0 1 0 0 30 s 50 % 0.00 s 0.00 s", [" ".join(it.split()) for it in of_last.splitlines()])

    def test_a_long_reason_moves_its_own_line_alone(self) -> None:
        why = "supply has been held by guest-1 for 5.9 s " + "(ann@bench-3 4711 sh) " * 8
        records = [record(0, "held", "board", "scope", session=1), record(1, "let_go", "board", "scope", session=1)]
        records += [record(2, "asked", "radio", "scope", session=2), record(3, "gave_up", "radio", "scope", session=2, text=why)]
        with state(records) as folder:
            head, done, gave_up = ran("table", folder)[1].splitlines()
        self.assertIn(f"gave up: {why.strip()}", gave_up)
        self.assertLess(max(len(head), len(done)), 140)
        self.assertEqual(head.index("instruments"), done.index("scope"))

    def test_what_others_wrote_moves_no_cursor(self) -> None:
        note = "\x1b]0;x\x07\r\u202eab"
        records = [record(0, "held", "board", "scope", session=2, by="\x1b[2Jana"), record(1, "note", "board", text=note), record(2, "let_go", "board")]
        with state(records) as folder:
            for word in ("table", "report"):
                out = ran(word, folder)[1]
                self.assertFalse([it for it in out if not it.isprintable() and it != "\n"], out)
            self.assertIn(note, ran("table", folder, "--csv")[1])

    def test_faults(self) -> None:
        with tempfile.TemporaryDirectory() as folder:
            self.assertEqual(ran("gantt", folder)[0], 1)
            self.assertIn("there are no records", ran("table", folder)[2])
            for word in ("report", "table", "gantt"):
                self.assertEqual(ran(word, f"{folder}/no"), (66, "", f"labrun-broker: {folder}/no: there is no such folder or file\n"))
            self.assertEqual(ran("bay", "split", f"{folder}/no"), (66, "", f"labrun-broker: {folder}/no: there is no such folder\n"))
            os.mkdir(f"{folder}/records.jsonl")
            self.assertEqual(ran("report", folder), (66, "", f"labrun-broker: {folder}/records.jsonl: Is a directory\n"))
        with state(DAY) as folder:
            status, _, err = ran("gantt", folder, "--to", folder + "/no/where.svg")
            self.assertEqual((status, "No such file" in err), (1, True))
        with self.assertRaises(SystemExit), contextlib.redirect_stderr(io.StringIO()) as err:
            main(["table", "x", "--last", "yesterday"])
        self.assertIn("write 90, 30s, 15min, 4h or 2d", err.getvalue())


def drawn(records: list[dict[str, Any]]) -> ElementTree.Element:
    it = past_of(records)
    return ElementTree.fromstring(gantt(it.sessions(), list(it.instruments), list(it.stations), it.begun or 0, it.until))


def rows_of(picture: ElementTree.Element) -> dict[str, ElementTree.Element]:
    rows = {}
    for it in picture.iter(f"{SVG}g"):
        label = it.find(f"{SVG}text")
        if label is not None and label.get("text-anchor") == "end":
            rows[label.text or ""] = it
    return rows


class Pictures(unittest.TestCase):
    def test_each_end_looks_different(self) -> None:
        rows = rows_of(drawn(DAY))
        self.assertEqual(list(rows), ["scope", "supply", "oven", "board", "radio", "drive", "kiosk"])
        looks = {name: [(it.get("fill"), it.get("stroke-dasharray")) for it in row.findall(f"{SVG}rect")] for name, row in rows.items()}
        done, taken, gone = looks["supply"][0], looks["supply"][1], looks["supply"][2]
        failed, waits, holds = looks["radio"][1], looks["radio"][0], looks["kiosk"][0]
        self.assertEqual(len({done, taken, gone, failed, waits, holds}), 6)
        # gave up: as one that waits, but with a cross
        self.assertEqual((looks["drive"], len(rows["drive"].findall(f"{SVG}path"))), ([waits], 2))
        self.assertEqual(len(rows["kiosk"].findall(f"{SVG}path")), 1)

    def test_each_end_of_one_that_held(self) -> None:
        """One of a session over several bays may have held in this one, and given up while it waited in the next."""
        records = [record(0, "opened")]
        for at, end in enumerate(ENDS):
            records += [record(10 * at, "held", end, "scope", session=at), record(10 * at + 5, end, end, "scope", session=at)]
        records += [record(t, "held", "board", "scope", session=t) for t in (80, 90)]
        its, rows = past_of(records).sessions(), rows_of(drawn(records))
        self.assertEqual({it.how for it in its}, {*ENDS.values(), UNKNOWN, HOLDS})
        looks = [it.get("fill") for it in rows["scope"].findall(f"{SVG}rect")]
        self.assertEqual((len(looks), len(set(looks))), (len(its), len(its)))
        self.assertEqual([len(rows[name].findall(f"{SVG}rect")) for name in (*ENDS, "board")], [1] * len(ENDS) + [2])

    def test_places(self) -> None:
        # 120 s are 1050 wide: board holds both from 10 to 40, so from 87.5 for 262.5
        it = rows_of(drawn(DAY))["scope"].find(f"{SVG}rect")
        assert it is not None
        self.assertEqual((it.get("x"), it.get("width")), ("87.5", "262.5"))

    def test_hostile_text_is_text(self) -> None:
        note = "</title><script>alert(1)</script>\x00\x1b&]]>"
        records = [record(0, "held", "board", "<b>&", session=2), record(1, "note", "board", text=note), record(9, "let_go", "board", "<b>&", session=2)]
        picture = drawn(records)
        self.assertEqual({it.tag.removeprefix(SVG) for it in picture.iter()}, {"svg", "title", "rect", "g", "text", "path"})
        titles = [it.text or "" for it in picture.iter(f"{SVG}title")]
        self.assertTrue(any("</title><script>alert(1)</script>\ufffd\ufffd&]]>" in it for it in titles))

    def test_many_short_sessions_stay_small(self) -> None:
        records = []
        for n in range(20000):
            records += [record(n, "held", "board", "scope", session=n), record(n + 0.5, "let_go", "board", "scope", session=n)]
        it = past_of(records)
        text = gantt(it.sessions(), list(it.instruments), list(it.stations), it.begun or 0, it.until)
        self.assertLess(len(text), 500000)

    def test_nothing_was(self) -> None:
        self.assertEqual(list(rows_of(drawn([record(0, "opened")]))), [])


if __name__ == "__main__":
    unittest.main()
