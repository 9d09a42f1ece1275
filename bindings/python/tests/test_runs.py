"""The runs on one thread, the report as objects, and what is refused."""

import os
import pickle
import unittest
from typing import Callable

import labrun

TOP = os.path.realpath(os.path.join(os.path.dirname(__file__), "..", "..", ".."))
TWO = "lab 1\njob a\nsession\nscale add 1\nend\njob b\nsession\nscale add 1\nend\n"
TWO_REPORT = """lab 1
instrument scale 2
a 1 1/1 add 1 = 1
b 1 1/1 add 1 = 2
job a sessions 1 of 1 meals 0 retired
job b sessions 1 of 1 meals 1 retired
finished
"""


def example(name: str) -> bytes:
    with open(os.path.join(TOP, "examples", name), "rb") as file:
        return file.read()


class Runs(unittest.TestCase):
    def test_run(self) -> None:
        report = labrun.run(TWO)
        self.assertEqual(report.text, TWO_REPORT)
        self.assertEqual(str(report), TWO_REPORT)
        self.assertTrue(report.finished)
        self.assertEqual(report.instruments, ("scale",))
        self.assertEqual([str(it) for it in report.log("scale")], ["a 1 1/1 add 1 = 1", "b 1 1/1 add 1 = 2"])
        self.assertEqual(report.job("b"), labrun.JobReport("b", 1, 1, 0, 1, True))
        self.assertEqual(labrun.run(TWO.encode()), report)

    def test_run_cut_short(self) -> None:
        report = labrun.run(TWO, 0)
        self.assertFalse(report.finished)
        self.assertEqual(report.log("scale"), ())
        with self.assertRaises(ValueError):
            labrun.run(TWO, -1)
        with self.assertRaises(ValueError):
            labrun.run(TWO, 1000000001)

    def test_replay(self) -> None:
        self.assertEqual(labrun.replay(example("take_turns.lab")).text.encode(), example("take_turns.out"))

    def test_check(self) -> None:
        self.assertEqual(labrun.check(TWO), labrun.Counts(jobs=2, instruments=1, edges=1, sessions=2, commands=2))

    def test_upgrade(self) -> None:
        self.assertEqual(labrun.upgrade(TWO), TWO.replace("lab 1", "lab 2"))

    def test_refused(self) -> None:
        calls: list[Callable[[str], object]] = [labrun.run, labrun.check, labrun.upgrade, labrun.replay, labrun.Bench.from_text]
        for call in calls:
            with self.assertRaises(labrun.Refused) as caught:
                call("lab 1\njob A\n")
            self.assertEqual((caught.exception.line, caught.exception.cause), (2, 3))
            self.assertEqual(str(caught.exception), "line 2: S3 bad name")
            self.assertIsInstance(caught.exception, ValueError)
        again = pickle.loads(pickle.dumps(caught.exception))
        self.assertEqual((again.line, again.cause), (2, 3))

    def test_step_not_legal(self) -> None:
        with self.assertRaises(labrun.Refused) as caught:
            labrun.replay("lab 1\njob a\nsteps\nquit a\n")
        self.assertEqual((caught.exception.line, caught.exception.cause), (4, 0))

    def test_too_long(self) -> None:
        calls: list[Callable[[bytes], object]] = [labrun.check, labrun.Bench.from_text]
        for call in calls:
            with self.assertRaises(labrun.TooLong):
                call(b"#" * 16777217)

    def test_long_report(self) -> None:
        script = "lab 1\njob a\n" + "session\nscale add 1\nend\n" * 1000
        self.assertEqual(len(labrun.run(script, 100000).log("scale")), 1000)

    def test_examples(self) -> None:
        for name in ("two_benches", "ring_of_benches", "patience", "test_bay"):
            text = example(name + ".out").decode()
            report = labrun.Report.from_text(text)
            rows = report.to_rows()
            self.assertEqual(len(rows), sum(len(log) for log in report.logs.values()))
            entries = [str(entry) for log in report.logs.values() for entry in log]
            self.assertEqual([line for line in text.split("\n") if " = " in line], entries)

    def test_rows(self) -> None:
        self.assertEqual(
            labrun.Report.from_text(TWO_REPORT).to_rows()[1],
            {
                "instrument": "scale",
                "entry": 2,
                "job": "b",
                "session": 1,
                "place": 1,
                "length": 1,
                "verb": "add",
                "number": 1,
                "value": 2,
            },
        )

    def test_no_report(self) -> None:
        for text in ("", "lab 1\n", TWO_REPORT[:-1], TWO_REPORT.replace("meals 0", "meals x"), "lab 3\nfinished\n"):
            with self.assertRaises(ValueError):
                labrun.Report.from_text(text)

    def test_withdrawn_in_report(self) -> None:
        text = "lab 2\njob a sessions 1 of 3 withdrawn 2 meals 0 retired\nfinished\n"
        self.assertEqual(labrun.Report.from_text(text).jobs, (labrun.JobReport("a", 1, 3, 2, 0, True),))


if __name__ == "__main__":
    unittest.main()
