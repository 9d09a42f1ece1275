"""What is given to a broker's lab and isn't of the right type: BadWish says what is wanted, before the broker is asked."""

from __future__ import annotations

import datetime
import fractions
import math
import re
import unittest
from typing import Any

import labrun_broker
from labrun_broker import errors


class Given(unittest.TestCase):
    def setUp(self) -> None:
        # (nobody is asked)
        self.lab: Any = labrun_broker.connect("unix:/nowhere/bay.sock")
        self.addCleanup(self.lab.close)

    def test_hold(self) -> None:
        hold = self.lab.hold
        by_text = "an instrument is named by a text, and not by"
        for at, (call, text) in enumerate(
            [
                (lambda: hold(["scope", "supply"]), f"{by_text} ['scope', 'supply']: each is given by itself, as by hold(*names)"),
                (lambda: hold("scope", 5), f"{by_text} 5"),
                (lambda: hold(None), f"{by_text} None"),
                (lambda: hold(any_of=[5]), f"{by_text} 5"),
                (lambda: hold(any_of=[["scope", None]]), f"{by_text} None"),
                (lambda: hold(any_of=5), "any_of: a list of instruments, or of sets of them, is wanted, and not 5"),
                (lambda: hold("scope", timeout="x"), "timeout: 'x' is no number of seconds"),
                (lambda: hold("scope", timeout="5"), "timeout: '5' is no number of seconds"),
                (lambda: hold("scope", limit="2h"), "limit: '2h' is no number of seconds"),
                (lambda: hold("scope", limit=datetime.timedelta(hours=2)), "limit: datetime.timedelta(seconds=7200) is no number"),
                (lambda: hold("scope", limit=10**400), "limit: 1000"),
                (lambda: hold("scope", station=5), "a station is named by a text, and not by 5"),
                (lambda: hold(5), f"{by_text} 5"),
                (lambda: hold("sco\ud800pe"), "'sco\\ud800pe' has half of a character, which can't be sent"),
                (lambda: hold(any_of=[["scope", "\ud800"]]), "'\\ud800' has half of a character"),
                (lambda: hold("scope", timeout=-1), "a timeout of -1 s; it is 0 or more, and below 1000000000"),
                (lambda: hold("scope", timeout=math.nan), "a timeout of nan s; it is 0 or more, and below"),
                (lambda: hold("scope", timeout=1e9), "a timeout of 1e+09 s; it is 0 or more, and below"),
                (lambda: hold("scope", limit=0), "a limit of 0 s; it is more than 0, and below 1000000000"),
                (lambda: hold("scope", limit=-1), "a limit of -1 s; it is more than 0, and below"),
                (lambda: hold("scope", limit=math.inf), "a limit of inf s; it is more than 0, and below"),
                (lambda: hold("scope", waits=5), "waits: what is to be called is wanted, and not 5"),
                (lambda: hold("scope", warns="print"), "warns: what is to be called is wanted, and not 'print'"),
            ]
        ):
            with self.subTest(at, text=text), self.assertRaisesRegex(labrun_broker.BadWish, f"^{re.escape(text)}"):
                call()

    def test_connect(self) -> None:
        connect: Any = labrun_broker.connect
        for at, (call, text) in enumerate(
            [
                (lambda: connect(42), "an address is a text, as unix:PATH or HOST:PORT, and not 42"),
                (lambda: connect(b"unix:x"), "an address is a text, as unix:PATH or HOST:PORT, and not b'unix:x'"),
                (lambda: connect(""), "an address is wanted, as unix:PATH or HOST:PORT"),
                (lambda: connect("unix:x", station=5), "a station is named by a text, and not by 5"),
                (lambda: connect("unix:x", by=5), "by: a text is wanted, and not 5"),
                (lambda: connect("unix:x", token_file=5), "token_file: the name of a file is wanted, and not 5"),
                (lambda: connect("unix:x", certificate_file=3.5), "certificate_file: the name of a file is wanted, and not 3.5"),
            ]
        ):
            with self.subTest(at, text=text), self.assertRaisesRegex(labrun_broker.BadWish, f"^{re.escape(text)}"):
                call()

    def test_the_rest(self) -> None:
        lab = self.lab
        for at, (call, text) in enumerate(
            [
                (lambda: lab.release(5), "a station is named by a text, and not by 5"),
                (lambda: lab.release("board", "4"), "session: the number of one is wanted, and not '4'"),
                (lambda: lab.release("board", -1), "session: the number of one is wanted, and not -1"),
                (lambda: lab.apply(5), "bay: a text is wanted, and not 5"),
                (lambda: lab.disable(5), "an instrument is named by a text, and not by 5"),
                (lambda: lab.disable("scope", 5), "why: a text is wanted, and not 5"),
                (lambda: lab.enable(None), "an instrument is named by a text, and not by None"),
            ]
        ):
            with self.subTest(at, text=text), self.assertRaisesRegex(labrun_broker.BadWish, f"^{re.escape(text)}"):
                call()

    def test_what_is_right(self) -> None:
        """Numbers of other kinds, and names from anywhere."""
        for seconds in (None, 5, 0.5, True, fractions.Fraction(1, 2)):
            held = self.lab.hold("scope", timeout=seconds, limit=seconds)
            self.assertEqual(held.timeout, None if seconds is None else float(seconds))
        for any_of in (["scope", ["scope", "supply"]], iter(("scope",)), {"scope": 1}, (it for it in [("scope", "supply")])):
            self.lab.hold(any_of=any_of)


class Names(unittest.TestCase):
    def test_each_error_of_the_broker_has_one(self) -> None:
        """By which a program catches it."""
        for it in (*errors.KINDS.values(), errors.BrokerError, errors.Unreachable, errors.AnswerLost):
            name = getattr(it, "__name__", "")
            with self.subTest(name):
                self.assertIs(getattr(labrun_broker, name), it)


if __name__ == "__main__":
    unittest.main()
