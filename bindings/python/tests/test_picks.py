"""The words by which instruments are asked for."""

import unittest

import labrun
from labrun.picks import MOST_SETS, NoSuch, TooFew, TooMany, is_plain, sets_of

NAMES = ("scope", "supply", "load-1", "load-2", "load-3")
TAGS = {"precise": ("load-3", "scope"), "none": ()}


class Sets(unittest.TestCase):
    def test_each_word(self) -> None:
        for words, wanted in (
            (["scope"], ["scope"]),
            (["scope", "supply", "scope"], ["scope supply"]),
            (["load-*"], ["load-1", "load-2", "load-3"]),
            (["load-[13]"], ["load-1", "load-3"]),
            (["s?pply", "load-3"], ["load-3 supply"]),
            (["tag:precise"], ["scope", "load-3"]),
            (["2 of load-*"], ["load-1 load-2", "load-1 load-3", "load-2 load-3"]),
            (["load-*", "load-*"], ["load-1 load-2", "load-1 load-3", "load-2 load-3"]),
            (["3 of load-*", "supply"], ["supply load-1 load-2 load-3"]),
            (["2 of tag:precise"], ["scope load-3"]),
            # each word is for another instrument
            (["load-2", "load-*"], ["load-2 load-1", "load-2 load-3"]),
            (["load-3", "tag:precise"], ["load-3 scope"]),
            (["tag:precise", "load-*"], ["scope load-1", "scope load-2", "scope load-3", "load-3 load-1", "load-3 load-2"]),
        ):
            with self.subTest(words):
                self.assertEqual([" ".join(it) for it in sets_of(words, NAMES, TAGS)], wanted)

    def test_plain(self) -> None:
        self.assertTrue(all(map(is_plain, (*NAMES, "Keysight_34465A", "2of", "of", "tag"))))
        self.assertFalse(any(map(is_plain, ("load-*", "load-?", "[ab]", "tag:x", "2 of load-1", "12  of x"))))

    def test_refused(self) -> None:
        for words, kind, why in (
            (["scop"], NoSuch, "scop is none of the instruments: scope, supply, load-1, load-2, load-3 (did you mean scope?)"),
            (["lead-*"], NoSuch, "no instrument is like lead-*: there are scope, supply, load-1, load-2, load-3 (did you mean load-3?)"),
            (["tag:precis"], NoSuch, "precis is no tag; the tags are precise, none (did you mean precise?)"),
            (["tag:lamps"], NoSuch, "lamps is no tag; the tags are precise, none"),
            (["tag:none"], NoSuch, "no instrument is like tag:none: there are scope, supply, load-1, load-2, load-3"),
            (["2 of x*"], NoSuch, "no instrument is like x*: there are scope, supply, load-1, load-2, load-3"),
            (["4 of load-*"], TooFew, "4 of load-* are wanted; there are 3: load-1, load-2, load-3"),
            (["0 of load-*"], TooFew, "0 of load-*: ask for 1 or more; there are 3: load-1, load-2, load-3"),
            (["2 of scope"], TooFew, "2 of scope are wanted; there is 1: scope"),
            (["scope", "sc*"], TooFew, "scope sc*: each is another instrument, and there aren't so many"),
        ):
            with self.subTest(words), self.assertRaises(kind) as told:
                sets_of(words, NAMES, TAGS)
            self.assertEqual(str(told.exception), why)

    def test_many(self) -> None:
        """Up to sixteen are all named; of more the first eight, so that what was meant can be seen."""
        most = [f"load-{at}" for at in range(1, 18)]
        first = ", ".join(most[:8])
        for count, told in ((16, ", ".join(most[:16])), (17, f"{first} and 9 more")):
            for words, why in (
                (["lod-3"], f"lod-3 is none of the instruments: {told} (did you mean load-3?)"),
                (["q*"], f"no instrument is like q*: there are {told}"),
                (["99 of load-*"], f"99 of load-* are wanted; there are {count}: {told}"),
            ):
                with self.subTest(words, count=count), self.assertRaises(ValueError) as caught:
                    sets_of(words, most[:count], {})
                self.assertEqual(str(caught.exception), why)

    def test_most(self) -> None:
        """14 of which 2 are wanted have 91 ways, 15 have 105."""
        names = [f"load-{at}" for at in range(15)]
        self.assertEqual(len(sets_of(["2 of *"], names[:14], {})), 91)
        for words in (["2 of *"], ["7 of *", "tag:all"], [f"tag:t{at}" for at in range(9)]):
            with self.subTest(words), self.assertRaisesRegex(TooMany, f"{MOST_SETS} "):
                sets_of(words, names, {"all": names, **{f"t{at}": names for at in range(9)}})


class InALab(unittest.TestCase):
    def test_hold(self) -> None:
        with labrun.Lab(NAMES, tags=TAGS) as lab:
            with lab.hold("load-*", timeout=0) as one, lab.hold("2 of load-*", timeout=0) as two:
                self.assertEqual((one.instruments, two.instruments), (("load-1",), ("load-2", "load-3")))
                with self.assertRaises(labrun.TimeoutError):
                    lab.hold("tag:precise", "scope", timeout=0).acquire()
                with lab.hold(any_of=["tag:precise", "supply"], timeout=0) as third:
                    self.assertEqual(third.instruments, ("scope",))

    def test_station(self) -> None:
        """A word stands for what the station may use, and for nothing else."""
        with labrun.Lab(NAMES, stations={"board": ["load-2", "load-3"]}, tags=TAGS) as lab:
            board = lab.station("board")
            with board.hold("load-*", timeout=0) as held:
                self.assertEqual(held.instruments, ("load-2",))
            with board.hold("tag:precise", timeout=0) as held:
                self.assertEqual(held.instruments, ("load-3",))
            with self.assertRaises(labrun.MayNotUse):
                board.hold("scope", "load-*")
            with self.assertRaisesRegex(ValueError, "board may use no such instrument: no instrument is like s"):
                board.hold("s*")
            with self.assertRaisesRegex(ValueError, "3 of load-. are wanted; there are 2: load-2, load-3"):
                board.hold("3 of load-*")

    def test_a_name_with_signs(self) -> None:
        """What is there by that name is that."""
        with labrun.Lab(["load-*", "load-1", "tag:x"]) as lab:
            with lab.hold("load-*", timeout=0) as held, lab.hold("tag:x", timeout=0) as other:
                self.assertEqual((held.instruments, other.instruments), (("load-*",), ("tag:x",)))

    def test_tags_that_are_wrong(self) -> None:
        with self.assertRaisesRegex(ValueError, "precise: 'lamp' is none of the instruments"):
            labrun.Lab(NAMES, tags={"precise": ["lamp"]})
        with self.assertRaises((TypeError, ValueError)):
            labrun.Lab(NAMES, tags={"precise": "scope"})
