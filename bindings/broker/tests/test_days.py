"""A hundred days of the broker by chance, with kills at each write and each await (the short form of tests.days, which has the properties)."""

import unittest
from typing import Optional
from unittest import mock

from labrun_broker.shell import Shell
from tests.days import days, run, shortest, steps_of


class Days(unittest.TestCase):
    def test_a_hundred(self) -> None:
        wrong, counts = days(100, 1)
        self.assertEqual("\n".join(wrong), "")
        for what, least in (("kills", 50), ("power cuts", 30), ("stops", 50), ("sessions that came back", 100), ("bay files refused", 5), ("turns", 20), ("changes", 10), ("changes refused", 10)):
            self.assertGreater(counts[what], least, what)

    def test_days_that_were_wrong(self) -> None:
        """A ticket in use that the bay has nothing for any more, a places file on a full disk, who comes back twice in a second for what is kept,
        tokens behind a file that began anew, a let-go while one is made, and who gives up just as it is let in."""
        for seed in ("7 15", "7 76", "7 177", "7 202", "7 223", "7 275", "11 134", "31 257"):
            with self.subTest(seed):
                self.assertIsNone(run(steps_of(seed))[0])

    def test_a_day_is_the_same_again(self) -> None:
        steps = steps_of("1 7")
        self.assertEqual(steps, steps_of("1 7"))
        self.assertEqual(run(steps), run(steps))

    def test_a_fault_is_seen(self) -> None:
        """A broker that answers notes and releases before they are on the disk; and the day in which that is seen is short."""

        async def at_once(shell: Shell, position: Optional[int] = None, takes_all: bool = False) -> None: ...

        with mock.patch.object(Shell, "durable", at_once):
            steps, why = next((steps, why) for at in range(50) if (why := run(steps := steps_of(f"1 {at}"))[0]) is not None)
            short = shortest(steps, why)
            self.assertRegex(run(short)[0] or "", "^property 3: ")
        self.assertLess(len(short), 8)
        self.assertIsNone(run(short)[0])


if __name__ == "__main__":
    unittest.main()
