"""What a session at a broker has in common with one of a `labrun.Lab`, and what is otherwise."""

import asyncio
import concurrent.futures
import unittest

import labrun
import labrun_broker
from tests.brokers import LIMIT, OnBroker, station, until


class Entering(OnBroker):
    def test_who_enters_twice_stays_in(self) -> None:
        """The second time is refused, and takes nothing from who is in it."""
        broker = self.broker()
        with broker.lab() as lab:
            held = lab.hold("scope")
            with held:
                for again in (held.acquire, held.__enter__):
                    with self.assertRaisesRegex(labrun.NotHeld, "^session 1 of guest-1 is held: it is entered once$"):
                        again()
                    self.assertEqual((held.held, station(lab, "guest-1")["state"]), (True, "holding"))
            self.assertEqual(station(lab, "guest-1")["state"], "idle")

    def test_one_of_two_threads_enters(self) -> None:
        """While it waits, and once it holds."""
        lab = self.lab(self.broker())
        with concurrent.futures.ThreadPoolExecutor(1) as pool, lab.hold("scope") as other:
            held = lab.hold("scope", timeout=LIMIT)
            enters = pool.submit(held.acquire)
            until(lambda: station(lab, "guest-2")["state"] == "waiting")
            with self.assertRaisesRegex(labrun.NotHeld, "^a session is waiting: it is entered once$"):
                with held:
                    self.fail("it is the other thread's")
            other.release()
            enters.result(LIMIT)
            self.assertTrue(held.held)
        held.release()

    def test_who_enters_again(self) -> None:
        """As in a `labrun.Lab`: one that is over stays so, however it ended."""
        lab = self.lab(self.broker())
        late = lab.hold("scope", timeout=0.0)
        with lab.hold("scope") as held:
            with self.assertRaises(labrun.TimeoutError):
                late.acquire()
        for over, it in ((late, "a session is withdrawn"), (held, "session 1 of guest-1 is finished")):
            for again in (over.acquire, over.__enter__, lambda: asyncio.run(over.acquire_async())):
                with self.subTest(it), self.assertRaisesRegex(labrun.NotHeld, f"^{it}: it is entered once$"):
                    again()
            self.assertEqual({one["state"] for one in lab.status()["stations"]}, {"idle"})


class Notes(OnBroker):
    def test_a_note_is_what_str_makes_of_it(self) -> None:
        """A `labrun.Lab` takes none of these; there a note is a `str` of one line, of 500 bytes at most."""
        lab, notes = self.lab(self.broker()), (5, "two\nlines", "two\r\nlines", "é" * 500)
        with lab.hold("scope") as held, labrun.Lab(["scope"]) as of_one, of_one.hold("scope") as other:
            for note in notes:
                with self.subTest(note):
                    held.note(note)
                    self.assertEqual(station(lab, held.station)["note"], str(note))
                    with self.assertRaises(ValueError):
                        other.note(note)  # type: ignore[arg-type]
            with self.assertRaisesRegex(labrun_broker.BadWish, "a note of 501 characters; 500 are the most") as told:
                held.note("é" * 501)
            self.assertIsInstance(told.exception, ValueError)
            self.assertEqual(other.notes, ())


if __name__ == "__main__":
    unittest.main()
