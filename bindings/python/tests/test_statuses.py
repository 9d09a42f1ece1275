"""Statuses of the library that a call shouldn't answer here: each raises, and none is passed over. On the definitions (tests/simulated.py)."""

from __future__ import annotations

import contextlib
import unittest
from typing import Any, Callable, Iterator
from unittest import mock

import labrun
from labrun import _library
from tests.simulated import Simulated
from tests.benches import PATIENT, SOON, TWO, asked, back, waiting

# 7 not open, 12 the journal is full, 13 another call is under way; and "not now", where that can't be
ANYWHERE, NOT_NOW = (7, 12, 13), 8
# nobody has a session
IDLE = "lab 1\njob a\njob b\n"


class Wrong(Simulated):
    """As long as a call is in `wrong`, it does nothing and answers that."""

    def __init__(self) -> None:
        super().__init__()
        self.wrong: dict[str, int] = {}

    def __getitem__(self, name: str) -> Callable[..., Any]:
        call = super().__getitem__(name)
        return lambda *given: self.wrong[name] if name in self.wrong else call(*given)


class Statuses(unittest.TestCase):
    def setUp(self) -> None:
        self.library = Wrong()
        patch = mock.patch.object(_library, "_loaded", self.library)
        patch.start()
        self.addCleanup(patch.stop)

    @contextlib.contextmanager
    def refused(self, name: str, status: int) -> Iterator[None]:
        """Here the call answers so, and that is told."""
        self.library.wrong[name] = status
        try:
            with self.assertRaises(labrun.LabrunError) as caught:
                yield
        finally:
            del self.library.wrong[name]
        self.assertNotIsInstance(caught.exception, (labrun.NotHeld, labrun.Withdrawn, labrun.TimeoutError))
        self.assertIn(f"{name}: status {status}", str(caught.exception))

    def each(self, name: str, act: Callable[[], Callable[[], object]], *more: int) -> None:
        """What is made ready first, and then calls it."""
        for status in (*ANYWHERE, *more):
            with self.subTest(name, status=status):
                call = act()
                with self.refused(name, status):
                    call()

    def held(self, script: str = TWO) -> tuple[labrun.Bench, labrun.Session, labrun.Session]:
        bench = labrun.Bench.from_text(script)
        first, second = asked(bench, "a"), asked(bench, "b")
        first.acquire()
        return bench, first, second

    @contextlib.contextmanager
    def waits(self, script: str = TWO) -> Iterator[labrun.Session]:
        """A thread waits for this one; it is back at the end."""
        bench, first, second = self.held(script)
        thread = waiting(second, [])
        try:
            yield second
        finally:
            if first.held:
                first.release()
            back(thread)

    def test_open(self) -> None:
        for name in ("lab_check", "lab_bench_open", "lab_bench_size", "lab_job_name", "lab_instrument_name", "lab_state", "lab_session_of", "lab_planned"):
            self.each(name, lambda: lambda: labrun.Bench.from_text(TWO), NOT_NOW)

    def test_asks(self) -> None:
        """And nothing is asked for by that."""
        for status in (*ANYWHERE, NOT_NOW):
            with labrun.Bench.from_text(TWO) as bench:
                session = asked(bench, "a")
                with self.refused("lab_settle", status):
                    session.acquire()
                self.assertEqual((session.state, bench.jobs["a"].state.holds), ("new", False))
                with session:
                    pass

    def test_tells(self) -> None:
        self.each("lab_state", lambda: lambda bench=self.held()[0]: bench.jobs["b"].state, NOT_NOW)  # type: ignore[misc]
        self.each("lab_command", lambda: self.held()[1].command)

    def test_lets_go(self) -> None:
        """It holds as before, and may let go again."""
        for status in (*ANYWHERE, NOT_NOW):
            bench, first, _ = self.held()
            with self.refused("lab_end", status):
                first.release()
            self.assertTrue(first.held and bench.jobs["a"].state.holds)
            first.release()
            self.assertEqual((first.state, bench.jobs["a"].state.done), ("finished", 1))

    def test_wakes(self) -> None:
        """It let go, and whoever waits is told once all is right again."""
        for status in (*ANYWHERE, NOT_NOW):
            bench, first, second = self.held()
            thread = waiting(second)
            with self.refused("lab_settle", status):
                first.release()
            self.assertEqual(first.state, "finished")
            following = waiting(asked(bench, "a"))
            back(thread)
            second.release()
            back(following)

    def test_waits(self) -> None:
        """One that settles from time to time, since it has a patience: it is told, and nothing is held by nobody."""
        for status in (*ANYWHERE, NOT_NOW):
            bench, first, second = self.held(SOON.replace("patience 2", "patience 999998"))
            faults: list[BaseException] = []
            thread = waiting(second, faults)
            self.library.wrong["lab_settle"] = status
            back(thread)
            del self.library.wrong["lab_settle"]
            self.assertIn(f"lab_settle: status {status}", str(faults[0]))
            first.release()
            self.assertEqual((second.state, bench.jobs["b"].state.holds, bench.jobs["b"].state.waits), ("withdrawn", False, False))

    def test_gives_up(self) -> None:
        """And once more, when all is right again."""
        for name in ("lab_withdraw", "lab_state"):
            for status in (*ANYWHERE, NOT_NOW):
                for gives_up in (labrun.Session.give_up, labrun.Session.withdraw):
                    with self.subTest(name, status=status), self.waits(PATIENT) as session:
                        with self.refused(name, status):
                            gives_up(session)
                        session.give_up()
                        self.assertEqual((session.state, session.job.state.withdrawn, session.job.state.holds), ("withdrawn", 1, False))

    def test_lapses(self) -> None:
        """One that was left, and whose turn came."""
        for status in (*ANYWHERE, NOT_NOW):
            with self.waits() as session:
                session.give_up()
                with self.refused("lab_end", status):
                    # (it is the first that doesn't let go)
                    session.job.bench.jobs["a"].next_session().release()  # type: ignore[union-attr]
            self.assertEqual((session.state, session.job.bench.lapsed), ("lapsed", (("b", 1),)))

    def test_ends(self) -> None:
        for name in ("lab_retire", "lab_bench_close"):
            self.each(name, lambda: labrun.Bench.from_text(IDLE).close)
        bench = labrun.Bench.from_text(IDLE)
        # (7: it is empty already)
        with self.refused("lab_bench_free", 13):
            bench.close()
        self.assertTrue(bench.close().finished)


if __name__ == "__main__":
    unittest.main()
