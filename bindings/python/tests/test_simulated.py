"""The bench's threads over the definitions: each test of waiting, and how often a job is attended to for nothing."""

import unittest
from typing import Optional
from unittest import mock

import labrun
from labrun import _library
from tests import test_bench, test_bench_runs, test_given_up
from tests.load import Counting, load_script
from tests.simulated import Simulated


class OnDefinitions(unittest.TestCase):
    def setUp(self) -> None:
        super().setUp()
        self.library = Simulated()
        patch = mock.patch.object(_library, "_loaded", self.library)
        patch.start()
        self.addCleanup(patch.stop)


class Loads(OnDefinitions):
    def loaded(self, jobs: int, sessions: int, instruments: int, pause: Optional[float]) -> None:
        for seed in range(3):
            with labrun.Bench.from_text(load_script(jobs, sessions, instruments, seed)) as bench:
                counting = Counting(bench, pause)
                bench.run(counting.station)
            self.assertEqual((counting.clashes, counting.done), (0, jobs * sessions))
            self.assertTrue(bench.report.finished)

    def test_crowded(self) -> None:
        self.loaded(4, 20, 3, None)
        self.loaded(12, 6, 6, None)

    def test_with_work(self) -> None:
        self.loaded(8, 8, 12, 0.001)

    def test_calls_of_a_session(self) -> None:
        """Where nobody waits a session makes two calls, and no other than those."""
        made: list[str] = []
        with labrun.Bench.from_text(load_script(3, 4, 3, 1)) as bench:
            found = Simulated.__getitem__
            with mock.patch.object(Simulated, "__getitem__", lambda library, name: made.append(name) or found(library, name)):
                for job in bench.jobs:
                    for _ in range(4):
                        session = job.next_session()
                        assert session
                        with session:
                            self.assertTrue(session.instruments and session.commands and session.held)
        self.assertEqual(made, ["lab_settle", "lab_end"] * 12)


class Alone(OnDefinitions, test_bench.Alone):
    """What one thread sees."""

    test_ten_lines = test_no_library = None  # type: ignore[assignment]  # (these start a program on the built library)


class Waiting(OnDefinitions, test_bench.Waiting):
    """All that the bench's tests say of waiting."""


class GivenUp(OnDefinitions, test_given_up.GivenUp):
    """Sessions that are given up."""


class Running(OnDefinitions, test_bench_runs.Running):
    """`run`, by threads and by tasks."""

    test_many = test_32_threads = None  # type: ignore[assignment]  # (these are long)


class Ends(OnDefinitions, test_bench_runs.Ends):
    """Stations that end while they hold, forks, loops of asyncio, and generators that are closed late."""

    test_a_child_that_ends_frees_nothing = None  # type: ignore[assignment]  # (this starts a program on the built library)


if __name__ == "__main__":
    unittest.main()
