"""The bench for threads: each method, and sessions of several threads."""

import asyncio
import ctypes
import os
import subprocess
import sys
import tempfile
import threading
import time
import unittest
from typing import Any

import labrun
from labrun._library import SessionOf
from tests.benches import LIMIT, PATIENT, SOON, TWO, asked, back, child, in_thread, logged, until, waiting
from tests.load import load_script

TEN_LINES = """
import labrun
def measure(instruments):
    assert "scope-1" in instruments
with labrun.Bench.open("bay.lab") as bench:
    def station(job):
        for session in job.sessions():        # blocks, without burning a core, until all instruments are held
            with session:                     # do the real work here; on leaving, the session's commands are logged and it lets go
                measure(session.instruments)
    bench.run(station)                        # a thread for each job, or threads of one's own, or asyncio (`async with`)
print(bench.report.finished, bench.report.log("scope-1"))
"""


class Alone(unittest.TestCase):
    """What one thread sees."""

    def test_ten_lines(self) -> None:
        with tempfile.TemporaryDirectory() as folder:
            with open(os.path.join(folder, "bay.lab"), "w", encoding="ascii") as file:
                file.write("lab 1\njob a\nsession\nscope-1 set 3\nend\njob b\nsession\nscope-1 read\nend\n")
            ran = subprocess.run([sys.executable, "-c", TEN_LINES], cwd=folder, env=child(), capture_output=True, text=True)
        self.assertEqual(ran.stderr, "")
        self.assertTrue(ran.stdout.startswith("True (Entry(job="), ran.stdout)
        self.assertEqual(ran.stdout.count("Entry("), 2)

    def test_names(self) -> None:
        with labrun.Bench.from_text(TWO) as bench:
            self.assertEqual([job.name for job in bench.jobs], ["a", "b"])
            self.assertEqual(bench.instruments, ("scale",))
            self.assertIs(bench.job("b"), bench.jobs[1])
            with self.assertRaises(KeyError):
                bench.job("c")

    def test_sessions_one_after_another(self) -> None:
        with labrun.Bench.from_text(TWO) as bench:
            seen = []
            for job in bench.jobs:
                for session in job.sessions():
                    self.assertEqual((session.state, len(session.commands), session.patience), ("new", 1, None))
                    with session:
                        self.assertTrue(session.held)
                        self.assertTrue(job.state.holds)
                        seen.append((job.name, session.number, session.instruments))
                    self.assertEqual(session.state, "finished")
        self.assertEqual(seen, [("a", 1, ("scale",)), ("a", 2, ("scale",)), ("b", 1, ("scale",))])
        self.assertEqual(logged(bench), ["a 1 1/1 add 5 = 5", "a 2 1/1 add 5 = 10", "b 1 1/1 read = 10"])
        self.assertTrue(bench.report.finished)

    def test_state(self) -> None:
        with labrun.Bench.from_text(TWO) as bench:
            job = bench.jobs[0]
            self.assertEqual((job.state.session, job.state.sessions, job.state.holds, job.state.waits), (0, 2, False, False))
            session = job.next_session()
            assert session
            session.acquire()
            self.assertEqual((job.state.session, job.state.holds), (1, True))
            session.acquire()  # at once: it holds
            session.release()
            self.assertEqual((job.state.done, job.state.holds, job.state.retired), (1, False, False))
            with self.assertRaises(labrun.NotHeld):
                session.release()
            with self.assertRaises(labrun.NotHeld):
                session.acquire()

    def test_commands(self) -> None:
        script = "lab 1\njob a\nsession\nscale set 3\nlamp add 2\nscale read\nend\n"
        with labrun.Bench.from_text(script) as bench:
            for session in bench.jobs[0].sessions():
                with self.assertRaises(labrun.NotHeld):
                    session.command()
                with session:
                    self.assertEqual(session.instruments, ("scale", "lamp"))
                    self.assertEqual(session.command(), labrun.Entry("a", 1, 1, 2, "set", 3, 3))
                    self.assertEqual(session.command(), labrun.Entry("a", 1, 1, 1, "add", 2, 2))
                    self.assertEqual(session.command(), labrun.Entry("a", 1, 2, 2, "read", None, 3))
                    self.assertIsNone(session.command())
                    self.assertTrue(session.held)
        self.assertEqual(logged(bench), ["a 1 1/2 set 3 = 3", "a 1 2/2 read = 3"])

    def test_commands_of_the_script(self) -> None:
        text = "lab 2\r\n# job x\n\n job\ta \nsession patience 3\n\tscale  set 3\r\nlamp read\nend\njob b\nsession\nend add\nend"
        with self.assertRaises(labrun.Refused):
            labrun.Bench.from_text(text)
        with labrun.Bench.from_text(text.replace("end add", "lamp add 0")) as bench:
            first, second = bench.jobs[0].next_session(), bench.jobs[1].next_session()
            assert first and second
            self.assertEqual(first.commands, (labrun.Command("scale", "set", 3), labrun.Command("lamp", "read", None)))
            self.assertEqual(second.commands, (labrun.Command("lamp", "add", 0),))
            self.assertEqual((first.patience, second.patience), (3, None))

    def test_sessions_are_the_library_s(self) -> None:
        """What the package reads in a script is what the library reads there."""
        for script in (load_script(6, 10, 7, 5), PATIENT, SOON, "lab 2\njob b\nsession patience 0\nz read\na read\nz add 1\nend\njob a\n"):
            with labrun.Bench.from_text(script) as bench:
                what = SessionOf()
                for job in bench.jobs:
                    self.assertEqual(len(job._plan), job.state.sessions)
                    for number, (instruments, commands, patience) in enumerate(job._plan, 1):
                        bench._core.call("lab_session_of", job.index, number, ctypes.byref(what))
                        names = tuple(name for at, name in enumerate(bench.instruments) if what.needs >> at & 1)
                        self.assertEqual((instruments, len(commands)), (names, what.commands))
                        self.assertEqual(patience, what.patience if what.has_patience else None)

    def test_text_for_a_bench(self) -> None:
        """It says what each job may use, for sessions that come while a bench is open: here none do."""
        with self.assertRaises(labrun.Refused) as caught:
            labrun.Bench.from_text("# bay\nbench 1\njob a\nuses scope\n")
        self.assertEqual((caught.exception.line, caught.exception.cause), (2, 1))

    def test_some_commands_are_left(self) -> None:
        script = "lab 1\njob a\nsession\nscale set 3\nscale add 2\nend\n"
        with labrun.Bench.from_text(script) as bench:
            for session in bench.jobs[0].sessions():
                with session:
                    session.command()
        self.assertEqual(logged(bench), ["a 1 1/2 set 3 = 3", "a 1 2/2 add 2 = 5"])

    def test_left_held_is_finished(self) -> None:
        with labrun.Bench.from_text(TWO) as bench:
            for session in bench.jobs[0].sessions():
                session.acquire()
            for session in bench.jobs[1].sessions():
                session.acquire()
                break
        self.assertTrue(bench.report.job("a").retired)
        self.assertEqual(bench.report.job("b").done, 1)

    def test_closed(self) -> None:
        bench = labrun.Bench.from_text(TWO)
        session = bench.jobs[0].next_session()
        assert session
        with self.assertRaises(labrun.LabrunError):
            bench.report
        report = bench.close()
        self.assertIs(bench.close(), report)
        self.assertFalse(report.finished)
        calls: list[Any] = [session.acquire, session.release, session.command, session.withdraw, bench.jobs[0].next_session, lambda: bench.jobs[0].state]
        for call in calls:
            with self.assertRaises(labrun.Closed):
                call()
        session.give_up()
        bench.stop()

    def test_closed_in_the_body(self) -> None:
        """It can't let go any more, which is told; an exception of the body goes first."""
        for raises in (False, True):
            bench = labrun.Bench.from_text(TWO)
            with self.assertRaises(ZeroDivisionError if raises else labrun.Closed):
                with asked(bench, "a"):
                    bench.close()
                    if raises:
                        1 / 0
            self.assertEqual((bench.report.job("a").done, bench.raised), (0, (("a", 1),) if raises else ()))

    def test_no_jobs_and_no_sessions(self) -> None:
        with labrun.Bench.from_text("lab 1\n") as bench:
            bench.run(lambda job: None)
        self.assertTrue(bench.report.finished)
        with labrun.Bench.from_text("lab 1\njob a\n") as bench:
            self.assertEqual(list(bench.jobs[0].sessions()), [])
        self.assertTrue(bench.report.finished)

    def test_exception_in_the_body(self) -> None:
        with self.assertRaises(ZeroDivisionError):
            with labrun.Bench.from_text(TWO) as bench:
                for session in bench.jobs[0].sessions():
                    with session:
                        1 / 0
        self.assertEqual(session.state, "finished")
        self.assertEqual(logged(bench), ["a 1 1/1 add 5 = 5"])
        self.assertEqual((bench.report.job("a").done, bench.report.finished), (1, False))
        self.assertEqual((bench.raised, bench.lapsed), ((("a", 1),), ()))

    def test_no_library(self) -> None:
        words = [sys.executable, "-c", "import labrun; labrun.run('lab 1')"]
        ran = subprocess.run(words, env={**child(), "LABRUN_LIBRARY": "/nowhere.so"}, capture_output=True, text=True)
        self.assertIn("LABRUN_LIBRARY", ran.stderr)
        self.assertIn("/nowhere.so", ran.stderr)


class Waiting(unittest.TestCase):
    """Sessions of several threads."""

    def holding(self, script: str) -> tuple[labrun.Bench, labrun.Session, labrun.Session]:
        """A bench where a holds the scale, and the session of b that wants it, which stands in line as soon as it asks."""
        bench = labrun.Bench.from_text(script)
        self.addCleanup(bench.close)
        first, second = asked(bench, "a"), asked(bench, "b")
        first.acquire()
        return bench, first, second

    def test_woken(self) -> None:
        """By the other's release: it doesn't look again from time to time."""
        bench, first, second = self.holding(TWO)
        came: list[bool] = []

        def wait() -> None:
            with second:
                came.append(second.held)

        thread = in_thread(wait)
        until(lambda: bench.jobs[1].state.waits)
        self.assertEqual(came, [])
        first.release()
        back(thread)
        self.assertEqual(came, [True])

    def test_waiting_burns_nothing(self) -> None:
        """A thread that waits makes no call: of the processor's time it has no share that is worth the name."""
        bench, first, second = self.holding(TWO)
        thread = in_thread(second.acquire)
        until(lambda: bench.jobs[1].state.waits)
        begun, turns, work = time.monotonic(), bench.jobs[1].state.turns, time.process_time()
        time.sleep(2)
        took, turns, work = time.monotonic() - begun, bench.jobs[1].state.turns - turns, time.process_time() - work
        self.assertEqual(turns, 0)
        self.assertLess(work, took / 4)
        first.release()
        back(thread)

    def test_two_threads_at_one_job(self) -> None:
        """Whoever comes second is told, while the first waits and while it holds, and does it no harm."""
        bench, first, second = self.holding(TWO)
        goes_on, seen = threading.Event(), []

        def station() -> None:
            for session in bench.jobs["b"].sessions():
                with session:
                    seen.append(session.number)
                    goes_on.wait(LIMIT)

        def loop() -> None:
            for session in bench.jobs["b"].sessions():
                with session:
                    self.fail("two are in one session")

        thread = in_thread(station)
        until(lambda: second.state == "waiting")
        for state in ("waiting", "held"):
            self.assertEqual(second.state, state)
            for call in (second.acquire, bench.jobs["b"].next_session, second.__enter__, loop):
                with self.assertRaisesRegex(labrun.LabrunError, "another thread, or task, is at session 1 of b"):
                    call()
            if state == "waiting":
                first.release()
                until(lambda: bool(seen))
        self.assertTrue(second.held and bench.jobs["b"].state.holds)
        goes_on.set()
        back(thread)
        self.assertEqual((seen, second.state), ([1], "finished"))

    def test_two_loops_over_one_job(self) -> None:
        """Both were offered the session before one of them asked: the other one's loop doesn't end it."""
        with labrun.Bench.from_text(TWO) as bench:
            mine, holds, goes_on = bench.jobs["a"].sessions(), threading.Event(), threading.Event()
            session = next(mine)

            def station() -> None:
                with asked(bench, "a"):
                    holds.set()
                    goes_on.wait(LIMIT)

            thread = in_thread(station)
            self.assertTrue(holds.wait(LIMIT))
            with self.assertRaisesRegex(labrun.LabrunError, "another thread"):
                session.acquire()
            with self.assertRaisesRegex(labrun.LabrunError, "another thread"):
                next(mine)
            del mine
            self.assertTrue(session.held and bench.jobs["a"].state.holds)
            goes_on.set()
            back(thread)
            self.assertEqual(session.state, "finished")

    def test_another_thread_lets_go(self) -> None:
        """Which thread it is doesn't matter, as long as it is one at a time."""
        bench, first, second = self.holding(TWO)
        thread = waiting(second)
        back(in_thread(first.release))
        back(thread)
        second.release()
        with asked(bench, "a") as session:
            self.assertEqual(session.number, 2)

    def test_withdraw(self) -> None:
        bench, first, second = self.holding(PATIENT)
        self.assertEqual(second.patience, 999999)
        with self.assertRaisesRegex(labrun.NotHeld, "session 1 of b is new: it can't be withdrawn"):
            second.withdraw()
        faults: list[BaseException] = []
        thread = waiting(second, faults)
        second.withdraw()
        back(thread)
        self.assertEqual(([str(it) for it in faults], second.state), (["session 1 of b was withdrawn"], "withdrawn"))
        for call in (second.acquire, second.withdraw, second.release):
            with self.assertRaises(labrun.Withdrawn if call == second.acquire else labrun.NotHeld):
                call()
        with self.assertRaisesRegex(labrun.NotHeld, "session 1 of a is held: it can't be withdrawn"):
            first.withdraw()
        first.release()
        for session in bench.jobs[1].sessions():
            with session:
                self.assertEqual(session.number, 2)
        report = bench.close()
        self.assertEqual((report.job("b").withdrawn, report.job("b").done, bench.lapsed), (1, 1, ()))

    def test_no_patience_no_withdrawal(self) -> None:
        bench, first, second = self.holding(TWO)
        thread = waiting(second)
        with self.assertRaises(labrun.NotHeld):
            second.withdraw()
        first.release()
        back(thread)
        self.assertTrue(second.held)

    def test_patience_runs_out(self) -> None:
        """In turns, though nobody else does anything; also one that has none left at once."""
        for script in (SOON, SOON.replace("patience 2", "patience 0")):
            bench, first, second = self.holding(script)
            with self.assertRaises(labrun.Withdrawn):
                second.acquire()
            self.assertEqual(second.state, "withdrawn")
            first.release()
            self.assertEqual(asked(bench, "b").number, 2)
            report = bench.close()
            self.assertEqual((report.job("b").withdrawn, report.job("b").done), (1, 0))

    def test_patience_runs_out_in_a_task(self) -> None:
        async def main() -> list[int]:
            bench, first, second = labrun.Bench.from_text(SOON), None, None
            first, seen = asked(bench, "a"), []
            async with first:
                for session in bench.jobs["b"].sessions():
                    try:
                        async with session:
                            seen.append(session.number)
                    except labrun.Withdrawn:
                        seen.append(-session.number)
                        first.release()
            bench.close()
            return seen

        self.assertEqual(asyncio.run(main()), [-1, 2])

    def test_the_largest_patience_counts_nothing(self) -> None:
        bench, first, second = self.holding(PATIENT)
        thread = waiting(second)
        turns = bench.jobs["b"].state.turns
        time.sleep(0.5)
        self.assertEqual(bench.jobs["b"].state.turns, turns)
        first.release()
        back(thread)

    def test_stop(self) -> None:
        for script, state in ((TWO, "left"), (PATIENT, "withdrawn")):
            bench, first, second = self.holding(script)
            faults: list[BaseException] = []

            def wait() -> None:
                try:
                    second.acquire()
                except labrun.Stopped as fault:
                    faults.append(fault)

            thread = in_thread(wait)
            until(lambda: bench.jobs[1].state.waits)
            bench.stop()
            back(thread)
            self.assertEqual((len(faults), second.state), (1, state))
            self.assertTrue(first.held)
            first.release()
            for job in bench.jobs:
                with self.assertRaises(labrun.Stopped):
                    job.next_session()
            self.assertEqual(bench.lapsed, (("b", 1),) if script == TWO else ())

    def test_close_wakes(self) -> None:
        bench, first, second = self.holding(TWO)
        faults: list[BaseException] = []

        def wait() -> None:
            try:
                second.acquire()
            except labrun.Closed as fault:
                faults.append(fault)

        thread = in_thread(wait)
        until(lambda: bench.jobs[1].state.waits)
        report = bench.close()
        back(thread)
        self.assertEqual(len(faults), 1)
        self.assertFalse(report.finished)

    def test_others_take_turns(self) -> None:
        """Without a patience no count of turns ends the waiting: others have a thousand sessions meanwhile."""
        others = "session\nlamp read\nend\n" * 1000
        bench, first, second = self.holding("lab 2\njob a\nsession\nscale add 1\nend\njob b\nsession\nscale read\nend\njob c\n" + others)
        thread = waiting(second)
        for session in bench.jobs["c"].sessions():
            with session:
                pass
        self.assertEqual((second.state, bench.jobs["c"].state.done), ("waiting", 1000))
        first.release()
        back(thread)
        self.assertTrue(second.held)
        second.release()
        self.assertTrue(bench.close().finished)


if __name__ == "__main__":
    unittest.main()
