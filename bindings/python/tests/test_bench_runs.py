"""The bench for threads: `run`, how stations end, forks, interrupts; and whether two ever hold one instrument."""

import asyncio
import os
import signal
import subprocess
import sys
import threading
import time
import unittest
from typing import Any, Callable
from unittest import mock

import labrun
from tests.benches import LIMIT, PATIENT, TWO, asked, back, child, in_thread, until
from tests.load import Counting, load_script


class Running(unittest.TestCase):
    """`run`, by threads and by tasks."""

    def test_run(self) -> None:
        with labrun.Bench.from_text(load_script(8, 50, 5, 1)) as bench:
            counting = Counting(bench)
            bench.run(counting.station)
        self.assertEqual((counting.clashes, counting.done), (0, 400))
        self.assertTrue(bench.report.finished)

    def test_own_threads(self) -> None:
        with labrun.Bench.from_text(load_script(4, 20, 3, 2)) as bench:
            counting = Counting(bench)
            threads = [threading.Thread(target=counting.station, args=(job,)) for job in bench.jobs]
            for thread in threads:
                thread.start()
            for thread in threads:
                thread.join()
        self.assertEqual((counting.clashes, counting.done, bench.report.finished), (0, 80, True))

    def test_32_threads(self) -> None:
        with labrun.Bench.from_text(load_script(32, 20, 20, 3)) as bench:
            counting = Counting(bench, pause=0.0005)
            bench.run(counting.station)
        self.assertEqual((counting.clashes, counting.done), (0, 640))
        self.assertTrue(bench.report.finished)
        self.check_logs(bench.report)

    def check_logs(self, report: labrun.Report) -> None:
        """Each log is whole sessions, one after another."""
        for name in report.instruments:
            log = list(report.log(name))
            while log:
                first = log[0]
                session, log = log[: first.length], log[first.length :]
                self.assertEqual({(it.job, it.session) for it in session}, {(first.job, first.session)})
                self.assertEqual([it.place for it in session], list(range(1, first.length + 1)))

    def test_many(self) -> None:
        """Very many sessions without a pause, until `LABRUN_SESSIONS` are done."""
        wanted, done, seed = int(os.environ.get("LABRUN_SESSIONS", "20000")), 0, 0
        while done < wanted:
            with labrun.Bench.from_text(load_script(16, min(1000, max(1, (wanted - done) // 16)), 12, seed)) as bench:
                counting = Counting(bench)
                bench.run(counting.station)
            self.assertEqual(counting.clashes, 0)
            self.assertTrue(bench.report.finished)
            done, seed = done + counting.done, seed + 1

    def test_counting_sees_two(self) -> None:
        with labrun.Bench.from_text(TWO) as bench:
            counting = Counting(bench)
            counting.came(("scale",))
            counting.came(("scale",))
            self.assertEqual(counting.clashes, 1)

    def test_exception_in_a_station(self) -> None:
        def station(job: labrun.Job) -> None:
            for session in job.sessions():
                with session:
                    if job.name == "a":
                        raise RuntimeError("the scope caught fire")

        bench = labrun.Bench.from_text(TWO)
        with self.assertRaisesRegex(RuntimeError, "caught fire"):
            with bench:
                bench.run(station)
        self.assertTrue(bench.report.job("b").retired)
        self.assertEqual(bench.report.job("a").done, 1)
        self.assertEqual(bench.raised, (("a", 1),))

    def test_all_stations_raise(self) -> None:
        """The first is raised, with the other as its note."""

        def station(job: labrun.Job) -> None:
            raise RuntimeError(job.name)

        bench = labrun.Bench.from_text(TWO)
        with self.assertRaisesRegex(RuntimeError, "[ab]") as caught:
            bench.run(station)
        if hasattr(caught.exception, "add_note"):
            other = "b" if str(caught.exception) == "a" else "a"
            self.assertEqual(caught.exception.__notes__, [f"also {other}: RuntimeError('{other}')"])
        bench.close()

    def test_interrupted_as_it_begins(self) -> None:
        """Before all threads are there: no station begins, and the bench is stopped."""
        bench, begun, started, start = labrun.Bench.from_text(TWO), [], [], threading.Thread.start

        def starts(thread: threading.Thread) -> None:
            if started:
                raise KeyboardInterrupt
            started.append(thread)
            start(thread)

        with mock.patch.object(threading.Thread, "start", starts), self.assertRaises(KeyboardInterrupt):
            bench.run(lambda job: begun.append(job.name))
        back(started[0])
        self.assertEqual(begun, [])
        with self.assertRaises(labrun.Stopped):
            bench.jobs[0].next_session()
        bench.close()

    def test_run_of_a_closed_bench(self) -> None:
        bench = labrun.Bench.from_text(TWO)
        bench.close()
        with self.assertRaises(labrun.Closed):
            bench.run(lambda job: None)

    def test_others_go_on(self) -> None:
        """One that never comes back keeps what it holds, and nothing else: others work beside it."""
        for_ever, holds, ended = threading.Event(), threading.Event(), threading.Event()

        def station(job: labrun.Job) -> None:
            if job.name != "a":
                holds.wait(LIMIT)
            for session in job.sessions():
                with session:
                    if job.name == "a" and session.number == 1:
                        holds.set()
                        for_ever.wait(LIMIT)
            if job.name == "c":
                ended.set()

        bench = labrun.Bench.from_text(TWO.replace("job b", "job c\nsession\nlamp set 1\nend\njob b"))
        with bench:
            thread = in_thread(lambda: bench.run(station))
            self.assertTrue(ended.wait(LIMIT))
            self.assertTrue(bench.jobs["a"].state.holds)
            self.assertFalse(bench.jobs["b"].state.holds)
            for_ever.set()
            back(thread)
        self.assertTrue(bench.report.finished)

    def test_async(self) -> None:
        bench = labrun.Bench.from_text(load_script(8, 20, 5, 4))
        counting = Counting(bench)

        async def station(job: labrun.Job) -> None:
            for session in job.sessions():
                async with session:
                    counting.came(session.instruments)
                    await asyncio.sleep(0.0005)
                    counting.went(session.instruments)

        with bench:
            asyncio.run(bench.run_async(station))
        self.assertEqual((counting.clashes, counting.done, bench.report.finished), (0, 160, True))

    def test_async_that_raises(self) -> None:
        bench = labrun.Bench.from_text(TWO)

        async def station(job: labrun.Job) -> None:
            for session in job.sessions():
                async with session:
                    if job.name == "a":
                        raise RuntimeError("the scope caught fire")

        with self.assertRaisesRegex(RuntimeError, "caught fire"):
            with bench:
                asyncio.run(bench.run_async(station))
        self.assertEqual((bench.raised, bench.report.job("b").done), ((("a", 1),), 1))

    def test_async_run_that_is_cancelled(self) -> None:
        """All its tasks are: those that hold let go, those that wait leave, and nothing is held by nobody."""
        for script in (TWO, PATIENT):
            bench, seen = labrun.Bench.from_text(script), []

            async def station(job: labrun.Job) -> None:
                for session in job.sessions():
                    async with session:
                        seen.append(job.name)
                        await asyncio.sleep(LIMIT)

            async def main() -> None:
                task = asyncio.create_task(bench.run_async(station))
                while not (seen and bench.jobs["b"].state.waits):
                    await asyncio.sleep(0)
                task.cancel()
                with self.assertRaises(asyncio.CancelledError):
                    await task

            asyncio.run(main())
            self.assertEqual((seen, bench.raised), (["a"], (("a", 1),)))
            # (a may have let go before b was told that it is cancelled)
            self.assertLessEqual(set(bench.lapsed), {("b", 1)})
            self.assertFalse(any(job.state.holds or job.state.waits for job in bench.jobs))
            for job in bench.jobs:
                for session in job.sessions():
                    with session:
                        pass
            self.assertTrue(bench.close().finished)

    def test_threads_and_tasks(self) -> None:
        bench = labrun.Bench.from_text(TWO)
        counting = Counting(bench)

        async def task(job: labrun.Job) -> None:
            for session in job.sessions():
                async with session:
                    counting.came(session.instruments)
                    await asyncio.sleep(0.01)
                    counting.went(session.instruments)

        thread = in_thread(lambda: counting.station(bench.jobs[0]))
        asyncio.run(task(bench.jobs[1]))
        back(thread)
        self.assertEqual((counting.clashes, counting.done), (0, 3))
        self.assertTrue(bench.close().finished)


class Ends(unittest.TestCase):
    """How sessions, stations and processes may end."""

    def test_station_that_holds(self) -> None:
        def station(job: labrun.Job) -> None:
            session = job.next_session()
            assert session
            session.acquire()
            if job.name == "b":
                session.release()

        bench = labrun.Bench.from_text(TWO)
        with self.assertRaises(labrun.StillHeld) as caught:
            bench.run(station)
        self.assertEqual(str(caught.exception), "the station of a is over, and session 1 still holds scale")
        (held,) = caught.exception.sessions
        self.assertTrue(held.held)
        held.release()  # whose it was may still let go
        self.assertEqual(bench.close().job("a").done, 1)

    def test_station_that_holds_and_raises(self) -> None:
        def station(job: labrun.Job) -> None:
            session = job.next_session()
            assert session
            session.acquire()
            if job.name == "b":
                session.release()
            else:
                raise RuntimeError("the scope caught fire")

        bench = labrun.Bench.from_text(TWO)
        with self.assertRaisesRegex(RuntimeError, "caught fire"):
            bench.run(station)
        self.assertTrue(bench.jobs[0].state.holds)
        bench.close()

    def test_task_that_holds(self) -> None:
        async def station(job: labrun.Job) -> None:
            session = job.next_session()
            assert session
            await session.acquire_async()

        bench = labrun.Bench.from_text(TWO)
        with self.assertRaises(labrun.StillHeld):
            asyncio.run(bench.run_async(station))
        bench.close()

    def test_with_in_a_coroutine(self) -> None:
        """It is refused before it asks, whether it would have to wait or not."""

        async def main() -> None:
            with labrun.Bench.from_text(TWO) as bench:
                first, second = asked(bench, "a"), asked(bench, "b")
                for is_free in (True, False):
                    with self.assertRaises(labrun.WouldBlock) as caught:
                        with second:
                            self.fail("it is entered")
                    self.assertIn("async with", str(caught.exception))
                    self.assertIsInstance(caught.exception, RuntimeError)
                    self.assertEqual((second.state, bench.jobs["b"].state.waits), ("new", False))
                    if is_free:
                        await first.acquire_async()
                first.release()
                async with second:
                    self.assertTrue(second.held)

        asyncio.run(main())

    def test_generator_closed_late(self) -> None:
        """A loop over sessions that is left after the bench was closed says nothing of it."""
        told: list[Any] = []
        hook, sys.unraisablehook = sys.unraisablehook, told.append
        try:
            bench = labrun.Bench.from_text(TWO)
            sessions = bench.jobs[0].sessions()
            session = next(sessions)
            session.acquire()
            bench.close()
            del sessions, session
        finally:
            sys.unraisablehook = hook
        self.assertEqual(told, [])

    def test_fork(self) -> None:
        """The child's copy of a bench refuses each call, also if another thread was in the midst of one; the parent's goes on."""
        bench = labrun.Bench.from_text(TWO)
        first, second = bench.jobs[0].next_session(), bench.jobs[1].next_session()
        assert first and second
        first.acquire()
        bench._core.mutex.acquire()
        child = os.fork()
        if child == 0:
            refused = 0
            calls: list[Callable[[], object]] = [first.release, second.acquire, second.withdraw, bench.jobs[1].next_session, bench.close, bench.stop]
            calls += [lambda: bench.jobs[0].state, first.command, first.withdraw, lambda: bench.run(lambda job: None)]
            try:
                for call in calls:
                    try:
                        call()
                    except labrun.OtherProcess as fault:
                        refused += str(fault) == f"this bench belongs to process {os.getppid()}"
                second.give_up()
                with bench:
                    pass
                try:
                    with first:
                        pass
                except labrun.OtherProcess:
                    refused += 1
                with labrun.Bench.from_text(TWO) as own:
                    own.jobs[0].next_session().acquire()  # type: ignore[union-attr]
            finally:
                os._exit(refused)
        bench._core.mutex.release()
        self.assertEqual(os.waitstatus_to_exitcode(os.waitpid(child, 0)[1]), 11)
        first.release()
        second.acquire()
        second.release()
        self.assertEqual(bench.close().job("b").done, 1)

    def test_a_child_that_ends_frees_nothing(self) -> None:
        """Nor does a bench that is dropped there."""
        words = "import os, labrun\nbench = labrun.Bench.from_text(%r)\nsession = bench.jobs[0].next_session()\nsession.acquire()\n" % TWO
        words += "if os.fork() == 0:\n    del bench, session\n    raise SystemExit(0)\nprint(os.waitstatus_to_exitcode(os.wait()[1]))\n"
        words += "session.release()\nprint(bench.close().job('a').done)\n"
        ran = subprocess.run([sys.executable, "-c", words], env=child(), capture_output=True, text=True)
        self.assertEqual((ran.stdout, ran.stderr), ("0\n1\n", ""))

    def test_give_up_of_another_thread(self) -> None:
        """Who waits for a session that another thread gives up doesn't sleep on."""
        for script, kind in ((TWO, labrun.NotHeld), (PATIENT, labrun.Withdrawn)):
            bench = labrun.Bench.from_text(script)
            first, second = bench.jobs[0].next_session(), bench.jobs[1].next_session()
            assert first and second
            first.acquire()
            faults: list[BaseException] = []

            def wait() -> None:
                try:
                    second.acquire()
                except labrun.LabrunError as fault:
                    faults.append(fault)

            thread = in_thread(wait)
            until(lambda: bench.jobs[1].state.waits)
            second.give_up()
            back(thread)
            self.assertEqual([type(fault) for fault in faults], [kind])
            bench.close()


INTERRUPTED = """
import signal, sys, time, threading, labrun
# (what a shell runs in the background ignores the signal, and so do its children)
signal.signal(signal.SIGINT, signal.default_int_handler)
WHERE, SCRIPT = sys.argv[1], sys.argv[2]
bench = labrun.Bench.from_text(SCRIPT)
def tell_once_it_waits():
    while not bench.jobs[1].state.waits:
        time.sleep(0.01)
    print("ready", flush=True)
first, second = bench.jobs[0].next_session(), bench.jobs[1].next_session()
states = {}
try:
    with bench:
        if WHERE == "body":
            with first:
                print("ready", flush=True)
                time.sleep(1000)
        elif WHERE == "waiting":
            first.acquire()
            threading.Thread(target=tell_once_it_waits, daemon=True).start()
            with second:
                pass
        else:
            def station(job):
                for session in job.sessions():
                    with session:
                        states[job.name] = session
                        if job.name == "a" and session.number == 1:
                            print("ready", flush=True)
                            while not bench._core.is_stopped:
                                time.sleep(0.01)
            bench.run(station)
except KeyboardInterrupt:
    print(first.state, second.state, bench.report.job("a").done, bench.report.job("b").done, bench.report.finished)
"""


class Interrupted(unittest.TestCase):
    """KeyboardInterrupt, sent to a child process."""

    def interrupted(self, where: str, script: str) -> str:
        words = [sys.executable, "-c", INTERRUPTED, where, script]
        ran = subprocess.Popen(words, env=child(), stdout=subprocess.PIPE, stderr=subprocess.PIPE, text=True)
        try:
            assert ran.stdout
            self.assertEqual(ran.stdout.readline(), "ready\n")
            time.sleep(0.3)  # (it sleeps by now, most likely; it need not)
            ran.send_signal(signal.SIGINT)
            told, faults = ran.communicate(timeout=LIMIT)
            self.assertEqual(faults, "")
            return told.strip()
        finally:
            ran.kill()

    def test_in_the_body(self) -> None:
        self.assertEqual(self.interrupted("body", TWO), "finished new 1 0 False")

    def test_while_it_waits(self) -> None:
        self.assertEqual(self.interrupted("waiting", TWO), "held left 0 0 False")
        self.assertEqual(self.interrupted("waiting", PATIENT), "held withdrawn 0 0 False")

    def test_in_run(self) -> None:
        # a works at its first session until the bench is stopped: it ends that, and begins no other; b gave up, had its session before, or never
        # asked
        self.assertRegex(self.interrupted("run", TWO), r"\Afinished (lapsed 1 1|finished 1 1|new 1 0) False\Z")


if __name__ == "__main__":
    unittest.main()
