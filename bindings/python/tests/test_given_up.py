"""Sessions that are given up, also where their instruments have come free, or are theirs already: nothing is held by nobody, what nobody did
is named, and the report finishes."""

import asyncio
import unittest
from typing import Any, Callable
from unittest import mock

import labrun
from tests.benches import PATIENT, TWO, asked, back, waiting

# three jobs, one instrument; b's session may be withdrawn, or not
SCRIPTS = {
    state: f"lab 2\njob a\nsession\nscale add 5\nend\njob b\n{session}\nscale add 7\nend\njob c\nsession\nscale read\nend\n"
    for state, session in (("withdrawn", "session patience 999999"), ("left", "session"))
}


class GivenUp(unittest.TestCase):
    def waits(self, script: str) -> tuple[labrun.Bench, labrun.Session, labrun.Session, Any, list[BaseException]]:
        """a holds the scale, and a thread waits for it with b's session."""
        bench, faults = labrun.Bench.from_text(script), []  # type: labrun.Bench, list[BaseException]
        self.addCleanup(bench.close)
        first, second = asked(bench, "a"), asked(bench, "b")
        first.acquire()
        return bench, first, second, waiting(second, faults), faults

    def is_over(self, bench: labrun.Bench, session: labrun.Session, state: str) -> None:
        """Nobody holds by it, who comes later works, and each log is of whole sessions."""
        name, number = session.job.name, session.number
        self.assertEqual((session.state, session.job.state.holds, session.job.state.waits), (state, False, False))
        self.assertEqual(bench.lapsed, ((name, number),) if state == "lapsed" else ())
        self.assertEqual(session.job.state.withdrawn, int(state == "withdrawn"))
        for job in bench.jobs:
            for one in job.sessions():
                with one:
                    pass
        self.assertTrue(bench.close().finished)
        self.assertEqual(bench.report.job(name).withdrawn, int(state == "withdrawn"))

    def test_by_another_thread(self) -> None:
        """Who waits for it doesn't sleep on; with a patience it is withdrawn, and without one it lapses once its turn comes."""
        for state, script in SCRIPTS.items():
            with self.subTest(state):
                bench, first, second, thread, faults = self.waits(script)
                second.give_up()
                back(thread)
                self.assertEqual([type(it) for it in faults], [labrun.Withdrawn if state == "withdrawn" else labrun.NotHeld])
                self.assertEqual((second.state, bench.lapsed), (state, ()))
                second.give_up()
                self.assertEqual(second.state, state)
                self.assertTrue(first.held)
                first.release()
                self.is_over(bench, second, "withdrawn" if state == "withdrawn" else "lapsed")

    def test_its_log(self) -> None:
        """What was withdrawn logs nothing; what lapsed logs its commands, and the next session comes."""
        for script, wanted in ((TWO, ["a 1 1/1 add 5 = 5", "b 1 1/1 read = 5"]), (PATIENT, ["a 1 1/1 add 5 = 5", "b 2 1/1 add 7 = 12"])):
            bench, first, second, thread, _ = self.waits(script)
            second.give_up()
            back(thread)
            first.release()
            for session in bench.jobs["b"].sessions():
                with session:
                    self.assertEqual(session.number, 2)
            self.assertEqual([str(it) for it in bench.close().log("scale")], wanted)

    def test_its_owner_comes_back(self) -> None:
        """In line, before its turn came: it waits as before."""
        bench, first, second, thread, _ = self.waits(SCRIPTS["left"])
        second.give_up()
        back(thread)
        self.assertIs(asked(bench, "b"), second)
        thread = waiting(second)
        first.release()
        back(thread)
        self.assertEqual((second.state, bench.lapsed), ("held", ()))
        second.release()
        self.assertEqual((second.state, bench.lapsed), ("finished", ()))

    def test_over_or_held_or_never_asked(self) -> None:
        """Then there is nothing to give up."""
        bench, first, second, thread, _ = self.waits(SCRIPTS["left"])
        third = asked(bench, "c")
        for session, state in ((first, "held"), (third, "new")):
            session.give_up()
            self.assertEqual(session.state, state)
        first.release()
        back(thread)
        second.release()
        for session in (first, second):
            session.give_up()
            self.assertEqual(session.state, "finished")
        self.is_over(bench, second, "finished")

    def test_left_at_the_close(self) -> None:
        """What was left, and holds by the close alone, lets go there."""
        bench, first, second, thread, _ = self.waits(SCRIPTS["left"])
        third = asked(bench, "c")
        others = [thread, waiting(third, [])]
        for session, it in zip((second, third), others):
            session.give_up()
            back(it)
        self.assertEqual([session.state for session in (second, third)], ["left", "left"])
        with mock.patch.object(bench._core, "settle", lambda: None):
            first.release()
        self.assertEqual(bench.lapsed, ())
        self.assertTrue(bench.close().finished)
        self.assertEqual((sorted(bench.lapsed), second.state, third.state), ([("b", 1), ("c", 1)], "lapsed", "lapsed"))

    # ---- as an exception comes

    def test_interrupted_while_it_waits(self) -> None:
        """The holder lets go before, or after."""
        for state, script in SCRIPTS.items():
            for lets_go in (False, True):
                with self.subTest(state, lets_go=lets_go):
                    bench = labrun.Bench.from_text(script)
                    first, second = asked(bench, "a"), asked(bench, "b")
                    first.acquire()

                    class Interrupted:
                        """The lock by which a thread sleeps."""

                        slept = False

                        def acquire(self, blocking: bool = True, timeout: float = -1) -> bool:
                            if self.slept:
                                if lets_go:
                                    first.release()
                                raise KeyboardInterrupt
                            self.slept = True
                            return True

                        def release(self) -> None:
                            pass

                        def locked(self) -> bool:
                            return True

                    with mock.patch.object(bench._core, "new_lock", Interrupted), self.assertRaises(KeyboardInterrupt):
                        for session in bench.jobs["b"].sessions():
                            with session:
                                self.fail("it is entered")
                    if lets_go:
                        self.is_over(bench, second, "lapsed")
                    else:
                        self.assertEqual((second.state, bench.lapsed), (state, ()))
                        first.release()
                        self.is_over(bench, second, "withdrawn" if state == "withdrawn" else "lapsed")

    def test_interrupted_once_it_holds(self) -> None:
        """It is told that it holds, and the exception comes before the call is back. One that held before goes on to hold."""
        for kind in (KeyboardInterrupt, SystemExit):
            with labrun.Bench.from_text("lab 1\njob a\n" + "session\nx read\nend\n" * 2) as bench:
                asks = bench._core.settle

                def interrupted(*given: Any) -> None:
                    asks(*given)
                    if given:
                        raise kind

                first = asked(bench, "a")
                with mock.patch.object(bench._core, "settle", interrupted), self.assertRaises(kind):
                    first.acquire()
                self.assertEqual((first.state, bench.jobs["a"].state.holds, bench.lapsed), ("lapsed", False, (("a", 1),)))
                second = asked(bench, "a")
                second.acquire()
                with mock.patch.object(second, "is_of_one", mock.Mock(side_effect=kind)), self.assertRaises(kind):
                    second.acquire()
                self.assertTrue(second.held and bench.jobs["a"].state.holds)
                second.release()
            self.assertTrue(bench.report.finished)

    async def cancelled(self, bench: labrun.Bench, lets_go: bool) -> None:
        """b's task is, while it waits; in the same step of the loop the holder has let go before, or not."""
        first, second = asked(bench, "a"), asked(bench, "b")

        async def enters() -> None:
            for session in bench.jobs["b"].sessions():
                async with session:
                    self.fail("it is entered")

        await first.acquire_async()
        task = asyncio.create_task(enters())
        while second.state != "waiting":
            await asyncio.sleep(0)
        if lets_go:
            first.release()
        task.cancel()
        with self.assertRaises(asyncio.CancelledError):
            await task
        if not lets_go:
            first.release()

    def test_a_task_that_is_cancelled(self) -> None:
        for state, script in SCRIPTS.items():
            for lets_go in (False, True):
                with self.subTest(state, lets_go=lets_go):
                    bench = labrun.Bench.from_text(script)
                    second = asked(bench, "b")
                    asyncio.run(self.cancelled(bench, lets_go))
                    self.is_over(bench, second, "withdrawn" if state == "withdrawn" and not lets_go else "lapsed")

    def test_a_time_limit_of_ones_own(self) -> None:
        """By asyncio.wait_for, in a loop that is left then."""

        async def main(script: str) -> tuple[labrun.Bench, labrun.Session]:
            bench = labrun.Bench.from_text(script)
            async with asked(bench, "a"):
                for session in bench.jobs["b"].sessions():
                    try:
                        await asyncio.wait_for(session.acquire_async(), 0.05)
                    except asyncio.TimeoutError:
                        break
            return bench, session

        for state, script in SCRIPTS.items():
            self.is_over(*asyncio.run(main(script)), "withdrawn" if state == "withdrawn" else "lapsed")

    def test_a_task_whose_loop_is_closed(self) -> None:
        """Nobody cancelled it, and it can't be woken any more: what would be its own goes on to others."""
        for script in SCRIPTS.values():
            bench = labrun.Bench.from_text(script)
            first, second = asked(bench, "a"), asked(bench, "b")
            first.acquire()
            loop = asyncio.new_event_loop()
            task = loop.create_task(second.acquire_async())
            setattr(task, "_log_destroy_pending", False)
            while second.state != "waiting":
                loop.run_until_complete(asyncio.sleep(0))
            loop.close()
            first.release()
            self.is_over(bench, second, "lapsed")

    def test_held_by_a_loop_that_is_closed(self) -> None:
        """It was told, and goes on to hold, whatever happens at the bench meanwhile."""
        with labrun.Bench.from_text(SCRIPTS["left"]) as bench:
            first, second = asked(bench, "a"), asked(bench, "b")

            async def main() -> None:
                await first.acquire_async()
                task = asyncio.create_task(second.acquire_async())
                while second.state != "waiting":
                    await asyncio.sleep(0)
                first.release()
                await task

            asyncio.run(main())
            with mock.patch.object(bench._core, "may_go_on", mock.Mock(side_effect=KeyboardInterrupt)), self.assertRaises(KeyboardInterrupt):
                bench.jobs["c"].next_session()
            self.assertTrue(second.held and bench.jobs["b"].state.holds)
            second.release()

    def test_another_comes_just_as_it_holds(self) -> None:
        """Its task is told that it holds, and isn't awake yet. Who gives it up comes too late."""

        async def main(ends: Callable[[labrun.Session], object]) -> None:
            for script in SCRIPTS.values():
                with labrun.Bench.from_text(script) as bench:
                    first, second = asked(bench, "a"), asked(bench, "b")
                    await first.acquire_async()
                    task = asyncio.create_task(second.acquire_async())
                    while second.state != "waiting":
                        await asyncio.sleep(0)
                    first.release()
                    ends(second)
                    await task
                    self.assertTrue(second.held and second.job.state.holds)
                    second.release()

        def withdraws(session: labrun.Session) -> None:
            with self.assertRaisesRegex(labrun.NotHeld, "session 1 of b is held: it can't be withdrawn"):
                session.withdraw()

        asyncio.run(main(labrun.Session.give_up))
        asyncio.run(main(withdraws))

    def test_two_tasks_at_one_job(self) -> None:
        async def main() -> None:
            with labrun.Bench.from_text(SCRIPTS["left"]) as bench:
                first, second = asked(bench, "a"), asked(bench, "b")
                await first.acquire_async()
                task = asyncio.create_task(second.acquire_async())
                while second.state != "waiting":
                    await asyncio.sleep(0)
                for lets_go in (True, False):
                    with self.assertRaisesRegex(labrun.LabrunError, "another thread, or task, is at session 1 of b"):
                        await second.acquire_async()
                    if lets_go:
                        first.release()
                        await task
                self.assertTrue(second.held)
                second.release()

        asyncio.run(main())


if __name__ == "__main__":
    unittest.main()
