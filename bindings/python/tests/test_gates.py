"""That no wake-up is lost, and that no interrupt loses one: on the definitions, with a gate at every line of the package (tests/gates.py)."""

import random
import unittest
from typing import Callable, Optional
from unittest import mock

import labrun
from labrun import _bench, _core, _session
from tests.gates import Gates, Stuck
from tests.load import Counting, load_script
from tests.benches import LIMIT, PATIENT, TWO, asked
from tests.test_simulated import OnDefinitions

# all need x; and a ring of three
ALL_ONE = "lab 1\n" + "".join(f"job {job}\n" + "session\nx add 1\nend\n" * 2 for job in "abc")
RING = "lab 1\n" + "".join(f"job {job}\n" + f"session\n{one} add 1\n{two} add 1\nend\n" * 2 for job, one, two in ("axy", "byz", "czx"))


def sometimes(seed: int, often: float) -> Callable[[int, int, list[int]], int]:
    chance = random.Random(seed)
    return lambda gate, me, can: chance.choice(can) if me not in can or chance.random() < often else me


def once(at: int) -> Callable[[int, int, list[int]], int]:
    """Who is there goes on, but at one gate the next one does."""
    return lambda gate, me, can: me if me in can and gate != at else can[(can.index(me) + 1) % len(can)] if me in can else can[0]


class Gated(OnDefinitions):
    def gated(self, gates: Gates, script: str, station: Optional[Callable[[labrun.Job, Counting], None]] = None) -> labrun.Bench:
        """The stations of a script, each on a thread; no two hold an instrument at once, and all come to their ends."""
        with mock.patch.object(_bench, "_new_lock", gates.lock):
            bench = labrun.Bench.from_text(script)
        counting = Counting(bench)

        def work(job: labrun.Job) -> None:
            for session in job.sessions():
                with session:
                    counting.came(session.instruments)
                    counting.went(session.instruments)

        stations = [lambda job=job: station(job, counting) if station else work(job) for job in bench.jobs]
        gates.run(stations, LIMIT)
        self.assertEqual(counting.clashes, 0)
        return bench


class WakeUps(Gated):
    def test_one_gate(self) -> None:
        """Another thread goes on at each gate in turn."""
        for script in (ALL_ONE, RING):
            gates = Gates(once(-1))
            self.assertTrue(self.gated(gates, script).close().finished)
            self.assertGreater(gates.gates, 300)
            for at in range(gates.gates + 1):
                with self.subTest(at):
                    self.assertTrue(self.gated(Gates(once(at)), script).close().finished)

    def test_many_gates(self) -> None:
        for seed in range(200):
            script = (ALL_ONE, RING, load_script(4, 2, 3, seed))[seed % 3]
            with self.subTest(seed):
                self.assertTrue(self.gated(Gates(sometimes(seed, (0.02, 0.2, 0.7)[seed // 3 % 3])), script).close().finished)

    def test_sees_one_that_is_lost(self) -> None:
        """With one wake-up left out the test doesn't pass."""
        rouse = _core.Core.rouse

        def forgets(core: _core.Core, session: _session.Session) -> bool:
            return session.job.name == "b" or rouse(core, session)

        with mock.patch.object(_core.Core, "rouse", forgets), self.assertRaises(Stuck):
            for at in range(200):
                self.gated(Gates(once(at)), ALL_ONE)

    def test_given_up(self) -> None:
        """Another station gives b's sessions up, at any moment, with a patience and without; each has one end, and nobody sleeps on."""
        for seed in range(150):
            chance, ends, offered = random.Random(seed), [], []  # type: random.Random, list[str], list[labrun.Session]

            def station(job: labrun.Job, counting: Counting) -> None:
                for session in job.sessions():
                    offered.append(session)
                    try:
                        with session:
                            counting.came(session.instruments)
                            counting.went(session.instruments)
                            if chance.random() < 0.3:
                                chance.choice(offered).give_up()
                    except (labrun.Withdrawn, labrun.NotHeld):
                        pass
                    ends.append(session.state)
                    chance.choice(offered).give_up()

            script = ALL_ONE if seed % 3 else RING
            if seed % 2:
                before, after = script.split("job b\n")
                script = before.replace("lab 1", "lab 2") + "job b\n" + after.replace("session\n", "session patience 3\n", 2)
            with self.subTest(seed), mock.patch.object(_core, "TICK", 1e-9):
                bench = self.gated(Gates(sometimes(seed, (0.02, 0.2, 0.7)[seed // 3 % 3])), script, station)
                report = bench.close()
                self.assertEqual(ends.count("finished") + ends.count("withdrawn") + len(bench.lapsed), 6, ends)
                self.assertEqual(sum(job.withdrawn for job in report.jobs), ends.count("withdrawn"))
                self.assertTrue(report.finished)


class Interrupts(Gated):
    def interrupted(self, script: str, at: int, pick: Callable[[int, int, list[int]], int]) -> Gates:
        """A KeyboardInterrupt comes to the first station: the others do all that is theirs."""

        def station(job: labrun.Job, counting: Counting) -> None:
            session = None
            try:
                for session in job.sessions():
                    with session:
                        counting.came(session.instruments)
                        counting.went(session.instruments)
            except KeyboardInterrupt:
                # (it may have come at the very begin of `__exit__`, or of the call that gives up: who caught it does that again)
                if session is not None:
                    if session.state == "held":
                        session.release()
                    else:
                        session.give_up()

        gates = Gates(pick, at)
        bench = self.gated(gates, script, station)
        self.assertFalse([job.name for job in bench.jobs if job.state.holds or job.state.waits])
        report = bench.close()
        self.assertEqual([job.done for job in report.jobs[1:]], [2] * (len(report.jobs) - 1), at)
        return gates

    def test_each_gate(self) -> None:
        for script in (ALL_ONE, RING):
            most = max(self.interrupted(script, -1, sometimes(seed, 0.05)).mine for seed in range(7))
            self.assertGreater(most, 100)
            for at in range(most):
                with self.subTest(at=at):
                    self.interrupted(script, at, sometimes(at % 7, 0.05))


    def given_up(self, script: str, at: int) -> tuple[bool, labrun.Bench]:
        """One comes to whoever gives up a session for which another waits; who does it again then. Whether one came."""
        gates, came, faults = Gates(once(-1)), [], []  # type: Gates, list[str], list[BaseException]
        with mock.patch.object(_bench, "_new_lock", gates.lock):
            bench = labrun.Bench.from_text(script)
        first, second = asked(bench, "a"), asked(bench, "b")

        def gives_up() -> None:
            first.acquire()
            gates.pick = once(gates.gates + 1)  # the other goes on, until it waits
            while second.state == "new":
                bench.jobs[0].state
            gates.pick, gates.mine, gates.interrupt = once(-1), 0, at
            try:
                second.give_up()
            except KeyboardInterrupt:
                came.append(gates.where)
                second.give_up()
            gates.interrupt = -1
            first.release()

        def waits() -> None:
            try:
                second.acquire()
            except (labrun.Withdrawn, labrun.NotHeld) as fault:
                faults.append(fault)

        gates.run([gives_up, waits], LIMIT)
        self.assertEqual(len(faults), 1)
        return bool(came), bench

    def test_given_up(self) -> None:
        """Its thread is told, at whatever line the interrupt comes; it was withdrawn, or it lapses."""
        for script in (TWO, PATIENT):
            at, came = 0, True
            while came:
                with self.subTest(script, at=at):
                    came, bench = self.given_up(script, at)
                    self.assertEqual((bench.jobs[1].state.holds, bench.jobs[1].state.waits), (False, False))
                    self.assertEqual((bench.lapsed, bench.jobs[1].state.withdrawn), ((("b", 1),), 0) if script == TWO else ((), 1))
                    bench.close()
                at += 1
            self.assertGreater(at, 20)

    def test_asks(self) -> None:
        """One comes to a station that asks, and another needs the same: whatever became of the first one's session, nobody holds it."""
        for script in (TWO, PATIENT):
            came, at = True, 0
            while came:
                gates, came = Gates(sometimes(at % 7, 0.05), at), False
                with mock.patch.object(_bench, "_new_lock", gates.lock):
                    bench = labrun.Bench.from_text(script)
                first, second = asked(bench, "a"), asked(bench, "b")

                def interrupted() -> None:
                    nonlocal came
                    try:
                        second.acquire()
                    except KeyboardInterrupt:
                        came = True
                    gates.interrupt = -1
                    if not came:
                        second.release()

                def other() -> None:
                    with first:
                        pass

                with self.subTest(script, at=at):
                    gates.run([interrupted, other], LIMIT)
                    state, job = second.state, bench.jobs["b"].state
                    self.assertIn(state, ("new", "withdrawn", "lapsed") if came else ("finished",))
                    self.assertEqual((job.holds, job.waits, bench.jobs["a"].state.done), (False, False, 1))
                    self.assertEqual((job.done, job.withdrawn), (int(state in ("lapsed", "finished")), int(state == "withdrawn")))
                    self.assertEqual(bench.lapsed, (("b", 1),) if state == "lapsed" else ())
                at += 1
            self.assertGreater(at, 20)


if __name__ == "__main__":
    unittest.main()
