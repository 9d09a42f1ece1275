"""A lab with a gate at every line of it (tests/gates.py): no wake-up is lost, and an interrupt at any line leaves nothing behind."""

from __future__ import annotations

import contextlib
import functools
import gc
import random
import tempfile
import unittest
from types import FrameType
from typing import Any, Callable, Iterator, Optional
from unittest import mock

import labrun
from labrun import _disk, _held, _quick, _shell, _sleep
from tests import gates
from tests.gates import Gates, Stuck
from tests.labs import Counting
from tests.benches import LIMIT

RING = {"a": ["x", "y"], "b": ["y", "z"], "c": ["z", "x"]}
EITHER = {name: ["x", "y"] for name in "abc"}
FILES = tuple(it.__file__ for it in (_shell, _disk, _held, _quick, _sleep))

Pick = Callable[[int, int, list[int]], int]
Once = Callable[[labrun.Lab, str, Counting], None]
More = Callable[[labrun.Lab], None]


class Clock:
    """In place of the module `time`: it goes on by a millisecond at each look."""

    def __init__(self) -> None:
        self.milliseconds = 0

    def monotonic_ns(self) -> int:
        self.milliseconds += 1
        return self.milliseconds * 1000000

    def sleep(self, seconds: float) -> None:
        pass


def once_at(gate: int) -> Pick:
    """Another goes on at this gate."""
    return lambda at, me, can: next((it for it in can if it != me), me) if at == gate or me not in can else me


def sometimes(seed: int, often: float) -> Pick:
    chance = random.Random(seed)
    return lambda gate, me, can: chance.choice(can) if me not in can or chance.random() < often else me


class ShellGates(Gates):
    """They know the mutex of a shell."""

    def _has_a_lock(self, frame: FrameType, me: Any) -> bool:
        it = frame.f_locals.get("shell", frame.f_locals.get("self"))
        return getattr(getattr(it, "mutex", None), "owner", None) is me


class Gated(unittest.TestCase):
    @contextlib.contextmanager
    def patched(self, at: Gates) -> Iterator[None]:
        """The package has these gates, no thread of its own, and a clock that goes by looks."""
        patches = [mock.patch.object(gates, "FILES", FILES), mock.patch.object(_shell, "starts", lambda *given: None)]
        patches.append(mock.patch.object(_shell, "time", Clock()))
        patches.append(mock.patch.object(_shell, "_new_quick", _quick.Quick))
        patches += [mock.patch.object(_sleep, "_new_lock", at.lock), mock.patch.object(_shell, "_new_mutex", at.lock)]
        # (the end of an earlier lab isn't to come within this one)
        gc.collect()
        gc.disable()
        try:
            with contextlib.ExitStack() as stack:
                for patch in patches:
                    stack.enter_context(patch)
                yield
        finally:
            gc.enable()

    def gated(
        self, at: Gates, jobs: dict[str, list[str]], overtakes: int, once: Once, more: Optional[More] = None, **given: Any
    ) -> None:
        """Each station does `once` twice, on a thread; no two hold an instrument at once, all come to their ends, and nothing is left
        behind."""
        counting = Counting()
        with self.patched(at):
            lab = labrun.Lab(["x", "y", "z"], stations=jobs, overtakes=overtakes, **given)
            works: list[Callable[[], None]] = [functools.partial(self.works, lab, name, counting, once) for name in jobs]
            at.run(works + ([lambda: more(lab)] if more else []), LIMIT)
            self.assertEqual(counting.clashes, 0, at.where)
            shell = lab._shell
            left = shell.askers, shell._busy, list(shell._left), set() if shell._disk is None else shell._disk.lines
            self.assertEqual(left, ({}, set(), [], set()), at.where)
            shell.mutex = _shell.threading.RLock()
            self.assertEqual(lab.sessions(), (), at.where)
            lab.close()

    def works(self, lab: labrun.Lab, name: str, counting: Counting, once: Once) -> None:
        done = 0
        while done < 2:
            try:
                once(lab, name, counting)
                done += 1
            except KeyboardInterrupt:
                # (it may have come at the very begin of `__exit__`, which no code of Python can see)
                for it in lab.sessions():
                    if it.station == name:
                        lab.take_away(it.number)

    def is_alone(self, names: tuple[str, ...], counting: Counting) -> None:
        counting.came(names)
        counting.went(names)

    def plain(self, lab: labrun.Lab, name: str, counting: Counting) -> None:
        with lab.station(name).hold(*lab.station(name).instruments) as held:
            self.is_alone(held.instruments, counting)

    def chooses(self, lab: labrun.Lab, name: str, counting: Counting) -> None:
        with lab.station(name).hold(any_of=lab.station(name).instruments) as held:
            self.is_alone(held.instruments, counting)

    def ways(self, at: int) -> tuple[dict[str, list[str]], int, Once]:
        return (RING, EITHER)[at % 2], (0, 2, 64)[at // 2 % 3], (self.plain, self.chooses)[at % 2]


class WakeUps(Gated):
    def test_many_gates(self) -> None:
        for seed in range(180):
            with self.subTest(seed):
                self.gated(ShellGates(sometimes(seed, (0.02, 0.2, 0.7)[seed % 3])), *self.ways(seed))

    def test_one_gate(self) -> None:
        """Another thread goes on at each gate in turn."""
        for way in range(2):
            first = ShellGates(lambda gate, me, can: me if me in can else can[0])
            self.gated(first, *self.ways(way))
            for at in range(0, first.gates + 1, 3):
                with self.subTest(at=at):
                    self.gated(ShellGates(once_at(at)), *self.ways(way))

    def test_some_in_time(self) -> None:
        """Time limits pass at any moment; one thread looks at the clock."""
        for seed in range(80):
            chance = random.Random(seed)

            def once(lab: labrun.Lab, name: str, counting: Counting) -> None:
                names = lab.station(name).instruments
                more: dict[str, Any] = {"any_of": names} if chance.random() < 0.5 else {}
                try:
                    with lab.station(name).hold(*(() if more else names), timeout=chance.choice((0, 0.005, 0.05, None)), **more) as held:
                        counting.came(held.instruments)
                        counting.went(held.instruments)
                except labrun.TimeoutError:
                    pass

            def looks(lab: labrun.Lab) -> None:
                for _ in range(40):
                    lab._shell.looks_once()

            with self.subTest(seed):
                self.gated(ShellGates(sometimes(seed, 0.2)), *self.ways(seed)[:2], once, looks)

    def test_limits(self) -> None:
        """Each holds until somebody wants what it has: each session has one end, and nobody sleeps on."""
        for seed in range(80):
            chance, ends = random.Random(seed), []

            def once(lab: labrun.Lab, name: str, counting: Counting) -> None:
                names = lab.station(name).instruments
                more: dict[str, Any] = {"any_of": names} if chance.random() < 0.5 else {}
                held = lab.station(name).hold(*(() if more else names), limit=chance.choice((0, None)), **more)
                try:
                    with held:
                        pass
                except labrun.TakenAway:
                    pass
                ends.append(held.state)

            def looks(lab: labrun.Lab) -> None:
                while len(ends) < 6:
                    lab._shell.looks_once()

            with self.subTest(seed):
                self.gated(ShellGates(sometimes(seed, 0.2)), *self.ways(seed)[:2], once, looks)
                self.assertEqual(sorted(set(ends) | {"finished", "taken"}), ["finished", "taken"])

    def test_journal(self) -> None:
        """One thread writes, and some writes fail; whoever can't let go tries again."""
        for seed in range(80):
            chance, done = random.Random(seed), [0]

            def once(lab: labrun.Lab, name: str, counting: Counting) -> None:
                held = lab.station(name).hold(*lab.station(name).instruments)
                held.acquire()
                counting.came(held.instruments)
                counting.went(held.instruments)
                while True:
                    try:
                        held.release()
                        break
                    except labrun.JournalError:
                        pass
                done[0] += 1

            def writes(lab: labrun.Lab) -> None:
                store: Any = lab._shell._store
                real = store.put

                def put(text: bytes, place: int) -> None:
                    if chance.random() < 0.3:
                        raise OSError(28, "No space left on device")
                    real(text, place)

                store.put = put
                while done[0] < 6:
                    lab._shell.writes_once()

            with self.subTest(seed), tempfile.TemporaryDirectory() as folder, mock.patch.object(_shell, "AGAIN", 0):
                self.gated(ShellGates(sometimes(seed, 0.2)), RING, (0, 2, 64)[seed % 3], once, writes, journal=f"{folder}/j", sync="none")

    def test_two_at_one_session(self) -> None:
        """Of two threads that enter the same one, whichever gate the other comes through, one holds, or waits and holds, and the other is told."""
        for held_before in (False, True):
            at = most = 0
            while at <= most:
                gate = ShellGates(once_at(at))
                most = max(most, self.enter_both(gate, held_before, at))
                at += 1
            self.assertGreater(most, 10)

    def enter_both(self, gate: ShellGates, held_before: bool, at: int) -> int:
        came, told = [], []

        def enters(held: labrun.Held) -> None:
            try:
                held.acquire()
                came.append(held.number)
            except labrun.NotHeld as fault:
                told.append(str(fault))

        with self.subTest(held_before=held_before, at=at), self.patched(gate):
            lab = labrun.Lab(["x"])
            first, held = lab.hold("x"), lab.hold("x")
            if held_before:
                first.acquire()
            works = [lambda: enters(held), lambda: enters(held)]
            # (whoever waits is woken once nobody else can go on)
            gate.run(works + [lambda: first.release() if held_before else None], LIMIT)
            self.assertEqual((came, len(told)), ([held.number], 1))
            self.assertIn("it is entered once", told[0])
            held.release()
            lab._shell.mutex = _shell.threading.RLock()
            self.assertEqual(lab.sessions(), ())
            lab.close()
        return gate.gates

    def test_sees_one_that_is_lost(self) -> None:
        """With the wake-ups left out the test doesn't pass."""
        with mock.patch.object(_shell.Shell, "wakes", lambda shell, it: True), self.assertRaises(Stuck):
            for seed in range(50):
                self.gated(ShellGates(sometimes(seed, 0.2)), RING, 64, self.plain)


class Interrupts(Gated):
    def test_each_gate(self) -> None:
        """One comes to the first station, at each of its lines in turn."""
        for way in range(2):
            at = 0
            while True:
                gate = ShellGates(sometimes(at, 0.1), at)
                with self.subTest(way=way, at=at):
                    self.gated(gate, *self.ways(way))
                if gate.interrupt >= 0:
                    break
                at += 1
            self.assertGreater(at, 50)

    def test_lost(self) -> None:
        """What is held is lost to it at one place alone, the first line of `__exit__`; with the extension nowhere."""
        lost = set()
        at = 0
        while True:
            gate, left = ShellGates(lambda gate, me, can: me if me in can else can[0], at), []

            def once(lab: labrun.Lab, name: str, counting: Counting) -> None:
                try:
                    self.plain(lab, name, counting)
                except KeyboardInterrupt:
                    left.extend(it for it in lab.sessions() if it.station == name)
                    for it in left:
                        lab.take_away(it.number)

            with self.subTest(at=at):
                self.gated(gate, RING, 64, once)
            if left:
                lost.add(gate.where.split(":")[0])
            if gate.interrupt >= 0:
                break
            at += 1
        self.assertEqual(lost, {"_ends"} if _quick.extension() is None else set())


if __name__ == "__main__":
    unittest.main()
