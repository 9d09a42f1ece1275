"""Statuses of the library that a call of a lab shouldn't answer here: each raises, and none is passed over."""

from __future__ import annotations

import contextlib
import os
import tempfile
import unittest
from typing import Any, Callable, Iterator
from unittest import mock

import labrun
from labrun import _quick, _shell, machine
from tests.benches import LIMIT, back, in_thread, until

# 7 not open, 8 not now, 13 another call is under way, 26 over, 99 none that there is
STATUSES = (7, 8, 13, 26, 99)


Act = Callable[[labrun.Lab, labrun.Held], Callable[[], object]]


class Calls(dict):  # type: ignore[type-arg]
    """The bay's calls. As long as one is in `wrong` it does nothing and answers that."""

    def __init__(self, calls: dict[str, Callable[..., int]]) -> None:
        self.wrong: dict[str, int] = {}
        super().__init__({name: self.wraps(name, call) for name, call in calls.items()})

    def wraps(self, name: str, call: Callable[..., int]) -> Callable[..., int]:
        return lambda *given: self.wrong[name] if name in self.wrong else call(*given)


class Statuses(unittest.TestCase):
    def setUp(self) -> None:
        real = machine._bound(labrun.library_path())
        self.calls = Calls(real)
        before = dict(machine._loaded)
        machine._loaded[labrun.library_path()] = self.calls
        self.addCleanup(machine._loaded.update, before or {labrun.library_path(): real})
        # (the extension has the library's own calls)
        python = mock.patch.object(_shell, "_new_quick", _quick.Quick)
        python.start()
        self.addCleanup(python.stop)
        folder = tempfile.TemporaryDirectory()
        self.addCleanup(folder.cleanup)
        self.folder = folder.name

    def lab(self, has_journal: bool = False) -> labrun.Lab:
        path = f"{self.folder}/{len(os.listdir(self.folder))}.journal" if has_journal else None
        lab = labrun.Lab(["x", "y"], journal=path, sync="none")
        self.addCleanup(lab.close)
        return lab

    @contextlib.contextmanager
    def refused(self, name: str, status: int) -> Iterator[None]:
        self.calls.wrong[name] = status
        try:
            with self.assertRaises(labrun.LabrunError) as caught:
                yield
        finally:
            self.calls.wrong.clear()
        self.assertNotIsInstance(caught.exception, (labrun.NotHeld, labrun.TimeoutError, labrun.JournalError))
        self.assertIn(f"status {status}", str(caught.exception))

    def each(self, name: str, act: Act, leave_out: tuple[int, ...] = (), journals: tuple[bool, ...] = (False, True)) -> None:
        """The call is refused while a session holds x; then all goes on."""
        for has_journal in journals:
            for status in STATUSES:
                if status in leave_out:
                    continue
                with self.subTest(name, status=status, has_journal=has_journal):
                    lab = self.lab(has_journal)
                    held = lab.hold("x")
                    held.acquire()
                    call = act(lab, held)
                    with self.refused(name, status):
                        call()
                    if held.held:
                        held.release()
                    with lab.hold("x", "y", timeout=LIMIT):
                        pass
                    self.assertEqual(lab.sessions(), ())

    def test_ask(self) -> None:
        self.each("ask", lambda lab, held: lab.hold("y").acquire)
        # what may be refused is asked for in no way here: the number is new, the class is there, the sets are right, the owner is new
        for status in (20, 22, 23, 24, 29):
            lab = self.lab()
            with self.refused("ask", status):
                lab.hold("x").acquire()
            with lab.hold("x"):
                pass

    def test_tell(self) -> None:
        self.each("tell", lambda lab, held: lab.hold("x", timeout=0).acquire, (8,), (False,))

    def test_look(self) -> None:
        self.each("look", lambda lab, held: lab.sessions, (8,))

    def test_stop(self) -> None:
        for status in STATUSES:
            lab = self.lab()
            with self.refused("stop", status):
                lab.stop()

    def test_time(self) -> None:
        self.each("time", lambda lab, held: lab.hold("x", timeout=LIMIT).acquire, (), (False,))

    def test_let_go(self) -> None:
        """It holds as before, and may let go again."""
        for has_journal, name in ((False, "leave"), (True, "let_go")):
            for status in STATUSES:
                with self.subTest(name, status=status):
                    lab = self.lab(has_journal)
                    held = lab.hold("x")
                    held.acquire()
                    with self.refused(name, status):
                        held.release()
                    self.assertTrue(held.held)
                    held.release()
                    self.assertEqual(lab.sessions(), ())

    def test_take_away(self) -> None:
        self.each("take_away", lambda lab, held: lambda: lab.take_away(held), (8, 26))

    def test_note(self) -> None:
        self.each("note", lambda lab, held: lambda: held.note("x"), (8,))

    def test_open(self) -> None:
        for status in STATUSES:
            for has_journal, name in ((False, "open"), (True, "open"), (True, "journal"), (True, "durable")):
                with self.refused(name, status):
                    self.lab(has_journal)

    def test_resume(self) -> None:
        lab = labrun.Lab(["x"], journal=f"{self.folder}/j")
        lab.hold("x").acquire()
        lab.close()
        for status in STATUSES:
            for name in ("resume", "back"):
                with self.subTest(name, status=status):
                    self.calls.wrong[name] = status
                    with self.assertRaisesRegex(labrun.LabrunError, f"status {status}"):
                        labrun.Lab(["x"], journal=f"{self.folder}/j")
                    self.calls.wrong.clear()
        (held,) = labrun.Lab(["x"], journal=f"{self.folder}/j").resumed
        held.release()

    def test_no_memory(self) -> None:
        for name in ("open", "ask"):
            lab = self.lab()
            self.calls.wrong[name] = 5
            with self.assertRaises(MemoryError):
                (self.lab if name == "open" else lab.hold("x").acquire)()
            self.calls.wrong.clear()
            with lab.hold("x", timeout=0):
                pass

    def test_no_memory_to_write(self) -> None:
        """It is written once there is some."""
        lab = self.lab(True)
        held = lab.hold("x")
        self.calls.wrong["journal"] = 5
        thread = in_thread(held.acquire)
        until(lambda: held.state == "waiting")
        self.calls.wrong.clear()
        back(thread)
        held.release()

    def test_on_their_own_threads(self) -> None:
        """Of the one that writes, and the one that looks at the clock: whoever waits is told, and whoever comes."""
        for name, has_journal in (("journal", True), ("durable", True), ("time", False)):
            with self.subTest(name):
                lab, faults = self.lab(has_journal), []  # type: ignore[var-annotated]
                first, waits = lab.hold("x"), lab.hold("x", timeout=1.5)
                first.acquire()

                def wait(held: Any = waits) -> None:
                    try:
                        held.acquire()
                    except labrun.LabrunError as fault:
                        faults.append(fault)

                thread = in_thread(wait)
                until(lambda: waits.state == "waiting")
                self.calls.wrong[name] = 13
                if has_journal:
                    with self.assertRaisesRegex(labrun.LabrunError, "status 13"):
                        first.release()
                back(thread)
                self.calls.wrong.clear()
                self.assertIn("status 13", str(faults))
                with self.assertRaisesRegex(labrun.LabrunError, "the lab can't go on.*status 13"):
                    lab.hold("y").acquire()


if __name__ == "__main__":
    unittest.main()
