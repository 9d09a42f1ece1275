"""The extension in C does what `Quick` in Python does: the tests of a lab pass with it, and without."""

from __future__ import annotations

import os
import shutil
import subprocess
import sys
import tempfile
import unittest

import labrun
import make_wheel
from tests.benches import LIMIT, child

# the tests of a lab whose sessions may be quick
TESTS = ("tests.test_lab", "tests.test_lab_ends", "tests.test_lab_tasks", "tests.test_lab_journal.ComesBack.test_left_behind")
TESTS += ("tests.test_lab_gates.Interrupts.test_lost",)
# the calls that every session makes answer what they never should; `tell` also tells what is so
STATUSES = """
import ctypes, labrun
from labrun import machine
calls, of, wrong = machine._calls(), {}, {}
def wraps(name):
    kind = ctypes.CFUNCTYPE(ctypes.c_uint32, *machine._CALLS[name])
    def call(*given):
        status = calls[name](*given) if name == "tell" or name not in wrong else 0
        return wrong.get(name, status)
    of[name] = kind(call)
    return of[name]
machine._loaded[labrun.library_path()] = {**calls, **{name: wraps(name) for name in ("ask", "tell", "leave")}}
for name in ("ask", "tell", "leave"):
    for status in (7, 8, 13, 26, 99):
        if (name, status) == ("tell", 8):
            continue
        lab = labrun.Lab(["x"])
        held = lab.hold("x")
        if name == "leave":
            held.acquire()
        wrong[name] = status
        try:
            held.__exit__(None, None, None) if name == "leave" else held.acquire()
            print(name, status, "passed over")
        except labrun.LabrunError as fault:
            if str(fault) != f"lab_bay_{name}: status {status}":
                print(name, status, fault)
        wrong.clear()
        if name == "leave":
            held.release()
        with lab.hold("x", timeout=0):
            pass
        lab.close()
print("all")
"""


class Fast(unittest.TestCase):
    def setUp(self) -> None:
        """A copy of the package that has the extension."""
        folder = tempfile.TemporaryDirectory()
        self.addCleanup(folder.cleanup)
        self.folder = folder.name
        shutil.copytree(os.path.dirname(labrun.__file__), f"{self.folder}/labrun", ignore=shutil.ignore_patterns("*.so"))
        if make_wheel.build_fast(f"{self.folder}/labrun") is None:
            self.skipTest("there is no compiler, or no Python.h")

    def ran(self, fast: str, *words: str) -> str:
        path = f"{self.folder}:{os.path.dirname(os.path.abspath(make_wheel.__file__))}"
        env = {**child(), "PYTHONPATH": path, "LABRUN_FAST": fast, "LABRUN_SESSIONS": "4000"}
        ran = subprocess.run([sys.executable, *words], cwd=self.folder, env=env, capture_output=True, text=True, timeout=10 * LIMIT)
        self.assertEqual(ran.returncode, 0, ran.stderr)
        return ran.stdout.strip()

    def test_same(self) -> None:
        for fast, where in (("0", "labrun._quick"), ("1", "labrun._fast")):
            code = "from labrun import Lab; print(type(Lab(['x'])._shell.quick).__module__)"
            self.assertEqual(self.ran(fast, "-c", code), where)
            self.ran(fast, "-m", "unittest", *TESTS)

    def test_goes_the_quick_way(self) -> None:
        """A session that is alone makes no call from Python."""
        code = """
import labrun
lab = labrun.Lab(["x", "y"])
machine, lab._shell.machine = lab._shell.machine, None
for _ in range(7):  # (of 16 the last isn't quick)
    with lab.hold("x", timeout=1), lab.hold(any_of=["y"]):
        pass
print(lab._shell.askers)
"""
        self.assertEqual(self.ran("1", "-c", code), "{}")

    def test_statuses(self) -> None:
        """What a call never should answer to it is told, and then all goes on."""
        self.assertEqual(self.ran("1", "-c", STATUSES), "all")


if __name__ == "__main__":
    unittest.main()
