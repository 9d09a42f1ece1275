"""Pythons that the package doesn't run in are refused by name."""

import importlib
import os
import sys
import tempfile
import unittest
from unittest import mock

import labrun
from labrun import _library, machine
from labrun._library import library_path

OPENS = """
import labrun
told = []
for opens in (lambda: labrun.Lab(["scope"]), lambda: labrun.check(b"lab 1\\njob a\\nsession\\nscale read\\nend\\n")):
    try:
        opens()
    except labrun.LabrunError as fault:
        told.append(str(fault))
with open(%r, "w") as file:
    file.write("\\n".join(told))
"""


class Refused(unittest.TestCase):
    def test_free_threaded(self) -> None:
        with mock.patch.object(sys, "_is_gil_enabled", lambda: False, create=True):
            for opens in (lambda: machine._bound(library_path()), lambda: _library.Library(library_path())):
                with self.assertRaisesRegex(labrun.LabrunError, "free-threaded"):
                    opens()
        with mock.patch.object(sys, "_is_gil_enabled", lambda: True, create=True):
            machine._bound(library_path())

    def test_sub_interpreter(self) -> None:
        try:
            it = importlib.import_module("_xxsubinterpreters")
        except ImportError:
            self.skipTest("this Python has no sub-interpreters")
        with tempfile.TemporaryDirectory() as folder:
            path = os.path.join(folder, "told")
            one = it.create()
            it.run_string(one, OPENS % path)
            it.destroy(one)
            with open(path, encoding="ascii") as file:
                self.assertEqual(file.read().splitlines(), ["labrun runs in the main interpreter alone, and not in a sub-interpreter"] * 2)


if __name__ == "__main__":
    unittest.main()
