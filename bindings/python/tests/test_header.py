"""The structures and statuses of Python are those of include/labrun.h. (Rust compares its own: bindings/rust/tests/header.rs. The calls of
both are compared by scripts/make_calls.)"""

import ctypes
import os
import re
import unittest

from labrun import _library
from tests.test_runs import TOP

STRUCTURES = {
    "told": (_library.Told, "Told"),
    "bench": (_library.Handle, "Handle"),
    "size": (_library.Size, "Size"),
    "session": (_library.SessionOf, "SessionOf"),
    "turned": (_library.Turned, "Turned"),
    "came": (_library.Came, "Came"),
    "state": (_library.State, "State"),
    "entry": (_library.Entered, "Entered"),
    "planned": (_library.Planned, "Planned"),
}
# What a bench of a script doesn't ask here: who keeps an instrument, and who waits outside.
NOT_HERE = {"keepers", "outside"}
# Each status by its name in the header, with what the packages call it if they call it otherwise.
STATUSES = {
    "REFUSED": "REFUSED",
    "NOT_THERE": "NO_SUCH",
    "UNFINISHED": "WAITS",
    "TOO_LONG": "TOO_LONG",
    "NO_MEMORY": "NO_MEMORY",
    "NO_ROOM": "NO_ROOM",
    "NOT_OPEN": "NOT_OPEN",
    "NOT_YET": "NOT_NOW",
    "SESSIONS_LEFT": "SESSIONS_LEFT",
    "IN_USE": "IN_USE",
    "JOURNAL_FULL": "JOURNAL_FULL",
    "RETIRED": "RETIRED",
}
IN_PYTHON = {"uint32_t": ctypes.c_uint32, "uint64_t": ctypes.c_uint64, "size_t": ctypes.c_size_t, "void *": ctypes.c_void_p}


def text_of(path: str) -> str:
    with open(os.path.join(TOP, path), encoding="utf-8") as file:
        return file.read()


def fields_of(name: str) -> list[tuple[str, str]]:
    """The fields of a structure in the header, each with its type."""
    header = re.sub(r"/\*.*?\*/", "", text_of("include/labrun.h"), flags=re.DOTALL)
    found = re.search(rf"struct lab_{name} \{{(.*?)\}};", header, re.DOTALL)
    assert found, name
    fields = []
    for line in found[1].split(";"):
        one = re.fullmatch(r"\s*(\w+ \*|\w+ )\s*(\w+(?:, \w+)*)\s*", line)
        if one:
            fields += [(each, one[1].strip()) for each in one[2].split(", ")]
    return fields


class Header(unittest.TestCase):
    def test_no_structure_is_left_out(self) -> None:
        named = set(re.findall(r"(?m)^struct lab_(\w+) \{", text_of("include/labrun.h")))
        self.assertEqual(named - NOT_HERE, set(STRUCTURES))

    def test_structures_of_python(self) -> None:
        for name, (structure, _) in STRUCTURES.items():
            wanted = [(field, IN_PYTHON[kind]) for field, kind in fields_of(name)]
            self.assertEqual(list(structure._fields_), wanted, name)
            self.assertTrue(wanted)

    def test_statuses(self) -> None:
        """Each number of the header is that of the packages. (Done is 0; busy is no package's, since each holds a mutex.)"""
        numbers = {name: int(it) for name, it in re.findall(r"#define LAB_(\w+) (\d+)u\b", text_of("include/labrun.h"))}
        self.assertEqual(set(STATUSES) | {"DONE", "BUSY", "UPGRADED"}, set(numbers))
        for name, called in STATUSES.items():
            self.assertEqual(getattr(_library, called), numbers[name], name)


if __name__ == "__main__":
    unittest.main()
