"""The calls of labrun.h on handles, for tests in Python (labs.py, late.py, journals.py, benches.py)."""
import ctypes
import importlib
import os
import sys
import types
import unittest
from collections import namedtuple

TOP = os.path.realpath(os.path.dirname(__file__) + "/../..")


def package():
    """The structs of labrun.h, as the package for Python has them (`test_header.py` there compares them with the header)."""
    # (as a part of a package that has nothing else: labrun itself would load a library)
    parts = sys.modules["labrun_parts"] = types.ModuleType("labrun_parts")
    parts.__path__ = [TOP + "/bindings/python/labrun"]
    return importlib.import_module("labrun_parts._library")


class Keepers(ctypes.Structure):
    """(The package has no struct for these two, since it doesn't ask for them.)"""

    _fields_ = [("jobs", ctypes.c_uint32), ("holding", ctypes.c_uint32)]


class Outside(ctypes.Structure):
    _fields_ = [("is_outside", ctypes.c_uint32), ("passed", ctypes.c_uint32)]


C = package()
TURNED = ["end", "retire"]
# what each call tells in a struct; the others of these tell nothing
TELLS = {
    **dict.fromkeys(TURNED, C.Turned),
    "command": C.Entered,
    "state": C.State,
    "bench_size": C.Size,
    "session_of": C.SessionOf,
    "planned": C.Planned,
    "keepers": Keepers,
    "outside": Outside,
    "settle": C.Came,
}
SILENT = ["overtakes", "withdraw", "bench_free"]
ANSWERS = {kind: namedtuple(kind.__name__, ["status", *(name for name, _ in kind._fields_)]) for kind in (C.Told, *TELLS.values())}
UNTOLD = 9
WROTE = (0, 3)
BLANK = b"\xaa"


def in_c(given):
    """An argument as C gets it: a text or a room goes with its length."""
    if isinstance(given, int):
        return [ctypes.c_uint32(given)]
    if isinstance(given, bytes):
        return [ctypes.c_char_p(given), ctypes.c_size_t(len(given))]
    if isinstance(given, Room):
        return [given.bytes, ctypes.c_size_t(given.size)]
    return [ctypes.byref(given)]


def called(name, *given):
    call = getattr(library, name)
    call.restype = ctypes.c_uint32
    return call(*(it for one in given for it in in_c(one)))


def told(kind, name, *given):
    """The status of a call, and then each field of what it told: 9 where it wrote nothing."""
    out = kind(*[UNTOLD] * len(kind._fields_))
    status = called(name, *given, out)
    return ANSWERS[kind](status, *(getattr(out, field) for field, _ in kind._fields_))


class Room:
    """Room for a text of so many bytes; what is behind it is nobody's."""

    def __init__(self, size):
        self.size, self.bytes = size, ctypes.create_string_buffer(BLANK * (size + 8), size + 8)

    def text(self, length):
        """The text of this length that was put there: nothing else was written."""
        text, rest = self.bytes.raw[:length], self.bytes.raw[length:]
        assert length <= self.size and rest == BLANK * len(rest), f"{length} bytes of {self.size}, and written behind them"
        return text


def put(room, name, *given):
    """The status of a call that puts a text into a room, the length that it tells, and the text, if it put it there."""
    room, written = Room(room), ctypes.c_size_t(UNTOLD)
    status = called(name, *given, room, written)
    return status, written.value, room.text(written.value if status in WROTE else 0)


class Handle(C.Handle):
    """A `struct lab_bench`. `it.settle(3)` is `lab_settle(it, 3, ..)`: each call answers
    its status, and what it told behind it."""

    def __getattr__(self, name):
        if name in TELLS:
            return lambda *given: told(TELLS[name], "lab_" + name, self, *given)
        if name in SILENT:
            return lambda *given: called("lab_" + name, self, *given)
        raise AttributeError(name)

    def opens(self, name, text):
        """By one of the calls that open a handle, which take the text first."""
        return told(C.Told, "lab_" + name, text, self)

    def add(self, job, text):
        return told(C.Told, "lab_add", self, job, text)

    def name_of(self, call, number, room=16):
        return put(room, "lab_" + call, self, number)

    def journal(self, room=1000):
        return put(room, "lab_journal", self)

    def more(self, job, session, room=200):
        return put(room, "lab_more", self, job, session)

    def closes(self, name, room=4000):
        """By one of the calls that close a bench: the status, and the report, if there was room."""
        room, out = Room(room), C.Told()
        status = called("lab_" + name, self, room, out)
        return status, room.text(out.written if status in WROTE else 0)


def script_of(text, room=1000):
    """What `lab_bench_script` tells and puts."""
    room, out = Room(room), C.Told(UNTOLD, UNTOLD, UNTOLD)
    status = called("lab_bench_script", text, room, out)
    return (status, out.written, out.line, out.cause), room.text(out.written if status in WROTE else 0)


class Test(unittest.TestCase):
    maxDiff = None

    def same(self, came, wanted):
        self.assertEqual(came, wanted)

    def opened(self, name, text):
        """A handle that is opened by this call; a second one finds it in use, and tells nothing."""
        it = Handle()
        self.same(it.opens(name, text).status, 0)
        self.same(it.opens(name, text), (11, 9, 9, 9))
        self.addCleanup(it.bench_free)
        return it


def run():
    unittest.main(argv=sys.argv[:1])


if len(sys.argv) != 2:
    sys.exit(f"usage: {sys.argv[0]} FOLDER        FOLDER has liblabrun.so, as checks/door/build makes it")
library = ctypes.CDLL(os.path.realpath(sys.argv[1]) + "/liblabrun.so")
