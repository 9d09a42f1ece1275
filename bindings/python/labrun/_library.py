"""The C library: where it is found, and its calls with their types, as `include/labrun.h` has them."""

from __future__ import annotations

import ctypes
import ctypes.util
import importlib
import os
import sys
from typing import Any, Callable, Optional

from ._faults import LabrunError, Refused, TooLong

REFUSED, NO_SUCH, WAITS, TOO_LONG, NO_MEMORY, NO_ROOM, NOT_OPEN, NOT_NOW = range(1, 9)
SESSIONS_LEFT, IN_USE, JOURNAL_FULL = range(10, 13)
RETIRED = 14


def _words(names: str) -> list[tuple[str, Any]]:
    return [(name, ctypes.c_uint32) for name in names.split()]


class Told(ctypes.Structure):
    """`struct lab_told`."""

    _fields_ = [("written", ctypes.c_size_t), ("line", ctypes.c_size_t), ("cause", ctypes.c_uint32)]


class Handle(ctypes.Structure):
    """`struct lab_bench`."""

    _fields_ = [("at", ctypes.c_void_p), ("live", ctypes.c_uint64)]


class Size(ctypes.Structure):
    """`struct lab_size`."""

    _fields_ = [("jobs", ctypes.c_size_t), ("instruments", ctypes.c_size_t)]


class SessionOf(ctypes.Structure):
    """`struct lab_session`."""

    _fields_ = [("needs", ctypes.c_uint64), ("commands", ctypes.c_size_t), *_words("patience has_patience")]


class Planned(ctypes.Structure):
    """`struct lab_planned`."""

    _fields_ = _words("instrument verb number")


class Turned(ctypes.Structure):
    """`struct lab_turned`."""

    _fields_ = _words("what count")


class Came(ctypes.Structure):
    """`struct lab_came`."""

    _fields_ = _words("holds given_up none_left deeds")


class State(ctypes.Structure):
    """`struct lab_state`."""

    _fields_ = [("turns", ctypes.c_uint64), *_words("dining drinking session sessions position sessions_done withdrawn meals waited")]


class Entered(ctypes.Structure):
    """`struct lab_entry`."""

    _fields_ = _words("session place length verb number value")


_BYTES, _SIZE, _WORD = ctypes.c_char_p, ctypes.c_size_t, ctypes.c_uint32
_ROOM = ctypes.c_void_p
_HANDLE, _TOLD, _TURNED = ctypes.POINTER(Handle), ctypes.POINTER(Told), ctypes.POINTER(Turned)

# calls that may take long: the interpreter's lock is let go meanwhile
_LONG: dict[str, list[Any]] = {
    "lab_rounds": [_BYTES, _SIZE, _WORD, _ROOM, _SIZE, _TOLD],
    "lab_replay": [_BYTES, _SIZE, _ROOM, _SIZE, _TOLD],
    "lab_check": [_BYTES, _SIZE, _ROOM, _SIZE, _TOLD],
    "lab_upgrade": [_BYTES, _SIZE, _ROOM, _SIZE, _TOLD],
    "lab_bench_open": [_BYTES, _SIZE, _HANDLE, _TOLD],
    "lab_bench_close": [_HANDLE, _ROOM, _SIZE, _TOLD],
}

# calls that take microseconds and never wait: handing the interpreter's lock round for each would cost more than the call
_SHORT: dict[str, list[Any]] = {
    "lab_bench_size": [_HANDLE, ctypes.POINTER(Size)],
    "lab_job_name": [_HANDLE, _WORD, _ROOM, _SIZE, ctypes.POINTER(_SIZE)],
    "lab_instrument_name": [_HANDLE, _WORD, _ROOM, _SIZE, ctypes.POINTER(_SIZE)],
    "lab_session_of": [_HANDLE, _WORD, _WORD, ctypes.POINTER(SessionOf)],
    "lab_planned": [_HANDLE, _WORD, _WORD, _WORD, ctypes.POINTER(Planned)],
    "lab_state": [_HANDLE, _WORD, ctypes.POINTER(State)],
    "lab_settle": [_HANDLE, _WORD, ctypes.POINTER(Came)],
    "lab_command": [_HANDLE, _WORD, ctypes.POINTER(Entered)],
    "lab_end": [_HANDLE, _WORD, _TURNED],
    "lab_withdraw": [_HANDLE, _WORD],
    "lab_retire": [_HANDLE, _WORD, _WORD, _TURNED],
    "lab_bench_free": [_HANDLE],
}


class Library:
    """The calls of one loaded library, each by its name in C."""

    def __init__(self, path: str) -> None:
        may_load()
        self.path = path
        self._long, self._short = ctypes.CDLL(path), ctypes.PyDLL(path)
        self._calls: dict[str, Callable[..., int]] = {}

    def __getitem__(self, name: str) -> Callable[..., int]:
        """Looked up once, as it is called: an older library has the runs and no bench."""
        if name not in self._calls:
            library, arguments = (self._long, _LONG[name]) if name in _LONG else (self._short, _SHORT[name])
            try:
                call: Any = getattr(library, name)
            except AttributeError:
                raise OSError(f"{self.path} has no {name}: it is of another version of labrun") from None
            call.argtypes, call.restype = arguments, _WORD
            self._calls[name] = call
        return self._calls[name]


def called(calls: Library, name: str, *given: Any, no: tuple[int, ...] = (), told: Optional[Told] = None) -> bool:
    """A call that is to be done; whether it was. Each other status than 0, and those that say `no`, is an exception."""
    status = calls[name](*given)
    if status and status not in no:
        raise _fault(name, status, told)
    return status == 0


def _fault(name: str, status: int, told: Optional[Told]) -> Exception:
    if status == REFUSED and told is not None:
        return Refused(told.line, told.cause)
    faults = {TOO_LONG: TooLong("script longer than 16777216 bytes"), NO_MEMORY: MemoryError()}
    return faults.get(status, LabrunError(f"{name}: status {status}"))


def may_load() -> None:
    """LabrunError where the calls would not be one at a time, or not of one process: the interpreter's lock is held during the short ones."""
    has_lock = getattr(sys, "_is_gil_enabled", None)
    if has_lock is not None and not has_lock():
        raise LabrunError("labrun needs the interpreter's lock: it doesn't run in a free-threaded Python")
    if _is_sub_interpreter():
        raise LabrunError("labrun runs in the main interpreter alone, and not in a sub-interpreter")


def _is_sub_interpreter() -> bool:
    for name in ("_interpreters", "_xxsubinterpreters"):
        try:
            it = importlib.import_module(name)
        except ImportError:
            continue
        return bool(it.get_current() != it.get_main())
    return False


def library_path() -> str:
    """The file that is loaded: `LABRUN_LIBRARY`, or `liblabrun.so` in the package's folder, or the system's."""
    given = os.environ.get("LABRUN_LIBRARY")
    if given:
        return given
    beside = os.path.join(os.path.dirname(os.path.realpath(__file__)), "liblabrun.so")
    if os.path.exists(beside):
        return beside
    return ctypes.util.find_library("labrun") or "liblabrun.so"


_loaded: Optional[Library] = None


def library() -> Library:
    """The library, loaded once. OSError says that there is none, and where it was looked for."""
    global _loaded
    if _loaded is None:
        path = library_path()
        try:
            _loaded = Library(path)
        except OSError as fault:
            raise OSError(
                f"no library of labrun at {path} ({fault}): build it by checks/door/build FOLDER, and then name"
                " FOLDER/liblabrun.so by LABRUN_LIBRARY, copy it beside the package, or install it"
            ) from fault
    return _loaded
