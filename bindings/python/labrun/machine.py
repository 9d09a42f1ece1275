"""The bay's calls, as `include/labrun_bay.h` has them, with Python's types: one `Machine` is one bay. It decides nothing and waits for
nothing.

Whoever calls it holds a mutex of its own: the machine has room of its own for what a call is given and what it answers, and the next call
uses it again. What a call may refuse is raised as `Refusal`; a status that the header doesn't name there raises `LabrunError`."""

from __future__ import annotations

import ctypes
import struct
import weakref
from typing import Any, Callable, NamedTuple, Optional, Sequence

from ._faults import LabrunError
from ._library import NO_MEMORY, NO_ROOM, NOT_OPEN, library_path, may_load
from ._library import NOT_NOW as NOT_NOW

# the statuses of the bay's own
NUMBER, STOPPED, NO_CLASS, EMPTY, MAY_NOT, LINE_FULL, OVER, ANOTHER, UNSOUND, OWNER = range(20, 30)
NEVER = 2**64 - 1  # no moment, no limit
# as many as a set has bits; and as a bay has, of which each station is one, and the guests are
MOST_INSTRUMENTS, MOST_CLASSES = 64, 32

# what an ask is told; the last only of `standings` and `keeper`
HOLDS, LET_GO, LEFT, LAPSED, NOT_WRITTEN, LIMIT, GRACE, TAKEN, REPLACED, WAS_STOPPED, WAITS = range(11)


class Refusal(Exception):
    """A call was refused, by this status; of a journal `fault` says which ask, or which line."""

    def __init__(self, status: int, fault: int = 0) -> None:
        super().__init__(f"status {status}" + (f", {fault}" if fault else ""))
        self.status, self.fault = status, fault


class Told(NamedTuple):
    """What an ask is told. `needs` are the instruments that it holds by now, and `token` is larger than that of each that was let in before it."""

    serial: int
    number: int
    needs: int
    token: int
    what: int


class Standing(NamedTuple):
    """How an ask stands: `what` is WAITS, HOLDS or how it is over; `since` when it asks, and then since when it holds. Its `token` is 0
    until it is let in."""

    number: int
    owner: tuple[int, int]
    needs: int
    since: int
    token: int
    kind: int
    what: int


class Terms(NamedTuple):
    """What holds of a bay for as long as it is open: `struct lab_terms`, whose comments say what each is."""

    bay: bytes
    line: int
    grace: int
    disk: int
    overtakes: int
    keeps: bool


# the structures, by their fields (structures of ctypes take as long for each of them as these for all)
_HANDLE, _CLASS, _TERMS = struct.Struct("=QQ"), struct.Struct("=QII"), struct.Struct("=32sQQQII")
_ASKED, _OUTCOME, _STANDING = struct.Struct("=QQQQQII"), struct.Struct("=QQQQI4x"), struct.Struct("=QQQQQQII")

_packs, _unpacks = _ASKED.pack_into, _OUTCOME.unpack
# behind the sum, the word `bay` and its hash
_BASE = slice(86, 102)

_WORD, _LONG, _SIZE, _PLACE, _TEXT = ctypes.c_uint32, ctypes.c_uint64, ctypes.c_size_t, ctypes.c_void_p, ctypes.c_char_p
_CALLS: dict[str, list[Any]] = {
    "open": [_PLACE, _SIZE, _PLACE, _PLACE],
    "resume": [_PLACE, _SIZE, _PLACE, _TEXT, _SIZE, _LONG, _PLACE, _PLACE, _PLACE],
    "ask": [_PLACE, _PLACE, _PLACE, _SIZE, _LONG],
    "let_go": [_PLACE, _LONG, _LONG],
    "leave": [_PLACE, _LONG, _LONG],
    "take_away": [_PLACE, _LONG, _LONG],
    "gone": [_PLACE, _LONG, _LONG],
    "back": [_PLACE, _LONG, _LONG, _LONG, _LONG, _PLACE],
    "time": [_PLACE, _LONG, _PLACE],
    "stop": [_PLACE, _LONG],
    "note": [_PLACE, _LONG, _TEXT, _SIZE, _PLACE],
    "journal": [_PLACE, _PLACE, _SIZE, _PLACE, _PLACE],
    "durable": [_PLACE, _LONG],
    "failed": [_PLACE],
    "tell": [_PLACE, _LONG, _PLACE],
    "look": [_PLACE, _SIZE, _PLACE, _PLACE],
    "keeper": [_PLACE, _LONG, _WORD, _PLACE],
    "waits": [_PLACE, _LONG, _SIZE, _PLACE, _PLACE],
    "turn": [_PLACE, _PLACE, _SIZE, _LONG, _PLACE, _SIZE, _PLACE, _PLACE],
    "free": [_PLACE],
}
# what each may refuse
_MAY: dict[str, tuple[int, ...]] = {
    "open": (NO_CLASS,),
    "resume": (NO_CLASS, MAY_NOT, ANOTHER, UNSOUND),
    "ask": (NUMBER, STOPPED, NO_CLASS, EMPTY, MAY_NOT, LINE_FULL, OWNER),
    "let_go": (NOT_NOW, OVER),
    "take_away": (NOT_NOW, OVER),
    "back": (OVER,),
    "note": (NOT_NOW, MAY_NOT),
    "journal": (NO_ROOM,),
    "turn": (NOT_NOW, NO_ROOM, NO_CLASS, MAY_NOT),
}
# which of them say what is at fault
_TELL_FAULT = ("resume", "turn")
# whose NOT_NOW says that there is nothing
_MAY_FIND_NONE = ("tell", "look", "keeper", "waits")


def _bound(path: str) -> dict[str, Callable[..., int]]:
    """The bay's calls of a library. They take microseconds, so the interpreter's lock is held; but `resume` reads a whole journal."""
    may_load()
    try:
        short, long = ctypes.PyDLL(path), ctypes.CDLL(path)
    except OSError as fault:
        how = "build it by checks/door/build FOLDER, and then name FOLDER/liblabrun.so by LABRUN_LIBRARY, copy it beside the package, or"
        raise OSError(f"no library of labrun at {path} ({fault}): {how} install it") from fault
    calls: dict[str, Callable[..., int]] = {}
    for name, types in _CALLS.items():
        try:
            call: Any = getattr(long if name == "resume" else short, f"lab_bay_{name}")
        except AttributeError:
            raise OSError(f"{path} has no lab_bay_{name}: it is of another version of labrun") from None
        call.argtypes, call.restype = types, _WORD
        calls[name] = call
    return calls


_loaded: dict[str, dict[str, Callable[..., int]]] = {}


def _calls() -> dict[str, Callable[..., int]]:
    path = library_path()
    if path not in _loaded:
        _loaded[path] = _bound(path)
    return _loaded[path]


def _freed(free: Callable[..., int], handle: Any) -> None:
    status = free(ctypes.addressof(handle))
    if status not in (0, NOT_OPEN):
        raise LabrunError(f"lab_bay_free: status {status}")


class Machine:
    """A bay: with a `journal`, as that has it, and then `used` is how many of its bytes have whole lines, and `base` how many the files before
    it had. `classes` are pairs of the instruments that one may use, as bits, and how many places it has."""

    def __init__(self, classes: Sequence[tuple[int, int]], terms: Terms, journal: bytes = b"", now: int = 0) -> None:
        self._calls = _calls()
        handle, self._asked, self._outcome, self._standing = map(_room_for, (_HANDLE, _ASKED, _OUTCOME, _STANDING))
        self._at, self._asked_at, self._outcome_at, self._standing_at = map(ctypes.addressof, (handle, self._asked, self._outcome, self._standing))
        # what a call answers beside
        self._number, self._other = _LONG(), _LONG()
        self._number_at, self._other_at = ctypes.addressof(self._number), ctypes.addressof(self._other)
        self._has_sets(())
        # (every session makes these)
        self._ask, self._tell, self._leave = (self._calls[name] for name in ("ask", "tell", "leave"))
        self._text = ctypes.create_string_buffer(1 << 14)
        self.used, self.base = self._opens(classes, _TERMS.pack(*terms), journal, now), base_of(journal)
        # (freed once, whether by `free` or because nobody has the machine any more; the handle stays until then)
        self.free = weakref.finalize(self, _freed, self._calls["free"], handle)
        # (at the end of the process a thread may be calling it yet)
        self.free.atexit = False

    def _opens(self, classes: Sequence[tuple[int, int]], terms: bytes, journal: bytes, now: int) -> int:
        rows, its = _rows_of(classes), ctypes.create_string_buffer(terms)
        given = ctypes.addressof(rows), len(classes), ctypes.addressof(its)
        if not journal:
            self._does("open", *given, self._at)
            return 0
        self._does("resume", *given, journal, len(journal), now, self._at, self._number_at, self._other_at)
        return self._number.value

    def _does(self, name: str, *given: Any) -> bool:
        """False: there is nothing."""
        status = self._calls[name](*given)
        return not status or self._finds(name, status)

    def _finds(self, name: str, status: int) -> bool:
        if status == NOT_NOW and name in _MAY_FIND_NONE:
            return False
        if status in _MAY.get(name, ()):
            raise Refusal(status, self._other.value if name in _TELL_FAULT else 0)
        raise MemoryError() if status == NO_MEMORY else LabrunError(f"lab_bay_{name}: status {status}")

    # whoever asks

    def ask(
        self, number: int, owner: tuple[int, int], kind: int, sets: Sequence[int], deadline: int, limit: int, now: int, urgent: bool = False
    ) -> None:
        """Refusal: NUMBER, STOPPED, NO_CLASS, EMPTY, MAY_NOT, LINE_FULL, OWNER."""
        count = len(sets)
        if count == 1:
            self._sets[0] = sets[0]
        else:
            self._has_sets(sets)
        _packs(self._asked, 0, number, owner[0], owner[1], deadline, limit, kind, urgent)
        status = self._ask(self._at, self._asked_at, self._sets_at, count, now)
        if status:
            self._finds("ask", status)

    def holds(self, number: int, kind: int, sets: Sequence[int], deadline: int, now: int, done: int) -> Optional[tuple[int, int, int]]:
        """It asks, as an owner of its own, and is told at once that it holds: the serial number of that, what it holds, and its token. None: it is told
        nothing, or something else, which `tell` tells again. Refusal: as `ask`."""
        self.ask(number, (1, number), kind, sets, deadline, NEVER, now)
        if self._tell(self._at, done, self._outcome_at):
            return None
        serial, whose, needs, token, what = _unpacks(self._outcome)
        return (serial, needs, token) if whose == number and what == HOLDS else None

    def _has_sets(self, sets: Sequence[int]) -> None:
        self._sets: Any = (_LONG * max(1, len(sets)))(*sets)
        self._sets_at = ctypes.addressof(self._sets)

    def let_go(self, number: int, now: int) -> None:
        """Refusal: NOT_NOW if it waits; OVER."""
        self._does("let_go", self._at, number, now)

    def leave(self, number: int, now: int) -> None:
        status = self._leave(self._at, number, now)
        if status:
            self._finds("leave", status)

    def take_away(self, number: int, now: int) -> None:
        """Refusal: NOT_NOW if it waits; OVER."""
        self._does("take_away", self._at, number, now)

    def gone(self, number: int, now: int) -> None:
        self._does("gone", self._at, number, now)

    def back(self, number: int, owner: tuple[int, int], now: int) -> int:
        """What it holds. Refusal: OVER, also if the owner isn't the one that asked."""
        self._does("back", self._at, number, *owner, now, self._number_at)
        return self._number.value

    def note(self, number: int, text: bytes) -> int:
        """The position up to which the journal has to be durable, so that it is noted. Refusal: NOT_NOW if it doesn't hold or wasn't told
        yet; MAY_NOT for a text that is none."""
        self._does("note", self._at, number, text, len(text), self._number_at)
        return self._number.value

    # the world outside

    def time(self, now: int) -> int:
        """The next moment at which something is due, or NEVER."""
        self._does("time", self._at, now, self._number_at)
        return self._number.value

    def stop(self, now: int) -> None:
        self._does("stop", self._at, now)

    def journal(self) -> tuple[bytes, int]:
        """What is to be written, and how long the journal is behind it. The text is handed out once, until `failed`."""
        while True:
            try:
                self._does("journal", self._at, ctypes.addressof(self._text), len(self._text), self._other_at, self._number_at)
                return ctypes.string_at(self._text, self._other.value), self._number.value
            except Refusal:
                self._text = ctypes.create_string_buffer(2 * self._other.value)

    def turn(self, classes: Sequence[tuple[int, int]], now: int) -> bytes:
        """The bay goes on in a new file, which begins with this text, and with these classes; without a journal there is no text. None of it is
        durable before that file stands in the place of the old one. Refusal: NOT_NOW, NO_CLASS, MAY_NOT with the ask that may not."""
        rows = _rows_of(classes)
        given = self._at, ctypes.addressof(rows), len(classes), now
        while True:
            try:
                self._does("turn", *given, ctypes.addressof(self._text), len(self._text), self._number_at, self._other_at)
                return ctypes.string_at(self._text, self._number.value)
            except Refusal as it:
                if it.status != NO_ROOM:
                    raise
                self._text = ctypes.create_string_buffer(2 * self._number.value)

    def durable(self, position: int) -> None:
        self._does("durable", self._at, position)

    def failed(self) -> None:
        self._does("failed", self._at)

    def tell(self, done: int) -> Optional[Told]:
        """What is told next; it is told again until its serial number is given back as `done`. None: there is nothing."""
        status = self._tell(self._at, done, self._outcome_at)
        return None if status and not self._finds("tell", status) else Told(*_unpacks(self._outcome))

    def keeper(self, number: int, instrument: int) -> Optional[Standing]:
        """Who keeps this instrument, counted from 0, from the ask with this number, which may just have lapsed: whoever holds it, or else the first in
        line for which it is kept. None: nobody does."""
        return self._stands() if self._does("keeper", self._at, number, instrument, self._standing_at) else None

    def _stands(self) -> Standing:
        number, high, low, *others = _STANDING.unpack(self._standing)
        return Standing(number, (high, low), *others)

    def waits(self, number: int, place: int) -> Optional[tuple[int, int]]:
        """A set that an ask waits for, by its place among its sets, counted from 0, and how often it was passed there. None: there is no such set, or it
        doesn't wait."""
        passed = _WORD()
        found = self._does("waits", self._at, number, place, self._number_at, ctypes.addressof(passed))
        return (self._number.value, passed.value) if found else None

    def standings(self) -> list[Standing]:
        """How each ask stands that is in the book, in the order of their numbers."""
        found: list[Standing] = []
        while self._does("look", self._at, len(found), self._standing_at, self._number_at):
            found.append(self._stands())
        return found

    def addresses(self) -> tuple[int, int, int, int, int]:
        """The least number of the next ask, and where `struct lab_bay` is and the calls that every session makes: for an extension."""
        ask, tell, leave = (ctypes.cast(self._calls[name], _PLACE).value or 0 for name in ("ask", "tell", "leave"))  # type: ignore[arg-type]
        return max(1, self.next_number()), self._at, ask, tell, leave

    def next_number(self) -> int:
        """The least number that the next ask may have."""
        self._does("look", self._at, 2**63, self._standing_at, self._number_at)
        return self._number.value


def base_of(journal: bytes) -> int:
    """How many bytes the files before it had, by the first line: positions count all of them."""
    return int(journal[_BASE], 16) if journal else 0


def _rows_of(classes: Sequence[tuple[int, int]]) -> Any:
    return ctypes.create_string_buffer(b"".join(_CLASS.pack(*it, 0) for it in classes))


def _room_for(it: struct.Struct) -> Any:
    return ctypes.create_string_buffer(it.size)
