"""The records: a line of JSON for each thing that happened, for people. What of a session that held is missing in them, because the broker
was killed or the power cut, is made good from the bay's journal."""

from __future__ import annotations

import asyncio
import contextlib
import json
import os
from collections import deque
from typing import Any, AsyncIterator, Callable, Optional, Protocol

from .aside import Aside
from .sessions import ENDS

Record = dict[str, Any]

KEPT_IN_MEMORY = 1000
AGAIN = 0.2  # seconds after which what couldn't be written is tried again
LONG = 3.0  # seconds after which that is told
MOST_WAITING = 1 << 24  # bytes that can't be written; what comes then is lost but for what the journal has
LINE = json.JSONEncoder(separators=(",", ":"))


class Written(Protocol):
    """Where records are kept."""

    path: str

    def add(self, record: Record) -> None: ...

    def follows(self, at: int, has: int) -> None:
        """The journal is handed out until `at`, with the lines of all that was added, and has what is before `has`."""

    def ends(self, has: int) -> None:
        """It has no more than that: an end that it hasn't is left out."""

    def write(self) -> None: ...

    @property
    def is_written(self) -> bool:
        """Whether `syncs` has to do with all that was added."""

    @property
    def is_under_way(self) -> bool:
        """Whether a write of them takes its time."""

    @property
    def is_behind(self) -> bool:
        """Whether something waits to be written, or to be tried again."""

    def says_faults(self, says: Callable[[str], bool]) -> None:
        """Who is told if they can't be written for a while, and once they are. If that answers False, nobody was told, and it is tried again."""

    def waits(self) -> None:
        """A moment at most, for such a write."""

    def sync(self) -> None: ...

    def syncs(self) -> None:
        """All that was written outlives a crash. OSError: it doesn't. Another thread may call it."""

    def close(self) -> None: ...


class Records:
    """A file to whose end lines are added. What is added is written soon, with all that others add meanwhile. Nobody waits for longer than a
    moment for a disk that hangs (aside.py). An end of a session waits until the journal has its line, with what is added behind it, and is left
    out if it never has: else the file would say an end that never was, and the session would go on. (A hold is told only once it has.)"""

    def __init__(self, path: str, syncs: bool = True) -> None:
        self.path, self._syncs = path, syncs
        self.file = os.open(path, os.O_RDWR | os.O_CREAT | os.O_APPEND | os.O_CLOEXEC, 0o640)
        # what waits, and what is being written
        self._waiting, self._writing = bytearray(), bytearray()
        # what waits for the journal: whether each is an end; then, how far the journal has to be; and how many bytes these are
        self._new, self._later, self._held_back = list[tuple[bool, bytes]](), deque[tuple[int, bytes]](), 0
        self._aside, self.is_under_way = Aside("records"), False
        self._is_synced, self._is_due, self._is_closed = True, False, False
        # nothing was lost: each record is in the file, or will be
        self.is_whole = True
        self._again: Optional[asyncio.TimerHandle] = None
        self._says: Callable[[str], bool] = lambda text: False
        # since when they can't be written, and whether that was told
        self._fails_since: Optional[float] = None
        self._is_told = False
        size = os.fstat(self.file).st_size
        if size and os.pread(self.file, 1, size - 1) != b"\n":
            # (the broker was killed in the midst of a line)
            self._waiting += b"\n"

    def add(self, record: Record) -> None:
        if len(self._waiting) + len(self._writing) + self._held_back > MOST_WAITING:
            self.is_whole = False
            return
        line, is_end = LINE.encode(record).encode() + b"\n", record["what"] in ENDS
        if is_end or self._held_back:
            self._new.append((is_end, line))
            self._held_back += len(line)
        else:
            self._takes(line)

    def _takes(self, line: bytes) -> None:
        if not self._is_due:
            self._is_due = True
            asyncio.get_running_loop().call_soon(self.write)
        self._waiting += line

    def follows(self, at: int, has: int) -> None:
        if self._new:
            self._later += [(at if is_end else 0, line) for is_end, line in self._new]
            self._new.clear()
        while self._later and self._later[0][0] <= has:
            line = self._later.popleft()[1]
            self._held_back -= len(line)
            self._takes(line)

    def ends(self, has: int) -> None:
        self.follows(has + 1, has)
        left, self._later, self._held_back = self._later, deque(), 0
        for at, line in left:
            # (what isn't an end is so, whatever the journal has)
            if not at:
                self._takes(line)

    def write(self) -> None:
        """What can't be written is kept, and tried again with the next, and soon if none comes."""
        self._is_due = False
        self._stops_trying()
        # (once it is closed its number may be another file's)
        if not self._is_closed and not self.is_under_way:
            self._writing += self._waiting
            self._waiting.clear()
            if self._writing:
                self.is_under_way = True
                self._aside.does(self._puts, self._has_put)

    def _puts(self) -> None:
        while self._writing:
            del self._writing[: os.write(self.file, self._writing)]
            self._is_synced = False

    def _has_put(self, fault: Optional[Exception]) -> None:
        self.is_under_way = False
        if fault is not None:
            if not self._is_closed:
                self._again = asyncio.get_running_loop().call_later(AGAIN, self.write)
                self._fails(fault)
            return
        if self._waiting:
            return self.write()
        if self._is_told:
            self._says(f"{self.path}: all records are written")
        self._fails_since, self._is_told = None, False

    def _fails(self, fault: Exception) -> None:
        now = asyncio.get_running_loop().time()
        if self._fails_since is None:
            self._fails_since = now
        if not self._is_told and now >= self._fails_since + LONG:
            why = getattr(fault, "strerror", None) or fault
            self._is_told = self._says(f"{self.path}: a write failed ({why}), and is tried again: records are missing there until then")

    def says_faults(self, says: Callable[[str], bool]) -> None:
        self._says = says

    def waits(self) -> None:
        if self.is_under_way:
            self._aside.waits()

    def _stops_trying(self) -> None:
        if self._again is not None:
            self._again.cancel()
            self._again = None

    @property
    def is_behind(self) -> bool:
        return bool(self._waiting or self._writing)

    @property
    def is_written(self) -> bool:
        """Whether all that was added, and isn't left out, is in the file."""
        return not self.is_behind and not self._held_back and self.is_whole

    def sync(self) -> None:
        """What was written is on the disk, as far as that can be. Another thread may call it."""
        with contextlib.suppress(OSError):
            self.syncs()

    def syncs(self) -> None:
        """The same. OSError: it isn't, or wasn't once, and then nobody knows what is."""
        if self._syncs and not self._is_synced:
            self._is_synced = True
            try:
                os.fdatasync(self.file)
            except OSError:
                self.is_whole = False
                raise

    def close(self) -> None:
        self.write()
        self.waits()
        self._stops_trying()
        self._is_closed = True
        self._aside.ends()
        # (what hangs has its file until the process ends)
        if not self.is_under_way:
            self.sync()
            os.close(self.file)


class News:
    """The last records, for whoever watches, and all of them for a file."""

    def __init__(self) -> None:
        self.history: list[Record] = []
        self.file: Optional[Written] = None
        # whether the journal has what is recorded now; while it hasn't, the file waits: else after a kill it would say what never was
        self.may_write: Callable[[], bool] = lambda: True
        self._later: list[Record] = []
        self._watchers: set[asyncio.Event] = set()
        # who is told of each record at once, and of a change of which there is none
        self.tells: Callable[[Optional[Record]], None] = lambda record: None

    def says_faults(self, says: Callable[[str], None], of_the_journal: Callable[[], str]) -> None:
        """Of the file. While the journal can't be written, that alone is told."""

        def told(text: str) -> bool:
            if of_the_journal():
                return False
            says(text)
            return True

        if self.file is not None:
            self.file.says_faults(told)

    def add(self, record: Record, **more: Any) -> None:
        self.history.append(record)
        if len(self.history) > 2 * KEPT_IN_MEMORY:
            del self.history[:-KEPT_IN_MEMORY]
        if self.file is not None:
            self._later.append({**record, **more})
            self._hands_on(len(self._later) > KEPT_IN_MEMORY)
        self.tells(record)
        self._wakes()

    def changed(self) -> None:
        """Something has, of which there is no record."""
        self.tells(None)
        self._wakes()

    def _wakes(self) -> None:
        for watcher in self._watchers:
            watcher.set()

    def _hands_on(self, is_all: bool = False) -> None:
        if self.file is not None and (is_all or self.may_write()):
            for record in self._later:
                self.file.add(record)
            self._later.clear()

    def write(self, is_all: bool = False) -> None:
        if self.file is not None:
            self._hands_on(is_all)
            self.file.write()

    def settles(self) -> None:
        """They are written by now, unless that takes longer than a moment."""
        self.write()
        if self.file is not None:
            self.file.waits()

    def sync(self) -> None:
        if self.file is not None:
            self.file.sync()

    async def changes(self) -> AsyncIterator[None]:
        """Wakes whenever something has changed; once for all that changed meanwhile."""
        event = asyncio.Event()
        self._watchers.add(event)
        try:
            while True:
                await event.wait()
                event.clear()
                yield
        finally:
            self._watchers.discard(event)
