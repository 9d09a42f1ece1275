"""A bay's state in etcd, for brokers that stand by for one another.

    /labrun/BAY/places                  as `places.py` writes them
    /labrun/BAY/journal/PAGE/OFFSET     whole lines of the journal, from so many bytes on; PAGE counts how often it began anew
    /labrun/BAY/records/OFFSET          records, a line for each; those before the last few megabytes are deleted
    /labrun/BAY/applied, applied-file   the bay that was applied last (leading.py): it comes with the page that it begins

A batch of both is one transaction. etcd may do a transaction that it didn't answer later than anybody thinks. So what was once tried is what
is tried again, byte by byte, until it is known to be there; and what the bay hands out once more after a fault, which is the same text,
isn't taken twice."""

from __future__ import annotations

import asyncio
import contextlib
import errno
import threading
import time
from collections import deque
from concurrent.futures import ThreadPoolExecutor
from typing import Any, Callable, NamedTuple, Optional

from labrun import JournalError
from labrun.store import Store

from .bay import Bay
from .errors import CantChange
from .etcd import EtcdError, delete, put
from .leading import Applied, Deposed, Leading, file_mark
from .own import Own
from .places import Places, places_of
from .records import LINE, Record, Written
from .sessions import parsed

# bytes of a key (a request of etcd's has 1.5 MiB at most), of all records that etcd keeps, and of those that wait for it
MOST, MOST_RECORDS, MOST_WAITING = 1 << 19, 1 << 22, 1 << 24
KEPT = 20000  # records in memory


def cut(text: bytearray) -> bytes:
    """As many whole lines as one key may have."""
    if len(text) <= MOST:
        return bytes(text)
    return bytes(text[: text.rfind(b"\n", 0, MOST) + 1 or text.find(b"\n") + 1 or len(text)])


class Waiting:
    """Text that one thread adds to, and another takes from its beginning. `at` is how much was taken before."""

    def __init__(self, most: Optional[int] = None) -> None:
        self.at, self._text, self._most, self._lock = 0, bytearray(), most, threading.Lock()

    def add(self, text: bytes) -> None:
        with self._lock:
            if self._most is None or len(self._text) <= self._most:
                self._text += text

    def next(self) -> bytes:
        with self._lock:
            return cut(self._text)

    def is_taken(self, length: int) -> None:
        with self._lock:
            self.at += length
            del self._text[:length]

    @property
    def end(self) -> int:
        with self._lock:
            return self.at + len(self._text)

    def all_goes(self, sends: Callable[[], None]) -> None:
        """What waits now, by as many of these as it takes."""
        end = self.end
        while self.at < end:
            sends()


class Batch(NamedTuple):
    """What one transaction writes: so much of the journal and of the records."""

    text: int
    records: int
    what: list[Any]


class EtcdStore:
    """The journal. `write` only takes the text; once `sync` returns etcd has it, and this broker led then. All but `write` runs on one thread."""

    def __init__(self, leading: Leading, records: EtcdRecords) -> None:
        self._leading, self._records, self._page = leading, records, 1
        self.path, self.where = f"etcd, {leading.prefix.decode()}journal/", "in etcd"
        self._waiting = Waiting()
        # what was tried as the beginning of the next page, and may be there by now; and the file of the bay that comes with it
        self._begun: Optional[bytes] = None
        self.goes_by: Optional[tuple[str, Applied]] = None
        # how much of what is written next is here already
        self._known, self._is_read = 0, False
        self._batch: Optional[Batch] = None

    def _of(self, page: int) -> bytes:
        return self._leading.prefix + b"journal/%06d/" % page

    def text(self) -> bytes:
        parts, at = list[bytes](), 0
        for key, value in self._leading.reads(self._leading.prefix + b"journal/"):
            page, _, offset = key.partition(b"/")
            # (there is one page: the next one comes as this one goes)
            self._page = int(page)
            if int(offset) != at:
                raise JournalError(self.path, f"what was written from byte {at} on is missing: {self._leading.instead()}")
            parts.append(value)
            at += len(value)
        self._waiting.at = at
        return b"".join(parts)

    def cut(self, length: int) -> None:
        known = self._waiting.end - length
        if known < 0 or known and not self._is_read:
            raise OSError(errno.EINVAL, f"{self.path}: it ends in the midst of a line")
        if not self._is_read:
            self._leading.has_opened()
        self._known, self._is_read = known, True

    def append(self, text: bytes) -> None:
        self.write(text)
        self.sync()

    def write(self, text: bytes) -> None:
        known = min(self._known, len(text))
        self._known -= known
        self._waiting.add(text[known:])

    def sync(self) -> None:
        self._waiting.all_goes(self.sends)

    def sends(self) -> None:
        """A batch is there, if anything waits."""
        if self._batch is None:
            text, (records, what) = self._waiting.next(), self._records.next()
            if text:
                what = [put(self._of(self._page) + b"%012d" % self._waiting.at, text), *what]
            self._batch = Batch(len(text), records, what)
        if self._batch.what:
            self._leading.does(self._batch.what)
        self._waiting.is_taken(self._batch.text)
        self._records.are_kept(self._batch.records)
        self._batch = None

    def anew(self, text: bytes) -> None:
        """The next page comes, and this one goes, by one transaction. (All that was written is there: a page begins when nothing is owed.)"""
        while self._batch is not None:
            self.sends()
        begun = self._begun if self._begun is not None else text
        if len(begun) > MOST or not text.startswith(begun):
            raise OSError(errno.EFBIG, f"{self.path}: its new page is too long")
        self._begun = begun
        page, applied = self._of(self._page), self.goes_by
        beside = [] if applied is None else self._leading.applies(*applied)
        self._leading.does([delete(page, page[:-1] + b"0"), put(self._of(self._page + 1) + b"%012d" % 0, begun), *beside])
        if applied is not None:
            self.goes_by, self._leading.applied_mark = None, applied[1].mark
        self._page, self._begun, self._waiting = self._page + 1, None, Waiting()
        self._waiting.at = len(begun)
        self._known = 0
        if rest := text[len(begun) :]:
            self.append(rest)

    def close(self) -> None: ...


class EtcdRecords:
    """They go along with the journal's lines, and are written without one when there is time. A file has them, too, if one is given."""

    def __init__(self, leading: Leading, file: Optional[Own]) -> None:
        self._prefix, self._file = leading.prefix + b"records/", file
        self.path = f"etcd, {self._prefix.decode()}"
        self._waiting = Waiting(MOST_WAITING)
        # where those are that etcd has, and how long each
        self._kept = deque[tuple[int, int]]()
        self.last = deque[Record](maxlen=KEPT)
        self.sends: Callable[[], None] = lambda: None
        for key, value in leading.reads(self._prefix):
            self._kept.append((int(key), len(value)))
            self._waiting.at = int(key) + len(value)
            self.last.extend(it for it in map(parsed, value.splitlines()) if it is not None)

    def add(self, record: Record) -> None:
        self.last.append(record)
        self._waiting.add(LINE.encode(record).encode() + b"\n")
        if self._file is not None:
            self._file.add(record)

    def follows(self, at: int, has: int) -> None:
        # (to etcd they go with the journal's lines, in one transaction)
        if self._file is not None:
            self._file.follows(at, has)

    def ends(self, has: int) -> None:
        if self._file is not None:
            self._file.ends(has)

    def next(self) -> tuple[int, list[Any]]:
        """How much of them is written next, and how."""
        if not (text := self._waiting.next()):
            return 0, []
        what, total = [put(self._key(self._waiting.at), text)], len(text)
        for at, length in reversed(self._kept):
            total += length
            if total > MOST_RECORDS:
                return len(text), [*what, delete(self._prefix, self._key(at + 1))]
        return len(text), what

    def _key(self, at: int) -> bytes:
        return self._prefix + b"%016d" % at

    def are_kept(self, length: int) -> None:
        if length:
            self._kept.append((self._waiting.at, length))
            self._waiting.is_taken(length)
            while sum(it[1] for it in self._kept) > MOST_RECORDS:
                self._kept.popleft()

    def write(self) -> None:
        if self._file is not None:
            self._file.write()

    is_written, is_under_way, is_behind = True, False, False

    def says_faults(self, says: Callable[[str], bool]) -> None:
        if self._file is not None:
            self._file.says_faults(says)

    def waits(self) -> None:
        if self._file is not None:
            self._file.waits()

    def sync(self) -> None:
        """As far as that can be."""
        if self._file is not None:
            self._file.sync()
        with contextlib.suppress(EtcdError):
            self.syncs()

    def syncs(self) -> None:
        self._waiting.all_goes(self.sends)

    def close(self) -> None:
        if self._file is not None:
            self._file.close()


class Fence:
    """Asks etcd whether this broker still leads, once for all who want to know at one time."""

    def __init__(self, leading: Leading) -> None:
        self._leading, self._thread = leading, ThreadPoolExecutor(1, "fence")
        self._next: Optional[asyncio.Future[None]] = None

    async def passes(self) -> None:
        loop = asyncio.get_running_loop()
        if (one := self._next) is None:
            one = self._next = loop.create_future()
            self._thread.submit(self._asks, loop, one)
        await asyncio.shield(one)

    def _asks(self, loop: asyncio.AbstractEventLoop, one: asyncio.Future[None]) -> None:
        # (who comes from here on waits for the next one)
        self._next = None
        fault: Optional[Exception] = None
        try:
            self._leading.does([])
        except Deposed:
            return
        except Exception as it:
            fault = it
        with contextlib.suppress(RuntimeError):  # (the loop is closed)
            loop.call_soon_threadsafe(_is_answered, one, fault)

    def close(self) -> None:
        self._thread.shutdown(wait=False)


def _is_answered(one: asyncio.Future[None], fault: Optional[Exception]) -> None:
    if not one.done():
        one.set_result(None) if fault is None else one.set_exception(fault)


class Replica:
    """The state of a broker that leads."""

    lets_wait = True

    def __init__(self, leading: Leading, file: Optional[Own] = None) -> None:
        self._leading, self._key = leading, leading.prefix + b"places"
        its = EtcdRecords(leading, file)
        self._store = store = EtcdStore(leading, its)
        its.sends = store.sends
        self.store: Store = store
        self.records: Written = its
        self._last, self._file, self._fence = its.last, file, Fence(leading)

    def places(self, is_needed: bool) -> Places:
        found = self._leading.reads(self._key)
        if not found and is_needed:
            raise JournalError(self._key.decode(), f"it isn't there, and the journal can't be read without it: {self.instead()}")
        try:
            return places_of(found[0][1].decode()) if found else Places()
        except ValueError as fault:
            why = f"it isn't as the broker wrote it, and the journal can't be read without it: {fault}; {self.instead()}"
            raise JournalError(self._key.decode(), why) from None

    def lost(self, known: Optional[int], recent: list[Record]) -> list[str]:
        # (a line is there as a whole, or not at all; and the records are those of a machine that may have led before others)
        return []

    def instead(self) -> str:
        return self._leading.instead()

    def keeps(self, places: Places) -> None:
        self._leading.does([put(self._key, places.text().encode())])

    def lacks(self, text: str, bay: Bay) -> bool:
        if len(text.encode()) > MOST:
            raise CantChange(f"the file has more than {MOST >> 10} KiB, and etcd doesn't take it beside the journal")
        return self._store.goes_by is not None or self._leading.applied_mark != file_mark(bay)

    def goes_by(self, text: str, bay: Bay, by: str) -> None:
        self._store.goes_by = text, Applied(file_mark(bay), by, round(time.time(), 3))

    def recent(self) -> list[Record]:
        return list(self._last)

    def mends(self, missing: list[Record], holds: list[Record]) -> None:
        if self._file is not None:
            self._file.mends(self._last, missing, holds)

    async def fence(self) -> None:
        await self._fence.passes()

    def brokers(self) -> tuple[str, tuple[str, ...]]:
        return self._leading.name, self._leading.standing_by

    def close(self) -> None:
        self._leading.close()
        self._fence.close()
        self.records.close()
