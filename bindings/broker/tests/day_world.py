"""What a day stands on: a loop whose clock moves when the day says so and that can be stopped behind each callback, which is at each `await`;
and a disk in memory, under the real files of the broker, that fails, is full, hangs, loses what wasn't synced, and can be stopped at each call."""

from __future__ import annotations

import asyncio
import contextlib
import errno
import heapq
import io
import os
import re
from collections import deque
from typing import Any, Callable, Iterator, Optional
from unittest import mock

import labrun.store
from labrun_broker import folder, records, sessions

FOLDER = "/a bay's folder"
JOURNAL, PLACES, RECORDS = "bay.journal", "bay.json", "records.jsonl"


NEVER = 2**62


class Killed(BaseException):
    """The broker was killed here; whatever it does on the way out counts for nothing."""


def lines_of(text: bytes) -> set[tuple[bytes, int]]:
    """Words and numbers of its whole lines about holds and ends."""
    rows = [line[17:].split(b" ", 2) for line in text.split(b"\n")[:-1]]
    return {(row[0], int(row[1], 16)) for row in rows if row[0] in (b"hold", b"end")}


class Loop(asyncio.BaseEventLoop):
    """One callback at a time. The clock has whole milliseconds, and work of the disk ends between two of them."""

    def __init__(self, disk: Disk, halves: int) -> None:
        super().__init__()
        self.disk, self.halves = disk, halves
        self._works: deque[Callable[[], None]] = deque()
        self._ends: list[tuple[int, Callable[[], None]]] = []
        self._is_busy = False
        self._ran_so_far = 0
        self._heard: Optional[list[Any]] = None
        self.faults: list[dict[str, Any]] = []
        self.set_exception_handler(lambda loop, context: self.faults.append(context))

    def time(self) -> float:
        """(It never stands still.)"""
        return (self.halves // 2 + 0.25) / 1000 + 1e-10 * self._ran_so_far

    def _write_to_self(self) -> None: ...

    def step(self) -> bool:
        """Runs the next callback, if there is one now."""
        while self._scheduled and (self._scheduled[0]._cancelled or self._scheduled[0]._when <= self.time() + 1e-4):
            timer = heapq.heappop(self._scheduled)
            timer._scheduled = False
            self._ready.append(timer)
        while self._ends and self._ends[0][0] <= self.halves:
            self._ends.pop(0)[1]()
        while self._ready:
            handle = self._ready.popleft()
            if not handle._cancelled:
                self._runs(handle)
                return True
        return False

    def _runs(self, handle: asyncio.Handle) -> None:
        self._ran_so_far += 1
        asyncio._set_running_loop(self)
        try:
            handle._run()
        finally:
            asyncio._set_running_loop(None)
        if self.disk.kill_in_callbacks is not None:
            self.disk.kill_in_callbacks -= 1
            self.disk.is_dead = self.disk.is_dead or self.disk.kill_in_callbacks < 0

    def next_moment(self) -> int:
        """In halves of a millisecond."""
        whens = [-2 * int(-(it._when * 1000 - 0.25 - 0.1) // 1) for it in self._scheduled if not it._cancelled]
        return max(self.halves, min([*whens, *(it[0] for it in self._ends)], default=NEVER))

    # work of the disk, on one thread

    def run_in_executor(self, executor: Any, func: Callable[..., Any], *args: Any) -> asyncio.Future[Any]:
        future = self.create_future()

        def does() -> None:
            try:
                result = func(*args)
            except Exception as fault:
                self.call_soon_threadsafe(self._done, future, fault, None)
            else:
                self.call_soon_threadsafe(self._done, future, None, result)

        self.submit(does)
        return future

    def _done(self, future: asyncio.Future[Any], fault: Optional[Exception], result: Any) -> None:
        if not future.done():
            future.set_exception(fault) if fault is not None else future.set_result(result)

    def submit(self, func: Callable[..., Any], *args: Any) -> None:
        asked = self.disk.journal()
        self._works.append(lambda: self._work(lambda: self._ran(func, args, asked)))
        self._next_work()

    def shutdown(self, wait: bool = True) -> None: ...

    def call_soon_threadsafe(self, callback: Callable[..., Any], *args: Any, context: Any = None) -> Any:  # type: ignore[override]
        if self._heard is None:
            return self.call_soon(callback, *args, context=context)
        self._heard.append((callback, args))

    def _next_work(self) -> None:
        if self._works and not self._is_busy:
            self._is_busy = True
            self.disk.when_it_goes_on(self._works.popleft())

    def _work(self, does: Callable[[], Any]) -> None:
        """It does something at once, or right at the end; and that is heard of at the end."""
        end = 2 * (self.halves // 2 + self.disk.latency) + 1
        early = does() if self.disk.is_early else None
        self._ends.append((end, lambda: self.disk.when_it_goes_on(lambda: self._worked(*(early or does())))))

    def _ran(self, func: Callable[..., Any], args: tuple[Any, ...], asked: bytes) -> tuple[list[Any], bytes]:
        """What is to be heard of it, and what is durable then. (What comes while it works may be, too, and nobody knows it.)"""
        before, heard = self.disk.acked, list[Any]()
        self._heard, self.disk.is_working = heard, True
        try:
            func(*args)
        finally:
            after, self.disk.acked, self._heard, self.disk.is_working = self.disk.acked, before, None, False
        return heard, asked if after.startswith(asked) else after

    def _worked(self, heard: list[Any], acked: bytes) -> None:
        self._is_busy = False
        self.disk.is_heard(acked)
        for callback, args in heard:
            self.call_soon(callback, *args)
        self._next_work()


class File:
    """`cache` is what processes see, `kept` what a power cut leaves at least; what a sync that failed lost is never on the disk, though a later
    one says so, unless it is written again."""

    def __init__(self) -> None:
        self.cache, self.kept = b"", b""
        self.lost: Optional[tuple[int, int]] = None

    def synced(self) -> bytes:
        if self.lost is None:
            return self.cache
        first, last = self.lost
        return self.cache[:first] + bytes(last - first) + self.cache[last:]

    def cut(self, length: int) -> None:
        self.cache = self.cache[:length]
        if self.lost is not None:
            self.lost = (self.lost[0], min(self.lost[1], length)) if self.lost[0] < length else None

    def after_power_cut(self, share: float) -> bytes:
        if self.cache.startswith(self.kept):
            return self.cache[: len(self.kept) + int(share * (len(self.cache) - len(self.kept)))] if self.lost is None else self.kept
        return self.kept if share < 0.5 else self.cache


class Disk:
    """A folder. It stands for the module `os` in the broker's files. `acked` is as much of the journal as the broker was told is durable."""

    def __init__(self) -> None:
        self.names: dict[str, File] = {}
        self.kept_names: dict[str, File] = {}
        self.open_files: dict[int, Optional[File]] = {}  # None: the folder
        self.acked = b""
        self.turns = 0  # how often the journal began anew
        # lines that the broker knows to be on the disk, in whatever file; and whether its thread works, and it hasn't heard of that
        self.durable: set[tuple[bytes, int]] = set()
        self.is_working = False
        self.tried: set[tuple[bytes, int]] = set()  # words and numbers of lines that were handed to the disk
        self.mode, self.latency, self.is_early = "sound", 1, True
        self.is_dead = False
        self.kill_in_callbacks: Optional[int] = None
        self.kill_in_calls: Optional[tuple[int, str]] = None
        self._stuck: list[Callable[[], None]] = []

    def __getattr__(self, name: str) -> Any:
        return getattr(os, name)

    def journal(self) -> bytes:
        return self.names[JOURNAL].cache if JOURNAL in self.names else b""

    def becomes(self, mode: str) -> None:
        self.mode = mode
        if mode != "hangs":
            stuck, self._stuck = self._stuck, []
            for it in stuck:
                it()

    def when_it_goes_on(self, does: Callable[[], None]) -> None:
        if self.mode == "hangs":
            self._stuck.append(does)
        else:
            does()

    def begins_again(self, has_power: bool, share: float) -> None:
        """The next process comes, after a power cut, perhaps."""
        if not has_power:
            self.names = dict(self.names if share < 0.5 and set(self.names) >= set(self.kept_names) else self.kept_names)
            for it in self.names.values():
                it.cache = it.kept = it.after_power_cut(share)
                it.lost = None
        self.open_files, self._stuck, self.is_dead, self.kill_in_callbacks, self.kill_in_calls = {}, [], False, None, None
        self.acked, self.mode, self.tried, self.durable = b"", "sound", set(), set()

    # each call that changes something: it may be the last one, before it, in the middle of it or behind it

    def _does(self, whole: Callable[[], Any], half: Callable[[], Any] = lambda: None) -> Any:
        if self.is_dead:
            raise Killed
        if self.kill_in_calls is None:
            return whole()
        count, where = self.kill_in_calls
        self.kill_in_calls = count - 1, where
        if count > 0:
            return whole()
        self.is_dead = True
        if where != "before":
            (half if where == "middle" else whole)()
        raise Killed

    def _fails(self, *modes: str) -> None:
        if self.mode in modes:
            raise OSError(errno.EIO, "Input/output error")

    def open(self, path: str, flags: int, mode: int = 0) -> int:
        name = os.path.relpath(path, FOLDER)
        if name != "." and name not in self.names:
            if not flags & os.O_CREAT:
                raise FileNotFoundError(errno.ENOENT, "No such file or directory", path)
            self._does(lambda: self.names.setdefault(name, File()))
        if flags & os.O_TRUNC:
            self._does(lambda: self.names[name].cut(0))
        number = 1000 + len(self.open_files)
        self.open_files[number] = None if name == "." else self.names[name]
        return number

    def _file(self, number: int) -> File:
        file = self.open_files[number]
        assert file is not None
        return file

    def _is_journal(self, number: int, *others: str) -> bool:
        return any(self.names.get(name) is self.open_files[number] for name in (JOURNAL, *others))

    def pwrite(self, number: int, text: bytes, place: int) -> int:
        file, text = self._file(number), bytes(text)
        if self._is_journal(number, f"{JOURNAL}.new"):
            self.tried |= {(it[1], int(it[2], 16)) for it in re.finditer(rb"(?m)^[0-9a-f]{16} (hold|end) ([0-9a-f]{16}) ", text)}
        self._fails("writes fail", "all fails")

        def writes(length: int) -> int:
            file.cache = file.cache[:place] + text[:length] + file.cache[place + length :]
            if file.lost is not None and place <= file.lost[0] and file.lost[1] <= place + length:
                file.lost = None
            return length

        if self.mode == "full" and len(text) < 40:
            raise OSError(errno.ENOSPC, "No space left on device")
        return self._does(lambda: writes(len(text) if self.mode != "full" else len(text) // 2), lambda: writes(len(text) // 2))

    def write(self, number: int, text: bytes) -> int:
        return self.pwrite(number, text, len(self._file(number).cache))

    def pread(self, number: int, length: int, place: int) -> bytes:
        return self._file(number).cache[place : place + length]

    def fstat(self, number: int) -> Any:
        return _stat_of(self._file(number))

    def stat(self, path: str) -> Any:
        return _stat_of(self.names[os.path.relpath(path, FOLDER)])

    def ftruncate(self, number: int, length: int) -> None:
        self._fails("all fails")
        self._does(lambda: self._file(number).cut(length))

    def fsync(self, number: int) -> None:
        if self.open_files[number] is None:
            self._fails("all fails")
            self._does(self._keeps_names)
            return
        file = self._file(number)
        if self.mode in ("syncs fail", "all fails"):
            if self._is_journal(number) and len(file.cache) > len(file.kept):
                file.lost = len(file.kept), len(file.cache)
            self._fails(self.mode)

        def syncs() -> None:
            file.kept = file.synced()
            if self._is_journal(number):
                self._is_acked(file.cache)

        self._does(syncs)

    fdatasync = fsync

    def _keeps_names(self) -> None:
        is_new = self.kept_names.get(JOURNAL) is not self.names.get(JOURNAL) and JOURNAL in self.kept_names
        self.kept_names = dict(self.names)
        if is_new:
            self.turns += 1
            self._is_acked(self.names[JOURNAL].kept)

    def _is_acked(self, text: bytes) -> None:
        self.acked = text
        if not self.is_working:
            self.is_heard(text)

    def is_heard(self, acked: bytes) -> None:
        self.acked = acked
        self.durable |= lines_of(acked)

    def replace(self, old: str, new: str) -> None:
        self._fails("all fails")

        def renames() -> None:
            self.names[os.path.relpath(new, FOLDER)] = self.names.pop(os.path.relpath(old, FOLDER))

        self._does(renames)

    def close(self, number: int) -> None: ...

    def makedirs(self, path: str, mode: int = 0, exist_ok: bool = False) -> None: ...

    def listdir(self, path: str) -> list[str]:
        return list(self.names)

    def opened(self, path: Any, mode: str = "r", **more: Any) -> Any:
        """For the builtin `open`."""
        if isinstance(path, int):
            return _Written(self, path)
        name = os.path.relpath(path, FOLDER)
        if name not in self.names:
            raise FileNotFoundError(errno.ENOENT, "No such file or directory", path)
        text = self.names[name].cache
        # (its size is asked for by its number)
        file: Any = io.BytesIO(text) if "b" in mode else io.StringIO(text.decode())
        number = self.open(path, 0)
        file.fileno = lambda: number
        return file

    @contextlib.contextmanager
    def stands_in(self) -> Iterator[None]:
        with contextlib.ExitStack() as stack:
            for module in (labrun.store, records, folder, sessions):
                stack.enter_context(mock.patch.object(module, "os", self))
            for module in (folder, sessions):
                stack.enter_context(mock.patch.object(module, "open", self.opened, create=True))
            stack.enter_context(mock.patch.object(labrun.store.fcntl, "flock"))
            yield


def _stat_of(file: File) -> Any:
    return mock.Mock(st_size=len(file.cache), st_ino=id(file), st_dev=1)


class _Written(io.StringIO):
    """A file that is written as a whole."""

    def __init__(self, disk: Disk, number: int) -> None:
        super().__init__()
        self._disk, self._number = disk, number

    def fileno(self) -> int:
        return self._number

    def flush(self) -> None:
        text, so_far = self.getvalue().encode(), len(self._disk._file(self._number).cache)
        while so_far < len(text):
            so_far += self._disk.pwrite(self._number, text[so_far:], so_far)
