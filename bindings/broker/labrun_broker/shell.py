"""The shell of the bay's machine, on one loop: its clock, its timer, and when what it writes is on the disk. It has no rule of its own.

After each call of the machine comes `pump`: what is told is handed on, the timer sleeps until the next moment, and new text is written.
What is written outlives the broker; a thread syncs it, and whoever comes meanwhile shares the next sync. The loop never waits for the disk
for longer than a moment (aside.py)."""

from __future__ import annotations

import asyncio
import builtins
import contextlib
import functools
from concurrent.futures import ThreadPoolExecutor
from typing import Any, Callable, Optional

from labrun import JournalError
from labrun.machine import NEVER, Machine, Told
from labrun.store import Store

from .aside import Aside
from .turning import Turns

# what nobody waits for is on the disk after so many seconds (in a busy bay with a hold that comes before that); the records are, at least as
# often as the second says
SOON, NOW_AND_THEN = 0.05, 1.0
# a sync that takes so many seconds is told of
SLOW = 3.0
# after a write that failed it is tried again, and ever later up to the second number; at the end, for so long
AGAIN, LATEST, CLOSING = 0.05, 1.0, 3.0
# so often it is looked whether a write that takes longer than a moment has ended
LOOKS = 0.01
# for how long whoever asks waits for the disk
DISK = 10.0


class Shell:
    """`tells` is called with each outcome; `beside` on the thread, when there is time to sync something else; `says` if the disk fails."""

    def __init__(
        self, machine: Machine, store: Optional[Store], first: int,
        tells: Callable[[Told], None], beside: Callable[[], None], says: Callable[[str], None],
    ) -> None:  # fmt: skip
        self.machine, self._store, self._tells, self._beside, self._says = machine, store, tells, beside, says
        self._loop = asyncio.get_running_loop()
        self._first = first - int(self._loop.time() * 1000)
        self._serial, self._wakes_at = 0, NEVER
        self._timer: Optional[asyncio.TimerHandle] = None
        # how far the journal is written, and on the disk, with all files before this one; and who waits for that
        self.base = machine.base
        self._written = self._durable = self._handed = machine.base + machine.used
        # what the machine has handed out, up to there, while a write is under way: a file may take its time for each (a store that isn't one doesn't)
        self._later, self._is_writing = bytearray(), False
        self._aside = None if hasattr(store, "where") else Aside("writes")
        self._writing_timer: Optional[asyncio.TimerHandle] = None
        self._waiting: list[tuple[int, bool, asyncio.Future[None]]] = []
        self._thread = ThreadPoolExecutor(1, "journal")
        self._sync_timer: Optional[asyncio.TimerHandle] = None
        self._is_syncing = self._is_urgent = self._takes_all = self._is_closed = False
        # done once the thread is through with all that it was given
        self._last: Optional[asyncio.Future[None]] = None
        self._took_all_at = self._loop.time()
        self.path = "" if store is None else store.path
        # (a store that isn't a file says so)
        self.where = str(getattr(store, "where", "on the disk"))
        # why a write failed, until that is mended; and the same until all is written; and how many did
        self.fault: Optional[Exception] = None
        self._last_fault: Optional[Exception] = None
        self.failures = 0
        self._slow_timer: Optional[asyncio.TimerHandle] = None
        self._is_slow = False
        # since when something is wrong with the disk, if it is
        self.wrong_since: Optional[int] = None
        self._pause = AGAIN
        self._mending: Optional[asyncio.Task[None]] = None
        self.turns = Turns(self)

    def now(self) -> int:
        """The moment, in milliseconds, by a clock that doesn't jump."""
        return self._first + int(self._loop.time() * 1000)

    def pump(self) -> None:
        """What follows from a call is done."""
        self._tell()
        next_moment = self.machine.time(self.now())
        self._tell()
        self._sleeps_until(next_moment)
        self._writes()
        self.turns.looks(self._written - self.base)

    def _tell(self) -> None:
        while (told := self.machine.tell(self._serial)) is not None:
            self._serial = told.serial
            self._tells(told)

    def _sleeps_until(self, moment: int) -> None:
        if moment == self._wakes_at:
            return
        if self._timer is not None:
            self._timer.cancel()
        self._wakes_at, self._timer = moment, None
        if moment != NEVER:
            # (a day at most: more than some weeks a loop doesn't take)
            self._timer = self._loop.call_later(min(86400.0, max(0, moment - self.now()) / 1000), self._wakes)

    def _wakes(self) -> None:
        self._wakes_at, self._timer = NEVER, None
        self.pump()

    # ---- the disk

    def _writes(self) -> None:
        if self._store is None or self.fault is not None or self.turns.is_under_way:
            return
        text, position = self.machine.journal()
        if text:
            self._later += text
            self._handed = position
            # (who asks is told only once the line is on the disk)
            self._is_urgent = self._is_urgent or b" hold " in text
        if self._later and not self._is_writing:
            self._puts(self._store)
        self.turns.follows(self._handed, self._durable if self._aside is None or self._last_fault is not None else self._written)
        if self._written > self._durable or self._takes_all:
            self._syncs_in(0.0 if self._is_urgent or self._waiting else SOON)

    def _puts(self, store: Store) -> None:
        text, position, self._later = bytes(self._later), self._handed, bytearray()
        if self._aside is None:
            fault: Optional[OSError] = None
            try:
                store.write(text)
            except OSError as it:
                fault = it
            return self._has_put(position, fault)
        self._is_writing = True
        self._aside.does(functools.partial(store.write, text), functools.partial(self._has_put, position))
        if self._is_writing:
            self._writing_timer = self._loop.call_later(SLOW, self._takes_long)

    def _has_put(self, position: int, fault: Optional[Exception]) -> None:
        self._is_writing = False
        timer, self._writing_timer = self._writing_timer, None
        if self._is_closed:
            return
        if fault is not None:
            self.fails(fault)
        elif self.fault is None:
            self._written = position
        if timer is not None:
            timer.cancel()
            self.pump()

    async def outlives(self) -> None:
        """Returns once all that was given outlives the broker; or the disk doesn't answer, or fails."""
        while self._is_writing and self.fault is None and not self._is_slow and not self._is_closed:
            await asyncio.sleep(LOOKS)

    def _syncs_in(self, seconds: float) -> None:
        if self._is_syncing or self._is_writing or self.fault is not None:
            return
        if self._sync_timer is not None:
            if self._sync_timer.when() <= self._loop.time() + seconds:
                return
            self._sync_timer.cancel()
        self._sync_timer = self._loop.call_later(seconds, self._syncs)

    def _syncs(self) -> None:
        self._sync_timer = None
        if self._is_writing:
            return
        takes_all = self._takes_all or not self._is_urgent or self._loop.time() > self._took_all_at + NOW_AND_THEN
        self._is_syncing, self._is_urgent, self._takes_all = True, False, False
        if takes_all:
            self._took_all_at = self._loop.time()
        self._is_timed()
        self._thread.submit(self._sync, self._written, takes_all)

    def _is_timed(self) -> None:
        self._slow_timer = self._loop.call_later(SLOW, self._takes_long)

    def _sync(self, position: int, takes_all: bool) -> None:
        """On the thread. Who holds is told before what is beside is synced, too."""
        assert self._store is not None
        fault: Optional[Exception] = None
        try:
            self._store.sync()
        except Exception as it:
            fault = it
        if takes_all and fault is None:
            self._to_loop(self._is_synced, position)
            self._beside()
        self._to_loop(self._is_through, position, takes_all, fault)

    def _to_loop(self, call: Callable[..., None], *given: Any) -> None:
        with contextlib.suppress(RuntimeError):  # (the loop is closed)
            self._loop.call_soon_threadsafe(call, *given)

    def _takes_long(self) -> None:
        if not self._is_slow:
            self._is_slow = True
            self._is_wrong_since(self.now() - int(SLOW * 1000))
            self._says(f"{self.path}: {self.because()}: nobody is told that it holds until it does")

    def _is_synced(self, position: int, took_all: bool = False) -> None:
        if self._slow_timer is not None:
            self._slow_timer.cancel()
        if self._is_closed:
            self._durable = max(self._durable, position)
            return
        self._durable, self._pause = position, AGAIN
        if (self._last_fault is not None or self._is_slow) and self.fault is None and not self._is_writing:
            self._last_fault, self._is_slow, self.wrong_since = None, False, None
            self.turns.follows(self._handed, self._durable)
            self._says(f"{self.path}: all is written")
        self.machine.durable(position)
        for upto, wants_all, one in self._waiting:
            if upto <= position and took_all >= wants_all and not one.done():
                one.set_result(None)
        self.pump()

    # a new file in the place of the journal's (turning.py)

    @property
    def is_quiet(self) -> bool:
        """Whether all that was written is on the disk, and nothing is to be done there."""
        is_idle = not self._is_syncing and not self._is_writing and self._sync_timer is None and self.fault is None and not self._is_closed
        return is_idle and self._written == self._durable

    @property
    def is_closed(self) -> bool:
        return self._is_closed

    @property
    def written(self) -> int:
        return self._written

    @property
    def on_disk(self) -> int:
        return self._durable

    async def runs(self, does: Callable[[], None]) -> None:
        """Something is done on the thread; what it raises is raised here."""
        await self._loop.run_in_executor(self._thread, does)

    def works(self, does: Callable[[], None], ends: Callable[[Optional[Exception]], None]) -> None:
        """Something is done on the thread, as long as a sync may take; then `ends` is told, also why it failed."""
        self._is_syncing = True
        self._is_timed()
        self._thread.submit(self._work, does, ends)

    def _work(self, does: Callable[[], None], ends: Callable[[Optional[Exception]], None]) -> None:
        fault: Optional[Exception] = None
        try:
            does()
        except Exception as it:
            fault = it
        self._to_loop(self._has_worked, ends, fault)

    def _has_worked(self, ends: Callable[[Optional[Exception]], None], fault: Optional[Exception]) -> None:
        self._is_syncing = False
        if self._slow_timer is not None:
            self._slow_timer.cancel()
        if not self._is_closed:
            ends(fault)

    def is_sound(self) -> None:
        """The disk has answered."""
        self._is_synced(self._durable)

    def has_file(self, base: int, text: bytes) -> None:
        """A new file stands, with this text; what was handed out meanwhile is handed out again, and written behind it."""
        self.base, position = base, base + len(text)
        self._written = self._durable = self._handed = position
        self.machine.durable(position)
        self.machine.failed()
        self._is_urgent = True
        self.pump()
        if self._written == position:
            self._is_synced(position)

    def _is_through(self, position: int, took_all: bool, fault: Optional[Exception]) -> None:
        self._is_syncing = False
        if fault is None:
            self._is_synced(position, took_all)
        elif not self._is_closed:
            self.fails(fault)

    def fails(self, fault: Exception) -> None:
        self.failures += 1
        for it in (self._sync_timer, self._slow_timer):
            if it is not None:
                it.cancel()
        # (what it was to sync is cut off)
        self._sync_timer = None
        self._later.clear()
        if self.fault is None:
            is_new, self.fault, self._last_fault = self._last_fault is None, fault, fault
            self._is_wrong_since(self.now())
            if is_new:
                self._says(f"{self.path}: {self.because()}, and is tried again: nobody is told that it holds until then")
            self._mending = self._loop.create_task(self._mends())

    async def _mends(self) -> None:
        """The store is cut back to what is durable, and the rest is written again, after a pause; or a new file is made again."""
        is_cut = False
        while not is_cut:
            while self._is_syncing or self._is_writing:
                await asyncio.sleep(AGAIN)
            try:
                await self._loop.run_in_executor(self._thread, self._cuts)
                is_cut = True
            except OSError:
                pass
            await asyncio.sleep(self._pause)
            self._pause = min(2 * self._pause, LATEST)
        self._written = self._handed = self._durable
        self._is_urgent, self.fault = True, None
        if self.turns.is_under_way:
            return self.turns.is_made()
        self.machine.failed()
        self.pump()

    def _cuts(self) -> None:
        assert self._store is not None
        if self.turns.is_under_way:
            self.turns.makes()
        else:
            self._store.cut(self._durable - self.base)

    def puts(self, text: bytes) -> None:
        """On the thread: only this text is in the store."""
        assert self._store is not None
        self._store.anew(text)

    async def durable(self, position: Optional[int] = None, takes_all: bool = False) -> None:
        """Returns once all that was given is on the disk, or all up to a position; with `takes_all` so is what is synced beside.
        JournalError: it isn't within the time for the disk, and it goes on to be tried."""
        if self._store is None:
            return
        if position is None:
            # (while a write fails, or a new file is made: what is handed out here is handed out again)
            position = self._handed if self.fault is None and not self.turns.is_under_way else self.machine.journal()[1]
        if position <= self._durable and not takes_all:
            return
        one = position, takes_all, self._loop.create_future()
        self._waiting.append(one)
        self._takes_all = self._takes_all or takes_all
        self._syncs_in(0.0)
        try:
            async with asyncio.timeout(DISK):
                await one[2]
        except builtins.TimeoutError:
            raise self.why() from None
        finally:
            self._waiting.remove(one)

    @property
    def what(self) -> str:
        """Where all is kept: the disk, or etcd."""
        return self.where.partition(" ")[2]

    def why(self) -> JournalError:
        """Why something isn't on the disk."""
        return JournalError(self.path, f"it isn't {self.where} after {DISK:g} s: {self.because()}")

    def because(self) -> str:
        it = self._last_fault
        return f"{self.what} doesn't answer" if it is None else f"a write failed ({getattr(it, 'strerror', None) or it})"

    def _is_wrong_since(self, moment: int) -> None:
        if self.wrong_since is None:
            self.wrong_since = moment

    def is_wrong(self) -> str:
        """What is wrong with the disk; mostly nothing."""
        return self.because() if self._is_slow or self._last_fault is not None else ""

    async def close(self) -> None:
        """All is on the disk, as far as that can be. Nobody is told anything any more. (The machine is there, for what isn't.)"""
        if self._is_closed:
            return
        try:
            async with asyncio.timeout(CLOSING):
                await self.durable(takes_all=True)
        except (builtins.TimeoutError, JournalError):
            pass
        self._is_closed = True
        for it in (self._timer, self._sync_timer, self._slow_timer, self._writing_timer, self._mending):
            if it is not None:
                it.cancel()
        # (behind all that the thread was given)
        self._last = self._loop.run_in_executor(self._thread, lambda: None)
        self._thread.shutdown(wait=False)
        if self._aside is not None:
            self._aside.ends()

    async def has_ended(self) -> bool:
        """Once it is closed: whether its thread has ended, so that nothing is written any more. Else the disk doesn't answer."""
        return self._last is not None and not (await asyncio.wait({self._last}, timeout=CLOSING))[1] and not self._is_writing
