"""Who waits for the journal of a shell, and what each does meanwhile."""

from __future__ import annotations

from typing import Any, Callable, Optional, TypeVar

from ._disk import Disk, Job
from ._faults import JournalError
from ._sleep import Bolt, Line, Waiter, sleep_of
from .machine import Machine
from .store import FileStore

SOON = 50  # milliseconds: within twice that what is written is synced, also if nobody waits for it

# how far a shell is
OPEN, STANDS_STILL, CLOSING, CLOSED, ELSEWHERE, BROKEN = range(6)

T = TypeVar("T")


class Writing:
    """The part of a shell that waits for its journal, if there is one."""

    mutex: Any
    machine: Machine
    askers: dict[int, Any]
    now: Callable[[], int]
    stands: int
    keeps: bool
    _store: Optional[FileStore]
    _disk: Optional[Disk]
    _work: Bolt

    # how far it was written when the writer looked last, and until when that has to be synced
    _unsynced: Optional[tuple[int, int]] = None

    def _tells(self, now: int) -> None:
        raise NotImplementedError

    def breaks(self, fault: BaseException) -> None:
        raise NotImplementedError

    def leave(self, it: Optional[Waiter] = None) -> None:
        raise NotImplementedError

    # with the mutex held

    def line(self, syncs: bool) -> Line:
        """For whoever waits until all that was given is written, or on the disk."""
        line = Line(syncs)
        if self._disk is not None:
            self._disk.waits(line)
        return line

    def waits(self, it: Waiter, is_task: bool, may: bool = True) -> Optional[Job]:
        """It waits from now on, by `sleeps`. A thread that `may` does itself what nobody else does: this job, for a start."""
        it.does = may and self.keeps and not is_task
        job = self._takes(it) if it.does else None
        if job is None:
            it.sleep = sleep_of(it, is_task)
            self._calls()
        return job

    def _takes(self, it: Waiter) -> Optional[Job]:
        try:
            return None if self._disk is None or self.stands > CLOSING else self._disk.takes(it)
        except Exception as fault:
            self.breaks(fault)
            return None

    def _calls(self) -> None:
        """Whoever may do what there is to do is woken."""
        disk = self._disk
        if disk is None or self.stands > CLOSING:
            return
        for it in disk.wanted():
            it.wakes()
        if self._unsynced is None and disk.is_unsynced:
            self._unsynced = disk.written, self.now() + SOON
            self._work.opens()
        elif self.stands == CLOSING:
            self._work.opens()

    # without it

    async def until_written(self, act: Callable[[], T], is_task: bool) -> T:
        """Does this with the mutex held, and comes back once all that it gave is on the disk. JournalError: a write failed."""
        line, job = None, None
        try:
            with self.mutex:
                done = act()
                if self.keeps:
                    line = self.line(True)
                    job = self.waits(line, is_task)
            if line is not None:
                await self.sleeps(line, job)
                if line.within:
                    raise self.failed(line.fault, "the lab was closed before it was written")
            return done
        except BaseException:
            self.leave(line)
            raise

    async def sleeps(self, it: Waiter, job: Optional[Job]) -> None:
        """Until it is told, or all is over. A thread does meanwhile what nobody else does."""
        while True:
            while job is not None:
                job = self._does(it, job)
            if self._is_through(it):
                return
            assert it.sleep is not None
            await it.sleep
            if not it.does:
                return
            with self.mutex:
                # (it may have been woken to do something, and is told by now: then somebody else is woken)
                job = self._next(it)

    def _does(self, it: Waiter, job: Job, goes_on: bool = True) -> Optional[Job]:
        """With `goes_on` it tells what comes next."""
        assert self._disk is not None
        fault: Optional[BaseException] = None
        try:
            # (without the mutex: those who ask while the disk is busy share the next sync)
            self._disk.does(job)
        except OSError as error:
            fault = error
        except Exception as error:
            self.breaks(error)
        with self.mutex:
            if self.stands <= CLOSING:
                try:
                    if self._disk.did(it, job, fault):
                        self._tells(self.now())
                except Exception as error:
                    self.breaks(error)
            return self._next(it) if goes_on else None

    def _next(self, it: Waiter) -> Optional[Job]:
        """With the mutex held: what it does next; None: it sleeps, or is over. What it leaves somebody else does."""
        is_over = self._is_through(it)
        job = None if is_over else self._takes(it)
        if job is None and not is_over and it.sleep is None:
            it.sleep = sleep_of(it, False)
        self._calls()
        return job

    def _is_through(self, it: Waiter) -> bool:
        return it.is_told or self.stands > CLOSING or (it.number != 0 and it.number not in self.askers)

    def failed(self, fault: Optional[BaseException], why: str = "") -> JournalError:
        """What is told of a write that failed; of none it is told why."""
        if fault is not None:
            why = f"a write failed ({getattr(fault, 'strerror', None) or repr(fault)})"
        made = JournalError(self._store.path if self._store is not None else "", why)
        made.__cause__ = fault
        return made

    def too_late(self) -> JournalError:
        return self.failed(self._disk.fault if self._disk is not None else None, "it wasn't on the disk in time")
