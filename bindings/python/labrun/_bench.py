"""The bench of a script, for threads and tasks."""

from __future__ import annotations

import asyncio
import contextlib
import os
import threading
from ctypes import byref
from types import TracebackType
from typing import Awaitable, Callable, Iterator, Optional, Union

from ._core import Core
from ._faults import LabrunError, OtherProcess, StillHeld, Stopped
from ._library import Handle, Told, called, library
from ._plan import read_plan
from ._report import Report, Text, as_bytes, check
from ._session import Job, Jobs

# (a name of its own, so that a test can put gates there)
_new_lock = threading.Lock


class Bench:
    """The bench of a script: `jobs` in its order, `instruments` by their names in the order in which they are first named.

    As a context manager it is closed at the end, and `report` is there then. Join your threads before: who comes later gets Closed. It
    belongs to the process that opened it: in a child of a fork each call raises OtherProcess."""

    def __init__(self, script: Text) -> None:
        calls, given, handle, told = library(), as_bytes(script), Handle(), Told()
        # (the open takes texts `bench 1`, too, whose sessions come later: here none do)
        check(given)
        called(calls, "lab_bench_open", given, len(given), byref(handle), byref(told), told=told)
        self._core = core = Core(calls, handle, _new_lock)
        self.instruments, jobs = read_plan(core.call)
        self.jobs = Jobs(Job(self, core, index, *it) for index, it in enumerate(jobs))
        self._report: Optional[Report] = None

    @classmethod
    def open(cls, path: Union[str, os.PathLike[str]]) -> Bench:
        """The bench of the script in a file. Refused says which line isn't sound."""
        with open(path, "rb") as file:
            return cls(file.read())

    @classmethod
    def from_text(cls, text: Text) -> Bench:
        """The bench of a script in memory, else as `open`."""
        return cls(text)

    def job(self, name: str) -> Job:
        """The job of this name, as `jobs[name]`; KeyError if there is none."""
        return {job.name: job for job in self.jobs}[name]

    @property
    def report(self) -> Report:
        """The report, once the bench is closed."""
        if self._report is None:
            raise LabrunError("the report is there once the bench is closed: at the end of `with`, or by close()")
        return self._report

    @property
    def lapsed(self) -> tuple[tuple[str, int], ...]:
        """The sessions, as (job, number), that were given up in line, and whose turn came, or that held already as they were given up:
        their commands are in the logs, and nobody did their work."""
        return tuple(self._core.lapsed)

    @property
    def raised(self) -> tuple[tuple[str, int], ...]:
        """The sessions, as (job, number), whose body raised while they held: their commands are in the logs all the same."""
        return tuple(self._core.raised)

    def run(self, station: Callable[[Job], object]) -> None:
        """Calls `station(job)` on a thread for each job, and returns when all are back.

        If stations raise, the others still go on to their end, and then the first of these exceptions is raised, with the others as notes.
        A station that is over while a session that it acquired still holds stops the bench, and StillHeld names that session.
        KeyboardInterrupt stops the bench: sessions that are held go on to their end, those that wait are given up, and once the threads
        are back it is raised. The threads are daemons: one that never comes back doesn't keep the program from ending."""
        Stations(self._core, self.jobs).run(station)

    async def run_async(self, station: Callable[[Job], Awaitable[object]]) -> None:
        """As `run`, with a task of asyncio for each job: `async with session:` in place of `with session:`."""
        await Stations(self._core, self.jobs).run_async(station)

    def stop(self) -> None:
        """No further session is begun: who waits for one, or asks for one, gets Stopped. Sessions that are held go on."""
        self._core.stop()

    def close(self) -> Report:
        """Closes the bench, and gives its report. A session that is held then stays unfinished in it; one that was left, and holds, lapses. A
        second call gives the report again."""
        with self._core.lock():
            if self._report is None:
                self._report = Report.from_text(self._core.close(len(self.jobs)))
            self._core.free()
            return self._report

    def __enter__(self) -> Bench:
        return self

    def __exit__(self, kind: Optional[type[BaseException]], fault: Optional[BaseException], at: Optional[TracebackType]) -> None:
        # (a child of a fork that leaves by its own copy of the block has nothing to close)
        with contextlib.suppress(OtherProcess):
            self.close()


class Stations:
    """A station for each job of a bench, on a thread or a task of its own, and how they come to their ends."""

    def __init__(self, core: Core, jobs: Jobs) -> None:
        self._core, self._jobs = core, jobs
        self._faults: list[tuple[str, BaseException]] = []
        with core.lock(), core:
            pass

    def run(self, station: Callable[[Job], object]) -> None:
        # (not Thread.join: before Python 3.13 a join that is interrupted may take a thread for ended that isn't)
        back = [threading.Event() for _ in self._jobs]
        # stations begin once all threads are there: so an interrupt before leaves none behind that has begun
        all_there, is_begun = threading.Event(), False

        def work(job: Job) -> None:
            all_there.wait()
            if is_begun:
                with self._ends(job):
                    station(job)
            back[job.index].set()

        try:
            for job in self._jobs:
                threading.Thread(target=work, args=(job,), name=job.name, daemon=True).start()
            is_begun = True
            all_there.set()
            for event in back:
                event.wait()
        except BaseException:
            self._core.stop()
            # (again, because an interrupt may have come before)
            all_there.set()
            for event in back if is_begun else []:
                event.wait()
            raise
        self._tell()

    async def run_async(self, station: Callable[[Job], Awaitable[object]]) -> None:
        async def work(job: Job) -> None:
            with self._ends(job):
                await station(job)

        await asyncio.gather(*map(work, self._jobs))
        self._tell()

    @contextlib.contextmanager
    def _ends(self, job: Job) -> Iterator[None]:
        """One is over. What its session holds stays its own, and nobody waits for that for ever."""
        try:
            yield
        except Stopped:
            pass
        except BaseException as fault:
            self._faults.append((job.name, fault))
        session = self._core.sessions.get(job.index)
        if session is not None and session.held:
            self._core.stop()

    def _tell(self) -> None:
        """Raises the first of what went wrong, with the others as notes."""
        if held := tuple(it for it in self._core.sessions.values() if it.held):
            self._faults.append((held[0].job.name, StillHeld(held)))
        for name, fault in self._faults[1:]:
            if hasattr(fault, "add_note"):
                self._faults[0][1].add_note(f"also {name}: {fault!r}")
        if self._faults:
            raise self._faults[0][1]
