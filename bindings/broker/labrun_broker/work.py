"""The loop of all labs of a process, on a thread of its own, and work on it that another thread waits for."""

from __future__ import annotations

import asyncio
import atexit
import concurrent.futures
import contextlib
import os
import threading
import time
from typing import Any, Callable, Coroutine, Generic, Optional, TypeVar

import labrun

from .leaving import GivenUp

Result = TypeVar("Result")
Undo = Callable[[], Coroutine[Any, Any, None]]
ENDING = 5.0  # seconds, for which whoever interrupts work waits until it has ended


def clock() -> float:
    """One that goes on while the machine sleeps."""
    return time.clock_gettime(time.CLOCK_BOOTTIME)


NOT_AFTER_A_FORK = 'gRPC, by which it connects, doesn\'t outlive a fork: start this one by multiprocessing.get_context("spawn"), or connect only in it'


class Loop:
    """That of all labs of a process, on a thread of its own. (gRPC wants one loop in a process.)"""

    def __init__(self) -> None:
        self._lock = threading.Lock()
        self._loop: Optional[asyncio.AbstractEventLoop] = None
        # in which it was begun; and whether that ends, and its threads with it
        self._process = 0
        self.has_ended = False
        os.register_at_fork(after_in_child=self._is_forked)

    def get(self) -> asyncio.AbstractEventLoop:
        with self._lock:
            if self._loop is None:
                self._loop, self._process = asyncio.new_event_loop(), os.getpid()
                threading.Thread(target=self._loop.run_forever, name="labrun-broker", daemon=True).start()
                # (what is registered later is called sooner: the labs are closed by then)
                atexit.register(self._ends)
            elif self._process != os.getpid():
                raise labrun.OtherProcess(self._process, "program's connection", NOT_AFTER_A_FORK)
            return self._loop

    def _is_forked(self) -> None:
        # (another thread may have had it, which isn't here)
        self._lock = threading.Lock()

    def _ends(self) -> None:
        self.has_ended = True


THE_LOOP = Loop()


def loop_of_this_process() -> asyncio.AbstractEventLoop:
    """OtherProcess: it has forked since one was begun."""
    return THE_LOOP.get()


class UnderWay(dict["asyncio.Task[Any]", float]):
    """Tasks of that loop that end also if nobody waits for them any more, and since when each is there."""

    def add(self, task: asyncio.Task[Any]) -> None:
        self[task] = clock()
        task.add_done_callback(self.discard)

    def discard(self, task: asyncio.Task[Any]) -> None:
        self.pop(task, None)

    async def end(self, span: float) -> None:
        """Waits until all have ended, but this one; for each until it is so many seconds old."""
        for task, since in [it for it in self.items() if it[0] is not asyncio.current_task()]:
            await asyncio.wait({task}, timeout=max(0.0, since + span - clock()))


class Work(Generic[Result]):
    """Work that a thread waits for, or a task of another loop. An interrupt, or a cancel, ends the wait at any moment, also while it is just being
    begun; the work is given up then, or goes on: a session isn't to stay held because somebody was impatient as it let go. If what is given up was
    done by then, `undo` is done, too. What goes on so is known to `under_way`."""

    def __init__(
        self, work: Coroutine[Any, Any, Result], loop: asyncio.AbstractEventLoop, goes_on: bool = False, undo: Optional[Undo] = None,
        under_way: Optional[UnderWay] = None,
    ) -> None:
        self._work, self._loop, self._goes_on, self._undo = work, loop, goes_on, undo
        self._under_way = UnderWay() if under_way is None else under_way
        self._task: Optional[asyncio.Task[Result]] = None
        # what went wrong with the work itself
        self._fault: Optional[BaseException] = None
        self._done: concurrent.futures.Future[Result] = concurrent.futures.Future()

    def _may_begin(self) -> None:
        if THE_LOOP.has_ended:
            # (as a finalizer that lets go: nobody would do that any more)
            self._work.close()
            raise labrun.Closed("the lab is closed: the program has ended")

    def result(self) -> Result:
        self._may_begin()
        try:
            self._loop.call_soon_threadsafe(self._begin)
            return self._done.result()
        except BaseException as fault:
            if fault is not self._fault:
                left = self._leaves()
                if not isinstance(fault, GivenUp):
                    concurrent.futures.wait([left], ENDING)
            raise

    async def result_async(self) -> Result:
        """For a task of another loop."""
        self._may_begin()
        try:
            self._loop.call_soon_threadsafe(self._begin)
            await _ended(self._done)
            if self._done.cancelled():
                raise asyncio.CancelledError
            return self._done.result()
        except BaseException as fault:
            if fault is not self._fault:
                left = self._leaves()
                # (what goes on may take long, and nothing is awaited as a loop is closed)
                if isinstance(fault, asyncio.CancelledError) and not self._goes_on:
                    await _ended(left, ENDING)
            raise

    def _leaves(self) -> concurrent.futures.Future[Any]:
        """Nobody waits for the result any more. What is given is over once the work is."""
        if self._goes_on:
            # (it may not have been begun yet)
            self._loop.call_soon_threadsafe(self._begin)
            return self._done
        return asyncio.run_coroutine_threadsafe(self._gives_up(), self._loop)

    # what follows runs on the loop

    def _begin(self) -> None:
        if self._task is None and not self._done.cancelled():
            self._task = self._loop.create_task(self._work)
            self._task.add_done_callback(self._ends)
            if self._goes_on:
                self._under_way.add(self._task)

    async def _gives_up(self) -> None:
        task = asyncio.current_task()
        assert task is not None
        self._under_way.add(task)
        if self._task is None:
            self._work.close()
            return self._is_cancelled()
        self._task.cancel()
        await asyncio.wait({self._task})
        if self._undo is not None and not self._task.cancelled() and self._task.exception() is None:
            await self._undo()

    def _ends(self, task: asyncio.Task[Result]) -> None:
        if task.cancelled():
            self._is_cancelled()
        elif (fault := task.exception()) is not None:
            self._fault = fault
            self._done.set_exception(fault)
        else:
            self._done.set_result(task.result())

    def _is_cancelled(self) -> None:
        self._done.cancel()
        # (concurrent.futures.wait sees one that is cancelled only once this is said)
        self._done.set_running_or_notify_cancel()


async def _ended(done: concurrent.futures.Future[Any], span: Optional[float] = None) -> None:
    """Returns once that is done, or after so many seconds."""
    loop = asyncio.get_running_loop()
    over: asyncio.Future[None] = loop.create_future()

    def wakes(_: object) -> None:
        # (the loop may be closed by then, and its tasks with it)
        with contextlib.suppress(RuntimeError):
            loop.call_soon_threadsafe(lambda: None if over.done() else over.set_result(None))

    done.add_done_callback(wakes)
    await asyncio.wait({over}, timeout=span)
