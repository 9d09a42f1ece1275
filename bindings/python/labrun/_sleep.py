"""Sleeping until something is so: threads, tasks, and the threads that a shell has for itself."""

from __future__ import annotations

import asyncio
import threading
import weakref
from typing import Any, Awaitable, Callable, Coroutine, Generator, Optional, TypeVar

from ._faults import WouldBlock

_new_lock = threading.Lock  # (so that a test can put gates there)

T = TypeVar("T")


def at_once(work: Callable[..., Coroutine[Any, Any, T]], *given: Any) -> T:
    """Does on a thread what is written once, for threads and tasks: it sleeps within (`Bolt`), and never yields."""
    try:
        work(*given).send(None)
    except StopIteration as it:
        done: T = it.value
        return done
    raise AssertionError("it yielded, on a thread")


def in_loop() -> bool:
    """Whether a loop runs on this thread."""
    return asyncio._get_running_loop() is not None


def may_sleep(session: Any, called: str) -> None:
    """WouldBlock: the loop of this thread would stand still meanwhile."""
    if in_loop():
        why = "has to wait, and a loop runs on this thread: use `async with`, or the call that ends in _async"
        raise WouldBlock(session, f"{called} {why}")


class Waiter:
    """Whoever sleeps until something is so. `wake` is set while it does, and says whether somebody is there; `fault` is the write that
    failed meanwhile. With `does` it is a thread that has all the time that the disk takes, and is woken also to write and, with `syncs`, to
    sync itself. `number` is 0 of one that isn't an ask."""

    number = 0
    wake: Optional[Callable[[], bool]] = None
    sleep: Optional[Awaitable[None]] = None
    does = False
    syncs = True
    fault: Optional[BaseException] = None

    @property
    def is_told(self) -> bool:
        """What it waits for."""
        return True

    def wakes(self) -> bool:
        """False: nobody is there any more."""
        return self.wake is None or self.wake()


class Line(Waiter):
    """Waits until all that the bay gave by now is written, and with `syncs` on the disk: `within` is the hand-out that has it; 0: it is
    there."""

    within = -1

    def __init__(self, syncs: bool) -> None:
        self.syncs = syncs

    @property
    def is_told(self) -> bool:
        return not self.within or self.fault is not None


class Bolt:
    """A thread sleeps at it until it is opened."""

    def __init__(self) -> None:
        self._lock = _new_lock()
        self._lock.acquire()

    def sleeps(self, seconds: float = -1) -> None:
        self._lock.acquire(True, seconds)

    def opens(self) -> bool:
        try:
            self._lock.release()
        except RuntimeError:  # it is open already
            pass
        return True

    def __await__(self) -> Generator[None, None, None]:
        self.sleeps()
        yield from ()


def sleep_of(it: Waiter, is_task: bool) -> Awaitable[None]:
    """What is over once it is woken. (Before anybody can wake it.)"""
    if not is_task:
        bolt = Bolt()
        it.wake = bolt.opens
        return bolt
    loop = asyncio.get_running_loop()
    future: asyncio.Future[None] = loop.create_future()

    def wake() -> bool:
        try:
            loop.call_soon_threadsafe(lambda: None if future.done() else future.set_result(None))
            return True
        except RuntimeError:
            # (the loop is closed, and its tasks with it)
            return future.done()

    it.wake = wake
    return future


def steps(of: weakref.ref[T], step: Callable[[T], Optional[float]], bolt: Bolt) -> None:
    """Each step tells for how many seconds to sleep then, at most; None: it was the last. A thread that sleeps has nothing: what nobody else
    has goes, and opens the bolt for that."""
    while (seconds := _step(of(), step)) is not None:
        bolt.sleeps(seconds)


def _step(it: Optional[T], step: Callable[[T], Optional[float]]) -> Optional[float]:
    return None if it is None else step(it)


def starts(work: Callable[..., None], *given: Any) -> threading.Thread:
    thread = threading.Thread(target=work, args=given, name="labrun", daemon=True)
    thread.start()
    return thread
