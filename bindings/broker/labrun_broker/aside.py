"""Calls that may take for ever, as a write to a disk that hangs, on a thread of their own: whoever calls waits a moment at most."""

from __future__ import annotations

import asyncio
import contextlib
import threading
import time
from queue import SimpleQueue
from typing import Callable, Optional, TypeVar

MOMENT = 0.1  # seconds that the loop waits for a call

Then = Callable[[Optional[Exception]], None]
Result = TypeVar("Result")


class _Call:
    """`then` is called once, on the loop's thread, with what the call raised."""

    def __init__(self, does: Callable[[], None], then: Then) -> None:
        self._does, self._then = does, then
        self.ended = threading.Lock()
        self.ended.acquire()
        self.is_late = self._is_told = False
        self._fault: Optional[Exception] = None

    def runs(self) -> bool:
        """Whether it took no more than a moment."""
        begun = time.monotonic()
        try:
            self._does()
        except Exception as fault:
            self._fault = fault
        self.ended.release()
        return time.monotonic() < begun + MOMENT

    def tells(self) -> None:
        if not self._is_told:
            self._is_told = True
            self._then(self._fault)


class Aside:
    """One call at a time. After one that took longer than a moment the next ones aren't waited for, until one is quick again."""

    def __init__(self, name: str) -> None:
        self._name, self._is_quick = name, True
        self._calls = SimpleQueue[Optional[tuple[_Call, asyncio.AbstractEventLoop]]]()
        self._thread: Optional[threading.Thread] = None
        self._now: Optional[_Call] = None

    def does(self, does: Callable[[], None], then: Then) -> None:
        """`then` is called once it has ended: before this returns, if that is in a moment."""
        call = _Call(does, then)
        try:
            loop = asyncio.get_running_loop()
        except RuntimeError:
            # (there is nothing that it would hold up)
            call.runs()
            return call.tells()
        if self._thread is None:
            self._thread = threading.Thread(target=self._runs, name=self._name, daemon=True)
            self._thread.start()
        self._now = call
        self._calls.put((call, loop))
        if not (self._is_quick and call.ended.acquire(timeout=MOMENT)):
            # (the thread looks at this after the end, which is looked at here after this: one of both tells)
            call.is_late = True
            if not call.ended.acquire(blocking=False):
                return
        call.tells()

    async def given(self, gives: Callable[[], Result]) -> Result:
        """What it gives, once it has ended."""
        found, has_ended = list[Result](), asyncio.get_running_loop().create_future()

        def then(fault: Optional[Exception]) -> None:
            if not has_ended.done():  # (whoever waited may have been cancelled)
                has_ended.set_result(fault)

        self.does(lambda: found.append(gives()), then)
        if (fault := await has_ended) is not None:
            raise fault
        return found[0]

    def waits(self) -> None:
        """A moment more for a call that is late."""
        if self._now is not None and self._now.ended.acquire(timeout=MOMENT):
            self._now.tells()

    def ends(self) -> None:
        """After what it was given; nothing more comes."""
        if self._thread is not None:
            self._calls.put(None)

    def _runs(self) -> None:
        while (given := self._calls.get()) is not None:
            call, loop = given
            self._is_quick = call.runs()
            if call.is_late:
                with contextlib.suppress(RuntimeError):  # (the loop is closed)
                    loop.call_soon_threadsafe(call.tells)
            del given, call, loop


class Lines:
    """Lines that are said in their order, where `says` may hang: standard error may be a file on such a disk."""

    MOST = 1000  # that wait; what comes then is lost
    LONG = 3.0  # seconds for which the end of the broker waits for them

    def __init__(self, says: Callable[[str], None]) -> None:
        self._says, self._aside = says, Aside("lines")
        self._waiting, self._is_under_way = list[str](), False

    def add(self, line: str) -> None:
        if len(self._waiting) < self.MOST:
            self._waiting.append(line)
        self._goes_on()

    async def are_said(self) -> None:
        """Returns once they are, or if that takes too long."""
        until = time.monotonic() + self.LONG
        while self._is_under_way and time.monotonic() < until:
            await asyncio.sleep(MOMENT / 10)

    def _goes_on(self) -> None:
        if self._waiting and not self._is_under_way:
            lines, self._waiting, self._is_under_way = self._waiting, [], True
            self._aside.does(lambda: self._puts(lines), self._has_put)

    def _puts(self, lines: list[str]) -> None:
        for line in lines:
            self._says(line)

    def _has_put(self, _: Optional[Exception]) -> None:
        self._is_under_way = False
        self._goes_on()
