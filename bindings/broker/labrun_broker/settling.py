"""What a broker answers only if it still leads. Where no other can, as with a folder, nothing waits here.

A broker that was stopped for a while, or cut off from its store, may have been deposed without knowing it. What another one wrote since it
can't know: who is back, whose session was released, whom it would refuse. So each such answer waits for a fence, which is a word of the
store, asked for after the question came, that this broker leads; and whoever is told of an end waits until that is kept."""

from __future__ import annotations

import asyncio
import contextlib
import functools
from typing import Any, Awaitable, Callable, Optional, TypeVar, cast

import labrun

from .folder import State
from .shell import Shell

Work = TypeVar("Work", bound=Callable[..., Awaitable[Any]])

AGAIN = 0.5  # seconds until the store is asked again


class Settling:
    def __init__(self, state: Optional[State], shell: Shell) -> None:
        self._state = state if state is not None and state.lets_wait else None
        self._shell = shell
        self._tasks = set[asyncio.Task[None]]()

    async def leads(self) -> None:
        """A fence. If another leads, nobody is answered any more."""
        if self._state is not None:
            await self._state.fence()

    async def kept(self) -> None:
        """All that was done until now outlives this broker. Where something was, that is a fence, too."""
        if self._state is not None:
            await self._shell.durable()

    async def answers(self) -> None:
        """Both, as far as the store takes anything."""
        if self._state is not None:
            with contextlib.suppress(labrun.JournalError):
                await self.kept()
            await self.leads()

    def tells(self, owner: Callable[[str], None], text: str) -> None:
        """An owner is told that."""
        if self._state is None:
            return owner(text)
        task = asyncio.create_task(self._tells(owner, text))
        self._tasks.add(task)
        task.add_done_callback(self._tasks.discard)

    async def _tells(self, owner: Callable[[str], None], text: str) -> None:
        while True:
            try:
                await self.answers()
                break
            except OSError:
                # (as long as the store refuses to say who leads, nobody comes to hold, either)
                await asyncio.sleep(AGAIN)
        owner(text)


def settled(work: Work) -> Work:
    """Work of a keeping whose faults are told only by one that leads."""

    @functools.wraps(work)
    async def works(keeping: Any, *given: Any, **more: Any) -> Any:
        try:
            return await work(keeping, *given, **more)
        except labrun.JournalError:
            # (it was waited for that already, as long as it says)
            await keeping.settling.leads()
            raise
        except labrun.LabrunError:
            await keeping.settling.answers()
            raise

    return cast(Work, works)
