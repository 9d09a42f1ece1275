"""A broker of a day: the real one, on its loop, with clients whose streams are in memory."""

from __future__ import annotations

import asyncio
from collections import deque
from typing import TYPE_CHECKING, Any, Callable, Optional

import grpc
from labrun_broker.bay import bay_of
from labrun_broker.entrance import Entrance
from labrun_broker.keeping import Keeping
from labrun_broker.service import Service
from tests import day_model as rules
from tests.day_checks import Wrong
from tests.day_world import FOLDER, Killed, Loop

if TYPE_CHECKING:
    from tests.day_lives import Day


SIZE = 900  # bytes


class Stream:
    """A call of Hold, as the service sees it; `got` is what it was told."""

    def __init__(self, life: Life, client: int, ticket: str) -> None:
        self.life, self.client, self.rules, self.got = life, client, rules.Stream(ticket), list[tuple[Any, ...]]()
        self.asks: deque[Any] = deque()
        self.sent: dict[str, int] = {}  # when it sent the last one of a kind
        self.is_cut = False
        self.waiter: Optional[asyncio.Future[None]] = None
        self.task = life.loop.create_task(life.service.Hold(None, self))

    def sends(self, ask: Any) -> None:
        self.asks.append(ask)
        if self.waiter is not None and not self.waiter.done():
            self.waiter.set_result(None)

    def peer(self) -> str:
        return "unix:"

    def invocation_metadata(self) -> tuple[()]:
        return ()

    async def send_initial_metadata(self, _: Any) -> None: ...

    async def read(self) -> Any:
        while not self.asks:
            self.waiter = self.life.loop.create_future()
            await self.waiter
        return self.asks.popleft()

    async def write(self, told: Any) -> None:
        if not self.life.disk.is_dead:
            if not self.rules.is_open:
                raise grpc.RpcError()
            try:
                self.life.day.is_told(self, told)
            except Wrong as fault:
                self.life.day.wrong = self.life.day.wrong or fault
        await asyncio.sleep(0)


class Life:
    """A broker, from when it begins until it is killed or stopped."""

    def __init__(self, day: Day, file: rules.File) -> None:
        self.day, self.file, self.disk = day, file, day.disk
        self.loop = Loop(day.disk, day.halves)
        self.streams: list[Stream] = []
        self.keeping = self.done(self.new)
        self.service = Service(self.keeping, Entrance(self.keeping))

    def new(self) -> Keeping:
        keeping = Keeping(bay_of(self.file.text()), FOLDER, 60.0 if self.file.grace is None else self.file.grace / 1000)
        # (so its journal begins anew again and again)
        keeping.most_bytes = SIZE
        return keeping

    def opens(self, client: int, ticket: str) -> Stream:
        return Stream(self, client, ticket)

    def done(self, make: Callable[[], Any]) -> Any:
        asyncio._set_running_loop(self.loop)
        try:
            return make()
        finally:
            asyncio._set_running_loop(None)

    def settles(self) -> None:
        """All is done that is to be done at this moment, or the broker is killed before."""
        for _ in range(20000):
            if self.disk.is_dead or not self.steps():
                if self.day.wrong is not None:
                    raise self.day.wrong
                return
        raise Wrong(7, "it is busy, and never comes to an end")

    def steps(self) -> bool:
        try:
            return self.loop.step()
        except Killed:
            return True

    def ends(self) -> None:
        """Nothing of it is left."""
        self.disk.is_dead = True
        for _ in range(50):
            if not (tasks := asyncio.all_tasks(self.loop)):
                break
            for task in tasks:
                task.cancel()
            while self.steps():
                pass
        if (shell := getattr(self.keeping, "_shell", None)) is not None:
            shell.machine.free()
        self.loop.close()
