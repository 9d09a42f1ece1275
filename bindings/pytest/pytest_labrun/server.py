"""The controller's end: workers ask it for instruments over a Unix socket, a line of JSON for each word, and it holds for them.

A worker sends `hello`, then `collected`, then `hold` and `let_go` by turns. A connection that ends lets go of what it held, and gives up what
it waited for."""

from __future__ import annotations

import asyncio
import contextlib
import json
import os
import shutil
import tempfile
import threading
import time
from dataclasses import dataclass
from typing import Any, Callable, Optional, Sequence

from .desk import NOTHING, PATIENCE
from .labs import Lab, LabFault, Way
from .past import Held, Past, told

_LONGEST_LINE = 1 << 28
UNANSWERED = "the broker hasn't answered for {:g} s, and may show them as gone"


@dataclass(frozen=True)
class UnitTold:
    """A unit as a worker tells of it: the numbers of its tests, and the sets of instruments of which it needs one."""

    tests: tuple[int, ...]
    ways: tuple[Way, ...]


@dataclass
class Dealt:
    """What the scheduler knows of tests that it sends to a worker: since when the worker stood idle, and the way that is free now."""

    since: Optional[float] = None
    way: Optional[Way] = None


class Server:
    """It runs a loop on a thread of its own. `stop` ends all sessions."""

    def __init__(self, make_lab: Callable[[], Lab], past: Past) -> None:
        self.past = past
        self.units: Optional[tuple[UnitTold, ...]] = None
        self.fault: Optional[str] = None
        # workers whose test was interrupted, and that didn't hear that its instruments are let go, each with why; and since when one waits for that
        self.unheard = dict[_Worker, str]()
        self.asked_at: Optional[float] = None
        # to each worker, until it asks for that
        self.dealt: dict[str, Dealt] = {}
        self.ticks: list[Callable[[], None]] = []
        self._make_lab = make_lab
        self._folder = tempfile.mkdtemp(prefix="labrun-")
        self.path = os.path.join(self._folder, "lab.sock")
        self._users: dict[str, Held] = {}
        # who had each instrument last, and until when
        self._last: dict[str, tuple[str, float]] = {}
        self._tasks: set[asyncio.Task[None]] = set()
        self._is_up = threading.Event()
        self._failed: Optional[BaseException] = None
        self._thread = threading.Thread(target=self._run, name="labrun", daemon=True)

    def start(self) -> None:
        self._thread.start()
        self._is_up.wait()
        if self._failed is not None:
            self._thread.join()
            shutil.rmtree(self._folder, ignore_errors=True)
            raise self._failed

    def later(self, seconds: float, call: Callable[[], None]) -> None:
        """Calls it on the loop after so many seconds. Any thread may ask."""
        self._loop.call_soon_threadsafe(self._loop.call_later, seconds, call)

    def stop(self) -> None:
        if self._thread.is_alive():
            self._loop.call_soon_threadsafe(self._ended.set)
            self._thread.join()
        shutil.rmtree(self._folder, ignore_errors=True)

    def in_use(self) -> dict[str, str]:
        """Who is at which instrument, as far as is known here. Any thread may ask."""
        return {**self.lab.in_use(), **{name: held.test for name, held in list(self._users.items())}}

    # what follows runs on the loop

    def _run(self) -> None:
        asyncio.run(self._serve())

    async def _serve(self) -> None:
        self._loop, self._ended = asyncio.get_running_loop(), asyncio.Event()
        try:
            self.lab = self._make_lab()
            before = os.umask(0o177)
            try:
                server = await asyncio.start_unix_server(self._came, self.path, limit=_LONGEST_LINE)
            finally:
                os.umask(before)
        except BaseException as fault:
            self._failed = fault
            self._is_up.set()
            return
        self._is_up.set()
        while not self._ended.is_set():
            with contextlib.suppress(asyncio.TimeoutError):
                await asyncio.wait_for(self._ended.wait(), 0.2)
            for tick in self.ticks:
                tick()
        server.close()
        for task in self._tasks:
            task.cancel()
        await asyncio.gather(*self._tasks, return_exceptions=True)
        # (a broker that doesn't answer isn't waited for twice)
        self.lab.close(PATIENCE if self.asked_at is None else max(0.0, self.asked_at + PATIENCE - time.monotonic()))

    async def _came(self, reader: asyncio.StreamReader, writer: asyncio.StreamWriter) -> None:
        task = asyncio.current_task()
        assert task is not None
        self._tasks.add(task)
        try:
            await _Worker(self, reader, writer).serve()
        except (ConnectionError, asyncio.CancelledError):
            pass
        finally:
            self._tasks.discard(task)
            writer.close()

    def collected(self, units: tuple[UnitTold, ...]) -> None:
        """The first worker that has collected opens the lab, for the instruments that the tests use."""
        if self.units is not None:
            return
        used = sorted({name for unit in units for way in unit.ways for name in way})
        self.units = units
        try:
            if used:
                self.lab.open(used)
        except (LabFault, ValueError, OSError) as fault:
            self.fault = str(fault)

    def kept(self, ways: Sequence[Way]) -> dict[str, str]:
        """Which of these instruments are in use, each with who is at it; nothing if one of the ways is free."""
        users = self.in_use()
        if any(not users.keys() & set(way) for way in ways):
            return {}
        return {name: users[name] for way in ways for name in way if name in users}

    def had(self, names: Sequence[str], since: float) -> dict[str, str]:
        """Which of these instruments were in use since then, but no longer, each with who had it last."""
        return {name: who for name, (who, until) in self._last.items() if name in names and until > since}

    def begins(self, held: Held) -> None:
        self._users.update(dict.fromkeys(held.instruments, held))

    def ends(self, held: Held) -> None:
        for name in held.instruments:
            if self._users.get(name) is held:
                del self._users[name]
                self._last[name] = held.test, self.past.now()

    def sees_others(self) -> None:
        """Notes at which instruments others than this run are now. Any thread may ask."""
        now = self.past.now()
        self._last.update({name: (who, now) for name, who in self.lab.in_use().items()})


class _Worker:
    """The talk with one worker."""

    def __init__(self, server: Server, reader: asyncio.StreamReader, writer: asyncio.StreamWriter) -> None:
        self.server, self.reader, self.writer = server, reader, writer
        self.name = "?"
        self.session: Optional[asyncio.Task[None]] = None
        self.lets_go = asyncio.Event()
        self.held: Optional[Held] = None
        self.at: Any = None
        # why the session was over before its end, as it was told first; and as the worker was
        self.taken: Optional[Exception] = None
        self.fault = ""

    def tell(self, **words: Any) -> None:
        self.writer.write(json.dumps(words).encode() + b"\n")

    async def serve(self) -> None:
        try:
            while line := await self.reader.readline():
                words = json.loads(line)
                await getattr(self, "on_" + words.pop("do"))(**words)
        finally:
            if self.session is not None:
                self.session.cancel()
                await asyncio.gather(self.session, return_exceptions=True)

    async def on_hello(self, name: str) -> None:
        self.name = name
        self.tell(ok=True)

    async def on_collected(self, units: list[Any]) -> None:
        self.server.collected(tuple(UnitTold(tuple(tests), tuple(map(tuple, ways))) for tests, ways in units))
        self.tell(ok=True)

    async def on_hold(self, test: str, ways: list[list[str]], timeout: Optional[float]) -> None:
        self.lets_go.clear()
        self.fault = ""
        self.session = asyncio.create_task(self.holds(test, tuple(map(tuple, ways)), timeout))

    async def on_let_go(self, within: Optional[float]) -> None:
        self.lets_go.set()
        if within is None or self.session is None:
            return
        self.server.unheard[self] = UNANSWERED.format(within)
        self.server.asked_at = self.server.asked_at or time.monotonic()
        # (xdist may end the worker before that)
        if not (await asyncio.wait({self.session}, timeout=within))[0]:
            self.session.cancel()
            self.tell(fault=self.server.unheard[self])
        elif self.fault:
            self.server.unheard[self] = self.fault
        else:
            del self.server.unheard[self]

    async def on_note(self, note: int, text: str) -> None:
        """`note` is its number, which its answer has, too."""
        held, session = self.held, self.at
        if held is None or session is None:
            return self.tell(note=note, why=NOTHING)
        try:
            await self.server.lab.note(session, text)
            held.notes.append(text)
        except Exception as fault:
            if session.held:
                return self.tell(note=note, kind=type(fault).__name__, fault=str(fault))
            # (that is said at the session's end)
            self.is_taken(held, fault)
        self.tell(note=note)

    def is_taken(self, held: Held, fault: Exception) -> None:
        """The session is over before its end. Any thread may tell."""
        if self.held is held and self.taken is None:
            self.taken = fault
            if held.held is not None:
                held.let_go = self.server.past.now()

    async def holds(self, test: str, ways: tuple[Way, ...], timeout: Optional[float]) -> None:
        """One session, from its asking until it lets go, or until this task is cancelled because its worker is gone."""
        server, past = self.server, self.server.past
        dealt = server.dealt.pop(self.name, Dealt())
        if dealt.way in ways:
            ways = (dealt.way, *(way for way in ways if way != dealt.way))
        held = self.held = past.asks(test, self.name, ways[0] if len(ways) == 1 else ())
        self.taken = None
        held.kept = server.kept(ways)
        # (a worker that was idle for want of something else didn't wait for this test)
        if dealt.since is not None and (held.kept or server.had(dealt.way or (), dealt.since)):
            held.asked = dealt.since
        left = None if timeout is None else max(0.0, timeout - (past.now() - held.asked))
        try:
            await self._holds(held, ways, left)
        except TimeoutError as late:
            held.end = "late"
            keepers = "; ".join(str(keeper) for keeper in getattr(late, "keepers", ()))
            if not keepers:
                keepers = f"its time limit of {timeout:g} s was over: {str(late).partition(': ')[2] or late}" if left == 0 else str(late)
            names = " or ".join([*(", ".join(way) for way in ways[:4]), *([f"{len(ways) - 4} more"] if len(ways) > 4 else [])])
            self.tell(late=server.lab.who(f"waited {past.now() - held.asked:.1f} s for {names}: {keepers}"))
        except asyncio.CancelledError:
            held.end = "gone"
            raise
        except Exception as fault:
            held.end = "late" if held.held is None else "taken"
            self.fault = server.lab.who(f"{type(fault).__name__}: {fault}")
            self.tell(fault=self.fault)
        finally:
            held.let_go = held.let_go or past.now()
            server.ends(held)
        if held.end == "done":
            self.tell(ok=True)

    async def _holds(self, held: Held, ways: tuple[Way, ...], timeout: Optional[float]) -> None:
        server, past = self.server, self.server.past
        async with server.lab.hold(told(held.test, self.name), ways, timeout, lambda fault: self.is_taken(held, fault)) as session:
            held.held, self.at = past.now(), session
            taken = next(at for at, way in enumerate(ways) if set(way) == set(session.instruments))
            held.instruments = ways[taken]
            server.begins(held)
            its = {name: by for name, by in held.kept.items() if name in held.instruments}
            held.kept = {} if held.waited < 0.01 else its | server.had(held.instruments, held.asked)
            self.tell(held=held.instruments, waited=held.waited)
            await self.lets_go.wait()
            self.at = None
            if self.taken is not None:
                raise self.taken
        held.end, held.let_go = "done", past.now()
        past.times.note(held)
