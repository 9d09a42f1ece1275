"""A session of a client, as the broker keeps it."""

from __future__ import annotations

import asyncio
import math
import secrets
from types import TracebackType
from typing import TYPE_CHECKING, Any, Callable, Optional, cast

import grpc
import labrun
from labrun._sleep import may_sleep

from . import broker_pb2 as pb
from .calling import Calls, calls_aside
from .coming import BEATS, GRACE, PAUSE, Coming
from .errors import BadWish, NotHeld, TakenAway, Unreachable, raised, whole
from .forward import Ways
from .questions import Questions
from .silence import Silence
from .stream import AGAIN, Lost, Stream
from .work import clock

if TYPE_CHECKING:
    from .client import Lab

MOST_FAILED = 10000  # characters that are told of work that failed


class Entered(NotHeld):
    """Somebody was in the session before, or is in it, and stays there."""


class Held:
    """A session, as the broker keeps it. `with` it, or call `acquire` and `release`, once. `instruments`, `station`, `number` and
    `token` are known once it holds. Its token is larger than that of each session that was told before that it holds: so a server
    before an instrument can refuse whoever comes with a smaller one than it has seen."""

    def __init__(self, lab: Lab, wish: Any, timeout: Optional[float], waits: Optional[Callable[[str], None]]) -> None:
        self.lab, self.timeout = lab, timeout
        self.instruments: tuple[str, ...] = tuple(wish.instruments)
        self.station, self.number, self.token, self.state = "", 0, 0, "new"
        self._wish, self._waits, self._tells = wish, waits, cast(Optional[Calls], None)
        # by which whoever waits is told that no word comes
        self._silence: Optional[Silence] = None
        # by which another client has asked for it; mostly nothing
        self._ticket = ""
        self._stream: Optional[Stream] = None
        self._taken: Optional[Exception] = None
        # for how long it is held after a word that the broker answered, and so until when, by `clock`; and who sends such words. Nobody else holds
        # its instruments before that, whatever becomes of the connection (leases.py)
        self._lease: Optional[float] = None
        self._until = math.inf
        self._beats: Optional[asyncio.Task[None]] = None
        # what its owner asks; and who looks for another stream
        self._questions = Questions(self)
        # how many notes: by its number the broker knows one that is sent again
        self._noted = 0
        self._returns: Optional[asyncio.Task[None]] = None
        # where the guards of its instruments are, and the ports that lead there
        self.guards: dict[str, str] = {}
        self._ways: Optional[Ways] = None
        # for how long it may hold while somebody waits for what it has
        self.limit: Optional[float] = None
        # it is called, on another thread, if the session was taken away while its owner works
        self.on_taken: Optional[Callable[[Exception], None]] = None
        # and if its limit is over soon
        self.on_warning: Optional[Callable[[str], None]] = None
        # and with the instruments that it has to wait for, before each line of `waits`
        self.on_lacking: Optional[Callable[[list[str]], None]] = None

    @property
    def held(self) -> bool:
        """Whether nobody else can hold its instruments."""
        return self.state == "held" and clock() < self._until

    @property
    def is_released_if_gone(self) -> bool:
        """Whether the broker lets it go by itself once it hasn't heard from this client for a while (`gone = "release"`)."""
        return self._lease is not None

    def acquire(self) -> None:
        """Blocks until the session holds all its instruments. WouldBlock: a loop runs on this thread; so of all that blocks here."""
        self._may_sleep()
        try:
            self.lab._run(self._acquire(), undo=self._withdraws)
        except Entered:
            raise
        except BaseException:
            if self.state == "held":
                self.release()
            raise

    async def acquire_async(self) -> None:
        """As `acquire`, for a task of asyncio."""
        await self.lab._run_async(self._acquire(), undo=self._withdraws)

    def address(self, instrument: str) -> tuple[str, int]:
        """Host and port at which an instrument that has a guard is reached, as long as the session holds."""
        self._may_sleep()
        return self.lab._run(self._address(instrument))

    async def address_async(self, instrument: str) -> tuple[str, int]:
        return await self.lab._run_async(self._address(instrument))

    def _may_sleep(self) -> None:
        may_sleep(self, self._called)

    @property
    def _called(self) -> str:
        return f"session {self.number} of {self.station}" if self.number else "a session"

    @property
    def ticket(self) -> str:
        return str(self._wish.ticket)

    def note(self, text: object) -> None:
        """Writes a line to the records, as a reading."""
        self._may_sleep()
        self.lab._run(self._notes(str(text)))

    async def note_async(self, text: object) -> None:
        await self.lab._run_async(self._notes(str(text)))

    def release(self, failed: Optional[str] = None) -> None:
        """Lets the instruments go; `failed` says what went wrong with the work. TakenAway if the session was ended before."""
        self._may_sleep()
        self.lab._run(self._let_go(failed), goes_on=True)

    async def release_async(self, failed: Optional[str] = None) -> None:
        await self.lab._run_async(self._let_go(failed), goes_on=True)

    def __enter__(self) -> Held:
        self.acquire()
        return self

    def __exit__(self, kind: Optional[type[BaseException]], fault: Optional[BaseException], at: Optional[TracebackType]) -> None:
        try:
            if self.state == "held" or self._taken is not None:
                self.release(_failure(kind, fault))
        except labrun.LabrunError:
            # (what the body raised is told first)
            if kind is None:
                raise

    async def __aenter__(self) -> Held:
        await self.acquire_async()
        return self

    async def __aexit__(self, kind: Optional[type[BaseException]], fault: Optional[BaseException], at: Optional[TracebackType]) -> None:
        try:
            if self.state == "held" or self._taken is not None:
                await self.release_async(_failure(kind, fault))
        except labrun.LabrunError:
            if kind is None:
                raise

    # what follows runs on the lab's loop

    async def _acquire(self) -> None:
        self.lab._may_go_on()
        if self.state != "new":
            raise Entered(f"{self._called} is {self.state}: it is entered once")
        coming = Coming(self, bool(self._ticket))
        self._tells = coming.tells(self._waits)
        self._wish.ticket, self._ticket = self._ticket or secrets.token_urlsafe(), ""
        self.state = "waiting"
        try:
            self._holds(*await coming.holds())
        except BaseException:
            self.state = "withdrawn"
            raise
        finally:
            if self._tells is not None:
                self._tells.end()
        # (it may have been taken away, or the stream have ended, just now)
        self._raises_taken()
        self.state = "held"
        self.lab._held.add(self)
        if self._lease is not None:
            self._beats = asyncio.create_task(self._stays_sure(self._lease))
        if self._stream is not None and self._stream.is_lost:
            self._is_cut()

    def _holds(self, stream: Stream, told: Any, sent: float) -> None:
        """The broker said so in answer to what was sent then."""
        self._stream = stream
        self._lease = told.lease if told.HasField("lease") else None
        self._until = math.inf if self._lease is None else sent + self._lease
        if self.state != "held":
            # (one that comes back has them in the order that its program knows)
            self.instruments = tuple(told.instruments)
        self.station, self.number, self.token = told.station, told.session, told.token
        self.guards = dict(told.guards)
        self.limit = told.limit if told.HasField("limit") else None

    async def _address(self, instrument: str) -> tuple[str, int]:
        self._raises_taken()
        if self.state != "held":
            raise NotHeld(f"the session is {self.state}: it doesn't hold its instruments")
        if instrument not in self.instruments:
            raise BadWish(f"this session doesn't hold {instrument}: it holds {', '.join(self.instruments)}")
        if self._ways is None:
            self._ways = Ways(self.guards, self.ticket, self.lab._certificate)
        at = await self._ways.address(instrument)
        # (it may be over by now)
        self._may_ask()
        return at

    def _waits_for(self, text: str, lacks: Optional[list[str]] = None) -> None:
        if self.on_lacking is not None and lacks is not None:
            self.on_lacking(lacks)
        if self._tells is not None:
            self._tells(text)

    def _hears(self) -> None:
        """A word came of the broker in whose line it waits."""
        if self.state == "waiting" and self._silence is not None:
            self._silence.hears()

    @property
    def is_let_go(self) -> bool:
        """Whether it is over for its owner, and the broker may take its time to say so."""
        return self._questions.let_go

    def _is_sure(self, sent: float) -> None:
        """The broker answered what was sent then, and it holds; or it is let go, and the broker is there."""
        if self._lease is not None:
            self._until = max(self._until, sent + self._lease)

    async def _stays_sure(self, lease: float) -> None:
        """Says again and again that the client is there. If the broker doesn't answer the session is over in time, whatever the connection does."""
        ping: Optional[asyncio.Task[None]] = None
        while self.state == "held" and (left := self._until - clock()) > 0:
            # (also while an answer is awaited: a disk may take its time)
            if self._stream is not None and self._returns is None and (ping is None or ping.done()):
                ping = asyncio.create_task(self._stream.pings())
            await asyncio.sleep(min(left, lease / BEATS))
        self._looks_at_the_time()

    def _looks_at_the_time(self) -> None:
        if self.state != "held" or clock() < self._until:
            return
        what = f"so the session is over, and others may hold these by now: {', '.join(self.instruments)}"
        fault = TakenAway(f"{self.station}: nothing was heard from the broker for more than {self._lease or 0:g} s, {what}")
        stream, returns = self._stream, self._returns
        if returns is None and stream is not None:
            self._is_taken(stream, fault)
            return
        if returns is not None:
            returns.cancel()
        self._is_over("taken", fault)

    def _is_taken(self, stream: Stream, fault: Exception) -> None:
        if self._questions.are_awaited:
            stream.ends(fault)
        stream.cancel()
        self._is_over("taken", fault)

    def _is_cut(self) -> None:
        """The stream ended. A session that is held comes back on another one, while its owner works."""
        if self.state == "held" and self._returns is None and not self.lab._has_left:
            self._returns = asyncio.create_task(self._comes_back(asyncio.get_running_loop()))

    async def _resumes(self, waits: bool) -> None:
        """It held before, by another client. With `waits` it does so here, too, when this returns."""
        self.state = "held"
        self.lab._held.add(self)
        self._is_cut()
        if waits and (returns := self._returns) is not None:
            await asyncio.wait({returns}, timeout=GRACE)
            self._raises_taken()
            if not returns.done():
                raise Unreachable(f"the broker at {self.lab.address} doesn't answer any more")
            if self._lease is not None:
                self._beats = asyncio.create_task(self._stays_sure(self._lease))

    async def _comes_back(self, loop: asyncio.AbstractEventLoop) -> None:
        """The session goes on to hold, on another stream, or is over. It is tried while the broker keeps the session, or for so long as an
        owner waits who asked for something."""
        wish = pb.Wish(ticket=self._wish.ticket, by=self._wish.by, comes_back=True, pings=True, wants_warning=self._wish.wants_warning)
        while True:
            await self.lab._brokers.looks()
            stream, sent = Stream(self.lab), clock()
            stream.session = self
            try:
                kind, told = await stream.asks(wish=wish)
                if self.state != "held":  # it was taken away just now
                    stream.cancel()
                    return
                if kind == "held" and not stream.is_lost:
                    self._returns = None
                    return self._holds(stream, told, sent)
                if kind == "fault":
                    stream.is_idle()
                    was_done = told.kind == "LetGo" and self._questions.let_go
                    return self._is_over("finished" if was_done else "taken", None if was_done else raised(told))
            except Lost as lost:
                # (where too many clients are, there may be room later)
                if lost.code not in (*AGAIN, grpc.StatusCode.RESOURCE_EXHAUSTED) or self._questions.are_late:
                    return self._is_over("lost", self.lab._why_lost(lost.code, str(lost)))
            except asyncio.CancelledError:
                stream.cancel()
                raise
            stream.cancel()
            await asyncio.sleep(PAUSE)

    def _is_over(self, state: str, fault: Optional[Exception]) -> None:
        self.state, self._taken, self._stream, self._returns = state, fault, None, None
        self.lab._held.discard(self)
        if self._ways is not None:
            self._ways.close()
            self._ways = None
        if self._beats is not None and self._beats is not asyncio.current_task():
            self._beats.cancel()
        if fault is not None and not self._questions.are_awaited and self.on_taken is not None:
            calls_aside(self.on_taken, fault)

    def _is_late(self, since: float) -> bool:
        """Whether whoever asked then has waited for too long."""
        return asyncio.get_running_loop().time() > since + GRACE

    def _may_ask(self) -> None:
        self._looks_at_the_time()
        self._raises_taken()
        if self.state != "held":
            self.lab._may_go_on()
            raise NotHeld(f"the session is {self.state}: it doesn't hold its instruments")

    async def _notes(self, text: str) -> None:
        whole(text)
        self._noted += 1
        await self._questions.ask(note=pb.Note(text=text, number=self._noted))

    def _raises_taken(self) -> None:
        """The owner is told once, if the session was ended before."""
        if self._taken is not None:
            fault, self._taken = self._taken, None
            raise fault

    async def _let_go(self, failed: Optional[str]) -> None:
        was_held = self.state == "held" or self._questions.was_let_go()
        if self._ways is not None:
            await self._ways.lets_go()
        try:
            # (what went wrong may be a text that can't be written)
            await self._questions.ask(let_go=pb.LetGo(failed=failed and failed[:MOST_FAILED].encode(errors="backslashreplace").decode()))
        except (NotHeld, labrun.Closed):
            # (somebody else may have let it go meanwhile, as the lab's end does)
            if not was_held or self.state != "finished":
                raise

    async def _withdraws(self) -> None:
        """It came to hold, and its owner waited no longer."""
        await self._let_go(None)


def _failure(kind: Optional[type[BaseException]], fault: Optional[BaseException]) -> Optional[str]:
    return None if kind is None else f"{kind.__name__}: {fault}"[:200]
