"""A client's stream to the broker."""

from __future__ import annotations

import asyncio
import contextlib
from typing import TYPE_CHECKING, Any, Iterator, Optional, Union

import grpc

from . import broker_pb2 as pb
from .errors import BadWish, TakenAway, raised
from .work import clock

if TYPE_CHECKING:
    from .client import Lab
    from .held import Held

LATE = 1.0  # seconds without a word once a time limit is over: then the broker is asked whether it is there, and has as many to say so
# the bytes of a message that a broker takes
MOST_BYTES = 1 << 16


class Lost(Exception):
    """The stream ended; `why` is the answer of gRPC."""

    def __init__(self, code: Any, why: str) -> None:
        super().__init__(why)
        self.code = code


class Silent(Exception):
    """A time limit is over, and the broker says nothing."""


NOBODY = grpc.StatusCode.UNAUTHENTICATED  # whoever isn't let in
# a broker that begins again, or a network that comes back, is worth another try
AGAIN = (grpc.StatusCode.UNAVAILABLE, grpc.StatusCode.CANCELLED, grpc.StatusCode.UNKNOWN, grpc.StatusCode.INTERNAL, None)


class Stream:
    """One stream to the broker. It serves one session after another, and reads for it what the broker says."""

    def __init__(self, lab: Lab) -> None:
        self._lab, self._call = lab, lab._methods["Hold"](metadata=lab._metadata)
        self.session: Optional[Held] = None
        # whether there is a wish that the broker may have read
        self.has_asked = False
        # how many came
        self._words = 0
        self._lost: Optional[Lost] = None
        self._answers: asyncio.Queue[Union[tuple[str, Any], Exception]] = asyncio.Queue()
        # (asyncio itself keeps no task)
        self._writes_now = set[asyncio.Task[None]]()
        self._writing, self._asked_at = asyncio.Lock(), -1.0
        self._reader = asyncio.create_task(self._reads())

    @property
    def is_lost(self) -> bool:
        return self._lost is not None

    async def opens(self) -> None:
        """Returns once the broker has let the client in."""
        try:
            await self._call.wait_for_connection()
        except grpc.RpcError:
            await self._reader
            await self._answer()

    async def asks(self, **what: Any) -> tuple[str, Any]:
        """What the broker answers. Lost: the stream ended."""
        ask = pb.Ask(**what)
        if (size := ask.ByteSize()) > MOST_BYTES:
            # (the broker would end the stream)
            raise BadWish(f"a {ask.WhichOneof('ask')} of {size} bytes; {MOST_BYTES} are the most")
        self.has_asked = self.has_asked or "wish" in what
        # (what came before this was asked answers nothing of it)
        while not self._answers.empty():
            self._answers.get_nowait()
        await self._writes(ask)
        return await self._answer()

    async def asks_until(self, moment: Optional[float], **what: Any) -> tuple[str, Any]:
        """The same, but Silent soon after that moment, unless the broker says that it is there."""
        if moment is None:
            return await self.asks(**what)
        span = max(0.0, moment - asyncio.get_running_loop().time()) + LATE
        asked = asyncio.create_task(self.asks(**what))
        asked.add_done_callback(lambda it: it.cancelled() or it.exception())
        try:
            while not (await asyncio.wait({asked}, timeout=span))[0]:
                words, question, span = self._words, asyncio.create_task(self.pings()), LATE
                await asyncio.wait({asked, question}, timeout=LATE)
                if not asked.done() and self._words == words:
                    raise Silent
            return asked.result()
        finally:
            asked.cancel()

    async def _writes(self, ask: Any) -> None:
        # (gRPC ends the whole call with a write that is cancelled; and the broker, which may have read it, would keep what nobody holds)
        task = asyncio.create_task(self._write(ask))
        self._writes_now.add(task)
        task.add_done_callback(self._writes_now.discard)
        await asyncio.wait({task})
        # (it is cancelled, perhaps before it began, with a call that was cancelled here, or is lost: then whoever asks is told by who reads)
        if not task.cancelled():
            task.result()

    async def _write(self, ask: Any) -> None:
        # (whoever reads sees what goes wrong with the call, too)
        with contextlib.suppress(grpc.RpcError, asyncio.InvalidStateError):
            async with self._writing:
                await self._call.write(ask)

    async def pings(self) -> None:
        """Says that the client is there; the session is told of the answer."""
        await self._writes(pb.Ask(ping=pb.Ping(at=clock())))

    async def is_answered(self) -> None:
        """Returns once the broker says that it is there."""
        self._asked_at = clock()
        await self.asks(ping=pb.Ping(at=self._asked_at))

    async def keeps(self, moment: Optional[float]) -> float:
        """Asks whether the broker still keeps the session, and waits for the answer; when that was asked. Silent: as above."""
        at = self._asked_at = clock()
        kind, told = await self.asks_until(moment, ping=pb.Ping(at=at))
        if kind != "pong" or not told.holds:
            raise TakenAway("the session was taken away just as it came to hold")
        return at

    async def _answer(self) -> tuple[str, Any]:
        if self._lost is not None:
            raise self._lost
        answer = await self._answers.get()
        if isinstance(answer, Exception):
            raise answer
        return answer

    def is_idle(self) -> None:
        self.session, self.has_asked = None, False
        self._lab._idle.append(self)

    def cancel(self) -> None:
        self.session = None
        self._call.cancel()

    async def _reads(self) -> None:
        try:
            while (told := await self._call.read()) is not grpc.aio.EOF:
                self._words += 1
                kind = told.WhichOneof("told")
                self._is_told(kind, getattr(told, kind))
        except (grpc.RpcError, asyncio.CancelledError):  # (the latter if the call was cancelled here)
            pass
        self._call.cancel()
        self._lost = Lost(await self._call.code(), str(await self._call.details()))
        # (of a connection that was cut gRPC may never end them)
        for task in set(self._writes_now):
            task.cancel()
        self.ends(self._lost)
        if self in self._lab._idle:
            self._lab._idle.remove(self)
        if self.session is not None:
            self.session._is_cut()

    def _is_told(self, kind: str, told: Any) -> None:
        if kind == "taken" and self.session is not None:
            self.session._is_taken(self, raised(told))
        elif kind == "waits" and self.session is not None:
            with self._telling():
                self.session._hears()
                self.session._waits_for(told.text, [it.instrument for it in told.waits_for])
        elif kind == "warning":
            self._is_warned(told.text)
        elif kind == "pong" and told.at != self._asked_at:
            if self.session is not None and (told.holds or self.session.is_let_go):
                self.session._is_sure(told.at)
            elif self.session is not None:
                with self._telling():
                    self.session._hears()
        else:
            self._answers.put_nowait((kind, told))

    @contextlib.contextmanager
    def _telling(self) -> Iterator[None]:
        """Whoever waits is told something: if that goes wrong, so does the wait."""
        try:
            yield
        except Exception as fault:
            self.ends(fault)

    def _is_warned(self, text: str) -> None:
        tells = None if self.session is None else self.session.on_warning
        if tells is not None:
            # (what it does is its own business)
            asyncio.get_running_loop().run_in_executor(None, tells, text)

    def ends(self, fault: Exception) -> None:
        """Whoever asks gets this fault."""
        self._answers.put_nowait(fault)
