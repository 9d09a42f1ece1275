"""How a session of a client comes to hold: it asks, and asks again where a stream has ended, within its time limit whatever the broker does."""

from __future__ import annotations

import asyncio
import math
from typing import TYPE_CHECKING, Any, Callable, Coroutine, Optional

from .calling import Calls
from .errors import AnswerLost, Unreachable, is_for_good, plainly, raised
from .silence import A_WHILE, TICK, Silence, first_while
from .stream import AGAIN, LATE, NOBODY, Lost, Silent, Stream
from .texts import SILENT, may_hold, none_answers
from .wire import FIRST
from .withdrawing import gives_up
from .work import clock

if TYPE_CHECKING:
    from .held import Held

# for how long a client tries to reach a broker again that it waits for
GRACE = 60.0
PAUSE = 0.1  # between such tries
MOMENT = 0.001  # what is left of a time limit that is over
# so many pings in the time for which a session is held after one
BEATS = 6


class Coming:
    """A session that asks until it holds. `may_hold`: another client has asked for it, and was told nothing."""

    def __init__(self, held: Held, may_hold: bool = False) -> None:
        self._held, self._lab, self._loop = held, held.lab, asyncio.get_running_loop()
        self._until = None if held.timeout is None else self._loop.time() + held.timeout
        # until when a new client tries one that is there, and says nothing
        self._first_until = self._loop.time() + FIRST
        # since when the broker can't be reached
        self._lost_at: Optional[float] = None
        # whether a wish was lost that a broker may have written down: then whoever keeps its journal now has the session
        self._may_hold = may_hold
        self.silence: Optional[Silence] = None
        # on which it waits; and what went wrong as that was told
        self._stream: Optional[Stream] = None
        self._fault: Optional[Exception] = None
        self._is_leaving = False

    async def holds(self) -> tuple[Stream, Any, float]:
        """The stream on which it holds, what the broker said, and when that was asked."""
        ticks = None if self.silence is None else asyncio.create_task(self._ticks(self.silence))
        try:
            with self._lab._until_closed():
                return await self._goes_on()
        except Unreachable as fault:
            if not self._may_hold:
                raise
            raise AnswerLost(f"{fault}; {may_hold(self._lab.address, self._held._wish.station)}") from None
        finally:
            if ticks is not None:
                ticks.cancel()

    async def _goes_on(self) -> tuple[Stream, Any, float]:
        try:
            while (found := await self._tries()) is None:
                self._lost_at = self._lost_at or self._loop.time()
                if self._fault is not None:
                    await self._leaves(None)
                    raise self._fault
            return found
        except asyncio.CancelledError:
            await self._leaves(None)
            raise

    async def _leaves(self, stream: Optional[Stream]) -> None:
        """It waits no longer. The broker is told so on the stream on which it asked; if that is lost, whoever comes in its place, unless the lab's end
        keeps it from being found."""
        if self._is_leaving:
            return
        self._is_leaving = True
        if stream is not None and not stream.has_asked:
            stream.cancel()
            stream = None
        if stream is not None or self._may_hold and not self._lab._is_closed:
            await gives_up(self._lab, self._held.ticket, stream)

    def tells(self, waits: Optional[Callable[[str], None]]) -> Optional[Calls]:
        """By what whoever waits is told for whom, and of a broker that says nothing."""
        held, tells = self._held, None
        if waits is not None:
            tells = Calls(waits, self.fails)
            first = A_WHILE if self._lab._was_there else first_while(self._lab.address, held.timeout)
            held._silence = held._silence or Silence(self._lab.address, tells, first)
        self.silence = held._silence
        return tells

    def fails(self, fault: Exception) -> None:
        """Whoever waits was to be told something, and that went wrong: so does the wait."""
        self._fault = fault
        if self._stream is not None:
            self._stream.ends(fault)

    async def _ticks(self, silence: Silence) -> None:
        ping: Optional[asyncio.Task[None]] = None
        while self._fault is None:
            await asyncio.sleep(TICK)
            asks = silence.ticks()
            if asks and self._stream is not None and (ping is None or ping.done()):
                ping = asyncio.create_task(self._stream.pings())

    def _hears(self) -> None:
        """A word, before it is in the line."""
        if self.silence is not None:
            self.silence.hears(is_in_line=False)

    async def _tries(self) -> Optional[tuple[Stream, Any, float]]:
        """None: the stream ended, and it is worth another try."""
        lab, wish = self._lab, self._held._wish
        if is_new := not lab._idle:
            await self._in_time(lab._brokers.looks())
        stream = Stream(lab) if is_new else lab._idle.pop()
        stream.session = self._held
        try:
            if is_new:
                await self._in_time(stream.opens(), lab._was_there or lab._brokers.is_list)
                lab._was_there, self._lost_at = True, None
                self._hears()
            elif self._until is not None:
                # (one that is stopped isn't asked: should this program end meanwhile, the wish would be read, and not that it is withdrawn)
                await self._in_time(stream.is_answered())
                self._hears()
            if self._until is not None:
                # (0 says that it never wanted to wait)
                wish.timeout = max(MOMENT if self._held.timeout else 0.0, self._until - self._loop.time())
            sent, self._stream = clock(), stream
            if self._fault is not None:
                raise self._fault
            kind, told = await stream.asks_until(self._until, wish=wish)
            if kind == "held" and told.HasField("lease") and clock() > sent + told.lease / BEATS:
                # (the wish is old: what was told may be, too)
                sent = await stream.keeps(self._until)
        except Lost as lost:
            self._held._raises_taken()
            self._may_hold = self._may_hold or stream.has_asked and lost.code in AGAIN
            if self.silence is not None:
                self.silence.is_cut()
            # (one that was idle may be of a broker that is gone)
            if is_new:
                await self._pauses(lost)
            return None
        except Silent:
            await gives_up(lab, wish.ticket, stream, 0)
            withdrawn = "" if self._may_hold else ". Nothing is held: the wish is withdrawn, should it go on"
            raise Unreachable(f"{self._no_answer()}{withdrawn}") from None
        except Unreachable:
            stream.cancel()
            raise
        except (Exception, asyncio.CancelledError):
            # (also if what was to be told went wrong: the broker may have let it hold just now)
            await self._leaves(stream)
            raise
        finally:
            self._stream = None
        if kind == "fault":
            stream.is_idle()
            raise raised(told)
        return stream, told, sent

    async def _in_time(self, work: Coroutine[Any, Any, None], as_ever: bool = True) -> None:
        """Before anything is asked. Each such step has its own while, also if the time limit was over before it: so there is a try, however short
        that is and however busy the machine."""
        until = math.inf if self._until is None else max(self._until, self._loop.time()) + 2 * LATE
        until = until if as_ever else min(until, max(self._first_until, self._loop.time() + 2 * LATE))
        try:
            async with asyncio.timeout_at(None if until == math.inf else until):
                await work
        except TimeoutError:
            raise Unreachable(self._no_answer()) from None

    def _no_answer(self) -> str:
        return f"the broker at {self._lab.address} doesn't answer {SILENT}"

    async def _pauses(self, lost: Lost) -> None:
        """Before the next try, if it is worth one."""
        lab, now = self._lab, self._loop.time()
        patience = GRACE if lab._was_there else lab._brokers.patience
        if not patience and SILENT in plainly(lab.address, str(lost), False):
            patience = max(0.0, self._first_until - (self._lost_at or now))
        is_over = self._lost_at is not None and now > self._lost_at + patience or self._until is not None and now > self._until
        if lost.code not in AGAIN or is_for_good(str(lost)) or not patience or is_over:
            why = lab._why_lost(lost.code, str(lost))
            # (who closes each connection at once has heard nothing, and nor has the one that doesn't let this client in)
            self._may_hold = lost.code is not NOBODY and (self._may_hold or isinstance(why, AnswerLost) and lab._was_there)
            raise why from None
        if self._lost_at is None and lab._brokers.is_list:
            left = patience if self._until is None else min(patience, self._until - now)
            if self.silence is not None:
                self.silence.is_told()
            self._held._waits_for(none_answers(lab.address, left))
        await asyncio.sleep(PAUSE)
