"""What is asked of the broker for a session that holds: its notes, and that it is let go."""

from __future__ import annotations

import asyncio
from typing import TYPE_CHECKING, Any, Callable

import grpc
import labrun

from .coming import PAUSE
from .errors import BadWish, raised
from .stream import Lost
from .work import clock

if TYPE_CHECKING:
    from .held import Held


class Question:
    """One of them, and since when it is asked."""

    def __init__(self, what: dict[str, Any], since: float) -> None:
        self.what, self.since = what, since
        # whether the broker may have read it, and hasn't answered; and whether nobody waits for the answer any more
        self.is_sent = self.is_given_up = False


class Questions:
    """Those of one session, one after the other. What was sent is answered, also if whoever asked waits for that no longer: so whoever lets go comes
    behind a note that is under way, and each answer is that of its own question."""

    def __init__(self, held: Held) -> None:
        self._held, self._turn = held, asyncio.Lock()
        self._now = set[Question]()
        # whether it was let go by the client from which this one has it
        self.was_let_go: Callable[[], bool] = lambda: False

    @property
    def are_awaited(self) -> bool:
        """Whether somebody waits for an answer."""
        return any(not it.is_given_up for it in self._now)

    @property
    def are_late(self) -> bool:
        """Whether somebody has waited for too long."""
        return any(not it.is_given_up and self._held._is_late(it.since) for it in self._now)

    @property
    def let_go(self) -> bool:
        """Whether the broker may have read that it is let go."""
        return self.was_let_go() or any("let_go" in it.what for it in self._now)

    async def ask(self, **what: Any) -> None:
        """Waits for the answer; if the stream ends meanwhile it is asked again on the next one."""
        await self._turn.acquire()
        try:
            self._held._may_ask()
        except BaseException:
            self._turn.release()
            raise
        it = Question(what, asyncio.get_running_loop().time())
        asked = asyncio.create_task(self._is_answered(it))
        asked.add_done_callback(self._next)
        self._now = {it}
        try:
            is_answered = await asyncio.shield(asked)
        except asyncio.CancelledError:
            it.is_given_up = True
            if not it.is_sent:
                asked.cancel()
            raise
        if not is_answered:
            self._held._raises_taken()

    def _next(self, asked: asyncio.Task[bool]) -> None:
        self._now = set()
        self._turn.release()
        if not asked.cancelled():
            asked.exception()

    async def _is_answered(self, it: Question) -> bool:
        """False: the session is over, or nobody waits for the answer, and the stream ended before it."""
        try:
            return await self._answer(it)
        finally:
            self._now = set()

    async def _answer(self, it: Question) -> bool:
        held, pause = self._held, PAUSE
        while held.state == "held":
            if (returns := held._returns) is not None:
                await asyncio.wait({returns})
                if held._returns is returns and not returns.cancelled():
                    returns.result()
                if held._returns is returns:
                    raise labrun.Closed("the lab is closed")
                continue
            stream, sent = held._stream, clock()
            assert stream is not None
            it.is_sent = True
            try:
                kind, told = await stream.asks(**it.what)
            except Lost as lost:
                it.is_sent = False
                self._may_go_on(it, lost)
                if it.is_given_up or held.state != "held":
                    return False
                # (it comes back meanwhile)
                await asyncio.sleep(pause)
                pause = min(2 * pause, 1.0)
                continue
            except labrun.LabrunError:
                # (the session was taken away: then its owner is told that)
                if held._taken is not None:
                    return False
                raise
            if kind == "fault":
                raise raised(told)
            if kind == "gone":
                stream.is_idle()
                held._is_over("finished", None)
            elif stream is held._stream:
                held._is_sure(sent)
            return True
        return False

    def _may_go_on(self, it: Question, lost: Lost) -> None:
        """Whether to ask again. (It may be lost because the session was taken away just now.)"""
        held = self._held
        if held._taken is not None:
            return
        held._is_cut()
        if held._returns is None:
            raise labrun.Closed("the lab is closed") from None
        if lost.code is grpc.StatusCode.RESOURCE_EXHAUSTED and "note" in it.what:
            raise BadWish(f"the broker doesn't take this note: {lost}") from None
        if held._is_late(it.since):
            raise held.lab._why_lost(lost.code, str(lost)) from None
