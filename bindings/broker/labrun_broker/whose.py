"""Whose a connection is, if its client says no ticket: by when it came, as the kernel has it, and since when the session holds. (A guard that was
stopped, or is busy, accepts it late, and is told of sessions late.)

A session's client connects once it is told that it holds. So what came before the session began is of another one, or of nobody."""

from __future__ import annotations

import asyncio
import builtins
import contextlib
import functools
import ipaddress
import itertools
import math
import socket
import struct
import time
from typing import TYPE_CHECKING, Any, Awaitable, Callable, NamedTuple, Optional

if TYPE_CHECKING:
    from .guard import Caller, Guard

ESTABLISHED, LAST_SENT, INFO = 1, 44, 104  # of Linux's tcp_info: a state, where a field is, and so many bytes
TIMESTAMPS, COARSE = 35, 6  # SO_TIMESTAMPNS and CLOCK_MONOTONIC_COARSE, which Python doesn't name
_MOMENT = struct.Struct("qq")
ROUNDING, DRIFT = 0.001, 2e-4  # seconds; and seconds a second between two machines' clocks
PAUSE = 0.03  # seconds between two questions: a broker takes so many a second
# seconds: in all; for the news of what an answer says; and how late a guard that runs may accept
ALL, NEWS, LATE = 10.0, 0.05, 1.0
# questions, until it is as sure as it gets; and seconds within which a session began, if that is known well, and best
TRIES, WELL, BEST = 10, 0.02, 0.005


class Refused(Exception):
    """The client isn't let through; the text says why."""


class Unknown(Refused):
    """It comes from the holder's machine, and isn't, or may not be, of this session."""


class Came(NamedTuple):
    """Between which two moments a connection was made, and when it was accepted, by `time.monotonic`."""

    first: float
    last: float
    accepted_at: float


def came(one: Any) -> Came:
    """Of a socket by which nothing was sent yet: the kernel counts from the handshake on, in ticks."""
    tick = max(0.001, time.clock_getres(COARSE))
    begun = time.clock_gettime(COARSE)
    try:
        age = struct.unpack_from("I", one.getsockopt(socket.IPPROTO_TCP, socket.TCP_INFO, INFO), LAST_SENT)[0] / 1000
    except (OSError, struct.error):
        now = time.monotonic()
        return Came(now, now, now)
    now = time.monotonic()
    rounding = ROUNDING if age else 0.0
    return Came(begun - age - rounding, min(now, now - age + tick + rounding), now)


def notes_moments(one: Any) -> None:
    """The kernel notes when bytes come by the connections that this socket accepts."""
    with contextlib.suppress(OSError):
        one.setsockopt(socket.SOL_SOCKET, TIMESTAMPS, 1)


def has_left(one: Any) -> bool:
    """Whether its client is gone, or has said all: these look the same."""
    try:
        return bool(one.getsockopt(socket.IPPROTO_TCP, socket.TCP_INFO, INFO)[0] != ESTABLISHED)
    except OSError:
        return True


def spoke(one: Any) -> Optional[float]:
    """When what it has said first came, if nobody has read that yet."""
    with contextlib.suppress(OSError), one.dup() as it:
        now, wall = time.monotonic(), time.time()
        _, its, _, _ = it.recvmsg(1, socket.CMSG_SPACE(_MOMENT.size), socket.MSG_PEEK | socket.MSG_DONTWAIT)
        for level, kind, data in its:
            if (level, kind) == (socket.SOL_SOCKET, TIMESTAMPS):
                seconds, nanoseconds = _MOMENT.unpack(data)
                return now - (wall - float(seconds + nanoseconds / 1e9))
    return None


class Answer(NamedTuple):
    """What the broker said to a question: of each instrument the token of the session that holds, and for how many seconds it has, if the broker
    says so. It was so at a moment between these two."""

    asked_at: float
    at: float
    holders: dict[str, tuple[int, Optional[float]]]


@functools.cache
def boot() -> str:
    """Which start of this machine it runs since; empty if that isn't known."""
    with contextlib.suppress(OSError), open("/proc/sys/kernel/random/boot_id", encoding="ascii") as file:
        return file.read().strip()
    return ""


class Began:
    """Between which two moments a session began: before the guard was told of it. Each answer may tell it better."""

    def __init__(self) -> None:
        self.first, self.last = -math.inf, time.monotonic()
        self._told_at = self.last

    def hears(self, answer: Answer, span: float) -> None:
        unsure = DRIFT * span if answer.asked_at < answer.at else 0.0
        # (for how long, a broker that began again knows by the wall clock)
        self.first = min(max(self.first, answer.asked_at - span - unsure), self._told_at)
        self.last = min(self.last, answer.at - span + unsure)


class Asked:
    """Questions to the broker, one after another. Who asks is answered by one that was put after that."""

    def __init__(self, puts: Callable[[], Awaitable[Optional[Answer]]]) -> None:
        self._puts = puts
        self._now: Optional[asyncio.Task[Optional[Answer]]] = None
        self._next: Optional[asyncio.Task[Optional[Answer]]] = None
        self._may_at = 0.0

    async def answer(self) -> Optional[Answer]:
        """None: the broker doesn't answer."""
        if self._next is None:
            self._next = asyncio.get_running_loop().create_task(self._asks(self._now))
        return await asyncio.shield(self._next)

    async def _asks(self, before: Optional[asyncio.Task[Optional[Answer]]]) -> Optional[Answer]:
        if before is not None:
            await asyncio.wait({before})
        await asyncio.sleep(self._may_at - time.monotonic())
        self._now, self._next, self._may_at = self._next, None, time.monotonic() + PAUSE
        return await self._puts()


async def nobody() -> Optional[Answer]:
    """There is no broker to ask."""
    return None


async def token_by_host(guard: Guard, caller: Caller) -> int:
    """That of the session that holds, if this client came since it began, and from its machine. Who holds now the broker alone knows."""
    caller.waits()
    try:
        async with asyncio.timeout(ALL):
            for tries in itertools.count(1):
                token = await guard._token_of(lambda it: guard._is_host_of(it, caller))
                answer = await guard._asks()
                if guard.holder is None or guard.holder.token != token:
                    continue
                its, span = (token, None) if answer is None else answer.holders.get(guard.way.instrument, (0, None))
                if its != token:
                    # (the news of it is on its way)
                    with contextlib.suppress(builtins.TimeoutError):
                        async with asyncio.timeout(NEWS):
                            await guard._changed.wait()
                    continue
                if answer is not None:
                    guard.is_sure = True
                    if span is not None:
                        guard._began.hears(answer, span)
                elif caller.at.accepted_at - caller.at.last > LATE:
                    guard.is_sure = False
                if is_of_this_session(guard, caller, answer is not None, is_last=span is None or tries >= TRIES):
                    return token
    except builtins.TimeoutError:
        pass
    finally:
        caller.goes_on()
    raise Refused(guard._why())


def is_of_this_session(guard: Guard, caller: Caller, is_answered: bool, is_last: bool) -> bool:
    """Whether it came since the session began. Unknown: it didn't, or may not have. False: that isn't sure yet."""
    began, held = guard._began, "" if guard.holder is None else f"the session of {guard.holder.who}"
    its = arrival(guard, caller)
    if not is_answered and (not guard.is_sure or caller.at.last < began.last):
        raise Unknown(f"{its} isn't let through, because the broker doesn't say whether {held} still holds, and began before it came")
    spoke_at, is_gone, within = spoke(caller.socket), has_left(caller.socket), began.last - began.first
    is_early = caller.at.last < began.first or spoke_at is not None and spoke_at < began.first
    if not is_early and (caller.at.first >= began.last or spoke_at is not None and spoke_at >= began.last):
        return True
    # (it came as the session began. A client of the session before came before that one let go, and is gone by now, as a rule)
    if is_early or is_gone and is_last and (spoke_at is None or within > BEST):
        raise Unknown(f"{its} came before {held} began, and isn't let through")
    return is_last or within < (BEST if is_gone else WELL) and not (is_gone and spoke_at is None)


def arrival(guard: Guard, caller: Caller) -> str:
    return f"{guard.way.instrument}: a connection from {plainly(str(caller.transport.get_extra_info('peername')[0]))}"


def plainly(host: str) -> str:
    """An address of IPv4 that is written as one of IPv6 is as it is."""
    with contextlib.suppress(ValueError):
        at = ipaddress.ip_address(host.partition("%")[0])
        return str(getattr(at, "ipv4_mapped", None) or at)
    return host
