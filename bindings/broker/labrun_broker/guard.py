"""A guard: a proxy before an instrument, which lets the connections of its holder through, and nobody else's.

The instrument is reached by the guard alone. A client says the ticket of its session in its first line, `labrun TICKET`, which `forward`
does for it, and is answered `ok`, or why not; from there on all goes through as it is. `by_host`: it says nothing, and is let through if it
comes from the holder's machine.

The connections of a session are cut the moment that it ends, and those of the next are opened only once these are closed. Who is told of
a session before the guard is waits. So a guard that is told late, or not at all, costs time, and never has two sessions at an
instrument."""

from __future__ import annotations

import asyncio
import builtins
import contextlib
import hashlib
import hmac
import ipaddress
import socket
from typing import Any, Awaitable, Callable, NamedTuple, Optional

from .relay import End, joins, resets
from .texts import plain, why_none
from .whose import Answer, Began, Came, Refused, Unknown, arrival, came, nobody, plainly, token_by_host

FIRST_LINE, PATIENCE, CONNECTING = 5.0, 5.0, 5.0  # seconds
CLOSING, AGAIN = 0.5, 0.001
MOST_LINE = 256
MOST_CALLERS, MOST_WAITING = 1000, 64
HERE = "here"


class Holder(NamedTuple):
    """Who holds an instrument. `host`: where its client comes from; None if that is gone."""

    token: int
    ticket_hash: str
    who: str
    host: Optional[str] = None


class Way(NamedTuple):
    """How an instrument is guarded: where it is, who is let through, the seconds between two sessions, and the line that comes first."""

    instrument: str
    host: str
    port: int
    by_host: bool = False
    settle: float = 0.0
    clear: str = ""


class Through:
    """A client's connection, and the instrument's for it."""

    def __init__(self, token: int, caller: Caller) -> None:
        self.token, self.caller = token, caller
        self.there = End(resets=True)
        self.connecting: Optional[asyncio.Future[socket.socket]] = None
        self.is_cut = False
        # nothing of it reaches the instrument any more
        self.over = asyncio.Event()

    def cut(self) -> None:
        self.is_cut = True
        if self.connecting is not None:
            self.connecting.cancel()
        self.there.cut()
        self.caller.cut()


class Guard:
    """The guard of one instrument. All is on one loop. `where` gives the addresses of the broker's machine; `asks` puts a question to the
    broker; `says` is told who wasn't let through by its machine, and why."""

    def __init__(
        self, way: Way, where: Callable[[], frozenset[str]] = frozenset, asks: Callable[[], Awaitable[Optional[Answer]]] = nobody, says: Callable[[str], None] = lambda text: None
    ) -> None:
        self.way = way
        self._asks, self._says = asks, says
        self.holder: Optional[Holder] = None
        self.newest = 0
        # whether the broker is there, and ever was: for people
        self.is_told = self.was_told = False
        # whether it has heard of the broker since it stood still
        self.is_sure = True
        self._began = Began()
        self.opened = self.cuts = self.refusals = self.sent = self.received = 0
        self.through: set[Through] = set()
        self._where = where
        self._changed = asyncio.Event()
        self._gate = asyncio.Lock()
        self.callers = self._waiting = 0
        # the last session that was let through, and when its last connection was closed; and which one's connection began with the line to clear
        self._last, self._closed_at = -1, asyncio.get_running_loop().time()
        self._cleared = 0
        # the bytes that have come of the clients of the one that holds
        self._came = 0

    # ---- what the broker says

    def told(self, holder: Optional[Holder]) -> None:
        """Who holds now. What is older than what was told before is of a broker that isn't asked any more."""
        if holder is not None and holder.token < self.newest:
            return
        if holder is not None and self.holder is not None and holder.token == self.holder.token and holder.host is None:
            # (its client is gone, and may come back from there)
            holder = holder._replace(host=self.holder.host)
        self.was_told, token = True, 0 if holder is None else holder.token
        if self.holder is None or token != self.holder.token:
            self._came, self._began = 0, Began()
        self.newest, self.holder = max(self.newest, token), holder
        for one in self.through:
            if one.token != token and not one.is_cut:
                self.cuts += 1
                one.cut()
        changed, self._changed = self._changed, asyncio.Event()
        changed.set()

    # ---- a client

    async def serves(self, caller: Caller) -> None:
        try:
            if self.callers > MOST_CALLERS:
                raise Refused(f"{self.callers} clients are here")
            sent, token = await self._lets_in(caller)
            if sent is None:
                await self._passes(Through(token, caller))
            else:
                await self._ends(token, sent)
                caller.writes(b"ok\n")
        except Refused as why:
            self.refusals += 1
            if self.way.by_host:
                # (such a client can't be told, so the guard's log has it)
                self._says(str(why) if isinstance(why, Unknown) else f"{arrival(self, caller)} isn't let through, because {why}")
                caller.cut()
            elif not caller.over.is_set():
                caller.writes(f"no: {plain(why)}\n".encode())
        finally:
            # (what the instrument, or the guard, has said last may be on its way)
            caller.closes()
            asyncio.get_running_loop().call_later(PATIENCE, caller.cut)

    async def _lets_in(self, caller: Caller) -> tuple[Optional[int], int]:
        """The token of the session that this client is of. Of one that only says how many bytes its session has sent before it ends, that number,
        too."""
        if self.way.by_host:
            return None, await token_by_host(self, caller)
        word, ticket, *more = (await self._line_of(caller)).split(" ") + ["", ""]
        if word != "labrun" or not ticket or more[:1] not in ([""], ["ends"]) or more[0] and not more[1].isdigit():
            raise Refused("the first line isn't `labrun TICKET`")
        digits = hashlib.sha256(ticket.encode()).hexdigest()[:32]
        if more[0]:
            is_its = self.holder is not None and hmac.compare_digest(self.holder.ticket_hash, digits)
            if not is_its or self.holder is None:
                raise Refused("the session is over")
            return int(more[1][:18]), self.holder.token
        return None, await self._token_of(lambda it: hmac.compare_digest(it.ticket_hash, digits))

    async def _line_of(self, caller: Caller) -> str:
        try:
            async with asyncio.timeout(FIRST_LINE):
                await caller.has_line.wait()
        except builtins.TimeoutError:
            raise Refused(f"no line within {FIRST_LINE:g} s") from None
        line, ends, caller.early = caller.early.partition(b"\n")
        caller.came = len(caller.early)
        if not ends or not line.isascii():
            raise Refused("the first line isn't `labrun TICKET`")
        return line.decode().rstrip("\r")

    async def _token_of(self, is_its: Callable[[Holder], bool]) -> int:
        """That of the session that holds, if the client is of it. (The client may have been told before the guard.)"""
        if self.holder is not None and is_its(self.holder):
            return self.holder.token
        if self._waiting >= MOST_WAITING:
            raise Refused(f"{self._why()}, and {self._waiting} clients wait already")
        self._waiting += 1
        try:
            async with asyncio.timeout(PATIENCE):
                while self.holder is None or not is_its(self.holder):
                    await self._changed.wait()
                return self.holder.token
        except builtins.TimeoutError:
            raise Refused(self._why()) from None
        finally:
            self._waiting -= 1

    def _why(self) -> str:
        name = self.way.instrument
        who = "nobody" if self.holder is None else self.holder.who
        if self.is_told:
            return f"{name} is held by {who}"
        before = f"when it last was, {name} was held by {who}" if self.was_told else "hasn't been since this guard began"
        return f"the broker can't be reached, and {before}"

    def _is_host_of(self, holder: Holder, caller: Caller) -> bool:
        peer, here = (plainly(str(caller.transport.get_extra_info(it)[0])) for it in ("peername", "sockname"))
        if holder.host == HERE or holder.host is not None and ipaddress.ip_address(plainly(holder.host)).is_loopback:
            # (who comes from the broker's machine; if that is this one, he comes from it to itself)
            where = self._where()
            return peer in where or not where and (peer == here or ipaddress.ip_address(peer).is_loopback)
        return holder.host is not None and peer == plainly(holder.host)

    # ---- the instrument

    async def _passes(self, one: Through) -> None:
        async with self._gate:
            self._check(one.token)
            await self._is_left_by_others(one.token)
            self._check(one.token)
            self._last = one.token
            self.through.add(one)
            one.caller.left = one.cut
        try:
            await self._opens(one)
            if not one.is_cut:
                self._joins(one)
        finally:
            if one.there.transport is not None:
                if one.is_cut:
                    one.there.cut()
                await one.there.over.wait()
            self.sent, self.received = self.sent + one.caller.came, self.received + one.there.came
            self.through.discard(one)
            self._closed_at = asyncio.get_running_loop().time()
            one.over.set()

    def _check(self, token: int) -> None:
        if self.holder is None or self.holder.token != token:
            raise Refused(self._why())

    async def _is_left_by_others(self, token: int) -> None:
        """Returns once no connection of another session is open, and hasn't been for as long as the instrument needs."""
        for other in [it for it in self.through if it.token != token]:
            await other.over.wait()
        if self._last != token and self.way.settle:
            await asyncio.sleep(self._closed_at + self.way.settle - asyncio.get_running_loop().time())

    async def _opens(self, one: Through) -> None:
        loop = asyncio.get_running_loop()
        one.connecting = loop.create_task(connected(self.way.host, self.way.port))
        try:
            made = await one.connecting
        except asyncio.CancelledError:
            if not one.is_cut:
                raise
            return
        except (OSError, builtins.TimeoutError) as fault:
            raise Refused(f"{self.way.instrument} doesn't answer: {why_none(fault)}") from None
        # (what follows takes no time, and so isn't ended midway)
        one.connecting = None
        try:
            await loop.create_connection(lambda: one.there, sock=made)
        except OSError as fault:
            made.close()
            raise Refused(f"{self.way.instrument} doesn't answer: {why_none(fault)}") from None
        if one.is_cut:
            one.there.cut()

    def _joins(self, one: Through) -> None:
        self.opened += 1
        one.caller.left = lambda: None
        self.came(len(one.caller.early))
        if self.way.clear and self._cleared != one.token:
            self._cleared = one.token
            one.there.writes(self.way.clear.encode() + b"\n")
        if not self.way.by_host:
            one.caller.writes(b"ok\n")
        joins(one.caller, one.there)

    async def _ends(self, token: int, sent: int) -> None:
        """The session that holds is about to let go: so many bytes are all that its clients have said. Returns once the instrument's machine has
        them, but for those that another guard had before this one was started: while no connection is open, no more come. The instrument is told
        that no more come, and mostly closes its side; so it needs no reset, which might drop what it hasn't read."""
        with contextlib.suppress(builtins.TimeoutError):
            async with asyncio.timeout(PATIENCE):
                while self._came < sent and self._is_through(token):
                    await asyncio.sleep(AGAIN)
                its = [it for it in self.through if it.token == token and it.there.transport is not None]
                for it in its:
                    it.caller.says_no_more()
                while any(it.there.unsent() for it in its):
                    await asyncio.sleep(AGAIN)
                async with asyncio.timeout(CLOSING):
                    for it in its:
                        await it.over.wait()

    def _is_through(self, token: int) -> bool:
        """Whether that session still holds, and a connection of it is open."""
        return self.holder is not None and self.holder.token == token and any(it.token == token for it in self.through)

    def came(self, count: int) -> None:
        self._came += count


class Caller(End):
    """A client's end, which is let through or not."""

    def __init__(self, guard: Guard) -> None:
        super().__init__()
        self._guard = guard
        self.has_line = asyncio.Event()
        self.at = Came(0.0, 0.0, 0.0)
        # what becomes of its work if the client leaves before it is joined with the instrument
        self.left: Callable[[], object] = lambda: None

    def connection_made(self, transport: Any) -> None:
        super().connection_made(transport)
        self._guard.callers += 1
        self.socket = transport.get_extra_info("socket")
        if self._guard.way.by_host:
            self.at = came(self.socket)
        self.left = asyncio.get_running_loop().create_task(self._guard.serves(self)).cancel

    def waits(self) -> None:
        """Nothing of it is read."""
        self.transport.pause_reading()

    def goes_on(self) -> None:
        self.transport.resume_reading()

    def says_no_more(self) -> None:
        self.transport.pause_reading()
        self.is_through = True
        if self.other is not None:
            self.other.gets_no_more()

    def connection_lost(self, fault: Optional[Exception]) -> None:
        super().connection_lost(fault)
        self._guard.callers -= 1
        self.left()

    def comes(self, data: bytes) -> None:
        if self.other is not None:
            self._guard.came(len(data))
        super().comes(data)

    def is_early(self) -> None:
        if b"\n" in self.early or len(self.early) > MOST_LINE:
            self.has_line.set()
            self.transport.pause_reading()


async def connected(host: str, port: int) -> socket.socket:
    """A connection to an instrument that is reset however it ends."""
    loop = asyncio.get_running_loop()
    async with asyncio.timeout(CONNECTING):
        family, kind, _, _, at = (await loop.getaddrinfo(host, port, type=socket.SOCK_STREAM))[0]
        made = socket.socket(family, kind)
        try:
            made.setblocking(False)
            resets(made)
            made.setsockopt(socket.IPPROTO_TCP, socket.TCP_NODELAY, 1)
            await loop.sock_connect(made, at)
        except BaseException:
            made.close()
            raise
    return made
