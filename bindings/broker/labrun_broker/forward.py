"""The client's side of a guard: a port of this machine's loopback for each guarded instrument that a session holds. Whoever connects there
is led, by the guard, to the instrument: the first line, with the ticket, is said here."""

from __future__ import annotations

import asyncio
import builtins
import contextlib
import ssl
from typing import Any, Callable, Iterator, Mapping, Optional

from .bay import is_here
from .relay import End, joins
from .texts import plain, why_none
from .ways import Way, variable_of, way_of

ANSWER = 20.0  # seconds: a guard asks for patience, and so may the instrument
LAST = 5.0  # for what was written before the session lets go
TURNS = 20  # of the loop, in which whoever has connected is taken


class Local(End):
    """A program's end."""

    def __init__(self, forward: Forward) -> None:
        super().__init__()
        self._forward = forward

    def connection_made(self, transport: Any) -> None:
        super().connection_made(transport)
        self._forward.begins(self)

    def comes(self, data: bytes) -> None:
        self._forward.sent += len(data)
        super().comes(data)


class Line(End):
    """The guard's end, which says a line first."""

    def __init__(self) -> None:
        super().__init__()
        self.has_line = asyncio.Event()

    def is_early(self) -> None:
        if b"\n" in self.early:
            self.has_line.set()
            self.transport.pause_reading()

    def eof_received(self) -> bool:
        if self.other is not None and self._is_cut_short():
            self.other.cut()
        # (what the guard hasn't answered by now it won't)
        self.has_line.set()
        return super().eof_received()

    def _is_cut_short(self) -> bool:
        """Of TLS: an end that the guard hasn't said, as that of one that died. (asyncio takes both for the same.)"""
        its = self.transport.get_extra_info("ssl_object")
        try:
            return its is not None and its.read(1) != b""
        except ssl.SSLZeroReturnError:
            return False
        except ssl.SSLError:
            return True

    def connection_lost(self, fault: Optional[Exception]) -> None:
        super().connection_lost(fault)
        self.has_line.set()


class Forward:
    """One instrument's port, for as long as the session holds. `says` is told why a program wasn't led on."""

    def __init__(self, way: Way, ticket: str, context: Optional[ssl.SSLContext], says: Callable[[str], None]) -> None:
        self.way, self.ticket, self.sent, self.why = way, ticket, 0, ""
        self._context, self._says = context, says
        # whether the guard ever answered
        self._was_there = False
        self._server: Optional[asyncio.Server] = None
        self._locals: set[Local] = set()
        self._tasks: set[asyncio.Task[None]] = set()

    async def opens(self) -> tuple[str, int]:
        self._server = await asyncio.get_running_loop().create_server(lambda: Local(self), "127.0.0.1", 0)
        host, port = self._server.sockets[0].getsockname()
        return host, port

    def begins(self, local: Local) -> None:
        self._locals.add(local)
        task = asyncio.get_running_loop().create_task(self._leads(local))
        self._tasks.add(task)
        task.add_done_callback(self._tasks.discard)

    async def _leads(self, local: Local) -> None:
        there: Optional[Line] = None
        try:
            there = await self._through(f"labrun {self.ticket}")
            joins(local, there)
            await local.over.wait()
        except (OSError, builtins.TimeoutError) as fault:
            self.why = str(fault) or "the guard doesn't answer"
            self._says(plain(self.why))
            local.cut()
        except BaseException:
            local.cut()
            if there is not None:
                there.cut()
            raise
        finally:
            self._locals.discard(local)

    async def _through(self, line: str) -> Line:
        """A connection that the guard has let through. OSError says why not."""
        loop, at = asyncio.get_running_loop(), f"{self.way.host}:{self.way.port}"
        try:
            async with asyncio.timeout(ANSWER):
                _, there = await loop.create_connection(Line, self.way.host, self.way.port, ssl=self._context)
                there.writes(f"{line}\n".encode())
                try:
                    await there.has_line.wait()
                except asyncio.CancelledError:
                    # (the guard may let it through later, for nobody)
                    there.cut()
                    raise
        except ssl.SSLCertVerificationError as fault:
            raise OSError(f"the guard at {at} has no certificate that is known here: {fault.verify_message}") from None
        except ConnectionResetError:
            raise OSError(f"the guard at {at} doesn't let this through: {self._closed()}") from None
        except (OSError, builtins.TimeoutError) as fault:
            if getattr(fault, "reason", "") == "WRONG_VERSION_NUMBER":
                raise OSError(f"the guard at {at} has no TLS, and so wants `without-tls` in [guards]") from None
            raise OSError(f"the guard at {at} doesn't answer: {why_none(fault)}") from None
        said, is_whole, there.early = there.early.partition(b"\n")
        self._was_there = self._was_there or bool(is_whole)
        if not is_whole or said != b"ok":
            there.cut()
            why = said.decode(errors="replace").removeprefix("no: ") if is_whole else ""
            raise OSError(f"the guard at {at} doesn't let this through: {why or self._closed()}")
        return there

    def _closed(self) -> str:
        """That it ended the connection without an answer. One that has TLS does so if it is spoken to without."""
        wants = "no `without-tls` in [guards]" if self.way.without_tls else "another address in [guards] than a loopback one"
        return "it closed the connection" + ("" if self._context is not None or self._was_there else f" (a guard with TLS wants {wants})")

    async def lets_go(self) -> None:
        """No more is taken, and the instrument has what was written until now, if that doesn't take long."""
        # (a program that connects, writes and ends may have done all that before this loop has seen it)
        for _ in range(TURNS):
            await asyncio.sleep(0)
        if self._server is not None:
            self._server.close()
        with contextlib.suppress(OSError, builtins.TimeoutError):
            async with asyncio.timeout(LAST):
                while any(it.unread() or it.other is None for it in self._locals):
                    await asyncio.sleep(0.001)
                if self.sent:
                    (await self._through(f"labrun {self.ticket} ends {self.sent}")).cut()

    def close(self) -> None:
        if self._server is not None:
            self._server.close()
        for task in self._tasks:
            task.cancel()
        # (a task that hasn't begun cuts nothing)
        for local in self._locals:
            local.cut()


class Ways:
    """To all guarded instruments of a session, for as long as it holds. All is on one loop."""

    def __init__(self, guards: Mapping[str, str], ticket: str, certificate: Optional[bytes], says: Callable[[str], None] = lambda text: None) -> None:
        self.guards, self._ticket, self._certificate, self._says = guards, ticket, certificate, says
        self._forwards: dict[str, tuple[Forward, tuple[str, int]]] = {}
        self._is_closed = False

    async def address(self, instrument: str) -> tuple[str, int]:
        if instrument not in self.guards:
            # (what a `hold` does without)
            from .errors import BadWish

            raise BadWish(f"the bay's file names no guard for {instrument}")
        way = way_of(self.guards[instrument])
        if way.by_host:
            return way.host, way.port
        if instrument not in self._forwards:
            forward = Forward(way, self._ticket, self._context(way), self._says)
            at = await forward.opens()
            # (another may have asked meanwhile, or the session be over)
            if self._forwards.setdefault(instrument, (forward, at))[0] is not forward or self._is_closed:
                forward.close()
        return self._forwards[instrument][1]

    def _context(self, way: Way) -> Optional[ssl.SSLContext]:
        if way.without_tls or is_here(way.host):
            return None
        return ssl.create_default_context(cadata=None if self._certificate is None else self._certificate.decode("ascii"))

    async def lets_go(self) -> None:
        if self._forwards:
            await asyncio.gather(*(it.lets_go() for it, _ in self._forwards.values()))

    def close(self) -> None:
        self._is_closed = True
        for it, _ in self._forwards.values():
            it.close()
        self._forwards.clear()


@contextlib.contextmanager
def led(guards: Mapping[str, str], ticket: str, certificate: Optional[bytes], says: Callable[[str], None]) -> Iterator[tuple[dict[str, str], Callable[[], None]]]:
    """For a command: the variables with the addresses of what it holds, and what is to be called before its session lets go."""
    from .work import Work, loop_of_this_process

    ways, loop = Ways(guards, ticket, certificate, says), loop_of_this_process()

    async def variables() -> dict[str, str]:
        return {variable_of(name): "{}:{}".format(*await ways.address(name)) for name in guards}

    try:
        yield Work(variables(), loop).result(), lambda: Work(ways.lets_go(), loop).result()
    finally:
        loop.call_soon_threadsafe(ways.close)
