"""A small web server beside the broker, in its process: on the loopback or a Unix socket, and so limited that it can't take the broker down."""

from __future__ import annotations

import asyncio
import contextlib
import logging
import os
import re
import ssl
from typing import Any, AsyncIterator, Awaitable, Callable, Coroutine, Optional, Union

from .bay import BadAddress, is_here
from .sockets import bound, listens, parsed


class Lacking(BadAddress, ImportError):
    """A package isn't there that the page or the numbers need, and the broker alone doesn't."""


try:
    from aiohttp import web as web
    from aiohttp.http_exceptions import HttpProcessingError
except ImportError:
    raise Lacking("HTTP, the page and the numbers need aiohttp (Debian: python3-aiohttp)") from None

# garbage on the port is no fault of ours
LOG = logging.getLogger("labrun_broker.page")
LOG.addFilter(lambda it: not (it.exc_info and isinstance(it.exc_info[1], HttpProcessingError)))
SLOW = 20.0  # a browser that takes nothing for so long, or asks nothing, is let go
MOST_CONNECTIONS = 64
HEADERS = {"X-Content-Type-Options": "nosniff", "Referrer-Policy": "no-referrer", "Cache-Control": "no-store", "Cross-Origin-Resource-Policy": "same-origin"}


def address_of(text: str) -> Union[str, tuple[str, int]]:
    """The path of a socket, or a loopback's address and port. Others are refused: the page has no password."""
    at = parsed(text)
    if isinstance(at, str):
        return at
    host, port = at[0] or "127.0.0.1", at[1]
    if not is_here(host):
        raise BadAddress(f"{text}: the page has no password, so it is shown on the loopback or a Unix socket only; put a web server with TLS in front of it")
    return host, port


IS_TCP, SILENT = "is tcp", "silent"


@web.middleware
async def only_from_here(request: web.Request, handler: Callable[[web.Request], Awaitable[web.StreamResponse]]) -> web.StreamResponse:
    """Refuses a page of elsewhere whose name was turned to this address."""
    if request.app[IS_TCP] and not is_asked_here(request):
        raise web.HTTPForbidden(text="this page is asked for by its own address only, as 127.0.0.1\n", headers=HEADERS)
    return await handler(request)


def is_asked_here(request: web.Request) -> bool:
    """Whether it is asked for by a name of this machine."""
    host = request.headers.get("Host", "")
    name = host.rpartition(":")[0] if re.search(r":\d*$", host) else host
    return is_here(name.strip("[]"))


@web.middleware
async def is_no_longer_silent(request: web.Request, handler: Callable[[web.Request], Awaitable[web.StreamResponse]]) -> web.StreamResponse:
    request.app[SILENT].discard(request.protocol)
    return await handler(request)


def runs_beside(app: web.Application, work: Callable[[], Coroutine[Any, Any, None]]) -> None:
    """Some work goes on as long as the server does."""

    async def beside(_: web.Application) -> AsyncIterator[None]:
        task = asyncio.ensure_future(work())
        yield
        task.cancel()
        await asyncio.gather(task, return_exceptions=True)

    app.cleanup_ctx.append(beside)


class Refusing(asyncio.Protocol):
    """One connection too many."""

    def connection_made(self, transport: asyncio.BaseTransport) -> None:
        transport.abort()  # type: ignore[attr-defined]


def limited(server: web.Server, silent: set[Any], more: Callable[[], int]) -> Callable[[], asyncio.BaseProtocol]:
    """Makes the end of a new connection: no more than so many, and none that stays without a word."""

    def let_go(handler: Any) -> None:
        if handler in silent:
            silent.discard(handler)
            if handler.transport is not None:
                handler.transport.abort()

    def new() -> asyncio.BaseProtocol:
        if len(server.connections) >= MOST_CONNECTIONS + more():
            return Refusing()
        handler = server()
        silent.add(handler)
        asyncio.get_running_loop().call_later(SLOW, let_go, handler)
        return handler

    return new


def file_at(path: str) -> Optional[tuple[int, int]]:
    """Which one is there."""
    try:
        it = os.lstat(path)
    except OSError:
        return None
    return it.st_dev, it.st_ino


Address = Union[str, tuple[str, int]]


class Served:
    """A server that runs, until `cleanup`."""

    def __init__(self, runner: web.AppRunner, listener: asyncio.AbstractServer, at: Address) -> None:
        self._runner, self._listener = runner, listener
        self._path = at if isinstance(at, str) else ""
        self._file = file_at(self._path)
        self.sockets = listener.sockets  # type: ignore[attr-defined]

    async def cleanup(self) -> None:
        # (not a socket that somebody else made there meanwhile)
        if self._file is not None and file_at(self._path) == self._file:
            with contextlib.suppress(OSError):
                os.unlink(self._path)
        self._listener.close()
        await self._runner.shutdown()
        if self._runner.server is not None:
            await self._runner.server.shutdown(1.0)
        await self._runner.cleanup()


async def serve(app: web.Application, address: str, group: Optional[str] = None) -> Served:
    """Serves at an address; a Unix socket is for the group, as the broker's own."""
    at = address_of(address)
    app.middlewares.append(only_from_here)
    return await served(app, at, group)


async def served(
    app: web.Application, at: Address, group: Optional[str], tls: Optional[ssl.SSLContext] = None, more: Callable[[], int] = lambda: 0
) -> Served:
    """As `serve`, wherever it is, to so many more connections, which may be others later."""
    app[IS_TCP], app[SILENT] = not isinstance(at, str), set()
    app.middlewares.insert(0, is_no_longer_silent)
    runner = web.AppRunner(app, access_log=None, logger=LOG)
    await runner.setup()
    assert runner.server is not None
    try:
        return Served(runner, await listener_at(at, group, limited(runner.server, app[SILENT], more), tls), at)
    except BaseException:
        await runner.cleanup()
        raise


async def listener_at(
    at: Address, group: Optional[str], new: Callable[[], asyncio.BaseProtocol], tls: Optional[ssl.SSLContext]
) -> asyncio.AbstractServer:
    if isinstance(at, str):
        return await asyncio.get_running_loop().create_unix_server(new, sock=bound(at, group))
    return await listens(at, new, tls, SLOW)
