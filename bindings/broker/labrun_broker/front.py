"""The broker's Unix socket where the bay names people: gRPC doesn't tell who connects to it, so a socket of our own does, and passes all on.

Each connection goes on to a second socket, whose mode lets nobody but the broker's own user connect, from an address of its own in the
kernel's table of names. gRPC tells that address of each call, so it is known whose call it is. An address is one connection's alone as long as
that is open, and none is given twice; whoever comes to the second socket from another address isn't let in."""

from __future__ import annotations

import asyncio
import contextlib
import itertools
import os
import secrets
import socket
from typing import Optional

from .bay import BadAddress
from .relay import End, joins
from .sockets import bound
from .users import user_of

WITHIN = ".in"  # behind the path of the socket: gRPC's own


class Fronts:
    """All of a broker's. `users` has the user behind each address from which gRPC is asked, as gRPC calls it."""

    def __init__(self) -> None:
        self.users = dict[str, int]()
        self._numbers, self._secret = itertools.count(1), secrets.token_hex(16)
        self._open, self._listeners = set[asyncio.Task[None]](), dict[str, asyncio.AbstractServer]()

    def was_given(self, peer: str) -> bool:
        """Whether this is, or was, the address of one of its connections."""
        return peer.startswith(f"unix-abstract:labrun-{self._secret}-")

    async def listens(self, path: str, group: Optional[str]) -> None:
        """At a path, for gRPC, which listens at that path and WITHIN. BadAddress says why it can't."""
        loop, one = asyncio.get_running_loop(), bound(path, group)

        def new() -> End:
            return _Front(self, path)

        try:
            self._listeners[path] = await loop.create_unix_server(new, sock=one)
        except OSError as fault:
            raise BadAddress(f"unix:{path}: {fault.strerror or fault}") from None

    def comes(self, end: End, path: str) -> None:
        task = asyncio.get_running_loop().create_task(self._leads(end, path))
        self._open.add(task)
        task.add_done_callback(self._open.discard)

    async def _leads(self, end: End, path: str) -> None:
        """One connection, until it is over."""
        uid = user_of(end.transport.get_extra_info("socket"))
        address = f"labrun-{self._secret}-{next(self._numbers)}"
        inner, ends = socket.socket(socket.AF_UNIX), [end]
        try:
            inner.setblocking(False)
            inner.bind(f"\0{address}")
            if uid is not None:
                self.users[f"unix-abstract:{address}"] = uid
            loop = asyncio.get_running_loop()
            await loop.sock_connect(inner, path + WITHIN)
            _, other = await loop.create_unix_connection(End, sock=inner)
            ends.append(other)
            joins(end, other)
            await asyncio.gather(end.over.wait(), other.over.wait())
        except OSError:
            pass  # (gRPC has ended)
        finally:
            # (before the address is free, and it is never used again)
            self.users.pop(f"unix-abstract:{address}", None)
            for it in ends:
                it.cut()
            inner.close()

    def takes_no_more(self) -> None:
        for path, it in self._listeners.items():
            it.close()
            with contextlib.suppress(OSError):
                os.unlink(path)
        self._listeners.clear()

    async def close(self) -> None:
        self.takes_no_more()
        for task in list(self._open):
            task.cancel()
        with contextlib.suppress(asyncio.CancelledError):
            await asyncio.gather(*self._open, return_exceptions=True)


class _Front(End):
    """A client's end."""

    def __init__(self, fronts: Fronts, path: str) -> None:
        super().__init__()
        self._fronts, self._path = fronts, path

    def connection_made(self, transport: asyncio.BaseTransport) -> None:
        super().connection_made(transport)
        self._fronts.comes(self, self._path)
