"""Where the broker listens, and who is let in."""

from __future__ import annotations

import asyncio
import collections
import os
import select
import shlex
import socket
import ssl
import stat
import sys
import time
from dataclasses import dataclass
from typing import Any, Optional

import grpc

from .bay import BadAddress, is_here
from .credentials import is_token
from .sockets import check_group, clear, family_of, parsed, tls_of
from .validity import outdated
from .words import NoFile, reading


@dataclass(frozen=True)
class Door:
    """Where the broker listens, and who is let in: by the mode of the socket, or by certificate, key and token."""

    addresses: tuple[str, ...]
    certificate: Optional[str] = None
    key: Optional[str] = None
    token_file: Optional[str] = None
    group: Optional[str] = None
    # each of the bay's people has a token, so the door needs none
    has_people: bool = False

    def tokens(self) -> tuple[str, ...]:
        """Each line of the file is one that lets in, so that a new one can stand beside the old. Without a file there is none."""
        if self.token_file is None:
            return ()
        with reading(f"--token-file {self.token_file}"), open(self.token_file, encoding="ascii", errors="replace") as file:
            if stat.S_IMODE(os.fstat(file.fileno()).st_mode) & 0o007:
                raise BadAddress(f"{self.token_file}: everybody on this machine may read it: chmod o= {shlex.quote(self.token_file)}")
            lines = {number: it.strip() for number, it in enumerate(file, 1) if it.strip()}
        for number, token in (lines or {1: ""}).items():
            if len(token) < 16 or not is_token(token):
                where, how = (f"line {number}: ", "") if len(lines) > 1 else ("", f": openssl rand -hex 32 > {shlex.quote(self.token_file)}")
                its = "a token is one line of letters, digits and signs, 16 or more" + ("" if lines else ", and this file is empty")
                raise NoFile(f"--token-file {self.token_file}: {where}{its}{how}")
        return tuple(lines.values())

    def tls(self) -> Optional[ssl.SSLContext]:
        if self.certificate is None or self.key is None:
            return None
        return tls_of(self.certificate, self.key)

    def complaints(self) -> list[str]:
        """What whoever looks after the broker should know of its certificate."""
        if self.certificate is None:
            return []
        with open(self.certificate, "rb") as file:
            its = outdated(file.read())
        return [] if its is None else [f"--tls-certificate {self.certificate}: it {its.why}, and clients of the network refuse it; start the broker again with another one"]

    def credentials(self) -> Any:
        # (gRPC would say in thirty lines what is wrong with them)
        if self.tls() is None or self.certificate is None or self.key is None:
            return None
        with open(self.key, "rb") as key, open(self.certificate, "rb") as certificate:
            return grpc.ssl_server_credentials([(key.read(), certificate.read())])

    def check(self) -> None:
        check_group(self.group)
        if (self.certificate is None) != (self.key is None):
            raise BadAddress("a certificate and its key belong together: --tls-certificate FILE --tls-key FILE")
        if (seen := self.seen()) is not None and (self.certificate is None or self.token_file is None and not self.has_people):
            # (where each of the bay's people has a token, one for all lets nobody in)
            what, more = ("a certificate", "") if self.has_people else ("a certificate and a token", " --token-file FILE")
            raise BadAddress(f"{seen} is seen by other machines: that takes {what}, --tls-certificate FILE --tls-key FILE{more}")

    def seen_without_token(self, other: Door) -> Optional[str]:
        """Of this one and another, where only people have tokens."""
        return None if self.token_file is not None else self.seen() or other.seen()

    def seen(self) -> Optional[str]:
        """An address that other machines see."""
        return next((it for it in self.addresses if not it.startswith("unix:") and not is_loopback(it)), None)


def is_loopback(address: str) -> bool:
    at = parsed(address)
    return not isinstance(at, str) and is_here(at[0])


class Seldom:
    """What may be told, of each kind once in so many seconds: a client can't fill the log."""

    def __init__(self, pause: float) -> None:
        self._pause, self._next, self._passed = pause, dict[str, float](), collections.Counter[str]()

    def text(self, kind: str, text: str) -> Optional[str]:
        """The text, and how many of its kind weren't told before it; None: it isn't told."""
        now = time.monotonic()
        if now < self._next.get(kind, 0.0):
            self._passed[kind] += 1
            return None
        self._next[kind] = now + self._pause
        return f"{text} ({passed} more since the last such line)" if (passed := self._passed.pop(kind, 0)) else text


def is_read() -> bool:
    """Whether a line on standard error is taken. Into a pipe that is full, because nobody reads it, the broker would wait to write."""
    return bool(select.select((), (sys.stderr,), (), 0)[1])


class Complaints:
    """What nobody catches is told, with its traceback, once in a while. That a stream was over before gRPC could say how it ended is no
    fault."""

    def __init__(self) -> None:
        self._seldom = Seldom(10.0)

    def __call__(self, loop: asyncio.AbstractEventLoop, context: dict[str, Any]) -> None:
        if type(context.get("exception")).__name__ != "ExecuteBatchError":
            if (text := self._seldom.text("", str(context.get("message")))) is not None and is_read():
                loop.default_exception_handler({**context, "message": text})


def check_free(address: str, told: Optional[str] = None) -> None:
    """Nobody listens there. A socket that a broker left which is gone is taken away. `told` is the address that people know it by."""
    at = parsed(address)
    if isinstance(at, str):
        return clear(at, told)
    try:
        socket.create_server(at, family=family_of(at[0])).close()
    except OSError as fault:
        raise BadAddress(f"{address}: it can't listen there: {getattr(fault, 'strerror', None) or fault}") from None
