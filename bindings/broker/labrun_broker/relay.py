"""A connection that goes on: what comes at one end is sent by the other, as it is, and no faster than it is taken."""

from __future__ import annotations

import asyncio
import contextlib
import fcntl
import socket
import struct
import termios
import threading
from typing import Any, Optional

ROOM = 1 << 18  # bytes that are read at once
MOST_EARLY = 1 << 16  # bytes that one end may send before there is another
LAST_WORDS = 1.0  # seconds for an answer to one that has said all, where TLS can't tell that
AGAIN, LATER = 0.005, 0.05  # seconds between two looks at what isn't sent yet: to an instrument; to a client


class _Room(threading.local):
    """Where all ends of a thread read. (Without it asyncio takes fresh memory for each read, and gives it back. The C library may have to ask the
    kernel for so much; for a short message that takes longer than all else.)"""

    def __init__(self) -> None:
        self.at = memoryview(bytearray(ROOM))


_room = _Room()


def resets(one: socket.socket, does: bool = True) -> None:
    """However it is closed, also by the death of this process, what isn't sent is dropped, and the other side is told so (RST). If it no longer
    does, what the kernel has is sent, and then the end."""
    with contextlib.suppress(OSError):
        one.setsockopt(socket.SOL_SOCKET, socket.SO_LINGER, struct.pack("ii", does, 0))


def _asked(transport: Any, question: int) -> int:
    one = transport.get_extra_info("socket")
    if one is None or one.fileno() < 0:
        return 0
    return int(struct.unpack("i", fcntl.ioctl(one.fileno(), question, bytes(4)))[0])


class End(asyncio.BufferedProtocol):
    """One end of a connection. Until it is joined with another it keeps what comes. One that `resets` never leaves bytes behind that are sent
    after its socket is closed."""

    def __init__(self, resets: bool = False) -> None:
        self.resets = resets
        self.transport: Any = None
        self.other: Optional[End] = None
        self.early, self.came = b"", 0
        # it has said all; and its socket is closed
        self.is_through = False
        self.over = asyncio.Event()

    def connection_made(self, transport: Any) -> None:
        self.transport = transport

    def get_buffer(self, _: int) -> memoryview:
        return _room.at

    def buffer_updated(self, count: int) -> None:
        # (a copy: the transport of the other end may keep it until its socket takes it)
        self.comes(bytes(_room.at[:count]))

    def comes(self, data: bytes) -> None:
        self.came += len(data)
        if self.other is not None:
            self.other.writes(data)
        else:
            self.early += data
            self.is_early()

    def is_early(self) -> None:
        if len(self.early) >= MOST_EARLY:
            self.transport.pause_reading()

    def writes(self, data: bytes) -> None:
        if not self.transport.is_closing():
            self.transport.write(data)

    def pause_writing(self) -> None:
        if self.other is not None:
            self.other.transport.pause_reading()

    def resume_writing(self) -> None:
        if self.other is not None:
            self.other.transport.resume_reading()

    def eof_received(self) -> bool:
        self.is_through = True
        if self.other is not None:
            self.other.gets_no_more()
        # (TLS has no half of a connection: asyncio closes it, once all is sent)
        if self._has_tls and not self.resets:
            self.dies_by_reset(False)
        return not self._has_tls

    @property
    def _has_tls(self) -> bool:
        return self.transport.get_extra_info("sslcontext") is not None

    def gets_no_more(self) -> None:
        """The other end has said all."""
        if self.over.is_set():
            return
        if self.is_through:
            for end in (self, self.other):
                if end is not None:
                    end.closes()
        elif not self._has_tls:
            with contextlib.suppress(OSError):
                self.transport.write_eof()
        else:
            asyncio.get_running_loop().call_later(LAST_WORDS, self.closes)

    def closes(self) -> None:
        """Once all is sent, or the kernel has it, which sends it also if this process dies."""
        if self.over.is_set() or self.transport is None or self.transport.is_closing():
            return
        if self.unsent() if self.resets else self.transport.get_write_buffer_size():
            asyncio.get_running_loop().call_later(AGAIN if self.resets else LATER, self.closes)
            return
        if not self.resets:
            self.dies_by_reset(False)
        self.transport.close()

    def dies_by_reset(self, does: bool = True) -> None:
        if (one := self.transport.get_extra_info("socket")) is not None:
            resets(one, does)

    def cut(self) -> None:
        """At once: what isn't sent is dropped."""
        if self.transport is not None and not self.over.is_set():
            self.dies_by_reset()
            self.transport.abort()

    def unsent(self) -> int:
        """Bytes for it that its machine doesn't have yet."""
        return 0 if self.over.is_set() else int(self.transport.get_write_buffer_size()) + _asked(self.transport, termios.TIOCOUTQ)

    def unread(self) -> int:
        """Bytes of it that this machine has, and the program hasn't."""
        return 0 if self.over.is_set() else _asked(self.transport, termios.FIONREAD)

    def connection_lost(self, fault: Optional[Exception]) -> None:
        self.over.set()
        if self.other is not None and not self.other.over.is_set():
            if fault is None:
                self.other.closes()
            else:
                self.other.cut()


def joins(one: End, two: End) -> None:
    """From now on what comes at one is sent by the other. `one` is the end of whoever asks: it is reset if this process dies, so that an answer
    that was cut doesn't look whole."""
    if one.over.is_set() or two.over.is_set():
        one.cut()
        two.cut()
        return
    one.other, two.other = two, one
    one.dies_by_reset()
    for end, other in ((one, two), (two, one)):
        early, end.early = end.early, b""
        if early:
            other.writes(early)
        end.transport.resume_reading()
        if end.is_through:
            other.gets_no_more()
