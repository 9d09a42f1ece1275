"""A connection to a broker of this machine, by as much of HTTP/2, gRPC and protobuf as one session needs (broker.proto)."""

from __future__ import annotations

import contextlib
import math
import select
import socket
import struct
import threading
import time
from typing import Any, Iterator, Optional

from .texts import HTTP_THERE

SILENT = 10.0  # seconds without a word, after which the broker is asked whether it is there, and then as many for its answer
FIRST = 30.0  # for a new client: for so long it waits for the first word of all
LATE = 1.0  # or a second once the time limit is over, and then as long for its answer
ASKS_WISH, ASKS_PING = 1, 4  # fields of Ask
MOST_BYTES = 16000  # of a wish: it is one frame
DATA, HEADERS, RESET, SETTINGS, PING, WINDOW = 0, 1, 3, 4, 6, 8
ACK, STREAM_ENDS, HEADERS_END, PADDED = 1, 1, 4, 8

Fields = dict[int, list[Any]]


class Odd(Exception):
    """It is for the whole client."""


class Silent(Odd):
    """The broker doesn't answer, and the time is over for which it may be waited."""


class Absent(Odd):
    """Nobody listens there."""


class NoBroker(Odd):
    """Whoever listens there speaks otherwise."""


@contextlib.contextmanager
def _oddly() -> Iterator[None]:
    try:
        yield
    except OSError as fault:
        raise Odd from fault


class Wire:
    """A connection with one stream. Odd: it has ended."""

    def __init__(self) -> None:
        self.socket, self._writing = socket.socket(socket.AF_UNIX), threading.Lock()
        self.was_there = self.is_leaving = False  # the broker; this client
        self.is_let_in = self.is_refused = False
        self._begun, self._has_pinged = time.monotonic(), False
        # until when it may take to hold; and, of one that leaves, until when it waits for a word
        self.limit = self.until = math.inf
        # whether it waits to hold. Then the broker itself has to say something in time, on the stream: a connection answers by threads of gRPC
        # also if the broker stands still. When it did last, if it ever did; and since when a question has no answer
        self._waits = self._has_word = False
        self._word_at, self._question_at = 0.0, math.inf
        # bytes that came: of frames, and of messages
        self._came = self._messages = b""

    def connects(self, path: str, token: Optional[str] = None) -> None:
        self._begun = time.monotonic()
        self._is_patient(FIRST)
        try:
            with _oddly():
                self.socket.connect(path)
        except Odd as fault:
            if isinstance(fault.__cause__, TimeoutError):
                raise Silent from fault
            if isinstance(fault.__cause__, (FileNotFoundError, ConnectionRefusedError)):
                raise Absent(fault.__cause__.strerror) from fault
            raise
        self._sends(OPENS + _heads(token))

    def is_answered(self) -> None:
        """Returns once the broker has said something: one that is stopped isn't asked. (Should this process end meanwhile, by a signal or because
        its time is over, the wish would be read, and perhaps not that it is withdrawn.)"""
        self._came += self._more()

    def is_unlimited(self) -> None:
        self.limit, self._waits = math.inf, False
        self.socket.settimeout(SILENT)

    def _is_patient(self, span: float = 0.0) -> None:
        """For how long it waits for the next word. (Of the first one's time half is left for a question.)"""
        now = time.monotonic()
        span = span or (SILENT if self.was_there else max(LATE, self._begun + FIRST / 2 * (1 + self._has_pinged) - now))
        self.socket.settimeout(min(span, max(0.001, self._due() - now) if self._waits else max(LATE, self.limit - now)))

    def _due(self) -> float:
        """The moment by which the broker itself has to have said something."""
        if self._question_at < math.inf:
            return self._question_at + LATE
        due = max(self.limit, self._word_at) + LATE
        return due if self._has_word else min(due, self._begun + FIRST)

    def _minds_the_time(self) -> None:
        """Once that is over it is asked whether it is there. Silent: it was asked. (What came while this process was stopped is read first.)"""
        if self._waits and (now := time.monotonic()) >= self._due():
            if self._question_at == math.inf:
                self._question_at = now
                self.asks(ASKS_PING, b"")
            elif not select.select([self.socket], [], [], 0)[0]:
                raise Silent

    def _is_over(self) -> bool:
        return time.monotonic() > self.limit

    def _sends(self, what: bytes) -> None:
        with _oddly(), self._writing:
            self.socket.sendall(what)

    def asks(self, what: int, message: bytes) -> None:
        if what == ASKS_WISH:
            self._waits, self._word_at = True, time.monotonic()
        ask = field(what, message)
        if len(ask) > MOST_BYTES:
            raise Odd
        self._sends(frame(DATA, 0, 1, b"\0" + struct.pack(">I", len(ask)) + ask))

    def told(self) -> tuple[int, Fields]:
        """What the broker says: which field of Told it is, and the fields of that."""
        while len(self._messages) < 5 or len(self._messages) < (end := 5 + int.from_bytes(self._messages[1:5], "big")):
            kind, flags, payload = self._frame()
            if kind == DATA and not flags & PADDED:
                self._messages += payload
            elif kind in (SETTINGS, PING) and not flags & ACK:
                self._sends(frame(kind, ACK, 0, payload if kind == PING else b""))
            elif kind == HEADERS and not flags & STREAM_ENDS:
                self.is_let_in = True
            elif kind in (DATA, RESET, HEADERS):
                # (who isn't let in hears so before anything, and what it asked wasn't read)
                self.is_refused = kind == HEADERS and not self.is_let_in
                raise Odd
        message, self._messages = self._messages[5:end], self._messages[end:]
        self._has_word, self._word_at, self._question_at = True, time.monotonic(), math.inf
        [(what, values)] = fields_of(message).items()
        return what, fields_of(values[0])

    def _frame(self) -> tuple[int, int, bytes]:
        while len(self._came) < 9 or len(self._came) < (end := 9 + int.from_bytes(self._came[:3], "big")):
            self._came += self._more()
        kind, flags, payload, self._came = self._came[3], self._came[4], self._came[9:end], self._came[end:]
        return kind, flags, payload

    def _more(self) -> bytes:
        with _oddly():
            came = self._receives()
        if not came:
            raise Odd
        if not self.was_there and came.startswith(b"HTTP/"):
            raise NoBroker(HTTP_THERE)
        if not self.was_there:
            self.was_there = True
            self.socket.settimeout(SILENT)
        return came

    def _receives(self) -> bytes:
        has_pinged = False
        while True:
            if self.is_leaving:
                if (left := self.until - time.monotonic()) <= 0:
                    raise TimeoutError
                self.socket.settimeout(min(left, SILENT))
            elif self._waits or self.limit < math.inf or not self.was_there:
                self._minds_the_time()
                self._is_patient()
            try:
                return self.socket.recv(1 << 16)
            except TimeoutError:
                if self.is_leaving or self._waits and time.monotonic() > self._due() - 0.1:
                    continue
                if has_pinged and (self._is_over() or not self.was_there):
                    raise Silent from None
                if has_pinged:
                    raise
            self.socket.sendall(frame(PING, 0, 0, bytes(8)))
            has_pinged = self._has_pinged = True


# how HTTP/2 and protobuf write


def frame(kind: int, flags: int, stream: int, payload: bytes) -> bytes:
    return struct.pack(">I", len(payload))[1:] + struct.pack(">BBI", kind, flags, stream) + payload


def text_field(at: int, text: str) -> bytes:
    return field(at, text.encode("utf-8", "replace"))


def text_of(fields: Fields, at: int) -> str:
    return str(fields.get(at, [b""])[0].decode())


def field(at: int, value: bytes) -> bytes:
    return bytes([at << 3 | 2]) + _number(len(value)) + value


def _number(value: int) -> bytes:
    return bytes([value]) if value < 128 else bytes([value & 127 | 128]) + _number(value >> 7)


def _number_of(data: bytes) -> tuple[int, bytes]:
    """A number, and what is behind it."""
    end = 1 + next(at for at, it in enumerate(data) if it < 128)
    return sum((it & 127) << 7 * at for at, it in enumerate(data[:end])), data[end:]


def fields_of(message: bytes) -> Fields:
    """The values of each field: numbers, and bytes of all else."""
    found: Fields = {}
    while message:
        tag, message = _number_of(message)
        kind = tag & 7
        value: Any
        value, message = _number_of(message) if kind in (0, 2) else (8 if kind == 1 else 4, message)
        if kind:
            value, message = message[:value], message[value:]
        found.setdefault(tag >> 3, []).append(value)
    return found


def _short(text: bytes) -> bytes:
    return bytes([len(text)]) + text


# POST, http, and the names of path and authority are numbers in HPACK's table; and there is room for all that the broker may say
HEADS = b"\x83\x86\x04" + _short(b"/labrun.broker.Broker/Hold") + b"\x01" + _short(b"localhost")
HEADS += b"".join(b"\0" + _short(name) + _short(value) for name, value in ((b"te", b"trailers"), (b"content-type", b"application/grpc")))
OPENS = b"PRI * HTTP/2.0\r\n\r\nSM\r\n\r\n" + frame(SETTINGS, 0, 0, struct.pack(">HI", 4, 2**31 - 1))
OPENS += frame(WINDOW, 0, 0, struct.pack(">I", 2**31 - 1 - 65535))


def _heads(token: Optional[str]) -> bytes:
    """(The token's name and value are never put into a table of either side: 0x10.)"""
    value = b"" if token is None else f"Bearer {token}".encode("ascii", "replace")
    if len(value) > 126:
        raise Odd
    return frame(HEADERS, HEADERS_END, 1, HEADS + (b"\x10" + _short(b"authorization") + _short(value) if value else b""))
