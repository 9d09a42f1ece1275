"""A session for one command, at a broker of this machine, by a client that begins at once.

It imports nothing of gRPC (wire.py). Whatever goes otherwise than usual is for the whole client: it asks in place of this one, or comes back
for the session by its ticket."""

from __future__ import annotations

import binascii
import contextlib
import os
import struct
import threading
import time
from queue import Empty, SimpleQueue
from typing import TYPE_CHECKING, Any, Callable, NamedTuple, Optional

from .leaving import leaves
from .wire import Fields, Odd, Silent, Wire, field, fields_of, text_field, text_of

if TYPE_CHECKING:
    from .client import Lab
    from .held import Held
    from .silence import Silence

# the fields of Ask and of Told
WISH, LET_GO, PING = 1, 3, 4
HELD, WAITS, GONE, FAULT, TAKEN, PONG, WARNING = 1, 2, 4, 5, 6, 7, 8
LEASE, TOKEN, GUARDS, LIMIT = 6, 7, 8, 9  # fields of Held
WAITS_FOR = 2  # of Waits
TELLING = 60.0  # seconds, for which the broker is told that it lets go


class Wish(NamedTuple):
    instruments: tuple[str, ...]
    any_of: tuple[tuple[str, ...], ...]
    station: str
    by: str
    timeout: Optional[float]
    limit: Optional[float] = None
    urgent: bool = False


class Quick:
    """As much of `Held` as a command needs. `with` it: Odd is raised if it is for the whole client from the beginning. `connects` gives that,
    and is told whether the broker was there. `begins` is called once it holds: what interrupts it from there on is no business of its own."""

    def __init__(
        self, address: str, wish: Wish, waits: Optional[Callable[[str], None]], connects: Callable[[bool], Lab], begins: Callable[[], None],
        token: Optional[str] = None,
    ) -> None:
        self.instruments, self.station, self.number, self.token = wish.instruments, wish.station, 0, 0
        self.on_taken: Optional[Callable[[Any], None]] = None
        self.on_warning: Optional[Callable[[str], None]] = None
        self.on_lacking: Optional[Callable[[list[str]], None]] = None
        # by which it is told, while it waits, that no word comes
        self.silence: Optional[Silence] = None
        self.is_released_if_gone = False
        self.limit: Optional[float] = None
        self.wire = Wire()
        self._address, self._path = address, address.removeprefix("unix:")
        self._wish, self._waits, self._connects, self._begins, self._token = wish, waits, connects, begins, token
        self.ticket = binascii.b2a_base64(os.urandom(32), newline=False).decode().translate({43: "-", 47: "_", 61: None})
        # where the guards of its instruments are
        self.guards: dict[str, str] = {}
        self._taken: Any = None
        self.has_asked = self._is_over = self._is_let_go = False
        self._whole: Optional[Held] = None
        # who tells that it leaves, once the connection has ended
        self._leaves_by: Optional[Lab] = None
        # what the broker answers while it holds
        self._answers: SimpleQueue[tuple[int, Fields]] = SimpleQueue()

    @property
    def held(self) -> bool:
        return self._taken is None and (self._whole is None or self._whole.held)

    def __enter__(self) -> Quick:
        try:
            if self._wish.timeout is not None:
                self.wire.limit = time.monotonic() + self._wish.timeout
            self.wire.connects(self._path, self._token)
            self._holds()
        except BaseException:
            self.wire.socket.close()
            raise
        return self

    def __exit__(self, kind: Optional[type[BaseException]], *fault: object) -> None:
        if kind is not None and self.held and not self._is_let_go:
            with contextlib.suppress(Exception):
                self.release(kind.__name__)
        self._is_over = True
        self.wire.socket.close()
        if self._whole is not None:
            self._whole.lab.close(lets_go=False)

    def _holds(self) -> None:
        try:
            what, of = self._asks()
            if what == HELD:
                self._has(of)
                if LEASE in of:
                    # (its client has to say again and again that it is there)
                    self._comes_back(True)
                self._begins()
        except Silent:
            # (should it go on later, nothing is held)
            with contextlib.suppress(Odd):
                self.wire.asks(LET_GO, b"")
            raise
        except BaseException as fault:
            if not isinstance(fault, Odd):
                self._gives_up()
            elif self.wire.is_refused:
                self.has_asked = False
            raise
        self.wire.is_unlimited()
        if what != HELD:
            raise _fault(of) if what == FAULT else Odd()
        if self._whole is not None:
            self.wire.socket.close()
        else:
            threading.Thread(target=self._watches, daemon=True).start()

    def _asks(self) -> tuple[int, Fields]:
        """What the broker answers once the wait is over; whoever waits is told for whom until then."""
        self.wire.is_answered()
        if self.silence is not None:
            self.silence.hears(is_in_line=False)
        self.has_asked = True
        self.wire.asks(WISH, _wish(self._wish, self.ticket, self._waits is not None))
        while (told := self.wire.told())[0] in (WAITS, PONG):
            if self.silence is not None:
                self.silence.hears()
            if told[0] == PONG:
                continue
            if self.on_lacking is not None:
                self.on_lacking([text_of(fields_of(it), 1) for it in told[1].get(WAITS_FOR, [])])
            if self._waits is not None:
                self._waits(text_of(told[1], 1))
        return told

    def _has(self, of: Fields) -> None:
        """What the broker says of a session that holds."""
        self.station, self.number, self.instruments = text_of(of, 1), of[2][0], tuple(it.decode() for it in of[3])
        self.token = of.get(TOKEN, [0])[0]
        self.limit = struct.unpack("<d", of[LIMIT][0])[0] if LIMIT in of else None
        self.guards = {text_of(it, 1): text_of(it, 2) for it in map(fields_of, of.get(GUARDS, []))}

    def pings(self) -> None:
        """Asks the broker whether it is there, while this waits; on another thread. (Whoever reads sees if that can't be sent.)"""
        if self.has_asked:
            with contextlib.suppress(Odd):
                self.wire.asks(PING, b"")

    def _gives_up(self) -> None:
        """It leaves the line; if it came to hold just now, it lets go. Whoever has asked nothing yet has nothing to tell."""
        if self.silence is not None:
            self.silence.ends()
        if not self.has_asked:
            return
        self.wire.is_unlimited()
        self.wire.is_leaving = True
        with contextlib.suppress(Odd):  # (whoever reads sees that, too)
            self.wire.asks(LET_GO, b"")
        with contextlib.ExitStack() as ends:
            leaves(lambda span: self._has_left(span, ends), self._address, self._wish.station)

    def _has_left(self, span: float, ends: contextlib.ExitStack) -> bool:
        """Whether the broker says so in time. (Of a session that is over it says that.)"""
        self.wire.until = until = time.monotonic() + span
        while self._leaves_by is None and time.monotonic() < until:
            try:
                if self.wire.told()[0] in (GONE, FAULT, TAKEN):
                    return True
            except Odd as fault:
                if self.wire.is_refused:
                    return True
                if not isinstance(fault.__cause__, TimeoutError):
                    # (it was killed: whoever comes in its place is told)
                    self._leaves_by = lab = self._connects(True)
                    ends.callback(lab.close, lets_go=False)
                    lab._leaves(self.ticket)
        return self._leaves_by is not None and self._leaves_by._is_left(max(0.0, until - time.monotonic()))

    def release(self, failed: Optional[str]) -> None:
        self._is_let_go = True
        if self._whole is None:
            with contextlib.suppress(Odd):  # (whoever reads sees that, too)
                self.wire.asks(LET_GO, b"" if failed is None else text_field(1, failed))
            try:
                what, of = self._answers.get(timeout=TELLING)
            except Empty:
                from .errors import Unreachable

                raise Unreachable(f"the broker at unix:{self._path} doesn't answer any more") from None
            if what == FAULT:
                raise _fault(of)
        if self._taken is not None:
            raise self._taken
        if self._whole is not None:
            self._whole.release(failed)

    # on a thread of its own, while it holds

    def _watches(self) -> None:
        try:
            try:
                while (told := self.wire.told())[0] != TAKEN:
                    if told[0] in (GONE, FAULT):
                        self._answers.put(told)
                    elif told[0] == WARNING:
                        self._is_warned(text_of(told[1], 1))
                self._is_taken(_fault(told[1]))
            except Odd:
                if not self._is_over:
                    self._comes_back(False)
        except Exception as fault:
            self._taken = fault
        self._answers.put((GONE, {}))

    def _is_taken(self, fault: Exception) -> None:
        self._taken = fault
        if self.on_taken is not None:
            self.on_taken(fault)

    def _is_warned(self, text: str) -> None:
        if self.on_warning is not None:
            self.on_warning(text)

    def _comes_back(self, waits: bool) -> None:
        self._whole = self._connects(True)._resumed(self, self.ticket, waits)
        self.is_released_if_gone = self._whole.is_released_if_gone


def _fault(of: Fields) -> Exception:
    from .errors import KINDS, BrokerError

    return KINDS.get(text_of(of, 1), BrokerError)(text_of(of, 2))


def _wish(it: Wish, ticket: str, wants_waits: bool) -> bytes:
    parts = [text_field(1, name) for name in it.instruments] + [field(2, b"".join(text_field(1, name) for name in names)) for names in it.any_of]
    flags = bytes([8 << 3, wants_waits, 9 << 3, 1, 11 << 3, 1, 12 << 3, it.urgent])
    parts += [text_field(3, it.station), text_field(4, it.by), text_field(6, ticket), flags]
    parts += [bytes([at << 3 | 1]) + struct.pack("<d", span) for at, span in ((5, it.timeout), (10, it.limit)) if span is not None]
    return b"".join(parts)
