"""Signals of a process that has several threads.

The kernel may give a signal to any thread, as after a stop (SIGSTOP, SIGCONT), and Python runs its handler on the main one, which isn't woken by
that: it goes on to wait for whatever it waits for. So the word of a signal also goes through a socket, which the thread that took it writes."""

from __future__ import annotations

import contextlib
import signal
import socket
import threading
import time
from typing import Any, Iterator

# ignored unless somebody handles it: it interrupts what the main thread waits for
WAKES = signal.SIGURG
# seconds: once may be just before the main thread begins to wait
AGAIN = (0.0, 0.1, 1.0)


@contextlib.contextmanager
def told_by() -> Iterator[socket.socket]:
    """A socket that has a byte for each signal that is handled here, its number; and its end after that. On the main thread."""
    hears, tells = socket.socketpair()
    with tells:
        tells.setblocking(False)
        before = signal.set_wakeup_fd(tells.fileno(), warn_on_full_buffer=False)
        try:
            yield hears
        finally:
            signal.set_wakeup_fd(before)


@contextlib.contextmanager
def kept(*numbers: int) -> Iterator[socket.socket]:
    """These signals interrupt nothing: the socket has them, however soon they come, until somebody reads it."""
    with told_by() as hears, hears:
        hears.setblocking(False)
        before = {number: signal.signal(number, lambda *_: None) for number in numbers}
        try:
            yield hears
        finally:
            for number, what in before.items():
                signal.signal(number, what)


@contextlib.contextmanager
def waking() -> Iterator[None]:
    """Whatever the main thread waits for is interrupted by each signal that is handled here."""
    with told_by() as hears:
        before: Any = signal.signal(WAKES, lambda *_: None)
        threading.Thread(target=_wakes, args=(hears, threading.get_ident()), daemon=True).start()
        try:
            yield
        finally:
            signal.signal(WAKES, before)


def _wakes(hears: socket.socket, main: int) -> None:
    with hears:
        while came := hears.recv(1):
            for pause in AGAIN if came[0] != WAKES else ():
                time.sleep(pause)
                signal.pthread_kill(main, WAKES)
