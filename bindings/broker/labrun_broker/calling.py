"""What a program gave to be called, on a thread of its own: it may be slow, and may ask the lab, whose loop goes on meanwhile."""

from __future__ import annotations

import asyncio
import contextlib
import threading
from queue import SimpleQueue
from typing import Any, Callable, Optional


def calls_aside(call: Callable[..., None], *given: Any) -> None:
    """Once. (What it does is its own business.)"""
    threading.Thread(target=call, args=given, name="labrun-broker tells", daemon=True).start()


class Calls:
    """Of what is called with a line, again and again: in order, one call at a time. `fails` gets, on the loop, what it raised; then it isn't called
    any more."""

    def __init__(self, call: Callable[[str], None], fails: Callable[[Exception], None]) -> None:
        self._call, self._fails, self._loop = call, fails, asyncio.get_running_loop()
        self._given = SimpleQueue[Optional[str]]()
        self._is_begun = self._is_over = False

    def __call__(self, text: str) -> None:
        if not self._is_begun:
            self._is_begun = True
            calls_aside(self._runs)
        self._given.put(text)

    def end(self) -> None:
        """No more calls begin; one may be under way."""
        self._is_over = True
        self._given.put(None)

    def _runs(self) -> None:
        while (text := self._given.get()) is not None and not self._is_over:
            try:
                self._call(text)
            except Exception as fault:
                with contextlib.suppress(RuntimeError):  # (the loop is closed)
                    self._loop.call_soon_threadsafe(self._has_failed, fault)
                return

    def _has_failed(self, fault: Exception) -> None:
        if not self._is_over:
            self._is_over = True
            self._fails(fault)
