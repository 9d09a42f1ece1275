"""A page or numbers that are served on a thread of their own, as the tests of them need it."""

from __future__ import annotations

import asyncio
import http.client
import threading
from typing import Any, Awaitable, Callable, Coroutine, Optional

from .brokers import LIMIT

Serve = Callable[[Any, str], Awaitable[Any]]


class Web:
    """Serves for a keeping, on a loop of its own; `do` calls something on that loop, `waits_for` awaits it there."""

    def __init__(self, serve: Serve, new_keeping: Callable[[], Any], address: str = "127.0.0.1:0") -> None:
        self._loop = asyncio.new_event_loop()
        self._thread = threading.Thread(target=self._loop.run_forever)
        self._thread.start()
        try:
            self.keeping = self.do(new_keeping)
            self._served: Any = asyncio.run_coroutine_threadsafe(self._start(serve, address), self._loop).result(LIMIT)
        except BaseException:
            self._stop()
            raise
        name = self._served.sockets[0].getsockname()
        self.port = name[1] if isinstance(name, tuple) else 0

    async def _start(self, serve: Serve, address: str) -> Any:
        return await serve(self.keeping, address)

    def do(self, call: Callable[..., Any], *given: Any) -> Any:
        async def called() -> Any:
            return call(*given)

        return self.waits_for(called())

    def waits_for(self, it: Coroutine[Any, Any, Any]) -> Any:
        return asyncio.run_coroutine_threadsafe(it, self._loop).result(LIMIT)

    def close(self) -> None:
        asyncio.run_coroutine_threadsafe(self._served.cleanup(), self._loop).result(LIMIT)
        self._stop()

    def _stop(self) -> None:
        self._loop.call_soon_threadsafe(self._loop.stop)
        self._thread.join(LIMIT)
        self._loop.close()

    def get(self, path: str, host: Optional[str] = None, method: str = "GET") -> tuple[int, dict[str, str], str]:
        talk = http.client.HTTPConnection("127.0.0.1", self.port, timeout=LIMIT)
        try:
            talk.request(method, path, headers={} if host is None else {"Host": host})
            answer = talk.getresponse()
            return answer.status, dict(answer.getheaders()), answer.read().decode()
        finally:
            talk.close()
