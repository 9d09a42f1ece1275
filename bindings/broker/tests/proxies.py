"""A way to a broker that is cut as a test says: for the client, for the broker, or for both, by a word or in silence."""

from __future__ import annotations

import asyncio
import contextlib
import threading
from types import TracebackType
from typing import Any, Callable, Coroutine, Optional

from tests.brokers import LIMIT

# who is told that the connection has ended; whoever isn't hears nothing
CUTS = {"client": (True, False), "broker": (False, True), "both": (True, True), "neither": (False, False)}

Writer = asyncio.StreamWriter


class Ways:
    """The loop on which the proxies run, and its thread."""

    def __enter__(self) -> Ways:
        self.loop = asyncio.new_event_loop()
        self._thread = threading.Thread(target=self.loop.run_forever, daemon=True)
        self._thread.start()
        return self

    def __exit__(self, kind: Optional[type[BaseException]], fault: Optional[BaseException], at: Optional[TracebackType]) -> None:
        self.loop.call_soon_threadsafe(self.loop.stop)
        self._thread.join()
        self.loop.close()

    def run(self, work: Coroutine[Any, Any, Any]) -> Any:
        return asyncio.run_coroutine_threadsafe(work, self.loop).result(LIMIT)


class Proxy:
    """Passes all on to a broker, unless it is cut. What was on its way in silence comes through when that is over, late."""

    def __init__(self, ways: Ways, port: int) -> None:
        self._ways, self._to = ways, port
        self._pairs: set[tuple[Writer, Writer]] = set()
        self._tasks: set[asyncio.Task[None]] = set()
        self._open = asyncio.Event()
        self._open.set()
        ways.run(self._begin())

    async def _begin(self) -> None:
        self._server = await asyncio.start_server(self._comes, "127.0.0.1", 0)
        self.port: int = self._server.sockets[0].getsockname()[1]
        self.address = f"127.0.0.1:{self.port}"

    async def _connects(self) -> tuple[asyncio.StreamReader, Writer]:
        return await asyncio.open_connection("127.0.0.1", self._to)

    async def _comes(self, reader: asyncio.StreamReader, writer: Writer) -> None:
        task = asyncio.current_task()
        assert task is not None
        self._tasks.add(task)
        try:
            await self._open.wait()
            to_reader, to_writer = await self._connects()
            pair = writer, to_writer
            self._pairs.add(pair)
            await asyncio.gather(self._passes(reader, to_writer, pair), self._passes(to_reader, writer, pair))
        except (OSError, asyncio.CancelledError):
            pass
        finally:
            for one in next((pair for pair in self._pairs if writer in pair), (writer,)):
                one.transport.abort()
            self._tasks.discard(task)

    async def _passes(self, reader: asyncio.StreamReader, writer: Writer, pair: tuple[Writer, Writer]) -> None:
        with contextlib.suppress(OSError):
            while text := await reader.read(1 << 16):
                await self._open.wait()
                writer.write(text)
        # (the other end learns of it as soon as it can)
        await self._open.wait()
        self._pairs.discard(pair)
        for one in pair:
            one.transport.abort()

    def cut(self, how: str) -> None:
        self._calls(self._cut, how)

    def _cut(self, how: str) -> None:
        self._open.clear()
        for pair in self._pairs:
            for writer, is_told in zip(pair, CUTS[how]):
                if is_told:
                    writer.transport.abort()

    def mend(self) -> None:
        self._calls(self._open.set)

    def _calls(self, call: Callable[..., None], *given: str) -> None:
        async def called() -> None:
            call(*given)

        self._ways.run(called())

    def close(self) -> None:
        async def closed() -> None:
            self._server.close()
            for task in list(self._tasks):
                task.cancel()
            await asyncio.gather(*self._tasks, return_exceptions=True)
            await asyncio.sleep(0.01)

        self._ways.run(closed())


class OfSockets(Proxy):
    """The same between Unix sockets."""

    def __init__(self, ways: Ways, at: str, to: str) -> None:
        self._at, self._to_socket = at, to
        super().__init__(ways, 0)

    async def _begin(self) -> None:
        self._server = await asyncio.start_unix_server(self._comes, self._at)
        self.address = f"unix:{self._at}"

    async def _connects(self) -> tuple[asyncio.StreamReader, Writer]:
        return await asyncio.open_unix_connection(self._to_socket)
