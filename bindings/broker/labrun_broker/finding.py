"""Which of several brokers a client asks: the one that answers. Those that stand by don't listen."""

from __future__ import annotations

import asyncio
from typing import Any, Callable, Optional, Sequence

import grpc

from .errors import IS_THERE, is_for_good
from .texts import none_answers

READY, FAILS = grpc.ChannelConnectivity.READY, grpc.ChannelConnectivity.TRANSIENT_FAILURE
LOOKS, PAUSE = 2.0, 0.1  # seconds: for so long at most all are tried at once; and between two such tries
# for how long one of a list is waited for, if none has answered yet: as long as it takes until another leads
FAILOVER = 20.0
# of a list: a machine that says nothing any more is to be left soon, also by a client that only waits. (An older broker takes it ill to be
# asked twice in five seconds.)
SOON = [
    ("grpc.keepalive_time_ms", 6000),
    ("grpc.keepalive_timeout_ms", 2000),
    ("grpc.http2.max_pings_without_data", 0),
    ("grpc.min_reconnect_backoff_ms", 2000),
]


def _channel(address: str, certificate: Optional[bytes], options: list[tuple[str, int]]) -> Any:
    # (each is known by its own name; by a Unix socket nobody has to be known)
    if certificate is None or address.startswith("unix:"):
        return grpc.aio.insecure_channel(address, options)
    return grpc.aio.secure_channel(address, grpc.ssl_channel_credentials(certificate), options)


class Brokers:
    """A channel to each address, and the methods of the one that is asked now."""

    def __init__(self, addresses: Sequence[str], certificate: Optional[bytes], options: list[tuple[str, int]], methods: Callable[[Any], dict[str, Any]]) -> None:
        self.is_list = len(addresses) > 1
        options = [*(it for it in options if not self.is_list or it[0] not in dict(SOON)), *(SOON if self.is_list else ())]
        self._channels = [_channel(it, certificate, options) for it in addresses]
        self._methods, self._addresses, self._at = [methods(it) for it in self._channels], tuple(addresses), 0

    @property
    def address(self) -> str:
        """Of the one that is asked now."""
        return self._addresses[self._at]

    @property
    def methods(self) -> dict[str, Any]:
        return self._methods[self._at]

    @property
    def patience(self) -> float:
        """For how long it is worth while to wait for one, if none has answered yet."""
        return FAILOVER if self.is_list else 0.0

    async def looks(self, patience: float = 0.0, says: Optional[Callable[[str], None]] = None) -> None:
        """Another is asked if that of now isn't there, and one is. It tries for so long, and says so once."""
        until = asyncio.get_running_loop().time() + patience
        while self.is_list and self._channels[self._at].get_state() is not READY:
            if await self._tries_all() or (left := until - asyncio.get_running_loop().time()) <= 0:
                return
            if says is not None:
                says(none_answers(",".join(self._addresses), left))
                says = None
            await asyncio.sleep(PAUSE)

    async def _tries_all(self) -> bool:
        """Whether one is there, or another try changes nothing. Whoever is told why none can be asked is told of the one that leads, if there is one
        that only this client can't speak to."""
        tries, whys = [asyncio.create_task(self._tries(at)) for at in range(len(self._channels))], dict[int, str]()
        try:
            async with asyncio.timeout(LOOKS):
                for one in asyncio.as_completed(tries):
                    at, why = await one
                    # (whoever asks one that isn't there is told at once, and why)
                    self._at = at
                    if why is None:
                        return True
                    whys[at] = why
        except TimeoutError:
            pass
        finally:
            for it in tries:
                it.cancel()
        leads = next((at for at in sorted(whys) if any(it in whys[at] for it in IS_THERE)), None)
        self._at = self._at if leads is None else leads
        return leads is not None and is_for_good(whys[leads])

    async def _tries(self, at: int) -> tuple[int, Optional[str]]:
        """None once it is there; else why it isn't, as gRPC says it. (That is asked as soon as it fails: a moment later it tries again, and on a busy
        machine may do so for long.)"""
        channel = self._channels[at]
        while (state := channel.get_state(try_to_connect=True)) is not READY:
            if state is grpc.ChannelConnectivity.SHUTDOWN:
                return at, ""
            if state is not FAILS:
                await channel.wait_for_state_change(state)
            elif why := await _why_not(channel):
                return at, why
        return at, None

    async def close(self) -> None:
        await asyncio.gather(*(it.close() for it in self._channels))


async def _why_not(channel: Any) -> str:
    """Why one can't be connected to, as gRPC says it; nothing: it can by now, or tries again."""
    try:
        await channel.unary_unary("/there")(b"", timeout=PAUSE)
    except grpc.RpcError as fault:
        return "" if fault.code() in (grpc.StatusCode.DEADLINE_EXCEEDED, grpc.StatusCode.UNIMPLEMENTED) else str(fault.details())
    return ""
