"""The little of etcd that a broker needs: transactions, ranges and leases, at several endpoints. Threads may share it.

A call goes to one endpoint as long as that answers, and to the next one after it didn't. Nobody knows whether one that wasn't answered was
done, or will be done later: so each caller asks only for what may be done twice, also after what was asked for next."""

from __future__ import annotations

import contextlib
import errno
import threading
from typing import Any, Iterable, Iterator

import grpc

from . import etcd_pb2 as pb

OPTIONS = [
    ("grpc.max_receive_message_length", -1),
    ("grpc.keepalive_time_ms", 10000),
    ("grpc.keepalive_timeout_ms", 2000),
    ("grpc.initial_reconnect_backoff_ms", 100),
    ("grpc.min_reconnect_backoff_ms", 1000),
    ("grpc.max_reconnect_backoff_ms", 500),
    ("grpc.enable_http_proxy", 0),
]
# what another endpoint, or a later moment, may answer
AGAIN = ("UNAVAILABLE", "DEADLINE_EXCEEDED", "CANCELLED", "UNKNOWN", "INTERNAL")
READING, SHORT = 5.0, 2.0  # seconds
MANY = 64  # keys that are read at once


class NoAnswer(Exception):
    """etcd didn't answer, or has no leader. What was asked for may have been done, or be done later."""


class EtcdError(OSError):
    """etcd says no. It isn't done."""


def behind(prefix: bytes) -> bytes:
    """The end of the range of all keys that begin so."""
    return prefix[:-1] + bytes([prefix[-1] + 1])


# gRPC shuts itself down with the last channel of a process, and may hang in that: so one is always there, which nobody asks by
_always_there: list[Any] = []


class Channel:
    """It is closed once it was given up, and nobody asks by it any more. (gRPC doesn't like it earlier.)"""

    def __init__(self, channel: Any) -> None:
        self.channel, self.users, self.is_given_up = channel, 0, False


class Etcd:
    def __init__(self, endpoints: Iterable[str], credentials: Any = None, user: str = "", password: str = "") -> None:
        self.endpoints = [it.removeprefix("http://").removeprefix("https://") for it in endpoints]
        self._credentials, self._user, self._password = credentials, user, password
        self._at, self._token = 0, ""
        self._channels: dict[str, Channel] = {}
        self._lock = threading.Lock()
        if not _always_there:
            _always_there.append(grpc.insecure_channel("127.0.0.1:1", OPTIONS))

    def txn(self, compare: list[Any], success: list[Any], failure: Iterable[Any] = (), timeout: float = SHORT) -> Any:
        return self._asks("KV/Txn", pb.TxnRequest(compare=compare, success=success, failure=failure), pb.TxnResponse, timeout)

    def all_of(self, prefix: bytes) -> Iterator[Any]:
        """All keys that begin so, in their order. (They needn't be of one revision.)"""
        key, end, more = prefix, behind(prefix), True
        while more:
            found = self._asks("KV/Range", pb.RangeRequest(key=key, range_end=end, limit=MANY), pb.RangeResponse, READING)
            yield from found.kvs
            more = found.more
            key = found.kvs[-1].key + b"\0" if more else b""

    def grant(self, seconds: int) -> Any:
        return self._asks("Lease/LeaseGrant", pb.LeaseGrantRequest(TTL=seconds), pb.LeaseGrantResponse, SHORT)

    def revoke(self, lease: int) -> None:
        self._asks("Lease/LeaseRevoke", pb.LeaseRevokeRequest(ID=lease), pb.LeaseRevokeResponse, SHORT)

    def keeps_alive(self, lease: int, timeout: float) -> int:
        """For how many seconds from when it was asked the lease is kept; 0 if it is over."""
        return int(self._asks("Lease/LeaseKeepAlive", pb.LeaseKeepAliveRequest(ID=lease), pb.LeaseKeepAliveResponse, timeout).TTL)

    def close(self) -> None:
        for endpoint in list(self._channels):
            self._gives_up(endpoint)

    def _asks(self, name: str, wish: Any, answer: Any, timeout: float) -> Any:
        """Once, of one endpoint."""
        at = self._at
        try:
            try:
                return self._calls(name, wish, answer, timeout)
            except grpc.RpcError as fault:
                if "invalid auth token" not in str(fault.details()):
                    raise
                self._token = ""
                return self._calls(name, wish, answer, timeout)
        except (grpc.RpcError, StopIteration) as fault:
            code, text = getattr(fault, "code", lambda: None)(), str(getattr(fault, "details", lambda: "")())
            if code is grpc.StatusCode.RESOURCE_EXHAUSTED and "space exceeded" in text:
                raise EtcdError(errno.ENOSPC, "etcd is full") from None
            if code is None or code.name in AGAIN or "too many requests" in text:
                self._goes_on(at, code is grpc.StatusCode.UNAVAILABLE)
                raise NoAnswer(f"{self.endpoints[at % len(self.endpoints)]}: {'no answer' if code is None else text or code.name}") from None
            raise EtcdError(errno.EIO, f"etcd says no: {text}") from None

    def _goes_on(self, at: int, is_cut: bool) -> None:
        """To the next endpoint, unless another thread has by now. A channel that couldn't connect would go on only while it is asked
        something, and answers at once that it can't: so it is made anew. One that is only slow is kept."""
        if self._at == at:
            self._at += 1
            if is_cut:
                self._gives_up(self.endpoints[at % len(self.endpoints)])

    def _calls(self, name: str, wish: Any, answer: Any, timeout: float) -> Any:
        if self._user and not self._token and name != "Auth/Authenticate":
            who = pb.AuthenticateRequest(name=self._user, password=self._password)
            self._token = self._calls("Auth/Authenticate", who, pb.AuthenticateResponse, READING).token
        metadata = [("token", self._token)] if self._token else []
        with self._channel() as channel:
            if name == "Lease/LeaseKeepAlive":
                call = channel.stream_stream(f"/etcdserverpb.{name}", type(wish).SerializeToString, answer.FromString)
                told = call(iter([wish]), timeout=timeout, metadata=metadata)
                try:
                    return next(told)
                finally:
                    told.cancel()
            call = channel.unary_unary(f"/etcdserverpb.{name}", type(wish).SerializeToString, answer.FromString)
            return call(wish, timeout=timeout, metadata=metadata)

    @contextlib.contextmanager
    def _channel(self) -> Iterator[Any]:
        with self._lock:
            endpoint = self.endpoints[self._at % len(self.endpoints)]
            if (one := self._channels.get(endpoint)) is None:
                secure, insecure = grpc.secure_channel, grpc.insecure_channel
                one = Channel(insecure(endpoint, OPTIONS) if self._credentials is None else secure(endpoint, self._credentials, OPTIONS))
                self._channels[endpoint] = one
            one.users += 1
        try:
            yield one.channel
        finally:
            with self._lock:
                one.users -= 1
                is_last = one.is_given_up and not one.users
            if is_last:
                one.channel.close()

    def _gives_up(self, endpoint: str) -> None:
        with self._lock:
            one = self._channels.pop(endpoint, None)
            if one is None:
                return
            one.is_given_up = True
            is_last = not one.users
        if is_last:
            one.channel.close()


def is_of(key: bytes, create_revision: int) -> Any:
    """Compares: who made the key; 0 if it isn't there."""
    return pb.Compare(result=pb.Compare.EQUAL, target=pb.Compare.CREATE, key=key, create_revision=create_revision)


def put(key: bytes, value: bytes, lease: int = 0) -> Any:
    return pb.RequestOp(request_put=pb.PutRequest(key=key, value=value, lease=lease))


def get(key: bytes, end: bytes = b"") -> Any:
    return pb.RequestOp(request_range=pb.RangeRequest(key=key, range_end=end))


def delete(key: bytes, end: bytes = b"") -> Any:
    return pb.RequestOp(request_delete_range=pb.DeleteRangeRequest(key=key, range_end=end))
