"""labrun-broker guard: guards for a table of instruments, in one process.

The table is a TOML file; the first two keys have to be there, and the others stand for those of the command line:

    [scope]
    listen = "0.0.0.0:5025"             # where clients come
    instrument = "192.168.7.20:5025"    # which only the guard is to reach
    by_host = true
    settle = 0.5
    clear = "*CLS"
"""

from __future__ import annotations

import argparse
import asyncio
import functools
import math
import signal
import socket
import ssl
import time
import tomllib
from typing import TYPE_CHECKING, Any, Callable, Coroutine, Optional

from labrun.picks import near

from .bay import BadAddress, is_here
from .sockets import family_of, listens, parsed, tls_of, written
from .texts import plain, seconds, span
from .waking import kept
from .words import add_client, lab_of, reading, say
from .work import clock

if TYPE_CHECKING:
    from .client import Lab
    from .guard import Guard
    from .whose import Answer

AGAIN, SELDOM, ENDING = 0.2, 60.0, 3.0
# seconds for an answer of the broker, without which a guard goes by what it was told last
ANSWER = 2.0
# seconds between two looks whether this process goes on; how late one of them is if it didn't; and how soon after that it learns what came of it
BEAT, LATE, JUST = 0.5, 2.0, 5.0
KEYS: dict[str, Any] = {"listen": str, "instrument": str, "by_host": bool, "settle": (int, float), "clear": str}


def add_guard(parser: argparse.ArgumentParser) -> None:
    parser.add_argument("table", metavar="FILE", help="a TOML file: for each instrument where clients come (listen), and where it is (instrument)")
    parser.add_argument("--by-host", action="store_true", help="clients say no ticket: whoever comes from the holder's machine is let through")
    settle = "to wait between the last connection of one session and the first of the next, 0 without"
    parser.add_argument("--settle", metavar="SECONDS", type=seconds, default=0.0, help=settle)
    parser.add_argument("--clear", metavar="LINE", default="", help="a line that the instrument is sent before each session's first connection, as '*CLS'")
    parser.add_argument("--tls-certificate", metavar="FILE", help="for clients on other machines: the guard's certificate")
    parser.add_argument("--tls-key", metavar="FILE", help="its key")
    parser.add_argument("--without-tls", action="store_true", help="listen beyond this machine without TLS: whoever reads the network reads the tickets")
    parser.add_argument("--metrics", metavar="ADDR", help="tell Prometheus there")
    add_client(parser)


def host_and_port(text: str) -> tuple[str, int]:
    """Of `HOST:PORT`; BadAddress if it is none."""
    if isinstance(at := parsed(text), str) or not at[0]:
        raise BadAddress(f"{text}: HOST:PORT is wanted")
    return at


class BadTable(BadAddress):
    """The table has faults: a line for each."""


def read_table(path: str, args: argparse.Namespace) -> dict[str, dict[str, Any]]:
    """For each instrument its five keys. BadTable names every fault."""
    try:
        with reading(path), open(path, "rb") as file:
            given = tomllib.load(file)
    except ValueError as fault:
        raise BadTable(f"{path}: {fault}") from None
    except RecursionError:
        raise BadTable(f"{path}: it is nested too deeply") from None
    usual = {"by_host": args.by_host, "settle": args.settle, "clear": args.clear}
    faults, table = list[str](), dict[str, dict[str, Any]]()
    for name, row in given.items():
        if not isinstance(row, dict):
            faults.append(f"{name}: a table is wanted: [{name}]")
            continue
        found = faults_of(name, row)
        faults += found
        if not found:
            table[name] = {**usual, **row}
    if not given:
        faults.append("no instrument is named")
    if faults:
        raise BadTable("\n".join(f"{path}: {fault}" for fault in faults))
    return table


def faults_of(name: str, row: dict[str, Any]) -> list[str]:
    faults = [f"{name}.{key}: there is no such key; there are {', '.join(KEYS)}{near(key, KEYS)}" for key in row if key not in KEYS]
    for key in ("listen", "instrument"):
        try:
            host_and_port(str(row.get(key, "")))
        except BadAddress:
            faults.append(f'{name}.{key}: HOST:PORT is wanted, as "192.168.7.20:5025"')
    if not isinstance(row.get("by_host", False), bool):
        faults.append(f"{name}.by_host: true or false is wanted")
    settle, clear = row.get("settle", 0), row.get("clear", "")
    if isinstance(settle, bool) or not isinstance(settle, (int, float)) or not 0 <= settle < 1e9:
        faults.append(f"{name}.settle: a number of seconds is wanted")
    if not isinstance(clear, str) or not clear.isascii() or not (clear + "x").isprintable():
        faults.append(f"{name}.clear: a line of ASCII is wanted")
    return faults


def context_of(args: argparse.Namespace) -> Optional[ssl.SSLContext]:
    if (args.tls_certificate is None) != (args.tls_key is None):
        raise BadAddress("a certificate and its key belong together: --tls-certificate FILE --tls-key FILE")
    if args.tls_certificate is None:
        return None
    return tls_of(args.tls_certificate, args.tls_key)


def check(table: dict[str, dict[str, Any]], args: argparse.Namespace) -> None:
    """Beyond this machine there is TLS, or somebody said that there is none."""
    for name, row in table.items():
        if is_here(host_and_port(row["listen"])[0]) or args.without_tls or args.tls_certificate is not None and not row["by_host"]:
            continue
        why = "clients that say no ticket have no TLS" if row["by_host"] else "without TLS whoever reads the network reads the tickets"
        raise BadAddress(f"{name}: {row['listen']} is seen by other machines, and {why}: --without-tls says that it may be so")


def run_guard(args: argparse.Namespace) -> int:
    table = read_table(args.table, args)
    context = context_of(args)
    check(table, args)
    with kept(signal.SIGTERM, signal.SIGINT) as ends, lab_of(args, by="a guard") as lab:
        return lab._run(until_told(ends, guards(table, args, lab, context)))


async def until_told(ends: socket.socket, work: Coroutine[Any, Any, int]) -> int:
    """The work goes on until this socket has something. It is ended then, and has a moment for that: whatever it is at, this returns."""
    goes_on, told = asyncio.create_task(work), asyncio.create_task(asyncio.get_running_loop().sock_recv(ends, 1))
    await asyncio.wait({goes_on, told}, return_when=asyncio.FIRST_COMPLETED)
    if goes_on.done():
        told.cancel()
        return goes_on.result()
    goes_on.cancel()
    await asyncio.wait({goes_on}, timeout=ENDING)
    return 0


async def guards(table: dict[str, dict[str, Any]], args: argparse.Namespace, lab: Lab, context: Optional[ssl.SSLContext]) -> int:
    """Goes on until it is ended. Then its connections are reset with this process."""
    from .door import Seldom
    from .guard import FIRST_LINE, Caller, Guard, Way
    from .whose import Asked, notes_moments
    from .words import tell_systemd

    where, its, servers, seldom = Where(lambda: lab._brokers.address), dict[str, Guard](), list[asyncio.Server](), Seldom(SELDOM)

    def says(text: str, kind: str = "") -> None:
        if (told := seldom.text(kind or text, text)) is not None:
            say(plain(told))

    def stood_still(span: str) -> None:
        for guard in its.values():
            guard.is_sure = False
        says(f"this guard itself stood still for {span}, as one that is stopped, or whose machine sleeps", "still")

    pulse = Pulse(stood_still)
    asked = Asked(functools.partial(asks, lab, tuple(table), pulse))
    for name, row in table.items():
        host, port = host_and_port(row["instrument"])
        its[name] = Guard(Way(name, host, port, row["by_host"], row["settle"], row["clear"]), where.addresses, asked.answer, functools.partial(says, kind=f"not {name}"))
    for name, row in table.items():
        at = host_and_port(row["listen"])
        servers.append(await listens(at, functools.partial(Caller, its[name]), None if row["by_host"] or is_here(at[0]) else context, FIRST_LINE))
        for it in servers[-1].sockets:
            notes_moments(it)
    web = None
    try:
        if args.metrics is not None:
            from .guard_metrics import serve_metrics

            web = await serve_metrics(list(its.values()), args.metrics)
        for (name, row), server in zip(table.items(), servers):
            say(f"guards {name} at {row['instrument']}: clients come to {written(*server.sockets[0].getsockname()[:2])}")
        tell_systemd("READY=1")
        await hears(its, lab, args, says, pulse)
    finally:
        for guard in its.values():
            guard.told(None)
        for server in servers:
            server.close()
        if web is not None:
            await web.cleanup()
    return 0


async def asks(lab: Lab, names: tuple[str, ...], pulse: Pulse) -> Optional[Answer]:
    """Who holds now. None: the broker doesn't answer."""
    import grpc

    from . import broker_pb2 as pb
    from .whose import Answer, boot

    call, asked_at = None, time.monotonic()
    try:
        call = lab._methods["Guard"](pb.GuardWish(instruments=names), metadata=lab._metadata)
        async with asyncio.timeout(ANSWER):
            async for told in call:
                at, moment = time.monotonic(), told.at_us / 1e6
                if told.boot and told.boot == boot() and asked_at <= moment <= at:
                    # (by this machine's own clock)
                    asked_at = at = moment
                return Answer(asked_at, at, {it.instrument: (it.token, it.held_us / 1e6 if it.HasField("held_us") else None) for it in told.holders})
    except (grpc.aio.AioRpcError, grpc.aio.UsageError, TimeoutError):
        pass
    except asyncio.CancelledError:
        # (so it ends, too, if the channel was closed here, as for another certificate, and not whoever asks)
        task = asyncio.current_task()
        if task is None or task.cancelling():
            raise
    finally:
        if call is not None:
            call.cancel()
    pulse.stood_still()
    return None


async def hears(its: dict[str, Guard], lab: Lab, args: argparse.Namespace, says: Callable[..., None], pulse: Pulse) -> None:
    """Goes on to hear who holds. While the broker is away who is let through stays so, and no other session is. One that is back may have
    another certificate."""
    goes_on = asyncio.create_task(pulse.goes_on())
    try:
        await _hears(its, lab, args, says, pulse)
    finally:
        goes_on.cancel()


async def _hears(its: dict[str, Guard], lab: Lab, args: argparse.Namespace, says: Callable[[str], None], pulse: Pulse) -> None:
    import grpc

    from . import broker_pb2 as pb
    from .guard import Holder
    from .errors import why_lost

    while True:
        try:
            wrong = await lab._reads_again(args.certificate, args.token_file)
            if wrong is not None:
                says(f"{wrong}; what was read before counts")
            # (of several the one that leads now)
            await lab._brokers.looks()
            async for told in lab._methods["Guard"](pb.GuardWish(instruments=list(its)), metadata=lab._metadata):
                for it in told.holders:
                    guard, who = its[it.instrument], f"{it.station} ({it.by})" if it.by else it.station
                    guard.is_told = True
                    guard.told(Holder(it.token, it.ticket_hash, who, it.host if it.HasField("host") else None) if it.token else None)
        except grpc.aio.AioRpcError as fault:
            # (who stood still has answered nothing, and read nothing: that the connection is over then isn't the broker's fault)
            if not pulse.stood_still():
                says(str(why_lost(lab.address, fault.code(), str(fault.details()), certificate=lab._certificate)))
        for guard in its.values():
            guard.is_told = False
        await asyncio.sleep(AGAIN)


class Pulse:
    """By this process's own clock: whether it stood still, as one that is stopped does, or one whose machine sleeps. `says` is told for how long."""

    def __init__(self, says: Callable[[str], None]) -> None:
        self._says, self._at, self._still_until = says, clock(), -math.inf

    async def goes_on(self) -> None:
        while True:
            await asyncio.sleep(BEAT)
            self.stood_still()

    def stood_still(self) -> bool:
        """Whether it did until just now."""
        before, self._at = self._at, clock()
        if self._at - before > BEAT + LATE:
            self._still_until = self._at
            self._says(span(self._at - before))
        return self._at < self._still_until + JUST


class Where:
    """The addresses of the machine whose broker is asked now, from which a client comes that is there; none if that is this machine."""

    def __init__(self, broker: Callable[[], str]) -> None:
        self._broker, self._of = broker, ""
        self._found, self._until = frozenset[str](), 0.0

    def addresses(self) -> frozenset[str]:
        if (broker := self._broker()) != self._of or time.monotonic() > self._until:
            self._of, self._until = broker, time.monotonic() + SELDOM
            self._found = _of_machine(broker)
        return self._found


def _of_machine(broker: str) -> frozenset[str]:
    at = parsed(broker)
    if isinstance(at, str) or is_here(at[0]):
        return frozenset()
    try:
        found = frozenset(str(it[4][0]) for it in socket.getaddrinfo(at[0], None))
    except OSError:
        found = frozenset({at[0]})
    return frozenset() if any(is_of_this_machine(it) for it in found) else found


def is_of_this_machine(address: str) -> bool:
    try:
        with socket.socket(family_of(address), socket.SOCK_DGRAM) as one:
            one.bind((address, 0))
        return True
    except OSError:
        return False
