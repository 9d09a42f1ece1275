"""labrun-broker serve --etcd: the broker stands by until it leads. It doesn't listen before."""

from __future__ import annotations

import argparse
import asyncio
import contextlib
import os
import re
import socket
import time
from dataclasses import replace
from typing import TYPE_CHECKING, Any, Callable, NamedTuple, Optional

from labrun import LabrunError

from .aside import Aside
from .bay import Bay, BayFault, read_bay
from .credentials import is_certificate
from .sockets import MOST_PORT, NO_CERTIFICATE, parsed, why_no_key
from .words import NOT_WRITTEN, NoFile, reading, say, tell_systemd

if TYPE_CHECKING:
    from .door import Door
    from .etcd import Etcd
    from .folder import State
    from .own import Own

# seconds of a lease. (etcd has none that is much shorter; and a broker that etcd doesn't answer ends before it would tell anybody that his wish
# wasn't written)
LEAST_LEASE, MOST_LEASE = 2, 10
EVERYWHERE = ("", "0.0.0.0", "::")


def add_etcd(parser: argparse.ArgumentParser) -> None:
    where = "keep the journal in etcd, at HOST:PORT,HOST:PORT: of several brokers with the same words one leads, and the others stand by"
    parser.add_argument("--etcd", metavar="ADDRS", help=where)
    lease = f"for how long one that leads may be silent before another does, {LEAST_LEASE} to {MOST_LEASE}; 5 without"
    parser.add_argument("--lease", metavar="SECONDS", type=lease_of, default=5, help=lease)
    parser.add_argument("--etcd-ca", metavar="FILE", help="the certificate to know etcd by, for TLS")
    parser.add_argument("--etcd-cert", metavar="FILE", help="the certificate by which etcd knows this broker")
    parser.add_argument("--etcd-key", metavar="FILE", help="its key")
    parser.add_argument("--etcd-user", metavar="NAME", help="as which user of etcd")
    parser.add_argument("--etcd-password-file", metavar="FILE", help="that user's password")


class WrongWords(Exception):
    """Of the options for etcd."""


def lease_of(text: str) -> int:
    if not text.isascii() or not text.isdigit() or not LEAST_LEASE <= int(text) <= MOST_LEASE:
        raise argparse.ArgumentTypeError(f"{text}: whole seconds from {LEAST_LEASE} to {MOST_LEASE} are wanted")
    return int(text)


def content(args: argparse.Namespace, option: str) -> Optional[bytes]:
    """Of the file that an option names, if it does. NoFile."""
    path = getattr(args, option.removeprefix("--").replace("-", "_"))
    if path is None:
        return None
    with reading(f"{option} {path}"), open(path, "rb") as file:
        return file.read()


def etcd_of(args: argparse.Namespace) -> Etcd:
    """WrongWords; NoFile: a file can't be read, or hasn't what it should."""
    import grpc

    from .etcd import Etcd

    if (args.etcd_cert is None) != (args.etcd_key is None):
        raise WrongWords("a certificate and its key belong together: --etcd-cert FILE --etcd-key FILE")
    if (args.etcd_user is None) != (args.etcd_password_file is None):
        raise WrongWords("a user and a password belong together: --etcd-user NAME --etcd-password-file FILE")
    endpoints, credentials = endpoints_in(args.etcd), None
    if args.etcd_ca is not None or args.etcd_cert is not None or any(it.startswith("https:") for it in endpoints):
        credentials = grpc.ssl_channel_credentials(*tls_files(args))
    return Etcd(endpoints, credentials, args.etcd_user or "", password_in(args))


def endpoints_in(text: str) -> list[str]:
    for it in (found := text.split(",")):
        if not re.fullmatch(r"(https?://)?[^/]+:[0-9]+", it) or it.startswith("unix:"):
            raise WrongWords(f"--etcd {it}: HOST:PORT is wanted")
        if int(it.rpartition(":")[2]) > MOST_PORT:
            raise WrongWords(f"--etcd {it}: a port is {MOST_PORT} at most")
    return found


def tls_files(args: argparse.Namespace) -> tuple[Optional[bytes], Optional[bytes], Optional[bytes]]:
    """The authority's certificate, and this broker's key and certificate. (Of what is no such thing gRPC would say that etcd doesn't answer.)"""
    authority, key, certificate = (content(args, it) for it in ("--etcd-ca", "--etcd-key", "--etcd-cert"))
    for option, path, its in (("--etcd-ca", args.etcd_ca, authority), ("--etcd-cert", args.etcd_cert, certificate)):
        if its is not None and not is_certificate(its):
            raise NoFile(f"{option} {path}: {NO_CERTIFICATE}")
    if key is not None and (why := why_no_key(args.etcd_cert, args.etcd_key)):
        raise NoFile(f"--etcd-key {args.etcd_key}: {why}")
    return authority, key, certificate


def password_in(args: argparse.Namespace) -> str:
    if (its := content(args, "--etcd-password-file")) is None:
        return ""
    with contextlib.suppress(UnicodeDecodeError):
        if found := its.decode().strip():
            return found
    raise NoFile(f"--etcd-password-file {args.etcd_password_file}: a password is one line of text, and this file {'has something else' if its.strip() else 'is empty'}")


def listens_at(addresses: tuple[str, ...]) -> str:
    """Where others reach this broker, as far as its own words say so."""
    for it in addresses:
        if not isinstance(at := parsed(it), str):
            host = socket.gethostname() if at[0] in EVERYWHERE else at[0]
            return f"[{host}]:{at[1]}" if ":" in host else f"{host}:{at[1]}"
    return f"{socket.gethostname()}, {addresses[0]}"


class Led(NamedTuple):
    """What the keeping of one that leads is opened with; and what is to be told of its bay, if that isn't of its own file."""

    bay: Bay
    opens: Callable[[str, bool], State]
    says: list[str]


async def until_it_leads(args: argparse.Namespace, bay: Bay, door: Door, end: asyncio.Event) -> Optional[Led]:
    """None: the broker is ended before it leads."""
    from .leading import Leading, file_mark
    from .replica import Replica

    etcd, file = etcd_of(args), records_in(args.state, args.sync == "data")
    is_read = None if file is None else asyncio.create_task(reads(file))
    leading = Leading(etcd, bay, listens_at(door.addresses), args.lease, ends)
    leads = asyncio.create_task(asyncio.to_thread(leading.leads, stands_by))
    ended = asyncio.create_task(end.wait())
    await asyncio.wait({leads, ended}, return_when=asyncio.FIRST_COMPLETED)
    if not leads.done():
        await asyncio.to_thread(leading.close)
    if not await leads:
        return None
    ended.cancel()
    if is_read is not None:
        await is_read
    applied = await asyncio.to_thread(leading.applied)
    if applied is None:
        # (who may come is as the file has it by now: it may be long since it was read)
        return Led(replace(bay, people=read_bay(args.bay).people), lambda *_: Replica(leading, file), [])
    it, its_bay = applied
    with contextlib.suppress(BayFault, OSError):
        bay = read_bay(args.bay)
    at = time.strftime("%Y-%m-%d %H:%M", time.localtime(it.at))
    says = [f"it goes by the bay that was applied by {it.by}, {at}, and {args.bay} is another one: to go by that, apply it"]
    return Led(its_bay, lambda *_: Replica(leading, file), says if file_mark(bay) != it.mark else [])


def stands_by(text: str) -> None:
    say(text)
    tell_systemd(f"READY=1\nSTATUS={text}")


def ends(why: str) -> None:
    """At once, and without an answer to anybody: those who asked ask the one that leads."""
    from .door import is_read

    if is_read():
        say(f"ends: {why}")
    os._exit(NOT_WRITTEN)


async def reads(file: Own) -> None:
    aside = Aside("records")
    await aside.given(file.reads)
    aside.ends()


def records_in(folder: Optional[str], syncs: bool) -> Optional[Own]:
    """The file of the records of what this broker does while it leads."""
    from .folder import JOURNAL, RECORDS
    from .own import Own

    if folder is None:
        return None
    if os.path.exists(path := f"{folder}/{JOURNAL}") and os.path.getsize(path):
        raise LabrunError(f"{path}: a broker without --etcd kept it, and etcd doesn't know who holds by it. Once all have let go, move it away")
    os.makedirs(folder, 0o750, exist_ok=True)
    return Own(folder, f"{folder}/{RECORDS}", syncs)
