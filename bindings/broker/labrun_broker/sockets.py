"""Sockets to listen at: of Unix sockets who may use them, and what becomes of those that a broker left which is gone; of all others TLS."""

from __future__ import annotations

import asyncio
import contextlib
import grp
import os
import select
import shutil
import socket
import ssl
import stat
from typing import Callable, Iterator, Optional, Union

from .bay import BadAddress
from .credentials import is_certificate
from .words import NoFile, reading

# its owner and the group, or its owner alone
THE_GROUP, ITS_USER = 0o117, 0o177
MOST_PORT = 65535
NO_CERTIFICATE = "there is no certificate in it (as PEM)"


def parsed(text: str) -> Union[str, tuple[str, int]]:
    """The path of `unix:PATH`, or the host and port of `HOST:PORT`."""
    if text.startswith("unix:"):
        return text.removeprefix("unix:")
    host, colon, port = text.rpartition(":")
    if not colon or not port.isascii() or not port.isdigit():
        raise BadAddress(f"{text}: unix:PATH or HOST:PORT is wanted")
    if int(port) > MOST_PORT:
        raise BadAddress(f"{text}: it can't listen there: a port is {MOST_PORT} at most")
    return host.strip("[]"), int(port)


def written(host: str, port: int) -> str:
    return f"[{host}]:{port}" if ":" in host else f"{host}:{port}"


async def listens(at: tuple[str, int], new: Callable[[], asyncio.BaseProtocol], tls: Optional[ssl.SSLContext], patience: float) -> asyncio.Server:
    """By the network; who comes has so many seconds for TLS. BadAddress says why it can't."""
    try:
        loop = asyncio.get_running_loop()
        return await loop.create_server(new, *at, family=family_of(at[0]), ssl=tls, ssl_handshake_timeout=patience if tls else None)
    except OSError as fault:
        # (the loop's own text has the address once more)
        why = os.strerror(fault.errno) if fault.errno and fault.errno > 0 else fault.strerror or fault
        raise BadAddress(f"{written(*at)}: it can't listen there: {why}") from None


def tls_of(certificate: str, key: str) -> ssl.SSLContext:
    """NoFile: a file can't be read, or hasn't what it should; BadAddress: they don't go together, or aren't strong enough."""
    with reading(f"--tls-certificate {certificate}"), open(certificate, "rb") as file:
        is_one = is_certificate(file.read())
    with reading(f"--tls-key {key}"), open(key, "rb"):
        pass
    if not is_one:
        raise NoFile(f"--tls-certificate {certificate}: {NO_CERTIFICATE}")
    made = ssl.SSLContext(ssl.PROTOCOL_TLS_SERVER)
    try:
        made.load_cert_chain(certificate, key)
    except ssl.SSLError as fault:
        if _is_weak(fault):
            raise BadAddress(f"--tls-certificate {certificate}: this isn't strong enough: {fault.reason}") from None
        raise (BadAddress if _is_anothers(fault) else NoFile)(f"--tls-key {key}: {_why_no_key(fault, certificate)}") from None
    return made


def why_no_key(certificate: str, key: str) -> str:
    """Why a file doesn't have the key of a certificate, if it doesn't. (One that isn't strong enough here may be so for whoever asks for it.)"""
    try:
        ssl.SSLContext(ssl.PROTOCOL_TLS_CLIENT).load_cert_chain(certificate, key)
    except ssl.SSLError as fault:
        return "" if _is_weak(fault) else _why_no_key(fault, certificate)
    return ""


def _is_weak(fault: ssl.SSLError) -> bool:
    return "TOO_" in (fault.reason or "")


def _is_anothers(fault: ssl.SSLError) -> bool:
    """(The latter of a key of another kind.)"""
    return "MISMATCH" in (fault.reason or "") or fault.reason == "NO_CERTIFICATE_ASSIGNED"


def _why_no_key(fault: ssl.SSLError, certificate: str) -> str:
    return f"this isn't the key of the certificate {certificate}" if _is_anothers(fault) else "there is no key in it (as PEM)"


def family_of(host: str) -> socket.AddressFamily:
    return socket.AF_INET6 if ":" in host else socket.AF_INET


def is_left(number: int) -> bool:
    """Whether the other end of a connection has closed it, read or not."""
    looks = select.poll()
    looks.register(number, select.POLLRDHUP)
    return bool(looks.poll(0))


def clear(path: str, told: Optional[str] = None) -> None:
    """Nobody listens there. A socket that a broker left which is gone is taken away. `told` is the address that people know it by."""
    folder = os.path.dirname(os.path.abspath(path))
    if not os.access(folder, os.W_OK):
        raise BadAddress(f"unix:{path}: no socket can be made in {folder}")
    if os.path.lexists(path) and not stat.S_ISSOCK(os.lstat(path).st_mode):
        raise BadAddress(f"unix:{path}: that is there, and is no socket")
    with contextlib.closing(socket.socket(socket.AF_UNIX)) as other:
        try:
            other.connect(path)
        except FileNotFoundError:
            return
        except ConnectionRefusedError:
            os.unlink(path)
            return
        except OSError as fault:
            raise BadAddress(f"unix:{path}: {fault.strerror or fault}") from None
    raise BadAddress(f"{told or f'unix:{path}'}: another broker listens there")


@contextlib.contextmanager
def made_for(mask: int) -> Iterator[None]:
    """A socket that is made meanwhile is for nobody else."""
    before = os.umask(mask)
    try:
        yield
    finally:
        os.umask(before)


def check_group(group: Optional[str]) -> None:
    """Sockets can be given to this group, if one is named."""
    if group is None:
        return
    try:
        number = grp.getgrnam(group).gr_gid
    except KeyError:
        raise BadAddress(f"--group {group}: there is no such group") from None
    if os.geteuid() and number not in (os.getegid(), *os.getgroups()):
        raise BadAddress(f"--group {group}: only its members and root can give it a socket")


def give(path: str, group: Optional[str]) -> None:
    """The socket is of this group, if one is named."""
    if group is not None:
        shutil.chown(path, group=group)


def bound(path: str, group: Optional[str]) -> socket.socket:
    """A socket at a path where nobody listens."""
    clear(path)
    made = socket.socket(socket.AF_UNIX)
    try:
        with made_for(THE_GROUP):
            made.bind(path)
        give(path, group)
    except BaseException as fault:
        made.close()
        if isinstance(fault, OSError):
            raise BadAddress(f"unix:{path}: {fault.strerror or fault}") from None
        raise
    return made
