"""Where the broker is, who asks it, and by which files: what a client needs before it asks."""

from __future__ import annotations

import os
import socket
from typing import Any, Optional

DEFAULT = "unix:/run/labrun/bay.sock"
# where a client's own token is, if nothing else says it. ($LABRUN_TOKEN is the number of a session)
TOKEN_FILE, CERTIFICATE_FILE = "LABRUN_BROKER_TOKEN_FILE", "LABRUN_BROKER_CERTIFICATE_FILE"


class Address(str):
    """Where a client asks. `files` are the words by which it was given its token and the certificate: a command that asks there wants them, too."""

    files: tuple[str, ...] = ()


def address_with(address: str, token_file: Any, certificate_file: Any) -> Address:
    its = Address(address)
    given = (("--token-file", token_file), ("--certificate", certificate_file))
    its.files = tuple(word for option, file in given if file for word in (option, os.fsdecode(file)))
    return its


def without_token(address: Address) -> Address:
    """As one that is asked by somebody else's token."""
    its = Address(address)
    its.files = address.files[2:] if address.files[:1] == ("--token-file",) else address.files
    return its


def usual_address() -> str:
    """Where a client asks that is told no address."""
    return os.environ.get("LABRUN_BROKER") or DEFAULT


def user() -> str:
    """As ann@bench-3."""
    import getpass

    try:
        name = getpass.getuser()
    except (KeyError, OSError):
        name = str(os.getuid())
    return f"{name}@{socket.gethostname()}"


def token_in(path: Optional[str]) -> Optional[str]:
    """The token in a file, or in that which LABRUN_BROKER_TOKEN_FILE names; None: there is none. OSError; BadWish: no token is in it."""
    if not (path := path or os.environ.get(TOKEN_FILE)):
        return None
    with open(path, encoding="ascii", errors="replace") as file:
        token = file.read().strip()
    if not is_token(token):
        from .errors import BadWish

        raise BadWish(f"{path}: a token is one line of letters, digits and signs, and this file {'has something else' if token else 'is empty'}")
    return token


def certificate_in(path: Optional[str]) -> Optional[bytes]:
    """What is in the file of a certificate, or in that which LABRUN_BROKER_CERTIFICATE_FILE names; None: there is none. OSError; BadWish: no
    certificate is in it."""
    if not (path := path or os.environ.get(CERTIFICATE_FILE)):
        return None
    with open(path, "rb") as file:
        certificate = file.read()
    if not is_certificate(certificate):
        from .errors import BadWish

        raise BadWish(f"{path}: there is no certificate in it (as PEM)")
    return certificate


def is_certificate(pem: bytes) -> bool:
    import ssl

    try:
        ssl.SSLContext(ssl.PROTOCOL_TLS_CLIENT).load_verify_locations(cadata=pem.decode("ascii", "ignore"))
    except (ssl.SSLError, ValueError):
        return False
    return True


def is_token(text: str) -> bool:
    """(Of anything else gRPC would make no header, and say it.)"""
    return bool(text) and all(" " <= it <= "~" for it in text)
