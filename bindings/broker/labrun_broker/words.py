"""What all words of the command share: what a word is, the statuses of their ends, and what is said to people."""

from __future__ import annotations

import argparse
import contextlib
import os
import socket
import sys
from typing import TYPE_CHECKING, Any, Callable, Iterator, NamedTuple, Optional

from .credentials import CERTIFICATE_FILE, DEFAULT, TOKEN_FILE, Address, address_with, certificate_in, token_in, usual_address
from .texts import address

if TYPE_CHECKING:
    from .client import Lab

# what is run is to have, whatever is changed here
ENVIRONMENT = dict(os.environ)
PROGRAM, ABOUT = "labrun-broker", "a lab's instruments, shared by programs, people and machines"


class Word(NamedTuple):
    """A word of the command line: what it does, its arguments, and what runs it, which gives the status."""

    name: str
    help: str
    add_arguments: Callable[[argparse.ArgumentParser], None]
    run: Callable[[argparse.Namespace], int]


# the status of each end that isn't the command's own
USAGE, NO_FILE, UNREACHABLE, NOT_WRITTEN, TIMED_OUT, TAKEN, MAY_NOT, NO_BAY, CANT_RUN, NOT_FOUND, INTERRUPTED = 2, 66, 69, 74, 75, 76, 77, 78, 126, 127, 130

STATUSES = (
    ("0", "done; `hold` gives the status of what it ran, or 128 and the number of the signal that ended it"),
    (
        "1",
        "the broker said no, as to a station that the bay doesn't have, or a release of one that holds nothing; `bay check` or `bay apply` found "
        "faults; another broker has the state folder; a folder has no records; or what this was to write can't be written",
    ),
    (str(USAGE), "the words aren't right, or the bay has no instrument of that name"),
    (str(NO_FILE), "a file can't be read, of a bay, guards, a token, a certificate, a key or a password, or that isn't in it; nor a state folder"),
    (str(UNREACHABLE), "the broker can't be reached, or doesn't let this client in; of `hold`, the command may have run"),
    (
        str(NOT_WRITTEN),
        "the broker couldn't write down what it did; of `hold`, the command may have run; `serve` can't read its own journal, ended before all was "
        "written, or leads no more (at etcd)",
    ),
    (str(TIMED_OUT), "the time limit passed; nothing was run"),
    (str(TAKEN), "the session was taken away; if the command ran already, it got SIGTERM"),
    (str(MAY_NOT), "the station, a guest or you may not use one of the instruments, or only operators may do that"),
    (str(NO_BAY), "the file of the bay, or of guards, has faults, or lacks what somebody holds; or the broker may not listen there"),
    (f"{CANT_RUN}, {NOT_FOUND}", "what `hold` was to run can't be run, or isn't there"),
    (str(INTERRUPTED), "Ctrl-C"),
)


def say(text: str) -> None:
    # (in one piece: others say something at the same time)
    sys.stderr.write(f"{PROGRAM}: {text}\n")
    sys.stderr.flush()


def tell_systemd(text: str) -> None:
    if path := os.environ.get("NOTIFY_SOCKET"):
        with contextlib.suppress(OSError), socket.socket(socket.AF_UNIX, socket.SOCK_DGRAM) as to:
            to.sendto(text.encode(), f"\0{path[1:]}" if path.startswith("@") else path)


def add_client(parser: argparse.ArgumentParser) -> None:
    parser.add_argument("--broker", metavar="ADDR", type=address, help=f"where the broker listens, or several, with commas between; without, LABRUN_BROKER says it, or it is {DEFAULT}")
    token = f"your token, for a broker on another machine or one that asks who you are; without, {TOKEN_FILE} says where it is"
    parser.add_argument("--token-file", metavar="FILE", help=token)
    known = f"the certificate to know that broker by, and guards; of several, one behind the other; without, {CERTIFICATE_FILE} says where it is"
    parser.add_argument("--certificate", metavar="FILE", help=known)


class NoFile(Exception):
    """A file that is named can't be read, or something else is in it."""


@contextlib.contextmanager
def reading(name: str, what: str = "file") -> Iterator[None]:
    """What is wrong is said with the file's name, and the option that gives it."""
    try:
        yield
    except FileNotFoundError:
        raise NoFile(f"{name}: there is no such {what}") from None
    except PermissionError:
        raise NoFile(f"{name}: you may not read it") from None
    except OSError as fault:
        raise NoFile(f"{name}: {fault.strerror}") from None


def files_of(args: argparse.Namespace) -> tuple[Optional[str], Optional[bytes]]:
    """The client's token, and the certificate to know the broker by; each is read once. NoFile."""
    if "files" not in args:
        args.files = _read("--token-file", args.token_file, TOKEN_FILE, token_in), _read("--certificate", args.certificate, CERTIFICATE_FILE, certificate_in)
    its: tuple[Optional[str], Optional[bytes]] = args.files
    return its


def _read(option: str, path: Optional[str], variable: str, reads: Callable[[Optional[str]], Any]) -> Any:
    name = option if path else variable
    try:
        with reading(f"{name} {path or os.environ.get(variable)}"):
            return reads(path)
    except ValueError as fault:
        raise NoFile(f"{name} {fault}") from None


def address_of(args: argparse.Namespace) -> Address:
    return address_with(args.broker or usual_address(), args.token_file, args.certificate)


def lab_of(args: argparse.Namespace, station: str = "", by: Optional[str] = None) -> Lab:
    token, certificate = files_of(args)
    # (what a `hold` does without. A command is begun in the midst of gRPC's threads; and nothing of gRPC goes on in it)
    os.environ.setdefault("GRPC_ENABLE_FORK_SUPPORT", "0")
    from .client import lab_at

    lab = lab_at(address_of(args), station, by, token, certificate)
    lab._on_wait = lambda text: say(f"waits: {text}")
    return lab
