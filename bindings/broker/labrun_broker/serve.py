"""labrun-broker serve."""

from __future__ import annotations

import argparse
import asyncio
import contextlib
import dataclasses
import os
import resource
import signal
import sys
import threading
from typing import TYPE_CHECKING, Any, Awaitable, Callable, Iterator, NamedTuple, Optional, Union

import labrun

from .bay import BadAddress, Bay
from .credentials import DEFAULT
from .labs import Lab, read_any, texts_of
from .standby import add_etcd, until_it_leads
from .texts import called, counted, mebibytes, plain, seconds
from .words import NOT_WRITTEN, USAGE, reading, say, tell_systemd

if TYPE_CHECKING:
    from .aside import Aside
    from .door import Door
    from .entrance import Entrance
    from .folder import State
    from .bays import Kept

LEAST_GRACE = 1.0
MOST_TOLD = 2000  # characters of a line: a pipe that can take any takes as much


def add_serve(parser: argparse.ArgumentParser) -> None:
    parser.add_argument("bay", metavar="BAY", help="the bay, a TOML file; see `bay check`")
    parser.add_argument("--state", metavar="DIR", help="keep the journal and the records there: a broker that is killed goes on where it was")
    size = "of the state: from so many MiB on the bay's journal begins anew; 4 without"
    parser.add_argument("--journal-size", metavar="MIB", type=mebibytes, default=mebibytes("4"), help=size)
    parser.add_argument("--listen", metavar="ADDR", action="append", help=f"unix:PATH or HOST:PORT, as often as wanted; {DEFAULT} without")
    parser.add_argument("--group", metavar="GROUP", help="whose members may use the Unix sockets, which have the mode 0660")
    grace = "with gone = \"release\": for how long a session is kept whose client says nothing, 60 without"
    parser.add_argument("--grace", metavar="SECONDS", type=seconds, default=60.0, help=grace)
    parser.add_argument("--http", metavar="ADDR", action="append", default=[], help="HTTP and JSON, too, at unix:PATH or HOST:PORT, as often as wanted")
    parser.add_argument("--http-origin", metavar="URL", action="append", default=[], help="a page of there may ask by HTTP, as http://bench-3:8000")
    parser.add_argument("--page", metavar="ADDR", help="show how the bay stands to browsers there")
    parser.add_argument("--metrics", metavar="ADDR", help="tell Prometheus there")
    parser.add_argument("--tls-certificate", metavar="FILE", help="for other machines: the broker's certificate")
    parser.add_argument("--tls-key", metavar="FILE", help="its key")
    parser.add_argument("--token-file", metavar="FILE", help="what clients have to know that come by the network: each line of it lets in")
    add_etcd(parser)
    parser.add_argument("--sync", choices=("data", "none"), default="data", help="none: what is written outlives the broker, and may not the machine")


def run_serve(args: argparse.Namespace) -> int:
    return asyncio.run(serve(args))


async def serve(args: argparse.Namespace) -> int:
    # (what only the broker needs: a client begins sooner without)
    from .folder import Folder

    with reading(args.bay):
        read = read_any(args.bay)
    if (why := cant_be(args, read)) is not None:
        say(why)
        return USAGE
    _, hard = resource.getrlimit(resource.RLIMIT_NOFILE)
    resource.setrlimit(resource.RLIMIT_NOFILE, (hard, hard))
    # (the thread that syncs a slow disk isn't to wait for the interpreter's lock when it is through)
    sys.setswitchinterval(0.0005)
    doors = doors_of(args, whole_of(read))
    # (before a state is opened, or etcd asked)
    doors.network.tls()
    end = the_end()
    # (while it begins, or stands by, there is no bay to be changed)
    asyncio.get_running_loop().add_signal_handler(signal.SIGHUP, lambda: None)
    opens: Callable[[str, bool], State] = Folder
    # (at first stands which bay it is, and where)
    begins = list[str]()
    if args.etcd is not None and isinstance(read, Bay):
        if (led := await until_it_leads(args, read, doors.network, end)) is None:
            return 0
        read, opens, begins, doors = led.bay, led.opens, led.says, doors.of_bay(led.bay)
    keeping = its_keeping(args, read, opens)
    keeping.says = begins.append
    return await serves(args, keeping, read, doors, end, begins)


def cant_be(args: argparse.Namespace, read: Union[Bay, Lab]) -> Optional[str]:
    """Why no broker keeps it with these words."""
    if isinstance(read, Lab) and args.etcd is not None:
        return f"{args.bay} has [bays], and at etcd a broker keeps one bay: give each bay brokers of its own, or keep the lab in a folder (--state)"
    if any(it.its_gone.may_release for it in bays_in(read)) and args.grace < LEAST_GRACE:
        return f"--grace {args.grace:g}: where gone = \"release\" it is {LEAST_GRACE:g} s at least, so that a client that is there can say so"
    return None


def bays_in(read: Union[Bay, Lab]) -> tuple[Bay, ...]:
    return tuple(read.bays.values()) if isinstance(read, Lab) else (read,)


def whole_of(read: Union[Bay, Lab]) -> Bay:
    return read.whole if isinstance(read, Lab) else read


class Doors(NamedTuple):
    """That of gRPC, and that of HTTP."""

    network: Door
    by_http: Door

    def of_bay(self, bay: Bay) -> Doors:
        # (without people a door that needed no token would let in everybody)
        return Doors(*(dataclasses.replace(it, has_people=bool(bay.people)) for it in self)).checked()

    def checked(self) -> Doors:
        for it in self:
            it.check()
        return self


def doors_of(args: argparse.Namespace, bay: Bay) -> Doors:
    from .door import Door

    its = Door(tuple(args.listen or (DEFAULT,)), args.tls_certificate, args.tls_key, args.token_file, args.group, bool(bay.people))
    return Doors(its, dataclasses.replace(its, addresses=tuple(args.http))).checked()


def its_keeping(args: argparse.Namespace, read: Union[Bay, Lab], opens: Callable[[str, bool], State]) -> Kept:
    """What keeps it; it isn't open yet."""
    from .bays import Bays
    from .keeping import Keeping

    its = max(LEAST_GRACE, args.grace), args.sync == "data"
    keeping: Kept = Bays(read, args.state, *its) if isinstance(read, Lab) else Keeping(read, args.etcd or args.state, *its, opens)
    keeping.most_bytes = args.journal_size
    return keeping


async def serves(args: argparse.Namespace, keeping: Kept, read: Union[Bay, Lab], doors: Doors, end: asyncio.Event, begins: list[str]) -> int:
    """From its opening to its end; the status. `begins` is said once it is open."""
    from .aside import Aside, Lines
    from .door import is_read
    from .here import commands

    ends = contextlib.AsyncExitStack()
    try:
        with told_if_late(args.state, args.etcd):
            await keeping.open()
        ends.push_async_callback(keeping.close)
        entrance = await opens_doors(args, keeping, doors, ends)
        say_where(args, read, doors)
        lacking = [line for one in bays_in(read) for line in commands(one)]
        for it in (*keeping.complaints, *doors.network.complaints(), *entrance.complaints(), *lacking, *begins):
            say(plain(it))
        lines = Lines(say)
        keeping.says = lambda text: lines.add(plain(text)[:MOST_TOLD]) if is_read() else None
        tell_systemd("READY=1\nSTATUS=")
        files = Aside("files")
        asyncio.get_running_loop().add_signal_handler(signal.SIGHUP, lambda: hears(keeping, args.bay, files))
        await end.wait()
        keeping.begins_to_end()
        tell_systemd("STOPPING=1")
    finally:
        await ends.aclose()
    for text in keeping.lost:
        keeping.says(text)
    await lines.are_said()
    return NOT_WRITTEN if keeping.lost else 0


async def opens_doors(args: argparse.Namespace, keeping: Kept, doors: Doors, ends: contextlib.AsyncExitStack) -> Entrance:
    from . import service
    from .entrance import Entrance

    entrance = Entrance(keeping, doors.network.tokens(), doors.network.seen_without_token(doors.by_http))
    # (whoever finds the broker's socket finds that of HTTP, too: it is there sooner, and for longer)
    for runner in await by_requests(args, keeping, doors.by_http, entrance):
        ends.push_async_callback(runner.cleanup)
    server = await service.start(keeping, doors.network, entrance)
    ends.push_async_callback(server.stop, 0.5)
    for runner in await web(args, keeping):
        ends.push_async_callback(runner.cleanup)
    return entrance


def say_where(args: argparse.Namespace, read: Union[Bay, Lab], doors: Doors) -> None:
    bay, where = whole_of(read), " ".join(doors.network.addresses) + (f", by HTTP at {' '.join(args.http)}" if args.http else "")
    of = f"{counted(len(read.bays), 'bay')} ({', '.join(read.bays)}), " if isinstance(read, Lab) else ""
    leads = "" if args.etcd is None else "leads: "
    say(f"{leads}{called(bay.what, bay.name)}: {of}{counted(len(bay.instruments), 'instrument')}, at {where}")


@contextlib.contextmanager
def told_if_late(state: Optional[str], etcd: Optional[str]) -> Iterator[None]:
    """A disk that hangs, or an etcd that is slow, holds up the loop, and signals with it, while the state is opened. (At etcd `state` is for the
    records alone.)"""
    from .turning import STANDS

    what, why = (state, "a disk doesn't answer") if etcd is None else (f"the state in etcd at {etcd}", "etcd is slow")
    late = threading.Timer(STANDS, lambda: say(plain(f"{what} isn't open after {STANDS:g} s, as where {why}; nobody is let in before it is")))
    late.daemon = True
    if what is not None:
        late.start()
    try:
        yield
    finally:
        late.cancel()


def hears(keeping: Kept, path: str, files: Aside) -> None:
    """SIGHUP: the bay goes on as its file has it by now. On a disk that hangs it may take for ever to read that; and what is read is applied in
    the order of the signals."""
    task = asyncio.ensure_future(applies(keeping, path, files))
    keeping.tasks.add(task)
    task.add_done_callback(keeping.tasks.discard)


async def applies(keeping: Kept, path: str, files: Aside) -> None:
    try:
        if not await applies_file(keeping, path, files):
            keeping.says(f"{path}: nothing has changed")
    except (labrun.LabrunError, OSError, ValueError) as fault:
        at, why = (fault.filename, fault.strerror) if isinstance(fault, OSError) and fault.filename else (path, str(fault))
        for line in why.split("\n"):
            keeping.says(f"{at}: {line}")


async def applies_file(keeping: Kept, path: str, files: Aside) -> list[str]:
    from .applying import apply
    from .bays import Bays
    from .lab_applying import apply_lab

    is_lab = isinstance(keeping, Bays)
    text, texts = await files.given(lambda: its_texts(path, is_lab))
    if isinstance(keeping, Bays):
        return await apply_lab(keeping, text, texts, "a signal", False)
    return await apply(keeping, text, "a signal", False)


def its_texts(path: str, is_lab: bool) -> tuple[str, dict[str, str]]:
    if os.path.exists(path) and not os.path.isfile(path):
        # (it would be waited for whoever writes into a pipe)
        raise OSError("it is no file")
    if is_lab:
        return texts_of(path)
    with open(path, encoding="utf-8") as file:
        return file.read(), {}


# (what needs packages that the broker alone doesn't)


async def by_requests(args: argparse.Namespace, keeping: Kept, by_http: Door, entrance: Entrance) -> list[Any]:
    if not by_http.addresses:
        return []
    from .http_door import serve_http

    return list(await shown("--http", serve_http, keeping, by_http, entrance, args.http_origin))


async def web(args: argparse.Namespace, keeping: Kept) -> list[Any]:
    """What only shows."""
    runners: list[Any] = []
    if args.page is not None:
        from .page import serve_page

        runners.append(await shown("--page", serve_page, keeping, args.page, args.group))
    if args.metrics is not None:
        from .metrics import serve_metrics

        runners.append(await shown("--metrics", serve_metrics, keeping, args.metrics, args.group))
    return runners


async def shown(option: str, serves: Callable[..., Awaitable[Any]], *given: Any) -> Any:
    """A fault of its address says which of the broker's it is."""
    try:
        return await serves(*given)
    except BadAddress as fault:
        raise BadAddress(f"{option} {fault}") from None


def the_end() -> asyncio.Event:
    """Somebody ends the broker."""
    loop, end = asyncio.get_running_loop(), asyncio.Event()
    for number in (signal.SIGINT, signal.SIGTERM):
        loop.add_signal_handler(number, end.set)
    return end
