"""The broker's client.

    lab = labrun_broker.connect("unix:/run/labrun/bay.sock")
    with lab.hold("scope", "supply", timeout=5.0) as held:
        held.note(measure(held.instruments))

One stream serves one session at a time, and is used again. All of it runs on a loop with a thread of its own, so that a session whose
broker was killed is taken up again while its owner works."""

from __future__ import annotations

import asyncio
import atexit
import builtins
import contextlib
import itertools
import os
import sys
from types import TracebackType
from typing import Any, Callable, Coroutine, Iterable, Iterator, Mapping, Optional, Union

import grpc
import labrun
from labrun import picks

from . import broker_pb2 as pb
from .credentials import address_with, certificate_in, token_in, user, usual_address
from .errors import AnswerLost, BadWish, maybe_done, whole, why_lost
from .finding import Brokers
from .given import address_of, file_of, name_of, seconds, text_of
from .held import Held
from .quick import Quick
from .stream import Stream
from .texts import addresses_of
from .withdrawing import gives_up
from .work import NOT_AFTER_A_FORK, Result, UnderWay, Undo, Work, loop_of_this_process

# a question that a broker doesn't answer for so long won't be answered
ANSWER = 30.0
CLOSING = 3.0
MOST_SECONDS = 1000000000
SERVICE = "/labrun.broker.Broker/"
# calls after which something is another way
CHANGES = ("Release", "Apply", "Outage")
# what a status has only if there are several bays
OF_SEVERAL = ("bay", "bays")

OPTIONS = [
    ("grpc.max_receive_message_length", -1),
    ("grpc.keepalive_time_ms", 10000),
    ("grpc.keepalive_timeout_ms", 5000),
    ("grpc.initial_reconnect_backoff_ms", 100),
    ("grpc.min_reconnect_backoff_ms", 5000),
    ("grpc.max_reconnect_backoff_ms", 1000),
    ("grpc.enable_http_proxy", 0),
]


class Lab:
    """A bay that a broker keeps. Threads may share it, and no child of a fork may. See `connect`."""

    def __init__(self, address: str, station: str, token: Optional[str], certificate: Optional[bytes], by: str) -> None:
        self.address, self.station, self.by = address, station, by
        self._certificate = certificate
        self._metadata = _as_metadata(token)
        self._idle: list[Stream] = []
        self._held: set[Held] = set()
        # who waits, and who is leaving the line; and the calls of watches
        self._waiting: set[asyncio.Task[Any]] = set()
        self._leaving, self._watches = UnderWay(), set[Any]()
        # what goes on although nobody may wait for it, as one that lets go
        self._under_way = UnderWay()
        self._loop = loop_of_this_process()
        self._process = os.getpid()
        # it is called, once for each question, while no broker of a list answers
        self._on_wait: Optional[Callable[[str], None]] = None
        self._was_there = self._is_closed = self._has_left = False
        self._run(self._open())
        atexit.register(self._at_exit)

    async def _open(self) -> None:
        self._brokers = Brokers(addresses_of(self.address), self._certificate, OPTIONS, methods_of)

    async def _reads_again(self, certificate_file: Optional[str], token_file: Optional[str]) -> Optional[str]:
        """The files may have another certificate, and another token, by now. If not, as of one that is still being written, the former ones count,
        and what is wrong is told."""
        try:
            certificate, token = certificate_in(certificate_file), token_in(token_file)
        except (OSError, BadWish) as fault:
            return f"{fault.filename}: {fault.strerror}" if isinstance(fault, OSError) else str(fault)
        self._metadata = _as_metadata(token)
        if certificate != self._certificate:
            before, self._certificate = self._brokers, certificate
            await self._open()
            await before.close()
        return None

    @property
    def _methods(self) -> dict[str, Any]:
        return self._brokers.methods

    def _run(self, work: Coroutine[Any, Any, Result], goes_on: bool = False, undo: Optional[Undo] = None) -> Result:
        """Waits for work on the lab's loop; an interrupt cancels it, or lets it go on, and waits for that."""
        return self._work(work, goes_on, undo).result()

    def _work(self, work: Coroutine[Any, Any, Result], goes_on: bool, undo: Optional[Undo]) -> Work[Result]:
        if self._process != os.getpid():
            work.close()
            raise labrun.OtherProcess(self._process, "lab", NOT_AFTER_A_FORK)
        return Work(work, self._loop, goes_on, undo, self._under_way)

    def _may_go_on(self) -> None:
        """Before anything is asked."""
        if self._is_closed:
            raise labrun.Closed("the lab is closed")

    @contextlib.contextmanager
    def _until_closed(self) -> Iterator[None]:
        """Around what the lab's end ends."""
        self._may_go_on()
        task = asyncio.current_task()
        assert task is not None
        self._waiting.add(task)
        try:
            yield
        except asyncio.CancelledError:
            # (it may be the lab's end that ended it)
            self._may_go_on()
            raise
        finally:
            self._waiting.discard(task)

    async def _run_async(self, work: Coroutine[Any, Any, Result], goes_on: bool = False, undo: Optional[Undo] = None) -> Result:
        return await self._work(work, goes_on, undo).result_async()

    def hold(
        self, *instruments: str, timeout: Optional[float] = None, any_of: Iterable[Union[str, Iterable[str]]] = (), station: Optional[str] = None,
        waits: Optional[Callable[[str], None]] = None, limit: Optional[float] = None, warns: Optional[Callable[[str], None]] = None,
        urgent: bool = False,
    ) -> Held:
        """A session of these instruments, or of one of the sets `any_of`: `with lab.hold("scope", "supply"):`, or `async with`. After `timeout`
        seconds TimeoutError says who keeps it waiting, and it is given up. `waits` is called with a line whenever it is known for whom it waits,
        and when no word comes of the broker for some seconds, and one comes again. With a
        `limit` it may be taken away once it has held for so many seconds and somebody waits for what it has; `warns` is called with a line before
        the limit is over, be it this one or the bay's. Both are called on other threads, and may ask the lab. While an `urgent` one waits, nobody who asks later goes before it, nor before
        anybody who waits with it."""
        timeout, limit = seconds("timeout", timeout), seconds("limit", limit)
        if timeout is not None and not 0 <= timeout < MOST_SECONDS:
            raise BadWish(f"a timeout of {timeout:g} s; it is 0 or more, and below {MOST_SECONDS}")
        if limit is not None and not 0 < limit < MOST_SECONDS:
            raise BadWish(f"a limit of {limit:g} s; it is more than 0, and below {MOST_SECONDS}")
        for name, call in (("waits", waits), ("warns", warns)):
            if call is not None and not callable(call):
                raise BadWish(f"{name}: what is to be called is wanted, and not {call!r}")
        try:
            words, sets = picks.named(instruments), picks.choices_of(any_of)
        except ValueError as fault:
            raise BadWish(str(fault)) from None
        for it in itertools.chain(words, *sets):
            whole(it)
        choices = [pb.Instruments(names=it) for it in sets]
        wish = pb.Wish(instruments=words, any_of=choices, station=name_of("a station", self.station if station is None else station), by=self.by)
        wish.wants_waits, wish.pings = waits is not None, True
        if limit is not None:
            wish.limit = limit
        wish.wants_warning, wish.urgent = True, bool(urgent)
        held = Held(self, wish, timeout, waits)
        held.on_warning = warns
        return held

    def _resumed(self, of: Quick, ticket: str, waits: bool) -> Held:
        """A session that holds on a stream which is of another client, or was cut."""
        held = Held(self, pb.Wish(instruments=of.instruments, ticket=ticket, by=self.by, wants_warning=True), None, None)
        held.station, held.number, held.token = of.station, of.number, of.token
        held.on_taken, held.on_warning = of._is_taken, of._is_warned
        held._questions.was_let_go = lambda: of._is_let_go
        self._run(held._resumes(waits))
        return held

    def status(self) -> dict[str, Any]:
        """Who holds what since when, and who waits for whom."""
        return _as_dict(self._run(self._unary("Status", pb.StatusWish())))

    def watch(self) -> Iterator[dict[str, Any]]:
        """The status now, and whenever it has changed, until the lab is closed: then it is Closed."""
        call = self._run(self._watch())
        try:
            while (bay := self._run(self._reads(call))) is not None:
                yield _as_dict(bay)
        finally:
            self._watches.discard(call)
            self._loop.call_soon_threadsafe(call.cancel)

    async def _watch(self) -> Any:
        with self._until_closed():
            await self._brokers.looks(self._brokers.patience, self._on_wait)
            call = self._methods["Watch"](pb.StatusWish(), metadata=self._metadata)
            self._watches.add(call)
            return call

    async def _reads(self, call: Any) -> Any:
        try:
            bay = await call.read()
        except grpc.aio.AioRpcError as fault:
            self._may_go_on()
            raise self._why_lost(fault.code(), str(fault.details())) from None
        except asyncio.CancelledError:
            # (it may be the lab's end that ended it)
            self._may_go_on()
            raise
        self._was_there = True
        return None if bay is grpc.aio.EOF else bay

    def release(self, station: str, session: int = 0, bay: str = "") -> tuple[str, ...]:
        """Ends the session that a station holds, for its owner; with a number, no other one. First see that nobody is at the instruments. `bay` is
        needed only if a guest of this name is in several bays of a lab."""
        if isinstance(session, bool) or not isinstance(session, int) or not 0 <= session < 1 << 64:
            raise BadWish(f"session: the number of one is wanted, and not {session!r}")
        wish = pb.ReleaseWish(station=name_of("a station", station), by=self.by, session=session, bay=name_of("a bay", bay))
        return tuple(self._run(self._unary("Release", wish)).instruments)

    def apply(self, bay: str, only_check: bool = False, of: str = "", bays: Optional[Mapping[str, str]] = None) -> tuple[str, ...]:
        """The bay goes on as this text has it, a TOML file's, while sessions hold and wait; what has changed, or would. BrokerError: nothing has,
        because somebody holds or waits for what is gone, or the text is no bay. Of several bays it is that which the text names, or `of`; with
        `bays`, the texts of all of them by their names, `bay` is the lab's own file."""
        texts = {name_of("a bay", name): text_of("bays", text) for name, text in (bays or {}).items()}
        wish = pb.ApplyWish(bay=text_of("bay", bay), by=self.by, only_check=only_check, of=name_of("a bay", of), bays=texts)
        return tuple(self._run(self._unary("Apply", wish)).changes)

    def disable(self, instrument: str, why: str = "") -> None:
        """It is out of order: nobody comes to hold it any more, and whoever holds it goes on."""
        self._run(self._unary("Outage", pb.OutageWish(instrument=name_of("an instrument", instrument), why=text_of("why", why), by=self.by)))

    def enable(self, instrument: str) -> None:
        """It is in order again."""
        self._run(self._unary("Outage", pb.OutageWish(instrument=name_of("an instrument", instrument), by=self.by)))

    async def _unary(self, name: str, wish: Any, within: Optional[float] = ANSWER) -> Any:
        is_asked = False
        # (a second release without a number would end whatever session the station has by then)
        is_same_again = name != "Release" or wish.session > 0
        try:
            with self._until_closed():
                await self._brokers.looks(self._brokers.patience, self._on_wait)
                is_asked = name in CHANGES
                answer = await self._methods[name](wish, metadata=self._metadata, timeout=within)
            self._was_there = True
            return answer
        except labrun.Closed as fault:
            raise labrun.Closed(maybe_done(self.address, fault, is_same_again)) if is_asked else fault from None
        except grpc.aio.AioRpcError as fault:
            why = self._why_lost(fault.code(), str(fault.details()))
            raise AnswerLost(maybe_done(self.address, why, is_same_again)) if name in CHANGES and isinstance(why, AnswerLost) else why from None

    def _why_lost(self, code: Any, text: str) -> Exception:
        return why_lost(self.address, code, text, self._certificate is None and not self._was_there, self._certificate)

    def _leaves(self, ticket: str) -> None:
        """Whoever asked by this ticket, on a connection of another client that is lost, waits no longer."""
        self._run(gives_up(self, ticket, None, 0))

    def _is_left(self, span: float) -> bool:
        """Whether whoever waits no longer has told the broker so, and was answered, in so many seconds."""

        async def waits() -> None:
            if self._leaving:
                await asyncio.wait(set(self._leaving), timeout=span)

        self._run(waits())
        return not self._leaving

    def close(self, lets_go: bool = True, patience: float = ANSWER) -> None:
        """What is still held is let go, unless the program just ends: then it is kept for whoever has its ticket. So it is if no broker has answered
        after `patience` seconds. Who waits, and each further call, gets Closed."""
        if not self._is_closed and self._process == os.getpid():
            self._is_closed = True
            self._run(self._close(lets_go, patience), goes_on=True)
            atexit.unregister(self._at_exit)

    async def _close(self, lets_go: bool, patience: float) -> None:
        # (gRPC doesn't end a watch with its channel. A thread that still watches as the program ends does so with it, and without a word)
        for each in (*self._waiting, *(self._watches if lets_go else ())):
            each.cancel()
        if self._waiting:
            await asyncio.wait(set(self._waiting))
        its = list(self._held)
        fault = await self._lets_go(its, patience) if lets_go else None
        # (a broker that doesn't answer finds, once it goes on, that nobody is there)
        await self._under_way.end(CLOSING)
        await self._leaving.end(CLOSING)
        self._has_left = True
        for task in (*self._leaving, *(task for held in its for task in (held._returns, held._beats) if task is not None)):
            task.cancel()
        for stream in list(self._idle):
            stream.cancel()
        with contextlib.suppress(builtins.TimeoutError):
            async with asyncio.timeout(CLOSING):
                await self._brokers.close()
        if fault is not None:
            raise fault

    async def _lets_go(self, its: list[Held], patience: float) -> Optional[BaseException]:
        """What went wrong with one of them; the others are let go all the same."""
        leaving = {asyncio.create_task(it._let_go(None)): it for it in its}
        # (a broker that doesn't answer keeps what was held for whoever has its ticket)
        if leaving:
            await asyncio.wait(leaving, timeout=patience)
        for it in leaving:
            it.cancel()
        faults = [(of, it.exception()) for it, of in leaving.items() if it.done() and not it.cancelled()]
        # (its owner may have let it go just before)
        return next((it for of, it in faults if it is not None and of.state != "finished"), None)

    def _at_exit(self) -> None:
        self.close(lets_go=False)

    def __enter__(self) -> Lab:
        return self

    def __exit__(self, kind: Optional[type[BaseException]], fault: Optional[BaseException], at: Optional[TracebackType]) -> None:
        self.close()


def methods_of(channel: Any) -> dict[str, Any]:
    kinds = {
        "Status": (channel.unary_unary, pb.StatusWish, pb.Bay),
        "Watch": (channel.unary_stream, pb.StatusWish, pb.Bay),
        "Guard": (channel.unary_stream, pb.GuardWish, pb.Holders),
        "Release": (channel.unary_unary, pb.ReleaseWish, pb.Released),
        "Apply": (channel.unary_unary, pb.ApplyWish, pb.Applied),
        "Outage": (channel.unary_unary, pb.OutageWish, pb.Noted),
        "Hold": (channel.stream_stream, pb.Ask, pb.Told),
    }
    return {name: kind(SERVICE + name, wish.SerializeToString, answer.FromString) for name, (kind, wish, answer) in kinds.items()}


def _as_dict(message: Any) -> dict[str, Any]:
    """With a None where nothing is said, as the broker's own has it."""
    found: dict[str, Any] = {}
    for field in message.DESCRIPTOR.fields:
        value, is_message = getattr(message, field.name), field.message_type is not None
        if field.name in OF_SEVERAL and not value:
            continue
        if field.label == field.LABEL_REPEATED:
            found[field.name] = [_as_dict(it) if is_message else it for it in value]
        elif field.has_presence and not message.HasField(field.name):
            found[field.name] = None
        else:
            found[field.name] = _as_dict(value) if is_message else value
    return found


def connect(
    address: Optional[str] = None, station: str = "", token_file: Optional[str] = None, certificate_file: Optional[str] = None, by: Optional[str] = None
) -> Lab:
    """The bay of the broker at an address, `unix:PATH` or `HOST:PORT`, or at one of several, `HOST:PORT,HOST:PORT`; without one, that of
    LABRUN_BROKER, or the usual socket. `station` is whom the program is; without it each session is a guest's. A broker of another machine wants
    a token, in a file of this name or in that which LABRUN_BROKER_TOKEN_FILE names, and its certificate to know it by, in a file or in that which
    LABRUN_BROKER_CERTIFICATE_FILE names. `by` is what people read of who holds: `ann@bench-3 4711 measure.py` if nothing is said; where the bay
    names people, your name stands before it."""
    token, certificate = token_in(file_of("token_file", token_file)), certificate_in(file_of("certificate_file", certificate_file))
    lab = lab_at(address, station, by, token, certificate)
    lab.address = address_with(lab.address, token_file, certificate_file)
    return lab


def lab_at(address: Optional[str], station: str, by: Optional[str], token: Optional[str], certificate: Optional[bytes]) -> Lab:
    """As `connect`, by what its files have."""
    address, station, by = address_of(address), name_of("a station", station), None if by is None else text_of("by", by)
    return Lab(address or usual_address(), station, token, certificate, by or _who())


def _as_metadata(token: Optional[str]) -> tuple[tuple[str, str], ...]:
    return (("authorization", f"Bearer {token}"),) if token else ()


def _who() -> str:
    folder, name = os.path.split(sys.argv[0])
    # (of `python3 -m pytest` it is pytest)
    name = os.path.basename(folder) if name == "__main__.py" else name
    return f"{user()} {os.getpid()} {name or 'python'}"[:64].encode(errors="replace").decode()
