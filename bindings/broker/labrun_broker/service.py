"""The broker for the network: gRPC over what `keeping` keeps.

Each client has a stream of its own, on which it asks, is told that it holds, notes, and lets go. The tables of methods, which Debian's
generator is too old to write, are at the end."""

from __future__ import annotations

import asyncio
import time
from contextlib import asynccontextmanager
from dataclasses import replace
from typing import Any, AsyncIterator, Awaitable, Callable, Coroutine, Optional

import grpc
import labrun

from . import broker_pb2 as pb
from . import guarding, lab_applying, people
from .bay import BadAddress
from .bays import Kept
from .door import Complaints, Door, check_free
from .entrance import Caller, Entrance, NotLetIn, Pace
from .errors import KINDS, BadWish, NoInstrument, NotAllowed
from .front import WITHIN, Fronts
from .outage import disable, enable, to_its_end
from .rights import check_operator
from .sockets import ITS_USER, THE_GROUP, give, made_for
from .standing import Session
from .wishes import Ended, Wish, check_form, wish_of

# when a client that waits is told for whom, when again if that has changed, and when again if it hasn't
FIRST_WORD, NEXT_WORD, AGAIN = 0.3, 1.0, 60.0
# so often at most one that watches is told
WATCH = 0.2

OPTIONS = [
    ("grpc.max_receive_message_length", 1 << 16),
    ("grpc.max_metadata_size", 1 << 13),
    ("grpc.max_concurrent_streams", 1000),
    # (a client whose machine is gone says nothing: it is asked)
    ("grpc.keepalive_time_ms", 10000),
    ("grpc.keepalive_timeout_ms", 5000),
    ("grpc.keepalive_permit_without_calls", 1),
    # (a client asks each six seconds whether this one is there; from a busy machine two such questions may come at once)
    ("grpc.http2.min_ping_interval_without_data_ms", 500),
    ("grpc.server_handshake_timeout_ms", 10000),
    ("grpc.so_reuseport", 0),
]

# how faults are told of what is no session (`why_lost` reads that)
CODES: tuple[tuple[type[BaseException], Any], ...] = (
    (NotAllowed, grpc.StatusCode.PERMISSION_DENIED),
    (labrun.NotHeld, grpc.StatusCode.FAILED_PRECONDITION),
    (NoInstrument, grpc.StatusCode.INVALID_ARGUMENT),
    (BadWish, grpc.StatusCode.NOT_FOUND),
    (labrun.JournalError, grpc.StatusCode.DATA_LOSS),
)
GONE = pb.Told(gone=pb.Gone())
AN_OPERATOR = "an operator"


def fault_of(fault: labrun.LabrunError) -> Any:
    """It is called as its class is, or the first that a client knows of those that it comes from."""
    its = fault.kind if isinstance(fault, Ended) else next((it.__name__ for it in type(fault).__mro__ if it.__name__ in KINDS), "LabrunError")
    return pb.Fault(kind=its, text=str(fault))


class Client:
    """One client's stream. It is the owner of the session that it holds."""

    def __init__(self, keeping: Kept, context: Any, person: str = "") -> None:
        self.keeping, self.context, self.person = keeping, context, person
        self.session: Optional[Session] = None
        self.pace = Pace(keeping.bay.limits.requests)
        # what waits until it holds; and a note or let-go that isn't answered yet
        self._waiting: Optional[asyncio.Task[None]] = None
        self._writes: Optional[asyncio.Task[None]] = None
        # by which it is told that its session was taken away
        self._taking: Optional[asyncio.Task[None]] = None
        self._writing = asyncio.Lock()
        self._tasks: set[asyncio.Task[None]] = set()

    async def talk(self) -> None:
        try:
            while (ask := await self.context.read()) is not grpc.aio.EOF:
                self._is_heard()
                if (span := self.pace.span()) > 0:
                    await asyncio.sleep(span)
                kind = ask.WhichOneof("ask")
                if self._writes is not None and not self._writes.done() and kind != "ping":
                    await asyncio.wait({self._writes})
                if kind == "note" or kind == "let_go" and self._waiting is None:
                    # (a disk may take its time, and the client says meanwhile that it is there; this begins, also if that is gone by now)
                    self._writes = self._starts(self._answers(kind, ask))
                    await asyncio.sleep(0)
                else:
                    await self._answers(kind, ask)
            await asyncio.gather(*filter(None, [self._writes]), return_exceptions=True)
            if self._waiting is not None:
                await self._give_up(self._waiting)
        finally:
            # (nobody is there to be answered)
            for task in (self._waiting, self._writes):
                if task is not None:
                    task.cancel()
            if self.session is not None:
                self.keeping.gone(self.session, self)

    async def _answers(self, kind: Optional[str], ask: Any) -> None:
        answers: dict[str, Callable[[Any], Awaitable[None]]] = {"wish": self._wish, "note": self._note, "let_go": self._let_go, "ping": self._ping}
        try:
            if kind is None:
                raise BadWish("a wish, a note or a let_go is wanted")
            if self._waiting is not None and kind not in ("let_go", "ping"):
                raise BadWish("this stream waits: only let_go may come meanwhile, which gives up")
            await answers[kind](getattr(ask, kind))
        except labrun.LabrunError as fault:
            await self._tell(pb.Told(fault=fault_of(fault)))
        # (a client whose word took long, as on a slow disk, wasn't silent meanwhile)
        self._is_heard()

    def _is_heard(self) -> None:
        if self.session is not None:
            self.keeping.heard(self.session, self)

    async def _ping(self, asked: Any) -> None:
        holds = self.session is not None and self.keeping.heard(self.session, self, True)
        if self.session is not None:
            await self.keeping.settling.leads()
        await self._tell(pb.Told(pong=pb.Pong(at=asked.at, holds=holds)))

    async def _tell(self, told: Any) -> None:
        if self._taking is not None and told.HasField("fault"):
            # (what comes of that, it is told after it)
            await asyncio.wait({self._taking})
        async with self._writing:
            await self.context.write(told)

    def _starts(self, work: Coroutine[Any, Any, None]) -> asyncio.Task[None]:
        """On a task of its own, which fails if the client is gone: then that is seen by the one that reads."""
        task = asyncio.create_task(work)
        self._tasks.add(task)
        task.add_done_callback(self._ends)
        return task

    def _ends(self, task: asyncio.Task[None]) -> None:
        self._tasks.discard(task)
        if not task.cancelled():
            task.exception()

    def taken(self, why: str) -> None:
        self.session = None
        self._taking = self._starts(self._tell(pb.Told(taken=pb.Fault(kind="TakenAway", text=why))))

    def warned(self, text: str, seconds: float) -> None:
        self._starts(self._tell(pb.Told(warning=pb.Warning(text=text, seconds=seconds))))

    # ---- what it asks

    async def _wish(self, asked: Any) -> None:
        if self.session is not None:
            raise BadWish("this stream holds a session, and is in one at a time: another needs a stream of its own")
        wish, asks = replace(wish_of(asked), person=self.person), list[Session]()
        # (at once: what follows may be answered later)
        check_form(wish, self.keeping.bay)
        self._waiting = self._starts(self._holds(wish, asks))
        if asked.wants_waits:
            self._starts(self._says_for_whom(self._waiting, asks))

    async def _holds(self, wish: Wish, asks: list[Session]) -> None:
        """Tells the client once it holds. Whoever cancels this gives up: if it came to hold just now, nobody is told, and the session
        ends."""
        try:
            it = self.session = await self.keeping.hold(wish, self, asks.append)
            held = pb.Held(station=it.name, session=it.number, instruments=it.instruments, ticket=wish.ticket, token=it.token)
            if (lease := self.keeping.lease_of(it)) is not None:
                held.grace, held.lease = self.keeping.grace_of(it), lease
            if it.limit is not None:
                held.limit = it.limit
            held.guards.update({name: at for name, at in self.keeping.bay.guards.items() if name in it.instruments})
            told = pb.Told(held=held)
        except labrun.LabrunError as fault:
            told = pb.Told(fault=fault_of(fault))
        finally:
            self._waiting = None
        await self._tell(told)

    async def _says_for_whom(self, waiting: asyncio.Task[None], asks: list[Session]) -> None:
        said: Any = None
        said_at, span = 0.0, FIRST_WORD
        while not (await asyncio.wait({waiting}, timeout=span))[0]:
            if asks and asks[0].state == "over":
                return  # (it is told so once that is kept)
            keepers, why, for_whom = self.keeping.for_whom(asks[0]) if asks else ([], "", ())
            now = time.monotonic()
            async with self._writing:
                if self._waiting is waiting and asks and (for_whom != said or now > said_at + AGAIN):
                    said, said_at = for_whom, now
                    await self.context.write(pb.Told(waits=pb.Waits(text=why, waits_for=keepers)))
            span = NEXT_WORD

    async def _note(self, asked: Any) -> None:
        await self.keeping.note(self._held(), self, asked.text, asked.number)
        await self._tell(pb.Told(noted=pb.Noted()))

    async def _let_go(self, asked: Any) -> None:
        if self._waiting is not None:
            return await self._give_up(self._waiting)
        failed = asked.failed[: self.keeping.bay.limits.note] if asked.HasField("failed") else None
        try:
            await self.keeping.let_go(self._held(), self, failed)
        except labrun.JournalError:
            # (it is over all the same)
            self.session = None
            raise
        self.session = None
        await self._tell(GONE)

    async def _give_up(self, waiting: asyncio.Task[None]) -> None:
        waiting.cancel()
        await asyncio.wait({waiting})
        self._waiting = None
        await self.keeping.settling.kept()
        await self._tell(GONE)

    def _held(self) -> Session:
        if self.session is None:
            raise labrun.NotHeld("this stream holds nothing")
        return self.session


class Service:
    """The calls of the service. Who comes by the network gives a token, if there is one; who comes by the socket was let in by its mode. Where
    the bay names people, each is one of them, unless they only look at the socket."""

    def __init__(self, keeping: Kept, entrance: Entrance, fronts: Optional[Fronts] = None) -> None:
        self.keeping, self.entrance, self.fronts = keeping, entrance, fronts

    def _caller(self, context: Any, looks: bool) -> Caller:
        peer = context.peer()
        given = next((value for key, value in context.invocation_metadata() if key == "authorization"), "")
        if not peer.startswith("unix"):
            return self.entrance.caller(str(given), False, looks=looks)
        if self.fronts is not None and peer not in self.fronts.users:
            raise NotLetIn(401, "its connection is over" if self.fronts.was_given(peer) else "this socket is the broker's own")
        return self.entrance.caller(str(given), True, None if self.fronts is None else self.fronts.users[peer], looks)

    @asynccontextmanager
    async def _lets_in(self, context: Any, looks: bool = False) -> AsyncIterator[str]:
        """The person's name, if there are people. Whoever is told no by an abort gets no further, now or when they are let in no more."""
        try:
            caller = self._caller(context, looks)
            with self.entrance.present(caller):
                yield caller.person
        except NotLetIn as fault:
            await self._refuses_if(context, "UNAUTHENTICATED", str(fault))

    async def _refuses_if(self, context: Any, code: str, why: Optional[str]) -> None:
        if why is not None:
            self.entrance.tells(context.peer(), why)
            await context.abort(getattr(grpc.StatusCode, code), why)

    @asynccontextmanager
    async def _paces(self, context: Any, looks: bool = False) -> AsyncIterator[str]:
        async with self._lets_in(context, looks) as person:
            # (of all that come by the sockets, together)
            peer = "unix:" if context.peer().startswith("unix") else context.peer()
            await self._refuses_if(context, "RESOURCE_EXHAUSTED", self.entrance.is_too_fast(peer))
            yield person

    def _by(self, wish: Any) -> str:
        return str(wish.by[: self.keeping.bay.limits.name])

    async def Hold(self, _: Any, context: Any) -> None:
        async with self._lets_in(context) as person:
            await self._refuses_if(context, "RESOURCE_EXHAUSTED", self.entrance.is_full())
            self.entrance.clients += 1
            try:
                # (so that the client knows that it is in)
                await context.send_initial_metadata(())
                await Client(self.keeping, context, person).talk()
            finally:
                self.entrance.clients -= 1

    async def Status(self, _: Any, context: Any) -> Any:
        async with self._paces(context, looks=True) as person:
            return pb.Bay(**self.keeping.status(person))

    async def Watch(self, _: Any, context: Any) -> AsyncIterator[Any]:
        async with self._paces(context, looks=True) as person:
            yield pb.Bay(**self.keeping.status(person))
            async for _ in self.keeping.changes():
                await asyncio.sleep(WATCH)
                yield pb.Bay(**self.keeping.status(person))

    async def Guard(self, wish: Any, context: Any) -> AsyncIterator[Any]:
        async with self._paces(context):
            if (why := guarding.why_not(self.keeping, wish)) is not None:
                await context.abort(grpc.StatusCode.FAILED_PRECONDITION, why)
            async for told in guarding.holders(self.keeping.with_all(wish.instruments), tuple(wish.instruments)):
                yield told

    async def Release(self, wish: Any, context: Any) -> Any:
        async with self._paces(context) as person:
            by = self._by(wish) or ("" if person else AN_OPERATOR)
            return pb.Released(instruments=await _answer(context, self.keeping.release(wish.station, by, wish.session, person, wish.bay)))

    async def Apply(self, wish: Any, context: Any) -> Any:
        async def applies(person: str) -> list[str]:
            if not wish.only_check:
                check_operator(self.keeping.bay, person, "change the bay")
            return await lab_applying.applies(self.keeping, wish, people.told(person, self._by(wish)) or AN_OPERATOR)

        async with self._paces(context) as person:
            return pb.Applied(changes=await _answer(context, applies(person), unwritten=grpc.StatusCode.INTERNAL))

    async def Outage(self, wish: Any, context: Any) -> Any:
        async def does(person: str) -> None:
            by, is_out = people.told(person, self._by(wish)) or AN_OPERATOR, wish.HasField("why")
            check_operator(self.keeping.bay, person, f"{'disable' if is_out else 'enable'} {wish.instrument[:64]}")
            home = self.keeping.with_instrument(wish.instrument)
            await (disable(home, wish.instrument, wish.why, by) if is_out else enable(home, wish.instrument, by))

        async with self._paces(context) as person:
            await _answer(context, to_its_end(self.keeping, does(person)))
            return pb.Noted()


async def _answer(context: Any, work: Awaitable[Any], unwritten: Any = grpc.StatusCode.DATA_LOSS) -> Any:
    try:
        return await work
    except (labrun.LabrunError, OSError) as fault:
        code = next((code for kind, code in CODES if isinstance(fault, kind)), grpc.StatusCode.INTERNAL)
        await context.abort(unwritten if code is grpc.StatusCode.DATA_LOSS else code, str(fault))


class Running:
    """The server of gRPC, and what stands before its sockets."""

    def __init__(self, server: Any, fronts: Optional[Fronts]) -> None:
        self._server, self._fronts = server, fronts

    async def stop(self, grace: Optional[float]) -> None:
        if self._fronts is not None:
            self._fronts.takes_no_more()
        await self._server.stop(grace)
        if self._fronts is not None:
            await self._fronts.close()


async def start(keeping: Kept, door: Door, entrance: Optional[Entrance] = None) -> Running:
    """The server, which has begun to listen. BadAddress and OSError say why it can't."""
    door.check()
    fronts = Fronts() if keeping.bay.people else None
    service, credentials = Service(keeping, entrance or Entrance(keeping, door.tokens()), fronts), door.credentials()
    within = {it: it + WITHIN if fronts is not None and it.startswith("unix:") else it for it in door.addresses}
    # (a server of gRPC that is made and not started may keep the program from ending, so all is looked at before)
    for address, inner in within.items():
        check_free(address)
        if inner != address:
            check_free(inner, address)
    asyncio.get_running_loop().set_exception_handler(Complaints())
    server = grpc.aio.server(options=OPTIONS)
    server.add_generic_rpc_handlers((_methods(service),))
    with made_for(THE_GROUP if fronts is None else ITS_USER):
        for address in within.values():
            is_socket = address.startswith("unix:")
            bound = server.add_secure_port(address, credentials) if credentials and not is_socket else server.add_insecure_port(address)
            if not bound:
                raise BadAddress(f"{address}: it can't listen there")
            if is_socket and fronts is None:
                give(address.removeprefix("unix:"), door.group)
        await server.start()
    for address in within:
        if fronts is not None and address.startswith("unix:"):
            await fronts.listens(address.removeprefix("unix:"), door.group)
    return Running(server, fronts)


def _methods(service: Service) -> Any:
    def unary(call: Any, wish: Any) -> Any:
        return grpc.unary_unary_rpc_method_handler(call, wish.FromString, _bytes)

    return grpc.method_handlers_generic_handler(
        "labrun.broker.Broker",
        {
            "Hold": grpc.stream_stream_rpc_method_handler(service.Hold, pb.Ask.FromString, _bytes),
            "Guard": grpc.unary_stream_rpc_method_handler(service.Guard, pb.GuardWish.FromString, _bytes),
            "Watch": grpc.unary_stream_rpc_method_handler(service.Watch, pb.StatusWish.FromString, _bytes),
            "Status": unary(service.Status, pb.StatusWish),
            "Release": unary(service.Release, pb.ReleaseWish),
            "Apply": unary(service.Apply, pb.ApplyWish),
            "Outage": unary(service.Outage, pb.OutageWish),
        },
    )


def _bytes(message: Any) -> bytes:
    text: bytes = message.SerializeToString()
    return text
