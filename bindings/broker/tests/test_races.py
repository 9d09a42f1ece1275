"""What happens between two steps of a loop: nothing is lost by it, told to somebody else, or left behind."""

from __future__ import annotations

import asyncio
import contextlib
import unittest
from types import SimpleNamespace
from typing import Any
from unittest import mock

import grpc

import labrun_broker
from labrun_broker import broker_pb2 as pb
from labrun_broker import visits, wishes
from labrun_broker.bay import bay_of
from labrun_broker.entrance import Caller, Entrance, NotLetIn
from labrun_broker.errors import TakenAway
from labrun_broker.forward import Forward, Ways
from labrun_broker.held import Held
from labrun_broker.http_door import HttpDoor
from labrun_broker.keeping import Keeping
from labrun_broker.quick import GONE, Quick, Wish
from labrun_broker.service import Client, Service
from labrun_broker.serving import web
from labrun_broker.shell import Shell
from labrun_broker.stream import Lost, Stream
from labrun_broker.turning import Turns
from labrun_broker.wire import Odd, Wire
from tests.brokers import BAY, LIMIT, SOON, OnBroker, station, until
from tests.test_keeping import OnFolder
from tests.test_people import ANA, BOB, PEOPLE, WITHOUT_BOB

STATE = ("--state", "FOLDER/state")


class Failing(OnBroker):
    """What `waits` raises, at another moment than while it waits."""

    def setUp(self) -> None:
        self.at = self.broker(BAY, *STATE)
        self.looks, self.is_told = self.lab(self.at), Stream._is_told

    def held(self) -> Held:
        self.one = self.lab(self.at).hold("scope", waits=lambda text: None, timeout=SOON)
        return self.one

    def fails(self) -> None:
        """(On the loop.)"""
        assert self.one._tells is not None
        self.one._tells._has_failed(ZeroDivisionError("of its own"))

    def told(self, at_once: bool, is_told: bool = True) -> None:
        """As it is said that it holds, at once before or after, it fails."""

        def tells(stream: Stream, kind: str, what: Any) -> None:
            if kind == "held" and at_once:
                self.fails()
            if kind != "held" or is_told:
                self.is_told(stream, kind, what)
            if kind == "held" and not at_once:
                self.fails()

        self.enterContext(mock.patch.object(Stream, "_is_told", tells))

    def is_free(self) -> None:
        def is_so() -> bool:
            try:
                return all(it["state"] == "idle" for it in self.looks.status()["stations"])
            except labrun_broker.Unreachable:
                return False  # (gRPC looks again in a moment)

        until(is_so, "nobody holds, or is gone")

    def test_just_before_it_is_told_that_it_holds(self) -> None:
        """Nothing stays held."""
        self.told(True)
        with self.assertRaisesRegex(ZeroDivisionError, "of its own"):
            self.held().acquire()
        self.is_free()

    def test_just_after_it_was_told_that_it_holds(self) -> None:
        """It holds, and each answer is that of its own question."""
        self.told(False)
        with self.held() as held:
            held.note("5 V")
            self.assertEqual(station(self.looks, held.station)["note"], "5 V")
        self.assertEqual(held.state, "finished")
        self.is_free()

    def test_before_it_asks(self) -> None:
        """So does the wait: who holds goes on."""
        opens = Stream.opens

        async def fails(stream: Stream) -> None:
            await opens(stream)
            self.fails()

        with self.at.lab() as other, other.hold("scope"):
            self.enterContext(mock.patch.object(Stream, "opens", fails))
            with self.assertRaisesRegex(ZeroDivisionError, "of its own"):
                self.held().acquire()

    def opens_once(self, then: Any) -> Any:
        """The first stream opens, and of the next ones this becomes."""
        opens, its = Stream.opens, list[Stream]()

        async def first(stream: Stream) -> None:
            its.append(stream)
            await (opens(stream) if its[1:] == [] else then())

        return first

    def test_when_its_broker_was_killed_that_said_that_it_holds(self) -> None:
        """Whoever comes in its place is told that it holds for nobody."""

        def dies(stream: Stream, kind: str, what: Any) -> None:
            if kind == "held":
                self.at.kill()

        def isnt_there(*_: Any) -> Any:
            self.fails()
            raise Lost(grpc.StatusCode.UNAVAILABLE, "killed")

        with mock.patch.object(Stream, "_is_told", dies), mock.patch.object(Stream, "opens", self.opens_once(isnt_there)):
            with self.assertRaisesRegex(ZeroDivisionError, "of its own"):
                self.held().acquire()
        self.at.begin()
        self.is_free()


class Returns(OnBroker):
    def test_for_a_session_that_is_over(self) -> None:
        """The stream by which it hears so serves the next one."""
        broker = self.broker()
        lab = self.lab(broker)
        held = lab.hold("scope")
        held.acquire()
        broker.kill()
        broker.begin()
        with self.assertRaises(labrun_broker.NotHeld):
            held.release()
        self.assertEqual([(it.is_lost, it.session) for it in lab._idle], [(False, None)])


class Quickly(OnBroker):
    def test_a_broker_that_is_killed_as_a_hold_lets_go(self) -> None:
        """It has done that, and its answer is lost. So nothing was taken away, however soon another answers, before it is asked for that again."""
        broker, told, comes_back = self.broker(BAY, *STATE), Wire.told, Quick._comes_back

        def is_lost(wire: Wire) -> Any:
            if (it := told(wire))[0] == GONE:
                raise Odd
            return it

        def is_late(held: Quick, waits: bool) -> None:
            comes_back(held, waits)
            whole = held._whole
            assert whole is not None
            until(lambda: whole.state != "held", "that the whole client is told")

        self.enterContext(mock.patch.object(Wire, "told", is_lost))
        self.enterContext(mock.patch.object(Quick, "_comes_back", is_late))
        with Quick(broker.address, Wish(("scope",), (), "", "tester", None), None, lambda _: broker.lab(), lambda: None) as held:
            held.release(None)
        assert held._whole is not None
        self.assertEqual(held._whole.state, "finished")


class Asks:
    """A client's stream, as a broker has it: what it asks, and what it was told."""

    def __init__(self) -> None:
        self.asked, self.told = asyncio.Queue[Any](), list[str]()

    async def read(self) -> Any:
        return await self.asked.get()

    async def write(self, told: Any) -> None:
        self.told.append(f"{told.WhichOneof('told')} {told.fault.kind}".strip())

    async def has_told(self, count: int) -> None:
        async with asyncio.timeout(LIMIT):
            while len(self.told) < count:
                await asyncio.sleep(0.001)


class Taken(unittest.IsolatedAsyncioTestCase):
    """A session that is taken away: its client is told so before all else that comes of it."""

    async def asyncSetUp(self) -> None:
        self.keeping = Keeping(bay_of(BAY), None)
        await self.keeping.open()
        self.addAsyncCleanup(self.keeping.close)

    def comes(self, **ask: Any) -> Asks:
        its = Asks()
        its.asked.put_nowait(pb.Ask(**ask))
        talks = asyncio.create_task(Client(self.keeping, its).talk())
        self.addCleanup(talks.cancel)
        return its

    async def test_just_as_it_lets_go(self) -> None:
        its = self.comes(wish=pb.Wish(instruments=["scope"]))
        await its.has_told(1)
        release = asyncio.create_task(self.keeping.release("guest-1", "ann"))
        its.asked.put_nowait(pb.Ask(let_go=pb.LetGo()))
        self.assertEqual(await release, ("scope",))
        await its.has_told(3)
        self.assertEqual(its.told, ["held", "taken", "fault NotHeld"])

    async def test_just_as_it_comes_to_hold(self) -> None:
        first = self.comes(wish=pb.Wish(instruments=["scope"]))
        await first.has_told(1)
        its = self.comes(wish=pb.Wish(instruments=["scope"]))
        async with asyncio.timeout(LIMIT):
            while len(self.keeping.by_number) < 2:
                await asyncio.sleep(0.001)
        release = asyncio.create_task(self.keeping.release("guest-1", "ann"))
        other = asyncio.create_task(self.keeping.release("guest-2", "ann"))
        self.assertEqual((await release, await other), (("scope",), ("scope",)))
        await its.has_told(2)
        self.assertEqual(its.told, ["taken", "fault TakenAway"])


class Forwards(unittest.IsolatedAsyncioTestCase):
    """The ports of a session: none is there after it."""

    async def asyncSetUp(self) -> None:
        self.asked, self.left, self.answer = asyncio.Event(), asyncio.Event(), b"ok\n"

        async def guards(reader: asyncio.StreamReader, writer: asyncio.StreamWriter) -> None:
            await reader.readline()
            writer.write(self.answer)
            self.asked.set()
            with contextlib.suppress(ConnectionError):
                await reader.read()
            self.left.set()
            writer.close()

        server = await asyncio.start_server(guards, "127.0.0.1", 0)
        self.addCleanup(server.close)
        self.opened, opens = list[tuple[str, int]](), Forward.opens

        async def noted(forward: Forward) -> tuple[str, int]:
            self.opened.append(await opens(forward))
            return self.opened[-1]

        self.enterContext(mock.patch.object(Forward, "opens", noted))
        self.ways = Ways({"scope": "{}:{}".format(*server.sockets[0].getsockname())}, "ticket", None)
        self.addCleanup(self.ways.close)

    async def are_closed(self, count: int) -> None:
        self.assertEqual(len(self.opened), count)
        for at in self.opened:
            with self.assertRaises(ConnectionRefusedError):
                _, writer = await asyncio.open_connection(*at)
                writer.close()

    async def test_two_ask_at_once(self) -> None:
        one, other = await asyncio.gather(self.ways.address("scope"), self.ways.address("scope"))
        self.assertEqual(one, other)
        self.ways.close()
        await self.are_closed(2)

    async def test_it_ends_as_one_asks(self) -> None:
        asks = asyncio.create_task(self.ways.address("scope"))
        await asyncio.sleep(0)
        self.ways.close()
        await asks
        await self.are_closed(1)

    async def test_it_is_over_as_its_program_asks(self) -> None:
        """Whoever asks is told why."""
        lab: Any = SimpleNamespace(_held=set[Held](), _certificate=None)
        held = Held(lab, pb.Wish(instruments=["scope"]), None, None)
        held.state, held.guards = "held", self.ways.guards
        asks = asyncio.create_task(held._address("scope"))
        await asyncio.sleep(0)
        held._is_over("taken", TakenAway("by ann"))
        with self.assertRaisesRegex(TakenAway, "by ann"):
            await asks
        await self.are_closed(1)

    async def test_it_ends_as_a_program_connects(self) -> None:
        """Its connection is cut."""
        begins = Forward.begins

        def ends(forward: Forward, local: Any) -> None:
            begins(forward, local)
            self.ways.close()

        self.enterContext(mock.patch.object(Forward, "begins", ends))
        async with asyncio.timeout(LIMIT):
            reader, writer = await asyncio.open_connection(*await self.ways.address("scope"))
            self.addCleanup(writer.close)
            with self.assertRaises(ConnectionResetError):
                await reader.read()

    async def test_it_ends_as_its_guard_is_asked(self) -> None:
        """Which may let it through later, and then there would be a connection of nobody's."""
        self.answer = b""
        async with asyncio.timeout(SOON):
            _, writer = await asyncio.open_connection(*await self.ways.address("scope"))
            self.addCleanup(writer.close)
            await self.asked.wait()
            self.ways.close()
            await self.left.wait()


class Events(unittest.IsolatedAsyncioTestCase):
    async def test_for_one_that_is_gone_before_the_first(self) -> None:
        """That is no fault of the broker's, and its session is known as gone."""
        keeping = Keeping(bay_of(BAY), None)
        await keeping.open()
        self.addAsyncCleanup(keeping.close)
        door, caller = HttpDoor(keeping, Entrance(keeping)), Caller()
        visit = await door.visits.asks(wishes.Wish(("scope",), ticket="t" * 32), caller)
        visit.shown()
        request = mock.MagicMock(match_info={"ticket": "t" * 32}, transport=None, remote=None)
        request.__getitem__.return_value = caller
        self.enterContext(mock.patch.object(web.StreamResponse, "prepare", side_effect=ConnectionResetError))
        self.enterContext(mock.patch.object(visits, "CUT", 0.01))
        await door._events(request)
        async with asyncio.timeout(SOON):
            while visit.session is not None:
                await asyncio.sleep(0.01)
        self.assertEqual([it.state for it in keeping.by_number.values()], ["gone"])


class Gone(OnFolder):
    """Whoever changes something, and is gone before that is done: it is done all the same."""

    async def asyncSetUp(self) -> None:
        keeping = self.its = await self.keeping(self.folder(), PEOPLE)
        self.entrance = Entrance(keeping)
        self.service, self.begun = Service(keeping, self.entrance), asyncio.Event()

    def takes_long(self, of: Any, name: str) -> None:
        does = getattr(of, name)

        async def goes_on(*given: Any) -> None:
            await does(*given)
            self.begun.set()
            await asyncio.sleep(0.01)

        self.enterContext(mock.patch.object(of, name, goes_on))

    async def gives_up(self, call: Any, wish: Any) -> None:
        context = SimpleNamespace(peer=lambda: "ipv4:127.0.0.1:9", invocation_metadata=lambda: (("authorization", f"Bearer {ANA}"),))
        asks = asyncio.create_task(call(wish, context))
        async with asyncio.timeout(LIMIT):
            await self.begun.wait()
        asks.cancel()
        with self.assertRaises(asyncio.CancelledError):
            await asks

    async def test_people_who_are_taken_out(self) -> None:
        """They are cut off."""

        async def comes() -> None:
            with self.entrance.present(self.entrance.caller(f"Bearer {BOB}", False)):
                await asyncio.sleep(10 * LIMIT)

        bob = asyncio.create_task(comes())
        self.takes_long(Turns, "turn")
        await self.gives_up(self.service.Apply, pb.ApplyWish(bay=WITHOUT_BOB))
        with self.assertRaises(NotLetIn):
            await asyncio.wait_for(bob, SOON)

    async def test_an_instrument_that_is_taken_out(self) -> None:
        """All know what is written."""
        self.takes_long(Shell, "runs")
        await self.gives_up(self.service.Outage, pb.OutageWish(instrument="scope", why="smoke"))
        async with asyncio.timeout(SOON):
            while "scope" not in self.its.places.out:
                await asyncio.sleep(0.001)


if __name__ == "__main__":
    unittest.main()
