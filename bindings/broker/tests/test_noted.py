"""A note whose answer was lost is sent again, and stands in the records once."""

from __future__ import annotations

import asyncio
import json
import queue
import tempfile
import threading
import time
import unittest
import unittest.mock
from importlib.util import find_spec
from typing import Any

import grpc
import labrun_broker
from labrun_broker import broker_pb2 as pb
from labrun_broker import client, service
from labrun_broker.keeping import Keeping
from labrun_broker.stream import Lost, Stream
from tests.asking import Asking
from tests.brokers import BAY, LIMIT, Broker, OnBroker, free_port, station, stopped, until
from tests.test_bays import LAB, written
from tests.test_bays_doors import OfLab
from tests.test_keeping import OnFolder

STATE = ("--state", "FOLDER/state")
TICKET = "t" * 43


def noted(broker: Broker, bay: str = "") -> "list[str]":
    with open(f"{broker.folder}/state/{bay}records.jsonl", encoding="utf-8") as file:
        its = [json.loads(line) for line in file if line.endswith("\n")]
    return [it["text"] for it in its if it["what"] == "note"]


def are_noted(broker: Broker, texts: "list[str]", bay: str = "") -> None:
    """(Where a write takes its time a note is answered before its record is written.)"""
    until(lambda: noted(broker, bay) == texts, f"{texts}, and no others, are noted")


class Talk:
    """A client that says what it is told to."""

    def __init__(self, channel: "grpc.Channel") -> None:
        self._asks: "queue.SimpleQueue[Any]" = queue.SimpleQueue()
        self._call = channel.stream_stream("/labrun.broker.Broker/Hold", pb.Ask.SerializeToString, pb.Told.FromString)(iter(self._asks.get, None), timeout=LIMIT)

    def says(self, **what: Any) -> str:
        self._asks.put(pb.Ask(**what))
        told = next(self._call)
        return str(told.fault.kind or told.WhichOneof("told"))

    def notes(self, text: str, number: int) -> str:
        return self.says(note=pb.Note(text=text, number=number))

    def ends(self) -> None:
        self._asks.put(None)


class OfProtocol(OnBroker):
    def channel(self, broker: Broker) -> "grpc.Channel":
        return self.enterContext(grpc.insecure_channel(broker.address, [("grpc.use_local_subchannel_pool", 1)]))

    def test_on_another_connection(self) -> None:
        """By its number; without one each is a note, and so is the next one, whatever it says."""
        broker = self.broker(BAY, *STATE)
        first = Talk(self.channel(broker))
        self.assertEqual(first.says(wish=pb.Wish(instruments=["scope"], ticket=TICKET)), "held")
        for text, number in (("a", 7), ("a", 7), ("b", 0), ("b", 0), ("c", 8)):
            self.assertEqual(first.notes(text, number), "noted")
        other = Talk(self.channel(broker))
        self.assertEqual(other.says(wish=pb.Wish(ticket=TICKET, comes_back=True)), "held")
        for text, number in (("c", 8), ("d", 9), ("d", 10)):
            self.assertEqual(other.notes(text, number), "noted")
        self.assertEqual(other.says(let_go=pb.LetGo()), "gone")
        are_noted(broker, ["a", "b", "b", "c", "d", "d"])
        # (of another session it is another one)
        self.assertEqual(other.says(wish=pb.Wish(instruments=["scope"])), "held")
        self.assertEqual([other.notes("e", 10), other.says(let_go=pb.LetGo())], ["noted", "gone"])
        until(lambda: noted(broker)[-1] == "e", "it is noted")
        for it in (first, other):
            it.ends()

    def test_one_that_was_refused(self) -> None:
        """It is refused again, and isn't taken for one that was written."""
        talk = Talk(self.channel(broker := self.broker(BAY, *STATE)))
        talk.says(wish=pb.Wish(instruments=["scope"]))
        self.assertEqual([talk.notes("x" * 501, 1), talk.notes("x" * 501, 1), talk.notes("x", 1)], ["BadWish", "BadWish", "noted"])
        talk.ends()
        are_noted(broker, ["x"])

    def test_after_a_restart(self) -> None:
        """The numbers are forgotten: a note whose answer was lost then may be there twice, and none is missing."""
        broker = self.broker(BAY, *STATE)
        first = Talk(self.channel(broker))
        first.says(wish=pb.Wish(instruments=["scope"], ticket=TICKET))
        first.notes("a", 1)
        broker.kill()
        broker.begin()
        other = Talk(self.channel(broker))
        self.assertEqual(other.says(wish=pb.Wish(ticket=TICKET, comes_back=True)), "held")
        self.assertEqual([other.notes("a", 1), other.notes("b", 2), other.notes("b", 2)], ["noted"] * 3)
        other.ends()
        are_noted(broker, ["a", "a", "b"])


class Clients(OnBroker):
    def loses(self, code: Any = grpc.StatusCode.UNAVAILABLE) -> Any:
        """The answer to each first try of a note."""
        asks, lost = Stream.asks, set[str]()

        async def loses(it: Stream, **what: Any) -> Any:
            answer = await asks(it, **what)
            if "note" in what and what["note"].text not in lost:
                lost.add(what["note"].text)
                it._call.cancel()
                raise Lost(code, "lost")
            return answer

        return unittest.mock.patch.object(Stream, "asks", loses)

    def test_an_answer_that_was_lost(self) -> None:
        broker = self.broker(BAY, *STATE)
        with self.lab(broker).hold("scope", timeout=LIMIT) as held, self.loses():
            for text in ("n0", "n1", "n2"):
                held.note(text)
        with self.lab(broker).hold("scope", timeout=LIMIT) as held, self.loses():
            asyncio.run(held.note_async("n3"))
            held.note("n3")
        are_noted(broker, ["n0", "n1", "n2", "n3", "n3"])

    def test_over_several_bays(self) -> None:
        with tempfile.TemporaryDirectory() as folder:
            written(folder)
            broker = OfLab(folder, LAB, ("--state", f"{folder}/state"))
            self.addCleanup(broker.ends)
            with broker.lab() as lab, lab.hold("scope", "oven", timeout=LIMIT) as held, self.loses():
                held.note("n0")
                held.note("n1")
            are_noted(broker, ["n0", "n1"], "north/")
            broker.end()

    def test_a_broker_that_is_stopped(self) -> None:
        """For so long that its client takes it for gone, and comes back on another connection; both are read once it goes on."""
        port = free_port()
        broker = self.broker(BAY, "--listen", f"127.0.0.1:{port}", *STATE)
        options = [(name, {"grpc.keepalive_time_ms": 1000, "grpc.keepalive_timeout_ms": 500}.get(name, value)) for name, value in client.OPTIONS]
        with unittest.mock.patch.object(client, "OPTIONS", options):
            lab = self.enterContext(labrun_broker.connect(f"127.0.0.1:{port}"))
        over, texts = threading.Event(), list[str]()
        with lab.hold("scope", timeout=LIMIT) as held:

            def notes() -> None:
                while not over.is_set():
                    texts.append(f"n{len(texts)}")
                    held.note(texts[-1])
                    time.sleep(0.5)

            thread = threading.Thread(target=notes)
            thread.start()
            try:
                until(lambda: len(texts) > 2)
                # (the next one is sent to a broker that is stopped)
                time.sleep(0.2)
                with stopped(broker):
                    until(lambda: held._returns is not None, "that it takes the connection for cut")
                    time.sleep(3)
                count = len(texts)
                until(lambda: len(texts) > count + 1)
            finally:
                over.set()
                thread.join(LIMIT)
        are_noted(broker, texts)


@unittest.skipUnless(find_spec("aiohttp"), "there is no aiohttp")
class ByHttp(OnBroker):
    def test_it_is_sent_again(self) -> None:
        broker = self.broker(BAY, "--http", "unix:FOLDER/bay.sock.http", *STATE)
        one = Asking(f"{broker.folder}/bay.sock.http")
        ticket = one.holds("scope", station="board")
        for it in ({"text": "a", "number": 1}, {"text": "a", "number": 1}, {"text": "b"}, {"text": "b"}, {"text": "c", "number": 2}):
            self.assertEqual(one.of(ticket, "/notes", "POST", it)[0], 200)
        are_noted(broker, ["a", "b", "b", "c"])
        self.assertEqual(station(self.lab(broker), "board")["note"], "c")
        status, told = one.of(ticket, "/notes", "POST", {"text": "d", "number": -1})
        self.assertEqual((status, told["kind"], told["text"]), (400, "BadWish", "number: a whole number is wanted"))


class Told:
    """A client's stream, without a network."""

    def __init__(self) -> None:
        self.asked, self.told = asyncio.Queue[Any](), asyncio.Queue[Any]()

    async def read(self) -> Any:
        return await self.asked.get()

    async def write(self, told: Any) -> None:
        await self.told.put(told)

    async def asks(self, **what: Any) -> None:
        await self.asked.put(pb.Ask(**what))

    async def answer(self) -> Any:
        return await asyncio.wait_for(self.told.get(), LIMIT)


class Slow(OnFolder):
    """A disk that takes its time with a note."""

    async def noting(self, bay: str) -> tuple[Keeping, Told, asyncio.Event, "asyncio.Task[None]"]:
        """One holds, and its note isn't written before the event."""
        keeping, stream, may = await self.keeping(self.folder(), bay), Told(), asyncio.Event()
        notes = keeping.note

        async def slowly(*given: Any) -> None:
            await may.wait()
            await notes(*given)

        self.enterContext(unittest.mock.patch.object(keeping, "note", slowly))
        talk = asyncio.create_task(service.Client(keeping, stream).talk())
        await stream.asks(wish=pb.Wish(instruments=["scope"], ticket="a ticket of a test", pings=True))
        self.assertEqual((await stream.answer()).WhichOneof("told"), "held")
        await stream.asks(note=pb.Note(text="5 V", number=1))
        return keeping, stream, may, talk

    async def test_who_waits_for_it_is_there(self) -> None:
        """What says meanwhile that the client is there is answered, and the note before what comes behind it."""
        _, stream, may, talk = await self.noting(BAY + 'gone = "release"\n')
        for at in (1.0, 2.0):
            await stream.asks(ping=pb.Ping(at=at))
            pong = (await stream.answer()).pong
            self.assertEqual((pong.at, pong.holds), (at, True))
        await stream.asks(let_go=pb.LetGo())
        await asyncio.sleep(0.05)
        self.assertTrue(stream.told.empty())
        may.set()
        self.assertEqual([(await stream.answer()).WhichOneof("told") for _ in range(2)], ["noted", "gone"])
        talk.cancel()
        await asyncio.wait({talk})

    async def test_whose_client_ends_meanwhile_is_gone(self) -> None:
        """And stays so, whatever becomes of the note."""
        keeping, stream, may, talk = await self.noting(BAY)
        await stream.asks(ping=pb.Ping(at=1.0))
        await stream.answer()
        talk.cancel()
        await asyncio.wait({talk})
        may.set()
        await asyncio.sleep(0.05)
        [state] = [it["state"] for it in keeping.status()["stations"] if it["instruments"]]
        self.assertEqual(state, "gone")


if __name__ == "__main__":
    unittest.main()
