"""Brokers that stand by for one another at an etcd: what one that leads no more, and doesn't know it, can still do, and what the next one
has."""

from __future__ import annotations

import asyncio
import shlex
import shutil
import subprocess
import tempfile
import threading
import time
import unittest
from typing import Any, Coroutine, Optional
from unittest import mock

import labrun
from labrun_broker import broker_pb2 as pb
from labrun_broker import leading, replica, shell
from labrun_broker.bay import bay_of
from labrun_broker.errors import StillHeld
from labrun_broker.errors import TimeoutError as TimedOut
from labrun_broker.etcd import EtcdError, NoAnswer, behind, delete, get, put
from labrun_broker.keeping import Keeping
from labrun_broker.leading import Leading
from labrun_broker.places import Places
from labrun_broker.replica import EtcdRecords, EtcdStore, Replica
from labrun_broker.service import Client
from labrun_broker.sessions import read_records
from labrun_broker.standby import records_in
from labrun_broker.wishes import Ended, Wish
from tests.brokers import LIMIT, SOON, until
from tests.etcds import OnEtcd
from tests.test_keeping import TICKET, Owner, eventually, how

BAY = 'bay = "NAME"\ninstruments = ["scope", "supply"]\n[stations]\nboard = ["scope"]\n[guests]\ncount = 4\n'
RELEASE = 'gone = "release"\n'
LEASE = 5


class Broker:
    """One that leads, in this process. `said` is what it says as it stands by; `why` it leads no more is known once `is_lost` is set."""

    def __init__(self, test: OnEtcd, name: str, bay: str = BAY, folder: Optional[str] = None) -> None:
        self.bay, self.folder = bay_of(bay.replace("NAME", test.bay)), folder
        self.said, self.why = list[str](), list[str]()
        self.loop, self.is_lost = asyncio.get_running_loop(), asyncio.Event()
        self.leading = Leading(test.member.client(), self.bay, name, LEASE, self._lost)
        test.addCleanup(self.leading.close)
        self.keeping: Any = None

    def _lost(self, why: str) -> None:
        self.why.append(why)
        self.loop.call_soon_threadsafe(self.is_lost.set)

    async def opens(self, grace: float = 60.0) -> None:
        file = records_in(self.folder, True)
        self.keeping = Keeping(self.bay, "etcd", grace, True, lambda *_: Replica(self.leading, file))
        await self.keeping.open()


def anew(test: OnEtcd) -> str:
    """What whoever looks after the broker is told to do."""
    return f"see to all instruments, end all brokers and guards, then run `{deleting(test)}`, and begin again"


def deleting(test: OnEtcd) -> str:
    return f"etcdctl --endpoints {test.member.endpoint} del --prefix /labrun/{test.bay}/"


class Brokers(OnEtcd):
    def setUp(self) -> None:
        super().setUp()
        self.enterContext(mock.patch.object(shell, "CLOSING", 1.0))
        # (etcd may be slow on a busy machine)
        self.enterContext(mock.patch("labrun_broker.turning.QUIET", SOON))

    async def broker(self, name: str, bay: str = BAY, grace: float = 60.0, folder: Optional[str] = None) -> Broker:
        """Returns once it leads."""
        one = Broker(self, name, bay, folder)
        async with asyncio.timeout(LIMIT):
            self.assertTrue(await asyncio.to_thread(one.leading.leads, one.said.append))
        await one.opens(grace)
        self.addAsyncCleanup(one.keeping.close)
        return one

    async def deposed(self, one: Broker, bay: str = BAY, grace: float = 60.0, folder: Optional[str] = None) -> Broker:
        """The first was stopped for longer than its lease, and goes on: it doesn't know. The one that leads."""
        one.leading._sure_until = float("inf")
        self.enterContext(mock.patch.object(one.leading.etcd, "keeps_alive", lambda lease, timeout: 1000))
        self.lapses(one.leading.lease)
        return await self.broker("second", bay, grace, folder)

    async def never(self, one: Broker, work: Coroutine[Any, Any, Any]) -> None:
        """It isn't answered, and the broker finds that it leads no more."""
        task = asyncio.ensure_future(work)
        await asyncio.wait_for(one.is_lost.wait(), LIMIT)
        await asyncio.wait({task}, timeout=0.3)
        self.assertIsNone(task.done() and not task.cancelled() and (task.exception() or task.result()) or None)
        self.assertFalse(task.done())
        self.assertIn(one.why, (["it leads no more"], ["its lease is over"]))
        task.cancel()
        await asyncio.wait({task})


class Deposed(Brokers):
    """What is told by one that leads no more: nothing."""

    async def test_it_grants_nothing(self) -> None:
        first = await self.broker("first")
        second = await self.deposed(first)
        await second.keeping.hold(Wish(("scope",)), Owner())
        await self.never(first, first.keeping.hold(Wish(("scope",)), Owner()))

    async def test_nor_says_that_one_is_back(self) -> None:
        first = await self.broker("first")
        await first.keeping.hold(Wish(("scope",), ticket=TICKET), Owner())
        second = await self.deposed(first)
        await second.keeping.release("guest-1", "an operator")
        await second.keeping.hold(Wish(("scope",)), Owner())
        await self.never(first, first.keeping.hold(Wish(ticket=TICKET, comes_back=True), Owner()))

    async def test_nor_that_it_knows_no_such_ticket(self) -> None:
        first = await self.broker("first")
        second = await self.deposed(first)
        await second.keeping.hold(Wish(("scope",), ticket=TICKET), Owner())
        await self.never(first, first.keeping.hold(Wish(ticket=TICKET, comes_back=True), Owner()))

    async def test_nor_refuses(self) -> None:
        first, owner = await self.broker("first"), Owner()
        session = await first.keeping.hold(Wish(("scope",)), owner)
        await self.deposed(first)
        await self.never(first, first.keeping.let_go(session, Owner()))

    async def test_nor_lets_go(self) -> None:
        first, owner = await self.broker("first"), Owner()
        session = await first.keeping.hold(Wish(("scope",), ticket=TICKET), owner)
        second = await self.deposed(first)
        await self.never(first, first.keeping.let_go(session, owner))
        back = await second.keeping.hold(Wish(ticket=TICKET, comes_back=True), Owner())
        self.assertEqual(back.instruments, ("scope",))

    async def test_nor_writes_an_end_that_isnt_one(self) -> None:
        """Its folder has the end that etcd has, and not the one that etcd hasn't: not while it leads no more, and not once it has ended."""
        folder = self.enterContext(tempfile.TemporaryDirectory())
        first, owner = await self.broker("first", folder=folder), Owner()
        ends = lambda: [(it["session"], it["what"]) for it in read_records(folder)[0] if it["what"] in ("held", "let_go", "taken")]
        over = await first.keeping.hold(Wish(("supply",)), owner)
        await first.keeping.let_go(over, owner)
        its = [(over.number, "held"), (over.number, "let_go")]
        await eventually(lambda: ends() == its)
        board, guest = [await first.keeping.hold(Wish((name,), ticket=f"{TICKET} of {name}"), owner) for name in ("scope", "supply")]
        its += [(it.number, "held") for it in (board, guest)]
        await eventually(lambda: ends() == its)
        second = await self.deposed(first)
        release = asyncio.ensure_future(first.keeping.release(guest.name, "an operator"))
        await self.never(first, first.keeping.let_go(board, owner))
        release.cancel()
        await asyncio.wait({release})
        self.assertEqual(ends(), its)
        await first.keeping.close()
        self.assertEqual((ends(), read_records(folder)[0][-1]["what"]), (its, "closed"))
        for it in (board, guest):
            self.assertIn(f"session {it.number} of {it.name}", first.keeping.lost[0])
            self.assertEqual(how(second.keeping, it.name)["session"], it.number)

    async def test_nor_takes_away(self) -> None:
        """Neither the operator is told so, nor the client."""
        first, owner = await self.broker("first"), Owner()
        session = await first.keeping.hold(Wish(("scope",), ticket=TICKET), owner)
        second = await self.deposed(first)
        await self.never(first, first.keeping.release(session.name, "an operator"))
        self.assertEqual(owner.told, [])
        back = await second.keeping.hold(Wish(ticket=TICKET, comes_back=True), Owner())
        self.assertEqual(back.instruments, ("scope",))

    async def test_nor_that_its_time_is_over(self) -> None:
        """Its session may hold by now where another leads."""
        first = await self.broker("first")
        await first.keeping.hold(Wish(("scope",)), Owner())
        await self.deposed(first)
        await self.never(first, first.keeping.hold(Wish(("scope",), timeout=0.1), Owner()))

    async def test_nor_that_a_client_is_heard(self) -> None:
        """That would be another while for which it may hold, with gone = "release"."""
        first = await self.broker("first", RELEASE + BAY)
        told, context = list[Any](), mock.Mock()
        context.write = mock.AsyncMock(side_effect=told.append)
        client = Client(first.keeping, context)
        client.session = await first.keeping.hold(Wish(("scope",), pings=True), client)
        await client._ping(pb.Ping(at=1.0))
        self.assertEqual([it.pong.holds for it in told], [True])
        await self.deposed(first, RELEASE + BAY)
        await self.never(first, client._ping(pb.Ping(at=2.0)))
        self.assertEqual(len(told), 1)

    async def test_what_one_that_waits_is_told_of_a_full_etcd(self) -> None:
        """Once its time is over it isn't told that nobody keeps it any more, but, when that is settled, that it doesn't hold."""
        self.enterContext(mock.patch.object(shell, "DISK", 2.0))
        first = await self.broker("first")
        told, context, txn = list[Any](), mock.Mock(), first.leading.etcd.txn
        context.write = mock.AsyncMock(side_effect=told.append)

        def full(compare: Any, what: Any, *given: Any, **more: Any) -> Any:
            if any(it.HasField("request_put") for it in what):
                raise EtcdError(28, "etcd is full")
            return txn(compare, what, *given, **more)

        with mock.patch.object(first.leading.etcd, "txn", full), mock.patch("labrun_broker.service.FIRST_WORD", 1.0):
            await Client(first.keeping, context)._wish(pb.Wish(instruments=["scope"], timeout=0.5, wants_waits=True))
            await eventually(lambda: told and told[-1].HasField("fault"))
        self.assertEqual(told[-1].fault.kind, "JournalError")
        self.assertEqual([it.waits.text for it in told[:-1] if "once that is in etcd" not in it.waits.text], [])
        self.assertGreater(len(told), 1)

    async def test_what_one_is_told_once_etcd_says_again_who_leads(self) -> None:
        """If it refuses that for a while, as after a change of rights, whoever lost its session isn't forgotten."""
        first, owner = await self.broker("first"), Owner()
        session, txn, refused = await first.keeping.hold(Wish(("scope",)), owner), first.leading.etcd.txn, list[Any]()

        def refuses(compare: Any, what: Any, *given: Any, **more: Any) -> Any:
            if compare and not what:
                refused.append(what)
                raise EtcdError(5, "etcd says no: permission denied")
            return txn(compare, what, *given, **more)

        with mock.patch.object(first.leading.etcd, "txn", refuses):
            release = asyncio.ensure_future(first.keeping.release(session.name, "an operator"))
            await asyncio.wait({release}, timeout=LIMIT)
            await eventually(lambda: len(refused) > 3)
            self.assertEqual(owner.told, [])
        await eventually(lambda: owner.told)
        self.assertRegex(owner.told[0], "the session with scope was taken away by an operator")
        release.cancel()
        await asyncio.wait({release})

    async def test_its_clock(self) -> None:
        """It ends once etcd hasn't answered for the length of its lease, though nobody asks it anything."""
        first = await self.broker("first")
        begun = time.monotonic()
        self.enterContext(mock.patch.object(first.leading.etcd, "_calls", side_effect=StopIteration))
        await asyncio.wait_for(first.is_lost.wait(), LIMIT)
        self.assertTrue(LEASE / 2 < time.monotonic() - begun < 3 * LEASE)
        self.assertEqual(first.why, [f"its lease of {LEASE} s couldn't be renewed: etcd doesn't answer, or this broker was stopped"])

    async def test_its_lease(self) -> None:
        first = await self.broker("first")
        self.lapses(first.leading.lease)
        await asyncio.wait_for(first.is_lost.wait(), LIMIT)
        self.assertIn(first.why, (["its lease is over"], ["it leads no more"]))


class Next(Brokers):
    async def test_it_has_all_that_was_told(self) -> None:
        first, owner = await self.broker("first"), Owner()
        session = await first.keeping.hold(Wish(("scope",), station="board", by="ann", ticket=TICKET), owner)
        other = await first.keeping.hold(Wish(("supply",)), owner)
        await first.keeping.note(session, owner, "12.5 V")
        await first.keeping.let_go(other, owner)
        second = await self.deposed(first)
        status = second.keeping.status()
        self.assertEqual([(it["name"], it["holder"]) for it in status["instruments"]], [("scope", "board"), ("supply", None)])
        self.assertEqual((how(second.keeping, "board")["state"], status["leads"]), ("gone", "second"))
        with self.assertRaises(TimedOut):
            await second.keeping.hold(Wish(("scope",), timeout=0.05), Owner())
        back = await second.keeping.hold(Wish(ticket=TICKET, comes_back=True), owner)
        self.assertEqual((back.instruments, back.by, back.note), (("scope",), "ann", "12.5 V"))
        await second.keeping.let_go(back, owner)
        with self.assertRaises(Ended) as found:
            await second.keeping.hold(Wish(ticket=TICKET, comes_back=True), owner)
        self.assertEqual(found.exception.kind, "LetGo")

    async def test_its_folder_has_the_ends_that_etcd_has(self) -> None:
        """Once etcd has them. (What came behind them waits with them.)"""
        folder = self.enterContext(tempfile.TemporaryDirectory())
        first, owner = await self.broker("first", folder=folder), Owner()
        its = lambda: [(it["session"], it["what"]) for it in read_records(folder)[0] if it["what"] not in ("opened", "asked")]
        one, other = [await first.keeping.hold(Wish((name,)), owner) for name in ("scope", "supply")]
        held = [(one.number, "held"), (other.number, "held")]
        await eventually(lambda: its() == held)
        txn = first.leading.etcd.txn

        def full(compare: Any, what: Any, *given: Any, **more: Any) -> Any:
            if any(it.HasField("request_put") for it in what):
                raise EtcdError(28, "etcd is full")
            return txn(compare, what, *given, **more)

        with mock.patch.object(first.leading.etcd, "txn", full):
            ends = asyncio.create_task(first.keeping.let_go(one, owner))
            await eventually(lambda: first.keeping.write_failures > 1)
            first.keeping.gone(other, owner)
            first.keeping._news.settles()
            self.assertEqual((its(), self.text().count(b" let_go ")), (held, 0))
        await asyncio.wait_for(ends, LIMIT)
        await eventually(lambda: its() == [*held, (one.number, "let_go"), (other.number, "gone")])
        self.assertEqual(self.text().count(b" let_go "), 1)

    def text(self) -> bytes:
        return b"".join(self.values("journal/").values())

    async def test_its_folder_has_what_goes_on(self) -> None:
        """And only that: whoever watches, and the records in etcd, have it from the first."""
        folders = [self.enterContext(tempfile.TemporaryDirectory()) for _ in range(2)]
        first, owner = await self.broker("first", folder=folders[0]), Owner()
        for name, station in (("supply", ""), ("scope", "board")):
            session = await first.keeping.hold(Wish((name,), station=station, by="ann", ticket=f"{TICKET} of {name}"), owner)
            await first.keeping.note(session, owner, name)
        await first.keeping.let_go(session, owner)
        second = await self.deposed(first, folder=folders[1])
        second.keeping._news.settles()
        its = read_records(folders[1])[0]
        self.assertEqual([(it["what"], it["session"], it["station"]) for it in its], [("held", 1, "guest-1"), ("opened", None, None), ("gone", 1, "guest-1")])
        self.assertEqual((its[0]["instruments"], its[0]["by"], its[0]["text"]), (["supply"], "ann", "as the journal has it"))
        since = [it["t"] for it in read_records(folders[0])[0] if it["what"] == "held"][0]
        self.assertAlmostEqual(its[0]["t"], since, delta=SOON)
        self.assertEqual([it["what"] for it in second.keeping.history], ["opened", "gone"])
        self.assertEqual([it["what"] for it in second.keeping.recent()].count("held"), 2)

    async def test_its_folder_has_nothing_twice(self) -> None:
        """As that of one that was killed before etcd had the records of what it has in the journal."""
        folder = self.enterContext(tempfile.TemporaryDirectory())
        first, owner = await self.broker("first", folder=folder), Owner()
        its = lambda: [it["what"] for it in read_records(folder)[0] if it["session"] == 1]
        await first.keeping.hold(Wish(("scope",), ticket=TICKET), owner)
        await eventually(lambda: its() == ["asked", "held"])
        self.assertNotIn(b"held", b"".join(self.values("records/").values()))
        second = await self.deposed(first, folder=folder)
        second.keeping._news.settles()
        self.assertEqual(its(), ["asked", "held", "gone"])
        self.assertEqual([it["what"] for it in second.keeping.recent()].count("held"), 1)

    async def test_it_has_the_recent_past(self) -> None:
        first, owner = await self.broker("first"), Owner()
        session = await first.keeping.hold(Wish(("scope",), by="ann"), owner)
        await first.keeping.let_go(session, owner)
        with mock.patch.object(shell, "CLOSING", 20.0):
            await first.keeping.close()
        second = await self.broker("second")
        # (that it closed is told only if etcd takes it in time)
        its = [it["what"] for it in second.keeping.recent() if it["what"] != "closed"]
        self.assertEqual(its, ["opened", "asked", "held", "let_go", "opened"])
        third = await second.keeping.hold(Wish(("scope",)), owner)
        self.assertGreater(third.number, session.number)

    async def test_one_that_ends_gives_its_lease_back(self) -> None:
        first = await self.broker("first")
        second = Broker(self, "second")
        leads = asyncio.create_task(asyncio.to_thread(second.leading.leads, second.said.append))
        await eventually(lambda: second.said)
        self.assertEqual((second.said, first.keeping.status()["leads"]), (["stands by: first leads"], "first"))
        await eventually(lambda: first.keeping.status()["stands_by"] == ["second"])
        begun = time.monotonic()
        await first.keeping.close()
        self.assertTrue(await asyncio.wait_for(leads, LIMIT))
        self.assertLess(time.monotonic() - begun, LEASE)
        self.assertEqual((self.values("leader"), self.values("standby")), ({"leader": b"second"}, {}))

    async def test_one_that_is_ended_before_it_leads(self) -> None:
        await self.broker("first")
        second = Broker(self, "second")
        leads = asyncio.create_task(asyncio.to_thread(second.leading.leads, second.said.append))
        await eventually(lambda: list(self.values("standby/")) == ["standby/second"])
        second.leading.close()
        self.assertFalse(await asyncio.wait_for(leads, LIMIT))
        self.assertEqual(self.values("standby/"), {})

    async def test_one_whose_lease_is_over(self) -> None:
        """It stood by for long without an answer: it takes another lease."""
        first, second = await self.broker("first"), Broker(self, "second")
        leads = asyncio.create_task(asyncio.to_thread(second.leading.leads, second.said.append))
        await eventually(lambda: self.values("standby/"))
        self.lapses(second.leading.lease)
        await eventually(lambda: list(self.values("standby/")) == ["standby/second"])
        await first.keeping.close()
        self.assertTrue(await asyncio.wait_for(leads, LIMIT))

    async def test_a_silent_etcd(self) -> None:
        """It isn't told of for one late answer, and then once a minute, whatever each member says of it."""
        await self.broker("first")
        second, asks = Broker(self, "second"), 0

        def silent(*_: Any, **more: Any) -> Any:
            nonlocal asks
            asks += 1
            raise NoAnswer(f"member {asks}: no route")

        tries = asyncio.create_task(asyncio.to_thread(second.leading.leads, second.said.append))
        leads, silence = "stands by: first leads", mock.patch.object(second.leading.etcd, "_asks", silent)
        await eventually(lambda: second.said)
        with mock.patch.object(leading, "LATE", LIMIT), silence:
            await eventually(lambda: asks > 1)
            self.assertEqual(second.said, [leads])
        await eventually(lambda: second.leading._tells_at is None, "it has an answer")
        with mock.patch.object(leading, "LATE", 1.0), silence:
            await eventually(lambda: len(second.said) > 1)
            before = asks
            await eventually(lambda: asks > before + 3)
        await eventually(lambda: len(second.said) > 2)
        self.assertRegex(second.said[1], r"^stands by: etcd doesn't answer \(member")
        self.assertEqual((second.said[0], second.said[2:]), (leads, [leads]))
        second.leading.close()
        self.assertFalse(await asyncio.wait_for(tries, LIMIT))

    async def test_an_etcd_that_was_never_there(self) -> None:
        """It is told of at once."""
        only = Broker(self, "only")
        with mock.patch.object(only.leading.etcd, "_asks", side_effect=NoAnswer("no route")):
            tries = asyncio.create_task(asyncio.to_thread(only.leading.leads, only.said.append))
            await eventually(lambda: only.said)
            self.assertEqual(only.said, ["stands by: etcd doesn't answer (no route)"])
            only.leading.close()
            self.assertFalse(await asyncio.wait_for(tries, LIMIT))

    async def test_an_etcd_that_only_answers_questions(self) -> None:
        """As one whose disk is stuck: it is told of, too."""
        first, second = await self.broker("first"), Broker(self, "second")
        self.enterContext(mock.patch.object(leading, "LATE", 0.5))
        self.enterContext(mock.patch.object(second.leading, "_makes_key", side_effect=NoAnswer("no disk")))
        tries = asyncio.create_task(asyncio.to_thread(second.leading.leads, second.said.append))
        await asyncio.sleep(0.6)
        await first.keeping.close()
        await eventually(lambda: "stands by: etcd doesn't answer (no disk)" in second.said)
        second.leading.close()
        self.assertFalse(await asyncio.wait_for(tries, LIMIT))

    async def test_another_bays_file(self) -> None:
        """It is told of at once, and doesn't lead while a broker is there that has the file of the one that led last."""
        first = await self.broker("first")
        await first.keeping.hold(Wish(("scope",)), Owner())
        wrong, right = Broker(self, "wrong", BAY.replace("count = 4", "count = 1")), Broker(self, "right", "# a comment\n" + BAY)
        tries = [asyncio.create_task(asyncio.to_thread(it.leading.leads, it.said.append)) for it in (wrong, right)]
        self.addCleanup(wrong.leading.close)
        await eventually(lambda: wrong.said and right.said)
        self.assertIn("first leads, by another bay file than this one has: this one won't lead while a broker with that file is there", wrong.said[-1])
        self.assertEqual(right.said, ["stands by: first leads"])
        await first.keeping.close()
        self.assertTrue(await asyncio.wait_for(tries[1], LIMIT))
        await right.opens()
        await eventually(lambda: "right leads, by another bay file" in wrong.said[-1])
        # (its end may take a while)
        begun = time.monotonic()
        await right.keeping.close()
        # (nobody else is there any more)
        self.assertTrue(await asyncio.wait_for(tries[0], LIMIT))
        self.assertGreater(time.monotonic() - begun, LEASE - 0.5)
        self.assertIn("leads by another bay file than the last one did", wrong.said[-1])

    async def test_a_file_by_which_the_bay_did_not_open(self) -> None:
        """Its broker never led by it, so the one with the file of before leads at once, and says nothing of another file."""
        first = await self.broker("first")
        await first.keeping.hold(Wish(("scope",)), Owner())
        await first.keeping.close()
        other = Broker(self, "other", 'bay = "NAME"\ninstruments = ["supply"]\n[guests]\ncount = 4\n')
        self.assertTrue(await asyncio.wait_for(asyncio.to_thread(other.leading.leads, other.said.append), LIMIT))
        with self.assertRaisesRegex(StillHeld, "guest-1 holds scope"):
            await other.opens()
        again = await self.broker("first")
        self.assertEqual(again.said, [])

    async def test_its_own_lease_of_before(self) -> None:
        """A broker that was killed, and is started again: it doesn't say that another one leads."""
        first = Broker(self, "first")
        self.assertTrue(await asyncio.to_thread(first.leading.leads, first.said.append))
        # (it renews its lease no more)
        first.leading._over.set()
        self.addCleanup(first.leading.etcd.close)
        again = Broker(self, "first")
        self.assertTrue(await asyncio.wait_for(asyncio.to_thread(again.leading.leads, again.said.append), LIMIT))
        self.assertEqual(again.said, ["stands by: its own lease of before has to run out"])

    async def test_a_line_that_is_not_sound(self) -> None:
        """It is said how to begin anew, at etcd; and whoever does that, can."""
        first = await self.broker("first")
        await first.keeping.hold(Wish(("scope",), station="board"), Owner())
        await first.keeping.close()
        (key, text), *_ = self.values("journal/").items()
        self.etcd.txn([], [put(f"/labrun/{self.bay}/{key}".encode(), text[:-2] + bytes([text[-2] ^ 1]) + text[-1:])])
        with self.assertRaisesRegex(labrun.JournalError, f"^etcd, /labrun/{self.bay}/journal/: line \\d+ isn't as the broker wrote it: {anew(self)}$"):
            await self.broker("second")
        if shutil.which("etcdctl"):
            subprocess.run(shlex.split(deleting(self)), check=True, stdout=subprocess.DEVNULL, timeout=LIMIT)
        else:
            its = f"/labrun/{self.bay}/".encode()
            self.etcd.txn([], [delete(its, behind(its))])
        third = await self.broker("third")
        self.assertEqual(how(third.keeping, "board")["state"], "idle")

    async def test_two_bays(self) -> None:
        """They share an etcd, and nothing else."""
        first = await self.broker("first")
        self.bay += "-and-more"
        second = await self.broker("first")
        for it in (first, second):
            await it.keeping.hold(Wish(("scope",)), Owner())
        self.assertEqual(len(self.values("journal/")), len({*self.values("journal/")}))


class OnStore(OnEtcd):
    """The store alone."""

    def setUp(self) -> None:
        super().setUp()
        self.lost = list[str]()
        self.leading = self.leads("one")
        self.records = EtcdRecords(self.leading, None)
        self.store = self.opened()

    def leads(self, name: str) -> Leading:
        one = Leading(self.member.client(), bay_of(BAY.replace("NAME", self.bay)), name, 10, self.lost.append)
        self.addCleanup(one.close)
        self.assertTrue(one.leads(lambda text: None))
        return one

    def opened(self) -> EtcdStore:
        store = EtcdStore(self.leading, self.records)
        self.records.sends = store.sends
        store.cut(len(store.text()))
        return store

    def text(self) -> bytes:
        return b"".join(self.values("journal/").values())


class Stores(OnStore):
    def test_batches(self) -> None:
        self.store.write(b"one\n")
        self.assertEqual(self.text(), b"")
        self.store.write(b"two\n")
        self.store.sync()
        self.store.sync()
        self.store.append(b"three\n")
        self.assertEqual(self.values("journal/"), {"journal/000001/000000000000": b"one\ntwo\n", "journal/000001/000000000008": b"three\n"})
        self.assertEqual(self.opened().text(), b"one\ntwo\nthree\n")

    def test_a_large_one(self) -> None:
        """In keys that end with a line each."""
        text = b"".join(b"%099d\n" % number for number in range(15000))
        self.store.append(text)
        values = list(self.values("journal/").values())
        self.assertEqual((b"".join(values), {it[-1:] for it in values}, len(values)), (text, {b"\n"}, 3))

    def test_one_that_isnt_answered_is_done_again(self) -> None:
        calls, fails = self.leading.etcd._calls, ["before", "behind", "behind"]

        def lost(name: str, *given: Any) -> Any:
            if name == "KV/Txn" and fails:
                if fails.pop(0) == "behind":
                    calls(name, *given)
                raise StopIteration
            return calls(name, *given)

        with mock.patch.object(self.leading.etcd, "_calls", lost):
            self.store.append(b"one\n")
        self.store.append(b"two\n")
        self.assertEqual((self.text(), fails, self.lost), (b"one\ntwo\n", [], []))

    def test_full(self) -> None:
        """What was tried is tried again as it was, whatever is handed out meanwhile: etcd may still do it late. And what is handed out once
        more isn't there twice."""
        self.store.append(b"one\n")
        txn, asked = self.leading.etcd.txn, list[Any]()

        def full(compare: Any, what: Any, *given: Any, **more: Any) -> Any:
            asked.append([(it.request_put.key, it.request_put.value) for it in what])
            if len(asked) == 1:
                raise EtcdError(28, "etcd is full")
            return txn(compare, what, *given, **more)

        with mock.patch.object(self.leading.etcd, "txn", full):
            self.store.write(b"two\n")
            with self.assertRaisesRegex(OSError, "etcd is full"):
                self.store.sync()
            self.store.write(b"three\n")
            self.store.cut(4)
            self.store.write(b"two\nthree\nfour\n")
            self.store.sync()
        self.assertEqual(asked[0], asked[1])
        self.assertEqual(self.text(), b"one\ntwo\nthree\nfour\n")
        # (one that synced more than it says)
        self.store.cut(8)
        self.store.write(b"three\nfour\nfive\n")
        self.store.sync()
        self.assertEqual(self.text(), b"one\ntwo\nthree\nfour\nfive\n")

    def test_a_batch_that_is_missing(self) -> None:
        for text in (b"one\n", b"two\n", b"three\n"):
            self.store.append(text)
        self.etcd.txn([], [delete(f"/labrun/{self.bay}/journal/000001/000000000004".encode())])
        with self.assertRaisesRegex(labrun.JournalError, f"from byte 4 on is missing: {anew(self)}$"):
            self.opened()

    def test_who_leads_no_more(self) -> None:
        """Nothing of it is written, and whoever waits is never answered."""
        self.lapses(self.leading.lease)
        self.leads("two")
        thread = threading.Thread(target=self.store.append, args=(b"one\n",), daemon=True)
        with mock.patch("threading.excepthook"):
            thread.start()
            until(lambda: self.lost, "it finds that")
            thread.join(1)
            self.assertTrue(thread.is_alive())
            self.assertIn(self.lost[0], ("it leads no more", "its lease is over"))
            self.assertEqual(self.text(), b"")
            self.leading.close()
            thread.join(LIMIT)
            self.assertFalse(thread.is_alive())

    def test_records(self) -> None:
        """They go along; the oldest make room."""
        self.enterContext(mock.patch.object(replica, "MOST_RECORDS", 1000))
        self.records.add({"t": 1.0, "what": "opened"})
        self.store.append(b"one\n")
        self.assertEqual(list(self.values("records/").values()), [b'{"t":1.0,"what":"opened"}\n'])
        for number in range(100):
            self.records.add({"t": 2.0, "what": "note", "text": "x" * 60, "session": number})
            self.records.sync()
            size = sum(map(len, self.values("records/").values()))
            self.assertLess(size, 1000)
        self.assertGreater(size, 700)
        again = EtcdRecords(self.leading, None)
        self.assertEqual([it["session"] for it in again.last][-3:], [97, 98, 99])
        again.add({"t": 3.0, "what": "closed"})
        EtcdStore(self.leading, again).sends()
        self.assertEqual([it["what"] for it in EtcdRecords(self.leading, None).last][-2:], ["note", "closed"])

    def test_places(self) -> None:
        state = Replica(self.leading)
        self.assertEqual(state.places(False), Places())
        with self.assertRaisesRegex(labrun.JournalError, f"it isn't there, and the journal can't be read without it: {anew(self)}$"):
            state.places(True)
        state.keeps(Places(("scope",), ("board",), None))
        self.assertEqual(Replica(self.leading).places(True), Places(("scope",), ("board",), None))
        self.etcd.txn([], [put(f"/labrun/{self.bay}/places".encode(), b"{}")])
        with self.assertRaisesRegex(labrun.JournalError, f"names of instruments.*; {anew(self)}$"):
            state.places(True)


class Fences(OnStore):
    async def test_it_begins_after_the_question(self) -> None:
        """Who asks while one is under way waits for the next; all who ask then share it."""
        state, txn, asked, may = Replica(self.leading), self.leading.etcd.txn, list[Any](), threading.Event()

        def slow(*given: Any, **more: Any) -> Any:
            # (the lease's thread looks for the others meanwhile)
            if given[0]:
                asked.append(given)
                may.wait(LIMIT)
            return txn(*given, **more)

        with mock.patch.object(self.leading.etcd, "txn", slow):
            first = asyncio.create_task(state.fence())
            while not asked:
                await asyncio.sleep(0.01)
            others = [asyncio.create_task(state.fence()) for _ in range(5)]
            await asyncio.sleep(0.05)
            others[0].cancel()
            may.set()
            await asyncio.gather(first, *others[1:])
        self.assertEqual(len(asked), 2)


class Clients(OnEtcd):
    """The little of etcd that there is."""

    def test_it_goes_on_at_another_endpoint(self) -> None:
        one = leading.Etcd(["127.0.0.1:1", f"http://{self.member.endpoint}"])
        self.addCleanup(one.close)
        with self.assertRaises(NoAnswer):
            one.txn([], [put(b"key", b"value")])
        for _ in range(3):
            one.txn([], [put(b"key", b"value")])
        self.assertEqual(one.txn([], [get(b"key")]).responses[0].response_range.kvs[0].value, b"value")

    def test_leases(self) -> None:
        lease = self.etcd.grant(5).ID
        self.etcd.txn([], [put(b"leased", b"value", lease)])
        self.assertEqual(self.etcd.keeps_alive(lease, LIMIT), 5)
        self.etcd.revoke(lease)
        self.assertEqual((self.etcd.keeps_alive(lease, LIMIT), list(self.etcd.all_of(b"leased"))), (0, []))
        with self.assertRaisesRegex(EtcdError, "lease not found"):
            self.etcd.txn([], [put(b"leased", b"value", lease)])

    def test_more_than_are_read_at_once(self) -> None:
        for number in range(150):
            self.etcd.txn([], [put(b"many/%03d" % number, b"%d" % number)])
        self.assertEqual([int(it.value) for it in self.etcd.all_of(b"many/")], list(range(150)))


if __name__ == "__main__":
    unittest.main()
