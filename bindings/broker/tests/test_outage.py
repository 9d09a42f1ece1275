"""Instruments that are out of order."""

import asyncio
import json
import os
import signal
import time
import unittest
from concurrent.futures import ThreadPoolExecutor
from typing import Optional
from unittest import mock

from labrun_broker.bay import bay_of
from labrun_broker.errors import AnswerLost, BadWish, NoInstrument, OutOfOrder, Unreachable
from labrun_broker.errors import TimeoutError as TimedOut
from labrun_broker.keeping import Keeping
from labrun_broker.outage import disable, enable
from labrun_broker.telling import lines_of
from labrun_broker.wishes import Wish
from tests.brokers import BAY, LIMIT, OnBroker
from tests.test_keeping import TICKET, OnFolder, Owner, how


class Outages(OnFolder):
    async def opened(self, folder: Optional[str]) -> Keeping:
        keeping = Keeping(bay_of(BAY), folder)
        await keeping.open()
        self.addAsyncCleanup(keeping.close)
        return keeping

    async def test_who_asks(self) -> None:
        """It is told so at once, and why; one with a choice goes round it; and all is as before once it is in order again."""
        keeping, owner = await self.opened(None), Owner()
        await disable(keeping, "load-1", "calibration until Friday", "ann")
        with self.assertRaisesRegex(OutOfOrder, r"^load-1 has been out of order for \d+\.?\d* s: calibration until Friday \(says ann; once it is mended: labrun-broker enable load-1\)$"):
            await keeping.hold(Wish(("scope", "load-1"), timeout=60), owner)
        other = await keeping.hold(Wish(any_of=(("load-1",), ("load-2",))), owner)
        self.assertEqual(other.instruments, ("load-2",))
        with self.assertRaisesRegex(TimedOut, "load-2 has been held by guest-1"):
            await keeping.hold(Wish(any_of=(("load-1",), ("load-2",)), timeout=0.05), owner)
        self.assertEqual(how(keeping, "load-1")["out"], "calibration until Friday")
        self.assertEqual((how(keeping, "load-1")["out_by"], how(keeping, "load-2")["out"]), ("ann", None))
        await enable(keeping, "load-1", "ann")
        first = await keeping.hold(Wish(any_of=(("load-1",), ("load-2",))), owner)
        self.assertEqual((first.instruments, how(keeping, "load-1")["out"]), (("load-1",), None))
        self.assertEqual([it["what"] for it in keeping.history if it["instruments"] == ["load-1"] and not it["session"]], ["disabled", "enabled"])

    async def test_who_said_so_before(self) -> None:
        """The new reason stands in the place of the old one, since when it is out of order stays, and the records have both."""
        keeping = await self.opened(None)
        await disable(keeping, "load-1", "calibration until Friday", "ann")
        first = keeping.places.out["load-1"]
        await asyncio.sleep(0.01)
        await disable(keeping, "load-1", "", "bob")
        self.assertEqual(vars(keeping.places.out["load-1"]), {"why": "", "by": "bob", "since": first.since, "at": first.at})
        self.assertEqual(keeping.history[-1]["text"], "load-1, by bob; it was so already: calibration until Friday (said ann)")

    async def test_who_holds_and_waits(self) -> None:
        """Who holds goes on. Who waits for it is told; who waits for one of several goes on waiting for the others; nobody comes to hold it."""
        folder, owner = self.folder(), Owner()
        keeping = await self.opened(folder)
        held = await keeping.hold(Wish(("load-1",), station="", ticket=TICKET), owner)
        load = await keeping.hold(Wish(("load-2",)), owner)
        waits = asyncio.create_task(keeping.hold(Wish(("load-1", "scope")), owner))
        chooses = asyncio.create_task(keeping.hold(Wish(any_of=(("load-1",), ("load-2",)), timeout=30, by="bob"), owner))
        await asyncio.sleep(0.02)
        await disable(keeping, "load-1", "", "ann")
        with self.assertRaisesRegex(OutOfOrder, r"load-1 has been out of order for \d+\.?\d* s \(says ann; once it is mended: labrun-broker enable load-1\)"):
            await waits
        await keeping.note(held, owner, "5 V")
        await keeping.let_go(held, owner)
        await asyncio.sleep(0.05)
        self.assertEqual((chooses.done(), how(keeping, "load-1")["holder"], how(keeping, "load-2")["waiting"]), (False, None, [how(keeping, "guest-4")["name"]]))
        await keeping.let_go(load, owner)
        other = await chooses
        self.assertEqual((other.instruments, other.by), (("load-2",), "bob"))
        await keeping.close()
        with open(f"{folder}/records.jsonl", encoding="utf-8") as file:
            ends = [it for it in map(json.loads, file) if it["what"] in ("held", "let_go", "gave_up")]
        self.assertEqual([it["what"] for it in ends if it["instruments"] == ["load-1", "load-2"]], ["gave_up"])
        self.assertEqual([it for it in ends if "after" not in it], [])

    async def test_over_restarts(self) -> None:
        folder, owner = self.folder(), Owner()
        keeping = await self.opened(folder)
        held = await keeping.hold(Wish(("scope",), ticket=TICKET), owner)
        await disable(keeping, "scope", "no trigger", "ann")
        since = how(keeping, "scope")["out_since"]
        await keeping.close()
        again = await self.opened(folder)
        self.assertEqual((how(again, "scope")["out"], how(again, "scope")["holder"]), ("no trigger", "guest-1"))
        self.assertAlmostEqual(how(again, "scope")["out_since"], since, delta=1)
        back = await again.hold(Wish(ticket=TICKET, comes_back=True), owner)
        self.assertEqual(back.number, held.number)
        await again.let_go(back, owner)
        with self.assertRaisesRegex(OutOfOrder, "no trigger"):
            await again.hold(Wish(("scope",)), owner)
        await enable(again, "scope", "bob")
        with open(f"{folder}/bay.json", encoding="utf-8") as file:
            self.assertNotIn("out", json.load(file))

    async def test_the_clock_is_set(self) -> None:
        """For how long it is out of order is right, and since when is told by the clock as it is now; what is written is by the clock as it was."""
        folder, owner, now = self.folder(), Owner(), time.time()
        keeping = await self.opened(folder)
        await disable(keeping, "load-1", "", "ann")
        for jump in (-2 * 86400, 86400):
            with mock.patch("time.time", lambda: now + jump):
                self.assertAlmostEqual(how(keeping, "load-1")["out_since"], now + jump, delta=LIMIT)
                with self.assertRaisesRegex(OutOfOrder, r"^load-1 has been out of order for \d+ s \("):
                    await keeping.hold(Wish(("load-1",)), owner)
                self.assertRegex("\n".join(lines_of(keeping.status())), r"\nload-1 has been out of order for \d+ s \(")
        await keeping.close()
        # (a broker that begins knows the clock alone: set to the past, as if it were so from now on)
        for jump, span in ((-86400, r"\d+ s"), (90000, "1 d [01] h")):
            with mock.patch("time.time", lambda: now + jump):
                again = await self.opened(folder)
                with self.assertRaisesRegex(OutOfOrder, rf"^load-1 has been out of order for {span} \("):
                    await again.hold(Wish(("load-1",)), owner)
                await again.close()
        with open(f"{folder}/bay.json", encoding="utf-8") as file:
            out = json.load(file)["out"]["load-1"]
        self.assertEqual((sorted(out), now - 1 < out["since"] < now + LIMIT), (["by", "since", "why"], True))

    async def test_faults(self) -> None:
        keeping = await self.opened(None)
        with self.assertRaisesRegex(NoInstrument, "scop is no instrument of this bay: .*did you mean scope"):
            await disable(keeping, "scop", "", "ann")
        with self.assertRaisesRegex(BadWish, "a note of 501 characters"):
            await disable(keeping, "scope", "x" * 501, "ann")
        with self.assertRaisesRegex(OutOfOrder, "scope isn't out of order"):
            await enable(keeping, "scope", "ann")


class Commands(OnBroker):
    def test_words(self) -> None:
        broker = self.broker(BAY, "--state", "FOLDER/state")
        lab = self.lab(broker)
        already = "it was out of order already"
        for why, before in (
            ("no fuse", ""),
            ("", rf"{already}: no fuse \(said \S+\); no reason stands there now\n"),
            ("calibration until Friday", rf"{already} \(said \S+\); what you say stands there now\n"),
        ):
            self.assertRegex(broker.ran("disable", "scope", *([why] if why else [])).stdout, f"^{before}$")
        self.assertRegex(broker.ran("status").stdout, r"\nscope has been out of order for \d+ s: calibration until Friday \(says .*@.*; once it is mended: labrun-broker enable scope\)\n")
        for words in (("hold", "scope"), ("hold", "scope", "--timeout", "60")):
            done = broker.ran(*words, "--", "true")
            self.assertEqual(done.returncode, 1)
            self.assertRegex(done.stderr, r"^labrun-broker: scope has been out of order for \d+ s: calibration until Friday \(says ")
        with self.assertRaisesRegex(OutOfOrder, "calibration"):
            lab.hold("scope").acquire()
        done = broker.ran("hold", "--any", "scope", "supply", "--", "sh", "-c", "echo $LABRUN_HELD")
        self.assertEqual((done.returncode, done.stdout), (0, "supply\n"))
        self.assertEqual(broker.ran("enable", "scope").returncode, 0)
        with lab.hold("scope"):
            pass
        self.assertEqual(broker.ran("enable", "scope").returncode, 1)
        for words in (("disable", "scop", "no trigger"), ("enable", "scop")):
            done = broker.ran(*words)
            self.assertEqual(done.returncode, 2, words)
            self.assertIn("labrun-broker: scop is no instrument of this bay: there are scope, ", done.stderr)
        with self.assertRaisesRegex(NoInstrument, "did you mean scope"):
            lab.disable("scop")
        self.assertEqual(broker.end(), 0)
        self.assertRegex(broker.said, "scope is out of order: calibration until Friday .says .*.\n.*scope is in order again .says")

    def test_what_cant_be_written_isnt_so(self) -> None:
        broker = self.broker(BAY, "--state", "FOLDER/state")
        os.mkdir(f"{broker.folder}/state/bay.json.new")
        done = broker.ran("disable", "scope", "no trigger")
        self.assertEqual((done.returncode, done.stdout), (74, ""))
        why = "the bay's names, and what is out of order, couldn't be written, so this isn't done: Is a directory"
        self.assertEqual(done.stderr, f"labrun-broker: {broker.folder}/state/bay.json: {why}\n")
        self.assertEqual(broker.ran("hold", "scope", "-n", "--", "true").returncode, 0)
        os.rmdir(f"{broker.folder}/state/bay.json.new")
        self.assertEqual(broker.ran("disable", "scope", "no trigger").returncode, 0)

    def test_a_broker_that_dies_before_it_answers(self) -> None:
        """Nobody knows whether it was done, and whoever asked is told what to do; whoever releases, to name the session, so that a second try ends
        no later one."""
        broker = self.broker()
        told = f"connection; it may have been done, or not: see `labrun-broker status --broker {broker.address}`, and try again"
        lab = self.lab(broker)
        lab.status()
        assert broker.process is not None
        broker.process.send_signal(signal.SIGSTOP)
        with ThreadPoolExecutor() as threads:
            asked = threads.submit(lab.disable, "scope", "no trigger")
            whoever, only = threads.submit(lab.release, "burn-in"), threads.submit(lab.release, "burn-in", 7)
            time.sleep(2)
            broker.kill()
            for one, again in (asked, "$"), (whoever, " with the session's number, because another may have begun$"), (only, "$"):
                with self.subTest(again), self.assertRaisesRegex(AnswerLost, told + again):
                    one.result(LIMIT)
        with self.assertRaises(Unreachable) as fault:
            lab.disable("scope", "no trigger")
        self.assertNotIsInstance(fault.exception, AnswerLost, "nobody was there to hear it")


if __name__ == "__main__":
    unittest.main()
