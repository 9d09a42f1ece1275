"""What goes on with the next broker at an etcd: what is being made safe, what is out of order, and the bay that was applied."""

from __future__ import annotations

import asyncio
import contextlib
import csv
import json
import os
import random
import re
import shlex
import signal
import subprocess
import sys
import tempfile
import time
import unittest
from typing import Any
from unittest import mock

import labrun_broker
from labrun import JournalError
from labrun_broker import leading, shell
from labrun_broker.applying import apply
from labrun_broker.bay import bay_of
from labrun_broker.errors import CantChange, OutOfOrder
from labrun_broker.etcd import EtcdError, get, put
from labrun_broker.leading import Leading, file_mark
from labrun_broker.past import read_past
from labrun_broker.wishes import Wish
from tests.brokers import BAY, COMMAND, LIMIT, free_port, until
from tests.etcds import OnEtcd
from tests.test_keeping import Owner, eventually, how
from tests.test_people import ANA, BOB, BOBS_NEW, EVE, PEOPLE, WITHOUT_BOB, hash_of
from tests.test_replica import BAY as SMALL
from tests.test_replica import Broker, Brokers
from tests.test_standby import Serving

DAN = "d" * 64
# seconds; of a broker that was killed it is given back by the test, and one that is only slow keeps it
LEASE = 10

# it notes that it began, and ends once there is a file for its process, with the status that stands in that
SCRIPT = """#!/bin/sh
echo "$$ $LABRUN_INSTRUMENT $LABRUN_STATION $LABRUN_SESSION $LABRUN_ENDED" >> {folder}/begun
while [ ! -e {folder}/ended-$$ ]; do sleep 0.01; done
exit $(cat {folder}/ended-$$)
"""
# a broker that kills itself before or after a function of making_safe.py
DIES = """
import os, signal, sys
from labrun_broker import making_safe
from labrun_broker.command import main

name, when = sys.argv[1:3]
real = getattr(making_safe, name)

async def dies(*given):
    if when == "after":
        await real(*given)
    os.kill(os.getpid(), signal.SIGKILL)

setattr(making_safe, name, dies)
sys.argv[1:3] = []
sys.exit(main())
"""


class Command:
    """That of the scope, in a folder of its own."""

    def __init__(self, test: unittest.TestCase) -> None:
        self.at = test.enterContext(tempfile.TemporaryDirectory())
        with open(f"{self.at}/safe", "w", encoding="utf-8") as file:
            file.write(SCRIPT.format(folder=self.at))
        os.chmod(f"{self.at}/safe", 0o755)

    def bay(self, bay: str = BAY) -> str:
        return f'{bay}[on_release]\nscope = "{self.at}/safe"\n'

    def begun(self) -> list[list[str]]:
        """What each had that has begun: its process, the instrument, the station, the session, and how that ended."""
        if not os.path.exists(f"{self.at}/begun"):
            return []
        with open(f"{self.at}/begun", encoding="utf-8") as file:
            return [line.split() for line in file.read().split("\n")[:-1]]

    def ends(self, at: int, status: int) -> None:
        """The one that began as the `at`-th."""
        path = f"{self.at}/ended-{self.begun()[at][0]}"
        with open(f"{path}.new", "w", encoding="utf-8") as file:
            file.write(str(status))
        os.replace(f"{path}.new", path)


class OnPair(OnEtcd):
    """Two brokers, of which the first leads."""

    def pair(self, bay: str = BAY, *words: str, command: list[str] = COMMAND, other: str = "", states: str = "") -> None:
        """`other` is the bay's file of the second one, if it isn't the same; `states` has the folder of each, if they have one."""
        ports = [free_port(), free_port()]
        self.addresses = ",".join(f"127.0.0.1:{it}" for it in ports)
        its = lambda at: (*words, "--state", f"{states}/{at}") if states else words
        self.serves = lambda at: Serving(self, ports[at], *its(at), bay=other if at and other else bay, lease=LEASE)
        self.brokers = [Serving(self, ports[0], *its(0), bay=bay, command=command, lease=LEASE)]
        self.brokers[0].says("4 instruments, at ")
        self.brokers.append(self.serves(1))
        self.brokers[1].says("stands by: ")

    def kills(self, at: int) -> None:
        """And then the other one leads; this one is begun anew, and stands by."""
        self.assertEqual(self.brokers[at].end(signal.SIGKILL), -signal.SIGKILL)
        self.next_leads(1 - at)
        self.brokers[at] = self.serves(at)
        self.brokers[at].says("stands by: ")

    def next_leads(self, at: int, count: int = 4) -> None:
        """The lease of the one that was killed is over."""
        for it in self.etcd.txn([], [get(f"/labrun/{self.bay}/leader".encode())]).responses[0].response_range.kvs:
            self.lapses(it.lease)
        self.brokers[at].says(f"{count} instruments, at ")

    @property
    def environment(self) -> dict[str, str]:
        return {**os.environ, "LABRUN_BROKER": self.addresses}

    def ran(self, *words: str) -> subprocess.CompletedProcess[str]:
        return subprocess.run([*COMMAND, *words], env=self.environment, capture_output=True, text=True, timeout=2 * LIMIT)

    def started(self, *words: str) -> subprocess.Popen[str]:
        one = subprocess.Popen([*COMMAND, *words], env=self.environment, stdout=subprocess.PIPE, stderr=subprocess.PIPE, text=True, start_new_session=True)
        self.addCleanup(ended, [one])
        return one

    def waits(self, *words: str) -> subprocess.Popen[str]:
        """A command that waits for the scope, as the broker that leads knows."""
        one = self.started("hold", "scope", "--station", "radio", "--", *words)
        until(lambda: " radio" in self.ran("status").stdout.partition("\nradio")[0], "radio waits")
        return one


def ended(processes: list[subprocess.Popen[Any]]) -> None:
    """However a test went: nothing of them is left behind."""
    for it in processes:
        with contextlib.suppress(ProcessLookupError):
            os.killpg(it.pid, signal.SIGKILL)
        it.communicate()


class MadeSafe(OnPair):
    def test_killed_while_it_runs(self) -> None:
        """The next one that leads runs the command once more, as often as one is killed, and nobody gets the scope before that has ended."""
        command = Command(self)
        self.pair(command.bay())
        self.assertEqual(self.ran("hold", "scope", "supply", "--station", "board", "--", "true").returncode, 0)
        until(command.begun)
        waits = self.waits("echo", "held")
        for count, at in enumerate((0, 1, 0), 2):
            self.kills(at)
            until(lambda: len(command.begun()) == count, f"it is run {count} times")
            until(lambda: not os.path.exists(f"/proc/{command.begun()[-2][0]}"), "the one before dies with its broker")
            self.assertIsNone(waits.poll())
            said = self.ran("status").stdout
            self.assertRegex(said, r"\nscope +\(being made safe\) ")
            self.assertRegex(said, r"\nboard +ending +\d+ (s|min \d+ s) +scope supply ")
        self.assertEqual([it[1:] for it in command.begun()], [["scope", "board", "1", "let_go"]] * 4)
        command.ends(3, 0)
        self.assertEqual((waits.communicate(timeout=LIMIT)[0], waits.returncode), ("held\n", 0))

    def test_killed_at_any_moment(self) -> None:
        """Between two sessions of the scope its command ends well, wherever the one that leads is killed."""
        folder, dice = self.enterContext(tempfile.TemporaryDirectory()), random.Random(1)
        with open(f"{folder}/safe", "w", encoding="utf-8") as file:
            file.write(f"#!/bin/sh\nsleep 0.1\necho safe >> {folder}/log\n")
        os.chmod(f"{folder}/safe", 0o755)
        self.pair(f'gone = "release"\n{BAY}[on_release]\nscope = "{folder}/safe"\n', "--grace", "20")
        hold = f"{shlex.join(COMMAND)} hold scope --quiet -- sh -c 'echo at >> {folder}/log; sleep 0.05'"
        clients = [subprocess.Popen(["sh", "-c", f"{hold}; while [ $? = 69 ]; do {hold}; done"], env=self.environment, start_new_session=True) for _ in range(4)]
        self.addCleanup(ended, clients)
        for at in (0, 1, 0, 1):
            time.sleep(dice.uniform(0, 0.6))
            self.kills(at)
        self.assertEqual([client.wait(LIMIT * 5) for client in clients], [0] * 4)
        with open(f"{folder}/log", encoding="utf-8") as file:
            log = file.read().split()
        self.assertGreaterEqual(log.count("at"), 4)
        self.assertFalse([at for at, (one, two) in enumerate(zip(log, log[1:])) if one == two == "at"], log)

    def killed(self, name: str, when: str, status: int) -> tuple[Command, subprocess.Popen[str]]:
        """The first broker has died at a moment after the command ended. Who waits meanwhile."""
        command = Command(self)
        self.pair(command.bay(), command=[sys.executable, "-c", DIES, name, when])
        self.assertEqual(self.ran("hold", "scope", "--station", "board", "--", "true").returncode, 0)
        until(command.begun)
        waits = self.waits("echo", "held")
        command.ends(0, status)
        self.assertEqual(self.brokers[0].process.wait(LIMIT), -signal.SIGKILL)
        self.next_leads(1)
        until(lambda: len(command.begun()) == 2, "it is run once more")
        return command, waits

    def test_before_it_is_written_that_it_ended_well(self) -> None:
        command, waits = self.killed("_makes_one_safe", "after", 0)
        time.sleep(0.3)
        self.assertIsNone(waits.poll())
        command.ends(1, 0)
        self.assertEqual((waits.communicate(timeout=LIMIT)[0], waits.returncode), ("held\n", 0))

    def test_before_it_is_written_that_it_failed(self) -> None:
        """The next one knows nothing of that, and goes by how it ends there."""
        command, waits = self.killed("_is_out", "before", 3)
        time.sleep(0.3)
        self.assertIsNone(waits.poll())
        self.assertNotIn("out of order", self.ran("status").stdout)
        command.ends(1, 4)
        self.assertEqual((waits.wait(LIMIT), len(command.begun())), (1, 2))
        self.assertRegex(waits.communicate()[1], "it wasn't made safe after session 1 of board: .* failed with status 4")
        self.assertRegex(self.ran("status").stdout, "scope has been out of order .* failed with status 4")

    def test_after_it_is_written_that_it_failed(self) -> None:
        """It stays out of order, whatever comes of it there, until somebody has seen to it."""
        command, waits = self.killed("_is_out", "after", 3)
        self.assertRegex(self.ran("status").stdout, "scope has been out of order .* failed with status 3")
        self.assertEqual(waits.wait(LIMIT), 1)
        self.assertRegex(waits.communicate()[1], "it wasn't made safe after session 1 of board: .* failed with status 3")
        command.ends(1, 0)
        until(lambda: "ending" not in self.ran("status").stdout, "the session is over")
        self.assertEqual(self.ran("hold", "scope", "--", "true").returncode, 1)
        self.assertEqual(self.ran("enable", "scope").returncode, 0)
        self.assertEqual(self.ran("hold", "scope", "--", "echo", "held").stdout, "held\n")

    def test_after_it_is_written_that_it_is_over(self) -> None:
        """Then it isn't run once more."""
        command = Command(self)
        self.pair(command.bay())
        self.assertEqual(self.ran("hold", "scope", "--station", "board", "--", "true").returncode, 0)
        until(command.begun)
        command.ends(0, 0)
        until(lambda: any(b" end " in it for it in self.values("journal/").values()), "its end is in etcd")
        self.kills(0)
        self.assertEqual(self.ran("hold", "scope", "--timeout", f"{LIMIT:g}", "--", "echo", "held").stdout, "held\n")
        self.assertEqual([it[2] for it in command.begun() if it[2] == "board"], ["board"])

    def test_out_of_order(self) -> None:
        """A command that fails, and an operator's word: both stay, with who says so, however often another leads."""
        self.pair(BAY + '[on_release]\nscope = "ls /nowhere"\n')
        self.assertEqual(self.ran("hold", "scope", "--", "true").returncode, 0)
        why = r"it wasn't made safe after session 1 of guest-1: ls /nowhere failed with status 2: ls: cannot access '/nowhere': No such file or directory"
        until(lambda: "out of order" in self.ran("status").stdout)
        self.assertEqual(self.ran("disable", "supply", "until Friday").returncode, 0)
        for at in (0, 1):
            self.kills(at)
            said = self.ran("status").stdout
            self.assertRegex(said, rf"\nscope has been out of order for .* s: {why} \(says the broker; once it is mended: labrun-broker enable scope\)\n")
            self.assertRegex(said, r"\nsupply has been out of order for .* s: until Friday \(says ")
            done = self.ran("hold", "scope", "--", "true")
            self.assertEqual(done.returncode, 1)
            self.assertRegex(done.stderr, why)
        self.assertEqual(self.ran("enable", "scope").returncode, 0)
        self.kills(0)
        said = self.ran("status").stdout
        self.assertNotIn("scope has been out of order", said)
        self.assertIn("supply has been out of order", said)


class OfEachMachine(OnPair):
    """What `table`, `report` and `table --notes` say of the folder of each machine, once the other one has led."""

    def setUp(self) -> None:
        super().setUp()
        self.states = self.enterContext(tempfile.TemporaryDirectory())

    def shown(self, at: int, *words: str) -> list[str]:
        done = subprocess.run([*COMMAND, words[0], f"{self.states}/{at}", *words[1:]], capture_output=True, text=True, timeout=LIMIT)
        self.assertEqual((done.returncode, done.stderr), (0, ""))
        return done.stdout.splitlines()

    def sessions(self, at: int) -> list[tuple[str, str, str, str]]:
        """The station, number, end and notes of each."""
        return [(it["station"], it["session"], it["end"], it["notes"]) for it in csv.DictReader(self.shown(at, "table", "--csv"))]

    def has(self, at: int, its: list[tuple[str, str, str, str]]) -> None:
        """What was answered is in the file soon."""
        until(lambda: self.sessions(at) == its, f"{its}, and not {self.sessions(at)}")

    def test_a_session_that_ends_while_the_other_one_leads(self) -> None:
        self.pair(states=self.states)
        lab = self.enterContext(labrun_broker.connect(self.addresses))
        with lab.hold("load-1") as other:
            with lab.hold("scope", "supply") as held:
                held.note("by the first")
                self.has(0, [("guest-1", "1", "holds", ""), ("guest-2", "2", "holds", "by the first")])
                self.kills(0)
                held.note("by the second")
                other.note("that goes on")
            self.has(1, last := [("guest-1", "1", "holds", "that goes on"), ("guest-2", "2", "done", "by the second")])
            self.kills(1)
            with lab.hold("scope"):
                other.note("by the first again")
                its = [("guest-1", "1", "holds", "by the first again"), ("guest-2", "2", "done", "by the first"), ("guest-2", "3", "holds", "")]
                self.has(0, its)
                report = self.shown(0, "report")
        self.assertEqual([it.partition(" holds")[0] for it in report if " since " in it], ["guest-1", "guest-2"])
        use = {it.split()[0]: int(re.findall(r"(\d+) %", it)[0]) for it in report if re.match("(scope|supply|load-1) ", it)}
        # (two held it, one after the other, from when the first began to lead)
        self.assertTrue(0 < use["scope"] <= 100 and 0 < use["supply"] < 100 and 0 < use["load-1"] <= 100, report)
        self.assertEqual(self.sessions(1), last)
        notes = lambda at: [(it["station"], it["session"], it["note"]) for it in csv.DictReader(self.shown(at, "table", "--notes"))]
        self.assertEqual(notes(0), [("guest-2", "2", "by the first"), ("guest-1", "1", "by the first again")])
        self.assertEqual(notes(1), [("guest-2", "2", "by the second"), ("guest-1", "1", "that goes on")])


    def test_killed_at_any_moment(self) -> None:
        """Once each has led again its file has no session that is open, none twice, and no moment at which two held the scope."""
        dice = random.Random(2)
        self.pair(f'gone = "release"\n{BAY}', "--grace", "20", states=self.states)
        hold = f"{shlex.join(COMMAND)} hold scope --quiet -- sleep 0.05"
        script = f"while [ ! -e {self.states}/end ]; do {hold} || [ $? = 69 ] || exit 1; done"
        clients = [subprocess.Popen(["sh", "-c", script], env=self.environment, start_new_session=True) for _ in range(4)]
        self.addCleanup(ended, clients)
        for at in (0, 1, 0, 1):
            time.sleep(dice.uniform(0.3, 0.9))
            self.kills(at)
        with open(f"{self.states}/end", "w", encoding="ascii"):
            pass
        self.assertEqual([client.wait(LIMIT * 5) for client in clients], [0] * 4)
        until(lambda: "nobody holds or waits" in self.ran("status").stdout, "all is over")
        self.kills(0)
        self.kills(1)
        for at in (0, 1):
            its, _ = read_past(f"{self.states}/{at}")
            held = sorted((it.held, it.ended, it.number) for it in its.ended if it.held is not None and it.ended is not None)
            self.assertGreater(len(held), 1)
            self.assertEqual((list(its.now), len(held)), ([], len({number for *_, number in held})), held)
            # (the journal's moments are whole milliseconds)
            self.assertFalse([(one, two) for one, two in zip(held, held[1:]) if two[0] < one[1] - 0.002], held)


class Stopped(Brokers):
    """One that leads no more, and doesn't know it, while its command goes on."""

    async def test_what_comes_of_its_command(self) -> None:
        """Nothing: neither that it ended well nor that it failed. Only the command of the one that leads counts."""
        for status in (0, 3):
            with self.subTest(status):
                self.bay += "-again"
                command = Command(self)
                first, owner = await self.broker("first", command.bay(SMALL)), Owner()
                held = await first.keeping.hold(Wish(("scope",), station="board"), owner)
                await first.keeping.let_go(held, owner)
                await eventually(command.begun)
                second = await self.deposed(first, command.bay(SMALL))
                await eventually(lambda: len(command.begun()) == 2)
                waits = asyncio.create_task(second.keeping.hold(Wish(("scope",)), Owner()))
                command.ends(0, status)
                await asyncio.wait_for(first.is_lost.wait(), LIMIT)
                await asyncio.sleep(0.3)
                self.assertEqual((waits.done(), how(second.keeping, "board")["state"], how(second.keeping, "scope")["out"]), (False, "ending", None))
                self.assertNotIn(b'"out"', self.values("places")["places"])
                command.ends(1, 3 - status)
                if status:
                    await asyncio.wait_for(waits, LIMIT)
                else:
                    with self.assertRaisesRegex(OutOfOrder, "failed with status 3"):
                        await asyncio.wait_for(waits, LIMIT)
                await second.keeping.close()


CHANGED = WITHOUT_BOB.replace('operators = ["ana"]', 'operators = ["fay"]').replace(
    "[groups.students]", f"fay = {{token = {hash_of(BOBS_NEW)}}}\n[groups.students]"
).replace('may = ["supply"]', 'may = ["load-1"]')  # fmt: skip


class Applied(OnPair):
    """A bay that was applied while one led; another leads, and its own file is an older one, or another."""

    def by(self, token: str, *words: str) -> subprocess.CompletedProcess[str]:
        with open(path := f"{self.brokers[0].folder}/{token[:4]}", "w", encoding="ascii") as file:
            file.write(f"{token}\n")
        return self.ran(*words, "--token-file", path) if "--" not in words else self.ran(words[0], "--token-file", path, *words[1:])

    def applied(self, bay: str) -> None:
        with open(f"{self.brokers[0].folder}/other.toml", "w", encoding="utf-8") as file:
            file.write(bay.replace("north", self.bay))

        def tries() -> bool:
            ran = self.by(ANA, "bay", "apply", f"{self.brokers[0].folder}/other.toml")
            # (on a busy machine etcd may not be quiet within a second)
            if "nothing has changed; try again" in ran.stderr:
                return False
            self.assertEqual(ran.returncode, 0, ran.stderr)
            return True

        until(tries)

    def statuses(self, *tries: tuple[str, tuple[str, ...]]) -> list[int]:
        return [self.by(token, *words).returncode for token, words in tries]

    def test_who_may(self) -> None:
        """A token that was revoked, a person who was added, an operator who was taken out, a group: all as it was applied."""
        self.pair(PEOPLE, other=PEOPLE.replace("[groups.students]", f"eve = {{token = {hash_of(EVE)}}}\n[groups.students]"))
        tries = (
            (BOB, ("hold", "load-1", "--", "true")),
            (EVE, ("hold", "load-1", "--", "true")),
            (BOBS_NEW, ("hold", "scope", "--", "true")),
            (DAN, ("hold", "supply", "--", "true")),
            (DAN, ("hold", "load-1", "--", "true")),
            (ANA, ("enable", "load-2")),
            (BOBS_NEW, ("disable", "load-2")),
        )
        self.assertEqual(self.statuses(*tries), [0, 69, 77, 0, 77, 1, 77])
        self.applied(CHANGED)
        wanted = [69, 69, 0, 77, 0, 77, 0]
        self.assertEqual(self.statuses(*tries), wanted)
        for at in (0, 1):
            self.kills(at)
            self.assertEqual(self.statuses(*tries), wanted, f"after {at + 1} that were killed")
            said = [it for it in self.brokers[1 - at].said if "applied" in it]
            self.assertRegex(said[-1], r"it goes by the bay that was applied by ana: .*, \d{4}-\d\d-\d\d \d\d:\d\d, and .*/bay.toml is another one: to go by that, apply it$")
            self.assertIn("this one's bay file isn't the one that was applied last: if it leads, it goes by the one that was applied", self.brokers[at].said[-1])

    def test_by_a_signal(self) -> None:
        """The file of the one that leads is another by now."""
        self.pair(PEOPLE)
        with open(f"{self.brokers[0].folder}/bay.toml", "w", encoding="utf-8") as file:
            file.write(WITHOUT_BOB.replace("north", self.bay))
        told = "the bay was changed by a signal: person bob: taken out"

        def tries() -> bool:
            self.brokers[0].process.send_signal(signal.SIGHUP)
            time.sleep(1)
            return any(told in it for it in self.brokers[0].said)

        until(tries, told)
        self.kills(0)
        self.assertEqual(self.statuses((BOB, ("hold", "load-1", "--", "true")), (ANA, ("hold", "load-1", "--", "true"))), [69, 0])

    def test_the_file_of_each(self) -> None:
        """Changed everywhere, and then applied: nothing is told of another file. A file that is changed later counts once it is applied."""
        self.pair(PEOPLE)
        for it in self.brokers:
            with open(f"{it.folder}/bay.toml", "w", encoding="utf-8") as file:
                file.write("# a comment\n" + WITHOUT_BOB.replace("north", self.bay))
        self.applied(WITHOUT_BOB)
        self.kills(0)
        self.assertFalse([it for it in self.brokers[1].said if "is another one" in it])
        self.assertEqual(self.statuses((BOB, ("hold", "load-1", "--", "true"))), [69])
        self.applied(PEOPLE)
        self.kills(1)
        self.assertEqual(self.statuses((BOB, ("hold", "load-1", "--", "true"))), [0])

    def test_a_command_that_is_new(self) -> None:
        """It is run where another leads, too; and who holds what is new goes on."""
        command = Command(self)
        self.pair(BAY)
        self.applied(command.bay(BAY.replace('"load-2"]', '"load-2", "laser"]')))
        holds = self.started("hold", "laser", "--", "sh", "-c", "echo held; sleep 600")
        assert holds.stdout is not None
        self.assertEqual(holds.stdout.readline(), "held\n")
        self.assertEqual(self.ran("hold", "scope", "--station", "board", "--", "true").returncode, 0)
        until(command.begun)
        self.brokers[0].end(signal.SIGKILL)
        self.next_leads(1, 5)
        until(lambda: len(command.begun()) == 2, "it is run once more")
        self.assertRegex(self.ran("status").stdout, r"\nscope +\(being made safe\) ")
        command.ends(1, 0)
        self.assertIsNone(holds.poll())

    def test_a_door_that_nobody_watches(self) -> None:
        """Where other machines come, and there is no token, only people are let in: without people it doesn't lead."""
        folder = self.enterContext(tempfile.TemporaryDirectory())
        words = ["openssl", "req", "-x509", "-newkey", "ec", "-pkeyopt", "ec_paramgen_curve:prime256v1", "-nodes", "-days", "2", "-subj", "/CN=labrun"]
        subprocess.run([*words, "-keyout", f"{folder}/key", "-out", f"{folder}/certificate"], check=True, capture_output=True)
        open_to_all = ("--listen", f"0.0.0.0:{free_port()}", "--tls-certificate", f"{folder}/certificate", "--tls-key", f"{folder}/key")
        for way in ("it was applied", "its file has changed"):
            with self.subTest(way):
                self.bay += "-again"
                first = Leading(self.member.client(), bay_of(PEOPLE.replace("north", self.bay)), "first", LEASE, self.fail)
                self.addCleanup(first.close)
                self.assertTrue(first.leads(lambda text: None))
                one = Serving(self, free_port(), *open_to_all, bay=PEOPLE, lease=LEASE)
                one.says("stands by: first leads")
                if way == "it was applied":
                    bay = BAY.replace("north", self.bay)
                    first.does(first.applies(bay, leading.Applied(file_mark(bay_of(bay)), "ana", time.time())))
                else:
                    with open(f"{one.folder}/bay.toml", "w", encoding="utf-8") as file:
                        file.write(BAY.replace("north", self.bay))
                first.close()
                self.assertEqual(one.process.wait(LIMIT), 78)
                one.says("is seen by other machines: that takes a certificate and a token")


class Kept(Brokers):
    """A bay that is applied, and its place in etcd."""

    def of(self, bay: str) -> str:
        return bay.replace("NAME", self.bay)

    async def test_with_the_new_page(self) -> None:
        """By one transaction: so whoever leads next has both, or neither."""
        first = await self.broker("first")
        txn, did = first.leading.etcd.txn, list[set[str]]()

        def seen(compare: Any, what: Any, *given: Any, **more: Any) -> Any:
            did.append({it.request_put.key.decode().removeprefix(f"/labrun/{self.bay}/") for it in what})
            return txn(compare, what, *given, **more)

        more = self.of(SMALL.replace('"supply"]', '"supply", "laser"]'))
        with mock.patch.object(first.leading.etcd, "txn", seen):
            await apply(first.keeping, more, "ana", False)
        self.assertIn({"", "journal/000002/000000000000", "applied", "applied-file"}, did, "and the old page goes")
        self.assertEqual(self.values("applied")["applied-file"].decode(), more)
        self.assertEqual(json.loads(self.values("applied")["applied"])["by"], "ana")

    async def test_one_that_leads_no_more(self) -> None:
        """It applies nothing, and tells nobody that it did."""
        first = await self.broker("first")
        await self.deposed(first)
        await self.never(first, apply(first.keeping, self.of(SMALL.replace("count = 4", "count = 5")), "ana", False))
        self.assertEqual(self.values("applied"), {})

    async def test_what_has_not_changed(self) -> None:
        """It is kept all the same: whoever leads next goes by it, and no more is written for the same once more. `--check` writes nothing."""
        first = await self.broker("first")
        self.assertEqual(await apply(first.keeping, self.of(SMALL), "ana", True), [])
        self.assertEqual(self.values("applied"), {})
        self.assertEqual(await apply(first.keeping, self.of(SMALL), "ana", False), [])
        before = self.values("")
        self.assertEqual(before["applied-file"].decode(), self.of(SMALL))
        self.assertEqual(await apply(first.keeping, "# a comment\n" + self.of(SMALL), "ana", False), [])
        self.assertEqual(self.values("applied"), {it: before[it] for it in ("applied", "applied-file")})
        # one with another file needn't wait for any other, and goes by this one
        wrong = Broker(self, "wrong", SMALL.replace("count = 4", "count = 1"))
        tries = asyncio.create_task(asyncio.to_thread(wrong.leading.leads, wrong.said.append))
        await asyncio.sleep(0.8)
        await first.keeping.close()
        self.assertTrue(await asyncio.wait_for(tries, LIMIT))
        found = wrong.leading.applied()
        assert found is not None
        self.assertEqual((found[0].by, found[1]), ("ana", bay_of(self.of(SMALL))))

    async def test_a_full_etcd(self) -> None:
        """Whoever applies is told that the next broker may not know it; and it does once there is room."""
        first, is_full = await self.broker("first"), True
        txn = first.leading.etcd.txn

        def full(compare: Any, what: Any, *given: Any, **more: Any) -> Any:
            if is_full and any(it.request_put.key.endswith(b"/applied") for it in what):
                raise EtcdError(28, "etcd is full")
            return txn(compare, what, *given, **more)

        five = self.of(SMALL.replace("count = 4", "count = 5"))
        with mock.patch.object(first.leading.etcd, "txn", full), mock.patch.object(shell, "DISK", 0.5), mock.patch("labrun_broker.turning.QUIET", 10.0):
            with self.assertRaisesRegex(JournalError, "the bay has changed, but the next broker may not know it: .*etcd is full"):
                await apply(first.keeping, five, "ana", False)
            self.assertEqual(self.values("applied"), {})
            is_full = False
            async with asyncio.timeout(LIMIT):
                while not self.values("applied"):
                    await asyncio.sleep(0.05)
        self.assertEqual(await apply(first.keeping, five, "ana", False), [])
        self.assertEqual(self.values("applied")["applied-file"].decode(), five)

    async def test_one_that_is_too_large(self) -> None:
        first = await self.broker("first")
        with self.assertRaisesRegex(CantChange, "more than 512 KiB"):
            await apply(first.keeping, self.of(SMALL) + "#" * (1 << 19), "ana", True)

    async def test_one_that_cannot_be_read(self) -> None:
        """Nobody goes by his own file then."""
        first = await self.broker("first")
        await apply(first.keeping, self.of(SMALL), "ana", False)
        for key, value in (("applied", b"{}"), ("applied-file", b"bay = 5"), ("applied-file", b"\xff")):
            with self.subTest(key, value=value):
                before = self.values(key)[key]
                self.etcd.txn([], [put(f"/labrun/{self.bay}/{key}".encode(), value)])
                with self.assertRaisesRegex(JournalError, "the bay that was applied last can't be read: "):
                    first.leading.applied()
                self.etcd.txn([], [put(f"/labrun/{self.bay}/{key}".encode(), before)])
        self.assertIsNotNone(first.leading.applied())


if __name__ == "__main__":
    unittest.main()
