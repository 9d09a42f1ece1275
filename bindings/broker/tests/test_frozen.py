"""A broker whose loop stands still while its connections go on to answer, as gRPC's do, and one whose disk hangs: whoever asks keeps the time limit,
and nothing is held later; and the loop doesn't wait for the disk."""

from __future__ import annotations

import asyncio
import contextlib
import functools
import json
import os
import shutil
import signal
import subprocess
import sys
import tempfile
import threading
import time
import unittest
from typing import Any, AsyncIterator, Iterator
from unittest import mock

from labrun import JournalError
from labrun_broker import aside, shell
from labrun_broker.wishes import Wish
from tests.brokers import BAY, LIMIT, SOON, Broker, OnBroker, station, until
from tests import test_keeping
from tests.test_keeping import Owner, eventually

# its loop stands still from a signal on until there is a file
STANDS_STILL = """
import os, signal, sys, time
from labrun_broker import command
def stands_still(*_):
    open(f"{FOLDER}/stands", "w").close()
    while not os.path.exists(f"{FOLDER}/goes"):
        time.sleep(0.02)
signal.signal(signal.SIGUSR1, stands_still)
sys.exit(command.main())
"""
SILENT = "doesn't answer\n"


class Unopened(Broker):
    opens = "labrun-broker: .*/state isn't open after 10 s, as where a disk doesn't answer; nobody is let in before it is\n"


class Begins(unittest.TestCase):
    def test_where_the_disk_hangs(self) -> None:
        """It is told by the broker that begins there: it can do nothing else. (Whoever opens a pipe to read waits for somebody who writes.)"""
        folder = self.enterContext(tempfile.TemporaryDirectory())
        os.mkdir(f"{folder}/state")
        os.mkfifo(f"{folder}/state/bay.journal")
        Unopened(folder, BAY, ("--state", f"{folder}/state")).kill()


class StandsStill(OnBroker):
    """A time limit is kept to within some two seconds. (More is left here to a busy machine; without the limit it would be for ever.)"""

    def stands(self) -> Broker:
        broker = self.broker(BAY, "--state", "FOLDER/state")
        broker.end()
        broker.command = [sys.executable, "-c", f"FOLDER = {broker.folder!r}{STANDS_STILL}"]
        broker.begin()
        return broker

    @contextlib.contextmanager
    def still(self, broker: Broker) -> Iterator[None]:
        assert broker.process is not None
        for name in ("stands", "goes"):
            with contextlib.suppress(FileNotFoundError):
                os.unlink(f"{broker.folder}/{name}")
        broker.process.send_signal(signal.SIGUSR1)
        until(lambda: os.path.exists(f"{broker.folder}/stands"), "it stands still")
        try:
            yield
        finally:
            with open(f"{broker.folder}/goes", "w", encoding="utf-8"):
                pass

    def is_idle(self, broker: Broker, name: str) -> None:
        with broker.lab() as lab:
            # (each that asked has left by then)
            with lab.hold("supply", timeout=LIMIT):
                pass
            until(lambda: station(lab, name)["state"] == "idle", "nothing is held")

    def test_who_comes(self) -> None:
        broker = self.stands()
        for limit in (["-n"], ["--timeout", "3"]):
            with self.subTest(limit):
                with self.still(broker):
                    begun = time.monotonic()
                    runs = broker.started("hold", "scope", *limit, "--quiet", "--", "echo", "ran")
                    self.addCleanup(runs.kill)
                    out, said = runs.communicate(timeout=LIMIT)
                    took = time.monotonic() - begun
                self.assertEqual((out, runs.returncode), ("", 69), said)
                self.assertTrue(said.endswith(SILENT), said)
                self.assertLess(took, SOON)
                self.is_idle(broker, "guest-1")

    def test_without_a_limit(self) -> None:
        """It is tried for 30 seconds; here for some."""
        broker = self.stands()
        program = "import sys; from labrun_broker import command, wire; wire.FIRST = 3.0; sys.exit(command.main())"
        with self.still(broker):
            words = [sys.executable, "-c", program, "hold", "scope", "--quiet", "--broker", broker.address, "--", "echo", "ran"]
            done = subprocess.run(words, capture_output=True, text=True, timeout=LIMIT)
        self.assertEqual((done.returncode, done.stdout), (69, ""), done.stderr)
        self.assertTrue(done.stderr.endswith(SILENT), done.stderr)
        self.is_idle(broker, "guest-1")

    def test_who_waits(self) -> None:
        """One that had a word keeps its limit, too."""
        broker = self.stands()
        with broker.lab() as lab, lab.hold("scope"):
            runs = broker.started("hold", "scope", "--timeout", "4", "--quiet", "--", "echo", "ran")
            self.addCleanup(runs.kill)
            until(lambda: station(lab, "guest-2")["state"] == "waiting", "it waits")
            with self.still(broker):
                out, said = runs.communicate(timeout=LIMIT)
            self.assertEqual((out, runs.returncode), ("", 69), said)
        self.is_idle(broker, "guest-2")

    def test_a_signal(self) -> None:
        """It is told for ten seconds at most that nobody waits any more, whatever else comes on the connection."""
        broker = self.stands()
        # (it goes on to ask, and each time the connection answers)
        sets = "leaving.GIVING_UP, leaving.UNTOLD, silence.TICK = 4.0, 1.0, 0.1"
        program = f"import sys; from labrun_broker import command, leaving, silence; {sets}; sys.exit(command.main())"
        with broker.lab() as lab, lab.hold("scope"):
            words = [sys.executable, "-c", program, "hold", "scope", "--quiet", "--broker", broker.address, "--", "echo", "ran"]
            with subprocess.Popen(words, stderr=subprocess.PIPE, text=True) as runs:
                self.addCleanup(runs.kill)
                until(lambda: station(lab, "guest-2")["state"] == "waiting", "it waits")
                with self.still(broker):
                    runs.send_signal(signal.SIGINT)
                    said = runs.communicate(timeout=SOON)[1]
            self.assertEqual(runs.returncode, 130, said)
            self.assertIn("the broker wasn't told", said)
        self.is_idle(broker, "guest-2")

    def test_as_it_lets_go(self) -> None:
        """It is told for a minute; here for some seconds. Once it goes on it knows."""
        broker = self.stands()
        program = "import sys; from labrun_broker import command, quick; quick.TELLING = 3.0; sys.exit(command.main())"
        script = f"echo runs; while ! [ -e {broker.folder}/stands ]; do sleep 0.05; done; exit 5"
        words = [sys.executable, "-c", program, "hold", "scope", "--quiet", "--broker", broker.address, "--", "sh", "-c", script]
        with subprocess.Popen(words, stdout=subprocess.PIPE, stderr=subprocess.PIPE, text=True) as runs:
            self.addCleanup(runs.kill)
            assert runs.stdout is not None
            self.assertEqual(runs.stdout.readline(), "runs\n")
            with self.still(broker):
                said = runs.communicate(timeout=SOON)[1]
        self.assertEqual(runs.returncode, 69, said)
        self.assertIn("the command ran, and ended with status 5, but:\n", said)
        self.assertIn("doesn't answer any more\n", said)
        self.is_idle(broker, "guest-1")

    def test_stopped_after_its_first_answer(self) -> None:
        """As by SIGSTOP, when the small client has heard that it is there."""
        broker = self.broker(BAY, "--state", "FOLDER/state")
        assert broker.process is not None
        program = f"""
import os, signal, sys
from labrun_broker import command, wire
from tests.brokers import is_stopped
answered = wire.Wire.is_answered
def is_answered(it):
    answered(it)
    os.kill({broker.process.pid}, signal.SIGSTOP)
    while not is_stopped({broker.process.pid}):
        pass
wire.Wire.is_answered = is_answered
sys.exit(command.main())
"""
        for limit in (["-n"], ["--timeout", "3"]):
            with self.subTest(limit):
                words = [sys.executable, "-c", program, "hold", "scope", *limit, "--quiet", "--broker", broker.address, "--", "echo", "ran"]
                begun = time.monotonic()
                try:
                    done = subprocess.run(words, capture_output=True, text=True, timeout=LIMIT)
                    took = time.monotonic() - begun
                finally:
                    os.kill(broker.process.pid, signal.SIGCONT)
                self.assertEqual((done.returncode, done.stdout), (69, ""), done.stderr)
                self.assertLess(took, SOON)
                self.is_idle(broker, "guest-1")


class Hangs(test_keeping.OnFolder):
    """A disk on which each write hangs. The loop's thread may make none: here that is a fault."""

    def setUp(self) -> None:
        self.may, self.on_loop, real = threading.Event(), list[str](), {name: getattr(os, name) for name in ("pwrite", "write", "fdatasync", "fsync", "ftruncate")}
        self.may.set()
        self.addCleanup(self.may.set)
        loops = threading.current_thread()

        def hangs(name: str, *given: Any) -> Any:
            if threading.current_thread() is loops and self.is_watched:
                self.on_loop.append(name)
            else:
                self.may.wait(LIMIT)
            return real[name](*given)

        self.is_watched = False
        for name in real:
            self.enterContext(mock.patch.object(os, name, functools.partial(hangs, name)))

    @contextlib.asynccontextmanager
    async def hanging(self) -> AsyncIterator[None]:
        """Meanwhile the loop isn't held up for long: by a moment for the journal and one for the records (and here by a busy machine)."""
        stood, loop = [0.0], asyncio.get_running_loop()

        async def ticks() -> None:
            while True:
                before = loop.time()
                await asyncio.sleep(0.01)
                stood.append(loop.time() - before)

        self.may.clear()
        self.is_watched, ticking = True, asyncio.create_task(ticks())
        try:
            yield
        finally:
            self.is_watched = False
            ticking.cancel()
            self.may.set()
        self.assertEqual(self.on_loop, [])
        self.assertLess(max(stood), SOON)

    async def test_all_goes_on(self) -> None:
        """Who lets go is answered, nobody comes to hold, and it is said; once the disk answers, all is written in its order."""
        self.enterContext(mock.patch.multiple(shell, SLOW=0.5, DISK=1.0))
        folder, said = self.folder(), list[str]()
        keeping, owner = await self.keeping(folder), Owner()
        keeping.says = said.append
        first, second = [await keeping.hold(Wish((name,), station=of), owner) for name, of in (("scope", "radio"), ("load-1", ""))]
        await eventually(lambda: keeping._shell.is_quiet, "that all is on the disk")
        async with self.hanging():
            for it in (first, second):
                async with asyncio.timeout(SOON):
                    await keeping.let_go(it, owner)
            with self.assertRaises(JournalError):
                async with asyncio.timeout(SOON):
                    await keeping.hold(Wish(("load-2",), timeout=0.2), owner)
            self.assertIn("doesn't answer", keeping.status()["disk"])
            self.assertRegex(said[0], "doesn't answer: nobody is told that it holds until it does")
            # (a line that couldn't be written is none that somebody reads)
            with open(f"{folder}/bay.journal", "rb") as file:
                self.assertNotIn(b" let_go ", file.read())
        await eventually(lambda: not keeping.status()["disk"], "the disk answers")
        self.assertRegex(said[-1], "all is written")
        await keeping.hold(Wish(("scope",), station="radio"), owner)
        with open(f"{folder}/bay.journal", "rb") as file:
            self.assertEqual(file.read().count(b" let_go "), 2)
        whats = ["opened", "asked", "held", "asked", "held", "let_go", "let_go", "asked", "failed", "asked", "held"]

        def written() -> list[str]:
            with open(f"{folder}/records.jsonl", encoding="utf-8") as file:
                return [json.loads(line)["what"] for line in file]

        await eventually(lambda: written() == whats, f"{whats}")

    async def test_a_let_go_is_written_first(self) -> None:
        """Where a write takes longer than a moment, whoever lets go is answered once it has ended."""
        folder = self.folder()
        keeping, owner = await self.keeping(folder), Owner()
        session = await keeping.hold(Wish(("scope",), station="radio"), owner)
        await eventually(lambda: keeping._shell.is_quiet, "that all is on the disk")
        async with self.hanging():
            let_go = asyncio.create_task(keeping.let_go(session, owner))
            self.assertEqual((await asyncio.wait({let_go}, timeout=5 * aside.MOMENT))[0], set())
        await let_go
        with open(f"{folder}/bay.journal", "rb") as file:
            self.assertIn(b" let_go ", file.read())


class Frozen(OnBroker):
    """A real one, by `fsfreeze`, which takes root and a loop device."""

    def mounted(self) -> str:
        folder = tempfile.mkdtemp()
        self.addCleanup(shutil.rmtree, folder, ignore_errors=True)
        if os.geteuid() or any(shutil.which(it) is None for it in ("fsfreeze", "mkfs.ext4", "mount")):
            self.skipTest("it takes root, fsfreeze and mkfs.ext4")
        os.mkdir(f"{folder}/disk")
        with open(f"{folder}/image", "wb") as file:
            file.truncate(24 << 20)
        for words in (["mkfs.ext4", "-q", "-F", f"{folder}/image"], ["mount", "-o", "loop", f"{folder}/image", f"{folder}/disk"]):
            if (done := subprocess.run(words, capture_output=True, text=True, timeout=LIMIT)).returncode:
                self.skipTest(f"{words[0]}: {done.stderr.strip()}")
        self.addCleanup(subprocess.run, ["umount", "-l", f"{folder}/disk"], timeout=LIMIT)
        return f"{folder}/disk"

    def test_a_frozen_disk(self) -> None:
        disk = self.mounted()
        broker = self.broker(BAY, "--state", f"{disk}/state")
        lab = self.lab(broker)
        held = lab.hold("scope")
        held.acquire()
        if (done := subprocess.run(["fsfreeze", "-f", disk], capture_output=True, text=True, timeout=LIMIT)).returncode:
            self.skipTest(done.stderr.strip())
        # (whatever becomes of this process)
        thaws = subprocess.Popen(["sh", "-c", f"sleep {4 * LIMIT}; fsfreeze -u {disk}"], stderr=subprocess.DEVNULL)
        self.addCleanup(thaws.kill)
        try:
            begun = time.monotonic()
            held.release()
            self.assertLess(time.monotonic() - begun, SOON, "a let-go is answered")
            until(lambda: "doesn't answer" in lab.status()["disk"], "it is said")
            begun = time.monotonic()
            for words in (("-n",), ("--timeout", "3")):
                runs = broker.started("hold", "load-2", *words, "--quiet", "--", "echo", "got")
                self.addCleanup(runs.kill)
                out, said = runs.communicate(timeout=LIMIT)
                self.assertEqual((runs.returncode, out), (74, ""), said)
            self.assertLess(time.monotonic() - begun, LIMIT)
        finally:
            subprocess.run(["fsfreeze", "-u", disk], check=True, timeout=LIMIT)
        until(lambda: not lab.status()["disk"], "all is written")
        self.assertEqual([it["name"] for it in lab.status()["stations"] if it["state"] != "idle"], [])
        with lab.hold("scope", "load-2", timeout=LIMIT):
            pass


if __name__ == "__main__":
    unittest.main()
