"""Programs that fork, and programs that end while something of theirs still asks."""

from __future__ import annotations

import multiprocessing
import os
import subprocess
import sys
import textwrap

import labrun
import labrun_broker
from tests.brokers import LIMIT, OnBroker, station

AFTER = 'gRPC, by which it connects, doesn\'t outlive a fork: start this one by multiprocessing.get_context("spawn"), or connect only in it'


def holds(address: str) -> "tuple[str, ...]":
    with labrun_broker.connect(address) as lab, lab.hold("scope", timeout=LIMIT) as held:
        return held.instruments


class Forks(OnBroker):
    def ran(self, text: str, address: str) -> "subprocess.CompletedProcess[str]":
        return subprocess.run([sys.executable, "-c", textwrap.dedent(text), address], capture_output=True, text=True, timeout=2 * LIMIT)

    def test_a_child_of_a_program_that_has_connected(self) -> None:
        """It is told at once, whether the lab was used, or is closed by now."""
        text = """
            import os, sys, labrun, labrun_broker
            lab = labrun_broker.connect(sys.argv[1])
            if USED:
                with lab.hold("scope"): pass
            if CLOSED:
                lab.close()
            if os.fork() == 0:
                try:
                    labrun_broker.connect(sys.argv[1])
                except labrun.OtherProcess as fault:
                    print(fault, fault.process == os.getppid(), flush=True)
                os._exit(0)
            os.wait()
            with labrun_broker.connect(sys.argv[1]) as lab, lab.hold("scope"):
                print("the parent holds")
        """
        broker = self.broker()
        for used, closed in ((0, 0), (1, 0), (1, 1)):
            with self.subTest(used=used, closed=closed):
                done = self.ran(text.replace("USED", str(used)).replace("CLOSED", str(closed)), broker.address)
                self.assertRegex(done.stdout, r"^this program's connection belongs to process \d+: ")
                self.assertEqual(done.stdout.partition(": ")[2], f"{AFTER} True\nthe parent holds\n", done.stderr)

    def test_what_the_advice_says(self) -> None:
        """Another process that is spawned, and forks before any of them connects."""
        broker = self.broker()
        holds(broker.address)
        with multiprocessing.get_context("spawn").Pool(1) as pool:
            self.assertEqual(pool.apply(holds, (broker.address,)), ("scope",))
        text = """
            import os, sys, labrun_broker
            if os.fork() == 0:
                with labrun_broker.connect(sys.argv[1]) as lab, lab.hold("scope"):
                    print("the child holds", flush=True)
                os._exit(0)
            os.wait()
            with labrun_broker.connect(sys.argv[1]) as lab, lab.hold("scope"):
                print("the parent holds")
        """
        done = self.ran(text, broker.address)
        self.assertEqual((done.stdout, done.returncode), ("the child holds\nthe parent holds\n", 0), done.stderr)

    def test_a_lab_of_the_parent(self) -> None:
        lab = self.lab(self.broker())
        child = os.fork()
        if child == 0:
            try:
                lab.hold("scope").acquire()
            except labrun.OtherProcess as fault:
                os._exit(7 if str(fault) == f"this lab belongs to process {os.getppid()}: {AFTER}" else 1)
            finally:
                os._exit(1)
        self.assertEqual(os.waitstatus_to_exitcode(os.waitpid(child, 0)[1]), 7)

    def test_a_finalizer_as_the_program_ends(self) -> None:
        """It doesn't wait for whoever isn't there any more; and the session is kept, as that of each program that just ends."""
        text = """
            import sys, labrun_broker
            lab = labrun_broker.connect(sys.argv[1], station="board")
            class Bench:
                def __init__(self):
                    self.held = lab.hold("scope")
                    self.held.acquire()
                def __del__(self):
                    self.held.release()
            bench = Bench()
        """
        broker = self.broker()
        done = self.ran(text, broker.address)
        self.assertEqual((done.stdout, done.returncode), ("", 0))
        self.assertIn("Closed: the lab is closed: the program has ended\n", done.stderr)
        with broker.lab() as lab:
            self.assertIsNotNone(station(lab, "board")["gone_since"])
