"""Client processes that hold and let go as fast as they can, for so many sessions: what the broker's process takes meanwhile.

usage: python3 -m tests.soak [SESSIONS] [--clients N] [--seconds S] [--sync data|none]    in bindings/broker; 100000 sessions, 32 clients

Each session is of one to three of six instruments, each a TCP server that refuses, and counts, a second client. The memory, the open files
and the threads of the broker are told ten times. At the end the records have each session once, and the journal, too, of up to 10000;
their sizes are told, and how long a broker takes to begin. After S seconds no client begins another session."""

from __future__ import annotations

import argparse
import json
import os
import random
import subprocess
import sys
import tempfile
import threading
import time

from tests.brokers import TOP, Broker

sys.path.insert(0, f"{TOP}/examples/broker")
from instruments import Bay  # type: ignore[import]  # noqa: E402

NAMES = [f"instrument-{at}" for at in range(6)]
BAY = 'bay = "north"\ninstruments = {names}\n[guests]\ncount = {guests}\n[limits]\nclients = 100\nrequests = 100000\n'

CLIENT = """
import random, sys, time
sys.path.insert(0, sys.argv[1])
import labrun_broker
from instruments import Talk
ports = dict(it.split("=") for it in sys.argv[6:])
chance, longest, done, end = random.Random(sys.argv[3]), 0.0, 0, time.monotonic() + float(sys.argv[5])
with labrun_broker.connect(sys.argv[2]) as lab:
    while done < int(sys.argv[4]) and (begun := time.monotonic()) < end:
        with lab.hold(*chance.sample(sorted(ports), chance.randint(1, 3))) as held:
            longest = max(longest, time.monotonic() - begun)
            for name in held.instruments:
                with Talk(int(ports[name])) as talk:
                    talk.ask("ADD 1")
        done += 1
print(longest, done)
"""


LINES = (("records.jsonl", '"what":"held"'), ("records.jsonl", '"what":"let_go"'), ("bay.journal", " hold "), ("bay.journal", " let_go "))
WHOLE = 10_000  # sessions: as long as there were no more, the journal hasn't begun anew, and has each of them


def lines_with(path: str, text: str) -> int:
    with open(path, encoding="utf-8") as file:
        return sum(text in line for line in file)


def logged_in(folder: str, done: int) -> int:
    """How many sessions the records have, held and let go, and the journal, too, if it is to have all of them."""
    return min(lines_with(f"{folder}/{name}", text) for name, text in (LINES if done <= WHOLE else LINES[:2]))


def sizes_of(folder: str) -> str:
    sizes = (f"{name} {os.path.getsize(f'{folder}/{name}') / 2**20:.1f} MiB" for name in ("bay.journal", "records.jsonl"))
    return ", ".join(sizes)


def taken(pid: int) -> str:
    """The memory of a process in MiB, its open files and its threads."""
    with open(f"/proc/{pid}/status", encoding="ascii") as file:
        words = dict(line.split(":", 1) for line in file)
    memory = int(words["VmRSS"].split()[0]) / 1024
    return f"{memory:.1f} MiB, {len(os.listdir(f'/proc/{pid}/fd'))} files, {int(words['Threads'])} threads"


def main() -> int:
    words = argparse.ArgumentParser(usage=__doc__)
    words.add_argument("sessions", type=int, nargs="?", default=100_000)
    words.add_argument("--clients", type=int, default=32)
    words.add_argument("--seconds", type=float, default=1e9)
    words.add_argument("--sync", default="none")
    given = words.parse_args()
    each = given.sessions // given.clients
    with tempfile.TemporaryDirectory() as folder, Bay(NAMES) as bay:
        text = BAY.format(names=json.dumps(NAMES), guests=given.clients)
        broker = Broker(folder, text, ("--state", f"{folder}/state", "--sync", given.sync))
        assert broker.process is not None
        ports = [f"{name}={port}" for name, port in bay.ports.items()]
        command = [sys.executable, "-c", CLIENT, f"{TOP}/examples/broker", broker.address]
        begun = time.monotonic()
        clients = [
            subprocess.Popen([*command, str(at), str(each), str(given.seconds), *ports], stdout=subprocess.PIPE, text=True)
            for at in range(given.clients)
        ]
        told_by: list[list[str]] = []
        ends = [threading.Thread(target=lambda one=one: told_by.append((one.communicate()[0] or "nan 0").split())) for one in clients]
        for thread in ends:
            thread.start()
        with broker.lab() as lab:
            told = 0
            while any(thread.is_alive() for thread in ends):
                time.sleep(0.2)
                over, took = lab.status()["sessions"], time.monotonic() - begun
                if over >= told * given.sessions // 10:
                    print(f"{over} sessions, {took:.0f} s: {taken(broker.process.pid)}", flush=True)
                    told += 1
            print(f"at the end: {taken(broker.process.pid)}", flush=True)
        broker.end()
        done = sum(int(it) for _, it in told_by)
        logged, sizes = logged_in(f"{folder}/state", done), sizes_of(f"{folder}/state")
        at = time.monotonic()
        broker.begin()
        begins = time.monotonic() - at
        broker.end()
        refused = sum(it for _, it in bay.counts.values())
    longest = max(float(it) for it, _ in told_by)
    print(f"{done} sessions by {given.clients} clients in {took:.0f} s, {done / took:.0f} a second, longest wait {longest:.2f} s;", end=" ")
    print(f"{refused} refused, {logged} in the records; {sizes}; it begins again in {begins:.1f} s")
    return bool(refused or logged != done or longest != longest)


if __name__ == "__main__":
    os.environ.setdefault("PYTHONPATH", ":".join(sys.path))
    sys.exit(main())
