"""Kills clients and brokers at random moments, while eight programs share instruments that refuse, and count, a second client.

usage: python3 -m tests.kills [TIMES] [--seed N] [--pause SECONDS]
       so many kills of clients, and as many of brokers (200), run in bindings/broker

A program takes some instruments by the broker, talks to each of them, and lets go. A program that is killed while it holds leaves its
session to the broker, which shows that it is gone; its talk is over, and so the operator, who is this script, releases it. A broker that is
killed goes on where it was, and its clients come back to it by themselves. No instrument may refuse; no program may fail; each session that
a program has done is in the records once; and at the end everybody can hold everything."""

from __future__ import annotations

import argparse
import collections
import contextlib
import glob
import json
import os
import random
import subprocess
import sys
import tempfile
import time
from typing import Any, Callable

import labrun_broker
from labrun_broker.sessions import ENDS
from tests.brokers import LIMIT, TOP, Broker, until

sys.path.insert(0, f"{TOP}/examples/broker")
from instruments import Bay  # type: ignore[import]  # noqa: E402

NAMES = [f"instrument-{at}" for at in range(6)]
PROGRAMS = 8
BAY = f'bay = "north"\ninstruments = {json.dumps(NAMES)}\n[guests]\ncount = {PROGRAMS + 1}\n'

# it says `did STATION SESSION` of each session that it has done
PROGRAM = """
import os, random, sys, time
sys.path.insert(0, sys.argv[1])
import labrun_broker
from instruments import Talk
ports = dict(it.split("=") for it in sys.argv[4:])
chance = random.Random(sys.argv[3])
with labrun_broker.connect(sys.argv[2]) as lab:
    has_held = False
    while True:
        try:
            with lab.hold(*chance.sample(sorted(ports), chance.randint(1, 3)), timeout=600) as held:
                has_held = True
                for name in held.instruments:
                    with Talk(int(ports[name])) as talk:
                        talk.ask("ADD 1")
                        time.sleep(chance.random() * 0.004)
        except labrun_broker.Unreachable:
            if has_held:
                raise
            time.sleep(0.05)  # (the broker was killed just now, and this program doesn't know it yet)
        else:
            os.write(1, f"did {held.station} {held.number}\\n".encode())
"""


class Programs:
    """Eight programs, each begun anew once it was killed."""

    def __init__(self, broker: Broker, bay: Any, chance: random.Random) -> None:
        self.broker, self.chance = broker, chance
        self.ports = [f"{name}={port}" for name, port in bay.ports.items()]
        self.count = 0
        self.running = [self.begun() for _ in range(PROGRAMS)]

    def begun(self) -> subprocess.Popen[bytes]:
        """Begins a program, whose files are its own: what two write to one may stand in the middle of each other's."""
        self.count += 1
        words = [sys.executable, "-c", PROGRAM, f"{TOP}/examples/broker", self.broker.address, str(self.chance.random()), *self.ports]
        with open(f"{self.broker.folder}/said-{self.count}", "wb") as said, open(f"{self.broker.folder}/faults-{self.count}", "wb") as faults:
            return subprocess.Popen(words, stdout=said, stderr=faults)

    def kill_one(self) -> None:
        at = self.chance.randrange(PROGRAMS)
        self.running[at].kill()
        self.running[at].wait()
        self.running[at] = self.begun()

    def kill_all(self) -> None:
        for one in self.running:
            one.kill()
            one.wait()

    def processes(self) -> set[int]:
        return {one.pid for one in self.running}

    def ended(self) -> list[int]:
        """The statuses of those that ended by themselves, which none may."""
        return [status for one in self.running if (status := one.poll()) is not None]

    def text(self, of: str) -> str:
        """What all of them wrote, line by line. (The last line of one that was killed may be cut.)"""
        found = []
        for path in glob.glob(f"{self.broker.folder}/{of}-*"):
            with open(path, encoding="utf-8") as file:
                found += [line for line in file if line.endswith("\n")]
        return "".join(found)


def patiently(call: Callable[..., Any], *given: Any) -> Any:
    """A call to a broker that may have begun just now."""
    end = time.monotonic() + LIMIT
    while True:
        try:
            return call(*given)
        except labrun_broker.Unreachable:
            if time.monotonic() > end:
                raise
            time.sleep(0.05)


def release_who_is_gone(lab: labrun_broker.Lab, running: set[int]) -> int:
    """As an operator who sees to it: the talk of a program that was killed is over. One whose broker was killed comes back by itself."""
    status, count = patiently(lab.status), 0
    for one in status["stations"]:
        # (who holds is USER@HOST PROCESS NAME; of one that was let in as its broker was killed that may be in no file)
        is_dead = int(one["by"].split()[1]) not in running if one["by"] else status["at"] - (one["gone_since"] or status["at"]) > LIMIT / 4
        if one["state"] == "gone" and is_dead:
            try:
                patiently(lab.release, one["name"])
                count += 1
            except labrun_broker.NotHeld:
                pass  # it has come back just now, and let go
    return count


def is_idle(lab: labrun_broker.Lab) -> bool:
    return all(it["state"] == "idle" for it in patiently(lab.status)["stations"])


def kills(times: int, seed: int, brokers_too: bool = True, pause: float = 0.3) -> dict[str, Any]:
    """What came of it: `wrong` has a line for each thing that mustn't be. Between two kills there is a pause of so many seconds at most."""
    chance = random.Random(seed)
    killed: collections.Counter[str] = collections.Counter()
    with tempfile.TemporaryDirectory() as folder, Bay(NAMES) as bay, contextlib.ExitStack() as stack:
        state = ("--state", f"{folder}/state", "--sync", "none") if brokers_too else ()
        broker = Broker(folder, BAY, state)
        stack.callback(broker.ends)
        programs = Programs(broker, bay, chance)
        stack.callback(programs.kill_all)
        with broker.lab() as lab:
            until(lambda: lab.status()["sessions"] >= PROGRAMS, "each has begun")
            wanted = {"client": times, "broker": times if brokers_too else 0}
            begins = 0.0
            while any(killed[it] < wanted[it] for it in wanted):
                # (where a broker begins slowly, its clients need as long to find it again; after a minute without one they give up)
                time.sleep(chance.uniform(0, max(pause, 2 * begins)))
                what = chance.choice([it for it in wanted if killed[it] < wanted[it]])
                killed[what] += 1
                if what == "client":
                    programs.kill_one()
                else:
                    broker.kill()
                    begun = time.monotonic()
                    broker.begin()
                    begins = time.monotonic() - begun
                killed["released"] += release_who_is_gone(lab, programs.processes())
                if programs.ended():
                    break
            # all who were only cut off come back
            time.sleep(1.0)
            until(lambda: programs.ended() or programs.text("said").count("\n") > PROGRAMS, "sessions are done")
            ended = programs.ended()
            programs.kill_all()
            until(lambda: is_idle(lab) or release_who_is_gone(lab, set()) * 0, "all is released")
            with lab.hold(*NAMES, timeout=LIMIT):
                pass
        faults = programs.text("faults")
        did = [tuple(line.split()[1:]) for line in programs.text("said").splitlines()]
        broker.end()
        wrong = [f"a program ended: status {status}" for status in ended] + ([faults] if ended else [])
        if brokers_too:
            wrong += wrong_records(f"{folder}/state", did)
    wrong += [f"{name} refused {refused} times" for name, (_, refused) in bay.counts.items() if refused]
    return {"wrong": wrong, "killed": dict(killed), "did": len(did), "talks": sum(talks for talks, _ in bay.counts.values())}


def wrong_records(state: str, did: list[tuple[str, ...]]) -> list[str]:
    """Each session that a program has done is there, held once and let go once; and no session twice."""
    with open(f"{state}/records.jsonl", encoding="utf-8") as file:
        records = [it for it in map(json.loads, file) if it["session"] is not None]
    count = collections.Counter((str(it["session"]), it["what"]) for it in records)
    ends = collections.Counter(str(it["session"]) for it in records if it["what"] in ENDS)
    wrong = [f"{number}: {what} {times} times" for (number, what), times in count.items() if what in ("asked", "held") and times > 1]
    wrong += [f"{number}: it ended {times} times" for number, times in ends.items() if times > 1]
    for station, number in did:
        if (count[number, "held"], count[number, "let_go"]) != (1, 1):
            wrong.append(f"{station} {number}: done, held {count[number, 'held']} times, let go {count[number, 'let_go']} times")
    return wrong


def main() -> int:
    words = argparse.ArgumentParser(usage=__doc__)
    words.add_argument("times", type=int, nargs="?", default=200)
    words.add_argument("--seed", type=int, default=1)
    words.add_argument("--pause", type=float, default=1.5)
    given = words.parse_args()
    begun = time.monotonic()
    came = kills(given.times, given.seed, pause=given.pause)
    print("\n".join(came["wrong"]))
    did = f"sessions done {came['did']}, talks {came['talks']}"
    print(f"kills {came['killed']}, {did}, {time.monotonic() - begun:.0f} s, {len(came['wrong'])} wrong")
    return bool(came["wrong"])


if __name__ == "__main__":
    os.environ.setdefault("PYTHONPATH", ":".join(sys.path))
    sys.exit(main())
