"""Cuts the connections of clients that share an instrument, at random, where the broker releases it for who is gone.

usage: python3 -m tests.cuts [TIMES] [--seed N] [--grace SECONDS] [--at-once N]
       so many trials (1000), N at once (8), run in bindings/broker

In a trial two programs want one instrument, again and again, each by a way of its own. The way is cut for the program, for the broker, for both
or in silence, for a while. At no moment may both think that they hold."""

from __future__ import annotations

import argparse
import collections
import concurrent.futures
import contextlib
import json
import os
import random
import sys
import tempfile
import threading
import time
from typing import Any

import labrun
import labrun_broker
from tests.brokers import LIMIT, Broker, free_port
from tests.proxies import CUTS, Proxy, Ways

AT_ONCE, GRACE = 8, 1.6


class Trial:
    """`wrong` has a line for each moment that mustn't be; `counts` what was seen; `late` by how long a program was told too late, at most."""

    def __init__(self, ways: Ways, port: int, instrument: str, grace: float, chance: random.Random) -> None:
        self.instrument, self.grace, self.chance = instrument, grace, chance
        self.proxies = [Proxy(ways, port) for _ in range(2)]
        self.inside: dict[int, labrun_broker.Held] = {}
        self.wrong: list[str] = []
        self.counts: collections.Counter[str] = collections.Counter()
        self.late = 0.0
        self._lock = threading.Lock()
        self._is_over = False

    def run(self, seconds: float) -> None:
        programs = [threading.Thread(target=self._program, args=(at, random.Random(self.chance.random()))) for at in range(2)]
        for one in programs:
            one.start()
        end = time.monotonic() + seconds
        while time.monotonic() < end:
            self._looks(self.chance.uniform(0, self.grace / 2))
            proxy, how = self.chance.choice(self.proxies), self.chance.choice(sorted(CUTS))
            proxy.cut(how)
            self.counts[how] += 1
            self._looks(self.chance.uniform(0, 2 * self.grace))
            proxy.mend()
        self._is_over = True
        for one in programs:
            one.join(3 * LIMIT)
            if one.is_alive():
                self.wrong.append("a program hangs")
        for proxy in self.proxies:
            proxy.close()

    def _looks(self, seconds: float) -> None:
        end = time.monotonic() + seconds
        while (left := end - time.monotonic()) > 0:
            self._look()
            time.sleep(min(0.005, left))

    def _look(self) -> None:
        with self._lock:
            # (at one moment: who holds after all were asked held before, too)
            holders = [at for at, held in self.inside.items() if held.held]
            if len(holders) > 1 and all(self.inside[at].held for at in holders):
                self.wrong.append(f"{self.instrument}: {len(holders)} programs think that they hold")

    def _program(self, at: int, chance: random.Random) -> None:
        with labrun_broker.connect(self.proxies[at].address, by=f"program {at}") as lab:
            while not self._is_over:
                try:
                    self._session(lab, at, chance)
                except labrun.LabrunError as fault:
                    self.counts[type(fault).__name__] += 1
                    time.sleep(0.02)

    def _session(self, lab: labrun_broker.Lab, at: int, chance: random.Random) -> None:
        held = lab.hold(self.instrument, timeout=self.grace)
        told = threading.Event()
        held.on_taken = lambda fault: self._is_told(held, told)
        held.acquire()
        self.counts["held"] += 1
        try:
            with self._lock:
                self.inside[at] = held
            self._look()
            end = time.monotonic() + chance.uniform(0, 1.5 * self.grace)
            while time.monotonic() < end and not told.wait(0.01):
                if chance.random() < 0.02:
                    held.note("5 V")
        finally:
            with self._lock:
                del self.inside[at]
        held.release()

    def _is_told(self, held: labrun_broker.Held, told: threading.Event) -> None:
        told.set()
        self.counts["told"] += 1
        self.late = max(self.late, time.clock_gettime(time.CLOCK_BOOTTIME) - held._until)


def cuts(times: int, seed: int, grace: float = GRACE, at_once: int = AT_ONCE, seconds: float = 3.0) -> dict[str, Any]:
    names = [f"instrument-{at}" for at in range(at_once)]
    bay = f'bay = "north"\ngone = "release"\ninstruments = {json.dumps(names)}\n[guests]\ncount = {2 * at_once + 8}\n'
    chance, port = random.Random(seed), free_port()
    with contextlib.ExitStack() as stack:
        folder = stack.enter_context(tempfile.TemporaryDirectory())
        broker = Broker(folder, bay, ("--state", f"{folder}/state", "--sync", "none", "--grace", str(grace), "--listen", f"127.0.0.1:{port}"))
        stack.callback(broker.ends)
        ways = stack.enter_context(Ways())
        free, trials = list(names), list[Trial]()

        def tries(_: int) -> None:
            trial = Trial(ways, port, free.pop(), grace, random.Random(chance.random()))
            trials.append(trial)
            trial.run(seconds)
            free.append(trial.instrument)

        with concurrent.futures.ThreadPoolExecutor(at_once) as pool:
            list(pool.map(tries, range(times)))
        broker.end()
        gone = tuple(f" with {it} was taken away by the broker, because its client was gone for {grace:g} s" for it in names)
        # (it may say that the disk is slow)
        said = [line for line in broker.said.splitlines() if not line.endswith(gone) and "/bay.journal: " not in line]
        wrong = [line for trial in trials for line in trial.wrong] + said
    counts: collections.Counter[str] = sum((trial.counts for trial in trials), collections.Counter())
    return {"wrong": wrong, "counts": dict(counts), "late": max(trial.late for trial in trials)}


def main() -> int:
    words = argparse.ArgumentParser(usage=__doc__)
    words.add_argument("times", type=int, nargs="?", default=1000)
    words.add_argument("--seed", type=int, default=1)
    words.add_argument("--grace", type=float, default=GRACE)
    words.add_argument("--at-once", type=int, default=AT_ONCE)
    given = words.parse_args()
    begun = time.monotonic()
    came = cuts(given.times, given.seed, given.grace, given.at_once)
    print("\n".join(came["wrong"]))
    late = f"told {1000 * came['late']:.0f} ms too late at most"
    print(f"trials {given.times}, {came['counts']}, {late}, {time.monotonic() - begun:.0f} s, {len(came['wrong'])} wrong")
    return bool(came["wrong"])


if __name__ == "__main__":
    os.environ.setdefault("PYTHONPATH", ":".join(sys.path))
    sys.exit(main())
