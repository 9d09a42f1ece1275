"""A broker to start from: four stations share six instruments, each a TCP server that refuses a second client while one talks to it.

usage: python3 broker.py [SCRIPT]                      the stations' sessions, by labrun's bench
       python3 broker.py --by script-order [SCRIPT]    the same by a lock for each instrument, taken as the script names them: dead-locks
       python3 broker.py --by sorted-order [SCRIPT]    the same, taken in the order of their names
       python3 broker.py --by nothing [SCRIPT]         the same without any: the instruments refuse
       python3 broker.py --threads N --seconds S       as many short sessions as N stations (1 to 32) do in S seconds
       python3 broker.py --threads N --sessions M      M short sessions, or a few more, each station as many

The package is found by PYTHONPATH (bindings/python), the library by LABRUN_LIBRARY. The status is 0 if all sessions were done and no
instrument refused a client."""

from __future__ import annotations

import argparse
import os
import random
import sys
import threading
import time
from contextlib import ExitStack
from typing import Callable, Optional

import labrun
from instruments import Bay, Busy

HERE = os.path.dirname(os.path.realpath(__file__))
START = time.monotonic()
MOST = 1000  # sessions of a job that a script may have


def say(station: str, text: str) -> None:
    sys.stdout.write(f"{time.monotonic() - START:6.2f} s  {station:8} {text}\n")


def work(bay: Bay, station: str, number: int, names: tuple[str, ...], seconds: float) -> bool:
    """The real work of a session: talks to its instruments, all at once, for some time. No if one refused."""
    try:
        with ExitStack() as talks:
            for name in names:
                talk = talks.enter_context(bay.talk(name))
                if talk.ask("*IDN?") != name:
                    raise AssertionError(name)
            time.sleep(seconds)
        return True
    except Busy:
        say(station, f"session {number}: an instrument refused")
        return False


def seconds_of(station: str, number: int) -> float:
    """10 to 200 ms, always the same for one session."""
    return random.Random(f"{station} {number}").uniform(0.010, 0.200)


def by_bench(script: bytes, bay: Bay) -> bool:
    """The whole broker."""
    with labrun.Bench.from_text(script) as bench:

        def station(job: labrun.Job) -> None:
            for session in job.sessions():
                with session:
                    say(job.name, f"session {session.number} holds {', '.join(session.instruments)}")
                    work(bay, job.name, session.number, session.instruments, seconds_of(job.name, session.number))
                say(job.name, f"session {session.number} done")

        bench.run(station)
    for name in bench.report.instruments:
        print(f"{name}: {len(bench.report.log(name))} commands logged")
    return bench.report.finished


def sessions_of(script: bytes) -> dict[str, list[list[str]]]:
    """Each job's sessions, as their instruments in the order in which the session names them."""
    jobs: dict[str, list[list[str]]] = {}
    job: list[list[str]] = []
    for line in script.decode().splitlines():
        words = line.split()
        if not words or words[0] in ("lab", "end") or words[0].startswith("#"):
            continue
        if words[0] == "job":
            job = jobs.setdefault(words[1], [])
        elif words[0] == "session":
            job.append([])
        elif words[0] not in job[-1]:
            job[-1].append(words[0])
    return jobs


def in_order(names: list[str]) -> list[str]:
    return sorted(names)


def by_locks(script: bytes, bay: Bay, order: Callable[[list[str]], list[str]], repeats: int, limit: float) -> bool:
    """Without the bench: a lock for each instrument. A lock that isn't had within `limit` seconds, of sessions of 0.2, is taken for a
    dead-lock, and all stations give up."""
    jobs = sessions_of(script)
    locks = {name: threading.Lock() for sessions in jobs.values() for names in sessions for name in names}
    held: dict[str, str] = {}
    stuck = threading.Event()

    def station(name: str) -> None:
        for number, names in enumerate(jobs[name] * repeats, 1):
            with ExitStack() as got:
                for instrument in order(names):
                    if not locks[instrument].acquire(timeout=limit):
                        stuck.set()
                        say(name, f"session {number} has waited {limit:g} s for {instrument}, which {held.get(instrument)} has: dead-lock")
                        time.sleep(0.5)  # (lets the others say so too)
                    if stuck.is_set():
                        return
                    got.callback(locks[instrument].release)
                    held[instrument] = name
                    time.sleep(0.005)  # (an instrument takes a while to be set up)
                work(bay, name, number, tuple(names), seconds_of(name, number))
        say(name, f"{len(jobs[name]) * repeats} sessions done")

    threads = [threading.Thread(target=station, args=(name,)) for name in jobs]
    for thread in threads:
        thread.start()
    for thread in threads:
        thread.join()
    return not stuck.is_set()


def by_nothing(script: bytes, bay: Bay) -> bool:
    """Over and over, until an instrument has refused a station."""
    jobs = sessions_of(script)
    refused = threading.Event()

    def station(name: str) -> None:
        for number, names in enumerate(jobs[name], 1):
            if not work(bay, name, number, tuple(names), seconds_of(name, number)):
                refused.set()

    for _ in range(20):
        threads = [threading.Thread(target=station, args=(name,)) for name in jobs]
        for thread in threads:
            thread.start()
        for thread in threads:
            thread.join()
        if refused.is_set():
            break
    return True


def load_script(names: list[str], stations: int, sessions: int, seed: int) -> str:
    """Stations with this many sessions, each of one to three of the instruments."""
    chance = random.Random(seed)
    lines = ["lab 1"]
    for station in range(stations):
        lines.append(f"job station-{station + 1}")
        for _ in range(sessions):
            chosen = chance.sample(names, chance.randint(1, 3))
            lines += ["session", *(f"{name} add 1" for name in chosen), "end"]
    return "\n".join(lines) + "\n"


def by_load(names: list[str], stations: int, wanted: Optional[int], seconds: float, bay: Bay) -> bool:
    """Bench after bench, each of as many sessions as a script may have, until this many are done, or the time is over."""
    begun, done, benches, finished = time.monotonic(), 0, 0, True
    ends = begun + seconds
    while time.monotonic() < ends if wanted is None else done < wanted:
        sessions = MOST if wanted is None else min(MOST, -((done - wanted) // stations))
        with labrun.Bench.from_text(load_script(names, stations, sessions, benches)) as bench:

            def station(job: labrun.Job) -> None:
                for session in job.sessions():
                    with session:
                        work(bay, job.name, session.number, session.instruments, 0)

            timer = threading.Timer(max(0.0, ends - time.monotonic()), bench.stop)
            if wanted is None:
                timer.start()
            bench.run(station)
            timer.cancel()
        done += sum(job.done for job in bench.report.jobs)
        benches += 1
        finished = finished and (wanted is None or bench.report.finished)
    print(f"{done} sessions by {stations} threads in {time.monotonic() - begun:.1f} s")
    return finished


def main() -> int:
    words = argparse.ArgumentParser(usage=__doc__)
    words.add_argument("script", nargs="?", default=os.path.join(HERE, "bay.lab"))
    words.add_argument("--by", choices=("bench", "script-order", "sorted-order", "nothing"), default="bench")
    words.add_argument("--threads", type=int, choices=range(1, 33), metavar="N")
    words.add_argument("--seconds", type=float, default=10, metavar="S")
    words.add_argument("--sessions", type=int, metavar="M")
    given = words.parse_args()
    with open(given.script, "rb") as file:
        script = file.read()
    names = sorted({name for sessions in sessions_of(script).values() for names in sessions for name in names})
    with Bay(names) as bay:
        if given.threads:
            good = by_load(names, given.threads, given.sessions, min(given.seconds, 3600), bay)
        elif given.by == "bench":
            good = by_bench(script, bay)
        elif given.by == "nothing":
            good = by_nothing(script, bay)
        else:
            # (what may dead-lock is done over and over, until it does; what can't has time enough on a busy machine)
            good = by_locks(script, bay, list, 1000, 2) if given.by == "script-order" else by_locks(script, bay, in_order, 1, 60)
    talks = sum(talks for talks, _ in bay.counts.values())
    print(f"{talks} talks with {len(names)} instruments, {bay.refused} refused")
    return 0 if good and not bay.refused else 1


if __name__ == "__main__":
    sys.exit(main())
