"""Many sessions, with a counter for each instrument that sees two holders.

usage, in bindings/python:  python3 -m tests.load SESSIONS [THREADS] [INSTRUMENTS] [MILLISECONDS]
                            benches one after another until that many sessions are done; then how many two held at once, and the times"""

import random
import sys
import threading
import time
from typing import Optional

import labrun


def load_script(jobs: int, sessions: int, instruments: int, seed: int) -> str:
    """Jobs with this many sessions each, every one of one to three instruments by chance."""
    chance, lines = random.Random(seed), ["lab 1"]
    for job in range(jobs):
        lines.append(f"job job-{job}")
        for _ in range(sessions):
            chosen = chance.sample(range(instruments), chance.randint(1, min(3, instruments)))
            lines += ["session", *(f"instrument-{at} add 1" for at in chosen), "end"]
    return "\n".join(lines) + "\n"


class Counting:
    """Stations that count the holders of each instrument, outside the bench. One Python operation on a list each: a second holder is
    seen by its append, whoever comes first."""

    def __init__(self, bench: labrun.Bench, pause: Optional[float] = None) -> None:
        self.holders: dict[str, list[int]] = {name: [] for name in bench.instruments}
        self.pause = pause
        self.lock = threading.Lock()
        self.clashes = self.done = 0

    def came(self, instruments: tuple[str, ...]) -> None:
        for name in instruments:
            holders = self.holders[name]
            holders.append(threading.get_ident())
            if len(holders) != 1:
                with self.lock:
                    self.clashes += 1

    def went(self, instruments: tuple[str, ...]) -> None:
        for name in instruments:
            if len(self.holders[name]) != 1:
                with self.lock:
                    self.clashes += 1
            self.holders[name].pop()
        with self.lock:
            self.done += 1

    def station(self, job: labrun.Job) -> None:
        for session in job.sessions():
            with session:
                self.came(session.instruments)
                if self.pause is not None:
                    time.sleep(self.pause)
                self.went(session.instruments)


def main(wanted: int, threads: int = 32, instruments: int = 20, milliseconds: int = 0) -> int:
    begun, work, done, clashes, seed, finished = time.monotonic(), time.process_time(), 0, 0, 0, True
    while done < wanted:
        each = min(1000, max(1, (wanted - done) // threads))
        with labrun.Bench.from_text(load_script(threads, each, instruments, seed)) as bench:
            counting = Counting(bench, milliseconds / 1000 if milliseconds else None)
            bench.run(counting.station)
        done, clashes, seed, finished = done + counting.done, clashes + counting.clashes, seed + 1, finished and bench.report.finished
    print(f"{done} sessions by {threads} threads on {instruments} instruments, {seed} benches, all finished: {finished}")
    print(f"{clashes} instruments with two holders at once")
    print(f"{time.monotonic() - begun:.1f} s, of them {time.process_time() - work:.1f} s of processor")
    return 1 if clashes else 0


if __name__ == "__main__":
    sys.exit(main(*(int(word) for word in sys.argv[1:])))
