"""Many sessions of a lab, by threads at instruments that refuse a second client.

usage, in bindings/python:  python3 -m tests.soak [SESSIONS [THREADS]]
                            a million sessions: what was counted, and that nothing was refused"""

from __future__ import annotations

import collections
import random
import sys
import threading
import time
from typing import Any, Optional

import labrun

NAMES = [f"i{at}" for at in range(6)]


class Instrument:
    """As a real one: whoever opens it while another has it is refused."""

    def __init__(self) -> None:
        self._client: list[int] = []
        self.refused = 0

    def opens(self) -> None:
        self._client.append(threading.get_ident())
        if len(self._client) != 1:
            self.refused += 1

    def closes(self) -> None:
        if self._client != [threading.get_ident()]:
            self.refused += 1
        self._client.pop()


class Soak:
    def __init__(self, lab: labrun.Lab, sessions: int, threads: int) -> None:
        self.lab, self.each = lab, sessions // threads
        self.instruments = {name: Instrument() for name in NAMES}
        self.counts: collections.Counter[str] = collections.Counter()
        self.faults: list[BaseException] = []
        self._mutex = threading.Lock()

    def works(self, seed: int) -> None:
        chance, mine = random.Random(seed), collections.Counter[str]()
        try:
            for _ in range(self.each):
                mine[self.once(chance)] += 1
        except BaseException as fault:
            self.faults.append(fault)
        with self._mutex:
            self.counts.update(mine)

    def once(self, chance: random.Random) -> str:
        """One session of some kind, and how it ended."""
        names = chance.sample(NAMES, chance.randint(1, 3))
        more: dict[str, Any] = {"any_of": names} if chance.random() < 0.3 else {}
        more["timeout"] = chance.choice((None, None, None, 60.0, 0.001, 0.0))
        more["limit"] = 0.0 if chance.random() < 0.05 else None
        held = self.lab.hold(*(() if "any_of" in more else names), **more)
        try:
            with held:
                # (whoever has a limit may lose what it has at any time, so it works with nothing)
                if more["limit"] is None:
                    self.used(held.instruments, chance)
                if chance.random() < 0.02:
                    raise ZeroDivisionError
        except labrun.TimeoutError:
            return "given up"
        except labrun.TakenAway:
            return "taken away"
        except ZeroDivisionError:
            return "raised"
        return "done"

    def used(self, names: tuple[str, ...], chance: random.Random) -> None:
        for name in names:
            self.instruments[name].opens()
        if chance.random() < 0.01:
            time.sleep(0)
        for name in names:
            self.instruments[name].closes()


def main(sessions: int = 1000000, threads: int = 8, path: Optional[str] = None) -> int:
    begun, work = time.monotonic(), time.process_time()
    with labrun.Lab(NAMES, overtakes=4, journal=path, sync="none") as lab:
        soak = Soak(lab, sessions, threads)
        them = [threading.Thread(target=soak.works, args=(seed,)) for seed in range(threads)]
        for it in them:
            it.start()
        for it in them:
            it.join()
        left = lab.sessions()
    refused = sum(it.refused for it in soak.instruments.values())
    print(f"{sum(soak.counts.values())} sessions by {threads} threads at {len(NAMES)} instruments: {dict(soak.counts)}")
    print(f"{refused} refused, {len(left)} left, {len(soak.faults)} faults {soak.faults[:3]}")
    print(f"{time.monotonic() - begun:.1f} s, of them {time.process_time() - work:.1f} s of processor")
    return 1 if refused or left or soak.faults else 0


if __name__ == "__main__":
    sys.exit(main(*(int(word) for word in sys.argv[1:])))
