"""What a session of a lab costs, beside a condition and a set by hand.

usage, in bindings/python:  python3 -m tests.lab_speed [SESSIONS [TIMES]]
                            microseconds a session, by the clock and (in brackets) of processor, each the least of some runs"""

import sys
import threading
import time
from typing import Callable

import labrun


class ByHand:
    """What a program does without a package: no order, no time limit, nobody is told who has what."""

    def __init__(self) -> None:
        self._changed, self._taken = threading.Condition(), set[str]()

    def hold(self, *names: str) -> "ByHand.Held":
        return ByHand.Held(self, names)

    class Held:
        def __init__(self, lab: "ByHand", names: tuple[str, ...]) -> None:
            self.lab, self.names = lab, names

        def __enter__(self) -> None:
            with self.lab._changed:
                while not self.lab._taken.isdisjoint(self.names):
                    self.lab._changed.wait()
                self.lab._taken.update(self.names)

        def __exit__(self, *fault: object) -> None:
            with self.lab._changed:
                self.lab._taken.difference_update(self.names)
                self.lab._changed.notify_all()


def run(hold: Callable[..., object], threads: int, is_own: bool, sessions: int) -> tuple[float, float]:
    """Microseconds a session, by the clock and of processor."""
    starts = threading.Barrier(threads + 1)

    def work(name: str) -> None:
        starts.wait()
        for _ in range(sessions // threads):
            with hold(name):  # type: ignore[attr-defined]
                pass

    them = [threading.Thread(target=work, args=(f"i{at if is_own else 0}",)) for at in range(threads)]
    for it in them:
        it.start()
    starts.wait()
    begun, work = time.perf_counter(), time.process_time()
    for it in them:
        it.join()
    return (time.perf_counter() - begun) / sessions * 1e6, (time.process_time() - work) / sessions * 1e6


def main(sessions: int = 20000, times: int = 5) -> None:
    names = [f"i{at}" for at in range(8)]
    for threads, is_own in ((1, True), (8, True), (8, False)):
        labs = labrun.Lab(names), ByHand()
        for name, lab in zip(("lab", "by hand"), labs):
            clock, work = (min(it) for it in zip(*(run(lab.hold, threads, is_own, sessions) for _ in range(times))))
            print(f"{threads} threads, {'each its own' if is_own else 'all at one'}: {name} {clock:.2f} us ({work:.2f})", flush=True)
        labs[0].close()


if __name__ == "__main__":
    main(*(int(word) for word in sys.argv[1:]))
