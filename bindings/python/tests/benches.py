"""What the tests of a bench have in common: scripts, and threads that wait."""

import os
import threading
import time
from typing import Any, Callable, Optional

import labrun

# Seconds that anything may take which has to happen. No test says how soon it does: the machine may be busy.
LIMIT = 300

# two jobs, one instrument; a's sessions log 5 each, b's one reads
TWO = "lab 1\njob a\nsession\nscale add 5\nend\nsession\nscale add 5\nend\njob b\nsession\nscale read\nend\n"
PATIENT = "lab 2\njob a\nsession\nscale add 5\nend\njob b\nsession patience 999999\nscale read\nend\nsession\nscale add 7\nend\n"
SOON = "lab 2\njob a\nsession\nscale add 5\nend\njob b\nsession patience 2\nscale read\nend\nsession\nscale add 7\nend\n"


def logged(bench: labrun.Bench, name: str = "scale") -> list[str]:
    return [str(entry) for entry in bench.report.log(name)]


def in_thread(work: Any) -> threading.Thread:
    thread = threading.Thread(target=work, daemon=True)
    thread.start()
    return thread


def asked(bench: labrun.Bench, name: str) -> labrun.Session:
    """The next session of a job."""
    session = bench.jobs[name].next_session()
    assert session
    return session


def waiting(session: labrun.Session, faults: Optional[list[BaseException]] = None) -> threading.Thread:
    """A thread that acquires it, and waits or holds by now. What it raises is noted."""

    def wait() -> None:
        try:
            session.acquire()
        except labrun.LabrunError as fault:
            if faults is None:
                raise
            faults.append(fault)

    thread = in_thread(wait)
    until(lambda: session.state != "new")
    return thread


def back(thread: threading.Thread) -> None:
    """The thread comes to its end."""
    thread.join(LIMIT)
    assert not thread.is_alive(), "a thread isn't back"


def until(is_so: Callable[[], bool]) -> None:
    """Waits until something is so."""
    ends = time.monotonic() + LIMIT
    while not is_so():
        assert time.monotonic() < ends, "it doesn't come to be so"
        time.sleep(0.01)


def child() -> dict[str, str]:
    package = os.path.dirname(os.path.dirname(os.path.realpath(labrun.__file__)))
    return {**os.environ, "PYTHONPATH": package, "LABRUN_LIBRARY": labrun.library_path()}
