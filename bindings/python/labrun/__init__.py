"""Instruments that a program shares: a lab, whose threads and tasks ask as they need something; or a bench, whose jobs have a script.

    with labrun.Lab(["scope", "supply"]) as lab:
        with lab.hold("scope", "supply", timeout=60) as held:   # blocks until it holds both
            measure(held.instruments)                           # the real work

    with labrun.Bench.open("bay.lab") as bench:
        def station(job):
            for session in job.sessions():
                with session:                     # blocks until all its instruments are held
                    measure(session.instruments)
        bench.run(station)                        # a thread for each job
    print(bench.report.finished, bench.report.log("scope-1"))

What is proved ends at the calls of the C library: that no two sessions hold an instrument at once, and that nobody waits for nothing; of a
bench also that each log is whole sessions. This package, which calls it, is tested."""

from ._bench import Bench
from ._connect import connect
from ._faults import Closed, Full, JournalError, LabrunError, MayNotUse, NotHeld, OtherProcess, Refused, StillHeld, Stopped, TakenAway
from ._faults import TimeoutError, TooLong, Withdrawn, WouldBlock
from ._held import Held
from ._keepers import Keeper
from ._lab import OVERTAKES, Lab, Sitting, Station
from ._library import library_path
from ._plan import Command
from ._report import Counts, Entry, JobReport, Report, check, replay, run, upgrade
from ._session import Job, Jobs, JobState, Session

__all__ = [
    "OVERTAKES", "Bench", "Closed", "Command", "Counts", "Entry", "Full", "Held", "Job", "JobReport", "JobState", "Jobs", "JournalError",
    "Keeper", "Lab", "LabrunError", "MayNotUse", "NotHeld", "OtherProcess", "Refused", "Report", "Session", "Sitting", "Station",
    "StillHeld", "Stopped", "TakenAway", "TimeoutError", "TooLong", "Withdrawn", "WouldBlock", "check", "connect", "library_path",
    "replay", "run", "upgrade",
]
