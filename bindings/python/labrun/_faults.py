"""What may go wrong, as exceptions."""

from __future__ import annotations

import builtins
from typing import TYPE_CHECKING, Optional, Union

from .picks import some

if TYPE_CHECKING:
    from ._held import Held
    from ._keepers import Keeper
    from ._session import Session

# by their numbers
CAUSES = (
    *("step is not legal", "S1 no lab header", "S2 unknown word", "S3 bad name", "S4 bad number", "S5 job twice", "S6 not in a session"),
    *("S7 not in a job", "S8 empty session", "S9 session not closed", "S10 limit passed", "S11 more than 28 instruments in common"),
    *("S12 no memory", "S13 bad step", "S14 not an instrument of the job"),
)


class LabrunError(Exception):
    """The base of this package's exceptions."""


class Refused(LabrunError, ValueError):
    """A script or a step is refused. `line` counts from 1; `cause` is 1 to 14 for S1 to S14, 0 for a step that isn't legal."""

    def __init__(self, line: int, cause: int) -> None:
        super().__init__(f"line {line}: {CAUSES[cause] if cause < len(CAUSES) else f'S{cause}'}")
        self.line, self.cause = line, cause

    def __reduce__(self) -> tuple[type[Refused], tuple[int, int]]:
        return Refused, (self.line, self.cause)


class TooLong(LabrunError, ValueError):
    """The script has more than 16777216 bytes."""


class NotHeld(LabrunError):
    """What was asked for needs the session to hold its instruments, and it doesn't."""


class _OfSession(LabrunError):
    def __init__(self, session: Union[Session, Held], text: str) -> None:
        super().__init__(text)
        self.session = session


class TimeoutError(_OfSession, builtins.TimeoutError):  # noqa: A001 (a kind of the builtin, and caught as such)
    """The time limit of a session of a `Lab` passed, and it is given up. `keepers` says who kept it waiting, the text also for whom it waits in
    the end."""

    def __init__(self, session: Union[Session, Held], keepers: tuple[Keeper, ...], text: str) -> None:
        super().__init__(session, text)
        self.keepers = keepers


class Withdrawn(_OfSession):
    """The session was given up: its patience ran out, or it was withdrawn. It held nothing, and logs nothing."""


class TakenAway(_OfSession, NotHeld):
    """The session of a `Lab` was ended by `take_away`, or because others waited when its limit on holding had passed. Others may be at its
    instruments by now."""


class WouldBlock(_OfSession, RuntimeError):
    """`with session:` on a thread whose asyncio loop runs, where it would have to wait and keep every task from going on: use
    `async with`. A session of a script keeps its place in the line: acquire it again, or `give_up`; one of a `Lab` is given up. It is also
    raised where a station of a `Lab` would wait for a session that the same thread, or task, is in."""


class StillHeld(LabrunError):
    """A station of `Bench.run` came to its end while a session of its job still holds its instruments. The bench is stopped then, because
    nobody can tell whether somebody still works there. `sessions` are those sessions."""

    def __init__(self, sessions: tuple[Session, ...]) -> None:
        each = (f"the station of {it.job.name} is over, and session {it.number} still holds {', '.join(it.instruments)}" for it in sessions)
        super().__init__("; ".join(each))
        self.sessions = sessions


class OtherProcess(LabrunError):
    """This is the child of a fork, and what it has is a copy of its parent's bench or lab: what it would hold, the parent may hold, too."""

    def __init__(self, process: int, what: str = "bench", do: str = "") -> None:
        super().__init__(f"this {what} belongs to process {process}{do and f': {do}'}")
        self.process, self._given = process, (process, what, do)

    def __reduce__(self) -> tuple[type[OtherProcess], tuple[int, str, str]]:
        return OtherProcess, self._given


class JournalError(LabrunError):
    """The journal of a `Lab` can't be used: another process has it open; it is of another lab, or a line of it is refused, as `line` says; or
    a write failed, of which `__cause__` is the OSError. The lab tries by itself, until there is room: `Held.release`, called again, waits
    for that."""

    def __init__(self, path: str, why: str, line: Optional[int] = None) -> None:
        super().__init__(f"{path}: {why}")
        self.path, self.why, self.line = path, why, line

    def __reduce__(self) -> tuple[type[JournalError], tuple[str, str, Optional[int]]]:
        return JournalError, (self.path, self.why, self.line)


class MayNotUse(LabrunError, ValueError):
    """A station or a guest may not use an instrument: that was settled when the lab was opened."""

    def __init__(self, job: str, wrong: str, may: tuple[str, ...]) -> None:
        super().__init__(f"{job} may not use {wrong}: it may use {some(may) or 'nothing'}")
        self.job, self.wrong, self.may = job, wrong, may

    def __reduce__(self) -> tuple[type[MayNotUse], tuple[str, str, tuple[str, ...]]]:
        return MayNotUse, (self.job, self.wrong, self.may)


class Full(LabrunError):
    """There is no room in line for another session: a lab has room for 1048576 sets of instruments there."""


class Closed(LabrunError):
    """The lab or the bench is closed."""


class Stopped(LabrunError):
    """The lab or the bench was stopped: no further session is begun. Sessions that are held go on to their end."""
