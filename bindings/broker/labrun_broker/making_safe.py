"""The command of an instrument (`on_release`) that is run after a session that had it, and before the next one gets it.

The session is over for its client at once. For the bay it goes on to hold, in the state `ending`, until the commands of all its instruments
have ended; so nobody else comes to hold meanwhile. That needs no memory of the broker's: the hold stands in the journal until then, and beside
it the note that it is over. A broker that begins again, or leads from now on, finds both, and runs the commands once more.

A command that fails puts its instrument out of order (outage.py), and that is written before the bay lets go."""

from __future__ import annotations

import asyncio
import builtins
import contextlib
import os
import shlex
import shutil
import signal
import time
from dataclasses import replace
from typing import TYPE_CHECKING, Iterable, Iterator

from labrun import JournalError
from labrun.machine import GRACE, LIMIT, Refusal, Standing

from . import lasting
from .bay import Bay
from .errors import TimeoutError as TimedOut
from .outage import puts_out
from .standing import ENDING, Session
from .texts import once_safe, plain, span
from .ways import variable_of
from .words import ENVIRONMENT

if TYPE_CHECKING:
    from .journals import Left
    from .keeping import Keeping
    from .wishes import Wish

# how a session ended, as its command and the journal are told
LET_GO, TAKEN_AWAY, GONE, LIMIT_OVER = "let_go", "taken_away", "gone", "limit"
HOW = {GRACE: GONE, LIMIT: LIMIT_OVER}

KEPT = 300  # bytes of what a command says: the last ones
AGAIN = 1.0  # seconds, after which it is tried again to write that an instrument is out of order
# the system ends a command whose broker was killed, so that it doesn't meet the next session
DIES_TOO = ("setpriv", "--pdeathsig", "KILL", "--")


def is_followed(bay: Bay, names: Iterable[str]) -> bool:
    """Whether one of these has a command."""
    return any(name in bay.on_release for name in names)


def takes_up(keeping: Keeping, session: Session, row: Standing, it: Left) -> None:
    """As a broker left it. (A session whose limit the machine knows asked before there was a command.)"""
    names_it = it.of > 0 or it.own_limit is not None or bool(it.over) or is_followed(keeping.bay, session.instruments)
    session.is_followed, session.is_kept = it.limit is None and names_it, keeping.keeps(session)
    if session.is_followed or session.is_kept:
        # (the machine takes each client for gone, and would end the session by itself)
        keeping.machine.back(row.number, row.owner, keeping._opened.first)
    if not session.is_followed:
        return
    if it.own_limit is not None:
        session.limit = it.own_limit / 1000
    if it.over:
        session.state, session.ended, session.gone_at, session.since = ENDING, it.over, None, keeping.now()


# ---- a session ends


def takes(keeping: Keeping, session: Session, how: int) -> None:
    """A session that is followed is taken from its client."""
    if not session.holds or keeping._is_closed:
        return
    if how in HOW:
        keeping._notes(session, "taken", f"the broker{lasting.because(keeping, session, how)}")
    keeping._is_taken(session, how)
    begins(keeping, session, HOW.get(how, TAKEN_AWAY))
    keeping._shell.pump()


def is_gone(keeping: Keeping, session: Session) -> None:
    """The client of a session whose grace the machine doesn't know: it is taken away once the grace is over, unless it comes back."""
    if not session.is_kept:
        session.timer = asyncio.get_running_loop().call_later(keeping.its_grace, takes, keeping, session, GRACE)


def begins(keeping: Keeping, session: Session, ended: str) -> None:
    """It is over for its client, who was told so."""
    session.state, session.ended, session.since = ENDING, ended, keeping.now()
    keeping.by_number[session.number] = session
    keeping._notes(session, "over", ended)
    goes_on(keeping, session)


def goes_on(keeping: Keeping, session: Session) -> None:
    """The commands are run, perhaps once more."""
    its = {name: keeping.bay.on_release[name] for name in session.instruments if name in keeping.bay.on_release}
    session.unsafe = dict.fromkeys(its, keeping.now())
    session.safe = asyncio.ensure_future(_makes_safe(keeping, session, its))
    keeping.safing.add(session.safe)
    session.safe.add_done_callback(keeping.safing.discard)


async def closes(keeping: Keeping) -> None:
    """What still runs is ended. The holds stay, and the next broker runs it once more."""
    for task in (tasks := list(keeping.safing)):
        task.cancel()
    await asyncio.gather(*tasks, return_exceptions=True)


async def is_over(keeping: Keeping, key: tuple[int, int], wish: Wish) -> Wish:
    """Returns once no session with this ticket is being made safe any more, with what is left of the wish's time. TimeoutError (of the broker)."""
    begun, left = time.monotonic(), wish.timeout
    while (session := next((it for it in keeping.by_number.values() if it.state == ENDING and it.key == key), None)) is not None and session.safe:
        if left == 0 or not (await asyncio.wait({session.safe}, timeout=left))[0]:
            raise TimedOut(f"the last session with this ticket isn't over until {once_safe(session.unsafe)}")
        left = None if wish.timeout is None else max(0.0, wish.timeout - (time.monotonic() - begun))
    return wish if left == wish.timeout else replace(wish, timeout=left)


# ---- the commands


async def _makes_safe(keeping: Keeping, session: Session, its: dict[str, str]) -> None:
    await asyncio.gather(*(_makes_one_safe(keeping, session, name, line) for name, line in its.items()))
    await keeping._shell.turns.may_go_on()
    keeping.by_number.pop(session.number, None)
    session.state = "over"
    with contextlib.suppress(Refusal):
        ends = keeping.machine.let_go if session.ended == LET_GO else keeping.machine.take_away
        ends(session.number, keeping.now())
    keeping.idle_since[session.name] = keeping.now()
    keeping._news.changed()
    keeping._shell.pump()


async def _makes_one_safe(keeping: Keeping, session: Session, name: str, line: str) -> None:
    begun = time.monotonic()
    fault, said = await _runs(shlex.split(line), _environment(keeping.bay, session, name), keeping.bay.on_release_limit)
    more = f": {said}" if said else ""
    if not fault:
        keeping._record("made_safe", session, f"{line} ended well after {span(time.monotonic() - begun, 1)}{more}", (name,))
    else:
        why = f"it wasn't made safe after session {session.number} of {session.name}: {line} {fault}{more}"
        while not await _is_out(keeping, name, why):
            await asyncio.sleep(AGAIN)
    session.unsafe.pop(name, None)
    keeping._news.changed()


async def _is_out(keeping: Keeping, name: str, why: str) -> bool:
    """Whether it is written that it is out of order. (What somebody said of it before stands behind.)"""
    before = keeping.places.out.get(name)
    try:
        await puts_out(keeping, name, f"{why}; before: {before.why}" if before is not None and before.why else why, "the broker")
    except JournalError:
        return False
    return True


def _environment(bay: Bay, session: Session, name: str) -> dict[str, str]:
    at = {variable_of(name): bay.guards[name].split()[0]} if name in bay.guards else {}
    its = {"INSTRUMENT": name, "STATION": session.name, "SESSION": session.number, "BY": session.by or "", "TOKEN": session.token, "ENDED": session.ended}
    return {**ENVIRONMENT, **at, **{f"LABRUN_{key}": plain(value) for key, value in its.items()}}


async def _runs(command: list[str], environment: dict[str, str], limit: float) -> tuple[str, str]:
    """Why it failed, or nothing; and the end of what it said."""
    if shutil.which(command[0]) is None:
        return "can't be run: it isn't there, or is no program", ""
    before = DIES_TOO if shutil.which(DIES_TOO[0]) else ()
    said = bytearray()
    try:
        with _listening(said) as voice:
            # (a session of its own: with it ends all that it has started)
            process = await asyncio.create_subprocess_exec(
                *before, *command, stdin=asyncio.subprocess.DEVNULL, stdout=voice, stderr=voice, env=environment, start_new_session=True
            )
            fault = await _ends(process, limit)
    except OSError as it:
        return f"can't be run: {it.strerror}", ""
    except RuntimeError as it:
        # (asyncio has no thread to wait for it: it may have begun)
        return f"can't be waited for: {it}", ""
    return fault, plain(" ".join(said.decode("utf-8", "replace").split()))


@contextlib.contextmanager
def _listening(said: bytearray) -> Iterator[int]:
    """Where a command writes, and the end of that. (What it leaves behind may keep a pipe open: nobody waits for its end.)"""
    end, voice = os.pipe()
    os.set_blocking(end, False)
    loop = asyncio.get_running_loop()
    loop.add_reader(end, _takes, end, said)
    try:
        yield voice
    finally:
        loop.remove_reader(end)
        os.close(voice)
        _takes(end, said)
        os.close(end)


async def _ends(process: asyncio.subprocess.Process, limit: float) -> str:
    """Why it failed, or nothing. Whoever cancels this ends it, too."""
    try:
        async with asyncio.timeout(limit):
            status = await process.wait()
    except builtins.TimeoutError:
        if not _has_ended(process):
            return f"hadn't ended after {span(limit, 1)}, and was killed"
        # (in time or not: the broker was stopped for longer than the limit, and looks only now)
        status = await process.wait()
    finally:
        if process.returncode is None:
            with contextlib.suppress(ProcessLookupError):
                os.killpg(process.pid, signal.SIGKILL)
    return "" if not status else f"failed with status {status}" if status > 0 else f"was ended by signal {-status}"


def _has_ended(process: asyncio.subprocess.Process) -> bool:
    """Also if asyncio hasn't heard of it yet."""
    try:
        return process.returncode is not None or os.waitid(os.P_PID, process.pid, os.WEXITED | os.WNOWAIT | os.WNOHANG) is not None
    except ChildProcessError:
        return True


def _takes(end: int, said: bytearray) -> None:
    """What it has said by now, of which the end is kept."""
    with contextlib.suppress(BlockingIOError):
        for _ in range(64):
            said += (some := os.read(end, 1 << 16))
            del said[:-KEPT]
            if not some:
                break
