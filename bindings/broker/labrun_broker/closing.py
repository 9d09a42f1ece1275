"""How a broker ends: what can be written yet is, and what isn't is told."""

from __future__ import annotations

import asyncio
import builtins
from typing import TYPE_CHECKING, Optional, Sequence

from labrun.picks import some

from . import lasting, making_safe, shell
from .journals import ends_and_notes
from .texts import counted

if TYPE_CHECKING:
    from .keeping import Keeping
    from .records import Written


async def closes(keeping: Keeping) -> list[str]:
    """What isn't written, in lines for whoever looks after the broker; mostly none."""
    for session in keeping.by_number.values():
        session.stops_looking()
        lasting.stops(session)
    its, news, state = keeping._shell, keeping._news, keeping._opened.state
    until = asyncio.get_running_loop().time() + shell.CLOSING
    its.machine.stop(keeping.now())
    its.pump()
    await making_safe.closes(keeping)
    keeping._record("closed")
    news.write()
    await its.close()
    news.write(is_all=True)
    at, rest = its.on_disk, b"" if state is None else _handed_out_again(its)
    its.machine.free()
    if state is None:
        return []
    # (whoever opens the folder next meets no write of this broker: if the disk doesn't answer it stays locked. etcd sees to that itself)
    if state.lets_wait or await its.has_ended():
        # (what is left out is told below)
        state.records.ends(its.on_disk)
        state.records.write()
        await _is_through(state.records, until)
        state.close()
    lines = _of_the_journal(keeping, rest[its.on_disk - at :])
    return [*lines, *([] if state.records.is_written else [f"{state.records.path}: not all records are written"])]


def _handed_out_again(its: shell.Shell) -> bytes:
    """What isn't on the disk. (A new file that doesn't stand yet begins with what the old one says, too.)"""
    its.machine.failed()
    return its.machine.journal()[0].removeprefix(its.turns.text)


async def _is_through(records: Written, until: float) -> None:
    """A write of them that takes its time is waited for, for a while; one that fails is tried again until then."""
    try:
        async with asyncio.timeout(shell.CLOSING):
            while records.is_under_way or records.is_behind and asyncio.get_running_loop().time() < until:
                await asyncio.sleep(shell.LOOKS)
    except builtins.TimeoutError:
        pass


def _of_the_journal(keeping: Keeping, rest: bytes) -> list[str]:
    ended, noted = ends_and_notes(rest)
    names = {it["session"]: str(it["station"]) for it in keeping.history}
    begins = f"{keeping._shell.path}: as the broker ended {keeping._shell.because()}. "
    lines = [f"{begins}These have ended, and may be shown as gone once a broker begins there: {_called(ended, names)}"] if ended else []
    more = [f"{begins}{counted(len(noted), 'note')} may be lost, of {_called(list(dict.fromkeys(noted)), names)}"] if noted else []
    return [*lines, *more]


def _called(numbers: Sequence[int], names: dict[Optional[int], str]) -> str:
    return some([f"session {it} of {names[it]}" if it in names else f"session {it}" for it in numbers])
