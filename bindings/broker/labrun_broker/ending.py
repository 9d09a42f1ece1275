"""What is done with a session that holds: its owner notes, and lets go; or somebody ends it in the owner's place (keeping.py says of each what
it does)."""

from __future__ import annotations

from typing import TYPE_CHECKING, Optional

import labrun
from labrun import NotHeld
from labrun.machine import TAKEN, Refusal

from . import making_safe, people, rights, wishes
from .errors import JournalError
from .settling import settled
from .standing import ENDING, Owner, Session, Standings

if TYPE_CHECKING:
    from .keeping import Keeping


def _is_of(keeping: Keeping, session: Session, owner: Owner) -> None:
    if session.owner is not owner or not session.holds:
        raise NotHeld("the session is over, or another connection came for it")


@settled
async def has_let_go(keeping: Keeping) -> None:
    """Returns once that is kept; whoever was told that it isn't may ask again."""
    await keeping._shell.turns.stands()
    await keeping.settling.kept()


@settled
async def lets_go(keeping: Keeping, session: Session, owner: Owner, failed: Optional[str]) -> None:
    await keeping._shell.turns.may_go_on()
    _is_of(keeping, session, owner)
    if failed is not None:
        keeping._notes(session, "failed", failed)
    try:
        if not session.is_followed:
            keeping._shell.machine.let_go(session.number, keeping.now())
    except Refusal:
        raise NotHeld("the session is over") from None
    keeping._over(session, "let_go" if failed is None else "failed", failed or "")
    keeping._ends.add(session.key)
    if session.is_followed:
        making_safe.begins(keeping, session, making_safe.LET_GO)
    keeping._shell.pump()
    keeping._news.write()
    await has_let_go(keeping)


@settled
async def notes(keeping: Keeping, session: Session, owner: Owner, text: str, number: int) -> None:
    await keeping._shell.turns.may_go_on()
    _is_of(keeping, session, owner)
    wishes.check_note(text, keeping.bay)
    # (whoever sends it again, because no answer came, waits for the one that is written, or is being written)
    if number == 0 or number != session.noted[0]:
        session.noted = number, keeping._notes(session, "note", text)
        session.note = text
        keeping._record("note", session, text=text)
        keeping._news.write()
        keeping._shell.pump()
    await keeping._shell.durable(session.noted[1], takes_all=True)


@settled
async def releases(keeping: Keeping, station: str, by: str, number: int, person: str, bay: str) -> tuple[str, ...]:
    keeping.in_bay(bay)
    await keeping._shell.turns.may_go_on()
    if station not in keeping.bay.jobs and all(it.name != station for it in keeping.by_number.values()):
        raise wishes.no_station(station, keeping.bay, keeping.by_number.values())
    standings = Standings(keeping)
    session, needs = next(((it, bits) for it, bits, _ in standings.holders if it.name == station), (None, 0))
    if session is None or session.state == ENDING:
        raise NotHeld(f"{station} holds nothing{standings.instead(station) if session is None else ': what it had is being made safe'}")
    if number and session.number != number:
        raise NotHeld(f"{station} is in session {session.number} now, and not in {number}")
    rights.check_release(keeping.bay, person, session)
    instruments, session.taken_by = session.chosen(needs), people.told(person, by)
    if session.holds:
        keeping._notes(session, "taken", session.taken_by)
    if session.holds and session.is_followed:
        making_safe.takes(keeping, session, TAKEN)
    else:
        keeping._shell.machine.take_away(session.number, keeping.now())
        keeping._shell.pump()
    keeping._news.write()
    try:
        await keeping._shell.durable(takes_all=True)
    except labrun.JournalError as fault:
        until = "until that is written a broker that begins anew has it again, and nobody else comes to hold what it held"
        raise JournalError(f"{station}'s session is ended, but {until}: {fault}") from None
    return instruments
