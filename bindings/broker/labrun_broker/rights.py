"""Who may do what, where the bay's file names people. Without people whoever was let in may do everything."""

from __future__ import annotations

from typing import TYPE_CHECKING, Optional, Protocol

from labrun.picks import NoSuch, matching, some

from .errors import MayNotUse, NotAllowed

if TYPE_CHECKING:
    from .bay import Bay


def allowed(bay: Bay, person: str, its: tuple[str, ...]) -> tuple[str, ...]:
    """Of these instruments, those that a person may ask for."""
    if not bay.people:
        return its
    of = bay.people.of.get(person)
    if of is None:
        return ()
    if of.may is None:
        return its
    may = {name for word in of.may for name in _matching(word, bay)}
    return tuple(name for name in its if name in may)


def _matching(word: str, bay: Bay) -> tuple[str, ...]:
    """(The people may be of a newer file than the rest of the bay.)"""
    try:
        return matching(word, bay.instruments, bay.tags)
    except NoSuch:
        return ()


def may_not_have(bay: Bay, person: str, what: str) -> MayNotUse:
    return MayNotUse(f"{person or 'nobody'} may not have {what}; {bay.people.to_ask()}")


def check_operator(bay: Bay, person: str, what: str) -> None:
    """NotAllowed: there are people, and this one doesn't look after the bay."""
    if bay.people and person not in bay.people.operators:
        raise NotAllowed(f"{person or 'nobody'} may not {what}; {bay.people.to_ask()}")


def to_enable(bay: Bay, person: str, name: str) -> str:
    """What whoever meets an instrument that is out of order may do once it isn't: the command is for those who may give it."""
    people = bay.people
    if not people or person in people.operators:
        return f"once it is mended: labrun-broker enable {name}"
    if not people.operators:
        return "nobody may enable it: there are no operators"
    return f"once it is mended, ask an operator to enable it: {some(people.operators)}"


def check_urgent(bay: Bay, person: str) -> None:
    """NotAllowed: there are people, and this one may not ask urgently."""
    if bay.people and person not in (*bay.people.operators, *bay.people.urgent):
        raise NotAllowed(f"{person or 'nobody'} may not ask urgently; {bay.people.to_ask()}")


class OfPerson(Protocol):
    """A session."""

    person: str
    name: str


def check_release(bay: Bay, person: str, session: OfPerson) -> None:
    """NotAllowed: it isn't their own session, nor do they look after the bay."""
    if bay.people and (not person or session.person != person):
        of = session.person or "nobody in particular"
        check_operator(bay, person, f"end the session of {session.name}, which is of {of}")


def check_ticket(bay: Bay, person: str, session: Optional[OfPerson]) -> None:
    """NotAllowed: the ticket is of a session of somebody else."""
    if session is not None:
        check_same(bay, person, session.person)


def check_same(bay: Bay, person: str, of: str) -> None:
    """(A session that began without people is of whoever has its ticket.)"""
    if bay.people and of not in ("", person):
        raise NotAllowed(f"{person or 'nobody'} may not come with this ticket: it is of a session of {of}; {bay.people.to_ask()}")
