"""What a bench is to do: the sessions of each job, as the library has read them."""

from __future__ import annotations

from ctypes import byref, c_size_t, create_string_buffer
from dataclasses import dataclass
from typing import Callable, NamedTuple, Optional

from ._library import Planned, SessionOf, Size, State

VERBS = ("set", "add", "read")


@dataclass(frozen=True)
class Command:
    """A command of a session, as the script has it: `verb` is `set`, `add` or `read`; `number` is None for a read."""

    instrument: str
    verb: str
    number: Optional[int]


class Plan(NamedTuple):
    """What is known of a session before it begins."""

    instruments: tuple[str, ...]
    commands: tuple[Command, ...]
    patience: Optional[int]


def read_plan(call: Callable[..., bool]) -> tuple[tuple[str, ...], list[tuple[str, list[Plan]]]]:
    """The names of an open bench's instruments, and those of its jobs, each with its sessions, by the calls on it."""
    size, state, of_session, planned = Size(), State(), SessionOf(), Planned()

    def name(which: str, number: int) -> str:
        text, written = create_string_buffer(16), c_size_t()
        call(which, number, text, 16, byref(written))
        return text.raw[: written.value].decode("ascii")

    def command(*place: int) -> Command:
        call("lab_planned", *place, byref(planned))
        verb = VERBS[planned.verb]
        return Command(instruments[planned.instrument], verb, None if verb == "read" else planned.number)

    def session(*place: int) -> Plan:
        call("lab_session_of", *place, byref(of_session))
        needs, patience = of_session.needs, of_session.patience if of_session.has_patience else None
        names = tuple(it for at, it in enumerate(instruments) if needs >> at & 1)
        return Plan(names, tuple(command(*place, at) for at in range(of_session.commands)), patience)

    def sessions(job: int) -> list[Plan]:
        call("lab_state", job, byref(state))
        return [session(job, number) for number in range(1, state.sessions + 1)]

    call("lab_bench_size", byref(size))
    instruments = tuple(name("lab_instrument_name", at) for at in range(size.instruments))
    return instruments, [(name("lab_job_name", job), sessions(job)) for job in range(size.jobs)]
