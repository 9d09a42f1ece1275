"""A lab in a program: `Lab`, whose sessions threads and tasks hold, and `Station`."""

from __future__ import annotations

import functools
import hashlib
import os
import time
from types import TracebackType
from typing import Any, Iterable, Iterator, Mapping, NamedTuple, Optional, Sequence, TypeVar, Union

from ._faults import JournalError, LabrunError, NotHeld, WouldBlock
from ._held import Held
from ._library import NOT_NOW
from ._room import AnyOf, Kind, Room, all_of
from ._shell import Shell
from ._sleep import at_once, in_loop
from .machine import ANOTHER, HOLDS, MAY_NOT, MOST_CLASSES, MOST_INSTRUMENTS, NEVER, UNSOUND, WAITS, Machine, Refusal, Terms
from .store import FileStore

OVERTAKES = 64
# for how many sets there is room in line
LINE = 1 << 20
# so many milliseconds at least a session that came to hold in time waits for the disk
DISK = 5000

T = TypeVar("T")


class Sitting(NamedTuple):
    """A session as `Lab.sessions` sees it. `instruments` are those that it holds (`holds`), or waits for; of one that has a choice all of
    them. `since` when it holds, or asks, in seconds as `time.time()` has them."""

    number: int
    station: str
    instruments: tuple[str, ...]
    holds: bool
    since: float
    notes: tuple[str, ...]


class _Asks:
    """Whose sessions `hold` gives: a station's, or a guest's."""

    _room: Room
    _kind: Kind

    def hold(
        self, *instruments: str, any_of: AnyOf = (), timeout: Optional[float] = None, limit: Optional[float] = None, note: str = ""
    ) -> Held:
        """A session of these instruments, or of one of the sets `any_of`, whichever is free first: `with lab.hold("scope", "supply"):`, or
        `async with`. `load-*`, `tag:precise` and `2 of load-*` stand for those that are like that, whichever are free first. It waits for
        `timeout` seconds at most; then TimeoutError says who has what it wanted. 0: it takes what is free. After `limit` seconds it is
        taken away as soon as somebody waits for what it has. `note` is noted as it comes to hold, as by `Held.note`."""
        kind = self._kind
        try:
            sets = kind.known.get(instruments) if not any_of else None
        except TypeError:  # (by what is no text: that is told by `kind.sets`)
            sets = None
        return Held(self._room, kind, kind.sets(instruments, any_of) if sets is None else sets, timeout, limit, note)


class Station(_Asks):
    """A station of a lab, which is in one session at a time: within one the same thread, or task, may not enter another. `instruments` are
    those that it may use."""

    def __init__(self, room: Room, kind: Kind) -> None:
        self._room, self._kind, self.name, self.instruments = room, kind, kind.name, tuple(kind.may)


class Lab(_Asks):
    """Instruments that the threads and tasks of a program share. A session holds all of its instruments, and no two hold one at once;
    whoever asked first for the same comes first, and nobody is passed more than `overtakes` times at what it waits for.

        lab = labrun.Lab(["scope", "supply", "load-1", "load-2"])
        with lab.hold("scope", "supply", timeout=5.0) as held:
            measure(held.instruments)

    `stations` says which instruments each may use; a station is in one session at a time. Whoever asks without one is a guest: `guests` are
    the instruments that guests may use (all, if nothing is said), and `places` how many of them hold at once. `tags` are names, each for some
    of the instruments. With a `journal` each session
    is in that file before it is told: whoever held when the process died is in `resumed`. `sync="none"` leaves it to the system when that
    reaches the disk. There are 64 instruments and 31 stations at most. The lab is this process's: in a child of a fork each call raises
    OtherProcess."""

    def __init__(
        self,
        instruments: Iterable[str],
        stations: Optional[Mapping[str, Iterable[str]]] = None,
        guests: Optional[Iterable[str]] = None,
        places: Optional[int] = None,
        overtakes: int = OVERTAKES,
        journal: Optional[Union[str, os.PathLike[str]]] = None,
        sync: str = "data",
        station: str = "",
        tags: Optional[Mapping[str, Iterable[str]]] = None,
    ) -> None:
        self.instruments = tuple(dict.fromkeys(_strings("instruments", instruments)))
        kinds = _kinds(self.instruments, stations or {}, self.instruments if guests is None else guests, tags or {})
        most = MOST_INSTRUMENTS if places is None else places
        if len(self.instruments) > MOST_INSTRUMENTS or len(kinds) > MOST_CLASSES:
            found = f"{len(self.instruments)} instruments and {len(kinds) - 1} stations"
            raise ValueError(f"{found}: there are {MOST_INSTRUMENTS} and {MOST_CLASSES - 1} at most")
        for name, number, least in (("places", most, 1), ("overtakes", overtakes, 0)):
            if not isinstance(number, int) or not least <= number < 1 << 32:
                raise ValueError(f"{name}: {number!r} is no number from {least} on")
        if sync not in ("data", "none"):
            raise ValueError(f'sync: {sync!r} is neither "data" nor "none"')
        self.stations = tuple(kinds)[:-1]
        self._kind = _one_of(kinds, station)
        classes = [(sum(kind.may.values()), 1 if kind.name else most) for kind in kinds.values()]
        # (by one more the disk's time isn't over too early: the clock is read in whole milliseconds)
        terms = Terms(_hash(self.instruments, kinds), LINE, NEVER, DISK + 1, overtakes, journal is not None)
        store = None if journal is None else _opened(journal, sync == "data")
        try:
            machine, text, now = _machine(classes, terms, store)
            # (if somebody has set the clock back, its time goes on from the last one that is known)
            base = max([now, *(it.since for it in machine.standings())]) - time.monotonic_ns() // 1000000
            self._shell = Shell(machine, store, 0 if store is None else base)
            self._room = Room(self.instruments, self._shell)
            self._stations = {name: Station(self._room, kind) for name, kind in kinds.items() if name}
            self.resumed = tuple(_resumed(self._room, tuple(kinds.values()), text))
        except BaseException as fault:
            if store is not None:
                store.close()
                if isinstance(fault, (Refusal, OSError)):
                    raise _of_journal(store.path, fault) from fault
            raise
        self._shell.begins()

    def station(self, name: str) -> Station:
        """ValueError: there is none of this name."""
        return _one_of(self._stations, name)

    def sessions(self) -> tuple[Sitting, ...]:
        """Who holds, and who waits, in the order of asking."""
        shell, names, found = self._shell, self._room.names, []
        with shell.mutex:
            shell.may_go_on()
            begun = time.time() - shell.now() / 1000
            for it in shell.machine.standings():
                session = shell.askers.get(it.number)
                if it.what in (HOLDS, WAITS) and session is not None:
                    bits = it.needs or all_of(session.sets)
                    found.append(Sitting(it.number, session.station, names(bits), it.what == HOLDS, begun + it.since / 1000, session.notes))
        return tuple(found)

    def take_away(self, session: Union[int, Held]) -> tuple[str, ...]:
        """Ends a session for its owner, who is told TakenAway at the next call on it, and tells which instruments it had. First see that
        nobody is at them. With a journal it returns once that is on the disk. NotHeld: no such session holds."""
        return at_once(self._shell.until_written, functools.partial(self._takes_away, session, False), False)

    async def take_away_async(self, session: Union[int, Held]) -> tuple[str, ...]:
        """The same for a task; others go on meanwhile. If it is cancelled the session is ended all the same."""
        return await self._shell.until_written(functools.partial(self._takes_away, session, True), True)

    def _takes_away(self, session: Union[int, Held], is_task: bool) -> tuple[str, ...]:
        if not isinstance(session, (int, Held)):
            raise ValueError(f"{session!r} is neither a session nor the number of one")
        shell, number = self._shell, session if isinstance(session, int) else session.number
        shell.may_go_on()
        it: Any = shell.askers.get(number)
        if shell.keeps and not is_task and in_loop():
            raise WouldBlock(it, "take_away has to wait for the journal, and a loop runs on this thread: use take_away_async")
        try:
            shell.takes_away(number)
        except Refusal as fault:
            raise NotHeld(f"session {number} {'waits' if fault.status == NOT_NOW else 'is over, or never was'}: it holds nothing") from None
        return () if it is None else tuple(it.instruments)

    def stop(self) -> None:
        """Nobody is let in any more: whoever waits, and whoever asks from now on, is told Stopped. Who holds goes on to the end."""
        shell = self._shell
        try:
            with shell.mutex:
                shell.may_go_on()
                shell.stops()
        except BaseException:
            shell.leave()
            raise

    def close(self) -> None:
        """Stops, writes what there is to write, and lets go of the journal; it may be called twice. What is held stays so in the journal;
        each further call on the lab or on a session raises Closed. JournalError: the end of the journal could not be written, so what it
        says comes back."""
        self._shell.close()

    def __enter__(self) -> Lab:
        return self

    def __exit__(self, kind: Optional[type[BaseException]], fault: Optional[BaseException], at: Optional[TracebackType]) -> None:
        self.close()


def _strings(what: str, given: Iterable[str]) -> tuple[str, ...]:
    names = tuple(given) if isinstance(given, Iterable) else ()
    if isinstance(given, str) or not isinstance(given, Iterable) or not all(isinstance(it, str) and it and "\n" not in it for it in names):
        raise ValueError(f"{what}: names are wanted, and not {given!r}")
    return names


def _kinds(
    instruments: tuple[str, ...], stations: Mapping[str, Iterable[str]], guests: Iterable[str], tags: Mapping[str, Iterable[str]]
) -> dict[str, Kind]:
    for what, given in (("stations", stations), ("tags", tags)):
        if not isinstance(given, Mapping):
            raise ValueError(f"{what}: a mapping from names to instruments is wanted, and not {given!r}")
    if "" in stations:
        raise ValueError("a station has a name")
    bits = {name: 1 << at for at, name in enumerate(instruments)}
    tagged = {tag: _some("tags", tag, its, bits) for tag, its in tags.items()}
    kinds: dict[str, Kind] = {}
    for name, its in [*stations.items(), ("", guests)]:
        may = _some("stations", name, its, bits) if name else _some("guests", "", its, bits)
        kinds[name] = Kind(name, len(kinds), {it: bit for it, bit in bits.items() if it in may}, bits, tagged)
    return kinds


def _some(what: str, name: str, its: Iterable[str], bits: Mapping[str, int]) -> tuple[str, ...]:
    """Some of the lab's instruments, as a station, the guests or a tag names them."""
    found = tuple(_strings(f"{what}: {name}" if name else what, its))
    for wrong in found:
        if wrong not in bits:
            raise ValueError(f"{name or what}: {wrong!r} is none of the instruments")
    return found


def _one_of(them: Mapping[str, T], name: str) -> T:
    if not isinstance(name, str) or name not in them:
        raise ValueError(f"{name!r} is none of the stations")
    return them[name]


def _hash(instruments: Sequence[str], stations: Iterable[str]) -> bytes:
    """Which lab it is: by the names of its instruments and stations."""
    lines = ["labrun.Lab", *(f"instrument {it}" for it in instruments), *(f"station {it}" for it in stations)]
    return hashlib.sha256("\n".join(lines).encode()).digest()


def _opened(path: Union[str, os.PathLike[str]], syncs: bool) -> FileStore:
    try:
        return FileStore(path, syncs)
    except OSError as fault:
        raise JournalError(os.fspath(path), f"it can't be opened ({fault.strerror})") from fault


def _machine(classes: Sequence[tuple[int, int]], terms: Terms, store: Optional[FileStore]) -> tuple[Machine, bytes, int]:
    """With what its journal says, and the moment. Where the file ends it goes on; one without a whole line is begun."""
    text, now = b"" if store is None else store.text(), time.time_ns() // 1000000
    if b"\n" not in text:
        text = b""
    machine = Machine(classes, terms, text, now)
    if store is not None:
        store.cut(machine.used)
        if not text:
            first, position = machine.journal()
            store.write(first)
            store.sync()
            machine.durable(position)
    return machine, text[: machine.used], now


def _of_journal(path: str, fault: Union[Refusal, OSError]) -> LabrunError:
    """What is told of one that can't be used."""
    if isinstance(fault, OSError):
        return JournalError(path, f"a write failed ({fault.strerror})")
    if fault.status == ANOTHER:
        return JournalError(path, "it is no journal of a lab with these instruments and stations")
    if fault.status == MAY_NOT:
        return JournalError(path, f"session {fault.fault} holds there what it may not use any more")
    if fault.status == UNSOUND:
        return JournalError(path, f"line {fault.fault} isn't sound: it was changed, or isn't in its place", fault.fault)
    return LabrunError(f"{path}: {fault}")


def _resumed(room: Room, kinds: Sequence[Kind], text: bytes) -> Iterator[Held]:
    for it in room.shell.machine.standings():
        if it.what == HOLDS:
            session = Held(room, kinds[it.kind], (it.needs,))
            session.resumed, session.notes = True, tuple(_notes(text, it.number))
            room.shell.goes_on(session, it)
            yield session


def _notes(text: bytes, number: int) -> Iterator[str]:
    """(A sum of 16 digits and a blank are before the words: docs/BAY.md.)"""
    start = b"note %016x " % number
    for line in text.split(b"\n"):
        if line[17:].startswith(start):
            yield line[17 + len(start) :].decode(errors="replace")
