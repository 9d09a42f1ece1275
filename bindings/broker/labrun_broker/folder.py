"""The state folder: where the bay's journal is kept, what its numbers mean, and the records. Nothing else of the broker knows of files."""

from __future__ import annotations

import contextlib
import os
import re
from typing import Optional, Protocol

from labrun import JournalError, LabrunError
from labrun.picks import some
from labrun.store import FileStore, Store

from .bay import Bay
from .places import Places, places_of
from .records import Record, Records, Written
from .sessions import each_record, held_by, recent_records
from .texts import plain
from .words import NoFile

JOURNAL, PLACES, RECORDS = "bay.journal", "bay.json", "records.jsonl"
A_BAYS = re.compile(rb"[0-9a-f]{16} bay ")
# (its head says which numbers were given, and not which tokens)
OF_NO_TOKENS = re.compile(rb"[0-9a-f]{16} bay [0-9a-f]{64} [0-9a-f]{16} [0-9a-f]{16}\n")


class State(Protocol):
    """What of a bay outlives its broker."""

    store: Store
    records: Written
    # whether another broker may have taken it over without this one's knowing
    lets_wait: bool

    def places(self, is_needed: bool) -> Places:
        """As they were written last. If they never were: empty ones, or a JournalError if they are needed."""

    def lost(self, known: Optional[int], recent: list[Record]) -> list[str]:
        """What is to be told of lines that the journal had, by the records, and hasn't; or a JournalError: somebody may hold by them. `known` is
        the largest number of a session that it may know of; None: it has no whole line."""

    def instead(self) -> str:
        """What somebody does whose journal has a line that can't be read."""

    def keeps(self, places: Places) -> None:
        """They outlive a crash. OSError: nobody knows which are there."""

    def lacks(self, text: str, bay: Bay) -> bool:
        """Whether the next broker wouldn't go by this bay, of this text, unless it is told to. CantChange: it can't."""

    def goes_by(self, text: str, bay: Bay, by: str) -> None:
        """The next broker does, from when the journal begins anew, which is being done."""

    def recent(self) -> list[Record]:
        """The last records that there are, as many as a broker that begins has to know."""

    def mends(self, missing: list[Record], holds: list[Record]) -> None:
        """What was missing in the records is added; where they are kept twice, the others are mended by that, and by the hold of each session
        that goes on."""

    async def fence(self) -> None:
        """Returns once it is known that no other had, at some moment since this was called. If one had, it never returns."""

    def brokers(self) -> tuple[str, tuple[str, ...]]:
        """Who leads, and who stands by; nothing if no other can."""

    def close(self) -> None: ...


class Folder:
    """A folder of this process alone. LabrunError and OSError say why it can't be."""

    lets_wait = False

    def __init__(self, path: str, syncs: bool) -> None:
        self.path, self._syncs = path, syncs
        try:
            os.makedirs(path, 0o750, exist_ok=True)
        except FileExistsError:
            raise NoFile(f"{path}: it isn't a folder, and the broker keeps its state in one") from None
        except OSError as fault:
            raise NoFile(f"{path}: {fault.strerror}") from None
        _looks_at_former(path)
        # (whoever sees to a journal that can't be read moves it away)
        self._was_moved = not os.path.exists(f"{path}/{JOURNAL}")
        try:
            self.store: Store = FileStore(f"{path}/{JOURNAL}", syncs, 0o640)
        except JournalError:
            raise LabrunError(f"{path}: another broker keeps its state there") from None
        except OSError as fault:
            raise JournalError(f"{path}/{JOURNAL}", fault.strerror) from None
        try:
            self.records: Written = Records(f"{path}/{RECORDS}", syncs)
        except OSError as fault:
            self.store.close()
            raise JournalError(f"{path}/{RECORDS}", fault.strerror) from None

    def places(self, is_needed: bool) -> Places:
        path = f"{self.path}/{PLACES}"
        try:
            with open(path, encoding="utf-8") as file:
                return places_of(file.read())
        except FileNotFoundError:
            if is_needed:
                raise JournalError(path, f"it isn't there, and the journal can't be read without it. {self._instead()}") from None
            return Places()
        except OSError as fault:
            raise JournalError(path, fault.strerror) from None
        except ValueError as fault:
            raise JournalError(path, f"it isn't as the broker wrote it, and the journal can't be read without it: {fault}. {self._instead()}") from None

    def lost(self, known: Optional[int], recent: list[Record]) -> list[str]:
        path = f"{self.path}/{JOURNAL}"
        if known is not None:
            its, what = [it for it in held_by(recent) if (it.get("session") or 0) > known], "lacks its last lines"
        else:
            # (without its names it is the folder's first journal, or they were moved out with the one before)
            its, what = held_by(each_record(self.path)) if os.path.exists(f"{self.path}/{PLACES}") else [], "has no whole line"
        if not its:
            return []
        who = some([*map(_told, its)])
        if self._was_moved:
            return [f"{path} isn't there: it begins as if nobody held; by the records {who} did"]
        if known is not None and not self._syncs:
            return [f"{path} {what}: it begins as if they had never been; by the records somebody holds: {who}"]
        raise JournalError(path, f"it {what}, and by the records somebody holds: {who}. {self._instead(PLACES, JOURNAL, f'{PLACES} and the records')}")

    def instead(self) -> str:
        return "see to all instruments, then move the file away, and begin again"

    def _instead(self, of: str = "it", out: str = f"{PLACES}, {JOURNAL}", stays: str = "the records") -> str:
        moved = f"move {out}, its numbered files and lock out of {self.path} ({stays} may stay)"
        return f"Put back the one that belongs to {of}; or see that nobody is at the instruments, {moved}, and begin again"

    def keeps(self, places: Places) -> None:
        path = f"{self.path}/{PLACES}"
        try:
            self._keeps_at(path, places)
        except OSError as fault:
            # (whose name a write doesn't tell)
            raise OSError(fault.errno, fault.strerror, path) from None

    def _keeps_at(self, path: str, places: Places) -> None:
        new = f"{path}.new"
        with open(os.open(new, os.O_WRONLY | os.O_CREAT | os.O_TRUNC | os.O_CLOEXEC, 0o640), "w", encoding="utf-8") as file:
            file.write(places.text())
            file.flush()
            if self._syncs:
                os.fsync(file.fileno())
        os.replace(new, path)
        if self._syncs:
            folder = os.open(self.path, os.O_RDONLY | os.O_CLOEXEC)
            try:
                os.fsync(folder)
            finally:
                os.close(folder)

    def lacks(self, text: str, bay: Bay) -> bool:
        # (it goes by its own file)
        return False

    def goes_by(self, text: str, bay: Bay, by: str) -> None: ...

    def recent(self) -> list[Record]:
        return recent_records(self.path)

    def mends(self, missing: list[Record], holds: list[Record]) -> None: ...

    async def fence(self) -> None: ...

    def brokers(self) -> tuple[str, tuple[str, ...]]:
        return "", ()

    def close(self) -> None:
        self.store.close()
        self.records.close()


def _told(record: Record) -> str:
    """Who holds what, by the record of its hold."""
    by = f" ({plain(record['by'])})" if record.get("by") else ""
    return f"{record.get('station')}{by} {' '.join(record.get('instruments') or ())} (session {record.get('session')})"


def _looks_at_former(folder: str) -> None:
    """The journal of an older broker can't be gone on with: from before the bay, or from before there were tokens."""
    path = f"{folder}/{JOURNAL}"
    try:
        with open(path, "rb") as file:
            first = file.read(200)
    except FileNotFoundError:
        return
    except OSError as fault:
        raise JournalError(path, fault.strerror) from None
    if first:
        if first.startswith(b"lab ") or OF_NO_TOKENS.match(first):
            raise JournalError(
                path,
                "an older labrun-broker wrote it, and this one can't go on with it. With the older one let all sessions end, and end it; "
                f"then move {JOURNAL}, its numbered files and lock out of {folder} (the records may stay), and begin again",
            )
        if len(first) >= 22 and not A_BAYS.match(first):
            raise JournalError(path, "it is no journal of a bay")
