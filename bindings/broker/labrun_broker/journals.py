"""The lines of a bay's journal, for what the machine doesn't say of them: which sessions are over and how, and what was noted.

The broker's notes begin with a word: `by STATION WHO`, `person NAME`, `note TEXT` and `more TEXT` of a client, `failed TEXT` before it lets
go, `taken WHO` before somebody takes it away, `limit MILLISECONDS` if the broker sees to that, and `over HOW` if its instruments are made
safe. A text that is long goes on in lines `more TEXT`."""

from __future__ import annotations

from dataclasses import dataclass, field
from typing import Optional

MOST_BYTES = 480  # of a text in one line, behind its word; the machine takes 500
FIRST_WORD = 17  # behind a sum and a blank
# A limit that is never over, for it is longer than any that a client may ask for: it says that the session is a part of one over as many bays as
# it has more than this (crossing.py). So that stands in the very line of the hold, before anybody is told of it.
PART = 1 << 62

# what the records say of an end, by the journal's word for it
ENDS = {"let_go": "let_go", "left": "gave_up", "lapsed": "gave_up", "stopped": "gave_up", "not_written": "failed"}


@dataclass
class Left:
    """A session by its lines: when it asked, since when it held, and until when, in milliseconds; `how` it ended is nothing while it isn't
    over. Its `token` is larger than that of each that was told before that it holds."""

    number: int
    kind: int
    needs: int
    owner: tuple[int, int]
    asked: int
    since: int
    token: int
    station: str = ""
    by: str = ""
    notes: list[str] = field(default_factory=list)
    failed: Optional[str] = None
    taken: str = ""
    how: str = ""
    until: Optional[int] = None
    limit: Optional[int] = None
    own_limit: Optional[int] = None
    over: str = ""
    person: str = ""
    # of how many bays its session is, if it is a part of one over several
    of: int = 0
    _word: str = ""

    def limits(self, limit: Optional[int]) -> None:
        is_part = limit is not None and limit > PART
        self.limit, self.of = (None, limit - PART) if limit is not None and is_part else (limit, 0)

    def take(self, word: str, text: str) -> None:
        """A note's word, and what is behind it."""
        before, self._word = self._word, word
        if word == "by":
            self.station, _, self.by = text.partition(" ")
        elif word == "person":
            self.person = text
        elif word == "note":
            self.notes.append(text)
        elif word == "failed":
            self.failed = text
        elif word == "taken":
            self.taken = text
        elif word == "limit":
            self.own_limit = int(text)
        elif word == "over":
            self.over = text
        elif word == "more":
            self._word = before
            self._goes_on(text)

    def _goes_on(self, text: str) -> None:
        if self._word == "note":
            self.notes[-1] += text
        elif self._word == "failed":
            self.failed = (self.failed or "") + text
        elif self._word == "by":
            self.by += text

    @property
    def end(self) -> str:
        """How it ended for its client; for the bay it may go on to hold, until its instruments are made safe."""
        return self.how or self.over

    @property
    def what(self) -> str:
        """The word of the records for its end."""
        return "failed" if self.failed is not None and self.end == "let_go" else ENDS.get(self.end, "taken")


def sessions_of(journal: bytes) -> dict[int, Left]:
    """By their numbers, as they came to hold. (The machine has looked at the lines: each is whole, and in its place.)"""
    found: dict[int, Left] = {}
    for line in journal.split(b"\n")[:-1]:
        word, _, rest = line[FIRST_WORD:].partition(b" ")
        if word == b"hold":
            *its, limit, asked, token = rest.split()
            number, kind, needs, owner, since = (int(it, 16) for it in its)
            found[number] = Left(number, kind, needs, divmod(owner, 1 << 64), int(asked, 16), since, int(token, 16))
            found[number].limits(None if limit.startswith(b"-") else int(limit, 16))
        elif word == b"end" and (of := found.get(int(rest[:16], 16))):
            how, at = rest[17:].split()
            of.how, of.until = how.decode(), int(at, 16)
        elif word == b"note" and (of := found.get(int(rest[:16], 16))):
            of.take(*_told(rest[17:]))
    return found


def known_to(journal: bytes) -> Optional[int]:
    """The largest number of a session of which it knows: its head says below which each was given when the file began, and each hold has a line.
    None: it has no line."""
    head, *lines = journal.split(b"\n")[:-1] or [b""]
    held = (it[FIRST_WORD + 5 :].partition(b" ")[0] for it in lines if it[FIRST_WORD:].startswith(b"hold "))
    return max([int(head.split()[4], 16) - 1, *(int(it, 16) for it in held)]) if head else None


def ends_and_notes(lines: bytes) -> tuple[list[int], list[int]]:
    """Of lines that go behind others: the sessions of those that ended by them, and that of each note of a client."""
    held, ended, noted = set[int](), dict[int, None](), list[int]()
    for line in lines.split(b"\n")[:-1]:
        word, _, rest = line[FIRST_WORD:].partition(b" ")
        is_note, number = word == b"note", int(rest[:16], 16) if word in (b"hold", b"end", b"note") else 0
        if word == b"hold":
            held.add(number)
        elif word == b"end" or is_note and rest[17:].startswith(b"over "):
            ended[number] = None
        elif is_note and rest[17:].startswith(b"note "):
            noted.append(number)
    return [it for it in ended if it not in held], noted


def _told(text: bytes) -> tuple[str, str]:
    word, _, rest = text.decode("utf-8", "replace").partition(" ")
    return word, _plain(rest)


def notes_of(word: str, text: str) -> list[bytes]:
    """The notes by which the machine writes a text, which may have anything in it."""
    rest, parts = _in_one_line(text), list[str]()
    while rest or not parts:
        part = _part(rest)
        parts.append(part)
        rest = rest[len(part) :]
    return [f"{word if at == 0 else 'more'} {part}".encode("utf-8", "replace") for at, part in enumerate(parts)]


def _part(text: str) -> str:
    """As much of its beginning as a line takes. (What is written by two characters stays in one.)"""
    part = text[:MOST_BYTES]
    while len(part.encode("utf-8", "replace")) > MOST_BYTES:
        part = part[: len(part) * 3 // 4]
    is_half = (len(part) - len(part.rstrip("\\"))) % 2 == 1
    return part[:-1] if is_half and len(part) < len(text) else part


def _in_one_line(text: str) -> str:
    return text.replace("\\", "\\\\").replace("\n", "\\n").replace("\r", "\\r")


def _plain(text: str) -> str:
    """What `_in_one_line` had before."""
    if "\\" not in text:
        return text
    parts = text.split("\\\\")
    return "\\".join(it.replace("\\n", "\n").replace("\\r", "\r") for it in parts)
