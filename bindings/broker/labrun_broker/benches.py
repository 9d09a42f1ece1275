"""The journal of a bench as records: so the past of one that has no broker can be shown, too.

A journal says when a job came into the line, held, let go or gave up; how long it stayed outside the line before is in no journal."""

from __future__ import annotations

from datetime import datetime, timezone
from typing import Iterable, Iterator, Optional

from .sessions import Fault, Record

STEPS = {"thirst": "asked", "drink": "held", "quit": "let_go", "withdraw": "gave_up"}


class Reading:
    """The jobs' sessions, as the script has them and as others came, and which of them each job is in."""

    def __init__(self) -> None:
        self.sessions: dict[str, list[list[str]]] = {}
        self.begun: dict[str, int] = {}
        self.t: Optional[float] = None
        self._job = ""

    def script_line(self, words: list[str]) -> None:
        if words[:1] == ["job"] and len(words) == 2:
            self._job = words[1]
            self.sessions.setdefault(self._job, [])
        elif not words or words[0] in ("lab", "end"):
            return
        elif words[0] == "session":
            # (by one without any patience a job says what it may use; it is given up at once)
            self.sessions.setdefault(self._job, []).append([] if words[1:] == ["patience", "0"] else [""])
        elif self.sessions.get(self._job):
            of = self.sessions[self._job][-1]
            if of and words[0] not in of:
                of.append(words[0])

    def step(self, word: str, job: str) -> Optional[Record]:
        """The record of a step, if it is one of those that are shown."""
        if word == "thirst":
            self.begun[job] = self.begun.get(job, 0) + 1
        number = self.begun.get(job, 0)
        of = self.sessions.get(job, [])[number - 1 : number]
        if word not in STEPS or not of or not of[0]:
            return None
        return self.record(STEPS[word], job, number, of[0][1:])

    def record(self, what: str, job: str, number: int, instruments: list[str], text: str = "") -> Record:
        if self.t is None:
            raise Fault("it doesn't say when its steps were")
        return {"t": self.t, "what": what, "station": job, "session": number, "instruments": instruments, "by": None, "text": text}


def records_of_journal(lines: Iterable[str]) -> Iterator[Record]:
    it, is_script = Reading(), True
    for line in lines:
        words = line.split()
        if not line.endswith("\n") or not words:
            continue  # (the last one may have lost its end)
        if is_script:
            is_script = words != ["steps"]
            if is_script and not words[0].startswith("#"):
                it.script_line(words)
        elif line.startswith("#more "):
            it.script_line(["job", *words[1:]])
        elif line.startswith("#+"):
            it.script_line(line[2:].split())
        elif (note := note_of(line)) is not None:
            job, number, text = note
            yield it.record("note", job, number, [], text)
        elif line.startswith("# "):
            it.t = time_of(words[-1]) or it.t
        elif len(words) == 2:
            record = it.step(*words)
            if record is not None:
                yield record


def time_of(text: str) -> Optional[float]:
    try:
        return datetime.fromisoformat(text.replace("Z", "+00:00")).astimezone(timezone.utc).timestamp()
    except ValueError:
        return None


def note_of(line: str) -> Optional[tuple[str, int, str]]:
    """The job, the number of its session, and the text, if a line is a note."""
    about, colon, text = line.removesuffix("\n").partition(": ")
    words = about.split(" ")
    if len(words) != 4 or words[:2] != ["#", "note"] or not colon or not words[3].isdigit():
        return None
    return words[2], int(words[3]), text
