"""The text of a bay on its way to the disk. Whoever waits for it writes and syncs it, unless somebody does: then it waits, and shares what
comes next. One may write while another syncs what was written before, so letting go waits for no sync.

All is called with the shell's mutex held, but for `does`. A job that is given out is given back by `did`, or, if its owner was interrupted,
by `forgets`: then the rest is written again, from what is durable on. (The bay hands out the same bytes again, and each text has its place:
so the file is a beginning of the one text at all times, and what was written stays.)"""

from __future__ import annotations

from typing import Iterator, Mapping, NamedTuple, Optional

from ._sleep import Line, Waiter
from .machine import Machine
from .store import FileStore

# before the number of an ask that comes to hold, behind the sum of its line (docs/BAY.md)
_HOLD, _WORD, _NUMBER = b" hold ", slice(16, 22), slice(22, 38)


class Job(NamedTuple):
    """A text to be written at this place; or none, and a sync. It is the hand-out `handed`, up to this position of the journal."""

    text: bytes
    place: int
    position: int
    handed: int


class Disk:
    """`last` is whoever does what nobody else does; it alone does anything after a write that failed."""

    def __init__(self, machine: Machine, store: FileStore, askers: Mapping[int, Waiter]) -> None:
        self._machine, self.store, self._askers = machine, store, askers
        self.last = Waiter()
        # there may be text that wasn't handed out
        self.has_more = True
        # how often text was handed out, and up to which of these it is written, and durable; how long the journal is that is written
        self._handed = self.written = self.durable = self._position = 0
        self._writer: Optional[Waiter] = None
        self._syncer: Optional[Waiter] = None
        self.lines: set[Line] = set()
        # whose hold isn't durable yet, and which hand-out has it; and who found somebody writing
        self._comes: dict[int, int] = {}
        self._queue: dict[Waiter, None] = {}
        self.fault: Optional[BaseException] = None
        self._is_torn = False

    def waits(self, line: Line) -> None:
        """For all that the bay gave by now."""
        line.within = self._handed + self.has_more
        if line.within <= (self.durable if line.syncs else self.written):
            line.within = 0
        else:
            self.lines.add(line)

    def takes(self, it: Waiter, is_due: bool = False) -> Optional[Job]:
        """What nobody does yet, for this one to do; with `is_due` also a sync that nobody waits for."""
        if self._is_torn or self.fault is not None:
            if it is not self.last or self._is_torn and not self._mends():
                return None
        # (what it wants itself comes first)
        if self._comes.get(it.number, self._handed + 1) <= self.written and (job := self._sync(it, is_due)) is not None:
            return job
        return self._text(it) or self._sync(it, is_due)

    def _sync(self, it: Waiter, is_due: bool) -> Optional[Job]:
        if self._syncer is not None or self.written == self.durable or not it.syncs or not (is_due or self._wants_sync()):
            return None
        self._syncer = it
        # (somebody else writes meanwhile)
        self._queue.pop(it, None)
        return Job(b"", 0, self._position, self.written)

    def _text(self, it: Waiter) -> Optional[Job]:
        if not self.has_more:
            return None
        if self._writer is not None:
            self._queue[it] = None
            return None
        self._writer, self.has_more = it, False
        try:
            text, position = self._machine.journal()
        except MemoryError as fault:
            self._fails(fault)
            self._writer = None
            return None
        self._handed += 1
        self._queue.clear()
        if text:
            if _HOLD in text:
                self._comes.update((int(line[_NUMBER], 16), self._handed) for line in text.split(b"\n") if line[_WORD] == _HOLD)
            return Job(text, position - len(text) - self._machine.base, position, self._handed)
        # (then it was all written before)
        if self.durable == self.written:
            self.durable, self.fault = self._handed, None
        self.written = self._handed
        self._answers()
        self._writer = None
        return None

    def _mends(self) -> bool:
        """What isn't durable is written again, once nobody is at it."""
        if self._writer is not None or self._syncer is not None:
            return False
        # (no sync before that: a second one would say that all is well)
        self.written = self.durable
        self._machine.failed()
        self._is_torn, self.has_more = False, True
        return True

    def _wants_sync(self) -> bool:
        return (
            self.fault is not None
            or any(handed <= self.written for handed in self._comes.values())
            or any(it.syncs and it.within <= self.written for it in self.lines)
        )

    def does(self, job: Job) -> None:
        """Without the mutex. OSError: it isn't done."""
        if job.text:
            self.store.put(job.text, job.place)
        else:
            self.store.sync()

    def did(self, it: Waiter, job: Job, fault: Optional[BaseException]) -> bool:
        """Whether more is durable by it."""
        before = self.durable
        if fault is not None:
            self._fails(fault)
        else:
            if job.text:
                self.written, self._position = job.handed, job.position
            if not job.text or not self.store.syncs:
                self._machine.durable(job.position)
                self.durable = job.handed
                if not self._is_torn:
                    self.fault = None
                for number in [number for number, handed in self._comes.items() if handed <= job.handed]:
                    del self._comes[number]
            self._answers()
        # (at the end: after an interrupt before that all is done again)
        self._frees(it)
        return self.durable != before

    def _frees(self, it: Waiter) -> bool:
        is_one = self._writer is it or self._syncer is it
        if self._writer is it:
            self._writer = None
        if self._syncer is it:
            self._syncer = None
        return is_one

    def _fails(self, fault: BaseException) -> None:
        """Whoever waits is told, but for those that wait to hold."""
        self.fault, self._is_torn = fault, True
        for line in tuple(self.lines):
            line.fault = fault
            self.lines.discard(line)
            line.wakes()

    def _answers(self) -> None:
        for line in tuple(self.lines):
            if line.within <= (self.durable if line.syncs else self.written):
                line.within = 0
                self.lines.discard(line)
                line.wakes()

    def forgets(self, it: Waiter) -> None:
        """Nobody is there for it any more."""
        self._queue.pop(it, None)
        self.lines.discard(it)  # type: ignore[arg-type]
        self._comes.pop(it.number, None)
        if self._frees(it):
            self._is_torn = True

    def wanted(self) -> Iterator[Waiter]:
        """Who is to be woken, so that all that somebody waits for is done."""
        if self._is_torn or self.fault is not None:
            if self._writer is None and self._syncer is None:
                yield self.last
            return
        if self.has_more and self._writer is None:
            yield next(iter(self._queue), self.last)
        if self._syncer is None and self.written > self.durable and self._wants_sync():
            yield next(self._may_sync(), self.last)

    def _may_sync(self) -> Iterator[Waiter]:
        for number, handed in self._comes.items():
            it = self._askers.get(number)
            if it is not None and it.does and handed <= self.written:
                yield it
        for line in self.lines:
            if line.does and line.syncs and line.within <= self.written:
                yield line

    @property
    def is_unsynced(self) -> bool:
        """Something is written, nobody syncs it, and nothing is wrong."""
        return self.written > self.durable and self._syncer is None and not self._is_torn and self.fault is None

    @property
    def is_idle(self) -> bool:
        """All is durable."""
        return not self.has_more and self.written == self.durable and self._writer is None and self._syncer is None and not self._is_torn
