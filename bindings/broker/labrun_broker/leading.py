"""That one broker of a bay leads, of several at one etcd, and the others stand by.

A broker leads by a key that only one can make, and that goes with its lease. The key's create revision is the *fence*: each of its
transactions is done only if the key is still the one that it made. So one that was stopped, or cut off, and doesn't know that another leads
by now, changes nothing. That alone makes it safe; the clock only decides when it gives up.

    /labrun/BAY/leader          where the leader listens
    /labrun/BAY/bay             which file the bay has by the broker that led last, and whose bay opened
    /labrun/BAY/standby/NAME    the same of one that stands by, as long as its lease
    /labrun/BAY/applied         which bay was applied last, by whom, and when; /labrun/BAY/applied-file is its file

Once a bay was applied (applying.py), whoever leads goes by that, whatever its own file says: so nobody comes in again, and no command is left
out, because a file is older."""

from __future__ import annotations

import contextlib
import hashlib
import json
import shlex
import threading
from dataclasses import asdict, dataclass
from typing import Any, Callable, Optional

from labrun import JournalError

from .bay import Bay, bay_of
from .etcd import SHORT, Etcd, EtcdError, NoAnswer, behind, delete, get, is_of, put
from .work import clock

LOOKS, PAUSE = 0.25, 0.05  # seconds: so often one that stands by looks; after so long what wasn't answered is asked again
LATE, TOLD_AGAIN = 3.0, 60.0  # seconds: for so long etcd has said nothing when one that stands by tells of it; and tells of it again
MOST_STANDING_BY = 8  # that are told of


class Deposed(Exception):
    """Another broker leads, or may."""


@dataclass(frozen=True)
class Others:
    """What there is of a bay at one moment: who leads, since which revision, and by which lease; the mark of the file that led last; who
    stands by, each with the mark of its file; and the mark of the bay that was applied last, if one was."""

    leader: str
    fence: int
    lease: int
    led: str
    standing_by: dict[str, str]
    applied: str


@dataclass(frozen=True)
class Applied:
    """A bay that was applied: its mark, who did it, and when, in seconds of Unix."""

    mark: str
    by: str
    at: float

    def text(self) -> bytes:
        return json.dumps(asdict(self)).encode()


def applied_of(text: bytes) -> Applied:
    """ValueError: it is none."""
    try:
        its = json.loads(text)
        return Applied(str(its["mark"]), str(its["by"]), float(its["at"]))
    except (KeyError, TypeError) as fault:
        raise ValueError(f"{fault!r}") from None


def file_mark(bay: Bay) -> str:
    """By which two brokers see whether they have the same bay. (Comments, and the order of keys, don't matter.)"""
    return hashlib.sha256(json.dumps(asdict(bay), sort_keys=True).encode()).hexdigest()[:16]


class Leading:
    """`lost` is called, once and on any thread, with why this broker doesn't lead any more. Whoever waits for something of it then waits until
    `close`, and gets Deposed: so nobody is answered."""

    def __init__(self, etcd: Etcd, bay: Bay, name: str, seconds: int, lost: Callable[[str], None]) -> None:
        self.etcd, self.name, self.seconds, self._lost = etcd, name, seconds, lost
        self.prefix, self._mark = f"/labrun/{bay.name}/".encode(), file_mark(bay)
        self.key, self._bay, self._standby, self._applied = (self.prefix + it for it in (b"leader", b"bay", b"standby/", b"applied"))
        self._own = self._standby + name.encode()
        self.fence = self.lease = 0
        self.standing_by: tuple[str, ...] = ()
        # of the bay that was applied last, as far as this broker has read or written it
        self.applied_mark = ""
        # until when the lease is there for sure
        self._sure_until = 0.0
        self._said = ""
        # when it is told that etcd doesn't answer: at once if nothing was told before
        self._tells_at: Optional[float] = 0.0
        self._free_since: Optional[float] = None
        self._over, self._lock = threading.Event(), threading.Lock()
        self.is_lost = False

    # ---- to lead

    def leads(self, says: Callable[[str], None]) -> bool:
        """Returns once this broker leads; False if it was closed before."""
        while not self._over.is_set():
            try:
                self._stands_by()
                if self._may_lead(self._others(), says) and self._makes_key():
                    threading.Thread(target=self._keeps, name="lease", daemon=True).start()
                    return True
                self._tells_at = None
            except NoAnswer as fault:
                self._has_no_answer(says, fault)
            except EtcdError as fault:
                # (the lease may be over, because etcd was slow: then it takes another)
                self._sure_until = 0.0
                if "lease not found" not in str(fault):
                    self._says(says, f"stands by: {fault.strerror}")
            self._over.wait(LOOKS)
        return False

    def _says(self, says: Callable[[str], None], text: str) -> None:
        if text != self._said:
            self._said = text
            says(text)

    def _has_no_answer(self, says: Callable[[str], None], fault: NoAnswer) -> None:
        """One answer that is late is nothing to tell of, and what the members say of it is another thing each second."""
        now = clock()
        if self._tells_at is None:
            self._tells_at = now + LATE
        if now >= self._tells_at:
            self._tells_at = now + TOLD_AGAIN
            self._says(says, f"stands by: etcd doesn't answer ({fault})")

    def _stands_by(self) -> None:
        """It has a lease, and all see that it is there."""
        now = clock()
        if now < self._sure_until - 3 * self.seconds / 4:
            return
        if now < self._sure_until and (left := self.etcd.keeps_alive(self.lease, self.seconds / 2)):
            self._sure_until = now + left
            return
        lease = self.etcd.grant(self.seconds)
        self.etcd.txn([], [put(self._own, self._mark.encode(), lease.ID)])
        self.lease, self._sure_until = lease.ID, now + lease.TTL

    def _others(self, timeout: float = SHORT) -> Others:
        told = self.etcd.txn([], [get(self.key), get(self._bay), get(self._standby, behind(self._standby)), get(self._applied)], timeout=timeout)
        leads, led, stand_by, applied = (list(it.response_range.kvs) for it in told.responses)
        rows = {it.key[len(self._standby) :].decode(errors="replace"): it.value.decode(errors="replace") for it in stand_by if it.key != self._own}
        last = led[0].value.decode(errors="replace") if led else ""
        mark = _mark_in(applied[0].value) if applied else ""
        if not leads:
            return Others("", 0, 0, last, rows, mark)
        return Others(leads[0].value.decode(errors="replace"), leads[0].create_revision, leads[0].lease, last, rows, mark)

    def _may_lead(self, others: Others, says: Callable[[str], None]) -> bool:
        """Nobody leads, and no broker that is there has the file of the one that led last while this one has another; or all go by a bay that
        was applied."""
        is_other = not others.applied and others.led not in ("", self._mark)
        if others.leader:
            self._free_since = None
            more = ""
            if is_other and others.leader != self.name:
                more = ", by another bay file than this one has: this one won't lead while a broker with that file is there"
            if others.applied not in ("", self._mark):
                more = ", and this one's bay file isn't the one that was applied last: if it leads, it goes by the one that was applied"
            # (this machine's broker was killed, and is started again)
            leads = "its own lease of before has to run out" if others.leader == self.name else f"{others.leader} leads"
            self._says(says, f"stands by: {leads}{more}")
            return False
        self._free_since = self._free_since or clock()
        if not is_other:
            return True
        if its := [name for name, mark in others.standing_by.items() if mark == others.led]:
            self._says(says, f"stands by: {its[0]} has the bay file that led last, and this one has another")
            return False
        # (whoever led last may be just beginning again)
        if clock() < self._free_since + self.seconds:
            return False
        self._says(says, "leads by another bay file than the last one did, because no broker with that is there any more")
        return True

    def _makes_key(self) -> bool:
        begun, listens = clock(), self.name.encode()
        makes = [put(self.key, listens, self.lease), delete(self._own)]
        while True:
            try:
                told = self.etcd.txn([is_of(self.key, 0)], makes, [get(self.key)])
                break
            except NoAnswer:  # (it may have been done)
                if clock() > begun + self.seconds:
                    raise
                self._over.wait(PAUSE)
        if told.succeeded:
            self.fence = told.header.revision
            return True
        found = told.responses[0].response_range.kvs
        if not found or found[0].lease != self.lease:
            return False
        self.fence = found[0].create_revision
        return True

    # ---- while it leads

    def _keeps(self) -> None:
        """On a thread of its own: keeps the lease. (The clock proves nothing: the fence does. But clients are to go elsewhere soon.)"""
        while not self._over.is_set():
            begun = clock()
            if begun >= self._sure_until:
                # (which of the two, it can't know)
                return self._loses(f"its lease of {self.seconds} s couldn't be renewed: etcd doesn't answer, or this broker was stopped")
            try:
                left = self.etcd.keeps_alive(self.lease, max(0.05, min(self.seconds / 2, self._sure_until - begun)))
                if not left:
                    return self._loses("its lease is over")
                self._sure_until = begun + left
                self._over.wait(self.seconds / 8)
                self.standing_by = tuple(sorted(self._others(self.seconds / 8).standing_by)[:MOST_STANDING_BY])
            except (NoAnswer, EtcdError):
                self._over.wait(PAUSE)
                continue
            self._over.wait(self.seconds / 8)

    def _loses(self, why: str) -> None:
        with self._lock:
            is_first, self.is_lost = not self.is_lost, True
        if is_first and not self._over.is_set():
            self._lost(why)

    def does(self, what: list[Any]) -> None:
        """Returns once that is done, and this broker led then. It is asked for again until it is answered: that does no harm, for nobody else
        writes between, or it fails. EtcdError: it isn't done, and may be tried again. Deposed: see above."""
        while not self._over.is_set() and not self.is_lost:
            try:
                told = self.etcd.txn([is_of(self.key, self.fence)], what, timeout=min(SHORT, self.seconds / 2))
            except NoAnswer:
                self._over.wait(PAUSE)
                continue
            if told.succeeded:
                return
            self._loses("it leads no more")
        self._over.wait()
        raise Deposed

    def has_opened(self) -> None:
        """Its bay is that of the file that led last. (A broker that somebody is in the way of never led by its own.)"""
        # (in an etcd that is full by now the bay opens all the same)
        with contextlib.suppress(EtcdError):
            self.does([put(self._bay, self._mark.encode())])

    def reads(self, prefix: bytes) -> list[tuple[bytes, bytes]]:
        """All keys behind a prefix, with their values. Nobody else writes them while this broker leads."""
        while True:
            try:
                return [(it.key[len(prefix) :], it.value) for it in self.etcd.all_of(prefix)]
            except NoAnswer:
                if self.is_lost or self._over.is_set():
                    raise Deposed from None
                self._over.wait(PAUSE)

    def applied(self) -> Optional[tuple[Applied, Bay]]:
        """The bay that was applied last, while this broker leads. JournalError: it can't be read."""
        its = dict(self.reads(self._applied))
        if b"" not in its:
            return None
        try:
            it, bay = applied_of(its[b""]), bay_of(its[b"-file"].decode())
        except (KeyError, ValueError) as fault:
            raise JournalError(self._applied.decode(), f"the bay that was applied last can't be read: {fault}") from None
        self.applied_mark = it.mark
        return it, bay

    def applies(self, text: str, it: Applied) -> list[Any]:
        """How it is written that this bay was applied."""
        return [put(self._applied, it.text()), put(self._applied + b"-file", text.encode())]

    def instead(self) -> str:
        """What somebody does where what is kept there can't be read."""
        command = shlex.join(("etcdctl", "--endpoints", ",".join(self.etcd.endpoints), "del", "--prefix", self.prefix.decode()))
        return f"see to all instruments, end all brokers and guards, then run `{command}`, and begin again"

    def close(self) -> None:
        """The next one may lead at once."""
        if self._over.is_set():
            return
        self._over.set()
        if self.lease and not self.is_lost:
            with contextlib.suppress(NoAnswer, EtcdError):
                self.etcd.revoke(self.lease)
        self.etcd.close()


def _mark_in(text: bytes) -> str:
    """(If it can't be read, that is told by the one that leads.)"""
    try:
        return applied_of(text).mark
    except ValueError:
        return "unknown"
