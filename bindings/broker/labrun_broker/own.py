"""The records in the folder of a broker at an etcd: of what this machine led. What became of its sessions while another one led, and what that
one let in and goes on, they lack as it begins to lead again; both come from what etcd has."""

from __future__ import annotations

import contextlib
from collections import Counter, defaultdict
from typing import Iterable, Mapping, Optional, Sequence

from .records import LINE, Record, Records
from .sessions import ENDS, Key, Past, Session, each_record, first

Its = Mapping[Key, Sequence[Record]]


def key_of(record: Record) -> Key:
    return record.get("station") or "", record.get("session")


def by_key(records: Iterable[Record]) -> Its:
    found = defaultdict[Key, list[Record]](list)
    for it in records:
        found[key_of(it)].append(it)
    return found


class Own(Records):
    """Until `mends` says what the file lacks nothing is added to it: part of what the broker finds missing in etcd the file may have."""

    def __init__(self, folder: str, path: str, syncs: bool) -> None:
        self._folder, self._is_mended = folder, False
        self._known: Optional[Known] = None
        super().__init__(path, syncs)

    def reads(self) -> None:
        """All of them, which may take some seconds, and is done while the broker stands by: nobody adds any then. Another thread may call it."""
        if self._known is None:
            known = Known()
            # (a file that can't be read doesn't keep a broker from leading)
            with contextlib.suppress(OSError):
                for record in each_record(self._folder):
                    known.take(record)
            self._known = known

    def add(self, record: Record) -> None:
        if self._is_mended:
            super().add(record)

    def mends(self, recent: Iterable[Record], missing: Sequence[Record], holds: Sequence[Record]) -> None:
        """`recent` are the last records of all machines, with those that were `missing` there; `holds` has the hold of each session that goes
        on. (They don't wait for the journal: etcd has it.)"""
        self.reads()
        known, self._known, self._is_mended = self._known, None, True
        for record in known.lacks(recent, missing, holds) if known is not None else ():
            self._takes(LINE.encode(record).encode() + b"\n")


class Known:
    """Which sessions are open by the records of one machine."""

    def __init__(self) -> None:
        self._past = Past()
        # of each that is open: its ticket, and when another came to hold what it held, so that it was over; and since when each instrument is free
        self._tickets, self._over_by, self._free = dict[Key, str](), dict[Key, float](), dict[str, float]()

    def take(self, record: Record) -> None:
        self._past.take(record)
        for it in self._past.ended:
            self._frees(it.instruments if it.held is not None else (), first(it.ended, 0.0))
            self._tickets.pop((it.station, it.number), None)
            self._over_by.pop((it.station, it.number), None)
        self._past.ended.clear()
        if record["what"] == "held" and (key := key_of(record)) in self._past.now:
            self._tickets[key] = str(record.get("ticket") or "")
            for other, it in self._past.now.items():
                if other != key and it.held is not None and not set(it.instruments).isdisjoint(self._past.now[key].instruments):
                    self._over_by.setdefault(other, record["t"])

    def _frees(self, instruments: Iterable[str], t: float) -> None:
        for name in instruments:
            self._free[name] = max(t, self._free.get(name, 0.0))

    def lacks(self, recent: Iterable[Record], missing: Sequence[Record], holds: Sequence[Record]) -> list[Record]:
        """Ends come first: so no instrument is held twice."""
        recents, mended = by_key(recent), by_key(missing)
        on = {key_of(it): it for it in holds if self._is_same(key_of(it), [it])}
        others = [it for it in holds if key_of(it) not in on]
        found: list[Record] = []
        for key, it in self._past.now.items():
            if key not in on:
                found += self._end(key, it, recents, mended)
        for key, its in mended.items():
            if key not in self._past.now and key not in on and any(it["what"] == "held" for it in its):
                found += [self._held(it) if it["what"] == "held" else it for it in its]
                self._frees(its[-1].get("instruments") or () if its[-1]["what"] in ENDS else (), its[-1]["t"])
        for hold in [*on.values(), *others]:
            found += self._hold(hold, recents, mended)
        return found

    def _is_same(self, key: Key, its: Iterable[Record]) -> bool:
        """Whether these are of the session that has this key here. (In an etcd that was wiped another one may have its number.)"""
        session, ticket = self._past.now.get(key), self._tickets.get(key)
        for it in its:
            if it["what"] == "held" and ticket and it.get("ticket") and it["ticket"] != ticket:
                return False
            if it["what"] == "asked" and session is not None and session.held is None and it["t"] != session.asked:
                return False
        return True

    def _end(self, key: Key, session: Session, recents: Its, mended: Its) -> list[Record]:
        """How it went on, and ended, as far as etcd has that."""
        its = recents.get(key, ())
        if not self._is_same(key, its):
            its = ()
        found = [*self._notes(key, its, mended), *(self._held(it) for it in its if it["what"] == "held" and session.held is None), *self._gone(key, its)]
        over = [it for it in its if it["what"] in ENDS][-1:]
        # (it was open when this machine's last record was written)
        last = self._over_by.get(key, max([self._past.until, *(it["t"] for it in its)]))
        begun = first(session.held, session.asked)
        about = {"station": key[0], "session": key[1], "instruments": list(session.instruments), "by": session.by or None, "text": ""}
        found += over or [{"t": max(begun, last), "what": "unknown", **about}]
        if session.held is not None or any(it["what"] == "held" for it in found):
            self._frees(found[-1].get("instruments") or (), found[-1]["t"])
        return found

    def _hold(self, hold: Record, recents: Its, mended: Its) -> list[Record]:
        key = key_of(hold)
        session, its = self._past.now.get(key), recents.get(key, ())
        if session is not None and session.held is not None and self._is_same(key, [hold]):
            return [*self._notes(key, its, mended), *self._gone(key, its)]
        return [self._held(hold), *self._notes(key, its, mended), *self._gone(key, its)]

    def _held(self, hold: Record) -> Record:
        """Not before its instruments were free. (A clock may have been set back meanwhile, and two machines have two.)"""
        return {**hold, "t": max([hold["t"], *(self._free.get(name, 0.0) for name in hold.get("instruments") or ())])}

    def _notes(self, key: Key, its: Iterable[Record], mended: Its) -> list[Record]:
        """Those that were missing in etcd, and are here, too. (Of some the text is the same: then the last of them are.)"""
        session, found = self._past.now.get(key), list[Record]()
        lacks = Counter(it.get("text") for it in its if it["what"] == "note")
        lacks.subtract(text for _, text in (session.notes if session is not None else ()))
        for it in reversed([it for it in mended.get(key, ()) if it["what"] == "note"]):
            if lacks[it.get("text")] > 0:
                lacks[it.get("text")] -= 1
                found.insert(0, it)
        return found

    def _gone(self, key: Key, its: Iterable[Record]) -> list[Record]:
        """When its client was away while another machine led."""
        since = self._past.until if key in self._past.now else 0.0
        return [it for it in its if it["what"] in ("gone", "back") and it["t"] > since]
