"""Where the text of a bay is kept: the one seam between a shell and what outlives it. `Store` says what a shell needs; `FileStore` is a
file."""

from __future__ import annotations

import errno
import fcntl
import os
from typing import Protocol

from ._faults import JournalError

PART = 1 << 20  # bytes


class Store(Protocol):
    """The text is written by one thread, from its beginning on, in the order in which the bay hands it out."""

    path: str

    def text(self) -> bytes:
        """All that is there. Called once, before anything is written."""

    def cut(self, length: int) -> None:
        """So many bytes of it count, and outlive a crash from now on; the rest is a line that lost its end. OSError: it isn't so."""

    def write(self, text: bytes) -> None:
        """The text stands behind what there is, and outlives the process. OSError: nobody knows how much of it does, until `cut`."""

    def sync(self) -> None:
        """What was written before outlives a crash. Another thread may call it than the one that writes. OSError: nobody knows what does,
        until `cut`; and what was written since the last sync has to be written again."""

    def anew(self, text: bytes) -> None:
        """Only this text is there from now on, in place of all before, and it outlives a crash. Another thread may call it than the one that
        writes. OSError: after a crash either is there, as a whole, until a call has succeeded; and nothing is written before that."""

    def close(self) -> None:
        """Nobody writes any more. It may be called twice."""


class FileStore:
    """A file of this process alone. With `syncs` false the system decides when it reaches the disk: it outlives the process, but perhaps
    not the machine."""

    def __init__(self, path: str | os.PathLike[str], syncs: bool = True, mode: int = 0o666) -> None:
        self.path, self.syncs, self._mode = os.fspath(path), syncs, mode
        self._file = os.open(self.path, os.O_RDWR | os.O_CREAT | os.O_CLOEXEC, mode)
        self._is_closed = False
        try:
            # (the lock goes with the process, however that ends)
            fcntl.flock(self._file, fcntl.LOCK_EX | fcntl.LOCK_NB)
            if not self._is_in_place():
                # (its owner has put another in its place just now)
                raise BlockingIOError
        except BlockingIOError:
            self.close()
            raise JournalError(self.path, "another process has it open") from None
        self._length = os.fstat(self._file).st_size
        self._is_known = False

    def text(self) -> bytes:
        parts, at = [], 0
        while at < self._length:
            part = os.pread(self._file, self._length - at, at)
            if not part:
                break
            parts.append(part)
            at += len(part)
        return b"".join(parts)

    def cut(self, length: int) -> None:
        os.ftruncate(self._file, length)
        self._length = length
        if self.syncs:
            # what a process wrote just before it was killed may be in memory alone, and its name may be, too
            if not self._is_known:
                self._writes_again()
            os.fsync(self._file)
            self._syncs_folder()
            self._is_known = True

    def _writes_again(self) -> None:
        """What was found in the file. (If a sync failed before its process was killed, the system may take for written what isn't on the disk:
        then a sync alone would say that all is well. Most disks take the same bytes even when they are full; where one doesn't, there is
        the sync alone.)"""
        at = 0
        try:
            while at < self._length and (part := os.pread(self._file, min(PART, self._length - at), at)):
                at += os.pwrite(self._file, part, at)
        except OSError as fault:
            if fault.errno != errno.ENOSPC:
                raise

    def write(self, text: bytes) -> None:
        self.put(text, self._length)
        self._length += len(text)

    def put(self, text: bytes, place: int) -> None:
        """The text stands at this place, over what there is. OSError: perhaps a part of it does."""
        at = 0
        while at < len(text):
            at += os.pwrite(self._file, text[at:], place + at)

    def sync(self) -> None:
        if self.syncs and not self._is_closed:
            os.fdatasync(self._file)

    def anew(self, text: bytes) -> None:
        new = f"{self.path}.new"
        file = os.open(new, os.O_RDWR | os.O_CREAT | os.O_TRUNC | os.O_CLOEXEC, self._mode)
        try:
            # (whoever opens it from now on meets the lock)
            fcntl.flock(file, fcntl.LOCK_EX | fcntl.LOCK_NB)
            at = 0
            while at < len(text):
                at += os.pwrite(file, text[at:], at)
            if self.syncs:
                os.fsync(file)
            os.replace(new, self.path)
        except BaseException:
            os.close(file)
            raise
        # (it may have been closed meanwhile)
        before, self._file, self._length = self._file, file, len(text)
        os.close(file if self._is_closed else before)
        if self.syncs:
            self._syncs_folder()

    def close(self) -> None:
        if not self._is_closed:
            self._is_closed = True
            os.close(self._file)

    def _is_in_place(self) -> bool:
        try:
            return os.path.samestat(os.fstat(self._file), os.stat(self.path))
        except FileNotFoundError:
            return False

    def _syncs_folder(self) -> None:
        folder = os.open(os.path.dirname(os.path.abspath(self.path)), os.O_RDONLY | os.O_CLOEXEC)
        try:
            os.fsync(folder)
        finally:
            os.close(folder)
