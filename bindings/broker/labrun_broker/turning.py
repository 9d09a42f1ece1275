"""When the bay's journal begins anew, in a new file that has who holds and nothing of the past; and with other classes, if the bay changes.

That is done at a quiet moment: all that was given is on the disk, and nothing more is owed. First the records are synced, for they alone have
the past from then on. Then the machine turns, and the new file is written aside, synced, and put in the place of the old one. Until it stands
nothing more is told as durable, and the old one says the same of who holds. A bay that is never quiet by itself is made so: for a second at
most, whoever asks, notes, lets go or releases has to wait."""

from __future__ import annotations

import asyncio
import builtins
import contextlib
from typing import TYPE_CHECKING, Callable, Iterable, Optional, Sequence

from labrun import JournalError
from labrun.machine import NOT_NOW, Refusal, base_of

if TYPE_CHECKING:
    from .records import Written
    from .shell import Shell

MOST_BYTES = 4 << 20  # of a journal, before it begins anew
HUSHES = 2  # times that size: then it is made quiet
QUIET = 1.0  # seconds: for how long others wait at most, so that the bay becomes quiet
SOON = 0.05  # seconds, after which it is looked again whether the records are written
STANDS = 10.0  # seconds: for how long somebody waits until the new file stands

Classes = Sequence[tuple[int, int]]


class Wish:
    """Somebody changes the bay: its new classes, and what is done as soon as the machine has them."""

    def __init__(self, classes: Classes, then: Callable[[], None]) -> None:
        self.classes, self.then = classes, then
        self.turned: asyncio.Future[None] = asyncio.get_running_loop().create_future()


class Turns:
    """Those of a shell. `classes` has the bay's as they are; `notes` what of the holders has to stand in the new file, by their numbers."""

    def __init__(self, shell: Shell) -> None:
        self._shell = shell
        self.most, self.count = MOST_BYTES, 0
        self.records: Optional[Written] = None
        self.classes: Callable[[], Classes] = tuple
        self.notes: Callable[[], Iterable[tuple[int, bytes]]] = tuple
        # called once a new file stands, and what was given meanwhile is in it
        self.stood: Callable[[], None] = lambda: None
        self._wish: Optional[Wish] = None
        # how far the journal was when the records were synced last; what a file has that just began; and from which size on a bay is made quiet
        self._recorded, self._least, self._hushes_at = -1, 0, 0
        self._gate: Optional[asyncio.Event] = None
        self._will_look = False
        # the new file, until it stands: its text, and how much was in those before
        self._text: Optional[bytes] = None
        self._base = 0
        self._made = asyncio.Event()

    @property
    def is_under_way(self) -> bool:
        """The machine has turned, and the new file doesn't stand yet."""
        return self._text is not None

    @property
    def text(self) -> bytes:
        """That of a new file, until it stands: it says the same as the old one."""
        return self._text or b""

    def follows(self, at: int, has: int) -> None:
        """The machine has handed out all until `at`, and it outlives the broker until `has`: so far may the records be written. (At a disk that
        fails, and in etcd, it does only once it is durable.)"""
        if self.records is not None and not self.is_under_way:
            self.records.follows(at, has)

    # ---- for whoever comes meanwhile

    async def may_go_on(self) -> None:
        """Before anything is asked of the machine that it writes down."""
        while self._gate is not None:
            await self._gate.wait()

    async def stands(self) -> None:
        """Returns once what was given outlives the broker. (While a write fails that is so later, as everybody was told.) JournalError: the
        disk doesn't answer."""
        await self._shell.outlives()
        if not self.is_under_way or self._shell.fault is not None:
            return
        try:
            async with asyncio.timeout(STANDS):
                await self._made.wait()
        except builtins.TimeoutError:
            raise self._shell.why() from None

    async def turn(self, classes: Classes, then: Callable[[], None]) -> None:
        """The bay goes on with these classes; `then` is called at that moment. Refusal: the machine doesn't take them. JournalError: the bay
        isn't quiet, and nothing has changed; or all has, and isn't on the disk yet. One at a time may call it."""
        await self.stands()
        if self.is_under_way:
            raise JournalError(self._shell.path, f"{self._shell.is_wrong()}: nothing has changed")
        wish = self._wish = Wish(classes, then)
        try:
            self._hushes()
            self._shell.pump()
            await wish.turned
        finally:
            self._wish = None
        await self.stands()

    # ---- when

    def looks(self, size: int) -> None:
        """After each call of the machine; `size` is how much is in the journal's file."""
        most = max(self.most, 2 * self._least)
        if self.is_under_way or self._wish is None and size <= most:
            return
        if self._wish is None and size > max(HUSHES * most, self._hushes_at):
            self._hushes_at = size + most
            self._hushes()
        if self._shell.is_quiet and (self._wish is None or not self._wish.turned.done()):
            self._goes_on()

    def _hushes(self) -> None:
        if self._gate is None:
            self._gate = asyncio.Event()
            asyncio.get_running_loop().call_later(QUIET, self._gives_up, self._gate)

    def _gives_up(self, gate: asyncio.Event) -> None:
        if self._gate is gate:
            why = self._shell.is_wrong() or f"there was always something to be written, or {self._shell.what} doesn't answer"
            self._opens(f"{why}: nothing has changed; try again")

    def _opens(self, why: str = "") -> None:
        gate, self._gate = self._gate, None
        if gate is not None:
            gate.set()
        if why and self._wish is not None and not self._wish.turned.done():
            self._wish.turned.set_exception(JournalError(self._shell.path, why))

    def _goes_on(self) -> None:
        shell, records = self._shell, self.records
        if records is None or self._recorded == shell.written:
            return self._turns()
        records.write()
        if records.is_under_way:
            self._looks_soon()
        elif records.is_written:
            at = shell.written
            shell.works(records.syncs, lambda fault: self._is_recorded(at, fault))
        else:
            self._opens(f"{records.path} couldn't be written, and would lose what the journal has, until the broker begins again")

    def _looks_soon(self) -> None:
        if not self._will_look:
            self._will_look = True
            asyncio.get_running_loop().call_later(SOON, self._looks_again)

    def _looks_again(self) -> None:
        self._will_look = False
        if not self._shell.is_closed:
            self._shell.pump()

    def _is_recorded(self, at: int, fault: Optional[Exception]) -> None:
        if fault is None:
            self._recorded = at
        self._shell.is_sound()

    # ---- how

    def _turns(self) -> None:
        shell, wish = self._shell, self._wish
        machine = shell.machine
        try:
            text = machine.turn(self.classes() if wish is None else wish.classes, shell.now())
        except Refusal as it:
            if it.status != NOT_NOW and wish is not None:
                wish.turned.set_exception(it)
                self._opens()
            return
        if wish is not None:
            wish.then()
            wish.turned.set_result(None)
        if text:
            for number, note in self.notes():
                with contextlib.suppress(Refusal):  # (its client wasn't told yet)
                    machine.note(number, note)
            self._base, self._text = base_of(text), text + machine.journal()[0]
            self._made.clear()
            shell.works(self.makes, self._is_through)
        self._opens()
        if not text:
            shell.pump()

    def makes(self) -> None:
        """On the thread. OSError: the new file may not stand."""
        assert self._text is not None
        self._shell.puts(self._text)

    def _is_through(self, fault: Optional[Exception]) -> None:
        if fault is None:
            self.is_made()
        else:
            self._made.set()
            self._shell.fails(fault)

    def is_made(self) -> None:
        assert self._text is not None
        text, self._text = self._text, None
        self.count, self._least, self._hushes_at = self.count + 1, len(text), 0
        self._made.set()
        self._shell.has_file(self._base, text)
        self.stood()
