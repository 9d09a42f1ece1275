"""Who comes in, how many, and how fast: the same for each way that leads to a broker."""

from __future__ import annotations

import asyncio
import collections
import contextlib
import hmac
import re
import time
from dataclasses import dataclass, replace
from typing import Callable, Iterator, Optional
from urllib.parse import unquote

from labrun import LabrunError

from .bay import Bay
from .bays import Kept
from .door import Seldom
from .errors import CantChange
from .people import People, digest_of
from .users import Users

# a call that isn't of a session counts as so many messages
DEAR = 20
MOST_PEERS = 1000


class NotLetIn(LabrunError):
    """By a request of HTTP, which has this status."""

    def __init__(self, status: int, why: str) -> None:
        super().__init__(why)
        self.status = status


class Pace:
    """So many messages a second, and as many at once: who sends more waits."""

    def __init__(self, rate: int) -> None:
        self.rate, self.left, self.at = rate, float(rate), time.monotonic()

    def span(self, count: int = 1) -> float:
        """For how long the next one, or so many of them, has to wait."""
        now = time.monotonic()
        self.left = min(self.rate, self.left + (now - self.at) * self.rate) - count
        self.at = now
        return max(0.0, -self.left / self.rate)


UNKNOWN = 401
BEARER = "`Authorization: Bearer TOKEN`"
# the digest of what is no token
NONE = "none"
NO_TOKEN = f"a token is sent as {BEARER}"


@dataclass(frozen=True)
class Caller:
    """Who it is that asks: by the hash of the token that came, or by the user of the process that connected to a Unix socket. `person` is
    nothing where the bay names nobody, and of one who only looks."""

    person: str = ""
    digest: Optional[str] = None
    uid: Optional[int] = None
    is_socket: bool = False
    looks: bool = False
    by_http: bool = False

    def to_give(self, it: str, its_file: str) -> str:
        """How a token is given, in words."""
        if not self.by_http:
            # (the variable counts in every client; the option is that of the commands)
            return f"give {its_file} by --token-file, or by LABRUN_BROKER_TOKEN_FILE"
        # (of those that speak HTTP labrun-hold alone has such an option)
        return (f"give labrun-hold {its_file} by --token-file, or " if self.is_socket else "") + f"send {it} as {BEARER}"


class Entrance:
    """`clients` counts those that are here. Each of `tokens` is the bay's. `seen` is an address that other machines see, and for which there is
    none."""

    def __init__(self, keeping: Kept, tokens: tuple[str, ...] = (), seen: Optional[str] = None) -> None:
        self.keeping, self.seen, self.clients = keeping, seen, 0
        self._tokens = tuple(map(digest_of, tokens))
        self._seldom = Seldom(60.0)
        self._pace = collections.defaultdict[str, Pace](lambda: Pace(keeping.bay.limits.requests))
        self._users = Users(keeping.bay.people)
        # of those that are here, by what acts for each; and why those were cut off that aren't let in any more
        self._here, self._cut = dict[asyncio.Task[object], Caller](), dict[asyncio.Task[object], str]()
        # what else is to be called when that may be others
        self.looks_again: list[Callable[[], None]] = []
        keeping.entrances.append(self)

    @property
    def asks_for_token(self) -> bool:
        return bool(self._tokens or self.keeping.bay.people)

    def caller(self, given: str, is_socket: bool, uid: Optional[int] = None, looks: bool = False, by_http: bool = False) -> Caller:
        """Who comes. `given` is what came as `authorization`, `uid` who connected to a Unix socket, as far as that is known. Who only looks
        needs no name there: the socket's mode let them in. NotLetIn says why not."""
        token = given.removeprefix("Bearer ")
        # (what is no token is nobody's)
        digest = None if not given else digest_of(token) if token and token != given else NONE
        it = Caller("", digest, uid, is_socket, looks, by_http)
        if (why := self.why_not(it)) is not None:
            raise NotLetIn(UNKNOWN, why)
        return replace(it, person=self._person(it) or "")

    def why_not(self, it: Caller) -> Optional[str]:
        """Why this one isn't let in, or not any more."""
        people = self.keeping.bay.people
        if it.is_socket and (it.looks or not people):
            return None
        if not people:
            return self._has_not_the_token(it)
        person = self._person(it)
        if person is not None and it.person in ("", person):
            return None
        return f"{self._unknown(it, people)}; {people.to_ask()}"

    def _person(self, it: Caller) -> Optional[str]:
        people = self.keeping.bay.people
        if it.digest is not None:
            return people.with_token(it.digest)
        return self._users.person(people, it.uid) if it.is_socket else None

    def _has_not_the_token(self, it: Caller) -> Optional[str]:
        if not self._tokens or any([hmac.compare_digest(it.digest or "", its) for its in self._tokens]):
            return None
        if it.digest is None:
            return f"this broker asks for its token: {it.to_give('it', 'its file')}"
        return NO_TOKEN if it.by_http and it.digest == NONE else "this isn't its token"

    def _unknown(self, it: Caller, people: People) -> str:
        if it.digest is not None:
            return NO_TOKEN if it.by_http and it.digest == NONE else "this is nobody's token, or not any more"
        give = it.to_give("your token", "the file of your token")
        if it.is_socket and it.uid is not None:
            return f"the user {self._users.name(it.uid)} of this machine is none of the bay's people: {give}"
        return f"say who you are: {give}"

    def complaints(self) -> list[str]:
        """What whoever looks after the broker should know of the people."""
        needless = ["the bay names people, so the token of --token-file lets nobody in"] if self._tokens and self.keeping.bay.people else []
        return [*needless, *self._users.complaints]

    # ---- while they are here

    @contextlib.contextmanager
    def present(self, caller: Caller) -> Iterator[None]:
        """While this task acts for somebody. NotLetIn: they aren't let in any more, and the task was cut off wherever it was."""
        task = asyncio.current_task()
        assert task is not None
        self._here[task] = caller
        try:
            yield
        except asyncio.CancelledError:
            if (why := self._cut.get(task)) is None:
                raise
            task.uncancel()
            raise NotLetIn(UNKNOWN, why) from None
        finally:
            self._here.pop(task, None)
            self._cut.pop(task, None)

    def may_be(self, after: Bay) -> None:
        """CantChange: the bay would be open to everybody."""
        if self.seen is not None and not after.people:
            raise CantChange(f"other machines see {self.seen}, and without [people] this broker would let in everybody: it has no --token-file")

    def has_changed(self) -> None:
        """Who isn't let in any more is cut off."""
        gone = collections.Counter[str]()
        self._users = Users(self.keeping.bay.people)
        for task, caller in self._here.items():
            if task not in self._cut and (why := self.why_not(caller)) is not None:
                gone[caller.person or "somebody"] += 1
                self._cut[task] = why
                task.cancel()
        for it in self.looks_again:
            it()
        for name, count in gone.items():
            self.keeping.says(f"{name} isn't let in any more: {count} connection{'s are' if count > 1 else ' is'} closed")
        for complaint in self._users.complaints:
            self.keeping.says(complaint)

    # (each answer is a text that says why not, or None)

    def is_full(self) -> Optional[str]:
        here = f"{self.clients} client{'s are' if self.clients > 1 else ' is'} here"
        return f"{here}, and no more may come" if self.clients >= self.keeping.bay.limits.clients else None

    def is_too_fast(self, peer: str, count: int = DEAR) -> Optional[str]:
        if len(self._pace) > MOST_PEERS:
            self._pace.clear()
        pace = self._pace[peer]
        if pace.span(count) <= 1:
            return None
        pace.left += count
        return f"more than {pace.rate} requests a second"

    def tells(self, peer: str, why: str) -> None:
        """Also whoever looks after the broker is told, now and then."""
        # (a socket's clients have no address that says anything; gRPC says of the others' which kind it is)
        who = re.sub(r"^unix\S*", "a client of the Unix socket", re.sub(r"^ipv[46]:", "", unquote(peer)))
        if (text := self._seldom.text(why, f"{who} isn't let in, and is told: {why}")) is not None:
            self.keeping.says(text)
