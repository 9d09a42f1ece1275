"""The people of a bay's file: by what they are known, what each may ask for, who looks after the bay, and who else may ask urgently.

    operators = ["ana"]
    urgent = ["bob"]

    [people]
    ana = {token = "sha256:..", unix = "ana"}                     # `labrun-broker token ana` makes the line
    bob = {token = ["sha256:..", "sha256:.."], may = ["scope"]}   # an old one and a new one; without `may`: all

    [groups.students]
    people = ["bob"]
    may = ["load-*", "tag:precise"]                               # besides what bob's own line says

A token is 256 bits by chance, and no password: nobody finds it by its SHA-256, so a slow hash would add nothing. A bay without people
trusts whoever it lets in with everything."""

from __future__ import annotations

import hashlib
import hmac
import re
import secrets
from dataclasses import dataclass, field
from typing import Any, Callable, Iterator, Optional, Protocol, Sequence

from labrun.picks import NoSuch, matching, near

MOST_PEOPLE, MOST_TOKENS = 1000, 8
HASH = "sha256:"
# a user of another container comes as this one
NOBODY = 65534


@dataclass(frozen=True)
class Person:
    """`tokens` are their hashes, as hex; `may` are the words of their own line and of their groups', None if there is none of these."""

    tokens: tuple[str, ...] = ()
    unix: tuple[str, ...] = ()
    may: Optional[tuple[str, ...]] = None


@dataclass(frozen=True)
class People:
    """All of them, by name."""

    of: dict[str, Person] = field(default_factory=dict)
    operators: tuple[str, ...] = ()
    urgent: tuple[str, ...] = ()

    def __bool__(self) -> bool:
        return bool(self.of)

    def with_token(self, digest: str) -> Optional[str]:
        """Whose token it is that has this hash. It takes as long whoever it is."""
        found = None
        for name, person in self.of.items():
            for its in person.tokens:
                if hmac.compare_digest(its, digest):
                    found = name
        return found

    def to_ask(self) -> str:
        """Whom to ask, for a text."""
        return f"operators: {', '.join(self.operators) or 'none'}"


def digest_of(token: str) -> str:
    return hashlib.sha256(token.encode("utf-8", "replace")).hexdigest()


def new_token() -> str:
    return secrets.token_hex(32)


def told(person: str, by: str) -> str:
    """Who it is, for people to read: the name comes first, whatever a client says of itself."""
    return f"{person}: {by}" if person and by and by != person else person or by


# ---- what is other in another bay's file


def changes(before: People, after: People) -> Iterator[str]:
    for name in after.of:
        if name not in before.of:
            yield f"person {name}: new"
    for name, old in before.of.items():
        new = after.of.get(name)
        if new is None:
            yield f"person {name}: taken out"
            continue
        if count := len(set(old.tokens) - set(new.tokens)):
            yield f"person {name}: {_tokens(count)} taken out"
        if count := len(set(new.tokens) - set(old.tokens)):
            yield f"person {name}: {_tokens(count)} new"
        if new.unix != old.unix:
            yield f"person {name}: is {_all(new.unix)} at the socket, instead of {_all(old.unix)}"
        if new.may != old.may:
            yield f"person {name}: may ask for {_words(new.may)}, instead of {_words(old.may)} (for whoever asks from now on)"
    if after.operators != before.operators:
        yield f"operators: {_all(after.operators)}, instead of {_all(before.operators)}"
    if after.urgent != before.urgent:
        yield f"urgent: {_all(after.urgent)}, instead of {_all(before.urgent)}"


def _tokens(count: int) -> str:
    return "a token is" if count == 1 else f"{count} tokens are"


def _all(names: Sequence[str]) -> str:
    return " ".join(names) or "nobody"


def _words(may: Optional[tuple[str, ...]]) -> str:
    return "all" if may is None else " ".join(may) or "nothing"


# ---- how they are written


class Reads(Protocol):
    """What reads a bay's file, and notes every fault with its key."""

    given: dict[str, Any]

    def fault(self, key: str, text: str) -> None: ...

    def knows(self, where: str, table: dict[str, Any], keys: tuple[str, ...]) -> None: ...

    def is_name(self, key: str, name: object) -> bool: ...

    def table(self, key: str) -> dict[str, Any]: ...


Tags = dict[str, tuple[str, ...]]


def people_of(reader: Reads, instruments: tuple[str, ...], tags: Tags) -> People:
    """Those of a file."""
    reading = _Reading(reader, instruments, tags)
    found = {name: reading.person(name, its) for name, its in reader.table("people").items() if reader.is_name(f"people.{name}", name)}
    if len(found) > MOST_PEOPLE:
        reader.fault("people", f"{len(found)} people; {MOST_PEOPLE} are the most")
    reading.are_of_one("token", {name: it.tokens for name, it in found.items()})
    reading.are_of_one("unix", {name: it.unix for name, it in found.items()})
    for name, may in reading.groups(found).items():
        found[name] = Person(found[name].tokens, found[name].unix, tuple(dict.fromkeys((*(found[name].may or ()), *may))))
    operators, urgent = (reading.known(key, reader.given.get(key, []), found) for key in ("operators", "urgent"))
    return People(found, operators, urgent)


class _Reading:
    def __init__(self, reader: Reads, instruments: tuple[str, ...], tags: Tags) -> None:
        self.reader, self.instruments, self.tags = reader, instruments, tags

    def person(self, name: str, given: object) -> Person:
        key = f"people.{name}"
        if not isinstance(given, dict):
            self.reader.fault(key, f'a table is wanted, as {{token = "{HASH}.."}}: `labrun-broker token {name}` makes it')
            return Person()
        self.reader.knows(f"{key}.", given, ("token", "unix", "may"))
        tokens, unix = self.several(f"{key}.token", given.get("token", []), self.token), self.several(f"{key}.unix", given.get("unix", []), self.user)
        if "token" not in given and "unix" not in given:
            self.reader.fault(key, f"nobody could come as {name}: a token is wanted (`labrun-broker token {name}` makes one), or a user of this machine (unix)")
        if len(tokens) > MOST_TOKENS:
            self.reader.fault(f"{key}.token", f"{len(tokens)} tokens; {MOST_TOKENS} are the most")
        return Person(tokens, unix, self.words(f"{key}.may", given["may"]) if "may" in given else None)

    def several(self, key: str, given: object, one: Callable[[str, object], Optional[str]]) -> tuple[str, ...]:
        """One, or a list of them."""
        each = given if isinstance(given, list) else [given]
        return tuple(dict.fromkeys(it for it in (one(key, it) for it in each) if it is not None))

    def token(self, key: str, given: object) -> Optional[str]:
        if isinstance(given, str) and re.fullmatch(f"{HASH}[0-9a-f]{{64}}", given):
            return given.removeprefix(HASH)
        # (what stands there may be the token itself: it isn't said)
        self.reader.fault(key, f"this is no hash of a token: {HASH} and 64 digits of 0-9a-f are wanted, as `labrun-broker token` says it")
        return None

    def user(self, key: str, given: object) -> Optional[str]:
        if isinstance(given, bool) or not isinstance(given, (int, str)) or not re.fullmatch(r"\d{1,10}|[A-Za-z_][\w.@\\-]*\$?", str(given)):
            self.reader.fault(key, "a user of this machine is wanted, by name or number")
        elif str(given) in (str(NOBODY), "nobody"):
            self.reader.fault(key, f"{given} is no single user: those of other containers come as {NOBODY}, too")
        else:
            return str(given)
        return None

    def words(self, key: str, given: object) -> tuple[str, ...]:
        if not isinstance(given, list) or not all(isinstance(it, str) for it in given):
            self.reader.fault(key, 'a list of words is wanted, as ["scope", "load-*", "tag:precise"]')
            return ()
        for word in given:
            try:
                matching(word, self.instruments, self.tags)
            except NoSuch as fault:
                self.reader.fault(key, str(fault))
        return tuple(dict.fromkeys(given))

    def known(self, key: str, given: object, people: dict[str, Person]) -> tuple[str, ...]:
        if not isinstance(given, list) or not all(isinstance(it, str) for it in given):
            self.reader.fault(key, 'a list of people is wanted, as ["ana"]')
            return ()
        for name in given:
            if name not in people:
                self.reader.fault(key, f"{name} is none of the people: there are {', '.join(people) or 'none'}{near(name, people)}")
        return tuple(dict.fromkeys(name for name in given if name in people))

    def are_of_one(self, what: str, its: dict[str, tuple[str, ...]]) -> None:
        first = dict[str, str]()
        for name, each in its.items():
            for it in each:
                if (other := first.setdefault(it, name)) != name:
                    self.reader.fault(f"people.{name}.{what}", f"{other} has the same one: each is of one person")

    def groups(self, people: dict[str, Person]) -> dict[str, tuple[str, ...]]:
        """What each person may ask for by groups."""
        found = dict[str, tuple[str, ...]]()
        for group, given in self.reader.table("groups").items():
            key = f"groups.{group}"
            if not self.reader.is_name(key, group):
                continue
            if not isinstance(given, dict) or not {"people", "may"} <= given.keys():
                self.reader.fault(key, 'a table of both is wanted: people = ["ana"], may = ["load-*"]')
                continue
            self.reader.knows(f"{key}.", given, ("people", "may"))
            may = self.words(f"{key}.may", given["may"])
            for name in self.known(f"{key}.people", given["people"], people):
                found[name] = (*found.get(name, ()), *may)
        return found
