"""The users of this machine, as who connects to a Unix socket. The kernel says the number of the user whose process connected (SO_PEERCRED), and
no process can say another."""

from __future__ import annotations

import pwd
import socket
import struct
from typing import Optional

from .people import People

_PEER = struct.Struct("iII")  # process, user, group


def user_of(one: Optional[socket.socket]) -> Optional[int]:
    """Who connected to a Unix socket."""
    if one is None or one.family != socket.AF_UNIX:
        return None
    return int(_PEER.unpack(one.getsockopt(socket.SOL_SOCKET, socket.SO_PEERCRED, _PEER.size))[1])


class Users:
    """Which person each user is, by the machine's own table of users as it is now. A user whom two people name, by name and by number, is
    neither."""

    def __init__(self, people: People) -> None:
        self.complaints = list[str]()
        its = dict[int, set[str]]()
        for name, person in people.of.items():
            for user in person.unix:
                if (uid := self._number(name, user)) is not None:
                    its.setdefault(uid, set()).add(name)
        for uid, names in its.items():
            if len(names) > 1:
                self.complaints.append(f"the user {self.name(uid)} is {' and '.join(sorted(names))} by the bay's file, and so isn't let in as either")
        self._of = {uid: min(names) for uid, names in its.items() if len(names) == 1}

    def _number(self, name: str, user: str) -> Optional[int]:
        if user.isdigit():
            return int(user)
        try:
            return pwd.getpwnam(user).pw_uid
        except KeyError:
            self.complaints.append(f"people.{name}.unix: this machine has no user {user}")
            return None

    def person(self, people: People, uid: Optional[int]) -> Optional[str]:
        name = None if uid is None else self._of.get(uid)
        return name if name in people.of else None

    def name(self, uid: int) -> str:
        try:
            return f"{pwd.getpwuid(uid).pw_name} ({uid})"
        except KeyError:
            return str(uid)
