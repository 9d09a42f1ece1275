"""The lab of week.py: its bay as the file has it now, its machines and instruments, and what is known of all programs."""

from __future__ import annotations

import argparse
import collections
import contextlib
import fnmatch
import http.client
import json
import os
import ssl
import subprocess
import sys
import threading
import time
import urllib.error
import urllib.request
from typing import Any, Optional

from labrun_broker.etcd import Etcd, EtcdError, NoAnswer
from labrun_broker.people import HASH, digest_of, new_token
from tests.brokers import COMMAND, TOP
from tests.machines import MACHINES, NET, Machine, Net, until
from tests.week_words import Sentences

sys.path.insert(0, f"{TOP}/examples/broker")
from instruments import Bay  # type: ignore[import]  # noqa: E402

KINDS = {"scope": 8, "supply": 8, "load": 10, "meter": 10, "oven": 4, "generator": 6, "switch": 6, "camera": 4, "probe": 4}
FIRST = [f"{kind}-{at}" for kind, count in KINDS.items() for at in range(1, count + 1)]
RENAMED = {"dmm-10": "meter-10", "relay-6": "switch-6"}
NEW = ["laser-1", "radio-1"]
STATIONS = {"board": ["scope-1", "supply-1", "meter-1", "load-1"], "burn-in": ["oven-1", "oven-2", "load-9", "load-10"], "antenna": ["generator-1", "probe-1"]}
OPERATORS = ["ana", "bob", "cora"]
PEOPLE = [*OPERATORS, *"dan eva finn gita hal ida jon kim leo mia ned olga pia quin rosa sam tess uma vic wim xenia yann zoe".split()]
PEOPLE += "abel bea carl dora emil fay gus hana ivan jill kurt lena milo nora".split()
STUDENTS, NIGHT = PEOPLE[20:28], PEOPLE[28:32]
MAY = {"hana": ["scope-*", "meter-*"], "ivan": ["load-*"], "jill": ["tag:precise"], "kurt": ["camera-*", "probe-*"]}
SEATS, DAYS, GRACE, UID, USERS, GROUP = 28, 7, 20, 5000, "users", 100
LONG, LATE = 240.0, 2.0
SHELL = r"""
declare -A port; while read -r name at; do port[$name]=$at; done < "$1/ports"
echo "held $LABRUN_TOKEN $LABRUN_STATION $LABRUN_HELD"
at=()
[ "$5" = 0 ] || LABRUN_HELD=
for name in $LABRUN_HELD; do
    exec {one}<>"/dev/tcp/127.0.0.1/${port[$name]}"
    read -r -t 60 word <&$one; [ "$word" = READY ] || echo "busy $name"
    echo "READ?" >&$one; read -r -t 60 word <&$one; [ "$word" -lt "$LABRUN_TOKEN" ] || echo "late $name"
    echo "SET $LABRUN_TOKEN" >&$one; read -r -t 60 word <&$one; at+=($one)
done
read -r -t "$2"
for one in "${at[@]}"; do echo BYE >&$one; read -r -t 60 word <&$one; exec {one}>&-; done
[ "$3" = 0 ] || { echo idle; read -r -t "$3"; }
exit "$4"
"""


def left_in(group: int) -> bool:
    """Whether a process of a group is still there."""
    for name in os.listdir("/proc"):
        if name.isdigit():
            with contextlib.suppress(OSError, IndexError, ValueError):
                with open(f"/proc/{name}/stat", encoding="ascii", errors="replace") as file:
                    state, _, of = file.read().rpartition(")")[2].split()[:3]
                if int(of) == group and state not in "ZX":
                    return True
    return False


class Model:
    """The bay's file as it is now, and what was."""

    def __init__(self, folder: str) -> None:
        self.folder, self.instruments, self.people = folder, list(FIRST), [it for it in PEOPLE if it not in ("zoe", "nora")]
        self.guests, self.limit, self.guests_limit = 16, "8h", "2h"
        self.tags = {"precise": ["scope-1", "scope-2", "meter-1", "meter-2"], "hot": ["oven-1", "oven-2"]}
        self.may, self.tokens = dict(MAY), dict[str, list[str]]()
        # taken out; out of order since yesterday; who has no token, or another; and what a tag has no more
        self.past, self.was_out, self.revoked, self.untagged = set[str](), set[str](), set[str](), set[str]()
        for name in PEOPLE:
            self.makes_token(name)

    @staticmethod
    def new_token() -> tuple[str, str]:
        """And what the bay's file has of it."""
        token = new_token()
        return token, HASH + digest_of(token)

    def makes_token(self, name: str) -> None:
        token, digest = self.new_token()
        self.tokens.setdefault(name, []).append(digest)
        self.has_token(name, token)

    def has_token(self, name: str, token: str) -> None:
        path = f"{self.folder}/{name}.token"
        with open(os.open(f"{path}.new", os.O_WRONLY | os.O_CREAT, 0o600), "w", encoding="ascii") as file:
            file.write(token + "\n")
        os.chown(f"{path}.new", uid_of(name), 100)
        os.rename(f"{path}.new", path)

    def text(self) -> str:
        stations = "".join(f"{name} = {json.dumps([it for it in its if it in self.instruments])}\n" for name, its in STATIONS.items())
        of = "".join(f"{name} = {{token = {json.dumps(self.tokens[name])}{f', may = {json.dumps(self.may[name])}' if name in self.may else ''}}}\n" for name in self.people)
        groups = "".join(
            f"[groups.{name}]\npeople = {json.dumps([it for it in its if it in self.people])}\nmay = {json.dumps(may)}\n"
            for name, its, may in (("students", STUDENTS, ["load-*", "meter-*", "supply-*"]), ("night", NIGHT, ["oven-*", "tag:precise", "camera-*"]))
        )
        gone = "".join(f'{it} = "release"\n' for it in self.instruments if it.startswith("load-"))
        tags = "".join(f"{name} = {json.dumps([it for it in its if it in self.instruments])}\n" for name, its in self.tags.items())
        return (
            f'bay = "lab"\ninstruments = {json.dumps(self.instruments)}\ngone = "keep"\nlimit = "{self.limit}"\noperators = {json.dumps(OPERATORS)}\n'
            f'[stations]\n{stations}[guests]\ncount = {self.guests}\nlimit = "{self.guests_limit}"\n[instrument_gone]\n{gone}[tags]\n{tags}'
            f'[labels]\nscope-1 = "DSO-X 3034, by the window"\n[people]\n{of}{groups}'
        )

    def allowed(self, person: str) -> list[str]:
        words = self.words_of(person)
        return self.matching(words) if words else list(self.instruments)

    def words_of(self, person: str) -> list[str]:
        """Of somebody who may not ask for all."""
        words = [*self.may.get(person, [])] + (["load-*", "meter-*", "supply-*"] if person in STUDENTS else [])
        return words + (["oven-*", "tag:precise", "camera-*"] if person in NIGHT else [])

    def matching(self, words: list[str]) -> list[str]:
        found = [it for word in words for it in (self.tags.get(word[4:], []) if word.startswith("tag:") else fnmatch.filter(self.instruments, word))]
        return [it for it in dict.fromkeys(found) if it in self.instruments]


def uid_of(person: str) -> int:
    return UID + PEOPLE.index(person)


class Listening:
    """When no broker answered in time, or etcd didn't: none leads, or the machine is slow. Of such moments it is no fault that somebody doesn't reach
    one, nor hears from it."""

    def __init__(self, etcd: Etcd, tls: ssl.SSLContext) -> None:
        self._etcd, self._tls, self._at, self._last = etcd, tls, 1, time.monotonic()
        self._silent = collections.deque[tuple[float, float]](maxlen=1000)
        threading.Thread(target=self._looks, daemon=True).start()

    def _looks(self) -> None:
        while True:
            others = [it for it in range(1, MACHINES + 1) if it != self._at]
            found = next((it for it in (self._at, *others) if self._answers(it)), 0)
            try:
                list(self._etcd.all_of(b"/labrun/lab/leader"))
            except (NoAnswer, EtcdError):
                found = 0
            now = time.monotonic()
            if not found or now > self._last + LATE:
                self._silent.append((self._last, now))
            self._at, self._last = found or self._at, now
            time.sleep(0.5)

    def _answers(self, at: int) -> bool:
        """(Whoever brings no token is told so.)"""
        try:
            with urllib.request.urlopen(f"https://{NET}.{at}:7444/v1/status", timeout=LATE, context=self._tls):
                return True
        except urllib.error.HTTPError:
            return True
        except (OSError, http.client.HTTPException):
            return False

    def silent_since(self, moment: float) -> float:
        """For how many seconds, in all, nobody has listened since then."""
        now, last = time.monotonic(), self._last
        its = [*self._silent, *([(last, now)] if now > last + LATE else [])]
        return sum(end - max(begin, moment) for begin, end in its if end > moment)


class Lab:
    """The machines, the instruments, and what is known of all programs."""

    def __init__(self, net: Net, folder: str, args: argparse.Namespace, ends: contextlib.ExitStack) -> None:
        self.net, self.folder, self.args, self.to = net, folder, args, ""
        self.model = Model(folder)
        names = [*FIRST, *RENAMED, *NEW]
        self.said = Sentences([*names, "laser-2", "scop-1", "frobnicator"], PEOPLE, STATIONS)
        self.instruments = Bay([*FIRST, *NEW])
        ends.callback(self.instruments.process.kill)
        with open(f"{folder}/ports", "w", encoding="ascii") as file:
            for name in names:
                print(name, self.instruments.ports[RENAMED.get(name, name)], file=file)
        self.writes(self.model.text())
        self.machines = [Machine(at, net, folder, args.lease, self.more(at)) for at in range(1, MACHINES + 1)]
        for it in self.machines:
            ends.callback(it.ends)
        self.addresses = ",".join(f"{NET}.{it}:7443" for it in range(1, MACHINES + 1))
        self.by_web = ",".join(f"{NET}.{it}:7444" for it in range(1, MACHINES + 1))
        self.tls = ssl.create_default_context(cafile=f"{folder}/certificate")
        self.etcd = Etcd([f"{NET}.{it}:2379" for it in range(1, MACHINES + 1)])
        self.lock, self.listening = threading.Lock(), Listening(self.etcd, self.tls)
        self.outcomes = collections.Counter[str]()
        self.faults = list[str]()
        self.told, self.over, self.released, self.idle = dict[int, str](), set[int](), set[int](), dict[int, float]()
        self.records = dict[int, bytes]()
        # which session each program is in, as far as it was told
        self.at = dict[int, int]()
        # until when each instrument is out of order, and each person was cut off
        self.out, self.cut = dict[str, float](), dict[str, float]()
        self.given, self.given_upto, self.is_evening, self.is_done = 0, 0, True, False

    def more(self, at: int) -> list[str]:
        unix = f"unix:{self.folder}/bay-{at}.sock"
        words = ["--listen", unix, "--http", f"{unix}.http", "--http", f"{NET}.{at}:7444", "--group", USERS, "--grace", str(GRACE)]
        return [*words, "--page", "127.0.0.1:8080", "--state", f"{self.folder}/state-{at}"]

    def writes(self, text: str) -> None:
        with open(f"{self.folder}/bay.new", "w", encoding="ascii") as file:
            file.write(text)
        os.rename(f"{self.folder}/bay.new", f"{self.folder}/bay.toml")

    def fault(self, text: str) -> None:
        with self.lock:
            self.faults.append(text)
        print(f"FAULT: {text}", flush=True)

    def leader(self) -> Optional[Machine]:
        try:
            found = list(self.etcd.all_of(b"/labrun/lab/leader"))
        except (NoAnswer, EtcdError):
            return None
        return self.machines[int(found[0].value.split(b":")[0].split(b".")[-1]) - 1] if found else None

    # as somebody

    def began(self, person: str, words: list[str], where: str = "", **more: Any) -> subprocess.Popen[Any]:
        env = {"PATH": os.environ["PATH"], "PYTHONPATH": ".:../python", "PYTHONDONTWRITEBYTECODE": "1", "PYTHONFAULTHANDLER": "1", "USER": person, "LOGNAME": person}
        env |= {"LABRUN_LIBRARY": os.environ["LABRUN_LIBRARY"], "LABRUN_BROKER_TOKEN_FILE": f"{self.folder}/{person}.token", "LABRUN_BROKER": where or self.addresses}
        # (by a program that becomes it: Popen's own `user` forks, and gRPC's threads are in the way of that)
        becomes = ["setpriv", "--reuid", str(uid_of(person)), "--regid", str(GROUP), "--clear-groups", "--"]
        return subprocess.Popen([*becomes, *words], start_new_session=True, env=env, **more)

    def command(self, person: str, *words: str) -> tuple[int, str]:
        """labrun-broker, by somebody."""
        pipes = {"stdout": subprocess.PIPE, "stderr": subprocess.PIPE, "stdin": subprocess.DEVNULL, "text": True}
        one = self.began(person, [*COMMAND, *words, "--certificate", f"{self.folder}/certificate"], **pipes)
        try:
            out, err = one.communicate(timeout=90)
        except subprocess.TimeoutExpired:
            one.kill()
            self.fault(f"{words} hangs")
            return -1, ""
        for text in (out, err):
            self.said.add(f"labrun-broker {words[0]}", text)
        return one.returncode, out + err

    def does(self, person: str, *words: str) -> tuple[int, str]:
        """The same, and again while no broker answers, or none can write it, as when another one begins to lead. It may be done by then."""
        end, times = time.monotonic() + LONG, 1
        while (told := self.command(person, *words))[0] in (69, 74) and time.monotonic() < end:
            times += 1
            time.sleep(2)
        return (0, told[1]) if times > 1 and told[0] == 1 else told

    def asks(self, person: str, method: str, path: str, body: Any = None) -> Any:
        """By HTTP. None: nobody answers, or a broker that ends."""
        with open(f"{self.folder}/{person}.token", encoding="ascii") as file:
            heads = {"Authorization": f"Bearer {file.read().strip()}"}
        for address in self.by_web.split(","):
            request = urllib.request.Request(f"https://{address}{path}", None if body is None else json.dumps(body).encode(), heads, method=method)
            try:
                with urllib.request.urlopen(request, timeout=40, context=self.tls) as answer:
                    return json.load(answer)
            except urllib.error.HTTPError as fault:
                if fault.code != 503:
                    return json.load(fault)
            except (OSError, ValueError, http.client.HTTPException):
                pass
        return None

    def status(self) -> dict[str, Any]:
        found: dict[str, Any] = until(lambda: (it := self.asks("ana", "GET", "/v1/status")) and "stations" in it and it, "a broker answers")
        return found

    # the records

    def reads_records(self) -> None:
        for it in until(self._kept, "etcd answers"):
            self.records[int(it.key.rpartition(b"/")[2])] = it.value

    def _kept(self) -> list[Any]:
        try:
            return list(self.etcd.all_of(b"/labrun/lab/records/"))
        except (NoAnswer, EtcdError):
            return []
