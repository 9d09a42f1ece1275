"""A program of one person of the lab's week (week.py): for each line of JSON on standard input a session, in Python or by HTTP; what happens to it
is told on standard output, a line of JSON each."""

from __future__ import annotations

import contextlib
import http.client
import json
import os
import secrets
import socket
import ssl
import sys
import threading
import time
import urllib.error
import urllib.parse
import urllib.request
from typing import Any, Iterator

import labrun
import labrun_broker
from tests.brokers import TOP

sys.path.insert(0, f"{TOP}/examples/broker")
from instruments import Busy, Talk  # type: ignore[import]  # noqa: E402

Plan = dict[str, Any]
AWAY = 60.0  # seconds for which who asks by HTTP tries to reach a broker again
WAIT = 5


def tell(**what: Any) -> None:
    os.write(1, json.dumps(what).encode() + b"\n")


def port_of(folder: str, name: str) -> int:
    with open(f"{folder}/ports", encoding="ascii") as file:
        return int(dict(line.split() for line in file)[name])


class Worked(Exception):
    """The work failed, as it may."""


@contextlib.contextmanager
def at_them(folder: str, plan: Plan, names: tuple[str, ...], token: int) -> Iterator[None]:
    """At its instruments, each of which says so if somebody else is, and keeps the token of whoever was there last. (0: a test knows none.)"""
    talks = []
    try:
        for name in names:
            try:
                talks.append(Talk(port_of(folder, name)))
            except Busy:
                tell(what="busy", id=plan["id"], name=name)
                continue
            if token and int(talks[-1].ask("READ?")) >= token:
                tell(what="late", id=plan["id"], name=name)
            if token:
                talks[-1].ask(f"SET {token}")
        yield
    finally:
        for talk in talks:
            talk.__exit__()


def works(folder: str, plan: Plan, names: tuple[str, ...], token: int, over: threading.Event, notes: Any) -> None:
    """What is done while it holds: it leaves the instruments before it only holds on."""
    with at_them(folder, plan, () if plan["is_away"] else names, token):
        over.wait(plan["work"])
        if plan["note"] and not over.is_set():
            notes(plan["note"])
        if plan["fails"]:
            raise Worked("the fuse of channel 2 is blown")
    if plan["idle"]:
        tell(what="idle", id=plan["id"])
        over.wait(plan["idle"])


def in_python(lab: labrun_broker.Lab, folder: str, plan: Plan) -> None:
    over = threading.Event()

    def warned(text: str) -> None:
        tell(what="warned", id=plan["id"], text=text)
        if not plan["idle"]:
            over.set()

    def taken(fault: Exception) -> None:
        over.set()
        tell(what="taken", id=plan["id"], text=str(fault))

    held = lab.hold(*plan["words"], any_of=plan["any_of"], timeout=plan["timeout"], station=plan["station"], limit=plan["limit"], warns=warned,
                    waits=lambda text: tell(what="waits", id=plan["id"], text=text))  # fmt: skip
    held.on_taken = taken
    with held:
        tell(what="held", id=plan["id"], station=held.station, number=held.number, instruments=held.instruments)
        works(folder, plan, held.instruments, held.token, over, held.note)


class Refused(Exception):
    """An answer that says no."""

    def __init__(self, told: dict[str, Any]) -> None:
        super().__init__(told["text"])
        self.kind = told["kind"]


class Asking:
    """By HTTP, at the broker that answers."""

    def __init__(self, addresses: list[str], token: str, certificate: str) -> None:
        self._addresses, self._token, self._at = addresses, token, 0
        self._tls = ssl.create_default_context(cafile=certificate)

    def ask(self, method: str, path: str, body: Any = None) -> dict[str, Any]:
        end = time.monotonic() + AWAY
        while True:
            try:
                return self._asks(method, path, body)
            except (OSError, ValueError, http.client.HTTPException) as fault:
                if time.monotonic() > end:
                    raise Refused({"kind": "nobody answers", "text": str(fault)}) from None
                self._at += 1
                time.sleep(0.2)

    def _asks(self, method: str, path: str, body: Any) -> dict[str, Any]:
        address = self._addresses[self._at % len(self._addresses)]
        given = None if body is None else json.dumps(body).encode()
        request = urllib.request.Request(f"https://{address}{path}", given, {"Authorization": f"Bearer {self._token}"}, method=method)
        try:
            with urllib.request.urlopen(request, timeout=WAIT + 5, context=self._tls) as answer:
                return dict(json.load(answer))
        except urllib.error.HTTPError as fault:
            told = json.load(fault)
            if fault.code == 503:
                tell(what="told", text=told["text"])
                raise ConnectionError(told["text"]) from None
            raise Refused(told) from None


def by_http(asking: Asking, folder: str, person: str, plan: Plan) -> None:
    ticket, over = secrets.token_hex(16), threading.Event()
    wish = {"ticket": ticket, "by": f"{person}@{socket.gethostname()} {os.getpid()} urllib", "timeout": plan["timeout"], "limit": plan["limit"]}
    wish |= {"any_of": plan["any_of"]} if plan["any_of"] else {"instruments": plan["words"]}
    wish |= {"station": plan["station"]} if plan["station"] else {}
    last, path = "", f"/v1/sessions/{ticket}"
    while (it := asking.ask("POST", f"/v1/sessions?wait={WAIT}", wish))["state"] == "waiting":
        if it["text"] != last:
            last = it["text"]
            tell(what="waits", id=plan["id"], text=last)
    tell(what="held", id=plan["id"], station=it["station"], number=it["session"], instruments=it["instruments"])
    ended = threading.Event()

    def pings() -> None:
        while not ended.wait(min(2.0, it["ping"])):
            try:
                told = asking.ask("POST", f"{path}/ping")
            except Refused as fault:
                tell(what="told", id=plan["id"], text=str(fault))
                return over.set()
            if told.get("warning"):
                tell(what="warned", id=plan["id"], text=told["warning"])

    threading.Thread(target=pings, daemon=True).start()
    failed = ""
    try:
        works(folder, plan, tuple(it["instruments"]), it["token"], over, lambda text: asking.ask("POST", f"{path}/notes", {"text": text}))
    except Worked as fault:
        failed = f"?failed={urllib.parse.quote(str(fault))}"
    finally:
        ended.set()
    asking.ask("DELETE", path + failed)
    if failed:
        raise Worked


def main() -> None:
    addresses, by_web, folder, person = sys.argv[1:]
    token, certificate = f"{folder}/{person}.token", f"{folder}/certificate"
    with open(token, encoding="ascii") as file:
        asking = Asking(by_web.split(","), file.read().strip(), certificate)
    lab = None
    for line in sys.stdin:
        plan = json.loads(line)
        try:
            if plan["kind"] == "http":
                by_http(asking, folder, person, plan)
            else:
                lab = lab or labrun_broker.connect(addresses, token_file=token, certificate_file=certificate)
                in_python(lab, folder, plan)
        except Worked:
            tell(what="end", id=plan["id"], outcome="failed", text="")
        except Refused as fault:
            tell(what="end", id=plan["id"], outcome=fault.kind, text=str(fault))
        except labrun.LabrunError as fault:
            tell(what="end", id=plan["id"], outcome=type(fault).__name__, text=str(fault))
        except Exception as fault:
            tell(what="end", id=plan["id"], outcome="fault", text=f"{type(fault).__name__}: {fault}")
        else:
            tell(what="end", id=plan["id"], outcome="done", text="")


if __name__ == "__main__":
    main()
