"""A week of a lab: 60 instruments, that refuse and count a second client, 40 people, three machines with a broker and a member of etcd each, and
programs of every kind on a fourth.

usage: python3 -m tests.week [SESSIONS] [--seed N] [--folder FOLDER]
       so many sessions (10000), a seventh of them each day; run in bindings/broker by root: the machines are network namespaces

Each morning an operator changes the bay. Instruments are put out of order, and back; people ask by Python, HTTP, `labrun-broker hold` and
`labrun-hold`, note and let go. Some programs are killed, stopped, or cut off; some hold for too long, and an operator releases some. On the third
day the machine that leads is lost until the next morning, on the fifth its broker is killed.

At the end no instrument has refused anybody, no session that was told it holds was lost, each program ended as docs/broker.md has it for what
happened to it, everybody can hold everything, and the records have one beginning and one end of each session. Every sentence that somebody saw is in
FOLDER/sentences.txt."""

from __future__ import annotations

import argparse
import collections
import contextlib
import html
import json
import os
import re
import shutil
import signal
import subprocess
import sys
import tempfile
import time
import urllib.parse
from typing import Iterator

from tests.brokers import TOP
from tests.machines import MACHINES, Machine, Net, until, why_not

os.environ |= {"GRPC_VERBOSITY": "NONE", "GRPC_ENABLE_FORK_SUPPORT": "0"}
from tests.week_life import Mornings, Operator  # noqa: E402
from tests.week_seats import Seat  # noqa: E402
from tests.week_world import DAYS, LONG, SEATS, Lab  # noqa: E402


@contextlib.contextmanager
def seated(lab: Lab) -> Iterator[list[Seat]]:
    seats = [Seat(lab, at) for at in range(SEATS)]
    try:
        yield seats
    finally:
        lab.is_done = True
        for it in seats:
            it.ends(20.0 if all(it.is_home for it in seats) else 0.0)


def night(lab: Lab, seats: list[Seat], day: int) -> None:
    """Whoever is in line gets its turn."""
    lab.is_evening = True
    until(lambda: all(it.is_home for it in seats), f"everybody is home on day {day}")
    until(lambda: not lab.status()["in_line"] and all(it["state"] == "idle" for it in lab.status()["stations"]), "nobody holds or waits at night")
    lab.reads_records()


def page_of(lab: Lab) -> None:
    """What a browser shows of the page."""
    at = lab.leader()
    if at is None or not shutil.which("chromium"):
        return
    words = ["ip", "netns", "exec", lab.net.names[at.at - 1], "chromium", "--headless", "--no-sandbox", "--disable-gpu", f"--user-data-dir={lab.folder}/browser"]
    with contextlib.suppress(subprocess.TimeoutExpired):
        ran = subprocess.run([*words, "--timeout=3000", "--dump-dom", "http://127.0.0.1:8080/"], capture_output=True, text=True, timeout=40)
        text = re.sub(r"(?s)<(style|script|svg).*?</\1>", "", ran.stdout)
        labels = re.findall(r'(?:aria-label|title|alt)="([^"]+)"', text)
        lab.said.add("the page", "\n".join([*labels, html.unescape(re.sub(r"\s*<[^>]*>\s*", "\n", text))]))


def week(lab: Lab) -> None:
    until(lab.leader, "a broker leads")
    until(lambda: lab.asks("ana", "GET", "/v1/status"), "it answers")
    mornings, lost = Mornings(lab), None
    with seated(lab) as seats, Operator(lab):
        for day in range(1, DAYS + 1):
            begun, upto = time.monotonic(), lab.args.sessions * day // DAYS
            before = lab.given
            if lost is not None:
                lab.net.switch(lost.at, "up")
                lost.may_begin, lost = 0.0, None
            with lab.lock:
                lab.given_upto, lab.is_evening = upto, False
            mornings.comes(day)
            until_given(lab, before + (upto - before) // 2)
            if day in (3, 5):
                at: Machine = until(lab.leader, "somebody leads")
                if day == 3:
                    lost, at.may_begin = at, float("inf")
                    lab.net.switch(at.at, "down")
                    at.broker.kill()
                    at.etcd.kill()
                else:
                    at.broker.kill()
                print(f"day {day}: machine {at.at} is {'lost' if day == 3 else 'killed'}", flush=True)
            if day in (1, 4):
                page_of(lab)
            until_given(lab, upto)
            night(lab, seats, day)
            lab.said.write(f"{lab.to}/sentences.txt")
            print(f"day {day}: {lab.given} sessions, {len(lab.faults)} faults, {time.monotonic() - begun:.0f} s", flush=True)


def until_given(lab: Lab, upto: int) -> None:
    last, since = lab.given, time.monotonic()
    while lab.given < upto:
        time.sleep(0.1)
        if lab.given != last:
            last, since = lab.given, time.monotonic()
        elif time.monotonic() > since + LONG:
            raise AssertionError(f"nothing goes on after {lab.given} sessions")


def everybody_can_hold_everything(lab: Lab) -> None:
    for person in lab.model.people:
        its, ticket = lab.model.allowed(person), f"the last one of {person:24}"
        wish = {"instruments": its, "ticket": ticket}
        told = until(lambda: (it := lab.asks(person, "POST", "/v1/sessions?wait=30", wish)) and it.get("state") != "waiting" and it, f"{person} is answered")
        if told.get("state") != "holding":
            lab.fault(f"{person} can't hold {len(its)} instruments: {told}")
        until(lambda: lab.asks(person, "DELETE", f"/v1/sessions/{urllib.parse.quote(ticket)}"), f"{person} has let go")


def look_at_records(lab: Lab) -> None:
    lab.reads_records()
    text = b"".join(lab.records[at] for at in sorted(lab.records))
    count: dict[int, collections.Counter[str]] = collections.defaultdict(collections.Counter)
    for line in text.splitlines():
        it = json.loads(line)
        if it["session"] is not None:
            count[it["session"]][it["what"]] += 1
    print(f"{sum(map(len, lab.records.values()))} bytes of records, {len(count)} sessions, {sum(it['held'] for it in count.values())} that held", flush=True)
    ends = ("let_go", "failed", "taken")
    for number, it in count.items():
        # (a client that was gone as its session came to hold wasn't told of it)
        over = sum(it[end] for end in ends) + (it["gave_up"] if number not in lab.told else 0)
        if it["held"] > 1 or it["held"] and over != 1:
            lab.fault(f"the records have of session {number}: {dict(it)}")
    for number, of in lab.told.items():
        if not count[number]["held"]:
            lab.fault(f"session {number} was told that it holds ({of}), and no record has it")


def main() -> int:
    parser = argparse.ArgumentParser(usage=__doc__)
    parser.add_argument("sessions", type=int, nargs="?", default=10000)
    parser.add_argument("--seed", type=int, default=1)
    parser.add_argument("--lease", type=int, default=5)
    parser.add_argument("--folder")
    args = parser.parse_args()
    if why := why_not() or ("" if shutil.which("cc") and shutil.which("setpriv") else "there is no compiler of C, or no setpriv"):
        print(f"left out: {why}")
        return 0
    signal.signal(signal.SIGTERM, lambda *_: sys.exit(1))
    to = args.folder or tempfile.mkdtemp(prefix="labrun-week-")
    os.makedirs(to, exist_ok=True)
    with contextlib.ExitStack() as ends:
        folder = ends.enter_context(tempfile.TemporaryDirectory(dir="/dev/shm" if os.path.isdir("/dev/shm") else None))
        os.chmod(folder, 0o755)
        subprocess.run(["cc", "-O1", "-o", f"{folder}/labrun-hold", f"{TOP}/bindings/hold/labrun-hold.c", "-lm"], check=True)
        begun = time.monotonic()
        net = Net(ends)
        from tests.machines import keys_in

        keys_in(folder)
        os.chmod(f"{folder}/certificate", 0o644)
        lab = Lab(net, folder, args, ends)
        lab.to = to
        try:
            week(lab)
            everybody_can_hold_everything(lab)
            look_at_records(lab)
        except (AssertionError, SystemExit) as fault:
            lab.fault(f"it was ended: {fault}")
            with contextlib.suppress(Exception):
                print(lab.command("ana", "status")[1][-6000:])
        lab.is_done = True
        for at in range(1, MACHINES + 1):
            with open(f"{folder}/broker-{at}.out", encoding="utf-8", errors="replace") as file:
                lab.said.add("the broker", file.read())
            shutil.copy(f"{folder}/broker-{at}.out", f"{to}/broker-{at}.out")
        lab.said.write(f"{to}/sentences.txt")
        lab.instruments.close()
        talks = sum(it for it, _ in lab.instruments.counts.values())
        for kind, count in sorted(lab.outcomes.items()):
            print(f"{count:7}  {kind}")
        print(f"{len(lab.said.count)} sentences: {to}/sentences.txt")
        refused = lab.instruments.refused
        print(f"{lab.given} sessions, {len(lab.told)} told that they hold, {talks} talks, {refused} refused, {len(lab.faults)} faults, {time.monotonic() - begun:.0f} s")
        return 1 if refused or lab.faults else 0


if __name__ == "__main__":
    sys.exit(main())
