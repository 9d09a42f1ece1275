"""Three machines, each with a member of etcd and a broker that stands by for the others, and faults at random, while some programs on a fourth
share instruments that refuse, and count, a second client.

usage: python3 -m tests.machines [FAULTS] [--seed N] [--lease SECONDS] [--only KIND] [--disk] [--safe]
       so many faults (100), run in bindings/broker by root: the machines are network namespaces

A fault ends the broker that leads by `kill -9` or SIGTERM, stops it for longer than its lease, cuts its machine off for as long, or only from
the other two (`blind`: clients reach it, and its member of etcd reaches nobody), kills all of its machine and cuts it off (`dead`), or kills a
member of etcd; each is there again soon after. A program takes some instruments, talks to all of them at once, notes, and lets go. No
instrument may refuse; no program may fail; and at the end everybody can hold everything. It tells for each kind how long it took from the
fault until a program held. What etcd writes is in memory (/dev/shm), unless --disk says otherwise. With --safe only what an instrument refuses counts, as on a machine
that is too slow or too busy for leases of some seconds: there it may take long, and programs may give up."""

from __future__ import annotations

import argparse
import collections
import contextlib
import ctypes
import json
import os
import random
import shutil
import signal
import statistics
import subprocess
import sys
import tempfile
import threading
import time
from typing import Any, Callable, Optional, Sequence

import labrun
import labrun_broker
from labrun_broker.etcd import Etcd, EtcdError, NoAnswer
from tests.brokers import COMMAND, TOP

sys.path.insert(0, f"{TOP}/examples/broker")
from instruments import Bay  # type: ignore[import]  # noqa: E402

NAMES = [f"instrument-{at}" for at in range(6)]
PROGRAMS, MACHINES = 6, 3
BAY = f'bay = "north"\ninstruments = {json.dumps(NAMES)}\n[guests]\ncount = {PROGRAMS + 1}\n'
KINDS = {"kill": 3, "end": 2, "stop": 3, "cut": 3, "blind": 3, "dead": 2, "etcd": 2}  # and how often each of them comes
NET, HERE = "10.78.0", 9
LONG = 180.0  # seconds, within which somebody holds after a fault, on a machine that is busy with other things
CLONE_NEWNET = 0x40000000

# it says `held MOMENT` and `did SESSION` of each session
PROGRAM = """
import os, random, sys, time
sys.path.insert(0, sys.argv[1])
import labrun_broker
from instruments import Talk
addresses, folder, seed, ports = sys.argv[2], sys.argv[3], sys.argv[4], dict(it.split("=") for it in sys.argv[5:])
chance = random.Random(seed)
with labrun_broker.connect(addresses, token_file=f"{folder}/token", certificate_file=f"{folder}/certificate") as lab:
    while not os.path.exists(f"{folder}/over"):
        with lab.hold(*chance.sample(sorted(ports), chance.randint(1, 3))) as held:
            os.write(1, f"held {time.monotonic()}\\n".encode())
            talks = [Talk(int(ports[name])) for name in held.instruments]
            for talk in talks:
                talk.ask("ADD 1")
            time.sleep(chance.random() ** 3 * 4)
            if chance.random() < 0.2:
                held.note("a reading")
            for talk in talks:
                talk.__exit__()
        os.write(1, f"did {held.number}\\n".encode())
"""


def until(is_so: Callable[[], Any], what: str) -> Any:
    end = time.monotonic() + LONG
    while not (found := is_so()):
        if time.monotonic() > end:
            raise AssertionError(f"{what} isn't so after {LONG:g} s")
        time.sleep(0.05)
    return found


def ip(*words: str) -> None:
    subprocess.run(["ip", *words], check=True, capture_output=True, timeout=30)


class Net:
    """A namespace for each machine, and one for the programs, in which this process is from then on; a bridge joins them."""

    def __init__(self, ends: contextlib.ExitStack) -> None:
        self.names = [f"labrun-{at}-{os.getpid()}" for at in range(1, MACHINES + 1)]
        here = f"labrun-{HERE}-{os.getpid()}"
        for name in (here, *self.names):
            ip("netns", "add", name)
            ends.callback(ip, "netns", "del", name)
            ip("-n", name, "link", "set", "lo", "up")
        ip("-n", here, "link", "add", "bridge", "type", "bridge")
        ip("-n", here, "address", "add", f"{NET}.{HERE}/24", "dev", "bridge")
        ip("-n", here, "link", "set", "bridge", "up")
        for at, name in enumerate(self.names, 1):
            ip("link", "add", f"to{at}", "netns", here, "type", "veth", "peer", "name", "eth", "netns", name)
            ip("-n", here, "link", "set", f"to{at}", "master", "bridge", "up")
            ip("-n", name, "address", "add", f"{NET}.{at}/24", "dev", "eth")
            ip("-n", name, "link", "set", "eth", "up")
        with open(f"/run/netns/{here}", encoding="ascii") as file:
            if ctypes.CDLL(None, use_errno=True).setns(file.fileno(), CLONE_NEWNET):
                raise OSError(ctypes.get_errno(), "setns")

    def switch(self, at: int, how: str) -> None:
        ip("link", "set", f"to{at}", how)

    def blinds(self, at: int, how: str) -> None:
        """`add`: it reaches no other machine, and all programs; `del`: it does again."""
        for other in range(1, MACHINES + 1):
            if other != at:
                ip("-n", self.names[at - 1], "route", how, "blackhole", f"{NET}.{other}/32")


class Machine:
    """A member of etcd and a broker. Whatever ended is begun anew, as by systemd."""

    def __init__(self, at: int, net: Net, folder: str, lease: int, more: Sequence[str] = ()) -> None:
        self.at, self.folder, self._in = at, folder, ["ip", "netns", "exec", net.names[at - 1]]
        cluster = ",".join(f"m{it}=http://{NET}.{it}:2380" for it in range(1, MACHINES + 1))
        mine, peer = f"http://{NET}.{at}:2379", f"http://{NET}.{at}:2380"
        self._etcd = ["etcd", "--name", f"m{at}", "--data-dir", f"{folder}/etcd-{at}", "--listen-client-urls", mine, "--advertise-client-urls", mine]
        self._etcd += ["--listen-peer-urls", peer, "--initial-advertise-peer-urls", peer, "--initial-cluster", cluster, "--pre-vote"]
        tls = ["--tls-certificate", f"{folder}/certificate", "--tls-key", f"{folder}/key", "--token-file", f"{folder}/token"]
        where = ",".join(f"{NET}.{it}:2379" for it in range(1, MACHINES + 1))
        self._serve = [*COMMAND, "serve", f"{folder}/bay.toml", "--listen", f"{NET}.{at}:7443", *tls, "--etcd", where, "--lease", str(lease), *more]
        self.etcd, self.broker = self._begins("etcd"), self._begins("broker")
        self.is_over, self.may_begin = False, 0.0
        threading.Thread(target=self._watches, daemon=True).start()

    def _begins(self, what: str) -> subprocess.Popen[bytes]:
        with open(f"{self.folder}/{what}-{self.at}.out", "ab") as out:
            words = self._etcd if what == "etcd" else self._serve
            # (in a session of its own: Linux shares out the processors by sessions, and these are machines of their own)
            return subprocess.Popen([*self._in, *words], stdout=out, stderr=out, stdin=subprocess.DEVNULL, start_new_session=True)

    def _watches(self) -> None:
        while not self.is_over:
            if time.monotonic() > self.may_begin:
                if self.broker.poll() is not None:
                    self.broker = self._begins("broker")
                if self.etcd.poll() is not None:
                    self.etcd = self._begins("etcd")
            time.sleep(0.1)

    def ends(self) -> None:
        self.is_over = True
        time.sleep(0.3)
        for it in (self.broker, self.etcd):
            it.send_signal(signal.SIGCONT)
            it.kill()
            it.wait()


class Programs:
    """Each is begun anew if it fails, and that is counted."""

    def __init__(self, folder: str, addresses: str, bay: Any) -> None:
        self._folder, self._words = folder, [f"{TOP}/examples/broker", addresses, folder]
        self._ports = [f"{name}={port}" for name, port in bay.ports.items()]
        self.failed, self.count, self.holds, self.done = list[str](), 0, list[float](), set[str]()
        # sessions that two programs did
        self.twice = list[str]()
        self._lock = threading.Lock()
        self.running = [self._begun() for _ in range(PROGRAMS)]

    def _begun(self) -> subprocess.Popen[str]:
        self.count += 1
        words = [sys.executable, "-c", PROGRAM, *self._words, str(self.count), *self._ports]
        with open(f"{self._folder}/faults-{self.count}", "wb") as faults:
            one = subprocess.Popen(words, stdout=subprocess.PIPE, stderr=faults, text=True)
        threading.Thread(target=self._reads, args=(one,), daemon=True).start()
        return one

    def _reads(self, one: subprocess.Popen[str]) -> None:
        assert one.stdout is not None
        for line in one.stdout:
            word, value = line.split()
            with self._lock:
                if word == "held":
                    self.holds.append(float(value))
                else:
                    if value in self.done:
                        self.twice.append(value)
                    self.done.add(value)

    def look(self) -> None:
        for at, it in enumerate(self.running):
            if it.poll() is not None:
                number = self.count
                self.failed.append(f"status {it.returncode}, {number}")
                self.running[at] = self._begun()

    def next_hold(self, moment: float) -> Optional[float]:
        with self._lock:
            return next((it for it in self.holds[-100:] if it > moment), None)

    def end(self) -> None:
        """Each does the session that it is in."""
        open(f"{self._folder}/over", "w", encoding="ascii").close()
        for it in self.running:
            try:
                status = it.wait(LONG)
            except subprocess.TimeoutExpired:
                status = "none, for it hangs"
                it.kill()
            if status:
                self.failed.append(f"status {status} at the end")


class Day:
    """The faults."""

    def __init__(self, net: Net, machines: list[Machine], programs: Programs, args: argparse.Namespace) -> None:
        self.net, self.machines, self.programs, self.args = net, machines, programs, args
        self.chance = random.Random(args.seed)
        self.client = Etcd([f"{NET}.{it}:2379" for it in range(1, MACHINES + 1)])
        self.spans = collections.defaultdict[str, list[float]](list)

    def leader(self) -> Optional[Machine]:
        try:
            found = list(self.client.all_of(b"/labrun/north/leader"))
        except (NoAnswer, EtcdError):
            return None
        return self.machines[int(found[0].value.split(b":")[0].split(b".")[-1]) - 1] if found else None

    def fault(self, number: int) -> None:
        kind = self.args.only or self.chance.choices(list(KINDS), list(KINDS.values()))[0]
        at: Machine = until(self.leader, "somebody leads")
        begun, away = time.monotonic(), self.args.lease + 0.6 + self.chance.random() * 2
        if kind in ("kill", "end"):
            at.broker.send_signal(signal.SIGKILL if kind == "kill" else signal.SIGTERM)
        elif kind == "stop":
            stopped = at.broker
            stopped.send_signal(signal.SIGSTOP)
            time.sleep(away)
            stopped.send_signal(signal.SIGCONT)
        elif kind == "cut":
            self.net.switch(at.at, "down")
            time.sleep(away)
            self.net.switch(at.at, "up")
        elif kind == "blind":
            self.net.blinds(at.at, "add")
            time.sleep(away)
            self.net.blinds(at.at, "del")
        elif kind == "dead":
            self.net.switch(at.at, "down")
            at.may_begin = begun + away
            at.broker.kill()
            at.etcd.kill()
            time.sleep(away)
            self.net.switch(at.at, "up")
        else:
            at = self.chance.choice(self.machines)
            at.may_begin = begun + 1 + self.chance.random()
            at.etcd.kill()
        held = until(lambda: self.programs.next_hold(begun), f"{kind} of machine {at.at}: that one holds")
        self.spans[kind].append(held - begun)
        print(f"{number}: {kind} of machine {at.at}: {held - begun:.1f} s until one held, {len(self.programs.failed)} failed", flush=True)
        time.sleep(self.chance.random() * 2)
        self.programs.look()

    def tells(self) -> None:
        for kind, spans in sorted(self.spans.items()):
            print(f"{kind}: {len(spans)} times; until one held: median {statistics.median(spans):.1f} s, largest {max(spans):.1f} s")


def keys_in(folder: str) -> None:
    names = ",".join(f"IP:{NET}.{it}" for it in range(1, MACHINES + 1))
    words = ["openssl", "req", "-x509", "-newkey", "ec", "-pkeyopt", "ec_paramgen_curve:prime256v1", "-nodes", "-days", "2", "-subj", "/CN=brokers"]
    words += ["-addext", f"subjectAltName={names}", "-keyout", f"{folder}/key", "-out", f"{folder}/certificate"]
    subprocess.run(words, check=True, capture_output=True)
    for name, text in (("token", "a token that nobody knows\n"), ("bay.toml", BAY)):
        with open(os.open(f"{folder}/{name}", os.O_WRONLY | os.O_CREAT, 0o600), "w", encoding="ascii") as file:
            file.write(text)


def why_not() -> str:
    if os.geteuid() != 0:
        return "network namespaces need root"
    lacks = [name for name in ("ip", "etcd", "openssl") if not shutil.which(name)]
    if lacks:
        return f"there is no {', '.join(lacks)}"
    name = f"labrun-try-{os.getpid()}"
    try:
        ip("netns", "add", name)
        ip("netns", "del", name)
    except subprocess.CalledProcessError as fault:
        return f"no network namespaces can be made: {fault.stderr.decode().strip()}"
    return ""


def main() -> int:
    parser = argparse.ArgumentParser(usage=__doc__)
    parser.add_argument("faults", type=int, nargs="?", default=100)
    parser.add_argument("--seed", type=int, default=1)
    parser.add_argument("--lease", type=int, default=5)
    parser.add_argument("--only", choices=tuple(KINDS))
    parser.add_argument("--disk", action="store_true")
    parser.add_argument("--safe", action="store_true")
    args = parser.parse_args()
    if why := why_not():
        print(f"left out: {why}")
        return 0
    # (what it made is taken away, however it ends)
    signal.signal(signal.SIGTERM, lambda *_: sys.exit(1))
    with contextlib.ExitStack() as ends:
        folder = ends.enter_context(tempfile.TemporaryDirectory(dir=None if args.disk or not os.path.isdir("/dev/shm") else "/dev/shm"))
        net = Net(ends)
        keys_in(folder)
        machines = [Machine(at, net, folder, args.lease) for at in range(1, MACHINES + 1)]
        for it in machines:
            ends.callback(it.ends)
        bay = Bay(NAMES)
        ends.callback(bay.process.kill)
        addresses = ",".join(f"{NET}.{it}:7443" for it in range(1, MACHINES + 1))
        day: Optional[Day] = None
        programs = Programs(folder, addresses, bay)
        ends.callback(lambda: [it.kill() for it in programs.running])
        fault = ""
        try:
            until(lambda: programs.next_hold(0.0), "one holds")
            day = Day(net, machines, programs, args)
            for number in range(1, args.faults + 1):
                day.fault(number)
            programs.end()
            with labrun_broker.connect(addresses, token_file=f"{folder}/token", certificate_file=f"{folder}/certificate") as lab:
                with lab.hold(*NAMES, timeout=60):
                    pass
        except (AssertionError, labrun.LabrunError) as it:
            fault = f"{type(it).__name__}: {it}"
        refused = tells(folder, bay, day, programs, fault)
        return status_of(refused, len(programs.done), bool(programs.failed or fault), args.safe)


def status_of(refused: int, sessions: int, is_fault: bool, is_safe: bool) -> int:
    """Nobody who never held is refused: such a run says nothing, and isn't safe."""
    return 1 if refused or not sessions or is_fault and not is_safe else 0


def tells(folder: str, bay: Any, day: Optional[Day], programs: Programs, fault: str) -> int:
    """How many talks were refused, and sessions done twice."""
    bay.process.stdin.close()
    counts = [line.split() for line in bay.process.stdout if line.strip()]
    talks, refused = (sum(int(it[at]) for it in counts) for at in (2, 4))
    if day is not None:
        day.tells()
    whys = collections.Counter(line.partition(": ends: ")[2] for at in range(1, MACHINES + 1) for line in open(f"{folder}/broker-{at}.out", encoding="utf-8"))
    print("brokers that ended by themselves:", ", ".join(f"{count} ({why.strip()})" for why, count in whys.items() if why) or "none")
    for name in sorted(os.listdir(folder)):
        if name.startswith("faults-") and os.path.getsize(f"{folder}/{name}") or fault and name.startswith("broker-"):
            with open(f"{folder}/{name}", encoding="utf-8", errors="replace") as file:
                print(f"{name}: {file.read()[-2000:]}")
    ends = f"{len(programs.twice)} done twice, {len(programs.failed)} programs failed{': ' if fault else ''}{fault}"
    print(f"{len(programs.done)} sessions, {talks} talks, {refused} refused, {ends}")
    return refused + len(programs.twice)


if __name__ == "__main__":
    sys.exit(main())
