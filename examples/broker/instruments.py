"""Instruments to try a broker on: TCP servers on loopback, each for one client at a time.

usage: python3 instruments.py NAME ..      prints a line `NAME PORT` for each, then an empty line, and serves until standard input ends;
                                           then a line `NAME talks T refused R` for each

An instrument reads lines: `*IDN?` is answered by its name, `SET n` and `ADD n` turn its dial and answer `OK`, `READ?` answers the dial,
`BYE` answers `OK` and ends the talk. Who connects while another client's talk isn't over is told `BUSY`, and counted: so two stations that
use one instrument at once are seen from outside."""

from __future__ import annotations

import select
import selectors
import socket
import subprocess
import sys
from typing import Optional


class Instrument:
    """One instrument: its socket, its dial, and the client it talks with."""

    def __init__(self, name: str) -> None:
        self.name = name
        self.listening = socket.create_server(("127.0.0.1", 0), backlog=64)
        self.client: Optional[socket.socket] = None
        self.rest = b""
        self.dial, self.talks, self.refused = 0, 0, 0

    def answer(self, line: bytes) -> bytes:
        words = line.split()
        if words == [b"*IDN?"]:
            return self.name.encode()
        if words == [b"READ?"]:
            return b"%d" % self.dial
        if len(words) == 2 and words[0] in (b"SET", b"ADD") and words[1].isdigit():
            self.dial = (int(words[1]) + (self.dial if words[0] == b"ADD" else 0)) % 1000000
            return b"OK"
        return b"OK" if words == [b"BYE"] else b"ERROR"


class Server:
    """All instruments, in one loop of one thread."""

    def __init__(self, names: list[str]) -> None:
        self.instruments = [Instrument(name) for name in names]
        self.ready = selectors.DefaultSelector()
        for it in self.instruments:
            self.ready.register(it.listening, selectors.EVENT_READ, it)

    def serve(self) -> None:
        self.ready.register(sys.stdin, selectors.EVENT_READ, None)
        while True:
            for key, _ in self.ready.select():
                it = key.data
                if it is None:
                    if not sys.stdin.buffer.raw.read(4096):  # type: ignore[attr-defined]
                        return
                elif key.fileobj is it.listening:
                    self.came(it)
                elif it.client is key.fileobj and select.select([it.client], [], [], 0)[0]:
                    self.said(it, it.client)

    def came(self, it: Instrument) -> None:
        client, _ = it.listening.accept()
        # (what the one before has said comes first: it may be gone)
        while it.client is not None and select.select([it.client], [], [], 0)[0]:
            self.said(it, it.client)
        if it.client is not None:
            it.refused += 1
            client.sendall(b"BUSY\n")
            client.close()
            return
        client.setsockopt(socket.IPPROTO_TCP, socket.TCP_NODELAY, 1)
        it.client, it.rest, it.talks = client, b"", it.talks + 1
        try:
            client.sendall(b"READY\n")
        except ConnectionError:  # (it is gone already, and may have said something)
            pass
        self.ready.register(client, selectors.EVENT_READ, it)

    def said(self, it: Instrument, client: socket.socket) -> None:
        try:
            came = client.recv(4096)
        except ConnectionError:
            came = b""
        *lines, it.rest = (it.rest + came).split(b"\n")
        for line in lines:
            if line == b"BYE":
                self.over(it, client)
            try:
                client.sendall(it.answer(line) + b"\n")
            except ConnectionError:  # (the client is gone; what it has said is done all the same)
                came = b""
        if it.client is not client:
            client.close()
        elif not came:
            self.over(it, client)
            client.close()

    def over(self, it: Instrument, client: socket.socket) -> None:
        """The talk is over before the client is told so: the next may come at once."""
        self.ready.unregister(client)
        it.client = None


class Busy(Exception):
    """An instrument refused a client, because it talks with another."""


class Talk:
    """A client's talk with an instrument."""

    def __init__(self, port: int) -> None:
        self.socket = socket.create_connection(("127.0.0.1", port))
        self.socket.setsockopt(socket.IPPROTO_TCP, socket.TCP_NODELAY, 1)
        self.lines = self.socket.makefile("rb")
        if self.lines.readline() != b"READY\n":
            self.socket.close()
            raise Busy

    def ask(self, line: str) -> str:
        self.socket.sendall(line.encode() + b"\n")
        return self.lines.readline().decode().rstrip("\n")

    def __enter__(self) -> Talk:
        return self

    def __exit__(self, *fault: object) -> None:
        self.ask("BYE")
        self.lines.close()
        self.socket.close()


class Bay:
    """The instruments as a process of their own: `ports` by name, and `counts` once it is closed: talks and refusals by name."""

    def __init__(self, names: list[str]) -> None:
        words = [sys.executable, __file__, *names]
        self.process = subprocess.Popen(words, stdin=subprocess.PIPE, stdout=subprocess.PIPE, text=True)
        assert self.process.stdout
        self.ports: dict[str, int] = {}
        for line in iter(self.process.stdout.readline, "\n"):
            name, port = line.split()
            self.ports[name] = int(port)
        self.counts: dict[str, tuple[int, int]] = {}

    def talk(self, name: str) -> Talk:
        return Talk(self.ports[name])

    def close(self) -> None:
        for line in self.process.communicate()[0].splitlines():
            name, _, talks, _, refused = line.split()
            self.counts[name] = int(talks), int(refused)

    @property
    def refused(self) -> int:
        return sum(refused for _, refused in self.counts.values())

    def __enter__(self) -> Bay:
        return self

    def __exit__(self, *fault: object) -> None:
        self.close()


if __name__ == "__main__":
    server = Server(sys.argv[1:])
    for instrument in server.instruments:
        print(instrument.name, instrument.listening.getsockname()[1])
    print(flush=True)
    try:
        server.serve()
    except KeyboardInterrupt:
        pass
    for instrument in server.instruments:
        print(instrument.name, "talks", instrument.talks, "refused", instrument.refused)
