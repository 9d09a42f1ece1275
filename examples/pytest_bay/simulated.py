"""The bay's instruments, simulated: TCP servers on loopback that speak SCPI, a line a command, each with one client at a time. As the real ones
do, each refuses a second client: it closes the connection, and counts that.

The supply feeds load-2, and the meter and the scope look at its output. So a test that doesn't hold what it looks at sees another's volts."""

from __future__ import annotations

import selectors
import socket
from typing import Callable, Optional


class Wires:
    """What the instruments are connected by."""

    def __init__(self) -> None:
        self.volts = 0.0
        self.is_on = False
        self.amps = {"load-1": 0.0, "load-2": 0.0}

    @property
    def output(self) -> float:
        """The supply has half an ohm."""
        return max(0.0, self.volts - 0.5 * self.amps["load-2"]) if self.is_on else 0.0

    @property
    def ripple(self) -> float:
        """A millivolt, and two for each ampere."""
        return 0.001 + 0.002 * self.amps["load-2"] if self.is_on else 0.0


class Instrument:
    """One instrument: its socket, its client, and its answers to queries."""

    def __init__(self, name: str, wires: Wires) -> None:
        self.name, self.wires = name, wires
        self.listening = socket.create_server(("127.0.0.1", 0), backlog=64)
        self.port: int = self.listening.getsockname()[1]
        self.client: Optional[socket.socket] = None
        self.rest = b""
        self.talks = self.refused = 0
        self.answers: dict[str, Callable[[], object]] = {"*IDN?": lambda: f"LABRUN,{name},0,1", "*OPC?": lambda: 1}
        if name == "supply":
            self.answers |= {"VOLT?": lambda: wires.volts, "OUTP?": lambda: int(wires.is_on)}
        elif name == "meter":
            self.answers["MEAS:VOLT?"] = lambda: round(wires.output, 6)
        elif name == "scope":
            self.answers |= {"MEAS:VPP?": lambda: round(wires.ripple, 6), "CAL:VPP?": lambda: 0.5}
        else:
            self.answers["CURR?"] = lambda: wires.amps[name]

    def says(self, line: str) -> Optional[str]:
        """The answer to a query; None to a command."""
        if line in self.answers:
            return str(self.answers[line]())
        word, _, value = line.partition(" ")
        if word == "*RST":
            self.resets()
        elif self.name == "supply" and word == "VOLT":
            self.wires.volts = float(value)
        elif self.name == "supply" and word == "OUTP":
            self.wires.is_on = value == "ON"
        elif self.name in self.wires.amps and word == "CURR":
            self.wires.amps[self.name] = float(value)
        return "ERROR" if line.endswith("?") else None

    def resets(self) -> None:
        if self.name == "supply":
            self.wires.volts, self.wires.is_on = 0.0, False
        elif self.name in self.wires.amps:
            self.wires.amps[self.name] = 0.0


class Bay:
    """All instruments, served by one loop."""

    def __init__(self, names: list[str]) -> None:
        wires = Wires()
        self.instruments = [Instrument(name, wires) for name in names]
        self.ready = selectors.DefaultSelector()
        for it in self.instruments:
            self.ready.register(it.listening, selectors.EVENT_READ, it)

    def serve(self, is_over: Callable[[], bool]) -> None:
        while not is_over():
            for key, _ in self.ready.select(0.05):
                if key.fileobj is key.data.listening:
                    self.comes(key.data)
                elif key.fileobj is key.data.client:
                    self.reads(key.data)

    def comes(self, it: Instrument) -> None:
        client, _ = it.listening.accept()
        while it.client is not None and self.has_more(it.client):
            self.reads(it)  # (what the one before has said comes first: it may be gone)
        if it.client is not None:
            it.refused += 1
            client.close()
            return
        it.client, it.rest, it.talks = client, b"", it.talks + 1
        self.ready.register(client, selectors.EVENT_READ, it)

    @staticmethod
    def has_more(client: socket.socket) -> bool:
        with selectors.DefaultSelector() as one:
            one.register(client, selectors.EVENT_READ)
            return bool(one.select(0))

    def reads(self, it: Instrument) -> None:
        assert it.client is not None
        try:
            came = it.client.recv(4096)
        except ConnectionError:
            came = b""
        if not came:
            self.ready.unregister(it.client)
            it.client.close()
            it.client = None
            return
        *lines, it.rest = (it.rest + came).split(b"\n")
        for line in lines:
            answer = it.says(line.decode().strip())
            if answer is not None:
                it.client.sendall(answer.encode() + b"\n")
