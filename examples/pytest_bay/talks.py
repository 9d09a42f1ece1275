"""How the tests talk to an instrument: by pyvisa, or by a socket where there is no pyvisa."""

from __future__ import annotations

import socket
from typing import Any

try:
    import pyvisa
except ImportError:
    pyvisa = None  # type: ignore[assignment]


class Plain:
    """As much of pyvisa's resource as is used here."""

    def __init__(self, port: int) -> None:
        self.socket = socket.create_connection(("127.0.0.1", port), timeout=5)
        self.lines = self.socket.makefile("r", encoding="ascii", newline="\n")

    def write(self, line: str) -> None:
        self.socket.sendall(line.encode() + b"\n")

    def query(self, line: str) -> str:
        self.write(line)
        answer = self.lines.readline()
        if not answer:
            raise ConnectionError("the instrument refused this client, or is gone")
        return answer.rstrip("\n")

    def close(self) -> None:
        self.lines.close()
        self.socket.close()


def talk(port: int) -> Any:
    if pyvisa is None:
        return Plain(port)
    manager = pyvisa.ResourceManager("@py")
    return manager.open_resource(f"TCPIP::127.0.0.1::{port}::SOCKET", read_termination="\n", write_termination="\n", timeout=5000)
