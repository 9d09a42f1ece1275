"""A client by HTTP to test with: each of its answers has to be as openapi.json says."""

from __future__ import annotations

import http.client
import json
import os
import re
import socket
import ssl
import time
from typing import Any, Iterator, Optional
from urllib.parse import quote, urlencode

import labrun_broker

with open(os.path.join(os.path.dirname(labrun_broker.__file__), "openapi.json"), encoding="utf-8") as _file:
    OPENAPI: dict[str, Any] = json.load(_file)
KINDS = {"object": dict, "array": list, "string": str, "number": (int, float), "integer": int, "boolean": bool}
LIMIT = 80.0  # (a request may be open for a minute)


def found(it: dict[str, Any]) -> dict[str, Any]:
    """What a reference is to."""
    while "$ref" in it:
        there: Any = OPENAPI
        for name in it["$ref"].removeprefix("#/").split("/"):
            there = there[name]
        it = there
    return it


def check(schema: dict[str, Any], value: Any, where: str = "") -> None:
    """Whether a value is as a schema says: each field is there, and no other."""
    schema = found(schema)
    if value is None and schema.get("nullable"):
        return
    kind = KINDS[schema["type"]]
    if not isinstance(value, kind) or isinstance(value, bool) and schema["type"] != "boolean":
        raise AssertionError(f"{where}: {value!r} is no {schema['type']}")
    if "enum" in schema and value not in schema["enum"]:
        raise AssertionError(f"{where}: {value!r} is none of {schema['enum']}")
    if "properties" in schema:
        if (more := set(value) - set(schema["properties"])) or (less := set(schema["required"]) - set(value)):
            raise AssertionError(f"{where}: {more} aren't in the file, or {less} aren't here")
        for key, one in value.items():
            check(schema["properties"][key], one, f"{where}.{key}")
    for at, one in enumerate(value if isinstance(value, list) else ()):
        check(schema["items"], one, f"{where}[{at}]")


def operation(method: str, path: str) -> Optional[dict[str, Any]]:
    for known, its in OPENAPI["paths"].items():
        if re.fullmatch(re.sub(r"\{\w+\}", "[^/]+", known), path):
            return its.get(method.lower())  # type: ignore[no-any-return]
    return None


class Unix(http.client.HTTPConnection):
    def connect(self) -> None:
        self.sock = socket.socket(socket.AF_UNIX)
        self.sock.settimeout(self.timeout)
        self.sock.connect(self.host)


class Asking:
    """`at` is the path of a socket, or a port of the loopback."""

    def __init__(self, at: "str | int", token: str = "", certificate: str = "", **heads: str) -> None:
        self.at, self.certificate = at, certificate
        self.heads = {**heads, **({"Authorization": f"Bearer {token}"} if token else {})}

    def connects(self, timeout: float = LIMIT) -> http.client.HTTPConnection:
        if isinstance(self.at, str):
            return Unix(self.at, timeout=timeout)
        if self.certificate:
            return http.client.HTTPSConnection("localhost", self.at, timeout=timeout, context=ssl.create_default_context(cafile=self.certificate))
        return http.client.HTTPConnection("127.0.0.1", self.at, timeout=timeout)

    def raw(self, method: str, path: str, body: Optional[bytes] = None, **heads: str) -> "tuple[int, dict[str, str], bytes]":
        talk = self.connects()
        try:
            talk.request(method, path, body, {**({"Host": "localhost"} if isinstance(self.at, str) else {}), **self.heads, **heads})
            answer = talk.getresponse()
            return answer.status, dict(answer.getheaders()), answer.read()
        finally:
            talk.close()

    def ask(self, method: str, path: str, body: Any = None, **query: Any) -> "tuple[int, Any]":
        """The status, and what the answer says."""
        text = body if isinstance(body, bytes) or body is None else json.dumps(body).encode()
        status, heads, said = self.raw(method, f"{path}?{urlencode(query)}" if query else path, text)
        told = json.loads(said)
        known = operation(method, path.partition("?")[0])
        if known is None:
            check({"$ref": "#/components/schemas/Fault"}, told, f"{method} {path}")
        else:
            if str(status) not in known["responses"]:
                raise AssertionError(f"{method} {path} has the status {status}, and {told}")
            check(found(known["responses"][str(status)])["content"]["application/json"]["schema"], told, f"{method} {path} {status}")
        return status, told

    def asks(self, *instruments: str, wait: float = 0.0, **more: Any) -> "tuple[int, Any]":
        return self.ask("POST", "/v1/sessions", {"instruments": instruments, **more}, **({"wait": wait} if wait else {}))

    def holds(self, *instruments: str, **more: Any) -> str:
        """The ticket of a session that holds, once that is written."""
        status, told = self.asks(*instruments, wait=20, **more)
        end = time.monotonic() + LIMIT
        while status == 202 and time.monotonic() < end:
            status, told = self.of(told["ticket"], wait=20)
        if (status, told.get("state")) != (200, "holding"):
            raise AssertionError(f"{status}: {told}")
        return str(told["ticket"])

    def of(self, ticket: str, what: str = "", method: str = "GET", body: Any = None, **query: Any) -> "tuple[int, Any]":
        return self.ask(method, f"/v1/sessions/{quote(ticket, safe='')}{what}", body, **query)

    def lets_go(self, ticket: str, **query: str) -> "tuple[int, Any]":
        return self.of(ticket, method="DELETE", **query)

    def status(self, station: str) -> Any:
        told = self.ask("GET", "/v1/status")[1]
        return next(it for it in told["stations"] if it["name"] == station)

    def events(self, ticket: str) -> "Iterator[tuple[str, Any]]":
        """What is told of a session, until that ends."""
        talk = self.connects()
        try:
            talk.request("GET", f"/v1/sessions/{ticket}/events", headers={**self.heads, "Host": "localhost"})
            answer = talk.getresponse()
            if answer.getheader("Content-Type") != "text/event-stream":
                raise AssertionError(answer.read())
            event = ""
            for line in answer:
                if line.startswith(b"event: "):
                    event = line[7:].decode().strip()
                elif line.startswith(b"data: "):
                    told = json.loads(line[6:])
                    check({"$ref": f"#/components/schemas/{'Fault' if event in ('over', 'stopped') else 'Session'}"}, told, event)
                    yield event, told
        finally:
            talk.close()
