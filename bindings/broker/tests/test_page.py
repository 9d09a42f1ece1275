"""The page on the wall, as a program asks for it; test_browser looks at it as a person does."""

from __future__ import annotations

import base64
import functools
import grp
import hashlib
import json
import os
import re
import socket
import tempfile
import time
import unittest
from typing import Any, Callable, Iterator
from unittest import mock

from .brokers import LIMIT, SOON, until
from .fake import Keeping
from .webs import Web

try:
    from labrun_broker import page, serving, sessions
    from labrun_broker.page import serve_page
except ImportError as lacking:
    raise unittest.SkipTest(str(lacking)) from None

BAY = {"board": ["scope", "supply"], "radio": ["scope"]}


def events(port: int, count: int) -> Iterator[Any]:
    """The first events of the page, and when each came."""
    with socket.create_connection(("127.0.0.1", port), timeout=LIMIT) as talk, talk.makefile("rb") as lines:
        talk.sendall(b"GET /events HTTP/1.1\r\nHost: 127.0.0.1\r\n\r\n")
        for line in lines:
            if line.startswith(b"data: "):
                yield json.loads(line[6:])
                count -= 1
                if not count:
                    return


class Pages(unittest.TestCase):
    def setUp(self) -> None:
        self.web = Web(serve_page, lambda: Keeping(BAY))
        self.addCleanup(self.web.close)

    def do(self, name: str, *given: Any) -> None:
        self.web.do(getattr(self.web.keeping, name), *given)

    def test_the_page_runs_no_other_script(self) -> None:
        status, heads, text = self.web.get("/")
        self.assertEqual((status, heads["Content-Type"]), (200, "text/html; charset=utf-8"))
        policy = dict(it.strip().split(" ", 1) for it in heads["Content-Security-Policy"].split(";"))
        self.assertEqual((policy["default-src"], policy["connect-src"], policy["frame-ancestors"]), ("'none'", "'self'", "'none'"))
        for part in ("style", "script"):
            inner = text.split(f"<{part}>")[1].split(f"</{part}>")[0]
            self.assertEqual(policy[f"{part}-src"], f"'sha256-{base64.b64encode(hashlib.sha256(inner.encode()).digest()).decode()}'")
        self.assertEqual(heads["X-Content-Type-Options"], "nosniff")

    def test_the_page_needs_no_network_and_puts_no_data_into_html(self) -> None:
        text = self.web.get("/")[2]
        self.assertEqual(re.findall(r'(?:src|href)="([^"]*)"', text), ["data:,"])
        self.assertEqual([it for it in re.findall(r"https?://[^\"' ]+", text) if it != "http://www.w3.org/2000/svg"], [])
        for way in ("innerHTML", "outerHTML", "insertAdjacentHTML", "document.write", "eval(", "Function("):
            self.assertNotIn(way, text)

    @mock.patch.object(page, "BEAT", LIMIT)
    def test_what_happens_is_told_once(self) -> None:
        told = events(self.web.port, 100)
        self.assertTrue(next(told)["all"])
        self.do("hold", "board", "scope")
        news = self.until(told, lambda it: len(it["records"]) == 2)
        self.assertEqual(([it["what"] for it in news["records"]], news["ended"]), (["asked", "held"], []))
        self.assertEqual(news["status"]["instruments"][0]["holder"], "board")
        self.do("ask", "radio", "scope")
        self.do("end", "board")
        begun = time.monotonic()
        news = self.until(told, lambda it: len(it["records"]) == 2)
        self.assertLess(time.monotonic() - begun, SOON)
        self.assertEqual([(it["station"], it["how"], it["instruments"]) for it in news["ended"]], [("board", "done", ["scope"])])
        self.do("hold", "radio")
        news = self.until(told, lambda it: bool(it["records"]))
        self.assertEqual(([it["what"] for it in news["records"]], news["ended"]), (["held"], []))

    def until(self, told: Iterator[Any], is_so: Callable[[Any], bool]) -> Any:
        """What is told until something is so, in one."""
        news: dict[str, Any] = {"records": [], "ended": []}
        while not is_so(news):
            more = next(told)
            self.assertFalse(more["all"])
            news = {"status": more["status"], **{it: news[it] + more[it] for it in ("records", "ended")}}
        return news

    def test_a_busy_bay_is_told_a_few_times_a_second(self) -> None:
        for _ in range(300):
            self.do("hold", "board", "scope")
            self.do("end", "board")
        time.sleep(2 * sessions.REST)
        begun, told = time.monotonic(), []

        def works(keeping: Keeping) -> None:
            keeping.hold("board", "scope")
            keeping.end("board")

        for it in events(self.web.port, 4):
            told.append(it)
            took = time.monotonic() - begun
            self.web.do(works, self.web.keeping)
        self.assertEqual((len(told[0]["ended"]), len(told[0]["records"])), (300, page.MOST_RECORDS))
        self.assertEqual(sum(len(it["ended"]) for it in told), 303)
        self.assertGreater(took, 3 * page.PACE - 0.05)

    def test_it_only_shows(self) -> None:
        for method in ("POST", "PUT", "DELETE"):
            self.assertEqual(self.web.get("/", method=method)[0], 405)
        self.assertEqual(self.web.get("/nowhere")[0], 404)
        self.assertEqual(json.loads(self.web.get("/status")[2])["bay"], "bay-3")

    def test_a_page_of_elsewhere_is_refused(self) -> None:
        port = self.web.port
        hosts = {"127.0.0.1": 200, f"127.0.0.1:{port}": 200, "localhost:1": 200, "[::1]:80": 200, "evil.example": 403, f"evil.example:{port}": 403}
        hosts |= {"127.0.0.1.evil.example": 403, "10.0.0.1": 403, "": 403}
        self.assertEqual({it: self.web.get("/status", host=it)[0] for it in hosts}, hosts)

    def test_one_connection_too_many_is_refused_and_a_silent_one_let_go(self) -> None:
        with mock.patch.object(serving, "SLOW", 3.0), mock.patch.object(serving, "MOST_CONNECTIONS", 5):
            talks = [socket.create_connection(("127.0.0.1", self.web.port), timeout=LIMIT) for _ in range(5)]
            time.sleep(0.1)
            with self.assertRaises(OSError):
                self.web.get("/status")
            for it in talks:
                self.assertEqual(it.recv(1), b"")
                it.close()
            self.assertEqual(self.web.get("/status")[0], 200)

    def test_garbage(self) -> None:
        for garbage in (b"\x16\x03\x01\x02\x00\x01", b"GET / HTTP/9.9\r\n\r\n", b"A" * 100000, b"GET /" + b"a" * 20000 + b" HTTP/1.1\r\n\r\n", b"\r\n" * 5000):
            with socket.create_connection(("127.0.0.1", self.web.port), timeout=LIMIT) as talk:
                try:
                    talk.sendall(garbage)
                except OSError:
                    pass
        self.assertEqual(self.web.get("/status")[0], 200)

    def test_a_browser_that_leaves(self) -> None:
        for _ in range(20):
            next(events(self.web.port, 1))
        self.do("hold", "board", "scope")
        until(lambda: next(events(self.web.port, 1))["status"]["stations"][0]["state"] == "holding")


class Begun(unittest.TestCase):
    def test_a_broker_that_begins_again_knows_what_was(self) -> None:
        at = time.time() - 100
        old = [
            {"t": at, "what": "held", "station": "board", "session": 2, "instruments": ["scope"], "by": None, "text": ""},
            {"t": at + 50, "what": "let_go", "station": "board", "session": 2, "instruments": ["scope"], "by": None, "text": ""},
        ]
        with tempfile.TemporaryDirectory() as folder:

            def new() -> Keeping:
                it = Keeping(BAY)
                it.state = folder
                # the record of the history is in the file already
                with open(f"{folder}/records-1.jsonl", "w", encoding="utf-8") as file:
                    file.write("".join(json.dumps(one) + "\n" for one in [*old, *it.history]))
                return it

            web = Web(serve_page, new)
            try:
                first = next(events(web.port, 1))
            finally:
                web.close()
        self.assertEqual([it["ended"] for it in first["ended"]], [at + 50])
        self.assertEqual([it["what"] for it in first["records"]], ["held", "let_go", "opened"])


class Addresses(unittest.TestCase):
    def test_what_is_refused(self) -> None:
        for text in ("", "8080", "127.0.0.1", "127.0.0.1:", "127.0.0.1:http", "127.0.0.1:99999", "127.0.0.1:²"):
            with self.subTest(text), self.assertRaisesRegex(ValueError, "HOST:PORT is wanted|a port is 65535 at most"):
                serving.address_of(text)
        for text in ("0.0.0.0:80", "192.168.1.7:8080", "[::]:80", "lab.example:80", ":::80"):
            with self.subTest(text), self.assertRaisesRegex(ValueError, "no password"):
                serving.address_of(text)

    def test_what_is_taken(self) -> None:
        taken = {"127.0.0.1:80": ("127.0.0.1", 80), ":8080": ("127.0.0.1", 8080), "[::1]:80": ("::1", 80), "localhost:1": ("localhost", 1), "unix:/a:b": "/a:b"}
        self.assertEqual({it: serving.address_of(it) for it in taken}, taken)

    def test_a_unix_socket(self) -> None:
        """It has the mode and the group of the broker's own, and nobody else can listen there."""
        # (root may give it to any group)
        group = next(it for it in grp.getgrall() if it.gr_gid != os.getegid()) if os.geteuid() == 0 else grp.getgrgid(os.getegid())
        with tempfile.TemporaryDirectory() as folder:
            web = Web(functools.partial(serve_page, group=group.gr_name), lambda: Keeping(BAY), f"unix:{folder}/page.sock")
            try:
                found = os.stat(f"{folder}/page.sock")
                self.assertEqual((found.st_mode & 0o777, found.st_gid), (0o660, group.gr_gid))
                with self.assertRaisesRegex(serving.BadAddress, "another broker listens there"):
                    Web(serve_page, lambda: Keeping(BAY), f"unix:{folder}/page.sock")
                with socket.socket(socket.AF_UNIX) as talk:
                    talk.connect(f"{folder}/page.sock")
                    talk.sendall(b"GET /status HTTP/1.1\r\nHost: lab.example\r\nConnection: close\r\n\r\n")
                    self.assertIn(b"200 OK", talk.recv(4096))
            finally:
                web.close()
            # (what a page that is over left is no hindrance)
            Web(serve_page, lambda: Keeping(BAY), f"unix:{folder}/page.sock").close()


if __name__ == "__main__":
    unittest.main()
