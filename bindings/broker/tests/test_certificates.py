"""A broker's certificate that isn't the one that a client knows it by."""

import asyncio
import os
import shutil
import subprocess
import tempfile
import threading
import time
import unittest
from datetime import datetime, timedelta, timezone
from typing import Any
from unittest import mock

import grpc

import labrun_broker
from labrun_broker import finding
from labrun_broker.validity import outdated
from tests.brokers import BAY, LIMIT, OnBroker, certificate, expires, free_port, until
from tests.guards import REFUSED, Guarded, talk
from tests.guards import Bay as Instruments

TOKEN = "a token that nobody knows"


class Flaps:
    """A channel that fails, and a moment later tries again, for ever; or one that never does anything else."""

    def __init__(self, why: str = "") -> None:
        its = grpc.ChannelConnectivity
        self._why, self._states = why, [its.IDLE, its.TRANSIENT_FAILURE] if why else []

    def get_state(self, try_to_connect: bool = False) -> grpc.ChannelConnectivity:
        return self._states.pop(0) if self._states else grpc.ChannelConnectivity.CONNECTING

    async def wait_for_state_change(self, state: grpc.ChannelConnectivity) -> None:
        while not self._states:
            await asyncio.sleep(LIMIT)

    def unary_unary(self, name: str) -> Any:
        async def asks(message: bytes, timeout: float) -> None:
            raise grpc.aio.AioRpcError(grpc.StatusCode.UNAVAILABLE, grpc.aio.Metadata(), grpc.aio.Metadata(), self._why)

        return asks


class Looking(unittest.IsolatedAsyncioTestCase):
    async def test_why_is_known_as_soon_as_it_fails(self) -> None:
        """Also if it tries again by the time that the others have been asked, of whom one says nothing, and one that stands by is told of later."""
        why = "failed to connect to all addresses; last error: UNKNOWN: "
        its = iter([Flaps(), Flaps(f"{why}certificate verify failed"), Flaps(f"{why}Connection refused")])
        with mock.patch.object(finding, "_channel", lambda *_: next(its)):
            one = finding.Brokers(["a:1", "b:2", "c:3"], None, [], lambda it: {"it": it})
        async with asyncio.timeout(LIMIT):
            await one.looks(10 * LIMIT)
        self.assertEqual(one.address, "b:2")


class Certificates(OnBroker):
    def setUp(self) -> None:
        self.folder = self.enterContext(tempfile.TemporaryDirectory())
        self.port, self.token = free_port(), f"{self.folder}/token"
        self.wrong, _ = certificate(self.folder, "another", "another.key")
        self.known, key = certificate(self.folder)
        with open(os.open(self.token, os.O_WRONLY | os.O_CREAT, 0o600), "w", encoding="ascii") as file:
            file.write(TOKEN)
        self.words = ("--listen", f"127.0.0.1:{self.port}", "--tls-certificate", self.known, "--tls-key", key, "--token-file", self.token)

    def test_a_wrong_one_is_named_at_once(self) -> None:
        """Also where another broker of the list may come to lead."""
        self.broker(BAY, *self.words)
        self.enterContext(mock.patch.object(finding, "FAILOVER", 10 * LIMIT))
        at = f"localhost:{self.port},localhost:{free_port()}"
        lab = self.enterContext(labrun_broker.connect(at, certificate_file=self.wrong, token_file=self.token))
        for asks in (lab.status, lambda: next(lab.watch()), lab.hold("scope").acquire):
            told = list[str]()

            def does() -> None:
                try:
                    asks()
                except labrun_broker.Unreachable as fault:
                    told.append(str(fault))

            thread = threading.Thread(target=does, daemon=True)
            thread.start()
            thread.join(LIMIT)
            self.assertEqual(told, [f"the broker at {at} can't be reached: it has another certificate than --certificate says"])

    def test_one_that_has_expired(self) -> None:
        """The broker says so as it begins, and each client that knows it by the same file."""
        expires(self.known, self.words[5])
        broker = self.broker(BAY, *self.words)
        yesterday = time.strftime("%Y-%m-%d", time.localtime(time.time() - 86400))
        at, token, new = f"localhost:{self.port}", ("--token-file", self.token), "make another one for the broker, and give it to its clients"
        for words in (("status",), ("hold", "scope", "--", "true")):
            done = broker.ran(*words[:2], "--broker", at, "--certificate", self.known, *token, *words[2:])
            told = rf"the certificate in --certificate expired on {yesterday} \d\d:\d\d: {new}"
            self.assertRegex(done.stderr, rf"labrun-broker: the broker at {at} can't be reached: {told}\n$")
            self.assertEqual(done.returncode, 69)
        # (of two it may be that one)
        both = f"{self.folder}/both"
        with open(both, "wb") as file:
            for path in (self.wrong, self.known):
                with open(path, "rb") as one:
                    file.write(one.read())
        done = broker.ran("status", "--broker", at, "--certificate", both, *token)
        self.assertRegex(done.stderr, rf"it has another certificate than --certificate says, or the one there that expired on {yesterday} \d\d:\d\d\n$")
        self.assertEqual(broker.end(), 0)
        refused = "and clients of the network refuse it; start the broker again with another one"
        self.assertRegex(broker.said, rf"labrun-broker: --tls-certificate {self.known}: it expired on {yesterday} \d\d:\d\d, {refused}\n")

    def test_until_when_it_is_good(self) -> None:
        """As openssl says it, of an authority's and of one that it has signed."""
        request, leaf = f"{self.folder}/request", f"{self.folder}/leaf"
        for words in (
            ["req", "-new", "-newkey", "rsa:2048", "-nodes", "-subj", "/CN=leaf", "-keyout", f"{self.folder}/leaf.key", "-out", request],
            ["x509", "-req", "-in", request, "-CA", self.known, "-CAkey", self.words[5], "-days", "20000", "-out", leaf],
        ):
            subprocess.run(["openssl", *words], check=True, capture_output=True)
        for path in (self.known, leaf):
            with self.subTest(path):
                done = subprocess.run(["openssl", "x509", "-in", path, "-noout", "-dates"], capture_output=True, text=True, check=True)
                first, last = (datetime.strptime(it.partition("=")[2], "%b %d %H:%M:%S %Y %Z").replace(tzinfo=timezone.utc) for it in done.stdout.splitlines())
                with open(path, "rb") as file:
                    pem, second = file.read(), timedelta(seconds=1)
                self.assertEqual([outdated(pem, it) for it in (first, last)], [None, None])
                bad = [f"is good only from {first.astimezone():%Y-%m-%d %H:%M} on", f"expired on {last.astimezone():%Y-%m-%d %H:%M}"]
                self.assertEqual([outdated(pem, it) for it in (first - second, last + second)], [(it, True) for it in bad])
        self.assertEqual([outdated(it) for it in (b"", b"junk", b"-----BEGIN CERTIFICATE-----\nMAMCAQE=\n-----END CERTIFICATE-----")], [None] * 3)

    def test_a_guard_reads_it_again(self) -> None:
        """Once its broker has another one. The guard goes on, and says which file can't be read."""
        instruments = Instruments(["scope"])
        self.addCleanup(instruments.close)
        shutil.copy(self.wrong, f"{self.folder}/its")
        words = ("--broker", f"localhost:{self.port}", "--certificate", f"{self.folder}/its", "--token-file", self.token)
        at = Guarded(self.folder, instruments.ports, words)
        self.addCleanup(at.ends)
        at.broker.end()
        at.broker.words += self.words
        at.broker.begin()
        assert at.process is not None and at.process.stderr is not None
        # (before that it wasn't there)
        until(lambda: "it has another certificate than --certificate says" in at.process.stderr.readline())
        with open(f"{self.folder}/its", "w", encoding="ascii") as file:
            file.write("junk")
        said = f"labrun-broker: {self.folder}/its: there is no certificate in it (as PEM); what was read before counts\n"
        until(lambda: at.process is not None and at.process.stderr is not None and at.process.stderr.readline() == said, "that it says so")
        shutil.copy(self.known, f"{self.folder}/its")
        with at.broker.lab() as lab, lab.hold("scope", timeout=LIMIT) as held:

            def talks() -> bool:
                try:
                    with talk(held.address("scope")) as it:
                        return it.ask("ADD 1") == "OK"
                except REFUSED:
                    return False

            until(talks, "that it is let through")


if __name__ == "__main__":
    unittest.main()
