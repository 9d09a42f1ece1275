"""An etcd of one member to test, on the loopback, with its data in a folder that is thrown away."""

from __future__ import annotations

import shutil
import subprocess
import tempfile
import unittest
from typing import Any

from labrun_broker.etcd import Etcd, EtcdError, NoAnswer
from tests.brokers import free_port, until


class Member:
    def __init__(self, folder: str, *words: str, credentials: Any = None) -> None:
        self.endpoint, self._credentials = f"127.0.0.1:{free_port()}", credentials
        client, peer = f"http{'s' if credentials else ''}://{self.endpoint}", f"http://127.0.0.1:{free_port()}"
        self._words = ["etcd", "--name", "one", "--data-dir", f"{folder}/etcd", "--listen-client-urls", client, "--advertise-client-urls", client]
        self._words += ["--listen-peer-urls", peer, "--initial-advertise-peer-urls", peer, "--initial-cluster", f"one={peer}", *words]
        self.begin()

    def begin(self) -> None:
        self.process = subprocess.Popen(self._words, stdout=subprocess.DEVNULL, stderr=subprocess.DEVNULL)
        one = self.client()
        until(lambda: self.answers(one), "etcd")
        one.close()

    def answers(self, client: Etcd) -> Any:
        try:
            return client.txn([], [])
        except (NoAnswer, EtcdError):
            return None

    def client(self) -> Etcd:
        return Etcd([self.endpoint], self._credentials)

    def ends(self) -> None:
        self.process.kill()
        self.process.wait()


@unittest.skipUnless(shutil.which("etcd"), "there is no etcd (Debian: etcd-server)")
class OnEtcd(unittest.IsolatedAsyncioTestCase):
    """All tests of a class share one: each has a bay of its own name."""

    member: Member
    count = 0

    @classmethod
    def setUpClass(cls) -> None:
        folder = cls.enterClassContext(tempfile.TemporaryDirectory())
        cls.member = Member(folder)
        cls.addClassCleanup(cls.member.ends)

    def setUp(self) -> None:
        OnEtcd.count += 1
        self.bay = f"bay-{OnEtcd.count}"
        self.etcd = self.member.client()
        self.addCleanup(self.etcd.close)

    def lapses(self, lease: int) -> None:
        """A lease is over. (On a busy machine it may be so by itself.)"""
        try:
            self.etcd.revoke(lease)
        except EtcdError as fault:
            self.assertIn("requested lease not found", str(fault))

    def values(self, prefix: str) -> dict[str, bytes]:
        """What etcd has of the bay."""
        begins = f"/labrun/{self.bay}/{prefix}".encode()
        return {it.key.decode().removeprefix(f"/labrun/{self.bay}/"): it.value for it in self.etcd.all_of(begins)}
