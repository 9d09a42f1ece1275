"""Brokers that stand by for one another, as processes, and clients that know where each of them may be."""

from __future__ import annotations

import argparse
import contextlib
import io
import json
import os
import shutil
import signal
import socket
import subprocess
import sys
import tempfile
import threading
import time
import unittest
from typing import Any, NamedTuple
from unittest import mock

import labrun_broker
from labrun_broker import finding
from labrun_broker.command import main
from labrun_broker.errors import Unreachable
from labrun_broker.etcd import EtcdError, NoAnswer, put
from labrun_broker.standby import add_etcd, etcd_of, listens_at
from labrun_broker.texts import addresses_of
from tests.brokers import BAY, COMMAND, LIMIT, SOON, free_port, station, until
from tests.etcds import Member, OnEtcd
from tests.machines import status_of

LEASE = 10
# an etcd whose records take a while: until there is a file
SLOW = """
import os, sys, time
from labrun_broker import command, leading, turning

def slowly(self, prefix):
    while prefix.endswith(b"/records/") and not os.path.exists(f"{FOLDER}/goes"):
        time.sleep(0.02)
    return reads(self, prefix)

turning.STANDS, reads, leading.Leading.reads = 0.1, leading.Leading.reads, slowly
sys.exit(command.main())
"""


class Serving:
    """`labrun-broker serve --etcd`, and what it has said."""

    def __init__(self, test: OnEtcd, port: int, *words: str, bay: str = BAY, command: list[str] = COMMAND, lease: int = LEASE) -> None:
        self.folder = test.enterContext(tempfile.TemporaryDirectory())
        with open(f"{self.folder}/bay.toml", "w", encoding="utf-8") as file:
            file.write(bay.replace("north", test.bay))
        self.address, etcd = f"127.0.0.1:{port}", test.member.endpoint
        line = [*command, "serve", f"{self.folder}/bay.toml", "--listen", self.address, "--etcd", etcd, "--lease", str(lease), *words]
        self.process = subprocess.Popen(line, stderr=subprocess.PIPE, text=True)
        self.said = list[str]()
        self._reader = threading.Thread(target=self._reads, daemon=True)
        self._reader.start()
        test.addCleanup(self.ends)

    def _reads(self) -> None:
        assert self.process.stderr is not None
        for line in self.process.stderr:
            self.said.append(line.rstrip("\n"))

    def says(self, text: str) -> None:
        until(lambda: any(text in it for it in self.said), f"{text}, and not only {self.said}")

    def end(self, number: int) -> int:
        self.process.send_signal(number)
        return self.process.wait(LIMIT)

    def ends(self) -> None:
        self.process.kill()
        self.process.wait()
        self._reader.join(5)
        if self.process.stderr is not None:
            self.process.stderr.close()


class Slow(OnEtcd):
    def test_one_that_begins(self) -> None:
        """It says what it waits for: that is etcd, wherever its records are written as well."""
        for count, has_folder in enumerate((True, False)):
            folder = self.enterContext(tempfile.TemporaryDirectory())
            words = ("--state", f"{folder}/state") if has_folder else ()
            with self.subTest(words):
                command = [sys.executable, "-c", f"FOLDER = {folder!r}{SLOW}"]
                one = Serving(self, free_port(), *words, bay=BAY.replace("north", f"north-{count}"), command=command)
                why = "isn't open after 0.1 s, as where etcd is slow; nobody is let in before it is"
                one.says(f"labrun-broker: the state in etcd at {self.member.endpoint} {why}")
                with open(f"{folder}/goes", "w", encoding="ascii"):
                    pass
                one.says("4 instruments, at ")
                self.assertNotIn(folder, "\n".join(one.said))


class Standing(OnEtcd):
    def setUp(self) -> None:
        super().setUp()
        self.ports = [free_port(), free_port()]
        self.addresses = ",".join(f"127.0.0.1:{it}" for it in self.ports)
        self.brokers = [Serving(self, self.ports[0])]
        self.brokers[0].says("4 instruments, at ")
        self.brokers.append(Serving(self, self.ports[1]))
        self.brokers[1].says(f"labrun-broker: stands by: 127.0.0.1:{self.ports[0]} leads")

    def lab(self, **more: Any) -> labrun_broker.Lab:
        return self.enterContext(labrun_broker.connect(self.addresses, by="tester", **more))

    def ran(self, *words: str) -> subprocess.CompletedProcess[str]:
        environment = {**os.environ, "LABRUN_BROKER": self.addresses}
        return subprocess.run([*COMMAND, *words], env=environment, capture_output=True, text=True, timeout=2 * LIMIT)

    def test_one_that_is_killed(self) -> None:
        """The session goes on at the next one, and so does whoever waited; who was let go stays so."""
        lab, held = self.lab(), list[str]()
        with lab.hold("supply"):
            pass
        mine = lab.hold("scope")
        mine.acquire()

        def waits() -> None:
            with lab.hold("scope"):
                held.append("scope")

        other = threading.Thread(target=waits, daemon=True)
        other.start()
        time.sleep(0.3)
        self.assertEqual(self.brokers[0].end(signal.SIGKILL), -signal.SIGKILL)
        self.brokers[1].says(f"labrun-broker: leads: bay {self.bay}: 4 instruments, at ")
        until(lambda: station(lab, "guest-1")["state"] == "holding", "guest-1 is back")
        mine.note("12.5 V")
        self.assertEqual(held, [])
        mine.release()
        other.join(LIMIT)
        self.assertEqual(held, ["scope"])
        self.assertEqual([it["holder"] for it in lab.status()["instruments"]], [None] * 4)

    def test_one_that_is_ended(self) -> None:
        """The next one leads at once; and a command that begins meanwhile waits for it."""
        started = subprocess.Popen(
            [*COMMAND, "hold", "scope", "--broker", self.addresses, "--", "sh", "-c", "echo held; read it"], stdin=subprocess.PIPE, stdout=subprocess.PIPE, text=True
        )
        assert started.stdin is not None and started.stdout is not None
        self.assertEqual(started.stdout.readline(), "held\n")
        begun = time.monotonic()
        self.assertEqual(self.brokers[0].end(signal.SIGTERM), 0)
        done = self.ran("hold", "supply", "--", "echo", "held")
        self.assertEqual((done.returncode, done.stdout), (0, "held\n"), done.stderr)
        self.assertLess(time.monotonic() - begun, LIMIT)
        started.communicate("\n", timeout=LIMIT)
        self.assertEqual(started.returncode, 0)

    def test_status(self) -> None:
        until(lambda: self.lab().status()["stands_by"], "it is known who stands by")
        done = self.ran("status")
        self.assertIn(f"127.0.0.1:{self.ports[0]} leads, and 127.0.0.1:{self.ports[1]} stands by", done.stdout)
        status = json.loads(self.ran("status", "--json").stdout)
        self.assertEqual((status["leads"], status["stands_by"]), tuple([it.address, [that.address]][at] for at, (it, that) in enumerate([self.brokers] * 2)))

    def test_a_sighup_while_it_stands_by(self) -> None:
        """(It would change the bay of one that leads.)"""
        self.brokers[1].process.send_signal(signal.SIGHUP)
        self.brokers[0].end(signal.SIGTERM)
        self.brokers[1].says("4 instruments, at ")

    def test_one_that_is_ended_while_it_stands_by(self) -> None:
        with self.assertRaises(ConnectionRefusedError):
            socket.create_connection(("127.0.0.1", self.ports[1])).close()
        self.assertEqual(self.brokers[1].end(signal.SIGTERM), 0)
        self.assertEqual(self.values("standby/"), {})

    def test_one_that_is_stopped_for_long(self) -> None:
        """It ends as soon as it goes on, with a status by which systemd begins it anew."""
        self.brokers[0].process.send_signal(signal.SIGSTOP)
        self.brokers[1].says("4 instruments, at ")
        self.brokers[0].process.send_signal(signal.SIGCONT)
        self.assertEqual(self.brokers[0].process.wait(LIMIT), 74)
        self.brokers[0].says("labrun-broker: ends: ")
        # (etcd answered all the time)
        whys = (f"its lease of {LEASE} s couldn't be renewed: etcd doesn't answer, or this broker was stopped", "its lease is over", "it leads no more")
        self.assertIn(self.brokers[0].said[-1], [f"labrun-broker: ends: {it}" for it in whys])


@unittest.skipUnless(shutil.which("etcd") and shutil.which("etcdctl") and shutil.which("openssl"), "there is no etcd, or etcdctl, or openssl")
class Secured(unittest.TestCase):
    """An etcd with TLS both ways, and users."""

    def test_certificates_and_a_user(self) -> None:
        folder = self.enterContext(tempfile.TemporaryDirectory())
        (certificate, key), password = certified(self), f"{folder}/password"
        for path, text in ((password, "of-labrun-alone\n"), (f"{folder}/wrong", "another\n")):
            with open(path, "w", encoding="ascii") as file:
                file.write(text)
        tls = ["--etcd-ca", certificate, "--etcd-cert", certificate, "--etcd-key", key]
        parser = argparse.ArgumentParser()
        add_etcd(parser)
        credentials = etcd_of(parser.parse_args(["--etcd", "127.0.0.1:1", *tls]))._credentials
        # (by the certificate's name nobody is a user)
        its = ["--cert-file", certificate, "--key-file", key, "--trusted-ca-file", certificate, "--client-cert-auth", "--bcrypt-cost", "4"]
        member = Member(folder, *its, credentials=credentials)
        self.addCleanup(member.ends)
        ctl = ["etcdctl", f"--endpoints=https://{member.endpoint}", f"--cacert={certificate}", f"--cert={certificate}", f"--key={key}"]
        for line in (
            "user add root:root", "user grant-role root root", "role add labrun", "role grant-permission labrun --prefix=true readwrite /labrun/",
            "user add broker --interactive=false", "user grant-role broker labrun", "auth enable",
        ):  # fmt: skip
            given = "of-labrun-alone\n" if "interactive" in line else None
            done = subprocess.run([*ctl, *line.split()], env={**os.environ, "ETCDCTL_API": "3"}, input=given, capture_output=True, text=True, timeout=LIMIT)
            self.assertEqual(done.returncode, 0, done.stderr)

        def asks(*words: str, key: bytes = b"/labrun/north/places") -> None:
            one = etcd_of(parser.parse_args(["--etcd", member.endpoint, *words]))
            self.addCleanup(one.close)
            one.txn([], [put(key, b"{}")])
            self.assertEqual([it.value for it in one.all_of(key)], [b"{}"])
            lease = one.grant(5)
            self.assertEqual(one.keeps_alive(lease.ID, LIMIT), 5)
            one.revoke(lease.ID)

        user = ["--etcd-user", "broker", "--etcd-password-file"]
        asks(*tls, *user, password)
        for words, fault, text in (
            ((*tls, *user, f"{folder}/wrong"), EtcdError, "authentication failed"),
            (("--etcd-ca", certificate, *user, password), NoAnswer, ""),
            (user + [password], NoAnswer, ""),
        ):
            with self.subTest(words), self.assertRaisesRegex(fault, text):
                asks(*words)
        with self.assertRaisesRegex(EtcdError, "permission denied"):
            asks(*tls, *user, password, key=b"another's key")


class Lists(unittest.TestCase):
    def test_addresses(self) -> None:
        self.assertEqual(addresses_of("a:7443,b.lab:7443, 10.0.0.1:7443"), ("a:7443", "b.lab:7443", "10.0.0.1:7443"))
        for one in ("a:7443", "unix:/run/labrun/bay.sock", "unix:/run/a,b/bay.sock", "a,b"):
            self.assertEqual(addresses_of(one), (one,))

    def test_where_it_listens(self) -> None:
        self.assertEqual(listens_at(("unix:/run/bay.sock", "bench-1:7443")), "bench-1:7443")
        self.assertEqual(listens_at(("0.0.0.0:7443",)), f"{socket.gethostname()}:7443")
        self.assertEqual(listens_at(("[::1]:7443",)), "[::1]:7443")

    def test_none_answers(self) -> None:
        """It is waited for, as long as another may take to lead; and then it is said."""
        said = list[str]()
        with mock.patch.object(finding, "FAILOVER", 1.0):
            with labrun_broker.connect(f"127.0.0.1:{free_port()},127.0.0.1:{free_port()}") as lab:
                begun = time.monotonic()
                with self.assertRaisesRegex(Unreachable, "Connection refused"):
                    lab.hold("scope", waits=said.append).acquire()
                with self.assertRaisesRegex(Unreachable, "Connection refused"):
                    lab.status()
        self.assertTrue(1.0 < time.monotonic() - begun < SOON)
        self.assertRegex(said[0], "^none of the brokers 127.0.0.1:.* answers; trying again for 1 s$")

    def test_a_question_that_none_answers(self) -> None:
        """Each word of the command says, before it is over, that it tries, and for how long."""
        at = f"127.0.0.1:{free_port()},127.0.0.1:{free_port()}"
        tries = f"labrun-broker: waits: none of the brokers {at} answers; trying again for "
        for words in (["status"], ["top"], ["release", "board"], ["disable", "scope"]):
            with self.subTest(words), mock.patch.object(finding, "FAILOVER", 2.0), contextlib.redirect_stderr(io.StringIO()) as said:
                self.assertEqual(main([*words, "--broker", at]), 69)
                self.assertRegex(said.getvalue(), rf"^{tries}[12] s\nlabrun-broker: the broker at {at} can't be reached: Connection refused\n$")

    def test_one_that_may_stand_by(self) -> None:
        at = f"127.0.0.1:{free_port()}"
        with labrun_broker.connect(at) as lab:
            for asks in (lab.status, lab.hold("scope").acquire):
                with self.assertRaises(Unreachable) as fault:
                    asks()
                why = "Connection refused (no broker runs there, or it stands by for another one: name all of them, with commas between)"
                self.assertEqual(str(fault.exception), f"the broker at {at} can't be reached: {why}")

    def test_none_answers_in_time(self) -> None:
        """Who wants to wait for a shorter time isn't told of a longer one."""
        said = list[str]()
        with labrun_broker.connect(f"127.0.0.1:{free_port()},127.0.0.1:{free_port()}") as lab:
            with mock.patch.object(finding, "FAILOVER", 30.0), self.assertRaises(Unreachable):
                lab.hold("scope", waits=said.append, timeout=2.0).acquire()
        self.assertRegex(said[0], "^none of the brokers 127.0.0.1:.* answers; trying again for [0-2] s$")
        at = f"127.0.0.1:{free_port()},127.0.0.1:{free_port()}"
        with mock.patch.object(finding, "FAILOVER", 30.0), contextlib.redirect_stderr(io.StringIO()) as told:
            self.assertEqual(main(["hold", "scope", "--timeout", "2", "--broker", at, "--", "true"]), 69)
        self.assertRegex(told.getvalue(), f"^labrun-broker: waits: none of the brokers {at} answers; trying again for [0-2] s\n")


class Faults(unittest.TestCase):
    """How a run of tests.machines ends."""

    def test_its_status(self) -> None:
        for refused, sessions, is_fault, is_safe, status in (
            (0, 5, False, False, 0),
            (0, 5, True, True, 0),
            (0, 5, True, False, 1),
            (1, 5, False, True, 1),
            (0, 0, True, True, 1),
        ):
            with self.subTest(refused=refused, sessions=sessions, is_fault=is_fault, is_safe=is_safe):
                self.assertEqual(status_of(refused, sessions, is_fault, is_safe), status)


FILES = (("--etcd-ca",), ("--etcd-cert", "--etcd-key", "FOLDER/bay.toml"), ("--etcd-key", "--etcd-cert", "FOLDER/bay.toml"), ("--etcd-password-file", "--etcd-user", "ann"))


class Words(unittest.TestCase):
    def says(self, *words: str) -> tuple[int, str]:
        with tempfile.TemporaryDirectory() as folder:
            with open(f"{folder}/bay.toml", "w", encoding="utf-8") as file:
                file.write(BAY)
            os.mkdir(f"{folder}/state")
            with open(f"{folder}/state/bay.journal", "w", encoding="utf-8") as file:
                file.write("a line\n")
            line = [*COMMAND, "serve", f"{folder}/bay.toml", "--listen", f"unix:{folder}/bay.sock", *(it.replace("FOLDER", folder) for it in words)]
            done = subprocess.run(line, capture_output=True, text=True, timeout=LIMIT)
            return done.returncode, done.stderr.replace(folder, "FOLDER")

    def test_faults(self) -> None:
        for words, status, text in (
            (("--etcd", "127.0.0.1:1", "--lease", "1"), 2, "whole seconds from 2 to 10"),
            *((("--etcd", it), 2, f"--etcd {it.split(',')[-1]}: HOST:PORT is wanted") for it in ("nowhere", "unix:/tmp/x", "127.0.0.1:1,unix:/tmp:1", "http://")),
            (("--etcd", "127.0.0.1:1,https://127.0.0.1:65536"), 2, "labrun-broker: --etcd https://127.0.0.1:65536: a port is 65535 at most\n"),
            *((("--etcd", "127.0.0.1:1", it, "FOLDER/no", *more), 66, f"labrun-broker: {it} FOLDER/no: there is no such file\n") for it, *more in FILES),
            (("--etcd", "127.0.0.1:1", "--etcd-cert", "FOLDER/bay.toml"), 2, "--etcd-cert FILE --etcd-key FILE"),
            (("--etcd", "127.0.0.1:1", "--etcd-user", "ann"), 2, "--etcd-user NAME --etcd-password-file FILE"),
            (("--etcd", "127.0.0.1:1", "--state", "FOLDER/state"), 1, "a broker without --etcd kept it"),
        ):
            with self.subTest(words):
                found = self.says(*words)
                self.assertEqual(found[0], status, found[1])
                self.assertIn(text, found[1])

    @unittest.skipUnless(shutil.which("openssl"), "there is no openssl")
    def test_files_with_something_else(self) -> None:
        """They are told of before etcd is asked, as those of the broker's own TLS are."""
        of, of_other = certified(self), certified(self)
        folder = self.enterContext(tempfile.TemporaryDirectory())
        junk, empty, image = (f"{folder}/{name}" for name in ("junk", "empty", "image"))
        for path, its in ((junk, b"hello\n"), (empty, b"\n"), (image, b"\xff\xd8\xff")):
            with open(path, "wb") as file:
                file.write(its)
        for words, option, path, why in (
            (("--etcd-ca", junk), "--etcd-ca", junk, "there is no certificate in it (as PEM)"),
            (("--etcd-cert", junk, "--etcd-key", of.key), "--etcd-cert", junk, "there is no certificate in it (as PEM)"),
            (("--etcd-cert", of.certificate, "--etcd-key", junk), "--etcd-key", junk, "there is no key in it (as PEM)"),
            (("--etcd-cert", of.certificate, "--etcd-key", of_other.key), "--etcd-key", of_other.key, f"this isn't the key of the certificate {of.certificate}"),
            (("--etcd-user", "ann", "--etcd-password-file", empty), "--etcd-password-file", empty, "a password is one line of text, and this file is empty"),
            (("--etcd-user", "ann", "--etcd-password-file", image), "--etcd-password-file", image, "a password is one line of text, and this file has something else"),
        ):
            with self.subTest(words):
                self.assertEqual(self.says("--etcd", "127.0.0.1:1", *words), (66, f"labrun-broker: {option} {path}: {why}\n"))


class Certified(NamedTuple):
    certificate: str
    key: str


def certified(test: unittest.TestCase) -> Certified:
    folder = test.enterContext(tempfile.TemporaryDirectory())
    its = Certified(f"{folder}/certificate", f"{folder}/key")
    words = ["openssl", "req", "-x509", "-newkey", "ec", "-pkeyopt", "ec_paramgen_curve:prime256v1", "-nodes", "-days", "2", "-subj", "/CN=labrun"]
    subprocess.run([*words, "-addext", "subjectAltName=IP:127.0.0.1", "-keyout", its.key, "-out", its.certificate], check=True, capture_output=True)
    return its


if __name__ == "__main__":
    unittest.main()
