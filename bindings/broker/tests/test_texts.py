"""What is told to whoever isn't let in: each in one line, and what to do."""

import contextlib
import io
import os
import pathlib
import re
import shlex
import shutil
import signal
import socket
import socketserver
import subprocess
import sys
import tempfile
import threading
import time
import unittest
from importlib.util import find_spec
from typing import Any
from unittest import mock

import grpc

import labrun_broker
from labrun_broker import finding
from labrun_broker.command import main
from labrun_broker.credentials import address_with
from labrun_broker.errors import AnswerLost, Unreachable, maybe_done, why_lost
from labrun_broker.texts import may_go_on, may_hold, typed, why_none
from tests.brokers import BAY, COMMAND, LIMIT, Broker, OnBroker, free_port, heard, station, stopped
from tests.proxies import Proxy, Ways


class SpeaksHttp(socketserver.BaseRequestHandler):
    def handle(self) -> None:
        self.request.recv(1000)
        self.request.sendall(b"HTTP/1.0 400 Bad Request\r\nContent-Length: 0\r\n\r\n")
        while self.request.recv(1000):
            pass


class SpeaksFirst(socketserver.BaseRequestHandler):
    def handle(self) -> None:
        self.request.sendall(b"220 bench-3 is ready for mail\r\n")
        while self.request.recv(1000):
            pass


class Http(unittest.TestCase):
    def serves(self, kind: type[socketserver.BaseServer], at: object, speaks: type[socketserver.BaseRequestHandler] = SpeaksHttp) -> Any:
        server = kind(at, speaks)  # type: ignore[arg-type]
        self.addCleanup(server.server_close)
        threading.Thread(target=server.serve_forever, args=(0.05,), daemon=True).start()
        self.addCleanup(server.shutdown)
        return server.server_address

    def test_who_speaks_http(self) -> None:
        """As the socket for curl beside that of a broker: it is told at once, and what to write instead."""
        folder = self.enterContext(tempfile.TemporaryDirectory())
        sock = f"unix:{self.serves(socketserver.ThreadingUnixStreamServer, f'{folder}/bay.sock.http')}"
        port = self.serves(socketserver.ThreadingTCPServer, ("127.0.0.1", 0))[1]
        why = "can't be reached: somebody speaks HTTP there, and not as the clients of a broker do"
        other = self.serves(socketserver.ThreadingTCPServer, ("127.0.0.1", 0), SpeaksFirst)[1]
        rows = [(sock, f"{why}: leave out `.http`, which is for curl and the like"), (f"127.0.0.1:{port}", why)]
        rows.append((f"127.0.0.1:{other}", "can't be reached: somebody else than a broker is there"))
        for at, said in rows:
            text = f"the broker at {at} {said}"
            with self.subTest(at), labrun_broker.connect(at) as lab:
                for act in (lab.status, lab.hold("scope").acquire):
                    with self.assertRaisesRegex(Unreachable, f"^{re.escape(text)}$"):
                        act()
            with contextlib.redirect_stderr(io.StringIO()) as told:
                self.assertEqual(main(["hold", "scope", "--quiet", "--broker", at, "--", "true"]), 69)
            self.assertEqual(told.getvalue(), f"labrun-broker: {text}\n")


@unittest.skipUnless(shutil.which("openssl"), "there is no openssl")
class Network(OnBroker):
    def setUp(self) -> None:
        self.folder = self.enterContext(tempfile.TemporaryDirectory())
        for name in ("one", "other"):
            words = ["openssl", "req", "-x509", "-newkey", "ec", "-pkeyopt", "ec_paramgen_curve:prime256v1", "-nodes", "-days", "2", "-subj", "/CN=localhost"]
            words += ["-addext", "subjectAltName=DNS:localhost", "-keyout", f"{self.folder}/{name}.key", "-out", f"{self.folder}/{name}"]
            subprocess.run(words, check=True, stderr=subprocess.DEVNULL)
        for name in ("token", "wrong"):
            with open(os.open(f"{self.folder}/{name}", os.O_WRONLY | os.O_CREAT, 0o600), "w", encoding="ascii") as file:
                file.write(name * 8)

    def test_who_isnt_let_in(self) -> None:
        safe, plain = free_port(), free_port()
        tls = ("--tls-certificate", f"{self.folder}/one", "--tls-key", f"{self.folder}/one.key", "--token-file", f"{self.folder}/token")
        broker = self.broker(BAY, "--listen", f"localhost:{safe}", *tls)
        self.broker(BAY, "--listen", f"localhost:{plain}")
        rows = (
            (safe, "localhost", [], "can't be reached: it closed the connection (a broker with TLS wants --certificate FILE, or LABRUN_BROKER_CERTIFICATE_FILE)"),
            (safe, "localhost", ["one"], "doesn't let this client in: this broker asks for its token: give its file by --token-file, or by LABRUN_BROKER_TOKEN_FILE"),
            (safe, "localhost", ["one", "wrong"], "doesn't let this client in: this isn't its token"),
            (safe, "127.0.0.1", ["one", "token"], "can't be reached: its certificate is for another name: call it by that"),
            (safe, "localhost", ["other", "token"], "can't be reached: it has another certificate than --certificate says"),
            (plain, "localhost", ["one"], "can't be reached: it has no TLS: come without --certificate"),
        )
        if find_spec("aiohttp"):
            by_http = free_port()
            self.broker(BAY, "--http", f"localhost:{by_http}", *tls)
            rows += ((by_http, "localhost", ["one", "token"], "can't be reached: somebody speaks HTTP there, and not as the clients of a broker do"),)
        for port, host, files, said in rows:
            options = [it for option, name in zip(("--certificate", "--token-file"), files) for it in (option, f"{self.folder}/{name}")]
            for words in (["hold", "scope", "-n", *options, "--broker", f"{host}:{port}", "--", "true"], ["status", *options, "--broker", f"{host}:{port}"]):
                with self.subTest(words):
                    done = broker.ran(*words)
                    self.assertEqual((done.returncode, done.stderr), (69, f"labrun-broker: the broker at {host}:{port} {said}\n"))
        broker.end()
        self.assertEqual([it for it in broker.said.splitlines() if not it.startswith("labrun-broker: ")], [])

    def test_one_that_is_stopped_for_a_while(self) -> None:
        """What it says first, by TLS, doesn't come within five seconds; that is tried again for as long as without."""
        at = f"localhost:{free_port()}"
        broker = self.broker(BAY, "--listen", at, "--tls-certificate", f"{self.folder}/one", "--tls-key", f"{self.folder}/one.key", "--token-file", f"{self.folder}/token")
        words = ["hold", "scope", "--quiet", "--broker", at, "--certificate", f"{self.folder}/one", "--token-file", f"{self.folder}/token", "--", "echo", "ran"]
        with stopped(broker):
            runs = broker.started(*words)
            self.addCleanup(runs.kill)
            time.sleep(8)
        out, said = runs.communicate(timeout=LIMIT)
        self.assertEqual((out, runs.returncode), ("ran\n", 0), said)

    def test_who_isnt_let_in_by_one_of_several(self) -> None:
        """The others stand by: that nobody listens there says nothing."""
        port = free_port()
        tls = ("--tls-certificate", f"{self.folder}/one", "--tls-key", f"{self.folder}/one.key", "--token-file", f"{self.folder}/token")
        broker = self.broker(BAY, "--listen", f"localhost:{port}", *tls)
        several = [f"localhost:{it}" for it in (free_port(), port, free_port())]
        rows = (
            ("localhost", "", "it closed the connection (a broker with TLS wants --certificate FILE, or LABRUN_BROKER_CERTIFICATE_FILE)"),
            ("127.0.0.1", "one", "its certificate is for another name: call it by that"),
            ("localhost", "other", "it has another certificate than --certificate says"),
        )
        for host, name, said in rows:
            addresses, file = ",".join(several).replace("localhost", host), f"{self.folder}/{name}" if name else None
            text = f"the broker at {addresses} can't be reached: {said}"
            with self.subTest(text):
                options = ["--certificate", file] if file else []
                done = broker.ran("hold", "scope", "--timeout", "2", *options, "--broker", addresses, "--", "true")
                self.assertEqual((done.returncode, done.stderr.splitlines()[-1]), (69, f"labrun-broker: {text}"))
                with mock.patch.object(finding, "FAILOVER", 1.0), labrun_broker.connect(addresses, certificate_file=file) as lab:
                    with self.assertRaisesRegex(Unreachable, f"^{re.escape(text)}$"):
                        lab.status()

    def advised(self, text: str) -> list[str]:
        """The commands of a message, word for word, as a shell has them; what is to be put in place of NAME isn't known."""
        return [re.sub("^labrun-broker ", f"{shlex.join(COMMAND)} ", it) for it in re.findall("`(labrun-broker [^`]*)`", text) if " NAME" not in it]

    def does_as_advised(self, text: str, given: dict[str, str]) -> None:
        self.assertTrue(commands := self.advised(text), text)
        for it in commands:
            done = subprocess.run(["sh", "-c", it], env={**os.environ, **given}, capture_output=True, text=True, timeout=LIMIT)
            self.assertEqual((done.returncode, done.stderr), (0, ""), it)

    def with_files(self) -> tuple[Broker, str, tuple[list[str], dict[str, str]], tuple[list[str], dict[str, str]]]:
        """A broker that asks for its token, behind TLS, and its address; the files of a client, by words that a shell has to have quoted, or by
        variables."""
        port, own = free_port(), f"{self.folder}/ann's own"
        os.mkdir(own)
        for name in ("one", "token"):
            shutil.copy(f"{self.folder}/{name}", own)
        tls = ("--tls-certificate", f"{self.folder}/one", "--tls-key", f"{self.folder}/one.key", "--token-file", f"{self.folder}/token")
        broker = self.broker(BAY, "--state", "FOLDER/state", "--listen", f"localhost:{port}", *tls)
        words = (["--certificate", f"{own}/one", "--token-file", f"{own}/token"], {})
        variables = ([], {"LABRUN_BROKER_CERTIFICATE_FILE": f"{own}/one", "LABRUN_BROKER_TOKEN_FILE": f"{own}/token"})
        return broker, f"localhost:{port}", words, variables

    def test_the_advice_of_one_that_waited(self) -> None:
        """It is as this client asks, word for word."""
        broker, at, *ways = self.with_files()
        self.lab(broker).hold("scope").acquire()
        program = "import sys; from labrun_broker import coming, command; coming.GRACE = 0.5; sys.exit(command.main())"
        for words, given in ways:
            line = [sys.executable, "-c", program, "hold", "scope", "--broker", at, *words, "--", "true"]
            with self.subTest(words), subprocess.Popen(line, env={**os.environ, **given}, stderr=subprocess.PIPE, text=True) as one, contextlib.ExitStack() as ends:
                ends.callback(one.kill)
                self.assertIn("waits: scope has been held by guest-1", heard(one.stderr))
                broker.kill()
                said = one.communicate(timeout=LIMIT)[1]
                broker.begin()
                self.assertIn("the session may hold all the same", said)
                self.assertEqual((f" --certificate '{self.folder}/" in said, " --token-file " in said), (bool(words), bool(words)), said)
                self.does_as_advised(said, given)

    def test_the_advice_of_one_that_held(self) -> None:
        """Its session goes on, and is released as it says."""
        broker, at, *files = self.with_files()
        lab = self.lab(broker)
        with Ways() as ways:
            for words, given in files:
                with contextlib.closing(Proxy(ways, int(at.partition(":")[2]))) as way:
                    line = [*COMMAND, "hold", "scope", "-n", "--station", "board", "--broker", f"localhost:{way.port}", *words, "--", "sh", "-c", "echo runs; read end"]
                    pipes: dict[str, Any] = dict.fromkeys(("stdin", "stdout", "stderr"), subprocess.PIPE)
                    with self.subTest(words), subprocess.Popen(line, env={**os.environ, **given}, text=True, **pipes) as one, contextlib.ExitStack() as ends:
                        ends.callback(one.kill)
                        assert one.stdin is not None and one.stdout is not None
                        self.assertEqual(one.stdout.readline(), "runs\n")
                        way.cut("both")
                        one.stdin.close()
                        self.assertIn("the broker hasn't answered yet; hold keeps trying to tell it", heard(one.stderr))
                        one.send_signal(signal.SIGINT)
                        said = heard(one.stderr)
                        one.wait(LIMIT)
                        way.mend()
                        self.assertIn("the session may go on holding", said)
                        self.does_as_advised(said, given)
                        self.assertEqual(station(lab, "board")["state"], "idle")

    def test_the_advice_of_one_that_leaves(self) -> None:
        """By a socket, too."""
        broker, token = self.broker(), f"{self.folder}/token"
        self.lab(broker).hold("scope").acquire()
        program = f"import sys; from labrun_broker import command, leaving; leaving.GIVING_UP, leaving.UNTOLD = {10 * LIMIT}, 0.1; sys.exit(command.main())"
        line = [sys.executable, "-c", program, "hold", "scope", "--broker", broker.address, "--token-file", token, "--", "true"]
        with subprocess.Popen(line, stderr=subprocess.PIPE, text=True) as one, contextlib.ExitStack() as ends:
            ends.callback(one.kill)
            self.assertIn("waits: scope has been held by guest-1", heard(one.stderr))
            with stopped(broker):
                one.send_signal(signal.SIGINT)
                self.assertIn("the broker doesn't answer, and is told for some seconds", heard(one.stderr))
                one.send_signal(signal.SIGTERM)
                said = one.communicate(timeout=LIMIT)[1]
        self.assertIn(f"`labrun-broker release NAME --broker {broker.address} --token-file {token}`", said)
        self.does_as_advised(said, {})

    def test_the_advice_of_a_program(self) -> None:
        _, at, (words, _), (_, given) = self.with_files()
        of = {"certificate_file": words[1], "token_file": os.fsencode(words[3])}
        for files, variables in ((of, {}), ({}, given)):
            with self.subTest(files), mock.patch.dict(os.environ, variables), labrun_broker.connect(at, **files) as lab:  # type: ignore[arg-type]
                said = maybe_done(lab.address, AnswerLost("it ended"), True)
                self.assertEqual("ann" in said, bool(files), said)
                self.does_as_advised(said, variables)

    def test_a_key_of_another_certificate(self) -> None:
        words = ["--tls-certificate", f"{self.folder}/one", "--tls-key", f"{self.folder}/other.key", "--token-file", f"{self.folder}/token"]
        with open(f"{self.folder}/bay.toml", "w", encoding="utf-8") as file:
            file.write(BAY)
        done = subprocess.run([*COMMAND, "serve", file.name, "--listen", f"localhost:{free_port()}", *words], capture_output=True, text=True, timeout=LIMIT)
        self.assertEqual((done.returncode, len(done.stderr.splitlines())), (78, 1), done.stderr)
        self.assertIn(f"--tls-key {self.folder}/other.key: this isn't the key of the certificate {self.folder}/one", done.stderr)


class OfABrokerThatIsLost(unittest.TestCase):
    def test_why_there_is_no_connection(self) -> None:
        several = "Multiple exceptions: [Errno 111] Connect call failed ('::1', 1, 0, 0), [Errno 111] Connect call failed ('127.0.0.1', 1)"
        for fault, why in (
            (TimeoutError(), "nothing came (it is stopped, or the network is cut)"),
            (ConnectionRefusedError(111, "Connect call failed ('127.0.0.1', 15999)"), "connection refused"),
            (OSError(several), "connection refused"),
            (OSError(113, "No route to host"), "no route to host"),
            (TimeoutError(110, "Connection timed out"), "connection timed out"),
            (socket.gaierror(-2, "Name or service not known"), "name or service not known"),
            (OSError(), "OSError"),
        ):
            with self.subTest(repr(fault)):
                self.assertEqual(why_none(fault), why)

    def test_a_broker_that_ends(self) -> None:
        """It may have done what was asked."""
        fault = why_lost("unix:/there", grpc.StatusCode.UNAVAILABLE, "Cancelling all calls")
        self.assertEqual((type(fault), str(fault)), (AnswerLost, "the broker at unix:/there can't be reached: it has ended"))

    def test_what_may_be_done(self) -> None:
        """Once there was a connection, what was asked may have been done."""
        rows = (
            ("Socket closed", AnswerLost, "it closed the connection"),
            ("recvmsg:Connection reset by peer", AnswerLost, "it closed the connection"),
            ("recvmsg:Connection timed out", AnswerLost, "it doesn't answer any more"),
            ("failed to connect to all addresses; last error: UNKNOWN: ipv4:10.0.0.1:7443: Network is unreachable", Unreachable, "Network is unreachable"),
        )
        for text, kind, why in rows:
            fault = why_lost("10.0.0.1:7443", grpc.StatusCode.UNAVAILABLE, text)
            self.assertEqual((type(fault), str(fault)), (kind, f"the broker at 10.0.0.1:7443 can't be reached: {why}"))


class WhatToType(unittest.TestCase):
    """Each command that is advised asks the broker that it is about, as it is typed."""

    def test_where_it_asks(self) -> None:
        usual = "unix:/run/labrun/bay.sock"
        for variable, address, at in (
            (None, usual, ""),
            ("", usual, ""),
            (None, "bench-3:7443", " --broker bench-3:7443"),
            ("bench-3:7443", "bench-3:7443", ""),
            ("bench-3:7443", usual, f" --broker {usual}"),
            ("bench-3:7443", "bench-4:7443", " --broker bench-4:7443"),
            ("bench-1:7443,bench-2:7443", "bench-1:7443,bench-2:7443", ""),
            (None, "bench-1:7443,bench-2:7443", " --broker bench-1:7443,bench-2:7443"),
            (None, "unix:/tmp/my bay.sock", " --broker 'unix:/tmp/my bay.sock'"),
            (None, "[::1]:7443", " --broker '[::1]:7443'"),
        ):
            with self.subTest(variable, address=address), mock.patch.dict(os.environ):
                os.environ.pop("LABRUN_BROKER", None)
                os.environ.update({} if variable is None else {"LABRUN_BROKER": variable})
                self.assertEqual(typed(address, "status"), f"`labrun-broker status{at}`")
                gives_up = f"the session may hold all the same: if `labrun-broker status{at}` shows board as gone, end it by `labrun-broker release board{at}`"
                self.assertEqual(may_hold(address, "board"), gives_up)
                release = f"`labrun-broker release board --session 3{at}`"
                stays = f"the session may go on holding, as `labrun-broker status{at}` says, until"
                self.assertEqual(may_go_on(address, "board", 3, False), f"{stays} it is released by {release}")
                self.assertEqual(may_go_on(address, "board", 3, True), f'{stays} the broker releases it (gone = "release"), or {release} does')
                lost = f"it ended; it may have been done, or not: see `labrun-broker status{at}`, and try again"
                self.assertEqual(maybe_done(address, AnswerLost("it ended"), True), lost)


    def test_by_which_files(self) -> None:
        """By those that were given by words; of the others the same variable tells it."""
        rows: tuple[tuple[Any, Any, str], ...] = (
            (None, None, ""),
            ("", "", ""),
            ("token", None, " --token-file token"),
            (None, "it.crt", " --certificate it.crt"),
            ("/home/ann/my token", b"ann's", " --token-file '/home/ann/my token' --certificate 'ann'\"'\"'s'"),
            (pathlib.Path("a/token"), pathlib.Path("b/crt"), " --token-file a/token --certificate b/crt"),
        )
        given = {"LABRUN_BROKER_TOKEN_FILE": "/there/token", "LABRUN_BROKER_CERTIFICATE_FILE": "/there/crt", "LABRUN_BROKER": "bench-3:7443"}
        for token, certificate, more in rows:
            for variables in ({}, given):
                with self.subTest(token=token, certificate=certificate), mock.patch.dict(os.environ):
                    for name in given:
                        os.environ.pop(name, None)
                    os.environ.update(variables)
                    address = address_with("bench-3:7443", token, certificate)
                    at = more if variables else f" --broker bench-3:7443{more}"
                    self.assertEqual(address, "bench-3:7443")
                    self.assertEqual(typed(address, "status"), f"`labrun-broker status{at}`")
                    self.assertIn(f"by `labrun-broker release board{at}`", may_hold(address, "board"))
                    self.assertIn(f"by `labrun-broker release board --session 3{at}`", may_go_on(address, "board", 3, False))
                    self.assertIn(f"see `labrun-broker status{at}`", maybe_done(address, AnswerLost("it ended"), True))


@unittest.skipUnless(os.geteuid() == 0 and shutil.which("su"), "only root can be somebody else")
class OfAnotherGroup(OnBroker):
    def test_who_may_not_use_the_socket(self) -> None:
        broker = self.broker()
        os.chmod(broker.folder, 0o755)
        given = {"PYTHONPATH": ":".join(map(os.path.abspath, os.environ["PYTHONPATH"].split(":"))), "LABRUN_BROKER": broker.address}
        for words in (["hold", "scope", "--", "true"], ["status"]):
            script = shlex.join(["env", *(f"{name}={it}" for name, it in given.items()), *COMMAND, *words])
            done = subprocess.run(["su", "-s", "/bin/sh", "nobody", "-c", script], capture_output=True, text=True, timeout=LIMIT)
            why = "permission denied (who may use it is in the group root)"
            self.assertEqual(done.stderr, f"labrun-broker: the broker at {broker.address} can't be reached: {why}\n")


if __name__ == "__main__":
    unittest.main()
