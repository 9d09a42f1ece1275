"""The command: its words, what they say, and their statuses."""

import contextlib
import fcntl
import io
import json
import os
import pty
import re
import select
import shlex
import signal
import socket
import subprocess
import sys
import tempfile
import time
import unittest
from importlib.util import find_spec
from typing import Any
from unittest import mock

import labrun
from labrun_broker.__main__ import main as begins
from labrun_broker.client import _who
from labrun_broker.command import main
from labrun_broker.run import Signals
from labrun_broker.telling import lines_of
from tests.brokers import BAY, COMMAND, IGNORED, IGNORES, LIMIT, SOON, TOP, UNHEARD, Broker, OnBroker, free_port, heard, station, stopped, until

# (two runs of these tests at once look for the sleeps of their own)
SPAN = os.getpid()
# lines that a `hold` says only where something takes long, as it may on a busy machine
BUSY = re.compile(r"^labrun-broker: (?:waits: |waits until |the broker doesn't answer, and is told ).*\n", re.M)


def ran(*words: str, **more: str) -> "subprocess.CompletedProcess[str]":
    return subprocess.run([*COMMAND, *words], env={**os.environ, **more}, capture_output=True, text=True, timeout=LIMIT)


def made(path: str) -> None:
    """A file for which something waits."""
    with open(path, "w", encoding="utf-8"):
        pass


# a bay whose file says no name
SHORT = 'instruments = ["scope"]\n[guests]\ncount = 1\n'
# with what no machine has
OTHERS = """
instruments = ["scope", "load"]
operators = ["ana"]
[guests]
count = 1
[people]
ana = {unix = "no-such-user"}
[on_release]
scope = "no-such-command --off"
load = "FOLDER/bay.toml"
"""


class WithoutBroker(unittest.TestCase):
    def setUp(self) -> None:
        self.folder = self.enterContext(tempfile.TemporaryDirectory())
        for name, text in (("bay.toml", BAY), ("bad.toml", 'instruments = ["scope", "scope"]\ncolour = 5\n'), ("short.toml", SHORT), ("open", "0123456789abcdef"), ("short", "x")):
            with open(f"{self.folder}/{name}", "w", encoding="utf-8") as file:
                file.write(text)
            os.chmod(file.name, 0o644 if name == "open" else 0o600)
        with open(f"{self.folder}/lab.toml", "w", encoding="utf-8") as file:
            file.write('[bays]\nnorth = "no.toml"\n')
        with open(f"{self.folder}/other.toml", "w", encoding="utf-8") as file:
            file.write(OTHERS.replace("FOLDER", self.folder))

    def taken(self) -> int:
        """A port where somebody listens."""
        one = socket.create_server(("127.0.0.1", 0))
        self.addCleanup(one.close)
        return int(one.getsockname()[1])

    def test_files_of_a_client(self) -> None:
        """They are read before anything is asked or said; and which one is wrong is told, and by what it was named."""
        for name in ("empty", "junk"):
            with open(f"{self.folder}/{name}", "w", encoding="ascii") as file:
                file.write("" if name == "empty" else "junk")
        no, empty, junk = (f"{self.folder}/{name}" for name in ("no", "empty", "junk"))
        rows = (
            (["--certificate", no], {}, f"--certificate {no}: there is no such file"),
            (["--certificate", self.folder], {}, f"--certificate {self.folder}: Is a directory"),
            (["--certificate", junk], {}, f"--certificate {junk}: there is no certificate in it (as PEM)"),
            (["--token-file", no], {}, f"--token-file {no}: there is no such file"),
            (["--token-file", empty], {}, f"--token-file {empty}: a token is one line of letters, digits and signs, and this file is empty"),
            ([], {"LABRUN_BROKER_TOKEN_FILE": no}, f"LABRUN_BROKER_TOKEN_FILE {no}: there is no such file"),
        )
        for options, variables, why in rows:
            for words in (["status"], ["hold", "scope", "--timeout", "0"]):
                with self.subTest(options, words=words), mock.patch.dict(os.environ, variables), contextlib.redirect_stderr(io.StringIO()) as said:
                    # (whoever asked would be told that nobody is there)
                    self.assertEqual(main([*words, *options, "--broker", f"unix:{self.folder}/no.sock", *(["--", "true"] if words[0] == "hold" else [])]), 66)
                    self.assertEqual(said.getvalue(), f"labrun-broker: {why}\n")

    def test_where_the_page_and_the_numbers_are(self) -> None:
        """If nobody can listen there, it says whose address that is."""
        for option, package in (("--page", "aiohttp"), ("--metrics", "prometheus_client")):
            if not find_spec("aiohttp") or not find_spec(package):
                continue
            port = self.taken()
            with self.subTest(option):
                done = ran("serve", f"{self.folder}/bay.toml", "--listen", f"unix:{self.folder}/b.sock", option, f"127.0.0.1:{port}")
                told = f"labrun-broker: {option} 127.0.0.1:{port}: it can't listen there: Address already in use\n"
                self.assertEqual((done.returncode, done.stderr), (78, told))

    def test_words_and_statuses(self) -> None:
        bay, nowhere = f"{self.folder}/bay.toml", f"unix:{self.folder}/no.sock"
        outside, tls, token = ["serve", bay, "--listen", "0.0.0.0:0"], ["--tls-certificate"], ["--token-file", f"{self.folder}/short"]
        wanted = "unix:PATH or HOST:PORT is wanted, with a port of up to 65535"
        others = f"ok {self.folder}/other.toml: bay, 2 instruments, 0 stations, 1 guest, gone = keep\n"
        rows = (
            (["bay", "check", bay], 0, f"ok {bay}: bay north, 4 instruments, 2 stations, 4 guests, gone = keep\n", ""),
            (["bay", "check", f"{self.folder}/short.toml"], 0, f"ok {self.folder}/short.toml: bay, 1 instrument, 0 stations, 1 guest, gone = keep\n", ""),
            (["bay", "check", f"{self.folder}/bad.toml"], 1, "", "bad.toml: colour: there is no such key"),
            (["bay", "check", f"{self.folder}/bad.toml"], 1, "", "bad.toml: instruments: scope is there twice"),
            (["bay", "check", f"{self.folder}/no.toml"], 66, "", f"labrun-broker: {self.folder}/no.toml: there is no such file\n"),
            (["serve", f"{self.folder}/no.toml"], 66, "", f"labrun-broker: {self.folder}/no.toml: there is no such file\n"),
            (["guard", f"{self.folder}/no.toml"], 66, "", f"labrun-broker: {self.folder}/no.toml: there is no such file\n"),
            (["bay", "check", f"{self.folder}/lab.toml"], 66, "", f"labrun-broker: {self.folder}/lab.toml: bays.north: {self.folder}/no.toml: No such file or directory\n"),
            (["serve", f"{self.folder}/lab.toml"], 66, "", f"labrun-broker: {self.folder}/lab.toml: bays.north: {self.folder}/no.toml: No such file or directory\n"),
            # (the broker may be for another machine)
            (["bay", "check", f"{self.folder}/other.toml"], 0, others, "other.toml: people.ana.unix: this machine has no user no-such-user\n"),
            (["bay", "check", f"{self.folder}/other.toml"], 0, others, "other.toml: on_release.scope: this machine has no command no-such-command\n"),
            (["bay", "check", f"{self.folder}/other.toml"], 0, others, f"other.toml: on_release.load: {self.folder}/bay.toml can't be run on this machine\n"),
            (["serve", bay, "--listen", nowhere, "--token-file", "none"], 66, "", "labrun-broker: --token-file none: there is no such file\n"),
            ([*outside, *tls, "none", "--tls-key", bay, *token], 66, "", "labrun-broker: --tls-certificate none: there is no such file\n"),
            ([*outside, *tls, bay, "--tls-key", "none", *token], 66, "", "labrun-broker: --tls-key none: there is no such file\n"),
            ([*outside, *tls, bay, "--tls-key", self.folder, *token], 66, "", f"labrun-broker: --tls-key {self.folder}: Is a directory\n"),
            ([], 2, "", "required: WORD"),
            (["fly"], 2, "", "labrun-broker: error: there is no word fly: there are serve, hold, guard, status, top, release, disable, enable, token, report, gantt, table, bay, manual; labrun-broker --help\n"),
            (["oven"], 2, "", "gantt, table, bay, manual; labrun-broker --help\n"),
            (["scope", "-n", "--", "true"], 2, "", "there is no word scope: to hold what is called so, labrun-broker hold scope -n -- ..; labrun-broker --help\n"),
            (["2 of load-*", "--by", "night run", "--", "true"], 2, "", "to hold what is called so, labrun-broker hold '2 of load-*' --by 'night run' -- ..; labrun-broker --help\n"),
            (["hodl", "scope", "--", "true"], 2, "", "bay, manual (did you mean hold?); labrun-broker --help\n"),
            (["relese", "board"], 2, "", "bay, manual (did you mean release?); labrun-broker --help\n"),
            (["hold", "scope"], 2, "", "say what to run, behind `--`"),
            (["hold", "scope", "--broker", nowhere, "--", ""], 2, "", "say what to run, behind `--`"),
            (["hold", "scope", "--station", "", "--", "true"], 2, "", "argument --station: an empty name is no station; a guest says none; labrun-broker"),
            (["hold", "scope", "-n", "--timeout", "5", "--", "true"], 2, "", "argument --timeout: not allowed with argument -n/--no-wait; labrun-broker"),
            (["hold", "--", "true"], 2, "", "required: INSTRUMENT"),
            (["hold", "scope", "--timeout", "soon", "--", "true"], 2, "", "argument --timeout: 'soon' is no number of seconds, 0 or more and below 1000000000; labrun-broker hold --help\n"),
            (["hold", "scope", "--limit", "-2h", "--", "true"], 2, "", "argument --limit: '-2h' is no span of more than 0 and below 1000000000 s: write 90, 30s, 15min, 4h or 2d; labrun-broker"),
            (["status", "--", "true"], 2, "", "only hold runs something"),
            (["status", "--broker", nowhere], 69, "", "no.sock can't be reached"),
            (["hold", "scope", "--broker", nowhere, "--", "true"], 69, "", "no.sock can't be reached"),
            *((["status", "--broker", it], 69, "", f"the broker at {it} can't be reached: {wanted}") for it in ("unix:", "tcp://127.0.0.1:1", "127.0.0.1:99999")),
            (["serve", f"{self.folder}/bad.toml"], 78, "", "scope is there twice"),
            (["serve", bay, "--listen", "scope"], 78, "", "scope: unix:PATH or HOST:PORT is wanted"),
            (["serve", bay, "--listen", "127.0.0.1:99999"], 78, "", "127.0.0.1:99999: it can't listen there"),
            (["serve", bay, "--listen", f"127.0.0.1:{self.taken()}"], 78, "", "it can't listen there: Address already in use"),
            (["serve", bay, "--listen", "unix:" + bay + ".sock", "--state", bay], 66, "", f"labrun-broker: {bay}: it isn't a folder, and the broker keeps its state in one\n"),
            (["serve", bay, "--listen", "unix:" + bay + ".sock", "--state", f"{bay}/state"], 66, "", f"labrun-broker: {bay}/state: Not a directory\n"),
            (["serve", bay, "--listen", "unix:/no/where"], 78, "", "unix:/no/where: no socket can be made in /no"),
            (["serve", bay, "--listen", f"unix:{bay}"], 78, "", "bay.toml: that is there, and is no socket"),
            (["serve", bay, "--listen", nowhere, "--group", "no-such-group"], 78, "", "--group no-such-group: there is no such group"),
            (outside, 78, "", "0.0.0.0:0 is seen by other machines: that takes a certificate and a token"),
            ([*outside, "--token-file", f"{self.folder}/short"], 78, "", "takes a certificate and a token"),
            ([*outside, "--tls-key", "key"], 78, "", "a certificate and its key belong together"),
            (["serve", bay, "--listen", "127.0.0.1:0", "--token-file", f"{self.folder}/short"], 66, "", "a token is one line of letters, digits and signs, 16 or more"),
            (["serve", bay, "--listen", "127.0.0.1:0", "--token-file", f"{self.folder}/open"], 78, "", "everybody on this machine may read it"),
        )
        for words, status, out, fault in rows:
            with self.subTest(words):
                said, complained = io.StringIO(), io.StringIO()
                with contextlib.redirect_stdout(said), contextlib.redirect_stderr(complained):
                    try:
                        found: object = main(words)
                    except SystemExit as end:  # (as argparse ends)
                        found = end.code
                self.assertEqual((found, said.getvalue()), (status, out), complained.getvalue())
                self.assertIn(fault, complained.getvalue())

    def said(self, *words: str) -> str:
        """By words that aren't right."""
        complained = io.StringIO()
        with contextlib.redirect_stderr(complained), self.assertRaises(SystemExit) as end:
            main(words)
        self.assertEqual(end.exception.code, 2)
        return complained.getvalue()

    def test_bytes_that_are_no_utf_8(self) -> None:
        odd = b"sc\xf6pe".decode("utf-8", "surrogateescape")
        for words in (["release", odd], ["disable", odd], ["disable", "scope", odd], ["enable", odd], ["hold", "scope", "--by", odd]):
            with self.subTest(words):
                self.assertIn(": sc\\xf6pe isn't UTF-8; labrun-broker ", self.said(*words))

    def test_an_option_that_isnt_there(self) -> None:
        """The usage and the help that are named are those of the word that was typed."""
        for words, usage, fault in (
            (["hold", "scope", "--tiemout", "3"], "hold INSTRUMENT .. [options] -- COMMAND", "unrecognized arguments: --tiemout 3 (did you mean --timeout?); labrun-broker hold --help"),
            (["hold", "--tiemout=3", "scope"], "hold INSTRUMENT .. [options] -- COMMAND", "unrecognized arguments: --tiemout=3 (did you mean --timeout?); labrun-broker hold --help"),
            (["status", "--jsn"], "status [-h] [--json]", "unrecognized arguments: --jsn (did you mean --json?); labrun-broker status --help"),
            (["status", "board"], "status [-h] [--json]", "unrecognized arguments: board; labrun-broker status --help"),
            (["release"], "release [-h] [--session N]", "the following arguments are required: STATION; labrun-broker release --help"),
            (["manual"], "manual [-h]", "the following arguments are required: {man,bash,zsh}; labrun-broker manual --help"),
            (["bay", "chek", "bay.toml"], "bay [-h] [--check]", "argument {check,apply,split}: invalid choice: 'chek' (choose from 'check', 'apply', 'split'); labrun-broker bay --help"),
        ):
            with self.subTest(words):
                said = self.said(*words)
                self.assertTrue(said.startswith(f"usage: labrun-broker {usage}"), said)
                self.assertEqual(said.splitlines()[-1], f"labrun-broker {words[0]}: error: {fault}")

    def test_numbers_that_cant_be(self) -> None:
        """Each is refused at once, by its name and with its range: nobody is asked."""
        of_seconds, of_span = "is no number of seconds, 0 or more and below 1000000000", "is no span of more than 0 and below 1000000000 s: write 90, 30s, 15min, 4h or 2d"
        rows = [(["hold", "scope", "--timeout", it], f"argument --timeout: {it!r} {of_seconds}") for it in ("-1", "soon", "nan", "1e9", "")]
        rows += [(["hold", "scope", "--limit", it], f"argument --limit: {it!r} {of_span}") for it in ("0", "0s", "-1", "soon", "99999999d", "")]
        rows += [(["table", "/tmp", "--last", "0"], f"argument --last: '0' {of_span}")]
        rows += [(["serve", "bay.toml", "--lease", it], f"argument --lease: {it}: whole seconds from 2 to 10 are wanted") for it in ("0", "-1", "11", "x")]
        rows += [(["serve", "bay.toml", "--grace", "-1"], f"argument --grace: '-1' {of_seconds}"), (["guard", "f", "--settle", "-1"], f"argument --settle: '-1' {of_seconds}")]
        rows += [(["serve", "bay.toml", "--journal-size", it], f"argument --journal-size: {it!r} is no number of MiB from 0.001 to 1048576") for it in ("0", "x")]
        rows += [(["release", "board", "--session", it], f"argument --session: {it!r} is no number of a session, 1 or more") for it in ("0", "-1", "x", "1.5")]
        rows += [(["status", "--broker", ""], "argument --broker: an address is wanted, as unix:PATH or HOST:PORT")]
        with mock.patch("socket.socket", side_effect=AssertionError("a connection")):
            for words, fault in rows:
                with self.subTest(words):
                    self.assertIn(f"labrun-broker {words[0]}: error: {fault}; labrun-broker {words[0]} --help\n", self.said(*words))

    def test_how_the_bay_stands(self) -> None:
        """One session is no `sessions`, and a disk that is at fault is named, with since when."""
        status: dict[str, Any] = {"bay": "north", "at": 1000.0, "since": 900.0, "instruments": [], "stations": [], "in_line": [], "sessions": 1}
        first, second, *_ = lines_of({**status, "disk": "a write failed (No space left on device)", "disk_since": 984.0})
        self.assertRegex(first, "^bay north, 1 session since ")
        self.assertEqual(second, "the broker hasn't been able to write for 16 s: a write failed (No space left on device). Nobody comes to hold until it can")
        self.assertRegex(lines_of({**status, "bay": "bay", "disk": ""})[0], "^bay, 1 session since ")
        first, second, *_ = lines_of({**status, "sessions": 2, "disk": "", "disk_since": None})
        self.assertRegex(first, "^bay north, 2 sessions since ")
        self.assertEqual(second, "")

    def test_where_one_stands_in_line(self) -> None:
        one = {"station": "", "instruments": ["scope"], "by": "ann", "since": 990.0, "place": 4, "passed": 2}
        about = {"name": "guest-1", "state": "waiting", "note": None, "gone_since": None, "waits_for": []}
        status = {"bay": "north", "at": 1000.0, "since": 900.0, "instruments": [], "sessions": 1, "disk": "", "overtakes": 16}
        lines = lines_of({**status, "stations": [{**one, **about, "place": 3}], "in_line": [one]})
        said = [it.split("  ")[-1].strip() for it in lines[-5:]]
        full = "all places for guests are taken (guests.count says how many hold at once)"
        # (of one for which there is no place nothing bounds who goes first)
        self.assertEqual(said, ["ann", "number 3 in line; 2 went before it since it asked, and after 16 what it needs is kept for it", "ann", "number 4 in line", full])

    def test_ctrl_c_while_it_begins(self) -> None:
        """Also before anything of its own is there: by each program that begins it. Nothing else is read before it minds that."""
        script = "import sys; before = set(sys.modules); import labrun_broker.__main__; print(*sorted(set(sys.modules) - before))"
        read = subprocess.run([sys.executable, "-c", script], capture_output=True, text=True, timeout=LIMIT)
        self.assertEqual((read.stdout, read.stderr), ("labrun_broker labrun_broker.__main__\n", ""))

        class Interrupts:
            def find_spec(self, name: str, *_: object) -> None:
                if name == "labrun_broker.command":
                    raise KeyboardInterrupt

        with mock.patch.dict(sys.modules), mock.patch.object(sys, "meta_path", [Interrupts(), *sys.meta_path]):
            del sys.modules["labrun_broker.command"]
            self.assertEqual(begins(), 130)
        for path, wanted in (("bindings/broker/pyproject.toml", 'labrun-broker = "labrun_broker.__main__:main"'), ("scripts/install", "from labrun_broker.__main__ import main")):
            with open(f"{TOP}/{path}", encoding="utf-8") as file:
                self.assertIn(wanted, file.read())

    def test_manual(self) -> None:
        """Each word and option of the help is in the man page and in both completions."""
        texts = {kind: ran("manual", kind).stdout for kind in ("man", "bash", "zsh")}
        words = re.findall(r"(?m)^    (\w+)  ", ran("--help").stdout)
        self.assertLessEqual({"serve", "hold", "status", "top", "release", "report", "bay"}, set(words))
        for word in words:
            options = {"serve": ["--state", "--grace"], "hold": ["--timeout", "--any"], "top": ["--json"]}.get(word, [])
            for one in [word, *options]:
                for kind, text in texts.items():
                    self.assertIn(one.replace("-", "\\-") if kind == "man" else one, text, (kind, one))
        subprocess.run(["bash", "-n"], input=texts["bash"], text=True, check=True)


class WithBroker(OnBroker):
    def test_hold(self) -> None:
        broker = self.broker()
        with self.lab(broker, "board").hold("supply"):
            rows = (
                (["hold", "scope", "load-1", "--", "sh", "-c", "echo $LABRUN_HELD $LABRUN_STATION; exit 7"], 7, "scope load-1 guest-1\n", ""),
                (["hold", "scope", "--station", "radio", "--", "sh", "-c", "echo $LABRUN_STATION"], 0, "radio\n", ""),
                (["hold", "--any", "supply", "load-1,load-2", "--", "sh", "-c", "echo $LABRUN_HELD"], 0, "load-1 load-2\n", ""),
                # (the fifth that is let in)
                (["hold", "scope", "--", "sh", "-c", "echo $LABRUN_TOKEN"], 0, "5\n", ""),
                (["hold", "scope", "--", "sh", "-c", "kill -TERM $$"], 143, "", ""),
                (["hold", "scope", "--", "./nothing"], 127, "", "./nothing: No such file or directory"),
                (["hold", "scope", "--", "/"], 126, "", "/: Permission denied"),
                (["hold", "supply", "--timeout", "0.1", "--", "echo", "ran"], 75, "", "supply has been held by board for"),
                (["hold", "lamp", "--", "echo", "ran"], 2, "", "lamp is no instrument of this bay: there are scope, supply, load-1, load-2\n"),
                (["hold", "scop", "--station", "radio", "--", "echo", "ran"], 2, "", "there are scope, supply, load-1, load-2 (did you mean scope?)\n"),
                (["hold", "--any", "scope", "lod-1", "--", "echo", "ran"], 2, "", "lod-1 is no instrument of this bay"),
                (["hold", "supply", "--station", "radio", "--", "echo", "ran"], 77, "", "radio may not use supply: it may use scope"),
                (["hold", "scope", "--station", "moon", "--", "echo", "ran"], 1, "", "moon is no station of this bay: there are board, radio"),
            )
            for words, status, out, fault in rows:
                with self.subTest(words):
                    done = broker.ran(*words)
                    self.assertEqual((done.returncode, done.stdout), (status, out), done.stderr)
                    self.assertIn(fault, done.stderr)
                    self.assertNotIn("Traceback", done.stderr)

    def test_a_command_is_begun_beside_grpc(self) -> None:
        """gRPC is to keep out of whatever is begun; and the command has nothing of that."""
        broker = self.broker(f'gone = "release"\n{BAY}')
        done = broker.ran("hold", "load-1", "--", "sh", "-c", "echo ${GRPC_ENABLE_FORK_SUPPORT-none} ${GRPC_VERBOSITY-none}")
        self.assertEqual((done.returncode, done.stdout), (0, "none none\n"), done.stderr)
        line = "import argparse, os; from labrun_broker.words import lab_of; args = argparse.Namespace(broker=%r, token_file=None, certificate=None)"
        line += "; lab_of(args).close(); print(os.environ['GRPC_ENABLE_FORK_SUPPORT'])"
        self.assertEqual(subprocess.run([sys.executable, "-c", line % broker.address], capture_output=True, text=True).stdout, "0\n")

    def test_a_choice_by_a_pattern(self) -> None:
        broker = self.broker()
        with self.lab(broker, "board").hold("supply"), self.lab(broker).hold("load-1"):
            rows = (
                (["--any", "load-*"], 0, "load-2\n", ""),
                (["--any", "supply", "l*2"], 0, "load-2\n", ""),
                (["load-*"], 0, "load-2\n", ""),
                (["2 of load-*", "-n"], 75, "", "load-1 has been held by guest-1"),
                (["3 of load-*"], 2, "", "labrun-broker: 3 of load-* are wanted; there are 2: load-1, load-2\n"),
                (["--station", "radio", "l*"], 77, "", "radio may not use l*: it may use scope"),
                (["--any", "0 of load-*"], 2, "", "labrun-broker: 0 of load-*: ask for 1 or more; there are 2: load-1, load-2\n"),
                (["--any", "lamp-*"], 2, "", "labrun-broker: no instrument is like lamp-*: there are scope, supply, load-1, load-2\n"),
                (["tag:lamps"], 2, "", "labrun-broker: lamps is no tag; there are none\n"),
                (["tag:"], 2, "", "labrun-broker: tag: is no tag; there are none\n"),
                ([b"sc\xf6pe".decode("utf-8", "surrogateescape")], 2, "", "argument INSTRUMENT: sc\\xf6pe isn't UTF-8"),
                (["scope", "--station", b"b\xf6".decode("utf-8", "surrogateescape")], 2, "", "argument --station: b\\xf6 isn't UTF-8"),
                (["-n", "load-1"], 75, "", "refused, because it doesn't wait (hold -n, or a timeout of 0): load-1 has been held by guest-1 for"),
                (["--timeout", "0.1", "load-1"], 75, "", "given up when its time was over: load-1 has been held by guest-1 for"),
                (["--no-wait", "scope"], 0, "scope\n", ""),
            )
            for words, status, out, fault in rows:
                with self.subTest(words):
                    done = broker.ran("hold", *words, "--", "sh", "-c", "echo $LABRUN_HELD")
                    self.assertEqual((done.returncode, done.stdout), (status, out), done.stderr)
                    self.assertIn(fault, done.stderr)

    def test_a_hold_within_a_hold(self) -> None:
        """One that would wait for itself is told so at once; one that may wait for ever with another is told that."""
        broker = self.broker()
        inner = "labrun-broker: within a hold of scope by guest-1, which waits for this command: it would wait for itself. Name all in one hold\n"
        as_board = inner.replace("guest-1", "board")
        rows = (
            ([], ["scope"], 2, inner),
            ([], ["scope", "supply"], 2, inner),
            ([], ["--any", "scope", "scope,supply"], 2, inner),
            ([], ["--any", "scope", "supply"], 0, ""),
            ([], ["supply"], 0, ""),
            ([], ["s[c]ope"], 2, inner),
            ([], ["--any", "s[c]ope", "scope,load-*", "--quiet"], 2, inner),
            (["load-1", "load-2"], ["load-*", "--timeout", "60"], 2, "it would wait for itself"),
            (["load-1"], ["2 of load-*"], 2, "it would wait for itself"),
            (["load-1"], ["load-*"], 0, ""),
            ([], ["supply", "--timeout", "9"], 0, ""),
            (["--station", "board"], ["--station", "board", "supply"], 2, as_board),
            ([], ["scope", "--broker", f"unix:{broker.folder}/other.sock"], 69, "can't be reached"),
        )
        for outer, words, status, said in rows:
            with self.subTest(words):
                done = broker.ran("hold", "scope", *outer, "--", *COMMAND, "hold", *words, "--", "true")
                self.assertEqual(done.returncode, status, done.stderr)
                self.assertIn(said, done.stderr)
                self.assertEqual(bool(said), bool(done.stderr))
        # it has to wait, and may do so for ever
        lab = self.lab(broker)
        other = lab.hold("supply")
        other.acquire()
        waits = broker.started("hold", "scope", "--", *COMMAND, "hold", "supply", "--quiet", "--", "true")
        until(lambda: station(lab, "guest-3")["state"] == "waiting")
        assert waits.stderr is not None
        said = "labrun-broker: this hold is within one of scope: if another hold has supply and waits for scope, both wait for ever; name all in one hold\n"
        self.assertEqual(heard(waits.stderr), said)
        other.release()
        self.assertEqual((waits.communicate(timeout=LIMIT), waits.returncode), (("", ""), 0))
        # and a hold that is over is around nobody
        later = f"while [ ! -e {broker.folder}/go ]; do sleep 0.05; done; {COMMAND[0]} -m labrun_broker hold scope -n -- echo ran > {broker.folder}/later"
        self.assertEqual(broker.ran("hold", "scope", "--", "sh", "-c", f"({later}) >&- 2>&- &").returncode, 0)
        made(f"{broker.folder}/go")
        until(lambda: os.path.exists(f"{broker.folder}/later") and os.path.getsize(f"{broker.folder}/later"))

    def test_it_says_for_whom_it_waits(self) -> None:
        broker = self.broker()
        held = self.lab(broker, "board").hold("scope")
        held.acquire()
        waits = broker.started("hold", "scope", "--", "echo", "ran")
        assert waits.stderr is not None
        self.assertRegex(heard(waits.stderr), r"^labrun-broker: waits: scope has been held by board for \d")
        held.release()
        self.assertEqual((waits.communicate(timeout=LIMIT)[0], waits.returncode), ("ran\n", 0))

    def test_ctrl_c(self) -> None:
        """While it waits it leaves the line; while its command runs that gets it, and then it lets go."""
        broker = self.broker()
        lab = self.lab(broker)
        with lab.hold("load-1"):
            waits = broker.started("hold", "load-1", "--", "true")
            until(lambda: station(lab, "guest-2")["state"] == "waiting")
            waits.send_signal(signal.SIGINT)
            out, said = waits.communicate(timeout=LIMIT)
            self.assertEqual((out, BUSY.sub("", UNHEARD.sub("", said)), waits.returncode), ("", "", 130))
            until(lambda: station(lab, "guest-2")["state"] == "idle")
        runs = broker.started("hold", "load-1", "--", "sleep", "60")
        until(lambda: any(it["state"] == "holding" for it in lab.status()["stations"]))
        runs.send_signal(signal.SIGTERM)
        self.assertEqual((runs.communicate(timeout=LIMIT)[0], runs.returncode), ("", 143))
        until(lambda: all(it["state"] == "idle" for it in lab.status()["stations"]))

    def goes_on(self, broker: Broker, what: str) -> "tuple[str, int]":
        """What the next one that holds sees of a program that the one before it ran, and its status: pgrep has 1 if there is none."""
        done = broker.ran("hold", "scope", "--timeout", str(LIMIT / 2), "--", "pgrep", "-af", f"^{what}")
        return done.stdout, done.returncode

    def test_nothing_goes_on_after_a_signal(self) -> None:
        """What a command has started ends with it, also what was left by whoever started it: the next one doesn't meet it."""
        rows = (
            (f"sleep 61.{SPAN}1; true", signal.SIGTERM, 143),
            (f"(sleep 61.{SPAN}1 & sleep 61.{SPAN}2 & wait); true", signal.SIGHUP, 129),
            (f"(setsid sleep 61.{SPAN}1 &); sleep 61.{SPAN}3; true", signal.SIGTERM, 143),
            (f"sleep 61.{SPAN}1 & wait", signal.SIGTERM, 143),
        )
        broker = self.broker()
        for script, number, status in rows:
            with self.subTest(script):
                runs = broker.started("hold", "scope", "--", "sh", "-c", script)
                until(lambda: subprocess.run(["pgrep", "-f", f"^sleep 61.{SPAN}1"], stdout=subprocess.DEVNULL).returncode == 0)
                runs.send_signal(number)
                self.assertEqual(self.goes_on(broker, f"sleep 61.{SPAN}"), ("", 1))
                out, said = runs.communicate(timeout=LIMIT)
                self.assertEqual((out, BUSY.sub("", UNHEARD.sub("", said)), runs.returncode), ("", "", status))

    def test_nothing_goes_on_after_a_release(self) -> None:
        broker = self.broker()
        runs = broker.started("hold", "scope", "--station", "board", "--", "sh", "-c", f"sleep 62.{SPAN}1; true")
        until(lambda: subprocess.run(["pgrep", "-f", f"^sleep 62.{SPAN}1"], stdout=subprocess.DEVNULL).returncode == 0)
        self.assertEqual(broker.ran("release", "board").returncode, 0)
        self.assertEqual(runs.wait(LIMIT), 76)
        runs.communicate()
        self.assertEqual(self.goes_on(broker, f"sleep 62.{SPAN}"), ("", 1))

    def test_it_waits_for_what_goes_on_after_a_signal(self) -> None:
        """It says for whom, and what has a signal to leave its instruments by has the time for that."""
        broker = self.broker()
        leaves = f"trap 'sleep 63.{SPAN}1; echo left; exit 3' TERM; echo runs; while :; do sleep 0.1; done"
        runs = broker.started("hold", "scope", "--", "sh", "-c", f"sh -c {shlex.quote(leaves)} & wait")
        assert runs.stdout is not None
        self.assertEqual(runs.stdout.readline(), "runs\n")
        runs.terminate()
        self.assertEqual(broker.ran("hold", "scope", "-n", "--", "true").returncode, 75)
        assert runs.stderr is not None
        # (on a slow machine the command itself may be waited for before, and what it started may be between two sleeps)
        said = r"^labrun-broker: waits until what the command started has ended: \d+ sh(, \d+ sleep)?$"
        self.assertTrue(any(re.search(said, line) for line in iter(runs.stderr.readline, "")))
        until(lambda: subprocess.run(["pkill", "-f", f"^sleep 63.{SPAN}1"]).returncode == 0)
        self.assertEqual((runs.communicate(timeout=LIMIT)[0], runs.returncode), ("left\n", 143))

    def test_a_command_that_minds_no_signal(self) -> None:
        """It is said, once, for what it waits."""
        broker = self.broker()
        runs = broker.started("hold", "scope", "--", "sh", "-c", f"trap '' INT; echo runs; n=0; while ! [ -e {broker.folder}/go ] && [ $((n += 1)) -lt 200 ]; do sleep 0.1; done")
        assert runs.stdout is not None and runs.stderr is not None
        self.assertEqual(runs.stdout.readline(), "runs\n")
        runs.send_signal(signal.SIGINT)
        runs.send_signal(signal.SIGINT)
        said = heard(runs.stderr)
        with open(f"{broker.folder}/go", "w", encoding="utf-8"):
            pass
        self.assertEqual((runs.communicate(timeout=LIMIT), runs.returncode), (("", ""), 0))
        self.assertRegex(said, r"^labrun-broker: waits until the command has ended, which goes on after the signal: \d+ sh(, \d+ sleep)?$")

    def test_signals_that_it_is_started_to_ignore(self) -> None:
        """As by nohup: it goes on waiting, and then neither it nor its command minds them."""
        broker = self.broker()
        command = f"echo runs; while ! [ -e {broker.folder}/go ]; do sleep 0.1; done; exit 3"
        with self.lab(broker).hold("scope"):
            line = [*IGNORES, *COMMAND, "hold", "scope", "--broker", broker.address, "--", "sh", "-c", command]
            one = subprocess.Popen(line, stdout=subprocess.PIPE, stderr=subprocess.PIPE, text=True)
            self.addCleanup(one.communicate)
            self.addCleanup(one.kill)
            assert one.stdout is not None and one.stderr is not None
            self.assertIn(" waits: ", heard(one.stderr))
            for number in IGNORED:
                one.send_signal(number)
        self.assertEqual(one.stdout.readline(), "runs\n")
        for number in IGNORED:
            one.send_signal(number)
        made(f"{broker.folder}/go")
        out, said = one.communicate(timeout=LIMIT)
        self.assertEqual((out, BUSY.sub("", UNHEARD.sub("", said)), one.returncode), ("", "", 3))

    def test_what_is_left_in_the_background_on_purpose(self) -> None:
        """A command that ends by itself may leave something: that goes on, and keeps nobody waiting."""
        broker = self.broker()
        left = f"(while [ ! -e {broker.folder}/go ]; do sleep 0.05; done; echo > {broker.folder}/left) > /dev/null 2>&1 &"
        self.assertEqual(broker.ran("hold", "scope", "--", "sh", "-c", left).returncode, 0)
        made(f"{broker.folder}/go")
        until(lambda: os.path.exists(f"{broker.folder}/left"))

    def test_children_from_before(self) -> None:
        """Who becomes a hold may have children: they aren't its command's, and get no signal of it."""
        broker = self.broker()
        script = f"(trap 'echo hit' TERM; while ! [ -e {broker.folder}/go ]; do sleep 0.05; done; echo safe) & exec {shlex.join(COMMAND)} hold scope -- sleep 60"
        environment = {**os.environ, "LABRUN_BROKER": broker.address}
        runs = subprocess.Popen(["sh", "-c", script], env=environment, stdout=subprocess.PIPE, stderr=subprocess.PIPE, text=True)
        with broker.lab() as lab:
            until(lambda: station(lab, "guest-1")["state"] == "holding")
        time.sleep(0.3)
        runs.terminate()
        self.assertEqual(runs.wait(LIMIT), 143)
        made(f"{broker.folder}/go")
        self.assertEqual(runs.communicate(timeout=LIMIT)[0], "safe\n")

    def test_a_signal_while_the_command_starts(self) -> None:
        """It is sent on once that is there: no command goes on whose session is over."""
        signals = Signals()
        popen = subprocess.Popen

        def starts(*given: Any, **more: Any) -> "subprocess.Popen[bytes]":
            process = popen(*given, **more)
            signals.comes(signal.SIGTERM, None)
            return process

        with mock.patch("subprocess.Popen", starts):
            self.assertEqual(signals.starts(["sleep", "60"], dict(os.environ)).wait(LIMIT), -signal.SIGTERM)

    def test_status(self) -> None:
        broker = self.broker()
        lab = self.lab(broker, "board")
        self.assertIn("nobody holds or waits", broker.ran("status").stdout)
        with lab.hold("scope", "supply") as held:
            held.note("\x1b[2J12.5 V")
            waits = broker.started("hold", "supply", "--", "true")
            until(lambda: station(lab, "guest-1")["state"] == "waiting")
            text = broker.ran("status").stdout
            self.assertRegex(text, r"(?m)^supply +board +\d+ s +guest-1$")
            self.assertRegex(text, r"(?m)^load-1 +-$")
            self.assertRegex(text, r"(?m)^board +holding +\d+ s +scope supply +tester \| \\x1b\[2J12.5 V$")
            self.assertRegex(text, r"(?m)^guest-1 +waiting +\d+ s +supply +\S")
            self.assertRegex(text, r"(?m)^ +supply has been held by board for \d")
            status = json.loads(broker.ran("status", "--json").stdout)
            self.assertEqual([it["holder"] for it in status["instruments"]], ["board", "board", None, None])
        self.assertEqual(waits.wait(LIMIT), 0)
        waits.communicate()

    def test_top(self) -> None:
        broker = self.broker()
        top = broker.started("top", "--json")
        assert top.stdout is not None
        first = json.loads(top.stdout.readline())
        with self.lab(broker, "board").hold("scope"):
            until(lambda: json.loads(top.stdout.readline())["instruments"][0]["holder"] == "board")
        self.assertEqual(first["instruments"][0]["holder"], None)
        begun = time.monotonic()
        top.send_signal(signal.SIGINT)
        _, said = top.communicate(timeout=LIMIT)
        self.assertEqual((top.returncode, said), (130, ""))
        self.assertLess(time.monotonic() - begun, SOON)

    def test_top_whose_reader_is_gone(self) -> None:
        """It ends though nothing happens at the bay that it would have to write, as in `top | head -3`."""
        broker = self.broker()
        with broker.started("top") as top, contextlib.ExitStack() as ends:
            ends.callback(top.kill)
            assert top.stdout is not None and top.stderr is not None
            self.assertTrue(top.stdout.readline())
            # (what changes as the broker begins is written by then)
            time.sleep(2)
            top.stdout.close()
            self.assertEqual((top.wait(LIMIT), top.stderr.read()), (0, ""))

    def test_top_of_a_broker_that_dies(self) -> None:
        """It says so once, and goes on with the next one; and ends if none was ever there."""
        broker = self.broker(BAY, "--state", "FOLDER/state")
        with broker.started("top", "--json") as top, contextlib.ExitStack() as ends:
            ends.callback(top.kill)
            assert top.stdout is not None and top.stderr is not None
            for number in (signal.SIGKILL, signal.SIGTERM):
                self.assertEqual(json.loads(top.stdout.readline())["instruments"][0]["holder"], None)
                broker.end(number)
                why = f"labrun-broker: the broker at {broker.address} can't be reached: .*; trying again until Ctrl-C\n"
                self.assertRegex(top.stderr.readline(), f"^{why}$")
                time.sleep(2)
                broker.begin()
                self.assertEqual(top.stderr.readline(), "labrun-broker: the broker answers again\n")
            with self.lab(broker, "board").hold("scope"):
                until(lambda: json.loads(top.stdout.readline())["instruments"][0]["holder"] == "board")
            top.send_signal(signal.SIGINT)
            self.assertEqual((top.communicate(timeout=LIMIT)[1], top.returncode), ("", 130))
        broker.end()
        done = broker.ran("top")
        self.assertEqual((done.returncode, done.stdout), (69, ""))
        self.assertIn("can't be reached", done.stderr)

    def test_top_on_a_wall(self) -> None:
        """The last picture stays, with its age, while the broker is away or says nothing."""
        broker = self.broker()
        screen, end = pty.openpty()
        with subprocess.Popen([*COMMAND, "top", "--broker", broker.address], stdout=end, stderr=end) as top, contextlib.ExitStack() as ends:
            os.close(end)
            ends.callback(top.kill)
            seen = ""

            def shows(text: str) -> bool:
                nonlocal seen
                if select.select([screen], [], [], 0.1)[0]:
                    seen = (seen + os.read(screen, 1 << 16).decode()).rpartition("\x1b[H\x1b[2J")[2]
                return re.search(text, seen) is not None

            def shows_all(*texts: str) -> None:
                until(lambda: shows(texts[0]) and all(re.search(it, seen) for it in texts), texts[0])

            is_late = "(?m)^the broker at .*(doesn't answer|can't be reached).*; trying again until Ctrl-C"
            with self.lab(broker, "board").hold("scope"):
                shows_all(r"scope +board +\d+ s")
                with stopped(broker):
                    shows_all(is_late, "what follows is [0-9]+ s old", r"scope +board +\d+ s")
                until(lambda: shows(r"scope +board +\d+ s") and "follows" not in seen, "the picture of now")
            until(lambda: shows(r"(?m)^scope +-\s*$") and "follows" not in seen, "that nobody holds")
            broker.kill()
            # (a busy machine may leave out the picture of one second)
            shows_all(is_late, r"what follows is ([3-9]|\d\d) s old", r"(?m)^scope +-\s*$")
            broker.begin()
            until(lambda: shows(r"(?m)^scope +-\s*$") and "follows" not in seen, "the next broker's")
            top.send_signal(signal.SIGINT)
            self.assertEqual(top.wait(LIMIT), 130)
        os.close(screen)

    def test_release(self) -> None:
        broker = self.broker()
        runs = broker.started("hold", "scope", "--station", "board", "--", "sleep", "60")
        lab = self.lab(broker)
        until(lambda: station(lab, "board")["state"] == "holding")
        done = broker.ran("release", "board")
        self.assertEqual((done.returncode, done.stdout), (0, "board's session is ended; it held scope\n"))
        _, said = runs.communicate(timeout=LIMIT)
        self.assertEqual(runs.returncode, 76)
        self.assertIn("board: the session with scope was taken away by", said)
        with self.lab(broker, "board").hold("scope"):
            done = broker.ran("release", "board", "--session", "1")
            self.assertEqual((done.returncode, done.stderr), (1, "labrun-broker: board is in session 2 now, and not in 1\n"))
            self.assertEqual(station(lab, "board")["state"], "holding")
        for name, text in (("board", "board holds nothing\n"), ("moon", "moon is no station of this bay: there are board, radio, and guests that hold or wait: none now\n")):
            done = broker.ran("release", name)
            self.assertEqual((done.returncode, done.stdout), (1, ""))
            self.assertIn(text, done.stderr)

        broker.end()
        self.assertRegex(broker.said, "^labrun-broker: session 1 of board with scope was taken away by .*@.*\n$")

    def test_what_is_lost_is_lost_alike(self) -> None:
        """By the socket and by a port: why is said once, the command is ended, and the status is that of a session that was taken away."""
        port = f"127.0.0.1:{free_port()}"
        broker = self.broker(BAY, "--listen", port)

        def holds(name: str, address: str, *more: str) -> "subprocess.Popen[str]":
            path = f"{broker.folder}/{name}"
            one = broker.started("hold", name, "--quiet", "--broker", address, *more, "--", "sh", "-c", f"echo > {path}; exec sleep 600")
            until(lambda: os.path.exists(path), "its command")
            return one

        def said(one: "subprocess.Popen[str]") -> str:
            _, text = one.communicate(timeout=LIMIT)
            self.assertEqual(one.returncode, 76, text)
            return BUSY.sub("", UNHEARD.sub("", text))

        taken = holds("supply", port, "--station", "board")
        broker.ran("release", "board")
        self.assertRegex(said(taken), r"^labrun-broker: board: the session with supply was taken away by \S+; the command is being ended\n$")
        its = [holds("load-1", broker.address), holds("load-2", port)]
        broker.kill()
        broker.begin()
        why = "no session has this ticket: it is over, or was never told that it holds"
        self.assertEqual([said(one) for one in its], [f"labrun-broker: {why}; the command is being ended\n"] * 2)

    def test_nobody_reads_what_is_told(self) -> None:
        """The pipe of its standard error is full: the broker goes on."""
        broker = self.broker(BAY + "[limits]\nrequests = 100000\n")
        assert broker.process is not None and broker.process.stderr is not None
        fcntl.fcntl(broker.process.stderr, fcntl.F_SETPIPE_SZ, 4096)
        with self.lab(broker, "board") as lab:
            for _ in range(120):
                held = lab.hold("scope", timeout=LIMIT)
                held.acquire()
                lab.release("board")
                with self.assertRaises(labrun.TakenAway):
                    held.release()
        broker.end()
        self.assertIn(len(broker.said.splitlines()), range(1, 100))

    def test_one_broker_at_a_socket(self) -> None:
        broker = self.broker()
        done = ran("serve", f"{broker.folder}/bay.toml", "--listen", broker.address)
        self.assertEqual(done.returncode, 78)
        self.assertIn("another broker listens there", done.stderr)
        self.assertEqual(os.stat(broker.address.removeprefix("unix:")).st_mode & 0o777, 0o660)
        broker.kill()
        broker.begin()
        self.assertEqual(broker.ran("status").returncode, 0)
        self.assertEqual(broker.end(), 0)


    def test_a_bay_without_a_name(self) -> None:
        """It is called a bay, once."""
        broker = self.broker(SHORT)
        self.assertEqual(broker.first, f"labrun-broker: bay: 1 instrument, at {broker.address}\n")
        self.assertRegex(broker.ran("status").stdout, "^bay, 0 sessions since ")
        self.assertEqual(json.loads(broker.ran("status", "--json").stdout)["bay"], "bay")


class Names(unittest.TestCase):
    def test_who_it_is(self) -> None:
        """Of `python3 -m pytest` it is pytest, and not its file's name."""
        for program, name in (("/usr/lib/python3/dist-packages/pytest/__main__.py", "pytest"), ("./measure.py", "measure.py"), ("", "python")):
            with mock.patch.object(sys, "argv", [program]):
                self.assertEqual(_who().split(" ")[1:], [str(os.getpid()), name])
