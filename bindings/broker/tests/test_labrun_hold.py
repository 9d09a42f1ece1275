"""labrun-hold, the client in C: the same ends as `labrun-broker hold` has, at a real broker. It is compiled here, with the sanitizers if the
compiler has them, and without a warning."""

from __future__ import annotations

import contextlib
import fcntl
import json
import os
import select
import shutil
import signal
import socket
import subprocess
import sys
import tempfile
import time
import unittest
from importlib.util import find_spec

import labrun_broker
from tests.asking import Asking
from tests.brokers import BAY, COMMAND, IGNORED, IGNORES, LIMIT, SOON, TOP, UNHEARD, Broker, OnBroker, Turns, broker, free_port, heard, is_stopped, records, station, stopped, until
from tests.proxies import OfSockets, Ways
from tests.test_people import ANA, BOB, PEOPLE, WITHOUT_BOB
from tests.test_warned import LONG, SOONER, THEN

SOURCE = f"{TOP}/bindings/hold/labrun-hold.c"
COMPILER = next((it for it in ("cc", "gcc", "clang") if shutil.which(it)), None)
STRICT = ["-std=gnu11", "-O1", "-g", "-Wall", "-Wextra", "-Wconversion", "-Wshadow", "-Werror"]
SANITIZERS = "-fsanitize=address,undefined"
RELEASES = f'gone = "release"\n{BAY}'
# a broker that doesn't know that a request may be answered once it waits for somebody else
OLDER = """
import sys
from labrun_broker import command, http_words
http_words.QUERY["while"] = lambda key, given: given if given in ("waiting", "holding") else http_words.whole(key, given)
sys.exit(command.main())
"""
# what writes when it got SIGTERM, and ends
MINDS = "trap 'date +%s.%N > FOLDER/ended; exit 0' TERM; echo > FOLDER/begun; while :; do sleep 0.05; done"
# the same, and it writes nothing, and ends by itself some day
MINDS_SILENTLY = "exec 2> /dev/null; trap ': > FOLDER/ended; exit 0' TERM; : > FOLDER/begun; n=0; while [ $((n += 1)) -lt 1500 ]; do sleep 0.05; done"


def untaken(broker: Broker) -> int:
    """How many connections to its socket for HTTP a broker that is stopped hasn't taken."""
    with open("/proc/net/unix", encoding="ascii", errors="replace") as file:
        return sum(it[7:] == [f"{broker.folder}/bay.sock.http"] and it[5] == "02" for it in map(str.split, file))


def fill(end: int) -> None:
    """Whoever writes to this end later has to wait."""
    os.set_blocking(end, False)
    with contextlib.suppress(BlockingIOError):
        while True:
            os.write(end, bytes(4096))
    os.set_blocking(end, True)


@unittest.skipUnless(find_spec("aiohttp"), "there is no aiohttp")
@unittest.skipIf(COMPILER is None, "there is no compiler of C")
class Held(OnBroker):
    @classmethod
    def setUpClass(cls) -> None:
        cls.room = cls.enterClassContext(tempfile.TemporaryDirectory())
        cls.program = f"{cls.room}/labrun-hold"
        words = [str(COMPILER), *STRICT, SOURCE, "-lm", "-o", cls.program]
        if subprocess.run([*words, SANITIZERS, "-fno-sanitize-recover"], capture_output=True).returncode:
            subprocess.run(words, check=True)

    def at(self, bay: str = BAY, *words: str) -> "tuple[Broker, Asking]":
        broker = self.broker(bay, "--http", "unix:FOLDER/bay.sock.http", *words)
        return broker, Asking(f"{broker.folder}/bay.sock.http")

    def environment(self, broker: Broker) -> "dict[str, str]":
        return {**{name: it for name, it in os.environ.items() if name != "LABRUN_AROUND"}, "LABRUN_BROKER": broker.address, "USER": "ann", "LOGNAME": "ann"}

    def ran(self, broker: Broker, *words: str, **more: str) -> "subprocess.CompletedProcess[str]":
        done = subprocess.run([self.program, *words], env={**self.environment(broker), **more}, capture_output=True, text=True, timeout=2 * LIMIT)
        done.stderr = UNHEARD.sub("", done.stderr)
        return done

    def started(self, broker: Broker, *words: str) -> "subprocess.Popen[str]":
        """Once what it runs has begun, which says so in the file `begun`."""
        words = tuple(it.replace("FOLDER", broker.folder) for it in words)
        one = subprocess.Popen([self.program, *words], env=self.environment(broker), stderr=subprocess.PIPE, text=True)
        self.addCleanup(one.communicate)
        self.addCleanup(one.kill)
        until(lambda: os.path.exists(f"{broker.folder}/begun"), "the command runs")
        return one

    def ends(self, one: "subprocess.Popen[str]", status: int) -> str:
        said = UNHEARD.sub("", one.communicate(timeout=LIMIT)[1])
        self.assertEqual(one.returncode, status, said)
        return said

    def test_it_runs_a_command(self) -> None:
        broker, one = self.at(BAY, "--state", "FOLDER/state")
        ran = self.ran(broker, "scope", "supply", "--station", "board", "--", "sh", "-c", 'echo "$LABRUN_HELD|$LABRUN_STATION|$LABRUN_TOKEN|$LABRUN_AROUND"; exit 3')
        held, station, token, around = ran.stdout.strip().split("|")
        self.assertEqual((ran.returncode, held, station, token, ran.stderr), (3, "scope supply", "board", "1", ""))
        self.assertEqual(around.split("\t")[1:], [broker.address, "board", "scope", "supply"])
        its = lambda: [it for it in records(broker) if it["what"] in ("held", "failed", "let_go")]
        until(lambda: [(it["what"], it["text"]) for it in its()] == [("held", ""), ("failed", "status 3")], "what is recorded")
        self.assertRegex(its()[0]["by"], r"^ann@\S+ \d+ sh$")

    def test_a_broker_that_has_forgotten_it_as_the_command_ends(self) -> None:
        broker, _ = self.at()
        one = self.started(broker, "scope", "--", "sh", "-c", "echo > FOLDER/begun; until [ -e FOLDER/go ]; do sleep 0.05; done; exit 5")
        broker.kill()
        with open(f"{broker.folder}/go", "w", encoding="ascii"):
            pass
        self.assertIn("the command has ended with status 5; the broker hasn't answered yet", heard(one.stderr))
        broker.begin()
        said = self.ends(one, 76)
        self.assertRegex(said, "^labrun-hold: the command ran, and ended with status 5, but:\nlabrun-hold: no session has this ticket: .*\n$")

    def test_it_asks_urgently(self) -> None:
        broker, _ = self.at(BAY, "--state", "FOLDER/state")
        for words in (("scope", "--urgent"), ("scope",)):
            self.assertEqual(self.ran(broker, *words, "--", "true").returncode, 0)
        until(lambda: [it.get("urgent", False) for it in records(broker) if it["what"] == "asked"] == [True, False], "what is recorded")

    def test_it_is_warned(self) -> None:
        """Once, as `labrun-broker hold` is; and its command goes on."""
        broker, _ = self.at(f"limit = {LONG:g}\n{BAY}")
        broker.end()
        broker.command = [sys.executable, "-c", SOONER]
        broker.begin()
        one = self.started(broker, "scope", "--station", "board", "--", "sh", "-c", "echo > FOLDER/begun; until [ -e FOLDER/go ]; do sleep 0.05; done")
        assert one.stderr is not None
        self.assertTrue(select.select([one.stderr], [], [], LIMIT)[0], "it says something")
        self.assertRegex(heard(one.stderr), f"^labrun-hold: board may hold scope for 1 min 0 s, which is over in [0-9]+ s: {THEN}\n$")
        time.sleep(1)
        with open(f"{broker.folder}/go", "w", encoding="ascii"):
            pass
        self.assertEqual(self.ends(one, 0), "")

    def test_who_it_is(self) -> None:
        """By the token in a file; one that isn't let in any more ends its command, and holds no longer."""
        broker, _ = self.at(PEOPLE.replace(f"unix = {os.getuid()}", "unix = 4242"))
        for name, text in (("bob", f"{BOB}\n"), ("ana", ANA)):
            with open(f"{broker.folder}/{name}", "w", encoding="ascii") as file:
                file.write(text)
        his = ("--token-file", f"{broker.folder}/bob")
        for words, more, status, said in (
            (["load-1"], {"LABRUN_BROKER_TOKEN_FILE": his[1]}, 0, ""),
            (["scope", *his], {}, 77, "labrun-hold: bob may not have scope; operators: ana\n"),
            (["load-1"], {}, 69, "is none of the bay's people: give labrun-hold the file of your token by --token-file, or send your token as `Authorization: Bearer TOKEN`; operators: ana\n"),
        ):
            ran = self.ran(broker, *words, "--", "true", **more)
            self.assertEqual(ran.returncode, status, ran.stderr)
            self.assertIn(said, ran.stderr)
        one = self.started(broker, "load-1", *his, "--by", "night", "--", "sh", "-c", MINDS)
        lab = labrun_broker.connect(broker.address, token_file=f"{broker.folder}/ana")
        self.addCleanup(lab.close)
        self.assertEqual((its := station(lab, "guest-1"))["by"], "bob: night")
        lab.apply(WITHOUT_BOB)
        said = self.ends(one, 69)
        self.assertIn("this is nobody's token, or not any more; operators: ana; the command is being ended", said)
        kept = f"the session may go on holding, as `labrun-broker status` says, until it is released by `labrun-broker release guest-1 --session {its['session']}`\n"
        self.assertRegex(said, rf"labrun-hold: the command ran, and ended with status \d+, but:\nlabrun-hold: {kept}$")
        self.assertEqual((os.path.exists(f"{broker.folder}/ended"), station(lab, "guest-1")["state"]), (True, "gone"))

    def test_a_file_that_cant_be_read(self) -> None:
        """Both holds end with 66, and say the same of it, before anything is asked."""
        for name, text in (("empty", ""), ("blank", " \n"), ("two", "one\ntwo\n"), ("umlaut", "stra\u00dfe"), ("long", "x" * 9000 + "\n\t.")):
            with open(f"{self.room}/{name}", "w", encoding="utf-8") as file:
                file.write(text)
        is_none = "a token is one line of letters, digits and signs, and this file"
        for name, why in (
            ("none", "there is no such file"),
            (".", "Is a directory"),
            ("two/none", "Not a directory"),
            ("empty", f"{is_none} is empty"),
            ("blank", f"{is_none} is empty"),
            ("two", f"{is_none} has something else"),
            ("umlaut", f"{is_none} has something else"),
            ("long", f"{is_none} has something else"),
        ):
            path = f"{self.room}/{name}"
            for words, more, by in ((["--token-file", path], {}, "--token-file"), ([], {"LABRUN_BROKER_TOKEN_FILE": path}, "LABRUN_BROKER_TOKEN_FILE")):
                for program, called in (([self.program], "labrun-hold"), ([*COMMAND, "hold"], "labrun-broker")):
                    with self.subTest(name, by=by, program=called):
                        given = [*program, "scope", "-n", "--broker", f"unix:{self.room}/no.sock", *words, "--", "true"]
                        ran = subprocess.run(given, env={**os.environ, **more}, capture_output=True, text=True, timeout=2 * LIMIT)
                        self.assertEqual((ran.returncode, ran.stderr), (66, f"{called}: {by} {path}: {why}\n"))

    def test_statuses(self) -> None:
        broker, one = self.at()
        one.holds("supply", station="board", by="b\u202en")
        for words, status, said in (
            (["scope", "--", "true"], 0, ""),
            (["scope", "--", "sh", "-c", "kill -9 $$"], 137, ""),
            (["scope", "--", "/nowhere/at-all"], 127, "/nowhere/at-all: No such file"),
            (["scope", "--", "/etc/passwd"], 126, "Permission denied"),
            (["scop", "--", "true"], 2, "did you mean scope?"),
            (["--", "true"], 2, "say which instruments"),
            (["scope"], 2, "say what to run"),
            (["scope", "--", ""], 2, "say what to run, behind `--`"),
            (["scope", "--station", "", "--", "true"], 2, "an empty name is no station; a guest says none"),
            (["scope", "-n", "--timeout", "5", "--", "true"], 2, "-n isn't allowed with --timeout"),
            (["scope", "--timeout", "soon", "--", "true"], 2, "--timeout: this is no number of seconds, 0 or more and below 1000000000: soon"),
            (["scope", "--timeout", "-1", "--broker", "unix:/nowhere/bay.sock", "--", "true"], 2, "0 or more and below 1000000000: -1"),
            (["scope", "--tiemout", "1", "--", "true"], 2, "no such option: --tiemout"),
            (["supply", "-n", "--", "true"], 75, "refused, because it doesn't wait (hold -n, or a timeout of 0): supply has been held by board for"),
            (["supply", "--timeout=0.5", "--", "true"], 75, r"(b\u202en)"),
            (["supply", "--timeout=0.5", "--quiet", "--", "true"], 75, "given up when its time was over: supply has been held by board for"),
            (["supply", "--station", "radio", "--", "true"], 77, "radio may not use supply"),
            (["scope", "--station", "bord", "--", "true"], 1, "bord is no station"),
            (["scope", "--broker", "bench-1:7443", "--", "true"], 2, "a broker of this machine is wanted"),
            (["scope", "-n", "--broker", "unix:/nowhere/bay.sock", "--", "true"], 69, "can't be reached"),
            (["--any", "supply", "load-1,load-2", "--", "sh", "-c", "echo $LABRUN_HELD >&2"], 0, "load-1 load-2"),
        ):
            with self.subTest(words):
                ran = self.ran(broker, *words)
                self.assertEqual(ran.returncode, status, ran.stderr)
                self.assertIn(said, ran.stderr)
                if "-n" in words:
                    self.assertNotIn("waits", ran.stderr)
        self.assertEqual(one.status("guest-1")["state"], "idle")

    def test_texts_that_are_odd(self) -> None:
        """Quotes, what is no UTF-8, and too long a name of a command."""
        broker, one = self.at()
        for by in ('a "quoted" \\ name', "tab\there", "é€😀", b"\xff\xfe".decode("utf-8", "surrogateescape")):
            ran = self.ran(broker, "scope", "--by", by, "--", "true")
            self.assertEqual((ran.returncode, ran.stderr), (0, ""))
        ran = subprocess.run(["sh", "-c", f"cp /bin/true {broker.folder}/{'n' * 100}; exec {self.program} scope -- {broker.folder}/{'n' * 100}"], env=self.environment(broker))
        self.assertEqual(ran.returncode, 0)

    def test_a_name_that_is_no_utf8(self) -> None:
        """It isn't taken for a pattern."""
        broker, one = self.at()
        name = b"sc\xf6pe".decode("utf-8", "surrogateescape")
        for words in ((name,), ("scope", name), ("--any", "supply", name), ("scope", "--station", name)):
            ran = self.ran(broker, *words, "--", "true")
            self.assertEqual((ran.returncode, ran.stderr), (2, "labrun-hold: this isn't UTF-8: sc\\xf6pe; labrun-hold --help\n"))
        self.assertEqual(one.status("guest-1")["state"], "idle")

    def test_another_broker_socket(self) -> None:
        """One of gRPC alone is told from a broker that is away."""
        broker = self.broker(BAY)
        ran = self.ran(broker, "scope", "--", "true")
        self.assertEqual(ran.returncode, 69, ran.stderr)
        self.assertIn("takes no HTTP", ran.stderr)
        # (so is one that stands where HTTP's would)
        broker = self.broker(BAY, "--listen", "unix:FOLDER/bay.sock.http")
        at = f"unix:{broker.folder}/bay.sock"
        told = f"labrun-hold: {at}.http takes no HTTP: labrun-broker serve BAY --listen {at} --http {at}.http\n"
        self.assertEqual(self.ran(broker, "scope", "--", "true").stderr, told)

    def test_a_broker_that_says_nothing_at_the_end(self) -> None:
        """It is there: so it isn't said that nobody can reach it. (By a program whose minute is a second.)"""
        with open(SOURCE, encoding="utf-8") as file:
            text = file.read()
        soon = f"{self.room}/soon"
        with open(f"{soon}.c", "w", encoding="utf-8") as file:
            for long, short in (("AWAY = 60,", "AWAY = 1,"), ("LATE = 10,", "LATE = 1,")):
                self.assertIn(long, text)
                text = text.replace(long, short)
            file.write(text)
        subprocess.run([str(COMPILER), *STRICT, f"{soon}.c", "-lm", "-o", soon], check=True)
        broker, one = self.at()
        waits = f"echo > {broker.folder}/begun; until [ -e {broker.folder}/ends ]; do sleep 0.05; done"
        # (what it says to type names the broker, and the file of the token, as these were named here)
        token_file = f"{broker.folder}/a token"
        with open(token_file, "w", encoding="ascii") as file:
            file.write(ANA)
        words = [soon, "scope", "--broker", broker.address, "--token-file", token_file, "--", "sh", "-c", waits]
        elsewhere = {**self.environment(broker), "LABRUN_BROKER": "unix:/elsewhere"}
        with subprocess.Popen(words, env=elsewhere, stderr=subprocess.PIPE, text=True) as hold:
            until(lambda: os.path.exists(f"{broker.folder}/begun"), "the command runs")
            number = one.status("guest-1")["session"]
            with stopped(broker):
                with open(f"{broker.folder}/ends", "w", encoding="utf-8"):
                    pass
                said = hold.communicate(timeout=LIMIT)[1]
        its, at = f"labrun-hold: the broker at unix:{broker.folder}/bay.sock.http doesn't answer any more\n", f"--broker {broker.address} --token-file '{token_file}'"
        self.assertEqual(hold.returncode, 69, said)
        kept = f"as `labrun-broker status {at}` says, until it is released by `labrun-broker release guest-1 --session {number} {at}`\n"
        self.assertTrue(said.endswith(f"{its}labrun-hold: the session may go on holding, {kept}"), said)

    def test_it_waits_and_says_for_whom(self) -> None:
        broker, one = self.at()
        ticket = one.holds("scope", station="board", by="ben")
        waits = subprocess.Popen([self.program, "scope", "--", "true"], env=self.environment(broker), stderr=subprocess.PIPE, text=True)
        self.addCleanup(waits.kill)
        assert waits.stderr is not None
        self.assertRegex(heard(waits.stderr), r"^labrun-hold: waits: scope has been held by board for .* \(ben\)$")
        one.lets_go(ticket)
        self.assertEqual((waits.wait(LIMIT), waits.stderr.read()), (0, ""))
        waits.stderr.close()

    def test_it_says_the_next_session_of_a_station(self) -> None:
        """Also if it waits to be that station itself."""
        broker, _ = self.at()
        turns = Turns(self, broker)
        its = [self.enterContext(self.waits(broker, "scope", "load-1", "--", "true"))]
        says = lambda one: heard(one.stderr)
        self.assertRegex(says(its[0]), r"^labrun-hold: waits: scope has been held by board for .* \(ann\), load-1 has been held by guest-1 for .* \(cem\)$")
        turns.bob_waits()
        its.append(self.enterContext(self.waits(broker, "supply", "--station", "board", "--", "true")))
        self.assertRegex(says(its[1]), r"^labrun-hold: waits: board has been in session 2 for .* \(ann\), and a station is in one at a time; session 4 of board \(bob\) waits before this one$")
        turns.ann_goes()
        self.assertRegex(says(its[0]), r"scope has been held by board for .* \(bob\), load-1 has been held by guest-1 for")
        self.assertRegex(says(its[1]), r"board has been in session 4 for .* \(bob\), and a station is in one at a time$")
        for one in its:
            one.kill()

    def test_it_is_told_that_whom_it_waits_for_is_gone(self) -> None:
        broker, _ = self.at()
        dies = self.started(broker, "scope", "--station", "board", "--", "sh", "-c", "echo > FOLDER/begun; sleep 60")
        waits = subprocess.Popen([self.program, "scope", "--", "true"], env=self.environment(broker), stderr=subprocess.PIPE, text=True)
        self.addCleanup(waits.communicate)
        self.addCleanup(waits.kill)
        assert waits.stderr is not None
        self.assertRegex(heard(waits.stderr), r"^labrun-hold: waits: scope has been held by board for .*ann")
        dies.kill()
        killed = time.monotonic()
        self.assertRegex(waits.stderr.readline(), r"gone for .*: see to scope, and then run labrun-broker release board --session 1\)$")
        # (and not just because it says all again each minute)
        self.assertLess(time.monotonic() - killed, 40)

    def test_a_command_that_minds_no_signal(self) -> None:
        """It is said, once, for what it waits."""
        broker, _ = self.at()
        hold = self.started(broker, "scope", "--", "sh", "-c", "trap '' INT; echo > FOLDER/begun; n=0; while ! [ -e FOLDER/go ] && [ $((n += 1)) -lt 200 ]; do sleep 0.1; done")
        assert hold.stderr is not None
        hold.send_signal(signal.SIGINT)
        hold.send_signal(signal.SIGINT)
        said = heard(hold.stderr)
        with open(f"{broker.folder}/go", "w", encoding="utf-8"):
            pass
        self.assertEqual(self.ends(hold, 0), "")
        self.assertRegex(said, r"^labrun-hold: waits until the command has ended, which goes on after the signal: \d+ sh(, \d+ sleep)?$")

    def test_signals_that_it_is_started_to_ignore(self) -> None:
        """As by nohup: it goes on waiting, and then neither it nor its command minds them."""
        broker, other = self.at()
        ticket = other.holds("scope")
        command = f"echo > {broker.folder}/begun; while ! [ -e {broker.folder}/go ]; do sleep 0.1; done; exit 3"
        line = [*IGNORES, self.program, "scope", "--quiet", "--", "sh", "-c", command]
        one = subprocess.Popen(line, env=self.environment(broker), stderr=subprocess.PIPE, text=True)
        self.addCleanup(one.kill)
        until(lambda: other.status("guest-2")["state"] == "waiting")
        for number in IGNORED:
            one.send_signal(number)
        other.lets_go(ticket)
        until(lambda: os.path.exists(f"{broker.folder}/begun"), "the command runs")
        for number in IGNORED:
            one.send_signal(number)
        with open(f"{broker.folder}/go", "w", encoding="utf-8"):
            pass
        self.assertEqual(self.ends(one, 3), "")

    def test_ctrl_c_while_it_waits(self) -> None:
        broker, one = self.at()
        one.holds("scope")
        waits = subprocess.Popen([self.program, "scope", "--quiet", "--", "true"], env=self.environment(broker), stderr=subprocess.PIPE, text=True)
        self.addCleanup(waits.kill)
        until(lambda: one.status("guest-2")["state"] == "waiting")
        waits.send_signal(signal.SIGINT)
        self.ends(waits, 130)
        self.assertEqual(one.status("guest-2")["state"], "idle")

    def test_a_signal_before_anything_is_asked(self) -> None:
        """Nobody need be told: it ends at once."""
        with subprocess.Popen([self.program, "scope", "--broker", f"unix:{self.room}/no.sock", "--", "true"], stderr=subprocess.PIPE, text=True) as one:
            assert one.stderr is not None
            self.assertIn("waits for the broker: it doesn't listen yet", one.stderr.readline())
            one.send_signal(signal.SIGINT)
            # (it would say that it tells the broker, and tell it for ten seconds)
            self.assertEqual((one.communicate(timeout=LIMIT)[1], one.returncode), ("", 130))

    def test_within_a_hold(self) -> None:
        broker, _ = self.at()
        for outer, inner, status in (
            (["scope"], ["scope", "supply"], 2),
            (["scope", "--station", "board"], ["supply", "--station", "board"], 2),
            (["load-1", "load-2"], ["load-*"], 2),
            (["load-1"], ["2 of load-*", "--quiet"], 2),
            (["scope"], ["--any", "s[c]ope", "scope,supply"], 2),
            (["load-1"], ["load-*"], 0),
            (["scope"], ["supply"], 0),
        ):
            with self.subTest(inner):
                ran = self.ran(broker, *outer, "--", self.program, *inner, "--", "true")
                self.assertEqual(ran.returncode, status, ran.stderr)
                names, who = " ".join(outer).partition(" --")[0], "board" if "board" in outer else "guest-1"
                said = f"labrun-hold: within a hold of {names} by {who}, which waits for this command: it would wait for itself. Name all in one hold\n"
                self.assertEqual(ran.stderr, said if status else "")

    def test_within_a_hold_it_waits(self) -> None:
        broker, one = self.at()
        ticket = one.holds("supply")
        waits = subprocess.Popen([self.program, "scope", "--", self.program, "supply", "--quiet", "--", "true"], env=self.environment(broker), stderr=subprocess.PIPE, text=True)
        self.addCleanup(waits.kill)
        assert waits.stderr is not None
        said = "labrun-hold: this hold is within one of scope: if another hold has supply and waits for scope, both wait for ever; name all in one hold\n"
        self.assertEqual(heard(waits.stderr), said)
        one.lets_go(ticket)
        self.assertEqual(self.ends(waits, 0), "")

    def test_a_signal_goes_on_and_what_was_started_is_waited_for(self) -> None:
        """Nobody else holds before the last of it has ended."""
        broker, one = self.at()
        lags = "(trap 'sleep 1.5; date +%s.%N > FOLDER/lagged; exit' TERM; echo > FOLDER/begun; while :; do sleep 0.05; done) & wait"
        hold = self.started(broker, "scope", "--", "sh", "-c", lags)
        hold.send_signal(signal.SIGTERM)
        other = one.asks("scope")[1]["ticket"]
        while one.of(other, wait=5)[0] == 202:
            pass
        held_at = time.time()
        self.assertIn("waits until what the command started has ended", self.ends(hold, 143))
        with open(f"{broker.folder}/lagged", encoding="ascii") as file:
            self.assertGreater(held_at, float(file.read()))

    def test_what_ends_by_itself_leaves_others_behind(self) -> None:
        broker, _ = self.at()
        began = time.monotonic()
        self.assertEqual(self.ran(broker, "scope", "--", "sh", "-c", "sleep 90 >/dev/null 2>&1 & exit 0").returncode, 0)
        self.assertLess(time.monotonic() - began, LIMIT)

    def test_an_operator_takes_it_away(self) -> None:
        broker, one = self.at()
        hold = self.started(broker, "scope", "--", "sh", "-c", MINDS)
        one.ask("POST", "/v1/release", {"station": "guest-1", "by": "ben"})
        self.assertIn("the session with scope was taken away by ben; the command is being ended", self.ends(hold, 76))
        self.assertTrue(os.path.exists(f"{broker.folder}/ended"))

    def nowhere(self) -> "dict[str, tuple[int, str]]":
        """Standard errors that take nothing: each as a number, and what a shell does about it."""
        broken, full, (master, terminal) = os.pipe(), os.pipe(), os.openpty()
        talks = [it.detach() for it in socket.socketpair()]
        for it in (broken[1], *full, master, terminal, *talks):
            self.addCleanup(os.close, it)
        os.close(broken[0])
        fill(full[1])
        fill(talks[0])
        os.write(master, b"\x13")
        until(lambda: not select.select([], [terminal], [], 0)[1], "the terminal is stopped, by Ctrl-S")
        runs = 'exec "$@"'
        return {
            "a broken pipe": (broken[1], runs),
            "a full pipe": (full[1], runs),
            "a full socket": (talks[0], runs),
            "a terminal that is stopped": (terminal, runs),
            "a full disk": (subprocess.DEVNULL, f"{runs} 2> /dev/full"),
            "a file that may not grow": (subprocess.DEVNULL, f"ulimit -f 0; {runs} 2> {self.room}/limited"),
            "none": (subprocess.DEVNULL, f"{runs} 2>&-"),
            "no stream at all": (subprocess.DEVNULL, f"{runs} <&- >&- 2>&-"),
        }

    def unheard(self, broker: Broker, errors: int, shell: str, *words: str, **more: bool) -> "subprocess.Popen[bytes]":
        words = tuple(it.replace("FOLDER", broker.folder) for it in words)
        one = subprocess.Popen(["sh", "-c", shell, "sh", self.program, *words], env=self.environment(broker), stderr=errors, **more)
        self.addCleanup(one.wait)
        self.addCleanup(one.kill)
        return one

    def test_nobody_hears_that_it_is_taken_away(self) -> None:
        """Its command gets SIGTERM all the same, and at once; and wrong words are wrong words."""
        for name, (errors, shell) in self.nowhere().items():
            with self.subTest(name), broker(BAY, "--http", "unix:FOLDER/bay.sock.http") as at:
                hold = self.unheard(at, errors, shell, "scope", "--", "sh", "-c", MINDS_SILENTLY)
                until(lambda: os.path.exists(f"{at.folder}/begun"), "the command runs")
                begun = time.monotonic()
                Asking(f"{at.folder}/bay.sock.http").ask("POST", "/v1/release", {"station": "guest-1", "by": "ben"})
                until(lambda: os.path.exists(f"{at.folder}/ended"), "the command has got SIGTERM")
                self.assertLess(time.monotonic() - begun, SOON)
                self.assertEqual(hold.wait(LIMIT), 76)
                self.assertEqual(self.unheard(at, errors, shell, "scope", "--nothing").wait(LIMIT), 2)

    def test_nobody_hears_for_whom_it_waits(self) -> None:
        """Then it runs its command, to which SIGPIPE is what it was to this."""
        nowhere = self.nowhere()
        for name, default in (*((name, True) for name in nowhere), ("a broken pipe", False)):
            with self.subTest(name, default=default), broker(BAY, "--http", "unix:FOLDER/bay.sock.http") as at:
                one = Asking(f"{at.folder}/bay.sock.http")
                ticket = one.holds("scope", station="board")
                waits = self.unheard(at, *nowhere[name], "scope", "--", "sh", "-c", "kill -PIPE $$; exit 7", restore_signals=default)
                until(lambda: waits.poll() is not None or one.status("guest-1")["state"] == "waiting")
                # (by then it says for whom)
                time.sleep(1)
                one.lets_go(ticket)
                self.assertEqual(waits.wait(LIMIT), 128 + signal.SIGPIPE if default else 7)

    def test_nobody_hears_for_what_it_waits(self) -> None:
        """After a signal: it lets go once that has ended."""
        broker, one = self.at()
        lags = "exec 2> /dev/null; (trap 'sleep 3; exit' TERM; : > FOLDER/begun; n=0; while [ $((n += 1)) -lt 1500 ]; do sleep 0.05; done) & wait"
        nowhere = self.nowhere()
        for name in ("a broken pipe", "a full pipe"):
            with self.subTest(name):
                hold = self.unheard(broker, *nowhere[name], "scope", "--", "sh", "-c", lags)
                until(lambda: os.path.exists(f"{broker.folder}/begun"), "the command runs")
                hold.terminate()
                self.assertEqual(hold.wait(LIMIT), 128 + signal.SIGTERM)
                self.assertEqual(one.status("guest-1")["state"], "idle")
                os.unlink(f"{broker.folder}/begun")

    def test_streams_that_are_closed(self) -> None:
        """The command has /dev/null, and no socket gets the number of standard error: what is said doesn't go to the broker."""
        broker, _ = self.at()
        shows = "(for n in 0 1 2; do readlink /proc/$$/fd/$n; done) > FOLDER/streams; true"
        self.assertEqual(self.unheard(broker, subprocess.DEVNULL, 'exec "$@" <&- >&- 2>&-', "scope", "--", "sh", "-c", shows).wait(LIMIT), 0)
        with open(f"{broker.folder}/streams", encoding="ascii") as file:
            self.assertEqual(file.read(), "/dev/null\n" * 3)
        path = f"{self.room}/silent.sock"
        with socket.socket(socket.AF_UNIX) as listens:
            listens.bind(path)
            listens.listen()
            listens.settimeout(LIMIT)
            one = self.unheard(broker, subprocess.DEVNULL, 'exec "$@" <&- 2>&-', "scope", "--broker", f"unix:{path}", "--", "true")
            wish, _ = listens.accept()
            with wish:
                self.assertTrue(wish.recv(4096).startswith(b"POST /v1/sessions?"))
                # (after a second and a half it says that it isn't answered)
                one.terminate()
                self.assertEqual(select.select([wish], [], [], 4)[0], [])
                one.terminate()
                self.assertEqual(one.wait(LIMIT), 128 + signal.SIGTERM)

    def test_its_help_can_t_be_written(self) -> None:
        for to, why in ((">/dev/full", "No space left on device"), (">&-", "Bad file descriptor")):
            done = subprocess.run(["sh", "-c", f'exec "$@" {to}', "sh", self.program, "--help"], stderr=subprocess.PIPE, text=True, timeout=LIMIT)
            self.assertEqual((done.returncode, done.stderr), (1, f"labrun-hold: standard output: {why}\n"))

    def test_the_signal_goes_before_the_line(self) -> None:
        """A command that is stopped has it when the line is read."""
        broker, one = self.at()
        hold = self.started(broker, "scope", "--", "sh", "-c", "echo $$ > FOLDER/number; mv FOLDER/number FOLDER/begun; kill -STOP $$")
        with open(f"{broker.folder}/begun", encoding="ascii") as file:
            command = int(file.read())
        self.addCleanup(subprocess.run, ["sh", "-c", f"kill -9 {command}"], stderr=subprocess.DEVNULL)
        until(lambda: is_stopped(command), "that it is stopped")
        one.ask("POST", "/v1/release", {"station": "guest-1", "by": "ben"})
        self.assertIn("the command is being ended", heard(hold.stderr))
        with open(f"/proc/{command}/status", encoding="ascii") as file:
            waiting = next(int(line.split()[1], 16) for line in file if line.startswith("ShdPnd:"))
        self.assertTrue(waiting & 1 << signal.SIGTERM - 1)
        os.kill(command, signal.SIGCONT)
        self.ends(hold, 76)

    def test_a_line_that_is_cut(self) -> None:
        """By a pipe that has no room for more: the next one has a line of its own. It has let go before it says why the command can't be run."""
        path = f"{self.room}/long.sock"
        reads, writes = os.pipe()
        self.addCleanup(os.close, reads)
        fcntl.fcntl(writes, fcntl.F_SETPIPE_SZ, 4096)
        with socket.socket(socket.AF_UNIX) as listens:
            listens.bind(path)
            listens.listen()
            listens.settimeout(LIMIT)
            one = subprocess.Popen([self.program, "scope", "--broker", f"unix:{path}", "--", "x" * 6000], stderr=writes)
            self.addCleanup(one.wait)
            self.addCleanup(one.kill)
            os.close(writes)
            wish, _ = listens.accept()
            with wish:
                wish.recv(4096)
                body = b'{"state": "holding", "station": "guest-1", "instruments": ["scope"], "token": 1}'
                wish.sendall(b"HTTP/1.1 200 OK\r\nContent-Length: %d\r\n\r\n%s" % (len(body), body))
            self.assertTrue(select.select([reads], [], [], LIMIT)[0], "it says something")
            self.assertTrue(select.select([listens], [], [], 0)[0], "it has let go")
            # (longer than it waits for somebody to read)
            time.sleep(1)
            tells, _ = listens.accept()
            with tells:
                self.assertTrue(tells.recv(4096).startswith(b"DELETE /v1/sessions/"))
                said = b""
                while b"hasn't answered" not in said:
                    self.assertTrue(select.select([reads], [], [], LIMIT)[0], said)
                    self.assertTrue(some := os.read(reads, 8192), said)
                    said += some
                tells.sendall(b"HTTP/1.1 200 OK\r\nContent-Length: 2\r\n\r\n{}")
            self.assertEqual(one.wait(LIMIT), 126)
        self.assertRegex(said.decode(), "^labrun-hold: x{4000}.*\nlabrun-hold: the command has ended with status 126; the broker hasn't answered yet")

    def test_it_is_killed(self) -> None:
        """Where nothing is released its command goes on, and its session holds."""
        broker, one = self.at()
        hold = self.started(broker, "scope", "--", "sh", "-c", f"echo $$ > FOLDER/number; {MINDS}")
        hold.kill()
        hold.wait()
        time.sleep(1)
        self.assertEqual((one.status("guest-1")["instruments"], os.path.exists(f"{broker.folder}/ended")), (["scope"], False))
        with open(f"{broker.folder}/number", encoding="ascii") as file:
            os.kill(int(file.read()), signal.SIGTERM)
        until(lambda: os.path.exists(f"{broker.folder}/ended"))

    def test_it_is_killed_where_sessions_are_released(self) -> None:
        """Its command gets SIGTERM, and then somebody else holds."""
        broker, one = self.at(RELEASES, "--grace", "2")
        hold = self.started(broker, "scope", "--", "sh", "-c", MINDS)
        hold.kill()
        hold.wait()
        until(lambda: os.path.exists(f"{broker.folder}/ended"))
        other = one.asks("scope")[1]["ticket"]
        until(lambda: one.of(other, wait=1)[0] == 200)

    def test_it_holds_for_longer_than_the_lease(self) -> None:
        broker, one = self.at(RELEASES, "--grace", "6")
        hold = self.started(broker, "scope", "--", "sh", "-c", "echo > FOLDER/begun; sleep 12")
        self.assertEqual(self.ends(hold, 0), "")

    def test_the_broker_is_silent_where_sessions_are_released(self) -> None:
        """The command gets SIGTERM at its deadline, and not when it is noticed."""
        broker, one = self.at(RELEASES, "--grace", "10")
        hold = self.started(broker, "scope", "--", "sh", "-c", MINDS)
        assert broker.process is not None
        broker.process.send_signal(signal.SIGSTOP)
        stopped = time.time()
        try:
            said = self.ends(hold, 76)
        finally:
            broker.process.send_signal(signal.SIGCONT)
        self.assertIn("nothing was heard from the broker for more than 7.5 s, so the session is over, and others may hold these by now: scope", said)
        with open(f"{broker.folder}/ended", encoding="ascii") as file:
            # (three of four parts of it, from the last word that was answered; the margin is the fourth)
            self.assertTrue(4 < float(file.read()) - stopped < 10)

    def test_the_broker_is_killed(self) -> None:
        """It goes on, and lets go at the next one; also one that is down when the command ends is told, once it is back."""
        broker, one = self.at(BAY, "--state", "FOLDER/state")
        hold = self.started(broker, "scope", "--", "sh", "-c", "echo > FOLDER/begun; while [ ! -e FOLDER/over ]; do sleep 0.05; done")
        broker.kill()
        broker.begin()
        until(lambda: one.status("guest-1")["state"] == "holding")
        broker.kill()
        with open(f"{broker.folder}/over", "w", encoding="ascii"):
            pass
        assert hold.stderr is not None
        self.assertIn("ended with status 0; the broker hasn't answered yet", heard(hold.stderr))
        broker.begin()
        self.assertEqual(self.ends(hold, 0), "")
        self.assertEqual(one.status("guest-1")["state"], "idle")

    def test_it_tells_soon_after_the_broker_is_back(self) -> None:
        """Its command has ended meanwhile. It asks three times a second."""
        broker, _ = self.at(BAY, "--state", "FOLDER/state")
        runs = self.started(broker, "scope", "--", "sh", "-c", "echo > FOLDER/begun; while [ ! -e FOLDER/end ]; do sleep 0.05; done")
        broker.kill()
        with open(f"{broker.folder}/end", "w", encoding="utf-8"):
            pass
        self.assertIn("the broker hasn't answered yet; labrun-hold keeps trying to tell it, and Ctrl-C ends that", heard(runs.stderr))
        broker.begin()
        back = time.monotonic()
        self.ends(runs, 0)
        self.assertLess(time.monotonic() - back, 5)

    def test_a_stopped_broker_is_told_of(self) -> None:
        """To who asks without a limit, and to who waits in the line; both come to hold once the broker goes on."""
        broker, one = self.at(BAY, "--state", "FOLDER/state")
        assert broker.process is not None
        holder = self.started(broker, "scope", "--", "sh", "-c", "echo > FOLDER/begun; while [ ! -e FOLDER/over ]; do sleep 0.05; done")
        with self.waits(broker, "scope", "--", "true") as waits:
            assert waits.stderr is not None
            self.assertIn("waits: scope has been held", heard(waits.stderr))
            broker.process.send_signal(signal.SIGSTOP)
            self.addCleanup(broker.process.send_signal, signal.SIGCONT)
            with self.waits(broker, "load-1", "--", "true") as asks:
                assert asks.stderr is not None
                text = f"labrun-hold: there is no word from the broker at {broker.address}.http; labrun-hold keeps trying for FOR, and Ctrl-C ends that\n"
                told = text.replace("FOR", "30 s in all"), text.replace("FOR", "a while")
                self.assertEqual((asks.stderr.readline(), waits.stderr.readline()), told)
                with open(f"{broker.folder}/over", "w", encoding="ascii"):
                    pass
                broker.process.send_signal(signal.SIGCONT)
                self.assertEqual((asks.wait(LIMIT), waits.wait(LIMIT), holder.wait(LIMIT)), (0, 0, 0))

    def test_a_stopped_broker_is_given_up(self) -> None:
        """After one time by this program and by `labrun-broker hold`, by each of its ways, also where a time limit is longer."""
        port = free_port()
        broker, _ = self.at(BAY, "--listen", f"127.0.0.1:{port}")
        hold = [*COMMAND, "hold", "scope", "--broker"]
        its = ([self.program, "scope"], [self.program, "scope", "--timeout", "900"], [*hold, broker.address], [*hold, broker.address, "--timeout", "900"])
        its += ([*hold, f"127.0.0.1:{port}"], [*hold, broker.address.replace("unix:", "unix://")])
        with stopped(broker):
            begun = time.monotonic()
            runs = [self.enterContext(subprocess.Popen([*it, "--", "true"], env=self.environment(broker), stderr=subprocess.PIPE, text=True)) for it in its]
            for it in runs:
                self.addCleanup(it.kill)
            until(lambda: any(it.poll() is not None for it in runs), "that one gives up")
            self.assertGreater(time.monotonic() - begun, 25)
            # (they began together, and a machine that is busy is so for all of them)
            until(lambda: all(it.poll() is not None for it in runs), "that all do")
            self.assertLess(time.monotonic() - begun, 65)
        for it in runs:
            said = it.communicate()[1]
            self.assertEqual(it.returncode, 69, said)
            self.assertRegex(said, r"^labrun-\w+: there is no word from the broker at \S+; [\w-]+ keeps trying for 30 s in all, and Ctrl-C ends that\n")
            self.assertIn("doesn't answer", said)

    def test_it_is_killed_while_the_broker_is_stopped(self) -> None:
        """As it asks, and as it waits in line and whoever holds lets go meanwhile: nobody knows of its session, and none is left behind."""
        for bay, waits in ((BAY, False), (BAY, True), (RELEASES, False), (RELEASES, True)):
            with self.subTest(bay, waits=waits):
                broker, one = self.at(bay, "--state", "FOLDER/state", "--grace", "900")
                words = [self.program, "scope", "--quiet", "--", "true"]
                if waits:
                    ticket = one.holds("scope", station="radio")
                    hold = self.enterContext(subprocess.Popen(words, env=self.environment(broker)))
                    until(lambda: one.status("guest-1")["state"] == "waiting", "it waits")
                with stopped(broker):
                    if waits:
                        lets_go = self.enterContext(socket.socket(socket.AF_UNIX))
                        lets_go.connect(f"{broker.folder}/bay.sock.http")
                        lets_go.sendall(f"DELETE /v1/sessions/{ticket} HTTP/1.1\r\nHost: localhost\r\n\r\n".encode())
                    else:
                        words.remove("--quiet")
                        hold = self.enterContext(subprocess.Popen(words, env=self.environment(broker), stderr=subprocess.PIPE, text=True))
                        assert hold.stderr is not None
                        # (it has asked, and waited for an answer)
                        self.assertIn("there is no word from the broker", hold.stderr.readline())
                    hold.kill()
                    hold.wait(LIMIT)
                until(lambda: one.status("radio")["state"] == "idle", "that who held has let go")
                self.assertEqual(one.asks("scope", wait=20)[0], 200)
                its = [record["what"] for record in records(broker) if record["station"] == "guest-1" and record["by"] and "ann" in record["by"]]
                self.assertNotIn("gone", its)
                if not waits:
                    self.assertEqual(its, [])

    def test_a_broker_that_does_not_come_back(self) -> None:
        """Whoever waited may hold, as the journal of a broker that was killed may say: it is told so, and who has asked nothing isn't."""
        broker, one = self.at(BAY, "--state", "FOLDER/state")
        one.holds("scope", station="radio")
        hold = self.waits(broker, "scope", "--timeout", "4", "--", "true")
        assert hold.stderr is not None
        self.assertIn("waits: scope has been held", heard(hold.stderr))
        broker.kill()
        may = "the session may hold all the same: if `labrun-broker status` shows guest-1 as gone, end it by `labrun-broker release guest-1`"
        self.assertRegex(self.ends(hold, 69), f"^labrun-hold: the broker at unix:.* (can't be reached: nobody listens there|doesn't answer); {may}\n$")
        ran = self.ran(broker, "scope", "-n", "--", "true")
        self.assertEqual((ran.returncode, "may hold" in ran.stderr), (69, False), ran.stderr)
        broker.begin()

    def test_nothing_is_held_later(self) -> None:
        """A broker that is silent finds, once it goes on, that nobody waits any more: so whoever gives up is told that nothing is held."""
        broker, one = self.at(BAY, "--state", "FOLDER/state")
        nothing = "labrun-hold: the broker at unix:.* doesn't answer; nothing is held: should it go on, it finds that nobody waits any more\n"
        ticket = one.holds("scope", station="radio")
        waits = self.waits(broker, "scope", "--quiet", "--timeout", "6", "--", "true")
        until(lambda: one.status("guest-1")["state"] == "waiting", "it waits")
        with stopped(broker):
            its = [self.waits(broker, "load-1", *words, "--quiet", "--", "true") for words in (("-n",), ("--timeout", "3"), ("--station", "board", "-n"))]
            for it in (*its, waits):
                self.assertRegex(self.ends(it, 69), f"^{nothing}$")
            # (also by Ctrl-C, and by a second one)
            before = untaken(broker)
            with self.waits(broker, "load-2", "--quiet", "--", "true") as asks:
                until(lambda: untaken(broker) > before, "it has asked")
                time.sleep(1)
                asks.send_signal(signal.SIGINT)
                assert asks.stderr is not None
                self.assertIn("and is told for some seconds", asks.stderr.readline())
                asks.send_signal(signal.SIGINT)
                self.assertEqual(asks.stderr.readline(), f"labrun-hold: the broker wasn't told, as far as is known here; {nothing.partition('; ')[2]}")
        one.lets_go(ticket)
        until(lambda: all(it["state"] == "idle" for it in one.ask("GET", "/v1/status")[1]["stations"]), "that nothing is held")
        # (the one that holds asks nothing meanwhile)
        self.assertNotIn("gone", [it["what"] for it in records(broker) if it["station"] != "radio"])

    def answers(self, *answers: bytes, name: str = "dies.sock", usual: str = "") -> str:
        """What it says at a broker that hears each request, and answers so; then there is none."""
        path = f"{self.room}/{name}"
        with socket.socket(socket.AF_UNIX) as listens:
            listens.bind(path)
            listens.listen()
            listens.settimeout(LIMIT)
            words = [self.program, "scope", "--quiet", "--timeout", "2", "--broker", f"unix:{path}", "--", "true"]
            one = subprocess.Popen(words, env={**os.environ, "LABRUN_BROKER": usual}, stderr=subprocess.PIPE, text=True)
            self.addCleanup(one.kill)
            for answer in answers:
                came, _ = listens.accept()
                came.recv(4096)
                if answer is answers[-1]:
                    listens.close()
                    os.unlink(path)
                came.sendall(answer)
                came.close()
        return self.ends(one, 69)

    def test_one_that_dies_as_it_is_asked(self) -> None:
        """Then the session may hold: its name is said if it is known."""
        waits = b'{"state": "waiting", "station": "guest-7", "text": "", "waits_for": []}'
        waits = b"HTTP/1.1 202 Accepted\r\nContent-Length: %d\r\n\r\n%s" % (len(waits), waits)
        may, at = "; the session may hold all the same: if ", f" --broker unix:{self.room}/dies.sock"
        said = self.answers(b"")
        end = f"end it by `labrun-broker release NAME{at}`, with the name that stands there\n"
        self.assertIn(f"{may}`labrun-broker status{at}` shows it as gone, {end}", said)
        said = self.answers(waits, b"")
        self.assertIn(f"{may}`labrun-broker status{at}` shows guest-7 as gone, end it by `labrun-broker release guest-7{at}`\n", said)

    def test_which_broker_it_says_to_ask(self) -> None:
        """That which it asks itself, by the socket that isn't curl's, and as a shell wants it; it isn't named where labrun-broker asks it anyway."""
        for name, usual, at in (
            ("dies.sock", f"unix:{self.room}/dies.sock", ""),
            ("dies.sock", "unix:/elsewhere", f" --broker unix:{self.room}/dies.sock"),
            ("it's one.sock", "", f""" --broker 'unix:{self.room}/it'"'"'s one.sock'"""),
            ("dies.sock.http", "", f" --broker unix:{self.room}/dies.sock"),
            ("dies.sock.http", f"unix:{self.room}/dies.sock.http", f" --broker unix:{self.room}/dies.sock"),
            ("dies.sock.http", f"unix:{self.room}/dies.sock", ""),
        ):
            with self.subTest(name, usual=usual):
                may = f"if `labrun-broker status{at}` shows it as gone, end it by `labrun-broker release NAME{at}`, with the name that stands there\n"
                self.assertIn(may, self.answers(b"", name=name, usual=usual))

    def test_a_broker_that_is_full(self) -> None:
        broker, one = self.at(BAY + "[limits]\nclients = 1\n")
        one.holds("scope")
        for words in ((), ("-n",), ("--timeout", "2")):
            ran = self.ran(broker, "supply", *words, "--", "true")
            self.assertEqual((ran.returncode, ran.stderr), (69, "labrun-hold: 1 client is here, and no more may come\n"))

    def test_it_is_told_at_once(self) -> None:
        """When whoever holds is gone, and who asks next; as `labrun-broker hold` is. Also at an older broker, which doesn't know that word, later."""
        broker, _ = self.at(BAY, "--state", "FOLDER/state")
        lab = self.lab(broker)
        for old in (False, True):
            with self.subTest(old=old), contextlib.ExitStack() as ends:
                if old:
                    broker.end()
                    broker.command = [sys.executable, "-c", OLDER]
                    broker.begin()
                holder = ends.enter_context(subprocess.Popen([*COMMAND, "hold", "scope", "--station", "radio", "--", "sleep", "600"], env=self.environment(broker)))
                ends.callback(holder.kill)
                until(lambda: station(lab, "radio")["state"] == "holding")
                waits = ends.enter_context(self.waits(broker, "scope", "--", "true"))
                ends.callback(waits.kill)
                assert waits.stderr is not None
                self.assertIn("scope has been held by radio for", heard(waits.stderr))
                time.sleep(1)
                holder.kill()
                until(lambda: station(lab, "radio")["state"] == "gone")
                begun = time.monotonic()
                self.assertIn("gone for", heard(waits.stderr))
                if not old:
                    self.assertLess(time.monotonic() - begun, 3)
                lab.release("radio")
                self.assertEqual(waits.wait(LIMIT), 0)

    def test_one_that_is_stopped_while_it_holds(self) -> None:
        """It is shown as gone soon."""
        broker, one = self.at()
        hold = self.started(broker, "scope", "--station", "board", "--", "sh", "-c", "echo > FOLDER/begun; sleep 600")
        time.sleep(1)
        hold.send_signal(signal.SIGSTOP)
        begun = time.monotonic()
        until(lambda: one.status("board")["state"] == "gone")
        self.assertLess(time.monotonic() - begun, 30)
        hold.send_signal(signal.SIGCONT)
        until(lambda: one.status("board")["state"] == "holding")
        hold.terminate()
        self.ends(hold, 143)

    def test_a_broker_that_answers_again(self) -> None:
        """One that was stopped has kept the place in line; with one that was killed it is lost."""
        broker, one = self.at(BAY, "--state", "FOLDER/state")
        ticket = one.holds("scope", station="radio")
        with self.waits(broker, "scope", "--", "true") as waits:
            assert waits.stderr is not None
            self.assertIn("waits: scope has been held", heard(waits.stderr))
            at = f"{broker.address}.http"
            silent = f"labrun-hold: there is no word from the broker at {at}; labrun-hold keeps trying for a while, and Ctrl-C ends that\n"
            with stopped(broker):
                self.assertEqual(waits.stderr.readline(), silent)
            self.assertEqual(waits.stderr.readline(), f"labrun-hold: the broker at {at} answers again, and the place in line is kept\n")
            broker.kill()
            self.assertEqual(waits.stderr.readline(), silent)
            broker.begin()
            self.assertEqual(waits.stderr.readline(), f"labrun-hold: the broker at {at} answers again; the place in line is lost, and this waits at its end\n")
            one.lets_go(ticket)
            self.assertEqual(waits.wait(LIMIT), 0)

    def test_a_signal_while_its_wish_is_on_its_way(self) -> None:
        """To a broker that has much to do. It is told that this waits no longer once it has read the wish, and again if it didn't answer."""
        path = f"{self.room}/busy.sock"
        with socket.socket(socket.AF_UNIX) as listens:
            listens.bind(path)
            listens.listen()
            listens.settimeout(LIMIT)
            one = subprocess.Popen([self.program, "scope", "--broker", f"unix:{path}", "--", "true"], stderr=subprocess.PIPE, text=True)
            self.addCleanup(one.communicate)
            self.addCleanup(one.kill)
            wish, _ = listens.accept()
            asked = wish.recv(4096)
            self.assertTrue(asked.startswith(b"POST /v1/sessions?"))
            one.terminate()
            assert one.stderr is not None
            self.assertIn("the broker doesn't answer, and is told for some seconds", heard(one.stderr))
            self.assertEqual(select.select([listens], [], [], 0)[0], [])
            body = b'{"state": "holding", "station": "guest-1", "instruments": ["scope"], "token": 1}'
            wish.sendall(b"HTTP/1.1 200 OK\r\nContent-Length: %d\r\n\r\n%s" % (len(body), body))
            for answer in (b"", b"HTTP/1.1 200 OK\r\nContent-Length: 2\r\n\r\n{}"):
                tells, _ = listens.accept()
                self.assertTrue(tells.recv(4096).startswith(b"DELETE /v1/sessions/"))
                tells.sendall(answer)
                tells.close()
            wish.close()
            self.ends(one, 128 + signal.SIGTERM)

    def test_an_answer_that_came_while_it_was_stopped(self) -> None:
        """It isn't told as of now: it is asked again, and the answer to that is told. So it is as it waits, as it waits on, and as it is warned."""
        path = f"{self.room}/fake.sock"
        waits = {"state": "waiting", "station": "guest-2", "waits_for": []}
        holds = {"state": "holding", "station": "guest-2", "session": 2, "instruments": ["scope"], "token": 2}
        with socket.socket(socket.AF_UNIX) as listens:
            listens.bind(path)
            listens.listen()
            listens.settimeout(LIMIT)
            words = [self.program, "scope", "--broker", f"unix:{path}", "--", "sh", "-c", "exec sleep 60 2> /dev/null"]
            one = subprocess.Popen(words, stderr=subprocess.PIPE, text=True)
            self.addCleanup(one.communicate)
            self.addCleanup(one.kill)

            def answers(asked: str, status: int, told: object, stands_still: bool = False) -> None:
                came, _ = listens.accept()
                with came:
                    self.assertRegex(came.recv(4096).decode(), f"^{asked} HTTP/1.1\r\n")
                    if stands_still:
                        one.send_signal(signal.SIGSTOP)
                        until(lambda: is_stopped(one.pid), "that it is stopped")
                    body = json.dumps(told).encode()
                    came.sendall(b"HTTP/1.1 %d OK\r\nContent-Length: %d\r\n\r\n%s" % (status, len(body), body))
                if stands_still:
                    time.sleep(1.5)
                    one.send_signal(signal.SIGCONT)

            now, later = r"GET /v1/sessions/\w+(\?wait=0\.000)?", r"GET /v1/sessions/\w+\?wait=5\.000&while=unchanged"
            for asked, whom in ((r"POST /v1/sessions\?wait=0\.300", "guest-1"), (later, "board")):
                answers(asked, 202, {**waits, "text": f"scope has been held by {whom} for 1.0 s"}, stands_still=True)
                answers(now, 202, {**waits, "text": f"scope has been held by {whom} for 2.5 s"})
                self.assertEqual(heard(one.stderr), f"labrun-hold: waits: scope has been held by {whom} for 2.5 s\n")
            answers(later, 200, holds)
            answers(r"GET /v1/sessions/\w+\?while=holding&wait=30\.000", 200, {**holds, "warning": "it is over in 10 s"}, stands_still=True)
            answers(now, 200, {**holds, "warning": "it is over in 8 s"})
            self.assertEqual(heard(one.stderr), "labrun-hold: it is over in 8 s\n")
            one.send_signal(signal.SIGTERM)

    def waits(self, broker: Broker, *words: str) -> "subprocess.Popen[str]":
        one = subprocess.Popen([self.program, *words], env=self.environment(broker), stderr=subprocess.PIPE, text=True)
        self.addCleanup(one.kill)
        return one

    def test_its_way_is_cut(self) -> None:
        """It goes on, however that is told, and lets go once there is a way again."""
        for how in ("both", "client", "neither"):
            with self.subTest(how), broker(BAY, "--http", "unix:FOLDER/bay.sock.http") as one, Ways() as ways:
                way = OfSockets(ways, f"{one.folder}/way.sock", f"{one.folder}/bay.sock.http")
                asking = Asking(f"{one.folder}/bay.sock.http")
                runs = "echo > FOLDER/begun; while [ ! -e FOLDER/over ]; do sleep 0.05; done"
                hold = self.started(one, "scope", "--broker", way.address, "--", "sh", "-c", runs)
                way.cut(how)
                with open(f"{one.folder}/over", "w", encoding="ascii"):
                    pass
                assert hold.stderr is not None
                self.assertIn("ended with status 0; the broker hasn't answered yet", heard(hold.stderr))
                self.assertIn(asking.status("guest-1")["state"], ("holding", "gone"))
                way.mend()
                self.assertEqual(self.ends(hold, 0), "")
                self.assertEqual(asking.status("guest-1")["state"], "idle")
                way.close()

    def test_it_waits_while_the_broker_is_killed(self) -> None:
        broker, one = self.at(BAY, "--state", "FOLDER/state")
        ticket = one.holds("scope", station="board")
        waits = subprocess.Popen([self.program, "scope", "--quiet", "--", "true"], env=self.environment(broker), stderr=subprocess.PIPE, text=True)
        self.addCleanup(waits.kill)
        until(lambda: one.status("guest-1")["state"] == "waiting")
        broker.kill()
        broker.begin()
        until(lambda: waits.poll() is not None or one.status("guest-1")["state"] == "waiting")
        one.lets_go(ticket)
        self.ends(waits, 0)


if __name__ == "__main__":
    unittest.main()
