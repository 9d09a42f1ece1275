"""The small client of `hold`: it begins soon, and the whole one takes over wherever it has to."""

import contextlib
import io
import os
import signal
import socket
import subprocess
import sys
import tempfile
import threading
import time
import unittest
from unittest import mock

import labrun_broker
from labrun_broker import quick, run
from labrun_broker.command import main
from labrun_broker.quick import HELD
from labrun_broker.wire import Odd, Wire, _number, field, fields_of, text_field
from tests.brokers import BAY, LIMIT, SOON, UNHEARD, Broker, OnBroker, heard, records, station, stopped, until

RELEASES = BAY.replace('bay = "north"', 'bay = "north"\ngone = "release"')


class Quick(OnBroker):
    def state(self, broker: Broker, name: str = "guest-1") -> str:
        with broker.lab() as lab:
            return str(station(lab, name)["state"])

    def records(self, broker: Broker) -> list[str]:
        return [it["what"] for it in records(broker)]

    def holds(self, broker: Broker, script: str) -> "subprocess.Popen[str]":
        """A hold whose command has begun, and goes on once `go` is there."""
        runs = broker.started("hold", "scope", "--", "sh", "-c", f"echo runs; while ! [ -e {broker.folder}/go ]; do sleep 0.05; done; {script}")
        self.addCleanup(runs.kill)
        assert runs.stdout is not None
        self.assertEqual(runs.stdout.readline(), "runs\n")
        return runs

    def ends(self, broker: Broker, runs: "subprocess.Popen[str]", status: int) -> str:
        with open(f"{broker.folder}/go", "w", encoding="utf-8"):
            pass
        out, said = runs.communicate(timeout=LIMIT)
        self.assertEqual(runs.returncode, status, out + said)
        return said

    def test_it_imports_nothing_of_the_whole_client(self) -> None:
        broker = self.broker()
        words = [sys.executable, "-X", "importtime", "-m", "labrun_broker", "hold", "scope", "--", "true"]
        done = subprocess.run(words, env={**os.environ, "LABRUN_BROKER": broker.address}, capture_output=True, text=True, timeout=LIMIT)
        self.assertEqual(done.returncode, 0)
        modules = {line.rpartition("|")[2].strip() for line in done.stderr.splitlines() if line.startswith("import time:")}
        self.assertIn("labrun_broker.quick", modules)
        heavy = {"grpc", "google.protobuf", "asyncio", "labrun", "ctypes", "tomllib", "dataclasses", "ssl", "labrun_broker.client", "labrun_broker.serve"}
        self.assertEqual(modules & heavy, set())

    def test_a_stopped_broker_is_told_of(self) -> None:
        """Also to who waits without a limit; and it comes to hold once the broker goes on."""
        broker = self.broker()
        assert broker.process is not None
        os.kill(broker.process.pid, signal.SIGSTOP)
        self.addCleanup(os.kill, broker.process.pid, signal.SIGCONT)
        program = "import sys; from labrun_broker import command, silence; silence.TICK = 0.1; sys.exit(command.main())"
        words = [sys.executable, "-c", program, "hold", "scope", "--", "echo", "ran"]
        with subprocess.Popen(words, env={**os.environ, "LABRUN_BROKER": broker.address}, stderr=subprocess.PIPE, stdout=subprocess.PIPE, text=True) as runs:
            assert runs.stderr is not None
            said = runs.stderr.readline()
            self.assertEqual(said, f"labrun-broker: there is no word from the broker at {broker.address}; hold keeps trying for 30 s in all, and Ctrl-C ends that\n")
            os.kill(broker.process.pid, signal.SIGCONT)
            out, said = runs.communicate(timeout=LIMIT)
        self.assertEqual((runs.returncode, out, said), (0, "ran\n", ""))

    def test_taken_away_just_as_it_came_to_hold(self) -> None:
        """As from one that is stopped for longer than the grace. It ends, though its stream says nothing more and the broker answers each ping."""
        broker, ends = self.broker(RELEASES, "--grace", "1"), list[BaseException]()

        def connects(_: bool) -> labrun_broker.Lab:
            with broker.lab() as lab:
                until(lambda: station(lab, "guest-1")["state"] == "idle")
            raise labrun_broker.TakenAway("as it came to hold")

        def holds() -> None:
            wish = quick.Wish(("scope",), (), "", "", None)
            try:
                with quick.Quick(f"{broker.folder}/bay.sock", wish, None, connects, lambda: None):
                    pass
            except labrun_broker.TakenAway as fault:
                ends.append(fault)

        thread = threading.Thread(target=holds, daemon=True)
        thread.start()
        thread.join(LIMIT)
        self.assertEqual([str(it) for it in ends], ["as it came to hold"])

    def test_what_is_no_token(self) -> None:
        """It is refused at once, and isn't shown."""
        broker = self.broker()
        for text in ("a tab\tin it", "of two\nlines", "", "stra\u00dfe"):
            with self.subTest(text):
                with open(f"{broker.folder}/token", "w", encoding="utf-8") as file:
                    file.write(text)
                for word in (["hold", "scope", "-n", "--token-file", f"{broker.folder}/token", "--", "true"], ["status", "--token-file", f"{broker.folder}/token"]):
                    done = broker.ran(*word)
                    self.assertEqual((done.returncode, done.stdout), (66, ""))
                    self.assertRegex(done.stderr, rf"\Alabrun-broker: --token-file .*/token: a token is one line of letters, digits and signs, and this file {'has something else' if text else 'is empty'}\n\Z")

    def test_who_was_stopped_reads_the_answer_first(self) -> None:
        """A process that was stopped while it told the broker finds its timer over and the answer there: that isn't a broker without an answer."""
        signals = run.Signals()
        with mock.patch("labrun_broker.run.say") as said, signals.giving_up(0):
            signal.raise_signal(signal.SIGALRM)
            said.assert_not_called()
            signal.raise_signal(signal.SIGALRM)
            self.assertIn("the broker hasn't answered yet", said.call_args.args[0])

    def test_a_broker_that_is_killed_while_the_command_runs(self) -> None:
        for bay, number in ((BAY, signal.SIGKILL), (BAY, signal.SIGTERM), (RELEASES, signal.SIGKILL)):
            with self.subTest(bay, number=number):
                broker = self.broker(bay, "--state", "FOLDER/state")
                runs = self.holds(broker, "exit 5")
                broker.end(number)
                broker.begin()
                until(lambda: self.state(broker) == "holding", "that it is back")
                self.ends(broker, runs, 5)
                self.assertEqual(self.state(broker), "idle")
                until(lambda: self.records(broker)[-2:] == ["back", "failed"], "that it came back and failed")  # noqa: B023

    def test_a_broker_that_is_killed_while_it_waits(self) -> None:
        broker = self.broker(BAY, "--state", "FOLDER/state")
        first = self.holds(broker, "exit 0")
        second = broker.started("hold", "scope", "--", "echo", "ran")
        until(lambda: self.state(broker, "guest-2") == "waiting")
        broker.kill()
        broker.begin()
        until(lambda: self.state(broker) == "holding" and self.state(broker, "guest-2") == "waiting", "that both are back")
        self.ends(broker, first, 0)
        self.assertEqual((second.communicate(timeout=LIMIT)[0], second.returncode), ("ran\n", 0))

    def test_where_it_has_to_say_that_it_is_there(self) -> None:
        """With `gone = "release"` it holds for longer than the grace; and while the broker doesn't answer its command is ended in time."""
        broker = self.broker(RELEASES, "--state", "FOLDER/state", "--grace", "6")
        runs = self.holds(broker, "exit 0")
        time.sleep(9)
        # (one that is late once is gone for a moment)
        until(lambda: self.state(broker) == "holding")
        self.assertEqual(set(self.records(broker)) & {"taken", "failed", "let_go"}, set())
        self.ends(broker, runs, 0)
        os.unlink(f"{broker.folder}/go")
        runs = self.holds(broker, "exit 0")
        assert broker.process is not None
        broker.process.send_signal(signal.SIGSTOP)
        try:
            self.assertEqual(runs.wait(LIMIT), 76)
            self.assertIn("nothing was heard from the broker for more than 4.5 s", runs.communicate()[1])
        finally:
            broker.process.send_signal(signal.SIGCONT)

    def test_a_broker_that_is_away_as_the_command_ends(self) -> None:
        """It is said soon, and Ctrl-C ends the hold then, with the command's status."""
        for slashes, number in (("", signal.SIGINT), ("//", signal.SIGTERM)):
            with self.subTest(slashes, number=number):
                broker = self.broker(BAY, "--state", "FOLDER/state")
                socket, broker.address = broker.address, broker.address.replace("unix:", f"unix:{slashes}")
                runs = self.holds(broker, "exit 5")
                broker.kill()
                with open(f"{broker.folder}/go", "w", encoding="utf-8"):
                    pass
                assert runs.stderr is not None
                self.assertIn("the command has ended with status 5; the broker hasn't answered yet", heard(runs.stderr))
                begun = time.monotonic()
                runs.send_signal(number)
                said = runs.communicate(timeout=LIMIT)[1]
                self.assertLess(time.monotonic() - begun, SOON)
                self.assertEqual((runs.returncode, said.count("\n")), (5, 1), said)
                self.assertIn("the session may go on holding", said)
                broker.address = socket
                broker.begin()
                self.assertEqual(self.state(broker), "gone")

    def test_a_broker_that_has_forgotten_it_as_the_command_ends(self) -> None:
        """Others may have held what it had, so this is no status of the command."""
        for slashes in ("", "//"):
            with self.subTest(slashes):
                broker = self.broker()
                socket, broker.address = broker.address, broker.address.replace("unix:", f"unix:{slashes}")
                runs = self.holds(broker, "exit 5")
                broker.kill()
                with open(f"{broker.folder}/go", "w", encoding="utf-8"):
                    pass
                assert runs.stderr is not None
                self.assertIn("the command has ended with status 5; the broker hasn't answered yet", heard(runs.stderr))
                broker.address = socket
                broker.begin()
                said = runs.communicate(timeout=LIMIT)[1]
                self.assertEqual(runs.returncode, 76, said)
                self.assertRegex(said, "^labrun-broker: the command ran, and ended with status 5, but:\nlabrun-broker: no session has this ticket: .*\n$")

    def test_a_signal_as_it_lets_go(self) -> None:
        """It keeps no broker from being told that answers soon."""
        broker = self.broker()
        with broker.lab() as lab:
            for number in range(12):
                runs = broker.started("hold", "scope", "--", "sh", "-c", "echo runs; sleep 0.05; exit 5")
                assert runs.stdout is not None
                runs.stdout.readline()
                time.sleep(0.04 + number * 0.004)
                runs.terminate()
                runs.communicate(timeout=LIMIT)
                self.assertIn(runs.returncode, (5, 143, -15))
                until(lambda: all(it["state"] == "idle" for it in lab.status()["stations"]), "that all are idle")

    def test_a_broker_that_is_never_told(self) -> None:
        broker = self.broker(BAY, "--state", "FOLDER/state")
        assert broker.process is not None
        script = "import sys; from labrun_broker import command, held; held.GRACE = 1.0; sys.exit(command.main(sys.argv[1:]))"
        for number, address in enumerate((broker.address, broker.address.replace("unix:", "unix://")), 1):
            words = ["hold", "scope", "--broker", address, "--", "sh", "-c", f"kill -KILL {broker.process.pid}; exit 5"]
            done = subprocess.run([sys.executable, "-c", script, *words], capture_output=True, text=True, timeout=LIMIT)
            self.assertEqual((done.returncode, done.stdout), (69, ""), done.stderr)
            self.assertIn("labrun-broker: the command ran, and ended with status 5, but:\nlabrun-broker: the broker at unix:", done.stderr)
            release = f"`labrun-broker release guest-1 --session {number} --broker {address}`"
            kept = f"as `labrun-broker status --broker {address}` says, until it is released by {release}"
            self.assertRegex(done.stderr, rf"can't be reached: .*\nlabrun-broker: the session may go on holding, {kept}\n$")
            broker.end()
            broker.begin()
            self.assertEqual(broker.ran("release", "guest-1", "--session", str(number)).returncode, 0)

    def test_a_signal_while_a_broker_that_is_gone_is_told(self) -> None:
        """That ends it at once."""
        broker = self.broker(BAY, "--state", "FOLDER/state")
        for number, address in enumerate((broker.address, broker.address.replace("unix:", "unix://")), 1):
            assert broker.process is not None
            runs = broker.started("hold", "scope", "--broker", address, "--", "sh", "-c", f"kill -KILL {broker.process.pid}; exit 4")
            self.addCleanup(runs.kill)
            assert runs.stderr is not None
            self.assertIn("hold keeps trying to tell it, and Ctrl-C ends that\n", heard(runs.stderr))
            # (by then it looks for another one)
            time.sleep(1)
            began = time.monotonic()
            runs.send_signal(signal.SIGINT)
            said = runs.communicate(timeout=LIMIT)[1]
            self.assertLess(time.monotonic() - began, SOON)
            self.assertRegex(said, rf"^labrun-broker: the broker wasn't told, .* until it is released by `labrun-broker release guest-1 --session {number}\b.*`\n$")
            self.assertEqual(runs.returncode, 4)
            broker.end()
            broker.begin()
            self.assertEqual(broker.ran("release", "guest-1", "--session", str(number)).returncode, 0)

    def test_nobody_listens(self) -> None:
        """The time limit is kept: the whole client, which begins late, isn't needed to say so."""
        folder = self.enterContext(tempfile.TemporaryDirectory())
        with socket.socket(socket.AF_UNIX) as one:
            one.bind(f"{folder}/left.sock")
        for name, why in (("no.sock", "No such file or directory"), ("left.sock", "Connection refused")):
            for limit in (["-n"], ["--timeout", "0.2"]):
                at = f"unix:{folder}/{name}"
                with self.subTest(at, limit=limit), mock.patch.object(run, "lab_of", side_effect=AssertionError("the whole client")):
                    with contextlib.redirect_stderr(io.StringIO()) as said:
                        self.assertEqual(main(["hold", "scope", *limit, "--quiet", "--broker", at, "--", "true"]), 69)
                    self.assertEqual(said.getvalue(), f"labrun-broker: the broker at {at} can't be reached: {why}\n")

    def test_a_broker_that_is_being_started(self) -> None:
        """Who comes a moment too early waits for it; who doesn't want to wait doesn't."""
        for slashes, is_there, instrument in (("", True, ["scope"]), ("//", False, ["scope"]), ("", False, ["--any", "sc*"])):
            with self.subTest(slashes, is_there=is_there, instrument=instrument):
                broker = self.broker()
                broker.kill()
                socket, broker.address = broker.address, broker.address.replace("unix:", f"unix:{slashes}")
                if not is_there:
                    os.unlink(socket.removeprefix("unix:"))
                done = broker.ran("hold", *instrument, "-n", "--", "true")
                self.assertEqual((done.returncode, "waits for the broker" in done.stderr), (69, False), done.stderr)
                self.assertIn("can't be reached", done.stderr)
                # (on a busy machine it may take longer to begin than a broker has, and a limit may be over before it has looked once)
                program = "import sys; from labrun_broker import command, run, silence; run.STARTING = silence.SAYS = 60.0; sys.exit(command.main())"
                given = {**os.environ, "LABRUN_BROKER": broker.address}
                for limit in ("4", "12", "30"):
                    words = [sys.executable, "-c", program, "hold", *instrument, "--timeout", limit, "--", "true"]
                    if "waits for the broker" in (done := subprocess.run(words, env=given, capture_output=True, text=True, timeout=LIMIT)).stderr:
                        break
                self.assertEqual((done.returncode, "waits for the broker" in done.stderr), (69, True), done.stderr)
                self.assertIn("can't be reached", done.stderr)
                words = [sys.executable, "-c", program, "hold", *instrument, "--", "echo", "ran"]
                runs = subprocess.Popen(words, env=given, stdout=subprocess.PIPE, stderr=subprocess.PIPE, text=True)
                assert runs.stderr is not None
                told = f"labrun-broker: waits for the broker: it doesn't listen yet at {broker.address}\n"
                self.assertEqual(runs.stderr.readline(), told)
                broker.address = socket
                broker.begin()
                self.assertEqual((runs.communicate(timeout=LIMIT), runs.returncode), (("ran\n", ""), 0))

    def test_a_broker_that_is_stopped(self) -> None:
        """A time limit is kept all the same, and nothing is held once the broker goes on. (Without one it would wait for a word.)"""
        program = f"import sys; from labrun_broker import command, silence, wire; wire.SILENT = silence.SAYS = {10 * LIMIT}; sys.exit(command.main())"
        for bay, *state in ((BAY,), (BAY, "--state", "FOLDER/state"), (RELEASES, "--state", "FOLDER/state")):
            for limit, seconds in ((["-n"], 0.0), (["--timeout", "2"], 2.0)):
                with self.subTest(bay, state=state, limit=limit):
                    broker = self.broker(bay, *state)
                    with stopped(broker):
                        begun = time.monotonic()
                        words = [sys.executable, "-c", program, "hold", "scope", *limit, "--", "echo", "ran"]
                        done = subprocess.run(words, env={**os.environ, "LABRUN_BROKER": broker.address}, capture_output=True, text=True, timeout=LIMIT)
                        took = time.monotonic() - begun
                    told = f"labrun-broker: the broker at {broker.address} doesn't answer\n"
                    self.assertEqual((done.returncode, done.stdout, done.stderr), (69, "", told))
                    self.assertGreaterEqual(took, seconds)
                    time.sleep(1)
                    until(lambda: self.state(broker) == "idle", "nothing is held")

    def test_a_broker_that_answers_late(self) -> None:
        """One that is there isn't given up: its own answer is awaited."""
        broker = self.broker()
        assert broker.process is not None
        broker.process.send_signal(signal.SIGSTOP)
        runs = broker.started("hold", "scope", "-n", "--", "echo", "ran")
        time.sleep(1.6)
        broker.process.send_signal(signal.SIGCONT)
        out, said = runs.communicate(timeout=LIMIT)
        self.assertEqual((out, UNHEARD.sub("", said), runs.returncode), ("ran\n", "", 0))

    def test_one_whose_time_is_over_has_asked_once(self) -> None:
        broker = self.broker(BAY, "--state", "FOLDER/state")
        runs = self.holds(broker, "exit 0")
        self.assertEqual(broker.ran("hold", "scope", "--timeout", "0.3", "--", "true").returncode, 75)
        until(lambda: self.records(broker) == ["opened", "asked", "held", "asked", "gave_up"], "that it has asked once")
        self.ends(broker, runs, 0)

    def test_a_signal_as_it_comes_to_hold(self) -> None:
        """However early or late it comes, nothing is held afterwards."""
        broker = self.broker()
        with broker.lab() as lab:
            for number in range(12):
                runs = broker.started("hold", "scope", "--", "sleep", "60")
                until(lambda: any(it["state"] != "idle" for it in lab.status()["stations"]))
                time.sleep(number * 0.002)
                runs.terminate()
                runs.communicate(timeout=LIMIT)
                self.assertEqual(runs.returncode, 143)
                until(lambda: all(it["state"] == "idle" for it in lab.status()["stations"]), "that all are idle")

    def test_a_cut_before_it_is_told(self) -> None:
        """The broker's word that it holds is lost: the whole client has the same session, and lets go of it."""
        broker, told = self.broker(BAY, "--state", "FOLDER/state"), Wire.told

        def is_cut(wire: Wire) -> object:
            it = told(wire)
            if it[0] == HELD:
                raise Odd
            return it

        with mock.patch.object(Wire, "told", is_cut):
            self.assertEqual(main(["hold", "scope", "--broker", broker.address, "--", "true"]), 0)
        self.assertEqual(self.state(broker), "idle")
        until(lambda: [it for it in self.records(broker) if it not in ("gone", "back")] == ["opened", "asked", "held", "let_go"], "that it let go")

    def test_what_is_refused(self) -> None:
        broker = self.broker(BAY + "[limits]\nclients = 1\n")
        done = broker.ran("hold", "scope", "--by", "x" * 30000, "--", "true")
        self.assertEqual((done.returncode, done.stderr), (1, "labrun-broker: a `by` of 30000 characters; 64 are the most\n"))
        runs = self.holds(broker, "exit 0")
        # (it has asked nothing, and is told nothing of a session)
        for words in ((), ("-n",), ("--timeout", "2")):
            done = broker.ran("hold", "supply", *words, "--", "true")
            self.assertEqual(done.returncode, 69)
            self.assertRegex(done.stderr, "^labrun-broker: the broker at .* doesn't let this client in: 1 client is here, and no more may come\n$")
        self.ends(broker, runs, 0)


class Numbers(unittest.TestCase):
    def test_protobuf(self) -> None:
        """By the encoding's own examples: 150 is 96 01, and field 2 with `testing` is 12 07 and its letters."""
        self.assertEqual((_number(150), _number(1), _number(300)), (b"\x96\x01", b"\x01", b"\xac\x02"))
        self.assertEqual(text_field(2, "testing"), b"\x12\x07testing")
        told = b"\x08\x96\x01" + text_field(2, "testing") + field(2, b"") + b"\x19" + bytes(8)
        self.assertEqual(fields_of(told), {1: [150], 2: [b"testing", b""], 3: [bytes(8)]})


if __name__ == "__main__":
    unittest.main()
