"""A guard before instruments that refuse, and count, a second client."""

from __future__ import annotations

import fcntl
import hashlib
import signal
import socket
import struct
import subprocess
import sys
import termios
import time
import unittest
from typing import Any, Callable

import labrun
from tests.brokers import COMMAND, LIMIT, UNHEARD, free_port, is_stopped, station, until
from tests.guards import REFUSED, BeforeInstruments, program, talk


class LetsThrough(BeforeInstruments):
    """Who is let through, and who isn't."""

    def test_who_holds(self) -> None:
        lab = self.lab()
        for _ in range(3):
            with lab.hold("scope", "supply") as held:
                for name in ("scope", "supply"):
                    with talk(held.address(name)) as it:
                        self.assertEqual(it.ask("*IDN?"), name)
        self.assertEqual(self.refused(), 0)
        self.assertEqual(self.instruments.counts["scope"][0], 3)

    def test_not_who_held(self) -> None:
        lab = self.lab()
        with lab.hold("scope") as held:
            way = held.address("scope")
            talk(way).__exit__()
        with self.assertRaises(REFUSED):
            talk(way)
        with self.assertRaises(labrun.NotHeld):
            held.address("scope")

    def test_not_who_holds_another(self) -> None:
        lab = self.lab()
        with lab.hold("scope"), lab.hold("supply") as other:
            self.assertEqual(said(self.at.ports["scope"], other.ticket), "no: scope is held by guest-1 (tester)")
            self.assertEqual(said(self.at.ports["supply"], other.ticket), "ok")

    def test_not_a_stranger(self) -> None:
        lab = self.lab()
        for line in ("labrun aaaaaaaaaaaaaaaaaaaaaaaaaaaaaaaaaaaaaaaaaaa", "*IDN?", "labrun", "labrun  ", "x" * 300):
            with lab.hold("scope"):
                with self.subTest(line):
                    self.assertEqual(said_to(self.at.ports["scope"], line)[:3], "no:")
        self.refused()
        self.assertEqual(self.instruments.counts["scope"], (0, 0))

    def test_not_by_the_hash(self) -> None:
        """What the files have, and what the broker tells guards, opens nothing."""
        with self.lab().hold("scope") as held:
            digits = hashlib.sha256(held.ticket.encode()).hexdigest()
            self.assertEqual(said(self.at.ports["scope"], digits[:32])[:3], "no:")

    def test_several_connections_of_one_session(self) -> None:
        with self.lab().hold("scope") as held:
            at = held.address("scope")
            with talk(at):
                # (the instrument refuses it; the guard doesn't)
                with socket.create_connection(at) as two:
                    self.assertEqual(two.makefile("rb").readline(), b"BUSY\n")
        self.assertEqual(self.refused(), 1)

    def test_an_instrument_without_a_guard(self) -> None:
        with self.lab().hold("load-1") as held:
            with self.assertRaisesRegex(labrun.LabrunError, "names no guard for load-1"):
                held.address("load-1")

    def test_an_instrument_that_the_session_does_not_hold(self) -> None:
        """With a guard or without one, and of no bay: what is wrong is the session, not the bay's file."""
        with self.lab().hold("supply", "load-1") as held:
            for name in ("scope", "load-2", "nothing"):
                with self.assertRaisesRegex(labrun.LabrunError, f"^this session doesn't hold {name}: it holds supply, load-1$"):
                    held.address(name)

    def test_the_last_word_arrives(self) -> None:
        """What was written before the session lets go is at the instrument before anybody else is."""
        lab = self.lab()
        for turn in range(1, 30):
            with lab.hold("scope") as held:
                one = socket.create_connection(held.address("scope"))
                self.assertEqual(one.makefile("rb").readline(), b"READY\n")
                one.sendall(b"ADD 1\n" * 1000)
            with lab.hold("scope") as held, talk(held.address("scope")) as it:
                self.assertEqual(it.ask("READ?"), str(1000 * turn % 1000000))
            one.close()


class Commands(BeforeInstruments):
    def test_hold_says_where(self) -> None:
        code = "import os, sys; sys.path.insert(0, sys.argv[1]); from instruments import Talk\n"
        code += "host, _, port = os.environ['LABRUN_SCOPE'].rpartition(':')\nwith Talk(int(port)) as it: print(host, it.ask('*IDN?'))"
        done = self.at.broker.ran("hold", "scope", "load-1", "--", sys.executable, "-c", code, sys.path[0])
        self.assertEqual((done.stdout, done.stderr, done.returncode), ("127.0.0.1 scope\n", "", 0))
        done = self.at.broker.ran("hold", "load-1", "--", "sh", "-c", "echo $LABRUN_LOAD_1 $LABRUN_SCOPE")
        self.assertEqual(done.stdout, "\n")

    def test_a_command_that_only_writes(self) -> None:
        for turn in range(1, 6):
            done = self.at.broker.ran("hold", "scope", "--", "sh", "-c", "exec bash -c 'exec 3<>/dev/tcp/127.0.0.1/${LABRUN_SCOPE#*:}; echo ADD 1 >&3'")
            self.assertEqual(done.returncode, 0, done.stderr)
            with self.lab().hold("scope") as held, talk(held.address("scope")) as it:
                self.assertEqual(it.ask("READ?"), str(turn))

    def test_a_guard_that_is_ended(self) -> None:
        with self.lab().hold("scope") as held:
            it = talk(held.address("scope"))
            assert self.at.process is not None
            self.at.process.terminate()
            self.assertEqual(self.at.process.wait(LIMIT), 0)
            with self.assertRaises(ConnectionError):
                if not it.ask("*IDN?"):
                    raise ConnectionError

    def test_a_guard_that_is_killed(self) -> None:
        with self.lab().hold("scope") as held:
            is_reset_by_its_death(self, held.address("scope"))

    def test_a_hold_that_is_killed(self) -> None:
        """Its command, which led by it, is told that its connection was cut."""
        program = "import os, socket\none = socket.create_connection(('127.0.0.1', int(os.environ['LABRUN_SCOPE'].rpartition(':')[2])))\n"
        program += "print(one.recv(64), flush=True)\ntry: print(one.recv(64))\nexcept OSError as fault: print(type(fault).__name__)"
        words = [*COMMAND, "hold", "scope", "--broker", self.at.broker.address, "--", sys.executable, "-c", program]
        with subprocess.Popen(words, stdout=subprocess.PIPE, text=True) as hold:
            assert hold.stdout is not None
            self.assertEqual(hold.stdout.readline(), "b'READY\\n'\n")
            hold.kill()
            self.assertEqual(hold.stdout.read(), "ConnectionResetError\n")

    def test_a_guard_of_several_brokers(self) -> None:
        """The first of its list isn't there: it hears the one that is."""
        self.at.end()
        self.at.begin(f"unix:{self.folder}/nobody.sock,")
        with self.lab().hold("scope") as held, talk(held.address("scope")) as it:
            self.assertEqual(it.ask("*IDN?"), "scope")

    def test_a_guard_that_is_away(self) -> None:
        self.at.end()
        done = self.at.broker.ran("hold", "scope", "--", "bash", "-c", "exec 3<>/dev/tcp/127.0.0.1/${LABRUN_SCOPE#*:}; cat <&3 2>/dev/null")
        told = f"labrun-broker: the guard at 127.0.0.1:{self.at.ports['scope']} doesn't answer: "
        self.assertEqual((done.stdout, done.stderr), ("", f"{told}connection refused\n"))
        with socket.create_server(("127.0.0.1", self.at.ports["scope"])):
            program = "import sys; from labrun_broker import command, forward; forward.ANSWER = 0.5; sys.exit(command.main())"
            words = ["hold", "scope", "--broker", self.at.broker.address, "--", "bash", "-c", "exec 3<>/dev/tcp/127.0.0.1/${LABRUN_SCOPE#*:}; cat <&3 2>/dev/null"]
            ran = subprocess.run([sys.executable, "-c", program, *words], capture_output=True, text=True, timeout=LIMIT)
        self.assertEqual((ran.stdout, UNHEARD.sub("", ran.stderr)), ("", f"{told}nothing came (it is stopped, or the network is cut)\n"))

    def test_a_broker_that_ends(self) -> None:
        """What the guard says of it; and again once it can't find it."""
        assert self.at.process is not None and self.at.process.stderr is not None
        with self.lab().hold("scope") as held:
            talk(held.address("scope")).__exit__()
        self.at.broker.end()
        self.assertEqual(self.at.process.stderr.readline(), f"labrun-broker: the broker at {self.at.broker.address} can't be reached: it has ended\n")


    def test_a_guard_that_was_stopped(self) -> None:
        """It says that of itself when it goes on, and nothing of the broker, though the connection may be over; and then it lets through again."""
        process, path = self.at.process, self.at.broker.address.removeprefix("unix:")
        assert process is not None and process.stderr is not None
        until(lambda: connections(path), "that it is connected")
        process.send_signal(signal.SIGSTOP)
        try:
            until(lambda: is_stopped(process.pid), "that it is stopped")
            # (either side asks one that says nothing for ten seconds whether it is there, and waits five more for the answer)
            time.sleep(25)
        finally:
            process.send_signal(signal.SIGCONT)
        self.assertRegex(process.stderr.readline(), "^labrun-broker: this guard itself stood still for [0-9]+ s, as one that is stopped, or whose machine sleeps\n$")
        with self.lab().hold("scope") as held:
            self.assertEqual(talk(held.address("scope")).ask("ADD 1"), "OK")
        process.kill()
        self.assertEqual(process.stderr.read(), "")


def is_reset_by_its_death(test: BeforeInstruments, at: tuple[str, int]) -> None:
    """A connection, as its guard is killed: what was cut doesn't look whole."""
    assert test.at.process is not None
    with socket.create_connection(at, LIMIT) as one:
        test.assertEqual(one.recv(64), b"READY\n")
        one.sendall(b"*IDN?\n")
        test.assertEqual(one.recv(64), b"scope\n")
        test.at.process.kill()
        with test.assertRaises(ConnectionResetError):
            one.recv(64)


def connections(path: str) -> int:
    """How many a server has at its Unix socket."""
    with open("/proc/net/unix", encoding="ascii", errors="replace") as file:
        return sum(it[7:] == [path] and it[5] == "03" for it in map(str.split, file))


class Ends(BeforeInstruments):
    def test_a_paused_client(self) -> None:
        """It was released, and another has its instrument: when it goes on nothing of it arrives."""
        lab = self.lab()
        for _ in range(5):
            with program(self.at.broker) as first:
                assert first.stdout is not None
                name = first.stdout.readline().split()[1]
                first.send_signal(signal.SIGSTOP)
                lab.release(name)
                with lab.hold("scope", timeout=LIMIT) as held, talk(held.address("scope")) as it:
                    dial = int(it.ask("READ?"))
                    first.send_signal(signal.SIGCONT)
                    for turn in range(50):
                        self.assertEqual(it.ask("ADD 1"), "OK")
                    self.assertEqual(first.stdout.readline(), "over\n")
                    self.assertEqual(int(it.ask("READ?")), (dial + 50) % 1000000)
                first.communicate(timeout=LIMIT)
        self.assertEqual(self.refused(), 0)

    def test_nothing_queued_is_sent(self) -> None:
        """An instrument that takes nothing for a while, and a session that has written much: once that was taken away, no byte more comes."""
        slow = Slow()
        self.addCleanup(slow.close)
        self.at.end()
        with open(f"{self.folder}/guards.toml", "w", encoding="utf-8") as file:
            file.write(f'[scope]\nlisten = "127.0.0.1:{self.at.ports["scope"]}"\ninstrument = "127.0.0.1:{slow.port}"\n')
        self.at.ports.pop("supply")
        self.at.begin()
        lab = self.lab()
        with self.assertRaises(labrun.TakenAway), lab.hold("scope") as held:
            one = socket.create_connection(held.address("scope"))
            one.settimeout(1)
            with self.assertRaises(TimeoutError):
                while True:
                    one.sendall(b"x" * 65536)
            taker = slow.accept()
            # (what its machine has taken by now is its own)
            had = steady(lambda: struct.unpack("i", fcntl.ioctl(taker.fileno(), termios.FIONREAD, bytes(4)))[0])
            lab.release(held.station)
            time.sleep(0.5)
            took = 0
            with self.assertRaises(ConnectionError):
                while came := len(taker.recv(1 << 20)):
                    took += came
            self.assertEqual(took, had)
            one.close()

    def test_a_broker_that_begins_again_cuts_nothing(self) -> None:
        lab = self.lab()
        with lab.hold("scope") as held, talk(held.address("scope")) as it:
            for kills in (True, False):
                self.at.broker.kill() if kills else self.at.broker.end()
                self.assertEqual(it.ask("*IDN?"), "scope")
                # (who is known may come anew)
                with socket.create_connection(held.address("scope")) as two:
                    self.assertEqual(two.makefile("rb").readline(), b"BUSY\n")
                self.at.broker.begin()
                until(lambda: is_back(lab, held.station), "it is back")
                time.sleep(0.5)
                self.assertEqual(it.ask("*IDN?"), "scope")
        with lab.hold("scope") as held, talk(held.address("scope")) as it:
            self.assertEqual(it.ask("*IDN?"), "scope")

    def test_a_guard_that_begins_again(self) -> None:
        with self.lab().hold("scope") as held:
            it = talk(held.address("scope"))
            self.at.end()
            with self.assertRaises(ConnectionError):
                if not it.ask("*IDN?"):
                    raise ConnectionError
            self.at.begin()
            until(lambda: self.answers(held), "it is let through")

    def answers(self, held: Any) -> bool:
        try:
            with talk(held.address("scope")) as it:
                return it.ask("*IDN?") == "scope"
        except REFUSED:
            return False


def is_back(lab: Any, name: str) -> bool:
    try:
        return station(lab, name)["state"] == "holding"
    except labrun.LabrunError:
        return False


def steady(count: Callable[[], int]) -> int:
    """A number that grows, once it hasn't for three seconds: a busy machine may pause for one."""
    last = [-1]
    while len(set(last)) > 1 or len(last) < 4:
        last = [*last[-3:], count()]
        time.sleep(1)
    return last[0]


class Slow:
    """An instrument that reads nothing until it is asked to."""

    def __init__(self) -> None:
        self.listening = socket.create_server(("127.0.0.1", 0))
        self.port = self.listening.getsockname()[1]

    def accept(self) -> socket.socket:
        self.taker = self.listening.accept()[0]
        return self.taker

    def close(self) -> None:
        self.taker.close()
        self.listening.close()


class ByHost(BeforeInstruments):
    words = ("--by-host",)
    how = "by-host"

    def test_from_the_holders_machine(self) -> None:
        """The broker is asked by its socket: whoever is on this machine is the holder's."""
        port = self.at.ports["scope"]
        lab = self.lab()
        with lab.hold("scope") as held:
            self.assertEqual(held.address("scope"), ("127.0.0.1", port))
            with talk(("127.0.0.1", port)) as it:
                self.assertEqual(it.ask("*IDN?"), "scope")
            one = talk(("127.0.0.1", port))
        with self.assertRaises(OSError):
            while one.ask("*IDN?") == "scope":
                pass
            raise ConnectionError
        done = self.at.broker.ran("hold", "scope", "--", "sh", "-c", "echo $LABRUN_SCOPE")
        self.assertEqual(done.stdout, f"127.0.0.1:{port}\n")

    def test_a_guard_that_is_killed(self) -> None:
        with self.lab().hold("scope"):
            is_reset_by_its_death(self, ("127.0.0.1", self.at.ports["scope"]))

    def test_nobody_holds(self) -> None:
        with self.assertRaises(REFUSED):
            talk(("127.0.0.1", self.at.ports["scope"]))


class Tables(unittest.TestCase):
    """The guard's file, and where it may listen."""

    def ran(self, text: str, *words: str) -> str:
        import tempfile

        from tests.brokers import COMMAND

        with tempfile.NamedTemporaryFile("w", suffix=".toml") as file:
            file.write(text)
            file.flush()
            done = subprocess.run([*COMMAND, "guard", file.name, *words], capture_output=True, text=True, timeout=LIMIT)
        self.assertEqual(done.returncode, 78, done.stderr)
        return done.stderr.replace(f"{file.name}: ", "").replace("labrun-broker: ", "")

    def test_faults(self) -> None:
        both = "scope.listen: HOST:PORT is wanted, as \"192.168.7.20:5025\"\nscope.instrument: HOST:PORT is wanted, as \"192.168.7.20:5025\"\n"
        good = f'[scope]\nlisten = "127.0.0.1:{free_port()}"\ninstrument = "127.0.0.1:1"\n'
        for text, wanted in (
            ("", "no instrument is named\n"),
            ("scope = 5\n", "scope: a table is wanted: [scope]\n"),
            ("[scope]\n", both),
            (good + "colour = 3\n", "scope.colour: there is no such key; there are listen, instrument, by_host, settle, clear\n"),
            (good + "setle = 3\n", "scope.setle: there is no such key; there are listen, instrument, by_host, settle, clear (did you mean settle?)\n"),
            (good + "settle = -1\n", "scope.settle: a number of seconds is wanted\n"),
            (good + "by_host = 1\n", "scope.by_host: true or false is wanted\n"),
            (good + 'clear = "a\\nb"\n', "scope.clear: a line of ASCII is wanted\n"),
        ):
            with self.subTest(text):
                self.assertEqual(self.ran(text), wanted)

    def test_beyond_this_machine(self) -> None:
        text = f'[scope]\nlisten = "0.0.0.0:{free_port()}"\ninstrument = "127.0.0.1:1"\n'
        self.assertIn("without TLS whoever reads the network reads the tickets: --without-tls says that it may be so", self.ran(text))
        self.assertIn("clients that say no ticket have no TLS: --without-tls says", self.ran(text + "by_host = true\n"))
        self.assertIn("belong together", self.ran(text, "--tls-key", "key"))


def said(port: int, ticket: str) -> str:
    return said_to(port, f"labrun {ticket}")


def said_to(port: int, line: str) -> str:
    """What the guard answers to a first line."""
    with socket.create_connection(("127.0.0.1", port), LIMIT) as one:
        one.sendall(line.encode() + b"\n")
        return one.makefile("rb").readline().decode().rstrip("\n")


if __name__ == "__main__":
    unittest.main()
