"""The service over the network: who is let in, who dies, and who floods."""

import asyncio
import concurrent.futures
import contextlib
import os
import queue
import re
import signal
import socket
import subprocess
import sys
import tempfile
import textwrap
import threading
import time
import unittest
import unittest.mock
from typing import Any

import grpc
import labrun
import labrun_broker
from labrun_broker import broker_pb2 as pb
from labrun_broker import coming
from labrun_broker import held as sessions
from labrun_broker.bay import BadAddress
from labrun_broker.door import Door, Seldom, is_loopback
from labrun_broker.service import Pace
from labrun_broker.stream import Lost, Stream
from labrun_broker.words import NoFile
from tests.brokers import BAY, LIMIT, SOON, UNHEARD, Broker, OnBroker, Turns, certificate, free_port, heard, records, station, stopped, until

HOLDS = """
import sys, labrun_broker
lab = labrun_broker.connect(sys.argv[1], by="a program")
held = lab.hold(*sys.argv[2:])
held.acquire()
print(held.station, flush=True)
sys.stdin.read()
"""


class Clients(OnBroker):
    def program(self, broker: Broker, *instruments: str) -> "subprocess.Popen[str]":
        """A program that holds these, once it has them."""
        words = [sys.executable, "-c", HOLDS, broker.address, *instruments]
        one = subprocess.Popen(words, stdin=subprocess.PIPE, stdout=subprocess.PIPE, text=True)
        self.addCleanup(one.communicate)
        self.addCleanup(one.kill)
        return one

    def test_it_holds(self) -> None:
        lab = self.lab(self.broker(), "board")
        with lab.hold("scope", "supply", timeout=5) as held:
            self.assertEqual((held.station, held.instruments, held.number, held.state), ("board", ("scope", "supply"), 1, "held"))
            held.note(12.5)
            self.assertEqual(station(lab, "board")["note"], "12.5")
        self.assertEqual(held.state, "finished")
        with self.assertRaises(labrun_broker.NotHeld):
            held.release()
        with lab.hold(any_of=["scope", ("scope", "supply")]) as held:
            self.assertEqual(held.instruments, ("scope",))

    def test_a_client_that_only_waits_and_is_asked_often(self) -> None:
        """On a busy machine the questions of gRPC whether the broker is there come late, and then two at once: it minds none of that."""

        async def waits(address: str) -> Any:
            options = [("grpc.keepalive_time_ms", 1500), ("grpc.keepalive_timeout_ms", 5000), ("grpc.http2.max_pings_without_data", 0)]
            async with grpc.aio.insecure_channel(address, options) as channel:
                call = channel.stream_stream("/labrun.broker.Broker/Hold", pb.Ask.SerializeToString, pb.Told.FromString)()
                await call.write(pb.Ask(wish=pb.Wish(instruments=["scope"])))
                await call.read()
                await asyncio.sleep(9)
                await call.write(pb.Ask(note=pb.Note(text="still here")))
                return (await call.read()).WhichOneof("told")

        self.assertEqual(asyncio.run(waits(self.broker().address)), "noted")

    def test_timeouts(self) -> None:
        lab = self.lab(self.broker())
        for timeout in (-1, float("nan")):
            with self.assertRaisesRegex(labrun_broker.BadWish, "it is 0 or more"):
                lab.hold("scope", timeout=timeout)

    def test_errors_are_the_packages(self) -> None:
        lab = self.lab(self.broker())
        with lab.hold("scope", station="board"):
            for kind in (labrun_broker.TimeoutError, labrun.TimeoutError, TimeoutError):
                with self.assertRaisesRegex(kind, "scope has been held by board for"):
                    lab.hold("scope", timeout=0.05).acquire()
        with self.assertRaisesRegex(labrun.MayNotUse, "radio may not use supply"):
            lab.hold("supply", station="radio").acquire()
        for kind in (labrun_broker.NoInstrument, ValueError, labrun.LabrunError):  # (of labrun.Lab it is a ValueError)
            with self.assertRaisesRegex(kind, r"scop is no instrument of this bay: .* \(did you mean scope\?\)"):
                lab.hold("scop").acquire()
        with self.assertRaisesRegex(ValueError, "say which instruments"):
            lab.hold().acquire()
        with self.assertRaisesRegex(labrun_broker.BadWish, r"any_of: a list of instruments, .* and not the text 'load-\*'"):
            lab.hold(any_of="load-*")
        with self.assertRaisesRegex(labrun.NotHeld, "radio holds nothing"):
            lab.release("radio")

    def test_async(self) -> None:
        lab = self.lab(self.broker())
        order = []

        async def guest(name: str) -> None:
            async with lab.hold("scope", "supply") as held:
                order.append(name)
                await asyncio.sleep(0.05)
                await held.note_async(name)

        async def main() -> None:
            tasks = [asyncio.create_task(guest(name)) for name in "abc"]
            await asyncio.sleep(0.02)
            late = asyncio.create_task(guest("late"))
            await asyncio.sleep(0.02)
            late.cancel()
            await asyncio.gather(*tasks)

        asyncio.run(main())
        self.assertEqual(sorted(order), ["a", "b", "c"])
        until(lambda: all(it["state"] == "idle" for it in lab.status()["stations"]))

    def test_would_block(self) -> None:
        """A coroutine isn't to stop its loop, which may have to let go what is waited for; nothing is done then."""
        lab = self.lab(self.broker())

        async def main() -> None:
            async with lab.hold("scope") as held:
                for call in (lab.hold("scope", timeout=SOON).__enter__, lambda: held.address("scope"), lambda: held.note("x"), held.release):
                    with self.assertRaisesRegex(labrun.WouldBlock, "use `async with`, or the call that ends in _async"):
                        call()
                self.assertEqual((held.held, station(lab, "guest-1")["note"]), (True, None))

        asyncio.run(main())
        self.assertEqual({it["state"] for it in lab.status()["stations"]}, {"idle"})

    def test_a_body_that_raises(self) -> None:
        lab = self.lab(self.broker())
        with self.assertRaisesRegex(RuntimeError, "smoke"):
            with lab.hold("scope"):
                raise RuntimeError("smoke")
        with lab.hold("scope", timeout=SOON):
            pass

    def test_who_dies_while_it_waits_leaves_the_line(self) -> None:
        broker = self.broker()
        lab = self.lab(broker, "board")
        with lab.hold("scope"):
            one = self.program(broker, "scope")
            until(lambda: station(lab, "guest-1")["state"] == "waiting")
            one.kill()
            until(lambda: station(lab, "guest-1")["state"] == "idle")

    def test_who_dies_while_it_holds_is_gone(self) -> None:
        """The session is kept, until an operator ends it."""
        broker = self.broker(BAY, "--grace", "0.2")
        lab = self.lab(broker)
        one = self.program(broker, "scope", "supply")
        assert one.stdout is not None
        self.assertEqual(one.stdout.readline(), "guest-1\n")
        one.kill()
        until(lambda: station(lab, "guest-1")["state"] == "gone")
        with self.assertRaisesRegex(labrun.TimeoutError, "supply has been held by guest-1"):
            lab.hold("supply", timeout=0.5).acquire()
        self.assertEqual(lab.release("guest-1"), ("scope", "supply"))
        with lab.hold("supply", timeout=SOON):
            pass

    def test_for_whom_one_waits(self) -> None:
        """It is told who that is, again if that changes or its client is gone, and now and then if nothing does."""
        folder = self.enterContext(tempfile.TemporaryDirectory())
        text = "import sys\nfrom labrun_broker import command, service\nservice.AGAIN = 2\nsys.exit(command.main())"
        broker = Broker(folder, BAY, command=[sys.executable, "-c", text])
        self.addCleanup(broker.ends)
        one = self.program(broker, "scope")
        assert one.stdout is not None
        one.stdout.readline()
        lab, told = self.lab(broker), list[str]()
        thread = threading.Thread(target=lambda: lab.hold("scope", timeout=LIMIT, waits=told.append).acquire())
        thread.start()
        until(lambda: len(told) >= 2, "it is told again, though nothing has changed")
        for line in told:
            self.assertRegex(line, r"^scope has been held by guest-1 for \d+(\.\d)? s \(a program\)$")
        one.kill()
        until(lambda: len(told) > 2 and "gone" in told[-1])
        see = f"see to scope, and then run labrun-broker release guest-1 --session {station(lab, 'guest-1')['session']}"
        self.assertRegex(told[-1], rf"guest-1 for .* \(a program, gone for \d+(\.\d)? s: {see}\)$")
        (shown,) = station(lab, "guest-2")["waits_for"]
        self.assertIn(see, shown["text"])
        with self.assertRaisesRegex(labrun_broker.TimeoutError, see):
            lab.hold("scope", timeout=0.1).acquire()
        lab.release("guest-1")
        thread.join(LIMIT)

    def test_the_next_session_of_the_same_station(self) -> None:
        """Whoever waits for what the station holds, or to be the station itself, is told again: what it was told is of a session that is over."""
        broker, told, as_board = self.broker(), list[str](), list[str]()
        turns, lab = Turns(self, broker), self.lab(broker)

        def waits(*names: str, told: list[str], **more: Any) -> None:
            threading.Thread(target=lambda: lab.hold(*names, timeout=3 * LIMIT, waits=told.append, **more).acquire(), daemon=True).start()
            until(lambda: told, "it waits")

        waits("scope", "load-1", told=told)
        turns.bob_waits()
        waits("supply", station="board", told=as_board)
        turns.ann_goes()
        until(lambda: "by board" in told[-1] and "(bob)" in told[-1], "it is told again")
        until(lambda: as_board[-1].startswith("board has been in session 4"), "it is told again")
        span = r"for \d+(\.\d)? s"
        self.assertRegex(told[0], rf"^scope has been held by board {span} \(ann\), load-1 has been held by guest-1 {span} \(cem\)$")
        self.assertRegex(told[-1], rf"^scope has been held by board {span} \(bob\), load-1 has been held by guest-1 {span} \(cem\)$")
        # (of one status: in each the moments of the bay are told by the clock on the wall as it is then)
        now = {it["name"]: it for it in turns.lab.status()["stations"]}
        its, last = now["guest-2"]["waits_for"][0], now["board"]
        self.assertEqual((its["session"], its["since"]), (last["session"], last["since"]))
        self.assertRegex(as_board[0], rf"^board has been in session 2 {span} \(ann\), and a station is in one at a time; session 4 of board \(bob\) waits before this one$")
        self.assertRegex(as_board[-1], rf"^board has been in session 4 {span} \(bob\), and a station is in one at a time$")
        for name, its in (("board", ["supply"]), ("guest-1", ["scope", "load-1"])):
            lab.release(name)
            until(lambda: any(it["state"] == "holding" and it["instruments"] == its for it in lab.status()["stations"]), "the next one holds")

    def test_who_waits_while_brokers_come_and_go(self) -> None:
        """It tries for a while to reach each of them, however long ago it lost the first."""
        broker = self.broker(BAY, "--state", "FOLDER/state")
        self.enterContext(unittest.mock.patch.object(coming, "GRACE", 25.0))
        lab, got = self.lab(broker), list[str]()
        held = lab.hold("scope")
        held.acquire()

        def waits() -> None:
            with lab.hold("scope", station="radio") as it:
                got.append(it.station)

        thread = threading.Thread(target=waits)
        thread.start()
        for pause in (25.5, 0.0):
            until(lambda: station(lab, "radio")["state"] == "waiting")
            broker.kill()
            time.sleep(0.5)
            broker.begin()
            until(lambda: station(self.lab(broker), "radio")["state"] == "waiting")
            time.sleep(pause)
        held.release()
        thread.join(LIMIT)
        self.assertEqual(got, ["radio"])

    def test_whose_client_is_gone(self) -> None:
        """Who waits is told so at once, though nothing else has changed."""
        broker = self.broker()
        one = self.program(broker, "scope")
        assert one.stdout is not None
        one.stdout.readline()
        lab, told = self.lab(broker), list[str]()
        thread = threading.Thread(target=lambda: lab.hold("scope", timeout=LIMIT, waits=told.append).acquire())
        thread.start()
        until(lambda: told)
        one.kill()
        until(lambda: len(told) == 2)
        self.assertEqual(["gone for" in line for line in told], [False, True])
        lab.release("guest-1")
        thread.join(LIMIT)

    def test_released_after_the_grace(self) -> None:
        broker = self.broker('gone = "release"\n' + BAY, "--grace", "4")
        lab = self.lab(broker)
        one = self.program(broker, "scope")
        assert one.stdout is not None
        one.stdout.readline()
        one.kill()
        begun, told = time.monotonic(), list[str]()
        with lab.hold("scope", timeout=LIMIT, waits=told.append):
            self.assertGreater(time.monotonic() - begun, 2)
        self.assertRegex(told[-1], r"^scope has been held by guest-1 for .* \(a program, gone for \d\.\d s: its session is released once that is 4 s\)$")
        broker.end()
        line = "labrun-broker: session 1 of guest-1 with scope was taken away by the broker, because its client was gone for 4 s\n"
        self.assertEqual(broker.said, line)

    def test_who_stops_is_no_trouble(self) -> None:
        """A client that is stopped while it holds, or waits, keeps nobody else waiting for anything but its instruments."""
        broker = self.broker()
        lab = self.lab(broker)
        one = self.program(broker, "scope")
        assert one.stdout is not None
        one.stdout.readline()
        one.send_signal(signal.SIGSTOP)
        for _ in range(20):
            with lab.hold("supply", "load-1", timeout=SOON):
                pass
        one.send_signal(signal.SIGCONT)

    def test_taken_while_it_works(self) -> None:
        lab, other = self.lab(broker := self.broker(), "board"), self.lab(broker)
        held = lab.hold("scope")
        held.acquire()
        told: list[Exception] = []
        held.on_taken = told.append
        other.release("board")
        until(lambda: told)
        with self.assertRaisesRegex(labrun.TakenAway, "board: the session with scope was taken away by tester"):
            held.note("5")
        with self.assertRaises(labrun.TakenAway):
            with lab.hold("scope") as held:
                other.release("board")
                until(lambda: held.state == "taken")

    def test_an_interrupt(self) -> None:
        """It leaves the line."""
        lab = self.lab(broker := self.broker(), "board")
        waits = self.lab(broker)
        with lab.hold("scope"):
            main = threading.main_thread().ident
            assert main is not None
            interrupts = threading.Thread(target=lambda: (until(lambda: station(lab, "guest-1")["state"] == "waiting"), signal.pthread_kill(main, signal.SIGINT)))
            with self.assertRaises(KeyboardInterrupt):
                interrupts.start()
                waits.hold("scope", timeout=LIMIT).acquire()
            interrupts.join()
            until(lambda: station(lab, "guest-1")["state"] == "idle")

    def test_what_waits_ends_with_its_lab(self) -> None:
        """At once, with Closed, on threads that the program waits for as it ends: a watch, also one whose broker says nothing or isn't there, and one
        that nobody reads just now; and a question that isn't answered."""
        broker = self.broker()
        other = self.lab(broker)

        def watches(lab: labrun_broker.Lab) -> None:
            for status in lab.watch():
                seen.put(status)

        seen: queue.SimpleQueue[object] = queue.SimpleQueue()
        with concurrent.futures.ThreadPoolExecutor(4) as pool:
            with self.subTest("a watch"):
                lab = broker.lab()
                waits = pool.submit(watches, lab)
                seen.get(timeout=LIMIT)
                lab.close()
                with self.assertRaisesRegex(labrun.Closed, "^the lab is closed$"):
                    waits.result(SOON)
                with other.hold("scope", timeout=LIMIT):
                    pass
                self.assertTrue(seen.empty())
            with self.subTest("one that nobody reads"):
                lab = broker.lab()
                unread = lab.watch()
                next(unread)
                lab.close()
                with self.assertRaisesRegex(labrun.Closed, "^the lab is closed$"):
                    next(unread)
            with self.subTest("a stopped broker"):
                lab = broker.lab()
                waits = pool.submit(watches, lab)
                seen.get(timeout=LIMIT)
                with stopped(broker):
                    asks, releases = pool.submit(lab.status), pool.submit(lab.release, "board")
                    until(lambda: len(lab._waiting) == 2, "both wait")
                    lab.close()
                    for one in (waits, asks):
                        with self.assertRaisesRegex(labrun.Closed, "^the lab is closed$"):
                            one.result(SOON)
                    see = f"see `labrun-broker status --broker {broker.address}`, and try again with the session's "
                    with self.assertRaisesRegex(labrun.Closed, f"^the lab is closed; it may have been done, or not: {see}"):
                        releases.result(SOON)
            with self.subTest("no broker of a list"):
                lab = labrun_broker.connect(f"127.0.0.1:{free_port()},127.0.0.1:{free_port()}")
                waits, asks = pool.submit(watches, lab), pool.submit(lab.status)
                until(lambda: len(lab._waiting) == 2, "both wait")
                lab.close()
                for one in (waits, asks):
                    with self.assertRaisesRegex(labrun.Closed, "^the lab is closed$"):
                        one.result(SOON)

    def test_a_program_ends_while_a_thread_watches(self) -> None:
        """A daemon: it ends with it, without a word."""
        program = """
            import atexit, sys, threading, time, labrun_broker
            atexit.register(time.sleep, 1)  # the last of all, in which a thread might say something
            lab, seen = labrun_broker.connect(sys.argv[1]), threading.Event()
            def watches():
                for _ in lab.watch():
                    seen.set()
            threading.Thread(target=watches, daemon=True).start()
            seen.wait()
        """
        done = subprocess.run([sys.executable, "-c", textwrap.dedent(program), self.broker().address], capture_output=True, text=True, timeout=LIMIT)
        self.assertEqual((done.returncode, done.stdout, done.stderr), (0, "", ""))

    def test_a_closed_lab(self) -> None:
        """It asks for nothing any more, also where a stream of it was idle, and nothing of it is left at the broker."""
        broker = self.broker()
        other, lab = self.lab(broker), broker.lab()
        with lab.hold("supply"):
            pass
        late, ended = lab.hold("supply"), lab.hold("load-1")
        ended.acquire()
        with concurrent.futures.ThreadPoolExecutor(1) as pool, other.hold("scope"):
            waits = pool.submit(lab.hold("scope").acquire)
            until(lambda: other.status()["instruments"][0]["waiting"])
            lab.close()
            with self.assertRaises(labrun.Closed):
                waits.result(LIMIT)
        calls = (late.acquire, lab.hold("supply").acquire, lab.status, lambda: lab.release("board"), lambda: next(lab.watch()),
                 ended.release, lambda: ended.note("x"), lambda: asyncio.run(lab.hold("supply").acquire_async()))
        for call in calls:
            with self.assertRaisesRegex(labrun.Closed, "the lab is closed"):
                call()
        status = other.status()
        self.assertEqual([it["holder"] for it in status["instruments"]], [None] * 4)
        self.assertEqual({it["state"] for it in status["stations"]}, {"idle"})
        self.assertEqual(status["in_line"], [])
        lab.close()

    def test_half_of_a_character(self) -> None:
        """No note is written with it. What went wrong with the work is told as it can be."""
        broker = self.broker(BAY, "--state", "FOLDER/state")
        lab = self.lab(broker)
        with self.assertRaisesRegex(OSError, "caf"), lab.hold("scope") as held:
            with self.assertRaisesRegex(labrun_broker.BadWish, "half of a character"):
                held.note("caf\udce9")
            held.note("café")
            raise OSError("caf\udce9")
        self.assertEqual(lab.status()["instruments"][0]["holder"], None)
        its = lambda: [(it["what"], it["text"]) for it in records(broker) if it["what"] in ("note", "let_go", "failed")]
        until(lambda: its() == [("note", "café"), ("failed", "OSError: caf\\udce9")], "what is recorded")

    def test_threads(self) -> None:
        """Four share a lab, and no two hold at once."""
        lab = self.lab(self.broker())
        inside = []

        def work(_: int) -> None:
            for _ in range(10):
                with lab.hold("scope", "load-1"):
                    inside.append(1)
                    self.assertEqual(len(inside), 1)
                    inside.pop()

        with concurrent.futures.ThreadPoolExecutor(4) as pool:
            list(pool.map(work, range(4)))
        self.assertEqual(lab.status()["sessions"], 40)


class WhoIsLetIn(OnBroker):
    def test_addresses(self) -> None:
        for address, wanted in (("127.0.0.1:1", True), ("127.9.9.9:1", True), ("[::1]:1", True), ("localhost:1", True), ("0.0.0.0:1", False),
                                ("[::]:1", False), ("192.168.0.1:1", False), ("bench-3:1", False)):
            self.assertEqual(is_loopback(address), wanted, address)
        for address in ("bench", "bench:", ":x"):
            with self.assertRaises(BadAddress):
                is_loopback(address)

    def test_doors(self) -> None:
        for door in (Door(("0.0.0.0:1",)), Door(("0.0.0.0:1",), token_file="t"), Door(("[::]:1",), "c", "k"), Door(("unix:x", "h:1"), "c", "k"), Door((), "c")):
            with self.subTest(door), self.assertRaises(BadAddress):
                door.check()
        Door(("0.0.0.0:1",), "c", "k", "t").check()
        Door(("unix:x", "127.0.0.1:1")).check()

    def test_why_it_cant_be_reached(self) -> None:
        folder = self.enterContext(tempfile.TemporaryDirectory())
        closes = socket.socket(socket.AF_UNIX)
        closes.bind(f"{folder}/closes")
        closes.listen()
        self.addCleanup(closes.close)

        def close() -> None:
            with contextlib.suppress(OSError):
                while True:
                    closes.accept()[0].close()

        threading.Thread(target=close, daemon=True).start()
        path = f"{folder}/a:b.sock"
        rows = [(path, f"a socket's path is written unix:{path}"), ("./no.sock", "a socket's path is written unix:./no.sock")]
        rows += [("no.sock", "unix:PATH or HOST:PORT is wanted"), (f"unix:{folder}/closes", "it closed the connection")]
        for address, why in rows:
            with self.subTest(address), labrun_broker.connect(address) as lab:
                for act in (lab.status, lab.hold("scope").acquire, lambda: next(lab.watch())):
                    with self.assertRaises(labrun_broker.Unreachable) as fault:
                        act()
                    self.assertEqual(str(fault.exception), f"the broker at {address} can't be reached: {why}")

    def certificate(self, folder: str) -> tuple[str, str, str]:
        names = (*certificate(folder), f"{folder}/token")
        with open(names[2], "w", encoding="ascii") as file:
            file.write("a token that nobody knows\n")
        os.chmod(names[2], 0o600)
        return names

    def test_what_is_no_token_of_the_door(self) -> None:
        """A short one, and what no header of a request can say."""
        path = os.path.join(self.enterContext(tempfile.TemporaryDirectory()), "a token")
        one, other = "of blanks, and long enough", "another, which lets in, too"
        is_none = "a token is one line of letters, digits and signs, 16 or more"
        first, empty = (f"{is_none}{it}: openssl rand -hex 32 > '{path}'" for it in ("", ", and this file is empty"))
        for text, tokens, why in (
            (f"{one}\n", (one,), ""),
            (f"{one}\n{other}", (one, other), ""),
            (f"\n {one}\r\n\n{other}\n\n", (one, other), ""),
            ("", (), empty),
            (" \n\n", (), empty),
            ("too short", (), first),
            ("with a tab\tin it, long enough", (), first),
            ("with \u00df in it, and long enough", (), first),
            (f"{one}\n\ntoo short\n", (), f"line 3: {is_none}"),
            (f"with \u00df in it, and long enough\n{one}\n", (), f"line 1: {is_none}"),
        ):
            with open(path, "w", encoding="utf-8", newline="", opener=lambda name, flags: os.open(name, flags, 0o600)) as file:
                file.write(text)
            door = Door(("127.0.0.1:0",), token_file=path)
            with self.subTest(text):
                if tokens:
                    self.assertEqual(door.tokens(), tokens)
                else:
                    with self.assertRaisesRegex(NoFile, "^" + re.escape(f"--token-file {path}: {why}") + "$"):
                        door.tokens()
        os.chmod(path, 0o604)
        with self.assertRaisesRegex(BadAddress, f"^{path}: everybody on this machine may read it: chmod o= '{path}'$"):
            door.tokens()
        self.assertEqual(Door(("127.0.0.1:0",)).tokens(), ())

    def test_a_token_is_replaced(self) -> None:
        """While the new one stands beside the old nobody is cut off. Once the old one is taken out, whoever still has it is."""
        folder = self.enterContext(tempfile.TemporaryDirectory())
        old, new, both = (f"{folder}/{it}" for it in ("old", "new", "both"))

        def lets_in(*texts: str) -> None:
            with open(both, "w", encoding="ascii", opener=lambda name, flags: os.open(name, flags, 0o600)) as file:
                file.write("\n".join(texts))

        for path in (old, new):
            with open(path, "w", encoding="ascii") as file:
                file.write(f"the {os.path.basename(path)} token of this bay\n")
        lets_in("the old token of this bay")
        at = f"127.0.0.1:{free_port()}"
        broker = self.broker(BAY, "--state", "FOLDER/state", "--listen", at, "--token-file", both)
        runs = []
        for name, says in (("scope", "ends"), ("supply", "stays")):
            waits = f"trap 'echo is ended; exit 3' TERM; echo begun; until [ -e {folder}/{says} ]; do sleep 0.05; done"
            runs.append(broker.started("hold", name, "--broker", at, "--token-file", old, "--", "sh", "-c", waits))
            self.assertEqual(heard(runs[-1].stdout), "begun\n")
        numbers = {it["name"]: it["session"] for it in self.lab(broker).status()["stations"]}
        lets_in("the old token of this bay", "the new token of this bay")
        broker.end()
        broker.begin()
        lab = self.enterContext(labrun_broker.connect(at, token_file=new))
        until(lambda: [it["state"] for it in lab.status()["stations"] if it["state"] != "idle"] == ["holding"] * 2, "both are back")
        with open(f"{folder}/ends", "w", encoding="ascii"):
            pass
        out, said = runs[0].communicate(timeout=LIMIT)
        self.assertEqual((out, UNHEARD.sub("", said), runs[0].returncode), ("", "", 0))
        lets_in("the new token of this bay")
        broker.end()
        broker.begin()
        out, said = runs[1].communicate(timeout=LIMIT)
        self.assertEqual((out, runs[1].returncode), ("is ended\n", 69), said)
        # (no people are named, so anybody who is let in may release it)
        its = f"`labrun-broker release guest-2 --session {numbers['guest-2']} --broker {at}`"
        kept = f"the session may go on holding, as `labrun-broker status --broker {at}` says, until it is released by {its}"
        self.assertRegex(said, rf"this isn't its token; the command is being ended\n(.*\n)*labrun-broker: the command ran, and ended with status 3, but:\nlabrun-broker: {re.escape(kept)}\n$")
        self.assertEqual(station(lab, "guest-2")["state"], "gone")
        self.assertEqual(lab.release("guest-2", numbers["guest-2"]), ("supply",))

    def test_tls_and_a_token(self) -> None:
        folder = self.enterContext(tempfile.TemporaryDirectory())
        _, key, _ = self.certificate(folder)
        os.rename(key, f"{folder}/another")
        certificate, key, token = self.certificate(folder)
        with open(f"{folder}/wrong", "w", encoding="ascii") as file:
            file.write("a token that is another one")
        port = free_port()
        broker = self.broker(BAY, "--listen", f"0.0.0.0:{port}", "--tls-certificate", certificate, "--tls-key", key, "--token-file", token)
        at = f"localhost:{port}"
        with labrun_broker.connect(at, token_file=token, certificate_file=certificate) as lab, lab.hold("scope", timeout=SOON) as held:
            self.assertEqual(held.instruments, ("scope",))
        with self.lab(broker).hold("scope", timeout=SOON):
            pass  # the socket needs no token
        for more, why in (({}, "asks for its token"), ({"token_file": f"{folder}/wrong"}, "this isn't its token")):
            with labrun_broker.connect(at, certificate_file=certificate, **more) as lab:
                for act in (lab.hold("scope").acquire, lab.status, lambda: lab.release("board"), lambda: next(lab.watch())):
                    with self.assertRaisesRegex(labrun_broker.Unreachable, f"^the broker at {at} doesn't let this client in: .*{why}"):
                        act()
        with labrun_broker.connect(at, token_file=token) as lab:
            with self.assertRaisesRegex(labrun_broker.Unreachable, r"it closed the connection \(a broker with TLS wants --certificate FILE, or LABRUN_BROKER_CERTIFICATE_FILE\)$"):
                lab.status()
        with unittest.mock.patch.dict(os.environ, LABRUN_BROKER_CERTIFICATE_FILE=certificate, LABRUN_BROKER_TOKEN_FILE=token):
            for address in (at, broker.address, f"{at},{broker.address}"):  # (by the socket nobody has to be known)
                with labrun_broker.connect(address) as lab, lab.hold("scope", timeout=SOON) as held:
                    self.assertEqual(held.instruments, ("scope",))
                self.assertEqual(broker.ran("status", "--broker", address).returncode, 0)
            os.environ["LABRUN_BROKER_CERTIFICATE_FILE"] = token
            with self.assertRaisesRegex(labrun_broker.BadWish, f"^{token}: there is no certificate in it"):
                labrun_broker.connect(at)
        with open(certificate, encoding="ascii") as file:
            damaged = file.read().replace("M", "*")
        with open(f"{folder}/damaged", "w", encoding="ascii") as file:
            file.write(damaged)
        for wrong in (token, key, f"{folder}/damaged"):
            with self.assertRaisesRegex(labrun_broker.BadWish, f"^{wrong}: there is no certificate in it"):
                labrun_broker.connect(at, certificate_file=wrong)
        another, damaged, empty, other_kind = (f"{folder}/{it}" for it in ("another", "damaged", "empty", "other-kind"))
        with open(empty, "w", encoding="ascii"):
            pass
        # (that of the certificate is of an elliptic curve)
        subprocess.run(["openssl", "genpkey", "-algorithm", "rsa", "-out", other_kind], check=True, capture_output=True)
        no_certificate, no_key = "there is no certificate in it (as PEM)", "there is no key in it (as PEM)"
        for its, of, status, why in (
            (certificate, another, 78, f"--tls-key {another}: this isn't the key of the certificate {certificate}"),
            (certificate, other_kind, 78, f"--tls-key {other_kind}: this isn't the key of the certificate {certificate}"),
            (certificate, token, 66, f"--tls-key {token}: {no_key}"),
            (certificate, empty, 66, f"--tls-key {empty}: {no_key}"),
            (certificate, certificate, 66, f"--tls-key {certificate}: {no_key}"),
            (empty, key, 66, f"--tls-certificate {empty}: {no_certificate}"),
            (damaged, key, 66, f"--tls-certificate {damaged}: {no_certificate}"),
            (key, certificate, 66, f"--tls-certificate {key}: {no_certificate}"),
        ):
            with self.subTest(why):
                done = broker.ran("serve", f"{broker.folder}/bay.toml", "--listen", f"127.0.0.1:{free_port()}", "--tls-certificate", its, "--tls-key", of)
                self.assertEqual((done.returncode, done.stderr), (status, f"labrun-broker: {why}\n"))
        done = broker.ran("status", "--broker", at, "--certificate", certificate)
        self.assertEqual(done.returncode, 69)
        self.assertIn("asks for its token", done.stderr)
        self.assertEqual(broker.ran("status", "--broker", at, "--certificate", certificate, "--token-file", token).returncode, 0)
        broker.end()
        # (of each kind a line a minute at most, and on a busy machine all this takes longer than one)
        first, second, *more = (line for line in broker.said.splitlines() if line.startswith("labrun-broker: "))
        self.assertRegex(first, r"^labrun-broker: (127\.0\.0\.1|\[::1\]):\d+ isn't let in, and is told: this broker asks for its token: give its file by --token-file, or by LABRUN_BROKER_TOKEN_FILE$")
        self.assertRegex(second, r"^labrun-broker: (127\.0\.0\.1|\[::1\]):\d+ isn't let in, and is told: this isn't its token$")
        for line in more:
            self.assertRegex(line, r"isn't let in, and is told: this (broker asks for its token: .*|isn't its token)( \(\d+ more since the last such line\))?$")


class Floods(OnBroker):
    def goes_on(self, lab: labrun_broker.Lab) -> None:
        """A client holds and lets go, in a time that a person doesn't notice (where the machine does nothing else)."""
        begun = time.monotonic()
        for _ in range(5):
            with lab.hold("load-2", timeout=SOON):
                pass
        self.assertLess(time.monotonic() - begun, SOON)

    def stream(self, channel: "grpc.Channel", asks: "object") -> "object":
        return channel.stream_stream("/labrun.broker.Broker/Hold", pb.Ask.SerializeToString, pb.Told.FromString)(asks)

    def test_garbage_on_the_port(self) -> None:
        port = free_port()
        broker = self.broker(BAY, "--listen", f"127.0.0.1:{port}")
        lab = self.lab(broker)
        texts = (b"", b"GET / HTTP/1.1\r\n\r\n", os.urandom(100000), b"PRI * HTTP/2.0\r\n\r\nSM\r\n\r\n" + os.urandom(10000), b"\0" * 70000)
        opened = []
        for text in texts * 5:
            one = socket.create_connection(("127.0.0.1", port))
            opened.append(one)
            try:
                one.sendall(text)
            except ConnectionError:
                pass
        self.goes_on(lab)
        for one in opened:
            one.close()
        self.goes_on(lab)

    def test_messages_that_are_none(self) -> None:
        broker = self.broker()
        with grpc.insecure_channel(broker.address) as channel:
            for name in ("Hold", "Nothing"):
                call = channel.stream_stream(f"/labrun.broker.Broker/{name}", bytes, bytes)(iter([b"\xff\xff garbage"]))
                with self.assertRaises(grpc.RpcError):
                    list(call)
            for asks, kind in (([pb.Ask()], "BadWish"), ([pb.Ask(note=pb.Note(text="5"))], "NotHeld"), ([pb.Ask(let_go=pb.LetGo())], "NotHeld")):
                self.assertEqual([it.fault.kind for it in self.stream(channel, iter(asks))], [kind])
            with self.assertRaises(grpc.RpcError):
                list(self.stream(channel, iter([pb.Ask(note=pb.Note(text="x" * 100000))])))
        self.goes_on(self.lab(broker))

    def test_lengths(self) -> None:
        broker = self.broker()
        lab = self.lab(broker)
        for what, instruments, more in (("an instrument's name", ("x" * 65,), {}), ("a station's name", ("scope",), {"station": "x" * 65})):
            with self.assertRaisesRegex(labrun_broker.BadWish, f"^{what} of 65 characters; 64 are the most$"):
                lab.hold(*instruments, **more).acquire()
        with lab.hold("scope") as held:
            with self.assertRaisesRegex(labrun_broker.BadWish, "a note of 501 characters; 500 are the most"):
                held.note("x" * 501)
            held.note("x" * 500)

    def test_notes_that_are_too_long(self) -> None:
        """Each is refused at once, by name, and the session goes on."""
        broker = self.broker(BAY, "--state", "FOLDER/state")
        lab = self.lab(broker)
        begun = time.monotonic()
        with lab.hold("scope") as held:
            for text in ("x" * 501, "x" * 65530, "x" * 70000, "x" * 1000000, "\u00fc" * 40000):
                with self.assertRaisesRegex(labrun_broker.BadWish, "are the most"):
                    held.note(text)
            # (a broker of another version may have another limit, and end the stream)
            with unittest.mock.patch("labrun_broker.stream.MOST_BYTES", 1 << 30):
                with self.assertRaisesRegex(labrun_broker.BadWish, "the broker doesn't take this note: Received message larger than max"):
                    held.note("x" * 70000)
            held.note("5 V")
            self.assertTrue(held.held)
        self.assertEqual(held.state, "finished")
        with self.assertRaisesRegex(labrun_broker.BadWish, "are the most"):
            lab.hold("x" * 70000).acquire()
        with self.assertRaisesRegex(RuntimeError, "smoke"):
            with lab.hold("scope") as held:
                raise RuntimeError("smoke" * 100000)
        with lab.hold("scope") as held:
            held.release("smoke" * 100000)
        # (one that isn't refused is asked again for a minute)
        self.assertLess(time.monotonic() - begun, 2 * SOON)
        with open(f"{broker.folder}/state/records.jsonl", encoding="utf-8") as file:
            self.assertLess(len(file.readlines()), 20)
        broker.end()
        # (but perhaps that the disk is slow)
        self.assertEqual([it for it in broker.said.splitlines() if "/bay.journal: " not in it], [])

    def test_no_question_is_asked_for_ever(self) -> None:
        """Whatever ends the stream each time: the question is given up after the grace, and the session goes on."""
        lab = self.lab(self.broker())
        asks, count = Stream.asks, 0
        for code in (grpc.StatusCode.UNAVAILABLE, grpc.StatusCode.RESOURCE_EXHAUSTED, grpc.StatusCode.DATA_LOSS):

            async def lost(stream: Stream, **what: object) -> object:
                nonlocal count
                if "note" in what or "let_go" in what:
                    count += 1
                    stream._call.cancel()
                    raise Lost(code, "lost")
                return await asks(stream, **what)

            with self.subTest(code), lab.hold("scope", timeout=LIMIT) as held:
                begun, count = time.monotonic(), 0
                with unittest.mock.patch.object(Stream, "asks", lost), unittest.mock.patch.object(sessions, "GRACE", 0.3):
                    for ask in (lambda: held.note("5"), held.release):
                        with self.assertRaises(labrun.LabrunError):
                            ask()
                self.assertLess(time.monotonic() - begun, LIMIT)
                self.assertLess(count, 20)
                self.assertEqual(held.state, "held")
                held.note("6")

    def test_a_ticket_that_comes_back_again_and_again(self) -> None:
        """As by a client in another language: it is slowed, and fills neither the records nor the log."""
        broker = self.broker(BAY, "--state", "FOLDER/state")
        ticket, begun, count = "x" * 43, time.monotonic(), 0
        with grpc.insecure_channel(broker.address) as channel:
            while time.monotonic() < begun + 3:
                wish = pb.Wish(ticket=ticket, comes_back=True) if count else pb.Wish(instruments=["scope"], ticket=ticket)

                def asks():  # type: ignore[no-untyped-def]
                    yield pb.Ask(wish=wish)
                    held.wait(2)
                    yield pb.Ask(note=pb.Note(text="x" * 100000))

                held = threading.Event()
                with self.assertRaises(grpc.RpcError):
                    for _ in self.stream(channel, asks()):
                        held.set()
                count += 1
        self.goes_on(self.lab(broker))
        with open(f"{broker.folder}/state/records.jsonl", encoding="utf-8") as file:
            self.assertLess(sum('"what":"back"' in line for line in file), 7)
        broker.end()
        self.assertNotIn("Traceback", broker.said)

    def test_numbers(self) -> None:
        broker = self.broker()
        choices = [pb.Instruments(names=["scope"])] * 101
        rows = [{"instruments": ["scope"], "timeout": it} for it in (float("nan"), -1.0, float("inf"), 1e9)] + [{"any_of": choices}]
        with grpc.insecure_channel(broker.address) as channel:
            told = list(self.stream(channel, iter([pb.Ask(wish=pb.Wish(**row)) for row in rows])))
        self.assertEqual([it.fault.kind for it in told], ["BadWish"] * 5)
        self.goes_on(self.lab(broker))

    def test_a_stream_is_in_one_session(self) -> None:
        broker = self.broker()
        wish = pb.Ask(wish=pb.Wish(instruments=["scope"]))
        with grpc.insecure_channel(broker.address) as channel:
            told = [it.WhichOneof("told") for it in self.stream(channel, iter([wish, wish, pb.Ask(let_go=pb.LetGo()), wish, pb.Ask(let_go=pb.LetGo())]))]
        self.assertEqual(told, ["held", "fault", "gone", "held", "gone"])

    def test_so_many_clients(self) -> None:
        broker = self.broker(BAY + "[limits]\nclients = 3\n")
        lab = self.lab(broker)
        held = [lab.hold(name) for name in ("scope", "supply", "load-1")]
        for one in held:
            one.acquire()
        with self.assertRaisesRegex(labrun_broker.Unreachable, "3 clients are here, and no more may come"):
            lab.hold("load-2").acquire()
        for one in held:
            one.release()
        self.goes_on(lab)
        broker.end()
        self.assertEqual(broker.said, "labrun-broker: a client of the Unix socket isn't let in, and is told: 3 clients are here, and no more may come\n")

    def test_a_flood_of_notes(self) -> None:
        """One client's notes come at its pace, and another goes on meanwhile."""
        broker = self.broker(BAY + "[limits]\nrequests = 100\n")
        notes = 250
        ended = threading.Event()

        def floods() -> None:
            asks = [pb.Ask(wish=pb.Wish(instruments=["scope"])), *([pb.Ask(note=pb.Note(text="5"))] * notes), pb.Ask(let_go=pb.LetGo())]
            with grpc.insecure_channel(broker.address) as channel:
                self.told = [it.WhichOneof("told") for it in self.stream(channel, iter(asks))]
            ended.set()

        begun = time.monotonic()
        threading.Thread(target=floods).start()
        self.goes_on(self.lab(broker))
        self.assertTrue(ended.wait(LIMIT))
        self.assertEqual(self.told, ["held", *["noted"] * notes, "gone"])
        # 252 messages, of which 100 may come at once
        self.assertGreater(time.monotonic() - begun, 1.4)

    def test_a_flood_of_status(self) -> None:
        broker = self.broker(BAY + "[limits]\nrequests = 200\n")
        with grpc.insecure_channel(broker.address) as channel:
            status = channel.unary_unary("/labrun.broker.Broker/Status", pb.StatusWish.SerializeToString, pb.Bay.FromString)
            calls = [status.future(pb.StatusWish()) for _ in range(500)]
            self.goes_on(self.lab(broker))
            codes = [it.code() for it in calls]
        self.assertEqual(set(codes), {grpc.StatusCode.OK, grpc.StatusCode.RESOURCE_EXHAUSTED})

    def test_a_stream_that_says_nothing(self) -> None:
        broker = self.broker()
        ended = threading.Event()

        def nothing():  # type: ignore[no-untyped-def]
            ended.wait(LIMIT)
            yield from ()

        with grpc.insecure_channel(broker.address) as channel:
            calls = [self.stream(channel, nothing()) for _ in range(50)]
            self.goes_on(self.lab(broker))
            ended.set()
            self.assertEqual([list(it) for it in calls], [[]] * 50)

    def test_what_may_be_told(self) -> None:
        with unittest.mock.patch("time.monotonic", lambda: now):
            now, seldom = 100.0, Seldom(60)
            self.assertEqual([seldom.text(kind, kind) for kind in ("a", "a", "b", "a")], ["a", None, "b", None])
            now = 161.0
            self.assertEqual([seldom.text(kind, kind) for kind in ("a", "a", "b")], ["a (2 more since the last such line)", None, "b"])

    def test_pace(self) -> None:
        """Ten at once, and from there on ten a second."""
        with unittest.mock.patch("time.monotonic", side_effect=[0.0] + [0.0] * 12 + [5.0, 5.0, 5.0]):
            pace = Pace(10)
            spans = [pace.span() for _ in range(12)]
            self.assertEqual(spans[:10], [0.0] * 10)
            self.assertAlmostEqual(spans[10], 0.1)
            self.assertAlmostEqual(spans[11], 0.2)
            self.assertEqual([pace.span(), pace.span(9), pace.span(5)], [0.0, 0.0, 0.5])

