"""A broker of several bays as its clients see it: the commands, HTTP, the page, the numbers, and what is there after a kill."""

from __future__ import annotations

import json
import os
import signal
import subprocess
import tempfile
import unittest
import urllib.request
from typing import Any

import labrun_broker
from tests.brokers import COMMAND, Broker, free_port, until
from tests.test_bays import LAB, NORTH, SOUTH, written


class OfLab(Broker):
    opens = r"labrun-broker: lab( [\w.-]+)?: \d+ bays? \(.*\), \d+ instruments?, at "


class OnLab(unittest.TestCase):
    def setUp(self) -> None:
        self.folder = self.enterContext(tempfile.TemporaryDirectory())
        written(self.folder)
        self.port = free_port()

    def broker(self, *words: str, command: list[str] = COMMAND) -> OfLab:
        # (bay.toml is the lab's file here)
        one = OfLab(self.folder, LAB, ("--state", f"{self.folder}/state", *words), command)
        self.addCleanup(one.ends)
        return one

    def ran(self, at: OfLab, *words: str, status: int = 0) -> str:
        it = at.ran(*words)
        self.assertEqual(it.returncode, status, it.stderr)
        return it.stdout if status == 0 else it.stderr


class Doors(OnLab):
    def taken(self) -> Any:
        return self.assertRaises(labrun_broker.TakenAway)

    def get(self, path: str) -> str:
        with urllib.request.urlopen(f"http://127.0.0.1:{self.port}{path}", timeout=20) as answer:
            return str(answer.read().decode())

    def test_what_its_files_lack(self) -> None:
        """A bay's file that isn't there; and what somebody holds, of a bay, and of one that isn't in the lab any more. Nothing failed to be written."""
        at = self.broker()
        with at.lab() as lab:
            lab.hold("oven").acquire()
            lab.close(lets_go=False)
        lacks = f"labrun-broker: {self.folder}/bay.toml: bays.south: {self.folder}/more/no.toml: No such file or directory\n"
        serve = ("serve", f"{self.folder}/bay.toml", "--listen", f"unix:{self.folder}/other.sock", "--state", f"{self.folder}/state")
        with open(f"{self.folder}/bay.toml", "w", encoding="utf-8") as file:
            file.write(LAB.replace("more/south.toml", "more/no.toml"))
        for words in (("bay", "apply", f"{self.folder}/bay.toml"), serve):
            with self.subTest(words[0]):
                self.assertEqual(self.ran(at, *words, status=66), lacks)
        at.end()
        for lab_file, south, told in (
            (LAB, SOUTH.replace('"oven"', '"stove"'), "guest-1 holds oven, which by the bay it may not use: begin with the bay as it was until that is over\n"),
            (LAB.replace('south = "more/south.toml"', ""), SOUTH, "guest-1 still holds there, and the lab has no bay south: begin with it once more, until that is over\n"),
        ):
            with self.subTest(told):
                written(self.folder, lab_file, NORTH, south)
                os.replace(f"{self.folder}/lab.toml", f"{self.folder}/bay.toml")
                said = self.ran(at, *serve, status=78)
                self.assertTrue(said.startswith(f"labrun-broker: {self.folder}/state/south"), said)
                self.assertTrue(said.endswith(told), said)

    def test_commands_find_the_bay(self) -> None:
        at = self.broker()
        self.assertIn("lab physics: 2 bays (north, south), 6 instruments", at.first)
        with at.lab() as lab, self.taken(), lab.hold("scope"), self.taken(), lab.hold("oven", station="heat"):
            said = self.ran(at, "status")
            heads = [line for line in said.split("\n") if line.startswith(("lab ", "bay "))]
            self.assertEqual([it.split(",")[0] for it in heads], ["lab physics: 2 bays", "bay north", "bay south"])
            self.assertLess(said.index("bay north"), said.index("scope"))
            self.assertLess(said.index("scope"), said.index("bay south"))
            self.assertLess(said.index("bay south"), said.index("oven"))
            one = json.loads(self.ran(at, "status", "--json", "--bay", "south"))
            self.assertEqual((one["bay"], [it["name"] for it in one["instruments"]]), ("south", ["oven", "load-2", "load-3"]))
            self.assertEqual([it["bay"] for it in one["bays"]], ["south"])
            # (the other bay isn't shown as one that has nothing and that nobody holds)
            heads = [line for line in self.ran(at, "status", "--bay", "north").split("\n") if line.startswith(("lab ", "bay ", "nobody "))]
            self.assertEqual([it.split(",")[0] for it in heads], ["bay north"])
            self.assertIn("east is no bay of this broker", self.ran(at, "status", "--bay", "east", status=1))
            self.assertIn("scop is no instrument of this lab: there are scope", self.ran(at, "hold", "scop", "--", "true", status=2))
            self.assertIn("heater is no station of this lab: there are ", self.ran(at, "release", "heater", status=1))
            self.assertEqual(self.ran(at, "release", "heat"), "heat's session is ended; it held oven\n")
            self.assertEqual(self.ran(at, "release", "guest-1", "--bay", "north"), "guest-1's session is ended; it held scope\n")
        self.ran(at, "disable", "oven", "cold")
        self.assertIn("oven has been out of order", self.ran(at, "status"))
        self.ran(at, "enable", "oven")
        self.assertEqual(self.ran(at, "hold", "oven", "scope", "--", "sh", "-c", "echo $LABRUN_HELD"), "oven scope\n")

    def applied(self, at: OfLab, *words: str) -> str:
        """What `bay apply` says that it has changed; once the disk was quiet for it, which a busy machine's may not be within a second."""
        done = lambda it: None if "nothing has changed; try again" in it.stderr else it
        ran = until(lambda: done(at.ran("bay", "apply", *words)))
        self.assertEqual(ran.returncode, 0, ran.stderr)
        return str(ran.stdout)

    def test_the_bays_files_are_applied(self) -> None:
        at, path = self.broker(), f"{self.folder}/bay.toml"
        written(self.folder, LAB, NORTH.replace("count = 2", "count = 3"))
        self.assertEqual(self.applied(at, f"{self.folder}/north.toml"), "guests: 3 hold at once, instead of 2\n")
        written(self.folder, LAB, NORTH, SOUTH.replace("count = 2", "count = 5"))
        self.assertIn("say so (--bay)", self.ran(at, "bay", "apply", f"{self.folder}/more/south.toml", status=1))
        self.assertEqual(self.applied(at, "--bay", "south", f"{self.folder}/more/south.toml"), "guests: 5 hold at once, instead of 2\n")
        self.assertEqual(self.applied(at, path), "north: guests: 2 hold at once, instead of 3\n")
        written(self.folder, LAB, NORTH)
        assert at.process is not None
        process = at.process.pid
        with at.lab() as lab:
            guests = lambda: sum(it["bay"] == "south" and it["name"].startswith("guest-") for it in lab.status()["stations"])
            until(lambda: os.kill(process, signal.SIGHUP) or guests() == 0, "south has two guests, whose names north has")
        north = f"{self.folder}/north.toml"
        told = f"ok {path}: lab physics, 2 bays, 6 instruments, 2 stations, 4 guests\nok {north}: bay north, 3 instruments, 1 station, 2 guests, gone = keep\nok {self.folder}/more/south.toml: bay south, "
        self.assertEqual(self.ran(at, "bay", "check", path)[: len(told)], told)

    def test_the_page_and_the_numbers_have_both(self) -> None:
        at = self.broker("--page", f"127.0.0.1:{self.port}", "--http", f"unix:{self.folder}/http.sock")
        with at.lab() as lab, lab.hold("oven"):
            status = json.loads(self.get("/status"))
            self.assertEqual([it["bay"] for it in status["bays"]], ["north", "south"])
            self.assertEqual([it["bay"] for it in status["instruments"]], ["north"] * 3 + ["south"] * 3)
            self.assertIn("headOf(it, status.instruments[at - 1])", self.get("/"))

            def counted(state: str, bay: str, count: int) -> bool:
                return f'labrun_stations_{state}{{bay="{bay}"}} {float(count)}' in self.get("/metrics")

            self.assertTrue(counted("holding", "south", 1))
            self.assertTrue(counted("holding", "north", 0))
            until(lambda: 'labrun_wait_seconds_count{bay="south",instrument="oven"} 1.0' in self.get("/metrics"))
        until(lambda: 'labrun_sessions_total{bay="south",end="done",station="guest-1"} 1.0' in self.get("/metrics"))

    def test_what_was_is_that_of_each_bay(self) -> None:
        at, state = self.broker(), f"{self.folder}/state"
        with at.lab() as lab:
            with lab.hold("scope"):
                pass
            with lab.hold("oven"):
                pass
        at.end()
        report = self.ran(at, "report", state)
        self.assertEqual([it.split(", ")[0] for it in report.split("\n") if it.startswith("bay ")], ["bay north", "bay south"])
        self.assertNotIn("oven", report[: report.index("bay south")])
        self.assertNotIn("oven", self.ran(at, "report", state, "--bay", "north"))
        rows = [it.split(",")[3] for it in self.ran(at, "table", "--csv", state).split("\n")[1:-1]]
        self.assertEqual(rows, ["scope", "oven"])
        picture = self.ran(at, "gantt", state)
        self.assertTrue(">scope<" in picture and ">oven<" in picture)
        self.assertIn("there is no bay east in it: there are north, south", self.ran(at, "report", state, "--bay", "east", status=1))
        self.assertIn("it is the folder of one bay, whose name isn't in it: leave --bay out", self.ran(at, "report", f"{state}/north", "--bay", "north", status=1))

    def test_after_a_kill_all_goes_on(self) -> None:
        at = self.broker()
        with at.lab() as lab:
            scope, oven = lab.hold("scope").__enter__(), lab.hold("oven").__enter__()
            at.kill()
            at.begin()

            def states() -> list[str]:
                return [it["state"] for it in json.loads(self.ran(at, "status", "--json"))["stations"] if it["instruments"]]

            until(lambda: states() == ["holding"] * 2, "both are back")
            scope.note("still here")
            oven.note("here, too")
            with self.assertRaises(labrun_broker.TimeoutError), lab.hold("oven", timeout=0):
                pass
            scope.release(), oven.release()

    def test_what_cannot_be(self) -> None:
        def refused(*words: str) -> tuple[int, str]:
            it = at_once(f"{self.folder}/lab.toml", "--listen", f"unix:{self.folder}/x.sock", *words)
            return it.returncode, it.stderr

        status, said = refused("--etcd", "127.0.0.1:1")
        self.assertEqual(status, 2)
        self.assertIn("has [bays], and at etcd a broker keeps one bay", said)
        written(self.folder, LAB, NORTH, SOUTH.replace("oven", "scope"))
        status, said = refused()
        self.assertEqual((status, "scope is an instrument of north" in said), (78, True))
        os.unlink(f"{self.folder}/north.toml")
        status, said = refused()
        self.assertEqual((status, "north.toml: No such file or directory" in said), (66, True))


    def test_a_lab_and_a_bay_without_a_name(self) -> None:
        """Each is called by what it is, once; and a bay of a lab by the lab's name for it."""
        path, south = f"{self.folder}/bay.toml", f"{self.folder}/more/south.toml"
        written(self.folder, LAB.replace('lab = "physics"\n', ""), NORTH, SOUTH)
        at = OfLab(self.folder, LAB.replace('lab = "physics"\n', ""))
        self.addCleanup(at.ends)
        self.assertEqual(at.first, f"labrun-broker: lab: 2 bays (north, south), 6 instruments, at {at.address}\n")
        heads = [line.split(",")[0] for line in self.ran(at, "status").split("\n") if line.startswith(("lab", "bay"))]
        self.assertEqual(heads, ["lab: 2 bays", "bay north", "bay south"])
        self.assertTrue(self.ran(at, "bay", "check", path).startswith(f"ok {path}: lab, 2 bays, 6 instruments, "))
        self.assertTrue(self.ran(at, "bay", "check", south).startswith(f"ok {south}: bay, 3 instruments, "))


class Alone(unittest.TestCase):
    def test_a_bay_alone_says_nothing_of_bays(self) -> None:
        with tempfile.TemporaryDirectory() as folder:
            at = Broker(folder, NORTH)
            self.addCleanup(at.ends)
            with at.lab() as lab, lab.hold("scope"):
                status = lab.status()
            rows: list[dict[str, Any]] = [*status["instruments"], *status["stations"]]
            self.assertEqual(("bays" in status, [it for it in rows if "bay" in it]), (False, []))
            self.assertIn("is no bay of this broker", at.ran("release", "board", "--bay", "x").stderr)
            self.assertEqual(at.ran("bay", "apply", "--bay", "north", f"{folder}/bay.toml").stdout, "nothing changes: the bay is as the file has it\n")


def at_once(*words: str) -> Any:
    return subprocess.run([*COMMAND, "serve", *words], capture_output=True, text=True, timeout=60)
