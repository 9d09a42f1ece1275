"""Sessions over several bays at a broker of its own: as clients see them, and what is there after a kill."""

from __future__ import annotations

import concurrent.futures
import random
import shutil
import signal
import sys
import threading
import unittest
from typing import Any

import labrun_broker
from tests.asking import Asking
from tests.brokers import COMMAND, LIMIT, free_port, until
from tests.test_bays_doors import OfLab, OnLab


class OnCrossings(OnLab):
    def holders(self, at: OfLab) -> dict[str, str]:
        with at.lab() as lab:
            return {it["name"]: it["holder"] for it in lab.status()["instruments"] if it.get("holder")}

    def waits_in_south(self, at: OfLab) -> bool:
        """Somebody holds the scope, and waits for the oven."""
        with at.lab() as lab:
            status = lab.status()
        holder = next(it for it in status["instruments"] if it["name"] == "scope")["holder"]
        return holder is not None and any(it["name"] == holder and it["state"] == "waiting" and it["bay"] == "south" for it in status["stations"])


class Doors(OnCrossings):
    def test_held_and_let_go(self) -> None:
        at = self.broker()
        with at.lab() as lab:
            with lab.hold("oven", "scope") as held:
                self.assertEqual((held.instruments, held.station), (("oven", "scope"), "guest-1"))
                held.note("V = 5.003")
                self.assertEqual(self.holders(at), {"scope": "guest-1", "oven": "guest-1"})
                said = self.ran(at, "status")
                self.assertRegex(said, r"(?s)bay north.*scope.*guest-1.*bay south.*oven.*guest-1")
                self.assertIn("oven has been held by guest-1", self.ran(at, "hold", "-n", "oven", "load-1", "--", "true", status=75))
            until(lambda: not self.holders(at))
            # (a stream that was used for it is used again)
            with lab.hold("oven", "supply"):
                pass
        at.end()
        rows = [it.split(",") for it in self.ran(at, "table", "--csv", f"{self.folder}/state").split("\n")[1:-1]]
        self.assertEqual([(it[0], it[3], it[9]) for it in rows if it[0] == "guest-1"][:2], [("guest-1", "scope", "done"), ("guest-1", "oven", "done")])

    def test_parts_that_are_refused(self) -> None:
        at = self.broker()
        self.assertIn("oevn is no instrument of this lab", self.ran(at, "hold", "scope", "oevn", "--", "true", status=2))
        self.assertIn("board may not use oven", self.ran(at, "hold", "--station", "board", "scope", "oven", "--", "true", status=77))
        self.ran(at, "disable", "oven", "cold")
        self.assertIn("oven has been out of order", self.ran(at, "hold", "scope", "oven", "--", "true", status=1))
        self.assertEqual(self.holders(at), {})

    def test_a_time_limit_that_passes_in_the_second(self) -> None:
        at = self.broker()
        with at.lab() as lab, lab.hold("oven"):
            told = list[str]()
            with self.assertRaisesRegex(labrun_broker.TimeoutError, "oven has been held by guest-1"):
                with lab.hold("scope", "oven", timeout=3, waits=told.append):
                    self.fail("it holds")
            self.assertEqual(self.holders(at), {"oven": "guest-1"})
            self.assertTrue(any("in the bay south: oven has been held by guest-1" in it and "it holds scope already" in it for it in told), told)

    def test_a_client_that_dies_while_it_waits_in_the_second(self) -> None:
        at = self.broker()
        with at.lab() as lab, lab.hold("oven"):
            client = at.started("hold", "scope", "oven", "--", "true")
            until(lambda: self.waits_in_south(at), "it waits in the second")
            client.send_signal(signal.SIGKILL)
            client.communicate(timeout=LIMIT)
            until(lambda: self.holders(at) == {"oven": "guest-1"}, "the scope is free")

    def test_by_http(self) -> None:
        at = self.broker("--http", f"127.0.0.1:{(port := free_port())}")
        asks = Asking(port)
        ticket = asks.holds("oven", "scope")
        status, told = asks.of(ticket)
        self.assertEqual((status, told["state"], told["instruments"], told["station"]), (200, "holding", ["oven", "scope"], "guest-1"))
        self.assertEqual(asks.of(ticket, "/ping", "POST")[0], 200)
        self.assertEqual(asks.of(ticket, "/notes", "POST", {"text": "V = 5.003"})[0], 200)
        status, waits = asks.asks("oven", "load-1")
        self.assertEqual((status, waits["state"]), (202, "waiting"))
        until(lambda: "oven has been held by guest-1" in asks.of(waits["ticket"])[1]["text"])
        self.assertIn("load-1", self.holders(at))
        self.assertEqual(asks.lets_go(waits["ticket"])[0], 200)
        self.assertEqual(asks.lets_go(ticket)[0], 200)
        until(lambda: not self.holders(at))

    def test_a_release_ends_both(self) -> None:
        at = self.broker()
        with at.lab() as lab, self.assertRaises(labrun_broker.TakenAway), lab.hold("oven", "scope"):
            self.assertEqual(self.ran(at, "release", "guest-1", "--bay", "south"), "guest-1's session is ended; it held oven, scope\n")
            until(lambda: not self.holders(at))


# a broker that is killed behind a write to one of its journals, by its number
DIES = """
import os, signal, sys
from labrun import store
from labrun_broker.command import main

left, write = int(sys.argv.pop(1)), store.FileStore.write

def writes(self, text):
    global left
    write(self, text)
    left -= b" bay " not in text  # (each begins with that)
    if not left:
        os.kill(os.getpid(), signal.SIGKILL)

store.FileStore.write = writes
sys.exit(main())
"""


class Killed(OnCrossings):
    def test_while_one_waits_in_the_second(self) -> None:
        """Its client asks again; once that is gone, too, nothing is held of it."""
        at = self.broker()
        with at.lab() as lab:
            oven = lab.hold("oven").__enter__()
            client = at.started("hold", "scope", "oven", "--", "true")
            until(lambda: self.waits_in_south(at), "it waits in the second")
            client.send_signal(signal.SIGSTOP)
            at.kill()
            client.send_signal(signal.SIGKILL)
            client.communicate(timeout=LIMIT)
            at.begin()
            until(lambda: self.holders(at) == {"oven": "guest-1"}, "only what was told is held")
            oven.note("still here")
            oven.release()

    def test_whoever_was_told_is_back(self) -> None:
        at = self.broker()
        with at.lab() as lab:
            held = lab.hold("scope", "oven").__enter__()
            at.kill()
            at.begin()
            held.note("still here")
            self.assertEqual(set(self.holders(at)), {"scope", "oven"})
            held.release()
            until(lambda: not self.holders(at), "both are free")

    def test_at_each_write_to_a_journal(self) -> None:
        """Its client dies, too: what the next broker finds is the whole session, or nothing of it."""
        found = list[set[str]]()
        for count in range(1, 20):
            # (a new journal, to which only its head is written before somebody comes)
            shutil.rmtree(f"{self.folder}/state", ignore_errors=True)
            at = self.broker(command=[sys.executable, "-c", DIES, str(count)])
            client = at.started("hold", "scope", "oven", "--", "true")
            until(lambda: client.poll() is not None or at.process and at.process.poll() is not None, "one of them has ended")  # noqa: B023
            assert at.process is not None
            if at.process.poll() is None:
                client.communicate(timeout=LIMIT)
                break
            client.kill()
            client.communicate(timeout=LIMIT)
            at.command = COMMAND
            at.begin()
            found.append(set(self.holders(at)))
            for name in found[-1] and ["guest-1"]:
                self.assertIn("guest-1's session is ended; it held scope, oven", self.ran(at, "release", name))
            until(lambda: not self.holders(at), "nothing is left")  # noqa: B023
            at.end()
        self.assertGreater(len(found), 3, "it was killed at some writes")
        self.assertEqual({frozenset(it) for it in found}, {frozenset(), frozenset({"scope", "oven"})})

    def test_at_any_moment(self) -> None:
        """Clients ask, hold and let go all the time, while the broker is killed: whoever is told holds alone, and at the end nothing is left."""
        at, rng, users, lock = self.broker(), random.Random(5), dict[str, str](), threading.Lock()
        ends, faults, sessions = threading.Event(), list[str](), [0]

        def works(name: str, wishes: "list[tuple[str, ...]]") -> None:
            its = random.Random(name)
            with at.lab() as lab:
                while not ends.is_set():
                    with lab.hold(*its.choice(wishes)) as held:
                        self.uses(name, held, users, lock, faults, its)
                        sessions[0] += 1

        wishes = [("scope", "oven"), ("oven", "scope", "supply"), ("load-1", "load-2"), ("oven",), ("scope",)]
        with concurrent.futures.ThreadPoolExecutor(3) as pool:
            its = [pool.submit(works, f"client {number}", wishes) for number in range(3)]
            try:
                for _ in range(6):
                    before = sessions[0]
                    until(lambda: sessions[0] > before + 3 or any(it.done() for it in its), "they hold again")  # noqa: B023
                    ends.wait(rng.random() / 10)
                    at.kill()
                    at.begin()
            finally:
                ends.set()
            for it in its:
                it.result(LIMIT)
        self.assertEqual(faults, [])
        until(lambda: not self.holders(at), "nothing is left")

    def uses(self, name: str, held: Any, users: "dict[str, str]", lock: Any, faults: "list[str]", its: random.Random) -> None:
        with lock:
            faults += [f"{it} is used by {users[it]} and by {name}" for it in held.instruments if it in users]
            users.update(dict.fromkeys(held.instruments, name))
        threading.Event().wait(its.random() / 50)
        with lock:
            for it in held.instruments:
                users.pop(it, None)


if __name__ == "__main__":
    unittest.main()
