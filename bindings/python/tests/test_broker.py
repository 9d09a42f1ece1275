"""The broker of examples/broker, seen from its instruments, and the programs that README and the guide print."""

import os
import re
import subprocess
import sys
import tempfile
import unittest

from tests.benches import LIMIT, child
from tests.test_runs import TOP


def ran(words: list[str], folder: str = TOP) -> "subprocess.CompletedProcess[str]":
    return subprocess.run([sys.executable, *words], cwd=folder, env=child(), capture_output=True, text=True, timeout=LIMIT)


def broker(*words: str) -> "subprocess.CompletedProcess[str]":
    return ran(["examples/broker/broker.py", *words])


class Broker(unittest.TestCase):
    def test_bench(self) -> None:
        done = broker()
        self.assertEqual((done.returncode, done.stderr), (0, ""))
        self.assertEqual(len(re.findall(r"session \d done", done.stdout)), 12)
        self.assertRegex(done.stdout, r"(?m)^32 talks with 6 instruments, 0 refused$")

    def test_load(self) -> None:
        done = broker("--threads", "16", "--sessions", "1000")
        self.assertEqual((done.returncode, done.stderr), (0, ""))
        self.assertRegex(done.stdout, r"(?m)^1008 sessions by 16 threads")
        self.assertRegex(done.stdout, r"(?m)^[1-9]\d* talks with 6 instruments, 0 refused$")

    def test_load_for_a_time(self) -> None:
        done = broker("--threads", "4", "--seconds", "0.5")
        self.assertEqual((done.returncode, done.stderr), (0, ""))
        self.assertRegex(done.stdout, r"(?m)^\d+ sessions by 4 threads in \d+\.\d s$")
        self.assertRegex(done.stdout, r"(?m)^\d+ talks with 6 instruments, 0 refused$")

    def test_script_order_locks(self) -> None:
        done = broker("--by", "script-order")
        self.assertEqual((done.returncode, done.stderr), (1, ""))
        self.assertIn("dead-lock", done.stdout)

    def test_sorted_order_locks(self) -> None:
        done = broker("--by", "sorted-order")
        self.assertEqual((done.returncode, done.stderr), (0, ""))
        self.assertRegex(done.stdout, r"(?m)^32 talks with 6 instruments, 0 refused$")

    def test_nothing(self) -> None:
        """The instruments do refuse."""
        done = broker("--by", "nothing")
        self.assertEqual((done.returncode, done.stderr), (1, ""))
        self.assertRegex(done.stdout, r"instruments, [1-9]\d* refused")


def block_after(page: str, line: str) -> str:
    """The code that comes next after a line of a page."""
    with open(os.path.join(TOP, page), encoding="utf-8") as file:
        behind = file.read().split(line, 1)[1].split("\n", 1)[1]
    taken = re.match(r"\n*((?:(?:    .*)?\n)+)", behind)
    assert taken, line
    return re.sub(r"(?m)^    ", "", taken[1]).strip("\n") + "\n"


class Pages(unittest.TestCase):
    def test_readme(self) -> None:
        done = ran(["-c", block_after("README.md", "## In your program")])
        self.assertEqual((done.stdout, done.stderr), ("holds scope supply\n", ""))

    def test_guide(self) -> None:
        program, told = block_after("docs/programs.md", "Write `broker.py`:").split("$ python3 broker.py\n")
        with tempfile.TemporaryDirectory() as folder:
            for name, text in (("bay.lab", block_after("docs/programs.md", "Write `bay.lab`:")), ("broker.py", program)):
                with open(os.path.join(folder, name), "w", encoding="ascii") as file:
                    file.write(text)
            done = ran(["broker.py"], folder)
        self.assertEqual(done.stderr, "")
        # (two stations may come the other way round)
        self.assertEqual(sorted(done.stdout.splitlines()), sorted(told.splitlines()))


if __name__ == "__main__":
    unittest.main()
