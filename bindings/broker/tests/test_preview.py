"""`./preview broker`: a broker at once, from the sources alone, without any library."""

import json
import os
import re
import signal
import subprocess
import tempfile
import unittest
import urllib.request
from importlib.util import find_spec

from tests.brokers import LIMIT, TOP, until


def seconds_of(process: int) -> float:
    """For how long the processor worked for it, and for those that it waited for."""
    with open(f"/proc/{process}/stat", encoding="ascii") as file:
        return sum(map(int, file.read().rpartition(")")[2].split()[11:15])) / os.sysconf("SC_CLK_TCK")


class Preview(unittest.TestCase):
    def setUp(self) -> None:
        # (of its own, beside one that a person looks at)
        room = self.enterContext(tempfile.TemporaryDirectory())
        self.environment = {name: it for name, it in os.environ.items() if name not in ("LABRUN_LIBRARY", "LABRUN_BROKER", "PYTHONPATH")}
        self.environment |= {"TMPDIR": room, "LABRUN_LIBRARY": "/nowhere"}

    def ran(self, *words: str) -> "subprocess.CompletedProcess[str]":
        return subprocess.run([f"{TOP}/preview", "broker", *words], env=self.environment, capture_output=True, text=True, timeout=LIMIT)

    def test_words_of_the_broker(self) -> None:
        """Whoever forgets the word `broker` isn't made to wait for a program that doesn't know the others."""
        for words, status, out, said in (
            (["hold", "scope"], 2, "", "preview: hold is a word of the broker: ./preview broker hold scope\n"),
            (["status"], 2, "", "preview: status is a word of the broker: ./preview broker status\n"),
        ):
            done = subprocess.run([f"{TOP}/preview", *words], env=self.environment, capture_output=True, text=True, timeout=LIMIT)
            self.assertEqual((done.returncode, done.stdout, done.stderr), (status, out, said))
        done = subprocess.run([f"{TOP}/preview", "--help"], env=self.environment, capture_output=True, text=True, timeout=LIMIT)
        self.assertEqual((done.returncode, done.stderr), (0, ""))
        self.assertIn("./preview broker WORDS", done.stdout)

    def test_it_serves_holds_and_says_what_it_is(self) -> None:
        with subprocess.Popen([f"{TOP}/preview", "broker"], env=self.environment, stderr=subprocess.PIPE, text=True) as serves:
            assert serves.stderr is not None
            said = ""
            try:
                while ": bay north: 6 instruments" not in said:
                    self.assertTrue(line := serves.stderr.readline(), said)
                    said += line
                # (whatever else the machine does)
                self.assertLess(seconds_of(serves.pid), 15)
                self.assertIn("this broker's machine is a model of the proved one's rules, and it forgets all when it ends", said)
                done = self.ran("hold", "scope", "supply", "--timeout", "5", "--", "sh", "-c", "echo at $LABRUN_HELD")
                self.assertEqual((done.stdout, done.stderr, done.returncode), ("at scope supply\n", "", 0))
                self.assertIn("bay north, 1 session since", self.ran("status").stdout)
                self.assertIn("such a broker runs already", self.ran().stderr)
                if find_spec("aiohttp"):
                    page = re.search(r"http://127\.0\.0\.1:\d+/", said)
                    assert page is not None
                    status = until(lambda: json.load(urllib.request.urlopen(f"{page[0]}status", timeout=LIMIT)))
                    self.assertIn("Simulated", status["notice"])
            finally:
                serves.send_signal(signal.SIGINT)
                serves.communicate(timeout=LIMIT)
            self.assertEqual(serves.returncode, 0)


if __name__ == "__main__":
    unittest.main()
