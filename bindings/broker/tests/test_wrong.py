"""The wrong brokers of tests.wrong can be made, and the tests that have to see them are there (`python3 -m tests.wrong` tries them)."""

import unittest

from tests.brokers import TOP
from tests.wrong import WRONG


class Table(unittest.TestCase):
    def test_each_can_be_made(self) -> None:
        for name, it in WRONG.items():
            with self.subTest(name):
                with open(f"{TOP}/bindings/broker/labrun_broker/{it.file}", encoding="utf-8") as file:
                    text = file.read()
                self.assertEqual([text.count(old) for old, _ in it.edits], [1] * len(it.edits))
                self.assertEqual(unittest.defaultTestLoader.loadTestsFromName(f"tests.{it.test}").countTestCases(), 1)
