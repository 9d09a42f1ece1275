"""Programs that share instruments by the broker, and are killed, and so is the broker (the short form of tests.kills)."""

import unittest

from tests.kills import kills


class Kills(unittest.TestCase):
    maxDiff = None

    def test_clients(self) -> None:
        came = kills(10, 1, brokers_too=False)
        self.assertEqual(("\n".join(came["wrong"]), came["killed"]["client"]), ("", 10))
        self.assertGreater(came["did"], 8)

    def test_clients_and_brokers(self) -> None:
        came = kills(10, 2)
        self.assertEqual("\n".join(came["wrong"]), "")
        self.assertEqual((came["killed"]["client"], came["killed"]["broker"]), (10, 10))
        self.assertGreater(came["did"], 0)
