"""The broker over a machine that isn't the library's, as `./preview broker` has it: its own tests, once more."""

import os
import sys
import unittest
from unittest import mock

from tests import test_applying, test_keeping, test_state, test_turning, test_written
from tests.brokers import TOP

BAY = os.path.join(TOP, "checks", "bay")


class Simulated(unittest.IsolatedAsyncioTestCase):
    """Before each test the machine is the model."""

    def setUp(self) -> None:
        super().setUp()
        with mock.patch.object(sys, "path", [BAY, *sys.path]):
            import simulated
        self.enterContext(mock.patch("labrun_broker.opening.Machine", simulated.Machine))


class Calls(Simulated):
    def test_each_call_is_there(self) -> None:
        import labrun.machine
        import labrun_broker.opening

        calls = {name for name, it in vars(labrun.machine.Machine).items() if not name.startswith("_")}
        # (the addresses are for the lab's extension in C)
        self.assertEqual(calls - set(vars(labrun_broker.opening.Machine)), {"addresses"})


class Sessions(Simulated, test_keeping.Sessions):
    # (the model is slow where many wait)
    test_a_status_holds_up_nobody = None


class Gone(Simulated, test_keeping.Gone):
    # (it looks twice within a tenth of a second)
    test_released_after_the_grace = None


class Chance(Simulated, test_keeping.Chance): ...


class Applied(Simulated, test_applying.Applied): ...


class Anew(Simulated, test_turning.Anew): ...


class KilledAnew(Simulated, test_turning.Killed): ...


class FailsAnew(Simulated, test_turning.Fails): ...


class OnDisk(Simulated, test_written.OnDisk): ...


class FullDisk(Simulated, test_written.FullDisk): ...


class TakenUp(Simulated, test_state.TakenUp): ...


class Damaged(Simulated, test_state.Damaged): ...


if __name__ == "__main__":
    unittest.main()
