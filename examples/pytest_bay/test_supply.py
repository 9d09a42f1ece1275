"""The supply by itself, and what the meter sees of it."""

import time

import pytest

pytestmark = pytest.mark.instruments("supply")


@pytest.mark.parametrize("volts", [1.0, 3.3, 5.0, 12.0])
def test_it_keeps_what_it_is_set_to(bench, volts):
    bench["supply"].write(f"VOLT {volts}")
    time.sleep(0.45)
    assert float(bench["supply"].query("VOLT?")) == volts


def test_it_is_off_at_first(bench):
    assert bench["supply"].query("OUTP?") == "0"


@pytest.mark.instruments("meter", "load-2")
class TestOutput:
    """(load-2 is at the supply, so nobody else may turn it meanwhile.)"""

    @pytest.mark.parametrize("volts", [1.0, 3.3, 5.0, 12.0])
    def test_the_meter_sees_it(self, bench, volts):
        bench["supply"].write(f"VOLT {volts}")
        bench["supply"].write("OUTP ON")
        time.sleep(0.45)
        assert float(bench["meter"].query("MEAS:VOLT?")) == volts

    def test_it_drops_by_half_an_ohm(self, bench):
        bench["supply"].write("VOLT 5.0")
        bench["supply"].write("OUTP ON")
        bench["load-2"].write("CURR 2.0")
        time.sleep(0.45)
        assert float(bench["meter"].query("MEAS:VOLT?")) == 4.0
