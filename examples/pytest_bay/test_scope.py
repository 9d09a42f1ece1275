"""The scope by itself, and what it sees of the supply under load."""

import time

import pytest
import pytest_labrun

pytestmark = pytest.mark.instruments("scope")


@pytest.fixture(scope="module")
@pytest_labrun.holds("supply")
def warm():
    """It takes a while until the supply is warm, so it is held for all tests that want it so."""
    time.sleep(0.75)


@pytest.mark.parametrize("number", range(6))
def test_its_own_signal(bench, number):
    time.sleep(0.45)
    assert float(bench["scope"].query("CAL:VPP?")) == 0.5


@pytest.mark.instruments("load-2")
@pytest.mark.parametrize("amps", [0.0, 1.0, 4.0, 8.0])
def test_ripple_grows_with_the_load(warm, bench, amps):
    bench["supply"].write("VOLT 12.0")
    bench["supply"].write("OUTP ON")
    bench["load-2"].write(f"CURR {amps}")
    time.sleep(0.45)
    assert float(bench["scope"].query("MEAS:VPP?")) == pytest.approx(0.001 + 0.002 * amps)
