"""A load, whichever is free."""

import time

import pytest


@pytest.mark.instruments(any_of="load-*")
@pytest.mark.parametrize("amps", [0.1, 0.2, 0.5, 1.0, 2.0, 4.0, 8.0, 10.0, 16.0])
def test_it_keeps_what_it_is_set_to(bench, instruments, amps):
    (load,) = instruments
    bench[load].write(f"CURR {amps}")
    time.sleep(0.6)
    assert float(bench[load].query("CURR?")) == amps
    instruments.note(f"{amps} A at {load}")


@pytest.mark.instruments("load-1", "load-2")
def test_they_are_two(bench):
    bench["load-1"].write("CURR 1.0")
    bench["load-2"].write("CURR 2.0")
    time.sleep(0.6)
    assert float(bench["load-1"].query("CURR?")) == 1.0
