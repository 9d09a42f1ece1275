"""Tests that share instruments: a test names its instruments, and holds them all while it runs.

    @pytest.mark.instruments("scope", any_of="load-*")
    def test_ripple(instruments):
        scope, load = instruments.names

With pytest-xdist, whoever can run runs: no two tests hold an instrument at once, and none waits for another in a ring."""

from .holding import Instruments, Lab
from .needs import holds

__all__ = ["Instruments", "Lab", "holds"]
