"""Where pytest finds the plugin by itself. Whoever names it besides, as by `-p pytest_labrun.plugin`, has it once."""

import pytest

from . import plugin


def pytest_addoption(pluginmanager: pytest.PytestPluginManager) -> None:
    if not pluginmanager.is_registered(plugin):
        pluginmanager.register(plugin, plugin.__name__)
