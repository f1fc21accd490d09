"""The worked lines of the docstrings."""
import doctest
import importlib
import pkgutil

import pytest

import ppart

NEED_THE_PROGRAM = {"ppart.commands", "ppart.many"}
NAMES = [module.name for module in pkgutil.walk_packages(ppart.__path__, "ppart.")]
MODULES = [pytest.param(name, marks=pytest.mark.program if name in NEED_THE_PROGRAM else [])
           for name in NAMES if not name.endswith("__main__")]


@pytest.mark.parametrize("name", MODULES)
def test_docstrings(name):
    if name.startswith("ppart.pictures"):
        pytest.importorskip("matplotlib")
    assert doctest.testmod(importlib.import_module(name)).failed == 0


def test_each_command_has_a_worked_line():
    from ppart import commands, words
    for name in words.COMMANDS:
        assert ">>>" in getattr(commands, name).__doc__ and getattr(ppart, name) is getattr(commands, name)
