"""What the tests share. Tests with the mark `program` need the program ppart, and are skipped where there is none."""
import os
import sys
from pathlib import Path

import pytest

from ppart import errors, program

TOP = Path(__file__).resolve().parents[2]
EXAMPLES = TOP / "examples"
STORED = Path(__file__).resolve().parent / "stored"


def stored(name: str) -> str:
    """The answer that is stored for the picture of this name."""
    return (STORED / f"{name}.answer").read_text()


def pytest_collection_modifyitems(items):
    try:
        program.find()
    except errors.Failure as missing:
        for item in items:
            if item.get_closest_marker("program"):
                item.add_marker(pytest.mark.skip(reason=str(missing)))


@pytest.fixture
def fake(tmp_path):
    """Makes programs that are not the program: shell scripts with this body."""
    def make(body: str) -> Path:
        path = tmp_path / f"fake-{len(list(tmp_path.iterdir()))}"
        path.write_text(f"#!/bin/sh\n{body}\n")
        path.chmod(0o755)
        return path
    return make


@pytest.fixture
def python_path(monkeypatch):
    """So that processes of their own find the package and these modules."""
    here = Path(__file__).resolve().parent
    monkeypatch.setenv("PYTHONPATH", os.pathsep.join([str(here.parent / "src"), str(here)]))
    monkeypatch.setenv("PYTHONDONTWRITEBYTECODE", "1")
    return sys.executable
