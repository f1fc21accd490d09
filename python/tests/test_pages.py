"""The code of README.md, docs/PYTHON.md and python/README.md runs as it stands, and prints what stands behind it."""
import contextlib
import io
import re

import pytest
from conftest import TOP

PAGES = [TOP / "README.md", TOP / "docs" / "PYTHON.md", TOP / "python" / "README.md"]
PRINTED = re.compile(r"^\s*print\(.*  # (.*)$", re.M)


@pytest.mark.program
@pytest.mark.parametrize("page", PAGES, ids=lambda page: str(page.relative_to(TOP)))
def test_code(page, monkeypatch, tmp_path):
    pytest.importorskip("networkx")
    pytest.importorskip("matplotlib")
    (tmp_path / "examples").symlink_to(TOP / "examples")
    monkeypatch.chdir(tmp_path)
    blocks = re.findall(r"^```python\n(.*?)^```", page.read_text(), re.S | re.M)
    said = io.StringIO()
    names = {}
    with contextlib.redirect_stdout(said):
        for block in blocks:
            exec(compile(block, page.name, "exec"), names)
    assert said.getvalue().splitlines() == PRINTED.findall("\n".join(blocks))


@pytest.mark.parametrize("page", PAGES, ids=lambda page: str(page.relative_to(TOP)))
def test_pictures(page):
    """Each picture that a page shows is there, and the page of all commands shows all of them."""
    shown = re.findall(r"!\[.*?\]\((.*?)\)", page.read_text())
    assert all((page.parent / path).exists() for path in shown)
    if page.name == "PYTHON.md":
        assert {path.split("/")[-1] for path in shown} == {path.name for path in (TOP / "docs/pictures").glob("*.svg")}
