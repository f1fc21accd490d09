"""Every example of the repository: the determined lines of its answer, from its text and from its problem in Python."""
import re

import pytest
from conftest import EXAMPLES

import ppart
from ppart import errors, program

# The first fields of the lines that are determined, where they are not `kbrds`.
DETERMINED = {"strength": "dks", "partition": "kbs", "share": "klx", "reinforce": "dcx", "trees": "ksc"}
ENDINGS = (".out", ".fixed", ".err")
FILES = sorted(path.name for path in EXAMPLES.glob("*") if path.suffix in ENDINGS and "generate" not in path.name)
KINDS = ("par", "closure", "graph", "select", "share")


def text_of(stem: str, command: str) -> str:
    kinds = ("graph", "closure") if command == "layers" else KINDS
    found = [EXAMPLES / f"{stem}.{kind}" for kind in kinds if (EXAMPLES / f"{stem}.{kind}").exists()]
    return found[0].read_text()


@pytest.mark.program
@pytest.mark.parametrize("file", FILES)
def test_example(file):
    stem, asked, ending = file.split(".")
    command, *argument = asked.split("-", 1)
    words = [command, *(word.replace("-", "/") for word in argument)]
    text = text_of(stem, command)
    wanted = (EXAMPLES / file).read_text()
    if ending == "err":
        with pytest.raises(errors.Refused) as refused:
            program.run(words, text)
        assert wanted == f"ppart: line {refused.value.line}: {refused.value.cause}\n"
        return
    for said in (text, ppart.read(text).text()):
        answer = program.run(words, said)
        if ending == "fixed":
            first = DETERMINED.get(command, "kbrds")
            answer = "".join(f"{line}\n" for line in answer.splitlines() if re.match(f"[{first}] ", line))
        assert answer == wanted


@pytest.mark.parametrize("path", [path for path in EXAMPLES.glob("*") if path.suffix[1:] in KINDS],
                         ids=lambda path: path.name)
def test_problem(path):
    """Each problem is read, and what is written is read as the same; the refused one is told by the arc."""
    text = path.read_text()
    if path.name == "refused.par":
        with pytest.raises(errors.Unfit, match="2 -> 3"):
            ppart.read(text)
        return
    again = ppart.read(text).text()
    assert ppart.read(again).text() == again


def test_there_are_examples():
    assert len(FILES) >= 25


@pytest.mark.program
def test_generate():
    assert program.run(["generate", "7"]) == (EXAMPLES / "generate-7.out").read_text()
