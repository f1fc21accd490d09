"""The command line: tables, files, many texts, errors, a moving line on a terminal alone."""
import os
import pty
import re
import subprocess
import sys

import pytest
from conftest import EXAMPLES

from ppart import command_line, errors, words

pytestmark = pytest.mark.program

ASKED = {"growing-demand.par": [["curve"], ["at", "6"], ["sweep", "4"]], "shared-tools.closure": [["closure"], ["layers"]],
         "club.graph": [["densest"], ["layers"]], "eight-sites.graph": [["strength"], ["partition"]],
         "seven-depots.graph": [["reinforce", "6.5"]], "seven-villages.graph": [["trees", "2"], ["trees", "3"]],
         "shared-modules.select": [["select"]], "office-records.share": [["share"]]}
SAID = {  # a line of each table
    "curve": "4     6   28 + x     1 -> 4, 2 -> 5, 3 -> 5, 3 -> 6", "at": "6   34         1 -> 4, 2 -> 5, 3 -> 5, 3 -> 6",
    "sweep": "9   33         8", "closure": "5/3    1, 4, 5", "densest": "33/4     1, 2, 3, 4",
    "strength": "11/3      1, 2, 3 | 4, 5, 6 | 7 | 8", "partition": "7           1, 2, 3 | 4 | 5, 6 | 7 | 8",
    "reinforce": "4 - 6  3/2", "select": "93/19       nothing        7", "share": "2       76/9     19/27"}


@pytest.mark.parametrize("file, asked", [(file, asked) for file, all_asked in ASKED.items() for asked in all_asked])
def test_tables(file, asked, capsys):
    checked = words.COMMANDS[asked[0]].answer.checked
    arguments = [*asked, "--text", str(EXAMPLES / file)]
    assert command_line.main(arguments + ["--check"] * checked) == 0
    out = capsys.readouterr().out
    assert SAID.get(asked[0], "") in out.splitlines() + [""] and ("checked: yes" in out) == checked


def test_picture(capsys, tmp_path):
    pytest.importorskip("matplotlib")
    text = str(EXAMPLES / "three-nodes.par")
    assert command_line.main(["curve", "--text", text, "--picture", str(tmp_path / "picture.svg")]) == 0
    assert "</svg>" in (tmp_path / "picture.svg").read_text()
    with pytest.raises(errors.WrongKind, match="picture.cake does not end with .*svg"):
        command_line.main(["curve", "--text", text, "--picture", str(tmp_path / "picture.cake")])
    with pytest.raises(SystemExit):
        command_line.main(["curve", "--text", text, text, "--picture", str(tmp_path / "picture.svg")])


def test_an_interval_for_at(capsys, tmp_path):
    """Without --low and --high the interval begins with the parameter, and has to fit."""
    (tmp_path / "arcs.csv").write_text("a,b,4,-1\nb,c,4.5\n")
    arguments = ["at", "3.5", "--csv", str(tmp_path / "arcs.csv"), "--source", "a", "--sink", "c"]
    assert command_line.main(arguments) == 3
    assert "capacity of a -> b is -1/2 at 9/2, below 0; give --low and --high" in capsys.readouterr().err
    assert command_line.main([*arguments, "--low", "0", "--high", "4"]) == 0
    assert capsys.readouterr().out.split("\n")[1] == "7/2  1/2        a -> b"


def test_csv(capsys, tmp_path):
    (tmp_path / "arcs.csv").write_text("a,b,0,1\nb,c,4.5\n")
    arguments = ["--csv", str(tmp_path / "arcs.csv"), "--source", "a", "--sink", "c"]
    assert command_line.main(["curve", *arguments, "--low", "0", "--high", "10"]) == 0
    assert capsys.readouterr().out.split("\n")[1:3] == ["0     9/2  x          a -> b", "9/2   10   9/2        b -> c"]
    assert command_line.main(["at", "3.5", *arguments]) == 0
    assert capsys.readouterr().out.split("\n")[1] == "7/2  7/2        a -> b"
    for words, said in ((["curve"], "takes --low and --high too"), (["curve", "3", "--low", "0", "--high", "9"], "no argument"),
                        (["sweep", "--low", "0", "--high", "9"], "takes the number of steps"),
                        (["share"], "takes --more too"), (["select"], "takes --more too")):
        assert command_line.main([*words, *arguments]) == 3
        assert said in capsys.readouterr().err
    (tmp_path / "more.csv").write_text("a,2\n")
    assert command_line.main(["share", *arguments, "--more", str(tmp_path / "more.csv")]) == 0
    assert capsys.readouterr().out.split("\n")[1].split() == ["a", "0", "0"]
    (tmp_path / "items.csv").write_text("saw,3,1\nbench,1,1,saw\n")
    assert command_line.main(["layers", "--items", "--csv", str(tmp_path / "items.csv")]) == 0
    assert "2      bench, saw" in capsys.readouterr().out
    (tmp_path / "parts.csv").write_text("saw,3\n")
    (tmp_path / "products.csv").write_text("toys,6,saw\n")
    assert command_line.main(["select", "--csv", str(tmp_path / "parts.csv"), "--more", str(tmp_path / "products.csv")]) == 0
    assert "0           saw      toys" in capsys.readouterr().out
    (tmp_path / "edges.csv").write_text("a,b\nb,c\n")
    assert command_line.main(["densest", "--csv", str(tmp_path / "edges.csv"), "--more", str(tmp_path / "more.csv")]) == 0
    assert "1/2      a, b, c" in capsys.readouterr().out
    for words_without_form in (["curve"], ["cake"], ["curve", "--text", "-", "--jobs", "0"]):
        with pytest.raises(SystemExit) as usage:
            command_line.main(words_without_form)
        assert usage.value.code == 2


def test_many_texts(capsys):
    good, bad, none = (str(EXAMPLES / name) for name in ("three-nodes.par", "refused.par", "nothing.par"))
    assert command_line.main(["curve", "--check", "--text", good, bad, none, good]) == 3
    out, err = capsys.readouterr()
    assert [line for line in out.splitlines() if line.startswith("==")] == [f"== {p}" for p in (good, bad, none, good)]
    assert out.count("checked: yes") == 2
    assert len(err.splitlines()) == 2 and f"{bad}: 1 -> 2 with the slope 1 makes the network rising" in err


def test_a_check_that_says_no(fake, capsys, monkeypatch):
    raw = "o densest\\nd 1 1\\ns 11\\nf 0\\nend\\n"
    monkeypatch.setenv("PPART", str(fake(f"[ \"$1\" = check ] && printf 'o check\\nno\\nend\\n' && exit 1; printf '{raw}'")))
    monkeypatch.setattr("sys.stdin", open(EXAMPLES / "three-nodes.par"))
    (graph := fake("")).write_text("p graph 2 1\ne 1 2 1\nend\n")
    assert command_line.main(["densest", "--check", "--text", str(graph)]) == 1
    assert "checked: no" in capsys.readouterr().out


def ran(arguments, text="", **how):
    return subprocess.run([sys.executable, "-m", "ppart", *arguments], input=text, capture_output=True, text=True, **how)


def test_processes_of_their_own(python_path):
    ran_well = ran(["curve", "--text", "-"], (EXAMPLES / "three-nodes.par").read_text())
    assert (ran_well.returncode, ran_well.stderr) == (0, "") and "2 -> 3" in ran_well.stdout
    refused = ran(["explain", "curve"], "p par 3 2\ni 0 1\n")
    assert refused.returncode == 3 and refused.stderr.startswith("line 2: syntax\n    i 0 1\n")
    right = ran(["explain", "curve"], (EXAMPLES / "three-nodes.par").read_text())
    assert right.returncode == 0 and right.stdout.startswith("o curve\n")
    assert ran(["explain", "cake"]).returncode == 2
    piped = subprocess.run(f"{sys.executable} -m ppart sweep 20000 --text {EXAMPLES / 'three-nodes.par'} | head -n 1",
                           shell=True, capture_output=True, text=True)
    assert piped.stdout.startswith("at") and piped.stderr == ""


def test_a_moving_line(python_path, fake):
    """On a terminal something moves while the program works; elsewhere nothing is said."""
    slow = fake("sleep 0.7; exec " + os.environ.get("PPART", "ppart") + ' "$@"')
    words = [sys.executable, "-m", "ppart", "curve", "--jobs", "1", "--text", *[str(EXAMPLES / "three-nodes.par")] * 2]
    environment = {**os.environ, "PPART": str(slow)}
    assert subprocess.run(words, env=environment, capture_output=True).stderr == b""
    master, slave = pty.openpty()
    done = subprocess.run(words, env=environment, stdout=subprocess.PIPE, stderr=slave)
    os.close(slave)
    said = os.read(master, 10000).decode()
    os.close(master)
    assert done.returncode == 0 and b"2 -> 3" in done.stdout
    assert " 0 s" in said and ", 1 of 2 done" in said and len(set(re.findall(r"\r([|/-]) ", said))) > 1 and said.endswith("\x1b[K")
