"""Pictures: one for each command, the same each time, small, with a title, and the stored ones as they are made."""
import re

import pytest
from conftest import TOP, stored

import ppart

matplotlib = pytest.importorskip("matplotlib")
from drawings import DRAWINGS, ask, picture_of  # noqa: E402

from ppart import answers, errors, pictures, tables, words  # noqa: E402

FOLDER = TOP / "docs" / "pictures"

# What may be answered in more than one way.
FREE = {"trees"}


def words_of(svg: str) -> set[str]:
    return set(re.findall(r">([^<>\n]+)</text>", svg))


def test_each_command_has_one():
    assert set(words.COMMANDS) <= set(DRAWINGS)
    assert set(pictures.PICTURES) == {command.answer for command in words.COMMANDS.values()}
    assert {path.stem for path in FOLDER.glob("*.svg")} == set(DRAWINGS)


@pytest.mark.parametrize("name", DRAWINGS)
def test_stored(name, tmp_path):
    """The picture of a stored answer is the one in docs/pictures; another version of matplotlib draws otherwise."""
    pictures.save(picture_of(DRAWINGS[name], stored(name)), tmp_path / "again.svg")
    old = (FOLDER / f"{name}.svg").read_text()
    new = (tmp_path / "again.svg").read_text()
    assert len(old) < 60_000 and "<dc:date>" not in old
    assert words_of(old) == words_of(new)
    if f"v{matplotlib.__version__}" in old:
        assert old == new


@pytest.mark.program
@pytest.mark.parametrize("name", sorted(set(DRAWINGS) - FREE))
def test_answers(name):
    """The stored answers say what the program says; flows, vectors and trees are free."""
    drawing = DRAWINGS[name]
    found = [ppart.read_answer(drawing.command, drawing.problem(), raw, drawing.argument)
             for raw in (ask(drawing), stored(name))]
    assert tables.table(found[0]) == tables.table(found[1])


def test_what_they_say():
    network = ppart.Network([("s", "a", 0, "1/2"), ("a", "t", 3)], "s", "t", 0, 12)
    raw = "o curve\nk 2\nb 0 0 1 0\ns 1 0 1 100\nb 1 6 1 6\ns 2 6 0 110\nb 2 12 1 6\nf 0 0 0\nf 1 6 6\nf 2 6 6\nend\n"
    curve = ppart.read_answer("curve", network, raw)
    texts = [text.get_text() for axes in pictures.curve(curve, "week").axes for text in axes.texts]
    assert texts == ["0", "3", "3", "0 to 6", "1/2 x", "s → a", "6 to 12", "3", "a → t"]
    at = [text.get_text() for text in pictures.network(curve, 2).axes[0].texts]
    assert at[:3] == ["s", "a", "t"] and "1" in at and "3" in at
    with pytest.raises(errors.WrongKind):
        pictures.picture("cake")


def test_dollars(tmp_path):
    """Two dollars in a name are no formula."""
    network = ppart.Network([("5 $", "9 $", 3)], "5 $", "9 $", 0, 1)
    raw = "o at\nb 0 1 3\ns 3 0 10\nf 3\nend\n"
    picture = pictures.picture(ppart.read_answer("at", network, raw, 0), title="$ or $")
    pictures.save(picture, tmp_path / "dollars.svg")
    assert {"5 $", "9 $", "$ or $"} <= words_of((tmp_path / "dollars.svg").read_text())


def test_settings_stay(tmp_path):
    """The settings of matplotlib are the user's."""
    before = dict(matplotlib.rcParams)
    pictures.save(picture_of(DRAWINGS["curve"], stored("curve")), tmp_path / "curve.svg")
    assert dict(matplotlib.rcParams) == before


def title_of(figure):
    return figure._suptitle.get_text() if figure._suptitle else figure.axes[0].get_title(loc="left")


def answer_of_many_shares(count):
    arcs = [(f"s{i}", "t", i + 1) for i in range(count)]
    sharing = ppart.Sharing(arcs, "t", {f"s{i}": 1 for i in range(count)})
    number = sharing.number
    levels = "".join(f"l {i + 1} {i + 1} 1\n" for i in range(count))
    shares = "".join(f"x {number[f's{i}']} {i + 1} 1\n" for i in range(count))
    groups = " ".join("0" if name == "t" else str(int(name[1:]) + 1) for name in number)
    flows = " ".join(str(i + 1) for i in range(count))
    raw = f"o share\nk {count}\n{levels}m {groups}\n{shares}f {flows}\nend\n"
    return ppart.read_answer("share", sharing, raw)


@pytest.mark.parametrize("count, bars, said", [(30, 30, "Fair shares"), (60, 60, "Fair shares"),
                                               (150, 120, "Fair shares (the first 120 of 150)")])
def test_many_bars(count, bars, said):
    figure = pictures.shares(answer_of_many_shares(count))
    assert len(figure.axes[0].patches) == bars and title_of(figure) == said
    assert figure.get_figheight() < 20


def test_many_vertices():
    """More than thirty vertices stand around a circle, with their names and without weights."""
    graph = ppart.Graph([(f"v{i}", f"v{(i + 1) % 60}", 2) for i in range(60)])
    raw = f"o densest\nd 2 1\ns {'1' * 60}\nf {' '.join(['2'] * 60)}\nend\n"
    figure = pictures.densest(ppart.read_answer("densest", graph, raw))
    texts = {text.get_text() for text in figure.axes[0].texts}
    assert texts == {f"v{i}" for i in range(60)} and "(60 vertices; weights are left out)" in title_of(figure)


def test_many_nodes():
    """Of more than thirty nodes the greatest of the arcs that leave the cut are drawn."""
    arcs = [("s", f"m{i}", i) for i in range(40)] + [(f"m{i}", "t", 50) for i in range(40)]
    network = ppart.Network(arcs, "s", "t", 0, 1)
    flow = " ".join(str(i) for i in [*range(40), *range(40)])
    raw = f"o at\nb 0 1 780\ns 780 0 1{'0' * 41}\nf {flow}\nend\n"
    figure = pictures.network(ppart.read_answer("at", network, raw, 0))
    texts = {text.get_text() for text in figure.axes[0].texts}
    assert {"s", "m39", "m20", "39"} <= texts and "m19" not in texts
    assert "(42 nodes, 80 arcs; drawn: 20 of 40 arcs that leave the cut)" in title_of(figure)


@pytest.mark.program
def test_edge_cases(tmp_path):
    """No prices, no levels, no edges, negative levels, many of everything: each can be drawn."""
    many = ppart.Graph([(f"a{i}", f"a{i + 1}", i % 7 + 1) for i in range(34)])
    items = {f"item {i}": (i - 20, 1) for i in range(50)}
    wide = [("s", i, 0, i + 1) for i in range(12)] + [(i, "t", 9) for i in range(12)]
    thread = ppart.Graph([("a", "b")] * 5)
    found = [
        ppart.select(ppart.Selection({"x": 1}, {})),
        ppart.partition(ppart.Graph([], vertices="ab")),
        ppart.layers(ppart.Closure({"x": (-3, 2), "y": (5, 1)})),
        ppart.layers(many), ppart.partition(many), ppart.densest(many), ppart.strength(many), ppart.trees(many, 1),
        ppart.strength(thread), ppart.trees(thread, 4), ppart.trees(thread, 6),
        ppart.reinforce(ppart.Graph([("a", "b", 1), ("c", "d", 1)]), 1),
        ppart.share(ppart.Sharing([("s", "t", 1)], "t", {})),
        ppart.closure(ppart.Closure({"x": (1, 1)}, [("x", "x")])),
        ppart.closure(ppart.Closure(items)),
        ppart.sweep(ppart.Network([("s", "t", 0)], "s", "t", 0, 1), 40),
        ppart.sweep(ppart.Network([("s", "t", 0)], "s", "t", 0, 1), 4000),
        ppart.curve(ppart.Network(wide, "s", "t", 0, 20)),
    ]
    assert set(pictures.PICTURES) - {answers.LeastCut} == {type(answer) for answer in found}
    for answer in found:
        pictures.save(pictures.picture(answer), tmp_path / "drawn.svg")
        assert (tmp_path / "drawn.svg").read_text().endswith("</svg>\n")
