"""What a person meets: each thing that can go wrong, its class, what it is about, and that it says what to do."""
import io
import pickle
import re
from decimal import Decimal
from fractions import Fraction

import pytest
from conftest import EXAMPLES

import ppart
from ppart import errors, explain, numbers, program

# The network of three nodes, and its answers.
TEXT = "p par 3 2\ni 0 1 10 1\nn 1 s\nn 3 t\na 1 2 0 1\na 2 3 4 0\nend\n"
AT_4 = "o at\nb 4 1 4\ns 0 1 100\nf 4 4\nend\n"
CURVE = (EXAMPLES / "three-nodes.curve.out").read_text()
B = 10**9


def network(*arcs, source="s", sink="t", low=0, high=10, nodes=()):
    return ppart.Network(arcs, source, sink, low, high, nodes)


def raised(make, kind, said, about=None):
    with pytest.raises(kind) as found:
        make()
    error = found.value
    assert type(error) is kind and isinstance(error, errors.Error) and re.search(said, str(error)), str(error)
    assert error.advice in str(error) and (about is None or str(error.about) == about), error.about
    again = pickle.loads(pickle.dumps(error))  # it comes back from another process as it was
    assert type(again) is kind and str(again) == str(error)
    return error


@pytest.mark.parametrize("kind, about, said, make", [
    # numbers
    (errors.NotExact, "the capacity of s -> t", "float 0.1.*text such as '0.1'", lambda: network(("s", "t", 0.1))),
    (errors.NotExact, "the slope of s -> t", "float 1.0", lambda: network(("s", "t", 1, 1.0))),
    (errors.NotExact, "the low end", "inf", lambda: network(("s", "t", 1), low=float("-inf"))),
    (errors.NotExact, "the price of a - b", "'dear'", lambda: ppart.Graph([("a", "b", 1, "dear")])),
    (errors.NotExact, "the cost of x", "None", lambda: ppart.Closure({"x": (None, 1)})),
    *((errors.NotExact, "a number", "no exact number", lambda v=v: numbers.exact(v))
      for v in ("", "nan", "1/0", [], b"1", "1e9999", "1e-999999999", "9" * 2000, Decimal("1e9999"))),
    (errors.OutOfRange, None, "units of a number of more than 40 digits",
     lambda: network(("s", "t", "1e9"), *(("s", "a", Fraction(1, 10**30 + i)) for i in range(300)))),
    (errors.OutOfRange, "s -> t", "is -1; the program takes", lambda: ppart.Sharing([("s", "t", -1)], "t", {})),
    (errors.OutOfRange, "s -> t", "1000000000; .* -1000000000 to 1000000000 units of 1/3",
     lambda: network(("s", "a", "1/3"), ("s", "t", B))),
    (errors.OutOfRange, "s -> a", "capacity of s -> a is -2 at 10, below 0", lambda: network(("s", "a", 8, -1), ("a", "t", 1))),
    (errors.OutOfRange, "a - b", "weight of a - b is 0", lambda: ppart.Graph([("a", "b", 0)])),
    (errors.OutOfRange, "a - b", "price of a - b is 1000001", lambda: ppart.Graph([("a", "b", 1, 1000001), ("b", "c")])),
    (errors.OutOfRange, "b", "cost of b is -1", lambda: ppart.Graph([("a", "b", 1)], {"b": -1})),
    (errors.OutOfRange, "x", "cost of x is 2000001", lambda: ppart.Closure({"x": (2000001, 1), "y": (1, 1)})),
    (errors.OutOfRange, "x", "weight of x is 0", lambda: ppart.Closure({"x": (1, 0)})),
    (errors.OutOfRange, "x", "cost of x is 0", lambda: ppart.Selection({"x": 0}, {})),
    (errors.OutOfRange, "p", "gain of p is 0", lambda: ppart.Selection({"x": 1}, {"p": 0})),
    (errors.OutOfRange, "s", "weight of s is 0", lambda: ppart.Sharing([("s", "t", 1)], "t", {"s": 0})),
    (errors.OutOfRange, None, "low end 10 is not below", lambda: network(("s", "t", 1), low=10)),
    (errors.OutOfRange, None, "more than 9 digits", lambda: network(("s", "t", 1), high="0.12345678901")),
    (errors.OutOfRange, "nodes", "1001 nodes", lambda: network(*(("s", i, 1) for i in range(1000)), sink=0)),
    (errors.OutOfRange, "arcs", "10001 arcs", lambda: network(*[("s", "t", 1)] * 10001)),
    (errors.OutOfRange, None, "1 nodes", lambda: ppart.Sharing([], "t", {}, "t")),
    (errors.OutOfRange, None, "501 vertices", lambda: ppart.Graph([], vertices=range(501))),
    (errors.OutOfRange, None, "5001 edges", lambda: ppart.Graph([("a", "b")] * 5001)),
    (errors.OutOfRange, None, "0 items", lambda: ppart.Closure({})),
    (errors.OutOfRange, None, "10001 needs", lambda: ppart.Closure({"x": (1, 1)}, [("x", "x")] * 10001)),
    (errors.OutOfRange, None, "501 parts", lambda: ppart.Selection(dict.fromkeys(range(501), 1), {})),
    (errors.OutOfRange, None, "1001 products", lambda: ppart.Selection({"x": 1}, dict.fromkeys(range(1001), 1))),
    (errors.OutOfRange, None, "5001 needs", lambda: ppart.Selection({"x": 1}, {"p": 1}, [("p", "x")] * 5001)),
    # names
    (errors.UnknownName, "0", "the source is 0, .*nowhere else; names", lambda: network(("s", "t", 1), source=0)),
    (errors.UnknownName, "1", "the source is 1, .*but '1' does", lambda: network(("1", "t", 1), source=1)),
    (errors.UnknownName, "u", "the sink is 'u'", lambda: network(("s", "t", 1), sink="u")),
    (errors.UnknownName, "u", "the sink is 'u'", lambda: ppart.Sharing([("s", "t", 1)], "u", {})),
    (errors.UnknownName, "a", "a source is 'a'", lambda: ppart.Sharing([("s", "t", 1)], "t", {"a": 1})),
    (errors.UnknownName, "c", "cost is 'c'", lambda: ppart.Graph([("a", "b")], {"c": 1})),
    (errors.UnknownName, "y", "what x needs is 'y'", lambda: ppart.Closure({"x": (1, 1)}, [("x", "y")])),
    (errors.UnknownName, "p", "what needs x is 'p'", lambda: ppart.Selection({"x": 1}, {}, {"p": ["x"]})),
    *((errors.BadName, name, "blanks at its ends", lambda name=name: network(("s", name, 1), ("s", "t", 1)))
      for name in (" a", "a ", "", "a\nb", "a\tb")),
    (errors.BadName, "x", "x is given twice", lambda: ppart.Closure.from_csv(io.StringIO("x,1,1\ny,1,1\nx,2,1\n"))),
    (errors.BadName, "p", "p is given twice", lambda: ppart.Selection.from_csv(io.StringIO("x,1\n"), io.StringIO("p,1\np,2\n"))),
    (errors.BadName, None, "2 names for 3", lambda: ppart.read(TEXT, "ab")),
    (errors.BadName, None, "one of them twice", lambda: ppart.read(TEXT, "aba")),
    # arcs
    (errors.SameEnds, "s", "source and sink are the same node, s", lambda: network(("s", "t", 1), sink="s")),
    (errors.SameEnds, "t", "t is the sink and has a weight", lambda: ppart.Sharing([("s", "t", 1)], "t", {"t": 1})),
    (errors.SameEnds, "a - a", "joins a vertex to itself", lambda: ppart.Graph([("a", "a", 1)])),
    *((errors.InnerSlope, f"{u} -> {v}", "has the slope 1; only arcs out of the source", lambda u=u, v=v: network(
        ("s", "a", 1), ("b", "t", 1), (u, v, 1, 1))) for u, v in ("ab", "st", "ss", "tt", "as", "tb")),
    (errors.MixedSlopes, "b -> t", "s -> a with the slope 1 makes the network rising, b -> t with the slope 1 falling",
     lambda: network(("s", "a", 1, 1), ("b", "t", 1, 1))),
    # files and graphs
    (errors.Unreadable, None, "not well formed", lambda: ppart.read("p par 3 2\nn 1 s\nend\n")),
    (errors.Unreadable, None, "not well formed", lambda: ppart.read("")),
    *((errors.Unreadable, None, said, lambda old=old, new=new: ppart.read(TEXT.replace(old, new))) for old, new, said in (
        ("end\n", "", "no line `end`"), ("end\n", "end\na 1 2 3 4\n", "after `end`"), ("3 2\n", "3 1\n", "should have 1"),
        ("4 0\n", "4 +0\n", "'.0' is no number"), ("a 1", "b 1", "lines that begin with b"), ("2 0 1", "2 0", "has not 4"), ("10 1\n", "10 1 1\n", "four numbers"),
        ("i 0", "d falling\ni 0", "do not fit the line d"), ("n 3 t", "n 3 t\nn 2 t", "should have 2"))),
    (errors.Unreadable, None, "same first number", lambda: ppart.read("p graph 2 0\nv 1 2\nv 1 3\nend\n")),
    (errors.OutOfRange, None, "999999999 names", lambda: ppart.read("p graph 999999999 0\nend\n")),
    (errors.Unreadable, None, "not well formed", lambda: ppart.read("p graph 2 1\ne 1 7 1\nend\n")),
    (errors.Unreadable, "cake", "kind cake", lambda: ppart.read("p cake 3\nend\n")),
    (errors.Unreadable, None, "kind par, neither max nor min", lambda: ppart.Network.from_dimacs(TEXT)),
    (errors.Unreadable, None, "lower bound 2", lambda: ppart.Network.from_dimacs("p min 2 1\nn 1 4\nn 2 -4\na 1 2 2 5 1\n")),
    # what commands take
    (errors.OutOfRange, "11", "outside the interval from 0 to 10", lambda: ppart.at(ppart.read(TEXT), 11)),
    (errors.OutOfRange, "-1/2", "outside the interval", lambda: ppart.read_answer("curve", ppart.read(TEXT), CURVE).value("-1/2")),
    (errors.OutOfRange, None, "denominator|by 1 to", lambda: ppart.at(ppart.read(TEXT), "1/1000000001")),
    (errors.OutOfRange, None, "steps are too fine", lambda: ppart.sweep(network(("s", "t", 1), high="1/99999999"), 90000)),
    (errors.OutOfRange, None, "number of steps is 0", lambda: ppart.sweep(ppart.read(TEXT), 0)),
    (errors.OutOfRange, None, "number of steps is 1/2", lambda: ppart.sweep(ppart.read(TEXT), "1/2")),
    (errors.OutOfRange, None, "number of trees is 501", lambda: ppart.trees(ppart.Graph([("a", "b")]), 501)),
    (errors.OutOfRange, None, "the level is -1", lambda: ppart.reinforce(ppart.Graph([("a", "b")]), -1)),
    (errors.OutOfRange, None, "the price -1 is below 0", lambda: ppart.read_answer(
        "select", ppart.Selection({"x": 1}, {}), "o select\nk 0\ns 0 0\nend\n").at(-1)),
    (errors.OutOfRange, None, "101 vertices for strength", lambda: ppart.strength(ppart.Graph([], vertices=range(101)))),
    (errors.OutOfRange, None, "501 edges for trees", lambda: ppart.trees(ppart.Graph([("a", "b")] * 501), 1)),
    (errors.WrongKind, None, "curve takes a Network, not a Graph", lambda: ppart.curve(ppart.Graph([("a", "b")]))),
    (errors.WrongKind, None, "no check for at", lambda: ppart.read_answer("at", ppart.read(TEXT), AT_4, 4).check()),
    (errors.WrongKind, "cake", "no command cake", lambda: next(ppart.solve([], "cake"))),
])
def test_what_does_not_fit(kind, about, said, make):
    raised(make, kind, said, about)


def test_graphs_that_do_not_fit():
    networkx = pytest.importorskip("networkx")
    one, other = networkx.Graph([("a", "b")]), networkx.DiGraph([("a", "b")])
    raised(lambda: ppart.Network.from_networkx(one, "a", "b", 0, 1), errors.Unreadable, "to_directed")
    raised(lambda: ppart.Sharing.from_networkx(one, "a", {}), errors.Unreadable, "to_directed")
    raised(lambda: ppart.Closure.from_networkx(one), errors.Unreadable, "to_directed")
    raised(lambda: ppart.Graph.from_networkx(other), errors.Unreadable, "to_undirected")
    raised(lambda: ppart.Network.from_networkx(other, "a", "b", 0, 1), errors.Unreadable, "a -> b has no 'capacity'")
    raised(lambda: ppart.Closure.from_networkx(other), errors.Unreadable, "a has no 'cost'")
    raised(lambda: ppart.Selection.from_networkx(one), errors.Unreadable, "a has no 'cost'")


@pytest.mark.parametrize("body, kind, said", [
    ("exit 4", errors.BrokenPipe, "status 4.*ask again"), ("exit 5", errors.BrokenPipe, "status 5"),
    ("exit 6", errors.OutOfMemory, "ask for less"), ("exit 126", errors.NotBuilt, "run ./ppart once"),
    ("exit 127", errors.NotBuilt, "run ./ppart once"), ("exit 9", errors.Failure, "status 9: it said nothing"),
    ("exit 2", errors.Usage, "does not know the words: curve"),
    ("kill -9 $$", errors.Stopped, "stopped by SIGKILL.*memory"), ("kill -40 $$", errors.Stopped, "signal 40|RT"),
    ("echo o curve; echo b 0 0", errors.BadAnswer, "cannot be read"), ("", errors.BadAnswer, "does not begin with `o curve`"),
    ("echo o curve; echo k 0; echo end", errors.BadAnswer, "0 lines b, and should have 1"),
    ("printf 'o curve\\nk 1\\nb 0 0 1 0\\ns 1 0 1 10\\nb 1 10 1 4\\nend\\n'", errors.BadAnswer, "lines|argument|zip"),
    ("printf '\\377'", errors.BadAnswer, "no text"), ("echo o at; echo end", errors.BadAnswer, "o curve"),
])
def test_a_program_that_does_not_answer(fake, body, kind, said):
    raised(lambda: ppart.curve(ppart.read(TEXT), program=fake(body)), kind, said)


def test_a_program_that_takes_too_long(fake):
    slow = fake("exec sleep 20")
    raised(lambda: ppart.curve(ppart.read(TEXT), program=slow, timeout=0.2), errors.TooSlow, "within 0.2 seconds.*timeout=")
    raised(lambda: ppart.strength(ppart.Graph([("a", "b")]), program=slow, timeout=0.1), errors.TooSlow, "within 0.1 seconds")


def test_a_program_that_reads_nothing(fake):
    """It closes its end of the pipe while the text is on its way, and answers all the same."""
    assert program.run([], "x" * 10**6, fake("exec 0<&-; echo o curve; sleep 0.1")) == "o curve\n"


def test_no_program(monkeypatch, tmp_path):
    monkeypatch.delenv("PPART", raising=False)
    monkeypatch.setenv("PATH", str(tmp_path))
    monkeypatch.setattr(program, "BUILT", tmp_path / "out")
    monkeypatch.setattr(program, "LAUNCHER", tmp_path / "launcher")
    raised(program.find, errors.NotFound, "PPART or with program=")
    (tmp_path / "launcher").write_text("")
    raised(program.find, errors.NotBuilt, "not built yet; run ./ppart once", str(tmp_path / "launcher"))
    (tmp_path / "out").write_text("")
    assert program.find() == str(tmp_path / "out")
    (tmp_path / "ppart").write_text("#!/bin/sh\n")
    (tmp_path / "ppart").chmod(0o755)
    assert program.find() == str(tmp_path / "ppart")
    monkeypatch.setenv("PPART", "elsewhere")
    assert program.find() == "elsewhere" and program.find("here") == "here"
    raised(lambda: program.run(["curve"], TEXT, tmp_path / "nothing"), errors.NotFound, "cannot be run: No such file")
    raised(lambda: program.run(["curve"], TEXT, tmp_path / "out"), errors.NotFound, "cannot be run: Permission")


@pytest.mark.program
def test_refusals():
    for change, line, cause in ((("0 1\na 2", "9 -1\na 2"), 5, "rule monotone"), (("a 1", "b 1"), 5, "syntax"),
                                (("3 2", "3 1"), 6, "count"), (("10 1", "10 0"), 2, "range"),
                                (("par", "graph"), 1, "wrong kind"), (("end\n", ""), None, "no end")):
        text = TEXT.replace(*change, 1)
        refused = raised(lambda: program.run(["curve"], text), errors.Refused, cause)
        assert (refused.line, refused.cause) == (line, cause)
        assert refused.source == ("" if line is None else text.splitlines()[line - 1])
        said = explain.explain(["curve"], refused)
        assert cause in said and explain.CAUSES[cause] in said
        assert ("expected:" in said) == (cause in ("syntax", "range", "wrong kind"))
    said = explain.explain(["check", "share"], errors.Refused("range", 3, "w 1 0"))
    assert "w NODE WEIGHT" in said and "a TAIL" not in said
    said = explain.explain(["densest"], errors.Refused("syntax", 3, "x 1 0"))
    assert all(f"expected: {form}" in said for form in [*explain.FORMS["graph"].values(), "end"])
    raised(lambda: program.run(["at", "11/1"], TEXT), errors.Refused, "outside")
    fine = TEXT.replace("0 1 10 1", "1 999999 10 999983")
    raised(lambda: program.run(["sweep", "100000"], fine), errors.Refused, "too fine")
    raised(lambda: program.run(["at", "4"], TEXT), errors.Usage, "words: at 4")


@pytest.mark.program
def test_check():
    network = ppart.read((EXAMPLES / "three-nodes.par").read_text())
    curve = ppart.curve(network)
    assert curve.check()
    changed = curve.raw.replace("f 2 4 4", "f 2 4 3")
    assert not ppart.read_answer("curve", network, changed).check()
    assert repr(ppart.at(network, 5)).startswith("LeastCut(x=Fraction(5, 1), value=Fraction(4, 1), slope=Fraction(0, 1)")
