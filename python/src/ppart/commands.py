"""The twelve commands of the program: a function for each, from a problem to its answer.

All of them take `program`, the path of the program (else it is what `ppart.program.find` finds), and `timeout`, the
seconds after which it is stopped. All raise errors below `ppart.errors.Unfit`, or WrongKind, for what the program does
not take, before it is called, and errors below `ppart.errors.Failure` where it gives no answer.
"""
from __future__ import annotations

from ppart.answers import (CheapestClosure, Curve, DensestSet, FairShares, LayerList, LeastCut, PrincipalPartition,
                           Reinforcement, Schedule, SpanningTrees, Strength, Sweep)
from ppart.numbers import Number
from ppart.problems import Closure, Graph, Network, Selection, Sharing
from ppart.program import Program, run
from ppart.words import words_for


def curve(network: Network, *, program: Program | None = None, timeout: float | None = None) -> Curve:
    """The least capacity of a cut at every parameter of the network's interval: breakpoints, cuts and flows.

    Values are in units of capacity, parameters in those of the interval. `flow(j)` of the answer is in the order of
    `network.arcs`. The answer can be checked.

    >>> network = Network([("spring", "tank", 0, "0.3"), ("tank", "house", "1.2")], "spring", "house", 0, "12.5")
    >>> found = curve(network)
    >>> found.breakpoints, found.value("0.5"), [str(arc) for arc in found.bottleneck(9)], found.check()
    ([Fraction(4, 1)], Fraction(3, 20), ['tank -> house'], True)
    """
    words = words_for("curve", network)
    return Curve(network, words, run(words, network.text(), program, timeout))


def at(network: Network, x: Number, *, program: Program | None = None, timeout: float | None = None) -> LeastCut:
    """The smallest least cut and a greatest flow at the parameter x.

    Values and flows are in units of capacity, `flow` in the order of `network.arcs`. A parameter outside the network's
    interval is OutOfRange.

    >>> network = Network([("spring", "tank", 0, "0.3"), ("tank", "house", "1.2")], "spring", "house", 0, "12.5")
    >>> found = at(network, "2.5")
    >>> found.value, found.slope, sorted(found.cut)
    (Fraction(3, 4), Fraction(3, 10), ['spring'])
    """
    words = words_for("at", network, x)
    return LeastCut(network, words, run(words, network.text(), program, timeout))


def sweep(network: Network, steps: Number, *, program: Program | None = None, timeout: float | None = None) -> Sweep:
    """The least capacity of a cut at the ends of `steps` equal steps through the interval, 1 to 100000 of them.

    Values are in units of capacity. Another number of steps is OutOfRange, and so are steps that are too fine: the
    product of their number and of the denominators of the interval is at most 2^40.

    >>> network = Network([("spring", "tank", 0, "0.3"), ("tank", "house", "1.2")], "spring", "house", 0, 10)
    >>> [(str(row.x), str(row.value), row.nodes) for row in sweep(network, 2).rows]
    [('0', '0', 1), ('5', '6/5', 2), ('10', '6/5', 2)]
    """
    words = words_for("sweep", network, steps)
    return Sweep(network, words, run(words, network.text(), program, timeout))


def closure(items: Closure, *, program: Program | None = None, timeout: float | None = None) -> CheapestClosure:
    """Among items that need one another, the closure of the least cost for each unit of weight.

    A closure is a set that holds, with each item, all that it needs. If several have the least ratio, it is the one
    that contains all of them. The ratio is in units of cost for each unit of weight. The answer can be checked.

    >>> found = closure(Closure({"saw": (60, 2), "bench": (20, 30)}, {"bench": ["saw"]}))
    >>> found.ratio, sorted(found.items), found.check()
    (Fraction(5, 2), ['bench', 'saw'], True)
    """
    words = words_for("closure", items)
    return CheapestClosure(items, words, run(words, items.text(), program, timeout))


def select(selection: Selection, *, program: Program | None = None, timeout: float | None = None) -> Schedule:
    """Which parts are worth buying, at every price of a unit of cost.

    A selection is worth the gains of the products whose parts it holds, less price times cost. Prices are in units of
    gain for each unit of cost, worths in units of gain. If several selections are best, it is the greatest, and at the
    price 0 the smallest. The answer can be checked.

    >>> needs = {"routes": ["maps"], "talk": ["chat"]}
    >>> found = select(Selection({"maps": 2, "chat": 4}, {"routes": "3.5", "talk": 1}, needs))
    >>> [str(price) for price in found.prices], sorted(found.at(1)), found.worth(1), found.check()
    (['1/4', '7/4'], ['maps'], Fraction(3, 2), True)
    """
    words = words_for("select", selection)
    return Schedule(selection, words, run(words, selection.text(), program, timeout))


def share(sharing: Sharing, *, program: Program | None = None, timeout: float | None = None) -> FairShares:
    """How much each source may push into the sink, shared fairly by weight.

    All levels, share for each unit of weight, rise together; whoever is held back by the network stays, and the others
    rise further. Shares are in units of capacity, levels in units of capacity for each unit of weight. The answer can
    be checked.

    >>> found = share(Sharing([("a", "t", "1.5"), ("b", "t", 5)], "t", {"a": 1, "b": 2}))
    >>> found.shares["a"], found.levels, found.groups, found.check()
    (Fraction(3, 2), [Fraction(3, 2), Fraction(5, 2)], [['a'], ['b']], True)
    """
    words = words_for("share", sharing)
    return FairShares(sharing, words, run(words, sharing.text(), program, timeout))


def densest(graph: Graph, *, program: Program | None = None, timeout: float | None = None) -> DensestSet:
    """The densest set of vertices of a graph: the greatest weight of the edges inside for each unit of cost.

    If several are densest, it is the one that contains all of them. The density is in units of weight for each unit of
    cost. The answer can be checked.

    >>> found = densest(Graph([("a", "b"), ("b", "c"), ("a", "c"), ("c", "d")]))
    >>> found.density, sorted(found.vertices), found.check()
    (Fraction(1, 1), ['a', 'b', 'c', 'd'], True)
    """
    words = words_for("densest", graph)
    return DensestSet(graph, words, run(words, graph.text(), program, timeout))


def strength(graph: Graph, *, program: Program | None = None, timeout: float | None = None) -> Strength:
    """The weakest place of a graph of 2 to 100 vertices: the least weight of an attack for each further piece.

    The strength is in units of weight. The answer, a partition whose crossing edges the attack takes away, can be
    checked.

    >>> found = strength(Graph([("a", "b", 3), ("b", "c", 3), ("a", "c", 3), ("c", "d", "0.5")]))
    >>> found.strength, found.parts, [str(edge) for edge in found.crossing], found.check()
    (Fraction(1, 2), [['a', 'b', 'c'], ['d']], ['c - d'], True)
    """
    words = words_for("strength", graph)
    return Strength(graph, words, run(words, graph.text(), program, timeout))


def partition(graph: Graph, *, program: Program | None = None, timeout: float | None = None) -> PrincipalPartition:
    """The order in which a graph of 2 to 100 vertices falls apart as the price of a cut falls.

    At each level the best partition has the least weight across, less the level for each part but one. Levels are in
    units of weight. The answer can be checked.

    >>> found = partition(Graph([("a", "b", 3), ("b", "c", 3), ("a", "c", 3), ("c", "d", "0.5")]))
    >>> found.levels, found.at(1), found.check()
    ([Fraction(1, 2), Fraction(9, 2)], [['a', 'b', 'c'], ['d']], True)
    """
    words = words_for("partition", graph)
    return PrincipalPartition(graph, words, run(words, graph.text(), program, timeout))


def reinforce(graph: Graph, level: Number, *, program: Program | None = None,
              timeout: float | None = None) -> Reinforcement:
    """What to add to the edges of a graph of 2 to 100 vertices so that its strength is at least the level.

    The level and what is added are in units of weight, `added` in the order of `graph.edges`; prices are for a unit of
    weight, and nothing else that reaches the level costs less. A level below 0 is OutOfRange.

    >>> found = reinforce(Graph([("a", "b", 1, 2), ("b", "c", 3)]), "2.5")
    >>> found.added, found.cost
    ([Fraction(3, 2), Fraction(0, 1)], Fraction(3, 1))
    """
    words = words_for("reinforce", graph, level)
    return Reinforcement(graph, words, run(words, graph.text(), program, timeout))


def trees(graph: Graph, count: Number, *, program: Program | None = None,
          timeout: float | None = None) -> SpanningTrees:
    """So many spanning trees of a graph of 2 to 100 vertices that share no edge, or a partition that forbids them.

    `count` is 1 to 500, or OutOfRange. Weights do not matter: each edge counts once.

    >>> found = trees(Graph([("a", "b"), ("b", "c"), ("a", "c")]), 1)
    >>> found.possible, len(found.trees[0])
    (True, 2)
    >>> trees(Graph([("a", "b"), ("b", "c"), ("a", "c")]), 2).parts
    [['a'], ['b'], ['c']]
    """
    words = words_for("trees", graph, count)
    return SpanningTrees(graph, words, run(words, graph.text(), program, timeout))


def layers(problem: Graph | Closure, *, program: Program | None = None, timeout: float | None = None) -> LayerList:
    """The best set, then the best of what it leaves, and so on.

    Of a graph: each layer brings, beside the layers before it, the most weight for its cost. Of items: each makes a
    closure with the layers before it, and has the least cost for its weight. Levels are in units of weight for each
    unit of cost, or the other way round.

    >>> graph = Graph([("a", "b", 3), ("b", "c", 3), ("a", "c", 3), ("c", "d")])
    >>> [(str(layer.level), layer.names) for layer in layers(graph).layers]
    [('3', ['a', 'b', 'c']), ('1', ['d'])]
    """
    words = words_for("layers", problem)
    return LayerList(problem, words, run(words, problem.text(), program, timeout))
