"""Answers as tables with names."""
from __future__ import annotations

from collections.abc import Callable, Iterable
from fractions import Fraction
from typing import Any, NamedTuple

from ppart import answers
from ppart.numbers import show, show_line
from ppart.problems import Name
from ppart.problems.elements import leaving


class Table(NamedTuple):
    """A heading, and rows of as many words."""
    heading: list[str]
    rows: list[list[str]]

    def __str__(self) -> str:
        """The table with columns two blanks apart."""
        lines = [self.heading, *self.rows]
        widths = [max(len(field) for field in column) for column in zip(*lines)]
        padded = [[field.ljust(width) for field, width in zip(line, widths)] for line in lines]
        return "\n".join("  ".join(fields).rstrip() for fields in padded)


def names(members: Iterable[object]) -> str:
    """Names in the order of the alphabet.

    >>> names({"saw", "bench"})
    'bench, saw'
    """
    return ", ".join(sorted(str(member) for member in members)) or "nothing"


def parts(partition: Iterable[Iterable[Name]]) -> str:
    """The parts of a partition.

    >>> parts([["b", "a"], ["c"]])
    'a, b | c'
    """
    return " | ".join(names(part) for part in partition)


def curve(answer: answers.Curve) -> Table:
    """A row for each piece."""
    rows = []
    for piece in answer.pieces:
        bottleneck = names(leaving(answer.problem.arcs, piece.cut))
        rows.append([show(piece.low), show(piece.high), show_line(piece.constant, piece.slope), bottleneck])
    return Table(["from", "to", "least cut", "bottleneck"], rows)


def at(answer: answers.LeastCut) -> Table:
    """One row."""
    return Table(["at", "least cut", "bottleneck"], [[show(answer.x), show(answer.value), names(answer.bottleneck)]])


def sweep(answer: answers.Sweep) -> Table:
    """A row for each parameter."""
    rows = [[show(row.x), show(row.value), str(row.nodes)] for row in answer.rows]
    return Table(["at", "least cut", "nodes"], rows)


def closure(answer: answers.CheapestClosure) -> Table:
    """One row."""
    return Table(["ratio", "items"], [[show(answer.ratio), names(answer.items)]])


def select(answer: answers.Schedule) -> Table:
    """A row for each selection, with the lowest of its prices."""
    rows = []
    for price, selection in zip([Fraction(0), *answer.prices], answer.selections):
        rows.append([show(price), names(selection), names(answer.problem.gained(selection))])
    return Table(["from price", "parts", "gained"], rows)


def share(answer: answers.FairShares) -> Table:
    """A row for each source, by rising levels."""
    rows = []
    for level, group in zip(answer.levels, answer.groups):
        rows += [[str(source), show(answer.shares[source]), show(level)] for source in group]
    return Table(["source", "share", "level"], rows)


def densest(answer: answers.DensestSet) -> Table:
    """One row."""
    return Table(["density", "vertices"], [[show(answer.density), names(answer.vertices)]])


def strength(answer: answers.Strength) -> Table:
    """One row."""
    return Table(["strength", "parts"], [[show(answer.strength), parts(answer.parts)]])


def partition(answer: answers.PrincipalPartition) -> Table:
    """A row for each partition, with the lowest of its levels."""
    levels = [Fraction(0), *answer.levels]
    rows = [[show(level), parts(found)] for level, found in zip(levels, answer.partitions)]
    return Table(["from level", "parts"], rows)


def reinforce(answer: answers.Reinforcement) -> Table:
    """A row for each edge that gets more, and the cost; or the pieces of a graph that is not connected."""
    heading = ["edge", "more"]
    if not answer.possible:
        return Table(heading, [["not connected", parts(answer.components)]])
    rows = [[str(edge), show(more)] for edge, more in zip(answer.problem.edges, answer.added) if more]
    return Table(heading, [*rows, ["cost", show(answer.cost)]])


def trees(answer: answers.SpanningTrees) -> Table:
    """A row for each tree, or the parts between which there are too few edges."""
    heading = ["tree", "edges"]
    if not answer.possible:
        return Table(heading, [["none: too few between", parts(answer.parts)]])
    return Table(heading, [[str(number), names(tree)] for number, tree in enumerate(answer.trees, 1)])


def layers(answer: answers.LayerList) -> Table:
    """A row for each layer."""
    return Table(["level", "layer"], [[show(layer.level), names(layer.names)] for layer in answer.layers])


TABLES: dict[type[answers.Answer[Any]], Callable[[Any], Table]] = {
    answers.LeastCut: at,
    answers.Curve: curve,
    answers.Sweep: sweep,
    answers.CheapestClosure: closure,
    answers.Schedule: select,
    answers.FairShares: share,
    answers.DensestSet: densest,
    answers.Strength: strength,
    answers.PrincipalPartition: partition,
    answers.Reinforcement: reinforce,
    answers.SpanningTrees: trees,
    answers.LayerList: layers,
}


def table(answer: answers.Answer[Any]) -> Table:
    """The table of an answer."""
    return TABLES[type(answer)](answer)
