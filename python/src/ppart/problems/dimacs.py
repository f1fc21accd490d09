"""DIMACS texts of maximum flow (`max`) and of minimum-cost flow (`min`), as arcs with ends."""
from __future__ import annotations

from collections.abc import Mapping
from typing import Any, NamedTuple

from ppart.errors import Unreadable
from ppart.numbers import Number
from ppart.problems.names import Name
from ppart.problems.well_formed import well_formed
from ppart.texts import Lines, whole


class DimacsNetwork(NamedTuple):
    """Arcs (tail, head, capacity, slope), source and sink, and all nodes."""
    arcs: list[tuple[Any, ...]]
    source: Name
    sink: Name
    nodes: list[Name]


def read_dimacs(text: str, slopes: Mapping[int, Number]) -> DimacsNetwork:
    """What stands in a DIMACS `max` or `min` text; nodes keep their numbers as names.

    `slopes` are those of arcs by their numbers from 1 (`max`), or of supplies and demands by their nodes (`min`).

    >>> read_dimacs("p max 2 1\\nn 1 s\\nn 2 t\\na 1 2 5\\n", {1: "0.5"})
    DimacsNetwork(arcs=[(1, 2, 5, '0.5')], source=1, sink=2, nodes=[1, 2])
    """
    with well_formed("the DIMACS text"):
        lines = Lines(text)
        kind = lines.first[1]
        nodes: list[Name] = list(range(1, whole(lines.first[2]) + 1))
        lines.counted("a", whole(lines.first[3]))
        if kind == "max":
            return maximum_flow(lines, nodes, slopes)
        if kind == "min":
            return minimum_cost(lines, nodes, slopes)
        raise Unreadable(f"the DIMACS text is of the kind {kind}, neither max nor min", kind)


def maximum_flow(lines: Lines, nodes: list[Name], slopes: Mapping[int, Number]) -> DimacsNetwork:
    """A `max` text, with slopes by the numbers of arcs."""
    ends = {which: whole(node) for node, which in lines.all("n")}
    arcs: list[tuple[Any, ...]] = []
    for number, (tail, head, capacity) in enumerate(lines.numbers("a", 3), 1):
        arcs.append((tail, head, capacity, slopes.get(number, 0)))
    return DimacsNetwork(arcs, ends["s"], ends["t"], nodes)


def minimum_cost(lines: Lines, nodes: list[Name], slopes: Mapping[int, Number]) -> DimacsNetwork:
    """A `min` text: supplies become arcs out of a node "source", demands arcs into a node "sink"."""
    arcs: list[tuple[Any, ...]] = []
    for tail, head, least, capacity, _ in lines.numbers("a", 5):
        if least != 0:
            raise Unreadable(f"the arc {tail} -> {head} has the lower bound {least}, which the program does not know")
        arcs.append((tail, head, capacity, 0))
    for node, supply in lines.numbers("n", 2):
        slope = slopes.get(node, 0)
        arcs.append(("source", node, supply, slope) if supply > 0 else (node, "sink", -supply, slope))
    return DimacsNetwork(arcs, "source", "sink", [*nodes, "source", "sink"])
