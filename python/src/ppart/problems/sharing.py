"""Sources that share a network."""
from __future__ import annotations

from collections.abc import Iterable, Mapping
from typing import Any

from ppart.errors import SameEnds
from ppart.numbers import Number
from ppart.problems.csv_files import File, read_numbers, read_rows
from ppart.problems.elements import make_arc
from ppart.problems.graphs_of_networkx import attribute, edges_with, must_be_directed
from ppart.problems.names import Name, limit, must_know, numbered
from ppart.problems.scaling import BILLION, MILLION, exact_values, scale_of
from ppart.texts import write


class Sharing:
    """Sources with weights that push through arcs (tail, head, capacity) into a sink.

    There are 2 to 1000 nodes and at most 10000 arcs; nodes without arcs are given by `nodes`. `weight` is by source,
    `number` has the number of each node in the text. Capacities are in units of 1/`scale` there, weights in units of
    1/`weight_scale`. Raises errors below `Unfit`, which tell the arc or the name.

    >>> Sharing([("a", "t", "1.5")], "t", {"a": 2}).scale
    Fraction(2, 1)
    """
    kind = "share"

    def __init__(self, arcs: Iterable[tuple[Any, ...]], sink: Name, weights: Mapping[Name, Number],
                 nodes: Iterable[Name] = ()) -> None:
        self.arcs = [make_arc(*row) for row in arcs]
        self.sink = sink
        ends = [end for arc in self.arcs for end in (arc.tail, arc.head)]
        self.number = numbered([*nodes, *ends], 2, 1000, "nodes")
        for source in weights:
            must_know(self.number, source, "a source")
        must_know(self.number, sink, "the sink")
        if sink in weights:
            raise SameEnds(f"{sink} is the sink and has a weight, as sources have", sink)
        limit(len(self.arcs), 0, 10000, "arcs")
        self.scale = scale_of("capacity", [(arc, arc.capacity) for arc in self.arcs], 0, BILLION)
        self.weight = exact_values("weight", weights)
        self.weight_scale = scale_of("weight", self.weight.items(), 1, MILLION)

    def text(self) -> str:
        """The problem as the program reads it."""
        return write([
            ("p share", len(self.number), len(self.arcs)),
            ("n", self.number[self.sink], "t"),
            *(("w", self.number[source], weight * self.weight_scale) for source, weight in self.weight.items()),
            *(("a", self.number[arc.tail], self.number[arc.head], arc.capacity * self.scale) for arc in self.arcs)])

    @classmethod
    def from_networkx(cls, graph: Any, sink: Name, weights: Mapping[Name, Number],
                      capacity: str = "capacity") -> Sharing:
        """From a directed graph or multigraph, each of whose edges has a capacity."""
        must_be_directed(graph)
        arcs = [(tail, head, attribute(data, capacity, f"{tail} -> {head}")) for tail, head, data in edges_with(graph)]
        return cls(arcs, sink, weights, graph.nodes)

    @classmethod
    def from_csv(cls, file: File, sink: Name, weights: File) -> Sharing:
        """From rows `tail,head,capacity`, and rows `source,weight`."""
        arcs = [(tail, head, capacity) for tail, head, capacity in read_rows(file, 3, 2)]
        return cls(arcs, sink, read_numbers(weights))
