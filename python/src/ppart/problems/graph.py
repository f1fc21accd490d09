"""Graphs whose edges have weights and prices, and whose vertices have costs."""
from __future__ import annotations

from collections.abc import Iterable, Mapping
from typing import Any

from ppart.errors import SameEnds
from ppart.numbers import Number
from ppart.problems.csv_files import File, read_numbers, read_rows
from ppart.problems.elements import Edge, make_edge
from ppart.problems.graphs_of_networkx import edges_with, must_be_undirected
from ppart.problems.names import Name, limit, must_know, numbered
from ppart.problems.scaling import MILLION, exact_values, scale_of
from ppart.texts import write


class Graph:
    """Edges (u, v), (u, v, weight) or (u, v, weight, price), and vertices with costs; what is not given is 1.

    `densest` and `layers` take 1 to 500 vertices and at most 5000 edges, the other commands 2 to 100 and 500. Vertices
    without edges are given by `vertices`. `cost` is by vertex, `number` has the number of each vertex in the text.
    There weights are in units of 1/`scale`, prices of 1/`price_scale`, costs of 1/`cost_scale`. Raises errors below
    `Unfit`, which tell the edge or the name.

    >>> graph = Graph([("a", "b", "0.5"), ("b", "c")], costs={"c": 2})
    >>> graph.scale, graph.cost["a"], graph.cost["c"]
    (Fraction(2, 1), Fraction(1, 1), Fraction(2, 1))
    """
    kind = "graph"

    def __init__(self, edges: Iterable[tuple[Any, ...]], costs: Mapping[Name, Number] | None = None,
                 vertices: Iterable[Name] = ()) -> None:
        given = costs or {}
        self.edges = [make_edge(*row) for row in edges]
        ends = [end for edge in self.edges for end in (edge.first, edge.second)]
        self.number = numbered([*vertices, *ends], 1, 500, "vertices")
        for vertex in given:
            must_know(self.number, vertex, "a vertex with a cost")
        for edge in self.edges:
            if edge.first == edge.second:
                raise SameEnds(f"the edge {edge} joins a vertex to itself", edge)
        limit(len(self.edges), 0, 5000, "edges")
        self.cost = exact_values("cost", {vertex: given.get(vertex, 1) for vertex in self.number})
        self.cost_scale = scale_of("cost", self.cost.items(), 1, MILLION)
        self.scale = scale_of("weight", [(edge, edge.weight) for edge in self.edges], 1, MILLION)
        self.price_scale = scale_of("price", [(edge, edge.price) for edge in self.edges], 1, MILLION)

    def text(self) -> str:
        """The problem as the program reads it. Costs and prices of 1 are not written."""
        costs = [("v", self.number[vertex], cost * self.cost_scale) for vertex, cost in self.cost.items()]
        prices = [("k", number, edge.price * self.price_scale) for number, edge in enumerate(self.edges, 1)]
        edges = [("e", self.number[edge.first], self.number[edge.second], edge.weight * self.scale)
                 for edge in self.edges]
        return write([
            ("p graph", len(self.number), len(self.edges)),
            *(row for row in costs if row[2] != 1),
            *(row for row in prices if row[2] != 1),
            *edges])

    def crossing(self, parts: Iterable[Iterable[Name]]) -> list[Edge]:
        """The edges between different parts.

        >>> graph = Graph([("a", "b"), ("b", "c")])
        >>> [str(edge) for edge in graph.crossing([["a", "b"], ["c"]])]
        ['b - c']
        """
        part = {name: number for number, names in enumerate(parts) for name in names}
        return [edge for edge in self.edges if part[edge.first] != part[edge.second]]

    @classmethod
    def from_networkx(cls, graph: Any, weight: str = "weight", price: str = "price", cost: str = "cost") -> Graph:
        """From an undirected graph or multigraph; a missing weight, price or cost is 1."""
        must_be_undirected(graph)
        edges = [(first, second, data.get(weight, 1), data.get(price, 1)) for first, second, data in edges_with(graph)]
        costs = {vertex: data[cost] for vertex, data in graph.nodes(data=True) if cost in data}
        return cls(edges, costs, graph.nodes)

    @classmethod
    def from_csv(cls, file: File, costs: File | None = None) -> Graph:
        """From rows `vertex,vertex[,weight[,price]]`, and rows `vertex,cost` for those whose cost is not 1."""
        edges = [(first, second, weight or "1", price or "1") for first, second, weight, price in read_rows(file, 4, 2)]
        return cls(edges, read_numbers(costs) if costs else None)
