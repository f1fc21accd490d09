"""Answers about graphs: the densest set, the strength, reinforcements, spanning trees and layers."""
from __future__ import annotations

from fractions import Fraction
from typing import NamedTuple

from ppart.answers.answer import Answer
from ppart.problems import Closure, Edge, Graph, Name
from ppart.problems.names import chosen, parts_of
from ppart.texts import Lines, fraction, whole


class DensestSet(Answer[Graph]):
    """The greatest `density`, weight inside for each unit of cost, and the greatest set that has it: `vertices`."""
    command = "densest"
    checked = True

    density: Fraction
    vertices: frozenset[Name]

    def read(self, lines: Lines) -> None:
        """Reads the lines d and s."""
        self.density = fraction(lines.one("d")) * self.problem.cost_scale / self.problem.scale
        self.vertices = chosen(self.problem.number, lines.one("s")[0])


class Strength(Answer[Graph]):
    """The weakest place of a graph.

    `strength` is the least weight for each further piece, `parts` a partition that has it, `crossing` the edges between
    its parts.
    """
    command = "strength"
    checked = True

    strength: Fraction
    parts: list[list[Name]]
    crossing: list[Edge]

    def read(self, lines: Lines) -> None:
        """Reads the lines d and s."""
        self.strength = fraction(lines.one("d")) / self.problem.scale
        self.parts = parts_of(self.problem.number, lines.one("s"))
        self.crossing = self.problem.crossing(self.parts)


class Reinforcement(Answer[Graph]):
    """What to add to each edge so that the strength is at least the level, at the least cost.

    `added` is in the order of `problem.edges`, in units of weight; `cost` is price times what is added, in all. If the
    graph is not connected it is not `possible`: then `added` is empty, `cost` is 0, and `components` are its pieces.
    """
    command = "reinforce"

    possible: bool
    added: list[Fraction]
    cost: Fraction
    components: list[list[Name]]

    def read(self, lines: Lines) -> None:
        """Reads the lines d, x and c, or `none` and s."""
        graph = self.problem
        self.possible = not lines.all("none")
        self.added = []
        self.cost = Fraction(0)
        self.components = []
        if not self.possible:
            self.components = parts_of(graph.number, lines.one("s"))
            return
        unit = graph.scale * whole(lines.one("d")[1])
        self.added = [whole(more) / unit for _, more in zip(graph.edges, lines.one("x"), strict=True)]
        self.cost = whole(lines.one("c")[0]) / (unit * graph.price_scale)


class SpanningTrees(Answer[Graph]):
    """Spanning `trees` without a common edge, each a list of edges.

    If they are not `possible`, `trees` is empty, and `parts` is a partition that fewer edges cross than so many trees
    need: the number of trees for each part but one. Else `parts` is empty.
    """
    command = "trees"

    possible: bool
    trees: list[list[Edge]]
    parts: list[list[Name]]

    def read(self, lines: Lines) -> None:
        """Reads the lines k and m, or `none` and s."""
        self.possible = not lines.all("none")
        self.trees = []
        self.parts = []
        if not self.possible:
            self.parts = parts_of(self.problem.number, lines.one("s"))
            return
        tree_of = [whole(field) for field in lines.one("m")]
        for tree in range(1, lines.count() + 1):
            edges = zip(self.problem.edges, tree_of, strict=True)
            self.trees.append([edge for edge, number in edges if number == tree])


class Layer(NamedTuple):
    """A layer, and its level: weight for each unit of cost (vertices), or cost for each unit of weight (items)."""
    level: Fraction
    names: list[Name]


class LayerList(Answer[Graph | Closure]):
    """The best set, then the best of what it leaves, and so on: `layers`."""
    command = "layers"

    layers: list[Layer]

    def read(self, lines: Lines) -> None:
        """Reads the lines k, l and m."""
        problem = self.problem
        if isinstance(problem, Graph):
            unit = problem.cost_scale / problem.scale
        else:
            unit = problem.weight_scale / problem.cost_scale
        layer_of = dict(zip(problem.number, lines.one("m"), strict=True))
        self.layers = []
        for number, p, q in lines.counted("l", lines.count()):
            names = [name for name, layer in layer_of.items() if layer == number]
            self.layers.append(Layer(fraction([p, q]) * unit, names))
