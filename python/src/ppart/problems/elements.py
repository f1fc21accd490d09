"""Arcs of networks and edges of graphs."""
from __future__ import annotations

from collections.abc import Iterable
from fractions import Fraction
from typing import NamedTuple

from ppart.numbers import Number, exact
from ppart.problems.names import Name


class Arc(NamedTuple):
    """An arc from `tail` to `head`, of the capacity `capacity + slope * x` at the parameter x."""
    tail: Name
    head: Name
    capacity: Fraction
    slope: Fraction

    def at(self, x: Fraction) -> Fraction:
        """The capacity at this parameter."""
        return self.capacity + self.slope * x if self.slope else self.capacity

    def __str__(self) -> str:
        return f"{self.tail} -> {self.head}"


class Edge(NamedTuple):
    """An edge with a weight, and the price of a unit more of it."""
    first: Name
    second: Name
    weight: Fraction
    price: Fraction

    def __str__(self) -> str:
        return f"{self.first} - {self.second}"


def make_arc(tail: Name, head: Name, capacity: Number, slope: Number = 0) -> Arc:
    """The arc of these numbers. Raises NotExact.

    >>> str(make_arc("a", "b", "0.5")), make_arc("a", "b", "0.5").capacity
    ('a -> b', Fraction(1, 2))
    """
    where = f"{tail} -> {head}"
    return Arc(tail, head, exact(capacity, f"the capacity of {where}"), exact(slope, f"the slope of {where}"))


def make_edge(first: Name, second: Name, weight: Number = 1, price: Number = 1) -> Edge:
    """The edge of these numbers. Raises NotExact."""
    where = f"{first} - {second}"
    return Edge(first, second, exact(weight, f"the weight of {where}"), exact(price, f"the price of {where}"))


def leaving(arcs: Iterable[Arc], cut: frozenset[Name]) -> list[Arc]:
    """The arcs that lead from a node of the cut to one outside."""
    return [arc for arc in arcs if arc.tail in cut and arc.head not in cut]
