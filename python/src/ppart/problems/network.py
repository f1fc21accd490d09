"""Networks whose capacities depend on a parameter."""
from __future__ import annotations

from collections.abc import Iterable, Mapping
from fractions import Fraction
from typing import Any

from ppart.errors import InnerSlope, MixedSlopes, OutOfRange, SameEnds
from ppart.numbers import Number, brief, exact
from ppart.problems.csv_files import File, read_rows
from ppart.problems.dimacs import read_dimacs
from ppart.problems.elements import Arc, make_arc
from ppart.problems.graphs_of_networkx import attribute, edges_with, must_be_directed
from ppart.problems.names import Name, limit, must_know, numbered
from ppart.problems.scaling import BILLION, scale_of
from ppart.texts import write


class Network:
    """A network whose capacities depend on a parameter x from `low` to `high`.

    Arcs are (tail, head, capacity) or (tail, head, capacity, slope), parallel ones too; nodes without arcs are given by
    `nodes`. There are 2 to 1000 nodes and at most 10000 arcs. Only arcs out of the source and into the sink have
    slopes: with x the former rise and the latter fall, or the other way round, and then the network is `falling`.

    `number` has the number of each node in the text, from 1. Capacities and slopes are in units of 1/`scale` there.
    Raises errors below `Unfit`, which tell the arc or the name.

    >>> network = Network([("a", "b", 0, "0.5"), ("b", "c", 4)], "a", "c", low=0, high=10)
    >>> network.falling, network.scale
    (False, Fraction(2, 1))
    """
    kind = "par"

    def __init__(self, arcs: Iterable[tuple[Any, ...]], source: Name, sink: Name, low: Number, high: Number,
                 nodes: Iterable[Name] = ()) -> None:
        self.arcs = [make_arc(*row) for row in arcs]
        self.source = source
        self.sink = sink
        self.low = exact(low, "the low end")
        self.high = exact(high, "the high end")
        if source == sink:
            raise SameEnds(f"source and sink are the same node, {source}", source)
        ends = [end for arc in self.arcs for end in (arc.tail, arc.head)]
        self.number = numbered([*nodes, *ends], 2, 1000, "nodes")
        must_know(self.number, source, "the source")
        must_know(self.number, sink, "the sink")
        limit(len(self.arcs), 0, 10000, "arcs")
        numbers = [(arc, value) for arc in self.arcs for value in (arc.capacity, arc.slope)]
        self.scale = scale_of("capacity or slope", numbers, -BILLION, BILLION)
        self.falling = is_falling(self.arcs, source, sink)
        check_interval(self.low, self.high)
        for arc in self.arcs:
            check_capacity(arc, self.low)
            check_capacity(arc, self.high)

    def text(self) -> str:
        """The problem as the program reads it."""
        return write([
            ("p par", len(self.number), len(self.arcs)),
            ("i", self.low.numerator, self.low.denominator, self.high.numerator, self.high.denominator),
            *([("d falling",)] if self.falling else []),
            ("n", self.number[self.source], "s"),
            ("n", self.number[self.sink], "t"),
            *(("a", self.number[arc.tail], self.number[arc.head], arc.capacity * self.scale, arc.slope * self.scale)
              for arc in self.arcs)])

    @classmethod
    def from_networkx(cls, graph: Any, source: Name, sink: Name, low: Number, high: Number,
                      capacity: str = "capacity", slope: str = "slope") -> Network:
        """From a directed graph or multigraph; each edge has a capacity, and one without a slope has the slope 0."""
        must_be_directed(graph)
        arcs = [(tail, head, attribute(data, capacity, f"{tail} -> {head}"), data.get(slope, 0))
                for tail, head, data in edges_with(graph)]
        return cls(arcs, source, sink, low, high, graph.nodes)

    @classmethod
    def from_csv(cls, file: File, source: Name, sink: Name, low: Number, high: Number) -> Network:
        """From rows `tail,head,capacity[,slope]`."""
        arcs = [(tail, head, capacity, slope or "0") for tail, head, capacity, slope in read_rows(file, 4, 2)]
        return cls(arcs, source, sink, low, high)

    @classmethod
    def from_dimacs(cls, text: str, low: Number = 0, high: Number = 1,
                    slopes: Mapping[int, Number] | None = None) -> Network:
        """From a DIMACS `max` or `min` text; nodes keep their numbers as names.

        In a `min` text each supply becomes an arc out of a new node "source", and each demand one into a new node
        "sink"; lower bounds are Unreadable, and costs are passed over. `slopes` gives slopes to arcs by their numbers
        from 1 (`max`), or to supplies and demands by their nodes (`min`).

        >>> text = "p max 3 2\\nn 1 s\\nn 3 t\\na 1 2 5\\na 2 3 4\\n"
        >>> [str(arc) for arc in Network.from_dimacs(text, 0, 10, {1: "0.5"}).arcs]
        ['1 -> 2', '2 -> 3']
        """
        found = read_dimacs(text, slopes or {})
        return cls(found.arcs, found.source, found.sink, low, high, found.nodes)


def is_falling(arcs: Iterable[Arc], source: Name, sink: Name) -> bool:
    """Whether the slopes of these arcs make a falling network. Raises InnerSlope, and MixedSlopes."""
    rising: Arc | None = None
    falling: Arc | None = None
    for arc in arcs:
        if arc.slope == 0:
            continue
        leaves = arc.tail == source and arc.head not in (source, sink)
        enters = arc.head == sink and arc.tail not in (source, sink)
        if not leaves and not enters:
            raise InnerSlope(f"the arc {arc} has the slope {brief(arc.slope)}", arc)
        if (arc.slope > 0) == leaves:
            rising = rising or arc
        else:
            falling = falling or arc
    if rising and falling:
        raise MixedSlopes(f"{rising} with the slope {brief(rising.slope)} makes the network rising, "
                          f"{falling} with the slope {brief(falling.slope)} falling", falling)
    return falling is not None


def check_interval(low: Fraction, high: Fraction) -> None:
    """Raises OutOfRange for an interval that the program does not take."""
    if not low < high:
        raise OutOfRange(f"the low end {brief(low)} is not below the high end {brief(high)}", low)
    for end in (low, high):
        if max(abs(end.numerator), end.denominator) > BILLION:
            raise OutOfRange(f"the end {brief(end)} of the interval has more than 9 digits", end)


def check_capacity(arc: Arc, x: Fraction) -> None:
    """Raises OutOfRange for an arc whose capacity is below 0 at this end of the interval."""
    if arc.at(x) < 0:
        raise OutOfRange(f"the capacity of {arc} is {brief(arc.at(x))} at {x}, below 0", arc)


def must_be_within(x: Fraction, network: Network) -> None:
    """Raises OutOfRange for a parameter outside the network's interval."""
    if not network.low <= x <= network.high:
        raise OutOfRange(f"the parameter {brief(x)} is outside the interval from {network.low} to {network.high}", x)
