"""Answers about networks: the least cut at one parameter, at all of them, and at equal steps."""
from __future__ import annotations

from bisect import bisect_left, bisect_right
from fractions import Fraction
from itertools import pairwise
from typing import NamedTuple

from ppart.answers.answer import Answer
from ppart.numbers import Number, exact
from ppart.problems import Arc, Name, Network
from ppart.problems.elements import leaving
from ppart.problems.names import chosen
from ppart.problems.network import must_be_within
from ppart.texts import Lines, fraction, whole


class LeastCut(Answer[Network]):
    """The smallest least cut and a greatest flow at the parameter `x`.

    `value` is the capacity of the cut, which changes with the parameter by `slope`. `flow` is what each arc carries, in
    the order of `problem.arcs`. `bottleneck` are the arcs that leave the cut.
    """
    command = "at"

    x: Fraction
    value: Fraction
    slope: Fraction
    cut: frozenset[Name]
    flow: list[Fraction]
    bottleneck: list[Arc]

    def read(self, lines: Lines) -> None:
        """Reads the lines b, s and f."""
        point = lines.one("b")
        cut = lines.one("s")
        self.x = fraction(point)
        unit = self.x.denominator * self.problem.scale
        self.value = whole(point[2]) / unit
        self.slope = whole(cut[1]) / self.problem.scale
        self.cut = chosen(self.problem.number, cut[2])
        self.flow = [whole(f) / unit for _, f in zip(self.problem.arcs, lines.one("f"), strict=True)]
        self.bottleneck = leaving(self.problem.arcs, self.cut)


class Point(NamedTuple):
    """A parameter, and the least capacity of a cut there."""
    x: Fraction
    value: Fraction


class Piece(NamedTuple):
    """From `low` to `high` this cut is least, and its capacity is `constant + slope * x`."""
    low: Fraction
    high: Fraction
    constant: Fraction
    slope: Fraction
    cut: frozenset[Name]


class Curve(Answer[Network]):
    """The least capacity of a cut at every parameter of the interval.

    `points` are the two ends and the breakpoints, `pieces` what lies between each two of them; `breakpoints` are the
    parameters, without the ends, where the slope falls.
    """
    command = "curve"
    checked = True

    points: list[Point]
    pieces: list[Piece]
    breakpoints: list[Fraction]

    def read(self, lines: Lines) -> None:
        """Reads the lines k, b and s; `flow` reads the lines f."""
        scale = self.problem.scale
        self.points = []
        for _, p, q, value in lines.counted("b", lines.count() + 1):
            x = fraction([p, q])
            self.points.append(Point(x, whole(value) / (x.denominator * scale)))
        self.pieces = []
        for (low, high), (_, constant, slope, side) in zip(pairwise(self.points), lines.all("s"), strict=True):
            cut = chosen(self.problem.number, side)
            self.pieces.append(Piece(low.x, high.x, whole(constant) / scale, whole(slope) / scale, cut))
        self.breakpoints = [point.x for point in self.points[1:-1]]

    def flow(self, j: int) -> list[Fraction]:
        """A greatest flow at `points[j]`: what each arc carries, in the order of `problem.arcs`."""
        unit = self.points[j].x.denominator * self.problem.scale
        numbers = Lines(self.raw, comments=False).all("f")[j][1:]
        return [whole(number) / unit for number in numbers]

    def piece(self, x: Number) -> Piece:
        """The piece at x, at a breakpoint the one of the smaller cut. Raises OutOfRange outside the interval."""
        at = exact(x, "the parameter")
        must_be_within(at, self.problem)
        if self.problem.falling:
            return self.pieces[bisect_right(self.breakpoints, at)]
        return self.pieces[bisect_left(self.breakpoints, at)]

    def value(self, x: Number) -> Fraction:
        """The least capacity of a cut at x, which is the value of a greatest flow. OutOfRange outside the interval."""
        piece = self.piece(x)
        return piece.constant + piece.slope * exact(x)

    def cut(self, x: Number) -> frozenset[Name]:
        """A least cut at x: the smallest one, except perhaps at an end of the interval."""
        return self.piece(x).cut

    def bottleneck(self, x: Number) -> list[Arc]:
        """The arcs that leave the cut at x: what holds the rest back."""
        return leaving(self.problem.arcs, self.cut(x))


class Row(NamedTuple):
    """A parameter, the least capacity of a cut there, and the number of nodes of the smallest least cut."""
    x: Fraction
    value: Fraction
    nodes: int


class Sweep(Answer[Network]):
    """Least cuts at equal steps through the interval: `rows`, one more than steps."""
    command = "sweep"

    rows: list[Row]

    def read(self, lines: Lines) -> None:
        """Reads the lines k and x."""
        self.rows = []
        for _, p, q, value, nodes in lines.counted("x", lines.count() + 1):
            x = fraction([p, q])
            self.rows.append(Row(x, whole(value) / (x.denominator * self.problem.scale), whole(nodes)))
