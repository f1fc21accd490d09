"""The principal partition of a graph."""
from __future__ import annotations

from bisect import bisect_left
from fractions import Fraction
from typing import NamedTuple

from ppart.answers.answer import Answer
from ppart.numbers import Number, exact
from ppart.problems import Graph, Name
from ppart.problems.names import parts_of
from ppart.texts import Lines, fraction


class Fork(NamedTuple):
    """A part, the level at which it breaks (None: it is a single vertex), and the pieces into which it breaks."""
    names: list[Name]
    level: Fraction | None
    pieces: list[Fork]


class PrincipalPartition(Answer[Graph]):
    """The principal partition: `partitions[j]` is best from `levels[j - 1]` to `levels[j]`, in units of weight.

    Each partition is a list of parts, each part a list of vertices; the partitions become finer.
    """
    command = "partition"
    checked = True

    levels: list[Fraction]
    partitions: list[list[list[Name]]]

    def read(self, lines: Lines) -> None:
        """Reads the lines k, b and s."""
        self.levels = [fraction(fields[1:]) / self.problem.scale for fields in lines.counted("b", lines.count())]
        labels = lines.counted("s", lines.count() + 1)
        self.partitions = [parts_of(self.problem.number, fields[1:]) for fields in labels]

    def at(self, level: Number) -> list[list[Name]]:
        """The best partition at this level, where two are best the coarser one."""
        return self.partitions[bisect_left(self.levels, exact(level, "the level"))]

    def tree(self) -> list[Fork]:
        """The parts below the first level, each with its pieces, down to single vertices."""
        return [self.fork(names, 0) for names in self.partitions[0]]

    def fork(self, names: list[Name], j: int) -> Fork:
        """The part of `partitions[j]` with these names, and its pieces."""
        while j < len(self.levels) and names in self.partitions[j + 1]:
            j += 1
        if j == len(self.levels):
            return Fork(names, None, [])
        inside = set(names)
        pieces = [self.fork(part, j + 1) for part in self.partitions[j + 1] if inside.issuperset(part)]
        return Fork(names, self.levels[j], pieces)
