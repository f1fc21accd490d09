"""The picture of a principal partition, as a tree over its levels."""
from __future__ import annotations

from fractions import Fraction
from typing import Any

from matplotlib.figure import Figure

from ppart.answers import Fork, PrincipalPartition
from ppart.numbers import show
from ppart.pictures.paper import BLUE, DOTTED, GREY, empty_figure, plain


def partition(answer: PrincipalPartition, level: str = "level", title: str = "The principal partition") -> Figure:
    """The principal partition as a tree: the level rises downward; each fork is a part that breaks there.

    `level` says what the axis shows, and in which units. Levels that stand too close have no number.
    """
    names = [str(name) for name in answer.problem.number]
    name_width = 0.25 + 0.085 * max(len(name) for name in names)
    is_upright = name_width * len(names) > 12
    step = 0.2 if is_upright else name_width
    figure, (axes,) = empty_figure(max(5.0, 0.8 + step * len(names)), [4.6], title)
    bottom = 1.12 * float(answer.levels[-1]) if answer.levels else 1.0
    branches = Branches(axes, bottom)
    for root in answer.tree():
        branches.draw(root, 0.0)
    for height in answer.levels:
        axes.axhline(float(height), **DOTTED)
    numbered = well_apart([Fraction(0), *answer.levels], 0.04 * bottom)
    axes.set_yticks([float(height) for height in numbered], [show(height) for height in numbered])
    axes.set_xticks(range(len(names)), branches.names, fontsize=9, rotation=90 if is_upright else 0)
    axes.tick_params(axis="x", length=0)
    axes.set_ylim(bottom, 0)
    axes.set_xlim(-0.6, len(names) - 0.4)
    axes.set_ylabel(plain(level))
    axes.spines["bottom"].set_visible(False)
    return figure


class Branches:
    """Draws forks one after the other; `names` are the single vertices from left to right."""

    def __init__(self, axes: Any, bottom: float) -> None:
        self.axes = axes
        self.bottom = bottom
        self.names: list[str] = []

    def draw(self, fork: Fork, above: float) -> float:
        """Draws a part from the level at which it came about, and returns where across it stands."""
        if fork.level is None:
            across = float(len(self.names))
            self.names.append(plain(fork.names[0]))
            self.axes.plot([across, across], [above, self.bottom], color=GREY, linewidth=1)
            return across
        foot = float(fork.level)
        at = [self.draw(piece, foot) for piece in fork.pieces]
        across = (at[0] + at[-1]) / 2
        self.axes.plot([at[0], at[-1]], [foot, foot], color=BLUE, linewidth=2, solid_capstyle="round")
        self.axes.plot([across, across], [above, foot], color=BLUE, linewidth=2)
        return across


def well_apart(heights: list[Fraction], least: float) -> list[Fraction]:
    """Of rising heights, those that stand more than `least` above the last one that is kept.

    >>> [str(height) for height in well_apart([Fraction(0), Fraction(1, 10), Fraction(2)], 0.5)]
    ['0', '2']
    """
    kept = heights[:1]
    for height in heights[1:]:
        if float(height - kept[-1]) > least:
            kept.append(height)
    return kept
