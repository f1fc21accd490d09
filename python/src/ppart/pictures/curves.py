"""Pictures over the parameter: the curve of least cuts, and least cuts at equal steps."""
from __future__ import annotations

from collections.abc import Sequence
from fractions import Fraction
from typing import Any

from matplotlib.figure import Figure
from matplotlib.ticker import MaxNLocator

from ppart.answers import Curve, Piece, Sweep
from ppart.numbers import show, show_line
from ppart.pictures.paper import (BLUE, DOTTED, FILLS, INK, ORANGE, PALE, WORD_GROUND, empty_figure, plain,
                                  set_exact_ticks, shorten)
from ppart.problems import Arc
from ppart.problems.elements import leaving

# With more pieces there is room for the curve alone; with more steps some are left out, or numbers at least.
MOST_COLUMNS = 8
MOST_ROWS = 1000
MOST_NUMBERED_ROWS = 16
MOST_SEPARATE_ROWS = 100


def curve(answer: Curve, x: str = "x", value: str = "least cut", title: str = "The least cut") -> Figure:
    """The least capacity of a cut over the parameter, with breakpoints, and the bottleneck of each piece below.

    `x` and `value` say what the axes show, and in which units. With more than eight pieces the bottlenecks and the
    numbers at breakpoints are left out, and the title says so.
    """
    pieces = answer.pieces
    is_long = len(pieces) > MOST_COLUMNS
    width = min(max(7.0, 1.7 * len(pieces)), 10.0)
    if is_long:
        title = f"{title} ({len(pieces)} pieces; their bottlenecks are left out)"
    figure, panels = empty_figure(width, [5.2] if is_long else [3.7, 1.5], title)
    axes = panels[0]
    axes.set_xlabel(x if x == "x" else f"x: {plain(x)}")
    axes.set_ylabel(plain(value))
    at = [float(point.x) for point in answer.points]
    high = [float(point.value) for point in answer.points]
    line_width, dot = (1.5, 2.5) if is_long else (2, 5)
    axes.plot(at, high, color=BLUE, linewidth=line_width, marker="o", markersize=dot)
    if is_long:
        return figure
    number_points(axes, answer)
    set_exact_ticks(axes, [point.x for point in answer.points], at[-1] - at[0])
    axes.yaxis.set_major_locator(MaxNLocator(6, steps=[1, 2, 5, 10]))
    axes.margins(x=0.02, y=0.14)
    draw_columns(panels[1], pieces, answer.problem.arcs)
    return figure


def number_points(axes: Any, answer: Curve) -> None:
    """Writes its value at each point. The curve bends down, so there is room above it, and beside it at its ends."""
    points = answer.points
    span = float(points[-1].x - points[0].x)
    lift = 8
    for j, point in enumerate(points):
        axes.axvline(float(point.x), **DOTTED)
        if j == 0:
            offset = (8, -10 if answer.pieces[0].slope > 0 else 8)
            side = "left"
        elif j == len(points) - 1:
            offset = (-8, -10 if answer.pieces[-1].slope < 0 else 8)
            side = "right"
        else:
            # Of numbers that stand close, every second one stands higher.
            is_close = float(point.x - points[j - 1].x) < 0.05 * span
            lift = 20 if is_close and lift == 8 else 8
            offset = (0, lift)
            side = "center"
        axes.annotate(show(point.value), (float(point.x), float(point.value)), offset, textcoords="offset points",
                      fontsize=9, color=BLUE, ha=side, bbox=WORD_GROUND, zorder=1)


def draw_columns(axes: Any, pieces: Sequence[Piece], arcs: Sequence[Arc]) -> None:
    """A column of the same width for each piece: from where to where, the line, and the bottleneck by name."""
    axes.set_axis_off()
    axes.set_xlim(0, len(pieces))
    axes.set_ylim(0, 1)
    for i, piece in enumerate(pieces):
        axes.axvspan(i + 0.02, i + 0.98, color=PALE, zorder=0)
        bottleneck = [str(arc).replace("->", "→") for arc in leaving(arcs, piece.cut)]
        write_line(axes, i, 0.95, 9, INK, f"{show(piece.low)} to {show(piece.high)}")
        write_line(axes, i, 0.8, 9, BLUE, show_line(piece.constant, piece.slope))
        write_line(axes, i, 0.64, 8, ORANGE, plain(shorten(bottleneck, 5)))


def write_line(axes: Any, column: int, height: float, size: int, colour: str, words: str) -> None:
    """Words in the middle of a column."""
    axes.text(column + 0.5, height, words, ha="center", va="top", fontsize=size, color=colour, linespacing=1.15)


def sweep(answer: Sweep, x: str = "x", value: str = "least cut", title: str = "The least cut at equal steps") -> Figure:
    """The least capacity of a cut at each step, and below it how many nodes the smallest least cut has.

    Of more than a thousand steps every so many are shown, and the title says so.
    """
    every = 1 + (len(answer.rows) - 1) // MOST_ROWS
    rows = answer.rows[::every]
    if every > 1:
        title = f"{title} (one of {every} steps is shown)"
    figure, (top, below) = empty_figure(7.0, [3.1, 1.5], title)
    at = [float(row.x) for row in rows]
    high = [float(row.value) for row in rows]
    size = max(0.5, min(5.0, 250 / len(at)))
    if len(rows) <= MOST_SEPARATE_ROWS:
        top.vlines(at, 0, high, color=FILLS[0], linewidth=size)
    else:
        top.fill_between(at, high, color=FILLS[0], linewidth=0)
    top.plot(at, high, "o", color=BLUE, markersize=size)
    below.plot(at, [row.nodes for row in rows], "s", color=ORANGE, markersize=size)
    if len(rows) <= MOST_NUMBERED_ROWS:
        set_exact_ticks(below, [row.x for row in rows], at[-1] - at[0])
        number_rows(top, [(row.x, row.value) for row in rows])
    top.margins(y=0.14)
    top.set_ylim(bottom=0)
    top.tick_params(bottom=False, labelbottom=False)
    top.set_ylabel(plain(value))
    below.set_xlabel(plain(x))
    below.set_ylabel("nodes of the cut")
    below.set_ylim(0, len(answer.problem.number))
    below.yaxis.set_major_locator(MaxNLocator(4, integer=True))
    return figure


def number_rows(axes: Any, rows: Sequence[tuple[Fraction, Fraction]]) -> None:
    """Writes its value above each step."""
    for x, value in rows:
        axes.annotate(show(value), (float(x), float(value)), (0, 6), textcoords="offset points", ha="center",
                      fontsize=9, color=BLUE)
