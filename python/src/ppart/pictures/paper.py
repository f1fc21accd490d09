"""Paper and ink: colours, empty figures, words, and how a figure is written to a file."""
from __future__ import annotations

import math
import os
from collections.abc import Iterable, Sequence
from fractions import Fraction
from typing import Any

import matplotlib
from matplotlib.figure import Figure

from ppart.errors import WrongKind
from ppart.numbers import show

# Colours after Okabe and Ito: they differ in grey print too, and for readers who do not see all colours.
BLUE = "#0072b2"
ORANGE = "#b84e00"
GREY = "#777777"
PALE = "#eef2f5"
INK = "#222222"
FILLS = ("#cfe3f1", "#fbe0c8", "#d3ecdf", "#f3e3ee", "#f7f0c6", "#dfe3f3", "#e9e4dc")
STROKE_COLOURS = (BLUE, ORANGE, "#009e73", "#8a3f7c", "#000000")
STROKE_STYLES = ("-", "--", ":")

# A white ground for words that stand on lines, and thin dotted lines behind all else.
WORD_GROUND = {"boxstyle": "round,pad=0.1", "facecolor": "white", "edgecolor": "none"}
DOTTED: dict[str, Any] = {"color": GREY, "linewidth": 0.6, "linestyle": (0, (2, 3)), "zorder": 0}


def save(figure: Figure, path: str | os.PathLike[str]) -> None:
    """Writes the figure; the ending of the path, as .svg, .png or .pdf, says how. Raises WrongKind for another one.

    The same figure becomes the same SVG each time, and its words stay words.
    """
    must_be_picture(path)
    metadata = {"Date": None} if str(path).endswith(".svg") else None
    with matplotlib.rc_context({"svg.hashsalt": "ppart", "svg.fonttype": "none"}):
        figure.savefig(path, dpi=150, metadata=metadata)


def must_be_picture(path: str | os.PathLike[str]) -> None:
    """Raises WrongKind for a path that does not end like a file of pictures."""
    endings = Figure().canvas.get_supported_filetypes()
    if os.path.splitext(path)[1].removeprefix(".") not in endings:
        raise WrongKind(f"{os.fspath(path)} does not end with {', '.join(sorted(endings))}", path)


def empty_figure(width: float, heights: Sequence[float], title: str) -> tuple[Figure, list[Any]]:
    """A figure, in inches, with axes of these heights one below the other, without frames at the top and the right."""
    figure = Figure(figsize=(width, sum(heights)), layout="constrained")
    found = list(figure.subplots(len(heights), 1, squeeze=False, height_ratios=heights)[:, 0])
    for axes in found:
        axes.spines[["top", "right"]].set_visible(False)
    found[0].set_title(plain(title), loc="left", fontsize=11)
    return figure, found


def plain(words: object) -> str:
    """The words as matplotlib has to be given them, so that a dollar is a dollar.

    >>> print(plain("5 $"))
    5 \\$
    """
    return str(words).replace("$", r"\$")


def shorten(names: Iterable[object], most: int, between: str = "\n", width: int = 999) -> str:
    """A list of at most so many names and, if it is shortened, about so many characters.

    >>> shorten("abcd", 3, ", ")
    'a, b, and 2 more'
    """
    words = [str(name) for name in names]
    if len(words) <= most and len(between.join(words)) <= width:
        return between.join(words)
    kept: list[str] = []
    for word in words[:most - 1]:
        if len(between.join([*kept, word])) > width:
            break
        kept.append(word)
    if not kept:
        return f"{len(words)} names"
    return between.join([*kept, f"and {len(words) - len(kept)} more"])


def set_exact_ticks(axes: Any, values: Sequence[Fraction], span: float) -> None:
    """Exact numbers under the axis, which is `span` long, in two lines; where both are taken the number is left out."""
    words = []
    line_ends = [-math.inf, -math.inf]
    for value in values:
        half = 0.0065 * span * (len(show(value)) + 2)
        free = [line for line in (0, 1) if float(value) - half > line_ends[line]]
        words.append("\n" * free[0] + show(value) if free else "")
        if free:
            line_ends[free[0]] = float(value) + half
    axes.set_xticks([float(value) for value in values], words, fontsize=9)


def stroke(number: int) -> tuple[str, str]:
    """The colour and the style of the line with this number, from 0; fifteen differ."""
    style = STROKE_STYLES[number // len(STROKE_COLOURS) % len(STROKE_STYLES)]
    return STROKE_COLOURS[number % len(STROKE_COLOURS)], style
