"""Pictures by bars: layers, fair shares, and a schedule over prices."""
from __future__ import annotations

from collections.abc import Sequence
from fractions import Fraction
from typing import Any, NamedTuple

from matplotlib.figure import Figure

from ppart.answers import FairShares, LayerList, Schedule
from ppart.numbers import show
from ppart.pictures.paper import BLUE, DOTTED, FILLS, empty_figure, plain, set_exact_ticks, shorten

# Above so many bars they are thinner; and so many are drawn at most.
MOST_WIDE_BARS = 40
MOST_BARS = 120

# Above so many prices there are no lines through the bars.
MOST_LINES = 20


class Bar(NamedTuple):
    """A bar: its name, its length, the words at its end, and the number of its colour."""
    name: object
    length: Fraction
    words: str
    colour: int


def draw_bars(rows: Sequence[Bar], label: str, title: str, height: float = 0.3) -> tuple[Figure, Any]:
    """Bars from 0, `height` inches apart, thinner ones above forty.

    Of more than 120 the first are drawn, and the title says so.
    """
    if len(rows) > MOST_BARS:
        title = f"{title} (the first {MOST_BARS} of {len(rows)})"
        rows = rows[:MOST_BARS]
    is_thin = len(rows) > MOST_WIDE_BARS
    size = 7 if is_thin else 9
    height = 0.14 if is_thin else height
    # Widths in inches: of the words at the ends, of all, and of the room between names and the right edge.
    words = 0.0083 * size * max([len(row.words) for row in rows], default=0) + 0.3
    width = max(7.0, words + 3.5)
    room = width - 0.8 - 0.0095 * size * max([len(str(row.name)) for row in rows], default=0)
    figure, (axes,) = empty_figure(width, [1.1 + height * max(len(rows), 1)], title)
    values = [float(row.length) for row in rows]
    low = min([0.0, *values])
    span = max([0.0, *values]) - low or 1.0
    axes.barh(range(len(rows)), values, height=0.68, color=[FILLS[row.colour % len(FILLS)] for row in rows],
              edgecolor=BLUE, linewidth=0.8)
    for place, row in enumerate(rows):
        axes.annotate(plain(row.words), (max(values[place], 0.0), place), (5, 0), textcoords="offset points",
                      va="center", fontsize=size)
    axes.set_yticks(range(len(rows)), [plain(row.name) for row in rows], fontsize=size)
    axes.set_ylim(len(rows) - 0.4, -0.6)
    left = low - 0.02 * span if low < 0 else low
    axes.set_xlim(left, low + span * max(1.05, room / max(room - words, 1.0)))
    axes.set_xlabel(plain(label))
    return figure, axes


def layers(answer: LayerList, level: str = "level", title: str = "Layers") -> Figure:
    """Layers as bars, as long as their levels, with their members; of long lists the first few."""
    rows = []
    for j, layer in enumerate(answer.layers):
        members = shorten(layer.names, 12, ", ", 50)
        rows.append(Bar(j + 1, layer.level, f"{show(layer.level)}: {members}", j))
    figure, axes = draw_bars(rows, level, title, 0.42)
    axes.set_ylabel("layer")
    return figure


def shares(answer: FairShares, unit: str = "share", title: str = "Fair shares") -> Figure:
    """The share of each source, by groups: sources of one level have one colour."""
    rows = []
    for j, (level, group) in enumerate(zip(answer.levels, answer.groups)):
        for source in group:
            share = answer.shares[source]
            words = f"{show(share)} = {show(answer.problem.weight[source])} × {show(level)}"
            rows.append(Bar(source, share, words, j))
    figure, _ = draw_bars(rows, unit, title)
    return figure


def schedule(answer: Schedule, price: str = "price of a unit of cost", title: str = "Up to which price") -> Figure:
    """A row for each part: up to which price it is chosen. Parts that no product needs are in no selection."""
    prices = [Fraction(0), *answer.prices]
    last = {part: sum(part in selection for selection in answer.selections) for part in answer.problem.number}
    rows = []
    for part in sorted(last, key=lambda name: -last[name]):
        rows.append(Bar(part, prices[last[part]], "" if last[part] else "never", last[part]))
    figure, axes = draw_bars(rows, price, title)
    if len(prices) <= MOST_LINES:
        for value in answer.prices:
            axes.axvline(float(value), **DOTTED)
    set_exact_ticks(axes, prices, float(prices[-1]) * 1.15 or 1.0)
    return figure
