"""Nodes with names, and links between them."""
from __future__ import annotations

from collections import Counter, deque
from collections.abc import Iterable, Mapping, Sequence
from typing import Any, NamedTuple

from matplotlib.figure import Figure

from ppart.pictures.paper import BLUE, GREY, INK, WORD_GROUND, empty_figure, plain
from ppart.problems import Name

# Where names stand, in inches.
Places = Mapping[Name, tuple[float, float]]


class Link(NamedTuple):
    """How an arc or an edge is drawn."""
    tail: Name
    head: Name
    label: str = ""
    colour: str = GREY
    width: float = 0.9
    style: str = "-"


def draw(places: Places, links: Sequence[Link], fill: Mapping[Name, str], title: str, arrows: bool = False) -> Figure:
    """Nodes as names in boxes at these places, filled with these colours, and links between them.

    Links from a node to itself are left out; parallel ones are bent.
    """
    figure, axes = blank_sheet(places, title)
    boxes = {}
    for name, (across, up) in places.items():
        ground = {"boxstyle": "round,pad=0.35", "facecolor": fill.get(name, "white"), "edgecolor": BLUE}
        boxes[name] = axes.text(across, up, plain(name), ha="center", va="center", fontsize=9, color=INK, zorder=3,
                                bbox=ground)
    figure.draw_without_rendering()  # so that arrows know where boxes end
    drawn: Counter[frozenset[Name]] = Counter()
    number = {name: j for j, name in enumerate(places)}
    for j, link in enumerate(links):
        if link.tail == link.head:
            continue
        pair = frozenset((link.tail, link.head))
        forward = number[link.tail] < number[link.head]
        bend = bend_of(drawn[pair], forward) + bend_round(places[link.tail], places[link.head], arrows)
        drawn[pair] += 1
        axes.annotate("", places[link.head], places[link.tail], zorder=1, arrowprops={
            "arrowstyle": "-|>" if arrows else "-", "color": link.colour, "linewidth": link.width,
            "linestyle": link.style, "shrinkA": 0, "shrinkB": 1, "connectionstyle": f"arc3,rad={bend}",
            "patchA": boxes[link.tail].get_bbox_patch(), "patchB": boxes[link.head].get_bbox_patch()})
        if link.label:
            # Not in the middle of all, where many meet.
            across, up = along(places[link.tail], places[link.head], bend, 0.36 + 0.09 * (j % 3))
            axes.text(across, up, link.label, fontsize=8, color=link.colour, ha="center", va="center", zorder=2,
                      bbox=WORD_GROUND)
    return figure


def blank_sheet(places: Places, title: str) -> tuple[Figure, Any]:
    """A sheet without axes, as large as the places need, with a title at the left."""
    across = [place[0] for place in places.values()]
    up = [place[1] for place in places.values()]
    half = 0.045 * max(widest_line(name) for name in places) + 0.35
    width = max(max(across) - min(across) + 2 * half, 0.085 * len(title) + 0.3)
    figure, (axes,) = empty_figure(width, [max(up) - min(up) + 1.05], "")
    figure.suptitle(plain(title), x=0.01, ha="left", fontsize=11)
    axes.set_axis_off()
    axes.set_xlim(min(across) - half, max(across) + half)
    axes.set_ylim(min(up) - 0.35, max(up) + 0.35)
    axes.set_aspect("equal")
    return figure, axes


def widest_line(name: Name) -> int:
    """The characters in the longest line of a name."""
    return max(len(line) for line in str(name).split("\n"))


def bend_of(before: int, forward: bool) -> float:
    """How much a link is bent that has so many beside it: the first not at all, the others to both sides in turn."""
    size = 0.18 * ((before + 1) // 2)
    side = 1 if before % 2 == 0 else -1
    return size * side if forward else -size * side


def bend_round(tail: tuple[float, float], head: tuple[float, float], arrows: bool) -> float:
    """How much an arrow is bent more, to pass the nodes between, if it stays in its column."""
    is_upright = arrows and tail[0] == head[0] and abs(tail[1] - head[1]) > 1
    return 0.3 if is_upright else 0.0


def along(tail: tuple[float, float], head: tuple[float, float], bend: float, t: float) -> tuple[float, float]:
    """The point at t, from 0 to 1, of the Bezier curve that a bent link is."""
    control = ((tail[0] + head[0]) / 2 + bend * (head[1] - tail[1]),
               (tail[1] + head[1]) / 2 - bend * (head[0] - tail[0]))
    across, up = [(1 - t)**2 * first + 2 * t * (1 - t) * middle + t * t * last
                  for first, middle, last in zip(tail, control, head)]
    return across, up


def in_columns(names: Sequence[Name], arcs: Iterable[tuple[Name, Name]], first: Sequence[Name],
               last: Name | None = None) -> Places:
    """Places from left to right by the distance in arcs from the first ones; `last` stands in the last column, alone.

    What cannot be reached stands in the second column.
    """
    distance = distances(arcs, first)
    column = {name: distance.get(name, 1) for name in names}
    if last is not None:
        column[last] = 1 + max(place for name, place in column.items() if name != last)
    step = max(1.5, 0.09 * max(widest_line(name) for name in names) + 1.0)
    places: dict[Name, tuple[float, float]] = {}
    for number in set(column.values()):
        members = [name for name in names if column[name] == number]
        # Every second column stands a little lower, so that fewer arcs lie on nodes.
        top = 0.85 * (len(members) - 1) / 2 - 0.2 * (number % 2)
        for j, name in enumerate(members):
            places[name] = (step * number, top - 0.85 * j)
    return places


def distances(arcs: Iterable[tuple[Name, Name]], first: Sequence[Name]) -> dict[Name, int]:
    """How many arcs away from the first ones each name is that they reach."""
    heads: dict[Name, list[Name]] = {}
    for tail, head in arcs:
        heads.setdefault(tail, []).append(head)
    found = {name: 0 for name in first}
    waiting = deque(first)
    while waiting:
        tail = waiting.popleft()
        for head in heads.get(tail, []):
            if head not in found:
                found[head] = found[tail] + 1
                waiting.append(head)
    return found
