"""Pictures of graphs on a circle: a densest set, the parts of a partition, what is added, spanning trees."""
from __future__ import annotations

import math
from collections.abc import Mapping, Sequence

from matplotlib.collections import LineCollection
from matplotlib.figure import Figure

from ppart.answers import DensestSet, Reinforcement, SpanningTrees, Strength
from ppart.numbers import show
from ppart.pictures.drawing import Link, draw
from ppart.pictures.paper import BLUE, FILLS, GREY, INK, ORANGE, empty_figure, plain, stroke
from ppart.problems import Edge, Graph, Name

# Above so many vertices names stand around the circle, and what belongs together stands together.
MOST_BOXES = 30


def densest(answer: DensestSet, title: str = "") -> Figure:
    """A graph with its densest set filled, and the edges inside it thick."""
    title = title or f"The densest set: {show(answer.density)} for each unit of cost"
    links = []
    for edge in answer.problem.edges:
        is_inside = edge.first in answer.vertices and edge.second in answer.vertices
        colour, width = (BLUE, 2.0) if is_inside else (GREY, 0.9)
        links.append(Link(edge.first, edge.second, show(edge.weight), colour, width))
    inside = [vertex for vertex in answer.problem.number if vertex in answer.vertices]
    outside = [vertex for vertex in answer.problem.number if vertex not in answer.vertices]
    return on_circle(answer.problem, [inside, outside], links, dict.fromkeys(answer.vertices, FILLS[0]), title)


def strength(answer: Strength, title: str = "") -> Figure:
    """A graph that falls into the parts of the least ratio, and the edges that cross."""
    return divided(answer.problem, answer.parts, title or f"{show(answer.strength)} for each further piece", True)


def reinforce(answer: Reinforcement, title: str = "") -> Figure:
    """A graph with what is added to its edges; or its components, if it is not connected."""
    if not answer.possible:
        return divided(answer.problem, answer.components, title or "Not connected", True)
    links = []
    for edge, more in zip(answer.problem.edges, answer.added):
        if more:
            links.append(Link(edge.first, edge.second, f"{show(edge.weight)} + {show(more)}", ORANGE, 2.4))
        else:
            links.append(Link(edge.first, edge.second, show(edge.weight)))
    title = title or f"Added, for {show(answer.cost)} in all"
    return on_circle(answer.problem, [list(answer.problem.number)], links, {}, title)


def trees(answer: SpanningTrees, title: str = "") -> Figure:
    """A graph with its spanning trees in colours; or with the partition that forbids them."""
    graph = answer.problem
    count = int(answer.words[1])
    if not answer.possible:
        crossing = len(graph.crossing(answer.parts))
        needed = count * (len(answer.parts) - 1)
        need = "a tree needs" if count == 1 else f"{count} trees need"
        said = f"{crossing} edges between {len(answer.parts)} parts; {need} {needed}"
        return divided(graph, answer.parts, title or said, False)
    # Edges may be equal, so they are told apart by their identity.
    tree_of = {id(edge): j for j, tree in enumerate(answer.trees) for edge in tree}
    links = [tree_link(edge, tree_of.get(id(edge))) for edge in graph.edges]
    title = title or ("A spanning tree" if count == 1 else f"{count} spanning trees without a common edge")
    figure = on_circle(graph, [list(graph.number)], links, {}, title)
    for j in range(min(count, 15)):
        colour, style = stroke(j)
        figure.axes[0].plot([], [], color=colour, linestyle=style, linewidth=2.2, label=f"tree {j + 1}")
    figure.set_figwidth(figure.get_figwidth() + 1.3)
    figure.axes[0].legend(loc="upper left", fontsize=9, frameon=False, bbox_to_anchor=(0.98, 1))
    return figure


def tree_link(edge: Edge, tree: int | None) -> Link:
    """How an edge of this tree is drawn, or one of none."""
    if tree is None:
        return Link(edge.first, edge.second, "", GREY, 0.7)
    colour, style = stroke(tree)
    return Link(edge.first, edge.second, "", colour, 2.2, style)


def divided(graph: Graph, parts: Sequence[Sequence[Name]], title: str, weights: bool) -> Figure:
    """A graph with the parts of a partition in colours, the edges between them thick; and weights, if asked for."""
    part = {vertex: j for j, names in enumerate(parts) for vertex in names}
    links = []
    for edge in graph.edges:
        label = show(edge.weight) if weights else ""
        if part[edge.first] == part[edge.second]:
            links.append(Link(edge.first, edge.second, label))
        else:
            links.append(Link(edge.first, edge.second, label, ORANGE, 2.0, "--"))
    fill = {vertex: FILLS[j % len(FILLS)] for vertex, j in part.items()}
    return on_circle(graph, parts, links, fill, title)


def on_circle(graph: Graph, groups: Sequence[Sequence[Name]], links: Sequence[Link], fill: Mapping[Name, str],
              title: str) -> Figure:
    """A graph on a circle: in the order of its vertices, or by groups where there are more than thirty."""
    count = len(graph.number)
    if count > MOST_BOXES:
        return wheel([name for group in groups for name in group], links, fill, title)
    radius = max(1.3, 0.22 * count)
    places = {}
    for j, name in enumerate(graph.number):
        turn = 2 * math.pi * j / count
        places[name] = (1.35 * radius * math.sin(turn), radius * math.cos(turn))
    return draw(places, links, fill, title)


def wheel(names: Sequence[Name], links: Sequence[Link], fill: Mapping[Name, str], title: str) -> Figure:
    """Many vertices as dots on a circle, their names around it, edges as lines between them, without weights."""
    count = len(names)
    radius = max(2.5, 0.15 * count / (2 * math.pi))
    room = 0.075 * max(len(str(name)) for name in names) + 0.3
    if any(link.label for link in links):
        title = f"{title} ({count} vertices; weights are left out)"
    side = 2 * (radius + room)
    figure, (axes,) = empty_figure(max(side, 0.085 * len(title) + 0.3), [side + 0.4], title)
    axes.set_axis_off()
    axes.set_aspect("equal")
    axes.set_xlim(-side / 2, side / 2)
    axes.set_ylim(-side / 2, side / 2)
    places = {}
    for j, name in enumerate(names):
        turn = 2 * math.pi * j / count
        across = math.sin(turn)
        up = math.cos(turn)
        places[name] = (radius * across, radius * up)
        degrees = 90 - math.degrees(turn)
        is_left = across < -1e-9
        axes.text(across * (radius + 0.1), up * (radius + 0.1), plain(name), fontsize=7, color=INK,
                  rotation=degrees + 180 if is_left else degrees, rotation_mode="anchor", va="center",
                  ha="right" if is_left else "left")
        axes.plot([radius * across], [radius * up], "o", markersize=5, markerfacecolor=fill.get(name, "white"),
                  markeredgecolor=BLUE, markeredgewidth=0.8, zorder=3)
    thin = 0.5 if len(links) <= 300 else 0.25
    lines = [[places[link.tail], places[link.head]] for link in links]
    axes.add_collection(LineCollection(
        lines, colors=[link.colour for link in links], linewidths=[thin * link.width for link in links],
        linestyles=[link.style for link in links], zorder=1))
    return figure
