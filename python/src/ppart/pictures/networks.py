"""Pictures of networks with a cut, and of items that need one another."""
from __future__ import annotations

from fractions import Fraction

from matplotlib.figure import Figure

from ppart.answers import CheapestClosure, Curve, LeastCut
from ppart.numbers import Number, exact, show
from ppart.pictures.drawing import Link, draw, in_columns
from ppart.pictures.paper import FILLS, GREY, ORANGE
from ppart.problems import Arc, Closure, Name, Network
from ppart.problems.elements import leaving

# Above so many nodes or items a picture shows a part of them; and no part is larger.
MOST_NODES = 30
MOST_ARCS = 20


def network(answer: LeastCut | Curve, x: Number | None = None, title: str = "") -> Figure:
    """A network from left to right with the least cut at x: its nodes filled, the arcs that leave it thick.

    Without `x` it is the parameter of the answer, or the low end of the curve. Of a network with more than thirty nodes
    only arcs that leave the cut are drawn, at most twenty, those of the greatest capacities; the title says so.
    """
    problem = answer.problem
    if isinstance(answer, LeastCut):
        at = answer.x
        cut = answer.cut
    else:
        at = problem.low if x is None else exact(x)
        cut = answer.cut(at)
    crossing = leaving(problem.arcs, cut)
    value = sum((arc.at(at) for arc in crossing), Fraction(0))
    title = title or f"Capacities at {show(at)}; the least cut, {show(value)}"
    if len(problem.number) > MOST_NODES:
        return network_across(problem, cut, at, title)
    links = []
    for arc in problem.arcs:
        is_crossing = arc.tail in cut and arc.head not in cut
        colour, width = (ORANGE, 2.2) if is_crossing else (GREY, 0.9)
        links.append(Link(arc.tail, arc.head, show(arc.at(at)), colour, width))
    ends = [(arc.tail, arc.head) for arc in problem.arcs]
    places = in_columns(list(problem.number), ends, [problem.source], problem.sink)
    return draw(places, links, dict.fromkeys(cut, FILLS[0]), title, arrows=True)


def network_across(problem: Network, cut: frozenset[Name], at: Fraction, title: str) -> Figure:
    """Two columns: where the arcs that leave the cut begin, and where they end."""
    crossing = leaving(problem.arcs, cut)
    shown: list[Arc] = sorted(crossing, key=lambda arc: -arc.at(at))[:MOST_ARCS]
    title = (f"{title} ({len(problem.number)} nodes, {len(problem.arcs)} arcs; "
             f"drawn: {len(shown)} of {len(crossing)} arcs that leave the cut)")
    # An arc from the source to the sink alone, if no arc leaves the cut, has nothing to show.
    tails = list(dict.fromkeys(arc.tail for arc in shown)) or [problem.source]
    heads = list(dict.fromkeys(arc.head for arc in shown)) or [problem.sink]
    places: dict[Name, tuple[float, float]] = {}
    for column, names in enumerate((tails, heads)):
        for j, name in enumerate(names):
            places[name] = (4.0 * column, 0.5 * ((len(names) - 1) / 2 - j))
    links = [Link(arc.tail, arc.head, show(arc.at(at)), ORANGE, 1.6) for arc in shown]
    return draw(places, links, dict.fromkeys(cut, FILLS[0]), title, arrows=True)


def closure(answer: CheapestClosure, title: str = "") -> Figure:
    """Items with cost / weight, and arrows to what they need; those of the least ratio are filled.

    Of more than thirty items only those of the least ratio are drawn, at most thirty, and the title says so.
    """
    problem = answer.problem
    title = title or f"Cost / weight of items; the least ratio, {show(answer.ratio)}"
    items: list[Name] = list(problem.number)
    if len(items) > MOST_NODES:
        items = [item for item in items if item in answer.items][:MOST_NODES]
        title = f"{title} (drawn: {len(items)} of the {len(answer.items)} that have it, of {len(problem.number)} items)"
    label = {item: label_of(problem, item) for item in items}
    needs = [(label[user], label[used]) for user, used in problem.needs if user in label and used in label]
    used_labels = {used for user, used in needs if user != used}
    first = [name for name in label.values() if name not in used_labels] or list(label.values())[:1]
    links = [Link(user, used) for user, used in needs]
    fill: dict[Name, str] = {label[item]: FILLS[0] for item in items if item in answer.items}
    return draw(in_columns(list(label.values()), needs, first), links, fill, title, arrows=True)


def label_of(problem: Closure, item: Name) -> str:
    """What stands in the box of an item."""
    return f"{item}\n{show(problem.cost[item])} / {show(problem.weight[item])}"
