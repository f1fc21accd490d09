"""Problems from texts of the program."""
from __future__ import annotations

from collections.abc import Iterable, Sequence

from ppart.errors import BadName, Unreadable
from ppart.problems.closure import Closure
from ppart.problems.graph import Graph
from ppart.problems.names import Name, limit
from ppart.problems.network import Network
from ppart.problems.selection import Selection
from ppart.problems.sharing import Sharing
from ppart.problems.well_formed import well_formed
from ppart.texts import Lines, fraction, whole

Problem = Network | Sharing | Graph | Closure | Selection

# The first fields of the lines of each kind of text, without the header and the end.
FORMS = {"par": "idna", "share": "nwa", "graph": "vke", "closure": "vr", "select": "vgr"}

# No kind of text has more nodes, vertices, items, parts or products.
MOST_NAMES = 1000


def read(text: str, names: Iterable[Name] | None = None, products: Iterable[Name] | None = None) -> Problem:
    """The problem of a text that the program accepts. Any other text is Unreadable, or an error below `Unfit`.

    `names` are those of the nodes, vertices, items or parts 1, 2, .., and `products` those of the products of a
    selection; without them their numbers are the names.

    >>> graph = read("p graph 2 1\\ne 1 2 5\\nend\\n", ["north", "south"])
    >>> [(str(edge), str(edge.weight)) for edge in graph.edges]
    [('north - south', '5')]
    """
    with well_formed("the text"):
        lines = Lines(text)
        if not lines.ended:
            raise ValueError("it has no line `end`")
        first, kind, *counts = lines.first
        if first != "p" or kind not in FORMS:
            raise Unreadable(f"the text has the kind {kind}, which is none of the program's", kind)
        unknown = set(lines.rows) - set(FORMS[kind])
        if unknown:
            raise ValueError(f"lines that begin with {min(unknown)} are none of this kind")
        sizes = [whole(count) for count in counts]
        name = by_number(sizes[0], names)
        match kind:
            case "par":
                return read_network(lines, sizes, name)
            case "share":
                return read_sharing(lines, sizes, name)
            case "graph":
                return read_graph(lines, sizes, name)
            case "closure":
                return read_closure(lines, sizes, name)
        return read_selection(lines, sizes, name, by_number(sizes[1], products))


def by_number(count: int, names: Iterable[Name] | None) -> list[Name]:
    """The names of 1 to `count`, at their numbers. Raises BadName if there are not so many different ones.

    >>> by_number(2, ["north", "south"])
    [None, 'north', 'south']
    """
    limit(count, 0, MOST_NAMES, "names in a text")
    found: list[Name] = list(range(1, count + 1) if names is None else names)
    if len(set(found)) != len(found) or len(found) != count:
        raise BadName(f"{len(found)} names for {count}, or one of them twice", names)
    return [None, *found]


# The functions below take the numbers of the header, and the names by their numbers; 0 has none.


def read_network(lines: Lines, sizes: Sequence[int], name: list[Name]) -> Network:
    """The network of a text of the kind `par`."""
    _, count = sizes
    lines.counted("a", count)
    ends = {which: name[whole(node)] for node, which in lines.counted("n", 2)}
    interval = lines.one("i")
    if len(interval) != 4:
        raise ValueError("the line i has not four numbers")
    arcs = [(name[tail], name[head], capacity, slope) for tail, head, capacity, slope in lines.numbers("a", 4)]
    found = Network(arcs, ends["s"], ends["t"], fraction(interval), fraction(interval[2:]), name[1:])
    said = lines.all("d") == [["falling"]]
    if said != found.falling and any(arc.slope for arc in found.arcs):
        raise ValueError("the slopes do not fit the line d, or there is none")
    return found


def read_sharing(lines: Lines, sizes: Sequence[int], name: list[Name]) -> Sharing:
    """The sources and the network of a text of the kind `share`."""
    _, count = sizes
    lines.counted("a", count)
    sink, which = lines.one("n")
    if which != "t":
        raise ValueError("the line n does not end with t")
    arcs = [(name[tail], name[head], capacity) for tail, head, capacity in lines.numbers("a", 3)]
    weights = {name[source]: weight for source, (weight,) in lines.by_number("w", 2).items()}
    return Sharing(arcs, name[whole(sink)], weights, name[1:])


def read_graph(lines: Lines, sizes: Sequence[int], name: list[Name]) -> Graph:
    """The graph of a text of the kind `graph`."""
    _, count = sizes
    lines.counted("e", count)
    prices = lines.by_number("k", 2)
    edges = []
    for number, (first, second, weight) in enumerate(lines.numbers("e", 3), 1):
        (price,) = prices.pop(number, [1])
        edges.append((name[first], name[second], weight, price))
    if prices:
        raise ValueError("a line k is of no edge")
    costs = {name[vertex]: cost for vertex, (cost,) in lines.by_number("v", 2).items()}
    return Graph(edges, costs, name[1:])


def read_closure(lines: Lines, sizes: Sequence[int], name: list[Name]) -> Closure:
    """The items of a text of the kind `closure`."""
    items, count = sizes
    lines.counted("r", count)
    lines.counted("v", items)
    values = lines.by_number("v", 3)
    needs = [(name[user], name[used]) for user, used in lines.numbers("r", 2)]
    return Closure({name[item]: (cost, weight) for item, (cost, weight) in sorted(values.items())}, needs)


def read_selection(lines: Lines, sizes: Sequence[int], part: list[Name], product: list[Name]) -> Selection:
    """The parts and products of a text of the kind `select`."""
    part_count, product_count, need_count = sizes
    lines.counted("v", part_count)
    lines.counted("g", product_count)
    lines.counted("r", need_count)
    costs = {part[number]: cost for number, (cost,) in sorted(lines.by_number("v", 2).items())}
    gains = {product[number]: gain for number, (gain,) in sorted(lines.by_number("g", 2).items())}
    needs = [(product[user], part[used]) for user, used in lines.numbers("r", 2)]
    return Selection(costs, gains, needs)
