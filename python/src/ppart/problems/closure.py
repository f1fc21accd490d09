"""Items with costs and weights that need one another."""
from __future__ import annotations

from collections.abc import Mapping
from typing import Any

from ppart.numbers import Number
from ppart.problems.csv_files import File, read_named_rows, split_names
from ppart.problems.graphs_of_networkx import attribute, must_be_directed
from ppart.problems.names import Name, numbered
from ppart.problems.needs import Needs, known_needs
from ppart.problems.scaling import MILLION, exact_values, scale_of
from ppart.texts import write


class Closure:
    """Items {name: (cost, weight)} and needs: pairs (item, needed item), or a dict from items to what they need.

    There are 1 to 1000 items and at most 10000 needs. A cost below 0 is what an item earns. `cost` and `weight` are by
    item, `number` has the number of each item in the text; there costs are in units of 1/`cost_scale`, weights of
    1/`weight_scale`. Raises errors below `Unfit`, which tell the name.

    >>> Closure({"saw": (60, 2), "toys": ("15.5", 30)}, {"toys": ["saw"]}).needs
    [('toys', 'saw')]
    """
    kind = "closure"

    def __init__(self, items: Mapping[Name, tuple[Number, Number]], needs: Needs = ()) -> None:
        self.number = numbered(items, 1, 1000, "items")
        self.needs = known_needs(needs, self.number, self.number, 10000)
        self.cost = exact_values("cost", {item: cost for item, (cost, _) in items.items()})
        self.weight = exact_values("weight", {item: weight for item, (_, weight) in items.items()})
        self.cost_scale = scale_of("cost", self.cost.items(), -MILLION, MILLION)
        self.weight_scale = scale_of("weight", self.weight.items(), 1, MILLION)

    def text(self) -> str:
        """The problem as the program reads it."""
        return write([
            ("p closure", len(self.number), len(self.needs)),
            *(("v", number, self.cost[item] * self.cost_scale, self.weight[item] * self.weight_scale)
              for item, number in self.number.items()),
            *(("r", self.number[user], self.number[used]) for user, used in self.needs)])

    @classmethod
    def from_networkx(cls, graph: Any, cost: str = "cost", weight: str = "weight") -> Closure:
        """From a directed graph whose edges lead from an item to one that it needs."""
        must_be_directed(graph)
        items = {item: (attribute(data, cost, item), attribute(data, weight, item))
                 for item, data in graph.nodes(data=True)}
        return cls(items, list(graph.edges()))

    @classmethod
    def from_csv(cls, file: File) -> Closure:
        """From rows `item,cost,weight[,needs]`, the needed items divided by semicolons."""
        rows = read_named_rows(file, 4)
        items: dict[Name, tuple[Number, Number]] = {item: (cost, weight) for item, cost, weight, _ in rows}
        return cls(items, {item: split_names(needs) for item, _, _, needs in rows})
