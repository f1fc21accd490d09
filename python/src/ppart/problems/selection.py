"""Parts with costs, and products that earn a gain if all their parts are bought."""
from __future__ import annotations

from collections.abc import Iterable, Mapping
from typing import Any

from ppart.numbers import Number
from ppart.problems.csv_files import File, read_named_rows, read_numbers, split_names
from ppart.problems.graphs_of_networkx import attribute
from ppart.problems.names import Name, numbered
from ppart.problems.needs import Needs, known_needs
from ppart.problems.scaling import MILLION, exact_values, scale_of
from ppart.texts import write


class Selection:
    """Parts {name: cost}, products {name: gain} and needs: pairs (product, part), or a dict from products to parts.

    There are 1 to 500 parts, at most 1000 products and 5000 needs. `cost` is by part, `gain` by product; `number` has
    the number of each part in the text, `product_number` that of each product. There costs are in units of
    1/`cost_scale`, gains of 1/`gain_scale`. Raises errors below `Unfit`, which tell the name.

    >>> shop = Selection({"maps": 2, "chat": 4}, {"routes": "3.5", "talk": 1}, {"routes": ["maps"], "talk": ["chat"]})
    >>> shop.gained(["maps"])
    ['routes']
    """
    kind = "select"

    def __init__(self, parts: Mapping[Name, Number], products: Mapping[Name, Number], needs: Needs = ()) -> None:
        self.number = numbered(parts, 1, 500, "parts")
        self.product_number = numbered(products, 0, 1000, "products")
        self.needs = known_needs(needs, self.product_number, self.number, 5000)
        self.cost = exact_values("cost", parts)
        self.gain = exact_values("gain", products)
        self.cost_scale = scale_of("cost", self.cost.items(), 1, MILLION)
        self.gain_scale = scale_of("gain", self.gain.items(), 1, MILLION)

    def gained(self, selection: Iterable[Name]) -> list[Name]:
        """The products all of whose parts are in the selection, in the order in which they were given."""
        held = set(selection)
        lacking = {product for product, part in self.needs if part not in held}
        return [product for product in self.product_number if product not in lacking]

    def text(self) -> str:
        """The problem as the program reads it."""
        return write([
            ("p select", len(self.number), len(self.product_number), len(self.needs)),
            *(("v", self.number[part], cost * self.cost_scale) for part, cost in self.cost.items()),
            *(("g", self.product_number[product], gain * self.gain_scale) for product, gain in self.gain.items()),
            *(("r", self.product_number[product], self.number[part]) for product, part in self.needs)])

    @classmethod
    def from_networkx(cls, graph: Any, cost: str = "cost", gain: str = "gain") -> Selection:
        """From a bipartite graph: a node with a gain is a product, any other is a part and has a cost."""
        nodes = dict(graph.nodes(data=True))
        products = {node: data[gain] for node, data in nodes.items() if gain in data}
        parts = {node: attribute(data, cost, node) for node, data in nodes.items() if node not in products}
        needs = [(first, second) if first in products else (second, first) for first, second in graph.edges()]
        return cls(parts, products, needs)

    @classmethod
    def from_csv(cls, parts: File, products: File) -> Selection:
        """From rows `part,cost` and rows `product,gain[,needs]`, the needed parts divided by semicolons."""
        rows = read_named_rows(products, 3)
        gains: dict[Name, Number] = {product: gain for product, gain, _ in rows}
        return cls(read_numbers(parts), gains, {product: split_names(needs) for product, _, needs in rows})
