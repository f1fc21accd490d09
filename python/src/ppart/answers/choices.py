"""Answers about items, products and sources: the cheapest closure, the schedule over prices, the fair shares."""
from __future__ import annotations

from bisect import bisect_left
from fractions import Fraction

from ppart.answers.answer import Answer
from ppart.errors import OutOfRange
from ppart.numbers import Number, exact
from ppart.problems import Closure, Name, Selection, Sharing
from ppart.problems.names import chosen
from ppart.texts import Lines, fraction, whole


class CheapestClosure(Answer[Closure]):
    """The least `ratio` of a closure, cost for each unit of weight, and the greatest one that has it: `items`."""
    command = "closure"
    checked = True

    ratio: Fraction
    items: frozenset[Name]

    def read(self, lines: Lines) -> None:
        """Reads the lines r and s."""
        self.ratio = fraction(lines.one("r")) * self.problem.weight_scale / self.problem.cost_scale
        self.items = chosen(self.problem.number, lines.one("s")[0])


class Schedule(Answer[Selection]):
    """The best selections of parts over rising prices, a price being a gain for each unit of cost.

    `selections[j]` is the greatest best one above `prices[j - 1]`, up to and at `prices[j]`; `worths[j]` is what it is
    worth at `prices[j]`, in units of gain.
    """
    command = "select"
    checked = True

    prices: list[Fraction]
    worths: list[Fraction]
    selections: list[frozenset[Name]]

    def read(self, lines: Lines) -> None:
        """Reads the lines k, b and s."""
        cost_scale = self.problem.cost_scale
        gain_scale = self.problem.gain_scale
        self.prices = []
        self.worths = []
        for _, p, q, worth in lines.counted("b", lines.count()):
            self.prices.append(fraction([p, q]) * cost_scale / gain_scale)
            self.worths.append(whole(worth) / (whole(q) * gain_scale))
        sides = lines.counted("s", lines.count() + 1)
        self.selections = [chosen(self.problem.number, side) for _, side in sides]

    def at(self, price: Number) -> frozenset[Name]:
        """The greatest best selection at this price; at the price 0 the least best one. OutOfRange below 0."""
        value = exact(price, "the price")
        if value < 0:
            raise OutOfRange(f"the price {price} is below 0", price)
        return self.selections[bisect_left(self.prices, value)]

    def worth(self, price: Number) -> Fraction:
        """What the best selection is worth at this price, in units of gain. OutOfRange below 0."""
        selection = self.at(price)
        gained = sum((self.problem.gain[product] for product in self.problem.gained(selection)), Fraction(0))
        spent = sum((self.problem.cost[part] for part in selection), Fraction(0))
        return gained - exact(price) * spent


class FairShares(Answer[Sharing]):
    """The fair share of each source, in units of capacity.

    `levels` rise, in capacity for each unit of weight; `groups[j]` are the sources held back at `levels[j]`; `shares`
    are by source, each its level times its weight.
    """
    command = "share"
    checked = True

    levels: list[Fraction]
    groups: list[list[Name]]
    shares: dict[Name, Fraction]

    def read(self, lines: Lines) -> None:
        """Reads the lines k, l, m and x."""
        problem = self.problem
        name = [None, *problem.number]
        unit = problem.weight_scale / problem.scale
        self.levels = [fraction(fields[1:]) * unit for fields in lines.counted("l", lines.count())]
        self.shares = {}
        for source, p, q in lines.counted("x", len(problem.weight)):
            self.shares[name[whole(source)]] = fraction([p, q]) / problem.scale
        group = {node: whole(field) for node, field in zip(problem.number, lines.one("m"), strict=True)}
        self.groups = []
        for j in range(1, len(self.levels) + 1):
            self.groups.append([source for source in self.shares if group[source] == j])
