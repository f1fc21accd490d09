"""Quantities of problems: exact numbers that become whole in the text, all of one kind by one factor."""
from __future__ import annotations

from collections.abc import Iterable, Mapping
from fractions import Fraction

from ppart.errors import OutOfRange
from ppart.numbers import Number, brief, common_factor, exact
from ppart.problems.names import Name

MILLION = 10**6
BILLION = 10**9


def scale_of(what: str, values: Iterable[tuple[object, Fraction]], low: int, high: int) -> Fraction:
    """The one factor that makes these values whole numbers from `low` to `high`, or OutOfRange.

    Each value comes with what it is the `what` of, for the error.

    >>> scale_of("weight", [("a - b", Fraction(1, 2)), ("b - c", Fraction(1, 3))], 1, 100)
    Fraction(6, 1)
    """
    given = list(values)
    scale = common_factor([value for _, value in given], high)
    unit = "" if scale == 1 else f" units of {brief(1 / scale)}, which all numbers of this kind share"
    lowest = low / scale
    highest = high / scale
    for owner, value in given:
        if not lowest <= value <= highest:
            raise OutOfRange(f"the {what} of {owner} is {brief(value)}; the program takes {low} to {high}{unit}", owner)
    return scale


def exact_values(what: str, values: Mapping[Name, Number]) -> dict[Name, Fraction]:
    """The same values as Fractions. Raises NotExact, which tells the name."""
    return {name: exact(value, f"the {what} of {name}") for name, value in values.items()}
