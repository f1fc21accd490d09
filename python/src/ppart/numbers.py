"""Exact numbers: what people write becomes a Fraction, and Fractions become whole numbers by one factor."""
from __future__ import annotations

import re
from collections.abc import Iterable
from decimal import Decimal
from fractions import Fraction
from math import gcd, lcm
from numbers import Rational

from ppart.errors import NotExact

Number = int | Fraction | Decimal | str

# No number of a problem has more digits; 1e999999999 would fill the memory.
MOST_DIGITS = 1000


def exact(value: Number, what: str = "a number") -> Fraction:
    """The Fraction that an int, a Fraction, a Decimal or a text is. Raises NotExact for anything else.

    `what` is what the error calls the number.

    >>> [str(exact(value)) for value in (3, "0.1", "3/7", "1e6", Decimal("2.50"))]
    ['3', '1/10', '3/7', '1000000', '5/2']
    """
    if isinstance(value, float):
        raise NotExact(f"{what} is the float {value!r}, which is seldom the number that was meant", what)
    try:
        if isinstance(value, Rational):
            return Fraction(int(value.numerator), int(value.denominator))
        if isinstance(value, (Decimal, str)) and not has_many_digits(str(value)):
            return Fraction(value)
    except (ValueError, OverflowError, ZeroDivisionError):
        pass
    raise NotExact(f"{what} is {str(value)[:60]!r}, no exact number", what)


def has_many_digits(text: str) -> bool:
    """Whether the number, written out, would have more than a thousand digits.

    >>> has_many_digits("1e6"), has_many_digits("1e-2000")
    (False, True)
    """
    exponent = re.search(r"[eE]([+-]?\d+)\s*$", text)
    return len(text) > MOST_DIGITS or exponent is not None and abs(int(exponent[1])) > MOST_DIGITS


def common_factor(values: Iterable[Fraction], most: int) -> Fraction:
    """The factor that makes all values whole. It divides too, where they would be above `most` without.

    >>> common_factor([Fraction(1, 6), Fraction(3, 4)], 100)
    Fraction(12, 1)
    >>> common_factor([Fraction(3000), Fraction(7000)], 100)
    Fraction(1, 1000)
    """
    given = list(values)
    denominator = lcm(*(value.denominator for value in given))
    wholes = [value.numerator * (denominator // value.denominator) for value in given]
    if all(abs(whole) <= most for whole in wholes):
        return Fraction(denominator)
    return Fraction(denominator, gcd(*wholes))


def show(value: Fraction) -> str:
    """The exact fraction and, where its denominator is large, a decimal too.

    >>> show(Fraction(12)), show(Fraction(7, 2)), show(Fraction(1, 3000))
    ('12', '7/2', '1/3000 (about 0.000333333)')
    """
    return str(value) if value.denominator < 1000 else f"{value} (about {float(value):.6g})"


def show_line(constant: Fraction, slope: Fraction) -> str:
    """A line in the parameter x.

    >>> show_line(Fraction(18), Fraction(4)), show_line(Fraction(0), Fraction(-1)), show_line(Fraction(3), Fraction(0))
    ('18 + 4 x', '-x', '3')
    """
    if slope == 0:
        return str(constant)
    size = "" if abs(slope) == 1 else f"{abs(slope)} "
    if constant == 0:
        return f"-{size}x" if slope < 0 else f"{size}x"
    sign = "-" if slope < 0 else "+"
    return f"{constant} {sign} {size}x"


def brief(value: Fraction) -> str:
    """The number as an error says it: written out, unless it is longer than a line.

    >>> brief(Fraction(1, 3)), brief(Fraction(1, 10**90))
    ('1/3', 'a number of more than 40 digits')
    """
    short = max(abs(value.numerator), value.denominator) < 10**40
    return str(value) if short else "a number of more than 40 digits"
