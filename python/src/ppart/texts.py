"""Texts as the program reads and writes them: lines of fields (docs/FORMATS.md)."""
from __future__ import annotations

import re
from collections.abc import Iterable, Sequence
from fractions import Fraction

WHOLE = re.compile("-?[0-9]+")


def whole(field: str) -> int:
    """The number of a field. Raises ValueError where the program would see none, as for +5.

    >>> whole("-07")
    -7
    """
    if not WHOLE.fullmatch(field):
        raise ValueError(f"{field[:40]!r} is no number")
    return int(field)


def fraction(fields: Sequence[str]) -> Fraction:
    """The fraction of the first two fields.

    >>> fraction(["7", "2", "34"])
    Fraction(7, 2)
    """
    return Fraction(whole(fields[0]), whole(fields[1]))


def fields_of(line: str) -> list[str]:
    """The fields of a line: what stands between spaces, tabs and carriage returns."""
    return [field for field in re.split("[ \t\r]", line) if field]


class Lines:
    """The lines of a text up to `end`: `first` is the header, `rows` the fields behind each first field.

    With `comments`, as problems have them, lines that begin with c are skipped; answers have none.
    """

    def __init__(self, text: str, comments: bool = True) -> None:
        self.first: list[str] = []
        self.rows: dict[str, list[list[str]]] = {}
        self.ended = False
        for line in text.split("\n"):
            fields = fields_of(line)
            if not fields or comments and fields[0] == "c":
                continue
            if self.ended:
                raise ValueError("a line stands after `end`")
            if not self.first:
                self.first = fields
            elif fields == ["end"]:
                self.ended = True
            else:
                self.rows.setdefault(fields[0], []).append(fields[1:])

    def all(self, first: str) -> list[list[str]]:
        """The fields of all lines that begin with this field, without it."""
        return self.rows.get(first, [])

    def one(self, first: str) -> list[str]:
        """The fields of the only such line. Raises ValueError if there is none, or another."""
        found = self.all(first)
        if len(found) != 1:
            raise ValueError(f"it has {len(found)} lines {first}, and should have one")
        return found[0]

    def counted(self, first: str, count: int) -> list[list[str]]:
        """All such lines. Raises ValueError if there are not so many."""
        found = self.all(first)
        if len(found) != count:
            raise ValueError(f"it has {len(found)} lines {first}, and should have {count}")
        return found

    def count(self) -> int:
        """The number on the line k."""
        return whole(self.one("k")[0])

    def numbers(self, first: str, width: int) -> list[list[int]]:
        """The numbers of all such lines, so many on each. Raises ValueError for another line."""
        found = [[whole(field) for field in fields] for fields in self.all(first)]
        if any(len(numbers) != width for numbers in found):
            raise ValueError(f"a line {first} has not {width} numbers")
        return found

    def by_number(self, first: str, width: int) -> dict[int, list[int]]:
        """The numbers of all such lines by the first of them. Raises ValueError if one is given twice."""
        rows = self.numbers(first, width)
        found = {numbers[0]: numbers[1:] for numbers in rows}
        if len(found) != len(rows):
            raise ValueError(f"two lines {first} have the same first number")
        return found


def write(rows: Iterable[Iterable[object]]) -> str:
    r"""A text of these lines, and `end`.

    >>> write([("p graph", 2, 1), ("e", 1, 2, 5)])
    'p graph 2 1\ne 1 2 5\nend\n'
    """
    lines = [" ".join(str(field) for field in row) for row in rows]
    return "".join(f"{line}\n" for line in [*lines, "end"])
