"""Names of nodes, vertices, items, parts and products, and the numbers that they have in a text."""
from __future__ import annotations

from collections.abc import Hashable, Iterable, Mapping

from ppart.errors import BadName, OutOfRange, UnknownName

Name = Hashable


def numbered(names: Iterable[Name], low: int, high: int, what: str) -> dict[Name, int]:
    """Numbers from 1 for names, in the order in which they first come; from `low` to `high` names, or OutOfRange.

    >>> numbered("cab", 1, 9, "vertices")
    {'c': 1, 'a': 2, 'b': 3}
    """
    found = {name: number for number, name in enumerate(dict.fromkeys(names), 1)}
    for name in found:
        if isinstance(name, str) and not is_one_line(name):
            raise BadName(f"the name {name!r} is empty, has blanks at its ends or holds a line feed or the like", name)
    limit(len(found), low, high, what)
    return found


def is_one_line(name: str) -> bool:
    """Whether a table can show the name as it is."""
    return bool(name) and name == name.strip() and name.isprintable()


def limit(count: int, low: int, high: int, what: str) -> None:
    """Raises OutOfRange unless there are from `low` to `high` things of this kind."""
    if not low <= count <= high:
        raise OutOfRange(f"{count} {what}; the program takes {low} to {high}", what)


def must_know(number: Mapping[Name, int], name: Name, what: str) -> None:
    """Raises UnknownName unless the name has a number."""
    if name in number:
        return
    alike = [f", but {other!r} does" for other in number if str(other) == str(name)]
    raise UnknownName(f"{what} is {name!r}, which stands nowhere else{''.join(alike[:1])}", name)


def chosen(number: Iterable[Name], bits: str) -> frozenset[Name]:
    """The names whose character in a set of the program is 1.

    >>> sorted(chosen(["a", "b", "c"], "101"))
    ['a', 'c']
    """
    return frozenset(name for name, bit in zip(number, bits, strict=True) if bit == "1")


def parts_of(number: Iterable[Name], labels: Iterable[str]) -> list[list[Name]]:
    """The parts of a partition, by the labels of its members.

    >>> parts_of(["a", "b", "c"], ["1", "2", "1"])
    [['a', 'c'], ['b']]
    """
    found: dict[str, list[Name]] = {}
    for name, label in zip(number, labels, strict=True):
        found.setdefault(label, []).append(name)
    return list(found.values())
