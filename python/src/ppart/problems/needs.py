"""Needs: which item needs which one, or which product needs which part."""
from __future__ import annotations

from collections.abc import Iterable, Mapping
from typing import Any

from ppart.problems.names import Name, limit, must_know

# Pairs, or a dict from what needs to all that it needs. Not any Mapping, since edges of networkx are one too.
Needs = dict[Any, Any] | Iterable[tuple[Name, Name]]


def pairs_of(needs: Needs) -> list[tuple[Name, Name]]:
    """The needs as pairs.

    >>> pairs_of({"toys": ["saw", "bench"]})
    [('toys', 'saw'), ('toys', 'bench')]
    """
    if isinstance(needs, dict):
        return [(user, used) for user, all_used in needs.items() for used in all_used]
    return [(user, used) for user, used in needs]


def known_needs(needs: Needs, users: Mapping[Name, int], used: Mapping[Name, int],
                most: int) -> list[tuple[Name, Name]]:
    """The needs as pairs, whose names are among `users` and `used`. Raises UnknownName, and OutOfRange above `most`."""
    found = pairs_of(needs)
    for one, other in found:
        must_know(users, one, f"what needs {other}")
        must_know(used, other, f"what {one} needs")
    limit(len(found), 0, most, "needs")
    return found
