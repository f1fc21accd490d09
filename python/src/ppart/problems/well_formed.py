"""Errors of reading what is not well formed."""
from __future__ import annotations

from collections.abc import Iterator
from contextlib import contextmanager

from ppart.errors import Error, Unreadable


@contextmanager
def well_formed(what: str) -> Iterator[None]:
    """Turns the errors of Python on what is not well formed into Unreadable; those of this package stay."""
    try:
        yield
    except Error:
        raise
    except (LookupError, TypeError, ValueError, ZeroDivisionError) as error:
        raise Unreadable(f"{what} is not well formed: {error}", what) from error
