"""CSV files of problems.

A file is a path or an open file. Rows that begin with # are comments, and the first row is a heading if a word stands
where its number should, so edges without weights have no heading. Blanks around fields are dropped.
"""
from __future__ import annotations

import csv
import os
from collections import Counter
from collections.abc import Iterable
from typing import TextIO

from ppart.errors import BadName, NotExact, Unreadable
from ppart.numbers import Number, exact
from ppart.problems.names import Name

File = str | os.PathLike[str] | TextIO


def read_rows(file: File, columns: int, number: int) -> list[list[str]]:
    """The rows of a file, each of so many fields, of which field `number`, from 0, is a number, but in a heading.

    Fields that are missing are empty. What is no CSV file in UTF-8 is Unreadable.
    """
    try:
        if isinstance(file, (str, os.PathLike)):
            with open(file, newline="", encoding="utf-8-sig") as opened:
                return rows_of(csv.reader(opened), columns, number)
        return rows_of(csv.reader(file), columns, number)
    except (UnicodeDecodeError, csv.Error) as error:
        raise Unreadable(f"the CSV file {file} is not well formed: {error}", file) from error


def rows_of(records: Iterable[list[str]], columns: int, number: int) -> list[list[str]]:
    """The rows among these records, without comments, blank rows and a heading."""
    found = []
    for record in records:
        fields = [field.strip() for field in record]
        if any(fields) and not fields[0].startswith("#"):
            found.append((fields + [""] * columns)[:columns])
    if found and is_heading(found[0][number]):
        return found[1:]
    return found


def is_heading(field: str) -> bool:
    """Whether something stands where a number should, which is none.

    >>> is_heading("capacity"), is_heading("0.5"), is_heading("")
    (True, False, False)
    """
    try:
        exact(field or 0)
    except NotExact:
        return True
    return False


def read_named_rows(file: File, columns: int) -> list[list[str]]:
    """The rows of a file whose first field is a name and whose second one is a number. A name twice is a BadName."""
    found = read_rows(file, columns, 1)
    for name, count in Counter(row[0] for row in found).items():
        if count > 1:
            raise BadName(f"the name {name} is given twice", name)
    return found


def read_numbers(file: File) -> dict[Name, Number]:
    """The numbers of a file of rows `name,number`."""
    return {name: value for name, value in read_named_rows(file, 2)}


def split_names(field: str) -> list[Name]:
    """The names that a field lists.

    >>> split_names("saw; bench")
    ['saw', 'bench']
    """
    return [name.strip() for name in field.split(";") if name.strip()]
