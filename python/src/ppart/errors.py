"""All that can go wrong: a class for each thing, below `Error`, with what it is about and what to do."""
from __future__ import annotations


class Error(Exception):
    """The base of all errors of this package.

    `about` is the arc, edge, node, name or file that the error is about, or None. `advice` says what to do.
    """
    advice = ""

    def __init__(self, said: str, about: object = None) -> None:
        # Both are arguments of the exception, so that it can be pickled and come back from another process.
        super().__init__(said, about)
        self.said = said
        self.about = about

    def __str__(self) -> str:
        return f"{self.said}; {self.advice}" if self.advice else self.said


class Unfit(Error, ValueError):
    """Something that the program does not take, told before it is called."""


class NotExact(Unfit, TypeError):
    """A float, an infinity, or no number at all."""
    advice = "write numbers as int, Fraction, Decimal or text such as '0.1'"


class OutOfRange(Unfit):
    """Too large, too small or too many; or too fine, once all numbers of a kind are whole by one factor."""
    advice = "choose another unit, or round the numbers"


class UnknownName(Unfit):
    """A name that stands nowhere else in the problem."""
    advice = "names that are equal in Python are the same; nodes without arcs are given by themselves"


class BadName(Unfit):
    """A text as a name that is empty, has blanks at its ends or a line feed in it; or a name given twice."""
    advice = "name.strip() takes blanks away; an int or a tuple can be a name too"


class SameEnds(Unfit):
    """Source and sink are the same node, or an edge joins a vertex to itself."""


class InnerSlope(Unfit):
    """A slope on an arc that is neither out of the source nor into the sink, or on one that is both."""
    advice = "only arcs out of the source or into the sink may have slopes; put a node before or behind the others"


class MixedSlopes(Unfit):
    """One arc makes the network rising, another falling."""
    advice = "from the source slopes have one sign and into the sink the other; divide the network or the interval"


class Unreadable(Unfit):
    """A CSV file, a graph or a text that is not of the form that was expected."""


class WrongKind(Error, TypeError):
    """A problem of another kind than the command takes, an argument too many or too few, no check, no picture."""


class Failure(Error, RuntimeError):
    """The program gave no answer."""


class NotFound(Failure):
    """There is no program."""
    advice = "name it in the variable PPART or with program=, or put it on PATH"


class NotBuilt(Failure):
    """There is a launcher, but it has not proved and built the program yet."""
    advice = "run ./ppart once at the top of the repository, which proves and builds it"


class Usage(Failure):
    """The words have no form that the program knows."""


class Refused(Failure):
    """The program refused the text: `cause` says why, `line` counts from 1 or is None, `source` is that line."""

    def __init__(self, cause: str, line: int | None = None, source: str = "") -> None:
        super().__init__(cause, source)
        self.args = (cause, line, source)
        self.cause = cause
        self.line = line
        self.source = source

    def __str__(self) -> str:
        return self.cause if self.line is None else f"line {self.line}: {self.cause}: {self.source}"


class OutOfMemory(Failure):
    """The program ran out of memory."""
    advice = "ask for less at once, or where there is more memory"


class Stopped(Failure):
    """A signal stopped the program."""
    advice = "if nobody did it, the system may have run out of memory"


class TooSlow(Failure):
    """The program did not end within `timeout` seconds, and was stopped."""
    advice = "give a longer timeout=, or ask for less: one parameter rather than all"


class BrokenPipe(Failure):
    """The program could not read its text or write its answer."""
    advice = "something closed a pipe or filled a disk: ask again"


class BadAnswer(Failure):
    """What came is no answer of the program."""
    advice = "is PPART really this program, and of this version?"
