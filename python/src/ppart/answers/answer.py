"""What all answers have in common."""
from __future__ import annotations

from collections.abc import Sequence
from typing import ClassVar, Generic, TypeVar

from ppart.errors import BadAnswer, WrongKind
from ppart.problems import Closure, Graph, Network, Selection, Sharing
from ppart.program import Program, run
from ppart.texts import Lines

P = TypeVar("P", Network, Sharing, Graph, Closure, Selection, Graph | Closure)


class Answer(Generic[P]):
    """What the program answered: `problem` and `words` are what it was asked, `raw` is its text.

    Raises BadAnswer for a text that is no answer to these words.
    """

    # The first word that is asked, and whether the program checks its answers.
    command: ClassVar[str]
    checked: ClassVar[bool] = False

    problem: P
    words: tuple[str, ...]
    raw: str

    def __init__(self, problem: P, words: Sequence[str], raw: str) -> None:
        self.problem = problem
        self.words = tuple(words)
        self.raw = raw
        try:
            lines = Lines(raw, comments=False)
            if lines.first != ["o", self.command] or not lines.ended:
                raise ValueError(f"it does not begin with `o {self.command}` and end with `end`")
            self.read(lines)
        except (ArithmeticError, LookupError, ValueError) as error:
            raise BadAnswer(f"the answer to {' '.join(words)} cannot be read: {error}", raw) from error

    def read(self, lines: Lines) -> None:
        """Sets what the answer holds."""
        raise NotImplementedError

    def check(self, *, program: Program | None = None, timeout: float | None = None) -> bool:
        """Whether the program's `check` says yes to this answer. Raises WrongKind where the program has no check."""
        if not self.checked:
            raise WrongKind(f"the program has no check for {self.command}: ask again instead", self.command)
        return run(("check", self.command), self.problem.text() + self.raw, program, timeout) == "o check\nyes\nend\n"

    def __repr__(self) -> str:
        held = [f"{name}={value!r}" for name, value in vars(self).items() if name not in ("problem", "words", "raw")]
        return f"{type(self).__name__}({', '.join(held)})"
