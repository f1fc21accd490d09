"""The words that ask the program, and what each command takes."""
from __future__ import annotations

from collections.abc import Callable
from fractions import Fraction
from typing import Any, NamedTuple

from ppart import answers
from ppart.errors import OutOfRange, WrongKind
from ppart.numbers import Number, brief, exact
from ppart.problems import Closure, Graph, Network, Problem, Selection, Sharing
from ppart.problems.names import limit
from ppart.problems.network import must_be_within
from ppart.problems.scaling import BILLION

# The product of the denominators of the interval and of the number of steps.
FINEST_STEPS = 2**40


def parameter_word(network: Any, x: Number) -> str:
    """The word for a parameter of `at`, which is within the network's interval, or OutOfRange.

    >>> parameter_word(Network([("a", "b", 1)], "a", "b", 0, 10), "2.5")
    '5/2'
    """
    value = exact(x, "the parameter")
    must_be_within(value, network)
    return fraction_word(value, "the parameter")


def level_word(graph: Any, level: Number) -> str:
    """The word for a level of `reinforce`, which is given in units of weight and at least 0, or OutOfRange."""
    value = exact(level, "the level")
    if value < 0:
        raise OutOfRange(f"the level is {brief(value)}, below 0", level)
    return fraction_word(value * graph.scale, "the level")


def steps_word(network: Any, steps: Number) -> str:
    """The word for the number of steps of `sweep`, or OutOfRange."""
    word = count_word(steps, 100000, "the number of steps")
    if network.low.denominator * network.high.denominator * int(word) > FINEST_STEPS:
        raise OutOfRange("the steps are too fine: the product of their number and of the denominators of the interval "
                         f"is above {FINEST_STEPS}", steps)
    return word


def trees_word(graph: Any, count: Number) -> str:
    """The word for the number of trees, or OutOfRange."""
    return count_word(count, 500, "the number of trees")


def fraction_word(value: Fraction, what: str) -> str:
    """A fraction as a word, or OutOfRange above 9 digits."""
    if max(abs(value.numerator), value.denominator) > BILLION:
        taken = f"-{BILLION} to {BILLION} by 1 to {BILLION}"
        raise OutOfRange(f"{what} is {brief(value)}; the program takes {taken}", value)
    return f"{value.numerator}/{value.denominator}"


def count_word(count: Number, most: int, what: str) -> str:
    """A whole number from 1 to `most` as a word, or OutOfRange."""
    value = exact(count, what)
    if value.denominator != 1 or not 1 <= value <= most:
        raise OutOfRange(f"{what} is {brief(value)}; the program takes 1 to {most}", count)
    return str(value)


class Command(NamedTuple):
    """What a command takes: kinds of problems, and perhaps an argument; and the class of its answer.

    `small` commands take graphs of 2 to 100 vertices and at most 500 edges. `argument` says what the argument is, and
    `word` makes a word of it.
    """
    answer: type[answers.Answer[Any]]
    takes: tuple[type[Problem], ...]
    small: bool = False
    argument: str = ""
    word: Callable[[Any, Number], str] | None = None


COMMANDS = {
    "at": Command(answers.LeastCut, (Network,), argument="the parameter", word=parameter_word),
    "curve": Command(answers.Curve, (Network,)),
    "sweep": Command(answers.Sweep, (Network,), argument="the number of steps", word=steps_word),
    "closure": Command(answers.CheapestClosure, (Closure,)),
    "select": Command(answers.Schedule, (Selection,)),
    "share": Command(answers.FairShares, (Sharing,)),
    "densest": Command(answers.DensestSet, (Graph,)),
    "strength": Command(answers.Strength, (Graph,), small=True),
    "partition": Command(answers.PrincipalPartition, (Graph,), small=True),
    "reinforce": Command(answers.Reinforcement, (Graph,), small=True, argument="the level", word=level_word),
    "trees": Command(answers.SpanningTrees, (Graph,), small=True, argument="the number of trees", word=trees_word),
    "layers": Command(answers.LayerList, (Graph, Closure)),
}


def words_for(name: str, problem: Problem, argument: Number | None = None) -> tuple[str, ...]:
    """The words that ask for this. Raises WrongKind or OutOfRange for what the program does not take.

    >>> words_for("curve", Network([("a", "b", 1)], "a", "b", 0, 10))
    ('curve',)
    """
    command = command_named(name)
    if not isinstance(problem, command.takes):
        raise WrongKind(f"{name} takes a {command.takes[0].__name__}, not a {type(problem).__name__}", problem)
    if command.small and isinstance(problem, Graph):
        limit(len(problem.number), 2, 100, f"vertices for {name}")
        limit(len(problem.edges), 0, 500, f"edges for {name}")
    if (argument is None) != (command.word is None):
        raise WrongKind(f"{name} takes {command.argument or 'no argument'}", name)
    if argument is None or command.word is None:
        return (name,)
    return name, command.word(problem, argument)


def command_named(name: str) -> Command:
    """The command of this name. Raises WrongKind for any other name."""
    if name not in COMMANDS:
        raise WrongKind(f"there is no command {name}, only {', '.join(COMMANDS)}", name)
    return COMMANDS[name]


def read_answer(name: str, problem: Problem, raw: str, argument: Number | None = None) -> answers.Answer[Any]:
    """The answer that is stored in a text: what the program once wrote for this command and this problem.

    Raises BadAnswer for a text that is no answer, and what `words_for` raises. It does not ask whether the answer is
    right; `check` of the answer does, where there is one.

    >>> network = Network([("a", "b", 0, 1), ("b", "c", 4)], "a", "c", 0, 2)
    >>> read_answer("at", network, "o at\\nb 1 1 1\\ns 0 1 100\\nf 1 1\\nend\\n", 1).value
    Fraction(1, 1)
    """
    words = words_for(name, problem, argument)
    return command_named(name).answer(problem, words, raw)
