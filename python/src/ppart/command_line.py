"""The command line: tables with names, pictures, and refusals explained. See `python3 -m ppart --help`."""
from __future__ import annotations

import argparse
import os
import sys
from concurrent.futures import ThreadPoolExecutor
from typing import Any

from ppart.errors import Error, OutOfRange, Refused, Unfit, Usage
from ppart.explain import explain
from ppart.many import Outcome, solve
from ppart.moving import MovingLine
from ppart.numbers import exact
from ppart.problems import Closure, Graph, Network, Problem, Selection, Sharing, read
from ppart.program import run
from ppart.tables import table
from ppart.words import COMMANDS

# The exit codes: a check says no, words without a form, something has no answer.
SAYS_NO = 1
NO_FORM = 2
NO_ANSWER = 3


def options() -> argparse.ArgumentParser:
    """What the command line takes."""
    parser = argparse.ArgumentParser("python3 -m ppart", description="Asks ppart, with names and exact decimals. "
                                     "`python3 -m ppart explain WORDS < FILE` says what a refused text has wrong.")
    arguments = [f"{name}: {command.argument}" for name, command in COMMANDS.items() if command.argument]
    parser.add_argument("command", choices=COMMANDS)
    parser.add_argument("argument", nargs="?", help="; ".join(arguments))
    parser.add_argument("--csv", metavar="FILE", help="tail,head,capacity[,slope] | item,cost,weight,needs | part,cost "
                        "| vertex,vertex[,weight[,price]]")
    parser.add_argument("--more", metavar="FILE", help="source,weight | product,gain,needs | vertex,cost")
    parser.add_argument("--text", metavar="FILE", nargs="+",
                        help="texts of the program, - for standard input, instead of CSV")
    parser.add_argument("--items", action="store_true", help="layers of items (a closure) rather than of a graph")
    parser.add_argument("--source", metavar="NAME")
    parser.add_argument("--sink", metavar="NAME")
    parser.add_argument("--low", metavar="X", help="the low end of the interval; without it, at takes its parameter")
    parser.add_argument("--high", metavar="X", help="the high end; without it, at takes its parameter and 1 more")
    parser.add_argument("--picture", metavar="FILE", help="an SVG, PNG or PDF file")
    parser.add_argument("--check", action="store_true", help="let the program check its answer")
    parser.add_argument("--timeout", type=positive, metavar="SECONDS", help="how long the program may take for a problem")
    parser.add_argument("--jobs", type=positive, default=os.cpu_count(), metavar="N", help="how many texts at once")
    return parser


def positive(word: str) -> int:
    """A whole number above 0. Raises ValueError for another word, of which argparse tells."""
    number = int(word)
    if number < 1:
        raise ValueError
    return number


def main(arguments: list[str]) -> int:
    """Does what these words ask, and returns the exit code."""
    if arguments[:1] == ["explain"]:
        return explain_text(arguments[1:])
    parser = options()
    asked = parser.parse_args(arguments)
    paths = asked.text or [asked.csv]
    if paths == [None]:
        parser.error("give a problem: --csv FILE or --text FILE")
    if asked.picture and len(paths) > 1:
        parser.error("--picture is for one problem")
    if asked.picture:
        must_draw(asked.picture)
    status = 0
    for path, outcome in zip(paths, outcomes(paths, asked)):
        if len(paths) > 1:
            print(f"== {path}", flush=True)
        where = f"ppart: {path}: " if len(paths) > 1 else "ppart: "
        status = max(status, tell(outcome, asked, where))
    return status


def must_draw(path: str) -> None:
    """Raises Unfit or WrongKind, before any work, where no picture can be written to this path."""
    try:
        from ppart import pictures  # takes matplotlib, which other uses need not have
    except ImportError as error:
        raise Unfit(f"pictures take matplotlib (Debian: python3-matplotlib): {error}", path) from error
    pictures.must_be_picture(path)


def explain_text(words: list[str]) -> int:
    """Runs the program with these words on standard input, and says what a refused text has wrong."""
    try:
        print(run(words, sys.stdin.buffer.read()), end="")
    except Refused as refused:
        print(explain(words, refused), file=sys.stderr)
        return NO_ANSWER
    return 0


def outcomes(paths: list[str], asked: argparse.Namespace) -> list[Outcome | Exception]:
    """For each path its outcome, or why there is no problem."""
    found = [load(path, asked) for path in paths]
    problems = [problem for problem in found if not isinstance(problem, Exception)]
    with ThreadPoolExecutor(asked.jobs) as threads, MovingLine(sys.stderr) as line:
        solved = list(solve(problems, asked.command, threads, argument=asked.argument, progress=line.progress,
                            timeout=asked.timeout))
    in_order = iter(solved)
    return [problem if isinstance(problem, Exception) else next(in_order) for problem in found]


def load(path: str, asked: argparse.Namespace) -> Problem | Exception:
    """The problem of a text or of CSV files, or why there is none."""
    try:
        if not asked.text:
            return from_csv(asked)
        if path == "-":
            return read(sys.stdin.read())
        with open(path, encoding="utf-8", errors="replace") as file:
            return read(file.read())
    except (Error, OSError) as error:
        return error


def from_csv(asked: argparse.Namespace) -> Problem:
    """The problem of the CSV files. Raises Unfit where an option is missing."""
    takes = COMMANDS[asked.command].takes
    kind = takes[-1] if asked.items else takes[0]
    if kind is Network:
        return network_from_csv(asked)
    if kind is Sharing:
        must_have(asked, "sink", "more")
        return Sharing.from_csv(asked.csv, asked.sink, asked.more)
    if kind is Selection:
        must_have(asked, "more")
        return Selection.from_csv(asked.csv, asked.more)
    if kind is Closure:
        return Closure.from_csv(asked.csv)
    return Graph.from_csv(asked.csv, asked.more)


def network_from_csv(asked: argparse.Namespace) -> Network:
    """The network of the CSV file. For `at` the interval may be left out: then it begins with the parameter."""
    low = asked.low
    high = asked.high
    if asked.command == "at" and asked.argument is not None:
        low = low or asked.argument
        high = high or str(exact(asked.argument, "the parameter") + 1)
    else:
        must_have(asked, "low", "high")
    must_have(asked, "source", "sink")
    try:
        return Network.from_csv(asked.csv, asked.source, asked.sink, low, high)
    except OutOfRange as error:
        if asked.low and asked.high:
            raise
        raise Unfit(f"{error.said}; give --low and --high, an interval on which all fits", error.about) from None


def must_have(asked: argparse.Namespace, *names: str) -> None:
    """Raises Unfit unless all these options are given."""
    lacking = [f"--{name}" for name in names if getattr(asked, name) is None]
    if lacking:
        raise Unfit(f"{asked.command} from CSV files takes {' and '.join(lacking)} too")


def tell(outcome: Outcome | Exception, asked: argparse.Namespace, where: str) -> int:
    """Prints the table of an answer or the error, does what else was asked, and returns the exit code."""
    error = outcome if isinstance(outcome, Exception) else outcome.error
    if error is None and isinstance(outcome, Outcome):
        try:
            return tell_answer(outcome.answer, asked)
        except BrokenPipeError:
            raise
        except (Error, OSError) as raised:
            error = raised
    print(f"{where}{error}", file=sys.stderr, flush=True)
    return NO_FORM if isinstance(error, Usage) else NO_ANSWER


def tell_answer(answer: Any, asked: argparse.Namespace) -> int:
    """Prints the table of an answer, draws and checks it if that was asked, and returns the exit code."""
    print(table(answer))
    if asked.picture:
        from ppart import pictures
        pictures.save(pictures.picture(answer), asked.picture)
    if not asked.check:
        return 0
    is_right = answer.check(timeout=asked.timeout)
    print("checked:", "yes" if is_right else "no")
    return 0 if is_right else SAYS_NO
