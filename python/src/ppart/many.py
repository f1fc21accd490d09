"""Many problems at once, through any executor of `concurrent.futures`."""
from __future__ import annotations

import os
from collections import deque
from collections.abc import Callable, Iterable, Iterator, Sized
from concurrent.futures import Executor, Future, ThreadPoolExecutor
from dataclasses import dataclass
from typing import Any, NamedTuple

from ppart.answers import Answer
from ppart.errors import Error
from ppart.numbers import Number
from ppart.problems import Problem
from ppart.program import Program, run
from ppart.words import command_named, words_for


@dataclass(frozen=True)
class Outcome:
    """A problem with its answer or, where there is none, with what went wrong."""
    problem: Problem
    answer: Answer[Any] | None = None
    error: Error | None = None


class Job(NamedTuple):
    """What a worker has to do: run the program on a text."""
    words: tuple[str, ...]
    text: str
    program: Program | None
    timeout: float | None


class Waiting(NamedTuple):
    """A problem whose outcome is not there yet: its job, and where a worker puts what the program wrote."""
    problem: Problem
    job: Job
    future: Future[str | Error]


def do(job: Job) -> str | Error:
    """Does a job. It raises no error of this package, so that what is raised beside it is the executor's."""
    try:
        return run(job.words, job.text, job.program, job.timeout)
    except Error as error:
        return error


def solve(problems: Iterable[Problem], command: str, executor: Executor | None = None, *,
          argument: Number | None = None, progress: Callable[[int, int | None], None] | None = None,
          program: Program | None = None, timeout: float | None = None, ahead: int = 256) -> Iterator[Outcome]:
    """Asks the same of all problems, and yields an Outcome for each, in their order.

    Without an `executor` threads start the program, as many as there are processors. They also take what it does not
    take any more, and what its workers lost. `progress` gets how many outcomes there are so far, and how many there
    will be: None if `problems` has no length. At most `ahead` problems are taken before their outcomes, so `problems`
    may be endless; if it raises, the outcomes before come first. `timeout` is in seconds, for each problem. An unknown
    command raises WrongKind.

    >>> from ppart import Graph
    >>> graphs = [Graph([("a", "b", weight)]) for weight in ("0.5", "1.5")]
    >>> [outcome.answer.strength for outcome in solve(graphs, "strength")]
    [Fraction(1, 2), Fraction(3, 2)]
    """
    command_named(command)
    return Asking(command, argument, program, timeout, executor).outcomes(problems, progress, ahead)


class Asking:
    """One command that is asked of many problems, and the executors that do the jobs."""

    def __init__(self, command: str, argument: Number | None, program: Program | None, timeout: float | None,
                 executor: Executor | None) -> None:
        self.command = command
        self.argument = argument
        self.program = program
        self.timeout = timeout
        self.threads = ThreadPoolExecutor(os.cpu_count())
        self.executor = executor or self.threads

    def outcomes(self, problems: Iterable[Problem], progress: Callable[[int, int | None], None] | None,
                 ahead: int) -> Iterator[Outcome]:
        """The outcomes of all problems, in their order."""
        total = len(problems) if isinstance(problems, Sized) else None
        source = iter(problems)
        waiting: deque[Waiting | Outcome] = deque()
        ended: Exception | None = None
        done = 0
        try:
            while True:
                while ended is None and len(waiting) < ahead:
                    try:
                        waiting.append(self.begin(next(source)))
                    except Exception as raised:  # StopIteration, or what the problems raise
                        ended = raised
                if not waiting:
                    break
                first = waiting.popleft()
                outcome = first if isinstance(first, Outcome) else self.finish(first)
                done += 1
                if progress:
                    progress(done, total)
                yield outcome
            if ended and not isinstance(ended, StopIteration):
                raise ended
        finally:
            for left in waiting:
                if isinstance(left, Waiting):
                    left.future.cancel()
            self.threads.shutdown(cancel_futures=True)

    def begin(self, problem: Problem) -> Waiting | Outcome:
        """Gives the problem to the executor, or to the threads if the executor takes no more.

        If the problem is unfit, that is its outcome.
        """
        try:
            words = words_for(self.command, problem, self.argument)
        except Error as error:
            return Outcome(problem, error=error)
        job = Job(words, problem.text(), self.program, self.timeout)
        try:
            return Waiting(problem, job, self.executor.submit(do, job))
        except Exception:  # it is closed, or broken
            return Waiting(problem, job, self.threads.submit(do, job))

    def finish(self, waiting: Waiting) -> Outcome:
        """The outcome of a problem, once it is there."""
        found = self.result(waiting)
        if isinstance(found, Error):
            return Outcome(waiting.problem, error=found)
        try:
            answer = command_named(self.command).answer(waiting.problem, waiting.job.words, found)
        except Error as error:
            return Outcome(waiting.problem, error=error)
        return Outcome(waiting.problem, answer)

    def result(self, waiting: Waiting) -> str | Error:
        """What the worker gave or, if the worker is gone or what it sent was lost, what a thread here gives."""
        try:
            return waiting.future.result()
        except Exception:
            return self.threads.submit(do, waiting.job).result()
