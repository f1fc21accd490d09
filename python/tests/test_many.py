"""Many problems at once: order, errors beside their problems, lost workers, progress."""
import os
import time
from concurrent.futures import Future, ProcessPoolExecutor, ThreadPoolExecutor
from fractions import Fraction

import pytest
import small

import ppart
from ppart import errors, many

pytestmark = pytest.mark.program

GRAPHS = [small.graph(seed) for seed in range(12)]
BAD = ppart.Graph([], vertices=range(101))


def fits(outcomes, problems, command="strength"):
    """All are there, in order, each with the right answer or error."""
    assert [o.problem for o in outcomes] == problems
    for outcome in outcomes:
        assert (outcome.answer is None) != (outcome.error is None)
        if outcome.problem is BAD:
            assert isinstance(outcome.error, errors.OutOfRange)
        else:
            assert outcome.answer.raw == getattr(ppart, command)(outcome.problem).raw


def test_threads():
    problems, seen = [*GRAPHS[:6], BAD, *GRAPHS[6:]], []
    fits(list(ppart.solve(problems, "strength", progress=lambda *p: seen.append(p))), problems)
    assert seen == [(j, 13) for j in range(1, 14)]
    fits(list(ppart.solve(iter(problems), "strength", ThreadPoolExecutor(2), ahead=2, progress=lambda *p: seen.append(p))),
         problems)
    assert seen[-1] == (13, None)
    assert list(ppart.solve([], "curve")) == []


def test_argument():
    for outcome in ppart.solve(GRAPHS, "reinforce", argument="7/3"):
        assert outcome.answer.raw == ppart.reinforce(outcome.problem, Fraction(7, 3)).raw
    (outcome,) = ppart.solve(GRAPHS[:1], "reinforce")
    assert isinstance(outcome.error, errors.WrongKind)


def test_as_they_are_wanted():
    """No more are taken than are wanted, and `ahead` more, so that there may be endlessly many."""
    taken = []

    def very_many():
        for _ in range(10**4):
            taken.append(1)
            yield GRAPHS[0]

    found = ppart.solve(very_many(), "strength", ahead=5)
    for _ in range(3):
        next(found)
    found.close()
    assert len(taken) <= 8


def test_problems_that_raise():
    def problems():
        yield from GRAPHS[:3]
        raise KeyError("the file ends here")

    found = []
    with pytest.raises(KeyError, match="the file ends here"):
        for outcome in ppart.solve(problems(), "strength"):
            found.append(outcome)
    fits(found, GRAPHS[:3])


def test_program_that_fails(fake):
    found = list(ppart.solve(GRAPHS[:3], "strength", program=fake("exec sleep 9"), timeout=0.1))
    assert all(isinstance(o.error, errors.TooSlow) for o in found) and len(found) == 3
    found = list(ppart.solve(GRAPHS[:2], "strength", program=fake("echo o nothing; echo end")))
    assert all(isinstance(o.error, errors.BadAnswer) for o in found)


def test_processes(python_path):
    with ProcessPoolExecutor(2) as pool:
        fits(list(ppart.solve([*GRAPHS, BAD], "strength", pool)), [*GRAPHS, BAD])


class Dying(ProcessPoolExecutor):
    """A pool whose process ends itself at the third job."""
    jobs = 0

    def submit(self, work, *arguments):
        self.jobs += 1
        return super().submit(os._exit, 1) if self.jobs == 3 else super().submit(work, *arguments)


def test_a_worker_that_dies(python_path):
    """The pool is broken from there on, and takes no more jobs; nothing is lost."""
    with Dying(1) as pool:
        fits(list(ppart.solve(GRAPHS, "strength", pool, ahead=4)), GRAPHS)
    fits(list(ppart.solve(GRAPHS, "strength", pool)), GRAPHS)  # it is closed by now


def test_other_executors():
    """Whatever has `submit`, as those of dask and mpi4py; here one that loses every second job."""
    class Losing:
        jobs = 0

        def submit(self, work, *arguments):
            self.jobs += 1
            future = Future()
            if self.jobs % 2:
                future.set_result(work(*arguments))
            else:
                future.set_exception(RuntimeError("the worker was lost"))
            return future

    fits(list(ppart.solve(GRAPHS, "strength", Losing())), GRAPHS)


def test_dask(python_path):
    """A local cluster of two processes, one of which is ended in the middle."""
    distributed = pytest.importorskip("distributed")
    with distributed.LocalCluster(n_workers=2, threads_per_worker=1, processes=True, dashboard_address=None,
                                  silence_logs=50) as cluster, distributed.Client(cluster) as client:
        found = []
        for outcome in ppart.solve(GRAPHS * 3, "strength", client.get_executor(), ahead=8):
            found.append(outcome)
            if len(found) == 4:
                worker = next(iter(cluster.workers.values()))
                os.kill(worker.process.pid, 9)
        fits(found, GRAPHS * 3)


def test_a_job_raises_nothing_of_ours(fake):
    assert isinstance(many.do(many.Job(("curve",), "", fake("exit 6"), None)), errors.OutOfMemory)
