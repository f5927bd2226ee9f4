"""Has work done by the processors of this machine, or by the workers of a Dask cluster.

Work is a function of a module that the workers can import, and each job an argument of it. The results come in any order. No job
is lost with a worker: what a killed one had begun is done by another.
"""
from __future__ import annotations

import itertools
import multiprocessing
import os
import signal
import threading
from collections.abc import Callable, Iterable, Iterator
from concurrent.futures import FIRST_COMPLETED, BrokenExecutor, Future, ProcessPoolExecutor, wait
from multiprocessing import connection
from typing import Any, Optional, TypeVar

from .._built import built

Job = TypeVar("Job")
Result = TypeVar("Result")
AHEAD = 4  # how many jobs each worker has, so that none waits for the next
MOST_BREAKS = 3  # how often a job is begun again, one after another
SECONDS = 30  # for which a cluster is waited for


class Failed(Exception):
    """Work that can't be done, and why."""


def results(work: Callable[[Job], Result], jobs: Iterable[Job], processes: int, scheduler: Optional[str] = None) -> Iterator[Result]:
    """What the work makes of each job: in so many processes of this machine, or on the cluster of a scheduler's address."""
    return _on_cluster(work, jobs, scheduler) if scheduler else _on_this_machine(work, jobs, processes)


# ---- this machine


def _depend_on_the_parent() -> None:
    """Leaves interrupts to the parent, and has this process end where the parent was killed: it would wait for work for ever."""
    signal.signal(signal.SIGINT, signal.SIG_IGN)
    threading.Thread(target=_end_with_the_parent, daemon=True).start()


def _end_with_the_parent() -> None:
    parent = multiprocessing.parent_process()
    if parent is not None:
        connection.wait([parent.sentinel])
        os._exit(1)


def _on_this_machine(work: Callable[[Job], Result], jobs: Iterable[Job], processes: int) -> Iterator[Result]:
    """In processes, since threads of Python hinder each other in small jobs. A pool that lost a process is made anew."""
    waiting, breaks = iter(jobs), 0
    while True:
        lost: list[Job] = []
        for result in _by_one_pool(work, waiting, processes, lost):
            breaks = 0
            yield result
        if not lost:
            return
        breaks += 1
        if breaks == MOST_BREAKS:
            raise Failed(f"a worker was killed {MOST_BREAKS} times, one after another")
        waiting = itertools.chain(lost, waiting)


def _by_one_pool(work: Callable[[Job], Result], jobs: Iterator[Job], processes: int, lost: list[Job]) -> Iterator[Result]:
    """The results up to the end, or until a process is killed: `lost` gets the jobs that were begun without a result."""
    begun: dict[Future[Result], Job] = {}
    with ProcessPoolExecutor(processes, initializer=_depend_on_the_parent) as pool:
        try:
            while True:
                for job in itertools.islice(jobs, 0 if lost else AHEAD * processes - len(begun)):
                    begun[_submitted(pool, work, job)] = job
                if not begun:
                    return
                for future in wait(begun, return_when=FIRST_COMPLETED).done:
                    job = begun.pop(future)
                    if isinstance(future.exception(), BrokenExecutor):
                        lost.append(job)
                    else:
                        yield future.result()
        finally:
            pool.shutdown(cancel_futures=True)


def _submitted(pool: ProcessPoolExecutor, work: Callable[[Job], Result], job: Job) -> Future[Result]:
    """The future of a job, also where the pool has just lost a process."""
    try:
        return pool.submit(work, job)
    except BrokenExecutor as error:
        future: Future[Result] = Future()
        future.set_exception(error)
        return future


# ---- a cluster


def _on_cluster(work: Callable[[Job], Result], jobs: Iterable[Job], address: str) -> Iterator[Result]:
    try:
        from distributed import Client, KilledWorker, as_completed
    except ImportError as error:
        raise Failed("a cluster wants Dask's `distributed`, which Debian has as python3-distributed") from error
    try:
        with _client(Client, address) as client:
            client.wait_for_workers(1, timeout=SECONDS)
            _of_one_version(client)
            waiting, flow = iter(jobs), as_completed()

            def begin(count: int) -> None:
                for job in itertools.islice(waiting, count):
                    flow.add(client.submit(work, job, pure=False, retries=MOST_BREAKS))

            begin(max(AHEAD, AHEAD * sum(client.nthreads().values())))
            for future in flow:
                yield future.result()
                future.release()
                begin(1)
    except KilledWorker as error:
        raise Failed(f"workers were killed again and again: {error}") from error
    except (OSError, TimeoutError) as error:
        raise Failed(f"the cluster at {address} has no worker, or doesn't answer: {error}") from error


def _client(connect: Callable[..., Any], address: str) -> Any:
    try:
        return connect(address, timeout=SECONDS)
    except ValueError as error:
        raise Failed(f"{address} is no address of a scheduler, as tcp://HOST:8786 is: {error}") from error


def _of_one_version(client: Any) -> None:
    """Fails where a worker has no such package as this one, or one that was built of something else."""
    try:
        told = client.run(built)
    except (OSError, TimeoutError):
        raise
    except Exception as error:  # what a worker can't import is told as text
        raise Failed(f"a worker lacks what it needs, {error}: its Python wants the wheel") from error
    for worker, other in told.items():
        if other != built():
            raise Failed(f"the worker {worker} has a checker of {other}, and not of {built()}")
