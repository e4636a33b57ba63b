"""Engines that make the instances of a batch: this process, several processes of this machine, or
the workers of a Dask scheduler."""
from __future__ import annotations

import multiprocessing
import os
import signal
import sys
import threading
from concurrent.futures import (FIRST_COMPLETED, BrokenExecutor, Executor, Future,
                                ProcessPoolExecutor, wait)
from contextlib import contextmanager
from itertools import islice
from multiprocessing.connection import wait as wait_for
from typing import Any, Callable, Generator, Iterator, Sequence

from pit_tools.batches.making import Failed
from pit_tools.errors import UserError

#: Seconds for a process to remove what it was making.
PATIENCE = 5

#: The step for each entry: a function of a module, or a partial of one. It returns what is made, or
#: Failed.
Step = Callable[[Any], Any]

#: Runs a step on entries, and yields each result as soon as there is one, in any order.
Engine = Callable[[Step, Sequence[Any]], Generator[Any, None, None]]


def in_turn(step: Step, entries: Sequence[Any]) -> Generator[Any, None, None]:
    """One entry after the other, in this process."""
    yield from map(step, entries)


def by_processes(jobs: int) -> Engine:
    """Runs the given number of steps at a time, each in its own process. A program that uses this
    needs the usual `if __name__ == "__main__":`, since each process loads it."""

    def engine(step: Step, entries: Sequence[Any]) -> Generator[Any, None, None]:
        with _processes(min(jobs, max(1, len(entries)))) as executor:
            yield from _through(executor, jobs, step, entries)

    return engine


@contextmanager
def _processes(jobs: int) -> Iterator[Executor]:
    """Processes that end with this one: they get a signal if an exception leaves the block, and
    notice if this one is killed. They start from a new interpreter: a copy of this one would miss
    the threads that libraries have started, as HiGHS does, and could wait for them for ever.
    """
    others = set(multiprocessing.active_children())
    context = multiprocessing.get_context("forkserver")
    context.set_forkserver_preload(["pandas", "scipy.optimize", "scipy.sparse"])
    executor = ProcessPoolExecutor(jobs, context, _end_with_parent)
    # A new interpreter would look for the modules of Python in the current folder first.
    before = os.environ.get("PYTHONSAFEPATH")
    os.environ["PYTHONSAFEPATH"] = "1"
    try:
        yield executor
    except BaseException:
        for process in set(multiprocessing.active_children()) - others:
            process.terminate()
        raise
    finally:
        if before is None:
            del os.environ["PYTHONSAFEPATH"]
        executor.shutdown(cancel_futures=True)


def _end_with_parent() -> None:
    """Leaves Ctrl-C to the first process, which ends the others by TERM."""
    parent = multiprocessing.parent_process()
    signal.signal(signal.SIGINT, signal.SIG_IGN)
    signal.pthread_sigmask(signal.SIG_UNBLOCK, {signal.SIGINT})
    signal.signal(signal.SIGTERM, _end)

    def watch() -> None:
        if parent is not None:
            wait_for([parent.sentinel])
        os._exit(1)  # pylint: disable=protected-access

    threading.Thread(target=watch, daemon=True).start()


def _end(_number: int, _frame: object) -> None:
    """Ends a process by an exception, so that unfinished work is removed. The executor treats that
    as an error of the instance, and continues to wait for the next one, perhaps for a lock that
    another process had when it ended: so the system ends it a while later."""
    signal.signal(signal.SIGALRM, signal.SIG_DFL)
    signal.alarm(PATIENCE)
    sys.exit(143)


def by_dask(address: str) -> Engine:
    """Runs steps on the workers of the scheduler at this address, which see the folder of the batch
    by the same path, and have the same programs and packages. If a worker ends, another makes its
    instance.

    Raises UserError if the package is missing, no scheduler responds at the address, or there is no
    worker."""
    try:
        import distributed
    except ImportError:
        raise UserError("--scheduler needs the Python package distributed: apt-get install "
                        "--no-install-recommends python3-distributed") from None

    def engine(step: Step, entries: Sequence[Any]) -> Generator[Any, None, None]:
        try:
            client = distributed.Client(address, timeout=10, set_as_default=False)
        except (OSError, ValueError) as error:
            raise UserError(f"--scheduler: no scheduler responds at {address}: {error}") from None
        with client:
            workers = client.scheduler_info()["workers"].values()
            if not workers:
                raise UserError(f"--scheduler: the scheduler at {address} has no worker")
            threads = sum(worker["nthreads"] for worker in workers)
            yield from _through(client.get_executor(pure=False), 2 * threads, step, entries)

    return engine


def _through(executor: Executor, width: int, step: Step, entries: Sequence[Any]) -> Iterator[Any]:
    """Yields what an executor makes, with at most `width` instances under way, so that little is
    lost at an end."""
    waiting = iter(entries)
    running: dict[Future, Any] = {}
    while True:
        # A process that is being started for it would report Ctrl-C.
        mask = signal.pthread_sigmask(signal.SIG_BLOCK, {signal.SIGINT})
        try:
            for entry in islice(waiting, width - len(running)):
                running[executor.submit(step, entry)] = entry
        finally:
            signal.pthread_sigmask(signal.SIG_SETMASK, mask)
        if not running:
            return
        for future in wait(running, return_when=FIRST_COMPLETED).done:
            entry = running.pop(future)
            error = future.exception()
            if isinstance(error, BrokenExecutor):
                raise UserError("a process of the batch was ended from outside, perhaps because "
                                "memory ran out: --continue keeps what is complete")
            if error and not isinstance(error, Exception):
                raise error
            yield (Failed(entry, f"it was not made: {type(error).__name__}: {error}") if error
                   else future.result())
