"""Runs a step in a separate process, which is ended when its time is up: solvers check a time limit
seldom, and nothing in the process that waits for one can stop it.

The process is a new interpreter. A copy of this one would miss the threads that libraries have
started, as HiGHS does, and would wait for them for ever.
"""
from __future__ import annotations

import ctypes
import os
import pickle
import select
import signal
import subprocess
import sys
import threading
import time
from typing import BinaryIO, Callable, Generic, Optional, TypeVar

from pit_tools.errors import UserError

Made = TypeVar("Made")

# The code of the new interpreter: it finds modules in the same folders as this one.
_CODE = ("import pickle, sys; sys.path[:] = pickle.load(sys.stdin.buffer); "
         "from pit_tools.schedules import ended; ended.run_step()")

# The call of Linux that ends a process when its parent has ended.
_PR_SET_PDEATHSIG = 1


class Background(Generic[Made]):
    """A step that runs in a separate process: a function of a module, or a `functools.partial` of
    one. Its changes in memory are lost; its arguments and result must allow pickling."""

    def __init__(self, step: Callable[[], Made]) -> None:
        content = pickle.dumps(sys.path) + pickle.dumps(step)
        # `result` waits for it.
        self.child = subprocess.Popen(  # pylint: disable=consider-using-with
            [sys.executable, "-I", "-c", _CODE], stdin=subprocess.PIPE, stdout=subprocess.PIPE)
        self.writer = threading.Thread(target=_give, args=(self.child.stdin, content), daemon=True)
        self.writer.start()

    def result(self, seconds: Optional[float] = None) -> Optional[Made]:
        """Returns the step's result; None if it needs more seconds. Its process is ended.

        Raises the UserError or MemoryError that the step raises, and UserError if its process ends
        otherwise.
        """
        reader = self.child.stdout
        assert reader is not None
        try:
            content = _read_until(reader.fileno(),
                                  None if seconds is None else time.monotonic() + seconds)
        finally:
            self.child.kill()
            self.child.wait()
            self.writer.join()
            reader.close()
        if content is None:
            return None
        if not content:
            raise UserError("the solver's process ended without a result: did memory run out?")
        found, error = pickle.loads(content)
        if error is not None:
            raise error
        return found


def within(step: Callable[[], Made], seconds: Optional[float] = None) -> Optional[Made]:
    """Returns a step's result within `seconds`, as `Background.result` does."""
    return Background(step).result(seconds)


def _give(pipe: Optional[BinaryIO], content: bytes) -> None:
    """Writes the child's task. A child that has ended needs it no more."""
    assert pipe is not None
    try:
        with pipe:
            pipe.write(content)
    except BrokenPipeError:
        pass


def run_step() -> None:
    """Runs, in the child, the step from standard input, and writes its outcome to the original
    standard output: output of libraries goes to standard error."""
    if sys.platform == "linux":
        ctypes.CDLL(None).prctl(_PR_SET_PDEATHSIG, signal.SIGKILL)
    signal.signal(signal.SIGINT, signal.SIG_DFL)
    result = os.dup(1)
    os.dup2(2, 1)
    step = pickle.load(sys.stdin.buffer)
    outcome: tuple[object, Optional[Exception]]
    try:
        outcome = (step(), None)
    except (UserError, MemoryError) as error:
        outcome = (None, error)
    with os.fdopen(result, "wb") as file:
        pickle.dump(outcome, file)


def _read_until(reader: int, end: Optional[float]) -> Optional[bytes]:
    """Returns all bytes of a pipe; None if the time is up before they begin. A pipe holds some of
    them, and the others follow at once."""
    chunks: list[bytes] = []
    while True:
        left = None if end is None else max(1.0 if chunks else 0.0, end - time.monotonic())
        if not select.select([reader], [], [], left)[0]:
            return None
        chunks.append(os.read(reader, 1 << 20))
        if not chunks[-1]:
            return b"".join(chunks)
