"""A bar on standard error for long work, if that is a terminal; otherwise nothing.

    with progress.shown("survey", 3):
        progress.step("the ultimate pit")
        ...

Steps are reported by the code that does the work; outside `shown` they print nothing. tqdm draws
the bars; without it there are none.
"""
from __future__ import annotations

import sys
import threading
from contextlib import contextmanager
from typing import TYPE_CHECKING, Iterator, Optional

if TYPE_CHECKING:
    from tqdm import tqdm

#: Steps are counted in integers; bytes have a unit and a rate.
_STEPS = "{desc} |{bar:30}| {n_fmt} of {total_fmt}, {elapsed}{postfix}"
_BYTES = "{desc} |{bar:30}| {n_fmt}{unit} of {total_fmt}{unit}, {elapsed}"
_GROWING = "{desc} {n_fmt}{unit}, {rate_fmt}, {elapsed}"


def is_terminal() -> bool:
    """Returns whether standard error is a terminal."""
    try:
        return sys.stderr is not None and sys.stderr.isatty()
    except ValueError:
        return False


def _made(**words: object) -> Optional[tqdm]:
    """A bar, if it is to be seen."""
    if not is_terminal():
        return None
    try:
        from tqdm import tqdm
    except ImportError:
        return None
    # Neither a thread that watches bars nor a lock among processes is needed.
    tqdm.monitor_interval = 0
    tqdm.set_lock(threading.RLock())
    return tqdm(file=sys.stderr, leave=False, dynamic_ncols=True, **words)


class _Steps:
    """A bar of steps, if it is to be seen, and how many of them were begun."""

    #: The one that is shown now.
    now: Optional[_Steps] = None

    def __init__(self, name: str, total: int):
        self.drawn = _made(desc=name, total=total, bar_format=_STEPS)
        self.begun = 0

    def report(self, count: Optional[int], what: str) -> None:
        """Shows the number of finished steps, if that is given, and a text."""
        if self.drawn is not None:
            self.drawn.n = self.drawn.n if count is None else min(count, self.drawn.total)
            self.drawn.set_postfix_str(what)


@contextmanager
def shown(name: str, steps: int) -> Iterator[None]:
    """Shows a bar of the given number of steps until the block ends; inside another bar it is a
    part of that."""
    if _Steps.now is not None:
        yield
        return
    one = _Steps.now = _Steps(name, steps)
    try:
        yield
    finally:
        _Steps.now = None
        if one.drawn is not None:
            one.drawn.close()


def step(what: str) -> None:
    """Begins the next step and counts those before it as done."""
    one = _Steps.now
    if one is not None:
        one.report(one.begun, what)
        one.begun += 1


def done(what: str) -> None:
    """Counts +1 step as done, for steps that are done in any order."""
    one = _Steps.now
    if one is not None:
        one.begun += 1
        one.report(one.begun, what)


def report(what: str) -> None:
    """Shows what the current step does now."""
    if _Steps.now is not None:
        _Steps.now.report(None, what)


@contextmanager
def hidden() -> Iterator[None]:
    """Removes the bar while something is printed."""
    drawn = _Steps.now.drawn if _Steps.now else None
    if drawn is not None:
        drawn.clear()
    yield
    if drawn is not None:
        sys.stdout.flush()
        drawn.refresh()


class Growth:
    """A bar of bytes that grow, with the given total or without one."""

    def __init__(self) -> None:
        self.drawn: Optional[tqdm] = None
        self.name = ""

    def report(self, name: str, count: int, total: Optional[int] = None) -> None:
        """Shows the current number of bytes, in a separate bar for each name."""
        if self.drawn is None or name != self.name:
            self.close()
            form = _GROWING if total is None else _BYTES
            self.name = name
            self.drawn = _made(desc=name, total=total, unit="B", unit_scale=True, bar_format=form)
        if self.drawn is not None:
            self.drawn.update(max(0, count - self.drawn.n))
            self.drawn.refresh()

    def close(self) -> None:
        """Removes the bar."""
        if self.drawn is not None:
            self.drawn.close()
        self.drawn = None
