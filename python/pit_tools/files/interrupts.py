"""Handles Ctrl-C, TERM and HUP while files are being written: unfinished files are removed first.

Outside `caught` they have their usual effect. Within it each raises an exception, so that clean-up
code runs; and within `held` they wait, so that a step that must be complete is complete.
"""
from __future__ import annotations

import signal
from contextlib import contextmanager
from typing import Callable, Iterator

SIGNALS = (signal.SIGINT, signal.SIGTERM, signal.SIGHUP)


class _Held:
    """How many steps hold signals back, and the signals that came meanwhile."""

    steps = 0
    waiting: list[int] = []


def _raise(number: int) -> None:
    """Ends as Python does for Ctrl-C, and otherwise with the status that a shell has for a
    signal."""
    if number == signal.SIGINT:
        raise KeyboardInterrupt
    raise SystemExit(128 + number)


def _take(number: int, _frame: object) -> None:
    if _Held.steps:
        _Held.waiting.append(number)
    else:
        _raise(number)


@contextmanager
def taken(take: Callable[[int, object], object]) -> Iterator[None]:
    """Passes signals that would end the program to a function, as `signal.signal` does. A signal
    that is ignored, as after nohup, or that the program handles itself, stays so; and in a thread
    other than the first nothing changes."""
    usual = {}
    try:
        for number in SIGNALS:
            if signal.getsignal(number) in (signal.SIG_DFL, signal.default_int_handler):
                usual[number] = signal.signal(number, take)
    except ValueError:
        pass
    try:
        yield
    finally:
        for number, before in usual.items():
            signal.signal(number, before)


@contextmanager
def caught() -> Iterator[None]:
    """Signals that would end the program raise an exception."""
    with taken(_take):
        yield


@contextmanager
def held() -> Iterator[None]:
    """Delays signals to the end of this step, where they raise their exception."""
    _Held.steps += 1
    try:
        yield
    finally:
        _Held.steps -= 1
        if _Held.waiting and not _Held.steps:
            first = _Held.waiting[0]
            _Held.waiting.clear()
            _raise(first)
