"""The options of commands that do many things: how many at a time, which machines, which part."""
from __future__ import annotations

import argparse
from typing import TYPE_CHECKING

if TYPE_CHECKING:
    from pit_tools.batches.engines import Engine


def add(parser: argparse.ArgumentParser, absent: str) -> None:
    """Adds the options; `absent` names what a part does without."""
    parser.add_argument("--jobs", type=int, metavar="N", help="N at a time")
    parser.add_argument("--part", metavar="I/N", help=f"only the I-th of N parts, and {absent}")
    parser.add_argument("--scheduler", metavar="ADDRESS",
                        help="on the workers of the Dask scheduler at this address")
    parser.add_argument("--stop-at", type=int, metavar="N",
                        help="stops after N failures if none has succeeded")


def engine_of(args: argparse.Namespace) -> Engine:
    """Returns what runs the work. Raises UserError if the options contradict each other."""
    from pit_tools.batches.engines import by_dask, by_processes, in_turn
    from pit_tools.errors import UserError

    if args.jobs is not None and args.jobs < 1:
        raise UserError("--jobs must be 1 or more")
    if args.stop_at is not None and args.stop_at < 1:
        raise UserError("--stop-at must be 1 or more")
    if args.scheduler and args.jobs:
        raise UserError("--scheduler excludes --jobs: its workers do the work")
    if args.scheduler:
        return by_dask(args.scheduler)
    return by_processes(args.jobs) if (args.jobs or 1) > 1 else in_turn
