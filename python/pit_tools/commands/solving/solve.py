"""`pit-tools solve`: the best schedule of a small CPIT or PCPSP."""
from __future__ import annotations

import argparse

from typing import TYPE_CHECKING, Optional

from pit_tools.commands import PRECEDENCE, from_zero

if TYPE_CHECKING:
    from pit_tools.pits.closure import fewer_arcs
    from pit_tools.schedules.ended import Background
    from pit_tools.schedules.search import Found

HELP = """\
Finds the best schedule of a CPIT or a PCPSP of about a hundred blocks, or a good one of about a
thousand, by HiGHS, which comes with scipy; or the bound of the relaxation.

    pit-tools solve small.cpit small.prec --out small.schedule
    pit-tools solve deposit.pcpsp deposit.prec --ratio 0.01 --seconds 600 --out deposit.schedule
    pit-tools solve deposit.pcpsp deposit.prec --relaxed

It prints how it ended (best; within the ratio; stopped; none), the value, and the upper bound of
every schedule. When the time is up, HiGHS is ended: if it has found nothing better, the schedule
comes from shells, pits nested in one another. A line of the schedule is a block and its period, and
for a PCPSP its destination and the share, if that is not 1. The status is 1 if no schedule was
found. Each solver chooses whether to discount period 0: this one does not.
"""

WRITES = "schedules"


def add_arguments(parser: argparse.ArgumentParser) -> None:
    parser.add_argument("problem", help="BASE.cpit or BASE.pcpsp")
    parser.add_argument("precedence", help=PRECEDENCE)
    parser.add_argument("--out", metavar="FILE", help="the file for the schedule")
    parser.add_argument("--relaxed", action="store_true",
                        help="lets blocks be split over periods: its value is a bound")
    parser.add_argument("--whole", action="store_true",
                        help="lets no block of a PCPSP be split over destinations")
    parser.add_argument("--all-arcs", action="store_true",
                        help="all arcs of the file, also those that pitc_thin drops")
    parser.add_argument("--seconds", type=from_zero, default=60, metavar="N",
                        help="time limit in seconds; 0 means none [default: 60]")
    parser.add_argument("--ratio", type=from_zero, default=0.0, metavar="R",
                        help="stops if no schedule can be better by more than this ratio, as 0.01")


def run(args: argparse.Namespace) -> int:
    import time
    from functools import partial

    from pit_tools.files import outputs
    from pit_tools.instances.files import read_precedence, read_problem
    from pit_tools.pits.closure import fewer_arcs
    from pit_tools.schedules.ended import Background
    from pit_tools.schedules.files import write_schedule
    from pit_tools.schedules.programs import GRACE, program_of, schedule_of, solve
    from pit_tools.schedules.search import start_of

    problem = read_problem(args.problem)
    precedence = fewer_arcs(read_precedence(args.precedence, len(problem.values)), args.all_arcs)
    outputs.judged(args.out)
    end = time.monotonic() + args.seconds
    # A known schedule, used if HiGHS has none yet.
    background = (Background(partial(start_of, problem, precedence))
                  if args.seconds and not args.relaxed else None)
    try:
        program = program_of(problem, precedence, args.relaxed, args.whole)
        left = max(0.1, end - time.monotonic())
        result = solve(program, left if args.seconds else None, args.ratio)
    finally:
        start = _start_in(background, end + GRACE - time.monotonic())
    found = (None if result.values is None
             else schedule_of(result.values, problem, program.names))
    value, bounds = result.value, [result.bound]
    if result.status == "stopped" and start:
        bounds.append(start.bound)
        if start.schedule and start.schedule.worth(problem) > (value or 0.0):
            found, value = start.schedule, start.schedule.worth(problem)
    if found is None:
        print(f"{result.status}: {result.message}")
        return 1
    known = [bound for bound in bounds if bound is not None]
    print(f"{result.status}: worth {value:.2f}{f', bound {min(known):.2f}' if known else ''}")
    if args.out:
        write_schedule(found, args.out, problem.kind == "PCPSP")
    return 0


def _start_in(background: Optional[Background[Found]], seconds: float) -> Optional[Found]:
    """Returns the start that is found in parallel, if it is found within the given seconds."""
    from pit_tools.errors import UserError

    try:
        return background.result(max(0.0, seconds)) if background else None
    except UserError:
        return None
