"""`pit-tools check-schedule`: whether a schedule is feasible, and what it is worth."""
from __future__ import annotations

import argparse

from pit_tools.commands import PRECEDENCE, add_json, print_json

HELP = """\
Reports what a schedule of a CPIT or a PCPSP is worth and uses, and what it violates: a block that
is mined before a predecessor, more than once, or split over periods; a limit that is not met.

    pit-tools check-schedule small.pcpsp small.prec small.schedule
    pit-tools check-schedule small.pcpsp small.prec --solution cbc.sol --out small.schedule

A line of a schedule is a block and its period, and for a PCPSP its destination, and then the share
of the block if that is not 1. --solution reads the result of cbc or `glpsol --output` for a program
of `pit-tools lp`. In a CPIT and a PCPSP a block is mined in one period; --relaxed lets it be split,
as relaxations do: these are bounds, not schedules. A value of period t counts 1 / (1 + rate)^t. The
status is 1 if something is violated. A difference of a millionth is not counted; but a share below
0 is a violation, however small it is.
"""

WRITES = "schedules"


def add_arguments(parser: argparse.ArgumentParser) -> None:
    parser.add_argument("problem", help="BASE.cpit or BASE.pcpsp")
    parser.add_argument("precedence", help=PRECEDENCE)
    parser.add_argument("schedule", nargs="?", help="the schedule")
    parser.add_argument("--solution", metavar="FILE",
                        help="a solver's result in place of a schedule")
    parser.add_argument("--out", metavar="FILE", help="writes the schedule of --solution")
    parser.add_argument("--relaxed", action="store_true", help="lets blocks be split over periods")
    parser.add_argument("--most", type=int, default=20, metavar="N",
                        help="the largest number of violations to print (20)")
    add_json(parser)


def run(args: argparse.Namespace) -> int:
    from pit_tools.errors import UserError
    from pit_tools.instances.files import read_precedence, read_problem
    from pit_tools.schedules.files import (check, read_schedule, read_variables,
                                           schedule_of_variables, write_schedule)

    if args.most < 0:
        raise UserError(f"--most: {args.most} is below 0")
    problem = read_problem(args.problem)
    precedence = read_precedence(args.precedence, len(problem.values))
    if (args.schedule is None) == (args.solution is None):
        raise UserError("give a schedule, or a solver's result by --solution")
    if args.solution:
        schedule = schedule_of_variables(read_variables(args.solution), problem)
    else:
        schedule = read_schedule(args.schedule, problem)
    if args.out:
        write_schedule(schedule, args.out, problem.kind == "PCPSP")
    found = check(schedule, problem, precedence, args.relaxed)
    if args.json:
        print_json({**vars(found), "holds": found.holds})
        return 0 if found.holds else 1
    print(f"{found.blocks:.6g} blocks, worth {found.worth:.2f}")
    for line in found.uses:
        print(line)
    for line in found.broken[:args.most]:
        print(f"broken: {line}")
    if len(found.broken) > args.most:
        print(f"broken: {len(found.broken) - args.most} things more")
    return 0 if found.holds else 1
