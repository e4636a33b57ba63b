"""`pit-tools lp`: UPIT, CPIT and PCPSP as linear programs for solvers."""
from __future__ import annotations

import argparse
from typing import TYPE_CHECKING

from pit_tools.commands import PRECEDENCE

if TYPE_CHECKING:
    from pit_tools.schedules.programs import Program

HELP = """\
Writes a UPIT, a CPIT or a PCPSP as a program in CPLEX's LP format, which glpsol, cbc, HiGHS, SCIP,
Gurobi and others read.

    pit-tools lp deposit.upit deposit.thin --out deposit.lp
    pit-tools lp small.pcpsp small.prec --out small.lp
    cbc small.lp solve solution small.sol
    pit-tools check-schedule small.pcpsp small.prec --solution small.sol

A UPIT has a variable x12 for block 12, which is 0 or 1 by itself. The others have w12_3, what is
mined of block 12 by the end of period 3; x12_3, what is mined of it in period 3, 0 or 1 (--relaxed
has no x); and a PCPSP y12_1_3, the share of it that goes to destination 1 in period 3. A value of
period t counts 1 / (1 + rate)^t. Arcs that `pitc_thin` drops are omitted if there is a C++
compiler, except with --all-arcs: no result changes.

    pit-tools lp deposit.upit deposit.thin --dimacs --out deposit.max

writes a UPIT as a maximum flow in the DIMACS form, which flow solvers read. Node b + 1 is block b;
then come the source and the sink. Capacities are cents. If values have more decimals, capacities
have them too, and a comment states how many. The flow from the source to blocks of worth, less the
maximum flow, is the worth of the pit; the source's side of a minimum cut is the pit. (LEMON's
solver needs `-long`, without which it returns 0.)
"""

WRITES = "programs and flows"


def add_arguments(parser: argparse.ArgumentParser) -> None:
    parser.add_argument("problem", help="BASE.upit, BASE.cpit or BASE.pcpsp")
    parser.add_argument("precedence", help=PRECEDENCE)
    parser.add_argument("--out", metavar="FILE", help="the output file; otherwise it is printed")
    parser.add_argument("--dimacs", action="store_true",
                        help="a UPIT as a maximum flow in the DIMACS form")
    parser.add_argument("--relaxed", action="store_true",
                        help="lets blocks be split over periods: a bound")
    parser.add_argument("--whole", action="store_true",
                        help="lets no block of a PCPSP be split over destinations")
    parser.add_argument("--by-period", action="store_true",
                        help="without w: rows are longer, and cbc is faster")
    parser.add_argument("--all-arcs", action="store_true",
                        help="all arcs of the file, also the arcs that pitc_thin drops")


def run(args: argparse.Namespace) -> int:
    from pit_tools.files import outputs
    from pit_tools.schedules.lp_file import write_lp
    from pit_tools.schedules.programs import by_period

    if args.dimacs:
        return _write_flow(args)
    program = program_by(args)
    if args.by_period:
        program = by_period(program)
    with outputs.opened_or_printed(args.out, "program", "ascii") as file:
        write_lp(program, file)
    return 0


def _write_flow(args: argparse.Namespace) -> int:
    from pit_tools.errors import UserError
    from pit_tools.files import outputs
    from pit_tools.instances.files import read_precedence
    from pit_tools.instances.models import read_upit
    from pit_tools.pits.closure import fewer_arcs
    from pit_tools.schedules.flows import write_flow

    if not args.out or not args.problem.endswith(".upit"):
        raise UserError("--dimacs: give BASE.upit, and a file by --out")
    if args.relaxed or args.whole or args.by_period:
        raise UserError("--dimacs: a UPIT has no periods and destinations: omit --relaxed, --whole "
                        "and --by-period")
    values = read_upit(args.problem).values
    precedence = fewer_arcs(read_precedence(args.precedence, len(values)), args.all_arcs)
    with outputs.opened(args.out, "flow") as file:
        write_flow(values, precedence, file)
    return 0


def program_by(args: argparse.Namespace) -> Program:
    """Returns the program of the files that the arguments name."""
    from pit_tools.instances.files import read_precedence, read_problem
    from pit_tools.instances.models import read_upit
    from pit_tools.pits.closure import fewer_arcs
    from pit_tools.schedules.programs import program_of, program_of_upit

    if args.problem.endswith(".upit"):
        upit = read_upit(args.problem)
        return program_of_upit(upit, fewer_arcs(read_precedence(args.precedence, len(upit.values)),
                                                args.all_arcs))
    problem = read_problem(args.problem)
    precedence = fewer_arcs(read_precedence(args.precedence, len(problem.values)), args.all_arcs)
    return program_of(problem, precedence, args.relaxed, args.whole)
