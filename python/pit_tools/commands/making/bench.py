"""`pit-tools bench`: solvers over many instances, within limits, with judged results."""
from __future__ import annotations

import argparse

from pit_tools.commands import engine_options, from_zero

HELP = """\
Runs commands of solvers over the instances of a list, each run within limits of time and memory,
judges their schedules as `check-schedule` does, and compares them.

    pit-tools bench LIST --solver 'cbc {lp} sec 60 solve solution {solution}' \\
        --solver 'glpk=glpsol --lp {lp} --output {solution}' --seconds 60 --memory 4000

A line of LIST is the base of an instance, or a line of the list of `batch`. A command may contain

    {cpit} {pcpsp} {prec} {thin} {upit} {blocks} {plan}   files of the instance, BASE.cpit and so on
    {lp} {lp-by-period}    its program as `lp` writes it, without and with --by-period
    {out}                  the file where the solver writes a schedule
    {solution}             the file where cbc or `glpsol --output` writes its values
    {base} {name} {seconds} {folder}    the base, its last part, the limit, and an empty folder

A literal brace is written twice. No shell runs the command, unless --shell is given. NAME= before
it names the solver. At a limit, at its end and at the end of the bench the solver is ended with all
processes that it started; at a limit by TERM, and a second later by KILL. Memory is the sum of all
its processes, measured twenty times a second. What it has written by then is judged too.

The outputs are

    BASE.csv       a line for each instance and solver: how the run ended, whether its schedule is
                   feasible, worth, bound and gap, whether it is best, seconds, MB, and
                   messages
    BASE.parquet   the same with types; a line reports if no package writes Parquet
    BASE.svg       performance profiles (Dolan and More 2002): for each solver the share of the
                   instances that it solves best, by the ratio of its seconds to the fewest
    BASE.sums      the record of these files and of all inputs
    BASE.runs      a line for each run, from which --continue continues

A run is best if it ended with status 0 and no other run has a schedule worth more by --ratio. A gap
is to the relaxation, or to the ultimate pit if the relaxation takes more than --bounds seconds.
--continue keeps runs of the same solver, its command and its files, on the same files of the
instance. Records of other limits or of another tool are rejected. The status is 1 if a run is not
possible.

Parts run in parallel, in one folder or in copies of it:

    pit-tools bench LIST --solver ... --part 2/5
    pit-tools bench LIST --solver ... --join .
"""

WRITES = "tables and pictures"


def add_arguments(parser: argparse.ArgumentParser) -> None:
    parser.add_argument("list", help="the list")
    parser.add_argument("--solver", action="append", required=True, metavar="COMMAND",
                        help="a solver's command; may be repeated")
    parser.add_argument("--problem", choices=("cpit", "pcpsp"), default="cpit",
                        help="the problem to solve (cpit)")
    parser.add_argument("--seconds", type=from_zero, default=60, metavar="N",
                        help="time limit of each run [default: 60]")
    parser.add_argument("--memory", type=from_zero, metavar="MB", help="memory limit of each run")
    parser.add_argument("--bounds", type=from_zero, default=60, metavar="SECONDS",
                        help="limit for each relaxation; 0 means no bounds [default: 60]")
    parser.add_argument("--ratio", type=from_zero, default=1e-4, metavar="R",
                        help="relative tolerance of the best worth [default: 0.0001]")
    parser.add_argument("--shell", action="store_true", help="runs commands by sh")
    parser.add_argument("--out", default="bench", metavar="BASE",
                        help="the base of the output files [default: bench]")
    parser.add_argument("--continue", dest="goes_on", action="store_true",
                        help="keeps finished runs, by their sums")
    engine_options.add(parser, "no table")
    parser.add_argument("--join", nargs="+", metavar="FOLDER",
                        help="runs nothing, and joins the parts in these folders")


def run(args: argparse.Namespace) -> int:
    from pit_tools.files import interrupts

    with interrupts.caught():
        return _run(args)


def _run(args: argparse.Namespace) -> int:
    import os
    import sys

    from pit_tools import progress
    from pit_tools.batches.listing import Part
    from pit_tools.benches.results import summary
    from pit_tools.benches.running import Setting
    from pit_tools.benches.runs import Bench
    from pit_tools.benches.solvers import read_solvers
    from pit_tools.errors import UserError

    if args.seconds == 0 or args.memory == 0:
        raise UserError("--seconds and --memory must be above 0")
    if args.join and (args.goes_on or args.part or args.jobs or args.scheduler):
        raise UserError("--join runs nothing, so it excludes --continue, --part, --jobs and "
                        "--scheduler")
    setting = Setting(os.path.abspath(args.out), os.getcwd(),
                      read_solvers(args.solver, args.shell), args.problem, args.seconds,
                      args.memory, args.bounds)
    part = Part.read(args.part) if args.part else Part()
    bench = Bench(args.list, setting, part)
    if args.join:
        bench.join(args.join)
    else:
        with progress.shown("bench", len(bench.tasks)):
            bench.run(engine_options.engine_of(args), args.goes_on, args.stop_at)
    for line in bench.failed:
        print(f"pit-tools bench: {line}", file=sys.stderr)
    message = "" if part.is_complete else f"part {part.number} of {part.of}: "
    kept = f", {bench.kept} of them kept" if args.goes_on else ""
    print(f"{message}{len(bench.done)} of {len(bench.tasks)} runs{kept}")
    if part.is_complete and bench.done:
        for line in summary(bench.write(args.ratio)):
            print(line)
    for line in bench.remarks:
        print(f"pit-tools bench: {line}", file=sys.stderr)
    return 0 if bench.is_complete else 1
