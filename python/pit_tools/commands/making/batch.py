"""`pit-tools batch`: many instances, with a manifest of all that went in."""
from __future__ import annotations

import argparse

from pit_tools.commands import engine_options, from_zero

HELP = """\
Compiles the instances of a list by `pitc` in the current folder, and writes what names, measures
and reproduces them.

    pit-tools batch LIST
    pit-tools batch LIST --relax 60 --options '--valuers 1' --thin pitc_thin
    pit-tools batch LIST --continue --jobs 4

A line of LIST is a plan NAME.plan and its zone files, in the plan's order; the instance goes to
NAME. The outputs are

    BUILD       the version and the sum of pitc, its options, the sums of this tool's modules, and
                the versions of Python and of the packages
    SIZES       a line for each instance: blocks, arcs, coefficients, limits and coefficients of the
                CPIT, as `pitc check` counts them; blocks worth more than 0; bytes; periods,
                destinations, resources, rate, tonnes; blocks, tonnes and value of the ultimate pit;
                with --relax the values of the relaxations of CPIT and PCPSP, which are bounds; and
                with --thin the arcs of NAME.thin
    MANIFEST    the record of the SHA-256 sums of BUILD, SIZES, LIST, plans, zone files and
                instances, as `sha256sum -c` reads them
    RECORD      a line for each complete instance, from which --continue continues

It replaces these files and the files of instances, and files of another kind only with --force. An
instance's former files stay until the new ones are complete. It rejects a list that names an
instance twice or a missing file before it runs anything. If a plan is rejected, an input changes
meanwhile, or any step fails, it reports which, continues, leaves no MANIFEST, and ends with 1. With
--stop-at 5 it stops when five have failed and none is complete.

On several machines each makes a part of the list, in the same folder or in a copy of it with LIST
and the inputs; then one joins the parts, and writes the tables:

    pit-tools batch LIST --part 2/5
    pit-tools batch LIST --join .

or a Dask scheduler distributes the instances to its workers, which must see the folder by the same
path:

    pit-tools batch LIST --scheduler tcp://node1:8786
"""


def add_arguments(parser: argparse.ArgumentParser) -> None:
    parser.add_argument("list", help="the list")
    parser.add_argument("--options", metavar="WORDS",
                        help="options of each `pitc compile`, in quotes")
    parser.add_argument("--pitc", metavar="PROGRAM",
                        help="the program, if it is not in the PATH")
    parser.add_argument("--thin", metavar="PROGRAM",
                        help="pitc_thin, which also writes NAME.thin; the pit is found by it")
    parser.add_argument("--relax", type=from_zero, metavar="SECONDS",
                        help="limit for each relaxation; without it there are none")
    parser.add_argument("--continue", dest="goes_on", action="store_true",
                        help="keeps complete instances, by their sums")
    engine_options.add(parser, "no MANIFEST")
    parser.add_argument("--force", action="store_true", help="also replaces files of another kind")
    parser.add_argument("--join", nargs="+", metavar="FOLDER",
                        help="makes no instance, and joins the parts in these folders")


def run(args: argparse.Namespace) -> int:
    from pit_tools.files import interrupts

    with interrupts.caught():
        return _joined(args) if args.join else _made(args)


def _joined(args: argparse.Namespace) -> int:
    from pit_tools.batches.runs import Joining
    from pit_tools.errors import UserError

    for name in ("options", "pitc", "thin", "relax", "goes_on", "jobs", "part", "scheduler",
                 "stop_at"):
        if getattr(args, name):
            raise UserError("--join makes no instance, so it excludes "
                            f"--{'continue' if name == 'goes_on' else name.replace('_', '-')}")
    joining = Joining(args.list, args.join)
    is_complete = joining.run()
    absent = "no MANIFEST" if joining.made else "nothing is changed"
    return _report(joining.failed, f"{len(joining.made)} of {len(joining.list.entries)} instances",
                    is_complete, absent)


def _made(args: argparse.Namespace) -> int:
    import os
    import shlex

    from pit_tools import progress
    from pit_tools.batches.build import Way, found_program
    from pit_tools.batches.listing import MOST_NAME, Part
    from pit_tools.batches.runs import Batch
    from pit_tools.errors import UserError

    if args.relax == 0:
        raise UserError("--relax: give seconds above 0, or omit it for no relaxations")
    if len(args.options or "") > MOST_NAME:
        raise UserError(f"--options has more than {MOST_NAME:,} characters")
    try:
        options = tuple(shlex.split(args.options or ""))
    except ValueError as error:
        raise UserError(f"--options: {str(error).lower()}: {args.options}") from None
    thin = found_program(args.thin, "--thin") if args.thin else None
    way = Way(os.getcwd(), found_program(args.pitc or "pitc", "--pitc"), options, thin, args.relax)
    part = Part.read(args.part) if args.part else Part()
    batch = Batch(args.list, way, part)
    with progress.shown("batch", len(batch.entries)):
        is_complete = batch.run(engine_options.engine_of(args), args.goes_on, args.stop_at)
    message = "" if part.is_complete else f"part {part.number} of {part.of}: "
    kept = f", {len(batch.kept)} of them kept" if args.goes_on else ""
    return _report(batch.failed,
                   f"{message}{len(batch.made)} of {len(batch.entries)} instances{kept}",
                   is_complete, "no MANIFEST" if part.is_complete else "")


def _report(failed: list[str], line: str, is_complete: bool, absent: str) -> int:
    """Prints what failed, the line, and what is missing if not all is complete; returns the
    status."""
    import sys

    for one in failed:
        print(f"pit-tools batch: {one}", file=sys.stderr)
    print(line if is_complete or not absent else f"{line}; {absent}")
    return 0 if is_complete else 1
