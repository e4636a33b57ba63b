"""`pit-tools compile`: runs `pitc compile`, and shows how far it is."""
from __future__ import annotations

import argparse

HELP = """\
Runs `pitc compile` with the same arguments, and shows on a terminal how many bytes it has read and
written.

    pit-tools compile --plan mine.plan --out mine from-west.csv from-east.csv from-oxide.csv

pitc's output and status are passed on unchanged; after a line in which it rejects an input, this
adds the file, the line and the cell, and what to do. pitc replaces files at BASE, and begins no
file before it has read all rows. Then this command waits until the system has stored these files,
which pitc does not, and reports an error of that. Last it writes BASE.sums, the sums of these
files, of the plan and of the zone files, by which other commands know that they belong together. If
pitc is in no folder of the PATH, --pitc names it.

    pitc < examples/pit.txt | pit-tools compile --sections - --out pit

runs nothing, and writes the sections that `pitc` prints without arguments, as pit.blocks, pit.prec,
pit.upit, pit.pcpsp and pit.cpit. It rejects output that was cut short: its sections differ in the
number of blocks, or in limits.
"""

WRITES = "instance files"


def add_arguments(parser: argparse.ArgumentParser) -> None:
    parser.add_argument("--plan", metavar="PLAN", help="the plan")
    parser.add_argument("--out", metavar="BASE",
                        help="the prefix of the instance's file names")
    parser.add_argument("--valuers", metavar="N", help="number of threads that value rows")
    parser.add_argument("--capacity", metavar="N", help="number of rows that may wait for them")
    parser.add_argument("--pitc", metavar="PROGRAM",
                        help="the program, if it is not in the PATH")
    parser.add_argument("--sections", metavar="FILE",
                        help="the output of `pitc` without arguments, or - for standard input")
    parser.add_argument("zones", nargs="*", metavar="ZONE", help="zone files, in the plan's order")


def _write_sections(args: argparse.Namespace) -> int:
    import sys

    from pit_tools.errors import UserError
    from pit_tools.instances.sections import write_sections

    if not args.out or args.plan or args.zones:
        raise UserError("--sections: give BASE by --out, and omit the plan and the zone files")
    if args.sections == "-":
        write_sections(sys.stdin.buffer, args.out, "standard input")
    else:
        with open(args.sections, "rb") as file:
            write_sections(file, args.out, args.sections)
    return 0


def run(args: argparse.Namespace) -> int:
    import sys
    from contextlib import nullcontext

    from pit_tools.batches.build import found_program
    from pit_tools.files import inputs, outputs
    from pit_tools.files.locks import held
    from pit_tools.instances.compiling import compile_shown
    from pit_tools.instances.files import TEXTS
    from pit_tools.instances.pitc_errors import reasons

    if args.sections:
        return _write_sections(args)
    words = [found_program(args.pitc or "pitc", "--pitc"), "compile"]
    for name in ("plan", "out", "valuers", "capacity"):
        if (value := getattr(args, name)) is not None:
            words += [f"--{name}", value]
    reads = [path for path in (args.plan, *args.zones) if path]
    inputs.reads(*reads)
    if args.out:
        # Before pitc replaces files that no record would name afterwards.
        outputs.judged_old(f"{args.out}.sums", "sums")
    with held(args.out) if args.out else nullcontext():
        status, errors = compile_shown([*words, "--", *args.zones], reads, args.out or "")
        for line in errors.splitlines():
            for reason in reasons(line, args.plan or "", args.zones, args.out or ""):
                print(f"pit-tools compile: {reason}", file=sys.stderr)
        if args.out and not status:
            files = [f"{args.out}.{text}" for text in TEXTS]
            outputs.stored(files)
            outputs.record_of(args.out, files)
    return status
