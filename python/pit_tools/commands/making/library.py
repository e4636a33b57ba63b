"""`pit-tools library`: a small library of instances with bounds and best known schedules."""
from __future__ import annotations

import argparse

from pit_tools.commands import from_zero

HELP = """\
Ten deposits by seed, with the sums of their instances, the values of their pits, bounds, and the
best schedules that are known of their CPIT and PCPSP.

    pit-tools library                    prints the table
    pit-tools library --found            prints when each schedule was found, by whom, and how
    pit-tools library --out folder       makes the plans, zone files, instances and schedules there
    pit-tools library --check            makes them, and compares sums, pits, schedules and values

A value is in units of 100 cents, discounted except in period 0 (pit_value is not discounted). No
schedule is worth more than its bound. The instances equal `pitc`'s, byte for byte.

    pit-tools library --library folder --better lens1.cpit-schedule --by 'A. Miner' --how 'by hand'
    pit-tools library --library folder --seek lens1.cpit lens4.pcpsp

put a better schedule into the library that --out made in a folder: from a file, whose name gives
the deposit and the problem, and whose lines have the form of `check-schedule`; or from a search,
which also puts in a lower bound. An infeasible schedule is rejected; the status is 1 if none is
better.
"""

WRITES = "plans, zone files, instances, schedules and tables"


def add_arguments(parser: argparse.ArgumentParser) -> None:
    parser.add_argument("--found", action="store_true",
                        help="prints when each schedule was found, by whom, and how")
    parser.add_argument("--out", metavar="FOLDER", help="makes all files there")
    parser.add_argument("--check", action="store_true",
                        help="compares all with the tables; ends with 1 if something differs")
    parser.add_argument("--library", metavar="FOLDER", default="",
                        help="a library in place of the package's")
    parser.add_argument("--better", metavar="FILE", help="puts in a schedule that is better")
    parser.add_argument("--by", metavar="NAME", help="who found it")
    parser.add_argument("--how", metavar="WORDS", help="how it was found")
    parser.add_argument("--seek", nargs="+", metavar="NAME.KIND",
                        help="searches for better schedules, and puts them in; with `all` searches "
                             "for all from the start, and writes tables, sums and schedules into "
                             "the folder of --out")
    parser.add_argument("--seconds", type=from_zero, default=600, metavar="N",
                        help="limit for each schedule of --seek (600)")


def run(args: argparse.Namespace) -> int:
    import os

    from pit_tools.deposits import library
    from pit_tools.errors import UserError

    if args.out and (args.check or args.better or args.seek not in (None, ["all"])):
        raise UserError("--out FOLDER makes a library there: it excludes --check, --better and "
                        "--seek NAME.KIND, which use --library FOLDER")
    if args.seek == ["all"]:
        from pit_tools.deposits.search import build

        if not args.out:
            raise UserError("--seek all: give a folder for the tables and schedules by --out")
        build(args.out, args.seconds)
    elif args.better or args.seek:
        return _taken(args)
    elif args.check:
        return _checked(args.library)
    else:
        if args.out:
            library.write_all(args.out)
        with open(os.path.join(args.library or library.FOLDER, "FOUND" if args.found else "TABLE"),
                  encoding="utf-8") as file:
            print(file.read(), end="")
    return 0


def _taken(args: argparse.Namespace) -> int:
    """Puts in better schedules; returns 1 if there is none."""
    from pit_tools.deposits.search import handed_in, search_on
    from pit_tools.errors import UserError

    if args.better and not (args.by and args.how):
        raise UserError("--better needs --by, who found it, and --how")
    messages = [handed_in(args.better, args.by, args.how, args.library)] if args.better else []
    for line in messages:
        print(line)
    for word in args.seek or []:
        messages.append(search_on(word, args.seconds, args.library))
        print(messages[-1], flush=True)
    return 0 if any(" in place of " in line for line in messages) else 1


def _checked(folder: str) -> int:
    import sys
    import tempfile

    from pit_tools.deposits import library

    with tempfile.TemporaryDirectory() as made:
        faults = [fault for deposit in library.DEPOSITS
                  for fault in library.errors_of(deposit, made, folder)]
    for fault in faults:
        print(fault, file=sys.stderr)
    print(f"{len(library.DEPOSITS)} deposits, {len(faults)} differences")
    return 1 if faults else 0
