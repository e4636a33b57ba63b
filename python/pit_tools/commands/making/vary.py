"""`pit-tools vary`: plans that differ in some cells."""
from __future__ import annotations

import argparse

HELP = """\
Writes plans that differ from one in some cells, in all combinations, each under a name that states
its values.

    pit-tools vary deposit.plan --set K=2,4 --set price=5000000,5800000 \\
        --zones oxide.csv west.csv east.csv --list LIST
    pit-tools vary deposit.plan --set rate=0.05,0.08,0.1 --set limit.crusher=x0.8,x1,x1.2

A cell is one of

    K, price, rate, periods     in every record that has it
    slope                       p and q of all zones, several with semicolons: 'slope=1,1;3,2'
    zone.1.K, zone.1.slope      of one zone, counted from 0
    mill.NAME.recovery          or price, cost; leach.NAME.price, leach.NAME.cost, dump.NAME.cost
    limit.NAME, limit.NAME.2    the (upper) number of all limits of a resource, or of period 2

A value that begins with x multiplies the plan's. --list writes the list that `batch` reads.
"""

WRITES = "plans and lists"


def add_arguments(parser: argparse.ArgumentParser) -> None:
    parser.add_argument("plan", help="the plan")
    parser.add_argument("--set", action="append", default=[], metavar="CELL=VALUE,..",
                        help="a cell and its values; may be repeated")
    parser.add_argument("--name",
                        help="the prefix of the names, the plan's name by default")
    parser.add_argument("--zones", nargs="*", default=[], metavar="FILE",
                        help="the zone files of all plans, for --list")
    parser.add_argument("--list", metavar="FILE",
                        help="writes a line for each plan: the plan and its zone files")
    parser.add_argument("--out", default=".", metavar="FOLDER", help="the folder of the plans")


def run(args: argparse.Namespace) -> int:
    import os
    import shlex

    from pit_tools.errors import UserError
    from pit_tools.files import outputs
    from pit_tools.plans.file import plan_of, read_text
    from pit_tools.plans.variations import Change, variations

    text = read_text(args.plan)
    plan = plan_of(text, args.plan)
    if not text.isascii():
        raise UserError(f"{args.plan}: it has letters that are not ASCII; a plan must be ASCII")
    if not args.set:
        raise UserError("give a cell by --set, as --set K=2,4")
    changes, lines = [Change.of(one) for one in args.set], []
    with outputs.together(record=args.list or os.path.join(args.out, f"{plan.name}-varied")):
        for name, varied in variations(text, args.name or plan.name, changes):
            plan_of(varied, name)
            with outputs.opened(os.path.join(args.out, name + ".plan"), "plan", "ascii") as file:
                file.write(varied)
            lines.append(shlex.join([name + ".plan", *args.zones]))
        if args.list:
            with outputs.opened(args.list, "list", "utf-8") as file:
                file.write("".join(line + "\n" for line in lines))
    print(f"{len(lines)} plans")
    return 0
