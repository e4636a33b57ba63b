"""`pit-tools by-zone`: one instance of several plans, each for some zones."""
from __future__ import annotations

import argparse

HELP = """Makes one instance from several with the same blocks: each block has the values and
coefficients of the instance for its zone. So rock of a zone can go to its own mill, costs can grow
with depth, and recoveries can differ by rock.

    pit-tools by-zone oxide:0 sulphide:1,2 --out both

reads oxide.blocks and so on for zone 0 and sulphide.blocks and so on for zones 1 and 2, counted
from 0 in the plan's order, and writes both.blocks, both.prec, both.upit, both.pcpsp and both.cpit.
The plans have the same periods, destinations, resources and rate; names and limits come from the
first."""

WRITES = "instance files"


def add_arguments(parser: argparse.ArgumentParser) -> None:
    parser.add_argument("parts", nargs="+", metavar="BASE:ZONE,..",
                        help="an instance, and its zones")
    parser.add_argument("--out", required=True, metavar="BASE", help="the base of the new instance")


def run(args: argparse.Namespace) -> int:
    import numpy as np

    from pit_tools.errors import UserError
    from pit_tools.files import inputs, outputs
    from pit_tools.instances.arrays import present
    from pit_tools.instances.files import read_instance, write_instance
    from pit_tools.instances.zoned import by_zone
    from pit_tools.texts.decimals import integer_of

    parts = []
    for text in args.parts:
        base, _, zones = text.rpartition(":")
        numbers = [integer_of(cell.strip()) for cell in zones.split(",")]
        if not base or None in numbers:
            raise UserError(f"`{text}`: give an instance and its zones, as oxide:0,2")
        parts.append(([number for number in numbers if number is not None],
                      read_instance(base, ("blocks", "upit", "pcpsp", "cpit"))))
    made = by_zone(parts)
    with outputs.together(record=args.out):
        write_instance(made, args.out)
        first = args.parts[0].rpartition(":")[0] + ".prec"
        inputs.reads(first)
        outputs.copied(first, args.out + ".prec", "prec")
    for text, (zones, _) in zip(args.parts, parts):
        count = int(np.isin(present(made.blocks, "block file").zone, zones).sum())
        print(f"{count:,} blocks of {text.rpartition(':')[0]}")
    return 0
