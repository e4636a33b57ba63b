"""`pit-tools deposit`: deposits by seed, size and shape."""
from __future__ import annotations

import argparse
from typing import Optional

HELP = """\
Makes deposits in three zones with their plans, in the current folder: NAME.plan, NAME-oxide.csv,
NAME-west.csv and NAME-east.csv, which go to `pitc compile` in this order.

    pit-tools deposit
    pit-tools deposit --seed 7 --size 40,30,20 --shape vein --name seven
    pit-tools deposit --seed 1-100 --size 12,9,6 --shape lens,vein --list LIST

The last line makes two hundred, lens1, vein1, lens2 and so on, and writes the list that `batch`
reads. The same name, seed, size and shape make the same files, byte for byte.

    pit-tools deposit --export deposit-oxide.csv deposit-west.csv deposit-east.csv --out export.csv

makes no deposit, and writes an export of zone files as packages do: its own names in quotes, a row
of units, a row for each position of the box, coordinates and tonnes with the noise of floating
point, -99 for unknown values, zones by the names of their files, and lines ended by CR LF. Rock of
less than 0.002 g/t has no grade. Try `import` on it.

shapes: lens, flat, and dips to the east; pipe, upright and round; vein, steep and thin, along y.
"""

WRITES = "plans, zone files, lists and exports"

WHAT_A_SIZE_IS = "a size is three numbers of blocks, as 24,18,12"


def add_arguments(parser: argparse.ArgumentParser) -> None:
    parser.add_argument("--name", default=None,
                        help="the name, `deposit` by default; it precedes the seed if there are "
                             "several")
    parser.add_argument("--seed", default=None,
                        help="1 to 1000000, or a range as 1-100: it shifts the ore and sets its "
                             "width and grade")
    parser.add_argument("--size", default="24,18,12",
                        help="numbers of blocks of 20 x 20 x 10 m along x, y and z (24,18,12)")
    parser.add_argument("--shape", default="lens",
                        help="lens, pipe or vein, or several with commas (lens)")
    parser.add_argument("--export", nargs="+", metavar="ZONE",
                        help="writes an export of these zone files, and makes no deposit")
    parser.add_argument("--out", metavar="PATH",
                        help="the folder of the files, or the file of the export, which is "
                             "otherwise printed")
    parser.add_argument("--list", metavar="FILE",
                        help="writes a line for each deposit, its plan and its zone files")


def _numbers(text: str, what: str) -> list[int]:
    import re

    from pit_tools.errors import UserError

    if not re.fullmatch("[0-9]{1,9}(,[0-9]{1,9})*", text):
        raise UserError(f"{what}: `{text[:60]}` is not a list of integers")
    return list(map(int, text.split(",")))


def _seeds(text: str) -> list[int]:
    from pit_tools.deposits.seeded import MOST_SEED
    from pit_tools.errors import UserError

    what = f"a seed is an integer from 1 to {MOST_SEED}, or a range as 1-100"
    first, _, last = text.partition("-")
    begin, end = _numbers(f"{first},{last or first}", what)
    if not 1 <= begin <= end <= MOST_SEED:
        raise UserError(f"{what}, and not `{text}`")
    return list(range(begin, end + 1))


def _export(args: argparse.Namespace) -> int:
    from pit_tools.deposits.sample_export import sample_export
    from pit_tools.files import outputs

    with outputs.opened_or_printed(args.out, "export", "utf-8", "\r\n") as file:
        file.writelines(line + "\n" for line in sample_export(args.export))
    return 0


def run(args: argparse.Namespace) -> int:
    import os

    from pit_tools.deposits.seeded import Deposit
    from pit_tools.errors import UserError
    from pit_tools.files import outputs

    if args.export:
        return _export(args)
    size = _numbers(args.size, WHAT_A_SIZE_IS)
    if len(size) != 3:
        raise UserError(WHAT_A_SIZE_IS)
    wide, deep, high = size
    shapes: list[str] = args.shape.split(",")
    seeds: list[Optional[int]] = [None] if args.seed is None else [*_seeds(args.seed)]
    is_one = len(seeds) == len(shapes) == 1
    lines = []
    with outputs.together(record=args.list or ""):
        for seed in seeds:
            for shape in shapes:
                name = ((args.name or "deposit") if is_one
                        else f"{args.name or ''}{shape}{'' if seed is None else seed}")
                record = args.list or os.path.join((args.out or "."), name + ".plan")
                with outputs.together(record=record):
                    lines.append(" ".join(Deposit(name, seed, (wide, deep, high),
                                                  shape).write((args.out or "."))))
        if args.list:
            with outputs.opened(args.list, "list", "ascii") as file:
                file.write("".join(line + "\n" for line in lines))
    return 0
