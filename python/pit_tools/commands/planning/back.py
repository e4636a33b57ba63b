"""`pit-tools back`: a pit or a schedule goes back to the package."""
from __future__ import annotations

import argparse

HELP = """\
Writes a pit or a schedule for the package: as coordinates, or on the rows of its own export.

    pit-tools back deposit.plan deposit deposit.pit --out pit.csv
    pit-tools back deposit.plan deposit deposit.pit --onto from.json --out export-pit.csv

The first writes x, y, z, block, tonnes, grade, zone and mined of each block of the pit; with --all
the others too, with mined 0. The second reads the export again as `pit-tools import` did, which
wrote from.json, and writes its rows with `block` and `mined` after the package's own columns:
sub-blocks get their parent's values, and a turned model keeps its own coordinates. Rows of Parquet
are written as Parquet.

A line of a schedule is a block and its period, then its destination, and the share of the block, if
they are given: these become columns. The export's rows have the period and destination of the
largest share, and `mined` is the sum of shares; with --shares each period has a column: share_0 ..
"""

WRITES = "rows of a pit"


def add_arguments(parser: argparse.ArgumentParser) -> None:
    parser.add_argument("plan", help="the plan")
    parser.add_argument("base", help="the instance: BASE.blocks")
    parser.add_argument("mined", help="the blocks of a pit, one per line, or a schedule")
    parser.add_argument("--out", metavar="FILE", help="the output file; otherwise it is printed")
    parser.add_argument("--all", action="store_true", help="also the blocks that are not mined")
    parser.add_argument("--onto", metavar="JSON",
                        help="the file that `import` wrote with the zone files, as from.json")
    parser.add_argument("--shares", action="store_true",
                        help="on the export's rows, also the share of each period")
    parser.add_argument("--turned", metavar="JSON",
                        help="the same file, for the export's coordinates if the plan has no "
                             "sidecar file")


def run(args: argparse.Namespace) -> int:
    import sys
    from contextlib import nullcontext

    from pit_tools import progress
    from pit_tools.errors import UserError
    from pit_tools.files import outputs
    from pit_tools.imports.record import frame_of
    from pit_tools.instances.block_files import read_blocks
    from pit_tools.pits.back import onto_rows, placed, read_mined
    from pit_tools.plans.file import read_plan
    from pit_tools.plans.note import read_note

    plan, blocks = read_plan(args.plan), read_blocks(args.base + ".blocks")
    mined = read_mined(args.mined, plan, len(blocks))
    if args.shares and not args.onto:
        raise UserError("--shares requires --onto: other rows have the share of one period each")
    if args.onto:
        # Printed rows show the progress themselves.
        with progress.shown("back", 3) if args.out else nullcontext():
            rows, found, without = onto_rows(args.onto, plan, blocks, mined, args.out, args.shares)
        message = f"{rows:,} rows, of which {found:,} are blocks of the instance"
        message += f"; {without:,} mined blocks have no row" if without else ""
        print(message, file=sys.stdout if args.out else sys.stderr)
        return 0
    note = read_note(args.plan)
    if note.why_not:
        print(f"NOTE: {note.why_not}", file=sys.stderr)
    table = placed(plan, blocks, mined, args.all, frame_of(args.turned, note))
    with outputs.opened_or_printed(args.out, "rows of a pit", "utf-8", "") as out:
        table.to_csv(out, index=False, lineterminator="\n")
    return 0
