"""`pit-tools minelib`: published MineLib files to an instance, and back."""
from __future__ import annotations

import argparse

HELP = """\
Brings MineLib files of other programs into the form that `pitc check` and this tool read, and
writes an instance as the library publishes its files. **The library's files are known here by
hearsay only: none was tried.** Read the report, and docs/formats.md, before you trust a file.

    pit-tools minelib --blocks marvin.blocks --prec marvin.prec --cpit marvin.cpit \\
        --tonnes 5 --grade 6 --out mine
    pit-tools minelib --to-published mine.pit --ids mine.ids --out marvin.pit
    pit-tools minelib --publish deposit --out published --order brd --fewer-arcs

Inward, comments, `EOF`, exponents, other cases, orders and spellings, identifiers from 1, lines
only for blocks that have predecessors, and a second number after `L` or `G` are accepted; a missing
UPIT, CPIT or PCPSP is made from the others; --tonnes, --grade and --zone are fields of a block
line, counted from 1, and its other fields are skipped, also words. Each change, rounding or
omission is reported, with its first line. An unknown line, a line that does not fit and a line that
`pitc check` rejects are errors. General side constraints are an error, or omitted by
--without-general. If a coefficient's fields fit several orders, --order must give one.

If a predecessor precedes its block, blocks are put into an order in which it follows. OUT.ids has a
line for each block: its identifier in OUT and the one in the published files. --to-published and
--from-published translate the lines of a pit or a schedule between the two. Outward each model ends
with `EOF`; with --ids blocks are in the published order.
"""

ENDINGS = ("blocks", "prec", "upit", "cpit", "pcpsp")

WRITES = "instance files, identifiers and lines of blocks"


def add_arguments(parser: argparse.ArgumentParser) -> None:
    """Adds the arguments of the command."""
    for ending in ENDINGS:
        parser.add_argument(f"--{ending}", metavar="FILE", help=f"the published {ending} file")
    parser.add_argument("--publish", metavar="BASE",
                        help="an instance to write as published files")
    parser.add_argument("--to-published", metavar="FILE",
                        help="a pit or a schedule to write with published identifiers")
    parser.add_argument("--from-published", metavar="FILE",
                        help="the same from published identifiers")
    parser.add_argument("--ids", metavar="FILE", help="BASE.ids of an instance of published files")
    parser.add_argument("--out", required=True, metavar="BASE",
                        help="the base of the files, or the file for the lines")
    for name in ("tonnes", "grade", "zone"):
        parser.add_argument(f"--{name}", type=int, default=0, metavar="N",
                            help=f"the field of a block line that has the {name}, counted from 1")
    parser.add_argument("--order", choices=["bdr", "brd", "rbd"],
                        help="the order of fields in a coefficient, as b for the block, d for the "
                             "destination and r for the resource (bdr outward; inward the only one "
                             "that fits)")
    parser.add_argument("--without-general", action="store_true",
                        help="omits general side constraints")
    parser.add_argument("--fewer-arcs", action="store_true",
                        help="without the arcs that pitc_thin drops")


def run(args: argparse.Namespace) -> int:
    """Does it; returns the status."""
    from pit_tools.errors import UserError

    files = {ending: getattr(args, ending) for ending in ENDINGS if getattr(args, ending)}
    lines = args.to_published or args.from_published
    if sum(map(bool, (files, args.publish, args.to_published, args.from_published))) != 1:
        raise UserError("give published files, or an instance by --publish, or lines by "
                        "--to-published or --from-published")
    if lines and not args.ids:
        raise UserError("give the file of identifiers by --ids")
    if lines:
        return _rename(args, lines)
    return _publish(args) if args.publish else _bring_in(args, files)


def _bring_in(args: argparse.Namespace, files: dict[str, str]) -> int:
    from dataclasses import replace

    from pit_tools.files import outputs
    from pit_tools.instances.block_files import Columns
    from pit_tools.instances.files import write_instance
    from pit_tools.instances.identifiers import write_identifiers
    from pit_tools.instances.minelib import read_published
    from pit_tools.pits.closure import immediate
    from pit_tools.texts.lines import Changes

    changes = Changes()
    columns = Columns(args.tonnes, args.grade, args.zone)
    mine, identifiers = read_published(files, columns, args.order, args.without_general, changes)
    if args.fewer_arcs:
        mine = replace(mine, precedence=immediate(mine.precedence))
    with outputs.together(record=args.out):
        write_instance(mine, args.out)
        write_identifiers(identifiers, f"{args.out}.ids")
    for line in changes.lines:
        print(line)
    print(mine.counts())
    return 0


def _publish(args: argparse.Namespace) -> int:
    from dataclasses import replace

    from pit_tools.errors import UserError
    from pit_tools.instances.files import read_instance
    from pit_tools.instances.identifiers import read_identifiers, reordered
    from pit_tools.instances.minelib import write_published
    from pit_tools.pits.closure import immediate

    mine = read_instance(args.publish)
    if args.fewer_arcs:
        mine = replace(mine, precedence=immediate(mine.precedence))
    if args.ids:
        identifiers = read_identifiers(args.ids)
        if mine.blocks is None or len(identifiers.published) != len(mine.blocks):
            raise UserError(f"{args.ids}: it has {len(identifiers.published)} blocks, but "
                            f"{args.publish} has others")
        mine = reordered(mine, identifiers.blocks())
        if identifiers.first:
            print(f"identifiers count from 0: each is {identifiers.first} less than the published "
                  "one")
    write_published(mine, args.out, args.order or "bdr")
    print(mine.counts())
    return 0


def _rename(args: argparse.Namespace, path: str) -> int:
    from pit_tools.files import outputs
    from pit_tools.instances.identifiers import lines_renamed, read_identifiers

    lines = list(lines_renamed(path, read_identifiers(args.ids), bool(args.to_published)))
    with outputs.opened(args.out, "lines of blocks", "ascii") as file:
        file.writelines(lines)
    print(f"{len(lines)} lines")
    return 0
