"""`pit-tools plan`: a first plan, from words with units."""
from __future__ import annotations

import argparse
import os
from functools import cached_property
from typing import TYPE_CHECKING, Iterator, Sequence

if TYPE_CHECKING:
    from pit_tools.imports.record import ImportedFile
    from pit_tools.instances.arrays import Blocks
    from pit_tools.plans.contacts import Contacts
    from pit_tools.plans.file import Plan, Zone
    from pit_tools.plans.note import PlanNote
    from pit_tools.plans.words import Explained

HELP = """Writes a first plan from words with units, and explains each record.

    pit-tools plan from.json --out deposit.plan --name deposit --price '1804 USD/oz' \\
        --mill 'recovery 92 %, cost 16.50 USD/t' --dump 'cost 1.80 USD/t' \\
        --leach 'heap: cost 6.20 USD/t, 30 % from 0.2 g/t, 48 % from 0.6 g/t' \\
        --slope 45 --slope 'west: E 56, W 45, N 51, S 51' --periods '12 years' --rate '8 %' \\
        --limit 'crusher: mill heap, at most 2.5 Mt' --limit 'fleet: all, 1 Mt to 6 Mt'

FROM is what `import` wrote: it has the grid and the zones in their order. A cost is the total cost
of a tonne that goes there, with mining and haulage; --mining adds those to each. Slopes are degrees
or p:q, for all sides, by side, or by sectors of azimuth (`west: 0-90 50, 90-360 45`), which become
the sides of the zone. K is the height of the model in benches, at most 20. All money is in one
currency.

Next to PLAN it writes the sidecar file PLAN.json, by which survey, pit and report know the
currency, the unit of grades and the names of zones.

    pit-tools plan deposit.plan --walls --benches 12

makes no plan, and reports how steep the walls are that a plan's cones give, compared with the
slopes that it requests. For each zone it reports, by bearing (+y is north),

- the pit of one deep block, by K: the walls of a pit without a floor;
- straight walls that rise 3 to 60 benches, from a block to one that far above it, at the plan's K
  or at --K: blocks are not split, so low walls are steeper;
- by how many degrees walls are too steep in the worst bearing, by K and rise;

and then, for all zones together, the K to choose for a mine of --benches, or of the height in the
plan's sidecar file: LOOK AT if the plan's K is too small, and NOTE if no K is enough. `grid` and
`zone` records are enough. A larger K never makes a wall steeper. A straight wall is requested at
atan(1 / |(ux q/p, uy q/p)|), the pit of one block at atan |(ux p/q, uy p/q)|, with p : q of the
sides of the bearing u."""

WRITES = "plans"


def add_arguments(parser: argparse.ArgumentParser) -> None:
    add = parser.add_argument
    add("imported", metavar="FROM", help="BASE.json of `import`; with --walls a plan")
    add("--out", default="", metavar="PLAN",
        help="the file for the plan; without it the plan is printed")
    add("--name", default="mine", help="of the instance")
    add("--price", default="", metavar="PRICE",
        help="of metal, as '1804 USD/oz', with payable, royalty and selling: ', selling 45 USD/oz'")
    add("--mining", default="", metavar="COST",
        help="mining and haulage, added to each cost, as '1.80 USD/t'")
    add("--mill", action="append", default=[], metavar="WORDS",
        help="'NAME: recovery 92 %%, cost 16.50 USD/t'")
    add("--leach", action="append", default=[], metavar="WORDS",
        help="'NAME: cost 6.20 USD/t, 30 %% from 0.2 g/t, ..'")
    add("--dump", action="append", default=[], metavar="WORDS", help="'NAME: cost 1.80 USD/t'")
    add("--slope", action="append", default=[], metavar="WORDS",
        help="for all zones, or 'ZONE: ..'")
    add("--K", type=int, default=None, metavar="K", help="for all zones, or for straight --walls")
    add("--benches", type=int, default=0, metavar="N",
        help="the height of walls, if it is not the model's height")
    add("--periods", default="", metavar="WORDS",
        help="as '12 years' or '16 quarters'; one year by default")
    add("--rate", default="", metavar="RATE",
        help="of discounting, per year; 8 %% by default")
    add("--limit", action="append", default=[], metavar="WORDS",
        help="'NAME: DESTINATION .., at most 2.5 Mt a year, period 0 to 3'")
    add("--parts", type=int, default=1, metavar="N",
        help="count money in 1/N cents, if a kilogram of metal earns few cents")
    walls = parser.add_argument_group("how steep walls are")
    walls.add_argument("--walls", action="store_true",
                       help="makes no plan, and reports how steep a plan's walls are")
    walls.add_argument("--within", type=float, default=2, metavar="DEGREES",
                       help="by how much a wall may be too steep (2)")
    walls.add_argument("--decimals", type=int, default=1, metavar="N", help="of degrees (1)")
    walls.add_argument("--brief", action="store_true", help="two lines for each zone")


def _print_walls(args: argparse.Namespace) -> int:
    from pit_tools.errors import UserError
    from pit_tools.plans.file import grid_and_zones
    from pit_tools.plans.note import read_note
    from pit_tools.plans.wall_lines import Wanted, wall_lines

    if not 0 <= args.decimals <= 9:
        raise UserError(f"--decimals: {args.decimals} is not from 0 to 9")
    if not 0 <= args.within <= 90:
        raise UserError(f"--within: {args.within:g} is not from 0 to 90 degrees")
    (grid, zones), note = grid_and_zones(args.imported), read_note(args.imported)
    names = [zone.name for zone in note.zones]
    names = names if len(names) == len(zones) else list(map(str, range(len(zones))))
    wanted = Wanted(args.benches or note.benches, args.K or 0, args.within, args.decimals,
                    args.brief)
    for line in wall_lines(grid, zones, names, wanted):
        print(line)
    return 0


def run(args: argparse.Namespace) -> int:
    from dataclasses import fields
    from stat import S_ISREG

    from pit_tools.errors import UserError
    from pit_tools.files import inputs, outputs
    from pit_tools.files.records import status_of
    from pit_tools.imports.record import read_imported
    from pit_tools.plans.note import write_note
    from pit_tools.plans.words import Spoken, plan_from
    from pit_tools.texts.formats import MOST_HEIGHT

    if args.K is not None and not 1 <= args.K <= 20:
        raise UserError(f"--K: {args.K} is not from 1 to 20")
    if not 1 <= args.parts <= 1_000_000:
        raise UserError(f"--parts: {args.parts} is not from 1 to 1,000,000")
    if not 0 <= args.benches <= MOST_HEIGHT:
        raise UserError(f"--benches: {args.benches} is not the height of a mine")
    if args.walls:
        return _print_walls(args)
    imported = read_imported(args.imported)
    inputs.reads(*imported.files)
    known = {field.name for field in fields(Spoken)}
    given = {key: value for key, value in vars(args).items() if key in known}
    words = Spoken(**given, grade_unit=imported.grade_unit, x_bearing=imported.x_bearing,
                   K_of=imported.benches)
    blocks = _Blocks(imported)
    plan, explained = plan_from(words, imported.grid, imported.zones,
                                imported.rock_benches, blocks.contacts)
    print(explained.text())
    print()
    for line in blocks.reconciled(plan, explained):
        print(line)
    if not args.out:
        print(plan.text(), end="")
        return 0
    status = status_of(args.out)
    is_file = status is None or S_ISREG(status.st_mode)
    with outputs.together(record=args.out):
        with outputs.opened(args.out, "plan", "ascii") as file:
            file.write(plan.text())
        note = write_note(_note(args.imported, imported, explained,
                                words.benches or imported.rock_benches),
                          args.out) if is_file else None
    if note:
        print(f"written: {note}, by which survey, pit and report know units and names")
    print(f"written: {args.out}; the next command makes the instance:")
    print(f"    pitc compile --plan {args.out} --out {plan.name} {' '.join(imported.files)}")
    return 0


class _Blocks:
    """The blocks of the zone files, which are read only if needed."""

    def __init__(self, imported: ImportedFile) -> None:
        self.imported = imported

    @cached_property
    def blocks(self) -> Blocks:
        """The blocks in the order of the zones."""
        from pit_tools.instances.valuation import blocks_of
        from pit_tools.plans.zone_files import read_zone_files

        return blocks_of(self.imported.grid, read_zone_files(self.imported.files))

    def contacts(self, zones: Sequence[Zone]) -> Contacts:
        """Reports where zones of different slopes meet, if the zone files exist."""
        from pit_tools.files.records import status_of
        from pit_tools.plans.cones import Places, size_in_millimetres
        from pit_tools.plans.contacts import Contacts, contacts_of, differ

        if not differ(zones) or None in map(status_of, self.imported.files):
            return Contacts()
        return contacts_of(self.blocks, zones, size_in_millimetres(self.imported.grid),
                           Places(self.blocks))

    def reconciled(self, plan: Plan, explained: Explained) -> Iterator[str]:
        """Reports what zones are worth, if a resource report was given to the import. Raises
        UserError if zone files differ from what was reconciled."""
        from pit_tools.inventories.holdings import holdings_of
        from pit_tools.inventories.worths import worth_lines

        kept = self.imported.reconciled
        if not kept.rows:
            return
        held = holdings_of(self.blocks, kept.names(self.imported.zones), plan.grid,
                           self.imported.frame)
        kept.judge(held, explained.measures, "zone files")
        yield f"zone files agree with what was reconciled, within {kept.tolerance:g} %"
        yield from worth_lines(plan, self.blocks, held, explained.measures)
        yield ""


def _note(path: str, imported: ImportedFile, explained: Explained, benches: int) -> PlanNote:
    """Returns the sidecar file of a plan, from what `import` wrote at a path."""
    from pit_tools.files.records import ENDING, read_record
    from pit_tools.plans.note import PlanNote, ZoneSeen

    record = read_record(path + ENDING)
    zones = [ZoneSeen(name, os.path.basename(path))
             for name, path in zip(imported.zones, imported.files)]
    return PlanNote(True, explained.measures, zones, explained.lines, explained.notes,
                    [file.line.rstrip() for file in record.inputs] if record else [],
                    imported.facts, imported.warnings, imported.frame, imported.reconciled, benches)
