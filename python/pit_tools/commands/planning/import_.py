"""`pit-tools import`: a package's export becomes zone files."""
from __future__ import annotations

import argparse

from pit_tools.commands import add_json, print_json

HELP = """Reads a mining package's export, and writes a zone file of pitc for each zone,
BASE-ZONE.csv, and BASE.json, by which `plan` and `back` know what was read. It prints what was
read, what was omitted, what is unusual, and the records grid and zone of the plan.

    pit-tools import export.csv --x XC --y YC --z ZC --tonnes TONNAGE --grade AU_PPM \\
        --zone DOMAIN --out from

Columns are named as in the header, in any case, or are formulas with + - * / ** // %, parentheses,
min, max, where(CONDITION, THIS, THAT), also written if(..), and missing(COLUMN); a unit may follow:
--grade 'AU oz/st', --tonnes 'TONS st', --z=-DEPTH. A condition sees numbers unchanged, also -99;
texts are compared without case and blanks, and 10.0 is 10. A product with a missing cell is
missing; a missing term of the outermost sum adds nothing, and is counted. A cell without a formula
is copied digit for digit, and is rounded as a decimal; a formula is computed in double precision.

Separators, the header, rows of units, the encoding, decimal and thousands marks, workbooks, GSLIB,
packed files, and Parquet if pyarrow is installed, are recognised. Rows without tonnes are air and
omitted; tonnes without a grade are waste. Negative tonnes, densities and grades, as -99, are
missing."""

UNITS = """units: m ft; t kt kg st lt lb; m3 ft3 yd3; t/m3 kg/m3 lb/ft3 ft3/st; g/t ppm ppb % kg/t
oz/st oz/tonne lb/st lb/tonne; USD/t of a grade is a net smelter return"""

WRITES = "zone files and BASE.json"


def add_arguments(parser: argparse.ArgumentParser) -> None:
    from pit_tools.exports.presets import NAMES

    parser.epilog = UNITS
    add = parser.add_argument
    add("--package", default="", choices=["", *NAMES], metavar="NAME",
        help=f"the mining package that wrote the export, which determines where blocks are: "
        f"{', '.join(NAMES)}")
    add("exports", nargs="+", metavar="EXPORT",
        help="texts or workbooks; several are read one after the other")
    add("--out", default="", metavar="BASE",
        help="the prefix of the output files; without it nothing is written")
    add_json(parser)
    _add_places(parser)
    _add_contents(parser)


def _add_places(parser: argparse.ArgumentParser) -> None:
    places = parser.add_argument_group("where a block is")
    for axis in "xyz":
        places.add_argument(f"--{axis}", default="", metavar="FORMULA",
                            help="coordinate of the centroid" if axis == "x" else None)
    for axis in "ijk":
        places.add_argument(f"--{axis}", default="", metavar="FORMULA",
                            help="or its index, with --first and --size" if axis == "i" else None)
    places.add_argument("--index-from", type=int, metavar="N",
                        help="the index of the first block, 0 or 1")
    places.add_argument("--from-top", action="store_true",
                        help="k counts benches from the top, with --blocks")
    places.add_argument("--from-north", action="store_true",
                        help="j counts rows from the north, with --blocks")
    places.add_argument("--size", default="", metavar="X,Y,Z",
                        help="the size of a block, if coordinates do not give it")
    places.add_argument("--first", default="", metavar="X,Y,Z",
                        help="the centroid of the first block")
    places.add_argument("--blocks", default="", metavar="X,Y,Z",
                        help="the numbers of blocks; of rows without coordinates, in --order")
    places.add_argument("--order", default="x,y,z", metavar="AXES",
                        help="which axis runs first, as x,y,z or x,y,-z")
    places.add_argument("--x-bearing", type=float, metavar="DEGREES",
                        help="of a turned model, where its +x points, clockwise from north")
    places.add_argument("--y-azimuth", type=float, metavar="DEGREES", help="or where its +y points")
    places.add_argument("--rotation", default="", metavar="TURNS",
                        help="of a model that dips, with --regularise: turns about its axes in "
                             "their order, degrees clockwise seen from the end of each, as 'z 40, "
                             "x 20'")
    places.add_argument("--about", default="", metavar="X,Y",
                        help="the fixed point of the turn, with Z for a model that dips; otherwise "
                             "the first row's")
    places.add_argument("--own-axes", action="store_true",
                        help="coordinates already follow the turned model's own axes")
    places.add_argument("--in-feet", action="store_true",
                        help="lengths are in feet, and stay in feet")


def _add_contents(parser: argparse.ArgumentParser) -> None:
    contents = parser.add_argument_group("what it contains")
    contents.add_argument("--tonnes", default="", metavar="FORMULA", help="tonnes of the block")
    contents.add_argument("--density", default="", metavar="FORMULA",
                          help="or tonnes per cubic metre")
    contents.add_argument("--density-by", default="", metavar="TABLE",
                          help="density by rock code, for rows without --density: 'ROCK: ore=2.7, "
                               "*=2.5', or a file with the columns ROCK and density")
    contents.add_argument("--volume", default="", metavar="FORMULA",
                          help="cubic metres, if it differs from the volume of a block of the grid")
    contents.add_argument("--share", default="", metavar="FORMULA",
                          help="the part of the block that is rock; the remainder is air")
    contents.add_argument("--ore-share", default="", metavar="FORMULA",
                          help="the part that is ore; the remainder is waste")
    contents.add_argument("--waste-share", default="", metavar="FORMULA",
                          help="the part that is waste, if the remainder is air")
    contents.add_argument("--waste-density", default="", metavar="FORMULA",
                          help="the density of the waste")
    contents.add_argument("--grade", default="", metavar="FORMULA",
                          help="grams per tonne, or with a unit")
    contents.add_argument("--zone", action="append", default=[], metavar="COLUMN",
                          help="the zone; if given twice, both columns make it")
    contents.add_argument("--zones", default="", metavar="TABLE",
                          help="zones by a table: a file with columns of the export and `zone`")
    contents.add_argument("--below", action="append", default=[], metavar="ZONE:ABOVE",
                          help="split a flatter zone by benches below a steeper one, since its "
                               "cones continue through that")
    rows = parser.add_argument_group("which rows")
    rows.add_argument("--where", action="append", default=[], metavar="FILTER",
                      help="condition for the rows that are kept, as 'CLASS <= 3 and ROCK != "
                           "\"AIR\"'")
    rows.add_argument("--parents", default="", metavar="X,Y,Z",
                      help="the size of blocks: smaller ones are summed up, larger ones cut")
    rows.add_argument("--regularise", default="", metavar="X,Y,Z",
                      help="the same, and blocks that cross the border of one of these are cut "
                      "there by volume, so ore is diluted by the tonnes of its neighbours")
    rows.add_argument("--corner", default="", metavar="X,Y,Z",
                      help="the smallest corner of a parent")
    rows.add_argument("--sub-size", default="", metavar="X,Y,Z",
                      help="the columns with the sizes of rows' blocks, if they are not found")
    rows.add_argument("--drop-repeats", action="store_true",
                      help="count rows that equal an earlier one once")
    rows.add_argument("--merge", action="store_true", help="sum up several rows of one block")
    rows.add_argument("--holes", action="store_true",
                      help="keep rows without tonnes below rock, with 0 tonnes")
    against = parser.add_argument_group("what it is compared with")
    against.add_argument("--reconcile", action="append", default=[], metavar="REPORT",
                         help="the package's resource report, as CSV: columns zone, cut-off, "
                              "tonnes, grade, metal, volume, blocks and extents (xmin, xmax, ..); "
                              "may be repeated")
    against.add_argument("--expect", action="append", default=[], metavar="WORDS",
                         help="or in words, of a zone or the total: 'west: 1.975 Mt at 0.226 g/t, "
                              "14.35 koz above 0.1 g/t'; may be repeated")
    against.add_argument("--tolerance", type=float, default=1.0, metavar="PERCENT",
                         help="tolerance of the comparison (1)")
    text = parser.add_argument_group("how it is written, if that is not found")
    text.add_argument("--names", default="", metavar="A,B,..",
                      help="the columns of a list without a header")
    text.add_argument("--missing", action="append", default=[], metavar="TEXT",
                      help="what means a missing value; may be repeated")
    text.add_argument("--separator", default="", metavar="SIGN", help="between cells")
    text.add_argument("--decimal", default="", metavar="SIGN",
                      help="the decimal mark, a point or a comma")
    text.add_argument("--thousands", default="", metavar="SIGN",
                      help="the mark between thousands")
    text.add_argument("--encoding", default="", metavar="NAME", help="as cp1252 or utf-16")
    text.add_argument("--sheet", default="", metavar="NAME",
                      help="the sheet of a workbook; otherwise all with these columns")


def run(args: argparse.Namespace) -> int:
    from dataclasses import fields

    from pit_tools import progress
    from pit_tools.errors import UserError
    from pit_tools.exports.words import Words
    from pit_tools.files import inputs
    from pit_tools.imports.steps import Wanted, import_export

    if not 0 <= args.tolerance <= 100:
        raise UserError(f"--tolerance: {args.tolerance:g} is not from 0 to 100 percent")
    known = {field.name for field in fields(Words)}
    given = {key: value for key, value in vars(args).items() if key in known}
    given["names"] = [name.strip() for name in args.names.split(",")] if args.names else []
    given["separator"] = {"tab": "\t", "\\t": "\t", "blank": " "}.get(args.separator,
                                                                      args.separator)
    with progress.shown("import", 3):
        imported = import_export(args.exports, Words(**given),
                                 Wanted(args.reconcile, args.expect, args.tolerance))
        with progress.hidden():
            if not args.json:
                print(imported.report.text())
        if imported.reconciliation is not None:
            imported.reconciliation.judge()
        paths = imported.write(args.out) if args.out else []
    if args.json:
        print_json({"facts": imported.report.facts, "warnings": imported.report.warnings,
                    "zones": imported.holdings, "records": imported.records(),
                    "written": paths, "removed": list(inputs.removed())})
        return 0
    if paths:
        print()
    for path in paths:
        print(f"written: {path}")
    for path in inputs.removed():
        print(f"removed: {path}")
    print()
    print("records for the plan, with slopes of 45 degrees until you give yours (pit-tools plan):")
    print("\n".join(imported.records()))
    return 0
