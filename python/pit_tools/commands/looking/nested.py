"""`pit-tools nested`: nested pits by price."""
from __future__ import annotations

import argparse

from pit_tools.commands import add_outs, by_ending

HELP = """\
Finds nested pits: the ultimate pit of a plan at several multiples of its price, each within the
next. It prints one line per pit: blocks, ore, grade, metal, waste, strip ratio and value.

    pit-tools nested mine.plan mine --factors 0.4,0.6,0.8,1 --out nested --out nested.png

reads mine.blocks and mine.pcpsp; arcs follow from the plan. The price is the plan's, net of selling
and royalty. The factor decides which blocks are in a pit; ore, waste and values of all pits use the
plan's own price, so the pit of factor 1 is worth most. `--out nested` writes each pit, as
nested0.4.pit, for `report`, `survey`, `back` and `shell`.
"""

WRITES = "pits, CSV and workbooks of nested pits, and pictures"

FACTORS = "0.3,0.4,0.5,0.6,0.7,0.8,0.9,1,1.1,1.2"


def add_arguments(parser: argparse.ArgumentParser) -> None:
    add = parser.add_argument
    add("plan", help="the plan")
    add("base", help="the instance: BASE.blocks, BASE.pcpsp")
    add("--factors", metavar="LIST", default=FACTORS, help=f"multiples of the price ({FACTORS})")
    add_outs(parser, "the table as .csv or .xlsx; a picture of tonnes and value by pit, and of the "
                     "outlines on a section, as .png, .svg or .pdf; otherwise the prefix of the "
                     "pits' file names")


def run(args: argparse.Namespace) -> int:
    from pit_tools import progress
    from pit_tools.files import outputs
    from pit_tools.files.tables import write_csv, write_workbook
    from pit_tools.pits.files import write_pit
    from pit_tools.pits.nested import factors_of, nested_pits, table, text
    from pit_tools.surveys.facts import read_valued
    from pit_tools.surveys.picture_files import ENDINGS, write_picture

    factors = factors_of(args.factors)
    outs = by_ending(args.out, ".csv", ".xlsx", *ENDINGS, has_others=True)
    pictures = [place for ending in ENDINGS for place in outs[ending]]
    facts = read_valued(args.plan, args.base)
    if facts.note.why_not:
        print(f"NOTE: {facts.note.why_not}\n")
    with progress.shown("nested", len(factors)):
        pits = list(nested_pits(facts, factors))[::-1]
    print(text(pits, facts.plan, facts.measures), end="")
    record = next((f"{base}.pits" for base in outs[""]),
                  next(iter([*outs[".csv"], *outs[".xlsx"]]), ""))
    with outputs.together(record=record):
        for base in outs[""]:
            for pit in pits:
                write_pit(pit.in_pit, f"{base}{pit.name}.pit")
        for place in outs[".csv"]:
            write_csv(table(pits, facts.measures), place, "table of nested pits")
        for place in outs[".xlsx"]:
            write_workbook([table(pits, facts.measures)], place)
        for place in pictures:
            from pit_tools.pits.nested_pictures import nested_picture

            write_picture(nested_picture(facts, pits), place)
    return 0
