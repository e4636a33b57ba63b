"""`pit-tools report`: what a pit or a schedule contains."""
from __future__ import annotations

import argparse

from pit_tools.commands import add_outs, by_ending

HELP = """\
Reports what a pit or a schedule contains: ore, grade, metal, waste, strip ratio and value by bench,
by destination and, of a schedule, by period; and the number of its blocks at a side of the model.

    pit-tools report deposit.plan deposit deposit.pit
    pit-tools report deposit.plan deposit deposit.schedule --out report.csv --out report.xlsx

reads deposit.blocks and deposit.pcpsp. Ore goes to a mill or a leach. A block of a pit goes where
it is worth most; a block of a schedule goes where its line states. Values are in the currency of
the plan's sidecar file, or in units of 100 cents without one. They are undiscounted, except in the
last column of periods, where a value of period t counts 1 / (1 + rate)^t.

The CSV has all parts in one table, the part in the first column; the workbook has a sheet for each.
"""

WRITES = "CSV and workbooks of reports"


def add_arguments(parser: argparse.ArgumentParser) -> None:
    parser.add_argument("plan", help="the plan")
    parser.add_argument("base", help="the instance: BASE.blocks, BASE.pcpsp")
    parser.add_argument("mined", help="the blocks of a pit, one per line, or a schedule")
    add_outs(parser, "writes the same as CSV or as a workbook, .csv or .xlsx")


def run(args: argparse.Namespace) -> int:
    from pit_tools.files import outputs
    from pit_tools.files.tables import write_csv, write_workbook
    from pit_tools.pits.back import read_mined
    from pit_tools.pits.report import Report
    from pit_tools.surveys.facts import read_valued

    outs = by_ending(args.out, ".csv", ".xlsx")
    facts = read_valued(args.plan, args.base)
    if facts.note.why_not:
        print(f"NOTE: {facts.note.why_not}\n")
    report = Report(facts, read_mined(args.mined, facts.plan, len(facts)))
    print(report.text(), end="")
    with outputs.together(record=next(iter(outs[".csv"]), "")):
        for place in outs[".csv"]:
            write_csv(report.table(), place, "table of a report")
        for place in outs[".xlsx"]:
            write_workbook(report.tables(), place)
    return 0
