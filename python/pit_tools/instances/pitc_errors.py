"""Explains a line in which `pitc` rejects an input: the file, its line and cell, and what to do.

`pitc` counts zone files from 0, and rows from 1, without empty lines."""
from __future__ import annotations

import csv
import os
import re
from typing import Iterator, NamedTuple, Optional, Sequence

from pit_tools.errors import quoted

#: What to do about an error of a plan, by its name.
OF_PLAN = {
    "Key": "this key does not belong to a plan: is it misspelled, a remark, or a line of a zone "
           "file?",
    "Width": "this key needs another number of cells: a zone is rise, run and K of each side",
    "Number": "write plain decimals, without units, marks between thousands and exponents",
    "TooFine": "round it: a recovery of 0.92 is 920, a slope of 1.5 is 3 over 2, money is in cents",
    "Range": "it is out of range: a rate of 8 % is 0.08, K is at most 20, periods count from 0",
    "Name": "a name may only have letters, digits, _, - and ., and earlier records must define "
            "what it names",
    "Twice": "an earlier record has this key or name: remove one of them",
    "Order": "sort the pairs of a leach by their starts, and put an interval's lower end first",
    "TooMany": "a plan may have no more of these: make two plans, or merge zones",
    "Missing": "the plan ends before all its keys: name, grid, zone, a destination, periods, rate",
    "TooLong": "it is longer than a plan may be: is it a zone file?",
    "FeedFailed": "it is missing, is not readable, or is a folder",
}

#: The same of a zone file.
OF_ZONES = {
    "Key": "it is not CSV in UTF-8 with commas",
    "MissingColumn": "the header has no such column: x,y,z,tonnes,grade; `pit-tools import` makes "
                     "zone files of any export",
    "TwiceColumn": "two columns have this name",
    "Width": "this row has another number of cells than the header: a total, a remark, or a comma "
             "without quotes",
    "Number": "write a plain decimal; drop a row without tonnes, and write 0 for a missing grade",
    "TooFine": "round it: coordinates and tonnes have 3 decimals, grades 6",
    "Range": "it is out of range: a missing value, kilograms, degrees, or a position below the "
             "origin of the plan's grid",
    "OffGrid": "it is not a centroid of the plan's grid: is its origin a corner, or is the size "
               "wrong?",
    "TooManyRows": "a file has at most a million rows: cut the zone into two with the same record",
    "TooLong": "a file has at most 256 MiB: cut the zone into two, or drop columns",
    "FeedFailed": "it is missing, is not readable, or is a folder; many files need `ulimit -n`",
}

#: What to do about lines that name no row.
OF_RUN = {
    "settings: Files": "give a zone file for each `zone` record of the plan, in their order",
    "NoThread": "the system allows fewer threads: --valuers 1 needs one, and each zone file one",
    "OutOfMemory": "memory is too small for these blocks: use larger blocks",
}


class Row(NamedTuple):
    """A row of a file: the number of its line, and its cells by the header's names."""

    line: int
    cells: list[str]
    header: list[str]


def row_of(path: str, number: int) -> Optional[Row]:
    """Reads the row of a number in a file; None if the file cannot be read again, as a pipe, or has
    no such row."""
    if not os.path.isfile(path):
        return None
    header: list[str] = []
    count = 0
    try:
        with open(path, encoding="utf-8-sig", errors="replace", newline="") as file:
            rows = csv.reader(file)
            for cells in rows:
                count += bool(cells)
                header = header or [cell.strip().lower() for cell in cells]
                if cells and count == number:
                    return Row(rows.line_num, cells, header)
    except (OSError, csv.Error):
        pass
    return None


def reasons(line: str, plan: str, zones: Sequence[str], base: str) -> Iterator[str]:
    """Returns what a line of `pitc compile` with these files means, in a line or none."""
    if found := re.fullmatch(r"pitc: plan row (\d+): (\w+)", line):
        yield _at(plan, int(found[1]), "", OF_PLAN.get(found[2], ""))
    elif found := re.fullmatch(r"pitc: plan: (\w+)", line):
        yield f"{plan}: {OF_PLAN.get(found[1], found[1])}"
    elif (found := re.fullmatch(r"pitc: file (\d+) row (\d+) column (\w+): (\w+)", line)) and \
            int(found[1]) < len(zones):
        yield _at(zones[int(found[1])], int(found[2]), found[3], OF_ZONES.get(found[4], ""))
    elif (found := re.fullmatch(r"pitc: file (\d+): (\w+)", line)) and int(found[1]) < len(zones):
        yield f"{zones[int(found[1])]}: {OF_ZONES.get(found[2], found[2])}"
    elif found := re.fullmatch(r"pitc: file (\d+) row (\d+) repeats file (\d+) row (\d+)", line):
        second, first = (_place(zones[int(found[at])], int(found[at + 1])) for at in (1, 3)
                         if int(found[at]) < len(zones))
        yield f"{second}: this block is also {first}: give each block to one zone"
    elif found := re.fullmatch(r"pitc: sink (\w+): SinkFailed", line):
        yield f"{base}.{found[1]}: it cannot be written: is the disk full, or the folder not yours?"
    elif line[len("pitc: "):] in OF_RUN:
        yield OF_RUN[line[len("pitc: "):]]


def _place(path: str, number: int) -> str:
    row = row_of(path, number)
    return f"{path}: line {row.line}" if row else f"{path}: row {number}"


def _at(path: str, number: int, column: str, advice: str) -> str:
    """Returns the position of an error with the cell's text, and the advice."""
    row = row_of(path, number)
    if row is None:
        return f"{path}: row {number}: {advice}"
    place = f"{path}: line {row.line}"
    if column in row.header and row.header.index(column) < len(row.cells) and number > 1:
        return f"{place}: {column} is {quoted(row.cells[row.header.index(column)])}: {advice}"
    return f"{place}: {quoted(','.join(row.cells))}: {advice}"
