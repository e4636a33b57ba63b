"""Reads and writes the zone files of `pitc` (docs/formats.md).

In memory a row is x, y and z in millimetres, tonnes in kilograms and the grade in millionths of
g/t, all int64, as `pitc` holds them."""
from __future__ import annotations

import csv
from typing import IO, Sequence

import numpy as np
import pandas as pd

from pit_tools.errors import UserError, quoted
from pit_tools.exports.source import reject_pipe, widths_of
from pit_tools.files import inputs, outputs
from pit_tools.texts.decimals import parts_of
from pit_tools.texts.lines import line_lengths, complete_lines
from pit_tools.texts.number_texts import lines_of

# The columns of a zone file, and how many decimals each may have.
PLACES = {"x": 3, "y": 3, "z": 3, "tonnes": 3, "grade": 6}

COLUMNS = list(PLACES)

# How many rows are texts at a time.
CHUNK = 200_000


def read_zone_file(path: str) -> pd.DataFrame:
    """The rows of a zone file: columns x, y, z (mm), tonnes (kg) and grade (millionths of g/t),
    int64, the index being the number of the row in its file, counted from 1 with the header as row
    1.

    Columns are found by name, in any order and in upper or lower case; others are ignored. It
    raises UserError for a missing column or a cell that is no number, with its row, and OSError."""
    reject_pipe(path)
    inputs.reads(path)
    chunks: list[pd.DataFrame] = []
    try:
        _judge_widths(path)
        # Without a header, a row with more cells than the first is an error and not an index.
        with pd.read_csv(path, dtype=str, header=None, keep_default_na=False, encoding="utf-8-sig",
                         chunksize=CHUNK, compression=None) as reader:
            for table in reader:
                if not chunks:
                    at = _columns_of(table.iloc[0], path)
                    table = table.iloc[1:]
                chunks.append(_numbers_of(table, at, path))
    except pd.errors.EmptyDataError:
        raise UserError(f"{path}: it is empty") from None
    except (pd.errors.ParserError, UnicodeDecodeError, csv.Error) as error:
        raise UserError(f"{path}: {' '.join(str(error).split())}") from None
    return pd.concat(chunks)


def _columns_of(header: pd.Series, path: str) -> dict[str, int]:
    """Returns the position of each column, by the cells of the header."""
    names = [str(name).strip(" \t").lower() for name in header]
    for column in COLUMNS:
        if names.count(column) != 1:
            raise UserError(f"{path}: {'two columns' if column in names else 'no column'} "
                            f"`{column}`")
    return {column: names.index(column) for column in COLUMNS}


def _judge_widths(path: str) -> None:
    """Stops at the first row that has fewer cells than the header: pandas reads the last ones as
    empty."""
    width = 0
    with open(path, encoding="utf-8-sig", newline="") as text:
        for row, (_, cells) in enumerate(widths_of(text, ","), 1):
            width = width or cells
            if cells < width:
                raise UserError(f"{path}: row {row} has fewer cells than the header")


def _numbers_of(table: pd.DataFrame, at: dict[str, int], path: str) -> pd.DataFrame:
    """The numbers of some rows, whose index counts records from 0."""
    found = {}
    for column, places in PLACES.items():
        found[column], wrong = parts_of(table[at[column]], places)
        if wrong.any():
            row = int(np.flatnonzero(wrong)[0])
            text = table[at[column]].iloc[row]
            raise UserError(f"{path}: row {table.index[row] + 1}: column {column} has "
                            f"{quoted(text)}")
    return pd.DataFrame(found, index=table.index + 1)


def read_zone_files(paths: Sequence[str]) -> pd.DataFrame:
    """The rows of several zone files, in the order of a plan's `zone` records, with a column
    `zone`, counted from 0. The index counts rows from 0."""
    tables = [read_zone_file(path).assign(zone=zone) for zone, path in enumerate(paths)]
    return pd.concat(tables, ignore_index=True)


def write_zone_file(path: str, rows: pd.DataFrame) -> None:
    """Writes rows, as `read_zone_file` returns them: decimals as their shortest texts."""
    with outputs.opened(path, "zone file") as file:
        file.write((",".join(COLUMNS) + "\n").encode())
        append_rows(file, rows)


def append_rows(file: IO[bytes], rows: pd.DataFrame) -> None:
    """Writes rows after those in a file that is open for bytes."""
    if len(rows):
        for lines in lines_of([(rows[name].to_numpy(), places) for name, places in PLACES.items()]):
            file.write(lines.replace(b" ", b","))


def count_lines(path: str) -> int:
    """How many lines a zone file has below its header, blank ones omitted."""
    reject_pipe(path)
    return max(sum(len(line_lengths(chunk)) for chunk in complete_lines(path)) - 1, 0)
