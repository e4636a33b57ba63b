"""Tables with units in their heads, as CSV and as sheets of a workbook."""
from __future__ import annotations

import csv
import io
import re
import zipfile
from dataclasses import dataclass
from typing import TYPE_CHECKING, Optional, Sequence, Union

from pit_tools.files import outputs
from pit_tools.texts.number_texts import shortest

if TYPE_CHECKING:
    from openpyxl.worksheet.worksheet import Worksheet

#: The value of a cell; None leaves it empty.
Cell = Union[str, float, None]

#: The part of a workbook that names its creator.
_MAKER = "docProps/core.xml"

#: The creator in a workbook of this tool, so that no other workbook is replaced.
_CREATOR = "pit-tools"

#: The day of all entries of a workbook: the same tables make the same file.
_DAY = (1980, 1, 1, 0, 0, 0)


@dataclass(frozen=True)
class Column:
    """A column by its head, and how many decimals its numbers have at the most."""

    head: str
    decimals: int = 0


@dataclass(frozen=True)
class Table:
    """Rows of cells, one for each column; `name` is that of its sheet, of at most 31 letters."""

    name: str
    columns: Sequence[Column]
    rows: Sequence[Sequence[Cell]]


def write_csv(table: Table, place: str, kind: str) -> None:
    """Writes a table as CSV in UTF-8, numbers with a point and without separators of thousands."""
    with outputs.opened(place, kind, "utf-8") as file:
        lines = csv.writer(file, lineterminator="\n")
        lines.writerow(column.head for column in table.columns)
        decimals = [column.decimals for column in table.columns]
        lines.writerows([_text_of(cell, most) for cell, most in zip(row, decimals)]
                        for row in table.rows)


def _text_of(cell: Cell, decimals: int) -> str:
    if cell is None or isinstance(cell, str):
        return cell or ""
    return shortest(cell, decimals)


def write_workbook(tables: Sequence[Table], place: str) -> None:
    """Writes a workbook (.xlsx) with a sheet for each table, whose heads stay visible."""
    import openpyxl

    book = openpyxl.Workbook()
    book.remove(book.active)
    for table in tables:
        _fill(book.create_sheet(table.name), table)
    book.properties.creator = _CREATOR
    made = io.BytesIO()
    book.save(made)
    with outputs.opened(place, "workbook") as file:
        file.write(_without_times(made))


def _fill(sheet: Worksheet, table: Table) -> None:
    from openpyxl.styles import Font
    from openpyxl.utils import get_column_letter

    sheet.append([column.head for column in table.columns])
    for row in table.rows:
        sheet.append([_rounded(cell, column.decimals) for cell, column in zip(row, table.columns)])
    for number, column in enumerate(table.columns, 1):
        head, *cells = (cell for (cell,) in sheet.iter_rows(min_col=number, max_col=number))
        head.font = Font(bold=True)
        for cell in cells:
            cell.number_format = "#,##0" + ("." + "0" * column.decimals if column.decimals else "")
        sheet.column_dimensions[get_column_letter(number)].width = max(12, len(column.head) + 6)
    sheet.freeze_panes = "A2"


def _rounded(cell: Cell, decimals: int) -> Optional[Union[str, float]]:
    return round(float(cell), decimals) if isinstance(cell, (int, float)) else cell


def _without_times(made: io.BytesIO) -> bytes:
    """The same workbook, of one day, with its maker first and as plain text, for `outputs`."""
    packed = io.BytesIO()
    with zipfile.ZipFile(made) as old, zipfile.ZipFile(packed, "w", zipfile.ZIP_DEFLATED) as new:
        for name in sorted(old.namelist(), key=lambda one: one != _MAKER):
            entry, content = zipfile.ZipInfo(name, _DAY), old.read(name)
            entry.compress_type = zipfile.ZIP_DEFLATED
            if name == _MAKER:
                entry.compress_type = zipfile.ZIP_STORED
                content = re.sub(rb"\d{4}-\d\d-\d\dT[\d:]+Z", b"1980-01-01T00:00:00Z", content)
            new.writestr(entry, content)
    return packed.getvalue()
