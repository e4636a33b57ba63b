"""Reads the sheets of a workbook (.xlsx) as texts, as who looks at them sees them: 1.2% for a cell
of 0.012 that is shown in percent."""
from __future__ import annotations

import datetime
import math
import re
import zipfile
from contextlib import contextmanager
from dataclasses import dataclass
from decimal import Decimal
from typing import Any, Iterator, TypeVar
from xml.etree import ElementTree

import pandas as pd

from pit_tools.errors import UserError
from pit_tools.texts.decimals import plain

# Marks a formula that no program has computed yet.
UNCOMPUTED = "#not computed"

# Quotes, escapes and brackets of a number format, whose percent signs mean nothing.
LITERAL = re.compile(r'"[^"]*"|\\.|\[[^\[\]]*\]')

# The most cells of all sheets: the number of bytes of their XML, or this.
LEAST_PLACES = 1_000_000


def sheets_of(path: str, sheet: str) -> Iterator[tuple[str, pd.DataFrame]]:
    """The names and cells of all sheets, or of the one that is named. Raises UserError if that
    is not there, or the workbook cannot be read."""
    import openpyxl

    # The library decides by a name's ending, or opens any file that is passed open.
    with open(path, "rb") as file:
        with _message(f"{path}: the workbook"):
            book = openpyxl.load_workbook(file, read_only=True, data_only=True)
            pages = list(book.worksheets)
        with zipfile.ZipFile(path) as archive:
            size = sum(part.file_size for part in archive.infolist())
        places = Places(path, max(LEAST_PLACES, size))
        names = [page.title for page in pages]
        if sheet and sheet not in names:
            raise UserError(f"{path}: no sheet `{sheet}`: give "
                            f"{', '.join(f'`{name}`' for name in names)}")
        for page in pages:
            if sheet in ("", page.title):
                with _message(f"{path}: the sheet `{page.title}`"):
                    texts = _texts_of(page, places)
                yield page.title, texts


@contextmanager
def _message(what: str) -> Iterator[None]:
    """Reports in a line whatever the library raises for a damaged workbook, since it does not
    document its errors."""
    try:
        yield
    except (UserError, MemoryError, ImportError):
        raise
    except Exception as error:  # pylint: disable=broad-except
        message = " ".join(str(error).split())[:200] or type(error).__name__
        raise UserError(f"{what} cannot be read: {message}") from None


@dataclass
class Places:
    """How many places the sheets of a workbook may still have: small files state vast sheets."""

    path: str
    left: int

    def judge(self, title: str, rows: int, columns: int, count: int) -> None:
        """Stops at a cell so far from the others that the sheet would have more cells than may
        remain."""
        if count > self.left:
            raise UserError(f"{self.path}: the sheet `{title}` extends to "
                            f"{cell_name(rows, max(1, columns))}, but most of it is empty: clear "
                            "the cells far from the others")


def _texts_of(page: Any, places: Places) -> pd.DataFrame:
    """The cells of a sheet from A1 on, without empty ones at the ends of rows and of the sheet."""
    is_percent: dict[str, bool] = {}
    page.reset_dimensions()
    rows: list[list[str]] = []
    seen = widest = height = 0
    for row in page.iter_rows():
        texts = _shortened([_text_of(cell, is_percent) for cell in row])
        rows.append(texts)
        seen, widest = seen + len(row) + 1, max(widest, len(texts))
        height = len(rows) if texts else height
        places.judge(page.title, len(rows), len(row), max(seen, height * widest))
    places.left -= seen
    for at, column in _without_value(page, places.path):
        rows[at] += [""] * (column + 1 - len(rows[at]))
        rows[at][column] = UNCOMPUTED
    return pd.DataFrame(_shortened(rows), dtype=object).fillna("")


_Cells = TypeVar("_Cells", "list[str]", "list[list[str]]")


def _shortened(cells: _Cells) -> _Cells:
    """Cells or rows without the empty ones at their end."""
    while cells and not cells[-1]:
        cells.pop()
    return cells


def _without_value(page: Any, path: str) -> Iterator[tuple[int, int]]:
    """The row and column, from 0, of each cell with a formula and no value; one of a text may be
    empty."""
    row = column = -1
    # The library shows in no other way which part of the archive a sheet is.
    part = page._worksheet_path.lstrip("/")  # pylint: disable=protected-access
    with zipfile.ZipFile(path) as archive, archive.open(part) as content:
        for event, node in ElementTree.iterparse(content, ("start", "end")):
            name = node.tag.rpartition("}")[2]
            if (event, name) == ("start", "row"):
                row, column = int(node.get("r", row + 2)) - 1, -1
            elif (event, name) == ("end", "c"):
                letters = node.get("r", "").rstrip("0123456789")
                column = _column_number(letters) - 1 if letters else column + 1
                parts = {one.tag.rpartition("}")[2]: one.text for one in node}
                if "f" in parts and not parts.get("v") and node.get("t") != "str":
                    yield row, column
            if event == "end" and name in ("c", "row"):
                node.clear()


def hidden_rows(path: str, sheet: str) -> list[int]:
    """Returns the rows of a sheet that are hidden, as by a filter. It raises UserError for cells
    below the first row that are merged over several rows: only one of these has a value."""
    import openpyxl

    with _message(f"{path}: the sheet `{sheet}`"), open(path, "rb") as file:
        book = openpyxl.load_workbook(file, read_only=True)
        part = book[sheet]._worksheet_path  # pylint: disable=protected-access
        with zipfile.ZipFile(path) as archive:
            text = archive.read(part.lstrip("/"))
    for merged in re.findall(rb'<mergeCell ref="([A-Z]+\d+:[A-Z]+\d+)"', text):
        first, last = (int(number) for number in re.findall(rb"\d+", merged))
        if last > first > 1:
            raise UserError(f"{path}: sheet `{sheet}`: cells {merged.decode()} are merged, so only "
                            "the first one has a value: unmerge them, and fill each row")
    return [int(row) for tag in re.findall(rb"<row [^>]*>", text)
            if re.search(rb'hidden="(1|true)"', tag) for row in re.findall(rb' r="(\d+)"', tag)]


def _column_number(letters: str) -> int:
    from openpyxl.utils import column_index_from_string

    return column_index_from_string(letters)


def cell_name(row: int, column: int) -> str:
    """How a spreadsheet calls a cell, its row and column counted from 1: D21."""
    from openpyxl.utils import get_column_letter

    return f"{get_column_letter(column)}{row}"


def _text_of(cell: Any, is_percent: dict[str, bool]) -> str:
    """A cell as the text that it means."""
    value = cell.value
    if value is None:
        return ""
    if isinstance(value, str):
        return value
    if isinstance(value, bool):
        return str(value).upper()
    if isinstance(value, (int, float)):
        if isinstance(value, float) and math.isnan(value):
            return ""
        is_integer = isinstance(value, int) or value.is_integer()
        text = plain(Decimal(repr(value))) if is_integer else repr(value)
        shown = cell.number_format
        if shown not in is_percent:
            is_percent[shown] = "%" in LITERAL.sub("", shown)
        return plain(Decimal(text) * 100) + "%" if is_percent[shown] else text
    return value.isoformat() if isinstance(value, (datetime.date, datetime.time)) else str(value)
