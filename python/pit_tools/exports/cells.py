"""The form of numbers in an export: decimal and thousands marks, what means a missing value,
negatives in parentheses.

The marks of a file are found in its first rows, if these are unambiguous, or given."""
from __future__ import annotations

import re
from collections import Counter
from dataclasses import dataclass, field
from decimal import Decimal
from typing import Iterable, Optional, Sequence

import numpy as np
import pandas as pd

from pit_tools.errors import UserError
from pit_tools.texts.decimals import (LONGEST, MOST_EXACT, error_of, floats_of, is_decimal,
                                      parts_of, plain as plain_decimal)

# Texts that usually mean a missing value, in any case.
MISSING = ("", "na", "n/a", "nan", "null", "nil", "none", "-", "--", "---", "*", "**", "?", ".",
           "#n/a", "#na", "missing", "absent", "unknown", "void", "no data", "nodata", "blank",
           "1.#qnan", "-1.#ind", "1.#ind", "-nan")

# Marks that may separate thousands and are not decimal marks: blanks of every kind, and
# apostrophes.
BLANKS = " \u00a0\u2007\u2009\u202f"
APOSTROPHES = "'’"


@dataclass
class Marks:
    """The form of a file's numbers. `decimal` is a point or a comma, `thousands` the mark between
    thousands besides blanks and apostrophes; `missing` has texts without case."""

    decimal: str = "."
    thousands: str = ""
    missing: frozenset[str] = frozenset(MISSING)
    missing_numbers: tuple[float, ...] = ()
    seen: Counter = field(default_factory=Counter)
    unclear_point: str = ""

    def plain(self, cell: str, as_percent: bool = False) -> Optional[str]:
        """Returns a cell as a plain decimal; an empty text if the value is missing; None if it is
        not a number. `1.2%` is 0.012, or 1.2 as percent."""
        text = cell.strip()
        if len(text) > LONGEST:
            return None
        if text.endswith("%"):
            found = self.plain(text[:-1]) or None
            return found if as_percent or found is None else plain_decimal(Decimal(found) / 100)
        if text.casefold() in self.missing:
            return ""
        text = text.replace("−", "-").replace("–", "-")
        if text.startswith("(") and text.endswith(")"):
            text = "-" + text[1:-1].strip()
        elif text.endswith("-") and text.count("-") == 1 and text[-2:-1].isdecimal():
            text = "-" + text[:-1]
        between = re.escape(self.thousands + BLANKS + APOSTROPHES)
        if re.search(f"[{between}]", text):
            whole, mark, rest = text.partition(self.decimal)
            if not re.fullmatch(rf"[-+]?\d{{1,3}}([{between}])\d{{3}}(\1\d{{3}})*", whole):
                return None
            self.seen.update(set(re.findall(f"[{between}]", whole)))
            text = re.sub(f"[{between}]", "", whole) + mark + rest
        if self.decimal == ",":
            if "." in text:
                return None
            text = text.replace(",", ".")
        text = re.sub(r"(?<=[\d.])[dD](?=[-+]?\d)", "E", text)
        return None if error_of(text) else text

    def encoded(self, cells: pd.Series, as_percent: bool = False) -> Encoded:
        """Returns cells as plain decimals. Most are plain already, and are used unchanged; each
        other form is read once, and so is each 0 and very large number, which may stand for another
        one."""
        texts, count = cells, len(cells)
        if self.decimal == ",":
            # A point is not one of these numbers' marks, or separates thousands.
            texts = cells.str.replace(",", ".",
                                      regex=False).where(~cells.str.contains(".", regex=False), "")
        floats = floats_of(texts)
        odd = ~np.isfinite(floats) | (floats == 0) | (np.abs(floats) >= MOST_EXACT)
        missing, wrong, percent = np.zeros(count,
                                           bool), np.zeros(count, bool), np.zeros(count, bool)
        if odd.any():
            found = cells[odd]
            percent[odd] = found.str.rstrip().str.endswith("%").to_numpy()
            found = found.map({text: self.plain(text, as_percent) for text in found.unique()})
            missing[odd], wrong[odd] = (found == "").to_numpy(), found.isna().to_numpy()
            floats[odd] = floats_of(found)
            texts = texts.copy()
            texts[odd] = found
        if self.missing_numbers:
            missing |= np.isin(floats, self.missing_numbers)
        wrong |= ~np.isfinite(floats) & ~missing
        floats[missing | wrong] = np.nan
        return Encoded(texts, floats, missing, wrong, percent & ~missing & ~wrong)


@dataclass
class Encoded:
    """Cells of a column: plain decimals, with a point; their floats, NaN for a missing one; and
    masks of the missing cells, of those that are not numbers, and of those with a percent sign."""

    texts: pd.Series
    floats: np.ndarray
    missing: np.ndarray
    wrong: np.ndarray
    percent: np.ndarray

    def parts(self, places: int) -> np.ndarray:
        """Returns the decimals as integers of 10**-places, rounded as decimals; 0 for a missing
        one."""
        return parts_of(self.texts, places, self.floats)[0]


def marks_of(columns: Iterable[pd.Series], *, decimal: str = "", thousands: str = "",
             missing: Sequence[str] = ()) -> Marks:
    """Returns the marks of a file, by cells of its columns of numbers; given marks are used.

    Raises UserError if a mark has two possible meanings, or cells contradict each other."""
    columns = list(columns)
    known = frozenset([*MISSING, *(text.strip().casefold() for text in missing)])
    numbers = tuple(float(text) for text in missing if is_decimal(text.strip()))
    cells = [text for column in columns for text in _message(column) if "." in text or "," in text]
    cells = [text for text in cells if text.casefold() not in known
             and re.fullmatch(rf"[-+(]?[\d.,{BLANKS}{APOSTROPHES}]+[-)]?", text)]
    if decimal not in ("", ".", ","):
        raise UserError(f"--decimal must be a point or a comma, not `{decimal}`")
    unclear = ""
    if not decimal:
        decimal = _decimal_of(cells, thousands)
        if not decimal:
            _judge_points(columns, known)
            decimal, unclear = ".", next((text for text in cells if "." in text), "")
    if not thousands:
        other = "." if decimal == "," else ","
        thousands = other if any(other in text for text in cells) else ""
    return Marks(decimal, thousands.replace("blank", " "), known, numbers, unclear_point=unclear)


def _message(column: pd.Series) -> list[str]:
    """Cells that show a column's marks: some of its first ones, and all that are no plain
    number."""
    odd = column[pd.to_numeric(column, errors="coerce").isna()]
    return [text.strip() for text in pd.concat([column.head(500), odd]).unique()]


def _decimal_of(cells: Sequence[str], thousands: str) -> str:
    """The decimal mark that these cells can only have, or an empty text."""
    found_marks: dict[str, str] = {}
    unclear = ""
    for text in cells:
        digits = text.strip("()+- ")
        points, commas = digits.count("."), digits.count(",")
        if points and commas:
            found_marks.setdefault("," if digits.rfind(",") > digits.rfind(".") else ".", text)
        elif points > 1 or commas > 1:
            if re.fullmatch(r"\d{1,3}([.,]\d{3})+", digits):
                found_marks.setdefault("," if points else ".", text)
        else:
            mark = "." if points else ","
            whole, _, rest = digits.partition(mark)
            if len(rest) != 3 or whole in ("", "0") or len(whole) > 3 or whole.startswith("0"):
                found_marks.setdefault(mark, text)
            elif mark == ",":
                unclear = unclear or text
    if thousands and thousands in ".,":
        return "," if thousands == "." else "."
    if len(found_marks) > 1:
        raise UserError(f"`{found_marks['.']}` has a decimal point, but `{found_marks[',']}` a "
                        "decimal comma: give one by --decimal, and the other by --thousands")
    if not found_marks and unclear:
        raise UserError(f"`{unclear}` is a number with a decimal comma, or with a comma between "
                        "thousands: choose by --decimal , or --thousands ,")
    return next(iter(found_marks), "")


def _judge_points(columns: Sequence[pd.Series], known: frozenset[str]) -> None:
    """Stops if a column has integers up to 999, and points before three digits in all others: then
    these points separate thousands."""
    for column in columns:
        cells = [text.strip() for text in column.unique() if text.strip().casefold() not in known]
        with_point = [text for text in cells if "." in text]
        whole = [text for text in cells if "." not in text and text.strip("+-0")]
        if (with_point and whole
                and all(re.fullmatch(r"[-+]?[1-9]\d{0,2}(\.\d{3})+", text) for text in with_point)
                and all(re.fullmatch(r"[-+]?\d{1,3}", text) for text in whole)):
            raise UserError(f"`{with_point[0]}` has a decimal point, or a point between thousands, "
                            f"since `{whole[0]}` in its column has none: choose by --decimal . or "
                            "--thousands .")
