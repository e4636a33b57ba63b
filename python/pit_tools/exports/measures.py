"""Rows of exports as texts, and the numbers that formulas make of them."""
from __future__ import annotations

import re
from collections import Counter
from typing import TYPE_CHECKING, Optional, Sequence

import numpy as np
import pandas as pd

from pit_tools.errors import UserError
from pit_tools.exports.cells import Marks, Encoded
from pit_tools.exports.source import SHOWN, Source
from pit_tools.exports.words import Columns, Measure, Table
from pit_tools.exports.workbook import UNCOMPUTED
from pit_tools.texts.decimals import LONGEST, is_decimal
from pit_tools.texts.evaluation import code_name
from pit_tools.texts.formulas import Formula, column_name, plain_name

if TYPE_CHECKING:
    from pit_tools.exports.reading import Reading

COORDINATES = ("x", "y", "z")

# Numbers of nines only, which often mean a missing value.
NINES = [float("9" * digits) for digits in range(2, 9)]

# A number of a formula that is greater than this is a mistake, in metres, tonnes or g/t, and could
# not be held.
MOST = 1e9


class Measured:
    """Some rows of an export, as texts, and their numbers. Missing and unusual values are counted
    in `reading`; what cannot be right raises UserError, with its line."""

    def __init__(self, table: pd.DataFrame, source: Source, columns: Columns, marks: Marks,
                 reading: Reading) -> None:
        self.table, self.source, self.columns, self.marks, self.reading = (table, source, columns,
                                                                           marks, reading)
        self.zone = np.full(len(table), -1, np.int32)

    def line(self, at: int, column: Optional[int] = None) -> str:
        """Returns the position of a row of the chunk, or of a cell of it."""
        return self.source.place_of(int(self.table.index[at]), column)

    def values(self, formula: Formula, has_negatives: bool, as_percent: bool = False,
               counted: bool = False) -> tuple[pd.DataFrame, pd.DataFrame]:
        """Returns the columns of a formula by their names in code: numbers, NaN for a missing cell,
        and texts; and the same unchanged. Negative numbers are missing too, except if a measure may
        have them."""
        known, unchanged = {}, {}
        for at in sorted(formula.numbers):
            cells = self.marks.encoded(self.table[at], as_percent)
            if counted:
                self.reject(cells.wrong, at)
                self.note_percent(cells, at)
            if counted and not has_negatives:
                self.note_nines(at, cells.floats)
            numbers = cells.floats
            missing = np.isnan(numbers) if has_negatives else ~(numbers >= 0)
            if counted and not has_negatives:
                self.count_missing(at, missing)
            unchanged[column_name(at)] = numbers
            known[column_name(at)] = np.where(missing, np.nan, numbers)
        for at in sorted(formula.texts):
            known[column_name(at)] = self.codes_of(at)
        return (pd.DataFrame(known, index=self.table.index),
                pd.DataFrame({**known, **unchanged}, index=self.table.index))

    def codes_of(self, column: int) -> pd.Series:
        """A column's texts as filters compare them."""
        texts = self.table[column]
        codes = {text: code_name(text) for text in texts.unique()}
        for text, code in codes.items():
            self.reading.spellings.setdefault((self.source.names[column], code),
                                              set()).add(text.strip())
        return texts.map(codes)

    def note_percent(self, cells: Encoded, column: int) -> None:
        """Keeps a cell with a percent sign. It raises UserError for a number without one in the
        same column."""
        if not cells.percent.any():
            return
        name, shown = self.source.names[column], self.table[column]
        bare = ~cells.percent & (cells.floats > 0)
        with_sign = shown.iloc[int(np.flatnonzero(cells.percent)[0])].strip()
        if bare.any():
            at = int(np.flatnonzero(bare)[0])
            raise UserError(f"{self.line(at, column)}: the column {name} has "
                            f"`{shown.iloc[at].strip()}`, but others have a percent sign, as "
                            f"`{with_sign}`")
        self.reading.percents.setdefault(" ".join(name.split()),
                                         f"`{with_sign}` is {self.marks.plain(with_sign)}")

    def floats(self, measure: Measure, what: str) -> np.ndarray:
        """Returns a formula's values, in its own unit, NaN if a cell is missing. Negative cells of
        a measure are marks, as -99."""
        known, unchanged = self.values(measure.formula, what in COORDINATES or what in "ijk",
                                       measure.is_percent, counted=True)
        values, misses = measure.formula.summed(known, unchanged)
        found = values.to_numpy(float).copy()
        if what == "grade":
            self.note_missing("a term is missing, and adds nothing", misses & ~np.isnan(found))
            some = ~known[[column_name(at) for at in measure.formula.numbers]].isna().all(axis=1)
            self.note_missing("columns are missing, so there is no grade",
                              np.isnan(found) & some.to_numpy())
        if not measure.formula.divides:
            self.reject_vast(np.isinf(found), what)
        found[np.isinf(found)] = np.nan
        return found

    def note_missing(self, what: str, misses: np.ndarray) -> None:
        """Counts rows with a missing value, and keeps the first line."""
        if misses.any():
            count, line = self.reading.incomplete.get(what, (0, ""))
            self.reading.incomplete[what] = (count + int(misses.sum()), line or self.line(
                int(np.flatnonzero(misses)[0])))

    def note_nines(self, column: int, floats: np.ndarray) -> None:
        """Keeps how often a column has numbers of nines only, as 999, and its largest other
        number."""
        name = " ".join(self.source.names[column].split())
        is_nine = np.isin(floats, NINES)
        others = floats[~is_nine & np.isfinite(floats)]
        self.reading.largest[name] = max(self.reading.largest.get(name, 0.0),
                                         float(others.max(initial=0)))
        found = self.reading.nines.setdefault(name, {})
        for mark in np.unique(floats[is_nine]):
            at = int(np.flatnonzero(floats == mark)[0])
            count, line = found.get(float(mark), (0, ""))
            found[float(mark)] = (count + int((floats == mark).sum()), line or self.line(at))

    def reject_vast(self, vast: np.ndarray, what: str) -> None:
        """Stops at the first number of a formula that is too great to be held."""
        if vast.any():
            raise UserError(f"{self.line(int(np.flatnonzero(vast)[0]))}: {what} is too large: is "
                            "its formula or unit wrong?")

    def reject(self, wrong: np.ndarray, column: int) -> None:
        """Stops at the first cell that is no number."""
        if not wrong.any():
            return
        at = int(np.flatnonzero(wrong)[0])
        text = self.table[column].iloc[at].strip()
        name = " ".join(self.source.names[column].split())
        if plain_name(text) in map(plain_name, self.source.names):
            why = (", a name of the header: does the header appear again, with columns in another "
                   "order? Import its rows as a separate file")
        elif wrong.mean() > 0.5 and re.fullmatch(r"[^\d.,-]+-?\d[\d.,]*", text):
            why = (f", as {int(wrong.sum()):,} rows do: a word before each number. Remove it from "
                   "the export")
        else:
            why = _hint(text, self.marks)
        raise UserError(f"{self.line(at, column)}: the column {name} has `{text[:SHOWN]}`{why}")

    def count_missing(self, column: int, missing: np.ndarray) -> None:
        """Counts the texts that mean a missing value."""
        if missing.any():
            name = " ".join(self.source.names[column].split())
            cells = pd.DataFrame({"zone": self.zone[missing],
                                  "text": self.table[column][missing].str.strip()})
            self.reading.missing.setdefault(name, Counter()).update(cells.value_counts().to_dict())

    def place(self, key: str) -> np.ndarray:
        """Coordinates in thousandths of their unit, or indices; they are never missing."""
        measure = self.columns.measures[key]
        at = measure.formula.plain_column
        if at is not None:
            cells = self.marks.encoded(self.table[at])
            self.reject(cells.wrong | cells.missing, at)
            return cells.parts(3)
        values = self.floats(measure, key)
        if np.isnan(values).any():
            raise UserError(f"{self.line(int(np.flatnonzero(np.isnan(values))[0]))}: {key} cannot "
                            "be computed: a cell is missing, or it is divided by 0")
        self.reject_vast(np.abs(values) > MOST, key)
        return np.rint(values * 1000).astype(np.int64)

    def measure(self, key: str, places: int) -> tuple[np.ndarray, np.ndarray]:
        """A measure in 10**-places of the unit of pitc, int64, and if it is missing."""
        measure = self.columns.measures[key]
        at = measure.plain_column
        if at is not None:
            cells = self.marks.encoded(self.table[at])
            self.reject(cells.wrong, at)
            self.reject_percent(cells, key, at)
            if key in ("grade", "density"):
                self.note_nines(at, cells.floats)
            parts = cells.parts(places)
            missing = cells.missing | (parts < 0)
            self.count_missing(at, missing)
            return np.where(missing, 0, parts), missing
        values = self.in_pitc_units(key)
        missing = np.isnan(values) | (values < 0)
        self.reject_vast(values > MOST, key)
        return np.rint(np.where(missing, 0, values) * 10 ** places).astype(np.int64), missing

    def reject_percent(self, cells: Encoded, key: str, column: int) -> None:
        """Stops at a cell with a percent sign in a column whose unit is not given."""
        if cells.percent.any():
            at = int(np.flatnonzero(cells.percent)[0])
            name = " ".join(self.source.names[column].split())
            advice = (f"give the unit, as --grade '{name} %'" if key == "grade"
                      else f"is {name} the right column for --{key.replace('_', '-')}?")
            raise UserError(f"{self.line(at, column)}: the column {name} has "
                            f"`{self.table[column].iloc[at].strip()}`: {advice}")

    def in_pitc_units(self, key: str) -> np.ndarray:
        """A measure as floats in the unit of pitc."""
        measure = self.columns.measures[key]
        values = self.floats(measure, key)
        with np.errstate(divide="ignore", invalid="ignore"):
            values = (float(measure.factor) / values if measure.divides
                      else values * float(measure.factor))
        values[np.isinf(values)] = np.nan
        return values

    def keys_of(self, columns: Sequence[int]) -> pd.Series:
        """The texts of some columns, as one text each row."""
        stripped = [self.table[at].map({text: re.sub(r"^(-?\d+)\.0+$", r"\1", text.strip())
                                        for text in self.table[at].unique()}) for at in columns]
        keys = stripped[0]
        for other in stripped[1:]:
            keys = keys + "\t" + other
        return keys

    def found_in(self, table: Table) -> pd.Series:
        """Returns the value of a table for each row; NaN if none fits."""
        keys = self.keys_of(table.columns)
        return keys.map({key: table.find(key.split("\t")) for key in keys.unique()})


def _hint(text: str, marks: Marks) -> str:
    """Returns what a cell that is not a number may mean."""
    if not text:
        return ", which is empty"
    if text == UNCOMPUTED:
        return (", a formula that no program has computed: open the workbook in a spreadsheet, and "
                "save it")
    if is_decimal(text):
        return (", which changes as a float of 64 bits: has it lost its point? If it means a "
                f"missing value, give --missing '{text}'")
    if len(text) > LONGEST:
        return f", which continues, with {len(text):,} characters in all"
    if text.startswith("#"):
        return (f", an error of a spreadsheet: correct it there, or give --missing '{text}' if it "
                "means a missing value")
    if re.fullmatch(r"[-+]?\d[\d.,]*\s*[^\W\d_][\w/³^]*", text):
        return (": a unit in the cell. Remove units from the cells, and give them after the "
                "column, as --density 'SG t/m3'")
    if re.match(r"(?i)(bench|level|rl|elevation|z)\b", text):
        return ", a heading between rows, not a row: remove such lines"
    if text.startswith("<"):
        return f": if it means nothing, give --missing '{text}'"
    if "," in text and marks.decimal == "." and not marks.thousands:
        return (": if its comma is decimal, give --decimal , and if it separates thousands, "
                "--thousands ,")
    if re.fullmatch(r"\d{4}-\d\d-\d\d.*|\d+-[A-Za-z]{3}", text):
        return ": a spreadsheet has changed a number to a date"
    if marks.thousands and marks.thousands in text:
        return f": `{marks.thousands}` separates thousands in other rows"
    return f": if it means a missing value, give --missing '{text}'"
