"""Reads the rows of exports, as texts, to arrays: places, tonnes or densities, grades, zones."""
from __future__ import annotations

import re
from collections import Counter
from typing import Optional, Sequence

import numpy as np
import pandas as pd

from pit_tools import progress
from pit_tools.errors import UserError
from pit_tools.exports.cells import Marks, marks_of
from pit_tools.exports.last_lines import last_line_warning
from pit_tools.exports.measures import COORDINATES, Measured
from pit_tools.exports.report import Report
from pit_tools.exports.source import Source, sources_of
from pit_tools.exports.unnamed import Unnamed
from pit_tools.exports.words import Columns, Words, columns_of, grade_units, unit_warnings
from pit_tools.exports.workbook import hidden_rows
from pit_tools.texts.decimals import is_number_like
from pit_tools.texts.formulas import plain_name

# Decimals that tonnes and grades keep until several rows of one block are summed.
FINE = {"tonnes": 6, "grade": 9}

# Names of coordinates of a block's edge.
EDGE = re.compile("(x|y|z|east|easting|north|northing|rl|elev|elevation)(min|max|low|lower|high|"
                  "upper|corner|origin|from|to|start|end|left|right|bottom|top)")

# How many times the largest other number such a one must be, to be taken for a mark: ore is never
# that far above all other ore, and a cut of grades leaves the others just below it.
NINES_ABOVE = 5


class Reading:
    """Reads the parts of exports, one after the other, into arrays."""

    def __init__(self, words: Words) -> None:
        self.words = words
        self.chunks: dict[str, list[np.ndarray]] = {}
        self.zone_numbers: dict[str, int] = {}
        # of each column the texts of missing cells, each with the number of its zone
        self.missing: dict[str, Counter[tuple[int, str]]] = {}
        self.counts: Counter = Counter()
        self.fine = FINE if words.is_merged else {"tonnes": 3, "grade": 6}
        self.source_at = 0
        self.first_record = 0
        self.unknown_densities: Counter = Counter()
        # texts that a filter treats as one, by column and code; a cell with a percent sign, by
        # column
        self.spellings: dict[tuple[str, str], set[str]] = {}
        self.percents: dict[str, str] = {}
        self.unnamed = Unnamed()
        # a number whose point may separate thousands
        self.unclear_point = ""
        # rows whose grade misses a term, and rows that have some of its columns but no grade, each
        # with the first line
        self.incomplete: dict[str, tuple[int, str]] = {}
        # by the name of a column of grades or densities, how often it has marks as 999, with the
        # first line, and the largest of its other numbers
        self.nines: dict[str, dict[float, tuple[int, str]]] = {}
        self.largest: dict[str, float] = {}

    def keep(self, **columns: np.ndarray) -> None:
        for name, values in columns.items():
            self.chunks.setdefault(name, []).append(values)

    def agree_on(self, unnamed: Unnamed, source: Source) -> None:
        """Keeps the columns of a header that are not read otherwise. Raises UserError if another
        export has no such columns of sizes."""
        if self.source_at and bool(unnamed.sizes) != bool(self.unnamed.sizes):
            raise UserError(f"{source.path}: some of the exports have columns of sizes, but others "
                            "none: export all with the same columns")
        self.unnamed = unnamed

    def joined(self, name: str) -> Optional[np.ndarray]:
        """Returns a column of all parts, or None; the parts are freed."""
        chunks = self.chunks.pop(name, None)
        return np.concatenate(chunks) if chunks else None

    def column(self, name: str) -> np.ndarray:
        """The same of a column that each row has. Raises KeyError if it was not read."""
        found = self.joined(name)
        if found is None:
            raise KeyError(name)
        return found


def read_export(path: str, words: Words, reading: Reading, report: Report) -> list[Source]:
    """Reads one export into the arrays; of a workbook all sheets with its header."""
    found: list[Columns] = []

    def resolve(names: Sequence[str]) -> None:
        found[:] = [columns_of(words, names)]

    sources = sources_of(path, resolve, encoding=words.encoding, separator=words.separator,
                         names=words.names, sheet=words.sheet)
    for source in sources:
        read_source(source, found[0], reading, report)
    return sources


def read_source(source: Source, columns: Columns, reading: Reading, report: Report) -> None:
    """Reads the rows of one text or sheet."""
    words, marks = reading.words, None
    reading.agree_on(columns.unnamed, source)
    key = _key_column(columns)
    for table in source.chunks(columns.needed):
        if marks is None:
            table = _without_units(table, key, source)
            reading.first_record = int(table.index[0])
            marks = marks_of((table[at] for at in columns.numeric), decimal=words.decimal,
                             thousands=words.thousands, missing=words.missing)
            reading.unclear_point = reading.unclear_point or marks.unclear_point
            report.facts.append(source.description())
            report.warnings += unit_warnings(columns, source.names, source.units)
            report.facts += grade_units(columns, source.names, source.units, source.path)
            report.facts += last_line_warning(source)
            report.warnings += [*source.warnings(), *hidden_text(source),
                                *places_warnings(columns, source.names)]
        Chunk(table, source, columns, marks, reading).take()
        progress.report(f"{reading.counts['rows']:,} rows of {source.path}")
    if marks is not None:
        report.facts += _marks_text(marks)
        if not reading.source_at:
            report.facts.append(_columns_text(columns, source.names))
        reading.counts["money"] += columns.is_money
    reading.source_at += 1


def hidden_text(source: Source) -> list[str]:
    """Returns a warning about hidden rows of a sheet, or none."""
    if source.kind != "workbook":
        return []
    rows = hidden_rows(source.path, source.sheet_name)
    return ([f"{source.path}: sheet `{source.sheet_name}` has {len(rows):,} hidden rows, as row "
             f"{rows[0]}; they are read too: delete them if they do not belong to the model"]
            if rows else [])


def places_warnings(columns: Columns, names: Sequence[str]) -> list[str]:
    """Yields warnings about columns of coordinates whose names mean something else: edges of
    blocks, or a northing as x."""
    named = {key: " ".join(names[at].split()) for key in COORDINATES if key in columns.measures
             if (at := columns.measures[key].formula.plain_column) is not None}
    warnings = []
    edges = [(key, name) for key, name in named.items()
             if EDGE.fullmatch(re.sub(r"[\W_]", "", name.casefold()))]
    if edges:
        key, name = edges[0]
        warnings.append(f"{', '.join(name for _, name in edges)} seem to be edges of blocks, but "
                        f"coordinates must be centroids: add half a block, as --{key} "
                        f"'{name} + 10' if blocks are 20 m long")
    if re.match("(?i)north", named.get("x", "")) and re.match("(?i)east", named.get("y", "")):
        warnings.append(f"x is {named['x']} and y {named['y']}: x must go east, and y north, or "
                        "the mine is mirrored")
    return warnings


def _key_column(columns: Columns) -> int:
    """A column that has a number in each row, by which rows of units are known."""
    for key in (*COORDINATES, "i", "tonnes", "density", "grade"):
        if key in columns.measures and columns.measures[key].formula.numbers:
            return min(columns.measures[key].formula.numbers)
    raise UserError("no formula has a column")


def _without_units(table: pd.DataFrame, key: int, source: Source) -> pd.DataFrame:
    """Returns the first part without the rows between the header and the first number, which the
    source keeps."""
    if not source.has_header:
        return table
    for at in range(min(len(table), 100)):
        if is_number_like(table[key].iloc[at]) and not _is_counted(table.iloc[at]):
            if at:
                source.units = [_row_of(table.iloc[row], len(source.names)) for row in range(at)]
            return table.iloc[at:]
    raise UserError(f"{source.path}: no row below the header in line {source.header_line} has a "
                    f"number in the column {source.names[key]}")


def _is_counted(row: pd.Series) -> bool:
    """Returns whether a row has the numbers of the columns, counted from 0 or 1."""
    return len(row) > 3 and any(all(str(cell).strip() == str(at + start)
                                    for at, cell in row.items()) for start in (0, 1))


def _row_of(row: pd.Series, width: int) -> list[str]:
    return [str(row.get(at, "")) for at in range(width)]


def _marks_text(marks: Marks) -> list[str]:
    message = []
    if marks.decimal == ",":
        message.append("numbers have a decimal comma")
    between = {".": "points", ",": "commas", "'": "apostrophes", "’": "apostrophes"}
    seen = sorted({between.get(mark, "no-break spaces" if mark in "\u00a0\u202f" else "blanks")
                   for mark in marks.seen})
    if seen:
        message.append(f"thousands are separated by {' and '.join(seen)}")
    return message


def _columns_text(columns: Columns, names: Sequence[str]) -> str:
    parts = [f"{key.replace('_', ' ')} {' '.join(measure.formula.text.split())}"
             + (f" ({measure.unit})" if measure.unit else "")
             for key, measure in columns.measures.items()]
    if columns.zone:
        parts.append("zone " + " and ".join(" ".join(names[at].split()) for at in columns.zone))
    return "read as " + ", ".join(parts)


class Chunk(Measured):
    """Some rows of an export, and what is read from them."""

    def take(self) -> None:
        """Appends the rows to those that were read before."""
        self.reading.counts["records"] += len(self.table)
        self.drop_lines_that_are_no_rows()
        if self.columns.filters:
            self.filter()
        if self.table.empty:
            return
        for key in ("x", "y", "z", "i", "j", "k"):
            if key in self.columns.measures:
                self.reading.keep(**{key: self.place(key)})
        self.zone = self.zones()
        self.reading.keep(zone=self.zone)
        self.take_sizes()
        self.take_unnamed()
        self.take_tonnes()
        self.take_grade()
        self.reading.counts["rows"] += len(self.table)
        self.reading.keep(record=self.table.index.to_numpy(np.int64),
                          file=np.full(len(self.table), self.reading.source_at, np.int16))

    def drop_lines_that_are_no_rows(self) -> None:
        """Omits rows that are empty in the columns of formulas, repeated headers, and totals after
        the last row."""
        numeric = self.columns.numeric
        kept = np.zeros(len(self.table), bool)
        for at in numeric:
            kept |= (self.table[at] != "").to_numpy()
            if kept.all():
                break
        else:
            self.reading.counts["empty lines"] += int((~kept).sum())
            self.table = self.table[kept]
        key = _key_column(self.columns)
        again = (self.table[key] == self.source.names[key]).to_numpy()
        if again.any():
            self.judge_header(int(np.flatnonzero(again)[0]))
            self.reading.counts["repeated headers"] += int(again.sum())
            self.table = self.table[~again]
        total = np.zeros(len(self.table), bool)
        for at in range(len(self.table) - 1, max(len(self.table) - 4, -1), -1):
            cells = [self.table[column].iloc[at].strip()
                     for key in COORDINATES if key in self.columns.measures
                     for column in self.columns.measures[key].formula.columns]
            if not cells or any(is_number_like(cell) for cell in cells):
                break
            total[at] = True
        if total.any():
            self.reading.counts["lines after the last row, as totals"] += int(total.sum())
            self.table = self.table[~total]

    def judge_header(self, at: int) -> None:
        """Stops at a repeated header with its columns in another order."""
        for column in self.table.columns:
            text, name = self.table[column].iloc[at].strip(), self.source.names[column]
            if plain_name(text) != plain_name(name):
                raise UserError(f"{self.line(at)}: the header is repeated, with `{text}` where the "
                                f"first one has `{name}`: its rows have other columns. Import them "
                                "as a separate file, with the same names")

    def filter(self) -> None:
        """Omits the rows that a filter does not let through."""
        kept = np.ones(len(self.table), bool)
        for formula in self.columns.filters:
            known, unchanged = self.values(formula, has_negatives=False)
            kept &= formula.holds(known, unchanged)
        self.reading.counts["filtered"] += int((~kept).sum())
        self.table = self.table[kept]

    def take_sizes(self) -> None:
        """The sizes of sub-blocks, in thousandths of their unit."""
        if "size_x" not in self.columns.measures:
            return
        for axis in COORDINATES:
            size = self.floats(self.columns.measures["size_" + axis], "size_" + axis)
            if not (size > 0).all():
                raise UserError(f"{self.line(int(np.flatnonzero(~(size > 0))[0]))}: the size of a "
                                f"sub-block along {axis} is missing or 0")
            self.reading.keep(**{"size_" + axis: size * 1000})

    def take_unnamed(self) -> None:
        """Columns that nobody named, as floats: NaN if there is no number above 0, but 0 of a
        share."""
        found = self.columns.unnamed
        kept = {"own_size_" + axis: at for axis, at in zip(COORDINATES, found.sizes)}
        kept.update({name: at for name, at in (("own_weight", found.weight),
                                               ("own_volume", found.volume)) if at is not None})
        for name, at in kept.items():
            numbers = self.marks.encoded(self.table[at]).floats
            self.reading.keep(**{name: np.where(numbers > 0, numbers, np.nan)})
        for number, at in enumerate(found.rests):
            self.reading.keep(
                **{f"rest_{number}": self.marks.encoded(self.table[at], as_percent=True).floats})

    def take_tonnes(self) -> None:
        """Returns tonnes in parts, -1 if missing; or, of a density, floats until the volume of a
        block is known."""
        if "tonnes" in self.columns.measures:
            tonnes, missing = self.measure("tonnes", self.reading.fine["tonnes"])
            self.reading.keep(zero=~missing & (tonnes == 0))
            if "share" not in self.columns.measures:
                self.reading.keep(tonnes=np.where(missing | (tonnes == 0), -1, tonnes))
                return
            # Of a share of the block: tonnes wait for it as densities do for a volume.
            self.reading.keep(density=np.where(missing | (tonnes == 0), np.nan,
                                               tonnes / 10.0 ** self.reading.fine["tonnes"]))
        else:
            found = self.densities()
            self.reading.keep(density=np.where(found > 0, found, np.nan), zero=found == 0)
        for key in ("volume", "share", "ore_share", "waste_share", "waste_density"):
            if key in self.columns.measures:
                self.reading.keep(**{key: self.in_pitc_units(key)})
        self.judge_share()

    def judge_share(self) -> None:
        """Stops if a row with a mass misses a share: it may be the complete block or none of it."""
        if "share" not in self.columns.measures:
            return
        absent = (np.isnan(self.reading.chunks["share"][-1])
                  & (self.reading.chunks["density"][-1] > 0))
        if absent.any():
            at = int(np.flatnonzero(absent)[0])
            measure = self.columns.measures["share"]
            column = sorted(measure.formula.numbers)[0]
            name = " ".join(self.source.names[column].split())
            whole = (100 if measure.unit
                     or self.marks.encoded(self.table[column]).floats.max(initial=0) > 1 else 1)
            unit = f" {measure.unit}" if measure.unit else ""
            raise UserError(f"{self.line(at)}: the share is missing, {name} being "
                            f"`{self.table[column].iloc[at].strip()}`, as in "
                            f"{int(absent.sum()):,} rows that have a mass: if that means a "
                            f"complete block, give --share 'where(missing({name}), {whole}, "
                            f"{name}){unit}'; if it means none, 0 in place of {whole}")

    def densities(self) -> np.ndarray:
        """Returns tonnes per cubic metre, by the column and, if that is missing, by the table of
        rock codes; NaN if there is none."""
        values = np.full(len(self.table), np.nan)
        if "density" in self.columns.measures:
            values = self.in_pitc_units("density")
        if self.columns.densities:
            texts = self.found_in(self.columns.densities)
            numbers = texts.map({text: _number_or_nan(text)
                                 for text in texts.dropna().unique()}).to_numpy(float)
            absent = np.isnan(values)
            unknown = absent & texts.isna().to_numpy()
            self.reading.unknown_densities.update(
                self.keys_of(self.columns.densities.columns)[unknown].value_counts().to_dict())
            values = np.where(absent, numbers, values)
        return values

    def take_grade(self) -> None:
        grade, missing = self.measure("grade", self.reading.fine["grade"])
        if self.columns.is_money:
            self.reading.counts["negative returns"] += int(missing.sum())
        self.reading.keep(grade=np.where(missing, -1, grade))

    def zones(self) -> np.ndarray:
        """Returns the number of each row's zone, int32, -1 if there is none."""
        if self.columns.zones:
            names = self.found_in(self.columns.zones).fillna("")
        elif self.columns.zone:
            keys = self.keys_of(self.columns.zone)
            names = keys.map({key: "-".join(filter(None, key.split("\t")))
                              for key in keys.unique()})
        else:
            names = pd.Series("all", index=self.table.index)
        numbers = {name: self.reading.zone_numbers.setdefault(name, len(self.reading.zone_numbers))
                   if name else -1 for name in names.unique()}
        return names.map(numbers).to_numpy(np.int32)


def _number_or_nan(text: str) -> float:
    try:
        return float(text)
    except ValueError:
        raise UserError(f"the table of densities has `{text}`, which is not a number") from None
