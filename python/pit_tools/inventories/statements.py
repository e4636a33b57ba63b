"""Reads the contents of zones from a package's resource report.

    Zone,Cut-off (g/t),Tonnes (Mt),Au (g/t),Metal (koz)
    west,,18.972,0.684,417.4
    west,0.3,13.204,0.931,395.2
    total,,44.734,0.798,1148.2

Columns are recognised by their names, in any case. A unit is in the header or in the cell."""
from __future__ import annotations

import csv
import difflib
import io
import re
from dataclasses import asdict, dataclass, field
from decimal import Decimal
from typing import Any, NamedTuple, Optional, Sequence

import pandas as pd

from pit_tools.errors import UserError
from pit_tools.exports.cells import Marks, marks_of
from pit_tools.files import inputs
from pit_tools.texts.units import MONEY, POUND, SHORT_TON, TROY_OUNCE, factor_of, is_money_a_tonne

#: The figures of a row, in the units in which they are kept: t, g/t, g, m3, a count.
FIGURES = ("tonnes", "grade", "metal", "volume", "blocks")

#: The ends of a zone along the axes of the export, in its unit of length.
EXTENTS = tuple(f"{axis} {end}" for axis in "xyz" for end in ("min", "max"))

#: Names of columns, without case; of those that fit a header the longest counts.
NAMES = {"zone": ("zone", "domain", "orebody", "lode"),
         "cut-off": ("cut-off", "cutoff", "cut off"),
         "tonnes": ("tonnes", "tonnage", "tons", "mass"),
         "grade": ("grade", "mean grade", "average grade", "mean"),
         "metal": ("metal", "contained metal", "metal content", "content"),
         "volume": ("volume",),
         "blocks": ("blocks", "cells", "number of blocks"),
         **{end: (end, end.replace(" ", ""), " ".join(end.split()[::-1]))
            for end in EXTENTS}}

TOTALS = ("", "total", "totals", "all", "sum", "grand total", "all zones")

#: Tonnes of rock and grams of metal, by units whose case counts: Mt are millions.
TONNAGES = {"t": Decimal(1), "kt": Decimal(1000), "Mt": Decimal(1_000_000), "Bt": Decimal(10) ** 9,
            "Mst": SHORT_TON * 1_000_000}
METALS = {"g": Decimal(1), "kg": Decimal(1000), "t": Decimal(10) ** 6, "kt": Decimal(10) ** 9,
          "oz": TROY_OUNCE, "koz": TROY_OUNCE * 1000, "Moz": TROY_OUNCE * 1_000_000,
          "lb": POUND * 1000, "klb": POUND * 1_000_000, "Mlb": POUND * 10 ** 9}
VOLUMES = {"Mm3": Decimal(1_000_000)}

#: Lines in which the header is sought: titles may be before it.
MOST_TITLES = 30

#: The largest report, in bytes: it has a line for each zone and cut-off. No number is longer than
#: MOST_CELL characters.
MOST_BYTES, MOST_CELL = 4_000_000, 60

NUMBER = re.compile(r"\s*(\(?[-+]?[\d.,'’ \u00a0\u202f]*\d[.,]?(?:[eE][-+]?\d{1,3})?\)?)\s*(.*?)"
                    r"\s*")


class Value(NamedTuple):
    """A number of a report, and half a unit of its last digit."""

    value: float
    slack: float


@dataclass(frozen=True)
class Stated:
    """The figures of a row for a zone, or for all if `zone` is empty; `place` is the row's
    position, and `cut_off` in g/t the grade from which rock counts."""

    zone: str
    place: str
    figures: dict[str, Value]
    cut_off: Optional[float] = None

    @classmethod
    def of_record(cls, record: dict[str, Any]) -> Stated:
        """Returns a row from BASE.json. It raises KeyError, TypeError or ValueError for anything
        else."""
        figures = {str(name): Value(*map(float, pair)) for name, pair in record["figures"].items()}
        cut_off = record["cut_off"]
        return cls(str(record["zone"]), str(record["place"]), figures,
                   None if cut_off is None else float(cut_off))

    def record(self) -> dict[str, Any]:
        """The row as BASE.json has it."""
        return asdict(self)


@dataclass
class Statement:
    """The rows of reports; `taken` has the units that were used if none was given, and `ignored`
    the columns that were not read."""

    rows: list[Stated] = field(default_factory=list)
    taken: list[str] = field(default_factory=list)
    ignored: list[str] = field(default_factory=list)

    def add(self, row: Stated) -> None:
        """Adds a row. Raises UserError if its zone has one of this cut-off."""
        for other in self.rows:
            if (other.zone, other.cut_off) == (row.zone, row.cut_off):
                raise UserError(f"{row.place}: {row.zone or 'the total'} has a row already in "
                                f"{other.place}: give the sum, one row for each zone and cut-off")
        self.rows.append(row)


@dataclass(frozen=True)
class Known:
    """What a report may name: the zones, columns of zones, columns of grades, and the unit of
    grades that was given to `import`, or none."""

    zones: Sequence[str]
    zone_columns: Sequence[str] = ()
    grade_columns: Sequence[str] = ()
    grade_unit: str = ""

    @property
    def is_money(self) -> bool:
        """Returns whether the grade is a net smelter return."""
        return is_money_a_tonne(self.grade_unit)

    def zone_of(self, text: str, place: str) -> str:
        """The zone of a cell, empty for all. It raises UserError for one that is not known."""
        plain = _plain(text)
        similar = [zone for zone in self.zones if _plain(zone) == plain]
        if text.strip() in self.zones:
            return text.strip()
        if len(similar) == 1:
            return similar[0]
        if plain in TOTALS:
            return ""
        near = difflib.get_close_matches(plain, map(_plain, self.zones), 1)
        hint = f"; is it {near[0]}?" if near else ""
        raise UserError(f"{place}: no zone `{text.strip()}`: the zones are "
                        f"{', '.join(self.zones)}{hint}")

    def factor(self, unit: str, kind: str) -> Optional[float]:
        """Returns a unit of this kind in the unit in which figures are stored, or None. It raises
        UserError for one that has two meanings."""
        if kind == "cut-off":
            kind = "grade"
        if self.is_money and kind in ("grade", "metal"):
            return _money_factor(unit, kind)
        table = {"tonnes": TONNAGES, "metal": METALS, "volume": VOLUMES}.get(kind, {})
        tables = {"tonnes": "mass", "grade": "grade", "volume": "volume"}
        found = table.get(unit)
        if found is None and kind in tables:
            found = factor_of(unit, tables[kind])
        return None if found is None else float(found)

    def default_unit(self, kind: str) -> str:
        """Returns the unit of figures that have none, or an empty text if one must be given."""
        if kind in ("grade", "cut-off"):
            return self.grade_unit or "g/t"
        return {"tonnes": "t", "volume": "m3"}.get(kind, "")


def _money_factor(unit: str, kind: str) -> Optional[float]:
    """The factor of a return: `USD/t` of a grade, and `USD`, `kUSD` or `MUSD` of a metal."""
    if kind == "grade":
        return 1.0 if is_money_a_tonne(unit) else None
    for prefix, factor in (("", 1.0), ("k", 1e3), ("M", 1e6)):
        if unit.startswith(prefix) and unit[len(prefix):].casefold() in MONEY:
            return factor
    return None


def _plain(text: str) -> str:
    """Returns a name without case, and with one blank between words."""
    return " ".join(re.sub(r"[_\s]+", " ", text).split()).casefold()


def read_report(path: str, known: Known, statement: Statement) -> None:
    """Adds the rows of a report. It raises UserError, with line and column, for what it does not
    understand."""
    records = _records_of(path)
    at, columns = _header_of(records, known, path)
    names = records[at][1]
    statement.ignored += [name.strip() for number, name in enumerate(names)
                          if number not in columns and name.strip()]
    body = [(line, cells) for line, cells in records[at + 1:] if any(map(str.strip, cells))]
    if not body:
        raise UserError(f"{path}: no row follows the header")
    marks = _marks_of([cells[number] for _, cells in body for number in columns
                       if number < len(cells) and columns[number][0] != "zone"], path)
    for line, cells in body:
        statement.add(_row_of(path, line, cells, names, columns, known, marks, statement))


def _records_of(path: str) -> list[tuple[int, list[str]]]:
    """The lines of a report with their cells, beginning with the first that has any."""
    content = inputs.content_of(path, MOST_BYTES, ": is it a resource report?")
    try:
        text = content.decode("utf-8-sig")
    except UnicodeDecodeError:
        text = content.decode("cp1252", "replace")
    if not text.strip():
        raise UserError(f"{path}: it is empty")
    if "\0" in text:
        raise UserError(f"{path}: it is not text: give the report as CSV")
    head = next((line for line in text.splitlines() if re.search("(?i)tonn|tons|mass", line)), text)
    reader = csv.reader(io.StringIO(text, newline=""), delimiter=max(",;\t|", key=head.count))
    try:
        return [(reader.line_num, cells) for cells in reader if any(map(str.strip, cells))]
    except csv.Error as error:
        raise UserError(f"{path}: line {reader.line_num}: {error}") from None


def _header_of(records: Sequence[tuple[int, list[str]]], known: Known,
               path: str) -> tuple[int, dict[int, tuple[str, str]]]:
    """The number of the header among the records, and of each column that is known its kind and its
    unit."""
    for at, (line, cells) in enumerate(records[:MOST_TITLES]):
        kinds = {number: _kind_of(cell, known) for number, cell in enumerate(cells)}
        found = {number: kind for number, kind in kinds.items() if kind}
        if not any(kind == "tonnes" for kind, _ in found.values()):
            continue
        for number, (kind, unit) in found.items():
            place = f"{path}: line {line}, column {cells[number].strip()}"
            others = [cells[other].strip() for other, (same, _) in found.items()
                      if same == kind and other < number]
            if others:
                raise UserError(f"{place}: {others[0]} is already the column of {kind}")
            _judge_unit(unit, kind, known, place)
        return at, found
    line, cells = records[0]
    raise UserError(f"{path}: line {line}: no column is `tonnes` or `tonnage`: the columns are "
                    f"{', '.join(cell.strip() for cell in cells)[:200]}")


def _kind_of(header: str, known: Known) -> Optional[tuple[str, str]]:
    """Returns the kind of a column and the unit in its header, or None for any other column."""
    words = re.sub(r"[_\[\](){},]+", " ", header).split()
    plain = " ".join(words).casefold()
    names = {name: kind for kind, some in NAMES.items() for name in some}
    names.update({_plain(column): "zone" for column in known.zone_columns})
    for column in known.grade_columns:
        names.update({_plain(column).split(" ")[0]: "grade", _plain(column): "grade"})
    fits = [name for name in names if plain == name or plain.startswith(name + " ")]
    if not fits:
        return None
    longest = max(fits, key=len)
    unit = " ".join(words[len(longest.split()):])
    unit = re.sub(r"^in\s+", "", unit)
    kind = names[longest]
    if kind == "grade" and unit in METALS:
        kind = "metal"
    return kind, unit


def _judge_unit(unit: str, kind: str, known: Known, place: str) -> None:
    """Rejects an unknown unit."""
    if not unit:
        return
    if kind in ("zone", "blocks", *EXTENTS):
        if kind in EXTENTS and unit in ("m", "ft"):
            return
        raise UserError(f"{place}: `{unit}` is not a unit of {kind}")
    try:
        factor = known.factor(unit, kind)
    except UserError as error:
        raise UserError(f"{place}: {error}") from None
    if factor is None:
        raise UserError(f"{place}: `{unit}` is not a known unit of {kind}")


def _marks_of(cells: Sequence[str], path: str) -> Marks:
    """Returns how numbers are written in these cells, whose units are omitted."""
    found = (NUMBER.fullmatch(cell.strip()) for cell in cells if len(cell.strip()) <= MOST_CELL)
    texts = [one[1].strip() for one in found if one]
    try:
        return marks_of([pd.Series(texts, dtype=str)])
    except UserError as error:
        raise UserError(f"{path}: {str(error).partition(': choose')[0].partition(': give')[0]}: "
                        "write numbers with a decimal point, and nothing between "
                        "thousands") from None


def _row_of(path: str, line: int, cells: Sequence[str], names: Sequence[str],
            columns: dict[int, tuple[str, str]], known: Known, marks: Marks,
            statement: Statement) -> Stated:
    """The row of a line."""
    figures: dict[str, Value] = {}
    zone, cut_off = "", None
    for number, (kind, unit) in columns.items():
        cell = cells[number].strip() if number < len(cells) else ""
        place = f"{path}: line {line}, column {names[number].strip()}"
        if kind == "zone":
            zone = known.zone_of(cell, place)
        elif cell.casefold() in marks.missing:
            if kind == "tonnes":
                raise UserError(f"{place}: the tonnes are missing")
        elif kind == "cut-off":
            cut_off = _value(re.sub(r"^[>=≥\s]+", "", cell), kind, unit, known, marks, place,
                             statement).value
        else:
            figures[kind] = _value(cell, kind, unit, known, marks, place, statement)
    return Stated(zone, f"{path}: line {line}", figures, cut_off)


def _value(cell: str, kind: str, unit: str, known: Known, marks: Marks, place: str,
           statement: Statement) -> Value:
    """The number of a cell in the unit in which figures are kept."""
    found = NUMBER.fullmatch(cell) if len(cell) <= MOST_CELL else None
    text = marks.plain(found[1]) if found else None
    if not found or not text:
        raise UserError(f"{place}: `{cell[:MOST_CELL]}` is not a number")
    own = found[2]
    _judge_unit(own, kind, known, place)
    unit = own or unit
    if not unit and kind in FIGURES[:4] + ("cut-off",):
        unit = known.default_unit(kind)
        if not unit:
            example = "metal (MUSD)" if known.is_money else "metal (koz)"
            raise UserError(f"{place}: the unit is missing: give it in the header, as `{example}`")
        taken = f"{kind} in {unit}"
        if taken not in statement.taken:
            statement.taken.append(taken)
    factor = 1.0
    if kind not in ("blocks", *EXTENTS):
        factor = known.factor(unit, kind) or 1.0
    number = Decimal(text)
    if number < 0 and kind not in EXTENTS and not (known.is_money and kind in ("grade", "metal")):
        raise UserError(f"{place}: the {kind} `{cell.strip()}` is below 0")
    exponent = number.as_tuple().exponent
    last = 10.0 ** min(exponent, 0) if isinstance(exponent, int) else 1.0
    return Value(float(number) * factor, 0.5 * last * factor)


#: `west: 1.975 Mt at 0.226 g/t, 14.35 koz above 0.3 g/t`
EXPECTED = re.compile(r"(?:(?P<zone>.*):)?\s*(?P<tonnes>[^:]+?)(?:\s+at\s+(?P<grade>[^,]+?))?"
                      r"(?:\s*,\s+(?P<metal>.+?))?(?:\s+above\s+(?P<cut>.+?))?\s*")


def take_expected(text: str, known: Known, statement: Statement) -> None:
    """Adds the figures of `--expect`. It raises UserError for what it does not understand."""
    found = EXPECTED.fullmatch(text) if len(text) < 4 * MOST_CELL else None
    if not found:
        raise UserError(f"--expect: `{text}`: write it as 'west: 1.975 Mt at 0.226 g/t'")
    place = f"--expect '{text}'"
    if found["zone"] is not None and not found["zone"].strip():
        raise UserError(f"{place}: no zone precedes the colon: name it, or omit the colon for all "
                        "zones")
    cells = {"tonnes": found["tonnes"], "grade": found["grade"], "metal": found["metal"],
             "cut-off": found["cut"]}
    marks = _marks_of([cell for cell in cells.values() if cell], "--expect")
    values = {kind: _value(cell.strip(), kind, "", known, marks, place, statement)
              for kind, cell in cells.items() if cell}
    cut_off = values.pop("cut-off", None)
    statement.add(Stated(known.zone_of(found["zone"] or "", place), place, values,
                         cut_off.value if cut_off else None))
