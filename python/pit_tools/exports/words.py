"""The options that describe an export's columns, and their formulas for its header."""
from __future__ import annotations

import csv
import io
import math
from dataclasses import dataclass, field, fields
from decimal import Decimal
from typing import Any, Optional, Sequence

from pit_tools.errors import UserError
from pit_tools.exports.source import closest_separator
from pit_tools.exports.unnamed import Unnamed, unnamed_in
from pit_tools.files import inputs
from pit_tools.texts.evaluation import code_name
from pit_tools.texts.formulas import Formula, MissingColumn, formula_of, plain_name
from pit_tools.texts.units import (AMBIGUOUS_GRADES, LENGTHS, METALS_A_TONNE, factor_of,
                                   grade_unit_in, is_factor, is_money_a_tonne, metal_in, named_in)

# The kind of each option's unit.
KINDS = {"x": "length", "y": "length", "z": "length", "i": "", "j": "", "k": "", "tonnes": "mass",
         "density": "density", "waste_density": "density", "volume": "volume", "share": "share",
         "ore_share": "share", "waste_share": "share", "grade": "grade", "size_x": "length",
         "size_y": "length", "size_z": "length"}

# Characters that a table of zones or densities may have.
MOST_TABLE = 1 << 24


@dataclass
class Words:
    """The description of an export; an empty text is not given. Names are the options' of
    `pit-tools import`.

    `x` to `grade` are columns or formulas, followed by a unit; `sub_size` has three of them; `zone`
    names columns; `where` are filters; `density_by` and `zones` are tables; `below` has pairs of a
    zone and one above it, as `flat:steep`. The others give the form of the text, the grid, and what
    to do."""

    x: str = ""
    y: str = ""
    z: str = ""
    i: str = ""
    j: str = ""
    k: str = ""
    tonnes: str = ""
    density: str = ""
    waste_density: str = ""
    volume: str = ""
    share: str = ""
    ore_share: str = ""
    waste_share: str = ""
    grade: str = ""
    sub_size: str = ""
    zone: Sequence[str] = ()
    zones: str = ""
    density_by: str = ""
    where: Sequence[str] = ()
    names: Sequence[str] = ()
    separator: str = ""
    decimal: str = ""
    thousands: str = ""
    missing: Sequence[str] = ()
    encoding: str = ""
    sheet: str = ""
    size: str = ""
    first: str = ""
    blocks: str = ""
    order: str = "x,y,z"
    index_from: Optional[int] = None
    from_top: bool = False
    from_north: bool = False
    parents: str = ""
    regularise: str = ""
    corner: str = ""
    merge: bool = False
    drop_repeats: bool = False
    x_bearing: Optional[float] = None
    y_azimuth: Optional[float] = None
    rotation: str = ""
    about: str = ""
    own_axes: bool = False
    package: str = ""
    holes: bool = False
    in_feet: bool = False
    below: Sequence[str] = ()

    @classmethod
    def of_record(cls, record: dict[str, Any]) -> Words:
        """Returns options from BASE.json. It raises TypeError for anything else."""
        words = cls(**record)
        for one in fields(cls):
            value = getattr(words, one.name)
            if isinstance(one.default, bool):
                is_right = isinstance(value, bool)
            elif isinstance(one.default, tuple):
                is_right = isinstance(value, (list, tuple)) and all(isinstance(text, str)
                                                                    for text in value)
            elif one.default is None:
                is_right = value is None or isinstance(value, (int, float))
            else:
                is_right = isinstance(value, str)
            if not is_right:
                raise TypeError(f"{one.name} is {value!r}")
        return words

    @property
    def is_listed(self) -> bool:
        """Returns whether rows have no coordinates, but an order."""
        return not (self.x or self.i)

    @property
    def is_indexed(self) -> bool:
        return bool(self.i)

    @property
    def is_turned(self) -> bool:
        return self.x_bearing is not None or self.y_azimuth is not None

    @property
    def is_merged(self) -> bool:
        """Returns whether several rows may be one block."""
        return self.merge or bool(self.block_size)

    @property
    def block_size(self) -> str:
        """Returns the size of the blocks into which rows are summed up, or none."""
        return self.parents or self.regularise

    def formulas(self) -> dict[str, str]:
        """Returns the texts of formulas, by what they describe."""
        texts = {key: getattr(self, key) for key in KINDS if getattr(self, key, "")}
        if self.sub_size:
            cells = self.sub_size.split(",")
            if len(cells) != 3:
                raise UserError("--sub-size: give three columns, as XINC,YINC,ZINC, not "
                                f"`{self.sub_size}`")
            texts.update(zip(("size_x", "size_y", "size_z"), cells))
        return texts

    def judge(self) -> None:
        """Rejects options that contradict each other."""
        if bool(self.x) != bool(self.y) or bool(self.x) != bool(self.z):
            raise UserError("give --x, --y and --z together")
        if bool(self.i) != bool(self.j) or bool(self.i) != bool(self.k):
            raise UserError("give --i, --j and --k together")
        if self.x and self.i:
            raise UserError("give coordinates (--x) or indices (--i), not both")
        if self.is_listed and not (self.blocks and self.first and self.size):
            raise UserError("give --x, --y and --z; or --i, --j and --k with --first and --size; "
                            "or, for rows without either, --blocks, --first and --size")
        if self.is_indexed and not (self.first and self.size):
            raise UserError("indices need --first, the centroid of the first block, and --size")
        for flag, axis in (("--from-top", self.from_top), ("--from-north", self.from_north)):
            if axis and not (self.is_indexed and self.blocks):
                raise UserError(f"{flag} requires --i, --j and --k, and --blocks with the number "
                                "along each axis: rows may miss the last ones, and all others "
                                "would shift")
        if self.x_bearing is not None and self.y_azimuth is not None:
            raise UserError("give --x-bearing or --y-azimuth, not both")
        if not all(math.isfinite(angle or 0) for angle in (self.x_bearing, self.y_azimuth)):
            raise UserError("--x-bearing, --y-azimuth: give degrees, as 62.5")
        self._judge_feet()
        if self.parents and self.regularise:
            raise UserError("give --parents or --regularise, not both")
        if self.rotation and (self.is_turned or not self.regularise):
            raise UserError("--rotation requires --regularise X,Y,Z, which spreads a model that "
                            "dips over level blocks, and excludes --x-bearing and --y-azimuth")
        if self.own_axes and not (self.is_turned or self.rotation) or self.own_axes and not self.x:
            raise UserError("--own-axes requires --x, --y and --z, and --x-bearing, --y-azimuth or "
                            "--rotation")
        self._judge_masses()
        self._judge_characters()

    def _judge_feet(self) -> None:
        """Rejects densities and volumes in cubic feet with lengths whose unit is not given."""
        if not self.x or self.in_feet or self.volume or self.x.split()[-1] in LENGTHS:
            return
        unit = (self.density.split() or [""])[-1]
        if "/" in unit and ("ft3" in unit or "yd3" in unit):
            raise UserError(f"--density is in {unit}, but the lengths have no unit: give --x "
                            f"'{self.x} ft' and the like, or --in-feet if all lengths are in feet; "
                            f"'{self.x} m' if they are metres")

    def _judge_characters(self) -> None:
        """Rejects contradictory options for the characters of an export."""
        sign = self.separator
        if sign and (len(sign) > 1 or not sign.isascii() or sign.isalnum() or sign in "\"'.+-\r\n"):
            raise UserError(f"--separator must be one character, as ; or tab, not `{sign}`")
        sign = self.thousands
        if sign not in ("", "blank") and (len(sign) > 1 or sign.isalnum() or sign in "+-"):
            raise UserError(f"--thousands must be one character, or `blank`, not `{sign}`")
        if sign and sign == self.decimal:
            raise UserError(f"--decimal and --thousands are both `{sign}`")

    def _judge_masses(self) -> None:
        """Rejects contradictory options for tonnes and grades."""
        if bool(self.tonnes) == bool(self.density or self.density_by):
            raise UserError("give --tonnes, or a density: --density, --density-by")
        if not self.grade:
            raise UserError("give --grade")
        if bool(self.ore_share) != bool(self.waste_density):
            raise UserError("give --ore-share and --waste-density together: the remainder of a "
                            "block is waste, and has a mass")
        if self.waste_share and not self.ore_share:
            raise UserError("--waste-share requires --ore-share: the remainder of the block is air")
        if self.ore_share and self.share:
            raise UserError("--ore-share with --share can be a part of the block, or of its rock: "
                            "give --ore-share and --waste-share as parts of the block, in place of "
                            "--share")
        if self.ore_share and self.tonnes:
            raise UserError("--ore-share requires --density, the density of the ore")


@dataclass(frozen=True)
class Measure:
    """A formula, and the factor from its unit to the unit of `pitc`; `divides` for a volume of a
    mass."""

    formula: Formula
    factor: Decimal = Decimal(1)
    unit: str = ""
    divides: bool = False

    @property
    def is_percent(self) -> bool:
        return self.unit in ("%", "pct")

    @property
    def plain_column(self) -> Optional[int]:
        """Returns the column whose cells are copied digit for digit, or None."""
        return self.formula.plain_column if self.factor == 1 and not self.divides else None


@dataclass
class Table:
    """Rows of texts by which values are found: columns of the export, and of each row their texts
    (`*` is any) and a value."""

    columns: list[int]
    rows: list[tuple[list[str], str]]
    source: str

    def find(self, key: Sequence[str]) -> Optional[str]:
        """The value of the first row that fits."""
        for texts, value in self.rows:
            if all(text in ("*", cell) for text, cell in zip(texts, map(code_name, key))):
                return value
        return None


@dataclass
class Columns:
    """The formulas of an export, by its header."""

    measures: dict[str, Measure]
    filters: list[Formula]
    zone: list[int]
    zones: Optional[Table]
    densities: Optional[Table]
    is_money: bool = False
    unnamed: Unnamed = field(default_factory=Unnamed)

    @property
    def needed(self) -> list[int]:
        """The columns that are read."""
        wanted = {at for measure in self.measures.values() for at in measure.formula.columns}
        wanted |= {at for formula in self.filters for at in formula.columns} | set(self.zone)
        for table in (self.zones, self.densities):
            wanted |= set(table.columns) if table else set()
        return sorted(wanted | set(self.unnamed.columns))

    @property
    def numeric(self) -> list[int]:
        """The columns that are read as numbers by formulas."""
        return sorted({at for measure in self.measures.values() for at in measure.formula.numbers})


def measure_of(text: str, kind: str, names: Sequence[str]) -> tuple[Measure, bool]:
    """Returns a formula with or without a following unit, and whether the unit is money per
    tonne."""
    try:
        return Measure(formula_of(text, names)), False
    except UserError as whole:
        prefix, _, unit = text.strip().rpartition(" ")
        if not prefix or not kind:
            raise
        if kind == "grade" and is_money_a_tonne(unit):
            return Measure(formula_of(prefix, names), unit=unit), True
        factor = factor_of(unit, kind)
        if factor is None:
            try:
                formula_of(prefix, names)
            except UserError:
                raise whole from None
            raise UserError(f"`{unit}` after `{prefix}` is neither a known unit of a {kind} nor "
                            "part of a formula") from None
        divides = kind == "density" and is_factor(unit)
        return Measure(formula_of(prefix, names), factor, unit, divides), False


def table_of(text: str, value: str, names: Sequence[str]) -> Table:
    """A table in a file, whose columns are some of the export's and one called `value`; or in
    words, as `ROCK: ore=2.7, *=2.5`."""
    name, colon, rest = text.partition(":")
    if colon and "=" in rest:
        at = column_of(name, names)
        pairs = [pair.rpartition("=") for pair in rest.split(",")]
        return Table([at], [([code_name(key)], found.strip()) for key, _, found in pairs], text)
    header, *records = _records_of(text)
    named = [at for at, name in enumerate(header) if plain_name(name) == value]
    if not named or len(header) < 2:
        raise UserError(f"{text}: its columns must be `{value}` and some of the export's")
    given = named[-1]
    keys = [at for at in range(len(header)) if at != given]
    rows = [([code_name(record[at]) for at in keys], record[given].strip()) for record in records]
    return Table([column_of(header[at], names) for at in keys], rows, text)


def _records_of(path: str) -> list[list[str]]:
    """The cells of a table in a file, by its lines that have any. Raises UserError, with the
    line,  if one has more or fewer cells than the first."""
    records: list[list[str]] = []
    inputs.reads(path)
    try:
        with open(path, encoding="utf-8-sig", newline="") as file:
            text = file.read(MOST_TABLE + 1)
        if len(text) > MOST_TABLE:
            raise UserError(f"{path}: it has more than {MOST_TABLE:,} characters")
        sign = closest_separator(text) if text.strip() else ","
        reader = csv.reader(io.StringIO(text, newline=""), delimiter=sign, skipinitialspace=True)
        for record in reader:
            record = list(filter(None, record)) if sign == " " else record
            if not any(cell.strip() for cell in record):
                continue
            if records and len(record) != len(records[0]):
                raise UserError(f"{path}: line {reader.line_num} has {len(record)} cells, but the "
                                f"first line {len(records[0])}")
            records.append(record)
    except UnicodeDecodeError:
        raise UserError(f"{path}: it is not text in UTF-8") from None
    except csv.Error as error:
        raise UserError(f"{path}: {error}") from None
    if not records:
        raise UserError(f"{path}: it is empty")
    return records


def column_of(name: str, names: Sequence[str]) -> int:
    """The place of one column by its name."""
    formula = formula_of(f"`{name.strip()}`", names)
    return formula.columns[0]


def columns_of(words: Words, names: Sequence[str]) -> Columns:
    """Returns the formulas for the columns of a header. Raises MissingColumn if the header
    misses a name."""
    measures: dict[str, Measure] = {}
    is_money, hits = False, 0
    try:
        for key, text in words.formulas().items():
            measures[key], money = measure_of(text, KINDS[key], names)
            is_money |= money
            hits += bool(measures[key].formula.columns)
        zone = [column_of(name, names) for name in words.zone]
        filters = [filter_of(text, names) for text in words.where]
        zones = table_of(words.zones, "zone", names) if words.zones else None
        densities = table_of(words.density_by, "density", names) if words.density_by else None
    except MissingColumn as absent:
        absent.hits = hits
        raise
    return Columns(measures, filters, zone, zones, densities, is_money, unnamed_in(names, words))


def filter_of(text: str, names: Sequence[str]) -> Formula:
    """Returns a filter over these columns."""
    try:
        formula = formula_of(text, names)
    except MissingColumn as absent:
        absent.hint = " (in a filter put texts between double quotes)"
        raise
    if not formula.is_condition:
        raise UserError(f"`{text}` compares nothing: write a filter as CLASS <= 3 and ROCK != "
                        "\"AIR\"")
    return formula


def unit_warnings(columns: Columns, names: Sequence[str],
                  units: Sequence[Sequence[str]]) -> list[str]:
    """Yields lines about columns whose header or row of units names a unit other than the one by
    which they are read."""
    warnings = []
    for key, measure in columns.measures.items():
        at, kind = measure.plain_column, KINDS[key]
        if at is None or not kind or measure.unit or key == "grade":
            continue
        texts = [names[at], *(row[at] for row in units if at < len(row))]
        for text in texts:
            unit = named_in(text, kind)
            try:
                factor = factor_of(unit, kind) if unit else None
            except UserError as error:
                warnings.append(f"`{' '.join(text.split())}` of the column {names[at]}: {error}; "
                                f"it is read as {TAKEN[kind]}")
                break
            if factor not in (None, 1):
                warnings.append(f"the column {names[at]} has the unit `{unit}`, but is read as "
                                f"{TAKEN[kind]}: if it is in {unit}, give "
                                f"--{key.replace('_', '-')} '{names[at]} {unit}'")
                break
    return warnings


def grade_units(columns: Columns, names: Sequence[str], units: Sequence[Sequence[str]],
                path: str) -> list[str]:
    """Returns lines about a header or a row of units whose unit differs from the one given with
    --grade. Raises UserError if none is given and the named one is not g/t: the metal would be
    wrong."""
    measure = columns.measures["grade"]
    at = measure.formula.plain_column
    if at is None or columns.is_money:
        return []
    name = " ".join(names[at].split())
    for text in [names[at], *(row[at] for row in units if at < len(row))]:
        metal = metal_in(text)
        if metal and not measure.unit:
            raise UserError(f"{path}: the column {name} seems to be metal in {metal}, not a grade: "
                            f"divide it by the tonnes, as --grade '{name}/TONNES "
                            f"{METALS_A_TONNE[metal]}', or give its unit, as '{name} g/t'")
        unit = grade_unit_in(text)
        if not unit:
            continue
        ways = AMBIGUOUS_GRADES.get(unit, [unit])
        if not measure.unit and ways != [unit]:
            raise UserError(f"{path}: the column {name} has the unit `{unit}`, which has two "
                            f"meanings: give --grade '{name} {ways[0]}' or '{name} {ways[1]}'")
        factors = [factor_of(way, "grade") for way in ways]
        if not measure.unit and factors != [1]:
            raise UserError(f"{path}: the column {name} has the unit `{unit}`, but is read as "
                            f"grams per tonne: give --grade '{name} {unit}', or '{name} g/t' if it "
                            "is g/t")
        if measure.factor not in factors:
            return [f"the column {name} has the unit `{unit}`, but --grade reads it as "
                    f"{measure.unit}"]
    return []


TAKEN = {"length": "metres", "mass": "tonnes", "density": "tonnes per cubic metre",
         "volume": "cubic metres", "grade": "grams per tonne", "share": "a share"}
