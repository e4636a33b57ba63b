"""Compares an import with a package's resource report, by zone and in total."""
from __future__ import annotations

from dataclasses import dataclass, field, replace
from typing import Any, Iterator, Mapping, NamedTuple, Optional, Sequence

import numpy as np

from pit_tools.errors import UserError
from pit_tools.exports.report import figure
from pit_tools.inventories.holdings import Holding, Holdings, metal_unit
from pit_tools.inventories.statements import (FIGURES, Known, Stated, Statement, Value, read_report,
                                              take_expected)
from pit_tools.texts.units import Measures

#: The default tolerance of figures, in percent: reports round to three digits or four.
TOLERANCE = 1.0

#: How far a quotient may be from a factor that is its cause.
NEAR = 0.005

#: Possible causes of a quotient of imported and reported figures.
CAUSES: dict[str, list[tuple[float, str]]] = {
    "tonnes": [(1000, "kilograms read as tonnes, or a report in kilotonnes"),
               (1 / 1000, "kilotonnes read as tonnes: --tonnes 'COLUMN kt'"),
               (1 / 0.90718474, "short tons read as tonnes: --tonnes 'COLUMN st'"),
               (0.90718474, "tonnes read as short tons, or a report in short tons"),
               (35.314667, "lengths in feet read as metres: --in-feet, or the unit ft"),
               (1 / 35.314667, "lengths in metres read as feet"),
               (2, "rows that appear twice"),
               (1 / 2, "half of the rows, or blocks of half the size")],
    "grade": [(1000, "parts per billion read as g/t: --grade 'COLUMN ppb'"),
              (1 / 1000, "kilograms per tonne read as g/t: --grade 'COLUMN kg/t'"),
              (10_000, "g/t read as percent, or a report in percent"),
              (1 / 10_000, "percent read as g/t: --grade 'COLUMN %'"),
              (31.1034768, "g/t read as ounces per tonne"),
              (1 / 31.1034768, "ounces per tonne read as g/t: --grade 'COLUMN oz/tonne'"),
              (34.285718, "g/t read as ounces per short ton"),
              (1 / 34.285718, "ounces per short ton read as g/t: --grade 'COLUMN oz/st'"),
              (2, "a grade that is counted twice"), (1 / 2, "half of the grade")],
    "metal": [(factor, f"a report whose metal is in {unit}") for factor, unit in (
        (1000, "a unit 1,000 times as large"), (1 / 1000, "a unit of a thousandth"),
        (31.1034768, "ounces, and not in grams"), (1 / 31.1034768, "grams, and not in ounces"),
        (0.45359237, "kilograms, and not in pounds"),
        (1 / 0.45359237, "pounds, and not in kilograms"))],
    "volume": [(35.314667, "cubic feet read as cubic metres"),
               (1 / 35.314667, "a report in cubic feet"), (2, "rows that appear twice"),
               (1 / 2, "half of the rows, or blocks of half the size"),
               (8, "blocks of twice the size"), (1 / 8, "blocks of half the size")],
    "blocks": [(2, "rows that appear twice"), (1 / 2, "half of the rows")]}


class Difference(NamedTuple):
    """A figure of a row of the report, compared with the model's; `percent` is the model's
    excess."""

    row: Stated
    figure: str
    stated: float
    found: float
    is_within: bool

    @property
    def ratio(self) -> float:
        return self.found / self.stated if self.stated else np.inf if self.found else 1.0

    @property
    def percent(self) -> str:
        """The difference of a number in percent of the report, of a coordinate in its unit."""
        if " " in self.figure:
            return f"{self.found - self.stated:+,.2f}"
        if self.ratio > 10:
            return f"x {figure(self.ratio)}" if np.isfinite(self.ratio) else "all"
        return f"{100 * (self.ratio - 1):+,.2f} %"


@dataclass(frozen=True)
class Circumstances:
    """What `import` knows of an export that a report may count differently: for each column of
    grades how many rows of a zone have none, and how many rows a filter omitted."""

    absent: Mapping[str, Mapping[str, int]] = field(default_factory=dict)
    filtered: int = 0


@dataclass
class Reconciliation:
    """A report compared with a model. `notes` report the units used, and what was not compared."""

    rows: list[Stated]
    held: Holdings
    differences: list[Difference]
    tolerance: float
    measures: Measures
    notes: list[str] = field(default_factory=list)
    circumstances: Circumstances = Circumstances()

    @property
    def wrong(self) -> list[Difference]:
        return [one for one in self.differences if not one.is_within]

    def lines(self, whose: str = "imported", beyond: str = "beyond") -> list[str]:
        """The table of all figures."""
        names = [one.row.zone or "all" for one in self.differences]
        width = max([len("zone"), *map(len, names)])
        sources = dict.fromkeys(one.place.partition(": line")[0] for one in self.rows)
        lines = [f"compared with {', '.join(sources)}, within {self.tolerance:g} %",
                 f"{'zone':{width}} {'from':>9}  {'figure':<14} {'report':>17} {whose:>17} "
                 f"{'difference':>12}"]
        for name, one in zip(names, self.differences):
            stated, found = (self.shown(one.figure, value) for value in (one.stated, one.found))
            cut = "-" if one.row.cut_off is None else figure(self.measures.grade(one.row.cut_off))
            mark = "" if one.is_within else f"  {beyond} {self.tolerance:g} %"
            lines.append(f"{name:{width}} {cut:>9}  {self.unit_of(one.figure):<14} {stated:>17} "
                         f"{found:>17} {one.percent:>12}{mark}")
        return lines + self.notes

    def shown(self, name: str, value: float) -> str:
        """A figure in the unit of `unit_of`."""
        if name == "grade":
            return f"{self.measures.grade(value):.4f}"
        if name == "metal":
            return f"{value / metal_unit(self.measures)[1]:,.1f}"
        return f"{value:,.2f}" if " " in name else f"{value:,.0f}"

    def unit_of(self, name: str) -> str:
        """A figure by its name, with its unit."""
        units = {"tonnes": "t", "grade": self.measures.grade_unit,
                 "metal": metal_unit(self.measures)[0], "volume": "m3"}
        return f"{name}, {units[name]}" if name in units else name

    def judge(self) -> None:
        """Raises UserError if a figure differs beyond the tolerance: the first, its likely
        cause, and the others by their zones."""
        wrong = self.wrong
        if not wrong:
            return
        first = wrong[0]
        unit = self.unit_of(first.figure).partition(", ")[2]
        cut = ("" if first.row.cut_off is None else
               f" from {figure(self.measures.grade(first.row.cut_off))} "
               f"{self.measures.grade_unit} on")
        cause = self.cause(first)
        others = dict.fromkeys(one.row.zone or "the total" for one in wrong[1:])
        more = [name for name in others if name != (first.row.zone or "the total")]
        raise UserError(
            f"{first.row.place}: {first.row.zone or 'the total'}{cut} has {first.figure} of "
            f"{self.shown(first.figure, first.stated)} {unit}".rstrip()
            + f", but the model {self.shown(first.figure, first.found)}, {first.percent}"
            + (f": {cause}?" if cause else "")
            + (f" {', '.join(more)} differ{'' if len(more) > 1 else 's'} too" if more else "")
            + f" (--tolerance {self.tolerance:g} %)")

    def cause(self, one: Difference) -> str:
        """Returns the likely cause of a difference, or an empty text."""
        return next(filter(None, self._causes(one)), "")

    def _causes(self, one: Difference) -> Iterator[str]:
        yield self._exchanged(one)
        yield _factor_text(one)
        if one.figure == "grade" or (one.figure == "metal" and one.row.zone):
            yield self._second_metal(one.row.zone)
        if one.figure in ("tonnes", "blocks", "volume", "metal") and one.ratio < 1:
            yield self._omitted(one)

    def _exchanged(self, one: Difference) -> str:
        """Returns another zone whose contents equal the report's of this one."""
        if not one.row.zone:
            return ""
        for other in self.held.names:
            row = [figure for figure in FIGURES if figure in one.row.figures]
            holding = self.held.of(other, one.row.cut_off)
            if (other != one.row.zone and len(row) > 1 and all(
                    _is_within(one.row.figures[name], holding.figure(name), self.tolerance)
                    for name in row)):
                return f"zone {other} has that, so zones are exchanged"
        return ""

    def _second_metal(self, zone: str) -> str:
        """Columns of a grade of several that are missing in rows of the zone."""
        counts = {column: (rows.get(zone, 0) if zone else sum(rows.values()))
                  for column, rows in self.circumstances.absent.items()}
        message = [f"{column} is missing in {count:,} rows" for column, count in counts.items()
                   if count]
        return f"a second metal: {' and '.join(message)}" if message and len(counts) > 1 else ""

    def _omitted(self, one: Difference) -> str:
        """Returns rows that were omitted and would add about what is missing."""
        zone, held = one.row.zone, self.held.of(one.row.zone)
        aside = self.held.aside
        rows = aside.get(zone, 0) if zone else sum(aside.values())
        each = held.figure(one.figure) / held.blocks if held.blocks else 0.0
        message = []
        if rows and (not each or 0.5 <= (one.stated - one.found) / each / rows <= 2):
            message.append(f"{rows:,} rows of {zone or 'all zones'} are omitted, since they have "
                           "no tonnes")
        if self.circumstances.filtered:
            message.append(f"{self.circumstances.filtered:,} rows are omitted by --where")
        return ", and ".join(message)


def _factor_text(one: Difference) -> str:
    for factor, cause in CAUSES.get(one.figure, ()):
        if abs(one.ratio / factor - 1) <= NEAR:
            return f"that is {figure(one.ratio)} times the report: {cause}"
    return ""


def _is_within(stated: Value, found: float, tolerance: float) -> bool:
    """Returns whether a figure is right within the tolerance in percent and the rounding of the
    report."""
    return abs(found - stated.value) <= tolerance / 100 * abs(stated.value) + stated.slack


def compared(rows: Sequence[Stated], held: Holdings, tolerance: float, measures: Measures,
             circumstances: Circumstances = Circumstances()) -> Reconciliation:
    """Compares the rows of a report with the contents of zones."""
    found = Reconciliation(list(rows), held, [], tolerance, measures, [], circumstances)
    listed = {row.zone for row in rows}
    for row in rows:
        taken, note = _holding_for(row, held, listed, tolerance)
        found.differences += [
            Difference(row, name, row.figures[name].value, taken.figure(name),
                       _is_within(row.figures[name], taken.figure(name), tolerance))
            for name in FIGURES if name in row.figures]
        found.differences += _of_extents(row, held)
        found.notes += [note] if note else []
    absent = [zone for zone in held.names if zone not in listed and held.of(zone).blocks]
    if absent and listed - {""}:
        found.notes.append(f"not in the report: {', '.join(absent)}")
    return found


def _holding_for(row: Stated, held: Holdings, listed: set[str],
                 tolerance: float) -> tuple[Holding, str]:
    """Returns what a row is compared with: the zone's rock, or only its rock with a grade if the
    report counts no other, or, for a total, that of the report's zones."""
    whole = held.of(row.zone, row.cut_off)

    def fits(holding: Holding) -> bool:
        return all(_is_within(row.figures[name], holding.figure(name), tolerance)
                   for name in FIGURES if name in row.figures)
    if fits(whole):
        return whole, ""
    name = row.zone or "all"
    graded = held.of(row.zone, row.cut_off, is_graded=True)
    if held.ungraded(row.zone) and fits(graded):
        return graded, (f"{name}: the report counts no rock without a grade, "
                        f"{held.ungraded(row.zone):,} rows")
    others = [zone for zone in held.names if zone in listed]
    if not row.zone and 0 < len(others) < len(held.names):
        some = [held.of(zone, row.cut_off) for zone in others]
        part = Holding(*(sum(cells) for cells in zip(*some)))
        if fits(part):
            return part, f"the total of the report is that of {', '.join(others)}"
    return whole, ""


def _of_extents(row: Stated, held: Holdings) -> Iterator[Difference]:
    """Compares the ends of a zone: the report's may be of centroids or of blocks."""
    ends = held.extents(row.zone)
    if ends is None:
        return
    for axis, half, (low, high) in zip("xyz", held.half_a_block(), ends):
        for name, centroid, way in ((f"{axis} min", low, -1), (f"{axis} max", high, 1)):
            if name in row.figures:
                stated, slack = row.figures[name]
                beyond = way * (stated - centroid)
                margin = slack + half / 5
                yield Difference(row, name, stated, centroid, -margin <= beyond <= half + margin)


@dataclass(frozen=True)
class Wanted:
    """What to compare: paths of reports, texts of `--expect`, and the tolerance in percent."""

    reports: Sequence[str] = ()
    expected: Sequence[str] = ()
    tolerance: float = TOLERANCE


@dataclass(frozen=True)
class Reconciled:
    """The part that BASE.json and a plan's sidecar file store: the rows of the report, the
    tolerance, the contents of the import's zones as they were written (blocks, t, g), the zones
    that were split, each with the one of which it is a part, and whether rows of the export, which
    a report counts, were summed up or cut."""

    tolerance: float = TOLERANCE
    rows: list[Stated] = field(default_factory=list)
    written: dict[str, tuple[int, float, float]] = field(default_factory=dict)
    part_of: dict[str, str] = field(default_factory=dict)
    is_merged: bool = False

    @classmethod
    def of_record(cls, record: Optional[dict[str, Any]]) -> Reconciled:
        """Returns it from a file's values. It raises KeyError, TypeError, ValueError or
        AttributeError for anything else."""
        if not record:
            return cls()
        written = {str(zone): (int(blocks), float(tonnes), float(metal))
                   for zone, (blocks, tonnes, metal) in record["written"].items()}
        return cls(float(record["tolerance"]), list(map(Stated.of_record, record["rows"])), written,
                   {str(zone): str(other) for zone, other in record["part_of"].items()},
                   bool(record.get("is_merged")))

    def record(self) -> Optional[dict[str, Any]]:
        """As a file has it."""
        if not self.rows:
            return None
        return {"tolerance": self.tolerance, "rows": [row.record() for row in self.rows],
                "written": {zone: list(held) for zone, held in self.written.items()},
                "part_of": self.part_of, "is_merged": self.is_merged}

    def names(self, zones: Sequence[str]) -> list[str]:
        """Returns the zones, split zones under the name of which they are parts."""
        return [self.part_of.get(zone, zone) for zone in zones]

    def judge(self, held: Holdings, measures: Measures, whose: str) -> None:
        """Raises UserError if zones differ from what was reconciled: files in another order, from
        another import, or changed since."""
        rows = [Stated(zone, whose, {"tonnes": Value(tonnes, 0.001),
                                     "grade": Value(metal / tonnes if tonnes else 0.0, 1e-6),
                                     "blocks": Value(blocks, 0)})
                for zone, (blocks, tonnes, metal) in self.written.items()]
        unknown = sorted(set(held.names) ^ set(self.written))
        if unknown:
            raise UserError(f"{whose}: the zones differ from those that were reconciled: "
                            f"{', '.join(unknown)}")
        compared(rows, held, self.tolerance, measures).judge()

    def lines(self, held: Holdings, measures: Measures) -> list[str]:
        """Compares the report with an instance. What `import` found within the tolerance may be
        beyond it here: parents have the zone with most tonnes, and rock without a grade has grade
        0. Blocks of a report differ from those of an instance whose rows were summed up or cut."""
        rows = self.rows
        if self.is_merged:
            rows = [replace(row, figures={name: value for name, value in row.figures.items()
                                          if name != "blocks"}) for row in rows]
        found = compared(rows, held, self.tolerance, measures)
        if any("blocks" in row.figures for row in self.rows) and self.is_merged:
            found.notes.append("blocks were compared by import: rows of the export were summed up "
                               "or cut into blocks of the grid")
        return found.lines("instance", "imported within")


def statement_of(reports: Sequence[str], expected: Sequence[str], known: Known) -> Statement:
    """Reads reports and texts. It raises UserError for what it does not understand, OSError if a
    report cannot be read."""
    statement = Statement()
    for path in reports:
        read_report(path, known, statement)
    for text in expected:
        take_expected(text, known, statement)
    return statement
