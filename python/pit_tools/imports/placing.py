"""Puts the rows of exports on a grid, omits what is not rock, and reports that."""
from __future__ import annotations

from collections import Counter
from typing import Sequence

import numpy as np
import pandas as pd

from pit_tools.errors import UserError
from pit_tools.exports.reading import Reading
from pit_tools.exports.report import Report, figure
from pit_tools.exports.source import Source
from pit_tools.imports.blocks import Imported, cut_zones
from pit_tools.imports.masses import Masses
from pit_tools.imports.merging import Merging, Zoning, is_again, key_of, those
from pit_tools.imports.ordered import Ordered
from pit_tools.imports.places import Places, grid_of
from pit_tools.imports.read import Read
from pit_tools.imports.sizes import Sizes
from pit_tools.imports.rows_report import RowsReport, export_warnings
from pit_tools.inventories.holdings import Holdings
from pit_tools.inventories.reconciling import Circumstances, Wanted, compared, statement_of
from pit_tools.inventories.rock import RockModel, rock_warnings
from pit_tools.inventories.statements import Known
from pit_tools.plans.file import Grid
from pit_tools.plans.grids import Axis
from pit_tools.texts.decimals import in_short
from pit_tools.texts.formats import MOST_ROWS

# The most that pitc accepts: kilograms per block, millionths of g/t.
MOST_KILOGRAMS, MOST_GRADE = 10 ** 9, 10 ** 12


class Placing:
    """Puts rows on the grid, and makes them the blocks of an instance."""

    def __init__(self, reading: Reading, sources: list[Source], report: Report,
                 wanted: Wanted = Wanted()) -> None:
        self.read, self.wanted = Read(reading, sources, report), wanted
        self.reading, self.words, self.report = reading, reading.words, report
        self.places, self.rows_report = Places(self.read), RowsReport(self.read)

    def imported(self) -> Imported:
        """Returns the export as blocks of a grid. Raises UserError if that is not possible."""
        report, merging, zoning = self.report, Merging(self.read), Zoning(self.read)
        axes, places = self.places.placed()
        rows = self.rows_of(axes, places)
        if self.words.is_listed:
            Ordered(self.read).judge_order(rows)
        records = pd.DataFrame({"file": self.read.file, "record": self.read.record,
                                **{name: rows[name].to_numpy() for name in ("ix", "iy", "iz")}})
        self.rows_report.report_rows()
        rows = merging.without_repeats(rows)
        rows, air = merging.without_air(rows)
        read, aside = rows, air
        rows = merging.one_row_a_block(rows.drop(columns=["volume", "is_graded"]), axes)
        if self.words.holes:
            rows, air = merging.with_holes(rows, air)
        rows, zones = zoning.zoned(rows)
        for pair in self.words.below:
            rows, zones = zoning.split_below(rows, zones, pair)
        self.judge_ranges(rows)
        grid = grid_of(axes, self.read.factors)
        held = self.holdings(read, aside, grid)
        # With millions of rows each table is freed before the next one.
        del read, aside
        report.facts += ["", *held.table(self.read.measures())]
        self.rows_report.report_grid(rows, axes)
        solid = those(rows, rows["tonnes"] > 0)
        model = self.model(solid, axes, zones)
        report.warnings += rock_warnings(model)
        report.warnings += export_warnings(solid, model, axes, self.reading)
        del solid, model
        rows, files = cut_zones(rows[["ix", "iy", "iz", "tonnes", "grade", "zone"]], zones)
        if len(files) > len(zones):
            report.facts.append(f"a zone file has {MOST_ROWS:,} rows at most: "
                                + ", ".join(f"{name} becomes {files.count(name)} files"
                                            for name in zones if files.count(name) > 1)
                                + ", each a zone of the plan with the same record")
        found = Imported(self.words, self.read.sources, grid, axes, self.read.frame, files, rows,
                         records, report, zoning.benches, zoning.part_of)
        found.holdings = held.rows()
        self.reconcile(found, held)
        return found

    def reconcile(self, found: Imported, held: Holdings) -> None:
        """Compares the import with the given resource report, or reports that none was given."""
        wanted, facts = self.wanted, self.report.facts
        if not (wanted.reports or wanted.expected):
            facts += ["", "nothing was compared: give --reconcile REPORT, or --expect 'ZONE: 1.975 "
                      "Mt at 0.226 g/t'"]
            return
        measure = self.read.measure_of("grade")
        names = self.read.sources[0].names
        columns = [" ".join(names[at].split()) for at in measure.formula.columns] if measure else []
        known = Known(held.names, [*self.words.zone, *(["zone"] if self.words.zones else [])],
                      columns, measure.unit if measure else "")
        statement = statement_of(wanted.reports, wanted.expected, known)
        zones = self.read.zone_names()
        absent = {column: _by_zone(self.reading.missing.get(column, Counter()), zones)
                  for column in columns}
        found.reconciliation = compared(
            statement.rows, held, wanted.tolerance, self.read.measures(),
            Circumstances(absent, self.reading.counts["filtered"]))
        found.reconciliation.notes += [
            *(f"unit used: {taken}, since the report states none" for taken in statement.taken),
            *([f"not compared: the columns {', '.join(statement.ignored)}"]
              if statement.ignored else [])]
        facts += ["", *found.reconciliation.lines()]

    def rows_of(self, axes: Sequence[Axis], places: Sequence[np.ndarray]) -> pd.DataFrame:
        """A row for each part: its place, tonnes, grade, zone and number, and its tonnes by a
        column that nobody named."""
        parts = self.read.parts
        if parts is not None:
            self.read.record = self.read.record[parts.row]
            self.read.file = self.read.file[parts.row]
        cut = parts if parts is not None and parts.is_cut else None
        if cut is not None:
            several = np.bincount(cut.row)
            several = several[several > 1]
            how = "by volume" if self.words.regularise else "of equal tonnes"
            self.report.facts.append(f"{len(several):,} rows take several places, and are cut into "
                                     f"{int(several.sum()):,} parts {how}")
        volume = self.volumes(axes, len(self.read.record))
        masses = Masses(self.words, self.reading, self.report, self.read.taken, volume, cut,
                        self.read.with_cells, self.read.unit_of)
        tonnes = masses.tonnes()
        # Parts of a block whose volumes are not known have no tonnes by a density.
        other = None if self.words.is_merged and self.read.sizes is None else masses.by_other()
        rows = pd.DataFrame({"ix": places[0], "iy": places[1], "iz": places[2], "tonnes": tonnes,
                             "grade": masses.grade, "zone": self.read.taken("zone"),
                             "row": np.arange(len(tonnes)), "volume": masses.rock_volume()})
        if other is not None:
            rows["other"] = other
        zero = self.read.taken("zero")
        if zero is not None:
            rows["zero"] = zero
        if self.read.position is None and self.words.is_merged:
            fraction = masses.share
            if fraction is None and (self.words.volume or self.read.sizes is not None):
                fraction = volume / self.read.volume_of(axes)
            if fraction is not None:
                rows["fraction"] = np.nan_to_num(fraction)
        if self.words.block_size and self.read.sizes is not None:
            self.judge_volumes(rows, axes, self.read.sizes)
        return rows

    def judge_volumes(self, rows: pd.DataFrame, axes: Sequence[Axis], sizes: Sizes) -> None:
        """Stops if rows at a position have more volume than it, except repeated rows."""
        sized = sizes.volumes(self.read.factors)
        if self.read.parts is not None:
            sized = sized[self.read.parts.row] * self.read.parts.share
        again = (np.zeros(len(rows), bool) if self.read.position is None
                 else is_again(rows, self.read.position))
        codes, _ = pd.factorize(key_of(rows))
        sums = np.bincount(codes, np.where(again, 0, np.nan_to_num(sized)))
        whole = (axes[0].step * axes[1].step * axes[2]
                 .step / 1e9 * self.read.factors[0] * self.read.factors[1] * self.read.factors[2])
        # Points that fill blocks are not equally many in each level block.
        over = np.flatnonzero(sums > (1.1 if self.words.rotation else 1.02) * whole)
        if len(over):
            within = np.flatnonzero((codes == over[0]) & ~again)
            raise UserError(f"the sub-blocks of {len(over):,} parents have more than their volume, "
                            f"one {figure(sums[over[0]] / whole)} of it: "
                            f"{self.read.with_cells(int(within[0]))} and "
                            f"{self.read.with_cells(int(within[1]))} are two of these: do exports "
                            f"overlap, or are {sizes.names} not sizes?")

    def volumes(self, axes: Sequence[Axis], count: int) -> np.ndarray:
        """Cubic metres of each row's block."""
        foot = 0.3048 ** 3 if self.words.in_feet else 1.0
        share = self.read.parts.share if self.read.parts is not None else 1.0
        volume = self.read.taken("volume")
        if volume is not None:
            return volume * share
        if self.read.sizes is not None and (self.words.is_merged or self.read.sizes.are_named):
            sized = self.read.sizes.volumes(self.read.factors) * foot
            return sized if self.read.parts is None else sized[self.read.parts.row] * share
        if self.words.parents and not self.words.tonnes:
            raise UserError("the tonnes of a sub-block need its own volume: give --volume or "
                            "--sub-size")
        return np.full(count, self.read.volume_of(axes))

    def holdings(self, rows: pd.DataFrame, air: pd.DataFrame, grid: Grid) -> Holdings:
        """Returns what the zones of the export contain, before rows of a block are summed."""
        names = list(self.reading.zone_numbers)
        known, aside = (those(table, table["zone"] >= 0) for table in (rows, air))
        zone = known["zone"].to_numpy()
        is_counted = None
        if self.read.parts is not None and self.read.parts.is_cut:
            is_counted = self.is_first_part(known)
            aside = aside[self.is_first_part(aside)]
        counts = np.bincount(aside["zone"], minlength=len(names))
        tonnes, grade = (known[key].to_numpy() / 10.0 ** self.reading.fine[key]
                         for key in ("tonnes", "grade"))
        return Holdings(names, zone, tonnes, grade, known["volume"].to_numpy(),
                        (known["ix"].to_numpy(), known["iy"].to_numpy(), known["iz"].to_numpy()),
                        grid, self.read.frame, known["is_graded"].to_numpy(),
                        {name: int(many) for name, many in zip(names, counts)}, is_counted)

    def is_first_part(self, rows: pd.DataFrame) -> np.ndarray:
        """Of rows of parts, which are the first ones of their row of the export."""
        assert self.read.parts is not None
        return ~pd.Series(self.read.parts.row[rows["row"].to_numpy()]).duplicated().to_numpy()

    def model(self, rows: pd.DataFrame, axes: Sequence[Axis], zones: Sequence[str]) -> RockModel:
        """Checks the rock for common mistakes."""
        def height(index: int) -> str:
            return in_short(axes[2].first + index * axes[2].step, 3)
        index = (rows["ix"].to_numpy(), rows["iy"].to_numpy(), rows["iz"].to_numpy())
        return RockModel(index, rows["tonnes"].to_numpy() / 1000, rows["grade"].to_numpy() / 1e6,
                         rows["zone"].to_numpy(), zones, self.read.volume_of(axes),
                         self.read.measures(), height,
                         bool(self.words.share or self.words.ore_share))

    def judge_ranges(self, rows: pd.DataFrame) -> None:
        """Stops at what pitc would reject as out of range."""
        tonnes, grade = rows["tonnes"].to_numpy(), rows["grade"].to_numpy()
        if tonnes.max() > MOST_KILOGRAMS:
            at = int(tonnes.argmax())
            raise UserError(f"{self.read.line(int(rows['row'].iloc[at]))}: a block has "
                            f"{tonnes[at] / 1000:,.0f} t, but pitc accepts at most 1,000,000: are "
                            "these kilograms, is a density in kg/m3, or does such a number mean a "
                            "missing value (--missing)?")
        if grade.max() > MOST_GRADE:
            at = int(grade.argmax())
            raise UserError(f"{self.read.line(int(rows['row'].iloc[at]))}: a grade is "
                            f"{grade[at] / 1e6:,.0f} g/t, which is more than all metal")


def _by_zone(texts: Counter[tuple[int, str]], names: dict[int, str]) -> dict[str, int]:
    """How many cells of a column are missing in each zone."""
    found: Counter[str] = Counter()
    for (zone, _), many in texts.items():
        found[names.get(zone, "")] += many
    return dict(found)
