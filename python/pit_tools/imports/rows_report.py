"""Reports the rows of an import, and warns of unusual columns, names and rows, which are no errors
but often wrong."""
from __future__ import annotations

import re
from collections import Counter
from typing import Iterator, Sequence

import pandas as pd

from pit_tools.errors import UserError
from pit_tools.exports.cells import MISSING
from pit_tools.exports.measures import COORDINATES
from pit_tools.exports.reading import NINES_ABOVE, Reading
from pit_tools.exports.report import figure
from pit_tools.imports.read import Read
from pit_tools.inventories.rock import RockModel, column_of_places, ends_of
from pit_tools.plans.grids import Axis, box_text
from pit_tools.texts.decimals import in_short
from pit_tools.texts.formulas import plain_name

# Of how many texts of missing cells and zones the rows are reported.
MOST_REPORTED = 12


class RowsReport:
    """Reports how many rows were read and omitted, how cells were read, and how full the grid
    is."""

    def __init__(self, read: Read) -> None:
        self.read, self.reading, self.words, self.report = (read, read.reading, read.words,
                                                            read.report)

    def judge_nines(self) -> None:
        """Stops at grades and densities of nines alone, as 999, far above all others."""
        for name, found in self.reading.nines.items():
            for mark, (count, line) in found.items():
                most = self.reading.largest[name]
                if mark > NINES_ABOVE * most > 0:
                    raise UserError(f"{line}: {name} is {mark:.10g} there, as in {count:,} rows, "
                                    f"but otherwise at most {most:.10g}: if it means a missing "
                                    f"value, give --missing {mark:.10g}; otherwise omit such rows "
                                    "by --where")

    def report_rows(self) -> None:
        """Reports how many rows were read, what was omitted, and how cells were read."""
        self.judge_nines()
        counts, facts = self.reading.counts, self.report.facts
        facts.append(f"{counts['rows'] + counts['filtered']:,} rows read")
        for what in ("empty lines", "repeated headers",
                     "lines after the last row, as totals"):
            if counts[what]:
                facts.append(f"omitted: {counts[what]:,} {what}")
        if self.words.where:
            facts.append(f"omitted: {counts['filtered']:,} rows by the filter")
        for name, texts in self.reading.missing.items():
            if any(text for _, text in texts):
                facts.append(f"missing in {name}: {sum(texts.values()):,} cells: "
                             f"{self.missing_text(texts)}")
        for name, shown in self.reading.percents.items():
            facts.append(f"{name} is shown in percent: {shown}")
        for (name, _), encoded in self.reading.spellings.items():
            if len(encoded) > 1:
                facts.append(f"a filter does not distinguish in {name}: "
                             f"{', '.join(f'`{text}`' for text in sorted(encoded))}")
        for what, (count, line) in self.reading.incomplete.items():
            facts.append(f"grade {self.words.grade}: in {count:,} rows, as {line}, {what}")
        if self.reading.unknown_densities:
            message = ", ".join(f"`{key}` ({many:,} rows)"
                                for key, many in self.reading.unknown_densities.most_common(5))
            facts.append(f"without a density: {message.replace(chr(9), ' ')}")

    def missing_text(self, texts: Counter[tuple[int, str]]) -> str:
        """Texts of missing cells, each with the zones of its rows."""
        names = self.read.zone_names()
        found: dict[str, list[str]] = {}
        for (zone, text), many in texts.most_common(MOST_REPORTED):
            found.setdefault(text, []).append(f"{names.get(zone, 'no zone')} {many:,}")
        rest = sum(texts.values()) - sum(many for _, many in texts.most_common(MOST_REPORTED))
        parts = [f"{f'`{text}`' if text else 'empty'} in {', '.join(zones)}"
                 for text, zones in found.items()]
        return "; ".join(parts) + (f"; {rest:,} others" if rest else "")

    def report_grid(self, rows: pd.DataFrame, axes: Sequence[Axis]) -> None:
        """Reports how many positions the grid has, how many of these have a row, and what is off
        it."""
        places = axes[0].places * axes[1].places * axes[2].places
        unit = self.read.frame.unit
        self.report.facts.append(f"{box_text(axes)} {unit}; of its {places:,} positions "
                                 f"{len(rows):,} have a row ({len(rows) * 100 // places} "
                                 f"%){self.without_row(rows)}")
        for axis, name in zip(axes, COORDINATES):
            if axis.offset > axis.step / 1000:
                self.report.facts.append(f"{name} is put on the grid: rows are up to "
                                         f"{in_short(axis.offset, 3)} off it")

    @staticmethod
    def without_row(rows: pd.DataFrame) -> str:
        """Returns how many positions between and below the rows of a column have no row."""
        z = rows["iz"].to_numpy()
        floors, tops = ends_of(column_of_places(rows["ix"].to_numpy(), rows["iy"].to_numpy()), z)
        between = int((tops - floors + 1).sum()) - len(rows)
        below = int((floors - z.min()).sum())
        message = [f"{many:,} {where}" for many, where in (
            (between, "between the rows of a column"), (below, "below the lowest")) if many]
        return f"; {' and '.join(message)} have none" if message else ""


def export_warnings(rows: pd.DataFrame, model: RockModel, axes: Sequence[Axis],
                    reading: Reading) -> Iterator[str]:
    """Yields a line for each warning; `rows` are the blocks of `model`."""
    words = reading.words
    if all(axis.step == 1000 for axis in axes) and not words.is_indexed:
        yield ("all sizes are 1: are x, y and z indices of blocks? Give them as --i, --j and --k, "
               "with --first and --size")
    yield from _other_weights(rows, model, reading)
    yield from _names(rows, model.names)


def _other_weights(rows: pd.DataFrame, model: RockModel, reading: Reading) -> Iterator[str]:
    """Compares the tonnes of blocks below others with those by a density or a volume that the
    export also has."""
    if "other" not in rows:
        return
    below = model.is_below & (rows["other"].to_numpy() > 0)
    if not below.any():
        return
    tonnes, other = model.tonnes[below], rows["other"].to_numpy()[below]
    unnamed = reading.unnamed
    by = unnamed.names_text([at for at in (unnamed.weight, unnamed.volume) if at is not None][:1])
    whole = float(other.sum() / tonnes.sum())
    if abs(whole - 1) > 0.02:
        yield (f"blocks below others have {tonnes.sum():,.0f} t, but by {by} {other.sum():,.0f} t, "
               f"{figure(whole)} times that: do blocks differ in size from the grid's, or are "
               "units wrong?")


def _names(rows: pd.DataFrame, zones: Sequence[str]) -> Iterator[str]:
    """Warns of zones that are none, or that may be one."""
    for zone in zones:
        if re.fullmatch(r"-9+(\.0*)?|-", zone) or zone.casefold() in MISSING:
            count = int((rows["zone"] == zones.index(zone)).sum())
            yield (f"{count:,} blocks have the zone `{zone}`, which may mean a missing value: name "
                   "their zone by --zones")
    plainly = {zone: re.sub(r"[\W_]", "", plain_name(zone)) for zone in zones}
    for name in [name for name, many in Counter(plainly.values()).items() if many > 1]:
        similar = [f"`{zone}`" for zone in zones if plainly[zone] == name]
        yield f"zones {' and '.join(similar)} differ only by case, blanks or punctuation: one zone?"
