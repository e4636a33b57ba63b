"""Rows of exports as they were read: the position of each, and what is known of all of them."""
from __future__ import annotations

from typing import Optional, Sequence

import numpy as np

from pit_tools.exports.measures import COORDINATES
from pit_tools.exports.reading import Reading
from pit_tools.exports.report import Report
from pit_tools.exports.source import Source
from pit_tools.exports.words import Measure, columns_of
from pit_tools.imports.sizes import Parts, Sizes
from pit_tools.plans.grids import Axis, Frame, Turn
from pit_tools.texts.units import Measures, grade_unit_of


class Read:
    """What was read, with what is found of it on the way: the turn of the model, the factor of the
    unit along each axis, the rows' own sizes, the parts that they are cut into, and the positions
    of rows of sub-blocks, one number for each centroid."""

    def __init__(self, reading: Reading, sources: list[Source], report: Report) -> None:
        self.reading, self.sources, self.report, self.words = (reading, sources, report,
                                                               reading.words)
        self.turn: Optional[Turn] = None
        self.factors = [1.0, 1.0, 1.0]
        self.sizes: Optional[Sizes] = None
        self.parts: Optional[Parts] = None
        self.position: Optional[np.ndarray] = None
        self.record, self.file = reading.column("record"), reading.column("file")
        self.count = len(self.record)

    def line(self, at: int) -> str:
        return self.sources[self.file[at]].place_of(int(self.record[at]))

    def with_cells(self, at: int) -> str:
        """Returns the position of a row in its file, and its cells."""
        cells = self.sources[self.file[at]].cells_of(int(self.record[at]))
        more = f" and {len(cells) - 12} more" if len(cells) > 12 else ""
        return f"{self.line(at)} ({', '.join(cells[:12])}{more})"

    def measure_of(self, key: str) -> Optional[Measure]:
        text = self.words.formulas().get(key)
        return columns_of(self.words, self.sources[0].names).measures[key] if text else None

    def unit_of(self, key: str) -> str:
        """Returns the unit that follows an option's column, or none."""
        measure = self.measure_of(key)
        return measure.unit if measure else ""

    def of_axes(self, prefix: str) -> list[np.ndarray]:
        """Returns a column for each axis, or none if they were not read."""
        found = [self.reading.joined(prefix + axis) for axis in COORDINATES]
        return [column for column in found if column is not None]

    def taken(self, name: str) -> Optional[np.ndarray]:
        """Returns a column of what was read, a row for each part of the export's rows; None if it
        was not read from all."""
        column = self.reading.joined(name)
        if column is None or len(column) != self.count:
            return None
        return column if self.parts is None else column[self.parts.row]

    def volume_of(self, axes: Sequence[Axis]) -> float:
        """Cubic metres of a block of the grid."""
        foot = 0.3048 ** 3 if self.words.in_feet else 1.0
        metres = [axis.step * factor / 1000 for axis, factor in zip(axes, self.factors)]
        return metres[0] * metres[1] * metres[2] * foot

    def zone_names(self) -> dict[int, str]:
        """Returns the names of zones by their numbers in what was read."""
        return {number: name for name, number in self.reading.zone_numbers.items()}

    def measures(self) -> Measures:
        """The unit in which grades are reported."""
        return Measures(grade_unit=grade_unit_of(self.unit_of("grade")))

    @property
    def frame(self) -> Frame:
        """Returns the frame between the export's coordinates and the plan's."""
        x, y, z = self.factors
        return Frame((x, y, z), self.turn, "ft" if self.words.in_feet or x == 0.3048 else "m")
