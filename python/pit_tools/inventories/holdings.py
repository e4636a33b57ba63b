"""The contents of zones: blocks, tonnes, metal, volume and extents, as in a package's resource
report."""
from __future__ import annotations

import math
from dataclasses import dataclass, field
from functools import cached_property
from typing import Any, Mapping, NamedTuple, Optional, Sequence

import numpy as np

from pit_tools.instances.arrays import Blocks
from pit_tools.plans.file import Grid
from pit_tools.plans.grids import Frame
from pit_tools.texts.units import CUBIC_FOOT, Measures


class Holding(NamedTuple):
    """The contents of some rock: tonnes, g of metal (of a net smelter return, money), m3."""

    blocks: int
    tonnes: float
    metal: float
    volume: float

    @property
    def grade(self) -> float:
        """g/t."""
        return self.metal / self.tonnes if self.tonnes else 0.0

    def figure(self, name: str) -> float:
        """A figure by its name in a report."""
        return float(getattr(self, name))


@dataclass(frozen=True)
class Holdings:
    """The rock of a model: arrays of n rows. `zone` are indices of `names`; `tonnes` are t, `grade`
    g/t, `volume` m3 (one number for all, or n); `index` has positions in the grid, one array per
    axis. `is_graded` is false if rock has no grade and counts as 0. `is_counted` is true of one
    part of each block that was cut into several; without it each row is a block."""

    names: Sequence[str]
    zone: np.ndarray
    tonnes: np.ndarray
    grade: np.ndarray
    volume: np.ndarray
    index: tuple[np.ndarray, np.ndarray, np.ndarray]
    grid: Grid
    frame: Frame = Frame()
    is_graded: Optional[np.ndarray] = None
    aside: Mapping[str, int] = field(default_factory=dict)  #: rows omitted, by zone
    is_counted: Optional[np.ndarray] = None

    @cached_property
    def _order(self) -> tuple[np.ndarray, np.ndarray]:
        """The rows by zone, and where each zone begins among them."""
        order = np.argsort(self.zone, kind="stable")
        return order, np.searchsorted(self.zone[order], np.arange(len(self.names) + 1))

    def rows_of(self, zone: str) -> np.ndarray:
        """Returns the rows of a zone, or all for an empty one."""
        order, first = self._order
        if not zone:
            return order
        at = list(self.names).index(zone)
        return order[first[at]:first[at + 1]]

    def of(self, zone: str = "", cut_off: Optional[float] = None,
           is_graded: bool = False) -> Holding:
        """Returns the contents of a zone, or of all, from a grade in g/t on, and only of rock with
        a grade if that is requested."""
        rows = self.rows_of(zone)
        if cut_off is not None:
            # A grade has six decimals, and a cut-off of a unit is a product.
            rows = rows[self.grade[rows] >= cut_off - 5e-7]
        if is_graded and self.is_graded is not None:
            rows = rows[self.is_graded[rows]]
        tonnes = self.tonnes[rows]
        volume = self.volume[rows].sum() if self.volume.ndim else self.volume * len(rows)
        return Holding(self.count(rows), float(tonnes.sum()), float(tonnes @ self.grade[rows]),
                       float(volume))

    def count(self, rows: np.ndarray) -> int:
        """How many blocks these rows are."""
        return len(rows) if self.is_counted is None else int(self.is_counted[rows].sum())

    def ungraded(self, zone: str = "") -> int:
        """Blocks of a zone, or of all, that have no grade."""
        if self.is_graded is None:
            return 0
        rows = self.rows_of(zone)
        return self.count(rows[~self.is_graded[rows]])

    def extents(self, zone: str = "") -> Optional[list[tuple[float, float]]]:
        """Returns the smallest and the largest coordinate of centroids along each axis, in the
        export's own coordinates; None if there is no row."""
        rows = self.rows_of(zone)
        if len(rows) == 0:
            return None
        places = [index[rows] for index in self.index]
        if self.frame.turn is None:
            places = [np.array([index.min(), index.max()]) for index in places]
        metres = np.column_stack([float(first) + float(size) * index for first, size, index
                                  in zip(self.grid.origin, self.grid.size, places)])
        points = self.frame.own(metres)
        return list(zip(points.min(axis=0).tolist(), points.max(axis=0).tolist()))

    def half_a_block(self) -> list[float]:
        """How far a block reaches from its centroid along each axis, in the export's unit."""
        sizes = [float(size) / length / 2
                 for size, length in zip(self.grid.size, self.frame.lengths)]
        if self.frame.turn is not None:
            sizes[:2] = [math.hypot(sizes[0], sizes[1])] * 2
        return sizes

    # The table that a planner compares

    def rows(self) -> list[dict[str, Any]]:
        """Returns the table as records: tonnes, grade in g/t (of a net smelter return, money per
        tonne), metal in g and volume in m3 of each zone, and of all, whose zone is None."""
        return [{"zone": zone or None, **self.of(zone)._asdict(), "grade": self.of(zone).grade,
                 "left_out": self.left_out(zone), "at_grade_0": self.ungraded(zone),
                 "extents": self.extents(zone)} for zone in [*self.names, ""]]

    def left_out(self, zone: str) -> int:
        """The rows of a zone that were omitted, or of all."""
        return self.aside.get(zone, 0) if zone else sum(self.aside.values())

    def table(self, measures: Measures) -> list[str]:
        """Yields a line for each zone and one for all: the contents, the rows that were omitted,
        and those that are kept at grade 0; and the extents of each zone."""
        width = max(len("zone"), *map(len, self.names))
        metal, factor = metal_unit(measures)
        unit = measures.grade_unit
        lines = [f"{'zone':{width}} {'blocks':>10} {'tonnes':>17} {f'mean {unit}':>11} "
                 f"{f'metal, {metal}':>15} {'volume, m3':>15} {'t/m3':>7} {'omitted':>9} "
                 f"{'at grade 0':>11}"]
        for zone in [*self.names, ""]:
            held = self.of(zone)
            density = f"{held.tonnes / held.volume:.3f}" if held.volume else "-"
            lines.append(f"{zone or 'all':{width}} {held.blocks:>10,} {held.tonnes:>17,.1f} "
                         f"{measures.grade(held.grade):>11.4f} {held.metal / factor:>15,.1f} "
                         f"{held.volume:>15,.0f} {density:>7} {self.left_out(zone):>9,} "
                         f"{self.ungraded(zone):>11,}")
        return [*lines, *self._extents_table(width)]

    def _extents_table(self, width: int) -> list[str]:
        unit = self.frame.unit
        lines = [f"{'zone':{width}} " + " ".join(f"{f'{axis} of centroids, {unit}':>28}"
                                                 for axis in "xyz")]
        for zone in [*self.names, ""]:
            ends = self.extents(zone)
            if ends is not None:
                lines.append(f"{zone or 'all':{width}} "
                             + " ".join(f"{f'{low:,.2f} to {high:,.2f}':>28}"
                                        for low, high in ends))
        return lines


def metal_unit(measures: Measures) -> tuple[str, float]:
    """Returns the unit in which metal is reported, and how many of the stored unit it is: kilograms
    of metal in g/t, tonnes of metal in percent, and of a return money."""
    if measures.grade_unit == "g/t":
        return "kg", 1e3
    if measures.grade_unit == "%":
        return "t", 1e6
    return measures.grade_unit.partition("/")[0], 1.0


def holdings_of(blocks: Blocks, names: Sequence[str], grid: Grid,
                frame: Frame = Frame()) -> Holdings:
    """Returns the contents of the zones of an instance or of zone files. Zones of one name are one
    zone."""
    unique = list(dict.fromkeys(names))
    numbers = np.array([unique.index(name) for name in names], dtype=np.int32)
    foot = float(CUBIC_FOOT) if frame.unit == "ft" and frame.lengths[0] == 1 else 1.0
    return Holdings(unique, numbers[blocks.zone], blocks.tonnes, blocks.grade,
                    np.array(float(grid.volume) * foot), (blocks.x, blocks.y, blocks.z), grid,
                    frame)
