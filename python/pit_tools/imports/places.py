"""The grid of the rows, and the position of each."""
from __future__ import annotations

from decimal import Decimal
from typing import Optional, Sequence

import numpy as np
import pandas as pd

from pit_tools.errors import UserError
from pit_tools.exports.measures import COORDINATES
from pit_tools.imports.causes import (Hints, dip_of, dip_text, judge_degrees, judge_ends,
                                      judge_neighbours)
from pit_tools.imports.ordered import Ordered
from pit_tools.imports.read import Read
from pit_tools.imports.sizes import (Sizes, judge_own_grid, judge_sizes, parts_of, scattered,
                                     sizes_of_axes)
from pit_tools.plans.file import Grid
from pit_tools.plans.grids import (Axis, axis_of, box_text, counts_of, indices, rotation_of,
                                   sizes_of, thousandths, turn_of, turn_text)
from pit_tools.texts.decimals import plain, in_short

# The ranges of northings and eastings of UTM: farther from the equator than 1,000 km, and in a
# zone. Below FAR some national grids have such eastings with such northings, as in Colombia and
# Mexico, so a model there may be right.
NORTHINGS, EASTINGS, FAR = (1e6, 1e7), (1e5, 9e5), 3e6

# The largest index that pitc accepts.
MOST_INDEX = 9999


class Places:
    """Finds the grid of the rows, turned and of sub-blocks too, and their places on it."""

    def __init__(self, read: Read) -> None:
        self.read, self.reading, self.words, self.report = (read, read.reading, read.words,
                                                            read.report)
        self.hints = Hints(read)

    def placed(self) -> tuple[list[Axis], list[np.ndarray]]:
        """The axes of the grid, and the places of all rows."""
        words = self.words
        for axis, key in enumerate(COORDINATES):
            measure = self.read.measure_of(key)
            self.read.factors[axis] = float(measure.factor) if measure else 1.0
        if words.is_listed or words.is_indexed:
            ordered = Ordered(self.read)
            axes, places = ordered.listed() if words.is_listed else ordered.indexed()
            self.read.sizes = self.sizes_of_rows()
            if words.parents:
                self.judge_parts(axes)
            elif self.read.sizes is not None:
                judge_sizes(self.read.sizes, axes, self.read.with_cells)
            if words.regularise:
                return self.parents([axis.centroid(place) for axis, place in zip(axes, places)],
                                    axes)
            return axes, places
        values = [self.reading.column(key) for key in COORDINATES]
        judge_ends(values, self.read.with_cells)
        if self.read.factors[0] == 1:
            judge_degrees(values, self.read.with_cells)
        self.warn_of_exchange(values)
        if words.is_turned:
            values[:2] = self.turned(values)
        self.read.sizes = self.sizes_of_rows()
        if words.rotation:
            return self.level(values)
        if words.parents or words.regularise and self.read.sizes is not None:
            return self.parents(values)
        axes = self.axes_of(values)
        if words.regularise:
            return self.parents(values, axes)
        self.judge_blocks(axes)
        if self.read.sizes is not None:
            judge_sizes(self.read.sizes, axes, self.read.with_cells)
        places = [indices(values[axis], axes[axis]) for axis in range(3)]
        judge_neighbours(places, [axis.step for axis in axes], self.read.with_cells)
        return axes, places

    def axes_of(self, values: Sequence[np.ndarray]) -> list[Axis]:
        """Returns the grid of the coordinates. It raises UserError with the possible cause if there
        is none."""
        words = self.words
        sizes: list[Optional[int]] = (list(sizes_of(words.size, "--size")) if words.size
                                      else [None] * 3)
        firsts: list[Optional[int]] = (list(thousandths(words.first, "--first")) if words.first
                                       else [None] * 3)
        try:
            axes = [axis_of(values[axis], sizes[axis], "xyz"[axis], firsts[axis])
                    for axis in range(3)]
        except UserError as error:
            raise UserError(f"{error}{self.hints.cause(values)}") from None
        if (self.reading.unclear_point and not words.decimal
                and min(axis.step for axis in axes) < 500):
            raise UserError(f"{box_text(axes)} m: has `{self.reading.unclear_point}` a decimal "
                            "point, or one between thousands? Choose by --decimal . or --thousands "
                            ".")
        return axes

    def warn_of_exchange(self, values: Sequence[np.ndarray]) -> None:
        """Warns if x is in the range of northings of UTM, and y in the range of eastings."""
        x, y = (float(np.median(value)) / 1000 for value in values[:2])
        if (self.read.factors[0] == 1 and not self.words.in_feet
                and NORTHINGS[0] <= x <= NORTHINGS[1] and EASTINGS[0] <= y <= EASTINGS[1]):
            lines = self.report.warnings if x >= FAR else self.report.facts
            lines.append(f"x is {x:,.0f} and y {y:,.0f} in the middle: in UTM that is a northing "
                         "as x and an easting as y, and the mine is mirrored. If so, exchange --x "
                         "and --y")

    def sizes_of_rows(self) -> Optional[Sizes]:
        """Returns the rows' own sizes: by columns that are named, or that the header names as
        sizes."""
        unnamed = self.reading.unnamed
        along = self.read.of_axes("size_")
        if along:
            units = [self.read.measure_of("size_" + axis) for axis in COORDINATES]
            factors = [float(one.factor) / own if one and one.unit else 1.0
                       for one, own in zip(units, self.read.factors)]
            return Sizes([size * factor for size, factor in zip(along, factors)],
                         self.words.sub_size, True)
        along = self.read.of_axes("own_size_")
        if not along or not all(np.isfinite(size).any() for size in along):
            return None
        return Sizes([size * 1000 for size in along], unnamed.names_text(unnamed.sizes), False)

    def turned(self, values: list[np.ndarray]) -> list[np.ndarray]:
        """x and y along the model's own axes."""
        words = self.words
        x, y, _ = self.about(values)
        about = (x, y)
        self.read.turn = turn_of(words.x_bearing, words.y_azimuth, about)
        self.report.facts.append(f"turned about {about[0]:g}, {about[1]:g}: the model's "
                                 f"{turn_text(self.read.turn)}; slopes of +x, -x, +y and -y are "
                                 "along its own axes")
        if words.own_axes:
            return values[:2]
        own = self.read.turn.own(values[0] / 1000, values[1] / 1000)
        return [np.rint(one * 1000).astype(np.int64) for one in own]

    def about(self, values: Sequence[np.ndarray]) -> list[float]:
        """Returns the fixed point of a turn, in the export's unit; its z is 0 if none is given."""
        if not self.words.about:
            return [value[0] / 1000 for value in values]
        try:
            about = [float(cell) for cell in self.words.about.split(",")]
            if not np.isfinite(about).all() or len(about) not in (2, 3):
                raise ValueError
        except ValueError:
            raise UserError("--about: give x and y of the fixed point, as 1000,2000, not "
                            f"`{self.words.about}`") from None
        if len(about) == 2 and self.words.rotation:
            raise UserError("--about: for a model that dips also give z, as 1000,2000,300")
        return [*about, 0.0][:3]

    def level(self, values: Sequence[np.ndarray]) -> tuple[list[Axis], list[np.ndarray]]:
        """Returns the level blocks that the blocks of a model that dips occupy."""
        words, sizes = self.words, self.read.sizes
        rotation = rotation_of(words.rotation)
        about = 1000 * np.array(self.about(values))
        points = np.column_stack(values).astype(float) - about
        own = points if words.own_axes else points @ rotation
        if sizes is None:
            axes = self.axes_of(list(np.rint(own + about).astype(np.int64).T))
            sizes = self.read.sizes = sizes_of_axes(axes, len(own))
        judge_own_grid(own, sizes, self.read.with_cells)
        level = points if not words.own_axes else points @ rotation.T
        centroids = list((level + about).T)
        parents = sizes_of(words.regularise, "--regularise")
        corners = self.corners(centroids, [np.full(1, np.nanmax(np.hypot.reduce(sizes.along)))] * 3,
                               parents)
        self.report.facts.append("a model that dips: its blocks are spread over level ones, "
                                 f"turned by {words.rotation} about "
                                 f"{', '.join(f'{value / 1000:g}' for value in about)}")
        self.read.parts = scattered(centroids, sizes, rotation, corners, parents)
        places = pd.factorize(pd.MultiIndex.from_arrays(list(values)))[0]
        self.read.position = places[self.read.parts.row]
        return self.parents_axes(corners, parents)

    def corners(self, values: Sequence[np.ndarray], sizes: Sequence[np.ndarray],
                parents: Sequence[int]) -> list[int]:
        """Returns the smallest corner of a block, by the option or by the rows; for level blocks of
        a model that dips a rounded one."""
        if self.words.corner:
            return thousandths(self.words.corner, "--corner")
        leasts = [int(np.rint(np.nanmin(value - size / 2))) for value, size in zip(values, sizes)]
        return ([least // parent * parent for least, parent in zip(leasts, parents)]
                if self.words.rotation else leasts)

    def judge_parts(self, axes: Sequence[Axis]) -> None:
        """Stops if rows of indices are not parts of the blocks that they name."""
        words = self.words
        if self.read.sizes is None and not words.volume:
            raise UserError("--parents with indices needs the columns with the sizes of rows, by "
                            "--sub-size, or their --volume; rows with tonnes only are summed up by "
                            "--merge")
        if sizes_of(words.parents, "--parents") != [axis.step for axis in axes]:
            raise UserError(f"--parents: `{words.parents}` and --size `{words.size}` differ, but "
                            "indices are of parents: give one size")

    def judge_blocks(self, axes: Sequence[Axis]) -> None:
        """Compares the numbers of blocks with those that were given."""
        if not self.words.blocks:
            return
        given = counts_of(self.words.blocks, "--blocks")
        found = [axis.places for axis in axes]
        if all(one <= other for one, other in zip(found, given)):
            return
        turned = self.read.turn and found[0] <= given[1] and found[1] <= given[0]
        hint = (": x and y are swapped, so the turn is a quarter off: the bearing of +x is not the "
                "azimuth of +y" if turned else "")
        raise UserError(f"rows occupy {' x '.join(map(str, found))} blocks, but --blocks is "
                        f"{' x '.join(map(str, given))}{hint}")

    def parents(self, values: list[np.ndarray],
                axes: Sequence[Axis] = ()) -> tuple[list[Axis], list[np.ndarray]]:
        """Returns the parents of sub-blocks, and the positions of larger blocks. Without sizes of
        rows, `axes` are those of their own grid."""
        words = self.words
        what = "--parents" if words.parents else "--regularise"
        parents = sizes_of(words.block_size, what)
        if axes:
            self.read.sizes = sizes_of_axes(axes, len(values[0]))
        sizes = self.read.sizes
        if sizes is None and not words.corner:
            raise UserError("--parents needs --corner, the smallest corner of a parent, or "
                            "--sub-size, the columns with the sizes of sub-blocks")
        corners = self.corners(values, sizes.along if sizes is not None else [np.zeros(1)] * 3,
                               parents)
        if sizes is not None and not sizes.are_named and not axes:
            self.report.facts.append(f"sizes of rows come from {sizes.names}")
        try:
            self.read.parts = parts_of(values, sizes, corners, parents, self.read.with_cells,
                                  bool(words.corner), bool(words.regularise))
        except UserError as error:
            dip = dip_of(self.hints.of_one_size(values))
            why = self.hints.turn_hint(values) if dip is None else f". {dip_text(dip)}"
            raise UserError(f"{error}{why}") from None
        self.read.position = (
            pd.factorize(pd.MultiIndex.from_arrays(values))[0][self.read.parts.row]
            if len(values[0]) else None)
        return self.parents_axes(corners, parents)

    def parents_axes(self, corners: Sequence[int],
                     parents: Sequence[int]) -> tuple[list[Axis], list[np.ndarray]]:
        """The axes of the parents, and the places of all parts on these."""
        axes, places = [], []
        for corner, parent, place in zip(corners, parents,
                                         self.read.parts.places if self.read.parts else []):
            if parent % 2:
                raise UserError(f"half of a block of {in_short(parent, 3)} has more than 3 "
                                "decimals")
            least = int(place.min())
            axes.append(Axis(corner + least * parent + parent // 2, parent,
                             int(place.max()) - least + 1, 0))
            places.append(place - least)
        return axes, places


def grid_of(axes: Sequence[Axis], factors: Sequence[float]) -> Grid:
    """Returns the grid in metres. It raises UserError for one that pitc does not accept."""
    origin, size = [], []
    for axis, factor, name in zip(axes, factors, "xyz"):
        step = Decimal(axis.step) * Decimal(str(factor))
        if step != step.to_integral_value():
            raise UserError(f"blocks of {in_short(axis.step, 3)} along {name} are "
                            f"{plain(step / 1000)} m, which has more than 3 decimals: leave all "
                            "lengths in feet, without a unit, and give --in-feet")
        size.append(step / 1000)
        origin.append((Decimal(axis.first) * Decimal(str(factor))).to_integral_value() / 1000)
        if axis.places > MOST_INDEX + 1:
            raise UserError(f"{axis.places:,} blocks along {name} are more than the 10,000 that "
                            f"pitc accepts: is {name} the right column?")
        if not 1 <= step <= 100_000:
            raise UserError(f"blocks of {plain(step / 1000)} m along {name}: pitc accepts 0.001 to "
                            "100 m")
    return Grid((origin[0], origin[1], origin[2]), (size[0], size[1], size[2]))
