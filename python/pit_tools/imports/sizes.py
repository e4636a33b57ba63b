"""Sizes of rows compared with the grid: sub-blocks, blocks that occupy several positions, and
blocks that cross the border of a position.

Lengths are in thousandths of the export's unit."""
from __future__ import annotations

from dataclasses import dataclass
from typing import Callable, Optional, Sequence

import numpy as np
import pandas as pd

from pit_tools.errors import UserError
from pit_tools.plans.grids import AXES, Axis, parents_of
from pit_tools.texts.decimals import in_short

# How much of a size may be beyond a border, and how much equal sizes may differ: they are rounded.
TOLERANCE = 0.02

# The most places that rows are cut into.
MOST_PARTS = 50_000_000

# How many points of blocks that dip are in memory at a time.
MOST_POINTS = 4_000_000


@dataclass
class Sizes:
    """Sizes of the rows along x, y and z, NaN if one is not known, and the columns that have
    them."""

    along: list[np.ndarray]
    names: str
    are_named: bool

    def volumes(self, factors: Sequence[float]) -> np.ndarray:
        """Cubic metres of the rows."""
        metres = [size / 1000 * factor for size, factor in zip(self.along, factors)]
        return metres[0] * metres[1] * metres[2]


def sizes_of_axes(axes: Sequence[Axis], count: int) -> Sizes:
    """The sizes of rows whose blocks are all of one grid."""
    return Sizes([np.full(count, float(axis.step)) for axis in axes], "the grid of rows", False)


def judge_own_grid(own: np.ndarray, sizes: Sizes, with_cells: Callable[[int], str]) -> None:
    """Stops if blocks are not adjacent along the axes of a rotation: the edges of rows of the
    largest size are then on no grid of that size."""
    largest = [float(np.nanmax(size)) for size in sizes.along]
    is_largest = np.all([size > 0.98 * most for size, most in zip(sizes.along, largest)], axis=0)
    for axis, name in enumerate(AXES):
        place = own[is_largest, axis] / largest[axis]
        off = np.abs((place - place[:1] + 0.5) % 1 - 0.5) if len(place) else place
        if (off > 0.1).any():
            at = int(np.flatnonzero(is_largest)[int(off.argmax())])
            raise UserError(f"with this turn, {with_cells(at)} is {off.max():.2f} of a block away "
                            f"from the others' grid along the model's {name}: are the turns of "
                            "--rotation others, or in another order, or is a sign wrong?")


def sizes_text(sizes: np.ndarray) -> str:
    """Returns the sizes along an axis, the most frequent first."""
    values, counts = np.unique(np.rint(sizes[np.isfinite(sizes)]).astype(np.int64),
                               return_counts=True)
    most = np.argsort(-counts, kind="stable")[:4]
    message = ", ".join(f"{in_short(values[at], 3)} ({counts[at]:,} rows)" for at in most)
    return message + (f" and {len(values) - 4:,} others" if len(values) > 4 else "")


def judge_sizes(sizes: Sizes, axes: Sequence[Axis], with_cells: Callable[[int], str]) -> None:
    """Stops at the first row whose size differs from the grid's."""
    for axis, size, name in zip(axes, sizes.along, AXES):
        off = np.abs(size - axis.step) > TOLERANCE * axis.step + 2
        if off.any():
            raise UserError(f"{sizes.names}: the grid has blocks of {in_short(axis.step, 3)} along "
                            f"{name}, but rows have sizes of {sizes_text(size)}, as "
                            f"{with_cells(int(np.flatnonzero(off)[0]))}. --parents X,Y,Z, with the "
                            "wanted size of blocks, sums up smaller ones and cuts larger ones")


@dataclass
class Parts:
    """Rows cut at the borders of places: of each part its row, its number among the row's parts,
    its share of the row from 0 to 1, and its place."""

    row: np.ndarray
    number: np.ndarray
    share: np.ndarray
    places: list[np.ndarray]

    @property
    def is_cut(self) -> bool:
        """Returns whether a row has several parts."""
        return bool(self.number.any())

    def shared(self, amounts: np.ndarray) -> np.ndarray:
        """Returns integer amounts of the parts, from those of their rows (one for each part): sums
        stay unchanged, parts of equal shares differ by at most one, and missing values (-1) stay
        missing."""
        found = np.floor(amounts * self.share).astype(np.int64)
        rest = amounts - np.bincount(self.row, found)[self.row]
        return np.where(amounts < 0, -1, found + (self.number < rest))


def parts_of(values: Sequence[np.ndarray], sizes: Optional[Sizes], corners: Sequence[int],
             parents: Sequence[int], with_cells: Callable[[int], str], has_corner: bool,
             may_cross: bool = False) -> Parts:
    """Returns the positions of sub-blocks, and of blocks that occupy several, whose borders must be
    those of positions, unless blocks `may_cross` these: such blocks are cut there."""
    spans: list[tuple[np.ndarray, np.ndarray, np.ndarray]] = []
    many = []
    for axis, name in enumerate(AXES):
        if sizes is None:
            first = last = parents_of(values[axis], corners[axis], parents[axis], name)
        else:
            half = np.nan_to_num(sizes.along[axis]) / 2
            low = (values[axis] - half - corners[axis]) / parents[axis]
            high = (values[axis] + half - corners[axis]) / parents[axis]
            first = np.floor(low + TOLERANCE).astype(np.int64)
            last = np.maximum(first, np.ceil(high - TOLERANCE).astype(np.int64) - 1)
        if sizes is None or not may_cross:
            if sizes is not None:
                _judge_borders(low, high, last > first, name, with_cells, has_corner)
            low, high = first.astype(float), last + 1.0
        spans.append((first, low, high))
        many.append(last - first + 1)
    count = many[0] * many[1] * many[2]
    if int(count.sum()) > MOST_PARTS:
        raise UserError(f"rows would be cut into {int(count.sum()):,} parts, as "
                        f"{with_cells(int(count.argmax()))}: omit air by --where, or use larger "
                        "blocks")
    row = np.repeat(np.arange(len(count)), count)
    number = np.arange(len(row)) - np.repeat(np.cumsum(count) - count, count)
    wide, deep = many[0][row], many[1][row]
    share = np.ones(len(row))
    places = []
    for (first, low, high), step in zip(spans, (number % wide, number // wide % deep,
                                                number // (wide * deep))):
        place = first[row] + step
        share *= np.minimum(high[row], place + 1) - np.maximum(low[row], place)
        places.append(place)
    return Parts(row, number, share / np.bincount(row, share)[row], places)


def _judge_borders(low: np.ndarray, high: np.ndarray, is_wide: np.ndarray, name: str,
                   with_cells: Callable[[int], str], has_corner: bool) -> None:
    """Stops at a row that occupies several positions along an axis, and ends within one."""
    crosses = is_wide & ((np.abs(low - np.rint(low)) > TOLERANCE)
                         | (np.abs(high - np.rint(high)) > TOLERANCE))
    if crosses.any():
        why = "is --corner wrong" if has_corner else "is --corner needed"
        raise UserError(f"{with_cells(int(np.flatnonzero(crosses)[0]))}: the block extends beyond "
                        f"its parent along {name}, as in {int(crosses.sum()):,} rows: are parents "
                        f"of another size, or {why}? --regularise in place of --parents cuts "
                        "blocks at the borders of larger ones")


def scattered(values: Sequence[np.ndarray], sizes: Sizes, rotation: np.ndarray,
              corners: Sequence[int], parents: Sequence[int]) -> Parts:
    """Blocks that dip, spread over level ones: each becomes points that fill it evenly, at most a
    quarter of a level block apart, and a part is the points in one level block.

    `rotation` has the directions of the model's own axes as its columns; coordinates are those of
    centroids in the level system."""
    many = [np.maximum(2, np.ceil(4 * np.nan_to_num(size) / min(parents))).astype(np.int64)
            for size in sizes.along]
    count = many[0] * many[1] * many[2]
    if int(count.sum()) > 4 * MOST_PARTS:
        raise UserError(f"--regularise: {int(count.sum()):,} points would fill the blocks of a "
                        "model that dips: omit air by --where, or use larger blocks")
    chunks = []
    ends = np.searchsorted(np.cumsum(count), np.arange(1, int(count.sum()) // MOST_POINTS + 2)
                           * MOST_POINTS)
    for start, end in zip([0, *ends], [*ends, len(count)]):
        chunks.append(_points_in(values, sizes, rotation, corners, parents, many,
                                 slice(int(start), int(end))))
    table = pd.concat(chunks, ignore_index=True)
    number = table.groupby("row").cumcount().to_numpy()
    row = table["row"].to_numpy()
    return Parts(row, number, table["share"].to_numpy(),
                 [table[name].to_numpy() for name in AXES])


def _points_in(values: Sequence[np.ndarray], sizes: Sizes, rotation: np.ndarray,
               corners: Sequence[int], parents: Sequence[int], many: Sequence[np.ndarray],
               rows: slice) -> pd.DataFrame:
    """The parts of some rows: columns row, x, y, z, the place, and share."""
    wide, deep, high = (one[rows] for one in many)
    count = wide * deep * high
    row = np.repeat(np.arange(len(count)), count)
    number = np.arange(len(row)) - np.repeat(np.cumsum(count) - count, count)
    steps = (number % wide[row], number // wide[row] % deep[row],
             number // (wide * deep)[row])
    own = np.column_stack([((step + 0.5) / each[row] - 0.5) * np.nan_to_num(size[rows])[row]
                           for step, each, size in zip(steps, (wide, deep, high), sizes.along)])
    level = own @ rotation.T
    found = pd.DataFrame({"row": row + rows.start, **{
        name: np.floor((values[axis][rows][row] + level[:, axis] - corners[axis])
                       / parents[axis]).astype(np.int64) for axis, name in enumerate(AXES)}})
    found["share"] = 1 / count[row]
    return found.groupby(["row", *AXES], as_index=False, sort=True)["share"].sum()
