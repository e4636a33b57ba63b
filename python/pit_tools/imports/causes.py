"""Possible causes if rows are on no grid, each with a row that shows it.

Coordinates are integers, thousandths of the export's unit of length, int64."""
from __future__ import annotations

from itertools import permutations
from typing import Callable, Iterable, Optional, Sequence

import numpy as np
import pandas as pd
from scipy.spatial import cKDTree

from pit_tools.errors import UserError
from pit_tools.imports.read import Read
from pit_tools.imports.sizes import sizes_text
from pit_tools.plans.grids import AXES, turned_by
from pit_tools.texts.decimals import in_short

# Coordinates that usually mean a missing value; the last means all beyond, as -1e30.
MARKS = (*(-1000 * (10 ** digits - 1) for digits in range(1, 7)),
         *(1000 * (10 ** digits - 1) for digits in range(4, 7)), -10 ** 18)

# How many rows at each end may have the smallest, the largest or the mean of all.
ENDS = 8


def judge_ends(values: Sequence[np.ndarray], with_cells: Callable[[int], str]) -> None:
    """Stops if the first or the last rows are the smallest and the largest of all columns: rows of
    statistics."""
    count = len(values[0])
    if count < 30:
        return
    for ends in (range(ENDS), range(count - ENDS, count)):
        at_ends = slice(ends[0], ends[-1] + 1)
        least, most = (np.all([value[at_ends] == found
                               for value, found in zip(values, map(of, values))], axis=0)
                       for of in (np.min, np.max))
        for low in np.flatnonzero(least):
            near = [high for high in np.flatnonzero(most) if 0 < abs(high - low) < 4]
            if near and int(values[0][ends[low]]) not in MARKS:
                rows = sorted((ends[low], ends[near[-1]]))
                raise UserError(f"{with_cells(rows[0])} and {with_cells(rows[1])} have the "
                                "smallest and the largest x, y and z: are they rows of minima, "
                                "maxima or means, not blocks? Remove them from the export")


def judge_degrees(values: Sequence[np.ndarray], with_cells: Callable[[int], str]) -> None:
    """Stops at x and y that are degrees of longitude and latitude: a mine spans less than one, in
    steps that three decimals cannot hold."""
    level = np.array(values[:2])
    if (len(level[0]) > 8 and np.ptp(level, axis=1).max() < 1000 <= np.ptp(values[2])
            and np.abs(level).max() <= 180_000):
        raise UserError(f"{with_cells(0)}: x and y are degrees, or all blocks are within one "
                        "metre: export them in metres of a projection, as UTM")


def causes(values: Sequence[np.ndarray], with_cells: Callable[[int], str]) -> Iterable[str]:
    """Yields what may be the cause of coordinates that are on no grid."""
    marked = _marks_in(values)
    if marked is not None:
        axis, at = marked
        yield (f"{AXES[axis]} is {in_short(int(values[axis][at]), 3)} in {with_cells(at)}: does it "
               "mean a missing value? Omit such rows by --where")
        return
    levels = len(np.unique(values[2]))
    if levels > 0.2 * len(values[2]) and levels > 100:
        yield (f"z has {levels:,} values in {len(values[2]):,} rows, as {with_cells(0)}: are these "
               "seams or a surface, with a thickness by column? pitc needs blocks on level "
               "benches: have the package cut them into such blocks")
        return
    yield from two_grids(values, with_cells)


def dip_text(dip: float) -> str:
    """Returns a cause: the model dips by this number of degrees."""
    return (f"Neighbours are {dip:.2f} degrees off the vertical, so the model dips, turned about a "
            "level axis, but benches of pitc are level: give --rotation, its turns, as 'z 40, x "
            "20', with --regularise X,Y,Z, which spreads it over level blocks; or have the package "
            "regularise it")


def _marks_in(values: Sequence[np.ndarray]) -> Optional[tuple[int, int]]:
    """Returns a coordinate that marks a missing value and is far from all others: its axis and
    row."""
    for axis, value in enumerate(values):
        for mark in MARKS:
            is_mark = value == mark
            others = value[~is_mark]
            if is_mark.any() and len(others):
                beyond = max(int(others.min()) - mark, mark - int(others.max()))
                if beyond > int(np.ptp(others)) / 10 and beyond > 20_000:
                    return axis, int(np.flatnonzero(is_mark)[0])
    return None


def dip_of(values: Sequence[np.ndarray]) -> Optional[float]:
    """By how many degrees the directions to nearest neighbours are off the vertical, if they
    are neither level nor upright."""
    points = np.column_stack(values).astype(float)
    if len(points) > 50_000:
        near = np.argsort(np.abs(points - np.median(points, axis=0)).max(axis=1))[:50_000]
        points = points[near]
    points = np.unique(points, axis=0)
    if len(points) < 30:
        return None
    distance, near = cKDTree(points).query(points, min(7, len(points)))
    steps = (points[near[:, 1:]] - points[:, None, :]).reshape(-1, 3)
    length = np.linalg.norm(steps, axis=1)
    steps = steps[length < 4 * np.median(distance[:, 1])]
    level = np.hypot(steps[:, 0], steps[:, 1])
    off = np.degrees(np.arctan2(level, np.abs(steps[:, 2])))
    oblique = np.rint(off[(off > 0.3) & (off < 89.7)] * 5) / 5
    if len(oblique) < len(points):
        return None
    angles, counts = np.unique(oblique, return_counts=True)
    best = angles[counts.argmax()]
    close = off[np.abs(off - best) < 0.3]
    # A dip has its two directions at right angles, and each row has neighbours along both.
    across = np.abs(off - (90 - best)) < 0.5
    if (len(close) < len(points) or across.sum() < 0.5 * len(points)
            or (off < 0.3).sum() > 0.1 * len(points)):
        return None
    found = float(np.median(close))
    return min(found, 90 - found)


def two_grids(values: Sequence[np.ndarray], with_cells: Callable[[int], str]) -> Iterable[str]:
    """Yields a grid on which most rows are, and the rows off it."""
    for axis, name in enumerate(AXES):
        found = _most_on(values[axis])
        if found is None:
            continue
        step, first, is_on = found
        at = int(np.flatnonzero(~is_on)[0])
        yield (f"Most rows are along {name} on a grid of {in_short(step, 3)} through "
               f"{in_short(first, 3)}, and {int((~is_on).sum()):,} are off it, as "
               f"{with_cells(at)}: are there two grids, as an infill, or super-blocks? Export one "
               "size of block, or with columns of sizes give --parents, which sums up smaller "
               "blocks and cuts larger ones")
        return


def _most_on(value: np.ndarray) -> Optional[tuple[int, int, np.ndarray]]:
    """Returns the largest distance of coordinates at which more than half the rows, but not all,
    are on one grid: it, a position of the grid, and the rows on it."""
    unique, counts = np.unique(value, return_counts=True)
    gaps = np.unique(np.diff(unique))
    tried = sorted({int(gap) * many for gap in gaps[:20] for many in (1, 2, 3, 4)}
                   | {int(unique[at + 2] - unique[at]) for at in range(min(20, len(unique) - 2))},
                   reverse=True)
    for step in tried:
        if step < 100 or (int(unique[-1]) - int(unique[0])) // step < 3:
            continue
        rest = unique % step
        sums = ({int(one): int(counts[rest == one].sum()) for one in np.unique(rest)}
                if len(np.unique(rest)) < 200 else {})
        if not sums:
            continue
        best = max(sums, key=sums.__getitem__)
        on = unique[rest == best]
        if (len(value) / 2 < sums[best] < len(value)
                and len(on) >= 0.9 * ((int(on[-1]) - int(on[0])) // step + 1)):
            return step, int(on[0]), value % step == best
    return None


def judge_neighbours(places: Sequence[np.ndarray], steps: Sequence[int],
                     with_cells: Callable[[int], str]) -> None:
    """Stops if rows of a thin box have neighbours two positions away, and few at one: blocks are
    larger than the grid that was found, as with interspersed blocks of two sizes."""
    many = [int(place.max()) + 1 for place in places]
    if len(places[0]) * 2 > many[0] * many[1] * many[2]:
        return
    strides = [1, many[0], many[0] * many[1]]
    key = np.sum([place.astype(np.int64) * stride for place, stride in zip(places, strides)],
                 axis=0)
    taken = np.unique(key)
    for axis, name in enumerate(AXES):
        if many[axis] < 4:
            continue
        neighbours = {}
        for far in (1, 2):
            inside = places[axis] + far < many[axis]
            wanted = key[inside] + far * strides[axis]
            at = np.minimum(np.searchsorted(taken, wanted), len(taken) - 1)
            neighbours[far] = taken[at] == wanted
        if neighbours[1].mean() < 0.5 * neighbours[2].mean():
            rows = np.flatnonzero(places[axis] + 1 < many[axis])
            row = int(rows[np.flatnonzero(~neighbours[1])[0]])
            raise UserError(f"rows are along {name} on a grid of {in_short(steps[axis], 3)}, but "
                            f"most have their next {in_short(2 * steps[axis], 3)} away, as "
                            f"{with_cells(row)}: are there two grids, super-blocks, or sub-blocks "
                            "among blocks? Export one size of block, or with columns of sizes give "
                            "--parents, which sums up smaller blocks and cuts larger ones")


def likelier_order(rock: np.ndarray, blocks: Sequence[int], order: Sequence[str]) -> Optional[str]:
    """Returns for a list another order of the axes in which rock has far fewer borders with other
    places than in this one; None if there is none. `rock` shows for each row, in the order of the
    list, whether it is rock."""
    borders = {}
    for axes in permutations("xyz"):
        box = rock.reshape([blocks["xyz".index(axis)] for axis in reversed(axes)])
        borders[",".join(axes)] = sum(int((np.diff(box.astype(np.int8), axis=axis) != 0).sum())
                                      for axis in range(3))
    given = ",".join(cell.lstrip("-") for cell in order)
    best = min(borders, key=lambda one: borders[one])
    return best if borders[best] * 3 < borders[given] * 2 else None


class Hints:
    """Yields what may be the cause of coordinates that are on no grid."""

    def __init__(self, read: Read) -> None:
        self.read, self.words = read, read.words

    def cause(self, values: Sequence[np.ndarray]) -> str:
        """Yields what may be the cause of coordinates that are on no grid."""
        dip = dip_of(self.of_one_size(values))
        if dip is not None:
            return f". {dip_text(dip)}"
        why = self.turn_hint(values) or self.feet_hint(values)
        if why:
            return why
        if self.read.sizes is not None:
            return (f". {self.read.sizes.names} has sizes along x of "
                    f"{sizes_text(self.read.sizes.along[0])}: --parents X,Y,Z, with the wanted "
                    "size of blocks, sums up smaller ones and cuts larger ones")
        return "" if self.words.size else "".join(f". {cause}"
                                                  for cause in causes(values, self.read.with_cells))

    def feet_hint(self, values: Sequence[np.ndarray]) -> str:
        """Returns whether coordinates of a later export are those of the first in feet."""
        sources = self.read.sources
        for number in range(1, len(sources)):
            middles = [[float(np.median(value[self.read.file == one])) for one in (0, number)]
                       for value in values[:2]]
            ratios = [later / first for first, later in middles if first]
            for ratio, one in ((1 / 0.3048, number), (0.3048, 0)):
                if ratios and all(abs(found / ratio - 1) < 0.05 for found in ratios):
                    return (f". Coordinates of {sources[number].path} are {ratios[0]:.3g} "
                            f"times those of {sources[0].path}: is {sources[one].path} "
                            "in feet? Export both in one unit")
        return ""

    def of_one_size(self, values: Sequence[np.ndarray]) -> list[np.ndarray]:
        """Returns the coordinates of the rows of the most frequent size, since neighbours of one
        size are along the axes."""
        if self.read.sizes is None:
            return list(values)
        codes = pd.factorize(pd.MultiIndex.from_arrays(
            [np.rint(size) for size in self.read.sizes.along]))[0]
        usual = codes == np.bincount(np.maximum(codes, 0)).argmax()
        return [value[usual] for value in values]

    def turn_hint(self, values: Sequence[np.ndarray]) -> str:
        """Returns what the directions to neighbours show, if no grid fits."""
        angle = turned_by(*self.of_one_size(values))
        if angle is None:
            return ""
        if self.read.turn:
            return (f". With this turn, neighbours are still {angle:.2f} degrees off the axes: is "
                    "it the bearing of +x, or the azimuth of +y?")
        return (f". Neighbours are at bearings {90 - angle:.2f} and {180 - angle:.2f}, so the "
                "model is turned: give --x-bearing with the bearing of its +x, or --y-azimuth with "
                "the azimuth of its +y")
