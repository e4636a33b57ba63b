"""The grid of blocks on which rows are: its sizes, found or given; turned models; parents of
sub-blocks.

Coordinates are integers of thousandths of the export's unit of length, int64."""
from __future__ import annotations

import math
from dataclasses import dataclass
from typing import Optional, Sequence

import numpy as np
from scipy.spatial import cKDTree

from pit_tools.errors import UserError, quoted
from pit_tools.texts.decimals import number_of, in_short

AXES = "xyz"

# How much of a size a row may be off its position.
OTHER_FILES = 0.1

# No length of an option may be larger, in either direction: plans have the same limit
# (docs/formats.md).
MOST = 1_000_000_000


@dataclass(frozen=True)
class Axis:
    """A row of positions: the first, their distance, their number, and how far rows are off it at
    most, all in thousandths."""

    first: int
    step: int
    places: int
    offset: int

    def centroid(self, index: np.ndarray) -> np.ndarray:
        return self.first + index * self.step


@dataclass(frozen=True)
class Turn:
    """A turn of a model about a point: its +x points `angle` degrees counterclockwise from +x of
    the coordinates."""

    angle: float
    about: tuple[float, float]

    @classmethod
    def of_record(cls, record: Optional[dict]) -> Optional[Turn]:
        """Returns a turn from BASE.json or a plan's sidecar file. It raises ValueError, KeyError or
        TypeError for anything else."""
        if record is None:
            return None
        x, y = record["about"]
        return cls(float(record["angle"]), (float(x), float(y)))

    def own(self, x: np.ndarray, y: np.ndarray) -> tuple[np.ndarray, np.ndarray]:
        """Coordinates along the model's own axes."""
        along, across = math.cos(math.radians(self.angle)), math.sin(math.radians(self.angle))
        east, north = x - self.about[0], y - self.about[1]
        return (self.about[0] + east * along + north * across,
                self.about[1] + north * along - east * across)

    def undone(self, x: np.ndarray, y: np.ndarray) -> tuple[np.ndarray, np.ndarray]:
        """The coordinates of places that are reported along the model's own axes."""
        return Turn(-self.angle, self.about).own(x, y)


@dataclass(frozen=True)
class Frame:
    """The frame between the coordinates of an export and its plan: the number of the plan's units
    of length in one along x, y and z, the turn of a turned model, and the name of the unit."""

    lengths: tuple[float, float, float] = (1.0, 1.0, 1.0)
    turn: Optional[Turn] = None
    unit: str = "m"

    @classmethod
    def of_record(cls, record: dict) -> Frame:
        """Returns a frame from BASE.json or a plan's sidecar file. It raises ValueError, KeyError
        or TypeError for anything else."""
        x, y, z = map(float, record["lengths"])
        return cls((x, y, z), Turn.of_record(record["turn"]), str(record["unit"]))

    def own(self, points: np.ndarray) -> np.ndarray:
        """Returns the plan's coordinates of points in the export's, (m, 3)."""
        found = points / np.array(self.lengths)
        if self.turn is not None:
            found[:, 0], found[:, 1] = self.turn.undone(found[:, 0], found[:, 1])
        return found


def turn_of(x_bearing: Optional[float], y_azimuth: Optional[float],
            about: tuple[float, float]) -> Turn:
    """The turn of a model whose +x has this bearing, or whose +y has this azimuth, degrees
    clockwise from north."""
    angle = 90 - x_bearing if x_bearing is not None else -(y_azimuth or 0)
    return Turn((angle + 180) % 360 - 180, about)


def turn_text(turn: Turn) -> str:
    """Returns the directions of the model's axes, as bearings clockwise from north."""
    return f"+x at bearing {(90 - turn.angle) % 360:.6g}, +y at azimuth {-turn.angle % 360:.6g}"


def rotation_of(text: str) -> np.ndarray:
    """Returns the directions of a model's own axes, as columns (3, 3), after turns as `z 40, x 20`:
    about the model's own axes in this order, in degrees, clockwise seen from the positive end of
    each. It raises UserError for a text that names none."""
    found = np.eye(3)
    for turn in text.split(","):
        axis, _, degrees = turn.strip().lower().partition(" ")
        found_degrees = number_of(degrees.strip())
        if axis not in ("x", "y", "z") or found_degrees is None:
            raise UserError("--rotation: give turns about axes, as 'z 40, x 20', not "
                            f"{quoted(text)}")
        angle = math.radians(found_degrees)
        along, across = math.cos(angle), math.sin(angle)
        first, second = [(1, 2), (2, 0), (0, 1)]["xyz".index(axis)]
        turned = np.eye(3)
        turned[first, first] = turned[second, second] = along
        turned[first, second], turned[second, first] = across, -across
        found = found @ turned
    return found


def axis_of(values: np.ndarray, size: Optional[int], name: str,
            first: Optional[int] = None) -> Axis:
    """Returns the positions of the coordinates, of this size or of one that is found.

    A size is found if the coordinates fill nine tenths of a grid's positions, also if each is
    slightly off its position. Raises UserError if there is none, and reports the distances."""
    unique = np.unique(values)
    if size is None:
        size = _size_of(unique, name)
    origin = _origin_of(unique, size, int(values[0])) if first is None else first
    index = np.floor_divide(2 * (unique - origin) + size, 2 * size)
    off = np.abs(unique - origin - index * size)
    worst = int(off.argmax())
    if off[worst] > OTHER_FILES * size:
        offset = np.abs((unique - values[0] + size // 2) % size - size // 2)
        worst = int(offset.argmax())
        raise UserError(f"{name} {in_short(int(unique[worst]), 3)} is "
                        f"{in_short(int(offset[worst]), 3)} off the grid of {in_short(size, 3)} "
                        f"through {in_short(int(values[0]), 3)}: another size of blocks, a turned "
                        "model, or sub-blocks (--parents)")
    least = int(index.min())
    return Axis(origin + least * size, size, int(index.max()) - least + 1, int(off[worst]))


def indices(values: np.ndarray, axis: Axis) -> np.ndarray:
    """The place of each coordinate, from 0."""
    return np.floor_divide(2 * (values - axis.first) + axis.step, 2 * axis.step)


def _origin_of(unique: np.ndarray, size: int, first: int) -> int:
    """Returns a position of the grid: the first row's, or, if rows are off the grid through it, the
    roundest that is as near to them."""
    off = (unique - first + size // 2) % size - size // 2
    middle, half = (int(off.min()) + int(off.max())) / 2, (int(off.max()) - int(off.min())) / 2
    if not off.any():
        return first
    for unit in (1000, 500, 250, 100, 10):
        origin = round((first + middle) / unit) * unit
        if np.abs((unique - origin + size // 2) % size - size // 2).max() <= 2.1 * half + 0.5:
            return origin
    return round(first + middle)


def _size_of(unique: np.ndarray, name: str) -> int:
    """Returns the distance of positions, if coordinates determine it."""
    if len(unique) == 1:
        raise UserError(f"all rows have one {name}: give the size of a block by --size X,Y,Z")
    size = int(np.gcd.reduce(np.diff(unique)))
    places = (int(unique[-1]) - int(unique[0])) // size + 1
    if len(unique) >= 0.9 * places:
        return size
    found = _size_in_noise(unique)
    if found:
        return found
    raise UserError(f"{name} has {len(unique):,} values, but a grid of {in_short(size, 3)} would "
                    f"have {places:,} positions: sub-blocks (--parents), a turned model "
                    "(--x-bearing, --y-azimuth), or another size (--size)")


def _size_in_noise(unique: np.ndarray) -> Optional[int]:
    """Returns the size of a grid from whose positions coordinates are slightly off: neighbours are
    then near each other or about a size apart. It is the roundest that fits as well as any."""
    gaps = np.sort(np.diff(unique)).astype(float)
    jump = int(np.argmax(gaps[1:] / gaps[:-1])) if len(gaps) > 1 else 0
    if len(gaps) < 3 or gaps[jump + 1] < 4 * gaps[jump]:
        # no noise that repeats: each value is a separate position
        edge = gaps[0]
    else:
        edge = gaps[jump + 1]
    groups = np.split(unique, np.flatnonzero(np.diff(unique) >= edge) + 1)
    centres = np.array([group.mean() for group in groups])
    if len(centres) < 3:
        return None
    apart = np.diff(centres)
    step = float(apart[apart < 1.5 * apart.min()].mean())
    for _ in range(3):
        index = np.rint((centres - centres[0]) / step)
        step = float(np.polyfit(index, centres, 1)[0])
    spread = max(float(np.ptp(group)) for group in groups)
    offset = float(np.ptp(centres - step * np.rint((centres - centres[0]) / step)))
    for unit in (1000, 500, 250, 100, 50, 25, 10, 1):
        size = round(step / unit) * unit
        if size < 1 or index.max() + 1 > len(centres) / 0.9:
            continue
        off = (unique - unique[0] + size // 2) % size - size // 2
        # A size as 25/3 m is not an integer of thousandths, and shifts by up to a half at each
        # position.
        drift = index.max() / 2 if unit == 1 else 0
        if (np.ptp(off) <= 1.2 * offset + 2.1 * spread + 1 + drift
                and np.ptp(off) <= OTHER_FILES * size):
            return size
    return None


def turned_by(x: np.ndarray, y: np.ndarray, z: np.ndarray) -> Optional[float]:
    """Returns by how many degrees, from 0 to 90, the directions to nearest neighbours of one bench
    are turned counterclockwise, if they agree; None if they do not, or are along the axes."""
    levels, counts = np.unique(z, return_counts=True)
    on_level = np.flatnonzero(z == levels[counts.argmax()])[:20_000]
    points = np.unique(np.column_stack([x[on_level], y[on_level]]).astype(float), axis=0)
    if len(points) < 4:
        return None
    _, near = cKDTree(points).query(points, 2)
    step = points[near[:, 1]] - points
    angle = np.degrees(np.arctan2(step[:, 1], step[:, 0])) % 90
    quarter = np.exp(4j * np.radians(angle))
    if abs(quarter.mean()) < 0.99:
        return None
    found = math.degrees(np.angle(quarter.mean()) / 4) % 90
    return None if min(found, 90 - found) < 0.05 else found


def parents_of(values: np.ndarray, corner: int, size: int, name: str) -> np.ndarray:
    """Returns the parent of each sub-block, by the smallest corner of one. It raises UserError for
    a centroid on a border."""
    index, rest = np.divmod(values - corner, size)
    margin = max(1, size // 1000)
    at_border = (rest < margin) | (rest > size - margin)
    if at_border.any():
        value = values[np.flatnonzero(at_border)[0]]
        raise UserError(f"{name} {in_short(value, 3)} is on the border of two parents of "
                        f"{in_short(size, 3)}: is --corner a centroid, or --parents another size?")
    return index


def thousandths(text: str, what: str) -> list[int]:
    """Three lengths, as 20,20,10, in thousandths."""
    cells = text.replace(";", ",").split(",")
    try:
        numbers = [round(float(cell) * 1_000_000) for cell in cells]
    except (ValueError, OverflowError):
        numbers = []
    if len(numbers) != 3:
        raise UserError(f"{what}: give three numbers, as 20,20,10, not {quoted(text)}")
    if max(abs(number) for number in numbers) > MOST * 1_000_000:
        raise UserError(f"{what}: {quoted(text)} goes beyond {MOST:,}")
    if any(number % 1000 for number in numbers):
        raise UserError(f"{what}: {quoted(text)} has more than 3 decimals")
    return [number // 1000 for number in numbers]


def sizes_of(text: str, what: str) -> list[int]:
    """Three sizes above 0, in thousandths."""
    sizes = thousandths(text, what)
    if min(sizes) < 1:
        raise UserError(f"{what}: {quoted(text)}: a size must be above 0")
    return sizes


def counts_of(text: str, what: str) -> list[int]:
    """Three numbers of blocks."""
    sizes = sizes_of(text, what)
    if any(size % 1000 for size in sizes):
        raise UserError(f"{what}: {quoted(text)}: numbers of blocks must be integers")
    return [size // 1000 for size in sizes]


def box_text(axes: Sequence[Axis]) -> str:
    """How many blocks there are along each axis, and their sizes."""
    return (" x ".join(f"{axis.places:,}" for axis in axes) + " blocks "
            "of " + " x ".join(in_short(axis.step, 3) for axis in axes))
