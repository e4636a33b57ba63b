"""Pits as closed surfaces of triangles, along the faces of their blocks."""
from __future__ import annotations

from dataclasses import dataclass
from typing import Iterator

import numpy as np

from pit_tools.errors import UserError
from pit_tools.instances.arrays import Blocks
from pit_tools.plans.file import Grid
from pit_tools.plans.grids import Frame

#: The number of cells of a pit's box up to which it is stored completely, a byte for each.
MOST_PLACES = 1 << 28

#: The corners of a face towards each axis, x, y and z, as steps along x, y and z: they run
#: counterclockwise for who looks against the axis.
_FACES = np.array([[[0, 0, 0], [0, 1, 0], [0, 1, 1], [0, 0, 1]],
                   [[0, 0, 0], [0, 0, 1], [1, 0, 1], [1, 0, 0]],
                   [[0, 0, 0], [1, 0, 0], [1, 1, 0], [0, 1, 0]]])


@dataclass(frozen=True)
class Shell:
    """The surface of a pit. The corners of a triangle run counterclockwise, seen from outside.

    `crossings` is the number of edges at which four faces meet, where blocks of the pit touch along
    an edge only: a package may not accept the surface there as that of a solid.
    """

    name: str
    points: np.ndarray  #: x, y and z in the unit of the export, (m, 3)
    triangles: np.ndarray  #: rows of `points`, (t, 3), int64
    crossings: int

    @property
    def volume(self) -> float:
        """Returns the enclosed volume, in cubes of the export's unit."""
        near = self.points - self.points[0]
        first, second, third = (near[self.triangles[:, at]] for at in range(3))
        return float(np.einsum("ij,ij->i", first, np.cross(second, third)).sum() / 6)

    @property
    def ends(self) -> tuple[np.ndarray, np.ndarray]:
        """The smallest and the largest x, y and z, (3,) each."""
        return self.points.min(axis=0), self.points.max(axis=0)


def shell_of(name: str, grid: Grid, blocks: Blocks, in_pit: np.ndarray,
             frame: Frame = Frame()) -> Shell:
    """Returns the surface of a pit, bool (n,): all faces between a block of it and its outside, in
    the coordinates of the export.

    Raises UserError for a pit without a block, and if its blocks are too far apart.
    """
    if not in_pit.any():
        raise UserError(f"{name}: the pit has no block, and so no surface")
    indices = [axis[in_pit] for axis in (blocks.x, blocks.y, blocks.z)]
    places = np.stack(indices, axis=1).astype(np.int64)
    least = places.min(axis=0)
    corners = _corners_of_faces(places - least).reshape(-1, 3)
    shape = tuple((corners.max(axis=0) + 1).tolist())
    keys = np.ravel_multi_index(tuple(corners.T), shape)
    numbers, at = np.unique(keys, return_inverse=True)
    squares = at.reshape(-1, 4)
    points = frame.own(_metres(grid, np.stack(np.unravel_index(numbers, shape), axis=1) + least))
    triangles = squares[:, [0, 1, 2, 0, 2, 3]].reshape(-1, 3)
    return Shell(name, points, triangles, _crossings(squares))


def outer_faces(places: np.ndarray) -> Iterator[tuple[int, int, np.ndarray]]:
    """Returns the outer faces of blocks at cells from 0, (n, 3): for each axis and each direction
    along it, 1 or -1, the cells of the blocks that have one there, (f, 3).

    Raises UserError if the cells are too far apart.
    """
    shape = places.max(axis=0) + 3
    box = int(np.prod(shape, dtype=object))
    if box > MOST_PLACES:
        raise UserError(f"the blocks of the pit are in a box of {box:,} cells, more than "
                        f"{MOST_PLACES:,}")
    is_there = np.zeros(shape, dtype=bool)
    is_there[tuple((places + 1).T)] = True
    for axis in range(3):
        for way in (1, -1):
            beside = places + 1
            beside[:, axis] += way
            yield axis, way, places[~is_there[tuple(beside.T)]]


def _corners_of_faces(places: np.ndarray) -> np.ndarray:
    """The corners of all outer faces of blocks, both at places from 0, (f, 4, 3)."""
    found = []
    for axis, way, outer in outer_faces(places):
        face = _FACES[axis] if way > 0 else _FACES[axis][::-1]
        step = np.eye(3, dtype=np.int64)[axis] * (way > 0)
        found.append(outer[:, None, :] + step + face)
    return np.concatenate(found)


def _metres(grid: Grid, corners: np.ndarray) -> np.ndarray:
    """Coordinates of corners, of which 0 0 0 is the smallest of block 0 0 0."""
    axes = [(2 * int(1000 * origin) + (2 * corners[:, axis] - 1) * int(1000 * size)) / 2000
            for axis, (origin, size) in enumerate(zip(grid.origin, grid.size))]
    return np.stack(axes, axis=1)


def _crossings(squares: np.ndarray) -> int:
    """At how many edges more than two faces meet."""
    ends = np.sort(np.stack([squares, np.roll(squares, -1, axis=1)], axis=2).reshape(-1, 2), axis=1)
    _, times = np.unique(ends[:, 0] * (int(squares.max()) + 1) + ends[:, 1], return_counts=True)
    return int((times > 2).sum())
