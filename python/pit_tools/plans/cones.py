"""The cones of a plan's zones: the predecessors of a block, in integers as `pitc` computes them.

The predecessors of a block are the blocks up to K benches above it in the cone of its zone's slopes
(docs/formats.md). Lengths are millimetres, so that nothing is rounded.
"""
from __future__ import annotations

from math import isqrt, prod
from typing import Optional, Sequence

import numpy as np
from scipy import sparse

from pit_tools.errors import UserError
from pit_tools.instances.arrays import Blocks
from pit_tools.plans.file import Grid, Plan, Zone

#: No indices of blocks are further from each other.
FARTHEST = 9999

#: How many places a cone may have: some gigabytes.
MOST_PLACES_OF_A_CONE = 100_000_000


def size_in_millimetres(grid: Grid) -> tuple[int, int, int]:
    """The size of a block along x, y and z."""
    x, y, z = (int(size * 1000) for size in grid.size)
    return x, y, z


def _farthest_along(squared: int, share: int) -> int:
    """Returns the largest d with (d * share)^2 <= squared."""
    return min(isqrt(squared) // share, FARTHEST)


def cone_offsets(size: Sequence[int], zone: Zone, benches: Optional[int] = None,
                 most: Sequence[int] = (FARTHEST, FARTHEST)) -> np.ndarray:
    """Returns the cells of a zone's cone relative to its apex: rows dx, dy, dz, int32, in order of
    (dz, dy, dx).

    `size` is a block's size in millimetres. `benches` is K if it is not the zone's own. Cells
    further away than `most` along x or y are omitted.
    """
    east, west, north, south = ((slope.rise, slope.run) for slope in zone.slopes)
    sx, sy, sz = size
    rows = []
    levels = range(1, (zone.benches if benches is None else benches) + 1)
    _judge_cone(size, zone, levels, most)
    for dz in levels:
        _, _, up, down = reach_along(size, zone, dz)
        for dy in range(-min(down, most[1]), min(up, most[1]) + 1):
            py, qy = north if dy > 0 else south
            ends = []
            for px, qx in (west, east):
                squared = (dz * sz * qx * qy) ** 2 - (dy * sy * py * qx) ** 2
                ends.append(-1 if squared < 0
                            else min(_farthest_along(squared, sx * px * qy), most[0]))
            if ends[1] >= 0:
                dx = np.arange(-ends[0], ends[1] + 1)
                rows.append(np.stack([dx, np.full_like(dx, dy), np.full_like(dx, dz)], axis=1))
    return np.concatenate(rows).astype(np.int32) if rows else np.empty((0, 3), np.int32)


def _judge_cone(size: Sequence[int], zone: Zone, levels: range, most: Sequence[int]) -> None:
    """Stops if a cone has more cells than memory for them."""
    count = 0
    for dz in levels:
        east, west, north, south = reach_along(size, zone, dz)
        count += ((min(east, most[0]) + min(west, most[0]) + 1)
                  * (min(north, most[1]) + min(south, most[1]) + 1))
        if count > MOST_PLACES_OF_A_CONE:
            raise UserError(f"a cone of the slopes {zone} has more than {MOST_PLACES_OF_A_CONE:,} "
                            "cells: are the slopes so flat?")


def reach_along(size: Sequence[int], zone: Zone, dz: int) -> tuple[int, int, int, int]:
    """Returns how many blocks away the cone reaches to +x, -x, +y and -y, `benches` up."""
    sx, sy, sz = size
    east, west, north, south = (min(dz * sz * slope.run // (length * slope.rise), FARTHEST)
                                for slope, length in zip(zone.slopes, (sx, sx, sy, sy)))
    return east, west, north, south


#: How many places a box may have: 4 GB.
MOST_PLACES = 1_000_000_000


class Places:
    """The block at a cell of the model's box: its identifier, or -1."""

    def __init__(self, blocks: Blocks):
        if not len(blocks):
            raise UserError("there are no blocks")
        self.least = np.array([axis.min() for axis in (blocks.x, blocks.y, blocks.z)])
        self.most = np.array([axis.max() for axis in (blocks.x, blocks.y, blocks.z)])
        self.shape = tuple((self.most - self.least + 1).tolist())
        if prod(self.shape) > MOST_PLACES:
            raise UserError("the blocks are in a box of "
                            f"{' x '.join(f'{length:,}' for length in self.shape)} cells, more "
                            f"than {MOST_PLACES:,}: are two groups of blocks far apart?")
        self.blocks = blocks
        self.x, self.y, self.z = (axis - low
                                  for axis, low in zip((blocks.x, blocks.y, blocks.z), self.least))
        self.at = np.full(self.shape[::-1], -1, dtype=np.int32)
        self.at[self.z, self.y, self.x] = np.arange(len(blocks), dtype=np.int32)

    def shifted(self, ids: np.ndarray, dx: int, dy: int, dz: int) -> np.ndarray:
        """Returns the blocks shifted by a number of blocks from these, or -1."""
        x, y, z = self.x[ids] + dx, self.y[ids] + dy, self.z[ids] + dz
        inside = (x >= 0) & (x < self.shape[0]) & (y >= 0) & (y < self.shape[1]) \
            & (z >= 0) & (z < self.shape[2])
        found = np.full(len(ids), -1, dtype=np.int32)
        found[inside] = self.at[z[inside], y[inside], x[inside]]
        return found


def precedence_of(blocks: Blocks, plan: Plan) -> sparse.csr_matrix:
    """Returns all arcs of these blocks by the plan, (n, n), 1 in row b at its predecessors p."""
    places, size = Places(blocks), size_in_millimetres(plan.grid)
    lower, upper = [], []
    for number, zone in enumerate(plan.zones):
        ids = np.flatnonzero(blocks.zone == number).astype(np.int32)
        reach = [length - 1 for length in places.shape]
        for dx, dy, dz in cone_offsets(size, zone, min(zone.benches, reach[2]), reach).tolist():
            found = places.shifted(ids, dx, dy, dz)
            is_there = found >= 0
            lower.append(ids[is_there])
            upper.append(found[is_there])
    n = len(blocks)
    if not lower:
        return sparse.csr_matrix((n, n), dtype=np.int8)
    rows, columns = np.concatenate(lower), np.concatenate(upper)
    return sparse.csr_matrix((np.ones(len(rows), np.int8), (rows, columns)), shape=(n, n))
