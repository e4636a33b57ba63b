"""How steep the walls are that a zone's cones give, compared with the slopes that it requests.

Bearings are those of the model: north is +y, east is +x; angles are degrees.

- The slope requested in a bearing u is atan |(ux p/q, uy p/q)|, each p : q from its side. - The
slope obtained is atan(Sz / r), where r metres is how far the convex hull of 0 and the points (dx
Sx, dy Sy) / dz of the cone's blocks reaches in that bearing: the wall of the pit of one deep block.
- A straight wall that rises b benches, from a block to one b benches above it, is where the
outermost blocks of that pit are. Blocks are not split, so low walls are steeper, with any K. It is
requested at atan(1 / |(ux q/p, uy q/p)|).
"""
from __future__ import annotations

from dataclasses import dataclass, field
from functools import lru_cache
from math import isqrt
from typing import Sequence

import numpy as np

from pit_tools.plans.cones import reach_along, size_in_millimetres
from pit_tools.plans.file import Grid, Zone

#: The largest K of a plan.
MOST_BENCHES = 20

#: The rises of the walls that are reported, in benches.
RISES = (3, 4, 5, 6, 8, 10, 12, 15, 20, 30, 40, 60)

#: Bearings in integer degrees.
BEARINGS = np.arange(360)

#: The bearings of the report: N, NE, E, SE, S, SW, W, NW.
EIGHT = np.arange(0, 360, 45)

EIGHT_NAMES = ("N", "NE", "E", "SE", "S", "SW", "W", "NW")


def _directions(bearings: np.ndarray) -> tuple[np.ndarray, np.ndarray]:
    """Parts to the east and to the north, exact along the axes."""
    east, north = np.sin(np.radians(bearings)), np.cos(np.radians(bearings))
    east[np.asarray(bearings) % 180 == 0] = 0
    north[np.asarray(bearings) % 180 == 90] = 0
    return east, north


def _tangents(zone: Zone, east: np.ndarray, north: np.ndarray) -> tuple[np.ndarray, np.ndarray]:
    """Returns the rise over run of the side of x and of y, for each direction."""
    plus_x, minus_x, plus_y, minus_y = (slope.tangent for slope in zone.slopes)
    return np.where(east < 0, minus_x, plus_x), np.where(north < 0, minus_y, plus_y)


def requested(zone: Zone, bearings: np.ndarray = BEARINGS) -> np.ndarray:
    """Returns the slopes requested for a pit of one deep block, degrees."""
    east, north = _directions(bearings)
    along, across = _tangents(zone, east, north)
    return np.degrees(np.arctan(np.hypot(east * along, north * across)))


def requested_straight(zone: Zone, bearings: np.ndarray = BEARINGS) -> np.ndarray:
    """Returns the slopes requested for a long straight wall, degrees."""
    east, north = _directions(bearings)
    along, across = _tangents(zone, east, north)
    return np.degrees(np.arctan(1 / np.hypot(east / along, north / across)))


def edge_of(size: tuple[int, int, int], zone: Zone, dz: int) -> np.ndarray:
    """Returns the outermost blocks of a cone `benches` up: rows dx, dy."""
    rows = []
    sx, sy, sz = size
    east, west, north, south = zone.slopes
    _, _, up, down = reach_along(size, zone, dz)
    for dy in range(-down, up + 1):
        side = north if dy > 0 else south
        for way, one in ((1, east), (-1, west)):
            squared = (dz * sz * one.run * side.run) ** 2 - (dy * sy * side.rise * one.run) ** 2
            rows.append((way * (isqrt(squared) // (sx * one.rise * side.run)), dy))
    return np.array(rows, dtype=float)


def count_of(size: tuple[int, int, int], zone: Zone, dz: int) -> int:
    """How many blocks a cone has on one bench."""
    edge = edge_of(size, zone, dz)
    return int((edge[::2, 0] - edge[1::2, 0] + 1).sum())


def _hull(points: np.ndarray) -> np.ndarray:
    """The corners of the convex hull of points, counterclockwise."""
    ordered = sorted({(float(x), float(y)) for x, y in points})
    halves = []
    for line in (ordered, ordered[::-1]):
        half: list[tuple[float, float]] = []
        for point in line:
            while len(half) > 1 and _turn(half[-2], half[-1], point) <= 0:
                half.pop()
            half.append(point)
        halves.append(half[:-1] or half)
    return np.array(halves[0] + halves[1])


def _turn(first: Sequence[float], second: Sequence[float], third: Sequence[float]) -> float:
    return ((second[0] - first[0]) * (third[1] - first[1])
            - (second[1] - first[1]) * (third[0] - first[0]))


def _reach(corners: np.ndarray, bearings: np.ndarray) -> np.ndarray:
    """How far a hull that holds 0 reaches in each bearing."""
    east, north = (part[:, None] for part in _directions(bearings))
    x, y = corners.T
    next_x, next_y = np.roll(x, -1), np.roll(y, -1)
    along = east * (next_y - y) - north * (next_x - x)
    with np.errstate(divide="ignore", invalid="ignore"):
        far = (x * next_y - y * next_x) / along
        share = (x * north - y * east) / along
        crossed = np.where((along > 0) & (share >= -1e-9) & (share <= 1 + 1e-9), far, 0)
    on_ray = np.abs(x * north - y * east) <= 1e-9 * (1 + np.hypot(x, y))
    corner = np.where(on_ray, np.maximum(x * east + y * north, 0), 0)
    return np.maximum(crossed.max(axis=1), corner.max(axis=1))


@dataclass(frozen=True)
class Walls:
    """The slopes that a zone requests and those that its cones give, for each K from 1 to 20; index
    0 of lists means none."""

    zone: Zone
    requested: np.ndarray  #: (360,)
    given: list[np.ndarray]  #: by K, (360,)
    arcs: list[int]  #: by K, the predecessors of a block with rock all about
    too_steep: list[float] = field(default_factory=list)  #: by K, in the worst bearing


@lru_cache(256)
def measured(grid: Grid, zone: Zone) -> Walls:
    """Returns the walls of a zone's slopes in a grid, for each K; the zone's own K does not matter
    here."""
    size = size_in_millimetres(grid)
    wanted = requested(zone)
    points, given, arcs, over = np.zeros((1, 2)), [np.full(360, 90.0)], [0], [90.0]
    for K in range(1, MOST_BENCHES + 1):
        edge = edge_of(size, zone, K) * size[:2] / K
        points = _hull(np.concatenate([points, edge]))
        reach = _reach(points, BEARINGS)
        given.append(np.degrees(np.arctan2(size[2], reach)))
        arcs.append(arcs[-1] + count_of(size, zone, K))
        over.append(float(max(0, (given[-1] - wanted).max())))
    return Walls(zone, wanted, given, arcs, over)


@lru_cache(256)
def straight_walls(grid: Grid, zone: Zone, K: int, benches: int) -> np.ndarray:
    """Returns the angles of straight walls that rise 1, 2, .. `benches` benches, degrees, (benches,
    360): S(h) is the most of S(h - k) + s(k) over k up to K, where s(k) is how far the cone's
    blocks k benches up reach in a bearing."""
    size = size_in_millimetres(grid)
    directions = np.stack(_directions(BEARINGS))
    steps = [np.zeros(360)]
    for k in range(1, min(K, benches) + 1):
        steps.append(np.maximum(0, ((edge_of(size, zone, k) * size[:2]) @ directions).max(axis=0)))
    far = [np.zeros(360)]
    for high in range(1, benches + 1):
        far.append(np.max([far[high - k] + steps[k] for k in range(1, min(K, high) + 1)], axis=0))
    heights = np.arange(1, benches + 1)[:, None] * size[2]
    return np.degrees(np.arctan2(heights, np.array(far[1:])))
