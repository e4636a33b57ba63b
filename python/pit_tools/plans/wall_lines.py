"""A report on how steep the walls are that a plan's cones give."""
from __future__ import annotations

from dataclasses import dataclass
from typing import Iterator, Sequence

import numpy as np

from pit_tools.plans.file import Grid, Zone
from pit_tools.plans.slopes import judge, too_steep_by_rise
from pit_tools.plans.walls import (EIGHT, EIGHT_NAMES, MOST_BENCHES, RISES, requested_straight,
                                   measured, straight_walls)
from pit_tools.texts.decimals import plain

SOME_K = (1, 2, 3, 4, 5, 6, 8, 10, 12, 15, 20)

#: Default heights of mines for which K is reported.
SOME_HEIGHTS = (5, 10, 20, 40)


@dataclass(frozen=True)
class Wanted:
    """The options of the report: the height of the mine in benches and the K of straight walls, or
    0; by how many degrees a wall may be too steep; the decimals of degrees; whether two lines per
    zone are enough."""

    benches: int = 0
    K: int = 0
    within: float = 2.0
    decimals: int = 1
    is_brief: bool = False


def wall_lines(grid: Grid, zones: Sequence[Zone], names: Sequence[str],
               wanted: Wanted) -> Iterator[str]:
    """Yields the walls of each zone, and the K to use for all together."""
    yield "blocks of " + " x ".join(plain(size) for size in grid.size) + " m"
    if wanted.is_brief:
        yield from _brief(grid, zones)
    for number, zone in enumerate(zones) if not wanted.is_brief else ():
        yield f"\nzone {number}, {zone}"
        yield from _pit_of_one_block(grid, zone, wanted.decimals)
        yield from _straight(grid, zone, wanted.K or zone.benches, wanted.decimals)
        yield from _by_K_and_rise(grid, zone)
    for benches in [wanted.benches] if wanted.benches else SOME_HEIGHTS:
        judged = judge(grid, zones, names, benches, wanted.within)
        yield f"\nin a mine of {benches} benches use K = {max(judged.K)}"
        yield from (f"LOOK AT: {line}" for line in judged.look_at)
        yield from (f"NOTE: {line}" for line in judged.notes)


def _degrees(of_walls: np.ndarray, decimals: int) -> str:
    return "".join(f"{of_walls[at]:{decimals + 5}.{decimals}f}" for at in EIGHT)


def _pit_of_one_block(grid: Grid, zone: Zone, decimals: int) -> Iterator[str]:
    walls = measured(grid, zone)
    yield (f"{'the pit of one deep block':26}"
           + "".join(name.rjust(decimals + 5) for name in EIGHT_NAMES)
           + "   too steep       arcs")
    yield f"{'asked':26}{_degrees(walls.requested, decimals)}"
    for K in range(1, MOST_BENCHES + 1):
        own = "  the plan's K" if K == zone.benches else ""
        yield (f"{f'K = {K}':26}{_degrees(walls.given[K], decimals)}{walls.too_steep[K]:12.1f}"
               f"{walls.arcs[K]:11d}{own}")


def _straight(grid: Grid, zone: Zone, K: int, decimals: int) -> Iterator[str]:
    requested, walls = requested_straight(zone), straight_walls(grid, zone, K, 60)
    yield f"\n{f'straight walls, K = {K}':26}{' ' * (decimals + 5) * len(EIGHT)}   too steep"
    yield f"{'asked':26}{_degrees(requested, decimals)}"
    for benches in RISES:
        given = walls[benches - 1]
        yield (f"{f'{benches} benches up':26}{_degrees(given, decimals)}"
               f"{max(0.0, (given - requested).max()):12.1f}")


def _by_K_and_rise(grid: Grid, zone: Zone) -> Iterator[str]:
    yield "\ndegrees too steep in the worst bearing, by K and rise"
    yield f"{'benches up':>14}" + "".join(f"{high:6d}" for high in RISES)
    for K in (K for K in SOME_K + ((zone.benches,) if zone.benches not in SOME_K else ())
              if K <= MOST_BENCHES):
        over = too_steep_by_rise(grid, zone, K, RISES[-1])
        row = "".join(f"{over[high - 1]:6.1f}" for high in RISES)
        yield f"{f'K = {K}':>14}{row}" + ("  the plan's K" if K == zone.benches else "")


def _brief(grid: Grid, zones: Sequence[Zone]) -> Iterator[str]:
    yield f"{'K =':>18} " + "".join(f"{K:6d}" for K in SOME_K)
    for number, zone in enumerate(zones):
        walls = measured(grid, zone)
        over = "".join(f"{walls.too_steep[K]:6.1f}" for K in SOME_K)
        yield f"zone {number:<3} too steep {over}   {zone}"
        yield f"{'arcs':>18} " + "".join(f"{walls.arcs[K]:6d}" for K in SOME_K)
