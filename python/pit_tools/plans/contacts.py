"""Where a flatter zone meets a steeper one: slopes and K come from the lower block, so a flat cone
continues through steep rock."""
from __future__ import annotations

from dataclasses import dataclass, field
from typing import Iterable, Sequence

import numpy as np

from pit_tools.instances.arrays import Blocks
from pit_tools.plans.cones import Places, reach_along
from pit_tools.plans.file import Zone

#: The sides of a model: name, axis (0: x, 1: y) and direction, in the order of a zone's slopes.
SIDES = (("east", 0, 1), ("west", 0, -1), ("north", 1, 1), ("south", 1, -1))


@dataclass(frozen=True)
class Contacts:
    """Contacts of zones with steeper ones, all by numbers of zones.

    `begins` has, for a zone below steeper rock, the smallest number of benches up to that; `below`,
    for a zone and a steeper one above it, the number of blocks of the first that are fewer than K
    benches below the second; `adjacent`, for such pairs, the number of blocks with a cone whose
    edge extends, on a side where the second is steeper, into the second, and not straight above."""

    begins: dict[int, int] = field(default_factory=dict)
    below: dict[tuple[int, int], int] = field(default_factory=dict)
    adjacent: dict[tuple[int, int], int] = field(default_factory=dict)


def differ(zones: Sequence[Zone]) -> bool:
    """Returns whether any zone is steeper than another on a side."""
    return len({zone.slopes for zone in zones}) > 1


def contacts_of(blocks: Blocks, zones: Sequence[Zone], size: tuple[int, int, int],
                places: Places) -> Contacts:
    """Returns the contacts of these blocks; `size` is a block's size in millimetres."""
    found = Contacts()
    for zone, one in enumerate(zones):
        others = _steeper(zones, zone, range(4))
        ids = np.flatnonzero(blocks.zone == zone)
        if not others or not len(ids):
            continue
        _look_above(found, blocks, places, zone, one, ids, others)
        # The highest bench of a cone that ends at steeper rock is in that, and should be.
        benches = one.benches - 1 if found.begins.get(zone) == one.benches else one.benches
        for other, taken in _nearby(blocks, zones, size, places, zone, ids, benches).items():
            found.adjacent[zone, other] = int(taken.sum())
    return found


def _steeper(zones: Sequence[Zone], zone: int, sides: Iterable[int]) -> list[int]:
    """The zones that are steeper than one on any of these sides."""
    own = zones[zone].slopes
    return [other for other, one in enumerate(zones) if other != zone
            and any(one.slopes[side].tangent > own[side].tangent for side in sides)]


def _look_above(found: Contacts, blocks: Blocks, places: Places, zone: int, one: Zone,
                ids: np.ndarray, others: list[int]) -> None:
    """Counts the blocks of a zone with steeper rock straight above, up to K benches."""
    seen = {other: np.zeros(len(ids), dtype=bool) for other in others}
    for dz in range(1, one.benches + 1):
        above = places.shifted(ids, 0, 0, dz)
        zones = np.where(above >= 0, blocks.zone[above], -1)
        if zone not in found.begins and np.isin(zones, others).any():
            found.begins[zone] = dz
        for other in others if dz < one.benches else ():
            seen[other] |= zones == other
    found.below.update({(zone, other): int(taken.sum())
                        for other, taken in seen.items() if taken.any()})


def _nearby(blocks: Blocks, zones: Sequence[Zone], size: tuple[int, int, int], places: Places,
            zone: int, ids: np.ndarray, benches: int) -> dict[int, np.ndarray]:
    """Returns for each steeper zone which of these blocks have a cone whose edge extends into it,
    up to `benches`."""
    seen: dict[int, np.ndarray] = {}
    for side, (_, axis, way) in enumerate(SIDES):
        others = _steeper(zones, zone, [side])
        for dz in range(1, benches + 1) if others else ():
            far = way * reach_along(size, zones[zone], dz)[side]
            if not far or abs(far) >= places.shape[axis]:
                continue
            there = places.shifted(ids, *((far, 0, dz) if axis == 0 else (0, far, dz)))
            met = np.where(there >= 0, blocks.zone[there], -1)
            for other in others:
                is_met = met == other
                if is_met.any():
                    seen.setdefault(other, np.zeros(len(ids), dtype=bool))[is_met] = True
    return seen
