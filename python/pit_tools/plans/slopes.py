"""Slopes from degrees, and the K to use for the height of a mine."""
from __future__ import annotations

import math
import re
from dataclasses import dataclass, replace
from typing import Mapping, Optional, Sequence

import numpy as np

from pit_tools.errors import UserError, quoted
from pit_tools.plans.contacts import Contacts
from pit_tools.plans.file import SIDES, FourSlopes, Grid, Slope, Zone
from pit_tools.plans.walls import MOST_BENCHES, requested_straight, straight_walls
from pit_tools.texts.decimals import number_of

# The sides of a zone by the names for them.
SIDE_NAMES = {"+x": 0, "e": 0, "east": 0, "-x": 1, "w": 1, "west": 1, "+y": 2, "n": 2, "north": 2,
              "-y": 3, "s": 3, "south": 3}

# How much too steep a wall may be by default, in degrees.
WITHIN = 2.0


def slope_of(degrees: float) -> Slope:
    """Returns rise over run of an angle, never steeper than it and less than 0.06 degrees flatter,
    in small numbers if these are exact.

    It raises UserError outside of 1 to 89 degrees."""
    if not 1 <= degrees <= 89:
        raise UserError(f"a slope of {degrees:g} degrees: give 1 to 89")
    tangent = math.tan(math.radians(degrees))
    if degrees <= 45:
        rise, run = math.floor(1000 * tangent + 1e-6), 1000
    else:
        rise, run = 1000, math.ceil(1000 / tangent - 1e-6)
    common = math.gcd(rise, run)
    return Slope(rise // common, run // common)


def degrees_of(slope: Slope) -> float:
    return math.degrees(math.atan(slope.tangent))


def slopes_of(text: str) -> FourSlopes:
    """Reads slopes: `45` for all sides, `E 56, W 45, N 51, S 48`, also as +x, -x, +y, -y; a slope
    may also be p:q.

    If one of the four sides is named, all must be. It raises UserError."""
    parts = [part.strip() for part in text.split(",") if part.strip()]
    if len(parts) == 1 and not re.search("[a-z]", parts[0], re.IGNORECASE):
        one = _one_slope(parts[0])
        return (one, one, one, one)
    found: dict[int, Slope] = {}
    for part in parts:
        name, _, slope = part.replace("=", " ").partition(" ")
        side = SIDE_NAMES.get(name.casefold())
        if side is None or not slope.strip():
            raise UserError(f"`{part}`: write a slope by side as `E 56`: the sides are E, W, N and "
                            "S, or +x, -x, +y and -y")
        if side in found:
            raise UserError(f"{quoted(text)} names {SIDES[side]} twice")
        found[side] = _one_slope(slope.strip())
    if len(found) < 4:
        absent = ", ".join(SIDES[side] for side in range(4) if side not in found)
        raise UserError(f"{quoted(text)} has no slope for {absent}")
    return (found[0], found[1], found[2], found[3])


def _one_slope(text: str) -> Slope:
    ratio = re.fullmatch(r"(\d{1,9})\s*:\s*(\d{1,9})", text)
    if ratio:
        slope = Slope(int(ratio[1]), int(ratio[2]))
        if not (1 <= slope.rise <= 1000 and 1 <= slope.run <= 1000):
            raise UserError(f"{quoted(text)}: rise and run must be 1 to 1000")
        return slope
    degrees = number_of(re.sub(r"(?<!\s)\s*(°|degrees|deg)$", "", text))
    if degrees is None:
        raise UserError(f"{quoted(text)} is not a slope: give degrees, or p:q")
    return slope_of(degrees)


def K_for(benches: int) -> int:
    """Returns the K to use for a mine of this number of benches: the same number, at most 20. A
    larger K has no more arcs."""
    return max(1, min(benches, MOST_BENCHES))


@dataclass(frozen=True)
class Judgement:
    """The report on the slopes of a mine: the K to use for each zone; mistakes; and what no K
    changes. `plan`, `slopes` and `survey` all use `judge`."""

    K: tuple[int, ...]
    look_at: tuple[str, ...]
    notes: tuple[str, ...]


def judge(grid: Grid, zones: Sequence[Zone], names: Sequence[str], benches: int,
          within: float = WITHIN, contacts: Contacts = Contacts()) -> Judgement:
    """Judges the slopes and the K of each zone in a mine of this number of benches, whose walls
    rise from a block to one of up to benches - 1 above it. Walls that are at most `within` degrees
    too steep are accepted. Cones of a zone below steeper rock must end where that begins."""
    wanted = tuple(min(K_for(benches), contacts.begins.get(number, MOST_BENCHES))
                   for number in range(len(zones)))
    below = tuple(f"zone {names[zone]} is below zone {names[other]}, which is steeper, and "
                  f"{count:,} cones of it continue through that: walls are too flat there. Import "
                  f"with --below {names[zone]}:{names[other]}"
                  for (zone, other), count in contacts.below.items())
    adjacent = tuple(f"zone {names[zone]} is next to zone {names[other]}, which is steeper, and "
                     f"{count:,} cones of it extend into that: walls are too flat there. A sector "
                     "of azimuth is a side of one zone"
                     for (zone, other), count in contacts.adjacent.items()
                     if (zone, other) not in contacts.below)
    small, unsplit = _judged_walls(grid, zones, names, benches, within, wanted,
                                   contacts) if benches > 1 else ((), ())
    return Judgement(wanted, small + below, unsplit + adjacent)


def _judged_walls(grid: Grid, zones: Sequence[Zone], names: Sequence[str], benches: int,
                  within: float, wanted: Sequence[int],
                  contacts: Contacts) -> tuple[tuple[str, ...], tuple[str, ...]]:
    """Returns a line for a K that is too small, and one for walls that no K brings within the
    tolerance, for all zones, or none."""
    rise = benches - 1
    small: dict[str, list[str]] = {}
    unsplit: dict[str, list[str]] = {}
    over = []
    for name, zone, K, number in zip(names, zones, wanted, range(len(zones))):
        with_all = too_steep_by_rise(grid, zone, K, rise)
        if zone.benches < K:
            texts = _too_small(too_steep_by_rise(grid, zone, zone.benches, rise), with_all,
                               zone.benches, K, within)
            if texts:
                small.setdefault(texts, []).append(name)
        most = float(with_all[_three_quarters(benches) - 2:].max())
        if number not in contacts.begins and most > within:
            over.append(most)
            unsplit.setdefault(_flatter_text(grid, zone, benches, within), []).append(name)
    return _in_one_line("K is too small: ", small,
                        ": "), _in_one_line(_unsplit_blocks(benches, over, within), unsplit, " by ")


def too_steep_by_rise(grid: Grid, zone: Zone, K: int, rise: int) -> np.ndarray:
    """Returns by how many degrees straight walls that rise 1, 2, .. benches are too steep in the
    worst bearing, at least 0."""
    walls = straight_walls(grid, zone, K, rise)
    return np.maximum(0, (walls - requested_straight(zone)).max(axis=1))


def _too_small(over: np.ndarray, with_all: np.ndarray, K: int, wanted: int, within: float) -> str:
    """Returns the line for a K that makes walls steeper than they must be; nothing if they are
    within the tolerance, or as steep with all arcs."""
    worse = np.where(over > within, over - with_all, 0)
    at = int(worse.argmax())
    if worse[at] < 0.05:
        return ""
    return (f"K = {K} makes a pit of {at + 2} benches {over[at]:.1f} degrees too steep, but K = "
            f"{wanted} {with_all[at]:.1f}")


def _unsplit_blocks(benches: int, over: Sequence[float], within: float) -> str:
    if not over:
        return ""
    least = _three_quarters(benches)
    pits = (f"pits of {least} to {benches} benches" if least < benches
            else f"a pit of {benches} benches")
    return (f"blocks are not split: with any K, walls of {pits} are up to {max(over):.1f} degrees "
            "too steep, and walls of lower pits more. Smaller blocks bring them within "
            f"{within:g}, or slopes that are flatter on all sides: ")


def _in_one_line(head: str, texts: Mapping[str, Sequence[str]], between: str) -> tuple[str, ...]:
    """Returns one line for all zones, joining those with the same text."""
    parts = [f"zone {', '.join(of)}{between}{text}" for text, of in texts.items()]
    return (head + "; ".join(parts),) if parts else ()


def _three_quarters(benches: int) -> int:
    return max(2, math.ceil(0.75 * benches))


def _flatter_text(grid: Grid, zone: Zone, benches: int, within: float) -> str:
    less = _flatter(grid, zone, benches, within)
    return f"{less} degree{'s' if less > 1 else ''}" if less else "more than 15 degrees"


def _flatter(grid: Grid, zone: Zone, benches: int, within: float) -> Optional[int]:
    """Returns by how many degrees, an integer, all slopes must be flatter, so that walls are
    within the requested slopes."""
    requested = requested_straight(zone)
    for less in range(1, 16):
        if min(degrees_of(slope) for slope in zone.slopes) - less < 1:
            return None
        slopes = [slope_of(degrees_of(slope) - less) for slope in zone.slopes]
        flat = replace(zone, slopes=(slopes[0], slopes[1], slopes[2], slopes[3]))
        walls = straight_walls(grid, flat, K_for(benches),
                               benches - 1)[_three_quarters(benches) - 2:]
        if float((walls - requested).max()) <= within:
            return less
    return None
