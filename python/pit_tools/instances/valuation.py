"""The worth of blocks at a plan's destinations, to the cent, and the instance that a plan defines.

With T kilograms, g millionths of g/t, r per mille recovered, P cents per kilogram of metal and C
cents per tonne, a block is worth floor((T g r P - T C 10^12) / 10^15) cents at a mill or a leach,
and floor(-T C / 1000) at a dump (docs/formats.md).
"""
from __future__ import annotations

from typing import Sequence

import numpy as np
import pandas as pd

from pit_tools.instances.arrays import Blocks, Instance, Limit, Problem, UltimatePit, Uses
from pit_tools.plans.cones import precedence_of
from pit_tools.plans.file import Destination, Grid, Plan


def recoveries(destination: Destination, grade: np.ndarray) -> np.ndarray:
    """The recovery of each grade, which is in millionths of g/t, per mille, int64."""
    found = np.zeros(len(grade), dtype=np.int64)
    for start, share in destination.bands:
        found[grade >= int(start * 1_000_000)] = share
    return found


def worth_in_cents(destination: Destination, kilograms: np.ndarray,
                   grade: np.ndarray) -> np.ndarray:
    """Returns the worth of blocks at one destination in integer cents, int64, exact.

    `kilograms` and `grade`, in millionths of g/t, are int64.
    """
    costs = kilograms * destination.cost
    worth = -((costs + 999) // 1000)
    if destination.kind == "dump":
        return worth
    per_metal = recoveries(destination, grade) * destination.price
    paid = np.flatnonzero((grade > 0) & (per_metal > 0) & (kilograms > 0))
    revenue = kilograms[paid].astype(float) * grade[paid] * per_metal[paid] / 1e15
    cost = costs[paid] / 1e3
    # Six operations, each with a relative error of at most 2^-53.
    error = (revenue + cost) * 2.0**-50
    low, high = np.floor(revenue - cost - error), np.floor(revenue - cost + error)
    worth[paid] = low.astype(np.int64)
    unsure = paid[low != high]
    worth[unsure] = _exact_worth(kilograms[unsure], grade[unsure], per_metal[unsure], costs[unsure])
    return worth


def _exact_worth(kilograms: np.ndarray, grade: np.ndarray, per_metal: np.ndarray,
                 costs: np.ndarray) -> list[int]:
    """The same by integers of Python: T g r P has up to 32 digits."""
    metal = kilograms.astype(object) * grade * per_metal
    return [value // 10**15 for value in metal - costs.astype(object) * 10**12]


def values_of(plan: Plan, blocks: Blocks) -> np.ndarray:
    """Returns the worth of each block at each destination in integer cents, (n, destinations),
    exact."""
    kilograms = np.rint(blocks.tonnes * 1000).astype(np.int64)
    grade = np.rint(blocks.grade * 1e6).astype(np.int64)
    return np.stack([worth_in_cents(one, kilograms, grade) for one in plan.destinations], axis=1)


def blocks_of(grid: Grid, rows: pd.DataFrame) -> Blocks:
    """Returns the blocks of zone files' rows, as zone_files.read_zone_files returns them, in order
    of identifier."""
    places = []
    for axis, origin, size in zip("xyz", grid.origin, grid.size):
        places.append((rows[axis].to_numpy() - int(origin * 1000)) // int(size * 1000))
    order = np.lexsort(places)
    x, y, z = (place[order].astype(np.int32) for place in places)
    taken = rows.iloc[order]
    return Blocks(x, y, z, taken["tonnes"].to_numpy() / 1000, taken["grade"].to_numpy() / 1e6,
                  taken["zone"].to_numpy().astype(np.int32))


def limits_of(plan: Plan) -> list[Limit]:
    """The limits of a plan, rising by (resource, period)."""
    limits = []
    for limit in sorted(plan.limits, key=lambda one: (one.resource, one.period)):
        ends = [float(end) for end in (limit.lower, limit.upper) if end is not None]
        limits.append(Limit.of(limit.resource, limit.period, limit.letter, ends))
    return limits


def _uses(pairs: Sequence[tuple[int, int]], tonnes: np.ndarray) -> Uses:
    """The uses of each block with tonnes by pairs of a destination and a resource, which rise."""
    held = np.flatnonzero(tonnes).astype(np.int32)
    destination, resource = (np.tile(np.array([pair[at] for pair in pairs], dtype=np.int8),
                                     len(held)) for at in (0, 1))
    return Uses(np.repeat(held, len(pairs)), destination, resource,
                np.repeat(tonnes[held], len(pairs)))


def instance_of(plan: Plan, blocks: Blocks) -> Instance:
    """Returns the instance that a plan and its blocks define, as `pitc` writes it: values in units
    of 100 cents. It lists all arcs, and is for instances that tools make and solve themselves;
    published instances come from `pitc`.

    Raises UserError if there is no block, or blocks are too far apart.
    """
    values = values_of(plan, blocks)
    best = values.argmax(axis=1)
    covers = [(at, number) for at in range(len(plan.destinations))
              for number, resource in enumerate(plan.resources) if at in resource.covers]
    all_uses = _uses(covers, blocks.tonnes)
    is_best = all_uses.destination == best[all_uses.block]
    best_uses = Uses(all_uses.block[is_best], np.zeros(is_best.sum(), np.int8),
                     all_uses.resource[is_best], all_uses.amount[is_best])
    greatest, limits = values.max(axis=1) / 100, limits_of(plan)
    head = (plan.name, plan.periods, len(plan.resources), float(plan.rate))
    return Instance(blocks, precedence_of(blocks, plan), UltimatePit(plan.name, greatest),
                    Problem("PCPSP", *head, values / 100, all_uses, limits),
                    Problem("CPIT", *head, greatest[:, None], best_uses, limits))
