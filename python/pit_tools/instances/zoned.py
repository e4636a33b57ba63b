"""One instance of several plans: each block has the values and coefficients of the plan that is for
its zone."""
from __future__ import annotations

from dataclasses import replace
from typing import Optional, Sequence

import numpy as np

from pit_tools.errors import UserError
from pit_tools.instances.arrays import Instance, Problem, UltimatePit, Uses, present


def by_zone(parts: Sequence[tuple[Sequence[int], Instance]]) -> Instance:
    """Joins instances of the same blocks, each with its zones, into one. Names, limits and
    precedences come from the first.

    Raises UserError if blocks, periods, destinations, resources or rates differ, or a zone belongs
    to none or to two."""
    first = parts[0][1]
    blocks = present(first.blocks, "block file")
    zone = blocks.zone
    part_of = np.full(int(zone.max(initial=0)) + 1, -1)
    for number, (zones, instance) in enumerate(parts):
        others = present(instance.blocks, "block file")
        if not all(map(np.array_equal, vars(others).values(), vars(blocks).values())):
            raise UserError("the instances have different blocks")
        for one in zones:
            if not 0 <= one < len(part_of):
                raise UserError(f"no block has the zone {one}")
            if part_of[one] >= 0:
                raise UserError(f"the zone {one} is in two of the instances")
            part_of[one] = number
    absent = sorted(set(zone[part_of[zone] < 0].tolist()))
    if absent:
        raise UserError(f"no instance is for the zone {', '.join(map(str, absent))}")
    owner = part_of[zone]
    return replace(first, upit=_upit([instance.upit for _, instance in parts], owner),
                   pcpsp=_problem([instance.pcpsp for _, instance in parts], owner),
                   cpit=_problem([instance.cpit for _, instance in parts], owner))


def _picked(values: Sequence[np.ndarray], owner: np.ndarray) -> np.ndarray:
    """Of each block the row of its owner."""
    return np.stack(values)[owner, np.arange(len(owner))]


def _upit(upits: Sequence[Optional[UltimatePit]], owner: np.ndarray) -> Optional[UltimatePit]:
    found = [one for one in upits if one is not None]
    return (replace(found[0], values=_picked([one.values for one in found], owner))
            if len(found) == len(upits) else None)


def _problem(problems: Sequence[Optional[Problem]], owner: np.ndarray) -> Optional[Problem]:
    found = [one for one in problems if one is not None]
    if len(found) < len(problems):
        return None
    first = found[0]
    for other in found[1:]:
        for what in ("periods", "destinations", "resources", "rate"):
            if getattr(other, what) != getattr(first, what):
                raise UserError(f"the plans differ in {what}: {getattr(first, what)} and "
                                f"{getattr(other, what)}")
    columns = []
    for name in ("block", "destination", "resource", "amount"):
        columns.append(np.concatenate([getattr(one.uses, name)[owner[one.uses.block] == number]
                                       for number, one in enumerate(found)]))
    order = np.lexsort((columns[2], columns[1], columns[0]))
    return replace(first, values=_picked([one.values for one in found], owner),
                   uses=Uses(*(column[order] for column in columns)))
