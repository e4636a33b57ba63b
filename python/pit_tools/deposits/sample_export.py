"""An export of zone files, with what most packages' exports contain."""
from __future__ import annotations

import os
from math import prod
from typing import Iterator, Sequence

import numpy as np
import pandas as pd

from pit_tools.errors import UserError
from pit_tools.plans.zone_files import read_zone_files

# Below this grade, in millionths of g/t, the sample has no grade.
UNKNOWN = 2000

# The largest number of positions of the box, each of which has a line.
MOST_PLACES = 20_000_000


def zone_names(paths: Sequence[str]) -> list[str]:
    """Returns the names of zone files without their ending and their common prefix, up to the last
    hyphen."""
    names = [os.path.splitext(os.path.basename(path))[0] for path in paths]
    prefix = os.path.commonprefix(names) if len(names) > 1 else ""
    return [name[prefix.rfind("-") + 1:] for name in names]


def sample_export(paths: Sequence[str]) -> Iterator[str]:
    """Yields the lines of the export: x runs first, then y, then z, over the box of the blocks."""
    rows = read_zone_files(paths)
    if rows.empty:
        raise UserError(f"there is no block in {', '.join(paths)}")
    names = zone_names(paths)
    ranges = []
    for name in "xyz":
        values = np.unique(rows[name])
        step = int(np.gcd.reduce(np.diff(values))) if len(values) > 1 else 1
        ranges.append(range(int(values[0]), int(values[-1]) + 1, step))
    if prod(map(len, ranges)) > MOST_PLACES:
        message = " x ".join(f"{len(axis):,}" for axis in ranges)
        raise UserError(f"the blocks are in a box of {message} positions, more than "
                        f"{MOST_PLACES:,}: are two groups of them far apart?")
    box = pd.MultiIndex.from_product(ranges[::-1], names=list("zyx")).to_frame(index=False)
    places = box.merge(rows, "left", ["x", "y", "z"])
    top = rows.groupby(["x", "y"])["z"].max().rename("top").reset_index()
    places = places.merge(top, "left", ["x", "y"])
    volume = prod(axis.step for axis in ranges)
    yield '"BLOCK","XC","YC","ZC","SG","TONNAGE","AU_PPM","DOMAIN","ROCK"'
    yield ",m,m,m,t/m3,t,g/t,,"
    nearest = places.groupby("y")["zone"].ffill().bfill().fillna(0).astype(int)
    for number, row in enumerate(places.itertuples(index=False), 1):
        x, y, z = row.x / 1000 + 1e-7, row.y / 1000 - 1e-7, row.z / 1000
        place = f"{number},{x:.10f},{y:.10f},{z:.10f}"
        if row.tonnes == row.tonnes:
            density = f"{row.tonnes * 1e6 / volume:.4f}"
            grade = "-99" if row.grade < UNKNOWN else f"{row.grade / 1e6 + 1e-10:.12f}"
            zone = names[int(row.zone)]
            yield f"{place},{density},{row.tonnes / 1000 - 1e-7:.9f},{grade},{zone},{zone}"
        elif row.top == row.top and row.z < row.top:
            yield f'{place},-99,-99,-99,{names[nearest.iloc[number - 1]]},"void, old workings"'
        else:
            yield f"{place},-99,-99,-99,air,-99"
