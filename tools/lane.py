"""Checks that the lane of a built pitc or pitc_thin has the capacity that `--capacity` specifies.

One allocation must have the same number of bytes per position, at each capacity.
"""
import collections
import itertools

import malloc
from rows import memory

# The capacities to request, and the default capacity.
CAPACITIES, USUAL = [1, 2, 7, 64, 65, 1000, 4095, 4096], 64


def sizes_of(program, library, trial):
    """Returns the number of allocations of each size in a run."""
    _, printed = malloc.result(program, library, trial)
    return collections.Counter(size for word, size in printed if word == b"size")


def is_lane(sizes, width):
    """Returns whether each capacity has an allocation of this number of bytes per position that no other capacity has."""
    pairs = itertools.permutations(CAPACITIES, 2)
    return all(sizes[one][width * one] > sizes[other][width * one] for one, other in pairs)


def faults(program, library, with_capacity, usual):
    """Returns what is wrong with the lane's capacity, by runs with a capacity and default runs."""
    runs = {places: with_capacity(*memory.ONE, places) for places in CAPACITIES}
    sizes = {places: sizes_of(program, library, run) for places, run in runs.items()}
    widths = range(1, max(sizes[CAPACITIES[-1]], default=0) // CAPACITIES[-1] + 1)
    lanes = [width for width in widths if is_lane(sizes, width)]
    if len(lanes) != 1:
        return ["no allocation has the capacity that --capacity requests"]
    size = lanes[0] * USUAL
    return [f"{trial.name}: the lane has not {USUAL} places" for trial in usual
            if sizes_of(program, library, trial)[size] <= sizes[1][size]]
