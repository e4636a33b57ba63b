#!/usr/bin/env python3
"""The files of the instance of a plan and its zone files, by a simple computation.

    tools/plain.py BASE PLAN ZONE..         writes them to the files of BASE

It is written from docs/formats.md alone, in another language than pitc. It counts in integers, tests all pairs of blocks for cones, and
knows no error except a repeated block. tools/random-models and the tables of tools/rows compare the results of a built pitc with it.
"""
import csv
import io
import sys
from decimal import Decimal
from fractions import Fraction
from typing import NamedTuple

import shared


class Block(NamedTuple):
    """A block: its bench, row and column, its zone, kilograms, and millionths of a gram a tonne."""

    place: tuple
    zone: int
    mass: int
    grade: int


def shortest(millionths):
    whole, part = divmod(abs(millionths), 10**6)
    return ("-" if millionths < 0 else "") + f"{whole}.{part:06d}".rstrip("0").rstrip(".")


def scaled(text, factor):
    return int(Decimal(text) * factor)


def plan_of(text):
    plan = {"zones": [], "destinations": [], "resources": [], "limits": []}
    for key, *cells in csv.reader(io.StringIO(text)):
        if key == "grid":
            plan["origin"] = [scaled(cell, 1000) for cell in cells[:3]]
            plan["size"] = [scaled(cell, 1000) for cell in cells[3:]]
        elif key == "zone":
            numbers = list(map(int, cells))
            slopes = list(zip(numbers[:-1:2], numbers[1::2]))
            plan["zones"].append((slopes * (4 // len(slopes)), numbers[-1]))
        elif key in ("mill", "leach", "dump"):
            plan["destinations"].append((key, cells[0], cells[1:]))
        elif key == "resource":
            names = [name for _, name, _ in plan["destinations"]]
            plan["resources"].append((cells[0], {names.index(name) for name in cells[1:]}))
        elif key == "limit":
            names = [name for name, _ in plan["resources"]]
            plan["limits"].append((names.index(cells[0]), int(cells[1]), cells[2], cells[3:]))
        else:
            plan[key] = cells[0]
    return plan


def worth(kind, cells, block):
    """Returns the worth of a block at a destination, in cents."""
    if kind == "dump":
        return -block.mass * int(cells[0]) // 1000
    if kind == "mill":
        recovery, price, cost = map(int, cells)
    else:
        price, cost = map(int, cells[:2])
        recovery = 0
        for start, share in zip(cells[2::2], cells[3::2]):
            if scaled(start, 10**6) <= block.grade:
                recovery = int(share)
    metal = block.mass * block.grade * recovery
    return (metal * price - block.mass * cost * 10**12) // 10**15


def is_inside(plan, zone, dz, dy, dx):
    """Returns whether a block this far from one of a zone is a predecessor of it."""
    (east, west, north, south), benches = plan["zones"][zone]
    if not 1 <= dz <= benches:
        return False
    (px, qx), (py, qy) = east if dx > 0 else west, north if dy > 0 else south
    sx, sy, sz = plan["size"]
    return (dx * sx * px * qy) ** 2 + (dy * sy * py * qx) ** 2 <= (dz * sz * qx * qy) ** 2


def blocks_of(plan, files):
    """Returns the blocks of the files in order, or the line of the first repetition."""
    blocks, seen = [], {}
    for zone, text in enumerate(files):
        for number, row in enumerate(csv.DictReader(io.StringIO(text)), start=2):
            metres = (scaled(row[axis], 1000) for axis in "zyx")
            grid = zip(metres, plan["origin"][::-1], plan["size"][::-1])
            place = tuple((at - origin) // size for at, origin, size in grid)
            if place in seen:
                first, row_before = seen[place]
                return f"pitc: file {zone} row {number} repeats file {first} row {row_before}\n"
            seen[place] = zone, number
            mass, grade = scaled(row["tonnes"], 1000), scaled(row["grade"], 10**6)
            blocks.append(Block(place, zone, mass, grade))
    return sorted(blocks)


def block_line(number, block):
    indices = " ".join(map(str, reversed(block.place)))
    return f"{number} {indices} {tonnes(block)} {shortest(block.grade)} {block.zone}"


class Inside(dict):
    """Whether a block this far along x is a predecessor, each distance tried once."""

    def __init__(self, *where):
        self.where = where

    def __missing__(self, dx):
        self[dx] = is_inside(*self.where, dx)
        return self[dx]


def lists_of(plan, blocks):
    """Returns the predecessors of each block: all blocks are tried."""
    rows, known, lists = {}, {}, []
    for number, block in enumerate(blocks):
        rows.setdefault(block.place[:2], []).append((number, block.place[2]))
    for (z, y, x), zone, *_ in blocks:
        above = []
        for (other_z, other_y), row in rows.items():
            where = zone, other_z - z, other_y - y
            inside = known.get(where) or known.setdefault(where, Inside(plan, *where))
            above += [number for number, other_x in row if inside[other_x - x]]
        lists.append(above)
    return lists


def mask_of(blocks):
    """Blocks as the bits of a number."""
    return sum(1 << block for block in blocks)


def retained_of(lists):
    """Returns for each list the blocks that are predecessors of no other one of it."""
    taken, retained = list(map(mask_of, lists)), []
    for one in lists:
        after = 0
        for other in one:
            after |= taken[other]
        retained.append([c for c in one if not after >> c & 1])
    return retained


def reaches(lists):
    """Returns for each block all to which a path of arcs leads."""
    found = [0] * len(lists)
    for n in reversed(range(len(lists))):
        for c in lists[n]:
            found[n] |= found[c] | 1 << c
    return found


def smallest_of(lists):
    """Returns the transitive reduction: for each list, the blocks to which no path goes from another one of it."""
    reached, smallest = reaches(lists), []
    for one in lists:
        after = 0
        for other in one:
            after |= reached[other]
        smallest.append([c for c in one if not after >> c & 1])
    return smallest


def prec_text(lists):
    return "".join(" ".join(map(str, [number, len(one), *one])) + "\n" for number, one in enumerate(lists))


def tonnes(block):
    return shortest(block.mass * 1000)


def model(plan, kind, objective, coefficients):
    """Yields the lines of a model file: its header, the values of each block, and its resources."""
    yield from shared.header(
        kind,
        name=plan["name"],
        blocks=len(objective),
        periods=plan["periods"],
        destinations=len(plan["destinations"]),
        resources=len(plan["resources"]),
        rate=shortest(scaled(plan["rate"], 10**6)),
    )
    yield "OBJECTIVE_FUNCTION:"
    yield from (f"{number} {values}" for number, values in enumerate(objective))
    if kind != "UPIT":
        yield from ["RESOURCE_CONSTRAINT_COEFFICIENTS:", *coefficients]
        yield "RESOURCE_CONSTRAINT_LIMITS:"
        for resource, period, letter, cells in sorted(plan["limits"]):
            ends = " ".join(shortest(scaled(cell, 10**6)) for cell in cells)
            yield f"{resource} {period} {letter} {ends}"


def compiled(text, files):
    """Returns the files by their extensions, or the line of the error."""
    plan = plan_of(text)
    blocks = blocks_of(plan, files)
    if isinstance(blocks, str):
        return blocks
    destinations = [(kind, cells) for kind, _, cells in plan["destinations"]]
    covers = [covered for _, covered in plan["resources"]]
    worths = [[worth(*destination, block) for destination in destinations] for block in blocks]
    dollars = [[shortest(cents * 10000) for cents in row] for row in worths]
    best = [row.index(max(row)) for row in worths]
    largest = [row[place] for row, place in zip(dollars, best)]
    held = [(number, tonnes(block)) for number, block in enumerate(blocks) if block.mass]
    pcpsp = [f"{number} {place} {resource} {mass}" for number, mass in held
             for place in range(len(destinations))
             for resource, covered in enumerate(covers) if place in covered]
    cpit = [f"{number} {resource} {mass}" for number, mass in held
            for resource, covered in enumerate(covers) if best[number] in covered]
    texts = [
        (block_line(number, block) for number, block in enumerate(blocks)),
        prec_text(lists_of(plan, blocks)).splitlines(),
        model(plan, "UPIT", largest, []),
        model(plan, "PCPSP", list(map(" ".join, dollars)), pcpsp),
        model(plan, "CPIT", largest, cpit),
    ]
    whole = ("".join(line + "\n" for line in lines) for lines in texts)
    return dict(zip(shared.ENDINGS, whole))


def thinned(text, files):
    """Returns what pitc_thin prints and writes. If all cones are the same, the transitive reduction is written."""
    plan = plan_of(text)
    lists = lists_of(plan, blocks_of(plan, files))
    retained = retained_of(lists)
    cones = {(tuple(Fraction(*slope) for slope in slopes), benches) for slopes, benches in plan["zones"]}
    assert retained == smallest_of(lists) if len(cones) == 1 else reaches(retained) == reaches(lists)
    arcs, retained_arcs = (sum(map(len, each)) for each in (lists, retained))
    return f"rows {len(lists)} arcs {retained_arcs} of {arcs}\n", prec_text(retained)


def main():
    base, plan, *zones = sys.argv[1:]
    result = compiled(shared.read(plan), list(map(shared.read, zones)))
    if isinstance(result, str):
        sys.exit(result.rstrip())
    shared.write_texts(base, result)


if __name__ == "__main__":
    main()
