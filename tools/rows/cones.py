"""Identifiers and cones: precedence files of worked examples and of random models.

The expected values of random models come from the test of all pairs; of a million blocks the arcs are counted. The others are counted
manually, or by a separate formula.
"""
import functools
import itertools
import math

from rows.instance import arcs_of, at, plain_texts, plan_of, sections, unlisted
from rows.trial import ANY, HEADER, Later, Part, Trial, lines, piped, refused, zone_file
from shared import ENDINGS, compile_arguments

ONE = plan_of()


def row(place, sizes):
    """Returns the row of a block at these indices, for these block sizes in millimetres."""
    metres = (shown(index * size) for index, size in zip(place, sizes))
    return ",".join([*metres, "1,0|"])


def shown(millimetres):
    return f"{millimetres // 1000}.{millimetres % 1000:03d}"


def rows_of(places, sizes):
    """Returns the zone file of blocks at these positions."""
    return HEADER + lines("".join(row(place, sizes) for place in places))


def under_a_box(low, wide, deep, benches, sizes=(10_000, 10_000, 10_000)):
    """Returns the zone file of a block of the lowest bench, and of a box of benches above it."""
    box = ((x, y, z + 1) for z in range(benches) for y in range(deep) for x in range(wide))
    return rows_of([(*low, 0), *box], sizes)


FIFTEEN_ABOVE = under_a_box((2, 1), 5, 3, 1)

TWO_HIGH = HEADER + b"0,0,0,1,0\n0,0,20,1,0\n"

# A plan, a zone file, and the lines of the precedence file.
LISTS = [
    ("nine_above", ONE, under_a_box((1, 1), 3, 3, 1), "0 5 2 4 5 6 8|" + unlisted(1, 10)),
    ("two_benches_up: one bench", ONE, TWO_HIGH, "0 0|1 0|"),
    ("two_benches_up: two benches", plan_of(cones=["1,1,2"]), TWO_HIGH, "0 1 1|1 0|"),
    (
        "unequal_sizes",
        plan_of(cones=["1,2,2"], grid="0,0,0,10,20,5"),
        under_a_box((2, 1), 5, 3, 2, (10_000, 20_000, 5_000)),
        "0 10 7 8 9 18 21 22 23 24 25 28|"
        "1 2 16 17|2 3 16 17 18|3 3 17 18 19|4 3 18 19 20|5 2 19 20|"
        "6 2 21 22|7 3 21 22 23|8 3 22 23 24|9 3 23 24 25|10 2 24 25|"
        "11 2 26 27|12 3 26 27 28|13 3 27 28 29|14 3 28 29 30|15 2 29 30|" + unlisted(16, 31),
    ),
    (
        "four_slopes",
        plan_of(cones=["1,2,1,1,1,1,1,1,1"]),
        FIFTEEN_ABOVE,
        "0 6 3 7 8 9 10 13|" + unlisted(1, 16),
    ),
    # sixteen hundred predecessors
    (
        "a_flat_cone",
        plan_of(cones=["1,1000,1"]),
        under_a_box((7, 9), 40, 40, 1),
        " ".join(map(str, ["0 1600", *range(1, 1601)])) + "|" + unlisted(1, 1601),
    ),
    # blocks without tonnage are predecessors, and have predecessors
    (
        "no_tonnage",
        plan_of(cones=["1,1,2"]),
        HEADER + b"0,0,0,0,0\n0,0,10,0,5\n0,0,20,1,0\n10,0,20,0,0\n",
        "0 3 1 2 3|1 2 2 3|2 0|3 0|",
    ),
    ("four_slopes: equal", ONE, FIFTEEN_ABOVE, "0 5 3 7 8 9 13|" + unlisted(1, 16)),
]

# Sizes of blocks, a cone, and distances in blocks along x, y and z: of those that are inside, some of them exactly on the boundary, and of
# those that are outside by the smallest possible amount.
CUBES, WIDE, METRES = (10_000,) * 3, (100_000,) * 3, (1_000,) * 3
BOUNDARIES = [
    (CUBES, "1,1,20", "3 4 5, 4 3 5, 5 0 5, 0 5 5, 0 0 5, 6 8 10, 12 16 20, 20 0 20, 14 14 20",
     "4 4 5, 5 1 5, 1 5 5, 6 0 5, 0 6 5, 6 9 10, 7 8 10, 12 17 20, 13 16 20, 21 0 20, 15 14 20"),
    (CUBES, "1,1,20", "0 0 1, 1 0 1, 0 9 9, 9 0 9, 7 5 9, 8 4 9, 0 10 10, 6 7 10, 0 11 11, 0 20 20",
     "1 1 1, 2 0 1, 0 10 9, 1 9 9, 7 6 9, 8 5 9, 1 10 10, 8 7 10, 0 12 11, 0 21 20"),
    (CUBES, "3,5,9", "5 0 3, 3 4 3, 15 0 9, 9 12 9", "6 0 3, 4 4 3, 3 5 3, 16 0 9, 15 1 9, 9 13 9"),
    (CUBES, "5,3,20", "3 0 5, 0 3 5, 6 0 10, 12 0 20", "4 0 6, 3 1 5, 1 1 2, 7 0 11, 12 1 20"),
    # quotients that floating point makes too large
    (CUBES, "3,17,6", "17 0 3, 0 17 3, 34 0 6, 0 34 6", "18 0 3, 17 1 3, 35 0 6, 1 34 6"),
    (CUBES, "3,59,6", "59 0 3, 0 59 3, 118 0 6", "60 0 3, 59 1 3, 119 0 6"),
    # one size changed by a millimetre
    ((10_001, 10_000, 10_000), "1,1,9", "0 1 1, 0 9 9, 8 3 9", "1 0 1, 9 0 9, 3 4 5"),
    ((10_000, 10_001, 10_000), "1,1,9", "1 0 1, 9 0 9, 3 8 9", "0 1 1, 0 9 9, 3 4 5"),
    ((10_000, 10_000, 9_999), "1,1,9", "0 0 1, 8 0 9, 6 6 9", "1 0 1, 0 1 1, 9 0 9, 3 4 5"),
    ((9_999, 9_999, 9_999), "1,1,9", "1 0 1, 0 1 1, 9 0 9, 3 4 5", "1 1 1, 4 4 5"),
    ((9_999, 9_999, 10_000), "1,1,9", "1 0 1, 3 4 5, 0 9 9", "1 1 1, 4 4 5, 10 0 9"),
    ((1, 1, 1), "1,1,9", "1 0 1, 3 4 5, 0 9 9", "1 1 1, 4 4 5, 10 0 9"),
    ((1, 2, 3), "1,1,9", "3 0 1, 0 1 1, 27 0 9, 0 13 9", "4 0 1, 0 2 1, 3 1 1, 28 0 9, 0 14 9"),
    # reaches that are no integer number of millimetres or blocks: their squares count
    ((1, 1, 1), "2,3,1", "0 0 1, 1 0 1, 0 1 1, 1 1 1", "2 0 1, 0 2 1, 2 1 1"),
    (CUBES, "2,3,1", "1 1 1, 1 0 1", "2 0 1, 2 1 1, 0 2 1"),
    (CUBES, "7,10,5", "1 1 1, 2 2 2, 3 3 3, 4 4 4, 5 5 5, 7 1 5, 4 1 3",
     "2 1 1, 2 2 1, 7 2 5, 6 4 5, 4 2 3"),
    ((3, 5, 7), "5,7,4", "3 0 1, 2 1 1, 6 1 2, 4 3 2, 10 5 4, 13 0 4",
     "3 1 1, 0 2 1, 4 4 2, 13 1 4, 11 5 4"),
    # squares of lengths that 32 bits make too small: 65,536 squared is none of them
    ((1, 1_000, 65_536), "1,1,2", "5 0 1, 0 65 1, 5 65 1, 9999 0 1, 5 131 2",
     "0 66 1, 5 66 1, 5 132 2"),
    ((1_000, 1, 65_536), "1,1,2", "0 5 1, 65 0 1, 65 5 1, 131 5 2", "66 0 1, 66 5 1, 132 5 2"),
    ((65_536, 65_536, 1), "1,1000,20", "0 0 1, 0 0 20", "1 0 20, 0 1 20, 1 1 20"),
    ((65_536, 32_768, 65_536), "1,1,9", "1 0 1, 0 2 1, 3 8 5, 4 6 5", "1 1 1, 0 3 1, 3 9 5, 5 2 5"),
    ((46_341, 46_341, 46_341), "1,1,9", "1 0 1, 3 4 5", "1 1 1, 4 4 5"),
    ((92_682, 92_681, 92_682), "1,1,9", "1 0 1, 0 1 1, 3 4 5", "1 1 1, 4 4 5"),
    # a rise or a run changed by 1
    (CUBES, "1000,1000,5", "1 0 1, 3 4 5", "2 0 1, 4 4 5"),
    (CUBES, "1000,999,5", "0 0 1, 4 0 5", "1 0 1, 0 1 1, 3 4 5"),
    (CUBES, "999,1000,5", "1 0 1, 3 4 5", "2 0 1, 4 4 5"),
    (CUBES, "1000,1,20", "0 0 1, 0 0 20", "1 0 20, 0 1 20"),
    # far away: the reach is a thousand blocks for each bench
    (WIDE, "1,1000,20", "5400 7200 9, 7200 5400 9, 9000 0 9, 0 9000 9, 9999 9798 14, 9999 9999 15",
     "5400 7201 9, 5401 7200 9, 9001 0 9, 0 9001 9, 9999 9799 14, 9999 9999 14, 9799 9999 14"),
    (WIDE, "1,1000,9", "9000 0 9, 1000 0 1, 0 1000 1", "9001 0 9, 1001 0 1, 0 1001 1, 0 0 10"),
    ((99_999, 100_000, 100_000), "1,1000,9", "9000 0 9", "9001 0 9, 0 9001 9, 5401 7200 9"),
    ((100_000, 100_000, 99_999), "1,1000,9", "8999 0 9, 5399 7199 9", "9000 0 9, 5400 7200 9"),
    ((200, 200, 100_000), "1000,1000,20", "500 0 1, 0 9500 19, 300 400 1, 9999 0 20, 6000 8000 20",
     "501 0 1, 0 9501 19, 300 401 1, 9999 9999 20, 6001 8000 20, 6000 8001 20"),
    (WIDE, "1000,1,20", "0 0 20", "1 0 20, 0 1 20, 9999 9999 20, 9999 9999 1, 4295 4295 1"),
    # outside by a part in 4 * 10^18, which floating point does not see
    ((100_000, 1, 100_000), "1,1,1,1,1,1000,1,1000,20", "20 0 20, 19 9 20", "20 1 20, 20 -1 20"),
    ((1, 100_000, 100_000), "1,1000,1,1000,1,1,1,1,20", "0 20 20, 9 19 20", "1 20 20, -1 20 20"),
    # a different slope on each side, those east and north three times as flat
    (METRES, "1,3,1,1,1,3,1,1,3",
     "3 0 1, 0 3 1, 9 0 3, 0 9 3, -1 0 1, 0 -1 1, -3 0 3, 6 6 3, 6 -2 3",
     "4 0 1, 0 4 1, -2 0 1, 0 -2 1, 10 0 3, -4 0 3, 7 6 3, 6 -3 3, -3 3 3, -3 -1 3"),
]

# Sizes, and p and q of the sides on which blocks are; blocks that are so far along x are inside up to some number along y.
REACHES = [
    ((99_999, 100_000, 99_998), (1, 1000), (1, 1000), 14),
    ((100_000, 99_991, 99_989), (1, 999), (1, 1000), 13),
    ((99_989, 99_991, 100_000), (2, 1000), (1, 997), 20),
    ((7, 99_999, 100_000), (1000, 997), (1, 991), 20),
    ((313, 50_021, 99_999), (998, 999), (3, 1000), 19),
]

# Four blocks out of order, each with other tonnes, and the lines of the block file.
OUT_OF_ORDER = HEADER + b"0,0,10,1,0\n10,0,0,2,0\n0,10,0,3,0\n0,0,0,4,0\n"

IN_ORDER = "0 0 0 0 4 0 0|1 1 0 0 2 0 0|2 0 1 0 3 0 0|3 0 0 1 1 0 0|"

REPEATED = HEADER + b"0,0,0,1,0\n", HEADER + b"10,0,0,1,0\n20,0,0,1,0\n0,0,0,1,0\n"

# Three zones, of which two may have equal cones, with p and q of +x, -x, +y and -y, and K; the
# sizes of blocks in millimetres.
MODELS = [
    ((10_000, 20_000, 5_000), ["1,2,2", "3,1,1,2,1,1,2,3,4", "1,2,2"]),
    ((7_500, 12_250, 3_125), ["1,3,1,1,2,1,1,1,20", "1,1,8", "1000,1,1,1000,7,3,2,5,3"]),
    ((1_000, 1_000, 100_000), ["20,1,3", "45,1,2", "1,1000,20"]),
]

# The start of a box, and its sizes: at either edge of the grid, and rows and columns one block wide.
SHAPES = [
    ((0, 0, 0), (11, 9, 8)),
    ((9989, 9991, 9992), (11, 9, 8)),
    ((0, 9000, 3), (1, 60, 6)),
    ((40, 7, 0), (60, 1, 6)),
]

FIRST_SEED = 20_130_701


def blocks_of(seed, begin, sizes):
    """Returns about three of four positions of a box, each with a random zone, in order of identifier."""
    state = seed
    for z, y, x in itertools.product(*map(range, reversed(sizes))):
        state = (state * 6_364_136_223_846_793_005 + 1_442_695_040_888_963_407) % 2**64
        if (state >> 60) % 4 != 0:
            yield (begin[0] + x, begin[1] + y, begin[2] + z), (state >> 40) % 3


def by_all_pairs(name, sizes, cones, blocks):
    """A model, and its texts by the plain computation, which tests all pairs."""
    grid = ",".join(["0,0,0", *map(shown, sizes)])
    plan = plan_of("mill,m,900,600,1500|", cones, "a", grid)
    zones = [[place for place, zone in blocks if zone == number] for number in range(len(cones))]
    files = [rows_of(places, sizes) for places in zones]
    return Trial(name, given=piped(plan, *files), out=sections(plain_texts(plan, *files)))


def by_hand(name, sizes, cones, low, above):
    """A block, and others at these distances, with which of them are its predecessors."""
    there = {tuple(a + b for a, b in zip(low, far)): inside for far, inside in above.items()}
    places = sorted(there, key=lambda place: place[::-1])
    ids = [str(number) for number, place in enumerate(places, 1) if there[place]]
    plan = plan_of(cones=cones, grid=",".join(["0,0,0", *map(shown, sizes)]))
    line = " ".join(["0", str(len(ids)), *ids])
    given = piped(plan, rows_of([low, *places], sizes))
    return Trial(name, given=given, out=Part(lines(f"== prec|{line}|1 ")))


def boundaries():
    """Blocks around the boundary of a cone: north-east of a block, and in the other three directions too if all of its sides are equal;
    at either edge of the grid."""
    for sizes, cone, inside, outside in BOUNDARIES:
        far = {tuple(map(int, place.split())): is_inside
               for is_inside, places in ((True, inside), (False, outside))
               for place in places.split(", ")}
        turns = itertools.product((1, -1), repeat=2) if cone.count(",") == 2 else [(1, 1)]
        for east, north in turns:
            above = {(x * east, y * north, z): is_inside for (x, y, z), is_inside in far.items()}
            margin = 0 if cone.count(",") == 2 else 20
            low = (margin if east > 0 else 9999, margin if north > 0 else 9999, 3)
            name = f"boundaries: {sizes}, {cone}, towards {east} {north}: {inside}"
            yield by_hand(name, sizes, [cone], low, above)


def reaches():
    """The last block inside and the first outside, by a square root."""
    for sizes, (px, qx), (py, qy), z in REACHES:
        sx, sy, sz = sizes
        above = {}
        for x in (0, 1, 5000, 9000, 9998, 9999):
            # (x sx px / qx)^2 + (y sy py / qy)^2 <= (z sz)^2
            rest = (z * sz * qx * qy) ** 2 - (x * sx * px * qy) ** 2
            most = math.isqrt(rest) // (sy * py * qx) if rest >= 0 else -1
            for y in (0, most, most + 1, 9999):
                if 0 <= y <= 9999:
                    above[x, y, z] = y <= most
        steep = "1000,1"
        for place, (east, north) in enumerate(itertools.product((1, -1), repeat=2)):
            slopes = [steep] * 4
            slopes[0 if east > 0 else 1] = f"{px},{qx}"
            slopes[2 if north > 0 else 3] = f"{py},{qy}"
            turned = {(x * east, y * north, z): is_inside for (x, y, z), is_inside in above.items()}
            low = (0 if east > 0 else 9999, 0 if north > 0 else 9999, 0)
            name = f"reaches: {sizes}, {px}:{qx} and {py}:{qy}, quarter {place}"
            yield by_hand(name, sizes, [",".join([*slopes, "20"])], low, turned)


def sides():
    """Nine blocks above one, whose sides are flat or steep: those towards flat sides are inside, and a corner between two of them only
    if they are very flat."""
    flats = itertools.product((True, False), repeat=4)
    for slope, flat in itertools.product(("1,2", "1,1"), flats):
        east, west, north, south = flat
        above = {}
        for x, y in itertools.product((-1, 0, 1), repeat=2):
            is_flat = {1: east, 0: True, -1: west}[x] and {1: north, 0: True, -1: south}[y]
            above[x, y, 1] = is_flat and (slope == "1,2" or x * y == 0)
        cone = ",".join([*(slope if side else "2,1" for side in flat), "1"])
        if any(flat) or slope == "1,2":
            yield by_hand(f"sides: {cone}", CUBES, [cone], (5, 5, 0), above)


def columns():
    """A column of 30 blocks, each below its K others, also with some that have no tonnage; then 64 columns, each of a zone with another
    K."""
    for benches in range(1, 21):
        rows = "".join(f"0,0,{z}0,{z % 2},0|" for z in range(30))
        prec = "".join(upwards(z, 1, min(benches, 29 - z)) for z in range(30))
        plan = plan_of(cones=[f"1,1,{benches}"])
        part = Part(lines(f"== prec|{prec}== upit|"))
        yield Trial(f"columns: K = {benches}", given=piped(plan, HEADER + lines(rows)), out=part)
    ks = [zone * 7 % 20 + 1 for zone in range(64)]
    zones = [HEADER + lines("".join(f"{zone * 1000},0,{z}0,1,0|" for z in range(25)))
             for zone in range(64)]
    prec = "".join(upwards(z * 64 + zone, 64, min(ks[zone], 24 - z))
                   for z in range(25) for zone in range(64))
    part = Part(lines(f"== prec|{prec}== upit|"))
    plan = plan_of(cones=[f"1,1,{k}" for k in ks])
    yield Trial("columns: 64 zones, each with its own K", given=piped(plan, *zones), out=part)


def upwards(block, step, count):
    """Returns the line of a block below this number of others, with this distance between each two."""
    above = (block + step * up for up in range(1, count + 1))
    return " ".join(map(str, [block, count, *above])) + "|"


# Worked out manually, each block in another file: cubes of a millimetre, a rise of 2 over a run of 3, and the corner of the bench above;
# and blocks of 0.001, 1 and 65.536 m, 5 blocks along x.
MILLIMETRES = "0.001,0.001,0.001"
CORNERS = [
    ("the corner of a bench", MILLIMETRES, "2,3,1", "0,0,0", MILLIMETRES, "0 1 1|1 0|"),
    ("the corner, steeper", MILLIMETRES, "3,4,1", "0,0,0", MILLIMETRES, "0 0|1 0|"),
    ("five blocks along x", "0.001,1,65.536", "1,1,1", "0,0,0", "0.005,0,65.536", "0 1 1|1 0|"),
    ("five blocks along y", "1,0.001,65.536", "1,1,1", "0,0.005,0", "0,0,65.536", "0 1 1|1 0|"),
]


def by_compile():
    """Two blocks, of which the upper one may be a predecessor, by both forms: one file, and two."""
    for name, sizes, cone, low, high, prec in CORNERS:
        plan, rows = plan_of(cones=[cone], grid=f"0,0,0,{sizes}"), [f"{low},1,0", f"{high},1,0"]
        part = Part(lines(f"== prec|{prec}== upit|"))
        yield Trial(f"by_compile: {name}", given=piped(plan, zone_file(*rows)), out=part)
        plan = plan_of(cones=[cone, "1000,1,20"], grid=f"0,0,0,{sizes}")
        files = {"plan": plan, "0": zone_file(rows[0]), "1": zone_file(rows[1])}
        left = at("b", {**dict.fromkeys(ENDINGS, ANY), "prec": lines(prec)})
        arguments = compile_arguments("plan", "b", ["0", "1"])
        given = {"arguments": arguments, "files": files, "left": left}
        yield Trial(f"by_compile: {name}, two files", out=b"rows 2\n", **given)


def no_blocks():
    """No block, so no line, by both forms."""
    given = piped(ONE, HEADER)
    yield Trial("no_blocks", given=given, out=Part(lines("== blocks|== prec|== upit|")))
    left = at("b", {**dict.fromkeys(ENDINGS, ANY), "blocks": b"", "prec": b""})
    files, arguments = {"plan": ONE, "0": HEADER}, compile_arguments("plan", "b", ["0"])
    yield Trial("no_blocks, by compile", arguments=arguments, files=files, out=b"rows 0\n", left=left)


def million_blocks(name):
    """A box of a million blocks."""
    places = itertools.product(range(25), range(200), range(200))
    rows = "".join(f"{x}0,{y}0,{z}0,1,0|" for z, y, x in places)
    counts = "blocks 1000000 arcs 4780800 coefficients 0 limits 0 cpit 0"
    return arcs_of(name, counts, ONE, HEADER + lines(rows))


def trials():
    for name, plan, zone, prec in LISTS:
        part = Part(lines(f"== prec|{prec}== upit|"))
        yield Trial(name, given=piped(plan, zone), out=part)
    yield from boundaries()
    yield from reaches()
    yield from sides()
    yield from columns()
    part = Part(lines(f"== blocks|{IN_ORDER}== prec|"))
    yield Trial("blocks_out_of_order", given=piped(ONE, OUT_OF_ORDER), out=part)
    given = piped(plan_of(cones=["1,1,1"] * 2), *REPEATED)
    line = "file 1 row 4 repeats file 0 row 2"
    yield refused("same_block_in_two_files", line, given=given)
    models = itertools.product(MODELS, SHAPES)
    for seed, ((sizes, cones), box) in enumerate(models, FIRST_SEED):
        made = functools.partial(by_all_pairs, sizes=sizes, cones=cones, blocks=list(blocks_of(seed, *box)))
        yield Later(f"as_by_all_pairs: seed {seed}", made)
    yield from by_compile()
    yield from no_blocks()
    yield Later("million_blocks", million_blocks)
