"""What pitc_thin writes and reports, by a plain computation of the retained arcs, separate from the program's.

Its rows are run by the program pitc_thin, which is built next to pitc. rows.thin_files has the rows on its arguments, on invalid inputs and
on the file that it writes.
"""
import itertools
import random

from plain import prec_text, reaches, retained_of, smallest_of
from rows import combined, fullest, thin_files
from rows.cells import shortest
from rows.cones import BOUNDARIES
from rows.trial import Later, Trial, zone_file

PLAN = """name,one
grid,{grid}
{zones}
mill,mill,900,600,1500
periods,1
rate,0.1
"""

# This number of blocks takes no time.
FEW = 80

# The tonnes and the grade of each block; and a list of which some have no tonnage, or are worth nothing, more or less.
ALIKE = ["1,0"]
UNLIKE = ["0,0", "1,0", "1000,5000", "0,7", "0.001,2777.777778", "1000000,1000000", "9,2777"]


def millimetres(metres):
    return [round(1000 * part) for part in metres]


def takes_in(sizes, cone, low, high):
    """Returns whether a block is in the cone of another: slopes of +x, -x, +y and -y as pairs, then K."""
    east, west, north, south, benches = cone
    dx, dy, dz = (h - l for l, h in zip(low, high))
    if not 0 < dz <= benches:
        return False
    p, q = east if dx > 0 else west
    r, s = north if dy > 0 else south
    weights = sizes[0] * p * s, sizes[1] * r * q, sizes[2] * q * s
    return (dx * weights[0]) ** 2 + (dy * weights[1]) ** 2 <= (dz * weights[2]) ** 2


def lists_of(sizes, cones, zones):
    """Returns the list of each block of zones, by identifier: all blocks up to K benches higher are tried, and each distance once."""
    blocks = sorted((place[::-1], zone) for zone, places in enumerate(zones) for place in places)
    benches, inside, lists = {}, [{} for _ in cones], []
    for number, ((z, y, x), _) in enumerate(blocks):
        benches.setdefault(z, []).append((number, x, y))
    for (z, y, x), zone in blocks:
        cone, known, found = cones[zone], inside[zone], []
        for bench in range(z + 1, z + cone[-1] + 1):
            for number, other_x, other_y in benches.get(bench, ()):
                far = other_x - x, other_y - y, bench - z
                if far not in known:
                    known[far] = takes_in(sizes, cone, (0, 0, 0), far)
                if known[far]:
                    found.append(number)
        lists.append(found)
    return lists


def text_of(lists):
    return prec_text(lists).encode()


def cone_of(cells):
    """The slopes and K of a zone record's numbers."""
    numbers = list(map(int, cells.split(",")))
    slopes = list(zip(numbers[:-1:2], numbers[1::2]))
    return (*slopes * (4 // len(slopes)), numbers[-1])


def box(xs, ys, zs, holes=()):
    """Returns all positions of a box except its holes."""
    return [(x, y, z) for z in zs for y in ys for x in xs if (x, y, z) not in holes]


def rows_of(places, sizes, origin, masses):
    """Returns the rows of blocks at these positions, with the tonnes and grades of these in turn."""
    for place, mass in zip(places, itertools.cycle(masses)):
        metres = (shortest(o + at * size, 3) for o, at, size in zip(origin, place, sizes))
        yield ",".join([*metres, mass])


def written(text, lists):
    """Returns what a run writes to the file `thin` and reports, for blocks with these lists."""
    counts = len(lists), text.count(b" ") - len(lists), sum(map(len, lists))
    return {"out": b"rows %d arcs %d of %d\n" % counts, "left": {"thin": text}}


def thinned(name, cells, zones, *given, **how):
    """A row that is made so, which takes long for many blocks."""
    if sum(map(len, zones)) <= FEW:
        return made(name, cells, zones, *given, **how)
    return Later(name, lambda name: made(name, cells, zones, *given, **how))


def made(name, cells, zones, sizes=(10, 10, 10), arguments=(), origin=(0, 0, 0), masses=ALIKE):
    """A run that writes the retained arcs of zones with these cells in the plan. Sizes and origin are in metres."""
    cones = list(map(cone_of, cells))
    lists = lists_of(millimetres(sizes), cones, zones)
    left, smallest = retained_of(lists), smallest_of(lists)
    assert reaches(left) == reaches(smallest) == reaches(lists)
    assert all(set(few) <= set(some) for few, some in zip(smallest, left))
    assert left == smallest or len(set(cones)) > 1
    grid = ",".join(map(str, [*origin, *sizes]))
    plan = PLAN.format(grid=grid, zones="\n".join("zone," + cell for cell in cells))
    paths = {f"zone{number}": places for number, places in enumerate(zones)}
    files = {path: zone_file(*rows_of(places, *map(millimetres, (sizes, origin)), masses))
             for path, places in paths.items()}
    return Trial(
        name, arguments=["--plan", "plan", "--out", "thin", *arguments, *paths],
        files={"plan": plan.encode(), **files}, **written(text_of(left), lists))


def of_zones():
    whole = box(range(5), range(5), range(5))
    yield thinned("no block", ["1,1,8"], [[]])
    yield thinned("one block", ["1,1,8"], [[(0, 0, 0)]])
    yield thinned("one bench", ["1,1,8"], [box(range(6), range(6), [3])])
    yield thinned("K of 1 drops nothing", ["1,1,1"], [whole])
    yield thinned("K of 2", ["1,1,2"], [whole])
    yield thinned("K of 20", ["1,1,20"], [box(range(9), range(9), range(22))])
    yield thinned("a column at K of 20", ["1,1,20"], [box([0], [0], range(30))])
    yield thinned("a hole", ["1,1,5"], [box(range(5), range(5), range(5), {(2, 2, 1), (2, 2, 2)})])
    yield thinned("a bench that is not there", ["1,1,5"], [box(range(5), range(5), [0, 1, 3, 4])])
    yield thinned("a hole of eight benches at K of 20", ["1,1,20"], [box(range(5), range(5), [0, *range(9, 13)])])
    yield thinned("cones wider than fifteen blocks", ["1,8,2"], [box(range(36), range(3), range(3))])
    yield thinned("four slopes", ["1,1,2,1,1,2,3,2,6"], [whole])
    yield thinned("flat blocks", ["1,2,6"], [box(range(7), range(7), range(4))], (20, 20, 10))
    beside = [box(range(3), range(6), range(5)), box(range(3, 6), range(6), range(5))]
    yield thinned("unlike slopes and K next to one another", ["1,1,2", "2,1,5"], beside)
    over = [box(range(6), range(6), range(3)), box(range(6), range(6), range(3, 6))]
    yield thinned("unlike slopes and K above one another", ["1,1,5", "2,1,2"], over)
    yield thinned("the flatter zone above", ["2,1,4", "1,2,3"], over)
    for arguments in (["--valuers", "1", "--capacity", "1"], ["--valuers", "64"]):
        yield thinned(" ".join(arguments), ["1,1,3"], [whole], arguments=arguments)


# The sizes and the cone of full rock with these reaches to each side, and how many arcs the block in its middle has, four benches below its
# top: all, and the retained ones, as they were counted separately.
FULL_ROCK = [
    ((10, 10, 10), "1,1,4", 4, 96, 9), ((20, 20, 10), "3,2,4", 2, 12, 5),
    ((15, 15, 12), "1,1,4", 4, 68, 33), ((25, 25, 15), "4,5,4", 4, 60, 25),
]


def of_full_rock():
    for sizes, cells, side, whole, left in FULL_ROCK:
        bench = range(2 * side + 1)
        places = [(side, side, 0), *box(bench, bench, range(1, 5))]
        lists = lists_of(sizes, [cone_of(cells)], [places])
        assert (len(lists[0]), len(retained_of(lists)[0])) == (whole, left)
        yield thinned(f"full rock: {cells} of {sizes}", [cells], [places], sizes)


# Zones' cones, their blocks, the retained arcs of the first block, and what the transitive reduction has of them.
COLUMN = [(0, 0, z) for z in range(4)]
UNLIKE_CONES = [
    ("a column of K = 3 below K = 1", ["1,1,3", "1,1,1"], [COLUMN[:1], COLUMN[1:]], [1], [1]),
    ("a column of K = 1 below K = 3", ["1,1,1", "1,1,3"], [COLUMN[:1], COLUMN[1:]], [1], [1]),
    ("a column, K = 3 and 1 by turns", ["1,1,3", "1,1,1"], [COLUMN[::2], COLUMN[1::2]], [1], [1]),
    ("after two that are dropped", ["1,1,4", "1,1,1"], [COLUMN[:1], [*COLUMN[1:], (0, 0, 4)]], [1], [1]),
    ("a hole over K = 1", ["1,1,3", "1,1,1"], [COLUMN[:1], [COLUMN[1], COLUMN[3]]], [1, 2], [1, 2]),
    ("a way out of a steep cone and back", ["10,1,3", "1,2,1"], [COLUMN[:1], [COLUMN[1], (1, 0, 2), COLUMN[3]]], [1, 3], [1]),
]


def of_unlike_cones():
    """Zones whose cones differ: retained arcs worked out manually; and layers, sides, benches and holes, for which dropping only what
    follows retained arcs would keep more."""
    for name, cells, zones, left, smallest in UNLIKE_CONES:
        lists = lists_of([10_000] * 3, list(map(cone_of, cells)), zones)
        assert (retained_of(lists)[0], smallest_of(lists)[0]) == (left, smallest)
        yield thinned(f"unlike cones: {name}", cells, zones)
    side, benches = range(7), range(8)
    whole = box(side, side, benches)
    holes = random.Random(86).sample(whole, len(whole) // 8)
    for of_holes, places in (("", whole), (", holes", [place for place in whole if place not in holes])):
        for name, cells, zone_of in [
            ("two layers", ["3,1,6", "1,1,6"], lambda place: int(place[2] > 3)),
            ("two layers, turned round", ["1,1,6", "3,1,6"], lambda place: int(place[2] > 3)),
            ("three layers", ["1,2,7", "1,1,3", "3,1,5"], lambda place: place[2] // 3),
            ("K = 7 below K = 1", ["1,1,7", "1,1,1"], lambda place: int(place[2] > 1)),
            ("next to one another", ["1,1,2", "2,1,6"], lambda place: int(place[0] > 3)),
            ("in quarters", ["1,1,6", "2,1,3", "1,2,2", "1,1,1"], lambda place: 2 * int(place[0] > 3) + int(place[1] > 2)),
            ("K = 1 and 6 by turns", ["1,1,1", "1,1,6"], lambda place: place[2] % 2),
            ("K = 6, 1 and 3 by turns", ["1,1,6", "1,1,1", "1,1,3"], lambda place: place[2] % 3),
            ("four slopes over others", ["1,1,2,1,1,2,3,2,5", "2,1,1,1,1,1,1,2,4"], lambda place: int(place[2] > 2)),
        ]:
            zones = [[place for place in places if zone_of(place) == zone] for zone in range(len(cells))]
            yield thinned(f"unlike cones: {name}{of_holes}", cells, zones)
    yield thinned("unlike cones: one bench", ["1,1,3", "1,2,5"], [box(side, range(3), [0]), box(side, range(3, 7), [0])])


def of_random_zones():
    for seed in range(60):
        chance = random.Random(seed)
        cells, zones = [], [[] for _ in range(chance.randrange(1, 4))]
        for _ in zones:
            slopes = [str(chance.randrange(1, 4)) for _ in range(chance.choice([2, 8]))]
            cells.append(",".join([*slopes, str(chance.randrange(1, 7))]))
        for place in box(range(5), range(5), range(6)):
            if chance.random() < 0.8:
                chance.choice(zones).append(place)
        sizes = tuple(chance.choice([5, 10, 20]) for _ in range(3))
        yield thinned(f"random zones {seed}", cells, zones, sizes)


def of_long_rows():
    """Rows of many blocks along x, in which the retained arcs of one block are those of the next blocks too, up to a hole, a side or
    another cone, in the block's own row or in one of those above."""
    along = range(26)
    whole = box(along, range(3), range(4))
    for cells in ("1,1,3", "1,2,2", "2,1,3", "1,1,2,1,1,2,3,2,3", "1,9,1"):
        yield thinned(f"long rows: full, {cells}", [cells], [whole])
        for hole in [(12, 1, 0), (12, 1, 1), (13, 0, 2), (9, 2, 3), (0, 1, 1), (25, 1, 1), (24, 1, 2)]:
            yield thinned(f"long rows: {cells}, a hole at {hole}", [cells], [[place for place in whole if place != hole]])
    skew = [(x + y + 2 * z, y, z) for x, y, z in whole]
    yield thinned("long rows: each further east", ["1,1,3"], [skew])
    yield thinned("long rows: from the end of the grid", ["1,1,3"], [[(x + 9974, y, z) for x, y, z in whole]])
    yield thinned("long rows: two benches apart", ["1,1,3"], [[(x, y, 2 * z) for x, y, z in whole]])
    for name, zone_of in [
        ("the east", lambda x, y, z: x > 12), ("the east above", lambda x, y, z: x > 12 and z > 1), ("the east below", lambda x, y, z: x > 12 and z < 1),
        ("one block", lambda x, y, z: (x, y, z) == (13, 1, 1)), ("one block on top", lambda x, y, z: (x, y, z) == (13, 1, 3)),
        ("each third", lambda x, y, z: x % 3 == 0), ("one row", lambda x, y, z: (y, z) == (1, 1)), ("a bench", lambda x, y, z: z == 2),
    ]:
        zones = [[place for place in whole if zone_of(*place) == other] for other in (False, True)]
        for cells in (["1,1,3", "2,1,2"], ["1,1,1", "1,2,3"], ["1,1,3", "1,1,3"]):
            yield thinned(f"long rows: {name}, {cells}", cells, zones)
    for seed in range(40):
        chance = random.Random(seed)
        cells = [f"1,{chance.randrange(1, 3)},{chance.randrange(1, 4)}" for _ in range(chance.randrange(1, 4))]
        zones = [[] for _ in cells]
        for z in range(chance.randrange(2, 5)):
            for y in range(chance.randrange(1, 4)):
                zone = chance.choice(zones)
                for x in range(chance.randrange(3), chance.randrange(20, 30)):
                    if chance.random() < 0.07:
                        zone = chance.choice(zones)
                    if chance.random() > 0.02:
                        zone.append((x, y, z))
        yield thinned(f"long rows: random {seed}", cells, zones)


def of_masses():
    """What a block holds or is worth decides on no arc."""
    whole, cells = box(range(5), range(5), range(5)), ["1,1,2", "1,1,5", "1,1,2,1,1,2,3,2,6"]
    for cell in cells:
        yield thinned(f"masses: unlike, {cell}", [cell], [whole], masses=UNLIKE)
    for mass in UNLIKE:
        yield thinned(f"masses: {mass} each", ["1,1,3"], [whole], masses=[mass])
        others = ["5,0", *[mass] * 2]
        yield thinned(f"masses: {mass}, two of three", ["1,2,3"], [whole], masses=others)
    middle = [[(0, 0, 0)], [(0, 0, 1)], [(0, 0, 2), (1, 0, 2)]]
    for turn in range(3):
        masses = ["0,0", "1,0", "1,5000"][turn:] + ["0,0", "1,0", "1,5000"][:turn]
        yield thinned(f"masses: zones, {masses}", ["1,1,2"] * 3, middle, masses=masses)


def of_orders():
    """Rows in no order, within a zone file and over them."""
    whole = box(range(5), range(5), range(5))
    yield thinned("orders: from the last to the first", ["1,1,4"], [whole[::-1]])
    for seed in range(4):
        places = random.Random(seed).sample(whole, len(whole))
        yield thinned(f"orders: {seed}", ["1,1,4"], [places], masses=UNLIKE)
        parts = [places[:50], places[50:90], places[90:]]
        yield thinned(f"orders: three zones, {seed}", ["1,1,4", "2,1,3", "1,2,2"], parts)


def of_many_zones():
    """Zones with different slopes and K, some of them without a block."""
    for count in (4, 5, 20, 64):
        chance = random.Random(count)
        cells = [f"{chance.randrange(1, 4)},{chance.randrange(1, 4)},{zone % 20 + 1}" for zone in range(count)]
        zones = [[] for _ in cells]
        for place in box(range(6), range(6), range(7)):
            chance.choice(zones[: count - count // 10]).append(place)
        yield thinned(f"{count} zones", cells, zones)
        yield thinned(f"{count} zones, turned round", cells[::-1], zones[::-1], masses=UNLIKE)


def of_places():
    """Origins and sizes of many kinds, at either end of the grid; and blocks around the boundary of a cone, below blocks of a steep and
    of a flat zone."""
    near, far = box(range(5), range(5), range(5)), box(range(9995, 10_000), range(9995, 10_000), range(9995, 10_000))
    for origin, sizes in [
        ((-30.5, -1000000000, 999999999.5), (0.5, 100, 0.001)), ((0.001, -0.001, -5), (12.25, 7.5, 3.125)),
        ((1000000000, -0.5, 0), (0.001, 0.002, 0.003)), ((0, 0, 0), (100, 99.999, 65.536)),
    ]:
        cells = [f"1,{max(1, min(1000, round(2 * max(sizes[:2]) / sizes[2])))},4"]
        for name, places in (("near", near), ("far", far)):
            yield thinned(f"places: {origin}, {sizes}, {name}", cells, [places], sizes, origin=origin)
    for number, (sizes, cone, inside, outside) in enumerate(BOUNDARIES):
        at = 0 if cone.count(",") == 2 else 20
        ups = [tuple(map(int, place.split())) for place in f"{inside}, {outside}".split(", ")]
        above = [(at + x, at + y, 3 + z) for x, y, z in dict.fromkeys(ups)]
        for other in ("1000,1,1", "1,3,2"):
            name = f"places: boundary {number}, {sizes}, {cone}, below {other}"
            metres = tuple(size / 1000 for size in sizes)
            yield thinned(name, [cone, other], [[(at, at, 3)], above], metres)


def of_wide_cones():
    """Hundreds of retained arcs of a block, all of which cover."""
    low = [(10, 10, 0)]
    for name, cells, zones in [
        ("12 x 12 x 3", ["1,5,2"], [box(range(12), range(12), range(3))]),
        ("14 x 14 x 4", ["1,3,3"], [box(range(14), range(14), range(4))]),
        ("below two benches of 20 x 20", ["1,100,2"], [low + box(range(20), range(20), (1, 2))]),
        ("below two benches, the upper one wider", ["1,30,2", "1,4,1"],
         [low, box(range(8, 13), range(8, 13), [1]) + box(range(22), range(22), [2])]),
        ("below three benches of a steep zone", ["1,30,3", "1,1,2"],
         [low, box(range(18), range(18), range(1, 4))]),
    ]:
        yield thinned(f"wide cones: {name}", cells, zones, masses=UNLIKE)


def of_holes():
    """Half of the blocks of a box: neighbours differ from block to block."""
    for name, cells, places in [
        ("1 : 30", ["1,30,3"], box(range(24), range(24), range(4))),
        ("1 : 4 among 1 : 2", ["1,4,3", "1,2,5"], box(range(18), range(18), range(6))),
    ]:
        chance = random.Random(name)
        zones = [[] for _ in cells]
        for place in chance.sample(places, len(places) // 2):
            zones[sum(place) % len(zones)].append(place)
        yield thinned(f"half of the blocks: {name}", cells, zones, masses=UNLIKE)


def of_many_neighbourhoods():
    """Different cones so wide that few blocks have neighbours like those of others."""
    places = box(range(14), range(14), range(12))
    for name, zone_of in [("by turns", lambda place: place[2] % 3), ("next to one another", lambda place: place[0] // 5)]:
        zones = [[place for place in places if zone_of(place) == zone] for zone in range(3)]
        yield thinned(f"many neighbourhoods: {name}", ["1,2,12", "1,1,12", "2,1,12"], zones, sizes=(15, 15, 12))


def dealt(places, count, seed):
    """Blocks dealt to zones at random."""
    chance, zones = random.Random(seed), [[] for _ in range(count)]
    for place in places:
        chance.choice(zones).append(place)
    return zones


def of_windows():
    """Rows that are as long as the program's windows of 64 blocks, and a little longer or shorter; windows that begin at a gap, end at one,
    or have one block; blocks at the ends of what a window sees; and different cones dealt at random in a row."""
    for wide in (63, 64, 65, 127, 128, 129, 192, 193):
        whole = box(range(wide), range(2), range(3))
        yield thinned(f"windows: rows of {wide}", ["1,1,2"], [whole])
        yield thinned(f"windows: rows of {wide}, from 9999 down", ["1,2,2"], [[(9999 - x, 9999 - y, z) for x, y, z in whole]])
        for count in (2, 16):
            cells = [f"{1 + zone % 2},{1 + zone % 3},{1 + zone % 4}" for zone in range(count)]
            yield thinned(f"windows: {count} cones at random in rows of {wide}", cells, dealt(whole, count, wide))
    whole = box(range(140), [0], range(3))
    for gap in [
        (1, 64), (1, 65), (1, 66), (63, 64), (63, 65), (64, 65), (64, 66), (60, 70), (10, 127), (10, 129), (126, 128), (128, 129),
    ]:
        for bench in range(2):
            places = [(x, y, z) for x, y, z in whole if z != bench or x not in range(*gap)]
            yield thinned(f"windows: bench {bench}, a gap of {gap}", ["1,2,2"], [places])
            yield thinned(f"windows: bench {bench}, another cone in {gap}", ["1,2,2", "2,1,1"], [places, sorted({*whole} - {*places})])
    for far in (1, 62, 63, 64, 65, 126, 127, 128, 129):
        low, flat = box(range(400, 464), [0], [0]), f"1,{far},2"
        for side, x in (("east", 463 + far), ("west", 400 - far)):
            yield thinned(f"windows: one block {far} to the {side}", [flat], [[*low, (x, 0, 1)]])
            yield thinned(f"windows: two blocks {far} to the {side}", [flat], [[*low, (x, 0, 1), (2 * x - 431, 0, 2), (431, 0, 2)]])
            yield thinned(f"windows: one block {far} to the {side}, of another cone", [flat, "3,1,1"], [low, [(x, 0, 1), (x, 0, 2)]])
    for cells in ("1,1,20", "1,3,20", "1,1000,20"):
        yield thinned(f"windows: one block a row, {cells}", [cells], [box([0], range(30), range(8))])
        yield thinned(f"windows: missing benches, {cells}", [cells], [box(range(70), [0], [0, 3, 9, 19, 20, 21])])
        corners = box([0, 1, 9998, 9999], [0, 9999], [0, 1, 19, 20, 21, 9999])
        yield thinned(f"windows: corners of the grid, {cells}", [cells], [corners])
    yield thinned("windows: one bench", ["1,5,3"], [box(range(130), range(2), [9])])
    for cells in (["1,1,4"] * 64, [f"{1 + zone % 3},{1 + zone % 5},{1 + zone % 8}" for zone in range(64)]):
        yield thinned(f"windows: 64 zones, {len(set(cells))} cones", cells, dealt(box(range(130), [0, 1], range(3)), 64, 1))


def of_fullest():
    """A plan that holds as much as it may, plain and with keys in mixed letters."""
    lists = [list(map(int, line.split()[2:])) for line in fullest.TEXTS["prec"].splitlines()]
    zones = {f"zone{number}": text for number, text in enumerate(fullest.ZONES)}
    for number, plan in enumerate([fullest.PLAN, *fullest.DRESSED]):
        yield Trial(
            f"as much as a plan may hold, {number}", arguments=["--plan", "plan", "--out", "thin", *zones],
            files={"plan": plan, **zones}, **written(text_of(retained_of(lists)), lists))


def cross(side, z, y, x):
    """Returns the list of a block of a box of this side: itself and its four sides, a bench higher."""
    places = [(x, y - 1), (x - 1, y), (x, y), (x + 1, y), (x, y + 1)]
    return [((z + 1) * side + b) * side + a for a, b in places if 0 <= a < side and 0 <= b < side]


def of_crosses(name, side=160):
    """Three square benches at K = 2 and 1 : 1: a block has a cross on the next bench, and a disc of 13 blocks above it, all of which
    follow."""
    places = box(range(side), range(side), range(3))
    left = [cross(side, z, y, x) if z < 2 else [] for x, y, z in places]
    disc = [(x, y) for x in range(-2, 3) for y in range(-2, 3) if x * x + y * y <= 4]
    crosses = 2 * (5 * side * side - 4 * side)
    arcs = crosses + sum((side - abs(x)) * (side - abs(y)) for x, y in disc)
    reported = b"rows %d arcs %d of %d\n" % (len(places), crosses, arcs)
    rows = zone_file(*(f"{x}0,{y}0,{z}0,1,0" for x, y, z in reversed(places)))
    plan = PLAN.format(grid="0,0,0,10,10,10", zones="zone,1,1,2").encode()
    return Trial(
        name, arguments=["--plan", "plan", "--out", "thin", "zone0"],
        files={"plan": plan, "zone0": rows}, out=reported, left={"thin": text_of(left)})


def of_large_models():
    """A model of more than 65,536 blocks."""
    by_pairs = made("", ["1,1,2"], [box(range(7), range(7), range(3))])
    assert of_crosses("", 7)._replace(files={}) == by_pairs._replace(files={})
    yield Later("three benches of 160 x 160", of_crosses)


def trials():
    yield from of_zones()
    yield from of_full_rock()
    yield from of_unlike_cones()
    yield from of_random_zones()
    yield from of_long_rows()
    yield from of_masses()
    yield from of_orders()
    yield from of_many_zones()
    yield from of_places()
    yield from of_wide_cones()
    yield from of_holes()
    yield from of_many_neighbourhoods()
    yield from of_windows()
    yield from of_fullest()
    yield from of_large_models()
    yield from thin_files.trials()
    yield from combined.rows_by(is_thin=True)
