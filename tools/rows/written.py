"""What the texts show of a plan: its numbers and names, values, coefficients and limits.

What is not written out here comes from a separate formula, or from the plain computation.
"""
import itertools

from rows import fullest
from rows.cells import CUT, Cell, shortest, formatted, unusual, with_cell
from rows.instance import arcs_of, heading, plain_texts, plan_of, sections
from rows.trial import HEADER, Parts, Trial, lines, piped, short, zone_file


def small(destinations, rest="periods,1|rate,0|", name="n", grid="0,0,0,1,1,1"):
    """A plan of blocks of a cubic metre."""
    return plan_of(destinations, name=name, grid=grid, rest=rest)


# A tonne that holds 5 kg of metal.
ONE_BLOCK = b"0,0,0,1,5000\n"

# Limits are written by resource and period, and coefficients by destination and resource, whatever
# their order in the plan.
TWO_RESOURCES = lines(
    "periods,2|rate,0|name,n|grid,0,0,0,1,1,1|zone,1,1,1|dump,a,1|dump,b,1|"
    "resource,r,b,a|resource,s,a|limit,s,0,G,0.5|limit,r,1,I,0,900|limit,r,0,L,500.5|"
)
LIMITS_IN_ORDER = "RESOURCE_CONSTRAINT_LIMITS:|0 0 L 500.5|0 1 I 0 900|1 0 G 0.5|== cpit|"
MASSES = "RESOURCE_CONSTRAINT_COEFFICIENTS:|0 0 0 1|0 0 1 1|0 1 0 1|RESOURCE_CONSTRAINT_LIMITS:|"

LONGEST = "n" * 64

# The cells of a grid, and a row whose block has the indices 1, 2 and 3.
GRIDS = [
    ("-30.5,-1000000000,999999999.5,0.5,100,0.001", "-30,-999999800,999999999.503"),
    ("0.001,-0.001,-5,10,20,5", "10.001,39.999,10"),
    ("1000000000,-0.5,0,0.001,0.5,99.999", "1000000000.001,0.5,299.997"),
    ("0,1000000000,-1000000000,1,1,1", "1,1000000002,-999999997"),
    ("0,-1000000000,1000000000,1,1,1", "1,-999999998,1000000003"),
]

# A name, a plan, the rows of a zone file, and parts of the texts.
SHOWN = [
    # a number of each cell of a plan, none like another
    (
        "each_number_of_a_plan",
        small(
            "mill,m,900,600,1500|leach,l,700,1600,0,850|dump,d,250|",
            "periods,100|rate,0.000001|resource,r,d|resource,s,l,m|"
            "limit,s,99,I,0.5,999999999999.999999|limit,r,7,L,0.000001|"
            "limit,s,0,G,1000000000000|limit,r,98,G,0|",
            LONGEST,
        ),
        ONE_BLOCK,
        "== pcpsp|" + heading("PCPSP", name=LONGEST, blocks=1, periods=100, destinations=3,
                              resources=2, rate="0.000001") +
        "OBJECTIVE_FUNCTION:|0 12 13.75 -2.5|"
        "RESOURCE_CONSTRAINT_COEFFICIENTS:|0 0 1 1|0 1 1 1|0 2 0 1|"
        "RESOURCE_CONSTRAINT_LIMITS:|0 7 L 0.000001|0 98 G 0|1 0 G 1000000000000|"
        "1 99 I 0.5 999999999999.999999|== cpit|",
    ),
    # the worths of a kilogram at each kind of destination, of waste and with 0.1 g of metal: -1.5, -1.6, -0.25 and 0 cents, then -0.87,
    # -0.835, -0.25 and 0
    (
        "worths_are_rounded_down",
        small("mill,m,900,7000,1500|leach,l,9000,1600,0,850|dump,d,250|dump,n,0|"),
        b"0,0,0,0.001,0\n1,0,0,0.001,100\n",
        "OBJECTIVE_FUNCTION:|0 -0.02 -0.02 -0.01 0|1 -0.01 -0.01 -0.01 0|RESOURCE",
    ),
    ("limits_and_covered_destinations", TWO_RESOURCES, b"0,0,0,1,0\n", LIMITS_IN_ORDER, MASSES),
    # the worths of three blocks of 1000 t on a leach of two bands: at the second, just below it,
    # and below the first
    (
        "bands_of_a_plan",
        small("leach,heap,10000000,100,1,300,2.5,450|"),
        b"0,0,0,1000,2.5\n1,0,0,1000,2.499999\n2,0,0,1000,0.999999\n",
        "OBJECTIVE_FUNCTION:|0 111500|1 73999.97|2 -1000|== pcpsp|",
    ),
    (
        "limits_at_their_ends",
        small(
            "dump,d,1|",
            "periods,5|rate,0|resource,r,d|limit,r,0,L,1000000000000|limit,r,1,I,0,1000000000000|"
            "limit,r,2,L,0|limit,r,3,I,0,0|limit,r,4,I,1000000000000,1000000000000|",
        ),
        ONE_BLOCK,
        "LIMITS:|0 0 L 1000000000000|0 1 I 0 1000000000000|0 2 L 0|0 3 I 0 0|"
        "0 4 I 1000000000000 1000000000000|== cpit|",
    ),
    # 333.333333333335 g of metal are recovered, at three cents a kilogram: a thousandth of a nanogram decides; worked out manually
    ("metal_below_a_nanogram", small("mill,m,1,3,0|"), b"0,0,0,1.873,177967.609895\n",
     "OBJECTIVE_FUNCTION:|0 0.01|== pcpsp|"),
    # numbers and not their texts have an order: period 10 comes after 2, and resources are in the order of the plan; one without a limit is
    # counted
    (
        "limits_by_number",
        small(
            "dump,d,1|",
            "periods,12|rate,0|resource,z,d|resource,none,d|resource,a,d|limit,a,10,I,7,7|"
            "limit,z,11,G,0|limit,a,2,L,0.1|limit,z,2,G,3|limit,z,10,L,5|limit,a,9,I,7,7.000001|",
        ),
        ONE_BLOCK,
        "NPERIODS: 12|NDESTINATIONS: 1|NRESOURCE_SIDE_CONSTRAINTS: 3|",
        "NPERIODS: 12|NRESOURCE_SIDE_CONSTRAINTS: 3|",
        "LIMITS:|0 2 G 3|0 10 L 5|0 11 G 0|2 2 L 0.1|2 9 I 7 7.000001|2 10 I 7 7|== cpit|",
    ),
    # what a resource covers counts at each destination by the tonnes of the block, also of grams
    (
        "coefficients_below_a_tonne",
        small("dump,d,0|dump,e,1|", "periods,1|rate,1|resource,r,e|resource,s,e,d|"),
        b"0,0,0,0.001,0\n1,0,0,0.5,0\n2,0,0,0.999,0\n3,0,0,0,0\n4,0,0,1.001,0\n",
        "COEFFICIENTS:|0 0 1 0.001|0 1 0 0.001|0 1 1 0.001|1 0 1 0.5|1 1 0 0.5|1 1 1 0.5|"
        "2 0 1 0.999|2 1 0 0.999|2 1 1 0.999|4 0 1 1.001|4 1 0 1.001|4 1 1 1.001|RESOURCE",
        "COEFFICIENTS:|0 1 0.001|1 1 0.5|2 1 0.999|4 1 1.001|RESOURCE",
    ),
    # periods and resources are counted even if none has a limit; an interval may be one number
    (
        "limits_of_few",
        small("dump,d,1|dump,e,2|", "periods,7|rate,0|resource,z,e|resource,y,d|resource,x,e,d|"
              "limit,y,2,I,0,0|limit,y,1,I,0.5,0.5|"),
        ONE_BLOCK,
        "NPERIODS: 7|NDESTINATIONS: 2|NRESOURCE_SIDE_CONSTRAINTS: 3|",
        "NPERIODS: 7|NRESOURCE_SIDE_CONSTRAINTS: 3|",
        "COEFFICIENTS:|0 0 1 1|0 0 2 1|0 1 0 1|0 1 2 1|RESOURCE_CONSTRAINT_LIMITS:|"
        "1 1 I 0.5 0.5|1 2 I 0 0|== cpit|",
        "COEFFICIENTS:|0 1 1|0 2 1|RESOURCE",
    ),
    # limits belong to the plan: they are there even if no block has a tonnage that counts for them
    (
        "limits_without_tonnage",
        small("dump,d,1|dump,e,1|", "periods,2|rate,0|resource,r,d|resource,s,e|limit,s,1,G,5.0|"
              "limit,r,0,L,-0|limit,r,1,I,+.0,05.50|"),
        b"0,0,0,0,5\n1,0,0,0.000,0\n",
        "OBJECTIVE_FUNCTION:|0 0 0|1 0 0|RESOURCE_CONSTRAINT_COEFFICIENTS:|"
        "RESOURCE_CONSTRAINT_LIMITS:|0 0 L 0|0 1 I 0 5.5|1 1 G 5|== cpit|",
        "OBJECTIVE_FUNCTION:|0 0|1 0|RESOURCE_CONSTRAINT_COEFFICIENTS:|RESOURCE_CONSTRAINT_LIMITS:|"
        "0 0 L 0|0 1 I 0 5.5|1 1 G 5|",
    ),
    (
        "limits_without_a_block",
        small("dump,d,1|", "periods,010|rate,.50|resource,r,d|limit,r,09,I,00.5,1.|"
              "limit,r,2.0,L,7|"),
        b"",
        "NPERIODS: 10|NDESTINATIONS: 1|NRESOURCE_SIDE_CONSTRAINTS: 1|NGENERAL_SIDE_CONSTRAINTS: 0|"
        "DISCOUNT_RATE: 0.5|OBJECTIVE_FUNCTION:|RESOURCE_CONSTRAINT_COEFFICIENTS:|"
        "RESOURCE_CONSTRAINT_LIMITS:|0 2 L 7|0 9 I 0.5 1|== cpit|",
        "NPERIODS: 10|NRESOURCE_SIDE_CONSTRAINTS: 1|DISCOUNT_RATE: 0.5|OBJECTIVE_FUNCTION:|"
        "RESOURCE_CONSTRAINT_COEFFICIENTS:|RESOURCE_CONSTRAINT_LIMITS:|0 2 L 7|0 9 I 0.5 1|",
    ),
    # a resource that has coefficients in the PCPSP alone, since the dump is best
    (
        "limits_of_a_resource_without_coefficients",
        small("mill,m,0,0,5|dump,d,1|", "periods,1|rate,0|resource,r,m|limit,r,0,L,7|"),
        b"0,0,0,1,0\n",
        "OBJECTIVE_FUNCTION:|0 -0.05 -0.01|RESOURCE_CONSTRAINT_COEFFICIENTS:|0 0 0 1|"
        "RESOURCE_CONSTRAINT_LIMITS:|0 0 L 7|== cpit|",
        "OBJECTIVE_FUNCTION:|0 -0.01|RESOURCE_CONSTRAINT_COEFFICIENTS:|RESOURCE_CONSTRAINT_LIMITS:|"
        "0 0 L 7|",
    ),
    # narrow_worths, worked out manually: a kilogram costs a cent on the dump and earns two at the mill
    (
        "narrow_worths_by_hand",
        small("dump,d,1000|mill,m,1000,2,0|"),
        b"0,0,0,0.001,1000000\n1,0,0,0.255,1000000\n2,0,0,0.256,1000000\n3,0,0,0.257,1000000\n"
        b"4,0,0,65.535,1000000\n5,0,0,65.536,1000000\n6,0,0,1000000,1000000\n",
        "OBJECTIVE_FUNCTION:|0 -0.01 0.02|1 -2.55 5.1|2 -2.56 5.12|3 -2.57 5.14|4 -655.35 1310.7|"
        "5 -655.36 1310.72|6 -10000000 20000000|RESOURCE",
        "OBJECTIVE_FUNCTION:|0 0.02|1 5.1|2 5.12|3 5.14|4 1310.7|5 1310.72|6 20000000|",
    ),
    # 0.001 t that hold 0.001 g: 0.6 cents less 0.5, and 0.6 less 0.7; floors taken apart give -1
    (
        "one_floor_of_the_difference",
        small("mill,m,1000,600000,500|leach,l,600000,700,0,1000|mill,n,1000,999999,1000|"),
        b"0,0,0,0.001,1\n",
        "OBJECTIVE_FUNCTION:|0 0 -0.01 -0.01|RESOURCE",
    ),
    # no metal is recovered, or none is paid for, so all are worth what their cost is
    (
        "nothing_recovered",
        small("mill,m,0,100000000,1500|leach,l,100000000,1500,0,0|mill,n,1000,0,1500|"),
        b"0,0,0,1,1000000\n1,0,0,0.001,1000000\n",
        "OBJECTIVE_FUNCTION:|0 -15 -15 -15|1 -0.02 -0.02 -0.02|RESOURCE",
    ),
]

# A plan of which one number at a time is written in another format, by its place in the record: the texts stay those of its shortest
# format. Each number changes the texts.
SPELLED_PLAN = [
    "name,n", "grid,0,0,0,1,1,1", "zone,10,9,10,9,9,10,9,10,10", "mill,m,10,10000000,10",
    "dump,d,10", "leach,l,10000000,10,0.5,10,2,20", "periods,12", "rate,0.1", "resource,r,m,l",
    "resource,s,d", "limit,r,10,L,10", "limit,s,9,I,10,11",
]

# The key of the record, the places of its cells after the key, and the decimals and numbers for these.
SPELLED = [
    ("grid", (0, 1, 2), 3, (0, 10_000, *CUT[3])), ("grid", (3, 4, 5), 3, (10_000, *CUT[3])),
    ("zone", range(8), 0, (10, 12)), ("zone", (8,), 0, (10,)), ("mill", (1, 2, 3), 0, (10,)),
    ("dump", (1,), 0, (10,)), ("leach", (1, 2, 4, 6), 0, (10,)),
    ("leach", (3,), 6, (0, 249, 983)), ("leach", (5,), 6, (10**7, 1_000_249)),
    ("periods", (0,), 0, (12, 100)), ("rate", (0,), 6, (0, 10**6, 249, 983)),
    ("limit,r", (0,), 0, (10,)), ("limit,r", (2,), 6, (0, 10**7, *CUT[6])),
    ("limit,s", (2,), 6, (0, 5 * 10**6, *CUT[6])), ("limit,s", (3,), 6, (11 * 10**6, 10**7 + 249)),
]

# Destinations whose worths differ only before they are rounded down: the first one is chosen. 0.001 t cost 1.999 and 1.5 cents, and 0.999
# and 0.001.
EQUAL_WHEN_ROUNDED = [
    ("mill,a,0,0,1999|mill,b,0,0,1500|", -2),
    ("mill,a,0,0,1500|mill,b,0,0,1999|", -2),
    ("dump,a,1999|dump,b,1500|", -2),
    ("leach,a,0,1999,0,0|leach,b,0,1500,0,0|", -2),
    ("dump,a,999|mill,b,1000,100,1|", -1),
    ("mill,a,0,0,1999|dump,b,1500|", -2),
    ("dump,a,1999|leach,b,0,1500,0,0|", -2),
    ("dump,a,1500|mill,b,0,0,1999|", -2),
    ("leach,a,0,1999,0,0|mill,b,0,0,1500|", -2),
    ("leach,a,0,1500,0,0|dump,b,1999|", -2),
]

# A number of bits, and cents a kilogram that a block costs on a dump or is worth at a mill.
COSTS = [(8, 1), (15, 1), (16, 1), (24, 1), (31, 8), (32, 8), (40, 4096)]
PRICES = [*COSTS, (48, 2**20), (53, 2**25), (55, 2**26), (56, 99_999_999)]
NARROW = [("dump,d,{}000|", -1, COSTS), ("mill,m,1000,{},0|", 1, PRICES)]

# Destinations at the ends of their ranges, a row with a number of kilograms of the richest ore, and its worth in cents.
EXTREMES = [
    ("dump,d,10000000|", 10**9, -(10**13)),
    ("mill,m,0,0,10000000|", 10**9, -(10**13)),
    ("leach,l,0,10000000,0,0|", 10**9, -(10**13)),
    ("mill,m,1000,100000000,10000000|", 10**9, 10**17 - 10**13),
    ("leach,l,100000000,10000000,1000000,1000|", 10**9, 10**17 - 10**13),
    ("mill,m,1000,100000000,0|", 10**9 - 1, 10**17 - 10**8),
    ("mill,m,999,99999999,9999999|", 1, 99_890_000 - 1),
]

NAMES = [
    "Pit_3.A-b", "PIT", "pit.2", "..", "--x", "_", "0", "007", "L", "NAME", "-1.5", "a-", "Zz",
    "0123456789" * 6, "Aa_" * 11, "x" * 63, "-." * 32,
]


def shows(name, plan, rows, *parts):
    """A plan and the rows of a zone file, and parts of the texts."""
    return Trial(name, given=piped(plan, HEADER + rows), out=Parts(list(map(lines, parts))))


def as_computed(name, plan, *zones):
    """A plan and zone files, and their texts by the plain computation."""
    return Trial(name, given=piped(plan, *zones), out=sections(plain_texts(plan, *zones)))


def scanned(bands, grade):
    """Returns the recovery of the last band that begins at or below the grade, found by checking each."""
    return [0, *(share for start, share in bands if start <= grade)][-1]


def at_every_edge(name, bands):
    """Blocks below, at and above the start of each band.

    Price and tonnage are such that a worth is grade times recovery.
    """
    cells = "".join(f",{formatted(start, 6)},{share}" for start, share in bands)
    grades = [0, 10**12]
    for start, _ in bands:
        grades += [max(start - 1, 0), start, min(start + 1, 10**12)]
    rows = "".join(f"{x},0,0,1000000,{formatted(grade, 6)}|" for x, grade in enumerate(grades))
    worths = "".join(f"{x} {grade * scanned(bands, grade)}|" for x, grade in enumerate(grades))
    plan, part = small(f"leach,heap,100000000,0{cells}|"), f"OBJECTIVE_FUNCTION:|{worths}== pcpsp|"
    return shows(f"recovery_at_every_edge: {name}", plan, lines(rows), part)


def dollars(cents):
    """Returns cents as a value of an objective."""
    whole, rest = divmod(abs(cents), 100)
    return ("-" if cents < 0 else "") + f"{whole}.{rest:02d}".rstrip("0").rstrip(".")


def narrow_worths():
    """Worths in cents at which a counter of fewer bits ends, +1 and -1; then worths at the ends of their range."""
    cases = list(EXTREMES)
    for (key, sign, counts), more in itertools.product(NARROW, (-1, 0, 1)):
        for bits, cents in counts:
            kilograms = 2**bits // cents + more
            cases.append((key.format(cents), kilograms, sign * kilograms * cents))
    for destination, kilograms, cents in cases:
        row, name = f"0,0,0,{formatted(kilograms, 3)},1000000|", f"{destination}, {kilograms} kg"
        part = f"NBLOCKS: 1|OBJECTIVE_FUNCTION:|0 {dollars(cents)}|== pcpsp|"
        yield shows(f"narrow_worths: {name}", small(destination), lines(row), part)


def of_formatted_plan(key, place, text):
    """Returns the plan with this text in place of a cell of its first record with this key."""
    records = [record.split(",") for record in SPELLED_PLAN]
    cells = next(cells for cells in records if ",".join(cells).startswith(key + ","))
    cells[key.count(",") + 1 + place] = text
    return lines("".join(",".join(cells) + "|" for cells in records))


# Grades around those at which bands begin.
STARTS = (249, 983, 500_000, 1_000_249, 2_000_000, 10**7)
GRADES = [start + more for start in STARTS for more in (-1, 0, 1)]


def blocks_about(origin, size):
    """Returns a zone file of blocks around a column, each with other tonnes and grade, from this position on and of this size in
    millimetres."""
    box, column = itertools.product(range(3), range(3), range(2)), ((1, 1, z) for z in range(2, 13))
    rows = []
    cells = zip(range(900_000, 10**6), itertools.cycle(GRADES), [*box, *column])
    for tonnes, grade, indices in cells:
        metres = (shortest(a + b * c, 3) for a, b, c in zip(origin, indices, size))
        rows.append(",".join([*metres, str(tonnes), shortest(grade, 6)]))
    return zone_file(*rows)


def spellings_of_a_plan():
    """Each number of a plan in each unusual format."""
    for key, places, decimals, numbers in SPELLED:
        for place, number in itertools.product(places, numbers):
            grid = [0, 0, 0, 1_000, 1_000, 1_000]
            if key == "grid":
                grid[place] = number
            usual = of_formatted_plan(key, place, shortest(number, decimals))
            zone = blocks_about(grid[:3], grid[3:])
            texts = sections(plain_texts(usual, zone))
            for text in unusual(number, decimals):
                given = piped(of_formatted_plan(key, place, text), zone)
                name = f"spellings_of_a_plan: {key}, cell {place + 1}: {text}"
                yield Trial(short(name), given=given, out=texts)


def spellings_of_rows():
    """Each number of a row of a zone file in each unusual format."""
    plan = small("mill,m,1000,1000000,10|", grid="0,0,0,0.001,0.001,0.001")
    usual = ["0.01", "0.01", "0.01", "10", "10"]
    for place, decimals in enumerate([3, 3, 3, 3, 6]):
        for number in (0, 8 * 10 ** (decimals - 2), 10**decimals, *CUT[decimals]):
            good = with_cell(map(Cell, usual), place, shortest(number, decimals))
            texts = sections(plain_texts(plan, zone_file(",".join(good))))
            for text in unusual(number, decimals):
                row = ",".join(with_cell(map(Cell, usual), place, text))
                name = f"spellings_of_rows: cell {place + 1}: {text}"
                yield Trial(short(name), given=piped(plan, zone_file(row)), out=texts)


def destinations_in_order():
    """A mill, a leach and a dump in each order, which their values, coefficients and the numbers of a CPIT's choice follow; then as many
    dumps as allowed, of which each in turn is best."""
    dump, leach, mill = "dump,d,250|", "leach,l,700,1600,0,850|", "mill,m,900,600,1500|"
    worths = {mill: "12", leach: "13.75", dump: "-2.5"}
    for order in itertools.permutations(worths):
        rest = "periods,1|rate,0|resource,r,d|resource,s,l,m|resource,t,l|"
        covers = {dump: [0], leach: [1, 2], mill: [1]}
        masses = "".join(
            f"0 {at} {resource} 1|" for at, key in enumerate(order) for resource in covers[key]
        )
        yield shows(
            f"destinations_in_order: {''.join(order)}",
            small("".join(order), rest),
            ONE_BLOCK,
            f"OBJECTIVE_FUNCTION:|0 {' '.join(worths[key] for key in order)}|"
            f"RESOURCE_CONSTRAINT_COEFFICIENTS:|{masses}RESOURCE_CONSTRAINT_LIMITS:|== cpit|",
            "OBJECTIVE_FUNCTION:|0 13.75|RESOURCE_CONSTRAINT_COEFFICIENTS:|0 1 1|0 2 1|RESOURCE",
        )
    for best in range(8):
        dumps = "".join(f"dump,{name},{2 - (at >= best)}|" for at, name in enumerate("hgfedcba"))
        rest = "periods,1|rate,0|" + "".join(f"resource,{name},{name}|" for name in "abcdefgh")
        objective = "OBJECTIVE_FUNCTION:|0 -10|"
        yield shows(
            f"the first of the best of eight: {best}",
            small(dumps, rest),
            b"0,0,0,1000,0\n",
            f"UPIT|NBLOCKS: 1|{objective}== pcpsp|",
            f"{objective}RESOURCE_CONSTRAINT_COEFFICIENTS:|0 {7 - best} 1000|RESOURCE",
        )


def equal_worths():
    """A kilogram at destinations that are equal once rounded down."""
    for destinations, cents in EQUAL_WHEN_ROUNDED:
        worth = dollars(cents)
        yield shows(
            f"equal_when_rounded: {destinations}",
            small(destinations, "periods,1|rate,0|resource,r,a|"),
            b"0,0,0,0.001,0\n",
            heading("PCPSP", name="n", blocks=1, destinations=2, resources=1, rate=0) +
            f"OBJECTIVE_FUNCTION:|0 {worth} {worth}|",
            f"OBJECTIVE_FUNCTION:|0 {worth}|RESOURCE_CONSTRAINT_COEFFICIENTS:|0 0 0.001|RESOURCE",
        )


def numbers_and_names():
    """Names, periods and rates as each text has them."""
    for name in NAMES:
        plan = small("dump,d,1|", "periods,1|rate,0|", name)
        kinds = ("UPIT", "PCPSP", "CPIT")
        parts = [f"== {kind.lower()}|NAME: {name}|TYPE: {kind}|" for kind in kinds]
        yield shows(f"names_as_written: {name}", plan, b"", *parts)
    for periods in (1, 2, 9, 10, 99, 100):
        plan = small("dump,d,1|", f"periods,{periods}|rate,0.5|")
        parts = [f"NPERIODS: {periods}|NDESTINATIONS:", f"NPERIODS: {periods}|NRESOURCE"]
        yield shows(f"periods_as_written: {periods}", plan, b"", *parts)
    for rate, written in [("0", "0"), ("1", "1"), ("0.10", "0.1"), (".999999", "0.999999"),
                          ("+0.5000000", "0.5"), ("00.01", "0.01"), ("-0", "0")]:
        plan = small("dump,d,1|", f"periods,1|rate,{rate}|")
        parts = [heading(kind, name="n", blocks=0, rate=written) for kind in ("PCPSP", "CPIT")]
        yield shows(f"rates_as_written: {rate}", plan, b"", *(part + "OBJECTIVE" for part in parts))


# The limits of all_limits for two resources and three periods, worked out manually: those of the plan in their order there, and those of
# the texts.
LIMITS_OF_A_PLAN = (
    "limit,a,2,L,1.5|limit,a,1,I,0,1.5|limit,a,0,G,1.5|"
    "limit,b,2,I,0,2.5|limit,b,1,G,0.5|limit,b,0,L,0.5|"
)
LIMITS_BY_HAND = "0 0 L 0.5|0 1 G 0.5|0 2 I 0 2.5|1 0 G 1.5|1 1 I 0 1.5|1 2 L 1.5|"


def limits_of(resources, periods):
    """A limit of each resource in each period, with each letter in turn: those of a plan, the last
    ones first, and those of the texts."""
    names, of_plan, written = "hgfedcba"[-resources:], [], []
    for number, period in itertools.product(range(resources), range(periods)):
        letter = "LGI"[(number + period) % 3]
        ends = ["0", f"{period}.5"] if letter == "I" else [f"{number}.5"]
        of_plan.append(",".join(["limit", names[number], str(period), letter, *ends]) + "|")
        written.append(" ".join([str(number), str(period), letter, *ends]) + "|")
    return "".join(reversed(of_plan)), "".join(written)


def all_limits():
    """A limit of each of eight resources in each of a hundred periods."""
    assert limits_of(2, 3) == (LIMITS_OF_A_PLAN, LIMITS_BY_HAND)
    for count, periods, of_plan, written in [
        (2, 3, LIMITS_OF_A_PLAN, LIMITS_BY_HAND), (8, 100, *limits_of(8, 100)),
    ]:
        resources = "".join(f"resource,{name},d|" for name in "hgfedcba"[-count:])
        plan = small("dump,d,1|", f"periods,{periods}|rate,0|{resources}{of_plan}")
        part = f"RESOURCE_CONSTRAINT_LIMITS:|{written}"
        name = "all_limits" if count == 8 else "all_limits, a few worked out manually"
        yield shows(name, plan, ONE_BLOCK, part + "== cpit|", part)
    counts = "blocks 1 arcs 0 coefficients 8 limits 800 cpit 8"
    yield arcs_of("all_limits, checked", counts, plan, HEADER + ONE_BLOCK)


def trials():
    for cells, row in GRIDS:
        plan, part = small("dump,d,1|", grid=cells), "== blocks|0 1 2 3 1 0 0|== prec|"
        yield shows(f"grids: {cells}", plan, lines(f"{row},1,0|"), part)
    for shown in SHOWN:
        yield shows(*shown)
    for count in range(1, 17):
        yield at_every_edge(f"{count} bands", [(7 + 10 * i, 1000 - 3 * i) for i in range(count)])
    yield at_every_edge("16 bands that fall and rise", [(at * at, at * 7 % 16) for at in range(16)])
    yield at_every_edge("16 bands at the end", [(10**12 - 15 + at, 900 + at) for at in range(16)])
    yield at_every_edge("the largest start", [(10**6, 300), (2_500_000, 450), (10**12, 0)])
    yield at_every_edge("the least start", [(0, 1000)])
    given = piped(fullest.PLAN, *fullest.ZONES)
    yield Trial("as much as a plan may hold", given=given, out=sections(fullest.TEXTS))
    yield from narrow_worths()
    yield from spellings_of_a_plan()
    yield from spellings_of_rows()
    yield from destinations_in_order()
    yield from equal_worths()
    yield from numbers_and_names()
    yield from all_limits()
