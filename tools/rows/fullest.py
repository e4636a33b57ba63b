"""A plan that holds as much as it may, and two zone files of tonnes and grades around many ends.

Names of all kinds, eight destinations of which some are worth the same, sixteen bands, eight resources with a limit in each of a hundred
periods. The expected texts come from the plain computation.
"""
import itertools

from rows.cells import shortest
from rows.instance import plain_texts
from rows.trial import lines, zone_file
from shared import ENDINGS

BANDS = "".join(f",{start * start}.25,{1000 - 60 * start}" for start in range(16))

# Each with its name.
DESTINATIONS = [
    ("0", "mill,0,999,99999999,9999999"), ("-", "dump,-,2"), ("..", "leach,..,100000000,1" + BANDS),
    ("_-.", "dump,_-.,1500"), ("mill", "mill,mill,1000,3,0"),
    ("Mill", "leach,Mill,0,0,0,0,1000000,1000"), ("n" * 64, f"mill,{'n' * 64},999,99999999,9999999"),
    ("n" * 63 + "m", f"mill,{'n' * 63}m,0,0,7"),
]

RESOURCES = ["L", "I", "007", "7", "-1.5", "grid", "N" * 64, "n" * 63 + "-"]

KILOGRAMS = [0, 1, 255, 256, 999, 1_000, 1_001, 65_535, 65_536, 2**24 + 1, 10**9 - 1, 10**9]
GRADES = [0, 1, 249_999, 250_000, 250_001, 1_249_999, 1_250_000, 999_999, 10**6, 123_456_789, 2**32,
          10**12 - 1, 10**12, *(start * start * 10**6 + 250_000 for start in range(2, 16))]


def covered(number):
    """The destinations that a resource covers."""
    return [name for place, (name, _) in enumerate(DESTINATIONS)
            if place == number or (place * (number + 1)) % 3 == 1]


def limits():
    """Returns a limit of each resource in each period, from the last one on."""
    for number, period in reversed(list(itertools.product(range(8), range(100)))):
        letter = "LGI"[(number + period) % 3]
        ends = [f"{period}.{number + 1:06d}"] + [f"{period + number}.000009"] * (letter == "I")
        if period == 99:
            ends = ["1000000000000"] * len(ends)
        elif period == 94:
            ends = ["0"] * len(ends)
        elif letter == "I" and period > 95:
            ends = ["1", ["4294.967296", "9007199254.740992"][period % 2]]
        yield ",".join(["limit", RESOURCES[number], str(period), letter, *ends])


def records():
    yield from ["rate,0.999999", "periods,100", f"name,{'Ab-.' * 16}"]
    yield "grid,-1000000000,1000000000,-0.001,2.5,100,99.999"
    yield from ["zone,1000,75,1000,133,900,1000,300,1000,20", "zone,1,1000,1,1000,1000,1,1000,1,2"]
    yield from (record for _, record in DESTINATIONS)
    yield from (",".join(["resource", name, *covered(number)]) for number, name in enumerate(RESOURCES))
    yield from limits()


def rows(zone):
    """Returns the rows of a zone: every other block of three benches, from the last one on."""
    for block in reversed(range(zone, 156, 2)):
        x, y, z = block % 12, block // 12 % 4, block // 48
        places = -10**12 + 2_500 * x, 10**12 + 100_000 * y, -1 + 99_999 * z
        mass, grade = KILOGRAMS[block % 12], GRADES[block % len(GRADES)]
        yield ",".join([*(shortest(place, 3) for place in places), shortest(mass, 3), shortest(grade, 6)])


PLAN = lines("".join(record + "|" for record in records()))
ZONES = [zone_file(*rows(zone)) for zone in (0, 1)]


def dressed(turns, nought):
    """Returns the plan with letters of its keys in capitals, at every other position or all, with zeros in this format, blanks around
    its cells, and hundreds of empty ones after them."""
    for record in PLAN.decode().splitlines():
        key, *cells = record.split(",")
        names = {"mill": 1, "leach": 1, "dump": 1, "limit": 3, "rate": 0}.get(key, len(cells))
        cells = [nought if cell == "0" and at >= names else cell for at, cell in enumerate(cells)]
        mixed = "".join(letter.upper() if at % 2 in turns else letter for at, letter in enumerate(key))
        yield ",".join([f" {mixed}", *(f"\t{cell} " for cell in cells), *[""] * 300]) + "\n"


DRESSED = ["".join(dressed(*how)).encode() for how in [({0}, "0"), ({1}, "-0"), ({0, 1}, ".0")]]

TEXTS = plain_texts(PLAN, *ZONES)


def count(ending, first, last=None):
    """Returns how many lines a text has between two of its sections, or to its end."""
    found = TEXTS[ending].decode().splitlines()
    return (found.index(last) if last else len(found)) - found.index(first) - 1


ITEMS, LIMITS = "RESOURCE_CONSTRAINT_COEFFICIENTS:", "RESOURCE_CONSTRAINT_LIMITS:"

# What `check` counts of the texts.
COUNTS = "blocks 156 arcs {} coefficients {} limits 800 cpit {}".format(
    TEXTS["prec"].count(b" ") - 156, count("pcpsp", ITEMS, LIMITS), count("cpit", ITEMS, LIMITS))

assert list(TEXTS) == ENDINGS and count("pcpsp", LIMITS) == count("cpit", LIMITS) == 800
