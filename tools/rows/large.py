"""A model of 5,400,001 blocks, and its texts by a separate plain computation.

Six benches of 900 rows of 1,000 blocks, each a zone file, whose rows come from the last to the first. Below the middle is a block of a flat
zone, under about five thousand others; its file has about a hundred columns. A block is a cubic metre, so that metres are indices. Its
tonnes and grade follow from its column: t tonnes of g grams are worth (10 g - 5) t at the mill, and -t on the dump.
"""
from rows.instance import heading, plan_of
from rows.trial import Pieces, lines
from shared import ENDINGS

WIDE, DEEP, BENCHES = 1_000, 900, 6
LOW, REACH = (500, 450, 0), 40
BENCH = WIDE * DEEP
COUNT = 1 + BENCH * BENCHES
PERIODS = 100

COLUMNS = range(WIDE)
TONNES = [x % 5 for x in COLUMNS]
GRADES = [x % 3 for x in COLUMNS]
AT_MILL = [(10 * grade - 5) * tonnes for tonnes, grade in zip(TONNES, GRADES)]
ON_DUMP = [-tonnes for tonnes in TONNES]
BEST = list(map(max, AT_MILL, ON_DUMP))
# The destination with the best worth: the mill if both are equal.
CHOSEN = [int(dump > mill) for mill, dump in zip(AT_MILL, ON_DUMP)]
HEAVY = [x for x in COLUMNS if TONNES[x]]

# The limit of each resource and period in tonnes.
LIMITS = {(resource, period): 1000 * resource + period
          for resource in (0, 1) for period in range(PERIODS)}

PLAN = plan_of(
    "mill,m,1000,1000000,500|dump,d,100|",
    [f"1,{REACH},1", *["1,1,1"] * BENCHES],
    grid="0,0,0,1,1,1",
    rest=f"periods,{PERIODS}|rate,0.1|resource,plant,m|resource,fleet,d|" + "".join(
        f"limit,{('plant', 'fleet')[resource]},{period},L,{limit}|"
        for (resource, period), limit in reversed(LIMITS.items())
    ),
)

# What `check` counts of it: the arcs of a bench below another, and of the block below the middle.
INSIDE = [(x, y) for y in range(DEEP) for x in COLUMNS
          if (x - LOW[0]) ** 2 + (y - LOW[1]) ** 2 <= REACH**2]
ARCS = (BENCHES - 1) * (5 * BENCH - 2 * WIDE - 2 * DEEP) + len(INSIDE)
CHOICES = DEEP * BENCHES * len(HEAVY) + 1
COUNTS = (f"blocks {COUNT} arcs {ARCS} coefficients {2 * CHOICES} limits {len(LIMITS)} "
          f"cpit {CHOICES}")


def low_zone():
    """The file of the block below the middle, of many columns."""
    others = [f"c{number}" for number in range(300)]
    header, cells = [*others, "x", "y", "z", "tonnes", "grade"], [*others, *LOW, 1, 0]
    return lines("|".join(",".join(map(str, row)) for row in (header, cells)) + "|")


def zone(bench):
    """The file of a bench."""
    ends = [f",{bench},{tonnes},{grade}\n" for tonnes, grade in zip(TONNES, GRADES)]
    rows = (f"{x},{y}{ends[x]}" for y in reversed(range(DEEP)) for x in COLUMNS)
    return ("x,y,z,tonnes,grade\n" + "".join(rows)).encode()


def zones():
    return [low_zone(), *(zone(bench + 1) for bench in range(BENCHES))]


def by_row(first, columns, ends):
    """Yields the lines of the low block; then those of each row of blocks, with these ends after the numbers of the blocks in these
    columns."""
    yield first.encode()
    form = "".join(f"%d{end}" for end in ends)
    for start in range(1, COUNT, WIDE):
        yield (form % tuple([start + x for x in columns])).encode()


def blocks():
    yield ("0 %d %d %d 1 0 0\n" % LOW).encode()
    row_of_any = "".join(f"%d {x} Y Z {TONNES[x]} {GRADES[x]} Z\n" for x in COLUMNS)
    for row in range(DEEP * BENCHES):
        bench, y = divmod(row, DEEP)
        form = row_of_any.replace("Y", str(y)).replace("Z", str(bench + 1))
        yield (form % tuple(range(1 + row * WIDE, 1 + row * WIDE + WIDE))).encode()


def prec():
    above = [1 + y * WIDE + x for x, y in INSIDE]
    yield (" ".join(map(str, [0, len(above), *above])) + "\n").encode()
    for row in range(DEEP * BENCHES):
        bench, y = divmod(row, DEEP)
        numbers = range(1 + row * WIDE, 1 + row * WIDE + WIDE)
        if bench == BENCHES - 1:
            yield "".join([f"{number} 0\n" for number in numbers]).encode()
        elif 0 < y < DEEP - 1:
            yield (prec_line(numbers[0], y) + "".join([
                f"{n} 5 {n + BENCH - WIDE} {n + BENCH - 1} {n + BENCH} {n + BENCH + 1} "
                f"{n + BENCH + WIDE}\n" for n in numbers[1:-1]
            ]) + prec_line(numbers[-1], y)).encode()
        else:
            yield "".join([prec_line(number, y) for number in numbers]).encode()


def prec_line(number, y):
    """The line of a block at a side of its bench."""
    x, up = (number - 1) % WIDE, number + BENCH
    above = [up - WIDE] * (y > 0) + [up - 1] * (x > 0) + [up]
    above += [up + 1] * (x < WIDE - 1) + [up + WIDE] * (y < DEEP - 1)
    return " ".join(map(str, [number, len(above), *above])) + "\n"


def model_file(kind, values, coefficients):
    """Returns a model file: the text of the low block, and the text after the number of each other block in its two sections."""
    head = heading(kind, blocks=COUNT, periods=PERIODS, destinations=2, resources=2)
    yield lines(head + "OBJECTIVE_FUNCTION:|")
    yield from by_row(*values)
    if coefficients:
        yield b"RESOURCE_CONSTRAINT_COEFFICIENTS:\n"
        yield from by_row(*coefficients)
        yield b"RESOURCE_CONSTRAINT_LIMITS:\n"
        yield lines("".join(f"{r} {t} L {limit}|" for (r, t), limit in LIMITS.items()))


def upit():
    return model_file("UPIT", ("0 -1\n", COLUMNS, [f" {best}\n" for best in BEST]), ())


def pcpsp():
    both = [f" {mill} {dump}\n" for mill, dump in zip(AT_MILL, ON_DUMP)]
    twice = [x for x in HEAVY for _ in (0, 1)]
    masses = [f" {place} {place} {TONNES[x]}\n" for x in HEAVY for place in (0, 1)]
    coefficients = "0 0 0 1\n0 1 1 1\n", twice, masses
    return model_file("PCPSP", ("0 -5 -1\n", COLUMNS, both), coefficients)


def cpit():
    best, chosen = [f" {value}\n" for value in BEST], [f" {CHOSEN[x]} {TONNES[x]}\n" for x in HEAVY]
    return model_file("CPIT", ("0 -1\n", COLUMNS, best), ("0 1 1\n", HEAVY, chosen))


MADE = dict(zip(ENDINGS, [blocks, prec, upit, pcpsp, cpit]))
TEXTS = {ending: Pieces(make) for ending, make in MADE.items()}


def sections():
    """The texts, each under its section line."""
    for ending, make in MADE.items():
        yield f"== {ending}\n".encode()
        yield from make()
