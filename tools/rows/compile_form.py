"""Which files `compile` writes and which it leaves, and what it reports for plans and zone files."""
import os

from rows import fullest
from rows.instance import (
    LIMITED, LIMITED_TEXTS, NINE, NINE_TEXTS, NO_BLOCK, ONE_ORE_BLOCK, ORE, OTHER_ORE, PLAN, SAME,
    TWO_ZONES, at, plain_texts, plan_of,
)
from rows.trial import MARK, Folder, Prefix, Link, Trial, refused, zone_file
from shared import ENDINGS

# Files that are longer than what replaces them.
OLDER = at("base", dict.fromkeys(ENDINGS, b"a line of an older file\n" * 100))

# A path of 300 bytes and more, which returns to its start; and a longer one, which with a name stays below the 4,096 bytes that a path may
# have.
LONG_PATH = "./" * 150
LONGER_PATH = "./" * 2_000

# The largest number of bytes of a plan.
MOST = 1_048_576


def zones(count):
    """Returns the plan of one ore block with this number of zones."""
    return plan_of(cones=["1,1,1"] * count)


def wide_rows():
    """The one ore block among many columns."""
    names = [PLACES.get(place, f"c{place}") for place in range(WIDE)]
    cells = [VALUES.get(name, name) for name in names]
    return (",".join(names) + "\n" + ",".join(cells) + "\n").encode()


# A plan of many periods without a resource.
HUNDRED = plan_of(rest="periods,100|rate,0.1|")

# One cent, and no more, which less than a nanogram of metal earns.
CENT = plan_of("leach,heap,3,0,0,1|mill,m,1,3,0|"), zone_file("0,0,0,1.873,177967.609895")

LATE = [f"{n % 30 * 10},{n // 30 * 10},0,1,0" for n in range(898)]

# Blocks at distances of a power of two from one another along each axis, from the last to the first, each with other tonnes.
FAR = [(0, 0, 0), *(tuple(2**bits * (axis == at) for at in range(3))
                    for axis in range(3) for bits in range(14))]
FAR_ROWS = [f"{x}0,{y}0,{z}0,{number}.5,0.{number:06d}" for number, (x, y, z) in enumerate(FAR)]

# A zone file of many columns, and how many extra cells its rows have.
WIDE = 1_100
PLACES = {70: "tonnes", 300: "x", 600: "grade", 1_000: "z", 1_099: "y"}
VALUES = {"x": "0", "y": "0", "z": "0", "tonnes": "1000", "grade": "5000"}
MORE = [1, 16, 32, 40, 64, 100, 250, 255, 256, 500, 1_000, 65_536]

MANY = zones(64), *(zone_file(f"{file * 10},0,0,1,{file}") for file in range(64))

# The plans and zone files that the arguments of runs name.
FILES = {
    "one": PLAN,
    "two": zones(2),
    "three": zones(3),
    "many": MANY[0],
    "limited": LIMITED[0],
    "nine": NINE[0],
    "same": SAME[0],
    "hundred": HUNDRED,
    "fullest": fullest.PLAN,
    **{f"dressed{number}": text for number, text in enumerate(fullest.DRESSED)},
    **{f"fullest{number}": text for number, text in enumerate(fullest.ZONES)},
    "cent": CENT[0],
    "longest": PLAN.ljust(MOST, b"\n"),
    "long": PLAN.ljust(MOST + 1, b"\n"),
    "faulty": b"name,a b\n",
    "limited_twice": LIMITED[0] + b"limit,plant,01,I,2,1\n",
    "late_periods": LIMITED[0].replace(b"periods,2\n", b"") + b"periods,2\n",
    **dict.fromkeys(["ore", "--ore", "an ore"], ORE),
    "none": zone_file(),
    # the one ore block after a byte order mark, in other columns, with line breaks in cells, on blank lines
    "marked": MARK + ORE,
    "marked_plan": MARK + PLAN,
    "marked_two": MARK + zones(2),
    "turned": OTHER_ORE,
    "broken": b'rock,x,y,z,tonnes,grade,"no\nte"\n"a\n\nb",0,0,0,1000,5000,"\r\n"\n',
    "blank": b"\n\r\n" + ORE.replace(b"\n", b"\n\n\n"),
    "columns": b"zone,x,y,z,tonnes,grade\n0,0,0,0,1000,5000\n",
    "capitals": b"gRADE,tONNES,Z,y,x\n5000,1000,0,0,0\n",
    "late_again": zone_file(*LATE, LATE[0]),
    "written": b"Grade,TONNES,z,Y,X\n+5000.000000,01000.,-0,00,.0\n",
    "void": b"grade,tonnes,z,y,x",
    "wide": wide_rows(),
    "wide_more": wide_rows().rstrip() + b",1\n",
    "wide_less": wide_rows().rpartition(b",")[0] + b"\n",
    "far": zone_file(*reversed(FAR_ROWS)),
    "many_rows": zone_file(*LATE),
    **{f"more{count}": zone_file("0,0,10,1,0" + ",0" * count) for count in MORE},
    "waste": zone_file("10,0,0,1,0"),
    "void0": zone_file("0,0,0,0,0"),
    "void1": zone_file("10,0,0,0,0", "0,0,0,0,0"),
    "limited_zone": LIMITED[1],
    "cent_zone": CENT[1],
    "nine_zone": NINE[1],
    "same0": SAME[1],
    "same1": SAME[2],
    "empty": b"",
    "headless": b"x,y,z,grade\n0,0,0,1\n",
    "twice": zone_file("0,0,0,1,0", "0,0,0,1,0"),
    "off_grid_not": zone_file("20,0,0,1,0"),
    "off_grid": zone_file("5,0,0,1,0"),
    "off_grid_y": zone_file("0,9.999,0,1,0"),
    "off_range_z": zone_file("10,0,0,1,0", "0,0,-0.001,1,0"),
    "late": zone_file(*LATE, "0,0,0,1,?"),
    "early": zone_file("0,0,0,1,?"),
    **{f"many{file}": text for file, text in enumerate(MANY[1:])},
}

# The plan and the other arguments of a run, and its texts.
WRITTEN = [
    ("one_ore_block", "one --valuers 2 --capacity 1 ore", ONE_ORE_BLOCK),
    ("header_alone", "one none", NO_BLOCK),
    ("limits_and_coefficients", "limited limited_zone", LIMITED_TEXTS),
    ("nine blocks of many numbers", "nine --valuers 2 --capacity 4 nine_zone", NINE_TEXTS),
    ("no block in two files", "two none --valuers 1 void", NO_BLOCK),
    ("two zones in their order", "two --valuers 2 --capacity 1 waste ore", TWO_ZONES),
    ("a hundred periods without a resource", "hundred ore", plain_texts(HUNDRED, ORE)),
    ("a cent of metal", "cent cent_zone", plain_texts(*CENT)),
    ("blocks a power of two from one another", "one far", plain_texts(PLAN, zone_file(*FAR_ROWS))),
    ("898 rows", "one many_rows", plain_texts(PLAN, zone_file(*LATE))),
    ("as much as a plan may hold", "fullest fullest0 fullest1", fullest.TEXTS),
    *(
        (f"keys in capitals, blanks and empty cells, {number}",
         f"dressed{number} fullest0 fullest1", fullest.TEXTS)
        for number in range(3)
    ),
    # each of these is the second file, and the first one has none of its features
    *(
        (f"a file that is {second}, as the second", f"{plan} waste {second}", TWO_ZONES)
        for second, plan in [
            ("marked", "two"), ("turned", "two"), ("broken", "marked_two"), ("blank", "two"),
            ("columns", "marked_two"), ("written", "two"), ("wide", "two"),
        ]
    ),
]

# The plan and the other arguments of runs on the one ore block, and what goes through standard input.
ACCEPTED = [
    ("a good instance", "one ore", b""),
    ("the longest plan", "longest ore", b""),
    ("a zone file that is named as an option", "one -- --ore", b""),
    ("a zone file that is a pipe", "one /dev/stdin", ORE),
    ("a zone file with a blank in its name", ["one", "an ore"], b""),
    ("a mark in the plan", "marked_plan ore", b""),
    ("a mark in both", "marked_plan marked", b""),
    *((f"a file that is {name}", f"one {name}", b"") for name in [
        "marked", "turned", "broken", "blank", "columns", "capitals", "written", "wide"]),
    ("a pipe with a mark", "marked_plan /dev/stdin", OTHER_ORE),
]

# The report of runs that are refused, their plan and their other arguments.
REFUSED = [
    ("no plan", "plan: FeedFailed", "no/such/plan ore"),
    ("a hyphen as a plan", "plan: FeedFailed", "- ore"),
    ("a folder as a plan", "plan: FeedFailed", ". ore"),
    ("a plan that is too long", "plan: TooLong", "long ore"),
    ("an invalid plan", "plan row 1: Name", "faulty ore"),
    ("an invalid plan, and a file that is not there", "plan row 1: Name", "faulty no/such"),
    ("plan and zone file turned round", "plan row 1: Key", "ore one"),
    ("a limit that is there twice, its ends turned round", "plan row 11: Twice", "limited_twice ore"),
    ("periods after their limits", "plan row 8: Range", "late_periods ore"),
    ("a file that is not there", "file 3: FeedFailed", "one ore ore ore no/such"),
    ("the first of two that are not there", "file 0: FeedFailed", "one no/such ."),
    ("a hyphen as a zone file", "file 0: FeedFailed", "one -"),
    ("a zone file without a name", "file 0: FeedFailed", ["one", ""]),
    ("a path of 300 bytes to no file", "file 1: FeedFailed", ["two", "ore", LONG_PATH + "ore.csv"]),
    ("a path of 4,000 bytes to no file", "file 1: FeedFailed",
     ["two", "ore", LONGER_PATH + "ore.csv"]),
    ("a path that is longer than there may be", "file 0: FeedFailed",
     ["one", LONGER_PATH * 2 + "ore"]),
    ("a row off the grid along y", "file 0 row 2 column y: OffGrid", "one off_grid_y"),
    ("a row out of the grid along z", "file 1 row 3 column z: Range", "two ore off_range_z"),
    ("too few files", "settings: Files", "two ore"),
    ("too many files", "settings: Files", "one ore ore"),
    ("65 files for one zone", "settings: Files", ["one", *["ore"] * 65]),
    ("257 files for one zone", "settings: Files", ["one", *["ore"] * 257]),
    ("a block without tonnage that repeats one", "file 1 row 3 repeats file 0 row 2", "two void0 void1"),
    ("a block of other tonnes that repeats one", "file 1 row 3 repeats file 0 row 2", "two ore void1"),
    ("a wide row with a cell more", "file 0 row 2 column whole: Width", "one wide_more"),
    ("a wide row with a cell less", "file 0 row 2 column whole: Width", "one wide_less"),
    ("the last of 64 is invalid", "file 63 row 2 column grade: Number",
     ["many", *(f"many{file}" for file in range(63)), "early"]),
    ("a folder as a zone file", "file 0: FeedFailed", "one ."),
    ("a folder as the second zone file", "file 1: FeedFailed", "two ore ."),
    ("a folder after an invalid file", "file 0 row 2 column x: OffGrid", "two off_grid ."),
    ("a folder after a late fault", "file 0 row 900 column grade: Number", "two late ."),
    ("a folder before an invalid file", "file 0: FeedFailed", "two . off_grid"),
    ("a folder between a good and an invalid file", "file 1: FeedFailed", "three ore . early"),
    ("two folders", "file 0: FeedFailed", "two . ."),
    ("a folder and a file that is not there", "file 1: FeedFailed", "two . no/such"),
    ("an invalid file and one that is not there", "file 1: FeedFailed", "two early no/such"),
    ("an invalid row, then a header", "file 0 row 2 column grade: Number", "two early empty"),
    ("an invalid header, then a row", "file 0 row 1 column x: MissingColumn", "two empty early"),
    ("a late fault, then a header", "file 0 row 900 column grade: Number", "two late empty"),
    ("a row, then a poor header", "file 0 row 2 column grade: Number", "two early headless"),
    ("a late fault, a poor header", "file 0 row 900 column grade: Number", "two late headless"),
    ("no tonnes, then a row", "file 0 row 1 column tonnes: MissingColumn", "two headless early"),
    ("repeated, no tonnes", "file 2 row 1 column tonnes: MissingColumn", "three ore ore headless"),
    ("a late row that repeats the first", "file 0 row 900 repeats file 0 row 2", "one late_again"),
    ("a file that repeats itself", "file 0 row 3 repeats file 0 row 2", "two twice off_grid_not"),
    ("a file that repeats itself, a fault", "file 1 row 2 column x: OffGrid", "two twice off_grid"),
    ("a long plan, and a file that is not there", "plan: TooLong", "long no/such"),
    ("no plan, and a file that is not there", "plan: FeedFailed", "no/plan no/such"),
    ("the second and third invalid", "file 1 row 900 column grade: Number", "three ore late early"),
    ("the third invalid", "file 2 row 2 column x: OffGrid", "three ore waste off_grid"),
    ("a repetition, then a row", "file 2 row 2 column x: OffGrid", "three ore ore off_grid"),
    ("a repetition, then a folder", "file 2: FeedFailed", "three ore ore ."),
    ("a repetition, a header", "file 2 row 1 column x: MissingColumn", "three ore ore empty"),
    ("an invalid file of too few", "settings: Files", "two off_grid"),
    ("a folder of too few", "settings: Files", "two ."),
    ("invalid files of too many", "settings: Files", "one off_grid empty ."),
    ("too many, of which the last is not there", "file 2: FeedFailed", "one ore ore no/such"),
    ("empty_file", "file 0 row 1 column x: MissingColumn", "one empty"),
    ("a row off the grid", "file 1 row 2 column x: OffGrid", "two ore off_grid"),
    ("same_block_in_two_files", "file 1 row 4 repeats file 0 row 2", "same same0 same1"),
    ("one file for two zones", "file 1 row 2 repeats file 0 row 2", "two ore ore"),
    *(
        (f"{more} cells more in file {file}", f"file {file} row 2 column whole: Width",
         f"{others} more{more}")
        for more in MORE for file, others in [(0, "one"), (1, "two ore")]
    ),
    *(
        (
            f"late_fault_in_file_0 {valuers}",
            "file 0 row 900 column grade: Number",
            f"two {valuers} late early",
        )
        for valuers in ("--valuers 1", "--valuers 8")
    ),
]

# Arguments that resemble the command and options, followed by the arguments of a good run.
NEAR_WORDS = [
    *([word] for word in [
        "COMPILE", "Compile", "comp", "compiles", "--compile", "-compile", "compile ", " compile"]),
    ["--", "compile"], ["compile", "--out", "base"], ["compile", "--plan", "one"],
    ["compile", "--valuers=5", "--valuers=5"], ["compile", "--capacity=9", "--capacity=9"],
    *(["compile", f"--valuers={number}"] for number in ["0", "65", "4.0"]),
    *(["compile", word] for word in ["--val=4", "--capacity=0", "--capacity=4097"]),
]

# Rows of one invalid cell, and its column and fault.
INVALID_ROWS = [
    ("a,0,0,1,0", "x: Number"),
    ("0,5,0,1,0", "y: OffGrid"),
    ("0,0,0.0001,1,0", "z: TooFine"),
    ("0,0,0,-1,0", "tonnes: Range"),
    ("0,0,0,1,", "grade: Number"),
    ("0,0,0,1", "whole: Width"),
    *((f"0,0,0,{text},0", "tonnes: Number") for text in ["NaN", "n/a", "<", "inf"]),
]


def compile_arguments(arguments, base="base"):
    """The arguments of a run, and the files that they name besides the older ones."""
    arguments = arguments.split() if isinstance(arguments, str) else arguments
    files = {name: text for name, text in FILES.items() if name in arguments}
    return {"arguments": ["compile", "--out", base, "--plan", *arguments], "files": {**OLDER, **files}}


def writes(name, arguments, texts, base="base", **given):
    """A run that writes these texts."""
    out = b"rows %d\n" % texts["blocks"].count(b"\n")
    return Trial(name, out=out, left=at(base, texts), **compile_arguments(arguments, base), **given)


def files_that_are_written():
    for name, arguments, texts in WRITTEN:
        yield writes(name, arguments, texts)
    for name, arguments, given in ACCEPTED:
        yield writes(name, arguments, ONE_ORE_BLOCK, given=given)
    replaces = writes("a zone file that the run replaces", "one base.blocks", ONE_ORE_BLOCK)
    yield replaces._replace(files={**replaces.files, "base.blocks": ORE})
    name, base = "a base with a blank and a point", "an instance.v2"
    yield writes(name, "one ore", ONE_ORE_BLOCK, base)
    for name, base in [("zone file", "ore"), ("plan", "one"), ("folder", "place"), ("path", "place/"),
                       ("path after a folder", "place/../base"), ("path in a folder", "place/one")]:
        run = writes(f"a base that is a {name}", "one ore", ONE_ORE_BLOCK, base)
        left = {os.path.normpath(name) if ".." in name else name: text for name, text in run.left.items()}
        yield run._replace(files={**run.files, "place": Folder()}, left=left)
    for prefix in (LONG_PATH, "./" * 199 + "/", LONGER_PATH):
        far = compile_arguments("one ore", prefix + "base")
        far["arguments"][-2:] = [prefix + "one", prefix + "ore"]
        left = at("base", ONE_ORE_BLOCK)
        name = f"paths and a base of {len(prefix)} bytes"
        yield Trial(name, out=b"rows 1\n", left=left, **far)
    zones = " ".join(f"many{file}" for file in range(64))
    texts = plain_texts(*MANY)
    for arguments in ("--valuers 64 --capacity 1", "--valuers 1 --capacity 4096"):
        yield writes(f"sixty_four_files: {arguments}", f"many {arguments} {zones}", texts)


def sinks_that_fail():
    """A folder in place of a file, and a device that is full; then bases in no folder."""
    for name, put in (("put_folder", Folder()), ("put_full", Link("/dev/full"))):
        for place, failing in enumerate(ENDINGS):
            run = compile_arguments("one ore")
            run["files"][f"base.{failing}"] = put
            left = at("base", {ending: ONE_ORE_BLOCK[ending] for ending in ENDINGS[:place]})
            line = f"sink {failing}: SinkFailed"
            yield refused(f"{name} at the file {failing}", line, left=left, **run)
    for base in ("no/such/base", "ore/base"):
        run = compile_arguments("one ore", base)
        yield refused(f"a base in no folder: {base}", "sink blocks: SinkFailed", **run)


def trials():
    yield from files_that_are_written()
    yield from sinks_that_fail()
    for arguments in NEAR_WORDS:
        run = compile_arguments("one ore")
        run["arguments"] = [*arguments, *run["arguments"][1:]]
        yield Trial(f"the words {arguments}", 2, errors=Prefix(b"error: "), **run)
    for name, line, arguments in REFUSED:
        yield refused(name, line, **compile_arguments(arguments))
    for row, fault in INVALID_ROWS:
        run = compile_arguments("one odd")
        run["files"]["odd"] = zone_file(row)
        yield refused(f"the row {row}", f"file 0 row 2 column {fault}", **run)
