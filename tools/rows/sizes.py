"""Inputs, texts and arguments that are large.

Each row takes some seconds and some hundred megabytes at most, so they run one after the other. The row of five million blocks has 800 MB
of files.
"""
import functools
import shutil
import sys
import tempfile

from rows import instance, large
from rows.instance import arcs_of, at, plain_texts, sections, unlisted
from rows.trial import HEADER, MARK, Later, Pieces, Trial, piped, refused
from shared import CHECKED, ENDINGS, compile_arguments

ONE_AT_A_TIME = True

# The free bytes of disk that the rows' folders need.
ROOM = 2_000_000_000

# The largest number of bytes of an input or a zone file.
MOST = 268_435_456


def plan_of(zones=1, benches=1):
    """Returns a plan with a dump alone, and this number of benches above each block."""
    cones = [f"1,{benches},1"] * zones
    return instance.plan_of("dump,dump,200|", cones, grid="0,0,0,1,1,1")


ONE, TWO = plan_of(), plan_of(2)

# A cone that holds all of a bench above.
FLAT = plan_of(benches=1000)


def bench(z, wide, deep):
    """Returns the positions of a bench, in order of identifier."""
    return [(x, y, z) for y in range(deep) for x in range(wide)]


def rows(places):
    """A zone file of blocks of a tonne."""
    return HEADER + "".join("%d,%d,%d,1,0\n" % place for place in places).encode()


def texts_of(places, prec):
    """The texts of blocks of a tonne, with these lines of a precedence file."""
    blocks = "".join("%d %d %d %d 1 0 0|" % (block, *place) for block, place in enumerate(places))
    return instance.instance(blocks, prec, [-2] * len(places))


ONE_BLOCK, TWO_BLOCKS = texts_of(bench(0, 1, 1), "0 0|"), texts_of(bench(0, 2, 1), "0 0|1 0|")

OLDER = at("b", dict.fromkeys(ENDINGS, b"older\n"))


def compiles(*zones):
    """Returns the arguments of a run into the base `b`."""
    return compile_arguments("plan", "b", zones)


def million_rows(name):
    """The largest number of rows of a file, all of them valued by one valuer."""
    places = bench(0, 1000, 1000)
    left = at("b", texts_of(places, unlisted(0, 10**6)))
    arguments, files = [*compiles("zone"), "--valuers", "1"], {"plan": ONE, "zone": rows(places)}
    return Trial(name, arguments=arguments, files=files, out=b"rows 1000000\n", left=left)


def million_and_one(name):
    files = {**OLDER, "plan": ONE, "zone": rows([*bench(0, 1000, 1000), (0, 0, 1)])}
    line = "file 0 row 1000002 column whole: TooManyRows"
    return refused(name, line, arguments=compiles("zone"), files=files)


def two_files(name):
    """Two files with the largest number of rows, one above the other.

    A block has five predecessors, and -1 at each side.
    """
    zones = [rows(bench(z, 1000, 1000)) for z in (0, 1)]
    counts = "blocks 2000000 arcs 4996000 coefficients 0 limits 0 cpit 0"
    return arcs_of(name, counts, TWO, *zones)


def long_text(name):
    """20,000 blocks, each below each of 1,000: the precedence file has 120 MB."""
    low, high = bench(0, 200, 100), bench(1, 100, 10)
    count, whole = len(low), len(low + high)
    above = " 1000 " + " ".join(map(str, range(count, whole))) + "|"
    prec = "".join(f"{block}{above}" for block in range(count)) + unlisted(count, whole)
    out = sections(texts_of(low + high, prec))
    return Trial(name, given=piped(FLAT, rows(low + high)), out=out)


# A cell that is not read is between the two.
HEAD, END = b"x,y,z,tonnes,grade,rock\n0,0,0,1,0,", b"\n1,0,0,1,0,\n"


def long_input(size, name):
    """An input of the pipe form with a long cell."""
    text = piped(ONE, HEAD).ljust(size - len(END), b"b") + END
    return Trial(name, given=text, out=sections(TWO_BLOCKS))


def long_zone_file(size, name):
    mark = MARK if size == MOST else b""
    files = {"plan": ONE, "z": (mark + HEAD).ljust(size - len(END), b"b") + END}
    left = at("b", TWO_BLOCKS)
    return Trial(name, arguments=compiles("z"), files=files, out=b"rows 2\n", left=left)


def too_long():
    """Files of zeros, with the largest number of bytes, and +1."""
    files = {"input": bytes(MOST)}
    yield refused("the longest input", "plan: TooLong", source="input", files=files)
    files = {"input": bytes(MOST + 1)}
    yield refused("an input that is too long", "input: TooLong", source="input", files=files)
    files = {**OLDER, "plan": TWO, "ore": rows(bench(0, 1, 1)), "long": files["input"]}
    arguments = compiles("ore", "long")
    yield refused("a zone file that is too long", "file 1: TooLong", arguments=arguments, files=files)
    files["long"] = MARK + bytes(MOST - 2)
    name = "a zone file that is too long, of which three bytes are a mark"
    yield refused(name, "file 1: TooLong", arguments=arguments, files=files)
    files["ore"] = HEADER + b"0,0,0,1,?\n"
    line = "file 0 row 2 column grade: Number"
    yield refused("an invalid file before one that is too long", line, arguments=arguments, files=files)
    name, arguments = "a file that is too long before an invalid one", compiles("long", "ore")
    yield refused(name, "file 0: TooLong", arguments=arguments, files=files)
    marked = (MARK + b"x,y,z,tonnes,grade\n").ljust(MOST + 1, b"\n")
    name, files = "a file of blank lines, one byte too long", {"plan": ONE, "long": marked}
    yield refused(name, "file 0: TooLong", arguments=compiles("long"), files=files)
    files = at("b", {**ONE_BLOCK, "blocks": bytes(MOST + 1)})
    name = "a block file longer than a zone file may be"
    yield refused(name, "blocks line 1: Fields", arguments=["check", "b"], files=files)


def long_file(ending, name):
    """A text of an instance that is read after a remark of 200 MB."""
    remark = b"%" + b"x" * 200_000_000 + b"\n"
    counts = b"blocks 1 arcs 0 coefficients 0 limits 0 cpit 0\n"
    files = at("b", {**ONE_BLOCK, ending: remark + ONE_BLOCK[ending]})
    return Trial(name, arguments=["check", "b"], files=files, out=counts)


def five_million_piped(name):
    """A model beyond each count at which a list might appear full: its texts by the pipe form."""
    given = piped(large.PLAN, *large.zones())
    return Trial(name, source="input", files={"input": given}, out=Pieces(large.sections))


def five_million_blocks(name):
    """Its texts by `compile`, and what `check` counts of them."""
    files = {f"zone{number}": text for number, text in enumerate(large.zones())}
    return Trial(
        name,
        files={"plan": large.PLAN, **files},
        before=[compiles(*files)],
        arguments=["check", "b"],
        out=large.COUNTS.encode() + b"\n",
        left=at("b", large.TEXTS),
    )


def many_arguments():
    """The largest number of zone files that a plan may name, without a number of valuers, and extra arguments."""
    zones = {f"z{zone}": rows([(zone, 0, 0)]) for zone in range(64)}
    files, names = {"plan": plan_of(64), **zones}, list(zones)
    left = at("b", plain_texts(*files.values()))
    name = "sixty_four_files by the usual number of valuers"
    yield Trial(name, arguments=compiles(*names), files=files, out=b"rows 64\n", left=left)
    line, arguments = "file 64: FeedFailed", [*compiles(*names), "none"]
    yield refused("a zone file for each zone, of which one is not there", line, arguments=arguments, files=files)
    for count in (90, 300, 450):
        arguments = compiles(*(names[zone % 64] for zone in range(count)))
        name = f"{count} zone files for 64 zones"
        yield refused(name, "settings: Files", arguments=arguments, files=files)
        name, arguments = f"{count} zone files and one that is not there", [*arguments, "none"]
        yield refused(name, f"file {count}: FeedFailed", arguments=arguments, files=files)


def trials():
    folder = tempfile.gettempdir()
    if shutil.disk_usage(folder).free < ROOM:
        sys.exit(f"tools/rows/sizes.py: less than {ROOM} bytes are free in {folder}; set TMPDIR")
    yield Later("five million blocks, by the pipe form", five_million_piped)
    yield Later("five million blocks", five_million_blocks)
    yield from many_arguments()
    yield Later("a million rows", million_rows)
    yield Later("a million rows and one", million_and_one)
    yield Later("two_files_of_a_million_rows", two_files)
    yield Later("text_of_120_megabytes", long_text)
    for size in (150_000_000, MOST):
        yield Later(f"input of {size} bytes", functools.partial(long_input, size))
        yield Later(f"zone file of {size} bytes", functools.partial(long_zone_file, size))
    yield from too_long()
    for ending in CHECKED:
        yield Later(f"200 MB before b.{ending}", functools.partial(long_file, ending))
