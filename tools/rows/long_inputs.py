"""Inputs, texts and outputs that are long, whose runs use little memory besides them: tools/effects measures it."""
from typing import Iterator, NamedTuple

from rows.instance import ONE_ORE_BLOCK, ORE, PLAN, at, instance, plan_of, sections, unlisted
from rows.sizes import FLAT, ONE, bench
from rows.sizes import rows as rows_of
from rows.trial import ANY, Link, Trial, piped, refused, zone_file
from shared import CHECKED, ENDINGS, compile_arguments

MEGABYTE = 1_000_000


class Long(NamedTuple):
    """A run of pitc, or of pitc_thin, and the megabytes that it uses for what it reads and prints, by docs/formats.md."""

    trial: Trial
    megabytes: int = 0
    is_thin: bool = False


def compiles(name: str, plan: bytes, *zones: bytes, **reported) -> Trial:
    """A compile of these zone files, which are named by their numbers."""
    names = [str(number) for number in range(len(zones))]
    files = {"plan": plan, **dict(zip(names, zones))}
    return Trial(name, arguments=compile_arguments("plan", "base", names), files=files, **reported)


def thinned(trial: Trial, out: bytes = b"", prec: bytes = b"") -> Trial:
    """The same by pitc_thin, which prints and writes these."""
    arguments = ["--plan", "plan", "--out", "thin", *trial.arguments[5:]]
    return trial._replace(arguments=arguments, out=out, left={"thin": prec} if prec else {})


# A zone file of many adjacent blocks, of which none waits for another, and one of one block; and their texts.
SIDE_BY_SIDE = zone_file(*(f"{x}0,0,0,1,0" for x in range(1, 3000)))
WASTE = "".join(f"{x} {x} 0 0 1 0 0|" for x in range(1, 3000))
TEXTS = instance("0 0 0 0 1000 5000 1|" + WASTE, unlisted(0, 3000), [12000, *[-15] * 2999])


def texts_of_blocks() -> Iterator[Long]:
    """Texts of some hundred kilobytes, by each command."""
    run = compiles("3,000 blocks", plan_of(cones=["1,1,1"] * 2), SIDE_BY_SIDE, ORE, out=b"rows 3000\n", left=at("base", TEXTS))
    yield Long(run, 1)
    yield Long(thinned(run, b"rows 3000 arcs 0 of 0\n", TEXTS["prec"]), 1, is_thin=True)
    yield Long(Trial("3,000 blocks by the pipe form", given=piped(*run.files.values()), out=sections(TEXTS)), 2)
    files = at("base", {ending: TEXTS[ending] for ending in CHECKED})
    counts = b"blocks 3000 arcs 0 coefficients 0 limits 0 cpit 0\n"
    yield Long(Trial("a check of 3,000 blocks", arguments=["check", "base"], files=files, out=counts))
    invalid = run._replace(files={**run.files, "1": ORE + b"x\n"})
    line = "file 1 row 3 column whole: Width"
    yield Long(refused("an invalid row next to them", line, arguments=run.arguments, files=invalid.files), 1)
    missing = refused("a file that is not there after them", "file 1: FeedFailed", arguments=[*run.arguments[:-1], "no/such.csv"], files=run.files)
    yield Long(missing)
    yield Long(thinned(missing), is_thin=True)


REMARK = b"%" + b"x" * 998 + b"\n"


def remarks(megabytes: int) -> bytes:
    """Returns this number of megabytes of lines that state nothing."""
    return REMARK * (megabytes * MEGABYTE // len(REMARK))


def texts_that_go_by() -> Iterator[Long]:
    """What is read after the first invalid line, and never reported: the remainder of its text, and the later texts."""
    for invalid, text, ending in [("prec", b"?\n" + remarks(128), "prec"), ("blocks", remarks(128), "prec")]:
        files = at("base", {**ONE_ORE_BLOCK, invalid: b"?\n", ending: text})
        name = f"128 MB of base.{ending} after an invalid line of base.{invalid}"
        yield Long(refused(name, f"{invalid} line 1: Fields", arguments=["check", "base"], files=files))


def long_texts() -> Iterator[Long]:
    """Each text of `check` after many remarks."""
    for ending in CHECKED:
        files = at("base", {**ONE_ORE_BLOCK, ending: remarks(128) + ONE_ORE_BLOCK[ending]})
        name = f"a check of 128 MB of base.{ending}"
        yield Long(Trial(name, arguments=["check", "base"], files=files, out=b"blocks 1 arcs 0 coefficients 0 limits 0 cpit 0\n"))


def long_outputs() -> Iterator[Long]:
    """300,000 rows; 20,000 blocks, each below each of 1,000; and the cone that has most rows."""
    left = at("base", dict.fromkeys(ENDINGS, ANY))
    rows = rows_of(bench(0, 600, 500))
    run = compiles("a compile of 300,000 rows", ONE, rows, out=b"rows 300000\n", left=left)
    yield Long(run, 28 + len(rows) // MEGABYTE)
    below, out = rows_of(bench(0, 200, 100) + bench(1, 100, 10)), b"rows 21000\n"
    but_one = {name: text for name, text in left.items() if name != "base.prec"}
    run = compiles("a precedence file of 120 MB", FLAT, below, out=out, left=but_one)
    yield Long(run._replace(files={**run.files, "base.prec": Link("/dev/null")}), 2)
    # A text's capacity doubles, and the old buffer coexists with the new one meanwhile.
    yield Long(Trial("120 MB by the pipe form", given=piped(FLAT, below), out=ANY), 4 * 120)
    plan = plan_of(cones=["1,1000,20"], grid="0,0,0,1,1,1")
    far, out = rows_of([(0, 0, 0), (0, 9999, 20)]), b"rows 2\n"
    yield Long(compiles("a cone over all rows", plan, far, out=out, left=left), 13)


# How many bytes a zone file has for which a list of bytes, whose capacity doubles, has little more.
WHOLE = 130_000_000


def long_files() -> Iterator[Long]:
    """A zone file that is long, and has one row: it is in memory once as a whole."""
    run = compiles("a compile of a zone file of 130 MB", PLAN, ORE.ljust(WHOLE, b"\n"), out=b"rows 1\n", left=at("base", ONE_ORE_BLOCK))
    yield Long(run, 134)
    yield Long(thinned(run, b"rows 1 arcs 0 of 0\n", b"0 0\n"), 134, is_thin=True)


# Each makes its rows one by one, since they are large.
GROUPS = [long_outputs, long_files, long_texts, texts_that_go_by, texts_of_blocks]
