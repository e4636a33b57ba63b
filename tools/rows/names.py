"""Names that users have: plans, zone files, bases and files are read and written under the given name, byte for byte, and other files with
similar names stay unchanged.

A name of bytes that are no UTF-8 is refused, whatever it names.
"""
import os

from rows.instance import ONE_ORE_BLOCK, ORE, PLAN, at
from rows.trial import Folder, Trial, refused
from shared import compile_arguments

# A name, and others that some programs confuse with it.
NAMES = [
    ("zon\u00e9.csv", ["zone\u0301.csv", "zone.csv", "ZON\u00c9.CSV"]),
    ("zone\u0301.csv", ["zon\u00e9.csv"]),
    ("\u043f\u043b\u0430\u043d \u2116 1.csv", ["\u043f\u043b\u0430\u043d"]),
    ("a=b.csv", ["a", "b.csv", "a=b"]),
    ("a,b.csv", ["a", "b.csv"]),
    ("a:b;c|d&e.csv", ["a", "b", "e.csv"]),
    (" z.csv", ["z.csv"]),
    ("z.csv ", ["z.csv"]),
    ("z.csv\t", ["z.csv"]),
    ("z\n.csv", ["z", ".csv"]),
    ("'z'.csv", ["z.csv"]),
    ('"z".csv', ["z.csv"]),
    ("$HOME", ["HOME"]),
    ("%41.csv", ["A.csv"]),
    ("*", ["z.csv"]),
    ("~", ["z.csv"]),
    ("z\\.csv", ["z.csv"]),
    ("...", ["z.csv"]),
    ("\ufeffz.csv", ["z.csv"]),
]

# The longest name that a file may have, in bytes; a base is shorter by an ending.
LONGEST = 255
ENDING = len(".blocks")

NOT_UTF8 = os.fsdecode(b"z\xE9.csv")


def named(length, letter="n"):
    """Returns a name with this number of bytes."""
    return letter * length


def rows_of(name, near, base=None):
    """Runs that read a plan and a zone file in place of each other's names, and those that write and check a base."""
    base, beside = name if base is None else base, dict.fromkeys(near, b"near\n")
    wanted = {"out": b"rows 1\n", "left": at(base, ONE_ORE_BLOCK)}
    for what, plan, zone in [("plan", name, "ore"), ("zone file", "one", name)]:
        files = {**beside, plan: PLAN, zone: ORE}
        arguments = compile_arguments(plan, base, [zone])
        yield Trial(f"a {what} by the name {name[:20]!r}", arguments=arguments, files=files, **wanted)
    counts = b"blocks 1 arcs 0 coefficients 0 limits 0 cpit 0\n"
    files = {**beside, **at(base, ONE_ORE_BLOCK)}
    yield Trial(f"a check of {name[:20]!r}", arguments=["check", base], files=files, out=counts)
    # the same with only the similar names
    for other in near[:1]:
        files = {"one": PLAN, other: ORE}
        arguments = compile_arguments("one", "base", [name])
        yield refused(f"{other[:20]!r} alone in the place of {name[:20]!r}", "file 0: FeedFailed", arguments=arguments, files=files)


def in_folders():
    """Names in folders whose names have the largest length: paths of 500 bytes and of 1,500."""
    for depth in (2, 6):
        folders = [named(LONGEST - 5, letter) for letter in "abcdef"[:depth]]
        paths = {"/".join(folders[: count + 1]): Folder() for count in range(depth)}
        place = "/".join(folders) + "/"
        given = {**paths, place + "one": PLAN, place + "ore": ORE}
        arguments = compile_arguments(place + "one", place + "base", [place + "ore"])
        wanted = {"out": b"rows 1\n", "left": at(place + "base", ONE_ORE_BLOCK)}
        yield Trial(f"paths of {len(place)} bytes", arguments=arguments, files=given, **wanted)
        counts = b"blocks 1 arcs 0 coefficients 0 limits 0 cpit 0\n"
        files = {**paths, **at(place + "base", ONE_ORE_BLOCK)}
        arguments = ["check", place + "base"]
        yield Trial(f"a check in {len(place)} bytes", arguments=arguments, files=files, out=counts)


def too_long():
    """Names that are longer than allowed."""
    name, files = named(LONGEST + 1), {"one": PLAN, "ore": ORE}
    for line, arguments in [
        ("plan: FeedFailed", compile_arguments(name, "base", ["ore"])),
        ("file 0: FeedFailed", compile_arguments("one", "base", [name])),
        ("sink blocks: SinkFailed", compile_arguments("one", named(LONGEST - ENDING + 1), ["ore"])),
        ("blocks: FeedFailed", ["check", named(LONGEST - ENDING + 1)]),
    ]:
        yield refused(f"a name that is too long: {line}", line, arguments=arguments, files=files)


def of_no_text():
    """Names of existing files that are not UTF-8."""
    files = {"one": PLAN, "ore": ORE, NOT_UTF8: ORE, **at(NOT_UTF8, ONE_ORE_BLOCK)}
    for what, arguments in [
        ("a plan", compile_arguments(NOT_UTF8, "base", ["ore"])),
        ("a base", compile_arguments("one", NOT_UTF8, ["ore"])),
        ("a zone file", compile_arguments("one", "base", [NOT_UTF8])),
        ("a second zone file", compile_arguments("one", "base", ["ore", NOT_UTF8])),
        ("a base of check", ["check", NOT_UTF8]),
    ]:
        name = f"{what} by a name that is not UTF-8"
        yield refused(name, "command line: NotUtf8", arguments=arguments, files=files)


def trials():
    for name, near in NAMES:
        yield from rows_of(name, near)
    yield from rows_of(named(LONGEST), [named(LONGEST - 1), named(LONGEST, "N")], named(LONGEST - ENDING))
    yield from in_folders()
    yield from too_long()
    yield from of_no_text()
