"""What `check` counts of the files of an instance, and which files it reports as unreadable.

The table texts has the faults of their lines.
"""
import re

from rows import fullest
from rows.instance import (
    LIMITED_TEXTS, NINE_TEXTS, NO_BLOCK, ONE_ORE_BLOCK, TWO_ZONES, at, heading,
)
from rows.trial import MARK, Folder, Prefix, Trial, lines, refused
from rows.written import NAMES
from shared import CHECKED


def spoiled(parts):
    """Returns the texts of the one ore block, except for parts that are missing, folders, or of one line."""
    texts = dict(ONE_ORE_BLOCK)
    for ending, how in (part.split("=") for part in parts.split()):
        texts[ending] = Folder() if how == "folder" else lines(how + "|")
        if how == "missing":
            del texts[ending]
    return texts


# How many bytes of a file are read at a time.
PIECE = 262144


def across(bytes_before, text, ending="blocks"):
    """Returns the texts of the one ore block, one of which has this text at the end of the first chunk."""
    comment = b"%" + b"x" * (PIECE - bytes_before - 2) + b"\n"
    return {**ONE_ORE_BLOCK, ending: comment + text}


ONE_LINE = b" 0 0 0 0 1000 5000 0"

# What crosses the end of a chunk, by how many of its bytes come before.
ACROSS = [
    (f"{name}, of which the first piece has {before}", across(before, text, ending))
    for name, ending, text, places in [
        ("a line", "blocks", ONE_LINE[1:] + b"\n", (0, 1, 7, 20)),
        ("a last line without an end", "blocks", ONE_LINE[1:], (0, 1, 20)),
        ("CR LF", "blocks", ONE_LINE[1:] + b"\r\n", (20, 21, 22)),
        ("CR at the end", "blocks", ONE_LINE[1:] + b"\r", (20, 21)),
        ("blank lines", "blocks", b"\n \t\r\n\n" + ONE_LINE, (1, 2, 3, 4)),
        ("a comment", "blocks", b"  % 1\n" + ONE_LINE, (2, 3, 6)),
        ("a line longer than a piece", "blocks", b" " * 2 * PIECE + ONE_LINE, (0, 1)),
        ("a line of precedences", "prec", b"0 0\n", (0, 1, 4)),
    ]
    for before in places
]

NINE_COUNTS = "blocks 9 arcs 23 coefficients 576 limits 16 cpit 72"

# An instance, and what is counted.
COUNTED = [
    ("one_ore_block", ONE_ORE_BLOCK, "blocks 1 arcs 0 coefficients 0 limits 0 cpit 0"),
    ("header_alone", NO_BLOCK, "blocks 0 arcs 0 coefficients 0 limits 0 cpit 0"),
    ("limits_and_coefficients", LIMITED_TEXTS, "blocks 2 arcs 0 coefficients 1 limits 2 cpit 1"),
    (
        "nine blocks of many numbers",
        NINE_TEXTS,
        NINE_COUNTS,
    ),
    ("two zones in their order", TWO_ZONES, "blocks 2 arcs 0 coefficients 0 limits 0 cpit 0"),
    ("as much as a plan may hold", fullest.TEXTS, fullest.COUNTS),
    ("check cpit=missing", spoiled("cpit=missing"), "blocks 1 arcs 0 coefficients 0 limits 0"),
    *(
        (f"check {parts}", spoiled(parts), "blocks 1 arcs 0 coefficients 0 limits 0 cpit 0")
        for parts in ("upit=missing", "upit=x", "upit=folder")
    ),
    *(
        (name, texts, "blocks 1 arcs 0 coefficients 0 limits 0 cpit 0")
        for name, texts in ACROSS
    ),
]

# What is spoiled, and what `check` reports. Files are opened and read in this order, before any text is.
SPOILED = [
    ("blocks=missing prec=missing pcpsp=missing", "blocks: FeedFailed"),
    ("blocks=folder prec=missing pcpsp=missing", "blocks: FeedFailed"),
    ("blocks=x prec=missing pcpsp=missing", "prec: FeedFailed"),
    ("blocks=x prec=folder pcpsp=missing", "prec: FeedFailed"),
    ("blocks=x prec=x pcpsp=missing cpit=folder", "pcpsp: FeedFailed"),
    ("blocks=x prec=x pcpsp=folder cpit=folder", "pcpsp: FeedFailed"),
    ("blocks=x prec=x pcpsp=x cpit=folder", "cpit: FeedFailed"),
    ("blocks=x prec=x pcpsp=x cpit=x", "blocks line 1: Fields"),
    ("blocks=x cpit=missing", "blocks line 1: Fields"),
    ("prec=x pcpsp=x cpit=x", "prec line 1: Fields"),
    ("pcpsp=x cpit=x", "pcpsp line 1: Key"),
    ("pcpsp=x cpit=missing", "pcpsp line 1: Key"),
    ("cpit=x", "cpit line 1: Key"),
    ("cpit=folder", "cpit: FeedFailed"),
    ("upit=folder cpit=folder", "cpit: FeedFailed"),
    ("blocks=x upit=folder", "blocks line 1: Fields"),
    ("cpit=", "cpit line 2: Missing"),
    # what is wrong with a model file is reported after a folder in place of the CPIT
    ("pcpsp=x cpit=folder", "cpit: FeedFailed"),
    ("pcpsp= cpit=folder", "cpit: FeedFailed"),
    ("prec=x cpit=folder", "cpit: FeedFailed"),
    ("blocks=x cpit=folder", "cpit: FeedFailed"),
]


# Texts with a fault at the end of the first chunk, and the report.
INVALID = [
    ("a mark at the end of a piece", across(1, MARK + ONE_LINE[1:]), "blocks line 2: Number"),
    ("a fault after a piece", across(0, b"x\n\n0"), "blocks line 2: Fields"),
    ("a fault across the end of a piece", across(1, b"0 x\n"), "blocks line 2: Fields"),
    ("a missing line", across(1, b" \n%", "prec"), "prec line 4: Missing"),
]


# A base that resembles an existing one, and the report.
NEAR = [
    "BASE", "Base", "bas", "base.", "base.blocks", "base.prec", "base.pcpsp", "base.cpit", "base ",
    "base.blocks.", "./basement", "base/", "*", "bas?", "base.blocks/base",
]

# Endings in other letters, which are other files.
CAPITALS = [{ending: how(ending) for ending in CHECKED} for how in (str.upper, str.title)]


def near_bases():
    """Files that resemble the requested ones, which do not exist."""
    good = at("base", ONE_ORE_BLOCK)
    for base in NEAR:
        arguments, line = ["check", base], "blocks: FeedFailed"
        yield refused(f"near_bases: {base}", line, arguments=arguments, files=good)
    for number, formatted in enumerate(CAPITALS):
        files = {f"base.{formatted[ending]}": ONE_ORE_BLOCK[ending] for ending in CHECKED}
        name = f"near_bases: endings as {formatted['blocks']}"
        yield refused(name, "blocks: FeedFailed", arguments=["check", "base"], files=files)
        for ending in ("prec", "pcpsp"):
            files = {f"base.{end}": text for end, text in ONE_ORE_BLOCK.items() if end != ending}
            files[f"base.{formatted[ending]}"] = ONE_ORE_BLOCK[ending]
            name = f"near_bases: the ending {formatted[ending]}"
            yield refused(name, f"{ending}: FeedFailed", arguments=["check", "base"], files=files)
        files = {f"base.{end}": text for end, text in ONE_ORE_BLOCK.items() if end != "cpit"}
        files[f"base.{formatted['cpit']}"] = b"x\n"
        out = b"blocks 1 arcs 0 coefficients 0 limits 0\n"
        name = f"near_bases: the ending {formatted['cpit']}"
        yield Trial(name, arguments=["check", "base"], files=files, out=out)
    for arguments in NEAR_WORDS:
        errors = Prefix(b"error: ")
        yield Trial(f"near_bases: the words {arguments}", 2, arguments=arguments, files=good, errors=errors)
    # each file has its ending after a base that has one
    yield counted("near_bases: a base with an ending", *COUNTED[0][1:], base="base.blocks")


# Arguments that resemble those of a check.
NEAR_WORDS = [
    *([word, "base"] for word in [
        "CHECK", "Check", "chec", "c", "checks", "--check", "-check", "check ", " check"]),
    ["check base"], ["--", "check", "base"], ["check", "base", "base"],
    *(["check", word, "base"] for word in ["--base", "--out", "--quiet"]),
]


def at_its_ends(index, tonnes, zone, value, counts, rate, name):
    """The texts of two blocks that wait for each other, in which each number is at one end: one index along each axis, one number as
    tonnes and grade, one as value. The counts are those of periods, destinations and resources."""
    periods, destinations, resources = counts
    where = f"{resources - 1} {periods - 1}"
    blocks = "".join(f"{own} {index} {index} {index} {tonnes} {tonnes} {zone}|" for own in (0, 1))
    limits = f"RESOURCE_CONSTRAINT_LIMITS:|{where} I {value} {value}|"
    given = {"name": name, "blocks": 2, "periods": periods, "resources": resources, "rate": rate}

    def model_file(kind, count, place):
        values = "".join(f"{own}{f' {value}' * count}|" for own in (0, 1))
        head = heading(kind, destinations=destinations, **given)
        items = f"RESOURCE_CONSTRAINT_COEFFICIENTS:|{place} {resources - 1} {value}|"
        return lines(f"{head}OBJECTIVE_FUNCTION:|{values}{items}{limits}")

    pcpsp = model_file("PCPSP", destinations, f"1 {destinations - 1}")
    texts = [lines(blocks), b"0 1 1\n1 1 0\n", pcpsp, model_file("CPIT", 1, "1")]
    return dict(zip(CHECKED, texts))


ENDS = [
    ("the least", at_its_ends("0", "0", "0", -(10**18), (1, 1, 1), "0", "-")),
    ("the largest",
     at_its_ends("9999", "1000000", "63", 10**18, (100, 8, 8), "1", "Az_9." * 12 + "-09Z")),
    ("written in full", at_its_ends(
        "+09999.0", "001000000.0000", "063.", f"+{10**18}.0000000", (100, 8, 8), "1.000000", "a")),
    ("a millionth", at_its_ends(".0", "0.001", "-0", "-.000001", (1, 1, 1), ".000001", "0" * 64)),
]

# Other formats of a number, and of its sign and digits.
RESPELLED = {
    "a plus": lambda sign, digits: (sign or "+") + digits,
    "two leading zeros": lambda sign, digits: f"{sign}00{digits}",
    "seventy leading zeros": lambda sign, digits: sign + "0" * 70 + digits,
    "a trailing point": lambda sign, digits: sign + digits + "." * ("." not in digits),
    "seven zeros after the point": lambda sign, digits: sign + digits + "." * ("." not in digits) + "0" * 7,
    "seventy zeros after the point": lambda sign, digits: sign + digits + "." * ("." not in digits) + "0" * 70,
    "no digit before the point":
        lambda sign, digits: sign + (".0" if digits == "0" else digits[digits.startswith("0."):]),
    "minus nought": lambda sign, digits: ("-" if digits == "0" else sign) + digits,
}


def rewritten(text, how):
    """A text in which each number has this format."""
    def formatted_so(found):
        return RESPELLED[how](found[1], found[2])
    return re.sub(r"(?<![^ \n])(-?)(\d+(?:\.\d+)?)(?![^ \n])", formatted_so, text.decode()).encode()


def of_spellings():
    """Each number of an instance in another format, and names of all kinds."""
    limits = b"RESOURCE_CONSTRAINT_LIMITS:\n"
    noughts = at_its_ends("0", "0", "0", "0", (1, 1, 1), "0", "a")
    largest = at_its_ends("9999", "999999.875", "63", "-12345.678901", (100, 8, 8), "0.125", "a")
    more = limits + b"0 0 L 0.5\n0 99 G 2.25\n1 0 I -1.5 -0.75\n1 1 I 1 4294.967296\n" + \
        b"1 2 I 1 9007199254.740992\n1 3 I 1 18446744073709.551616\n"
    largest = {ending: text.replace(limits, more) for ending, text in largest.items()}
    for how in RESPELLED:
        nine = {ending: rewritten(text, how) for ending, text in NINE_TEXTS.items()}
        yield counted(f"nine blocks of many numbers with {how}", nine, NINE_COUNTS)
        for texts, count in ((noughts, 1), (largest, 7)):
            other = {ending: rewritten(text, how) for ending, text in texts.items()}
            name = f"each number with {how}: {count} limits"
            yield counted(name, other, f"blocks 2 arcs 2 coefficients 1 limits {count} cpit 1")
    for name in NAMES:
        key = f"NAME: {name}\n".encode()
        texts = {ending: text.replace(b"NAME: a\n", key) for ending, text in noughts.items()}
        yield counted(f"an instance by the name {name}", texts, "blocks 2 arcs 2 coefficients 1 limits 1 cpit 1")


# How many predecessors a block has, and how far apart the two equal ones are.
ABOVE, APART = 70, (1, 2, 3, 4, 5, 8, 9, 16, 17, 32, 33, 64, 69)


def counted(name, texts, counts, base="base"):
    return Trial(name, arguments=["check", base], files=at(base, texts), out=lines(counts + "|"))


def trials():
    for name, texts, counts in COUNTED:
        yield counted(name, texts, counts)
    yield counted("a base with a blank and a point", *COUNTED[0][1:], base="an instance.v2")
    near = counted("a base of 300 bytes", *COUNTED[0][1:])
    yield near._replace(arguments=["check", "./" * 150 + "base"])
    for name, texts, line in INVALID:
        yield refused(name, line, arguments=["check", "base"], files=at("base", texts))
    for name, texts in ENDS:
        counts = "blocks 2 arcs 2 coefficients 1 limits 1 cpit 1"
        yield counted(f"each number at its end: {name}", texts, counts)
    yield from of_spellings()
    yield from near_bases()
    for length in (401, 1_000, 4_000):
        base = "./" * ((length - 4) // 2) + "/" * ((length - 4) % 2) + "base"
        yield near._replace(name=f"a base of {length} bytes", arguments=["check", base])
    for parts, line in SPOILED:
        files = at("base", spoiled(parts))
        yield refused(f"check {parts}", line, arguments=["check", "base"], files=files)
    for name, base in [("a base in no folder", "no/such/base"), ("a base without a name", "")]:
        yield refused(name, "blocks: FeedFailed", arguments=["check", base])
