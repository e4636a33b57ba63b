"""MineLib texts by `pitc check`: the counts of those that are accepted, and the first invalid line of the others."""
import itertools
import random
import re
from typing import NamedTuple, Optional, Sequence, Union

from rows import fullest
from rows.cells import (
    BLANKS, EVERY_BYTE, LETTERS, Cell, bytes_about_a_name, pairs_of_faults, two_kinds_of_faults, with_cell,
)
from rows.instance import LIMITED_TEXTS, NO_BLOCK, ONE_ORE_BLOCK, at, heading
from rows.trial import MARK, Trial, lines, refused, short
from shared import CHECKED, header


def number_of(text, line):
    """The number of a line, counted from 1. It is given as a number or as a word of its key, as `NPERIODS`, also with a distance, as
    `LIMITS+2`."""
    if isinstance(line, int):
        return line
    word, more = re.fullmatch(r"(\w+)([+-]\d+)?", line).groups()
    keys = [other.partition(":")[0] for other in text]
    key = next(key for key in keys if word in [key, *key.split("_")])
    return keys.index(key) + 1 + int(more or 0)


class Change(NamedTuple):
    """Lines that replace this number from a line on, or all."""

    line: Union[int, str]
    count: Optional[int]
    others: Sequence[str]

    def of(self, text):
        first = number_of(text, self.line) - 1
        rest = text[first + self.count :] if self.count is not None else []
        return [*text[:first], *self.others, *rest]


def put(line, other):
    return Change(line, 1, [other])


def before(line, other):
    return Change(line, 0, [other])


def without(line):
    return Change(line, 1, [])


def cut_before(line):
    return Change(line, None, [])


def whole(text):
    return "".join(line + "\n" for line in text).encode()


def lines_of(text):
    return text.decode().splitlines()


# Two blocks under a mill and a dump, with a resource and its limits.
BLOCKS, PREC = LIMITED_TEXTS["blocks"], b"0 1 1\n1 0\n"
PCPSP, CPIT = (lines_of(LIMITED_TEXTS[ending]) for ending in ("pcpsp", "cpit"))
TWO_BLOCKS = "blocks 2 arcs 1 coefficients 1 limits 2"

# One block under a mill.
ONE_BLOCK, ONE_PREC = ONE_ORE_BLOCK["blocks"], ONE_ORE_BLOCK["prec"]
ONE_PCPSP = lines_of(ONE_ORE_BLOCK["pcpsp"])

# The texts of no block.
NO_PCPSP, NO_CPIT = NO_BLOCK["pcpsp"], NO_BLOCK["cpit"]
NO_BLOCKS = "blocks 0 arcs 0 coefficients 0 limits 0"

# The fields of lines, by docs/formats.md: they count kilograms, millionths or integers. Each line is the second of two blocks, or the first
# of its section. There are two resources.
INDEX, BLOCK, RESOURCE = Cell("0", 0, 0, 9999), Cell("1", 0, 0, 1), Cell("0", 0, 0, 1)
VALUE = Cell("1", 6, -(10**24), 10**24)
SMALLEST = VALUE._replace(good="-1000000000000000000")
LARGEST = VALUE._replace(good="1000000000000000000")
AT_MOST, AT_LEAST, BETWEEN = Cell("L"), Cell("G"), Cell("I", stays=True)
MASS, GRADE, ZONE = Cell("1", 3, 0, 10**9), Cell("1", 6, 0, 10**12), Cell("0", 0, 0, 63)

# The fields of a line, and the kinds for numbers in range that replace the only valid one.
BLOCK_LINE = [Cell("1", 0, 0, 63_999_999), INDEX, INDEX, INDEX, MASS, GRADE, ZONE], ["Order"]
PREC_LINE = [BLOCK, BLOCK, RESOURCE], ["Order", "Count", "Twice"]
LIMIT_LINES = [
    ([RESOURCE, BLOCK, AT_MOST, VALUE], []),
    ([RESOURCE, BLOCK, AT_LEAST, VALUE], []),
    ([RESOURCE, BLOCK, BETWEEN, SMALLEST, LARGEST], []),
]

# The second line of the objective, and the only one of each other section; then those of limits.
LINES_OF_A_PCPSP = [
    ("OBJECTIVE+2", ([BLOCK, VALUE, VALUE], ["Order"])),
    ("COEFFICIENTS+1", ([BLOCK, BLOCK, RESOURCE, VALUE], [])),
]

LINES_OF_A_CPIT = [
    ("OBJECTIVE+2", ([BLOCK, VALUE], ["Order"])),
    ("COEFFICIENTS+1", ([BLOCK, RESOURCE, VALUE], [])),
]

# The header keys with a number, where there is no block.
HEADER_NUMBERS = {
    "NBLOCKS": Cell("0", 0, 0, 64_000_000),
    "NPERIODS": Cell("1", 0, 1, 100),
    "NDESTINATIONS": Cell("1", 0, 1, 8),
    "NRESOURCE_SIDE_CONSTRAINTS": Cell("0", 0, 0, 8),
    "NGENERAL_SIDE_CONSTRAINTS": Cell("0", 0, 0, 0),
    "DISCOUNT_RATE": Cell("0.1", 6, 0, 10**6),
}

# Faults of model files, of each kind at every place that can have it: the number of the line that is reported and the kind, and the lines
# that have it in place of that line, or changes.
FAULTS_OF_A_PCPSP = [
    ("NAME", "Fields", "NAME:", "NAME: one two"),
    ("NAME", "Name", "NAME: o/e", 'NAME: "one"', "NAME: one\r ", "NAME: one%", "NAME: one,"),
    ("NAME", "Name", "NAME: a:b", "NAME: a+b", "NAME: one:", "NAME: " + "n" * 65, "NAME: on\u00e9"),
    ("NAME", "Key", "NAMES: one", "name: one", "one", "NAME = one", "NAME one", "NAME; one",
     "N AME: 1"),
    ("TYPE", "Key", "TYPE = PCPSP", "TY PE: PCPSP"),
    ("TYPE", "Name", "TYPE: CPIT", "TYPE: pcpsp", "TYPE: PCPSPS", "TYPE: PCPS", "TYPE: UPIT", "TYPE: Pcpsp"),
    ("TYPE", "Twice", "NAME: one"),
    ("NBLOCKS", "Count", "NBLOCKS: 3", "NBLOCKS: 64000000", "NBLOCKS: 1", "NBLOCKS: 0"),
    ("NBLOCKS", "Range", "NBLOCKS: 64000001"),
    ("NBLOCKS", "Number", "NBLOCKS: x"),
    ("NBLOCKS", "TooFine", "NBLOCKS: 2.5"),
    ("NPERIODS", "Range", "NPERIODS: 0", "NPERIODS: 101"),
    ("NDESTINATIONS", "Range", "NDESTINATIONS: 0", "NDESTINATIONS: 9"),
    ("NRESOURCE_SIDE_CONSTRAINTS", "Range", "NRESOURCE_SIDE_CONSTRAINTS: 9"),
    ("NGENERAL_SIDE_CONSTRAINTS", "Range", "NGENERAL_SIDE_CONSTRAINTS: 1"),
    ("NGENERAL_SIDE_CONSTRAINTS", "Fields", "NGENERAL_SIDE_CONSTRAINTS: 0 0",
     "NGENERAL_SIDE_CONSTRAINTS: 1 1"),
    ("RATE", "Key", "DISCOUNT RATE: 0.1", "DISCOUNT_RATE = 0.1", "DISCOUNT-RATE: 0.1", "RATE: 0.1"),
    ("RATE", "Number", "DISCOUNT_RATE: 10%", "DISCOUNT_RATE: 0,1", "DISCOUNT_RATE: 0.1\r "),
    ("RATE", "Range", "DISCOUNT_RATE: 1.000001"),
    ("RATE", "TooFine", "DISCOUNT_RATE: 0.0000001"),
    ("OBJECTIVE-1", "Missing", without("RATE")),
    ("OBJECTIVE", "Fields", "OBJECTIVE_FUNCTION: 1"),
    ("OBJECTIVE", "Key", "RESOURCE_CONSTRAINT_COEFFICIENTS:", without("OBJECTIVE")),
    # a section out of turn while keys are missing, and one in turn while lines are missing
    ("OBJECTIVE-1", "Key", Change("OBJECTIVE-1", 2, ["RESOURCE_CONSTRAINT_COEFFICIENTS:"]),
     Change("OBJECTIVE-1", 2, ["EOF:"])),
    ("OBJECTIVE-1", "Key", Change("OBJECTIVE-1", 2, ["RESOURCE_CONSTRAINT_LIMITS: 1"]),
     Change("OBJECTIVE-1", 2, ["0 12000 -2000"])),
    ("OBJECTIVE-1", "Twice", Change("OBJECTIVE-1", 2, ["NAME: one two"])),
    ("OBJECTIVE+2", "Fields", Change("OBJECTIVE+2", 2, ["RESOURCE_CONSTRAINT_COEFFICIENTS: 1"])),
    ("OBJECTIVE+2", "Key", Change("OBJECTIVE+2", 2, ["RESOURCE_CONSTRAINT_LIMITS:"]),
     Change("OBJECTIVE+2", 2, ["EOF:"])),
    ("OBJECTIVE+1", "Key", "0 1:1", "0 12000 -2000:", ":", ": 0 12000 -2000", "0:", "NAME: one"),
    ("OBJECTIVE+1", "Fields", "0 12000"),
    ("OBJECTIVE+1", "Range", "2 12000 -2000"),
    ("OBJECTIVE+1", "Order", "1 12000 -2000"),
    ("OBJECTIVE+1", "Number", "0 12000 ?", "1 ? -2000"),
    ("OBJECTIVE+2", "Missing", without("OBJECTIVE+2")),
    ("COEFFICIENTS", "Order", before("COEFFICIENTS", "1 0 0"), before("COEFFICIENTS", "0 0 0")),
    ("COEFFICIENTS", "Range", before("COEFFICIENTS", "2 1 1"), before("COEFFICIENTS", "2 ? 1"),
     before("COEFFICIENTS", "-1 1 1")),
    ("COEFFICIENTS", "Number", before("COEFFICIENTS", "1 ? 0"), before("COEFFICIENTS", "0 0 ?")),
    ("COEFFICIENTS", "Fields", before("COEFFICIENTS", "1 0"), before("COEFFICIENTS", "2 0 0 0")),
    ("COEFFICIENTS", "Key", before("COEFFICIENTS", "NPERIODS: 2"), before("COEFFICIENTS", "1 0:0"),
     before("COEFFICIENTS", "END:")),
    ("COEFFICIENTS+1", "Fields", "0 0 1000"),
    ("COEFFICIENTS+1", "Range", "0 2 0 1000", "0 0 1 1000"),
    ("LIMITS", "Order", before("COEFFICIENTS+1", "0 0 0 1000")),
    ("LIMITS", "Missing", cut_before("LIMITS")),
    ("COEFFICIENTS+1", "Key", "0 0 0:1000", "EOF: 0"),
    ("COEFFICIENTS+1", "Range", "2 0 0 ?", "0 0 -1 1000"),
    ("LIMITS+1", "Fields", "0", "0 0", "0 0 L", "0 0 L 1 2", "0 0 IN 1 2", "0 0 I", "0 0 I 1 2 3"),
    ("LIMITS+1", "Fields", "0 9 ? 1 2", "9 9 ? 1 2", "9 9 I 1", "?"),
    ("LIMITS+1", "Name", "0 0 E 1", "0 0 IN 1", "0 0 L% 1", '0 0 "L" 1', "0 0 l 1", "0 0 < 1"),
    ("LIMITS+1", "Key", "0 0 L: 1", "0:0 L 1"),
    ("LIMITS+1", "Number", "0 0 L 1%", "0 0 L %", "0 0 I 2 x", "0 0 I x 1", "0 0 L 1\r ",
     "0 0 G -inf"),
    ("LIMITS+1", "Range", "0 2 I 2 1", "1 0 I 2 1", "2 9 ? 1"),
    ("LIMITS+1", "Order", "0 0 I 2.000001 2", "0 0 I -1 -2", "0 0 I 0.000001 0",
     "0 0 I 0 -0.000001"),
    ("LIMITS+1", "Range", "0 2 L 1"),
    ("LIMITS+2", "Fields", "0 1 I 0"),
    ("LIMITS+2", "Order", "0 1 I 901 900", "0 0 G 1", "0 0 I 1 2", "0 0 I 2 1", "0 0 L 500.5"),
    ("LIMITS+3", "Order", before("LIMITS+3", "0 1 I 0 900"), before("LIMITS+3", "0 0 L 1"),
     before("LIMITS+3", "0 1 L 1")),
    ("LIMITS+1", "Order", "0 0 I 1000000000000 999999999999.999999",
     "0 0 I 999999999999999999.999999 999999999999999999.999998",
     "0 0 I -999999999999.999999 -1000000000000"),
    # no remark after a field or a value
    ("NAME", "Fields", "NAME: one % x", "NAME: one %x", "NAME: one\t% x"),
    ("TYPE", "Fields", "TYPE: PCPSP % x"),
    ("RATE", "Fields", "DISCOUNT_RATE: 0.1 % x"),
    ("OBJECTIVE", "Fields", "OBJECTIVE_FUNCTION: % x"),
    ("OBJECTIVE+1", "Fields", "0 12000 -2000 %", "0 12000 -2000 % x", "0 12000 % 5 5"),
    ("OBJECTIVE+1", "Number", "0 12000 %", "0 % -2000", "0 12000 -2000%"),
    ("COEFFICIENTS+1", "Fields", "0 0 0 1000 % x", "0 0 0 1000 %"),
    ("COEFFICIENTS+1", "Number", "0 0 0 %"),
    ("LIMITS+1", "Fields", "0 0 L 500.5 % x", "0 0 L 500.5 %", "0 0 L % 1"),
    # another number of fields before a line that is not the next
    ("OBJECTIVE+2", "Fields", "0 12000", "0 12000 -2000 5", "0 12000 -2000 5 5", "0", "5"),
    ("OBJECTIVE+2", "Order", "0 12000 -2000", "00 12000 -2000", "-0 1 1"),
    ("LIMITS+3", "Key", before("LIMITS+3", "EOF:"), before("LIMITS+3", "OBJECTIVE_FUNCTION:")),
    ("LIMITS+3", "Fields", before("LIMITS+3", "EOF"), before("LIMITS+3", "0 1 I")),
    ("LIMITS+3", "Key", before("LIMITS+3", "NPERIODS: 2"), before("LIMITS+3", "NAME: one")),
    ("OBJECTIVE+1", "Missing", Change("OBJECTIVE+1", 2, [])),
    ("LIMITS+1", "Name", "0 0 LL 1", "0 0 i 1"), ("LIMITS+1", "Fields", "0 0 i 1 2"),
    ("LIMITS", "Order", before("COEFFICIENTS+1", "1 1 0 5"), before("COEFFICIENTS+1", "0 1 0 5")),
    # the last line of a section
    ("OBJECTIVE+2", "TooFine", "1 0 0.0000001"),
    ("LIMITS", "Fields", before("LIMITS", "1 0 0")),
    ("LIMITS", "Number", before("LIMITS", "1 0 0 ?")),
    ("LIMITS", "TooFine", before("LIMITS", "1 0.5 0 1")),
    ("LIMITS", "Range", before("LIMITS", "1 2 0 1")),
    ("LIMITS+2", "Number", "0 1 L x"),
    ("LIMITS+2", "TooFine", "0 1 L 0.0000001"),
    ("LIMITS+2", "Range", "0 2 G 1"),
    ("LIMITS+2", "Name", "0 1 < 1"),
]

FAULTS_OF_ONE_ORE_BLOCK = [
    ("TYPE", "Name", "TYPE: CPIT"),
    ("NBLOCKS", "Count", "NBLOCKS: 2"),
    ("NBLOCKS", "Range", "NBLOCKS: 64000001"),
    ("NGENERAL_SIDE_CONSTRAINTS", "Range", "NGENERAL_SIDE_CONSTRAINTS: 1"),
    ("OBJECTIVE-1", "Missing", without("RATE")),
    ("OBJECTIVE+1", "Missing", without("OBJECTIVE+1"), cut_before("OBJECTIVE+1")),
    ("LIMITS", "Missing", without("LIMITS")),
    ("LIMITS", "Range", before("LIMITS", "0 0 0 5")),
    ("LIMITS+1", "Key", before("LIMITS+1", "RESOURCE_CONSTRAINT_LIMITS:")),
    ("COEFFICIENTS", "Range", before("COEFFICIENTS", "1 0"), before("COEFFICIENTS", "2 1"),
     before("COEFFICIENTS", "1 ?")),
    ("COEFFICIENTS", "Order", before("COEFFICIENTS", "0 0")),
    ("LIMITS+1", "Range", before("LIMITS+1", "0 0 L 1"), before("LIMITS+1", "0 0 I 2 1")),
    ("COEFFICIENTS", "Fields", before("COEFFICIENTS", "0 12000 5"), before("COEFFICIENTS", "0")),
    ("LIMITS+1", "Fields", before("LIMITS+1", "0 0 I 1"), before("LIMITS+1", "EOF")),
]

FAULTS_OF_A_CPIT = [
    ("TYPE", "Name", "TYPE: PCPSP", "TYPE: cpit", "TYPE: CPITS", "TYPE: CPI", "TYPE: UPIT", "TYPE: Cpit"),
    ("NRESOURCE_SIDE_CONSTRAINTS", "Key", before("NRESOURCE_SIDE_CONSTRAINTS", "NDESTINATIONS: 2"),
     before("NRESOURCE_SIDE_CONSTRAINTS", "NGENERAL_SIDE_CONSTRAINTS: 0")),
    ("NAME", "Name", 'NAME: "one"', "NAME: one\r ", "NAME: o/e"),
    ("NAME", "Name", "NAME: a:b", "NAME: a+b", "NAME: one:", "NAME: " + "n" * 65, "NAME: on\u00e9"),
    ("LIMITS+3", "Key", before("LIMITS+3", "NPERIODS: 2"), before("LIMITS+3", "NAME: one")),
    ("NAME", "Key", "NAME = one", "NAME one"),
    ("RATE", "Key", "DISCOUNT RATE: 0.1", "DISCOUNT_RATE = 0.1", "DISCOUNT-RATE: 0.1"),
    ("OBJECTIVE", "Key", "OBJECTIVE FUNCTION:", "OBJECTIVE-FUNCTION:", "OBJECTIVE_FUNCTION"),
    ("RATE", "Number", "DISCOUNT_RATE: 10%", "DISCOUNT_RATE: 0.1\r "),
    ("OBJECTIVE-1", "Key", Change("OBJECTIVE-1", 2, ["RESOURCE_CONSTRAINT_COEFFICIENTS:"]),
     Change("OBJECTIVE-1", 2, ["0 12000"])),
    ("OBJECTIVE-1", "Missing", without("RATE")),
    ("OBJECTIVE+1", "Fields", "0 12000 0", "0"),
    ("OBJECTIVE+2", "Fields", "0 12000 5", "0 12000 5 5", "0", "5"),
    ("OBJECTIVE+2", "Order", "0 12000", "00 5"),
    ("NAME", "Fields", "NAME: one % x"),
    ("TYPE", "Fields", "TYPE: CPIT % x"),
    ("OBJECTIVE+1", "Fields", "0 12000 % x", "0 12000 %"),
    ("OBJECTIVE+1", "Number", "0 %"),
    ("OBJECTIVE+1", "Missing", Change("OBJECTIVE+1", 2, [])),
    ("COEFFICIENTS+1", "Fields", "0 0 1000 % x"),
    ("LIMITS+1", "Fields", "0 0 L 500.5 % x"),
    ("LIMITS+1", "Order", "0 0 I 1000000000000 999999999999.999999"),
    ("OBJECTIVE+1", "Key", "0:12000", "0 12000:", "NAME: one"),
    ("OBJECTIVE+2", "Missing", without("OBJECTIVE+2")),
    ("OBJECTIVE+2", "Fields", Change("OBJECTIVE+2", 2, ["RESOURCE_CONSTRAINT_COEFFICIENTS: 1"])),
    ("OBJECTIVE+2", "Key", Change("OBJECTIVE+2", 2, ["RESOURCE_CONSTRAINT_LIMITS:"])),
    ("COEFFICIENTS", "Order", before("COEFFICIENTS", "1 0"), before("COEFFICIENTS", "0 0")),
    ("COEFFICIENTS", "Range", before("COEFFICIENTS", "2 1"), before("COEFFICIENTS", "2 ?")),
    ("COEFFICIENTS", "Number", before("COEFFICIENTS", "1 ?"), before("COEFFICIENTS", "0 ?")),
    ("COEFFICIENTS", "Fields", before("COEFFICIENTS", "1"), before("COEFFICIENTS", "2 0 0")),
    ("COEFFICIENTS+1", "Fields", "0 0 0 1000"),
    ("COEFFICIENTS+1", "Range", "2 0 1000"),
    ("LIMITS", "Order", before("COEFFICIENTS+1", "0 0 7")),
    ("LIMITS+1", "Fields", "0 0 G", "0 0", "0", "0 0 IN 1 2", "0 0 I 1"),
    ("LIMITS+1", "Name", "0 0 E 1", "0 0 IN 1", "0 0 < 1", "0 0 LL 1", "0 0 i 1"),
    ("LIMITS+1", "Fields", "0 0 i 1 2"),
    ("LIMITS", "Order", before("COEFFICIENTS+1", "1 0 5")), ("OBJECTIVE+1", "Order", "1 12000"),
    ("LIMITS+1", "Number", "0 0 G -inf", "0 0 L %"),
    ("LIMITS+1", "Range", "1 0 L 1", "0 2 I 2 1"),
    ("LIMITS+1", "Order", "0 0 I 2.000001 2", "0 0 I 0 -0.000001"),
    ("LIMITS+2", "Order", "0 0 G 1", "0 1 I 2 1"),
    ("LIMITS+3", "Order", before("LIMITS+3", "0 1 I 0 900"), before("LIMITS+3", "0 0 L 1")),
    ("LIMITS+3", "Fields", before("LIMITS+3", "EOF")),
    ("LIMITS+3", "Key", before("LIMITS+3", "EOF:")),
    ("NBLOCKS", "Count", "NBLOCKS: 3", "NBLOCKS: 1", "NBLOCKS: 0"),
    ("NPERIODS", "Range", "NPERIODS: 101"),
    ("RATE", "TooFine", "DISCOUNT_RATE: 0.0000001"),
    ("RATE", "Twice", "NAME: one"),
    ("OBJECTIVE+2", "TooFine", "1 0.0000001"),
    ("COEFFICIENTS+1", "Number", "0 ? 1000"),
    ("LIMITS+2", "TooFine", "0 1 L 0.0000001"),
    ("LIMITS+2", "Name", "0 1 < 1"),
]

# A CPIT that ends within its objective, or that is hostile.
HOSTILE_CPIT = [
    ("NBLOCKS", "Range", "NBLOCKS: 64000001", "NBLOCKS: 18446744073709551616"),
    ("OBJECTIVE+1", "Missing", cut_before("OBJECTIVE+1")),
    ("OBJECTIVE+1", "Range", "-1 12000", "18446744073709551616 12000"),
    ("COEFFICIENTS+1", "Range", "0 18446744073709551616 1000"),
]

# The line that is reported, and block files, each with these precedences. Then precedence files, each of two blocks.
FAULTS_OF_BLOCKS = [
    ("blocks line 1: Fields", b"0 0 0 0 1000 5000\n", b"0 0 0 0 1000 5000 0 0\n"),
    ("blocks line 1: Fields", b"0;0;0;0;1000;5000;0\n", b"0,0,0,0,1000,5000,0\n"),
    ("blocks line 2: Order", b"\n1 0 0 0 1000 5000 0\n"),
    ("blocks line 1: Order", b"1 0 0 0 1000 5000 63", b"63999999 0 0 0 1000 5000 0"),
    ("blocks line 1: Range", b"1 0 0 0 1000 5000 64", b"1 0 0 0 -1 5000 0", b"-1 0 0 0 1 5000 0"),
    ("blocks line 1: Number", b"1 0 0 0 1000 5000 x", b"1 x 0 0 1000 5000 64"),
    ("blocks line 1: TooFine", b"1 0 0 0 1000 0.0000001 0", b"0.5 0 0 0 1000 1 64"),
    ("blocks line 1: Fields", b"1 0 0 0 1000 5000", b"1 x 0 0 1000 5000 64 0", b"EOF"),
    ("blocks line 2: Range", b"0 0 0 0 1 0 0\n5 0 0 0 1000 5000 64\n"),
    ("blocks line 2: Number", b"0 0 0 0 1 0 0\n0 0 0 0 1000 5000 ?\n"),
    ("blocks line 2: Number", b"0 0 0 0 1 0 0\n1 0 0 0 1 0 0%"),
    ("blocks line 2: Fields", b"0 0 0 0 1 0 0\n0 0 0 0 1 0\n"),
    ("blocks line 2: Fields", b"0 0 0 0 1 0 0\n1 0 0 0 1 0 0 % x\n"),
    ("blocks line 3: Order", b"0 0 0 0 1 0 0\n1 0 0 0 1 0 0\n1 0 0 0 1 0 0\n"),
    ("blocks line 2: Number", b"0 0 0 0 1 0 0\n1 0 0 0 1 0 0\r \n"),
    ("blocks line 2: Number", b"0 0 0 0 1 0 0\n1 0 0 0 1 0\r 0\n"),
    ("blocks line 2: Fields", b"0 0 0 0 1 0 0\n1 0 0 0 1 0 0 \r \n"),
    ("blocks line 1: Range", b"64000000 0 0 0 1000 5000 0", b"0 10000 0 0 1000 5000 0"),
    ("blocks line 1: Range", b"0 0 0 0 1000000.001 5000 0", b"0 0 0 0 1000 -1 0"),
    ("blocks line 1: Range", b"0 0 0 0 1000 5000 64"),
    ("blocks line 1: TooFine", b"0 0 0 0 1000.0001 5000 0"),
    ("blocks line 1: Number", b"0 0 0 0 1000 1e3 0", b"0 x 0 0 1000.0001 5000 64"),
    ("prec line 1: Range", b"% none\n \t\n"),
    ("blocks line 1: Fields", b"0 0 0 0 1000 5000 0 % x", b"0 0 0 0 1000 5000 % 0 0"),
    ("blocks line 1: Number", b"0 0 0 0 1000 5000 %"),
    ("blocks line 2: Order", b"0 0 0 0 1 0 0\n00 0 0 0 1 0 0\n",
     b"0 0 0 0 1 0 0\n+0 0 0 0 1 0 0\n"),
    # lines that are skipped are counted
    ("blocks line 5: Fields", b"\n\n\n\nx\n", b"%\n \n\t\n\r\nx\n"),
    ("blocks line 257: Fields", b"\n" * 256 + b"x\n", b"% x\n" * 256 + b"0 0\n"),
    ("blocks line 65537: Fields", b"\n" * 65_536 + b"x\n"),
    ("blocks line 300: Fields", b"\n" * 299 + b"x"),
]

FAULTS_OF_PRECEDENCES = [
    ("prec line 1: Missing", b""),
    ("prec line 2: Missing", b"0 1 1\n"),
    ("prec line 3: Missing", b"% none\n \t\n"),
    ("prec line 4: Missing", b"0 1 1\n% x\n\n"),
    ("prec line 1: Fields", b"0\n1 0\n"),
    ("prec line 1: Order", b"1 0\n1 0\n"),
    ("prec line 3: Order", b"0 1 1\n1 0\n1 0\n"),
    ("prec line 1: Count", b"0 0 1\n1 0\n", b"0 1\n1 0\n"),
    ("prec line 1: Twice", b"0 1 0\n1 0\n"),
    ("prec line 1: Count", b"0 1 0 0\n1 0\n", b"0 0 0\n1 0\n"),
    ("prec line 1: Range", b"0 1 2\n1 0\n", b"0 2 1 1\n1 0\n"),
    ("prec line 2: Range", b"0 1 1\n1 -1\n"),
    ("prec line 2: Order", b"0 1 1\n0 0\n", b"0 1 1\n0 0 1\n", b"0 1 1\n0 1 1 1\n"),
    ("prec line 2: Range", b"0 1 1\n0 2\n", b"0 1 1\n0 0 2\n", b"0 1 1\n2 0\n", b"0 1 1\n0 1 -1\n"),
    ("prec line 2: Number", b"0 1 1\n0 x\n", b"0 1 1\n0 1 ?\n", b"0 1 1\n1 0\r \n"),
    ("prec line 2: TooFine", b"0 1 1\n0 0.5\n", b"0 1 1\n0 0 0.5\n"),
    ("prec line 2: Fields", b"0 1 1\n0\n", b"0 1 1\n1\n", b"0 1 1\n2\n", b"0 1 1\nEOF\n"),
    ("prec line 3: Range", b"0 1 1\n1 0\n2 0\n"),
    ("prec line 3: Order", b"0 1 1\n1 0\n0 0\n"),
    ("prec line 3: Fields", b"0 1 1\n1 0\n1\n", b"0 1 1\n1 0\nEOF\n"),
    ("prec line 1: Range", b"0 18446744073709551616\n1 0\n"),
    # no remark after a field, and a byte order mark only at the start
    ("prec line 1: Number", b"0 0 % none\n1 0\n", b"0 1 1 %\n1 0\n", b"0 1 1% x\n1 0\n"),
    ("prec line 2: Number", b"0 1 1\n1 0 %\n", b"0 1 1\n1 0 % x\n", b"0 1 1\n1 0%\n"),
    ("prec line 2: Number", b"\n" + MARK + b"0 1 1\n1 0\n", b"% x\n" + MARK + b"0 1 1\n1 0\n"),
    ("prec line 3: Number", b" \n\n" + MARK + b" 0 1 1\n1 0\n", b"0 1 1\n\n" + MARK + b"1 0\n"),
    # two formats of one number
    ("prec line 1: Twice", b"0 1 00\n1 0\n", b"00 1 0\n1 0\n", b"0 1 -0\n1 0\n"),
    ("prec line 2: Twice", b"0 1 1\n1 1 01\n", b"0 1 1\n01 1 1\n", b"0 1 1\n1. 01 +1\n"),
    ("prec line 2: Order", b"0 1 1\n00 0\n", b"0 0\n-0 1 1\n"),
    # lines that are skipped are counted
    ("prec line 5: Fields", b"\n\n\n\nx\n1 0\n", b"% 1\n\n% 2\n \n0\n"),
    ("prec line 257: Range", b"\n" * 256 + b"0 2\n1 0\n", b"%\n" * 256 + b"0 1 2\n1 0\n"),
    ("prec line 258: Missing", b"\n" * 256 + b"0 1 1\n"),
    ("prec line 65539: Missing", b"0 1 1\n" + b"%\n" * 65_537),
]

# The same for one block.
HOSTILE_BLOCKS = [
    ("blocks line 1: Fields", b"0 0 0 0 1000 5000"),
    ("blocks line 1: Number", MARK + MARK + b"0 0 0 0 1000 5000 0\n"),
]

HOSTILE_PRECEDENCES = [
    ("prec line 1: Missing", b""),
    ("prec line 1: Number", b"0 0 % none\n"),
    ("prec line 2: Number", b"\n" + MARK + b"0 0\n"),
    ("prec line 5: Fields", b"\n\n\n\nx"),
    ("prec line 1: Range", b"0 01\n", b"0 1 00\n"),
    ("prec line 1: Range", b"0 1 0\n", b"0 18446744073709551616\n", b"0 -1\n"),
]

# What an objective's line may say of a block: decimals in every format, and what is no decimal.
SPELLINGS = [
    (None, "007 +.25", "5. -0", "1.2345670 0.0000000", "123456789012345678.1234560 -.5"),
    (None, "1000000000000000000 -1000000000000000000"),
    ("Range", "1000000000000000000.000001 0", "0 -1000000000000000001", "1234567890123456789 0"),
    ("TooFine", "9999999999999999999.0000001 0", "0.1234567 0"),
    ("Number", "+ 0", ". 0", "+-5 0", "--1 0", "1.2.3 0", "1e3 0", "1,5 0", "1.0000001x 0"),
    ("Number", "5.x 0", "-.x 0"),
]

# The ten blocks of nine_above, and the start of a precedence file.
TEN_BLOCKS = lines(
    "0 1 1 0 1 0 0|1 0 0 1 1 0 0|2 1 0 1 1 0 0|3 2 0 1 1 0 0|4 0 1 1 1 0 0|"
    "5 1 1 1 1 0 0|6 2 1 1 1 0 0|7 0 2 1 1 0 0|8 1 2 1 1 0 0|9 2 2 1 1 0 0|"
)
NINE_ABOVE = [
    ("prec line 1: Count", b"0 6 2 4 5 6 8\n1 0\n2 0\n"),
    ("prec line 2: Twice", b"0 5 2 4 5 6 8\n1 1 1\n2 0\n"),
    ("prec line 2: Order", b"0 5 2 4 5 6 8\n2 0\n"),
    ("prec line 1: Twice", b"0 5 2 4 5 8 4\n1 0\n2 0\n"),
    ("prec line 2: Twice", b"0 0\n1 2 0 0\n2 0\n"),
    ("pcpsp line 1: Missing", b"0 0\n1 2 2 0\n2 3 9 1 0\n"),
]

# The first line of a precedence file of ten blocks, with two invalid parts or one that is easily missed, by its kind. The accepted ones
# only need a model file.
LINES_OF_TEN = [
    ("Order", "1 1 1", "1 2 2", "1 3 1 1"),
    ("Range", "1 1 10", "0 2 10", "0 2 -1", "0 10 x", "10 x", "10 0", "0 10", "0 2 1 10"),
    ("Number", "1 2 x", "0 2 x", "0 2 1 x", "0 x 10"),
    ("Fields", "1"),
    ("Count", "0 3 1 1", "0 1 1 1", "0 1 0 1", "0 0 0", "0 9 1"),
    ("TooFine", "0 2 1.5"),
    ("Twice", "0 2 1 0", "0 2 0 1", "0 3 1 0 2", "0 2 1 1", "0 3 1 2 1", "0 3 1 1 2"),
    ("Twice", "0 3 2 1 1", "0 9 1 2 3 4 5 6 7 8 1"),
    ("Twice", "0 2 1 01", "0 2 1. 1", "0 3 2 1 02.0", "0 3 9 8 +9", "0 9 1 2 3 4 5 6 7 8 08",
     "0 1 00", "+0 2 1 -0", "0 3 5 0.0 1"),
    (None, "0 9 1 2 3 4 5 6 7 8 9", "0 9 9 8 7 6 5 4 3 2 1", "0 3 5 1 3", "-0 +1 09.00"),
    (None, "0 2 1 +2", "0 2 1 2.", f"0 2 1 2.{'0' * 50}", f"0 2 1 {'0' * 50}2"),
    ("Number", "0 2 1 1e0", "0 2 1 -", "0 2 1 +-2", "0 2 1 2,0"),
    ("Range", "0 2 1 281474976710658", "0 2 1 258", "0 2 1 -2"), ("TooFine", "0 2 1 10.1", "0 2 1 2.1"),
]

# Precedences and a model file that no block has. A text that is a byte order mark alone has no lines.
TEXTS_OF_NO_BLOCK = [
    (b"0 0\n", NO_PCPSP, "prec line 1: Range"),
    (b"", b"", "pcpsp line 1: Missing"),
    (MARK, MARK, "pcpsp line 1: Missing"),
    (b"", MARK + b"\n", "pcpsp line 2: Missing"),
    (b"", MARK + MARK, "pcpsp line 1: Key"),
    (b"\n" * 255 + b"x", b"", "prec line 256: Fields"),
    (b"% none\n\n0 0 % none\n", NO_PCPSP, "prec line 3: Range"),
]

# Lines that are skipped, and others, which have one field or no valid field, and no colon. The byte FF is written U+DCFF.
SKIPPED = [
    "", " ", "\t", "\t \t", "\r", " \t\r", "%", "% a: b", "  % x", "\t%x\r", "%%", "% \udcff", "% \0", "% x\rx",
]
NOT_SKIPPED = ["\r\r", "\v", "\f", "#", "//%", "\0", "\r%", ";"]

# Worked out manually: remarks, blank lines, several blanks, line ends of two bytes, header keys in another order, a last line without its
# end.
HAND_BLOCKS = b"% hand\r\n\n0\t0 0  0 1000.000 5000 0\r\n"
HAND_PCPSP = "\n".join([
    *reversed(header("PCPSP", blocks=1)[1:]), "NAME : one", "OBJECTIVE_FUNCTION:", "0 12000",
    "RESOURCE_CONSTRAINT_COEFFICIENTS:", "RESOURCE_CONSTRAINT_LIMITS:",
]).encode()

# A byte order mark at the start, and numbers in other formats.
SPELLED_BLOCKS = MARK + b"+0 0. 0 .0 01000.0000000 5000 0\n1 1 0 0 -0 7 0"

# Predecessors in no order, and the smallest and largest of most numbers.
EDGE_BLOCKS = b"0 0 0 0 0 0 0\n1 9999 9999 9999 1000000 1000000 63\n2 2 0 0 0 0 0\n"
EDGE_PREC = b"0 2 2 1\n1 0\n2 0\n"
EDGE_PCPSP = lines(
    heading("PCPSP", name="n", blocks=3, periods=100, resources=8, rate=1) +
    "OBJECTIVE_FUNCTION:|0 -1000000000000000000|1 0.000001|2 0|"
    "RESOURCE_CONSTRAINT_COEFFICIENTS:|0 0 7 -1|2 0 0 0|"
    "RESOURCE_CONSTRAINT_LIMITS:|0 99 G -5|7 0 I -2 -2|"
)


# Numbers in formats that other programs read differently, as 010 for 8.
ELEVEN = ["0.", "+1", "02", "3.0", "004.000", "+05", "6.", "07", "08", "9." + "0" * 1_100, "010"]
ELEVEN_BLOCKS = lines("".join(f"{number} {number} 0 0 08 .5 00.0|" for number in ELEVEN))
ABOVE = {7: "1. 02", 9: "02.0 +8. 010"}
ELEVEN_PREC = lines("".join(
    f"{number} {ABOVE.get(block, '-0')}|" for block, number in enumerate(ELEVEN)
))
ELEVEN_PCPSP = lines(
    heading("PCPSP", blocks="0011", periods="010", destinations="2.0", resources="+02", rate=".5") +
    "OBJECTIVE_FUNCTION:|" + "".join(f"{number} 08 -.5|" for number in ELEVEN) +
    "RESOURCE_CONSTRAINT_COEFFICIENTS:|08 1. +1 5|9. 00 0 5|010 -0 0.0 5|"
    "RESOURCE_CONSTRAINT_LIMITS:|00 08 L 5|-0 9.0 I 05 5.00|1 +009 G 1|"
)
ELEVEN_CPIT = lines(
    heading("CPIT", blocks="11.", periods="010", resources="02", rate="+0.50") +
    "OBJECTIVE_FUNCTION:|" + "".join(f"{number} 1|" for number in ELEVEN) +
    "RESOURCE_CONSTRAINT_COEFFICIENTS:|09 1 5|010 0 5|RESOURCE_CONSTRAINT_LIMITS:|0 9 L 5|"
)


def many_predecessors(count):
    """Returns a block below this number of others."""
    blocks = "".join(f"{block} 0 0 0 1 0 0\n" for block in range(count + 1))
    above = " ".join(map(str, [0, count, *range(1, count + 1)]))
    prec = above + "\n" + "".join(f"{block} 0\n" for block in range(1, count + 1))
    pcpsp = header("PCPSP", blocks=count + 1) + ["OBJECTIVE_FUNCTION:"]
    pcpsp += [f"{block} 0" for block in range(count + 1)]
    pcpsp += ["RESOURCE_CONSTRAINT_COEFFICIENTS:", "RESOURCE_CONSTRAINT_LIMITS:"]
    return blocks.encode(), prec.encode(), whole(pcpsp)


def with_pcpsp(text):
    return BLOCKS, PREC, whole(text)


def with_cpit(text):
    return BLOCKS, PREC, whole(PCPSP), whole(text)


def with_one_pcpsp(text):
    return ONE_BLOCK, ONE_PREC, whole(text)


# Texts that are accepted, and their counts.
HAND = HAND_BLOCKS, b"0 0", HAND_PCPSP
EDGE = EDGE_BLOCKS, EDGE_PREC, EDGE_PCPSP
REMARKS = b"% none\n \t\n"
AT_LEAST_500 = put("LIMITS+1", "0 0 G -500.5").of(CPIT)

TAKEN = [
    ("hand_made_instance", HAND, "blocks 1 arcs 0 coefficients 0 limits 0"),
    ("limits_and_coefficients", (SPELLED_BLOCKS, PREC, whole(PCPSP)), TWO_BLOCKS),
    ("numbers_at_the_edge", EDGE, "blocks 3 arcs 2 coefficients 2 limits 2"),
    ("texts_of_no_block: nothing", (b"", b"", NO_PCPSP), NO_BLOCKS),
    ("texts_of_no_block: marks", (MARK, MARK, NO_PCPSP), NO_BLOCKS),
    ("texts_of_no_block: remarks", (REMARKS, REMARKS, NO_PCPSP), NO_BLOCKS),
    ("texts_of_no_block: a CPIT", (b"", b"", NO_PCPSP, NO_CPIT), NO_BLOCKS + " cpit 0"),
    ("cpit_destinations", with_cpit(CPIT), TWO_BLOCKS + " cpit 1"),
    ("cpit_destinations: a lower limit", with_cpit(AT_LEAST_500), TWO_BLOCKS + " cpit 1"),
    ("cpit_destinations: no limit", with_cpit(cut_before("LIMITS+1").of(CPIT)),
     TWO_BLOCKS + " cpit 1"),
    # the statements of the two model files are not compared, except for the number of blocks
    *(
        (f"cpit_beside_pcpsp: {line}", with_cpit(put(at, line).of(CPIT)), TWO_BLOCKS + " cpit 1")
        for at, line in [
            ("NAME", "NAME: other"), ("NPERIODS", "NPERIODS: 100"), ("NPERIODS", "NPERIODS: 3"),
            ("NRESOURCE_SIDE_CONSTRAINTS", "NRESOURCE_SIDE_CONSTRAINTS: 8"),
            ("RATE", "DISCOUNT_RATE: 0"), ("OBJECTIVE+1", "0 -7"), ("COEFFICIENTS+1", "0 0 999"),
            ("COEFFICIENTS+1", "1 0 1"), ("LIMITS+1", "0 0 G 1"), ("LIMITS+2", "0 1 L 5"),
        ]
    ),
    # a CPIT has its own periods and resources
    ("cpit_beside_pcpsp: more of each", with_cpit(
        ["NPERIODS: 3" if line == "NPERIODS: 2" else line for line in put(
            "NRESOURCE_SIDE_CONSTRAINTS", "NRESOURCE_SIDE_CONSTRAINTS: 2").of(CPIT)]
        + ["0 2 L 5", "1 0 L 5", "1 2 I 5 5"]), "blocks 2 arcs 1 coefficients 1 limits 2 cpit 1"),
    ("written_numbers: eleven blocks", (ELEVEN_BLOCKS, ELEVEN_PREC, ELEVEN_PCPSP, ELEVEN_CPIT),
     "blocks 11 arcs 3 coefficients 3 limits 3 cpit 2"),
    ("written_numbers: as much as a plan may hold, in lines that end in CR LF",
     [fullest.TEXTS[ending].replace(b"\n", b"\r\n") for ending in CHECKED], fullest.COUNTS),
    ("many_predecessors: 8,192", many_predecessors(8_192),
     "blocks 8193 arcs 8192 coefficients 0 limits 0"),
    ("many_predecessors: 70,000", many_predecessors(70_000),
     "blocks 70001 arcs 70000 coefficients 0 limits 0"),
    ("cpit_beside_pcpsp: fewer periods", with_cpit(put("NPERIODS", "NPERIODS: 1").of(
        cut_before("LIMITS+2").of(CPIT))), TWO_BLOCKS + " cpit 1"),
]


def result_of(name, texts, place, kind, counts=""):
    """Texts that are refused at a place, such as `prec line 2`, or accepted if no kind is given, with these counts."""
    files = at("b", dict(zip(CHECKED, texts)))
    name, run = short(name), {"arguments": ["check", "b"], "files": files}
    if kind:
        return refused(name, f"{place}: {kind}", **run)
    return Trial(name, out=lines(counts + "|"), **run)


def invalid(name, texts, line):
    return result_of(name, texts, *line.split(": "))


def lines_like(fields, others):
    """Yields a valid line; then each of its fields in turn: numbers at both ends of its range and outside it, and what is no number; then
    two fields that are refused. Each has the kind of its fault.
    """
    yield [field.good for field in fields], None
    for at, field in enumerate(fields):
        for text, value, kind in field.spellings():
            if kind is None and at < len(others) and value != int(field.good):
                kind = others[at]
            yield with_cell(fields, at, text), kind
        for text, kind in field.faults() if field.decimals is None else []:
            yield with_cell(fields, at, text), kind
    yield from pairs_of_faults(fields)
    yield from two_kinds_of_faults(fields)


def fields_of(place, kinds_of_lines, texts_with, counts):
    """Yields lines that are like those of these kinds, each once."""
    found = {}
    for line in kinds_of_lines:
        for fields, kind in lines_like(*line):
            found.setdefault(" ".join(fields), kind)
    for line, kind in found.items():
        yield result_of(f"fields_of_a_line: {place}: {line}", texts_with(line), place, kind, counts)


def widths_of(place, prefix, counts, texts_with):
    """Yields lines with this prefix, and of `?` up to 12 fields: wrong numbers of fields come before invalid fields."""
    for count in range(max(1, len(prefix)), 13):
        kind = "Number" if count in counts else "Fields"
        texts = texts_with(" ".join([*prefix, *["?"] * (count - len(prefix))]))
        yield result_of(f"width_of_a_line: {place}: {prefix}, {count} fields", texts, place, kind)


def lines_of_blocks():
    """The second line of a block file and of a precedence file."""
    def blocks_with(line):
        return f"0 0 0 0 1000 5000 0\n{line}\n".encode(), PREC, whole(PCPSP)

    def prec_with(line):
        return BLOCKS, f"0 1 1\n{line}\n".encode(), whole(PCPSP)

    yield from fields_of("blocks line 2", [BLOCK_LINE], blocks_with, TWO_BLOCKS)
    yield from widths_of("blocks line 2", [], [7], blocks_with)
    counts = TWO_BLOCKS.replace("arcs 1", "arcs 2")
    yield from fields_of("prec line 2", [PREC_LINE], prec_with, counts)
    yield from widths_of("prec line 2", [], range(2, 13), prec_with)


def lines_of_sections(file, good, lines_of, texts_of, counts):
    """A line of each section, of limits a line of each kind and of each letter."""
    for number, line in ((number_of(good, line), line_of) for line, line_of in lines_of):
        def texts_with(text):
            return texts_of(put(number, text).of(good))
        place = f"{file} line {number}"
        yield from fields_of(place, [line], texts_with, counts)
        yield from widths_of(place, [], [len(line[0])], texts_with)

    def texts_with_limit(text):
        return texts_of([*good[:-2], text])
    place = f"{file} line {len(good) - 1}"
    one = counts.replace("limits 2", "limits 1") if file == "pcpsp" else counts
    yield from fields_of(place, LIMIT_LINES, texts_with_limit, one)
    for line in LIMIT_LINES:
        prefix = ["?", "?", line[0][2].good]
        yield from widths_of(place, prefix, [len(line[0])], texts_with_limit)
    yield from letters_of(place, texts_with_limit, one)


def letters_of(place, texts_with, counts):
    """Limits of each letter: those of four fields, and those of five except for an interval."""
    for letter in [*LETTERS, "LL", "LE", "GE", "IN", "<", "<=", ">", ">=", "=", "1"]:
        name = f"letters_of_limits: {place}: {letter}"
        kind = {"L": None, "G": None, "I": "Fields"}.get(letter, "Name")
        yield result_of(name, texts_with(f"0 0 {letter} 2"), place, kind, counts)
        if letter != "I":
            yield result_of(f"{name}, 5 fields", texts_with(f"0 0 {letter} 1 2"), place, "Fields")


def orders(file, good, key, ends, tail, texts_of, counts):
    """Two lines below a section's line, with these ends of the ranges: each before each. Then a third after two that rise.

    `counts` has braces for the number of these lines.
    """
    places, section = list(itertools.product(*map(range, ends))), number_of(good, key)
    below = next((line for line in range(section, len(good)) if ":" in good[line]), len(good))

    def results(name, *chosen):
        items = [" ".join(map(str, place)) + tail for place in chosen]
        texts = texts_of([*good[:section], *items, *good[below:]])
        kind = None if chosen[-2] < chosen[-1] else "Order"
        place = f"{file} line {section + len(items)}"
        name = f"order_of_lines: {file}: {name} {tail}"
        return result_of(name, texts, place, kind, counts.format(len(items)))

    for first, second in itertools.product(places, places):
        yield results(f"{first} {second}", first, second)
    for last in places:
        yield results(f"{last} as the third", places[0], places[-2], last)


class Header(NamedTuple):
    """A model file of no block with only header and sections, the texts before it, and the result if it is accepted."""

    file: str
    good: Sequence[str]
    texts: Sequence[bytes]
    counts: str

    @property
    def head(self):
        """The number of header lines."""
        return len(self.good) - 3

    def result_of(self, name, changed, number=0, kind=None):
        """Returns the result for the changed file: a fault of this line, or its counts."""
        if isinstance(changed, Change):
            changed = changed.of(self.good)
        text = changed if isinstance(changed, bytes) else whole(changed)
        name, place = f"{self.file}: {name}", f"{self.file} line {number}"
        return result_of(name, [*self.texts, text], place, kind, self.counts)


def headers(of):
    """Each line of a header and of a section in turn, then two sections in turn, and the file cut after each line."""
    for number, line in enumerate(of.good, 1):
        yield from spellings_of_a_key(of, number, line)
        of_line = header_key if number <= of.head else section_line
        yield from of_line(of, number, line)
    for first, second in itertools.combinations(range(of.head + 1, of.head + 4), 2):
        turned = put(second, of.good[first - 1]).of(put(first, of.good[second - 1]).of(of.good))
        name = f"sections_out_of_turn: {turned[first - 1]} as line {first}"
        yield of.result_of(name, turned, first, "Key")
        changed = put(first, turned[first - 1] + " 1").of(turned)
        yield of.result_of(f"{name} and a field", changed, first, "Key")
    for seed in range(8):
        keys = random.Random(seed).sample(of.good[: of.head], of.head)
        name = f"keys_in_mixed_order: {', '.join(key.partition(':')[0] for key in keys)}"
        yield of.result_of(name, [*keys, *of.good[of.head :]])
    ends = [("", 1), ("% x\n\n \n", 4), ("% x\n ", 3), ("\r", 2)]
    for count, (rest, more) in itertools.product(range(len(of.good)), ends):
        text = whole(of.good[:count]) + rest.encode()
        name = f"texts_that_end: {count} lines and {rest!r}"
        yield of.result_of(name, text, count + more, "Missing")


def spellings_of_a_key(of, number, line):
    """A key in other cases and with letters too many and too few, and with blanks around it."""
    key, value = line.split(":")
    for other in [
        key.lower(), key.title(), key[:-1] + key[-1].lower(), key[1:], key[:-1], key + "S",
        f"x {key}", f"{key} x", f"{key}.", "",
        *(key.replace("_", other) for other in (" ", "-", "") if "_" in key),
    ]:
        name = f"no_keys: {other} for {key}"
        yield of.result_of(name, put(number, f"{other}:{value}"), number, "Key")
    blanks = [f"{key} \t:{value}", f" \t{line}", f"{line} \t\r"]
    if value:
        blanks += [line.replace(" ", ""), line.replace(" ", "\t \t")]
    for other in blanks:
        yield of.result_of(f"blanks_about_keys: {other!r}", put(number, other))


def header_key(of, number, line):
    """A header key with other values, without one, twice, missing, after a section, and as the first and the last."""
    key, value = line.split(":")
    for text, stated, kind in HEADER_NUMBERS[key].spellings() if key in HEADER_NUMBERS else []:
        if key == "NBLOCKS" and stated:
            kind = "Count"
        other = f"{key}: {text}"
        yield of.result_of(f"header_numbers: {other}", put(number, other), number, kind)
    for other in [f"{line} x", f"{line} {line}", f"{key}::{value} x", f"{key}: ? ?", f"{key}:"]:
        yield of.result_of(f"values_of_keys: {other}", put(number, other), number, "Fields")
    name = f"values_of_keys: {key} without a colon"
    yield of.result_of(name, put(number, key + value), number, "Key")
    others, name = without(number).of(of.good), f"keys_that_lack: {key}"
    yield of.result_of(name, others, of.head, "Missing")
    changed = put(of.head, others[of.head - 1] + " 1").of(others)
    yield of.result_of(f"{name}, and a field after the section", changed, of.head, "Fields")
    for other in [line, f"{key}: ?", f"{key}:", f"{key}: 1 2"]:
        changed = before(of.head + 1, other)
        yield of.result_of(f"keys_twice: {other}", changed, of.head + 1, "Twice")
    for later in range(of.head + 2, of.head + 5):
        name = f"keys_after_sections: {key} as line {later}"
        yield of.result_of(name, before(later, line), later, "Key")
    for place in {1, of.head} - {number}:
        name = f"keys_in_any_order: {key} as line {place}"
        yield of.result_of(name, before(place, line).of(others))


def section_line(of, number, line):
    """The line of a section with fields after it, twice, and without its colon."""
    for other in [f"{line} 0", f"{line}:", f"{line} x:"]:
        yield of.result_of(f"values_of_keys: {other}", put(number, other), number, "Fields")
    yield of.result_of(f"sections_twice: {line}", before(number, line), number + 1, "Key")
    kind = "Key" if number == of.head + 1 else "Fields"
    yield of.result_of(f"sections_without_colons: {line}", put(number, line[:-1]), number, kind)


def words_of_headers(of):
    """The bytes and lengths of NAME, and what TYPE may be."""
    for name, is_name in bytes_about_a_name():
        if b"\n" not in name:
            changed = b"NAME: " + name + b"\n" + whole(of.good[1:])
            kind = "Fields" if name[1:2] in BLANKS else "Name"
            if is_name or name == b"de\r":
                kind = None
            yield of.result_of(f"bytes_of_a_name: {name}", changed, 1, kind)
    for length in (1, 63, 64, 65, 1000):
        kind = None if length <= 64 else "Name"
        name = f"length_of_a_name: {length}"
        yield of.result_of(name, put("NAME", "NAME: " + "a" * length), 1, kind)
    for name in ("NAME", "..", "a..b", "periods", "1.5", "EOF"):
        yield of.result_of(f"names_of_instances: {name}", put("NAME", f"NAME: {name}"))
    far = put("NAME", "NAME:" + " " * 1_000_000 + "one")
    yield of.result_of("a_name_after_a_million_blanks", far)
    right = of.file.upper()
    wrong = [right.lower(), right.title(), right[:-1], right[1:], right + "S", "UPIT", "?"]
    for other in [*wrong, "PCPSPCPIT".replace(right, "")]:
        yield of.result_of(f"types: {other}", put("TYPE", "TYPE: " + other), 2, "Name")


def bytes_of_lines():
    """Each byte between two fields, before a line, at its end and in a remark."""
    def results(name, line, place, kind):
        texts = b"0 0 0 0 1000 5000 0\n" + line + b"\n", PREC, whole(PCPSP)
        return result_of(name, texts, place, kind, TWO_BLOCKS)

    place = "blocks line 2"
    for byte in EVERY_BYTE:
        kind = None if byte in BLANKS else "Fields"
        yield results(f"bytes_between_fields: {byte}", b"1 1 0 0 0 7" + byte + b"0", place, kind)
        kind = {b"-": "Range", b".": "TooFine"}.get(byte, "Number")
        if byte in b"\n+0123456789" + BLANKS:
            kind = "Order" if byte in b"123456789" else None
        line = byte + b"1 1 0 0 0 7 0"
        if byte == b"%":
            yield results("bytes_before_fields: a remark", line, "prec line 1", "Range")
        else:
            yield results(f"bytes_before_fields: {byte}", line, place, kind)
        kind = None if byte in BLANKS + b"\n\r.0123456789" else "Number"
        yield results(f"bytes_after_fields: {byte}", b"1 1 0 0 0 7 0" + byte, place, kind)
        line, kind = b"% " + byte + b"x\n1 1 0 0 0 7 0", "Fields" if byte == b"\n" else None
        yield results(f"bytes_of_a_remark: {byte}", line, "blocks line 3", kind)


def lines_between():
    """Lines that are skipped and others, after the first line of each text."""
    texts = [BLOCKS, PREC, whole(PCPSP), whole(CPIT)]
    for number, file in enumerate(CHECKED):
        text, is_line = texts[number], number < 2
        def results(name, changed, line=0, kind=None):
            changed = [*texts[:number], changed, *texts[number + 1 :]]
            return result_of(name, changed, f"{file} line {line}", kind, TWO_BLOCKS + " cpit 1")
        for line in SKIPPED + NOT_SKIPPED:
            changed = text.replace(b"\n", f"\n{line}\n".encode(errors="surrogateescape"), 1)
            kind = None if line in SKIPPED else "Fields" if is_line else "Key"
            yield results(f"lines_between: {file}: {line!r}", changed, 2, kind)
        kind, changed = "Number" if is_line else "Key", b"\n" + MARK + text
        yield results(f"ends_of_lines: {file}: a line end and a mark", changed, 2, kind)
        tabbed = text.replace(b" ", b" \t ").replace(b"\n", b"\t \n  ")
        for name, changed, kind in [
            ("CR LF", text.replace(b"\n", b"\r\n"), None),
            ("no last line end", text[:-1], None),
            ("a last CR", text[:-1] + b"\r", None),
            ("tabs and blanks", b"\t " + tabbed, None),
            ("a mark", MARK + text, None),
            ("two CRs", text.replace(b"\n", b"\r\r\n"), "Number" if is_line else "Name"),
            ("two marks", MARK + MARK + text, "Number" if is_line else "Key"),
            ("a blank and a mark", b" " + MARK + text, "Number" if is_line else "Key"),
            ("two bytes of a mark", MARK[:2] + text, "Number" if is_line else "Key"),
            ("a mark of UTF-16", b"\xFF\xFE" + text, "Number" if is_line else "Key"),
            ("another mark of UTF-16", b"\xFE\xFF" + text, "Number" if is_line else "Key"),
        ]:
            yield results(f"ends_of_lines: {file}: {name}", changed, 1, kind)


def model_files():
    """Statements of both model files."""
    pcpsp = Header("pcpsp", lines_of(NO_PCPSP), [b"", b""], NO_BLOCKS)
    cpit = Header("cpit", lines_of(NO_CPIT), [b"", b"", NO_PCPSP], NO_BLOCKS + " cpit 0")
    for of in (pcpsp, cpit):
        yield from headers(of)
        yield from words_of_headers(of)
    two = put("NRESOURCE_SIDE_CONSTRAINTS", "NRESOURCE_SIDE_CONSTRAINTS: 2")
    good = two.of(PCPSP)
    yield from lines_of_sections("pcpsp", good, LINES_OF_A_PCPSP, with_pcpsp, TWO_BLOCKS)
    counts = "blocks 2 arcs 1 coefficients {} limits 2"
    yield from orders("pcpsp", good, "COEFFICIENTS", (2, 2, 2), " 1", with_pcpsp, counts)
    counts = "blocks 2 arcs 1 coefficients 1 limits {}"
    yield from orders("pcpsp", good, "LIMITS", (2, 2), " L 1", with_pcpsp, counts)
    good = two.of(CPIT)
    counts = TWO_BLOCKS + " cpit 1"
    yield from lines_of_sections("cpit", good, LINES_OF_A_CPIT, with_cpit, counts)
    arcs = TWO_BLOCKS + " cpit {}"
    yield from orders("cpit", good, "COEFFICIENTS", (2, 2), " 1", with_cpit, arcs)
    yield from orders("cpit", good, "LIMITS", (2, 2), " G 1", with_cpit, counts)


LINES_OF_EACH_KIND = [
    "NAME", "OBJECTIVE", "OBJECTIVE+1", "COEFFICIENTS+1", "LIMITS+1", "LIMITS+2",
]


def long_lines():
    """Lines with too many fields, by a number that a narrow counter reads as 0."""
    for more in (16, 32, 64, 100, 256, 65_536):
        fields = " 0" * more
        blocks = f"0 0 0 0 1 0 0\n1 0 0 0 1 0 0{fields}\n".encode()
        yield invalid(f"long_lines: blocks, {more}", (blocks, PREC, b""), "blocks line 2: Fields")
        for file, good, texts_of in [("pcpsp", PCPSP, with_pcpsp), ("cpit", CPIT, with_cpit)]:
            for line in LINES_OF_EACH_KIND if more < 65_536 else range(1, len(good) + 1):
                number = number_of(good, line)
                texts = texts_of(put(number, good[number - 1] + fields).of(good))
                name = f"long_lines: {file} line {number}, {more}"
                yield result_of(name, texts, f"{file} line {number}", "Fields")


def changed_files():
    """Model files with lines that are invalid, and some that end within their objective."""
    for name, file, good, texts_of, table in [
        ("faults_of_model_files", "pcpsp", PCPSP, with_pcpsp, FAULTS_OF_A_PCPSP),
        ("one_ore_block", "pcpsp", ONE_PCPSP, with_one_pcpsp, FAULTS_OF_ONE_ORE_BLOCK),
        ("cpit_destinations", "cpit", CPIT, with_cpit, FAULTS_OF_A_CPIT),
        ("hostile_minelib_texts", "cpit", CPIT, with_cpit, HOSTILE_CPIT),
    ]:
        for line, kind, *changes in table:
            for change in changes:
                change = put(line, change) if isinstance(change, str) else change
                texts, place = texts_of(change.of(good)), f"{file} line {number_of(good, line)}"
                yield result_of(f"{name}: {change}", texts, place, kind)
    texts = [*with_one_pcpsp(ONE_PCPSP), whole(CPIT)]
    yield invalid("cpit_destinations: of two blocks", texts, "cpit line 3: Count")
    values, after = cut_before("OBJECTIVE+1"), number_of(ONE_PCPSP, "OBJECTIVE+2")
    cut = ONE_BLOCK, ONE_PREC, whole(values.of(ONE_PCPSP)) + b"0 1"
    name = "hostile_minelib_texts: a model file that is cut"
    yield invalid(name, cut, f"pcpsp line {after}: Missing")
    cut, after = with_cpit(values.of(CPIT)), number_of(CPIT, "OBJECTIVE+2")
    cut = *cut[:3], cut[3] + b"0 1"
    name = "hostile_minelib_texts: a CPIT that is cut"
    yield invalid(name, cut, f"cpit line {after}: Missing")


def blocks_and_precedences():
    """Block files and precedence files that are invalid, each with good other texts."""
    two, one, rest = whole(PCPSP), whole(ONE_PCPSP), b"".join(b"%d 0\n" % n for n in range(3, 10))
    name, hostile = "faults_of_blocks_and_precedences", "hostile_minelib_texts"
    for name, table, texts_of in [
        (name, FAULTS_OF_BLOCKS, lambda text: (text, PREC, two)),
        (name, FAULTS_OF_PRECEDENCES, lambda text: (BLOCKS, text, two)),
        (hostile, HOSTILE_BLOCKS, lambda text: (text, ONE_PREC, one)),
        (hostile, HOSTILE_PRECEDENCES, lambda text: (ONE_BLOCK, text, one)),
    ]:
        for line, *changed in table:
            for texts in map(texts_of, changed):
                yield invalid(f"{name}: {texts[0]}, {texts[1]}", texts, line)
    for line, prec in NINE_ABOVE:
        yield invalid(f"nine_above: {prec}", (TEN_BLOCKS, prec + rest, b""), line)
    for kind, *changed in LINES_OF_TEN:
        for line in changed:
            texts = TEN_BLOCKS, line.encode() + b"\n1 0\n2 0\n" + rest, b""
            reported = f"prec line 1: {kind}" if kind else "pcpsp line 1: Missing"
            yield invalid(f"lines_of_ten: {line}", texts, reported)
    for prec, pcpsp, line in TEXTS_OF_NO_BLOCK:
        yield invalid(f"texts_of_no_block: {prec}, {pcpsp[:20]}", (MARK, prec, pcpsp), line)


def late_lines():
    """Invalid lines after this number of skipped ones, of each text."""
    texts = [BLOCKS, PREC, whole(PCPSP), whole(CPIT)]
    for (number, file), count in itertools.product(enumerate(CHECKED), (4, 255, 256, 257, 65_536)):
        text, kind = texts[number], "Fields" if number < 2 else "Key"
        for skipped in (b"\n", b"% x\n"):
            changed = [*texts[:number], skipped * count + b"x\n" + text, *texts[number + 1 :]]
            name = f"late_lines: {file}, {count} {skipped!r}"
            yield invalid(name, changed, f"{file} line {count + 1}: {kind}")
        changed = [*texts[:number], text + b"\n" * count + b"x\n", *texts[number + 1 :]]
        name, place = f"late_lines: {count} after {file}", len(text.splitlines()) + count + 1
        yield invalid(name, changed, f"{file} line {place}: Fields")


# How many predecessors there are, and what `k` says instead.
OTHER_COUNTS = [(300, 44), (5_000, 904), (70_000, 4_464)]


def far_lines():
    """Faults far from the start, or among many: another count, a repeated predecessor, an identifier that is a power of two less, a mark
    alone, and intervals that end at a power of two millionths."""
    for count, reported in OTHER_COUNTS:
        blocks, prec, pcpsp = many_predecessors(count)
        line = prec.replace(f"0 {count} ".encode(), f"0 {reported} ".encode(), 1)
        yield invalid(f"far_lines: {reported} for {count}", (blocks, line, pcpsp), "prec line 1: Count")
    blocks, prec, pcpsp = many_predecessors(5_000)
    cpit = pcpsp.replace(b"PCPSP", b"CPIT").replace(b"NDESTINATIONS: 1\n", b"").replace(
        b"NGENERAL_SIDE_CONSTRAINTS: 0\n", b"")
    texts = [blocks, prec, pcpsp, cpit]
    for place, file in enumerate(CHECKED):
        at = texts[place].rindex(b"\n5000 ") + 1
        changed = texts[place][:at] + b"904 " + texts[place][at + 5 :]
        line = texts[place][:at].count(b"\n") + 1
        texts_with = [*texts[:place], changed, *texts[place + 1 :]]
        yield invalid(f"far_lines: 904 for 5000 in {file}", texts_with, f"{file} line {line}: Order")
    for again in (b" 4999 4999\n", b" 1 5000\n"):
        line = prec.replace(b" 4999 5000\n", again, 1)
        yield invalid(f"far_lines: predecessors that end with{again}", (blocks, line, b"x\n"), "prec line 1: Twice")
    yield invalid("far_lines: a CPIT that is a mark", (b"", b"", NO_PCPSP, MARK), "cpit line 1: Missing")
    for ends in ("1 4294.967296", "1 9007199254.740992", "1 18446744073709.551616"):
        for texts_of, good, more in ((with_pcpsp, PCPSP, ""), (with_cpit, CPIT, " cpit 1")):
            texts = texts_of(put("LIMITS+1", f"0 0 I {ends}").of(good))
            yield result_of(f"far_lines: I {ends}{more}", texts, None, None, TWO_BLOCKS + more)


def trials():
    yield from far_lines()
    yield from late_lines()
    yield from lines_of_blocks()
    yield from model_files()
    yield from bytes_of_lines()
    yield from lines_between()
    yield from long_lines()
    yield from changed_files()
    yield from blocks_and_precedences()
    for kind, *spellings in SPELLINGS:
        for numbers in spellings:
            texts = with_pcpsp(put("OBJECTIVE+1", "0 " + numbers).of(PCPSP))
            name, place = f"further_spellings: {numbers}", number_of(PCPSP, "OBJECTIVE+1")
            yield result_of(name, texts, f"pcpsp line {place}", kind, TWO_BLOCKS)
    for name, texts, counts in TAKEN:
        yield result_of(name, texts, None, None, counts)
