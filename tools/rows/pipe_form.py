"""What the pipe form prints for a plan and its zone files, and where it cuts its input.

The table compile_form has one_ore_block, header_alone, empty_file, same_block_in_two_files,
limits_and_coefficients, late_fault_in_file_0 and sixty_four_files; the table cones has the
precedence files.
"""
import itertools

from rows.instance import (
    MILL, ONE_ORE_BLOCK, OTHER_ORE, WASTE, heading, instance, plan_of, sections,
)
from rows.trial import HEADER, MARK, Folder, Part, Trial, lines, piped, refused, zone_file
from shared import compile_arguments

LIMITED = plan_of(
    MILL + "dump,dump,200|",
    rest="periods,2|rate,0.1|resource,plant,mill|limit,plant,1,I,0,900|limit,plant,0,L,500.5|",
)
LEACH = plan_of("leach,heap,10000000,100,1,300,2.5,450|")
RICHEST = plan_of("mill,m,1000,100000000,0|")


def zones(count):
    """Returns a plan with this number of zones."""
    return plan_of(cones=["1,1,1"] * count)


def dumps(covered):
    """A plan with two dumps, of which a resource covers this one."""
    return plan_of("dump,a,200|dump,b,200|", rest=f"periods,1|resource,r,{covered}|rate,0.1|")


ONE, TWO, THREE = zones(1), zones(2), zones(3)
ORE, ZERO = zone_file("0,0,0,1000,5000"), zone_file("0,0,0,1,0")

NO_RESOURCE = "RESOURCE_CONSTRAINT_COEFFICIENTS:|RESOURCE_CONSTRAINT_LIMITS:|"
ONE_COEFFICIENT = "RESOURCE_CONSTRAINT_COEFFICIENTS:|0 0 1|RESOURCE_CONSTRAINT_LIMITS:|"

# Files with a column `zone`, which is none of the five, also with the number of another zone; and a plan whose zones have different K.
ZONE_COLUMNS = [
    b"x,y,z,tonnes,grade,zone\n0,0,0,1,0,1\n",
    b"zone,x,y,z,tonnes,grade\n0,10,0,0,1,0\n0,10,0,10,1,0\n",
    b"Zone,x,y,z,tonnes,grade\n0,10,0,20,1,0\n1,0,0,20,1,0\n",
]
THREE_KS = plan_of("dump,dump,200|", ["1,1,1", "1,1,2", "1,1,3"])

# A name, a plan, the one row of its zone file, and what is printed after the line of an objective.
WORTHS = [
    ("heap_leach_bands, at 2.5", LEACH, "0,0,0,1000,2.5", "0 111500|"),
    ("heap_leach_bands, below 2.5", LEACH, "0,0,0,1000,2.499999", "0 73999.97|"),
    ("heap_leach_bands, below 1", LEACH, "0,0,0,1000,0.999999", "0 -1000|"),
    ("heap_leach_bands, the richest mill", RICHEST, "0,0,0,1000000,1000000", f"0 {10**15}|"),
    ("cpit_destinations, waste", LIMITED, "0,0,0,1000,0", f"0 -2000|{NO_RESOURCE}0 0 L 500.5|"),
    ("cpit_destinations, that is covered", dumps("a"), "0,0,0,1,0", "0 -2|" + ONE_COEFFICIENT),
]

# A name, an input, and a part of what is printed.
PARTS = [
    (
        "two_blocks_out_of_order",
        piped(WASTE, zone_file("10,0,0,1,0", "0,0,0,2,0")),
        "== blocks|0 0 0 0 2 0 0|1 1 0 0 1 0 0|== prec|",
    ),
    (
        "marks in the plan and in each part",
        piped(MARK + THREE, *(MARK + zone_file(f"{at}0,0,0,1,0") for at in (2, 1, 0))),
        "== blocks|0 0 0 0 1 0 2|1 1 0 0 1 0 1|2 2 0 0 1 0 0|== prec|",
    ),
    (
        "a column zone: the number of the file is the zone",
        piped(THREE_KS, *ZONE_COLUMNS),
        "== blocks|0 0 0 0 1 0 0|1 1 0 0 1 0 1|2 1 0 1 1 0 1|3 0 0 2 1 0 2|4 1 0 2 1 0 2|"
        "== prec|0 1 2|1 3 2 3 4|2 2 3 4|3 0|4 0|== upit|",
    ),
    (
        "a column zone: the second of the same files",
        piped(TWO, ZONE_COLUMNS[1], ZONE_COLUMNS[0]),
        "== blocks|0 0 0 0 1 0 1|1 1 0 0 1 0 0|2 1 0 1 1 0 0|== prec|",
    ),
    (
        "cpit_destinations, the first of equals",
        piped(dumps("b"), ZERO),
        f"== cpit|{heading('CPIT', blocks=1, resources=1)}OBJECTIVE_FUNCTION:|0 -2|{NO_RESOURCE}",
    ),
    *(
        (name, piped(plan, zone_file(row)), "OBJECTIVE_FUNCTION:|" + part)
        for name, plan, row, part in WORTHS
    ),
]

# A name, an input, and the line of its fault.
FAULTS = [
    (
        "two_blocks_out_of_order, repeated",
        piped(WASTE, zone_file("10,0,0,1,0", "0,0,0,2,0", "10,0,0,3,0")),
        "file 0 row 4 repeats file 0 row 2",
    ),
    *(
        (f"the least of two files with a fault: {line}", piped(TWO, first, second), line)
        for first, second, line in [
            (zone_file("0,0,0,?,0"), b"x\n", "file 0 row 2 column tonnes: Number"),
            (b"x\n", zone_file("?,0,0,1,0"), "file 0 row 1 column y: MissingColumn"),
            (b"", zone_file("0,0,0,1"), "file 0 row 1 column x: MissingColumn"),
            (zone_file("0,0,0,1,0"), b"", "file 1 row 1 column x: MissingColumn"),
            (zone_file("0,0,0"), zone_file("?,0,0,1,0"), "file 0 row 2 column whole: Width"),
        ]
    ),
    (
        "the least file of two with a fault",
        piped(TWO, zone_file("0,0,0,1,0", "5,0,0,1,0"), zone_file("0,0,0,?,0")),
        "file 0 row 3 column x: OffGrid",
    ),
    (
        "a fault before a repetition",
        piped(TWO, zone_file(*["0,0,0,1,0"] * 2), zone_file("0,0,0,1,0", "10,0,0,1")),
        "file 1 row 3 column whole: Width",
    ),
    (
        "a million lines without a cut",
        piped(ONE, HEADER + b"0,0,0,1000,5000\n" * 1_000_000),
        "file 0 row 3 repeats file 0 row 2",
    ),
]

# Two zone files, each with a quote that is not closed, and so continues to its end.
OPEN_QUOTES = [
    b'x,y,z,tonnes,grade,rock\n0,0,0,1,0,"b\n5,0,0,1,0,c\n',
    b'x,y,z,tonnes,grade,rock\n10,0,0,1,0,"b\n0,0,0,1,0,c',
]

# Zone files that repeat a block, and the rows that are reported: rows of records, also after blank lines and line breaks in cells, of late
# rows, of many files; also if a number is written in another format.
FAR_ROWS = [f"{x % 100}0,{x // 100}0,0,1,0" for x in range(70_000)]
REPEATED_ROWS = [
    ("rows after blank lines", "0.3 0.2", [HEADER + b"\n\n0,0,0,1,0\n\r\n\n0,0,0,1,0\n"]),
    ("a row after a blank line of file 1", "1.3 0.2", [
        ORE, HEADER + b"\n10,0,0,1,0\n\n0,0,0,1,0\n"]),
    ("rows after line breaks in cells", "0.3 0.2", [
        b'x,y,z,tonnes,grade,"ro\nck"\n0,0,0,1,0,"a\n\nb"\n0,0,0,1,0,"c\n"\n']),
    ("late rows", "0.302 0.300", [
        zone_file(*FAR_ROWS[:299], FAR_ROWS[400], FAR_ROWS[298], FAR_ROWS[0])]),
    ("the second and the 258th row", "0.258 0.2", [zone_file(*FAR_ROWS[:256], FAR_ROWS[0])]),
    ("the 65,538th row", "0.65538 0.2", [zone_file(*FAR_ROWS[:65_536], FAR_ROWS[0])]),
    ("without tonnage", "0.3 0.2", [zone_file("0,0,0,0,0", "0,0,0,0,0")]),
    ("the second without tonnage", "0.4 0.2", [zone_file("0,0,0,1,0", "10,0,0,0,1", "0,0,0,0,0")]),
    ("rows of file 10", "10.2 0.2", [
        ORE, *(zone_file(f"{file}0,0,0,1,0") for file in range(1, 10)), ORE]),
    ("rows of files 10 and 12", "12.3 10.2", [
        *(zone_file(f"{file}0,0,0,1,0") for file in range(11)), HEADER,
        zone_file("110,0,0,1,0", "100,0,0,1,0")]),
    *(
        (f"written in another way: {first} and {second}", "0.3 0.2", [zone_file(first, second)])
        for first, second in [
            ("0,0,0,1,0", "0.0,0,0,1,0"), ("0,0,0,1,0", "-0,+0,00,2,3"),
            ("10,0,0,1,0", "010,0,0,1,0"),
            ("0,10,0,1,0", "0,+10.,0,1,0"), ("0,0,10,1,0", "0,0,10.000000,1,0"),
            ("0.,.0,0,1,0", "0,0,0.000,1,0"), ("10,20,30,1,0", "10.0,20.0,30.0,1,0"),
        ]
    ),
    ("written in another way in file 1", "1.2 0.2", [ORE, zone_file("00.000,-0,+.0,7,7")]),
]

# Zone files, of which each letter is a row and each other letter another block, and the rows that are reported: the first that repeats
# another one, and the first of that block, each as FILE.ROW.
REPETITIONS = """
AA 0.3 0.2, AAA 0.3 0.2, ABBA 0.4 0.3, ABAB 0.4 0.2, ABBAA 0.4 0.3, AABB 0.3 0.2, ABABBA 0.4 0.2,
ABCCBA 0.5 0.4, ABCBCA 0.5 0.3, ABCABC 0.5 0.2, ABCACB 0.5 0.2, ABCBAC 0.5 0.3,
AB BA 1.2 0.3, AB AB 1.2 0.2, A BB 1.3 1.2, ABB A 0.4 0.3, AB A A 1.2 0.2, AB A CC 1.2 0.2,
AB CA DD 1.3 0.2, AB C CA 2.2 1.2, AB CC A 1.3 1.2, A BC CBA 2.2 1.3, A BC ABC 2.2 0.2,
ABCD E EA 2.2 1.2, ABCD EFA EE 1.4 0.2, ABCD EFE A 1.4 1.2, ABC D DCBA 2.2 1.2, A  B BA 3.2 2.2
"""

# Zone files of a block each, the largest number and one too many.
SIXTY_FOUR = [zone_file(f"{10 * file},0,0,1,0") for file in range(64)]
ONE_MORE = [*SIXTY_FOUR, zone_file("0,10,0,1,0")]

# The same for an input that is cut at each line `--` and nowhere else. Files are counted before they are read.
CUTS = [
    ("parts: 65 for 64 zones", piped(zones(64), *ONE_MORE), "settings: Files"),
    ("parts: 65 zones", piped(zones(65), *ONE_MORE), "plan row 67: TooMany"),
    ("parts: 65 for one zone", piped(ONE, *ONE_MORE), "settings: Files"),
    ("parts: 257 for one zone", piped(ONE, *[ORE] * 257), "settings: Files"),
    (
        "parts: the last of 64 is invalid",
        piped(zones(64), *SIXTY_FOUR[:63], zone_file("0,0,0,1,?")),
        "file 63 row 2 column grade: Number",
    ),
    ("a cut within quotes", piped(ONE, HEADER + b'"0\n', b'",0,0,1,0\n'), "settings: Files"),
    ("a million cuts", ONE + b"--\n" * 1_000_000, "settings: Files"),
    ("an open quote of a plan at a cut", piped(b'name,"one\n', ORE), "plan row 1: Name"),
    *(
        (f"an open quote at a cut: {line}", piped(TWO, first, second), line)
        for first, second, line in [
            (HEADER + b'"0\n', ORE, "file 0 row 2 column whole: Width"),
            (ORE, HEADER + b'0,0,0,"1\n', "file 1 row 2 column whole: Width"),
        ]
    ),
    (
        "a cut by CR LF, and one without a line's end",
        TWO + b"--\r\n" + HEADER + b"--",
        "file 1 row 1 column x: MissingColumn",
    ),
    ("hyphens after a zone file", piped(ONE, ORE) + b"--", "settings: Files"),
    ("hyphens and CR after it", piped(ONE, ORE) + b"--\r", "file 0 row 3 column whole: Width"),
    ("a blank after the hyphens at the end", ONE + b"-- ", "plan row 7: Key"),
    ("a tab after the hyphens at the end of a zone file", piped(ONE, ORE) + b"--\t",
     "file 0 row 3 column whole: Width"),
    ("a blank after the hyphens, and a cut", ONE + b"-- \r\n--\n" + ORE, "plan row 7: Key"),
    ("three hyphens in a plan", ONE + b"---\n" + ORE, "plan row 7: Key"),
    ("four hyphens in a plan", ONE + b"----\n" + ORE, "plan row 7: Key"),
    ("three cuts in a row", THREE + b"--\n--\r\n--\n", "file 0 row 1 column x: MissingColumn"),
    ("a cut at the start", b"--\n" + ONE, "plan row 1: Missing"),
    ("a byte order mark before the hyphens", MARK + b"--\n" + ONE, "plan row 1: Key"),
    ("CR after the hyphens at the end", ONE + b"--\r", "plan row 7: Key"),
    ("CR CR LF after the hyphens", ONE + b"--\r\r\n", "plan row 7: Key"),
    *(
        (name, piped(ONE, zone_file(line)), "file 0 row 2 column " + fault)
        for name, line, fault in [
            ("hyphens at a line's end", "0,0,0,1,0--", "grade: Number"),
            ("hyphens at a line's start", "--0,0,0,1,0", "x: Number"),
            *((f"the line {line!r}", line, "whole: Width") for line in [
                "-", "---", "-- ", " --", "--\t", "\t--", "--  ", "- -", "__", "==", '"--"', "'--'",
                '--""', "\u2013", "\u2014", "\u2013\u2013", "\u2212\u2212", "\u00ad\u00ad", "--#",
                "--\0", "--\v", "--\u00a0", "--.", "-\u2010",
            ]),
            ("the line '--,,,,'", "--,,,,", "x: Number"),
            ("the line '\"--\",,,,'", '"--",,,,', "x: Number"),
            ("the line ',--'", ",--", "whole: Width"),
        ]
    ),
    # the same where the plan ends
    *(
        (f"the line {line!r} in a plan", ONE + f"{line}\n".encode() + ORE, "plan row 7: Key")
        for line in [
            "-", "-- ", " --", "--\t", "--,,,,", '"--"', '"--",,', "'--'", "\u2013", "\u2014",
            "\u2013\u2013", "\u2212\u2212", "- -", "==", "--\0", "--x",
        ]
    ),
]

# The largest number of bytes of a plan.
MOST = 1_048_576

# The same for an input that is a file.
FILES = [
    ("a zone file as the plan", ORE, "plan row 1: Key"),
    ("no zone file", ONE, "settings: Files"),
    ("a zone file too many", piped(ONE, ORE, ORE), "settings: Files"),
    ("a plan that is too long", piped(ONE.ljust(MOST + 1, b"\n"), ORE), "plan: TooLong"),
    (
        "the longest plan, and a row off the grid",
        piped(ONE.ljust(MOST, b"\n"), zone_file("5,0,0,1,0")),
        "file 0 row 2 column x: OffGrid",
    ),
    ("one file for two zones", piped(TWO, ORE, ORE), "file 1 row 2 repeats file 0 row 2"),
]


def from_files():
    """Inputs that are files, nothing and a folder."""
    files = {"input": piped(ONE, ORE)}
    yield Trial("the pipe form", source="input", files=files, out=sections(ONE_ORE_BLOCK))
    for name, text, line in FILES:
        yield refused(f"the pipe form: {name}", line, source="input", files={"input": text})
    yield refused("the pipe form: an empty input", "plan row 1: Missing", source="/dev/null")
    name, line = "the pipe form: a folder as standard input", "input: FeedFailed"
    yield refused(name, line, source=".")
    yield refused(f"{name}, an empty one", line, source="folder", files={"folder": Folder()})


def repetitions():
    """Each with positions that rise and that fall with the letters, and along each axis."""
    for entry in REPETITIONS.replace("\n", " ").strip().split(", "):
        letters, row, first = entry.rsplit(" ", 2)
        line = "file {} row {} repeats file {} row {}".format(*row.split("."), *first.split("."))
        files = letters.split(" ")
        for axis, sign in itertools.product(range(3), (1, -1)):
            def zone_row(letter):
                cells = ["0", "0", "0", "1", "0"]
                cells[axis] = str(500 + sign * (10 * ord(letter) - 640))
                return ",".join(cells)
            pieces = [zone_file(*map(zone_row, file)) for file in files]
            name = f"repetitions: {letters}, axis {axis}, {sign}"
            yield refused(name, line, given=piped(zones(len(files)), *pieces))


def repeated_rows():
    """By both forms."""
    for name, rows, files in REPEATED_ROWS:
        again, first = (place.split(".") for place in rows.split())
        line = "file {} row {} repeats file {} row {}".format(*again, *first)
        plan, names = zones(len(files)), [str(file) for file in range(len(files))]
        yield refused(f"repeated_rows: {name}", line, given=piped(plan, *files))
        given = {"plan": plan, **dict(zip(names, files))}
        arguments = compile_arguments("plan", "b", names)
        yield refused(f"repeated_rows: {name}, by compile", line, arguments=arguments, files=given)


def many_pieces(count):
    """This number of zone files, of a block each, from the last position to the first."""
    pieces = [zone_file(f"{10 * (count - file)},0,0,1,{file}") for file in range(count)]
    last = count - 1
    blocks = (f"{block} {block + 1} 0 0 1 {last - block} {last - block}|" for block in range(count))
    part = Part(lines("== blocks|" + "".join(blocks) + "== prec|"))
    return Trial(f"parts: {count}", given=piped(zones(count), *pieces), out=part)


# The coefficients of many_coefficients for five blocks and two resources, worked out manually.
COEFFICIENTS_BY_HAND = (
    "1 0 0 1|1 0 1 1|1 1 0 1|2 0 0 2|2 0 1 2|2 1 0 2|4 0 0 4|4 0 1 4|4 1 0 4|",
    "1 0 1|1 1 1|2 0 2|2 1 2|4 0 4|4 1 4|",
)


def coefficients_of(tonnes, resources):
    """The coefficients of blocks of these tonnes at each of two destinations, and in a CPIT at the
    first: all resources cover the first destination, and the first resource covers both."""
    coefficients = chosen = ""
    for block, mass in enumerate(tonnes):
        if mass:
            for number in range(resources):
                coefficients += f"{block} 0 {number} {mass}|"
                chosen += f"{block} {number} {mass}|"
            coefficients += f"{block} 1 0 {mass}|"
    return coefficients, chosen


def many_coefficients(blocks, resources):
    """Blocks of which each third has no tonnage."""
    more = "".join(f"resource,r{number},a|" for number in range(1, resources))
    rest = f"periods,1|rate,0.1|resource,r0,a,b|{more}"
    tonnes = [block if block % 3 else 0 for block in range(blocks)]
    rows = [f"{10 * block},0,0,{tonnes[block]},0" for block in range(blocks)]
    by_formula = coefficients_of(tonnes, resources)
    coefficients, chosen = COEFFICIENTS_BY_HAND if blocks == 5 else by_formula
    worths = "".join(f"{block} 0|" for block in range(blocks))
    part = (
        f"RESOURCE_CONSTRAINT_COEFFICIENTS:|{coefficients}RESOURCE_CONSTRAINT_LIMITS:|"
        f"== cpit|{heading('CPIT', blocks=blocks, resources=resources)}OBJECTIVE_FUNCTION:|{worths}"
        f"RESOURCE_CONSTRAINT_COEFFICIENTS:|{chosen}RESOURCE_CONSTRAINT_LIMITS:|"
    )
    name = f"coefficients of {blocks} blocks, {resources + 1} each"
    given = piped(plan_of("dump,a,0|dump,b,0|", rest=rest), zone_file(*rows))
    return Trial(name, given=given, out=Part(lines(part)))


def trials():
    yield from from_files()
    yield from repetitions()
    yield from repeated_rows()
    assert coefficients_of([0, 1, 2, 0, 4], 2) == COEFFICIENTS_BY_HAND
    for blocks, resources in [(5, 2), (1000, 1), (1000, 2), (1000, 4)]:
        yield many_coefficients(blocks, resources)
    yield from map(many_pieces, (4, 5, 8, 9, 16, 32, 63, 64))
    same = {"out": sections(ONE_ORE_BLOCK)}
    yield Trial("quoted_and_reordered", given=piped(ONE, OTHER_ORE), **same)
    waste = instance("0 0 0 0 0.001 0 0|", "0 0|", ["-0.01"], "waste")
    given = piped(WASTE, zone_file("0,0,0,0.001,0"))
    yield Trial("waste_of_one_kilogram", given=given, out=sections(waste))
    crossed = piped(ONE + b"\n", b"\n" + ORE).replace(b"\n", b"\r\n")
    yield Trial("lines that end in CR LF, and blank ones about a cut", given=crossed, **same)
    part = Part(lines("== blocks|0 0 0 0 1 0 0|1 1 0 0 1 0 1|== prec|"))
    yield Trial("open quotes before cuts", given=piped(TWO, *OPEN_QUOTES), out=part)
    for name, given, part in PARTS:
        yield Trial(name, given=given, out=Part(lines(part)))
    for name, given, line in FAULTS + CUTS:
        yield refused(name, line, given=given)
