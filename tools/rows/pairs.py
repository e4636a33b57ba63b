"""Two faults in one run: in two records of a plan, in two rows, in two files and in two texts.

Each kind of fault comes before each other kind. The order alone decides what is reported: the fault of the first invalid record, line, file
or text. Each name ends with it.
"""
import itertools

from rows.cells import Cell, with_cell
from rows.instance import ONE_ORE_BLOCK, ORE, PLAN, at, plan_of
from rows.plans import EIGHT_DUMPS, EIGHT_RESOURCES, FIVE_HUNDRED_BANDS, SIXTEEN_BANDS, SIXTY_FOUR_ZONES
from rows.texts import (
    BLOCKS, CPIT, FAULTS_OF_A_CPIT, FAULTS_OF_A_PCPSP, FAULTS_OF_BLOCKS, FAULTS_OF_PRECEDENCES,
    PCPSP, PREC, TEN_BLOCKS, number_of, put, whole,
)
from rows.trial import Folder, Link, lines, piped, refused, short, zone_file
from shared import CHECKED, ENDINGS, compile_arguments

# What precedes the invalid records of a plan, and records that are invalid after it.
PREFIX = "name,one|periods,2|dump,d,1|resource,r,d|limit,r,0,L,2|"
RECORDS = [
    ("Key", "pit,1"), ("Key", ",name,one"),
    ("Width", "periods"), ("Width", "grid,0,0,0,10,10"), ("Width", "limit,r,1,I,1"),
    ("Number", "rate,x"), ("Number", "zone,1,x,1"),
    ("TooFine", "rate,0.0000001"), ("TooFine", "leach,h,1,1,0,1.5"),
    ("Range", "dump,q,99999999"), ("Range", "zone,1,1,21"), ("Range", "limit,r,2,L,1"),
    ("Name", "resource,s,heap"), ("Name", "mill,?,1,1,1"), ("Name", "limit,r,1,X,1"),
    ("Twice", "name,two"), ("Twice", "dump,d,2"), ("Twice", "limit,r,0,G,1"),
    ("Order", "leach,h,1,1,2,300,1,400"), ("Order", "limit,r,1,I,2,1"),
    ("TooMany", SIXTEEN_BANDS + ",16,0"), ("TooMany", FIVE_HUNDRED_BANDS),
]

# Plans with the largest number of records of a key, the one that is too many, and records that are invalid after each of them.
FULL = [
    (SIXTY_FOUR_ZONES, "zone,1,1,1"), (EIGHT_DUMPS, "dump,i,1"), (EIGHT_RESOURCES, "resource,i,d"),
]
OF_FULL = [
    ("Key", "pit,1"), ("Width", "periods"), ("Number", "rate,x"), ("TooFine", "rate,0.0000001"),
    ("Range", "periods,101"), ("Name", "name,?"),
]

# Invalid rows of a zone file.
GOOD_ROW = [Cell("0"), Cell("0"), Cell("0"), Cell("1"), Cell("0")]
CELLS = [("Number", "?"), ("TooFine", "0.0000001"), ("Range", "-10"), ("OffGrid", "5")]
ROWS = [("whole: Width", "0,0,0,1"), ("whole: Width", "0,0,0,1,0,0")] + [
    (f"{column}: {kind}", ",".join(with_cell(GOOD_ROW, place, cell)))
    for (kind, cell), (place, column) in itertools.product(
        CELLS, enumerate(["x", "y", "z", "tonnes", "grade"]))
    if kind != "OffGrid" or place < 3
]

# Zone files with a fault: of the header, and of the third row, after a block that is the same in all.
FILES = [
    ("row 1 column x: MissingColumn", b""),
    ("row 1 column tonnes: MissingColumn", b"x,y,z,grade\n?,0,0,1\n"),
    ("row 1 column y: TwiceColumn", b"x,y,Y,z,tonnes,grade\n0\n"),
    *(("row 3 column " + fault, zone_file("0,0,0,1,0", row)) for fault, row in ROWS[1::2]),
]

# One fault of each kind of a zone file.
KINDS_OF_FILES = list({result.rsplit(" ")[-1]: (result, text) for result, text in FILES}.values())

# Lines of a block file and of a precedence file of ten blocks, which have this identifier.
BLOCK_LINES = [
    ("Fields", "{} 0 0 0 1 0"), ("Number", "{} x 0 0 1 0 0"), ("Number", "{} 0 0 0 1 0 ?"),
    ("TooFine", "{} 0 0 0 1.0001 0 0"), ("TooFine", "0.5 0 0 0 1 0 0"), ("Range", "{} 0 0 0 1 0 64"),
    ("Range", "64000000 0 0 0 1 0 0"), ("Order", "7 0 0 0 1 0 0"),
]
PREC_LINES = [
    ("Fields", "{}"), ("Number", "{} x"), ("Number", "{} 1 x"), ("TooFine", "{} 1 0.5"),
    ("Range", "{} 1 10"), ("Range", "10 0"), ("Order", "7 0"), ("Count", "{} 2 9"), ("Count", "{} 0 9"),
    ("Twice", "{0} 1 {0}"), ("Twice", "{} 2 9 9"), ("Twice", "{} 2 0 0"),
]


def compiled(name, line, plan, zones, **more):
    """A run of `compile` on these files that is refused."""
    files = {"plan": plan, **{f"zone{number}": text for number, text in enumerate(zones)}}
    arguments = compile_arguments("plan", "b", list(files)[1:])
    return refused(f"{short(name)}: {line}", line, arguments=arguments, files={**files, **more})


def in_two_records():
    """Of plans, the first record of two; also after the largest number of records of a key, and before too many records."""
    def reported(prefix, kind, first, second, name=""):
        line = f"plan row {prefix.count('|') + 1}: {kind}"
        name = short(f"two records: {first} before {name or second}")
        return refused(f"{name}: {line}", line, given=lines(f"{prefix}{first}|{second}"))

    for (kind, first), (_, second) in itertools.permutations(RECORDS, 2):
        yield reported(PREFIX, kind, first, second)
    for prefix, too_many in FULL:
        prefix = "name,one|" + prefix
        for kind, other in OF_FULL[:-1]:
            yield reported(prefix, kind, other, too_many)
        for _, other in OF_FULL:
            yield reported(prefix, "TooMany", too_many, other)
    for kind, record in RECORDS:
        yield reported(PREFIX, kind, record, ",|" * 10_000, "10,000 records")


def in_two_rows():
    """Of a zone file, the first row of two; also after rows that repeat a block."""
    plan = plan_of()
    for (fault, first), (_, second) in itertools.permutations(ROWS, 2):
        line, text = f"file 0 row 3 column {fault}", zone_file("0,0,0,1,0", first, second)
        yield refused(f"two rows: {first} before {second}: {line}", line, given=piped(plan, text))
    for fault, row in ROWS:
        line, text = f"file 0 row 4 column {fault}", zone_file("0,0,0,1,0", "0,0,0,1,0", row)
        yield refused(f"two rows: repeated before {row}: {line}", line, given=piped(plan, text))


def in_two_files(files):
    """Of zone files, the first of two and of three, whatever is wrong with the others; the same block is in each of them."""
    good, two, three = zone_file("0,0,0,1,0"), plan_of(cones=["1,1,1"] * 2), plan_of(cones=["1,1,1"] * 3)
    for (first, text), (second, other) in itertools.product(files, repeat=2):
        name = f"two files: {first} before {second}"
        yield compiled(name, f"file 0 {first}", two, [text, other])
    for result, text in files:
        name = f"two files: a repetition before {result}"
        yield compiled(name, f"file 2 {result}", three, [good, good, text])
        for what, put_there in [("a folder", Folder()), ("none", Link("nothing"))]:
            is_first = what == "a folder"
            line = f"file 0 {result}" if is_first else "file 1: FeedFailed"
            yield compiled(f"two files: {result} before {what}", line, two, [text, put_there])
        line = "file 0: FeedFailed"
        yield compiled(f"two files: a folder before {result}", line, two, [Folder(), text])


def in_two_texts():
    """The plan before its zone files, these before their number is checked, and all before anything is written."""
    full = {f"b.{ending}": Link("/dev/full") for ending in ENDINGS}
    plan, repeated = plan_of(), zone_file("0,0,0,1,0", "0,0,0,1,0")
    for kind, record in {kind: (kind, record) for kind, record in RECORDS}.values():
        invalid, line = lines(PREFIX + record), f"plan row 6: {kind}"
        for result, text in KINDS_OF_FILES:
            name = f"two texts: {record} before {result}"
            yield compiled(name, line, invalid, [text], **full)
        for what, put_there in [("a folder", Folder()), ("none", Link("nothing"))]:
            yield compiled(f"two texts: {record} before {what}", line, invalid, [put_there])
        yield compiled(f"two texts: {record} before a number of files", line, invalid, [repeated] * 3)
    for result, text in KINDS_OF_FILES:
        yield compiled(f"two texts: a number of files before {result}", "settings: Files", plan, [text] * 2)
        yield compiled(f"two texts: {result} before a full output", f"file 0 {result}", plan, [text], **full)
    name, line = "two texts: a repetition before a full output", "file 0 row 3 repeats file 0 row 2"
    yield compiled(name, line, plan, [repeated], **full)


def in_two_outputs():
    """Of the files of an instance, the first of two that cannot be written: those before it are complete, and no other is begun."""
    kinds = {"a folder": Folder(), "a full device": Link("/dev/full")}
    for (first, second), (kind, other) in itertools.product(
            itertools.combinations(ENDINGS, 2), itertools.permutations(kinds)):
        files = {f"b.{first}": kinds[kind], f"b.{second}": kinds[other]}
        whole_ones = {ending: ONE_ORE_BLOCK[ending] for ending in ENDINGS[:ENDINGS.index(first)]}
        name, line = f"two outputs: {kind} at {first}, then {second}", f"sink {first}: SinkFailed"
        yield compiled(name, line, PLAN, [ORE], **files)._replace(left=at("b", whole_ones))


def in_two_pieces():
    """The number of zone files before their faults, by the pipe form."""
    two = plan_of(cones=["1,1,1"] * 2)
    for result, text in KINDS_OF_FILES:
        for plan, pieces in [(plan_of(), [text] * 2), (two, [text]), (two, [text] * 3)]:
            name = f"two pieces: {len(pieces)} for another number before {result}"
            yield refused(name, "settings: Files", given=piped(plan, *pieces))


def checked(name, line, texts):
    """A check of these texts that is refused."""
    files = at("b", dict(zip(CHECKED, texts)))
    return refused(f"{short(name)}: {line}", line, arguments=["check", "b"], files=files)


def in_two_lines():
    """Of a block file and of a precedence file, the first line of two."""
    blocks, rest = TEN_BLOCKS.decode().splitlines(), [whole(PCPSP), whole(CPIT)]
    for (kind, first), (_, second) in itertools.permutations(BLOCK_LINES, 2):
        text = whole([*blocks[:3], first.format(3), second.format(4), *blocks[5:]])
        line = f"blocks line 4: {kind}"
        yield checked(f"two lines: {first} before {second}", line, [text, PREC, *rest])
    for (kind, first), (_, second) in itertools.permutations(PREC_LINES, 2):
        text = whole(["0 0", "1 0", first.format(2), second.format(3)])
        line = f"prec line 3: {kind}"
        yield checked(f"two lines: {first} before {second}", line, [TEN_BLOCKS, text, *rest])


def last_of(good, number, change):
    """Returns the number, before a change, of the last line that is changed or reported."""
    start = number_of(good, change.line)
    is_after = number >= start + len(change.others)
    reported = number + change.count - len(change.others) if is_after else number
    return max(reported, start + change.count - 1)


def one_of_each(good, table):
    """Yields for the faults of a model file one of each kind at each line: the line, the kind and the change."""
    found = {}
    for line, kind, change, *_ in table:
        change = put(line, change) if isinstance(change, str) else change
        found.setdefault((number_of(good, line), kind), change)
    return [(number, kind, change) for (number, kind), change in found.items()]


def pairs_of_lines(good, table):
    """Yields each two faults of a model file of different kinds, one pair of them for the two sections in which they are."""
    faults, found = one_of_each(good, table), {}
    section = [sum(line[-1] == ":" for line in good[:at]) for at in range(len(good) + 2)]
    for (number, kind, first), (place, other, second) in itertools.product(faults, repeat=2):
        if kind != other and first.count is not None:
            if number_of(good, second.line) > last_of(good, number, first):
                sections = section[number], section[place]
                found.setdefault((kind, other, sections), (number, kind, first, second))
    return found.values()


def in_two_lines_of_a_model():
    """Of a model file, the first line of two."""
    for file, good, table, texts in [
        ("pcpsp", PCPSP, FAULTS_OF_A_PCPSP, [BLOCKS, PREC]),
        ("cpit", CPIT, FAULTS_OF_A_CPIT, [BLOCKS, PREC, whole(PCPSP)]),
    ]:
        for number, kind, first, second in pairs_of_lines(good, table):
            text, line = whole(first.of(second.of(good))), f"{file} line {number}: {kind}"
            name = f"two lines: {first} before {second}"
            yield checked(name, line, [*texts, text, whole(CPIT)][:4])


def of_each_kind(file, table):
    """Yields one text of each kind of fault, with its line."""
    found = {}
    for line, text, *_ in table:
        if line.startswith(file):
            found.setdefault(line.rsplit(" ", 1)[-1], (line, text))
    return list(found.values())


def of_model(file, good, table):
    """The same for a model file."""
    faults = one_of_each(good, table)
    return of_each_kind(file, [
        (f"{file} line {number}: {kind}", whole(change.of(good))) for number, kind, change in faults])


def in_two_files_of_an_instance():
    """Of the texts of an instance, the first of two."""
    good = [BLOCKS, PREC, whole(PCPSP), whole(CPIT)]
    invalid = [
        of_each_kind("blocks", FAULTS_OF_BLOCKS), of_each_kind("prec", FAULTS_OF_PRECEDENCES),
        of_model("pcpsp", PCPSP, FAULTS_OF_A_PCPSP), of_model("cpit", CPIT, FAULTS_OF_A_CPIT),
    ]
    for first, second in itertools.combinations(range(4), 2):
        for (line, text), (other, after) in itertools.product(invalid[first], invalid[second]):
            texts = list(good)
            texts[first], texts[second] = text, after
            yield checked(f"two texts: {line} before {other}", line, texts)


def of_compile():
    """Yields the pairs of plans and zone files, by `compile`."""
    yield from in_two_files(FILES)
    yield from in_two_texts()


def trials():
    yield from in_two_records()
    yield from in_two_rows()
    yield from of_compile()
    yield from in_two_outputs()
    yield from in_two_pieces()
    yield from in_two_lines()
    yield from in_two_lines_of_a_model()
    yield from in_two_files_of_an_instance()
