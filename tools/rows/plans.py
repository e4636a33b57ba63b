"""Plans: which are accepted, and the first invalid record of the others; some by `compile` too.

The table written has what the texts show of a plan.
"""
import itertools

from rows.cells import (
    LETTERS, Cell, bytes_about_a_name, invalid_text, pairs_of_faults, quoted, record_of,
    two_kinds_of_faults, with_cell,
)
from rows.instance import WASTE, plan_of
from rows.trial import HEADER, MARK, lines, refused, short
from shared import compile_arguments

TAKEN = None

# The six records that a plan must have, and the same in another order, except a destination.
SIX = ["name,one", "grid,0,0,0,10,10,10", "zone,1,1,1", "dump,d,1", "periods,1", "rate,0.1"]
IN_TURN = "rate,0|periods,2|{}|zone,1,1,1|grid,0,0,0,10,10,10|name,one"

SIXTY_FOUR_ZONES = "zone,1,1,1|" * 64
DESTINATIONS = ["dump,d,1", "mill,d,1,1,1", "leach,d,1,1,0,1"]
EIGHT_DUMPS = "".join(f"dump,{name},1|" for name in "abcdefgh")
EIGHT_RESOURCES = "dump,d,1|" + "".join(f"resource,{name},d|" for name in "abcdefgh")
ONE_RESOURCE = "dump,d,1|resource,r,d|"
LIMITED = "periods,1|" + ONE_RESOURCE
NAMED = "dump,one-way,1|resource,one-way,one-way|periods,1|"
LIMITS = ["limit,r,0,L,2", "limit,r,0,G,2", "limit,r,0,I,2,3"]
ALL_LIMITS = "periods,100|" + EIGHT_RESOURCES + "".join(
    f"limit,{of},{period},L,1|" for of in "abcdefgh" for period in range(100))
SIXTEEN_BANDS = "leach,h,1,1" + "".join(f",{start},0" for start in range(16))
SIXTEEN_OF_THE_MILL = SIXTEEN_BANDS.replace("leach,h", "leach,mill")
FIVE_HUNDRED_BANDS = "leach,h,1,1" + "".join(f",{start},0" for start in range(500))

# Names that are numbers, keys, or begin or end with unusual characters.
ODD_NAMES = [
    "0", "007", "-", "-1", "-x", "..", ".x", "x.", "_", "_-.", "mill", "name", "MILL", "1.5", "a..b", "n" * 64,
]


def odd_names():
    """Each of them as the name of each kind of destination and of a resource."""
    for at in range(len(ODD_NAMES)):
        mill, leach, dump, resource = (ODD_NAMES[(at + more) % len(ODD_NAMES)] for more in range(4))
        yield f"mill,{mill},1,1,1|leach,{leach},1,1,0,1|dump,{dump},1|resource,{resource},{dump},{mill},{leach}"


# Names of 64 bytes that differ in one, and names that are prefixes of others.
LONG_NAMES = ["n" * at + "m" + "n" * (63 - at) for at in (0, 7, 8, 15, 16, 30, 31, 32, 62, 63)]
FRONTS = ["n" * length for length in (1, 7, 8, 9, 31, 32, 63, 64)]

# The cells of records, by docs/formats.md: what precedes the record, its key and its cells. Numbers count millimetres, millionths or
# integers.
ORIGIN, SIZE = Cell("0", 3, -(10**12), 10**12), Cell("10", 3, 1, 100_000)
SLOPE, BENCHES = Cell("1", 0, 1, 1000), Cell("1", 0, 1, 20)
RECOVERY, PRICE, COST = Cell("900", 0, 0, 1000), Cell("600", 0, 0, 10**8), Cell("1500", 0, 0, 10**7)
START, RATE = Cell("1", 6, 0, 10**12), Cell("0.1", 6, 0, 10**6)
NAME, COVERED, LIMITED_BY = Cell("n"), Cell("d"), Cell("r")
TONNES = Cell("1", 6, 0, 10**18)
SMALLEST, LARGEST = TONNES._replace(good="0"), TONNES._replace(good="1000000000000")
AT_MOST, AT_LEAST, BETWEEN = Cell("L"), Cell("G"), Cell("I", stays=True)


def limited(periods, *ends):
    """Returns a limit of a plan with this number of periods, with this letter and these tonnes."""
    before = f"periods,{periods}|dump,d,1|resource,r,d|"
    return before, "limit", [LIMITED_BY, Cell("0", 0, 0, periods - 1), *ends]


CELLS = [
    ("", "name", [NAME]),
    ("", "grid", [ORIGIN] * 3 + [SIZE] * 3),
    ("", "zone", [SLOPE, SLOPE, BENCHES]),
    ("", "zone", [SLOPE] * 8 + [BENCHES]),
    ("", "mill", [NAME, RECOVERY, PRICE, COST]),
    ("", "leach", [NAME, PRICE, COST, START, RECOVERY]),
    ("", "dump", [NAME, COST]),
    ("", "periods", [Cell("1", 0, 1, 100)]),
    ("", "rate", [RATE]),
    ("dump,d,1|dump,e,1|", "resource", [NAME, COVERED, Cell("e")]),
    limited(100, AT_MOST, TONNES),
    limited(1, AT_LEAST, TONNES),
    limited(2, BETWEEN, SMALLEST, LARGEST),
]

# Keys, and how many cells their records may have, the key counted, of the first 40; every other cell is `?`, so the kind shows which cell
# is checked first. The fourth cell of a `limit` decides on its width.
WIDTHS = [
    ("name", [2], "Name"),
    ("grid", [7], "Number"),
    ("zone", [4, 10], "Number"),
    ("mill", [5], "Name"),
    ("leach", range(6, 41, 2), "Name"),
    ("dump", [3], "Name"),
    ("periods", [2], "Number"),
    ("rate", [2], "Number"),
    ("resource", range(3, 41), "Name"),
    ("limit", [5], "Name"),
    ("limit,?,?,I", [6], "Name"),
    ("limit,?,?,i", [5], "Name"),
    ("limit,?,?,II", [5], "Name"),
]

# What is none of the keys: each key with a letter less, a letter more and one changed.
NO_KEYS = [
    "#", "%", "#name", "pit", "na me", "name:", "re\u017fource", "l\u0131mit", "nam\u00e9", "x",
    "0", "?",
]


# The preceding text, the kind of a fault, and records that have it there as the last; `Missing` is reported for the row after them.
FAULTS = [
    # the table of examples, and what may be missing at the end, each alone
    ("|".join(SIX), "Twice", "|name,one"),
    ("|".join(SIX), "Name", "|resource,r,heap", "|limit,r,0,L,1"),
    ("", "Missing", *("|".join(SIX[:at] + SIX[at + 1 :]) for at in range(6))),
    # blanks round cells, and empty ones
    ("", "Missing", " name\t,\t one \t, ,\t", 'name,one,"",', 'name," one\t"'),
    ("", "Missing", "name,one" + "," * 1000, "rate,0" + ", " * 64, "name, " + "a" * 64 + "\t"),
    ("", "Width", "name,one" + "," * 1000 + "x", "name" + ",x" * 1000, "rate,0" + ", " * 64 + "0"),
    # a width before the cells, and cells before the repetition
    ("", "Width", "name,", "name, ,", 'name,""', "grid,x,0,0,10,10"),
    ("name,one|", "Name", "name,a b"),
    ("name,one|", "Twice", "name,two"),
    ("name,one|", "Width", "name,one,two"),
    ("grid,0,0,0,10,10,10|", "Twice", "grid,1,1,1,1,1,1"),
    ("grid,0,0,0,10,10,10|", "Range", "grid,0,0,0,10,10,0"),
    ("grid,0,0,0,10,10,10|", "Number", "grid,x,0,0,10,10,10"),
    ("periods,1|", "Twice", "periods,100"),
    ("periods,1|", "TooFine", "periods,1.5"),
    ("rate,0|", "Twice", "rate,1"),
    ("rate,0|", "Range", "rate,1.1"),
    ("rate,0|", "Number", "rate,x"),
    # the largest number of zones, and a 65th, which is checked first
    (SIXTY_FOUR_ZONES, "Missing", ""),
    (SIXTY_FOUR_ZONES, "TooMany", "zone,1,1,1|", "zone,1,1,1,1,1,1,1,1,1"),
    (SIXTY_FOUR_ZONES, "Range", "zone,1,1,0"),
    (SIXTY_FOUR_ZONES, "Number", "zone,1,x,1"),
    (SIXTY_FOUR_ZONES, "Width", "zone,1,1"),
    (SIXTY_FOUR_ZONES, "TooFine", "zone,1,0.5,1"),
    # destinations: one list of names, whatever their keys
    ("", "Twice", *map("|".join, itertools.product(DESTINATIONS, repeat=2))),
    ("dump,c,1|dump,d,1|", "Twice", "dump,c,1"),
    ("dump,d,1|", "Number", "dump,d,x"),
    ("dump,d,1|", "Missing", "dump,D,1|dump,dd,1|dump,d.,1"),
    # a ninth destination, which is checked first
    (EIGHT_DUMPS, "Missing", ""),
    (EIGHT_DUMPS, "TooMany", "dump,i,1", "mill,i,1,1,1", "leach,i,1,1,0,1"),
    (EIGHT_DUMPS, "Twice", "dump,a,1", "dump,h,1", "leach,h,1,1,2,300,2,400"),
    (EIGHT_DUMPS, "Range", "dump,i,10000001"),
    (EIGHT_DUMPS, "Name", "dump,?,1"),
    (EIGHT_DUMPS, "Width", "dump,i", "mill,i,1,1", "leach,i,1,1,0"),
    (EIGHT_DUMPS, "Number", "mill,a,1,1,x", "dump,i,x", "leach,i,1,x,0,1", "leach,i,1,1,0,x"),
    (EIGHT_DUMPS, "TooFine", "dump,i,0.5", "mill,i,1,1,0.5", "leach,i,1,1,0,0.5"),
    (EIGHT_DUMPS, "Range", "mill,i,1001,1,1", "leach,i,1,1,0,1001"),
    (EIGHT_DUMPS, "Name", "mill,?,1,1,1", "leach,?,1,1,0,1"),
    (EIGHT_DUMPS, "Order", "leach,i,1,1,2,300,2,400", "leach,i,1,1,5,1,3,2", "leach,i,1,1,0,0,0,0"),
    # resources name earlier destinations, each once
    ("dump,d,1|", "Missing", "resource,d,d", "resource,r,d|resource,R,d"),
    ("dump,d,1|", "Name", "resource,r,0", "resource,r,d,0", "resource,r,d,1", "resource,r,d,d,?"),
    ("dump,d,1|", "Name", "resource,r,d|resource,r,?", "resource,r,d|resource,r,d,x"),
    ("dump,d,1|", "Name", "resource,r,d,*", "resource,r,*,d", "resource,*,*", "resource,r,d,d,d,*"),
    ("dump,d,1|", "Name", "resource,?,x", "resource,r,D", "resource,r,d,d,x"),
    ("dump,d,1|", "Name", "resource,q,d|resource,r,q", "resource,r,d|resource,r,x"),
    ("dump,d,1|", "Twice", "resource,r,d,d", "resource,r,d|resource,r,d"),
    ("dump,d,1|", "Twice", "resource,q,d|resource,r,d|resource,q,d"),
    ("dump,d,1|dump,e,1|", "Twice", "resource,r,d,e,d", "resource,r,e,d,e"),
    (EIGHT_DUMPS, "Twice", "resource,r,a,b,c,b", "resource,r,a,b,a,c", "resource,r,a,b,c,d,e,f,g,h,h",
     "resource,r,a,b,c,d,e,f,g,h,a"),
    (EIGHT_DUMPS + "resource,r,a|", "TooMany", "dump,i,1", "mill,i,1,1,1", "leach,i,1,1,0,1"),
    (EIGHT_DUMPS.replace("dump,h,1|", ""), "Missing", "mill,h,1,1,1", "leach,h,1,1,0,1"),
    ("dump,d,1|resource,r,d|", "Width", "resource,r", "resource"),
    # names that resemble others
    ("dump,a.b,1|", "Missing", "dump,a_b,1|dump,ab,1|dump,a-b,1|dump,7,1|dump,007,1|dump,07,1|resource,r,7"),
    ("dump,a.b,1|dump,007,1|", "Name", "resource,r,a_b", "resource,r,ab", "resource,r,7", "resource,r,0"),
    ("dump,d,1|resource,a.b,d|", "Missing", "resource,a_b,d|resource,ab,d|resource,7,d|resource,007,d"),
    (EIGHT_RESOURCES, "Missing", ""),
    (EIGHT_RESOURCES, "TooMany", "resource,i,d", "resource,A,d", "resource,dd,d"),
    (EIGHT_RESOURCES, "Twice", "resource,a,d", "resource,i,d,d"),
    (EIGHT_RESOURCES, "Name", "resource,i,x"),
    (EIGHT_RESOURCES, "Width", "resource,i"),
    # a name is identified by all of its bytes, the case of letters among them
    *(
        (NAMED, "Name", f"resource,r,{other}", f"limit,{other},0,L,1")
        for other in ["one", "one-", "one-wa", "one-ways", "one_way", "oneway", "One-way",
                      "ONE-WAY", "one way", "way", "-way", "one.way"]
    ),
    ("dump,one-way,1|", "Missing", *(f"dump,{other},1" for other in [
        "one", "one-", "one-wa", "one-ways", "one_way", "oneway", "One-way", "one.way"])),
    ("dump,d,1|resource,r-1,d|", "Missing", *(f"resource,{other},d" for other in [
        "r", "r-", "r-12", "r_1", "R-1", "r.1", "r1"])),
    *(
        ("".join(f"dump,{name},1|" for name in names), kind, *records)
        for names in (LONG_NAMES[:8], FRONTS)
        for kind, records in [
            ("Missing", ["", *(f"resource,r,{name}" for name in names)]),
            ("Missing", ["resource,r," + ",".join(names)]),
            ("Name", [f"resource,r,{'n' * length}" for length in (2, 33, 62)]),
            ("Twice", [f"resource,r,{name},{name}" for name in names]),
            ("Twice", [f"dump,{name},1" for name in names]),
        ]
    ),
    *(
        ("dump,d,1|periods,1|" + "".join(f"resource,{name},d|" for name in names), kind, *records)
        for names in (LONG_NAMES[:8], LONG_NAMES[2:], FRONTS)
        for kind, records in [
            ("Missing", ["", "|".join(f"limit,{name},0,L,1" for name in names)]),
            ("Name", [f"limit,{'n' * length},0,L,1" for length in (2, 33, 62)]),
            ("Twice", [f"resource,{name},d" for name in names]),
        ]
    ),
    # two formats of one number
    *(
        (f"{LIMITED}limit,r,{first},L,2|", "Twice", f"limit,r,{second},L,3",
         f"limit,r,{second},I,1,2")
        for first, second in [("0", "00"), ("0", "-0"), ("+0", "0"), ("0.0", "0"), ("0", "0."),
                              ("000", ".0"), ("0", "+.000")]
    ),
    ("periods,100|" + ONE_RESOURCE + "limit,r,10,L,2|", "Twice", "limit,r,010,G,2",
     "limit,r,10.0,L,2"),
    ("periods,100|" + ONE_RESOURCE + "limit,r,010,L,2|", "Missing", "limit,r,8,L,2",
     "limit,r,1,L,2"),
    ("periods,100|" + ONE_RESOURCE + "limit,r,010,L,2|", "Twice", "limit,r,10,G,2",
     "limit,r,+10.,I,2,2"),
    ("periods,010|" + ONE_RESOURCE, "Missing", "limit,r,9,L,2", "limit,r,08,L,2",
     "limit,r,9.0,L,2"),
    ("periods,010|" + ONE_RESOURCE, "Range", "limit,r,10,L,2", "limit,r,010,L,2"),
    ("periods,2.0|" + ONE_RESOURCE, "Missing", "limit,r,1,L,2"),
    ("periods,2.0|" + ONE_RESOURCE, "Range", "limit,r,2,L,2", "limit,r,10,L,2", "limit,r,19,L,2"),
    (LIMITED, "Missing", "limit,r,0,I,5,5.000000", "limit,r,0,I,05,5.", "limit,r,0,I,-0,0",
     "limit,r,0,I,+.5,00.50"),
    # ends of a limit that floating point makes equal
    (LIMITED, "Order", "limit,r,0,I,1000000000000,999999999999.999999",
     "limit,r,0,I,999999999999.999999,999999999999.999998",
     "limit,r,0,I,500000000000.000001,500000000000"),
    # powers of two millionths
    (LIMITED, "Missing", "limit,r,0,I,1,4294.967296", "limit,r,0,I,1,9007199254.740992"),
    (LIMITED, "Missing", "limit,r,0,I,999999999999.999999,1000000000000",
     "limit,r,0,I,999999999999.999998,999999999999.999999"),
    # a limit that occurs twice, after many others
    *(
        (ALL_LIMITS, "Twice", f"limit,{of},{period},{rest}")
        for of, period in itertools.product("ah", (0, 1, 15, 16, 50, 98, 99))
        for rest in ("G,1", "I,1,2")
    ),
    # more digits around the point than any counter holds
    ("", "Missing", *(f"periods,{'0' * zeros}100" for zeros in (17, 39, 64, 255, 1_003, 5_000))),
    ("", "Missing", *(f"rate,{'0' * zeros}.5" for zeros in (39, 64, 255, 1_003, 5_000))),
    ("", "Range", *(f"periods,{'0' * zeros}101" for zeros in (17, 64, 1_003))),
    ("", "Missing", *(f"rate,0.1{'0' * zeros}" for zeros in (39, 64, 255, 1_003, 5_000))),
    ("", "TooFine", f"rate,0.1{'0' * 1_500}1", f"periods,1.{'0' * 5_000}1"),
    # what some programs accept as numbers
    ("", "Number", *(f"periods,{text}" for text in [
        "(5)", "1 a", "<", "<1", "1-", "one", "-inf", "+.", "1y", "0x1", "1/1", "1d0"])),
    ("", "Number", *(f"grid,0,0,0,{text},10,10" for text in [
        "10 m", "10m", "(10)", "inf", "+.", "<10", "10'", "-inf"])),
    ("", "Number", *(f"grid,{text},0,0,10,10,10" for text in ["0 m", "(0)", "-inf", "0'", "<0"])),
    ("", "Number", *(f"rate,{text}" for text in ["8%", "8 %", "(0)", "+.", "1/10", "<1", "-inf"])),
    # limits name earlier resources and periods
    ("", "Name", "limit,nope,x,L,1"),
    (LIMITED, "Name", "limit,d,0,L,1", "limit,R,0,L,1"),
    (LIMITED, "Width", "limit,r,0,i,1,2", "limit,r,0,I,1,"),
    (LIMITED, "Width", "limit,r,0,L,1,2", "limit,r,0,G,1,2"),
    (LIMITED, "Missing", "limit,r,0, I ,1,1", "limit,r,0,I,0,0.000001", "limit,r,0,I,2,2"),
    (LIMITED, "Order", "limit,r,0,I,2,1", "limit,r,0,I,0.000001,0"),
    (LIMITED + "limit,r,0,I,2,2|", "Twice", "limit,r,0,I,2,1"),
    (LIMITED, "Name", "limit,0,0,L,1", "limit,1,0,L,1"),
    (LIMITED, "Order", "limit,r,0,I,1.5,1.25", "limit,r,0,I,0.9,0.1", "limit,r,0,I,7.000001,7"),
    (LIMITED + "limit,r,0,L,2|", "Twice", "limit,r,0,I,2,1", "limit,r,0,I,0.5,0.25"),
    (LIMITED + "limit,r,0,L,2|", "Twice", *LIMITS),
    (LIMITED + "limit,r,0,G,2|", "Twice", *LIMITS),
    (LIMITED + "limit,r,0,I,2,3|", "Twice", *LIMITS),
    (LIMITED + "limit,r,0,I,2,3|", "Width", "limit,r,0,L,2,3", "limit,r,0,I,2", "limit,r,0,I"),
    (LIMITED + "limit,r,0,I,2,3|", "Number", "limit,r,0,I,4,x", "limit,r,0,I,x,3"),
    (LIMITED + "limit,r,0,L,2|resource,s,d|", "Missing", "limit,s,0,L,2", "limit,s,0,I,2,2"),
    (LIMITED + "limit,r,0,L,2|", "Range", "limit,r,0,L,-1"),
    (LIMITED + "limit,r,0,L,2|", "Name", "limit,r,0,X,1"),
    (LIMITED + "resource,s,d|limit,r,0,L,2|limit,s,0,L,2|", "Twice", "limit,r,0,G,1"),
    ("periods,2|dump,d,1|resource,r,d|limit,r,1,L,2|", "Missing", "limit,r,0,L,2"),
    # names of every kind, and the same one for a plan, a destination and a resource
    ("", "Missing", "name,123", "name,.", "name,--", "name,-1", "name,_", "name,name", "name,L"),
    ("", "Missing", "dump,123,1|resource,.,123|periods,1|limit,.,0,L,1"),
    ("", "Missing", "dump,--,1|resource,--,--", "dump,dump,1|resource,resource,dump"),
    ("", "Missing", "name,d|dump,d,1|resource,d,d", "dump,d,1|resource,d,d|name,d"),
    ("", "Missing", "name,r|dump,d,1|resource,r,d", "dump,d,1|resource,r,d|name,r"),
    ("", "Missing", "name,n|dump,n,1", "dump,n,1|name,n"),
    ("", "Missing", "dump,d,1|resource,r,d|dump,r,1", "dump,d,1|resource,r,d|mill,r,1,1,1"),
    ("", "Missing", "dump,d,1|resource,r,d|leach,r,1,1,0,1|resource,d,r|resource,e,r,d"),
    ("dump,d,1|", "Name", "resource,r,*", "resource,r,all", "resource,r,d d", "resource,r,d,r"),
    ("dump,d,1|resource,r,d|", "Name", "resource,s,r", "dump,*,1", "limit,d,0,L,1"),
    ("dump,d,1|resource,r,d|", "Name", "limit,*,0,L,1", "limit,,0,L,1", "limit,r r,0,L,1"),
    # the text between quotes is taken unchanged except for blanks; a comma after a backslash is one
    ("", "Width", "name,one\\,two", "rate,0\\,1"),
    ("", "Name", "name,one\\", "name,one\x0b", "name,\x85one", "name,one\x1c", 'name,"one\x0c"'),
    # quoted cells
    ("", "Name", '"name" ,"o""e"', 'name,"o,e"', "name,'one'", "name,one\u00a0", "name,on\u00e9"),
    ("", "Name", "name,one\u2009", "name,\u2009one", "name,o\u200bne", "name,\ufeffone"),
    ("", "Missing", 'name,"one'),
    ("", "Missing", *odd_names()),
    # bytes that some programs treat as the end of a record, of a cell or of all, or skip
    ("", "Name", "name,one\x0c", "name,one\x1e", "name,one\0", "name,one\x1a", 'name,o"ne',
     "name,one" + " " * 70_000 + "x"),
    ("", "Key", "# x", "% x", "//,x", "name;one", "name\tone", ' "name",one', '"name\n",one', "'name',one"),
    ("", "Width", "name,one" + "," * 70_000 + "x", 'name,"one\\",two"'),
    (LIMITED, "Name", 'limit,r,0,"L"x,1', 'limit,r,0,"L""",1'),
    # each record that may occur once, again after a resource and a limit
    ("|".join(SIX) + "|resource,r,d|limit,r,0,L,1|", "Twice", "name,one", "grid,0,0,0,10,10,10", "periods,1", "rate,0.1"),
    # many destinations, of which one is unknown, and the same number of cells of a resource
    ("dump,d,1|", "Name", "resource,r,e" + ",d" * 40, "resource,r" + ",e" * 17),
    # all required records except one, and a resource
    ("", "Missing", *("|".join([*SIX[:at], *SIX[at + 1 :], "resource,r,d"]) for at in (0, 1, 2, 4, 5))),
]


def repeated_with_a_fault():
    """Returns a record that may not be repeated, repeated with an invalid cell or an extra cell, and the kind, which is not Twice."""
    for before, key, cells in CELLS:
        record = [key, *(cell.good for cell in cells)]
        others, last = [([*record, "1"], "Width")], cells[-1]
        if last.decimals is not None:
            kinds = ("Number", "TooFine", "Range")
            others += [([*record[:-1], invalid_text(last, kind)], kind) for kind in kinds]
        for other, kind in others if key not in ("zone", "resource") else ():
            yield f"{before}{','.join(record)}|{','.join(other)}", kind

# Other plans, by their first invalid record.
PLANS = [
    ("|".join([*SIX[:2], "zone,1,1,21", *SIX[3:]]), "row 3: Range"),
    ("|".join([*SIX[:2], "zone,1,1", *SIX[3:]]), "row 3: Width"),
    ("|".join([*SIX[:2], "pit,1", *SIX[3:]]), "row 3: Key"),
    (",x|name,one", "row 1: Key"),
    (",name,one", "row 1: Key"),
    (" ,,periods,1", "row 1: Key"),
    ('name,one|"",grid,0,0,0,10,10,10', "row 2: Key"),
    ("name,\"one|grid,0", "row 1: Name"),
    # a blank line is no record; one of empty cells is
    ("||\r|pit", "row 1: Key"),
    ("name,one||pit", "row 2: Key"),
    ("name,one||\r||", "row 2: Missing"),
    ('""|pit', "row 2: Key"),
    ('""', "row 2: Missing"),
    ('" "|"",""|pit', "row 3: Key"),
    ('name,one|""|""|name,one', "row 4: Twice"),
    (" |pit", "row 2: Key"),
    ('"",pit|name,one', "row 1: Key"),
    ('"|"|pit', "row 1: Key"),
    ("name,one|,,| , |||", "row 4: Missing"),
    ("resource,r,d|dump,d,1", "row 1: Name"),
    ("dump,d,1|resource,r,d|limit,r,0,L,1|periods,1", "row 3: Range"),
    ("dump,d,1|resource,r,d|limit,r,x,L,1|periods,1", "row 3: Number"),
    ("dump,d,1|resource,r,d|limit,r,99,L,1|periods,100", "row 3: Range"),
    ("dump,d,1|resource,r,d|limit,r,0,I,1,2|periods,2", "row 3: Range"),
    ("dump,d,1|resource,r,d|limit,r,0.5,L,1|periods,1", "row 3: TooFine"),
    ("periods,1|dump,d,1|limit,r,0,L,1|resource,r,d", "row 3: Name"),
    ("|".join(SIX) + ",,,", TAKEN),
    # in any order, except for what is named
    ("rate,1|periods,100|dump,d,1|zone,1,1,1|grid,0,0,0,10,10,10|name,one", TAKEN),
    (IN_TURN.format("mill,m,0,0,0") + "|resource,m,m|limit,m,1,G,0", TAKEN),
    (IN_TURN.format("leach,m,0,0,0,0"), TAKEN),
    # keys in any case, padded and empty records, quoted cells, and ends of lines of all kinds
    ("NAME , one|Grid,0,0,0,10,10,10,,|,,|zOne, 1 ,\t1,1|dump,d,1|periods,1|rate,0.1", TAKEN),
    ('"name","one"\r|{1}\rzone,1,"1",1||"dump",d,1|{4}\r\r{5}'.format(*SIX), TAKEN),
]

# The last record of the mill plan: what a leach's bands and a mill's numbers may be.
LAST_RECORDS = [
    (TAKEN, "leach,h,1,1,2,300,2.000001,400", SIXTEEN_BANDS),
    ("Order", "leach,h,1,1,2,300,2,400", "leach,h,1,1,2,300,1.999999,400"),
    ("Order", "leach,h,1,1,2,300,2.0,400", "leach,h,1,1,2.0,300,2,400", "leach,h,1,1,2,300,02,400",
     "leach,h,1,1,0,300,-0,400", "leach,h,1,1,.5,300,0.5,400", "leach,h,1,1,+2.,300,2.000000,400"),
    (TAKEN, "leach,h,1,1,9,300,010,400", "leach,h,1,1,2.0,300,2.000001,400",
     "leach,h,1,1,-0,1,.1,2"),
    ("Order", SIXTEEN_BANDS + ",15,0"),
    ("Order", SIXTEEN_BANDS + ",16,0,16,0", SIXTEEN_BANDS + ",14,0,17,0"),
    ("Order", FIVE_HUNDRED_BANDS + ",498,0"),
    ("Width", "leach,h,1,1,2,300,2,400,x", SIXTEEN_BANDS + ",16", SIXTEEN_BANDS + ",16,0,x"),
    ("Width", FIVE_HUNDRED_BANDS + ",500"),
    ("TooFine", "leach,h,1,1,2,300,2.0000001,400", "leach,h,1,1,2,300,3,0.5"),
    ("TooFine", SIXTEEN_BANDS + ",16.0000001,0", SIXTEEN_BANDS + ",16,0,17,0.5"),
    ("Number", "leach,h,1,1,3,300,2,x", SIXTEEN_BANDS + ",x,0", SIXTEEN_BANDS + ",16,0,17,x"),
    ("Number", SIXTEEN_BANDS + ",16,0,x,0", FIVE_HUNDRED_BANDS + ",x,0"),
    ("Number", "leach,h,1,1,,,2,300", "leach,h,1,1,2,,3,300", "leach,h,1,1,,1,2,300"),
    ("Number", "leach,h,,1,2,300", "leach,h,1,,2,300"),
    ("Range", "leach,h,1,1,0,1001,x,300", "leach,mill,1,1,2,300,2,1001"),
    ("Range", SIXTEEN_BANDS + ",16,1001", SIXTEEN_BANDS + ",16,0,17,1001"),
    ("Twice", "leach,mill,1,1,2,300,2,400", "MILL,mill,1,1,1"),
    ("Twice", SIXTEEN_OF_THE_MILL + ",16,0", SIXTEEN_OF_THE_MILL + ",15,0"),
    ("TooMany", SIXTEEN_BANDS + ",16,0", SIXTEEN_BANDS + ",16,0,17,0", FIVE_HUNDRED_BANDS),
    ("TooMany", "leach,h,1,1" + "".join(f",{start}.5,{start}" for start in range(100, 117))),
]


def bands(first, changed, less):
    """Returns sixteen bands from this start on, of which one begins lower by this much."""
    return ",".join(f"{at - less * (at == changed)},0" for at in range(first, first + 16))


# What is invalid in the second band of a leach, as in its first.
SECOND_BAND = [
    (kind, *(f"0,1,{record_of([text])},1" for text in texts)) for kind, texts in [
        ("Range", ["-0.000001", "-1", "1000000.000001", "18446744073709.551616"]),
        ("TooFine", ["1.0000001", "1000001.0000001"]), ("Number", ["1e0", "-", "+-1", "0,5", "x"]),
    ]
] + [
    (kind, *(f"0,1,2,{record_of([text])}" for text in texts)) for kind, texts in [
        ("Range", ["-1", "1001", "281474976710656", "65536"]), ("TooFine", ["0.5", "1000.1", "1001.1", ".1"]),
        ("Number", ["1e0", "-", "+-1", "0,5", "x"]),
    ]
] + [(TAKEN, "0,1,+2.,+1.", "0,1,02.0000000,01.0", "0,1,.5,.0", "0,1,2,-0", "0,1,2,1000", "0,1,1000000,0",
      f"0,1,{'0' * 50}2,{'0' * 50}1")]


# Which lists are bands: the ranges and the order of their starts, each at its edge and at each
# place.
BANDS = [
    (TAKEN, "0,0", "1000000,1000", "0.000001,500,0.000002,400", "999999.999999,1,1000000,2"),
    ("Number", ",,3,300", "1,300,,,2,400", ",,,,2,300", "1,300,,400", "1,300,2,,3,400"),
    ("Order", *(bands(0, at, 1) for at in range(1, 16))),
    ("Order", *(bands(2, at, 2) for at in range(3, 18))),
    ("Order", "0.000003,300,0.000001,400,0.000002,500", "0.000002,300,0.000002,400"),
    ("Order", "0.000001,300,0.000001,400,0.000002,500", "0.000002,300,0.000001,400"),
    ("Order", "0.000001,300,0.000003,400,0.000002,500"),
    ("Range", "1000000.000001,1000", "0,1001", "0.000001,300,0.000002,1001"),
]

# One byte order mark is dropped, a second one is part of the first key; an empty plan has no name. Records after the 10,000th are not read,
# and empty records count.
EMPTY, TOO_MANY = b",\n", "row 10001: TooMany"

# For the plan's bytes no row is reported.
TOO_LONG = "TooLong"

MARKED = [
    ("marks_and_nothing: one", MARK + WASTE, TAKEN),
    ("marks_and_nothing: two", MARK + MARK + WASTE, "row 1: Key"),
    ("marks_and_nothing: a blank and a mark", b" " + MARK + WASTE, "row 1: Key"),
    ("marks_and_nothing: a blank line and a mark", b"\n" + MARK + WASTE, "row 1: Key"),
    ("marks_and_nothing: a mark and a blank line", MARK + b"\r\n" + WASTE, TAKEN),
    ("marks_and_nothing: two bytes of a mark", MARK[:2] + WASTE, "row 1: Key"),
    ("marks_and_nothing: a mark of UTF-16", b"\xFF\xFE" + WASTE, "row 1: Key"),
    ("marks_and_nothing: another one", b"\xFE\xFF" + WASTE, "row 1: Key"),
    ("marks_and_nothing: the byte 85", b"name,one\x85periods,1\x85", "row 1: Width"),
    ("marks_and_nothing: the byte 85 at an end", b"name,one\x85", "row 1: Name"),
    ("marks_and_nothing: nothing", b"", "row 1: Missing"),
    ("marks_and_nothing: a mark alone", MARK, "row 1: Missing"),
]

# The largest number of bytes of a plan.
MOST = 1_048_576

LENGTHS = [
    ("the largest number", WASTE.ljust(MOST, b"\n"), TAKEN),
    ("the largest number, of which three are a mark", MARK + WASTE.ljust(MOST - 3, b"\n"), TAKEN),
    ("one too many", WASTE.ljust(MOST + 1, b"\n"), TOO_LONG),
    ("one too many, of which three are a mark", MARK + WASTE.ljust(MOST - 2, b"\n"), TOO_LONG),
    ("three more, the mark", MARK + WASTE.ljust(MOST, b"\n"), TOO_LONG),
    ("one too many, an invalid record", b"pit\n".ljust(MOST + 1, b","), TOO_LONG),
]

MANY = [
    ("10,000", EMPTY * 9_994 + WASTE, TAKEN),
    ("10,000 and blank lines", EMPTY * 9_994 + WASTE + b"\n\r\n\n", TAKEN),
    ("10,000 of which the last is invalid", EMPTY * 9_999 + b"pit\n", "row 10000: Key"),
    ("10,000 and something is missing", EMPTY * 10_000, "row 10001: Missing"),
    ("10,001 of which the last is empty", EMPTY * 9_994 + WASTE + EMPTY, TOO_MANY),
    ("10,001 of which the last is invalid", EMPTY * 10_000 + b"pit\n", TOO_MANY),
    ("10,001 of which the last is what is missing", EMPTY * 9_995 + WASTE, TOO_MANY),
    ("10,002", EMPTY * 10_002, TOO_MANY),
]


def reported(name, plan, result):
    """A plan without a zone file: it is refused, or accepted, and then a zone file is missing."""
    return refused(short(name), line_of(result), given=plan)


def line_of(result):
    """Returns the line of a plan's fault, or the line that a zone file is missing."""
    if result is TAKEN:
        return "settings: Files"
    return "plan: TooLong" if result is TOO_LONG else "plan " + result


def reported_by_compile(name, plan, result):
    """The same by `compile`, with an extra zone file."""
    files = {"plan": plan, "zone": HEADER}
    arguments = compile_arguments("plan", "b", ["zone"] * (plan.lower().count(b"zone,") + 1))
    return refused(short(name) + ", by compile", line_of(result), arguments=arguments, files=files)


def last_reported(name, before, key, cells, kind=None):
    """A record of these cells after what precedes it, and the kind of its fault."""
    row = before.count("|") + 1
    result = f"row {row}: {kind}" if kind else f"row {row + 1}: Missing"
    return reported(name, lines(before + record_of([key, *cells])), result)


def faults_of_cells(before, key, cells):
    """Each cell of a record in turn: numbers at both ends of its range and outside it, and what is no number. Then two that are refused."""
    def report_of(name, texts, kind=None):
        record = before + ",".join([key, *texts])
        return last_reported(f"{name}: {record}", before, key, texts, kind)
    yield report_of("cells_of_a_plan", [cell.good for cell in cells])
    for at, cell in enumerate(cells):
        for text, _, kind in cell.spellings():
            yield report_of("numbers_of_a_plan", with_cell(cells, at, text), kind)
        for _, kind in cell.faults()[:1]:
            # Alone in its record it is a row of `widths`; an empty cell at the end is dropped.
            for text in [text for text in ("", "?") if text or at + 1 < len(cells)]:
                if len(cells) > 1:
                    yield report_of("cells_of_a_plan", with_cell(cells, at, text), kind)
    for texts, kind in pairs_of_faults(cells):
        yield report_of("two_invalid_cells", texts, kind)
    for texts, kind in two_kinds_of_faults(cells):
        yield report_of("two_kinds_of_faults", texts, kind)


def spellings_of_a_key(before, key, cells):
    """Returns a key in capitals, with each letter alone as a capital, and with letters too many and too few."""
    goods = [cell.good for cell in cells]
    capitals = (key[:at] + key[at].upper() + key[at + 1 :] for at in range(len(key)))
    for other in [key.upper(), *capitals]:
        name = f"keys_in_capitals: {','.join([other, *goods])}"
        yield last_reported(name, before, other, goods)
    for other in [key[1:], key[:-1], key + "s", key + ":", key + "_", "_" + key, key + "-" + key]:
        name = f"no_keys: {','.join([other, *goods])}"
        yield last_reported(name, before, other, goods, "Key")


def widths(prefix, counts, kind):
    """Returns records of this prefix, and of `?` up to 40 cells."""
    cells = prefix.split(",")
    for count in range(len(cells), 41):
        record = lines(",".join([*cells, *["?"] * (count - len(cells))]))
        name = f"width_of_a_record: {prefix}, {count} cells"
        yield reported(name, record, "row 1: " + (kind if count in counts else "Width"))


def names():
    """Names of each byte and of each length, and the letters of limits."""
    for name, is_name in bytes_about_a_name():
        result = "row 2: Missing" if is_name else "row 1: Name"
        yield reported(f"bytes_of_a_name: {name}", b"name," + quoted(name), result)
    keys = {"name": "", "mill": ",1,1,1", "leach": ",1,1,0,1", "dump": ",1", "resource": ",d"}
    for (key, rest), length in itertools.product(keys.items(), [1, 63, 64, 65, 1000]):
        result = "row 3: Missing" if length <= 64 else "row 2: Name"
        plan = lines(f"dump,d,1|{key},{'a' * length}{rest}")
        yield reported(f"length_of_a_name: {key}, {length} bytes", plan, result)
    for (key, rest), name in itertools.product(list(keys.items())[1:], NO_NAMES):
        plan = lines(f"dump,d,1|{key},{name}{rest}")
        yield reported(f"no_names: {key}, {name}", plan, "row 2: Name")
    for letter in [*LETTERS, "LL", "GL", "LE", "GE", "IN", "<", "<=", ">", ">=", "=", "1"]:
        cells = "3,3" if letter == "I" else "3"
        result = "row 5: Missing" if letter in ("L", "G", "I") else "row 4: Name"
        plan = lines(f"{LIMITED}limit,r,0,{letter},{cells}")
        yield reported(f"letters_of_limits: {letter}", plan, result)


# What resembles a name, and is none.
NO_NAMES = ["a b", "a/b", "a:b", "a+b", "'a'", "a\u00e9", "a\u00a0", "*", "\uff41"]

# Lines that resemble the line at which the pipe form cuts, as records of a plan.
NEAR_CUTS = ["-", "---", "-- ", " --", "\t--", "- -", "--,,", "==", "--x", "x--", '"--"', "\u2013"]

# Records that may occur once: two valid ones, and one with an invalid cell, and its kind.
ONCE = [
    ("name,one", "name,two", "name,?", "Name"),
    ("grid,0,0,0,10,10,10", "grid,-1,2,0.5,20,1,3", "grid,0,0,0,10,10,0", "Range"),
    ("periods,1", "periods,100", "periods,1.5", "TooFine"),
    ("rate,0", "rate,1", "rate,x", "Number"),
]


def long_records():
    """Records with too many cells, by a number that a narrow counter reads as 0."""
    for _, key, cells in CELLS:
        for more in (16, 32, 64, 100, 256, 65_536) if key not in ("leach", "resource") else ():
            record = ",".join([key, *(cell.good for cell in cells), *["1"] * more])
            name = f"long_records: {key} of {len(cells)} cells, {record[:30]}, {more} more"
            yield reported(name, lines(record), "row 1: Width")


def records_twice():
    """Each record that may occur once with the same and another, in either case and order."""
    for one, other, invalid, kind in ONCE:
        pairs = itertools.product((one, other), repeat=2)
        for first, second in pairs:
            for again in (second, second.replace(second[0], second[0].upper(), 1)):
                plan = f"{first}|{again}|pit"
                yield reported(f"records_twice: {plan}", lines(plan), "row 2: Twice")
        for prefix in (f"{one}|dump,d,1|,|", f"{other}|zone,1,1,1|||"):
            row = 4 if prefix.endswith("1|,|") else 3
            for second, what in ((one, "Twice"), (invalid, kind), (one + ",1", "Width")):
                plan = f"{prefix}{second}|{other}"
                yield reported(f"records_twice: {plan}", lines(plan), f"row {row}: {what}")


def of_the_mill(name, prefix, table):
    """Records after the mill plan, by the kind of their fault."""
    for kind, *records in table:
        for record in records:
            plan = plan_of() + lines(prefix + record)
            yield reported(f"{name}: {record}", plan, f"row 7: {kind}" if kind else TAKEN)


def table():
    """The plans whose last record is invalid, and what is reported."""
    for prefix, kind, *records in FAULTS:
        for plan in (prefix + record for record in records):
            row = plan.rstrip("|").count("|") + 1 + (kind == "Missing")
            yield plan, f"row {row}: {kind}"
    for plan, kind in repeated_with_a_fault():
        yield plan, f"row {plan.count('|') + 1}: {kind}"


def trials():
    for before, key, cells in CELLS:
        yield from faults_of_cells(before, key, cells)
        yield from spellings_of_a_key(before, key, cells)
    for prefix, counts, kind in WIDTHS:
        yield from widths(prefix, counts, kind)
    for key in NO_KEYS:
        yield reported(f"no_keys: {key}", f"{key},one\n".encode(), "row 1: Key")
    yield from names()
    for plan, result in table():
        yield reported(f"plan_table: {plan}", lines(plan), result)
    for line in NEAR_CUTS:
        text = lines(f"name,one|{line}|rate,0|")
        yield reported(f"near_cuts: {line}", text, "row 2: Key")
        yield reported_by_compile(f"near_cuts: {line}", text, "row 2: Key")
    for plan, result in PLANS:
        yield reported(f"plan_table: {plan}", lines(plan), result)
        yield reported_by_compile(f"plan_table: {plan}", lines(plan), result)
    yield from of_the_mill("mills_and_leaches", "", LAST_RECORDS)
    yield from of_the_mill("bands_that_are_refused", "leach,h,1,1,", BANDS)
    yield from of_the_mill("second_band", "leach,h,1,1,", SECOND_BAND)
    yield from records_twice()
    yield from long_records()
    for name, plan, result in MARKED:
        yield reported(name, plan, result)
        yield reported_by_compile(name, plan, result)
    for name, plan, result in MANY:
        yield reported(f"ten_thousand_records: {name}", plan, result)
        yield reported_by_compile(f"ten_thousand_records: {name}", plan, result)
    for name, plan, result in LENGTHS:
        yield reported(f"bytes_of_a_plan: {name}", plan, result)
        yield reported_by_compile(f"bytes_of_a_plan: {name}", plan, result)
