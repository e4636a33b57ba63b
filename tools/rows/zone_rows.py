"""Zone files by the pipe form: their records, headers and cells, the edges of the grid, and the most rows; then the same as the second
file of two, by `compile` too."""
import itertools

from rows.cells import (
    BLANKS, EVERY_BYTE, Cell, pairs_of_faults, quoted, record_of, shortest, two_kinds_of_faults, with_cell,
)
from rows.instance import OTHER_ORE, WASTE, at, plan_of
from rows.trial import ANY, HEADER, MARK, Part, Trial, lines, piped, refused
from shared import ENDINGS, compile_arguments

# Blocks are cubes of a millimetre, the first of them at this place in millimetres.
FIRST = (-5000, 0, 7)

MILLIMETRES = plan_of("dump,dump,200|", name="waste", grid="-5,0,0.007,0.001,0.001,0.001")

COLUMNS = ["x", "y", "z", "tonnes", "grade"]

# The cells of a row on the grid of millimetres, by docs/formats.md: they count millimetres,
# kilograms and millionths.
CELLS = [
    *(Cell(shortest(first, 3), 3, first, first + 9999) for first in FIRST),
    Cell("1", 3, 0, 10**9),
    Cell("1", 6, 0, 10**12),
]

# What is no name of a column: each name without one letter, and with an extra one.
NO_COLUMNS = {
    "x": ["xc", "x y", "#x", "x:", "xyz", "easting", "0", ""],
    "y": ["yc", "\u00fd", "northing"],
    "z": ["\u017c", "rl"],
    "tonnes": ["tonne\u017f", "ton nes", "tonnage", "t"],
    "grade": ["gr\u00e0de", "grade_gpt", "au", "degra", "gra de"],
}

# With a unit, a point or a hyphen after it, a name is that of another column.
for _column, _names in NO_COLUMNS.items():
    _names += [f"{_column}{end}" for end in (" (m)", "_m", ".", "-", "c", "\u00b2")]

# How often a column occurs, by the fault of its header.
TIMES = {"MissingColumn": 0, "TwiceColumn": 2}

# The report on a header, and headers with that report.
HEADERS = [
    (None, "x,y,z,tonnes,grade,", "x,y,z,tonnes,grade,,,", "x,y,z,,,tonnes,grade,rock,rock"),
    (None, " x\t,\ty , z,tonnes  ,\t\tgrade"),
    (None, "x,y,z,tonnes,grade,zone", "zone,Zone,z,y,x,grade,tonnes"),
    (None, "x,y,z,tonnes,grade,'x'", "x,y,z,tonnes,grade,\u00a0x,x\u00a0"),
    ("x: MissingColumn", "'x',y,z,tonnes,grade"),
    ("x: MissingColumn", "\u00a0x,y,z,tonnes,grade", "x\u00a0,y,z,tonnes,grade"),
    ("x: TwiceColumn", "x, x,y,z,tonnes,grade", "x,y,z,tonnes,grade,X,X"),
    ("grade: TwiceColumn", "x,y,z,tonnes,grade,grade\t", "x,y,z,tonnes,GRADE,Grade"),
    ("tonnes: MissingColumn", "X,Y,Z,GRADE", "zone,X,Y,Z,TONNE,Grade"),
    ("tonnes: TwiceColumn", "tonnes,y,z,Tonnes,x,grade"),
    ("y: TwiceColumn", "x,y,z,tonnes,Y,grade", "y,x,z,Y,tonnes,y,grade"),
    ("z: TwiceColumn", "x,y,z,Z,tonnes,grade", "z,x,y,tonnes,grade,Z", "Z,x,y,z,tonnes,grade,Z"),
    ("x: TwiceColumn", "x,X,x,y,z,tonnes,grade"),
    ("tonnes: TwiceColumn", "x,y,z,tonnes,TONNES,grade", "x,y,z,tonnes,grade,tonnes,tonnes"),
    ("grade: TwiceColumn", "grade,x,y,z,tonnes,grade,GRADE", "x,y,z,tonnes,grade,GRADE"),
    # one column that is missing and the next one that occurs twice, and the other way round
    ("x: MissingColumn", "x\0,y,z,tonnes,grade"),
    ("x: MissingColumn", "y,Y,z,tonnes,grade"), ("x: TwiceColumn", "x,X,z,tonnes,grade"),
    ("y: MissingColumn", "x,z,Z,tonnes,grade"), ("y: TwiceColumn", "x,y,Y,tonnes,grade"),
    ("z: MissingColumn", "x,y,tonnes,Tonnes,grade"), ("z: TwiceColumn", "x,y,z,Z,grade"),
    ("tonnes: MissingColumn", "x,y,z,grade,GRADE"), ("tonnes: TwiceColumn", "x,y,z,tonnes,TONNES"),
    ("x: MissingColumn", "0,0,0,1,0", "x;y;z;tonnes;grade", "x\ty\tz\ttonnes\tgrade", " ,,,,"),
]

NO_X, NO_GRADE = "row 1 column x: MissingColumn", "row 1 column grade: MissingColumn"

# A text, and the lines of its blocks or the place and kind of its first fault.
FILES = [
    ("empty_file", b"", NO_X),
    ("empty_file: blank lines", b"\r\n\n", NO_X),
    ("empty_file: a mark", MARK, NO_X),
    ("header_alone", HEADER, ""),
    ("header_faults: a column is missing", b"x,y,z,tonnes", NO_GRADE),
    ("header_faults: a column is there twice", b"x,y,X,tonnes", "row 1 column x: TwiceColumn"),
    # One byte order mark is dropped, and no second one.
    ("header_faults: two marks", MARK + MARK + b"x,y,z,tonnes,grade", NO_X),
    ("quoted_and_reordered", OTHER_ORE, "0 0 0 0 1000 5000 0|"),
]

# The report on a row below the header, or the line of its block, and rows with that report.
ROWS = {
    "tonnage_spellings": [
        ("0 0 0 0 2500 0 0|", b"0,0,0,2500.000000,0"),
        ("0 0 0 0 0 0 0|", b"0,0,0,-0,0"),
        ("0 0 0 0 1000000 0 0|", b"0,0,0,1000000,0"),
        ("row 2 column tonnes: TooFine", b"0,0,0,2500.0001,0"),
        ("row 2 column tonnes: Range", b"0,0,0,-99,0", b"0,0,0,1000000.001,0"),
        ("row 2 column tonnes: Number", b"0,0,0,1e3,0"),
        ("row 2 column x: Range", b"-99,-99,-99,-99,-99"),
        ("row 2 column grade: Range", b"0,0,0,1,-99", b"0,0,0,1,-999.25", b"0,0,0,1,-0.000001"),
        ("row 2 column whole: Width", b"0,0,0,1000"),
    ],
    "grid_edges": [
        ("row 2 column x: OffGrid", b"5,0,0,1,0", b"99995,0,0,1,0"),
        ("row 2 column x: OffGrid", b"5,?,0,1,0", b"5,0,0.0001,1,0", b"5,-10,0,1,0", b"5,0,0,-1,0"),
        ("row 2 column x: OffGrid", b"0.001,0,0,1,0", b"9.999,0,0,1,0"),
        ("row 2 column y: OffGrid", b"0,99999.999,0,1,0", b"0,0.001,0,1,0"),
        ("row 2 column y: Range", b"0,10000000000000000000,0,1,0", b"0,100005,0,1,0", b"0,-0.001,0,1,0"),
        ("row 2 column z: OffGrid", b"0,0,99999.999,1,0", b"0,0,0.001,1,0"),
        ("row 2 column z: Range", b"0,0,10000000000000000000,1,0", b"0,0,100005,1,0", b"0,0,-0.001,1,0"),
        ("row 2 column x: Number", b"?,5,0,1,0"), ("row 2 column x: TooFine", b"0.0001,5,0,1,0"),
        ("row 2 column x: Range", b"-10,5,0,1,0"), ("row 2 column y: OffGrid", b"0,5,?,1,0"),
        ("row 2 column x: Range", b"-5,0,0,1,0", b"100000,0,0,1,0"),
        ("row 2 column y: Range", b"0,100000,5,1,0"),
        ("row 2 column z: Range", b"0,0,100000,x,0"),
        ("0 9999 0 0 1 0 0|", b"99990,0,0,1,0"),
        ("0 0 9999 0 1 0 0|", b"0,99990,0,1,0"),
        ("0 0 0 9999 1 0 0|", b"0,0,99990,1,0"),
    ],
    # An empty grade, a row without a line end, bytes that are no text, a quote that is not closed,
    # and cells far longer than any number.
    "zone_texts_at_the_edge": [
        ("row 2 column grade: Number", b"0,0,0,1000,", b'0,0,0,1,"0\n0,0,0,1,0\n'),
        ("0 0 0 0 1000 5 0|", b"0,0,0,1000,5"),
        ("row 2 column x: Number", b"\xFF,0,0,1,0", b"0\0,0,0,1,0", b"\0,0,0,1,0"),
        (
            "row 2 column tonnes: Number",
            *(b'0,0,0,"' + text + b'",0' for text in [
                b"+ 1", b"- 1", b"1 000", b"1,000", b"1'000", b"1_000", b"0x10", b"1.000,5", b"NaN",
                b"inf", b"1t", b"1 t", b"=1", b"#N/A", b"n/a", b"1\0", b"\xC2\xA01", b"1\xC2\xA0",
                b"\xE2\x80\x891", b"\xEF\xBC\x91", b"\xD9\xA1", b"\xE2\x88\x921", b"1\v", b"\n1",
            ]),
        ),
        ("row 2 column tonnes: Number", b"0,0,0,'1',0", b"0,0,0,'1,0'"),
        # what some programs accept as numbers
        (
            "row 2 column tonnes: Number",
            *(b"0,0,0," + text + b",0" for text in [
                b"(5)", b"( 5 )", b"5-", b"0 m", b"0m", b"1 kt", b"-inf", b"-Infinity", b"<", b">1",
                b"<1", b"~1", b"$1", b"1%", b"1/2", b"1:2", b"1e", b"1d0", b"0b1", b"true", b"-",
                b"+.", b"-.", b"++1", b"+-1", b"1+", b"1..", b".1.",
            ]),
        ),
        ("row 2 column x: Number", b"(0),0,0,1,0", b"0 m,0,0,1,0", b"-inf,0,0,1,0", b"<0,0,0,1,0"),
        ("row 2 column grade: Number", b"0,0,0,1,(1)", b"0,0,0,1,1 g/t", b"0,0,0,1,<0.01",
         b"0,0,0,1,+.", b"0,0,0,1,<", b"0,0,0,1,-inf"),
        ("0 0 0 0 5 7 0|", b"0,0,0,+5.,7.", b"+.0,-.0,-0.,5.,+7", b"00,-00,+00,005.000,07.0"),
        # more zeros after the point than any counter of digits holds
        (
            "0 0 0 0 5 7 0|",
            *(b"0,0,0,5." + b"0" * zeros + b",7"
              for zeros in (39, 40, 64, 255, 300, 1_003, 70_000)),
            b"0.%s,0,0,5,7.%s" % (b"0" * 1_500, b"0" * 2_000),
        ),
        ("row 2 column tonnes: TooFine", b"0,0,0,5." + b"0" * 1_500 + b"1,7"),
        ("row 2 column tonnes: Number", b"0,0,0,5" + b" " * 70_000 + b"x,7"),
        # whatever the tonnage
        ("row 2 column grade: Number", b"0,0,0,0,?", b"0,0,0,1,NaN", b"0,0,0,1,n/a", b"0,0,0,1,inf"),
        ("row 2 column grade: Range", b"0,0,0,0,-1"),
        ("row 2 column tonnes: Number", b"0,0,0,\xC2\xA01,0", b"0,0,0,1\xC2\xA0,0"),
        ("row 2 column grade: TooFine", b"0,0,0,5,7." + b"0" * 5_000 + b"1"),
        ("0 0 0 0 5 7.25 0|", b"0,0,0,5,7.25" + b"0" * 40, b"0,0,0,5,7.25" + b"0" * 5_000),
        ("row 2 column whole: Width", b"0,0,0,1,000,0", b"0;0;0;1;0", b"0\t0\t0\t1\t0"),
        ("row 2 column x: Range", b"1" + b"0" * 100 + b",0,0,1,0"),
        ("row 2 column x: TooFine", b"1" + b"0" * 100 + b".0001,0,0,1,0"),
        ("row 2 column grade: Range", b"0,0,0,1,1" + b"0" * 100 + b".0001"),
        ("row 2 column grade: Range", b"0,0,0,1," + b"9" * 1_000_000),
        ("0 0 0 0 1 0 0|", b"0" * 1_000_000 + b",0,0,1,0"),
        (
            "0 0 0 0 7.5 0 0|",
            *(b"0,0,0," + b"0" * zeros + b"7.5,0" for zeros in (300, 70_000, 1_000_000)),
        ),
    ],
}

# One kind before another in a cell, on each axis: too fine, out of range, off the grid.
ORDER_IN_A_CELL = [
    ("TooFine", "5.0001", "-5.0001", "100005.0001"),
    ("Range", "-5", "-0.001", "100000", "100000.001", "100005"),
    ("Range", "1000000000000000000", "1000000000000000005", "-1000000000000000005"),
    ("OffGrid", "99999.999", "99990.001", "0.001", "5"),
]

# Blocks of 100 m: a coordinate is off the grid by a millimetre, whatever part of a block that is.
HUNDREDS = plan_of("dump,dump,200|", name="waste", grid="0,0,0,100,100,100")
ABOUT_HUNDREDS = [
    ("0.001", "OffGrid"), ("99.999", "OffGrid"), ("100", "1"), ("100.001", "OffGrid"),
    ("999899.999", "OffGrid"), ("999900", "9999"), ("999900.001", "OffGrid"),
    ("999999.999", "OffGrid"), ("1000000", "Range"), ("-0.001", "Range"), ("0.0001", "TooFine"),
    ("100.0000001", "TooFine"),
]

# The lines of one block and of two.
ONE, TWO = "0 0 0 0 1 2 0|", "0 0 0 0 1 2 0|1 1 0 0 3 4 0|"

# RFC 4180, and what it leaves open: ends of lines, blank lines, quotes out of place, byte order
# marks, any bytes. A text, and the lines of its blocks or its fault.
RECORDS_OF_TEXTS = [
    (b"x,y,z,tonnes,grade\r\n0,0,0,1,2\r\n", ONE),
    (b"x,y,z,tonnes,grade\r\n0,0,0,1,2", ONE),
    (HEADER + b"0,0,0,1,2\r10,0,0,3,4\r\n20,0,0,5,6", TWO + "2 2 0 0 5 6 0|"),
    # quoted cells with line ends, doubled quotes and commas within
    (
        b'"x","y","z","ro\r\nck","tonnes","grade"\r\n"0","0","0","b\r\nbb","1","2"\n10,0,0,-,3,4',
        TWO,
    ),
    (b'x,y,z,"b""bb",tonnes,"c,c",grade\n0,0,0,"b""bb",1,"c,c",2', ONE),
    (b'x,y,z,tonnes,grade,rock\n0,0,0,1,2,"a"",b"\n10,0,0,3,4,",""\n"""\n', TWO),
    (b'"a"",b",x,y,z,tonnes,grade\n-,0,0,0,1,2\n', ONE),
    (b'rock,x,y,z,tonnes,grade\n"b""",0,0,0,1,2\n"""b",10,0,0,3,4\n', TWO),
    (b'x,"""","y",z,tonnes,grade\n0,"""""",0,0,1,2\n10,"","0",0,3,4', TWO),
    (b'"x\n",y,z,tonnes,grade\n', NO_X),
    (b'"x""",y,z,tonnes,grade\n', NO_X),
    (HEADER + b'0,0,0,"1,",2\n', "row 2 column tonnes: Number"),
    # other quotes are none
    (b"x,y,z,rock,tonnes,grade\n0,0,0,'a,b',1,2\n", "row 2 column whole: Width"),
    (b"x,y,z,rock,tonnes,grade\n0,0,0,'a',1,2\n10,0,0,`b`,3,4\n", TWO),
    (b"x,y,z,tonnes,grade,rock\n0,0,0,1,2,'b\n10,0,0,3,4,d'\n", TWO),
    # what some programs treat as the end of a line, or as a blank one, is a byte of its cell
    *(
        (b"x,y,z,tonnes,grade,rock\n0,0,0,1,2,a%sb\n10,0,0,3,4,%s\n" % (byte, byte), TWO)
        for byte in [b"\v", b"\f", b"\x1C", b"\x1D", b"\x1E", b"\x1F", b"\x85", b"\xC2\x85",
                     b"\xE2\x80\xA8", b"\x1A", b"\0"]
    ),
    (b"rock,x,y,z,tonnes,grade\na\vb,0,0,0,1,2\n\x85,10,0,0,3,4\n", TWO),
    (HEADER + b"0,0,0,1,2\v10,0,0,3,4\n", "row 2 column whole: Width"),
    (HEADER + b"0,0,0,1,2\n\f\n", "row 3 column whole: Width"),
    # a comma after a backslash is a comma
    (b"x,y,z,tonnes,grade,rock\n0,0,0,1,2,a\\,b\n", "row 2 column whole: Width"),
    (b"rock,x,y,z,tonnes,grade\na\\,0,0,0,1,2\n", ONE),
    (b"x\\,y,z,tonnes,grade\n0,0,0,1,2\n", NO_X),
    # the text before the header is the header
    (b"x and y\n" + HEADER + b"0,0,0,1,2\n", NO_X),
    (b"# the model of May\n" + HEADER, NO_X),
    (b",,,,\n" + HEADER, NO_X),
    (b'""\n' + HEADER, NO_X),
    (HEADER + HEADER + b"0,0,0,1,2\n", "row 2 column x: Number"),
    (HEADER + b"0,0,0,1,2\n" + HEADER + b"10,0,0,3,4\n", "row 3 column x: Number"),
    (HEADER + b"0,0,0,1,2\n10,0,0,3,4\n" + HEADER, "row 4 column x: Number"),
    (b"rock,x,y,z,tonnes,grade\na,0,0,0,1,2\nrock,x,y,z,tonnes,grade\n", "row 3 column x: Number"),
    # rows are counted, and not lines, after blank lines and after line breaks in cells
    (HEADER + b"\n\n0,0,0,1,2\n\n10,0,0,3,x\n", "row 3 column grade: Number"),
    (b'x,y,z,tonnes,grade,rock\n0,0,0,1,2,"a\nb"\n10,0,0,x,4,c\n', "row 3 column tonnes: Number"),
    (b'"ro\r\nck\n",x,y,z,tonnes,grade\n"\n\n",0,0,0,1,2\n,10,5,0,3,4', "row 3 column y: OffGrid"),
    (b'x,y,z,tonnes,grade,rock\n0,0,0,1,2,"\r\r"\r"10\n",0,0,3,4,c', "row 3 column x: Number"),
    # a column is identified by its own name, however the header writes it
    (b"X,Y,Z,TONNES,Grade\n0,0,0,1,?\n", "row 2 column grade: Number"),
    (b"X,Y,Z,Tonnes,GRADE\n0,0,0,-1,?\n", "row 2 column tonnes: Range"),
    (b" X\t,Y,Z,TONNES,GRADE\n5,0,0,1,2\n", "row 2 column x: OffGrid"),
    # lines that resemble the line at which the pipe form cuts
    *(
        (HEADER + b"0,0,0,1,2\n" + line + b"\n10,0,0,3,4\n", "row 3 column whole: Width")
        for line in [b"-", b"---", b"----", b"-- ", b" --", b"\t--", b"--\t", b"- -", b"==", b"__",
                     b"--x", b"x--", b'"--"', b"--\r\r", b"\xE2\x80\x93", b"\xE2\x80\x94"]
    ),
    (HEADER + b"0,0,0,1,2\n--,,,,\n", "row 3 column x: Number"),
    (b"x,y,z,tonnes,grade,rock\n0,0,0,1,2,--\n10,0,0,3,4,a --\n", TWO),
    (b"rock,x,y,z,tonnes,grade\n--,0,0,0,1,2\n-- a,10,0,0,3,4\n", TWO),
    (b"x,y,z,tonnes,grade,rock\r0,0,0,1,2,a\r10,0,0,3,4,--\r", TWO),
    # records of other lengths, and blank lines, which are none
    (HEADER + b"0,0,0,1,2\n10,0,0,3,4,5", "row 3 column whole: Width"),
    (HEADER + b"\n0,0,0,1,2\n\r\n\r10,0,0,3", "row 3 column whole: Width"),
    (b"\r\n\n\rx,y,z,tonnes,grade\n\n\r\n\r0,0,0,1,2\n\n", ONE),
    (HEADER + b'""\n', "row 2 column whole: Width"),
    (HEADER + b" \n", "row 2 column whole: Width"),
    (HEADER + b",,,,\n", "row 2 column x: Number"),
    (HEADER + b'0,0,0,1,2\n"', "row 3 column whole: Width"),
    # blanks around cells, and quotes after them, which belong to the cells
    (b"x , y,\tz,tonnes , grade\n 0,0 ,\t0,1\t, 2 \n", ONE),
    (HEADER + b'0,0,0, "1" ,2\n', "row 2 column tonnes: Number"),
    (b"x,y,z,tonnes,grade,zone\n0,0,0,1,2,7\n10,0,0,3,4,x\n", TWO),
    (b"zone,x,y,z,tonnes,grade\n63,0,0,0,1,2\n-1,10,0,0,3,4\n", TWO),
    (b"Zone,x,y,z,tonnes,grade,file\n0,0,0,0,1,2,1\n1,10,0,0,3,4,0\n", TWO),
    (b"x,y,z,tonnes,grade,ZONE,zone\n0,0,0,1,2,1,0\n10,0,0,3,4,0,1\n", TWO),
    (b'x,y,z,rock,tonnes,grade\n0,0,0,a"b"c,1,2\n10,0,0,d",3,4\n', TWO),
    (HEADER + b'0,0,0,1"5",2\n', "row 2 column tonnes: Number"),
    # the text after a closing quote belongs to the cell
    (HEADER + b'"1"0,"0" ,0,"1"5,2\n', "0 1 0 0 15 2 0|"),
    (HEADER + b'0,0,0,"1"5"0,2\n', "row 2 column tonnes: Number"),
    # a quote that is not closed continues to the end
    (b'x,y,z,tonnes,grade,rock\n0,0,0,1,2,"b\n10,0,0,3,4,d\n', ONE),
    # byte order marks, complete and in part, and at places where they are none
    (MARK + HEADER + b"0,0,0,1,2\n", ONE),
    (MARK + b'"x","y","z","tonnes","grade"\n0,0,0,1,2\n', ONE),
    (MARK + b"\n\r\n" + HEADER + b"0,0,0,1,2\n", ONE),
    (MARK[:2] + HEADER, NO_X),
    (MARK[1:] + HEADER, NO_X),
    (b" " + MARK + HEADER, NO_X),
    (b"\n" + MARK + HEADER, NO_X),
    (b"\xFE\xFF" + HEADER, NO_X),
    (b"\xFF\xFE" + HEADER, NO_X),
    (MARK + b" x,y,z,tonnes,grade\n" + b"0,0,0,1,2\n", ONE),
    (HEADER + MARK + b"0,0,0,1,2\n", "row 2 column x: Number"),
    (b"x,y,z,tonnes,grade,rock\n0,0,0,1,2,\xFF\x00\n10,0,0,3,4," + MARK + b"\n", TWO),
    (b"x,y,z,tonnes,grade,\xFF\xE9\n0,0,0,1,2,\n", ONE),
    (b"\xE9rock,\xC3,x,y,\xFF,z,tonnes,grade\n,,0,0,,0,1,2\n", ONE),
    (b"\xFFx,y,z,tonnes,grade\n", NO_X),
    # no comments, and no escapes
    (b"#,x,y,z,tonnes,grade\n#a,0,0,0,1,2\n", ONE),
    (b'rock,x,y,z,tonnes,grade\n\\"b,0,0,0,1,2\n\\n,10,0,0,3,4\n', TWO),
    (b'rock,x,y,z,tonnes,grade\n"b\\",0,0,0,1,2\n', ONE),
    (b"%,x,y,z,tonnes,grade\n%a,0,0,0,1,2\n", ONE),
    (HEADER + b"  0 \t,\t\t0,0  ,1,  2  \n", ONE),
]

def wide(columns, at, *cells):
    """Returns a header and rows with this number of other columns, and the given number of them before the five."""
    for count, row in zip(itertools.count(), [COLUMNS, *cells]):
        others = [f"{'c' * (count == 0)}{place}" for place in range(columns)]
        yield ",".join([*others[:at], *map(str, row), *others[at:]])


# This number of columns besides the five, and where the five begin.
WIDE = [
    (59, 0), (60, 60), (64, 30), (251, 251), (256, 256), (1_000, 0), (1_000, 1_000),
    (65_536, 65_536),
]

# A cell far longer than any buffer, with a line break in it, and a row after it.
SEVENS = b"7" * 500_000
LONG_CELL = b'x,y,z,rock,tonnes,grade\n0,0,0,"%s\n%s",1,2\n10,0,0,b,3,4' % (SEVENS, SEVENS[1:])

# The largest number of rows of a file, and one extra row, which is not read.
MOST_ROWS = HEADER + b"0,0,0,1,0\n" * 999_999
FULL, TOO_MANY = MOST_ROWS + b"0,0,0,1,0\n", "row 1000002 column whole: TooManyRows"
SHORT = HEADER + b"0,0,0,1\n" + b"0,0,0,1,0\n" * 1_000_001

MOST = [
    ("the last one is invalid", MOST_ROWS + b"0,0,0,1", "row 1000001 column whole: Width"),
    ("a row too many", FULL + b"0,0,0,1,0\n", TOO_MANY),
    ("an invalid row too many", FULL + b"0,0,0,1,?\n", TOO_MANY),
    ("a short row too many", FULL + b"0\n", TOO_MANY),
    ("rows too many, the first invalid", SHORT, "row 2 column whole: Width"),
]


def reports(name, text, result, plan=WASTE):
    """A zone file, and the result."""
    given = piped(plan, text)
    if result.startswith("row "):
        return refused(name, "file 0 " + result, given=given)
    return Trial(name, given=given, out=Part(lines(f"== blocks|{result}== prec|")))


# A file of one block high above all others, whose columns are in another order, and the plan of two zones.
HIGH = b"grade,tonnes,z,y,x\n6,5,99990,980,970\n"
TWO_ZONES = plan_of("dump,dump,200|", ["1,1,1"] * 2, "waste")


def as_second(name, text, result):
    """The same as the second of two files, by both forms."""
    is_fault, count = result.startswith("row "), result.count("|") + 1
    blocks = result.replace(" 0|", " 1|") + f"{count - 1} 97 98 9999 5 6 0|"
    given = {"given": piped(TWO_ZONES, HIGH, text)}
    arguments = compile_arguments("plan", "b", ["high", "text"])
    files = {"arguments": arguments, "files": {"plan": MARK + TWO_ZONES, "high": MARK + HIGH, "text": text}}
    if is_fault:
        yield refused(f"{name}, by the pipe form", "file 1 " + result, **given)
        yield refused(f"{name}, by compile", "file 1 " + result, **files)
        return
    part = Part(lines(f"== blocks|{blocks}== prec|"))
    yield Trial(f"{name}, by the pipe form", out=part, **given)
    left = at("b", {**dict.fromkeys(ENDINGS, ANY), "blocks": lines(blocks)})
    yield Trial(f"{name}, by compile", out=b"rows %d\n" % count, left=left, **files)


def second_files():
    """What a file may be and what may be wrong with it, for the second file of two."""
    for name, text, result in FILES:
        yield from as_second(f"second_files: {name}", text, result)
    for text, result in RECORDS_OF_TEXTS:
        yield from as_second(f"second_files: {text!r}", text, result)
    for fault, *texts in HEADERS:
        for text in texts:
            row = "|" + ",".join(["0"] * (text.count(",") + 1)) + "|"
            result = f"row 1 column {fault}" if fault else "0 0 0 0 0 0 0|"
            yield from as_second(f"second_files: {text}", text.encode() + lines(row), result)
    for name, table in ROWS.items():
        for result, *rows in table:
            for row in rows[:6]:
                named = f"second_files: {name}: {row[:40]!r}, {len(row)} bytes"
                yield from as_second(named, HEADER + row, result)


def invalid(name, text, column, kind, row=1, plan=WASTE):
    """A zone file, of which a column is invalid."""
    return reports(name, text, f"row {row} column {column}: {kind}", plan)


def good_row():
    return HEADER + ",".join(cell.good for cell in CELLS).encode()


def numbers():
    """Each cell of a row: numbers at both ends of its range and outside it, and what is no number."""
    yield reports("numbers_of_a_row: all good", good_row(), "0 0 0 0 1 1 0|", MILLIMETRES)
    for at, cell in enumerate(CELLS):
        for text, number, kind in [*cell.spellings(), ("", None, "Number")]:
            held = [*FIRST, 1000, 1_000_000]
            held[at] = number
            result = f"row 2 column {COLUMNS[at]}: {kind}"
            if kind is None:
                indices = " ".join(str(place - first) for place, first in zip(held, FIRST))
                result = f"0 {indices} {shortest(held[3], 3)} {shortest(held[4], 6)} 0|"
            row = HEADER + record_of(with_cell(CELLS, at, text)).encode()
            yield reports(f"numbers_of_a_row: {COLUMNS[at]}: {text}", row, result, MILLIMETRES)


def faults():
    """Rows of two cells that are refused, cells of several faults, and rows of other widths."""
    for cells, _ in pairs_of_faults(CELLS):
        column, kind = first_fault(cells)
        for order in [range(5), range(4, -1, -1)]:
            rows = (",".join(row[at] for at in order) for row in (COLUMNS, cells))
            text = "\n".join(rows).encode()
            yield invalid(f"two_invalid_cells: {text}", text, column, kind, 2, MILLIMETRES)
    for cells, kind in two_kinds_of_faults(CELLS):
        at = next(at for at, cell in enumerate(CELLS) if cells[at] != cell.good)
        text = HEADER + ",".join(cells).encode()
        yield invalid(f"two_kinds_of_faults: {','.join(cells)}", text, COLUMNS[at], kind, 2, MILLIMETRES)
    for (at, column), (kind, *texts) in itertools.product(enumerate("xyz"), ORDER_IN_A_CELL):
        for text in texts:
            row = ",".join(with_cell([Cell("0")] * 3, at, text)).encode() + b",?,?"
            yield invalid(f"order_in_a_cell: {column}: {text}", HEADER + row, column, kind, 2)
    for count in [*range(1, 5), *range(6, 12)]:
        row = ",".join(["?"] * count).encode()
        yield invalid(f"width_of_a_row: {count} cells", HEADER + row, "whole", "Width", 2)
    longer = HEADER + b"0,0,0,1,0,\n"
    yield invalid("width_of_a_row: an empty cell after", longer, "whole", "Width", 2)
    wider = b"x,y,z,tonnes,grade,\n0,0,0,1,0"
    yield invalid("width_of_a_row: an empty column", wider + b"\n", "whole", "Width", 2)
    yield reports("width_of_a_row: an empty column and cell", wider + b",\n", "0 0 0 0 1 0 0|")


def first_fault(cells):
    """Returns the leftmost of the five cells that is not valid, and its kind."""
    at = next(at for at, cell in enumerate(CELLS) if cells[at] != cell.good)
    return COLUMNS[at], dict(CELLS[at].faults())[cells[at]]


def about_hundreds():
    """Coordinates around multiples of 100 m, along each axis."""
    for (axis, column), (text, result) in itertools.product(enumerate("xyz"), ABOUT_HUNDREDS):
        cells, indices = with_cell([Cell("0")] * 3, axis, text), ["0"] * 3
        name, row = f"about_hundreds: {column}: {text}", HEADER + ",".join(cells).encode() + b",1,0"
        if result.isdecimal():
            indices[axis] = result
            yield reports(name, row, f"0 {' '.join(indices)} 1 0 0|", HUNDREDS)
        else:
            yield invalid(name, row, column, result, 2, HUNDREDS)


def headers():
    """Each column missing, in capitals, twice and under other names; each two missing or twice."""
    zeros = b"\n" + b",".join([b"0"] * 5)
    for at, column in enumerate(COLUMNS):
        others = COLUMNS[:at] + COLUMNS[at + 1 :]
        capitals = [column[:cut] + column[cut:].upper() for cut in range(len(column))]
        for other in dict.fromkeys([column.title(), *capitals]):
            text = ",".join([*others, other])
            name = f"columns_in_capitals: {text}|0,0,0,0,0"
            yield reports(name, text.encode() + zeros, "0 0 0 0 0 0 0|")
        wrong = [column[1:], column[:-1], column + "s", column + "_", "_" + column, "rock"]
        for other in dict.fromkeys(wrong + NO_COLUMNS[column]):
            text = ",".join([*others, other]).encode()
            yield invalid(f"no_columns: {column}: {other}", text, column, "MissingColumn")
        twice, thrice = [column.upper(), *COLUMNS], [column, *COLUMNS, column]
        for name, named in [("columns_twice", twice), ("columns_thrice", thrice)]:
            yield invalid(f"{name}: {column}", ",".join(named).encode(), column, "TwiceColumn")
        missing = "y" if column == "x" else "x"
        yield invalid(f"columns_alone: {column}", column.encode(), missing, "MissingColumn")
    pairs, kinds = itertools.combinations(COLUMNS, 2), itertools.product(TIMES, repeat=2)
    for (first, second), (left, right) in itertools.product(pairs, kinds):
        counts = {**dict.fromkeys(COLUMNS, 1), first: TIMES[left], second: TIMES[right]}
        for order in [COLUMNS, COLUMNS[::-1]]:
            text = ",".join(column for column in order for _ in range(counts[column])).encode()
            yield invalid(f"two_faults_of_a_header: {text}", text, first, left)
    for fault, *texts in HEADERS:
        for text in texts:
            row = lines("|" + ",".join(["0"] * (text.count(",") + 1)) + "|")
            result = f"row 1 column {fault}" if fault else "0 0 0 0 0 0 0|"
            yield reports(f"headers: {text}", text.encode() + row, result)


def wide_files():
    """Many columns, of which a row has one extra or one missing cell, or an invalid cell."""
    for columns, at in WIDE:
        name = f"wide_files: {columns} others, at {at}"
        good = list(wide(columns, at, [0, 0, 0, 1, 2], [10, 0, 0, 3, 4]))
        for what, last, result in [
            ("good", "", TWO),
            ("a cell more", ",1", "row 3 column whole: Width"),
            ("an invalid cell", None, "row 3 column grade: Number"),
        ]:
            if last is None:
                rows = list(wide(columns, at, [0, 0, 0, 1, 2], [10, 0, 0, 3, "x"]))
            else:
                rows = [*good[:2], good[2] + last]
            yield reports(f"{name}: {what}", "\n".join(rows).encode(), result)
        for more in (16, 32, 40, 64, 100, 255, 256, 500, 999, 1_000, 65_536):
            longer = "\n".join([*good, good[2] + ",0" * more]).encode()
            yield invalid(f"{name}: {more} cells more", longer, "whole", "Width", 4)
        less = "\n".join([*good[:2], good[2].rsplit(",", 1)[0]]).encode()
        yield invalid(f"{name}: a cell less", less, "whole", "Width", 3)
        twice = "\n".join([good[0] + ",X", *good[1:]]).encode()
        yield invalid(f"{name}: a column twice", twice, "x", "TwiceColumn")


def bytes_about_cells():
    """Each byte around the name of a column and around a number: spaces and tabs are dropped, and nothing else is."""
    for byte in EVERY_BYTE:
        for cell in dict.fromkeys([byte + b"x", b"x" + byte]):
            text = quoted(cell) + b",y,z,tonnes,grade\n0,0,0,1,0\n"
            result = "0 0 0 0 1 0 0|" if byte in BLANKS else NO_X
            yield reports(f"bytes_about_columns: {cell}", text, result)
        cells = {byte + b"0": b"0123456789+-.", b"0" + byte: b"0123456789."}
        for cell, more in cells.items():
            result = "row 2 column tonnes: Number"
            if byte in BLANKS or byte in more:
                result = f"0 0 0 0 {int(cell.decode().strip(' +-.') or '0')} 0 0|"
            text = HEADER + b"0,0,0," + quoted(cell) + b",0\n"
            yield reports(f"bytes_about_numbers: {cell}", text, result)


def trials():
    yield from numbers()
    yield from faults()
    yield from about_hundreds()
    yield from headers()
    yield from bytes_about_cells()
    yield from wide_files()
    for name, text, result in FILES:
        yield reports(name, text, result)
    for name, table in ROWS.items():
        for result, *rows in table:
            for row in rows:
                yield reports(f"{name}: {row[:40]!r}, {len(row)} bytes", HEADER + row, result)
    for name, text, result in MOST:
        yield reports(f"zone_texts_at_the_edge: {name}", text, result)
    for text, result in RECORDS_OF_TEXTS:
        yield reports(f"records_of_texts: {text!r}", text, result)
    yield reports("cell_of_a_million_bytes", LONG_CELL, TWO)
    yield from second_files()
