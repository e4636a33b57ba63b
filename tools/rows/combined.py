"""Rows by combination: a dozen factors vary at once from row to row, and every two values of two factors meet in some row.

Most factors, such as ends of lines, quotes and blanks, do not change the result. So a row expects what the plain computation makes of the
same model without them, or what is counted of the same lines, or the one fault that was injected, at the place where it was injected.
"""
import functools
import itertools
import random
import zlib
from typing import Dict, Iterator, List, NamedTuple, Sequence

from rows import thin
from rows.instance import at, heading, plain_texts, sections
from rows.trial import MARK, Later, Trial, piped, refused
from shared import CHECKED, compile_arguments


def covering(factors: Dict[str, Sequence]) -> Iterator[Dict]:
    """Returns choices of a value for each factor, so that every two values of two factors are in one."""
    chance, names = random.Random(len(factors)), list(factors)
    pairs = list(itertools.combinations(names, 2))
    missing = {(a, b, p, q): None for a, b in pairs for p in range(len(factors[a])) for q in range(len(factors[b]))}
    while missing:
        a, b, p, q = next(iter(missing))
        tries = [{**{name: chance.randrange(len(factors[name])) for name in names}, a: p, b: q} for _ in range(12)]
        met = [[(a, b, one[a], one[b]) for a, b in pairs if (a, b, one[a], one[b]) in missing] for one in tries]
        most = max(range(len(met)), key=lambda place: len(met[place]))
        for pair in met[most]:
            del missing[pair]
        yield {name: factors[name][place] for name, place in tries[most].items()}


# The format of a text: how its lines end, what surrounds each cell or field, and how each number is written.
ENDS = {"LF": "\n", "CR LF": "\r\n", "CR": "\r", "CR CR LF": "\r\r\n", "none at the end": "\n"}
ABOUT = {"nothing": ("", ""), "blanks": (" ", "  "), "tabs": ("\t", "\t\t"), "a blank and a tab": (" \t", " \t"), "a tab and a blank": ("\t ", "\t ")}
WRITTEN = {
    "shortest": str, "a plus": lambda text: text if text[0] == "-" else "+" + text,
    "leading zeros": lambda text: "-00" + text[1:] if text[0] == "-" else "00" + text,
    "a point": lambda text: text + ("0" * 7 if "." in text else "."), "trailing zeros": lambda text: text + ("" if "." in text else ".") + "0" * 300,
}
MARKS = ["none", "the first text", "the other texts", "each text"]


def is_number(text: str) -> bool:
    return text.lstrip("-").replace(".", "").isdigit()


def ended(rows: Sequence[str], end: str) -> bytes:
    return ENDS[end].join([*rows, ""][: -1 if end.startswith("none") else None]).encode()


def marked(texts: Sequence[bytes], mark: str) -> List[bytes]:
    first, others = mark in (MARKS[1], MARKS[3]), mark in MARKS[2:]
    return [MARK * (others if place else first) + text for place, text in enumerate(texts)]


# Models: the cells of their records, and their formats

# The cones of every other zone: they differ from the others in one of nine numbers, or have the same ones in another order or as a sum, so
# that a zone is confused with another if one of them is overlooked.
CONE = [2, 3, 2, 3, 2, 3, 2, 3, 3]
SIDES = {"none": CONE, **{f"cell {place + 1}": [*CONE[:place], 5 if place == 8 else 2 * CONE[place], *CONE[place + 1 :]] for place in range(9)},
         "turned": [3, 2, 2, 3, 2, 3, 2, 3, 3], "one more and one less": [2, 3, 2, 3, 3, 3, 1, 3, 3]}
BOXES = {"no block": (0, 0, 0), "a row": (300, 1, 1), "125": (5, 5, 5), "144": (3, 16, 3), "147": (7, 7, 3), "27": (3, 3, 3)}
GRIDS = {"usual": ("0,0,0", "10,10,10"), "below zero": ("-1000.5,-99,-0.001", "0.5,1.25,0.4"), "far": ("100,1000000000,-1000000000", "100,99.999,65.536"),
         "flat": ("100,100,100", "20,20,5"), "millimetres": ("0.001,0,0", "0.001,0.001,0.001")}
MASSES = {"one": ["1,0"], "some none": ["0,0", "1,0", "0,7"], "about bands": ["1000,2.5", "1000,2.499999", "0.001,2.500001", "7.5,0"],
          "the largest": ["1000000,1000000", "999999.999,999999.999999"], "hundreds": ["255,255", "256,256", "65535,65536", "0.256,0.000256"],
          "by floats": ["1000000,999999", "1000000,1000000", "999999.999,999998.999999"]}
DESTINATIONS = {
    "a mill": ["mill,m,900,600,1500"], "each kind": ["dump,d,250", "leach,l,700,1600,0,850,2.5,0,2.500001,900", "mill,m,900,600,1500"],
    "apart by a float": ["mill,b,999,90000999,1", "mill,a,1000,89910998,0"], "apart by a cent": ["dump,a,1000", "dump,b,999", "leach,c,0,1000,0,0"],
    "a leach that recovers nothing": ["leach,z,100,1500,0,0", "leach,y,100,1500,0,500,2.5,0"],
    "eight": [f"dump,{name},{2 - (name in 'gh')}" for name in "abcdefg"] + ["mill,h,1000,1,1"],
}
LIMITS = {"none": [], "one": ["r,0,L,9007199254.740993"], "two in a period": ["r,1,G,1.5", "s,1,I,0.000001,0.000001"],
          "from the last": ["s,9,I,0,1000000000000", "s,2,L,0", "r,9,G,999999999999.999999", "r,0,I,9007199254.740991,9007199254.740993"]}
ORDERS = {"rising": lambda places: places, "falling": lambda places: places[::-1], "by turns": lambda places: places[::2] + places[1::2],
          "columns first": sorted, "any": lambda places: random.Random(7).sample(places, len(places))}
COLUMNS = {"usual": "x,y,z,tonnes,grade", "turned": "grade,tonnes,z,y,x", "in capitals": "X,Y,Z,TONNES,Grade",
           "others between": "rock,x,zone,y,z,tonnes,a,grade",
           "one after": "x,y,z,tonnes,grade,rock", "an empty one after": "tonnes,x,grade,z,y,"}
QUOTES = {"none": None, "each cell": "", "commas": "a,b", "line ends": "\r\na\n", "doubled": '""a""', "doubled about 4,096": "a" * 3_000 + '"' * 600 + ",",
          "doubled about 65,536": "b" * 64_500 + '"' * 1_200 + ",", "a long cell": "c" * 4_200 + ",\n"}
KEYS = {"as they are": str, "in capitals": str.upper, "titles": str.title}
PADDED = {"nothing": ("", []), "empty cells": (",,,", []), "blank cells and records": (", ,\t", [", ", ",,,"]), "many": ("," * 300, [",", '""'])}
FORMS = ["the pipe form", "compile", "pitc_thin"]

MODELS = {
    "form": FORMS, "files": [1, 2, 5, 10, 64], "end": list(ENDS), "quotes": list(QUOTES), "about": list(ABOUT), "mark": MARKS, "side": list(SIDES),
    "order": list(ORDERS), "columns": list(COLUMNS), "box": list(BOXES), "grid": list(GRIDS), "masses": list(MASSES), "destinations": list(DESTINATIONS),
    "limits": list(LIMITS), "written": list(WRITTEN), "keys": list(KEYS), "padded": list(PADDED),
}


class Model(NamedTuple):
    """The records of a plan, and the rows of each zone file below the usual header."""

    plan: List[str]
    zones: List[List[str]]

    def plain(self) -> List[bytes]:
        zones = ("".join(f"{row}\n" for row in ["x,y,z,tonnes,grade", *rows]).encode() for rows in self.zones)
        return ["".join(f"{record}\n" for record in self.plan).encode(), *zones]


def model_of(choice: Dict) -> Model:
    """Returns the model of a choice, without its formats."""
    count, (origin, size) = choice["files"], GRIDS[choice["grid"]]
    cones = [",".join(map(str, SIDES[choice["side"]] if zone % 2 else CONE)) for zone in range(count)]
    destinations, limits = DESTINATIONS[choice["destinations"]], LIMITS[choice["limits"]]
    first, last = destinations[0].split(",")[1], destinations[-1].split(",")[1]
    resources = [f"resource,r,{first}", f"resource,s,{last}" + f",{first}" * (first != last)] if limits else []
    plan = ["name,One.of-all", f"grid,{origin},{size}", *(f"zone,{cone}" for cone in cones), *destinations, "periods,10", "rate,0.1"]
    places = thin.box(*map(range, BOXES[choice["box"]]))
    corner, sizes = (thin.millimetres(map(float, cells.split(","))) for cells in (origin, size))
    rows = list(thin.rows_of(ORDERS[choice["order"]](places), sizes, corner, MASSES[choice["masses"]]))
    return Model([*plan, *resources, *(f"limit,{limit}" for limit in limits)], [rows[zone::count] for zone in range(count)])


def cells_of(record: str, choice: Dict) -> List[str]:
    """Returns the cells of a record, each number in its format and between blanks."""
    before, after = ABOUT[choice["about"]]
    spell = WRITTEN[choice["written"]]
    return [before + (spell(cell) if is_number(cell) else cell) + after for cell in record.split(",")]


def record_of(cells: Sequence[str], quotes: str) -> str:
    return ",".join(cells if quotes == "none" else ['"' + cell.replace('"', '""') + '"' for cell in cells])


def dressed_plan(model: Model, choice: Dict) -> bytes:
    padding, between = PADDED[choice["padded"]]
    spell, dressed = KEYS[choice["keys"]], []
    for record in model.plan:
        key, *cells = record.split(",")
        # names that are numbers would be other names in another format
        cells = [",".join(cells)] if key == "name" else cells
        dressed += [record_of(cells_of(",".join([spell(key), *cells]), choice), choice["quotes"]) + padding, *between]
    return ended(dressed, choice["end"])


def dressed_zone(rows: Sequence[str], choice: Dict, odd: int = -1, more: int = 0) -> bytes:
    """Returns a zone file of these rows, with its columns in the chosen order; the odd one has an extra empty cell at its end, or is missing
    its last cell."""
    header, names = COLUMNS[choice["columns"]].split(","), "x,y,z,tonnes,grade".split(",")
    dressed = [record_of(header, choice["quotes"])]
    for place, row in enumerate(rows):
        cells = dict(zip(names, cells_of(row, choice)))
        others = QUOTES[choice["quotes"]] or "-" if place == 0 else ""
        cells = [cells.get(name.lower(), others) for name in header]
        cells = cells if place != odd else [*cells, ""] if more > 0 else cells[:more or None]
        dressed.append(record_of(cells, choice["quotes"]))
    return ended(dressed, choice["end"])


def run_of(name: str, choice: Dict, texts: Sequence[bytes], wanted) -> Trial:
    """Returns a run of these texts by the form of a choice: refused by this line, or with the texts of this model."""
    files = {"plan": texts[0], **{f"zone{zone}": text for zone, text in enumerate(texts[1:])}}
    arguments = compile_arguments("plan", "b", list(files)[1:])
    given = {"arguments": arguments[choice["form"] == FORMS[2] :], "files": files}
    if choice["form"] == FORMS[0]:
        given = {"given": piped(*(text if text.endswith(b"\n") else text + b"\n" for text in texts[:-1]), texts[-1])}
    if isinstance(wanted, str):
        return refused(name, wanted, **given)
    plain = plain_texts(*wanted.plain())
    if choice["form"] == FORMS[0]:
        return Trial(name, out=sections(plain), **given)
    if choice["form"] == FORMS[1]:
        return Trial(name, out=b"rows %d\n" % plain["blocks"].count(b"\n"), left=at("b", plain), **given)
    lists = [list(map(int, line.split()[2:])) for line in plain["prec"].splitlines()]
    run = thin.written(thin.text_of(thin.retained_of(lists)), lists)
    return Trial(name, out=run["out"], left={"b": run["left"]["thin"]}, **given)


def accepted(choice: Dict, name: str) -> Trial:
    """Returns a model that is accepted."""
    model = model_of(choice)
    texts = [dressed_plan(model, choice), *(dressed_zone(rows, choice) for rows in model.zones)]
    return run_of(name, choice, marked(texts, choice["mark"]), model)


# Faults of a cell: the column, the kind, and the text, or where its position is: below the grid, within it, or beyond it.
CELLS = {
    **{f"{column} {kind} {text}": (column, kind, text) for kind, text, columns in [
        ("Number", "?", "x z tonnes"), ("Number", "", "y grade"), ("TooFine", "0.0001", "x tonnes"), ("TooFine", "0.0000001", "z grade"),
        ("Range", "-1", "tonnes grade"), ("Range", "1000000.001", "tonnes grade")] for column in columns.split()},
    **{f"{column} below": (column, "Range", -1) for column in "xyz"}, **{f"{column} beyond": (column, "Range", 1) for column in "xyz"},
    **{f"{column} off": (column, "OffGrid", 0) for column in "xyz"},
}
WIDTHS = {"a cell less": -1, "an empty cell more": 1}
# Faults of a plan: its last record, and the kind.
RECORDS = {"name,two": "Twice", "pit,1": "Key", "periods": "Width", "rate,x": "Number", "rate,0.0000001": "TooFine", "zone,1,1,21": "Range",
           "resource,t,none": "Name", "limit,r,3,I,2,1": "Order", "leach,q,1,1" + "".join(f",{start},1" for start in range(257)): "TooMany"}
FAULTS = [*CELLS, *WIDTHS, *RECORDS, "again", "a file more", "a file that is not there"]
INVALID = {**MODELS, "side": ["none"], "masses": list(MASSES)[:2], "box": ["a row", "27"], "files": [1, 2, 10], "limits": list(LIMITS)[1:], "fault": FAULTS, "file": ["first", "last"],
          "place": ["first", "last"], "after": ["good files", "invalid files", "files that repeat"]}


def odd_cell(choice: Dict, column: str, text) -> str:
    """Returns the text of an invalid cell, or of a position that is below the grid, on no block of it, or beyond it and on none."""
    if isinstance(text, str):
        return text
    origin, size = (thin.millimetres([float(cells.split(",")["xyz".index(column)])])[0] for cells in GRIDS[choice["grid"]])
    return thin.shortest(origin + {-1: -1, 0: 1, 1: 10_000 * size + 1}[text], 3)


def invalid(choice: Dict, name: str) -> Trial:
    """Returns a model with one fault that is reported, and others after it."""
    model, fault, count = model_of(choice), choice["fault"], choice["files"]
    file = 0 if choice["file"] == "first" else count - 1
    rows, odd, more = [list(zone) for zone in model.zones], -1, 0
    place = 0 if choice["place"] == "first" and fault in CELLS else len(rows[file]) - 1
    line = f"file {file} row {place + 2} "
    if fault == "again" or fault.endswith(" off") and choice["grid"] == "millimetres":
        place = len(rows[file]) - 1
        rows[file][place] = ",".join([*rows[0][0].split(",")[:3], "5", "5"])
        line = f"file {file} row {place + 2} repeats file 0 row 2"
        if choice["after"] == "invalid files" and file + 1 < count:
            line = f"file {file + 1} row {len(rows[file + 1]) + 2} column x: Number"
    elif fault in CELLS:
        column, kind, text = CELLS[fault]
        cells = dict(zip("x y z tonnes grade".split(), rows[file][place].split(",")))
        rows[file][place] = ",".join({**cells, column: odd_cell(choice, column, text)}.values())
        line += f"column {column}: {kind}"
    elif fault in WIDTHS:
        odd, more, line = place, WIDTHS[fault], line + "column whole: Width"
    for zone in range(file + 1, count) if choice["after"] != "good files" else ():
        rows[zone].append("x,0,0,1,1" if choice["after"] == "invalid files" else rows[0][0])
    zones = [dressed_zone(lines, choice, odd if zone == file else -1, more) for zone, lines in enumerate(rows)]
    missing = []
    if fault in RECORDS:
        line = f"plan row {len(model.plan) * (1 + len(PADDED[choice['padded']][1])) + 1}: {RECORDS[fault]}"
        model.plan.append(fault)
    elif fault == "a file more" or fault == "a file that is not there" and choice["form"] == FORMS[0]:
        zones, line = [*zones, zones[0]], "settings: Files"
    elif fault == "a file that is not there":
        missing, line = ["none"], f"file {count}: FeedFailed"
    trial = run_of(name, choice, marked([dressed_plan(model, choice), *zones], choice["mark"]), line)
    return trial._replace(arguments=[*trial.arguments, *missing])


# Texts of an instance, with a format for each line

LINE_ENDS = {"LF": "\n", "CR LF": "\r\n", "none at the end": "\n", "CR at the end": "\n"}
BETWEEN = {"a blank": " ", "blanks": "   ", "a tab": "\t", "tabs": "\t\t", "a blank and a tab": " \t"}
ROUND = {"nothing": ("", ""), "blanks": ("  ", " "), "tabs": ("\t\t", "\t"), "both": (" \t", "\t ")}
FIRST = {"nothing": [], "a remark": ["% x"], "blanks": [" \t"], "an empty line": [""], "a remark after blanks": [" \t%% 1 0"]}
AMONG = {"nothing": [], "remarks": ["%", "\t% 1:1"], "blank lines": ["", " \t "], "many": [""] * 300}
HEADS = {"usual": lambda keys: keys, "turned": lambda keys: keys[::-1], "any": lambda keys: random.Random(5).sample(keys, len(keys))}
PREDS = {
    "none": lambda own, count: [], "the next": lambda own, count: [own + 1][: own + 1 < count],
    "some from the last": lambda own, count: [other for other in range(count)[::-1] if other != own][:12],
    "256 apart": lambda own, count: [other for other in (own + 3, own + 259, own + 2, own + 258, own - 256, own - 1) if 0 <= other < count],
    "65,536 apart": lambda own, count: [other for other in (own + 3, own + 65_539, own + 2, own + 65_538) if other < count],
    "out of order": lambda own, count: [other for other in (5, 3, 11, 0, 299) if other < count and other != own],
}
SECTIONS = ["RESOURCE_CONSTRAINT_COEFFICIENTS:", "RESOURCE_CONSTRAINT_LIMITS:"]
VALUES = {"usual": ["12000", "-2.5", "0"], "the ends": ["1" + "0" * 18, "-1" + "0" * 18], "six decimals": ["0.000001", "-9007199254.740993", "255.999999"]}
INTERVALS = {"L": "L {0}", "G": "G {0}", "I": "I {0} {0}", "by floats": "I 9007199254.740991 9007199254.740993"}

TEXTS = {
    "blocks": [1, 2, 12, 300], "end": list(LINE_ENDS), "between": list(BETWEEN), "round": list(ROUND), "first": list(FIRST),
    "among": list(AMONG), "mark": MARKS, "head": list(HEADS), "colon": [":", " : ", "\t:\t\t"], "preds": list(PREDS),
    "destinations": [1, 2, 8], "resources": [1, 2, 8], "periods": [1, 2, 100],
    "written": list(WRITTEN), "values": list(VALUES), "limits": list(INTERVALS), "cpit": ["there", "missing"],
}


def lines_of(choice: Dict) -> Dict[str, List[str]]:
    """Returns the lines of the texts of a choice, without their formats."""
    count, values = choice["blocks"], VALUES[choice["values"]]
    numbers = {name: choice[name] for name in ("destinations", "resources", "periods")}
    preds = [PREDS[choice["preds"]](own, count) for own in range(count)]
    limits = [f"{resource} {period} {INTERVALS[choice['limits']].format(values[period % 2])}"
              for resource in range(numbers["resources"]) for period in sorted({0, numbers["periods"] - 1})]
    found = {"blocks": [f"{own} {own % 7} 9999 0 {own % 3}.5 {own} 63" for own in range(count)],
             "prec": [" ".join(map(str, [own, len(ids), *ids])) for own, ids in enumerate(preds)]}
    for kind, width in (("PCPSP", numbers["destinations"]), ("CPIT", 1)):
        objective = [" ".join([str(own), *(values[(own + place) % len(values)] for place in range(width))]) for own in range(count)]
        places = itertools.product(*map(lambda most: sorted({0, most - 1}), [count, *[width] * (kind == "PCPSP"), numbers["resources"]]))
        coefficients = [" ".join(map(str, place)) + " " + values[0] for place in places]
        head = heading(kind, name="N-1.n", blocks=count, **numbers).split("|")[:-1]
        found[kind.lower()] = [*head, "OBJECTIVE_FUNCTION:", *objective, SECTIONS[0], *coefficients, SECTIONS[1], *limits]
    return {ending: text for ending, text in found.items() if ending != "cpit" or choice["cpit"] == "there"}


def dressed_line(line: str, choice: Dict) -> str:
    before, after = ROUND[choice["round"]]
    key, colon, fields = line.rpartition(":")
    spell, between = WRITTEN[choice["written"]], BETWEEN[choice["between"]]
    prefix = key + (choice["colon"] if colon else "")
    return before + prefix + between.join(spell(field) if is_number(field) else field for field in fields.split()) + after


def dressed_text(lines: Sequence[str], choice: Dict, reported: str = ""):
    """Returns a text of these lines, and the number of the last one equal to this, counted from 1, or of the line after them."""
    dressed, number = list(FIRST[choice["first"]]), 0
    keys = (lines + ["OBJECTIVE_FUNCTION:"]).index("OBJECTIVE_FUNCTION:") if ":" in lines[0] else 0
    for place, line in enumerate([*HEADS[choice["head"]](lines[:keys]), *lines[keys:]]):
        dressed += AMONG[choice["among"]] if place in (1, len(lines) - 1) else []
        dressed.append(dressed_line(line, choice))
        number = len(dressed) if line == reported else number
    end = LINE_ENDS[choice["end"]]
    last = {"none at the end": "", "CR at the end": "\r"}.get(choice["end"], end)
    return (end.join(dressed) + last).encode(), number or len(dressed) + 1


def checked(choice: Dict, name: str) -> Trial:
    """Returns the texts of an instance, and what is counted of them."""
    lines = lines_of(choice)
    texts = marked([dressed_text(text, choice)[0] for text in lines.values()], choice["mark"])

    def below(ending, number):
        """Returns how many lines follow a section's line."""
        places = [place for place, line in enumerate([*lines[ending], ":"]) if line.endswith(":")]
        return places[number + 1] - places[number] - 1

    arcs = sum(int(line.split()[1]) for line in lines["prec"])
    out = f"blocks {choice['blocks']} arcs {arcs} coefficients {below('pcpsp', 1)} limits {below('pcpsp', 2)}"
    out += f" cpit {below('cpit', 1)}" if "cpit" in lines else ""
    return Trial(name, arguments=["check", "b"], files=at("b", dict(zip(lines, texts))), out=out.encode() + b"\n")


# Faults of a text: which text, the section whose last line is invalid, the field, its content and the kind.
FIELDS = [
    ("blocks", "", 0, "{before}", "Order"), ("blocks", "", 1, "10000", "Range"), ("blocks", "", 4, "0.0001", "TooFine"), ("blocks", "", 6, "64", "Range"),
    ("prec", "", 0, "{before}", "Order"), ("prec", "", 0, "{blocks}", "Range"), ("prec", "", 1, "{blocks}", "Range"), ("prec", "", 1, "x", "Number"),
    *((file, SECTIONS[0], *rest) for file in ("pcpsp", "cpit") for rest in [(0, "{before}", "Order"), (0, "{blocks}", "Range"), (1, "0.0000001", "TooFine")]),
    ("pcpsp", SECTIONS[1], 1, "{destinations}", "Range"), ("pcpsp", SECTIONS[1], 2, "{resources}", "Range"), ("pcpsp", SECTIONS[1], 3, "1e0", "Number"),
    ("cpit", SECTIONS[1], 1, "{resources}", "Range"), ("cpit", SECTIONS[1], 2, "1e0", "Number"),
    *((file, SECTIONS[1], 0, text, kind) for file in ("pcpsp", "cpit") for text, kind in [("{blocks}", "Range"), ("0", "Order")]),
    *((file, ":", *rest) for file in ("pcpsp", "cpit") for rest in [
        (0, "{resources}", "Range"), (1, "{periods}", "Range"), (1, "-1", "Range"), (2, "l", "Name"), (3, "0.0000001", "TooFine")]),
]
LINES = [("prec", "Missing"), ("prec", "Twice"), *((file, kind) for file in ("pcpsp", "cpit") for kind in ("Missing", "Order", "Key", "Count"))]
INVALID_TEXTS = {**TEXTS, "blocks": [12, 300], "cpit": ["there"], "fault": [*FIELDS, *LINES], "after": ["good texts", "invalid texts"]}


def spoiled(lines: Dict[str, List[str]], choice: Dict):
    """Puts a fault in one text. Returns which one, the line that is reported, or the one after the last, and the kind."""
    file, *where, kind = choice["fault"]
    text, count = lines[file], choice["blocks"]
    if where:
        section, field, other = where
        place = text.index(section) - 1 if section in text else len(text) - 1
        fields = text[place].split(" ")
        # a number that is a power of two less, if there are enough
        less = next(power for power in (65_536, 256, 1) if count > power)
        fields[field] = other.format(before=count - 1 - less, **choice)
        text[place] = " ".join(fields)
        return file, text[place], "Fields" if other == "l" and len(fields) > 4 else kind
    if kind == "Missing":
        del text[text.index(SECTIONS[1]) if SECTIONS[1] in text else -1 :]
        return file, "", kind
    if kind == "Twice":
        own, _, *ids = text[0].split(" ")
        text[0] = " ".join([own, str(max(1, len(ids))), *ids[:-1], ids[0] if len(ids) > 1 else own])
        return file, text[0], kind
    if kind == "Order":
        text.append(text[-1])
    elif kind == "Key":
        text.insert(3, "NDESTINATIONS: 1" if file == "cpit" and count == 12 else "NGENERAL_SIDE_CONSTRAINTS: 0" if file == "cpit" else "NRESOURCES: 0")
        return file, text[3], kind
    else:
        text[2] = f"NBLOCKS: {count - 1}"
        return file, text[2], kind
    return file, text[-1], kind


def refused_texts(choice: Dict, name: str) -> Trial:
    """Returns the texts of an instance of which one is invalid, and perhaps those after it too."""
    lines = lines_of(choice)
    file, reported, kind = spoiled(lines, choice)
    texts, number = {}, 0
    for ending, text in lines.items():
        if number and choice["after"] == "invalid texts":
            text = ["x", *text]
        texts[ending], found = dressed_text(text, choice, reported if ending == file else "")
        number = found if ending == file else number
    files = at("b", dict(zip(texts, marked(list(texts.values()), choice["mark"]))))
    return refused(name, f"{file} line {number}: {kind}", arguments=["check", "b"], files=files)


def named(what: str, choice: Dict) -> str:
    reported = ", ".join(map(str, choice.values()))
    return f"{what}: {reported[:140]} {zlib.crc32(reported.encode()):08x}".replace("\n", " ").replace("\t", " ")


def rows_by(is_thin: bool) -> Iterator[Later]:
    """The rows of pitc_thin, or those of pitc."""
    for what, factors, make in [
            ("models", MODELS, accepted), ("invalid models", INVALID, invalid), ("texts", TEXTS, checked), ("invalid texts", INVALID_TEXTS, refused_texts)]:
        for choice in covering(factors):
            if (choice.get("form") == FORMS[2]) == is_thin:
                yield Later(named(what, choice), functools.partial(make, choice))


def trials() -> Iterator[Later]:
    yield from rows_by(is_thin=False)
    choice = {**{name: values[0] for name, values in INVALID_TEXTS.items()}, "blocks": 65_600, "preds": "65,536 apart"}
    yield Later("texts: 65,600 blocks", functools.partial(checked, choice))
    for fault in (fault for fault in FIELDS if fault[0] in ("blocks", "prec") and fault[-1] == "Order"):
        yield Later(f"texts: 65,600 blocks, {fault[0]}", functools.partial(refused_texts, {**choice, "fault": fault}))
