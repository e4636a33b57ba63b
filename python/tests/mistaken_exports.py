"""Exports that gave another mine silently, or stopped with the cause of another one: each
stops with its own cause, is reported, or gives its mine."""
from __future__ import annotations

import io
from typing import Optional

import openpyxl

from exports import MINE, NX, USUAL, Export, Rows, by_density, dec, known, table, truth, usual

HEAD = "X,Y,Z,TONNES,AU,ZONE"
PLAIN = table(HEAD, lambda b: ",".join(usual(b)))
ROCK = [block for block in MINE if block.is_rock]


def case(name: str, files: dict[str, bytes], words: dict, message: str, rows: Optional[Rows] = None,
         mended: Optional[dict] = None, grid: str = "1000,2000,300,20,20,10") -> Export:
    """An export with a pattern of what stops it or, if `rows` has its mine, of what else is
    reported; and with arguments that are changed for the mine, if the first ones stop."""
    if rows is None:
        return Export(name, files, words, {}, rejected=message)
    if mended:
        first = {key: words.get(key, "") for key in mended}
        return Export(name, files, {**words, **mended}, rows, (1, 12), rejected=message, first=first)
    return Export(name, files, words, rows, (1, 12), (message,) if message else (), grid=grid)


def metal(name: str, factor: float = 1.0) -> dict[str, bytes]:
    """The mine with another name for its grade."""
    return {"a.csv": table(f"X,Y,Z,TONNES,{name},ZONE", lambda b: ",".join(
        [*usual(b)[:4], "" if b.grade is None else f"{b.grade * factor / 1e6:.9f}",
         b.zone])).encode()}


def copper(block) -> str:
    """A second metal, which is missing in a third of the blocks."""
    return "" if block.grade is None or (block.i + block.j) % 3 == 0 else dec(block.grade // 2, 6)


def equivalent(block) -> Optional[int]:
    if block.grade is None:
        return None
    return block.grade + (round(block.grade // 2 * 82 / 58) if copper(block) else 0)


def cells(block) -> list:
    return [block.x, block.y, block.z, None if block.kilograms is None else block.kilograms / 1000,
            None if block.grade is None else block.grade / 1e6, block.zone]


def book(hidden: tuple[int, ...] = (), merged: str = "") -> bytes:
    made = openpyxl.Workbook()
    for row in [HEAD.split(","), *map(cells, MINE)]:
        made.active.append(row)
    for row in hidden:
        made.active.row_dimensions[row].hidden = True
    if merged:
        made.active.merge_cells(merged)
    found = io.BytesIO()
    made.save(found)
    return found.getvalue()


TWO_METALS = table("X,Y,Z,TONNES,AU,CU,ZONE", lambda b: ",".join(
    [*usual(b)[:5], copper(b), b.zone])).encode()

PARTIAL = "\n".join(["X,Y,Z,SG,PARTIAL,AU,ZONE", *(
    f"{b.x},{b.y},{b.z},{dec(b.density, 4)},0.5,{known(b.grade, 6, '')},{b.zone}"
    for b in ROCK for _ in range(2)), ""]).encode()

WASTE = table("X,Y,Z,SG,AU,ZONE", lambda b: ",".join(
    [*usual(b)[:3], known(b.density and (0 if b.grade is None else b.density), 4, "-99"),
     known(b.grade, 6, "-99"), b.zone]))

OTHER_ORDER = (table(HEAD, lambda b: ",".join(usual(b)), [b for b in MINE if b.k < 3])
               + table("X,Y,Z,AU,TONNES,ZONE", lambda b: ",".join(
                   [*usual(b)[:3], usual(b)[4], usual(b)[3], b.zone]),
                   [b for b in MINE if b.k > 2]))

THIRDS = {i: f"{1000 + i * 25 / 3:.3f}" for i in range(NX)}

def mistaken_exports() -> list[Export]:
    """All of them."""
    return [
        case("a term of an equivalent grade is missing", {"a.csv": TWO_METALS},
             {**USUAL, "grade": "(AU*58+CU*82)/58"},
             r"grade \(AU\*58\+CU\*82\)/58: in \d+ rows, as a.csv: line \d+, a term is missing",
             truth(grade=equivalent)),
        case("the same in its other form", {"a.csv": TWO_METALS}, {**USUAL, "grade": "AU+CU*82/58"},
             "in .* rows, .* a term is missing, and adds nothing", truth(grade=equivalent)),
        *(case(f"a unit in the name {name}", metal(name, factor), {**USUAL, "grade": f"`{name}`"},
               f"the column {name} has the unit `{unit}`.*give --grade '{name} {given}'", truth(),
               {"grade": f"`{name}` {given}"})
          for name, factor, unit, given in [
              ("Fe%", 1e-4, "%", "%"), ("FE_PERC", 1e-4, "%", "%"), ("CUPC", 1e-4, "%", "%"),
              ("AUPPB", 1e3, "ppb", "ppb"), ("AG_KGT", 1e-3, "kg/t", "kg/t"),
              ("AU_OPT", 1 / 34.285714, "opt", "oz/st"), ("AU_OZT", 1 / 34.285714, "ozt", "oz/st")]),
        case("ounces in place of a grade", metal("AU_OZ", 350.0), {**USUAL, "grade": "AU_OZ"},
             "the column AU_OZ seems to be metal in oz, not a grade"),
        case("a unit that is given beside another in the name", metal("AU_PPB", 1.0),
             {**USUAL, "grade": "AU_PPB g/t"}, "the column AU_PPB has the unit `ppb`, but --grade reads it as",
             truth()),
        case("a file cut within its last text", {"a.csv": PLAIN[:PLAIN.rindex("oxide") + 3].encode()},
             USUAL, "the last line, .*oxi`, has no line end, and its last cell is the beginning of "
             "`oxide`"),
        case("a file cut within its last number",
             {"a.csv": table("X,Y,Z,ZONE,AU,TONNES", lambda b: ",".join(
                 [*usual(b)[:3], b.zone, *usual(b)[4:2:-1]]), ROCK)[:-3].encode()}, USUAL,
             "its last cell has 1 decimals, but others have 3"),
        case("a last line without an end", {"a.csv": PLAIN[:-1].encode()}, USUAL,
             "the last line has no line end: if the file was cut short", truth()),
        case("a northing as x", {"a.csv": table(HEAD, lambda b: ",".join(
            [str(7_634_000 + b.y), str(512_000 + b.x), *usual(b)[2:]])).encode()}, USUAL,
             "LOOK AT\n- x is .*in UTM that is a northing as x and an easting as y",
             truth(place=lambda b: (1000 * (7_634_000 + b.y), 1000 * (512_000 + b.x), 1000 * b.z)),
             grid="7636000,513000,300,20,20,10"),
        case("the same nearer to the equator, where other grids have such eastings",
             {"a.csv": table(HEAD, lambda b: ",".join(
                 [str(1_634_000 + b.y), str(512_000 + b.x), *usual(b)[2:]])).encode()}, USUAL,
             "x is .*in UTM that is a northing as x and an easting as y",
             truth(place=lambda b: (1000 * (1_634_000 + b.y), 1000 * (512_000 + b.x), 1000 * b.z)),
             grid="1636000,513000,300,20,20,10"),
        case("999 as a grade", {"a.csv": table(HEAD, lambda b: ",".join(usual(b, "999"))).encode()},
             {**USUAL, "where": ['ZONE != "air"', "TONNES != 999"]},
             r"AU is 999 there, as in [\d,]+ rows, but otherwise .* give --missing 999", truth(),
             {"missing": ["999"]}),
        case("cubic feet beside lengths without a unit",
             {"a.csv": table("X,Y,Z,TF,AU,ZONE", lambda b: ",".join(
                 [*usual(b)[:3], "12.0", *usual(b)[4:]])).encode()},
             {**USUAL, "tonnes": "", "density": "TF ft3/st"}, "give --x 'X ft' and the like"),
        case("blocks of 40 m with some of 20 m among them, by a density", {"a.csv": "\n".join(
            ["X,Y,Z,SG,AU,ZONE", *(f"{b.x},{b.y},{b.z},2.7,1.2,rock" for b in MINE
                                   if b.k < 6 and not (b.i % 2 or b.j % 2 or b.k % 2)),
             *(f"{b.x},{b.y},{b.z},2.7,1.2,rock" for b in MINE if b.k == 6 and not b.i * b.j),
             ""]).encode()}, {**USUAL, "tonnes": "", "density": "SG"},
             "rows are along x on a grid of 20, but most have their next 40 away"),
        case("a column without a grade", {"a.csv": table(HEAD, lambda b: ",".join(
            [*usual(b)[:4], "0", b.zone])).encode()}, USUAL, "LOOK AT\n- no block has a grade",
             truth(grade=lambda b: 0)),
        case("coordinates as indices", {"a.csv": table(HEAD, lambda b: ",".join(
            [f"{b.x}.5", *usual(b)[1:]])).encode()},
             {"i": "X", "j": "Y", "k": "Z", "first": "1000,2000,300", "size": "20,20,10",
              "index_from": 0, "tonnes": "TONNES", "grade": "AU"},
             "the index i is 1000.5, not an integer: a coordinate"),
        case("hidden rows", {"a.xlsx": book(hidden=(5, 6))}, USUAL,
             "LOOK AT\n.*sheet `Sheet` has 2 hidden rows, as row 5; they are read too", truth()),
        case("merged cells", {"a.xlsx": book(merged="F4:F9")}, USUAL,
             "cells F4:F9 are merged, so only the first one has a value"),
        case("shares of equal parts", {"a.csv": PARTIAL},
             {**USUAL, "tonnes": "", "density": "SG", "share": "PARTIAL", "merge": True}, "",
             truth(kilograms=by_density)),
        case("shares that are more than a block", {"a.csv": PARTIAL.replace(b",0.5,", b",0.8,")},
             {**USUAL, "tonnes": "", "density": "SG", "share": "PARTIAL", "merge": True},
             "are more than the complete block, by their volumes or shares, of one 1.6 times that"),
        case("waste of density 0", {"a.csv": WASTE.encode()},
             {**USUAL, "tonnes": "", "density": "SG"},
             r"(?s)of these \d+ are below rock with a density of 0, as a.csv: line \d+: voids\? Waste"
             r".*LOOK AT\n- \d+ positions below a block have none, .* does rock have no tonnes",
             truth(kilograms=lambda b: None if b.grade is None else by_density(b))),
        case("a second header with other columns", {"a.csv": OTHER_ORDER.encode()}, USUAL,
             "the header is repeated, with `AU` where the first one has `TONNES`"),
        case("Ctrl-Z", {"a.csv": (PLAIN + "\x1a\n").encode()}, USUAL, "Ctrl-Z, the end mark of DOS"),
        case("a zero byte", {"a.csv": (PLAIN + "\0\n").encode()}, USUAL, "a zero byte"),
        case("Micromine's own form", {"a.dat": b"THIS   6 VARIABLES\nEAST N 12 3\nNORTH N 12 3\n"
                                      b"1000.000    2000.000\n"}, USUAL,
             "a file of Micromine in its own form"),
        case("a string file", {"a.str": b"pit,12-Mar-24,,\n0, 0.000, 0.000, 0.000,\n1, 2000.000, "
                               b"1000.000, 300.000,\n0, 0.000, 0.000, 0.000,\n0, 0.000, 0.000, 0.000, "
                               b"END\n"}, USUAL, "a string file of Surpac"),
        case("blocks of 25/3 m", {"a.csv": table(HEAD, lambda b: ",".join(
            [THIRDS[b.i], *usual(b)[1:]])).encode()}, USUAL, "blocks of 8.333 x 20 x 10 m",
             truth(place=lambda b: (1_000_000 + 8333 * b.i, 1000 * b.y, 1000 * b.z)),
             grid="1000,2000,300,8.333,20,10"),
        case("Cyrillic zones in cp1251", {"a.csv": PLAIN.replace("west", "Запад").replace(
            "east", "Восток").encode("cp1251")}, USUAL, "its words look Cyrillic, so is it --encoding",
             truth(zone=lambda b: {"west": "Запад", "east": "Восток"}.get(b.zone, b.zone)),
             {"encoding": "cp1251"}),
        case("units in cells", {"a.csv": table(HEAD.replace("TONNES", "SG"), lambda b: ",".join(
            [*usual(b)[:3], f"{(b.density or 20000) / 1e4:.2f} t/m3", *usual(b)[4:]])).encode()},
             {**USUAL, "tonnes": "", "density": "SG"}, "a unit in the cell. Remove units"),
        case("a word before each number", {"a.csv": table(HEAD, lambda b: ",".join(
            [*usual(b)[:2], f"RL {b.z}.5", *usual(b)[3:]])).encode()}, USUAL,
             "the column Z has `RL 300.5`, as 980 rows do: a word before each number"),
        case("degrees", {"a.csv": table(HEAD, lambda b: ",".join(
            [f"{117.5 + b.i * 2e-4:.6f}", f"{-22.3 + b.j * 2e-4:.6f}", *usual(b)[2:]])).encode()},
             USUAL, "x and y are degrees"),
        case("a second file in feet", {
            "a.csv": table(HEAD, lambda b: ",".join(usual(b)), [b for b in MINE if b.k < 4]).encode(),
            "b.csv": table(HEAD, lambda b: ",".join([f"{v / 0.3048:.3f}" for v in b[:0]] + [
                f"{v / 0.3048:.3f}" for v in (b.x, b.y, b.z)] + usual(b)[3:]),
                           [b for b in MINE if b.k > 3]).encode()}, USUAL, "is b.csv in feet"),
        case("Whittle, first blocks without parcels", {"a.mod": "".join(
            f"{b.i + 1} {b.j + 1} {b.k + 1} 1 1.0 1.0 {(b.kilograms or 0) / 1000:.3f}\n"
            + ("" if n < 120 else f"ROCK {(b.kilograms or 0) / 1000:.3f} 1.0\n")
            for n, b in enumerate(MINE)).encode()},
             {"i": "I", "j": "J", "k": "K", "first": "1000,2000,300", "size": "20,20,10",
              "names": ["I", "J", "K", "N", "A", "B", "TONNES"], "tonnes": "TONNES", "grade": "A"},
             "as parcels of blocks in a model of Whittle"),
        case("zones whose names differ by signs alone",
             {"a.csv": PLAIN.replace("west", "ox/1").replace("east", "ox:1").encode()}, USUAL,
             "the zones `ox/1` and `ox:1` would have one file"),
    ]
