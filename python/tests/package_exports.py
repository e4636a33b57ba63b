"""More exports of the mine of `exports`: kinds that failed once, and what mining packages
write. One that no arguments can read has no rows, and `rejected` names its cause."""
from __future__ import annotations

import datetime
import io
import lzma
import math
from typing import Iterable, Optional

from exports import (MINE, NX, NY, NZ, USUAL, Block, Export, by_density, dec, known, table, truth,
                     usual)

HEAD = "X,Y,Z,TONNES,AU,ZONE"

PLAIN = table(HEAD, lambda b: ",".join(usual(b)))

INDICES = {"i": "I", "j": "J", "k": "K", "first": "1000,2000,300", "size": "20,20,10",
           "tonnes": "TONNES", "grade": "AU", "zone": ["ZONE"]}


def book(sheets: dict[str, list[list]], shown: Optional[dict[str, str]] = None) -> bytes:
    """Returns a workbook of these sheets; `shown` has number formats of columns, by their
    letters."""
    import openpyxl
    made = openpyxl.Workbook()
    made.remove(made.active)
    for name, rows in sheets.items():
        page = made.create_sheet(name)
        for row in rows:
            page.append(row)
        for letter, look in (shown or {}).items():
            for cell in page[letter][1:]:
                cell.number_format = look
    message = io.BytesIO()
    made.save(message)
    return message.getvalue()


def cells(block: Block) -> list:
    return [block.x, block.y, block.z, None if block.kilograms is None else block.kilograms / 1000,
            None if block.grade is None else block.grade / 1e6, block.zone]


HEADER = HEAD.split(",")


def sizes_exports() -> Iterable[Export]:
    """Rows with columns for sizes."""
    triples = [[b for b in MINE if b[:3] in ((i, j, k), (i + 1, j, k), (i + 2, j, k))]
               for i in (0, 3) for j in range(NY) for k in range(NZ)]
    wide = [triple for triple in triples
            if len({b.zone for b in triple}) == 1 and all(b.is_rock for b in triple)]
    assert len(wide) > 10
    within = {b[:3]: triple for triple in wide for b in triple}

    def mean(triple: list[Block]) -> int:
        return round(sum(b.kilograms * (b.grade or 0) for b in triple)
                     / sum(b.kilograms for b in triple))
    lines = ["centroid_x,centroid_y,centroid_z,dim_x,dim_y,dim_z,tonnes,au,zone"]
    for block in MINE:
        triple = within.get(block[:3])
        if triple and block == triple[1]:
            lines.append(
                f"{block.x},{block.y},{block.z},60,20,10,"
                f"{dec(sum(b.kilograms for b in triple), 3)},{dec(mean(triple), 6)},{block.zone}")
        elif not triple and block.is_rock:
            first = block.kilograms // 4
            lines += [f"{block.x},{block.y},{block.z + up},20,20,5,{dec(mass, 3)},"
                      f"{known(block.grade, 6, '-99')},{block.zone}"
                      for up, mass in ((-2.5, first), (2.5, block.kilograms - first))]
    words = {"x": "centroid_x", "y": "centroid_y", "z": "centroid_z", "tonnes": "tonnes",
             "grade": "au", "zone": ["zone"], "parents": "20,20,10"}
    rows = truth(kilograms=lambda b: round(sum(one.kilograms for one in within[b[:3]]) / 3)
                 if b[:3] in within else b.kilograms,
                 grade=lambda b: mean(within[b[:3]]) if b[:3] in within else b.grade)
    text = "\n".join(lines) + "\n"
    yield Export("Vulcan, blocks of three parents' size beside small ones",
                 {"a.csv": text.encode()}, words, rows, within=(1, 1),
                 message=(f"{len(wide)} rows take several places, and are cut into {3 * len(wide)} "
                          "parts", "sizes of rows come from dim_x, dim_y, dim_z"),
                 rejected="dim_x, dim_y, dim_z.*--parents", first={"parents": ""})
    yield Export("the same with parents of another size, which blocks cross",
                 {"a.csv": text.encode()}, {**words, "parents": "40,20,10"}, {},
                 rejected="the block extends beyond its parent along x")
    yield Export("the same, named, with a corner that is a centroid", {"a.csv": text.encode()},
                 {**words, "sub_size": "dim_x,dim_y,dim_z", "corner": "1000,1990,295"}, {},
                 rejected="extends beyond its parent along x, .* is --corner wrong")

    lines = ["XC,YC,ZC,XINC,YINC,ZINC,TONNES,AU,ZONE"]
    for block in MINE:
        if block.is_rock and (block.i + block.j) % 2:
            part = block.kilograms // 3
            lines += [f"{x},{block.y},{block.z},6.667,20,10,{dec(mass, 3)},"
                      f"{known(block.grade, 6, '-99')},{block.zone}"
                      for x, mass in ((f"{block.x - 7}.333", part), (block.x, part),
                                      (f"{block.x + 6}.667", block.kilograms - 2 * part))]
        elif block.is_rock:
            lines.append(f"{block.x},{block.y},{block.z},20,20,10,{','.join(usual(block)[3:])}")
    yield Export("Datamine, sub-blocks in thirds with XINC", {"a.csv": "\n".join(lines).encode()},
                 {**USUAL, "x": "XC", "y": "YC", "z": "ZC", "parents": "20,20,10"}, truth(),
                 rejected="XINC, YINC, ZINC.*--parents", first={"parents": ""})

    text = table("EAST,NORTH,RL,_EAST,_NORTH,_RL,TONNES,AU,ZONE",
                 lambda b: ",".join([*usual(b)[:3], "20", "20", "10", *usual(b)[3:]]))
    yield Export("Micromine, sizes as _EAST", {"a.csv": text.encode()},
                 {**USUAL, "x": "EAST", "y": "NORTH", "z": "RL"}, truth(),
                 rejected="_EAST, _NORTH, _RL has sizes along x of 20", first={"size": "40,20,10"})

    corners = ["X,Y,Z,TONNES,AU,ZONE"]
    for block in MINE:
        if block.is_rock:
            for number in range(8):
                mass = block.kilograms // 8 + (number < block.kilograms % 8)
                at = [block.x + (-5, 5)[number % 2], block.y + (-5, 5)[number // 2 % 2],
                      block.z + (-2.5, 2.5)[number // 4]]
                corners.append(",".join([*map(str, at), dec(mass, 3), known(block.grade, 6, ""),
                                         block.zone]))
    yield Export("sub-blocks in eight, without sizes", {"a.csv": "\n".join(corners).encode()},
                 {**USUAL, "parents": "20,20,10", "corner": "990,1990,295"}, truth())
    yield Export("the same with some rows twice",
                 {"a.csv": "\n".join([*corners, *corners[300:340]]).encode()},
                 {**USUAL, "parents": "20,20,10", "corner": "990,1990,295", "drop_repeats": True},
                 truth(), message=("omitted: 40 rows that equal",),
                 rejected="40 rows equal an earlier one.*--drop-repeats counts each once",
                 first={"drop_repeats": False})

    rock = [b for b in MINE if b.is_rock]
    text = table("X,Y,Z,SG,TONNES,AU,ZONE",
                 lambda b: ",".join([*usual(b)[:3], dec(b.density, 4), dec(b.kilograms * 3 // 2, 3),
                                     *usual(b)[4:]]), rock)
    yield Export("tonnes of benches of 15 m for 10", {"a.csv": text.encode()}, USUAL,
                 truth(kilograms=lambda b: b.kilograms and b.kilograms * 3 // 2),
                 message=(r"by SG [\d,]+ t, 0\.66\d+ times that",))


def repeated_exports() -> Iterable[Export]:
    """Repeated rows."""
    both = PLAIN + PLAIN.partition("\n")[2]
    yield Export("each row twice", {"a.csv": both.encode()}, {**USUAL, "drop_repeats": True},
                 truth(), rejected="--drop-repeats counts each once", first={"drop_repeats": False})
    yield Export("each row twice, and --merge", {"a.csv": both.encode()}, {**USUAL, "merge": True},
                 {}, rejected="each? .*--drop-repeats|equal an earlier one")
    parts = {name: table(HEAD, lambda b: ",".join(usual(b)), [b for b in MINE if low <= b.i < high])
             for name, low, high in (("a.csv", 0, 9), ("b.csv", 6, NX))}
    files = {name: text.encode() for name, text in parts.items()}
    yield Export("exports that overlap", files, {**USUAL, "drop_repeats": True}, truth(),
                 message=("rows that equal an earlier one",), rejected=r"b.csv: line \d+ .* "
                 r"repeats a.csv: line \d+.*--drop-repeats counts each once",
                 first={"drop_repeats": False})
    newer = table(HEAD, lambda b: ",".join([*usual(b)[:3], known(b.kilograms and b.kilograms + 7000,
                                                                 3, "-99"), *usual(b)[4:]]),
                  [b for b in MINE if b.i > 5])
    yield Export("exports that overlap, of two versions",
                 {"a.csv": files["a.csv"], "b.csv": newer.encode()}, USUAL, {},
                 rejected="each is a complete block, as of exports that overlap or of two versions")
    yield Export("the same and --merge", {"a.csv": files["a.csv"], "b.csv": newer.encode()},
                 {**USUAL, "merge": True}, {},
                 rejected="so each row is a complete block, .* would count twice")
    halves = "".join(
        f"{','.join(usual(b)[:3])},{dec(b.kilograms // 2, 3)},{known(b.grade, 6, '')},{b.zone}\n"
        * 2 for b in MINE if b.is_rock)
    yield Export("equal halves of blocks", {"a.csv": f"{HEAD}\n{halves}".encode()},
                 {**USUAL, "merge": True},
                 truth(kilograms=lambda b: b.kilograms and b.kilograms // 2 * 2),
                 message=(r"are sums of 2 to 2, and weigh 2\.\d+ to 2\.\d+ t/m3",),
                 rejected="if rows are repeated, --drop-repeats", first={"merge": False})


def workbook_exports() -> Iterable[Export]:
    """Workbooks as people store them."""
    benches = {"Benches 1-4": [HEADER, *(cells(b) for b in MINE if b.k < 4)],
               "Notes": [["by a geologist"]],
               "Benches 5-7": [HEADER, *(cells(b) for b in MINE if b.k > 3)]}
    yield Export("a workbook with benches on two sheets", {"a.xlsx": book(benches)}, USUAL, truth(),
                 message=("sheet `Benches 1-4` .*omitted: `Notes`", "sheet `Benches 5-7`"))
    other = {**benches,
             "Benches 5-7": [["X", "Y", "Z", "ZONE", "TONNES", "AU"],
                             *([*cells(b)[:3], b.zone, *cells(b)[3:5]] for b in MINE if b.k > 3)]}
    yield Export("two sheets with headers that differ", {"a.xlsx": book(other)}, USUAL, {},
                 rejected="below different headers: give them one header")
    bare = {**benches, "Benches 5-7": [cells(b) for b in MINE if b.k > 3]}
    yield Export("a second sheet without a header", {"a.xlsx": book(bare)}, USUAL, {},
                 rejected=r"the sheet `Benches 5-7` has [\d,]+ rows of numbers .* but no header")
    percent = {"Blocks": [HEADER, *([*cells(b)[:4], None if b.grade is None else b.grade / 1e8,
                                     b.zone] for b in MINE)]}
    yield Export("cells that are shown as 1.20 %", {"a.xlsx": book(percent, {"E": "0.00%"})},
                 {**USUAL, "grade": "AU %"},
                 truth(grade=lambda b: None if b.grade is None else b.grade * 10_000),
                 within=(0, 1), message=("AU is shown in percent",), rejected=r"cell E\d+: the column "
                 r"AU has `[\d.]+%`: give the unit, as --grade 'AU %'", first={"grade": "AU"})
    dated = [HEADER, *map(cells, MINE)]
    dated[20] = [*dated[20][:4], datetime.datetime(2024, 3, 1), dated[20][5]]
    yield Export("a date in a workbook", {"a.xlsx": book({"Blocks": dated})}, USUAL, {},
                 rejected="sheet `Blocks`, cell E21: the column AU has `2024-03-01T.*to a date")
    wrong = [HEADER, *map(cells, MINE)]
    wrong[30] = [*wrong[30][:3], "#DIV/0!", *wrong[30][4:]]
    yield Export("an error in a workbook", {"a.xlsx": book({"Blocks": wrong})}, USUAL, {},
                 rejected="cell D31: the column TONNES has `#DIV/0!`, an error")
    lazy = [HEADER, *map(cells, MINE)]
    lazy[40] = [*lazy[40][:3], "=4000*2.7", *lazy[40][4:]]
    yield Export("a formula that was never computed", {"a.xlsx": book({"Blocks": lazy})}, USUAL, {},
                 rejected="cell D41: .* a formula that no program has computed")
    codes = {"Blocks": [["X", "Y", "Z", "ROCK", "AU", "ZONE"],
                        *([*cells(b)[:3], {"OX": 10.0, "SU": 20.0}.get(b.rock, 0.0), *cells(b)[4:]]
                          for b in MINE)]}
    yield Export("a workbook with codes of rock", {"a.xlsx": book(codes)},
                 {**USUAL, "tonnes": "", "density_by": "ROCK: 10=2.45, 20=2.75"},
                 truth(kilograms=lambda b: {"SU": 11_000_000, "OX": 9_800_000}.get(b.rock)))


def share_exports() -> Iterable[Export]:
    """Blocks that are ore, waste, rock or air in part, conditions and filters."""
    def parts(block: Block) -> tuple[int, int]:
        ore = (block.i * 5 + block.j) % 4 * 20
        return ore, (block.k * 3 + block.i) % 3 * 20 if block.rock == "OX" else 100 - ore

    def gems(block: Block) -> str:
        ore, waste = parts(block) if block.is_rock else (0, 0)
        return ",".join([*usual(block)[:3], str(ore), str(waste), str(100 - ore - waste),
                         known(block.density, 4, ""), "2.5", known(block.grade, 6, ""), block.zone])
    text = table("X,Y,Z,PCT_ORE,PCT_WASTE,PCT_AIR,SG_ORE,SG_WASTE,AU,ZONE", gems)

    def mass(block: Block) -> Optional[int]:
        if not block.is_rock:
            return None
        ore, waste = parts(block)
        return block.density * 4 * ore + 25_000 * 4 * waste or None
    words = {**USUAL, "tonnes": "", "density": "SG_ORE", "waste_density": "SG_WASTE",
             "ore_share": "PCT_ORE", "waste_share": "PCT_WASTE"}
    yield Export("GEMS, percents of ore, waste and air", {"a.csv": text.encode()}, words,
                 truth(kilograms=mass, grade=lambda b: None if b.grade is None or not mass(b)
                       else round(b.grade * b.density * 4 * parts(b)[0] / mass(b))), within=(1, 1),
                 message=("are part ore and part waste", "blocks are partly air"), rejected="a part "
                 "of the block is air.* give --waste-share", first={"waste_share": ""})

    text = table("XC,YC,ZC,TOPO,SG,AU,ZONE", lambda b: ",".join(
        [*usual(b)[:3], str((b.i * 7 + b.j) % 4 * 25 + 25) if b.rock == "OX" else "-99",
         known(b.density, 4, "-99"), known(b.grade, 6, "-99"), b.zone]))
    words = {**USUAL, "x": "XC", "y": "YC", "z": "ZC", "tonnes": "", "density": "SG"}
    by_topo = truth(kilograms=lambda b: None if b.density is None
                    else b.density * 4 * ((b.i * 7 + b.j) % 4 * 25 + 25 if b.rock == "OX" else 100))
    yield Export("Surpac, the topography -99 for whole", {"a.csv": text.encode()},
                 {**words, "share": "where(missing(TOPO), 100, TOPO) %"}, by_topo, within=(1, 0),
                 rejected="the share is missing, TOPO being `-99`, .*--share "
                 r"'where\(missing\(TOPO\), 100, TOPO\) %'", first={"share": "TOPO %"})
    yield Export("the same by a condition of one's own", {"a.csv": text.encode()},
                 {**words, "share": "if(TOPO == -99, 100, TOPO)/100"}, by_topo, within=(1, 0))

    spellings = {0: "AIR", 1: "Air", 2: " air "}
    text = table("X,Y,Z,ROCK,AU,ZONE",
                 lambda b: ",".join([*usual(b)[:3], spellings[b.i % 3] if b.rock == "AIR" else b.rock,
                                     known(b.grade, 6, ""), b.zone]))
    yield Export("Air beside AIR in a filter", {"a.csv": text.encode()},
                 {**USUAL, "tonnes": "", "density": "2.65",
                  "where": ['ROCK != "AIR" and ROCK != "void"']},
                 truth(kilograms=lambda b: 10_600_000 if b.is_rock else None),
                 message=("a filter does not distinguish in ROCK: `AIR`, `Air`, `air`",))

    text = table("X,Y,Z,ROCK,AU,ZONE",
                 lambda b: ",".join([*usual(b)[:3], {"OX": "10.0", "SU": "20.0"}.get(b.rock, "0.0"),
                                     known(b.grade, 6, ""), b.zone]))
    yield Export("codes of rock as 10.0", {"a.csv": text.encode()},
                 {**USUAL, "tonnes": "", "density_by": "ROCK: 10=2.45, 20=2.75"},
                 truth(kilograms=lambda b: {"SU": 11_000_000, "OX": 9_800_000}.get(b.rock)),
                 rejected=r"--density-by has none of .*`20` \(",
                 first={"density_by": "ROCK: 11=2.4"})

    text = table("X,Y,Z,ROCK,AU,MINED,CLASS,ZONE",
                 lambda b: ",".join([*usual(b)[:3], b.rock, known(b.grade, 6, "-99"),
                                     str(int(b.k > 3)), str((b.i + b.j) % 4 + 1), b.zone]))
    yield Export("density and recovery by conditions", {"a.csv": text.encode()},
                 {**USUAL, "tonnes": 'where(ROCK == "ox", 2.45, 2.75) * 4000 * where(ROCK in '
                  '["OX", "SU"], 1, 0)', "grade": 'where(ROCK == "OX", AU * 0.5, AU)'},
                 truth(kilograms=lambda b: {"SU": 11_000_000, "OX": 9_800_000}.get(b.rock),
                       grade=lambda b: None if b.grade is None else b.grade / 2 if b.rock == "OX"
                       else b.grade), within=(0, 1))
    yield Export("rock that is mined out, and classes of resources", {"a.csv": text.encode()},
                 {**USUAL, "tonnes": "", "density_by": "ROCK: OX=2.45, SU=2.75",
                  "where": ["MINED == 0", "CLASS in [1, 2, 3]"]},
                 truth([b for b in MINE if b.k <= 3 and (b.i + b.j) % 4 < 3],
                       kilograms=lambda b: {"SU": 11_000_000, "OX": 9_800_000}.get(b.rock)),
                 message=("rows by the filter",))


def placed_exports() -> Iterable[Export]:
    """Indices, lists and coordinates."""
    text = table("I,J,K,TONNES,AU,ZONE",
                 lambda b: ",".join([str(b.i + 1), str(b.j + 1), str(NZ - b.k), *usual(b, "")[3:]]),
                 [b for b in MINE if b.k > 1])
    yield Export("benches from the top, the lowest not exported", {"a.csv": text.encode()},
                 {**INDICES, "from_top": True, "blocks": f"{NX},{NY},{NZ}"},
                 truth([b for b in MINE if b.k > 1]), message=("7 is the lowest, at z = 300",),
                 rejected="--from-top requires .*--blocks", first={"blocks": ""})
    text = table("LEVEL,ROW,COLUMN,TONNES,AU,ZONE",
                 lambda b: ",".join([str(NZ - b.k), str(NY - b.j), str(b.i + 1),
                                     *usual(b, "")[3:]]), [b for b in MINE if b.j > 0])
    yield Export("GEMS, levels from the top and rows from the north", {"a.csv": text.encode()},
                 {**INDICES, "i": "COLUMN", "j": "ROW", "k": "LEVEL", "from_top": True,
                  "from_north": True, "blocks": f"{NX},{NY},{NZ}"},
                 truth([b for b in MINE if b.j > 0]),
                 message=("rows count from the north: 10 is the southernmost, at y = 2000",))
    tall = sorted(MINE, key=lambda b: (b.i, b.j, b.k))
    text = table("TONNES,AU,ZONE", lambda b: ",".join(usual(b)[3:]), tall)
    words = {"blocks": f"{NX},{NY},{NZ}", "first": "1000,2000,300", "size": "20,20,10",
             "tonnes": "TONNES", "grade": "AU", "zone": ["ZONE"]}
    yield Export("a list with z running first", {"a.csv": text.encode()},
                 {**words, "order": "z,y,x"}, truth(), rejected="is it --order z,y,x",
                 first={"order": "x,y,z"})
    text = HEAD + "\n" + "1,2,3,4,5,6\n" + PLAIN.partition("\n")[2]
    yield Export("a row of column numbers", {"a.csv": text.encode()}, USUAL, truth(),
                 message=("1 between it and the first number omitted",))
    yield Export("a row without a place, -99",
                 {"a.csv": (PLAIN + "-99,-99,-99,10800,1.5,east\n").encode()},
                 {**USUAL, "where": ["X > 0"]}, truth(), rejected="x is -99 in a.csv: line 982 "
                 r"\(-99, -99, -99, 10800, 1.5, east\): does it mean a missing value",
                 first={"where": []})
    text = table("X;Y;Z;KG;ZONE;AU", lambda b: ";".join(
        [f"{b.x - 500:,}".replace(",", "."), f"{b.y:,}".replace(",", "."), str(b.z),
         known(b.kilograms, 0, ""), b.zone, "" if b.grade is None else str(b.grade // 1_000_000)]))
    yield Export("German points between thousands, and no comma", {"a.csv": text.encode()},
                 {**USUAL, "tonnes": "KG kg", "thousands": "."},
                 truth(grade=lambda b: None if b.grade is None else b.grade // 1_000_000
                       * 1_000_000, place=lambda b: (1000 * b.x - 500_000, 1000 * b.y, 1000 * b.z)),
                 grid="500,2000,300,20,20,10", rejected="a decimal point, or one between thousands",
                 first={"thousands": ""})
    text = table("X cm;Y cm;Z cm;RHO kg/m3;AU;ZONE",
                 lambda b: ";".join([str(b.x * 100), str(b.y * 100), str(b.z * 100),
                                     known(b.density and b.density * 1000, 4, ""),
                                     known(b.grade, 6, ""), b.zone]))
    yield Export("centimetres, kilograms a cubic metre", {"a.csv": text.encode()},
                 {**USUAL, "x": "`X cm` cm", "y": "`Y cm` cm", "z": "`Z cm` cm", "tonnes": "",
                  "density": "`RHO kg/m3` kg/m3"}, truth(kilograms=by_density))


def no_grid_exports() -> Iterable[Export]:
    """Models that are on no level grid, and texts that are no tables: each is refused with its
    cause."""
    along, across = math.cos(math.radians(12)), math.sin(math.radians(12))

    def dipping(block: Block) -> str:
        x, z = block.x - 1000, block.z - 300
        return ",".join([f"{1000 + x * along + z * across:.3f}", str(block.y),
                         f"{300 - x * across + z * along:.3f}", *usual(block)[3:]])
    yield Export("a model that dips", {"a.csv": table(HEAD, dipping).encode()}, USUAL, {},
                 rejected=r"Neighbours are 1[12]\.\d\d degrees off the vertical, so the model dips")

    lines = [HEAD]
    for block in MINE:
        if 5 < block.i < 9 and 3 < block.j < 7:
            lines += [",".join([str(block.x + x), str(block.y + y), str(block.z + z),
                                known(block.kilograms and block.kilograms // 8, 3, "-99"),
                                *usual(block)[4:]]) for x in (-5, 5) for y in (-5, 5)
                      for z in (-2.5, 2.5)]
        else:
            lines.append(",".join(usual(block)))
    yield Export("an infill grid", {"a.csv": "\n".join(lines).encode()}, USUAL, {},
                 rejected="Most rows are along x on a grid of 20 through 1000, and 504 are off it, "
                 r"as a.csv: line \d+ \(1115, .*two grids, as an infill")

    lines = [HEAD]
    for block in MINE:
        if block.i < 4 and block.j < 4 and block.k < 6:
            if not (block.i % 2 or block.j % 2 or block.k % 2):
                lines.append(f"{block.x + 10},{block.y + 10},{block.z + 5},86000,0,west")
        else:
            lines.append(",".join(usual(block)))
    yield Export("super-blocks of 2 x 2 x 2", {"a.csv": "\n".join(lines).encode()}, USUAL, {},
                 rejected="on a grid of 20 through 1000, and 12 are off it, .*super-blocks")

    lines = ["X,Y,Z,THICKNESS,TONNES,AU,ZONE"]
    for i in range(NX):
        for j in range(NY):
            for seam in (0, 1):
                floor = (300 + 40 * seam + 3.3 * math.sin(i * 0.7) + 2.1 * math.cos(j * 0.9)
                         + 0.013 * (i * NY + j))
                lines.append(f"{1000 + 20 * i},{2000 + 20 * j},{floor:.3f},{2 + 0.1 * i:.2f},"
                             f"1200,1.0,seam{seam}")
    yield Export("seams with a thickness by column", {"a.csv": "\n".join(lines).encode()}, USUAL,
                 {}, rejected="are these seams or a surface, with a thickness by column")

    means = ("Minimum,1000,2000,300,10000,0.1,\nMaximum,1260,2180,360,12000,4,\n"
             "Mean,1130.000,2090.000,330.000,10800,0.9,\n")
    text = table("NAME," + HEAD, lambda b: "b," + ",".join(usual(b))) + means
    yield Export("rows of minima, maxima and means", {"a.csv": text.encode()}, USUAL, {},
                 rejected=r"line 982 \(Minimum, .* and a.csv: line 983 \(Maximum, .*smallest and the "
                 "largest")
    yield Export("the same without a name",
                 {"a.csv": (PLAIN + "\n".join(line.partition(",")[2]
                                              for line in means.splitlines())).encode()}, USUAL, {},
                 rejected="are they rows of minima, maxima or means")

    glued = ("X Y Z TONNES AU "
             "ZONE\n" + "".join(f"{b.x:8.2f}{b.y:7.2f}{b.z:8.2f}{(b.kilograms or 0) / 1000:12.3f} "
                                f"{(b.grade or 0) / 1e6:8.6f} {b.zone}\n" for b in MINE))
    yield Export("columns that are glued", {"a.txt": glued.encode()}, USUAL, {},
                 rejected="numbers without a blank between them")

    benches = [HEAD]
    for k in range(NZ):
        benches += [f"Bench {k + 1}", *(",".join(usual(b)) for b in MINE if b.k == k)]
    yield Export("headings of benches between rows", {"a.csv": "\n".join(benches).encode()}, USUAL,
                 {}, rejected="`Bench 1` is a heading between rows")
    yield Export("the same in a table",
                 {"a.csv": "\n".join(line + "," * 5 if "Bench" in line else line
                                     for line in benches).encode()}, USUAL, {},
                 rejected="the column X has `Bench [12]`, a heading between rows")

    parcels = "".join(f"{b.i + 1} {b.j + 1} {b.k + 1} 1 {(b.kilograms or 0) / 1000:.3f} 1.0 "
                      f"1.0\nROCK {(b.kilograms or 0) / 1000:.3f} {(b.grade or 0) / 1e6:.4f}\n"
                      for b in MINE)
    yield Export("Whittle, blocks and their parcels", {"a.mod": parcels.encode()},
                 {**INDICES, "names": ["I", "J", "K", "N", "TONNES", "AU", "ZONE"]}, {},
                 rejected="lines of 3 and 7 cells alternate, .*Whittle")


def package_exports() -> Iterable[Export]:
    """What packages write."""
    text = "# Leapfrog block model\n# origin: 990 1990 295\n# size: 20 20 10\n" + PLAIN
    yield Export("Leapfrog, comments above the header", {"a.csv": text.encode()}, USUAL, truth(),
                 message=("header in line 4",))
    text = table("Y,X,Z,TONNES,AU,ZONE,",
                 lambda b: ",".join([str(b.y), str(b.x), *usual(b)[2:]]) + ",")
    yield Export("Surpac, y before x, commas at the ends of lines", {"a.csv": text.encode()}, USUAL,
                 truth())
    text = table("I J K TOPO SG AU ZONE",
                 lambda b: " ".join([str(b.i + 1), str(b.j + 1), str(NZ - b.k),
                                     "100.0" if b.is_rock else "0.0", known(b.density, 4, "-1.000"),
                                     known(b.grade, 6, "-2.000"), b.zone]))
    yield Export("MineSight, items -1 and -2, a topography in percent", {"a.dat": text.encode()},
                 {**INDICES, "tonnes": "", "density": "SG", "share": "TOPO %", "from_top": True,
                  "blocks": f"{NX},{NY},{NZ}"}, truth(kilograms=by_density))
    text = table('"Centroid X","Centroid Y","Centroid Z","Volume (m3)","Density (t/m3)","Au '
                 '(g/t)","Zone"',
                 lambda b: ",".join([*usual(b)[:3], "4000.000", known(b.density, 4, ""),
                                     known(b.grade, 6, ""), f'"{b.zone}"']))
    yield Export("Deswik, volumes and densities with units in brackets",
                 {"a.csv": b"\xef\xbb\xbf" + text.encode()},
                 {"x": "Centroid X", "y": "Centroid Y", "z": "Centroid Z", "tonnes": "",
                  "density": "Density", "volume": "Volume", "grade": "Au", "zone": ["Zone"]},
                 truth(kilograms=by_density))
    text = table("XC\tYC\tZC\tKT\tAU_KGT\tZONE",
                 lambda b: "\t".join([*usual(b)[:3], known(b.kilograms, 6, "NULL"),
                                      known(b.grade, 9, "NULL"), b.zone]))
    yield Export("kilotonnes and kilograms a tonne, packed by xz",
                 {"a.tsv.xz": lzma.compress(text.encode())},
                 {**USUAL, "x": "XC", "y": "YC", "z": "ZC", "tonnes": "KT kt",
                  "grade": "AU_KGT kg/t"}, truth(), within=(1, 1))
    text = table("X,Y,Z,TONNES,CU,ZONE",
                 lambda b: ",".join([*usual(b)[:4],
                                     "" if b.grade is None else dec(b.grade, 6) + "%", b.zone]))
    yield Export("grades with signs of percent", {"a.csv": text.encode()},
                 {**USUAL, "grade": "CU %"},
                 truth(grade=lambda b: None if b.grade is None else b.grade * 10_000),
                 within=(0, 1), rejected="has `[\\d.]+%`: give the unit", first={"grade": "CU"})
    text = table("X,Y,Z,TONNES,AU,ZONE",
                 lambda b: ",".join([*usual(b)[:5], "-99" if b.zone == "oxide" else b.zone]))
    yield Export("a zone that is not known", {"a.csv": text.encode()}, USUAL,
                 truth(zone=lambda b: "-99" if b.zone == "oxide" else b.zone),
                 message=("blocks have the zone `-99`, which may mean a missing value",))
    deep = [b for b in MINE if not (b.i > 9 and b.k < 2)]
    yield Export("deep rock lost in the east",
                 {"a.csv": table(HEAD, lambda b: ",".join(usual(b)), deep).encode()}, USUAL,
                 truth(deep),
                 message=(f"{sum(b.i > 9 and b.k < 2 for b in MINE)} below the lowest have none",))
    text = table("X,Y,Z,TONNES,AU,CU,ZONE",
                 lambda b: ",".join([*usual(b)[:5], known(b.grade and b.grade // 5, 6, "-99"),
                                     b.zone]))
    yield Export("Maptek, the greater of two grades", {"a.csv": text.encode()},
                 {**USUAL, "grade": "max(AU*0.5, CU*4)"},
                 truth(grade=lambda b: None if b.grade is None
                       else max(b.grade / 2, b.grade // 5 * 4)), within=(0, 1))
    text = table("XWORLD,YWORLD,ZWORLD,BCM,BD,AUCUT,ZONE",
                 lambda b: ",".join([*usual(b)[:3], "4000" if b.is_rock else "0",
                                     known(b.density, 4, "0"), known(b.grade, 6, "0"), b.zone]))
    yield Export("bank cubic metres and a bulk density, 0 in air", {"a.csv": text.encode()},
                 {"x": "XWORLD", "y": "YWORLD", "z": "ZWORLD", "tonnes": "BCM*BD", "grade": "AUCUT",
                  "zone": ["ZONE"]}, truth(kilograms=by_density))


def later_exports() -> list[Export]:
    """All of them."""
    return [one for kind in (sizes_exports, repeated_exports, workbook_exports, share_exports,
                             placed_exports, no_grid_exports, package_exports) for one in kind()]
