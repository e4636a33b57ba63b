"""Exports of one mine, as mining packages, spreadsheets and people write them, each with the
blocks that it must give.

The mine is a box of 14 x 10 x 7 positions of 20 x 20 x 10 m: hills with air above, two old
workings, oxide above sulphide in the west and the east, and rock without a grade. The expected
values of an export are computed in integers here, without the package."""
from __future__ import annotations

import bz2
import gzip
import io
import math
import random
import zipfile
from dataclasses import dataclass, field
from typing import Callable, Iterable, NamedTuple, Optional

NX, NY, NZ = 14, 10, 7


class Block(NamedTuple):
    """A position of the box. Density is in 1/10,000 t/m3, mass in kilograms, grade in
    millionths of g/t; both are None in air and holes, the grade is None if it is unknown."""

    i: int
    j: int
    k: int
    zone: str
    rock: str
    density: Optional[int]
    kilograms: Optional[int]
    grade: Optional[int]

    @property
    def x(self) -> int:
        return 1000 + 20 * self.i

    @property
    def y(self) -> int:
        return 2000 + 20 * self.j

    @property
    def z(self) -> int:
        return 300 + 10 * self.k

    @property
    def is_rock(self) -> bool:
        return self.kilograms is not None


def mine() -> list[Block]:
    """Returns all positions, x running first, then y, then z."""
    luck = random.Random(70)
    ground = {(i, j): 4 + round(1.4 * math.sin(i / 3) + math.cos(j / 2)) for i in range(NX)
              for j in range(NY)}
    ground[3, 3] = NZ - 1
    blocks = []
    for k in range(NZ):
        for j in range(NY):
            for i in range(NX):
                side = "west" if i < 6 else "east"
                if k > ground[i, j]:
                    blocks.append(Block(i, j, k, "air", "AIR", None, None, None))
                elif (i, j, k) in ((5, 5, 1), (6, 5, 1), (9, 2, 2)):
                    blocks.append(Block(i, j, k, side, "VOID", None, None, None))
                else:
                    is_oxide = k > ground[i, j] - 2
                    density = luck.randint(24000, 25000) if is_oxide else luck.randint(27000, 28000)
                    near = math.exp(-((i - 7) ** 2 / 12 + (j - 5) ** 2 / 9 + (k - 2) ** 2 / 4))
                    grade = luck.randint(1, 4_000_000) * near
                    blocks.append(Block(i, j, k, "oxide" if is_oxide else side, "OX" if is_oxide
                                        else "SU", density, density * 400 + luck.randint(-180, 180),
                                        round(grade) if grade > 20_000 else None))
    return blocks


MINE = mine()

Rows = dict[str, dict[tuple[int, int, int], tuple[int, int]]]


def truth(blocks: Iterable[Block] = MINE,
          kilograms: Callable[[Block], Optional[int]] = lambda block: block.kilograms,
          grade: Callable[[Block], Optional[int]] = lambda block: block.grade,
          zone: Callable[[Block], str] = lambda block: block.zone, place: Callable[[Block], tuple[
        int, int, int]] = lambda block: (1000 * block.x, 1000 * block.y, 1000 * block.z)) -> Rows:
    """Returns by zone the tonnes in kilograms and the grade in millionths of each block, by
    its x, y and z in millimetres."""
    rows: Rows = {}
    for block in blocks:
        mass = kilograms(block)
        if mass is not None:
            rows.setdefault(zone(block), {})[place(block)] = mass, grade(block) or 0
    return rows


def by_density(block: Block) -> Optional[int]:
    """Returns the kilograms of 4000 m3."""
    return None if block.density is None else block.density * 400


@dataclass
class Export:
    """An export: its files, the arguments that read it, what it must give, and how far that may
    differ (kilograms, millionths).

    `message` has patterns of the report. `rejected` is a pattern of the error or of a line after
    LOOK AT, with `first` in place of some arguments: it shows what happens while a planner
    does not know better. `expected` has arguments of a resource report."""

    name: str
    files: dict[str, bytes]
    words: dict
    rows: Rows
    within: tuple[int, int] = (0, 0)
    message: tuple[str, ...] = ()
    rejected: str = ""
    first: dict = field(default_factory=dict)
    grid: str = "1000,2000,300,20,20,10"
    expected: tuple[str, ...] = ()


def dec(value: int, places: int) -> str:
    """Returns an integer number of 10**-places as a text."""
    sign, value = "-" if value < 0 else "", abs(value)
    return (f"{sign}{value // 10 ** places}.{value % 10 ** places:0{places}d}" if places
            else f"{sign}{value}")


def table(header: str, row: Callable[[Block], str], blocks: Iterable[Block] = MINE,
          end: str = "\n") -> str:
    return header + end + "".join(row(block) + end for block in blocks)


def known(value: Optional[int], places: int, none: str) -> str:
    return none if value is None else dec(value, places)


USUAL = {"x": "X", "y": "Y", "z": "Z", "tonnes": "TONNES", "grade": "AU", "zone": ["ZONE"]}


def usual(block: Block, none: str = "-99") -> list[str]:
    """Returns cells of x, y, z, tonnes, grade and zone."""
    return [str(block.x), str(block.y), str(block.z), known(block.kilograms, 3, none),
            known(block.grade, 6, none), block.zone]


def old_exports() -> Iterable[Export]:
    """The twelve that the pages had."""
    words = {"x": "XC", "y": "YC", "z": "ZC", "tonnes": "TONNAGE", "grade": "AU_PPM",
             "zone": ["DOMAIN"]}

    def noisy(block: Block) -> str:
        tonnage = "-99" if block.kilograms is None else f"{dec(block.kilograms * 1000 - 100, 6)}000"
        gold = "-99" if block.grade is None else f"{dec(block.grade, 6)}0001"
        rock = '"void, old workings"' if block.rock == "VOID" else block.rock
        place = f"{block.x}.0000001,{block.y - 1}.9999999,{block.z}.0000000"
        return f"1,{place},{tonnage},{gold},{block.zone},{rock}"
    text = table('"BLOCK","XC","YC","ZC","TONNAGE","AU_PPM","DOMAIN","ROCK"\r\n,m,m,m,t,g/t,,',
                 noisy, end="\r\n")
    yield Export("quoted names, a row of units, -99 and CR LF", {"a.csv": text.encode()}, words,
                 truth(),
                 message=("1 between it and the first number omitted",
                          f"omitted: {sum(not b.is_rock for b in MINE)} rows without tonnes",
                          f"kept with grade 0: {sum(b.is_rock and b.grade is None for b in MINE)} "
                          "rows without a grade"))

    text = table(
        "X,Y,Z,SG,AU_PPB,ZONE",
        lambda b: f"{b.x},{b.y},{b.z},{known(b.density, 4, '')},{known(b.grade, 3, '')},{b.zone}")
    yield Export("a density, and parts a billion", {"a.csv": text.encode()},
                 {**USUAL, "tonnes": "", "density": "SG", "grade": "AU_PPB ppb"},
                 truth(kilograms=by_density))

    def semicolons(block: Block) -> str:
        zone = {"west": "Süd West", "east": "Süd Ost"}.get(block.zone, block.zone)
        cells = [dec(block.x * 10, 1), dec(block.y * 10, 1), dec(block.z * 10, 1),
                 known(block.density, 4, "n/a"), known(block.grade, 3, "n/a")]
        return ";".join(cells + [zone]).replace(".", ",")
    text = "Deposit, March;;;;;\n" + table("X Mitte;Y Mitte;Höhe;Dichte;Au ppb;Zone", semicolons)
    rows = truth(kilograms=by_density,
                 zone=lambda b: {"west": "Süd West", "east": "Süd Ost"}.get(b.zone, b.zone))
    yield Export("semicolons, decimal commas, a title, names with blanks", {"a.csv": text.encode()},
                 {"x": "x mitte", "y": "y mitte", "z": "höhe", "tonnes": "Dichte*4000",
                  "grade": "Au ppb*0.001", "zone": ["Zone"]}, rows,
                 message=("decimal comma", "cells between semicolons", "header in line 2"))

    text = table("I,J,K,TONNES,AU,ZONE",
                 lambda b: ",".join([str(b.i + 1), str(b.j + 1), str(NZ - b.k), *usual(b, "")[3:]]))
    yield Export("indices from 1, benches from the top", {"a.csv": text.encode()},
                 {"i": "I", "j": "J", "k": "K", "from_top": True, "blocks": f"{NX},{NY},{NZ}",
                  "first": "1000,2000,300", "size": "20,20,10", "tonnes": "TONNES", "grade": "AU",
                  "zone": ["ZONE"]}, truth(), message=("indices count from 1", "benches count from "
                                                       "the top: 7 is the lowest, at z = 300"))

    text = table("X,Y,DEPTH,TONNES,AU,ZONE",
                 lambda b: ",".join([str(b.x), str(b.y), str(400 - b.z), *usual(b, "")[3:]]))
    yield Export("depths", {"a.csv": text.encode()}, {**USUAL, "z": "400 - DEPTH"}, truth())

    text = "the mine\n3\ndensity\ngold, g/t\nzone number\n" + "".join(
        f" {known(b.density, 4, '-99')}  {known(b.grade, 6, '-99')} "
        f"{['oxide', 'west', 'east', 'air'].index(b.zone)}\n" for b in MINE)
    yield Export("GSLIB, without coordinates", {"a.dat": text.encode()},
                 {"blocks": f"{NX},{NY},{NZ}", "first": "1000,2000,300", "size": "20,20,10",
                  "density": "density", "grade": "gold, g/t", "zone": ["zone number"]},
                 truth(kilograms=by_density,
                       zone=lambda b: str(["oxide", "west", "east", "air"].index(b.zone))),
                 message=("GSLIB",
                          "positions by the order of rows: x upward, then y upward, then z upward"))

    backwards = sorted(MINE, key=lambda b: (-b.k, b.i, b.j))
    text = table("TONNES;AU;ZONE", lambda b: ";".join(usual(b)[3:]), backwards)
    yield Export("a list from the top down, y running first, with a filter",
                 {"a.csv": text.encode()},
                 {"blocks": f"{NX},{NY},{NZ}", "first": "1000,2000,300", "size": "20,20,10",
                  "order": "y,x,-z", "tonnes": "TONNES", "grade": "AU", "zone": ["ZONE"],
                  "where": ['ZONE != "air"']}, truth(),
                 message=("y upward, then x upward, then z downward",))

    text = table("X,Y,Z,TONNES,AU,ZONE",
                 lambda b: ",".join([f"{b.x * 0.625:.0f}", f"{b.y * 0.625:.0f}", *usual(b)[2:]]))
    yield Export("blocks of 12.5 m, coordinates in whole metres", {"a.csv": text.encode()},
                 {**USUAL, "size": "12.5,12.5,10"},
                 truth(place=lambda b: (625_000 + 12_500 * b.i, 1_250_000 + 12_500 * b.j,
                                        1000 * b.z)), grid="625,1250,300,12.5,12.5,10",
                 message=("x is put on the grid: rows are up to 0.5 off it",))

    yield Export("the same, and the size found", {"a.csv": text.encode()}, USUAL,
                 truth(place=lambda b: (625_000 + 12_500 * b.i, 1_250_000 + 12_500 * b.j,
                                        1000 * b.z)), grid="625,1250,300,12.5,12.5,10")

    def turned(angle: float) -> str:
        along, across = math.cos(math.radians(angle)), math.sin(math.radians(angle))

        def row(block: Block) -> str:
            x, y = block.x - 1000, block.y - 2000
            place = [f"{1000 + x * along - y * across:.2f}", f"{2000 + x * across + y * along:.2f}"]
            return ",".join([*place, *usual(block)[2:]])
        return table("X,Y,Z,TONNES,AU,ZONE", row)
    yield Export("turned, by the bearing of +x", {"a.csv": turned(30).encode()},
                 {**USUAL, "x_bearing": 60, "about": "1000,2000"}, truth(),
                 message=(r"\+x at bearing 60, \+y at azimuth 330",),
                 rejected="Neighbours are at bearings (59.9|60.0)", first={"x_bearing": None})

    def quarters() -> str:
        luck, lines = random.Random(1), ["XC,YC,ZC,TONNES,AU,ZONE"]
        for block in MINE:
            if block.kilograms is None:
                lines.append(f"{block.x},{block.y},{block.z},-99,-99,{block.zone}")
                continue
            first = luck.randint(1, block.kilograms // 2)
            for part, mass in enumerate((first, block.kilograms - first)):
                place = f"{block.x - 5 + 10 * part},{block.y},{block.z}"
                zone = block.zone if part else "contact"
                lines.append(f"{place},{dec(mass, 3)},{known(block.grade, 6, '-99')},{zone}")
        return "\n".join(lines) + "\n"
    yield Export("sub-blocks", {"a.csv": quarters().encode()},
                 {**USUAL, "x": "XC", "y": "YC", "z": "ZC", "parents": "20,20,10",
                  "corner": "990,1990,295"}, truth(),
                 message=(f"{2 * sum(b.is_rock for b in MINE):,} sub-blocks are "
                          f"{sum(b.is_rock for b in MINE)} blocks",), rejected="sub-blocks|--parents",
                 first={"parents": "", "corner": "", "size": "20,20,10"})

    def cut(block: Block) -> list[str]:
        """A block in two along z, the upper part a quarter, with a column for sizes."""
        dense = known(block.density, 4, "-99")
        gold = known(block.grade, 6, "-99")
        return [f"{block.x},{block.y},{block.z - 1.25},20,20,7.5,{dense},{gold},{block.zone}",
                f"{block.x},{block.y},{block.z + 3.75},20,20,2.5,{dense},{gold},{block.zone}"]
    text = "\n".join(["XC,YC,ZC,XINC,YINC,ZINC,SG,AU,ZONE",
                      *(line for block in MINE for line in cut(block))]) + "\n"
    yield Export("sub-blocks with their sizes and a density", {"a.csv": text.encode()},
                 {**USUAL, "x": "XC", "y": "YC", "z": "ZC", "tonnes": "", "density": "SG",
                  "sub_size": "XINC,YINC,ZINC", "parents": "20,20,10"}, truth(kilograms=by_density),
                 rejected="extends beyond its parent along z", first={"parents": "20,20,5"})

    text = table("X\tY\tZ\tTONNES\tAU\tZONE", lambda b: "\t".join(usual(b)), end="\r\n")
    yield Export("UTF-16 of a spreadsheet", {"a.txt": text.encode("utf-16")}, USUAL, truth(),
                 message=("cells between tabs, UTF-16",))

    def feet(block: Block) -> str:
        factor = "" if block.density is None else f"{32.03694 / (block.density / 10000):.9f}"
        ounces = "" if block.grade is None else f"{block.grade / 1e6 / 34.2857142857:.12f}"
        place = f"{block.i * 25 + 5000},{block.j * 25 + 6000},{block.k * 20 + 1000}"
        return f"{place},{factor},{ounces},{block.zone}"
    text = table("EAST,NORTH,ELEV,FACTOR,OPT,ZONE", feet)
    cubic = 0.3048 ** 3 * 25 * 25 * 20
    yield Export("feet, a tonnage factor, ounces a short ton", {"a.csv": text.encode()},
                 {"x": "EAST ft", "y": "NORTH ft", "z": "ELEV ft", "density": "FACTOR ft3/st",
                  "grade": "OPT oz/st", "zone": ["ZONE"]},
                 truth(kilograms=lambda b: None if b.density is None else round(
                     b.density / 10000 * cubic * 1000 * 0.90718474 / 0.0283168466 / 32.03694),
                       place=lambda b: (1_524_000 + 7620 * b.i, 1_828_800 + 7620 * b.j,
                                        304_800 + 6096 * b.k)), within=(3, 2),
                 grid="1524,1828.8,304.8,7.62,7.62,6.096")

    text = table("EAST,NORTH,ELEV,SG,AU,ZONE",
                 lambda b: f"{b.i * 25 + 5000},{b.j * 25 + 6000},{b.k * 20 + 1000},"
                 f"{known(b.density, 4, '')},{known(b.grade, 6, '')},{b.zone}")
    yield Export("feet that stay", {"a.csv": text.encode()},
                 {"x": "EAST", "y": "NORTH", "z": "ELEV", "density": "SG", "grade": "AU",
                  "zone": ["ZONE"], "in_feet": True},
                 truth(kilograms=lambda b: None if b.density is None
                       else round(b.density / 10 * cubic),
                       place=lambda b: (1000 * (5000 + 25 * b.i), 1000 * (6000 + 25 * b.j),
                                        1000 * (1000 + 20 * b.k))), within=(1, 0),
                 grid="5000,6000,1000,25,25,20", message=("14 x 10 x 7 blocks of 25 x 25 x 20 ft",))

    text = table("X,Y,Z,TONS,CU,ZONE", lambda b: ",".join([*usual(b)[:4], "" if b.grade is None
                                                           else str(b.grade // 1_000_000), b.zone]))
    yield Export("short tons, and pounds a short ton", {"a.csv": text.encode()},
                 {**USUAL, "tonnes": "TONS st", "grade": "CU lb/st"},
                 truth(kilograms=lambda b: None if b.kilograms is None
                       else round(b.kilograms * 0.90718474), grade=lambda b: None if b.grade is None
                       else b.grade // 1_000_000 * 500_000_000), within=(1, 1))

    text = table("X,Y,Z,TONNES,AU,CU_PCT,ZONE",
                 lambda b: ",".join([*usual(b)[:5],
                                     "" if b.grade is None else dec(b.grade // 10, 6), b.zone]))
    yield Export("two metals, as an equivalent grade", {"a.csv": text.encode()},
                 {**USUAL, "grade": "(AU + CU_PCT*0.9)"},
                 truth(grade=lambda b: None if b.grade is None
                       else b.grade + round(b.grade // 10 * 0.9)), within=(0, 1))


def new_exports() -> Iterable[Export]:
    """The thirteen that came later."""
    def azimuth(block: Block) -> str:
        along, across = math.cos(math.radians(-40)), math.sin(math.radians(-40))
        x, y = block.x - 1000, block.y - 2000
        return ",".join([f"{1000 + x * along - y * across:.3f}",
                         f"{2000 + x * across + y * along:.3f}", *usual(block)[2:]])
    text = table("X,Y,Z,TONNES,AU,ZONE", azimuth)
    yield Export("turned, by the azimuth of +y", {"a.csv": text.encode()},
                 {**USUAL, "y_azimuth": 40, "about": "1000,2000", "blocks": f"{NX},{NY},{NZ}"},
                 truth(), message=(r"\+x at bearing 130, \+y at azimuth 40",),
                 rejected="the turn is a quarter off", first={"y_azimuth": None, "x_bearing": 40})

    luck = random.Random(3)
    part = {block[:3]: luck.choice([0, 0, 25, 50, 75, 100]) for block in MINE}
    text = table("X,Y,Z,ORE_PCT,SG_ORE,SG_WASTE,AU,ZONE",
                 lambda b: ",".join([*usual(b)[:3], str(part[b[:3]]) if b.density else "",
                                     known(b.density, 4, ""), "2.5" if b.density else "",
                                     known(b.grade, 6, ""), b.zone]))

    def both(block: Block) -> Optional[int]:
        share = part[block[:3]]
        return (None if block.density is None
                else block.density * 4 * share + 25000 * 4 * (100 - share))
    yield Export("a percent model", {"a.csv": text.encode()},
                 {**USUAL, "tonnes": "", "density": "SG_ORE", "waste_density": "SG_WASTE",
                  "ore_share": "ORE_PCT"},
                 truth(kilograms=both, grade=lambda b: None if b.grade is None
                       else round(b.grade * b.density * 4 * part[b[:3]] / both(b))), within=(1, 1),
                 message=("are part ore and part waste", "--ore-share is read as percent"))
    only_ore = truth(kilograms=lambda b: b.density * 4 * part[b[:3]] if b.density and part[b[:3]]
                     else None)
    yield Export("a percent model by its natural formula, which loses the waste",
                 {"a.csv": text.encode()}, {**USUAL, "tonnes": "ORE_PCT/100*SG_ORE*4000"}, only_ore,
                 within=(1, 0), message=("is only their ore counted",))

    text = table("X,Y,Z,AU,ZONE",
                 lambda b: ",".join([*usual(b)[:3], known(b.grade, 6, "-99"), b.zone]))
    yield Export("no density, so air has that of all", {"a.csv": text.encode()},
                 {**USUAL, "tonnes": "", "density": "2.65"}, truth(kilograms=lambda b: 10_600_000),
                 message=("every position of the box has rock, and most of the highest",))
    yield Export("no density, and air left out", {"a.csv": text.encode()},
                 {**USUAL, "tonnes": "", "density": "2.65", "where": ['ZONE != "air"']},
                 truth(kilograms=lambda b: None if b.zone == "air" else 10_600_000),
                 message=("rows by the filter",))

    text = table("X,Y,Z,SG,AU,ROCK,ZONE",
                 lambda b: ",".join([*usual(b)[:3], "-99" if b.rock == "OX" else "2.70",
                                     known(b.grade, 6, "-99"), b.rock, b.zone]))
    yield Export("rock whose density is -99, lost", {"a.csv": text.encode()},
                 {**USUAL, "tonnes": "", "density": "SG",
                  "where": ['ROCK != "AIR"', 'ROCK != "VOID"']},
                 truth(kilograms=lambda b: 10_800_000 if b.rock == "SU" else None),
                 message=(r"\d+ of them have a grade",))
    yield Export("rock whose density is -99, by its rock code", {"a.csv": text.encode()},
                 {**USUAL, "tonnes": "", "density": "SG", "density_by": "ROCK: OX=2.45",
                  "where": ['ROCK != "AIR" and ROCK != "VOID"']},
                 truth(kilograms=lambda b: {"SU": 10_800_000, "OX": 9_800_000}.get(b.rock)))

    def blanks(number: str) -> str:
        whole, point, rest = number.partition(".")
        return f"{int(whole):,}".replace(",", "\u00a0") + (point and "," + rest)
    text = table("X;Y;Z;TONNES;AU;ZONE",
                 lambda b: ";".join([*(blanks(cell) if cell else "" for cell in usual(b, "")[:5]),
                                     b.zone]))
    yield Export("no-break spaces between thousands", {"a.csv": text.encode()}, USUAL, truth(),
                 message=("no-break spaces", "decimal comma"))

    text = table("Östlich;Nördlich;Höhe;Tonnen;Gold;Zone",
                 lambda b: ";".join(usual(b, "")).replace(".", ","))
    yield Export("cp1252", {"a.csv": text.encode("cp1252")},
                 {"x": "östlich", "y": "nördlich", "z": "höhe", "tonnes": "tonnen", "grade": "gold",
                  "zone": ["zone"]}, truth(), message=("read as cp1252",))

    text = table('X,Y,Z,"Tonnes\n(t)","Au\n(g/t)",ZONE', lambda b: ",".join(usual(b)))
    yield Export("a line break in a header's cell", {"a.csv": text.encode()},
                 {**USUAL, "tonnes": "Tonnes", "grade": "au (g/t)"}, truth(),
                 message=("header in line 3",))

    text = table("X,Y,Z,TONNES,AU,ZONE", lambda b: ",".join(usual(b, "(99.00)")))
    yield Export("negatives in parentheses", {"a.csv": text.encode()}, USUAL, truth(),
                 message=(r"`\(99.00\)`",))

    text = "".join(" ".join(usual(b)) + "\n" for b in MINE)
    yield Export("no header", {"a.txt": text.encode()},
                 {**USUAL, "names": ["X", "Y", "Z", "TONNES", "AU", "ZONE"]}, truth(),
                 message=("no header",), rejected="--names", first={"names": ()})

    text = table("X,Y,Z,TONNES,AU,DOMAIN,OXIDATION",
                 lambda b: ",".join([*usual(b)[:5], "W" if b.i < 6 else "E",
                                     "ox" if b.rock == "OX" else "fr"]))
    side = truth(zone=lambda b: ("W" if b.i < 6 else "E") + "-"
                 + ("ox" if b.rock == "OX" else "fr"))
    yield Export("a zone of two columns", {"a.csv": text.encode()},
                 {**USUAL, "zone": ["DOMAIN", "OXIDATION"]}, side)
    mapped = "DOMAIN,OXIDATION,zone\n*,ox,oxide\nW,*,west\nE,*,east\n"
    yield Export("a zone by a table of two columns",
                 {"a.csv": text.encode(), "zones.csv": mapped.encode()},
                 {**USUAL, "zone": [], "zones": "zones.csv"}, truth())

    text = table("X,Y,Z,ROCK,AU,ZONE",
                 lambda b: ",".join([*usual(b)[:3], b.rock, known(b.grade, 6, "NA"), b.zone]))
    densities = "rock,density\nOX,2.45\nSU,2.75\n"
    yield Export("density by rock code, in a file",
                 {"a.csv": text.encode(), "d.csv": densities.encode()},
                 {**USUAL, "tonnes": "", "density_by": "d.csv"},
                 truth(kilograms=lambda b: {"SU": 11_000_000, "OX": 9_800_000}.get(b.rock)),
                 message=("without a density: `AIR`",))


def workbook(rows: Iterable[list], title: str, sheet: str = "Blocks") -> bytes:
    import openpyxl
    book = openpyxl.Workbook()
    book.active.title = "Read me"
    book.active.append(["made by a geologist"])
    page = book.create_sheet(sheet)
    page.append([title])
    for row in rows:
        page.append(row)
    message = io.BytesIO()
    book.save(message)
    return message.getvalue()


def further_exports() -> Iterable[Export]:
    """More kinds from the notes, and kinds that nobody named."""
    def cells(block: Block) -> list:
        return [block.x, block.y, block.z,
                None if block.kilograms is None else block.kilograms / 1000,
                "n.d." if block.grade is None else block.grade / 1e6, block.zone]
    rows = [["X", "Y", "Z", "TONNES", "AU", "ZONE"], *map(cells, MINE)]
    yield Export("a workbook, in its second sheet below a title",
                 {"a.xlsx": workbook(rows, "Deposit, March")}, {**USUAL, "missing": ["n.d."]},
                 truth(), message=("sheet `Blocks` of a workbook; header in line 2",))

    marks = ["-99", "", "n/a", "-1.0e30", "***", "#N/A"]
    text = table("X,Y,Z,TONNES,AU,ZONE", lambda b: ",".join(usual(b, marks[(b.i + b.j + b.k) % 6])))
    yield Export("several marks of what is missing", {"a.csv": text.encode()},
                 {**USUAL, "missing": ["***"]}, truth(), rejected=r"the column TONNES has `\*\*\*`",
                 first={"missing": []})

    lines = ["X,Y,Z,TONNES,AU,ZONE"]
    for block in MINE:
        if block.is_rock:
            first = block.kilograms // 3
            lines += [
                f"{block.x},{block.y},{block.z},{dec(mass, 3)},{known(block.grade, 6, '')},{zone}"
                for mass, zone in ((first, "dyke"), (block.kilograms - first, block.zone))]
    yield Export("several rows a block", {"a.csv": "\n".join(lines).encode()},
                 {**USUAL, "merge": True}, truth(), rejected="rows have the position of an earlier one, "
                 ".*: a.csv: line 3 .* parts of a block are summed up by --merge",
                 first={"merge": False})

    text = table("X,Y,Z,TONNES,AU,ZONE", lambda b: ",".join(usual(b)))
    holes = {(b.x * 1000, b.y * 1000, b.z * 1000): (0, 0) for b in MINE if b.rock == "VOID"}
    kept = truth()
    for place in holes:
        kept["west" if place[0] < 1_120_000 else "east"][place] = (0, 0)
    yield Export("holes below rock, kept", {"a.csv": text.encode()}, {**USUAL, "holes": True}, kept,
                 message=("kept with 0 tonnes: 3 holes",))

    text = table("X,Y,Z,SG,NSR,ZONE",
                 lambda b: ",".join([*usual(b)[:3], known(b.density, 4, ""), "" if b.grade is None
                                     else dec(b.grade // 10_000 * 40 - 500, 2), b.zone]))
    yield Export("a net smelter return", {"a.csv": text.encode()},
                 {**USUAL, "tonnes": "", "density": "SG", "grade": "NSR USD/t"},
                 truth(kilograms=by_density, grade=lambda b: None if b.grade is None
                       else max(0, (b.grade // 10_000 * 40 - 500) * 10_000)),
                 message=("kept with a return of 0",))

    text = table("XC,YC,ZC,TOPO,SG,AU,ZONE", lambda b: ",".join(
        [*usual(b)[:3], str((b.i * 7 + b.j) % 4 * 25 + 25) if b.rock == "OX" else "100",
         known(b.density, 4, "-99"), known(b.grade, 6, "-99"), b.zone]))
    yield Export("blocks cut by the topography, as a percent of rock", {"a.csv": text.encode()},
                 {**USUAL, "x": "XC", "y": "YC", "z": "ZC", "tonnes": "", "density": "SG",
                  "share": "TOPO %"},
                 truth(kilograms=lambda b: None if b.density is None else b.density * 4
                       * ((b.i * 7 + b.j) % 4 * 25 + 25 if b.rock == "OX" else 100)), within=(1, 0))


def own_exports() -> Iterable[Export]:
    """Kinds that nobody named."""
    text = table("X|Y|Z|TONNES|AU|ZONE", lambda b: "|".join(swiss(cell) for cell in usual(b)))
    yield Export("packed by gzip, bars, apostrophes between thousands",
                 {"a.csv.gz": gzip.compress(text.encode())}, USUAL, truth(),
                 message=("cells between bars", "thousands are separated by apostrophes"))

    head = ("xcentre,ycentre,zcentre,tonnes,au,zone\nVariable "
            "descriptions:,,,mass,gold,name\nVariable "
            "types:,double,double,double,double,name\nVariable defaults:,,,-99,-99,none")
    text = table(head, lambda b: ",".join(usual(b)))
    yield Export("three lines of descriptions below the header", {"a.csv": text.encode()},
                 {**USUAL, "x": "xcentre", "y": "ycentre", "z": "zcentre"}, truth(),
                 message=("3 between it and the first number omitted",))

    def corners(block: Block) -> str:
        edges = [f"{float(value):.5E}".replace("E", "D")
                 for value in (block.x - 10, block.x + 10, block.y - 10, block.y + 10, block.z - 5,
                               block.z + 5)]
        return "".join(cell.rjust(15) for cell in [*edges, *usual(block)[3:]])
    text = table("XMIN XMAX YMIN YMAX ZMIN ZMAX TONNES AU ZONE", corners)
    yield Export("corners with the exponents of Fortran, between blanks", {"a.txt": text.encode()},
                 {**USUAL, "x": "(XMIN+XMAX)/2", "y": "(YMIN+YMAX)/2", "z": "(ZMIN+ZMAX)/2"},
                 truth(), message=("cells between blanks",))

    order = sorted(MINE, key=lambda b: (b.i, b.j, b.k))
    text = table("IJK,TONNES,AU,ZONE",
                 lambda b: ",".join([str((b.i * NY + b.j) * NZ + b.k), *usual(b)[3:]]),
                 [b for b in order if b.is_rock])
    yield Export("one number for each block", {"a.csv": text.encode()},
                 {"i": f"IJK // {NY * NZ}", "j": f"IJK // {NZ} % {NY}", "k": f"IJK % {NZ}",
                  "index_from": 0, "first": "1000,2000,300", "size": "20,20,10", "tonnes": "TONNES",
                  "grade": "AU", "zone": ["ZONE"]}, truth())

    head = "X,Y,Z,TONNES,AU,ZONE"
    halves = [table(head, lambda b: ",".join(usual(b)), [b for b in MINE if (b.i < 6) == is_west])
              for is_west in (True, False)]
    packed = io.BytesIO()
    with zipfile.ZipFile(packed, "w") as archive:
        archive.writestr("both.csv", halves[0] + "\n" + halves[1] + f"Total,,,{12345},,\n")
    yield Export("two exports in one file and a line of totals, in a zip",
                 {"a.zip": packed.getvalue()}, USUAL, truth(),
                 message=("1 repeated headers", "1 lines after the last row"))

    def far(block: Block) -> str:
        return ",".join([single(512_345.678 + 20 * block.i), single(6_543_210.5 + 20 * block.j),
                         str(block.z), *usual(block)[3:]])
    text = table("EASTING,NORTHING,RL,TONNES,AU,ZONE", far)
    yield Export("coordinates of single precision, far from the origin",
                 {"a.bz2": bz2.compress(text.encode())},
                 {**USUAL, "x": "EASTING", "y": "NORTHING", "z": "RL"},
                 truth(place=lambda b: (512_345_688 + 20_000 * b.i, 6_543_210_500 + 20_000 * b.j,
                                        1000 * b.z)), grid="512345.688,6543210.5,300,20,20,10")

    text = table("X,Y,Z,TONNES,AU,ZONE",
                 lambda b: ",".join([*usual(b)[:3], "" if b.kilograms is None
                                     else f'"{b.kilograms // 1000:,}.{b.kilograms % 1000:03d}"',
                                     *usual(b)[4:]]))
    yield Export("commas between thousands, in quotes", {"a.csv": text.encode()}, USUAL, truth(),
                 message=("thousands are separated by commas",))

    halves = [table(head, lambda b: ",".join(usual(b)), [b for b in MINE if (b.i < 6) == is_west])
              for is_west in (True, False)]
    yield Export("a file for each side", {"a.csv": halves[0].encode(), "b.csv": halves[1].encode()},
                 USUAL, truth())


def swiss(cell: str) -> str:
    """1'234.5 for 1234.5."""
    whole, point, rest = cell.partition(".")
    return f"{int(whole):,}".replace(",", "'") + point + rest if whole.isdigit() else cell


def single(value: float) -> str:
    """Returns a number as single precision holds it."""
    import struct
    return repr(struct.unpack("f", struct.pack("f", value))[0])


def exports() -> list[Export]:
    """All of them."""
    return [*old_exports(), *new_exports(), *further_exports(), *own_exports()]
