"""Exports of the mine of `exports` as `--package` reads them: with sizes of sub-blocks, turned
and dipping. Their coordinates are turned here, without the package."""
from __future__ import annotations

import math
from typing import Callable, Iterable, NamedTuple

from exports import MINE, NX, NY, NZ, Block, Export, dec, known, table, truth, usual

# The corner of the mine.
CORNER = (990.0, 1990.0, 295.0)

CONTENTS = {"tonnes": "TONNES", "grade": "AU", "zone": ["ZONE"]}


class Chunk(NamedTuple):
    """A block or a part of one: its centroid along the model's own axes, its sizes, and its
    cells."""

    block: Block
    at: tuple[float, float, float]
    size: tuple[float, float, float]
    cells: str


def chunks(is_cut: Callable[[Block], bool] = lambda b: (b.i + b.j) % 3 == 0,
           none: str = "-99") -> list[Chunk]:
    """Rock in complete blocks, or in eight parts each if it is cut."""
    found = []
    for block in (b for b in MINE if b.is_rock):
        if not is_cut(block):
            found.append(Chunk(block, (block.x, block.y, block.z), (20, 20, 10),
                               ",".join(usual(block, none)[3:])))
            continue
        for number in range(8):
            mass = block.kilograms // 8 + (number < block.kilograms % 8)
            at = (block.x + (-5, 5)[number % 2], block.y + (-5, 5)[number // 2 % 2],
                  block.z + (-2.5, 2.5)[number // 4])
            found.append(Chunk(block, at, (10, 10, 5),
                               f"{dec(mass, 3)},{known(block.grade, 6, none)},{block.zone}"))
    return found


def azimuth(degrees: float) -> Callable[[tuple], tuple]:
    """Turns a point about the corner so that the model's +y has this azimuth."""
    along, across = math.cos(math.radians(degrees)), math.sin(math.radians(degrees))

    def turned(at: tuple) -> tuple:
        x, y = at[0] - CORNER[0], at[1] - CORNER[1]
        return (CORNER[0] + x * along + y * across, CORNER[1] - x * across + y * along, at[2])
    return turned


def upright(at: tuple) -> tuple:
    """A quarter turn about the corner's x: the model's +y points down, and its +z to +y."""
    y, z = at[1] - CORNER[1], at[2] - CORNER[2]
    return (at[0], CORNER[1] + z, CORNER[2] - y)


def local(at: tuple) -> tuple:
    """Along the model's own axes from its corner."""
    return tuple(value - start for value, start in zip(at, CORNER))


def shown(values: Iterable[float]) -> str:
    return ",".join(f"{value:.3f}" for value in values)


def rows_of(header: str, row: Callable[[Chunk], str], found: Iterable[Chunk]) -> bytes:
    return "\n".join([header, *map(row, found), ""]).encode()


def ijk(block: Block) -> int:
    return (block.i * NY + block.j) * NZ + block.k


ONCE = "990,1990,295,14,10,7"


def datamine_exports() -> Iterable[Export]:
    package = {"package": "datamine", **CONTENTS}
    head = "IJK,XC,YC,ZC,XINC,YINC,ZINC,XMORIG,YMORIG,ZMORIG,NX,NY,NZ,TONNES,AU,ZONE"
    plain = rows_of(head, lambda p: f"{ijk(p.block)},{shown(p.at)},{shown(p.size)},{ONCE},{p.cells}",
                    chunks(none="-"))
    yield Export("preset Datamine, sub-blocks", {"a.csv": plain}, package, truth(),
                 message=("--package datamine means --x 'XC' .*--parents '20,20,10'",),
                 rejected="give --x, --y and --z", first={"package": ""})
    yield Export("preset Datamine, recognised", {"a.csv": plain},
                 {**CONTENTS, "x": "XC", "y": "YC", "z": "ZC", "parents": "20,20,10"}, truth(),
                 message=("the header is like Datamine's: --package datamine",),
                 rejected="--parents.*the header is like Datamine's", first={"parents": ""})

    head = ("XC,YC,ZC,XINC,YINC,ZINC,XMORIG,YMORIG,ZMORIG,X0,Y0,Z0,ANGLE1,ANGLE2,ANGLE3,ROTAXIS1,"
            "ROTAXIS2,ROTAXIS3,TONNES,AU,ZONE")

    def turned(angles: str, axes: str) -> bytes:
        return rows_of(head, lambda p: f"{shown(local(p.at))},{shown(p.size)},0,0,0,"
                       f"990,1990,295,{angles},{axes},{p.cells}", chunks())
    yield Export("preset Datamine, turned, sub-blocks", {"a.csv": turned("30,0,0", "3,1,0")},
                 package, truth(), message=("--y-azimuth '30.0'", r"\+x at bearing 120"))
    dips = {"a.csv": turned("90,0,0", "1,0,0")}
    deep = truth(place=lambda b: tuple(round(1000 * value)
                                       for value in upright((b.x, b.y, b.z))))
    yield Export("preset Datamine, dipping", dips, {**package, "regularise": "20,10,20"}, deep,
                 within=(1, 1), message=("spread over level ones",), grid="1000,1995,105,20,10,20",
                 rejected="the model dips, by turns of x 90.*--regularise", first={"regularise": ""})

    head = "IJK,XINC,YINC,ZINC,XMORIG,YMORIG,ZMORIG,NX,NY,NZ,TONNES,AU,ZONE"
    text = rows_of(head, lambda p: f"{ijk(p.block)},{shown(p.size)},{ONCE},{p.cells}", chunks())
    yield Export("preset Datamine, IJK and no XC", {"a.csv": text}, package, truth(),
                 message=(r"--i 'IJK // 70'",))
    indices = {"i": f"IJK // {NY * NZ}", "j": f"IJK // {NZ} % {NY}", "k": f"IJK % {NZ}",
               "index_from": 0, "first": "1000,2000,300", "size": "20,20,10", **CONTENTS}
    yield Export("the same by words", {"a.csv": text}, {**indices, "parents": "20,20,10"}, truth(),
                 rejected="--parents X,Y,Z", first={"parents": ""})
    twice = rows_of(head, lambda p: f"{ijk(p.block)},{shown(p.size)},{ONCE},{p.cells}",
                    [*chunks(), *chunks()[:9]])
    yield Export("the same, with rows twice", {"a.csv": twice}, {**indices, "parents": "20,20,10"},
                 {}, rejected="more than (the complete block|their volume)")

    head = "XC,YC,ZC,XWORLD,YWORLD,ZWORLD,XINC,YINC,ZINC,TONNES,AU,ZONE"
    turn = azimuth(50)
    text = rows_of(head, lambda p: f"{shown(p.at)},{shown(turn(p.at))},{shown(p.size)},{p.cells}",
                   chunks())
    yield Export("preset Datamine, own and world coordinates", {"a.csv": text},
                 package, truth(), message=("--y-azimuth '50.0'",))


def vulcan_exports() -> Iterable[Export]:
    package = {"package": "vulcan", "tonnes": "tonnes", "grade": "au", "zone": ["zone"]}
    below = ("\nVariable descriptions:,,,,,,mass,gold,name\nVariable types:,double,double,double,"
             "double,double,double,double,name\nVariable defaults:,,,,,,-99,-99,none")
    head = "centroid_x,centroid_y,centroid_z,dim_x,dim_y,dim_z,tonnes,au,zone"
    text = rows_of(head + below, lambda p: f"{shown(p.at)},{shown(p.size)},{p.cells}",
                   chunks(lambda block: False))
    yield Export("preset Vulcan, one size", {"a.csv": text}, package, truth(),
                 message=("--size '20,20,10'",))
    text = rows_of(head + below, lambda p: f"{shown(p.at)},{shown(p.size)},{p.cells}", chunks())
    yield Export("preset Vulcan, sub-blocks", {"a.csv": text}, {**package, "parents": "20,20,10"},
                 truth(), rejected="rows have sizes up to 20, 20, 10, but Vulcan does not write.*"
                 "--parents", first={"parents": ""})
    turn = azimuth(25)
    text = rows_of(head + below, lambda p: f"{shown(turn(p.at))},{shown(p.size)},{p.cells}",
                   chunks())
    yield Export("preset Vulcan, turned, sub-blocks", {"a.csv": text},
                 {**package, "parents": "20,20,10", "x_bearing": 115, "about": "990,1990",
                  "corner": "990,1990,295"}, truth(),
                 rejected="Neighbours are at bearings 25.* and 115", first={"x_bearing": None,
                                                                            "about": ""})
    head = "xworld,yworld,zworld,xcentre,ycentre,zcentre,xlength,ylength,zlength,tonnes,au,zone"
    text = rows_of(head, lambda p: f"{shown(turn(p.at))},{shown(local(p.at))},{shown(p.size)},"
                   f"{p.cells}", chunks())
    yield Export("preset Vulcan, own and world coordinates", {"a.csv": text},
                 {**package, "parents": "20,20,10"}, truth(), message=("--y-azimuth '25.0'",))


def surpac_exports() -> Iterable[Export]:
    package = {"package": "surpac", **CONTENTS}
    head = "Y,X,Z,_y_size,_x_size,_z_size,TONNES,AU,ZONE"

    def above(rotation: str) -> str:
        return ("Block model summary,mine.mdl\nType,Y,X,Z\nMinimum Coordinates,1990,990,295\n"
                "Maximum Coordinates,2190,1270,365\nUser Block Size,20,20,10\nMin. Block Size,10,"
                f"10,5\nRotation,{rotation}\n")

    def row(chunk: Chunk, turn: Callable = lambda at: at) -> str:
        x, y, z = turn(chunk.at)
        return f"{y:.3f},{x:.3f},{z:.3f},{shown(chunk.size)},{chunk.cells}"
    text = above("0.000,0.000,0.000").encode() + rows_of(head, row, chunks(none="null"))
    yield Export("preset Surpac, a summary above", {"a.csv": text}, package, truth(),
                 message=("--corner '990,1990,295' .*--parents '20,20,10'",))
    text = above("35.000,0.000,0.000").encode() + rows_of(
        head, lambda p: row(p, azimuth(35)), chunks())
    yield Export("preset Surpac, turned, sub-blocks", {"a.csv": text}, package, truth(),
                 message=("--y-azimuth '35.0'",))
    text = above("0,0,0").encode() + rows_of(head, row, chunks(lambda block: True))
    yield Export("preset Surpac, all parents cut", {"a.csv": text}, package, truth(),
                 message=("--parents '20,20,10'",))
    text = rows_of(head, row, chunks())
    yield Export("preset Surpac, nothing above", {"a.csv": text}, package, truth(),
                 message=("--parents '20,20,10'",))


def leapfrog_exports() -> Iterable[Export]:
    package = {"package": "leapfrog", **CONTENTS}
    head = "X,Y,Z,dx,dy,dz,TONNES,AU,ZONE"

    def above(angles: str) -> str:
        return ("# Leapfrog Geo block model\n# Base point: 990, 1990, 295\n# Parent block size: "
                f"20, 20, 10\n# Size in blocks: 14, 10, 7\n# {angles}\n")

    def text(angles: str, turn: Callable, found: Iterable[Chunk]) -> dict[str, bytes]:
        return {"a.csv": above(angles).encode() + rows_of(
            head, lambda p: f"{shown(turn(p.at))},{shown(p.size)},{p.cells}", found)}
    yield Export("preset Leapfrog, sub-blocks", text("Azimuth: 0, Dip: 0, Pitch: 0", lambda at: at,
                                                     chunks(none="blank")), package, truth(),
                 message=("--parents '20,20,10'",))
    turned = text("Azimuth: 60.0 degrees, Dip: 0, Pitch: 0", azimuth(60), chunks())
    yield Export("preset Leapfrog, turned, sub-blocks", turned, package, truth(),
                 message=("--y-azimuth '60.0'", "--about '990,1990'"))
    yield Export("the same without the word", turned,
                 {**CONTENTS, "x": "X", "y": "Y", "z": "Z"}, {},
                 rejected="Neighbours are at bearings 60.* and 150.*the header is like Leapfrog's")
    dips = text("Azimuth: 0, Dip: 90, Pitch: 0", upright, chunks())
    yield Export("preset Leapfrog, dipping", dips, {**package, "regularise": "20,10,20"},
                 truth(place=lambda b: tuple(round(1000 * value)
                                             for value in upright((b.x, b.y, b.z)))),
                 within=(1, 1), grid="1000,1995,105,20,10,20",
                 rejected="the model dips, by turns of x 90", first={"regularise": ""})
    off = text("Azimuth: 10, Dip: 33, Pitch: 0", azimuth(60), chunks())
    yield Export("preset Leapfrog, a turn that is not that of its rows", off,
                 {**package, "regularise": "20,20,10"}, {},
                 rejected="rows are not adjacent by the turn above the header")


def micromine_exports() -> Iterable[Export]:
    package = {"package": "micromine", **CONTENTS}
    head = "EAST,NORTH,RL,_EAST,_NORTH,_RL,TONNES,AU,ZONE"

    def text(found: Iterable[Chunk], turn: Callable = lambda at: at, names: str = head) -> dict:
        return {"a.csv": rows_of(names, lambda p: f"{shown(turn(p.at))},{shown(p.size)},{p.cells}",
                                 found)}
    yield Export("preset Micromine, sub-blocks", text(chunks(none="-")), package, truth(),
                 message=("--parents '20,20,10'",))
    yield Export("preset Micromine, one size", text(chunks(lambda block: False)), package, truth(),
                 message=("--size '20,20,10'",))
    yield Export("preset Micromine, turned, sub-blocks", text(chunks(), azimuth(70)),
                 {**package, "y_azimuth": 70, "about": "990,1990", "corner": "990,1990,295"},
                 truth(), rejected="Neighbours are at bearings 70.* and 160",
                 first={"y_azimuth": None, "about": "", "corner": ""})
    yield Export("preset Micromine, x and _x", text(chunks(), names=head.replace(
        "EAST", "X").replace("NORTH", "Y").replace("RL", "Z")), package, truth())


def deswik_exports() -> Iterable[Export]:
    package = {"package": "deswik", **CONTENTS}
    head = ('"X Centroid","Y Centroid","Z Centroid","X Size","Y Size","Z Size",TONNES,AU,ZONE\n'
            "m,m,m,m,m,m,t,g/t,")
    text = rows_of(head, lambda p: f"{shown(p.at)},{shown(p.size)},{p.cells}", chunks())
    yield Export("preset Deswik, sub-blocks and a row of units", {"a.csv": text}, package, truth(),
                 message=("1 between it and the first number",))
    head = '"Centroid X (m)","Centroid Y (m)","Centroid Z (m)",SizeX,SizeY,SizeZ,TONNES,AU,ZONE'
    text = rows_of(head, lambda p: f"{shown(p.at)},{shown(p.size)},{p.cells}", chunks())
    yield Export("preset Deswik, units in brackets", {"a.csv": text}, package, truth())
    head = ("XC,YC,ZC,XINC,YINC,ZINC,XMORIG,YMORIG,ZMORIG,X0,Y0,Z0,ANGLE1,ROTAXIS1,TONNES,AU,ZONE")

    def row(chunk: Chunk, angle: int) -> str:
        return (f"{shown(local(chunk.at))},{shown(chunk.size)},0,0,0,990,1990,295,{angle},3,"
                f"{chunk.cells}")
    yield Export("preset Deswik, turned", {"a.csv": rows_of(head, lambda p: row(p, 15), chunks())},
                 package, truth(), message=("--y-azimuth '15.0'",))
    yield Export("preset Deswik, two frames in one export",
                 {"a.csv": rows_of(head, lambda p: row(p, 15 if p.block.i < 7 else 40), chunks())},
                 package, {}, rejected="ANGLE1 has 15 and 40")
    head = "TONNES,AU,ZONE"
    yield Export("preset of another package", {"a.csv": table("X1,Y1,Z1," + head,
                                                              lambda b: ",".join(usual(b))).encode()},
                 package, {}, rejected="no column .* of Deswik")


def larger_exports() -> Iterable[Export]:
    """Blocks that are regularised to larger ones."""
    def rows(found: list[Block]) -> dict:
        sums: dict = {}
        for block in found:
            key = (block.i // 2, block.j // 2, block.k // 2)
            sums.setdefault(key, []).append(block)
        made: dict = {}
        for (i, j, k), parts in sums.items():
            mass = sum(b.kilograms for b in parts)
            metal = sum(b.kilograms * (b.grade or 0) for b in parts)
            zones: dict = {}
            for b in parts:
                zones[b.zone] = zones.get(b.zone, 0) + b.kilograms
            made.setdefault(max(zones, key=zones.get), {})[
                (1010 + 40 * i) * 1000, (2010 + 40 * j) * 1000, (305 + 20 * k) * 1000] = (
                    mass, round(metal / mass))
        return made
    rock = [b for b in MINE if b.is_rock]
    text = table("X,Y,Z,TONNES,AU,ZONE", lambda b: ",".join(usual(b)))
    words = {"x": "X", "y": "Y", "z": "Z", **CONTENTS, "regularise": "40,40,20"}
    yield Export("regularised to twice the size", {"a.csv": text.encode()}, words, rows(rock),
                 within=(1, 1), grid="1010,2010,305,40,40,20",
                 message=("sub-blocks are .* blocks: tonnes summed, grades by tonnes",))
    sub = rows_of("X,Y,Z,XINC,YINC,ZINC,TONNES,AU,ZONE",
                  lambda p: f"{shown(p.at)},{shown(p.size)},{p.cells}", chunks())
    yield Export("sub-blocks regularised to twice the parents", {"a.csv": sub}, words, rows(rock),
                 within=(1, 1), grid="1010,2010,305,40,40,20")

    # Blocks of 30 m along x over those of 20 m: each second one is cut in the middle.
    halves: dict = {}
    for block in rock:
        if block.zone != "air":
            for half in (0, 1):
                key = ((2 * block.i + half) // 3, block.j, block.k)
                mass = block.kilograms // 2 + (half == 0 and block.kilograms % 2)
                halves.setdefault(key, []).append((mass, block.grade or 0))
    cut = {"all": {((1005 + 30 * i) * 1000, (2000 + 20 * j) * 1000, (300 + 10 * k) * 1000):
                   (sum(mass for mass, _ in parts),
                    round(sum(mass * grade for mass, grade in parts) / sum(m for m, _ in parts)))
                   for (i, j, k), parts in halves.items()}}
    yield Export("regularised across borders", {"a.csv": text.encode()},
                 {**words, "regularise": "30,20,10", "zone": []}, cut, within=(1, 1),
                 grid="1005,2000,300,30,20,10", message=("parts by volume",))


def preset_exports() -> list[Export]:
    """All of them."""
    return [one for kind in (datamine_exports, vulcan_exports, surpac_exports, leapfrog_exports,
                             micromine_exports, deswik_exports, larger_exports) for one in kind()]
