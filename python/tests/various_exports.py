"""More kinds of exports of the mine of `exports`: ways to write a text, numbers, positions,
masses and zones; files that are no export; and what a resource report alone can show."""
from __future__ import annotations

import io
import random
import zipfile
from typing import Callable, Iterable

from exports import MINE, USUAL, Block, Export, dec, known, table, truth, usual
from preset_exports import azimuth, chunks, rows_of, shown, upright

HEAD = "X,Y,Z,TONNES,AU,ZONE"
ROWS = [usual(block) for block in MINE]
PLAIN = table(HEAD, lambda b: ",".join(usual(b)))
ROCK = [block for block in MINE if block.is_rock]
TONNES = sum(b.kilograms for b in ROCK) / 1000
GRADED = [block for block in ROCK if block.grade is not None]


def of_rows(rows: Iterable[Iterable[str]], header: str = HEAD, end: str = "\n") -> dict[str, bytes]:
    return {"a.csv": (header + end + "".join(",".join(row) + end for row in rows)).encode()}


def with_cell(at: int, change: Callable[[str], str]) -> list[list[str]]:
    """The rows with a column changed if it is known."""
    return [[*row[:at], change(row[at]) if row[at] != "-99" else "-99", *row[at + 1:]]
            for row in ROWS]


def written_exports() -> Iterable[Export]:
    """Ways to write the same text."""
    def again(name: str, content: bytes, message: tuple[str, ...] = (), **words) -> Export:
        return Export(name, {"a.csv": content}, {**USUAL, **words}, truth(), message=message)
    yield again("tabs, and quotes about each cell", "".join(
        "\t".join(f'"{cell}"' for cell in row) + "\r\n" for row in [HEAD.split(","), *ROWS]).encode())
    yield again("a byte order mark", b"\xef\xbb\xbf" + PLAIN.encode())
    yield again("UTF-16 without a mark, the higher byte first", PLAIN.encode("utf-16-be"))
    yield again("CR alone behind each line", PLAIN.replace("\n", "\r").encode())
    yield again("blank lines between benches", "".join(
        line + ("\n\n" if number % 140 == 0 else "\n")
        for number, line in enumerate(PLAIN.splitlines())).encode())
    yield again("a title of three lines", b"Model of May\nby a geologist\n\n" + PLAIN.encode())
    yield again("a row of dashes below the header",
                PLAIN.replace("\n", "\n----,----,----,------,--,----\n", 1).encode())
    yield again("blanks about cells", PLAIN.replace(",", " , ").encode())
    yield again("columns of equal width", "".join(
        "".join(cell.rjust(14) for cell in row) + "\n" for row in [HEAD.split(","), *ROWS]).encode())
    yield again("semicolons and decimal points", PLAIN.replace(",", ";").encode())
    yield again("names in another case", PLAIN.replace(HEAD, "x,y,z,tonnes,au,zone").encode())
    yield again("other columns, with commas in quotes", table(
        HEAD.replace("AU", '"NOTE, of whom",AU'), lambda b: ",".join(
            [*usual(b)[:4], '"seen, logged"', *usual(b)[4:]])).encode())
    yield Export("a zone with a comma and quotes", {"a.csv": PLAIN.replace(
        "west", '"west, ""upper"""').encode()}, USUAL,
        truth(zone=lambda b: b.zone.replace("west", 'west, "upper"')))
    yield Export("Cyrillic zones in UTF-8", {"a.csv": PLAIN.replace("west", "Запад").encode()}, USUAL,
                 truth(zone=lambda b: b.zone.replace("west", "Запад")))
    yield Export("a comment below the header", {"a.csv": PLAIN.replace(
        "\n", "\n# exported in May\n", 1).encode()}, USUAL, {}, rejected="line 2 has 1 cells")
    yield Export("a line of words at the end", {"a.csv": (PLAIN + "End of file\n").encode()}, USUAL, {},
                 rejected="line 982 has 1 cells.*`End of file` is a heading between rows, .* remove such")
    yield Export("a quote that is never closed", {"a.csv": PLAIN.replace(
        "oxide", '"oxide', 1).encode()}, USUAL, {}, rejected=r"(?i)quot|EOF inside string")


def no_exports() -> Iterable[Export]:
    """Files that are no table of blocks."""
    def none(name: str, content: bytes, rejected: str, file: str = "a.csv", **words) -> Export:
        return Export(name, {file: content}, {**USUAL, **words}, {}, rejected=rejected)
    archive = io.BytesIO()
    with zipfile.ZipFile(archive, "w") as packed:
        packed.writestr("mimetype", "application/vnd.oasis.opendocument.spreadsheet")
        packed.writestr("content.xml", "<office:document-content/>")
    yield none("an OpenDocument sheet", archive.getvalue(), "OpenDocument.*save it as .xlsx or as CSV")
    several = io.BytesIO()
    with zipfile.ZipFile(several, "w") as packed:
        packed.writestr("a.csv", PLAIN)
        packed.writestr("b.csv", PLAIN)
    yield none("an archive of two exports", several.getvalue(), "the archive has 2 files: unpack it")
    yield none("a workbook of the old kind", b"\xd0\xcf\x11\xe0" + bytes(600), "save it as .xlsx or as CSV")
    yield none("a page of HTML", ("<html><body><table><tr><td>X</td></tr>\n" * 9).encode(),
               "it is an HTML page.*save it as .xlsx or as CSV")
    yield none("a PDF", b"%PDF-1.7\n1 0 obj\n<< /Type /Catalog >>\nendobj\n", "it is a PDF")
    yield none("a DXF", b"  0\nSECTION\n  2\nENTITIES\n  0\n3DFACE\n", "it is a DXF")
    yield none("JSON", b'{"blocks": [{"x": 1000, "y": 2000, "z": 300}]}\n', "it is JSON")
    yield none("an empty file", b"", "it has no text")
    yield none("a header alone", (HEAD + "\n").encode(), "there is no row|no row below the header")
    yield none("a column that is not there", PLAIN.encode(), "no column `CU`", grade="CU")
    yield Export("a column by the beginning of its name", {"a.csv": PLAIN.replace("AU", "AU_PPM", 1).encode()},
                 {**USUAL, "grade": "AU_PPM"}, truth(), rejected="no column `AU`; is it `AU_PPM`",
                 first={"grade": "AU"})
    yield none("two columns of one name", table(HEAD.replace("AU", "AU,AU"), lambda b: ",".join(
        [*usual(b)[:5], *usual(b)[4:]])).encode(), "(?i)2 columns|twice|several columns|two columns")
    yield none("a file cut in the middle of a row", PLAIN[:30_000].rpartition(",")[0].encode(),
               "cells, but the header 6: .*is the file cut short")


def number_exports() -> Iterable[Export]:
    """Numbers as people and programs write them."""
    def again(name: str, rows: list[list[str]], message: tuple[str, ...] = (), **words) -> Export:
        return Export(name, of_rows(rows), {**USUAL, **words}, truth(), message=message)

    def exponent(cell: str) -> str:
        return f"{float(cell):.9E}"
    yield again("exponents", with_cell(3, exponent))
    yield again("no digit before the point", with_cell(4, lambda cell: cell.lstrip("0") or "0"))
    yield again("points without a digit behind, and signs of plus",
                with_cell(0, lambda cell: f"+{cell}."))
    vast = "-1.797693134862316E+308"
    yield Export("the least number for what is not known", of_rows(
        [[vast if cell == "-99" else cell for cell in row] for row in ROWS]),
        {**USUAL, "missing": [vast]}, truth(), rejected="means a missing value, give --missing",
        first={"missing": []})
    for mark in ("NaN", "1.#QNAN", "-999.25", "-1e+30", "null", "-"):
        yield again(f"{mark} for what is not known",
                    [[mark if cell == "-99" else cell for cell in row] for row in ROWS])
    yield Export("n.s. for what is not known", of_rows(
        [["n.s." if cell == "-99" else cell for cell in row] for row in ROWS]),
        {**USUAL, "missing": ["n.s."]}, truth(), rejected="`n.s.`: if it means a missing value, "
        "give --missing 'n.s.'", first={"missing": []})
    yield Export("1e31 for what is not known", of_rows(
        [["1e31" if cell == "-99" else cell for cell in row] for row in ROWS]),
        {**USUAL, "missing": ["1e31"]}, truth(), rejected="mean a missing value .--missing",
        first={"missing": []})
    yield Export("a grade below the limit as <0.02", of_rows(
        [[*row[:4], "<0.02" if row[4] == "-99" and row[3] != "-99" else row[4], row[5]] for row in ROWS]),
        {**USUAL, "missing": ["<0.02"]}, truth(), rejected="`<0.02`: if it means nothing, give "
        "--missing '<0.02'", first={"missing": []})
    yield again("a grade below the limit as -0.01", [
        [*row[:4], "-0.01" if row[4] == "-99" and row[3] != "-99" else row[4], row[5]] for row in ROWS])
    yield again("0 t for air", [[*row[:3], "0" if row[3] == "-99" else row[3], *row[4:]] for row in ROWS],
                message=("of these 3 are below rock with a tonnes of 0",))
    yield Export("points between thousands and a decimal comma", {"a.csv": table(
        HEAD.replace(",", ";"), lambda b: ";".join([f"{b.x:,}".replace(",", "."), *usual(b)[1:3],
                                                    german(usual(b)[3]), german(usual(b)[4]), b.zone])
    ).encode()}, USUAL, truth(), message=("decimal comma",))
    wrong = [list(row) for row in ROWS]
    for name, cell in (("a letter in a number", "1O93.5"), ("an apostrophe before a number", "'1000"),
                       ("money", "$4.20"), ("a number of two points", "1.2.3")):
        odd = [list(row) for row in wrong]
        odd[40][3] = cell
        yield Export(name, of_rows(odd), USUAL, {}, rejected=f"line 42.*TONNES has `{cell}".replace(
            "$", r"\$"))


def german(cell: str) -> str:
    whole, _, rest = cell.partition(".")
    return (f"{int(whole):,}".replace(",", ".") + "," + rest) if rest else cell


def placed_exports() -> Iterable[Export]:
    """Where blocks are."""
    shuffled = list(ROWS)
    random.Random(4).shuffle(shuffled)
    yield Export("rows in no order", of_rows(shuffled), USUAL, truth(
        sorted(MINE, key=lambda b: shuffled.index(usual(b)))))
    yield Export("ore alone", of_rows([usual(b) for b in GRADED]), USUAL, truth(GRADED),
                 message=("LOOK AT\n.*positions below a block have none",))
    yield Export("rows without a grade left out, with a report", of_rows([usual(b) for b in GRADED]),
                 USUAL, {}, expected=(f"{TONNES:.0f} t",),
                 rejected="the total has tonnes of .*, but the model")
    yield Export("coordinates below 0", of_rows(
        [[str(int(row[0]) - 5000), str(int(row[1]) - 9000), str(int(row[2]) - 900), *row[3:]]
         for row in ROWS]), USUAL, truth(place=lambda b: (
             1000 * (b.x - 5000), 1000 * (b.y - 9000), 1000 * (b.z - 900))),
        grid="-4000,-7000,-600,20,20,10")
    yield Export("blocks of 7.5 x 12.5 x 2.5 m", of_rows(
        [[f"{1000 + 7.5 * b.i}", f"{2000 + 12.5 * b.j}", f"{300 + 2.5 * b.k}",
          known(b.kilograms and b.kilograms // 16, 3, "-99"), *usual(b)[4:]] for b in MINE]), USUAL, truth(
        kilograms=lambda b: b.kilograms and b.kilograms // 16,
        place=lambda b: (1_000_000 + 7500 * b.i, 2_000_000 + 12_500 * b.j, 300_000 + 2500 * b.k)),
        grid="1000,2000,300,7.5,12.5,2.5", message=("blocks of 7.5 x 12.5 x 2.5 m",))
    bench = [b for b in ROCK if b.k == 2]
    yield Export("a bench alone", of_rows([usual(b) for b in bench]), {**USUAL, "size": "20,20,10"},
                 truth(bench), grid="1000,2000,320,20,20,10", rejected="z.*--size", first={"size": ""})
    yield Export("least corners in place of centroids", {"a.csv": table(
        "XMIN,YMIN,ZMIN,TONNES,AU,ZONE", lambda b: ",".join(
            [str(b.x - 10), str(b.y - 10), str(b.z - 5), *usual(b)[3:]])).encode()},
        {**USUAL, "x": "XMIN+10", "y": "YMIN+10", "z": "ZMIN+5"}, truth(),
        rejected="XMIN, YMIN, ZMIN seem to be edges of blocks.*--x 'XMIN \\+ 10'",
        first={"x": "XMIN", "y": "YMIN", "z": "ZMIN"})
    least, most = (dec(1000 * end(b.x for b in ROCK), 3) for end in (min, max))
    yield Export("the same where names tell nothing, with extents in a report", {
        **of_rows([[str(b.x - 10), str(b.y - 10), str(b.z - 5), *usual(b)[3:]] for b in MINE]),
        "report.csv": f"tonnes,x min,x max\n{TONNES:.0f},{least},{most}\n".encode()}, USUAL, {},
        rejected="the total has x m.* of .*, but the model .*10.00")
    yield Export("a northing that is named so as x", {"a.csv": table(
        "NORTHING,EASTING,RL,TONNES,AU,ZONE", lambda b: ",".join(usual(b))).encode()},
        {**USUAL, "x": "NORTHING", "y": "EASTING", "z": "RL"}, truth(),
        message=("LOOK AT\n.*x is NORTHING and y EASTING",))
    turned = rows_of("X,Y,Z,XINC,YINC,ZINC,TONNES,AU,ZONE", lambda p: (
        f"{shown(azimuth(35)(p.at))},{shown(p.size)},{p.cells}"), chunks())
    yield Export("turned, with sizes, and --parents without a bearing", {"a.csv": turned},
                 {**USUAL, "parents": "20,20,10", "y_azimuth": 35, "about": "990,1990",
                  "corner": "990,1990,295"}, truth(), rejected="Neighbours are at bearings 35.* and 125",
                 first={"y_azimuth": None, "about": ""})
    dips = rows_of("X,Y,Z,XINC,YINC,ZINC,TONNES,AU,ZONE", lambda p: (
        f"{shown(leaning(p.at))},{shown(p.size)},{p.cells}"), chunks())
    yield Export("dipping, with sizes, and --parents", {"a.csv": dips},
                 {**USUAL, "parents": "20,20,10"}, {}, rejected="the model dips")
    yield Export("kilometres", of_rows(
        [[dec(b.x, 3), dec(b.y, 3), dec(b.z, 3), *usual(b)[3:]] for b in MINE]),
        {**USUAL, "x": "X km", "y": "Y km", "z": "Z km"}, truth(), rejected="are lengths in kilometres",
        first={"x": "X", "y": "Y", "z": "Z"})


def leaning(at: tuple) -> tuple:
    """Turned by 30 degrees about the corner's y axis."""
    x, z = at[0] - 990, at[2] - 295
    return (990 + x * 3 ** 0.5 / 2 + z / 2, at[1], 295 - x / 2 + z * 3 ** 0.5 / 2)


def mass_exports() -> Iterable[Export]:
    """Masses, and what a report shows of them."""
    metal = sum(b.kilograms * (b.grade or 0) for b in ROCK) / 1e9
    expected = (f"{TONNES:.0f} t at {metal / TONNES:.5f} g/t",)

    def beside(name: str, rows: list[list[str]], rejected: str, header: str = HEAD, **words) -> Export:
        return Export(name, of_rows(rows, header), {**USUAL, **words}, {}, expected=expected,
                      rejected=rejected)
    yield Export("a right model beside its report", of_rows(ROWS), USUAL, truth(), expected=expected,
                 message=("compared with --expect",))
    yield beside("parts a billion without a name, beside a report",
                 with_cell(4, lambda cell: f"{float(cell) * 1000:.3f}"), "parts per billion read as g/t")
    yield beside("feet as metres, with a density, beside a report", [
        [f"{b.x / 0.3048:.3f}", f"{b.y / 0.3048:.3f}", f"{b.z / 0.3048:.3f}", known(b.density, 4, "-99"),
         *usual(b)[4:]] for b in MINE], "lengths in feet read as metres", tonnes="", density="TONNES")
    yield beside("short tons beside a report", with_cell(
        3, lambda cell: f"{float(cell) / 0.90718474:.3f}"), "short tons read as tonnes")
    yield beside("a density that is too high beside a report", with_cell(
        3, lambda cell: f"{float(cell) * 1.08:.3f}"), r"\+8.0. %")
    yield beside("a filter that leaves out a zone, beside a report", ROWS, "rows are omitted by --where",
                 where=['ZONE != "oxide"'])
    yield Export("kilograms a cubic metre read as tonnes", of_rows(
        [[*usual(b)[:3], known(b.density and b.density // 10, 0, "-99"), *usual(b)[4:]] for b in MINE]),
        {**USUAL, "tonnes": "", "density": "TONNES"}, {}, rejected="is a density in kg/m3")
    yield Export("pounds a cubic foot", of_rows(
        [[*usual(b)[:3], "-99" if b.density is None else f"{b.density / 1e4 * 62.42796058:.8f}",
          *usual(b)[4:]] for b in MINE]), {**USUAL, "tonnes": "", "density": "TONNES lb/ft3", "x": "X m"},
        truth(kilograms=lambda b: b.density and b.density * 400), within=(1, 0),
        rejected="in lb/ft3, but the lengths have no unit: .* 'X m' if they are", first={"x": "X"})
    yield Export("metal in place of a grade", {"a.csv": table(HEAD.replace("AU", "AU_KG"), lambda b: ",".join(
        [*usual(b)[:4], "" if b.grade is None or not b.is_rock else dec(b.grade * b.kilograms // 10 ** 6, 6),
         b.zone])).encode()}, {**USUAL, "grade": "AU_KG"}, {}, rejected="seems to be metal in kg, not a grade")
    yield Export("densities read as tonnes", of_rows(
        [[*usual(b)[:3], known(b.density, 4, "-99"), *usual(b)[4:]] for b in MINE]),
        {**USUAL, "tonnes": "", "density": "TONNES"}, truth(kilograms=lambda b: b.density and b.density * 400),
        rejected="are they densities. Give --density", first={"tonnes": "TONNES", "density": ""})


def zone_exports() -> Iterable[Export]:
    """Zones."""
    yield Export("zones by numbers with and without a point", of_rows(
        [[*row[:5], {"west": "1", "east": "2.0", "oxide": "1.0", "air": "0"}[row[5]]] for row in ROWS]),
        USUAL, truth(zone=lambda b: {"west": "1", "east": "2", "oxide": "1"}[b.zone]))
    def by_case(block: Block) -> str:
        return block.zone.upper() if block.k % 2 else block.zone
    yield Export("zones that differ by case", of_rows([[*usual(b)[:5], by_case(b)] for b in MINE]), USUAL,
                 truth(zone=by_case), message=("LOOK AT\n- zones .* differ only by case",))
    yield Export("a number for each block as its zone", of_rows(
        [[*row[:5], str(number)] for number, row in enumerate(ROWS)]), USUAL, {},
        rejected="zones, as .* are more than the 64 of a plan: is it the column of zones")
    yield Export("tonnes without a zone", of_rows(
        [[*row[:5], "" if number % 9 == 0 else row[5]] for number, row in enumerate(ROWS)]), USUAL, {},
        rejected="it has tonnes but no zone")


def various_exports() -> list[Export]:
    """All of them."""
    return [one for kind in (written_exports, no_exports, number_exports, placed_exports, mass_exports,
                             zone_exports) for one in kind()]
