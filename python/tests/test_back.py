"""Moves a pit back into the export: coordinates, the rows of exports, a report and sections."""
import csv
import re

import numpy as np
import openpyxl
import pytest

import mines
from pit_tools.cli import main

ROWS = [(x, y, z) for z in range(3) for y in range(3) for x in range(4) if (x, y, z) != (3, 2, 2)]

PLAN = """name,mine
grid,100,200,50,20,20,10
zone,1,1,3
zone,1,1,3
mill,mill,900,6000000,1500
leach,heap,6000000,600,0,400
dump,dump,200
periods,2
rate,0.1
resource,fleet,mill,heap,dump
"""


def tonnes_of(x, y, z):
    return 10800 + 10 * x + y


def grade_of(x, y, z):
    return 2.5 if (x, y) in ((1, 1), (2, 1)) and z < 2 else 0.15


def zone_texts():
    """Blocks of two zones, west and east of the middle."""
    texts = ["x,y,z,tonnes,grade\n", "x,y,z,tonnes,grade\n"]
    for x, y, z in ROWS:
        place = f"{100 + 20 * x},{200 + 20 * y},{50 + 10 * z}"
        texts[x > 1] += f"{place},{tonnes_of(x, y, z)},{grade_of(x, y, z)}\n"
    return texts


@pytest.fixture()
def base(tmp_path):
    return mines.compiled(tmp_path, PLAN, zone_texts())


def block_number(place):
    return sorted(ROWS, key=lambda one: one[::-1]).index(place)


def written(path, rows):
    with open(path, "w") as file:
        file.write("".join(row + "\n" for row in rows))
    return str(path)


def read(path):
    with open(path, newline="") as file:
        return list(csv.reader(file))


def test_blocks_come_back_to_their_centroids(base, tmp_path):
    block = block_number((2, 1, 0))
    schedule = written(tmp_path / "schedule", [f"{block} 1 1 0.25", f"{block} 1 2 0.75"])
    assert main(["back", base + ".plan", base, schedule, "--out", str(tmp_path / "out")]) == 0
    rows = read(tmp_path / "out")
    assert rows[0] == "x,y,z,block,tonnes,grade,zone,mined,period,destination,share".split(",")
    assert rows[1] == ["140", "220", "50", str(block), "10821", "2.5", "1", "1", "1", "heap",
                       "0.25"] and rows[2][-2:] == ["dump", "0.75"]
    pit = written(tmp_path / "pit", [str(block)])
    assert main(["back", base + ".plan", base, pit, "--all", "--out", str(tmp_path / "out")]) == 0
    rows = read(tmp_path / "out")
    assert len(rows) == 1 + len(ROWS) and [row[7] for row in rows[1:]].count("1") == 1 and rows[
        1][:4] == ["140", "220", "50", str(block)]


def test_a_row_of_two_blocks_has_the_mean_of_what_is_mined(base, tmp_path, monkeypatch):
    """A row 40 m long covers two blocks, of which one is mined."""
    monkeypatch.chdir(tmp_path)
    lines = ["XC,YC,ZC,XINC,YINC,ZINC,T,AU,ZONE", "110,200,50,40,20,10,21600,1,west"]
    lines += [f"{100 + 20 * x},{200 + 20 * y},{50 + 10 * z},20,20,10,10800,1,"
              f"{'west' if x < 2 else 'east'}"
              for x, y, z in ROWS if (x, y, z) not in ((0, 0, 0), (1, 0, 0))]
    written("wide.csv", lines)
    words = ["--x", "XC", "--y", "YC", "--z", "ZC", "--tonnes", "T", "--grade", "AU", "--zone",
             "ZONE", "--parents", "20,20,10"]
    assert main(["import", "wide.csv", *words, "--out", "wide"]) == 0
    pit = written("pit", [str(block_number((1, 0, 0))), str(block_number((2, 1, 0)))])
    assert main(["back", base + ".plan", base, pit, "--onto", "wide.json", "--out", "out.csv"]) == 0
    rows = read("out.csv")
    assert rows[1][-2:] == [str(block_number((0, 0, 0))), "0.5"]
    assert [row[:3] for row in rows[1:] if row[-1] == "1"] == [["140", "220", "50"]]
    first, second = block_number((0, 0, 0)), block_number((1, 0, 0))
    schedule = written("schedule", [f"{first} 0 0 0.5", f"{second} 1 0 1"])
    words = ["--onto", "wide.json", "--shares", "--out", "out.csv"]
    assert main(["back", base + ".plan", base, schedule, *words]) == 0
    rows = read("out.csv")
    assert rows[0][-6:] == ["block", "mined", "period", "destination", "share_0", "share_1"]
    assert rows[1][-5] == "0.75" and rows[1][-2:] == ["0.25", "0.5"]


def test_a_line_without_a_share_has_the_complete_block(base, tmp_path, capsys):
    split, whole = block_number((2, 1, 0)), block_number((0, 0, 2))
    schedule = written(tmp_path / "schedule",
                       [f"{split} 1 1 0.25", f"{split} 1 2 0.75", f"{whole} 0 2"])
    assert main(["back", base + ".plan", base, schedule, "--out", str(tmp_path / "out")]) == 0
    assert [row[-2:] for row in read(tmp_path / "out")[1:]] == [["heap", "0.25"], ["dump", "0.75"],
                                                                ["dump", "1"]]
    schedule = written(tmp_path / "schedule", [f"{split} 1 1 0.25", f"{whole} 0"])
    assert main(["back", base + ".plan", base, schedule, "--out", str(tmp_path / "out")]) == 2
    assert "line 2: it is not a line of a pit or a schedule" in capsys.readouterr().err


def export_of(kind):
    """The lines of an export with a title row of units, noise, or turned or cut in two, and
    the arguments of import."""
    words = ["--tonnes", "T", "--grade", "AU", "--zone", "ROCK", "--x", "XC", "--y", "YC", "--z",
             "ZC"]
    lines = ["HOLE;XC;YC;ZC;T;AU;ROCK"]
    for number, (x, y, z) in enumerate(reversed(ROWS)):
        rock = "east" if x > 1 else "a west"
        e, n, tonnes, parts = 100 + 20 * x, 200 + 20 * y, tonnes_of(x, y, z), [(0, 0)]
        if kind == "turned":
            angle = np.radians(30)
            e, n = (100 + 20 * x * np.cos(angle) - 20 * y * np.sin(angle),
                    200 + 20 * x * np.sin(angle) + 20 * y * np.cos(angle))
        if kind == "cut":
            parts, tonnes = [(-5, 0), (5, 0)], tonnes / 2
        for dx, dy in parts:
            lines.append(f"h{number};{e + dx:.2f};{n + dy:.2f};{50 + 10 * z};{tonnes};"
                         f"{grade_of(x, y, z)};{rock}")
    lines.append("air;100;200;80;-99;-99;east" if kind != "cut" else "air;95;200;80;-99;-99;east")
    turn = ["--x-bearing", "60", "--about", "100,200", "--size",
            "20,20,10"] if kind == "turned" else []
    return lines, words + turn + (["--parents", "20,20,10", "--corner", "90,190,45"]
                                  if kind == "cut" else [])


@pytest.mark.parametrize("kind, rows", [("plain", 1), ("turned", 1), ("cut", 2)])
def test_every_row_of_the_export_has_what_its_block_has(base, tmp_path, capsys, kind, rows):
    lines, words = export_of(kind)
    export = written(tmp_path / "export.csv", lines)
    assert main(["import", export, *words, "--out", str(tmp_path / "from")]) == 0
    places = [(1, 1, 0), (2, 1, 0), (1, 1, 1)]
    pit = written(tmp_path / "pit", [str(block_number(place)) for place in places])
    assert main(["back", base + ".plan", base, pit, "--onto", str(tmp_path / "from.json"), "--out",
                 str(tmp_path / "out")]) == 0
    assert (f"{len(lines) - 1:,} rows, of which {rows * len(ROWS):,} are "
            "blocks" in capsys.readouterr().out)
    message = (tmp_path / "out").read_text().splitlines()
    assert message[0] == lines[0] + ";block;mined"
    assert [line.rsplit(";", 2)[0] for line in message[1:]] == lines[1:]
    order = [place for place in reversed(ROWS) for _ in range(rows)]
    assert [line.rsplit(";", 2)[1:] for line in message[1:-1]] == [
        [str(block_number(place)), str(int(place in places))] for place in order]
    assert message[-1].endswith(";;")


def test_the_report_worked_out_manually(base, tmp_path, capsys):
    places = [(1, 1, 0), (1, 1, 1), (1, 1, 2), (0, 0, 2)]
    schedule = written(tmp_path / "schedule",
                       [f"{block_number(place)} {at // 3} {0 if place[2] < 2 else 2}"
                        for at, place in enumerate(places)])
    assert main(["report", base + ".plan", base, schedule]) == 0
    message = capsys.readouterr().out
    ore, waste = 2 * 10811, 10811 + 10800
    value = 2 * (10811 * 2.5 / 1000 * 0.9 * 60000 - 10811 * 15) - waste * 2
    assert re.search(rf"all +4 +{ore:,}\.0 +2\.5000 +{ore * 2.5 / 1000:.1f} "
                     rf"+{ore * 2.5 * 0.9 / 1000:.1f} +{waste:,}\.0 +1\.00 +{value:,.2f}\n", message)
    discounted = value + 10800 * 2 - 10800 * 2 / 1.1
    assert f"{discounted:,.2f}\n" in message
    assert "1 of 4 blocks are at a side, and 1 on the lowest bench" in message and re.search(
        "west +1 blocks", message)


def test_the_report_as_csv_and_workbook_has_the_numbers_of_the_text(base, tmp_path, capsys):
    """The value of the schedule above, worked out manually, headers with units, and the lines
    of the text."""
    places = [(1, 1, 0), (1, 1, 1), (1, 1, 2), (0, 0, 2)]
    lines = [f"{block_number(place)} {at // 3} {0 if place[2] < 2 else 2}"
             for at, place in enumerate(places)]
    schedule = written(tmp_path / "schedule", lines)
    words = ["report", base + ".plan", base, schedule, "--out", "report.csv",
             "--out", "report.xlsx"]
    with pytest.MonkeyPatch.context() as patched:
        patched.chdir(tmp_path)
        assert main(words) == 0
        message = capsys.readouterr().out
        first = (tmp_path / "report.xlsx").read_bytes()
        assert main(words) == 0 and (tmp_path / "report.xlsx").read_bytes() == first
        with open("report.csv", encoding="utf-8") as file:
            rows = list(csv.DictReader(file))
        book = openpyxl.load_workbook("report.xlsx")
        openpyxl.Workbook().save("report.xlsx")
        assert main(words) == 2 and "another kind than `workbook`" in capsys.readouterr().err
    value = 2 * (10811 * 2.5 / 1000 * 0.9 * 60000 - 10811 * 15) - 2 * (10811 + 10800)
    every = [row for row in rows if (row["part"], row["name"]) == ("period", "all")][0]
    assert float(every["value (100 cents)"]) == pytest.approx(value, abs=0.01)
    discounted = value + 10800 * 2 - 10800 * 2 / 1.1
    assert float(every["discounted value (100 cents)"]) == pytest.approx(discounted, abs=0.01)
    names = ("ore (t)", "waste (t)", "grade (g/t)", "strip ratio (t/t)")
    assert [every[name] for name in names] == ["21622", "21611", "2.5", "0.9995"]
    heights = [(row["name"], row["z (m)"]) for row in rows if row["part"] == "bench"]
    assert heights == [("2", "70"), ("1", "60"), ("0", "50"), ("all", "")]
    # Each number of the text is in the table, and each of the table in its sheet.
    cells = (cell for row in rows for cell in row.values())
    numbers = {float(cell) for cell in cells if re.fullmatch(r"-?[0-9.]+", cell)}
    for text in re.findall(r" (-?[0-9,]+\.[0-9]+)(?= |\n)", message):
        number, places = float(text.replace(",", "")), len(text.rpartition(".")[2])
        assert any(abs(number - one) <= 0.51 * 10**-places for one in numbers), text
    assert book.sheetnames == ["benches", "destinations", "periods", "sides"]
    for sheet, part in zip(book, ("bench", "destination", "period", "side")):
        head, *cells = sheet.iter_rows(values_only=True)
        wanted = [row for row in rows if row["part"] == part]
        assert [str(row[0]) for row in cells] == [row["name"] for row in wanted]
        assert sheet.freeze_panes == "A2" and set(head[1:]) <= set(rows[0])
        for row, line in zip(cells, wanted):
            for name, cell in list(zip(head, row))[1:]:
                text = line[name]
                assert text == "" if cell is None else float(text) == pytest.approx(cell)


def test_the_empty_pit_is_reported(base, tmp_path, capsys):
    none = written(tmp_path / "none", [])
    assert main(["report", base + ".plan", base, none, "--out", str(tmp_path / "a.csv")]) == 0
    assert re.search(r"all +0 +0\.0 +0\.0000", capsys.readouterr().out)
    assert (tmp_path / "a.csv").read_text().splitlines()[1] == "bench,all,,0,0,0,0,0,0,,0"


def test_shares_by_period_are_on_the_rows_of_the_export(base, tmp_path, capsys):
    """A block over two periods and two destinations, one complete, and rows of two blocks."""
    lines, words = export_of("plain")
    export = written(tmp_path / "export.csv", lines)
    assert main(["import", export, *words, "--out", str(tmp_path / "from")]) == 0
    split, whole = block_number((2, 1, 0)), block_number((0, 0, 2))
    lines = [f"{split} 0 0 0.125", f"{split} 1 0 0.5", f"{split} 1 2 0.25", f"{whole} 0 2"]
    schedule, onto = written(tmp_path / "schedule", lines), ["--onto", str(tmp_path / "from.json")]
    words = ["back", base + ".plan", base, schedule, *onto, "--shares"]
    assert main([*words, "--out", str(tmp_path / "out")]) == 0
    with open(tmp_path / "out", newline="") as file:
        rows = list(csv.DictReader(file, delimiter=";"))
    names = ("mined", "period", "share_0", "share_1")
    message = {row["block"]: [row[name] for name in names] for row in rows}
    assert message[str(split)] == ["0.875", "1", "0.125", "0.75"]
    assert message[str(whole)] == ["1", "0", "1", "0"]
    assert message[""] == [""] * 4
    assert sum(row[0] != "0" for row in message.values()) == 3
    pit = written(tmp_path / "pit", [str(split)])
    for mined, more, wanted in ((pit, onto, "a pit has none"), (schedule, [], "requires --onto")):
        assert main(["back", base + ".plan", base, mined, "--shares", *more]) == 2
        assert wanted in capsys.readouterr().err


def test_sections_are_drawn(base, tmp_path):
    pit = written(tmp_path / "pit", ["17"])
    for ending, begin in (("png", b"\x89PNG"), ("svg", b"<?xml"), ("pdf", b"%PDF")):
        out = tmp_path / f"section.{ending}"
        assert main(["survey", base + ".plan", base, "--section", "y=221", "--pit", f"{pit}=some", "--out",
                     str(out)]) == 0
        assert out.read_bytes().startswith(begin)
    first = (tmp_path / "section.svg").read_bytes()
    main(["survey", base + ".plan", base, "--section", "y=221", "--pit", f"{pit}=some", "--out",
          str(tmp_path / "section.svg")])
    assert (tmp_path / "section.svg").read_bytes() == first


@pytest.mark.parametrize("change", [lambda lines: lines[:-2], lambda lines: [*lines, "air;1;2;3"]])
def test_an_export_that_was_changed_since_is_rejected(base, tmp_path, capsys, change):
    lines, words = export_of("plain")
    export = written(tmp_path / "export.csv", lines)
    assert main(["import", export, *words, "--out", str(tmp_path / "from")]) == 0
    pit = written(tmp_path / "pit", ["1"])
    onto = ["back", base + ".plan", base, pit, "--onto", str(tmp_path / "from.json"), "--out",
            str(tmp_path / "out")]
    written(tmp_path / "export.csv", change(lines))
    assert main(onto) == 2 and not (tmp_path / "out").exists()
    assert "export.csv: it is not, or is no longer, the file from which" in capsys.readouterr().err
    written(tmp_path / "export.csv", lines)
    assert main(onto) == 0


def test_mined_blocks_without_a_row_are_reported(base, tmp_path, capsys):
    """An export of a part of the blocks, as when an instance is made from two."""
    lines, words = export_of("plain")
    export = written(tmp_path / "export.csv", lines[:1] + lines[3:])
    assert main(["import", export, *words, "--out", str(tmp_path / "from")]) == 0
    pit = written(tmp_path / "pit", [str(number) for number in range(len(ROWS))])
    capsys.readouterr()
    assert main(["back", base + ".plan", base, pit, "--onto", str(tmp_path / "from.json"), "--out",
                 str(tmp_path / "out")]) == 0
    assert capsys.readouterr().out.endswith("; 2 mined blocks have no row\n")


@pytest.mark.parametrize("words, message", [
    (["survey", "{plan}", "{base}", "--section", "y=999", "--out", "a.png"], "blocks are from 200 to 240 m"),
    (["survey", "{plan}", "{base}", "--out", "a.bmp"], "must end with one of"),
    (["back", "{plan}", "{base}", "{bad}"], "line 2: it is not a line of a pit or a schedule"),
    (["report", "{plan}", "{base}", "{bad}"], "line 2: it is not a line of a pit or a schedule"),
    (["back", "{plan}", "{base}", "{good}", "--onto", "{good}"],
     "not what `pit-tools import` writes")])
def test_what_is_wrong_is_reported_in_a_line(base, tmp_path, capsys, words, message):
    names = dict(plan=base + ".plan", base=base, bad=written(tmp_path / "bad", ["1", "99"]),
                 good=written(tmp_path / "good", ["1"]))
    assert main([word.format(**names) for word in words]) == 2
    error = capsys.readouterr().err
    assert message in error and error.count("\n") == 1
