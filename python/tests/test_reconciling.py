"""A resource report compared with an import: what agrees, what stops with which cause, and what
is rejected.

The mine has two zones of cubes of 10 m. In `west` 60 blocks have 2,700 t at 2.0 g/t; in `east`
40 blocks have 2,500 t at 1.0 g/t. So the true values, worked out manually, are: west 162,000
t, 324 kg of gold; east 100,000 t, 100 kg; in all 262,000 t at 1.618321 g/t."""
from __future__ import annotations

import json
import os
import re
from functools import partial

import pytest

import mines
from pit_tools.cli import main
from pit_tools.errors import UserError
from pit_tools.exports.words import Words
from pit_tools.imports import placing
from pit_tools.imports.blocks import cut_zones
from pit_tools.imports.record import read_imported
from pit_tools.imports.steps import Wanted, import_export
from pit_tools.instances.valuation import blocks_of
from pit_tools.inventories.holdings import holdings_of
from pit_tools.plans.zone_files import read_zone_files
from pit_tools.surveys.box import Inputs, box
from pit_tools.surveys.facts import read_facts
from pit_tools.texts.units import Measures

WORDS = {"x": "X", "y": "Y", "z": "Z", "tonnes": "T", "grade": "AU", "zone": ["ZONE"]}
OUNCES = 324_000 / 31.1034768

TRUE = "zone,tonnes,grade (g/t),metal (kg)\nwest,162000,2,324\neast,100000,1,100\ntotal,262000,1.618,424\n"


def rows_of(change=lambda row: row):
    """The rows of the export, each changed: x, y, z, tonnes, gold, copper, zone."""
    rows = [[10 * (at // 2 % 5), 10 * (at // 10), 10 * (at % 2),
             *((2700, 2.0, 0.5, "west") if at < 60 else (2500, 1.0, 0.5, "east"))]
            for at in range(100)]
    return [row for row in map(change, rows) if row]


def written(folder, rows, name="export.csv"):
    lines = ["X,Y,Z,T,AU,CU,ZONE", *(",".join(map(str, row)) for row in rows)]
    (folder / name).write_text("\n".join(lines) + "\n")


def reconciled(folder, report, rows=None, expected=(), tolerance=1.0, **words):
    """The import of rows with a report."""
    written(folder, rows or rows_of())
    reports = []
    if report:
        (folder / "report.csv").write_text(report)
        reports = ["report.csv"]
    os.chdir(folder)
    return import_export(["export.csv"], Words(**{**WORDS, **words}),
                         Wanted(reports, expected, tolerance))


def error_of(folder, report, rows=None, **more):
    """What `judge` prints, and that nothing is written."""
    found = reconciled(folder, report, rows, **more)
    with pytest.raises(UserError) as stopped:
        found.write("from")
    assert not [name for name in os.listdir(folder) if name.startswith("from")]
    return str(stopped.value)


@pytest.mark.parametrize("report", [
    TRUE,
    "DOMAIN;Tonnage (kt);AU (g/t);Contained metal (oz)\n"
    f"West;162,0;2,00;{324000 / 31.1034768:.1f}\nEast;100,0;1,00;3215.1\n".replace(".", ","),
    "Resources of May\n\nZone\tTonnes [Mt]\tMean grade ppm\tVolume (m3)\tBlocks\n"
    "west\t0.162\t2\t60000\t60\neast\t0.100\t1\t40000\t40\n",
    'zone,cut-off,tonnes,grade,metal\nwest,0,"162,000 t",2 g/t,10.417 koz\n,1.5,162 kt,2 g/t,324 kg\n',
    "zone,tonnes,grade oz/st,x min,x max,ymin,max y\nwest,178574 st,0.058333,-5,45,0,50\n",
    "tonnes,grade\n262000,1.618\n"], ids=["plain", "semicolons", "title", "in cells", "extents",
                                          "total alone"])
def test_a_right_report_agrees(report, tmp_path):
    found = reconciled(tmp_path, report)
    found.reconciliation.judge()
    assert found.write("from") == ["from-west.csv", "from-east.csv"]
    assert len(found.reconciliation.differences) >= 2


def test_words_mean_the_same(tmp_path):
    found = reconciled(tmp_path, "", expected=["west: 162 kt at 2 g/t, 10.42 koz", "0.262 Mt",
                                               "east: 100 kt at 1.0 g/t above 0.5 g/t"])
    found.reconciliation.judge()
    assert [one.percent for one in found.reconciliation.differences][:2] == ["+0.00 %", "+0.00 %"]


def scaled(at, factor, zone=None):
    return lambda row: [cell * factor if number == at and zone in (None, row[6]) else cell
                        for number, cell in enumerate(row)]


#: A mistake, its form in the export or the arguments, and the report on it. The true values are
#: TRUE.
WRONG = [
    ("kilotonnes", scaled(3, 0.001), {}, "kilotonnes read as tonnes: --tonnes 'COLUMN kt'"),
    ("short tons", scaled(3, 1 / 0.90718474), {}, "short tons read as tonnes: --tonnes 'COLUMN st'"),
    ("tonnes as short tons", None, {"tonnes": "T st"}, "tonnes read as short tons"),
    ("parts a billion", scaled(4, 1000), {}, "west has grade of .* parts per billion read as g/t"),
    ("percent", scaled(4, 0.0001), {}, "percent read as g/t: --grade 'COLUMN %'"),
    ("ounces a tonne", scaled(4, 1 / 31.1034768), {}, "ounces per tonne read as g/t"),
    ("ounces a short ton", scaled(4, 1 / 34.285718), {}, "ounces per short ton read as g/t"),
    ("ounces a tonne, twice", None, {"grade": "AU oz/tonne"}, "that is 31.1 times the report"),
    ("one zone in another unit", scaled(4, 0.001, "east"), {},
     "report.csv: line 3: east has grade of 1.0000 g/t, but the model 0.0010"),
    ("zones exchanged", lambda row: [*row[:6], {"west": "east", "east": "west"}[row[6]]], {},
     "zone east has that, so zones are exchanged"),
    ("half of the rows", lambda row: row if row[1] % 20 == 0 else None, {},
     "half of the rows, or blocks of half the size"),
    ("a density of all rock", scaled(3, 1.2), {}, r"west has tonnes .*\+20.00 % east, the total"),
    ("rows left out", lambda row: [*row[:3], -99 if row[0] < 20 else row[3], *row[4:]], {},
     "24 rows of west are omitted, since they have no tonnes"),
    ("rows of a filter", None, {"where": ["X > 10"]}, "40 rows are omitted by --where"),
    ("a missing second metal", lambda row: [*row[:5], -99 if row[0] < 20 else 0.0, row[6]],
     {"grade": "AU*(58+CU*82)/58"}, "a second metal: CU is missing in 24 rows"),
    ("a zone that is lost", lambda row: [*row[:3], -99 if row[6] == "east" else row[3], *row[4:]], {},
     "east has tonnes of 100,000 t, but the model 0, -100.00 %: 40 rows of east are omitted"),
]


@pytest.mark.parametrize("change, words, message", [one[1:] for one in WRONG],
                         ids=[one[0] for one in WRONG])
def test_a_wrong_mine_stops_with_its_zone_and_cause(change, words, message, tmp_path):
    error = error_of(tmp_path, TRUE, rows_of(change) if change else None, **words)
    assert re.search(message, error), error
    assert error.startswith("report.csv: line ")


def test_a_report_in_kilotonnes_is_reported(tmp_path):
    error = error_of(tmp_path, "zone,tonnes\nwest,162\n")
    assert "west has tonnes of 162 t, but the model 162,000, x 1,000: that is 1,000 times" in error
    assert "or a report in kilotonnes" in error


def test_blocks_of_another_size_are_reported_by_their_volume(tmp_path):
    report = "zone,tonnes,volume (m3)\nwest,162000,120000\n"
    assert "half of the rows, or blocks of half the size" in error_of(tmp_path, report)


def test_a_mirrored_mine_is_reported_by_its_extents(tmp_path):
    report = "zone,tonnes,xmin,xmax,ymin,ymax\nwest,162000,0,40,0,50\n"
    reconciled(tmp_path, report).reconciliation.judge()
    error = error_of(tmp_path, report, x="Y", y="X")
    assert "west has x max of 40.00, but the model 50.00, +10.00" in error


def test_rock_without_a_grade_that_the_report_leaves_out_is_no_difference(tmp_path):
    """A package counts no block without a grade; here a fifth of each zone has none."""
    rows = rows_of(lambda row: [*row[:4], -99 if row[0] == 0 else row[4], *row[5:]])
    found = reconciled(tmp_path, "zone,tonnes,grade\nwest,129600,2\neast,80000,1\n", rows)
    found.reconciliation.judge()
    assert "west: the report counts no rock without a grade, 12 rows" in found.report.text()


def test_the_tolerance_and_the_digits_of_the_report(tmp_path):
    reconciled(tmp_path, "", expected=["west: 163.6 kt"]).reconciliation.judge()
    assert "+1.25 %" in error_of(tmp_path, "", expected=["west: 160 kt"], tolerance=0.9)
    reconciled(tmp_path, "", expected=["west: 160 kt"], tolerance=2).reconciliation.judge()
    reconciled(tmp_path, "", expected=["west: 0.16 Mt"], tolerance=0).reconciliation.judge()


@pytest.mark.parametrize("report, message", [
    ("zone,tonnes\nwst,1\n", "line 2, column zone: no zone `wst`: the zones are west, east; is it west?"),
    ("zone,tonnes (tn)\nwest,1\n", r"line 1, column tonnes \(tn\): `tn` is not a known unit of tonnes"),
    ("zone,tonnes,grade\nwest,162000,2 grains\n", "line 2, column grade: `grains` is not a known unit of grade"),
    ("zone,grade\nwest,2\n", "line 1: no column is `tonnes`"),
    ("zone,tonnes\nwest,\n", "line 2, column tonnes: the tonnes are missing"),
    ("zone,tonnes\nwest,many\n", "line 2, column tonnes: `many` is not a number"),
    ("zone,tonnes,metal\nwest,162000,324\n", "line 2, column metal: the unit is missing"),
    ("zone,tonnes (mt)\nwest,162\n", "line 1, column tonnes .*`mt` has two meanings"),
    ("zone,tonnes\nwest,1\nwest,2\n", "line 3: west has a row already in report.csv: line 2"),
    ("zone,tonnes,tonnage\nwest,1,1\n", "tonnes is already the column of tonnes"),
    ("zone,tonnes\n", "no row follows the header"), ("", "it is empty"),
    ("zone,tonnes\nwest,\"162,000\"\n", "`162,000` is a number with a decimal comma, or with a comma"),
    ("zone,tonnes\nwest," + " " * 3000 + "1" + " " * 3000 + "x\n", "is not a number")])
def test_a_report_that_is_not_understood_is_rejected_by_its_place(report, message, tmp_path):
    (tmp_path / "report.csv").write_text(report)
    with pytest.raises(UserError, match=message):
        if report:
            reconciled(tmp_path, report)
        else:
            written(tmp_path, rows_of())
            os.chdir(tmp_path)
            import_export(["export.csv"], Words(**WORDS), Wanted(["report.csv"]))


@pytest.mark.parametrize("text, message", [("west", "`west` is not a number"), ("x: 1 t", "no zone `x`"),
                                           ("west: 1 t at 2", "unit"), ("west: 1 furlong", "unit"),
                                           (": 1 Mt", "no zone precedes the colon"),
                                           (" : 1 Mt", "no zone precedes the colon"),
                                           ("west: -3 Mt", "the tonnes `-3 Mt` is below 0"),
                                           ("west: (3) Mt", "the tonnes `.3. Mt` is below 0"),
                                           ("3 t at -2 g/t", "the grade `-2 g/t` is below 0")])
def test_words_that_are_not_understood_are_rejected(text, message, tmp_path):
    if message == "unit" and text.endswith("2"):
        found = reconciled(tmp_path, "", expected=[text])
        assert "unit used: grade in g/t, since the report states none" in found.report.text()
        return
    with pytest.raises(UserError, match=message):
        reconciled(tmp_path, "", expected=[text])


def test_without_a_report_the_table_is_printed_and_what_was_not_compared_is_reported_once(tmp_path):
    rows = rows_of(lambda row: [*row[:3], -99 if row[0] == 0 and row[6] == "west" else row[3],
                                "n.d." if row[0] == 10 else row[4], *row[5:]])
    text = reconciled(tmp_path, "", rows, missing=["n.d."]).report.text()
    table = {line.split()[0]: " ".join(line.split()) for line in text.splitlines() if line.split()}
    # 48 blocks of west remain, 12 of them at grade 0; east has 40, of which 8 are at grade 0.
    assert re.search(r"(?m)^west +48 +129,600\.0 +1\.5000 +194\.4 +48,000 +2\.700 +12 +12$", text)
    assert re.search(r"(?m)^east +40 +100,000\.0 +0\.8000 +80\.0 +40,000 +2\.500 +0 +8$", text)
    assert re.search(r"(?m)^all +88 +229,600\.0 +1\.1951 +274\.4 +88,000 +2\.609 +12 +20$", text)
    assert "missing in T: 12 cells: `-99` in west 12" in text
    assert "missing in AU: 20 cells: `n.d.` in west 12, east 8" in text
    assert text.count("nothing was compared") == 1 and table["east"].startswith("east 0.00 to 40.00")


def test_parents_are_compared_by_the_zones_of_their_sub_blocks(tmp_path):
    """Each parent of 20 m has equal parts of cubes of `thin` and of `west`, and is of the
    first."""
    rows = rows_of(lambda row: [*row[:6], "thin" if row[1] == 0 else row[6]])
    report = "zone,tonnes,grade\nthin,27000,2\nwest,135000,2\ntotal,262000,1.618\n"
    found = reconciled(tmp_path, report, rows, parents="20,20,10", corner="-5,-5,-5",
                       volume="1000 + 0*T")
    found.write("from")
    kept = json.loads((tmp_path / "from.json").read_text())["reconciled"]
    assert kept["written"]["thin"][1:] == [54000, 108000] and len(kept["rows"]) == 3
    assert kept["written"]["west"][1:] == [108000, 216000]


def doubled(row):
    """Two cubes of a pair above one another as one row of twice the height."""
    return None if row[2] else [*row[:2], 5, row[3] * 2, *row[4:]]


@pytest.mark.parametrize("words, rows, blocks", [
    ({"parents": "10,10,10", "sub_size": "10+0*T,10+0*T,20+0*T"}, rows_of(doubled), (30, 20)),
    ({"regularise": "10,10,10", "sub_size": "10+0*T,10+0*T,20+0*T"}, rows_of(doubled), (30, 20)),
    ({"parents": "20,20,10", "corner": "-5,-5,-5", "volume": "1000 + 0*T"}, rows_of(), (60, 40)),
    ({}, rows_of(), (60, 40))], ids=["cut", "cut by volume", "summed up", "in several files"])
def test_blocks_of_a_report_are_rows_of_the_export(words, rows, blocks, tmp_path, monkeypatch):
    """A package counts each of its blocks once, of whatever size; their parts do not count,
    and what the instance has after summing up or cutting is not compared with that."""
    monkeypatch.setattr(placing, "cut_zones", partial(cut_zones, most=8))
    report = (f"zone,tonnes,blocks\nwest,162000,{blocks[0]}\neast,100000,{blocks[1]}\n"
              f"total,262000,{sum(blocks)}\n")
    found = reconciled(tmp_path, report, rows, **words)
    found.reconciliation.judge()
    assert sum(one.figure == "blocks" for one in found.reconciliation.differences) == 3
    assert re.search(rf"(?m)^west +{blocks[0]} ", found.report.text())
    paths = found.write("from")
    assert len(paths) > 2
    read = read_imported("from.json")
    table = blocks_of(read.grid, read_zone_files(paths))
    held = holdings_of(table, read.reconciled.names(read.zones), read.grid)
    read.reconciled.judge(held, Measures(), "from")
    lines = read.reconciled.lines(held, Measures())
    assert not [line for line in lines if "within 1 %" in line and "imported" in line]
    assert any("blocks were compared by import" in line for line in lines) == bool(words)
    assert any(re.match(r"west +- +blocks", line) for line in lines) != bool(words)


PLAN = ["plan", "from.json", "--out", "mine.plan", "--name", "mine", "--price", "58 USD/g", "--mill",
        "recovery 92 %, cost 16 USD/t", "--dump", "cost 2 USD/t", "--slope", "45"]


def planned(folder, capsys):
    written(folder, rows_of())
    (folder / "report.csv").write_text(TRUE)
    words = "import export.csv --x X --y Y --z Z --tonnes T --grade AU --zone ZONE --out from"
    assert main([*words.split(), "--reconcile", "report.csv"]) == 0
    assert main(PLAN) == 0
    return capsys.readouterr().out


def test_plan_compares_and_prints_what_zones_are_worth(tmp_path, monkeypatch, capsys):
    monkeypatch.chdir(tmp_path)
    text = planned(tmp_path, capsys)
    # A tonne of west is worth 2 x 0.92 x 58 - 16 = 90.72, of east 0.92 x 58 - 16 = 37.36.
    assert re.search(r"(?m)^west +162,000 +2\.0000 +162,000 +2\.0000 +14,696,640\.00$", text)
    assert re.search(r"(?m)^east +100,000 +1\.0000 +100,000 +1\.0000 +3,736,000\.00$", text)
    path = tmp_path / "from-west.csv"
    path.write_text(path.read_text().replace(",2700,", ",2970,"))
    (tmp_path / "mine.plan").unlink()
    assert main([*PLAN, "--edited"]) == 2
    assert "zone files: west has tonnes of 162,000 t, but the model 178,200" in capsys.readouterr().err
    assert not (tmp_path / "mine.plan").exists()


def test_the_survey_compares_and_shows_the_report_in_its_box(tmp_path, monkeypatch, capsys):
    monkeypatch.chdir(tmp_path)
    planned(tmp_path, capsys)
    plan = (tmp_path / "mine.plan").read_text()
    west, east = ((tmp_path / f"from-{zone}.csv").read_text() for zone in ("west", "east"))
    mines.quickly_compiled(tmp_path, plan, [west, east])
    lines = next(entry.lines for entry in box(read_facts("mine.plan", "mine"),
                                              Inputs("mine.plan", "mine"))
                 if entry.name == "reconciled")
    assert any(re.fullmatch(r"west +- +tonnes, t +162,000 +162,000 +\+0\.00 %", line)
               for line in lines)
    assert main(["survey", "mine.plan", "mine"]) == 0
    mines.quickly_compiled(tmp_path, plan, [east, west])
    (tmp_path / "mine.plan").write_text(plan)
    capsys.readouterr()
    assert main(["survey", "mine.plan", "mine", "--out", "survey.html"]) == 2
    assert "zones are exchanged" in capsys.readouterr().err
    assert not (tmp_path / "survey.html").exists()
