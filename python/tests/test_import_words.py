"""What `import` stops at, and what it reports without stopping, one error at a time in a small
export."""
from __future__ import annotations

import re

import pandas as pd
import pytest

from pit_tools.cli import main
from pit_tools.errors import UserError
from pit_tools.exports.cells import Marks, marks_of
from pit_tools.exports.words import Words
from pit_tools.imports.steps import Imported, import_export
from pit_tools.texts.formulas import MissingColumn, formula_of

USUAL = {"x": "X", "y": "Y", "z": "Z", "tonnes": "T", "grade": "AU", "zone": ["ZONE"]}


def rows() -> list[list[str]]:
    """Four benches of 5 x 5 blocks of 10 m; of the highest bench a corner is air."""
    lines = [["X", "Y", "Z", "T", "AU", "ZONE"]]
    for z in range(4):
        for y in range(5):
            for x in range(5):
                is_air = z == 3 and x + y > 3
                lines.append([str(10 * x), str(10 * y), str(10 * z), "-99" if is_air else "2700",
                              "-99" if is_air else f"{1 + x / 10}", "west" if x < 3 else "east"])
    return lines


def imported(tmp_path, lines: list[list[str]], separator: str = ",", **changed) -> Imported:
    path = tmp_path / "a.csv"
    path.write_text("".join(separator.join(line) + "\n" for line in lines), encoding="utf-8")
    return import_export([str(path)], Words(**{**USUAL, **changed}))


def with_cell(row: int, column: int, text: str) -> list[list[str]]:
    """The rows with one cell changed; row 1 is the first below the header, on line 2."""
    lines = rows()
    lines[row][column] = text
    return lines


def mapped(column: int, change) -> list[list[str]]:
    """The rows with a column of numbers changed."""
    lines = rows()
    for line in lines[1:]:
        if line[column] != "-99":
            line[column] = change(line[column])
    return lines


STOPS = [
    (lambda: with_cell(20, 2, ""), {}, "line 21: the column Z has ``, which is empty"),
    (lambda: with_cell(20, 2, "x"), {}, "line 21: the column Z has `x`"),
    (lambda: with_cell(20, 3, "2,5 t"), {}, "line 21 has 7 cells, but the header 6"),
    (lambda: with_cell(20, 4, "<0.01"), {}, "if it means nothing, give --missing '<0.01'"),
    (lambda: with_cell(20, 4, "1.2%"), {}, "give the unit, as --grade 'AU %'"),
    (lambda: with_cell(20, 4, "2024-03-01"), {}, "a spreadsheet has changed a number to a date"),
    (lambda: with_cell(20, 5, ""), {}, "line 21: it has tonnes but no zone, as 1 rows"),
    (lambda: with_cell(20, 3, "2700000000"), {}, "line 21: a block has 2,700,000,000 t"),
    (lambda: with_cell(20, 4, "2000000"), {}, "more than all metal"),
    (lambda: with_cell(20, 4, "1e305"), {}, "more than all metal"),
    (lambda: with_cell(20, 0, "43"), {}, "x has 6 values, but a grid of 1 would have 44 positions"),
    (lambda: with_cell(20, 0, "43"), {"size": "10,10,10"},
     "x 43 is 3 off the grid of 10 through 0"),
    (lambda: with_cell(20, 0, "0"), {},
     "1 rows have the position of an earlier one, .*line 21 .* and .*line 17 .* each is a complete block"),
    (rows, {"grade": "GOLD"}, "no column `GOLD` in line 1, which has `X` `Y`"),
    (rows, {"grade": "AU oz/t"}, "`oz/t` has two meanings"),
    (rows, {"tonnes": "T tons"}, "`tons` has two meanings"),
    (rows, {"grade": "AU oz/kg"}, "`oz/kg` after `AU` is neither a known unit of a grade"),
    (rows, {"tonnes": "T*(2"}, "`T\\*\\(2` is not a formula"),
    (rows, {"tonnes": "T.sum()"}, "is not a formula: it may have columns"),
    (rows, {"tonnes": "open(T)"}, "no function `open`"),
    (rows, {"x": "10/(X-10)"}, "x cannot be computed: a cell is missing, or it is divided by 0"),
    (rows, {"tonnes": "T", "density": "T"}, "give --tonnes, or a density"),
    (rows, {"y": ""}, "give --x, --y and --z together"),
    (rows, {"where": ["ZONE == west"]}, "in a filter put texts between double quotes"),
    (rows, {"where": ["AU"]}, "compares nothing"),
    (rows, {"where": ['AU > 1 and AU == "x"']}, "compares a column with numbers and with texts"),
    (rows, {"where": ['ZONE == "north"']}, "there is no row below the header that the filter "
     "keeps"), (rows, {"parents": "20,20,20"}, "--parents needs --corner"),
    (rows, {"parents": "20,20,20", "corner": "0,0,0"}, "is on the border of two parents"),
    (rows, {"size": "10,10"}, "--size: give three numbers"),
    (rows, {"size": "10,10,0"}, "a size must be above 0"),
    (rows, {"x_bearing": 60.0}, "With this turn, neighbours are still"),
    (rows, {"blocks": "5,4,4"}, "rows occupy 5 x 5 x 4 blocks, but --blocks is 5 x 4 x 4"),
    (rows, {"density": "T", "tonnes": "", "ore_share": "AU"},
     "--ore-share and --waste-density together"),
    (rows, {"x": "", "y": "", "z": "", "i": "X", "j": "Y", "k": "Z", "first": "0,0,0",
            "size": "10,10,10", "index_from": 1}, "the index i is from 0 to 40, not from 1"),
    (lambda: [line if at == 0 else [str(int(line[0]) // 10 + 1), str(int(line[1]) // 10 + 1),
                                    str(int(line[2]) // 10), *line[3:]]
              for at, line in enumerate(rows())], {"x": "", "y": "", "z": "", "i": "X", "j": "Y",
                                                   "k": "Z", "first": "0,0,0", "size": "10,10,10"},
     "the smallest indices are 1, 1, 0: state by --index-from"),
    (lambda: [["X", "Y", "Z", "T", "AU", "ZONE"], ["0", "0", "0", "1", "1", "a"]], {},
     "all rows have one x: give the size"),
    (lambda: mapped(3, lambda text: "-99"), {}, "no row has tonnes: is --tonnes the right column"),
    (lambda: mapped(3, lambda text: "0.0001"), {"merge": True},
     "no block has half a kilogram: is --tonnes the right column"),
    (lambda: mapped(0, lambda text: f"{int(text) * 4321}"), {"size": "10,10,10"},
     "more than the 10,000 that pitc accepts"),
    (lambda: [rows()[0], ["m", "m", "m", "t", "oz/st", ""], *rows()[1:]], {},
     "the column AU has the unit `oz/st`, but is read as grams per tonne: give --grade 'AU oz/st'")]


@pytest.mark.parametrize("lines, changed, message", STOPS, ids=[message for _, _, message in STOPS])
def test_what_cannot_be_right_stops_with_its_cause(tmp_path, lines, changed, message):
    with pytest.raises(UserError, match=message):
        imported(tmp_path, lines(), **changed)


WARNINGS = [(lambda: mapped(3, lambda text: "2.7"), {}, "are they densities"),
          (lambda: mapped(3, lambda text: "2.70"), {}, "are they kilotonnes"),
          (lambda: mapped(3, lambda text: "76.5"), {}, "are lengths in feet"),
          (lambda: mapped(0, lambda text: str(int(text) // 10)), {"y": "Y/10", "z": "Z/10", "tonnes": "", "density": "T/1000"},
           "all sizes are 1"), (lambda: mapped(2, lambda text: str(30 - int(text))), {}, None),
          (lambda: [line if line[0] != "20" or line[2] != "10" else [*line[:3], "-99", *line[4:]]
                    for line in rows()], {}, "5 positions below a block have none"),
          (lambda: with_cell(30, 5, "West "), {}, "zones `west` and `West` differ only by case"),
          (lambda: with_cell(30, 3, "99900"), {}, "1 blocks weigh more than 10 t per cubic metre"),
          (lambda: [line if line[5] != "east" or line[4] == "-99" else [*line[:4], "4000", "east"]
                    for line in rows()], {}, "in another unit"),
          (lambda: [line if line[3] != "-99" else [*line[:3], "2700", "0", line[5]]
                    for line in rows()], {}, "every position of the box has rock, and most of the highest"),
          (lambda: [line if line[0] != "10" or line[2] != "10" else [*line[:3], "900", *line[4:]]
                    for line in rows()], {}, "is only their ore counted")]


@pytest.mark.parametrize("lines, changed, message", WARNINGS,
                         ids=[message or "depths" for _, _, message in WARNINGS])
def test_what_may_be_wrong_is_reported(tmp_path, lines, changed, message):
    warnings = imported(tmp_path, lines(), **changed).report.warnings
    pattern = message or "is z a depth"
    assert len(warnings) == 1 and re.search(pattern, warnings[0]), warnings
    assert imported(tmp_path, rows()).report.warnings == []


@pytest.mark.parametrize("cells, decimal, thousands",
                         [(["1.5", "2.25"], ".", ""), (["1,5", "2,25"], ",", ""),
                          (["1.234,5", "7.000"], ",", "."), (["1,234.5", "7"], ".", ","),
                          (["1.234.567"], ",", "."), (["1,234,567", "5.25"], ".", ","),
                          (["0,123"], ",", ""), (["1000.5", "10,935"], ".", ",")])
def test_marks_are_found_where_they_can_only_mean_one_thing(cells, decimal, thousands):
    marks = marks_of([pd.Series(cells)])
    assert (marks.decimal, marks.thousands) == (decimal, thousands)


@pytest.mark.parametrize(
    "cells, message", [(["10,935", "7,120"], "is a number with a decimal comma, or with a comma between thousands"),
                       (["800", "1.020"], "has a decimal point, or a point between thousands"),
                       (["1.5", "2,5"], "has a decimal point, but `2,5` a decimal comma")])
def test_marks_that_may_mean_two_things_are_rejected(cells, message):
    with pytest.raises(UserError, match=message):
        marks_of([pd.Series(cells)])


@pytest.mark.parametrize("cell, marks, plain", [
    ("1 234.5", Marks(), "1234.5"), ("1\u00a0234", Marks(), "1234"), ("12 34", Marks(), None),
    ("1'234'567.5", Marks(), "1234567.5"), ("(99.00)", Marks(), "-99.00"), ("99-", Marks(), "-99"),
    ("−5", Marks(), "-5"), ("1.5D+02", Marks(), "1.5E+02"), ("1.234,5", Marks(",", "."), "1234.5"),
    ("2.75", Marks(",", "."), None), ("2,75", Marks(".", ","), None), ("N/A", Marks(), ""),
    ("0x1A", Marks(), None), ("1_000", Marks(), None), ("nan", Marks(), ""),
    ("inf", Marks(), None)])
def test_a_cell_is_written_plainly_or_is_no_number(cell, marks, plain):
    assert marks.plain(cell) == plain


@pytest.mark.parametrize("text, value",
                         [("a*2 + b", 7.0), ("(a + b)*2", 10.0), ("-a", -2.0), ("a b - a", 8.0),
                          ("a-b", 50.0), ("`10`*a", 22.0), ("b/a", 1.5), ("a**2", 4.0),
                          ("b//a", 1.0), ("b%a", 1.0), ("where(a < b, 7, 8)", 7.0),
                          ("if(a == 2 and not b < 3, 7, 8)", 7.0), ("7 if b > 3 else 8", 8.0),
                          ("min(a, b) + max(a, b)*2", 8.0), ("where(missing(a), 7, a)", 2.0),
                          ("sqrt(a*2)", 2.0), ("A*2+B", 7.0)])
def test_a_formula_takes_the_longest_name(text, value):
    names = ["a", "b", "a b", "a-b", "10"]
    formula = formula_of(text, names)
    table = pd.DataFrame({f"_at{at}": [number]
                          for at, number in enumerate((2.0, 3.0, 10.0, 50.0, 11.0))})
    assert formula.value(table).iloc[0] == value


def test_a_missing_term_of_a_sum_adds_nothing_and_a_missing_factor_all():
    table = pd.DataFrame({"_at0": [2.0, float("nan"), float("nan")],
                          "_at1": [3.0, 3.0, float("nan")]})
    assert formula_of("a + b*2", ["a", "b"]).value(table).tolist()[:2] == [8.0, 6.0]
    assert formula_of("a*b", ["a", "b"]).value(table).isna().tolist() == [False, True, True]
    assert formula_of("a + b", ["a", "b"]).value(table).isna().tolist() == [False, False, True]


def test_a_name_that_is_no_column_is_reported_with_one_like_it():
    with pytest.raises(MissingColumn, match="no column `TONAGE`; is it `TONNAGE`"):
        formula_of("TONAGE", ["X", "TONNAGE"])


def test_a_filter_and_a_table_of_zones_go_by_texts_and_numbers(tmp_path):
    (tmp_path / "zones.csv").write_text("ZONE,zone\nwest,left\n*,right\n")
    found = imported(tmp_path, rows(), where=['AU > 1.05 and ZONE in ["west", "east"]'], zone=[],
                     zones=str(tmp_path / "zones.csv"))
    assert found.zones == ["left", "right"]
    # The grade is 1.0 where x is 0; of the highest bench 5 blocks are air where x is 1 or 2, and
    # 9 where it is 3 or 4.
    assert found.axes[0].first == 10_000 and found.axes[0].places == 4
    assert [len(found.zone_rows(zone)) for zone in (0, 1)] == [2 * 20 - 5, 2 * 20 - 9]


def test_blocks_that_weigh_nothing_are_counted(tmp_path):
    found = imported(tmp_path, with_cell(20, 3, "0.0001"), merge=True)
    assert any("omitted: 1 blocks of less than half a kilogram" in fact
               for fact in found.report.facts)


def test_the_command_prints_a_error_in_one_line(tmp_path, capsys, monkeypatch):
    monkeypatch.chdir(tmp_path)
    (tmp_path / "a.csv").write_text("X,Y,Z\n")
    assert main(["import", "a.csv", "--x", "X", "--y", "Y", "--z", "-DEPTH", "--tonnes", "T",
                 "--grade", "AU"]) == 2
    message = capsys.readouterr()
    assert message.out == "" and message.err.startswith("pit-tools import: a.csv: no column `DEPTH` in "
                                                        "line 1") and message.err.count("\n") == 1
    assert main(["import", "none.csv", "--x", "X", "--y", "Y", "--z", "Z", "--tonnes", "T",
                 "--grade", "AU"]) == 2
    assert capsys.readouterr().err == "pit-tools import: none.csv: No such file or directory\n"


def test_what_was_written_is_known_to_plan(tmp_path, capsys, monkeypatch):
    monkeypatch.chdir(tmp_path)
    (tmp_path / "a.csv").write_text("".join(",".join(line) + "\n" for line in rows()))
    words = ["--x", "X", "--y", "Y", "--z", "Z", "--tonnes", "T", "--grade", "AU", "--zone", "ZONE",
             "--out", "out/from"]
    (tmp_path / "out").mkdir()
    assert main(["import", "a.csv", *words]) == 0
    assert "grid,0,0,0,10,10,10\nzone,1,1,4\nzone,1,1,4\n" in capsys.readouterr().out
    assert main(["plan", "out/from.json", "--price", "58 USD/g", "--mill", "recovery 90 %, cost 15 "
                 "USD/t", "--dump", "cost 2 USD/t", "--slope", "45", "--out", "one.plan"]) == 0
    assert "out/from-west.csv out/from-east.csv" in capsys.readouterr().out
    assert ((tmp_path / "one.plan").read_text()
            .startswith("name,mine\ngrid,0,0,0,10,10,10\nzone,1,1,"))
