"""Nested pits: compared with all closures of a small mine, and with the pits of plans that
`vary` writes."""
import csv
import itertools
from decimal import Decimal

import numpy as np
import openpyxl
import pytest

import mines
from pit_tools.cli import main
from pit_tools.errors import UserError
from pit_tools.pits import closure
from pit_tools.pits.files import read_pit
from pit_tools.pits.nested import factors_of, nested_pits
from pit_tools.surveys.facts import read_valued

#: Which blocks of the six wait for which.
ABOVE = {0: (3, 4), 1: (3, 4, 5), 2: (4, 5)}

TONNES = (2700, 2700, 2700, 2650, 2650, 2650)

GRADES = (1.8, 2.4, 0.7, 0.2, 0.45, 0)


def value_by_hand(block: int, factor: float) -> float:
    """What a block of the six is worth at best, at this multiple of 60,000 a kilogram."""
    tonnes, grade = TONNES[block], GRADES[block]
    mill = tonnes * (grade * 0.9 * 60 * factor - 15)
    share = 0.55 if grade >= 1 else 0.35 if grade >= 0.3 else 0
    heap = tonnes * (grade * share * 60 * factor - 6)
    return max(mill, heap, -2 * tonnes)


def worth_by_hand(blocks: set, factor: float) -> float:
    return sum(value_by_hand(block, factor) for block in blocks)


def best_by_hand(factor: float) -> set:
    """The smallest closure of the largest value, of all sets of blocks."""
    sets = (set(some) for count in range(7) for some in itertools.combinations(range(6), count))
    closed = [some for some in sets if all(p in some for b in some for p in ABOVE.get(b, ()))]
    return max(closed, key=lambda some: (round(worth_by_hand(some, factor), 2), -len(some)))


@pytest.mark.parametrize("is_compiled", [True, False])
def test_the_six_blocks_at_each_price(tmp_path, monkeypatch, is_compiled):
    """By the C++ program, and by HiGHS."""
    if not is_compiled:
        monkeypatch.setattr(closure, "is_compiled", lambda: False)
    base = mines.six_blocks(tmp_path)
    factors = [Decimal(one) / 100 for one in (5, 12, 20, 25, 30, 40, 55, 80, 100, 150)]
    pits = list(nested_pits(read_valued(base + ".plan", base), factors))[::-1]
    assert [pit.factor for pit in pits] == factors
    for pit in pits:
        found, wanted = set(np.flatnonzero(pit.in_pit).tolist()), best_by_hand(float(pit.factor))
        assert found == wanted, pit.factor
        assert pit.sums.value == pytest.approx(worth_by_hand(wanted, 1))
        dumped = (TONNES[b] for b in wanted if value_by_hand(b, 1) == -2 * TONNES[b])
        assert (pit.sums.waste, pit.sums.blocks) == (sum(dumped), len(wanted))
    assert len({len(best_by_hand(float(factor))) for factor in factors}) > 2


@pytest.mark.parametrize("shape", ["lens", "vein"])
def test_each_pit_is_that_of_a_plan_with_this_price(tmp_path, capsys, monkeypatch, shape):
    monkeypatch.chdir(tmp_path)
    mines.deposit(tmp_path, 5, (12, 10, 6), shape)
    factors = "0.35,0.6,0.85,1,1.25"
    assert main(["nested", "mine.plan", "mine", "--factors", factors, "--out", "some"]) == 0
    message = capsys.readouterr().out
    larger = np.zeros(12 * 10 * 6, dtype=bool)
    for factor in factors.split(","):
        assert main(["vary", "mine.plan", "--set", f"price=x{factor}", "--name", "other"]) == 0
        name = f"other-pricex{factor}"
        plan = (tmp_path / f"{name}.plan").read_text()
        zones = [(tmp_path / f"mine-{number}.csv").read_text() for number in range(3)]
        mines.quickly_compiled(tmp_path, plan, zones, "other")
        assert main(["pit", "other", "--out", "other.pit"]) == 0
        ours = (tmp_path / f"some{factor}.pit").read_bytes()
        assert ours == (tmp_path / "other.pit").read_bytes()
        in_pit = np.isin(np.arange(len(larger)), read_pit("other.pit"))
        assert not (larger & ~in_pit).any()
        larger = in_pit
    capsys.readouterr()
    # The report on the pit at factor 1 is what `report` prints on it.
    assert main(["report", "mine.plan", "mine", "some1.pit"]) == 0
    report = capsys.readouterr().out.splitlines()
    whole = next(line for line in report if line.startswith("     all"))
    line = next(line for line in message.splitlines() if line.startswith("          1 "))
    assert line.split()[1:] == whole.split()[1:]


def test_the_table_and_the_picture(tmp_path, monkeypatch, capsys):
    monkeypatch.chdir(tmp_path)
    mines.deposit(tmp_path, 5, (12, 10, 6))
    words = ["nested", "mine.plan", "mine", "--factors", "1,0.5", "--out", "pits.csv",
             "--out", "pits.xlsx", "--out", "pits.svg"]
    assert main(words) == 0
    message = capsys.readouterr().out
    with open("pits.csv", encoding="utf-8") as file:
        rows = list(csv.DictReader(file))
    assert [row["factor"] for row in rows] == ["0.5", "1"]
    lines = [line.split() for line in message.splitlines()[1:3]]
    names = ["factor", "blocks", "ore (t)", "grade (g/t)", "metal (kg)", "recovered (kg)",
             "waste (t)", "strip ratio (t/t)", "value (100 cents)"]
    for row, line in zip(rows, lines):
        for name, cell in zip(names, line):
            places = len(cell.partition(".")[2])
            assert f"{float(row[name]):.{places}f}" == cell.replace(",", ""), name
    sheet = openpyxl.load_workbook("pits.xlsx")["nested pits"]
    assert [cell.value for cell in sheet[1]] == names and sheet.max_row == 3
    drawing = (tmp_path / "pits.svg").read_text()
    for text in ("factor 0.5", "factor 1", "strip ratio, t/t", "million tonnes", "pays nowhere"):
        assert f">{text}" in drawing or text in drawing, text
    before = (tmp_path / "pits.svg").read_bytes()
    assert main(words) == 0 and (tmp_path / "pits.svg").read_bytes() == before


@pytest.mark.parametrize("text, message", [
    ("1,x", "`x` is not a number"), ("", "`` is not a number"), ("1,1.0", "has a factor twice"),
    ("0", "must be above 0"), ("nan", "`nan` is not a number"), ("1_0", "`1_0` is not a number"), ("1e9", "up to 1000"),
    ("0.1234567", "more than 6 decimals")])
def test_what_is_no_factor_is_reported(text, message):
    with pytest.raises(UserError, match=message):
        factors_of(text)


@pytest.mark.parametrize("change, words, message", [
    (("1500", "1500"), ["--out", "a.bmp/"], "`a.bmp/` ends in a slash"),
    (("1500", "1400"), [], "values of the instance differ from this plan's"),
    (("1500", "1500"), ["--out", "mine.plan", "--out", "mine.plan"], "two files would have this name"),
])
def test_what_is_wrong_is_reported_in_a_line(tmp_path, monkeypatch, capsys, change, words, message):
    monkeypatch.chdir(tmp_path)
    mines.six_blocks(tmp_path)
    plan = (tmp_path / "mine.plan").read_text()
    assert change[0] in plan
    (tmp_path / "mine.plan").write_text(plan.replace(*change))
    assert main(["nested", "mine.plan", "mine", *words]) == 2
    error = capsys.readouterr().err
    assert message in error and error.count("\n") == 1
    assert [path.name for path in tmp_path.iterdir() if path.suffix == ".pit"] == []
