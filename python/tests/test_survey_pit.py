"""What a survey reports on the pit by zone, bench and nested pit: compared with manual sums,
and with pandas over the files."""
import re

import numpy as np
import pandas as pd
import pytest

import mines
from pit_tools.cli import main
from pit_tools.pits import closure
from pit_tools.pits.files import read_pit
from pit_tools.plans.note import PlanNote, ZoneSeen
from pit_tools.surveys import facts as survey_facts, pit as survey_pit
from pit_tools.surveys.facts import Facts, read_facts
from pit_tools.surveys.pictures import all_of_them
from pit_tools.surveys.text import survey_text
from pit_tools.texts.units import Measures
from test_nested import best_by_hand, worth_by_hand


def part(message: str, name: str) -> list[str]:
    """Returns the lines of a part of a survey below its headers."""
    found = re.search(f"(?ms)^{name}.*?(?=^$|\\Z)", message)
    return found[0].splitlines() if found else []


def numbers(line: str) -> list[float]:
    return [float(cell.replace(",", "")) for cell in line.split()[1:]]


def test_the_six_blocks_worked_out_manually(tmp_path):
    """The pit is all six: above, 0.45 g/t goes to the mill, and the others are waste at 2 a tonne;
    below all three do, at 54 a gram of what is 90 % recovered, less 15 a tonne."""
    message = survey_text(read_facts(mines.six_blocks(tmp_path) + ".plan", str(tmp_path / "mine")))
    above, waste = 2650 * (0.45 * 54 - 15), 2 * 2650 * 2
    below = sum(2700 * (grade * 54 - 15) for grade in (1.8, 2.4, 0.7))
    ore, metal = 3 * 2700 + 2650, 2700 * (1.8 + 2.4 + 0.7) / 1000 + 2650 * 0.45 / 1000
    zone = numbers(part(message, "ZONES OF THE PIT")[1])
    assert zone == pytest.approx([6, ore, 1000 * metal / ore, metal, 0.9 * metal, 5300, 5300 / ore,
                                  above - waste + below], abs=0.05)
    benches = [numbers(line) for line in part(message, "CASH FLOW BY BENCH")[2:]]
    assert benches == [
        pytest.approx([10, 2650, 5300, above, waste, above - waste, above - waste]),
        pytest.approx([0, 8100, 0, below, 0, below, above - waste + below])]


@pytest.mark.parametrize("is_compiled", [True, False])
def test_nested_pits_by_all_closures(tmp_path, monkeypatch, is_compiled):
    """At a quarter of the price, at which each factor has its own pit or the one before it."""
    if not is_compiled:
        monkeypatch.setattr(closure, "is_compiled", lambda: False)
        monkeypatch.setattr(survey_facts, "is_compiled", lambda: False)
    base = mines.six_blocks(tmp_path, ("6000000", "1500000"))
    lines = part(survey_text(read_facts(base + ".plan", base)), "NESTED PITS")[2:]
    pits = [best_by_hand(factor / 4) for factor in (0.4, 0.6, 0.8, 1)]
    assert len(set(map(frozenset, pits))) > 1
    before = 0.0
    for line, factor, pit in zip(lines, ("0.4", "0.6", "0.8", "1"), pits):
        _, _, value, cost, flow, total = numbers(line)
        assert line.split()[0] == factor
        assert total == pytest.approx(worth_by_hand(pit, 0.25), abs=0.02), factor
        assert flow == pytest.approx(total - before, abs=0.02)
        assert flow == pytest.approx(value - cost, abs=0.02)
        before = total
    assert len(lines) == 4


@pytest.fixture(name="lens", scope="module")
def _lens(tmp_path_factory):
    """A deposit of three zones, with its blocks by pandas: whether each is in the pit of `pit`, and
    its value at best."""
    folder = tmp_path_factory.mktemp("lens")
    base = mines.deposit(folder, 5, (12, 10, 6))
    assert main(["pit", base, "--out", base + ".pit"]) == 0
    blocks = pd.read_csv(base + ".blocks", sep=" ", comment="%", header=None, index_col=0,
                         names=["id", "x", "y", "z", "tonnes", "grade", "zone"])
    lines = [line.split() for line in open(base + ".upit", encoding="ascii")]
    blocks["value"] = [float(line[1]) for line in lines if line and line[0].isdigit()]
    blocks["in_pit"] = np.isin(blocks.index, read_pit(base + ".pit"))
    dump = next(line for line in open(base + ".plan", encoding="ascii") if line[:5] == "dump,")
    cost = blocks["tonnes"] * int(dump.split(",")[2]) / 100
    blocks["waste"] = np.isclose(blocks["value"], -cost, atol=0.02)
    return base, blocks


def noted(base, *names, measures=Measures()):
    """The facts of an instance whose sidecar file has these zones."""
    read = read_facts(base + ".plan", base)
    note = PlanNote(True, measures, [ZoneSeen(name, "file") for name in names])
    return Facts(read.plan, read.blocks, read.arcs, read.outline, note=note)


def test_zones_and_benches_by_pandas(lens):
    """In a currency whose cent has four parts, and percent; two files of one zone are one row."""
    base, blocks = lens
    message = survey_text(noted(base, "cap", "ore", "ore", measures=Measures("AUD", 4, "%")))
    pit = blocks[blocks["in_pit"]]
    pit = pit.assign(name=np.where(pit["zone"] == 0, "cap", "ore"))
    lines = {line.split()[0]: numbers(line) for line in part(message, "ZONES OF THE PIT")[1:]}
    assert list(lines) == ["cap", "ore", "all"]
    for name, rows in [*pit.groupby("name"), ("all", pit)]:
        ore = rows[~rows["waste"]]
        metal = (ore["tonnes"] * ore["grade"]).sum()
        assert lines[name][:4] == pytest.approx(
            [len(rows), ore["tonnes"].sum(), metal / ore["tonnes"].sum() / 10_000, metal / 1000],
            abs=0.051), name
        assert lines[name][5] == pytest.approx(rows.loc[rows["waste"], "tonnes"].sum(), abs=0.051)
        assert lines[name][-1] == pytest.approx(rows["value"].sum() / 4, abs=0.006)
    lines = part(message, "CASH FLOW BY BENCH")
    assert lines[0].endswith("in AUD")
    total, wanted = 0.0, []
    for z, rows in sorted(pit.groupby("z"), reverse=True):
        ore, cost = (rows.loc[rows["waste"] == is_waste, "value"].sum() / 4
                     for is_waste in (False, True))
        total += ore + cost
        wanted.append((str(z), pytest.approx([ore, -cost, ore + cost, total], abs=0.006)))
    assert [(line.split()[0], numbers(line)[-4:]) for line in lines[2:]] == wanted
    assert len(wanted) > 3


def test_nested_pits_add_up_to_those_of_nested(lens, capsys):
    """The sums down to each line are the values that `nested` prints for complete pits."""
    base, _ = lens
    assert main(["nested", base + ".plan", base, "--factors", "0.4,0.6,0.8,1"]) == 0
    whole = {line.split()[0]: numbers(line)[-1] for line in
             capsys.readouterr().out.splitlines()[1:5]}
    lines = part(survey_text(read_facts(base + ".plan", base)), "NESTED PITS")[2:]
    assert {line.split()[0]: numbers(line)[-1] for line in lines} == pytest.approx(whole, abs=0.011)
    assert len(set(whole.values())) > 2


def test_pictures_show_the_numbers_and_pits_are_sought_once(lens, monkeypatch):
    base, blocks = lens
    sought = []
    real = survey_pit.nested_pits
    monkeypatch.setattr(survey_pit, "nested_pits",
                        lambda *words: sought.append(1) or real(*words))
    facts = noted(base, "cap", "west", "east")
    survey_text(facts)
    drawn = {name: figure for name, _, figure in all_of_them(facts)}
    assert sought == [1] and list(drawn)[-3:] == ["zones-of-the-pit", "cash-flow", "nested-pits"]
    pit = blocks[blocks["in_pit"]]
    tonnes, _, value = drawn["zones-of-the-pit"].axes
    assert [label.get_text() for label in tonnes.get_yticklabels()] == [
        "zone cap", "zone west", "zone east"]
    assert sum(bar.get_width() for bar in tonnes.patches) * 1e6 == pytest.approx(
        pit["tonnes"].sum())
    assert [bar.get_width() * 1e6 for bar in value.patches] == pytest.approx(
        pit.groupby("zone")["value"].sum().tolist())
    for name in ("cash-flow", "nested-pits"):
        flow, total = drawn[name].axes
        assert sum(bar.get_width() for bar in flow.patches) * 1e6 == pytest.approx(
            pit["value"].sum()), name
        assert total.lines[0].get_xdata()[-1] * 1e6 == pytest.approx(pit["value"].sum())


def test_nested_pits_that_are_omitted_have_a_reason(lens, monkeypatch):
    base, _ = lens
    given = survey_text(read_facts(base + ".plan", base, pit_path=base + ".pit"))
    assert part(given, "NESTED PITS") == [
        "NESTED PITS are omitted: the pit was given by --pit; `pit-tools nested` finds nested pits of the plan"]
    assert part(given, "ZONES OF THE PIT") and part(given, "CASH FLOW BY BENCH")
    facts = read_facts(base + ".plan", base)
    facts.values[0, 0] += 1
    assert part(survey_text(facts), "NESTED PITS")[0].startswith(
        "NESTED PITS are omitted: 1 values of the instance differ from this plan's")
    monkeypatch.setattr(survey_pit, "MOST_PLACES", 1)
    facts = read_facts(base + ".plan", base)
    assert part(survey_text(facts), "NESTED PITS") == [
        "NESTED PITS are omitted: they would take minutes; `pit-tools nested` finds them"]
    assert [name for name, _, _ in all_of_them(facts)][-2:] == ["zones-of-the-pit", "cash-flow"]


def test_without_a_pit_there_are_no_parts_of_it(tmp_path):
    """At a price at which nothing pays, the pit is empty."""
    base = mines.six_blocks(tmp_path, ("6000000", "1"))
    facts = read_facts(base + ".plan", base)
    message = survey_text(facts)
    assert not facts.pit.any() and "ZONES OF" not in message and "CASH FLOW" not in message
    assert [name for name, _, _ in all_of_them(facts)][-1] == "rock"
