"""A zone of more rows than a zone file may have becomes several files, each a zone of the plan."""
from __future__ import annotations

from functools import partial

import pandas as pd
import pytest

from exports import MINE, USUAL, table, truth, usual
from pit_tools.cli import main
from pit_tools.errors import UserError
from pit_tools.exports.words import Words
from pit_tools.imports import placing
from pit_tools.imports.blocks import cut_zones
from pit_tools.imports.record import read_imported
from pit_tools.imports.steps import import_export
from pit_tools.instances.valuation import blocks_of, values_of
from pit_tools.pits.closure import is_compiled, pit_of_plan
from pit_tools.plans.file import read_plan
from pit_tools.plans.zone_files import read_zone_file, read_zone_files

MOST = 100


@pytest.fixture
def here(tmp_path, monkeypatch):
    """A folder with an export, whose zones of more than 100 rows are cut."""
    monkeypatch.chdir(tmp_path)
    monkeypatch.setattr(placing, "cut_zones", partial(cut_zones, most=MOST))
    (tmp_path / "a.csv").write_text(table("X,Y,Z,TONNES,AU,ZONE", lambda b: ",".join(usual(b))))
    return tmp_path


def test_files_of_a_zone_have_all_its_rows_once(here):
    imported = import_export(["a.csv"], Words(**USUAL))
    paths = imported.write("from")
    found: dict = {}
    for name, path in zip(imported.zones, paths):
        rows = read_zone_file(path)
        assert 0 < len(rows) <= MOST
        places = map(tuple, rows[["x", "y", "z"]].to_numpy().tolist())
        zone = found.setdefault(name, {})
        for place, contents in zip(places, rows[["tonnes", "grade"]].to_numpy().tolist()):
            assert place not in zone
            zone[place] = tuple(contents)
    assert found == truth()
    assert {"from-west-1.csv", "from-west-2.csv"} <= set(paths) and len(set(paths)) == len(paths)
    assert "west becomes" in imported.report.text()


def test_a_plan_repeats_the_record_of_a_cut_zone(here, capsys):
    words = ["--x", "X", "--y", "Y", "--z", "Z", "--tonnes", "TONNES", "--grade", "AU", "--zone",
             "ZONE", "--out", "from"]
    assert main(["import", "a.csv", *words]) == 0
    assert main(["plan", "from.json", "--out", "mine.plan", "--price", "1804 USD/oz", "--mill",
                 "recovery 92 %, cost 16.50 USD/t", "--slope", "45", "--slope", "west: 60"]) == 0
    zones = read_imported("from.json").zones
    records = [line for line in (here / "mine.plan").read_text().splitlines()
               if line.startswith("zone,")]
    by_zone = pd.Series(records).groupby(zones).unique()
    assert len(records) == len(zones) > len(set(zones)) == 3
    assert by_zone.map(len).eq(1).all()
    assert by_zone["west"][0] != by_zone["east"][0] == by_zone["oxide"][0]
    assert "from-west-1.csv from-west-2.csv" in capsys.readouterr().out


def test_more_files_than_a_plan_has_zones_are_rejected():
    rows = pd.DataFrame({"zone": [0] * 65})
    assert cut_zones(rows, ["all"], 2)[1] == ["all"] * 33
    with pytest.raises(UserError, match="would be 65 files of at most 1 rows"):
        cut_zones(rows, ["all"], 1)


@pytest.mark.skipif(not is_compiled(), reason="no C++ compiler is installed")
def test_the_pit_of_a_cut_zone_is_that_of_the_complete_zone(here, monkeypatch):
    """A slope is that of the lower block, and each file of a zone has the zone's slopes."""
    pits = []
    for base, most in (("cut", MOST), ("whole", 10 * len(MINE))):
        monkeypatch.setattr(placing, "cut_zones", partial(cut_zones, most=most))
        paths = import_export(["a.csv"], Words(**USUAL)).write(base)
        assert main(["plan", f"{base}.json", "--out", f"{base}.plan", "--price", "1804 USD/oz",
                     "--mill", "recovery 92 %, cost 16.50 USD/t", "--dump", "cost 1.80 USD/t",
                     "--slope", "west: 60", "--slope", "45"]) == 0
        plan = read_plan(f"{base}.plan")
        blocks = blocks_of(plan.grid, read_zone_files(paths))
        pit, _ = pit_of_plan(values_of(plan, blocks).max(axis=1) / 100, blocks, plan)
        pits.append(set(zip(blocks.x[pit].tolist(), blocks.y[pit].tolist(), blocks.z[pit].tolist())))
        assert len(paths) == len(plan.zones) and (base == "whole") == (len(paths) == 3)
    assert pits[0] == pits[1] and 50 < len(pits[0]) < len(blocks)
