"""One instance of several plans, a sample of an export, and zones split below a steeper one."""
from __future__ import annotations

import numpy as np
import pandas as pd
import pytest

from pit_tools.cli import main
from pit_tools.errors import UserError
from pit_tools.exports.words import Words
from pit_tools.imports.record import read_imported
from pit_tools.imports.steps import import_export
from pit_tools.instances.valuation import blocks_of, instance_of
from pit_tools.instances.zoned import by_zone
from pit_tools.plans.file import plan_of
from pit_tools.plans.zone_files import read_zone_file

PLAN = """name,both
grid,0,0,0,10,10,10
zone,1,1,1
zone,1,1,1
mill,mill,900,6000000,1500
dump,dump,200
periods,2
rate,0.1
resource,plant,mill
limit,plant,0,L,5000
"""

ROWS = pd.DataFrame({"x": [0, 10_000, 20_000, 0], "y": 0, "z": [0, 0, 0, 10_000],
                     "tonnes": [2_700_000, 2_700_000, 2_600_000, 2_500_000],
                     "grade": [1_800_000, 2_400_000, 0, 500_000], "zone": [0, 1, 1, 0]})


def instance(text: str):
    plan = plan_of(text)
    return instance_of(plan, blocks_of(plan.grid, ROWS))


def test_each_block_has_the_values_of_the_plan_of_its_zone():
    whole, closed = (instance(PLAN),
                     instance(PLAN.replace("mill,mill,900,6000000,1500", "mill,mill,0,0,10000000")))
    made = by_zone([([0], closed), ([1], whole)])
    # 2,700 t of 2.4 g/t are worth 309,420 at the mill; in zone 0 it costs 100,000 a tonne.
    assert made.pcpsp.values[:, 0].tolist() == [-270_000_000, 309_420, -39_000, -250_000_000]
    assert made.upit.values.tolist() == [-5400, 309_420, -5200, -5000]
    assert made.pcpsp.uses.block.tolist() == [0, 1, 2,
                                              3] and made.pcpsp.limits == whole.pcpsp.limits
    # In the CPIT block 1 alone goes to the mill.
    assert made.cpit.uses.block.tolist() == [1] and made.cpit.uses.amount.tolist() == [2700]


@pytest.mark.parametrize("zones, message", [(([0], [0, 1]), "the zone 0 is in two"),
                                            (([0], []), "no instance is for the zone 1"),
                                            (([0], [1, 2]), "no block has the zone 2")])
def test_zones_that_do_not_fit_are_named(zones, message):
    made = instance(PLAN)
    with pytest.raises(UserError, match=message):
        by_zone([(part, made) for part in zones])


def test_plans_that_do_not_fit_are_named():
    with pytest.raises(UserError, match="differ in periods: 2 and 3"):
        by_zone([([0], instance(PLAN)), ([1], instance(PLAN.replace("periods,2", "periods,3")))])


def test_a_sample_of_an_export_gives_its_zone_files_again(tmp_path, monkeypatch, capsys):
    monkeypatch.chdir(tmp_path)
    assert main(["deposit"]) == 0
    capsys.readouterr()
    zones = ["deposit-oxide.csv", "deposit-west.csv", "deposit-east.csv"]
    assert main(["deposit", "--export", *zones]) == 0
    (tmp_path / "export.csv").write_text(capsys.readouterr().out, newline="")
    words = Words(x="XC", y="YC", z="ZC", tonnes="TONNAGE", grade="AU_PPM", zone=["DOMAIN"])
    imported = import_export(["export.csv"], words)
    assert sorted(imported.zones) == ["east", "oxide", "west"]
    for number, name in enumerate(imported.zones):
        given, found = read_zone_file(f"deposit-{name}.csv"), imported.zone_rows(number)
        given["grade"] = given["grade"].where(given["grade"] >= 2000, 0)
        order = ["z", "y", "x"]
        assert np.array_equal(given.sort_values(order).to_numpy(),
                              found.sort_values(order).to_numpy())


def contact_rows() -> str:
    """Three benches of flat rock below two of steep rock; the contact is a bench lower where x is
    40 or more."""
    lines = ["X,Y,Z,T,AU,ZONE"]
    for z in range(5):
        for y in range(3):
            for x in range(4):
                zone = "flat" if z < (3 if x < 2 else 2) else "steep"
                lines.append(f"{x * 20},{y * 20},{z * 10},10000,1,{zone}")
    return "\n".join(lines) + "\n"


def test_a_flatter_zone_is_split_by_benches_below_a_steeper_one(tmp_path, monkeypatch):
    monkeypatch.chdir(tmp_path)
    (tmp_path / "a.csv").write_text(contact_rows())
    imported = import_export(["a.csv"], Words(x="X", y="Y", z="Z", tonnes="T", grade="AU",
                                              zone=["ZONE"], below=["flat:steep"]))
    counts = {name: len(imported.zone_rows(number)) for number, name in enumerate(imported.zones)}
    assert counts == {"flat3": 6, "flat2": 12, "flat1": 12, "steep": 30}
    flat2 = imported.zone_rows(imported.zones.index("flat2"))
    assert set(map(tuple, flat2[["x", "z"]].to_numpy().tolist())) == {(0, 10_000), (20_000, 10_000),
                                                                      (40_000, 0), (60_000, 0)}
    imported.write("from")
    message = read_imported("from.json")
    assert message.benches == {"flat3": 3, "flat2": 2, "flat1": 1} and message.blocks == (4, 3, 5)
    with pytest.raises(UserError, match="give two zones"):
        import_export(["a.csv"], Words(x="X", y="Y", z="Z", tonnes="T", grade="AU", zone=["ZONE"],
                                       below=["flat:hard"]))
