"""Variations of a plan, and the sections of the pipe form as files."""
import os
import subprocess
import sys

import pytest

import mines
from pit_tools.cli import main
from pit_tools.deposits.seeded import Deposit
from pit_tools.errors import UserError
from pit_tools.plans.file import plan_of
from pit_tools.plans.variations import Change, varied, variations

PLAN = Deposit().plan()


def test_all_combinations_of_cells(tmp_path, capsys):
    (tmp_path / "deposit.plan").write_text(PLAN)
    words = ["vary", str(tmp_path / "deposit.plan"), "--set", "K=2,4", "--set",
             "price=5000000,5800000", "--out", str(tmp_path), "--zones", "a.csv", "b.csv",
             "--list", str(tmp_path / "LIST")]
    assert main(words) == 0 and capsys.readouterr().out == "4 plans\n"
    lines = (tmp_path / "LIST").read_text().splitlines()
    assert lines[2] == "deposit-K4-price5000000.plan a.csv b.csv" and len(lines) == 4
    plan = plan_of((tmp_path / "deposit-K4-price5000000.plan").read_text())
    assert [zone.benches for zone in plan.zones] == [4, 4, 4] and {
        one.price for one in plan.destinations if one.bands} == {5000000}
    assert plan.name == "deposit-K4-price5000000" and plan.limits == plan_of(PLAN).limits


@pytest.mark.parametrize("cell, value, old, new", [
    ("rate", "0.1", "rate,0.08", "rate,0.1"),
    ("slope", "2,1", "zone,3,2,1,1,5,4,5,4,3", "zone,2,1,3"),
    ("zone.1.K", "7", "zone,3,2,1,1,5,4,5,4,3", "zone,3,2,1,1,5,4,5,4,7"),
    ("mill.mill.recovery", "900", "mill,mill,920,", "mill,mill,900,"),
    ("mill.mill.cost", "x1.1", "5800000,1650", "5800000,1815"),
    ("dump.dump.cost", "200", "dump,dump,180", "dump,dump,200"),
    ("limit.crusher.2", "5", "limit,crusher,2,L,2500000", "limit,crusher,2,L,5"),
    ("limit.fleet.3", "x2", "limit,fleet,3,I,1000000,7500000", "limit,fleet,3,I,1000000,15000000"),
    ("leach.heap.cost", "600", "5800000,620", "5800000,600"),
])
def test_a_cell_is_changed_and_no_other(cell, value, old, new):
    wanted = PLAN.replace("name,deposit", "name,other").replace(old, new)
    if cell == "slope":
        wanted = wanted.replace("zone,1,1,2", "zone,2,1,2").replace("zone,3,2,3", "zone,2,1,3")
    assert varied(PLAN, "other", [(cell, value)]) == wanted and wanted != PLAN


@pytest.mark.parametrize("sets, message",
                         [(["cost=3"], "no record of the plan has the cell `cost`"),
                          (["mill.heap.cost=3"], "no record"), (["K"], "is not CELL=VALUE"),
                          (["K=2,2"], "comes twice"), (["rate=" + "0" * 70], "longer than 64")])
def test_what_is_no_cell_is_reported(sets, message):
    with pytest.raises(UserError, match=message):
        list(variations(PLAN, "deposit", [Change.of(text) for text in sets]))


def test_sections_of_the_pipe_form_become_files(tmp_path):
    base = mines.six_blocks(tmp_path)
    endings = ("blocks", "prec", "upit", "pcpsp", "cpit")
    text = "".join(f"== {ending}\n" + open(f"{base}.{ending}").read() for ending in endings)
    words = [sys.executable, "-m", "pit_tools", "compile", "--sections", "-", "--out",
             str(tmp_path / "again")]
    run = dict(env={**os.environ, "PYTHONPATH": os.path.join(mines.TOP, "python")},
               capture_output=True, text=True)
    assert subprocess.run(words, input=text, **run).returncode == 0
    for ending in endings:
        assert open(f"{base}.{ending}").read() == (tmp_path / f"again.{ending}").read_text()
    for wrong, message in (("", "has the sections none"),
                           ("pitc: plan row 1: Key\n", "does not begin with a section"),
                           (text + "== blocks\n", "appears twice")):
        done = subprocess.run(words, input=wrong, **run)
        assert done.returncode == 2 and message in done.stderr and done.stderr.count("\n") == 1
