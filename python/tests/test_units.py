"""Units from the arguments of `plan` to what `survey`, `pit` and `report` print: the sidecar
file of the plan."""
import json
import re
from dataclasses import replace

import pytest

import mines
from pit_tools.cli import main
from pit_tools.files.records import File, read_record
from pit_tools.plans.note import read_note

#: A copper mine: one block of 2 % copper under a block of waste, 10 x 10 x 10 m.
EXPORT = ("x,y,z,t,cu,zone\n"
          + "\n".join(f"{10 * x},{10 * y},{10 * z},2700,{2 if (x, y, z) == (2, 2, 0) else 0},por"
                      for z in range(2) for y in range(5) for x in range(5)) + "\n")


@pytest.fixture
def planned(tmp_path, monkeypatch, capsys):
    """Imports the export, plans and makes the instance in a folder, which is then the current
    one."""
    monkeypatch.chdir(tmp_path)
    (tmp_path / "export.csv").write_text(EXPORT)
    assert main("import export.csv --x x --y y --z z --tonnes t --grade".split()
                + ["cu %", "--zone", "zone", "--out", "from"]) == 0
    assert main(["plan", "from.json", "--out", "mine.plan", "--price", "4 USD/lb", "--mill",
                 "recovery 90 %, cost 18 USD/t", "--dump", "cost 2 USD/t", "--slope", "45",
                 "--parts", "100"]) == 0
    mines.quickly_compiled(tmp_path, (tmp_path / "mine.plan").read_text(),
                           [(tmp_path / "from-por.csv").read_text()])
    capsys.readouterr()
    return tmp_path


def printed_by(capsys, *words: str) -> str:
    assert main(list(words)) == 0
    return capsys.readouterr().out


def test_money_and_grades_are_reported_as_the_planner_wrote_them(planned, capsys):
    """2,700 t of 2 % at 90 % hold 48,600 kg that are recovered; a pound is 0.45359237 kg, so
    88,185 hundredths of a cent a kilogram are 428,579.10 dollars; costs 18 dollars a tonne,
    48,600. There are five blocks of waste above, of which each costs 5,400."""
    pit = printed_by(capsys, "pit", "mine", "--out", "mine.pit")
    worth = 48600 * 88185 / 10000 - 18 * 2700 - 5 * 5400
    assert pit == f"6 blocks, 16200.000 t, worth {worth:.2f} USD\n"
    assert printed_by(capsys, "pit", "mine", "--plan", "mine.plan", "--K", "plan") == f"K = plan: {pit}"
    survey = printed_by(capsys, "survey", "mine.plan", "mine", "from-por.csv")
    assert "2,700.0 t of ore with 2.0000 %," in survey and f"worth {worth:,.2f} USD" in survey
    assert re.search(
        r"(?m)^0 mill +8\.82 +0\.27 +4\.00 +8,818\.50 +costs 18\.00 +0\.2268 %   90 %$", survey)
    assert ("prices and costs are in USD" in survey and "zone por: million t, %, kg" in survey
            and "g/t" not in survey)
    report = printed_by(capsys, "report", "mine.plan", "mine", "mine.pit")
    assert ("value, USD" in report and f"{worth:,.2f}" in report and "2.0000" in report
            and "g/t" not in report)


def test_a_note_that_no_longer_fits_is_reported_and_not_used(planned, capsys):
    plan = (planned / "mine.plan").read_text()
    (planned / "mine.plan").write_text(plan.replace("rate,0.08", "rate,0.1"))
    assert main(["survey", "mine.plan", "mine", "from-por.csv"]) == 2
    assert "mine.plan: it is not the file that mine.plan.sums names" in capsys.readouterr().err
    survey = printed_by(capsys, "survey", "mine.plan", "mine", "from-por.csv", "--edited")
    assert "- FILES: mine.plan.json was written for another plan than mine.plan now is" in survey
    assert "- FILES: mine.plan: it is not the file that mine.plan.sums names" in survey
    assert "g/t" in survey and "USD" not in survey
    assert main(["pit", "mine", "--edited"]) == 0
    out, error = capsys.readouterr()
    assert "USD" not in out and "mine.plan.json was written for another plan" in error
    (planned / "mine.plan").write_text(plan)
    for text in ("{", "[]", '{"plan": 1}',
                 json.dumps({**json.loads((planned / "mine.plan.json").read_text()),
                             "measures": {"parts": 0}})):
        (planned / "mine.plan.json").write_text(text)
        record = read_record("mine.plan.sums")
        (planned / "mine.plan.sums").write_text(replace(record, outputs=tuple(
            File.of(file.name, ".") for file in record.outputs)).text)
        assert "is not a sidecar file of `pit-tools plan`" in read_note("mine.plan").why_not


def test_zone_files_that_are_not_those_of_the_plan_are_reported(planned, capsys):
    text = (planned / "from-por.csv").read_text()
    (planned / "from-por.csv").write_text(text + "\n")
    assert main(["survey", "mine.plan", "mine", "from-por.csv"]) == 2
    assert "from-por.csv: it is not the file that from.json.sums names" in capsys.readouterr().err
    (planned / "other.csv").write_text(text)
    assert "- ROCK: zone files are other.csv, but the plan's from-por.csv" in printed_by(
        capsys, "survey", "mine.plan", "mine", "other.csv")
