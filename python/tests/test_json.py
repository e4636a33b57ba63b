"""What commands print by --json, compared with their text."""
import json

import pytest

import mines
from pit_tools.cli import main


@pytest.fixture
def here(monkeypatch, tmp_path):
    monkeypatch.chdir(tmp_path)
    mines.six_blocks(tmp_path)
    (tmp_path / "schedule").write_text("3 0\n0 1\n")
    return tmp_path


def printed(capsys, *words, status=0):
    """Returns what a command prints as JSON, and as text."""
    assert main([*words, "--json"]) == status
    found = json.loads(capsys.readouterr().out)
    assert main(list(words)) == status
    return found, capsys.readouterr().out


def test_a_check_has_what_it_prints(here, capsys):
    found, text = printed(capsys, "check-schedule", "mine.cpit", "mine.prec", "schedule", status=1)
    assert f"{found['blocks']:.6g} blocks, worth {found['worth']:.2f}\n" in text
    assert found["broken"] and not found["holds"]
    assert text.splitlines()[1:] == [*found["uses"], *(f"broken: {line}" for line in found["broken"])]


def test_a_number_without_end_is_null(here, capsys):
    """JSON has none, and readers in other languages reject what Python prints for it."""
    (here / "schedule").write_text(f"3 0 1{'0' * 308}\n" * 2)
    assert main(["check-schedule", "mine.cpit", "mine.prec", "schedule", "--json"]) == 1
    found = json.loads(capsys.readouterr().out, parse_constant=pytest.fail)
    assert found["worth"] is None and not found["holds"]


def test_bounds_have_what_they_print(here, capsys):
    found, text = printed(capsys, "bounds", "mine")
    assert list(found) == [line[:22].strip() for line in text.splitlines()]
    assert found["the ultimate pit"] == float(text.splitlines()[1].split()[-1])


def test_a_survey_has_what_it_prints(here, capsys):
    found, text = printed(capsys, "survey", "mine.plan", "mine", "mine-0.csv")
    assert text.startswith(f"{found['name']}: {len(found['rock']) - 1} zones, "
                           f"{len(found['destinations'])} destinations, "
                           f"{len(found['resources'])} resources, {found['periods']} periods\n")
    assert [f"- {one['part']}: {one['text']}" for one in found["look_at"] + found["notes"]] == [
        line for line in text.splitlines() if line.startswith("- ")]
    assert found["rock"]["all"]["rows"] == 6 and found["pit"]["blocks"] > 0


def test_an_import_has_what_it_prints(here, capsys):
    assert main(["deposit", "--size", "4,3,3", "--export", "mine-0.csv", "--out", "export.csv"]) == 0
    found, text = printed(capsys, "import", "export.csv", *"--x XC --y YC --z ZC --tonnes TONNAGE "
                          "--grade AU_PPM --zone DOMAIN --size 10,10,10 --out from".split())
    *zones, whole = found["zones"]
    assert whole["zone"] is None and whole["blocks"] == sum(zone["blocks"] for zone in zones) == 6
    assert whole["metal"] == pytest.approx(whole["tonnes"] * whole["grade"])
    assert text.startswith("\n".join(found["facts"])) and text.endswith("\n".join(found["records"]) + "\n")
    assert [f"written: {path}" for path in found["written"]] == [
        line for line in text.splitlines() if line.startswith("written: ")]
