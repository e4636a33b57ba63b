"""What pit-tools writes, read by the built program."""
from __future__ import annotations

import subprocess

from pit_tools.cli import main

ZONES = ["deposit-oxide.csv", "deposit-west.csv", "deposit-east.csv"]

WORDS = ["--x", "XC", "--y", "YC", "--z", "ZC", "--tonnes", "TONNAGE", "--grade", "AU_PPM",
         "--zone", "DOMAIN", "--out", "from"]


def test_an_export_of_the_deposit_compiles_to_the_same_instance(pitc, tmp_path, monkeypatch,
                                                                capsys):
    monkeypatch.chdir(tmp_path)
    assert main(["deposit"]) == 0 and main(["deposit", "--export", *ZONES]) == 0
    (tmp_path / "export.csv").write_text(capsys.readouterr().out, newline="")
    assert main(["import", "export.csv", *WORDS]) == 0
    files = ["from-oxide.csv", "from-west.csv", "from-east.csv"]
    for base, zones in (("deposit", ZONES), ("from", files)):
        done = subprocess.run([pitc, "compile", "--plan", "deposit.plan", "--out", base, *zones],
                              capture_output=True, text=True)
        assert (done.stdout, done.stderr, done.returncode) == ("rows 4157\n", "", 0)
    assert (tmp_path / "from.prec").read_bytes() == (tmp_path / "deposit.prec").read_bytes()
    lines = [(tmp_path / f"{base}.blocks").read_text().splitlines() for base in ("deposit", "from")]
    for sound, found in zip(*lines):
        # Rock below 0.002 g/t has no grade in the export, and so 0.
        assert found == sound or (found.split()[5], found.split()[:5]) == (
            "0", sound.split()[:5]) and float(sound.split()[5]) < 0.002


def test_a_plan_from_arguments_is_one_of_pitc(pitc, tmp_path, monkeypatch, capsys):
    monkeypatch.chdir(tmp_path)
    assert main(["deposit"]) == 0 and main(["deposit", "--export", *ZONES]) == 0
    (tmp_path / "export.csv").write_text(capsys.readouterr().out, newline="")
    assert main(["import", "export.csv", *WORDS]) == 0
    assert main(["plan", "from.json", "--out", "mine.plan", "--name", "mine", "--price", "1804 "
                 "USD/oz", "--mining", "1.80 USD/t", "--mill", "recovery 92.5 %, cost 14.70 USD/t",
                 "--leach", "heap: cost 4.40 USD/t, 30 % from 0.2 g/t, 48 % from 0.6 g/t", "--dump",
                 "cost 0.20 USD/t", "--slope", "45", "--slope", "west: E 56.3, W 45, N 51.3, S 3:2",
                 "--periods", "16 quarters", "--limit", "crusher: mill heap, at most 2.5 Mt a year",
                 "--limit", "fleet: all, 1 Mt to 6 Mt a year, periods 0 to 7"]) == 0
    zones = ["from-west.csv", "from-east.csv", "from-oxide.csv"]
    done = subprocess.run([pitc, "compile", "--plan", "mine.plan", "--out", "mine", *zones],
                          capture_output=True, text=True)
    assert (done.stdout, done.stderr, done.returncode) == ("rows 4157\n", "", 0)
    text = (tmp_path / "mine.pcpsp").read_text()
    assert "NPERIODS: 16\n" in text and "DISCOUNT_RATE: 0.019427\n" in text
    assert text.endswith("1 7 I 250000 1500000\n") and "\n0 15 L 625000\n" in text
