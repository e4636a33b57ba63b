"""The library's tables, sums and schedules are those of the deposits that its seeds make, and
better ones are accepted."""
import os
import re

import pandas as pd
import pytest

from pit_tools.cli import main
from pit_tools.deposits import library, search
from pit_tools.deposits.search import Finding, instance_of, named, taken
from pit_tools.deposits.seeded import Deposit
from pit_tools.schedules.files import read_schedule


def test_the_library_agrees_with_its_table(tmp_path):
    for deposit in library.DEPOSITS:
        assert list(library.errors_of(deposit, str(tmp_path))) == []


def test_no_schedule_is_worth_more_than_its_bound_and_a_pcpsp_no_less_than_its_cpit():
    table = pd.read_csv(library.FOLDER + "/TABLE", sep=" ")
    assert len(table) == 10 == len({deposit.seed for deposit in library.DEPOSITS})
    assert ((table.cpit_best <= table.cpit_bound + 0.01).all()
            and (table.pcpsp_best <= table.pcpsp_bound + 0.01).all())
    assert ((table.pcpsp_best >= table.cpit_best).all()
            and (table.pcpsp_bound <= table.pit_value).all())


def test_each_schedule_has_a_day_an_author_and_a_way(capsys):
    assert main(["library", "--found"]) == 0
    lines = [line.split(",", 4) for line in capsys.readouterr().out.splitlines()[1:]]
    assert [line[:2] for line in lines] == [[deposit.name, kind] for deposit in library.DEPOSITS
                                            for kind in ("cpit", "pcpsp")]
    assert all(re.fullmatch(r"\d{4}-\d\d-\d\d", line[2]) and line[3] and line[4] for line in lines)


@pytest.fixture()
def known(tmp_path):
    """A library in a folder made for it."""
    assert main(["library", "--out", str(tmp_path / "known")]) == 0
    return tmp_path / "known"


def cells(folder, name="lens6"):
    return library.known(name, str(folder)).row


def set_cells(folder, **changes):
    table = library.table_of(str(folder), "TABLE")
    table.loc[table["name"] == "lens6", list(changes)] = list(changes.values())
    table.to_csv(folder / "TABLE", sep=" ", index=False)


@pytest.mark.parametrize("words", [["--check"], ["--seek", "lens1.cpit"], ["--better", "lens1.cpit-schedule"]])
def test_a_folder_that_nothing_goes_into_is_rejected(tmp_path, capsys, words):
    assert main(["library", *words, "--out", str(tmp_path / "new")]) == 2
    assert "it excludes --check, --better and --seek" in capsys.readouterr().err
    assert not (tmp_path / "new").exists()


def test_a_changed_schedule_is_reported(known, capsys):
    assert main(["library", "--check", "--library", str(known)]) == 0
    path = known / "lens1.cpit-schedule"
    path.write_text("".join(path.read_text().splitlines(True)[1:]))
    assert main(["library", "--check", "--library", str(known)]) == 1
    assert "lens1.cpit-schedule" in capsys.readouterr().err


def test_a_better_schedule_is_taken_with_its_day_and_author(known, tmp_path, capsys):
    """The best one is submitted while the library has one without its last block."""
    best, path = cells(known)["cpit_best"], known / "lens6.cpit-schedule"
    text = path.read_text()
    (tmp_path / path.name).write_text(text)
    path.write_text("".join(text.splitlines(True)[:-1]))
    set_cells(known, cpit_best="1.00")
    words = ["library", "--library", str(known), "--better", str(tmp_path / path.name), "--by",
             "A. Miner, B", "--how", "by hand"]
    assert main(words) == 0 and f"lens6 cpit: {best} in place of 1.00" in capsys.readouterr().out
    assert path.read_text() == text and cells(known)["cpit_best"] == best
    line = library.table_of(str(known), "FOUND").query("name == 'lens6' and kind == 'cpit'").iloc[0]
    assert (line["by"], line["how"]) == ("A. Miner, B", "by "
                                         "hand") and re.fullmatch(r"\d{4}-\d\d-\d\d", line["date"])
    assert main(["library", "--check", "--library", str(known)]) == 0
    before = {name: (known / name).read_bytes() for name in os.listdir(known)}
    assert main(words) == 1 and f"{best} is not above {best}" in capsys.readouterr().out
    assert {name: (known / name).read_bytes() for name in os.listdir(known)} == before


@pytest.mark.parametrize("change, message", [
    (lambda text: text.splitlines(True)[0], "is infeasible: block"),
    (lambda text: text + "9999 0\n", "no block below"),
])
def test_a_schedule_that_is_not_feasible_is_rejected(known, tmp_path, capsys, change, message):
    given = tmp_path / "lens6.cpit-schedule"
    given.write_text(change((known / given.name).read_text()))
    set_cells(known, cpit_best="1.00")
    before = {name: (known / name).read_bytes() for name in os.listdir(known)}
    assert main(["library", "--library", str(known), "--better", str(given), "--by", "me", "--how",
                 "so"]) == 2
    assert message in capsys.readouterr().err
    assert {name: (known / name).read_bytes() for name in os.listdir(known)} == before


def test_a_value_above_its_bound_is_reported(known, tmp_path, capsys):
    set_cells(known, cpit_best="1.00", cpit_bound="2.00")
    assert main(["library", "--library", str(known), "--better", str(known / "lens6.cpit-schedule"),
                 "--by", "me", "--how", "so"]) == 2
    assert "above the bound 2.00" in capsys.readouterr().err


@pytest.mark.parametrize("words, message",
                         [(["--better", "mine.schedule", "--by", "me", "--how", "so"], "is not a "
                           "schedule of the library"), (["--better", "lens2.cpit-schedule", "--by",
                                                         "me", "--how", "so"], "is not a schedule"),
                          (["--better", "lens6.cpit-schedule"], "needs --by"),
                          (["--library", "gone", "--check"], "not a library")])
def test_what_names_nothing_is_reported(tmp_path, monkeypatch, capsys, words, message):
    monkeypatch.chdir(tmp_path)
    assert main(["library", *words]) == 2 and message in capsys.readouterr().err


def test_a_lower_bound_comes_in_alone(known):
    deposit, kind = named("lens6.pcpsp")
    mine = instance_of(deposit, str(known))
    before = cells(known)
    bound = (float(before["pcpsp_best"]) + float(before["pcpsp_bound"])) / 2
    message = taken(Finding(deposit, kind, None, bound, "me", "so"), mine, str(known))
    assert f"bound {bound:.2f}" in message and cells(known) == {**before,
                                                                "pcpsp_bound": f"{bound:.2f}"}


def test_a_search_from_the_best_takes_nothing(known, capsys):
    assert main(["library", "--library", str(known), "--seek", "vein5.cpit", "--seconds", "2"]) == 1
    best = cells(known, "vein5")["cpit_best"]
    assert best == cells(known, "vein5")[
        "cpit_bound"] and f"vein5 cpit: {best} is not above {best}" in capsys.readouterr().out


def test_a_library_is_made_anew(tmp_path, monkeypatch):
    monkeypatch.setattr(library, "DEPOSITS", [Deposit("lens6", 6, (5, 4, 3), "lens")])
    assert main(["library", "--seek", "all", "--out", str(tmp_path / "anew"), "--seconds", "36000"]) == 0
    assert main(["library", "--check", "--library", str(tmp_path / "anew")]) == 0
    deposit, kind = named("lens6.cpit")
    problem = instance_of(deposit, str(tmp_path / "anew")).cpit
    found = read_schedule(library.schedule_path("lens6", kind, str(tmp_path / "anew")), problem)
    assert f"{found.worth(problem):.2f}" == cells(tmp_path / "anew")["cpit_bound"]
    assert search.named("lens6.pcpsp-schedule") == (deposit, "pcpsp")
