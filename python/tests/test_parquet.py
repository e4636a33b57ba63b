"""Exports in Parquet are read like those in CSV. If there is a package for Parquet it writes
and reads the files; otherwise they hold the frame that such a package gives to pandas, with
its types."""
from __future__ import annotations

import datetime
import importlib.util
import pickle
import re
from decimal import Decimal

import numpy as np
import pandas as pd
import pytest

import mines
from exports import MINE, USUAL, known
from pit_tools.cli import main
from pit_tools.errors import UserError
from pit_tools.exports.words import Words
from pit_tools.files.parquet import bytes_of, texts_of
from pit_tools.imports.steps import import_export
from test_back import PLAN

HAS_ENGINE = any(map(importlib.util.find_spec, ("pyarrow", "fastparquet")))


@pytest.fixture
def here(tmp_path, monkeypatch):
    """An empty folder; without a package for Parquet its files are frames after the mark."""
    monkeypatch.chdir(tmp_path)
    if not HAS_ENGINE:
        def read_parquet(path):
            with open(path, "rb") as file:
                assert file.read(4) == b"PAR1"
                return pickle.load(file)
        monkeypatch.setattr(pd, "read_parquet", read_parquet)
        monkeypatch.setattr(pd.DataFrame, "to_parquet",
                            lambda frame, path=None, index=None: b"PAR1" + pickle.dumps(frame))
    return tmp_path


def mine() -> pd.DataFrame:
    """The mine of `exports` with a type for each way to hold a number or a text."""
    return pd.DataFrame({
        "X": np.array([b.x for b in MINE], np.int64), "Y": np.array([b.y for b in MINE], np.float32),
        "Z": pd.array([b.z for b in MINE], dtype="Int32"),
        "TONNES": [None if b.kilograms is None else b.kilograms / 1000 for b in MINE],
        "AU": [None if b.grade is None else b.grade / 1e6 for b in MINE],
        "ZONE": pd.Categorical([None if b.zone == "air" else b.zone for b in MINE])})


def as_csv() -> str:
    return "X,Y,Z,TONNES,AU,ZONE\n" + "".join(
        f"{b.x},{b.y},{b.z},{known(b.kilograms, 3, '')},{known(b.grade, 6, '')},"
        f"{'' if b.zone == 'air' else b.zone}\n" for b in MINE)


def put(frame: pd.DataFrame, name: str = "a.parquet") -> None:
    with open(name, "wb") as file:
        file.write(frame.to_parquet(index=None))


def test_an_export_in_parquet_gives_the_mine_of_the_same_in_csv(here):
    put(mine())
    (here / "a.csv").write_text(as_csv())
    texts = []
    for name in ("a.parquet", "a.csv"):
        imported = import_export([name], Words(**USUAL))
        texts.append([(here / path).read_bytes() for path in imported.write("from")])
        texts.append(imported.report.text().split("\n", 1)[1])
    assert texts[0] == texts[2] and len(texts[0]) == 3
    assert texts[1] == texts[3] and "omitted: 255 rows without tonnes" in texts[1]


@pytest.mark.parametrize("column, at, cell", [("TONNES", 41, "abc"), ("AU", 0, "1.2 g/t"), ("X", 979, None)])
def test_a_cell_is_rejected_with_its_row(here, column, at, cell):
    frame = mine().astype({column: object})
    frame[column] = [None if value is None or value != value else str(value) for value in frame[column]]
    frame.loc[at, column] = cell
    put(frame)
    texts_of(frame).to_csv("a.csv", index=False)
    message = []
    for name in ("a.parquet", "a.csv"):
        with pytest.raises(UserError) as rejected:
            import_export([name], Words(**USUAL))
        message.append(str(rejected.value))
    assert message[0] == message[1].replace(f"a.csv: line {at + 2}", f"a.parquet: row {at + 1}")


def test_cells_are_what_a_csv_file_of_them_has():
    frame = pd.DataFrame({
        "single": np.array([0.1, np.nan], np.float32), "double": [0.1, 1e-7],
        "whole": pd.array([9007199254740993, None], dtype="Int64"), "truth": [True, None],
        "bytes": [b"ore", None], "decimal": [Decimal("1.50"), Decimal("1E+3")],
        "day": [datetime.date(2024, 3, 1), None], "text": ["", "a,b"], "large": [1e16, -1e30]})
    assert texts_of(frame).to_dict("list") == {
        "single": ["0.1", ""], "double": ["0.1", "1e-07"], "whole": ["9007199254740993", ""],
        "truth": ["TRUE", ""], "bytes": ["ore", ""], "decimal": ["1.5", "1000"],
        "day": ["2024-03-01", ""], "text": ["", "a,b"], "large": ["1e+16", "-1e+30"]}


def test_an_index_with_a_name_is_a_column(here):
    put(mine().set_index("ZONE"))
    assert import_export(["a.parquet"], Words(**USUAL)).zones == ["west", "east", "oxide"]


@pytest.mark.parametrize("words, message", [
    ({"grade": "CU"}, "a.parquet: no column `CU`: there are `X` `Y` `Z` `TONNES` `AU` `ZONE`"),
    ({"names": ["X"]}, "a.parquet: --names is for a text without a header, but Parquet has names")])
def test_words_that_do_not_fit_are_rejected(here, words, message):
    put(mine())
    with pytest.raises(UserError) as rejected:
        import_export(["a.parquet"], Words(**{**USUAL, **words}))
    assert str(rejected.value) == message


@pytest.mark.parametrize("fault, message", [
    (ImportError("no engine"), "it is a Parquet file, and no package .* is installed: install pyarrow"),
    (OSError("Couldn't deserialize thrift"), "the Parquet file cannot be read: Couldn't deserialize")])
def test_without_a_package_or_damaged_it_is_rejected(here, monkeypatch, capsys, fault, message):
    put(mine())

    def fails(path):
        raise fault
    monkeypatch.setattr(pd, "read_parquet", fails)
    words = "--x X --y Y --z Z --tonnes TONNES --grade AU --zone ZONE --out from"
    assert main(["import", "a.parquet", *words.split()]) == 2
    assert re.search(message, capsys.readouterr().err) and not list(here.glob("from*"))


def back_to(name: str, here) -> pd.DataFrame:
    """The export of 40 blocks by this name with a schedule on its rows."""
    rows = [(x, y, z) for z in range(2) for y in range(4) for x in range(5)]
    frame = pd.DataFrame({"ID": range(1, 42), "X": [100.0 + 20 * x for x, _, _ in rows] + [100.0],
                          "Y": [200 + 20 * y for _, y, _ in rows] + [200],
                          "Z": [50 + 10 * z for _, _, z in rows] + [70],
                          "T": [10800.0 + at for at in range(40)] + [np.nan], "AU": 2.5,
                          "ROCK": pd.Categorical(["ore", "waste"] * 20 + ["ore"])})
    if name.endswith(".csv"):
        frame.to_csv(name, index=False)
    else:
        put(frame, name)
    words = "--x X --y Y --z Z --tonnes T --grade AU --out from --size 20,20,10"
    assert main(["import", name, *words.split()]) == 0
    plan = PLAN.replace("zone,1,1,3\nzone,1,1,3\n", "zone,1,1,2\n")
    mines.quickly_compiled(here, plan, [(here / "from-all.csv").read_text()])
    (here / "schedule").write_text("0 0 0 1\n7 1 1 0.25\n7 0 2 0.75\n")
    out = "out" + name[1:]
    assert main(["back", "mine.plan", "mine", "schedule", "--onto", "from.json", "--out", out,
                 "--shares"]) == 0
    return pd.read_csv(out) if name.endswith(".csv") else pd.read_parquet(out)


def test_back_writes_parquet_onto_rows_of_parquet(here, capsys):
    found, wanted = back_to("a.parquet", here), back_to("a.csv", here)
    assert capsys.readouterr().out.count("41 rows, of which 40 are blocks of the instance") == 2
    assert list(found.columns) == list(wanted.columns)
    assert {name: str(found[name].dtype) for name in ("ID", "ROCK", "block", "mined", "period", "share_1")} == {
        "ID": "int64", "ROCK": "category", "block": "Int64", "mined": "float64", "period": "Int64",
        "share_1": "float64"}
    for name in ("ID", "block", "mined", "period", "share_0", "share_1"):
        assert found[name].astype(float).equals(wanted[name].astype(float)), name
    assert found["destination"].replace("", np.nan).equals(wanted["destination"])
    assert found["destination"].tolist()[7] == "dump"


def test_rows_of_parquet_are_not_printed_nor_put_over_other_files(here, capsys):
    back_to("a.parquet", here)
    again = ["back", "mine.plan", "mine", "schedule", "--onto", "from.json"]
    capsys.readouterr()
    assert main(again) == 2
    assert "the export is Parquet, which cannot be printed: give --out" in capsys.readouterr().err
    assert main([*again, "--out", "out.parquet"]) == 0
    before = (here / "a.parquet").read_bytes()
    assert main([*again, "--out", "a.parquet"]) == 2
    assert (here / "a.parquet").read_bytes() == before
    put(pd.DataFrame({"other": [1]}), "other.parquet")
    assert main([*again, "--out", "other.parquet"]) == 2


def test_a_name_that_is_repeated_is_rejected():
    with pytest.raises(UserError, match="the export has a column `mined` already"):
        bytes_of(pd.concat([mine().assign(mined=1), pd.DataFrame({"mined": [1]})], axis=1))
