"""Each cause of an error has its own line: arguments, files and tables that once ended in a
failure of the program, in an incomplete file, or in a result for another question."""
import csv
import io
import json
import os
import random
import re

import openpyxl
import pytest

import mines
from pit_tools.batches.listing import read_list
from pit_tools.cli import main
from pit_tools.deposits import library
from pit_tools.errors import UserError
from pit_tools.exports import source, workbook
from pit_tools.files import inputs, outputs
from pit_tools.pits import compiled
from pit_tools.plans.file import grid_and_zones, plan_of
from pit_tools.plans.zone_files import count_lines, read_zone_file

EXPORT = "X,Y,Z,T,AU,ZONE\n" + "".join(f"{x},{y},{z},2700,{x % 3}.5,{'west' if x < 20 else 'east'}\n"
                                       for z in (0, 10) for y in (0, 10) for x in range(0, 40, 10))

WORDS = ["--x", "X", "--y", "Y", "--z", "Z", "--tonnes", "T", "--grade", "AU"]

#: Files that the arguments below name, besides the mine of six blocks.
FILES = {
    "LIST": "mine.plan mine-0.csv\n", "export.csv": EXPORT, "two": "²\n", "long": "9" * 5000 + "\n",
    "ids": "0 1\n1 99999999999999999999\n", "inf.schedule": "0 0 0 1\n3 0 0 inf\n",
    "empty.csv": "x,y,z,tonnes,grade\n", "far.csv": "x,y,z,tonnes,grade\n0,0,0,1,1\n"
    "9000,9000,9000,1,1\n0.001,0,0,1,1\n",
    "short.plan": "name,a\ndump\n", "thin.plan": "grid,0,0,0,10,0.0004,10\nzone,1,1,1\n",
    "vast.plan": "grid,0,0,0,10,10,1e999999999\nzone,1,1,1\n", "large.plan": "name,a\n" * 200_000,
    "latin.plan": "\n".join(mines.SIX) + "\ndump,déchets,200\n", "deep.json": "[" * 100_000,
    "more.plan": "\n".join(mines.SIX).replace("rate,0.08", "rate,0.08,taux réel") + "\n"}


@pytest.fixture()
def here(tmp_path, monkeypatch):
    """A folder with the mine of six blocks and these files, which is the current one."""
    monkeypatch.chdir(tmp_path)
    mines.six_blocks(tmp_path)
    for name, text in FILES.items():
        (tmp_path / name).write_text(text, encoding="utf-8")
    return tmp_path


def files_of(folder):
    return {name: (folder / name).read_bytes() for name in sorted(os.listdir(folder))}


def rejected(words, capsys):
    """Returns the line with which a command rejects its arguments."""
    assert main(words) == 2
    error = capsys.readouterr().err
    assert error.startswith(f"pit-tools {words[0]}: ") and error.count("\n") == 1
    return error


SECTION = ["survey", "mine.plan", "mine", "--out", "a.png"]

REJECTED = [
    (["plan", "--walls", "mine.plan", "--decimals", "-1"], "--decimals: -1 is not from 0 to 9"),
    (["plan", "--walls", "mine.plan", "--within", "91"], "--within: 91 is not from 0 to 90"),
    (["plan", "--walls", "thin.plan"],
     "record 1: `0.0004` has more decimals: a size of the grid has at most 3"),
    (["plan", "--walls", "vast.plan"], "`1e999999999` is not a number"),
    (["plan", "--walls", "large.plan"], "it has more than 1,048,576 bytes, so it is not a plan"),
    (["plan", "from.json", "--benches", "1000000000"], "--benches: 1000000000 is not the height"),
    (["plan", "from.json", "--parts", "10000000"], "--parts: 10000000 is not from 1"),
    (["plan", "deep.json"], "it is not what `pit-tools import` writes"),
    (["pit", "mine", "--plan", "mine.plan", "--K", "²"], "--K: `²` is neither 1 to 20"),
    (["pit", "mine", "--out", ""], "--out has an empty value"),
    (["pit", "mine", "--out="], "--out has an empty value"),
    *[([*words], f"`{words[-1]}` ends in a slash, so it names a folder") for words in (
        ["pit", "mine", "--out", "f/"], ["read", "mine", "--out", "f/"],
        ["compile", "--sections", "-", "--out", "f/"],
        ["compile", "--plan", "mine.plan", "one.csv", "--out", "./"],
        ["import", "export.csv", "--x", "X", "--y", "Y", "--z", "Z", "--out", "f/"],
        ["minelib", "--publish", "mine", "--out", "f/"], ["nested", "mine.plan", "mine", "--out", "f/"])],
    (["read", ""], "read has an empty value"),
    (["by-zone", "mine:²", "--out", "both"], "give an instance and its zones"),
    (["deposit", "--size", "²,2,2"], "is not a list of integers"),
    (["deposit", "--size", "20000,2,2"], "a size is at most 10,000 blocks along an axis"),
    (["deposit", "--size", "9999,9999,9999"], "64,000,000 in all"),
    (["deposit", "--seed", "9-3"], "a range as 1-100, and not `9-3`"),
    (["deposit", "--seed", "1-9999999"], "from 1 to 1000000"),
    (["deposit", "--name", "é"], "invalid name `é`: it must have 1 to 64 letters"),
    (["deposit", "--name", "a,b"], "invalid name `a,b`"),
    ([*SECTION, "--section", "y=1e300"], "there is no block at y = 1e+300 m"),
    ([*SECTION, "--section", "y=1e300"], "there is no block at y = 1e+300 m"),
    ([*SECTION, "--pit", "two"], "two: line 1: `²` is not a block"),
    ([*SECTION, "--pit", "long"], "long: line 1: `999"),
    (["survey", "mine.plan", "mine", "--section", "y=inf"], "`y=inf`: give an axis and metres"),
    (["survey", "mine.plan", "mine", "--section", "y=1e300"], "there is no block at y = 1e+300 m"),
    (["batch", "LIST", "--options", "'"], "--options: no closing quotation: '"),
    (["batch", "LIST", "--relax", "0"], "--relax: give seconds above 0"),
    (["check-schedule", "mine.cpit", "mine.prec", "two", "--most", "-1"], "--most: -1 is below 0"),
    (["vary", "mine.plan", "--set", "price=x1e400"], "`x1e400`: `6000000` cannot be multiplied by it"),
    (["vary", "latin.plan", "--set", "K=2"], "record 15: `déchets` is not a name"),
    (["vary", "more.plan", "--set", "K=2"], "more.plan: record 8: 2 cells after `rate`, which needs 1"),
    (["vary", "short.plan", "--name", "a", "--set", "dump.a.cost=1"], "0 cells after `dump`, which needs 2"),
    (["vary", "mine.plan", "--set", "K=٣"], "`٣` is not a number"),
    (["minelib", "--to-published", "two", "--ids", "ids", "--out", "out"],
     "ids: line 2: it is not a block with its published identifier"),
    (["back", "mine.plan", "mine", "inf.schedule"], "inf.schedule: line 2: it is not a line of a pit"),
    (["deposit", "--export", "empty.csv"], "there is no block in empty.csv"),
    (["deposit", "--export", "far.csv"], "are two groups of them far apart?"),
]


@pytest.mark.parametrize("words, message", REJECTED, ids=[" ".join(words)[:60] for words, _ in REJECTED])
def test_words_that_cannot_be_right_are_reported_in_a_line(here, capsys, words, message):
    before = files_of(here)
    assert message in rejected(words, capsys)
    assert files_of(here) == before


@pytest.mark.parametrize("words", [["solve", "mine.cpit", "mine.prec", "--seconds", "-1"],
                                   ["solve", "mine.cpit", "mine.prec", "--ratio", "nan"],
                                   ["bounds", "mine", "--seconds", "inf"],
                                   ["batch", "LIST", "--relax", "nan"],
                                   ["library", "--seek", "lens1.cpit", "--seconds", "x"]])
def test_a_number_of_seconds_is_none_below_0_and_none_without_end(here, capsys, words):
    assert main(words) == 2
    assert capsys.readouterr().err.endswith("is not a number of 0 or more\n")


@pytest.mark.parametrize("option, number", [
    *[("--decimals", text) for text in ("1_0", "\uff13", " 1", "3" * 5000)],
    *[("--within", text) for text in ("1_0", "\uff13", "nan", "1e999", "1.5.", "3" * 5000)]])
def test_a_number_of_an_option_has_digits_of_ascii(here, capsys, option, number):
    assert main(["plan", "--walls", "mine.plan", f"{option}={number}"]) == 2
    assert f"argument {option}: invalid" in capsys.readouterr().err


def test_a_cell_of_a_plan_that_is_too_long_is_reported(monkeypatch, tmp_path):
    (tmp_path / "a.plan").write_text('name,"' + "x" * 2000)
    before = csv.field_size_limit(1000)
    try:
        for read in (grid_and_zones, lambda path: plan_of((tmp_path / "a.plan").read_text(), path)):
            with pytest.raises(UserError, match="a.plan: after record 0: field larger"):
                read(str(tmp_path / "a.plan"))
    finally:
        csv.field_size_limit(before)


# Exports


REJECTED_IMPORTS = [
    (["--separator", ";;"], "--separator must be one character, as ; or tab, not `;;`"),
    (["--separator", "§"], "--separator must be one character"),
    (["--separator", '"'], "--separator must be one character"),
    (["--thousands", ".,"], "--thousands must be one character"),
    (["--decimal", ".,"], "--decimal must be a point or a comma"),
    (["--decimal", ",", "--thousands", ","], "--decimal and --thousands are both `,`"),
    (["--encoding", "utf-16"], "export.csv: it is not written in utf-16: "),
    (["--encoding", "hex"], "unknown encoding `hex`"),
    (["--size", "inf,10,10"], "--size: give three numbers"),
    (["--size", "1e30,10,10"], "--size: `1e30,10,10` goes beyond 1,000,000,000"),
    (["--first", "-1e30,0,0", "--size", "10,10,10"], "--first: `-1e30,0,0` goes beyond"),
    (["--blocks", "4.5,2,2"], "--blocks: `4.5,2,2`: numbers of blocks must be integers"),
    (["--x-bearing", "60", "--about", "inf,0"], "--about: give x and y of the fixed point"),
    (["--grade", 'where(AU > 1, "high", AU)'], "cannot be computed: could not convert string"),
    (["--grade", '"%9999999999d" % AU'], "a text is compared with others, but not computed with"),
    (["--tonnes", "T * 1" + "0" * 400], "cannot be computed: int too large"),
    (["--tonnes", "+".join(["T"] * 300)], "has more than 200 nested parts"),
    (["--tonnes", "+".join(["T"] * 5000)], "T+..` is not a formula"),
    (["--tonnes=" + "-" * 300 + "T"], "has more than 200 nested parts"),
    (["--zones", "one-column"], "one-column: its columns must be `zone`"),
    (["--zones", "short-row"], "short-row: line 3 has 1 cells, but the first line 2"),
    (["--zones", "long-row"], "long-row: line 2 has 3 cells, but the first line 2"),
    (["--zones", "nothing"], "nothing: it is empty"),
    (["--zones", "latin"], "latin: it is not text in UTF-8"),
    (["--zones", "gone"], "gone: No such file or directory"),
]

TABLES = {"one-column": "zone\nwest\n", "short-row": "ZONE,zone\nwest,left\neast\n",
          "long-row": "ZONE,zone\n1,west,left\n2,east,right\n", "nothing": "\n",
          "latin": "ZONE,zone\nouest,d\udce9p\u00f4t\n"}


@pytest.mark.parametrize("words, message", REJECTED_IMPORTS,
                         ids=[" ".join(words)[:50] for words, _ in REJECTED_IMPORTS])
def test_what_import_cannot_read_so_is_reported_in_a_line(here, capsys, words, message):
    for name, text in TABLES.items():
        (here / name).write_bytes(text.encode("utf-8", "surrogateescape"))
    assert message in rejected(["import", "export.csv", *WORDS, *words], capsys)


def test_an_export_that_was_read_need_not_be_closed(here, monkeypatch):
    class Unclosed(io.BytesIO):
        def close(self):
            super().close()
            raise OSError(5, "Input/output error")

    monkeypatch.setattr(source, "opened", lambda path: Unclosed(b"X\n1\n"))
    export = source.Source("a.csv", "utf-8", "UTF-8", ",", ["X"], 0, True, 1)
    with export.handle() as text:
        assert text.read() == "X\n1\n"
    with pytest.raises(UserError, match="no number"), export.handle():
        raise UserError("no number")


def test_a_table_of_zones_may_be_cut_by_any_separator(here, capsys):
    for sign in ",;\t|":
        (here / "zones").write_text(f"ZONE{sign}zone\n\nwest{sign}left\n*{sign}'right'\n")
        assert main(["import", "export.csv", *WORDS, "--zones", "zones"]) == 0
        assert re.search("^left +[0-9]", capsys.readouterr().out, re.M)


def test_a_text_of_another_encoding_than_is_named_is_not_read_with_holes(here, capsys):
    (here / "latin.csv").write_bytes(EXPORT.replace("west", "ouést").encode("latin-1"))
    message = rejected(["import", "latin.csv", *WORDS, "--encoding", "utf-8", "--zone", "ZONE"], capsys)
    assert "latin.csv: it is not written in utf-8: 'utf-8' codec can't decode byte 0xe9" in message
    assert main(["import", "latin.csv", *WORDS, "--encoding", "LATIN1", "--zone", "ZONE"]) == 0
    assert re.search("^ouést +[0-9]", capsys.readouterr().out, re.M)


def test_an_encoding_goes_by_any_of_its_names(here, capsys, monkeypatch):
    """If chunks of bytes were cut after an LF, each further chunk of UTF-16 was garbled."""
    monkeypatch.setattr(source, "PIECE", 512)
    text = EXPORT.replace("west", '"west"')
    for name in ("UTF16", "utf_16_le", "UTF-16BE", "utf-32"):
        (here / "wide.csv").write_bytes(text.encode(name))
        assert main(["import", "wide.csv", *WORDS, "--encoding", name, "--zone", "ZONE"]) == 0, name
        assert "16 rows read" in capsys.readouterr().out


def test_lines_that_end_with_cr_alone_are_read_in_chunks(here, capsys, monkeypatch):
    monkeypatch.setattr(source, "PIECE", 100)
    monkeypatch.setattr(source, "MOST_LINE", 60)
    (here / "mac.csv").write_bytes(EXPORT.replace("\n", "\r").encode())
    assert main(["import", "mac.csv", *WORDS]) == 0 and "16 rows read" in capsys.readouterr().out
    (here / "mac.csv").write_bytes((EXPORT + "0,0,20,1\n").replace("\n", "\r").encode())
    assert "line 18 has 4 cells" in rejected(["import", "mac.csv", *WORDS], capsys)


@pytest.mark.parametrize("text, message", [("\n" * 150 + EXPORT, "the first 100 lines are blank"),
                                           ("\n" * 30 + EXPORT.replace("AU", "CU"), "no column `AU`"),
                                           ("a title\n" + "9" * 5000 + "\nX\n1\n2\n", "no column `Y`")],
                         ids=["blank", "blank, then another", "a long number"])
def test_lines_before_a_header_that_is_missing(here, capsys, text, message):
    (here / "other.csv").write_text(text)
    assert message in rejected(["import", "other.csv", *WORDS], capsys)


def test_what_can_be_read_only_once_is_rejected_unread(here, capsys):
    os.mkfifo("pipe")
    for read in (read_zone_file, count_lines):
        with pytest.raises(UserError, match="pipe: it is a pipe or a device"):
            read("pipe")
    assert "pipe: it is a pipe" in rejected(["import", "pipe", *WORDS], capsys)


# Workbooks


def book_of(text, **far):
    """A workbook with the cells of a text, and some more by their names."""
    made = openpyxl.Workbook()
    for line in text.splitlines():
        made.active.append([float(cell) if cell[:1].isdigit() else cell for cell in line.split(",")])
    for name, value in far.items():
        made.active[name] = value
    file = io.BytesIO()
    made.save(file)
    return file.getvalue()


def test_a_workbook_of_any_name_is_read(here, capsys):
    for name in ("export", "export.dat", "export.csv"):
        (here / name).write_bytes(book_of(EXPORT))
        assert main(["import", name, *WORDS]) == 0 and "16 rows read" in capsys.readouterr().out


def test_a_damaged_workbook_is_read_or_reported_in_a_line(here, capsys):
    content, chances = book_of(EXPORT), random.Random(7)
    cut = [content[:at] for at in chances.sample(range(4, len(content)), 12)]
    places = [*chances.sample(range(4, len(content)), 28), *range(len(content) - 20, len(content), 5)]
    for damaged in [*cut, *(content[:at] + bytes([content[at] ^ 255]) + content[at + 1:]
                            for at in places)]:
        (here / "a.xlsx").write_bytes(damaged)
        status = main(["import", "a.xlsx", *WORDS])
        error = capsys.readouterr().err
        assert status in (0, 2) and error.count("\n") == (status == 2), error
        assert status == 0 or "a.xlsx" in error


def test_a_cell_far_from_all_others_is_reported_and_an_empty_one_is_none(here, capsys, monkeypatch):
    monkeypatch.setattr(workbook, "LEAST_PLACES", 1000)
    (here / "a.xlsx").write_bytes(book_of(EXPORT, XFD3=1.0))
    assert "extends to XFD3, but most of it is empty: clear" in rejected(["import", "a.xlsx", *WORDS], capsys)
    (here / "a.xlsx").write_bytes(book_of(EXPORT, ALL3="", A2000=""))
    assert main(["import", "a.xlsx", *WORDS]) == 0


def test_a_workbook_that_grows_beyond_all_measure_is_rejected(here, capsys, monkeypatch):
    (here / "a.xlsx").write_bytes(book_of(EXPORT))
    monkeypatch.setattr(source, "LEAST_UNPACKED", 1000)
    monkeypatch.setattr(source, "MOST_TIMES", 1)
    assert "a.xlsx: the workbook unpacks to more than" in rejected(["import", "a.xlsx", *WORDS], capsys)


# What import stores


@pytest.mark.parametrize("key, value", [
    ("words", {"x": 5}), ("words", {"zone": "ZONE"}), ("words", {"holes": 1}), ("exports", [3]),
    ("words", {"depth": "Z"}), ("zones", ["a"]), ("zones", [{"name": "a", "file": 1}]),
    ("grid", {"origin": ["0", "0", "0"], "size": ["NaN", "1", "1"], "blocks": [1, 1, 1]}),
    ("grid", {"origin": ["0", "0", "0"], "size": ["1", "0", "1"], "blocks": [1, 1, 1]}),
    ("grid", {"origin": ["0", "0", "0"], "size": ["1", "1", "1"], "blocks": ["a", 1, 1]}),
    ("frame", {"lengths": [1, 1], "turn": None, "unit": "m"}), ("facts", 7)])
def test_a_record_of_an_import_that_was_changed_is_reported(here, capsys, key, value):
    assert main(["import", "export.csv", *WORDS, "--out", "from"]) == 0
    message = json.loads((here / "from.json").read_text())
    message[key] = value
    (here / "from.json").write_text(json.dumps(message))
    capsys.readouterr()
    words = ["plan", "from.json", "--price", "58 USD/g", "--mill", "recovery 90 %, cost 15 USD/t"]
    assert "from.json: it is not the file that from.json.sums names" in rejected(words, capsys)
    error = rejected([*words, "--edited"], capsys)
    assert "from.json: it is not what `pit-tools import` writes" in error or "grid: `NaN`" in error


# What is written


def test_an_export_whose_first_column_is_a_name_is_no_plan(here):
    (here / "blocks.csv").write_text("name,x,y\n1,2,3\n")
    with inputs.of_command(), pytest.raises(UserError, match="of another kind than `plan`"):
        with outputs.opened("blocks.csv", "plan", "ascii") as file:
            file.write("name,a\n")
    for text in ((here / "mine.plan").read_text(), "name,a,,,\r\ngrid,0,0,0,1,1,1,,\r\n"):
        (here / "old.plan").write_text(text, newline="")
        with inputs.of_command(), outputs.opened("old.plan", "plan", "ascii") as file:
            file.write("name,a\ngrid,0,0,0,1,1,1\n")


def test_a_list_of_variations_names_files_with_blanks_as_one(here):
    (here / "six blocks.csv").write_text(mines.SIX_ROWS)
    (here / "LIST").unlink()
    assert main(["vary", "mine.plan", "--set", "K=1,2", "--zones", "six blocks.csv", "--list",
                 "LIST"]) == 0
    assert [entry.zones for entry in read_list("LIST").entries] == [("six blocks.csv",)] * 2


class Input:
    """Standard input of these bytes."""

    def __init__(self, content):
        self.buffer = io.BytesIO(content)


def test_sections_that_were_cut_short_become_no_files(here, monkeypatch, capsys):
    texts = [b"== " + text.encode() + b"\n" + (here / f"mine.{text}").read_bytes()
             for text in ("blocks", "prec", "upit", "pcpsp", "cpit")]
    whole = b"".join(texts)
    before = files_of(here)
    ends = [at + 1 for at, sign in enumerate(whole) if sign == 10]
    for end in [*ends[:-1], *(at - 2 for at in ends), len(whole) - 1]:
        monkeypatch.setattr("sys.stdin", Input(whole[:end]))
        assert main(["compile", "--sections", "-", "--out", "again"]) == 2, whole[:end][-40:]
        assert capsys.readouterr().err.count("\n") == 1 and files_of(here) == before
    monkeypatch.setattr("sys.stdin", Input(whole))
    assert main(["compile", "--sections", "-", "--out", "again"]) == 0
    assert (here / "again.cpit").read_bytes() == before["mine.cpit"]


def test_blocks_at_other_places_are_not_those_of_the_other_instance(here, capsys):
    text = (here / "mine.blocks").read_text()
    for ending in ("blocks", "prec", "upit", "pcpsp", "cpit"):
        (here / f"other.{ending}").write_bytes((here / f"mine.{ending}").read_bytes())
    (here / "other.blocks").write_text(text.replace("5 2 0 1", "5 3 0 1"))
    message = rejected(["by-zone", "mine:0", "other:1", "--out", "both"], capsys)
    assert "the instances have different blocks" in message


# Other programs and folders


@pytest.mark.parametrize("old, new", [("900,6000000,1500", "900,6000000,0"),
                                      ("900,6000000,1500", "0,0,0")])
def test_a_mine_in_which_all_grades_pay_or_none_is_surveyed(here, capsys, old, new):
    mines.six_blocks(here, (old, new), name="free")
    assert main(["survey", "free.plan", "free", "free-0.csv"]) == 0
    assert "LOOK AT" in capsys.readouterr().out


def test_a_model_whose_header_has_no_number_is_reported_by_the_survey(here, capsys):
    text = (here / "mine.pcpsp").read_text()
    (here / "mine.pcpsp").write_text(text.replace("DISCOUNT_RATE: 0.08", "DISCOUNT_RATE: x"))
    message = rejected(["survey", "mine.plan", "mine", "mine-0.csv"], capsys)
    assert "mine.pcpsp: DISCOUNT_RATE is `x`, not a number from 0 to 1" in message


@pytest.mark.parametrize("name, text", [("TABLE", "a b\n1 2\n"), ("TABLE", ""), ("FOUND", "\xff\0"),
                                        ("TABLE", " ".join(library.COLUMNS) + "\n" + "x " * 10 + "x")])
def test_a_table_of_a_library_that_is_none_is_reported(tmp_path, name, text):
    (tmp_path / name).write_bytes(text.encode("latin-1"))
    with pytest.raises(UserError, match=f"{name}: not the {name} of a library"):
        library.table_of(str(tmp_path), name)


@pytest.mark.skipif(os.geteuid() != 0, reason="only root can give a folder to a group")
def test_a_cache_below_a_folder_of_another_group_is_not_used(tmp_path, monkeypatch):
    above = tmp_path / "home"
    above.mkdir()
    monkeypatch.setenv("XDG_CACHE_HOME", str(above / "cache"))
    assert compiled.cache() == str(above / "cache" / "pit-tools")
    os.chmod(above, 0o775)
    assert compiled.cache() is not None
    os.chown(above, -1, 65534)
    assert compiled.cache() is None
    os.chmod(above, 0o1775)
    assert compiled.cache() is not None


def test_a_cache_is_named_without_the_links_on_the_way(tmp_path, monkeypatch):
    (tmp_path / "far").mkdir()
    (tmp_path / "link").symlink_to("far")
    monkeypatch.setenv("XDG_CACHE_HOME", str(tmp_path / "link"))
    assert compiled.cache() == str(tmp_path / "far" / "pit-tools")
