"""What `pit-tools compile` adds to a line in which pitc rejects an input."""
import os
import re

import pytest

import mines
from pit_tools.cli import main
from pit_tools.instances import pitc_errors
from pit_tools.instances.pitc_errors import reasons


@pytest.fixture
def here(monkeypatch, tmp_path):
    monkeypatch.chdir(tmp_path)
    (tmp_path / "a.plan").write_text("name,a\n\n\nrate,8\n")
    (tmp_path / "a.csv").write_text('x,y,z,tonnes,grade,"two\nlines"\n0,0,0,1,1,1\n\n0,0,0,1,O.5,2\n')
    (tmp_path / "b.csv").write_text("x,y,z,tonnes,grade\n0,0,0,1,1\n")
    return tmp_path


@pytest.mark.parametrize("line, message", [
    ("plan row 2: Range", "a.plan: line 4: `rate,8`: it is out of range: a rate of 8 % is 0.08"),
    ("plan row 9: Missing", "a.plan: row 9: the plan ends before all its keys"),
    ("plan: FeedFailed", "a.plan: it is missing"),
    ("file 0 row 3 column grade: Number", "a.csv: line 5: grade is `O.5`: write a plain decimal"),
    ("file 1 row 1 column whole: Width", "b.csv: line 1: `x,y,z,tonnes,grade`: this row has"),
    ("file 1 row 1 column rock: MissingColumn", "b.csv: line 1: `x,y,z,tonnes,grade`: the header"),
    ("file 1 row 2 repeats file 0 row 2", "b.csv: line 2: this block is also a.csv: line 3"),
    ("file 1: TooLong", "b.csv: a file has at most 256 MiB"),
    ("settings: Files", "give a zone file for each `zone` record"),
    ("sink upit: SinkFailed", "mine.upit: it cannot be written"),
    ("file 7 row 1 column x: Number", None), ("unheard of", None)])
def test_an_error_of_pitc_is_explained(here, line, message):
    found = list(reasons(f"pitc: {line}", "a.plan", ["a.csv", "b.csv"], "mine"))
    assert [one[:len(message or "")] for one in found] == ([message] if message else [])


def test_a_pipe_is_not_opened_again(tmp_path):
    """Nobody writes to it any more, so a reader would wait for ever."""
    pipe = str(tmp_path / "pipe")
    os.mkfifo(pipe)
    assert list(reasons("pitc: file 0 row 3 column x: TooFine", "", [pipe], "")) == [
        f"{pipe}: row 3: round it: coordinates and tonnes have 3 decimals, grades 6"]


def test_compile_reports_where_and_what_after_the_line_of_pitc(monkeypatch, tmp_path, capfd, pitc):
    monkeypatch.chdir(tmp_path)
    mines.six_blocks(tmp_path)
    plan = (tmp_path / "mine.plan").read_text().replace("rate,0.08", "rate,8")
    (tmp_path / "wrong.plan").write_text(plan)
    number = plan.splitlines().index("rate,8") + 1
    words = ["compile", "--pitc", pitc, "--plan", "wrong.plan", "--out", "a", "mine-0.csv"]
    assert main(words) == 1
    assert capfd.readouterr().err.splitlines() == [
        f"pitc: plan row {number}: Range",
        f"pit-tools compile: wrong.plan: line {number}: `rate,8`: it is out of range: a rate of 8 % "
        "is 0.08, K is at most 20, periods count from 0"]


PAGE = os.path.join(mines.TOP, "docs", "causes.md")


def section(title):
    """The text of a section of the page of causes."""
    with open(PAGE, encoding="utf-8") as page:
        return re.search(rf"(?ms)^## {title}$(.*?)^## ", page.read())[1]


@pytest.mark.parametrize("title, advice", [("The plan", pitc_errors.OF_PLAN), ("Zone files", pitc_errors.OF_ZONES)])
def test_the_page_of_causes_has_the_errors_for_which_there_is_advice(title, advice):
    own = set(re.findall(r"(?m)^\| `[^`|]*: (\w+)`", section(title)))
    common = set(re.findall(r"\b[A-Z]\w+", " ".join(re.findall(r"(?m)^\| ([A-Z][^|]*) \|", section("All files")))))
    assert own <= set(advice) <= own | common and len(own) > 9


def test_the_page_of_causes_has_the_numbers_of_the_advice():
    with open(PAGE, encoding="utf-8") as page:
        known = set(re.findall(r"[\d.]*\d", page.read().replace(",000,000", " million")))
    for name, text in {**pitc_errors.OF_PLAN, **pitc_errors.OF_ZONES, **pitc_errors.OF_RUN}.items():
        assert set(re.findall(r"[\d.]*\d", text)) <= known, name
