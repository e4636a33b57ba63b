"""Readers take time in proportion to what they read: padded, repeated and nested text of
growing size, by processor time, with a wide margin."""
import contextlib
import gzip
import io
import itertools
import os
import signal
import subprocess
import time
import zipfile
from decimal import Decimal

import numpy as np
import pytest

from pit_tools.batches.listing import read_list
from pit_tools.batches.records import recorded_in
from pit_tools.cli import main
from pit_tools.errors import UserError
from pit_tools.exports.words import table_of
from pit_tools.files.records import read_record
from pit_tools.imports.record import read_imported
from pit_tools.instances import block_files, files, minelib, models
from pit_tools.instances.arrays import Problem, Uses
from pit_tools.instances.identifiers import read_identifiers
from pit_tools.inventories.statements import Known, Statement, read_report
from pit_tools.pits.back import read_mined
from pit_tools.pits.files import read_pit
from pit_tools.plans.file import Grid, plan_of, read_plan
from pit_tools.plans.words import Explained as Words, Purse, Spoken, plan_from, price_of, sides_of
from pit_tools.plans.zone_files import read_zone_file
from pit_tools.schedules.files import read_schedule, read_variables
from pit_tools.texts import lines
from pit_tools.texts.formulas import formula_of
from pit_tools.texts.lines import Changes

# Characters of a small text and of a large one. A reader whose time grows with the square of the
# size takes 256 times as long for the large one, and by the margin it may take 80 times.
SMALL, LARGE = 1 << 13, 1 << 17
MARGIN = 80
# Seconds below which a clock is inaccurate, and after which a run is stopped.
LEAST, MOST = 0.01, 20.0

#: What is repeated up to the size, some within two others.
REPEATED = {
    "blanks": " ", "digits": "1", "points": "1.", "commas": "1,", "colons": "1:", "letters": "a",
    "exponents": "1e", "minuses": "-", "parentheses": "(", "brackets": "[", "quotes": '"',
    "quoted": '"a",', "apostrophes": "'1", "percents": "1%", "accents": "\u0315\u0300",
    "words": "a 1 ", "dashes": "1-", "strokes": "/", "lines": "\n", "ends": "\r\n",
    "padded_lines": " \n", "rows": "1 1\n", "heads": "a:\n", "braces": "{", "if": "if ",
    "powers": "1**", "calls": "abs(", "escapes": "\\", "comments": "%\n", "carets": "x^"}


def repeated(name, size):
    """A text of about this size."""
    return REPEATED[name] * (size // len(REPEATED[name]))


def seconds_of(step, *words):
    """Returns the processor time of a step, which may reject what it reads."""
    def broken_off(*_):
        raise AssertionError(f"it takes more than {MOST:g} s of processor time")
    before = signal.signal(signal.SIGVTALRM, broken_off)
    signal.setitimer(signal.ITIMER_VIRTUAL, MOST)
    begun = time.process_time()
    try:
        with contextlib.redirect_stdout(io.StringIO()), contextlib.redirect_stderr(io.StringIO()), \
                contextlib.suppress(UserError):
            step(*words)
    finally:
        signal.setitimer(signal.ITIMER_VIRTUAL, 0)
        signal.signal(signal.SIGVTALRM, before)
    return time.process_time() - begun


def tried(step, *words):
    """Runs a step, which may reject what it reads."""
    with contextlib.suppress(UserError):
        step(*words)


def judge(step, text_of):
    """Compares the times of a small text and a large one, after a first run that loads modules."""
    step_seconds = [seconds_of(step, text_of(size)) for size in (SMALL // 8, SMALL, LARGE)]
    small, large = max(LEAST, step_seconds[1]), step_seconds[2]
    assert large < MARGIN * small, f"{small:.3f} s for {SMALL} characters, {large:.3f} s for {LARGE}"


# Exports

HEAD = "X,Y,Z,T,AU,ZONE\n"
ROWS = "".join(f"{x},{y},{z},1000,{x % 3}.5,a\n" for x in (0, 10, 20) for y in (0, 10)
               for z in (0, 10))
WORDS = ["--x", "X", "--y", "Y", "--z", "Z", "--tonnes", "T", "--grade", "AU", "--zone", "ZONE"]

#: An export around a hostile text, and the texts that its reader may take long over.
EXPORTS = {
    "row": (HEAD + ROWS + "{}\n", "blanks digits commas quotes quoted lines ends comments"),
    "cell": (HEAD + ROWS + "0,0,20,1000,{},a\n",
             "digits points exponents minuses parentheses apostrophes percents accents"),
    "padded cell": (HEAD + ROWS + "0,0,20,1000,{}1{}x,a\n", "blanks digits"),
    "zone": (HEAD + ROWS + "0,0,20,1000,1,{}\n", "blanks letters accents quoted words"),
    "above": ("{}\n" + HEAD + ROWS, "blanks colons letters quotes padded_lines heads comments"),
    "name": (HEAD.strip() + ",{}\n" + ROWS.replace("\n", ",1\n"), "accents brackets words"),
    "list": ("title\n3\nX\nY\nZ\n1 2 3\n{}\n", "blanks digits words rows"),
    "blanks": (HEAD.replace(",", " ") + ROWS.replace(",", " ") + "{}\n", "blanks digits words rows"),
    "unit": (HEAD + "m,m,m,t,{},\n" + ROWS, "blanks brackets parentheses percents strokes")}


@pytest.mark.parametrize("kind, name", [(kind, name) for kind, (_, names) in EXPORTS.items()
                                        for name in names.split()])
def test_an_export(tmp_path, kind, name):
    path = tmp_path / "a.csv"

    def step(text):
        path.write_text(EXPORTS[kind][0].replace("{}", text), encoding="utf-8")
        main(["import", str(path), *WORDS])
    judge(step, lambda size: repeated(name, size))


@pytest.mark.parametrize("name", ["lines", "padded_lines", "blanks", "digits", "quoted"])
def test_a_packed_export(tmp_path, name):
    path = tmp_path / "a.csv.gz"

    def step(text):
        path.write_bytes(gzip.compress((HEAD + ROWS + text).encode()))
        main(["import", str(path), *WORDS])
    judge(step, lambda size: repeated(name, size))


#: The XML of a sheet around hostile parts.
SHEETS = {"comment": ("<!--{}-->", '<c r="A1">'), "cells": ('<row r="30">{}</row>', '<c r="A30"/>'),
          "formulas": ('<row r="30">{}</row>', '<c r="B30"><f>1</f></c>'),
          "nested": ('<row r="30">{}', "<c>"), "open": ('<row r="30">{}', '<c r="A30"><f>'),
          "rows": ("{}", '<row r="40"><c r="XFD40"><v>1</v></c></row>'),
          "numbers": ('<row r="30"><c r="A30"><v>{}</v></c></row>', "1"),
          "texts": ('<row r="30"><c r="A30" t="str"><v>{}</v></c></row>', " 1")}


def book_of(rows):
    """A workbook with the export, and rows of XML after it."""
    import openpyxl

    book, made = openpyxl.Workbook(), io.BytesIO()
    for line in (HEAD + ROWS).splitlines():
        book.active.append([cell if cell.isalpha() else float(cell) for cell in line.split(",")])
    book.save(made)
    found = io.BytesIO()
    with zipfile.ZipFile(made) as archive, zipfile.ZipFile(found, "w") as changed:
        for part in archive.namelist():
            content = archive.read(part)
            if part.endswith("sheet1.xml"):
                content = content.replace(b"</sheetData>", rows.encode() + b"</sheetData>")
            changed.writestr(part, content)
    return found.getvalue()


def test_cells_of_formulas_without_values_are_found_in_a_vast_comment(tmp_path, capsys):
    (tmp_path / "a.xlsx").write_bytes(book_of("<!--" + '<c r="A1">' * 30_000 + "-->"
                                              '<row r="14"><c r="A14"><v>30</v></c><c r="B14"><v>0'
                                              '</v></c><c r="C14"><f>1</f></c></row>'))
    assert main(["import", str(tmp_path / "a.xlsx"), *WORDS]) == 2
    assert "cell C14: the column Z has `#not computed`" in capsys.readouterr().err


@pytest.mark.parametrize("kind", SHEETS)
def test_a_workbook(tmp_path, kind):
    around, part = SHEETS[kind]
    path = tmp_path / "a.xlsx"

    def step(text):
        path.write_bytes(book_of(around.format(text)))
        main(["import", str(path), *WORDS])
    judge(step, lambda size: part * (size // len(part)))


def test_a_small_archive_does_not_unpack_to_a_vast_one(tmp_path, capsys):
    path = tmp_path / "a.csv.gz"
    path.write_bytes(gzip.compress((HEAD + ROWS + "\n" * 50_000_000).encode()))
    assert seconds_of(lambda: main(["import", str(path), *WORDS])) < 10
    assert main(["import", str(path), *WORDS]) == 2
    assert "unpacks to more than 200 times its size" in capsys.readouterr().err


@pytest.mark.parametrize("name", REPEATED)
def test_a_formula(name):
    judge(lambda text: formula_of(text, ["X", "a", "a 1", text[:1000]]),
          lambda size: repeated(name, size))


# Plans, and lists of them

@pytest.mark.parametrize("name", "blanks digits points commas colons letters exponents minuses "
                         "percents accents words dashes strokes".split())
def test_words_of_a_plan(name):
    grid = Grid.of([Decimal(0)] * 3 + [Decimal(10)] * 3)

    def step(text):
        for option in ("name", "price", "mining", "periods", "rate"):
            tried(plan_from, Spoken(**{option: text}), grid, ["a"], 5)
        for option in ("mill", "leach", "dump", "slope", "limit"):
            tried(plan_from, Spoken(**{option: ["a: " + text]}), grid, ["a"], 5)
        for words in (text, "1" + text + "x", "45, " + text + "x", "1-2" + text + "x"):
            tried(price_of, words, 1, Purse())
            tried(sides_of, words, 0, Words())
    judge(step, lambda size: repeated(name, size))


def test_a_list_of_plans_has_names_of_measure(tmp_path):
    (tmp_path / "LIST").write_text("\n" + "a" * (1 << 18))
    assert seconds_of(read_list, str(tmp_path / "LIST")) < 0.2
    with pytest.raises(UserError, match="line 2: a name has more than 4,096 bytes"):
        read_list(str(tmp_path / "LIST"))


def test_a_list_of_plans_has_lines_of_measure(tmp_path):
    (tmp_path / "LIST").write_text("\n" + "a" * (1 << 19))
    with pytest.raises(UserError, match="line 2: it has more than 266,240 bytes"):
        read_list(str(tmp_path / "LIST"))


# Files of lines, which are read as a whole

HEADER = ("NAME: a\nTYPE: {}\nNBLOCKS: 1\nNPERIODS: 2\nNDESTINATIONS: 1\nDISCOUNT_RATE: 0.1\n"
          "NRESOURCE_SIDE_CONSTRAINTS: 1\nNGENERAL_SIDE_CONSTRAINTS: 0\nOBJECTIVE_FUNCTION:\n0 1\n"
          "RESOURCE_CONSTRAINT_COEFFICIENTS:\n0 0 0 1\nRESOURCE_CONSTRAINT_LIMITS:\n")
PCPSP = HEADER.replace("{}", "PCPSP")
CPIT = HEADER.replace("{}", "CPIT").replace("NDESTINATIONS: 1\n", "").replace(
    "NGENERAL_SIDE_CONSTRAINTS: 0\n", "").replace("0 0 0 1\n", "0 0 1\n")
UPIT = "NAME: a\nTYPE: UPIT\nNBLOCKS: 1\nOBJECTIVE_FUNCTION:\n0 {}\n"
PLAN = ("name,pit\ngrid,0,0,0,10,10,10\nzone,1,1,1\nmill,mill,900,6000000,1500\nperiods,2\n"
        "rate,0.08\n")
ONE = Problem("PCPSP", "a", 2, 0, 0.1, np.zeros((1, 1)), Uses(*[np.empty(0, int)] * 3, np.empty(0)))


def published(kind):
    """A reader of published models."""
    if kind == "UPIT":
        return lambda path: models.read_upit(path, 0, True, Changes())
    return lambda path: models.read_model(path, kind, 0, None, True, Changes())


#: What reads a file of lines, and what surrounds a hostile text.
READERS = {
    "blocks": (block_files.read_blocks, "{}", "0 0 0 0 1 {} 0\n", "% {}\n0 0 0 0 1 1 0\n"),
    "prec": (files.read_precedence, "{}", "0 0\n1 1 {}\n"),
    "counted": (files.count_predecessors, "{}", "0 0\n1 1 {}\n"),
    "upit": (models.read_upit, "{}", UPIT, UPIT.replace("NBLOCKS: 1", "NBLOCKS: {}")),
    "cpit": (lambda path: files.read_problem(path, "CPIT"), "{}", CPIT + "0 0 L {}\n"),
    "pcpsp": (lambda path: files.read_problem(path, "PCPSP"), "{}", PCPSP + "{}\n",
              PCPSP.replace("0.1", "{}"), PCPSP.replace("0 0 0 1\n", "0 0 0 {}\n")),
    "outline": (models.read_outline, PCPSP + "0 0 L {}\n"),
    "published blocks": (lambda path: block_files.read_columns(path, block_files.Columns(5), Changes()),
                         "{}", "0 0 0 0 1\n1 1 0 0 {}\n"),
    "published prec": (lambda path: minelib.read_precedence(path, 2, 0, Changes()), "{}", "0 1 {}\n"),
    "published upit": (published("UPIT"), "{}", UPIT, UPIT.replace("NBLOCKS: 1", "NBLOCKS: {}"),
                       UPIT.replace("NBLOCKS", "{}")),
    "published cpit": (published("CPIT"), "{}", CPIT + "0 0 L {}\n"),
    "published pcpsp": (published("PCPSP"), "{}", PCPSP + "{}\n", PCPSP.replace("0.1", "{}")),
    "lines of numbers": (lambda path: [tried(lines.numbers_of, chunk, [1, 2], "a line")
                                       for chunk in lines.chunks_of(path)],
                         "1 2 1e400\n1 {} 1e300\n", "1 2 1e400\n1 1{}x 1e300\n"),
    "schedule": (lambda path: read_schedule(path, ONE), "{}", "0 0 0 {}\n", "0 0 0 1{}x\n"),
    "mined": (lambda path: read_mined(path, plan_of(PLAN), 1), "{}", "0 0 0 {}\n"),
    "variables": (read_variables, "{}", "x0 {}\n", "x{} 1\n"),
    "pit": (lambda path: read_pit(path, 1), "{}", "0 {}\n", "0{}\n"),
    "identifiers": (read_identifiers, "{}", "0 {}\n"),
    "record of a batch": (lambda path: list(recorded_in(os.path.dirname(path))), "{}",
                          '{"build": "{}"}\n', '{"build": ""}\n{}'),
    "plan": (read_plan, "{}", PLAN + "{}\n", PLAN + "dump,{},1\n", PLAN.replace("0.08", "{}")),
    "report": (lambda path: read_report(path, Known(["a"]), Statement()), "{}",
               "zone,tonnes,{}\na,1 kt,1\n", "zone,tonnes\na,{}\n", "zone,tonnes\n{},1 kt\n"),
    "zone file": (read_zone_file, "{}", "x,y,z,tonnes,grade\n0,0,0,{},1\n"),
    "table of zones": (lambda path: table_of(path, "zone", ["A", "zone"]), "{}", "A,zone\n{},b\n")}

#: The texts that they get, each alone and within these.
OF_LINES = ("blanks digits points commas quotes accents words padded_lines rows heads braces "
            "comments").split()


@pytest.mark.parametrize("kind", READERS)
def test_a_file_of_lines(tmp_path, kind):
    read, *around = READERS[kind]
    path = tmp_path / "RECORD"
    for whole, name in itertools.product(around, OF_LINES):
        def step(text, whole=whole):
            path.write_text(whole.replace("{}", text), encoding="utf-8")
            read(str(path))
        try:
            judge(step, lambda size, name=name: repeated(name, size))
        except Exception as error:
            raise AssertionError(f"{name} in {whole}") from error


@pytest.mark.parametrize("kind", ["schedule", "mined", "variables", "pit", "identifiers",
                                  "record of a batch"])
def test_a_file_of_lines_has_a_measure(tmp_path, monkeypatch, kind):
    path = tmp_path / "RECORD"
    first = {"record of a batch": '{"build": "a"}\n', "identifiers": "0 0\n"}.get(kind, "\n")
    path.write_text(first + "1" * (1 << 21))
    most = "1,048,576" if kind == "record of a batch" else "65,536"
    with pytest.raises(UserError, match=f"RECORD: line 2: it has more than {most} characters"):
        READERS[kind][0](str(path))
    path.write_text(first + "\n")
    with open(path, "r+b") as file:
        file.truncate(2_000_000_001)
    with pytest.raises(UserError, match="RECORD: line 1: the file has more than 2,000,000,000 bytes"):
        READERS[kind][0](str(path))
    monkeypatch.setattr(lines, "MOST_FILE", 100)
    os.mkfifo(tmp_path / "pipe")
    with subprocess.Popen(["sh", "-c", f"yes '' | head -n 200 > {tmp_path}/pipe"]):
        with pytest.raises(UserError, match="pipe: line 101: the file has more than 100 bytes"):
            list(lines.numbered_lines(str(tmp_path / "pipe")))


def test_a_line_of_a_zone_file_has_a_measure(tmp_path):
    path = tmp_path / "a.csv"
    path.write_text("x,y,z,tonnes,grade\n" + "1" * (1 << 25))
    with pytest.raises(UserError, match="a.csv: a line has more than 16,777,216 characters"):
        read_zone_file(str(path))


# Files of JSON, and records

@pytest.mark.parametrize("text", ["[" * (1 << 20), " " * (1 << 25) + "{}", '{"facts": 1' + "1" * 5000],
                         ids=["nested", "padded", "digits"])
def test_a_file_of_json_has_a_measure(tmp_path, text):
    path = tmp_path / "from.json"
    path.write_text(text)
    assert seconds_of(tried, read_imported, str(path)) < 1
    with pytest.raises(UserError, match="it is not what `pit-tools import` writes"):
        read_imported(str(path))


def test_a_vast_file_next_to_it_is_not_read_as_a_record(tmp_path):
    path = tmp_path / "a.sums"
    with open(path, "wb") as file:
        file.truncate(1 << 32)
    assert read_record(str(path)) is None
    with open(path, "r+b") as file:
        file.write(b'# {"tool": "pit-tools 1", "bytes": []}\n')
    with pytest.raises(UserError, match="it has more than 268,435,456 bytes"):
        read_record(str(path))
