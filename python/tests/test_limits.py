"""What an export must not do: exist in part in its archive, grow without limit, or have
numbers that cannot be represented."""
import bz2
import gzip
import io
import lzma
import os
import zipfile

import pytest

from pit_tools.cli import main

HEAD = "X,Y,Z,T,AU\n"

ROWS = "".join(f"{x},{y},{z},1000,{x % 3}.5\n" for x in range(0, 40, 10) for y in (0, 10)
               for z in (0, 10))

WORDS = ["--x", "X", "--y", "Y", "--z", "Z"]

MEASURES = ["--tonnes", "T", "--grade", "AU"]


def imported(folder, content, capsys, measures=(), name="export.csv"):
    """Returns the status of an import, and the line of its error."""
    path = folder / name
    path.write_bytes(content if isinstance(content, bytes) else content.encode())
    status = main(["import", str(path), *WORDS, *(measures or MEASURES)])
    return status, capsys.readouterr().err.replace(f"{folder}{os.sep}", "")


@pytest.mark.parametrize("row, column", [("0,0,20,{},1", "T"), ("0,0,20,1000,{}", "AU")])
@pytest.mark.parametrize("cell", ["1e400", "1e999999999999", "1e4294967297", "1e-4294967297",
                                  "1e-400", "-1e4294967297", "9007199254740993",
                                  "0.1e4294967298", "1" * 401])
def test_a_number_that_no_float_holds_stops_with_its_line(tmp_path, capsys, row, column, cell):
    status, message = imported(tmp_path, HEAD + ROWS + row.format(cell) + "\n", capsys)
    assert status == 2 and f"line 18: the column {column} has `{cell[:60]}`" in message


@pytest.mark.parametrize("cell", ["0e5", "0.0", "00027.50", "2.75E+001", "2.75e+0000001",
                                  "27.500000000000000000000000001"])
def test_a_number_of_many_digits_that_a_float_holds_is_read(tmp_path, capsys, cell):
    assert imported(tmp_path, HEAD + ROWS + f"0,0,20,1000,{cell}\n", capsys)[0] == 0


@pytest.mark.parametrize("rows", [1, 500, 200_000])
@pytest.mark.parametrize("encoding", ["utf-8", "cp1252", "utf-16"])
def test_a_zero_byte_stops_with_its_line_wherever_it_is(tmp_path, capsys, rows, encoding):
    text = HEAD + ROWS * rows + "0,0,20,1000,27\0\n" + ("0,0,30,1000,1é\n" if encoding == "cp1252"
                                                         else "")
    status, message = imported(tmp_path, text.encode(encoding), capsys)
    assert status == 2
    assert f"line {2 + 16 * rows}: a zero byte follows `0,0,20,1000,27`" in message


@pytest.mark.parametrize("measures, what", [
    (["--tonnes", "T", "--grade", "AU * 1e30"], "grade"),
    (["--tonnes", "T * 1e300 * 1e300", "--grade", "AU"], "tonnes"),
    (["--tonnes", "T", "--grade", "AU * 1e200 * 1e200 kg/t"], "grade"),
])
def test_a_formula_that_overflows_stops_with_its_line(tmp_path, capsys, measures, what):
    status, message = imported(tmp_path, HEAD + ROWS, capsys, measures)
    assert status == 2 and f"line 2: {what} is too large" in message


def test_a_division_by_nothing_is_missing_and_no_overflow(tmp_path, capsys):
    assert imported(tmp_path, HEAD + ROWS + "0,0,20,0,1\n", capsys,
                    ["--tonnes", "1000 * T / T", "--grade", "AU"])[0] == 0


@pytest.mark.parametrize("pack, ending",
                         [(gzip.compress, "gz"), (bz2.compress, "bz2"), (lzma.compress, "xz")])
def test_an_archive_that_was_cut_is_reported_by_its_name(tmp_path, capsys, pack, ending):
    packed = pack((HEAD + ROWS).encode())
    assert imported(tmp_path, packed, capsys, name=f"a.{ending}")[0] == 0
    status, message = imported(tmp_path, packed[:-9], capsys, name=f"a.{ending}")
    assert (status == 2 and message.startswith(f"pit-tools import: a.{ending}: the archive is ")
            and message.count("\n") == 1)


def zipped(text, damage=None):
    made = io.BytesIO()
    with zipfile.ZipFile(made, "w", zipfile.ZIP_DEFLATED) as archive:
        archive.writestr("a.csv", text)
    content = bytearray(made.getvalue())
    if damage:
        content[damage] ^= 255
    return bytes(content)


def test_a_zip_that_is_damaged_is_reported_by_its_name(tmp_path, capsys):
    assert imported(tmp_path, zipped(HEAD + ROWS), capsys, name="a.zip")[0] == 0
    for content in (zipped(HEAD + ROWS, 60), zipped(HEAD + ROWS)[:80]):
        status, message = imported(tmp_path, content, capsys, name="a.zip")
        assert status == 2 and message.startswith("pit-tools import: a.zip: the archive is cut short "
                                                  "or damaged")


def test_a_text_that_begins_with_pk_is_no_archive(tmp_path, capsys):
    text = "PK," + HEAD + "".join(f"a,{row}\n" for row in ROWS.splitlines())
    assert imported(tmp_path, text, capsys)[0] == 0


def test_an_archive_that_grows_beyond_all_measure_is_rejected(tmp_path, capsys, monkeypatch):
    monkeypatch.setattr("pit_tools.exports.source.LEAST_UNPACKED", 100_000)
    status, message = imported(tmp_path,
                               gzip.compress((HEAD + ROWS + "0,0,20,1000,1\n" * 100_000).encode()),
                               capsys, name="a.gz")
    assert status == 2 and "a.gz: the archive unpacks to more than 200 times its size" in message


def test_a_long_cell_in_quotes_is_read(tmp_path, capsys):
    text = HEAD.replace("AU", "AU,NOTE") + "".join(f'{row},"{"x" * 200_000}"\n'
                                                   for row in ROWS.splitlines()[:8])
    assert imported(tmp_path, text, capsys)[0] == 0


def test_a_quote_that_is_not_closed_and_a_line_without_end_are_reported(tmp_path, capsys, monkeypatch):
    monkeypatch.setattr("pit_tools.exports.source.MOST_LINE", 1 << 16)
    monkeypatch.setattr("pit_tools.exports.source.PIECE", 1 << 16)
    status, message = imported(tmp_path, HEAD + ROWS + '"' + ROWS * 2000, capsys)
    assert status == 2 and "a quote that opens after line" in message
    status, message = imported(tmp_path, HEAD + ROWS + "0" * 400_000, capsys)
    assert status == 2 and "export.csv: after line 17 a line has more than" in message


def test_a_first_line_without_end_is_reported(tmp_path, capsys):
    status, message = imported(tmp_path, "X," * 600_000, capsys)
    assert status == 2 and "the first line has more than 1,048,576 characters" in message


def test_a_header_of_as_many_columns_as_a_sheet_has_is_read_in_seconds(tmp_path, capsys):
    import time

    many = 16_384 - 5
    text = (HEAD.strip() + "," + ",".join(f"C{at}" for at in range(many)) + "\n"
            + "".join(row + ",1" * many + "\n" for row in ROWS.splitlines()[:8]))
    begun = time.process_time()
    assert imported(tmp_path, text, capsys)[0] == 0
    assert time.process_time() - begun < 20


def test_more_columns_than_a_sheet_has_are_rejected(tmp_path, capsys):
    text = HEAD.strip() + "," + ",".join(f"C{at}" for at in range(16_384)) + "\n" + ROWS
    status, message = imported(tmp_path, text, capsys)
    assert status == 2 and "it has 16,389 columns, but a sheet has at most 16,384" in message


def test_a_dollar_in_a_name_is_text_in_a_picture():
    from pit_tools.surveys.pictures import figure, png_of

    drawn = figure(2, 2)
    drawn.suptitle("$50 pit at $\\bad")
    assert png_of(drawn).startswith(b"\x89PNG")


def test_two_blocks_far_apart_are_reported_in_place_of_terabytes(tmp_path, capsys):
    (tmp_path / "mine.plan").write_text(
        "name,mine\ngrid,0,0,0,1,1,1\nzone,1,1,2\nmill,mill,900,6000000,1500\nperiods,1\n"
        "rate,0.1\n")
    (tmp_path / "mine.blocks").write_text("0 0 0 0 1000 1 0\n1 9999 9999 9999 1000 1 0\n")
    (tmp_path / "mine.upit").write_text("NAME: mine\nTYPE: UPIT\nNBLOCKS: "
                                        "2\nOBJECTIVE_FUNCTION:\n0 1\n1 1\n")
    base = str(tmp_path / "mine")
    assert main(["pit", base, "--plan", base + ".plan", "--K", "1"]) == 2
    message = capsys.readouterr().err
    assert "a box of 10,000 x 10,000 x 10,000 cells" in message and message.count("\n") == 1
