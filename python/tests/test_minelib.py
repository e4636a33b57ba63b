"""MineLib files of other programs, both ways. No file of the library was available: these are
written from memory."""
import random

import numpy as np
import pytest

import mines
from pit_tools.cli import main
from pit_tools.instances import files as instance
from pit_tools.instances.files import read_instance
from pit_tools.texts import lines as published_lines


def lines_of(path):
    with open(path) as file:
        return file.read().splitlines()


def foreign(base, folder, first=0, order="bdr", turn=False):
    """The files of an instance as another program may write them: sections and lines in
    another order, exponents, `<=`, blanks in NAME, comments, EOF, identifiers from `first`, no
    line for blocks without predecessors, words among the fields of a block; `turn` makes the
    last block the first one."""
    last = len(lines_of(f"{base}.blocks")) - 1

    def published(block):
        return str(first + (last - int(block) if turn else int(block)))

    shuffle = random.Random(7).shuffle
    files = {}
    for ending in instance.TEXTS:
        lines = lines_of(f"{base}.{ending}")
        out = ["% from another program"]
        if ending == "blocks":
            out += [" ".join([published(line.split()[0]), *line.split()[1:4], "0.5", "FRTC",
                              *line.split()[4:6]]) for line in lines]
        elif ending == "prec":
            fields = [[int(field) for field in line.split()] for line in lines]
            out += [" ".join([published(f[0]), str(f[1]), *map(published, f[2:])])
                    for f in fields if f[1]]
            shuffle(out)
        else:
            parts = {"": []}
            for line in lines:
                key, colon, value = line.partition(":")
                if colon and not value:
                    parts[key] = []
                elif colon:
                    parts[""].append(f"{key.lower()} : {value.strip().replace('mine', 'the mine')}")
                else:
                    parts[list(parts)[-1]].append(line.split())
            for section, rows in reversed(list(parts.items())[1:]):
                rows = [[published(row[0]), *row[1:]] if "LIMIT" not in section.split("_")[-1]
                        else row for row in rows]
                if "LIMITS" in section:
                    rows = [[row[0], row[1], "<=", row[3], "-1"] if row[2] == "L" else row
                            for row in rows]
                elif "OBJECTIVE" in section:
                    rows = [[row[0], *(f"{float(value):.12e}" for value in row[1:])]
                            for row in rows]
                elif order == "brd" and ending == "pcpsp":
                    rows = [[row[0], row[2], row[1], row[3]] for row in rows]
                shuffle(rows)
                parts[section] = rows
            out += parts.pop("")
            for section, rows in reversed(list(parts.items())):
                out += [section.capitalize() + ":", *(" ".join(row) + "  % a line" for row in rows)]
            out.append("EOF")
        files[ending] = str(folder / f"other.{ending}")
        with open(files[ending], "w", newline="\r\n") as file:
            file.write("\n".join(out))
    return files


def words_of(files, *endings):
    return [word for ending in endings for word in (f"--{ending}", files[ending])]


@pytest.mark.parametrize("first, order", [(0, "bdr"), (1, "bdr"), (0, "brd")])
def test_files_of_another_program_become_the_instance_again(tmp_path, first, order):
    base = mines.six_blocks(tmp_path,
                            name="mine") if order == "brd" else mines.deposit(tmp_path, K=2)
    files = foreign(base, tmp_path, first, order)
    words = words_of(files, *instance.TEXTS) + ["--tonnes", "7", "--grade", "8", "--out",
                                                str(tmp_path / "again"), "--order", order]
    assert main(["minelib", *words]) == 0
    for ending in instance.TEXTS:
        wanted = lines_of(f"{base}.{ending}")
        if ending == "blocks":
            wanted = [line.rsplit(" ", 1)[0] + " 0" for line in wanted]
        found = [line.replace("the_mine", "mine")
                 for line in lines_of(tmp_path / f"again.{ending}")]
        assert found == wanted, ending


@pytest.mark.parametrize("given, made", [("pcpsp", ["cpit", "upit"]), ("cpit", ["upit"])])
def test_what_is_missing_is_made_from_the_others(tmp_path, capsys, given, made):
    base = mines.six_blocks(tmp_path)
    files = {ending: f"{base}.{ending}" for ending in instance.TEXTS}
    assert main(["minelib", *words_of(files, "blocks", "prec", given), "--tonnes", "5", "--grade",
                 "6", "--out", str(tmp_path / "again")]) == 0
    for ending in made:
        assert lines_of(tmp_path / f"again.{ending}") == lines_of(f"{base}.{ending}")
    again = read_instance(str(tmp_path / "again"))
    assert (again.pcpsp.destinations == (3 if given == "pcpsp" else 1)
            and "was made from" in capsys.readouterr().out)


def test_a_upit_alone(tmp_path):
    base = mines.six_blocks(tmp_path)
    files = {ending: f"{base}.{ending}" for ending in instance.TEXTS}
    assert main(["minelib", *words_of(files, "blocks", "prec", "upit"), "--out",
                 str(tmp_path / "again")]) == 0
    again = read_instance(str(tmp_path / "again"))
    assert again.pcpsp.periods == 1 and again.pcpsp.values[
        :, 0].tolist() == again.upit.values.tolist() == [221940, 309420, 61560, -5300, 24645, -5300]


@pytest.mark.parametrize("ending, old, new, message", [
    ("pcpsp", "NGENERAL_SIDE_CONSTRAINTS: 0", "NGENERAL_SIDE_CONSTRAINTS: 2",
     "2 general side constraints"), ("pcpsp", "0 2 1 2700", "0 7 1 2700", "line 20: in the order "
                                     "bdr of fields the destination is 7, but there are 3"),
    ("pcpsp", "0 0 L 60000", "0 0 X 60000", "line 42: it is not a limit"),
    ("pcpsp", "0 0 L 60000", "0 0 L nan", "line 42: it is not a limit"),
    ("pcpsp", "0 0 L 60000", "0 0 G Infinity", "line 42: no amount satisfies this limit"),
    ("pcpsp", "1 0 I 0 120000", "1 0 I 5 4", "line 45: no amount satisfies this limit"),
    ("pcpsp", "0 1 L 60000", "0 0 L 60000", "line 43: resource 0 has two limits in period 0"),
    ("pcpsp", "0 1 L 60000", "0 3 L 60000", "line 43: there are 2 resources and 3 periods"),
    ("pcpsp", "0 0 1 2700", "0 0 0 2700", "appears twice: block 0, destination 0, resource 0"),
    ("pcpsp", "0 0 1 2700", "0 0 1", "line 18: 3 fields, but a coefficient of a PCPSP has 4"),
    ("pcpsp", "0 0 1 2700", "0 0 1 inf", "line 18: field 4 of a coefficient of a PCPSP, `inf`, is not a number"), ("pcpsp", "DISCOUNT_RATE: 0.08", "DISCOUNT: 0.08",
                    "DISCOUNT_RATE is missing; unknown: DISCOUNT in line 8"),
    ("pcpsp", "DISCOUNT_RATE: 0.08", "DISCOUNT_RATE: 8", "is it in percent?"),
    ("pcpsp", "DISCOUNT_RATE: 0.08", "NAME: mine", "line 8: NAME appears twice"),
    ("pcpsp", "TYPE: PCPSP", "TYPE: CPIT", "TYPE is `CPIT`, but the file is given as a PCPSP"),
    ("pcpsp", "NBLOCKS: 6", "NBLOCKS: 7", "NBLOCKS is `7`, but the objective has 6 lines"),
    ("pcpsp", "NDESTINATIONS: 3", "NDESTINATIONS: 2", "NDESTINATIONS is 2, but blocks have 3 "
     "values"), ("pcpsp", "NPERIODS: 3", "NPERIODS: 101", "NPERIODS is `101`"),
    *[("pcpsp", "NPERIODS: 3", f"NPERIODS: {number}", f"NPERIODS is `{number[:60]}`, not a number from 1 to 100") for number in ("1_0", "\uff13", "\u0663", "0x3", "nan", "3" * 500)],
    *[("pcpsp", "0 0 L 60000", line, "line 42: it is not a limit `r t L v`, `r t G v` or `r t I v w`: "
       f"`{line[:60]}`") for line in ("0 0 L 6_0", "1_0 0 L 6", "\uff10 0 L 6", "0 0 L \uff16", "+0 0 L 6",
                                     "0.5 0 L 6", "0 0 L", "0", "0 0 L 6 7 8", "0 0 L x" + "6" * 500)],
    ("pcpsp", "1 309420 197640 -5400", "1 80071992547409.93 197640 -5400",
     "`80071992547409.93`, is of more digits than a number may have"),
    ("pcpsp", "RESOURCE_CONSTRAINT_LIMITS:", "RESOURCE_CONSTRAINTS_LIMITS:",
     "line 41: not a known section: is it RESOURCE_CONSTRAINT_LIMITS"),
    ("pcpsp", "RESOURCE_CONSTRAINT_COEFFICIENTS:", "RESOURCE_CONSTRAINT_COEFICIENTS:",
     "line 16: not a known section: is it RESOURCE_CONSTRAINT_COEFFICIENTS"),
    ("pcpsp", "RESOURCE_CONSTRAINT_LIMITS:\n0 0 L 60000\n0 1 L 60000\n0 2 L 60000\n1 0 I 0 "
     "120000\n", "", "section RESOURCE_CONSTRAINT_LIMITS is missing, but there are 2 resources"),
    ("pcpsp", "OBJECTIVE_FUNCTION:", "OBJECTIVE_FUNCTION: max", "line 9: nothing follows OBJ"), ("pcpsp", "RESOURCE_CONSTRAINT_LIMITS:", "OBJECTIVE_FUNCTION:",
              "line 41: the section is also in line 9"),
    ("pcpsp", "1 309420 197640 -5400", "1 309420 197640", "line 11: 3 fields"),
    ("pcpsp", "1 309420 197640 -5400", "0 309420 197640 -5400", "line 11: the objective has 6 "
     "lines"), ("pcpsp", "1 309420 197640 -5400", "1 inf 197640 -5400", "line 11: field 2"),
    ("pcpsp", "1 309420 197640 -5400", "1 1e400 197640 -5400", "`1e400`, is too large"),
    ("pcpsp", "1 309420 197640 -5400", "1 1e-400 197640 -5400", "`1e-400`, is too small"),
    ("pcpsp", "1 309420 197640 -5400", "1 1e4294967297 197640 -5400",
     "line 11: field 2 of a line of the objective, `1e4294967297`, is too large"),
    ("pcpsp", "1 309420 197640 -5400", "1 1E+0021474836480 197640 -5400", "is too large"),
    ("pcpsp", "1 309420 197640 -5400", "1 TRUE 197640 -5400", "line 11: field 2 of a line of the "
     "objective, `TRUE`, is not a number"),
    ("pcpsp", "1 309420 197640 -5400", f"1 .{'0' * 330}1 197640 -5400", "is too small"),
    ("blocks", "5 2 0 1 2650", "5 2 0 1 2e4294967297", "line 6: field 5 of a block line, "
     "`2e4294967297`, is too large"),
    ("pcpsp", "1 309420 197640 -5400", "1 1e15 197640 -5400", "line 11: a value is too large"), ("prec", "0 2 3 4", "0 2 3 9", "line 1: a predecessor 9 is not one of the 6"),
    ("prec", "2 2 4 5", "7 2 4 5", "line 3: the block 7 is not one of the 6"),
    ("prec", "0 2 3 4", "0 3 3 4", "line 1: a line `id k p1 .. pk` has 2 predecessors, but k is 3"), ("prec", "2 2 4 5", "2 2 4 x", "line 3: it is not a line `id k p1 .. pk`"),
    ("prec", "2 2 4 5", "1 2 4 5", "line 3: the block has an earlier line"),
    ("prec", "2 2 4 5", "2 2 4 4", "line 3: the block names a predecessor twice, or itself"),
    ("prec", "2 2 4 5", "2 2 2 5", "line 3: the block names a predecessor twice, or itself"),
    ("prec", "5 0", "5 1 1", "blocks wait for each other in a cycle: 1, 5, 1"),
    ("blocks", "0 0 0 0", "9 0 0 0", "line 1: identifiers are not consecutive: 5 precedes this one"), ("blocks", "1 1 0 0", "2 1 0 0", "line 2: identifiers are not consecutive: 0 precedes this one"), ("blocks", "5 2 0 1", "5 20000 0 1", "are these metres"),
    ("blocks", "5 2 0 1", "5 2 0.5 1", "line 6: the index y is 0.5"),
    ("blocks", "5 2 0 1 2650", "5 2 0 1 5100000", "line 6: the tonnes is 5100000, but `pitc check` accepts 0 to 1,000,000"), ("blocks", "5 2 0 1 2650", "5 2 0 1 -1", "line 6: the tonnes is -1"),
    ("blocks", "5 2 0 1 2650", "5 2 0 1 waste",
     "line 6: field 5 of a block line, `waste`, is not a number"),
    ("blocks", "5 2 0 1 2650 0 0", "5 2 0 1", "line 6: 4 fields, but a block line has at least 6"),
    ("blocks", "5 2 0 1", "EOF\n5 2 0 1", "line 7: it follows EOF"),
    ("blocks", "5 2 0 1", "5\0 2 0 1", "bytes of 0")])
def test_what_cannot_be_converted_is_reported_by_its_line(tmp_path, capsys, ending, old, new, message):
    base = mines.six_blocks(tmp_path)
    whole = (tmp_path / f"mine.{ending}").read_text()
    assert old in whole
    (tmp_path / f"mine.{ending}").write_text(whole.replace(old, new, 1))
    files = {name: f"{base}.{name}" for name in instance.TEXTS}
    words = [*words_of(files, "blocks", "prec", "pcpsp"), "--tonnes", "5", "--grade", "6"]
    assert main(["minelib", *words, "--out", str(tmp_path / "again")]) == 2
    error = capsys.readouterr().err
    assert message in error and error.count("\n") == 1 and f"mine.{ending}" in error or "cycle" in error
    assert not [path for path in tmp_path.iterdir() if path.name.startswith("again")]


@pytest.mark.parametrize("ending, old, new, message, line", [
    ("blocks", "1 1 0 0 2700 2.4 0", "1 1 0 0 2700.00049 2.4000001 0",
     "line 2: tonnes were rounded to 3 decimals", "1 1 0 0 2700 2.4 0"),
    ("blocks", "1 1 0 0 2700 2.4 0", "1 1 0 0 2700 2.4000001 waste 7 ox",
     "line 2: grade were rounded to 6 decimals", "1 1 0 0 2700 2.4 0"),
    ("blocks", "0 0 0 0 2700 1.8 0", "0 0 0 0 2700 1.8 ORE",
     "omitted fields, as in the first line: 7 (`ORE`)", "0 0 0 0 2700 1.8 0"),
    ("pcpsp", "1 309420 197640 -5400", "1 309420.0000004 197640.12345678 -5400",
     "line 11 and 1 more: values were rounded", "1 309420 197640.123457 -5400"),
    ("pcpsp", "0 0 1 2700", "0 0 1 27e2", None, "0 0 1 2700"),
    ("pcpsp", "1 309420 197640 -5400", "1 50000000000000.03 8123456789.123457 -5400", None,
     "1 50000000000000.03 8123456789.123457 -5400"),
    ("pcpsp", "0 0 1 2700", "0 0 1 1e-7", "line 18: amounts were rounded to 6 decimals", "0 0 1 0"),
    ("pcpsp", "0 0 L 60000", "0 0 L Infinity", "line 42: it sets no limit, and was omitted", None),
    ("pcpsp", "1 0 I 0 120000", "1 0 I -Infinity 5200", "line 45: one end is infinite: it is now L",
     "1 0 L 5200"), ("pcpsp", "1 0 I 0 120000", "1 0 I 7 inf",
                     "line 45: one end is infinite: it is now G", "1 0 G 7"),
    ("pcpsp", "1 0 I 0 120000", "1 0 I -inf inf", "line 45: it sets no limit", None),
    ("pcpsp", "0 0 L 60000", "0 0 L 60000.1234567", "line 42: rounded to 6 decimals",
     "0 0 L 60000.123457"), ("pcpsp", "0 0 L 60000", "0 0 le 60000 -1",
                             "line 42: the second number was omitted", "0 0 L 60000"),
    ("pcpsp", "DISCOUNT_RATE: 0.08", "DISCOUNT_RATE: 0.0800001",
     "DISCOUNT_RATE rounded to 6 decimals", "DISCOUNT_RATE: 0.08"),
    ("pcpsp", "TYPE: PCPSP\n", "", "TYPE is missing; it was read as a PCPSP", "TYPE: PCPSP"),
    ("pcpsp", "NBLOCKS: 6\n", "", "NBLOCKS is missing; the objective has 6 blocks", "NBLOCKS: 6"),
    ("pcpsp", "NBLOCKS: 6\n", "NBLOCKS: 6\nAUTHOR: a b\n",
     "line 4: AUTHOR is not a known key, and was omitted", "NBLOCKS: 6"),
    ("pcpsp", "NAME: mine", "NAME: my mine", "NAME is now my_mine", "NAME: my_mine"),
    ("prec", "3 0\n", "", "1 blocks had no line in the precedence file", "3 0")])
def test_what_is_changed_or_omitted_is_reported(tmp_path, capsys, ending, old, new, message, line):
    base = mines.six_blocks(tmp_path, ("name,pit", "name,mine"))
    whole = (tmp_path / f"mine.{ending}").read_text()
    assert old in whole
    (tmp_path / f"mine.{ending}").write_text(whole.replace(old, new, 1))
    files = {name: f"{base}.{name}" for name in instance.TEXTS}
    words = [*words_of(files, "blocks", "prec", "pcpsp"), "--tonnes", "5", "--grade", "6"]
    assert main(["minelib", *words, "--out", str(tmp_path / "again")]) == 0
    out = capsys.readouterr().out
    assert message is None or message in out
    found = lines_of(tmp_path / f"again.{ending}")
    assert line in found if line else len(found) == len(whole.splitlines()) - 1
    if message is None:
        assert "rounded" not in out


def uses_of(problem):
    """The coefficients of a problem as a set of lines."""
    uses = problem.uses
    return set(zip(uses.block.tolist(), uses.destination.tolist(), uses.resource.tolist(),
                   uses.amount.tolist()))


@pytest.mark.parametrize("first", [0, 1])
def test_blocks_come_before_what_they_wait_for_and_both_ways_are_kept(tmp_path, capsys, first):
    """Published identifiers run the other way, so that each predecessor's is the smaller one."""
    base = mines.deposit(tmp_path, K=2)
    files, n = foreign(base, tmp_path, first, turn=True), len(lines_of(base + ".blocks"))
    again = str(tmp_path / "again")
    words = [*words_of(files, *instance.TEXTS), "--tonnes", "7", "--grade", "8"]
    assert main(["minelib", *words, "--out", again]) == 0
    assert "blocks now have other identifiers" in capsys.readouterr().out
    mine, wanted = read_instance(again), read_instance(base)
    assert np.all(np.repeat(np.arange(n), np.diff(mine.precedence.indptr))
                  < mine.precedence.indices)
    pairs = np.array([list(map(int, line.split())) for line in lines_of(again + ".ids")])
    assert pairs[:, 0].tolist() == list(range(n))
    before = n - 1 - (pairs[:, 1] - first)
    assert sorted(before) == list(range(n))
    for name in ("x", "y", "z", "tonnes", "grade"):
        assert np.array_equal(getattr(mine.blocks, name), getattr(wanted.blocks, name)[before])
    assert (mine.precedence != wanted.precedence[before][:, before]).nnz == 0
    for kind in ("pcpsp", "cpit"):
        here, there = getattr(mine, kind), getattr(wanted, kind)
        assert np.array_equal(here.values, there.values[before]) and here.limits == there.limits
        assert {(int(before[b]), *rest) for b, *rest in uses_of(here)} == uses_of(there)
    pit = tmp_path / "pit"
    pit.write_text("".join(f"{block} 1\n" for block in range(0, n, 3)))
    assert main(["minelib", "--to-published", str(pit), "--ids", again + ".ids", "--out",
                 str(tmp_path / "theirs")]) == 0
    assert lines_of(tmp_path / "theirs") == [f"{pairs[block, 1]} 1" for block in range(0, n, 3)]
    assert main(["minelib", "--from-published", str(tmp_path / "theirs"), "--ids", again + ".ids",
                 "--out", str(tmp_path / "ours")]) == 0
    assert (tmp_path / "ours").read_text() == pit.read_text()
    assert main(["minelib", "--publish", again, "--ids", again + ".ids", "--out",
                 str(tmp_path / "theirs")]) == 0
    theirs = read_instance(str(tmp_path / "theirs"), ("blocks", "prec"))
    assert np.array_equal(theirs.blocks.x, wanted.blocks.x[::-1]) and (
        theirs.precedence != wanted.precedence[::-1][:, ::-1]).nnz == 0


@pytest.mark.parametrize("line, message",
                         [("9 1", "line 2: `9` is not a block"), ("x 1", "line 2: `x` is not a block"),
                          ("-1", "line 2: `-1` is not a block")])
def test_a_line_of_no_block_is_not_renamed(tmp_path, capsys, line, message):
    (tmp_path / "ids").write_text("0 2\n1 1\n2 3\n")
    (tmp_path / "pit").write_text(f"1\n{line}\n")
    for way in ("--to-published", "--from-published"):
        assert main(["minelib", way, str(tmp_path / "pit"), "--ids", str(tmp_path / "ids"), "--out",
                     str(tmp_path / "out")]) == 2
        assert message in capsys.readouterr().err and not (tmp_path / "out").exists()


def test_an_order_of_fields_is_not_guessed(tmp_path, capsys):
    """Of two destinations and two resources `b d r` and `b r d` both fit; of three and two one
    does."""
    base = mines.six_blocks(tmp_path, ("leach,heap,6000000,600,0.3,350,1,550\n", ""), (",heap", ""))
    words = ["--blocks", base + ".blocks", "--prec", base + ".prec", "--pcpsp", base + ".pcpsp",
             "--out", str(tmp_path / "again")]
    assert main(["minelib", *words]) == 2
    assert ("fit the orders bdr and brd, which are different models: choose by --order" in capsys.readouterr().err)
    assert main(["minelib", *words, "--order", "bdr"]) == 0
    assert uses_of(read_instance(str(tmp_path / "again")).pcpsp) == uses_of(
        read_instance(base).pcpsp)
    assert main(["minelib", *words, "--order", "brd"]) == 0
    assert uses_of(read_instance(str(tmp_path / "again")).pcpsp) == {
        (b, r, d, a) for b, d, r, a in uses_of(read_instance(base).pcpsp)}


@pytest.mark.parametrize("order", ["bdr", "brd", "rbd"])
def test_the_only_order_that_fits_is_taken(tmp_path, capsys, order):
    base = mines.six_blocks(tmp_path)
    assert main(["minelib", "--publish", base, "--out", str(tmp_path / "published"), "--order",
                 order]) == 0
    files = {ending: str(tmp_path / f"published.{ending}") for ending in instance.TEXTS}
    words = [*words_of(files, *instance.TEXTS), "--tonnes", "5", "--grade", "6", "--out",
             str(tmp_path / "again")]
    assert main(["minelib", *words]) == 0
    assert (f"the order {order}, the only one that "
            "fits" in capsys.readouterr().out) == (order != "bdr")
    for ending in instance.TEXTS:
        assert lines_of(tmp_path / f"again.{ending}") == lines_of(f"{base}.{ending}"), ending


def test_small_chunks_are_read_as_large_ones(tmp_path, monkeypatch):
    base = mines.deposit(tmp_path, K=2)
    files = foreign(base, tmp_path)
    monkeypatch.setattr(published_lines, "_CHUNK", 300)
    words = [*words_of(files, *instance.TEXTS), "--tonnes", "7", "--grade", "8", "--out",
             str(tmp_path / "again")]
    assert main(["minelib", *words]) == 0
    for ending in ("prec", "upit", "pcpsp", "cpit"):
        assert [line.replace("the_mine", "mine")
                for line in lines_of(tmp_path / f"again.{ending}")] == lines_of(f"{base}.{ending}")


def test_outward_and_back(tmp_path):
    base = mines.six_blocks(tmp_path)
    assert main(["minelib", "--publish", base, "--out", str(tmp_path / "published"), "--order",
                 "brd"]) == 0
    lines = lines_of(tmp_path / "published.pcpsp")
    assert lines[-1] == "EOF" and lines[lines.index(instance.COEFFICIENTS + ":") + 1:][:4] == [
        "0 0 0 2700", "0 1 0 2700", "0 1 1 2700", "0 1 2 2700"]
    files = {ending: str(tmp_path / f"published.{ending}") for ending in instance.TEXTS}
    assert main(["minelib", *words_of(files, *instance.TEXTS), "--tonnes", "5", "--grade", "6",
                 "--order", "brd", "--out", str(tmp_path / "again")]) == 0
    for ending in instance.TEXTS:
        assert lines_of(tmp_path / f"again.{ending}") == lines_of(f"{base}.{ending}"), ending


def test_arcs_that_others_imply_may_be_dropped(tmp_path):
    base = mines.deposit(tmp_path, K=4)
    assert main(["minelib", "--publish", base, "--out", str(tmp_path / "fewer"),
                 "--fewer-arcs"]) == 0
    fewer = instance.read_precedence(str(tmp_path / "fewer.prec"))
    assert 0 < fewer.nnz < read_instance(base).precedence.nnz and np.all(np.diff(fewer.indptr) >= 0)
