"""An instance as arrays, and back byte for byte."""
import re
import subprocess
from dataclasses import replace
from decimal import Decimal

import numpy as np
import pytest

import mines
from pit_tools.errors import UserError
from pit_tools.instances import files
from pit_tools.instances.arrays import Limit, Uses
from pit_tools.instances.files import read_instance, write_instance
from pit_tools.instances.valuation import blocks_of, instance_of, worth_in_cents
from pit_tools.plans.cones import precedence_of
from pit_tools.plans.file import Destination, read_plan
from pit_tools.plans.zone_files import read_zone_files
from pit_tools.texts import lines as published_lines


@pytest.mark.parametrize("make",
                         [mines.six_blocks, mines.deposit,
                          lambda folder: mines.deposit(folder, 3, (6, 5, 4), "vein", 4),
                          lambda folder: mines.six_blocks(folder, ("rate,0.08", "rate,0.000001"), (
    "L,60000", "L,60000.5"), ("limit,fleet,0,I,0,", "limit,fleet,0,I,0.25,"))])
def test_an_instance_is_written_as_it_was_read(tmp_path, make):
    base = make(tmp_path)
    write_instance(read_instance(base), str(tmp_path / "copy"))
    for text in files.TEXTS:
        assert (tmp_path / f"copy.{text}").read_bytes() == open(f"{base}.{text}", "rb").read(), text


def test_small_chunks_are_read_as_large_ones(tmp_path, monkeypatch):
    base = mines.deposit(tmp_path, K=3)
    monkeypatch.setattr(published_lines, "_CHUNK", 700)
    write_instance(read_instance(base), str(tmp_path / "copy"))
    for text in files.TEXTS:
        assert (tmp_path / f"copy.{text}").read_bytes() == open(f"{base}.{text}", "rb").read(), text


def test_arrays_of_the_six_blocks(tmp_path):
    mine = read_instance(mines.six_blocks(tmp_path))
    assert mine.counts() == "blocks 6 arcs 7 coefficients 24 limits 4 cpit 10"
    assert mine.blocks.tonnes.tolist() == [2700, 2700, 2700, 2650, 2650, 2650]
    assert mine.blocks.grade.tolist() == [1.8, 2.4, 0.7, 0.2, 0.45, 0]
    assert mine.precedence.toarray()[:3].tolist() == [[0, 0, 0, 1, 1, 0], [0, 0, 0, 1, 1, 1],
                                                      [0, 0, 0, 0, 1, 1]]
    assert mine.precedence[3:].nnz == 0
    assert mine.upit.values.tolist() == [221940, 309420, 61560, -5300, 24645, -5300]
    assert mine.pcpsp.values[4].tolist() == [24645, 9142.5, -5300]
    assert mine.pcpsp.use_matrix(0).toarray().tolist() == [[t, 0, 0]
                                                           for t in [2700] * 3 + [2650] * 3]
    assert mine.pcpsp.use_matrix(1).toarray()[3].tolist() == [2650] * 3
    assert mine.cpit.use_matrix(0).toarray().ravel().tolist() == [2700, 2700, 2700, 0, 2650, 0]
    assert mine.cpit.limits[-1] == Limit(1, 0, "I", 0, 120000)
    assert mine.pcpsp.discounts().tolist() == pytest.approx([1, 1 / 1.08, 1 / 1.08**2])


def test_a_remark_begins_each_file_and_changes_nothing_that_is_read(pitc, tmp_path):
    base = mines.six_blocks(tmp_path)
    write_instance(read_instance(base), str(tmp_path / "marked"), remark="of a trial")
    write_instance(read_instance(str(tmp_path / "marked")), str(tmp_path / "plain"))
    for text in files.TEXTS:
        whole = (tmp_path / f"plain.{text}").read_bytes()
        assert whole == open(f"{base}.{text}", "rb").read(), text
        assert (tmp_path / f"marked.{text}").read_bytes() == b"% of a trial\n" + whole
    assert files.remarks_of(str(tmp_path / "marked.blocks")) == ["of a trial"]
    assert files.remarks_of(base + ".blocks") == []
    counts = [subprocess.run([pitc, "check", path], capture_output=True, text=True, check=True).stdout
              for path in (base, str(tmp_path / "marked"))]
    assert counts[0] == counts[1] != ""


def test_files_that_check_accepts_are_read(tmp_path):
    base = mines.six_blocks(tmp_path)
    write_instance(read_instance(base), str(tmp_path / "plain"))
    for text in files.TEXTS:
        lines = (tmp_path / f"plain.{text}").read_text().splitlines()
        mended = [f" \t{line.replace(' ', '  ')} \r\n\r\n% a comment: 1\r\n" for line in lines]
        (tmp_path / f"odd.{text}").write_bytes(b"\xef\xbb\xbf" + "".join(mended).encode().rstrip())
    write_instance(read_instance(str(tmp_path / "odd")), str(tmp_path / "copy"))
    for text in files.TEXTS:
        assert (tmp_path
                / f"copy.{text}").read_bytes() == (tmp_path / f"plain.{text}").read_bytes(), text


@pytest.mark.parametrize("text, old, new, message", [
    ("blocks", "1 1 0 0", "7 1 0 0", "identifiers are not 0, 1, 2"),
    ("blocks", "1.8 0", "1.8", "line 1: 6 fields, but a block line has 7"),
    ("blocks", "0 0 0 0 2700 1.8 0", "0 0 0 0 2700 1.8 0 ore", "line 1: 8 fields, but a block line "
     "has 7"), ("blocks", "2700 1.8 0", "2700.0001 1.8 0", "line 1: a number has more than 3 decimals: `0 0 0 0 2700.0001 1.8"),
    ("blocks", "2700 1.8 0", "2700 1.8000001 0", "has more than 6 decimals"),
    ("blocks", "2700 1.8 0", "inf 1.8 0", "line 1: field 5 of a block line, `inf`, is not a number"),
    ("blocks", "2700 1.8 0", "2700 1.8 4294967296", "line 1: the zone is 4294967296, not an integer from 0 to 63"),
    ("blocks", "2700 1.8 0", "2700 1.8 0 \x01", "a block line in lines from 1 on cannot be read"),
    ("upit", "NAME: pit", "NAME: the pit", "NAME is `the pit`"),
    ("upit", "OBJECTIVE_FUNCTION:\n0 ", "OBJECTIVE_FUNCTION:\n0 \x1c ", "a line of the objective in lines from 5 on cannot be"),
    ("pcpsp", "0 221940 144180", "0 inf 144180", "line 10: field 2 of a line of the objective, `inf`, is no"),
    ("pcpsp", "0 0 0 2700", "0 256 0 2700", "line 17: the destination is 256, but there are 3"),
    ("pcpsp", "0 0 0 2700", "4294967296 0 0 2700", "line 17: field 1 of a coefficient of a PCPSP is 4294967296"),
    ("pcpsp", "0 0 0 2700", "0 0 0 2700 9", "line 17: 5 fields, but a coefficient of a PCPSP has 4"),
    ("pcpsp", "0 0 0 2700", "0 0 0 1e400", "mine.pcpsp: line 17: field 4 of a coefficient of a PCPSP, `1e400`, is too large"),
    ("pcpsp", "0 0 0 2700", "0 0 0 1e4294967297", "mine.pcpsp: line 17: field 4 of a coefficient of a PCPSP, `1e4294967297`, is too large"),
    ("pcpsp", "0 0 0 2700", "0 0 0 1e-4294967295", "line 17: field 4 of a coefficient of a PCPSP, `1e-4294967295`, is too small"),
    ("pcpsp", "0 0 0 2700", "0 0 0 TRUE", "line 17: field 4 of a coefficient of a PCPSP, `TRUE`, is not a number"),
    ("pcpsp", "0 221940 144180", "0 0.5E+000300 144180", "line 10: a value is too large"),
    ("upit", "1 309420", "1 1e4294967297", "mine.upit: line 6: field 2 of a line of the objective, `1e4294967297`, is too large"),
    ("cpit", "0 0 2700", "0 0 1e21474836480", "mine.cpit: line "),
    ("blocks", "2700 1.8 0", f"2700 .{'0' * 400}1 0", "mine.blocks: line 1: field 6 of a block line, `.0{59}`, is not a number"),
    ("blocks", "2700 1.8 0", "2e4294967297 1.8 0", "mine.blocks: line 1: field 5 of a block line, `2e4294967297`, is too large"),
    ("pcpsp", "NPERIODS: 3", "NPERIODS: 2.5", "NPERIODS is `2.5`, not an integer"),
    ("pcpsp", "NPERIODS: 3", "NPERIODS: inf", "NPERIODS is `inf`, not a number from 1 to 100"),
    ("pcpsp", "DISCOUNT_RATE: 0.08", "DISCOUNT_RATE: 0.0800001", "has more than 6 decimals"),
    ("pcpsp", "0 0 L 60000", "0 0 L inf", "no limit: `0 0 L inf`"),
    ("pcpsp", "0 0 L 60000", "0 0 L nan", "line 42: it is not a limit `r t L v`, `r t G v` or `r t I v w`: `0 0 L nan`"),
    ("blocks", "1.8 0", "x 0", "mine.blocks"),
    ("prec", "0 2 3 4", "0 3 3 4", "line 1: a line `id k p1 .. pk` has 2 predecessors, but k is 3"),
    ("prec", "0 2 3 4", "0 2 3 9", "a predecessor is not a block"),
    ("prec", "5 0\n", "", "5 lines, but there are 6 blocks"),
    ("pcpsp", "TYPE: PCPSP", "TYPE: CPIT", "TYPE is `CPIT`"),
    ("pcpsp", "NBLOCKS: 6", "NBLOCKS: 7", "NBLOCKS is `7`, but the objective has 6 lines"),
    *[("pcpsp", "NPERIODS: 3", f"NPERIODS: {number}", f"NPERIODS is `{number[:60]}`, not a number from 1 to 100")
      for number in ("1_0", "\uff13", "\u0663", "0x3", "3 0", "9" * 401, "3" * 30)],
    *[("pcpsp", "0 0 L 60000", line, f"line 42: it is not a limit.*: `{line[:60]}")
      for line in ("0 0 L 6_0", "\uff10 0 L 6", "0 0 L \uff16", "0.5 0 L 6", "0 0 L", "0 0",
                   "0 0 L 6 7", "0 0 L " + "6" * 500)],
    ("pcpsp", "0 221940 144180", "0 80071992547409.93 144180",
     "line 10: field 2 of a line of the objective, `80071992547409.93`, is of more digits than a number may have"),
    ("pcpsp", "0 221940 144180", "0 221940.0000001000000001 144180", "has more than 6 decimals"),
    ("pcpsp", "1 309420 197640 -5400", "1 309420 197640", "mine.pcpsp"),
    ("pcpsp", "0 0 L 60000", "0 0 X 60000", "it is not a limit"),
    ("pcpsp", "0 0 L 60000", "0 0 <= 60000", "line 42: it is not a limit"),
    ("pcpsp", "0 0 L 60000", "0 0 L 0.0000001", "line 42: .* more than 6 decimals"),
    ("pcpsp", "1 309420 197640 -5400\n", "", "line 11: the objective has 5 lines, not one for "
     "each block from 0 on in turn"), ("pcpsp", "NPERIODS", "nperiods", "the key `nperiods`"),
    ("pcpsp", "NDESTINATIONS: 3\n", "", "NDESTINATIONS is missing"), ("pcpsp", "TYPE: PCPSP\n", "", "TYPE is missing"),
    ("pcpsp", "1 309420 197640", "1,309420 197640", "line 11: 3 fields"),
    ("pcpsp", "1 309420 197640 -5400", "1 309420 197640 -5400 % none", "line 11: 6 fields"),
    ("pcpsp", "OBJECTIVE_FUNCTION:", "RESOURCE_CONSTRAINT_LIMITS:", "line 9: a PCPSP file must have OBJECTIVE_FUNCTION here"),
    ("blocks", "0 0 0 0 2700", "EOF\n0 0 0 0 2700", "line 1: 1 fields, but a block line has 7"),
    ("blocks", "0 0 0 0 2700", "\x01\n0 0 0 0 2700", "mine.blocks"),
    ("upit", "0 221940", "\x01\n0 221940", "line 5: field 1 of a line of the objective"),
    ("pcpsp", "0 0 L 60000", "0 9 L 60000", "line 42: there are 2 resources and 3 periods, from 0"),
    ("cpit", "0 0 2700", "0 5 2700", "line 15: the resource is 5, but there are 2"),
    ("blocks", "5 2 0 1", "5 2 -1 1", "line 6: the index y is -1, not an integer from 0 to 9999"),
    ("blocks", "5 2 0 1", "5 20000 0 1", "line 6: the index x is 20000, not an integer from 0 to 9999"),
    ("blocks", "2700 1.8 0", "-2700 1.8 0", "line 1: the tonnes is -2700, but `pitc check` accepts 0 to 1,000,000"),
    ("blocks", "2700 1.8 0", "2700 1.8 64", "line 1: the zone is 64, not an integer from 0 to 63"),
    ("pcpsp", "RESOURCE_CONSTRAINT_LIMITS:\n0 0 L 60000\n0 1 L 60000\n0 2 L 60000\n1 0 I 0 120000\n",
     "", "it has no section RESOURCE_CONSTRAINT_LIMITS: was it cut short"),
    ("cpit", "RESOURCE_CONSTRAINT_COEFFICIENTS:\n", "", "mine.cpit"),
    ("pcpsp", "CONSTRAINT_LIMITS:", "CONSTRAINTS_LIMITS:", "line 41: not a known section: is it RESOURCE_CONSTRAINT_LIMITS"),
    ("upit", "OBJECTIVE_FUNCTION:", "OBJECTIVE_FUNCTION:\nOBJECTIVE_FUNCTION:", "line 5: "
     "the section is also in line 4"),
    ("pcpsp", "NPERIODS: 3", "NPERIODS: 0", "NPERIODS is `0`, not a number from 1 to 100"),
    ("pcpsp", "NDESTINATIONS: 3", "NDESTINATIONS: 0", "NDESTINATIONS is `0`"),
    ("pcpsp", "NDESTINATIONS: 3", "NDESTINATIONS: 100000000", "not a number from 1 to 8"),
    ("pcpsp", "NPERIODS: 3", "NPERIODS: 3\nNPERIODS: 3", "NPERIODS appears twice"),
    ("pcpsp", "NPERIODS: 3", "NPERIODS: 3\nAUTHOR: me", "the key `AUTHOR` cannot be in the header"),
    ("pcpsp", "0 0 0 2700", "NBLOCKS: 6", "the key `NBLOCKS` cannot be below RESOURCE"),
    ("pcpsp", "DISCOUNT_RATE: 0.08", "DISCOUNT_RATE: 8", "DISCOUNT_RATE is `8`, not a number from 0 to 1"),
    ("upit", "0 221940", "0 99999999999999999999", "line 5: field 2 of a line of the objective, "
     "`99999999999999999999`, is of more digits than a number may have")])
def test_a_damaged_file_is_rejected_by_its_name(tmp_path, text, old, new, message):
    base = mines.six_blocks(tmp_path)
    path = tmp_path / f"mine.{text}"
    whole = path.read_text()
    assert old in whole
    path.write_text(whole.replace(old, new, 1))
    with pytest.raises(UserError, match=message) as error:
        if text == "prec":
            files.read_precedence(f"{base}.prec", 6)
        else:
            read_instance(base)
    assert f"mine.{text}" in str(error.value) and "\n" not in str(error.value)


def test_a_file_that_is_missing_is_named(tmp_path):
    with pytest.raises(UserError, match="cannot open .*gone.blocks"):
        read_instance(str(tmp_path / "gone"))


def test_predecessors_are_counted_without_reading_them(tmp_path):
    base = mines.deposit(tmp_path, K=3)
    mine = read_instance(base)
    counts = files.count_predecessors(f"{base}.prec")
    assert counts.tolist() == np.diff(mine.precedence.indptr).tolist()


@pytest.mark.parametrize("zone", ["zone,1,1,3", "zone,3,2,1,1,5,4,5,4,4", "zone,839,1000,2",
                                  "zone,1000,701,4", "zone,2,1,1,3,1,2,7,5,3"])
def test_arcs_by_cones_are_those_of_the_files(tmp_path, zone):
    base = mines.six_blocks(tmp_path, ("zone,1,1,1", zone), ("10,10,10", "10,5,10"))
    rows = "x,y,z,tonnes,grade\n" + "".join(f"{10 * x},{5 * y},{10 * z},1,0\n" for z in range(5)
                                            for y in range(7)
                                            for x in range(6) if (x + 2 * y + 3 * z) % 7)
    base = mines.compiled(tmp_path, (tmp_path / "mine.plan").read_text(), [rows])
    mine = read_instance(base)
    assert mine.precedence.nnz > 200
    found = precedence_of(mine.blocks, read_plan(f"{base}.plan"))
    assert (found != mine.precedence).nnz == 0


@pytest.mark.parametrize(
    "make", [mines.six_blocks, lambda folder: mines.deposit(folder, 5, (8, 6, 5), "pipe", 3),
             lambda folder: mines.six_blocks(folder, ("6000000,1500", "99999999,9999999"),
                                             ("dump,200", "dump,1"))])
def test_the_instance_that_a_plan_defines_is_that_of_the_plain_computation(tmp_path, make):
    base = make(tmp_path)
    plan = read_plan(base + ".plan")
    zones = [f"{base}-{number}.csv" for number in range(len(plan.zones))]
    write_instance(instance_of(plan, blocks_of(plan.grid, read_zone_files(zones))),
                   str(tmp_path / "copy"))
    for text in files.TEXTS:
        assert (tmp_path / f"copy.{text}").read_bytes() == open(f"{base}.{text}", "rb").read(), text


@pytest.mark.parametrize("case", range(12))
def test_worths_are_exact_however_great_the_numbers_are(case):
    """Compared with integers of Python, where floats would do and where they differ by cents."""
    chances = np.random.default_rng(case)
    tonnes, grade = 10 ** chances.integers(1, 10), 10 ** chances.integers(1, 13)
    kilograms, grades = chances.integers(0, tonnes, 800), chances.integers(0, grade, 800)
    if case % 3 == 0:
        # Round numbers, with worths of integer cents, or differing from them by less than one.
        kilograms, grades = kilograms // 1000 * 1000, grades // 10**6 * 10**6
    shares = [int(share) for share in chances.integers(0, 1001, 2)]
    price = int(chances.integers(0, 10**chances.integers(1, 9)))
    cost = int(chances.integers(0, 10**chances.integers(1, 8)))
    bands = ((Decimal(0), shares[0]), (Decimal("0.3"), shares[1]))
    one = Destination("leach", "heap", price, cost, bands)
    metal = [int(t) * int(g) * shares[int(g >= 300_000)] for t, g in zip(kilograms, grades)]
    wanted = [(one * price - int(t) * cost * 10**12) // 10**15 for one, t in zip(metal, kilograms)]
    assert worth_in_cents(one, kilograms, grades).tolist() == wanted
    dump = Destination("dump", "dump", 0, cost)
    wanted = [-int(t) * cost // 1000 for t in kilograms]
    assert worth_in_cents(dump, kilograms, grades).tolist() == wanted


@pytest.mark.parametrize("change, message", [
    ({"rate": 8.0}, "the rate is 8.0"), ({"rate": 0.0800001}, "the rate is 0.0800001"),
    ({"rate": -0.1}, "the rate is -0.1"), ({"periods": 0}, "there are 0 periods"),
    ({"periods": 101}, "there are 101 periods"), ({"name": "a b"}, "the name is `a b`"),
    ({"resources": 9}, "there are 9 resources"),
    ({"limits": [Limit.of(0, 9, "L", [1.0])]}, "a limit's resource or period does not exist: 0 9"),
    ({"limits": [Limit.of(0, 0, "L", [1.0])] * 2}, "limits do not rise"),
    ({"limits": [Limit.of(0, 0, "I", [2.0, 1.0])]}, "a limit I from 2 to 1"),
    ({"limits": [Limit(0, 0, "L", -np.inf, np.inf)]}, "a limit L from -inf to inf"),
    ({"values": np.full((6, 3), 0.0000001)}, "more than 6 decimals"),
    ({"values": np.ones((6, 9))}, "there are 9 destinations"),
    ({"values": np.ones((5, 3))}, "differ in their numbers of blocks"),
])
def test_nothing_is_written_that_check_rejects(tmp_path, change, message):
    mine = read_instance(mines.six_blocks(tmp_path))
    wrong = replace(mine, pcpsp=replace(mine.pcpsp, **change))
    with pytest.raises(UserError, match=re.escape(message)):
        write_instance(wrong, str(tmp_path / "copy"))
    assert not list(tmp_path.glob("copy*"))


def test_no_block_is_written_that_check_rejects(tmp_path):
    mine = read_instance(mines.six_blocks(tmp_path))
    uses = mine.pcpsp.uses
    turned = replace(mine.pcpsp, uses=Uses(*(column[::-1] for column in vars(uses).values())))
    loop = mine.precedence.toarray()
    loop[2, 2] = 1
    for wrong, message in (
            (replace(mine, blocks=replace(mine.blocks, x=mine.blocks.x + 10_000)), "x is not from"),
            (replace(mine, blocks=replace(mine.blocks, tonnes=mine.blocks.tonnes + 0.0001)),
             "more than 3 decimals"),
            (replace(mine, pcpsp=turned), "coefficients do not rise"),
            (replace(mine, precedence=loop), "a block is its own predecessor")):
        with pytest.raises(UserError, match=message):
            write_instance(wrong, str(tmp_path / "copy"))
    assert not list(tmp_path.glob("copy*"))


def test_a_plain_program_overwrites_nothing_that_it_has_read(tmp_path):
    base = mines.six_blocks(tmp_path)
    before = {path.name: path.read_bytes() for path in tmp_path.iterdir()}
    mine = read_instance(base)
    with pytest.raises(UserError, match="this program has read it"):
        write_instance(mine, base)
    assert {path.name: path.read_bytes() for path in tmp_path.iterdir()
            if path.name in before} == before
    for _ in range(2):
        # What it has written itself it may read, and write again.
        write_instance(mine, str(tmp_path / "copy"))
        read_instance(str(tmp_path / "copy"))
