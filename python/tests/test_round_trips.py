"""What is written is read back, and what a reader accepts it can write, of made and of changed
files."""
import functools
import os
import tempfile

import numpy as np
import pandas as pd
import pytest
from hypothesis import HealthCheck, example, given, settings
from hypothesis import strategies as st
from hypothesis.extra import numpy as arrays
from scipy import sparse

import mines
import shared
from pit_tools.cli import main
from pit_tools.errors import UserError
from pit_tools.instances import files
from pit_tools.instances.arrays import Blocks, Instance, Limit, Problem, UltimatePit, Uses
from pit_tools.instances.files import read_instance, write_instance
from pit_tools.instances.identifiers import (Identifiers, order_of, read_identifiers,
                                             write_identifiers)
from pit_tools.instances.minelib import Columns, read_published, write_published
from pit_tools.pits.files import read_pit, write_pit
from pit_tools.plans.file import plan_of
from pit_tools.plans.zone_files import read_zone_file, write_zone_file
from pit_tools.schedules.files import Schedule, read_schedule, write_schedule

SOME = settings(max_examples=25, deadline=None, derandomize=True,
                suppress_health_check=[HealthCheck.too_slow, HealthCheck.data_too_large])

NAMES = st.text("abcXYZ019_.-", min_size=1, max_size=64)


def decimals(places, most):
    """Floats nearest to decimals of this number of places, as a reader has them."""
    return st.integers(-most * 10**places, most * 10**places).map(lambda whole: whole / 10**places)


# Values of few and of many places, and some that are too large for more than two.
VALUES = st.one_of(st.sampled_from([0.0, -0.01, 9e9 + 0.25, -9e13 + 0.5]), decimals(2, 10**9),
                   decimals(6, 10**6))


@st.composite
def uses(draw, blocks, destinations, resources):
    places = draw(st.lists(st.tuples(st.integers(0, blocks - 1), st.integers(0, destinations - 1),
                                     st.integers(0, resources - 1)), unique=True,
                           max_size=12)) if resources else []
    block, destination, resource = zip(*sorted(places)) if places else ((), (), ())
    amounts = draw(st.lists(st.one_of(VALUES, decimals(3, 10**6)), min_size=len(places),
                            max_size=len(places)))
    return Uses(np.array(block, np.int32), np.array(destination, np.int8),
                np.array(resource, np.int8), np.array(amounts, float))


@st.composite
def limits(draw, resources, periods):
    places = draw(st.lists(st.tuples(st.integers(0, resources - 1), st.integers(0, periods - 1)),
                           unique=True, max_size=5)) if resources else []
    ends = st.one_of(decimals(6, 10**6), decimals(0, 10**9))
    return [Limit.of(*place, letter, sorted([draw(ends), draw(ends)]) if letter == "I"
                     else [draw(ends)]) for place, letter in ((place, draw(st.sampled_from("LGI")))
                                                              for place in sorted(places))]


@st.composite
def problems(draw, kind, blocks):
    destinations = draw(st.integers(1, 4)) if kind == "PCPSP" else 1
    periods, resources = draw(st.integers(1, 5)), draw(st.integers(0, 3))
    values = draw(arrays.arrays(float, (blocks, destinations), elements=VALUES))
    return Problem(kind, draw(NAMES), periods, resources, draw(decimals(6, 1).map(abs)), values,
                   draw(uses(blocks, destinations, resources)), draw(limits(resources, periods)))


@st.composite
def instances(draw, in_order=True):
    n = draw(st.integers(1, 7))
    whole = [draw(arrays.arrays(np.int32, n, elements=st.integers(0, most)))
             for most in (9999, 9999, 9999, 63)]
    tonnes, grade = (draw(arrays.arrays(float, n, elements=decimals(places, 10**6).map(abs)))
                     for places in (3, 6))
    above = np.triu(draw(arrays.arrays(np.int8, (n, n), elements=st.integers(0, 1))), 1)
    if not in_order:
        order = np.array(draw(st.permutations(range(n))))
        above = above[order][:, order]
    return Instance(Blocks(*whole[:3], tonnes, grade, whole[3]), sparse.csr_matrix(above),
                    UltimatePit(draw(NAMES), draw(arrays.arrays(float, n, elements=VALUES))),
                    draw(problems("PCPSP", n)), draw(problems("CPIT", n)))


def same(one, other):
    """Whether two instances are the same, part by part."""
    for part in ("blocks", "upit", "pcpsp", "cpit"):
        here, there = vars(getattr(one, part)), vars(getattr(other, part))
        for name, value in here.items():
            pairs = (zip(vars(value).values(), vars(there[name]).values())
                     if isinstance(value, Uses) else [(value, there[name])])
            assert all(np.array_equal(a, b) for a, b in pairs), (part, name, value, there[name])
    assert (one.precedence != other.precedence).nnz == 0
    return True


@functools.lru_cache(maxsize=None)
def six_texts():
    """The texts of the six blocks, by their endings."""
    with tempfile.TemporaryDirectory() as folder:
        base = mines.six_blocks(folder)
        return {text: shared.read(f"{base}.{text}") for text in files.TEXTS}


@functools.lru_cache(maxsize=None)
def six_blocks():
    """The instance of the six blocks."""
    with tempfile.TemporaryDirectory() as folder:
        return read_instance(mines.six_blocks(folder))


def changed(folder, text, place, cell):
    """Writes the six blocks with one field of one text changed; returns the base."""
    texts = dict(six_texts())
    fields = texts[text].split(" ")
    fields[place % len(fields)] = cell
    texts[text] = " ".join(fields)
    base = os.path.join(folder, "mine")
    shared.write_texts(base, texts)
    return base


@SOME
@given(instances())
def test_an_instance_that_is_written_is_read_back(mine):
    with tempfile.TemporaryDirectory() as folder:
        base = os.path.join(folder, "mine")
        write_instance(mine, base)
        assert same(mine, read_instance(base))


@SOME
@given(st.sampled_from(files.TEXTS), st.integers(0, 10**6),
       st.sampled_from(["", "0", "-1", "7", "0.5", "300", "1e3", "1e15", "nan", "inf", "x", ".",
                        "4294967296", "5.0000001", "1 2", ":", "%", "\n", '"', "NAME: a b"]))
def test_what_a_reader_takes_it_can_write(text, place, cell):
    """With one field of one file changed, it is rejected in one line, or what is read is
    written and read back."""
    with tempfile.TemporaryDirectory() as folder:
        base = changed(folder, text, place, cell)
        try:
            mine = read_instance(base)
        except UserError as error:
            assert ("\n" not in str(error) and f"mine.{text}" in str(error)
                    or "differ in their numbers of blocks" in str(error))
            return
        write_instance(mine, os.path.join(folder, "copy"))
        assert same(mine, read_instance(os.path.join(folder, "copy")))


@SOME
@given(instances(), st.sampled_from(["bdr", "brd", "rbd"]))
def test_published_files_are_read_back(mine, order):
    """The texts of an instance whose numbers `pitc check` accepts."""
    with tempfile.TemporaryDirectory() as folder:
        base = os.path.join(folder, "mine")
        write_published(mine, base, order)
        found, identifiers = read_published({ending: f"{base}.{ending}"
                                             for ending in files.TEXTS}, Columns(5, 6, 7), order)
        assert same(mine, found) and identifiers.published.tolist() == list(range(len(mine.blocks)))


@SOME
@given(instances(in_order=False))
def test_blocks_come_before_what_they_wait_for(mine):
    with tempfile.TemporaryDirectory() as folder:
        base = os.path.join(folder, "mine")
        write_published(mine, base)
        found, identifiers = read_published({ending: f"{base}.{ending}"
                                             for ending in files.TEXTS}, Columns(5, 6, 7), "bdr")
        assert order_of(found.precedence) is None
        before = identifiers.published
        assert sorted(before) == list(range(len(mine.blocks)))
        assert (found.precedence != mine.precedence[before][:, before]).nnz == 0
        assert np.array_equal(found.upit.values, mine.upit.values[before])
        assert np.array_equal(found.pcpsp.use_matrix(0).toarray(),
                              mine.pcpsp.use_matrix(0).toarray()[before])


@SOME
@given(st.permutations(range(9)), st.integers(0, 1))
def test_identifiers_are_read_back(order, first):
    with tempfile.TemporaryDirectory() as folder:
        path = os.path.join(folder, "ids")
        identifiers = Identifiers(np.array(order) + first)
        write_identifiers(identifiers, path)
        found = read_identifiers(path)
        assert np.array_equal(found.published, identifiers.published)
        assert np.array_equal(found.published[found.blocks()], np.arange(9) + first)


@SOME
@given(st.lists(st.tuples(st.integers(0, 5), st.integers(0, 2), st.integers(0, 2),
                          decimals(6, 1).map(abs)), max_size=9), st.booleans())
def test_a_schedule_is_read_back(lines, is_pcpsp):
    mine = six_blocks()
    block, period, destination, share = zip(*lines) if lines else ((), (), (), ())
    schedule = Schedule.of(block, period, destination if is_pcpsp else None, share)
    with tempfile.TemporaryDirectory() as folder:
        path = os.path.join(folder, "schedule")
        write_schedule(schedule, path, is_pcpsp)
        found = read_schedule(path, mine.pcpsp if is_pcpsp else mine.cpit)
        for name, column in vars(schedule).items():
            assert np.array_equal(column, getattr(found, name)), name


@SOME
@given(st.sampled_from(files.TEXTS), st.integers(0, 10**6),
       st.sampled_from(["", "0", "-1", "7", "0.5", "300", "1e3", "1e15", "nan", "inf", "x", ".",
                        "4294967296", "5.0000001", "1 2", ":", "%", "\n", '"', "EOF"]))
def test_a_changed_published_file_is_taken_or_rejected_in_a_line(text, place, cell):
    """What is converted is an instance that the reader accepts."""
    with tempfile.TemporaryDirectory() as folder:
        base = changed(folder, text, place, cell)
        words = [word for ending in files.TEXTS for word in (f"--{ending}", f"{base}.{ending}")]
        status = main(["minelib", *words, "--tonnes", "5", "--grade", "6", "--zone", "7", "--out",
                       os.path.join(folder, "again")])
        assert status in (0, 2)
        if status == 0:
            assert read_instance(os.path.join(folder, "again")).blocks is not None


#: What may occur in a cell or a field, and does not belong there.
ODD = st.sampled_from(["", "0", "-1", "7", "0.5", "1e3", "1e999999999", "9" * 5000, "nan", "inf",
                       "x", ".", "²", "٣", "é", '"', '"a\n', "1 2", "\r", "\0", "a,b", "name", "L"])


@SOME
@given(st.lists(st.booleans(), max_size=40), st.integers(0, 60), ODD)
def test_a_pit_is_read_back_and_a_changed_line_is_taken_or_rejected(in_pit, at, cell):
    with tempfile.TemporaryDirectory() as folder:
        path = os.path.join(folder, "pit")
        write_pit(np.array(in_pit, bool), path)
        assert read_pit(path, 40).tolist() == np.flatnonzero(in_pit).tolist()
        lines = shared.read(path).splitlines()
        shared.write(path, "\n".join(lines[:at] + [cell] + lines[at + 1:]))
        try:
            found = read_pit(path, 40)
        except UserError as error:
            assert "\n" not in str(error) and "pit" in str(error)
            return
        assert np.all(np.diff(found) > 0) and np.all((found >= 0) & (found < 40))


@SOME
@example(0, '"')
@given(st.integers(0, 200), ODD)
def test_a_plan_with_a_changed_cell_is_rejected_or_written_as_it_is_read(at, cell):
    cells = "\n".join(mines.SIX).replace("\n", ",\n,").split(",")
    cells[at % len(cells)] = cell
    text = ",".join(cells).replace(",\n,", "\n")
    try:
        plan = plan_of(text, "a.plan")
    except UserError as error:
        assert "\n" not in str(error) and "a.plan" in str(error)
        return
    assert plan_of(plan.text()) == plan


@SOME
@given(st.lists(st.tuples(*(st.integers(-10**9, 10**9) for _ in "xyz"), st.integers(0, 10**9),
                          st.integers(0, 10**12)), max_size=8), st.integers(0, 60), ODD)
def test_a_zone_file_is_read_back_and_a_changed_cell_is_taken_or_rejected(rows, at, cell):
    with tempfile.TemporaryDirectory() as folder:
        path = os.path.join(folder, "zone.csv")
        table = pd.DataFrame(rows, columns=["x", "y", "z", "tonnes", "grade"], dtype=np.int64)
        write_zone_file(path, table)
        assert np.array_equal(read_zone_file(path).to_numpy(), table.to_numpy())
        cells = shared.read(path).replace("\n", ",\n,").split(",")
        cells[at % len(cells)] = cell
        shared.write(path, ",".join(cells).replace(",\n,", "\n"))
        try:
            found = read_zone_file(path)
        except UserError as error:
            assert "\n" not in str(error) and "zone.csv" in str(error)
            return
        write_zone_file(path, found)
        assert np.array_equal(read_zone_file(path).to_numpy(), found.to_numpy())


def test_a_number_that_cannot_be_held_is_not_written(tmp_path):
    upit = UltimatePit("mine", np.array([1e15, 0.25]))
    with pytest.raises(UserError, match="above"):
        files.write_upit(upit, str(tmp_path / "mine.upit"))
