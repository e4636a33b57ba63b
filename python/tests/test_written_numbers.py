"""Numbers and programs as text, many at a time, by how Python formats one."""
import io
from decimal import Decimal

import numpy as np
import pytest
from scipy import sparse

from pit_tools import Program, Schedule, write_lp, write_schedule
from pit_tools.schedules.programs import Names
from pit_tools.texts.number_texts import ROWS, NotHeld, float_parts, joined, lines_of, shortest

#: Integers at the ends of groups of digits, and of types.
EDGES = [0, 1, 9, 10, 99, 9_999, 10_000, 10_001, 100_000, 99_999_999, 100_000_000, 2**31, 2**32 - 1,
         2**32, 10**12, 10**12 - 1, 120_034_005_600, 2**53, 10**16, 999_999_999_999_999_999]


def plain(multiple, decimals):
    """A decimal by its integer multiple, as its shortest text."""
    return format(Decimal(int(multiple)).scaleb(-decimals).normalize() + 0, "f")


@pytest.mark.parametrize("decimals", range(10))
def test_lines_of_numbers(decimals):
    numbers = np.array(EDGES + [-number for number in EDGES])
    multiples = numbers[np.abs(numbers) < 2**62]
    wanted = "".join(f"a {plain(one, decimals)} {place}\n" for place, one in enumerate(multiples))
    columns = [(multiples, decimals), (np.arange(len(multiples)), 0)]
    assert b"".join(lines_of(columns, begin=b"a ")).decode() == wanted
    one_by_one = b"".join(b"".join(lines_of([(np.array([one]), decimals)])) for one in multiples)
    assert one_by_one.decode().split() == [plain(one, decimals) for one in multiples]


def test_lines_continue_where_a_chunk_ends():
    count = 2 * ROWS + 3
    ends = np.where(np.arange(count) % 3, ord(" "), ord("\n")).astype(np.uint8)
    text = b"".join(lines_of([(np.arange(count), 0)], ends))
    assert text.decode() == "".join(f"{at}{' ' if at % 3 else chr(10)}" for at in range(count))


def floats():
    """Floats of which some are near the half of a last place."""
    chance = np.random.default_rng(7)
    return np.concatenate([
        chance.normal(0, 1, 300), chance.normal(0, 1e9, 300), chance.normal(0, 1e-9, 300),
        (chance.integers(0, 10**7, 300) * 10 + 5) / 1e10, np.arange(300) / 2.0**10,
        1 - chance.random(300) * 1e-9, [0.0, -0.0, 0.9999999999, 123456.9999999996, 1e17, -2.5]])


@pytest.mark.parametrize("decimals", [6, 9])
def test_floats_are_rounded_as_python_does(decimals):
    values = floats()
    text = joined([*float_parts(values, decimals), b"\n"], len(values)).decode()
    assert text.split() == [shortest(value, decimals) for value in values]
    for value in (np.inf, np.nan, 1e18):
        with pytest.raises(NotHeld):
            float_parts(np.array([value]), decimals)


def term(factor, name, decimals):
    sign = "-" if factor < 0 else "+"
    return f"{sign} {name}" if abs(factor) == 1 else f"{sign} {shortest(abs(factor), decimals)} " \
        f"{name}"


def in_lines(terms):
    return "\n".join("  " + " ".join(terms[at:at + 8]) for at in range(0, len(terms), 8)) + "\n"


def lp_by_terms(program):
    """The text of a program, term after term."""
    names = program.names.list()
    text = f"\\ {program.title}\nMaximize\n value:\n"
    terms = [term(factor, name, 6) for factor, name in zip(program.objective, names) if factor]
    text += in_lines(terms or [f"0 {names[0]}"]) + "Subject To\n"
    for row, (low, high) in enumerate(zip(program.lower, program.upper)):
        part = slice(*program.rows.indptr[row:row + 2])
        terms = [term(factor, names[at], 9) for factor, at in
                 zip(program.rows.data[part], program.rows.indices[part]) if factor]
        terms = terms or [f"0 {names[0]}"]
        shown = " " + " ".join(terms).removeprefix("+ ") if len(terms) < 9 \
            else "\n" + in_lines(terms)[:-1]
        sides = [("r", "=", high)] if low == high else [
            (letter, sign, side) for letter, sign, side in (("g", ">=", low), ("l", "<=", high))
            if np.isfinite(side)]
        text += "".join(f" {letter}{row}:{shown} {sign} {shortest(side)}\n"
                        for letter, sign, side in sides)
    text += "" if len(program.lower) else f" l0: 0 {names[0]} <= 0\n"
    text += "Bounds\n" + "".join(f" 0 <= {name} <= 1\n" for name in
                                 np.array(names)[~program.is_integer])
    binary = "".join(f" {name}\n" for name in np.array(names)[program.is_integer])
    return text + (f"Binary\n{binary}" if binary else "") + "End\n"


NAMES = [Names(30), Names(5, 3, has_x=True), Names(4, 2, 3, has_x=False), Names(2, 12, 2, True),
         Names(3, 11, 1, has_x=True, has_w=False)]


@pytest.mark.parametrize("seed", range(6))
@pytest.mark.parametrize("names", NAMES)
def test_a_program_is_written_term_for_term(names, seed):
    """Rows of no term, of one, and of more than a line; both sides, one, or an equation."""
    chance = np.random.default_rng(seed)
    count, rows = len(names.list()), 12 if seed else 0
    matrix = sparse.random(rows, count, [0, 0.1, 0.5, 1][seed % 4], "csr", random_state=seed)
    matrix.data = chance.choice(np.append(floats(), [1.0, -1.0, 0.0] * 500), matrix.nnz)
    lower = np.where(chance.random(rows) < 0.4, -np.inf, np.round(chance.normal(0, 100, rows), 7))
    upper = np.where(chance.random(rows) < 0.4, np.inf, np.maximum(lower, 2.5))
    upper = np.where((chance.random(rows) < 0.3) & np.isfinite(lower), lower, upper)
    objective = chance.choice(floats(), count) * (seed != 2)
    program = Program("a title", objective, matrix, lower, upper, chance.random(count) < seed / 4,
                      names, np.zeros(rows, np.int8))
    file = io.StringIO()
    write_lp(program, file)
    assert file.getvalue() == lp_by_terms(program)


def test_rows_of_more_terms_than_a_chunk():
    count = ROWS + 100
    matrix = sparse.csr_matrix(np.vstack([np.full(count, 2.5), np.eye(1, count)[0],
                                          np.arange(count) - 5.0]))
    program = Program("long", np.arange(count) - 9.0, matrix, np.array([0.0, -np.inf, 1.0]),
                      np.array([9.5, 1.0, 1.0]), np.zeros(count, bool), Names(count),
                      np.zeros(3, np.int8))
    file = io.StringIO()
    write_lp(program, file)
    assert file.getvalue() == lp_by_terms(program)


def test_a_schedule_is_written_line_for_line(tmp_path):
    share = floats()[:600]
    share[::3] = 1.0
    at = np.arange(len(share))
    schedule = Schedule(at, at % 13, at % 3, share)
    for is_pcpsp in (False, True):
        write_schedule(schedule, str(tmp_path / "it"), is_pcpsp)
        wanted = [" ".join([str(block), str(block % 13), *([str(block % 3)] if is_pcpsp else []),
                            *([] if one == 1 else [shortest(one, 9)])])
                  for block, one in zip(at, share)]
        assert (tmp_path / "it").read_text().splitlines() == wanted
