"""Programs as text in the LP format, some thousand terms at a time."""
from __future__ import annotations

from typing import IO, Iterator

import numpy as np
from scipy import sparse

from pit_tools.schedules.programs import Program
from pit_tools.texts.number_texts import (ROWS, Part, decimal_parts, float_parts, joined, laid,
                                          rounded, spread, equal_parts)

#: Terms of a line: readers have limits for lines.
WIDTH = 8

#: Decimals of the objective, of the factors of rows, and of their sides.
VALUES, FACTORS, SIDES = 6, 9, 6

# Letters and relations of lines: of an equation, a lower side and an upper side.
_LETTERS = np.frombuffer(b"rgl", np.uint8)
_RELATIONS = np.array([" = ", " >= ", " <= "], "S4").view(np.uint32)


def write_lp(program: Program, file: IO[str]) -> None:
    """Writes a program to a file that is open for text, in the LP format that most solvers
    read.

    Raises UserError if a number is infinite or too great for its decimals."""
    for chunk in _chunks(program):
        file.write(chunk.decode("ascii"))


def _chunks(program: Program) -> Iterator[bytes]:
    names = program.names
    nothing = b"0 " + joined(names.parts(np.zeros(1, np.int64)), 1) if names.count else b""
    yield f"\\ {program.title}\nMaximize\n value:\n".encode("ascii")
    yield from _objective(program)
    if names.count and not program.objective.any():
        yield b"  " + nothing + b"\n"
    yield b"Subject To\n"
    yield from _rows(program)
    if names.count and not program.rows.shape[0]:
        # Readers, as that of glpsol, need a row in the section.
        yield b" l0: " + nothing + b" <= 0\n"
    yield b"Bounds\n"
    yield from _named(program, ~program.is_integer, b" 0 <= ", b" <= 1\n")
    if program.is_integer.any():
        yield b"Binary\n"
        yield from _named(program, program.is_integer, b" ", b"\n")
    yield b"End\n"


def _named(program: Program, chosen: np.ndarray, first: bytes, last: bytes) -> Iterator[bytes]:
    """A line for each variable that is chosen, bool (variables,)."""
    places = np.flatnonzero(chosen)
    for at in range(0, len(places), ROWS):
        some = places[at:at + ROWS]
        yield joined([first, *program.names.parts(some), last], len(some))


def _terms(program: Program, columns: np.ndarray, factors: np.ndarray, decimals: int,
           new_line: np.ndarray, without_plus: np.ndarray) -> list[Part]:
    """Encodes terms: a blank, or a new line at these places; a sign, unless it is a plus that is
    omitted, bool (terms,); a factor, unless it is 1; and a name."""
    count = len(factors)
    parts: list[Part] = [b" ", np.where(factors < 0, ord("-"), ord("+")).astype(np.uint8), b" "]
    if without_plus.any():
        parts[1:] = [np.where(without_plus, 0, part).astype(np.uint8)
                     for part in (parts[1], ord(" "))]
    if len(new_line):
        parts.insert(0, spread(laid([b"\n "], len(new_line)), new_line, count))
    sizes = np.abs(factors)
    some = np.flatnonzero(sizes != 1)
    if len(some):
        shown = [*decimal_parts(*rounded(sizes[some], decimals), decimals), b" "]
        parts.append(spread(laid(shown, len(some)), some, count))
    return [*parts, *program.names.parts(columns)]


def _objective(program: Program) -> Iterator[bytes]:
    places = np.flatnonzero(program.objective)
    for at in range(0, len(places), ROWS):
        some = places[at:at + ROWS]
        new_line = np.arange(0, len(some), WIDTH)[0 if at else 1:]
        terms = _terms(program, some, program.objective[some], VALUES, new_line,
                       np.zeros(len(some), dtype=bool))
        yield (b"" if at else b" ") + joined(terms, len(some))
    if len(places):
        yield b"\n"


def _rows(program: Program) -> Iterator[bytes]:
    rows = _with_terms(program.rows)
    for first in range(0, rows.shape[0], ROWS):
        lower, upper = program.lower[first:first + ROWS], program.upper[first:first + ROWS]
        sides = np.stack([lower == upper, (lower > -np.inf) & (lower != upper),
                          (upper < np.inf) & (lower != upper)], axis=1)
        row, side = np.nonzero(sides)
        yield from _lines(program, rows, row + first, side)


def _with_terms(rows: sparse.csr_matrix) -> sparse.csr_matrix:
    """Yields rows that each have a term: a zero is omitted, except the first variable of an
    otherwise empty row."""
    if not rows.data.all():
        rows = rows.copy()
        rows.eliminate_zeros()
    empty = np.flatnonzero(np.diff(rows.indptr) == 0)
    if len(empty) == 0:
        return rows
    at = rows.indptr[empty]
    starts = rows.indptr + np.searchsorted(empty, np.arange(rows.shape[0] + 1))
    return sparse.csr_matrix((np.insert(rows.data, at, 0.0), np.insert(rows.indices, at, 0),
                              starts), shape=rows.shape)


def _lines(program: Program, rows: sparse.csr_matrix, row: np.ndarray,
           side: np.ndarray) -> Iterator[bytes]:
    """Lines (m,) of rows with a side: 0 of both, 1 the lower and 2 the upper one."""
    begins, counts = rows.indptr[row], rows.indptr[row + 1] - rows.indptr[row]
    ends = np.cumsum(counts, dtype=np.int64)
    starts = ends - counts
    heads = laid([b" ", _LETTERS[side], *equal_parts(row), b":"], len(row))
    limits = np.where(side == 1, program.lower[row], program.upper[row])
    tails = laid([_RELATIONS[side], *float_parts(limits, SIDES), b"\n"], len(row))
    total = int(ends[-1]) if len(row) else 0
    for at in range(0, total, ROWS):
        stop = min(at + ROWS, total)
        some = slice(*np.searchsorted(ends, [at, stop - 1], side="right") + [0, 1])
        line = np.repeat(np.arange(len(row))[some],
                         np.minimum(ends[some], stop) - np.maximum(starts[some], at))
        place = np.arange(at, stop) - starts[line]
        terms = begins[line] + place
        factors, is_long = rows.data[terms], counts[line] > WIDTH
        first, last = np.flatnonzero(place == 0), np.flatnonzero(place == counts[line] - 1)
        yield joined([spread(heads[line[first]], first, stop - at),
                      *_terms(program, rows.indices[terms], factors, FACTORS,
                              np.flatnonzero(is_long & (place % WIDTH == 0)),
                              ~is_long & (place == 0) & (factors >= 0)),
                      spread(tails[line[last]], last, stop - at)], stop - at)
