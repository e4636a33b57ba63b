"""Files as the MineLib library publishes them, to an instance as `pitc` writes it, and back.

The library's files are known here by hearsay only: none was tried. Their assumed form: comments
from `%` on; a last line `EOF`; block files with each mine's own fields after the coordinates, also
words; precedence lines only for some blocks, and predecessors with smaller identifiers; header keys
and sections in any order and case; exponents; a second number after a limit `L` or `G`, and
infinite ones; and not all of UPIT, CPIT and PCPSP.
"""
from __future__ import annotations

from dataclasses import replace
from typing import Optional

import numpy as np
from scipy import sparse

from pit_tools.errors import UserError
from pit_tools.instances.arrays import Instance, Problem, UltimatePit, Uses
from pit_tools.instances.block_files import Columns, read_columns
from pit_tools.instances.files import arcs_in, write_instance
from pit_tools.instances.identifiers import Identifiers, order_of, reordered
from pit_tools.instances.models import read_model, read_upit
from pit_tools.texts.lines import Changes, chunks_of, reject_row


def read_precedence(path: str, blocks: int, first: int, changes: Changes) -> sparse.csr_matrix:
    """Reads the precedences: `id k p1 .. pk` in any order; blocks without a line have none.

    Raises UserError, with the line, if a number of predecessors or an identifier is wrong.
    """
    rows, counts, above = [], [], []
    done = 0
    for chunk in chunks_of(path):
        ids, count, predecessors = arcs_in(chunk)
        for what, column in (("the block", ids), ("a predecessor", predecessors)):
            is_wrong = (column < first) | (column >= first + blocks)
            if is_wrong.any():
                at = int(is_wrong.argmax())
                row = at if column is ids else \
                    int(np.searchsorted(np.cumsum(count), at, side="right"))
                chunk.reject(row, f"{what} {column[at]} is not one of the {blocks} of the block "
                                  "file")
        rows.append((ids - first).astype(np.int32))
        counts.append(count.astype(np.int32))
        above.append((predecessors - first).astype(np.int32))
        done += len(ids)
    lines = [np.concatenate(part) if part else np.empty(0, np.int32)
             for part in (rows, counts, above)]
    if done < blocks:
        changes.add(f"{blocks - done} blocks had no line in the precedence file, so they have no "
                    "predecessors")
    return _matrix_of(path, blocks, *lines)


def _matrix_of(path: str, blocks: int, rows: np.ndarray, counts: np.ndarray,
               above: np.ndarray) -> sparse.csr_matrix:
    """The matrix of lines of a precedence file."""
    order = None if np.all(rows[1:] > rows[:-1]) else np.argsort(rows, kind="stable")
    if order is not None:
        twice = np.flatnonzero(np.diff(rows[order]) == 0)
        if len(twice):
            reject_row(chunks_of(path), int(order[twice[0] + 1]), "the block has an earlier line")
        ends = np.cumsum(counts, dtype=np.int64)
        starts = np.repeat((ends - counts)[order], counts[order])
        lengths = counts[order].astype(np.int64)
        within = np.arange(len(above)) - np.repeat(np.cumsum(lengths) - lengths, lengths)
        above = above[starts + within]
    numbers = np.zeros(blocks, dtype=np.int64)
    numbers[rows] = counts
    matrix = sparse.csr_matrix((blocks, blocks), dtype=np.int8)
    matrix.indptr = np.concatenate([[0], np.cumsum(numbers)])
    if len(above) < 2**31:
        matrix.indptr = matrix.indptr.astype(np.int32)
    matrix.indices, matrix.data = above, np.ones(len(above), dtype=np.int8)
    matrix.sort_indices()
    lower = np.repeat(np.arange(blocks, dtype=np.int32), numbers)
    is_wrong = matrix.indices == lower
    is_wrong[1:] |= (matrix.indices[1:] == matrix.indices[:-1]) & (lower[1:] == lower[:-1])
    if is_wrong.any():
        at = int(np.flatnonzero(rows == lower[int(is_wrong.argmax())])[0])
        reject_row(chunks_of(path), at, "the block names a predecessor twice, or itself")
    return matrix


def _no_uses() -> Uses:
    return Uses(np.empty(0, np.int32), np.empty(0, np.int8), np.empty(0, np.int8), np.empty(0))


def _cpit_of(pcpsp: Problem) -> Problem:
    """Sends each block where it is worth most, to the first of several such destinations."""
    best = pcpsp.values.argmax(axis=1)
    uses = pcpsp.uses
    taken = uses.destination == best[uses.block]
    kept = Uses(uses.block[taken], np.zeros(taken.sum(), np.int8), uses.resource[taken],
                uses.amount[taken])
    return replace(pcpsp, kind="CPIT", values=pcpsp.values.max(axis=1)[:, None], uses=kept)


def _completed(mine: Instance, changes: Changes) -> Instance:
    """Returns the instance with the missing problems made from the existing ones."""
    pcpsp, cpit, upit = mine.pcpsp, mine.cpit, mine.upit
    if cpit is None and pcpsp is not None:
        cpit = _cpit_of(pcpsp)
        changes.add("the CPIT was made from the PCPSP: each block goes where it is worth most")
    if cpit is None and upit is not None:
        cpit = Problem("CPIT", upit.name, 1, 0, 0.0, upit.values[:, None], _no_uses())
        changes.add("the CPIT was made from the UPIT: one period, no resource")
    if cpit is None:
        raise UserError("give a UPIT, a CPIT or a PCPSP")
    if pcpsp is None:
        pcpsp = replace(cpit, kind="PCPSP")
        changes.add("the PCPSP was made from the CPIT: one destination")
    if upit is None:
        upit = UltimatePit(cpit.name, cpit.values[:, 0])
        changes.add("the UPIT was made from the CPIT's values")
    return replace(mine, pcpsp=pcpsp, cpit=cpit, upit=upit)


def read_published(files: dict[str, str], columns: Columns = Columns(), order: Optional[str] = None,
                   without_general: bool = False,
                   changes: Optional[Changes] = None) -> tuple[Instance, Identifiers]:
    """Reads an instance from published files, by the endings blocks, prec, upit, cpit and pcpsp,
    and the identifiers that its blocks had; blocks, prec and one of the others must exist.

    Raises UserError if a file is invalid, or if their blocks differ.
    """
    changes = changes if changes is not None else Changes()
    absent = [ending for ending in ("blocks", "prec") if ending not in files]
    if absent:
        raise UserError(f"give the file of {' and '.join(absent)}")
    blocks, first = read_columns(files["blocks"], columns, changes)
    precedence = read_precedence(files["prec"], len(blocks), first, changes)
    upit = read_upit(files["upit"], first, without_general, changes) if "upit" in files else None
    problems = [read_model(files[ending], ending.upper(), first, order, without_general, changes)
                if ending in files else None for ending in ("pcpsp", "cpit")]
    mine = _completed(Instance(blocks, precedence, upit, *problems), changes)
    for part in (mine.upit, mine.cpit, mine.pcpsp):
        if part is not None and len(part.values) != len(blocks):
            raise UserError(f"a model file has {len(part.values)} blocks, but the block file "
                            f"{len(blocks)}")
    return _in_order(mine, first, changes)


def _in_order(mine: Instance, first: int, changes: Changes) -> tuple[Instance, Identifiers]:
    """Returns the instance in an order in which predecessors follow their blocks."""
    _look_at_heights(mine, changes)
    order = None if mine.precedence is None else order_of(mine.precedence)
    published = np.arange(first, first + len(mine.blocks or ()))
    if first:
        changes.add(f"identifiers counted from {first}, and now count from 0")
    if order is not None:
        mine, published = reordered(mine, order), published[order]
        changes.add("a predecessor preceded its block: blocks now have other identifiers")
    return mine, Identifiers(published)


def _look_at_heights(mine: Instance, changes: Changes) -> None:
    """Reports if predecessors are below their blocks."""
    if mine.blocks is None or mine.precedence is None or not mine.precedence.nnz:
        return
    heights = np.repeat(mine.blocks.z, np.diff(mine.precedence.indptr))
    if (mine.blocks.z[mine.precedence.indices] < heights).mean() > 0.5:
        changes.add("most predecessors are at a smaller z than their block: z counts downward "
                    "there")


def _in_fields(uses: Uses, order: str) -> Uses:
    """Returns the uses with the fields of the given order in the places of the first, second and
    third, so that they are written in that order."""
    columns = {"b": uses.block, "d": uses.destination, "r": uses.resource}
    rank = np.lexsort([columns[letter] for letter in reversed(order)])
    first, second, third = (columns[letter][rank] for letter in order)
    return Uses(first, second, third, uses.amount[rank])


def _with_fields(problem: Optional[Problem], order: str) -> Optional[Problem]:
    if problem is None:
        return None
    # A CPIT's lines are written of the first and the third place.
    places = order if problem.kind == "PCPSP" else "rdb" if order[0] == "r" else "bdr"
    return replace(problem, uses=_in_fields(problem.uses, places))


def write_published(mine: Instance, base: str, order: str = "bdr", with_end: bool = True) -> None:
    """Writes an instance as the library's files are remembered: `EOF` after each model, and
    coefficients in an order of their fields, one of models.ORDERS.

    Raises UserError as `write_instance` does.
    """
    swapped = replace(mine, pcpsp=_with_fields(mine.pcpsp, order),
                      cpit=_with_fields(mine.cpit, order))
    write_instance(swapped, base, b"EOF\n" if with_end else b"", as_published=True)
