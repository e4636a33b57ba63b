"""Identifiers of blocks in an order in which predecessors follow their blocks, and translation in
both directions between these and the identifiers that the blocks had.

`pitc` and the fast functions here require that order; files of other programs have it or another
one.
"""
from __future__ import annotations

from dataclasses import dataclass, replace
from typing import Iterator, Optional

import numpy as np
from scipy import sparse

from pit_tools.errors import UserError, quoted
from pit_tools.files import outputs
from pit_tools.instances.arrays import Blocks, Instance, Problem, Uses, arcs_of
from pit_tools.texts import number_texts
from pit_tools.texts.decimals import integer_of
from pit_tools.texts.lines import block_lines, numbered_lines


@dataclass(frozen=True)
class Identifiers:
    """The published identifier of each block, int64 (n,), by which each one comes back."""

    published: np.ndarray

    @property
    def first(self) -> int:
        """The smallest published identifier: they are this and the next ones."""
        return int(self.published.min()) if len(self.published) else 0

    def blocks(self) -> np.ndarray:
        """The block of each published identifier, counted from the first of these, (n,)."""
        blocks = np.empty(len(self.published), dtype=np.int64)
        blocks[self.published - self.first] = np.arange(len(blocks))
        return blocks


def write_identifiers(identifiers: Identifiers, path: str) -> None:
    """Writes a line for each block: the block and its published identifier."""
    published = identifiers.published
    with outputs.opened(path, "identifiers") as file:
        file.writelines(number_texts.lines_of([(np.arange(len(published)), 0), (published, 0)]))


def read_identifiers(path: str) -> Identifiers:
    """The file that `write_identifiers` makes.

    Raises UserError for any other file.
    """
    rows: list[list[Optional[int]]] = []
    for number, line in numbered_lines(path):
        rows.append([integer_of(field) for field in line.split()])
        if len(rows[-1]) != 2 or None in rows[-1]:
            raise UserError(f"{path}: line {number}: it is not a block with its published "
                            f"identifier: {quoted(line.strip())}")
    blocks, published = np.array(rows, dtype=np.int64).reshape(-1, 2).T
    ids = np.sort(published)
    if not np.array_equal(blocks, np.arange(len(rows))) \
            or not np.array_equal(ids, ids[:1] + np.arange(len(ids))):
        raise UserError(f"{path}: blocks are not 0, 1, 2, .., or identifiers are not consecutive")
    return Identifiers(published)


def lines_renamed(path: str, identifiers: Identifiers, to_published: bool) -> Iterator[str]:
    """The lines of a pit or a schedule, the block that begins each one by its other identifier.

    Raises UserError, with the line, if one begins with no block of these.
    """
    first = 0 if to_published else identifiers.first
    names = (identifiers.published if to_published else identifiers.blocks()).tolist()
    for number, block, fields in block_lines(path):
        if block is None or not 0 <= block - first < len(names):
            raise UserError(f"{path}: line {number}: {quoted(fields[0])} is not a block")
        yield " ".join([str(names[block - first]), *fields[1:]]) + "\n"


def order_of(precedence: sparse.csr_matrix) -> Optional[np.ndarray]:
    """Returns the rows (n,) in an order in which each block's predecessors follow it; None if they
    already do. Raises UserError if rows precede each other in a cycle."""
    precedence = arcs_of(precedence)
    rows = np.repeat(np.arange(precedence.shape[0]), np.diff(precedence.indptr))
    if np.all(precedence.indices > rows):
        return None
    del rows
    waits = np.diff(precedence.indptr).astype(np.int64)
    height = np.full(len(waits), -1, dtype=np.int32)
    below = precedence.tocsc()
    level, taken = 0, np.flatnonzero(waits == 0)
    while len(taken):
        height[taken] = level
        lower, counts = np.unique(_gathered(below.indptr, below.indices, taken),
                                  return_counts=True)
        waits[lower] -= counts
        level, taken = level + 1, lower[waits[lower] == 0]
    if (height < 0).any():
        raise UserError(f"blocks wait for each other in a cycle: {_ring(precedence, height < 0)}")
    return np.lexsort((np.arange(len(height)), -height))


def _gathered(starts: np.ndarray, entries: np.ndarray, rows: np.ndarray) -> np.ndarray:
    """The entries of some rows of a matrix, in turn."""
    begins = starts[rows].astype(np.int64)
    counts = starts[rows + 1] - begins
    ends = np.cumsum(counts)
    places = np.arange(ends[-1] if len(ends) else 0) + np.repeat(begins - ends + counts, counts)
    return entries[places]


def _ring(precedence: sparse.csr_matrix, is_left: np.ndarray) -> str:
    """Rows that wait for one another, found by going from one to one that it waits for."""
    seen: dict[int, int] = {}
    row = int(is_left.argmax())
    while row not in seen:
        seen[row] = len(seen)
        above = precedence.indices[precedence.indptr[row]:precedence.indptr[row + 1]]
        row = int(above[is_left[above]][0])
    ring = [str(one) for one, place in seen.items() if place >= seen[row]] + [str(row)]
    return ", ".join(ring if len(ring) < 12 else [*ring[:10], "..", ring[-1]])


def reordered(mine: Instance, order: np.ndarray) -> Instance:
    """The instance whose block i is block order[i] of this one."""
    place = np.empty(len(order), dtype=np.int32)
    place[order] = np.arange(len(order), dtype=np.int32)
    upit = mine.upit and replace(mine.upit, values=mine.upit.values[order])
    blocks = mine.blocks and Blocks(*(column[order] for column in vars(mine.blocks).values()))
    return Instance(blocks, _matrix_in_order(mine.precedence, order, place), upit,
                    mine.pcpsp and _problem_in_order(mine.pcpsp, order, place),
                    mine.cpit and _problem_in_order(mine.cpit, order, place))


def _matrix_in_order(precedence: Optional[sparse.csr_matrix], order: np.ndarray,
                     place: np.ndarray) -> Optional[sparse.csr_matrix]:
    if precedence is None:
        return None
    starts = np.concatenate([[0], np.cumsum(np.diff(precedence.indptr)[order])])
    matrix = sparse.csr_matrix(precedence.shape, dtype=np.int8)
    matrix.indices = place[_gathered(precedence.indptr, precedence.indices, order)]
    matrix.indptr = starts.astype(precedence.indptr.dtype)
    matrix.data = np.ones(len(matrix.indices), dtype=np.int8)
    matrix.sort_indices()
    return matrix


def _problem_in_order(problem: Problem, order: np.ndarray, place: np.ndarray) -> Problem:
    uses = problem.uses
    block = place[uses.block]
    rank = np.argsort(block, kind="stable")
    moved = Uses(block[rank], uses.destination[rank], uses.resource[rank], uses.amount[rank])
    return replace(problem, values=problem.values[order], uses=moved)
