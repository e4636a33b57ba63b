"""Block files, of `pitc` and of other programs, as `models` reads both."""
from __future__ import annotations

import os
from dataclasses import dataclass
from typing import Optional

import numpy as np

from pit_tools.errors import UserError
from pit_tools.instances.arrays import Blocks
from pit_tools.texts.formats import MOST_AMOUNT, MOST_BLOCKS, MOST_INDEX, MOST_ZONE
from pit_tools.texts.lines import Chunk, Rounding, Changes, numbers_of, chunks_of, reject_row

#: The fields of a block, and the largest number of each.
MOST_OF_A_BLOCK = {"x": MOST_INDEX, "y": MOST_INDEX, "z": MOST_INDEX, "tonnes": MOST_AMOUNT,
                   "the grade": MOST_AMOUNT, "the zone": MOST_ZONE}


@dataclass(frozen=True)
class Columns:
    """The meanings of a block line's fields, counted from 1; 0 means none. A block's identifier and
    coordinates are fields 1 to 4, and other fields are skipped."""

    tonnes: int = 0
    grade: int = 0
    zone: int = 0

    def __post_init__(self) -> None:
        for name, field in vars(self).items():
            if field < 0 or 0 < field < 5:
                raise UserError(f"field {field} cannot be the {name}: fields 1 to 4 are a block's "
                                "identifier and coordinates")


class _Blocks:
    """The lines of a block file as they come, and then the blocks in order of identifier."""

    def __init__(self, path: str, columns: Columns, changes: Optional[Changes]):
        self.path, self.changes = path, changes
        self.length = len(MOST_OF_A_BLOCK) + 1 if changes is None else None
        self.fields = [0, 1, 2, 3] + [field - 1 for field in vars(columns).values() if field]
        self.names = [name for name, field in vars(columns).items() if field]
        self.roundings = {"tonnes": Rounding(3), "grade": Rounding(6)}
        self.parts: list[list[np.ndarray]] = []
        self.row = 0

    def take(self, chunk: Chunk) -> None:
        """Reads the named fields of lines."""
        numbers = numbers_of(chunk, self.fields, "a block line", self.length)
        if not self.parts and self.changes is not None:
            self._report_fields(chunk, self.changes)
        columns = [chunk.integers(numbers[0], "the identifier", 0, MOST_BLOCKS)]
        ends = (0, MOST_INDEX) if self.changes is None else (-2**31, 2**31 - 1)
        columns += [chunk.integers(numbers[at], f"the index {name}", *ends)
                    for at, name in enumerate("xyz", 1)]
        own: dict[str, np.ndarray] = {
            "tonnes": np.zeros(numbers.shape[1]), "grade": np.zeros(numbers.shape[1]),
            "zone": np.zeros(numbers.shape[1], np.int32)}
        for name, column in zip(self.names, numbers[4:]):
            own[name] = self._own(chunk, name, column)
        self.parts.append([*columns, *own.values()])

    def _own(self, chunk: Chunk, name: str, column: np.ndarray) -> np.ndarray:
        """Returns a column of tonnes, grades or zones, within the ranges of `pitc check`."""
        if name == "zone":
            return chunk.integers(column, "the zone", 0, MOST_ZONE)
        is_wrong = (column < 0) | (column > MOST_AMOUNT)
        if is_wrong.any():
            row = int(is_wrong.argmax())
            chunk.reject(row, f"the {name} is {column[row]:.15g}, but `pitc check` accepts 0 to "
                              f"{MOST_AMOUNT:,}")
        return self.roundings[name].of(chunk, column, f"the {name}")

    def _report_fields(self, chunk: Chunk, changes: Changes) -> None:
        """Reports which fields are omitted, with those of the first line."""
        cells = chunk.line_of(0)[1].split()
        left = [f"{at} (`{cell[:20]}`)" for at, cell in enumerate(cells, 1)
                if at - 1 not in self.fields]
        if left:
            more = f" and {len(left) - 12} more" if len(left) > 12 else ""
            changes.add(f"{os.path.basename(self.path)}: omitted fields, as in the first line: "
                        f"{', '.join(left[:12])}{more}")
        for name in ("tonnes", "grade"):
            if name not in self.names:
                changes.add(f"no field was named for {name}: --{name} N; it is 0 for all blocks")

    def blocks(self) -> tuple[Blocks, int]:
        """The blocks, and the first identifier, 0 or 1."""
        if not self.parts:
            raise UserError(f"{self.path}: it has no blocks")
        ids, *columns = map(np.concatenate, zip(*self.parts))
        self.parts.clear()
        first = int(ids.min())
        if self.changes is None and not np.array_equal(ids, np.arange(len(ids))):
            reject_row(chunks_of(self.path, True), int((ids != np.arange(len(ids))).argmax()),
                       "identifiers are not 0, 1, 2, ..")
        if first > 1:
            reject_row(chunks_of(self.path), int(ids.argmin()),
                       "identifiers are not consecutive from 0 or 1: the smallest is this one")
        if not np.array_equal(ids, np.arange(first, first + len(ids))):
            order = np.argsort(ids, kind="stable")
            steps = np.flatnonzero(np.diff(ids[order]) != 1)
            if len(steps):
                reject_row(chunks_of(self.path), int(order[steps[0] + 1]),
                           f"identifiers are not consecutive: {ids[order[steps[0]]]} precedes this "
                           "one")
            columns = [column[order] for column in columns]
        for name, rounding in self.roundings.items():
            rounding.report(chunks_of(self.path, self.changes is None), f"{name} were",
                            self.changes)
        axes = [self._index(name, column) for name, column in zip("xyz", columns)]
        return Blocks(*axes, *columns[3:]), first

    def _index(self, name: str, index: np.ndarray) -> np.ndarray:
        """A coordinate as an index from 0 on."""
        least, most = int(index.min()), int(index.max())
        if least < 0 and self.changes is not None:
            self.changes.add(f"{name} was shifted by {-least}, since indices count from 0")
            index, most = index - np.int32(least), most - least
        if most > MOST_INDEX:
            raise UserError(f"{self.path}: {name} is up to {most}, but indices only to "
                            f"{MOST_INDEX}: are these metres?")
        return index


def read_columns(path: str, columns: Columns, changes: Optional[Changes]) -> tuple[Blocks, int]:
    """Returns the blocks in order of identifier, and the first identifier, 0 or 1.

    Raises UserError, with the line, if identifiers are not consecutive, coordinates are not
    indices, a named field is missing, or it is one that `pitc check` rejects.
    """
    reader = _Blocks(path, columns, changes)
    for chunk in chunks_of(path, changes is None):
        reader.take(chunk)
    return reader.blocks()


def read_blocks(path: str) -> Blocks:
    """Reads a block file, `id x y z tonnes grade zone`: tonnes in t, grades in g/t.

    Raises UserError if a line has other fields or numbers than `pitc check` accepts, or identifiers
    are not 0, 1, 2, ..
    """
    return read_columns(path, Columns(5, 6, 7), None)[0]
