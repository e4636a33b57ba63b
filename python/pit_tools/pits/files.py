"""Pits as files: the identifier of a block on each line; and a pit's contents and worth."""
from __future__ import annotations

from typing import NamedTuple, Optional

import numpy as np

from pit_tools.errors import UserError, quoted
from pit_tools.files import outputs
from pit_tools.instances.arrays import Blocks
from pit_tools.plans.note import PlanNote
from pit_tools.texts.lines import block_lines
from pit_tools.texts.number_texts import lines_of, multiples_of


def read_pit(path: str, blocks: Optional[int] = None) -> np.ndarray:
    """The blocks of a pit's file in rising order, int64. Further fields of a line are omitted.

    Raises UserError if a line begins with no identifier below `blocks`, or one is repeated.
    """
    found = []
    for number, block, fields in block_lines(path):
        if block is None or (blocks is not None and block >= blocks):
            raise UserError(f"{path}: line {number}: {quoted(fields[0])} is not a block")
        found.append(block)
    taken = np.unique(np.array(found, dtype=np.int64))
    if len(taken) != len(found):
        raise UserError(f"{path}: a block appears twice")
    return taken


class NamedPit(NamedTuple):
    """A pit's file, and the name that was given for it, or none."""

    path: str
    name: str

    @classmethod
    def of(cls, word: str) -> NamedPit:
        """Returns the pit of an argument FILE or FILE=NAME."""
        path, _, name = word.partition("=")
        return cls(path, name)

    def of_blocks(self, count: int) -> np.ndarray:
        """Returns which of `count` blocks are in it, bool (count,); raises as `read_pit` does."""
        in_pit = np.zeros(count, dtype=bool)
        in_pit[read_pit(self.path, count)] = True
        return in_pit


def write_pit(in_pit: np.ndarray, path: str) -> None:
    """Writes the identifiers of the blocks that are in the pit, bool (n,), one a line.

    Raises OSError, with the name, if the file cannot be written.
    """
    with outputs.opened(path, "pit") as file:
        file.writelines(lines_of([(np.flatnonzero(in_pit), 0)]))


def pit_text(in_pit: np.ndarray, blocks: Blocks, values: np.ndarray,
            note: PlanNote = PlanNote()) -> str:
    """Returns a line with the contents and the worth of a pit, bool (n,), in the currency of a
    plan's sidecar file."""
    worth, decimals = multiples_of(values)
    kilograms = int(np.rint(blocks.tonnes[in_pit] * 1000).astype(np.int64).sum())
    return (f"{in_pit.sum()} blocks, {kilograms // 1000}.{kilograms % 1000:03d} t, worth "
            f"{note.money_text(int(worth[in_pit].sum()), decimals)}")
