"""Reads BASE.json, in which `pit-tools import` stores what it read from an export."""
from __future__ import annotations

import os
from dataclasses import dataclass
from operator import index
from typing import Optional

from pit_tools.errors import UserError
from pit_tools.exports.words import Words
from pit_tools.files import inputs
from pit_tools.files.records import read_json
from pit_tools.inventories.reconciling import Reconciled
from pit_tools.plans.file import Grid
from pit_tools.plans.grids import Frame
from pit_tools.plans.note import PlanNote
from pit_tools.texts.decimals import decimal_of
from pit_tools.texts.units import grade_unit_of


@dataclass(frozen=True)
class ImportedFile:
    """What was imported: the exports and the options by which they were read, the grid with its
    numbers of blocks, the zones with their files, the frame of the export's coordinates, the K of
    zones that are a number of benches below another, the report, and its warnings after LOOK AT,
    the resource report, and the number of benches that have rock. Paths of zone files are relative
    to the folder from which BASE.json was read."""

    exports: list[str]
    words: Words
    grid: Grid
    blocks: tuple[int, int, int]
    zones: list[str]
    files: list[str]
    frame: Frame
    benches: dict[str, int]
    facts: list[str]
    warnings: list[str]
    reconciled: Reconciled = Reconciled()
    rock_benches: int = 0

    @property
    def grade_unit(self) -> str:
        """The unit in which grades are reported."""
        return grade_unit_of(self.words.grade.rpartition(" ")[2])

    @property
    def x_bearing(self) -> float:
        """Returns where the model's +x points, degrees clockwise from north."""
        turn = self.frame.turn
        return (90 - turn.angle) % 360 if turn else 90.0


def read_imported(path: str) -> ImportedFile:
    """Reads BASE.json. Raises UserError for any other file, OSError if it cannot be read."""
    inputs.reads(path)
    try:
        record = read_json(path, "replace")
        if "turn" in record:
            raise UserError(f"{path}: an older pit-tools wrote it, without the unit of the "
                            "export's coordinates: import again")
        return _imported(record, path)
    except (ValueError, KeyError, TypeError, AttributeError, ArithmeticError, RecursionError):
        raise UserError(f"{path}: it is not what `pit-tools import` writes as BASE.json") from None


def _imported(record: dict, path: str) -> ImportedFile:
    """Returns the contents of BASE.json. It raises ValueError, KeyError, TypeError or
    AttributeError for anything else."""
    folder = os.path.dirname(path)
    grid = Grid.of([decimal_of(cell, f"{path}: grid") for key in ("origin", "size")
                    for cell in record["grid"][key]])
    wide, deep, high = map(index, record["grid"]["blocks"])
    if min(grid.size) <= 0 or min(wide, deep, high) < 1:
        raise ValueError("a grid without a block")
    zones = [(_text(zone["name"]), os.path.join(folder, _text(zone["file"])), zone.get("K"))
             for zone in record["zones"]]
    return ImportedFile(list(map(_text, record["exports"])), Words.of_record(record["words"]), grid,
                        (wide, deep, high), [name for name, _, _ in zones],
                        [path for _, path, _ in zones], Frame.of_record(record["frame"]),
                        {name: index(K) for name, _, K in zones if K},
                        list(map(_text, record.get("facts", []))),
                        list(map(_text, record.get("look_at", []))),
                        Reconciled.of_record(record.get("reconciled")),
                        index(record["grid"].get("rock_benches", high)))


def _text(record: object) -> str:
    if not isinstance(record, str):
        raise TypeError(f"not a text: {record!r}")
    return record


def frame_of(path: Optional[str], note: PlanNote) -> Frame:
    """The coordinates of an export by its BASE.json, or, without a path, by its plan's note."""
    return read_imported(path).frame if path else note.frame
