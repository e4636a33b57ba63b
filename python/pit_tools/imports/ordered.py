"""Places of rows without coordinates: by their order, or by indices."""
from __future__ import annotations

import numpy as np
import pandas as pd

from pit_tools.errors import UserError
from pit_tools.imports.causes import likelier_order
from pit_tools.imports.read import Read
from pit_tools.plans.grids import Axis, counts_of, sizes_of, thousandths
from pit_tools.texts.decimals import in_short


class Ordered:
    """Finds places by the order of rows, or by the indices that they have."""

    def __init__(self, read: Read) -> None:
        self.read, self.reading, self.words, self.report = (read, read.reading, read.words,
                                                            read.report)

    def listed(self) -> tuple[list[Axis], list[np.ndarray]]:
        """The places of rows that have no coordinates, by their order."""
        words, count = self.words, self.reading.counts["records"]
        blocks = counts_of(words.blocks, "--blocks")
        if count != blocks[0] * blocks[1] * blocks[2]:
            raise UserError(f"{count:,} rows, but --blocks makes "
                            f"{blocks[0] * blocks[1] * blocks[2]:,}: rows without coordinates must "
                            "be complete")
        if len(self.read.sources) > 1:
            raise UserError("rows without coordinates are read from one export only")
        number = self.read.record - self.reading.first_record
        order = [cell.strip() for cell in words.order.split(",")]
        if sorted(cell.lstrip("-") for cell in order) != ["x", "y", "z"]:
            raise UserError("--order names the axes, the one that runs first before the others, as "
                            f"x,y,z or x,y,-z, not `{words.order}`")
        places: list[np.ndarray] = [np.array([])] * 3
        for cell in order:
            axis = "xyz".index(cell.lstrip("-"))
            number, places[axis] = np.divmod(number, blocks[axis])
            if cell.startswith("-"):
                places[axis] = blocks[axis] - 1 - places[axis]
        ways = {"x": "x upward", "y": "y upward", "z": "z upward", "-x": "x downward",
                "-y": "y downward", "-z": "z downward"}
        self.report.facts.append("positions by the order of "
                                 "rows: " + ", then ".join(ways[cell] for cell in order))
        firsts, sizes = thousandths(words.first, "--first"), sizes_of(words.size, "--size")
        return [Axis(first, size, many, 0)
                for first, size, many in zip(firsts, sizes, blocks)], places

    def judge_order(self, rows: pd.DataFrame) -> None:
        """Checks whether rock would be far less scattered in another order."""
        blocks = counts_of(self.words.blocks, "--blocks")
        rock = np.zeros(blocks[0] * blocks[1] * blocks[2], bool)
        rock[self.read.record - self.reading.first_record] = (rows["tonnes"] > 0).to_numpy()
        order = [cell.strip() for cell in self.words.order.split(",")]
        found = likelier_order(rock, blocks, order)
        if found:
            self.report.warnings.append(f"in the order {self.words.order} rock and air are "
                                        f"scattered, but in the order {found} they are connected: "
                                        f"is it --order {found}, or with signs, as "
                                        f"{found.replace('z', '-z')}?")

    def indexed(self) -> tuple[list[Axis], list[np.ndarray]]:
        """The places of rows by their indices."""
        words, axes, places = self.words, [], []
        firsts, sizes = thousandths(words.first, "--first"), sizes_of(words.size, "--size")
        columns = [self.reading.column(key) for key in "ijk"]
        leasts = [int(column.min()) // 1000 for column in columns]
        start = words.index_from if words.index_from is not None else min(leasts)
        if words.index_from is None and (min(leasts) not in (0, 1) or {0, 1} <= set(leasts)):
            raise UserError(f"the smallest indices are {', '.join(map(str, leasts))}: state by "
                            "--index-from whether the first block has 0 or 1")
        for axis, column in enumerate(columns):
            off = column % 1000 != 0
            if off.any():
                at = int(np.flatnonzero(off)[0])
                raise UserError(f"{self.read.line(at)}: the index {'ijk'[axis]} is "
                                f"{in_short(int(column[at]), 3)}, not an integer: a coordinate?")
            place = column // 1000 - start
            many = int(place.max()) + 1
            if words.blocks:
                many = counts_of(words.blocks, "--blocks")[axis]
            if int(place.min()) < 0 or int(place.max()) >= many:
                raise UserError(f"the index {'ijk'[axis]} is from {int(place.min()) + start} to "
                                f"{int(place.max()) + start}, not from {start} to "
                                f"{many - 1 + start}")
            if axis == 2 and words.from_top:
                place = many - 1 - place
                self.report.facts.append(f"benches count from the top: {many - 1 + start} is the "
                                         f"lowest, at z = {in_short(firsts[2], 3)}")
            if axis == 1 and words.from_north:
                place = many - 1 - place
                self.report.facts.append(f"rows count from the north: {many - 1 + start} is the "
                                         f"southernmost, at y = {in_short(firsts[1], 3)}")
            axes.append(Axis(firsts[axis], sizes[axis], many, 0))
            places.append(place)
        self.report.facts.append(f"indices count from {start}")
        return axes, places
