"""Writes a pit or a schedule at the positions of its blocks: as coordinates, and on the rows of the
export.

A pit's file has a block on each line; a schedule's also its period, then its destination, and then
the share of the block, if they are given. A line without a share, among others with one, has the
share 1.
"""
from __future__ import annotations

import csv
from dataclasses import dataclass
from typing import IO, Optional

import numpy as np
import pandas as pd

from pit_tools import progress
from pit_tools.errors import UserError
from pit_tools.files import outputs
from pit_tools.files.parquet import bytes_of
from pit_tools.imports.blocks import Imported
from pit_tools.instances.arrays import Blocks
from pit_tools.plans.file import Plan
from pit_tools.plans.grids import Frame
from pit_tools.schedules.files import table_of
from pit_tools.texts.decimals import floats_of
from pit_tools.texts.number_texts import lines_of

#: The columns after the block, by the number of fields in lines.
FIELDS = ("period", "destination", "share")

#: No share of a block is larger; `check-schedule` reports one above 1.
MOST_SHARE = 1e6

#: How far, in blocks, the export's grid may be off the plan's: coordinates of a turned model are
#: rounded.
NOISE = 0.1


@dataclass(frozen=True)
class Mined:
    """Lines of a pit or a schedule, arrays of m; a column that the file does not have is None."""

    block: np.ndarray
    period: Optional[np.ndarray] = None
    destination: Optional[np.ndarray] = None
    share: Optional[np.ndarray] = None

    @property
    def columns(self) -> list[str]:
        return [name for name in FIELDS if getattr(self, name) is not None]

    def shares(self) -> np.ndarray:
        return np.ones(len(self.block)) if self.share is None else self.share

    def in_pit(self, blocks: int) -> np.ndarray:
        """Returns which blocks are mined, in part or completely, bool (blocks,)."""
        found = np.zeros(blocks, dtype=bool)
        found[self.block[self.shares() > 1e-6]] = True
        return found


def read_mined(path: str, plan: Plan, blocks: int) -> Mined:
    """Reads a pit or a schedule.

    Raises UserError if lines differ in their number of fields, or if a field is not a block, period
    or destination.
    """
    table = table_of(path, len(FIELDS) + 1)
    if table.empty:
        return Mined(np.empty(0, dtype=np.int64))
    if table.shape[1] == len(FIELDS) + 1:
        table = table.fillna({len(FIELDS): "1"})
    absent = table.isna().any(axis=1)
    numbers = table.apply(lambda column: pd.Series(floats_of(column), column.index))
    ends = [blocks, plan.periods, len(plan.destinations)]
    bad = absent | numbers.isna().any(axis=1) | (table.shape[1] > 4)
    for column, end in zip(numbers.columns, ends):
        bad |= (numbers[column] % 1 != 0) | (numbers[column] < 0) | (numbers[column] >= end)
    for column in numbers.columns[len(ends):]:
        bad |= ~(numbers[column].abs() <= MOST_SHARE)
    if bad.any():
        at = int(np.flatnonzero(bad)[0])
        shown = " ".join(table.iloc[at].dropna())
        raise UserError(f"{path}: line {table.index[at]}: it is not a line of a pit or a schedule "
                        f"of these blocks: `{shown[:60]}`")
    columns = [numbers[at].to_numpy(np.int64 if at < 3 else float) for at in numbers.columns]
    return Mined(*columns)


def texts_of(multiples: np.ndarray, decimals: int) -> np.ndarray:
    """Returns the shortest decimals of multiples of 10^-decimals, an object array of str."""
    return np.array(b"".join(lines_of([(multiples, decimals)])).decode().split("\n")[:-1],
                    dtype=object)


def coordinates(plan: Plan, blocks: Blocks, ids: np.ndarray,
                frame: Frame = Frame()) -> pd.DataFrame:
    """x, y and z of the blocks' centroids as texts, as the export has them."""
    thousandths = [int(origin * 1000) + index[ids].astype(np.int64) * int(size * 1000)
                   for origin, size, index in zip(plan.grid.origin, plan.grid.size,
                                                  (blocks.x, blocks.y, blocks.z))]
    if frame != Frame():
        own = frame.own(np.stack(thousandths, axis=1) / 1000)
        thousandths = list(np.rint(own * 1000).astype(np.int64).T)
    return pd.DataFrame({name: texts_of(axis, 3) for name, axis in zip("xyz", thousandths)})


def placed(plan: Plan, blocks: Blocks, mined: Mined, with_all: bool = False,
           frame: Frame = Frame()) -> pd.DataFrame:
    """A row for each line of a pit or a schedule, in its order: x, y, z, block, tonnes, grade,
    zone, mined 1, and its other columns. With `with_all` the other blocks follow, with mined 0."""
    ids, count = mined.block, len(mined.block)
    if with_all:
        others = np.ones(len(blocks), dtype=bool)
        others[ids] = False
        ids = np.concatenate([ids, np.flatnonzero(others)])
    table = coordinates(plan, blocks, ids, frame)
    table["block"] = ids
    table["tonnes"] = texts_of(np.rint(blocks.tonnes[ids] * 1000).astype(np.int64), 3)
    table["grade"] = texts_of(np.rint(blocks.grade[ids] * 1e6).astype(np.int64), 6)
    table["zone"] = blocks.zone[ids]
    table["mined"] = (np.arange(len(ids)) < count).astype(int)
    for name in mined.columns:
        texts = np.full(len(ids), "", dtype=object)
        texts[:count] = _text_of(plan, name, getattr(mined, name))
        table[name] = texts
    return table


def _text_of(plan: Plan, name: str, values: np.ndarray) -> np.ndarray:
    if name == "destination":
        return np.array([one.name for one in plan.destinations], dtype=object)[values]
    if name == "share":
        return texts_of(np.rint(values * 1e6).astype(np.int64), 6)
    return values.astype(str).astype(object)


def by_block(plan: Plan, mined: Mined, blocks: int, with_shares: bool = False) -> pd.DataFrame:
    """Returns the columns of each block: `mined`, 0, 1 or a share, and period and destination of
    its largest share, empty texts if it is not mined. With shares there is also a column `share_T`
    for each period T.

    Raises UserError if shares of a pit are requested, which has no periods.
    """
    shares = mined.shares()
    total = np.zeros(blocks)
    np.add.at(total, mined.block, shares)
    order = np.argsort(shares, kind="stable")
    table = pd.DataFrame({"block": np.arange(blocks), "mined": _share_texts(total)})
    for name in mined.columns[:2]:
        texts = np.full(blocks, "", dtype=object)
        texts[mined.block[order]] = _text_of(plan, name, getattr(mined, name))[order]
        table[name] = texts
    if with_shares:
        if mined.period is None:
            raise UserError("--shares need periods, but a pit has none: give a schedule")
        for period in range(plan.periods):
            taken = mined.period == period
            found = np.bincount(mined.block[taken], shares[taken], blocks)
            table[f"share_{period}"] = _share_texts(found)
    return table


def _share_texts(shares: np.ndarray) -> np.ndarray:
    """Returns shares to 6 decimals, one text for equal ones: most are 0 or 1."""
    each, at = np.unique(np.rint(shares * 1e6).astype(np.int64), return_inverse=True)
    return texts_of(each, 6)[at]


def onto_rows(imported_path: str, plan: Plan, blocks: Blocks, mined: Mined,
              place: Optional[str], with_shares: bool = False) -> tuple[int, int, int]:
    """Writes the export's own rows followed by the columns of their blocks, or prints them if no
    place is given: sub-blocks get their parent's. Returns the number of rows, of rows with a block,
    and of mined blocks without a row.

    `imported_path` is BASE.json of `pit-tools import`, by which the export is read again. Cells
    stay unchanged; rows without a block, as air, have empty cells, and a row of several blocks has
    the first and the means of what is mined. Raises UserError if the export differs from what
    `import` read or cannot be read again, or its grid is not the plan's. Rows of an export in
    Parquet are written as Parquet, with numbers in the added columns, and need a place.
    """
    from pit_tools.imports.record import read_imported
    from pit_tools.imports.steps import import_export

    columns = by_block(plan, mined, len(blocks), with_shares)
    read = read_imported(imported_path)
    again = import_export(read.exports, read.words)
    block_at = _block_at(plan, blocks, again)
    without = len(np.setdiff1d(mined.block, block_at))
    progress.step("writes rows")
    appended = Appended(again, block_at, columns)
    if all(source.kind == "Parquet" for source in again.sources):
        if not place:
            raise UserError("the export is Parquet, which cannot be printed: give --out")
        rows = pd.concat([appended.with_numbers(number) for number in range(len(again.sources))],
                         ignore_index=True)
        content = bytes_of(rows)
        with outputs.opened(place, "rows of a pit in Parquet") as file:
            file.write(content)
        return len(rows), int(rows["block"].notna().sum()), without
    with outputs.opened_or_printed(place, "rows of a pit", "utf-8", "") as out:
        return (*_rows_written(again, appended, out), without)


class Appended:
    """Returns the columns of blocks, to follow the rows of each export."""

    def __init__(self, again: Imported, block_at: np.ndarray, columns: pd.DataFrame) -> None:
        self.again, self.block_at, self.added = again, block_at, columns

    def of_file(self, number: int) -> tuple[pd.Series, Optional[pd.DataFrame]]:
        """Returns the block of each record of an export, and what is mined of records that were
        cut."""
        in_file = (self.again.places["file"] == number).to_numpy()
        of_part = pd.Series(self.block_at[in_file],
                            index=self.again.places["record"][in_file].to_numpy())
        cut = _mined_of_cut_rows(self.added, of_part) if of_part.index.has_duplicates else None
        return of_part[~of_part.index.duplicated()], cut

    def rows(self, index: pd.Index, of_record: pd.Series,
             cut: Optional[pd.DataFrame]) -> tuple[pd.DataFrame, np.ndarray]:
        """Returns texts to follow these records, and their blocks, -1 if there is none."""
        ids = of_record.reindex(index).fillna(-1).to_numpy(np.int64)
        found = self.added.iloc[np.maximum(ids, 0)].astype(object)
        found.loc[ids < 0, :] = ""
        found.index = index
        if cut is not None:
            at_cut = index.intersection(cut.index)
            found.loc[at_cut, cut.columns] = cut.loc[at_cut]
        return found, ids

    def with_numbers(self, number: int) -> pd.DataFrame:
        """Returns the rows of Parquet as they were read, followed by numbers."""
        source = self.again.sources[number]
        assert source.sheet is not None
        found, _ = self.rows(source.sheet.index, *self.of_file(number))
        for name in found.columns.drop("destination", errors="ignore"):
            numbers = pd.to_numeric(found[name])
            found[name] = numbers.astype("Int64" if name in ("block", "period") else float)
        return pd.concat([source.sheet.set_axis(source.names, axis=1), found], axis=1)


def _rows_written(again: Imported, appended: Appended, out: IO[str]) -> tuple[int, int]:
    rows = found = 0
    for number, source in enumerate(again.sources):
        separator = "," if source.separator in ("", " ") else source.separator
        lines = csv.writer(out, delimiter=separator, lineterminator="\n")
        if not number:
            lines.writerow([*source.names, *appended.added.columns])
        of_record, cut = appended.of_file(number)
        left = len(source.units)
        for table in source.chunks(range(len(source.names))):
            texts, ids = appended.rows(table.index, of_record, cut)
            lines.writerows(zip(*(part.iloc[:, at].tolist() for part in (table, texts)
                                  for at in range(part.shape[1]))))
            rows += max(0, len(table) - left)
            left = max(0, left - len(table))
            found += int((ids >= 0).sum())
            progress.report(f"{rows:,} rows")
    return rows, found


def _mined_of_cut_rows(columns: pd.DataFrame, of_part: pd.Series) -> pd.DataFrame:
    """Returns, for rows that `import` cut into several blocks, the means of what is mined of these,
    in total and by period, as texts by record."""
    parts = of_part[of_part.index.duplicated(keep=False) & (of_part >= 0).to_numpy()]
    names = [name for name in columns.columns if name == "mined" or name.startswith("share_")]
    shares = columns[names].iloc[parts.to_numpy()].apply(pd.to_numeric).set_axis(parts.index)
    means = shares.groupby(level=0).mean()
    return means.apply(lambda mean: _share_texts(mean.to_numpy()))


def _block_at(plan: Plan, blocks: Blocks, again: Imported) -> np.ndarray:
    """The block of each place that was read again, or -1."""
    keys = []
    moves = []
    for axis in range(3):
        if again.grid.size[axis] != plan.grid.size[axis]:
            raise UserError("the export's blocks have another size than the plan's")
        move = (again.grid.origin[axis] - plan.grid.origin[axis]) / plan.grid.size[axis]
        if abs(move - round(move)) > NOISE:
            raise UserError("the export's grid is off the plan's")
        moves.append(round(move))
    for columns in ((blocks.x, blocks.y, blocks.z),
                    [again.places[name].to_numpy() + move
                     for name, move in zip(("ix", "iy", "iz"), moves)]):
        x, y, z = (np.asarray(column, dtype=np.int64) for column in columns)
        keys.append((z * 20_000 + y) * 20_000 + x)
    order = np.argsort(keys[0])
    place = np.minimum(np.searchsorted(keys[0][order], keys[1]), len(order) - 1)
    found = order[place]
    return np.where(keys[0][found] == keys[1], found, -1)
