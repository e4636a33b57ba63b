"""From rows to blocks: air and repeated rows are omitted, parts are summed, zones numbered.

The weight of rows at one position shows what they are: parts add up to the weight of other blocks,
and repeated rows to double."""
from __future__ import annotations

from dataclasses import dataclass
from typing import Callable, Optional, Sequence

import numpy as np
import pandas as pd

from pit_tools.errors import UserError
from pit_tools.exports.report import figure
from pit_tools.imports.read import Read
from pit_tools.plans.grids import Axis
from pit_tools.plans.walls import MOST_BENCHES

# The number of zones that pitc accepts.
MOST_ZONES = 64

# Tonnes a cubic metre that most rock does not reach, and that most rock has.
HEAVY, LIGHT = 4.2, 1.2


@dataclass
class Weights:
    """The medians, at positions with several rows, of tonnes per cubic metre of one row and of all
    together; and at positions with one row, None if they are few."""

    one: float
    all: float
    others: Optional[float]

    def verdict(self, are_same: bool) -> str:
        """Returns whether each row is a `complete` block, or they are `parts` of one, or `unclear`.
        Equal rows are parts only if a single one is too light."""
        if self.others:
            if self.all < 1.3 * self.others:
                return "parts"
            return "complete" if self.one > 0.75 * self.others else "unclear"
        if self.all > HEAVY and self.one >= 2:
            return "complete"
        if are_same:
            return "parts" if self.one < LIGHT else "unclear"
        return "parts" if self.all <= HEAVY else "unclear"

    def text(self) -> str:
        others = f", but other blocks {figure(self.others)}" if self.others else ""
        return (f"one row weighs {figure(self.one)} t/m3, all of a position together "
                f"{figure(self.all)}{others}")


def is_again(rows: pd.DataFrame, position: np.ndarray) -> np.ndarray:
    """Returns a mask of the rows that equal an earlier one: its position, tonnes, grade and
    zone."""
    order = np.sort(position)
    if not (order[1:] == order[:-1]).any():
        return np.zeros(len(rows), bool)
    return pd.DataFrame({"spot": position, **{name: rows[name].to_numpy() for name in (
        "ix", "iy", "iz", "tonnes", "grade", "zone")}}).duplicated().to_numpy()


def weights_of(key: np.ndarray, tonnes: np.ndarray, volume: float) -> Weights:
    """Weights of places by the tonnes of their rows and the volume of a place."""
    codes, _ = pd.factorize(key)
    counts, sums = np.bincount(codes), np.bincount(codes, tonnes)
    several = counts > 1
    single = sums[~several] / volume
    others = float(np.median(single)) if len(single) >= max(10, len(counts) / 100) else None
    return Weights(float(np.median(sums[several] / counts[several])) / volume,
                   float(np.median(sums[several])) / volume, others)


class Repeats:
    """Judges rows at one position. `volume` is the volume of a position in cubic metres;
    `with_cells` and `line` return where a row is."""

    def __init__(self, rows: pd.DataFrame, key: np.ndarray, position: np.ndarray, again: np.ndarray,
                 fine: int, volume: float, with_cells: Callable[[int], str],
                 line: Callable[[int], str]) -> None:
        self.rows, self.key, self.position, self.again = rows, key, position, again
        self.tonnes = rows["tonnes"].to_numpy() / 10.0 ** fine
        self.volume, self.with_cells, self.line = volume, with_cells, line

    def judge(self, by_density: bool, is_merged: bool, has_parents: bool) -> None:
        """Stops at repeated rows and, if rows are not summed up, at positions with several; if they
        are summed up, it stops at complete blocks."""
        order = np.argsort(self.key, kind="stable")
        twice = np.flatnonzero(self.key[order][1:] == self.key[order][:-1])
        if not len(twice):
            return
        weights = weights_of(self.key, self.tonnes, self.volume)
        verdict = weights.verdict(bool(self.again.any()))
        if self.again.any() and (has_parents or not is_merged or verdict == "complete"):
            raise UserError(self.joined_text(weights, "complete" if has_parents else verdict))
        if is_merged:
            if not has_parents:
                self.judge_sums(weights, "complete" if by_density else verdict)
            return
        one, other = order[twice[0]], order[twice[0] + 1]
        count = len(twice)
        if by_density:
            way = ("each is treated as a complete block: if rows are parts, --merge sums them up "
                   "and needs their --volume; otherwise omit one of them")
        elif verdict == "complete":
            way = (f"{weights.text()}: each is a complete block, as of exports that overlap or "
                   "of two versions: omit one of them")
        else:
            way = (f"{weights.text()}: {'p' if verdict == 'parts' else 'if they are p'}arts of "
                   "a block are summed up by --merge, sub-blocks by --parents")
        raise UserError(f"{count:,} rows have the position of an earlier one, with other contents: "
                        f"{self.text(other)} and {self.text(one)}; {way}")

    def joined_text(self, weights: Weights, verdict: str) -> str:
        """Reports where rows equal an earlier one, and what they weigh."""
        at = int(np.flatnonzero(self.again)[0])
        same = (self.key == self.key[at]) & (self.position == self.position[at])
        for name in ("tonnes", "grade", "zone"):
            same &= (self.rows[name] == self.rows[name].iloc[at]).to_numpy()
        before = int(np.flatnonzero(same)[0])
        way = {
            "complete": "--drop-repeats counts each once",
            "parts": "they add up to one block, so they may be equal parts, which --merge sums up; "
                     "if rows are repeated, --drop-repeats counts each once",
            "unclear": "if rows are repeated, --drop-repeats counts each once; if they are equal "
                       "parts of a block, --merge sums them up"}[verdict]
        row = self.rows["row"].to_numpy()
        return (f"{int(self.again.sum()):,} rows equal an earlier one: "
                f"{self.with_cells(int(row[at]))} repeats {self.line(int(row[before]))}; "
                f"{weights.text()}: was an export given twice, or do exports overlap? {way}")

    def text(self, at: int) -> str:
        return self.with_cells(int(self.rows["row"].iloc[at]))

    def judge_sums(self, weights: Weights, verdict: str) -> None:
        """Checks the sums of rows at one position. By a density only each has the volume of the
        complete position."""
        if verdict == "complete":
            order = np.argsort(self.key, kind="stable")
            at = order[np.flatnonzero(self.key[order][1:] == self.key[order][:-1])[0] + 1]
            raise UserError(f"--merge: {weights.text()}, so each row is a complete block, as "
                            f"{self.text(at)}, and the position would count twice: do exports "
                            "overlap? Omit one of the rows; or give the --volume of parts that "
                            "have a density")


def those(rows: pd.DataFrame, which: pd.Series) -> pd.DataFrame:
    """Returns the retained rows; millions of them are copied only if some are dropped."""
    return rows if which.all() else rows[which]


def key_of(rows: pd.DataFrame) -> np.ndarray:
    """One number for each place."""
    ix, iy, iz = (rows[name].to_numpy() for name in ("ix", "iy", "iz"))
    return (iz * 20_000 + iy) * 20_000 + ix


def merged_rows(rows: pd.DataFrame, key: np.ndarray, fine: dict[str, int]) -> pd.DataFrame:
    """One row for each block: tonnes are summed exactly, grades weighed by tonnes, and the zone is
    the one with most tonnes, the first of equals."""
    codes, firsts = pd.factorize(key)
    tonnes = rows["tonnes"].to_numpy()
    mass = np.zeros(len(firsts), np.int64)
    np.add.at(mass, codes, tonnes)
    metal = np.bincount(codes, tonnes.astype(float) * rows["grade"].to_numpy(), len(firsts))
    table = pd.DataFrame({"block": codes, "zone": rows["zone"].to_numpy(), "tonnes": tonnes,
                          "row": np.arange(len(rows))})
    sums = table.groupby(["block", "zone"],
                         sort=False).agg(tonnes=("tonnes", "sum"), row=("row", "min")).reset_index()
    most = sums.sort_values(["block", "tonnes", "row"],
                            ascending=[True, False, True]).drop_duplicates("block")
    first_rows = rows.iloc[np.unique(codes, return_index=True)[1]]
    found = first_rows[["ix", "iy", "iz", "row"]].copy()
    found["tonnes"] = (mass + 5 * 10 ** (fine["tonnes"] - 4)) // 10 ** (fine["tonnes"] - 3)
    found["grade"] = np.rint(metal / mass / 10 ** (fine["grade"] - 6)).astype(np.int64)
    found["zone"] = most["zone"].to_numpy()
    if "other" in rows:
        found["other"] = np.bincount(codes, rows["other"].to_numpy(), len(firsts))
    return found[found["tonnes"] > 0]


class Merging:
    """Makes one row for each block."""

    def __init__(self, read: Read) -> None:
        self.read, self.reading, self.words, self.report = (read, read.reading, read.words,
                                                            read.report)

    def without_repeats(self, rows: pd.DataFrame) -> pd.DataFrame:
        """Returns the rows without those that equal an earlier one, if that is requested."""
        if not self.words.drop_repeats:
            return rows
        again = is_again(rows, key_of(rows) if self.read.position is None else self.read.position)
        self.report.facts.append(f"omitted: {int(again.sum()):,} rows that equal an earlier one")
        return rows[~again]

    def without_air(self, rows: pd.DataFrame) -> tuple[pd.DataFrame, pd.DataFrame]:
        """The rows with tonnes, and the others. Rock without a grade is waste, and has grade 0."""
        missing = rows["tonnes"] < 0
        air, rows = rows[missing], those(rows, ~missing).copy(deep=False)
        if rows.empty:
            raise UserError("no row has tonnes: " + self.no_tonnes_text())
        graded = int((air["grade"] > 0).sum())
        self.report.facts.append(f"omitted: {len(air):,} rows without tonnes (air, holes)"
                                 + (f"; {graded:,} of them have a grade" if graded else ""))
        self.report_zeros(rows, air)
        barren = (rows["grade"] < 0).to_numpy()
        if self.reading.counts["money"]:
            self.report.facts.append(f"kept with a return of 0: {int(barren.sum()):,} rows whose "
                                     "return is missing or below 0")
        else:
            self.report.facts.append(f"kept with grade 0: {int(barren.sum()):,} rows without a "
                                     "grade")
        rows["is_graded"] = ~barren
        rows.loc[barren, "grade"] = 0
        return rows, air

    def report_zeros(self, rows: pd.DataFrame, air: pd.DataFrame) -> None:
        """Reports rows below rock that were omitted since they have 0, which may be waste."""
        if "zero" not in air or not air["zero"].any():
            return
        tops = rows.groupby(["ix", "iy"])["iz"].max()
        top = tops.reindex(pd.MultiIndex.from_frame(air[["ix", "iy"]])).to_numpy()
        below = ((air["iz"].to_numpy() < top) & air["zero"].to_numpy())
        if below.any():
            what = "density" if self.words.density else "tonnes"
            first = int(air["row"].to_numpy()[below][0])
            self.report.facts.append(f"of these {int(below.sum()):,} are below rock with a {what} "
                                     f"of 0, as {self.read.line(first)}: voids? Waste needs its "
                                     "density, or digging it costs nothing")

    def no_tonnes_text(self) -> str:
        """Why no row may have tonnes."""
        if self.words.density_by:
            message = ", ".join(f"`{key}` ({many:,} rows)"
                                for key, many in self.reading.unknown_densities.most_common(5))
            return f"--density-by has none of {message.replace(chr(9), ' ')}"
        return f"is {'--density' if self.words.density else '--tonnes'} the right column?"

    def one_row_a_block(self, rows: pd.DataFrame, axes: Sequence[Axis]) -> pd.DataFrame:
        """Sums up the rows of each block, if that is requested; otherwise it stops at a repeated
        position."""
        words, key = self.words, key_of(rows)
        position = key if self.read.position is None else self.read.position[rows["row"].to_numpy()]
        again = np.zeros(len(rows), bool) if words.drop_repeats else is_again(rows, position)
        by_density = (not words.tonnes and not words.volume
                      and not (self.read.sizes is not None and words.is_merged))
        if "fraction" in rows:
            self.judge_fractions(rows, key)
        else:
            Repeats(rows, key, position, again, self.reading.fine["tonnes"],
                    self.read.volume_of(axes), self.read.with_cells, self.read.line).judge(
                        by_density, words.is_merged, bool(words.block_size))
        if not words.is_merged:
            return rows
        merged = merged_rows(rows, key, self.reading.fine)
        what = "sub-blocks are" if words.block_size else "rows are"
        summed = np.bincount(pd.factorize(key)[0])
        several = summed > 1
        weights = merged["tonnes"].to_numpy() / 1000 / self.read.volume_of(axes)
        message = (f"; {int(several.sum()):,} are sums of 2 to {int(summed.max()):,}"
                   if several.any() else "")
        if several.any() and not words.block_size and len(weights) == len(summed):
            message += (f", and weigh {figure(weights[several].min())} to "
                        f"{figure(weights[several].max())} t/m3")
        self.report.facts.append(f"{len(rows):,} {what} {len(merged):,} blocks: tonnes summed, "
                                 f"grades by tonnes, the zone with most tonnes{message}")
        if len(merged) < len(summed):
            self.report.facts.append(f"omitted: {len(summed) - len(merged):,} blocks of less than "
                                     "half a kilogram")
        if merged.empty:
            raise UserError("no block has half a kilogram: " + self.no_tonnes_text())
        return merged

    def judge_fractions(self, rows: pd.DataFrame, key: np.ndarray) -> None:
        """Stops if rows at one position are more than its block, by their volumes or shares: if
        they are not, they are its parts, even if some are equal."""
        codes, _ = pd.factorize(key)
        sums = np.bincount(codes, rows["fraction"])
        over = np.flatnonzero(sums > 1.02)
        if len(over):
            lines = [self.read.with_cells(int(at)) for at in
                     rows["row"].to_numpy()[np.flatnonzero(codes == over[0])[:2]]]
            raise UserError(f"rows of {len(over):,} blocks are more than the complete block, by "
                            f"their volumes or shares, of one {figure(sums[over[0]])} times that: "
                            f"{' and '.join(lines)}: do exports overlap, or was an export given "
                            "twice?")

    def with_holes(self, rows: pd.DataFrame, air: pd.DataFrame) -> tuple[pd.DataFrame,
                                                                         pd.DataFrame]:
        """Keeps rows without tonnes below rock, with 0 tonnes."""
        tops = rows.groupby(["ix", "iy"])["iz"].max().rename("top").reset_index()
        air = air.drop_duplicates(["ix", "iy", "iz"])
        air = air.merge(tops, "left",
                        ["ix", "iy"]).merge(rows[["ix", "iy", "iz"]].assign(rock=True), "left",
                                            ["ix", "iy", "iz"])
        below = ((air["iz"] < air["top"]) & air["rock"].isna()).to_numpy()
        kept = air[below].drop(columns=["top", "rock"])
        self.report.facts.append(f"kept with 0 tonnes: {len(kept):,} holes below rock")
        kept = kept.assign(tonnes=0, grade=0)
        return pd.concat([rows, kept], ignore_index=True), air[~below].drop(columns=["top", "rock"])


class Zoning:
    """Numbers the zones of blocks, and splits them; `part_of` has the zone of which each part was
    split off, `benches` the K of each."""

    def __init__(self, read: Read) -> None:
        self.read, self.reading, self.report = read, read.reading, read.report
        self.part_of: dict[str, str] = {}
        self.benches: dict[str, int] = {}

    def zoned(self, rows: pd.DataFrame) -> tuple[pd.DataFrame, list[str]]:
        """Numbers zones in the order of their first rows."""
        names = {number: name for name, number in self.reading.zone_numbers.items()}
        zone = rows["zone"].to_numpy()
        if (zone < 0).any():
            at = int(rows["row"].to_numpy()[np.flatnonzero(zone < 0)[0]])
            raise UserError(f"{self.read.line(at)}: it has tonnes but no zone, as "
                            f"{int((zone < 0).sum()):,} rows: name their zone by a row `*` of "
                            "--zones, or omit them by --where")
        codes, firsts = pd.factorize(zone)
        if len(firsts) > MOST_ZONES:
            raise UserError(f"{len(firsts):,} zones, as `{names[firsts[0]]}` and "
                            f"`{names[firsts[1]]}`, are more than the {MOST_ZONES} of a plan: is "
                            "it the column of zones?")
        return rows.assign(zone=codes), [names[number] for number in firsts]

    def split_below(self, rows: pd.DataFrame, zones: list[str], pair: str
                    ) -> tuple[pd.DataFrame, list[str]]:
        """Splits a zone by the number of benches of its blocks below the lowest block of another in
        their column: of `flat` three benches below become `flat3`. So the flatter cones of each end
        where the steeper rock begins."""
        zone, _, above = (name.strip() for name in pair.partition(":"))
        if zone not in zones or above not in zones:
            raise UserError("--below: give two zones, the flatter one first, as flat:steep; there "
                            f"are {', '.join(zones)}, but not `{pair}`")
        lowest = (rows[rows["zone"] == zones.index(above)].groupby(["ix", "iy"])["iz"].min()
                  .rename("contact").reset_index())
        found = rows.merge(lowest, "left", ["ix", "iy"])
        depth = (found["contact"]
                 - found["iz"]).where(found["zone"] == zones.index(zone)).to_numpy()
        names = np.array(zones, object)[rows["zone"].to_numpy()]
        is_below = depth > 0
        names[is_below] = [f"{zone}{int(many)}" for many in depth[is_below]]
        taken = {f"{zone}{int(many)}": int(many) for many in np.unique(depth[is_below])}
        if set(taken) & set(zones):
            raise UserError(f"--below: a zone `{(set(taken) & set(zones)).pop()}` exists already: "
                            "rename it by --zones")
        self.benches.update({name: min(many, MOST_BENCHES) for name, many in taken.items()})
        self.part_of.update({name: self.part_of.get(zone, zone) for name in taken})
        codes, firsts = pd.factorize(pd.Series(names))
        if len(firsts) > MOST_ZONES:
            raise UserError(f"--below: {zone} extends to {max(taken.values())} benches below "
                            f"{above}, which makes more than {MOST_ZONES} zones")
        self.report.facts.append(f"{zone} is split by benches below {above}: "
                                 f"{int(is_below.sum()):,} blocks in {len(taken)} zones, each with "
                                 "its K")
        return rows.assign(zone=codes), list(firsts)
