"""Tonnes of rows: read, or by densities, volumes and shares; and their comparison with other
columns of an export."""
from __future__ import annotations

from typing import Callable, Optional

import numpy as np

from pit_tools.errors import UserError
from pit_tools.exports.reading import Reading
from pit_tools.exports.report import Report
from pit_tools.exports.words import Words
from pit_tools.imports.sizes import Parts

# How much parts of a block may add up to beyond it, since they are rounded.
ROUNDED = 0.005


class Masses:
    """Tonnes of the rows. `taken` returns a column of what was read, a row for each part of the
    export's rows; `volume` are cubic metres of each row's block; `unit_of` is the unit that follows
    an option's column."""

    def __init__(self, words: Words, reading: Reading, report: Report,
                 taken: Callable[[str], Optional[np.ndarray]], volume: np.ndarray,
                 cut: Optional[Parts], with_cells: Callable[[int], str],
                 unit_of: Callable[[str], str]) -> None:
        self.words, self.reading, self.report, self.taken, self.volume = (words, reading, report,
                                                                          taken, volume)
        self.cut, self.with_cells, self.unit_of = cut, with_cells, unit_of
        self.grade = self.column("grade")
        self.density: Optional[np.ndarray] = None
        # the part of each row's block that is rock, if it is given
        self.share: Optional[np.ndarray] = None
        self.fine = reading.fine["tonnes"]

    def column(self, key: str) -> np.ndarray:
        """A column that was read. Raises KeyError if it was not."""
        found = self.taken(key)
        if found is None:
            raise KeyError(key)
        return found

    def tonnes(self) -> np.ndarray:
        """Returns tonnes in parts, -1 if missing."""
        found = self.taken("tonnes")
        if found is not None:
            return found if self.cut is None else self.cut.shared(found)
        density = self.density = self.column("density")
        if self.words.tonnes:
            mass = density if self.cut is None else density * self.cut.share
        else:
            mass = self.by_density(density)
        share = self.share = self.shares("share")
        mass = mass if share is None else mass * share
        known = np.isfinite(mass) & (mass > 0)
        parts = np.rint(np.where(known, mass, 0) * 10 ** self.fine).astype(np.int64)
        return np.where(known & (parts > 0), parts, -1)

    def rock_volume(self) -> np.ndarray:
        """Cubic metres of each row's rock: its block's volume, or the share of it. It is called
        after `tonnes`."""
        return self.volume if self.share is None else self.volume * np.nan_to_num(self.share)

    def by_density(self, density: np.ndarray) -> np.ndarray:
        """Returns the tonnes of each row. Of a percent model the remainder of a block is waste, or
        air in addition to waste with a known share; its grade is that of ore and waste together."""
        share = self.shares("ore_share")
        if share is None:
            return density * self.volume
        rest, of_ore = self.waste_shares(share), np.nan_to_num(share)
        ore = np.nan_to_num(density) * of_ore
        whole = ore + np.where(rest > 0, np.nan_to_num(self.column("waste_density")) * rest, 0)
        with np.errstate(divide="ignore", invalid="ignore"):
            mixed = np.where((self.grade >= 0) & (whole > 0), np.rint(self.grade * ore / whole),
                             -1).astype(np.int64)
        self.grade = np.where((of_ore == 0) & (whole > 0), 0, mixed)
        self.report.facts.append(f"{int(((of_ore > 0) & (rest > 0)).sum()):,} blocks are part ore "
                                 "and part waste: tonnes and grades are of both")
        return np.where(whole > 0, whole * self.volume, np.nan)

    def waste_shares(self, ore: np.ndarray) -> np.ndarray:
        """Returns the share of waste next to the ore's, which may be missing; all that is not ore,
        if none is named."""
        known = self.shares("waste_share")
        if known is None:
            self.judge_rests(np.nan_to_num(ore))
            return 1 - np.nan_to_num(ore)
        waste = np.nan_to_num(known)
        over = np.nan_to_num(ore) + waste > 1 + ROUNDED
        if over.any():
            raise UserError(f"{self.with_cells(int(np.flatnonzero(over)[0]))}: ore and waste are "
                            f"more than the complete block, as in {int(over.sum()):,} rows")
        air = np.nan_to_num(ore) + waste < 1 - ROUNDED
        self.report.facts.append(f"{int((air & (np.nan_to_num(ore) + waste > 0)).sum()):,} blocks "
                                 "are partly air")
        return waste

    def judge_rests(self, ore: np.ndarray) -> None:
        """Stops if a column of waste or air that no option names shows that a block's remainder is
        not all waste."""
        unnamed = self.reading.unnamed
        for number, column in enumerate(unnamed.rests):
            rest = self.taken(f"rest_{number}")
            name = unnamed.names_text([column])
            if rest is None or not np.isfinite(rest).any():
                continue
            rest = rest / 100 if np.nanmax(rest) > 1.000001 else rest
            wrong = (ore > 0) & ((rest > ROUNDED) if "air" in name.casefold() else (rest >= 0)
                                 & (ore + rest < 1 - ROUNDED))
            if np.nanmax(rest) <= 1.000001 and wrong.any():
                raise UserError(f"{self.with_cells(int(np.flatnonzero(wrong)[0]))}: by {name} a "
                                f"part of the block is air, as in {int(wrong.sum()):,} rows, but "
                                "--ore-share without --waste-share counts all except the ore as "
                                "waste: also give --waste-share, and the remainder is air")

    def shares(self, key: str) -> Optional[np.ndarray]:
        """Returns shares from 0 to 1; percentages are recognised by their largest, if no unit is
        given."""
        share = self.taken(key)
        if share is None:
            return None
        most = np.nanmax(share) if np.isfinite(share).any() else 0
        name = key.replace("_", "-")
        if not self.unit_of(key) and 1.000001 < most <= 100.000001:
            share = share / 100
            self.report.facts.append(f"--{name} is read as percent, since its largest value is "
                                     f"{most:g}")
        elif most > 1.000001:
            raise UserError(f"--{name} has values up to {most:g}: a share must be 0 to 1, or 0 to "
                            "100 %")
        return np.minimum(share, 1)

    def by_other(self) -> Optional[np.ndarray]:
        """Returns tonnes of each row by the column that no option names: by the density if tonnes
        are read, or the tonnes if a density is; by the volume, if there is only that."""
        weight, volume = self.taken("own_weight"), self.taken("own_volume")
        share = 1 if self.cut is None else self.cut.share
        if weight is None:
            return None if volume is None or self.density is None else self.density * volume * share
        if self.words.tonnes:
            # Densities above 100 are kilograms a cubic metre.
            return (weight * (0.001 if np.nanmedian(weight) > 100 else 1) * self.volume
                    if np.isfinite(weight).any() else None)
        return weight * share
