"""Reads the frame of an export as its mining package wrote it: positions, sizes and turn of blocks,
and marks of missing values. These become options of `pit-tools import`, as if they had been
given."""
from __future__ import annotations

import re
from dataclasses import dataclass, field, fields, replace
from typing import Any, Optional, Sequence

import numpy as np
import pandas as pd
from scipy.spatial.transform import Rotation

from pit_tools.errors import UserError
from pit_tools.exports.cells import marks_of
from pit_tools.exports.presets import ABOVE, PACKAGES, Package, Triple
from pit_tools.exports.source import Source, sources_of
from pit_tools.exports.words import Words, columns_of
from pit_tools.plans.grids import rotation_of
from pit_tools.texts.formulas import MissingColumn

# The number of rows that show whether turns above a header fit.
SAMPLE = 5_000

# A turn of fewer degrees counts as none.
LEAST_TURN = 1e-4


def column_key(name: str) -> str:
    """A column's name as packages' names are compared."""
    plain = re.sub(r"\s*(\([^()]*\)|\[[^\[\]]*\])$", "", name.strip().strip("\"'").casefold())
    return re.sub(r"^(_?)(.*)$", lambda found: found[1] + re.sub(r"[\s._]", "", found[2]), plain)


def recognised(source: Source) -> str:
    """The package that seems to have written an export, a key of PACKAGES, or an empty text: by its
    columns, or by its name above the header."""
    above = " ".join(source.lines_above()).casefold()
    for name, package in PACKAGES.items():
        if package.title.casefold() in above:
            return name
    keys = {column_key(name) for name in source.names}
    for name, package in PACKAGES.items():
        if any(keys.issuperset(group) for group in package.identifying):
            return name
    return ""


def text_of(name: str) -> str:
    """That an export seems to be a package's."""
    return (f"the header is like {PACKAGES[name].title}'s: --package {name} reads coordinates, "
            "sizes, turn and marks as it writes them")


def words_by_package(words: Words, paths: Sequence[str]) -> tuple[Words, str]:
    """Returns the options with those that follow from the package's exports, and a line that
    reports them. Options that are given already stay.

    Raises UserError if exports have several frames, or the package writes too little."""
    package = PACKAGES[words.package]
    found = [Frames(path, package, words).read() for path in paths]
    for path, other in zip(paths[1:], found[1:]):
        differ = [key for key in found[0] if found[0][key] != other.get(key)]
        if differ:
            raise UserError(f"{path}: its {differ[0].replace('_', ' ')} is "
                            f"{other.get(differ[0]) or 'not given'}, but in {paths[0]} it is "
                            f"{found[0][differ[0]]}: import models of two frames separately")
    defaults = {one.name: one.default for one in fields(Words)}
    new = {key: value for key, value in found[0].items()
           if getattr(words, key) in (defaults[key], "", None)}
    message = " ".join(f"--{key.replace('_', '-')}" + ("" if value is True else f" '{value}'")
                       for key, value in new.items())
    marks = [mark for mark in package.marks if mark not in words.missing]
    return (replace(words, **new, package="", missing=[*words.missing, *marks]),
            f"--package {words.package} means {message or 'no other option'}")


@dataclass
class Columns:
    """Columns of a header by their keys."""

    names: Sequence[str]
    keys: dict[str, int] = field(default_factory=dict)

    def __post_init__(self) -> None:
        for at, name in enumerate(self.names):
            self.keys.setdefault(column_key(name), at)

    def triple(self, triples: Sequence[Triple]) -> list[int]:
        """Returns the first triple that the header has, or none."""
        for triple in triples:
            if all(name in self.keys for name in triple):
                return [self.keys[name] for name in triple]
        return []

    def formula(self, at: int) -> str:
        name = " ".join(self.names[at].split()).strip("\"'")
        return name if re.fullmatch(r"[A-Za-z]\w*", name) else f"`{name}`"


class Frames:
    """The frame of one export."""

    def __init__(self, path: str, package: Package, words: Words) -> None:
        self.path, self.package, self.words = path, package, words
        self.source = sources_of(path, self._resolve, encoding=words.encoding,
                                 separator=words.separator, names=words.names,
                                 sheet=words.sheet)[0]
        self.columns = Columns(self.source.names)
        self.sizes = self.columns.triple(package.sizes)
        self.table = pd.DataFrame()
        self.found: dict[str, Any] = {}

    def _resolve(self, names: Sequence[str]) -> None:
        columns = Columns(names)
        if not columns.triple(self.package.places) and self.package.index not in columns.keys:
            known = " or ".join(", ".join(triple) for triple in self.package.places)
            raise MissingColumn(f"{known} of {self.package.title}", names)
        columns_of(self.words, names)

    def read(self) -> dict[str, Any]:
        """Returns options by their names, from what the export states."""
        places = self.columns.triple(self.package.places)
        world = self.columns.triple(self.package.world)
        self.table = self._numbers(places, world)
        above = self._above()
        if self.words.i:
            pass
        elif places:
            self._take_places(places, world if world != places else [], above)
        else:
            self._take_index()
        self._take_sizes(above)
        if self.found.get("rotation") and not self.words.regularise:
            raise UserError(f"{self.path}: the model dips, by turns of {self.found['rotation']}, "
                            "but benches of pitc are level: --regularise X,Y,Z spreads its blocks "
                            "over level ones")
        return self.found

    def _numbers(self, *more: Sequence[int]) -> pd.DataFrame:
        """Returns the numbers of the columns that describe the frame, NaN for a missing number."""
        package, keys = self.package, self.columns.keys
        wanted = [keys[name] for names in (package.corner, package.counts, package.origin,
                                           package.angles, package.axes, [package.index])
                  for name in names if name in keys]
        wanted = sorted({*wanted, *self.sizes, *(at for columns in more for at in columns)})
        marks, chunks = None, []
        for table in self.source.chunks(wanted):
            marks = marks or marks_of((table[at] for at in wanted), decimal=self.words.decimal,
                                      thousands=self.words.thousands,
                                      missing=[*self.words.missing, *package.marks])
            chunks.append(pd.DataFrame({at: marks.encoded(table[at]).floats for at in wanted}))
        table = pd.concat(chunks, ignore_index=True)
        return table[table[wanted[0]].notna()] if wanted else table

    def _one(self, name: str) -> Optional[float]:
        """Returns the one value of a column, or None if there is none. Raises UserError if it has
        several."""
        at = self.columns.keys.get(name)
        if at is None:
            return None
        values = self.table[at].dropna().unique()
        if len(values) > 1:
            raise UserError(f"{self.path}: the column {self.source.names[at]} has {values[0]:g} "
                            f"and {values[1]:g}: are two models in one export? Import each "
                            "separately, by --where")
        return float(values[0]) if len(values) else None

    def _three(self, names: Sequence[str]) -> Optional[list[float]]:
        values = [self._one(name) for name in names]
        known = [value for value in values if value is not None]
        return known if known and len(known) == len(names) else None

    def _above(self) -> dict[str, list[float]]:
        """Numbers that lines above the header name, by the keys of ABOVE."""
        found: dict[str, list[float]] = {}
        number = r"[-+]?\d+(?:\.\d*)?(?:[eE][-+]?\d+)?"
        for line in self.source.lines_above():
            for name, numbers in re.findall(rf"([A-Za-z][A-Za-z ._-]*)[\s:=,;(\"]*({number}"
                                            rf"(?:[\s,;x×]+{number})*)", line):
                plain = re.sub(r"[\W_]", "", name.casefold())
                for key, names in ABOVE.items():
                    if plain in names:
                        found[key] = [float(one) for one in re.findall(number, numbers)]
        for key in ("corner", "parents"):
            if len(found.get(key, [0] * 3)) != 3:
                del found[key]
            elif key in found:
                found[key] = [found[key][self.package.order.index(axis)] for axis in "xyz"]
        for key, value in zip(("azimuth", "dip", "pitch"), found.pop("rotation", [])):
            found.setdefault(key, [value])
        return found

    def _take_places(self, places: Sequence[int], world: Sequence[int],
                     above: dict[str, list[float]]) -> None:
        corner = self._three(self.package.corner) or above.get("corner")
        self._put(x=self.columns.formula(places[0]), y=self.columns.formula(places[1]),
                  z=self.columns.formula(places[2]))
        if self.words.x:
            return
        if world:
            self._take_world(places, world, corner)
            return
        turns = self._turns()
        if turns:
            origin = self._three(self.package.origin)
            if origin is None or corner is None:
                needed = ", ".join([*self.package.corner, *self.package.origin]).upper()
                raise UserError(f"{self.path}: the model is turned, by "
                                f"{', '.join(self.package.angles).upper()}, but its position in "
                                f"the world is missing: also export {needed}")
            self._take_own_axes(places, corner, origin, turns)
            return
        if corner is not None:
            self._put(corner=corner)
        self._take_turn_above(places, above, corner)

    def _turns(self) -> list[tuple[str, float]]:
        """Returns the turns that columns give: axes and degrees, in their order."""
        turns = []
        for angle, axis in zip(self.package.angles, self.package.axes):
            degrees = self._one(angle) or 0.0
            number = self._one(axis)
            if abs(degrees) > LEAST_TURN:
                if number not in (1, 2, 3):
                    raise UserError(f"{self.path}: {angle.upper()} is {degrees:g}, but "
                                    f"{axis.upper()} has no axis from 1 to 3")
                turns.append(("xyz"[int(number) - 1], degrees))
        return turns

    def _take_world(self, places: Sequence[int], world: Sequence[int],
                    corner: Optional[Sequence[float]]) -> None:
        """Compares coordinates along the model's own axes with world coordinates, and returns the
        turn between them."""
        own = self.table[list(places)].to_numpy()
        there = self.table[list(world)].to_numpy()
        known = np.isfinite(own).all(axis=1) & np.isfinite(there).all(axis=1)
        own, there = own[known], there[known]
        middle, there_middle = own.mean(axis=0), there.mean(axis=0)
        rotation, _ = Rotation.align_vectors(there - there_middle, own - middle)
        off = np.abs(rotation.apply(own - middle) + there_middle - there).max()
        sizes = self.table[self.sizes].to_numpy()[known] if self.sizes else np.ones((1, 3))
        least = float(np.nanmin(sizes))
        if not off < 0.1 * least:
            raise UserError(f"{self.path}: {self.columns.formula(places[0])} and "
                            f"{self.columns.formula(world[0])} are not coordinates of the same "
                            f"positions: the best turn leaves {off:.3g} between them")
        start = np.array(corner) if corner is not None else np.nanmin(own - sizes / 2, axis=0)
        origin = rotation.apply(start - middle) + there_middle
        degrees = [float(angle) for angle in -rotation.as_euler("ZXY", degrees=True)]
        turns = [(axis, round(angle, 4)) for axis, angle in zip("zxy", degrees)
                 if abs(angle) > LEAST_TURN]
        self._take_own_axes(places, list(start), list(origin), turns, corner is not None)

    def _take_own_axes(self, places: Sequence[int], corner: Sequence[float],
                       origin: Sequence[float], turns: Sequence[tuple[str, float]],
                       is_corner: bool = True) -> None:
        """Returns coordinates along the model's own axes, shifted so that the corner has its world
        position."""
        for axis, at, here, there in zip("xyz", places, corner, origin):
            move = round(there - here, 3)
            sign = "+" if move > 0 else "-"
            self.found[axis] = self.columns.formula(at) + (f" {sign} {abs(move):.10g}"
                                                           if move else "")
        if is_corner:
            self._put(corner=origin)
        self._put_turns(turns, origin)
        if turns:
            self.found["own_axes"] = True

    def _put_turns(self, turns: Sequence[tuple[str, float]], about: Sequence[float]) -> None:
        if not turns:
            return
        if all(axis == "z" for axis, _ in turns):
            self.found["y_azimuth"] = sum(degrees for _, degrees in turns)
            self._put(about=about[:2])
        else:
            self.found["rotation"] = ", ".join(f"{axis} {degrees:.10g}" for axis, degrees in turns)
            self._put(about=about)

    def _take_turn_above(self, places: Sequence[int], above: dict[str, list[float]],
                         corner: Optional[Sequence[float]]) -> None:
        """Returns the turn that lines above the header give, of world coordinates. The signs of a
        dip and a pitch are chosen so that blocks are adjacent."""
        degrees = {key: above.get(key, [0.0])[0] for key in ("azimuth", "dip", "pitch")}
        if self.package.bearing == "x" and "azimuth" in above:
            degrees["azimuth"] -= 90
        if not any(abs(one) > LEAST_TURN for one in degrees.values()):
            return
        about = list(corner) if corner is not None else list(self.table[list(places)].iloc[0])
        if max(abs(degrees["dip"]), abs(degrees["pitch"])) <= LEAST_TURN:
            self._put_turns([("z", degrees["azimuth"])], about)
            return
        if not self.sizes and "parents" not in above:
            raise UserError(f"{self.path}: by the lines above the header the model dips, but "
                            "neither they nor columns give the size of a block: export its sizes")
        for dip in (degrees["dip"], -degrees["dip"]):
            for pitch in (degrees["pitch"], -degrees["pitch"]):
                turns = [(axis, one) for axis, one in (("z", degrees["azimuth"]), ("x", dip),
                                                       ("z", pitch)) if abs(one) > LEAST_TURN]
                if self._fits(places, turns, above.get("parents")):
                    self._put_turns(turns, about)
                    return
        raise UserError(f"{self.path}: rows are not adjacent by the turn above the header, azimuth "
                        f"{degrees['azimuth']:g}, dip {degrees['dip']:g}, pitch "
                        f"{degrees['pitch']:g}: give the turns by --rotation")

    def _fits(self, places: Sequence[int], turns: Sequence[tuple[str, float]],
              parents: Optional[Sequence[float]]) -> bool:
        """Returns whether rows of the largest size are on one grid of that size, with this turn."""
        table = self.table
        sizes = np.array(table[self.sizes].max() if self.sizes else parents)
        if self.sizes:
            table = table[(table[self.sizes].to_numpy() > 0.98 * sizes).all(axis=1)]
        points = table[list(places)].to_numpy()[:SAMPLE]
        rotation = rotation_of(", ".join(f"{axis} {degrees}" for axis, degrees in turns))
        place = (points - points[0]) @ rotation / sizes
        return bool(np.abs(place - np.rint(place)).max() < 0.1)

    def _take_index(self) -> None:
        """Reads numbers of parents in place of coordinates, with z running first."""
        counts, corner = self._three(self.package.counts), self._three(self.package.corner)
        if counts is None or corner is None or not self.sizes:
            raise UserError(f"{self.path}: it has {self.package.index.upper()} but not "
                            f"{', '.join(self.package.places[0]).upper()}: export these too, or "
                            f"{', '.join([*self.package.counts, *self.package.corner]).upper()} "
                            f"and {', '.join(self.package.sizes[0]).upper()}")
        if self._turns():
            raise UserError(f"{self.path}: the model is turned: export "
                            f"{', '.join(self.package.places[0]).upper()} too")
        sizes = list(self.table[self.sizes].max())
        index = self.columns.formula(self.columns.keys[self.package.index])
        deep, high = int(counts[1]), int(counts[2])
        self.found.update(i=f"{index} // {deep * high}", j=f"{index} // {high} % {deep}",
                          k=f"{index} % {high}", index_from=0)
        self._put(first=[one + size / 2 for one, size in zip(corner, sizes)], size=sizes,
                  blocks=counts)

    def _take_sizes(self, above: dict[str, list[float]]) -> None:
        """Returns the size of blocks, and of parents if rows have several sizes."""
        parents = above.get("parents")
        if not self.sizes:
            if parents:
                self._put(size=parents)
            return
        self.found["sub_size"] = ",".join(map(self.columns.formula, self.sizes))
        if self.words.regularise or self.words.parents or self.found.get("rotation"):
            return
        sizes = self.table[self.sizes]
        largest = list(sizes.max())
        if parents is None and (sizes.min() > 0.98 * sizes.max()).all():
            self._put(size=largest)
            return
        if parents is None and not self.package.has_parents:
            raise UserError(f"{self.path}: rows have sizes up to "
                            f"{', '.join(f'{size:g}' for size in largest)}, but "
                            f"{self.package.title} does not write the size of a parent, which may "
                            "be smaller: give --parents X,Y,Z")
        self._put(parents=parents or largest)

    def _put(self, **words: Any) -> None:
        """Keeps options; numbers become texts of at most three decimals."""
        for key, value in words.items():
            if not isinstance(value, str):
                value = ",".join(f"{round(float(one), 3):.10g}" for one in value)
            self.found[key] = value
