"""Common mistakes of a model's rock, which would make another mine: tonnes, heights, gaps and
grades.

`import` checks what it has read, and `survey` an instance that no `import` has judged. Only wrong
models have such a line (tests/test_mistakes.py), and no right model has one; what a resource report
shows better is not checked here."""
from __future__ import annotations

from dataclasses import dataclass
from functools import cached_property
from typing import Callable, Iterator, Sequence

import numpy as np

from pit_tools.exports.report import figure
from pit_tools.texts.units import Measures

#: Tonnes a cubic metre of rock: coal has 1.2, massive ore up to 5; no mean is beyond these.
LIGHT, HEAVY = 1.2, 5.0

#: No block of rock is heavier; a mark as 999 may be.
HEAVIEST = 10.0

#: Voids of old workings rarely exceed this share of the rock.
VOIDS = 0.02

#: Grades of one metal, of ore and of barren rock, do not differ a hundredfold between zones if the
#: richer has a mean of more than 20 g/t or 20 %: that is a grade in another unit.
APART, RICH = 100.0, 20.0

#: Of many grades the highest ones rise without such a step: a mark of a missing value is above it.
STEP, MANY = 10.0, 30


@dataclass(frozen=True)
class RockModel:
    """Arrays of n blocks: indices along x, y and z; t; g/t; numbers of zones. `volume` is a block's
    volume in m3, and `height` returns metres of an index along z. `has_shares` is true if blocks
    are known to be partly rock."""

    index: tuple[np.ndarray, np.ndarray, np.ndarray]
    tonnes: np.ndarray
    grade: np.ndarray
    zone: np.ndarray
    names: Sequence[str]
    volume: float
    measures: Measures
    height: Callable[[int], str]
    has_shares: bool = False

    @cached_property
    def column(self) -> np.ndarray:
        """The number of each block's column, from 0."""
        return column_of_places(self.index[0], self.index[1])

    @cached_property
    def _ends(self) -> tuple[np.ndarray, np.ndarray]:
        return ends_of(self.column, self.index[2])

    @property
    def floors(self) -> np.ndarray:
        """The lowest index of each column."""
        return self._ends[0]

    @property
    def tops(self) -> np.ndarray:
        """The highest index of each column."""
        return self._ends[1]

    @cached_property
    def is_below(self) -> np.ndarray:
        """Returns a mask of the blocks that have another above them in their column."""
        return self.index[2] < self.tops[self.column]

    @property
    def gaps(self) -> int:
        """Returns the number of empty positions between blocks of a column."""
        return int((self.tops - self.floors + 1).sum()) - len(self.tonnes)

    @property
    def is_box(self) -> bool:
        """Returns whether each position of the box has a block."""
        sides = [int(np.ptp(index)) + 1 for index in self.index]
        return len(self.tonnes) == sides[0] * sides[1] * sides[2] > 8


def column_of_places(x: np.ndarray, y: np.ndarray) -> np.ndarray:
    """Of places, by their indices along x and y, the number of each one's column, from 0."""
    code = y.astype(np.int64) * (int(x.max()) + 1) + x
    most = int(code.max()) + 1
    if most > 4 * len(code) + 1000:
        return np.unique(code, return_inverse=True)[1]
    is_taken = np.zeros(most, bool)
    is_taken[code] = True
    return (np.cumsum(is_taken) - 1)[code]


def ends_of(column: np.ndarray, z: np.ndarray) -> tuple[np.ndarray, np.ndarray]:
    """The smallest and the largest of these indices in each column."""
    order = np.argsort(z.astype(np.int16), kind="stable")
    floors, tops = (np.empty(int(column.max()) + 1, z.dtype) for _ in range(2))
    # Of several values for one place the last one stays.
    tops[column[order]] = z[order]
    floors[column[order[::-1]]] = z[order[::-1]]
    return floors, tops


def rock_warnings(model: RockModel) -> Iterator[str]:
    """The lines of a model."""
    wrong = list(_density(model))
    if wrong:
        # With another unit or grid nothing else is reported.
        yield from wrong
        return
    yield from _light(model)
    yield from _ground(model)
    yield from _gaps(model)
    yield from _grades(model)


def _density(model: RockModel) -> Iterator[str]:
    """Warns of tonnes per cubic metre beyond rock: the median, and what it may be in another
    unit."""
    heavy = model.tonnes[model.tonnes > 0] / model.volume
    if len(heavy) == 0:
        return
    middle, most = float(np.median(heavy)), float(heavy.max())
    if LIGHT <= middle <= HEAVY:
        if most > HEAVIEST:
            count = int((heavy > HEAVIEST).sum())
            yield (f"{count:,} blocks weigh more than {HEAVIEST:g} t per cubic metre, up to "
                   f"{figure(most)}: does this mean a missing value, as 999?")
        return
    whys = [("are they densities? Give --density", model.volume),
            ("are they kilotonnes? Give the unit kt", 1000.0),
            ("are they kilograms? Give the unit kg", 0.001),
            ("are lengths in feet? Give --in-feet, or the unit ft", 1 / 0.3048 ** 3),
            ("are lengths in kilometres? Give the unit km", 1e-9),
            ("is the grid half the size of blocks?", 1 / 8)]
    fits = [why for why, factor in whys if 1.5 <= middle * factor <= HEAVY]
    yield (f"tonnes per cubic metre are {figure(heavy.min())} to {figure(most)}, with median "
           f"{figure(middle)}, but rock has 1.5 to {HEAVY:g}: "
           f"{'; '.join(fits) or 'are they the tonnes of other blocks? Check --size'}")


def _light(model: RockModel) -> Iterator[str]:
    """Blocks of little weight below others: at the ground alone a block is rock in part."""
    if model.has_shares:
        return
    solid = model.tonnes > 0
    light = solid & (model.tonnes < 0.5 * np.median(model.tonnes[solid])) & model.is_below
    # Some blocks at old workings are rock in part.
    if light.sum() > 0.005 * len(light):
        yield (f"{int(light.sum()):,} blocks below others weigh less than half of the median "
               "block: is only their ore counted? The remainder of a block is waste, and must be "
               "dug: --ore-share with --waste-density")


def _ground(model: RockModel) -> Iterator[str]:
    """Air that is rock, and depths that are heights."""
    z = model.index[2]
    if model.is_box:
        highest = z == z.max()
        # A default density is one for all; rock below a level ground has grades, or several.
        barren = model.tonnes[highest & (model.grade == 0)]
        _, counts = np.unique(barren, return_counts=True)
        if model.grade.any() and counts.max(initial=0) > 0.5 * highest.sum():
            yield ("every position of the box has rock, and most of the highest bench has no grade "
                   "and one tonnage: does it include air, with a default density? Omit it by "
                   "--where")
        return
    if len(model.tops) < 9 or np.ptp(z) < 2:
        return
    # A ground is hardly level over nine tenths of a mine whose floor is not.
    at_top = float((model.tops == model.tops.max()).mean())
    at_bottom = float((model.floors == model.floors.min()).mean())
    if at_top >= 0.9 and at_bottom < 0.8:
        yield ("the highest bench is complete but the lowest is not: is z a depth, or are benches "
               "counted from the top? Give --z=-DEPTH, or --from-top")


def _gaps(model: RockModel) -> Iterator[str]:
    z = model.index[2]
    empty = np.flatnonzero(np.bincount(z) == 0)
    empty = empty[empty > z.min()]
    if len(empty):
        yield (f"{len(empty):,} bench{'es' if len(empty) > 1 else ''} without a block, from z = "
               f"{model.height(int(empty[0]))}: are rows missing?")
    elif model.gaps > VOIDS * len(z):
        yield (f"{model.gaps:,} positions below a block have none, which is more than old workings "
               "explain: are rows missing, or does rock have no tonnes? It would cost nothing to "
               "dig")


def _grades(model: RockModel) -> Iterator[str]:
    if not (model.grade > 0).any():
        yield "no block has a grade"
        return
    ranked = np.unique(model.grade)
    if len(ranked) > MANY and ranked[-1] > STEP * ranked[-2]:
        yield (f"the highest grade, {_text_of(model, ranked[-1])}, is more than {STEP:g} times the "
               f"next, {_text_of(model, ranked[-2])}: does it mean a missing value, as 999?")
    yield from zones_apart(model)


def zones_apart(model: RockModel) -> Iterator[str]:
    """Mean grades of zones that look like grades in two units."""
    count = len(model.names)
    mass = np.bincount(model.zone, model.tonnes, count)
    metal = np.bincount(model.zone, model.tonnes * model.grade, count)
    means = np.divide(metal, mass, out=np.zeros(count), where=mass > 0)
    known = means[means > 0]
    if (len(known) and known.max() > APART * known.min()
            and model.measures.grade(float(known.max())) > RICH):
        yield (f"the mean grade of zone {model.names[int(means.argmax())]} is "
               f"{_text_of(model, known.max())}, a hundred times another's: is it in another unit?")


def _text_of(model: RockModel, grade: float) -> str:
    return f"{model.measures.grade(grade):.4g} {model.measures.grade_unit}"
