"""Facts of a plan and its instance: the numbers that a survey prints and draws.

Nothing here lists the arcs: a block's number of predecessors is read from the second field of its
line, and the reach of cones and walls follows from the plan.
"""
from __future__ import annotations

import os
from dataclasses import dataclass
from functools import cached_property
from typing import Optional, Sequence

import numpy as np

from pit_tools import progress
from pit_tools.errors import UserError
from pit_tools.instances.arrays import Blocks
from pit_tools.instances.block_files import read_blocks
from pit_tools.instances.files import count_predecessors, remarks_of
from pit_tools.instances.models import Outline, read_outline
from pit_tools.instances.valuation import values_of
from pit_tools.inventories.holdings import Holdings, holdings_of
from pit_tools.pits.closure import is_compiled, pit_by_cones
from pit_tools.plans.cones import Places, reach_along, size_in_millimetres
from pit_tools.plans.contacts import SIDES, Contacts, contacts_of, differ
from pit_tools.plans.file import Plan, read_plan
from pit_tools.plans.note import PlanNote, read_note
from pit_tools.plans.slopes import Judgement, judge
from pit_tools.plans.zone_files import count_lines
from pit_tools.texts.units import Numbers

#: The number of cells of a box up to which it is stored completely.
MOST_PLACES = 1 << 28

#: Places of all cones up to which the ultimate pit is sought: a minute or two.
MOST_PLACES_OF_CONES = 5_000_000_000

#: Arcs up to which HiGHS seeks it, if no compiler is there.
MOST_ARCS_OF_HIGHS = 200_000


@dataclass(frozen=True)
class Rock:
    """The contents of some blocks. Tonnes per cubic metre are of blocks with tonnes."""

    rows: int
    tonnes: float
    metal: float  #: grams
    top_grade: float
    least: float  #: t/m3
    most: float
    solid: int  #: blocks with tonnes
    barren: int  #: blocks with tonnes and grade 0
    volume: float  #: cubic metres of a block

    @property
    def grade(self) -> float:
        return self.metal / self.tonnes if self.tonnes else 0.0

    @property
    def mean_density(self) -> float:
        return self.tonnes / (self.volume * self.solid) if self.solid else 0.0


@dataclass(frozen=True)
class Axis:
    """The indices that blocks have along an axis."""

    least: int
    most: int
    taken: int
    odd: int


@dataclass(frozen=True)
class ZoneFile:
    """A zone file, and its lines below the header."""

    name: str
    lines: int


@dataclass(frozen=True)
class Leaving:
    """How many paying blocks there are whose slope leaves the model on a side, and by how much."""

    side: str
    blocks: int
    metres: float


class Facts:
    """A plan, the blocks, the numbers of predecessors, and the values of an instance.

    `zone_paths` are the zone files in the order of `compile`, or none. `pit` is bool (n,) if the
    pit is known. `note` is the plan's sidecar file. `remarks` are the comments with which the block
    file begins.
    """

    def __init__(self, plan: Plan, blocks: Blocks, arcs: np.ndarray, outline: Outline,
                 zone_paths: Sequence[str] = (), pit: Optional[np.ndarray] = None,
                 note: PlanNote = PlanNote(), remarks: Sequence[str] = ()):
        self.plan, self.blocks, self.arcs, self.outline = plan, blocks, arcs, outline
        self.remarks = list(remarks)
        self.note, self.measures = note, note.measures
        self.zone_files = [ZoneFile(os.path.basename(path), count_lines(path))
                           for path in zone_paths]
        self.volume = float(plan.grid.volume)
        self.values = outline.values
        self.size = size_in_millimetres(plan.grid)
        self.metres = tuple(map(float, plan.grid.size))
        self.origin = tuple(map(float, plan.grid.origin))
        self._pit = pit

    def __len__(self) -> int:
        return len(self.blocks)

    def grade_text(self, grade: float) -> str:
        """A grade in g/t in the unit in which it is reported."""
        return f"{self.measures.grade(grade):.4g} {self.measures.grade_unit}"

    def cost_text(self, cents: float) -> str:
        """A price or a cost of the plan, as money."""
        return self.measures.cost_text(cents)

    @cached_property
    def zone_names(self) -> list[str]:
        """The zones by name: as the plan's note has them, or by their files, or by number."""
        if len(self.note.zones) == len(self.plan.zones):
            return [zone.name for zone in self.note.zones]
        names = [os.path.splitext(file.name)[0] for file in self.zone_files]
        if len(names) == len(self.plan.zones) == len(set(names)):
            prefix = len(os.path.commonprefix([name + "-" for name in names]).rpartition("-")[0])
            return [name[prefix + 1 if prefix else 0:] or name for name in names]
        return [str(number) for number in range(len(self.plan.zones))]

    def indices(self, axis: int) -> np.ndarray:
        """The grid indices of the blocks along x, y or z, by 0, 1 or 2."""
        return (self.blocks.x, self.blocks.y, self.blocks.z)[axis]

    def centroid(self, axis: int, index: Numbers) -> Numbers:
        """Metres of a grid index along an axis."""
        return self.origin[axis] + index * self.metres[axis]

    @cached_property
    def axes(self) -> list[Axis]:
        found = []
        for axis in range(3):
            taken = np.unique(self.indices(axis))
            found.append(Axis(int(taken[0]), int(taken[-1]), len(taken), int((taken % 2).sum())))
        return found

    @cached_property
    def box(self) -> int:
        """The places of the model's box."""
        return int(np.prod([axis.most - axis.least + 1 for axis in self.axes], dtype=object))

    @cached_property
    def places(self) -> Places:
        if self.box > MOST_PLACES:
            raise UserError(f"the blocks are in a box of {self.box:,} cells: is the size of the "
                            "grid the size of the blocks?")
        return Places(self.blocks)

    # Rock

    def rock(self, taken: Optional[np.ndarray] = None) -> Rock:
        """Returns the contents of some blocks, by a mask, or of all."""
        tonnes = self.blocks.tonnes if taken is None else self.blocks.tonnes[taken]
        grade = self.blocks.grade if taken is None else self.blocks.grade[taken]
        solid = tonnes > 0
        density = tonnes[solid] / self.volume
        return Rock(len(tonnes), float(tonnes.sum()), float((tonnes * grade).sum()),
                    float(grade.max(initial=0)), float(density.min(initial=np.inf)) if len(density)
                    else 0.0, float(density.max(initial=0)), int(solid.sum()),
                    int((solid & (grade == 0)).sum()), self.volume)

    @cached_property
    def of_zone(self) -> list[Rock]:
        return [self.rock(self.blocks.zone == zone) for zone in range(len(self.plan.zones))]

    @cached_property
    def of_all(self) -> Rock:
        return self.rock()

    def by_bench(self, weights: Optional[np.ndarray] = None) -> np.ndarray:
        """Returns sums over the blocks of each bench, from the lowest index on."""
        low = self.axes[2].least
        return np.bincount(self.blocks.z - low, weights, self.axes[2].most - low + 1)

    # Columns

    @cached_property
    def column(self) -> np.ndarray:
        """The number of each block's column, y first, int64."""
        x, y = self.axes[0], self.axes[1]
        return ((self.blocks.y.astype(np.int64) - y.least) * (x.most - x.least + 1)
                + (self.blocks.x - x.least))

    @cached_property
    def columns(self) -> tuple[np.ndarray, np.ndarray, np.ndarray]:
        """Of each column that has blocks its number, and its lowest and highest index."""
        order = np.lexsort((self.blocks.z, self.column))
        column, z = self.column[order], self.blocks.z[order]
        first = np.flatnonzero(np.diff(column, prepend=-1))
        last = np.append(first[1:], len(column)) - 1
        return column[first], z[first], z[last]

    @cached_property
    def gaps(self) -> tuple[int, int]:
        """Returns the number of empty positions below a block, and the most of a column in a
        row."""
        order = np.lexsort((self.blocks.z, self.column))
        column, z = self.column[order], self.blocks.z[order]
        empty = np.diff(z)[column[1:] == column[:-1]] - 1
        return int(empty.sum()), int(empty.max(initial=0))

    @cached_property
    def top_of(self) -> np.ndarray:
        """The highest index in the column of each block."""
        numbers, _, tops = self.columns
        return tops[np.searchsorted(numbers, self.column)]

    @cached_property
    def floor_of(self) -> np.ndarray:
        """The lowest index in the column of each block."""
        numbers, floors, _ = self.columns
        return floors[np.searchsorted(numbers, self.column)]

    @cached_property
    def waits_for_none(self) -> np.ndarray:
        return self.arcs == 0

    @cached_property
    def covered(self) -> int:
        """Blocks without a predecessor that have rock above them in their column."""
        return int((self.waits_for_none & (self.blocks.z < self.top_of)).sum())

    def ground(self) -> np.ndarray:
        """Returns the highest index of each column, (y, x), -1 if it has no block."""
        return self._by_column(self.columns[2])

    def _by_column(self, values: np.ndarray, empty: float = -1) -> np.ndarray:
        wide, deep = (axis.most - axis.least + 1 for axis in self.axes[:2])
        table = np.full(wide * deep, empty, dtype=float)
        table[self.columns[0]] = values
        return table.reshape(deep, wide)

    def metal_by_column(self) -> np.ndarray:
        """Returns kilograms of metal of each column, (y, x), nan if it has no block."""
        wide, deep = (axis.most - axis.least + 1 for axis in self.axes[:2])
        sums = np.bincount(self.column, self.blocks.tonnes * self.blocks.grade / 1000, wide * deep)
        sums[np.bincount(self.column, minlength=wide * deep) == 0] = np.nan
        return sums.reshape(deep, wide)

    # Values

    @cached_property
    def best(self) -> np.ndarray:
        """Returns the destination where each block is worth most, the first of equals."""
        return self.values.argmax(axis=1)

    @cached_property
    def greatest(self) -> np.ndarray:
        return self.values.max(axis=1)

    @cached_property
    def paying(self) -> np.ndarray:
        return self.greatest > 0

    @cached_property
    def strange_values(self) -> int:
        """Values that are not the plan's, by more than 2 cents."""
        off = np.abs(self.values - values_of(self.plan, self.blocks) / 100)
        return int(((off > 0.02) & (off > 1e-10 * np.abs(self.values))).sum())

    @cached_property
    def is_waste_place(self) -> list[bool]:
        """Returns whether a destination recovers nothing."""
        return [not one.bands for one in self.plan.destinations]

    @cached_property
    def held(self) -> Holdings:
        """Returns the contents of the zones; zones that `import` split count as one."""
        names = self.note.reconciled.names(self.zone_names)
        return holdings_of(self.blocks, names, self.plan.grid, self.note.frame)

    # The reach of cones and slopes

    @cached_property
    def contacts(self) -> Contacts:
        return contacts_of(self.blocks, self.plan.zones, self.size,
                           self.places) if differ(self.plan.zones) else Contacts()

    @cached_property
    def slopes(self) -> Judgement:
        """Returns the report on the slopes and the K of the plan, for pits as high as `plan` judged
        them, or as the model."""
        benches = self.note.benches or self.axes[2].most - self.axes[2].least + 1
        return judge(self.plan.grid, self.plan.zones, self.zone_names, benches,
                     contacts=self.contacts)

    def leaving(self) -> list[Leaving]:
        """Returns for each side the paying blocks from which the requested slope extends beyond the
        last column of their row before it reaches that column's ground, and by how many metres at
        most."""
        ground = self.ground()
        ids = np.flatnonzero(self.paying)
        x, y = self.places.x[ids], self.places.y[ids]
        result = []
        for side, (name, axis, way) in enumerate(SIDES):
            length = ground.shape[1 - axis]
            edge = length - 1 if way > 0 else 0
            line = ground[:, edge][y] if axis == 0 else ground[edge, :][x]
            there = np.abs(edge - (x if axis == 0 else y))
            tangents = np.array([zone.slopes[side].tangent
                                 for zone in self.plan.zones])[self.blocks.zone[ids]]
            rise = ((np.where(line < 0, self.axes[2].least, line) - self.blocks.z[ids])
                    * self.metres[2])
            over = rise / tangents - there * self.metres[axis]
            result.append(Leaving(name, int((over > 1e-6).sum()),
                                  float(np.maximum(over, 0).max(initial=0))))
        return result

    # The pit

    @cached_property
    def pit(self) -> Optional[np.ndarray]:
        """Returns the ultimate pit of the plan, bool (n,), or None if it would take minutes: cones
        are wide, or there is no compiler and it is too large for HiGHS."""
        if self._pit is not None:
            return self._pit
        if not self.is_soon_found(MOST_PLACES_OF_CONES, MOST_ARCS_OF_HIGHS):
            return None
        progress.step("finds the ultimate pit")
        return pit_by_cones(self.greatest, self.blocks, self.plan)

    @property
    def is_pit_given(self) -> bool:
        """Returns whether the pit was given, and was not searched for."""
        return self._pit is not None

    def is_soon_found(self, places: int, arcs: int) -> bool:
        """Returns whether to search for a pit: by the C++ program if cones have at most this number
        of cells, and without a compiler by HiGHS, if there are no more arcs either."""
        return (self._places_of_cones <= places
                and (is_compiled() or int(self.arcs.sum()) <= arcs))

    @cached_property
    def _places_of_cones(self) -> int:
        """Returns the number of cells in the cones of all blocks, from the cone of a block with
        rock all around."""
        reach = [axis.most - axis.least for axis in self.axes]
        found = 0
        for number, zone in enumerate(self.plan.zones):
            arcs = 0
            for dz in range(1, min(zone.benches, reach[2]) + 1):
                east, west, north, south = reach_along(self.size, zone, dz)
                arcs += min(east + west + 1, reach[0] + 1) * min(north + south + 1, reach[1] + 1)
            found += arcs * self.of_zone[number].rows
        return found

    def at_side(self) -> dict[str, np.ndarray]:
        """Returns for each side which blocks have no column of blocks next to them there, bool
        (n,)."""
        has_blocks = np.pad(self.ground() >= 0, 1)
        x, y = self.places.x + 1, self.places.y + 1
        steps = {"east": (0, 1), "west": (0, -1), "north": (1, 0), "south": (-1, 0)}
        return {side: ~has_blocks[y + up, x + right] for side, (up, right) in steps.items()}

    def floor(self, pit: np.ndarray) -> np.ndarray:
        """Returns the lowest index of a pit in each column, (y, x), nan if it has none."""
        wide, deep = (axis.most - axis.least + 1 for axis in self.axes[:2])
        lowest = np.full(wide * deep, np.inf)
        np.minimum.at(lowest, self.column[pit], self.blocks.z[pit])
        lowest[np.isinf(lowest)] = np.nan
        return lowest.reshape(deep, wide)


def read_valued(plan_path: str, base: str) -> Facts:
    """The facts of a plan and the files BASE.blocks and BASE.pcpsp; arcs are not read, and count 0.

    Raises UserError if one cannot be read, or they are not of the same blocks and destinations.
    """
    plan, blocks = read_plan(plan_path), read_blocks(base + ".blocks")
    outline = _outline_of(base, plan, blocks)
    return Facts(plan, blocks, np.zeros(len(blocks), np.int64), outline, note=read_note(plan_path))


def _outline_of(base: str, plan: Plan, blocks: Blocks) -> Outline:
    """Returns the values of BASE.pcpsp, which belong to these blocks at the plan's destinations."""
    outline, count = read_outline(base + ".pcpsp"), len(plan.destinations)
    if outline.values.shape != (len(blocks), count):
        raise UserError(f"{base}.pcpsp: not the values of these blocks at {count} destinations")
    last = blocks.zone.max()
    if last >= len(plan.zones):
        raise UserError(f"{base}.blocks has a zone {last}, but the plan has {len(plan.zones)} "
                        "zones")
    return outline


def read_facts(plan_path: str, base: str, zone_paths: Sequence[str] = (),
               pit_path: Optional[str] = None) -> Facts:
    """The facts of a plan and the files BASE.blocks, BASE.prec and BASE.pcpsp.

    Raises UserError if one cannot be read, or they are not of the same blocks and destinations.
    """
    from pit_tools.pits.files import NamedPit

    plan = read_plan(plan_path)
    progress.step(f"reads {base}.blocks")
    blocks = read_blocks(base + ".blocks")
    progress.step(f"reads {base}.prec")
    arcs = count_predecessors(base + ".prec")
    if len(arcs) != len(blocks):
        raise UserError(f"{base}.prec: it is not the precedence file of these blocks: {len(arcs)} "
                        f"lines, but {len(blocks)} blocks")
    progress.step(f"reads {base}.pcpsp")
    outline = _outline_of(base, plan, blocks)
    pit = NamedPit(pit_path, "").of_blocks(len(blocks)) if pit_path else None
    return Facts(plan, blocks, arcs, outline, zone_paths, pit, read_note(plan_path),
                 remarks_of(base + ".blocks"))
