"""The contents of a pit or a schedule: ore, waste, strip ratio, grade, metal and value by bench,
destination and period, as text and as tables."""
from __future__ import annotations

from typing import Iterator, NamedTuple, Optional, Sequence

import numpy as np

from pit_tools.files.tables import Cell, Column, Table
from pit_tools.instances.valuation import recoveries
from pit_tools.pits.back import Mined
from pit_tools.surveys.facts import Facts
from pit_tools.texts.number_texts import shortest, with_commas
from pit_tools.texts.units import Measures


class Sums(NamedTuple):
    """The contents of some lines: blocks, by their shares; tonnes; g/t; kilograms; and their value,
    in units of 100 of the plan's money, and the cost of their waste, which the value includes."""

    blocks: float
    ore: float
    grade: float
    metal: float
    recovered: float
    waste: float
    value: float
    cost: float

    @property
    def value_of_ore(self) -> float:
        """The value before the waste is paid for."""
        return self.value + self.cost

    @property
    def strip(self) -> Optional[float]:
        """Returns the tonnes of waste per tonne of ore, None if there is no ore."""
        return self.waste / self.ore if self.ore else None

    def text(self, measures: Measures) -> str:
        """The sums below `head`."""
        strip = "-" if self.strip is None else f"{self.strip:.2f}"
        value = with_commas(measures.money(self.value), 2)
        return (f"{shortest(self.blocks, 2):>10} {with_commas(self.ore, 1):>15} "
                f"{measures.grade(self.grade):9.4f} {with_commas(self.metal, 1):>12} "
                f"{with_commas(self.recovered, 1):>14} {with_commas(self.waste, 1):>15} "
                f"{strip:>7} {value:>19}")

    def cells(self, measures: Measures) -> list[Cell]:
        """The sums as cells below `columns`."""
        return [self.blocks, self.ore, measures.grade(self.grade), self.metal, self.recovered,
                self.waste, self.strip, measures.money(self.value)]


def head(measures: Measures) -> str:
    """The heads of sums that are reported."""
    return (f"{'blocks':>10} {'ore, t':>15} {measures.grade_unit:>9} {'metal, kg':>12} "
            f"{'recovered, kg':>14} {'waste, t':>15} {'strip':>7} {measures.in_money('value'):>19}")


def columns(measures: Measures) -> list[Column]:
    """The columns of sums in tables."""
    return [Column("blocks", 6), Column("ore (t)", 3), Column(f"grade ({measures.grade_unit})", 6),
            Column("metal (kg)", 3), Column("recovered (kg)", 3), Column("waste (t)", 3),
            Column("strip ratio (t/t)", 4), Column(f"value ({measures.money_unit})", 2)]


def pit_sums(facts: Facts, pit: np.ndarray) -> Sums:
    """Returns the contents of a pit, bool (n,), each block where it is worth most."""
    return Report(facts, Mined(np.flatnonzero(pit))).sums()


class Line(NamedTuple):
    """A line of a report: its name, the height of a bench in metres, its sums, and of a period the
    discounted value, in units of 100 of the plan's money."""

    name: str
    sums: Sums
    z: Optional[float] = None
    discounted: Optional[float] = None


class Report:
    """The sums of a pit or a schedule. A block goes where its line states, or where it is worth
    most."""

    def __init__(self, facts: Facts, mined: Mined):
        self.facts, self.mined, self.measures = facts, mined, facts.measures
        self.block = mined.block
        self.share = mined.shares()
        best = facts.best[self.block]
        self.destination = best if mined.destination is None else mined.destination
        self.tonnes = facts.blocks.tonnes[self.block] * self.share
        self.is_waste = np.array(facts.is_waste_place)[self.destination]
        self.metal = self.tonnes * facts.blocks.grade[self.block] / 1000
        self.value = facts.values[self.block, self.destination] * self.share
        grades = np.rint(facts.blocks.grade[self.block] * 1e6).astype(np.int64)
        shares = np.stack([recoveries(one, grades) for one in facts.plan.destinations], axis=1)
        self.recovered = self.metal * shares[np.arange(len(grades)), self.destination] / 1000

    def sums(self, taken: Optional[np.ndarray] = None) -> Sums:
        """Returns the sums of some lines, by a mask or positions, or of all."""
        taken = np.arange(len(self.block)) if taken is None else taken
        tonnes, value, is_waste = self.tonnes[taken], self.value[taken], self.is_waste[taken]
        ore_t, metal = tonnes[~is_waste].sum(), self.metal[taken][~is_waste].sum()
        return Sums(self.share[taken].sum(), ore_t, 1000 * metal / ore_t if ore_t else 0, metal,
                    self.recovered[taken].sum(), tonnes[is_waste].sum(), value.sum(),
                    0.0 - value[is_waste].sum())

    def by(self, key: np.ndarray) -> dict[int, Sums]:
        """The sums of the lines of each key, int (n,), in rising order of the keys."""
        order = np.argsort(key, kind="stable")
        keys, first = np.unique(key[order], return_index=True)
        return {int(one): self.sums(taken)
                for one, taken in zip(keys, np.split(order, first[1:]))}

    # The lines of each part

    def benches(self) -> list[Line]:
        """A line for each bench, the highest first, and one of all."""
        found = self.by(self.facts.blocks.z[self.block])
        lines = [Line(str(bench), sums, self.facts.centroid(2, bench))
                 for bench, sums in found.items()][::-1]
        return [*lines, Line("all", self.sums())]

    def zones(self) -> list[Line]:
        """Yields a line for each zone by its name, in the plan's order, and one for all. A zone
        that is cut into several files, so that its name appears several times, is one."""
        names = list(dict.fromkeys(self.facts.zone_names))
        numbers = np.array([names.index(name) for name in self.facts.zone_names])
        zone = numbers[self.facts.blocks.zone[self.block]]
        return [*self.named(zone, names), Line("all", self.sums())]

    def named(self, key: np.ndarray, names: Sequence[str]) -> list[Line]:
        """Yields a line for each name, of the lines whose key, int (n,), is its index; there may be
        none."""
        found, none = self.by(key), self.sums(np.empty(0, dtype=np.int64))
        return [Line(name, found.get(number, none)) for number, name in enumerate(names)]

    def destinations(self) -> list[Line]:
        """A line for each destination, in the plan's order."""
        return self.named(self.destination, [one.name for one in self.facts.plan.destinations])

    def periods(self) -> list[Line]:
        """Of a schedule a line for each period, and one of all."""
        period = self.mined.period
        if period is None:
            return []
        counts = 1 / (1 + float(self.facts.plan.rate)) ** period
        discounted = self.value * counts
        lines = [Line(str(number), self.sums(period == number),
                      discounted=discounted[period == number].sum())
                 for number in range(self.facts.plan.periods)]
        return [*lines, Line("all", self.sums(), discounted=discounted.sum())]

    def sides(self) -> list[tuple[str, int]]:
        """How many blocks are mined at each side of the model."""
        in_pit = self.mined.in_pit(len(self.facts))
        at_side = self.facts.at_side()
        lowest = self.facts.blocks.z == self.facts.axes[2].least
        places = {**at_side, "any side": np.any(list(at_side.values()), axis=0),
                  "lowest bench": lowest, "all": np.ones(len(in_pit), dtype=bool)}
        return [(name, int((there & in_pit).sum())) for name, there in places.items()]

    # As tables

    def tables(self) -> list[Table]:
        """Benches, destinations, of a schedule periods, and sides."""
        found = []
        for name, lines in self._parts():
            heads = [Column(name), *columns(self.measures)]
            rows: list[list[Cell]] = [[line.name, *line.sums.cells(self.measures)]
                                      for line in lines]
            if name == "bench":
                heads.insert(1, Column("z (m)", 3))
                rows = [[row[0], line.z, *row[1:]] for row, line in zip(rows, lines)]
            if name == "period":
                heads.append(self._discounted_head())
                rows = [[*row, self._discounted_cell(line)] for row, line in zip(rows, lines)]
            found.append(Table({"bench": "benches"}.get(name, name + "s"), heads, rows))
        return [*found, Table("sides", [Column("side"), Column("blocks")], self.sides())]

    def table(self) -> Table:
        """Returns all of them in one table: the part, its name, and empty cells if it has none."""
        last = [] if self.mined.period is None else [self._discounted_head()]
        heads = [Column("part"), Column("name"), Column("z (m)", 3), *columns(self.measures), *last]
        rows: list[list[Cell]] = []
        for name, lines in self._parts():
            rows += [[name, line.name, line.z, *line.sums.cells(self.measures),
                      *([self._discounted_cell(line)] if last else [])] for line in lines]
        empty: list[Cell] = [None] * (len(heads) - 4)
        rows += [["side", name, None, count, *empty] for name, count in self.sides()]
        return Table("report", heads, rows)

    def _parts(self) -> list[tuple[str, list[Line]]]:
        parts = [("bench", self.benches()), ("destination", self.destinations()),
                 ("period", self.periods())]
        return [(name, lines) for name, lines in parts if lines]

    def _discounted_head(self) -> Column:
        return Column(f"discounted value ({self.measures.money_unit})", 2)

    def _discounted_cell(self, line: Line) -> Cell:
        return None if line.discounted is None else self.measures.money(line.discounted)

    # As text

    def text(self) -> str:
        """All parts, with a blank line between."""
        parts = [self._benches_text(), self._destinations_text(), self._periods_text(),
                 self._sides_text()]
        texts = ("".join(f"{line}\n" for line in lines) for lines in parts)
        return "\n".join(filter(None, texts))

    def _benches_text(self) -> Iterator[str]:
        yield f"BENCHES  {'z':>9} {head(self.measures)}"
        for line in self.benches():
            z = "" if line.z is None else shortest(line.z, 3)
            yield f"{line.name:>8} {z:>9} {line.sums.text(self.measures)}"

    def _destinations_text(self) -> Iterator[str]:
        yield f"DESTINATIONS       {head(self.measures)}"
        for number, line in enumerate(self.destinations()):
            yield f"{number} {line.name[:16]:<16} {line.sums.text(self.measures)}"

    def _periods_text(self) -> Iterator[str]:
        lines = self.periods()
        if lines:
            yield f"PERIODS            {head(self.measures)} {'discounted':>19}"
        for line in lines:
            value = with_commas(self.measures.money(line.discounted or 0.0), 2)
            yield f"{line.name:>18} {line.sums.text(self.measures)} {value:>19}"

    def _sides_text(self) -> Iterator[str]:
        yield "SIDES OF THE MODEL"
        counts = dict(self.sides())
        for side in list(counts)[:4]:
            yield f"{side:<8} {with_commas(counts[side]):>9} blocks"
        yield (f"{with_commas(counts['any side'])} of {with_commas(counts['all'])} blocks are at a "
               f"side, and {with_commas(counts['lowest bench'])} on the lowest bench")
