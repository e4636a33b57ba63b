"""The worth of each zone's rock by a plan: the tonnes that pay, their grade and value, before any
pit is sought."""
from __future__ import annotations

import numpy as np

from pit_tools.instances.arrays import Blocks
from pit_tools.instances.valuation import values_of
from pit_tools.inventories.holdings import Holdings
from pit_tools.plans.file import Plan
from pit_tools.texts.number_texts import with_commas
from pit_tools.texts.units import Measures


def worth_lines(plan: Plan, blocks: Blocks, held: Holdings, measures: Measures) -> list[str]:
    """A line for each zone and one of all; the rows of `held` are these blocks."""
    worth = values_of(plan, blocks).max(axis=1) / 100
    width = max(len("zone"), *map(len, held.names))
    unit = f"mean {measures.grade_unit}"
    lines = [f"{'zone':{width}} {'tonnes':>15} {unit:>11} {'tonnes that pay':>17} {unit:>11} "
             f"{measures.in_money('their value'):>22}"]
    for zone in [*held.names, ""]:
        rows = held.rows_of(zone)
        pays = rows[worth[rows] > 0]
        cells = [f"{with_commas(tonnes.sum()):>{wide}} {_mean(held, taken, measures):>11.4f}"
                 for taken, wide in ((rows, 15), (pays, 17)) for tonnes in [held.tonnes[taken]]]
        value = measures.money(float(worth[pays].sum()))
        lines.append(f"{zone or 'all':{width}} {cells[0]} {cells[1]} {with_commas(value, 2):>22}")
    return lines


def _mean(held: Holdings, rows: np.ndarray, measures: Measures) -> float:
    tonnes = held.tonnes[rows]
    return measures.grade(float(tonnes @ held.grade[rows] / tonnes.sum())) if tonnes.any() else 0.0
