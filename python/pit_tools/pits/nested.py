"""Nested pits: the ultimate pits of a plan at several multiples of its price."""
from __future__ import annotations

from dataclasses import dataclass
from decimal import Decimal
from typing import Iterator, Optional, Sequence

import numpy as np

from pit_tools import progress
from pit_tools.errors import UserError, quoted
from pit_tools.files.tables import Column, Table
from pit_tools.instances.valuation import values_of
from pit_tools.pits.closure import pit_by_cones
from pit_tools.pits.report import Sums, columns, head, pit_sums
from pit_tools.plans.file import Plan, plan_of
from pit_tools.plans.variations import varied
from pit_tools.surveys.facts import Facts
from pit_tools.texts.decimals import decimal_of
from pit_tools.texts.number_texts import with_commas
from pit_tools.texts.units import POUND, TROY_OUNCE, Measures, is_money_a_tonne

#: Decimals of a factor.
DECIMALS = 6


@dataclass(frozen=True)
class NestedPit:
    """The ultimate pit at a multiple of the plan's price, bool (n,), and its contents: its blocks
    go where they are worth most at the plan's price itself."""

    factor: Decimal
    in_pit: np.ndarray
    sums: Sums

    @property
    def name(self) -> str:
        """The factor as names of files have it."""
        return f"{self.factor.normalize():f}"


def factors_of(words: str) -> list[Decimal]:
    """Factors of a price, as 0.5,0.75,1, in rising order.

    Raises UserError if one is no number above 0, has too many decimals, or is repeated.
    """
    found = []
    for word in words.split(","):
        factor = decimal_of(word, "--factors")
        if not 0 < factor <= 1000:
            raise UserError(f"--factors: {quoted(word)} must be above 0 and up to 1000")
        if factor != round(factor, DECIMALS):
            raise UserError(f"--factors: {quoted(word)} has more than {DECIMALS} decimals")
        found.append(factor)
    if len(set(found)) < len(found):
        raise UserError(f"--factors: {quoted(words)} has a factor twice")
    return sorted(found)


def priced(plan: Plan, factor: Decimal) -> Plan:
    """Returns the plan at a multiple of its price, rounded as `vary` rounds it.

    Raises UserError if it has no price.
    """
    return plan_of(varied(plan.text(), plan.name, [("price", f"x{factor:f}")]))


def nested_pits(facts: Facts, factors: Sequence[Decimal],
                within: Optional[np.ndarray] = None) -> Iterator[NestedPit]:
    """Returns the pits at these factors, which rise, the largest first. Each is within the pit
    before it, and the first within the pit of a larger factor, bool (n,), if one is known.

    Raises UserError if the values of the instance are not the plan's, so that prices do not
    determine them.
    """
    if facts.strange_values:
        raise UserError(f"{with_commas(facts.strange_values)} values of the instance differ from "
                        "this plan's, so they do not follow from its prices")
    plan, blocks = facts.plan, facts.blocks
    ids = np.arange(len(blocks)) if within is None else np.flatnonzero(within)
    for factor in reversed(factors):
        progress.step(f"factor {factor}")
        values = values_of(priced(plan, factor), blocks.taken(ids)).max(axis=1) / 100
        ids = ids[pit_by_cones(values, blocks.taken(ids), plan)]
        in_pit = np.zeros(len(blocks), dtype=bool)
        in_pit[ids] = True
        yield NestedPit(factor, in_pit, pit_sums(facts, in_pit))


def text(pits: Sequence[NestedPit], plan: Plan, measures: Measures) -> str:
    """Yields a line for each pit; what factor 1 is; and the price by which ore and values are
    reported."""
    lines = [f"NESTED PITS {head(measures)}"]
    lines += [f"{pit.name:>11} {pit.sums.text(measures)}" for pit in pits]
    lines += [f"factor 1 is {message}" for message in _prices(plan, measures)]
    lines.append("ore, waste and values of all pits are those at factor 1")
    return "".join(line + "\n" for line in lines)


def _prices(plan: Plan, measures: Measures) -> list[str]:
    """Returns what factor 1 is: the prices of the plan, each with the destinations that have it."""
    if is_money_a_tonne(measures.grade_unit):
        return ["the net smelter return that was imported"]
    names: dict[int, list[str]] = {}
    for one in plan.destinations:
        if one.bands:
            names.setdefault(one.price, []).append(one.name)
    return [_price_text(measures.money(price / 100), measures)
            + (f", at {' and '.join(those)}" if len(names) > 1 else "")
            for price, those in names.items()]


def _price_text(kilogram: float, measures: Measures) -> str:
    """Returns the price of a kilogram of metal in the usual units."""
    ounce, pound = (kilogram * float(kilograms) for kilograms in (TROY_OUNCE / 1000, POUND))
    return (f"{with_commas(kilogram, 2)}{measures.unit} per kilogram of metal, "
            f"{with_commas(ounce, 2)} per ounce, {with_commas(pound, 2)} per pound")


def table(pits: Sequence[NestedPit], measures: Measures) -> Table:
    """A row for each pit."""
    rows = [[float(pit.factor), *pit.sums.cells(measures)] for pit in pits]
    return Table("nested pits", [Column("factor", DECIMALS), *columns(measures)], rows)
