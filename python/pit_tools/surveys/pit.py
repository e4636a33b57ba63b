"""The pit in a survey: its contents by zone, and its cash flow by bench and by nested pit."""
from __future__ import annotations

from dataclasses import dataclass
from decimal import Decimal
from functools import lru_cache
from typing import Iterator, Optional, Sequence

import numpy as np

from pit_tools.errors import UserError
from pit_tools.pits.back import Mined
from pit_tools.pits.nested import nested_pits
from pit_tools.pits.report import Line, Report, head
from pit_tools.surveys.facts import Facts
from pit_tools.texts.number_texts import shortest, with_commas

#: The factors of the price of nested pits; the ultimate pit, of factor 1, is known.
FACTORS = tuple(map(Decimal, ("0.4", "0.6", "0.8")))

#: The largest numbers of cells of all cones, and of arcs without a compiler, for which nested pits
#: are computed. Each is within the ultimate pit, so all take at most a multiple of its time; these
#: bounds are below those of the ultimate pit, so that a survey takes minutes.
MOST_PLACES, MOST_ARCS = 1_000_000_000, 50_000


@dataclass(frozen=True)
class PitParts:
    """The lines of a pit by zone and by bench, as a report has them, each with a total last; and by
    nested pit, the smallest factor first, with what each adds to the pit before it. If nested pits
    are omitted, there are no lines, and `why_not` is the reason."""

    zones: list[Line]
    benches: list[Line]
    nested: list[Line]
    why_not: str


@lru_cache(maxsize=1)
def pit_parts(facts: Facts) -> Optional[PitParts]:
    """Returns the parts of the pit of a survey, or None if it is unknown or has no blocks. Its text
    and its pictures use them, and nested pits are computed once."""
    if facts.pit is None or not facts.pit.any():
        return None
    report = Report(facts, Mined(np.flatnonzero(facts.pit)))
    why_not = _why_no_nested(facts)
    nested: list[Line] = []
    if not why_not:
        try:
            nested = _nested(facts, report, facts.pit)
        except UserError as error:
            why_not = str(error)
    return PitParts(report.zones(), report.benches(), nested, why_not)


def _why_no_nested(facts: Facts) -> str:
    if facts.is_pit_given:
        return "the pit was given by --pit; `pit-tools nested` finds nested pits of the plan"
    if not facts.is_soon_found(MOST_PLACES, MOST_ARCS):
        return "they would take minutes; `pit-tools nested` finds them"
    return ""


def _nested(facts: Facts, report: Report, pit: np.ndarray) -> list[Line]:
    """Returns what each pit adds to that of the factor before. It raises UserError for a plan that
    has no price, or does not belong to the values."""
    smallest = np.full(len(facts), len(FACTORS))
    for number, one in enumerate(nested_pits(facts, FACTORS, pit), 1):
        smallest[one.in_pit] = len(FACTORS) - number
    return report.named(smallest[report.block], [*map(str, FACTORS), "1"])


def zone_lines(facts: Facts) -> Iterator[str]:
    """The pit by zone."""
    parts = pit_parts(facts)
    if parts is None:
        return
    width = max(len(line.name) for line in parts.zones)
    yield f"{'ZONES OF THE PIT':<{max(width, 16)}} {head(facts.measures)}"
    for line in parts.zones:
        yield f"{line.name:<{max(width, 16)}} {line.sums.text(facts.measures)}"


def bench_lines(facts: Facts) -> Iterator[str]:
    """The cash flow by bench of the pit."""
    parts = pit_parts(facts)
    if parts is None:
        return
    yield f"CASH FLOW BY BENCH of the pit, from the top down, undiscounted{_currency(facts)}"
    yield from _flows(facts, f"{'bench':>8} {'z':>9}", [
        f"{line.name:>8} {shortest(line.z or 0.0, 3):>9}" for line in parts.benches[:-1]],
                      parts.benches[:-1])


def nested_lines(facts: Facts) -> Iterator[str]:
    """Yields the cash flow by nested pit, or the reason why there is none."""
    parts = pit_parts(facts)
    if parts is None:
        return
    if parts.why_not:
        yield f"NESTED PITS are omitted: {parts.why_not}"
        return
    yield ("NESTED PITS by factor of the price: what each adds to the pit before it, at the price "
           f"of factor 1, undiscounted{_currency(facts)}")
    yield from _flows(facts, f"{'factor':>8}", [f"{line.name:>8}" for line in parts.nested],
                      parts.nested)


def _currency(facts: Facts) -> str:
    return f", in {facts.measures.currency or 'units of 100 cents'}"


def _flows(facts: Facts, first: str, names: Sequence[str], lines: Sequence[Line]) -> Iterator[str]:
    """Yields ore and waste of each line, their worth and cost, and the sum down to it; below
    `first`, the names of the lines."""
    yield (f"{first} {'ore, t':>15} {'waste, t':>15} {'value of ore':>19} {'cost of waste':>19} "
           f"{'cash flow':>19} {'cumulative':>19}")
    for name, line, total in zip(names, lines, cumulative(lines)):
        sums = line.sums
        money = (f"{with_commas(facts.measures.money(value), 2):>19}"
                 for value in (sums.value_of_ore, sums.cost, sums.value, total))
        yield (f"{name} {with_commas(sums.ore, 1):>15} {with_commas(sums.waste, 1):>15} "
               f"{' '.join(money)}")


def cumulative(lines: Sequence[Line]) -> np.ndarray:
    """Returns the value of all lines down to each, (n,), in units of 100 of the plan's money."""
    return np.cumsum([line.sums.value for line in lines])
