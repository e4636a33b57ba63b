"""Checks of a plan's destinations: values that are in range, but often wrong; for `plan` and
`survey`."""
from __future__ import annotations

from typing import Callable, Iterator, Sequence

from pit_tools.plans.file import Destination

#: A recovery in percent that was taken for one per mille is at most this, per mille.
LEAST_SHARE = 100

#: Payable shares and selling costs make prices of one metal differ by less than this.
PRICES_APART = 2.0


def destination_warnings(destinations: Sequence[Destination], is_return: bool,
                         cost_text: Callable[[float], str]) -> Iterator[str]:
    """Yields a line for each warning; `is_return` is true if grades are net smelter returns, and
    `cost_text` returns cents of the plan as a text of money."""
    dumps = [one for one in destinations if one.kind == "dump"]
    cheapest = min(destinations, key=lambda one: one.cost)
    if not dumps:
        yield (f"there is no dump: waste goes to {cheapest.name}, for {cost_text(cheapest.cost)} "
               "per tonne, so the pit is too small")
    prices = [one.price for one in destinations if one.bands and one.price]
    if prices and max(prices) >= PRICES_APART * min(prices):
        yield ("the price of metal differs by destination: "
               f"{', '.join(cost_text(price) for price in sorted(set(prices)))} per kilogram")
    for one in destinations:
        yield from _of_one(one, dumps, is_return, cost_text)


def _of_one(one: Destination, dumps: Sequence[Destination], is_return: bool,
            cost_text: Callable[[float], str]) -> Iterator[str]:
    shares = [share for _, share in one.bands]
    if shares and max(shares) >= 1000 and not is_return:
        yield f"{one.name} recovers {max(shares) / 10:g} %: a recovery is per mille in a plan"
    if shares and 0 < max(shares) <= LEAST_SHARE:
        yield (f"{one.name} recovers {max(shares) / 10:g} % at most: is a recovery in percent, or "
               "in another cell of the record?")
    if shares != sorted(shares):
        yield (f"{one.name} recovers less of richer rock: "
               f"{', '.join(f'{share / 10:g} %' for share in shares)}")
    if one.cost == 0:
        yield f"a tonne costs nothing at {one.name}"
    elif one.bands and dumps and one.cost <= min(dump.cost for dump in dumps):
        yield (f"a tonne costs {cost_text(one.cost)} at {one.name}, no more than at "
               f"{min(dumps, key=lambda dump: dump.cost).name}: a cost is the total cost of a "
               "tonne that goes there, with mining and haulage (--mining adds those to each)")
