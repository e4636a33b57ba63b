"""Bounds of CPIT and PCPSP at a million blocks: prices of limits, by closures of largest value.

If limits have prices, the relaxation has no limits, and is a closure of blocks by the ends of
periods, which pseudoflow finds (closure.py). The smallest value over all prices is the relaxation's
(certificates.py has the reason). Prices are found as Bienstock and Zuckerberg (2010) do: blocks
that all closures so far take at the same times are one group, and the relaxation of groups is a
program small enough for HiGHS. Its value is at most the relaxation's, its prices determine the next
closure, and that one splits groups, until both values meet. Which destination is the best at prices
is a pattern; the program mixes the patterns of each period.
"""
from __future__ import annotations

import time
from dataclasses import dataclass, replace
from typing import Optional

import numpy as np
from scipy import optimize, sparse

from pit_tools import progress
from pit_tools.instances.arrays import Problem, arcs_of
from pit_tools.pits.closure import closure_of_periods, ultimate_pit
from pit_tools.schedules import certificates
from pit_tools.schedules.certificates import PRICE_BITS, Certificate, Factors, NotProved
from pit_tools.texts.number_texts import multiples_of

#: The share of the value by which bounds from above and below may differ in the end.
NEAR = 1e-10

#: Groups of the program at most, the patterns of a period, and the pits that make the first groups.
MOST_GROUPS, MOST_PATTERNS, FIRST_PITS = 600, 16, 16

#: Variables of the program at most, in about: of groups and periods, and of patterns.
MOST_COLUMNS = 30_000

#: The most steps of a search, and the most without a smaller bound.
MOST_STEPS, MOST_IDLE = 300, 12

#: The cost of a limit that cannot be met, as a multiple of the value of all blocks above 0.
PENALTY = 100.0


@dataclass(frozen=True)
class _Model:
    """The numbers of a problem as floats, for some of its blocks."""

    values: np.ndarray  #: (n, destinations)
    uses: np.ndarray  #: of resources that have limits, (resources, n, destinations)
    discounts: np.ndarray  #: (periods,)
    resource: np.ndarray  #: of each limit: its place in uses
    period: np.ndarray
    least: np.ndarray
    most: np.ndarray
    precedence: sparse.csr_matrix

    @classmethod
    def of(cls, problem: Problem, precedence: sparse.csr_matrix) -> _Model:
        limits = [limit for limit in problem.limits if limit.ends]
        resources = sorted({limit.resource for limit in limits})
        uses = np.zeros((len(resources), *problem.values.shape))
        for at, resource in enumerate(resources):
            uses[at] = problem.use_matrix(resource).toarray()
        return cls(problem.values, uses, problem.discounts(),
                   np.array([resources.index(limit.resource) for limit in limits], dtype=int),
                   np.array([limit.period for limit in limits], dtype=int),
                   np.array([limit.least for limit in limits]),
                   np.array([limit.most for limit in limits]), precedence)

    @property
    def periods(self) -> int:
        return len(self.discounts)

    def within_the_pit(self) -> _Model:
        """Removes the blocks outside the ultimate pit, if none of them is ever mined in the
        relaxation: no limit is from below, and no use is below 0."""
        if np.isfinite(self.least).any() or (self.uses < 0).any():
            return self
        kept = ultimate_pit(self.values.max(axis=1), self.precedence)
        return replace(self, values=self.values[kept], uses=self.uses[:, kept],
                       precedence=arcs_of(self.precedence[kept][:, kept]))

    def at_prices(self, prices: np.ndarray) -> tuple[np.ndarray, np.ndarray]:
        """Returns the factors of blocks that are mined in a period, (periods, n), and their
        destinations, at the price of each limit."""
        counts = np.empty((self.periods, len(self.values)))
        best = np.zeros(counts.shape, dtype=np.uint8)
        for period, discount in enumerate(self.discounts):
            each = self.values * discount
            for limit in np.flatnonzero((self.period == period) & (prices != 0)):
                each -= prices[limit] * self.uses[self.resource[limit]]
            if each.shape[1] > 1:
                best[period] = each.argmax(axis=1)
            counts[period] = each.max(axis=1)
        return counts, best

    def paid(self, prices: np.ndarray) -> float:
        """Returns the cost of limits that are fully used: the upper end at a price above 0, else
        the lower."""
        ends = np.where(prices > 0, self.most, self.least)
        return float((prices[prices != 0] * ends[prices != 0]).sum())


@dataclass(frozen=True)
class Found:
    """The smallest bound of a search, in units of 100 cents, its prices of the limits, and the
    lower end of the bound for any prices: None if that is unknown."""

    bound: float
    prices: np.ndarray
    below: Optional[float]


class Search:
    """A search for prices of the limits that give the smallest bound."""

    def __init__(self, problem: Problem, precedence: sparse.csr_matrix,
                 seconds: Optional[float] = None):
        self.end = np.inf if seconds is None else time.monotonic() + seconds
        self.model = _Model.of(problem, arcs_of(precedence)).within_the_pit()
        n = len(self.model.values)
        self.group = np.zeros(n, dtype=np.int64)
        #: A number that does not fall from a block to one that waits for it, and its groups'.
        self.order = np.zeros(1, dtype=np.int64)
        self.patterns = [[self.model.values.argmax(axis=1).astype(np.uint8)]
                         for _ in range(self.model.periods)]
        #: The unit of the program.
        self.unit = max(float(self.model.values.max(axis=1, initial=0).sum()),
                        float(np.abs(self.model.values).max(initial=0)), 1e-9)
        self.levels = np.zeros((1, self.model.periods))
        self.best = Found(np.inf, np.zeros(len(self.model.period)), None)

    def run(self) -> Found:
        """Runs steps until no prices give a smaller bound, or the time is up."""
        if not len(self.model.values):
            return replace(self.best, bound=0.0)
        self._closure(self.best.prices)
        if len(self.model.period):
            self._split_by_pits()
            idle = 0
            for step in range(MOST_STEPS):
                begun, bound = time.monotonic(), self.best.bound
                progress.report(f"step {step + 1}, bound {bound:.2f}")
                if not self._step():
                    break
                idle = 0 if self.best.bound < bound else idle + 1
                now = time.monotonic()
                if idle > MOST_IDLE or now + (now - begun) > self.end:
                    break
        return self.best

    def _is_near(self) -> bool:
        below = self.best.below
        return below is not None and self.best.bound - below <= NEAR * abs(self.best.bound)

    def _step(self) -> bool:
        """Returns new prices of the groups, and the closure at these prices; whether there may be
        better ones."""
        result = _Master(self).solve(max(1.0, min(self.end - time.monotonic(), 1e6)))
        if result is None:
            return False
        prices, value, self.levels = result
        below = self.best.below
        self.best = replace(self.best, below=value if below is None else max(below, value))
        return not self._is_near() and self._closure(prices) and not self._is_near()

    def _closure(self, prices: np.ndarray) -> bool:
        """Adds the closure at prices; returns whether it splits a group or has a new pattern."""
        model = self.model
        counts, best = model.at_prices(prices)
        steps = counts.copy()
        steps[:-1] -= counts[1:]
        first = closure_of_periods(_integers(steps), model.precedence).first
        mined = np.flatnonzero(first < model.periods)
        bound = model.paid(prices) + float(counts[first[mined], mined].sum())
        if bound < self.best.bound:
            self.best = replace(self.best, bound=bound, prices=prices)
        is_new = self._take_patterns(best)
        return self._split(first, model.periods) or is_new

    def _take_patterns(self, best: np.ndarray) -> bool:
        is_new = False
        for known, pattern in zip(self.patterns, best):
            if not any(np.array_equal(one, pattern) for one in known):
                known.append(pattern)
                del known[1:-MOST_PATTERNS]
                is_new = True
        return is_new

    def _split(self, first: np.ndarray, end: int) -> bool:
        """Splits groups by a number from 0 to `end` that does not fall from a block to its
        successors; returns whether there are more groups then. If there are too many, those are
        joined that the program mines at the same times."""
        before = len(self.order)
        keys, group = np.unique(self.group * (end + 1) + first, return_inverse=True)
        most = min(MOST_GROUPS, MOST_COLUMNS // self.model.periods)
        if len(keys) > most and len(self.levels) == before:
            levels, joined = np.unique(np.round(self.levels, 6), axis=0, return_inverse=True)
            self.order = -levels.sum(axis=1)
            keys, group = np.unique(joined[self.group] * (end + 1) + first, return_inverse=True)
        self.group = group
        # By ranks, since the numbers themselves would grow beyond what floats distinguish.
        order = np.unique(self.order, return_inverse=True)[1]
        self.order = order[keys // (end + 1)] * (end + 1) + keys % (end + 1)
        return len(self.order) != before

    def _split_by_pits(self) -> None:
        """The first groups: between nested pits, for which each share of a limit costs more."""
        model = self.model
        at = np.arange(len(model.values)), model.values.argmax(axis=1)
        value, share = model.values[at], np.zeros(len(model.values))
        for resource, uses in enumerate(model.uses):
            capacity = model.most[(model.resource == resource) & np.isfinite(model.most)].sum()
            share += uses[at] / capacity if capacity > 0 else 0.0
        whole = np.ones(len(value), dtype=bool)
        pits = [(~whole, 0.0, 0.0), (whole, value.sum(), share.sum())]
        closed: set[tuple[float, float]] = set()
        for _ in range(FIRST_PITS):
            gaps = [(min(outer[2], 1.5) - inner[2], at)
                    for at, (inner, outer) in enumerate(zip(pits, pits[1:]))
                    if (inner[2], outer[2]) not in closed and inner[2] < min(outer[2], 1.5)]
            if not gaps or time.monotonic() > self.end:
                break
            inner, outer = pits[max(gaps)[1]:][:2]
            cost = (outer[1] - inner[1]) / (outer[2] - inner[2])
            pit = closure_of_periods(_integers(value - cost * share)[None],
                                     model.precedence).first == 0
            pit = (pit | inner[0]) & outer[0]
            found = (pit, float(value[pit].sum()), float(share[pit].sum()))
            if inner[2] < found[2] < outer[2]:
                pits.insert(max(gaps)[1] + 1, found)
            else:
                closed.add((inner[2], outer[2]))
        count = np.zeros(len(value), dtype=np.int64)
        for pit, _, _ in pits[1:-1]:
            count += ~pit
        self._split(count, len(pits))


def _integers(counts: np.ndarray) -> np.ndarray:
    """Returns numbers as integers, int64, so fine that 64 bits represent their sum."""
    size = float(np.abs(counts).sum())
    scale = 2.0**min(200, np.floor(58 - np.log2(size))) if size else 1.0
    return np.rint(counts * scale).astype(np.int64)


class _Master:
    """The relaxation of groups, of which each is mined as one block: w of each group and period,
    and then for each pattern of a period how much of the group is mined by it."""

    def __init__(self, search: Search):
        self.model, self.count = search.model, len(search.order)
        self.w = np.arange(self.count * self.model.periods).reshape(self.model.periods, self.count)
        self.columns = self.w.size
        self.objective = [np.zeros(self.w.size)]
        self.uses: list[tuple[int, np.ndarray, np.ndarray]] = []
        self.unit = search.unit
        shares = [self._add_period(period, search) for period in range(self.model.periods)]
        self.equal_rows = self._rows(shares)
        self.arcs = self._arcs(search)

    def _add_period(self, period: int, search: Search) -> list[np.ndarray]:
        """Adds the worths and uses of groups in a period for each pattern; returns the places of
        these variables, (groups,), or -1 for a pattern that equals an earlier one of a group."""
        model = self.model
        known: list[np.ndarray] = []
        places: list[np.ndarray] = []
        at = np.arange(len(search.group))
        # The newest patterns come first, as far as the program has capacity.
        first, *others = search.patterns[period]
        for pattern in (first, *reversed(others)):
            sums = [np.bincount(search.group, part[at, pattern], self.count)
                    for part in (model.values, *model.uses)]
            table = np.stack(sums)
            is_new = np.ones(self.count, dtype=bool)
            for one in known:
                is_new &= (one != table).any(axis=0)
            if len(known) > 2 and self.columns + is_new.sum() > self.w.size + (
                    MOST_COLUMNS * (period + 1) // model.periods):
                break
            known.append(table)
            place = np.full(self.count, -1)
            place[is_new] = self.columns + np.arange(is_new.sum())
            self.columns += int(is_new.sum())
            self.objective.append(table[0, is_new] * model.discounts[period])
            for limit in np.flatnonzero(model.period == period):
                self.uses.append((limit, place[is_new],
                                  table[1 + model.resource[limit], is_new]))
            places.append(place)
        return places

    def _rows(self, shares: list[list[np.ndarray]]) -> sparse.csr_matrix:
        """Adds rows: what is mined in a period by all patterns is w less w of the period before."""
        parts = []
        for period, places in enumerate(shares):
            row = self.w[period]
            parts += [(row, row, -1.0)] + ([(row, self.w[period - 1], 1.0)] if period else [])
            parts += [(row[place >= 0], place[place >= 0], 1.0) for place in places]
        return self._matrix(parts, self.w.size)

    def _matrix(self, parts: list[tuple[np.ndarray, np.ndarray, float]],
                rows: int) -> sparse.csr_matrix:
        row, column = (np.concatenate([part[at] for part in parts]) for at in (0, 1))
        factor = np.concatenate([np.full(len(part[0]), part[2]) for part in parts])
        return sparse.csr_matrix((factor, (row, column)), shape=(rows, self.columns))

    def _arcs(self, search: Search) -> sparse.csr_matrix:
        """Adds rows: a group is mined no more than its predecessor, by the end of each period."""
        arcs = self.model.precedence
        rows = np.repeat(search.group, np.diff(arcs.indptr))
        keys = rows * self.count + search.group[arcs.indices]
        is_there = np.zeros(self.count**2, dtype=bool)
        is_there[keys] = True
        lower, upper = _fewer(is_there.reshape(self.count, self.count), search.order)
        row = np.arange(len(lower) * self.model.periods).reshape(self.model.periods, len(lower))
        parts = [part for period in range(self.model.periods)
                 for part in ((row[period], self.w[period][lower], 1.0),
                              (row[period], self.w[period][upper], -1.0))]
        return self._matrix(parts, row.size)

    def solve(self, seconds: float) -> Optional[tuple[np.ndarray, float, np.ndarray]]:
        """Returns the prices of the limits, the worths of the groups, and w of each group and
        period; None if HiGHS did not end in time."""
        model, scale = self.model, self.unit
        rows, ends, slack, which = [], [], [], []
        for limit, (least, most) in enumerate(zip(model.least, model.most)):
            used = [(place, amount) for one, place, amount in self.uses if one == limit]
            place, amount = (np.concatenate(part) for part in zip(*used))
            for end, sign in ((most, 1.0), (least, -1.0)):
                if np.isfinite(end):
                    size = sign / max(abs(end), float(np.abs(amount).max(initial=0)), 1e-9)
                    rows.append(sparse.csr_matrix((amount * size, (np.zeros(len(place), int),
                                                                   place)), (1, self.columns)))
                    ends.append(end * size)
                    which.append((limit, size))
                    slack.append(end * sign < 0)
        slacks = np.flatnonzero(slack)
        extra = sparse.csr_matrix((-np.ones(len(slacks)), (slacks, np.arange(len(slacks)))),
                                  (len(rows), len(slacks)))
        none = sparse.csr_matrix((self.arcs.shape[0], len(slacks)))
        found = optimize.linprog(
            np.concatenate([*(-part / scale for part in self.objective),
                            np.full(len(slacks), PENALTY)]),
            sparse.vstack([sparse.hstack([sparse.vstack(rows), extra]),
                           sparse.hstack([self.arcs, none])]).tocsr(),
            np.concatenate([ends, np.zeros(self.arcs.shape[0])]),
            sparse.hstack([self.equal_rows,
                           sparse.csr_matrix((self.w.size, len(slacks)))]).tocsr(),
            np.zeros(self.w.size),
            bounds=np.stack([np.zeros(self.columns + len(slacks)),
                             np.append(np.ones(self.columns), np.full(len(slacks), np.inf))], 1),
            method="highs", options={"time_limit": seconds})
        if found.status != 0:
            return None
        prices = np.zeros(len(model.period))
        duals = np.maximum(-found.ineqlin.marginals[:len(rows)], 0)
        for (limit, size), dual in zip(which, duals):
            prices[limit] += dual * size * scale
        value = -found.fun * scale if not found.x[self.columns:].any() else -np.inf
        return prices, value, found.x[:self.w.size].reshape(self.w.shape).T


def _fewer(is_there: np.ndarray, order: np.ndarray) -> tuple[np.ndarray, np.ndarray]:
    """Returns the arcs among groups, (groups, groups), that no others imply: the groups, and their
    predecessors, whose number in `order` is less."""
    np.fill_diagonal(is_there, False)
    far = np.zeros_like(is_there)
    kept = []
    rank = np.empty(len(order), dtype=int)
    rank[np.argsort(order, kind="stable")] = np.arange(len(order))
    for group in np.argsort(order, kind="stable"):
        above = np.flatnonzero(is_there[group])
        for one in above[np.argsort(-rank[above])]:
            if not far[group, one]:
                kept.append((group, one))
                far[group] |= far[one]
                far[group, one] = True
    lower, upper = np.array(kept, dtype=int).reshape(-1, 2).T
    return lower, upper


def certified(problem: Problem, precedence: sparse.csr_matrix, fewer: sparse.csr_matrix,
              prices: np.ndarray, sums: tuple[str, str] = ("", "")) -> Certificate:
    """Returns the certificate of the bound that prices of the limits give. `fewer` are the arcs
    that no others of `precedence` imply.

    Raises NotProved if numbers of the instance are too large.
    """
    places = _places(precedence, fewer)
    all_prices = np.zeros(len(problem.limits))
    all_prices[[bool(limit.ends) for limit in problem.limits]] = prices
    _, decimals = multiples_of(problem.uses.amount, range(7))
    _, of_values = multiples_of(problem.values)
    size = float(np.abs(problem.values).max(axis=1, initial=0).sum()) * 10**of_values
    bits = int(np.clip(np.floor(57 - np.log2(max(size, 1))), 0, 40))
    for bits in range(bits, -1, -4):
        unit = 2.0**(PRICE_BITS + bits) * 10.0**of_values
        whole = [int(round(price * unit / 10**decimals)) for price in all_prices]
        most, least = (tuple(max(sign * price, 0) for price in whole) for sign in (1, -1))
        factors = Factors(problem, bits, most, least)
        try:
            values = np.stack(list(factors.by_period()))
            flow = closure_of_periods(values, fewer, with_flows=True)
            del values
            one = Certificate(problem.kind, bits, 0, most, least, flow.first.astype(np.uint8),
                              [places[arcs] for arcs in flow.arcs], flow.flows, flow.later,
                              flow.later_flows, sums)
            bound, pits = certificates.evaluated(one, problem, precedence)
        except NotProved:
            if bits < 4:
                raise
            continue
        assert bound == pits, (bound, pits)
        return replace(one, bound=bound)
    raise AssertionError


def _places(precedence: sparse.csr_matrix, fewer: sparse.csr_matrix) -> np.ndarray:
    """The place in a matrix of each arc of another that has some of its arcs."""
    if precedence.nnz == fewer.nnz:
        return np.arange(fewer.nnz)
    n = precedence.shape[0]
    keys = [np.repeat(np.arange(n, dtype=np.int64), np.diff(arcs.indptr)) * n + arcs.indices
            for arcs in (precedence, fewer)]
    return np.searchsorted(*keys)
