"""A search for good schedules: a start from shells, and better ones by HiGHS in parts of the
program.

Shells are nested pits: ultimate pits with an additional cost per mined tonne. Blocks are placed
shell by shell, each in the first period whose limits it meets. From there all blocks except some
are fixed in their periods repeatedly, and HiGHS places the others; last it solves the complete
program above what was found, which may give a better schedule, and gives a bound.
"""
from __future__ import annotations

import time
from dataclasses import dataclass, replace
from typing import Optional

import numpy as np
from scipy import optimize, sparse

from pit_tools.instances.arrays import Blocks, Problem, arcs_of
from pit_tools.pits.closure import ultimate_pit
from pit_tools.schedules.files import Schedule, check
from pit_tools.schedules.programs import Program, program_of, schedule_of, solve

#: By how much a better schedule must be worth more: a cent.
STEP = 0.01

#: The costs per tonne of the shells, as shares of the cost at which no block has value.
SHELLS = 40

#: The seconds of a part at most, and the blocks that the first part places.
SECONDS_OF_A_PART, BLOCKS_OF_A_PART = 12.0, 60


@dataclass(frozen=True)
class Found:
    """The best schedule of a search, None if there is none, an upper bound of every schedule, None
    if that is unknown, and how the schedule was found."""

    schedule: Optional[Schedule]
    bound: Optional[float]
    how: str


def shells(tonnes: np.ndarray, values: np.ndarray, precedence: sparse.csr_matrix) -> np.ndarray:
    """Returns the number of the smallest shell that contains each block, (n,), from 0 for the
    richest; SHELLS + 1 if none does. The largest is the ultimate pit."""
    dearest = float((values / np.maximum(tonnes, 1)).max(initial=0))
    shell = np.full(len(values), SHELLS + 1)
    for number in range(SHELLS, -1, -1):
        cost = dearest * (1 - number / SHELLS)
        shell[ultimate_pit(np.round(values - cost * tonnes, 2), precedence)] = number
    return shell


def start_of(problem: Problem, precedence: sparse.spmatrix) -> Found:
    """Returns a schedule from shells, None if it violates a lower limit, and the value of the
    ultimate pit, an upper bound of every schedule. The tonnes of a block are what it uses most of,
    or 1."""
    best = problem.values.max(axis=1)
    bound = float(best[ultimate_pit(best, precedence)].sum())
    tonnes = np.zeros(len(best))
    np.maximum.at(tonnes, problem.uses.block, problem.uses.amount)
    schedule = from_shells(problem, np.where(tonnes > 0, tonnes, 1), precedence)
    return Found(schedule if check(schedule, problem, precedence).holds else None, bound, "shells")


def from_shells(problem: Problem, tonnes: np.ndarray, precedence: sparse.spmatrix) -> Schedule:
    """Places blocks shell by shell, predecessors first, each in the first period in which no upper
    limit is exceeded, at the destination of most value that has capacity. Predecessors must follow
    their block, as in files of `pitc`. Lower limits are not considered: `check` reports them."""
    precedence = arcs_of(precedence)
    shell = shells(tonnes, problem.values.max(axis=1), precedence)
    order = [block
             for block in np.lexsort((-np.arange(len(shell)), shell)) if shell[block] <= SHELLS]
    uses = np.stack([problem.use_matrix(resource).toarray()
                     for resource in range(problem.resources)], axis=2)
    preferred = np.argsort(-problem.values, axis=1, kind="stable")
    capacity = _capacity(problem)
    taken = np.zeros(len(shell), dtype=bool)
    lines = []
    for period in range(problem.periods):
        for block in order:
            above = precedence.indices[precedence.indptr[block]:precedence.indptr[block + 1]]
            if taken[block] or not taken[above].all():
                continue
            fitting = [at for at in preferred[block] if (uses[block, at] <= capacity[period]).all()]
            if fitting:
                taken[block] = True
                capacity[period] -= uses[block, fitting[0]]
                lines.append((block, period, fitting[0]))
    table = np.array(lines, dtype=np.int64).reshape(-1, 3)
    return Schedule(table[:, 0], table[:, 1], table[:, 2], np.ones(len(table)))


def _capacity(problem: Problem) -> np.ndarray:
    """Returns what may be used of each resource in each period, (periods, resources)."""
    capacity = np.full((problem.periods, problem.resources), np.inf)
    for limit in problem.limits:
        at = limit.period, limit.resource
        capacity[at] = min(capacity[at], limit.most)
    return capacity


class Search:
    """A search for schedules of a CPIT or a PCPSP, within a number of seconds."""

    def __init__(self, problem: Problem, blocks: Blocks, precedence: sparse.csr_matrix,
                 seconds: float, seed: int = 1):
        self.problem, self.precedence = problem, arcs_of(precedence)
        self.program = program_of(problem, precedence)
        self.places = np.stack([blocks.x, blocks.y, blocks.z], axis=1).astype(float)
        self.chances = np.random.default_rng(seed)
        self.begun, self.seconds = time.monotonic(), seconds
        self.best: Optional[Schedule] = None
        self.worth, self.bound, self.how = -np.inf, np.inf, "none"
        self.tonnes, self.size = blocks.tonnes, float(BLOCKS_OF_A_PART)

    def run(self, *starts: Schedule) -> Found:
        """Uses a tenth of the time for the complete program, three fifths for parts of it, and the
        remainder for the complete program above what was found. Schedules from elsewhere may be
        given as starts."""
        for number, start in enumerate([from_shells(self.problem, self.tonnes, self.precedence),
                                        *starts]):
            self._take(start, "given" if number else "shells")
        self._solve_complete(self.seconds / 10)
        while self._is_open() and self.best is not None and self._left() > 0.3 * self.seconds:
            self._part(self.best)
        if self._is_open():
            self._solve_complete(self._left())
        bound = None if np.isinf(self.bound) else max(self.bound, self.worth)
        return Found(self.best, bound, self.how)

    def _left(self) -> float:
        return self.begun + self.seconds - time.monotonic()

    def _is_open(self) -> bool:
        return self._left() > 1 and self.worth < self.bound - STEP

    def _take(self, schedule: Schedule, how: str) -> bool:
        """Keeps a schedule that is better and holds."""
        worth = schedule.worth(self.problem)
        if worth < self.worth + STEP or not check(schedule, self.problem, self.precedence).holds:
            return False
        self.how = (how if self.best is None or how == "given"
                    else f"{self.how.split(', then')[0]}, then {how}")
        self.best, self.worth = schedule, worth
        return True

    def _above(self) -> Program:
        """The program of schedules that are worth more than the best so far."""
        if self.best is None:
            return self.program
        scale = max(1.0, float(np.abs(self.program.objective).max(initial=1)))
        row = sparse.csr_matrix(self.program.objective / scale)
        return replace(self.program, rows=sparse.vstack([self.program.rows, row]).tocsr(),
                       lower=np.append(self.program.lower, (self.worth + STEP) / scale),
                       upper=np.append(self.program.upper, np.inf))

    def _solve_complete(self, seconds: float) -> None:
        """Solves the complete program: if nothing is above the best schedule, that is its bound."""
        result = solve(self._above(), max(1.0, seconds))
        if result.values is not None:
            self._take(schedule_of(result.values, self.problem, self.program.names),
                       "the complete program")
        if result.status == "none" and self.best is not None:
            self.bound = self.worth
        elif result.bound is not None:
            self.bound = min(self.bound, max(result.bound, self.worth))

    def _part(self, best: Schedule) -> None:
        """Places some blocks again while all others stay; the next part has more of them if this
        one was finished, and fewer if its time was up."""
        free = self._some(best)
        seconds = min(SECONDS_OF_A_PART, max(1.0, self._left()))
        result = solve(self._above(), seconds, bounds=self._held(best, free))
        better = result.values is not None and self._take(
            schedule_of(result.values, self.problem, self.program.names), "parts of the program")
        if not better:
            self.size = max(20, min(len(self.places),
                                    self.size * (0.9 if result.status == "stopped" else 1.05)))

    def _some(self, best: Schedule) -> np.ndarray:
        """Returns which blocks are placed again, bool (n,): those about one of them, or those of
        two successive periods and about a block."""
        count = int(self.size)
        centre = self.places[self.chances.integers(len(self.places))]
        weights = self.chances.uniform(0.5, 2.0, 3)
        off = ((np.abs(self.places - centre) * weights).sum(axis=1)
               + self.chances.uniform(0, 1, len(self.places)))
        free = np.zeros(len(self.places), dtype=bool)
        if self.problem.periods > 1 and self.chances.integers(2):
            period = self.chances.integers(self.problem.periods - 1)
            free[best.block[(best.period == period) | (best.period == period + 1)]] = True
            count //= 2
        free[np.argsort(off)[:count]] = True
        return free

    def _held(self, best: Schedule, free: np.ndarray) -> optimize.Bounds:
        """Bounds of the variables that hold all other blocks in their periods; destinations stay
        free."""
        names = self.program.names
        mined = best.mined(names.blocks, names.periods)
        lower, upper = np.zeros(names.count), np.ones(names.count)
        held = np.repeat(~free, names.periods)
        for first, table in ((0, mined.cumsum(axis=1)), (names.first_x, mined)):
            at = first + np.flatnonzero(held)
            lower[at] = upper[at] = np.rint(table).ravel()[held]
        return optimize.Bounds(lower, upper)
