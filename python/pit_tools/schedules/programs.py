"""Linear and integer programs of UPIT, CPIT and PCPSP: as sparse matrices, and solved by HiGHS.

Variables are what is mined of a block by the end of a period, w_b_t, so that an arc is one row of
two terms in each period; and those of a PCPSP the shares that go to a destination in a period,
y_b_d_t. In a CPIT and a PCPSP a block is mined in one period: there x_b_t, the share of it mined in
a period, is a variable too and is 0 or 1, since limits on x give solvers more cuts than limits on
differences of w. The relaxations have no x. A UPIT has one variable per block, x_b, which is 0 or 1
by itself.
"""
from __future__ import annotations

from dataclasses import dataclass
from functools import partial
from typing import Optional, Sequence, Union

import numpy as np
from scipy import optimize, sparse

from pit_tools.errors import UserError
from pit_tools.instances.arrays import Problem, UltimatePit, arcs_of
from pit_tools.schedules.ended import within
from pit_tools.schedules.files import Schedule, schedule_of_shares
from pit_tools.texts.number_texts import Part, joined, laid, spread, equal_parts

#: The meanings of rows: what is mined by the end of a period, of a block and of its predecessor;
#: what is mined in a period; what goes to destinations; the limits, in their order; and that a
#: block is mined once.
ENDS, ARCS, PERIODS, SHARES, LIMITS, ONCE = ROWS = ("ends", "arcs", "periods", "shares", "limits",
                                                    "once")


@dataclass(frozen=True)
class Program:
    """Maximise objective . v, with lower <= rows v <= upper, 0 <= v <= 1, and v an integer if
    `is_integer`. `names.list()` has the names of the variables."""

    title: str
    objective: np.ndarray  #: (variables,)
    rows: sparse.csr_matrix  #: (rows, variables)
    lower: np.ndarray  #: (rows,), may be -inf
    upper: np.ndarray  #: (rows,), may be inf
    is_integer: np.ndarray  #: bool (variables,)
    names: "Names"
    kinds: np.ndarray  #: the meaning of each row, by its place in ROWS, int8 (rows,)

    def rows_of(self, kind: str) -> np.ndarray:
        """Returns the places of the rows of a kind: `ends`, `arcs`, `periods`, `shares`, `limits`,
        in the order of the problem's limits, or `once`.

        Raises ValueError for any other kind.
        """
        return np.flatnonzero(self.kinds == ROWS.index(kind))


class Names:
    """The names and places of variables: x12; or w12_3 of block 12 by the end of period 3, x12_3 of
    block 12 in period 3, and y12_1_3 of its share at destination 1 in period 3."""

    def __init__(self, blocks: int, periods: int = 0, destinations: int = 0, has_x: bool = False,
                 has_w: bool = True):
        self.blocks, self.periods, self.destinations = blocks, periods, destinations
        self.has_x, self.has_w = has_x, has_w

    @property
    def first_x(self) -> int:
        """The place of the first x."""
        return self.blocks * self.periods if self.has_w else 0

    @property
    def first_y(self) -> int:
        """The place of the first y."""
        return self.first_x + (self.blocks * self.periods if self.has_x else 0)

    @property
    def count(self) -> int:
        """How many variables there are."""
        if not self.periods:
            return self.blocks
        return self.first_y + self.blocks * self.destinations * self.periods

    def y(self, block: np.ndarray, destination: Union[int, np.ndarray], period: int) -> np.ndarray:
        """The places of shares."""
        return self.first_y + (block * self.destinations + destination) * self.periods + period

    def mined(self, block: np.ndarray, period: int) -> "list[tuple[np.ndarray, float]]":
        """Returns the places of the variables that make up what is mined of blocks in a period,
        with their signs."""
        at = block.astype(np.int64) * self.periods + period
        if self.has_x:
            return [(self.first_x + at, 1.0)]
        return [(at, 1.0), (at - 1, -1.0)] if period else [(at, 1.0)]

    def parts(self, places: np.ndarray) -> "list[Part]":
        """The names of variables by their places, as parts of lines."""
        if not self.periods:
            return [b"x", *equal_parts(places)]
        is_y, is_x = places >= self.first_y, (places >= self.first_x) & (places < self.first_y)
        block, period = np.divmod(places - self.first_y * is_y - self.first_x * is_x, self.periods)
        some = np.flatnonzero(is_y)
        block[some], destination = np.divmod(block[some], max(1, self.destinations))
        letter = np.frombuffer(b"wxy", np.uint8)[is_x + 2 * is_y]
        parts: "list[Part]" = [letter, *equal_parts(block), b"_"]
        if len(some):
            parts.append(spread(laid([*equal_parts(destination), b"_"], len(some)), some,
                                len(places)))
        return [*parts, *equal_parts(period)]

    def list(self) -> "list[str]":
        """The names of all variables, by their places."""
        lines = joined([*self.parts(np.arange(self.count)), b"\n"], self.count)
        return lines.decode("ascii").split()


def program_of_upit(upit: UltimatePit, precedence: sparse.spmatrix) -> Program:
    """The ultimate pit as a linear program: x_b <= x_p for each predecessor p of b, arcs (n, n), a
    matrix of any format or an array. Its value is in units of 100 cents."""
    arcs, n = arcs_of(precedence), len(upit.values)
    count = arcs.nnz
    ends = np.empty((count, 2), dtype=np.int32)
    ends[:, 0], ends[:, 1] = np.repeat(np.arange(n), np.diff(arcs.indptr)), arcs.indices
    rows = sparse.csr_matrix((np.tile([1.0, -1.0], count), ends.ravel(),
                              np.arange(0, 2 * count + 1, 2)), shape=(count, n))
    return Program(f"the ultimate pit of {upit.name}", upit.values.astype(float), rows,
                   np.full(count, -np.inf), np.zeros(count), np.zeros(n, dtype=bool), Names(n),
                   np.full(count, ROWS.index(ARCS), np.int8))


class _Builder:
    """Gathers the rows of a program from parts of (row, variable, factor)."""

    def __init__(self, variables: int):
        self.variables, self.count = variables, 0
        self.parts: list[tuple[np.ndarray, np.ndarray, np.ndarray]] = []
        self.lower: list[np.ndarray] = []
        self.upper: list[np.ndarray] = []
        self.kinds: list[np.ndarray] = []

    def add(self, kind: str, rows: int,
            entries: Sequence[tuple[np.ndarray, np.ndarray, np.ndarray]], lower: float,
            upper: float) -> None:
        """Adds `count` rows of a kind; the entries' rows count from the first of these."""
        self.kinds.append(np.full(rows, ROWS.index(kind), np.int8))
        self.parts += [(row + self.count, variable, factor) for row, variable, factor in entries]
        self.lower.append(np.full(rows, lower))
        self.upper.append(np.full(rows, upper))
        self.count += rows

    def matrix(self) -> sparse.csr_matrix:
        """All rows, (rows, variables)."""
        row, variable, factor = (np.concatenate(part) for part in zip(*self.parts)) if self.parts \
            else (np.empty(0, int),) * 3
        return sparse.csr_matrix((factor.astype(float), (row, variable)),
                                 shape=(self.count, self.variables))


def program_of(problem: Problem, precedence: sparse.spmatrix, relaxed: bool = False,
               whole_blocks: bool = False) -> Program:
    """Returns a CPIT or a PCPSP, with its arcs (n, n), of any format, as a mixed integer program;
    `relaxed` lets blocks be split over periods, and `whole_blocks` lets no block of a PCPSP be
    split over destinations. Its value is in units of 100 cents, discounted."""
    n, periods, has_y = len(problem.values), problem.periods, problem.kind == "PCPSP"
    names = Names(n, periods, problem.destinations if has_y else 0, has_x=not relaxed)
    builder, discounts = _Builder(names.count), problem.discounts()
    objective = np.zeros(names.count)
    if has_y:
        objective[names.first_y:] = (problem.values[:, :, None] * discounts).ravel()
    elif names.has_x:
        objective[names.first_x:] = (problem.values * discounts).ravel()
    else:
        objective[:] = (problem.values * (discounts - np.append(discounts[1:], 0))).ravel()
    if names.has_x:
        _add_periods(builder, names)
    else:
        _add_ends(builder, n, periods)
    _add_arcs(builder, arcs_of(precedence), periods)
    if has_y:
        _add_shares(builder, names)
    _add_limits(builder, problem, names)
    is_integer = np.zeros(names.count, dtype=bool)
    is_integer[names.first_x:names.first_y] = True
    is_integer[names.first_y:] = whole_blocks and not relaxed
    what = "the relaxed schedule" if relaxed else "the best schedule"
    return Program(f"{what} of {problem.name}, a {problem.kind}", objective, builder.matrix(),
                   np.concatenate(builder.lower), np.concatenate(builder.upper), is_integer, names,
                   np.concatenate(builder.kinds))


def _add_periods(builder: _Builder, names: Names) -> None:
    """Adds rows: what is mined by the end of a period is what is mined in it and by the end of the
    one before."""
    every = np.arange(names.blocks)
    for period in range(names.periods):
        at = every * names.periods + period
        entries = [(every, at, np.ones(len(every))),
                   (every, names.first_x + at, -np.ones(len(every)))]
        entries += [(every, at - 1, -np.ones(len(every)))] if period else []
        builder.add(PERIODS, names.blocks, entries, 0.0, 0.0)


def _add_ends(builder: _Builder, blocks: int, periods: int) -> None:
    """Adds rows: what is mined by the end of a period is no more than by the end of the next."""
    count = blocks * (periods - 1)
    first = (np.arange(blocks)[:, None] * periods + np.arange(periods - 1)).ravel()
    rows = np.arange(count)
    entries = [(rows, first, np.ones(count)), (rows, first + 1, -np.ones(count))]
    builder.add(ENDS, count, entries, -np.inf, 0.0)


def _add_arcs(builder: _Builder, precedence: sparse.csr_matrix, periods: int) -> None:
    """Adds rows: by the end of each period no more of a block is mined than of a predecessor."""
    arcs = precedence.tocoo()
    count = precedence.nnz * periods
    lower, upper = ((part.astype(np.int64)[:, None] * periods + np.arange(periods)).ravel()
                    for part in (arcs.row, arcs.col))
    rows = np.arange(count)
    entries = [(rows, lower, np.ones(count)), (rows, upper, -np.ones(count))]
    builder.add(ARCS, count, entries, -np.inf, 0.0)


def _add_shares(builder: _Builder, names: Names) -> None:
    """Adds rows: the shares at all destinations are what is mined in the period."""
    every = np.arange(names.blocks)
    for period in range(names.periods):
        entries = [(every, names.y(every, at, period), np.ones(len(every)))
                   for at in range(names.destinations)]
        entries += [(every, variable, np.full(len(every), -sign))
                    for variable, sign in names.mined(every, period)]
        builder.add(SHARES, names.blocks, entries, 0.0, 0.0)


def _add_limits(builder: _Builder, problem: Problem, names: Names) -> None:
    uses = problem.uses
    for limit in problem.limits:
        taken = uses.resource == limit.resource
        block, amount = uses.block[taken].astype(np.int64), uses.amount[taken]
        row = np.zeros(len(block), int)
        if names.destinations:
            entries = [(row, names.y(block, uses.destination[taken], limit.period), amount)]
        else:
            entries = [(row, variable, sign * amount)
                       for variable, sign in names.mined(block, limit.period)]
        builder.add(LIMITS, 1, entries, limit.least, limit.most)


def by_period(program: Program) -> Program:
    """Returns the same program without w, each being the sum of x up to its period: longer rows,
    from which some solvers, as cbc, make better cuts. A program without x stays unchanged."""
    names = program.names
    if not names.has_x:
        return program
    triangle = np.tril(np.ones((names.periods, names.periods)))
    ends = sparse.kron(sparse.identity(names.blocks), triangle).tocsr()
    rows = program.rows.tocsc()
    x = slice(names.first_x, names.first_y)
    left = sparse.hstack([rows[:, :names.first_x] @ ends + rows[:, x],
                          rows[:, names.first_y:]]).tocsr()
    left.eliminate_zeros()
    last = ends[names.periods - 1::names.periods]
    no_y = sparse.csr_matrix((names.blocks, program.rows.shape[1] - names.first_y))
    once = sparse.hstack([last, no_y]).tocsr()
    kept = (np.diff(left.indptr) > 0) | (program.lower > 0) | (program.upper < 0)
    return Program(program.title, program.objective[names.first_x:],
                   sparse.vstack([left[kept], once]).tocsr(),
                   np.concatenate([program.lower[kept], np.full(names.blocks, -np.inf)]),
                   np.concatenate([program.upper[kept], np.ones(names.blocks)]),
                   program.is_integer[names.first_x:],
                   Names(names.blocks, names.periods, names.destinations, has_x=True, has_w=False),
                   np.append(program.kinds[kept], np.full(names.blocks, ROWS.index(ONCE), np.int8)))


# Solving

#: Seconds that HiGHS may use after its time to return what it has found.
GRACE = 2.0


@dataclass(frozen=True)
class Answer:
    """The result of HiGHS: `status` is `best`, `within the ratio`, `stopped`, or `none`, if there
    is no solution; `bound` is an upper bound of every solution; `values` are those of the
    variables, None if none was found."""

    status: str
    value: Optional[float]
    bound: Optional[float]
    values: Optional[np.ndarray]
    message: str


def solve(program: Program, seconds: Optional[float] = None, ratio: float = 0.0,
          bounds: Optional[optimize.Bounds] = None) -> Answer:
    """Solves a program by scipy's HiGHS, up to a ratio of the best, in at most `seconds` plus
    GRACE: then its process is ended, and its findings are lost. Bounds of the variables may be
    closer than 0 and 1.

    Raises UserError if HiGHS reports that the program is unbounded, or ends without a result.
    """
    result = within(partial(_solved, program, seconds, ratio, bounds),
                    None if seconds is None else seconds + GRACE)
    return result or Answer("stopped", None, None, None, "none was found so far")


def _solved(program: Program, seconds: Optional[float], ratio: float,
            bounds: Optional[optimize.Bounds]) -> Answer:
    options = {"mip_rel_gap": ratio, **({"time_limit": seconds} if seconds else {})}
    scale = max(1.0, float(np.abs(program.objective).max(initial=1)))
    constraints = optimize.LinearConstraint(program.rows, program.lower,
                                            program.upper) if program.rows.shape[0] else ()
    found = optimize.milp(-program.objective / scale, integrality=program.is_integer.astype(int),
                          bounds=bounds or optimize.Bounds(0, 1), constraints=constraints,
                          options=options)
    if found.status == 2:
        return Answer("none", None, None, None, "there is none: limits cannot be met")
    if found.status in (3, 4):
        raise UserError(f"HiGHS: {found.message}")
    bound = getattr(found, "mip_dual_bound", None)
    bound = None if bound is None else -bound * scale
    if found.x is None:
        return Answer("stopped", None, bound, None, "none was found so far")
    value = float(program.objective @ found.x)
    if not program.is_integer.any():
        bound = value if found.status == 0 else None
    is_best = found.status == 0 and (bound is None or bound - value <= 1e-7 * max(1, abs(value)))
    status = "best" if is_best else "within the ratio" if found.status == 0 else "stopped"
    return Answer(status, value, bound, found.x, found.message)


# The interface has `problem`, though the names of the variables are enough.
# pylint: disable-next=unused-argument
def schedule_of(values: np.ndarray, problem: Problem, names: Names) -> Schedule:
    """The schedule that the variables of `program_of` state, their values being (variables,)."""
    n, periods = names.blocks, names.periods
    if names.destinations:
        return schedule_of_shares(values[names.first_y:].reshape(n, names.destinations, periods))
    if names.has_x:
        return schedule_of_shares(values[names.first_x:names.first_y].reshape(n, 1, periods))
    return schedule_of_shares(np.diff(values.reshape(n, periods), axis=1, prepend=0)[:, None, :])
