"""Schedules of a CPIT or a PCPSP: their files, what they are worth and use, and whether they are
feasible.

A line of a schedule is a block and its period, and for a PCPSP then its destination; the share of
the block may follow, 1 by default.
"""
from __future__ import annotations

import re
from dataclasses import dataclass
from itertools import islice
from typing import Iterator, Optional, Sequence

import numpy as np
import pandas as pd
from scipy import sparse

from pit_tools.errors import UserError, quoted
from pit_tools.files import outputs
from pit_tools.instances.arrays import Limit, Problem, arcs_of
from pit_tools.texts.decimals import error_of, floats_of, is_decimal
from pit_tools.texts.lines import numbered_lines
from pit_tools.texts.number_texts import (Part, float_parts, joined, laid, shortest, spread,
                                          equal_parts)

#: A difference of this share of a block is not counted.
TOLERANCE = 1e-6

#: Entries of the table of blocks and periods up to which it is stored completely.
MOST_ENTRIES = 1 << 28

#: The most lines of a schedule, or the number that its problem needs.
MOST_LINES = 1 << 20


@dataclass(frozen=True)
class Schedule:
    """Lines of a schedule, arrays of m: shares of blocks in periods at destinations (0 in a
    CPIT)."""

    block: np.ndarray
    period: np.ndarray
    destination: np.ndarray
    share: np.ndarray

    def __len__(self) -> int:
        return len(self.block)

    @classmethod
    def of(cls, block: Sequence[int], period: Sequence[int],
           destination: Optional[Sequence[int]] = None,
           share: Optional[Sequence[float]] = None) -> "Schedule":
        """Returns the schedule of lines (m,): destination 0 and the complete block by default."""
        blocks = np.asarray(block, dtype=np.int64)
        return cls(blocks, np.asarray(period, dtype=np.int64),
                   np.zeros(len(blocks), np.int64) if destination is None
                   else np.asarray(destination, dtype=np.int64),
                   np.ones(len(blocks)) if share is None else np.asarray(share, dtype=float))

    def sums(self, problem: Problem) -> tuple[np.ndarray, np.ndarray, np.ndarray, np.ndarray]:
        """The block, the period, the destination and the share of each place that has lines, the
        share being the sum of theirs."""
        shape = (len(problem.values), problem.periods, problem.destinations)
        places, lines = np.unique(np.ravel_multi_index((self.block, self.period, self.destination),
                                                       shape), return_inverse=True)
        shares = np.bincount(lines, self.share, len(places))
        block, period, destination = map(np.asarray, np.unravel_index(places, shape))
        return block, period, destination, shares

    def mined(self, blocks: int, periods: int) -> np.ndarray:
        """The share of each block that is mined in each period, (blocks, periods)."""
        if blocks * periods > MOST_ENTRIES:
            raise UserError(f"{blocks:,} blocks in {periods} periods are more than this check "
                            "allows")
        mined = np.zeros((blocks, periods))
        np.add.at(mined, (self.block, self.period), self.share)
        return mined

    def worth(self, problem: Problem) -> float:
        """Returns its worth, with a value of period t counting 1 / (1 + rate)^t."""
        return float((self.share * problem.values[self.block, self.destination]
                      * problem.discounts()[self.period]).sum())

    def used(self, problem: Problem) -> np.ndarray:
        """Returns the use of each resource in each period, (resources, periods)."""
        used = np.zeros((problem.resources, problem.periods))
        for resource in range(problem.resources):
            coefficients = (np.asarray(problem.use_matrix(resource)[self.block, self.destination])
                            .ravel())
            np.add.at(used[resource], self.period, coefficients * self.share)
        return used


def table_of(path: str, fields: int, most: Optional[int] = None) -> pd.DataFrame:
    """Returns the fields of a file's lines as texts, `fields` of them and what follows them; the
    index is the number of the line. A byte order mark, blank lines and lines of `%` are skipped, as
    in the files of an instance.

    Raises UserError if there are more than `most` lines."""
    # Readers of numbers end a text at a zero byte.
    lines = ((number, line.replace("\0", "\ufffd").strip().split(None, fields))
             for number, line in numbered_lines(path) if line.lstrip()[:1] not in ("", "%"))
    found = dict(islice(lines, most))
    if more := next(lines, None):
        raise UserError(f"{path}: line {more[0]}: it has more than {most:,} lines: give one for "
                        "each block, period and destination")
    return pd.DataFrame(list(found.values()), list(found), dtype=object)


def read_schedule(path: str, problem: Problem) -> Schedule:
    """A schedule's file for a problem: lines (m,), shares from 0 to 1 of a block.

    Raises UserError, with the line, if a line has other fields or names no block, period or
    destination, or there are far more lines than these.
    """
    is_pcpsp = problem.kind == "PCPSP"
    fields = 3 if is_pcpsp else 2
    most = max(MOST_LINES, problem.values.size * problem.periods)
    table = table_of(path, fields + 1, most).reindex(columns=range(fields + 2)).fillna("")
    lines = table.index.to_numpy()
    given = table[fields] != ""
    numbers = table[list(range(fields + 1))].copy()
    numbers.loc[~given, fields] = "1"
    numbers = numbers.apply(lambda column: pd.Series(floats_of(column), column.index)).astype(float)
    what = "block, period, destination and share" if is_pcpsp else "block, period and share"
    bad = ~np.isfinite(numbers).all(axis=1).to_numpy() | (table[fields + 1] != "").to_numpy()
    _reject(path, lines, bad, table, f"it is not a {what}")
    columns = [numbers[at].to_numpy(float) for at in range(fields + 1)]
    ends = [len(problem.values), problem.periods, problem.destinations][:fields]
    for name, column, end in zip(("block", "period", "destination"), columns, ends):
        _reject(path, lines, (column % 1 != 0) | (column < 0) | (column >= end), table,
                f"no {name} below {end}")
    whole = [column.astype(np.int64) for column in columns[:fields]]
    return Schedule(whole[0], whole[1], whole[2] if is_pcpsp else np.zeros_like(whole[0]),
                    columns[fields])


def _reject(path: str, lines: np.ndarray, bad: np.ndarray, table: pd.DataFrame,
            message: str) -> None:
    if bad.any():
        at = int(np.flatnonzero(bad)[0])
        raise UserError(f"{path}: line {lines[at]}: {message}: "
                        f"{quoted(' '.join(table.iloc[at]).strip())}")


def write_schedule(schedule: Schedule, path: str, is_pcpsp: bool) -> None:
    """Writes a schedule, one line for each of its lines; a share is written if it is not 1, and
    destinations if the problem is a PCPSP.

    Raises OSError, with the name, if the file cannot be written.
    """
    count = len(schedule)
    parts: list[Part] = [*equal_parts(schedule.block), b" ", *equal_parts(schedule.period)]
    if is_pcpsp:
        parts += [b" ", *equal_parts(schedule.destination)]
    some = np.flatnonzero(np.abs(schedule.share - 1) >= 1e-9)
    if len(some):
        shares = laid([b" ", *float_parts(schedule.share[some], 9)], len(some))
        parts.append(spread(shares, some, count))
    with outputs.opened(path, "schedule") as file:
        file.write(joined([*parts, b"\n"], count))


def limit_text(limit: Limit) -> str:
    """A limit as its line has it, without resource and period."""
    return f"{limit.letter} {' '.join(map(shortest, limit.ends))}"


@dataclass(frozen=True)
class Check:
    """What a schedule is worth and uses, and what it violates: a line of words each. It `holds` if
    it violates nothing."""

    blocks: float
    worth: float
    uses: list[str]
    broken: list[str]

    @property
    def holds(self) -> bool:
        return not self.broken


def check(schedule: Schedule, problem: Problem, precedence: sparse.spmatrix,
          relaxed: bool = False) -> Check:
    """Checks whether a schedule is feasible, for a problem and all its arcs (n, n), a matrix of any
    format or an array; its worth is in units of 100 cents, discounted. In a CPIT and a PCPSP a
    block is mined in one period, in a PCPSP at one or more destinations; `relaxed` lets it be split
    over periods, as in the relaxations.

    Raises UserError if a line names a block, period or destination that does not exist, the arcs
    have other blocks, or there are more blocks and periods than fit in memory.
    """
    arcs = arcs_of(precedence)
    _judge_places(schedule, problem, arcs)
    uses, over = _limits(schedule, problem)
    broken = [*_shares(schedule, problem, relaxed), *_order(schedule, problem, arcs), *over]
    return Check(float(schedule.share.sum()), schedule.worth(problem), uses, broken)


def _judge_places(schedule: Schedule, problem: Problem, arcs: sparse.csr_matrix) -> None:
    """Stops at the first line that names what the problem does not have."""
    n = len(problem.values)
    if arcs.shape[0] != n:
        raise UserError(f"the arcs have {arcs.shape[0]} blocks, but the problem has {n}")
    for name, column, end in (("block", schedule.block, n),
                              ("period", schedule.period, problem.periods),
                              ("destination", schedule.destination, problem.destinations)):
        strange = np.flatnonzero((column < 0) | (column >= end))
        if len(strange):
            raise UserError(f"line {strange[0] + 1} of the schedule: no {name} below {end}: "
                            f"{column[strange[0]]}")


def _shares(schedule: Schedule, problem: Problem, relaxed: bool) -> Iterator[str]:
    """Yields violations of shares: of each line, of all lines of one block, period and destination,
    and of each block. A line below 0 is a violation however small it is, since many of them would
    allow others."""
    for at in np.flatnonzero(~(schedule.share >= 0)):
        yield f"block {schedule.block[at]} has the share {schedule.share[at]:g}"
    for block, period, destination, share in zip(*schedule.sums(problem)):
        if share > 1 + TOLERANCE:
            yield (f"block {block} has the share {share:g} in period {period} at destination "
                   f"{destination}")
    mined = schedule.mined(len(problem.values), problem.periods)
    if not relaxed:
        for block, period in zip(*np.nonzero((mined > TOLERANCE) & (mined < 1 - TOLERANCE))):
            yield f"block {block} is split: {mined[block, period]:g} of it in period {period}"
    total = mined.sum(axis=1)
    for block in np.flatnonzero(total > 1 + TOLERANCE):
        yield f"block {block} is mined {total[block]:g} times"


def _order(schedule: Schedule, problem: Problem, precedence: sparse.csr_matrix,
           chunk: int = 1 << 22) -> Iterator[str]:
    """Yields what is mined before its predecessors, with arcs read in parts."""
    by_end = schedule.mined(len(problem.values), problem.periods).cumsum(axis=1).astype(np.float32)
    starts = precedence.indptr.astype(np.int64)
    rows_at = np.searchsorted(starts, np.arange(0, starts[-1] + 1, chunk), side="right") - 1
    bounds = np.unique(np.append(rows_at, len(starts) - 1))
    for first, last in zip(bounds, bounds[1:]):
        lower = np.repeat(np.arange(first, last), np.diff(starts[first:last + 1]))
        upper = precedence.indices[starts[first]:starts[last]]
        for period in range(problem.periods):
            early = by_end[lower, period] > by_end[upper, period] + 2 * TOLERANCE
            if not early.any():
                continue
            for at in np.flatnonzero(early):
                if period == 0 or not (by_end[lower[at], period - 1]
                                       > by_end[upper[at], period - 1] + 2 * TOLERANCE):
                    yield f"block {lower[at]} is mined in period {period}, before block {upper[at]}"


def _limits(schedule: Schedule, problem: Problem) -> tuple[list[str], list[str]]:
    used = schedule.used(problem)
    uses: list[str] = []
    broken: list[str] = []
    for limit in problem.limits:
        amount = used[limit.resource, limit.period]
        line = (f"resource {limit.resource}, period {limit.period}: {amount:.3f} t of "
                f"{limit_text(limit)}")
        tolerance = [1e-6 * max(1, abs(end)) if np.isfinite(end) else 0
                     for end in (limit.least, limit.most)]
        is_kept = limit.least - tolerance[0] <= amount <= limit.most + tolerance[1]
        (uses if is_kept else broken).append(line)
    return uses, broken


# Results of solvers

_VARIABLE = re.compile(r"([wxy])([0-9]{1,9})(?:_([0-9]{1,9}))?(?:_([0-9]{1,9}))?$")


def read_variables(path: str) -> dict[tuple, float]:
    """Returns the variables of a solution of `cbc` or `glpsol --output`, by (letter, numbers..):
    the first number after each name. Variables that `cbc` omits are 0.

    Raises UserError if there is none.
    """
    found: dict[tuple, float] = {}
    name = None
    for number, line in numbered_lines(path):
        for field in line.split():
            if match := _VARIABLE.match(field):
                name = (match[1], *(int(part) for part in match.groups()[1:] if part is not None))
            elif name is not None and is_decimal(field):
                if fault := error_of(field):
                    raise UserError(f"{path}: line {number}: {quoted(field)} is {fault}")
                found.setdefault(name, float(field))
                name = None
    if not found:
        raise UserError(f"{path}: no variable of a program that `pit-tools lp` writes: has the "
                        "solver found a solution?")
    return found


def schedule_of_variables(found: dict[tuple, float], problem: Problem) -> Schedule:
    """Returns the schedule that variables w (mined by the end of a period), x (mined in it) and y
    (shares at destinations) encode. In a CPIT x decides if there is one, else w; in a PCPSP y
    does."""
    n, periods = len(problem.values), problem.periods
    tables = {"w": np.zeros((n, periods)), "x": np.zeros((n, periods)),
              "y": np.zeros((n, problem.destinations, periods))}
    for (letter, *at), value in found.items():
        table = tables[letter]
        if len(at) != table.ndim or any(number >= end for number, end in zip(at, table.shape)):
            raise UserError(f"no variable of this {problem.kind}: {letter}{'_'.join(map(str, at))}")
        table[tuple(at)] = value
    if problem.kind == "PCPSP":
        return schedule_of_shares(tables["y"])
    has_x = any(name[0] == "x" for name in found)
    return schedule_of_shares((tables["x"] if has_x
                               else np.diff(tables["w"], axis=1, prepend=0))[:, None, :])


def schedule_of_shares(shares: np.ndarray) -> Schedule:
    """Returns the schedule of shares (blocks, destinations, periods); a share within a millionth of
    0 or 1 becomes that."""
    shares = np.where(np.abs(shares - np.rint(shares)) < TOLERANCE, np.rint(shares), shares)
    block, destination, period = np.nonzero(shares)
    return Schedule(block, period, destination, shares[block, destination, period])
