"""The ultimate pit: blocks of largest total value, each with all its predecessors.

    from pit_tools.pits.closure import ultimate_pit
    in_pit = ultimate_pit(mine.upit.values, mine.precedence)         # bool, (n,)

A C++ program (compiled.py) finds it: a million blocks at K = 1 in a second or two. Without a
compiler, HiGHS of scipy solves the linear program, which takes minutes beyond about ten thousand
blocks. Both are exact: values are counted in their finest decimal, at most the sixth. Of several
pits of largest value the program returns the smallest; HiGHS may return another.
"""
from __future__ import annotations

import ctypes
from dataclasses import dataclass

import numpy as np
from scipy import optimize, sparse

from pit_tools.errors import UserError
from pit_tools.instances.arrays import Blocks, arcs_of
from pit_tools.pits.compiled import library
from pit_tools.plans.cones import Places, cone_offsets, precedence_of, size_in_millimetres
from pit_tools.plans.file import Plan
from pit_tools.texts.number_texts import multiples_of

#: The number of arcs up to which HiGHS is used if there is no compiler.
MOST_ARCS_OF_HIGHS = 2_000_000


def is_compiled() -> bool:
    """Returns whether the C++ program exists, or could be made."""
    return library() is not None


def _pointer(array: np.ndarray) -> ctypes.c_void_p:
    return ctypes.c_void_p(array.ctypes.data)


def _called(function: str, *arguments: object) -> None:
    if getattr(library(), function)(*arguments):
        raise UserError("out of memory")


def ultimate_pit(values: np.ndarray, precedence: sparse.spmatrix) -> np.ndarray:
    """Returns which blocks are in the pit, bool (n,), from their values (n,), in units of 100
    cents, and all arcs (n, n), a matrix of any format of scipy, or an array.

    Raises UserError if values have more than six decimals or are too large for theirs, if memory
    runs out, or if there is no C++ compiler and there are more arcs than HiGHS could handle.
    """
    worth, precedence = multiples_of(values)[0], arcs_of(precedence)
    if len(worth) != precedence.shape[0]:
        raise UserError(f"there are {len(worth)} values, but {precedence.shape[0]} blocks")
    if not is_compiled():
        return _pit_by_highs(worth, precedence)
    starts = np.ascontiguousarray(precedence.indptr, dtype=np.int64)
    above = np.ascontiguousarray(precedence.indices, dtype=np.int32)
    in_pit = np.empty(len(worth), dtype=np.uint8)
    _called("closure", ctypes.c_int64(len(worth)), *map(_pointer, (worth, starts, above, in_pit)))
    return in_pit.astype(bool)


def _pit_by_highs(worth: np.ndarray, precedence: sparse.csr_matrix) -> np.ndarray:
    if precedence.nnz > MOST_ARCS_OF_HIGHS:
        raise UserError(f"{precedence.nnz:,} arcs need the C++ program, but no compiler is "
                        "installed: apt-get install g++")
    arcs = precedence.tocoo()
    count = precedence.nnz
    rows = np.concatenate([np.arange(count)] * 2)
    columns = np.concatenate([arcs.row, arcs.col])
    signs = np.concatenate([np.ones(count), -np.ones(count)])
    waits = sparse.csr_matrix((signs, (rows, columns)), shape=(count, len(worth)))
    scale = max(1, int(np.abs(worth).max(initial=1)))
    found = optimize.linprog(-worth / scale, waits if count else None,
                             np.zeros(count) if count else None, bounds=(0, 1), method="highs-ds")
    if found.x is None:
        raise UserError(f"HiGHS found no pit: {found.message}")
    return found.x > 0.5


@dataclass(frozen=True)
class Periods:
    """The closure of largest value of blocks by the ends of periods, and the flow that proves
    it."""

    first: np.ndarray  #: the first period by whose end each block is in it, or periods, int32 (n,)
    arcs: list[np.ndarray]  #: of each period: places of arcs that have a flow, int64
    flows: list[np.ndarray]  #: what flows there, int64
    later: list[np.ndarray]  #: blocks with a flow from the period to the next one, int32
    later_flows: list[np.ndarray]  #: what flows there, int64


def closure_of_periods(values: np.ndarray, precedence: sparse.csr_matrix,
                       with_flows: bool = False) -> Periods:
    """Returns the closure of largest value of blocks by the ends of periods, from the integers that
    each block counts if it is mined by then, int64 (periods, n). A block is in it by the end of a
    period only with all its predecessors, and then by the ends of all later periods. Without
    `with_flows` the lists are empty.

    Raises UserError if memory runs out, there is no C++ compiler, or there are too many blocks and
    periods.
    """
    periods, n = values.shape
    if not is_compiled():
        raise UserError("no C++ compiler is installed: apt-get install g++")
    if periods * n >= 2**31:
        raise UserError(f"{n:,} blocks with {periods} periods are too many")
    values = np.ascontiguousarray(values, dtype=np.int64)
    starts = np.ascontiguousarray(precedence.indptr, dtype=np.int64)
    above = np.ascontiguousarray(precedence.indices, dtype=np.int32)
    in_pit = np.empty((periods, n), dtype=np.uint8)
    arc = np.empty((periods, n) if with_flows else 0, dtype=np.int64)
    flow = np.empty_like(arc)
    _called("closure_of_periods", ctypes.c_int64(n), ctypes.c_int32(periods),
            *map(_pointer, (values, starts, above, in_pit)),
            *(_pointer(part) if with_flows else None for part in (arc, flow)))
    found = Periods((periods - in_pit.sum(axis=0, dtype=np.int32)), [], [], [], [])
    if not with_flows:
        return found
    for period in range(periods):
        own = np.flatnonzero((flow[period] > 0) & (arc[period] >= 0))
        found.arcs.append(arc[period, own])
        found.flows.append(flow[period, own])
        # The flow between two periods is kept at either of its ends.
        ends = [(at, np.flatnonzero((flow[at] > 0) & (arc[at] == -1 - period)))
                for at in (period, period + 1) if at < periods]
        found.later.append(np.concatenate([block for _, block in ends]).astype(np.int32))
        found.later_flows.append(np.concatenate([flow[at, block] for at, block in ends]))
    return found


def pit_of_plan(values: np.ndarray, blocks: Blocks, plan: Plan) -> tuple[np.ndarray, int]:
    """Returns the pit of blocks whose arcs follow from a plan's cones, without listing all of them:
    bool (n,), and the number of arcs that no others imply.

    Raises UserError if memory runs out, or there is no C++ compiler.
    """
    if not is_compiled():
        raise UserError("no C++ compiler is installed: apt-get install g++")
    places, size = Places(blocks), size_in_millimetres(plan.grid)
    reach = [length - 1 for length in places.shape]
    cones = [cone_offsets(size, zone, min(zone.benches, reach[2]), reach[:2])
             for zone in plan.zones]
    bounds = np.cumsum([0, *map(len, cones)]).astype(np.int64)
    offsets = np.ascontiguousarray(np.concatenate(cones), dtype=np.int32)
    worth, shape = multiples_of(values)[0], np.array(places.shape, dtype=np.int32)
    at = np.ascontiguousarray(np.stack([places.x, places.y, places.z], axis=1), dtype=np.int32)
    zones = np.ascontiguousarray(blocks.zone, dtype=np.int32)
    taken = np.ascontiguousarray(places.at)
    in_pit, arcs = np.empty(len(blocks), dtype=np.uint8), ctypes.c_int64()
    _called("closure_of_cones", ctypes.c_int64(len(blocks)),
            _pointer(worth), _pointer(shape), _pointer(taken), _pointer(at), _pointer(zones),
            ctypes.c_int32(len(cones)), _pointer(bounds), _pointer(offsets), _pointer(in_pit),
            ctypes.byref(arcs))
    return in_pit.astype(bool), arcs.value


def pit_by_cones(values: np.ndarray, blocks: Blocks, plan: Plan) -> np.ndarray:
    """Returns the pit of blocks whose arcs follow from a plan's cones, bool (n,), by the C++
    program or, without a compiler, by HiGHS. There may be no block.

    Raises UserError if memory runs out, or there are more arcs than HiGHS could handle.
    """
    if len(blocks) == 0:
        return np.zeros(0, dtype=bool)
    if is_compiled():
        return pit_of_plan(values, blocks, plan)[0]
    return ultimate_pit(values, precedence_of(blocks, plan))


def immediate(precedence: sparse.spmatrix) -> sparse.csr_matrix:
    """Returns the arcs that `pitc_thin` keeps, by the same rule: a predecessor of a block is
    dropped if it is also a predecessor of another one of the block's predecessors. Pits and
    schedules stay the same. The arcs (n, n) are a matrix of any format, or an array; predecessors
    come after their block, as in files of `pitc`.

    Raises UserError if they do not, if memory runs out, or if there is no C++ compiler.
    """
    if not is_compiled():
        raise UserError("no C++ compiler is installed: apt-get install g++")
    arcs = arcs_of(precedence)
    rows = np.repeat(np.arange(arcs.shape[0]), np.diff(arcs.indptr))
    if np.any(arcs.indices <= rows):
        raise UserError("a block follows one of its successors: predecessors must come after their "
                        "block")
    starts, kept = arcs.indptr.astype(np.int64), np.empty(arcs.nnz, dtype=np.uint8)
    above = np.ascontiguousarray(arcs.indices, dtype=np.int32)
    _called("immediate", ctypes.c_int64(arcs.shape[0]), *map(_pointer, (starts, above, kept)))
    kept = kept.astype(bool)
    return sparse.csr_matrix((arcs.data[kept], (rows[kept], arcs.indices[kept])), shape=arcs.shape)


def fewer_arcs(precedence: sparse.csr_matrix, all_arcs: bool = False) -> sparse.csr_matrix:
    """The precedences without the arcs that `immediate` drops, if it can be called."""
    if all_arcs or not is_compiled():
        return precedence
    try:
        return immediate(precedence)
    except UserError:
        return precedence
