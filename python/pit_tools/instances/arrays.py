"""An instance as arrays and sparse matrices, as its files have it."""
from __future__ import annotations

from dataclasses import dataclass, field
from typing import Any, Optional, Sequence, TypeVar

import numpy as np
import pandas as pd
from scipy import sparse

from pit_tools.errors import UserError
from pit_tools.texts import number_texts


@dataclass(frozen=True)
class Blocks:
    """The block file: arrays of n, in order of identifier."""

    x: np.ndarray  #: grid indices, int32
    y: np.ndarray
    z: np.ndarray  #: upward
    tonnes: np.ndarray  #: float64, to 3 decimals
    grade: np.ndarray  #: g/t, float64, to 6 decimals
    zone: np.ndarray  #: numbers of zones in the plan's order, int32

    def __len__(self) -> int:
        return len(self.x)

    def taken(self, ids: np.ndarray) -> "Blocks":
        """Some of the blocks, by their identifiers or a mask, in that order."""
        return Blocks(*(column[ids] for column in vars(self).values()))

    def frame(self) -> pd.DataFrame:
        """A row for each block with columns x, y, z, tonnes, grade, zone; the index is `block`."""
        return pd.DataFrame(vars(self)).rename_axis("block")


@dataclass(frozen=True)
class Uses:
    """Each block's use of a resource at a destination: arrays of m lines, which rise by (block,
    destination, resource). In a CPIT every destination is 0."""

    block: np.ndarray  #: int32
    destination: np.ndarray  #: int8
    resource: np.ndarray  #: int8
    amount: np.ndarray  #: float64, tonnes in files of `pitc`

    def __len__(self) -> int:
        return len(self.block)

    def frame(self) -> pd.DataFrame:
        """A row for each line with columns block, destination, resource, amount."""
        return pd.DataFrame(vars(self))

    def matrix(self, resource: int, shape: Optional[tuple[int, int]] = None) -> sparse.csr_matrix:
        """The uses of one resource, (blocks, destinations)."""
        lines = self.resource == resource
        return sparse.csr_matrix(
            (self.amount[lines], (self.block[lines], self.destination[lines])), shape=shape)


@dataclass(frozen=True)
class Limit:
    """The use of a resource in a period must be from `least` to `most`; either may be infinite."""

    resource: int
    period: int
    letter: str  #: `L` at most, `G` at least, `I` from least to most
    least: float
    most: float

    @classmethod
    def of(cls, resource: int, period: int, letter: str, ends: Sequence[float]) -> "Limit":
        least = -np.inf if letter == "L" else ends[0]
        return cls(resource, period, letter, least, np.inf if letter == "G" else ends[-1])

    @property
    def ends(self) -> list[float]:
        """Returns the one or two numbers of its line."""
        return [end for end in (self.least, self.most) if np.isfinite(end)]


@dataclass(frozen=True)
class UltimatePit:
    """A UPIT: the value of each block, (n,)."""

    name: str
    values: np.ndarray


@dataclass(frozen=True)
class Problem:
    """A PCPSP, or a CPIT, which has one destination. Its `values` are (n, D), undiscounted, in
    units of 100 cents; its `rate` is for one period."""

    kind: str  #: `PCPSP` or `CPIT`
    name: str
    periods: int
    resources: int
    rate: float
    values: np.ndarray  #: (blocks, destinations), undiscounted
    uses: Uses
    limits: list[Limit] = field(default_factory=list)

    @property
    def destinations(self) -> int:
        return self.values.shape[1]

    def use_matrix(self, resource: int) -> sparse.csr_matrix:
        """Returns the use of a resource, (blocks, destinations)."""
        return self.uses.matrix(resource, (len(self.values), self.destinations))

    def discounts(self) -> np.ndarray:
        """Returns the discount factor of each period, (periods,): 1, 1 / (1 + rate), .."""
        return (1 + self.rate) ** -np.arange(self.periods, dtype=float)


@dataclass(frozen=True)
class Instance:
    """The files of an instance; a part that was not read is None. `precedence` is (n, n), with 1 at
    (b, p) if block p is a predecessor of block b. Its arcs may have any format that `arcs_of`
    accepts."""

    blocks: Optional[Blocks] = None
    precedence: Optional[sparse.csr_matrix] = None  #: (n, n), int8, 1 in row b at its predecessors
    upit: Optional[UltimatePit] = None
    pcpsp: Optional[Problem] = None
    cpit: Optional[Problem] = None

    def __post_init__(self) -> None:
        if self.precedence is not None:
            object.__setattr__(self, "precedence", arcs_of(self.precedence))

    def counts(self) -> str:
        """Returns the line of `pitc check`: blocks, arcs, coefficients, limits, and the CPIT's
        coefficients."""
        arcs: Any = present(self.precedence, "precedence file")
        message = f"blocks {len(present(self.blocks, 'block file'))} arcs {arcs.nnz}"
        if self.pcpsp:
            message += f" coefficients {len(self.pcpsp.uses)} limits {len(self.pcpsp.limits)}"
        return message + (f" cpit {len(self.cpit.uses)}" if self.cpit else "")


    def problem(self, kind: str) -> Problem:
        """The CPIT or the PCPSP, by its kind in letters of either case.

        Raises UserError if it was not read."""
        return present({"cpit": self.cpit, "pcpsp": self.pcpsp}[kind.lower()], kind.upper())


_Part = TypeVar("_Part")


def present(part: Optional[_Part], what: str) -> _Part:
    """A part of an instance that must be there, as in `present(mine.upit, "UPIT")`.

    Raises UserError if it was not read.
    """
    if part is None:
        raise UserError(f"this instance has no {what}")
    return part


def cents(values: np.ndarray) -> np.ndarray:
    """Returns values, of any shape, in units of 100 cents, as integer cents, int64: their sums are
    exact.

    Raises UserError if one is infinite, NaN, above about 90,000 billion, or not an integer number
    of cents: `number_texts.multiples_of` accepts finer ones.
    """
    return number_texts.multiples_of(values, [2])[0]


def arcs_of(precedence: Any) -> sparse.csr_matrix:
    """Arcs as a CSR matrix (n, n) whose columns rise in each row and whose entries are not 0. It
    may be of any format of scipy, or an array; a CSR matrix that is so already is not copied.

    Raises UserError if it is not square.
    """
    # The class would give indices and starts the same type, of up to twice the size.
    arcs = (precedence if isinstance(precedence, sparse.csr_matrix)
            else sparse.csr_matrix(precedence))
    if arcs.shape[0] != arcs.shape[1]:
        raise UserError(f"arcs must be a square matrix, but these are {arcs.shape}")
    if not (arcs.has_canonical_format and arcs.data.all()):
        arcs = arcs.copy()
        arcs.sum_duplicates()
        arcs.eliminate_zeros()
    return arcs
