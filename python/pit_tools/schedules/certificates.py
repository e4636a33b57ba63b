"""Certificates of bounds: an upper bound of every schedule of a CPIT or a PCPSP, with a proof that
one pass over the instance checks in integers, whatever program found it.

A certificate is a solution of the dual of the relaxation. It has a price from 0 on for each end of
a limit, and flows from 0 on along arcs in each period, and from a block to itself in the next
period. With w the share of a block that is mined by the end of a period, and y the share that goes
to a destination in the period,

- a schedule within its limits is worth at most the sum of (discounted value - uses at their prices)
  y over blocks, destinations and periods, and of price * limit over limits;
- the sum of y over destinations is w less w of the period before, so the largest factor of a block
  in a period over its destinations replaces all of them;
- a flow along an arc may be subtracted from the factor of the block and added to the predecessor's,
  whose w is no less; so may a flow from a period to the next one;
- 0 <= w <= 1, so the bound is the sum of the factors above 0.

This is weak duality: any such prices and flows prove a bound. Bienstock and Zuckerberg (2010) price
limits in this way, and Hochbaum (2008) has the flow of a closure. A certificate also has the pits
by the ends of periods: at its prices they are worth what its flows allow, so no other flows give a
smaller bound by the same prices.

The file is an archive that `numpy.load` reads. Names of arrays begin with `CPIT-` or `PCPSP-`:

- `header`: JSON, as bytes. `bits` defines the unit: 2^-bits of the finest decimal of all values.
  `bound` is in units. `most` and `least` have the prices of the upper and lower ends of each limit,
  in 2^-32 units for one of the finest decimal of all coefficients. `arcs` and `later` have the
  number of flows of each period. `sums` has the SHA-256 of the problem's and the precedence file.
- `first`: for each block the first period by whose end it is in the pit, or the number of periods.
- `arcs`, `flows`: flows along arcs, by period. Arcs count from 0, by block, then predecessor.
- `later`, `later_flows`: flows of blocks to themselves in the next period.

To compute the bound,

1. count a block in a period as the largest, over all destinations, of its value divided by
   (1 + rate)^t minus its use of each resource times the price there;
2. subtract what it counts in the next period, which is 0 after the last one;
3. subtract the flows that leave the block, and add those that come to it, also from and to other
   periods;
4. add the numbers above 0 of all blocks and periods, and each limit's upper end times its price;
   subtract each lower end times its price.

Discounts are rounded to 64 bits, and products to units, so that the bound never becomes smaller.
"""
from __future__ import annotations

import io
import json
import os
import zipfile
import zlib
from contextlib import contextmanager
from dataclasses import dataclass
from fractions import Fraction
from math import ceil, floor
from typing import IO, Any, Iterable, Iterator, Optional

import numpy as np
from scipy import sparse

from pit_tools.errors import UserError
from pit_tools.instances.arrays import Problem
from pit_tools.texts.formats import MOST_RESOURCES
from pit_tools.texts.number_texts import multiples_of

#: Bits of a discount, and of a price of the smallest amount that is used.
DISCOUNT_BITS, PRICE_BITS = 64, 32

#: Products, and all that is added up, stay below these, so that 64 bits represent it.
MOST_PRODUCT, MOST = 2**58, 2**62

#: The parts of a certificate that are arrays, and their types.
_ARRAYS = {"first": "<u1", "arcs": "<i8", "flows": "<i8", "later": "<i4", "later_flows": "<i8"}

_FORM = "pit-tools bound 1"

#: Bytes that the header of a certificate may have, and bits of a number in it: prices and bounds
#: that are proved have fewer.
_MOST_HEADER, _MOST_BITS = 1 << 22, 256


class NotProved(UserError):
    """A certificate that proves nothing about the instance, or not exactly what it claims."""


@dataclass(frozen=True)
class Certificate:
    """A bound of a CPIT or a PCPSP, in units, and its proof."""

    kind: str
    bits: int  #: a unit is 2^-bits of the finest decimal of the values
    bound: int  #: in units
    most: tuple[int, ...]  #: the price of each limit's upper end, in 2^-PRICE_BITS units
    least: tuple[int, ...]  #: that of its lower end
    first: np.ndarray  #: the first period by whose end a block is in the pit, or periods, (n,)
    arcs: list[np.ndarray]  #: of each period: places of arcs in the matrix of precedences
    flows: list[np.ndarray]  #: the flow there, in units
    later: list[np.ndarray]  #: of each period: blocks with a flow to the next period
    later_flows: list[np.ndarray]  #: the flow there, in units
    sums: tuple[str, str] = ("", "")  #: SHA-256 of the files of the problem and the precedences

    def value(self, problem: Problem) -> Fraction:
        """The bound in units of 100 cents."""
        return Fraction(self.bound, 10**multiples_of(problem.values)[1] << self.bits)


def bound_text(value: Fraction) -> str:
    """A bound with two decimals, rounded up."""
    hundredths = ceil(value * 100)
    sign, size = "-" if hundredths < 0 else "", abs(hundredths)
    return f"{sign}{size // 100}.{size % 100:02d}"


def total(numbers: np.ndarray) -> int:
    """The exact sum of int64."""
    return (int((numbers >> 32).sum()) << 32) + int((numbers & 0xffffffff).sum())


def scaled_up(numbers: np.ndarray, factor: int, shift: int) -> np.ndarray:
    """numbers * factor / 2^shift, rounded up, int64. Raises NotProved if it is too large."""
    most = int(np.abs(numbers).max(initial=0)) * abs(factor)
    if most >> shift >= MOST_PRODUCT:
        raise NotProved("numbers of the instance are too large for the units of the certificate")
    if max(most, abs(factor)) < MOST and shift < 63:
        return -(-(numbers * factor) >> shift)
    return (-(-(numbers.astype(object) * factor) >> shift)).astype(np.int64)


class Factors:
    """The factor of a block by the end of each period at the prices of a certificate, in units."""

    def __init__(self, problem: Problem, bits: int, most: Iterable[int], least: Iterable[int]):
        self.problem, self.bits = problem, bits
        self.values, _ = multiples_of(problem.values)
        amounts, decimals = multiples_of(problem.uses.amount, range(7))
        self.uses = [self._uses(amounts, resource) for resource in range(problem.resources)]
        self.prices = np.full((problem.periods, problem.resources), 0, dtype=object)
        paid = Fraction(0)
        for limit, upper, lower in zip(problem.limits, most, least):
            self.prices[limit.period, limit.resource] += upper - lower
            paid += upper * _exact(limit.most) if upper else 0
            paid -= lower * _exact(limit.least) if lower else 0
        #: The cost of limits that are fully used.
        self.paid = ceil(paid * 10**decimals / 2**PRICE_BITS)

    def _uses(self, amounts: np.ndarray, resource: int) -> tuple[np.ndarray, np.ndarray]:
        """The places in (blocks, destinations) that use a resource, and how much."""
        lines = self.problem.uses.resource == resource
        at = (self.problem.uses.block[lines].astype(np.int64) * self.problem.destinations
              + self.problem.uses.destination[lines])
        if np.all(at[1:] > at[:-1]):
            return at, amounts[lines]
        places, which = np.unique(at, return_inverse=True)
        sums = np.zeros(len(places), dtype=np.int64)
        np.add.at(sums, which, amounts[lines])
        return places, sums

    def _mined_in(self, period: int) -> np.ndarray:
        """Returns the factor of a block that is mined in a period, at its best destination, int64
        (n,)."""
        problem = self.problem
        if period == problem.periods:
            return np.zeros(len(self.values), dtype=np.int64)
        discount = 1 / (1 + _exact(problem.rate))**period * 2**DISCOUNT_BITS
        shift = DISCOUNT_BITS - self.bits
        values = self.values.ravel()
        counts = np.empty_like(values)
        for signed, factor in ((values > 0, ceil(discount)), (values <= 0, floor(discount))):
            counts[signed] = scaled_up(values[signed], factor, shift)
        for (places, amounts), price in zip(self.uses, self.prices[period]):
            if price:
                counts[places] += scaled_up(amounts, -int(price), PRICE_BITS)
        return counts.reshape(self.values.shape).max(axis=1)

    def by_period(self) -> Iterator[np.ndarray]:
        """Returns the factor of a block that is mined by the end of each period, int64 (n,)."""
        now = self._mined_in(0)
        for period in range(self.problem.periods):
            after = self._mined_in(period + 1)
            yield now - after
            now = after


def _exact(number: float) -> Fraction:
    """The decimal that a number of a file means."""
    return Fraction(repr(float(number)))


def evaluated(one: Certificate, problem: Problem, precedence: sparse.csr_matrix) -> tuple[int, int]:
    """Returns the bound that the prices and flows of a certificate prove, and what its pits are
    worth at these prices, both in units: they are equal if no flow proves less from these prices.

    Raises NotProved if the certificate does not have the form of one of this instance, or its
    numbers are too large.
    """
    _judge(one, problem, precedence)
    factors = Factors(problem, one.bits, one.most, one.least)
    bound = pits = factors.paid
    came = np.zeros(len(problem.values), dtype=np.int64)
    for period, counts in enumerate(factors.by_period()):
        pits += total(counts[one.first <= period])
        flows = (one.flows[period], one.later_flows[period])
        most = int(np.abs(counts).max(initial=0)) + int(np.max(came, initial=0))
        if most + sum(map(total, flows)) >= MOST:
            raise NotProved("flows of the certificate are too large")
        counts += came
        arcs = one.arcs[period]
        np.subtract.at(counts, np.searchsorted(precedence.indptr, arcs, side="right") - 1, flows[0])
        np.add.at(counts, precedence.indices[arcs], flows[0])
        came = np.zeros_like(counts)
        np.add.at(came, one.later[period], flows[1])
        counts -= came
        bound += total(counts[counts > 0])
    return bound, pits


def _judge(one: Certificate, problem: Problem, precedence: sparse.csr_matrix) -> None:
    """Raises NotProved for anything without the form of a certificate of this instance."""
    n, periods = problem.values.shape[0], problem.periods
    lists = (one.arcs, one.flows, one.later, one.later_flows)
    _hold(one.kind == problem.kind, f"it is for a {one.kind}")
    _hold(precedence.shape == (n, n) and one.first.shape == (n,), "it has another number of blocks")
    _hold(all(len(each) == periods for each in lists), "it has another number of periods")
    _hold(0 <= one.bits <= 62, "its units are missing")
    # Each adds a product below MOST_PRODUCT to what 64 bits represent.
    _hold(problem.resources <= MOST_RESOURCES, f"it has more than {MOST_RESOURCES} resources")
    _hold(len(one.most) == len(one.least) == len(problem.limits), "it has other limits")
    for limit, upper, lower in zip(problem.limits, one.most, one.least):
        _hold(upper >= 0 and lower >= 0, "a price is below 0")
        _hold(not upper or np.isfinite(limit.most), "a limit without an upper end has a price")
        _hold(not lower or np.isfinite(limit.least), "a limit without a lower end has a price")
    for period, (arcs, flows, later, later_flows) in enumerate(zip(*lists)):
        _hold(arcs.shape == flows.shape and later.shape == later_flows.shape,
              "flows and their arcs differ in number")
        _hold(not len(later) or period + 1 < periods, "a flow leaves the last period")
        for where, end in ((arcs, precedence.nnz), (later, n)):
            _hold(bool(((where >= 0) & (where < end)).all()),
                  "a flow has an arc that does not exist")
        _hold(bool((flows >= 0).all() and (later_flows >= 0).all()), "a flow is below 0")
    waiting = np.repeat(one.first, np.diff(precedence.indptr))
    _hold(bool(np.all(waiting >= one.first[precedence.indices])),
          "its pits miss predecessors of their blocks")


def _hold(holds: bool, message: str) -> None:
    if not holds:
        raise NotProved(f"this proves no bound of the instance: {message}")


def check(one: Certificate, problem: Problem, precedence: sparse.csr_matrix,
          sums: Optional[tuple[str, str]] = None) -> Fraction:
    """Returns the bound that a certificate claims, in units of 100 cents, after it is proved: by
    its prices and flows for this instance, in integers. The sums are those of the instance's files,
    if it was read from some.

    Raises NotProved if it is a certificate for other files, or does not prove exactly its bound.
    """
    _hold(sums is None or sums == one.sums, "its sums are of other files")
    bound, pits = evaluated(one, problem, precedence)
    _hold(bound == one.bound, f"its prices and flows prove {bound} units, but it claims "
                              f"{one.bound}")
    _hold(pits == bound, f"its pits are worth {pits} units, but it claims {one.bound}")
    return one.value(problem)


# As a file


def write(certificates: Iterable[Certificate], file: IO[bytes]) -> None:
    """Writes certificates to a file that is open for bytes: an archive that numpy.load reads."""
    with zipfile.ZipFile(file, "w", zipfile.ZIP_DEFLATED, compresslevel=1) as archive:
        for one in certificates:
            header = {"form": _FORM, "kind": one.kind, "bits": one.bits, "bound": one.bound,
                      "most": one.most, "least": one.least, "sums": one.sums,
                      "arcs": list(map(len, one.arcs)), "later": list(map(len, one.later))}
            text = np.frombuffer(json.dumps(header).encode(), dtype="u1")
            arrays = {name: part if name == "first" else np.concatenate(part)
                      for name in _ARRAYS for part in [getattr(one, name)]}
            for name, array in (("header", text), *arrays.items()):
                with archive.open(f"{one.kind}-{name}.npy", "w", force_zip64=True) as part:
                    np.save(part, array.astype(_ARRAYS.get(name, "u1")), allow_pickle=False)


@contextmanager
def _opened(path: str) -> Iterator[zipfile.ZipFile]:
    """Reads a file of certificates. Raises UserError for any other or a damaged file."""
    if os.path.exists(path) and not os.path.isfile(path):
        # A device may have no end, and a pipe no beginning.
        raise UserError(f"{path}: not a file of certificates: give the file that --out wrote")
    try:
        with zipfile.ZipFile(path) as archive:
            yield archive
    except (zipfile.BadZipFile, zlib.error, EOFError, ValueError, KeyError, TypeError,
            NotImplementedError, RuntimeError, RecursionError) as error:
        raise UserError(f"{path}: not a file of certificates, or it is damaged or cut short: "
                        f"{(str(error).splitlines() or [type(error).__name__])[0]}") from None


def kinds_in(path: str) -> list[str]:
    """Returns the kinds of problems, `cpit` and `pcpsp`, for which a file has certificates.

    Raises UserError if it has none, is damaged or is cut short; OSError if it cannot be read.
    """
    with _opened(path) as archive:
        names = archive.namelist()
    kinds = [kind for kind in ("cpit", "pcpsp") if f"{kind.upper()}-header.npy" in names]
    if not kinds:
        raise UserError(f"{path}: not a file of certificates")
    return kinds


def read(path: str, kind: str, problem: Problem) -> Certificate:
    """Returns the certificate for a CPIT or a PCPSP in a file, by the kind in letters of either
    case.

    Raises UserError if the file has none, is damaged or is cut short, or arrays are longer than the
    problem needs; OSError if it cannot be read.
    """
    kind, most = kind.upper(), 2 * len(problem.values) * problem.periods
    with _opened(path) as archive:
        head = _array(archive, f"{kind}-header.npy", "<u1", _MOST_HEADER)
        return _of_parts(kind, json.loads(head.tobytes()), {
            name: _array(archive, f"{kind}-{name}.npy", dtype, most)
            for name, dtype in _ARRAYS.items()})


def _array(archive: zipfile.ZipFile, name: str, dtype: str, most: int) -> np.ndarray:
    """Reads an array of at most `most` numbers of a type. Raises ValueError for any other array."""
    part = archive.getinfo(name)
    if part.file_size > most * np.dtype(dtype).itemsize + 4096:
        raise ValueError(f"{name} is too long")
    # Other forms raise their own errors for damage.
    if part.compress_type not in (zipfile.ZIP_STORED, zipfile.ZIP_DEFLATED):
        raise ValueError(f"{name} is packed in another form")
    file = io.BytesIO(archive.read(name))
    form: Any = np.lib.format
    if form.read_magic(file) != (1, 0):
        raise ValueError(f"{name} is not an array")
    shape, _, found = form.read_array_header_1_0(file)
    array = np.frombuffer(file.read(), dtype=dtype)
    if found != np.dtype(dtype) or shape != array.shape:
        raise ValueError(f"{name} has another form")
    return array


def _of_parts(kind: str, header: Any, parts: dict[str, np.ndarray]) -> Certificate:
    """Returns a certificate from its header and arrays. Raises ValueError, KeyError or TypeError
    for anything else."""
    if header["form"] != _FORM or header["kind"] != kind:
        raise ValueError("another form")
    numbers = [header["bits"], header["bound"], *header["most"], *header["least"],
               *header["arcs"], *header["later"]]
    if any(not isinstance(number, int) or isinstance(number, bool) for number in numbers):
        raise ValueError("not integers")
    if any(number.bit_length() > _MOST_BITS for number in numbers):
        raise ValueError("a number is too large")
    lists = {}
    for name in ("arcs", "flows", "later", "later_flows"):
        lengths = header["later" if name.startswith("later") else "arcs"]
        if min(lengths) < 0 or sum(lengths) != len(parts[name]):
            raise ValueError(f"{name} differ in number from the header")
        lists[name] = np.split(parts[name], np.cumsum(lengths)[:-1])
    problem, precedence = map(str, header["sums"])
    return Certificate(kind, header["bits"], header["bound"], tuple(header["most"]),
                       tuple(header["least"]), parts["first"], **lists, sums=(problem, precedence))
