"""Decimals as an instance's files encode them: complete lines of many rows at once.

A decimal is written as its shortest text: a minus only below zero, a digit before the point, no
needless zero. Numbers are given as integer multiples of a power of ten, so nothing is rounded here.
"""
from __future__ import annotations

from functools import lru_cache
from typing import Iterator, Sequence, Union

import numpy as np

from pit_tools.errors import UserError

#: A part of each of n lines: the same bytes, or the bytes in memory of an array (n,). Zero bytes
#: are dropped.
Part = Union[bytes, np.ndarray]

#: Lines that are made at a time: they stay in a processor's own memory.
ROWS = 1 << 14

#: The largest integer up to which each one has its own float.
EXACT = 2**53

#: Decimals of numbers that are too great for more.
FEWEST = 2


class NotHeld(UserError, OverflowError):
    """A number that a float does not hold to its decimals."""


def scaled(values: np.ndarray, decimals: int) -> np.ndarray:
    """Returns the values as integer multiples of 10^-decimals, int64.

    Raises NotHeld if one is infinite, NaN, or too large for its decimals to be distinguished.
    """
    multiples = np.rint(np.asarray(values, dtype=float) * 10**decimals)
    if multiples.size and not np.abs(multiples).max() < EXACT:
        raise NotHeld(f"a number above {EXACT // 10**decimals:,} with {decimals} decimals")
    return multiples.astype(np.int64)


def scales(values: np.ndarray, decimals: int) -> np.ndarray:
    """Returns 10^decimals for each value, or 10^2 if it is too large for these decimals to be
    distinguished.

    Raises NotHeld if one is infinite, NaN, or too large for two.
    """
    is_great = ~(np.abs(values) * 10.0**decimals < EXACT)
    if not is_great.any():
        return np.full(np.shape(values), 10.0**decimals)
    if not (np.abs(values[is_great]) * 10.0**FEWEST < EXACT).all():
        raise NotHeld(f"a number above {EXACT // 10**FEWEST:,}, or one that is infinite or NaN,")
    return np.where(is_great, 10.0**FEWEST, 10.0**decimals)


def nearest(values: np.ndarray, decimals: int) -> tuple[np.ndarray, np.ndarray]:
    """The floats that are nearest to these values' decimals, and which of the values had more of
    them than they may have. A reader may be off by two of the last places.

    Raises NotHeld as `scales` does.
    """
    of_each = scales(values, decimals)
    multiples = values * of_each
    whole = np.rint(multiples)
    return whole / of_each, np.abs(multiples - whole) > 4 * np.spacing(np.abs(multiples))


def multiples_of(values: np.ndarray,
                 choices: Sequence[int] = range(2, 7)) -> tuple[np.ndarray, int]:
    """Returns the values as integer multiples of 10^-decimals, int64, and these decimals: the
    fewest of `choices` that represent all of them exactly. Sums of the multiples are exact.

    Raises NotHeld if a value is infinite, NaN, too large for the decimals of the others, or has
    more decimals than any of the choices.
    """
    values = np.asarray(values, dtype=float)
    decimals = next((one for one in choices if not nearest(values, one)[1].any()), None)
    if decimals is None:
        raise NotHeld(f"a number with more than {choices[-1]} decimals: round the values first")
    multiples = scaled(values, decimals)
    if np.abs(multiples).sum(dtype=float) >= 2.0**62:
        raise NotHeld(f"the sum of all values with {decimals} decimals")
    return multiples, decimals


def at_least_cents(value: float) -> str:
    """Returns a value with two decimals, or with its own, at most six."""
    cents, text = f"{value:.2f}", shortest(value)
    return text if len(text) > len(cents) and float(cents) != value else cents


@lru_cache(None)
def _digits() -> tuple[np.ndarray, np.ndarray, np.ndarray]:
    """The four digits of 0 to 9999, as numbers of four bytes, in three tables. The first has
    them without leading zeros, the second too, except a 0, and the third without trailing
    zeros. Each continues with all four digits of each."""
    places = np.arange(10_000)[:, None] // [1000, 100, 10, 1] % 10
    whole = (places + ord("0")).astype(np.uint8)
    leading = np.where(np.logical_or.accumulate(places > 0, axis=1), whole, 0).astype(np.uint8)
    last = leading.copy()
    last[0, 3] = ord("0")
    trailing = np.where(np.logical_or.accumulate(places[:, ::-1] > 0, axis=1)[:, ::-1], whole, 0)
    first, second, third = (np.concatenate([table.astype(np.uint8), whole]).view(np.uint32).ravel()
                            for table in (leading, last, trailing))
    return first, second, third


def _groups(numbers: np.ndarray, count: int) -> list[np.ndarray]:
    """The last `count` groups of four digits of numbers from 0 on, the first group first."""
    groups: list[np.ndarray] = []
    for _ in range(count):
        above = numbers // 10_000
        groups.insert(0, (numbers - above * 10_000).astype(np.intp))
        numbers = above
    return groups


def equal_parts(numbers: np.ndarray) -> list[Part]:
    """Integers from 0 on."""
    most = int(numbers.max(initial=0))
    numbers = numbers.astype(np.uint32 if most < 2**32 else np.uint64)
    groups = _groups(numbers, (len(str(most)) + 3) // 4)
    leading, last, _ = _digits()
    parts: list[Part] = []
    for at, group in enumerate(groups):
        if at:
            group[numbers >= 10_000 ** (len(groups) - at)] += 10_000
        parts.append((last if at == len(groups) - 1 else leading)[group])
    return parts


def decimal_parts(whole: np.ndarray, fraction: np.ndarray, decimals: int) -> list[Part]:
    """Encodes decimals from 0 on as their shortest texts: an integer, and a fraction with a number
    of decimals."""
    parts = equal_parts(whole)
    if not fraction.any():
        return parts
    count = (decimals + 3) // 4
    groups = _groups(fraction.astype(np.uint64) * 10 ** (4 * count - decimals), count)
    is_needed = np.zeros(len(fraction), dtype=bool)
    shown: list[Part] = []
    for group in groups[::-1]:
        some = group > 0
        group[is_needed] += 10_000
        shown.insert(0, _digits()[2][group])
        is_needed |= some
    return [*parts, np.where(is_needed, ord("."), 0).astype(np.uint8), *shown]


def rounded(sizes: np.ndarray, decimals: int) -> tuple[np.ndarray, np.ndarray]:
    """Returns floats from 0 on as `format` rounds them to decimals: integers and fractions, uint64.

    Raises NotHeld if one is infinite, NaN or 10^18 and above.
    """
    if not (sizes < 1e18).all():
        raise NotHeld("a number of 10^18 and above, or one that is infinite or NaN,")
    whole = sizes.astype(np.uint64)
    scaled_up = (sizes - whole) * 10**decimals
    fraction = np.rint(scaled_up)
    # The product is off by its last place: near a half this may be another number.
    is_near = np.abs(np.abs(scaled_up - fraction) - 0.5) <= 4 * np.spacing(scaled_up)
    for at in np.flatnonzero(is_near):
        digits = f"{sizes[at]:.{decimals}f}".replace(".", "")
        fraction[at] = int(digits) - int(whole[at]) * 10**decimals
    carried = fraction == 10**decimals
    return whole + carried.astype(np.uint64), np.where(carried, 0, fraction).astype(np.uint64)


def float_parts(values: np.ndarray, decimals: int) -> list[Part]:
    """Floats as `shortest` writes them."""
    whole, fraction = rounded(np.abs(values), decimals)
    is_below = (values < 0) & ((whole > 0) | (fraction > 0))
    minus = np.where(is_below, ord("-"), 0).astype(np.uint8)
    return [minus, *decimal_parts(whole, fraction, decimals)]


def signed_parts(multiples: np.ndarray, decimals: int) -> list[Part]:
    """Encodes decimals as integer multiples of 10^-decimals: only numbers below zero have a
    minus."""
    size = np.abs(multiples)
    parts: list[Part] = []
    if (multiples < 0).any():
        parts.append(np.where(multiples < 0, ord("-"), 0).astype(np.uint8))
    if decimals == 0:
        return parts + equal_parts(size)
    whole = size // 10**decimals
    return parts + decimal_parts(whole, size - whole * 10**decimals, decimals)


def laid(parts: Sequence[Part], count: int) -> np.ndarray:
    """Parts one after the other in each of the lines, (count,), which are a part too."""
    lines = np.empty(count, [(f"part{at}", f"S{len(part)}" if isinstance(part, bytes)
                              else part.dtype) for at, part in enumerate(parts)])
    for at, part in enumerate(parts):
        lines[f"part{at}"] = part
    return lines.view(f"V{lines.itemsize}")


def spread(part: np.ndarray, lines: np.ndarray, count: int) -> np.ndarray:
    """A part of some of the lines, by their places, as one of all."""
    every = np.zeros(count, part.dtype)
    every[lines] = part
    return every


def joined(parts: Sequence[Part], count: int) -> bytes:
    """The lines of parts, one after the other."""
    return laid(parts, count).tobytes().translate(None, b"\0")


def lines_of(columns: Sequence[tuple[np.ndarray, int]], ends: Union[bytes, np.ndarray] = b"\n",
             begin: bytes = b"") -> Iterator[bytes]:
    """Yields lines of n rows that begin with the same bytes, their fields with one blank between,
    some thousand rows at a time.

    A column is n integers and the number of their decimals: (array([25]), 1) is 2.5. If `ends` is
    an array (n,), the byte ends[i] follows row i.
    """
    for at in range(0, len(columns[0][0]), ROWS):
        rows = slice(at, at + ROWS)
        parts: list[Part] = [begin] if begin else []
        for multiples, decimals in columns:
            parts += [*signed_parts(np.asarray(multiples[rows], dtype=np.int64), decimals), b" "]
        parts[-1] = ends if isinstance(ends, bytes) else ends[rows]
        yield joined(parts, len(columns[0][0][rows]))


def lines_of_values(whole: Sequence[np.ndarray], values: Sequence[np.ndarray],
                    choices: Sequence[int]) -> Iterator[bytes]:
    """Yields lines of integers and then of values, with the fewest of these decimals that represent
    them all, or each value with its own if some are too large for that.

    Raises NotHeld if one is infinite, NaN, too large for two decimals, or has more decimals than
    any of the choices.
    """
    decimals = next((choice for choice in choices if not any(
        nearest(column, choice)[1].any() for column in values)), None)
    if decimals is None:
        raise NotHeld(f"a number with more than {choices[-1]} decimals: round the values first")
    if all(np.abs(column).max(initial=0) * 10.0**decimals < EXACT for column in values):
        yield from lines_of([*((column, 0) for column in whole),
                             *((scaled(column, decimals), decimals) for column in values)])
        return
    places = [np.rint(np.log10(scales(column, decimals))).astype(int) for column in values]
    for at in range(len(values[0])):
        cells = [str(column[at]) for column in whole]
        cells += [shortest(float(column[at]), int(place[at]))
                  for column, place in zip(values, places)]
        yield (" ".join(cells) + "\n").encode()


def shortest(value: float, decimals: int = 6) -> str:
    """One number as its shortest decimal: 0.08, 12, -3.5."""
    text = f"{value:.{decimals}f}"
    text = text.rstrip("0").rstrip(".") if "." in text else text
    return "0" if text == "-0" else text


def with_commas(value: float, decimals: int = 0) -> str:
    """One number with commas between thousands; a zero has no minus."""
    text = f"{value:,.{decimals}f}"
    return text[1:] if text.startswith("-") and not text.strip("-0.,") else text
