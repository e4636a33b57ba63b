"""Decimals stored as integers, as in `pitc`: texts to numbers and back without binary fractions.

A decimal with `places` decimals is an int64 of parts: 2700.5 t with 3 places is 2700500 kg.
"""
from __future__ import annotations

import math
import re
from decimal import ROUND_HALF_UP, Decimal, InvalidOperation
from typing import Optional, Sequence, Union

import numpy as np
import pandas as pd

from pit_tools.errors import UserError, quoted

# How far a float of 53 bits may be off the decimal that was written, relative to it, with a margin.
TOLERANCE = 1e-14

# Numbers of parts beyond this, as of -1e30, are held as this: no file of pitc has them.
MOST = 1e18

# Characters of a number at the most: a double's longest decimal is shorter.
LONGEST = 400

# A decimal with a point. No two of its repetitions share a character, so it is matched in linear
# time.
PLAIN = re.compile(r"[-+]?(\d+(\.\d*)?|\.\d+)([eE][-+]?\d+)?", re.ASCII)

# An exponent that is too long for the fast reader.
LONG_EXPONENT = re.compile(r"[eE][-+]?\d{4}")

# What the fast reader of tables reads as another number: an exponent of three digits or more, and a
# word for a truth value. Zeros after a point that make its number vanish.
_MISREAD = re.compile(rb"[eE](?:[-+]?0*[1-9][0-9]{2}|(?<=[tT][rR][uU][eE])"
                      rb"|(?<=[fF][aA][lL][sS][eE]))")
_VANISHES = b"." + b"0" * 300

# How many texts show whether a column has few distinct ones.
SHOWING = 1000

# The integers up to which each one is a double, and the digits that a double always holds.
MOST_EXACT, DIGITS = 2.0 ** 53, 15

# Marks of other forms of a number, and the letters before an exponent.
_SPELLINGS = str.maketrans("dD", "eE", ".,'’")

# Digits before the point, or zeros after it, that a decimal of a plan may have: a limit has 13.
MOST_DIGITS = 15


def is_decimal(text: str) -> bool:
    """Returns whether a text is a decimal with a point, with an exponent or without one."""
    return len(text) <= LONGEST and PLAIN.fullmatch(text) is not None


def is_number_like(text: str) -> bool:
    """Returns whether a cell is a number in some form: with thousands, a percent sign,
    parentheses."""
    bare = text.strip().strip("-+()%")
    return len(bare) <= LONGEST and is_decimal("".join(bare.split()).translate(_SPELLINGS))


def error_of(text: str) -> str:
    """Returns why a double does not represent the number of a text: it is not one, would become
    infinite, or 0 for a nonzero number, or another number with its decimals, at most six. Empty if
    the double does."""
    if not is_decimal(text):
        return "not a number"
    value = float(text)
    digits = text.lower().partition("e")[0].strip("+-").replace(".", "").strip("0")
    if not math.isfinite(value):
        return "too large"
    if digits and not value:
        return "too small"
    if len(digits) <= DIGITS or Decimal(text) == Decimal(value):
        return ""
    places = min(6, -int(Decimal(text).normalize().as_tuple().exponent))
    is_same = abs(value) < MOST_EXACT and rounded(text, places) == rounded(Decimal(value), places)
    return "" if is_same else "of more digits than a number may have"


def number_of(text: str) -> Optional[float]:
    """Returns the double of a decimal; None if the text is not one, or no double represents it."""
    return None if error_of(text) else float(text)


def may_be_misread(text: bytes) -> bool:
    """Returns whether pandas may read a field of lines as another number, or a double may not
    represent it."""
    return (((b"e" in text or b"E" in text) and _MISREAD.search(text) is not None)
            or _VANISHES in text or _longest_field(text) > DIGITS)


def _longest_field(text: bytes) -> int:
    blanks = np.flatnonzero(np.frombuffer(text, dtype=np.uint8) <= 32)
    return int(np.diff(blanks, prepend=-1, append=len(text)).max()) - 1


def rounded(text: Union[str, Decimal, int], places: int) -> int:
    """One decimal as a number of parts, rounded half away from zero. It raises ValueError for a
    text that is no number."""
    try:
        value = Decimal(text)
        return int(value.scaleb(places).quantize(Decimal(1), rounding=ROUND_HALF_UP))
    except InvalidOperation:
        raise ValueError(f"`{text}` is not a number") from None


def floats_of(texts: pd.Series) -> np.ndarray:
    """Returns the floats of decimals, off by at most two of the last places; NaN for a text that is
    not one, or that no float represents. Texts that appear many times, as coordinates, are read
    once."""
    if len(texts) > SHOWING and texts.iloc[:SHOWING].nunique() < SHOWING // 4:
        codes, each = pd.factorize(texts)
        return np.append(_floats_of(pd.Series(each, dtype=object)), np.nan)[codes]
    return _floats_of(texts)


def _floats_of(texts: pd.Series) -> np.ndarray:
    """Returns the same for each text. The fast reader misreads a long exponent, so these texts are
    read one by one."""
    floats = pd.to_numeric(texts, errors="coerce").to_numpy(np.float64, na_value=np.nan).copy()
    try:
        whole = "\n".join(texts.tolist())
    except TypeError:
        whole = "\n".join(texts.dropna())
    if ("e" in whole or "E" in whole) and LONG_EXPONENT.search(whole):
        is_long = texts.str.contains(LONG_EXPONENT, na=False).to_numpy()
        floats[is_long] = [number_of(text) for text in texts[is_long]]
    return floats


def parts_of(texts: pd.Series, places: int,
             floats: Optional[np.ndarray] = None) -> tuple[np.ndarray, np.ndarray]:
    """Returns decimals, given as texts with a point, as integers of 10**-places, rounded half away
    from zero.

    Each is rounded by a float if that is far enough from the middle of two numbers for the float's
    error not to matter, and otherwise by a decimal: so the result always equals the decimal's.

    It returns two arrays of the same length: int64, and bool, true for a text that is not a number
    (there the first is 0; a missing text, as None, is not one either). `floats` are those of the
    texts, if they are known already; a NaN marks a text that is not a number."""
    if floats is None:
        floats = floats_of(texts)
    wrong = ~np.isfinite(floats)
    # A product that has no float is beyond MOST too.
    most = MOST / 10.0 ** places
    scaled = np.clip(np.where(wrong, 0, floats), -most, most) * 10.0 ** places
    tolerance = np.abs(scaled) * TOLERANCE + 1e-9
    down = np.floor(scaled)
    near = np.abs(scaled - down - 0.5) <= tolerance
    parts = np.where(scaled - down < 0.5, down, down + 1).astype(np.int64)
    for at in np.flatnonzero((near | (tolerance > 0.25)) & ~wrong & (np.abs(scaled) < MOST)):
        parts[at] = rounded(texts.iloc[at].strip(), places)
    return parts, wrong


def texts_of(parts: Union[np.ndarray, Sequence[int]], places: int) -> np.ndarray:
    """Returns integers of 10**-places as texts with exactly `places` decimals, an object array of
    str."""
    numbers = np.asarray(parts, np.int64)
    if not places:
        return numbers.astype(str).astype(object)
    sign = np.where(numbers < 0, "-", "")
    whole, rest = np.divmod(np.abs(numbers), 10 ** places)
    texts = np.char.add(np.char.add(sign, whole.astype(str)), ".")
    return np.char.add(texts, np.char.zfill(rest.astype(str), places)).astype(object)


def in_short(parts: int, places: int) -> str:
    """One such number as the shortest text: no needless zero, and no point without a fraction."""
    return plain(Decimal(int(parts)).scaleb(-places))


def plain(value: Union[Decimal, int]) -> str:
    """A Decimal as the shortest text, without an exponent."""
    text = f"{Decimal(value):f}"
    text = text.rstrip("0").rstrip(".") if "." in text else text
    return "0" if text in ("-0", "") else text


def decimal_of(text: str, what: str) -> Decimal:
    """Returns a decimal of a plan or an option, exact. It raises UserError, which names its
    purpose."""
    value = Decimal(text) if is_decimal(text := text.strip()) else None
    if value is None:
        raise UserError(f"{what}: {quoted(text)} is not a number")
    if abs(value.adjusted()) > MOST_DIGITS:
        raise UserError(f"{what}: {quoted(text)} is too large or too small a number")
    return value


def integer_of(text: str) -> Optional[int]:
    """Returns an integer from 0 on, of at most 18 digits; None for any other text."""
    return int(text) if len(text) <= 18 and text.isascii() and text.isdecimal() else None
