"""Lines of files as other programs write them: some megabytes at a time, each with its number.

A byte order mark, CR, comments from `%` on and a last line `EOF` are dropped, and a comma is a
blank. Anything but a number that a double represents is an error with its line.
"""
from __future__ import annotations

import csv
import io
import itertools
import os
import re
import warnings
from dataclasses import dataclass
from typing import BinaryIO, Iterable, Iterator, NoReturn, Optional, Sequence

import numpy as np
import pandas as pd

from pit_tools.errors import UserError, quoted
from pit_tools.files import inputs
from pit_tools.texts.decimals import error_of, may_be_misread, integer_of
from pit_tools.texts.number_texts import EXACT, FEWEST, NotHeld, nearest

#: Bytes that are read at a time, and that a line may have.
_CHUNK = 1 << 22
LONGEST = 1 << 26

#: Characters of a line of few fields, and bytes of a file of such lines.
MOST_LINE, MOST_FILE = 1 << 16, 2_000_000_000

_COMMENT, _COMMENT_LINE = re.compile(rb"%[^\n]*"), re.compile(rb"(?m)^[ \t]*%[^\n]*")
_END = re.compile(rb"(?im)^[ \t]*eof[ \t]*$")


class Changes:
    """Changes and omissions, one line each."""

    def __init__(self) -> None:
        self.lines: list[str] = []

    def add(self, text: str) -> None:
        """Adds a line."""
        self.lines.append(text)

    def report_rows(self, chunks: Iterable["Chunk"], row: int, count: int, text: str) -> None:
        """Adds a line about `count` rows, of which `row` is the first one in these parts."""
        chunk, row = _chunk_of(chunks, row)
        number, _ = chunk.line_of(row)
        more = f" and {count - 1} more" if count > 1 else ""
        self.add(f"{os.path.basename(chunk.path)}: line {number}{more}: {text}")


@dataclass(frozen=True)
class Chunk:
    """Complete lines of a file, each with LF at its end; its rows are the lines that have a
    field."""

    path: str
    first: int  #: the number of its first line, counted from 1
    text: bytes

    def lines(self) -> Iterator[tuple[int, str]]:
        """The number and the text of each row."""
        for number, line in enumerate(self.text.split(b"\n"), self.first):
            if line.strip():
                yield number, line.strip().decode("utf-8", "replace")

    def line_of(self, row: int) -> tuple[int, str]:
        """The number and the text of a row."""
        for at, line in enumerate(self.lines()):
            if at == row:
                return line
        raise IndexError(row)

    def reject(self, row: int, message: str) -> NoReturn:
        """Raises UserError for a row, with its line."""
        number, text = self.line_of(row)
        raise UserError(f"{self.path}: line {number}: {message}: {quoted(text)}")

    def integers(self, numbers: np.ndarray, what: str, least: int = 0,
                 most: int = 2**31 - 1) -> np.ndarray:
        """Returns numbers of its rows as int32.

        Raises UserError, with the line, if one is not an integer or out of range.
        """
        is_wrong = (numbers != np.floor(numbers)) | (numbers < least) | (numbers > most)
        if is_wrong.any():
            row = int(is_wrong.argmax())
            self.reject(row, f"{what} is {numbers[row]:.15g}, not an integer from {least} to "
                             f"{most}")
        return numbers.astype(np.int32)

    def at_keys(self) -> Iterator[tuple["Chunk", bool]]:
        """Yields its lines with a colon, and the parts between them: whether it is such a line."""
        done, number = 0, self.first
        while done < len(self.text):
            colon = self.text.find(b":", done)
            start = self.text.rfind(b"\n", done, colon) + 1 or done
            is_key = start == done and colon >= 0
            end = (self.text.find(b"\n", colon) + 1 if is_key else start if colon >= 0
                   else len(self.text))
            yield Chunk(self.path, number, self.text[done:end]), is_key
            number += self.text.count(b"\n", done, end)
            done = end

    def between(self, start: int, end: int) -> "Chunk":
        """Returns the lines between two positions of its text, each after a line end."""
        return Chunk(self.path, self.first + self.text.count(b"\n", 0, start), self.text[start:end])


def _chunk_of(chunks: Iterable[Chunk], row: int) -> tuple[Chunk, int]:
    """Returns the part that has a row of all parts, and the index of the row there."""
    for chunk in chunks:
        rows = len(line_lengths(chunk.text))
        if row < rows:
            return chunk, row
        row -= rows
    raise IndexError(row)


def reject_row(chunks: Iterable[Chunk], row: int, changes: str) -> NoReturn:
    """Raises UserError for a row of all these parts, with its line."""
    chunk, row = _chunk_of(chunks, row)
    chunk.reject(row, changes)


def numbered_lines(path: str, most: int = MOST_LINE) -> Iterator[tuple[int, str]]:
    """Yields the lines of a text in UTF-8 that the command reads, with their numbers from 1 on. A
    mark at the start is dropped.

    Raises UserError, with the line, if it has more than `most` characters, or the file more than 2
    GB; OSError if the file cannot be read.
    """
    inputs.reads(path)
    with open(path, encoding="utf-8-sig", errors="replace") as file:
        size, taken = os.fstat(file.fileno()).st_size, 0
        for number in itertools.count(1):
            line = file.readline(most + 1)
            if not line:
                return
            taken += len(line)
            # A pipe has no size.
            if max(size, taken) > MOST_FILE:
                raise UserError(f"{path}: line {number}: the file has more than {MOST_FILE:,} "
                                "bytes")
            if len(line) > most:
                raise UserError(f"{path}: line {number}: it has more than {most:,} characters")
            yield number, line


def block_lines(path: str) -> Iterator[tuple[int, Optional[int], list[str]]]:
    """Yields the lines of a pit or a schedule that have fields: their numbers, the block that
    begins each, None if it is not a block, and the fields. Raises UserError as `numbered_lines`
    does."""
    for number, line in numbered_lines(path):
        if fields := line.split():
            yield number, integer_of(fields[0]), fields


def opened(path: str) -> BinaryIO:
    """A file that the command reads. Raises UserError if it cannot be opened."""
    try:
        inputs.reads(path)
        return open(path, "rb")
    except OSError as error:
        raise UserError(f"cannot open {path}: {error.strerror}") from None


def complete_lines(path: str) -> Iterator[bytes]:
    """Yields the bytes of a file, cut at line ends, without a mark at the start.

    Raises UserError if it cannot be opened and, with the line, if one is longer than 64 MB.
    """
    with opened(path) as file:
        rest, number = file.read(3), 1
        rest = b"" if rest == b"\xef\xbb\xbf" else rest
        while more := file.read(_CHUNK):
            cut = more.rfind(b"\n") + 1
            if cut:
                number += rest.count(b"\n") + more.count(b"\n")
                yield rest + more[:cut]
                rest = more[cut:]
            else:
                rest += more
            if len(rest) > LONGEST:
                raise UserError(f"{path}: line {number} is longer than {LONGEST >> 20} MB")
        if rest:
            yield rest + b"\n"


def chunks_of(path: str, is_own: bool = False) -> Iterator[Chunk]:
    """Yields the lines of a file. In a file of `pitc`, `is_own`, a comment is a complete line, a
    comma is not a blank, and `EOF` ends nothing.

    Raises UserError if it cannot be opened, is not text, or has lines after `EOF`.
    """
    number, has_ended = 1, False
    for text in complete_lines(path):
        count = text.count(b"\n")
        if b"\0" in text:
            raise UserError(f"{path}: it has bytes of 0, so it is not text of ASCII or UTF-8")
        chunk = Chunk(path, number, _own(text) if is_own else _plain(text))
        may_end = not is_own and (b"f" in text or b"F" in text)
        if end := _END.search(chunk.text) if may_end else None:
            remainder = chunk.between(end.end() + 1, len(chunk.text))
            chunk, has_ended = chunk.between(0, end.start()), True
        elif has_ended:
            chunk, remainder = Chunk(path, number, b""), chunk
        if has_ended and remainder.text.strip():
            remainder.reject(0, "it follows EOF")
        number += count
        if chunk.text.strip():
            yield chunk


def _own(text: bytes) -> bytes:
    if b"\r" in text:
        text = text.replace(b"\r\n", b"\n")
    return _COMMENT_LINE.sub(b"", text) if b"%" in text else text


def _plain(text: bytes) -> bytes:
    if b"\r" in text:
        text = text.replace(b"\r", b" ")
    if b"%" in text:
        text = _COMMENT.sub(b"", text)
    return text.replace(b",", b" ") if b"," in text else text


def line_lengths(text: bytes) -> np.ndarray:
    """How many fields each line has that has one."""
    characters = np.frombuffer(text, dtype=np.uint8)
    is_blank = characters <= 32
    begins = ~is_blank
    begins[1:] &= is_blank[:-1]
    so_far = np.searchsorted(np.flatnonzero(begins), np.flatnonzero(characters == 10))
    lengths = np.diff(so_far, prepend=0)
    return lengths[lengths > 0]


def integers_of(text: bytes) -> np.ndarray:
    """Returns the integers of a text, int64, with blanks between; none of them if one field is not
    an integer."""
    with warnings.catch_warnings():
        warnings.simplefilter("error", DeprecationWarning)
        try:
            return np.fromstring(text, dtype=np.int64, sep=" ")
        except (ValueError, DeprecationWarning):
            return np.empty(0, dtype=np.int64)


def numbers_of(chunk: Chunk, fields: Sequence[int], what: str,
               length: Optional[int] = None) -> np.ndarray:
    """Returns the numbers of some fields of each row, float64 (fields, rows); fields count from 0.

    Raises UserError, with the line, if a row does not have `length` fields or misses one of these,
    or if one is not a number, infinite, NaN, or so small that it would become 0.
    """
    lengths = line_lengths(chunk.text)
    last = max(fields)
    is_wrong = lengths <= last if length is None else lengths != length
    if is_wrong.any():
        wanted = f"at least {last + 1}" if length is None else str(length)
        row = int(is_wrong.argmax())
        chunk.reject(row, f"{lengths[row]} fields, but {what} has {wanted}")
    is_hard = may_be_misread(chunk.text)
    if is_hard:
        _look_at_each(chunk, fields, what)
    # With a fixed length all fields are read: pandas then rejects a row with more, as control bytes
    # make one. With `usecols` it would drop them.
    try:
        table = pd.read_csv(io.BytesIO(chunk.text), sep=r"\s+", header=None, dtype=float,
                            names=range(max(last + 1, int(lengths.max()))), index_col=False,
                            usecols=None if length else sorted(set(fields)), na_filter=False,
                            quoting=csv.QUOTE_NONE,
                            float_precision="round_trip" if is_hard else "high")
        found = np.stack([table[field].to_numpy() for field in fields])
    except (ValueError, OverflowError, pd.errors.ParserError):
        found = np.full((1, 1), np.nan)
    if not np.isfinite(found).all():
        _look_at_each(chunk, fields, what)
        raise UserError(f"{chunk.path}: {what} in lines from {chunk.first} on cannot be read")
    return found


def _look_at_each(chunk: Chunk, fields: Sequence[int], what: str) -> None:
    """Rejects the first row with a field that a double does not represent."""
    for row, (_, line) in enumerate(chunk.lines()):
        cells = line.split()
        for field in fields:
            cell = "".join(cells[field:field + 1])
            if fault := error_of(cell):
                chunk.reject(row, f"field {field + 1} of {what}, {quoted(cell)}, is {fault}")


def _first_row(is_it: np.ndarray) -> int:
    """Returns the first row where one of (rows,) or (columns, rows) is true."""
    return int(np.atleast_2d(is_it).any(axis=0).argmax())


class Rounding:
    """Rounds numbers to decimals, and counts those that had more. A number above about nine billion
    keeps two, since six could not be distinguished."""

    def __init__(self, decimals: int):
        self.decimals = decimals
        self.rows = 0
        self.count = 0
        self.first = 0

    def of(self, chunk: Chunk, numbers: np.ndarray, what: str) -> np.ndarray:
        """The numbers (rows,) or (columns, rows), each as the float nearest to its decimals.

        Raises UserError, with the line, if one is too great for them.
        """
        try:
            rounded, is_off = nearest(numbers, self.decimals)
        except NotHeld:
            is_wrong = np.abs(numbers) * 10**FEWEST >= EXACT
            chunk.reject(_first_row(is_wrong), f"{what} is too large")
        if is_off.any():
            if not self.count:
                self.first = self.rows + _first_row(is_off)
            self.count += int(is_off.sum())
        self.rows += numbers.shape[-1]
        return rounded

    def report(self, chunks: Iterable[Chunk], what: str, changes: Optional[Changes]) -> None:
        """Reports how many were rounded, if one was; raises UserError if there is no `changes`."""
        if self.count and changes is None:
            reject_row(chunks, self.first, f"a number has more than {self.decimals} decimals")
        if self.count and changes is not None:
            changes.report_rows(chunks, self.first, self.count,
                                f"{what} rounded to {self.decimals} decimals")
