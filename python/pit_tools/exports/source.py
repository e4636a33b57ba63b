"""Opens an export and finds how it is written: packed, its encoding, its separator, its header,
rows of units; a workbook, Parquet, a GSLIB file or a list without a header too. Pandas yields the
rows as texts, in parts."""
from __future__ import annotations

import bz2
import codecs
import csv
import gzip
import io
import lzma
import os
import re
import stat
import struct
import zipfile
import zlib
from contextlib import contextmanager, suppress
from dataclasses import dataclass, field
from itertools import islice
from typing import IO, Any, BinaryIO, Callable, Iterator, Optional, Sequence, TextIO, Union

import numpy as np
import pandas as pd

from pit_tools.errors import UserError
from pit_tools.exports.workbook import cell_name, sheets_of
from pit_tools.files.parquet import MARK, frame_of, texts_of
from pit_tools.texts.decimals import is_number_like, integer_of
from pit_tools.texts.formulas import MissingColumn, plain_name

# How many rows are texts at a time.
CHUNK = 100_000

# How many bytes are looked at at a time.
PIECE = 1 << 22

# The most bytes of a line, and of a cell in quotes with all its lines; and the number of characters
# in which the header is searched.
MOST_LINE = 1 << 24
HEAD = 1 << 20

# The most columns: those of a sheet.
MOST_COLUMNS = 16_384

# How many times its size an archive may unpack to, if that exceeds this number of bytes.
MOST_TIMES, LEAST_UNPACKED = 200, 1 << 24

# How much of a line is searched for what may be wrong, and how much of a cell is reported.
LOOKED_AT, SHOWN = 1000, 60

csv.field_size_limit(MOST_LINE)

# Four letters beyond ASCII in sequence, as Cyrillic words have in their encodings of one byte.
CYRILLIC = re.compile(rb"[\xc0-\xff]{4}")
LIKE_CYRILLIC = ": its words look Cyrillic, so is it --encoding cp1251?"

# Among how many lines the header is looked for.
HEAD_LINES = 100

# Separators as blanks.
BLANKED = str.maketrans(",;|", "   ")

SEPARATORS = {",": "commas", ";": "semicolons", "\t": "tabs", "|": "bars", " ": "blanks"}


def reject_pipe(path: str) -> None:
    """Raises UserError for a file that can be read only once: exports are read several times."""
    mode = os.stat(path).st_mode
    if not stat.S_ISREG(mode) and not stat.S_ISDIR(mode):
        raise UserError(f"{path}: it is a pipe or a device, but is read more than once: write it "
                        "into a file first")


def opened(path: str) -> BinaryIO:
    """Returns the bytes of a file, unpacked if it is a gzip, bzip2, xz or zip file of one text."""
    reject_pipe(path)
    with open(path, "rb") as file:
        prefix = file.read(6)
    for mark, unpack in UNPACKERS:
        if prefix.startswith(mark):
            return io.BufferedReader(Unpacked(path, unpack), 1 << 16)
    return open(path, "rb")


def _only_file_of(path: str) -> IO[bytes]:
    """The one file of a zip archive."""
    archive = zipfile.ZipFile(path)  # pylint: disable=consider-using-with
    names = [name for name in archive.namelist() if not name.endswith("/")]
    if "mimetype" in names and "content.xml" in names:
        raise UserError(f"{path}: it is a sheet of OpenDocument (.ods): save it as .xlsx or as CSV")
    if len(names) != 1:
        raise UserError(f"{path}: the archive has {len(names)} files: unpack it, and name one")
    return archive.open(names[0])


#: Opens an archive: returns a file of bytes.
Unpacker = Callable[[str], Union[io.BufferedIOBase, IO[bytes]]]

#: The first bytes of archives, and what opens them.
UNPACKERS: list[tuple[bytes, Unpacker]] = [(b"\x1f\x8b", gzip.open), (b"BZh", bz2.open),
                                           (b"\xfd7zXZ", lzma.open), (b"PK\x03\x04", _only_file_of)]


class Unpacked(io.RawIOBase):
    """The contents of an archive. Raises UserError if it is damaged, cut short, or grows too
    large."""

    def __init__(self, path: str, unpack: Unpacker) -> None:
        self.path, self.count = path, 0
        self.most = max(LEAST_UNPACKED, MOST_TIMES * os.path.getsize(path))
        self.file = self.read_by(lambda: unpack(path))

    def readable(self) -> bool:
        return True

    def readinto(self, buffer: Any) -> int:
        chunk = self.read_by(lambda: self.file.read(len(buffer)))
        buffer[:len(chunk)] = chunk
        self.count += len(chunk)
        if self.count > self.most:
            raise _beyond_measure(self.path, "archive")
        return len(chunk)

    def read_by(self, step: Callable[[], Any]) -> Any:
        """Returns the result of a step; errors get the archive's name."""
        try:
            return step()
        except (EOFError, zlib.error, lzma.LZMAError, zipfile.BadZipFile, gzip.BadGzipFile,
                RuntimeError, NotImplementedError, ValueError, struct.error) as error:
            raise UserError(f"{self.path}: the archive is cut short or damaged, or locked: "
                            f"{' '.join(str(error).split())}") from None
        except OSError as error:
            if error.errno:
                raise
            raise UserError(f"{self.path}: the archive is damaged: {error}") from None

    def close(self) -> None:
        if not self.closed:
            self.file.close()
        super().close()


def is_workbook(path: str) -> bool:
    """Returns whether a file is a workbook of the kind .xlsx. It raises UserError for one that
    grows too large; the code that unpacks a damaged archive reports it."""
    reject_pipe(path)
    with open(path, "rb") as file:
        if file.read(4) != b"PK\x03\x04":
            return False
    try:
        with zipfile.ZipFile(path) as archive:
            parts = {part.filename: part.file_size for part in archive.infolist()}
    except (zipfile.BadZipFile, NotImplementedError, ValueError, struct.error):
        return False
    if "xl/workbook.xml" not in parts:
        return False
    if sum(parts.values()) > max(LEAST_UNPACKED, MOST_TIMES * os.path.getsize(path)):
        raise _beyond_measure(path, "workbook")
    return True


def _beyond_measure(path: str, what: str) -> UserError:
    return UserError(f"{path}: the {what} unpacks to more than {MOST_TIMES} times its size: unpack "
                     "it first, and inspect it")


def encoding_of(path: str) -> tuple[str, str]:
    """Returns the encoding of a text, and what to report about it: by its mark, by its zero bytes,
    or by trying UTF-8 over all of it. It raises UserError as `judge_text` does."""
    with opened(path) as file:
        prefix = file.read(4096)
    even, odd = prefix[::2].count(0), prefix[1::2].count(0)
    if prefix.startswith(b"\xd0\xcf\x11\xe0"):
        raise UserError(f"{path}: it is a workbook of the old kind (.xls): save it as .xlsx or as "
                        "CSV")
    if prefix.startswith((codecs.BOM_UTF16_LE, codecs.BOM_UTF16_BE)):
        name, message = "utf-16", "UTF-16"
    elif odd > len(prefix) // 3 and even < odd // 20 + 1:
        name, message = "utf-16-le", "UTF-16 without a mark"
    elif even > len(prefix) // 3 and odd < even // 20 + 1:
        name, message = "utf-16-be", "UTF-16 without a mark"
    else:
        name, message = "utf-8-sig" if prefix.startswith(codecs.BOM_UTF8) else "utf-8", "UTF-8"
    try:
        judge_text(path, name, "strict" if name == "utf-8" else "replace")
    except UnicodeDecodeError as error:
        # Cyrillic words that cp1252 shows, such as Âîñòîê.
        like = LIKE_CYRILLIC if CYRILLIC.search(error.object) else "; choose another by --encoding"
        name, message = "cp1252", f"not UTF-8, read as cp1252 (Western Windows){like}"
        judge_text(path, name, "replace")
    return name, message


def judge_text(path: str, encoding: str, errors: str = "strict") -> None:
    """Reads all of a text. It raises UserError for a zero byte, with its line, since readers end a
    cell there, and UnicodeError if the text does not have this encoding."""
    lines = 1
    with io.TextIOWrapper(opened(path), encoding=encoding, errors=errors, newline="") as text:
        while chunk := text.read(PIECE):
            if (at := chunk.find("\0")) >= 0:
                lines += chunk.count("\n", 0, at)
                cell = chunk[chunk.rfind("\n", 0, at) + 1:at][-SHOWN:]
                raise UserError(f"{path}: line {lines}: a zero byte follows `{cell}`, which no "
                                "text has: is the file damaged? Export it as CSV")
            lines += chunk.count("\n")


@dataclass
class Source:
    """An export: its form, and its columns.

    `names` come from the header, or from `--names`. `above` is the number of lines above the header
    or, if there is none, above the first row; `units` are the rows between the header and the first
    number. `sheet` has the cells of a workbook's sheet as texts, and of Parquet the columns as
    pandas reads them."""

    path: str
    encoding: str
    encoding_text: str
    separator: str
    names: list[str]
    above: int
    has_header: bool
    header_line: int
    kind: str = "text"
    units: list[list[str]] = field(default_factory=list)
    sheet: Optional[pd.DataFrame] = None
    sheet_name: str = ""
    sheets_omitted: list[str] = field(default_factory=list)

    def __post_init__(self) -> None:
        if len(self.names) > MOST_COLUMNS:
            raise UserError(f"{self.path}: {_too_wide(self.names)}")

    def description(self) -> str:
        """Describes in words how the export is written."""
        if self.kind == "Parquet":
            return f"{self.path}: Parquet, {len(self.names):,} columns"
        if self.kind == "workbook":
            how = f"sheet `{self.sheet_name}` of a workbook"
        elif self.kind == "GSLIB":
            how = f"GSLIB, {self.encoding_text}"
        else:
            how = (f"cells between {SEPARATORS.get(self.separator, repr(self.separator))}, "
                   f"{self.encoding_text}")
        header = f"header in line {self.header_line}" if self.has_header else "no header"
        units = (f"; {len(self.units)} between it and the first number omitted" if self.units
                 else "")
        omitted = ", ".join(f"`{name}`" for name in self.sheets_omitted)
        without = f"; omitted: {omitted}, without these columns" if omitted else ""
        return f"{self.path}: {how}; {header}{units}{without}"

    def warnings(self) -> list[str]:
        """Yields warnings about how it is read."""
        return ([f"{self.path}: {self.encoding_text}"]
                if self.encoding_text.endswith(LIKE_CYRILLIC) else [])

    def lines_above(self) -> list[str]:
        """The lines above the header, such as comments of the package."""
        if self.sheet is not None or not self.has_header:
            return []
        with io.TextIOWrapper(opened(self.path), encoding=self.encoding, errors="replace",
                              newline="") as text:
            return [text.readline().strip() for _ in range(self.above)]

    @contextmanager
    def handle(self) -> Iterator[io.TextIOWrapper]:
        """The text from the header on, or from the first row."""
        text = io.TextIOWrapper(opened(self.path), encoding=self.encoding, errors="replace",
                                newline="")
        try:
            for _ in range(self.above):
                text.readline()
            yield text
        finally:
            # All was read, or another error is reported: a failure to close it means nothing.
            with suppress(OSError):
                text.close()

    def chunks(self, columns: Sequence[int]) -> Iterator[pd.DataFrame]:
        """The rows as texts, the columns being numbers of the header's; the index counts
        records from 0, the header being record 0 if there is one. It raises UserError for a
        row of another width."""
        wanted = sorted(columns)
        if self.sheet is not None and self.kind == "Parquet":
            for start in range(0, len(self.sheet), CHUNK):
                yield texts_of(self.sheet.iloc[start:start + CHUNK, wanted])
            return
        if self.sheet is not None:
            yield (self.sheet.iloc[1 if self.has_header else 0:][wanted].reset_index(drop=True)
                   .rename(lambda at: at + self.has_header))
            return
        self.judge_widths()
        blank = self.separator == " "
        try:
            with self.handle() as text, pd.read_csv(text, sep=r"\s+" if blank else self.separator,
                                                    header=None, dtype=str, usecols=wanted,
                                                    keep_default_na=False, na_values=[],
                                                    chunksize=CHUNK, skipinitialspace=True,
                                                    engine="c") as reader:
                for number, table in enumerate(reader):
                    if not number and self.has_header:
                        table = table.iloc[1:]
                    yield table
        except pd.errors.ParserError as error:
            raise UserError(f"{self.path}: {' '.join(str(error).split())}") from None
        except pd.errors.EmptyDataError:
            raise UserError(f"{self.path}: it has no row") from None

    @property
    def is_read_as_text(self) -> bool:
        """Returns whether its bytes do not show its lines: characters have two bytes or more, or
        each line ends with CR only."""
        if self.encoding.startswith(("utf-16", "utf-32")):
            return True
        with opened(self.path) as file:
            prefix = file.read(PIECE)
        return b"\r" in prefix and b"\n" not in prefix

    def judge_widths(self) -> None:
        """Stops at the first row that has more or fewer cells than the header, since pandas accepts
        these."""
        if self.is_read_as_text:
            with self.handle() as text:
                self._judge(widths_of(text, self.separator), self.above)
            return
        line = self.above
        with opened(self.path) as file:
            for _ in range(self.above):
                file.readline()
            while chunk := file.read(PIECE):
                chunk += self.line_after(file, chunk, line)
                quotes, chunks, length = chunk.count(b'"'), [chunk], len(chunk)
                while quotes % 2 and (more := file.readline(MOST_LINE)):
                    quotes, length = quotes + more.count(b'"'), length + len(more)
                    if length > PIECE + MOST_LINE:
                        raise UserError(f"{self.path}: a quote that opens after line {line:,} is "
                                        f"not closed within {MOST_LINE:,} bytes")
                    chunks.append(more)
                chunk = b"".join(chunks)
                if not _has_width(chunk, self.separator, len(self.names)):
                    text = io.StringIO(chunk.decode(self.encoding, "replace"), newline="")
                    self._judge(widths_of(text, self.separator), line)
                line += chunk.count(b"\n")

    def line_after(self, file: BinaryIO, chunk: bytes, line: int) -> bytes:
        """Returns the remainder of the line in which a part ends. Raises UserError if that does not
        end."""
        rest = file.readline(MOST_LINE)
        if len(rest) == MOST_LINE and not rest.endswith(b"\n") and b"\r" not in rest:
            last = line + chunk.count(b"\n")
            raise UserError(f"{self.path}: after line {last:,} a line has more than {MOST_LINE:,} "
                            "bytes: has the file lost its line ends?")
        return rest

    def _judge(self, widths: Iterator[tuple[int, int]], above: int) -> None:
        try:
            self._judge_each(widths, above)
        except csv.Error as error:
            raise UserError(f"{self.path}: after line {above:,}: {error}") from None

    def _judge_each(self, widths: Iterator[tuple[int, int]], above: int) -> None:
        width = len(self.names)
        for line, found in widths:
            if found != width:
                why = ("is a separator in a cell without quotes, or at the end of lines?"
                       if found > width else self._short_line_text(line + above))
                raise UserError(f"{self.path}: line {line + above} has {found} cells, but the "
                                f"header {width}: {why}")

    def _short_line_text(self, number: int) -> str:
        """Returns what a line with too few cells may be, by its text."""
        with self.handle() as text:
            line = next(islice(text, number - self.above - 1, None), "").strip()
        if line == "\x1a":
            return "it is Ctrl-Z, the end mark of DOS, not a row: remove it"
        shown = f"`{line[:SHOWN]}{'..' if line[SHOWN:] else ''}`"
        words = line[:LOOKED_AT].translate(BLANKED).split()
        if words and all(map(is_number_like, words)):
            return f"{shown}: is the file cut short?"
        if self.separator == " " and any(word.count(".") > 1 for word in words):
            return (f"{shown} has numbers without a blank between them: export it with a "
                    "separator, or wider columns")
        if not any(one.rstrip(".")[-1:].isdecimal() and other.lstrip("-")[:1].isdecimal()
                   for one, other in zip(words, words[1:])):
            return (f"{shown} is a heading between rows, as of a bench, not a row: remove such "
                    "lines")
        return (f"{shown}: is the file cut short, or are these rows of another kind, as parcels of "
                "blocks in a model of Whittle?")

    def place_of(self, record: int, column: Optional[int] = None) -> str:
        """Returns the position of a record, or of a cell of it, as `a.csv: line 12`."""
        if self.sheet is None:
            return f"{self.path}: line {self.line_of(record)}"
        if self.kind == "Parquet":
            return f"{self.path}: row {record + 1}"
        where = (f"row {self.line_of(record)}" if column is None
                 else f"cell {cell_name(self.line_of(record), column + 1)}")
        return f"{self.path}: sheet `{self.sheet_name}`, {where}"

    def cells_of(self, record: int) -> list[str]:
        """Returns the cells of a record unchanged."""
        for table in self.chunks(range(len(self.names))):
            if record in table.index:
                return [str(cell).strip() for cell in table.loc[record]]
        return []

    def line_of(self, record: int) -> int:
        """The line on which a record ends, counted from 1 in the file: blank lines and line breaks
        within quotes count."""
        if self.sheet is not None:
            return record + self.header_line if self.has_header else record + 1
        count = -1
        with self.handle() as text:
            if self.separator == " ":
                for line, row in enumerate(text):
                    count += bool(row.strip())
                    if count == record:
                        return line + 1 + self.above
                return 0
            reader = csv.reader(text, delimiter=self.separator)
            for cells in reader:
                count += bool(cells) and (len(cells) > 1 or bool(cells[0].strip()))
                if count == record:
                    return reader.line_num + self.above
        return 0


def _too_wide(row: Sequence[str]) -> str:
    return f"it has {len(row):,} columns, but a sheet has at most {MOST_COLUMNS:,}: export fewer"


def _has_width(chunk: bytes, separator: str, width: int) -> bool:
    """Returns whether complete lines without quotes all have `width` cells, or no character; False
    proves nothing."""
    if separator == " " or b'"' in chunk:
        return False
    characters = np.frombuffer(chunk if chunk.endswith(b"\n") else chunk + b"\n", np.uint8)
    ends = np.flatnonzero(characters == ord("\n"))
    starts = np.r_[0, ends[:-1] + 1]
    found = np.add.reduceat(characters == ord(separator), starts)
    is_blank = ends - starts == (characters[starts] == ord("\r"))
    return bool(((found == width - 1) | is_blank).all())


def widths_of(text: TextIO, separator: str) -> Iterator[tuple[int, int]]:
    """Returns the line on which each record ends, counted from 1, and its number of cells; blank
    lines are not counted. It raises csv.Error if a line is too long."""
    if separator == " ":
        for line, row in enumerate(_lines_of(text), 1):
            if row.strip():
                yield line, len(row.split())
        return
    line, rows = 0, _lines_of(text)
    for row in rows:
        line += 1
        if '"' not in row:
            if row.strip(" \t\r\n"):
                yield line, row.count(separator) + 1
            continue
        # A quoted cell may continue over lines.
        chunks, quotes = [row], row.count('"')
        while quotes % 2 and (more := next(rows, "")):
            chunks.append(more)
            quotes += more.count('"')
            line += 1
        yield line, len(next(csv.reader(chunks, delimiter=separator), []))


def _lines_of(text: TextIO) -> Iterator[str]:
    while row := text.readline(MOST_LINE):
        if len(row) == MOST_LINE and row[-1] not in "\r\n":
            raise csv.Error(f"a line has more than {MOST_LINE:,} characters")
        yield row


def head_of(path: str, encoding: str) -> str:
    """The first lines of a text, enough for any header."""
    with io.TextIOWrapper(opened(path), encoding=encoding, errors="replace", newline="") as text:
        head = text.read(HEAD)
    if not head.strip():
        raise UserError(f"{path}: it has no text")
    if len(head) == HEAD and "\n" not in head and "\r" not in head:
        raise UserError(f"{path}: the first line has more than {HEAD:,} characters: has the file "
                        "lost its line ends?")
    if len(head) == HEAD and "\n" in head:
        head = head[:head.rindex("\n") + 1]
    return head


def records_of(head: str, separator: str) -> list[tuple[list[str], int, int]]:
    """Yields the first records of a text, each with the number of lines above it and the line on
    which it ends."""
    if separator == " ":
        lines = head.splitlines()[:HEAD_LINES]
        return [(line.split(), at, at + 1) for at, line in enumerate(lines)]
    records, above = [], 0
    reader = csv.reader(io.StringIO(head, newline=""), delimiter=separator)
    try:
        for row in reader:
            records.append((row, above, reader.line_num))
            above = reader.line_num
            if len(records) == HEAD_LINES:
                break
    except csv.Error:
        pass
    return records


def gslib_of(path: str, head: str, encoding: str, message: str) -> Optional[Source]:
    """Reads a GSLIB file: a title, a number of columns, one line with the name of each, and then
    rows with that many numbers."""
    lines = head.splitlines()
    columns = (integer_of((lines[1].split() or [""])[0]) or 0) if len(lines) > 3 else 0
    if not 1 <= columns <= 200 or len(lines) < columns + 3:
        return None
    first = lines[columns + 2].split()
    if len(first) != columns or not all(map(is_number_like, first)):
        return None
    names = [line.strip() for line in lines[2:columns + 2]]
    if all(is_number_like(name) for name in names):
        return None
    return Source(path, encoding, message, " ", names, columns + 2, False, 0, kind="GSLIB")


def sources_of(path: str, resolve: Callable[[Sequence[str]], object], *, encoding: str = "",
               separator: str = "", names: Sequence[str] = (), sheet: str = "") -> list[Source]:
    """Opens an export: one text, the sheets of a workbook, or Parquet. `resolve` is called with the
    names of a header that may be one, and raises MissingColumn if a column is missing among them:
    the first line that it accepts is the header.

    Raises UserError if no line has all the columns, and reports what the closest one has."""
    reject_pipe(path)
    with open(path, "rb") as file:
        is_parquet = file.read(len(MARK)) == MARK
    if is_parquet:
        return [parquet_of(path, resolve, names)]
    if is_workbook(path):
        return workbook_of(path, resolve, names, sheet)
    return [text_of(path, resolve, encoding, separator, names)]


def parquet_of(path: str, resolve: Callable[[Sequence[str]], object],
               names: Sequence[str]) -> Source:
    """Opens Parquet, whose columns have names."""
    if names:
        raise UserError(f"{path}: --names is for a text without a header, but Parquet has names")
    frame = frame_of(path)
    found = list(frame.columns)
    try:
        resolve(found)
    except MissingColumn as absent:
        raise UserError(f"{path}: {absent}: there are {_names_text(found)}") from None
    return Source(path, "", "", "", found, 0, False, 0, kind="Parquet",
                  sheet=frame.set_axis(range(len(found)), axis=1))


def text_of(path: str, resolve: Callable[[Sequence[str]], object], encoding: str, separator: str,
            names: Sequence[str]) -> Source:
    """Opens a text, as `sources_of` describes."""
    message = encoding
    if encoding:
        encoding = _judged_encoding(path, encoding)
    else:
        encoding, message = encoding_of(path)
    head = head_of(path, encoding)
    if names:
        return headerless(path, resolve, head, encoding, message, separator, names)
    gslib = gslib_of(path, head, encoding, message)
    if gslib and not separator:
        resolve(gslib.names)
        return gslib
    closest: tuple[int, str] = (-1, "")
    for one in [separator] if separator else SEPARATORS:
        for row, above, line in records_of(head, one):
            if not any(cell.strip() for cell in row):
                continue
            if len(row) > MOST_COLUMNS:
                raise UserError(f"{path}: {_too_wide(row)}")
            try:
                resolve(row)
                return Source(path, encoding, message, one, row, above, True, line)
            except MissingColumn as absent:
                shared = (len(row) + 1000 * absent.hits
                          - 500 * (sum(map(is_number_like, row)) > len(row) / 2))
                if shared > closest[0]:
                    closest = shared, f"{absent} in line {line}, which has {_names_text(row)}"
    judge_kind(path, head)
    judge_turns(path, head, separator)
    first = records_of(head, separator or closest_separator(head))[0][0]
    if len(first) > 3 and sum(map(is_number_like, first)) > len(first) / 2:
        raise UserError(f"{path}: there is no header, since line 1 has numbers: name its "
                        f"{len(first)} columns by --names X,Y,..")
    message = closest[1] or f"the first {HEAD_LINES} lines are blank"
    raise UserError(f"{path}: {message}")


def _judged_encoding(path: str, given: str) -> str:
    """Returns the name of an encoding in Python. Raises UserError if there is none of this name, or
    the text has another one."""
    try:
        name = codecs.lookup(given).name
        judge_text(path, name)
    except LookupError:
        raise UserError(f"unknown encoding `{given}`: give utf-8, cp1252, latin-1, utf-16 or "
                        "another one") from None
    except UnicodeError as error:
        raise UserError(f"{path}: it is not written in {given}: "
                        f"{' '.join(str(error).split())[:200]}") from None
    return name


def _names_text(row: Sequence[str]) -> str:
    """Returns the cells of a line that is not a header, shortened if they are long or many."""
    cells = [" ".join(name.split()) for name in row]
    message = " ".join(f"`{cell[:40]}{'..' if cell[40:] else ''}`" for cell in cells[:40])
    return message + (f" and {len(cells) - 40} more" if len(cells) > 40 else "")


def closest_separator(head: str) -> str:
    """The separator that cuts the first lines most."""
    lines = [line for line in head.splitlines() if line.strip()][:20]
    return max(SEPARATORS, key=lambda one: min(len(line.split() if one == " " else line.split(one))
                                               for line in lines) - (one == " "))


#: The beginnings of texts that are not tables, what they are, and what to do.
OTHERS = [(r"%PDF-", "a PDF: export the block model as CSV"),
          (r"\s*(<!DOCTYPE html|<html|<table)", "an HTML page, as some programs write it for a "
                                                "spreadsheet: open it there, and save it as .xlsx "
                                                "or as CSV"),
          (r"\s*0\s*\n\s*SECTION\b", "a DXF, of lines and surfaces without blocks: export the "
                                     "block model's centroids as CSV"),
          (r"\s*[\[{]\s*[\"{]", "JSON: export the block model as CSV")]


def judge_kind(path: str, head: str) -> None:
    """Stops at texts that are not tables: those in OTHERS, and files of Micromine and Surpac in
    their own form."""
    for prefix, what in OTHERS:
        if re.match(f"(?i){prefix}", head):
            raise UserError(f"{path}: it is {what}")
    lines = [*head.splitlines()[:3], "", ""]
    if re.match(r"\s*THIS\b.*|\s*\d+\s+VARIABLES\b", lines[0]) and re.search(
            r"(?i)\bvariables\b", " ".join(lines)):
        raise UserError(f"{path}: it is a file of Micromine in its own form (.DAT): export it as "
                        "CSV")
    if re.match(r"\s*0,\s*0\.0+,\s*0\.0+,\s*0\.0+,", lines[1]):
        raise UserError(f"{path}: it is a string file of Surpac (.str), of lines and points "
                        "without blocks: export the block model's centroids as CSV")


def judge_turns(path: str, head: str, separator: str) -> None:
    """Stops if lines of two widths alternate: a model of blocks and their parcels."""
    widths = [len(row)
              for row, _, _ in records_of(head, separator or closest_separator(head)) if row]
    usual = [width for width in set(widths) if widths.count(width) >= len(widths) / 5]
    if len(usual) > 1 and len(widths) > 9:
        message = " and ".join(map(str, sorted(usual)))
        raise UserError(f"{path}: lines of {message} cells alternate, as "
                        f"`{' '.join(head.splitlines()[0].split())[:60]}` and "
                        f"`{' '.join(head.splitlines()[1].split())[:60]}`: a model of blocks and "
                        "their parcels, as Whittle writes it? Export one row for each block")


def headerless(path: str, resolve: Callable, head: str, encoding: str, message: str, separator: str,
               names: Sequence[str]) -> Source:
    """A list without a header, whose columns are named."""
    resolve(names)
    judge_turns(path, head, separator)
    tried = [separator] if separator else list(SEPARATORS)
    for one in tried:
        for row, above, _ in records_of(head, one):
            if len(row) == len(names) and sum(map(is_number_like, row)) >= min(3, len(row)):
                return Source(path, encoding, message, one, list(names), above, False, 0)
    widths = sorted(
        {len(row) for row, _, _ in records_of(head, separator or closest_separator(head)) if row})
    raise UserError(f"{path}: --names has {len(names)} names, but lines have "
                    f"{', '.join(map(str, widths))} cells")


def workbook_of(path: str, resolve: Callable[[Sequence[str]], object], names: Sequence[str],
                sheet: str) -> list[Source]:
    """Opens all sheets of a workbook that have all the columns, or the one that is named. Raises
    UserError if their headers differ, or another sheet has rows with the same number of numbers
    below another header."""
    found: list[Source] = []
    others: dict[str, pd.DataFrame] = {}
    numbers: list[int] = []
    message = ""
    for name, texts in sheets_of(path, sheet):
        at, absent = _header_at(texts, resolve, names)
        if at is None:
            message = message or (f"{absent} in sheet `{name}`" if absent else "")
            others[name] = texts
        else:
            row = list(names) or texts.iloc[at].tolist()
            numbers.append(sum(map(is_number_like, texts.iloc[-1])))
            found.append(Source(path, "", "", "", row, at, not names, at + 1, kind="workbook",
                                sheet=texts.iloc[at:], sheet_name=name))
    if not found:
        raise UserError(f"{path}: {message or 'the workbook is empty'}")
    for one in found[1:]:
        if [*map(plain_name, one.names)] != [*map(plain_name, found[0].names)]:
            raise UserError(f"{path}: the sheets `{found[0].sheet_name}` and `{one.sheet_name}` "
                            "have these columns below different headers: give them one header if "
                            "both belong to the model; otherwise name the right one by --sheet")
    for name, texts in others.items():
        least = max(3, numbers[0])
        many = (int((texts.apply(lambda row: sum(map(is_number_like, row)), axis=1) >= least).sum())
                if len(texts) else 0)
        if many > 2:
            raise UserError(f"{path}: the sheet `{name}` has {many:,} rows of numbers as "
                            f"`{found[0].sheet_name}`, but no header with its columns: give it the "
                            "header if it belongs to the model; otherwise name the right sheet by "
                            "--sheet")
        found[0].sheets_omitted.append(name)
    resolve(found[0].names)
    return found


def _header_at(texts: pd.DataFrame, resolve: Callable,
               names: Sequence[str]) -> tuple[Optional[int], Optional[MissingColumn]]:
    """Returns the row of a sheet that is its header, or None and the missing columns; 0 if the
    columns are named and their number is right."""
    if names:
        resolve(names)
        return (0 if texts.shape[1] == len(names) else None), None
    first = None
    for at in range(min(HEAD_LINES, len(texts))):
        try:
            resolve(texts.iloc[at].tolist())
            return at, None
        except MissingColumn as absent:
            first = first or absent
    return None, first
