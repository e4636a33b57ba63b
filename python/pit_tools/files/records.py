"""Records of what a command wrote, by which the next command checks whether files belong together.

    # {"tool": "pit-tools 0.2.0", "command": "import", "inputs": 1, "bytes": [81, 79, 1200, 400]}
    SUM  from-east.csv
    SUM  from-west.csv
    SUM  from.json
    SUM  export.csv

A record is written after all files that it names. `sha256sum -c` reads it in its folder. The
outputs are first, and the inputs last; names are relative to the record's folder. A record is
NAME.sums, or the MANIFEST of a batch, or the SUMS of the library. A file that no record names is
accepted. If --edited accepted inputs, "edited" has for each its sum and the differing sum of the
record.
"""
from __future__ import annotations

import hashlib
import json
import os
import re
import stat
from contextlib import suppress
from dataclasses import dataclass
from typing import Any, Iterable, Iterator, Optional

from pit_tools import VERSION
from pit_tools.errors import UserError

ENDING = ".sums"

#: Names of records, complete or not yet renamed.
_NAMED = re.compile(r"(?:.*\.sums|MANIFEST|SUMS)(?:\.unfinished-[\d.]+)?", re.DOTALL)

_BEGINS = '# {"tool": "pit-tools '

#: Bytes that a record may have, and a file of JSON.
MOST_BYTES, MOST_JSON = 1 << 28, 1 << 24


def sum_of(path: str) -> str:
    """The SHA-256 of a file, in hexadecimal digits."""
    found = hashlib.sha256()
    with open(path, "rb") as file:
        while chunk := file.read(1 << 20):
            found.update(chunk)
    return found.hexdigest()


def status_of(path: str) -> Optional[os.stat_result]:
    """Returns the status of the target of a name, None if nothing exists there. Unlike
    os.path.exists it raises OSError, with the name, if the system does not report it."""
    try:
        return os.stat(path)
    except (FileNotFoundError, NotADirectoryError):
        return None


def is_unfinished(path: str) -> bool:
    """Returns whether a name belongs to an unfinished file."""
    return re.search(r"\.unfinished-\d+(\.\d+)?$", path) is not None


def read_json(path: str, errors: str = "strict") -> Any:
    """Returns the value of a JSON file in UTF-8. Raises ValueError or RecursionError for any other
    text or more than 16 MB, OSError if it cannot be read."""
    with open(path, "rb") as file:
        content = file.read(MOST_JSON + 1)
    if len(content) > MOST_JSON:
        raise ValueError(f"{path}: it has more than {MOST_JSON:,} bytes")
    return json.loads(content.decode("utf-8", errors))


@dataclass(frozen=True)
class File:
    """A file in a record: its name from the record's folder, its bytes, and its SHA-256."""

    name: str
    size: int
    sum: str

    @classmethod
    def of(cls, path: str, folder: str) -> File:
        """A file as it is now. Raises OSError if it cannot be read."""
        return cls(os.path.relpath(os.path.realpath(path), os.path.realpath(folder)),
                   os.stat(path).st_size, sum_of(path))

    @property
    def line(self) -> str:
        """Returns its line, as `sha256sum` writes it: a backslash or a line end in the name is
        escaped, and the line then begins with a backslash."""
        encoded = self.name.replace("\\", "\\\\").replace("\n", "\\n")
        return f"{'' if encoded == self.name else chr(92)}{self.sum}  {encoded}\n"

    @classmethod
    def of_line(cls, line: str, size: int) -> File:
        """Returns a file from its line. Raises ValueError for any other text."""
        found = re.fullmatch(r"(\\?)([0-9a-f]{64})  (.+)", line)
        if found is None or not isinstance(size, int):
            raise ValueError(line)
        name = found[3]
        if found[1]:
            name = re.sub(r"\\(.)", lambda mark: "\n" if mark[1] == "n" else mark[1], name)
        return cls(name, size, found[2])


@dataclass(frozen=True)
class Record:
    """What a command wrote, and from what; `edited` has the sums of inputs that --edited accepted,
    each with the differing sum of the record."""

    path: str
    command: str
    outputs: tuple[File, ...]
    inputs: tuple[File, ...] = ()
    edited: tuple[tuple[str, str], ...] = ()

    @property
    def text(self) -> str:
        head = {"tool": f"pit-tools {VERSION}", "command": self.command,
                "inputs": len(self.inputs),
                "bytes": [file.size for file in (*self.outputs, *self.inputs)],
                **({"edited": self.edited} if self.edited else {})}
        return f"# {json.dumps(head)}\n{self._lines}"

    @property
    def _lines(self) -> str:
        return "".join(file.line for file in (*self.outputs, *self.inputs))

    @property
    def sum(self) -> str:
        """The SHA-256 of the lines of its files."""
        return hashlib.sha256(self._lines.encode("utf-8", "surrogateescape")).hexdigest()

    @property
    def is_put(self) -> bool:
        """Returns whether it is in place, and so all files that it names are."""
        return not is_unfinished(self.path)

    def at(self, file: File) -> str:
        """The path of a file that the record names."""
        return os.path.abspath(os.path.join(os.path.dirname(self.path), file.name))


def read_record(path: str) -> Optional[Record]:
    """Returns the record at a path, None if there is another file or none.

    Raises UserError if the record is damaged, OSError if it cannot be read."""
    status = status_of(path)
    if status is None or not stat.S_ISREG(status.st_mode):
        return None
    with open(path, encoding="utf-8", errors="surrogateescape", newline="\n") as file:
        if file.read(len(_BEGINS)) != _BEGINS:
            return None
        if status.st_size > MOST_BYTES:
            raise UserError(f"{path}: it has more than {MOST_BYTES:,} bytes, so it is not a record "
                            "of sums: remove it")
        first, _, rest = (_BEGINS + file.read()).partition("\n")
    lines = rest.split("\n")
    try:
        head = json.loads(first[2:])
        files = [File.of_line(line, size) for line, size in zip(lines[:-1], head["bytes"])]
        count, command = len(files) - head["inputs"], head["command"]
        edited = tuple((str(one), str(record)) for one, record in head.get("edited", ()))
        if lines[-1] or len(files) != len(lines) - 1 or len(files) != len(head["bytes"]) \
                or not 0 <= count <= len(files) or not isinstance(command, str):
            raise ValueError(first)
    except (ValueError, KeyError, TypeError, RecursionError):
        raise UserError(f"{path}: this record of sums is damaged: remove it, and run again what "
                        "wrote the files that it names") from None
    return Record(path, command, tuple(files[:count]), tuple(files[count:]), edited)


def records_in(folder: str, is_replacing: bool = False) -> Iterator[Record]:
    """Returns the records in a folder. One that is damaged or cannot be read raises UserError; it
    is omitted if it may be replaced, or if a run was ended while writing it."""
    try:
        names = os.listdir(folder)
    except PermissionError:
        # Files may be readable by name although their folder may not be listed.
        return
    for name in sorted(filter(_NAMED.fullmatch, names)):
        path = os.path.join(folder, name)
        try:
            found = read_record(path)
        except (UserError, OSError) as error:
            if is_replacing or is_unfinished(name):
                continue
            if isinstance(error, UserError):
                raise
            raise UserError(f"{path}: this record of sums cannot be read ({error.strerror}): make "
                            "it readable, or move it away") from None
        if found is not None:
            yield found


@dataclass
class _Read:
    """A file that was read: how it was named, its status then, and its sum once it is known."""

    path: str
    status: os.stat_result
    sum: str = ""

    def as_read(self) -> bool:
        """Returns whether it still is the file that was read."""
        now = status_of(self.path)
        return now is not None and all(
            getattr(now, name) == getattr(self.status, name)
            for name in ("st_dev", "st_ino", "st_size", "st_mtime_ns"))


class Reading:
    """The inputs of a command, judged by the records next to them. A mismatch is accepted with
    `is_edited`, or if a record shows that it was accepted before; `edited` has a line for each, and
    `passed` what a new record lists for it."""

    def __init__(self, is_edited: bool):
        self.is_edited = is_edited
        self.edited: list[str] = []
        self.passed: list[tuple[str, str]] = []
        self._passed_before: set[tuple[str, str]] = set()
        self._read: dict[str, _Read] = {}
        self._by_output: dict[str, dict[str, list[tuple[Record, File]]]] = {}
        self._used: dict[str, Record] = {}

    def take(self, path: str) -> None:
        """Judges a file before it is read.

        Raises UserError if a record names another file, OSError if a system call fails."""
        status, at = status_of(path), os.path.realpath(path)
        if status is None or not stat.S_ISREG(status.st_mode) or at in self._read:
            return
        self._read[at] = _Read(path, status)
        named = self._named(at)
        fitting = [record for record, file in named if self._fits(at, file)]
        put = [record for record in fitting if record.is_put]
        others = [record for record, _ in named if record.is_put]
        if fitting and not put:
            self._reject(at, f"{path}: it is from a run that was cut short, or has not ended, as "
                             f"{_plain(fitting[0].path)} shows", fitting[0])
        elif others and not put:
            self._reject(at, f"{path}: it is not the file that {_plain(others[0].path)} names: it "
                             "was changed, or a run was cut short", others[0])
        new = {record.path: record for record in put if record.path not in self._used}
        self._used |= new
        self._judge_inputs(new.values(), self._read)
        self._judge_inputs([one for one in self._used.values() if one.path not in new], [at])

    def read_records_of(self, base: str) -> None:
        """Reads what was accepted when the files of a base were made, before any other file is
        read."""
        with suppress(UserError, OSError):
            self._named(os.path.realpath(base))

    def _named(self, at: str) -> list[tuple[Record, File]]:
        """Returns the records next to a file that name it as an output."""
        folder = os.path.dirname(at)
        if folder not in self._by_output:
            found: dict[str, list[tuple[Record, File]]] = {}
            for record in records_in(folder):
                if record.is_put:
                    self._passed_before.update(record.edited)
                for file in record.outputs:
                    found.setdefault(record.at(file), []).append((record, file))
            self._by_output[folder] = found
        return self._by_output[folder].get(at, [])

    def _fits(self, at: str, file: File) -> bool:
        read = self._read[at]
        if read.status.st_size != file.size:
            return False
        return self._sum(read) == file.sum

    def _sum(self, read: _Read) -> str:
        read.sum = read.sum or sum_of(read.path)
        return read.sum

    def _judge_inputs(self, records: Iterable[Record], read: Iterable[str]) -> None:
        """Compares inputs of records with the files that are read."""
        among = set(read)
        for record in records:
            for file in record.inputs:
                at = record.at(file)
                if at in among and not self._fits(at, file):
                    self._reject(at, f"{self._read[at].path}: it is not, or is no longer, the file "
                                     f"from which {_shown(record)} was made", record)

    def _reject(self, at: str, message: str, record: Record) -> None:
        passing = (self._sum(self._read[at]), record.sum)
        if not self.is_edited and passing not in self._passed_before:
            raise UserError(f"{message}: run `pit-tools {record.command}` again, or give --edited "
                            "if you changed it yourself")
        self.edited.append(message)
        self.passed.append(passing)

    def inputs(self, folder: str, without: Iterable[str]) -> tuple[File, ...]:
        """Returns all that was read, as a record in a folder names it, except the outputs.

        Raises UserError if a file was changed meanwhile."""
        found = []
        for at in [at for at in self._read if at not in set(without)]:
            read = self._read[at]
            digits = self._sum(read)
            if not read.as_read():
                raise UserError(f"{read.path}: it was changed while this command ran: run it again")
            found.append(File(os.path.relpath(at, folder), read.status.st_size, digits))
        return tuple(found)


def _plain(path: str) -> str:
    """A record's path for messages: from the current folder if it is below that."""
    short = os.path.relpath(path)
    return path if short.startswith("..") else short


def _shown(record: Record) -> str:
    """Returns the outputs of a record in a few words."""
    name = record.outputs[0].name
    return name if len(record.outputs) == 1 else f"{name} (with all of {_plain(record.path)})"
