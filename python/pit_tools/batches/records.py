"""Records of a batch: its complete instances, with the sums of their inputs and outputs.

A record is a file RECORD in the folder of the batch, or RECORD-2-of-5 of a part. Its first line has
the text of BUILD, and each further line an instance. A line is added when its instance is complete,
so a killed batch leaves the lines of complete instances; the sums show whether they still are.
"""
from __future__ import annotations

import json
import os
import re
from dataclasses import dataclass
from itertools import islice
from typing import IO, Any, Iterable, Iterator, Optional

from pit_tools.batches.listing import Entry, Part
from pit_tools.batches.making import Made
from pit_tools.errors import UserError
from pit_tools.files import inputs, outputs
from pit_tools.files.records import sum_of
from pit_tools.texts.lines import numbered_lines

NAME = "RECORD"

#: Characters of a line: the names of 64 zone files, with their sums.
MOST_LINE = 1 << 20


@dataclass(frozen=True)
class Recorded:
    """An instance as a record has it: the record's file, its BUILD, and the instance."""

    path: str
    build: str
    made: Made


def record_path(folder: str, part: Part = Part()) -> str:
    return os.path.join(folder, f"{NAME}{part.ending}")


def recorded_in(folder: str) -> Iterator[Recorded]:
    """Returns the instances of all records of a folder, the newer lines of a file after the older
    ones. A line that was cut short is omitted. Raises UserError if a file of such a name is not a
    record."""
    for name in sorted(os.listdir(folder)):
        if re.fullmatch(rf"{NAME}(-\d+-of-\d+)?", name):
            path = os.path.join(folder, name)
            build = build_of(path)
            if build is not None:
                yield from (Recorded(path, build, made) for made in _made_in(path))


def build_of(path: str) -> Optional[str]:
    """Returns the text of BUILD that begins a record; None if there is no record, or it is
    empty."""
    try:
        with inputs.looking():
            _, first = next(numbered_lines(path, MOST_LINE), (1, ""))
    except FileNotFoundError:
        return None
    build = _parsed(first).get("build")
    if isinstance(build, str):
        return build
    if not first:
        return None
    raise UserError(f"{path}: this existing file is not a record of a batch")


def lines_of(path: str) -> Iterator[dict[str, Any]]:
    """Returns the values of each line of a record except the first, by name: nothing for a line
    that was cut short."""
    with inputs.looking():
        for _, line in islice(numbered_lines(path, MOST_LINE), 1, None):
            yield _parsed(line)


def _made_in(path: str) -> Iterator[Made]:
    for found in lines_of(path):
        try:
            plan, *zones = found["files"]
            yield Made(Entry(plan, tuple(zones)), dict(found["sums"]), list(found["row"]))
        except (TypeError, KeyError, ValueError):
            continue


def _parsed(line: str) -> dict[str, Any]:
    """Returns the values of a line by name: nothing if it is not a line of a record."""
    try:
        found = json.loads(line)
    except (ValueError, RecursionError):
        return {}
    return found if isinstance(found, dict) else {}


class Record:
    """A record that is being written."""

    def __init__(self, path: str, build: str, goes_on: bool):
        """Continues an existing record if it has this BUILD; otherwise begins a new one."""
        self.path = path
        goes_on = build_of(self.path) == build and goes_on
        if not goes_on:
            with outputs.opened(self.path, "record of a batch", "utf-8") as file:
                file.write(json.dumps({"build": build}) + "\n")
        # pylint: disable-next=consider-using-with
        self.file: IO[str] = open(self.path, "a", encoding="utf-8")
        if goes_on:
            # An end for the line that a killed batch left unfinished.
            self._write("\n")

    def add(self, made: Made) -> None:
        self.add_line({"files": made.entry.inputs, "sums": made.sums, "row": made.row})

    def add_line(self, found: dict[str, Any]) -> None:
        """Adds a line with these values by name."""
        self._write(json.dumps(found) + "\n")

    def _write(self, text: str) -> None:
        try:
            self.file.write(text)
            self.file.flush()
        except OSError as error:
            raise OSError(error.errno, error.strerror, self.path) from None

    def __enter__(self) -> "Record":
        return self

    def __exit__(self, *_: object) -> None:
        try:
            self.file.close()
        except OSError:
            pass


class Sums:
    """Sums of files of a folder, each taken once."""

    def __init__(self, folder: str):
        self.folder = folder
        self.found: dict[str, Optional[str]] = {}

    def of(self, name: str) -> Optional[str]:
        """Returns the sum of a file, None if it cannot be read."""
        if name not in self.found:
            try:
                with inputs.looking():
                    self.found[name] = sum_of(os.path.join(self.folder, name))
            except OSError:
                self.found[name] = None
        return self.found[name]

    def other(self, names: Iterable[str], wanted: dict[str, str]) -> Optional[str]:
        """Returns the first of the names whose file has a sum other than the expected one."""
        return next((name for name in names if self.of(name) != wanted.get(name, "")), None)
