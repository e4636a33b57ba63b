"""The list of a batch: a plan NAME.plan and its zone files on each line."""
from __future__ import annotations

import hashlib
import os
import re
import shlex
from dataclasses import dataclass
from functools import lru_cache
from typing import Iterator, Sequence

from pit_tools.errors import UserError
from pit_tools.instances.files import TEXTS

#: The files that a batch writes besides the files of its instances.
TABLES = ("MANIFEST", "SIZES", "BUILD")

#: Bytes that a list may have, a name, and a line, of a plan and 64 zone files.
MOST_BYTES, MOST_NAME = 1 << 27, 4096
MOST_LINE = 65 * MOST_NAME


@dataclass(frozen=True)
class Entry:
    """A line of a list: a plan NAME.plan and its zone files, by their shortest names."""

    plan: str
    zones: tuple[str, ...]

    @property
    def name(self) -> str:
        return self.plan[:-len(".plan")]

    @property
    def inputs(self) -> list[str]:
        return [self.plan, *self.zones]


@dataclass(frozen=True)
class Part:
    """A part of a list, as 2 of 5: its second line, its seventh, and so on. 1 of 1 is all of it."""

    number: int = 1
    of: int = 1

    @classmethod
    def read(cls, text: str) -> "Part":
        """Returns a part as it is written, `2/5`. Raises UserError for any other text."""
        found = re.fullmatch("([1-9][0-9]{0,8})/([1-9][0-9]{0,8})", text)
        if not found or int(found[1]) > int(found[2]):
            raise UserError(f"`{text}` is not a part of a list, as 2/5")
        return cls(int(found[1]), int(found[2]))

    @property
    def is_complete(self) -> bool:
        return self.of == 1

    @property
    def ending(self) -> str:
        """Returns the endings of its files' names."""
        return "" if self.is_complete else f"-{self.number}-of-{self.of}"


@dataclass(frozen=True)
class BatchList:
    """A list as it was read: its name, the sum of its bytes, and its lines."""

    path: str
    sum: str
    entries: tuple[Entry, ...]

    def entries_of(self, part: Part) -> tuple[Entry, ...]:
        return self.entries[part.number - 1::part.of]


def read_list(path: str, texts: Sequence[str] = TEXTS, others: Sequence[str] = ()) -> BatchList:
    """Returns the lines of a list, also a last one without a line end; names may be quoted.

    Raises UserError, with the line, if a plan appears twice, does not end with .plan or has no zone
    file, if a file is missing, or if an instance's file, a table of the batch or another output
    would overwrite it.
    """
    with open(path, "rb") as file:
        content = file.read(MOST_BYTES + 1)
    if len(content) > MOST_BYTES:
        raise UserError(f"{path}: it has more than {MOST_BYTES:,} bytes: split it")
    lines = dict(_entries(path, content))
    if not lines:
        raise UserError(f"{path}: it has no line")
    _reject_same_instances(path, lines)
    _reject_overwriting(path, lines, texts, others)
    return BatchList(os.path.normpath(path), hashlib.sha256(content).hexdigest(),
                     tuple(lines.values()))


def _entries(path: str, content: bytes) -> Iterator[tuple[int, Entry]]:
    """The entries with the numbers of their lines."""
    is_there = lru_cache(None)(os.path.isfile)
    for number, line in enumerate(content.split(b"\n"), 1):
        place = f"{path}: line {number}"
        if len(line) > MOST_LINE:
            raise UserError(f"{place}: it has more than {MOST_LINE:,} bytes")
        if max(map(len, line.split()), default=0) > 2 * MOST_NAME:
            raise UserError(f"{place}: a name has more than {MOST_NAME:,} bytes")
        try:
            words = shlex.split(line.decode("utf-8-sig" if number == 1 else "utf-8"), comments=True)
        except UnicodeDecodeError:
            raise UserError(f"{place}: it is not UTF-8") from None
        except ValueError as error:
            raise UserError(f"{place}: {str(error).lower()}") from None
        if not words:
            continue
        if any(not word.isprintable() for word in words):
            raise UserError(f"{place}: a name has a character that does not print")
        entry = Entry(os.path.normpath(words[0]), tuple(map(os.path.normpath, words[1:])))
        if not os.path.basename(entry.plan)[1:].endswith(".plan") or not entry.zones:
            raise UserError(f"{place}: a line must be a plan NAME.plan and its zone files")
        for name in entry.inputs:
            if not is_there(name):
                raise UserError(f"{place}: {name} is missing, or is not a file")
        yield number, entry


def _reject_same_instances(path: str, lines: dict[int, Entry]) -> None:
    """Rejects lines whose instances would have the same files, under any names."""
    @lru_cache(None)
    def folder_of(path: str) -> str:
        return os.path.realpath(path)

    first: dict[str, int] = {}
    for number, entry in lines.items():
        folder, name = os.path.split(entry.name)
        before = first.setdefault(os.path.join(folder_of(folder), name), number)
        if before != number:
            raise UserError(f"{path}: line {number}: `{entry.name}` appears twice, also in line "
                            f"{before}: its instance would overwrite itself")


def _reject_overwriting(path: str, lines: dict[int, Entry], texts: Sequence[str],
                        others: Sequence[str]) -> None:
    """Rejects a list if an output is also an input, under any name or link."""
    identity_of = lru_cache(None)(_identity)
    read = {identity_of(path): path}
    for entry in lines.values():
        read |= {identity_of(name): name for name in entry.inputs}
    written = {name: "the batch" for name in (*TABLES, *others)}
    written |= {f"{entry.name}.{text}": f"the instance `{entry.name}` of line {number}"
                for number, entry in lines.items() for text in texts}
    for name, writer in written.items():
        found = read.get(_identity(name)) if os.path.lexists(name) else None
        if found is not None:
            also = "" if found == name else f", which is {name},"
            raise UserError(f"{path}: {found}{also} would be overwritten by {writer}")


def _identity(name: str) -> object:
    """Returns what identifies a file under any of its names; a broken link equals no other."""
    try:
        status = os.stat(name)
    except OSError:
        return object()
    return status.st_dev, status.st_ino
