"""The inputs of a command or a program: no output replaces them, and records of sums judge them."""
from __future__ import annotations

import os
import stat
import sys
from contextlib import contextmanager
from typing import Any, Iterable, Iterator, Optional, Sequence, Tuple, Union

from pit_tools.errors import UserError
from pit_tools.files.records import Reading, status_of

Identity = Tuple[int, int]

Name = Union[str, bytes, "os.PathLike[str]", "os.PathLike[bytes]"]


def identity(path: Name) -> Optional[Identity]:
    """Returns what identifies a regular file under any of its names; None for anything else. Raises
    OSError if the system does not report it."""
    status = status_of(os.fsdecode(path))
    return (status.st_dev, status.st_ino) if status and stat.S_ISREG(status.st_mode) else None


class Command:
    """The running command, by its name: what it has read, and whether it may replace other
    files."""

    #: The command that runs now, and whether Python calls `_hook` already.
    now: Optional[Command] = None
    is_hooked = False

    def __init__(self, force: bool, is_edited: bool, name: str):
        self.force, self.is_looking, self.name = force, False, name
        self.reads: dict[Identity, str] = {}
        self.reading = Reading(is_edited)
        self.removed: list[str] = []

    def note(self, path: Name) -> None:
        if not self.is_looking and b"\0" not in os.fsencode(path):
            if found := identity(path):
                self.reads.setdefault(found, os.fsdecode(path))


def _hook(event: str, arguments: tuple[Any, ...]) -> None:
    """Python calls this for each file that it opens, so that no command misses one."""
    command = Command.now
    if event == "open" and command is not None:
        path, _, flags = arguments
        if isinstance(path, (str, bytes, os.PathLike)) and flags & os.O_ACCMODE != os.O_WRONLY:
            command.note(path)


class Program:
    """The files of a program that calls this package and runs no command: what it has read, and
    what it has written, which it may overwrite."""

    reads: dict[Identity, str] = {}
    written: dict[Identity, str] = {}

    @classmethod
    def note(cls, paths: Iterable[str]) -> None:
        for path in paths:
            found = identity(path)
            if found and cls.written.get(found) != os.path.realpath(path):
                cls.reads[found] = os.path.abspath(path)

    @classmethod
    def has_read(cls, found: Optional[Identity]) -> bool:
        """Returns whether it has read a file that still exists under its name."""
        return bool(found) and found in cls.reads and identity(cls.reads[found]) == found


@contextmanager
def of_command(force: bool = False, is_edited: bool = False, name: str = "") -> Iterator[None]:
    """Within this, no output may replace a file that was opened for reading, and a file is replaced
    only by one of its kind, except with `force`. Inputs must be those that records name, except
    with `is_edited`."""
    if not Command.is_hooked:
        sys.addaudithook(_hook)
        Command.is_hooked = True
    Command.now = Command(force, is_edited, name)
    try:
        yield
    finally:
        Command.now = None


@contextmanager
def looking() -> Iterator[None]:
    """Within this, files that are opened to identify them may still be replaced."""
    command = Command.now
    before = command is not None and command.is_looking
    if command is not None:
        command.is_looking = True
    try:
        yield
    finally:
        if command is not None:
            command.is_looking = before


def reads(*paths: str) -> None:
    """Declares that the command reads these inputs, itself or by another program: its outputs are
    made from them.

    Raises UserError if records show that they are from different runs."""
    command = Command.now
    if command is None:
        Program.note(paths)
    elif not command.is_looking:
        for path in paths:
            command.note(path)
            with looking():
                command.reading.take(path)


def content_of(path: str, most: int, message: str) -> bytes:
    """Returns all bytes of a file that the command reads.

    Raises UserError, which ends with these words, if it has more than `most`; OSError if it cannot
    be read."""
    reads(path)
    with open(path, "rb") as file:
        content = file.read(most + 1)
    if len(content) > most:
        raise UserError(f"{path}: it has more than {most:,} bytes{message}")
    return content


def reads_records_of(base: str) -> None:
    """Declares that the command reads an instance: inputs that --edited accepted when that was made
    are accepted."""
    if Command.now is not None:
        with looking():
            Command.now.reading.read_records_of(base)


def edited() -> Sequence[str]:
    """Returns a line for each file that the command read although a record names another one."""
    return Command.now.reading.edited if Command.now is not None else ()


def removed() -> Sequence[str]:
    """Returns the files of earlier runs that the command has removed next to its outputs."""
    return Command.now.removed if Command.now is not None else ()
