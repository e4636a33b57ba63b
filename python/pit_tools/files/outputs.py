"""The only module through which commands write files.

    with outputs.together():
        with outputs.opened("k1.pit", "pit") as first, outputs.opened("k2.pit", "pit") as second:
            ...

A file is written next to its final name, as NAME.unfinished-PROCESS, and renamed when all of it is
on the disk. The files of one `together` appear together, or none does; an old file is kept
meanwhile as NAME.before-PROCESS, and is restored if a later one cannot be renamed. Both names
remain if the process is killed, or if a file cannot be restored, which is reported. One command at
a time renames files in a folder. After several files a record is put last
(pit_tools.files.records), which reveals a mixture of two runs to each reader.

No output replaces an input of the command, under any name or link. A link stays a link: its target
is replaced. A device or a pipe is written directly. If a file has several names by hard links, only
the given name gets the new file.
"""
from __future__ import annotations

import io
import os
import shutil
import stat
import sys
import threading
from contextlib import contextmanager
from typing import IO, Iterable, Iterator, Optional

from pit_tools.errors import UserError
from pit_tools.files import interrupts, records
from pit_tools.files.groups import Group
from pit_tools.files.inputs import Command, identity, looking
from pit_tools.files.raw import Raw, complete, descriptor_of, is_written_through, synced
from pit_tools.files.records import File, Record, status_of

_here = threading.local()


@contextmanager
def together(reading: Iterable[str] = (), record: str = "",
             others: Optional[Iterable[str]] = None) -> Iterator[None]:
    """The files that are opened within appear together at its end, or none does if an exception
    leaves it. One `together` within another is a part of that. `reading` names the files that are
    read, if no command runs, which knows its own.

    In a command a record RECORD.sums is written last if there are several files. With `others`,
    names that belong to the same base, none of these and none that the record named before remains
    unless it is written: a file that was changed since, or was never in a record, is an error, but
    removed with `force`."""
    group = getattr(_here, "group", None)
    if group is not None:
        group.note(reading)
        with _recorded(group, record, others):
            yield
        return
    with interrupts.caught():
        group = _here.group = Group()
        group.note(reading)
        try:
            with _recorded(group, record, others):
                yield
            group.put()
        finally:
            with interrupts.held():
                _here.group = None
                group.clear()


@contextmanager
def _recorded(group: Group, record: str, others: Optional[Iterable[str]]) -> Iterator[None]:
    """Puts files into a record, in a command only: a program in Python has none."""
    above, name = os.path.split(record + records.ENDING)
    before, path = group.record, os.path.join(os.path.realpath(above), name)
    if record and before in ("", path) and Command.now is not None:
        group.record = path
        if others is not None:
            group.others[path] = [os.path.realpath(one) for one in others]
    try:
        yield
    finally:
        group.record = before


@contextmanager
def alone() -> Iterator[None]:
    """Files that are opened within do not wait for the `together` around it."""
    group = getattr(_here, "group", None)
    _here.group = None
    try:
        yield
    finally:
        _here.group = group


@contextmanager
def opened(place: str, kind: str, encoding: Optional[str] = None,
           newline: str = "\n") -> Iterator[IO]:
    """A file to write, of bytes, or of text if an encoding is given. It gets its name at the end of
    the `together` around it, or at its own end.

    Raises UserError if the command reads that file, another kind of file is there, or the name is
    that of a standard stream; OSError, with the name, if a system call fails.
    """
    if place == "-":
        raise UserError("-: the output must be a file: give its name, ./- for a file named -")
    descriptor = descriptor_of(place)
    if descriptor is not None or is_written_through(place):
        with _written_through(place, descriptor) as raw:
            with complete(raw, encoding, newline) as file:
                yield file
        return
    with together():
        group = _here.group
        raw = group.begin(place, kind)
        mine = group.files[-1]
        try:
            with complete(raw, encoding, newline) as file:
                yield file
        except BaseException:
            with interrupts.held():
                group.drop([mine])
            raise


@contextmanager
def _written_through(place: str, descriptor: Optional[int]) -> Iterator[Raw]:
    """A device, a pipe or an open file of this process, not a regular file."""
    if descriptor is None:
        yield Raw(os.open(place, os.O_WRONLY | os.O_CLOEXEC), place)
        return
    if sys.stdout is not None:
        sys.stdout.flush()
    raw = Raw(os.dup(descriptor), place)
    status = os.fstat(raw.fileno())
    Group().reject_read(place,
                         (status.st_dev, status.st_ino) if stat.S_ISREG(status.st_mode) else None)
    yield raw


@contextmanager
def opened_or_printed(place: Optional[str], kind: str, encoding: str,
                      newline: str = "\n") -> Iterator[IO]:
    """Returns the same as text, or standard output if no place or `-` is given."""
    if place and place != "-":
        with opened(place, kind, encoding, newline) as file:
            yield file
        return
    try:
        status = os.fstat(sys.stdout.fileno())
    except (OSError, ValueError):
        status = None
    if status and stat.S_ISREG(status.st_mode):
        Group().reject_read("standard output", (status.st_dev, status.st_ino))
    if isinstance(sys.stdout, io.TextIOWrapper):
        sys.stdout.reconfigure(encoding=encoding, newline=newline)
    yield sys.stdout


def record_of(base: str, paths: Iterable[str]) -> None:
    """Writes the record of files that another program wrote for the command that runs."""
    path, command = base + records.ENDING, Command.now
    above = os.path.realpath(os.path.dirname(path))
    assert command is not None
    with looking():
        files = tuple(File.of(one, above) for one in paths)
        inputs = command.reading.inputs(above, ())
    with opened(path, "sums", "utf-8") as file:
        file.write(Record(path, command.name, files, inputs, tuple(command.reading.passed)).text)


def stored(paths: Iterable[str]) -> None:
    """Waits until the system has stored files that another program wrote, as far as they exist.
    Network file systems and quotas may report only now that they did not.

    Raises OSError with the name of the file; every file stays as it is.
    """
    for path in paths:
        try:
            descriptor = os.open(path, os.O_RDONLY | os.O_NONBLOCK | os.O_CLOEXEC)
        except FileNotFoundError:
            continue
        try:
            synced(descriptor, path)
        finally:
            os.close(descriptor)


def copied(source: str, place: str, kind: str) -> None:
    """Copies a file through the door."""
    with open(source, "rb") as file, opened(place, kind) as out:
        shutil.copyfileobj(file, out, 1 << 20)


def judged(*places: Optional[str]) -> None:
    """Rejects early, before a long computation, an output that would replace an input."""
    for place in filter(None, places):
        Group().reject_read(place, identity(os.path.realpath(place)))


def judged_old(place: str, kind: str) -> None:
    """Rejects early an output that would replace a file of another kind."""
    target = os.path.realpath(place)
    if status_of(target):
        Group().judge_old(place, target, kind)


def folder(path: str) -> None:
    """Makes a folder with its parents, if it does not exist; if the `together` fails, it is removed
    again if it is empty."""
    path, absent = os.path.abspath(path), []
    while not os.path.isdir(path):
        absent.append(path)
        path = os.path.dirname(path)
    for one in reversed(absent):
        os.mkdir(one)
        if getattr(_here, "group", None) is not None:
            _here.group.folders.append(one)
