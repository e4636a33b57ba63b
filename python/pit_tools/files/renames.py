"""Files on their way to their final names: an old file is kept until all new ones are in place."""
from __future__ import annotations

import errno
import fcntl
import os
import re
import stat
import time
from contextlib import contextmanager
from dataclasses import dataclass
from typing import Callable, Iterable, Iterator, Optional, TypeVar

from pit_tools.errors import UserError
from pit_tools.files import records
from pit_tools.files.raw import Raw, with_name
from pit_tools.files.records import File

#: The length of a name's part in the name of an unfinished file: with the remainder it has at most
#: 255 bytes.
NAME_KEPT = 200

#: Seconds in which another command has put its files into a folder.
SECONDS_OF_A_PUT = 20.0

Made = TypeVar("Made")


@dataclass
class Unfinished:
    """A temporary file for an output. `place` is how the command names it, `target` its final path,
    `path` its path until then, empty for a file to remove; `record` is the path of its record, or
    empty."""

    place: str
    target: str
    path: str
    record: str = ""
    raw: Optional[Raw] = None

    def file(self) -> File:
        """Returns its entry in its record."""
        found = self.raw.sum.hexdigest() if self.raw and self.raw.sum else records.sum_of(self.path)
        return File(os.path.relpath(self.target, os.path.dirname(self.record)),
                    os.stat(self.path).st_size, found)


@dataclass
class Step:
    """A file on its way to its final name: whether one existed, the other name that this one has
    meanwhile, whether it lost its own for that, and whether the new one is in place."""

    one: Unfinished
    was_there: bool
    kept: str = ""
    is_aside: bool = False
    is_put: bool = False

    def back(self) -> str:
        """Restores the old file, or removes a new one that replaced nothing; reports what exists if
        that fails."""
        place, before = self.one.place, os.path.join(os.path.dirname(self.one.place),
                                                     os.path.basename(self.kept))
        try:
            if self.kept and (self.is_put or self.is_aside):
                os.replace(self.kept, self.one.target)
            elif self.is_put and not self.was_there:
                os.unlink(self.one.target)
            remove(self.kept)
            return ""
        except OSError:
            if not self.kept:
                return f"{place} is new"
            return f"{place} is {'new' if self.is_put else 'gone'}, and was {before}"


def next_to(target: str, what: str, make: Callable[[str], Made]) -> tuple[str, Made]:
    """Makes a file next to another one, under an unused name; returns it, and the result of
    `make`."""
    above, name = os.path.split(target)
    path = os.path.join(above, f"{name[:NAME_KEPT]}.{what}-{os.getpid()}")
    for number in range(1, 1000):
        try:
            return path, make(path)
        except FileExistsError:
            # One of the same number that was killed, on this machine or another.
            path = os.path.join(above, f"{name[:NAME_KEPT]}.{what}-{os.getpid()}.{number}")
    raise FileExistsError(errno.EEXIST, os.strerror(errno.EEXIST), path)


def created(path: str, mode: int) -> int:
    return os.open(path, os.O_CREAT | os.O_EXCL | os.O_WRONLY | os.O_CLOEXEC, mode)


def take_rights(descriptor: int, old: os.stat_result) -> None:
    """Gives a new file the owner and the mode of the one that it replaces, if the system permits
    it: otherwise nobody has more rights to it than before."""
    new = os.fstat(descriptor)
    try:
        if (old.st_uid, old.st_gid) != (new.st_uid, new.st_gid):
            os.fchown(descriptor, old.st_uid, old.st_gid)
        os.fchmod(descriptor, stat.S_IMODE(old.st_mode))
    except OSError:
        pass


def lies(target: str) -> bool:
    """Returns whether a name is taken, also by a broken link."""
    try:
        os.lstat(target)
    except (FileNotFoundError, NotADirectoryError):
        return False
    return True


def put_step(step: Step, is_kept: bool) -> None:
    """Renames a file to its final name, or removes it; the old one gets a second name, or is
    renamed if the file system has no links."""
    one = step.one
    try:
        if step.was_there and (is_kept or not one.path):
            step.kept, step.is_aside = _kept(one)
        if one.path:
            os.replace(one.path, one.target)
            step.is_put = True
    except OSError as error:
        raise with_name(error, one.place) from None


def _kept(one: Unfinished) -> tuple[str, bool]:
    """Returns another name of the old file, and whether it lost its own for that."""
    if one.path:
        try:
            return next_to(one.target, "before", lambda path: os.link(one.target, path))[0], False
        except OSError:
            pass
    return next_to(one.target, "before", lambda path: _moved(one.target, path))[0], True


def _moved(path: str, new: str) -> None:
    """Renames a file to a name that is not taken."""
    if lies(new):
        raise FileExistsError(errno.EEXIST, os.strerror(errno.EEXIST), new)
    os.replace(path, new)


def said(error: OSError) -> str:
    place = f"{os.fsdecode(error.filename)}: " if error.filename else ""
    return place + (error.strerror or str(error))


@contextmanager
def alone_in(above: str) -> Iterator[None]:
    """Prevents other commands from renaming files in a folder meanwhile. The system releases the
    lock with the process; without locks in a file system, only records reveal a mixture."""
    try:
        descriptor = os.open(above, os.O_RDONLY | os.O_DIRECTORY | os.O_CLOEXEC)
    except OSError:
        yield
        return
    try:
        until = time.monotonic() + SECONDS_OF_A_PUT
        while not _locked(descriptor):
            if time.monotonic() > until:
                raise UserError(f"{above}: another command has been putting files there for "
                                f"{SECONDS_OF_A_PUT:g} s: end it, or wait for it")
            time.sleep(0.02)
        yield
    finally:
        os.close(descriptor)


def _locked(descriptor: int) -> bool:
    """Takes a lock; returns whether nobody else has it."""
    try:
        fcntl.flock(descriptor, fcntl.LOCK_EX | fcntl.LOCK_NB)
    except BlockingIOError:
        return False
    except OSError:
        pass
    return True


def remove(path: str) -> None:
    try:
        if path:
            os.unlink(path)
    except OSError:
        pass


def sync_folder(path: str) -> None:
    """Makes the new names durable; the files exist already, so an error here is ignored."""
    try:
        descriptor = os.open(path, os.O_RDONLY | os.O_DIRECTORY | os.O_CLOEXEC)
    except OSError:
        return
    try:
        os.fsync(descriptor)
    except OSError:
        pass
    finally:
        os.close(descriptor)


def clear_leftovers(places: Iterable[str]) -> None:
    """Removes what a killed process left next to these files, which nobody else may write now."""
    by_folder: dict[str, set[str]] = {}
    for place in places:
        above, name = os.path.split(place)
        by_folder.setdefault(above or ".", set()).add(name[:NAME_KEPT])
    for above, names in by_folder.items():
        for left in os.listdir(above):
            found = re.fullmatch(r"(.*)\.(?:unfinished|before)-\d+(?:\.\d+)?", left)
            if found and found[1] in names:
                remove(os.path.join(above, left))
