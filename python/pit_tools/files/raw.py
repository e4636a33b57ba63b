"""Files that are open for writing, whose errors have their names."""
from __future__ import annotations

import errno
import hashlib
import io
import os
import re
import stat
from contextlib import contextmanager
from typing import IO, Any, Iterator, Optional


def descriptor_of(place: str) -> Optional[int]:
    """The open file of this process that a name such as /dev/stdout means."""
    path, own = os.path.abspath(place), rf"/(?:dev|proc/(?:self|{os.getpid()}))/fd/(\d+)"
    for _ in range(40):
        if found := re.fullmatch(own, path):
            return int(found[1])
        if not os.path.islink(path):
            break
        path = os.path.abspath(os.path.join(os.path.dirname(path), os.readlink(path)))
    return None


def is_written_through(place: str) -> bool:
    try:
        mode = os.stat(place).st_mode
    except OSError:
        return False
    return not stat.S_ISREG(mode) and not stat.S_ISDIR(mode)


def with_name(error: OSError, place: str) -> OSError:
    """Returns the same error with the name of the output."""
    return OSError(error.errno, error.strerror or str(error), place)


class Raw(io.FileIO):
    """A file whose errors have its name, and whose sum is computed while it is written; `sum` is
    None if it was written in another order, as an archive is."""

    def __init__(self, descriptor: int, place: str, is_summed: bool = False):
        super().__init__(descriptor, "w")
        self.place = place
        self.sum = hashlib.sha256() if is_summed else None

    def write(self, data: Any) -> int:
        try:
            written = super().write(data)
        except OSError as error:
            raise with_name(error, self.place) from None
        if self.sum is not None:
            self.sum.update(memoryview(data)[:written])
        return written

    def seek(self, position: int, whence: int = 0) -> int:
        self.sum = None
        return super().seek(position, whence)


def _over(raw: Raw, encoding: Optional[str], newline: str) -> IO[Any]:
    buffered = io.BufferedWriter(raw, 1 << 18)
    if encoding:
        return io.TextIOWrapper(buffered, encoding, newline=newline)
    return buffered


@contextmanager
def complete(raw: Raw, encoding: Optional[str], newline: str) -> Iterator[IO]:
    """Returns a reference to a file, and checks that all of it is written."""
    file = _over(raw, encoding, newline)
    try:
        yield file
        file.flush()
        if stat.S_ISREG(os.fstat(raw.fileno()).st_mode):
            synced(raw.fileno(), raw.place)
        try:
            file.close()
        except OSError as error:
            raise with_name(error, raw.place) from None
    finally:
        # What is not flushed is not needed.
        raw.close()


def synced(descriptor: int, place: str) -> None:
    """Waits until a file is on the disk: only then are full disks elsewhere reported."""
    try:
        os.fsync(descriptor)
    except OSError as error:
        if error.errno not in (errno.EINVAL, errno.EOPNOTSUPP):
            raise with_name(error, place) from None
