"""Locks of files, and of the base of an instance that pitc writes. The system releases them when
the process ends, for any cause. Without locks in a file system, nothing is locked: only records
reveal a mixture."""
from __future__ import annotations

import errno
import fcntl
import os
from contextlib import ExitStack, contextmanager
from typing import Iterator

from pit_tools.errors import UserError

@contextmanager
def held(base: str) -> Iterator[None]:
    """Holds the base of an instance for one command, by a file that goes with the lock.

    Raises UserError if another one holds it, or its folder cannot be written."""
    path = os.path.join(os.path.dirname(base), f".{os.path.basename(base)}.lock")
    with ExitStack() as opened:
        while True:
            try:
                descriptor = lock(opened, path, fcntl.LOCK_EX,
                                   f"{base}: another command writes this instance: wait for its "
                                   "end")
            except OSError as error:
                raise UserError(f"{base}: the lock and the record of sums cannot be written in its "
                                f"folder ({error.strerror}): make it writable, or name another "
                                "place; `pitc compile` itself needs neither") from None
            try:
                if os.path.samestat(os.fstat(descriptor), os.stat(path)):
                    break
            except FileNotFoundError:
                pass
        opened.callback(os.unlink, path)
        yield


def lock(opened: ExitStack, path: str, how: int, message: str) -> int:
    """Opens a file and locks it; returns its descriptor, which is closed with `opened`."""
    descriptor = os.open(path, os.O_RDWR | os.O_CREAT | os.O_CLOEXEC, 0o666)
    opened.callback(os.close, descriptor)
    try:
        fcntl.flock(descriptor, how | fcntl.LOCK_NB)
    except BlockingIOError:
        raise UserError(message) from None
    except OSError as error:
        if error.errno not in (errno.ENOLCK, errno.EOPNOTSUPP, errno.ENOSYS):
            raise
    return descriptor
