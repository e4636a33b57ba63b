"""Runs `pitc compile` as a child process, with a bar of the bytes that it reads and writes."""
from __future__ import annotations

import os
import subprocess
import sys
from typing import Optional, Sequence

from pit_tools import progress
from pit_tools.errors import UserError
from pit_tools.files import interrupts
from pit_tools.instances.files import TEXTS

#: Seconds between two looks at how far it is.
INTERVAL = 0.2


def compile_shown(words: Sequence[str], reads: Sequence[str], base: str) -> tuple[int, str]:
    """Runs a command line that reads some files and writes an instance at a base; returns its
    status, or 128 plus the number of the signal that ended it, and its errors. Its output is passed
    on unchanged, without disturbing the bar.

    Raises UserError if the program cannot be run.
    """
    is_shown = progress.is_terminal()
    pipe = subprocess.PIPE
    sys.stdout.flush()
    try:
        # pylint: disable-next=consider-using-with
        child = subprocess.Popen(words, stdout=pipe if is_shown and sys.stdout.isatty() else None,
                                 stderr=pipe)
    except OSError as error:
        raise UserError(f"{words[0]} cannot be run: {error.strerror}") from None
    with child, interrupts.taken(lambda number, _: child.send_signal(number)):
        printed = _watched(child, reads, base) if is_shown else child.communicate()
    for text, stream in zip(printed, (sys.stdout, sys.stderr)):
        if text:
            stream.buffer.write(text)
            stream.flush()
    status = child.returncode if child.returncode >= 0 else 128 - child.returncode
    return status, (printed[1] or b"").decode("utf-8", "replace")


def _watched(child: subprocess.Popen, reads: Sequence[str],
             base: str) -> tuple[Optional[bytes], Optional[bytes]]:
    """Returns what a program prints, if that is collected here; until it ends its bytes are
    shown."""
    total = sum(map(_size, reads))
    growth = progress.Growth()
    try:
        while True:
            try:
                return child.communicate(timeout=INTERVAL)
            except subprocess.TimeoutExpired:
                read, wrote = _bytes_of(child.pid)
                if wrote:
                    growth.report(f"compile writes {_grows(base)}", wrote)
                else:
                    growth.report("compile reads", min(read, total), total)
    finally:
        growth.close()


def _size(path: str) -> int:
    try:
        return os.stat(path).st_size
    except OSError:
        return 0


def _bytes_of(process: int) -> tuple[int, int]:
    """Returns the number of bytes that a process has read and written by now; 0 if the system does
    not report it."""
    try:
        with open(f"/proc/{process}/io", encoding="ascii") as file:
            printed = dict(line.split(": ") for line in file.read().splitlines())
    except OSError:
        return 0, 0
    return int(printed["rchar"]), int(printed["wchar"])


def _grows(base: str) -> str:
    """The file of an instance that was written last."""
    times = {}
    for text in TEXTS:
        try:
            times[f"{base}.{text}"] = os.stat(f"{base}.{text}").st_mtime_ns
        except OSError:
            pass
    return max(times, key=lambda path: times[path], default=base)
