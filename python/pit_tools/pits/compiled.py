"""The C++ program, closure.cpp: as it was packed, or compiled once and kept where nobody else can
write.

A wheel, a package and an archive bring it compiled, next to this module: a user who could write
there could also write the modules. Elsewhere it is compiled and kept in the folder `pit-tools` of
the user's cache. If that folder is not the user's own, or others may write there, or it is not
writable, the program is compiled for this run only.
"""
from __future__ import annotations

import ctypes
import hashlib
import os
import platform
import shutil
import stat
import subprocess
import sys
import tempfile
from functools import lru_cache
from typing import Optional

from pit_tools.errors import UserError
from pit_tools.files import interrupts, outputs
from pit_tools.files.owners import is_own, nobody_moves

SOURCE = os.path.join(os.path.dirname(__file__), "closure.cpp")

#: The compiler's options, after its name: `-s` omits names that no call needs.
OPTIONS = ["-O2", "-std=c++17", "-shared", "-fPIC", "-s"]

#: The message if there is no program.
WITHOUT = ("so HiGHS finds pits, which takes minutes beyond about ten thousand blocks, and arcs "
           "that others imply are kept")


def compiler() -> Optional[str]:
    """Returns the C++ compiler of this machine: that of CXX, or the first of g++, c++ and
    clang++."""
    names = [os.environ.get("CXX", ""), "g++", "c++", "clang++"]
    return next((found for name in names if name and (found := shutil.which(name))), None)


def cache() -> Optional[str]:
    """Returns the folder where the program is kept, made if it does not exist; None if there is
    none."""
    home = os.environ.get("XDG_CACHE_HOME", "")
    if not os.path.isabs(home):
        home = os.path.join(os.path.expanduser("~"), ".cache")
    if not os.path.isabs(home):
        return None
    try:
        os.makedirs(home, mode=0o700, exist_ok=True)
        # By its real path, so that no link in it can change its target a moment later.
        home = os.path.realpath(home)
        folder = os.path.join(home, "pit-tools")
        if not os.path.lexists(folder):
            os.mkdir(folder, 0o700)
        is_safe = is_own(folder, stat.S_IFDIR) and nobody_moves(home)
        return folder if is_safe and os.access(folder, os.W_OK) else None
    except OSError:
        return None


def _report(text: str) -> None:
    print(f"pit-tools: {text}", file=sys.stderr)


def file_name() -> str:
    """The name of the compiled program, which has the sum of its source: one of another source is
    never loaded."""
    with open(SOURCE, "rb") as file:
        return f"closure-{platform.machine()}-{hashlib.sha256(file.read()).hexdigest()[:16]}.so"


def made(path: str) -> bool:
    """Compiles the program to a path; reports if that fails."""
    program = compiler()
    if program is None:
        _report(f"no C++ compiler is installed (apt-get install g++), {WITHOUT}")
        return False
    try:
        done = subprocess.run([program, *OPTIONS, "-o", path, SOURCE], capture_output=True,
                              text=True, errors="replace", check=False)
    except OSError as error:
        _report(f"{program}: {error.strerror}, {WITHOUT}")
        return False
    if done.returncode:
        _report(f"{program} does not compile {SOURCE} "
                 f"({(done.stderr.strip().splitlines() or ['no word'])[0]}), {WITHOUT}")
    return not done.returncode


def _loaded(path: str) -> Optional[ctypes.CDLL]:
    try:
        return ctypes.CDLL(path)
    except OSError:
        return None


@lru_cache(None)
def library() -> Optional[ctypes.CDLL]:
    """Returns the program; None if it does not exist and cannot be made, which is reported once."""
    name = file_name()
    packed = os.path.join(os.path.dirname(SOURCE), name)
    if os.path.exists(packed) and (found := _loaded(packed)):
        return found
    folder = cache()
    path = os.path.join(folder, name) if folder else None
    if path and is_own(path, stat.S_IFREG) and (found := _loaded(path)):
        return found
    with interrupts.caught(), tempfile.TemporaryDirectory(prefix="pit-tools-") as apart:
        new = os.path.join(apart, name)
        if not made(new):
            return None
        if path:
            _keep(new, path)
        found = _loaded(new)
        if found is None:
            _report(f"{apart}: no program may be run there (TMPDIR names another folder), "
                    f"{WITHOUT}")
        return found


def _keep(new: str, path: str) -> None:
    """Puts the program into the cache for later runs; if that fails they compile it too."""
    try:
        if os.path.lexists(path):
            os.unlink(path)
        with outputs.alone():
            outputs.copied(new, path, "compiled program")
        os.chmod(path, 0o700)
    except (OSError, UserError):
        pass
