"""Runs a built pitc with the malloc of tools/malloc.c, which refuses one allocation.

It needs a C compiler: cc, gcc or clang, or else the toolchain's, whose rt is called here.
"""
import os
import shutil
import subprocess
import sys

from rows import driver
from shared import TOP

# The descriptor that the malloc reports to.
REPORTS = 199


def compiler():
    """Returns the path of a compiler and the arguments that it needs, or None if there is none."""
    here = list(filter(None, map(shutil.which, ["cc", "gcc", "clang"])))
    if here:
        return here[:1]
    rt = os.path.realpath(shutil.which("rt") or "/none/none/rt")
    tools = os.path.join(os.path.dirname(os.path.dirname(rt)), "toolchain", "bin")
    if not os.path.exists(os.path.join(tools, "clang")):
        return None
    return [os.path.join(tools, "clang"), "--ld-path=" + os.path.join(tools, "ld.lld")]


def build(folder, name="malloc"):
    """Builds the library of this malloc, or of another file of tools/, and returns its path."""
    library, source = os.path.join(folder, f"{name}.so"), os.path.join(TOP, "tools", f"{name}.c")
    arguments, by = ["-shared", "-fPIC", "-O1", "-nostdlib", "-fno-builtin", "-o", library, source], compiler()
    if by is None:
        sys.exit(f"tools/{os.path.basename(sys.argv[0])}: no cc, gcc or clang here, so nothing is compared")
    subprocess.run([*by, *arguments], check=True)
    return library


def result(program, library, trial, nth=0):
    """Returns the result of a row's run whose Nth allocation is refused, and what the malloc reports.

    It reports words, each with a size: `refused`, or `within` if the C library starts a thread. If N is 0 it reports `size` for each
    allocation, and for each thread `start`, with the size of the last allocation before.
    """
    reads, writes = os.pipe()
    os.dup2(writes, REPORTS, inheritable=True)
    os.close(writes)
    surroundings = dict(os.environ, LD_PRELOAD=library, REFUSE_NTH=str(nth))
    try:
        given = driver.result(program, trial, env=surroundings, pass_fds=[REPORTS])
    finally:
        os.close(REPORTS)
    with open(reads, "rb") as pipe:
        return given, [(word, int(size)) for word, size in map(bytes.split, pipe)]
