"""The programs and options that make an instance of a batch: the text of BUILD."""
from __future__ import annotations

import os
import shutil
import subprocess
import sys
from dataclasses import dataclass
from functools import lru_cache
from hashlib import sha256
from importlib import metadata
from typing import Optional

from pit_tools import VERSION
from pit_tools.errors import UserError
from pit_tools.files.records import sum_of
from pit_tools.pits.compiled import SOURCE


@dataclass(frozen=True)
class Way:
    """How the instances of a batch are made: the folder in which the list's names are; pitc with
    its options; pitc_thin if files without implied arcs are wanted; and the time limit of a
    relaxation in seconds, None for no relaxations."""

    folder: str
    pitc: str
    options: tuple[str, ...] = ()
    thin: Optional[str] = None
    seconds: Optional[float] = None


def found_program(name: str, option: str) -> str:
    """Returns the path of a program. Raises UserError if there is none."""
    found = shutil.which(name)
    if found is None:
        raise UserError(f"no program `{name}` is in the PATH: give {option}")
    return os.path.abspath(found)


def build_text(way: Way) -> str:
    """Returns the versions and the sums of pitc and pitc_thin, the options, and what made the
    table: the tool and its packages. Raises UserError if one of the programs does not work."""
    packages = " ".join(f"{name} {metadata.version(name)}" for name in ("numpy", "scipy", "pandas"))
    programs = _program_text(way.pitc, "pitc") + (_program_text(way.thin, "pitc_thin") if way.thin
                                                  else "")
    relaxed = "none" if way.seconds is None else f"{way.seconds:g} s each"
    return (f"{programs}options: {' '.join(way.options) or 'none'}\nrelaxations: {relaxed}\n"
            f"pit-tools {VERSION}\n{sum_of_modules()}  modules of pit-tools\n{sum_of(SOURCE)}  "
            f"{os.path.basename(SOURCE)}\nPython {'.'.join(map(str, sys.version_info[:3]))}, "
            f"{packages}\n")


#: BUILD's text, computed once in a process.
build_text_once = lru_cache(None)(build_text)


def _program_text(program: str, name: str) -> str:
    try:
        version = subprocess.run([program, "--version"], capture_output=True, text=True,
                                 errors="replace", check=False)
    except OSError as error:
        raise UserError(f"{program} cannot be run: {error.strerror}") from None
    if version.returncode:
        raise UserError(f"{program} --version ends with {version.returncode}")
    return f"{version.stdout.strip()}\n{sum_of(program)}  {name}\n"


def sum_of_modules(folder: str = os.path.dirname(os.path.dirname(__file__))) -> str:
    """Returns one sum of all modules of the tool, its commands included, with their names."""
    paths = [os.path.join(above, name) for above, _, names in os.walk(folder)
             for name in names if name.endswith((".py", ".cpp"))]
    found = sha256()
    for path in sorted(os.path.relpath(path, folder) for path in paths):
        found.update(f"{sum_of(os.path.join(folder, path))}  {path}\n".encode())
    return found.hexdigest()
