"""The version of pit-tools, and the versions that it runs on."""
from __future__ import annotations

import sys

from pit_tools import VERSION

#: The packages that it needs.
NEEDED = ("pandas", "numpy", "scipy", "matplotlib", "openpyxl")


def missing_packages() -> str:
    """Returns the packages that this Python is missing, which the launcher gets by --missing."""
    import importlib.util

    if sys.version_info < (3, 9):
        return "Python 3.9"
    return " ".join(name for name in NEEDED if not importlib.util.find_spec(name))


def version() -> str:
    """The version, the interpreter, and the packages that it has."""
    from importlib import metadata

    packages = []
    for name in NEEDED:
        try:
            packages.append(f"{name} {metadata.version(name)}")
        except metadata.PackageNotFoundError:
            packages.append(f"no {name}")
    numbers = ".".join(map(str, sys.version_info[:3]))
    return f"pit-tools {VERSION}\n{sys.executable} ({numbers}): {', '.join(packages)}"
