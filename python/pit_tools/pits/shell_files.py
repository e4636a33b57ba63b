"""Writes the surfaces of pits as DXF, VTK or OBJ, by the ending of the file's name."""
from __future__ import annotations

import os
import re
import tempfile
from typing import Callable, Iterator, Sequence

import numpy as np

from pit_tools.errors import UserError
from pit_tools.files import outputs
from pit_tools.pits.shells import Shell
from pit_tools.texts.number_texts import lines_of, scaled

#: Decimals of coordinates in an OBJ file: a block's corner never has more than 4.
DECIMALS = 4

#: Letters of a layer's name in a DXF of release 12, and how many it may have.
_OTHER, _LONGEST = re.compile(r"[^A-Za-z0-9_$-]"), 31


#: Triangles that are held as numbers of Python at a time.
_CHUNK = 1 << 14

#: A function that writes some surfaces to a place.
Writer = Callable[[Sequence[Shell], str], None]


def writer_of(place: str) -> Writer:
    """Returns the function that writes surfaces as one file with such a name: each is a layer of a
    DXF, an object of an OBJ, and in a VTK the number `pit`, from 0 on, of its triangles.

    Raises UserError for another ending; so does the returned function if its package is missing.
    """
    ending = os.path.splitext(place)[1].lower()
    if ending not in WRITERS:
        raise UserError(f"--out: `{place}` must end with one of {', '.join(WRITERS)}")
    return WRITERS[ending]


def _write_dxf(shells: Sequence[Shell], place: str) -> None:
    """3DFACEs of release 12, which each package reads, a layer and a colour for each pit."""
    try:
        from ezdxf.addons.r12writer import r12writer
    except ImportError:
        raise _absent("a DXF", "ezdxf") from None
    layers = _layers([shell.name for shell in shells])
    with outputs.opened(place, "DXF drawing", "ascii") as file, r12writer(file) as drawing:
        for number, (shell, layer) in enumerate(zip(shells, layers)):
            for at in range(0, len(shell.triangles), _CHUNK):
                for corners in shell.points[shell.triangles[at:at + _CHUNK]].tolist():
                    drawing.add_3dface(corners, layer=layer, color=1 + number % 6)


def _absent(what: str, package: str) -> UserError:
    return UserError(f"{what} needs the Python package {package}: apt-get install "
                     f"--no-install-recommends python3-{package}")


def _layers(names: Sequence[str]) -> list[str]:
    """Returns the names of layers: the pits' names in letters that a layer may have, made
    unique."""
    found: list[str] = []
    for name in names:
        layer = first = _OTHER.sub("_", name)[:_LONGEST] or "_"
        number = 2
        while layer.upper() in (one.upper() for one in found):
            end = f"-{number}"
            layer, number = first[:_LONGEST - len(end)] + end, number + 1
        found.append(layer)
    return found


def _write_vtk(shells: Sequence[Shell], place: str) -> None:
    """Writes the legacy form of VTK 4.2, binary: meshio needs its own file, which is then
    copied."""
    try:
        import meshio
    except ImportError:
        raise _absent("a VTK file", "meshio") from None
    starts = np.cumsum([0, *(len(shell.points) for shell in shells)])
    triangles = np.concatenate([shell.triangles + start for shell, start in zip(shells, starts)])
    counts = [len(shell.triangles) for shell in shells]
    numbers = np.repeat(np.arange(len(shells), dtype=np.int32), counts)
    points = np.concatenate([shell.points for shell in shells])
    cells = [("triangle", triangles.astype(np.int32))]
    mesh = meshio.Mesh(points, cells, cell_data={"pit": [numbers]})
    with tempfile.TemporaryDirectory(prefix="pit-tools-") as apart:
        made = os.path.join(apart, "shell.vtk")
        meshio.write(made, mesh, file_format="vtk42")
        outputs.copied(made, place, "VTK file")


def _write_obj(shells: Sequence[Shell], place: str) -> None:
    """Writes an object for each pit, whose corners continue the numbers of the pits before."""
    start = 1
    with outputs.opened(place, "OBJ file") as file:
        file.write(b"# pit-tools shell\n")
        for shell in shells:
            file.write(f"o {'_'.join(shell.name.split())}\n".encode())
            file.writelines(_lines(b"v", scaled(shell.points, DECIMALS), DECIMALS))
            file.writelines(_lines(b"f", shell.triangles + start, 0))
            start += len(shell.points)


def _lines(letter: bytes, table: np.ndarray, decimals: int) -> Iterator[bytes]:
    """Returns the rows of a table of integers with the given number of decimals, a letter before
    each."""
    for chunk in lines_of([(table[:, at], decimals) for at in range(3)]):
        yield b"".join(letter + b" " + line for line in chunk.splitlines(True))


WRITERS: dict[str, Writer] = {".dxf": _write_dxf, ".vtk": _write_vtk, ".obj": _write_obj}
