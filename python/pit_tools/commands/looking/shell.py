"""`pit-tools shell`: pits as surfaces for the package."""
from __future__ import annotations

import argparse
from typing import TYPE_CHECKING, Optional

if TYPE_CHECKING:
    from pit_tools.pits.shells import Shell
    from pit_tools.plans.grids import Turn

HELP = """\
Writes pits as closed surfaces of triangles, in the coordinates of the package's model.

    pit-tools shell mine.plan mine mine.pit --out pit.dxf
    pit-tools shell mine.plan mine early.pit=early mine.pit=last --out pits.vtk

The surface follows the faces of complete blocks: floor, walls and ground. The ending of --out
selects a DXF of 3DFACEs, each pit a layer; a VTK file, whose triangles have the number `pit`, from
0 on; or an OBJ, each pit an object. A pit has the name after `=`, or else its file's name.

Coordinates are the export's, also for turned models and feet, by the sidecar file that `pit-tools
plan` wrote next to the plan, or by --turned. For each pit it prints blocks, volume, triangles, and
the smallest and largest coordinates.
"""

WRITES = "DXF, VTK and OBJ files"


def add_arguments(parser: argparse.ArgumentParser) -> None:
    parser.add_argument("plan", help="the plan")
    parser.add_argument("base", help="the instance: BASE.blocks")
    parser.add_argument("pits", nargs="+", metavar="FILE[=NAME]",
                        help="the blocks of a pit, one per line, and its name")
    parser.add_argument("--out", required=True, metavar="FILE",
                        help="a file that ends with .dxf, .vtk or .obj")
    parser.add_argument("--turned", metavar="JSON",
                        help="the file that `import` wrote, as from.json, if the plan has no "
                             "sidecar file")


def run(args: argparse.Namespace) -> int:
    import os
    import sys

    from pit_tools.imports.record import frame_of
    from pit_tools.instances.block_files import read_blocks
    from pit_tools.pits.files import NamedPit
    from pit_tools.pits.shell_files import writer_of
    from pit_tools.pits.shells import shell_of
    from pit_tools.plans.file import read_plan
    from pit_tools.plans.note import read_note

    write, note = writer_of(args.out), read_note(args.plan)
    frame = frame_of(args.turned, note)
    plan, blocks = read_plan(args.plan), read_blocks(args.base + ".blocks")
    if note.why_not and not args.turned:
        print(f"NOTE: {note.why_not}", file=sys.stderr)
    shells = []
    for path, name in map(NamedPit.of, args.pits):
        in_pit = NamedPit(path, name).of_blocks(len(blocks))
        name = name or os.path.splitext(os.path.basename(path))[0]
        shells.append(shell_of(name, plan.grid, blocks, in_pit, frame))
        _print_shell(shells[-1], int(in_pit.sum()), frame.unit)
    _print_turn(frame.turn)
    write(shells, args.out)
    return 0


def _print_shell(shell: Shell, count: int, unit: str) -> None:
    from pit_tools.texts.number_texts import shortest, with_commas

    ends = ", ".join(f"{axis} {shortest(low, 3)} to {shortest(high, 3)}"
                     for axis, low, high in zip("xyz", *shell.ends))
    print(f"{shell.name}: {with_commas(count)} blocks, {with_commas(shell.volume, 1)} {unit}3, "
          f"{with_commas(len(shell.triangles))} triangles; {ends} {unit}")
    if shell.crossings:
        print(f"NOTE: at {with_commas(shell.crossings)} edges of {shell.name} four faces meet, "
              "because its blocks touch along an edge only: a package may require a repair")


def _print_turn(turn: Optional[Turn]) -> None:
    from pit_tools.plans.grids import turn_text
    from pit_tools.texts.number_texts import shortest

    if turn is not None:
        about = ", ".join(shortest(one, 3) for one in turn.about)
        print(f"turned back about {about}: the model's {turn_text(turn)}")
