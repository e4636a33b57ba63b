"""`pit-tools read`: the files of an instance, read into arrays, counted, and written again."""
from __future__ import annotations

import argparse
from typing import TYPE_CHECKING, Any

from pit_tools.commands import add_outs, add_precedence_option, by_ending

if TYPE_CHECKING:
    from pit_tools.instances.arrays import Instance

HELP = """\
Reads the files of an instance into arrays and sparse matrices, and prints the counts that
`pitc check` prints.

    pit-tools read deposit
    pit-tools read deposit --out copy                the same files, byte for byte
    pit-tools read deposit --out deposit.npz         for numpy.load
    pit-tools read deposit --prec deposit.thin    with the arcs that pitc_thin kept
    pit-tools read deposit --fewer-arcs --out fewer  without what pitc_thin drops

A program of your own calls pit_tools.read_instance.
"""

WRITES = "instance files and arrays"


def add_arguments(parser: argparse.ArgumentParser) -> None:
    parser.add_argument("base", help="the instance: BASE.blocks, BASE.prec, BASE.upit, BASE.pcpsp, "
                        "BASE.cpit")
    add_precedence_option(parser)
    add_outs(parser, "writes blocks, values, uses and the precedences' indptr and indices into a "
                     ".npz file, or the files at another base")
    parser.add_argument("--fewer-arcs", action="store_true",
                        help="drops the arcs that pitc_thin drops: no pit and no schedule changes")


def run(args: argparse.Namespace) -> int:
    from dataclasses import replace

    from pit_tools.errors import UserError
    from pit_tools.files import inputs, outputs
    from pit_tools.instances.files import read_instance, write_instance
    from pit_tools.pits.closure import immediate

    outs = by_ending(args.out, ".npz", has_others=True)
    if len(outs[""]) > 1:
        raise UserError(f"--out: give one base, not {', '.join(outs[''])}")
    mine = read_instance(args.base, precedence=args.prec)
    print(mine.counts())
    if args.fewer_arcs:
        mine = replace(mine, precedence=immediate(mine.precedence))
        print(mine.counts())
    with outputs.together():
        for base in outs[""]:
            write_instance(mine, base)
        for path in outs[".npz"]:
            _write_arrays(mine, path)
    for path in inputs.removed():
        print(f"removed: {path}")
    return 0


def _write_arrays(mine: Instance, path: str) -> None:
    import zipfile

    import numpy as np

    from pit_tools.files import outputs
    from pit_tools.instances.arrays import present

    precedence: Any = present(mine.precedence, "precedence file")
    parts = {f"block_{name}": array
             for name, array in vars(present(mine.blocks, "block file")).items()}
    parts |= {"precedence_indptr": precedence.indptr, "precedence_indices": precedence.indices}
    if mine.upit:
        parts["upit_values"] = mine.upit.values
    for problem in [one for one in (mine.pcpsp, mine.cpit) if one]:
        name = problem.kind.lower()
        limits = [(limit.resource, limit.period, limit.least, limit.most)
                  for limit in problem.limits]
        parts |= {f"{name}_values": problem.values, f"{name}_rate": problem.rate,
                  f"{name}_periods": problem.periods,
                  f"{name}_limits": np.array(limits, dtype=float).reshape(-1, 4)}
        parts |= {f"{name}_use_{part}": array for part, array in vars(problem.uses).items()}
    # If a disk is full, numpy's savez leaves its archive open, which then prints an error itself.
    with outputs.opened(path, "arrays") as file, zipfile.ZipFile(file, "w") as archive:
        for name, array in parts.items():
            with archive.open(f"{name}.npy", "w", force_zip64=True) as part:
                np.save(part, np.asanyarray(array), allow_pickle=False)
