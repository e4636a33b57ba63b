"""`pit-tools pit`: the ultimate pit of an instance, or of its plan for each K."""
from __future__ import annotations

import argparse
from typing import TYPE_CHECKING

from pit_tools.commands import add_precedence_option

if TYPE_CHECKING:
    from pit_tools.instances.arrays import Instance
    from pit_tools.plans.file import Plan
    from pit_tools.plans.note import PlanNote

HELP = """\
Finds the ultimate pit of an instance: the blocks of largest total value, each with all its
predecessors. A C++ program finds it, in a second or two for a million blocks at K = 1; without a
C++ compiler, HiGHS solves it up to about ten thousand blocks.

    pit-tools pit deposit --out deposit.pit

reads deposit.blocks, deposit.prec and deposit.upit, writes the identifiers of the pit's blocks, one
per line, and prints their number, tonnes and value: in the currency of deposit.plan's sidecar file,
or else in units of 100 cents.

    pit-tools pit deposit --prec deposit.thin

reads the arcs of deposit.thin, which pitc_thin wrote: the same pit, from fewer arcs.

    pit-tools pit deposit --plan deposit.plan --K 1,2,4,9,plan --out k

finds the pit for each K in turn, used for all zones; `plan` keeps the plan's own K. It reads no
precedences, since they follow from the plan, and writes k1.pit, k2.pit and so on.
"""

WRITES = "pits"


def add_arguments(parser: argparse.ArgumentParser) -> None:
    parser.add_argument("base", help="the instance: BASE.blocks, BASE.prec, BASE.upit")
    add_precedence_option(parser)
    parser.add_argument("--out", metavar="FILE",
                        help="the file for the pit's blocks; with --K the prefix of the names")
    parser.add_argument("--plan", metavar="PLAN",
                        help="finds the arcs from this plan, and not from BASE.prec")
    parser.add_argument("--K", metavar="LIST", default="plan",
                        help="numbers of benches that cones reach up, as 1,2,4,plan; needs --plan")


def run(args: argparse.Namespace) -> int:
    from pit_tools import progress
    from pit_tools.errors import UserError
    from pit_tools.instances.arrays import present
    from pit_tools.instances.files import read_instance
    from pit_tools.pits.closure import ultimate_pit
    from pit_tools.pits.files import pit_text, write_pit

    if args.plan and args.prec:
        raise UserError("--plan finds the arcs, so it excludes --prec")
    if args.plan:
        return _by_plan(args)
    if args.K != "plan":
        raise UserError("--K needs --plan")
    with progress.shown("pit", 2):
        progress.step(f"reads {args.base}")
        mine = read_instance(args.base, ("blocks", "prec", "upit"), args.prec)
        blocks, upit = present(mine.blocks, "block file"), present(mine.upit, f"{args.base}.upit")
        progress.step("finds the ultimate pit")
        in_pit = ultimate_pit(upit.values, mine.precedence)
    if args.out:
        write_pit(in_pit, args.out)
    print(pit_text(in_pit, blocks, upit.values, _note(args.base + ".plan", upit.name)))
    return 0


def _note(plan_path: str, name: str) -> PlanNote:
    """Returns the sidecar file of the plan of an instance of this name; reports one that does not
    fit."""
    import sys

    from pit_tools.files.records import status_of
    from pit_tools.plans.file import read_plan
    from pit_tools.plans.note import PlanNote, read_note

    if status_of(plan_path) is None:
        return PlanNote()
    note = read_note(plan_path)
    if note.why_not:
        print(f"NOTE: {note.why_not}", file=sys.stderr)
    return note if note.is_used and read_plan(plan_path).name == name else PlanNote()


def _by_plan(args: argparse.Namespace) -> int:
    from pit_tools import progress
    from pit_tools.errors import UserError
    from pit_tools.files import outputs
    from pit_tools.instances.arrays import present
    from pit_tools.instances.files import read_instance
    from pit_tools.plans.file import read_plan
    from pit_tools.texts.decimals import integer_of

    plan = read_plan(args.plan)
    mine = read_instance(args.base, ("blocks", "upit"))
    most = int(present(mine.blocks, "block file").zone.max())
    if most >= len(plan.zones):
        raise UserError(f"{args.base}.blocks has a zone {most}, but the plan has {len(plan.zones)} "
                        "zones")
    note = _note(args.plan, plan.name)
    benches = args.K.split(",")
    for K in benches:
        if K != "plan" and not 1 <= (integer_of(K) or 0) <= 20:
            raise UserError(f"--K: `{K}` is neither 1 to 20 nor `plan`")
    with outputs.together(record=f"{args.out}.pits" if args.out else ""), \
            progress.shown("pit", len(benches)):
        _pits_by_K(args, plan, mine, benches, note)
    return 0


def _pits_by_K(args: argparse.Namespace, plan: Plan, mine: Instance, benches: list[str],
               note: PlanNote) -> None:
    """The pit for each of these K, or the plan's own."""
    from dataclasses import replace

    from pit_tools import progress
    from pit_tools.instances.arrays import present
    from pit_tools.pits.closure import pit_by_cones
    from pit_tools.pits.files import pit_text, write_pit

    blocks, values = present(mine.blocks,
                             "block file"), present(mine.upit, f"{args.base}.upit").values
    for K in benches:
        progress.step(f"K = {K}")
        zones = plan.zones if K == "plan" else tuple(replace(zone, benches=int(K))
                                                     for zone in plan.zones)
        in_pit = pit_by_cones(values, blocks, replace(plan, zones=zones))
        if args.out:
            write_pit(in_pit, f"{args.out}{K}.pit")
        with progress.hidden():
            print(f"K = {K}: {pit_text(in_pit, blocks, values, note)}", flush=True)
