"""Computes an instance in Python, from the definition that docs/formats.md states, with the arguments of `pitc compile` and without its proof.

    PYTHONPATH=python python3 examples/definition.py compile --plan mine.plan --out mine from-west.csv from-east.csv from-oxide.csv

It is for small models while no pitc is built: it holds all arcs in memory, and accepts some models that pitc rejects. Each file begins with
a comment that says that no proof covers it, and `pit-tools survey` repeats this comment.
"""
from __future__ import annotations

import argparse
import sys

from pit_tools import instance_of, read_plan, write_instance
from pit_tools.instances.valuation import blocks_of
from pit_tools.plans.zone_files import read_zone_files

NOT_PROVED = "computed by the Python definition, not by pitc: no proof covers it"


def main() -> int:
    parser = argparse.ArgumentParser(description=__doc__.splitlines()[0])
    parser.add_argument("command", choices=["compile"])
    parser.add_argument("--plan", required=True, help="the plan")
    parser.add_argument("--out", required=True, help="writes OUT.blocks, OUT.prec, OUT.upit, OUT.pcpsp and OUT.cpit")
    parser.add_argument("zones", nargs="+", help="zone files, in the plan's order")
    words = parser.parse_args()
    plan, rows = read_plan(words.plan), read_zone_files(words.zones)
    if len(words.zones) != len(plan.zones):
        parser.error(f"{words.plan} has {len(plan.zones)} zones, and there are {len(words.zones)} zone files")
    write_instance(instance_of(plan, blocks_of(plan.grid, rows)), words.out, remark=NOT_PROVED)
    print("rows", len(rows))
    print("NOTE:", NOT_PROVED)
    return 0


if __name__ == "__main__":
    sys.exit(main())
