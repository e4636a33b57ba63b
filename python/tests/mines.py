"""Small instances for the tests, by tools/plain.py, which was written from docs/formats.md
alone."""
import os
import sys

TOP = os.path.dirname(os.path.dirname(os.path.dirname(os.path.abspath(__file__))))
sys.path.insert(0, os.path.join(TOP, "tools"))

import plain  # noqa: E402
import shared  # noqa: E402

from pit_tools.deposits.seeded import Deposit  # noqa: E402
from pit_tools.instances.files import write_instance  # noqa: E402
from pit_tools.instances.valuation import blocks_of, instance_of  # noqa: E402
from pit_tools.plans.file import plan_of  # noqa: E402
from pit_tools.plans.zone_files import read_zone_files  # noqa: E402

SIX = ["name,pit", "grid,0,0,0,10,10,10", "zone,1,1,1", "mill,mill,900,6000000,1500",
       "leach,heap,6000000,600,0.3,350,1,550", "dump,dump,200", "periods,3", "rate,0.08",
       "resource,plant,mill", "resource,fleet,mill,heap,dump", "limit,plant,0,L,60000",
       "limit,plant,1,L,60000", "limit,plant,2,L,60000", "limit,fleet,0,I,0,120000"]

SIX_ROWS = """x,y,z,tonnes,grade
0,0,0,2700,1.8
10,0,0,2700,2.4
20,0,0,2700,0.7
0,0,10,2650,0.2
10,0,10,2650,0.45
20,0,10,2650,0
"""


def compiled(folder, plan, zones, name="mine"):
    """Writes a plan, its zone files and the instance into a folder; returns the base."""
    base = os.path.join(str(folder), name)
    shared.write(base + ".plan", plan)
    for number, text in enumerate(zones):
        shared.write(f"{base}-{number}.csv", text)
    shared.write_texts(base, plain.compiled(plan, zones))
    return base


def quickly_compiled(folder, plan, zones, name="mine"):
    """The same by pit_tools.instances.valuation, which test_instance.py compares with the
    plain computation. The plain one tests all pairs of blocks, so it is too slow for
    thousands."""
    base = os.path.join(str(folder), name)
    shared.write(base + ".plan", plan)
    for number, text in enumerate(zones):
        shared.write(f"{base}-{number}.csv", text)
    read = read_zone_files([f"{base}-{number}.csv" for number in range(len(zones))])
    write_instance(instance_of(plan_of(plan), blocks_of(plan_of(plan).grid, read)), base)
    return base


def six_blocks(folder, *changes, name="mine"):
    """The mine of examples/pit.txt, with (old, new) changes of its plan."""
    plan = "\n".join(SIX) + "\n"
    for old, new in changes:
        assert old in plan
        plan = plan.replace(old, new)
    return compiled(folder, plan, [SIX_ROWS], name)


def deposit(folder, seed=None, size=(8, 6, 5), shape="lens", K=None, name="mine"):
    """A deposit, with one K for all zones if it is given."""
    made = Deposit(name, seed, size, shape)
    lines = made.plan().splitlines(True)
    if K is not None:
        lines = [",".join([*line.split(",")[:-1], f"{K}\n"]) if line.startswith("zone,") else line
                 for line in lines]
    compile_it = compiled if size[0] * size[1] * size[2] < 300 else quickly_compiled
    return compile_it(folder, "".join(lines), made.zone_texts(), name)
