"""From a mining package's export to a MineLib instance and back, for use with `pitc`.

    import pit_tools
    mine = pit_tools.read_instance("deposit")
    in_pit = pit_tools.ultimate_pit(mine.upit.values, mine.precedence)

The names of `__all__` stay as they are from one version to the next. docs/interface.md lists them,
and `help` prints their shapes, units and errors. Anything else in the modules may change. A module
is loaded when a name of it is first used. The command `pit-tools` calls the modules of
`pit_tools.commands`.
"""
from __future__ import annotations

# No module of Python's is imported here: `python3 -m pit_tools` would find one of that name in the
# current folder first.
TYPE_CHECKING = False

if TYPE_CHECKING:
    from typing import Any

    from pit_tools.errors import UserError
    from pit_tools.instances.arrays import (Blocks, Instance, Limit, Problem, UltimatePit, Uses,
                                            cents, present)
    from pit_tools.instances.block_files import read_blocks
    from pit_tools.instances.files import (read_instance, read_precedence, read_problem,
                                           write_instance)
    from pit_tools.instances.minelib import read_published, write_published
    from pit_tools.instances.models import read_upit
    from pit_tools.instances.valuation import instance_of
    from pit_tools.pits.closure import immediate, ultimate_pit
    from pit_tools.pits.files import read_pit, write_pit
    from pit_tools.plans.file import Plan, read_plan
    from pit_tools.schedules.bounds import bounds_of
    from pit_tools.schedules.files import (Check, Schedule, read_schedule, write_schedule,
                                           check as check_schedule)
    from pit_tools.schedules.lp_file import write_lp
    from pit_tools.schedules.programs import (Answer, Program, program_of, program_of_upit,
                                              schedule_of, solve)

VERSION = "0.2.0"

__all__ = ["VERSION", "UserError",
           "Instance", "Blocks", "UltimatePit", "Problem", "Uses", "Limit", "present", "cents",
           "read_instance", "read_blocks", "read_precedence", "read_upit", "read_problem",
           "write_instance", "read_published", "write_published",
           "ultimate_pit", "immediate", "read_pit", "write_pit",
           "Schedule", "Check", "read_schedule", "write_schedule", "check_schedule",
           "Program", "Answer", "program_of", "program_of_upit", "write_lp", "solve",
           "schedule_of", "bounds_of",
           "Plan", "read_plan", "instance_of"]

# The names by the modules that have them.
_MODULES = {
    "errors": "UserError",
    "instances.arrays": "Instance Blocks UltimatePit Problem Uses Limit present cents",
    "instances.block_files": "read_blocks",
    "instances.files": "read_instance read_precedence read_problem write_instance",
    "instances.minelib": "read_published write_published",
    "instances.models": "read_upit",
    "instances.valuation": "instance_of",
    "pits.closure": "ultimate_pit immediate",
    "pits.files": "read_pit write_pit",
    "plans.file": "Plan read_plan",
    "schedules.bounds": "bounds_of",
    "schedules.files": "Schedule Check read_schedule write_schedule check_schedule",
    "schedules.lp_file": "write_lp",
    "schedules.programs": "Program Answer program_of program_of_upit solve schedule_of",
}
_HOMES = {name: module for module, names in _MODULES.items() for name in names.split()}


def __getattr__(name: str) -> Any:
    """A name of `__all__`, of the module that has it."""
    import importlib

    if name not in _HOMES:
        raise AttributeError(f"module 'pit_tools' has no attribute '{name}'")
    module = importlib.import_module(f"pit_tools.{_HOMES[name]}")
    return getattr(module, {"check_schedule": "check"}.get(name, name))


def __dir__() -> list[str]:
    return sorted({*globals(), *__all__})
