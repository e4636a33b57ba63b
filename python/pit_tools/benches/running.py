"""One solver on one instance: run within its limits, and its schedule judged."""
from __future__ import annotations

import os
import platform
import shutil
import tempfile
from dataclasses import dataclass
from functools import lru_cache
from importlib import metadata
from typing import Any, Callable, Optional, Union

from pit_tools import VERSION
from pit_tools.batches.build import sum_of_modules
from pit_tools.batches.making import Failed
from pit_tools.benches import limited
from pit_tools.benches.solvers import FILES, PROGRAMS, Solver
from pit_tools.errors import UserError
from pit_tools.files import inputs
from pit_tools.files.records import sum_of
from pit_tools.instances.files import TEXTS, read_instance, read_precedence, read_problem
from pit_tools.pits.closure import fewer_arcs
from pit_tools.schedules.bounds import bounds_of, worth_of_pit
from pit_tools.schedules.files import (check, read_schedule, read_variables,
                                       schedule_of_variables)
from pit_tools.schedules.lp_file import write_lp
from pit_tools.schedules.programs import by_period, program_of

#: Of the name of a folder in which a solver writes, between the bench's name and letters of chance.
RUNNING = ".running-"


@dataclass(frozen=True)
class Setting:
    """How a bench is run: its base, an absolute path; the solvers; `cpit` or `pcpsp`; the limits of
    each run, in seconds and MB, and of each relaxation, in seconds, 0 for no relaxations."""

    base: str
    folder: str
    solvers: tuple[Solver, ...]
    problem: str
    seconds: float
    megabytes: Optional[float] = None
    bound_seconds: float = 0.0


@dataclass(frozen=True)
class Task:
    """A solver's name, empty for the bound, and an instance's base."""

    solver: str
    name: str

    def __str__(self) -> str:
        return f"{self.solver or 'the bound'} on {self.name}"


@dataclass(frozen=True)
class Done:
    """A task that is done: the sums of its solver and of the files that it read, and its cells."""

    entry: Task
    sums: dict[str, str]
    cells: dict[str, Any]


def build_text(setting: Setting) -> str:
    """Returns what the results of a bench depend on besides solvers and instances: limits, and what
    judges them."""
    packages = " ".join(f"{name} {metadata.version(name)}" for name in ("numpy", "scipy", "pandas"))
    memory = "none" if setting.megabytes is None else f"{setting.megabytes:g} MB"
    return (f"bench of {setting.problem}\nlimits: {setting.seconds:g} s, memory {memory}, "
            f"relaxation {setting.bound_seconds:g} s\npit-tools {VERSION}\n{sum_of_modules()}  "
            f"modules of pit-tools\n{packages}\n")


@lru_cache(None)
def _build_text_once(setting: Setting) -> str:
    return build_text(setting)


def files_of(task: Task, setting: Setting) -> dict[str, str]:
    """The files that a task reads, by their names from the folder of the bench, with their paths.
    """
    solver = _solver_of(task, setting)
    if solver is None:
        endings: set[str] = {"blocks", "prec", "upit", setting.problem}
    else:
        endings = {"prec", setting.problem, *solver.places.intersection(FILES)}
    names = [f"{task.name}.{ending}" for ending in sorted(endings)]
    return {name: os.path.join(setting.folder, name) for name in names}


def sums_of(task: Task, setting: Setting,
            sum_by: Callable[[str], Optional[str]] = sum_of) -> dict[str, Optional[str]]:
    """Returns the sums of what a task depends on: its solver, by `solver`, and files, by their
    names."""
    solver = _solver_of(task, setting)
    return {"solver": solver.sum if solver else "",
            **{name: sum_by(path) for name, path in files_of(task, setting).items()}}


def _solver_of(task: Task, setting: Setting) -> Optional[Solver]:
    return next((one for one in setting.solvers if one.name == task.solver), None)


def run_task(task: Task, setting: Setting, build: str) -> Union[Done, Failed]:
    """Does a task of a bench, on a machine that must have this text of its build."""
    try:
        if _build_text_once(setting) != build:
            raise UserError("this machine has another tool or other packages than the bench")
        before = sums_of(task, setting)
        solver = _solver_of(task, setting)
        cells = _bound(task, setting) if solver is None else _run(task, setting, solver)
        if sums_of(task, setting) != before:
            raise UserError("a file of the instance was changed during the run")
        return Done(task, {name: found or "" for name, found in before.items()}, cells)
    except OSError as error:
        return Failed(task, f"{error.filename}: {error.strerror}" if error.filename else str(error))
    except (UserError, MemoryError) as error:
        return Failed(task, str(error) or "out of memory")


def _bound(task: Task, setting: Setting) -> dict[str, Any]:
    """Returns the upper bound of every schedule: the relaxation, or else the ultimate pit."""
    base = os.path.join(setting.folder, task.name)
    mine = read_instance(base, [text for text in TEXTS
                                if text not in ("cpit", "pcpsp") or text == setting.problem])
    bounds = bounds_of(mine, setting.bound_seconds)
    relaxed = bounds.get(f"{setting.problem.upper()}, relaxed")
    if relaxed is not None:
        return {"bound": relaxed, "bound_of": "relaxation"}
    # The UPIT may have other values, in files of other programs.
    values = mine.problem(setting.problem).values.max(axis=1)
    return {"bound": worth_of_pit(values, mine.precedence), "bound_of": "pit"}


def _run(task: Task, setting: Setting, solver: Solver) -> dict[str, Any]:
    above, name = os.path.split(setting.base)
    scratch = tempfile.mkdtemp(prefix=f".{name}{RUNNING}", dir=above)
    try:
        base = os.path.join(setting.folder, task.name)
        values = {ending: f"{base}.{ending}" for ending in FILES}
        values |= {place: os.path.join(scratch, place)
                   for place in ("out", "solution", *(f"{one}.lp" for one in PROGRAMS))}
        values |= {one: os.path.join(scratch, f"{one}.lp") for one in PROGRAMS}
        values |= {"base": base, "name": os.path.basename(task.name), "folder": scratch,
                   "seconds": f"{setting.seconds:g}"}
        problem = read_problem(f"{base}.{setting.problem}")
        precedence = read_precedence(f"{base}.prec", len(problem.values))
        for place in solver.places.intersection(PROGRAMS):
            program = program_of(problem, fewer_arcs(precedence))
            with open(values[place], "w", encoding="ascii") as file:
                write_lp(by_period(program) if PROGRAMS[place] else program, file)
        ran = limited.run(solver.filled(values), scratch, setting.seconds, setting.megabytes)
        with inputs.looking():
            judged = _judged(values, problem, precedence, ran.ended)
        message = judged.pop("message")
        if not message and ran.ended != "status 0":
            message = _last_line(ran.printed)
        return {"ended": ran.ended, **judged, "seconds": ran.seconds, "cpu_seconds": ran.cpu,
                "megabytes": ran.megabytes, "host": platform.node(), "message": message}
    finally:
        shutil.rmtree(scratch, ignore_errors=True)


def _judged(values: dict[str, str], problem: Any, precedence: Any, ended: str) -> dict[str, Any]:
    """Returns what `check-schedule` finds of a solver's output. An empty file is a schedule that
    mines nothing, except from a solver that did not succeed, where it is none."""
    place = next((one for one in ("out", "solution") if _has_content(values[one])), None)
    if place is None and ended == "status 0" and os.path.isfile(values["out"]):
        place = "out"
    if place is None:
        return {"schedule": "none", "worth": None, "message": ""}
    try:
        schedule = (read_schedule(values[place], problem) if place == "out"
                    else schedule_of_variables(read_variables(values[place]), problem))
        found = check(schedule, problem, precedence)
    except UserError as error:
        message = str(error).replace(values[place], f"{{{place}}}")
        return {"schedule": "unreadable", "worth": None, "message": message}
    return {"schedule": "feasible" if found.holds else "violated", "worth": found.worth,
            "message": "" if found.holds else found.broken[0]}


def _has_content(path: str) -> bool:
    return os.path.isfile(path) and os.path.getsize(path) > 0


def _last_line(printed: str) -> str:
    lines = printed.strip().splitlines()
    return "".join(letter for letter in lines[-1] if letter.isprintable())[:200] if lines else ""
