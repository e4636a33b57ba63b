"""How the library gets its schedules: a search for each, and better ones of another hand."""
from __future__ import annotations

import os
import re
import tempfile
import time
from dataclasses import dataclass, replace
from typing import Any, Iterator, Optional, Sequence

import pandas as pd

from pit_tools import VERSION
from pit_tools.deposits import library
from pit_tools.deposits.seeded import Deposit
from pit_tools.errors import UserError
from pit_tools.files import inputs, outputs
from pit_tools.files.records import File, Record
from pit_tools.instances.arrays import Instance, Problem, present
from pit_tools.pits.closure import fewer_arcs
from pit_tools.schedules.bounds import bounds_of
from pit_tools.schedules.files import Schedule, check, read_schedule, write_schedule
from pit_tools.schedules.search import STEP, Search

#: The name of a schedule's file, or the same without `-schedule`.
NAMED = re.compile(r"([a-z]+\d+)\.(cpit|pcpsp)(-schedule)?")


@dataclass(frozen=True)
class Finding:
    """A schedule of the library's deposit with a bound, if one is known; when it was found, by
    whom, and how."""

    deposit: Deposit
    kind: str  #: `cpit` or `pcpsp`
    schedule: Optional[Schedule]
    bound: Optional[float]
    by: str
    how: str

    def given(self) -> Schedule:
        """Returns its schedule. Raises UserError if there is none."""
        if self.schedule is None:
            raise UserError(f"{self.deposit.name} {self.kind}: no schedule was found by {self.how}")
        return self.schedule

    @property
    def line(self) -> dict[str, str]:
        """Its line of FOUND, of today."""
        return dict(zip(library.FOUND_COLUMNS, (self.deposit.name, self.kind,
                                                time.strftime("%Y-%m-%d"), self.by, self.how)))


def named(text: str) -> tuple[Deposit, str]:
    """Returns the deposit and the kind of a name as lens1.cpit, or of a file lens1.cpit-schedule.

    Raises UserError if the library has none of this name."""
    found = NAMED.fullmatch(os.path.basename(text))
    for deposit in library.DEPOSITS:
        if found and deposit.name == found[1]:
            return deposit, found[2]
    raise UserError(f"`{text}` is not a schedule of the library, as lens1.cpit-schedule")


def instance_of(deposit: Deposit, folder: str) -> Instance:
    """Returns the instance of a deposit of a library. Raises UserError if this tool makes another
    one."""
    with tempfile.TemporaryDirectory() as made:
        mine = library.make(deposit, made)
        if library.sums_of(made, deposit.name) != library.known(deposit.name, folder).sums:
            raise UserError(f"{deposit.name}: its instance has other sums than the library lists")
    return mine


def at_best_destinations(schedule: Schedule, problem: Problem) -> Schedule:
    """Returns a schedule of a CPIT as one of the PCPSP: each block goes where it is worth most."""
    best = problem.values.argmax(axis=1)
    return replace(schedule, destination=best[schedule.block])


def sought(mine: Instance, deposit: Deposit, kind: str, seconds: float,
           starts: Sequence[Schedule]) -> Finding:
    """Returns the best finding of a search of `seconds`, from shells and from these."""
    blocks = present(mine.blocks, "block file")
    found = Search(mine.problem(kind), blocks, fewer_arcs(mine.precedence), seconds).run(*starts)
    return Finding(deposit, kind, found.schedule, found.bound, f"pit-tools {VERSION}",
                   f"a search of {seconds:g} s: {found.how}")


# Taken into a library


def handed_in(path: str, by: str, how: str, folder: str) -> str:
    """Puts a schedule's file into a library, if it is better; returns what it did.

    Raises UserError if it is infeasible, or is worth more than its bound."""
    deposit, kind = named(path)
    mine = instance_of(deposit, folder)
    schedule = read_schedule(path, mine.problem(kind))
    return taken(Finding(deposit, kind, schedule, None, by, how), mine, folder)


def search_on(word: str, seconds: float, folder: str) -> str:
    """Searches for a better schedule and a lower bound than a library has, and puts them in;
    returns what it did. A PCPSP also begins with the schedule of the CPIT."""
    deposit, kind = named(word)
    mine = instance_of(deposit, folder)
    problem = mine.problem(kind)
    with inputs.looking():
        starts = [read_schedule(library.schedule_path(deposit.name, kind, folder), problem)]
        if kind == "pcpsp":
            starts.append(at_best_destinations(read_schedule(library.schedule_path(
                deposit.name, "cpit", folder), mine.problem("cpit")), problem))
    return taken(sought(mine, deposit, kind, seconds, starts), mine, folder)


def taken(found: Finding, mine: Instance, folder: str) -> str:
    """Puts the better parts of a finding into a library, the schedule, its bound or both; returns
    what it did."""
    name, kind = found.deposit.name, found.kind
    row = library.known(name, folder).row
    best, bound = float(row[f"{kind}_best"]), float(row[f"{kind}_bound"])
    schedule = found.schedule
    worth = best if schedule is None else _worth(found, schedule, mine, bound)
    is_better, lower = worth >= best + STEP, max(min(found.bound or bound, bound), worth, best)
    if not is_better and lower > bound - STEP:
        return f"{name} {kind}: {worth:.2f} is not above {best:.2f}"
    changes = {f"{kind}_best": f"{max(worth, best):.2f}", f"{kind}_bound": f"{lower:.2f}"}
    with outputs.together():
        if schedule is not None and is_better:
            write_schedule(schedule, library.schedule_path(name, kind, folder), kind == "pcpsp")
            _change(folder, "FOUND", ("name", "kind"), found.line)
        _change(folder, "TABLE", ("name",), {"name": name, **changes})
    return f"{name} {kind}: {max(worth, best):.2f} in place of {best:.2f}, bound {lower:.2f}"


def _worth(found: Finding, schedule: Schedule, mine: Instance, bound: float) -> float:
    """Returns what a schedule is worth. Raises UserError if that is not possible."""
    checked = check(schedule, mine.problem(found.kind), mine.precedence)
    if not checked.holds:
        raise UserError(f"{found.deposit.name} {found.kind}: the schedule is infeasible: "
                        f"{checked.broken[0]}")
    if checked.worth > bound + STEP:
        raise UserError(f"{found.deposit.name} {found.kind}: {checked.worth:.2f} is above the "
                        f"bound {bound:.2f}, so one of them is wrong")
    return checked.worth


def _change(folder: str, name: str, keys: Sequence[str], cells: dict[str, str]) -> None:
    """Changes cells of the row of a table that has these keys."""
    table = library.table_of(folder, name)
    at = (table[list(keys)] == [cells[key] for key in keys]).all(axis=1)
    table.loc[at, list(cells)] = list(cells.values())
    write_table(table, folder, name)


def write_table(table: pd.DataFrame, folder: str, name: str) -> None:
    with outputs.opened(os.path.join(folder or library.FOLDER, name), "table of the library",
                        "utf-8") as file:
        table.to_csv(file, sep=library.SEPARATORS[name], index=False, lineterminator="\n")


# Made from the start


def build(folder: str, seconds: float) -> None:
    """Makes the library from the start: tables, sums and schedules."""
    outputs.folder(folder)
    rows, lines = [], []
    sums: dict[str, File] = {}
    with tempfile.TemporaryDirectory() as made:
        for deposit in library.DEPOSITS:
            mine = library.make(deposit, made)
            sums |= library.sums_of(made, deposit.name)
            found = list(_both(mine, deposit, seconds))
            rows.append(_row(mine, deposit, seconds, found))
            lines += [one.line for one in found]
            with outputs.together():
                for one in found:
                    write_schedule(one.given(),
                                   library.schedule_path(deposit.name, one.kind, folder),
                                   one.kind == "pcpsp")
                write_table(pd.DataFrame(rows)[list(library.COLUMNS)], folder, "TABLE")
                write_table(pd.DataFrame(lines), folder, "FOUND")
                with outputs.opened(os.path.join(folder, "SUMS"), "sums", "ascii") as file:
                    file.write(Record("SUMS", "library", tuple(sums.values())).text)


def _both(mine: Instance, deposit: Deposit, seconds: float) -> Iterator[Finding]:
    """Schedules of the CPIT, and of the PCPSP from there on."""
    starts: list[Schedule] = []
    for kind in ("cpit", "pcpsp"):
        found = sought(mine, deposit, kind, seconds, starts)
        starts = [at_best_destinations(found.given(), mine.problem("pcpsp"))]
        yield found


def _row(mine: Instance, deposit: Deposit, seconds: float,
         found: Sequence[Finding]) -> dict[str, str]:
    """The row of TABLE. A bound is the better one of the relaxation, of the search, and of the
    pit."""
    bounds = bounds_of(mine, seconds)
    blocks = present(mine.blocks, "block file")
    precedence: Any = present(mine.precedence, "precedence file")
    row = {"name": deposit.name, "seed": str(deposit.seed), "shape": deposit.shape,
           "size": ",".join(map(str, deposit.size)), "blocks": str(len(blocks)),
           "arcs": str(precedence.nnz), "pit_value": f"{bounds['the ultimate pit']:.2f}"}
    for one in found:
        worth = one.given().worth(mine.problem(one.kind))
        limits = [bounds[f"{one.kind.upper()}, relaxed"], one.bound, bounds["the ultimate pit"]]
        least = min(value for value in limits if value is not None)
        row[f"{one.kind}_bound"] = f"{max(least, worth):.2f}"
        row[f"{one.kind}_best"] = f"{worth:.2f}"
    return row
