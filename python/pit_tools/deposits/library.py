"""A small library: ten deposits by seed, with the sums of their instances, pit values, bounds, and
the best known schedules.

The deposits follow from their seeds, and the instances from the deposits; the tables and the
schedules are in the folder `data` next to this module, or in a copy of it: TABLE has values and
bounds, FOUND when each schedule was found, by whom and how, SUMS the sums of the instances.
"""
from __future__ import annotations

import os
import tempfile
from dataclasses import dataclass
from typing import Iterator

import pandas as pd

from pit_tools.deposits.seeded import ZONES, Deposit
from pit_tools.errors import UserError
from pit_tools.files import inputs, kinds, outputs
from pit_tools.files.records import ENDING, MOST_JSON, File, read_record, status_of
from pit_tools.instances.arrays import Instance, cents, present
from pit_tools.instances.files import TEXTS, write_instance
from pit_tools.instances.valuation import blocks_of, instance_of
from pit_tools.pits.closure import ultimate_pit
from pit_tools.plans.file import plan_of
from pit_tools.plans.zone_files import read_zone_files
from pit_tools.schedules.files import check, read_schedule

FOLDER = os.path.join(os.path.dirname(__file__), "data")

#: Numbers of blocks along x, y and z.
SIZE = (8, 6, 5)

#: The seeds with their shapes.
DEPOSITS = tuple(Deposit(f"{shape}{seed}", seed, SIZE, shape)
                 for seed, shape in zip(range(1, 11), ("lens", "pipe", "vein", "lens", "vein",
                                                       "lens", "pipe", "vein", "lens", "vein")))

COLUMNS = ("name", "seed", "shape", "size", "blocks", "arcs", "pit_value", "cpit_bound",
           "pcpsp_bound", "cpit_best", "pcpsp_best")

#: The columns of FOUND: a schedule's deposit and kind; the day on which it was found, by whom, and
#: how.
FOUND_COLUMNS = ("name", "kind", "date", "by", "how")

#: The separator between the columns of the tables.
SEPARATORS = {"TABLE": " ", "FOUND": ","}


@dataclass(frozen=True)
class Known:
    """The values of the library's table for a deposit; `sums` has those of its instance's files."""

    row: dict[str, str]
    sums: dict[str, File]


def make(deposit: Deposit, folder: str) -> Instance:
    """Writes the plan, the zone files and the instance of a deposit into a folder."""
    deposit.write(folder)
    plan = plan_of(deposit.plan())
    zones = [os.path.join(folder, f"{deposit.name}-{zone}.csv") for zone in ZONES]
    mine = instance_of(plan, blocks_of(plan.grid, read_zone_files(zones)))
    write_instance(mine, os.path.join(folder, deposit.name))
    return mine


def sums_of(folder: str, name: str) -> dict[str, File]:
    """The texts of an instance with their sums, by name."""
    found = [File.of(os.path.join(folder, f"{name}.{text}"), folder) for text in TEXTS]
    return {file.name: file for file in found}


def table_of(folder: str, name: str) -> pd.DataFrame:
    """Returns TABLE or FOUND of a library, as texts. Raises UserError if it is missing."""
    path = os.path.join(folder or FOLDER, name)
    if status_of(path) is None:
        raise UserError(f"{folder}: not a library, since it has no {name}: `library --out` makes "
                        "one")
    with inputs.looking():
        return _table(path, name)


def _table(path: str, name: str) -> pd.DataFrame:
    """Returns TABLE or FOUND of a path. Raises UserError for any other file."""
    columns = {"TABLE": COLUMNS, "FOUND": FOUND_COLUMNS}[name]
    try:
        if os.path.getsize(path) > MOST_JSON:
            raise ValueError(f"it has more than {MOST_JSON:,} bytes")
        table = pd.read_csv(path, sep=SEPARATORS[name], dtype=str, keep_default_na=False)
        if tuple(table.columns) != columns:
            raise ValueError(f"its columns are {', '.join(map(str, table.columns))[:200]}")
        if name == "TABLE":
            table[list(COLUMNS[6:])].astype(float)
    except ValueError as error:
        raise UserError(f"{path}: not the {name} of a library: "
                        f"{' '.join(str(error).split())}") from None
    return table


def known(name: str, folder: str = "") -> Known:
    """Returns the library's values for a deposit. Raises UserError if it has none of the name."""
    table = table_of(folder, "TABLE")
    rows = table[table["name"] == name]
    if len(rows) != 1:
        raise UserError(f"the library has no `{name}`: it has {', '.join(table['name'])}")
    path = os.path.join(folder or FOLDER, "SUMS")
    with inputs.looking():
        record = read_record(path)
    if record is None:
        raise UserError(f"{path}: missing, or not a record of sums: `library --out` makes one")
    return Known(rows.iloc[0].to_dict(), {file.name: file for file in record.outputs
                                          if file.name.rpartition(".")[0] == name})


def schedule_path(name: str, kind: str, folder: str = "") -> str:
    return os.path.join(folder or FOLDER, f"{name}.{kind.lower()}-schedule")


def errors_of(deposit: Deposit, folder: str, of: str = "") -> Iterator[str]:
    """Makes a deposit of a library in a folder, and reports what differs from its tables."""
    mine, said = make(deposit, folder), known(deposit.name, of)
    found_by = table_of(of, "FOUND")
    for name, found in sums_of(folder, deposit.name).items():
        if said.sums.get(name) != found:
            yield f"{name} has another sum"
    values = present(mine.upit, "UPIT").values
    in_pit = ultimate_pit(values, mine.precedence)
    pit = f"{cents(values)[in_pit].sum() / 100:.2f}"
    if said.row["pit_value"] != pit:
        yield f"{deposit.name}: the pit is worth {pit}, but the table has {said.row['pit_value']}"
    for kind in ("cpit", "pcpsp"):
        problem = mine.problem(kind)
        path = schedule_path(deposit.name, kind, of)
        if ((found_by["name"] == deposit.name) & (found_by["kind"] == kind)).sum() != 1:
            yield f"{deposit.name} {kind}: FOUND must have one line for it"
        checked = check(read_schedule(path, problem), problem, mine.precedence)
        if not checked.holds:
            yield f"{os.path.basename(path)}: {checked.broken[0]}"
        if f"{checked.worth:.2f}" != said.row[f"{kind}_best"]:
            yield (f"{os.path.basename(path)} is worth {checked.worth:.2f}, but the table has "
                   f"{said.row[f'{kind}_best']}")
        if checked.worth > float(said.row[f"{kind}_bound"]) + 0.01:
            yield f"{os.path.basename(path)} is worth more than its bound"


def _copy_schedules(name: str, source: str, folder: str) -> None:
    """Copies the schedules of a deposit from one folder to another."""
    for kind in ("cpit", "pcpsp"):
        outputs.copied(schedule_path(name, kind, source), schedule_path(name, kind, folder),
                       "schedule")


def write_all(folder: str) -> None:
    """Writes the plans, zone files, instances and schedules, the table and the sums into a
    folder."""
    with tempfile.TemporaryDirectory() as made:
        for deposit in DEPOSITS:
            make(deposit, made)
        with outputs.together():
            outputs.folder(folder)
            for name in sorted(name for name in os.listdir(made) if not name.endswith(ENDING)):
                kind = kinds.ENDINGS.get(os.path.splitext(name)[1], "zone file")
                outputs.copied(os.path.join(made, name), os.path.join(folder, name), kind)
            for deposit in DEPOSITS:
                _copy_schedules(deposit.name, FOLDER, folder)
            for name, kind in (("TABLE", "table of the library"), ("FOUND", "table of the library"),
                               ("SUMS", "sums")):
                outputs.copied(os.path.join(FOLDER, name), os.path.join(folder, name), kind)
