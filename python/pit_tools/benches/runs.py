"""Benches: solvers over the instances of a list, recorded run by run, so that an interrupted bench
can continue."""
from __future__ import annotations

import fcntl
import glob
import os
import re
import shutil
from contextlib import ExitStack, closing
from functools import partial
from typing import Any, Iterator, Optional, Sequence

from pit_tools import progress
from pit_tools.batches.engines import Engine, in_turn
from pit_tools.batches.listing import Part
from pit_tools.batches.making import Failed
from pit_tools.batches.records import Record, Sums, build_of, lines_of
from pit_tools.batches.runs import STOPPED
from pit_tools.benches.listing import read_names
from pit_tools.benches.results import profile_of, shown, table_of
from pit_tools.benches.running import (RUNNING, Done, Setting, Task, build_text, files_of, run_task,
                                       sums_of)
from pit_tools.errors import UserError
from pit_tools.files import inputs, outputs
from pit_tools.files.locks import lock

#: The files that a bench writes under its base, and the kinds of its tables and pictures.
TABLE, COLUMNS, PICTURE, RUNS = ".csv", ".parquet", ".svg", ".runs"
KINDS = {TABLE: "table of a bench", COLUMNS: "table of a bench in Parquet", PICTURE: "SVG picture"}


class Bench:
    """A list over which solvers are run, or a part of its runs. `done` has the finished runs,
    `kept` the number that were finished before, `failed` a line for each run that could not be
    done, and `remarks` one for each file that could not be written."""

    def __init__(self, path: str, setting: Setting, part: Part = Part()):
        self.setting, self.part = setting, part
        self.names = read_names(path)
        solvers = [*([""] if setting.bound_seconds else []), *(one.name for one in setting.solvers)]
        every = [Task(solver, name) for name in self.names for solver in solvers]
        self.tasks = every[part.number - 1::part.of]
        self.done: dict[Task, Done] = {}
        self.kept = 0
        self.failed: list[str] = []
        self.remarks: list[str] = []
        for task in self.tasks:
            for name, file in files_of(task, setting).items():
                if not os.path.isfile(file):
                    raise UserError(f"{name} is missing: {task} needs it")
        if part.is_complete:
            # Before hours of runs.
            for ending, kind in KINDS.items():
                place = os.path.relpath(setting.base) + ending
                outputs.judged(place)
                outputs.judged_old(place, kind)

    def run(self, engine: Engine = in_turn, goes_on: bool = False,
            stop_at: Optional[int] = None) -> None:
        """Does each task, or if it continues the tasks that no record has for the same files and
        solver. It stops when `stop_at` solvers' runs have failed and none has produced a schedule.

        Raises UserError if it should continue from records of another setting."""
        base, build = self.setting.base, build_text(self.setting)
        with ExitStack() as opened:
            # The parts of one bench run in parallel.
            message = f"{base}{RUNS}: another bench writes it: wait until that ends"
            lock(opened, f"{base}{RUNS}.lock",
                 fcntl.LOCK_EX if self.part.is_complete else fcntl.LOCK_SH, message)
            path = f"{base}{RUNS}{self.part.ending}"
            if not self.part.is_complete:
                lock(opened, f"{path}.lock", fcntl.LOCK_EX, message)
            if goes_on:
                self._keep(build, [base])
            self._clear_leftovers()
            with opened.enter_context(Record(path, build, goes_on)) as record:
                self._run(engine, build, record, stop_at)

    def join(self, folders: Sequence[str]) -> None:
        """Takes the runs of the same files and solvers from the records in these folders."""
        name = os.path.basename(self.setting.base)
        self._keep(build_text(self.setting), [os.path.join(folder, name) for folder in folders])
        self.failed += [f"{task}: no part has it" for task in self.tasks if task not in self.done]

    def _keep(self, build: str, bases: Sequence[str]) -> None:
        """Takes over the recorded tasks whose files and solvers are unchanged."""
        sums, known = Sums(""), set(self.tasks)
        for found in (one for base in bases for one in _recorded(base, build)):
            try:
                task, cells = Task(*found["task"]), dict(found["cells"])
                same = found["sums"] == sums_of(task, self.setting, sums.of) if task in known \
                    else False
            except (TypeError, KeyError, ValueError):
                continue
            if same:
                self.done[task] = Done(task, found["sums"], cells)
        self.kept = len(self.done)

    def _clear_leftovers(self) -> None:
        """Removes what a killed bench has left, unless other parts may run."""
        if self.part.is_complete:
            above, name = os.path.split(self.setting.base)
            for left in glob.glob(os.path.join(glob.escape(above),
                                               f".{glob.escape(name)}{RUNNING}*")):
                shutil.rmtree(left, ignore_errors=True)

    def _run(self, engine: Engine, build: str, record: Record, stop_at: Optional[int]) -> None:
        waiting = [task for task in self.tasks if task not in self.done]
        step = partial(run_task, setting=self.setting, build=build)
        fails, has_one = 0, any(_succeeded(done) for done in self.done.values())
        with closing(engine(step, waiting)) as results:
            for found in results:
                if isinstance(found, Failed):
                    self.failed.append(f"{found.entry}: {found.message}")
                else:
                    self.done[found.entry] = found
                    record.add_line({"task": [found.entry.solver, found.entry.name],
                                     "sums": found.sums, "cells": found.cells})
                progress.done(str(found.entry))
                if found.entry.solver:
                    fails += not _succeeded(found)
                    has_one |= _succeeded(found)
                if fails == stop_at and not has_one:
                    self.failed.append(STOPPED.format(stop_at))
                    break

    @property
    def is_complete(self) -> bool:
        return not self.failed and len(self.done) == len(self.tasks)

    def write(self, ratio: float) -> Any:
        """Writes the table and the profiles of the finished runs; returns the table. They replace
        the base's files together, or not at all."""
        from pit_tools.benches.profile_picture import profile_picture
        from pit_tools.files.parquet import bytes_of
        from pit_tools.surveys.picture_files import write_picture

        base = os.path.relpath(self.setting.base)
        cells = {(task.solver, task.name): done.cells for task, done in self.done.items()}
        table = table_of(self.names, [one.name for one in self.setting.solvers], cells, ratio)
        inputs.reads(*dict.fromkeys(path for task in self.tasks
                                    for path in files_of(task, self.setting).values()))
        others = [base + ending for ending in KINDS]
        with outputs.together(record=base, others=others):
            with outputs.opened(base + TABLE, KINDS[TABLE], "utf-8") as file:
                shown(table).to_csv(file, index=False, lineterminator="\n")
            try:
                packed = bytes_of(table)
            except UserError as error:
                self.remarks.append(f"{base}{COLUMNS} is not written: {error}")
            else:
                with outputs.opened(base + COLUMNS, KINDS[COLUMNS]) as file:
                    file.write(packed)
            write_picture(profile_picture(profile_of(table), len(self.names)), base + PICTURE)
        return table


def _succeeded(found: Any) -> bool:
    return isinstance(found, Done) and found.cells.get("schedule") == "feasible"


def _recorded(base: str, build: str) -> Iterator[dict[str, Any]]:
    """Returns the lines of all records of a base, the record written last at the end.

    Raises UserError if one is of another setting."""
    # Others of these names, as a part's that is being written, may be gone at any time.
    form = re.compile(rf"{re.escape(base)}{re.escape(RUNS)}(-\d+-of-\d+)?")
    paths = sorted(filter(form.fullmatch, glob.glob(f"{glob.escape(base)}{RUNS}*")))
    for path in sorted(paths, key=os.path.getmtime):
        found = build_of(path)
        if found is not None and found != build:
            raise UserError(f"{path}: its limits, problem or tool differ from this bench: give the "
                            "same, or omit --continue to run all again")
        if found is not None:
            yield from lines_of(path)
