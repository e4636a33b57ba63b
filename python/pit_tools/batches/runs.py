"""Batches: many instances by `pitc`, with a manifest of all inputs, and a table of the results."""
from __future__ import annotations

import csv
import fcntl
import hashlib
import io
import os
from contextlib import ExitStack, closing, contextmanager
from functools import partial
from typing import Iterable, Iterator, Optional, Sequence

from pit_tools import progress
from pit_tools.batches.build import Way, build_text
from pit_tools.batches.engines import Engine, in_turn
from pit_tools.batches.listing import TABLES, BatchList, Entry, Part, read_list
from pit_tools.batches.making import COLUMNS, Failed, Made, clear_unfinished, make, texts_of
from pit_tools.batches.records import Record, Recorded, Sums, record_path, recorded_in
from pit_tools.errors import UserError
from pit_tools.files import inputs, kinds, outputs, records, renames
from pit_tools.files.locks import lock
from pit_tools.instances.files import TEXTS

#: The kinds of files that the tables are.
KINDS = {"MANIFEST": "sums", "SIZES": "table of a batch", "BUILD": "build of a batch"}

#: The file that is locked in the folder of a batch; it stays when the lock is lifted.
LOCK = ".batch-lock"


@contextmanager
def locked(folder: str, part: Part = Part()) -> Iterator[None]:
    """Locks a folder for one batch only, or for a part of one, together with its other parts.

    Raises UserError if another one has the lock."""
    message = f"{os.path.abspath(folder)}: another batch runs in this folder: wait until it ends"
    with ExitStack() as opened:
        lock(opened, os.path.join(folder, LOCK),
             fcntl.LOCK_EX if part.is_complete else fcntl.LOCK_SH, message)
        if not part.is_complete:
            lock(opened, os.path.join(folder, f"{LOCK}{part.ending}"), fcntl.LOCK_EX, message)
        yield


#: The message if nothing has succeeded.
STOPPED = "stopped: {} failed, and none succeeded"


class Batch:
    """A list whose instances are made in the current folder, or a part of it.

    `failed` has a line for each failed step, `kept` has the instances that were complete before,
    `made` all complete ones."""

    def __init__(self, path: str, way: Way, part: Part = Part()):
        self.way, self.part = way, part
        self.list = read_list(path, texts_of(way), [record_path("", part)])
        self.entries = self.list.entries_of(part)
        inputs.reads(*(name for entry in self.entries for name in entry.inputs))
        self.made: dict[Entry, Made] = {}
        self.kept: set[Entry] = set()
        self.failed: list[str] = []

    def run(self, engine: Engine = in_turn, goes_on: bool = False,
            stop_at: Optional[int] = None) -> bool:
        """Makes each instance, or with `continued` the incomplete ones; then BUILD, SIZES, and
        MANIFEST if nothing failed. A part makes none of these. Nothing is removed before it is
        known that pitc works. It stops when `stop_at` instances have failed and none is complete.
        """
        with locked(self.way.folder, self.part):
            build = build_text(self.way)
            if goes_on:
                self._keep(build)
            _judge_old(self.way.folder, [entry for entry in self.entries if entry not in self.made],
                       texts_of(self.way))
            renames.clear_leftovers([record_path(self.way.folder, self.part),
                                     *(TABLES if self.part.is_complete else ())])
            with Record(record_path(self.way.folder, self.part), build, goes_on) as record:
                _remove(TABLES)
                clear_unfinished(self.entries, self.way.folder)
                self._make(engine, build, record, stop_at)
            if self.part.is_complete:
                if build_text(self.way) != build:
                    self.failed.append("the programs or the tool were changed while the batch ran")
                self.failed += finish(self.list, build, self.made, not self.failed)
        return not self.failed

    def _keep(self, build: str) -> None:
        """Takes over the instances of this BUILD that records list and sums confirm."""
        sums = Sums(self.way.folder)
        for one in recorded_in(self.way.folder):
            texts = [f"{one.made.entry.name}.{text}" for text in texts_of(self.way)]
            if (one.build == build
                    and sums.other([*one.made.entry.inputs, *texts], one.made.sums) is None):
                self.made[one.made.entry] = one.made
        self.made = {entry: self.made[entry] for entry in self.entries if entry in self.made}
        self.kept = set(self.made)

    def _make(self, engine: Engine, build: str, record: Record, stop_at: Optional[int]) -> None:
        entries = [entry for entry in self.entries if entry not in self.made]
        with closing(engine(partial(make, way=self.way, build=build), entries)) as results:
            for found in results:
                if isinstance(found, Failed):
                    self.failed.append(f"{found.entry.plan}: {found.message}")
                else:
                    record.add(found)
                    self.made[found.entry] = found
                progress.done(found.entry.name)
                if not self.made and len(self.failed) == stop_at:
                    self.failed.append(STOPPED.format(stop_at))
                    break


def _kind(name: str) -> str:
    """The kind of a file that a batch writes."""
    return KINDS.get(name) or kinds.ENDINGS[os.path.splitext(name)[1]]


def _judge_old(folder: str, entries: Iterable[Entry], texts: Sequence[str]) -> None:
    """Rejects a batch that would replace files of another kind."""
    for name in (*TABLES, *(f"{entry.name}.{text}" for entry in entries for text in texts)):
        outputs.judged_old(os.path.join(folder, name), _kind(name))


def _remove(names: Iterable[str]) -> None:
    for name in names:
        if os.path.lexists(name):
            os.remove(name)


def finish(listed: BatchList, build: str, made: dict[Entry, Made], is_right: bool) -> list[str]:
    """Writes BUILD and SIZES of the complete instances, and MANIFEST if the list is complete and no
    input has changed since its instances were made. Returns messages about what has changed."""
    rows = [made[entry].row for entry in listed.entries if entry in made]
    text = io.StringIO()
    csv.writer(text, delimiter=" ", lineterminator="\n").writerows([COLUMNS, *rows])
    tables = {"BUILD": build, "SIZES": text.getvalue()}
    with outputs.together():
        for name, content in tables.items():
            with outputs.opened(name, KINDS[name], "utf-8") as file:
                file.write(content)
    if not is_right or len(rows) < len(listed.entries):
        return []
    changed = _changed(listed, made)
    if changed:
        return [f"{name} was changed while the batch ran" for name in changed]
    read = {listed.path: listed.sum}
    written = {name: hashlib.sha256(content.encode()).hexdigest()
               for name, content in tables.items()}
    for entry in listed.entries:
        for name, found in made[entry].sums.items():
            (read if name in entry.inputs else written)[name] = found
    outcome, source = (tuple(records.File(name, os.path.getsize(name), found)
                             for name, found in part.items()) for part in (written, read))
    with outputs.opened("MANIFEST", KINDS["MANIFEST"], "utf-8") as file:
        file.write(records.Record("MANIFEST", "batch", outcome, source).text)
    return []


def _changed(listed: BatchList, made: dict[Entry, Made]) -> list[str]:
    """Returns messages about inputs that have changed since an instance was made, or differed
    between instances."""
    sums = Sums("")
    changed = [] if sums.of(listed.path) == listed.sum else [listed.path]
    for entry in listed.entries:
        changed += [name for name in entry.inputs if sums.of(name) != made[entry].sums[name]]
    return list(dict.fromkeys(changed))


class Joining:
    """Parts of a list that were made in other folders, or in this one, joined to one batch in the
    current folder."""

    def __init__(self, path: str, folders: Sequence[str]):
        self.list = read_list(path, (*TEXTS, "thin"), [record_path("")])
        self.folders = list(dict.fromkeys(os.path.normpath(folder) for folder in folders))
        self.made: dict[Entry, Made] = {}
        self.failed: list[str] = []

    def run(self) -> bool:
        """Takes over each instance that a record of a folder lists as complete and sums confirm;
        then writes BUILD, SIZES and MANIFEST as of one batch. Nothing is removed before all are
        found."""
        with ExitStack() as held:
            for real in dict.fromkeys(os.path.realpath(folder) for folder in [".", *self.folders]):
                held.enter_context(locked(real))
            found = [(folder, one) for folder in self.folders for one in recorded_in(folder)]
            build = _common_build(self.folders, [one for _, one in found])
            complete = self._complete(found)
            if self.failed:
                return False
            _judge_old("",
                       [made.entry for folder, made in complete
                        if not os.path.samefile(folder, ".")],
                       (*TEXTS, "thin"))
            texts = [name for _, made in complete for name in made.sums
                     if name not in made.entry.inputs]
            renames.clear_leftovers([record_path(""), *TABLES, *texts])
            _remove(TABLES)
            for folder, made in complete:
                _copied(folder, made)
                self.made[made.entry] = made
            with Record(record_path(""), build, False) as record:
                for made in self.made.values():
                    record.add(made)
            self.failed += finish(self.list, build, self.made, True)
        return not self.failed

    def _complete(self, found: Sequence[tuple[str, Recorded]]) -> list[tuple[str, Made]]:
        """Returns the folder and the record of each instance of the list; `failed` names the
        missing ones."""
        here, sums = Sums(""), {folder: Sums(folder) for folder in self.folders}
        by_entry: dict[Entry, list[tuple[str, Recorded]]] = {}
        for folder, one in found:
            by_entry.setdefault(one.made.entry, []).append((folder, one))
        complete = []
        for entry in self.list.entries:
            message = "no part has it"
            for folder, one in by_entry.get(entry, []):
                texts = [name for name in one.made.sums if name not in entry.inputs]
                other = here.other(entry.inputs, one.made.sums)
                message = f"{other} differs from the one that {one.path} names" if other else ""
                if not message and (other := sums[folder].other(texts, one.made.sums)):
                    message = (f"{os.path.join(folder, other)} differs from the one that "
                               f"{one.path} names")
                if not message:
                    complete.append((folder, one.made))
                    break
            if message:
                self.failed.append(f"{entry.plan}: {message}")
        return complete


def _common_build(folders: Sequence[str], found: Sequence[Recorded]) -> str:
    """Returns the text of BUILD that all records have. Raises UserError if there is none, or they
    differ."""
    by_build = {one.build: one.path for one in found}
    if not by_build:
        raise UserError(f"no record of a batch is in {', '.join(folders)}")
    if len(by_build) > 1:
        raise UserError("parts were made by different builds: compare the first lines of "
                        f"{' and '.join(list(by_build.values())[:2])}")
    return next(iter(by_build))


def _copied(folder: str, made: Made) -> None:
    """Brings the texts of an instance from a folder, if that is another one."""
    if os.path.samefile(folder, "."):
        return
    with outputs.together():
        for name in made.sums:
            if name not in made.entry.inputs:
                outputs.copied(os.path.join(folder, name), name, _kind(name))
