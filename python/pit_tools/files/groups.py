"""Files that come together, with the record of their sums, which is put last."""
from __future__ import annotations

import errno
import os
import stat
from contextlib import ExitStack
from dataclasses import replace
from typing import Iterable, Optional, Sequence

from pit_tools.errors import UserError
from pit_tools.files import interrupts, records
from pit_tools.files.inputs import Command, Identity, Program, identity, looking
from pit_tools.files.kinds import judge_kind
from pit_tools.files.raw import Raw, complete, with_name
from pit_tools.files.records import File, Record, status_of
from pit_tools.files.renames import (Step, Unfinished, alone_in, next_to, created, lies, put_step,
                                     remove, said, sync_folder, take_rights)


class Group:
    """The files of one `together`."""

    def __init__(self) -> None:
        self.files: list[Unfinished] = []
        self.folders: list[str] = []
        self.reads: dict[Identity, str] = {}
        #: Of the files that are opened now.
        self.record = ""
        #: Files that must not remain next to those of a record, by the path of that record.
        self.others: dict[str, list[str]] = {}
        #: Those of them that are removed.
        self.removed: list[str] = []

    def note(self, paths: Iterable[str]) -> None:
        self.reads |= {found: path for path in paths if (found := identity(path))}

    def reject_read(self, place: str, found: Optional[Identity]) -> None:
        """Rejects an output that is also an input."""
        if Command.now is None and Program.has_read(found):
            raise UserError(f"{place}: this program has read it, and would overwrite it: give "
                            "another name")
        known = {**self.reads, **(Command.now.reads if Command.now else {})}
        read = known.get(found) if found else None
        if read is not None:
            message = ("this command reads it" if read == place
                       else f"it is {read}, which this command reads")
            raise UserError(f"{place}: {message}, and would be overwritten: give another name")

    def begin(self, place: str, kind: str) -> Raw:
        """Opens the temporary file for an output."""
        target = os.path.realpath(place)
        status = status_of(target)
        if status and stat.S_ISDIR(status.st_mode):
            raise IsADirectoryError(errno.EISDIR, os.strerror(errno.EISDIR), place)
        if any(one.target == target for one in self.files):
            raise UserError(f"{place}: two files would have this name")
        self.reject_read(place, identity(target))
        if status:
            self.judge_old(place, target, kind)
        with interrupts.held():
            return self._made_next_to(place, target, status)

    def judge_old(self, place: str, target: str, kind: str) -> None:
        """Rejects an output that would replace a file of another kind, or one that is not
        writable."""
        if not os.access(target, os.W_OK):
            raise PermissionError(errno.EACCES, os.strerror(errno.EACCES), place)
        if Command.now is not None and not Command.now.force:
            with looking():
                judge_kind(place, target, kind)

    def _made_next_to(self, place: str, target: str, old: Optional[os.stat_result]) -> Raw:
        mode = stat.S_IMODE(old.st_mode) & 0o777 if old else 0o666
        try:
            path, descriptor = next_to(target, "unfinished", lambda name: created(name, mode))
        except PermissionError:
            if old:
                raise UserError(f"{place}: its folder is not writable, but the new file is first "
                                "written there: change its mode, or give another folder") from None
            raise PermissionError(errno.EACCES, os.strerror(errno.EACCES), place) from None
        except OSError as error:
            raise with_name(error, place) from None
        raw = Raw(descriptor, place, bool(self.record))
        self.files.append(Unfinished(place, target, path, self.record, raw))
        if old:
            take_rights(descriptor, old)
        return raw

    def drop(self, files: Iterable[Unfinished]) -> None:
        """Removes unfinished files."""
        for one in list(files):
            self.files.remove(one)
            remove(one.path)

    # Records

    def _made_records(self) -> dict[str, Record]:
        """Returns the records of the files about to be put, by their paths: each names more than
        one file."""
        found: dict[str, Record] = {}
        command, targets = Command.now, [one.target for one in self.files]
        for path in dict.fromkeys(one.record for one in self.files if one.record):
            with looking():
                files = tuple(one.file() for one in self.files if one.record == path)
            if len(files) > 1:
                found[path] = Record(path, "", files) if command is None else Record(
                    path, command.name, files,
                    command.reading.inputs(os.path.dirname(path), targets),
                    tuple(command.reading.passed))
        return found

    def _judged_records(self) -> dict[str, Optional[str]]:
        """Returns the texts of all records to put, by their paths: those of these files, and older
        ones, which no longer name a replaced file; None for a record that names no other file.
        """
        made, targets = self._made_records(), {one.target for one in self.files}
        texts: dict[str, Optional[str]] = {path: record.text for path, record in made.items()}
        with looking():
            older = [record for folder in self._folders()
                     for record in records.records_in(folder, is_replacing=True)]
        for record in (one for one in older if one.is_put):
            left = tuple(file for file in record.outputs if record.at(file) not in targets)
            if record.path in self.others:
                # Another command may have written a plan, say, whose record has the same name.
                is_same = Command.now is not None and record.command == Command.now.name
                stale = tuple(file for file in left
                              if is_same or record.at(file) in self.others[record.path])
                self._take_others(record.path, stale)
                left = tuple(file for file in left if file not in stale)
            if record.path not in made and len(left) < len(record.outputs):
                texts[record.path] = replace(record, outputs=left).text if left else None
        for path in list(self.others):
            self._take_others(path, ())
        return texts

    def _take_others(self, path: str, named: Sequence[File]) -> None:
        """Removes the files that an earlier run left next to these; fails if one was changed since,
        or if no record shows that this tool wrote it."""
        sums = {os.path.abspath(os.path.join(os.path.dirname(path), file.name)): file.sum
                for file in named}
        targets = [one.target for one in self.files]
        for target in [one for one in (*sums, *self.others.pop(path)) if one not in targets]:
            if status_of(target) is None:
                continue
            place = os.path.relpath(target)
            with looking():
                is_own = target in sums and records.sum_of(target) == sums[target]
            if not is_own and not (Command.now and Command.now.force):
                raise UserError(f"{place}: it has a name of this output but is not part of it: "
                                "move it, or give --force to remove it")
            self.reject_read(place, identity(target))
            targets.append(target)
            self.files.append(Unfinished(place, target, ""))
            self.removed.append(place)

    def _write_records(self) -> None:
        self.record = ""
        for path, text in self._judged_records().items():
            place = os.path.relpath(path)
            if text is None:
                self.files.append(Unfinished(place, path, ""))
                continue
            with complete(self.begin(place, "sums"), "utf-8", "\n") as file:
                file.write(text)

    def _folders(self) -> list[str]:
        return sorted({os.path.dirname(one.target) for one in self.files})

    # Renames

    def put(self) -> None:
        """Puts all files in their places."""
        with ExitStack() as held:
            for above in self._folders():
                held.enter_context(alone_in(above))
            self._write_records()
            for one in self.files:
                self.reject_read(one.place, identity(one.target))
            with interrupts.held():
                self._rename()
                if Command.now is None:
                    Program.written |= {found: one.target for one in self.files
                                         if (found := identity(one.target))}
                for above in self._folders():
                    sync_folder(above)
                self.files.clear()
                self.folders.clear()
        if Command.now is not None:
            Command.now.removed += self.removed

    def _rename(self) -> None:
        done: list[Step] = []
        try:
            for one in self.files:
                done.append(Step(one, lies(one.target)))
                put_step(done[-1], len(self.files) > 1)
        except OSError as error:
            message = [line for line in (step.back() for step in reversed(done)) if line]
            if message:
                raise UserError(f"{said(error)}, and the former files cannot be restored: "
                                f"{', '.join(reversed(message))}: move the old files back, or run "
                                "this again, once the system permits") from None
            raise error
        for step in done:
            remove(step.kept)

    def clear(self) -> None:
        """Removes all that was begun."""
        self.drop(self.files)
        for made in reversed(self.folders):
            try:
                os.rmdir(made)
            except OSError:
                pass
