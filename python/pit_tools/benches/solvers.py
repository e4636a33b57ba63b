"""Commands of solvers, with places for files: `cbc {lp} solve solution {solution}`."""
from __future__ import annotations

import hashlib
import json
import os
import re
import shlex
import shutil
from dataclasses import asdict, dataclass
from string import Formatter
from typing import Sequence

from pit_tools.errors import UserError, quoted
from pit_tools.files.records import sum_of
from pit_tools.instances.files import TEXTS

#: Placeholders of a command: files of the instance; programs that are written for it; the solver's
#: output, a schedule or values of the program's variables; and texts.
FILES = (*TEXTS, "thin", "plan")
PROGRAMS = {"lp": False, "lp-by-period": True}
WRITTEN = ("out", "solution")
WORDS = ("base", "name", "seconds", "folder")
PLACES = (*FILES, *PROGRAMS, *WRITTEN, *WORDS)

_NAME = re.compile(r"([A-Za-z0-9_.-]{1,40})=(.+)", re.DOTALL)

#: Characters that a command may have.
MOST = 1 << 16


@dataclass(frozen=True)
class Solver:
    """A solver's name, the arguments of its command, or one text for a shell, and the sums of the
    files among them."""

    name: str
    command: tuple[str, ...]
    by_shell: bool
    sums: tuple[tuple[str, str], ...]

    @property
    def places(self) -> set[str]:
        """The places that the command has."""
        return {place for word in self.command for place in _places(word)}

    @property
    def sum(self) -> str:
        """The SHA-256 of all that it is."""
        return hashlib.sha256(json.dumps(asdict(self)).encode()).hexdigest()

    def filled(self, values: dict[str, str]) -> list[str]:
        """Returns the arguments of the command with these values in its placeholders."""
        if self.by_shell:
            values = {place: shlex.quote(value) for place, value in values.items()}
            return ["/bin/sh", "-c", _filled(self.command[0], values)]
        return [_filled(word, values) for word in self.command]


def _places(word: str) -> list[str]:
    """Returns the placeholders in an argument. Raises UserError for an unknown one."""
    try:
        parts = list(Formatter().parse(word))
    except ValueError as error:
        raise UserError(f"--solver: {quoted(word)}: {error}: write a literal brace twice") \
            from None
    for _, place, form, conversion in parts:
        if place is not None and (place not in PLACES or form or conversion):
            raise UserError(f"--solver: {{{place}}} is not a placeholder of a command: there are "
                            f"{', '.join('{' + one + '}' for one in PLACES)}")
    return [place for _, place, _, _ in parts if place is not None]


def _filled(word: str, values: dict[str, str]) -> str:
    return "".join(before + (values[place] if place is not None else "")
                   for before, place, _, _ in Formatter().parse(word))


def _judge_quotes(solver: Solver) -> None:
    """Raises UserError if a placeholder is within quotes of the shell. Its value gets its own
    quotes if it needs some, which would end these, or become part of the name of a file."""
    [text] = solver.command
    for place in sorted(solver.places):
        values = {one: "\1 \1" if one == place else "x" for one in solver.places}
        words = shlex.split(solver.filled(values)[-1])
        found = sum(len(re.findall("(?<!')\1 \1", word)) for word in words)
        if found != _places(text).count(place):
            raise UserError(f"--solver: {{{place}}} is within quotes: write it without, since "
                            "--shell quotes its value")


def read_solver(text: str, by_shell: bool = False) -> Solver:
    """Returns a solver from `NAME=COMMAND`, or from its command only, whose program is then its
    name. Arguments are split as by a shell; a shell runs the command only with `by_shell`.

    Raises UserError if a placeholder is unknown, or for a shell within quotes, if nothing would be
    written, or if its program is missing.
    """
    if len(text) > MOST:
        raise UserError(f"--solver: the command has more than {MOST:,} characters")
    found = _NAME.fullmatch(text)
    name, command = found.groups() if found else ("", text)
    try:
        words = shlex.split(command)
    except ValueError as error:
        raise UserError(f"--solver: {str(error).lower()}: {quoted(command)}") from None
    if not words:
        raise UserError("--solver has an empty command")
    solver = Solver(name or os.path.basename(words[0]), (command,) if by_shell else tuple(words),
                    by_shell, ())
    if not solver.places & set(WRITTEN):
        raise UserError(f"--solver: {quoted(command)} has neither {{out}}, for a schedule, nor "
                        "{solution}, for the values of a program's variables")
    if by_shell:
        _judge_quotes(solver)
    program = shutil.which(words[0])
    if program is None and not by_shell:
        raise UserError(f"--solver: the program `{words[0]}` is missing")
    if program and not by_shell:
        solver = Solver(solver.name, (os.path.abspath(program), *words[1:]), by_shell, ())
    files = [word for word in dict.fromkeys([program or "", *words[1:]]) if os.path.isfile(word)]
    sums = tuple((path, sum_of(path)) for path in files)
    return Solver(solver.name, solver.command, by_shell, sums)


def read_solvers(texts: Sequence[str], by_shell: bool = False) -> tuple[Solver, ...]:
    """Several solvers, whose names differ.

    Raises UserError if two have one name, and as `read_solver` does."""
    solvers = tuple(read_solver(text, by_shell) for text in texts)
    names = [solver.name for solver in solvers]
    for name in names:
        if names.count(name) > 1:
            raise UserError(f"--solver: two solvers have the name `{name}`: give names, as "
                            f"'{name}-2=COMMAND'")
    return solvers
