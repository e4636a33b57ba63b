"""Names of commands and options of the previous version. They work until the next version, and one
line on standard error names the replacement."""
from __future__ import annotations

import os
import shlex
import sys
from typing import NamedTuple, Optional, Sequence

from pit_tools.errors import UserError, quoted


class Former(NamedTuple):
    """The replacement of an option: arguments, and the ending that its value must have; a folder
    gets its slash. With `other` as its ending the value would mean another kind of file."""

    words: str
    ending: str = ""
    other: str = ""

    def of(self, option: str, value: str) -> list[str]:
        """Returns the arguments that replace the option with its value."""
        if self.ending == "/" and not value.endswith("/"):
            value += "/"
        if not value.lower().endswith(self.ending):
            raise UserError(f"{option}: write `{self.words} FILE{self.ending}`: {quoted(value)} "
                            f"does not end with {self.ending}")
        if self.other and value.lower().endswith(self.other):
            raise UserError(f"{option}: it is now `{self.words}`, which treats {quoted(value)} as "
                            f"a file of another kind: give a base without {self.other}")
        return [*self.words.split(), value]


_CSV, _WORKBOOK = Former("--out", ".csv"), Former("--out", ".xlsx")

#: Former options with a value, by their commands.
OPTIONS = {
    "import": {"--base": Former("--out")},
    "read": {"--write": Former("--out", other=".npz"), "--arrays": Former("--out", ".npz"),
             "--immediate": Former("--fewer-arcs --out", other=".npz")},
    "library": {"--write": Former("--out"), "--build": Former("--seek all --out")},
    "deposit": {"--folder": Former("--out")},
    "vary": {"--folder": Former("--out")},
    "survey": {"--html": Former("--out", ".html"), "--pictures": Former("--out", "/")},
    "report": {"--csv": _CSV, "--workbook": _WORKBOOK},
    "nested": {"--csv": _CSV, "--workbook": _WORKBOOK, "--picture": Former("--out")},
    "section": {"--x": Former("--section x"), "--y": Former("--section y"),
                "--z": Former("--section z")},
}

#: Former options without a value.
FLAGS = {"minelib": {"--immediate": "--fewer-arcs"}}

#: Former commands, with their replacements.
COMMANDS = {"dimacs": "lp --dimacs --all-arcs", "section": "survey", "slopes": "plan --walls",
            "sample-export": "deposit --export", "texts": "compile --sections - --out"}


def renewed(words: Sequence[str]) -> list[str]:
    """A command line as it is written now; if it has a former name, that is reported.

    Raises UserError if it cannot be written so."""
    if words[0] == "python":
        own = os.path.dirname(os.path.dirname(os.path.dirname(os.path.abspath(__file__))))
        line = shlex.join(["env", f"PYTHONPATH={own}", sys.executable, *words[1:]])
        raise UserError(f"`python` is no longer a command: write `{line}`")
    if words[0] == "read" and len({"--immediate", "--write", "--arrays"} & {*words}) > 1 \
            and "--immediate" in words:
        raise UserError("`--immediate` is `--fewer-arcs --out BASE` now: run it by itself")
    found = _with_options(words)
    if found[0] == "by-zone" and found[1:] and ":" not in found[1] and found[1][0] != "-":
        found = ["by-zone", *found[2:], "--out", found[1]]
    found[:1] = COMMANDS.get(found[0], found[0]).split()
    if found != list(words):
        print("pit-tools: these names are of the previous version: write `pit-tools "
              f"{shlex.join(found)}`",
              file=sys.stderr)
    return found


def _with_options(words: Sequence[str]) -> list[str]:
    """Returns the arguments with today's options."""
    options, flags = OPTIONS.get(words[0], {}), FLAGS.get(words[0], {})
    found, rest = [words[0]], iter(words[1:])
    for word in rest:
        option, has_value, value = word.partition("=")
        if option not in options:
            found.append(flags.get(word, word))
            continue
        given: Optional[str] = value
        if not has_value:
            given = next(rest, None)
        if given is None:
            raise UserError(f"{option}: its value is missing; the option is now "
                            f"`{options[option].words}`")
        new = options[option].of(option, given)
        found += [new[0], f"{new[1]}={new[2]}"] if words[0] == "section" else new
    return found
