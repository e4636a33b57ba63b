"""The subcommands of `pit-tools`, one module each, loaded when it is called.

A module has `HELP`, what the command does with an example; `add_arguments(parser)`, which declares
its arguments; and `run(args)`, which returns the exit status. Functions that need slow packages,
such as pandas, import them, or modules of the other packages do.
"""
from __future__ import annotations

import argparse
import json
import math
import re
from typing import Sequence

from pit_tools.errors import UserError, quoted

#: The help of a command's precedence file.
PRECEDENCE = "BASE.prec, or a file that pitc_thin wrote"


def add_precedence_option(parser: argparse.ArgumentParser) -> None:
    """The option --prec of commands that read an instance by its base."""
    parser.add_argument("--prec", metavar="FILE",
                        help="a precedence file in place of BASE.prec, such as one of pitc_thin")


def add_json(parser: argparse.ArgumentParser) -> None:
    """Adds the option --json of commands that print what scripts read."""
    parser.add_argument("--json", action="store_true", help="prints it as JSON, for programs")


def print_json(found: object) -> None:
    """Prints the result as JSON, with null for an infinite number or NaN, which JSON does not
    have."""
    print(json.dumps(_of_json(found), ensure_ascii=False, indent=1, allow_nan=False))


def _of_json(found: object) -> object:
    if isinstance(found, dict):
        return {name: _of_json(part) for name, part in found.items()}
    if isinstance(found, (list, tuple)):
        return [_of_json(part) for part in found]
    return None if isinstance(found, float) and not math.isfinite(found) else found


def add_outs(parser: argparse.ArgumentParser, message: str) -> None:
    """The option --out of commands that write files of several kinds, by their endings."""
    parser.add_argument("--out", action="append", default=[], metavar="FILE",
                        help=f"{message}; may be repeated")


def by_ending(places: Sequence[str], *endings: str,
              has_others: bool = False) -> dict[str, list[str]]:
    """Returns the files of --out by their endings, and under "" the others, if others are allowed.

    Raises UserError for a file with none of these endings, if others are not allowed."""
    found: dict[str, list[str]] = {ending: [] for ending in ("", *endings)}
    for place in places:
        ending = next((one for one in endings if place.lower().endswith(one)), "")
        if not ending and not has_others:
            raise UserError(f"--out: {quoted(place)} must end with one of {', '.join(endings)}")
        found[ending].append(place)
    return found


def integer(text: str) -> int:
    """Returns the integer of an option. Raises ValueError for any other text."""
    if not re.fullmatch(r"[-+]?[0-9]{1,18}", text):
        raise ValueError(text)
    return int(text)


def number(text: str) -> float:
    """Returns the finite number of an option. Raises ValueError for any other text."""
    if (len(text) > 60 or not math.isfinite(float(text))
            or not re.fullmatch(r"[-+]?[0-9.]+([eE][-+]?[0-9]+)?", text)):
        raise ValueError(text)
    return float(text)


def from_zero(text: str) -> float:
    """Returns a number of 0 or more, as of seconds. Raises ArgumentTypeError for any other text."""
    try:
        found = number(text)
    except ValueError:
        found = -1.0
    if found < 0:
        raise argparse.ArgumentTypeError(f"{quoted(text)} is not a number of 0 or more")
    return found
