"""The list of a bench: on each line the base of an instance, or a line of a batch's list."""
from __future__ import annotations

import os
import shlex

from pit_tools.batches.listing import MOST_LINE
from pit_tools.errors import UserError
from pit_tools.texts.lines import numbered_lines


def read_names(path: str) -> tuple[str, ...]:
    """Returns the bases of a list's instances, in its order: a plan NAME.plan means NAME.

    Raises UserError, with the line, if a base appears twice, cannot be split into words, or there
    is none."""
    found: dict[str, int] = {}
    for number, line in numbered_lines(path, MOST_LINE):
        try:
            words = shlex.split(line.lstrip("\ufeff"), comments=True)
        except ValueError as error:
            raise UserError(f"{path}: line {number}: {str(error).lower()}") from None
        if not words:
            continue
        name = os.path.normpath(words[0][:-len(".plan")] if words[0].endswith(".plan")
                                else words[0])
        if name in found:
            raise UserError(f"{path}: line {number}: `{name}` appears twice, also in line "
                            f"{found[name]}")
        found[name] = number
    if not found:
        raise UserError(f"{path}: it has no line")
    return tuple(found)
