"""The last line of an export that has no line end: a file may have been cut within it."""
from __future__ import annotations

import csv
import os

from pit_tools.errors import UserError
from pit_tools.exports.source import UNPACKERS, Source

# The number of bytes at the end of a file that show what its last cells are like.
TAIL = 1 << 20


def last_line_warning(source: Source) -> list[str]:
    """Returns a warning about the last line of a text, if it has no line end; otherwise none.

    Raises UserError if its last cell is shorter than others can be: an empty one if others are not,
    fewer decimals if others have one or two numbers of decimals, or the beginning of a text that
    other rows have in full."""
    lines = _lines_at_end(source)
    if len(lines) < 3:
        return []
    if source.separator == " ":
        rows = [line.split() for line in lines]
    else:
        rows = list(csv.reader(lines, delimiter=source.separator))
    others = [row[-1].strip() for row in rows[1:-1] if row]
    last = rows[-1][-1].strip() if rows[-1] else ""
    why = _shorter(last, others)
    if why:
        raise UserError(f"{source.path}: the last line, `{lines[-1][-60:]}`, has no line end, and "
                        f"its last cell {why}: was the file cut short? Export it again")
    return [f"{source.path}: the last line has no line end: if the file was cut short, rows are "
            "missing"]


def _lines_at_end(source: Source) -> list[str]:
    """Returns the last lines of a text whose last line has no end; none of another text."""
    if source.sheet is not None or not source.encoding or source.is_read_as_text:
        return []
    with open(source.path, "rb") as file:
        prefix = file.read(6)
        if any(prefix.startswith(mark) for mark, _ in UNPACKERS):
            return []
        size = os.fstat(file.fileno()).st_size
        file.seek(max(0, size - TAIL))
        tail = file.read()
    if tail.endswith((b"\n", b"\r")):
        return []
    return [line for line in tail.decode(source.encoding, "replace").splitlines() if line.strip()]


def _shorter(last: str, others: list[str]) -> str:
    """Returns why a cell is shorter than others can be, or an empty text."""
    if len(others) < 5 or last in others:
        return ""
    if not last:
        return "is empty, unlike all others" if all(others) else ""
    # Two numbers of decimals: those of a column, and 0 of a mark as -99.
    decimals, own = ({len(one.partition(".")[2]) for one in others}, len(last.partition(".")[2]))
    if len(decimals) < 3 and own < max(decimals) and own not in decimals:
        return f"has {own} decimals, but others have {max(decimals)}"
    whole = next((one for one in others if one.startswith(last)), "")
    is_text = not any(sign.isdigit() for sign in last)
    return f"is the beginning of `{whole}` in other rows" if whole and is_text else ""
