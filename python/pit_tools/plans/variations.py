"""Plans that differ in some cells from one."""
from __future__ import annotations

import csv
import io
import itertools
from dataclasses import dataclass
from typing import Iterator, Sequence

from pit_tools.errors import UserError, quoted
from pit_tools.texts.decimals import number_of
from pit_tools.texts.formats import NAME
from pit_tools.texts.number_texts import shortest

#: Cells of a record by name, counted from 0 with the key; -1 is the last one.
CELLS = {"name": {"name": 1},
         "grid": {"x": 1, "y": 2, "z": 3, "size-x": 4, "size-y": 5, "size-z": 6}, "zone": {"K": -1},
         "mill": {"recovery": 2, "price": 3, "cost": 4}, "leach": {"price": 2, "cost": 3},
         "dump": {"cost": 2}, "periods": {"periods": 1}, "rate": {"rate": 1}}


#: A number that is as great or greater is in no plan.
MOST = 1e15


@dataclass(frozen=True)
class Change:
    """A cell and its values: `K`, `price`, `slope`, `rate`, `periods`; or KEY.NAME.CELL, as
    mill.mill.cost, zone.1.K, limit.crusher.0 (all limits of period 0) or limit.fleet (all of
    them)."""

    cell: str
    values: tuple[str, ...]

    @classmethod
    def of(cls, text: str) -> "Change":
        cell, equals, values = text.partition("=")
        if not equals or not values:
            raise UserError(f"{quoted(text)} is not CELL=VALUE,VALUE")
        return cls(cell.strip(), tuple(values.split(";" if cell.startswith("slope") else ",")))


def records_of(text: str) -> list[list[str]]:
    return [[cell.strip() for cell in record] for record in csv.reader(io.StringIO(text)) if record]


def _trimmed(record: list[str]) -> list[str]:
    while record and not record[-1]:
        record = record[:-1]
    return record


def varied(text: str, name: str, settings: Sequence[tuple[str, str]]) -> str:
    """Returns the text of a plan under another name, with these cells. `x1.1` multiplies a number,
    and rounds it to what the cell may contain. Raises UserError if no record has such a cell."""
    records = [_trimmed(record) for record in records_of(text)]
    for record in records:
        if record and record[0].lower() == "name":
            record[1:] = [name]
    for cell, value in settings:
        try:
            changed = [_set(record, at, cell, value) for at, record in _numbered(records)]
        except IndexError:
            raise UserError(f"a record that may have the cell `{cell}` is too short") from None
        if not any(changed):
            raise UserError(f"no record of the plan has the cell `{cell}`")
    return "".join(",".join(record) + "\n" for record in records)


def _numbered(records: list[list[str]]) -> Iterator[tuple[int, list[str]]]:
    """Yields each record with its number among those of its key, from 0."""
    seen: dict[str, int] = {}
    for record in records:
        key = record[0].lower() if record else ""
        yield seen.setdefault(key, 0), record
        seen[key] += 1


def _set(record: list[str], number: int, cell: str, value: str) -> bool:
    """Sets a cell of a record, if it is one that the name means."""
    if not record:
        return False
    key, parts = record[0].lower(), cell.split(".")
    if len(parts) == 1 and cell == "slope":
        if key == "zone":
            record[1:-1] = value.split(",")
        return key == "zone"
    if len(parts) == 1:
        at = CELLS.get(key, {}).get(cell) if cell not in ("name", "x", "y", "z", "cost",
                                                          "recovery") else None
    elif parts[0] != key or parts[1] not in (str(number) if key == "zone" else record[1], "*"):
        return False
    elif key == "limit":
        if len(parts) > 2 and parts[2] != record[2]:
            return False
        at = len(record) - 1
    elif key == "zone" and parts[2:] == ["slope"]:
        record[1:-1] = value.split(",")
        return True
    else:
        at = CELLS.get(key, {}).get(parts[2]) if len(parts) == 3 else None
    if at is None:
        return False
    record[at] = _value(record[at], value)
    return True


def _value(old: str, value: str) -> str:
    """Returns a value, or the old one times the factor after an x."""
    if not value.startswith("x"):
        return value
    before, times = number_of(old), number_of(value[1:])
    if before is None or times is None or abs(before * times) >= MOST:
        raise UserError(f"{quoted(value)}: {quoted(old)} cannot be multiplied by it")
    found = before * times
    return shortest(found) if "." in old else str(round(found))


def variations(text: str, base: str, changes: Sequence[Change]) -> Iterator[tuple[str, str]]:
    """The names and texts of all combinations: BASE-K4-price5000000 and so on.

    Raises UserError if a name would be no NAME of a plan, or come twice.
    """
    seen = set()
    for values in itertools.product(*(change.values for change in changes)):
        settings = [(change.cell, value) for change, value in zip(changes, values)]
        name = base + "".join(f"-{cell.rpartition('.')[2] if cell.count('.') > 1 else cell}{value}"
                              for cell, value in settings)
        name = "".join(letter if NAME.fullmatch(letter) else "_" for letter in name)
        if len(name) > 64 or name in seen:
            raise UserError(f"the name `{name}` "
                            f"{'comes twice' if name in seen else 'is longer than 64 letters'}: "
                            "give a shorter --name, or fewer changes")
        seen.add(name)
        yield name, varied(text, name, settings)
