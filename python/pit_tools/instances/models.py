"""UPIT, CPIT and PCPSP files, of `pitc` and of other programs.

A file of `pitc` is read without `Changes`: its keys and sections have one order, and anything else
is an error with its line. Header and sections of other files may have any order; changes and
omissions are added to the `Changes`.
"""
from __future__ import annotations

import difflib
import os
import re
from dataclasses import dataclass
from itertools import chain
from typing import Iterator, Optional, Union

import numpy as np

from pit_tools.errors import UserError, quoted
from pit_tools.instances.arrays import Limit, Problem, UltimatePit, Uses
from pit_tools.texts.decimals import number_of, integer_of
from pit_tools.texts.formats import (MOST_BLOCKS, MOST_DESTINATIONS, MOST_PERIODS, MOST_RESOURCES,
                                     WHAT_A_NAME_IS)
from pit_tools.texts.lines import (Chunk, Rounding, Changes, line_lengths, numbers_of, chunks_of,
                                   reject_row)
from pit_tools.texts.number_texts import NotHeld, nearest

OBJECTIVE = "OBJECTIVE_FUNCTION"
COEFFICIENTS = "RESOURCE_CONSTRAINT_COEFFICIENTS"
LIMITS = "RESOURCE_CONSTRAINT_LIMITS"

#: The header keys, in the order in which they are written, and the sections after them.
KEYS = ("NAME", "TYPE", "NBLOCKS", "NPERIODS", "NDESTINATIONS", "NRESOURCE_SIDE_CONSTRAINTS",
        "NGENERAL_SIDE_CONSTRAINTS", "DISCOUNT_RATE")
SECTIONS = (OBJECTIVE, COEFFICIENTS, LIMITS)

#: Orders of the fields of a coefficient, before its amount: block, destination, resource.
ORDERS = ("bdr", "brd", "rbd")

#: How limits may be written, in files of `pitc` by the letters alone.
LETTERS = {"L": "L", "<=": "L", "<": "L", "LE": "L", "G": "G", ">=": "G", ">": "G", "GE": "G",
           "I": "I"}


class Model:
    """A model file: its header, and the positions of its sections."""

    def __init__(self, path: str, kind: str, changes: Optional[Changes]):
        self.path, self.kind, self.changes = path, kind, changes
        self.is_own = changes is None
        self.header: dict[str, str] = {}
        self.unknown: list[str] = []
        self.sections: dict[str, int] = {}
        self.general = 0

    @property
    def file_name(self) -> str:
        """The file's name without its folder."""
        return os.path.basename(self.path)

    def change(self, fault: str, done: str) -> None:
        """Reports how an error was repaired; in a file of `pitc` it raises UserError."""
        if self.changes is None:
            raise UserError(f"{self.path}: {fault}")
        self.changes.add(f"{self.file_name}: {done}")

    def missing_section(self) -> str:
        """Returns the next section that a file of `pitc` has, or `none`."""
        return next(iter(SECTIONS[len(self.sections):1 if self.kind == "UPIT" else None]), "none")

    def parts(self) -> Iterator[tuple[str, Chunk]]:
        """Yields parts of the lines of sections, each with its section's name. Key lines are read
        on the way; a second pass through the file skips them."""
        section, is_first = "", not self.header
        chunks = chunks_of(self.path, self.is_own)
        for chunk, is_key in chain.from_iterable(map(Chunk.at_keys, chunks)):
            if is_key:
                section = self._key_line(chunk, is_first) or section
            elif chunk.text.strip():
                if not section:
                    chunk.reject(0, "it precedes the first section")
                yield section, chunk

    def rows(self, section: str) -> Iterator[Chunk]:
        """Yields the parts of one section, by another pass through the file."""
        return (chunk for name, chunk in self.parts() if name == section)

    def _key_line(self, chunk: Chunk, is_first: bool) -> str:
        """Reads a line with a colon; returns the section that it begins, if it does."""
        key, _, value = chunk.text.decode("utf-8", "replace").partition(":")
        name, value = key.strip(), value.strip()
        if not self.is_own:
            name = re.sub(r"\s+", "_", name).upper()
        if not is_first:
            return "" if value else name
        if value and name not in SECTIONS:
            self._header_line(chunk, name, value)
            return ""
        if value:
            chunk.reject(0, f"nothing follows {name}:")
        if name in KEYS:
            chunk.reject(0, f"{name} has no value")
        if name not in SECTIONS and not name.startswith("GENERAL"):
            near = difflib.get_close_matches(name[:60], SECTIONS, 1, 0.7)
            chunk.reject(0, f"not a known section{': is it ' + near[0] if near else ''}")
        if name in self.sections:
            chunk.reject(0, f"the section is also in line {self.sections[name]}")
        if self.is_own and name != self.missing_section():
            chunk.reject(0, f"a {self.kind} file must have {self.missing_section()} here")
        self.sections[name] = chunk.first
        return name

    def _header_line(self, chunk: Chunk, name: str, value: str) -> None:
        if self.is_own and (name not in KEYS or self.sections):
            place = f"below {list(self.sections)[-1]}" if self.sections else "in the header"
            chunk.reject(0, f"the key {quoted(name)} cannot be {place} of a model")
        if name in self.header:
            chunk.reject(0, f"{name} appears twice")
        if name not in KEYS:
            self.unknown.append(f"{name[:60]} in line {chunk.first}")
            self.change("", f"line {chunk.first}: {name[:60]} is not a known key, and was omitted")
        if name == "TYPE" and self.kind != (value if self.is_own else value.upper()):
            raise UserError(f"{self.path}: TYPE is {quoted(value)}, but the file is given as a "
                            f"{self.kind}")
        self.header[name] = value

    def number(self, key: str, least: float, most: float, default: Optional[float] = None) -> float:
        """Returns the number after a key. Raises UserError if it is not a number or out of
        range."""
        if key not in self.header:
            if default is not None:
                return default
            others = f"; unknown: {', '.join(self.unknown[:9])}" if self.unknown else ""
            raise UserError(f"{self.path}: {key} is missing{others}")
        number = number_of(self.header[key])
        if number is None or not least <= number <= most:
            percent = " (is it in percent?)" if key == "DISCOUNT_RATE" and (number or 0) > 1 else ""
            raise UserError(f"{self.path}: {key} is {quoted(self.header[key])}, not a number from "
                            f"{least} to {most}{percent}")
        return number

    def count(self, key: str, least: int, most: int, default: Optional[int] = None) -> int:
        """Returns the integer after a key, as `number`."""
        number = self.number(key, least, most, default)
        if number % 1:
            raise UserError(f"{self.path}: {key} is {quoted(self.header[key])}, not an integer")
        return int(number)

    def name(self) -> str:
        """Its NAME, or the file's, in characters that a NAME may have."""
        given = self.header.get("NAME")
        name = re.sub(r"[^A-Za-z0-9_.-]", "_", given or os.path.splitext(self.file_name)[0])[:64]
        if name != given:
            self.change(f"NAME is {quoted(given or '')}, but it must have {WHAT_A_NAME_IS}",
                        f"NAME is now {name}")
        return name


class _Values:
    """The lines of an objective as they come, and then the values by block."""

    def __init__(self, model: Model, first: int):
        self.model, self.first = model, first
        self.ids: list[np.ndarray] = []
        self.parts: list[np.ndarray] = []
        self.rounding = Rounding(6)

    def take(self, chunk: Chunk) -> None:
        """Reads lines `block value ..`, all with the same number of values."""
        length = 1 + (len(self.parts[0]) if self.parts
                      else int(line_lengths(chunk.text)[:1].sum()) - 1)
        if length < 2 or self.model.kind != "PCPSP" and length != 2:
            chunk.reject(0, f"a line of the objective of a {self.model.kind} must be a block and "
                            f"{'its values' if self.model.kind == 'PCPSP' else 'one value'}")
        numbers = numbers_of(chunk, range(length), "a line of the objective", length)
        self.ids.append(chunk.integers(numbers[0], "the block"))
        self.parts.append(self.rounding.of(chunk, numbers[1:], "a value"))

    def by_block(self) -> np.ndarray:
        """The values (blocks, destinations), in order of identifier."""
        if not self.parts:
            raise UserError(f"{self.model.path}: no lines follow {OBJECTIVE}")
        ids, values = np.concatenate(self.ids), np.concatenate(self.parts, axis=1).T
        self.rounding.report(self.model.rows(OBJECTIVE), "values were", self.model.changes)
        at = ids - self.first
        is_wrong = at != np.arange(len(at))
        if not is_wrong.any():
            return np.ascontiguousarray(values)
        if not self.model.is_own:
            is_wrong = (at < 0) | (at >= len(ids))
            if not is_wrong.any():
                is_wrong[:] = True
                is_wrong[np.unique(at, return_index=True)[1]] = False
        if is_wrong.any():
            reject_row(self.model.rows(OBJECTIVE), int(is_wrong.argmax()),
                       f"the objective has {len(ids)} lines, not one for each block from "
                       f"{self.first} on{' in turn' if self.model.is_own else ''}")
        ordered = np.empty_like(values, order="C")
        ordered[at] = values
        return ordered


class _Coefficients:
    """The lines of coefficients as they come, and then the uses by (block, destination,
    resource)."""

    def __init__(self, model: Model):
        self.model = model
        self.places = 3 if model.kind == "PCPSP" else 2
        self.parts: list[list[np.ndarray]] = []
        self.rounding = Rounding(6)

    def take(self, chunk: Chunk) -> None:
        """Reads lines of two or three indices and an amount."""
        what, places = f"a coefficient of a {self.model.kind}", self.places
        numbers = numbers_of(chunk, range(places + 1), what, places + 1)
        whole = [chunk.integers(numbers[at], f"field {at + 1} of {what}") for at in range(places)]
        self.parts.append([*whole, self.rounding.of(chunk, numbers[places], "an amount")])

    def uses(self, first: int, ends: tuple[int, int, int], order: Optional[str]) -> Uses:
        """Returns the uses, with a block's identifier below first + ends[0], a destination below
        ends[1] and a resource below ends[2]; the fields have this order, or the one that fits."""
        empty = [np.empty(0, np.int32)] * self.places + [np.empty(0)]
        *fields, amount = map(np.concatenate, zip(*self.parts)) if self.parts else empty
        self.parts.clear()
        self.rounding.report(self.model.rows(COEFFICIENTS), "amounts were", self.model.changes)
        block, destination, resource = self._in_order(fields, first, ends, order)
        keys = (block.astype(np.int64) * ends[1] + destination) * max(ends[2], 1) + resource
        if np.any(keys[1:] < keys[:-1]):
            rank = np.argsort(keys, kind="stable")
            keys = keys[rank]
            block, destination, resource, amount = (
                part[rank] for part in (block, destination, resource, amount))
        twice = np.flatnonzero(keys[1:] == keys[:-1])
        if len(twice):
            at = int(twice[0])
            raise UserError(f"{self.model.path}: a coefficient appears twice: block "
                            f"{block[at] + first}, destination {destination[at]}, resource "
                            f"{resource[at]}")
        return Uses(block, destination.astype(np.int8), resource.astype(np.int8), amount)

    def _in_order(self, fields: list[np.ndarray], first: int, ends: tuple[int, int, int],
                  given: Optional[str]) -> list[np.ndarray]:
        """Block, destination and resource, block counted from 0."""
        with_d = self.model.kind == "PCPSP"
        orders = list(dict.fromkeys(order if with_d else order.replace("d", "")
                                    for order in ([given] if given else ORDERS)))
        starts, limits = {"b": first, "d": 0, "r": 0}, dict(zip("bdr", ends))
        fitting = [order for order in orders if all(
            column.min(initial=starts[letter]) >= starts[letter]
            and column.max(initial=starts[letter] - 1) < starts[letter] + limits[letter]
            for letter, column in zip(order, fields))]
        if not fitting:
            self._reject_out_of_range(fields, orders[0], starts, limits)
        columns = dict(zip(fitting[0], fields))
        for other in fitting[1:]:
            if any(not np.array_equal(column, columns[letter])
                   for letter, column in zip(other, fields)):
                raise UserError(f"{self.model.path}: a coefficient's fields fit the orders "
                                f"{' and '.join(fitting)}, which are different models: choose by "
                                "--order")
        if not given and fitting[0] != orders[0]:
            self.model.change("", f"fields of coefficients have the order {fitting[0]}, the only "
                                  "one that fits")
        destination = columns["d"] if with_d else np.zeros(len(fields[0]), np.int8)
        return [columns["b"] - np.int32(first), destination, columns["r"]]

    def _reject_out_of_range(self, fields: list[np.ndarray], order: str, starts: dict[str, int],
                             limits: dict[str, int]) -> None:
        names = {"b": "block", "d": "destination", "r": "resource"}
        for letter, column in zip(order, fields):
            is_wrong = (column < starts[letter]) | (column >= starts[letter] + limits[letter])
            if is_wrong.any():
                row = int(is_wrong.argmax())
                place = "" if self.model.is_own else f"in the order {order} of fields "
                reject_row(self.model.rows(COEFFICIENTS), row,
                           f"{place}the {names[letter]} is {column[row]}, but there are "
                           f"{limits[letter]}")


class _Count:
    """The lines of coefficients, which are counted and not read."""

    def __init__(self) -> None:
        self.lines = 0

    def take(self, chunk: Chunk) -> None:
        """Counts lines: those that may be blank individually."""
        is_plain = not any(blank in b"\n" + chunk.text for blank in (b"\n\n", b" \n", b"\t\n"))
        self.lines += chunk.text.count(b"\n") if is_plain else len(line_lengths(chunk.text))


def _limit_of(chunk: Chunk, row: int, line: str, model: Model,
              ends: tuple[int, int]) -> Optional[Limit]:
    """Returns the limit of a line, None if it sets none."""
    fields = line.split(maxsplit=5)
    resource, period = (integer_of(cell) for cell in [*fields[:2], "", ""][:2])
    word = "".join(fields[2:3])
    letter = LETTERS.get(word.upper() if not model.is_own or word in LETTERS.values() else "")
    numbers = [number for cell in fields[3:] if (number := _end_of(cell)) is not None]
    if resource is None or period is None or letter is None \
            or not (5 if letter == "I" else 4) <= 3 + len(numbers) == len(fields) <= 5:
        chunk.reject(row, "it is not a limit `r t L v`, `r t G v` or `r t I v w`")
    if not (resource < ends[0] and period < ends[1]):
        chunk.reject(row, f"there are {ends[0]} resources and {ends[1]} periods, from 0")
    if letter != "I" and len(numbers) == 2:
        _change(model, chunk, row, "it has a second number", "the second number was omitted")
        numbers = numbers[:1]
    least = numbers[0] if letter in "GI" else -np.inf
    most = numbers[-1] if letter in "LI" else np.inf
    if least > most or least == np.inf or most == -np.inf:
        chunk.reject(row, "no amount satisfies this limit")
    if least == -np.inf and most == np.inf:
        _change(model, chunk, row, "it sets no limit", "it sets no limit, and was omitted")
        return None
    kept = "L" if least == -np.inf else "G" if most == np.inf else "I"
    if kept != letter:
        _change(model, chunk, row, "one end is infinite", f"one end is infinite: it is now {kept}")
    return Limit(resource, period, kept, least, most)


def _end_of(cell: str) -> Optional[float]:
    """Returns a number of a limit, which may be infinite; None for any other text."""
    if re.fullmatch("[+-]?inf(inity)?", cell.lower()):
        return float(cell)
    return number_of(cell)


def _change(model: Model, chunk: Chunk, row: int, fault: str, done: str) -> None:
    if model.is_own:
        chunk.reject(row, f"it is not a limit of a file of pitc: {fault}")
    model.change("", f"line {chunk.line_of(row)[0]}: {done}")


class _Limits:
    """The limits as their lines come."""

    def __init__(self, model: Model):
        self.model = model
        self.chunks: list[Chunk] = []

    def take(self, chunk: Chunk) -> None:
        """Keeps lines until resources and periods are known."""
        self.chunks.append(chunk)

    def limits(self, resources: int, periods: int) -> list[Limit]:
        """The limits, rising by (resource, period)."""
        found: dict[tuple[int, int], Limit] = {}
        for chunk in self.chunks:
            for row, (_, line) in enumerate(chunk.lines()):
                limit = _limit_of(chunk, row, line, self.model, (resources, periods))
                if limit is None:
                    continue
                if (limit.resource, limit.period) in found:
                    chunk.reject(row, f"resource {limit.resource} has two limits in period "
                                      f"{limit.period}")
                found[limit.resource, limit.period] = self._rounded(limit, chunk, row)
        return [found[key] for key in sorted(found)]

    def _rounded(self, limit: Limit, chunk: Chunk, row: int) -> Limit:
        try:
            ends, is_finer = nearest(np.array(limit.ends), 6)
        except NotHeld:
            chunk.reject(row, "an end is too large")
        if is_finer.any():
            _change(self.model, chunk, row, "more than 6 decimals", "rounded to 6 decimals")
        return Limit.of(limit.resource, limit.period, limit.letter, ends.tolist())


_Uses = Union[_Coefficients, _Count]


def _read(model: Model, first: int, without_general: bool,
          uses: _Uses) -> tuple[np.ndarray, _Limits]:
    """Reads the header and the sections of a model file; returns its values and limits."""
    values, limits = _Values(model, first), _Limits(model)
    takers: dict[str, Union[_Values, _Uses, _Limits]] = {OBJECTIVE: values, COEFFICIENTS: uses,
                                                         LIMITS: limits}
    for section, chunk in model.parts():
        if section in takers:
            if model.kind == "UPIT" and section != OBJECTIVE:
                chunk.reject(0, f"a UPIT has no {section}")
            takers[section].take(chunk)
        else:
            model.general += len(line_lengths(chunk.text))
    _look_at_general(model, without_general)
    if "TYPE" not in model.header:
        model.change("TYPE is missing", f"TYPE is missing; it was read as a {model.kind}")
    by_block = values.by_block()
    if "NBLOCKS" not in model.header:
        model.change("NBLOCKS is missing",
                     f"NBLOCKS is missing; the objective has {len(by_block)} blocks")
    elif model.count("NBLOCKS", 0, MOST_BLOCKS) != len(by_block):
        raise UserError(f"{model.path}: NBLOCKS is {quoted(model.header['NBLOCKS'])}, but the "
                        f"objective has {len(by_block)} lines")
    if model.is_own and model.missing_section() != "none":
        raise UserError(f"{model.path}: it has no section {model.missing_section()}: was it cut "
                        "short?")
    return by_block, limits


def _look_at_general(model: Model, without_general: bool) -> None:
    count = model.count("NGENERAL_SIDE_CONSTRAINTS", 0, 2**31, 0)
    if not count and not model.general:
        return
    if not without_general:
        raise UserError(
            f"{model.path}: it has {count} general side constraints, but an instance of pitc has "
            "none: --without-general omits them, and makes it another problem")
    model.change("", f"{count} general side constraints and their {model.general} lines were "
                     "omitted")


def _head_of(model: Model, destinations: int) -> tuple[int, int, float]:
    """Returns the periods, the resources, and the rate. Raises UserError if one is invalid, or
    blocks have another number of values than there are destinations."""
    if destinations > MOST_DESTINATIONS:
        raise UserError(f"{model.path}: {destinations} destinations, but an instance has at most "
                        f"{MOST_DESTINATIONS}")
    given = model.count("NDESTINATIONS", 1, MOST_DESTINATIONS,
                        None if model.is_own and model.kind == "PCPSP" else destinations)
    if model.kind == "PCPSP" and given != destinations:
        raise UserError(f"{model.path}: NDESTINATIONS is {given}, but blocks have {destinations} "
                        "values")
    periods = model.count("NPERIODS", 1, MOST_PERIODS)
    resources = model.count("NRESOURCE_SIDE_CONSTRAINTS", 0, MOST_RESOURCES)
    for section in (COEFFICIENTS, LIMITS):
        if resources and section not in model.sections:
            raise UserError(f"{model.path}: section {section} is missing, but there are "
                            f"{resources} resources")
    rate = model.number("DISCOUNT_RATE", 0, 1)
    if round(rate, 6) != rate:
        model.change("DISCOUNT_RATE has more than 6 decimals",
                     "DISCOUNT_RATE rounded to 6 decimals")
    return periods, resources, round(rate, 6)


@dataclass(frozen=True)
class Outline:
    """A PCPSP or a CPIT without its uses, of which only the number was read."""

    header: dict[str, str]
    values: np.ndarray  #: (blocks, destinations)
    uses: int
    limits: list[Limit]


def read_outline(path: str, kind: str = "PCPSP") -> Outline:
    """Reads the header, values and limits of a model file of `pitc`; its coefficients are counted
    and not read.

    Raises UserError for any other file.
    """
    model, uses = Model(path, kind, None), _Count()
    values, limits = _read(model, 0, False, uses)
    periods, resources, _ = _head_of(model, values.shape[1])
    model.name()
    return Outline(model.header, values, uses.lines, limits.limits(resources, periods))


def read_upit(path: str, first: int = 0, without_general: bool = False,
              changes: Optional[Changes] = None) -> UltimatePit:
    """Reads a UPIT file, of blocks from `first` on: its values (n,), in units of 100 cents.

    Raises UserError for any other file."""
    model = Model(path, "UPIT", changes)
    values, _ = _read(model, first, without_general, _Count())
    return UltimatePit(model.name(), values[:, 0])


def read_model(path: str, kind: str, first: int = 0, order: Optional[str] = None,
               without_general: bool = False, changes: Optional[Changes] = None) -> Problem:
    """Reads a CPIT or a PCPSP file, of blocks from `first` on. `order` is the order of a
    coefficient's fields, one of ORDERS, or None for the one that fits.

    Raises UserError if parts are missing, out of range, or there are general side constraints.
    """
    model = Model(path, kind, changes)
    uses = _Coefficients(model)
    values, limits = _read(model, first, without_general, uses)
    blocks, destinations = values.shape
    periods, resources, rate = _head_of(model, destinations)
    used = uses.uses(first, (blocks, destinations, resources), ORDERS[0] if model.is_own else order)
    return Problem(kind, model.name(), periods, resources, rate, values, used,
                   limits.limits(resources, periods))
