"""Reads and writes a plan of `pitc` (docs/formats.md): decimals exact, in the units of the plan.

`read_plan` rejects what `pitc` rejects, with the same record and kind."""
from __future__ import annotations

import csv
import io
from dataclasses import dataclass, field
from decimal import Decimal
from typing import Optional, Sequence, Tuple

from pit_tools.errors import UserError, quoted
from pit_tools.files import inputs
from pit_tools.texts.decimals import MOST_DIGITS, plain
from pit_tools.texts.formats import (MOST_DESTINATIONS, MOST_PERIODS, MOST_PLAN_BYTES,
                                     MOST_RESOURCES, MOST_ZONE, NAME, WHAT_A_NAME_IS)

# A cell of a plan may be as long as the plan.
csv.field_size_limit(max(csv.field_size_limit(), MOST_PLAN_BYTES))

KEYS = ("name", "grid", "zone", "mill", "leach", "dump", "periods", "rate", "resource", "limit")

# The sides of a zone's slopes, in their order in a `zone` record.
SIDES = ("+x", "-x", "+y", "-y")


@dataclass(frozen=True)
class Grid:
    """The centroid of block (0, 0, 0) and the size of a block along x, y and z, in metres."""

    origin: tuple[Decimal, Decimal, Decimal]
    size: tuple[Decimal, Decimal, Decimal]

    @classmethod
    def of(cls, numbers: Sequence[Decimal]) -> Grid:
        """The grid of six numbers, its centroid and its size. It raises ValueError for fewer or
        more."""
        x, y, z, wide, deep, high = numbers
        return cls((x, y, z), (wide, deep, high))

    @property
    def volume(self) -> Decimal:
        """Cubic metres of a block."""
        return self.size[0] * self.size[1] * self.size[2]


@dataclass(frozen=True)
class Slope:
    """Rise over run, integers."""

    rise: int
    run: int

    @property
    def tangent(self) -> float:
        return self.rise / self.run

    def __str__(self) -> str:
        return f"{self.rise}:{self.run}"


#: The slopes of +x, -x, +y and -y.
FourSlopes = Tuple[Slope, Slope, Slope, Slope]


@dataclass(frozen=True)
class Zone:
    """The slopes of +x, -x, +y and -y, and K, the benches that a cone goes up."""

    slopes: FourSlopes
    benches: int

    def __str__(self) -> str:
        """Returns the slopes as they are reported: one if all sides have the same."""
        if len(set(self.slopes)) == 1:
            return str(self.slopes[0])
        return ", ".join(f"{side} {slope}" for side, slope in zip(SIDES, self.slopes))


@dataclass(frozen=True)
class Destination:
    """The destination of rock. `kind` is mill, leach or dump; price is cents per kilogram of metal
    (0 for a dump), cost cents per tonne of rock; bands are pairs of the grade, in g/t, at which one
    begins, and the recovery from there on, per mille. A mill has one band from 0; a dump has
    none."""

    kind: str
    name: str
    price: int
    cost: int
    bands: tuple[tuple[Decimal, int], ...] = ()

    def recovery(self, grade: Decimal) -> int:
        """Per mille of the metal that are recovered at a grade in g/t."""
        return next((share for start, share in reversed(self.bands) if start <= grade), 0)

    @property
    def break_even(self) -> Optional[float]:
        """Returns the smallest grade, in g/t, at which a tonne is worth 0 or more here; None if
        there is none."""
        ends = [start for start, _ in self.bands[1:]] + [Decimal("Infinity")]
        for (start, share), end in zip(self.bands, ends):
            if share and self.price:
                least = max(1e6 * self.cost / (share * self.price), float(start))
                if least < float(end):
                    return least
        return None


@dataclass(frozen=True)
class Resource:
    """A resource, and the numbers of the destinations that it covers."""

    name: str
    covers: tuple[int, ...]


@dataclass(frozen=True)
class Limit:
    """A limit of tonnes in a period: letter L, G or I; `lower` or `upper` is None if there is
    none."""

    resource: int
    period: int
    letter: str
    lower: Optional[Decimal]
    upper: Optional[Decimal]


@dataclass(frozen=True)
class Plan:
    """A plan; destinations, zones, resources and periods are counted from 0."""

    name: str
    grid: Grid
    zones: tuple[Zone, ...]
    destinations: tuple[Destination, ...]
    periods: int
    rate: Decimal
    resources: tuple[Resource, ...] = field(default=())
    limits: tuple[Limit, ...] = field(default=())

    def limits_of(self, resource: int, period: int) -> Optional[Limit]:
        """Returns the limit of a resource in a period, or None."""
        wanted = (resource, period)
        return next((limit for limit in self.limits if (limit.resource, limit.period) == wanted),
                    None)

    def records(self) -> list[list[str]]:
        """The records of the plan, in the order in which docs/formats.md lists them."""
        records = [["name", self.name], ["grid", *map(plain, (*self.grid.origin, *self.grid.size))]]
        records += [zone_record(zone) for zone in self.zones]
        records += [destination_record(one) for one in self.destinations]
        records += [["periods", str(self.periods)], ["rate", plain(self.rate)]]
        for resource in self.resources:
            names = [self.destinations[at].name for at in resource.covers]
            records.append(["resource", resource.name, *names])
        for limit in self.limits:
            ends = {"L": [limit.upper], "G": [limit.lower], "I": [limit.lower, limit.upper]}
            cells = [plain(end) for end in ends[limit.letter] if end is not None]
            name = self.resources[limit.resource].name
            records.append(["limit", name, str(limit.period), limit.letter, *cells])
        return records

    def text(self) -> str:
        """The plan as a file has it."""
        return "".join(",".join(record) + "\n" for record in self.records())


def zone_record(zone: Zone) -> list[str]:
    """The cells of a `zone` record."""
    slopes = zone.slopes[:1] if len(set(zone.slopes)) == 1 else zone.slopes
    cells = [str(part) for slope in slopes for part in (slope.rise, slope.run)]
    return ["zone", *cells, str(zone.benches)]


def destination_record(one: Destination) -> list[str]:
    """The cells of a `mill`, `leach` or `dump` record."""
    if one.kind == "mill":
        return ["mill", one.name, str(one.bands[0][1]), str(one.price), str(one.cost)]
    if one.kind == "leach":
        pairs = [cell for start, share in one.bands for cell in (plain(start), str(share))]
        return ["leach", one.name, str(one.price), str(one.cost), *pairs]
    return ["dump", one.name, str(one.cost)]


class PlanError(UserError):
    """A plan that `pitc` also rejects: `kind` is pitc's name for the error, and `row` the number of
    the record, counted from 1."""

    def __init__(self, source: str, row: int, kind: str, message: str) -> None:
        super().__init__(f"{source}: record {row}: {message} ({kind})")
        self.row, self.kind = row, kind


@dataclass(frozen=True)
class _Range:
    """The range of a cell of numbers: its decimals, and its ends."""

    what: str
    decimals: int
    least: Decimal
    most: Decimal

    @classmethod
    def of(cls, what: str, decimals: int, least: str, most: str) -> _Range:
        return cls(what, decimals, Decimal(least), Decimal(most))

    @property
    def message(self) -> str:
        return f"{self.what} must be from {self.least:,} to {self.most:,}"


_ORIGIN = _Range.of("an origin", 3, "-1000000000", "1000000000")
_SIZE = _Range.of("a size of the grid", 3, "0.001", "100")
_SLOPE, _BENCHES = _Range.of("a rise or a run", 0, "1", "1000"), _Range.of("K", 0, "1", "20")
_RECOVERY = _Range.of("a recovery in per mille", 0, "0", "1000")
_PRICE, _COST = _Range.of("a price", 0, "0", "1E8"), _Range.of("a cost", 0, "0", "1E7")
_START = _Range.of("the start of a band", 6, "0", "1000000")
_PERIODS = _Range.of("the number of periods", 0, "1", str(MOST_PERIODS))
_RATE = _Range.of("a rate for one period", 6, "0", "1")
_TONNES = _Range.of("a limit in tonnes", 6, "0", "1E12")

# How many records a plan has, and how many of a key or of a band.
_MOST_RECORDS, _MOST_ZONES, _MOST_BANDS = 10_000, MOST_ZONE + 1, 16


class _Reader:
    """Reads the records of a plan one after the other, and rejects what `pitc` rejects, in its
    order: the key, the number of cells, the cells from left to right, repetitions, falls, and more
    than the allowed number."""

    def __init__(self, source: str) -> None:
        self.source, self.row, self.key = source, 0, ""
        self.cells: list[str] = []
        self.once: dict[str, list] = {}
        self.zones: list[Zone] = []
        self.destinations: list[Destination] = []
        self.resources: list[Resource] = []
        self.limits: dict[tuple[int, int], Limit] = {}

    def fault(self, kind: str, message: str) -> PlanError:
        return PlanError(self.source, self.row, kind, message)

    def judge(self, holds: bool, kind: str, message: str) -> None:
        """Rejects the record unless a condition holds."""
        if not holds:
            raise self.fault(kind, message)

    def number(self, at: int, within: _Range) -> Decimal:
        """Returns the decimal of the cell `at`, the key being cell 0: digits with a point, or
        none."""
        text = self.cells[at]
        shown, bare = quoted(text), text[1:] if text[:1] in ("+", "-") else text
        integer, _, rest = bare.partition(".")
        self.judge((integer + rest).isdecimal() and text.isascii(), "Number",
                   f"{shown} is not a number, as 12 or -0.5")
        integer, rest = integer.lstrip("0"), rest.rstrip("0")
        self.judge(len(rest) <= within.decimals, "TooFine",
                   f"{shown} has more decimals: {within.what} has at most {within.decimals}"
                   if within.decimals else f"{shown} is not an integer")
        self.judge(len(integer) <= MOST_DIGITS, "Range", f"{shown}: {within.message}")
        value = Decimal(f"{'-' if text[:1] == '-' else ''}{integer or '0'}.{rest or '0'}")
        self.judge(within.least <= value <= within.most, "Range", f"{shown}: {within.message}")
        return value

    def integer(self, at: int, within: _Range) -> int:
        return int(self.number(at, within))

    def name(self) -> str:
        """The name in cell 1."""
        self.judge(NAME.fullmatch(self.cells[1]) is not None, "Name",
                   f"{quoted(self.cells[1])} is not a name: it must have {WHAT_A_NAME_IS}")
        return self.cells[1]

    def take(self, record: list[str]) -> None:
        """Reads a record; the empty ones of spreadsheets are counted and skipped."""
        self.row += 1
        self.judge(self.row <= _MOST_RECORDS, "TooMany",
                   f"a plan has at most {_MOST_RECORDS:,} records")
        self.cells = [cell.strip(" \t") for cell in record]
        while self.cells and not self.cells[-1]:
            self.cells.pop()
        if not self.cells:
            return
        self.key = self.cells[0].lower() if self.cells[0].isascii() else ""
        self.judge(self.key in KEYS, "Key", f"{quoted(self.cells[0])} is not a key of a plan")
        getattr(self, "take_" + self.key)()

    def width(self, *counts: int) -> None:
        """Rejects the record unless it has one of these numbers of cells."""
        message = " or ".join(str(count - 1) for count in counts)
        self.judge(len(self.cells) in counts, "Width",
                   f"{len(self.cells) - 1} cells after `{self.key}`, which needs {message}")

    def state(self, *values: object) -> None:
        """Keeps the values of a record that appears once."""
        self.judge(self.key not in self.once, "Twice", f"`{self.key}` appears twice")
        self.once[self.key] = list(values)

    def take_name(self) -> None:
        self.width(2)
        self.state(self.name())

    def take_grid(self) -> None:
        self.width(7)
        self.state(*(self.number(at, _ORIGIN if at < 4 else _SIZE) for at in range(1, 7)))

    def take_zone(self) -> None:
        """Reads a record `zone`, of one slope or of four."""
        self.judge(len(self.cells) in (4, 10), "Width",
                   "a zone has p, q, K, or p and q of +x, -x, +y and -y, and K")
        numbers = [self.integer(at, _SLOPE) for at in range(1, len(self.cells) - 1)]
        benches = self.integer(len(self.cells) - 1, _BENCHES)
        pairs = [Slope(*numbers[at:at + 2]) for at in range(0, len(numbers), 2)]
        four = pairs * 4 if len(pairs) == 1 else pairs
        self.judge(len(self.zones) < _MOST_ZONES, "TooMany",
                   f"a plan has at most {_MOST_ZONES} zones")
        self.zones.append(Zone((four[0], four[1], four[2], four[3]), benches))

    def keep(self, one: Destination) -> None:
        """Keeps a destination whose name no other one has."""
        self.judge(one.name not in (other.name for other in self.destinations), "Twice",
                   f"the destination `{one.name}` appears twice")
        starts = [start for start, _ in one.bands]
        self.judge(all(low < high for low, high in zip(starts, starts[1:])), "Order",
                   "the starts of bands do not rise")
        self.judge(len(self.destinations) < MOST_DESTINATIONS, "TooMany",
                   f"a plan has at most {MOST_DESTINATIONS} destinations")
        self.judge(len(starts) <= _MOST_BANDS, "TooMany",
                   f"a leach has at most {_MOST_BANDS} bands")
        self.destinations.append(one)

    def take_mill(self) -> None:
        self.width(5)
        name, bands = self.name(), ((Decimal(0), self.integer(2, _RECOVERY)),)
        self.keep(Destination("mill", name, self.integer(3, _PRICE), self.integer(4, _COST), bands))

    def take_leach(self) -> None:
        self.judge(len(self.cells) >= 6 and len(self.cells) % 2 == 0, "Width",
                   "a leach has a name, a price, a cost, and pairs of a start and a recovery")
        name, price, cost = self.name(), self.integer(2, _PRICE), self.integer(3, _COST)
        bands = tuple((self.number(at, _START), self.integer(at + 1, _RECOVERY))
                      for at in range(4, len(self.cells), 2))
        self.keep(Destination("leach", name, price, cost, bands))

    def take_dump(self) -> None:
        self.width(3)
        self.keep(Destination("dump", self.name(), 0, self.integer(2, _COST)))

    def take_periods(self) -> None:
        self.width(2)
        self.state(self.integer(1, _PERIODS))

    def take_rate(self) -> None:
        self.width(2)
        self.state(self.number(1, _RATE))

    def place_of(self, name: str, among: Sequence) -> int:
        """The place of an earlier destination or resource, by its name."""
        found = [at for at, one in enumerate(among) if one.name == name]
        self.judge(bool(found), "Name", f"`{name[:64]}` is in no earlier record")
        return found[0]

    def take_resource(self) -> None:
        """Reads a record `resource`."""
        self.judge(len(self.cells) >= 3, "Width",
                   "a resource has a name, and the destinations that it covers")
        name = self.name()
        covers = tuple(self.place_of(cell, self.destinations) for cell in self.cells[2:])
        self.judge(name not in (other.name for other in self.resources), "Twice",
                   f"the resource `{name}` appears twice")
        self.judge(len(set(covers)) == len(covers), "Twice", "a destination is covered twice")
        self.judge(len(self.resources) < MOST_RESOURCES, "TooMany",
                   f"a plan has at most {MOST_RESOURCES} resources")
        self.resources.append(Resource(name, covers))

    def take_limit(self) -> None:
        """Reads a record `limit`."""
        self.width(6 if self.cells[3:4] == ["I"] else 5)
        resource = self.place_of(self.cells[1], self.resources)
        last = self.once.get("periods", [0])[0] - 1
        period = self.integer(2, _Range.of("a period, after the record `periods`,", 0, "0",
                                           str(last)))
        letter = self.cells[3]
        self.judge(letter in ("L", "G", "I"), "Name", f"`{letter[:60]}` is not L, G or I")
        ends = [self.number(at, _TONNES) for at in range(4, len(self.cells))]
        self.judge((resource, period) not in self.limits, "Twice",
                   f"`{self.cells[1]}` already has a limit in period {period}")
        self.judge(ends[0] <= ends[-1], "Order", "the ends of the limit fall")
        self.limits[resource, period] = Limit(resource, period, letter,
                                              None if letter == "L" else ends[0],
                                              None if letter == "G" else ends[-1])

    def plan(self) -> Plan:
        """The plan, once all records were taken."""
        absent = [key for key in ("name", "grid", "periods", "rate") if key not in self.once]
        absent += [] if self.zones else ["zone"]
        absent += [] if self.destinations else ["mill, leach or dump"]
        self.row += 1
        self.judge(not absent, "Missing", f"the plan ends without a record {', '.join(absent)}")
        return Plan(
            self.once["name"][0], Grid.of(self.once["grid"]), tuple(self.zones),
            tuple(self.destinations), self.once["periods"][0], self.once["rate"][0],
            tuple(self.resources), tuple(self.limits.values()))


def read_text(path: str) -> str:
    """The text of a plan. Raises UserError if it is longer than any plan, OSError for a file
    that cannot be read."""
    content = inputs.content_of(path, MOST_PLAN_BYTES, ", so it is not a plan")
    return content.decode("utf-8", "replace").removeprefix("\ufeff")


def _taken(text: str, source: str) -> _Reader:
    """The records of a text, taken one after the other."""
    reader = _Reader(source)
    try:
        # Older Pythons read no zero byte, which no cell of a plan may have.
        for record in csv.reader(io.StringIO(text.replace("\0", "\ufffd"), newline="")):
            if record:
                reader.take(record)
    except csv.Error as error:
        raise UserError(f"{source}: after record {reader.row}: {error}") from None
    return reader


def plan_of(text: str, source: str = "plan") -> Plan:
    """The plan that a text states. It raises PlanError, which names the record."""
    return _taken(text, source).plan()


def read_plan(path: str) -> Plan:
    """Reads the plan of a file; lengths in metres, money in cents, tonnes and g/t, all exact.

    It raises PlanError for a plan that `pitc` rejects, UserError for one of too many bytes, OSError
    for a file that cannot be read."""
    return plan_of(read_text(path), path)


def grid_and_zones(path: str) -> tuple[Grid, tuple[Zone, ...]]:
    """Returns the `grid` and the `zone` records of a text that may have no others, such as the
    output of `import`. Raises UserError if there is no grid or no zone."""
    reader = _taken(read_text(path), path)
    if "grid" not in reader.once or not reader.zones:
        raise UserError(f"{path}: the plan has no `grid` or no `zone`")
    return Grid.of(reader.once["grid"]), tuple(reader.zones)
