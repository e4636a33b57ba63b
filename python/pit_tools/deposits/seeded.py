"""Deposits by seed, size and shape: a plan and the zone files oxide, west and east.

The same name, seed, size and shape make the same files byte for byte, on every machine: integers
alone are used. The ground falls to the south, so upper benches have holes.
"""
from __future__ import annotations

import os
from dataclasses import dataclass
from math import prod
from typing import Iterator, Optional

from pit_tools.errors import UserError
from pit_tools.files import outputs
from pit_tools.texts.formats import MOST_BLOCKS, MOST_HEIGHT, NAME, WHAT_A_NAME_IS

SHAPES = ("lens", "pipe", "vein")

#: The zones in the order of the plan's records.
ZONES = ("oxide", "west", "east")

#: The numbers of blocks of the deposit along x, y and z if no size is given. Positions in a deposit
#: of another size are scaled from this one.
SIZE = (24, 18, 12)

MOST_SEED = 1_000_000


class _Chances:
    """A fixed sequence of integers."""

    def __init__(self, seed: Optional[int]):
        self.state, self.factor, self.step, self.cycle = \
            (2013, 1103, 12345, 1048573) if seed is None else (seed, 48271, 0, 2147483647)

    def below(self, end: int) -> int:
        """The next number from 0 to end - 1."""
        self.state = (self.state * self.factor + self.step) % self.cycle
        return self.state % end


def _towards_zero(numerator: int, denominator: int) -> int:
    quotient = abs(numerator) // denominator
    return quotient if numerator >= 0 else -quotient


@dataclass(frozen=True)
class Ore:
    """Where the ore is and how much of it, in thousandths of the blocks of the deposit of SIZE."""

    shape: str
    east: int = 11000
    north: int = 9000
    top: int = 9000
    run: int = 3
    reach: int = 150
    rich: int = 24

    @classmethod
    def drawn(cls, shape: str, chances: _Chances) -> "Ore":
        for _ in range(8):
            chances.below(1)
        return cls(shape, 7000 + chances.below(9000), 6000 + chances.below(6000),
                   6000 + chances.below(5000), 2 + chances.below(5), 60 + chances.below(140),
                   12 + chances.below(24))

    def off(self, x: int, y: int, z: int) -> int:
        """How far a place is from the middle of the ore, squared, in millionths."""
        along, across = x - self.east, y - self.north
        if self.shape == "pipe":
            return 4 * along * along + 4 * across * across
        if self.shape == "vein":
            along += _towards_zero(z - self.top, self.run)
            return 40 * along * along + across * across
        above = z - self.top + 1000 * (x // (1000 * self.run))
        return along * along + 2 * across * across + 6 * above * above

    def grade(self, x: int, y: int, z: int, chances: _Chances) -> int:
        """The grade in millionths of a g/t: high near the middle of the ore, and never below
        zero."""
        left = self.reach * 1_000_000 - self.off(x, y, z)
        if left > 0:
            return left * self.rich // 1000 + chances.below(400_000)
        return chances.below(90_000)


@dataclass(frozen=True)
class Deposit:
    """A deposit. `size` has its numbers of blocks of 20 x 20 x 10 m along x, y and z; a seed, 1 to
    a million, shifts the ore and sets its width and grade; without a seed the deposit is always the
    same.

    Raises UserError if a name, a shape, a seed or a size is invalid."""

    name: str = "deposit"
    seed: Optional[int] = None
    size: tuple[int, int, int] = SIZE
    shape: str = "lens"

    def __post_init__(self) -> None:
        if self.shape not in SHAPES:
            raise UserError(f"unknown shape `{self.shape}`: give {', '.join(SHAPES)}")
        if self.seed is not None and not 1 <= self.seed <= MOST_SEED:
            raise UserError(f"a seed is an integer from 1 to {MOST_SEED}")
        if len(self.size) != 3 or min(self.size) < 1:
            raise UserError("a size is three numbers of blocks, as 24,18,12")
        if max(self.size) > MOST_HEIGHT or prod(self.size) > MOST_BLOCKS:
            raise UserError(f"a size is at most {MOST_HEIGHT:,} blocks along an axis, and "
                            f"{MOST_BLOCKS:,} in all")
        if not NAME.fullmatch(self.name):
            raise UserError(f"invalid name `{self.name[:80]}`: it must have {WHAT_A_NAME_IS}")

    def _share_of(self, tonnes: int) -> int:
        """The most tonnes of a resource, by how many blocks there are."""
        return tonnes * self.size[0] * self.size[1] * self.size[2] // (SIZE[0] * SIZE[1] * SIZE[2])

    def plan(self) -> str:
        """The text of the plan."""
        records = [f"name,{self.name}", "grid,1000,2000,300,20,20,10", "zone,1,1,2",
                   "zone,3,2,1,1,5,4,5,4,3", "zone,3,2,3", "mill,mill,920,5800000,1650",
                   "leach,heap,5800000,620,0.2,300,0.6,480,1.2,560", "dump,dump,180", "periods,4",
                   "rate,0.08", "resource,crusher,mill,heap", "resource,fleet,mill,heap,dump"]
        for period in range(4):
            records.append(f"limit,crusher,{period},L,{self._share_of(2_500_000)}")
            most = self._share_of(6_000_000 + 500_000 * period)
            records.append(f"limit,fleet,{period},I,{self._share_of(1_000_000)},{most}")
        return "".join(record + "\n" for record in records)

    def rows(self) -> Iterator[tuple[int, str]]:
        """The number of a zone, and a line of its file."""
        chances = _Chances(self.seed)
        ore = Ore(self.shape) if self.seed is None else Ore.drawn(self.shape, chances)
        wide, deep, high = self.size
        for z in range(high):
            z12 = SIZE[2] * z // high
            for y in range(deep):
                y12 = SIZE[1] * y // deep
                if z12 > 7 + y12 // 4:  # above the ground
                    continue
                for x in range(wide):
                    x12 = SIZE[0] * x // wide
                    if z12 < 4 and 15 < x12 < 19 and chances.below(3) == 0:  # old workings
                        continue
                    zone = 0 if z12 >= 8 else 1 if x12 < 12 else 2
                    kilograms = (9_600_000 if zone == 0 else 10_800_000) + chances.below(400_000)
                    grade = ore.grade(24000 * x // wide, 18000 * y // deep, 12000 * z // high,
                                      chances)
                    yield zone, (f"{1000 + 20 * x},{2000 + 20 * y},{300 + 10 * z},"
                                 f"{kilograms // 1000}.{kilograms % 1000:03d},"
                                 f"{grade // 1_000_000}.{grade % 1_000_000:06d},"
                                 f"{'sulphide' if zone else 'oxide'}\n")

    def zone_texts(self) -> list[str]:
        """The texts of the zone files, in the plan's order."""
        lines: list[list[str]] = [["x,y,z,tonnes,grade,rock\n"] for _ in ZONES]
        for zone, line in self.rows():
            lines[zone].append(line)
        return ["".join(part) for part in lines]

    def write(self, folder: str = ".") -> list[str]:
        """Writes NAME.plan and the zone files NAME-oxide.csv and so on; returns the names of
        all."""
        names = [f"{self.name}.plan", *(f"{self.name}-{zone}.csv" for zone in ZONES)]
        with outputs.together():
            for name, text in zip(names, [self.plan(), *self.zone_texts()]):
                kind = "plan" if name.endswith(".plan") else "zone file"
                with outputs.opened(os.path.join(folder, name), kind, "ascii") as file:
                    file.write(text)
        return names
