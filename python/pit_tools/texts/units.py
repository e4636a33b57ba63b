"""Names of units after a column or a number, as `AU oz/st` or `1804 USD/oz`, and their factors to
the units of `pitc`.

`pitc` uses metres, tonnes and grams per tonne. A name with two meanings is in AMBIGUOUS, and is
rejected."""
from __future__ import annotations

import re
from dataclasses import dataclass
from decimal import Decimal
from typing import TYPE_CHECKING, Optional, TypeVar

from pit_tools.errors import UserError

if TYPE_CHECKING:
    import numpy as np

#: One number, or an array of them.
Numbers = TypeVar("Numbers", float, "np.ndarray")

POUND = Decimal("0.45359237")          # kilograms
SHORT_TON = POUND * 2000 / 1000        # tonnes
LONG_TON = POUND * 2240 / 1000         # tonnes
TROY_OUNCE = Decimal("31.1034768")     # grams
FOOT = Decimal("0.3048")               # metres
CUBIC_FOOT = FOOT ** 3                 # cubic metres

LENGTHS = {"m": Decimal(1), "ft": FOOT, "cm": Decimal("0.01"), "mm": Decimal("0.001"),
           "km": Decimal(1000)}

MASSES = {"t": Decimal(1), "kt": Decimal(1000), "kg": Decimal("0.001"),
          "st": SHORT_TON, "kst": SHORT_TON * 1000, "lt": LONG_TON, "lb": POUND / 1000}

VOLUMES = {"m3": Decimal(1), "ft3": CUBIC_FOOT, "bcm": Decimal(1), "bcy": CUBIC_FOOT * 27,
           "yd3": CUBIC_FOOT * 27}

# Tonnes a cubic metre. A tonnage factor in cubic feet a short ton is divided: see is_factor.
DENSITIES = {"t/m3": Decimal(1), "g/cm3": Decimal(1), "g/cc": Decimal(1), "kg/m3": Decimal("0.001"),
             "lb/ft3": POUND / 1000 / CUBIC_FOOT, "st/ft3": SHORT_TON / CUBIC_FOOT,
             "st/yd3": SHORT_TON / (CUBIC_FOOT * 27), "ft3/st": SHORT_TON / CUBIC_FOOT,
             "m3/t": Decimal(1)}

# Grams a tonne.
GRADES = {"g/t": Decimal(1), "gpt": Decimal(1), "ppm": Decimal(1), "g/tonne": Decimal(1),
          "ppb": Decimal("0.001"), "mg/t": Decimal("0.001"), "kg/t": Decimal(1000),
          "%": Decimal(10_000), "pct": Decimal(10_000), "oz/st": TROY_OUNCE / SHORT_TON,
          "oz/tonne": TROY_OUNCE, "lb/tonne": POUND * 1000, "lb/st": POUND * 1000 / SHORT_TON}

# Shares.
SHARES = {"%": Decimal("0.01"), "pct": Decimal("0.01"), "share": Decimal(1)}

# The value of a tonne, if the grade is a net smelter return.
MONEY = ("usd", "aud", "cad", "eur", "gbp", "zar", "clp", "pen", "brl", "cny", "$", "€")

AMBIGUOUS = {
    "oz/t": "an ounce per tonne is `oz/tonne`, an ounce per short ton `oz/st`",
    "opt": "an ounce per tonne is `oz/tonne`, an ounce per short ton `oz/st`",
    "oz/ton": "an ounce per tonne is `oz/tonne`, an ounce per short ton `oz/st`",
    "mt": "a tonne is `t`, a million of them 1000 `kt`",
    "ton": "a tonne is `t`, a short ton `st`, a long ton `lt`",
    "tons": "a tonne is `t`, a short ton `st`, a long ton `lt`",
    "lb/t": "a pound per short ton is `lb/st`, a pound per tonne `lb/tonne`",
    "lb/ton": "a pound per short ton is `lb/st`, a pound per tonne `lb/tonne`",
}

TABLES = {"length": LENGTHS, "mass": MASSES, "volume": VOLUMES, "density": DENSITIES,
          "grade": GRADES, "share": SHARES}


@dataclass(frozen=True)
class Measures:
    """The units in which a planner reads reports of a plan and its instance: the currency, empty if
    it is unknown; the parts of a cent in which the plan counts money; and the unit of grades,
    `g/t`, `%`, or money per tonne."""

    currency: str = ""
    parts: int = 1
    grade_unit: str = "g/t"

    def __post_init__(self) -> None:
        if (not isinstance(self.parts, int) or self.parts < 1 or not isinstance(self.currency, str)
                or not isinstance(self.grade_unit, str)):
            raise UserError(f"no measures: {self.currency}, {self.parts}, {self.grade_unit}")

    def money(self, value: Numbers) -> Numbers:
        """Returns money of the plan or its instance, in units of 100 of the plan's money, as units
        of the currency."""
        return value / self.parts

    def grade(self, value: Numbers) -> Numbers:
        """A grade in g/t, or numbers of them, in the unit of grades."""
        return value / float(GRADES["%"]) if self.grade_unit == "%" else value

    def cost_text(self, cents: float) -> str:
        """A price or a cost of the plan, as money."""
        return f"{self.money(cents / 100):,.2f}{self.unit}"

    def in_money(self, what: str) -> str:
        """A heading of money, as `value, USD`."""
        return f"{what}, {self.currency}" if self.currency else what

    @property
    def money_unit(self) -> str:
        """Returns the unit of values, for the head of a column."""
        return self.currency or "100 cents"

    @property
    def unit(self) -> str:
        """Returns the currency to follow a number, with a blank before it."""
        return f" {self.currency}" if self.currency else ""


def grade_unit_of(name: str) -> str:
    """Returns the unit in which grades are reported that were read in a unit: percent and money per
    tonne stay, all others become g/t."""
    if is_money_a_tonne(name):
        return name.strip()
    return "%" if plain_name(name) in ("%", "pct") else "g/t"


def plain_name(name: str) -> str:
    """Returns a unit's name without case, brackets and the characters for a power."""
    name = (name.strip().strip("()[]").casefold().replace("³", "3").replace("^", "")
            .replace("tonnes", "t"))
    return {"feet": "ft", "foot": "ft", "'": "ft", "metres": "m", "meters": "m", "percent": "%",
            "tonne": "t", "g/tonne": "g/t", "dollars": "usd"}.get(name, name)


def is_factor(name: str) -> bool:
    """Returns whether it is a volume per mass, by which a volume is divided: a tonnage factor."""
    return plain_name(name) in ("ft3/st", "m3/t")


def factor_of(name: str, kind: str) -> Optional[Decimal]:
    """Returns the factor of a unit of this kind (a key of TABLES) to the unit of `pitc`, or None
    for an unknown name.

    It raises UserError for a name with two meanings."""
    name = plain_name(name)
    if name in AMBIGUOUS and kind in ("grade", "mass"):
        raise UserError(f"`{name}` has two meanings: {AMBIGUOUS[name]}")
    return TABLES[kind].get(name)


def is_money_a_tonne(name: str) -> bool:
    """Returns whether it is money per tonne, as `USD/t`: then a grade is a net smelter return."""
    money, _, mass = plain_name(name).partition("/")
    return money in MONEY and mass == "t"


# Names of grades that are read in two ways, with the units that they may be.
AMBIGUOUS_GRADES = {**dict.fromkeys(("oz/t", "opt", "ozt", "oz/ton"), ["oz/st", "oz/tonne"]),
                    **dict.fromkeys(("lb/t", "lb/ton"), ["lb/st", "lb/tonne"])}

# How units of grades are written at the end of a column's name.
GRADE_ENDINGS = {"%": "%", "pct": "%", "perc": "%", "percent": "%", "pc": "%", "ppm": "ppm",
                 "ppb": "ppb", "gpt": "g/t", "gt": "g/t", "kgt": "kg/t", "opt": "opt", "ozt": "ozt",
                 "ozst": "oz/st"}

# Endings that are parts of other words: they are units only after an element.
AFTER_ELEMENTS = ("pc", "gt", "kgt", "opt", "ozt", "ozst")

ELEMENT = ("ag|al|as|au|b|ba|bi|c|ca|cd|ce|co|cr|cs|cu|f|fe|ga|ge|hg|in|k|la|li|mg|mn|mo|na|nb|nd|"
           "ni|p|pb|pd|pr|pt|rb|re|rh|s|sb|sc|se|si|sn|sr|ta|te|th|ti|tl|u|v|w|y|zn|zr|"
           "[a-z]{1,2}2?o[2358]?|gold|silver|copper|zinc|lead|nickel|iron")

# The unit of such a mass divided by tonnes.
METALS_A_TONNE = {"oz": "oz/tonne", "lb": "lb/tonne", "kg": "kg/t"}

# Masses of metal that a column of no grade has.
METALS = {"oz": "oz", "ozs": "oz", "ounces": "oz", "lb": "lb", "lbs": "lb", "pounds": "lb",
          "kg": "kg", "kgs": "kg"}


def grade_unit_in(text: str) -> str:
    """Returns the unit of a grade that a header's cell names at its end, as `AU_PPB`, `Fe%`, `CUPC`
    or `Cu (%)`, a key of GRADES or AMBIGUOUS_GRADES; otherwise an empty text."""
    unit = named_in(text, "grade")
    if unit:
        return unit
    words = re.split(r"[\s_()\[\].-]+", text.strip().casefold().rstrip(")]"))
    last = words[-1]
    if len(words) > 1 and last in GRADE_ENDINGS:
        return GRADE_ENDINGS[last]
    for ending in sorted(GRADE_ENDINGS, key=len, reverse=True):
        prefix = last[:-len(ending)]
        if prefix and last.endswith(ending) and (ending not in AFTER_ELEMENTS
                                                 or re.fullmatch(ELEMENT, prefix)):
            return GRADE_ENDINGS[ending]
    return ""


def metal_in(text: str) -> str:
    """The mass of metal that a header's cell names, as `AU_OZ`, or an empty text."""
    words = re.split(r"[\s_()\[\].-]+", text.strip().casefold().rstrip(")]"))
    found = METALS.get(words[-1], "")
    if len(words) > 1 and found:
        return found
    attached = re.fullmatch(rf"({ELEMENT})(ozs?|lbs?)", words[-1])
    return METALS[attached[2]] if attached else ""


def named_in(text: str, kind: str) -> Optional[str]:
    """Returns the unit that a header's cell, as `AU_PPB` or `Cu (%)`, names at its end, or None."""
    words = (text.replace("_", " ").replace("(", " ").replace(")", " ").replace("[", " ")
             .replace("]", " ").split())
    last = plain_name(words[-1]) if words else ""
    last = "ft" if last in ("ft", "feet") else last
    if last in TABLES[kind] or (last in AMBIGUOUS and kind in ("grade", "mass")):
        return last
    return None
