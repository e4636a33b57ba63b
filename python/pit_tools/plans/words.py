"""A plan from words with units, as `recovery 92 %, cost 16.50 USD/t`; each record is explained.

Money has any currency; a cent is its hundredth. If a price is a few cents per kilogram, as of iron
ore, all money is counted in `parts` of a cent."""
from __future__ import annotations

import re
from dataclasses import dataclass, field
from decimal import ROUND_HALF_UP, Decimal
from typing import Callable, Optional, Sequence

from pit_tools.errors import UserError, quoted
from pit_tools.plans.contacts import Contacts
from pit_tools.plans.destinations import destination_warnings
from pit_tools.plans.file import (Destination, FourSlopes, Grid, Limit, Plan, Resource, Zone,
                                  destination_record, zone_record)
from pit_tools.plans.slopes import K_for, degrees_of, judge, slope_of, slopes_of
from pit_tools.texts.decimals import LONGEST, decimal_of, plain
from pit_tools.texts.formats import NAME, WHAT_A_NAME_IS
from pit_tools.texts.units import (GRADES, POUND, SHORT_TON, TROY_OUNCE, Measures, factor_of,
                                   is_money_a_tonne, plain_name)

# Kilograms of metal, by the unit after the stroke of a price.
METALS = {"oz": TROY_OUNCE / 1000, "g": Decimal("0.001"), "kg": Decimal(1), "lb": POUND,
          "t": Decimal(1000), "st": SHORT_TON * 1000}

# Tonnes of rock, by the unit after the stroke of a cost.
ROCKS = {"t": Decimal(1), "st": SHORT_TON}

# Periods in a year, by their name.
PERIODS = {"year": 1, "half-year": 2, "quarter": 4, "month": 12}

# Units of a limit of a period, whose case counts: Mt are millions.
TONNAGES = {"t": 1, "kt": 1000, "Mt": 1_000_000}

MOST_PRICE, MOST_COST, MOST_TONNES = 10 ** 8, 10 ** 7, 10 ** 12


@dataclass
class Explained:
    """The records of a plan, each with its explanation, the warnings, and the notes."""

    lines: list[tuple[str, str]] = field(default_factory=list)
    warnings: list[str] = field(default_factory=list)
    notes: list[str] = field(default_factory=list)
    measures: Measures = Measures()

    def text(self) -> str:
        width = min(44, max(len(record) for record, _ in self.lines))
        lines = [f"{record:{width}}  {wording}" for record, wording in self.lines]
        for head, explained in (("LOOK AT", self.warnings), ("NOTE", self.notes)):
            if explained:
                lines += ["", head] + [f"- {line}" for line in explained]
        return "\n".join(lines)


@dataclass
class Amount:
    """A number and the unit after it."""

    value: Decimal
    unit: str


# The most characters of an option, as of all slopes of a zone. Patterns are matched in linear time.
MOST_WORD = 1000

NUMBER = r"[-+]?[\d,]*(?:\.\d+|(?<=\d))"


def amount_of(text: str, what: str) -> Amount:
    """Reads `1,804 USD/oz` or `8 %`. It raises UserError for any other text."""
    text = text.strip()
    found = re.fullmatch(rf"({NUMBER})\s*(\S*)", text) if len(text) <= LONGEST else None
    if not found:
        raise UserError(f"{what}: `{text[:LONGEST]}` is not a number with a unit, as 16.50 USD/t")
    if "," in found[1] and not re.fullmatch(r"[-+]?\d{1,3}(,\d{3})+(\.\d+)?", found[1]):
        raise _decimal_comma(found[1])
    return Amount(decimal_of(found[1].replace(",", ""), what), found[2])


def _decimal_comma(number: str) -> UserError:
    return UserError(f"`{number}`: write numbers with a decimal point, and a blank after a comma")


def share_of(text: str, what: str) -> Decimal:
    """A share in percent, `92 %`, as per mille."""
    amount = amount_of(text, what)
    if amount.unit not in ("%", "percent"):
        raise UserError(f"{what}: `{text.strip()}`: give percent, as 92 %")
    if not 0 <= amount.value <= 100:
        raise UserError(f"{what}: {plain(amount.value)} % is not from 0 to 100 %")
    return amount.value * 10


def _per_mille(text: str, what: str) -> int:
    """Returns a recovery, in per mille, which are integers in a plan."""
    share = share_of(text, what)
    if share != share.to_integral_value():
        raise UserError(f"{what}: a recovery has at most one decimal, as 92.5 %")
    return int(share)


def _money_by(text: str, units: dict[str, Decimal], what: str, like: str, purse: Purse) -> Decimal:
    """Money for one of these units, of the purse's currency."""
    amount = amount_of(text, what)
    money, stroke, by = amount.unit.partition("/")
    unit = plain_name(by)
    if not stroke or not money or unit not in units:
        raise UserError(f"{what}: `{text.strip()}`: give the unit, as {like}; known units are "
                        f"{', '.join(units)}")
    purse.take(money, what)
    return amount.value / units[unit]


@dataclass
class Purse:
    """The one currency of a plan, and the option that named it first."""

    currency: str = ""
    named_by: str = ""

    def take(self, money: str, what: str) -> None:
        """Raises UserError for a currency that is another."""
        if not self.currency:
            self.currency, self.named_by = money, what
        elif money.casefold() != self.currency.casefold():
            raise UserError(f"{what} is in {money}, but {self.named_by} in {self.currency}: a plan "
                            "has one currency")


@dataclass
class Price:
    """The revenue of a kilogram of metal, in parts of a cent, and its derivation."""

    value: int
    wording: str


def price_of(text: str, parts: int, purse: Purse) -> Price:
    """Reads a price of metal: `1804 USD/oz`, with `payable 99.5 %`, `royalty 3 %` and `selling 45
    USD/oz` after commas."""
    first, *rest = _parts(text) or [""]
    net = _money_by(first, METALS, "--price", "1804 USD/oz", purse)
    wording = first
    for part in rest:
        word, _, value = part.partition(" ")
        if word == "payable":
            net *= share_of(value, "payable") / 1000
        elif word == "royalty":
            net *= 1 - share_of(value, "royalty") / 1000
        elif word == "selling":
            net -= _money_by(value, METALS, "--price: selling", "45 USD/oz", purse)
        else:
            raise UserError(f"--price: `{part}`: give payable, royalty or selling")
        wording += f", {part}"
    cents = net * 100 * parts
    rounded = _nearest(cents)
    if not 0 < rounded <= MOST_PRICE:
        raise UserError(f"--price: {wording} is {_shown(cents)} cents per kilogram, but a plan "
                        f"needs 1 to {MOST_PRICE:,}")
    if abs(rounded - cents) > cents / 1000:
        raise UserError(f"--price: {wording} is {plain(round(cents, 3))} cents per kilogram, but a "
                        "plan needs integers: count all money in parts of a cent by --parts 100")
    unit = "cents" if parts == 1 else f"x 1/{parts} cents"
    return Price(rounded, f"{wording} is {rounded:,} {unit} per kilogram of metal")


def _nearest(cents: Decimal) -> int:
    """Returns the nearest integer; for a number that is larger than any, one that no plan
    accepts."""
    if abs(cents) > 10 * MOST_PRICE:
        return 10 * MOST_PRICE if cents > 0 else -1
    return int(cents.quantize(Decimal(1), rounding=ROUND_HALF_UP))


def _shown(cents: Decimal) -> str:
    """Cents as they are reported, to hundredths."""
    return plain(round(cents, 2)) if abs(cents) < 10 ** 20 else f"{cents:.6g}"


def cost_of(text: str, mining: Decimal, parts: int, what: str, purse: Purse) -> tuple[int, str]:
    """Returns a cost per tonne of rock, in parts of a cent, with the cost of mining, in units of
    money, and its derivation."""
    cost = _money_by(text, ROCKS, what, "16.50 USD/t", purse)
    cents = (cost + mining) * 100 * parts
    rounded = _nearest(cents)
    if not 0 <= rounded <= MOST_COST:
        raise UserError(f"{what}: {_shown(cents)} cents per tonne, but a plan needs 0 to "
                        f"{MOST_COST:,}")
    with_mining = f" and {plain(round(mining, 4))} of mining" if mining else ""
    unit = "cents" if parts == 1 else f"x 1/{parts} cents"
    return rounded, f"cost {text.strip()}{with_mining} is {rounded:,} {unit} per tonne"


def _parts(text: str) -> list[str]:
    """Returns the parts between commas; a comma between thousands does not count. It raises
    UserError for a decimal comma."""
    comma = re.search(r"(?<!\d)\d+,\d{1,2}(?!\d)", text)
    if comma:
        raise _decimal_comma(comma[0])
    return [part.strip() for part in re.split(r",(?!\d{3}(?!\d))", text) if part.strip()]


def _named(text: str, kind: str) -> tuple[str, list[str]]:
    """Returns the name before a colon, or else the kind's own, and the parts after it."""
    name, colon, rest = text.partition(":")
    if not colon:
        name, rest = kind, text
    if not NAME.fullmatch(name.strip()):
        raise UserError(f"`{name.strip()}` is not a name: it must have {WHAT_A_NAME_IS}")
    return name.strip(), _parts(rest)


@dataclass
class Spoken:
    """The options of a plan; lists may have several. Empty ones are not given. `grade_unit` is the
    unit in which grades are reported: if it is money per tonne, they are net smelter returns.
    `K_of` has the K of zones that are a number of benches below another, and `x_bearing` is the
    direction of the model's +x, degrees clockwise from north."""

    name: str = "mine"
    price: str = ""
    grade_unit: str = "g/t"
    mining: str = ""
    mill: Sequence[str] = ()
    leach: Sequence[str] = ()
    dump: Sequence[str] = ()
    slope: Sequence[str] = ()
    K: Optional[int] = None
    benches: int = 0
    periods: str = ""
    rate: str = ""
    limit: Sequence[str] = ()
    parts: int = 1
    x_bearing: float = 90.0
    K_of: dict[str, int] = field(default_factory=dict)

    @property
    def is_return(self) -> bool:
        return is_money_a_tonne(self.grade_unit)


def plan_from(words: Spoken, grid: Grid, zones: Sequence[str], benches: int,
              contacts: Callable[[Sequence[Zone]], Contacts] = lambda zones: Contacts()) -> tuple[
        Plan, Explained]:
    """Returns a plan of these options for a grid, its zones by name, and the benches of the model;
    `contacts` finds where zones of different slopes meet. It raises UserError for an option that it
    does not understand or that is out of the range of a plan."""
    explained = Explained()
    _judge_lengths(words)
    if not NAME.fullmatch(words.name):
        raise UserError(f"--name: `{words.name}` is not a name: it must have {WHAT_A_NAME_IS}")
    explained.lines.append((f"name,{words.name}", "the name of the instance"))
    cells = ",".join(plain(value) for value in (*grid.origin, *grid.size))
    explained.lines.append((f"grid,{cells}",
                            "the centroid of block 0 0 0, and the size of a block, in metres"))
    records = _zones(words, zones, benches, explained)
    destinations = _Destinations(words, explained).all()
    periods, in_year = _periods(words.periods or "1 year", explained)
    rate = _rate(words.rate or "8 %", in_year, explained)
    explained.notes += [f"{option} was not given: {default} is used"
                        for option, given, default in (("--periods", words.periods, "1 year"),
                                                       ("--rate", words.rate, "8 % a year"))
                        if not given]
    resources, limits = _limits(words.limit, destinations, periods, in_year, explained)
    explained.warnings += destination_warnings(destinations, words.is_return,
                                               explained.measures.cost_text)
    judged = judge(grid, records, zones, words.benches or benches, contacts=contacts(records))
    explained.warnings += judged.look_at
    explained.notes += judged.notes
    return Plan(words.name, grid, tuple(records), tuple(destinations), periods, rate,
                tuple(resources), tuple(limits)), explained


def _judge_lengths(words: Spoken) -> None:
    """Raises UserError for an option that is longer than any of a plan."""
    for option, wording in vars(words).items():
        for word in wording if isinstance(wording, (list, tuple)) else [wording]:
            if isinstance(word, str) and len(word) > MOST_WORD:
                raise UserError(f"--{option}: `{word[:60]}` has more than {MOST_WORD:,} characters")


def _zones(words: Spoken, names: Sequence[str], benches: int, explained: Explained) -> list[Zone]:
    """A record for each zone, in the order of the zone files."""
    of_all: Optional[FourSlopes] = None
    of_zone: dict[str, FourSlopes] = {}
    known = {*names, *(_without_benches(name, words) for name in names)}
    for text in words.slope or ["45"]:
        name, colon, slopes = text.partition(":")
        is_name = bool(colon) and name.strip() in known
        if colon and not is_name and not name.strip().isdigit():
            raise UserError(f"--slope: no zone `{name.strip()}`: give {', '.join(names)}")
        wording = sides_of(slopes if is_name else text, words.x_bearing, explained)
        if is_name:
            of_zone[name.strip()] = wording
        else:
            of_all = wording
    if not words.slope:
        explained.notes.append("slopes are 45 degrees until you give yours: --slope 'ZONE: 50' or "
                               "'ZONE: E 56, W 45, N 51, S 51'")
    zones = []
    for name in names:
        four = of_zone.get(name) or of_zone.get(_without_benches(name, words)) or of_all
        if four is None:
            raise UserError(f"--slope: none for the zone {name}")
        K = words.K_of.get(name) or words.K or K_for(words.benches or benches)
        degrees = sorted({round(degrees_of(slope), 1) for slope in four})
        line = (f"zone {name}: "
                f"{' to '.join(f'{angle:g}' for angle in {degrees[0]: 0, degrees[-1]: 0})} degrees")
        if len(set(four)) > 1:
            line += ", sides +x, -x, +y, -y"
        zones.append(Zone(four, K))
        explained.lines.append((",".join(zone_record(zones[-1])), f"{line}; K = {K}"))
    return zones


def _without_benches(name: str, words: Spoken) -> str:
    """The zone that one was split off by its benches below another: `flat` of `flat3`."""
    K = words.K_of.get(name)
    return name[:-len(str(K))] if K and name.endswith(str(K)) else name


def sides_of(text: str, x_bearing: float, explained: Explained) -> FourSlopes:
    """Returns the four slopes of a text, also of sectors of azimuth: `0-90 50, 90-180 45, 180-360
    48`, from the middle of the pit to the wall. A side of the model gets the slope of the sector
    that contains its bearing, the flatter one on a border."""
    parts = [part.strip() for part in text.split(",") if part.strip()]
    sectors = [re.fullmatch(r"(\d+(?:\.\d+)?)\s*(?:-|to)\s*(\d+(?:\.\d+)?)\s+(\d+(?:\.\d+)?)", part)
               for part in parts]
    if not any(sectors):
        return slopes_of(text)
    if not all(sectors):
        raise UserError(f"--slope: `{text.strip()}`: write sectors as 0-90 50, 90-180 45, 180-360 "
                        "48")
    ranges = [(float(one[1]), float(one[2]), float(one[3])) for one in sectors if one]
    wide = sum((end - start) % 360 or 360 for start, end, _ in ranges)
    if abs(wide - 360) > 1e-6:
        raise UserError(f"--slope: the sectors of `{text.strip()}` are {wide:g} degrees wide "
                        "together, not 360")
    found = []
    for side, away in (("+x", 0), ("-x", 180), ("+y", -90), ("-y", 90)):
        bearing = (x_bearing + away) % 360
        slopes = [angle for start, end, angle in ranges
                  if (bearing - start) % 360 <= ((end - start) % 360 or 360)]
        if len(slopes) > 1 and len(set(slopes)) > 1:
            explained.notes.append(f"the side {side}, at bearing {bearing:g}, is on the border "
                                   "of two sectors: the flatter one is used")
        found.append(slope_of(min(slopes)))
    explained.notes.append("sectors become the four sides of the zone, and between two sides a "
                               "slope is between theirs: a model that is turned so that its sides "
                               "face the sectors' middles fits best")
    return (found[0], found[1], found[2], found[3])


class _Destinations:
    """Reads mills, leaches and dumps, in this order, as they are numbered."""

    def __init__(self, words: Spoken, explained: Explained) -> None:
        self.words, self.explained, self.purse = words, explained, Purse()
        if words.is_return:
            self.purse.take(words.grade_unit.partition("/")[0], "the grade")
        self.mining = _money_by(words.mining, ROCKS, "--mining", "1.80 USD/t",
                                self.purse) if words.mining else Decimal(0)
        if words.is_return and words.price:
            raise UserError("--price: the grade is a net smelter return, which includes its price: "
                            "omit --price")
        if words.is_return and 100_000 * words.parts > MOST_PRICE:
            raise UserError(f"--parts: a return is counted in at most 1/{MOST_PRICE // 100_000:,} "
                            "cents")
        if not words.is_return and not words.price and (words.mill or words.leach):
            raise UserError("--price: give the price of metal, as --price '1804 USD/oz'")
        self.price = (Price(100_000 * words.parts, "a return of 1 per tonne earns 1")
                      if words.is_return else price_of(words.price, words.parts, self.purse)
                      if words.price else Price(0, ""))

    def all(self) -> list[Destination]:
        """Returns all destinations, mills first. It raises UserError for two of one name, none, or
        too many."""
        found = [self.mill(text) for text in self.words.mill] + [self.leach(text)
                                                                 for text in self.words.leach]
        found += [self.dump(text) for text in self.words.dump]
        names = [one.name for one in found]
        twice = next((name for name in names if names.count(name) > 1), None)
        if twice:
            raise UserError(f"two destinations `{twice}`: name them, as --mill 'north: recovery 92 "
                            "%, cost 16.50 USD/t'")
        if not found:
            raise UserError("no destination: give --mill, --leach or --dump")
        if len(found) > 8:
            raise UserError(f"{len(found)} destinations: a plan has at most 8")
        self.explained.measures = Measures(self.purse.currency, self.words.parts,
                                           self.words.grade_unit)
        return found

    def explain(self, one: Destination, *wording: str) -> Destination:
        self.explained.lines.append(
            (",".join(destination_record(one)), "; ".join(part for part in wording if part)))
        return one

    def _break_even(self, one: Destination) -> str:
        least = one.break_even
        return f"pays from {self._grade(least)}" if least is not None else "pays at no grade"

    def _grade(self, grade: float) -> str:
        """A grade in the unit in which the export has it."""
        unit = self.words.grade_unit
        return f"{Measures(grade_unit=unit).grade(float(grade)):.4g} {unit}"

    def mill(self, text: str) -> Destination:
        """Reads a mill. Raises UserError for any other text."""
        name, parts = _named(text, "mill")
        recovery, cost = self._word(parts, "recovery"), self._word(parts, "cost")
        share = (1000 if self.words.is_return and not recovery
                 else _per_mille(recovery or "", f"--mill: {name}: recovery"))
        cents, wording = cost_of(cost or "", self.mining, self.words.parts, f"--mill: {name}: cost",
                                 self.purse)
        one = Destination("mill", name, self.price.value, cents, ((Decimal(0), share),))
        return self.explain(one, f"recovers {share / 10:g} %", self.price.wording, wording,
                            self._break_even(one))

    def leach(self, text: str) -> Destination:
        """Reads a leach. Raises UserError for any other text."""
        name, parts = _named(text, "leach")
        cost = self._word(parts, "cost")
        bands = []
        for part in parts:
            if part.startswith("cost"):
                continue
            found = re.fullmatch(rf"(?:recovery\s+)?({NUMBER}\s*%)\s+from\s+({NUMBER})\s*(\S+)",
                                 part)
            factor = factor_of(found[3], "grade") if found else None
            if not found or factor is None:
                raise UserError(f"--leach: {name}: `{part}`: write a band as 30 % from 0.2 g/t; "
                                f"units are {', '.join(GRADES)}")
            share = _per_mille(found[1], f"--leach: {name}")
            start = amount_of(found[2], f"--leach: {name}").value * factor
            bands.append((round(start, 6), share))
        if not bands or bands != sorted(bands) or len({start for start, _ in bands}) < len(bands):
            raise UserError(f"--leach: {name}: bands must rise, as 30 % from 0.2 g/t, 48 % from "
                            "0.6 g/t")
        cents, wording = cost_of(cost or "", self.mining, self.words.parts,
                                 f"--leach: {name}: cost", self.purse)
        one = Destination("leach", name, self.price.value, cents, tuple(bands))
        recovers = ", ".join(f"{share / 10:g} % from {self._grade(float(start))}"
                             for start, share in bands)
        return self.explain(one, f"recovers {recovers}", wording, self._break_even(one))

    def dump(self, text: str) -> Destination:
        name, parts = _named(text, "dump")
        cost = self._word(parts, "cost") or (parts[0] if len(parts) == 1 else "")
        cents, wording = cost_of(cost, self.mining, self.words.parts, f"--dump: {name}: cost",
                                 self.purse)
        return self.explain(Destination("dump", name, 0, cents), wording)

    @staticmethod
    def _word(parts: Sequence[str], word: str) -> Optional[str]:
        found = [part[len(word):].strip() for part in parts if part.startswith(word + " ")]
        return found[0] if found else None


def _periods(text: str, explained: Explained) -> tuple[int, int]:
    """How many periods there are, and how many make a year."""
    found = re.fullmatch(r"(\d{1,9})\s*([a-z-]*?)s?", text.strip())
    unit = found[2] if found and found[2] else "year"
    if not found or unit not in PERIODS or not 1 <= int(found[1]) <= 100:
        raise UserError(f"--periods: {quoted(text)}: give 1 to 100, as 12 years; known units are "
                        f"{', '.join(PERIODS)}")
    count = int(found[1])
    explained.lines.append((f"periods,{count}",
                            f"{count} {unit}{'s' if count > 1 else ''}, counted from 0"))
    return count, PERIODS[unit]


def _rate(text: str, in_year: int, explained: Explained) -> Decimal:
    """The discount rate of a period, of one a year."""
    found = re.fullmatch(rf"({NUMBER})\s*%\s*(?:a\s+(year|period))?", text.strip())
    if not found or not 0 <= (percent := amount_of(found[1], "--rate").value) <= 100:
        raise UserError(f"--rate: {quoted(text)}: give percent per year, as 8 %")
    yearly = rate = percent / 100
    wording = f"{found[1]} % per {found[2] or 'year'}"
    if in_year > 1 and found[2] != "period":
        rate = Decimal(str(round((1 + float(yearly)) ** (1 / in_year) - 1, 6)))
        wording += f", which is {plain(rate * 100)} % per period"
    if round(rate, 6) != rate:
        raise UserError(f"--rate: {quoted(text)}: percent have at most 4 decimals")
    explained.lines.append((f"rate,{plain(rate)}", wording))
    return rate


def _limits(texts: Sequence[str], destinations: Sequence[Destination], periods: int, in_year: int,
            explained: Explained) -> tuple[list[Resource], list[Limit]]:
    """Returns resources with the destinations that they cover, and their limits in tonnes per
    period."""
    resources: list[Resource] = []
    limits: list[Limit] = []
    names = [one.name for one in destinations]
    for text in texts:
        name, parts = _named(text, "")
        known = next((at for at, one in enumerate(resources) if one.name == name), None)
        if known is None or (parts and not re.match(r"at |\d", parts[0])):
            covered = parts.pop(0).split()
            wrong = [one for one in covered if one not in (*names, "all")]
            if wrong or not covered:
                raise UserError(f"--limit: {name}: no destination `{' '.join(wrong)}`: give "
                                f"{', '.join(names)}, or all")
            covers = (tuple(range(len(names))) if "all" in covered
                      else tuple(names.index(one) for one in covered))
            if known is None:
                resources.append(Resource(name, covers))
                known = len(resources) - 1
                record = ["resource", name, *(names[at] for at in covers)]
                free = [one for one in names if one not in record]
                explained.lines.append((",".join(record), f"tonnes to {' and '.join(record[2:])} "
                                        "count" + (f"; {' and '.join(free)} free" if free else "")))
        more = _limit(parts, name, known, periods, in_year)
        for one in more:
            if any((other.resource, other.period) == (one.resource, one.period)
                   for other in limits):
                raise UserError(f"--limit: {name} has two limits in period {one.period}: give both "
                                "ends, as 1 Mt to 6 Mt")
        limits += more
        _explain_limit(name, more, explained)
    if len(resources) > 8:
        raise UserError(f"{len(resources)} resources: a plan has at most 8")
    return resources, limits


def _limit(parts: Sequence[str], name: str, resource: int, periods: int,
           in_year: int) -> list[Limit]:
    """Returns the limits of one option, for all periods or for those that it names."""
    spans = [re.fullmatch(r"periods?\s+(\d{1,9})(?:\s*(?:to|-)\s*(\d{1,9}))?", part)
             for part in parts]
    span = next((one for one in spans if one), None)
    rest = [part for part, one in zip(parts, spans) if not one]
    if len(rest) != 1:
        raise UserError(f"--limit: {name}: give the tonnes of a year or a period, as "
                        "`at most 2.5 Mt`, `at least 1 Mt` or `1 Mt to 6 Mt`")
    first, last = (int(span[1]), int(span[2] or span[1])) if span else (0, periods - 1)
    if not first <= last < periods:
        raise UserError(f"--limit: {name}: periods are 0 to {periods - 1}")
    by = re.search(r"(?<!\s)\s+a\s+(year|period)$", rest[0])
    text = rest[0][:by.start()] if by else rest[0]
    divide = in_year if by and by[1] == "year" else 1
    if by is None and in_year > 1:
        raise UserError(f"--limit: {name}: `{rest[0]}` in a year or a period? Periods are not "
                        "years: write `a year` or `a period`")
    letter, least, most = _ends_of(text, name, divide)
    return [Limit(resource, period, letter, least, most) for period in range(first, last + 1)]


def _ends_of(text: str, name: str, divide: int) -> tuple[str, Optional[Decimal], Optional[Decimal]]:
    """The letter of a limit, and the smallest and the most tonnes of a period."""
    most, least = re.fullmatch(r"at most (.*)", text), re.fullmatch(r"at least (.*)", text)
    if most:
        return "L", None, _tonnage(most[1], name, divide)
    if least:
        return "G", _tonnage(least[1], name, divide), None
    between = re.fullmatch(r"(.*) to (.*)", text)
    if not between:
        raise UserError(f"--limit: {name}: {quoted(text)}: write `at most 2.5 Mt`, `at least 1 Mt` "
                        "or `1 Mt to 6 Mt`")
    low, high = (_tonnage(between[at], name, divide) for at in (1, 2))
    if low > high:
        raise UserError(f"--limit: {name}: {quoted(text)} falls")
    return "I", low, high


def _tonnage(text: str, name: str, divide: int) -> Decimal:
    amount = amount_of(text, f"--limit: {name}")
    if amount.unit not in TONNAGES:
        raise UserError(f"--limit: {name}: `{text.strip()}`: the unit must be t, kt or Mt "
                        "(millions of tonnes)")
    tonnes = amount.value * TONNAGES[amount.unit] / divide
    if not 0 <= tonnes <= MOST_TONNES:
        raise UserError(f"--limit: {name}: `{text.strip()}`: a plan needs 0 to {MOST_TONNES:,} t")
    return round(tonnes, 6)


def _explain_limit(name: str, limits: Sequence[Limit], explained: Explained) -> None:
    """Returns a line for the limits of one option, equal periods together."""
    spans: list[list[Limit]] = []
    for one in limits:
        last = spans[-1][-1] if spans else None
        if last and (last.letter, last.lower, last.upper,
                     last.period + 1) == (one.letter, one.lower, one.upper, one.period):
            spans[-1].append(one)
        else:
            spans.append([one])
    for span in spans:
        first, last = span[0], span[-1]
        ends = {"L": [first.upper], "G": [first.lower],
                "I": [first.lower, first.upper]}[first.letter]
        cells = [plain(end) for end in ends if end is not None]
        words = {"L": "at most {} t", "G": "at least {} t", "I": "{} to {} t"}[first.letter]
        wording = words.format(*(f"{Decimal(cell):,}" for cell in cells))
        when = (f"in period {first.period}" if len(span) == 1
                else f"in each period from {first.period} to {last.period}")
        explained.lines.append((f"limit,{name},{first.period},{first.letter},{','.join(cells)}"
                                + (" .." if len(span) > 1 else ""), f"{wording} {when}"))
