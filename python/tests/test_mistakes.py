"""Mistakes that nothing rejects, and where a survey shows each.

The mine is the example deposit with its corner at the origin and K = 9, in a model that is wide
enough. A mistake is reported if the survey of the mine with it has a matching line and the sound
one has none; it is drawn if an array that a picture shows differs.
"""
import re
from typing import Callable, NamedTuple, Optional

import numpy as np
import pandas as pd
import pytest

from pit_tools.deposits.seeded import Deposit
from pit_tools.instances.models import Outline
from pit_tools.instances.valuation import blocks_of, instance_of
from pit_tools.plans.file import plan_of
from pit_tools.surveys.facts import Facts, ZoneFile
from pit_tools.surveys.text import survey_text

ZONES = ("oxide", "west", "east")


class Mine(NamedTuple):
    """A plan, the rows of its zone files in metres, tonnes and g/t, and what its files are
    named."""

    plan: str
    rows: pd.DataFrame
    names: tuple = ("deposit-oxide.csv", "deposit-west.csv", "deposit-east.csv")
    lines: Optional[tuple] = None

    def edited(self, old: str, new: str) -> "Mine":
        assert re.search(old, self.plan, re.M), old
        return self._replace(plan=re.sub(old, new, self.plan, flags=re.M))

    def with_rows(self, **columns) -> "Mine":
        return self._replace(rows=self.rows.assign(**columns))

    def of(self, taken) -> "Mine":
        """The rows of a mask alone."""
        return self._replace(rows=self.rows[taken(self.rows)])


def sound() -> Mine:
    """The deposit, with barren rock added to the east, west and north, and two benches below it."""
    rows = []
    for zone, text in enumerate(Deposit().zone_texts()):
        for line in text.splitlines()[1:]:
            x, y, z, tonnes, grade = map(float, line.split(",")[:5])
            rows.append((x - 1000 + 120, y - 2000 + 60, z - 300 + 20, tonnes, grade, zone))
    table = pd.DataFrame(rows, columns=["x", "y", "z", "tonnes", "grade", "zone"])
    taken = set(map(tuple, table[["x", "y", "z"]].to_numpy().astype(int).tolist()))
    added = []
    random = np.random.default_rng(3)
    for z in range(0, 140, 10):
        for y in range(0, 480, 20):
            for x in range(0, 720, 20):
                ground = 20 + 10 * (7 + min(17, max(0, (y - 60) // 20)) // 4)
                in_deposit = 120 <= x < 600 and 60 <= y < 420 and z >= 20
                if z <= ground and not in_deposit and (x, y, z) not in taken:
                    zone = 0 if z >= 100 else 1 if x < 360 else 2
                    density = (9600 if zone == 0 else 10800) + random.integers(0, 400)
                    added.append((x, y, z, float(density), random.integers(0, 2000) / 1e6
                                  if random.random() < 0.7 else 0.0, zone))
    table = pd.concat([table, pd.DataFrame(added, columns=table.columns)], ignore_index=True)
    plan = Deposit().plan().replace("grid,1000,2000,300",
                                    "grid,0,0,0").replace(",2500000", ",5000000")
    plan = re.sub(r"(?m)^(zone.*),\d$", r"\1,14", plan)
    return Mine(plan, table)


def facts_of(mine: Mine, of_plan: Optional[str] = None) -> Facts:
    """The facts of a mine, or of an instance by another plan if one is given."""
    plan = plan_of(mine.plan)
    rows = pd.DataFrame({axis: np.rint(mine.rows[axis] * 1000).astype(np.int64) for axis in "xyz"})
    rows["tonnes"], rows["grade"] = (np.rint(mine.rows.tonnes * 1000).astype(np.int64),
                                     np.rint(mine.rows.grade * 1e6).astype(np.int64))
    rows["zone"] = mine.rows.zone.astype(np.int64)
    made = instance_of(plan_of(of_plan or mine.plan), blocks_of(plan.grid, rows))
    header = {"NAME": made.pcpsp.name, "NBLOCKS": str(len(made.blocks)),
              "NPERIODS": str(made.pcpsp.periods), "DISCOUNT_RATE": str(made.pcpsp.rate)}
    facts = Facts(plan, made.blocks, np.diff(made.precedence.indptr),
                  Outline(header, made.pcpsp.values, len(made.pcpsp.uses), made.pcpsp.limits))
    counts = np.bincount(made.blocks.zone, minlength=len(plan.zones))
    lines = mine.lines or counts.tolist()
    facts.zone_files = [ZoneFile(name, count) for name, count in zip(mine.names, lines)]
    return facts


MINE = sound()
FACTS = facts_of(MINE)
SURVEY = survey_text(FACTS)
TOP = MINE.rows.z.max()


def columns_top(rows):
    return rows.groupby(["x", "y"]).z.transform("max")


class Reported(NamedTuple):
    """A mistake, how it is made, and what the survey reports; whether that line alone comes
    after LOOK AT: of the others tests/test_import_words.py has mistakes that do, or the line
    states two things about one record."""

    name: str
    make: Callable[[Mine], Mine]
    line: str
    of_plan: Optional[str] = None
    is_alone: bool = True


def swapped(mine):
    return mine.with_rows(x=mine.rows.y, y=mine.rows.x)


def filled(mine):
    """Air that has a default density."""
    grid = pd.MultiIndex.from_product([sorted(mine.rows[axis].unique()) for axis in "xyz"],
                                      names=list("xyz")).to_frame(index=False)
    table = grid.merge(mine.rows, "left", on=list("xyz"))
    return mine._replace(rows=table.fillna({"tonnes": 10800.0, "grade": 0.0, "zone": 0}))


def sectors(mine):
    """Zones by azimuth in place of the sides of one zone: east of the middle is steeper."""
    plan = re.sub(r"(?m)^zone.*\n", "", mine.plan).replace("mill,mill",
                                                           "zone,1,1,14\nzone,2,1,14\nmill,mill", 1)
    return mine._replace(plan=plan, rows=mine.rows.assign(zone=(mine.rows.x >= 300).astype(int)),
                         names=("west.csv", "zast.csv"))


def by_record(mine, order):
    """Zone files in another order: each zone has another's record."""
    return mine._replace(names=tuple(mine.names[at] for at in order), rows=mine.rows.assign(
        zone=mine.rows.zone.map({old: new for new, old in enumerate(order)})))


def share_of(mine, part):
    """Tonnes of a block that is ore in part, as the part alone."""
    return mine.with_rows(tonnes=np.where(mine.rows.grade > 0.5, mine.rows.tonnes * part,
                                          mine.rows.tonnes))


#: The mistakes of docs/causes.md, except those of files that are refused or are not of one run.
OF_THE_PAGE = [
    Reported("a grade in percent", lambda m: m.with_rows(grade=m.rows.grade / 10000),
             "^- BEST FOR: no block is worth more than 0"),
    Reported("a grade in parts a billion", lambda m: m.with_rows(grade=m.rows.grade * 1000),
             "^- ROCK: the mean grade, .* times the one that pays"),
    Reported("a recovery in percent", lambda m: m.edited("^mill,mill,920", "mill,mill,92"),
             r"^- DESTINATIONS: mill recovers 9\.2 % at most"),
    Reported("a price in dollars", lambda m: m.edited("5800000", "180400"),
             r"^- BEST FOR: .*mill pays from 9\.9\d+ g/t, but the highest grade is 3\.907"),
    Reported("a cost in dollars", lambda m: m.edited(",1650$", ",16"),
             r"^- DESTINATIONS: a tonne costs 0\.16 at mill, no more than at dump"),
    Reported("a cost without mining", lambda m: m.edited(",1650$", ",150"),
             r"^- DESTINATIONS: a tonne costs 1\.50 at mill, no more than at dump"),
    Reported("price and cost swapped", lambda m: m.edited("920,5800000,1650", "920,1650,5800000"),
             "^- DESTINATIONS: the price of metal differs by destination: 16.50, 58,000.00"),
    Reported("pairs of a leach swapped",
             lambda m: m.edited("0.2,300,0.6,480,1.2,560", "300,0,480,1,560,2"),
             "^- DESTINATIONS: heap recovers 0.2 % at most"),
    Reported("no dump", lambda m: m.edited(r"^dump.*\n", "").edited(",dump$", ""),
             "^- DESTINATIONS: there is no dump: waste goes to heap"),
    Reported("kilotonnes as tonnes", lambda m: m.with_rows(tonnes=m.rows.tonnes / 1000),
             r"^- ROCK: tonnes per cubic metre are .* are they kilotonnes", is_alone=False),
    Reported("a density as tonnes", lambda m: m.with_rows(tonnes=m.rows.tonnes / 4000),
             r"^- ROCK: tonnes per cubic metre are .* are they densities", is_alone=False),
    Reported("limits from period 1 on", lambda m: m.edited(r"^limit,crusher,0.*\n", ""),
             "^- RESOURCES: crusher takes any tonnes in period 0"),
    Reported("`L` taken for a lower bound",
             lambda m: m.edited("^limit,crusher,0,L", "limit,crusher,0,G"),
             "^- RESOURCES: crusher has limits at least and at most"),
    Reported("limits in kilotonnes", lambda m: m.edited(",5000000$", ",5000"),
             r"^- RESOURCES: the pit's tonnes take [\d,]+ periods of crusher, but there are 4: "
             "are limits in kilotonnes"),
    Reported("a fleet that does not cover the dump",
             lambda m: m.edited("^(resource,fleet.*),dump$", r"\1"),
             "^- RESOURCES: no resource covers dump"),
    Reported("a rate of 0.8", lambda m: m.edited("^rate,0.08", "rate,0.8"),
             "^- RESOURCES: the rate is 80 %"),
    Reported("limits of a year and periods of a quarter",
             lambda m: m.edited(",L,5000000$", ",L,20000000"),
             r"^    period 0 to 3: at most 20,000,000(\.0)? t; these tonnes take 0\."),
    Reported("half the block size", lambda m: m.edited("20,20,10$", "10,10,5"),
             "^- ROCK: tonnes per cubic metre are .* is the grid half the size", is_alone=False),
    Reported("indices in place of coordinates",
             lambda m: m.with_rows(x=m.rows.x / 20, y=m.rows.y / 20, z=m.rows.z / 10)
             .edited("20,20,10$", "1,1,1"), "^- ROCK: tonnes per cubic metre are 9,600", is_alone=False),
    Reported("depths in place of heights", lambda m: m.with_rows(z=TOP - m.rows.z),
             "^- ROCK: the highest bench is complete but the lowest is not", is_alone=False),
    Reported("run over rise, or degrees", lambda m: m.edited("^zone,1,1,14", "zone,45,1,14"),
             r"^- SLOPES: zone oxide asks 88\.7 to 88\.7 degrees", is_alone=False),
    Reported("run over rise of all zones", lambda m: m.edited("^zone,.*$", "zone,45,1,14"),
             r"^- SLOPES: zone oxide, west, east asks 88\.7 to 88\.7 degrees"),
    Reported("K first", lambda m: m.edited("^zone,1,1,14", "zone,9,1,1"),
             r"^- SLOPES: zone oxide asks 83\.7 to 83\.7 degrees", is_alone=False),
    Reported("the four slopes in another order",
             lambda m: m.edited("^zone,3,2,1,1,5,4,5,4", "zone,5,4,5,4,3,2,1,1"),
             r"^zone 1 asks +56\.3 "),
    Reported("K too small", lambda m: m.edited("^zone,1,1,14", "zone,1,1,2"),
             r"^- SLOPES: K is too small: zone oxide: K = 2 makes a pit of \d+ benches \d+\.\d degrees too steep, but K = 14 "),
    Reported("one K for all",
             lambda m: m.edited(r"^zone,1,1,14\n(zone.*\n)*", "zone,2,1,14\nzone,5,4,14\nzone,2,1,14\n"),
             "^- SLOPES: zone west is below zone oxide, which is steeper"),
    Reported("rock of a zone at a mill that does not take it", lambda m: m, "^0 mill .* 339 595 853$",
             re.sub("(?m)^mill,mill,920,5800000,1650", "mill,mill,920,5800000,1650000", MINE.plan)),
    Reported("zone files in the order of a glob", lambda m: by_record(m, (2, 0, 1)),
             "^ +0 .*  deposit-east.csv$"),
    Reported("a header alone", lambda m: m.of(lambda rows: rows.zone != 1),
             "^- ROCK: zone west has no blocks", is_alone=False),
    Reported("a `zone` record too many", lambda m: m.edited("^mill,", "zone,1,1,14\nmill,"),
             "^- ROCK: zone 3 has no blocks"),
    Reported("a zone file cut short", lambda m: m.of(lambda rows: ~((rows.zone == 1) & (rows.z > 30))),
             r"^- ROCK: [\d,]+ positions below a block have none"),
    Reported("a quote that is never closed", lambda m: m._replace(lines=(1584, 9999, 4253)),
             "^- ROCK: deposit-west.csv has 9,999 lines, but zone west"),
    Reported("files of two runs", lambda m: m, "^- FILES: values that are not the plan's",
             MINE.plan.replace("5800000", "5000000"))]

#: More mistakes.
MORE = [
    Reported("a model that ends too near the ore",
             lambda m: m.of(lambda rows: (rows.y <= 400) & (rows.x <= 560)),
             r"^- SIDES: the pit of [\d,]+ blocks ends at sides of the model \("),
    Reported("deep rock lost", lambda m: m.of(lambda rows: rows.z >= 40),
             "^- SIDES: the pit takes ore as the lowest rock of"),
    Reported("a bench lost", lambda m: m.of(lambda rows: rows.z != 70),
             "^- ROCK: 1 bench without a block, from z = 70"),
    Reported("air with a default density", filled, "^- ROCK: every position of the box has rock, and most of the highest",
             is_alone=False),
    Reported("rock whose density is -99 left out as air",
             lambda m: m.of(lambda rows: (rows.index % 7 != 0) | (rows.z == TOP)),
             r"^- ROCK: [\d,]+ positions below a block have none"),
    Reported("rock with a grade and 0 t",
             lambda m: m.with_rows(tonnes=np.where(m.rows.index % 9 == 0, 0, m.rows.tonnes)),
             r"^- ROCK: [\d,]+ blocks of 0 t have a grade"),
    Reported("one density for all", lambda m: m.with_rows(tonnes=10800.0),
             r"^- ROCK: all blocks have 2\.700 t/m3"),
    Reported("a percent model by parts alone", lambda m: share_of(m, 0.4),
             r"^- ROCK: [\d,]+ blocks below others weigh less than half"),
    Reported("sectors of azimuth as zones", sectors,
             "^- SLOPES: zone west is next to zone zast, which is steeper"),
    Reported("a contact beside",
             lambda m: m.edited(r"^zone,3,2,1,1,5,4,5,4,14\nzone,3,2,14", "zone,1,2,14\nzone,2,1,14"),
             "^- SLOPES: zone west is next to zone east, which is steeper"),
    Reported("a recovery of 100 %", lambda m: m.edited("^mill,mill,920", "mill,mill,1000"),
             "^- DESTINATIONS: mill recovers 100 %"),
    Reported("a recovery under 30 %", lambda m: m.edited("300,0.6,480,1.2,560", "30,0.6,48,1.2,56"),
             r"^- DESTINATIONS: heap recovers 5\.6 % at most"),
    Reported("a leach that recovers less of richer rock",
             lambda m: m.edited("480,1.2,560", "560,1.2,480"),
             "^- DESTINATIONS: heap recovers less of richer rock"),
    Reported("prices that differ by destination", lambda m: m.edited("heap,5800000", "heap,2600000"),
             "^- DESTINATIONS: the price of metal differs"),
    Reported("a dump that costs nothing", lambda m: m.edited("dump,dump,180", "dump,dump,0"),
             "^- DESTINATIONS: a tonne costs nothing at dump"),
    Reported("fewer periods than the tonnes take", lambda m: m.edited(",5000000$", ",2500000"),
             r"^- RESOURCES: the pit's tonnes take 7\.\d+ periods of crusher, but there are 4: "
             "the remainder is not mined"),
    Reported("lower limits above the tonnes", lambda m: m.edited("I,1000000,", "I,90000000,").edited(
    r"(?<=I,90000000,)\d+", "100000000"), "^- RESOURCES: fleet requires 360,000,000 t in all"),
    Reported("a limit with a digit too many",
             lambda m: m.edited("^limit,crusher,2,L,5000000", "limit,crusher,2,L,50000000"),
             "^- RESOURCES: limits of crusher have the median 5,000,000 t and go up to 50,000,000"),
    Reported("lower limits alone", lambda m: m.edited("^limit,crusher,(.),L,5000000",
                                                      r"limit,crusher,\1,G,2000000"),
             "^- RESOURCES: crusher has only lower limits"),
    Reported("a rate of 0", lambda m: m.edited("^rate,0.08", "rate,0"), "^- RESOURCES: the rate is 0"),
    Reported("lines other than rows", lambda m: m._replace(lines=(1584, 1, 4253)),
             "^- ROCK: deposit-west.csv has 1 lines"),
    Reported("a zone in another unit of grade",
             lambda m: m.with_rows(grade=np.where(m.rows.zone == 0, m.rows.grade * 1000, m.rows.grade)),
             "^- ROCK: the mean grade of zone oxide is .* a hundred times another's"),
    Reported("a grade that was not cut",
             lambda m: m.with_rows(grade=np.where(m.rows.index == 1999, 999, m.rows.grade)),
             "^- ROCK: the highest grade, 999 g/t, is more than 10 times the next"),
    Reported("walls lower than K's table", lambda m: m.of(lambda rows: rows.z >= 80),
             r"^- SLOPES: blocks are not split: with any K, walls of pits of \d+ to \d+ benches are up "
             r"to (9|[123]\d)\.\d degrees")]


@pytest.mark.parametrize("mistake", OF_THE_PAGE + MORE, ids=lambda mistake: mistake.name)
def test_a_mistake_is_reported(mistake):
    wrong = mistake.make(MINE)
    message = survey_text(facts_of(wrong, mistake.of_plan)).splitlines()
    if mistake.of_plan and wrong == MINE and "values" not in mistake.line:
        message, sound_lines = SURVEY.splitlines(), message
    else:
        sound_lines = SURVEY.splitlines()
    assert any(re.search(mistake.line, line) for line in message), "\n".join(message[:30])
    assert not any(re.search(mistake.line, line) for line in sound_lines)
    odd = [line for line in message[message.index("LOOK AT") + 1:message.index("", 3)] if "nothing unusual" not in line]
    if mistake.is_alone and any(re.search(mistake.line, line) for line in odd):
        assert len(odd) == 1, "\n".join(odd)


def test_a_sound_mine_has_nothing_to_look_at():
    """Undiluted blocks and a heap that is hardly used are reported as notes."""
    odd, noted = (part.splitlines()[1:] for part in SURVEY.split("\n\n")[1:3])
    assert odd == ["- nothing unusual was found; the parts below show how the plan was understood"]
    assert [line.split(":")[0] for line in noted] == ["- SLOPES", "- BEST FOR"]


@pytest.mark.parametrize("name, make", [
    ("x and y swapped, where their ranges overlap", swapped),
    ("mirrored", lambda m: m.with_rows(x=700 - m.rows.x)),
    ("turned by a quarter", lambda m: m.with_rows(x=m.rows.y, y=700 - m.rows.x)),
])
def test_a_turned_model_is_drawn(name, make):
    """The map of metal differs; the planner sees that it is the wrong one by comparing the
    package."""
    shown, sound_map = facts_of(make(MINE)).metal_by_column(), FACTS.metal_by_column()
    assert (shown.shape != sound_map.shape
            or np.nansum(np.abs(shown - sound_map)) > 0.1 * np.nansum(sound_map))


def test_mined_out_rock_is_drawn():
    """The map of the ground shows a pit that was dug, or none if it should be there."""
    dug = facts_of(MINE.of(lambda rows: ~((rows.x.between(300, 400)) & (rows.y.between(200, 300))
                                          & (rows.z > 70))))
    assert (dug.ground() < FACTS.ground()).sum() > 20
