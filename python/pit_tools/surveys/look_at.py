"""What is unusual about a plan and its instance, in words: the first part of a survey.

Only wrong models have such a line (tests/test_mistakes.py), and no right model has one
(tests/test_right_models.py): on what a resource report cannot show, as sides, slopes, destinations
and limits, and without an import on rock. What right models may have too, and a planner should
know, is a note.
"""
from __future__ import annotations

from typing import Iterator, NamedTuple, Optional

import numpy as np

from pit_tools.files import inputs
from pit_tools.inventories.rock import RockModel, rock_warnings, zones_apart
from pit_tools.plans.destinations import destination_warnings
from pit_tools.plans.file import Limit
from pit_tools.plans.slopes import degrees_of
from pit_tools.surveys.facts import Facts
from pit_tools.texts.number_texts import shortest, with_commas
from pit_tools.texts.units import is_money_a_tonne

#: Degrees of slopes: faces of benches are not steeper, and walls of saturated clay not flatter.
STEEPEST, FLATTEST = 75.0, 10.0

#: The mean grade of a model with its waste is not this multiple of the one that pays; if it is, the
#: pit contains nearly all, and sides mean nothing.
TIMES_THE_ONE_THAT_PAYS = 10.0

#: No mine discounts more in a period.
MOST_RATE = 0.3

#: Kilotonnes or megatonnes taken for tonnes make a pit of thousands of periods.
PERIODS_FOR_ONE = 20

#: An extra digit makes a limit ten times the usual one.
DIGIT = 10


class Finding(NamedTuple):
    """A finding, and the part of the survey that has its numbers."""

    part: str
    text: str


def look_at(facts: Facts) -> list[Finding]:
    """The findings, in the order of the survey's parts."""
    parts = [("ROCK", _rock), ("ROCK", _zone_files), ("SLOPES", _slopes), ("SIDES", _sides),
             ("DESTINATIONS", _destinations), ("BEST FOR", _best_for), ("RESOURCES", _resources),
             ("RESOURCES", _limits), ("FILES", _files)]
    return [Finding(part, text) for part, find in parts for text in find(facts)]


def notes(facts: Facts) -> list[Finding]:
    """Returns what is not a mistake but must be known, in the same order."""
    parts = [("ROCK", _density), ("SLOPES", lambda facts: facts.slopes.notes),
             ("BEST FOR", _little_used), ("RESOURCES", _remainder), ("FILES", _note)]
    return [Finding(part, text) for part, find in parts for text in find(facts)]


def _count(number: float, what: str) -> str:
    return f"{with_commas(number)} {what}{'' if number == 1 else 's'}"


def rock_model(facts: Facts) -> RockModel:
    """Returns the blocks of an instance for the checks of rock."""
    index = (facts.blocks.x - facts.axes[0].least, facts.blocks.y - facts.axes[1].least,
             facts.blocks.z - facts.axes[2].least)
    return RockModel(index, facts.blocks.tonnes, facts.blocks.grade, facts.blocks.zone,
                     facts.zone_names, facts.volume, facts.measures,
                     lambda z: shortest(facts.centroid(2, z + facts.axes[2].least), 3))


def _rock(facts: Facts) -> Iterator[str]:
    """Returns whether the findings of rock come from an import that reported them."""
    if not facts.note.facts:
        yield from rock_warnings(rock_model(facts))
    graded = (facts.blocks.tonnes == 0) & (facts.blocks.grade > 0)
    if graded.any():
        yield f"{_count(graded.sum(), 'block')} of 0 t have a grade: is their density missing?"
    times = _times_the_one_that_pays(facts)
    if times > TIMES_THE_ONE_THAT_PAYS and not any(_destinations(facts)) and not any(
            zones_apart(rock_model(facts))):
        mean = facts.of_all.grade
        yield (f"the mean grade, {facts.grade_text(mean)}, is {with_commas(times)} times the one "
               f"that pays, {facts.grade_text(mean / times)}: are grades in parts per billion, or "
               "a cost or a price in another unit?")


def _times_the_one_that_pays(facts: Facts) -> float:
    """Returns the mean grade of all rock as a multiple of the smallest that pays, 0 if none is
    known."""
    ends = [one.break_even for one in facts.plan.destinations if one.break_even]
    return facts.of_all.grade / min(ends) if ends else 0.0


def _density(facts: Facts) -> Iterator[str]:
    whole = facts.of_all
    if whole.solid > 10 and whole.most - whole.least < 1e-6:
        yield f"all blocks have {whole.least:.3f} t/m3: is there a density by rock?"


def _zone_files(facts: Facts) -> Iterator[str]:
    for zone, rock in enumerate(facts.of_zone):
        if rock.rows == 0:
            yield f"zone {facts.zone_names[zone]} has no blocks"
    wanted = [zone.file for zone in facts.note.zones]
    names = [file.name for file in facts.zone_files]
    if names and wanted and names != wanted:
        yield (f"zone files are {', '.join(names)}, but the plan's {', '.join(wanted)}: each zone "
               "has the slopes of its record")
        return
    for zone, (file, rock) in enumerate(zip(facts.zone_files, facts.of_zone)):
        if file.lines != rock.rows:
            yield (f"{file.name} has {with_commas(file.lines)} lines, but zone "
                   f"{facts.zone_names[zone]} {with_commas(rock.rows)} rows: is it another file, "
                   "or is a quote open?")


def _slopes(facts: Facts) -> Iterator[str]:
    odd: dict[str, list[str]] = {}
    for name, zone in zip(facts.zone_names, facts.plan.zones):
        angles = [degrees_of(slope) for slope in zone.slopes]
        if max(angles) > STEEPEST or min(angles) < FLATTEST:
            odd.setdefault(f"{min(angles):.1f} to {max(angles):.1f}", []).append(name)
    for angle, names in odd.items():
        yield (f"zone {', '.join(dict.fromkeys(names))} asks {angle} degrees: a `zone` record has "
               "rise, run and then K; 45 degrees are 1,1")
    yield from facts.slopes.look_at


def _sides(facts: Facts) -> Iterator[str]:
    """Yields where the pit ends because rock is missing; if it is unknown, where slopes leave the
    model."""
    if _times_the_one_that_pays(facts) > TIMES_THE_ONE_THAT_PAYS:
        return
    pit = facts.pit
    if pit is None:
        total = int(facts.paying.sum())
        for leaving in facts.leaving():
            if leaving.blocks:
                yield (f"{leaving.side}: of {_count(total, 'paying block')} the slope of "
                       f"{with_commas(leaving.blocks)} leaves the model, by at most "
                       f"{leaving.metres:.0f} m: an upright wall there costs nothing")
        return
    sides = {side: int((there & pit).sum()) for side, there in facts.at_side().items()}
    if any(sides.values()):
        ends = ", ".join(f"{with_commas(many)} {side}" for side, many in sides.items() if many)
        yield (f"the pit of {_count(pit.sum(), 'block')} ends at sides of the model ({ends}): an "
               "upright wall there costs nothing")
    # Waste at the floor of a model does not show that ore continues.
    bottom = (pit & facts.paying & (facts.blocks.z == facts.floor_of)).sum()
    if bottom:
        yield (f"the pit takes ore as the lowest rock of {_count(bottom, 'column')}: does the ore "
               "continue below the model?")


def _destinations(facts: Facts) -> Iterator[str]:
    return destination_warnings(facts.plan.destinations,
                                is_money_a_tonne(facts.measures.grade_unit), facts.cost_text)


def _best_for(facts: Facts) -> Iterator[str]:
    """Yields destinations to which nothing goes, with the grades from which they pay, if no price,
    cost or recovery is the cause."""
    if facts.of_all.top_grade == 0 or any(_destinations(facts)):
        return
    rows = np.bincount(facts.best, minlength=len(facts.plan.destinations))
    if not facts.paying.any():
        yield ("no block is worth more than 0: check the units of grade, price and cost; "
               + "; ".join(_pays_text(facts, at) for at, one in enumerate(facts.plan.destinations)
                           if one.bands))
        return
    for at, (one, count) in enumerate(zip(facts.plan.destinations, rows)):
        if count == 0:
            yield f"{one.name} is best for no block: " + (
                f"are its price and its cost exchanged? {_pays_text(facts, at)}" if one.bands
                else "was waste, or rock below a cut-off, omitted? It would cost nothing to dig")


def _pays_text(facts: Facts, number: int) -> str:
    one = facts.plan.destinations[number]
    start = "at no grade" if one.break_even is None else f"from {facts.grade_text(one.break_even)}"
    return (f"{one.name} pays {start}, but the highest grade is "
            f"{facts.grade_text(facts.of_all.top_grade)}")


def _little_used(facts: Facts) -> Iterator[str]:
    rows = np.bincount(facts.best, minlength=len(facts.plan.destinations))
    for one, count in zip(facts.plan.destinations, rows):
        if one.kind == "leach" and 0 < count < 0.005 * len(facts):
            yield f"{one.name} is best for only {_count(int(count), 'block')}"


def _note(facts: Facts) -> Iterator[str]:
    yield from filter(None, [facts.note.why_not])
    yield from inputs.edited()


def _resources(facts: Facts) -> Iterator[str]:
    plan = facts.plan
    if plan.rate > MOST_RATE:
        yield f"the rate is {shortest(100 * float(plan.rate), 4)} % per period: 0.08 is 8 %"
    elif plan.rate == 0 and plan.periods > 1:
        yield "the rate is 0: no period counts less than another"
    # A fleet that moves all rock except waste; a crusher alone shows nothing about a fleet.
    dumps = {at for at, one in enumerate(plan.destinations) if one.kind == "dump"}
    others = set(range(len(plan.destinations))) - dumps
    covers = [set(resource.covers) for resource in plan.resources]
    if (dumps and len(others) > 1 and len(covers) > 1 and others in covers
            and not any(dumps & those for those in covers)):
        yield (f"no resource covers {plan.destinations[min(dumps)].name}: waste is moved for "
               "nothing")


def tonnes_covered(facts: Facts, resource: int, taken: Optional[np.ndarray] = None) -> float:
    """Returns the tonnes of all blocks, or of those of a mask, that are best at destinations which
    a resource covers."""
    is_covered = np.isin(facts.best, facts.plan.resources[resource].covers)
    if taken is not None:
        is_covered &= taken
    return float(facts.blocks.tonnes[is_covered].sum())


def _limits_by_resource(facts: Facts) -> Iterator[tuple[int, list[Optional[Limit]]]]:
    plan = facts.plan
    for number in range(len(plan.resources)):
        yield number, [plan.limits_of(number, period) for period in range(plan.periods)]


def _periods_needed(facts: Facts, number: int, limits: list[Optional[Limit]]) -> float:
    """Returns how many periods the pit's tonnes take, if each has an upper limit; else 0."""
    most = [float(limit.upper) for limit in limits if limit and limit.upper is not None]
    if len(most) < facts.plan.periods or not sum(most):
        return 0.0
    return tonnes_covered(facts, number, facts.pit) * len(most) / sum(most)


def _limits(facts: Facts) -> Iterator[str]:
    for number, limits in _limits_by_resource(facts):
        name = facts.plan.resources[number].name
        if not any(limits):
            yield f"{name} has no limit in any period"
            continue
        if limits[0] is None:
            yield f"{name} takes any tonnes in period 0: periods count from 0"
        letters = {limit.letter for limit in limits if limit}
        if letters == {"G"}:
            yield f"{name} has only lower limits: G is at least, L is at most"
        elif "G" in letters:
            yield f"{name} has limits at least and at most: L is at most, G is at least"
        yield from _amounts(facts, number, limits)


def _amounts(facts: Facts, number: int, limits: list[Optional[Limit]]) -> Iterator[str]:
    """Yields findings about the tonnes that a resource may and must process."""
    name, whole = facts.plan.resources[number].name, tonnes_covered(facts, number)
    most = [float(limit.upper) for limit in limits if limit and limit.upper is not None]
    least = sum(float(limit.lower) for limit in limits if limit and limit.lower is not None)
    if least > whole:
        yield (f"{name} requires {with_commas(least)} t in all, but {with_commas(whole)} are best "
               "there: no schedule has that, or it moves waste for it")
    need = _periods_needed(facts, number, limits)
    if need > PERIODS_FOR_ONE * facts.plan.periods:
        yield (f"the pit's tonnes take {with_commas(need)} periods of {name}, but there are "
               f"{facts.plan.periods}: are limits in kilotonnes?")
    usual = float(np.median(most)) if most else 0.0
    if usual and max(most) >= DIGIT * usual:
        yield (f"limits of {name} have the median {with_commas(usual)} t and go up to "
               f"{with_commas(max(most))}: does one have an extra digit?")


def _remainder(facts: Facts) -> Iterator[str]:
    for number, limits in _limits_by_resource(facts):
        need, periods = _periods_needed(facts, number, limits), facts.plan.periods
        if 1.001 * periods < need <= PERIODS_FOR_ONE * periods:
            yield (f"the pit's tonnes take {with_commas(need, 2)} periods of "
                   f"{facts.plan.resources[number].name}, but there are {periods}: the remainder "
                   "is not mined")


def unlike_plan(facts: Facts) -> list[str]:
    """Yields a line for each difference between the files and the plan."""
    plan, header = facts.plan, facts.outline.header
    pairs = sum(len(resource.covers) for resource in plan.resources)
    wanted = [("NAME", header.get("NAME"), plan.name),
              ("NBLOCKS", header.get("NBLOCKS"), str(len(facts))),
              ("NPERIODS", header.get("NPERIODS"), str(plan.periods)),
              ("DISCOUNT_RATE", shortest(float(header.get("DISCOUNT_RATE", "nan"))),
               shortest(float(plan.rate))),
              ("values that are not the plan's", facts.strange_values, 0),
              ("coefficients", facts.outline.uses, pairs * facts.of_all.solid),
              ("limits", len(facts.outline.limits), len(plan.limits))]
    return [f"{what}: {found} in the instance, but {requested} by the plan"
            for what, found, requested in wanted if found != requested]


def _files(facts: Facts) -> Iterator[str]:
    for remark in facts.remarks:
        yield f"the block file begins with a remark: {remark}"
    for line in unlike_plan(facts):
        yield f"{line}: do files of two runs, or of another plan, have this base?"
    if not unlike_plan(facts) and not _limits_agree(facts):
        yield "limits of the instance differ from the plan's"


def _limits_agree(facts: Facts) -> bool:
    found = {(one.resource, one.period): (one.letter, *one.ends) for one in facts.outline.limits}
    requested = {(one.resource, one.period):
                 (one.letter, *(float(end) for end in (one.lower, one.upper) if end is not None))
                 for one in facts.plan.limits}
    return found == requested
