"""The survey as text: LOOK AT, and then the numbers part by part (docs/planners.md explains
each)."""
from __future__ import annotations

from dataclasses import asdict
from typing import Any, Iterator, Optional, Sequence

import numpy as np

from pit_tools.pits.report import pit_sums
from pit_tools.plans import walls as wall
from pit_tools.plans.file import Destination, Limit
from pit_tools.plans.slopes import too_steep_by_rise
from pit_tools.surveys.facts import Facts, Rock
from pit_tools.surveys.look_at import look_at, notes, tonnes_covered, unlike_plan
from pit_tools.surveys.pit import bench_lines, nested_lines, zone_lines
from pit_tools.texts.number_texts import shortest, with_commas

#: Grams of a troy ounce, and kilograms of a pound.
OUNCE, POUND = 31.1034768, 0.45359237


def survey_text(facts: Facts) -> str:
    """All parts, with a blank line between."""
    parts = [_head, _look_at, _notes, _places, _rock, _cutoffs, _benches, _slopes, _heights, _sides,
             _destinations, _best_for, zone_lines, bench_lines, nested_lines, _resources, _files]
    texts = ("".join(f"{line}\n" for line in part(facts)) for part in parts)
    return "\n".join(filter(None, texts))


def survey_record(facts: Facts) -> dict[str, Any]:
    """Returns what scripts read of a survey: tonnes, grades in g/t, metal in g, kilograms in a pit,
    and values in units of 100 of the plan's money."""
    rock = {name: {**asdict(one), "grade": one.grade} for name, one in
            zip([*facts.zone_names, "all"], [*facts.of_zone, facts.of_all])}
    pit = None
    if facts.pit is not None:
        sums = pit_sums(facts, facts.pit)
        pit = {**sums._asdict(), "strip": sums.strip, "is_given": facts.is_pit_given}
    return {"name": facts.plan.name, "periods": facts.plan.periods,
            "destinations": [one.name for one in facts.plan.destinations],
            "resources": [one.name for one in facts.plan.resources],
            "axes": [asdict(axis) for axis in facts.axes], "rock": rock, "pit": pit,
            "look_at": [one._asdict() for one in look_at(facts)],
            "notes": [one._asdict() for one in notes(facts)]}


def _head(facts: Facts) -> Iterator[str]:
    plan = facts.plan
    yield (f"{plan.name}: {len(plan.zones)} zones, {len(plan.destinations)} destinations, "
           f"{len(plan.resources)} resources, {plan.periods} periods")


def _look_at(facts: Facts) -> Iterator[str]:
    yield "LOOK AT"
    findings = look_at(facts)
    for finding in findings:
        yield f"- {finding.part}: {finding.text}"
    if not findings:
        yield "- nothing unusual was found; the parts below show how the plan was understood"


def _notes(facts: Facts) -> Iterator[str]:
    found = notes(facts)
    if found:
        yield "NOTE"
    for note in found:
        yield f"- {note.part}: {note.text}"


def _places(facts: Facts) -> Iterator[str]:
    size, origin = (", ".join(shortest(number, 3) for number in numbers)
                    for numbers in (facts.metres, facts.origin))
    yield (f"PLACES  blocks of {size.replace(', ', ' x ')} m; the centroid of block 0 0 0 is at "
           f"{origin}")
    yield "axis     indices   taken    even     odd   centroids"
    for number, axis in enumerate(facts.axes):
        ends = (shortest(facts.centroid(number, end), 3) for end in (axis.least, axis.most))
        yield (f"{'xyz'[number]:>4} {f'{axis.least} to {axis.most}':>11} {axis.taken:7} "
               f"{axis.taken - axis.odd:7} {axis.odd:7}   {' to '.join(ends)} m")
    empty, most = facts.gaps
    yield (f"{with_commas(len(facts))} blocks at {with_commas(facts.box)} places; "
           f"{with_commas(empty)} places below a block have none, at most {most} of a column in "
           "a row")


def _rock_line(facts: Facts, label: str, rock: Rock, lines: Optional[int], name: str = "") -> str:
    grade = facts.measures.grade

    def mean(value: float) -> str:
        return with_commas(value, 3) if rock.solid else "-"
    counted = "-" if lines is None else with_commas(lines)
    return (f"{label:>4} {with_commas(rock.rows):>10} {counted:>10} "
            f"{with_commas(rock.tonnes, 1):>16} {mean(rock.least):>7} {mean(rock.mean_density):>7} "
            f"{mean(rock.most):>7} {grade(rock.grade):10.4f} {grade(rock.top_grade):11.4f} "
            f"{with_commas(rock.barren):>8} "
            f"{with_commas(rock.rows - rock.solid):>7}{'  ' + name if name else ''}")


def _rock(facts: Facts) -> Iterator[str]:
    unit = facts.measures.grade_unit
    yield ("ROCK       rows   lines of           tonnes   t/m3:                   "
           f"{f'grade, {unit}:':<24} rows of")
    yield ("zone               its file                    least    mean    most       "
           f"mean        most    {f'0 {unit}':<5}     0 t")
    for zone, rock in enumerate(facts.of_zone):
        file = facts.zone_files[zone] if zone < len(facts.zone_files) else None
        yield _rock_line(facts, str(zone), rock, file.lines if file else None,
                         file.name if file else "")
    yield _rock_line(facts, "all", facts.of_all, None)


def cut_offs(facts: Facts) -> np.ndarray:
    """Returns cut-off grades, round in the unit in which they are reported: 0, and about eight up
    to near the highest, among them those that pay."""
    grade = facts.measures.grade
    top = grade(facts.of_all.top_grade)
    if top <= 0:
        return np.zeros(1)
    power = 10.0 ** np.floor(np.log10(top))
    steps = [round(power * part, 9)
             for part in (0.01, 0.02, 0.05, 0.1, 0.2, 0.3, 0.5, 0.7, 1, 1.5, 2, 3, 5, 7)]
    ends = [round(grade(one.break_even), 4)
            for one in facts.plan.destinations if one.break_even is not None]
    return np.array(sorted({0.0, *(step for step in steps if 0.02 * top < step < top),
                            *(end for end in ends if end < top)}))


def above_cut_offs(facts: Facts, cuts: np.ndarray,
                   taken: Optional[np.ndarray] = None) -> tuple[np.ndarray, np.ndarray]:
    """Tonnes at and above each cut-off, in the unit of grades, and kilograms of metal in them."""
    grade, tonnes = facts.blocks.grade, facts.blocks.tonnes
    if taken is not None:
        grade, tonnes = grade[taken], tonnes[taken]
    place = np.searchsorted(cuts, facts.measures.grade(grade), side="right")
    sums = (np.bincount(place, weights, len(cuts) + 1)
            for weights in (tonnes, tonnes * grade / 1000))
    found, metal = (part[::-1].cumsum()[::-1][1:] for part in sums)
    return found, metal


def _cutoffs(facts: Facts) -> Iterator[str]:
    cuts = cut_offs(facts)
    groups = [(f"zone {name}", facts.blocks.zone == zone)
              for zone, name in enumerate(facts.zone_names)]
    groups = (groups if len(groups) < 5 else []) + [("all", None)]
    yield "CUT-OFFS" + "".join(f"  {f'{name}: million t, {facts.measures.grade_unit}, kg':>32}"
                               for name, _ in groups)
    columns = [above_cut_offs(facts, cuts, taken) for _, taken in groups]
    for at, cut in enumerate(cuts):
        cells = ""
        for tonnes, metal in columns:
            grade = facts.measures.grade(1000 * metal[at] / tonnes[at]) if tonnes[at] else 0
            cells += f"  {tonnes[at] / 1e6:12.4f} {grade:8.4f} {metal[at]:10,.0f}"
        yield f"{shortest(cut, 6):>8}{cells}"


def _benches(facts: Facts) -> Iterator[str]:
    yield "BENCHES"
    yield ("   z    centroid      blocks            tonnes   "
           f"{f'mean {facts.measures.grade_unit}':>10}   wait for none")
    blocks = facts.blocks
    rows, tonnes = facts.by_bench(), facts.by_bench(blocks.tonnes)
    metal, free = facts.by_bench(blocks.tonnes * blocks.grade), facts.by_bench(facts.waits_for_none)
    low = facts.axes[2].least
    for at in range(len(rows) - 1, -1, -1):
        grade = facts.measures.grade(metal[at] / tonnes[at]) if tonnes[at] else 0
        yield (f"{low + at:4} {shortest(facts.centroid(2, low + at), 3):>11} "
               f"{with_commas(float(rows[at])):>11} {with_commas(float(tonnes[at]), 1):>17} "
               f"{grade:12.4f} {with_commas(float(free[at])):>15}")
    yield (f"{with_commas(free.sum())} blocks wait for none, {with_commas(facts.covered)} of them "
           "with rock above")


def _slopes(facts: Facts) -> Iterator[str]:
    yield ("SLOPES, degrees    N    NE     E    SE     S    SW     W    NW   too steep   arcs a "
           "block: mean   most   all rock")
    for number, zone in enumerate(facts.plan.zones):
        walls, arcs = wall.measured(facts.plan.grid, zone), facts.arcs[facts.blocks.zone == number]
        yield f"zone {number} asks   " + "".join(f" {angle:5.1f}"
                                                 for angle in walls.requested[wall.EIGHT])
        mean = with_commas(arcs.mean(), 2) if len(arcs) else "-"
        yield (f"  K = {zone.benches:2} gives"
               + "".join(f" {angle:5.1f}" for angle in walls.given[zone.benches][wall.EIGHT]) + " "
               f"{walls.too_steep[zone.benches]:11.1f} {mean:>20} {arcs.max(initial=0):6} "
               f"{walls.arcs[zone.benches]:10}")
    for (own, other), count in facts.contacts.below.items():
        yield (f"zone {own} below zone {other}, which is steeper: {with_commas(count)} of its "
               "blocks are fewer than K benches below that")
    for (own, other), count in facts.contacts.adjacent.items():
        yield (f"zone {own} next to zone {other}, which is steeper: the cones of "
               f"{with_commas(count)} of its blocks extend into that")


def _heights(facts: Facts) -> Iterator[str]:
    yield "WALLS that rise so many benches: degrees too steep in the worst bearing"
    yield "benches   " + "".join(f" {high:5}" for high in wall.RISES)
    for number, zone in enumerate(facts.plan.zones):
        over = too_steep_by_rise(facts.plan.grid, zone, zone.benches, wall.RISES[-1])
        yield f"{f'zone {number}':<10}" + "".join(f" {over[high - 1]:5.1f}" for high in wall.RISES)


def _sides(facts: Facts) -> Iterator[str]:
    yield ("SIDES    paying blocks whose slope leaves the model   by at most, m   blocks of the "
           "pit there")
    pit, at_side = facts.pit, facts.at_side()
    for leaving in facts.leaving():
        there = "-" if pit is None else with_commas((pit & at_side[leaving.side]).sum())
        yield (f"{leaving.side:<8} {with_commas(leaving.blocks):>44} {leaving.metres:15.1f} "
               f"{there:>25}")
    yield from _pit(facts, pit)


def _pit(facts: Facts, pit: Optional[np.ndarray]) -> Iterator[str]:
    if pit is None:
        yield "the ultimate pit was not computed, since it would take minutes: give one by --pit"
        return
    sums = pit_sums(facts, pit)
    yield (f"the ultimate pit: {with_commas(sums.blocks)} blocks, {with_commas(sums.ore, 1)} t of "
           f"ore with {facts.measures.grade(sums.grade):.4f} {facts.measures.grade_unit}, "
           f"{with_commas(sums.waste, 1)} t of waste, strip ratio {sums.strip or 0:.2f}, worth "
           f"{with_commas(facts.measures.money(sums.value), 2)}{facts.measures.unit}")


def _recoveries(facts: Facts, one: Destination) -> str:
    unit = facts.measures.grade_unit
    start = (f"from {shortest(facts.measures.grade(float(begin)), 6)} {unit} "
             if one.kind == "leach" else "" for begin, _ in one.bands)
    return ", ".join(f"{text}{shortest(share / 10, 1)} %"
                     for text, (_, share) in zip(start, one.bands))


def _destinations(facts: Facts) -> Iterator[str]:
    yield ("DESTINATIONS    1 kg of metal   an ounce    a pound        a tonne   a tonne of rock   "
           "breaks even   recovers")
    for number, one in enumerate(facts.plan.destinations):
        cost = f"costs {with_commas(facts.measures.money(one.cost / 100), 2)}"
        if one.kind == "dump":
            yield f"{number} {one.name[:13]:<13}{'':14} {'':10} {'':10} {'':14} {cost:>17}"
            continue
        kilogram = facts.measures.money(one.price / 100)
        prices = (with_commas(kilogram * share, 2) for share in (1, OUNCE / 1000, POUND, 1000))
        cells = " ".join(f"{cell:>{width}}" for cell, width in zip(prices, (14, 10, 10, 14)))
        even = ("never" if one.break_even is None
                else f"{facts.measures.grade(one.break_even):.4f} {facts.measures.grade_unit}")
        yield (f"{number} {one.name[:13]:<13}{cells} {cost:>17} {even:>13}   "
               f"{_recoveries(facts, one)}")
    if facts.measures.currency:
        yield f"prices and costs are in {facts.measures.currency}"


def _best_for(facts: Facts) -> Iterator[str]:
    unit = f"mean {facts.measures.grade_unit}"
    yield (f"BEST FOR           blocks            tonnes {unit:>12}    value a t "
           f"{facts.measures.in_money('value'):>20}   blocks by zone")
    plan, best, tonnes = facts.plan, facts.best, facts.blocks.tonnes
    count = len(plan.destinations)
    rows, mass = np.bincount(best, minlength=count), np.bincount(best, tonnes, count)
    metal, value = (np.bincount(best, tonnes * facts.blocks.grade, count),
                    facts.measures.money(np.bincount(best, facts.greatest, count)))
    zones = np.bincount(best * len(plan.zones) + facts.blocks.zone,
                        minlength=count * len(plan.zones)).reshape(count, -1)
    for at, one in enumerate(plan.destinations):
        grade = facts.measures.grade(metal[at] / mass[at]) if mass[at] else 0
        a_tonne = with_commas(value[at] / mass[at], 2) if mass[at] else "-"
        yield (f"{at} {one.name[:13]:<13} {with_commas(rows[at]):>9} "
               f"{with_commas(mass[at], 1):>17} {grade:12.4f} {a_tonne:>12} "
               f"{with_commas(value[at], 2):>20}  "
               f"{''.join(' ' + with_commas(cell) for cell in zones[at])}")
    paid = facts.greatest[facts.paying]
    yield (f"{with_commas(len(paid))} of {with_commas(len(facts))} blocks are worth more than 0, "
           f"{with_commas(facts.measures.money(paid.sum()), 2)}{facts.measures.unit} in all: no "
           "pit is worth more")
    cheapest = min(plan.destinations, key=lambda one: one.cost)
    yield (f"waste, rock of 0 {facts.measures.grade_unit}, is worth "
           f"{facts.cost_text(-cheapest.cost)} a tonne, at {cheapest.name}")


def spans(periods: Sequence[int]) -> str:
    """Periods as `0 to 3, 5`."""
    runs: list[list[int]] = []
    for period in periods:
        if runs and period == runs[-1][1] + 1:
            runs[-1][1] = period
        else:
            runs.append([period, period])
    return ", ".join(str(first) if first == last else f"{first} to {last}" for first, last in runs)


def _limit_text(limit: Optional[Limit], tonnes: float) -> str:
    if limit is None:
        return "any tonnes"
    least = "" if limit.lower is None else with_commas(float(limit.lower), 1)
    if limit.upper is None:
        return f"at least {least} t"
    begin = f"{least} to " if least else "at most "
    most = float(limit.upper)
    takes = f"; these tonnes take {with_commas(tonnes / most, 2)} periods" if most > 0 else ""
    return f"{begin}{with_commas(most, 1)} t{takes}"


def _resources(facts: Facts) -> Iterator[str]:
    plan = facts.plan
    rate = float(plan.rate)
    yield (f"RESOURCES  {plan.periods} periods; rate {shortest(100 * rate, 4)} % a period: a value "
           f"of the last one counts {(1 + rate) ** (1 - plan.periods):.3f} of one of period 0")
    for number, resource in enumerate(plan.resources):
        names = [one.name for one in plan.destinations]
        covered = "".join(f" {names[at]}" for at in sorted(resource.covers))
        others = "".join(f" {name}" for at, name in enumerate(names) if at not in resource.covers)
        tonnes = tonnes_covered(facts, number)
        yield (f"{number} {resource.name} covers{covered}{', and not' + others if others else ''}; "
               f"{with_commas(tonnes, 1)} t are best there")
        by_text: dict[str, list[int]] = {}
        for period in range(plan.periods):
            by_text.setdefault(_limit_text(plan.limits_of(number, period), tonnes),
                               []).append(period)
        for text, periods in by_text.items():
            yield f"    period {spans(periods)}: {text}"


def _files(facts: Facts) -> Iterator[str]:
    yield "FILES"
    lines = unlike_plan(facts)
    yield from lines or ["name, values, coefficients and limits are those of the plan"]
    yield (f"{with_commas(len(facts))} lines of blocks, {with_commas(facts.arcs.sum())} arcs, "
           f"{with_commas(facts.outline.uses)} coefficients")
