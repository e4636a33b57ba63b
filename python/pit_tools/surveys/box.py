"""The box with which the page of a survey begins: the pit's contents, when and by which programs
the survey was made, from which files, and what was reported and omitted on the way."""
from __future__ import annotations

import os
from datetime import datetime
from typing import Iterator, NamedTuple, Sequence

from pit_tools.files.records import sum_of
from pit_tools.pits.report import pit_sums
from pit_tools.plans.note import path_of_note
from pit_tools.surveys.facts import Facts
from pit_tools.texts.number_texts import with_commas
from pit_tools.version import version


class Inputs(NamedTuple):
    """The paths of a plan, an instance and zone files."""

    plan: str
    base: str
    zones: Sequence[str] = ()


class Entry(NamedTuple):
    """A row of the box: its name, and its lines."""

    name: str
    lines: list[str]


def box(facts: Facts, inputs: Inputs) -> list[Entry]:
    """The rows of the box that have lines."""
    note = facts.note
    entries = [Entry("pit", list(_pit(facts))),
               Entry("remark", facts.remarks),
               Entry("made",
                     [f"{datetime.now().astimezone():%Y-%m-%d %H:%M %Z}", *version().splitlines()]),
               Entry("plan", [f"{record}: {said}" for record, said in note.said]
                     or [",".join(record) for record in facts.plan.records()]),
               Entry("note", note.notes), Entry("import", note.facts),
               Entry("reconciled", list(_reconciled(facts))),
               Entry("import: look at", note.warnings), Entry("inputs", list(_sums(facts, inputs)))]
    return [entry for entry in entries if entry.lines]


def _pit(facts: Facts) -> Iterator[str]:
    if facts.pit is None:
        yield "the ultimate pit was not computed, since it would take minutes: give one by --pit"
        return
    sums, measures = pit_sums(facts, facts.pit), facts.measures
    strip = "none" if sums.strip is None else f"{sums.strip:.2f}"
    yield (f"{with_commas(sums.ore, 0)} t of ore with {measures.grade(sums.grade):.4f} "
           f"{measures.grade_unit}, {with_commas(sums.waste, 0)} t of waste, strip ratio {strip}, "
           f"in {with_commas(sums.blocks)} blocks")
    yield (f"{with_commas(sums.metal, 1)} kg of metal, of which {with_commas(sums.recovered, 1)} "
           "kg are recovered")
    money = measures.currency or "in units of 100 cents"
    yield f"worth {with_commas(measures.money(sums.value), 2)} {money}, of any period"


def _reconciled(facts: Facts) -> Iterator[str]:
    """Returns the comparison of the resource report with the instance."""
    kept = facts.note.reconciled
    if kept.rows:
        yield from kept.lines(facts.held, facts.measures)


def _sums(facts: Facts, inputs: Inputs) -> Iterator[str]:
    """The files by their SHA-256; precedences, which may be gigabytes, by their length."""
    paths = [inputs.plan, *([path_of_note(inputs.plan)] if facts.note.is_used else []),
             *inputs.zones]
    for path in [*paths, inputs.base + ".blocks", inputs.base + ".pcpsp"]:
        yield f"{sum_of(path)}  {path}"
    yield f"{with_commas(os.path.getsize(inputs.base + '.prec'))} bytes  {inputs.base}.prec"
    yield from facts.note.exports
