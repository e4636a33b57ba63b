"""A section through a deposit, or a bench of it, with the outlines of pits, as one picture."""
from __future__ import annotations

from typing import Optional, Sequence

import numpy as np
from matplotlib.figure import Figure
from matplotlib.lines import Line2D

from pit_tools.errors import UserError, quoted
from pit_tools.instances.block_files import read_blocks
from pit_tools.instances.models import Outline
from pit_tools.pits.files import NamedPit
from pit_tools.plans.file import read_plan
from pit_tools.plans.note import read_note
from pit_tools.surveys.facts import Facts
from pit_tools.surveys.pictures import (Plane, draw_plane, figure, grade_legend, plane_at,
                                        plane_heights, richest, zone_legend)
from pit_tools.texts.decimals import number_of

COLOURS = ("#0b3c8c", "#111111", "#7b1fa2", "#00695c", "#b34700")


def facts_of_blocks(plan_path: str, base: str) -> Facts:
    """The parts of a plan and an instance that a section shows: only the block file is read."""
    blocks = read_blocks(base + ".blocks")
    return Facts(read_plan(plan_path), blocks, np.zeros(len(blocks), np.int64),
                 Outline({}, np.zeros((len(blocks), 1)), 0, []), note=read_note(plan_path))


def plane_of(facts: Facts, word: str) -> Plane:
    """Returns the plane of a text, as y=2320. It raises UserError for any other text."""
    axis, _, metres = word.partition("=")
    place = number_of(metres.strip())
    if axis not in ("x", "y", "z") or place is None:
        raise UserError(f"--section: {quoted(word)}: give an axis and metres, as y=2320")
    return plane_at(facts, axis, place)


def drawn_section(facts: Facts, plane: Optional[Plane], pits: Sequence[NamedPit], by: str = "grade",
                  title: str = "") -> Figure:
    """A plane, or that along x through most metal, by grade or zone; the first of several pits is
    dashed."""
    plane = plane or Plane("y", richest(facts, 1))
    high = plane_heights(facts, [plane.normal], 10)[0]
    drawn = figure(10.8, high + 1.9)
    axes, legends = drawn.subplots(2, 1, gridspec_kw={"height_ratios": [high, 0.55]})
    outlines, lines = [], []
    for number, pit in enumerate(pits):
        colour = COLOURS[number % len(COLOURS)]
        style = "--" if number == 0 and len(pits) > 1 else "-"
        outlines.append((pit.of_blocks(len(facts)), colour, style))
        lines.append(Line2D([], [], color=colour, linestyle=style, linewidth=1.8,
                            label=pit.name or pit.path))
    draw_plane(facts, axes, plane, by, outlines)
    if title:
        drawn.suptitle(title, x=0.02, ha="left", fontsize=12)
    legends.set_axis_off()
    handles = grade_legend(facts) if by == "grade" else zone_legend(facts)
    legends.legend(handles=handles + lines, ncol=6, fontsize=8, loc="upper left", frameon=False,
                   borderaxespad=0).set_in_layout(False)
    return drawn
