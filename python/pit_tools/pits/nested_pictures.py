"""The picture of nested pits: tonnes and value pit by pit, and their outlines on a section."""
from __future__ import annotations

from typing import TYPE_CHECKING, Sequence

import matplotlib
import numpy as np
from matplotlib.colors import to_hex
from matplotlib.figure import Figure
from matplotlib.lines import Line2D

from pit_tools.pits.nested import NestedPit
from pit_tools.surveys.facts import Facts
from pit_tools.surveys.pictures import (ORE, WASTE, Plane, draw_plane, figure, grade_legend,
                                        plane_heights, richest)

if TYPE_CHECKING:
    from matplotlib.axes import Axes

VALUE, STRIP = "#111111", "#4c78a8"


def nested_picture(facts: Facts, pits: Sequence[NestedPit]) -> Figure:
    """Ore, waste, value and strip ratio of each pit, the smallest factor first; and a section
    along x through most metal with the outlines of all."""
    high = plane_heights(facts, "y", 11)[0]
    drawn = figure(12, 4.6 + high + 1.6)
    rows = drawn.subplots(3, 1, gridspec_kw={"height_ratios": [4.4, high, 0.6]})
    by_pit, section, legend = rows
    _draw_tonnes(by_pit, facts, pits)
    shades = matplotlib.colormaps["viridis"](np.linspace(0, 0.9, len(pits)))
    colours = [to_hex(shade) for shade in shades]
    outlines = [(pit.in_pit, colour, "-") for pit, colour in zip(pits, colours)]
    # The largest first, so that the smaller ones are drawn over it.
    draw_plane(facts, section, Plane("y", richest(facts, 1)), "grade", outlines[::-1])
    lines = [Line2D([], [], color=colour, label=f"factor {pit.name}")
             for pit, colour in zip(pits, colours)]
    legend.set_axis_off()
    legend.legend(handles=[*grade_legend(facts), *lines], ncol=6, fontsize=8, loc="upper left",
                  frameon=False, borderaxespad=0).set_in_layout(False)
    return drawn


def _draw_tonnes(axes: Axes, facts: Facts, pits: Sequence[NestedPit]) -> None:
    """Bars of ore and waste in millions of tonnes, and lines of value and strip ratio."""
    at = np.arange(len(pits))
    ore, waste = (np.array([getattr(pit.sums, name) for pit in pits]) / 1e6
                  for name in ("ore", "waste"))
    bars = [axes.bar(at, ore, 0.7, color=ORE, label="ore"),
            axes.bar(at, waste, 0.7, ore, color=WASTE, label="waste")]
    axes.set_xticks(at, [pit.name for pit in pits])
    axes.set_xlabel("factor of the price")
    axes.set_ylabel("million tonnes")
    axes.set_title("pit by pit; ore and values are those at factor 1", loc="left", fontsize=10)
    money = np.array([facts.measures.money(pit.sums.value) for pit in pits]) / 1e6
    value = axes.twinx()
    bars += value.plot(at, money, color=VALUE, marker="o", markersize=4, label="value")
    currency = facts.measures.currency or "units of 100 cents"
    value.set_ylabel(f"value, million {currency}")
    value.set_ylim(min(0, *money * 1.08), max(1e-9, *money * 1.08))
    strips = np.array([np.nan if pit.sums.strip is None else pit.sums.strip for pit in pits])
    strip = axes.twinx()
    strip.spines["right"].set_position(("outward", 55))
    bars += strip.plot(at, strips, color=STRIP, marker="s", markersize=4, linestyle="--",
                       label="strip ratio")
    strip.set_ylabel("strip ratio, t/t")
    strip.set_ylim(0, max(1e-9, np.nanmax([*strips, 0]) * 1.08))
    axes.legend(handles=bars, fontsize=8, ncol=4, loc="lower right", bbox_to_anchor=(1, 1),
                frameon=False)
