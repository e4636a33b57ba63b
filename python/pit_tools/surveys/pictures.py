"""Pictures of a survey: each function returns a matplotlib Figure, drawn without a screen."""
from __future__ import annotations

import io
from typing import Any, Callable, Iterator, NamedTuple, Optional, Sequence

import matplotlib
import numpy as np
from matplotlib.axes import Axes
from matplotlib.backends.backend_agg import FigureCanvasAgg
from matplotlib.collections import LineCollection
from matplotlib.colors import BoundaryNorm, ListedColormap
from matplotlib.figure import Figure
from matplotlib.patches import Patch

from pit_tools import progress
from pit_tools.errors import UserError
from pit_tools.pits.report import Line
from pit_tools.plans import walls as wall
from pit_tools.surveys.facts import Facts
from pit_tools.surveys.look_at import tonnes_covered
from pit_tools.surveys.pit import cumulative, pit_parts
from pit_tools.surveys.text import above_cut_offs
from pit_tools.texts.formats import MOST_HEIGHT
from pit_tools.texts.number_texts import shortest

#: From barren to rich.
GRADE_COLOURS = ("#ece8df", "#fde3a7", "#fdbb63", "#f4813f", "#d1422b", "#7f1420")

#: Of zones, in turn.
ZONE_COLOURS = ("#4c78a8", "#e0a030", "#72a86b", "#b279a2", "#9d755d", "#79b8b2", "#d67195",
                "#8a8a8a", "#c7b446", "#5f5fa8")

# A `$` in a name is a character of the name, and begins no formula.
matplotlib.rcParams["text.parse_math"] = False

OUTLINE, SIDE, GROUND = "#111111", "#d00000", "#7a5c2e"

ORE, WASTE = "#d98032", "#c9c4b8"


def figure(wide: float, high: float) -> Figure:
    """An empty figure, in inches."""
    made = Figure(figsize=(wide, high), layout="constrained")
    FigureCanvasAgg(made)
    return made


def png_of(drawn: Figure, dots: int = 96) -> bytes:
    """The picture as a PNG file."""
    file = io.BytesIO()
    drawn.savefig(file, format="png", dpi=dots)
    return file.getvalue()


def zone_colour(zone: int) -> str:
    return ZONE_COLOURS[zone % len(ZONE_COLOURS)]


def round_numbers(top: float, many: int = 5) -> np.ndarray:
    """0 and `many` round numbers that rise evenly to near the top."""
    if top <= 0:
        return np.arange(many + 1.0)
    step = top / many
    power = 10.0 ** np.floor(np.log10(step))
    step = max((part for part in (1, 1.5, 2, 2.5, 3, 4, 5, 6, 8, 10)
                if part * power <= step * 1.0001), default=1) * power
    return np.arange(many + 1) * step


def grade_ends(facts: Facts) -> np.ndarray:
    """Returns the smallest grades of the shades, in the unit in which they are reported: 0; the
    smallest that pays, so that the first shade pays nowhere; and round numbers above it up to the
    richest rock."""
    graded = facts.measures.grade(facts.blocks.grade[facts.blocks.grade > 0])
    top = (float(np.percentile(graded, 99.5)) if len(graded) else 1.0) * 0.85
    pays = [facts.measures.grade(one.break_even)
            for one in facts.plan.destinations if one.break_even]
    if not pays or min(pays) >= top:
        return round_numbers(top, len(GRADE_COLOURS) - 1)
    least = float(f"{min(pays):.3g}")
    above = round_numbers(top, 12)
    above = above[above > 1.05 * least]
    taken = np.unique(np.linspace(0, len(above) - 1, len(GRADE_COLOURS) - 2).round().astype(int))
    return np.array([0, least, *above[taken]])


def _extent(facts: Facts, across: int, up: int) -> tuple[float, float, float, float]:
    """Metres of the corners of a picture whose axes are these two."""
    left, low = (facts.centroid(axis, facts.axes[axis].least - 0.5) for axis in (across, up))
    right, high = (facts.centroid(axis, facts.axes[axis].most + 0.5) for axis in (across, up))
    return left, right, low, high


def _lines_where(across: np.ndarray, extent: Sequence[float], shape: Sequence[int],
                 is_level: bool) -> list[Any]:
    """The edges of cells, below row r of column c or to the left of column c in row r, if `across`
    is true."""
    left, right, low, high = extent
    wide, tall = (right - left) / shape[1], (high - low) / shape[0]
    rows, columns = np.nonzero(across)
    x, y = left + columns * wide, low + rows * tall
    ends = (x + wide, y) if is_level else (x, y + tall)
    return list(zip(zip(x, y), zip(*ends)))


def draw_outline(axes: Axes, mask: np.ndarray, extent: Sequence[float],
                 has_rock: Optional[np.ndarray] = None, colour: str = OUTLINE, width: float = 1.8,
                 style: str = "-", is_open_above: bool = False) -> None:
    """Draws lines between the cells of a mask (up, across) and other cells. If `has_rock` shows
    which cells have a block, there is none between a pit and air, and lines at a side of the
    picture are red, except the upper one of an open picture."""
    beside = np.pad(~mask if has_rock is None else has_rock & ~mask, 1,
                    constant_values=has_rock is None)
    outside = np.pad(np.zeros_like(mask), 1, constant_values=has_rock is not None)
    outside[-1, :] &= not is_open_above
    inside = np.pad(mask, 1)
    for other, its_colour in ((beside, colour), (outside, SIDE)):
        level = (inside[1:] & other[:-1]) | (inside[:-1] & other[1:])
        upright = (inside[:, 1:] & other[:, :-1]) | (inside[:, :-1] & other[:, 1:])
        lines = _lines_where(level[:, 1:-1], extent, mask.shape, True)
        lines += _lines_where(upright[1:-1], extent, mask.shape, False)
        its_width = width if its_colour == colour else 2 * width
        axes.add_collection(LineCollection(lines, colors=its_colour, linewidths=its_width,
                                           linestyles=style, capstyle="butt"))


def _plain_axes(axes: Axes, across: str, up: str, title: str) -> None:
    axes.set_xlabel(f"{across}, m")
    axes.set_ylabel(f"{up}, m")
    axes.set_title(title, loc="left", fontsize=10)
    axes.ticklabel_format(useOffset=False, style="plain")
    axes.tick_params(labelsize=8)


def maps(facts: Facts) -> Figure:
    """From above: the metal of each column, the ground, and the floor of the pit with the model's
    sides."""
    extent = _extent(facts, 0, 1)
    shape = (extent[3] - extent[2]) / (extent[1] - extent[0])
    drawn = figure(14, min(9, max(3.2, 4.1 * shape + 1.1)))
    metal, ground, floor = drawn.subplots(1, 3)
    kilograms = facts.metal_by_column()
    top = np.nanmax(kilograms) if np.isfinite(kilograms).any() else 1
    shown = metal.imshow(kilograms, origin="lower", extent=extent, cmap="YlOrRd", vmin=0,
                         vmax=top or 1, interpolation="nearest")
    drawn.colorbar(shown, ax=metal, shrink=0.8, label="kg in a column")
    _plain_axes(metal, "x", "y", "metal, from above; north (+y) is up")
    heights = facts.ground()
    heights = np.where(heights < 0, np.nan, facts.centroid(2, heights + 0.5))
    shown = ground.imshow(heights, origin="lower", extent=extent, cmap="cividis",
                          interpolation="nearest")
    drawn.colorbar(shown, ax=ground, shrink=0.8, label="m")
    _plain_axes(ground, "x", "y", "ground: the top of each column")
    _draw_floor(facts, drawn, floor, extent)
    return drawn


def _draw_floor(facts: Facts, drawn: Figure, axes: Axes, extent: Sequence[float]) -> None:
    pit = facts.pit
    has_rock = facts.ground() >= 0
    axes.imshow(np.where(has_rock, 1.0, np.nan), origin="lower", extent=extent,
                cmap=ListedColormap(["#f1efe8"]), interpolation="nearest")
    if pit is None or not pit.any():
        _plain_axes(axes, "x", "y", "the ultimate pit has no block" if pit is not None
                    else "the ultimate pit was not computed")
        return
    floor = facts.floor(pit)
    shown = axes.imshow(facts.centroid(2, floor - 0.5), origin="lower", extent=extent,
                        cmap="viridis", interpolation="nearest")
    drawn.colorbar(shown, ax=axes, shrink=0.8, label="m")
    at_side = np.zeros(has_rock.size, dtype=bool)
    at_side[facts.column[np.any([taken & pit for taken in facts.at_side().values()],
                                axis=0)]] = True
    draw_outline(axes, at_side.reshape(has_rock.shape), extent, colour=SIDE, width=1.6)
    _plain_axes(axes, "x", "y", f"pit's floor; red: {at_side.sum()} columns at a side")


def _slice(facts: Facts, axis: int, index: int, across: int,
           up: int) -> tuple[np.ndarray, np.ndarray, np.ndarray]:
    """The blocks of a plane, and their places (up, across) in its picture."""
    taken = np.flatnonzero(facts.indices(axis) == index)
    rows = facts.indices(up)[taken] - facts.axes[up].least
    columns = facts.indices(across)[taken] - facts.axes[across].least
    return taken, rows, columns


def _empty(facts: Facts, across: int, up: int, value: float = np.nan) -> np.ndarray:
    shape = [facts.axes[axis].most - facts.axes[axis].least + 1 for axis in (up, across)]
    return np.full(shape, value)


def richest(facts: Facts, axis: int) -> int:
    """The index along an axis whose plane holds most metal."""
    metal = np.bincount(facts.indices(axis), facts.blocks.tonnes * facts.blocks.grade)
    return int(metal.argmax()) if metal.any() else int(np.bincount(facts.indices(axis)).argmax())


PLANES = {"y": (1, 0, 2, "section along x at y = {} m, seen from the south"),
          "x": (0, 1, 2, "section along y at x = {} m, north is right"),
          "z": (2, 0, 1, "bench at z = {} m, from above")}


class Plane(NamedTuple):
    """A plane of blocks: the axis across it, and its index."""

    normal: str
    place: int


def plane_at(facts: Facts, normal: str, metres: float) -> Plane:
    """Returns the plane of blocks nearest to a coordinate. Raises UserError if there is no
    block."""
    number = PLANES[normal][0]
    away = (metres - facts.origin[number]) / facts.metres[number]
    index = round(away) if abs(away) < MOST_HEIGHT else -1
    if not (facts.indices(number) == index).any():
        first, last = (facts.centroid(number, end)
                       for end in (facts.axes[number].least, facts.axes[number].most))
        raise UserError(f"there is no block at {normal} = {metres:g} m: blocks are from {first:g} "
                        f"to {last:g} m")
    return Plane(normal, index)


def draw_plane(facts: Facts, axes: Axes, plane: Plane, what: str = "grade",
               pits: Sequence[tuple[np.ndarray, str, str]] = ()) -> None:
    """Draws the blocks of a plane by grade or by zone, and the outlines of pits: (bool (n,),
    colour, style)."""
    axis, across, up, title = PLANES[plane.normal]
    taken, rows, columns = _slice(facts, axis, plane.place, across, up)
    extent = _extent(facts, across, up)
    cells = _empty(facts, across, up)
    has_rock = np.zeros(cells.shape, dtype=bool)
    has_rock[rows, columns] = True
    if what == "grade":
        ends = grade_ends(facts)
        cells[rows, columns] = facts.measures.grade(facts.blocks.grade[taken])
        colours, norm = (ListedColormap(list(GRADE_COLOURS[:len(ends)])),
                         BoundaryNorm([*ends, 1e9], len(ends)))
    else:
        cells[rows, columns] = facts.blocks.zone[taken]
        count = len(facts.plan.zones)
        colours, norm = (ListedColormap([zone_colour(zone) for zone in range(count)]),
                         BoundaryNorm(np.arange(-0.5, count), count))
    axes.imshow(cells, origin="lower", extent=extent, cmap=colours, norm=norm,
                interpolation="nearest")
    for pit, colour, style in pits:
        mask = np.zeros(cells.shape, dtype=bool)
        mask[rows, columns] = pit[taken]
        draw_outline(axes, mask, extent, has_rock, colour, style=style, is_open_above=up == 2)
    place = shortest(facts.centroid(axis, plane.place), 3)
    _plain_axes(axes, "xyz"[across], "xyz"[up], title.format(place))


def grade_legend(facts: Facts) -> list[Patch]:
    """The shades of grades."""
    ends = [shortest(end, 4) for end in grade_ends(facts)]
    names = ([f"{low} to {high}" for low, high in zip(ends, ends[1:])]
             + [f"{ends[-1]} {facts.measures.grade_unit} and more"])
    if any(one.break_even for one in facts.plan.destinations):
        names[0] += ": pays nowhere"
    return [Patch(facecolor=colour, edgecolor="#999999", linewidth=0.5, label=name)
            for colour, name in zip(GRADE_COLOURS, names)]


def zone_legend(facts: Facts) -> list[Patch]:
    return [Patch(facecolor=zone_colour(zone), label=zone_label(facts, zone))
            for zone in range(min(10, len(facts.plan.zones)))]


def zone_label(facts: Facts, zone: int) -> str:
    """A zone by its name, as pictures have it."""
    return f"zone {facts.zone_names[zone]}".replace("$", r"\$")


def plane_heights(facts: Facts, normals: Sequence[str], wide: float) -> list[float]:
    """Returns how high each plane's picture is, in inches, at this width: at most 1.2 times that,
    and at least an eighth."""
    found = []
    for normal in normals:
        _, across, up, _ = PLANES[normal]
        left, right, low, high = _extent(facts, across, up)
        found.append(min(1.2, max(0.125, (high - low) / (right - left))) * wide)
    return found


def planes(facts: Facts, requested: Sequence[Plane] = ()) -> Figure:
    """Draws sections and benches by grade and by zone, with the pit: the requested ones, or one
    along x, one along y and a bench through most metal."""
    shown = list(requested) or [Plane(normal, richest(facts, PLANES[normal][0]))
                                for normal in "yxz"]
    heights = plane_heights(facts, [plane.normal for plane in shown], 5.8)
    drawn = figure(13, 0.6 + sum(heights) + len(shown) * 0.85)
    legends, *rows = drawn.subplots(len(shown) + 1, 2,
                                    gridspec_kw={"height_ratios": [0.45, *heights]})
    for axes, handles in zip(legends, (grade_legend(facts), zone_legend(facts))):
        axes.set_axis_off()
        axes.legend(handles=handles, ncol=3, fontsize=8, loc="center left", bbox_to_anchor=(0, 0.5),
                    frameon=False, columnspacing=1.2, handletextpad=0.5,
                    borderaxespad=0).set_in_layout(False)
    pits = [] if facts.pit is None else [(facts.pit, OUTLINE, "-")]
    for (by_grade, by_zone), plane in zip(rows, shown):
        draw_plane(facts, by_grade, plane, "grade", pits)
        draw_plane(facts, by_zone, plane, "zone", pits)
    return drawn


def grade_tonnage(facts: Facts) -> Figure:
    """Tonnes and mean grade above each cut-off, by zone."""
    drawn = figure(13, 4.4)
    tonnes_axes, grade_axes = drawn.subplots(1, 2)
    cuts = np.linspace(0, max(facts.measures.grade(facts.of_all.top_grade), 1e-9), 120)
    unit = facts.measures.grade_unit
    groups = [(zone_label(facts, zone), zone_colour(zone), facts.blocks.zone == zone)
              for zone in range(min(10, len(facts.plan.zones)))]
    for name, colour, taken in [*groups, ("all", "#000000", None)]:
        tonnes, metal = above_cut_offs(facts, cuts, taken)
        style = {"color": colour, "label": name, "linewidth": 2 if taken is None else 1.4}
        tonnes_axes.plot(cuts, tonnes / 1e6, **style)
        some = tonnes > 0
        grade_axes.plot(cuts[some], facts.measures.grade(1000 * metal[some] / tonnes[some]),
                        **style)
    for axes in (tonnes_axes, grade_axes):
        for number, one in enumerate(facts.plan.destinations):
            even = None if one.break_even is None else facts.measures.grade(one.break_even)
            if even is not None and even < cuts[-1]:
                axes.axvline(even, color="#888888", linewidth=0.8, linestyle=":")
                axes.annotate(f"{one.name} pays", (even, 1 - 0.2 * number),
                              xycoords=("data", "axes fraction"), fontsize=7, rotation=90, va="top",
                              ha="right", color="#666666")
        axes.set_xlabel(f"cut-off, {unit}")
        axes.legend(fontsize=8)
        axes.grid(alpha=0.3)
    tonnes_axes.set_title("million tonnes at and above the cut-off", loc="left", fontsize=10)
    grade_axes.set_title(f"mean grade of these, {unit}", loc="left", fontsize=10)
    return drawn


def rose(facts: Facts) -> Figure:
    """Draws slopes requested and obtained by bearing, a rose for each of the first zones, and walls
    by height."""
    zones = facts.plan.zones[:4]
    drawn = Figure(figsize=(3.4 * len(zones) + 4.2, 4.2))
    FigureCanvasAgg(drawn)
    drawn.subplots_adjust(left=0.04, right=0.98, bottom=0.2, top=0.86, wspace=0.4)
    bearings = np.radians(np.append(wall.BEARINGS, 360))
    for number, zone in enumerate(zones):
        axes = drawn.add_subplot(1, len(zones) + 1, number + 1, projection="polar")
        axes.set_theta_zero_location("N")
        axes.set_theta_direction(-1)
        walls = wall.measured(facts.plan.grid, zone)
        for values, colour, style, name in (
                (walls.requested, "#2a7f3f", "-", "asked"),
                (walls.given[zone.benches], "#c0392b", "--", f"given by K = {zone.benches}")):
            axes.plot(bearings, np.append(values, values[0]), label=name, color=colour,
                      linestyle=style, linewidth=2 if style == "-" else 1.4)
        axes.set_rlim(0, 90)
        axes.set_rgrids([30, 45, 60, 90], ["30", "45", "60", "90"], fontsize=7)
        axes.set_thetagrids(wall.EIGHT, wall.EIGHT_NAMES, fontsize=8)
        axes.set_title(f"{zone_label(facts, number)}: degrees", fontsize=10, pad=14)
        axes.legend(fontsize=7, loc="lower center", bbox_to_anchor=(0.5, -0.34))
    axes = drawn.add_subplot(1, len(zones) + 1, len(zones) + 1)
    _draw_heights(facts, axes)
    return drawn


def _draw_heights(facts: Facts, axes: Axes) -> None:
    high = np.arange(3, 61)
    for number, zone in enumerate(facts.plan.zones[:10]):
        over = (wall.straight_walls(facts.plan.grid, zone, zone.benches, 60)
                - wall.requested_straight(zone)).max(axis=1)
        axes.plot(high, over[high - 1], color=zone_colour(number),
                  label=f"{zone_label(facts, number)}, K = {zone.benches}")
    axes.axhline(2, color="#888888", linewidth=0.8, linestyle=":")
    benches = facts.axes[2].most - facts.axes[2].least
    if benches <= 60:
        axes.axvline(benches, color="#888888", linewidth=0.8, linestyle=":")
        axes.annotate("this model", (benches, 1), xycoords=("data", "axes fraction"), fontsize=7,
                      rotation=90, va="top", ha="right", color="#666666")
    axes.set_ylim(bottom=0)
    axes.set_xlabel("benches that a wall rises")
    axes.set_title("degrees too steep, worst bearing", loc="left", fontsize=10)
    axes.legend(fontsize=7)
    axes.grid(alpha=0.3)


def periods(facts: Facts) -> Figure:
    """Draws the tonnes that resources allow by period, and those of the pit."""
    count = max(1, len(facts.plan.resources))
    drawn = figure(min(15, 4.6 * count + 1), 3.8)
    if not facts.plan.resources:
        drawn.add_subplot().set_title("the plan has no resource", loc="left", fontsize=10)
        return drawn
    for number, (axes, resource) in enumerate(zip(drawn.subplots(1, count, squeeze=False)[0],
                                                  facts.plan.resources)):
        limits = [facts.plan.limits_of(number, period) for period in range(facts.plan.periods)]
        most = [float(one.upper) / 1e6 if one and one.upper is not None else np.nan
                for one in limits]
        least = [float(one.lower) / 1e6 if one and one.lower is not None else np.nan
                 for one in limits]
        at = np.arange(facts.plan.periods)
        axes.bar(at, most, color="#9ecae1", edgecolor="#4c78a8", label="at most")
        axes.bar(at, least, width=0.5, color="none", edgecolor="#c0392b", hatch="//",
                 label="at least")
        for period, one in enumerate(limits):
            if one is None:
                axes.annotate("any tonnes", (period, 0), rotation=90, fontsize=8, ha="center",
                              va="bottom", color="#c0392b")
        tonnes = tonnes_covered(facts, number, facts.pit) / 1e6
        axes.axhline(tonnes / facts.plan.periods, color="#111111", linestyle="--", linewidth=1.2,
                     label=f"{'the pit' if facts.pit is not None else 'all that is best there'}: "
                     f"{tonnes:,.4g}, spread evenly")
        axes.set_title(f"{resource.name}: million t by period", loc="left", fontsize=10)
        axes.set_xlabel("period")
        axes.set_ylim(bottom=0)
        axes.xaxis.get_major_locator().set_params(integer=True)
        axes.legend(fontsize=7)
    return drawn


def rock(facts: Facts) -> Figure:
    """Ore and waste by bench, destinations by zone, and tonnes a cubic metre."""
    drawn = figure(14, 4.4)
    benches, destinations, density = drawn.subplots(1, 3)
    _draw_benches(facts, benches)
    names = [one.name for one in facts.plan.destinations]
    base = np.zeros(len(names))
    for zone in range(len(facts.plan.zones)):
        taken = facts.blocks.zone == zone
        tonnes = np.bincount(facts.best[taken], facts.blocks.tonnes[taken], len(names)) / 1e6
        destinations.bar(names, tonnes, bottom=base, color=zone_colour(zone),
                         label=zone_label(facts, zone))
        base += tonnes
    destinations.set_title("million t that are best for a destination, by zone", loc="left",
                           fontsize=10)
    destinations.legend(fontsize=8)
    solid = facts.blocks.tonnes > 0
    values = [facts.blocks.tonnes[solid & (facts.blocks.zone == zone)] / facts.volume
              for zone in range(len(facts.plan.zones))]
    names = [zone_label(facts, zone) for zone in range(len(values))]
    density.hist(values, bins=40, stacked=True,
                 color=[zone_colour(zone) for zone in range(len(values))], label=names)
    density.legend(fontsize=8)
    density.set_title("blocks by tonnes per cubic metre", loc="left", fontsize=10)
    density.set_xlabel("t/m3")
    return drawn


def _draw_benches(facts: Facts, axes: Axes) -> None:
    is_waste = np.array(facts.is_waste_place)[facts.best]
    tonnes = facts.blocks.tonnes / 1e6
    heights = [facts.centroid(2, index)
               for index in range(facts.axes[2].least, facts.axes[2].most + 1)]
    ore, waste = facts.by_bench(tonnes * ~is_waste), facts.by_bench(tonnes * is_waste)
    axes.barh(heights, ore, height=0.9 * facts.metres[2], color="#d1422b", label="ore")
    axes.barh(heights, waste, left=ore, height=0.9 * facts.metres[2], color="#cfc8b8",
              label="waste")
    pit = facts.pit
    if pit is not None and pit.any():
        axes.plot(facts.by_bench(tonnes * pit), heights, color=OUTLINE, marker=".", linewidth=1.2,
                  label="in the pit")
    axes.set_ylabel("z, m")
    axes.set_title("million t by bench", loc="left", fontsize=10)
    axes.legend(fontsize=8)


def all_of_them(facts: Facts, requested: Sequence[Plane] = ()) -> list[tuple[str, str, Figure]]:
    """Yields the pictures of a survey: a short name, what to look for, and the figure; requested
    sections have their own."""
    drawers: list[tuple[str, str, Callable[[], Figure]]] = [
        ("maps", "Is north up, and the ore where it is in the package? A model that is mirrored, "
                 "turned or cut shows here. If the floor is framed in red the pit ends at a side "
                 "of the model, and its wall costs nothing.", lambda: maps(facts)),
        ("sections", "Through the planes that contain most metal; the line is the ultimate pit. "
                     "Look for air as rock, missing rows, and exchanged zones.",
         lambda: planes(facts)),
        ("more-sections", "The requested sections.", lambda: planes(facts, requested)),
        ("cut-offs", "Compare the curve with the resource report.",
         lambda: grade_tonnage(facts)),
        ("slopes", "Green is requested, red is what the cones of K give. Each wall of the rose has "
                   "its own slope: is each where it should be?", lambda: rose(facts)),
        ("periods", "What resources allow, compared with the tonnes of the "
                    "pit.", lambda: periods(facts)),
        ("rock", "Ore is best at a mill or a leach.", lambda: rock(facts)),
    ]
    found = []
    for name, message, draw in drawers:
        if requested or name != "more-sections":
            progress.step(f"draws {name}")
            found.append((name, message, draw()))
    return [*found, *_of_the_pit(facts)]


def _of_the_pit(facts: Facts) -> Iterator[tuple[str, str, Figure]]:
    """Draws the pit's contents by zone, and its cash flow by bench and by nested pit, as far as
    each is known."""
    parts = pit_parts(facts)
    if parts is None:
        return
    progress.step("draws the pit by zone and its cash flow")
    yield ("zones-of-the-pit", "Which zones carry the pit? Compare the tonnes with those of the "
                               "package's own pit.", zones_of_the_pit(facts, parts.zones[:-1]))
    benches = parts.benches[:-1]
    yield ("cash-flow", "From the top bench down, undiscounted: how far the pit is in debt before "
           "its ore pays.", cash_flow(facts, benches, [
               f"z = {shortest(line.z or 0.0, 3)}" for line in benches]))
    if parts.nested:
        yield ("nested-pits", "What each nested pit adds to the pit before it, at the plan's "
                              "price: where the sum rises little, the last pit risks much for "
                              "little.",
               cash_flow(facts, parts.nested, [f"factor {line.name}" for line in parts.nested]))


#: The most zones, and lines of cash flow, of a picture.
MOST_BARS = 60


def zones_of_the_pit(facts: Facts, lines: Sequence[Line]) -> Figure:
    """Draws tonnes of ore and waste, the grade of ore, and the value of each zone in the pit; of
    very many zones those with most tonnes."""
    heavy = sorted(lines, key=lambda line: -line.sums.ore - line.sums.waste)[:MOST_BARS]
    shown = [line for line in lines if line in heavy]
    drawn = figure(14, 1.4 + 0.34 * max(4, len(shown)))
    tonnes, grade, value = drawn.subplots(1, 3, sharey=True)
    at = np.arange(len(shown))
    ore, waste = (np.array([getattr(line.sums, name) for line in shown]) / 1e6
                  for name in ("ore", "waste"))
    tonnes.barh(at, ore, color=ORE, label="ore")
    tonnes.barh(at, waste, left=ore, color=WASTE, label="waste")
    zones = [facts.zone_names.index(line.name) for line in shown]
    tonnes.set_yticks(at, [zone_label(facts, zone) for zone in zones])
    tonnes.invert_yaxis()
    tonnes.legend(fontsize=8)
    colours = list(map(zone_colour, zones))
    grade.barh(at, [facts.measures.grade(line.sums.grade) for line in shown], color=colours)
    value.barh(at, [facts.measures.money(line.sums.value) / 1e6 for line in shown], color=colours)
    value.axvline(0, color="#888888", linewidth=0.8)
    more = f", the {len(shown)} zones with most tonnes" if len(shown) < len(lines) else ""
    for axes, title in ((tonnes, f"million t in the pit{more}"),
                        (grade, f"grade of its ore, {facts.measures.grade_unit}"),
                        (value, f"value, {_millions(facts)}")):
        axes.set_title(title, loc="left", fontsize=10)
    return drawn


def cash_flow(facts: Facts, lines: Sequence[Line], names: Sequence[str]) -> Figure:
    """Draws the worth of each line's ore, the cost of its waste, and the sum of all lines down to
    each."""
    drawn = figure(13, 1.4 + 0.22 * max(6, min(len(lines), MOST_BARS)))
    flow, total = drawn.subplots(1, 2, sharey=True)
    at = np.arange(len(lines))
    ore, cost, value = (
        np.array([facts.measures.money(getattr(line.sums, name)) for line in lines]) / 1e6
        for name in ("value_of_ore", "cost", "value"))
    flow.barh(at, ore, color=ORE, label="value of ore")
    flow.barh(at, -cost, color=WASTE, label="cost of waste")
    flow.plot(value, at, color=OUTLINE, marker=".", linestyle="none", label="cash flow")
    step = max(1, int(np.ceil(len(at) / MOST_BARS)))
    flow.set_yticks(at[::step], names[::step])
    flow.invert_yaxis()
    flow.legend(fontsize=8)
    total.plot(facts.measures.money(cumulative(lines)) / 1e6, at, color=OUTLINE, marker=".")
    total.grid(alpha=0.3)
    for axes, title in ((flow, "cash flow"), (total, "cumulative")):
        axes.axvline(0, color="#888888", linewidth=0.8)
        axes.set_title(f"{title}, {_millions(facts)}", loc="left", fontsize=10)
    return drawn


def _millions(facts: Facts) -> str:
    return f"million {facts.measures.currency or 'units of 100 cents'}"
