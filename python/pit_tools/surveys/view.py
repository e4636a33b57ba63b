"""A view of the pit and its ore in three dimensions: a canvas and a script, without a network."""
from __future__ import annotations

import json
from html import escape
from typing import Any

import numpy as np

from pit_tools.pits.shells import outer_faces
from pit_tools.surveys.facts import Facts
from pit_tools.surveys.pictures import GRADE_COLOURS, grade_ends, grade_legend

#: The number of columns up to which each is drawn; of more, a fraction.
MOST_COLUMNS = 6000

#: Faces of ore up to which each block is drawn; of more, cells of several blocks.
MOST_FACES = 9000

SCRIPT = """
(function () {
  const d = %s, canvas = document.getElementById("view"), draw = canvas.getContext("2d");
  const wide = d.size[0], deep = d.size[1], nx = d.top[0].length, ny = d.top.length;
  const low = d.ends[0], high = d.ends[1], far = Math.hypot(nx * wide, ny * deep, high - low);
  const shown = name => document.getElementById("view-" + name).checked;
  const shade = (z, part, mined) => {
    const s = (0.45 + 0.5 * (z - low) / Math.max(1, high - low)) * part;
    return mined ? `rgb(${210 * s},${120 * s},${70 * s})` : `rgb(${175 * s},${190 * s},${165 * s})`;
  };
  const at = (x, y) => (d.top[y] || [])[x] ?? null;
  // Faces: corners, colour, the way that a face of ore looks, and whether it is of ore.
  const faces = [];
  for (let y = 0; y < ny; y++) for (let x = 0; x < nx; x++) {
    const z = at(x, y); if (z === null) continue;
    const l = (x - nx / 2) * wide, r = l + wide, s = (y - ny / 2) * deep, n = s + deep;
    const mined = d.mined[y][x];
    faces.push([[[l, s, z], [r, s, z], [r, n, z], [l, n, z]], shade(z, 1, mined), null]);
    for (const [dx, dy, a, b, part] of [[1, 0, [r, s], [r, n], 0.8], [-1, 0, [l, s], [l, n], 0.7],
                                        [0, 1, [l, n], [r, n], 0.75],
                                        [0, -1, [l, s], [r, s], 0.65]]) {
      const other = at(x + dx, y + dy), foot = other === null ? low : other;
      if (foot < z) faces.push([[[...a, z], [...b, z], [...b, foot], [...a, foot]],
        shade(z, part, mined || (other !== null && d.mined[y + dy][x + dx])), null]);
    }
  }
  const steps = [[1, 0, 0], [-1, 0, 0], [0, 1, 0], [0, -1, 0], [0, 0, 1], [0, 0, -1]];
  const parts = [0.85, 0.75, 0.8, 0.7, 1, 0.6];
  for (const [x, y, z, way, kind] of d.ore.faces) {
    const size = d.ore.size, axis = way >> 1, u = (axis + 1) %% 3, v = (axis + 2) %% 3;
    const least = [x * size[0] - nx * wide / 2, y * size[1] - ny * deep / 2,
                   d.ore.low + z * size[2]];
    if (way %% 2 === 0) least[axis] += size[axis];
    const corners = [[0, 0], [1, 0], [1, 1], [0, 1]].map(([a, b]) => {
      const one = least.slice(); one[u] += a * size[u]; one[v] += b * size[v]; return one; });
    const [red, green, blue] = d.ore.colours[kind].map(one => one * parts[way]);
    faces.push([corners, `rgb(${red},${green},${blue})`, steps[way]]);
  }
  let turn = -0.6, tilt = 0.9, zoom = 1, held = null;
  function show() {
    canvas.width = canvas.clientWidth; canvas.height = canvas.clientHeight;
    const scale = zoom * Math.min(0.95 * canvas.width, 1.15 * canvas.height) / far;
    const middle = (low + high) / 2, ground = shown("ground"), ore = shown("ore");
    const sin = Math.sin(turn), cos = Math.cos(turn), up = Math.sin(tilt), along = Math.cos(tilt);
    const place = ([x, y, z]) => {
      const u = x * cos - y * sin, v = x * sin + y * cos;
      return [canvas.width / 2 + scale * u,
              canvas.height / 2 - scale * (v * along + (z - middle) * up),
              v * up - (z - middle) * along];
    };
    const looks = ([x, y, z]) => (x * sin + y * cos) * up - z * along < 0;
    const placed = [];
    for (const [corners, colour, way] of faces) {
      if (way ? !ore || !looks(way) : !ground) continue;
      const p = corners.map(place);
      placed.push([p, colour, p[0][2] + p[1][2] + p[2][2] + p[3][2]]);
    }
    placed.sort((a, b) => b[2] - a[2]);
    for (const [p, colour] of placed) {
      draw.beginPath(); p.forEach(q => draw.lineTo(q[0], q[1])); draw.closePath();
      draw.fillStyle = draw.strokeStyle = colour; draw.fill(); draw.stroke();
    }
    const [x0, y0] = place([0, 0, high]), [x1, y1] = place([0, far / 5, high]);
    const long = Math.hypot(x1 - x0, y1 - y0) || 1;
    const across = (x1 - x0) / long, down = (y1 - y0) / long;
    draw.strokeStyle = draw.fillStyle = "#222"; draw.font = "14px sans-serif"; draw.beginPath();
    draw.moveTo(40, 50); draw.lineTo(40 + 30 * across, 50 + 30 * down); draw.stroke();
    draw.fillText("N", 36 + 42 * across, 55 + 42 * down);
  }
  canvas.onpointerdown = e => {
    held = [e.clientX, e.clientY, turn, tilt]; canvas.setPointerCapture(e.pointerId); };
  canvas.onpointerup = () => { held = null; };
  canvas.onpointermove = e => {
    if (!held) return;
    turn = held[2] + (e.clientX - held[0]) / 200;
    tilt = Math.min(1.55, Math.max(0.05, held[3] + (e.clientY - held[1]) / 200)); show(); };
  canvas.onwheel = e => { zoom *= e.deltaY < 0 ? 1.1 : 0.9; e.preventDefault(); show(); };
  for (const name of ["ground", "ore"]) document.getElementById("view-" + name).onchange = show;
  window.addEventListener("resize", show); show();
})();
"""


def view(facts: Facts) -> str:
    """The ground with the pit dug, and the ore of the pit by grade, to be turned by a pointer;
    lengths and heights have one scale."""
    names = {"ground": "ground with the pit dug", "ore": "ore of the pit, by grade"}
    boxes = "".join(f'<label><input type="checkbox" id="view-{name}" checked> {message}</label>\n'
                    for name, message in names.items())
    data = {**_ground(facts), "ore": _ore(facts)}
    return (f'<p class="view">{boxes}{_legend(facts)}</p>\n<canvas id="view"></canvas>\n'
            f"<script>{SCRIPT % json.dumps(data)}</script>\n")


def _legend(facts: Facts) -> str:
    """The shades of grades that pay, as squares with their names."""
    first = _first_class(facts)
    shades = list(zip(grade_legend(facts), GRADE_COLOURS))[first:]
    return "".join(f'<span style="border-left: 1em solid {colour}">{escape(shade.get_label())}'
                   "</span>\n" for shade, colour in shades)


def _first_class(facts: Facts) -> int:
    """Returns the first shade of ore: what pays nowhere has its own, if there is one."""
    return int(any(one.break_even for one in facts.plan.destinations))


def _ground(facts: Facts) -> dict[str, Any]:
    """Returns the height of each column's top in metres, with the pit dug, and whether it is
    mined."""
    heights = facts.ground()
    mined = np.zeros(heights.shape, dtype=bool)
    if facts.pit is not None and facts.pit.any():
        floor = facts.floor(facts.pit)
        mined = ~np.isnan(floor)
        heights = np.where(mined, floor - 1, heights)
    metres = np.where(facts.ground() < 0, np.nan, facts.centroid(2, heights + 0.5))
    step = int(np.ceil(np.sqrt(metres.size / MOST_COLUMNS)))
    metres, mined = metres[::step, ::step], mined[::step, ::step]
    shown = [[None if np.isnan(cell) else round(float(cell), 3) for cell in row] for row in metres]
    ends = [float(np.nanmin(metres)), float(np.nanmax(metres))]
    return {"size": [facts.metres[0] * step, facts.metres[1] * step], "top": shown,
            "mined": mined.astype(int).tolist(), "ends": ends}


def _ore(facts: Facts) -> dict[str, Any]:
    """Returns the outer faces of the pit's ore: cell, direction and class of grade of each; if
    there are too many, of cells of several blocks, which are ore if half of their blocks are."""
    is_ore = ~np.array(facts.is_waste_place)[facts.best] & (facts.blocks.tonnes > 0)
    is_ore &= facts.pit if facts.pit is not None else False
    colours = [[int(colour[at:at + 2], 16) for at in (1, 3, 5)] for colour in GRADE_COLOURS]
    step, faces = 1, _faces_of_ore(facts, is_ore, 1)
    while len(faces) > MOST_FACES:
        step += 1
        faces = _faces_of_ore(facts, is_ore, step)
    return {"size": [metres * step for metres in facts.metres], "colours": colours,
            "low": facts.centroid(2, facts.axes[2].least - 0.5), "faces": faces.tolist()}


def _faces_of_ore(facts: Facts, is_ore: np.ndarray, step: int) -> np.ndarray:
    """Returns faces of cells with a number of blocks along each axis: x, y, z, direction, class,
    (f, 5)."""
    if not is_ore.any():
        return np.empty((0, 5), dtype=np.int64)
    places = np.stack([(facts.indices(axis)[is_ore] - facts.axes[axis].least) // step
                       for axis in range(3)], axis=1).astype(np.int64)
    shape = places.max(axis=0) + 1
    cells, at, count = np.unique(np.ravel_multi_index(places.T, shape), return_inverse=True,
                                 return_counts=True)
    tonnes, grades = facts.blocks.tonnes[is_ore], facts.blocks.grade[is_ore]
    grade = np.bincount(at, tonnes * grades) / np.bincount(at, tonnes)
    kinds = np.searchsorted(grade_ends(facts), facts.measures.grade(grade), side="right") - 1
    kept = 2 * count >= step ** 3 if step > 1 else count > 0
    if not kept.any():
        return np.empty((0, 5), dtype=np.int64)
    kind_at = np.full(shape, -1, dtype=np.int8)
    shown = np.stack(np.unravel_index(cells[kept], shape), axis=1)
    kind_at[tuple(shown.T)] = np.maximum(kinds[kept], _first_class(facts))
    found = [(those, np.full(len(those), 2 * axis + (way < 0)), kind_at[tuple(those.T)])
             for axis, way, those in outer_faces(shown)]
    return np.concatenate([np.column_stack(faces) for faces in found])
