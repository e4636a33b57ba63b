"""Models without a mistake: `import`, `plan` and `survey` report nothing to look at."""
from __future__ import annotations

from typing import NamedTuple

import numpy as np
import pytest

import mines
from pit_tools.cli import main
from pit_tools.instances.valuation import blocks_of, values_of
from pit_tools.pits.closure import pit_of_plan
from pit_tools.plans.file import read_plan
from pit_tools.plans.zone_files import read_zone_files

WIDE, HIGH = 26, 8


class Right(NamedTuple):
    """A model: sizes of its blocks, its zones by x and z, slopes, and arguments of `import`
    and `plan`. `richest` is the grade of its core in the unit of the export, `digits` are the
    digits of grades. Some of the rock is void, with a grade and no tonnes; the ground is level
    in a box without air; blocks are two sub-blocks each, of which the ground cuts the upper
    one; limits have `spare` times what the pit takes, or are none."""

    name: str
    size: tuple[int, int, int] = (20, 20, 10)
    zone: str = "'rock'"
    slopes: tuple[str, ...] = ("45",)
    grade: str = "grade"
    richest: float = 4.0
    price: tuple[str, ...] = ("--price", "1804 USD/oz")
    mill: str = "recovery 92 %, cost 16.50 USD/t"
    dump: str = "cost 1.80 USD/t"
    more: tuple[str, ...] = ()
    density: str = "2.6 + 0.2 * noise"
    periods: str = "6 years"
    digits: int = 6
    voids: float = 0.0
    is_box: bool = False
    is_cut: bool = False
    spare: float = 1.1
    limited: tuple[str, ...] = ("crusher: mill", "fleet: all")


RIGHT = [Right("gold"), Right("rounded grades", digits=1), Right("old workings", voids=0.01),
         Right("a level ground", is_box=True), Right("sub-blocks cut by the ground", is_cut=True),
         Right("sectors of azimuth", slopes=("315-45 50, 45-135 45, 135-315 40",)),
         Right("an ultimate pit", limited=(), periods="1 year"),
         Right("limits with much to spare", spare=4.0),
         Right("a crusher alone", limited=("crusher: mill",)),
         Right("a slope for each side", slopes=("E 35, W 55, N 45, S 45",)),
         Right("greater blocks", (30, 30, 12), slopes=("E 60, W 35, N 35, S 60",)),
         Right("weathered rock above", zone="'oxide' if z > 4 else 'fresh'",
               slopes=("oxide: 40", "fresh: 50")),
         Right("copper", grade="grade %", richest=2.5, price=("--price", "4 USD/lb, payable 96 %"),
               mill="recovery 88 %, cost 14 USD/t"),
         Right("a return", grade="grade USD/t", richest=90.0, price=(), mill="cost 16 USD/t"),
         Right("a heap besides",
               more=("--leach", "heap: cost 3 USD/t, 45 % from 0.1 g/t, 50 % from 0.4 g/t")),
         Right("one density", density="2.7", periods="16 quarters"),
         Right("cubes", (10, 10, 10), slopes=("50",)),
         Right("two domains", zone="'west' if x < 13 else 'east'", slopes=("west: 50", "east: 42"))]


def export_of(right: Right) -> str:
    """Ground that rises to the east and is rock in part at its top; ore in the middle, with barren
    rock on all sides and below."""
    random = np.random.default_rng(5)
    lines = ["x,y,z,tonnes,grade,zone,wide,deep,high"]
    for z in range(HIGH):
        for y in range(WIDE):
            for x in range(WIDE):
                top = HIGH - 1 if right.is_box else 5 + 2 * x // WIDE + (x + y) % 2
                noise = random.random()
                far = ((x - 12.5) ** 2 + (y - 12.5) ** 2) / 16 + (z - 4) ** 2 / 4
                part = 0.4 + 0.6 * random.random() if z == top and not right.is_box else 1
                tonnes = right.size[0] * right.size[1] * right.size[2] * part * eval(
                    right.density, {"noise": noise})
                grade = (right.richest * (1 - far) * (0.8 + 0.2 * noise) if far < 1
                         else right.richest * 0.004 * noise if noise > 0.6 else 0)
                zone = eval(right.zone, {"x": x, "z": z})
                is_void = random.random() < right.voids or z > top
                place = [size * at for size, at in zip(right.size, (x, y, z))]
                for share, up in _parts_of(right, part):
                    tons = -99 if is_void else round(tonnes / part * share, 3)
                    lines.append(f"{place[0]},{place[1]},{place[2] + up},{tons},"
                                 f"{-99 if z > top else round(grade, right.digits)},{zone},"
                                 f"{right.size[0]},{right.size[1]},{right.size[2] / 2}")
    return "\n".join(lines) + "\n"


def _parts_of(right: Right, part: float) -> list[tuple[float, float]]:
    """The shares of a block that is rock in part, and how far above its centroid each lies."""
    if not right.is_cut:
        return [(part, 0)]
    quarter = right.size[2] / 4
    return [(0.5, -quarter)] + ([(0.5, quarter)] if part > 0.7 else [])


def limits_for(plan_path: str, files: list[str], periods: int, right: Right) -> list[str]:
    """Limits with something to spare for the pit that the plan has without them."""
    plan = read_plan(plan_path)
    blocks = blocks_of(plan.grid, read_zone_files(files))
    values = values_of(plan, blocks) / 100
    pit = pit_of_plan(values.max(axis=1), blocks, plan)[0]
    milled = blocks.tonnes[pit & (values.argmax(axis=1) == 0)].sum()
    most = {"crusher: mill": milled, "fleet: all": blocks.tonnes[pit].sum()}
    return [f"{name}, at most {most[name] * right.spare / periods / 1000:.1f} kt a period"
            for name in right.limited]


def looked_at(text: str) -> list[str]:
    """Returns the lines after LOOK AT."""
    text_after = text.partition("LOOK AT\n")[2].split("\n\n")[0]
    return [line
            for line in text_after.splitlines() if line.startswith("- ") and "nothing unusual" not in line]


def warnings_of(right: Right, folder, capsys) -> list[str]:
    (folder / "export.csv").write_text(export_of(right))
    words = "--x x --y y --z z --tonnes tonnes --zone zone --out from".split()
    if right.is_cut:
        words += ["--parents", ",".join(map(str, right.size)), "--sub-size", "wide,deep,high"]
    else:
        lines = [line.rsplit(",", 3)[0] for line in (folder / "export.csv").read_text().split()]
        (folder / "export.csv").write_text("\n".join(lines) + "\n")
    assert main(["import", "export.csv", *words, "--grade", right.grade]) == 0
    imported = capsys.readouterr().out
    files = sorted(str(path) for path in folder.glob("from-*.csv"))
    requested = ["plan", "from.json", "--out", "mine.plan", *right.price, "--mill", right.mill,
                 "--dump", right.dump, *right.more, "--periods", right.periods, "--rate", "8 %",
                 *(word for slope in right.slopes for word in ("--slope", slope))]
    assert main(requested) == 0
    files = capsys.readouterr().out.split("--out mine ")[1].split()
    limits = limits_for("mine.plan", files, int(right.periods.split()[0]), right)
    assert main([*requested, *(word for limit in limits for word in ("--limit", limit))]) == 0
    planned = capsys.readouterr().out
    mines.quickly_compiled(folder, (folder / "mine.plan").read_text(),
                           [(folder / path).read_text() for path in files])
    assert main(["survey", "mine.plan", "mine", *files]) == 0
    return looked_at(imported) + looked_at(planned) + looked_at(capsys.readouterr().out)


@pytest.mark.parametrize("right", RIGHT, ids=lambda right: right.name)
def test_a_right_model_has_nothing_to_look_at(right, tmp_path, monkeypatch, capsys):
    monkeypatch.chdir(tmp_path)
    assert warnings_of(right, tmp_path, capsys) == []
