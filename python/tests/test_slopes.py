"""Slopes compared with closures that are found here by trying, from the words of
docs/formats.md alone."""
from __future__ import annotations

import math
import re
from decimal import Decimal
from fractions import Fraction

import numpy as np
import pytest

import mines
from pit_tools.cli import main
from pit_tools.instances.arrays import Blocks
from pit_tools.plans.cones import Places
from pit_tools.plans.contacts import Contacts, contacts_of
from pit_tools.plans.file import Grid, Slope, Zone
from pit_tools.plans.slopes import judge, slope_of
from pit_tools.plans.walls import requested_straight, measured, straight_walls

BEARINGS = [(0, 1), (1, 1), (1, 0), (1, -1), (0, -1), (-1, -1), (-1, 0), (-1, 1)]

CASES = [
    ((20, 10), [(1, 1)] * 4, 3), ((20, 10), [(1, 1)] * 4, 9), ((20, 15), [(1000, 701)] * 4, 4),
    ((20, 10), [(3, 2), (1, 1), (5, 4), (4, 3)], 6), ((10, 10), [(839, 1000)] * 4, 5),
]


def closure_of(size, sides, K: int, benches: int) -> list[set[tuple[int, int]]]:
    """Returns the positions that must be dug for one block, by benches above it: those of the
    cones of its cones. (dx, dy) is in a cone at a number of benches up if (dx Sx / (h q/p of
    x))^2 + (dy Sy / (h q/p of y))^2 is at most 1, h being the height."""
    width, height = size
    cones = []
    for up in range(1, K + 1):
        reach = [Fraction(up * height * q, p) for p, q in sides]
        far = [int(r / width) for r in reach]
        cones.append([(x, y) for x in range(-far[1], far[0] + 1) for y in range(-far[3], far[2] + 1)
                      if (x * width / reach[0 if x > 0 else 1]) ** 2
                      + (y * width / reach[2 if y > 0 else 3]) ** 2 <= 1])
    middle = max(int(benches * height * q / (p * width)) for p, q in sides) + 2
    dug = [np.zeros((2 * middle + 1,) * 2, dtype=bool)]
    dug[0][middle, middle] = True
    for bench in range(1, benches + 1):
        shifted = (np.roll(dug[bench - up], offset, (0, 1)) for up in range(1, min(K, bench) + 1)
                   for offset in cones[up - 1])
        dug.append(np.any(list(shifted), axis=0))
    return [set(map(tuple, (np.argwhere(places) - middle).tolist())) for places in dug]


def measured_apart(size, sides, K: int, benches: int) -> float:
    """Returns by how many degrees a wall of a pit of this number of benches is too steep in
    the worst of 360 bearings, by the positions that are dug."""
    rise, worst = benches - 1, 0.0
    out = np.array(sorted(closure_of(size, sides, K, rise)[rise])) * size[0]
    for degrees in range(360):
        east, north = math.sin(math.radians(degrees)), math.cos(math.radians(degrees))
        along = [Fraction(q, p) for p, q in sides]
        requested = 1 / math.hypot(east * along[0 if east > 0 else 1],
                                   north * along[2 if north > 0 else 3])
        given = rise * size[1] / (out @ (east, north)).max()
        worst = max(worst, math.degrees(math.atan(given) - math.atan(requested)))
    return worst


@pytest.mark.parametrize("size, sides, K", CASES)
def test_straight_walls_are_as_steep_as_those_of_closures(size, sides, K):
    grid = Grid((Decimal(0),) * 3, (Decimal(size[0]), Decimal(size[0]), Decimal(size[1])))
    zone = Zone(tuple(Slope(*pair) for pair in sides), K)
    dug = closure_of(size, sides, K, 12)
    message = straight_walls(grid, zone, K, 12)
    for high in range(1, 13):
        for number, (x, y) in enumerate(BEARINGS):
            out = max((x * px + y * py) * size[0] / math.hypot(x, y) for px, py in dug[high])
            assert message[high - 1][45 * number] == pytest.approx(
                math.degrees(math.atan2(high * size[1], out)), abs=1e-6)


@pytest.mark.parametrize("size, sides, K", CASES)
def test_the_pit_of_one_block_is_as_flat_as_printed(size, sides, K):
    grid = Grid((Decimal(0),) * 3, (Decimal(size[0]), Decimal(size[0]), Decimal(size[1])))
    walls = measured(grid, Zone(tuple(Slope(*pair) for pair in sides), K))
    dug = closure_of(size, sides, K, 12)
    for number, (x, y) in enumerate(BEARINGS):
        flattest = min(math.degrees(math.atan2(high * size[1], steps * math.hypot(x, y) * size[0]))
                       for high in range(1, 13)
                       for steps in range(40) if (steps * x, steps * y) in dug[high])
        # a pit of twelve benches is not flatter
        assert walls.given[K][45 * number] <= flattest + 1e-6
        assert walls.given[K][45 * number] >= walls.requested[45 * number] - 1e-6


def test_a_straight_wall_between_different_sides_is_computed_by_a_separate_formula():
    slopes = [math.tan(math.radians(angle)) for angle in (60, 35, 35, 60)]
    zone = Zone(tuple(Slope(round(1000 * tangent), 1000) for tangent in slopes), 9)
    # North-east: 1 / sqrt(1/2 / tan^2 60 + 1/2 / tan^2 35), where the ellipse of a single block's
    # pit asks 52.8.
    expected = math.degrees(math.atan(1 / math.sqrt(0.5 / slopes[0] ** 2 + 0.5 / slopes[2] ** 2)))
    assert requested_straight(zone)[45] == pytest.approx(expected, abs=0.02)
    assert expected == pytest.approx(42.55, abs=0.01)


#: Slopes in degrees to the east, west, north and south; a K and, of pits of so many benches, by how
#: many degrees two programs found walls too steep with it and with K = height.
REPORTED = [
    ((20, 10), (35, 55, 45, 45), 5, {13: (4.3, 1.9), 16: (3.9, 2.0), 17: (4.3, 3.0)}),
    ((30, 12), (60, 35, 35, 60), 10, {20: (5.1, 2.3)}),
]


@pytest.mark.parametrize("size, degrees, K, found", REPORTED)
def test_the_K_to_take_is_the_height_of_the_mine(size, degrees, K, found):
    """A smaller one may be as good for the greatest height, and is far too steep for others:
    LOOK AT reports the worst of them."""
    slopes = tuple(map(slope_of, degrees))
    sides = [(slope.rise, slope.run) for slope in slopes]
    for benches, (with_K, with_all) in found.items():
        assert measured_apart(size, sides, K, benches) == pytest.approx(with_K, abs=0.05)
        assert measured_apart(size, sides, benches, benches) == pytest.approx(with_all, abs=0.05)
        judged = judge(square(*size), [Zone(slopes, K)], ["a"], benches)
        assert judged.K == (benches,)
        message, = judged.look_at
        high, over, better = re.fullmatch(rf"K is too small: zone a: K = {K} makes a pit of (\d+) "
                                          rf"benches ([\d.]+) degrees too steep, but K = {benches} "
                                          r"([\d.]+)", message).groups()
        assert measured_apart(size, sides, K, int(high)) == pytest.approx(float(over), abs=0.051)
        assert measured_apart(size, sides, benches,
                              int(high)) == pytest.approx(float(better), abs=0.051)
        assert float(over) - float(better) >= with_K - with_all - 0.11
        # K = benches - 1 has the same precedences.
        for enough in (benches - 1, benches):
            assert not judge(square(*size), [Zone(slopes, enough)], ["a"], benches).look_at


def test_walls_that_no_K_makes_better_are_a_note():
    zone = Zone((Slope(1, 1),) * 4, 5)
    judged = judge(square(20, 10), [zone, zone, Zone((Slope(1, 2),) * 4, 5)], ["ox", "a", "b"], 5)
    assert not judged.look_at
    note, = judged.notes
    found = re.search(r"pits of 4 to 5 benches are up to ([\d.]+) degrees too steep.* zone ox, a "
                      r"by (\d+) degrees; zone b by (\d+) degree", note)
    over = [measured_apart((20, 10), sides, 5, benches) for sides in ([(1, 1)] * 4, [(1, 2)] * 4)
            for benches in (4, 5)]
    assert float(found[1]) == pytest.approx(max(over), abs=0.051)
    for requested, less in ((45.0, int(found[2])), (math.degrees(math.atan(0.5)), int(found[3]))):
        flat = slope_of(requested - less)
        still = [measured_apart((20, 10), [(flat.rise, flat.run)] * 4, benches, benches) - less
                 for benches in (4, 5)]
        assert max(still) <= 2.05


def test_a_zone_below_a_steeper_one_ends_at_the_contact():
    """Its K is right if its cones end at the steeper rock, and no larger one is requested."""
    flat, steep = Zone((Slope(1, 2),) * 4, 2), Zone((Slope(2, 1),) * 4, 20)
    judged = judge(square(20, 10), [flat, steep], ["flat", "steep"], 20, contacts=Contacts({0: 2}))
    assert judged.K == (2, 20) and not judged.look_at
    through = judge(square(20, 10), [Zone(flat.slopes, 8), steep], ["flat", "steep"], 20,
                    contacts=Contacts({0: 2}, {(0, 1): 12}))
    assert through.K == (2, 20)
    assert through.look_at == ("zone flat is below zone steep, which is steeper, and 12 cones of it continue through that: walls are too flat there. Import with "
                               "--below flat:steep",)


def test_contacts_with_steeper_rock_are_counted():
    """Two benches of flat rock below four of steep rock, 5 x 5 blocks: as one zone its 50
    blocks have cones that continue through the steep rock; as a zone for each bench, with K up
    to the contact, none has."""
    z, y, x = (axis.ravel().astype(np.int32) for axis in np.mgrid[0:6, 0:5, 0:5])
    flat, steep = (Slope(1, 2),) * 4, (Slope(2, 1),) * 4
    for of_bench, zones, begins, below in (
            ([0, 0, 1, 1, 1, 1], [Zone(flat, 4), Zone(steep, 6)], {0: 1}, {(0, 1): 50}),
            ([0, 1, 2, 2, 2, 2], [Zone(flat, 2), Zone(flat, 1), Zone(steep, 6)], {0: 2, 1: 1}, {})):
        blocks = Blocks(x, y, z, np.ones(150), np.ones(150), np.array(of_bench, dtype=np.int32)[z])
        found = contacts_of(blocks, zones, (20000, 20000, 10000), Places(blocks))
        assert (found.begins, found.below) == (begins, below) and (not below) == (not found.adjacent)
    # West of x = 2 flat, east of it steep, K = 2: the cones go one block a bench, so those of the
    # last two columns reach the steep rock.
    blocks = Blocks(x, y, z, np.ones(150), np.ones(150), (x > 2).astype(np.int32))
    found = contacts_of(blocks, [Zone(flat, 2), Zone(steep, 2)], (20000, 20000, 10000),
                        Places(blocks))
    assert (found.begins, found.below) == ({}, {}) and found.adjacent == {(0, 1): 5 * 5 + 5 * 4}


def square(width: int, height: int) -> Grid:
    return Grid((Decimal(0),) * 3, (Decimal(width), Decimal(width), Decimal(height)))


def test_plan_slopes_and_survey_report_the_same(tmp_path, capsys, monkeypatch):
    """For one model below two benches of air: undiluted blocks give the same note for all, and
    a small K the same line to look at."""
    monkeypatch.chdir(tmp_path)
    rows = [f"{20 * x},{20 * y},{10 * z},10800,{3 if (x, y, z) == (4, 4, 0) else 0},{x // 5}"
            for x in range(9) for y in range(9) for z in range(7)]
    rows += [f"{20 * x},{20 * y},{10 * z},-99,-99,0" for x in range(9) for y in range(9)
             for z in (7, 8)]
    (tmp_path / "export.csv").write_text("\n".join(["x,y,z,t,g,zone", *rows]) + "\n")
    words = [arg for name in "xyz" for arg in (f"--{name}", name)]
    assert main(["import", "export.csv", *words, "--tonnes", "t", "--grade", "g", "--zone", "zone",
                 "--out", "from"]) == 0
    message = {}
    for name, K in (("right", []), ("small", ["--K", "2"])):
        capsys.readouterr()
        assert main(["plan", "from.json", "--out", f"{name}.plan", "--price", "58 USD/g", "--mill",
                     "recovery 92 %, cost 16 USD/t", "--dump", "cost 2 USD/t", "--slope", "40",
                     *K]) == 0
        plan = capsys.readouterr().out
        assert main(["plan", "--walls", f"{name}.plan", "--brief"]) == 0
        slopes = capsys.readouterr().out
        mines.quickly_compiled(tmp_path, (tmp_path / f"{name}.plan").read_text(),
                               [(tmp_path / f"from-{zone}.csv").read_text() for zone in (0, 1)],
                               name)
        assert main(["survey", f"{name}.plan", name, "from-0.csv", "from-1.csv"]) == 0
        survey = capsys.readouterr().out
        message[name] = [set(re.findall(pattern, text))
                         for text, pattern in ((plan, "(?m)^- ((?:K is|blocks are).*)"),
                                               (slopes, "(?m)^(?:NOTE|LOOK AT): (.*)"),
                                               (survey, "(?m)^- SLOPES: (.*)"))]
    for by_plan, by_slopes, by_survey in message.values():
        assert by_plan == by_slopes == by_survey
    assert len(message["right"][0]) == 1 and len(message["small"][0]) == 2


def test_the_command_prints_all_of_it(tmp_path, capsys):
    plan = tmp_path / "one.plan"
    plan.write_text("grid,0,0,0,20,20,10\nzone,1,1,9\n")
    assert main(["plan", "--walls", str(plan), "--benches", "12"]) == 0
    text = capsys.readouterr().out
    rows = [" ".join(line.split()) for line in text.splitlines()]
    assert "K = 9 45.0 46.7 45.0 46.7 45.0 46.7 45.0 46.7 1.7 233 the plan's K" in rows
    assert "12 benches up 45.0 46.7 45.0 46.7 45.0 46.7 45.0 46.7 1.7" in rows
    assert "K = 1 90.0 90.0 90.0 90.0 90.0 90.0 90.0 90.0 45.0 1" in rows
    assert ("in a mine of 12 benches use K = 12" in text
            and "LOOK AT: K is too small: zone 0: K = 9 makes a pit of" in text)
    assert main(["plan", "--walls", str(plan), "--K", "2"]) == 0
    rows = [" ".join(line.split()) for line in capsys.readouterr().out.splitlines()]
    assert "12 benches up 45.0 54.7 45.0 54.7 45.0 54.7 45.0 54.7 9.7" in rows
    assert main(["plan", "--walls", str(tmp_path / "none.plan")]) == 2
    assert "none.plan: No such file" in capsys.readouterr().err
