"""The survey's numbers compared with those of another program with the same rules, and its
page."""
import base64
import json
import os
import re
import shutil
import subprocess

import numpy as np
import pytest
from matplotlib.image import imread

import mines
from pit_tools.cli import main
from pit_tools.deposits.seeded import Deposit
from pit_tools.plans.file import plan_of
from pit_tools.plans.walls import measured, straight_walls
from pit_tools.surveys import facts as survey_facts, view as survey_view
from pit_tools.surveys.box import Inputs, box
from pit_tools.surveys.facts import read_facts
from pit_tools.surveys.page import survey_page
from pit_tools.surveys.pictures import all_of_them, grade_ends, grade_legend, plane_at
from pit_tools.surveys.text import above_cut_offs, spans, survey_text
from pit_tools.surveys.view import view

DATA = os.path.join(os.path.dirname(__file__), "data")


@pytest.fixture(scope="module")
def surveyed(tmp_path_factory):
    """The example deposit with K = 9, 13 and 9: its folder and the arguments of its survey."""
    folder = tmp_path_factory.mktemp("survey")
    plan = (Deposit().plan().replace("zone,1,1,2", "zone,1,1,9").replace("4,5,4,3", "4,5,4,13")
            .replace("zone,3,2,3", "zone,3,2,9"))
    base = mines.quickly_compiled(folder, plan, Deposit().zone_texts(), "walls")
    zones = []
    for number, zone in enumerate(("oxide", "west", "east")):
        zones.append(os.path.join(folder, f"deposit-{zone}.csv"))
        os.rename(f"{base}-{number}.csv", zones[-1])
    return base, zones


def test_numbers_are_those_of_the_awk_survey(surveyed):
    """tests/data/survey-deposit.txt is what examples/survey.awk of version 0.2.0 printed for
    it."""
    base, zones = surveyed
    message = survey_text(read_facts(base + ".plan", base, zones))
    with open(os.path.join(DATA, "survey-deposit.txt")) as file:
        wanted = file.read()
    parts = dict((part.split(maxsplit=1)[0], part.strip()) for part in message.split("\n\n"))
    for part in wanted.split("\n\n"):
        assert parts[part.split(maxsplit=1)[0]] == part.strip()
    assert set(parts) - {part.split(maxsplit=1)[0] for part in wanted.split("\n\n")} == {
        "LOOK", "NOTE", "CUT-OFFS", "WALLS", "SIDES", "ZONES", "CASH", "NESTED"}


def test_what_leaves_the_model_and_the_pit_at_its_sides(surveyed):
    """Two programs found these numbers: sides of paying blocks, 116 to the north by 48 m, and 158
    of the 2,337 blocks of the pit at a side."""
    base, zones = surveyed
    facts = read_facts(base + ".plan", base, zones)
    assert [(one.side, one.blocks, round(one.metres)) for one in facts.leaving()] == [
        ("east", 47, 47), ("west", 6, 10), ("north", 116, 48), ("south", 0, 0)]
    assert facts.pit.sum() == 2337
    assert (np.any(list(facts.at_side().values()), axis=0) & facts.pit).sum() == 158


def test_the_six_blocks_worked_out_manually(tmp_path):
    facts = read_facts(mines.six_blocks(tmp_path) + ".plan", str(tmp_path / "mine"))
    tonnes, metal = above_cut_offs(facts, np.array([0, 0.45, 1.8, 3]))
    assert tonnes.tolist() == [16050, 10750, 5400, 0]
    assert metal == pytest.approx([14.9525, 14.4225, 11.34, 0])
    assert facts.best.tolist() == [0, 0, 0, 2, 0, 2]
    assert facts.columns[0].tolist() == [0, 1, 2] and facts.gaps == (0, 0) and facts.covered == 0
    assert facts.metal_by_column().round(3).tolist() == [[5.39, 7.672, 1.89]]
    assert facts.strange_values == 0


def test_straight_walls_worked_out_manually():
    """Cubes and 1 : 1: at K = 1 the cone has the five blocks above, so a straight wall to the
    north-east goes one block of the four along x or y a bench, 1 / sqrt(2) of a block in its
    bearing."""
    plan = plan_of("name,a\ngrid,0,0,0,10,10,10\nzone,1,1,1\ndump,d,0\nperiods,1\nrate,0\n")
    walls = straight_walls(plan.grid, plan.zones[0], 1, 3)
    assert walls[:, [0, 90, 180, 270]] == pytest.approx(np.full((3, 4), 45.0))
    assert walls[:, 45] == pytest.approx(np.full(3, np.degrees(np.arctan(np.sqrt(2)))))
    assert measured(plan.grid, plan.zones[0]).arcs[:4] == [0, 5, 18, 47]


def test_spans_of_periods():
    assert spans([0, 1, 2, 3, 5]) == "0 to 3, 5" and spans([4]) == "4"


def test_the_page_is_self_contained_and_has_its_pictures(surveyed, tmp_path):
    base, zones = surveyed
    page = survey_page(read_facts(base + ".plan", base, zones), Inputs(base + ".plan", base, zones))
    pictures = re.findall(r'src="data:image/png;base64,([^"]+)"', page)
    assert len(pictures) == 9 and not re.search(r'(src|href)="(?!data:|#)', page)
    for picture in pictures:
        assert base64.b64decode(picture)[:8] == b"\x89PNG\r\n\x1a\n"
    assert "at a side of the model" in page and "<pre>deposit: 3 zones" in page


def test_the_page_begins_with_what_is_passed_on(surveyed):
    """The pit's sums by the arrays themselves, and the sums of the files by another program of
    them."""
    base, zones = surveyed
    facts = read_facts(base + ".plan", base, zones)
    rows = {entry.name: entry.lines for entry in box(facts, Inputs(base + ".plan", base, zones))}
    ore = facts.pit & (facts.best < 2)
    tonnes, metal = facts.blocks.tonnes, facts.blocks.tonnes * facts.blocks.grade
    assert rows["pit"][0].startswith(f"{tonnes[ore].sum():,.0f} t of ore with "
                                     f"{metal[ore].sum() / tonnes[ore].sum():.4f} g/t, ")
    assert (f"strip ratio {tonnes[facts.pit & ~ore].sum() / tonnes[ore].sum():.2f}, in 2,337 "
            "blocks" in rows["pit"][0])
    assert f"worth {facts.greatest[facts.pit].sum():,.2f} in units of 100 cents" in rows["pit"][2]
    assert (any(line.startswith("pit-tools ") for line in rows["made"])
            and "mill,mill,920,5800000,1650" in rows["plan"])
    message = dict(line.split("  ")[::-1] for line in rows["inputs"])
    paths = [base + ".plan", *zones, base + ".blocks", base + ".pcpsp"]
    assert message == {path: subprocess.run(["sha256sum", path], capture_output=True, text=True,
                                            check=True).stdout.split()[0] for path in paths} | {
        base + ".prec": f"{os.path.getsize(base + '.prec'):,} bytes"}


def test_the_pit_to_turn_has_each_column(surveyed):
    base, zones = surveyed
    facts = read_facts(base + ".plan", base, zones)
    data = json.loads(re.search(r"const d = (\{.*?\}), canvas", view(facts))[1])
    top, mined = np.array(data["top"], dtype=float), np.array(data["mined"], dtype=bool)
    assert data["size"] == [20, 20] and top.shape == (18, 24)
    assert mined.sum() == len(np.unique(facts.column[facts.pit]))
    # What is dug and what stays have the volume of the model.
    dug = (facts.centroid(2, facts.ground() + 0.5) - top)[mined].sum() * 20 * 20
    assert dug == pytest.approx(facts.pit.sum() * 4000, rel=0.02)


WAYS = ((1, 0, 0), (-1, 0, 0), (0, 1, 0), (0, -1, 0), (0, 0, 1), (0, 0, -1))


def test_the_ore_to_turn_has_each_face_with_its_grade(surveyed, monkeypatch):
    """The faces between a block of ore of the pit and one that is not, by the positions of the
    blocks."""
    base, zones = surveyed
    facts = read_facts(base + ".plan", base, zones)
    page = view(facts)
    ore = json.loads(re.search(r"const d = (\{.*?\}), canvas", page)[1])["ore"]
    assert ore["size"] == [20, 20, 10] and ore["low"] == 295
    blocks, is_ore = facts.blocks, facts.pit & (facts.best < 2)
    kinds = np.full((26, 20, 14), -1)
    ends = grade_ends(facts)
    ore_blocks = blocks.taken(is_ore)
    for x, y, z, grade in zip(ore_blocks.x, ore_blocks.y, ore_blocks.z, ore_blocks.grade):
        kinds[x + 1, y + 1, z + 1] = max(1, sum(grade >= end for end in ends) - 1)
    wanted = set()
    for x, y, z in np.argwhere(kinds >= 0).tolist():
        for way, (dx, dy, dz) in enumerate(WAYS):
            if kinds[x + dx, y + dy, z + dz] < 0:
                wanted.add((x - 1, y - 1, z - 1, way, kinds[x, y, z]))
    assert {tuple(face) for face in ore["faces"]} == wanted
    assert len(ore["faces"]) == len(wanted) > 500
    assert "0.309 to 0.5" in page and "pays nowhere" not in page
    # If there are too many, cells of several blocks have about the same volume.
    monkeypatch.setattr(survey_view, "MOST_FACES", 300)
    ore = json.loads(re.search(r"const d = (\{.*?\}), canvas", view(facts))[1])["ore"]
    step = ore["size"][0] // 20
    assert 0 < len(ore["faces"]) <= 300 and step > 1
    assert ore["size"] == [20 * step, 20 * step, 10 * step]
    seen = [sum(face[3] == 4 for face in faces) for faces in (ore["faces"], wanted)]
    assert seen[0] * step * step == pytest.approx(seen[1], rel=0.3)


def test_a_survey_is_written_over_an_older_one(surveyed, tmp_path, capsys):
    base, zones = surveyed
    words = ["survey", base + ".plan", base, *zones, "--out", str(tmp_path / "survey.html")]
    assert main(words) == 0
    first = (tmp_path / "survey.html").stat().st_ino
    assert main(words) == 0 and (tmp_path / "survey.html").stat().st_ino != first
    (tmp_path / "survey.html").write_text("<!doctype html>\n<title>Survey of mine</title>")
    capsys.readouterr()
    assert main(words) == 2 and "of another kind than `survey`" in capsys.readouterr().err


@pytest.mark.parametrize("word, message",
                         [("y=2500", "there is no block at y = 2500 m"),
                          ("q=1", "give an axis and metres"), ("y=", "give an axis and metres"),
                          ("z=nan", "give an axis and metres")])
def test_sections_that_cannot_be_drawn_are_named(tmp_path, capsys, word, message):
    base = mines.six_blocks(tmp_path)
    assert main(["survey", base + ".plan", base, "--section", word]) == 2
    assert message in capsys.readouterr().err


def test_a_section_that_is_requested_is_on_the_page(tmp_path):
    base = mines.six_blocks(tmp_path)
    facts = read_facts(base + ".plan", base)
    names = [name for name, _, _ in all_of_them(facts, [plane_at(facts, "x", 12),
                                                        plane_at(facts, "z", 0)])]
    assert names == ["maps", "sections", "more-sections", "cut-offs", "slopes", "periods", "rock",
                     "zones-of-the-pit", "cash-flow", "nested-pits"]
    assert plane_at(facts, "x", 12) == ("x", 1)


def test_the_first_shade_of_grades_is_what_pays_nowhere(surveyed):
    base, zones = surveyed
    facts = read_facts(base + ".plan", base, zones)
    ends = grade_ends(facts)
    # The heap: 10^6 x 620 / (300 x 5800000) = 0.3563 g/t, the mill: 10^6 x 1650 / (920 x 5800000) =
    # 0.3092 g/t.
    assert ends[:2] == pytest.approx([0, 0.309]) and len(ends) == 6 and np.all(np.diff(ends) > 0)
    assert grade_legend(facts)[0].get_label() == "0 to 0.309: pays nowhere"


@pytest.mark.parametrize("words, message", [
    (["gone.plan", "{base}"], "gone.plan: No such file"),
    (["{base}.plan", "{base}/gone"], "cannot open {base}/gone.blocks"),
    (["{base}.plan", "{base}", "{base}-9.csv"], "{base}-9.csv"),
])
def test_what_cannot_be_read_is_reported_in_a_line(tmp_path, capsys, words, message):
    base = mines.six_blocks(tmp_path)
    assert main(["survey", *(word.format(base=base) for word in words)]) == 2
    error = capsys.readouterr().err
    assert message.format(base=base) in error and error.count("\n") == 1


def test_a_zone_file_in_place_of_blocks_is_rejected(tmp_path, capsys):
    base = mines.six_blocks(tmp_path)
    os.replace(base + ".cpit", base + ".blocks")
    assert main(["survey", base + ".plan", base]) == 2
    assert "mine.blocks: line 1: 2 fields, but a block line has 7: `NAME: pit`" in capsys.readouterr().err


BROWSER = next(filter(None, map(shutil.which, ("chromium", "chromium-browser", "google-chrome"))),
               None)


@pytest.mark.skipif(BROWSER is None, reason="no browser is here")
def test_a_browser_shows_the_page_with_its_pictures(surveyed, tmp_path):
    """The picture of the page has the red of the model's sides, the shades of grades and the
    colours of zones."""
    base, zones = surveyed
    facts = read_facts(base + ".plan", base, zones)
    (tmp_path / "survey.html").write_text(survey_page(facts, Inputs(base + ".plan", base, zones)))
    words = [BROWSER, "--headless", "--no-sandbox", "--disable-gpu",
             f"--user-data-dir={tmp_path / 'browser'}", "--window-size=1320,4200",
             f"--screenshot={tmp_path / 'page.png'}", f"file://{tmp_path / 'survey.html'}"]
    subprocess.run(words, capture_output=True, timeout=120, check=True)
    page = (imread(str(tmp_path / "page.png"))[:, :, :3] * 255).round().astype(int)
    assert page.shape == (4200, 1320, 3)
    for colour in ((208, 0, 0), (127, 20, 32), (76, 120, 168), (42, 127, 63)):
        assert (np.abs(page - colour).max(axis=2) < 12).sum() > 100, colour


def test_a_pit_that_would_take_minutes_is_not_sought(tmp_path, monkeypatch):
    base = mines.six_blocks(tmp_path)
    monkeypatch.setattr(survey_facts, "MOST_PLACES_OF_CONES", 1)
    message = survey_text(read_facts(base + ".plan", base))
    assert "the ultimate pit was not computed" in message and "blocks of the pit are" not in message
