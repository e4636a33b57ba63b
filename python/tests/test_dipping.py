"""A model that dips, spread over level blocks: its tonnes, metal and middle stay unchanged."""
from __future__ import annotations

import math

import numpy as np
import pytest

from exports import MINE, dec, known
from pit_tools.errors import UserError
from pit_tools.exports.words import Words
from pit_tools.imports.steps import import_export

CORNER = np.array([990.0, 1990.0, 295.0])

ROCK = [block for block in MINE if block.is_rock]

OWN = np.array([[b.x, b.y, b.z] for b in ROCK], float) - CORNER


def level(own: np.ndarray) -> np.ndarray:
    """Along the map's axes: turned by 20 degrees about x, its +z to +y, and then by 40 about the
    upright, +y to an azimuth of 40."""
    dip, azimuth = math.radians(20), math.radians(40)
    x = own[:, 0]
    y = own[:, 1] * math.cos(dip) + own[:, 2] * math.sin(dip)
    z = -own[:, 1] * math.sin(dip) + own[:, 2] * math.cos(dip)
    return CORNER + np.column_stack([x * math.cos(azimuth) + y * math.sin(azimuth),
                                     -x * math.sin(azimuth) + y * math.cos(azimuth), z])


def written(path, points: np.ndarray, sizes: bool) -> str:
    lines = ["X,Y,Z," + ("XINC,YINC,ZINC," if sizes else "") + "TONNES,AU"]
    for block, point in zip(ROCK, points):
        lines.append(",".join([*(f"{value:.3f}" for value in point),
                               *(["20,20,10"] if sizes else []), dec(block.kilograms, 3),
                               known(block.grade, 6, "")]))
    path.write_text("\n".join([*lines, ""]))
    return str(path)


WORDS = {"x": "X", "y": "Y", "z": "Z", "tonnes": "TONNES", "grade": "AU",
         "rotation": "z 40, x 20", "about": "990,1990,295", "regularise": "20,20,10"}


@pytest.mark.parametrize("points, sizes, more", [
    (level(OWN), True, {}), (level(OWN), False, {}), (OWN + CORNER, True, {"own_axes": True}),
    (OWN + CORNER, False, {"own_axes": True})],
    ids=["sizes", "no sizes", "own axes", "own axes, no sizes"])
def test_tonnes_metal_and_the_middle_stay(tmp_path, points, sizes, more):
    path = written(tmp_path / "a.csv", points, sizes)
    imported = import_export([path], Words(**WORDS, **more))
    rows = imported.zone_rows(0)
    mass = np.array([block.kilograms for block in ROCK], float)
    metal = mass * np.array([block.grade or 0 for block in ROCK])
    found = rows["tonnes"].to_numpy(float)
    assert abs(found.sum() - mass.sum()) <= len(rows)
    assert (found * rows["grade"]).sum() == pytest.approx(metal.sum(), rel=1e-5)
    middle = np.average(rows[["x", "y", "z"]].to_numpy() / 1000, axis=0, weights=found)
    assert np.abs(middle - np.average(level(OWN), axis=0, weights=mass)).max() < 0.5
    assert found.max() <= 1.1 * mass.max()


@pytest.mark.parametrize("rotation", ["z 40, x -20", "z -40, x 20", "x 20, z 40"])
def test_turns_by_which_blocks_are_not_adjacent_are_rejected(tmp_path, rotation):
    path = written(tmp_path / "a.csv", level(OWN), True)
    with pytest.raises(UserError, match="of a block away from the others' grid along the model's"):
        import_export([path], Words(**{**WORDS, "rotation": rotation}))


def test_a_model_that_dips_without_its_turns_has_that_cause(tmp_path):
    path = written(tmp_path / "a.csv", level(OWN), True)
    with pytest.raises(UserError, match="so the model dips, .*give --rotation"):
        import_export([path], Words(**{**WORDS, "rotation": "", "about": "", "regularise": ""}))


@pytest.mark.parametrize("words, message", [
    ({"regularise": ""}, "--rotation requires --regularise"),
    ({"rotation": "40"}, "--rotation: give turns about axes"),
    ({"about": "990,1990"}, "for a model that dips also give z"),
    ({"parents": "20,20,10"}, "give --parents or --regularise, not both"),
    ({"rotation": "", "own_axes": True}, "--own-axes requires")])
def test_words_that_contradict_each_other_are_rejected(tmp_path, words, message):
    path = written(tmp_path / "a.csv", level(OWN), True)
    with pytest.raises(UserError, match=message):
        import_export([path], Words(**{**WORDS, **words}))
