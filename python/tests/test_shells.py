"""Surfaces of pits: other programs read back the volume and the ends of the blocks."""
import json
import sys

import ezdxf
import meshio
import numpy as np
import pytest

import mines
from pit_tools.cli import main
from pit_tools.instances.arrays import Blocks
from pit_tools.instances.block_files import read_blocks
from pit_tools.pits.shells import shell_of
from pit_tools.plans.file import plan_of
from pit_tools.plans.grids import Frame, Turn

PLAN = """name,mine
grid,500000.5,7200000.25,-50,20,25,12.5
zone,1,1,1
mill,mill,900,6000000,1500
dump,dump,200
periods,1
rate,0.1
"""

GRID = plan_of(PLAN).grid

SIZE = np.array([20, 25, 12.5])

SHAPE = (6, 5, 4)

SHELL = ["shell", "mine.plan", "mine"]


def blocks_of_box() -> Blocks:
    z, y, x = (axis.ravel().astype(np.int32) for axis in np.indices(SHAPE[::-1]))
    ones = np.ones(len(x))
    return Blocks(x, y, z, ones, ones, np.zeros(len(x), np.int32))


def random_pit(seed: int) -> np.ndarray:
    """Any blocks: there are holes, blocks apart, and blocks that touch along an edge alone."""
    return np.random.default_rng(seed).random(np.prod(SHAPE)) < 0.4


def volume_of(corners: np.ndarray) -> float:
    """Returns what triangles (t, 3, 3) enclose, by their tetrahedra from a separate point."""
    return float(np.linalg.det(corners - np.array([500050, 7200050, 0])).sum() / 6)


def ends_of(blocks: Blocks, in_pit: np.ndarray) -> np.ndarray:
    """Returns the smallest and the largest coordinates of the blocks of a pit, worked out
    here."""
    origin = np.array([500000.5, 7200000.25, -50])
    middles = origin + np.stack([blocks.x, blocks.y, blocks.z], axis=1)[in_pit] * SIZE
    return np.stack([middles.min(axis=0) - SIZE / 2, middles.max(axis=0) + SIZE / 2])


@pytest.mark.parametrize("seed", range(8))
def test_the_surface_is_closed_and_encloses_the_blocks(seed):
    blocks, in_pit = blocks_of_box(), random_pit(seed)
    shell = shell_of("some", GRID, blocks, in_pit)
    corners = shell.points[shell.triangles]
    assert volume_of(corners) == pytest.approx(in_pit.sum() * 6250) == pytest.approx(shell.volume)
    assert np.stack(shell.ends) == pytest.approx(ends_of(blocks, in_pit))
    # Each edge is passed as often one way as the other, as that of a closed surface is.
    edges = np.concatenate([shell.triangles[:, [a, b]] for a, b in ((0, 1), (1, 2), (2, 0))])
    key = len(shell.points)
    there, back = edges[:, 0] * key + edges[:, 1], edges[:, 1] * key + edges[:, 0]
    assert np.array_equal(np.sort(there), np.sort(back))
    # An area of the model's faces: from the blocks' positions.
    place = np.zeros(SHAPE, dtype=int)
    place[blocks.x, blocks.y, blocks.z] = in_pit
    faces = [np.abs(np.diff(np.pad(place, 1), axis=axis)).sum() for axis in range(3)]
    area = faces[0] * 25 * 12.5 + faces[1] * 20 * 12.5 + faces[2] * 20 * 25
    normals = np.cross(corners[:, 1] - corners[:, 0], corners[:, 2] - corners[:, 0])
    assert np.linalg.norm(normals, axis=1).sum() / 2 == pytest.approx(area)


def test_edges_at_which_blocks_touch_alone_are_counted():
    blocks = blocks_of_box()
    is_one = (blocks.z == 0) & (blocks.x == blocks.y) & (blocks.x < 2)
    assert shell_of("two", GRID, blocks, is_one).crossings == 1
    assert shell_of("box", GRID, blocks, blocks.x < 3).crossings == 0


def test_the_turn_and_the_unit_of_an_export_are_undone():
    """A block of 20 x 25 m at the turned position of an export in feet."""
    blocks = blocks_of_box()
    turn = Turn(30, (1_000_000, 2_000_000))
    shell = shell_of("one", GRID, blocks, (blocks.x == 2) & (blocks.y == 1) & (blocks.z == 0),
                     Frame((0.3048, 0.3048, 0.3048), turn, "ft"))
    assert len(shell.points) == 8 and shell.volume == pytest.approx(6250 / 0.3048 ** 3)
    x, y = np.array([500030.5, 500050.5]) / 0.3048, np.array([7200012.75, 7200037.75]) / 0.3048
    wanted = set()
    for east, north in ((a - 1e6, b - 2e6) for a in x for b in y):
        across = complex(east, north) * np.exp(1j * np.radians(30))
        wanted.add((round(across.real + 1e6, 3), round(across.imag + 2e6, 3)))
    assert {(round(x, 3), round(y, 3)) for x, y, _ in shell.points} == wanted
    heights = np.unique(shell.points[:, 2].round(3))
    assert heights == pytest.approx([-56.25 / 0.3048, -43.75 / 0.3048], abs=0.001)


def read_dxf(path):
    """The triangles of each layer."""
    layers = {}
    for face in ezdxf.readfile(path).modelspace().query("3DFACE"):
        corners = [tuple(getattr(face.dxf, f"vtx{at}")) for at in range(4)]
        assert corners[3] == corners[2]
        layers.setdefault(face.dxf.layer, []).append(corners[:3])
    return {name: np.array(found) for name, found in layers.items()}


def read_vtk(path):
    """The triangles of each number."""
    mesh = meshio.read(path)
    (cells,), numbers = mesh.cells, mesh.cell_data["pit"][0]
    assert cells.type == "triangle"
    return {number: mesh.points[cells.data[numbers == number]] for number in np.unique(numbers)}


def read_obj(path):
    """The triangles of each object; and meshio reads the same number."""
    points, found, name = [], {}, None
    for words in (line.split() for line in open(path, encoding="utf-8")):
        if words[0] == "o":
            name = words[1]
        elif words[0] == "v":
            points.append([float(cell) for cell in words[1:]])
        elif words[0] == "f":
            found.setdefault(name, []).append([int(cell) - 1 for cell in words[1:]])
    assert sum(len(one.data) for one in meshio.read(path).cells) == sum(map(len, found.values()))
    return {name: np.array(points)[faces] for name, faces in found.items()}


@pytest.fixture(name="mine")
def mine_of_a_box(tmp_path, monkeypatch):
    """An instance of a box in the current folder, and two pits."""
    monkeypatch.chdir(tmp_path)
    blocks = blocks_of_box()
    rows = "x,y,z,tonnes,grade\n" + "".join(
        f"{500000.5 + 20 * x},{7200000.25 + 25 * y},{-50 + 12.5 * z},10000,1\n"
        for x, y, z in zip(blocks.x, blocks.y, blocks.z))
    mines.quickly_compiled(tmp_path, PLAN, [rows])
    read = read_blocks("mine.blocks")
    assert np.array_equal(read.x, blocks.x) and np.array_equal(read.z, blocks.z)
    for name, seed in (("early", 1), ("last one", 2)):
        np.savetxt(f"{name}.pit", np.flatnonzero(random_pit(seed)), "%d")
    return blocks


@pytest.mark.parametrize("ending, read, names", [
    ("dxf", read_dxf, ["first", "last_one"]),
    ("vtk", read_vtk, [0, 1]),
    ("obj", read_obj, ["first", "last_one"]),
])
def test_files_that_are_read_back_have_the_pits(mine, capsys, ending, read, names):
    words = [*SHELL, "early.pit=first", "last one.pit", "--out", f"pits.{ending}"]
    assert main(words) == 0
    message = capsys.readouterr().out
    found = read(f"pits.{ending}")
    assert list(found) == names
    for corners, seed in zip(found.values(), (1, 2)):
        in_pit = random_pit(seed)
        assert volume_of(corners) == pytest.approx(in_pit.sum() * 6250, rel=1e-9)
        ends = ends_of(mine, in_pit)
        assert corners.min(axis=(0, 1)) == pytest.approx(ends[0], abs=1e-6)
        assert corners.max(axis=(0, 1)) == pytest.approx(ends[1], abs=1e-6)
        volume = f"{in_pit.sum() * 6250:,.1f} m3"
        assert f": {in_pit.sum()} blocks, {volume}, {len(corners):,} triangles; " in message
    with open(f"pits.{ending}", "rb") as file:
        before = file.read()
    # The same arguments make the same file again in its place, but never replace another kind of
    # file.
    assert main(words) == 0
    with open(f"pits.{ending}", "rb") as file:
        assert file.read() == before
    with open(f"pits.{ending}", "wb") as file:
        file.write(b"something else\n")
    assert main(words) == 2 and "of another kind" in capsys.readouterr().err


def test_layers_have_names_that_differ(mine):
    pits = ["early.pit=a b", "last one.pit=A.b", "early.pit=" + "n" * 40]
    assert main([*SHELL, *pits, "--out", "pits.dxf"]) == 0
    assert list(read_dxf("pits.dxf")) == ["a_b", "A_b-2", "n" * 31]


@pytest.mark.parametrize("words, message", [
    (["early.pit", "--out", "pit.stl"], "`pit.stl` must end with one of .dxf, .vtk, .obj"),
    (["none.pit", "--out", "pit.obj"], "none: the pit has no block"),
    (["gone.pit", "--out", "pit.obj"], "gone.pit: No such file"),
    (["early.pit", "--out", "early.pit"], "must end with one of"),
    (["early.pit", "--turned", "mine.plan", "--out", "pit.obj"],
     "not what `pit-tools import` writes"),
])
def test_what_is_wrong_is_reported_in_a_line(mine, tmp_path, capsys, words, message):
    (tmp_path / "none.pit").write_text("")
    assert main([*SHELL, *words]) == 2
    error = capsys.readouterr().err
    assert message in error and error.count("\n") == 1 and not (tmp_path / "pit.obj").exists()


@pytest.mark.parametrize("module, ending", [("ezdxf.addons.r12writer", "dxf"), ("meshio", "vtk")])
def test_a_package_that_is_missing_is_named(mine, capsys, monkeypatch, module, ending):
    monkeypatch.setitem(sys.modules, module, None)
    assert main([*SHELL, "early.pit", "--out", f"pit.{ending}"]) == 2
    assert f"apt-get install --no-install-recommends python3-{module.split('.')[0]}" in capsys.readouterr().err


def turned_export() -> str:
    """A box of 4 x 3 x 2 blocks, turned by 30 degrees."""
    lines = ["X,Y,Z,T,AU"]
    for z, y, x in np.ndindex(2, 3, 4):
        place = 62.5 * complex(x, y) * np.exp(1j * np.radians(30))
        lines.append(f"{1000 + place.real:.4f},{2000 + place.imag:.4f},{31.25 * z},10000,1")
    return "\n".join(lines) + "\n"


@pytest.mark.parametrize("unit", ["m", "ft"])
def test_a_turned_export_has_its_pit_at_its_own_coordinates(tmp_path, monkeypatch, capsys, unit):
    """By the sidecar file of the plan, or by what `import` left, if the sidecar no longer fits
    the plan."""
    monkeypatch.chdir(tmp_path)
    (tmp_path / "export.csv").write_text(turned_export())
    words = ["--x", f"X {unit}", "--y", f"Y {unit}", "--z", f"Z {unit}", "--tonnes", "T",
             "--grade", "AU", "--x-bearing", "60", "--about", "1000,2000",
             "--size", "62.5,62.5,31.25"]
    assert main(["import", "export.csv", *words, "--out", "from"]) == 0
    plan = ["--price", "58 USD/g", "--mill", "recovery 92 %, cost 16.50 USD/t",
            "--dump", "cost 4 USD/t", "--slope", "45"]
    assert main(["plan", "from.json", "--out", "mine.plan", *plan]) == 0
    text, zone = ((tmp_path / name).read_text() for name in ("mine.plan", "from-all.csv"))
    mines.quickly_compiled(tmp_path, text, [zone])
    (tmp_path / "a.pit").write_text("0\n1\n")
    capsys.readouterr()
    assert main([*SHELL, "a.pit", "--out", "a.obj"]) == 0
    message = capsys.readouterr().out
    assert "turned back about 1000, 2000: the model's +x at bearing 60" in message
    assert f"a: 2 blocks, 244,140.6 {unit}3, " in message
    corners = read_obj("a.obj")["a"]
    for x, y in ((-0.5, -0.5), (1.5, -0.5), (1.5, 0.5), (-0.5, 0.5)):
        place = 62.5 * complex(x, y) * np.exp(1j * np.radians(30))
        wanted = np.array([1000 + place.real, 2000 + place.imag])
        assert np.abs(corners[:, :, :2] - wanted).max(axis=2).min() < 0.01
    assert main(["back", "mine.plan", "mine", "a.pit"]) == 0
    place = 62.5 * np.exp(1j * np.radians(30))
    row = capsys.readouterr().out.splitlines()[2].split(",")
    wanted = [1000 + place.real, 2000 + place.imag, 0]
    assert [float(cell) for cell in row[:3]] == pytest.approx(wanted, abs=0.01)
    (tmp_path / "mine.plan").write_text(text.replace("rate,0.08", "rate,0.09"))
    assert main([*SHELL, "a.pit", "--turned", "from.json", "--out", "b.obj", "--edited"]) == 0
    assert (tmp_path / "a.obj").read_bytes() == (tmp_path / "b.obj").read_bytes()
    capsys.readouterr()
    assert main([*SHELL, "a.pit", "--out", "c.obj", "--edited"]) == 0
    assert "NOTE: mine.plan.json was written for another plan" in capsys.readouterr().err
    older = json.loads((tmp_path / "from.json").read_text())
    older["turn"] = older.pop("frame")["turn"]
    (tmp_path / "older.json").write_text(json.dumps(older))
    assert main([*SHELL, "a.pit", "--turned", "older.json", "--out", "d.obj", "--edited"]) == 2
    assert "older.json: an older pit-tools wrote it" in capsys.readouterr().err
