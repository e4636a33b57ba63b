"""Commands for solvers on a precedence file with fewer arcs, as pitc_thin writes it."""
from __future__ import annotations

import re
import subprocess
from pathlib import Path

import numpy as np
import pytest
from scipy import sparse

import mines
from pit_tools.cli import main
from pit_tools.instances.files import read_instance, read_precedence, write_precedence
from pit_tools.instances.valuation import blocks_of
from pit_tools.pits import closure, compiled
from pit_tools.plans.cones import precedence_of
from pit_tools.plans.file import plan_of
from pit_tools.plans.zone_files import read_zone_files


def reduced_by_definition(precedence: sparse.csr_matrix) -> sparse.csr_matrix:
    """Returns for each list the blocks that are predecessors of no other one of it."""
    whole = precedence.toarray().astype(bool)
    left = [waits & ~whole[waits].any(axis=0) for waits in whole]
    return sparse.csr_matrix(np.array(left, dtype=np.int8))


def with_thin(folder: Path, **words) -> tuple[str, str]:
    """The base of a deposit and its thin file; the precedence file is removed."""
    base = mines.deposit(folder, 1, (6, 5, 4), "lens", **{"K": 3, **words})
    whole = read_precedence(base + ".prec")
    fewer = reduced_by_definition(whole)
    assert fewer.nnz < whole.nnz
    write_precedence(fewer, base + ".thin")
    return base, base + ".thin"


def printed_by(capsys, *words: str) -> str:
    """Returns what a command prints, which must end with 0."""
    assert main(list(words)) == 0
    return capsys.readouterr().out


def test_an_instance_is_read_with_a_thin_file_and_needs_no_other(tmp_path, capsys):
    base, thin = with_thin(tmp_path)
    whole = read_instance(base)
    Path(base + ".prec").unlink()
    mine = read_instance(base, precedence=thin)
    assert (mine.precedence != reduced_by_definition(whole.precedence)).nnz == 0
    assert printed_by(capsys, "read", base, "--prec", thin, "--out",
                   str(tmp_path / "copy")) == mine.counts() + "\n"
    assert (tmp_path / "copy.prec").read_bytes() == Path(thin).read_bytes()
    assert (f" arcs {mine.precedence.nnz} " in mine.counts()
            and mine.precedence.nnz < whole.precedence.nnz)


@pytest.mark.skipif(compiled.compiler() is None, reason="no C++ compiler is here")
@pytest.mark.parametrize("K", [2, 3, 5])
def test_a_thin_file_changes_no_pit_and_no_bound(tmp_path, capsys, K):
    base, thin = with_thin(tmp_path, K=K)
    by_all = printed_by(capsys, "pit", base, "--out", base + ".pit"), printed_by(capsys, "bounds", base)
    Path(base + ".prec").unlink()
    assert (printed_by(capsys, "pit", base, "--prec", thin, "--out", base + ".again"),
            printed_by(capsys, "bounds", base, "--prec", thin)) == by_all
    assert Path(base + ".again").read_bytes() == Path(base + ".pit").read_bytes() != b""


@pytest.mark.parametrize("kind, options",
                         [("cpit", []), ("pcpsp", ["--relaxed"]), ("cpit", ["--relaxed"])])
def test_a_thin_file_changes_no_best_schedule_and_no_relaxation(tmp_path, capsys, kind, options):
    base, thin = with_thin(tmp_path)
    worth = []
    for arcs in (base + ".prec", thin):
        result = printed_by(capsys, "solve", f"{base}.{kind}", arcs, "--all-arcs", *options, "--out",
                         base + ".schedule")
        worth.append(float(re.match(r"best: worth (\S+),", result)[1]))
        # What was found with one file is feasible with the other.
        for other in (base + ".prec", thin):
            printed_by(capsys, "check-schedule", f"{base}.{kind}", other, base + ".schedule", *options)
    assert worth[0] == pytest.approx(worth[1], abs=0.02) and worth[0] > 0


@pytest.mark.parametrize("form", [[], ["--dimacs"]])
def test_programs_have_the_arcs_of_a_thin_file(tmp_path, capsys, form):
    base, thin = with_thin(tmp_path)
    words = ["lp", *form, "--all-arcs"]
    arcs = read_precedence(thin).nnz
    for file in (thin, base + ".prec"):
        assert main([*words, base + ".upit", file, "--out", base + ".out"]) == 0
        text = Path(base + ".out").read_text()
        rows = (text.count("\n l") if not form
                else int(text.split()[3]) - np.count_nonzero(read_instance(base).upit.values))
        assert (rows == arcs) == (file == thin) and rows >= arcs


def test_a_schedule_that_mines_too_early_is_violated_by_a_thin_file_too(tmp_path, capsys):
    base, thin = with_thin(tmp_path)
    mine = read_instance(base)
    block, above = (int(ends[-1]) for ends in mine.precedence.nonzero())
    Path(base + ".schedule").write_text(f"{above} 1\n{block} 0\n")
    assert main(["check-schedule", base + ".cpit", thin, base + ".schedule"]) == 1
    assert "is mined in period 0, before block" in capsys.readouterr().out


def test_a_plan_goes_without_a_precedence_file(tmp_path, capsys):
    base, thin = with_thin(tmp_path)
    assert main(["pit", base, "--plan", base + ".plan", "--prec", thin]) == 2
    assert (capsys.readouterr().err == "pit-tools pit: --plan finds the arcs, so it excludes "
            "--prec\n")


@pytest.mark.parametrize("command", ["read", "pit", "bounds"])
def test_a_thin_file_that_is_none_is_rejected_by_its_name(tmp_path, capsys, command):
    base, thin = with_thin(tmp_path)
    for text, wanted in (("0 1 1\n1 0\n", "differ in their numbers of blocks: "),
                         ("0 1\n", "other.thin: line 1: a line `id k p1 .. pk` has 0 predecessors")):
        (tmp_path / "other.thin").write_text(text)
        assert main([command, base, "--prec", str(tmp_path / "other.thin")]) == 2
        assert wanted in capsys.readouterr().err
    assert main([command, base, "--prec", str(tmp_path / "gone.thin")]) == 2
    assert capsys.readouterr().err.endswith("gone.thin: No such file or directory\n")


#: How many models of different cones `immediate` is compared on.
MODELS = 300


def cones_of(seed: int) -> tuple[str, list[str]]:
    """A plan and zone files of up to four zones with different cones."""
    chance = np.random.default_rng(seed)
    zones, wide, high = int(chance.integers(1, 5)), chance.choice([5, 10, 20]), chance.choice([5, 10])
    records = ["name,m", f"grid,0,0,0,{wide},10,{high}"]
    records += ["zone," + ",".join(map(str, [*chance.integers(1, 5, chance.choice([2, 8])),
                                             chance.integers(1, 6)])) for _ in range(zones)]
    records += ["dump,d,1", "periods,1", "rate,0"]
    rows = [["x,y,z,tonnes,grade"] for _ in range(zones)]
    for place in np.flatnonzero(chance.random(6 * 5 * 6) < chance.choice([0.6, 0.9, 1.0])):
        x, y, z = np.unravel_index(place, (6, 5, 6))
        rows[chance.integers(zones)].append(f"{x * wide},{y * 10},{z * high},1,0")
    return "\n".join(records) + "\n", ["\n".join(lines) + "\n" for lines in rows]


def all_arcs_of(base: str, plan: str, zones: list[str]) -> sparse.csr_matrix:
    """All arcs of a model, whose plan and zone files are written."""
    Path(base + ".plan").write_text(plan)
    paths = [f"{base}-{number}.csv" for number in range(len(zones))]
    for path, text in zip(paths, zones):
        Path(path).write_text(text)
    made = plan_of(plan)
    return precedence_of(blocks_of(made.grid, read_zone_files(paths)), made)


@pytest.mark.skipif(compiled.compiler() is None, reason="no C++ compiler is here")
def test_immediate_drops_what_the_rule_states_on_models_of_different_cones(tmp_path):
    dropped = 0
    for seed in range(MODELS):
        whole = all_arcs_of(str(tmp_path / "m"), *cones_of(seed))
        left = closure.immediate(whole)
        assert (left != reduced_by_definition(whole)).nnz == 0, seed
        dropped += whole.nnz - left.nnz
    assert dropped > 100 * MODELS


def test_immediate_drops_what_pitc_thin_drops_on_models_of_different_cones(pitc_thin, tmp_path):
    base = str(tmp_path / "m")
    for seed in range(MODELS):
        plan, zones = cones_of(seed)
        left = closure.immediate(all_arcs_of(base, plan, zones))
        done = subprocess.run([pitc_thin, "--plan", base + ".plan", "--out", base + ".thin",
                               *(f"{base}-{number}.csv" for number in range(len(zones)))],
                              capture_output=True, text=True)
        assert (done.stderr, done.returncode) == ("", 0), seed
        assert (left != read_precedence(base + ".thin")).nnz == 0, seed


@pytest.mark.parametrize("K", [1, 4])
def test_the_file_of_the_program_is_read(pitc_thin, tmp_path, capsys, K):
    base = mines.deposit(tmp_path, 1, (8, 6, 5), "pipe", K=K)
    zones = [f"{base}-{number}.csv" for number in range(3)]
    done = subprocess.run([pitc_thin, "--plan", base + ".plan", "--out", base + ".thin", *zones],
                          capture_output=True, text=True)
    whole, left = read_precedence(base + ".prec"), read_precedence(base + ".thin")
    assert (done.stdout, done.stderr, done.returncode) == (f"rows {whole.shape[0]} arcs {left.nnz} "
                                                           f"of {whole.nnz}\n", "", 0)
    assert (left != reduced_by_definition(whole)).nnz == 0
    assert printed_by(capsys, "pit", base) == printed_by(capsys, "pit", base, "--prec", base + ".thin")
