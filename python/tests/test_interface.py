"""The names of `pit_tools` that stay."""
import inspect
import os
import re
import subprocess
import sys

import numpy as np
import pytest

import mines
import pit_tools
from pit_tools.schedules import programs

PYTHON = os.path.join(mines.TOP, "python")
NAMES = [name for name in pit_tools.__all__ if name != "VERSION"]


@pytest.mark.parametrize("name", NAMES)
def test_each_name_is_there_and_has_a_description(name):
    found = getattr(pit_tools, name)
    assert found.__doc__ and name in dir(pit_tools)
    if inspect.isclass(found):
        methods = [member for key, member in vars(found).items()
                   if inspect.isfunction(member) and key[0] != "_"]
        assert all(method.__doc__ for method in methods), name
    else:
        kinds = inspect.signature(found)
        assert kinds.return_annotation is not inspect.Signature.empty
        assert all(one.annotation is not inspect.Parameter.empty
                   for one in kinds.parameters.values())


def test_the_page_has_the_names_and_no_others():
    with open(os.path.join(mines.TOP, "docs", "interface.md"), encoding="utf-8") as page:
        cells = re.findall(r"(?m)^\| (`.*?) \|", page.read())
    assert sorted(re.findall(r"`(\w+)", " ".join(cells))) == sorted(pit_tools.__all__)


def test_what_is_no_name_is_rejected_as_python_does():
    with pytest.raises(AttributeError, match="no attribute 'read_mine'"):
        pit_tools.read_mine  # pylint: disable=pointless-statement


def test_the_package_alone_loads_nothing_heavy():
    look = "import sys, pit_tools; sys.exit('numpy' in sys.modules or 'pandas' in sys.modules)"
    assert subprocess.run([sys.executable, "-c", look], cwd=PYTHON, check=False).returncode == 0


def test_frames_of_blocks_and_uses(tmp_path):
    mine = pit_tools.read_instance(mines.six_blocks(tmp_path))
    blocks, uses = mine.blocks.frame(), mine.cpit.uses.frame()
    assert blocks.columns.tolist() == ["x", "y", "z", "tonnes", "grade",
                                       "zone"] and blocks.index.name == "block"
    assert blocks.loc[4].tolist() == [1, 0, 1, 2650, 0.45, 0]
    assert uses[uses["block"] == 4].values.tolist() == [[4, 0, 0, 2650], [4, 0, 1, 2650]]


def test_rows_of_a_program_by_their_meaning(tmp_path):
    mine = pit_tools.read_instance(mines.six_blocks(tmp_path))
    n, periods, arcs = 6, 3, mine.precedence.nnz
    for problem, relaxed, wanted in (
            (mine.cpit, False, {"periods": n * periods, "arcs": arcs * periods, "limits": 4}),
            (mine.pcpsp, True, {"ends": n * (periods - 1), "arcs": arcs * periods,
                                "shares": n * periods, "limits": 4})):
        program = pit_tools.program_of(problem, mine.precedence, relaxed)
        assert {kind: len(program.rows_of(kind))
                for kind in programs.ROWS if len(program.rows_of(kind))} == wanted
        limits = program.rows_of("limits")
        assert program.upper[limits].tolist() == [limit.most for limit in problem.limits]
        assert program.lower[limits].tolist() == [limit.least for limit in problem.limits]
    short = programs.by_period(pit_tools.program_of(mine.cpit, mine.precedence))
    assert short.upper[short.rows_of("limits")].tolist() == [limit.most
                                                             for limit in mine.cpit.limits]
    assert len(short.rows_of("once")) == n and len(short.kinds) == short.rows.shape[0]
    upit = pit_tools.program_of_upit(mine.upit, mine.precedence)
    assert upit.rows_of("arcs").tolist() == list(range(arcs))


def test_a_schedule_of_two_arrays(tmp_path):
    mine = pit_tools.read_instance(mines.six_blocks(tmp_path))
    schedule = pit_tools.Schedule.of([3, 4, 0], [0, 0, 1])
    found = pit_tools.check_schedule(schedule, mine.cpit, mine.precedence)
    assert found.holds and found.worth == pytest.approx(-5300 + 24645 + 221940 / 1.08)
    assert np.array_equal(schedule.used(mine.cpit)[1], [5300, 2700, 0])


def test_a_part_that_was_not_read_is_named(tmp_path):
    mine = pit_tools.read_instance(mines.six_blocks(tmp_path), ("blocks", "prec"))
    with pytest.raises(pit_tools.UserError, match="this instance has no UPIT"):
        pit_tools.bounds_of(mine)


#: A script of a user, which stays as it is: what it needs of `pit_tools` stays too.
SCRIPT = """
import sys
import pit_tools as pit

base, out = sys.argv[1:]
mine: pit.Instance = pit.read_instance(base)
blocks, arcs = pit.read_blocks(base + ".blocks"), pit.read_precedence(base + ".prec")
upit, cpit = pit.read_upit(base + ".upit"), pit.read_problem(base + ".cpit")
plan = pit.read_plan(base + ".plan")
print(len(blocks), arcs.nnz, pit.immediate(arcs).nnz, plan.periods, cpit.kind)
in_pit = pit.ultimate_pit(upit.values, arcs)
pit.write_pit(in_pit, out + ".pit")
print(pit.read_pit(out + ".pit", len(blocks)).tolist(), int(pit.cents(upit.values)[in_pit].sum()))
pcpsp = pit.present(mine.pcpsp, "PCPSP")
for problem in (cpit, pcpsp):
    program = pit.program_of(problem, arcs)
    with open(f"{out}.{problem.kind}.lp", "w", encoding="ascii") as file:
        pit.write_lp(program, file)
    found = pit.solve(program, seconds=600)
    schedule = pit.schedule_of(found.values, problem, program.names)
    pit.write_schedule(schedule, out, problem.kind == "PCPSP")
    checked = pit.check_schedule(pit.read_schedule(out, problem), problem, arcs)
    print(problem.kind, checked.holds, round(checked.worth), round(found.value))
print(pit.solve(pit.program_of_upit(upit, arcs)).status, len(pit.bounds_of(mine)))
pit.write_instance(mine, out)
pit.write_published(mine, out + "-published")
files = {name: f"{out}-published.{name}" for name in ("blocks", "prec", "upit", "cpit", "pcpsp")}
again, _ = pit.read_published(files)
print(again.counts() == mine.counts(), pit.VERSION != "")
try:
    pit.read_instance(out + "-none")
except pit.UserError as error:
    print("cannot open" in str(error))
"""


def test_a_script_of_a_user_runs_unchanged(tmp_path):
    base = mines.six_blocks(tmp_path)
    done = subprocess.run([sys.executable, "-c", SCRIPT, base, str(tmp_path / "out")], capture_output=True,
                          text=True, env={**os.environ, "PYTHONPATH": PYTHON}, check=False)
    assert done.stderr == "" and done.stdout.splitlines() == [
        "6 7 7 3 CPIT", "[0, 1, 2, 3, 4, 5] 60696500", "CPIT True 606965 606965", "PCPSP True 606965 606965",
        "best 4", "True True", "True"]
