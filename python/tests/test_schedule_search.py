"""A search for schedules: its start from shells, and what it finds for programs whose best
schedule is known."""
import itertools
import os
import select
import time

import numpy as np
import pytest
from scipy import sparse

import mines
from pit_tools.cli import main
from pit_tools.errors import UserError
from pit_tools.instances.arrays import Blocks, Limit, Problem, Uses
from pit_tools.instances.files import read_instance
from pit_tools.schedules import programs
from pit_tools.schedules.ended import Background, within
from pit_tools.schedules.files import Schedule, check
from pit_tools.schedules.programs import program_of, solve
from pit_tools.schedules.search import SHELLS, STEP, Search, from_shells, shells


def mine_of(tmp_path, size=(6, 5, 4), shape="lens"):
    return read_instance(mines.deposit(tmp_path, 1, size, shape))


def columns(values):
    """Three columns of two blocks of 10 t, the upper one of each above the lower one; 20 t may be
    mined in each of two periods, at a rate of 0.5."""
    count = len(values)
    zeros = np.zeros(count, dtype=np.int32)
    blocks = Blocks(np.arange(count, dtype=np.int32) % 3, zeros,
                    np.arange(count, dtype=np.int32) // 3, np.full(count, 10.0), np.zeros(count),
                    zeros)
    uses = Uses(np.arange(count), zeros, zeros, np.full(count, 10.0))
    limits = [Limit.of(0, period, "L", [20.0]) for period in range(2)]
    arcs = sparse.csr_matrix((np.ones(3, dtype=np.int8), ([0, 1, 2], [3, 4, 5])),
                             shape=(count, count))
    return Problem("CPIT", "columns", 2, 1, 0.5, np.array(values, dtype=float)[:, None], uses,
                   limits), blocks, arcs


def test_shells_hold_their_predecessors_and_the_last_is_the_pit():
    problem, blocks, arcs = columns([100, 30, 5, -10, -10, -10])
    shell = shells(blocks.tonnes, problem.values[:, 0], arcs)
    assert (shell[0] == shell[3] < shell[1] == shell[4] <= SHELLS
            and shell[2] == shell[5] == SHELLS + 1)


def test_the_richest_shell_comes_first():
    """The column worth 90 in period 0, that worth 20 in period 1, and the one that is worth less
    than nothing never."""
    problem, blocks, arcs = columns([30, 100, 5, -10, -10, -10])
    start = from_shells(problem, blocks.tonnes, arcs)
    assert sorted(zip(start.block.tolist(), start.period.tolist())) == [(0, 1), (1, 0), (3, 1),
                                                                        (4, 0)]
    assert start.worth(problem) == pytest.approx(90 + 20 / 1.5) and check(start, problem,
                                                                          arcs).holds


@pytest.mark.parametrize("kind", ["cpit", "pcpsp"])
@pytest.mark.parametrize("shape", ["lens", "pipe", "vein"])
def test_a_start_from_shells_keeps_order_and_upper_limits(tmp_path, kind, shape):
    mine = mine_of(tmp_path, shape=shape)
    problem = getattr(mine, kind)
    start = from_shells(problem, mine.blocks.tonnes, mine.precedence)
    assert not [line
                for line in check(start, problem, mine.precedence).broken if " t of I" not in line]
    used = start.used(problem)
    assert all(used[limit.resource, limit.period] <= limit.most for limit in problem.limits)


@pytest.mark.parametrize("kind", ["cpit", "pcpsp"])
def test_a_search_finds_what_is_best(tmp_path, kind):
    mine = mine_of(tmp_path, (5, 4, 3))
    problem = getattr(mine, kind)
    best = solve(program_of(problem, mine.precedence))
    found = Search(problem, mine.blocks, mine.precedence, 36000).run()
    assert best.status == "best" and check(found.schedule, problem, mine.precedence).holds
    assert found.schedule.worth(problem) == pytest.approx(
        best.value, rel=1e-6) and found.bound == pytest.approx(best.value, rel=1e-6)


def test_a_part_never_makes_a_schedule_worse_and_leaves_what_it_holds(tmp_path):
    mine = mine_of(tmp_path)
    search = Search(mine.cpit, mine.blocks, mine.precedence, 36000)
    start = from_shells(mine.cpit, mine.blocks.tonnes, mine.precedence)
    assert search._take(start, "shells")
    free = np.zeros(len(mine.blocks), dtype=bool)
    search._some = lambda _: free
    search._part(start)
    assert search.best is start
    free[:] = True
    search._part(start)
    assert (search.worth > start.worth(mine.cpit) + STEP
            and search.how == "shells, then parts of the program")
    assert check(search.best, mine.cpit, mine.precedence).holds


def test_a_schedule_that_is_not_feasible_is_not_taken():
    problem, blocks, arcs = columns([100, 30, 5, -10, -10, -10])
    search = Search(problem, blocks, arcs, 10)
    alone = Schedule(np.array([0]), np.array([0]), np.array([0]), np.ones(1))
    assert alone.worth(problem) == 100 and not search._take(alone, "given") and search.best is None


# Steps of a separate process, which it finds in this module.


def sleeping(*_):
    time.sleep(1000)


def computing(*_):
    return [sum(range(10**6)) for _ in itertools.count()]


def failing():
    raise UserError("no")


def ending():
    os.kill(os.getpid(), 9)


def printing():
    print("printed by a library")
    return np.arange(10**6)


@pytest.mark.parametrize("kind, hang", [("cpit", computing), ("pcpsp", sleeping)])
def test_a_solver_that_never_ends_is_ended_and_a_start_is_kept(tmp_path, monkeypatch, capsys, kind,
                                                               hang):
    base = mines.six_blocks(tmp_path, ("limit,fleet,0,I,0,120000\n", ""))
    files = [f"{base}.{kind}", base + ".prec"]
    assert main(["solve", *files, "--seconds", "0"]) == 0
    best = float(capsys.readouterr().out.split()[2].rstrip(","))
    monkeypatch.setattr(programs, "_solved", hang)
    begun = time.monotonic()
    assert main(["solve", *files, "--seconds", "8", "--out", base + ".schedule"]) == 0
    assert time.monotonic() - begun < 60
    said = capsys.readouterr().out
    worth, bound = (float(word.rstrip(",")) for word in (said.split()[2], said.split()[4]))
    assert said.startswith("stopped: worth ") and 0 < worth <= best <= bound
    assert main(["check-schedule", *files, base + ".schedule"]) == 0
    assert f"worth {worth:.2f}" in capsys.readouterr().out
    assert main(["solve", *files, "--seconds", "1", "--relaxed"]) == 1
    assert capsys.readouterr().out == "stopped: none was found so far\n"


def test_what_a_step_in_a_process_raises_is_raised():
    with pytest.raises(UserError, match="no"):
        within(failing, 30)
    with pytest.raises(UserError, match="ended without a result"):
        within(ending, 30)
    assert within(printing, 60).sum() == 499999500000
    assert within(sleeping, 0.1) is None
    beside = Background(printing)
    assert select.select([beside.child.stdout], [], [], 60)[0]
    assert beside.result(0.0).sum() == 499999500000


def test_a_solver_ends_in_a_program_that_has_used_it(tmp_path):
    """HiGHS has threads, which a copy of this process would wait for and not have."""
    base = mines.six_blocks(tmp_path)
    mine = read_instance(base)
    program = program_of(mine.cpit, mine.precedence)
    best = programs._solved(program, None, 0.0, None)
    assert best.status == "best"
    assert solve(program, 60).value == best.value
