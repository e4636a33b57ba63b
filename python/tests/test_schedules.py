"""Programs and schedules of CPIT and PCPSP against all schedules of small mines, and known
results."""
import itertools
import re
import shutil
import subprocess
from pathlib import Path

import numpy as np
import pytest
import scipy.sparse.csgraph  # noqa: F401
from scipy import sparse

import mines
from pit_tools.cli import main
from pit_tools.errors import UserError
from pit_tools.instances.arrays import Limit, Problem, Uses
from pit_tools.instances.files import read_instance, read_precedence, read_problem
from pit_tools.schedules.files import (Schedule, check, read_schedule, read_variables,
                                       schedule_of_variables)
from pit_tools.schedules.programs import by_period, program_of, program_of_upit, schedule_of, solve


def two_blocks_of_mill(folder):
    return mines.six_blocks(folder, ("L,60000", "L,5400"), ("120000", "8100"))


def one_block_of_mill(folder):
    """One block a period for the mill, three in all in period 0, and a high rate."""
    return mines.six_blocks(folder, ("L,60000", "L,2700"), ("120000", "8100"), ("0.08", "0.5"))


@pytest.mark.parametrize("make, kind, relaxed, value", [
    (two_blocks_of_mill, "cpit", False, 221940 - 5300 + 24645 + (309420 + 61560 - 5300) / 1.08),
    # as cbc and glpsol have them, and all schedules of complete blocks
    (one_block_of_mill, "cpit", False, 322498.333333),
    (one_block_of_mill, "pcpsp", False, 455889.166667),
    (one_block_of_mill, "pcpsp", True, 474119.625468),  # the relaxation, as cbc has it
])
def test_the_best_schedules_that_other_solvers_found(tmp_path, make, kind, relaxed, value):
    mine = read_instance(make(tmp_path))
    problem = getattr(mine, kind)
    for program in (program_of(problem, mine.precedence, relaxed),
                    by_period(program_of(problem, mine.precedence, relaxed))):
        result = solve(program, seconds=60)
        assert result.status == "best" and result.value == pytest.approx(value, abs=0.001)
        schedule = schedule_of(result.values, problem, program.names)
        found = check(schedule, problem, mine.precedence, relaxed)
        assert found.holds and found.worth == pytest.approx(value, abs=0.001)


def test_a_relaxation_is_no_schedule(tmp_path, capsys):
    base = one_block_of_mill(tmp_path)
    files = [base + ".pcpsp", base + ".prec"]
    out = str(tmp_path / "relaxed")
    assert main(["solve", *files, "--relaxed", "--out", out]) == 0
    capsys.readouterr()
    assert main(["check-schedule", *files, out]) == 1
    message = capsys.readouterr().out
    assert "474119.63" in message and re.search(r"broken: block \d is split: 0\.\d+ of it in period 0",
                                                message) and message.count("is split") >= 6
    assert main(["check-schedule", *files, out, "--relaxed"]) == 0


def random_problem(random, kind):
    """A problem of few blocks, with its arcs."""
    blocks, periods, destinations = 5, 2, 2 if kind == "PCPSP" else 1
    values = random.integers(-60, 90, (blocks, destinations)).astype(float)
    pairs = [(b, d, 0) for b in range(blocks) for d in range(destinations) if random.random() < 0.8]
    block, destination, resource = (np.array(part, dtype=kind_)
                                    for part, kind_ in zip(zip(*pairs),
                                                           (np.int32, np.int8, np.int8)))
    uses = Uses(block, destination, resource, random.integers(1, 6, len(pairs)).astype(float))
    most = float(random.integers(3, 12))
    limits = [Limit.of(0, 0, "L", [most]),
              Limit.of(0, 1, "I", [float(random.integers(0, 4)), most])]
    upper = np.triu(random.random((blocks, blocks)) < 0.3, 1).astype(np.int8)
    return Problem(kind, "some", periods, 1, 0.1, values, uses, limits), sparse.csr_matrix(upper)


def all_schedules(problem):
    """Yields every schedule of complete blocks: the destination and period of each."""
    choices = [(None, 0)] + [(period, at) for period in range(problem.periods)
                             for at in range(problem.destinations)]
    for choice in itertools.product(choices, repeat=len(problem.values)):
        mined = [(block, *one) for block, one in enumerate(choice) if one[0] is not None]
        block, period, destination = ((np.array(part, dtype=int) for part in zip(*mined)) if mined
                                      else (np.empty(0, int),) * 3)
        yield Schedule(block, period, destination, np.ones(len(block)))


def plainly_holds(schedule, problem, arcs):
    """The rules of docs/formats.md for complete blocks, one by one."""
    when = {block: period
            for block, period in zip(schedule.block.tolist(), schedule.period.tolist())}
    for block, other in zip(*arcs.nonzero()):
        if block in when and not (other in when and when[other] <= when[block]):
            return False
    used = np.zeros(problem.periods)
    amount = {(b, d): a for b, d, a in zip(problem.uses.block.tolist(),
                                           problem.uses.destination.tolist(), problem.uses.amount)}
    for block, period, destination in zip(schedule.block.tolist(), schedule.period.tolist(),
                                          schedule.destination.tolist()):
        used[period] += amount.get((block, destination), 0)
    return all(limit.least <= used[limit.period] <= limit.most for limit in problem.limits)


@pytest.mark.parametrize("kind", ["CPIT", "PCPSP"])
@pytest.mark.parametrize("seed", range(6))
def test_programs_and_checks_against_all_schedules(kind, seed):
    problem, arcs = random_problem(np.random.default_rng(seed), kind)
    best = -np.inf
    for number, schedule in enumerate(all_schedules(problem)):
        holds = plainly_holds(schedule, problem, arcs)
        if number % 7 == seed or holds:
            assert check(schedule, problem, arcs).holds == holds
        if holds:
            best = max(best, schedule.worth(problem))
    result = solve(program_of(problem, arcs, whole_blocks=True), seconds=60)
    assert (result.status == "none") == (best == -np.inf)
    if result.values is not None:
        assert result.value == pytest.approx(best)
        assert solve(program_of(problem, arcs, relaxed=True), seconds=60).value >= best - 1e-6


BEST = "0 0 0;1 1 0;2 2 0;3 0 2;4 0 1;5 1 2"

# Lines of schedules of the PCPSP, by `;`, which are feasible.
RIGHT = [
    BEST,
    "",
    "3 0 2",
    "3 0 2 1",
    "3 0 2 1e0",
    "5 1 2;4 0 1;3 0 2;2 2 0;1 1 0;0 0 0",
    "  3\t0  2 \r;;\r;4 0 1 ",
    "3 0 2 0.5;3 0 0 0.5",
    "3 0 2 0.5;3 0 2 0.5",
    "3 0 2 0.25;3 0 1 0.25;3 0 0 0.25;3 0 2 0.25",
    "3 0 2 0.9999995",
    "3 0 2 1.0000005",
    "3 0 2;0 0 0 0",
    "3 2 2;4 2 2;5 2 2",
    "3 0 2;4 0 2;5 0 2",
    "3 0 1;4 0 0;5 0 2;0 1 0;1 2 0",
]

# Lines which violate something, and the first things that they violate.
WRONG = [
    (BEST.replace("1 1 0", "1 0 0"),
     ["block 1 is mined in period 0, before block 5", "resource 0, period 0: 5400.000 t of L 2700",
      "resource 1, period 0: 10700.000 t of I 0 8100"]),
    (BEST.replace("2 2 0", "2 2 0 1.9"),
     ["block 2 has the share 1.9 in period 2 at destination 0", "block 2 is mined 1.9 times"]),
    (BEST.replace("2 2 0", "2 2 0 1.9;2 2 2 -0.9"), ["block 2 has the share -0.9"]),
    (BEST.replace("2 2 0", "2 2 0 1.0009" + 1000 * ";2 2 2 -0.0000009"),
     ["block 2 has the share -9e-07"] * 1000
     + ["block 2 has the share 1.0009 in period 2 at destination 0"]),
    (BEST + ";2 2 2 -0.0000009", ["block 2 has the share -9e-07"]),
    (BEST.replace("2 2 0", "2 2 0 0.999"), ["block 2 is split: 0.999 of it in period 2"]),
    (BEST.replace("2 2 0", "2 2 0 1.001"),
     ["block 2 has the share 1.001 in period 2 at destination 0"]),
    (BEST.replace("2 2 0", "2 1 2 0.5;2 2 2 0.5"), ["block 2 is split: 0.5 of it in period 1"]),
    (BEST.replace("4 0 1", "4 0 1;4 0 1"),
     ["block 4 has the share 2 in period 0 at destination 1", "block 4 is mined 2 times"]),
    (BEST.replace("4 0 1", "4 0 1;4 1 1"), ["block 4 is mined 2 times"]),
    (BEST.replace("4 0 1", "4 0 1;4 0 2"), ["block 4 is mined 2 times"]),
    (BEST.replace("4 0 1", "4 0 1 0.6;4 0 2 0.6"), ["block 4 is mined 1.2 times"]),
    ("3 0 2;3 1 2", ["block 3 is mined 2 times"]),
    ("3 0 2 0.5", ["block 3 is split: 0.5 of it in period 0"]),
    ("3 0 2 0.5;3 1 2 0.5",
     ["block 3 is split: 0.5 of it in period 0", "block 3 is split: 0.5 of it in period 1"]),
    ("4 0 2 1.5;4 1 2 -0.5",
     ["block 4 has the share -0.5", "block 4 has the share 1.5 in period 0 at destination 2"]),
    ("2 1 0", ["block 2 is mined in period 1, before block 4",
               "block 2 is mined in period 1, before block 5"]),
    ("0 0 2;3 0 2", ["block 0 is mined in period 0, before block 4"]),
    ("0 1 0;3 2 2;4 0 2", ["block 0 is mined in period 1, before block 3"]),
    ("3 0 0;4 0 0", ["resource 0, period 0: 5300.000 t of L 2700"]),
    ("3 0 0 0.6;3 0 2 0.4;4 0 0 0.6;4 0 2 0.4", ["resource 0, period 0: 3180.000 t of L 2700"]),
    ("3 2 0;4 2 0", ["resource 0, period 2: 5300.000 t of L 2700"]),
    ("3 0 2;4 0 2;5 0 2;0 0 2", ["resource 1, period 0: 10650.000 t of I 0 8100"])]

# Lines that state no schedule, the second of a file, and how they are rejected.
REJECTED = [("9 0 0", "no block below 6"), ("-1 0 0", "no block below 6"),
            ("0.5 0 0", "no block below 6"), ("0 3 0", "no period below 3"),
            ("0 -1 0", "no period below 3"), ("0 0 3", "no destination below 3"),
            ("0 0 0.5", "no destination below 3"),
            ("0 0", "it is not a block, period, destination and share"), ("0", "it is not a block, period"),
            ("0 0 0 x", "it is not a block, period"), ("0 0 0 1 1", "it is not a block, period"),
            ("0,0,0", "it is not a block, period"), ("0 0 0 nan", "it is not a block, period"),
            ("0 0 0 inf", "it is not a block, period"), ("0 0 0 -1e400", "it is not a block, period")]


def text_of(folder, lines):
    """Returns what the check of a schedule's lines finds violated."""
    mine = read_instance(one_block_of_mill(folder))
    (folder / "schedule").write_text(lines.replace(";", "\n") + "\n", newline="")
    return check(read_schedule(str(folder / "schedule"), mine.pcpsp), mine.pcpsp, mine.precedence)


@pytest.mark.parametrize("lines", RIGHT)
def test_a_right_schedule_holds(tmp_path, lines):
    assert text_of(tmp_path, lines).broken == []


@pytest.mark.parametrize("lines, message", WRONG)
def test_what_a_schedule_breaks(tmp_path, lines, message):
    found = text_of(tmp_path, lines)
    assert found.broken[:len(message)] == message and not found.holds


@pytest.mark.parametrize("line, message", REJECTED)
def test_a_line_that_is_no_schedule_is_named(tmp_path, line, message):
    with pytest.raises(UserError, match=f"line 2: {message}"):
        text_of(tmp_path, f"3 0 2;{line}")


def test_lines_below_zero_make_no_capacity_for_others(tmp_path, capsys):
    """So many lines just below 0 that, counted one by one, none would be seen."""
    base = one_block_of_mill(tmp_path)
    (tmp_path / "schedule").write_text(BEST.replace("2 2 0", "2 2 0 1.09").replace(";", "\n")
                                       + 100_000 * "\n2 2 2 -0.0000009")
    assert main(["check-schedule", base + ".pcpsp", base + ".prec", str(tmp_path / "schedule"),
                 "--most", "1"]) == 1
    assert "broken: block 2 has the share -9e-07" in capsys.readouterr().out


@pytest.mark.parametrize("lines, broken", [("3 0;4 0;0 1", 0), ("3 0;3 1", 1), ("3 0;3 0", 2),
                                           ("0 0;3 0", 1), ("3 0 0.5", 1), ("3 0 -1", 2)])
def test_schedules_of_a_cpit(tmp_path, lines, broken):
    mine = read_instance(one_block_of_mill(tmp_path))
    (tmp_path / "schedule").write_text(lines.replace(";", "\n"))
    found = check(read_schedule(str(tmp_path / "schedule"), mine.cpit), mine.cpit, mine.precedence)
    assert bool(found.broken) == bool(broken) and len(found.broken) >= broken


def test_shares_of_a_cpit_are_heeded(tmp_path):
    mine = read_instance(one_block_of_mill(tmp_path))
    (tmp_path / "schedule").write_text("4 0 0.25\n4 1 0.75\n")
    found = check(read_schedule(str(tmp_path / "schedule"), mine.cpit), mine.cpit, mine.precedence)
    assert (found.worth == pytest.approx(0.25 * 24645 + 0.75 * 24645 / 1.5)
            and len(found.broken) == 2)
    assert check(read_schedule(str(tmp_path / "schedule"), mine.cpit), mine.cpit, mine.precedence,
                 relaxed=True).holds


CBC = """Optimal - objective value 579877.59259300
      0 w0_0                   1                  221940
      1 x0_0                   1                  221940
      4 x3_0                   1                   -5300
      5 x4_0                   1                   24645
"""

GLPSOL = """   No. Column name       Activity     Lower bound   Upper bound
------ ------------    ------------- ------------- -------------
     1 x0_0         *              1             0             1
     2 x3_0         *              1             0             1
     3 x4_0         *              1             0             1
     4 x1_averylongname
                    *              0             0             1
"""


@pytest.mark.parametrize("text", [CBC, GLPSOL])
def test_results_of_solvers_are_read(tmp_path, text):
    mine = read_instance(two_blocks_of_mill(tmp_path))
    (tmp_path / "answer").write_text(text)
    schedule = schedule_of_variables(read_variables(str(tmp_path / "answer")), mine.cpit)
    assert sorted(zip(schedule.block.tolist(), schedule.period.tolist())) == [(0, 0), (3, 0),
                                                                              (4, 0)]
    assert check(schedule, mine.cpit, mine.precedence).holds


def lp_by_hand(text):
    """A reader of the LP format: the objective, rows and integer variables, by names."""
    objective, rows, whole, part = {}, [], set(), None
    for line in text.splitlines():
        if line in ("Maximize", "Subject To", "Bounds", "Binary", "End"):
            part = line
        elif part == "Maximize" and ":" not in line:
            objective.update(terms(line.split()))
        elif part == "Subject To":
            label, _, rest = line.partition(":")
            rows.append([]) if rest or label.startswith(" ") and not label.startswith(
                "  ") else None
            rows[-1] += (rest if ":" in line else line).split()
        elif part == "Binary":
            whole.add(line.strip())
    return objective, [(terms(row[:-2]), row[-2], float(row[-1])) for row in rows], whole


def terms(fields):
    found, factor = {}, 1.0
    for field in fields:
        if field in "+-":
            factor = -1.0 if field == "-" else 1.0
        elif field[0].isdigit():
            factor *= float(field)
        else:
            found[field], factor = factor, 1.0
    return found


@pytest.mark.parametrize("kind, options", [("cpit", []), ("pcpsp", []), ("pcpsp", ["--by-period"]),
                                           ("cpit", ["--relaxed"]), ("upit", [])])
def test_the_text_is_the_program(tmp_path, kind, options):
    """Rows and objective of the LP file are those of the matrices, which are solved above."""
    base = one_block_of_mill(tmp_path)
    mine = read_instance(base)
    out = str(tmp_path / "program.lp")
    assert main(["lp", f"{base}.{kind}", base + ".prec", "--all-arcs", "--out", out, *options]) == 0
    objective, rows, whole = lp_by_hand(open(out).read())
    problem = getattr(mine, kind)
    program = (program_of_upit(problem, mine.precedence) if kind == "upit"
               else program_of(problem, mine.precedence, "--relaxed" in options))
    program = by_period(program) if "--by-period" in options else program
    names = program.names.list()
    assert objective == pytest.approx({name: value for name, value in zip(names, program.objective)
                                       if value}, abs=1e-6)
    assert whole == {name for name, is_complete in zip(names, program.is_integer) if is_complete}
    wanted = []
    for row, low, high in zip(program.rows.toarray(), program.lower, program.upper):
        part = {names[at]: row[at] for at in np.flatnonzero(row)}
        wanted += [(part, "=", low)] if low == high else [
            (part, sign, end) for sign, end in ((">=", low), ("<=", high)) if np.isfinite(end)]
    assert [(part, sign, end) for part, sign, end in rows] == wanted


@pytest.mark.skipif(not shutil.which("glpsol"), reason="no glpsol")
@pytest.mark.parametrize("make, kind, value",
                         [(lambda folder: mines.compiled(
    folder, "\n".join(mines.SIX) + "\n", ["".join(mines.SIX_ROWS.splitlines(True)[:4])]), "upit",
                           221940 + 309420 + 61560), (one_block_of_mill, "upit", 606965),
                          (one_block_of_mill, "cpit", 322498.3333)])
def test_glpsol_takes_the_text(tmp_path, make, kind, value):
    """The first is one bench: without arcs the ultimate pit has no rows."""
    base = make(tmp_path)
    assert main(["lp", f"{base}.{kind}", base + ".prec", "--out", str(tmp_path / "lp")]) == 0
    done = subprocess.run(["glpsol", "--lp", str(tmp_path / "lp"), "--output",
                           str(tmp_path / "answer")], capture_output=True, text=True)
    assert done.returncode == 0 and "OPTIMAL" in done.stdout, done.stdout
    result = re.search(r"Objective: +value = (\S+)", (tmp_path / "answer").read_text())
    assert float(result[1]) == pytest.approx(value, abs=0.01)


@pytest.mark.parametrize("word", ["--relaxed", "--whole", "--by-period"])
def test_a_flow_has_no_periods_and_destinations(tmp_path, capsys, word):
    place = str(tmp_path / "flow")
    assert main(["lp", "--dimacs", word, "a.upit", "a.prec", "--out", place]) == 2
    assert "omit --relaxed" in capsys.readouterr().err and not Path(place).exists()


def test_the_flow_in_dimacs(tmp_path):
    base = mines.six_blocks(tmp_path)
    assert main(["lp", "--dimacs", base + ".upit", base + ".prec", "--out", str(tmp_path / "flow")]) == 0
    lines = (tmp_path / "flow").read_text().splitlines()
    assert lines[:6] == ["p max 8 13", "n 7 s", "n 8 t", "a 7 1 22194000", "a 7 2 30942000",
                         "a 7 3 6156000"]
    assert lines[6:9] == ["a 4 8 530000", "a 7 5 2464500", "a 6 8 530000"]
    assert lines[9:11] == ["a 1 4 61756501", "a 1 5 61756501"] and len(lines) == 16
    tail, head, most = np.array([list(map(int, line.split()[1:])) for line in lines[3:]]).T
    arcs = sparse.csr_matrix((most.astype(np.int32), (tail - 1, head - 1)), shape=(8, 8))
    flow = sparse.csgraph.maximum_flow(arcs, 6, 7).flow_value
    assert most[tail == 7].sum() - flow == 60696500  # the pit's worth in cents: all blocks


def test_bounds_of_the_six_blocks(tmp_path, capsys):
    base = one_block_of_mill(tmp_path)
    assert main(["bounds", base]) == 0
    message = [line.rsplit(maxsplit=1) for line in capsys.readouterr().out.splitlines()]
    assert message == [["all values above 0", "617565.00"], ["the ultimate pit", "606965.00"],
                       ["CPIT, relaxed", "385188.45"], ["PCPSP, relaxed", "474119.63"]]


def test_a_schedule_may_have_what_an_instance_has(tmp_path, capsys):
    base = mines.six_blocks(tmp_path)
    files = [f"{base}.cpit", base + ".prec", base + ".schedule"]
    Path(files[2]).write_bytes("\ufeff% a schedule\r\n3 0\r\n\r\n \t% the next one\n4\t1\n".encode())
    assert main(["check-schedule", *files]) == 0
    assert capsys.readouterr().out.startswith("2 blocks, ")
    for line, message in (("6 0", "line 3: no block below 6: `6 0`"), ("-1 0", "line 3: no block"),
                          ("0 3", "line 3: no period below 3"), ("1e4294967296 0", "line 3: it is not a block"),
                          ("1\0 0", "line 3: it is not a block"), ("x 0", "line 3: it is not a block")):
        Path(files[2]).write_text(f"% a\n3 0\n{line}\n")
        assert main(["check-schedule", *files]) == 2
        assert message in capsys.readouterr().err
    problem, arcs = read_problem(files[0]), read_precedence(files[1])
    for schedule in (Schedule.of([3, 6], [0, 0]), Schedule.of([3, -1], [0, 0]),
                     Schedule.of([3, 2], [0, 3]), Schedule.of([3, 2], [0, 0], [0, 1])):
        with pytest.raises(UserError, match="line 2 of the schedule: no (block|period|destin)"):
            check(schedule, problem, arcs)
    with pytest.raises(UserError, match="the arcs have 5 blocks"):
        check(Schedule.of([3], [0]), problem, arcs[:5, :5])
