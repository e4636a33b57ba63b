"""Solvers over a list of instances: their limits, what is checked, and a bench that continues."""
import csv
import json
import os
import pickle
import shutil
import signal
import subprocess
import sys
import time
from dataclasses import replace
from xml.etree import ElementTree

import numpy as np
import pandas as pd
import pytest
from scipy import sparse

from pit_tools import (Blocks, Instance, Limit, Problem, UltimatePit, UserError, Uses,
                       write_instance)
from pit_tools.cli import main
from pit_tools.benches import limited
from pit_tools.benches.results import profile_of, shown, table_of
from pit_tools.benches.solvers import read_solver, read_solvers

MARK = "PIT_TOOLS_TEST_MARK"


@pytest.fixture
def marked(monkeypatch):
    """Marks what is started, so that what remains of it is found."""
    monkeypatch.setenv(MARK, f"{os.getpid()}-{time.monotonic()}")
    return os.environ[MARK]


def remainder_of(mark):
    """Returns the processes with this mark, except this one and the interpreters of a test."""
    found = []
    for name in filter(str.isdigit, os.listdir("/proc")):
        try:
            with open(f"/proc/{name}/environ", "rb") as file:
                if f"{MARK}={mark}".encode() in file.read() and int(name) != os.getpid():
                    found.append(int(name))
        except OSError:
            pass
    return found


def gone(mark, seconds=10):
    end = time.monotonic() + seconds
    while remainder_of(mark) and time.monotonic() < end:
        time.sleep(0.05)
    return not remainder_of(mark)


def ran(text, scratch, seconds=20, megabytes=None):
    return limited.run([sys.executable, "-c", text], str(scratch), seconds, megabytes)


def test_a_program_that_ends_by_itself(tmp_path):
    found = ran("import time; print('one'); print('last'); time.sleep(0.2); exit(3)", tmp_path)
    assert found.ended == "status 3" and found.printed == "one\nlast\n"
    assert 0.2 <= found.seconds < 15 and found.megabytes > 1
    assert ran("import os; os.kill(os.getpid(), 9)", tmp_path).ended == "signal 9"
    with pytest.raises(UserError, match="no-such-program cannot be run"):
        limited.run(["/no-such-program"], str(tmp_path), 5)


# Starts programs so slowly that they have ended by then.
SLOW_START = ("import subprocess, time\n"
              "from pit_tools.benches import limited\n"
              "class Slow(subprocess.Popen):\n"
              "    def __init__(self, *words, **how):\n"
              "        super().__init__(*words, **how)\n"
              "        time.sleep(0.5)\n"
              "subprocess.Popen = Slow\n"
              "print(limited._Watch(20, None).run(['true']).ended)")


def test_a_program_that_ends_at_once_is_seen():
    with subprocess.Popen([sys.executable, "-c", SLOW_START], stdin=subprocess.PIPE,
                          stdout=subprocess.PIPE, text=True,
                          env={**os.environ, "PYTHONPATH": os.pathsep.join(sys.path)}) as child:
        assert child.stdout.read() == "status 0\n"


# A process in its own session that ignores TERM, whose parent has ended.
HIDDEN = ("import os, signal, time\n"
          "if os.fork() == 0:\n"
          "    os.setsid()\n"
          "    signal.signal(signal.SIGTERM, signal.SIG_IGN)\n"
          "    if os.fork():\n"
          "        os._exit(0)\n"
          "    time.sleep(600)\n"
          "time.sleep(0.5)\n")


@pytest.mark.skipif(not os.path.isdir("/proc/self"), reason="no /proc")
@pytest.mark.parametrize("last, ended", [("time.sleep(600)", "time limit"), ("", "status 0")])
def test_nothing_of_a_program_stays(tmp_path, marked, last, ended):
    begin = time.monotonic()
    assert ran(HIDDEN + last, tmp_path, 3).ended == ended
    assert remainder_of(marked) == [] and time.monotonic() - begin < 30


@pytest.mark.skipif(not os.path.isdir("/proc/self"), reason="no /proc")
def test_memory_is_that_of_all_processes(tmp_path, marked):
    """Each of three has less than the limit."""
    text = ("import os, time\n"
            "for _ in range(2):\n"
            "    if os.fork() == 0: break\n"
            "held = b'1' * 60_000_000\n"
            "time.sleep(600)")
    found = ran(text, tmp_path, 60, 150)
    assert found.ended == "memory limit" and 150 < found.megabytes < 400
    assert remainder_of(marked) == []


@pytest.mark.parametrize("text", [
    "import sys\nfor _ in range(300): sys.stdout.write('x' * 10_000)\nprint('end')",
    "import os\nos.write(1, b'x' * 600_000 + b'end\\n')\nos._exit(0)"], ids=["slowly", "at once"])
def test_what_a_program_prints_is_kept_in_part(tmp_path, text):
    """Also what it printed just before it ended."""
    found = ran(text, tmp_path)
    assert found.ended == "status 0" and found.printed.endswith("end\n")
    assert len(found.printed) <= limited.TAIL


@pytest.mark.skipif(not os.path.isdir("/proc/self"), reason="no /proc")
def test_a_program_ends_with_who_waits_for_it(tmp_path, marked):
    scratch = tmp_path / "scratch"
    scratch.mkdir()
    text = ("import sys; from pit_tools.benches import limited\n"
            f"limited.run([sys.executable, '-c', {HIDDEN + 'time.sleep(600)'!r}], "
            f"{str(scratch)!r}, 600)")
    waiting = subprocess.Popen([sys.executable, "-c", text],
                               env={**os.environ, "PYTHONPATH": os.pathsep.join(sys.path)})
    end = time.monotonic() + 30
    while len(remainder_of(marked)) < 4 and time.monotonic() < end:
        time.sleep(0.05)
    waiting.send_signal(signal.SIGKILL)
    waiting.wait()
    assert gone(marked) and not scratch.exists()


@pytest.mark.parametrize("text, ended", [("", "status 0"), ("time.sleep(600)", "time limit")])
def test_a_program_that_stops_its_supervisor_ends_all_the_same(tmp_path, marked, text, ended):
    stops = "import os, signal, time\nos.kill(os.getppid(), signal.SIGSTOP)\n"
    assert ran(stops + text, tmp_path, 5).ended == ended and remainder_of(marked) == []


def test_a_supervisor_that_is_stopped_again_and_again_is_killed(tmp_path, marked, monkeypatch):
    monkeypatch.setattr(limited, "PATIENCE", 2)
    begin = time.monotonic()
    with pytest.raises(UserError, match="was ended from outside"):
        ran("import os, signal\nwhile True: os.kill(os.getppid(), signal.SIGSTOP)", tmp_path, 1)
    assert gone(marked) and time.monotonic() - begin < 30


# Commands


@pytest.mark.parametrize("text, message", [
    ("cat {cpit}", "neither {out}"), ("cat {lp} {solutions}", "{solutions} is not a placeholder"),
    ("cat {out:>5}", "{out} is not a placeholder"), ("cat {out!r}", "{out} is not a placeholder"),
    ("cat {out", "a literal brace"), ("cat }{out}", "a literal brace"), ("cat {} {out}", "not a placeholder"),
    ("no-such-program {out}", "is missing"), ("cat '{out}", "no closing quotation"),
    ("", "empty command"), ("name=", "neither {out}"), ("x" * 70_000, "more than")])
def test_a_command_that_is_none_is_rejected(text, message):
    with pytest.raises(UserError) as error:
        read_solver(text)
    assert message in str(error.value)


def test_places_are_filled_without_a_shell():
    solver = read_solver("two=cat '{name} {{x}}' '$(touch gone)' {out} *")
    assert solver.name == "two" and solver.places == {"name", "out"}
    values = {"name": "a b; touch gone", "out": "/o"}
    assert solver.filled(values)[1:] == ["a b; touch gone {x}", "$(touch gone)", "/o", "*"]
    by_shell = read_solver("cat {name} > {out}", by_shell=True)
    assert by_shell.filled(values) == ["/bin/sh", "-c", "cat 'a b; touch gone' > /o"]


@pytest.mark.parametrize("text, place", [
    ('cat "{cpit}" > {out}', "cpit"), ("cat {cpit} > '{out}'", "out"),
    ("sh -c 'cat {out}'", "out"), ('cat {out} > "a {out}"', "out")])
def test_a_place_within_quotes_of_a_shell_is_rejected(text, place):
    """Its file would have quotes in its name, or the command would fail, if a path has a
    blank."""
    with pytest.raises(UserError, match=rf"\{{{place}\}} is within quotes"):
        read_solver(text, by_shell=True)
    read_solver(text)
    read_solver("cat \"a b\" {cpit} > {out}.new; mv {out}.new {out} # 'it'", by_shell=True)


def test_a_solver_is_another_one_by_each_of_its_files(tmp_path):
    script = tmp_path / "solver.py"
    script.write_text("1")
    command = f"cat {script} {{out}}"
    first = read_solver(command).sum
    assert read_solver(command).sum == first != read_solver(command + " -v").sum
    script.write_text("2")
    assert read_solver(command).sum != first
    with pytest.raises(UserError, match="two solvers have the name `cat`"):
        read_solvers(["cat {out}", "cat {out} -v"])


# Benches


def instance(folder, name, values=(5.0, -1.0, 3.0)):
    """Three blocks of which the first waits for the second; one a period, two periods."""
    n = len(values)
    blocks = Blocks(*(np.arange(n, dtype=np.int32),) * 3, np.ones(n), np.zeros(n),
                    np.zeros(n, np.int32))
    uses = Uses(np.arange(n, dtype=np.int32), np.zeros(n, np.int8), np.zeros(n, np.int8),
                np.ones(n))
    limits = [Limit.of(0, period, "L", [2.0]) for period in range(2)]
    cpit = Problem("CPIT", name, 2, 1, 0.1, np.array(values)[:, None], uses, limits)
    arcs = sparse.csr_matrix(([1], ([0], [1])), shape=(n, n), dtype=np.int8)
    write_instance(Instance(blocks, arcs, UltimatePit(name, np.array(values)),
                            replace(cpit, kind="PCPSP"), cpit), os.path.join(folder, name))


#: What a solver writes for an instance, by a letter of its name, and the outcome.
SOLVER = """
import os, sys, time
name, out = sys.argv[1:3]
text = {"a": "0 0\\n1 0\\n2 1\\n", "b": "2 0\\n", "c": "0 0\\n", "d": "0 9\\n", "e": ""}
with open("calls", "a") as file:
    file.write(name + "\\n")
if os.path.exists("killing") and name == "c1":
    os.remove("killing")
    os.kill(int(open(f"/proc/{os.getppid()}/stat").read().rpartition(")")[2].split()[1]), 9)
    time.sleep(60)
if "e" in name:
    sys.exit("nothing is found")
with open(out, "w") as file:
    file.write(text[name[0]])
"""

NAMES = ["a1", "b1", "c1", "d1", "e1", "a2"]


@pytest.fixture
def here(tmp_path, monkeypatch):
    monkeypatch.chdir(tmp_path)
    for name in NAMES:
        instance(".", name)
    (tmp_path / "LIST").write_text("a1\nb1.plan x.csv\n\n# none\nc1\nd1\n./e1\na2")
    (tmp_path / "solver.py").write_text(SOLVER)
    return tmp_path


COMMAND = f"mine={sys.executable} solver.py {{name}} {{out}}"


def bench(*words):
    return main(["bench", "LIST", "--solver", COMMAND, "--bounds", "0", "--seconds", "900", *words])


def rows(base="bench", timed=False):
    with open(f"{base}.csv") as file:
        found = list(csv.DictReader(file))
    for row in found if not timed else []:
        del row["seconds"], row["cpu_seconds"], row["megabytes"]
    return found


def calls():
    with open("calls") as file:
        found = file.read().split()
    os.remove("calls")
    return found


def test_what_solvers_find_is_judged(here, capsys):
    # The worth of the best: 5 - 1 in period 0, 3 / 1.1 in period 1.
    other = f"other={sys.executable} -c 'open(\"{{out}}\", \"w\").write(\"0 0\\n1 0\\n2 1\\n\")'"
    assert main(["bench", "LIST", "--solver", COMMAND, "--solver", other, "--bounds", "3000"]) == 0
    found = {(row["name"], row["solver"]): row for row in rows()}
    assert [tuple(found[name, "mine"][cell] for cell in ("ended", "schedule", "worth", "best"))
            for name in NAMES] == [
        ("status 0", "feasible", "6.73", "yes"), ("status 0", "feasible", "3.00", "no"),
        ("status 0", "violated", "5.00", "no"), ("status 0", "unreadable", "", "no"),
        ("status 1", "none", "", "no"), ("status 0", "feasible", "6.73", "yes")]
    assert [found[name, "mine"]["message"] for name in NAMES] == [
        "", "", "block 0 is mined in period 0, before block 1",
        "{out}: line 1: no period below 2: `0 9`", "nothing is found", ""]
    # The relaxation takes 3 and the half of 5 - 1 in period 0, the other half in period 1.
    assert {row["bound"] for row in found.values()} == {"6.82"}
    assert found["b1", "mine"]["gap"] == f"{1 - 3 / (5 + 2 / 1.1):.6f}"
    assert "mine: 3 of 6 feasible, 2 best" in capsys.readouterr().out
    root = ElementTree.parse("bench.svg").getroot()
    assert root.tag.endswith("svg") and not os.path.exists("bench.parquet")
    with open("bench.sums") as file:
        assert {line.split()[1] for line in file if line[0] != "#"} >= {
            "bench.csv", "bench.svg", "LIST", "a1.cpit", "a1.prec"}


def test_a_bench_continues_from_its_cut(here, capsys):
    assert bench() == 0
    whole = open("bench.csv").read()
    assert calls() == NAMES and bench("--continue") == 0 and not os.path.exists("calls")
    assert open("bench.csv").read() == whole
    lines = open("bench.runs").read().splitlines(True)
    with open("bench.runs", "w") as file:
        file.writelines([*lines[:4], lines[4][:40]])
    before = rows()
    assert bench("--continue") == 0 and calls() == NAMES[3:] and rows() == before
    assert "6 of 6 runs, 3 of them kept" in capsys.readouterr().out


def test_what_was_changed_is_run_again(here, capsys):
    assert bench() == 0 and calls() == NAMES
    instance(".", "b1", (5.0, -1.0, 4.0))
    assert bench("--continue") == 0 and calls() == ["b1"] and rows()[1]["worth"] == "4.00"
    with open("solver.py", "a") as file:
        file.write("\n")
    assert bench("--continue") == 0 and calls() == NAMES
    assert bench("--continue", "--seconds", "9") == 2 and not os.path.exists("calls")
    assert "its limits, problem or tool differ" in capsys.readouterr().err


def test_the_record_that_was_written_last_counts(here):
    assert bench() == 0
    # As a file that is being written, and goes before it is looked at.
    os.symlink("gone", "bench.runs-1-of-2.part")
    with open("bench.runs") as file:
        lines = [json.loads(line) for line in file]
    for path, worth in (("bench.runs-1-of-2", 1.0), ("bench.runs", 2.0)):
        for line in lines[1:]:
            line["cells"]["worth"] = worth
        with open(path, "w") as file:
            file.writelines(json.dumps(line) + "\n" for line in lines)
    os.utime("bench.runs-1-of-2", (1e9, 1e9))
    assert bench("--continue") == 0 and rows()[0]["worth"] == "2.00"
    os.utime("bench.runs", (1e8, 1e8))
    assert bench("--continue") == 0 and rows()[0]["worth"] == "1.00"


def test_a_killed_worker_and_a_bench_that_continues(here, capsys):
    assert bench() == 0
    wanted = rows()
    for name in ("bench.runs", "bench.csv", "calls"):
        os.remove(name)
    open("killing", "w").close()
    assert bench("--jobs", "2") == 2 and not os.path.exists("bench.csv")
    assert "was ended from outside" in capsys.readouterr().err
    assert bench("--jobs", "2", "--continue") == 0 and rows() == wanted
    assert [name for name in os.listdir(".") if ".running-" in name] == []


def test_parts_are_joined(here, capsys):
    assert bench() == 0
    wanted, names = rows(), set(os.listdir("."))
    shutil.copytree(".", "../copy", ignore=lambda *_: ["bench.runs"])
    assert bench("--out", "parts", "--part", "1/2") == 0 and not os.path.exists("parts.csv")
    os.chdir("../copy")
    assert bench("--out", "parts", "--part", "2/2") == 0
    os.chdir(here)
    assert bench("--out", "parts", "--join", ".") == 1 and "no part has it" in \
        capsys.readouterr().err
    assert bench("--out", "parts", "--join", ".", "../copy") == 0 and rows("parts") == wanted
    assert names < set(os.listdir("."))


def test_a_bench_stops_if_nothing_succeeds(here, capsys):
    with open("LIST", "w") as file:
        file.write("c1\nd1\ne1\n")
    assert bench("--stop-at", "2") == 1 and calls() == ["c1", "d1"]
    assert "stopped: 2 failed" in capsys.readouterr().err
    with open("LIST", "w") as file:
        file.write("a1\nc1\nd1\ne1\n")
    assert bench("--stop-at", "2") == 0 and calls() == ["a1", "c1", "d1", "e1"]


@pytest.mark.parametrize("text, message", [("a1\na1.plan\n", "line 2: `a1` appears twice"),
                                           ("a1 'b\n", "line 1: no closing"), ("\n", "no line"),
                                           ("none\n", "none.cpit is missing")])
def test_a_list_that_is_none_is_rejected(here, capsys, text, message):
    with open("LIST", "w") as file:
        file.write(text)
    assert bench() == 2 and message in capsys.readouterr().err and not os.path.exists("calls")


@pytest.mark.parametrize("ending", [".csv", ".parquet", ".svg"])
def test_a_file_of_another_kind_is_rejected_before_any_run(here, capsys, ending):
    with open(f"mine{ending}", "w") as file:
        file.write("x,y,z,tonnes,grade\n")
    assert bench("--out", "mine") == 2 and not os.path.exists("calls")
    assert f"mine{ending}: the file there is of another kind" in capsys.readouterr().err
    shutil.copy("LIST", "list.csv")
    assert main(["bench", "list.csv", "--solver", COMMAND, "--out", "list"]) == 2
    assert "this command reads it" in capsys.readouterr().err and not os.path.exists("calls")


def test_a_schedule_of_endless_lines_is_none(here, monkeypatch):
    monkeypatch.setattr("pit_tools.schedules.files.MOST_LINES", 1000)
    command = f"mine={sys.executable} -c 'open(\"{{out}}\", \"w\").write(\"0 0 0\\n\" * 1001)'"
    assert main(["bench", "LIST", "--solver", command, "--bounds", "0"]) == 0
    assert {(row["schedule"], row["message"]) for row in rows()} == {
        ("unreadable", "{out}: line 1001: it has more than 1,000 lines: give one for each block, "
                       "period and destination")}


def test_an_empty_schedule_mines_nothing_unless_its_solver_failed(here):
    failing = f"failing={sys.executable} -c 'open(\"{{out}}\", \"w\"); exit(1)'"
    assert main(["bench", "LIST", "--solver", "none=cp /dev/null {out}", "--solver", failing,
                 "--bounds", "0"]) == 0
    assert {(row["solver"], row["schedule"], row["worth"]) for row in rows()} == {
        ("none", "feasible", "0.00"), ("failing", "none", "")}


def test_the_table_in_parquet_has_the_rows_of_the_text(here, capsys, monkeypatch):
    """A function takes the part of a package for Parquet, which few machines have."""
    with monkeypatch.context() as patched:
        patched.setattr(pd.DataFrame, "to_parquet",
                        lambda frame, path=None, index=None: b"PAR1" + pickle.dumps((frame, index)))
        assert bench() == 0 and "parquet" not in capsys.readouterr().err
    with open("bench.parquet", "rb") as file:
        assert file.read(4) == b"PAR1"
        table, index = pickle.load(file)
    assert shown(table).astype(str).to_dict("records") == rows(timed=True) and index is False
    assert table["best"].dtype == bool and table["worth"].dtype == table["gap"].dtype == float
    with open("bench.sums") as file:
        assert "  bench.parquet\n" in file.read()

    def misses(frame, path=None, index=None):
        raise ImportError("no engine")
    monkeypatch.setattr(pd.DataFrame, "to_parquet", misses)
    assert bench("--continue") == 0 and not os.path.exists("bench.parquet")
    assert capsys.readouterr().err == (
        "pit-tools bench: bench.parquet is not written: no package that reads and writes "
        "Parquet is installed: install pyarrow (python3 -m pip install pyarrow)\n")


def test_the_pit_that_bounds_is_of_the_values_of_the_problem(here, monkeypatch):
    """The UPIT may have smaller ones, in files of other makers."""
    with open("a1.upit") as file:
        text = file.read()
    with open("a1.upit", "w") as file:
        file.write(text.replace("5", "1"))
    with open("LIST", "w") as file:
        file.write("a1")
    monkeypatch.setattr("pit_tools.benches.running.bounds_of",
                        lambda *_: {"CPIT, relaxed": None})
    assert bench("--bounds", "9") == 0
    assert [(row["bound"], row["bound_of"]) for row in rows()] == [("7.00", "pit")]


def test_a_file_that_a_solver_changes_is_reported(here, capsys):
    command = f"bad={sys.executable} -c 'open(\"{{cpit}}\", \"a\").write(\"\\n\")' {{out}}"
    assert main(["bench", "LIST", "--solver", command, "--bounds", "0"]) == 1
    assert "bad on a1: a file of the instance was changed during the run" in capsys.readouterr().err


def test_profiles_are_by_the_fewest_seconds():
    def cells(seconds, worth, ended="status 0", schedule="feasible"):
        return {"ended": ended, "schedule": schedule, "worth": worth, "seconds": seconds}

    table = table_of(["p", "q", "r"], ["s", "t"], {
        ("s", "p"): cells(2.0, 10.0), ("t", "p"): cells(3.0, 10.0005),
        ("s", "q"): cells(4.0, 9.0), ("t", "q"): cells(1.0, 8.0),
        ("s", "r"): cells(5.0, 7.0, "time limit"), ("t", "r"): cells(4.0, 7.0)}, 1e-4)
    profiles = profile_of(table)
    assert profiles["s"].tolist() == [1.0, 1.0] and profiles["t"].tolist() == [1.0, 1.5]


@pytest.mark.skipif(not shutil.which("glpsol") or not shutil.which("cbc"), reason="no solvers")
@pytest.mark.parametrize("problem", ["cpit", "pcpsp"])
def test_glpsol_and_cbc(here, problem):
    with open("LIST", "w") as file:
        file.write("a1\nb1\n")
    assert main(["bench", "LIST", "--solver", "cbc {lp} solve solution {solution}", "--solver",
                 "glpk=glpsol --lp {lp-by-period} --output {solution}", "--problem", problem,
                 "--seconds", "600", "--bounds", "3000"]) == 0
    assert [(row["schedule"], row["worth"], row["gap"], row["best"]) for row in rows()] == [
        ("feasible", "6.73", "0.013333", "yes")] * 4


def test_a_cluster_of_dask_gives_the_same_table(here):
    distributed = pytest.importorskip("distributed")
    assert bench() == 0
    wanted = rows()
    with distributed.LocalCluster(n_workers=2, threads_per_worker=1, processes=True,
                                  dashboard_address=None) as cluster:
        assert bench("--out", "dealt", "--scheduler", cluster.scheduler_address) == 0
    assert rows("dealt") == wanted
