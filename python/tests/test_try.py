"""`try`, the command with which a newcomer begins, in a copy of the tree that has a space in
its path."""
from __future__ import annotations

import os
import shutil
import subprocess
import sys
from pathlib import Path

import pytest

from mines import SIX, SIX_ROWS, TOP
import plain
from pit_tools.instances.files import TEXTS

MARK = "computed by the Python definition, not by pitc: no proof covers it"

#: Programs that the system has; the toolchain and an installed pitc are elsewhere.
SYSTEM = "/usr/bin:/bin"


@pytest.fixture(name="top")
def a_tree(tmp_path):
    """A tree like a clone, in which nothing is built."""
    top = tmp_path / "a clone"
    top.mkdir()
    shutil.copy(os.path.join(TOP, "try"), top / "try")
    for folder in ("examples", "python", "tools"):
        (top / folder).symlink_to(os.path.join(TOP, folder))
    return top


def ended(top: Path, *words: str, folder: Path | None = None, path: str = SYSTEM):
    """Returns how `try` of a tree ends, called from a folder with a PATH."""
    return subprocess.run([top / "try", *words], cwd=folder or top, env={**os.environ, "PATH": path},
                          capture_output=True, text=True, check=False)


def rejected_in_a_line(done) -> str:
    """Returns the one line with which a run was refused, with status 2 and no output."""
    assert (done.returncode, done.stdout, done.stderr.count("\n")) == (2, "", 1), done
    return done.stderr


@pytest.mark.parametrize("words", [["planer"], ["planner", "mine"], [""], ["-x"]])
def test_other_arguments_are_rejected(top, words):
    assert "arguments are none, planner or --help" in rejected_in_a_line(ended(top, *words))


def test_without_a_program_and_a_toolchain_nothing_runs(top):
    assert "there is no rt" in rejected_in_a_line(ended(top))


def test_a_tree_without_examples_is_rejected(top):
    (top / "examples").unlink()
    assert "run try in a complete clone" in rejected_in_a_line(ended(top))


@pytest.fixture(name="other")
def another_program(tmp_path):
    """A folder with another program that is called pitc."""
    (tmp_path / "pitc").write_text("#!/bin/sh\necho pit-cake 3\n")
    (tmp_path / "pitc").chmod(0o755)
    return tmp_path


def test_another_program_in_the_path_is_not_run(top, other):
    done = ended(top, path=f"{other}:{SYSTEM}")
    assert (done.returncode, done.stdout) == (2, "")
    assert f"{other}/pitc is another program" in done.stderr and "there is no rt" in done.stderr


def test_a_built_program_that_does_not_run_is_rejected(top, other):
    (top / "crates/pitc/out").mkdir(parents=True)
    (other / "pitc").rename(top / "crates/pitc/out/pitc")
    assert "does not run here: build it again" in rejected_in_a_line(ended(top))


def test_packages_that_are_missing_are_named(top, tmp_path):
    """With a python3 that has no package, for a user who may not install any."""
    tools = tmp_path / "bin"
    tools.mkdir()
    for name in ("sh", "dirname", "readlink", "id", "env", "cat"):
        (tools / name).symlink_to(shutil.which(name))
    (top / "python").unlink()
    (top / "python").mkdir()
    (top / "python/pit-tools").write_text("#!/bin/sh\nexit 2\n")
    (top / "python/pit-tools").chmod(0o755)
    (tools / "python3").symlink_to("/usr/bin/python3")
    message = rejected_in_a_line(ended(top, "planner", path=str(tools)))
    assert "apt-get install --yes --no-install-recommends g++ python3-pandas" in message
    assert not list(top.glob("first-mine*"))


def test_the_built_program_prints_the_instance(top, pitc, tmp_path):
    (top / "crates/pitc/out").mkdir(parents=True)
    (top / "crates/pitc/out/pitc").symlink_to(pitc)
    texts = plain.compiled("\n".join(SIX) + "\n", [SIX_ROWS])
    done = ended(top, folder=tmp_path)
    assert done.stdout == "".join(f"== {name}\n{texts[name]}" for name in TEXTS)
    assert done.returncode == 0 and "which proved it first" in done.stderr


def test_the_planners_way_ends_at_a_pit_and_marks_what_is_not_proved(top, tmp_path):
    mine = tmp_path / "first-mine"
    mine.mkdir()
    (mine / "notes").write_text("kept")
    done = ended(top, "planner", folder=tmp_path)
    assert done.returncode == 0, done.stderr
    assert [path.name for path in mine.iterdir()] == ["notes"]
    made = tmp_path / "first-mine-2"
    assert f"{made}/survey.html" in done.stderr and "UNPROVED" in done.stderr
    assert f"rows 4157\nNOTE: {MARK}\n" in done.stdout
    assert "2426 blocks, 25796870.238 t, worth 1509506860.53 USD\n" in done.stdout
    for text in TEXTS:
        assert (made / f"mine.{text}").read_text().startswith(f"% {MARK}\n")
    assert (made / "survey.html").read_text().count(MARK) > 1
    assert (made / "export-pit.csv").read_text().startswith("BLOCK,")


def test_the_planners_way_with_the_program_gives_the_same_instance(top, pitc, tmp_path):
    done = ended(top, "planner", folder=tmp_path, path=f"{os.path.dirname(pitc)}:{SYSTEM}")
    assert done.returncode == 0, done.stderr
    assert "UNPROVED" not in done.stderr and MARK not in done.stdout
    mine = tmp_path / "first-mine"
    assert MARK not in (mine / "survey.html").read_text()
    zones = [str(mine / f"from-{zone}.csv") for zone in ("west", "east", "oxide")]
    definition = ["compile", "--plan", str(mine / "mine.plan"), "--out", str(mine / "again"), *zones]
    subprocess.run([sys.executable, top / "examples/definition.py", *definition], check=True,
                   env={**os.environ, "PYTHONPATH": str(top / "python")}, stdout=subprocess.DEVNULL)
    for text in TEXTS:
        assert (mine / f"again.{text}").read_text() == (
            f"% {MARK}\n" + (mine / f"mine.{text}").read_text()), text


STATE = '"$PWD $PATH ${LC_ALL-none} ${zones-none} ${begun-none}"'
BEGIN = f'before={STATE}; . examples/begin.sh; echo "status $?"; [ "$before" = {STATE} ] && echo unchanged'


@pytest.mark.parametrize("pitc_status, tool_status, message", [
    (None, 0, "no pitc is built here or installed"),
    (0, None, "no pit-tools is here or installed"),
    (0, 2, "needs a python3 with pandas"),
    (1, 0, "the example deposit does not compile")])
def test_recipes_that_cannot_begin_leave_the_shell_unchanged(tmp_path, pitc_status, tool_status, message):
    """`pit-tools --version` ends with 2 if no python3 has its packages."""
    (tmp_path / "examples").symlink_to(os.path.join(TOP, "examples"))
    (tmp_path / "bin").mkdir()
    for name, status in (("pitc", pitc_status), ("pit-tools", tool_status)):
        if status is not None:
            (tmp_path / "bin" / name).write_text(f"#!/bin/sh\nexit {status}\n")
            (tmp_path / "bin" / name).chmod(0o755)
    done = subprocess.run(["sh", "-c", BEGIN], cwd=tmp_path, env={"PATH": SYSTEM}, capture_output=True, text=True, check=False)
    assert done.stdout == "status 1\nunchanged\n"
    assert message in done.stderr and done.stderr.count("\n") == 1
    assert not (tmp_path / "work").exists()


def test_recipes_begin_without_older_work(tmp_path):
    (tmp_path / "examples").symlink_to(os.path.join(TOP, "examples"))
    (tmp_path / "python").symlink_to(os.path.join(TOP, "python"))
    (tmp_path / "bin").mkdir()
    (tmp_path / "bin/pitc").write_text(f'#!/bin/sh\nPYTHONPATH={TOP}/python exec {sys.executable} {TOP}/examples/definition.py "$@"\n')
    (tmp_path / "bin/pitc").chmod(0o755)
    done = subprocess.run(["sh", "-c", ". examples/begin.sh; pwd; ls $zones; cd ..; . examples/begin.sh; pwd"],
                          cwd=tmp_path, env={"PATH": SYSTEM}, capture_output=True, text=True, check=False)
    assert done.stdout.splitlines() == ["rows 4157", f"NOTE: {MARK}", f"{tmp_path}/work", "deposit-east.csv", "deposit-oxide.csv",
                                        "deposit-west.csv", str(tmp_path)]
    assert done.stderr == "begin.sh: cannot make the folder work here: if there is one, remove it or go elsewhere\n"
